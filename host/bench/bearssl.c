/*
 * BearSSL's portable GHASH functions. They use no hardware features, and there is nothing to turn off.
 */
#include <bearssl.h>
#include <string.h>

#include "peers.h"

/* Message and length block in one call, the cheapest way to the whole hash. */
static void run(br_ghash ghash, const struct key *key, const struct message *m, uint8_t out[16])
{
    memset(out, 0, 16);
    ghash(out, key->hash, m->bytes, m->length + 16);
}

void bearssl_ctmul64(const struct key *key, const struct message *m, uint8_t out[16])
{
    run(br_ghash_ctmul64, key, m, out);
}

void bearssl_ctmul(const struct key *key, const struct message *m, uint8_t out[16])
{
    run(br_ghash_ctmul, key, m, out);
}
