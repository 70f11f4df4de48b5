/*
 * Makes the links, and checks and times who checks them.
 */
#include "links.h"

#include <string.h>

#include "measure.h"
#include "peers.h"
#include "plain.h"

enum { SEED = 1 };

/* For a hash that takes the length block as data. */
static void hash_with_length(hash_function *hash, const struct key *key, const uint8_t claim[16], uint8_t out[16])
{
    uint8_t bytes[32] = {[23] = 128};
    memcpy(bytes, claim, 16);
    hash(key, &(struct message){16, bytes}, out);
}

static void plain_claim(const struct key *key, const uint8_t claim[16], uint8_t out[16])
{
    hash_with_length(plain_ghash, key, claim, out);
}

static void bearssl_claim(const struct key *key, const uint8_t claim[16], uint8_t out[16])
{
    hash_with_length(peers[BEARSSL_CTMUL64].hash, key, claim, out);
}

static void fast_claim(const struct key *key, const uint8_t claim[16], uint8_t out[16])
{
    expect_done(rvghash_ghash_fast(key->hash, 16, claim, 16, NULL, 0, out, 16));
}

void check_each(claim_function *hash, const struct links *l, uint8_t results[LINKS])
{
    for (size_t i = 0; i < LINKS; i++) {
        const uint8_t *record = l->records + i * RVGHASH_LINK_BYTES;
        uint8_t out[16];
        hash(&l->key, record, out);
        results[i] = memcmp(out, record + 16, 16) == 0;
    }
}

static void one_call(const struct links *l, uint8_t results[LINKS])
{
    expect_done(rvghash_check_links(l->key.hash, 16, l->records, sizeof l->records, results, LINKS));
}

static void fast_each(const struct links *l, uint8_t results[LINKS]) { check_each(fast_claim, l, results); }
static void bearssl_each(const struct links *l, uint8_t results[LINKS]) { check_each(bearssl_claim, l, results); }

const struct checker checkers[CHECKERS] = {
    [CHECK_LINKS] = {"rvghash_check_links, one call", FAST, one_call},
    [FAST_LINKS] = {"rvghash_ghash_fast, a call a record", FAST, fast_each},
    [BEARSSL_LINKS] = {"BearSSL ctmul64, a call a record", BEARSSL_CTMUL64, bearssl_each},
    [OPENSSL_LINKS] = {"OpenSSL without PCLMULQDQ, a tag a record", OPENSSL_WITHOUT, NULL},
};

static void flip(uint8_t *bytes, uint64_t bit) { bytes[bit / 8] ^= (uint8_t)(1 << bit % 8); }

void links_make(struct links *l, const struct key *key)
{
    uint64_t seed = SEED;
    size_t wrong = LINKS / 2; /* so many of those that are left are to be wrong */
    l->key = *key;
    for (size_t i = 0; i < LINKS; i++) {
        uint8_t *record = l->records + i * RVGHASH_LINK_BYTES;
        random_fill(&seed, record, 16);
        plain_claim(key, record, record + 16);
        if (random_next(&seed) % (LINKS - i) < wrong) {
            flip(record, random_next(&seed) % (8 * RVGHASH_LINK_BYTES));
            wrong--;
        }
    }
    check_each(plain_claim, l, l->expected);
}

int links_agree(links_function *check, const struct links *l)
{
    uint8_t results[LINKS];
    memset(results, 2, sizeof results); /* no result: one that is not written is found */
    check(l, results);
    return memcmp(results, l->expected, sizeof results) == 0;
}

double time_links(links_function *check, const struct links *l, long calls)
{
    uint8_t results[LINKS];
    double start = clock_ns();
    for (long i = 0; i < calls; i++)
        check(l, results);
    return clock_ns() - start;
}
