/*
 * The list of peers, with a reason in place of those whose library was not found.
 */
#include "peers.h"

#include <stdio.h>

#include "measure.h"
#include "plain.h"
#include "rvghash.h"

static void fast(const struct key *key, const struct message *m, uint8_t out[16])
{
    expect_done(rvghash_ghash_fast(key->hash, 16, m->bytes, m->length, NULL, 0, out, 16));
}

static void plain(const struct key *key, const struct message *m, uint8_t out[16])
{
    expect_done(rvghash_ghash_plain(key->hash, 16, m->bytes, m->length, NULL, 0, out, 16));
}

#ifdef HAVE_BEARSSL
#define BEARSSL(hash) NULL, hash, NULL, 0
#else
#define BEARSSL(hash) "the package libbearssl-dev is missing", NULL, NULL, 0
#endif

#ifdef HAVE_LIBGCRYPT
#define LIBGCRYPT_PEER NULL, libgcrypt_hash, libgcrypt_aes, 0
#else
#define LIBGCRYPT_PEER "the package libgcrypt20-dev is missing", NULL, NULL, 0
#endif

#ifdef HAVE_OPENSSL
#define OPENSSL(remote) NULL, openssl_hash, openssl_aes, remote
#else
#define OPENSSL(remote) "the package libssl-dev is missing", NULL, NULL, 0
#endif

struct peer peers[PEERS] = {
    [FAST] = {"rvghash, fast path", NULL, fast, NULL, 0},
    [PLAIN] = {"rvghash, plain path", NULL, plain, NULL, 0},
    [PLAIN_C] = {"plain C, bit by bit", NULL, plain_ghash, NULL, 0},
    [BEARSSL_CTMUL64] = {"BearSSL ctmul64", BEARSSL(bearssl_ctmul64)},
    [BEARSSL_CTMUL] = {"BearSSL ctmul", BEARSSL(bearssl_ctmul)},
    [LIBGCRYPT] = {"libgcrypt, hardware features off", LIBGCRYPT_PEER},
    [OPENSSL_WITHOUT] = {"OpenSSL without PCLMULQDQ", OPENSSL(1)},
    [OPENSSL_WITH] = {"OpenSSL with PCLMULQDQ", OPENSSL(0)},
};

#ifdef HAVE_OPENSSL
static void start_openssl(void)
{
    const char *why = openssl_start();
    if (!why && openssl_pclmulqdq() < 0)
        why = "PCLMULQDQ is an x86 instruction";
    peers[OPENSSL_WITHOUT].missing = why;
    if (!why && openssl_pclmulqdq() == 0)
        why = "PCLMULQDQ is not there, or turned off";
    peers[OPENSSL_WITH].missing = why;
}
#endif

void peers_start(void)
{
#ifdef HAVE_LIBGCRYPT
    peers[LIBGCRYPT].missing = libgcrypt_start();
#endif
#ifdef HAVE_OPENSSL
    start_openssl();
#endif
}

double time_hashes(hash_function *hash, const struct inputs *inputs, int length, long calls)
{
    uint8_t out[16];
    double start = clock_ns();
    for (long i = 0; i < calls; i++)
        hash(&inputs->keys[i % KEYS], &inputs->messages[length], out);
    return clock_ns() - start;
}

double time_aes(aes_function *aes, const struct inputs *inputs, long calls)
{
    uint8_t out[32];
    double start = clock_ns();
    for (long i = 0; i < calls; i++)
        aes(&inputs->keys[i % KEYS], out);
    return clock_ns() - start;
}

void peers_versions(void)
{
#ifdef HAVE_BEARSSL
    printf("- BearSSL: libbearssl-dev %s\n", HAVE_BEARSSL);
#endif
#ifdef HAVE_LIBGCRYPT
    printf("- libgcrypt %s: libgcrypt20-dev %s\n", libgcrypt_version(), HAVE_LIBGCRYPT);
#endif
#ifdef HAVE_OPENSSL
    printf("- %s: libssl-dev %s\n", openssl_version(), HAVE_OPENSSL);
#endif
}
