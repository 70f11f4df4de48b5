/*
 * The hashes that are compared: ours on both paths, plain C, and the libraries that were found when this was built.
 */
#ifndef BENCH_PEERS_H
#define BENCH_PEERS_H

#include "found.h" /* written by run: HAVE_BEARSSL, HAVE_LIBGCRYPT, HAVE_OPENSSL, each the package's version */
#include "inputs.h"
#include "links.h"

enum {
    FAST,
    PLAIN,
    PLAIN_C,
    BEARSSL_CTMUL64,
    BEARSSL_CTMUL,
    LIBGCRYPT,
    OPENSSL_WITHOUT,
    OPENSSL_WITH,
    PEERS
};

/*
 * hash gives the GHASH of a message. Where aes is not NULL the peer is a GMAC: hash gives the tag, and aes is the AES
 * work in that call alone (key schedule, then the zero block and the first counter block).
 * A peer that cannot be measured has missing: the reason. One in a process of its own has remote set.
 */
typedef void hash_function(const struct key *key, const struct message *message, uint8_t out[16]);
typedef void aes_function(const struct key *key, uint8_t out[32]);

struct peer {
    const char *name;
    const char *missing;
    hash_function *hash;
    aes_function *aes;
    int remote;
};

extern struct peer peers[PEERS];

/* Starts the libraries, and marks those that cannot be measured as missing. */
void peers_start(void);

/* The processor time of so many calls, each with the next key. */
double time_hashes(hash_function *hash, const struct inputs *inputs, int length, long calls);
double time_aes(aes_function *aes, const struct inputs *inputs, long calls);

/* Prints the libraries' versions, one a line, as a Markdown list. */
void peers_versions(void);

/* Each library's file gives these. A start returns NULL, or why the library cannot be measured. */
hash_function bearssl_ctmul64, bearssl_ctmul;

const char *libgcrypt_start(void);
const char *libgcrypt_version(void);
hash_function libgcrypt_hash;
aes_function libgcrypt_aes;

const char *openssl_start(void);
const char *openssl_version(void);
hash_function openssl_hash;
aes_function openssl_aes;
/* All links, with the key set once; and the AES work in that alone (key schedule, then a block for each link). */
links_function openssl_links, openssl_links_aes;
/* Whether OpenSSL will use PCLMULQDQ: 1, 0, or -1 where there is no such question (not an x86 processor). */
int openssl_pclmulqdq(void);

#endif
