/*
 * Many links under one key, and who checks them: one call of rvghash_check_links, and peers with one hash a record.
 */
#ifndef BENCH_LINKS_H
#define BENCH_LINKS_H

#include "inputs.h"
#include "rvghash.h"

enum { LINKS = 10000 };

/* expected: the results by document 01's rules in plain C. */
struct links {
    struct key key;
    uint8_t records[LINKS * RVGHASH_LINK_BYTES], expected[LINKS];
};

/* Half of the records agree; each of the others has one bit wrong. In every process a key has the same ones. */
void links_make(struct links *l, const struct key *key);

/* Writes the result of each record. */
typedef void links_function(const struct links *l, uint8_t results[LINKS]);

/* The hash of a claim block. */
typedef void claim_function(const struct key *key, const uint8_t claim[16], uint8_t out[16]);

/* The peers' loop: hashes one claim block after the other, and compares. */
void check_each(claim_function *hash, const struct links *l, uint8_t results[LINKS]);

enum { CHECK_LINKS, FAST_LINKS, BEARSSL_LINKS, OPENSSL_LINKS, CHECKERS };

struct checker {
    const char *name;
    int peer;              /* without which it is missing */
    links_function *check; /* NULL: in a process of its own */
};

extern const struct checker checkers[CHECKERS];

/* Whether the results are the expected ones. */
int links_agree(links_function *check, const struct links *l);

/* The processor time of so many times all records. */
double time_links(links_function *check, const struct links *l, long calls);

#endif
