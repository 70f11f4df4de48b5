/*
 * Single products and the step back, each call with a new key and new blocks.
 */
#ifndef BENCH_PRODUCTS_H
#define BENCH_PRODUCTS_H

#include <stdint.h>

enum { TRIPLES = 1024 }; /* enough that a processor does not learn their branches by heart */

struct triple {
    uint8_t key[16], block[16], later[16];
};

struct triples {
    struct triple at[TRIPLES];
};

void triples_make(struct triples *t, uint64_t *seed);

/* Whether the products equal plain C's, and each step back leads to later again by plain C's product. */
int products_agree(const struct triples *t);

/* The processor time of so many calls, on struct triples. */
double fast_product_batch(const void *triples, long calls);
double plain_product_batch(const void *triples, long calls);
double c_product_batch(const void *triples, long calls);
double step_back_batch(const void *triples, long calls);
double c_clmul_batch(const void *triples, long calls);

#endif
