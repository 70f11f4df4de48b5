/*
 * Checks and times the products and the step back.
 */
#include "products.h"

#include <string.h>

#include "inputs.h"
#include "measure.h"
#include "plain.h"
#include "rvghash.h"

void triples_make(struct triples *t, uint64_t *seed)
{
    for (int i = 0; i < TRIPLES; i++) {
        random_fill(seed, t->at[i].key, 16);
        random_fill(seed, t->at[i].block, 16);
        random_fill(seed, t->at[i].later, 16);
    }
}

static void fast_product(const struct triple *t, uint8_t out[16])
{
    expect_done(rvghash_product_fast(t->key, 16, t->block, 16, out, 16));
}

static void plain_path_product(const struct triple *t, uint8_t out[16])
{
    expect_done(rvghash_product_plain(t->key, 16, t->block, 16, out, 16));
}

static int steps_back(const struct triple *t)
{
    uint8_t y[16], again[16];
    if (rvghash_step_back(t->key, 16, t->block, 16, t->later, 16, y, 16) != RVGHASH_DONE)
        return 0;
    for (int k = 0; k < 16; k++)
        y[k] ^= t->block[k];
    plain_product(t->key, y, again);
    return memcmp(again, t->later, 16) == 0;
}

int products_agree(const struct triples *t)
{
    for (int i = 0; i < TRIPLES; i++) {
        uint8_t expected[16], fast[16], plain[16];
        plain_product(t->at[i].key, t->at[i].block, expected);
        fast_product(&t->at[i], fast);
        plain_path_product(&t->at[i], plain);
        if (memcmp(fast, expected, 16) || memcmp(plain, expected, 16) || !steps_back(&t->at[i]))
            return 0;
    }
    return 1;
}

static void c_product(const struct triple *t, uint8_t out[16]) { plain_product(t->key, t->block, out); }

static void step_back(const struct triple *t, uint8_t out[16])
{
    expect_done(rvghash_step_back(t->key, 16, t->block, 16, t->later, 16, out, 16));
}

static void c_clmul(const struct triple *t, uint8_t out[16])
{
    uint64_t a, b, halves[2];
    memcpy(&a, t->key, 8);
    memcpy(&b, t->block, 8);
    plain_clmul(a, b, &halves[0], &halves[1]);
    memcpy(out, halves, 16);
}

static double batch(void (*one)(const struct triple *t, uint8_t out[16]), const struct triples *t, long calls)
{
    uint8_t out[16];
    double start = clock_ns();
    for (long i = 0; i < calls; i++)
        one(&t->at[i % TRIPLES], out);
    return clock_ns() - start;
}

double fast_product_batch(const void *triples, long calls) { return batch(fast_product, triples, calls); }
double plain_product_batch(const void *triples, long calls) { return batch(plain_path_product, triples, calls); }
double c_product_batch(const void *triples, long calls) { return batch(c_product, triples, calls); }
double step_back_batch(const void *triples, long calls) { return batch(step_back, triples, calls); }
double c_clmul_batch(const void *triples, long calls) { return batch(c_clmul, triples, calls); }
