/*
 * Everything that one run measures.
 */
#ifndef BENCH_PLAN_H
#define BENCH_PLAN_H

#include <stdio.h>

#include "inputs.h"
#include "links.h"
#include "measure.h"
#include "peers.h"
#include "products.h"
#include "traces.h"
#include "words.h"

/* One peer and one message length; the AES part alone has no length. */
struct hash_case {
    const struct inputs *inputs;
    const struct peer *peer;
    int length;
};

struct plan {
    int rounds;
    double batch_ns;
    long records; /* of a trace */
    struct inputs inputs;
    struct hash_case hash_cases[PEERS][LENGTHS];
    struct item hash[PEERS][LENGTHS], aes[PEERS];
    struct word_case word_cases[WORDS][CASES];
    struct item word[WORDS][CASES], earlier[WORDS][CASES], group_products;
    struct triples triples;
    struct item fast_product, plain_product, c_product, step_back, c_clmul;
    struct trace traces[TRACES];
    struct item replay[TRACES], loop[TRACES];
    struct links links;
    struct item checker[CHECKERS], links_aes;
};

/* The tables, as Markdown. */
void report(const struct plan *plan);

/* Throughput by message length, a line each: name, bytes, MiB/s, with tabs between. */
void report_sweep(const struct plan *plan, FILE *to);

#endif
