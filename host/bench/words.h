/*
 * The eight words, each at the settings at which it is timed; the carry-less ones by an earlier build too, where it is
 * linked.
 */
#ifndef BENCH_WORDS_H
#define BENCH_WORDS_H

#include <stdint.h>

enum { VCLMUL_VV, VCLMUL_VX, VCLMULH_VV, VCLMULH_VX, VGHSH_VV, VGHSH_VS, VGMUL_VV, VGMUL_VS, WORDS };

/*
 * VLEN 128 and 512, LMUL 1 and 8; the last is VLEN 512 and LMUL 8. The carry-less words have SEW 64 there; theirs are
 * also the cases after the settings, which are the last one again with SEW 32, 16 and 8. The GHASH words have SEW 32.
 */
enum { SETTINGS = 4, WIDEST = 3, NARROWEST = 6, CASES = 7 };

struct settings {
    uint32_t vlen, lmul, sew;
};

extern const struct settings all_settings[CASES];

/* A word on a register file with random content: vl is VLMAX, no mask, groups vd 8, vs2 16, vs1 24. */
struct word_case {
    int word;
    struct settings settings;
    uint32_t code, sew, vl;
    uint64_t scalar;
    uint8_t file[32 * 512 / 8];
};

const char *word_name(int word);

/* How many of the cases are the word's. */
int word_count(int word);

/* How many elements (carry-less words) or 128-bit groups (GHASH words) one execution does. */
uint32_t word_parts(const struct word_case *c);

void word_make(struct word_case *c, int word, int number, uint64_t *seed);

/* Whether an execution leaves the file as document 01's rules in plain C do. */
int word_agrees(const struct word_case *c);

/* The processor time of so many executions. */
double word_batch(const void *word_case, long calls);

/* The same for so many times the fast products, by rvghash_product_fast, of all groups of vd with those of vs2. */
double group_products_batch(const void *word_case, long calls);

/* The earlier build's SHA-256, or NULL where none is linked. */
extern const char *const earlier_name;

/* Whether an earlier build is linked and timed in this case: a carry-less word at the widest setting, at any SEW. */
int earlier_has(int word, int number);

/* word_agrees and word_batch with the earlier build. */
int earlier_agrees(const struct word_case *c);
double earlier_batch(const void *word_case, long calls);

#endif
