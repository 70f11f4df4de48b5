/*
 * What every peer is given: the same keys and the same messages, made from one seed.
 */
#ifndef BENCH_INPUTS_H
#define BENCH_INPUTS_H

#include <stddef.h>
#include <stdint.h>

enum {
    KEYS = 64,    /* a new key for each call: the calls go round these */
    LENGTHS = 17, /* 16 bytes to 1 MiB, by doublings */
    SHORT = 2,    /* the place of 64 bytes */
    LONG = 16     /* the place of 1 MiB */
};

/*
 * A GMAC peer takes an AES key: its hash key is AES of the zero block, and its tag is the hash xor mask, where mask is
 * AES of the first counter block for an IV of 12 zero bytes.
 */
struct key {
    uint8_t aes[16];
    uint8_t hash[16];
    uint8_t mask[16];
};

/* A message is hashed as A, with no C. Its length block stands right after it, for peers that want it as data. */
struct message {
    size_t length;
    uint8_t *bytes;
};

struct inputs {
    struct key keys[KEYS];
    struct message messages[LENGTHS];
};

/* Random numbers by SplitMix64. */
uint64_t random_next(uint64_t *seed);
void random_fill(uint64_t *seed, uint8_t *bytes, size_t length);

/* Hash keys are random until inputs_keys derives them from the AES keys. */
void inputs_make(struct inputs *inputs, uint64_t seed);

/* aes gives the key's AES of the zero block, then of the first counter block. */
void inputs_keys(struct inputs *inputs, void (*aes)(const struct key *key, uint8_t out[32]));

#endif
