/*
 * Plain C translations of document 01's rules: a peer in the benchmark, and what the results are checked against.
 */
#ifndef BENCH_PLAIN_H
#define BENCH_PLAIN_H

#include <stdint.h>

#include "inputs.h"

/* block times key in the GHASH field, bit by bit. */
void plain_product(const uint8_t key[16], const uint8_t block[16], uint8_t out[16]);

/* GHASH of a message, with that product. */
void plain_ghash(const struct key *key, const struct message *message, uint8_t out[16]);

/* The 128-bit carry-less product of two numbers. */
void plain_clmul(uint64_t a, uint64_t b, uint64_t *low, uint64_t *high);

#endif
