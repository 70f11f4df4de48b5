/*
 * A peer in a process of its own: a second copy of this program, started with OpenSSL's carry-less instructions masked.
 * It answers one request at a time, so that it takes its turn in the rounds like every other peer.
 */
#ifndef BENCH_REMOTE_H
#define BENCH_REMOTE_H

#include "inputs.h"

/* What the mask takes away: bit 33 PCLMULQDQ; in the second word bit 41 VAES and bit 42 VPCLMULQDQ. */
#define REMOTE_MASK "~0x200000000:~0x60000000000"

/* The argument that makes the program such a copy. */
#define REMOTE_ARGUMENT "--openssl-masked"

/* Starts the copy. Returns NULL, or why it cannot be measured. */
const char *remote_start(const char *program);

/* The hash of message number length under key number key. */
void remote_hash(int key, int length, uint8_t out[16]);

/* The processor time of so many hashes of message number length, or of so many times the AES part. */
double remote_hash_batch(int length, long calls);
double remote_aes_batch(long calls);

/* Whether its results for the links of the first key are the expected ones. */
int remote_links_agree(void);

/* The processor time of so many times all these links, or of so many times the AES part. */
double remote_links_batch(long calls);
double remote_links_aes_batch(long calls);

/* The copy's own part: answers until its input ends. */
int remote_serve(struct inputs *inputs);

#endif
