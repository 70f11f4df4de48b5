/*
 * Makes the keys and the messages.
 */
#include "inputs.h"

#include <stdio.h>
#include <stdlib.h>
#include <string.h>

uint64_t random_next(uint64_t *seed)
{
    uint64_t z = *seed += 0x9E3779B97F4A7C15;
    z = (z ^ z >> 30) * 0xBF58476D1CE4E5B9;
    z = (z ^ z >> 27) * 0x94D049BB133111EB;
    return z ^ z >> 31;
}

void random_fill(uint64_t *seed, uint8_t *bytes, size_t length)
{
    for (size_t i = 0; i < length; i++)
        bytes[i] = (uint8_t)random_next(seed);
}

static struct message message_make(size_t length, uint64_t *seed)
{
    struct message m = {length, malloc(length + 16)};
    if (!m.bytes) {
        fprintf(stderr, "bench: no memory for a message of %zu bytes\n", length);
        exit(1);
    }
    random_fill(seed, m.bytes, length);
    memset(m.bytes + length, 0, 16);
    for (size_t i = 0; i < 8; i++)
        m.bytes[length + i] = (uint8_t)((uint64_t)length * 8 >> (56 - 8 * i));
    return m;
}

void inputs_make(struct inputs *inputs, uint64_t seed)
{
    for (int i = 0; i < KEYS; i++) {
        random_fill(&seed, inputs->keys[i].aes, 16);
        random_fill(&seed, inputs->keys[i].hash, 16);
        memset(inputs->keys[i].mask, 0, 16);
    }
    for (int i = 0; i < LENGTHS; i++)
        inputs->messages[i] = message_make((size_t)16 << i, &seed);
}

void inputs_keys(struct inputs *inputs, void (*aes)(const struct key *key, uint8_t out[32]))
{
    for (int i = 0; i < KEYS; i++) {
        uint8_t out[32];
        aes(&inputs->keys[i], out);
        memcpy(inputs->keys[i].hash, out, 16);
        memcpy(inputs->keys[i].mask, out + 16, 16);
    }
}
