/*
 * The bit-by-bit rules in plain C: masks in place of branches, which is the faster form with random bits.
 */
#include "plain.h"

/* A block as a big-endian number: coefficient 0 is the top bit of high. */
struct block {
    uint64_t high, low;
};

static uint64_t load_half(const uint8_t *bytes)
{
    uint64_t v = 0;
    for (int i = 0; i < 8; i++)
        v = v << 8 | bytes[i];
    return v;
}

static void store_half(uint8_t *bytes, uint64_t v)
{
    for (int i = 0; i < 8; i++)
        bytes[i] = (uint8_t)(v >> (56 - 8 * i));
}

static struct block load(const uint8_t bytes[16])
{
    return (struct block){load_half(bytes), load_half(bytes + 8)};
}

static void store(uint8_t bytes[16], struct block b)
{
    store_half(bytes, b.high);
    store_half(bytes + 8, b.low);
}

/* z gains v for each coefficient of half, from the top bit on; v moves one place up each time. */
static void add_half(struct block *z, struct block *v, uint64_t half)
{
    for (int k = 63; k >= 0; k--) {
        uint64_t take = -(half >> k & 1);
        z->high ^= v->high & take;
        z->low ^= v->low & take;
        uint64_t over = -(v->low & 1);
        v->low = v->low >> 1 | v->high << 63;
        v->high = v->high >> 1 ^ (over & 0xE100000000000000);
    }
}

static struct block product(struct block u, struct block h)
{
    struct block z = {0, 0};
    add_half(&z, &h, u.high);
    add_half(&z, &h, u.low);
    return z;
}

void plain_product(const uint8_t key[16], const uint8_t block[16], uint8_t out[16])
{
    store(out, product(load(block), load(key)));
}

void plain_ghash(const struct key *key, const struct message *message, uint8_t out[16])
{
    struct block h = load(key->hash), y = {0, 0};
    for (size_t at = 0; at < message->length + 16; at += 16) {
        struct block x = load(message->bytes + at);
        y = product((struct block){y.high ^ x.high, y.low ^ x.low}, h);
    }
    store(out, y);
}

void plain_clmul(uint64_t a, uint64_t b, uint64_t *low, uint64_t *high)
{
    uint64_t l = 0, h = 0;
    for (int i = 0; i < 64; i++) {
        uint64_t take = -(b >> i & 1);
        l ^= a << i & take;
        h ^= (a >> 1) >> (63 - i) & take;
    }
    *low = l;
    *high = h;
}
