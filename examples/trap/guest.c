/*
 * A guest for the handler in trap.c: hashes messages with the real instructions, which trap where the core lacks them,
 * and compares with the published hashes and with a product of its own; then it looks at what the policies of vtype leave
 * in a register group. It ends with 1 if something differs.
 */
#define _GNU_SOURCE
#include <signal.h>
#include <stdint.h>
#include <stdio.h>
#include <stdlib.h>
#include <string.h>

#include "trap.h"

#define LANES 8 /* messages at once: LMUL 8 has room for so many blocks at VLEN 128 */
#define LONGEST 4096

typedef struct { uint8_t byte[16]; } __attribute__((aligned(16))) block;

/* The words: vd is v8 (Y), vs2 is v24 (H), vs1 is v16 (X); for the carry-less words rs1 is a0. */
#define REGISTERS (24u << 20 | 16u << 15 | 8u << 7)
#define VGHSH_VV (0xB2002077ul | REGISTERS)
#define VGHSH_VS (0x8E002077ul | REGISTERS)
#define VGMUL_VV (0xA208A077ul | (24u << 20 | 8u << 7))
#define VGMUL_VS (0xA608A077ul | (24u << 20 | 8u << 7))
#define VCLMUL_VV (0x32002057ul | REGISTERS)
#define VCLMULH_VV (0x36002057ul | REGISTERS)
#define VCLMUL_VX (0x32006057ul | (24u << 20 | 10u << 15 | 8u << 7))
#define VCLMUL_VX_MASKED (VCLMUL_VX & ~(1ul << 25))
#define VCLMULH_VX (0x36006057ul | (24u << 20 | 10u << 15 | 8u << 7))

/* The interrupted program uses vector instructions; no system call may come between its loads and its stores. */
#define VECTOR(text, ...) __asm__ volatile(".option push\n .option arch, +v\n" text ".option pop" __VA_ARGS__)

static volatile unsigned long traps;

static void counted(int number, siginfo_t *info, void *context)
{
    traps++;
    trap_illegal(number, info, context);
}

/* Y := (Y xor X) * H in each lane, by one GHASH word on groups of LMUL 8. */
#define GHASH_STEP(name, xor, word)                                                                                  \
    static void name(block *y, const block *x, const block *h, size_t lanes)                                         \
    {                                                                                                                \
        VECTOR("vsetvli zero, %3, e32, m8, ta, ma\n vle32.v v8, (%0)\n vle32.v v16, (%1)\n vle32.v v24, (%2)\n" xor  \
               ".insn 4, %4\n vse32.v v8, (%0)\n",                                                                   \
               : : "r"(y), "r"(x), "r"(h), "r"(4 * lanes), "i"(word) : "memory");                                    \
    }
GHASH_STEP(by_vghsh_vv, "", VGHSH_VV)
GHASH_STEP(by_vghsh_vs, "", VGHSH_VS)
GHASH_STEP(by_vgmul_vv, "vxor.vv v8, v8, v16\n", VGMUL_VV)
GHASH_STEP(by_vgmul_vs, "vxor.vv v8, v8, v16\n", VGMUL_VS)

/* A block as two numbers: coefficient k is bit k % 64 of number k / 64. */
static void to_halves(uint64_t half[2], const block *b)
{
    half[0] = half[1] = 0;
    for (int k = 0; k < 128; k++)
        half[k / 64] |= (uint64_t)(b->byte[k / 8] >> (7 - k % 8) & 1) << k % 64;
}

static void from_halves(block *b, const uint64_t half[2])
{
    memset(b, 0, sizeof *b);
    for (int k = 0; k < 128; k++)
        b->byte[k / 8] |= (uint8_t)((half[k / 64] >> k % 64 & 1) << (7 - k % 8));
}

/* Reduces a carry-less product of four numbers: x^128 = x^7 + x^2 + x + 1. */
static void reduce(uint64_t p[4])
{
    for (int i = 3; i >= 2; i--) {
        p[i - 2] ^= p[i] ^ p[i] << 1 ^ p[i] << 2 ^ p[i] << 7;
        p[i - 1] ^= p[i] >> 63 ^ p[i] >> 62 ^ p[i] >> 57;
    }
}

/* The products of both halves of a by b, low and high numbers. */
static void times_vx(uint64_t low[2], uint64_t high[2], const uint64_t a[2], uint64_t b)
{
    register uint64_t scalar __asm__("a0") = b;
    VECTOR("vsetivli zero, 2, e64, m8, ta, ma\n vle64.v v24, (%0)\n"
           ".insn 4, %4\n vse64.v v8, (%1)\n .insn 4, %5\n vse64.v v8, (%2)\n",
           : : "r"(a), "r"(low), "r"(high), "r"(scalar), "i"(VCLMUL_VX), "i"(VCLMULH_VX) : "memory");
}

static void times_vv(uint64_t low[2], uint64_t high[2], const uint64_t a[2], uint64_t b)
{
    uint64_t twice[2] = {b, b};
    VECTOR("vsetivli zero, 2, e64, m8, ta, ma\n vle64.v v24, (%0)\n vle64.v v16, (%3)\n"
           ".insn 4, %4\n vse64.v v8, (%1)\n .insn 4, %5\n vse64.v v8, (%2)\n",
           : : "r"(a), "r"(low), "r"(high), "r"(twice), "i"(VCLMUL_VV), "i"(VCLMULH_VV) : "memory");
}

/* The same step by carry-less products of 64-bit halves. */
static void carry_less(block *y, const block *x, const block *h, size_t lanes,
                       void (*times)(uint64_t[2], uint64_t[2], const uint64_t[2], uint64_t))
{
    for (size_t i = 0; i < lanes; i++) {
        uint64_t a[2], b[2], c[2], low[2], high[2], p[4] = {0};
        to_halves(a, &y[i]);
        to_halves(c, &x[i]);
        to_halves(b, &h[i]);
        a[0] ^= c[0];
        a[1] ^= c[1];
        for (int j = 0; j < 2; j++) {
            times(low, high, a, b[j]);
            p[j] ^= low[0];
            p[j + 1] ^= high[0] ^ low[1];
            p[j + 2] ^= high[1];
        }
        reduce(p);
        from_halves(&y[i], p);
    }
}

static void by_vclmul_vv(block *y, const block *x, const block *h, size_t lanes) { carry_less(y, x, h, lanes, times_vv); }
static void by_vclmul_vx(block *y, const block *x, const block *h, size_t lanes) { carry_less(y, x, h, lanes, times_vx); }

/* The same step bit by bit: SP 800-38D, algorithm 1. No instruction of it traps. */
static void by_bits(block *y, const block *x, const block *h, size_t lanes)
{
    for (size_t i = 0; i < lanes; i++) {
        block v = h[i], z = {{0}};
        for (int k = 0; k < 128; k++) {
            int last = v.byte[15] & 1;
            if ((y[i].byte[k / 8] ^ x[i].byte[k / 8]) >> (7 - k % 8) & 1)
                for (int j = 0; j < 16; j++)
                    z.byte[j] ^= v.byte[j];
            for (int j = 15; j > 0; j--)
                v.byte[j] = (uint8_t)(v.byte[j] >> 1 | v.byte[j - 1] << 7);
            v.byte[0] = (uint8_t)(v.byte[0] >> 1 ^ (last ? 0xE1 : 0));
        }
        y[i] = z;
    }
}

typedef void step(block *y, const block *x, const block *h, size_t lanes);

static const struct way {
    const char *words;
    step *step;
    unsigned traps; /* of one step */
    int each;       /* of one step for each lane */
} ways[] = {
    {"vghsh.vv", by_vghsh_vv, 1, 0}, {"vghsh.vs", by_vghsh_vs, 1, 0},
    {"vgmul.vv", by_vgmul_vv, 1, 0}, {"vgmul.vs", by_vgmul_vs, 1, 0},
    {"vclmul.vv, vclmulh.vv", by_vclmul_vv, 4, 1}, {"vclmul.vx, vclmulh.vx", by_vclmul_vx, 4, 1},
};

struct message {
    block key;
    uint8_t a[LONGEST], c[LONGEST];
    size_t a_length, c_length;
};

static size_t blocks_of(size_t length) { return (length + 15) / 16; }

/* Block n of a message: A padded, C padded, the lengths in bits. */
static block block_of(const struct message *m, size_t n)
{
    block b = {{0}};
    size_t a_blocks = blocks_of(m->a_length), c_blocks = blocks_of(m->c_length);
    const uint8_t *part = n < a_blocks ? m->a : m->c;
    size_t length = n < a_blocks ? m->a_length : m->c_length, at = 16 * (n < a_blocks ? n : n - a_blocks);
    if (n < a_blocks + c_blocks)
        memcpy(b.byte, part + at, length - at < 16 ? length - at : 16);
    else
        for (int i = 0; i < 8; i++) {
            b.byte[7 - i] = (uint8_t)(8 * m->a_length >> 8 * i);
            b.byte[15 - i] = (uint8_t)(8 * m->c_length >> 8 * i);
        }
    return b;
}

/* GHASH of messages of the same lengths under one key; returns the number of steps. */
static size_t hash(step *step, const struct message *m, size_t lanes, block *y)
{
    size_t steps = blocks_of(m->a_length) + blocks_of(m->c_length) + 1;
    block x[LANES], h[LANES];
    memset(y, 0, lanes * sizeof *y);
    for (size_t n = 0; n < steps; n++) {
        for (size_t i = 0; i < lanes; i++) {
            x[i] = block_of(&m[i], n);
            h[i] = m->key;
        }
        step(y, x, h, lanes);
    }
    return steps;
}

/* Hashes by one way, tells what came of it, and returns whether all is right. */
static int run(const struct way *w, const char *name, const struct message *m, size_t lanes, const block *right)
{
    block y[LANES];
    traps = 0;
    size_t steps = hash(w->step, m, lanes, y);
    unsigned long expected = steps * w->traps * (w->each ? lanes : 1);
    int ok = memcmp(y, right, lanes * sizeof *y) == 0 && traps == expected;
    printf("%-36s %-22s %5lu traps  ", name, w->words, traps);
    for (int i = 0; i < 16; i++)
        printf("%02x", y[0].byte[i]);
    printf(ok ? "  right\n" : "  WRONG: %lu traps expected\n", expected);
    return ok;
}

static size_t from_hex(uint8_t *to, const char *hex)
{
    size_t n = strlen(hex) / 2;
    for (size_t i = 0; i < n; i++) {
        char pair[3] = {hex[2 * i], hex[2 * i + 1], '\0'};
        to[i] = (uint8_t)strtoul(pair, NULL, 16);
    }
    return n;
}

/* Cases of "The Galois/Counter Mode of Operation", appendix B, which NIST publishes: H, A, C and their hash. */
static const struct { const char *name, *key, *a, *c, *hash; } published[] = {
    {"NIST case 1", "66e94bd4ef8a2c3b884cfa59ca342b2e", "", "", "00000000000000000000000000000000"},
    {"NIST case 2", "66e94bd4ef8a2c3b884cfa59ca342b2e", "", "0388dace60b6a392f328c2b971b2fe78",
     "f38cbb1ad69223dcc3457ae5b6b0f885"},
    {"NIST case 3", "b83b533708bf535d0aa6e52980d53b78", "",
     "42831ec2217774244b7221b784d0d49ce3aa212f2c02a4e035c17e2329aca12e"
     "21d514b25466931c7d8f6a5aac84aa051ba30b396a0aac973d58e091473f5985",
     "7f1b32b81b820d02614f8895ac1d4eac"},
    {"NIST case 4", "b83b533708bf535d0aa6e52980d53b78", "feedfacedeadbeeffeedfacedeadbeefabaddad2",
     "42831ec2217774244b7221b784d0d49ce3aa212f2c02a4e035c17e2329aca12e"
     "21d514b25466931c7d8f6a5aac84aa051ba30b396a0aac973d58e091",
     "698e57f70e6ecc7fd9463b7260a9ae5f"},
};

static int run_published(const struct way *w)
{
    static struct message m;
    block right;
    int ok = 1;
    for (size_t i = 0; i < sizeof published / sizeof published[0]; i++) {
        from_hex(m.key.byte, published[i].key);
        m.a_length = from_hex(m.a, published[i].a);
        m.c_length = from_hex(m.c, published[i].c);
        from_hex(right.byte, published[i].hash);
        ok &= run(w, published[i].name, &m, 1, &right);
    }
    return ok;
}

/* Several long messages at once under one key, compared with the product bit by bit. */
static int run_long(const struct way *w)
{
    static struct message m[LANES];
    block right[LANES];
    uint32_t seed = 1;
    for (int i = 0; i < LANES; i++) {
        for (int j = 0; j < LONGEST; j++) {
            seed = seed * 1664525 + 1013904223;
            m[i].a[j] = (uint8_t)(seed >> 24);
            m[i].c[j] = (uint8_t)(seed >> 16);
        }
        from_hex(m[i].key.byte, published[2].key);
        m[i].a_length = 77;
        m[i].c_length = 1003;
    }
    hash(by_bits, m, LANES, right);
    return run(w, "8 messages of 1,080 bytes, the first", m, LANES, right);
}

/* vclmul.vx on two elements of a group, both masked off: it writes what vtype's policies have it write, and nothing else. */
static void masked_off(uint8_t *group, unsigned long vtype)
{
    VECTOR("vl8re8.v v8, (%0)\n vsetvl zero, %1, %2\n vmv.v.i v0, 0\n .insn 4, %3\n vs8r.v v8, (%0)\n",
           : : "r"(group), "r"(2ul), "r"(vtype), "i"(VCLMUL_VX_MASKED) : "memory");
}

/* Every two policies: under ma the two elements become ones bits, under ta the rest of the group. */
static int run_policies(size_t vlenb)
{
    enum { E64_M8 = 3 << 3 | 3, VTA = 1 << 6, VMA = 1 << 7, BODY = 16 };
    uint8_t group[8 * 512 / 8], right[sizeof group];
    int all = 1;
    for (unsigned long policies = 0; policies <= (VTA | VMA); policies += VTA) {
        memset(group, 0x55, sizeof group);
        memset(right, 0x55, sizeof right);
        if ((policies & VMA) != 0)
            memset(right, 0xFF, BODY);
        if ((policies & VTA) != 0)
            memset(right + BODY, 0xFF, 8 * vlenb - BODY);
        traps = 0;
        masked_off(group, policies | E64_M8);
        int ok = memcmp(group, right, sizeof group) == 0 && traps == 1;
        printf("%-36s %-22s %5lu traps  %s, %s  %s\n", "2 elements that are masked off", "vclmul.vx", traps,
               (policies & VTA) != 0 ? "ta" : "tu", (policies & VMA) != 0 ? "ma" : "mu", ok ? "obeyed" : "NOT obeyed");
        all &= ok;
    }
    return all;
}

int main(void)
{
    unsigned long vlenb;
    struct sigaction action = {.sa_sigaction = counted, .sa_flags = SA_SIGINFO};
    int ok = 1;
    if (trap_install() != 0 || sigaction(SIGILL, &action, NULL) != 0) {
        perror("sigaction");
        return 2;
    }
    __asm__ volatile("csrr %0, vlenb" : "=r"(vlenb));
    printf("VLEN %lu\n", 8 * vlenb);
    for (size_t i = 0; i < sizeof ways / sizeof ways[0]; i++)
        ok &= run_published(&ways[i]) & run_long(&ways[i]);
    ok &= run_policies(vlenb);
    return ok ? 0 : 1;
}
