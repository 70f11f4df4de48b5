/* Reads the file of cases that the oracle writes: see host/oracle/src/compare/written.rs. Numbers are little-endian. */
#ifndef RISCV_CASES_H
#define RISCV_CASES_H

#include <stddef.h>
#include <stdint.h>

#define CASES_MAGIC "rvghash cases 2\n"

enum function {
    EXECUTE,
    STEP_BACK,
    GHASH_FAST,
    GHASH_PLAIN,
    FEED_A,
    FEED_A_PLAIN,
    FEED_C,
    FEED_C_PLAIN,
    FINISH,
    FINISH_PLAIN,
    ENCODE,
    DECODE,
    DISASSEMBLE,
    ASSEMBLE,
    PUT_RECORD,
    REPLAY,
    EXECUTE_POLICIES,
    PARK,
    UNPARK,
    CHECK_LINKS,
    FUNCTIONS
};

/* The scalars of EXECUTE, whose policies are 0, and of EXECUTE_POLICIES; the buffers are vstart and the file. */
enum scalar { WORD, VLEN, SEW, LMUL, TAIL_AGNOSTIC, MASK_AGNOSTIC, VL, SCALAR };
enum field { KIND, VM, VS2, VS1, VD }; /* the scalars of ENCODE; DECODE and DISASSEMBLE have WORD */
/* The scalars of PUT_RECORD. REPLAY has VLEN alone; its buffers are the file, the trace and index. */
enum record {
    OF_WORD,
    OF_SEW,
    OF_LMUL,
    OF_TAIL_AGNOSTIC,
    OF_MASK_AGNOSTIC,
    OF_ANSWER,
    OF_VL,
    OF_VSTART,
    OF_SCALAR,
    MAX_SCALARS
};

/* A buffer that the call is lent: its content, and the part of it that the call must change. */
struct lent {
    uint32_t length, align, change_at, change_length;
    const uint8_t *content, *change;
};

#define MAX_LENT 5

struct call {
    uint32_t function, answer, scalars, buffers;
    uint64_t scalar[MAX_SCALARS];
    struct lent buffer[MAX_LENT];
};

static uint64_t take_number(const uint8_t **at, int bytes)
{
    uint64_t n = 0;
    for (int i = bytes - 1; i >= 0; i--)
        n = n << 8 | (*at)[i];
    *at += bytes;
    return n;
}

static uint32_t take_u32(const uint8_t **at) { return (uint32_t)take_number(at, 4); }

/* Reads one call and returns what follows it; NULL where this is none. */
static const uint8_t *take_call(const uint8_t *at, struct call *c)
{
    c->function = take_u32(&at);
    c->answer = take_u32(&at);
    c->scalars = take_u32(&at);
    c->buffers = take_u32(&at);
    if (c->function >= FUNCTIONS || c->scalars > MAX_SCALARS || c->buffers > MAX_LENT)
        return NULL;
    for (uint32_t i = 0; i < c->scalars; i++)
        c->scalar[i] = take_number(&at, 8);
    for (uint32_t i = 0; i < c->buffers; i++) {
        struct lent *l = &c->buffer[i];
        l->length = take_u32(&at);
        l->align = take_u32(&at);
        l->change_at = take_u32(&at);
        l->change_length = take_u32(&at);
        l->content = at;
        l->change = at + l->length;
        at = l->change + l->change_length;
    }
    return at;
}

#endif
