/*
 * Makes the traces: draws each call, and has rvghash_execute give its answer.
 */
#include "traces.h"

#include <stdio.h>
#include <stdlib.h>
#include <string.h>

#include "inputs.h"
#include "measure.h"
#include "rvghash.h"

enum { VD = 8, VS2 = 16, VS1 = 24 };

/* What a call has beside the file; vstart is 0, and both policies are off. */
struct call {
    uint32_t word, sew, lmul, vl;
    uint64_t scalar;
};

static uint32_t below(uint32_t bound, uint64_t *seed) { return (uint32_t)(random_next(seed) % bound); }

static uint32_t encode(uint32_t kind, uint32_t vm, uint32_t vs2, uint32_t vs1, uint32_t vd)
{
    uint32_t word;
    expect_done(rvghash_encode(kind, vm, vs2, vs1, vd, &word));
    return word;
}

/* A step of a long message's hash, which is in v8; the key is in v16, and blocks are in v24 to v31. */
static struct call vghsh_call(uint64_t *seed)
{
    return (struct call){encode(RVGHASH_VGHSH_VV, 1, VS2, VS1 + below(8, seed), VD), 32, 1, 4, 0};
}

static struct call vclmul_call(uint64_t *seed)
{
    return (struct call){encode(RVGHASH_VCLMUL_VV, 1, VS2, VS1, VD * below(2, seed)), 64, 8, 64, 0};
}

/*
 * What is read is in the upper half of the file and never written: products of products would soon all be zero.
 * Refused are a vl over VLMAX, in one call of eight, and a masked word that writes v0.
 */
static struct call mixed_call(uint64_t *seed)
{
    uint32_t kind = below(8, seed), lmul = 1 + below(2, seed), groups = 16 / lmul;
    int ghash = kind >= RVGHASH_VGHSH_VV, vgmul = kind >= RVGHASH_VGMUL_VV;
    uint32_t sew = ghash ? 32 : 8u << below(4, seed);
    uint32_t vl = lmul * 128 / sew + (below(8, seed) == 0);
    uint32_t vm = ghash || below(2, seed);
    uint32_t vd = lmul * below(groups, seed);
    uint32_t vs2 = 16 + lmul * below(groups, seed);
    uint32_t vs1 = vgmul ? 17 : 16 + lmul * below(groups, seed);
    return (struct call){encode(kind, vm, vs2, vs1, vd), sew, lmul, vl, random_next(seed)};
}

/* The opcode is OP, which none of the eight words has. */
static struct call other_call(uint64_t *seed)
{
    return (struct call){(uint32_t)random_next(seed) << 7 | 0x33, 32, 1, 4, 0};
}

static const struct {
    const char *name;
    uint32_t vlen;
    size_t share; /* one of so many records is in the trace */
    struct call (*draw)(uint64_t *seed);
} rows[TRACES] = {
    [VGHSH_TRACE] = {"vghsh.vv, SEW 32, VLEN 128, LMUL 1", 128, 1, vghsh_call},
    [VCLMUL_TRACE] = {"vclmul.vv, SEW 64, VLEN 512, LMUL 8", 512, 20, vclmul_call},
    [MIXED_TRACE] = {"all eight words, every SEW, VLEN 128, LMUL 1 and 2", 128, 1, mixed_call},
    [OTHER_TRACE] = {"none of the eight words, VLEN 128", 128, 1, other_call},
};

const char *trace_name(int trace) { return rows[trace].name; }

/* Runs the call on the file and puts it in its place. Returns its answer. */
static uint32_t record(struct trace *t, size_t place, struct call c)
{
    uint32_t vstart = 0;
    uint32_t answer =
        rvghash_execute(c.word, t->vlen, c.sew, c.lmul, c.vl, &vstart, c.scalar, t->after, RVGHASH_FILE_BYTES(t->vlen));
    expect_done(rvghash_put_record(c.word, c.sew, c.lmul, false, false, answer, c.vl, 0, c.scalar,
                                   t->bytes + place * RVGHASH_RECORD_BYTES, RVGHASH_RECORD_BYTES));
    return answer;
}

static uint8_t *memory_for(size_t records)
{
    uint8_t *bytes = calloc(records, RVGHASH_RECORD_BYTES);
    if (!bytes) {
        fprintf(stderr, "bench: no memory for a trace of %zu records\n", records);
        exit(1);
    }
    return bytes;
}

void trace_make(struct trace *t, int trace, size_t records, uint64_t *seed)
{
    t->vlen = rows[trace].vlen;
    t->records = (records + rows[trace].share - 1) / rows[trace].share;
    t->refused = 0;
    t->bytes = memory_for(t->records);
    random_fill(seed, t->before, sizeof t->before);
    memcpy(t->after, t->before, sizeof t->after);
    for (size_t i = 0; i < t->records; i++)
        t->refused += record(t, i, rows[trace].draw(seed)) != RVGHASH_DONE;
}
