/*
 * The traces that are replayed: calls of rvghash_execute, each with the answer that it gave.
 */
#ifndef BENCH_TRACES_H
#define BENCH_TRACES_H

#include <stddef.h>
#include <stdint.h>

enum { VGHSH_TRACE, VCLMUL_TRACE, MIXED_TRACE, OTHER_TRACE, TRACES };

/* before is the register file that the first call was given, with random content, and after what the last one left. */
struct trace {
    uint32_t vlen;
    size_t records, refused;
    uint8_t *bytes;
    uint8_t before[32 * 512 / 8], after[32 * 512 / 8];
};

const char *trace_name(int trace);

/* Of so many records, or of a fixed share of them where a word takes long. */
void trace_make(struct trace *t, int trace, size_t records, uint64_t *seed);

#endif
