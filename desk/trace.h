/* The records of a trace. include/rvghash.h says where each number stands in one. */
#ifndef TRACE_H
#define TRACE_H

#include <stdbool.h>

#include "files.h"

/* A call of the executor, and the answer that was recorded. */
struct record {
    uint32_t word, sew, lmul, answer, vl, vstart;
    bool tail_agnostic, mask_agnostic;
    uint64_t scalar;
};

/* The record of an index, from 0, in a trace that has it. */
struct record record_of(const struct bytes *trace, size_t index);

/* Looks through a whole trace, and tells where it would be refused with 14. */
enum status look_through(const char *name, const struct bytes *trace);

#endif
