/* Reads records from the bytes of a trace, and finds what is no record. */
#include "rvghash.h"
#include "trace.h"

#define POLICY_BYTE 7 /* of a record, after the answer */
#define ALL_POLICIES (RVGHASH_TAIL_AGNOSTIC + RVGHASH_MASK_AGNOSTIC)

/* A number of some bytes, the low byte first. */
static uint64_t number_at(const uint8_t *bytes, int count)
{
    uint64_t number = 0;
    while (count-- > 0)
        number = number << 8 | bytes[count];
    return number;
}

struct record record_of(const struct bytes *trace, size_t index)
{
    const uint8_t *bytes = trace->at + RVGHASH_RECORD_BYTES * index;
    struct record record = {
        .word = (uint32_t)number_at(bytes, 4),
        .sew = bytes[4],
        .lmul = bytes[5],
        .answer = bytes[6],
        .tail_agnostic = (bytes[POLICY_BYTE] & RVGHASH_TAIL_AGNOSTIC) != 0,
        .mask_agnostic = (bytes[POLICY_BYTE] & RVGHASH_MASK_AGNOSTIC) != 0,
        .vl = (uint32_t)number_at(bytes + 8, 4),
        .vstart = (uint32_t)number_at(bytes + 12, 4),
        .scalar = number_at(bytes + 16, 8),
    };
    return record;
}

enum status look_through(const char *name, const struct bytes *trace)
{
    enum status status = whole_records(name, trace, RVGHASH_RECORD_BYTES, RVGHASH_BAD_TRACE);
    if (status != STATUS_DONE)
        return status;
    for (size_t at = POLICY_BYTE; at < trace->length; at += RVGHASH_RECORD_BYTES)
        if (trace->at[at] > ALL_POLICIES) {
            fprintf(stderr, "%s: refused (%d): the policy byte of record %zu, at offset %zu, is 0x%02X, and not 0 to %d\n",
                    shown_name(name), RVGHASH_BAD_TRACE, at / RVGHASH_RECORD_BYTES, at, trace->at[at], ALL_POLICIES);
            return STATUS_FAILED;
        }
    return STATUS_DONE;
}
