/* The meanings of the numbers, in the words of the example monitor. */
#include <inttypes.h>
#include <stdio.h>

#include "numbers.h"
#include "rvghash.h"

const char *meaning_of(uint32_t number)
{
    switch (number) {
    case RVGHASH_DONE: return "done";
    case RVGHASH_BAD_VLEN_OR_FILE: return "VLEN or the file's length is not allowed";
    case RVGHASH_NOT_A_WORD: return "the word is none of the eight";
    case RVGHASH_BAD_SETTINGS: return "SEW or LMUL is not allowed, or vl is over VLMAX";
    case RVGHASH_SEW_NOT_32: return "a GHASH word and SEW is not 32";
    case RVGHASH_NOT_MULTIPLE_OF_4: return "a GHASH word and vl or vstart is no multiple of 4";
    case RVGHASH_BAD_GROUP: return "a register group's number is no multiple of LMUL";
    case RVGHASH_KEY_OVERLAP: return "a .vs word and vd <= vs2 < vd + LMUL";
    case RVGHASH_MASK_OVERLAP: return "vm is 0 and a register group is register 0";
    case RVGHASH_NOT_16_BYTES: return "a key or block is not 16 bytes long";
    case RVGHASH_BAD_TRACE: return "the trace's length is no multiple of 24, or a policy byte is over 3";
    case RVGHASH_BAD_LINKS: return "the records' length is no multiple of 32, or the results' length is not the number of records";
    default: return "no such number";
    }
}

const char *meaning_of_answer(uint32_t number)
{
    return number <= RVGHASH_MASK_OVERLAP ? meaning_of(number) : "no answer of the executor";
}

enum status cannot_be(const char *command, const char *file, size_t record, uint32_t number)
{
    fprintf(stderr, "rvghash: %s: record %zu: an answer of %s that cannot be: %" PRIu32 ": %s\n", file, record, command,
            number, meaning_of(number));
    return STATUS_FAILED;
}
