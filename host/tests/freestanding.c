/*
 * Links librvghash.a with -nostdlib: no C library, no start-up code, one memset of its own. The exit status is 0 if the word
 * vghsh.vv, the tail of its group, a running hash (document 01's K14), parked and read back, and two links come out right.
 */
#include "rvghash.h"

static const uint8_t one[RVGHASH_BLOCK_BYTES] = {0x80};

void *memset(void *to, int byte, size_t length)
{
    volatile unsigned char *bytes = to; /* volatile: the compiler must not make this loop a call of memset */
    for (size_t i = 0; i < length; i++)
        bytes[i] = (unsigned char)byte;
    return to;
}

static int vector_word(void)
{
    uint8_t file[RVGHASH_FILE_BYTES(128)];
    uint32_t vstart = 0;
    memset(file, 0, sizeof file);
    file[8 * 16] = 0x40;
    file[12 * 16] = 0x80;
    return rvghash_execute(0xB2862277, 128, 32, 1, 4, &vstart, 0, file, sizeof file) == RVGHASH_DONE && file[4 * 16] == 0x40 &&
           rvghash_execute_policies(0xB2862277, 128, 32, 2, true, false, 4, &vstart, 0, file, sizeof file) == RVGHASH_DONE &&
           file[4 * 16] == 0x60 && file[5 * 16] == 0xFF;
}

static int running_hash(void)
{
    struct rvghash_running running;
    uint8_t c[1] = {1}, record[RVGHASH_PARKED_BYTES], out[16];
    rvghash_running_new(&running);
    return rvghash_feed_c(&running, one, 16, c, 1) == RVGHASH_DONE &&
           rvghash_park(&running, record, sizeof record) == RVGHASH_DONE &&
           rvghash_unpark(&running, record, sizeof record) == RVGHASH_DONE &&
           rvghash_finish(&running, one, 16, out, 16) == RVGHASH_DONE && out[0] == 1 && out[15] == 8;
}

/* Zeros as the claim block have the length block as hash: the first record agrees, and the second does not. */
static int links(void)
{
    uint8_t records[2 * RVGHASH_LINK_BYTES], results[2];
    memset(records, 0, sizeof records);
    records[16 + 7] = 0x80;
    return rvghash_check_links(one, 16, records, sizeof records, results, sizeof results) == RVGHASH_DONE &&
           results[0] == 1 && results[1] == 0;
}

static void leave(long status)
{
#if defined(__x86_64__)
    __asm__ volatile("syscall" : : "a"(60L), "D"(status));
#elif defined(__riscv)
    register long a0 __asm__("a0") = status, a7 __asm__("a7") = 93;
    __asm__ volatile("ecall" : : "r"(a0), "r"(a7));
#endif
    for (;;)
        ;
}

/* The stack may begin at any multiple of 8 here, so it is made one of 16, as the ABI has it at a call. */
#if defined(__x86_64__)
__attribute__((force_align_arg_pointer))
#endif
void _start(void)
{
    leave(vector_word() && running_hash() && links() ? 0 : 1);
}
