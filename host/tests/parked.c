/*
 * The header's example of parking, by its own lines: host/tests/parked takes them out of include/rvghash.h.
 *
 *     parked park DISK N     feeds all of A and the first N bytes of C, and writes the record to DISK
 *     parked go-on DISK      after the restart, in memory that holds anything: reads it, and goes on
 *
 * Exit status: 0 done, and the hash is that of the whole message; 1 it is not; 2 a file or the usage is wrong; 3 the record was
 * not read from DISK; 4 it was refused, and the running hash is a fresh one.
 */
#include <stdio.h>
#include <stdlib.h>
#include <string.h>

#include "rvghash.h"

static const uint8_t key[RVGHASH_BLOCK_BYTES] = {0x66, 0xE9, 0x4B, 0xD4, 0xEF, 0x8A, 0x2C, 0x3B,
                                                 0x88, 0x4C, 0xFA, 0x59, 0xCA, 0x34, 0x2B, 0x2E};
static uint8_t a[37], c[1000];
static const size_t c_len = sizeof c;
static struct rvghash_running running;

/* The first three lines. */
static int park(FILE *disk)
{
#include "parked_declared.inc"
#include "parked_before.inc"
    return 0;
}

/* The last three lines, where the record is declared by the first one again. */
static int go_on(FILE *disk)
{
#include "parked_declared.inc"
#include "parked_after.inc"
}

static int feed_and_park(FILE *disk, size_t n)
{
    rvghash_running_new(&running);
    if (rvghash_feed_a(&running, key, sizeof key, a, sizeof a) != RVGHASH_DONE)
        return 1;
    if (n > 0 && rvghash_feed_c(&running, key, sizeof key, c, n) != RVGHASH_DONE)
        return 1;
    return park(disk);
}

static int go_on_and_finish(FILE *disk)
{
    struct rvghash_running untouched, fresh;
    uint8_t hash[RVGHASH_BLOCK_BYTES], whole[RVGHASH_BLOCK_BYTES];
    memset(&running, 0xA5, sizeof running);
    untouched = running;
    rvghash_running_new(&fresh);
    if (go_on(disk) != 0) {
        if (memcmp(&running, &untouched, sizeof running) == 0)
            return 3;
        return memcmp(&running, &fresh, sizeof running) == 0 ? 4 : 1;
    }
    if (rvghash_finish(&running, key, sizeof key, hash, sizeof hash) != RVGHASH_DONE)
        return 1;
    if (rvghash_ghash(key, sizeof key, a, sizeof a, c, sizeof c, whole, sizeof whole) != RVGHASH_DONE)
        return 1;
    return memcmp(hash, whole, sizeof hash) != 0;
}

int main(int argc, char **argv)
{
    int before = argc == 4 && strcmp(argv[1], "park") == 0;
    if (!before && !(argc == 3 && strcmp(argv[1], "go-on") == 0))
        return 2;
    for (size_t i = 0; i < sizeof a; i++)
        a[i] = (uint8_t)(7 * i + 1);
    for (size_t i = 0; i < sizeof c; i++)
        c[i] = (uint8_t)(11 * i + 3);
    FILE *disk = fopen(argv[2], before ? "wb" : "rb");
    if (disk == NULL)
        return 2;
    int status = before ? feed_and_park(disk, strtoul(argv[3], NULL, 10)) : go_on_and_finish(disk);
    if (fclose(disk) != 0)
        return 2;
    return status;
}
