/*
 * Checks and times the replay.
 */
#include "replay.h"

#include <string.h>

#include "measure.h"
#include "rvghash.h"

typedef uint32_t replay_function(uint32_t vlen, uint8_t *file, size_t file_len, const uint8_t *trace, size_t trace_len,
                                 size_t *index);

/* In this form a compiler makes one load of it. */
static uint32_t load_4(const uint8_t *bytes)
{
    return bytes[0] | (uint32_t)bytes[1] << 8 | (uint32_t)bytes[2] << 16 | (uint32_t)bytes[3] << 24;
}

static uint64_t load_8(const uint8_t *bytes) { return load_4(bytes) | (uint64_t)load_4(bytes + 4) << 32; }

/* The peer. It looks at no policy byte, and a record that differs has been executed when it is found. */
static uint32_t loop(uint32_t vlen, uint8_t *file, size_t file_len, const uint8_t *trace, size_t trace_len,
                     size_t *index)
{
    size_t records = trace_len / RVGHASH_RECORD_BYTES;
    for (size_t i = 0; i < records; i++) {
        const uint8_t *r = trace + i * RVGHASH_RECORD_BYTES;
        uint32_t vstart = load_4(r + 12);
        uint32_t answer =
            rvghash_execute(load_4(r), vlen, r[4], r[5], load_4(r + 8), &vstart, load_8(r + 16), file, file_len);
        if (answer != r[6]) {
            *index = i;
            return RVGHASH_DIFFERS;
        }
    }
    *index = records;
    return RVGHASH_DONE;
}

static uint32_t run(replay_function *replay, const struct trace *t, uint8_t *file, size_t *index)
{
    return replay(t->vlen, file, RVGHASH_FILE_BYTES(t->vlen), t->bytes, t->records * RVGHASH_RECORD_BYTES, index);
}

static int agrees(replay_function *replay, const struct trace *t)
{
    uint8_t file[sizeof t->before];
    size_t index;
    memcpy(file, t->before, sizeof file);
    return run(replay, t, file, &index) == RVGHASH_DONE && index == t->records &&
           memcmp(file, t->after, sizeof file) == 0;
}

/* Each replay goes on with the file of the one before: no answer hangs on its content. */
static double batch(replay_function *replay, const struct trace *t, long calls)
{
    uint8_t file[sizeof t->before];
    size_t index;
    memcpy(file, t->before, sizeof file);
    double start = clock_ns();
    for (long i = 0; i < calls; i++)
        expect_done(run(replay, t, file, &index));
    return clock_ns() - start;
}

int replay_agrees(const struct trace *t) { return agrees(rvghash_replay, t); }
int loop_agrees(const struct trace *t) { return agrees(loop, t); }

double replay_batch(const void *trace, long calls) { return batch(rvghash_replay, trace, calls); }
double loop_batch(const void *trace, long calls) { return batch(loop, trace, calls); }
