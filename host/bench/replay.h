/*
 * The replay of a trace: by rvghash_replay, and by its peer, a loop in C over rvghash_execute.
 */
#ifndef BENCH_REPLAY_H
#define BENCH_REPLAY_H

#include "traces.h"

/* Whether it answers 0 with the number of records, and leaves the file that the calls themselves left. */
int replay_agrees(const struct trace *t);
int loop_agrees(const struct trace *t);

/* The processor time of so many replays of the whole trace. */
double replay_batch(const void *trace, long calls);
double loop_batch(const void *trace, long calls);

#endif
