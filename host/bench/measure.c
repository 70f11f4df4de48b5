/*
 * Rounds, medians and ratios.
 */
#define _POSIX_C_SOURCE 200809L
#include "measure.h"

#include <stdio.h>
#include <stdlib.h>
#include <time.h>

double clock_ns(void)
{
    struct timespec t;
    clock_gettime(CLOCK_PROCESS_CPUTIME_ID, &t);
    return (double)t.tv_sec * 1e9 + (double)t.tv_nsec;
}

static void fit(struct item *item, double batch_ns)
{
    item->batch(item->what, 1); /* what a library does once is done here */
    long calls = 1;
    double ns = item->batch(item->what, calls);
    while (ns < batch_ns / 4) {
        calls *= 2;
        ns = item->batch(item->what, calls);
    }
    item->calls = (long)(batch_ns / ns * (double)calls);
    if (item->calls < 1)
        item->calls = 1;
}

void measure(struct item **items, int count, int rounds, double batch_ns)
{
    for (int i = 0; i < count; i++)
        fit(items[i], batch_ns);
    for (int round = 0; round < rounds; round++) {
        for (int i = 0; i < count; i++) {
            struct item *item = items[round % 2 ? count - 1 - i : i];
            item->batch(item->what, 1); /* warms the caches after the others' turns */
            item->ns[round] = item->batch(item->what, item->calls) / (double)item->calls;
        }
        fprintf(stderr, "bench: round %d of %d\n", round + 1, rounds);
    }
}

void expect_done(unsigned number)
{
    if (number != 0) {
        fprintf(stderr, "bench: a call was refused with %u\n", number);
        exit(1);
    }
}

static int by_size(const void *a, const void *b)
{
    double x = *(const double *)a, y = *(const double *)b;
    return (x > y) - (x < y);
}

/* Sorts v. */
static double median(double *v, int count)
{
    qsort(v, (size_t)count, sizeof *v, by_size);
    return (v[(count - 1) / 2] + v[count / 2]) / 2;
}

static double net(const struct item *item, const struct item *less, int round)
{
    return item->ns[round] - (less ? less->ns[round] : 0);
}

struct summary item_time(const struct item *item, const struct item *less, int rounds)
{
    double v[MAX_ROUNDS];
    for (int i = 0; i < rounds; i++)
        v[i] = net(item, less, i);
    double middle = median(v, rounds);
    return (struct summary){middle, (v[rounds * 3 / 4] - v[rounds / 4]) / middle};
}

struct ratio item_ratio(const struct item *a, const struct item *less_a, const struct item *b, const struct item *less_b,
                        int rounds)
{
    double v[MAX_ROUNDS];
    for (int i = 0; i < rounds; i++)
        v[i] = net(a, less_a, i) / net(b, less_b, i);
    double middle = median(v, rounds);
    return (struct ratio){v[rounds / 4], middle, v[rounds * 3 / 4]};
}
