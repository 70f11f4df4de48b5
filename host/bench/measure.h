/*
 * Times a list of things in interleaved rounds.
 */
#ifndef BENCH_MEASURE_H
#define BENCH_MEASURE_H

enum { MAX_ROUNDS = 1001 };

/* One thing to time. Each round runs one batch of calls. */
struct item {
    double (*batch)(const void *what, long calls); /* the calls' processor time in ns; NULL: not measured */
    const void *what;
    long calls;
    double ns[MAX_ROUNDS]; /* one call's time, by round */
};

/* This process's processor time in ns: time that other processes take is not in it. */
double clock_ns(void);

/* Fits calls to a batch of batch_ns, then runs every item once a round, there and back in turn. */
void measure(struct item **items, int count, int rounds, double batch_ns);

/* Stops the program if a call of the library was refused: such a time would mean nothing. */
void expect_done(unsigned number);

/* The median and, as a share of it, the distance between the quartiles. */
struct summary {
    double median, spread;
};

/* Of the item's times, each less the time of less (may be NULL) in the same round. */
struct summary item_time(const struct item *item, const struct item *less, int rounds);

/* The median and the quartiles. */
struct ratio {
    double low, median, high;
};

/* Of (a - less_a) / (b - less_b) over the rounds; either less may be NULL. */
struct ratio item_ratio(const struct item *a, const struct item *less_a, const struct item *b, const struct item *less_b,
                        int rounds);

#endif
