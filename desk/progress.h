/* A line on standard error that tells how far a long work is: rewritten in place, and cleared at the end. */
#ifndef PROGRESS_H
#define PROGRESS_H

#include <stddef.h>
#include <stdio.h>

/* The records of one call of the library, after which the progress is told. */
#define RUN_RECORDS 16384

struct progress {
    int seen;         /* 0: nothing is written */
    const char *what; /* the subcommand */
    size_t all;       /* records */
    int columns;      /* of the line that stands there now */
};

int on_terminal(FILE *f);

void tell_progress(struct progress *progress, size_t done);
void clear_progress(struct progress *progress);

#endif
