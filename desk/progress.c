/* Writes and clears the line. A shorter line never follows a longer one, since the count only grows. */
#define _POSIX_C_SOURCE 200112L /* isatty, fileno */
#include <unistd.h>

#include "progress.h"

int on_terminal(FILE *f)
{
    return isatty(fileno(f));
}

void tell_progress(struct progress *progress, size_t done)
{
    if (progress->seen)
        progress->columns = fprintf(stderr, "\r%s: %zu of %zu records", progress->what, done, progress->all) - 1;
}

/* Blanks, since not every terminal can erase a line. */
void clear_progress(struct progress *progress)
{
    if (progress->columns > 0)
        fprintf(stderr, "\r%*s\r", progress->columns, "");
    progress->columns = 0;
}
