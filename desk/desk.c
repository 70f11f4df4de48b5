/* The messages and statuses that the subcommands share. */
#include <errno.h>
#include <stdio.h>
#include <string.h>

#include "desk.h"

enum status worse(enum status a, enum status b)
{
    return a > b ? a : b;
}

/* A byte that is not printable ASCII becomes \xNN. Dots after the quotes say that there are more bytes. */
struct quoted quoted(const uint8_t *bytes, size_t length)
{
    struct quoted q;
    char *to = q.text;
    *to++ = '"';
    for (size_t i = 0; i < length && i < SHOWN_BYTES; i++) {
        if (bytes[i] < ' ' || bytes[i] > '~') {
            to += sprintf(to, "\\x%02X", bytes[i]);
            continue;
        }
        if (bytes[i] == '"' || bytes[i] == '\\')
            *to++ = '\\';
        *to++ = (char)bytes[i];
    }
    strcpy(to, length > SHOWN_BYTES ? "\"..." : "\"");
    return q;
}

enum status wrong_line(const struct place *at, const char *what, const uint8_t *bytes, size_t length)
{
    fprintf(stderr, "%s:%lu: %s: %s\n", at->file, at->line, what, quoted(bytes, length).text);
    return STATUS_WRONG;
}

void tell_agree(size_t count)
{
    printf("%zu record%s\n", count, count == 1 ? " agrees" : "s agree");
}

enum status cannot(const char *file)
{
    fprintf(stderr, "rvghash: %s: %s\n", file, strerror(errno));
    return STATUS_FAILED;
}

enum status end_output(enum status status)
{
    return fflush(stdout) != 0 || ferror(stdout) ? cannot("standard output") : status;
}
