/*
 * Filters that go line by line: one item of a line is turned into another, and every other byte stays as it is, so that
 * two filters can undo each other.
 */
#ifndef LINES_H
#define LINES_H

#include "desk.h"
#include "rvghash.h"

/* What is written in place of an item. */
struct turned {
    char bytes[RVGHASH_TEXT_BYTES];
    size_t length;
};

/* Turns an item, of one byte at least; gives NULL, or what is wrong with it. */
typedef const char *turn_item(const uint8_t *item, size_t length, struct turned *to);

/* Turns the item of each line of the files, to standard output. No file at all, or -, is standard input. */
enum status turn_lines(turn_item *turn, int count, char **files);

/* What --help says of every such filter. */
#define LINES_HELP \
    "All other bytes stay: blanks around it, comments (from # to the end of the line), blank lines, a carriage\n" \
    "return before the newline. A wrong line is told with its file and number, and nothing is written for it; the\n" \
    "others are still done. A line has at most 4095 bytes, and no zero byte.\n" \
    "Without a FILE, and for -, standard input is read, which messages call <stdin>.\n"

#endif
