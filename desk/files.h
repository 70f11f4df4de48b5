/* Files as the subcommands read and write them: what - means as a file's name, and files that are taken whole. */
#ifndef FILES_H
#define FILES_H

#include <stdio.h>

#include "desk.h"

/* Opens a file for reading, or gives NULL. The name - is standard input, which close_input leaves open. */
FILE *open_input(const char *name);
void close_input(FILE *f);

/* What messages call a file. */
const char *shown_name(const char *name);

/* Bytes of any number, in memory of their own: not NULL even where there are none, and the holder's to free. */
struct bytes {
    uint8_t *at;
    size_t length;
};

/* Reads a file whole, or writes it whole. What fails is told; the bytes read so far are then still to be freed. */
enum status read_whole(const char *name, struct bytes *to);
enum status write_whole(const char *name, const struct bytes *from);

/* Tells where the last record of a file is torn, which is refused with this number. */
enum status whole_records(const char *name, const struct bytes *file, size_t record_bytes, int refusal);

#endif
