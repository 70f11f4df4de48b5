/* Opens files by their names, and reads and writes them whole. The memory grows with the file, so no length is a limit. */
#include <errno.h>
#include <stdlib.h>
#include <string.h>

#include "files.h"

#define FIRST_ROOM 65536

static int is_standard_input(const char *name)
{
    return strcmp(name, "-") == 0;
}

FILE *open_input(const char *name)
{
    return is_standard_input(name) ? stdin : fopen(name, "rb");
}

void close_input(FILE *f)
{
    if (f != stdin)
        fclose(f);
}

const char *shown_name(const char *name)
{
    return is_standard_input(name) ? "<stdin>" : name;
}

/* Doubles the room; gives 0, with errno, where that much memory cannot be had. */
static int grow(struct bytes *bytes, size_t *room)
{
    size_t wanted = *room > 0 ? 2 * *room : FIRST_ROOM;
    uint8_t *at = *room <= SIZE_MAX / 2 ? realloc(bytes->at, wanted) : NULL;
    if (at == NULL) {
        errno = ENOMEM;
        return 0;
    }
    bytes->at = at;
    *room = wanted;
    return 1;
}

/* The loop ends at the end of the file, or with errno where it cannot be read or there is no more memory. */
enum status read_whole(const char *name, struct bytes *to)
{
    FILE *f = open_input(name);
    size_t room = 0;
    if (f == NULL)
        return cannot(name);
    while (!feof(f) && !ferror(f) && (to->length < room || grow(to, &room)))
        to->length += fread(to->at + to->length, 1, room - to->length, f);
    enum status status = feof(f) ? STATUS_DONE : cannot(shown_name(name));
    close_input(f);
    return status;
}

/* The last bytes may reach the file only when it is closed. */
enum status write_whole(const char *name, const struct bytes *from)
{
    FILE *f = fopen(name, "wb");
    enum status status = STATUS_DONE;
    if (f == NULL)
        return cannot(name);
    if (fwrite(from->at, 1, from->length, f) != from->length)
        status = cannot(name);
    if (fclose(f) != 0 && status == STATUS_DONE)
        status = cannot(name);
    return status;
}

enum status whole_records(const char *name, const struct bytes *file, size_t record_bytes, int refusal)
{
    size_t records = file->length / record_bytes, torn = file->length % record_bytes;
    if (torn == 0)
        return STATUS_DONE;
    fprintf(stderr, "%s: refused (%d): the length %zu is no multiple of %zu: record %zu is torn after %zu of its bytes\n",
            shown_name(name), refusal, file->length, record_bytes, records, torn);
    return STATUS_FAILED;
}
