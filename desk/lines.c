/* Reads lines from files or standard input, turns the item of each, and writes the lines to standard output. */
#include <stdio.h>
#include <string.h>

#include "files.h"
#include "lines.h"

#define MOST_BYTES 4095 /* of a line; LINES_HELP says so too */

struct line {
    struct place at;
    const char *wrong; /* NULL, or why it is no line of text */
    size_t length;     /* without the newline, and not more than MOST_BYTES */
    uint8_t bytes[MOST_BYTES];
};

/* Reads the next line; gives 0 at the end of the file, or where it cannot be read. */
static int read_line(FILE *f, struct line *line)
{
    int c = getc(f);
    if (c == EOF)
        return 0;
    line->at.line++;
    line->wrong = NULL;
    line->length = 0;
    for (; c != EOF && c != '\n'; c = getc(f)) {
        if (line->length == MOST_BYTES) {
            line->wrong = "the line has more than 4095 bytes";
            continue;
        }
        if (c == '\0')
            line->wrong = "the line holds a zero byte";
        line->bytes[line->length++] = (uint8_t)c;
    }
    return !ferror(f);
}

static int blank(uint8_t c)
{
    return c == ' ' || c == '\t';
}

/* Turns one line. Its item begins after the blanks, and ends before blanks, a comment and a last carriage return. */
static enum status turn_line(turn_item *turn, const struct line *line)
{
    const uint8_t *bytes = line->bytes, *comment = memchr(bytes, '#', line->length);
    size_t start = 0, end = comment != NULL ? (size_t)(comment - bytes) : line->length;
    struct turned to = {{0}, 0};
    if (line->wrong != NULL)
        return wrong_line(&line->at, line->wrong, bytes, line->length);
    if (comment == NULL && end > 0 && bytes[end - 1] == '\r')
        end--;
    while (end > 0 && blank(bytes[end - 1]))
        end--;
    while (start < end && blank(bytes[start]))
        start++;
    const char *wrong = start < end ? turn(bytes + start, end - start, &to) : NULL;
    if (wrong != NULL)
        return wrong_line(&line->at, wrong, bytes + start, end - start);
    fwrite(bytes, 1, start, stdout);
    fwrite(to.bytes, 1, to.length, stdout);
    fwrite(bytes + end, 1, line->length - end, stdout);
    putchar('\n');
    return STATUS_DONE;
}

/* An output that cannot be written ends the reading, which could be endless; end_output tells it. */
static enum status turn_file(turn_item *turn, const char *name)
{
    struct line line = {.at = {shown_name(name), 0}};
    enum status status = STATUS_DONE;
    FILE *f = open_input(name);
    if (f == NULL)
        return cannot(name);
    while (!ferror(stdout) && read_line(f, &line))
        status = worse(status, turn_line(turn, &line));
    if (ferror(f))
        status = cannot(line.at.file);
    close_input(f);
    return status;
}

enum status turn_lines(turn_item *turn, int count, char **files)
{
    enum status status = STATUS_DONE;
    if (count == 0)
        return turn_file(turn, "-");
    for (int i = 0; i < count && !ferror(stdout); i++)
        status = worse(status, turn_file(turn, files[i]));
    return status;
}
