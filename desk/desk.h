/*
 * What the subcommands of the desk's command share: the exit statuses, what main.c knows of a subcommand, and messages.
 * A subcommand is one file over include/rvghash.h. A new one gets a line here and one in the table of main.c.
 */
#ifndef DESK_H
#define DESK_H

#include <stddef.h>
#include <stdint.h>

/* The exit statuses of every subcommand. Where several apply the largest is given. */
enum status {
    STATUS_DONE = 0,  /* all was done */
    STATUS_WRONG = 1, /* something in the input is wrong or differs, and was told */
    STATUS_FAILED = 2 /* bad usage, a file that cannot be read or is refused, or an output that cannot be written */
};

/* An option of a subcommand. main.c itself takes --help and --version. */
struct option {
    const char *name;  /* with its dashes */
    const char *value; /* what the usage line calls the word after it, or NULL where it takes none */
};
#define MOST_OPTIONS 4 /* of a subcommand */

/* The command line after the subcommand's name. */
struct arguments {
    int count; /* of the operands: the words that are no option and no option's value */
    char **operands;
    const char *given[MOST_OPTIONS]; /* in the order of the table: an option's value, or its name; NULL if it is not there */
};

struct subcommand {
    const char *name;
    const struct option *options; /* ended by one without a name; NULL if it has none */
    const char *operands;         /* as the usage line shows them */
    const char *summary;          /* one line, for the list of subcommands */
    const char *help;             /* what --help says after the usage line */
    enum status (*run)(const struct arguments *arguments);
};

extern const struct subcommand links_command;
extern const struct subcommand list_command;
extern const struct subcommand replay_command;
extern const struct subcommand words_command;

/* Tells what is wrong with the command line, with the word meant if there is one, and how the subcommand is used. */
enum status bad_usage(const struct subcommand *command, const char *what, const char *word);

/* Where a line of input stands. */
struct place {
    const char *file;
    unsigned long line; /* from 1 */
};

enum status worse(enum status a, enum status b);

/* Bytes of an input or of the command line between quotes, safe for a terminal and of bounded length. */
#define SHOWN_BYTES 40
struct quoted {
    char text[4 * SHOWN_BYTES + sizeof "\"\"..."];
};
struct quoted quoted(const uint8_t *bytes, size_t length);

/* Tells what is wrong with a line, and shows the bytes meant. */
enum status wrong_line(const struct place *at, const char *what, const uint8_t *bytes, size_t length);

/* Tells how many records agree. */
void tell_agree(size_t count);

/* Tells by errno why a file cannot be read or written. */
enum status cannot(const char *file);

/* Writes out what standard output still holds back: the status if all of it could be written, else STATUS_FAILED. */
enum status end_output(enum status status);

#endif
