/*
 * The desk's command: finds the subcommand, takes the options, its own and those that all have, and hands on the other words.
 *
 *     rvghash COMMAND [ARGUMENT...]
 */
#include <stdio.h>
#include <string.h>

#include "desk.h"
#include "rvghash.h"

static const struct subcommand *const commands[] = {&list_command, &words_command, &replay_command, &links_command};
#define COMMANDS (sizeof commands / sizeof commands[0])

static const struct subcommand *find(const char *name)
{
    for (size_t i = 0; i < COMMANDS; i++)
        if (strcmp(name, commands[i]->name) == 0)
            return commands[i];
    return NULL;
}

/* The options of a subcommand beside those that all have. One without a name ends them. */
static const struct option *options_of(const struct subcommand *command)
{
    static const struct option none = {NULL, NULL};
    return command != NULL && command->options != NULL ? command->options : &none;
}

/* How a subcommand is used, or with NULL the whole command. */
static void usage(FILE *to, const struct subcommand *command)
{
    if (command != NULL) {
        fprintf(to, "usage: rvghash %s [--help] [--version]", command->name);
        for (const struct option *o = options_of(command); o->name != NULL; o++)
            fprintf(to, " [%s%s%s]", o->name, o->value != NULL ? " " : "", o->value != NULL ? o->value : "");
        fprintf(to, " [--] %s\n", command->operands);
        return;
    }
    fprintf(to, "usage: rvghash [--help] [--version] COMMAND [ARGUMENT...]\n\n");
    for (size_t i = 0; i < COMMANDS; i++)
        fprintf(to, "    rvghash %-7s %s\n", commands[i]->name, commands[i]->summary);
    fprintf(to, "\nrvghash COMMAND --help says more.\n");
}

static enum status help(const struct subcommand *command)
{
    usage(stdout, command);
    if (command != NULL)
        printf("\n%s", command->help);
    printf("\nExit status: 0 if all was done; 1 if something in the input is wrong or differs, which is told; 2 for bad\n"
           "usage, a file that cannot be read or is refused, or an output that cannot be written.\n");
    return STATUS_DONE;
}

enum status bad_usage(const struct subcommand *command, const char *what, const char *word)
{
    if (word != NULL)
        fprintf(stderr, "rvghash: %s: %s\n", what, quoted((const uint8_t *)word, strlen(word)).text);
    else
        fprintf(stderr, "rvghash: %s\n", what);
    usage(stderr, command);
    return STATUS_FAILED;
}

/* A - alone is standard input, and no option. */
static int is_option(const char *word)
{
    return word[0] == '-' && word[1] != '\0';
}

/* Takes an option of the subcommand, and goes on to the word after it if that is its value; gives NULL, or what is wrong. */
static const char *take_option(const struct subcommand *command, char **argv, int *i, struct arguments *to)
{
    const struct option *options = options_of(command);
    size_t at = 0;
    while (options[at].name != NULL && strcmp(argv[*i], options[at].name) != 0)
        at++;
    if (options[at].name == NULL)
        return "no such option";
    if (to->given[at] != NULL)
        return "the option is given twice";
    if (options[at].value != NULL && (argv[*i + 1] == NULL || is_option(argv[*i + 1])))
        return "the option has no value";
    *i += options[at].value != NULL;
    to->given[at] = argv[*i];
    return NULL;
}

int main(int argc, char **argv)
{
    const struct subcommand *command = NULL;
    struct arguments arguments = {0, NULL, {NULL}};
    int first = 1, ended = 0;
    if (argc > 1 && !is_option(argv[1])) {
        if ((command = find(argv[1])) == NULL)
            return bad_usage(NULL, "no such command", argv[1]);
        first = 2;
    }
    for (int i = first; i < argc; i++) {
        if (ended || !is_option(argv[i])) {
            argv[first + arguments.count++] = argv[i];
        } else if (strcmp(argv[i], "--") == 0) {
            ended = 1;
        } else if (strcmp(argv[i], "--help") == 0) {
            return end_output(help(command));
        } else if (strcmp(argv[i], "--version") == 0) {
            printf("rvghash %s\n", RVGHASH_VERSION_STRING);
            return end_output(STATUS_DONE);
        } else {
            const char *wrong = take_option(command, argv, &i, &arguments);
            if (wrong != NULL)
                return bad_usage(command, wrong, argv[i]);
        }
    }
    if (command == NULL) {
        usage(stderr, NULL);
        return STATUS_FAILED;
    }
    arguments.operands = argv + first;
    return end_output(command->run(&arguments));
}
