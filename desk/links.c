/* rvghash links: checks many links under one key, and tells which do not agree. No message shows a byte of the key. */
#include <stdlib.h>
#include <string.h>

#include "files.h"
#include "hex.h"
#include "numbers.h"
#include "progress.h"
#include "rvghash.h"

#define KEY_DIGITS (2 * RVGHASH_BLOCK_BYTES)
#define MOST_KEY_BYTES (KEY_DIGITS + 2) /* of a key's file: the digits and a line ending */

enum { RESULTS };
static const struct option options[MOST_OPTIONS + 1] = {
    [RESULTS] = {"--results", "FILE"},
};

/* What is checked, and how far. */
struct links {
    const char *key_name;
    const char *records_name;
    const char *results_name; /* where the results go afterwards, or NULL */
    uint8_t key[RVGHASH_BLOCK_BYTES];
    struct bytes records;
    struct bytes results; /* a byte for each record */
    size_t checked;       /* the records checked so far */
};

static enum status take_arguments(const struct arguments *arguments, struct links *l)
{
    char **words = arguments->operands;
    if (arguments->count < 2)
        return bad_usage(&links_command, "KEY and RECORDS are needed", NULL);
    if (arguments->count > 2)
        return bad_usage(&links_command, "one word too many", words[2]);
    l->key_name = words[0];
    l->records_name = words[1];
    l->results_name = arguments->given[RESULTS];
    if (strcmp(words[0], "-") == 0 && strcmp(words[1], "-") == 0)
        return bad_usage(&links_command, "KEY and RECORDS are both standard input", "-");
    if (l->results_name != NULL && strcmp(l->results_name, "-") == 0)
        return bad_usage(&links_command, "--results needs a file, not standard output", "-");
    return STATUS_DONE;
}

/* Reads a key in hex; gives 0 where the text is not 32 digits. */
static int read_digits(const uint8_t *text, size_t length, uint8_t *key)
{
    if (length != KEY_DIGITS)
        return 0;
    for (size_t i = 0; i < KEY_DIGITS; i += 2) {
        uint32_t high = hex_digit(text[i]), low = hex_digit(text[i + 1]);
        if (high > 15 || low > 15)
            return 0;
        key[i / 2] = (uint8_t)(high << 4 | low);
    }
    return 1;
}

/* The length of a text without its last line ending. */
static size_t without_ending(const uint8_t *text, size_t length)
{
    if (length == 0 || text[length - 1] != '\n')
        return length;
    return length > 1 && text[length - 2] == '\r' ? length - 2 : length - 1;
}

/* Takes the key from its file's bytes; gives 0 where they are none. */
static int take_key(const uint8_t *bytes, size_t length, uint8_t *key)
{
    if (length != RVGHASH_BLOCK_BYTES)
        return read_digits(bytes, without_ending(bytes, length), key);
    memcpy(key, bytes, length);
    return 1;
}

/* What messages call the key's file. A name of 32 hex digits is not shown: it may be the key, given in place of its file. */
static const char *shown_key_name(const char *name)
{
    uint8_t key[RVGHASH_BLOCK_BYTES];
    return read_digits((const uint8_t *)name, strlen(name), key) ? "KEY" : shown_name(name);
}

/* One byte more is read than a key's file has at most, so that a longer file is seen, and an endless one is not read on. */
static enum status read_key(const char *name, uint8_t *key)
{
    const char *shown = shown_key_name(name);
    uint8_t bytes[MOST_KEY_BYTES + 1];
    FILE *f = open_input(name);
    if (f == NULL)
        return cannot(shown);
    size_t length = fread(bytes, 1, sizeof bytes, f);
    enum status status = ferror(f) ? cannot(shown) : STATUS_DONE;
    close_input(f);
    if (status != STATUS_DONE || take_key(bytes, length, key))
        return status;
    int longer = length > MOST_KEY_BYTES;
    fprintf(stderr, "%s: not a key: neither 16 bytes nor 32 hex digits; the length is %s%zu\n", shown, longer ? "over " : "",
            longer ? MOST_KEY_BYTES : length);
    return STATUS_FAILED;
}

/* Reads both files, and refuses them before anything is checked. */
static enum status read_files(struct links *l)
{
    enum status status = read_key(l->key_name, l->key);
    if (status == STATUS_DONE)
        status = read_whole(l->records_name, &l->records);
    if (status == STATUS_DONE)
        status = whole_records(l->records_name, &l->records, RVGHASH_LINK_BYTES, RVGHASH_BAD_LINKS);
    if (status != STATUS_DONE)
        return status;
    l->results.length = l->records.length / RVGHASH_LINK_BYTES;
    l->results.at = malloc(l->results.length + 1);
    return l->results.at != NULL ? STATUS_DONE : cannot("the results");
}

/* Checks the next records. Runs one after the other are the same as the whole. */
static uint32_t check_run(struct links *l)
{
    size_t left = l->results.length - l->checked, count = left < RUN_RECORDS ? left : RUN_RECORDS;
    const uint8_t *run = l->records.at + RVGHASH_LINK_BYTES * l->checked;
    uint8_t *results = l->results.at + l->checked;
    uint32_t number = rvghash_check_links(l->key, sizeof l->key, run, RVGHASH_LINK_BYTES * count, results, count);
    if (number == RVGHASH_DONE)
        l->checked += count;
    return number;
}

static uint32_t check_runs(struct links *l)
{
    struct progress progress = {.what = "links", .all = l->results.length};
    uint32_t number = RVGHASH_DONE;
    progress.seen = l->results.length > RUN_RECORDS && on_terminal(stderr);
    while (number == RVGHASH_DONE && l->checked < l->results.length) {
        tell_progress(&progress, l->checked);
        number = check_run(l);
    }
    clear_progress(&progress);
    return number;
}

static size_t count_agreeing(const struct links *l)
{
    size_t agree = 0;
    for (size_t i = 0; i < l->results.length; i++)
        agree += l->results.at[i];
    return agree;
}

/* Our hash of the claim is not shown: with the claim it gives the key away. */
static void tell_record(const struct links *l, size_t index)
{
    const uint8_t *claim = l->records.at + RVGHASH_LINK_BYTES * index;
    printf("record %zu does not agree: claim ", index);
    for (size_t i = 0; i < RVGHASH_BLOCK_BYTES; i++)
        printf("%02X", claim[i]);
    putchar('\n');
}

static enum status tell_results(const struct links *l)
{
    size_t agree = count_agreeing(l), all = l->results.length;
    if (agree == all) {
        tell_agree(all);
        return STATUS_DONE;
    }
    printf("%zu of %zu records agree%s\n", agree, all, agree == 1 ? "s" : "");
    for (size_t i = 0; i < all; i++)
        if (l->results.at[i] == 0)
            tell_record(l, i);
    return STATUS_WRONG;
}

/* The results are written before they are told: whoever reads the lines may end early, and the command with it. */
static enum status check_files(struct links *l)
{
    enum status status = read_files(l);
    if (status != STATUS_DONE)
        return status;
    uint32_t number = check_runs(l);
    if (number != RVGHASH_DONE)
        return cannot_be("links", shown_name(l->records_name), l->checked, number);
    if (l->results_name != NULL)
        status = write_whole(l->results_name, &l->results);
    return worse(status, tell_results(l));
}

static enum status links(const struct arguments *arguments)
{
    struct links l = {0};
    enum status status = take_arguments(arguments, &l);
    if (status == STATUS_DONE)
        status = check_files(&l);
    free(l.records.at);
    free(l.results.at);
    return status;
}

const struct subcommand links_command = {
    "links", options, "KEY RECORDS", "many claim blocks and their hashes, checked under one key",
    "Checks the records of RECORDS, of 32 bytes each: a claim block, then the hash that is expected for it. A record\n"
    "agrees if GHASH of the claim block as A, with an empty C, is that hash. It writes how many agree, and of each that\n"
    "does not the index (from 0) and the claim block in hex. KEY is a file of 16 bytes, the key, or of 32 hex digits in\n"
    "either case, after which one line ending may stand. One of both may be -, standard input. The key is never\n"
    "written, nor a hash of ours.\n\n"
    "    --results FILE   writes a byte for each record: 1 if it agrees, else 0\n\n"
    "A file that is no key, and RECORDS whose length is no multiple of 32 (16), are refused, and nothing is checked or\n"
    "written. A record that does not agree is status 1, a refused file status 2. An empty RECORDS is status 0.\n",
    links,
};
