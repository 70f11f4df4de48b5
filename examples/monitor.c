/*
 * An example monitor: takes trapped words with their settings from a text file, executes each on a register file
 * with rvghash_execute_policies, and prints what it did. Read it to learn how to call the library.
 *
 *     monitor [--record TRACE [--registers REGISTERS]] FILE
 *
 * A line of the file is one of these; # begins a comment.
 *     vlen N                                                clears the register file for this VLEN
 *     reg R HEX                                             bytes for register R, from its first byte on
 *     trap WORD SEW LMUL VL VSTART SCALAR [ta|tu ma|mu]     a trapped word (WORD and SCALAR in hex, 0x or not)
 * ta and ma are the tail and mask policies of vtype, in the words of vsetvli; without them it is tu mu.
 *
 * --record writes a record of each call to TRACE, for rvghash_replay. --registers writes the register file that a
 * replay starts from to REGISTERS, byte for byte: as it was before the first record, or at the end where there is none.
 * Two things have no place in a trace. Each is told with its line, every time, and the run goes on:
 *     a trap whose SEW or LMUL is over 255    it is always refused, so a replay lacks nothing
 *     a vlen or reg after the first record    a replay goes on with the registers as they were
 *
 * Exit status: 0 if every line was taken, and a refused word is an answer like any other; 1 if a line is wrong, which
 * is told with its number and ends the run, and TRACE holds the records so far; 2 if the usage is wrong, the file
 * cannot be read, or the answers, TRACE or REGISTERS cannot be written.
 */
#include <ctype.h>
#include <errno.h>
#include <inttypes.h>
#include <stdio.h>
#include <stdlib.h>
#include <string.h>

#include "rvghash.h"

#define MAX_VLEN 512
#define MAX_FILE RVGHASH_FILE_BYTES(MAX_VLEN)
#define MAX_LINE 511
#define MAX_WORDS 9

/* Where the records go. A file that was not asked for is NULL. */
struct recording {
    FILE *trace, *registers;
    int begun; /* the first record is reached, or the end */
};

struct machine {
    uint32_t vlen;
    uint8_t file[MAX_FILE];
    struct recording recording;
};

/* A trapped word and what rvghash_execute_policies takes with it; vstart as it was before the call. */
struct call {
    uint32_t word, sew, lmul, vl, vstart;
    bool tail_agnostic, mask_agnostic;
    uint64_t scalar;
};

/* The trapped word and its text, for the listing alone: the executor decodes the word itself. A text has no zero byte
 * at its end, and at most 30 bytes. */
static void print_word(uint32_t word)
{
    uint8_t text[RVGHASH_TEXT_BYTES];
    size_t length;
    if (rvghash_disassemble(word, text, sizeof text, &length) == RVGHASH_DONE)
        printf("%08" PRIx32 " %-30.*s", word, (int)length, (const char *)text);
    else
        printf("%08" PRIx32 " %-30s", word, "(no such word)");
}

static const char *meaning_of(uint32_t number)
{
    switch (number) {
    case RVGHASH_DONE: return "done";
    case RVGHASH_BAD_VLEN_OR_FILE: return "VLEN or the file's length is not allowed";
    case RVGHASH_NOT_A_WORD: return "the word is none of the eight";
    case RVGHASH_BAD_SETTINGS: return "SEW or LMUL is not allowed, or vl is over VLMAX";
    case RVGHASH_SEW_NOT_32: return "a GHASH word and SEW is not 32";
    case RVGHASH_NOT_MULTIPLE_OF_4: return "a GHASH word and vl or vstart is no multiple of 4";
    case RVGHASH_BAD_GROUP: return "a register group's number is no multiple of LMUL";
    case RVGHASH_KEY_OVERLAP: return "a .vs word and vd <= vs2 < vd + LMUL";
    case RVGHASH_MASK_OVERLAP: return "vm is 0 and a register group is register 0";
    default: return "unknown number";
    }
}

static void print_register(const struct machine *m, unsigned r)
{
    size_t bytes = m->vlen / 8;
    printf("    v%-2u =", r);
    for (size_t i = 0; i < bytes; i++)
        printf("%s%02x", i % 16 == 0 ? " " : "", m->file[r * bytes + i]);
    printf("\n");
}

/* Where the line that is being read stands. */
struct place {
    const char *file;
    unsigned long line;
};

static void tell(const struct place *at, const char *text, const char *what)
{
    fprintf(stderr, "%s:%lu: %s: %s\n", at->file, at->line, text, what);
}

/* Tells what is wrong with a line, and gives 0 for "not taken". */
static int wrong(const struct place *at, const char *text, const char *what)
{
    tell(at, text, what);
    return 0;
}

/* Tells by errno why a file cannot be opened or read, and gives the status. */
static int cannot(const char *name)
{
    fprintf(stderr, "%s: %s\n", name, strerror(errno));
    return 2;
}

/* Writes the registers that a replay starts from, once. */
static void begin_recording(struct recording *r, const uint8_t *file, size_t length)
{
    if (!r->begun && r->registers != NULL)
        fwrite(file, 1, length, r->registers);
    r->begun = 1;
}

/* Records a call and its answer. `before` is the register file as the call found it. */
static void record(struct machine *m, const struct place *at, const struct call *c, uint32_t answer,
                   const uint8_t *before)
{
    uint8_t bytes[RVGHASH_RECORD_BYTES];
    if (m->recording.trace == NULL)
        return;
    uint32_t number = rvghash_put_record(c->word, c->sew, c->lmul, c->tail_agnostic, c->mask_agnostic, answer, c->vl,
                                         c->vstart, c->scalar, bytes, sizeof bytes);
    if (number != RVGHASH_DONE) {
        tell(at, "trap", "not recorded, SEW or LMUL is over 255");
        return;
    }
    begin_recording(&m->recording, before, RVGHASH_FILE_BYTES(m->vlen));
    fwrite(bytes, 1, sizeof bytes, m->recording.trace);
}

/* Tells that a line which is no trap has changed the registers after the first record. */
static void tell_change(const struct machine *m, const struct place *at, const char *text)
{
    if (m->recording.begun)
        tell(at, text, "not recorded, a replay goes on with the registers as they were");
}

/* Executes a trapped word, records it, and lists the registers that changed. */
static void trap(struct machine *m, const struct place *at, const struct call *c)
{
    uint8_t before[MAX_FILE];
    size_t bytes = m->vlen / 8, length = RVGHASH_FILE_BYTES(m->vlen);
    uint32_t vstart = c->vstart;
    memcpy(before, m->file, length);
    uint32_t number = rvghash_execute_policies(c->word, m->vlen, c->sew, c->lmul, c->tail_agnostic, c->mask_agnostic,
                                               c->vl, &vstart, c->scalar, m->file, length);
    record(m, at, c, number, before);
    print_word(c->word);
    printf("  %s, %s  answer %" PRIu32 ": %s; vstart %s %" PRIu32 "\n", c->tail_agnostic ? "ta" : "tu",
           c->mask_agnostic ? "ma" : "mu", number, meaning_of(number), number == RVGHASH_DONE ? "is now" : "stays",
           vstart);
    unsigned changed = 0;
    for (unsigned r = 0; r < 32 && bytes > 0; r++)
        if (memcmp(before + r * bytes, m->file + r * bytes, bytes) != 0) {
            print_register(m, r);
            changed++;
        }
    if (changed == 0)
        printf("    no register changed\n");
}

static int digit(int c)
{
    if (c >= '0' && c <= '9')
        return c - '0';
    c = tolower(c);
    return c >= 'a' && c <= 'f' ? c - 'a' + 10 : 16;
}

/* Reads a whole word as a number, at most `most`; no sign, and 0x only in front of hex. */
static int number(const struct place *at, const char *word, int base, uint64_t most, uint64_t *to)
{
    const char *text = word;
    uint64_t value = 0;
    if (base == 16 && text[0] == '0' && (text[1] == 'x' || text[1] == 'X'))
        text += 2;
    if (*text == '\0')
        return wrong(at, word, "not a number");
    for (; *text != '\0'; text++) {
        int d = digit((unsigned char)*text);
        if (d >= base)
            return wrong(at, word, base == 16 ? "not a number in hex" : "not a number");
        if (value > (most - (uint64_t)d) / (uint64_t)base)
            return wrong(at, word, "the number is too large");
        value = value * (uint64_t)base + (uint64_t)d;
    }
    *to = value;
    return 1;
}

static int small(const struct place *at, const char *word, int base, uint32_t most, uint32_t *to)
{
    uint64_t value;
    if (!number(at, word, base, most, &value))
        return 0;
    *to = (uint32_t)value;
    return 1;
}

/* Reads a policy by its two words; it is off where the line has none. */
static int policy(const struct place *at, const char *word, const char *on, const char *off, const char *neither,
                  bool *to)
{
    *to = word != NULL && strcmp(word, on) == 0;
    return word == NULL || *to || strcmp(word, off) == 0 ? 1 : wrong(at, word, neither);
}

static int take_vlen(struct machine *m, const struct place *at, char **words)
{
    uint32_t vlen;
    if (!small(at, words[1], 10, MAX_VLEN, &vlen))
        return 0;
    m->vlen = vlen;
    memset(m->file, 0, sizeof m->file);
    tell_change(m, at, words[0]);
    return 1;
}

static int take_reg(struct machine *m, const struct place *at, char **words)
{
    uint32_t r;
    const char *hex = words[2];
    size_t bytes = m->vlen / 8, digits = strlen(hex);
    if (!small(at, words[1], 10, 31, &r))
        return 0;
    if (digits % 2 != 0)
        return wrong(at, hex, "half a byte is missing");
    if (digits / 2 > bytes)
        return wrong(at, hex, "more bytes than a register has");
    for (size_t i = 0; i < digits; i++)
        if (digit((unsigned char)hex[i]) > 15)
            return wrong(at, hex, "not all digits are hex");
    for (size_t i = 0; i < digits / 2; i++)
        m->file[r * bytes + i] = (uint8_t)(digit((unsigned char)hex[2 * i]) * 16 + digit((unsigned char)hex[2 * i + 1]));
    tell_change(m, at, words[0]);
    return 1;
}

static int take_trap(struct machine *m, const struct place *at, char **words)
{
    struct call c;
    if (!small(at, words[1], 16, UINT32_MAX, &c.word) || !small(at, words[2], 10, UINT32_MAX, &c.sew) ||
        !small(at, words[3], 10, UINT32_MAX, &c.lmul) || !small(at, words[4], 10, UINT32_MAX, &c.vl) ||
        !small(at, words[5], 10, UINT32_MAX, &c.vstart) || !number(at, words[6], 16, UINT64_MAX, &c.scalar) ||
        !policy(at, words[7], "ta", "tu", "not ta or tu", &c.tail_agnostic) ||
        !policy(at, words[8], "ma", "mu", "not ma or mu", &c.mask_agnostic))
        return 0;
    trap(m, at, &c);
    return 1;
}

/* Takes one line, without its end; gives 0 where it is wrong. */
static int take_line(struct machine *m, const struct place *at, char *line)
{
    static const struct {
        const char *name, *form;
        int least, most; /* words: one of both, and no number between */
        int (*take)(struct machine *, const struct place *, char **);
    } kinds[] = {
        {"vlen", "must be: vlen N", 2, 2, take_vlen},
        {"reg", "must be: reg R HEX", 3, 3, take_reg},
        {"trap", "must be: trap WORD SEW LMUL VL VSTART SCALAR [ta|tu ma|mu]", 7, 9, take_trap},
    };
    char *words[MAX_WORDS] = {NULL};
    int count = 0;
    line[strcspn(line, "#")] = '\0';
    for (char *word = strtok(line, " \t\r"); word != NULL; word = strtok(NULL, " \t\r"), count++)
        if (count < MAX_WORDS)
            words[count] = word;
    if (count == 0)
        return 1;
    for (size_t i = 0; i < sizeof kinds / sizeof kinds[0]; i++)
        if (strcmp(words[0], kinds[i].name) == 0)
            return count == kinds[i].least || count == kinds[i].most ? kinds[i].take(m, at, words)
                                                                     : wrong(at, words[0], kinds[i].form);
    return wrong(at, words[0], "not vlen, reg, trap or a comment");
}

/* Reads one line, without its end: 1 if there is one, 0 at the end of the file or if it cannot be read, -1 if it is no
 * line of text that fits. */
static int read_line(FILE *f, char line[MAX_LINE + 1])
{
    int length = 0, c = fgetc(f);
    if (c == EOF)
        return 0;
    for (; c != EOF && c != '\n'; c = fgetc(f)) {
        if (c == '\0' || length == MAX_LINE)
            return -1;
        line[length++] = (char)c;
    }
    line[length] = '\0';
    return ferror(f) ? 0 : 1;
}

static int take_file(struct machine *m, FILE *f, const char *name)
{
    struct place at = {name, 1};
    char line[MAX_LINE + 1];
    int read;
    for (; (read = read_line(f, line)) > 0; at.line++)
        if (!take_line(m, &at, line))
            return 1;
    if (read < 0) {
        wrong(&at, "the line", "longer than 511 bytes, or has a zero byte");
        return 1;
    }
    return ferror(f) ? cannot(name) : 0;
}

/* Opens an output where its name was given: 0, or 2 if it cannot be. */
static int open_output(FILE **f, const char *name)
{
    return name == NULL || (*f = fopen(name, "wb")) != NULL ? 0 : cannot(name);
}

/* Closes an output: the status if all of it was written, else 2. The errno of an earlier write that failed is gone. */
static int end_output(FILE *f, const char *name, int status)
{
    if (f == NULL)
        return status;
    int failed = ferror(f);
    if (fclose(f) == 0 && !failed)
        return status;
    fprintf(stderr, "%s: %s\n", name, failed ? "not all of it could be written" : strerror(errno));
    return 2;
}

/* The names on the command line; NULL for an option that is not there. */
struct names {
    const char *trace, *registers, *file;
};

/* Takes the command line. No name begins with -, so that an option whose name is missing is seen. */
static int take_names(int argc, char **argv, struct names *n)
{
    int i = 1;
    for (; i + 1 < argc && argv[i + 1][0] != '-'; i += 2) {
        const char **to = NULL;
        if (strcmp(argv[i], "--record") == 0)
            to = &n->trace;
        if (strcmp(argv[i], "--registers") == 0)
            to = &n->registers;
        if (to == NULL || *to != NULL)
            return 0;
        *to = argv[i + 1];
    }
    if (i + 1 != argc || argv[i][0] == '-')
        return 0;
    n->file = argv[i];
    return n->registers == NULL || n->trace != NULL;
}

/* Takes the file, and writes what was asked for. */
static int run(FILE *f, const struct names *n)
{
    static struct machine m = {128, {0}, {NULL, NULL, 0}};
    struct recording *r = &m.recording;
    int status = open_output(&r->trace, n->trace);
    if (status == 0)
        status = open_output(&r->registers, n->registers);
    if (status == 0)
        status = take_file(&m, f, n->file);
    begin_recording(r, m.file, RVGHASH_FILE_BYTES(m.vlen));
    status = end_output(r->trace, n->trace, status);
    status = end_output(r->registers, n->registers, status);
    return end_output(stdout, "monitor: standard output", status);
}

int main(int argc, char **argv)
{
    struct names names = {NULL, NULL, NULL};
    if (!take_names(argc, argv, &names)) {
        fprintf(stderr, "usage: monitor [--record TRACE [--registers REGISTERS]] FILE\n");
        return 2;
    }
    FILE *f = fopen(names.file, "r"); /* first, so that no output is written over for nothing */
    if (f == NULL)
        return cannot(names.file);
    int status = run(f, &names);
    fclose(f);
    return status;
}
