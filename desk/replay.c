/* rvghash replay: executes the records of a trace on a register file, and finds the first answer that differs from ours. */
#include <inttypes.h>
#include <stdlib.h>
#include <string.h>

#include "numbers.h"
#include "progress.h"
#include "rvghash.h"
#include "trace.h"

enum { SHOW, WRITE, ZERO };
static const struct option options[MOST_OPTIONS + 1] = {
    [SHOW] = {"--show", NULL},
    [WRITE] = {"--write", "FILE"},
    [ZERO] = {"--zero", NULL},
};

/* What is replayed, and how far. */
struct replay {
    uint32_t vlen;
    const char *registers_name; /* NULL: every register is zero */
    const char *trace_name;
    const char *write_name; /* where the register file goes afterwards, or NULL */
    int show;               /* whether there is a line for each record */
    struct bytes registers, trace;
    size_t records; /* of the trace */
    size_t agree;   /* the records replayed so far, whose answers are all ours */
};

/* Reads a decimal number of 32 bits; gives 0 where the text is none. */
static int read_vlen(const char *text, uint32_t *vlen)
{
    uint64_t value = 0;
    if (*text == '\0')
        return 0;
    for (; *text >= '0' && *text <= '9' && value <= UINT32_MAX; text++)
        value = 10 * value + (uint64_t)(*text - '0');
    *vlen = (uint32_t)value;
    return *text == '\0' && value <= UINT32_MAX;
}

static enum status take_arguments(const struct arguments *arguments, struct replay *r)
{
    char **words = arguments->operands;
    int zero = arguments->given[ZERO] != NULL, wanted = zero ? 2 : 3;
    if (arguments->count < wanted)
        return bad_usage(&replay_command, zero ? "VLEN and TRACE are needed" : "VLEN, REGISTERS and TRACE are needed", NULL);
    if (arguments->count > wanted)
        return bad_usage(&replay_command, "one word too many", words[wanted]);
    if (!read_vlen(words[0], &r->vlen))
        return bad_usage(&replay_command, "VLEN is no decimal number of 32 bits", words[0]);
    r->registers_name = zero ? NULL : words[1];
    r->trace_name = words[wanted - 1];
    r->write_name = arguments->given[WRITE];
    r->show = arguments->given[SHOW] != NULL;
    if (!zero && strcmp(words[1], "-") == 0 && strcmp(words[2], "-") == 0)
        return bad_usage(&replay_command, "REGISTERS and TRACE are both standard input", "-");
    if (r->write_name != NULL && strcmp(r->write_name, "-") == 0)
        return bad_usage(&replay_command, "--write needs a file, not standard output", "-");
    return STATUS_DONE;
}

static int is_allowed(uint32_t vlen)
{
    return vlen == 128 || vlen == 256 || vlen == 512;
}

/* A VLEN that is not allowed has no register file; there are no bytes then. */
static enum status zero_registers(struct replay *r)
{
    size_t length = is_allowed(r->vlen) ? RVGHASH_FILE_BYTES(r->vlen) : 0;
    r->registers.at = calloc(length + 1, 1);
    if (r->registers.at == NULL)
        return cannot("--zero");
    r->registers.length = length;
    return STATUS_DONE;
}

/* Reads both files, and refuses the trace before anything runs. */
static enum status read_files(struct replay *r)
{
    enum status status = r->registers_name != NULL ? read_whole(r->registers_name, &r->registers) : zero_registers(r);
    status = worse(status, read_whole(r->trace_name, &r->trace));
    if (status != STATUS_DONE)
        return status;
    r->records = r->trace.length / RVGHASH_RECORD_BYTES;
    return look_through(r->trace_name, &r->trace);
}

/* Notes why every call will answer 1. That is no error: the records may say so too. */
static void note_refusals(const struct replay *r)
{
    size_t wanted = RVGHASH_FILE_BYTES(r->vlen);
    if (!is_allowed(r->vlen))
        fprintf(stderr, "rvghash: note: VLEN %" PRIu32 " is not 128, 256 or 512, so every call answers 1\n", r->vlen);
    else if (r->registers.length != wanted)
        fprintf(stderr, "rvghash: note: %s: the length is %zu, and not %zu as VLEN %" PRIu32 " has it, so every call answers 1\n",
                shown_name(r->registers_name), r->registers.length, wanted, r->vlen);
}

struct listing {
    char text[RVGHASH_TEXT_BYTES];
};

static struct listing listing_of(uint32_t word)
{
    struct listing listing = {"(no such word)"};
    size_t length;
    if (rvghash_disassemble(word, (uint8_t *)listing.text, sizeof listing.text, &length) == RVGHASH_DONE)
        listing.text[length] = '\0';
    return listing;
}

/* The policies of a record, in the words of vsetvli. */
static const char *policies_of(const struct record *record)
{
    static const char *const words[2][2] = {{"tu, mu", "tu, ma"}, {"ta, mu", "ta, ma"}};
    return words[record->tail_agnostic][record->mask_agnostic];
}

/* Shows the next record in a line. Its columns have room for the settings of every call that can be done. */
static void show_record(const struct replay *r)
{
    struct record record = record_of(&r->trace, r->agree);
    struct listing listing = listing_of(record.word);
    int digits = snprintf(NULL, 0, "%zu", r->records - 1);
    printf("%*zu  0x%08" PRIX32 " %-30s  SEW %2" PRIu32 "  LMUL %" PRIu32 "  %s  vl %3" PRIu32 "  vstart %3" PRIu32
           "  scalar 0x%016" PRIX64 "  answer %" PRIu32 "\n",
           digits, r->agree, record.word, listing.text, record.sew, record.lmul, policies_of(&record), record.vl,
           record.vstart, record.scalar, record.answer);
}

/* Replays the next records, and counts those that agree. Runs one after the other are the same as the whole. */
static uint32_t replay_run(struct replay *r, size_t most)
{
    size_t left = r->records - r->agree, count = left < most ? left : most, index;
    const uint8_t *run = r->trace.at + RVGHASH_RECORD_BYTES * r->agree;
    uint32_t number = rvghash_replay(r->vlen, r->registers.at, r->registers.length, run, RVGHASH_RECORD_BYTES * count, &index);
    r->agree += index;
    return number;
}

/* Lines that go to a terminal tell the progress themselves. */
static uint32_t replay_runs(struct replay *r)
{
    struct progress progress = {.what = "replay", .all = r->records};
    uint32_t number = RVGHASH_DONE;
    progress.seen = r->records > RUN_RECORDS && on_terminal(stderr) && !(r->show && on_terminal(stdout));
    while (number == RVGHASH_DONE && r->agree < r->records) {
        if (r->agree % RUN_RECORDS == 0)
            tell_progress(&progress, r->agree);
        if (r->show)
            show_record(r);
        number = replay_run(r, r->show ? 1 : RUN_RECORDS);
    }
    clear_progress(&progress);
    return number;
}

/* Our answer to a record. The register file stays as it is: a copy is written. */
static enum status answer_of(const struct replay *r, const struct record *record, uint32_t *answer)
{
    uint32_t vstart = record->vstart;
    size_t length = r->registers.length;
    uint8_t *copy = malloc(length + 1);
    if (copy == NULL)
        return cannot("a copy of the register file");
    memcpy(copy, r->registers.at, length);
    *answer = rvghash_execute_policies(record->word, r->vlen, record->sew, record->lmul, record->tail_agnostic,
                                       record->mask_agnostic, record->vl, &vstart, record->scalar, copy, length);
    free(copy);
    return STATUS_DONE;
}

static enum status tell_difference(const struct replay *r)
{
    struct record record = record_of(&r->trace, r->agree);
    struct listing listing = listing_of(record.word);
    uint32_t ours = RVGHASH_DONE;
    if (answer_of(r, &record, &ours) != STATUS_DONE)
        return STATUS_FAILED;
    printf("record %zu differs: 0x%08" PRIX32 " %s\n", r->agree, record.word, listing.text);
    printf("    SEW %" PRIu32 ", LMUL %" PRIu32 ", %s, vl %" PRIu32 ", vstart %" PRIu32 ", scalar 0x%016" PRIX64 "\n",
           record.sew, record.lmul, policies_of(&record), record.vl, record.vstart, record.scalar);
    printf("    recorded answer %" PRIu32 ": %s\n", record.answer, meaning_of_answer(record.answer));
    printf("    our answer %" PRIu32 ": %s\n", ours, meaning_of_answer(ours));
    return STATUS_WRONG;
}

/* A trace that was looked through has no other number. */
static enum status tell_end(const struct replay *r, uint32_t number)
{
    if (number != RVGHASH_DONE && number != RVGHASH_DIFFERS)
        return cannot_be("replay", shown_name(r->trace_name), r->agree, number);
    tell_agree(r->agree);
    return number == RVGHASH_DONE ? STATUS_DONE : tell_difference(r);
}

static enum status replay_files(struct replay *r)
{
    enum status status = read_files(r);
    if (status != STATUS_DONE)
        return status;
    note_refusals(r);
    status = tell_end(r, replay_runs(r));
    if (status != STATUS_FAILED && r->write_name != NULL)
        status = worse(status, write_whole(r->write_name, &r->registers));
    return status;
}

static enum status replay(const struct arguments *arguments)
{
    struct replay r = {0};
    enum status status = take_arguments(arguments, &r);
    if (status == STATUS_DONE)
        status = replay_files(&r);
    free(r.registers.at);
    free(r.trace.at);
    return status;
}

const struct subcommand replay_command = {
    "replay", options, "VLEN [REGISTERS] TRACE", "a recorded trace, up to the first answer that differs",
    "Executes the records of TRACE one after the other on the register file, and compares each answer with ours. It\n"
    "writes how many agree, and of the first that differs the index (from 0), the word and its text, the settings,\n"
    "the recorded answer and ours. The tail and mask policies are shown as vsetvli has them: ta or tu, ma or mu. VLEN\n"
    "is a decimal number. REGISTERS holds the register file before the first record, register r from byte\n"
    "r * VLEN / 8 on. TRACE holds records of 24 bytes, as rvghash.h has them. One of both may be -, standard input.\n\n"
    "    --show         writes a line for each record before it is replayed\n"
    "    --write FILE   writes the register file as it is afterwards; at a difference, as it was before that record\n"
    "    --zero         every register is zero at first; there is no REGISTERS then\n\n"
    "A trace with a torn record, or with a policy byte over 3, is refused (14) with the place, and nothing runs or is\n"
    "written. A VLEN or a length of REGISTERS that is not allowed is noted: every call then answers 1. A difference\n"
    "is status 1, a refused trace status 2. A trace that a version before 0.4.0 recorded may differ at a .vs word\n"
    "with vd < vs2 < vd + LMUL, which was done then and is refused (7) now. A trace with ta or ma needs version 0.5.0:\n"
    "those before it refuse its policy bytes.\n",
    replay,
};
