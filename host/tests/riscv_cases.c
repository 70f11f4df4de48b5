/*
 * Runs the oracle's cases on a RISC-V library, without a C library, so that one source serves every ABI:
 *
 *     riscv_cases FILE
 *
 * Each buffer lies in a mapping of its own with an untouchable page at either end. After a call the answer, the buffers
 * and the bytes around them must be as the oracle says. It ends with 1 at the first difference.
 */
#include "riscv_bare.h"
#include "riscv_cases.h"

#include "rvghash.h"

#define PAGE 4096
#define ROOM (6 * PAGE) /* for the longest buffer and the bytes around it */
#define AROUND 64

/* Memory for a buffer, and what it must hold. */
struct place {
    uint8_t *memory, *expected;
    size_t at;
};

static struct place new_place(void)
{
    uint8_t *whole = map(ROOM + 2 * PAGE, 0);
    if (system_call(SYS_mprotect, (long)(whole + PAGE), ROOM, 3, 0, 0, 0) != 0)
        leave(2);
    return (struct place){whole + PAGE, map(ROOM, 1), 0};
}

/* Lends a buffer: against the page in front, against the page behind, or in between. */
static void *lend(struct place *p, const struct lent *l, uint32_t turn)
{
    size_t last = ROOM - l->length, in_between = AROUND + turn % 61;
    p->at = (turn % 3 == 0 ? 0 : turn % 3 == 1 ? last : in_between) / l->align * l->align;
    for (size_t i = p->at < AROUND ? 0 : p->at - AROUND; i < p->at + l->length + AROUND && i < ROOM; i++)
        p->memory[i] = p->expected[i] = (uint8_t)(turn * 31 + i);
    memcpy(p->memory + p->at, l->content, l->length);
    memcpy(p->expected + p->at, l->content, l->length);
    memcpy(p->expected + p->at + l->change_at, l->change, l->change_length);
    return l->length == 0 && turn % 2 == 0 ? (uint8_t *)1 : p->memory + p->at;
}

static int as_expected(const struct place *p, const struct lent *l)
{
    for (size_t i = p->at < AROUND ? 0 : p->at - AROUND; i < p->at + l->length + AROUND && i < ROOM; i++)
        if (p->memory[i] != p->expected[i])
            return 0;
    return 1;
}

static uint32_t answer_of(const struct call *c, void *const b[MAX_LENT])
{
    const uint64_t *n = c->scalar;
    size_t l[MAX_LENT];
    for (int i = 0; i < MAX_LENT; i++)
        l[i] = c->buffer[i].length;
    switch (c->function) {
    case EXECUTE:
        return rvghash_execute((uint32_t)n[WORD], (uint32_t)n[VLEN], (uint32_t)n[SEW], (uint32_t)n[LMUL], (uint32_t)n[VL],
                               b[0], n[SCALAR], b[1], l[1]);
    case EXECUTE_POLICIES:
        return rvghash_execute_policies((uint32_t)n[WORD], (uint32_t)n[VLEN], (uint32_t)n[SEW], (uint32_t)n[LMUL],
                                        n[TAIL_AGNOSTIC], n[MASK_AGNOSTIC], (uint32_t)n[VL], b[0], n[SCALAR], b[1], l[1]);
    case STEP_BACK: return rvghash_step_back(b[0], l[0], b[1], l[1], b[2], l[2], b[3], l[3]);
    case GHASH_FAST: return rvghash_ghash_fast(b[0], l[0], b[1], l[1], b[2], l[2], b[3], l[3]);
    case GHASH_PLAIN: return rvghash_ghash_plain(b[0], l[0], b[1], l[1], b[2], l[2], b[3], l[3]);
    case FEED_A: return rvghash_feed_a(b[0], b[1], l[1], b[2], l[2]);
    case FEED_A_PLAIN: return rvghash_feed_a_plain(b[0], b[1], l[1], b[2], l[2]);
    case FEED_C: return rvghash_feed_c(b[0], b[1], l[1], b[2], l[2]);
    case FEED_C_PLAIN: return rvghash_feed_c_plain(b[0], b[1], l[1], b[2], l[2]);
    case FINISH: return rvghash_finish(b[0], b[1], l[1], b[2], l[2]);
    case FINISH_PLAIN: return rvghash_finish_plain(b[0], b[1], l[1], b[2], l[2]);
    case PARK: return rvghash_park(b[0], b[1], l[1]);
    case UNPARK: return rvghash_unpark(b[0], b[1], l[1]);
    case CHECK_LINKS: return rvghash_check_links(b[0], l[0], b[1], l[1], b[2], l[2]);
    case ENCODE:
        return rvghash_encode((uint32_t)n[KIND], (uint32_t)n[VM], (uint32_t)n[VS2], (uint32_t)n[VS1], (uint32_t)n[VD],
                              b[0]);
    case DECODE: return rvghash_decode((uint32_t)n[WORD], b[0], b[1], b[2], b[3], b[4]);
    case DISASSEMBLE: return rvghash_disassemble((uint32_t)n[WORD], b[0], l[0], b[1]);
    case ASSEMBLE: return rvghash_assemble(b[0], l[0], b[1]);
    case PUT_RECORD:
        return rvghash_put_record((uint32_t)n[OF_WORD], (uint32_t)n[OF_SEW], (uint32_t)n[OF_LMUL], n[OF_TAIL_AGNOSTIC],
                                  n[OF_MASK_AGNOSTIC], (uint32_t)n[OF_ANSWER], (uint32_t)n[OF_VL],
                                  (uint32_t)n[OF_VSTART], n[OF_SCALAR], b[0], l[0]);
    default: return rvghash_replay((uint32_t)n[0], b[0], l[0], b[1], l[1], b[2]);
    }
}

static uint64_t done[FUNCTIONS];

static int run_call(const struct call *c, struct place *places, uint32_t turn)
{
    void *b[MAX_LENT] = {NULL};
    for (uint32_t i = 0; i < c->buffers; i++)
        b[i] = lend(&places[i], &c->buffer[i], turn + i);
    uint32_t answer = answer_of(c, b);
    int same = answer == c->answer;
    for (uint32_t i = 0; i < c->buffers; i++)
        same &= as_expected(&places[i], &c->buffer[i]);
    if (same) {
        done[c->function]++;
        return 1;
    }
    put("cases: DIFFERENCE in call ");
    put_number(turn);
    put(" of the file, function ");
    put_number(c->function);
    put(": answer ");
    put_number(answer);
    put(", expected ");
    put_number(c->answer);
    put("\n");
    return 0;
}

/* Tells how many calls there were, which must be so many at least. */
static int told(const char *what, int from, int to, uint64_t least)
{
    uint64_t n = 0;
    for (int i = from; i <= to; i++)
        n += done[i];
    put(" ");
    put_number(n);
    put(what);
    return n >= least;
}

int run(int argc, char **argv)
{
    struct place places[MAX_LENT];
    struct call c;
    size_t length, magic = sizeof CASES_MAGIC - 1;
    if (argc != 2)
        return 2;
    const uint8_t *file = map_file(argv[1], &length), *at = file + magic;
    for (int i = 0; i < MAX_LENT; i++)
        places[i] = new_place();
    for (size_t i = 0; i < magic; i++)
        if (file[i] != (uint8_t)CASES_MAGIC[i])
            return 2;
    for (uint32_t turn = 0; at < file + length; turn++) {
        at = take_call(at, &c);
        if (at == NULL || at > file + length) {
            put("cases: the file is not as the oracle writes it\n");
            return 2;
        }
        if (!run_call(&c, places, turn))
            return 1;
    }
    put("cases:");
    int enough = told(" executions and", EXECUTE, EXECUTE, 20000) &
                 told(" with policies,", EXECUTE_POLICIES, EXECUTE_POLICIES, 10000) &
                 told(" hashes,", GHASH_FAST, GHASH_PLAIN, 1000) &
                 told(" step backs,", STEP_BACK, STEP_BACK, 1000) &
                 told(" calls on running hashes,", FEED_A, FINISH_PLAIN, 10000) &
                 told(" parked,", PARK, PARK, 5000) & told(" read back,", UNPARK, UNPARK, 5000) &
                 told(" checks of links,", CHECK_LINKS, CHECK_LINKS, 2000) &
                 told(" calls on words and texts,", ENCODE, ASSEMBLE, 20000) &
                 told(" records,", PUT_RECORD, PUT_RECORD, 2000) & told(" replays", REPLAY, REPLAY, 1000);
    put(enough ? ", no difference\n" : ": too few\n");
    return enough ? 0 : 1;
}
