/*
 * Holds the trap handler of examples/trap against the oracle's cases, on a core without the instructions:
 *
 *     riscv_traps FILE    each execution that this core's VLEN and CSRs allow traps with the whole machine state set: after it
 *                         every x, f and vector register and CSR must be as the oracle says. Then each execution, of any
 *                         VLEN, in a signal frame as Linux makes it.
 *     riscv_traps --core FILE
 *                         on a core that has Zvbc and Zvkg and makes agnostic elements ones: each execution that is done, of a
 *                         word that it has, by the core itself; the whole state compared as above
 *     riscv_traps         a refused word under the signal's default action, which must end the process
 */
#define _GNU_SOURCE
#include <fcntl.h>
#include <signal.h>
#include <stdio.h>
#include <stdlib.h>
#include <string.h>
#include <sys/mman.h>
#include <sys/stat.h>
#include <ucontext.h>
#include <unistd.h>

#include "../../examples/trap/trap.h"
#include "riscv_cases.h"
#include "rvghash.h"

/* The machine's state, as riscv_word.S has it. */
struct state {
    uint64_t x[32], f[32], fcsr, vl, vtype, vcsr, vstart;
    uint8_t file[RVGHASH_FILE_BYTES(512)];
};

extern const uint8_t word_start[], word_place[], word_end[];

static uint8_t *room;       /* the copy of riscv_word.S that is executed */
static size_t file_bytes;   /* of this core's register file */
static volatile unsigned long refusals;
static uint64_t seed = 1;

static uint64_t any(void)
{
    seed ^= seed << 13;
    seed ^= seed >> 7;
    seed ^= seed << 17;
    return seed;
}

static void fail(const char *what, const char *where)
{
    printf("traps: %s: %s\n", where, what);
    exit(1);
}

/* The name of a call of the file. */
static const char *call_name(unsigned long turn)
{
    static char name[40];
    snprintf(name, sizeof name, "call %lu of the file", turn);
    return name;
}

/* The action before the handler's: a refused word traps again and comes here, and is passed over. */
static void refused(int number, siginfo_t *info, void *context)
{
    unsigned long *pc = &((ucontext_t *)context)->uc_mcontext.__gregs[REG_PC];
    (void)number, (void)info;
    refusals++;
    *pc += (*(uint16_t *)*pc & 3) == 3 ? 4 : 2;
}

static void install_refused(void)
{
    struct sigaction action = {.sa_sigaction = refused, .sa_flags = SA_SIGINFO};
    if (sigaction(SIGILL, &action, NULL) != 0)
        fail("no handler", "sigaction");
}

static void install(void)
{
    install_refused();
    if (trap_install() != 0)
        fail("no handler", "trap_install");
}

static int handles(void (*handler)(int, siginfo_t *, void *))
{
    struct sigaction now;
    sigaction(SIGILL, NULL, &now);
    return now.sa_sigaction == handler;
}

/* Puts the word at a pc of 4-byte alignment, or of 2-byte alignment alone. */
static void put_word(uint32_t word, int odd)
{
    uint16_t parts[3] = {1, 1, 1}; /* c.nop */
    parts[odd] = (uint16_t)word;
    if ((word & 3) == 3)
        parts[odd + 1] = (uint16_t)(word >> 16);
    memcpy(room + (word_place - word_start), parts, sizeof parts);
    __builtin___clear_cache((char *)room, (char *)room + (word_end - word_start));
}

static int log2_of(uint64_t n)
{
    for (int i = 0; i < 64; i++)
        if (n == (uint64_t)1 << i)
            return i;
    return -1;
}

/* vtype for SEW, LMUL and the policies; 0 where it has no code for them. */
static int vtype_of(const struct call *c, uint64_t *vtype)
{
    int sew = log2_of(c->scalar[SEW]) - 3, lmul = log2_of(c->scalar[LMUL]);
    *vtype = c->scalar[MASK_AGNOSTIC] << 7 | c->scalar[TAIL_AGNOSTIC] << 6 | (uint64_t)sew << 3 | (uint64_t)lmul;
    return sew >= 0 && sew <= 3 && lmul >= 0 && lmul <= 3;
}

static uint32_t vstart_of(const struct call *c)
{
    const uint8_t *at = c->buffer[0].content;
    return take_u32(&at);
}

/* What a done word leaves: vstart 0, and the change to the file. The core must have taken the case's vl. */
static void expect(struct state *s, const struct call *c, const char *where)
{
    if (s->vl != c->scalar[VL])
        fail("the core takes another vl", where);
    if (c->answer != RVGHASH_DONE)
        return;
    s->vstart = 0;
    memcpy(s->file + c->buffer[1].change_at, c->buffer[1].change, c->buffer[1].change_length);
}

static unsigned rs1_of(const struct call *c) { return c->scalar[WORD] >> 15 & 31; }

/* sp, gp and tp, which a signal handler needs as they are. */
static int is_kept(unsigned x) { return x >= 2 && x <= 4; }

/* Whether this core can be brought to the case: its own VLEN, vl and vstart in range, one of the eight words, and the scalar
 * in a register that is not sp, gp or tp. */
static int allowed(const struct call *c)
{
    const uint64_t *n = c->scalar;
    int takes_scalar = (n[WORD] & 0x707F) == 0x6057;
    return c->answer != RVGHASH_NOT_A_WORD && n[VLEN] == file_bytes / 4 && c->buffer[1].length == file_bytes &&
           n[VL] * n[SEW] <= n[LMUL] * n[VLEN] && vstart_of(c) < n[VLEN] && !(takes_scalar && is_kept(rs1_of(c)));
}

/* Executes the word in a state, which gets what the core made of the CSRs; the state after it. */
static const struct state *executed(uint32_t word, struct state *s, int is_done, const char *where)
{
    static struct state after, unset;
    after = unset;
    put_word(word, (int)(any() & 1));
    unsigned long before = refusals;
    ((void (*)(struct state *, struct state *))(void *)room)(s, &after);
    if ((refusals == before) != is_done)
        fail(is_done ? "a word is refused" : "a word is not refused", where);
    return &after;
}

static void compare(const struct state *s, const struct state *after, const char *where)
{
    if (memcmp(s->file, after->file, file_bytes) != 0)
        fail("the vector registers differ", where);
    if (memcmp(s->x + 1, after->x + 1, sizeof s->x - 8) != 0 || memcmp(s->f, after->f, sizeof s->f) != 0)
        fail("the x or f registers differ", where);
    if (s->vstart != after->vstart)
        fail("vstart differs", where);
    if (s->fcsr != after->fcsr || s->vl != after->vl || s->vtype != after->vtype || s->vcsr != after->vcsr)
        fail("fcsr, vl, vtype or vcsr differs", where);
}

/* A word that traps: what the handler leaves, of the state and of the signal's action. */
static void trap(uint32_t word, struct state *s, int is_done, const struct call *c, const char *where)
{
    const struct state *after = executed(word, s, is_done, where);
    if (handles(trap_illegal) != is_done)
        fail("the signal's action is not as it must be", where);
    if (!is_done)
        install();
    if (c != NULL)
        expect(s, c, where);
    compare(s, after, where);
}

static struct state any_state(void)
{
    static struct state s;
    uint64_t *words = (uint64_t *)&s;
    for (size_t i = 0; i < sizeof s / 8; i++)
        words[i] = any();
    s.fcsr &= 0xFF;
    s.vcsr &= 7;
    s.fcsr %= 5 << 5; /* a rounding mode that is not reserved */
    return s;
}

static unsigned long live, live_refused, live_refused_in_course; /* with vstart not 0 */

/* The case's state, otherwise any; 0 where this core cannot be brought to it. */
static int state_of(const struct call *c, struct state *s)
{
    *s = any_state();
    if (!allowed(c) || !vtype_of(c, &s->vtype))
        return 0;
    s->vl = c->scalar[VL];
    s->vstart = vstart_of(c);
    s->x[rs1_of(c)] = c->scalar[SCALAR];
    memcpy(s->file, c->buffer[1].content, file_bytes);
    return 1;
}

static void trap_case(const struct call *c, const char *where)
{
    static struct state s;
    if (!state_of(c, &s))
        return;
    trap((uint32_t)c->scalar[WORD], &s, c->answer == RVGHASH_DONE, c, where);
    live++;
    live_refused += c->answer != RVGHASH_DONE;
    live_refused_in_course += c->answer != RVGHASH_DONE && vstart_of(c) != 0;
}

/* Whether a core with Zvbc and Zvkg has the word: carry-less words at SEW 64, vghsh.vv and vgmul.vv. */
static int core_has(const struct call *c)
{
    uint32_t word = (uint32_t)c->scalar[WORD], funct6 = word >> 26;
    return (word & 0x7F) == 0x57 ? c->scalar[SEW] == 64 : funct6 == 0x2C || funct6 == 0x28;
}

static unsigned long by_core, with_tail, with_mask; /* a tail that is agnostic; masked and mask agnostic */

static void core_case(const struct call *c, const char *where)
{
    static struct state s;
    const uint64_t *n = c->scalar;
    if (c->answer != RVGHASH_DONE || !core_has(c) || !state_of(c, &s))
        return;
    const struct state *after = executed((uint32_t)n[WORD], &s, 1, where);
    expect(&s, c, where);
    compare(&s, after, where);
    by_core++;
    if (vstart_of(c) >= n[VL])
        return;
    with_tail += n[TAIL_AGNOSTIC] && n[VL] * n[SEW] < n[LMUL] * n[VLEN];
    with_mask += n[MASK_AGNOSTIC] && (n[WORD] >> 25 & 1) == 0;
}

/* Refusals that no case of the oracle has. Each of these words would be done under the settings that a careless look at vtype
 * or at the word gives, and would then set vstart to 0. */
static void trap_others(void)
{
    enum { VCLMUL_VX = 0x3301E457 /* v8, v16, x3 */, VGHSH_VV = 0xB2862277 /* v4, v8, v12 */, E32 = 2 << 3 };
    static const struct { uint32_t word; uint64_t vtype; const char *what; } others[] = {
        {VCLMUL_VX, 4, "a reserved LMUL, which sets vill"},
        {VCLMUL_VX, 5, "LMUL 1/8"},
        {VCLMUL_VX, 6, "LMUL 1/4"},
        {VCLMUL_VX, 7, "LMUL 1/2"},
        {VGHSH_VV & ~(1u << 25), E32, "vghsh.vv with vm 0"},
        {0, E32, "the 16-bit word of zeros"},
    };
    for (size_t i = 0; i < sizeof others / sizeof others[0]; i++) {
        struct state s = any_state();
        s.vtype = others[i].vtype;
        s.vl = s.vstart = 4;
        trap(others[i].word, &s, 0, NULL, others[i].what);
        if (s.vstart != 4)
            fail("the core takes another vstart", others[i].what);
    }
}

/* A signal frame as Linux makes it: after the context's 520 bytes of floating-point state a header, the vector state, the
 * registers. */
struct frame {
    ucontext_t context;
    uint8_t rest[6 * 8 + RVGHASH_FILE_BYTES(512)];
};

struct vector_frame {
    uint32_t magic, size;
    uint64_t vstart, vl, vtype, vcsr, vlenb, file;
    uint8_t registers[RVGHASH_FILE_BYTES(512)];
};

static struct vector_frame *vector_of(struct frame *f)
{
    return (struct vector_frame *)((uint8_t *)&f->context.uc_mcontext.__fpregs + 520);
}

static unsigned long framed, framed_refused;

/* Hands the handler a frame, and compares every byte of it. */
static void frame_case(const struct call *c, const char *where)
{
    static struct frame f, expected;
    static uint16_t code[3];
    uint64_t vtype, *words = (uint64_t *)&f;
    size_t bytes = c->buffer[1].length;
    struct vector_frame *v = vector_of(&f), *e = vector_of(&expected);
    if (bytes != RVGHASH_FILE_BYTES(c->scalar[VLEN]) || bytes % 32 != 0 || bytes > sizeof v->registers ||
        !vtype_of(c, &vtype))
        return;
    for (size_t i = 0; i < sizeof f / 8; i++)
        words[i] = any();
    v->magic = 0x53465457;
    v->size = (uint32_t)(8 + 48 + bytes);
    v->vstart = vstart_of(c);
    v->vl = c->scalar[VL];
    v->vtype = vtype;
    v->vlenb = bytes / 32;
    v->file = (uint64_t)v->registers;
    memcpy(v->registers, c->buffer[1].content, bytes);
    uint32_t word = (uint32_t)c->scalar[WORD];
    code[1] = (uint16_t)word;
    code[2] = (uint16_t)(word >> 16);
    f.context.uc_mcontext.__gregs[word >> 15 & 31] = c->scalar[SCALAR];
    f.context.uc_mcontext.__gregs[REG_PC] = (unsigned long)&code[1];

    expected = f;
    if (c->answer == RVGHASH_DONE) {
        expected.context.uc_mcontext.__gregs[REG_PC] += 4;
        e->vstart = 0;
        memcpy(e->registers + c->buffer[1].change_at, c->buffer[1].change, c->buffer[1].change_length);
    }
    trap_illegal(SIGILL, NULL, &f.context);
    if (memcmp(&f, &expected, sizeof f) != 0)
        fail("the signal frame differs", where);
    if (handles(c->answer == RVGHASH_DONE ? refused : trap_illegal))
        fail("the signal's action is not as it must be", where);
    if (c->answer != RVGHASH_DONE)
        install();
    framed++;
    framed_refused += c->answer != RVGHASH_DONE;
}

static const uint8_t *map_file(const char *path, size_t *length)
{
    struct stat about;
    int file = open(path, O_RDONLY);
    if (file < 0 || fstat(file, &about) != 0) {
        perror(path);
        exit(2);
    }
    *length = (size_t)about.st_size;
    return mmap(NULL, *length, PROT_READ, MAP_PRIVATE, file, 0);
}

static void trap_and_frame_case(const struct call *c, const char *where)
{
    trap_case(c, where);
    frame_case(c, where);
}

static void all_cases(const char *path, void (*take)(const struct call *, const char *))
{
    struct call c;
    size_t length;
    const uint8_t *file = map_file(path, &length), *at = file + sizeof CASES_MAGIC - 1;
    for (unsigned long turn = 0; at != NULL && at < file + length; turn++) {
        at = take_call(at, &c);
        if (at == NULL)
            fail("the file is not as the oracle writes it", call_name(turn));
        if (c.function == EXECUTE || c.function == EXECUTE_POLICIES)
            take(&c, call_name(turn));
    }
}

/* vghsh.vv at SEW 8 with vstart 3, under the default action. */
static void fatal(void)
{
    trap_install();
    __asm__ volatile(".option push\n .option arch, +v\n vsetivli zero, 4, e8, m1, ta, ma\n csrwi vstart, 3\n"
                     ".insn 4, 0xB2862277\n .option pop");
}

static int on_the_core(const char *path)
{
    install_refused();
    all_cases(path, core_case);
    printf("core: VLEN %zu: %lu words executed by the core, %lu of them with an agnostic tail, %lu masked and mask agnostic; "
           "the whole state is as the oracle says\n",
           file_bytes / 4, by_core, with_tail, with_mask);
    return by_core < 500 || with_tail < 50 || with_mask < 50;
}

static int in_traps(const char *path)
{
    install();
    trap_others();
    all_cases(path, trap_and_frame_case);
    printf("traps: VLEN %zu: %lu words trapped, %lu of them refused, %lu of these with vstart not 0; in frames %lu, %lu refused; "
           "the whole state is as it must be\n",
           file_bytes / 4, live, live_refused, live_refused_in_course, framed, framed_refused);
    return live < 2000 || live_refused_in_course < 50 || framed < 10000;
}

int main(int argc, char **argv)
{
    unsigned long vlenb;
    __asm__ volatile("csrr %0, vlenb" : "=r"(vlenb));
    file_bytes = 32 * vlenb;
    if (argc < 2) {
        fatal();
        printf("traps: a refused word does not end the process\n");
        return 1;
    }
    room = mmap(NULL, 4096, PROT_READ | PROT_WRITE | PROT_EXEC, MAP_PRIVATE | MAP_ANONYMOUS, -1, 0);
    if (room == MAP_FAILED || file_bytes > RVGHASH_FILE_BYTES(512))
        fail("no memory, or VLEN is over 512", "set-up");
    memcpy(room, word_start, (size_t)(word_end - word_start));
    int few = argc > 2 && strcmp(argv[1], "--core") == 0 ? on_the_core(argv[2]) : in_traps(argv[1]);
    if (few)
        printf("traps: too few\n");
    return few;
}
