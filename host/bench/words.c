/*
 * Encodes, checks and times the eight words of document 01.
 */
#include "words.h"

#include <string.h>

#include "found.h" /* HAVE_EARLIER: the earlier build's SHA-256, if run was given one */
#include "inputs.h"
#include "measure.h"
#include "plain.h"
#include "rvghash.h"

enum { VD = 8, VS2 = 16, VS1 = 24, RS1 = 5 };

/* Document 01's table, a row a line. */
static const struct {
    const char *name;
    uint32_t funct6, vs1, funct3, opcode;
} rows[WORDS] = {
    [VCLMUL_VV] = {"vclmul.vv", 0x0C, VS1, 2, 0x57},   [VCLMUL_VX] = {"vclmul.vx", 0x0C, RS1, 6, 0x57},
    [VCLMULH_VV] = {"vclmulh.vv", 0x0D, VS1, 2, 0x57}, [VCLMULH_VX] = {"vclmulh.vx", 0x0D, RS1, 6, 0x57},
    [VGHSH_VV] = {"vghsh.vv", 0x2C, VS1, 2, 0x77},     [VGHSH_VS] = {"vghsh.vs", 0x23, VS1, 2, 0x77},
    [VGMUL_VV] = {"vgmul.vv", 0x28, 17, 2, 0x77},      [VGMUL_VS] = {"vgmul.vs", 0x29, 17, 2, 0x77},
};

const struct settings all_settings[CASES] = {
    {128, 1, 64}, {128, 8, 64}, {512, 1, 64}, {512, 8, 64}, {512, 8, 32}, {512, 8, 16}, {512, 8, 8},
};

typedef uint32_t execute_function(uint32_t word, uint32_t vlen, uint32_t sew, uint32_t lmul, uint32_t vl,
                                  uint32_t *vstart, uint64_t scalar, uint8_t *file, size_t file_len);

#ifdef HAVE_EARLIER
execute_function earlier_rvghash_execute; /* run renames it so */
static execute_function *const earlier_execute = earlier_rvghash_execute;
const char *const earlier_name = HAVE_EARLIER;
#else
static execute_function *const earlier_execute = NULL;
const char *const earlier_name = NULL;
#endif

const char *word_name(int word) { return rows[word].name; }

static int is_ghash(int word) { return word >= VGHSH_VV; }

int word_count(int word) { return is_ghash(word) ? SETTINGS : CASES; }

int earlier_has(int word, int number) { return earlier_name && !is_ghash(word) && number >= WIDEST; }

static size_t file_length(const struct word_case *c) { return (size_t)32 * c->settings.vlen / 8; }

uint32_t word_parts(const struct word_case *c) { return is_ghash(c->word) ? c->vl / 4 : c->vl; }

void word_make(struct word_case *c, int word, int number, uint64_t *seed)
{
    c->word = word;
    c->settings = all_settings[number];
    c->code = rows[word].funct6 << 26 | 1u << 25 | VS2 << 20 | rows[word].vs1 << 15 | rows[word].funct3 << 12 |
              VD << 7 | rows[word].opcode;
    c->sew = is_ghash(word) ? 32 : c->settings.sew;
    c->vl = c->settings.lmul * c->settings.vlen / c->sew;
    c->scalar = random_next(seed);
    random_fill(seed, c->file, sizeof c->file);
}

static uint8_t *part(const struct word_case *c, uint8_t *file, uint32_t reg, uint32_t byte)
{
    return file + reg * c->settings.vlen / 8 + byte;
}

static uint64_t load_element(const uint8_t *bytes, uint32_t length)
{
    uint64_t v = 0;
    for (uint32_t i = length; i > 0; i--)
        v = v << 8 | bytes[i - 1];
    return v;
}

static void expect_element(const struct word_case *c, uint8_t *file, uint32_t i)
{
    int scalar = c->word == VCLMUL_VX || c->word == VCLMULH_VX;
    int upper = c->word == VCLMULH_VV || c->word == VCLMULH_VX;
    uint32_t length = c->sew / 8, at = i * length;
    uint64_t low, high, half;
    uint64_t b = scalar ? c->scalar & UINT64_MAX >> (64 - c->sew) : load_element(part(c, file, VS1, at), length);
    plain_clmul(load_element(part(c, file, VS2, at), length), b, &low, &high);
    half = !upper ? low : c->sew == 64 ? high : low >> c->sew; /* under SEW 64 low holds the whole product */
    for (uint32_t k = 0; k < length; k++)
        part(c, file, VD, at)[k] = (uint8_t)(half >> 8 * k);
}

static void expect_group(const struct word_case *c, uint8_t *file, uint32_t i)
{
    int adds = c->word == VGHSH_VV || c->word == VGHSH_VS;
    int one_key = c->word == VGHSH_VS || c->word == VGMUL_VS;
    uint8_t u[16];
    for (int k = 0; k < 16; k++)
        u[k] = part(c, file, VD, 16 * i)[k] ^ (adds ? part(c, file, VS1, 16 * i)[k] : 0);
    plain_product(part(c, file, VS2, one_key ? 0 : 16 * i), u, part(c, file, VD, 16 * i));
}

static uint32_t run(execute_function *execute, const struct word_case *c, uint8_t *file)
{
    uint32_t vstart = 0;
    return execute(c->code, c->settings.vlen, c->sew, c->settings.lmul, c->vl, &vstart, c->scalar, file,
                   file_length(c));
}

static int agrees(execute_function *execute, const struct word_case *c)
{
    uint8_t expected[sizeof c->file], file[sizeof c->file];
    memcpy(expected, c->file, sizeof expected);
    memcpy(file, c->file, sizeof file);
    for (uint32_t i = 0; i < word_parts(c); i++)
        (is_ghash(c->word) ? expect_group : expect_element)(c, expected, i);
    return run(execute, c, file) == RVGHASH_DONE && memcmp(file, expected, sizeof file) == 0;
}

static double batch(execute_function *execute, const struct word_case *c, long calls)
{
    uint8_t file[sizeof c->file];
    memcpy(file, c->file, sizeof file);
    double start = clock_ns();
    for (long i = 0; i < calls; i++)
        run(execute, c, file);
    return clock_ns() - start;
}

int word_agrees(const struct word_case *c) { return agrees(rvghash_execute, c); }
int earlier_agrees(const struct word_case *c) { return agrees(earlier_execute, c); }

double word_batch(const void *word_case, long calls) { return batch(rvghash_execute, word_case, calls); }
double earlier_batch(const void *word_case, long calls) { return batch(earlier_execute, word_case, calls); }

double group_products_batch(const void *word_case, long calls)
{
    const struct word_case *c = word_case;
    uint8_t keys[sizeof c->file], y[2][sizeof c->file]; /* products go from one y to the other and back */
    memcpy(keys, c->file, sizeof keys);
    memcpy(y[0], c->file, sizeof y[0]);
    double start = clock_ns();
    for (long i = 0; i < calls; i++)
        for (uint32_t g = 0; g < word_parts(c); g++)
            expect_done(rvghash_product_fast(part(c, keys, VS2, 16 * g), 16, part(c, y[i % 2], VD, 16 * g), 16,
                                             part(c, y[1 - i % 2], VD, 16 * g), 16));
    return clock_ns() - start;
}
