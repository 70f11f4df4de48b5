/*
 * Prints what was measured.
 */
#include <stdio.h>

#include "plan.h"
#include "remote.h"

#define MIB 1048576.0

#ifdef __clang__
#define COMPILER "clang " __clang_version__
#else
#define COMPILER "gcc " __VERSION__
#endif

/* Digits after the point that leave about three in all. */
static int digits(double v) { return v < 9.995 ? 2 : v < 99.95 ? 1 : 0; }

static void cell(double v) { printf(" %.*f |", digits(v), v); }

/* What is taken off a peer's times: its AES part, if it has one. */
static const struct item *less_of(const struct plan *plan, int peer)
{
    return plan->aes[peer].batch ? &plan->aes[peer] : NULL;
}

static struct summary hash_time(const struct plan *plan, int peer, int length)
{
    return item_time(&plan->hash[peer][length], less_of(plan, peer), plan->rounds);
}

/* How many times as fast as the peer the fast path is. */
static struct ratio speedup(const struct plan *plan, int peer, int length)
{
    return item_ratio(&plan->hash[peer][length], less_of(plan, peer), &plan->hash[FAST][length], NULL, plan->rounds);
}

static double throughput(const struct plan *plan, int peer, int length)
{
    return (double)plan->inputs.messages[length].length / MIB / (hash_time(plan, peer, length).median / 1e9);
}

static double time_of(const struct plan *plan, const struct item *item)
{
    return item_time(item, NULL, plan->rounds).median;
}

static struct ratio ratio(const struct plan *plan, const struct item *a, const struct item *b)
{
    return item_ratio(a, NULL, b, NULL, plan->rounds);
}

static uint32_t parts_of(const struct item *word) { return word_parts(word->what); }

/* One element's or group's time. */
static double part_time(const struct plan *plan, const struct item *word)
{
    return time_of(plan, word) / parts_of(word);
}

/* An element's time over that of plain C's loop. */
static struct ratio element_over_c(const struct plan *plan, const struct item *word)
{
    struct ratio r = ratio(plan, word, &plan->c_clmul);
    double parts = parts_of(word);
    return (struct ratio){r.low / parts, r.median / parts, r.high / parts};
}

/* What is taken off a checker's times. */
static const struct item *links_less(const struct plan *plan, int checker)
{
    return checker == OPENSSL_LINKS ? &plan->links_aes : NULL;
}

/* How many times as fast as the checker rvghash_check_links is. */
static struct ratio links_speedup(const struct plan *plan, int checker)
{
    return item_ratio(&plan->checker[checker], links_less(plan, checker), &plan->checker[CHECK_LINKS], NULL,
                      plan->rounds);
}

static void report_how(const struct plan *plan)
{
    printf("Each figure is the median of %d rounds in one run. A round times every entry once, in a batch of about "
           "%.3g ms of\nprocessor time, in one order and the other in turn. A ratio is the median of the rounds' own "
           "ratios. Spread is the\ndistance between the quartiles in percent of the median. All peers had the same "
           "keys and messages, and their results\nwere compared with ours before the first round.\n\n",
           plan->rounds, plan->batch_ns / 1e6);
    printf("- the benchmark and its plain C: " COMPILER " with -O2\n");
    peers_versions();
}

enum side { AT_LEAST, AT_MOST };

/* A target is met, or missed, where the quartiles are on one side of its bound; else the run does not show which. */
static void target(const char *text, enum side side, double bound, struct ratio r)
{
    double better = side == AT_LEAST ? r.high - bound : bound - r.low;
    double worse = side == AT_LEAST ? r.low - bound : bound - r.high;
    printf("| %s | %s %g | %.2f | %.2f to %.2f | %s |\n", text, side == AT_LEAST ? "at least" : "at most", bound, r.median,
           r.low, r.high, worse >= 0 ? "met" : better < 0 ? "**missed**" : "**not shown**");
}

static void speed_target(const struct plan *plan, const char *text, int peer, int length, double least)
{
    if (peers[peer].missing) {
        printf("| %s | at least %g | – | – | not measured: %s |\n", text, least, peers[peer].missing);
        return;
    }
    target(text, AT_LEAST, least, speedup(plan, peer, length));
}

static void report_targets(const struct plan *plan)
{
    printf("\n## Targets\n\nA target is met where both quartiles of the rounds are on its side of the bound, missed where both "
           "are on the other, and\nelse not shown by this run.\n\n"
           "| target | wanted | median | quartiles | |\n|---|---|---|---|---|\n");
    speed_target(plan, "1 MiB, fast path: speed over libgcrypt's with hardware features off", LIBGCRYPT, LONG, 1.25);
    speed_target(plan, "1 MiB, fast path: speed over BearSSL ctmul64's", BEARSSL_CTMUL64, LONG, 2.2);
    speed_target(plan, "64 bytes, new key, fast path: speed over BearSSL ctmul64's", BEARSSL_CTMUL64, SHORT, 1.6);
    target("vghsh.vv, VLEN 512, LMUL 8: time over that of its 32 fast products, a new key each", AT_MOST, 1.4,
           ratio(plan, &plan->word[VGHSH_VV][WIDEST], &plan->group_products));
    target("step back: time over that of a fast product with a new key", AT_MOST, 60,
           ratio(plan, &plan->step_back, &plan->fast_product));
    target("vclmul.vv, SEW 64, VLEN 512, LMUL 8: time of an element over plain C's loop with masks", AT_MOST, 0.55,
           element_over_c(plan, &plan->word[VCLMUL_VV][WIDEST]));
    target("vclmulh.vv, SEW 64, VLEN 512, LMUL 8: time of an element over plain C's loop with masks", AT_MOST, 0.55,
           element_over_c(plan, &plan->word[VCLMULH_VV][WIDEST]));
    target("10,000 links under one key: speed over one rvghash_ghash_fast call a record", AT_LEAST, 2.2,
           links_speedup(plan, FAST_LINKS));
}

static void report_peer(const struct plan *plan, int peer)
{
    printf("| %s |", peers[peer].name);
    if (peers[peer].missing) {
        printf(" not measured: %s | | | | | |\n", peers[peer].missing);
        return;
    }
    cell(throughput(plan, peer, LONG));
    printf(" %.1f %% |", 100 * hash_time(plan, peer, LONG).spread);
    cell(speedup(plan, peer, LONG).median);
    cell(hash_time(plan, peer, SHORT).median);
    printf(" %.1f %% |", 100 * hash_time(plan, peer, SHORT).spread);
    cell(speedup(plan, peer, SHORT).median);
    printf("\n");
}

static void report_hashes(const struct plan *plan)
{
    printf("\n## GHASH, a new key for each message\n\n"
           "\"Fast path\" is how many times as fast as the row our fast path is.\n\n"
           "| | 1 MiB: MiB/s | spread | fast path | 64 bytes: ns | spread | fast path |\n"
           "|---|--:|--:|--:|--:|--:|--:|\n");
    for (int p = 0; p < PEERS; p++)
        report_peer(plan, p);
    printf("\n![Throughput by message length](throughput.svg)\n");
}

static void report_words_from(const struct plan *plan, int first, int last)
{
    for (int w = first; w <= last; w++) {
        printf("| %s |", word_name(w));
        for (int s = 0; s < SETTINGS; s++) {
            cell(time_of(plan, &plan->word[w][s]));
            cell(part_time(plan, &plan->word[w][s]));
        }
        printf("\n");
    }
}

/* One table: the words of one kind, each setting with the time of a word and of one of its parts. */
static void report_words(const struct plan *plan, const char *part, int sew, int first, int last)
{
    printf("\n| SEW %d |", sew);
    for (int s = 0; s < SETTINGS; s++)
        printf(" VLEN %u, LMUL %u: word | %s (of %u) |", (unsigned)all_settings[s].vlen, (unsigned)all_settings[s].lmul,
               part, (unsigned)word_parts(&plan->word_cases[first][s]));
    printf("\n|---|");
    for (int s = 0; s < SETTINGS; s++)
        printf("--:|--:|");
    printf("\n");
    report_words_from(plan, first, last);
}

static void product_row(const struct plan *plan, const char *text, const struct item *item)
{
    printf("| %s |", text);
    cell(time_of(plan, item));
    cell(ratio(plan, item, &plan->fast_product).median);
    printf("\n");
}

static void report_products(const struct plan *plan)
{
    printf("\n## Products and step back, a new key for each call\n\n| | ns | over a fast product |\n|---|--:|--:|\n");
    product_row(plan, "rvghash_product_fast", &plan->fast_product);
    product_row(plan, "rvghash_product_plain", &plan->plain_product);
    product_row(plan, "plain C, bit by bit", &plan->c_product);
    product_row(plan, "rvghash_step_back", &plan->step_back);
}

/* The carry-less words' cases go from the narrowest to SEW 64, a column or a row each. */
static void report_carryless(const struct plan *plan)
{
    printf("\n## Carry-less products\n\n"
           "An element at VLEN 512, LMUL 8, reading and writing included. \"Over C\" is its time over plain C's loop "
           "with masks, which\nat every SEW is the same one: both halves of a 64-bit product.\n\n| |");
    for (int i = NARROWEST; i >= WIDEST; i--)
        printf(" SEW %u: ns | over C |", (unsigned)all_settings[i].sew);
    printf("\n|---|--:|--:|--:|--:|--:|--:|--:|--:|\n");
    for (int w = VCLMUL_VV; w <= VCLMULH_VX; w++) {
        printf("| %s |", word_name(w));
        for (int i = NARROWEST; i >= WIDEST; i--) {
            cell(part_time(plan, &plan->word[w][i]));
            cell(element_over_c(plan, &plan->word[w][i]).median);
        }
        printf("\n");
    }
    printf("| plain C, both halves | – | – | – | – | – | – |");
    cell(time_of(plan, &plan->c_clmul));
    cell(1);
    printf("\n");
}

/* In millions of records a second. What is timed as one call is the whole trace. */
static double replay_speed(const struct plan *plan, const struct item *item)
{
    const struct trace *t = item->what;
    return (double)t->records * 1e3 / time_of(plan, item);
}

static void replay_row(const struct plan *plan, int trace)
{
    const struct item *replay = &plan->replay[trace], *loop = &plan->loop[trace];
    struct ratio r = ratio(plan, replay, loop);
    printf("| %s | %zu | %zu |", trace_name(trace), plan->traces[trace].records, plan->traces[trace].refused);
    cell(replay_speed(plan, replay));
    printf(" %.1f %% |", 100 * item_time(replay, NULL, plan->rounds).spread);
    cell(replay_speed(plan, loop));
    printf(" %.2f | %.2f to %.2f |\n", r.median, r.low, r.high);
}

static void report_replay(const struct plan *plan)
{
    printf("\n## Replay\n\n"
           "One call of `rvghash_replay` over a whole trace, beside a loop in C over `rvghash_execute`. The loop reads a "
           "record's\nfields, executes its word on the file and compares the answer; it does not look at the policy bytes "
           "first, and a record\nthat differs has been executed when it is found. The traces are calls of "
           "`rvghash_execute` before the first round, and\nboth replays must end with the file that these left. A batch "
           "is at least one whole trace.\n\n"
           "| trace | records | refused | million records/s | spread | loop: million records/s | time over the loop's "
           "| quartiles |\n"
           "|---|--:|--:|--:|--:|--:|--:|---|\n");
    for (int t = 0; t < TRACES; t++)
        replay_row(plan, t);
}

static void links_row(const struct plan *plan, int checker)
{
    const struct checker *c = &checkers[checker];
    printf("| %s |", c->name);
    if (peers[c->peer].missing) {
        printf(" not measured: %s | | | |\n", peers[c->peer].missing);
        return;
    }
    struct summary t = item_time(&plan->checker[checker], links_less(plan, checker), plan->rounds);
    struct ratio r = links_speedup(plan, checker);
    cell(LINKS * 1e3 / t.median);
    printf(" %.1f %% | %.2f | %.2f to %.2f |\n", 100 * t.spread, r.median, r.low, r.high);
}

static void report_links(const struct plan *plan)
{
    printf("\n## Many links in one call\n\n"
           "%d records under one key, each a claim block and the hash that is expected for it; half of them agree, and "
           "each of\nthe others has one bit wrong. One call of `rvghash_check_links` over all of them, beside loops in C "
           "that hash one claim\nblock after the other and compare. Before the first round the results of all were "
           "compared with those by document 01's\nrules in plain C. \"One call\" is how many times as fast as the row "
           "it is.\n\n"
           "| | million records/s | spread | one call | quartiles |\n"
           "|---|--:|--:|--:|---|\n",
           LINKS);
    for (int i = 0; i < CHECKERS; i++)
        links_row(plan, i);
}

static void earlier_row(const struct plan *plan, int word, int number)
{
    const struct item *now = &plan->word[word][number], *earlier = &plan->earlier[word][number];
    struct ratio r = ratio(plan, now, earlier);
    printf("| %s | %u |", word_name(word), (unsigned)all_settings[number].sew);
    cell(part_time(plan, earlier));
    cell(part_time(plan, now));
    printf(" %.2f | %.2f to %.2f |", r.median, r.low, r.high);
    cell(element_over_c(plan, earlier).median);
    printf("\n");
}

static void report_earlier(const struct plan *plan)
{
    if (!earlier_name)
        return;
    printf("\n## Against an earlier build\n\n"
           "ns for an element at VLEN 512, LMUL 8, both builds in the same rounds; \"over C\" as above. Where the "
           "linker puts a build\ncounts too: a build beside itself may be some percent off 1. The earlier archive's "
           "SHA-256:\n%s.\n\n"
           "| | SEW | earlier | now | now over earlier | quartiles | earlier, over C |\n"
           "|---|--:|--:|--:|--:|---|--:|\n",
           earlier_name);
    for (int w = VCLMUL_VV; w <= VCLMULH_VX; w++)
        for (int i = NARROWEST; i >= WIDEST; i--)
            earlier_row(plan, w, i);
}

static void report_aes(const struct plan *plan, int peer)
{
    if (peers[peer].missing)
        return;
    double aes = time_of(plan, &plan->aes[peer]);
    printf("- %s: the AES part taken off is %.0f ns, %.1f %% of a call at 64 bytes and %.3f %% at 1 MiB.\n",
           peers[peer].name, aes, 100 * aes / time_of(plan, &plan->hash[peer][SHORT]),
           100 * aes / time_of(plan, &plan->hash[peer][LONG]));
}

static void report_links_aes(const struct plan *plan)
{
    if (peers[OPENSSL_WITHOUT].missing)
        return;
    double aes = time_of(plan, &plan->links_aes) / LINKS, all = time_of(plan, &plan->checker[OPENSSL_LINKS]) / LINKS;
    printf("- %s: the AES part taken off is %.1f ns, %.1f %% of a record's time. Two\n  products at the speed of "
           "1 MiB would be %.0f of the %.0f ns that are left.\n",
           checkers[OPENSSL_LINKS].name, aes, 100 * aes / all,
           32 / MIB * 1e9 / throughput(plan, OPENSSL_WITHOUT, LONG), all - aes);
}

static void report_notes(const struct plan *plan)
{
    printf("\n## How to read the peers\n\n"
           "- Each message is hashed as A with no C, length block included. Times at 64 bytes hold what a peer does "
           "for a new key.\n"
           "- BearSSL: `br_ghash_ctmul64` and `br_ghash_ctmul`, portable C in constant time, nothing to turn off. "
           "Message and\n  length block go in one call.\n"
           "- libgcrypt: GMAC with AES-128. `GCRYCTL_DISABLE_HWF` with \"all\" before the library starts turns the "
           "hardware\n  features off; the benchmark makes sure that the library then lists none.\n"
           "- OpenSSL: AES-128-GCM with associated data only, which is GMAC. Without PCLMULQDQ it runs in a process "
           "of its own\n  with `OPENSSL_ia32cap=" REMOTE_MASK "`; the benchmark makes sure by OpenSSL's own list. It "
           "then takes\n  its assembly code with 4-bit tables. With PCLMULQDQ it shows the machine's limit.\n"
           "- A GMAC call also makes an AES key schedule and two AES blocks. They are timed alone in the same rounds "
           "and taken\n  off. What is left at short lengths still holds the library's own calls around its hash.\n");
    report_aes(plan, LIBGCRYPT);
    report_aes(plan, OPENSSL_WITHOUT);
    report_aes(plan, OPENSSL_WITH);
    printf("- Links: `br_ghash_ctmul64` takes the key with each record, and has no tables to keep. OpenSSL makes its key "
           "schedule\n  and tables once. For each record it is given an IV, the same one for all, and the claim block, "
           "and gives the tag,\n  from which an xor takes the mask. The AES block in that is timed alone, in a call for "
           "each, and taken off. What is\n  left still holds the library's own calls around its two products.\n");
    report_links_aes(plan);
    printf("- Plain C is document 01's bit-by-bit rule with masks for its conditions, by the same compiler.\n");
}

void report(const struct plan *plan)
{
    report_how(plan);
    report_targets(plan);
    report_hashes(plan);
    printf("\n## One executed word\n\n"
           "Through `rvghash_execute`, vl = VLMAX, no mask; ns for the word, and for one of its elements or groups.\n");
    report_words(plan, "element", 64, VCLMUL_VV, VCLMULH_VX);
    report_words(plan, "group", 32, VGHSH_VV, VGMUL_VS);
    report_products(plan);
    report_carryless(plan);
    report_replay(plan);
    report_links(plan);
    report_earlier(plan);
    report_notes(plan);
}

void report_sweep(const struct plan *plan, FILE *to)
{
    for (int p = 0; p < PEERS; p++)
        for (int i = 0; i < LENGTHS && !peers[p].missing; i++)
            fprintf(to, "%s\t%zu\t%.6g\n", peers[p].name, plan->inputs.messages[i].length, throughput(plan, p, i));
}
