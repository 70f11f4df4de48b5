/*
 * The benchmark: checks that all peers, and an earlier build where one is linked, give the same results, times
 * everything in interleaved rounds, and prints the tables as Markdown.
 *
 *     bench [-r ROUNDS] [-b BATCH_MS] [-n RECORDS] [-o SWEEP]
 *
 * RECORDS is how many a trace has. SWEEP gets the throughput by message length, which plot.py draws.
 */
#define _POSIX_C_SOURCE 200809L
#include <stdlib.h>
#include <string.h>
#include <unistd.h>

#include "plan.h"
#include "remote.h"
#include "replay.h"

enum { SEED = 1 };

static struct plan plan;

static double hash_batch(const void *what, long calls)
{
    const struct hash_case *c = what;
    return c->peer->remote ? remote_hash_batch(c->length, calls)
                           : time_hashes(c->peer->hash, c->inputs, c->length, calls);
}

static double aes_batch(const void *what, long calls)
{
    const struct hash_case *c = what;
    return c->peer->remote ? remote_aes_batch(calls) : time_aes(c->peer->aes, c->inputs, calls);
}

static double links_batch(const void *what, long calls)
{
    const struct checker *c = what;
    return c->check ? time_links(c->check, &plan.links, calls) : remote_links_batch(calls);
}

static double links_aes_batch(const void *what, long calls)
{
    (void)what;
    return remote_links_aes_batch(calls);
}

static void fail(const char *what, const char *name)
{
    fprintf(stderr, "bench: %s: %s\n", name, what);
    exit(1);
}

static int wrong;

/* Everything that differs is told before the program stops. */
static void differs(const char *what, const char *name)
{
    fprintf(stderr, "bench: %s: %s\n", name, what);
    wrong = 1;
}

/* The hash of a peer, a GMAC's tag without its mask. */
static void hash_of(const struct peer *peer, int key, int length, uint8_t out[16])
{
    const struct key *k = &plan.inputs.keys[key];
    if (peer->remote)
        remote_hash(key, length, out);
    else
        peer->hash(k, &plan.inputs.messages[length], out);
    for (int i = 0; peer->aes && i < 16; i++)
        out[i] ^= k->mask[i];
}

static int peer_agrees(const struct peer *peer)
{
    for (int length = 0; length < LENGTHS; length++) {
        int keys = plan.inputs.messages[length].length <= 4096 ? KEYS : 3;
        for (int key = 0; key < keys; key++) {
            uint8_t ours[16], theirs[16];
            hash_of(&peers[FAST], key, length, ours);
            hash_of(peer, key, length, theirs);
            if (memcmp(ours, theirs, 16) != 0)
                return 0;
        }
    }
    return 1;
}

static void check_word(int word, int number)
{
    const struct word_case *c = &plan.word_cases[word][number];
    if (!word_agrees(c))
        differs("differs from document 01's rules in plain C", word_name(word));
    if (earlier_has(word, number) && !earlier_agrees(c))
        differs("the earlier build's differs from document 01's rules in plain C", word_name(word));
}

static void check_trace(int trace)
{
    if (!replay_agrees(&plan.traces[trace]))
        differs("rvghash_replay differs from the calls that made the trace", trace_name(trace));
    if (!loop_agrees(&plan.traces[trace]))
        differs("the loop in C differs from the calls that made the trace", trace_name(trace));
}

static void check_links(const struct checker *c)
{
    if (!(c->check ? links_agree(c->check, &plan.links) : remote_links_agree()))
        differs("its results differ from document 01's rules in plain C", c->name);
}

static void check_all(void)
{
    for (int p = 0; p < PEERS; p++)
        if (!peers[p].missing && !peer_agrees(&peers[p]))
            differs("its hash differs from the fast path's", peers[p].name);
    for (int w = 0; w < WORDS; w++)
        for (int i = 0; i < word_count(w); i++)
            check_word(w, i);
    if (!products_agree(&plan.triples))
        differs("differ from document 01's rules in plain C", "the products or the step back");
    for (int t = 0; t < TRACES; t++)
        check_trace(t);
    for (int i = 0; i < CHECKERS; i++)
        if (!peers[checkers[i].peer].missing)
            check_links(&checkers[i]);
    if (wrong)
        exit(1);
    fprintf(stderr, "bench: all results agree\n");
}

static void start_peers(const char *program)
{
    peers_start();
    if (!peers[OPENSSL_WITHOUT].missing)
        peers[OPENSSL_WITHOUT].missing = remote_start(program);
    for (int p = 0; p < PEERS; p++)
        if (peers[p].missing)
            fprintf(stderr, "bench: skipped: %s: %s\n", peers[p].name, peers[p].missing);
}

/* The hash keys come from the AES keys by any library that has AES. */
static void make_inputs(void)
{
    uint64_t seed = SEED + 1;
    inputs_make(&plan.inputs, SEED);
    for (int p = 0; p < PEERS; p++)
        if (!peers[p].missing && peers[p].aes)
            inputs_keys(&plan.inputs, peers[p].aes);
    for (int w = 0; w < WORDS; w++)
        for (int i = 0; i < word_count(w); i++)
            word_make(&plan.word_cases[w][i], w, i, &seed);
    triples_make(&plan.triples, &seed);
    for (int t = 0; t < TRACES; t++)
        trace_make(&plan.traces[t], t, (size_t)plan.records, &seed);
    links_make(&plan.links, &plan.inputs.keys[0]);
}

static struct item *list[PEERS * (LENGTHS + 1) + 2 * WORDS * CASES + 6 + 2 * TRACES + CHECKERS + 1];
static int listed;

static void add(struct item *item, double (*batch)(const void *what, long calls), const void *what)
{
    item->batch = batch;
    item->what = what;
    list[listed++] = item;
}

static void add_hashes(const struct peer *peer, struct hash_case *cases, struct item *hash, struct item *aes)
{
    for (int i = 0; i < LENGTHS; i++) {
        cases[i] = (struct hash_case){&plan.inputs, peer, i};
        add(&hash[i], hash_batch, &cases[i]);
    }
    if (peer->aes)
        add(aes, aes_batch, &cases[0]);
}

/* The builds stand side by side, so that both have the same share of what else the machine does. */
static void add_word(int word, int number)
{
    const struct word_case *c = &plan.word_cases[word][number];
    add(&plan.word[word][number], word_batch, c);
    if (earlier_has(word, number))
        add(&plan.earlier[word][number], earlier_batch, c);
}

static void add_all(void)
{
    for (int p = 0; p < PEERS; p++)
        if (!peers[p].missing)
            add_hashes(&peers[p], plan.hash_cases[p], plan.hash[p], &plan.aes[p]);
    for (int w = 0; w < WORDS; w++)
        for (int i = 0; i < word_count(w); i++)
            add_word(w, i);
    add(&plan.group_products, group_products_batch, &plan.word_cases[VGHSH_VV][WIDEST]);
    add(&plan.fast_product, fast_product_batch, &plan.triples);
    add(&plan.plain_product, plain_product_batch, &plan.triples);
    add(&plan.c_product, c_product_batch, &plan.triples);
    add(&plan.step_back, step_back_batch, &plan.triples);
    add(&plan.c_clmul, c_clmul_batch, &plan.triples);
    for (int t = 0; t < TRACES; t++) {
        add(&plan.replay[t], replay_batch, &plan.traces[t]);
        add(&plan.loop[t], loop_batch, &plan.traces[t]);
    }
    for (int i = 0; i < CHECKERS; i++)
        if (!peers[checkers[i].peer].missing)
            add(&plan.checker[i], links_batch, &checkers[i]);
    if (plan.checker[OPENSSL_LINKS].batch)
        add(&plan.links_aes, links_aes_batch, NULL);
}

static const char *options(int argc, char **argv)
{
    const char *sweep = NULL;
    plan.rounds = 21;
    plan.batch_ns = 3e6;
    plan.records = 1000000;
    for (int o; (o = getopt(argc, argv, "r:b:n:o:")) != -1;) {
        if (o == 'r')
            plan.rounds = atoi(optarg);
        else if (o == 'b')
            plan.batch_ns = atof(optarg) * 1e6;
        else if (o == 'n')
            plan.records = atol(optarg);
        else if (o == 'o')
            sweep = optarg;
        else
            exit(2);
    }
    if (plan.rounds < 1 || plan.rounds > MAX_ROUNDS || !(plan.batch_ns > 0) || plan.records < 1)
        fail("wrong number of rounds, or batch or records not over 0", "options");
    return sweep;
}

static void write_sweep(const char *path)
{
    FILE *to = fopen(path, "w");
    if (!to)
        fail("cannot be written", path);
    report_sweep(&plan, to);
    if (fclose(to))
        fail("cannot be written", path);
}

int main(int argc, char **argv)
{
    if (argc == 2 && strcmp(argv[1], REMOTE_ARGUMENT) == 0) {
        inputs_make(&plan.inputs, SEED);
        return remote_serve(&plan.inputs);
    }
    const char *sweep = options(argc, argv);
    start_peers(argv[0]);
    make_inputs();
    check_all();
    add_all();
    measure(list, listed, plan.rounds, plan.batch_ns);
    report(&plan);
    if (sweep)
        write_sweep(sweep);
    return 0;
}
