/*
 * Both ends of the pipe to the copy. Requests and answers are plain structs: both ends are the same program.
 */
#define _POSIX_C_SOURCE 200809L
#include "remote.h"

#include <signal.h>
#include <stdio.h>
#include <stdlib.h>
#include <string.h>
#include <unistd.h>

#include "peers.h"

enum ask { ASK_MASKED, ASK_HASH, ASK_HASH_BATCH, ASK_AES_BATCH, ASK_LINKS, ASK_LINKS_BATCH, ASK_LINKS_AES_BATCH };

struct request {
    enum ask ask;
    int key, length;
    long calls;
};

struct answer {
    int yes;
    double ns;
    uint8_t hash[16];
};

static int to_copy, from_copy;

static int read_all(int fd, void *to, size_t length)
{
    for (size_t at = 0; at < length;) {
        ssize_t n = read(fd, (char *)to + at, length - at);
        if (n <= 0)
            return 0;
        at += (size_t)n;
    }
    return 1;
}

/* Both structs are far smaller than a pipe's buffer: a write is whole. */
static int write_all(int fd, const void *from, size_t length) { return write(fd, from, length) == (ssize_t)length; }

static struct answer ask(struct request request)
{
    struct answer answer;
    if (!write_all(to_copy, &request, sizeof request) || !read_all(from_copy, &answer, sizeof answer)) {
        fprintf(stderr, "bench: the process for masked OpenSSL ended early\n");
        exit(1);
    }
    return answer;
}

static void become_copy(const char *program, int in, int out)
{
    dup2(in, 0);
    dup2(out, 1);
    setenv("OPENSSL_ia32cap", REMOTE_MASK, 1);
    execl(program, program, REMOTE_ARGUMENT, (char *)NULL);
    _exit(127);
}

const char *remote_start(const char *program)
{
    int down[2], up[2];
    signal(SIGPIPE, SIG_IGN); /* a copy that ended early is seen by the failed write */
    if (pipe(down) || pipe(up))
        return "no pipe to a process with the mask";
    pid_t pid = fork();
    if (pid < 0)
        return "no process with the mask";
    if (pid == 0) {
        close(down[1]);
        close(up[0]);
        become_copy(program, down[0], up[1]);
    }
    close(down[0]);
    close(up[1]);
    to_copy = down[1];
    from_copy = up[0];
    return ask((struct request){ASK_MASKED, 0, 0, 0}).yes ? NULL : "OPENSSL_ia32cap had no effect";
}

void remote_hash(int key, int length, uint8_t out[16])
{
    memcpy(out, ask((struct request){ASK_HASH, key, length, 0}).hash, 16);
}

double remote_hash_batch(int length, long calls) { return ask((struct request){ASK_HASH_BATCH, 0, length, calls}).ns; }

double remote_aes_batch(long calls) { return ask((struct request){ASK_AES_BATCH, 0, 0, calls}).ns; }

int remote_links_agree(void) { return ask((struct request){ASK_LINKS, 0, 0, 0}).yes; }

double remote_links_batch(long calls) { return ask((struct request){ASK_LINKS_BATCH, 0, 0, calls}).ns; }

double remote_links_aes_batch(long calls) { return ask((struct request){ASK_LINKS_AES_BATCH, 0, 0, calls}).ns; }

#ifdef HAVE_OPENSSL
static struct links links;

static struct answer answer_of(const struct inputs *inputs, struct request r)
{
    struct answer a = {0, 0, {0}};
    switch (r.ask) {
    case ASK_MASKED: a.yes = openssl_pclmulqdq() == 0; break;
    case ASK_HASH: openssl_hash(&inputs->keys[r.key], &inputs->messages[r.length], a.hash); break;
    case ASK_HASH_BATCH: a.ns = time_hashes(openssl_hash, inputs, r.length, r.calls); break;
    case ASK_AES_BATCH: a.ns = time_aes(openssl_aes, inputs, r.calls); break;
    case ASK_LINKS: a.yes = links_agree(openssl_links, &links); break;
    case ASK_LINKS_BATCH: a.ns = time_links(openssl_links, &links, r.calls); break;
    case ASK_LINKS_AES_BATCH: a.ns = time_links(openssl_links_aes, &links, r.calls); break;
    }
    return a;
}

int remote_serve(struct inputs *inputs)
{
    struct request request;
    if (openssl_start())
        return 1;
    inputs_keys(inputs, openssl_aes);
    links_make(&links, &inputs->keys[0]);
    while (read_all(0, &request, sizeof request)) {
        struct answer answer = answer_of(inputs, request);
        if (!write_all(1, &answer, sizeof answer))
            return 1;
    }
    return 0;
}
#else
int remote_serve(struct inputs *inputs)
{
    (void)inputs;
    return 1;
}
#endif
