/*
 * A SIGILL handler that executes trapped vector GHASH and carry-less multiply words; a user copies it with trap.h and step.h.
 * Compile it without the vector extension (-march=rv64gc): the vector registers are the interrupted program's.
 */
#define _GNU_SOURCE
#include "trap.h"

#include <ucontext.h>

#include "step.h"

/* Linux keeps the vector state in the signal frame: so many bytes after the start of the floating-point registers comes this
 * header, then the state, then the registers. */
struct frame {
    uint32_t magic, size;
    struct vector_state state;
};
#define FRAME_AT 520
#define FRAME_MAGIC 0x53465457

static struct sigaction before; /* SIGILL's action before trap_install */

/* The state in the frame; NULL where there is none, as in qemu-user 7.2: the registers are live then. The header's place is just
 * past such a frame, on the interrupted stack: a handler on a stack of its own (SA_ONSTACK) might not be able to read it. */
static struct vector_state *state_in_frame(ucontext_t *context)
{
    struct frame *f = (struct frame *)((char *)&context->uc_mcontext.__fpregs + FRAME_AT);
    if (f->magic != FRAME_MAGIC || f->state.file != (uint8_t *)(f + 1) || f->size != sizeof *f + 32 * f->state.vlenb)
        return NULL;
    return &f->state;
}

/* Copies the live state. Whole register moves obey vstart, so it is 0 meanwhile; they leave vl and vtype alone. Registers that
 * have no room in the file stay where they are: so long a VLEN is refused. */
static void take(struct vector_state *v, uint8_t *file, size_t room)
{
    uint8_t *at = v->file = file;
    __asm__ volatile("csrr %0, vstart\n csrr %1, vl\n csrr %2, vtype\n csrr %3, vcsr\n csrr %4, vlenb"
                     : "=r"(v->vstart), "=r"(v->vl), "=r"(v->vtype), "=r"(v->vcsr), "=r"(v->vlenb));
    if (32 * v->vlenb <= room)
        __asm__ volatile(".option push\n .option arch, +v\n csrw vstart, zero\n"
                         "vs8r.v v0, (%0)\n add %0, %0, %1\n vs8r.v v8, (%0)\n add %0, %0, %1\n"
                         "vs8r.v v16, (%0)\n add %0, %0, %1\n vs8r.v v24, (%0)\n .option pop"
                         : "+r"(at) : "r"(8 * v->vlenb) : "memory");
}

static void give_back(const struct vector_state *v, size_t room)
{
    const uint8_t *at = v->file;
    if (32 * v->vlenb <= room)
        __asm__ volatile(".option push\n .option arch, +v\n csrw vstart, zero\n"
                         "vl8re8.v v0, (%0)\n add %0, %0, %1\n vl8re8.v v8, (%0)\n add %0, %0, %1\n"
                         "vl8re8.v v16, (%0)\n add %0, %0, %1\n vl8re8.v v24, (%0)\n csrw vstart, %2\n .option pop"
                         : "+r"(at) : "r"(8 * v->vlenb), "r"(v->vstart) : "memory");
}

void trap_illegal(int number, siginfo_t *info, void *context)
{
    unsigned long *x = ((ucontext_t *)context)->uc_mcontext.__gregs; /* the pc in place of x0, as step takes them */
    struct vector_state *in_frame = state_in_frame(context), live;
    uint8_t file[RVGHASH_FILE_BYTES(512)];
    uint32_t answer;
    (void)number, (void)info;
    if (in_frame != NULL) {
        answer = step(x, in_frame);
    } else {
        take(&live, file, sizeof file);
        answer = step(x, &live);
        give_back(&live, sizeof file);
    }
    /* A refused word traps again, and meets the action that was there before. */
    if (answer != RVGHASH_DONE)
        sigaction(SIGILL, &before, NULL);
}

int trap_install(void)
{
    struct sigaction action = {.sa_sigaction = trap_illegal, .sa_flags = SA_SIGINFO};
    return sigaction(SIGILL, &action, &before);
}
