/*
 * What a program needs to run on Linux for RISC-V without a C library, for any ABI: system calls, a start, and the three
 * functions that librvghash.a needs. Compile with -ffreestanding -nostdlib -fno-tree-loop-distribute-patterns.
 */
#ifndef RISCV_BARE_H
#define RISCV_BARE_H

#include <stddef.h>
#include <stdint.h>

enum { SYS_openat = 56, SYS_lseek = 62, SYS_write = 64, SYS_exit = 93, SYS_mmap = 222, SYS_mprotect = 226 };

static long system_call(long number, long a, long b, long c, long d, long e, long f)
{
    register long a7 __asm__("a7") = number, a0 __asm__("a0") = a, a1 __asm__("a1") = b, a2 __asm__("a2") = c;
    register long a3 __asm__("a3") = d, a4 __asm__("a4") = e, a5 __asm__("a5") = f;
    __asm__ volatile("ecall" : "+r"(a0) : "r"(a7), "r"(a1), "r"(a2), "r"(a3), "r"(a4), "r"(a5) : "memory");
    return a0;
}

static _Noreturn void leave(int status)
{
    for (;;)
        system_call(SYS_exit, status, 0, 0, 0, 0, 0);
}

/* Bytewise, so that every access is aligned. */
void *memmove(void *to, const void *from, size_t n)
{
    uint8_t *t = to;
    const uint8_t *f = from;
    if (t < f)
        for (size_t i = 0; i < n; i++)
            t[i] = f[i];
    else
        for (size_t i = n; i > 0; i--)
            t[i - 1] = f[i - 1];
    return to;
}

void *memcpy(void *to, const void *from, size_t n) { return memmove(to, from, n); }

void *memset(void *to, int byte, size_t n)
{
    for (size_t i = 0; i < n; i++)
        ((uint8_t *)to)[i] = (uint8_t)byte;
    return to;
}

static void put(const char *text)
{
    size_t n = 0;
    while (text[n] != '\0')
        n++;
    system_call(SYS_write, 1, (long)text, (long)n, 0, 0, 0);
}

static void put_number(uint64_t n)
{
    char digits[21], *at = digits + 20;
    *at = '\0';
    do
        *--at = (char)('0' + n % 10);
    while ((n /= 10) != 0);
    put(at);
}

/* New memory that can be read and written, or that cannot be touched; ends the program where there is none. */
static uint8_t *map(size_t length, int touchable)
{
    long at = system_call(SYS_mmap, 0, (long)length, touchable ? 3 : 0, 0x22, -1, 0);
    if (at < 0 && at > -4096) {
        put("no memory\n");
        leave(2);
    }
    return (uint8_t *)at;
}

/* A file's content; ends the program where it cannot be read. */
static const uint8_t *map_file(const char *path, size_t *length)
{
    long file = system_call(SYS_openat, -100, (long)path, 0, 0, 0, 0);
    long size = file < 0 ? -1 : system_call(SYS_lseek, file, 0, 2, 0, 0, 0);
    long at = size <= 0 ? -1 : system_call(SYS_mmap, 0, size, 1, 2, file, 0);
    if (at < 0 && at > -4096) {
        put(path);
        put(": cannot be read\n");
        leave(2);
    }
    *length = (size_t)size;
    return (const uint8_t *)at;
}

int run(int argc, char **argv);

/* The kernel leaves argc and argv on the stack. */
_Noreturn __attribute__((used)) void bare_start(long *stack) { leave(run((int)stack[0], (char **)(stack + 1))); }

__asm__(".globl _start\n_start:\n.option push\n.option norelax\nla gp, __global_pointer$\n.option pop\n"
        "mv a0, sp\nandi sp, sp, -16\ntail bare_start");

#endif
