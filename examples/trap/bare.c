/*
 * The same without an operating system: a monitor in machine mode executes the trapped words of a guest in user mode. It runs
 * on qemu's board `virt`, and ends with status 0 if the guest's hash is right.
 */
#include "step.h"

/* What librvghash.a needs of a C library. */
void *memcpy(void *to, const void *from, size_t n)
{
    for (size_t i = 0; i < n; i++)
        ((uint8_t *)to)[i] = ((const uint8_t *)from)[i];
    return to;
}

void *memset(void *to, int byte, size_t n)
{
    for (size_t i = 0; i < n; i++)
        ((uint8_t *)to)[i] = (uint8_t)byte;
    return to;
}

/* The board's serial port, and the device that ends qemu. */
static void print(const char *text)
{
    while (*text != '\0')
        *(volatile uint8_t *)0x10000000 = (uint8_t)*text++;
}

static _Noreturn void end(const char *text, int status)
{
    print(text);
    for (;;)
        *(volatile uint32_t *)0x100000 = status == 0 ? 0x5555 : (uint32_t)status << 16 | 0x3333;
}

/* The guest's x registers, with the pc in place of x0, and its vector registers, as bare.S saves them. */
struct {
    unsigned long x[32];
    uint8_t file[RVGHASH_FILE_BYTES(512)];
} guest;

#define CSR(name) ({ unsigned long csr; __asm__ volatile("csrr %0, " name : "=r"(csr)); csr; })

/* Takes the guest's vstart, and returns the one that it goes on with. */
unsigned long trap(unsigned long vstart)
{
    enum { ILLEGAL_INSTRUCTION = 2, CALL_FROM_USER_MODE = 8 };
    struct vector_state v = {vstart, CSR("vl"), CSR("vtype"), CSR("vcsr"), CSR("vlenb"), guest.file};
    unsigned long cause = CSR("mcause");
    if (cause == CALL_FROM_USER_MODE)
        end(guest.x[10] == 0 ? "guest: the hash is right\n" : "guest: the hash is WRONG\n", guest.x[10] != 0);
    if (cause != ILLEGAL_INSTRUCTION || step(guest.x, &v) != RVGHASH_DONE)
        end("monitor: a trap that is not the library's\n", 1);
    print("monitor: executed a word\n");
    return v.vstart;
}

/* GHASH of NIST's GCM case 2 by vghsh.vv v4, v8, v12 (Y, H, X); ends with a call that tells whether it is right. */
static void in_user_mode(void)
{
    static const uint8_t h[16] = {0x66, 0xe9, 0x4b, 0xd4, 0xef, 0x8a, 0x2c, 0x3b, 0x88, 0x4c, 0xfa, 0x59, 0xca, 0x34, 0x2b, 0x2e};
    static const uint8_t c[16] = {0x03, 0x88, 0xda, 0xce, 0x60, 0xb6, 0xa3, 0x92, 0xf3, 0x28, 0xc2, 0xb9, 0x71, 0xb2, 0xfe, 0x78};
    static const uint8_t lengths[16] = {[15] = 0x80};
    static const uint8_t hash[16] = {0xf3, 0x8c, 0xbb, 0x1a, 0xd6, 0x92, 0x23, 0xdc, 0xc3, 0x45, 0x7a, 0xe5, 0xb6, 0xb0, 0xf8, 0x85};
    uint8_t y[16];
    register long differs __asm__("a0") = 0;
    __asm__ volatile(".option push\n .option arch, +v\n vsetivli zero, 16, e8, m1, ta, ma\n vle8.v v8, (%1)\n"
                     "vle8.v v12, (%2)\n vle8.v v13, (%3)\n vmv.v.i v4, 0\n vsetivli zero, 4, e32, m1, ta, ma\n"
                     ".insn 4, 0xB2862277\n vmv.v.v v12, v13\n .insn 4, 0xB2862277\n"
                     "vsetivli zero, 16, e8, m1, ta, ma\n vse8.v v4, (%0)\n .option pop"
                     : : "r"(y), "r"(h), "r"(c), "r"(lengths) : "memory");
    for (int i = 0; i < 16; i++)
        differs |= y[i] ^ hash[i];
    __asm__ volatile("ecall" : : "r"(differs));
}

extern uint8_t trap_entry[], guest_stack_top[];

/* Gives user mode all memory and the vector unit, and enters the guest. */
_Noreturn void boot(void)
{
    enum { ALL_MEMORY = 0x1F, PREVIOUS_MODE = 3 << 11, VECTOR_ON = 3 << 9 };
    __asm__ volatile("csrw mtvec, %0\n csrw pmpaddr0, %1\n csrw pmpcfg0, %2\n csrc mstatus, %3\n csrs mstatus, %4\n"
                     "csrw mepc, %5" : : "r"(trap_entry), "r"(-1ul >> 10), "r"(ALL_MEMORY), "r"(PREVIOUS_MODE), "r"(VECTOR_ON),
                     "r"(in_user_mode));
    if (32 * CSR("vlenb") > sizeof guest.file)
        end("monitor: VLEN is over 512\n", 1);
    __asm__ volatile("mv sp, %0\n mret" : : "r"(guest_stack_top));
    __builtin_unreachable();
}
