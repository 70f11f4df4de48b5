# The start of bare.c, and the way into its monitor and back: the guest's x and vector registers are saved in `guest`.
    .option arch, +v
    .text
    .globl _start, trap_entry
_start:
    la sp, stack_top
    la t0, guest
    csrw mscratch, t0
    tail boot

    .balign 4
trap_entry:
    csrrw x31, mscratch, x31
    .irp n, 1, 2, 3, 4, 5, 6, 7, 8, 9, 10, 11, 12, 13, 14, 15, 16, 17, 18, 19, 20, 21, 22, 23, 24, 25, 26, 27, 28, 29, 30
    sd x\n, 8 * \n(x31)
    .endr
    csrr t0, mepc
    sd t0, 0(x31)
    csrrw t0, mscratch, x31
    sd t0, 8 * 31(x31)

    csrr a0, vstart
    csrw vstart, zero
    addi t0, x31, 256
    csrr t1, vlenb
    slli t1, t1, 3
    .irp n, 0, 8, 16, 24
    vs8r.v v\n, (t0)
    add t0, t0, t1
    .endr
    la sp, stack_top
    call trap

    csrr x31, mscratch
    addi t0, x31, 256
    csrr t1, vlenb
    slli t1, t1, 3
    .irp n, 0, 8, 16, 24
    vl8re8.v v\n, (t0)
    add t0, t0, t1
    .endr
    csrw vstart, a0
    ld t0, 0(x31)
    csrw mepc, t0
    .irp n, 1, 2, 3, 4, 5, 6, 7, 8, 9, 10, 11, 12, 13, 14, 15, 16, 17, 18, 19, 20, 21, 22, 23, 24, 25, 26, 27, 28, 29, 30
    ld x\n, 8 * \n(x31)
    .endr
    ld x31, 8 * 31(x31)
    mret

    .bss
    .balign 16
    .space 8192
stack_top:
    .space 4096
    .globl guest_stack_top
guest_stack_top:
    .section .note.GNU-stack, "", @progbits
