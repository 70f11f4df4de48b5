# void room(struct state *before, struct state *after): sets the whole machine state, executes one word, and stores the whole
# state. The test copies it from word_start to word_end and puts the word at word_place. struct state is in riscv_traps.c.
# sp, gp and tp stay as they are, since a signal handler needs them; `before` gets them, and what the core made of the CSRs.
    .option arch, +v
    .equ F, 256
    .equ FCSR, 512
    .equ VL, 520
    .equ VTYPE, 528
    .equ VCSR, 536
    .equ VSTART, 544
    .equ FILE, 552

    # x5 to x31 but for x10, loaded or stored.
    .macro most_x op, base
    .irp n, 5, 6, 7, 8, 9, 11, 12, 13, 14, 15, 16, 17, 18, 19, 20, 21, 22, 23, 24, 25, 26, 27, 28, 29, 30, 31
    \op x\n, 8 * \n(\base)
    .endr
    .endm

    .macro all_f op, base
    .irp n, 0, 1, 2, 3, 4, 5, 6, 7, 8, 9, 10, 11, 12, 13, 14, 15, 16, 17, 18, 19, 20, 21, 22, 23, 24, 25, 26, 27, 28, 29, 30, 31
    \op f\n, F + 8 * \n(\base)
    .endr
    .endm

    .macro all_v op, base
    addi t2, \base, FILE
    csrr t3, vlenb
    slli t3, t3, 3
    .irp n, 0, 8, 16, 24
    \op v\n, (t2)
    add t2, t2, t3
    .endr
    .endm

    .macro store_csrs base
    csrr t0, vl
    sd t0, VL(\base)
    csrr t0, vtype
    sd t0, VTYPE(\base)
    csrr t0, vcsr
    sd t0, VCSR(\base)
    csrr t0, vstart
    sd t0, VSTART(\base)
    frcsr t0
    sd t0, FCSR(\base)
    sd sp, 8 * 2(\base)
    sd gp, 8 * 3(\base)
    sd tp, 8 * 4(\base)
    .endm

    # What a function gives back as it found it: s0 to s11 and fs0 to fs11, in the frame from 32 on.
    .macro kept op, fop
    .irp n, 0, 1, 2, 3, 4, 5, 6, 7, 8, 9, 10, 11
    \op s\n, 32 + 8 * \n(sp)
    \fop fs\n, 128 + 8 * \n(sp)
    .endr
    .endm

    .text
    .balign 4
    .globl word_start, word_place, word_end
word_start:
    addi sp, sp, -224
    sd a1, 0(sp)
    sd ra, 16(sp)
    frcsr t0
    sd t0, 24(sp)
    kept sd, fsd

    ld t0, VL(a0)
    ld t1, VTYPE(a0)
    vsetvl zero, t0, t1
    all_v vl8re8.v, a0
    ld t0, VCSR(a0)
    csrw vcsr, t0
    ld t0, VSTART(a0)
    csrw vstart, t0
    ld t0, FCSR(a0)
    fscsr t0
    all_f fld, a0
    store_csrs a0
    ld x1, 8(a0)
    most_x ld, a0
    ld a0, 80(a0)

    .balign 4
word_place:
    .2byte 1, 1, 1
    sd x1, 8(sp)
    ld x1, 0(sp)
    most_x sd, x1
    sd x10, 80(x1)
    ld t0, 8(sp)
    sd t0, 8(x1)
    all_f fsd, x1
    store_csrs x1
    csrw vstart, zero
    all_v vs8r.v, x1

    kept ld, fld
    ld t0, 24(sp)
    fscsr t0
    ld ra, 16(sp)
    addi sp, sp, 224
    ret
word_end:
    .section .note.GNU-stack, "", @progbits
