/*
 * The step that a monitor makes for a trapped word, on registers that it has saved: fetch the word, decode the settings, act
 * with rvghash_execute_policies, write back, advance the pc. trap.c uses it in a process, bare.c in machine mode.
 */
#ifndef STEP_H
#define STEP_H

#include <stdbool.h>
#include <stddef.h>
#include <stdint.h>

#include "rvghash.h"

/* The saved vector state, in the order of Linux's struct __riscv_v_ext_state. */
struct vector_state {
    unsigned long vstart, vl, vtype, vcsr, vlenb;
    uint8_t *file; /* 32 registers of vlenb bytes */
};

/* The instruction at a pc of 2-byte alignment. A 16-bit one may be the last of its page. */
static uint32_t fetch(const uint16_t *pc)
{
    return (pc[0] & 3) == 3 ? (uint32_t)pc[1] << 16 | pc[0] : pc[0];
}

/* SEW; 0, which is refused, where vill is set. */
static uint32_t sew_of(unsigned long vtype) { return vtype >> 63 ? 0 : 8u << (vtype >> 3 & 7); }

/* LMUL; 0, which is refused, where it is a fraction or reserved. */
static uint32_t lmul_of(unsigned long vtype) { return (vtype & 4) != 0 ? 0 : 1u << (vtype & 3); }

/* The policies: vta is bit 6, and vma bit 7. */
static bool tail_agnostic(unsigned long vtype) { return vtype >> 6 & 1; }
static bool mask_agnostic(unsigned long vtype) { return vtype >> 7 & 1; }

/*
 * Executes the word at the pc, which stands in x[0]; x[1] to x[31] are the x registers. Done (0): the registers hold what the
 * word writes, vstart is 0, and the pc is past it. Refused: everything is as it was.
 */
static uint32_t step(unsigned long x[32], struct vector_state *v)
{
    uint32_t word = fetch((const uint16_t *)x[0]), rs1 = word >> 15 & 31;
    uint32_t vlen = (uint32_t)v->vlenb * 8, vl = (uint32_t)v->vl, vstart = (uint32_t)v->vstart;
    uint32_t answer = rvghash_execute_policies(word, vlen, sew_of(v->vtype), lmul_of(v->vtype), tail_agnostic(v->vtype),
                                               mask_agnostic(v->vtype), vl, &vstart, rs1 == 0 ? 0 : x[rs1], v->file,
                                               32 * v->vlenb);
    if (answer != RVGHASH_DONE)
        return answer;
    v->vstart = vstart;
    x[0] += 4;
    return answer;
}

#endif
