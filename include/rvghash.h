/*
 * rvghash: a proved executor of the RISC-V vector GHASH and carry-less multiply instructions, and the GHASH
 * arithmetic around it. Every function answers for every input: a refusal is a number of enum rvghash_number.
 *
 * The rules of every call:
 * - Overlap. What a call may write overlaps nothing else that is lent to it. What it only reads may overlap.
 * - Pointers. A length that goes with a pointer is a number of bytes. Where it is 0 the pointer may be anything, NULL
 *   too; else it points to that many bytes, at any alignment. A pointer without a length (vstart, start, length, kind,
 *   vm, vs2, vs1, vd, word, index, degree, state, running) is not NULL and has the alignment of its type: 4 bytes for
 *   a uint32_t, 8 for a size_t and for a running hash.
 * - Threads. No function allocates, blocks, keeps a pointer after it returns, or has state of its own. Each may run in
 *   any thread, on any core and in a handler, and at the same time as any other call, as long as no call writes
 *   memory that another one reads or writes.
 * - Names. A name without a suffix is the primary one, and takes the fast path where there are two. The same name with
 *   _plain goes bit by bit, with the same answers; with _fast it is the primary one again.
 */
#ifndef RVGHASH_H
#define RVGHASH_H

#ifndef __cplusplus
#include <stdbool.h>
#endif
#include <stddef.h>
#include <stdint.h>

/* The version, as the file VERSION has it. */
#define RVGHASH_VERSION_MAJOR 0
#define RVGHASH_VERSION_MINOR 7
#define RVGHASH_VERSION_PATCH 0
#define RVGHASH_VERSION_STRING "0.7.0"

#define RVGHASH_BLOCK_BYTES 16                             /* of a key, a block, a hash */
#define RVGHASH_LIMIT_BYTES 1048576                        /* the most that A may have, and C */
#define RVGHASH_FILE_BYTES(vlen) (32 * (size_t)(vlen) / 8) /* of the register file; VLEN is 128, 256 or 512 */
#define RVGHASH_TEXT_BYTES 32                              /* the least for a text's buffer; the longest text has 30 */

/* On each function that answers: a compiler that can do so warns where the answer is not looked at. */
#if defined(__cplusplus) && __cplusplus >= 201703L
#define RVGHASH_MUST_USE [[nodiscard]]
#elif defined(__GNUC__)
#define RVGHASH_MUST_USE __attribute__((warn_unused_result))
#else
#define RVGHASH_MUST_USE
#endif

#ifdef __cplusplus
extern "C" {
#endif

/* The refusal numbers. Where several apply the smallest is given. */
enum rvghash_number {
    RVGHASH_DONE = 0,              /* done; the executor sets vstart to 0 */
    RVGHASH_BAD_VLEN_OR_FILE = 1,  /* VLEN not 128, 256 or 512, or the file's length not 32 * VLEN / 8 */
    RVGHASH_NOT_A_WORD = 2,        /* the word is none of the eight; writer: no such word; reader: no word's text */
    RVGHASH_BAD_SETTINGS = 3,      /* SEW or LMUL not allowed, or vl over VLMAX */
    RVGHASH_SEW_NOT_32 = 4,        /* a GHASH word and SEW is not 32 */
    RVGHASH_NOT_MULTIPLE_OF_4 = 5, /* a GHASH word and vl or vstart no multiple of 4 */
    RVGHASH_BAD_GROUP = 6,         /* a register group's number is no multiple of LMUL, or (group question) over 31 */
    RVGHASH_KEY_OVERLAP = 7,       /* a .vs word and vd <= vs2 < vd + LMUL */
    RVGHASH_MASK_OVERLAP = 8,      /* vm is 0 and vd, vs2 or (.vv) vs1 is register 0 */
    RVGHASH_NOT_16_BYTES = 9,      /* a key or block not 16 bytes long */
    RVGHASH_BAD_RUNNING = 10,      /* running hash in the wrong phase, or malformed */
    RVGHASH_TOO_LONG = 11,         /* A or C would pass 1,048,576 bytes */
    RVGHASH_NONE = 12,             /* step back: no earlier hash; degree: zero block */
    RVGHASH_MANY = 13,             /* step back: more than one earlier hash */
    RVGHASH_BAD_TRACE = 14,        /* replay: the trace's length no multiple of 24, or a policy byte over 3;
                                      record: its length not 24, or SEW, LMUL or the answer over 255 */
    RVGHASH_BAD_PARKED = 15,       /* park: the buffer's length not 48; unpark: the record's length not 48, a spare
                                      byte not zero, or malformed */
    RVGHASH_BAD_LINKS = 16,        /* links: the records' length no multiple of 32, or the results' length not the
                                      number of records */
    RVGHASH_SHORT_TEXT = 22        /* listing: a text's buffer under 32 bytes */
};

/*
 * Executes one word on the register file, as rvghash_execute_policies does with both policies off.
 * Lent: vstart, one number; file, file_len bytes, register r from byte r * vlen / 8 on.
 * Done (0): the file holds what the instruction writes, every other byte is as before, and *vstart is 0.
 * Refused (1 to 8): the file and *vstart are as before.
 * scalar is the value of x register rs1, used by the .vx words; where rs1 is field 0 it counts as zero.
 */
RVGHASH_MUST_USE
uint32_t rvghash_execute(uint32_t word, uint32_t vlen, uint32_t sew, uint32_t lmul, uint32_t vl, uint32_t *vstart,
                         uint64_t scalar, uint8_t *file, size_t file_len);

/*
 * The same under vtype's policies: tail_agnostic is its bit vta, and mask_agnostic its bit vma.
 * Lent: vstart, one number; file, file_len bytes, as above.
 * Done (0): as above, and these bytes of the vd group are ones bits now:
 * - with tail_agnostic, all from element vl on, to the group's end; in GHASH words that is from group vl / 4 on;
 * - with mask_agnostic and vm 0, the elements from vstart to vl - 1 whose mask bit was 0 before the call.
 * But where *vstart was vl or more the file is as before, whatever the policies; *vstart is 0 all the same.
 * Refused (1 to 8, the same under all policies): the file and *vstart are as before.
 */
RVGHASH_MUST_USE
uint32_t rvghash_execute_policies(uint32_t word, uint32_t vlen, uint32_t sew, uint32_t lmul, bool tail_agnostic,
                                  bool mask_agnostic, uint32_t vl, uint32_t *vstart, uint64_t scalar, uint8_t *file,
                                  size_t file_len);

/*
 * Whether a register group exists: 1 as above, 3 if LMUL is not allowed, 6 if the register is over 31 or no multiple
 * of LMUL, else 0, and the group is then the lmul * vlen / 8 bytes from reg * vlen / 8 on. Nothing is lent.
 */
RVGHASH_MUST_USE
uint32_t rvghash_group_refusal(uint32_t vlen, size_t file_len, uint32_t lmul, uint32_t reg);

/*
 * Where a register group lies in a file of file_len bytes, which is not passed itself.
 * Lent: start and length, one number each. The answers are those of rvghash_group_refusal.
 * Done (0): the group is the *length bytes from byte *start on. Refused (1, 3 or 6): both are 0.
 */
RVGHASH_MUST_USE
uint32_t rvghash_group(uint32_t vlen, size_t file_len, uint32_t lmul, uint32_t reg, size_t *start, size_t *length);

/*
 * The kinds of word. vm is 0 or 1 in the first four, and 1 in the GHASH words, the last four. vs1 is rs1 in the .vx
 * words, and 17 in the vgmul words, where it is a part of the encoding.
 */
enum rvghash_kind {
    RVGHASH_VCLMUL_VV = 0,
    RVGHASH_VCLMUL_VX = 1,
    RVGHASH_VCLMULH_VV = 2,
    RVGHASH_VCLMULH_VX = 3,
    RVGHASH_VGHSH_VV = 4,
    RVGHASH_VGHSH_VS = 5,
    RVGHASH_VGMUL_VV = 6,
    RVGHASH_VGMUL_VS = 7
};

/*
 * Writes a word: from its kind and fields to its 32 bits.
 * Lent: word, one number.
 * Done (0): *word is the word, and rvghash_decode gives the same kind and fields again.
 * Refused (2; the kind is over 7, a register over 31 or vm over 1, vm is 0 in a GHASH word, or vs1 is not 17 in a vgmul
 * word): *word is 0.
 */
RVGHASH_MUST_USE
uint32_t rvghash_encode(uint32_t kind, uint32_t vm, uint32_t vs2, uint32_t vs1, uint32_t vd, uint32_t *word);

/*
 * Decodes a word: from its 32 bits to its kind and fields.
 * Lent: kind, vm, vs2, vs1 and vd, one number each.
 * Done (0): they are the word's, and rvghash_encode writes the same word from them. Refused (2): all five are 0.
 */
RVGHASH_MUST_USE
uint32_t rvghash_decode(uint32_t word, uint32_t *kind, uint32_t *vm, uint32_t *vs2, uint32_t *vs1, uint32_t *vd);

/*
 * Lists a word: its text, as "vghsh.vv v4, v8, v12" or "vclmul.vx v1, v2, x3, v0.t". That is the mnemonic, a space, and
 * vd, vs2, vs1 or rs1 (in vgmul words vd and vs2 alone), parted by a comma and a space; ", v0.t" ends it where vm is 0.
 * Lent: text, at least 32 bytes; length, one number.
 * Done (0): the text is the first *length bytes of text, with no ending byte; every later byte is as before.
 * Refused (2; 22, text_len is under 32): text is as before, and *length is 0.
 */
RVGHASH_MUST_USE
uint32_t rvghash_disassemble(uint32_t word, uint8_t *text, size_t text_len, size_t *length);

/*
 * Reads a text back to its word: exactly the texts that rvghash_disassemble writes, and no other bytes.
 * Lent: text, of any length, only read; word, one number.
 * Done (0): *word is the word of this text. Refused (2): *word is 0.
 */
RVGHASH_MUST_USE
uint32_t rvghash_assemble(const uint8_t *text, size_t text_len, uint32_t *word);

/*
 * A trace is records of 24 bytes, one for each call of the executor, and nothing else: word (4 bytes), SEW, LMUL,
 * answer, policy byte, vl (4), vstart before the call (4), scalar (8), numbers low byte first. The policy byte is the
 * sum of the policies that are on. Versions before 0.5.0 write 0 there, and refuse every other byte.
 */
enum { RVGHASH_RECORD_BYTES = 24 };
enum { RVGHASH_TAIL_AGNOSTIC = 1, RVGHASH_MASK_AGNOSTIC = 2 }; /* of the policy byte */

/*
 * Writes a call and its answer as a record.
 * Lent: record, 24 bytes.
 * Done (0): record holds the record. Refused (14; record_len is not 24, or SEW, LMUL or answer is over 255): record is
 * as before.
 */
RVGHASH_MUST_USE
uint32_t rvghash_put_record(uint32_t word, uint32_t sew, uint32_t lmul, bool tail_agnostic, bool mask_agnostic,
                            uint32_t answer, uint32_t vl, uint32_t vstart, uint64_t scalar, uint8_t *record,
                            size_t record_len);

#define RVGHASH_DIFFERS 256u /* replay: an answer byte differs from ours; no answer byte can be this number */

/*
 * Replays a trace: one call of rvghash_execute_policies for each record, in order, with the record's own policies and
 * vstart.
 * Lent: file, file_len bytes; trace, of any length, only read; index, one number.
 * Done (0): every record's answer is ours, the file is as after these calls, and *index is the number of records.
 * Differs (256): *index is the first record, from 0, whose answer differs from ours, and the file is as before it.
 * Refused (14; the trace's length is no multiple of 24, or a policy byte in it is over 3): nothing ran, the file is as
 * before, and *index is 0.
 * A VLEN or a file length that is not allowed is no refusal here: each call then answers 1, and a record may say so.
 * A trace that a version before 0.4.0 recorded may differ at a .vs word whose vs2 lies in vd's group after vd itself:
 * it was done then, and is refused with 7 now.
 */
RVGHASH_MUST_USE
uint32_t rvghash_replay(uint32_t vlen, uint8_t *file, size_t file_len, const uint8_t *trace, size_t trace_len,
                        size_t *index);

/*
 * The product of a block and a key in the GHASH field, bit by bit (plain) or four coefficients at a time (fast).
 * Lent: key and block, 16 bytes each, only read; out, 16 bytes.
 * Done (0): out holds the product. Refused (9): out holds 16 zero bytes; an out that is not 16 bytes long is not
 * written.
 */
RVGHASH_MUST_USE
uint32_t rvghash_product_plain(const uint8_t *key, size_t key_len, const uint8_t *block, size_t block_len,
                               uint8_t *out, size_t out_len);
RVGHASH_MUST_USE
uint32_t rvghash_product_fast(const uint8_t *key, size_t key_len, const uint8_t *block, size_t block_len,
                              uint8_t *out, size_t out_len);
#define rvghash_product rvghash_product_fast

/*
 * GHASH of SP 800-38D over a whole A and C under a key.
 * Lent: key, 16 bytes, a and c, at most 1,048,576 bytes each, only read; out, 16 bytes.
 * Done (0): out holds the hash. Refused (9, 11): out holds 16 zero bytes; an out that is not 16 bytes long is not
 * written.
 */
RVGHASH_MUST_USE
uint32_t rvghash_ghash_plain(const uint8_t *key, size_t key_len, const uint8_t *a, size_t a_len, const uint8_t *c,
                             size_t c_len, uint8_t *out, size_t out_len);
RVGHASH_MUST_USE
uint32_t rvghash_ghash_fast(const uint8_t *key, size_t key_len, const uint8_t *a, size_t a_len, const uint8_t *c,
                            size_t c_len, uint8_t *out, size_t out_len);
#define rvghash_ghash rvghash_ghash_fast

/*
 * A link, as it is checked here, is a record of 32 bytes: a claim block (16 bytes) and the hash that is expected for it
 * (16). It agrees where GHASH of the claim block as A, with an empty C, is the expected hash. Keep records as the key is
 * kept: a claim block and its right hash leave at most two keys that give it.
 */
enum { RVGHASH_LINK_BYTES = 32 };

/*
 * Checks many links under one key, in one call.
 * Lent: key, 16 bytes, and records, one after the other, any number of them, only read; results, a byte for each record.
 * Done (0): byte i of results is 1 if record i agrees, and else 0. With no records nothing is written.
 * Refused (9; 16, records_len is no multiple of 32, or results_len is not records_len / 32): results is as before.
 */
RVGHASH_MUST_USE
uint32_t rvghash_check_links(const uint8_t *key, size_t key_len, const uint8_t *records, size_t records_len,
                             uint8_t *results, size_t results_len);

/*
 * The step back: the partial hash Y with (Y xor block) * key = later.
 * Lent: key, block and later, 16 bytes each, only read; out, 16 bytes.
 * Done (0): out holds the only such Y. Refused (9; 12, there is none; 13, there are several): out holds 16 zero bytes;
 * an out that is not 16 bytes long is not written.
 */
RVGHASH_MUST_USE
uint32_t rvghash_step_back(const uint8_t *key, size_t key_len, const uint8_t *block, size_t block_len,
                           const uint8_t *later, size_t later_len, uint8_t *out, size_t out_len);

/*
 * The place of a block's highest nonzero coefficient, 0 to 127; coefficient k is bit 7 - k mod 8 of byte k div 8.
 * Lent: block, 16 bytes, only read; degree, one number.
 * Done (0): *degree is the place. Refused (9; 12 for the zero block): *degree is 0.
 */
RVGHASH_MUST_USE
uint32_t rvghash_degree(const uint8_t *block, size_t block_len, uint32_t *degree);

/*
 * A running hash: a message taken in pieces. Its fields are the caller's to keep and copy; no key is in it.
 * phase 0 takes A, 1 takes C, 2 is finished. open holds the bytes since the last whole block, then zeros.
 * spare fills the struct up, so that it has no padding: a call that writes the struct writes zeros there, any other one
 * leaves it as it is, and no call reads it.
 */
struct rvghash_running {
    uint64_t y_high, y_low; /* the partial hash Y, as a big-endian number's halves */
    uint8_t open[16];
    uint32_t a_count, c_count; /* the bytes of A and of C so far */
    uint8_t phase;
    uint8_t spare[7];
};

/* Makes a fresh running hash. Lent: state, written whole. */
void rvghash_running_new(struct rvghash_running *state);

/*
 * Takes a piece of A, or of C; the first C, even of length 0, ends A. Feeding and finishing may mix the paths.
 * Lent: state; key, 16 bytes, and piece, only read.
 * Done (0): *state has taken the piece. Refused (9, 10, 11): *state is as before.
 */
RVGHASH_MUST_USE
uint32_t rvghash_feed_a(struct rvghash_running *state, const uint8_t *key, size_t key_len, const uint8_t *piece,
                        size_t piece_len);
RVGHASH_MUST_USE
uint32_t rvghash_feed_c(struct rvghash_running *state, const uint8_t *key, size_t key_len, const uint8_t *piece,
                        size_t piece_len);
RVGHASH_MUST_USE
uint32_t rvghash_feed_a_plain(struct rvghash_running *state, const uint8_t *key, size_t key_len,
                              const uint8_t *piece, size_t piece_len);
RVGHASH_MUST_USE
uint32_t rvghash_feed_c_plain(struct rvghash_running *state, const uint8_t *key, size_t key_len,
                              const uint8_t *piece, size_t piece_len);
#define rvghash_feed_a_fast rvghash_feed_a
#define rvghash_feed_c_fast rvghash_feed_c

/*
 * Finishes: adds the length block.
 * Lent: state; key, 16 bytes, only read; out, 16 bytes.
 * Done (0): out holds the hash, which is also *state's Y, and the phase is 2. Refused (9, 10): *state is as before and
 * out holds 16 zero bytes; an out that is not 16 bytes long is not written.
 */
RVGHASH_MUST_USE
uint32_t rvghash_finish(struct rvghash_running *state, const uint8_t *key, size_t key_len, uint8_t *out,
                        size_t out_len);
RVGHASH_MUST_USE
uint32_t rvghash_finish_plain(struct rvghash_running *state, const uint8_t *key, size_t key_len, uint8_t *out,
                              size_t out_len);
#define rvghash_finish_fast rvghash_finish

/*
 * A parked running hash is a record of 48 bytes, and nothing else: Y (16 bytes, as a block's), open (16), a_count (4),
 * c_count (4), phase (1), seven zero bytes, counts low byte first. No key is in it, and no checksum: a changed record
 * that is still well-formed is taken. A box that has fed all of A parks to disk, and goes on after
 * a restart where it was:
 *
 *     uint8_t record[RVGHASH_PARKED_BYTES];
 *     if (rvghash_park(&running, record, sizeof record) != RVGHASH_DONE) return 1;
 *     if (fwrite(record, sizeof record, 1, disk) != 1 || fflush(disk) != 0) return 1;
 *     if (fread(record, sizeof record, 1, disk) != 1) return 1; // restarted, disk is open at the record
 *     if (rvghash_unpark(&running, record, sizeof record) != RVGHASH_DONE) return 1; // running is a fresh one
 *     return rvghash_feed_c(&running, key, sizeof key, c + running.c_count, c_len - running.c_count) != RVGHASH_DONE;
 */
enum { RVGHASH_PARKED_BYTES = 48 };

/*
 * Parks a running hash of any phase, a finished one too.
 * Lent: running, only read, and its spare bytes not at all; record, 48 bytes.
 * Done (0): record holds the record. Refused (10, *running is malformed; 15, record_len is not 48): record is as
 * before.
 */
RVGHASH_MUST_USE
uint32_t rvghash_park(const struct rvghash_running *running, uint8_t *record, size_t record_len);

/*
 * Reads a parked running hash back.
 * Lent: running, written whole, whatever it was; record, of any length, only read.
 * Done (0): *running is the one that was parked, with zeros in spare, and rvghash_park writes the same record again.
 * Refused (15; record_len is not 48, one of the last seven bytes is not zero, or the fields are malformed): *running is
 * a fresh one, as rvghash_running_new makes it. No other refusal changes a running hash that is lent.
 */
RVGHASH_MUST_USE
uint32_t rvghash_unpark(struct rvghash_running *running, const uint8_t *record, size_t record_len);

#ifdef __cplusplus
}
#endif

#endif
