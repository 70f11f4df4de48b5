#!/usr/bin/env python3
"""Derive the register files that words leave, by a model of document 01 that shares nothing with the library.

Before each call byte i of the file is (7 i + 3) mod 251, a pattern that the program makes again and that has no byte FF. Each
row below gives the call and the number that document 01 answers, with document 02's Asks 4 and 5; the model gives the bytes,
where that number is 0.

Usage: words.py [-o OUTPUT]
OUTPUT is by default the file that the program known_words reads; SHA256SUMS has its checksum. It has a record a row, of
numbers low byte first: group, word, VLEN, SEW, LMUL, vl, vstart (4 bytes each), scalar (8 bytes), length of the file, number,
start and length of the bytes that change, tail agnostic, mask agnostic (4 bytes each, the last two 0 or 1); then those bytes as
they should be, from the first that changes to the last. Group 9 asks for register groups: there the register stands in the
word's place.
"""

import argparse
import hashlib
import os
import struct

OUTPUT = os.path.join(os.path.dirname(os.path.abspath(__file__)), "../../crates/known_words/data/words.bin")
SCALAR = 0xF1E2_D3C4_B5A6_9788


# ---- the eight words

def encode(funct6, vm, vs2, vs1, funct3, vd, opcode):
    return funct6 << 26 | vm << 25 | vs2 << 20 | vs1 << 15 | funct3 << 12 | vd << 7 | opcode


class Word:
    """One of the eight words; `bits` is its encoding."""

    ROWS = {
        "vclmul.vv": (0b001100, 0b010, 0b1010111),
        "vclmul.vx": (0b001100, 0b110, 0b1010111),
        "vclmulh.vv": (0b001101, 0b010, 0b1010111),
        "vclmulh.vx": (0b001101, 0b110, 0b1010111),
        "vghsh.vv": (0b101100, 0b010, 0b1110111),
        "vghsh.vs": (0b100011, 0b010, 0b1110111),
        "vgmul.vv": (0b101000, 0b010, 0b1110111),
        "vgmul.vs": (0b101001, 0b010, 0b1110111),
    }

    def __init__(self, name, vd=8, vs2=16, vs1=24, vm=1):
        funct6, funct3, opcode = self.ROWS[name]
        vs1 = 0b10001 if name.startswith("vgmul") else vs1
        self.name, self.vd, self.vs2, self.vs1, self.vm = name, vd, vs2, vs1, vm
        self.bits = encode(funct6, vm, vs2, vs1, funct3, vd, opcode)


# ---- the model: polynomials as Python numbers

def reverse(n, width):
    return int(format(n, "0%db" % width)[::-1], 2)


def carry_less(a, b):
    product = 0
    while b:
        if b & 1:
            product ^= a
        a, b = a << 1, b >> 1
    return product


def field_product(x, y):
    """Of two blocks of 16 bytes; coefficient k is bit 7-(k mod 8) of byte k div 8."""
    n = carry_less(reverse(int.from_bytes(x, "big"), 128), reverse(int.from_bytes(y, "big"), 128))
    for k in range(254, 127, -1):
        if n >> k & 1:
            n ^= (1 << 128 | 0x87) << (k - 128)
    return reverse(n, 128).to_bytes(16, "big")


def xor(x, y):
    return bytes(a ^ b for a, b in zip(x, y))


def execute(word, vlen, sew, lmul, vl, vstart, policies, scalar, before):
    """The file after a word that is not refused; the policies are tail agnostic and mask agnostic."""
    if vstart >= vl:
        return before
    tail_agnostic, mask_agnostic = policies
    ghash = word.name.startswith("vg")
    file, size, step = bytearray(before), 16 if ghash else sew // 8, 4 if ghash else 1
    place = lambda register, i: slice(register * vlen // 8 + i * size, register * vlen // 8 + (i + 1) * size)
    for i in range(vstart // step, vl // step):
        if word.vm == 0 and not before[i // 8] >> i % 8 & 1:
            if mask_agnostic:
                file[place(word.vd, i)] = b"\xff" * size
            continue
        source = 0 if word.name.endswith(".vs") else i
        vd, vs1, vs2 = before[place(word.vd, i)], before[place(word.vs1, i)], before[place(word.vs2, source)]
        if ghash:
            result = field_product(xor(vd, vs1) if word.name.startswith("vghsh") else vd, vs2)
        else:
            other = int.from_bytes(vs1, "little")
            if word.name.endswith(".vx"):
                other = 0 if word.vs1 == 0 else scalar % 2**sew
            product = carry_less(int.from_bytes(vs2, "little"), other)
            result = ((product >> sew if "h." in word.name else product) % 2**sew).to_bytes(size, "little")
        file[place(word.vd, i)] = result
    if tail_agnostic:
        start, end = place(word.vd, vl // step).start, (word.vd + lmul) * vlen // 8
        file[start:end] = b"\xff" * (end - start)
    return bytes(file)


# ---- the rows: a word or its bits, VLEN, SEW, LMUL, vl, vstart, the number, perhaps policies, and perhaps another length of the file

# Tail agnostic, mask agnostic.
OFF, TAIL, MASK, BOTH = (0, 0), (1, 0), (0, 1), (1, 1)

VV = Word("vclmul.vv")
GHASH = [Word(n) for n in ("vghsh.vv", "vghsh.vs", "vgmul.vv", "vgmul.vs")]
CARRY_LESS = ["vclmul.vv", "vclmul.vx", "vclmulh.vv", "vclmulh.vx"]


def at_vlmax():
    for vlen, sew, lmul in ((128, 8, 1), (128, 64, 1), (256, 16, 2), (512, 8, 8)):
        vlmax = lmul * vlen // sew
        yield VV, vlen, sew, lmul, vlmax, 0, 0
        yield VV, vlen, sew, lmul, vlmax + 1, 0, 3
    # At VLMAX this one is a row of ghash_words.
    yield GHASH[0], 512, 32, 8, 132, 0, 3


def ghash_vl_and_vstart():
    for word in GHASH:
        for vl, vstart, number in ((4, 0, 0), (5, 0, 5), (6, 0, 5), (8, 4, 0), (8, 2, 5), (8, 5, 5), (8, 6, 5), (4, 4, 0), (4, 8, 0)):
            yield word, 128, 32, 2, vl, vstart, number


def register_31():
    for word in (Word("vclmul.vv", vd=31), Word("vclmul.vv", vs2=31), Word("vclmul.vv", vs1=31)):
        yield word, 128, 32, 1, 4, 1, 0
        yield word, 128, 32, 2, 4, 1, 6
    yield Word("vgmul.vs", vs2=31), 128, 32, 2, 4, 0, 0
    yield Word("vclmul.vx", vs1=31), 128, 32, 2, 4, 0, 0


def settings():
    for vlen in (64, 127, 129, 1024):
        yield VV, vlen, 8, 1, 1, 1, 1, OFF, min(4 * vlen, 2048)
    for vlen in (128, 256, 512):
        for length in (4 * vlen - 1, 4 * vlen, 4 * vlen + 1):
            yield VV, vlen, 8, 1, 16, 1, 0 if length == 4 * vlen else 1, OFF, length
    for sew in (0, 4, 24, 128):
        yield VV, 128, sew, 1, 1, 1, 3
    for lmul in (0, 3, 16):
        yield VV, 128, 8, lmul, 1, 1, 3
    for word in GHASH:
        yield word, 128, 16, 1, 4, 4, 4
        yield word, 128, 64, 2, 4, 4, 4


def numbers_of_words():
    at = (128, 32, 1, 4, 0)
    for bits in (0, 0xFFFFFFFF, VV.bits ^ 1 << 27, VV.bits ^ 1 << 12, GHASH[0].bits ^ 1, GHASH[0].bits ^ 1 << 25, GHASH[2].bits ^ 1 << 15):
        yield bits, *at, 2
    for lmul in (1, 2, 4, 8):
        whole = (128, 32, lmul, 4 * lmul, 0)
        for name in ("vghsh.vs", "vgmul.vs"):
            # Before vd's group, its first register, its last one (at LMUL 1 the same), and after it.
            for vs2, number in {7: 0, 8: 7, 7 + lmul: 7, 8 + lmul: 0}.items():
                yield Word(name, vs2=vs2), *whole, number
        for name in ("vghsh.vv", "vgmul.vv"):
            yield Word(name, vs2=8), *whole, 0
    for name in CARRY_LESS:
        yield Word(name, vd=0, vm=0), *at, 8
        yield Word(name, vd=0), *at, 0
        yield Word(name, vs2=0, vm=0), *at, 8
        yield Word(name, vs1=0, vm=0), *at, 8 if name.endswith(".vv") else 0


def smallest_of_several():
    """Each number with the next that can apply beside it."""
    yield 0, 128, 24, 1, 4, 0, 1, OFF, 511
    yield 0, 128, 24, 1, 4, 0, 2
    yield GHASH[0], 128, 24, 1, 5, 0, 3
    yield GHASH[0], 128, 16, 1, 5, 0, 4
    yield Word("vghsh.vv", vd=31), 128, 32, 2, 5, 0, 5
    yield Word("vgmul.vs", vd=31, vs2=31), 128, 32, 2, 4, 0, 6
    yield Word("vghsh.vs", vs2=9, vs1=25), 128, 32, 2, 8, 0, 6
    yield Word("vclmul.vv", vd=31, vs2=0, vm=0), 128, 32, 2, 4, 0, 6


def carry_less_words():
    """Every width, both halves, vs1 or the scalar, all elements or the masked ones, from vstart on."""
    for name in CARRY_LESS:
        for vlen, sew, lmul in ((128, 8, 2), (256, 16, 1), (512, 32, 4), (128, 64, 8)):
            vl = lmul * vlen // sew - 1
            yield Word(name), vlen, sew, lmul, vl, 0, 0
            yield Word(name, vm=0), vlen, sew, lmul, vl, 3, 0
        yield Word(name, vd=16, vs2=16, vs1=16), 128, 8, 1, 16, 0, 0


def scalars():
    """rs1 field 0 counts as zero, and no other."""
    for name in ("vclmul.vx", "vclmulh.vx"):
        for rs1 in (0, 1, 16, 31):
            for sew in (8, 16, 32, 64):
                yield Word(name, vs1=rs1), 128, sew, 1, 2, 0, 0


def ghash_words():
    for word in GHASH:
        for vlen, lmul in ((128, 1), (256, 2), (512, 8)):
            yield word, vlen, 32, lmul, lmul * vlen // 32, 0, 0
            yield word, vlen, 32, lmul, lmul * vlen // 32, 4, 0
    yield Word("vghsh.vv", vd=16, vs2=16, vs1=16), 128, 32, 4, 16, 0, 0
    yield Word("vgmul.vv", vd=16, vs2=16), 128, 32, 4, 16, 0, 0
    yield Word("vghsh.vs", vd=16, vs2=15, vs1=16), 128, 32, 4, 16, 0, 0
    yield Word("vgmul.vs", vd=16, vs2=20), 128, 32, 4, 16, 0, 0


def register_groups():
    """VLEN, LMUL, the register, the number, and perhaps another length of the file."""
    for lmul, register, number in ((1, 0, 0), (1, 31, 0), (1, 32, 6), (2, 30, 0), (2, 31, 6), (2, 32, 6), (3, 30, 3), (0, 30, 3), (16, 0, 3)):
        yield 128, lmul, register, number
    for vlen in (128, 256, 512):
        yield vlen, 4, 8, 0
        yield vlen, 8, 24, 0
        yield vlen, 8, 20, 6
    yield 128, 1, 30, 1, 511
    yield 128, 1, 30, 1, 513
    yield 64, 1, 30, 1


def tails():
    """Each word, with a part of vd's group past vl."""
    for name in CARRY_LESS:
        for vlen, sew, lmul, vl, vstart in ((128, 64, 8, 15, 0), (256, 8, 1, 1, 0), (512, 16, 8, 101, 2)):
            yield Word(name), vlen, sew, lmul, vl, vstart, 0, TAIL
    for word in GHASH:
        for vlen, lmul, vl, vstart in ((128, 8, 28, 0), (256, 1, 4, 0), (512, 8, 60, 8)):
            yield word, vlen, 32, lmul, vl, vstart, 0, TAIL


def limits_of_tails():
    """vl at, below and far below VLMAX, which is 8; vm is 1, so the mask policy does nothing."""
    for vl, vstart in ((1, 0), (7, 6), (8, 0)):
        yield VV, 128, 32, 2, vl, vstart, 0, BOTH
    for word in GHASH:
        yield word, 128, 32, 2, 4, 0, 0, MASK
        yield word, 128, 32, 2, 8, 4, 0, BOTH


def nothing_to_write():
    """vstart at or past vl."""
    for vl, vstart in ((0, 0), (0, 1), (5, 5), (5, 6), (5, 2**32 - 1), (8, 8)):
        yield Word("vclmul.vv", vm=0), 128, 32, 2, vl, vstart, 0, BOTH
    for word in (GHASH[0], GHASH[3]):
        for vl, vstart in ((0, 0), (4, 4), (4, 8), (4, 2**32 - 4)):
            yield word, 128, 32, 2, vl, vstart, 0, BOTH


def masks():
    """Each carry-less word with each of four ways, each at another width; the mask has zeros before vstart and after it."""
    ways = ((0, MASK), (0, BOTH), (0, TAIL), (1, MASK))
    for n, (vlen, sew, lmul) in enumerate(((512, 8, 8), (256, 16, 1), (512, 32, 2), (128, 64, 8))):
        for k, (vm, policies) in enumerate(ways):
            yield Word(CARRY_LESS[(n + k) % 4], vm=vm), vlen, sew, lmul, lmul * vlen // sew - 3, 3, 0, policies


def places_of_tails():
    """vd at both ends of the file, sources in vd's own group, keys beside it, and a scalar that counts as zero."""
    yield Word("vclmul.vv", vd=0), 128, 8, 8, 5, 0, 0, BOTH
    yield Word("vclmul.vv", vd=31), 256, 32, 1, 5, 0, 0, TAIL
    yield Word("vclmul.vv", vd=16, vs2=16, vs1=16, vm=0), 128, 8, 2, 29, 0, 0, BOTH
    yield Word("vghsh.vv", vd=16, vs2=16, vs1=16), 128, 32, 4, 8, 0, 0, BOTH
    yield Word("vghsh.vs", vs2=10), 128, 32, 2, 4, 0, 0, BOTH
    yield Word("vgmul.vs", vs2=7), 128, 32, 2, 4, 0, 0, BOTH
    yield Word("vclmul.vx", vs1=0, vm=0), 128, 16, 2, 13, 1, 0, BOTH


def refusals_with_policies():
    """Numbers 1 to 8: nothing is filled, and vstart stays."""
    at = (128, 32, 4, 8, 4)
    yield VV, *at, 1, BOTH, 511
    yield VV.bits ^ 1 << 27, *at, 2, BOTH
    for sew, lmul, vl in ((24, 4, 8), (32, 3, 8), (32, 4, 17)):
        yield VV, 128, sew, lmul, vl, 4, 3, BOTH
    yield GHASH[0], 128, 64, 8, 8, 4, 4, BOTH
    yield GHASH[0], 128, 32, 4, 9, 4, 5, BOTH
    yield GHASH[0], 128, 32, 4, 8, 6, 5, BOTH
    for word in (Word("vclmul.vv", vd=9), Word("vghsh.vv", vs2=18)):
        yield word, *at, 6, BOTH
    for word in (Word("vghsh.vs", vs2=11), Word("vgmul.vs", vs2=8)):
        yield word, *at, 7, BOTH
    for registers in ({"vd": 0}, {"vs2": 0}, {"vs1": 0}):
        yield Word("vclmul.vv", vm=0, **registers), *at, 8, BOTH


def with_policies():
    for rows in (tails, limits_of_tails, nothing_to_write, masks, places_of_tails, refusals_with_policies):
        yield from rows()


GROUPS = [
    at_vlmax,
    ghash_vl_and_vstart,
    register_31,
    settings,
    numbers_of_words,
    smallest_of_several,
    carry_less_words,
    scalars,
    ghash_words,
    register_groups,
    with_policies,
]


def record(group, word, vlen, sew, lmul, vl, vstart, number, policies=OFF, length=None):
    length = 4 * vlen if length is None else length
    before = bytes((7 * i + 3) % 251 for i in range(length))
    after = execute(word, vlen, sew, lmul, vl, vstart, policies, SCALAR, before) if number == 0 else before
    assert len(after) == length
    changed = [i for i in range(length) if before[i] != after[i]]
    start, end = (changed[0], changed[-1] + 1) if changed else (0, 0)
    bits = word if isinstance(word, int) else word.bits
    return packed(group, bits, vlen, sew, lmul, vl, vstart, length, number, start, policies, after[start:end])


def packed(group, word, vlen, sew, lmul, vl, vstart, length, number, start, policies, changed):
    head = (group, word, vlen, sew, lmul, vl, vstart, SCALAR, length, number, start, len(changed), *policies)
    return struct.pack("<7IQ6I", *head) + changed


def group_record(group, vlen, lmul, register, number, length=None):
    """The bytes that change are the part, with the pattern (11 i + 5) mod 253 written to it."""
    part = bytes((11 * i + 5) % 253 for i in range(lmul * vlen // 8)) if number == 0 else b""
    start = register * vlen // 8 if number == 0 else 0
    return packed(group, register, vlen, 0, lmul, 0, 0, 4 * vlen if length is None else length, number, start, OFF, part)


def records(n, group):
    make = group_record if group is register_groups else record
    return [make(n, *row) for row in group()]


def main():
    parser = argparse.ArgumentParser(description="Derive the register files that words leave.")
    parser.add_argument("-o", "--output", default=OUTPUT)
    output = parser.parse_args().output
    assert Word("vghsh.vv", 4, 8, 12).bits == 0xB2862277 and Word("vclmul.vx", 1, 2, 3).bits == 0x3221E0D7
    rows = [records(n, group) for n, group in enumerate(GROUPS)]
    calls = [r[4:] for group in rows for r in group]
    assert len(set(calls)) == len(calls), "a row stands twice"
    data = b"".join(b"".join(group) for group in rows)
    assert len(data) <= 65536, "more than the program reads"
    with open(output, "wb") as f:
        f.write(data)
    print(f"records: {[len(r) for r in rows]}, bytes: {len(data)}, sha256: {hashlib.sha256(data).hexdigest()}")


if __name__ == "__main__":
    main()
