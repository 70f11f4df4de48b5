#!/usr/bin/env python3
"""Derive GHASH test records from NIST's CAVP files for AES-GCM.

GCM defines Tag = GHASH_H(A, C) xor AES_K(J0), with H = AES_K(0^128).
So the published tag and AES alone give the GHASH value:
    S = Tag xor AES_K(J0).
AES comes from the `cryptography` package. The value written is always S,
taken from the tag; the GHASH below only checks it.

Usage: vectors.py [DATA_DIR] [-o OUTPUT]
DATA_DIR holds gcmEncryptExtIV{128,192,256}.rsp. By default it is looked up
in the Debian package python3-cryptography-vectors. OUTPUT is by default the
file that the program known_hashes reads; SHA256SUMS has its checksum.
"""

import argparse
import collections
import hashlib
import os
import re
import struct
import subprocess
import sys

from cryptography.hazmat.primitives.ciphers import Cipher, algorithms, modes

OUTPUT = os.path.join(os.path.dirname(os.path.abspath(__file__)),
                      "../../crates/known_hashes/data/gcm.bin")
PACKAGE = "python3-cryptography-vectors"
KEY_BITS = (128, 192, 256)
PER_GROUP = 6  # records for each (key size, len A, len C)
MIN_RECORDS = 400
MAX_BYTES = 80_000  # the output stays below this


def default_data_dir():
    """The directory of the GCM files, as the Debian package lists it."""
    try:
        listing = subprocess.run(["dpkg", "-L", PACKAGE], capture_output=True,
                                 text=True, check=True).stdout
    except (OSError, subprocess.CalledProcessError):
        sys.exit(f"install {PACKAGE}, or give the data directory")
    for path in listing.splitlines():
        if os.path.basename(path) == "gcmEncryptExtIV128.rsp":
            return os.path.dirname(path)
    sys.exit(f"{PACKAGE} has no GCM files; give the data directory")


def read_rsp(path):
    """Yield (parameters, fields) for each record of a .rsp file.

    `[Name = n]` lines give the parameters, in bits, of the records that
    follow; `Name = hex` lines give one record, which ends with its Tag.
    """
    params, fields = {}, {}
    with open(path, encoding="ascii") as f:
        for line in f:
            line = line.strip()
            if m := re.fullmatch(r"\[(\w+) = (\d+)\]", line):
                params[m[1]] = int(m[2])
            elif line.startswith("Count ="):
                fields = {}
            elif m := re.fullmatch(r"(Key|IV|PT|AAD|CT|Tag) =\s*([0-9a-f]*)", line):
                fields[m[1]] = bytes.fromhex(m[2])
                if m[1] == "Tag":
                    yield dict(params), fields
            else:
                assert line == "" or line.startswith("#"), line


def aes(key, block):
    """AES on one block, by the outside library."""
    enc = Cipher(algorithms.AES(key), modes.ECB()).encryptor()
    return enc.update(block) + enc.finalize()


def xor(a, b):
    return bytes(x ^ y for x, y in zip(a, b, strict=True))


def mul(x, y):
    """Product in GCM's field: NIST SP 800-38D, algorithm 1, on integers.

    The first bit of a block, its coefficient of degree 0, is bit 127 here.
    """
    z, v = 0, y
    for i in range(127, -1, -1):
        if x >> i & 1:
            z ^= v
        v = v >> 1 ^ (0xE1 << 120 if v & 1 else 0)
    return z


def ghash(h, a, c):
    """GHASH of A and C, each zero-padded to blocks, then their bit lengths."""
    def pad(s):
        return s + bytes(-len(s) % 16)

    data = pad(a) + pad(c) + struct.pack(">QQ", 8 * len(a), 8 * len(c))
    h, y = int.from_bytes(h, "big"), 0
    for i in range(0, len(data), 16):
        y = mul(y ^ int.from_bytes(data[i:i + 16], "big"), h)
    return y.to_bytes(16, "big")


def main():
    parser = argparse.ArgumentParser(description="Derive GHASH test records.")
    parser.add_argument("data_dir", nargs="?")
    parser.add_argument("-o", "--output", default=OUTPUT)
    args = parser.parse_args()
    data_dir = args.data_dir or default_data_dir()

    out, seen = [], set()
    taken = collections.Counter()  # (key size, len A, len C) -> records taken
    pairs_in_files = set()
    for bits in KEY_BITS:
        for p, f in read_rsp(os.path.join(data_dir, f"gcmEncryptExtIV{bits}.rsp")):
            key, iv, a, c, tag = (f[n] for n in ("Key", "IV", "AAD", "CT", "Tag"))
            # The fields have the lengths their section announces.
            assert [8 * len(s) for s in (key, iv, a, c, tag)] == [
                p[n] for n in ("Keylen", "IVlen", "AADlen", "PTlen", "Taglen")]
            assert len(key) * 8 == bits
            pairs_in_files.add((len(a), len(c)))

            # Full tags only. IVs of 12 bytes only: for others J0 is itself a
            # GHASH, and the expected value must not rest on one of ours.
            if len(tag) != 16 or len(iv) != 12:
                continue
            group = (bits, len(a), len(c))
            if taken[group] == PER_GROUP:
                continue

            h = aes(key, bytes(16))
            s = xor(tag, aes(key, iv + b"\x00\x00\x00\x01"))
            assert s == ghash(h, a, c), f"GHASH differs: key {key.hex()}"

            record = h + s + struct.pack("<HH", len(a), len(c)) + a + c
            if record not in seen:
                seen.add(record)
                out.append(record)
                taken[group] += 1

    # Every pair of lengths is there, with each key size, as often as planned.
    assert taken == {(k, *pair): PER_GROUP for k in KEY_BITS for pair in pairs_in_files}
    data = b"".join(out)
    assert len(out) >= MIN_RECORDS and len(data) < MAX_BYTES
    with open(args.output, "wb") as f:
        f.write(data)

    print(f"records: {len(out)} ({len(pairs_in_files)} pairs of lengths, "
          f"{len(KEY_BITS)} key sizes, {PER_GROUP} of each)")
    print(f"bytes: {len(data)}")
    print("len A:", sorted({a for a, _ in pairs_in_files}))
    print("len C:", sorted({c for _, c in pairs_in_files}))
    print("pairs:", sorted(pairs_in_files))
    print("sha256:", hashlib.sha256(data).hexdigest())


if __name__ == "__main__":
    main()
