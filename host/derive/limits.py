#!/usr/bin/env python3
"""Derive the hashes of messages at the limit of 1,048,576 bytes, by an outside library.

A and C are patterns that the program makes again: byte i of A is (7 i + 3) mod 251, byte i of C is (11 i + 5) mod 253.
AES-GCM of the `cryptography` package gives Tag = GHASH_H(A, C) xor AES_K(J0); so GHASH is the tag xor AES_K(J0). To have
the pattern as the ciphertext, what is encrypted is the pattern xored with the key stream.

Usage: limits.py [-o OUTPUT]
OUTPUT is by default the file that the program known_hashes reads; SHA256SUMS has its checksum. It has three records of H (16 bytes) and GHASH (16 bytes): A alone, C alone, A and C, each of 1,048,576 bytes.
"""

import argparse
import hashlib
import os

from cryptography.hazmat.primitives.ciphers import Cipher, algorithms, modes
from cryptography.hazmat.primitives.ciphers.aead import AESGCM

OUTPUT = os.path.join(os.path.dirname(os.path.abspath(__file__)), "../../crates/known_hashes/data/limits.bin")
LIMIT = 1_048_576


def xor(a, b):
    return (int.from_bytes(a, "big") ^ int.from_bytes(b, "big")).to_bytes(len(a), "big")


def aes(key, block):
    enc = Cipher(algorithms.AES(key), modes.ECB()).encryptor()
    return enc.update(block) + enc.finalize()


def record(key, nonce, a, c):
    gcm = AESGCM(key)
    stream = gcm.encrypt(nonce, bytes(len(c)), b"")[: len(c)]
    sealed = gcm.encrypt(nonce, xor(c, stream) if c else b"", a)
    assert sealed[: len(c)] == c
    tag = sealed[len(c):]
    return aes(key, bytes(16)) + xor(tag, aes(key, nonce + b"\x00\x00\x00\x01"))


def main():
    parser = argparse.ArgumentParser(description="Derive hashes at the limit.")
    parser.add_argument("-o", "--output", default=OUTPUT)
    output = parser.parse_args().output
    a = bytes((7 * i + 3) % 251 for i in range(LIMIT))
    c = bytes((11 * i + 5) % 253 for i in range(LIMIT))
    data = b""
    for n, (x, y) in enumerate([(a, b""), (b"", c), (a, c)]):
        key = hashlib.sha256(b"limit %d" % n).digest()
        data += record(key, bytes(12), x, y)
    with open(output, "wb") as f:
        f.write(data)
    print(f"records: 3, bytes: {len(data)}, sha256: {hashlib.sha256(data).hexdigest()}")


if __name__ == "__main__":
    main()
