#!/usr/bin/env python3
"""Prints rows of AES: keys, blocks and what they encrypt to, as python's cryptography gives it, both ways.

The first case of each size is the standard's own example (FIPS 197, appendix C: the key 00 01 02 .., the block
00 11 22 .. ff), whose answer is compared with the standard's. The others are drawn from a generator with a fixed seed.

scripts/cipher-rows calls it.
"""
import random

from cryptography.hazmat.primitives.ciphers import Cipher, algorithms, modes

from printed_rows import remark, row

PUBLISHED = {
    16: "69c4e0d86a7b0430d8cdb78070b4c55a",
    24: "dda97ca4864cdfe06eaf70a0ec0d7191",
    32: "8ea2b7ca516745bfeafc49904b496089",
}


def encrypted(key, block):
    encryptor = Cipher(algorithms.AES(key), modes.ECB()).encryptor()
    return encryptor.update(block) + encryptor.finalize()


def both_ways(name, key, block):
    answer = encrypted(key, block)
    row(f"{name} is encrypted", "aes.encrypt", key, block, gives=answer)
    row(f"{name} is decrypted", "aes.decrypt", key, answer, gives=block)
    return answer


def main():
    draw = random.Random(197)
    remark("AES: the examples of FIPS 197, appendix C, and drawn cases by python's cryptography (scripts/picky_aes_cases.py).")
    for size in (16, 24, 32):
        answer = both_ways(f"the standard's block under {size} bytes", bytes(range(size)), bytes(17 * i for i in range(16)))
        assert answer.hex() == PUBLISHED[size]
        for count in range(1, 6):
            both_ways(f"drawn block {count} under {size} bytes", draw.randbytes(size), draw.randbytes(16))
    remark("AES by words and AES byte by byte agree on blocks and on each one back, under drawn keys (scripts/picky_aes_cases.py).")
    for size in (16, 24, 32):
        for count in range(1, 6):
            row(f"300 blocks after drawn block {count} under {size} bytes", "aes.agrees", draw.randbytes(size), draw.randbytes(16), 300, gives="true")


if __name__ == "__main__":
    main()
