#!/usr/bin/env python3
"""Prints rows of long runs and of drawn cases of AES and GCM, and of keys that are derived and handed to AES, as python's
cryptography and hashlib give them.

The 60 drawn cases have keys of 16, 24 and 32 bytes in turn, and texts and additional data of 0 to 70 bytes; each is sealed,
opened, refused with the first bit of its tag changed, and hashed.

scripts/cipher-rows calls it.
"""
import hashlib
import random

from cryptography.hazmat.primitives import hashes
from cryptography.hazmat.primitives.ciphers import Cipher, algorithms, modes
from cryptography.hazmat.primitives.ciphers.aead import AESGCM
from cryptography.hazmat.primitives.kdf.concatkdf import ConcatKDFHash
from cryptography.hazmat.primitives.keywrap import aes_key_wrap

from picky_aes_cases import both_ways, encrypted
from picky_gcm_cases import hash_row, sealed_rows
from printed_rows import remark, row


def chained(key, times):
    block = bytes(16)
    encryptor = Cipher(algorithms.AES(key), modes.ECB()).encryptor()
    for _ in range(times):
        block = encryptor.update(block)
    return block


def counted(size):
    return bytes(j % 251 for j in range(size))


def long_runs():
    remark("Long runs by python's cryptography: the zero block encrypted again and again, and tags of bytes that are counted out, byte j",
           "being j % 251 (scripts/cipher_rows_drawn.py).")
    for size in (16, 24, 32):
        row(f"the zero block 10,000 times under {size} bytes", "aes.encrypt_times", counted(size), bytes(16), 10000,
            gives=chained(counted(size), 10000))
    for size in (16, 1024, 1048576):
        tag = AESGCM(counted(16)).encrypt(bytes(12), counted(size), b"\1" * 16)[-16:]
        row(f"the tag of {size:,} bytes", "gcm.tag_of_counted", counted(16), bytes(12), b"\1" * 16, size, gives=tag)


def drawn_case(name, key, nonce, aad, text):
    hash_row(name, key, nonce, aad, *sealed_rows(name, key, nonce, aad, text, place=0, bit=0x80))


def drawn_cases():
    remark("Drawn cases of AES and GCM by python's cryptography (scripts/cipher_rows_drawn.py).")
    for size in (16, 24, 32):
        drawn_case(f"no text under {size} zeros and a first bit", bytes(size), bytes(12), b"", b"")
        drawn_case(f"a block of zeros under {size} zeros and a first bit", bytes(size), bytes(12), b"", bytes(16))
    draw = random.Random(800)
    for i in range(60):
        key = draw.randbytes((16, 24, 32)[i % 3])
        both_ways(f"drawn key {i}, a block", key, draw.randbytes(16))
        nonce, aad, text = draw.randbytes(12), draw.randbytes(draw.randint(0, 70)), draw.randbytes(draw.randint(0, 70))
        drawn_case(f"drawn key {i}, a text of {len(text)} bytes beside {len(aad)}", key, nonce, aad, text)


def derived_keys():
    remark("Keys by hashlib and python's cryptography, and a block encrypted under each (scripts/cipher_rows_drawn.py).")
    block = bytes(17 * i for i in range(16))
    key = hashlib.pbkdf2_hmac("sha256", b"password", b"salt", 3, 32)
    row("a block under the key of a password", "derived.password", "sha256", b"password", b"salt", 3, block, gives=encrypted(key, block))
    info = b"".join(len(t).to_bytes(4, "big") + t for t in (b"A192GCM", b"Alice", b"Bob")) + (192).to_bytes(4, "big")
    key = ConcatKDFHash(hashes.SHA256(), length=24, otherinfo=info).derive(bytes(range(32)))
    row("a block under an agreed key", "derived.agreed", b"A192GCM", bytes(range(32)), b"Alice", b"Bob", block, gives=encrypted(key, block))
    key = bytes(range(16, 32))
    wrapped = aes_key_wrap(bytes(range(16)), key)
    row("a block under a key that is unwrapped", "derived.wrapped", bytes(range(16)), wrapped, block, gives=encrypted(key, block))
    row("no block under a key that is not unwrapped", "derived.wrapped", bytes(range(16)), bytes(24), block, gives="refused")


if __name__ == "__main__":
    long_runs()
    drawn_cases()
    derived_keys()
