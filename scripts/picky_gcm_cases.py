#!/usr/bin/env python3
"""Prints rows of GCM: keys, nonces, additional data, texts and what they are sealed to, as python's cryptography gives it.

The first two cases of each key size are the key of zeros with a nonce of zeros, with no text and with one block of zeros.
The others are drawn from a generator with a fixed seed. Each is sealed, opened, and refused with the last bit of its tag
changed, which leaves the ciphertext in the buffer.

Then come the entries of the table under the hash key of 16 zeros, as products by long multiplication and division of
polynomials, and texts of 0 to 1,048,576 bytes, byte j being j % 251, with 0, 1 and 16 bytes of additional data: their hash,
from the tag of what they are the ciphertext of, and their tag.

scripts/cipher-rows calls it.
"""
import random

from cryptography.hazmat.primitives.ciphers import Cipher, algorithms, modes
from cryptography.hazmat.primitives.ciphers.aead import AESGCM

from printed_rows import remark, row


def sealed_rows(name, key, nonce, aad, text, place=15, bit=1):
    """Rows of one case; in the refused ones that bit of that byte of the tag is changed. Gives ciphertext and tag."""
    both = AESGCM(key).encrypt(nonce, text, aad)
    body, tag = both[:-16], both[-16:]
    wrong = tag[:place] + bytes([tag[place] ^ bit]) + tag[place + 1:]
    row(f"{name} is sealed", "gcm.seal", key, nonce, aad, text, gives=both)
    row(f"{name} is opened", "gcm.open", key, nonce, aad, body, tag, gives=text)
    row(f"{name} is refused under a changed tag", "gcm.open", key, nonce, aad, body, wrong, gives="refused")
    row(f"{name} is left sealed under a changed tag", "gcm.left", key, nonce, aad, body, wrong, gives=body)
    return body, tag


def encrypted(key, block):
    encryptor = Cipher(algorithms.AES(key), modes.ECB()).encryptor()
    return encryptor.update(block) + encryptor.finalize()


def hash_row(name, key, nonce, aad, body, tag):
    """GHASH of a case, from its tag: that is the hash and the cipher of J0 added."""
    mask = encrypted(key, nonce + b"\0\0\0\1")
    hashed = bytes(a ^ b for a, b in zip(tag, mask))
    row(f"{name} is hashed", "gcm.hash", encrypted(key, bytes(16)), aad, body, gives=hashed)
    return hashed


def polynomial(block):
    """A block as a polynomial, bit i of the number being the coefficient of x^i."""
    return int(f"{int.from_bytes(block, 'big'):0128b}"[::-1], 2)


def block_of(polynomial):
    return int(f"{polynomial:0128b}"[::-1], 2).to_bytes(16, "big")


def multiplied(a, b):
    """The product of two polynomials modulo x^128 + x^7 + x^2 + x + 1."""
    product = 0
    for i in range(a.bit_length()):
        product ^= (b << i) * (a >> i & 1)
    while product.bit_length() > 128:
        product ^= (1 << 128 | 0x87) << product.bit_length() - 129
    return product


def table_rows(h):
    remark("The table under the hash key of 16 zeros: entry i is that key times the polynomial whose coefficients of x^0 to x^3 are the bits",
           "of i, the highest first, by long multiplication and division (scripts/picky_gcm_cases.py).")
    for i in range(16):
        entry = block_of(multiplied(int(f"{i:04b}"[::-1], 2), polynomial(h)))
        known = {0: "00" * 16, 8: "66e94bd4ef8a2c3b884cfa59ca342b2e", 4: "3374a5ea77c5161dc4267d2ce51a1597"}
        assert known.get(i, entry.hex()) == entry.hex()
        row(f"entry {i} under the hash key of 16 zeros", "gcm.entry", h, i, gives=entry)


def counted_rows(h):
    remark("Texts that are counted out, byte j being j % 251, by python's cryptography: each is hashed as the ciphertext of that text of which it is",
           "one under the key of 16 zeros, and sealed and opened under that key (scripts/picky_gcm_cases.py).")
    key, nonce = bytes(16), bytes(12)
    mask = encrypted(key, nonce + b"\0\0\0\1")
    for size in (0, 1, 15, 16, 17, 63, 64, 65, 1048576):
        counted = bytes(j % 251 for j in range(size))
        text = AESGCM(key).encrypt(nonce, counted, b"")[:-16]
        for aad in (b"", b"\1", b"\1" * 16):
            name = f"{size:,} bytes counted out beside {len(aad)}"
            sealed = AESGCM(key).encrypt(nonce, text, aad)
            assert sealed[:-16] == counted
            row(f"{name} are hashed alike by the table and bit by bit", "gcm.hash_of_counted", h, aad, size,
                gives=bytes(a ^ b for a, b in zip(sealed[-16:], mask)))
            row(f"{name} are sealed and opened", "gcm.tag_of_opened", key, nonce, aad, size,
                gives=AESGCM(key).encrypt(nonce, counted, aad)[-16:])


def main():
    draw = random.Random(38)
    remark("GCM: keys of zeros and drawn cases by python's cryptography (scripts/picky_gcm_cases.py).")
    for size in (16, 24, 32):
        sealed_rows(f"no text under {size} zeros", bytes(size), bytes(12), b"", b"")
        sealed_rows(f"a block of zeros under {size} zeros", bytes(size), bytes(12), b"", bytes(16))
        for aad, text in ((0, 17), (13, 16), (16, 31), (33, 40)):
            name = f"a drawn text of {text} bytes beside {aad} under {size} bytes"
            sealed_rows(name, draw.randbytes(size), draw.randbytes(12), draw.randbytes(aad), draw.randbytes(text))
    remark("GHASH: of the ciphertext of a block of zeros under the key of 16 zeros, and under a hash key of zeros, which gives zeros.")
    body = AESGCM(bytes(16)).encrypt(bytes(12), bytes(16), b"")
    row("the hash key of 16 zeros is their cipher of the zero block", "aes.encrypt", bytes(16), bytes(16), gives=encrypted(bytes(16), bytes(16)))
    hashed = hash_row("one block under the hash key of 16 zeros", bytes(16), bytes(12), b"", body[:-16], body[-16:])
    assert hashed.hex() == "f38cbb1ad69223dcc3457ae5b6b0f885"
    row("all is hashed to zeros under a hash key of zeros", "gcm.hash", bytes(16), body[:-16], body[:-16], gives=bytes(16))
    table_rows(encrypted(bytes(16), bytes(16)))
    counted_rows(encrypted(bytes(16), bytes(16)))


if __name__ == "__main__":
    main()
