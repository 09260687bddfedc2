#!/usr/bin/env python3
"""Prints rows of key wrap and CBC, by other programs than this project.

Key wrap and CBC under AES by Python's cryptography (OpenSSL); CBC over the cipher that adds its key to a block by the loop
below, since no library has that cipher. What the library gives is compared with the example of RFC 3394, 4.1.

scripts/cipher-rows calls it.
"""
from cryptography.hazmat.primitives import padding
from cryptography.hazmat.primitives.ciphers import Cipher, algorithms, modes
from cryptography.hazmat.primitives.keywrap import aes_key_wrap

from printed_rows import remark, row

KEY = bytes(range(32))
PLAIN = bytes(0x11 * i for i in range(16)) + bytes(range(16))
IV = bytes(range(0xF0, 0x100))
TEXT = bytes((3 + 7 * i) % 256 for i in range(70))
SIZES = (16, 24, 32)


def cbc(key, blocks):
    encryptor = Cipher(algorithms.AES(key), modes.CBC(IV)).encryptor()
    return encryptor.update(blocks) + encryptor.finalize()


def padded(text, size):
    padder = padding.PKCS7(8 * size).padder()
    return padder.update(text) + padder.finalize()


def wrong_paddings():
    """Texts of whole blocks whose end is no padding."""
    head = TEXT[:16]
    return [
        ("a last byte of 0", head + TEXT[:15] + b"\x00"),
        ("a last byte of 17", head + TEXT[:15] + b"\x11"),
        ("17 bytes of 17", head[:15] + b"\x11" * 17),
        ("a last byte of 255", head + TEXT[:15] + b"\xff"),
        ("a last byte of 2 alone", head + TEXT[:15] + b"\x02"),
        ("a padding of 4 whose first byte is 5", head + TEXT[:12] + b"\x05\x04\x04\x04"),
        ("a padding of 16 whose first byte is 15", head + b"\x0f" + b"\x10" * 15),
    ]


def added(key, block):
    return bytes(b ^ key[i % len(key)] for i, b in enumerate(block))


def cbc_by_adding(key, text):
    """CBC over blocks of eight bytes, to which the key is added over and over."""
    sealed, before = b"", IV[:8]
    blocks = padded(text, 8)
    for i in range(0, len(blocks), 8):
        before = added(key, bytes(p ^ c for p, c in zip(blocks[i:i + 8], before)))
        sealed += before
    return sealed


def wraps():
    assert aes_key_wrap(KEY[:16], PLAIN[:16]).hex() == "1fa68b0a8112b447aef34bd8fb5a7b829d3e862371d2cfe5"
    remark("Key wrap by python's cryptography, the first pair being the example of RFC 3394, 4.1 (scripts/picky_modes_cases.py).")
    for key in SIZES:
        for size in (size for size in SIZES if size <= key):
            name = f"a key of {size} bytes under {key}"
            wrapped = aes_key_wrap(KEY[:key], PLAIN[:size])
            changed = wrapped[:size] + bytes([wrapped[size] ^ 1]) + wrapped[size + 1:]
            row(f"{name} is wrapped", "wrap.wrap", KEY[:key], PLAIN[:size], gives=wrapped)
            row(f"{name} is unwrapped", "wrap.unwrap", KEY[:key], wrapped, gives=PLAIN[:size])
            row(f"{name} is refused with one bit changed", "wrap.unwrap", KEY[:key], changed, gives="refused")


def texts():
    remark("CBC by python's cryptography: texts of 0 to 70 bytes under each key size, and wrong paddings (scripts/picky_modes_cases.py).")
    for size in SIZES:
        for n in range(len(TEXT) + 1):
            sealed = cbc(KEY[:size], padded(TEXT[:n], 16))
            row(f"a text of {n} bytes is encrypted under {size}", "cbc.encrypt", KEY[:size], IV, TEXT[:n], gives=sealed)
            row(f"a text of {n} bytes is decrypted under {size}", "cbc.decrypt", KEY[:size], IV, sealed, gives=TEXT[:n])
    for what, blocks in wrong_paddings():
        sealed = cbc(KEY[:16], blocks)
        row(f"{what} is no padding", "cbc.decrypt", KEY[:16], IV, sealed, gives="refused")
        row(f"{what} is decrypted none the less", "cbc.left", KEY[:16], IV, sealed, gives=blocks)
    part = b"\x07" * 15
    row("fifteen bytes are no whole block", "cbc.decrypt", KEY[:16], IV, part, gives="refused")
    row("fifteen bytes are left as they were", "cbc.left", KEY[:16], IV, part, gives=part)
    row("no bytes are no block", "cbc.decrypt", KEY[:16], IV, b"", gives="refused")


def handed_in():
    remark("CBC over a block cipher that is handed in and adds its key to a block, by a loop of the script's own (scripts/picky_modes_cases.py).")
    for name, size in (("rc2", 5), ("tdes", 24)):
        key, iv = KEY[:size], IV[:8]
        for n in (0, 1, 7, 8, 9, 16, 23, 64):
            sealed = cbc_by_adding(key, TEXT[:n])
            row(f"a text of {n} bytes is encrypted by what stands for {name}", "pbes1.encrypt", name, key, iv, TEXT[:n], gives=sealed)
            row(f"a text of {n} bytes is decrypted by what stands for {name}", "pbes1.decrypt", name, key, iv, sealed, gives=TEXT[:n])
        part = b"\x07" * 15
        row(f"fifteen bytes are no whole blocks of {name}", "pbes1.decrypt", name, key, iv, part, gives="refused")
        row(f"fifteen bytes are left by {name} as they were", "pbes1.left", name, key, iv, part, gives=part)
        row(f"nothing serves {name} where no cipher is handed in", "pbes1.none_serves", name, gives="false")


if __name__ == "__main__":
    wraps()
    texts()
    handed_in()
