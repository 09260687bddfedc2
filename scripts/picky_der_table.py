#!/usr/bin/env python3
"""Prints rows of crates/der_rows: SEQUENCEs of two INTEGERs, good and damaged, with what python's `cryptography` makes of
them.

`decode_dss_signature` reads a DER SEQUENCE of two INTEGERs that are at least zero; it is an independent strict reader
(the Rust crate `asn1`). The answer of each row is what that reader says: the two numbers in decimal with a blank between
them, or `refused`, also where a number isn't below 2^64.

Run at the root of the repository: python3 scripts/picky_der_table.py
"""
from cryptography.hazmat.primitives.asymmetric.utils import decode_dss_signature, encode_dss_signature

LIMIT = 2**64
SEEDS = [(0, 0), (1, 127), (128, 255), (256, 32767), (32768, 65535), (2**31, 2**32 - 1), (2**63, 2**64 - 1)]


def verdict(data):
    try:
        r, s = decode_dss_signature(bytes(data))
    except ValueError:
        return "refused"
    return f"{r} {s}" if r < LIMIT and s < LIMIT else "refused"


def cases():
    """A name and bytes."""
    for r, s in SEEDS:
        good = encode_dss_signature(r, s)
        pair = f"{r} and {s}"
        yield pair, good
        for i in range(len(good)):
            yield f"{pair} cut to {i} bytes", good[:i]
            for bit in (0, 7):
                damaged = bytearray(good)
                damaged[i] ^= 1 << bit
                yield f"{pair} with bit {bit} of byte {i} changed", bytes(damaged)
        yield f"{pair} and a byte behind them", good + b"\x00"
        yield f"{pair} with a length in the long form of one byte", b"\x30\x81" + good[1:]
        yield f"{pair} with a length in the long form of two bytes", b"\x30\x82\x00" + good[1:]
        yield f"{pair} with an indefinite length", b"\x30\x80" + good[2:] + b"\x00\x00"
        yield f"{pair} with a zero too many", bytes([0x30, good[1] + 1, 0x02, good[3] + 1, 0x00]) + good[4:]


def main():
    print("# SEQUENCEs of two numbers, with what python's `cryptography` reads (scripts/picky_der_table.py).")
    seen = []
    for name, data in cases():
        if data and data not in seen:
            seen.append(data)
            print(f"{name}: der_number.pair {data.hex()} => {verdict(data)}")


main()
