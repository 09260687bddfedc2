#!/usr/bin/env python3
"""Prints rows of crates/der_rows: a value in so many SEQUENCEs, each the whole contents of the one before it, read by a reader
nested in as many others.

`openssl asn1parse -genstr` wrote the value. Its height is how many readers reading it nests: none of a primitive value or one
kept as its bytes, one more than what it holds of a list, an explicit tag or a container, the same as what it stands for of an
implicit tag. Where the SEQUENCEs and the height are 256 together, the value is read, and is written as the same bytes again;
where they are 257, it is `TooDeep`.

Run at the root of the repository: python3 scripts/picky_der_depth_table.py
"""
import subprocess
import tempfile


def openssl(genstr):
    with tempfile.NamedTemporaryFile() as out:
        subprocess.run(["openssl", "asn1parse", "-genstr", genstr, "-noout", "-out", out.name], check=True)
        return out.read()


# The type, its value as openssl is asked for it, its height and its name.
VALUES = [
    ("u8", "INTEGER:5", 0, "a number"),
    ("raw", "EXPLICIT:1,SEQWRAP,INTEGER:5", 0, "a value kept as its bytes"),
    ("implicit_0_octets", "IMPLICIT:0,OCTETSTRING:hi", 0, "an implicit tag"),
    ("algorithm", "SEQWRAP,OID:1.3.101.112", 1, "an algorithm identifier"),
    ("sequence_of_u32", "SEQWRAP,INTEGER:5", 1, "a list"),
    ("set_of_boolean", "SETWRAP,BOOL:true", 1, "a set"),
    ("explicit_0_u8", "EXPLICIT:0,INTEGER:5", 1, "an explicit tag"),
    ("bits_of_boolean", "BITWRAP,BOOL:true", 1, "a bit string container"),
    ("bits_of_numbers", "BITWRAP,SEQWRAP,INTEGER:5", 2, "a list in a bit string container"),
    ("octets_of_numbers", "OCTWRAP,SEQWRAP,INTEGER:5", 2, "a list in an octet string container"),
]


def length(n):
    if n < 128:
        return bytes([n])
    octets = n.to_bytes((n.bit_length() + 7) // 8, "big")
    return bytes([128 + len(octets)]) + octets


def in_sequences(value, count):
    for _ in range(count):
        value = b"\x30" + length(len(value)) + value
    return value


def row(kind, value, count, height, name):
    answer = value.hex() if count + height <= 256 else "TooDeep"
    print(f"{name} at {count}: der.nested {kind} {in_sequences(value, count).hex()} {count} => {answer}")


print("# Depth and height are 256 together, and 257: scripts/picky_der_depth_table.py.")
for kind, genstr, height, name in VALUES:
    value = openssl(genstr)
    row(kind, value, 256 - height, height, name)
    if height > 0:
        row(kind, value, 257 - height, height, name)
