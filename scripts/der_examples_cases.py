#!/usr/bin/env python3
"""Prints rows of crates/der_rows on the records of crates/der_examples, with what python's `cryptography` (its module
`hazmat.asn1`, over the Rust crate `asn1`) makes of the same bytes: encodings that it wrote, and these cut, damaged and
with a field left out or exchanged.

The answer of a row is `true` where the other reader reads the bytes, and writes the same bytes again, else `false`. An
explicit default is read here alone; it is written without it, so that it doesn't come back either.

Bags in bags are encodings by python's `pyasn1`, cut and damaged: which levels a bag has is how it was made.

Run at the root of the repository: python3 scripts/der_examples_cases.py
"""
import typing
from typing import Annotated

from cryptography import x509
from cryptography.hazmat import asn1
from pyasn1.codec.der.encoder import encode
from pyasn1.type import tag, univ


@asn1.sequence
class Batch:
    name: str
    size: Annotated[int, asn1.Default(1)]
    owner: typing.Union[x509.ObjectIdentifier, None]
    mark: Annotated[typing.Union[bytes, None], asn1.Explicit(0)]


@asn1.sequence
class Name:
    kind: x509.ObjectIdentifier
    value: Annotated[str, asn1.Explicit(0)]


@asn1.sequence
class Count:
    kind: x509.ObjectIdentifier
    value: Annotated[int, asn1.Explicit(0)]


@asn1.sequence
class Unknown:
    kind: x509.ObjectIdentifier
    value: Annotated[asn1.TLV, asn1.Explicit(0)]


def owner(text):
    return text and x509.ObjectIdentifier(text)


BATCHES = [
    Batch(name=name, size=size, owner=owner(text), mark=mark)
    for name, size, text, mark in (
        ("a", 1, None, None),
        ("", 0, None, b""),
        ("Büro", 300, "2.5.4.3", b"xy"),
        ("b", 4294967295, None, b"\x00\xff"),
        ("c", 1, "1.2.840.113549.1.1.1", None),
    )
]
NAME, COUNT, OTHER = "2.5.4.3", "1.2.840.113549.1.9.2", "2.5.4.4"
ENTRIES = [
    (NAME, Name(kind=owner(NAME), value="Test")),
    (COUNT, Count(kind=owner(COUNT), value=70000)),
    (OTHER, Count(kind=owner(OTHER), value=-1)),
    (OTHER, Name(kind=owner(OTHER), value="x")),
]
KINDS = {NAME: Name, COUNT: Count}


def read_batch(data):
    value = asn1.decode_der(Batch, data)
    if not 0 <= value.size < 2**32:
        raise ValueError("the size is no u32")
    return value


def read_entry(data):
    """An entry by its identifier: any value where it is neither of the two."""
    value = asn1.decode_der(Unknown, data)
    cls = KINDS.get(value.kind.dotted_string)
    if cls:
        value = asn1.decode_der(cls, data)
        if cls is Count and not 0 <= value.value < 2**32:
            raise ValueError("the count is no u32")
    return value


def verdict(read, data):
    try:
        value = read(data)
    except ValueError:
        return "false"
    if not isinstance(value, Unknown):  # any value has no writer there
        assert asn1.encode_der(value) == data, data.hex()
    return "true"


def damaged(data):
    yield "as written", data
    for i in range(len(data)):
        yield f"cut to {i} bytes", data[:i]
        changed = bytearray(data)
        changed[i] ^= 1
        yield f"with bit 0 of byte {i} changed", bytes(changed)
    yield "and a byte behind it", data + b"\x00"
    yield "and a NULL behind the last field", bytes([0x30, data[1] + 2]) + data[2:] + b"\x05\x00"


def fields(data):
    """The encodings of the fields of a short SEQUENCE."""
    at, found = 2, []
    while at < len(data):
        found.append(data[at : at + 2 + data[at + 1]])
        at += len(found[-1])
    return found


def sequence(parts):
    body = b"".join(parts)
    return bytes([0x30, len(body)]) + body


def reshaped(data):
    parts = fields(data)
    for i in range(len(parts)):
        yield f"without field {i}", sequence(parts[:i] + parts[i + 1 :])
        yield f"with field {i} twice", sequence(parts[: i + 1] + parts[i:])
        if i:
            yield f"with fields {i - 1} and {i} exchanged", sequence(parts[: i - 1] + [parts[i], parts[i - 1]] + parts[i + 1 :])


def rows(kind, read, values):
    seen = set()
    for number, value in enumerate(values, 1):
        data = asn1.encode_der(value)
        for name, changed in list(damaged(data)) + list(reshaped(data)):
            if changed and changed not in seen:
                seen.add(changed)
                print(f"{kind} {number} {name}: der_record.comes_back {kind} {changed.hex()} => {verdict(read, changed)}")


def wrapped(kind, value):
    """A bag of this identifier, with a value in the explicit tag 0."""
    bag = univ.Sequence()
    bag.setComponentByPosition(0, univ.ObjectIdentifier(kind))
    bag.setComponentByPosition(1, value.subtype(explicitTag=tag.Tag(tag.tagClassContext, tag.tagFormatConstructed, 0)))
    return encode(bag)


BAGS = "1.2.840.113549.1.12.10.1.6"


def listed(bags):
    return wrapped(BAGS, univ.Any(encode(univ.SequenceOf())[:1] + length(b"".join(bags)) + b"".join(bags)))


def length(contents):
    """The length octets of contents, as pyasn1 writes those of an OCTET STRING."""
    octets = encode(univ.OctetString(contents))
    return octets[1 : len(octets) - len(contents)]


def level_rows():
    leaf = wrapped("2.5.4.4", univ.Integer(7))
    bags = {"one bag": (leaf, 1), "no bag in a bag": (listed([]), 1), "two bags in a bag": (listed([leaf, leaf]), 2), "bags at three levels": (listed([leaf, listed([leaf]), leaf]), 3)}
    deep = leaf
    for _ in range(31):
        deep = listed([deep])
    bags["bags at 32 levels"] = (deep, 32)
    for name, (data, levels) in bags.items():
        for allowed in (0, levels - 1, levels, levels + 1):
            answer = "read" if levels <= allowed else "none"
            yield f"{name}, {allowed} levels: der_record.levels {data.hex()} {allowed} => {answer}"
    two = listed([b"\x02", leaf])
    yield f"a byte stands where no bag may, 1 level: der_record.levels {two.hex()} 1 => none"
    yield f"a bad bag at an allowed level: der_record.levels {two.hex()} 2 => WrongTag"
    first = listed([b"\x02\x01\x00", listed([leaf])])
    yield f"a bad bag before one that is too deep: der_record.levels {first.hex()} 2 => WrongTag"
    later = listed([listed([leaf]), b"\x02\x01\x00"])
    yield f"a bad bag behind one that is too deep: der_record.levels {later.hex()} 2 => none"
    yield f"no byte: der_record.levels - 0 => Truncated"


def main():
    print("# Records, with what python's `cryptography` makes of them (scripts/der_examples_cases.py).")
    rows("batch", read_batch, BATCHES)
    rows("entry", read_entry, [value for _, value in ENTRIES])
    for number, (kind, value) in enumerate(ENTRIES, 1):
        told = {NAME: "name", COUNT: "count"}.get(kind, "unknown")
        print(f"entry {number} is told: der_record.told {asn1.encode_der(value).hex()} => {told}")
    print("\n# Bags in bags, which python's `pyasn1` wrote (scripts/der_examples_cases.py).")
    seen = set()
    for row in level_rows():
        if row not in seen:
            seen.add(row)
            print(row)


main()
