#!/usr/bin/env python3
"""Prints rows of crates/der_rows: encodings of one type each, good, cut and damaged at each byte, with what python's
`cryptography` (its module `hazmat.asn1`, over the Rust crate `asn1`) makes of them; and encodings that
`openssl asn1parse -genstr` wrote, each beside the text that it was given.

The answer of a row of the first kind is `true` where the other reader reads the bytes (and, but for integers, writes the same
bytes again), else `false`. Where the two profiles differ the answer is `true`, and the row's name says why the bytes are read
here alone:

- unused bits of a BIT STRING that aren't 0;
- a day from 29 to 31 that isn't in its month, or the year 0;
- parameters that aren't NULL, the only ones that the other reader was asked for.

Run at the root of the repository: python3 scripts/picky_der_types_table.py
"""
import calendar
import subprocess
import tempfile
import typing
from typing import Annotated

from cryptography import x509
from cryptography.hazmat import asn1


@asn1.sequence
class Algorithm:
    oid: x509.ObjectIdentifier
    parameters: typing.Union[asn1.Null, None]


def openssl(genstr):
    with tempfile.NamedTemporaryFile() as out:
        subprocess.run(["openssl", "asn1parse", "-genstr", genstr, "-noout", "-out", out.name], check=True)
        return out.read()


TYPES = {
    "boolean": (bool, [openssl("BOOL:true"), openssl("BOOL:false")]),
    "integer": (int, [openssl("INTEGER:%d" % n) for n in (0, -1, 128, -32769, 2**64, -(2**127))]),
    "octets": (bytes, [openssl("FORMAT:HEX,OCTETSTRING:%s" % h) for h in ("00", "0102FF")] + [openssl("OCTETSTRING:" + "x" * 130)]),
    "null": (asn1.Null, [openssl("NULL")]),
    "utf8": (str, [openssl("FORMAT:UTF8,UTF8String:%s" % t) for t in ("A", "Büro", "苗字")]),
    "printable": (asn1.PrintableString, [openssl("PRINTABLESTRING:%s" % t) for t in ("Test 1", "a-b/c:d")]),
    "ia5": (asn1.IA5String, [openssl("IA5STRING:%s" % t) for t in ("a@b", "x~y")]),
    "utctime": (asn1.UTCTime, [openssl("UTCTIME:%s" % t) for t in ("500101000000Z", "491231235959Z", "000229120000Z")]),
    "generalizedtime": (asn1.GeneralizedTime, [openssl("GENERALIZEDTIME:%s" % t) for t in ("20501231235959Z", "00010101000000Z", "99991231235959Z")]),
    "bits": (asn1.BitString, [openssl("FORMAT:HEX,BITSTRING:%s" % h) for h in ("80", "FF01")] + [openssl("FORMAT:BITLIST,BITSTRING:%s" % b) for b in ("0", "1,5", "2,9")]),
    "identifier": (x509.ObjectIdentifier, [openssl("OID:%s" % t) for t in ("0.0", "2.999", "1.2.840.113549.1.1.1", "2.25.340282366920938463463374607431768211455")]),
    "algorithm": (Algorithm, [asn1.encode_der(Algorithm(oid=x509.ObjectIdentifier(o), parameters=p)) for o, p in (("1.2.840.113549.1.1.11", asn1.Null()), ("1.3.101.112", None))]),
}

# Further bytes of a type: shapes that damage of one byte doesn't make.
MORE = {
    "boolean": ["010100ff", "0102ffff", "0100"],
    "integer": ["02020001", "0202ff80", "0202ff7f", "02020080", "0200", "02810101"],
    "octets": ["0400", "0481" + "01" + "00", "0480" + "00" + "0000", "2403" + "040100"],
    "null": ["050100", "058100"],
    "utf8": ["0c02c080", "0c03eda080", "0c04f4908080", "0c04f09f9491"],
    "printable": ["1300", "130140", "13012a", "130126"],
    "ia5": ["1600", "160180", "1601ff", "16017f"],
    "utctime": [
        (b"\x17" + bytes([len(t)]) + t).hex()
        for t in (b"990229000000Z", b"990431000000Z", b"990132000000Z", b"991301000000Z", b"990001000000Z", b"990100000000Z",
                  b"990101240000Z", b"990101006000Z", b"990101000060Z", b"9901010000Z", b"990101000000+0000", b"990101000000z",
                  b"9901010000000", b"99 101000000Z", b"000230000000Z")
    ],
    "generalizedtime": [
        (b"\x18" + bytes([len(t)]) + t).hex()
        for t in (b"19990229000000Z", b"20000229000000Z", b"19000229000000Z", b"00000101000000Z", b"20010101240000Z",
                  b"20010101000060Z", b"200101010000Z", b"20010101000000", b"20011301000000Z", b"20010100000000Z",
                  b"20010132000000Z", b"20010101000000+0000")
    ],
    "bits": ["030100", "0300", "030101", "030108", "03020801", "03020780", "03020781", "030207ff", "0303010100"],
    "identifier": ["0600", "06018000", "06022a80", "0603" + "2a8001", "0602" + "8001", "0601" + "7f", "06022aff",
                   "0614" + "2a84" + "80" * 17 + "00", "0615" + "2a81" + "80" * 18 + "00"],
    "algorithm": ["3000", "30020500", "300506032b65700500", "300706032b657005000500", "300706032b6570040100", "300606032b657004",
                  "300706032b6570050100", "300706032b6570300004", "300706032b65703000", "300506032b65701e00"],
}


def held(kind, data):
    """Why the bytes are read here where the other reader refuses them, or None."""
    if len(data) < 2 or data[1] != len(data) - 2 or data[1] > 127:
        return None
    body = data[2:]
    if kind == "bits" and data[0] == 3 and len(body) > 1 and 0 < body[0] < 8 and body[-1] % 2 ** body[0]:
        return "unused bits that aren't 0"
    if kind in ("utctime", "generalizedtime") and data[0] == {"utctime": 0x17, "generalizedtime": 0x18}[kind]:
        size = 13 if kind == "utctime" else 15
        if len(body) == size and body[:-1].isdigit() and body[-1:] == b"Z":
            text = body.decode()
            if kind == "utctime":
                text = ("19" if text[:2] >= "50" else "20") + text
            year, month, day, hour, minute, second = int(text[:4]), *(int(text[i : i + 2]) for i in range(4, 14, 2))
            if 1 <= month <= 12 and 1 <= day <= 31 and hour < 24 and minute < 60 and second < 60:
                if year == 0 or day > calendar.monthrange(max(year, 1), month)[1]:
                    return "a day that isn't in its month, or the year 0"
    if kind == "algorithm" and data[0] == 0x30 and len(body) > 2 and body[0] == 6:
        rest = body[2 + body[1] :]
        try:
            asn1.decode_der(x509.ObjectIdentifier, bytes(body[: 2 + body[1]]))
        except ValueError:
            return None
        if len(rest) > 1 and rest[0] % 32 != 31 and rest[0] != 5 and rest[1] == len(rest) - 2:
            return "parameters that aren't NULL"
    return None


def verdict(kind, cls, data):
    """The answer, and why it isn't the other reader's, or None."""
    try:
        value = asn1.decode_der(cls, data)
    except ValueError:
        why = held(kind, data)
        return ("true" if why else "false"), why
    if kind != "integer":  # the other writer has machine integers alone
        assert asn1.encode_der(value) == data, (kind, data.hex())
    return "true", None


def cases(kind, goods):
    """A name and bytes."""
    for number, good in enumerate(goods, 1):
        value = f"{kind} {number}"
        yield value, good
        for i in range(min(len(good), 24)):
            yield f"{value} cut to {i} bytes", good[:i]
            for bit in (0, 7):
                damaged = bytearray(good)
                damaged[i] ^= 1 << bit
                yield f"{value} with bit {bit} of byte {i} changed", bytes(damaged)
        yield f"{value} and a byte behind it", good + b"\x00"
        yield f"{value} with a length in the long form", good[:1] + b"\x81" + good[1:]
    for number, text in enumerate(MORE[kind], 1):
        yield f"{kind} of another shape, {number}", bytes.fromhex(text)


# Types and texts, whose encodings `openssl` writes: those that the other reader doesn't know, and some that it does.
WRITTEN = [
    ("bmp", "User", "BMPSTRING:User"),
    ("bmp", "苗字", "FORMAT:UTF8,BMPSTRING:苗字"),
    ("general", "plain", "GENERALSTRING:plain"),
    ("numeric", "2983  9283019", "NUMERICSTRING:2983  9283019"),
    ("printable", "Test", "PRINTABLESTRING:Test"),
    ("ia5", "a@b", "IA5STRING:a@b"),
    ("utf8", "苗字", "FORMAT:UTF8,UTF8String:苗字"),
]
IDENTIFIER = "1.2.840.113549.1.12.10.1.2"
UTC = ("500101000000Z", "1950 1 1 0 0 0")
GENERALIZED = ("20501231235959Z", "2050 12 31 23 59 59")


def written():
    """Rows of values that are written as `openssl` writes them, and of texts that are read of its bytes."""
    for kind, text, genstr in WRITTEN:
        data = openssl(genstr).hex()
        yield f"{kind} {text!r} is written: der_string.of {kind} {text} => {data}"
        yield f"{kind} {text!r} is read: der_string.text {kind} {data} => {text}"
    data = openssl("OID:" + IDENTIFIER).hex()
    yield f"an identifier is written: der_oid.of {IDENTIFIER} => {data}"
    yield f"an identifier is read: der_oid.text {data} => {IDENTIFIER}"
    text, numbers = UTC
    data = openssl("UTCTIME:" + text).hex()
    yield f"a UTCTime is written: der_time.utc {numbers} => {data}"
    yield f"a UTCTime is read: der_time.date {data} => {numbers}"
    text, numbers = GENERALIZED
    data = openssl("GENERALIZEDTIME:" + text).hex()
    yield f"a GeneralizedTime is written: der_time.generalized {numbers} => {data}"
    yield f"a GeneralizedTime is read: der.comes_back generalizedtime {data} => true"


def main():
    print("# Encodings of one type each, with what python's `cryptography` makes of them (scripts/picky_der_types_table.py).")
    seen = set()
    for kind, (cls, goods) in TYPES.items():
        for name, data in cases(kind, goods):
            if data and (kind, data) not in seen:
                seen.add((kind, data))
                answer, why = verdict(kind, cls, data)
                name += f", read here alone for {why}" if why else ""
                print(f"{name}: der.comes_back {kind} {data.hex()} => {answer}")
    print("\n# Values that `openssl asn1parse -genstr` wrote (scripts/picky_der_types_table.py).")
    for row in written():
        print(row)


main()
