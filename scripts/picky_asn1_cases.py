#!/usr/bin/env python3
"""Prints rows of integers and of object identifiers of crates/asn1_rows/stdout.

The contents octets are those of `openssl asn1parse -genstr` (OpenSSL 3); the plain big-endian and padded
two's complement bytes of a number are Python's `int.to_bytes`.

    python3 scripts/picky_asn1_cases.py integers
    python3 scripts/picky_asn1_cases.py identifiers
"""
import subprocess
import sys
import tempfile

INTEGERS = [
    0, 1, -1, 127, 128, -128, -129, 255, 256, -255, -256, -257, 32767, 32768, -32768, -32769, 65535,
    65537, 8388607, 8388608, -8388608, -8388609, 2**31 - 1, 2**31, -(2**31), 2**63 - 1, 2**63,
    -(2**63), -(2**63) - 1, 2**64, 2**127, -(2**127), 2**128 - 1, 2**255 - 19, -(2**255) + 19,
]

IDENTIFIERS = [
    "0.0", "0.39", "1.0", "1.39", "2.0", "2.39", "2.40", "2.47", "2.48", "2.100.3", "2.999", "2.999.3",
    "1.3.6.1", "1.3.6.1.4.1.311", "1.3.14.3.2.26", "1.2.840.113549.1.1.1", "1.2.840.113549.1.1.11",
    "1.2.840.113549.1.7.1", "1.2.840.113549.1.9.20", "1.2.840.113549.1.12.10.1.2", "1.2.840.10045.2.1",
    "1.2.840.10045.3.1.7", "1.3.132.0.34", "1.3.101.110", "1.3.101.112", "2.5.4.3", "2.5.29.19",
    "2.16.840.1.101.3.4.2.1", "2.16.840.1.101.3.4.1.42", "0.9.2342.19200300.100.1.25", "1.0.0.127.128",
    "1.2.16383.16384", "2.5.0.0.0", "2.25.329800735698586629295641978511506172918",
    "2.5.340282366920938463463374607431768211455", "2.340282366920938463463374607431768211375",
]


def contents(genstr):
    with tempfile.NamedTemporaryFile() as out:
        subprocess.run(["openssl", "asn1parse", "-genstr", genstr, "-noout", "-out", out.name], check=True)
        der = out.read()
    assert der[1] == len(der) - 2 < 128
    return der[2:].hex()


def truth(holds):
    return "true" if holds else "false"


def integers():
    print("# By openssl asn1parse: contents of numbers, which shorten the two's complement bytes.")
    for n in INTEGERS:
        padded = n.to_bytes(n.bit_length() // 8 + 3, "big", signed=True).hex()
        octets = contents("INTEGER:%d" % n)
        print("%d in too many bytes is shortened: integer.from_bytes_be_signed %s => %s" % (n, padded, octets))
        print("the contents of %d are its signed bytes: integer.as_signed_bytes_be %s => %s" % (n, octets, octets))
        print("whether %d is negative: integer.is_negative %s => %s" % (n, octets, truth(n < 0)))
        print("whether %d is at least zero: integer.is_positive %s => %s" % (n, octets, truth(n >= 0)))
    print("# By openssl asn1parse: contents of numbers that are given by their big-endian bytes.")
    for n in INTEGERS:
        if n >= 0:
            plain = n.to_bytes(max(1, (n.bit_length() + 7) // 8), "big").hex()
            octets = contents("INTEGER:%d" % n)
            print("%d of its big-endian bytes: integer.from_bytes_be_unsigned %s => %s" % (n, plain, octets))
            print("the big-endian bytes of %d: integer.as_unsigned_bytes_be %s => %s" % (n, octets, plain))


def identifiers():
    print("# By openssl asn1parse: contents of identifiers.")
    for text in IDENTIFIERS:
        octets = contents("OID:" + text)
        print("the contents of %s: oid.from_text %s => %s" % (text, text, octets))
        print("%s is read from its contents: oid.from_contents %s => %s" % (text, octets, text))
        print("%s has a copy: oid.copy %s => %s" % (text, octets, octets))
        print("%s is the same by text and by contents: oid.is_that_of %s %s => true" % (text, octets, text))


if __name__ == "__main__":
    {"integers": integers, "identifiers": identifiers}[sys.argv[1]]()
