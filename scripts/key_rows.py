#!/usr/bin/env python3
"""Prints rows of crates/key_rows over public keys, private keys and ECDSA signatures: keys that `openssl` makes for this run and throws
away, test keys that protect nothing, with what `openssl` and python's `cryptography` say of them.

- `public_key.read`: the parts of the key, by `cryptography`; where it doesn't know the curve, the point by `openssl`.
- `public_key.again`: the bytes that `openssl` wrote.
- `public_key.point`: the same, of the coordinates that `cryptography` gives.
- `private_key.read`: the public part that stands in the bytes, by `openssl pkey -pubout` and `cryptography`.
- `private_key.again`: the bytes that `openssl` wrote.
- `ecdsa.of`: signatures that `openssl` made, and both numbers by `cryptography`; `ecdsa.fixed` is the way back.
- broken keys, made by hand from a good one: the answer is the rule that the row's name says.
- damaged keys (scripts/key_damage.py): each byte of the first 64 changed.

Run at the root of the repository: python3 scripts/key_rows.py
"""
import subprocess
import tempfile

from cryptography.hazmat.primitives.asymmetric import ec, ed25519, rsa, utils, x25519
from cryptography.hazmat.primitives.serialization import Encoding, PublicFormat, load_der_public_key

import key_damage
from key_damage import CURVES, header, unsigned


def openssl(*words, given=b""):
    return subprocess.run(["openssl", *words], input=given, check=True, stdout=subprocess.PIPE, stderr=subprocess.DEVNULL).stdout


def made(*words):
    return openssl("pkcs8", "-topk8", "-nocrypt", "-outform", "DER", given=openssl("genpkey", *words))


def public_of(private):
    return openssl("pkey", "-inform", "DER", "-pubout", "-outform", "DER", given=private)


def compressed_of(private):
    return openssl("ec", "-inform", "DER", "-pubout", "-conv_form", "compressed", "-outform", "DER", given=private)


def parts_of(spki, form=PublicFormat.UncompressedPoint):
    key = load_der_public_key(spki)
    if isinstance(key, rsa.RSAPublicKey):
        numbers = key.public_numbers()
        return "RSA %s %s" % (unsigned(numbers.n), unsigned(numbers.e))
    if isinstance(key, ec.EllipticCurvePublicKey):
        return "%s %s" % (CURVES[key.curve.name], key.public_bytes(Encoding.X962, form).hex())
    name = {ed25519.Ed25519PublicKey: "Ed25519", x25519.X25519PublicKey: "X25519"}
    word = next(w for t, w in name.items() if isinstance(key, t))
    return "%s %s" % (word, key.public_bytes_raw().hex())


def row(name, call, words, answer):
    print("%s: %s %s => %s" % (name, call, words, answer))


KEYS = [
    ("RSA of 2048 bits", ["-algorithm", "RSA", "-pkeyopt", "rsa_keygen_bits:2048"]),
    ("RSA of 4096 bits", ["-algorithm", "RSA", "-pkeyopt", "rsa_keygen_bits:4096"]),
    ("P-256", ["-algorithm", "EC", "-pkeyopt", "ec_paramgen_curve:P-256"]),
    ("P-384", ["-algorithm", "EC", "-pkeyopt", "ec_paramgen_curve:P-384"]),
    ("P-521", ["-algorithm", "EC", "-pkeyopt", "ec_paramgen_curve:P-521"]),
    ("secp256k1, a curve that isn't known here", ["-algorithm", "EC", "-pkeyopt", "ec_paramgen_curve:secp256k1"]),
    ("Ed25519", ["-algorithm", "ED25519"]),
    ("X25519", ["-algorithm", "X25519"]),
]


def is_on_curve(spki):
    return isinstance(load_der_public_key(spki), ec.EllipticCurvePublicKey)


def public_rows(made_keys):
    print("# Public keys that openssl wrote, their parts by python's cryptography (scripts/key_rows.py).")
    for name, private in made_keys:
        spki = public_of(private)
        row(name, "public_key.read", spki.hex(), parts_of(spki))
        row(name + " written back", "public_key.again", spki.hex(), spki.hex())
        row(name + ", its family", "public_key.family", spki.hex(), {"R": "Rsa", "P": "Ec", "s": "Ec"}.get(name[0], name))
        key = load_der_public_key(spki)
        if isinstance(key, ec.EllipticCurvePublicKey):
            short = compressed_of(private)
            row(name + ", compressed", "public_key.read", short.hex(), parts_of(short, PublicFormat.CompressedPoint))
            row(name + ", compressed, written back", "public_key.again", short.hex(), short.hex())
            curve = CURVES[key.curve.name]
            if curve.startswith("P-"):
                numbers = key.public_numbers()
                row(name + " of its coordinates", "public_key.point", "%s %s %s" % (curve, unsigned(numbers.x), unsigned(numbers.y)), spki.hex())
        elif isinstance(key, rsa.RSAPublicKey):
            numbers = key.public_numbers()
            row(name + " of its numbers", "public_key.rsa", "00%s %s" % (unsigned(numbers.n), unsigned(numbers.e)), spki.hex())
        else:
            row(name + " of its bytes", "public_key.edwards", "%s %s" % (name, key.public_bytes_raw().hex()), spki.hex())


def refused_rows(made_keys):
    keys = dict((name, public_of(private)) for name, private in made_keys)
    print("\n# Refusals: each key above with one rule broken by hand.")
    edward, point, rsa_key = keys["Ed25519"], keys["P-256"], keys["RSA of 2048 bits"]
    short = compressed_of(dict(made_keys)["P-256"])
    row("a byte after the key", "public_key.read", edward.hex() + "00", "Der")
    row("a key that is cut", "public_key.read", edward[:-1].hex(), "Der")
    row("an identifier of no key, X448", "public_key.read", edward.replace(b"\x2b\x65\x70", b"\x2b\x65\x6f").hex(), "UnsupportedAlgorithm")
    row("an Edwards key with parameters", "public_key.read", "302c3007" + "06032b6570" + "0500" + edward[9:].hex(), "Der")
    row("an Edwards key of 31 bytes", "public_key.read", "3029" + "3005" + "06032b6570" + "032000" + edward[12:43].hex(), "BadSize")
    row("an Edwards key of 33 bytes", "public_key.read", "302b" + "3005" + "06032b6570" + "032200" + edward[12:].hex() + "00", "BadSize")
    row("31 bytes for an Edwards key", "public_key.edwards", "Ed25519 " + edward[12:43].hex(), "BadSize")
    row("33 bytes for an Edwards key", "public_key.edwards", "X25519 " + edward[12:].hex() + "00", "BadSize")
    row("unused bits", "public_key.read", edward.replace(b"\x03\x21\x00", b"\x03\x21\x01").hex(), "Der")
    row("a point with another first byte", "public_key.read", point.replace(b"\x03\x42\x00\x04", b"\x03\x42\x00\x05").hex(), "BadPoint")
    row("an uncompressed point that says it is compressed", "public_key.read", point.replace(b"\x03\x42\x00\x04", b"\x03\x42\x00\x02").hex(), "BadPoint")
    longer = bytes([0x30, short[1] + 1]) + short[2:].replace(b"\x03\x22\x00", b"\x03\x23\x00") + b"\x00"
    row("a compressed point of a byte too many", "public_key.read", longer.hex(), "BadPoint")
    row("a curve's key without its curve", "public_key.read", "304f3009" + "06072a8648ce3d0201" + point[23:].hex(), "Der")
    null = b"\x06\x09\x2a\x86\x48\x86\xf7\x0d\x01\x01\x01\x05\x00"
    bare = rsa_key.replace(b"\x30\x0d" + null, b"\x30\x0b" + null[:-2])
    bare = bare[:2] + (int.from_bytes(bare[2:4], "big") - 2).to_bytes(2, "big") + bare[4:]
    row("RSA without parameters", "public_key.read", bare.hex(), parts_of(rsa_key))
    row("RSA without parameters, written with NULL", "public_key.again", bare.hex(), rsa_key.hex())
    row("RSA numbers 65537 and 65537", "public_key.rsa", "010001 010001", "301e300d06092a864886f70d0101010500030d00300a02030100010203010001")
    row("the same read", "public_key.read", "301e300d06092a864886f70d0101010500030d00300a02030100010203010001", "RSA 010001 010001")
    row("an RSA modulus with a byte too many", "public_key.rsa", "00010001 010001", "Der")
    row("an RSA exponent without a byte", "public_key.rsa", "010001 -", "Der")
    row("a coordinate with bytes 00 in front", "public_key.point", "P-256 %s %s" % ("0000" + point[27:59].hex(), point[59:].hex()), point.hex())
    row("a coordinate of a byte too many", "public_key.point", "P-256 01%s %s" % (point[27:59].hex(), point[59:].hex()), "BadSize")


def ecdsa_rows(made_keys):
    print("\n# ECDSA signatures that openssl made, both numbers by python's cryptography (scripts/key_rows.py).")
    for name, size in (("P-256", 32), ("P-384", 48), ("P-521", 66)):
        private = dict(made_keys)[name]
        with tempfile.NamedTemporaryFile() as kept, tempfile.NamedTemporaryFile() as message:
            kept.write(private)
            kept.flush()
            message.write(b"a message")
            message.flush()
            pair = openssl("dgst", "-sha256", "-keyform", "DER", "-sign", kept.name, message.name)
        r, s = utils.decode_dss_signature(pair)
        halves = r.to_bytes(size, "big") + s.to_bytes(size, "big")
        row("a signature of " + name, "ecdsa.of", "%d %s" % (size, halves.hex()), pair.hex())
        row("a signature of " + name + " in its fixed size", "ecdsa.fixed", "%d %s" % (size, pair.hex()), halves.hex())
        row("a byte too few", "ecdsa.of", "%d %s" % (size, halves[1:].hex()), "Ec")
        row("a size that the numbers pass", "ecdsa.fixed", "8 %s" % pair.hex(), "Ec")
    small = utils.encode_dss_signature(1, 128)
    row("small numbers", "ecdsa.of", "32 " + (bytes(31) + b"\x01" + bytes(31) + b"\x80").hex(), small.hex())
    row("small numbers in a fixed size", "ecdsa.fixed", "32 " + small.hex(), (bytes(31) + b"\x01" + bytes(31) + b"\x80").hex())
    row("a number that just fits", "ecdsa.fixed", "1 " + small.hex(), "0180")
    row("a number below zero", "ecdsa.fixed", "32 3006020101020180", "improper")


def without_point(private):
    return openssl("pkcs8", "-topk8", "-nocrypt", "-inform", "DER", "-outform", "DER", given=openssl("ec", "-inform", "DER", "-no_public", "-outform", "DER", given=private))


def with_short_point(private):
    return openssl("pkcs8", "-topk8", "-nocrypt", "-inform", "DER", "-outform", "DER", given=openssl("pkey", "-inform", "DER", "-ec_conv_form", "compressed", "-outform", "DER", given=private))


def with_attributes(private):
    """The key in a bag that openssl wrote, with the attribute 'key usage'."""
    pem = openssl("pkey", "-inform", "DER", given=private)
    with tempfile.NamedTemporaryFile() as kept:
        kept.write(pem)
        kept.flush()
        store = openssl("pkcs12", "-export", "-inkey", kept.name, "-nocerts", "-keysig", "-keypbe", "NONE", "-nomac", "-passout", "pass:")
    bag = b"\x06\x0b\x2a\x86\x48\x86\xf7\x0d\x01\x0c\x0a\x01\x01"
    rest = store[store.index(bag) + len(bag):]
    return key_damage.value(key_damage.value(rest)[1])[3]


def private_forms(made_keys):
    """Each key in all forms of PKCS #8 that openssl writes: its name, its bytes, and the public part that stands in them."""
    told = []
    for name, private in made_keys:
        spki = public_of(private)
        full = parts_of(spki)
        shown = name if name[1:] in ("d25519", "25519") else full
        told.append((name, private, shown))
        told.append((name + " with attributes", with_attributes(private), shown))
        if is_on_curve(spki):
            told.append((name + " without its point", without_point(private), full.split(" ")[0]))
            told.append((name + " with a compressed point", with_short_point(private), parts_of(compressed_of(private), PublicFormat.CompressedPoint)))
    return told


def public_forms(made_keys):
    """Each public key, and those on a curve with a compressed point too."""
    told = []
    for name, private in made_keys:
        spki = public_of(private)
        told.append((name, spki))
        if is_on_curve(spki):
            told.append((name + ", compressed", compressed_of(private)))
    return told


def private_rows(told):
    print("\n# Private keys that openssl wrote in PKCS #8, the public part that stands in them by openssl and python's cryptography")
    print("# (scripts/key_rows.py).")
    for name, private, shown in told:
        row(name, "private_key.read", private.hex(), shown)
        row(name + ", its bytes", "private_key.again", private.hex(), private.hex())


def own_private_rows(made_keys):
    print("\n# Private keys by rule (RFC 5958, RFC 5915, RFC 8410), made by hand of those above.")
    keys = dict(made_keys)
    curve, other, edwards, rsa_key = keys["P-256"], keys["P-384"], keys["Ed25519"], keys["RSA of 2048 bits"]
    spki = public_of(curve)
    point, short = spki[26:], compressed_of(curve)[26:]
    algorithm = key_damage.value(spki)[1]
    algorithm = key_damage.value(algorithm)[3]
    number = key_damage.fields(key_damage.fields(without_point(curve))[2][1])[1][1]

    def inner(*more):
        return header(0x30, b"\x02\x01\x01" + header(4, number) + b"".join(more))

    def outer(held, *more, version=b"\x02\x01\x01", algorithm=algorithm):
        return header(0x30, version + algorithm + header(4, held) + b"".join(more)).hex()

    beside, behind = header(0xA1, header(3, b"\x00" + point)), header(0x81, b"\x00" + short)
    own = header(0xA0, b"\x06\x08\x2a\x86\x48\xce\x3d\x03\x01\x07")
    foreign = header(0xA0, b"\x06\x05\x2b\x81\x04\x00\x22")
    attributes = header(0xA0, bytes.fromhex("300b0603551d0f310403020780"))
    bad = header(0x81, b"\x00\x05" + point[1:])
    is_full, is_short = "P-256 " + point.hex(), "P-256 " + short.hex()
    row("a point after the attributes", "private_key.read", outer(inner(), attributes, behind), is_short)
    row("a point after no attributes", "private_key.read", outer(inner(), behind), is_short)
    row("the point beside the number counts before the one after it", "private_key.read", outer(inner(beside), behind), is_full)
    row("a curve beside the number is read", "private_key.read", outer(inner(own, beside)), is_full)
    row("another curve beside the number is not compared", "private_key.read", outer(inner(foreign, beside)), is_full)
    row("a curve beside the number that is no identifier", "private_key.read", outer(inner(header(0xA0, b"\x05\x00"), beside)), "Der")
    row("version 0 with a point after the attributes", "private_key.read", outer(inner(), behind, version=b"\x02\x01\x00"), is_short)
    row("version 2", "private_key.read", outer(inner(beside), version=b"\x02\x01\x02"), "Der")
    row("version 1 in two bytes", "private_key.read", outer(inner(beside), version=b"\x02\x02\x00\x01"), "Der")
    row("version 0 of the number", "private_key.read", outer(header(0x30, b"\x02\x01\x00" + header(4, number) + beside)), "Der")
    row("a point that is no point beside the number", "private_key.read", outer(inner(header(0xA1, header(3, b"\x00\x05" + point[1:])))), "BadPoint")
    row("a point that is no point after the attributes", "private_key.read", outer(inner(beside), bad), "BadPoint")
    row("unused bits beside the number", "private_key.read", outer(inner(header(0xA1, header(3, b"\x01" + point[:-1] + b"\x00")))), "Der")
    row("unused bits after the attributes", "private_key.read", outer(inner(beside), header(0x81, b"\x01" + point[:-1] + b"\x00")), "Der")
    row("unused bits after the attributes come before a point that is none", "private_key.read", outer(inner(header(0xA1, header(3, b"\x00\x05"))), header(0x81, b"\x01" + point[:-1] + b"\x00")), "Der")
    row("eight unused bits after the attributes, before an unknown algorithm", "private_key.read", outer(inner(), header(0x81, b"\x08\x00"), algorithm=header(0x30, b"\x06\x03\x2b\x65\x71")), "Der")
    row("an unknown algorithm, Ed448", "private_key.read", outer(inner(), algorithm=header(0x30, b"\x06\x03\x2b\x65\x71")), "UnsupportedAlgorithm")
    row("an unknown algorithm comes before what the octets hold", "private_key.read", outer(b"", algorithm=header(0x30, b"\x06\x03\x2b\x65\x71")), "UnsupportedAlgorithm")
    row("attributes twice", "private_key.read", outer(inner(), attributes, attributes), "Der")
    row("attributes after the point", "private_key.read", outer(inner(), behind, attributes), "Der")
    row("attributes of any contents", "private_key.read", outer(inner(), header(0xA0, b"\xff\xff"), behind), is_short)
    row("a point of another curve's size", "private_key.read", outer(inner(header(0xA1, header(3, b"\x00" + public_of(other)[23:])))), "BadPoint")
    row("a field of another tag", "private_key.read", outer(inner(), header(0x82, b"\x00")), "Der")
    secret = key_damage.fields(edwards)[2][1]
    ed = header(0x30, b"\x06\x03\x2b\x65\x70")
    public = public_of(edwards)[12:]
    row("an Edwards key with its public key", "private_key.read", outer(secret, header(0x81, b"\x00" + public), algorithm=ed), "Ed25519 " + public.hex())
    row("an Edwards key with attributes and its public key", "private_key.read", outer(secret, attributes, header(0x81, b"\x00" + public), algorithm=ed), "Ed25519 " + public.hex())
    row("an Edwards public key of 31 bytes", "private_key.read", outer(secret, header(0x81, b"\x00" + public[:31]), algorithm=ed), "BadSize")
    row("an Edwards private key of 31 bytes", "private_key.read", outer(header(4, secret[2:33]), algorithm=ed), "BadSize")
    row("an Edwards private key without its own tag", "private_key.read", outer(secret[2:], algorithm=ed), "Der")
    row("an Edwards private key with parameters", "private_key.read", outer(secret, algorithm=header(0x30, b"\x06\x03\x2b\x65\x70\x05\x00")), "Der")
    row("unused bits of an Edwards public key come before its size", "private_key.read", outer(header(4, secret[2:33]), header(0x81, b"\x04" + public), algorithm=ed), "Der")
    numbers = key_damage.fields(rsa_key)[2][1]
    rsa_algorithm = bytes.fromhex("300d06092a864886f70d0101010500")
    full = parts_of(public_of(rsa_key))
    row("RSA without parameters", "private_key.read", outer(numbers, algorithm=bytes.fromhex("300b06092a864886f70d010101"), version=b"\x02\x01\x00"), full)
    row("RSA with bits of no key after the attributes", "private_key.read", outer(numbers, header(0x81, b"\x03\xf8"), algorithm=rsa_algorithm), full)
    row("RSA with eight unused bits after the attributes", "private_key.read", outer(numbers, header(0x81, b"\x08\xf8"), algorithm=rsa_algorithm), "Der")
    row("RSA with unused bits of none", "private_key.read", outer(numbers, header(0x81, b"\x01"), algorithm=rsa_algorithm), "Der")
    eight = header(0x30, b"".join(v[2] for v in key_damage.fields(numbers)[:8]))
    ten = header(0x30, b"".join(v[2] for v in key_damage.fields(numbers)) + b"\x02\x01\x00")
    row("RSA of eight numbers", "private_key.read", outer(eight, algorithm=rsa_algorithm), "Der")
    row("RSA of ten numbers", "private_key.read", outer(ten, algorithm=rsa_algorithm), "Der")
    nine = header(0x30, b"\x02\x01\x00" + b"\x02\x01\x05" * 8)
    row("RSA of nine small numbers", "private_key.read", outer(nine, algorithm=rsa_algorithm), "RSA 05 05")


def main():
    made_keys = [(name, made(*words)) for name, words in KEYS]
    told = private_forms(made_keys)
    public_rows(made_keys)
    refused_rows(made_keys)
    ecdsa_rows(made_keys)
    private_rows(told)
    own_private_rows(made_keys)
    for name, spki in public_forms(made_keys):
        key_damage.public_rows(name, spki)
    for name, private, _ in told:
        key_damage.private_rows(name, private)


main()
