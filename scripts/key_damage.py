"""What the rules say of the bytes of a key, read here by hand, and what python's `cryptography` says: for scripts/key_rows.py.

`public_key.damaged` and `private_key.damaged` read a key with its first byte changed in its last bit, then one with its second byte so changed, and so
on for the first 64, and answer a letter for each:

    r  read, and a public key written back as it stood     D  Der
    o  read, and written otherwise                         U  UnsupportedAlgorithm
    S  BadSize                                             P  BadPoint

The letters are by the rules of RFC 5280, 5480, 5958, 8017 and 8410 as this file reads them. `cryptography` must read and refuse the same bytes, but
for the places that a comment above the row lists, each with its reason.
"""
from cryptography.exceptions import InternalError, UnsupportedAlgorithm
from cryptography.hazmat.primitives.asymmetric import ec
from cryptography.hazmat.primitives.serialization import load_der_private_key, load_der_public_key

CURVES = {"secp256r1": "P-256", "secp384r1": "P-384", "secp521r1": "P-521", "secp256k1": "1.3.132.0.10"}
RSA, EC = bytes.fromhex("2a864886f70d010101"), bytes.fromhex("2a8648ce3d0201")
EDWARDS = {bytes.fromhex("2b6570"): "Ed25519", bytes.fromhex("2b656e"): "X25519"}
SIZES = {bytes.fromhex("2a8648ce3d030107"): 32, bytes.fromhex("2b81040022"): 48, bytes.fromhex("2b81040023"): 66}


def unsigned(number):
    return number.to_bytes(max(1, (number.bit_length() + 7) // 8), "big").hex()


def length_of(size):
    if size < 128:
        return bytes([size])
    digits = size.to_bytes((size.bit_length() + 7) // 8, "big")
    return bytes([128 + len(digits)]) + digits


def header(tag, contents):
    return bytes([tag]) + length_of(len(contents)) + contents


class Refused(Exception):
    pass


def need(holds, letter="D"):
    if not holds:
        raise Refused(letter)


def value(data, tag=None):
    """The first value: its tag, its contents, the bytes after it, and the whole of it."""
    need(len(data) > 1 and data[0] % 32 != 31 and tag in (None, data[0]))
    size, at = data[1], 2
    if size >= 128:
        at, digits = 2 + size - 128, data[2:2 + size - 128]
        need(0 < size - 128 <= 8 and len(digits) == size - 128)
        size = int.from_bytes(digits, "big")
        need(data[1:at] == length_of(size))
    need(len(data) >= at + size)
    return data[0], data[at:at + size], data[at + size:], data[:at + size]


def fields(data, tag=0x30):
    """The values in a value, each as its tag, its contents and the whole of it."""
    _, rest, after, _ = value(data, tag)
    need(after == b"")
    found = []
    while rest:
        tag, contents, rest, whole = value(rest)
        found.append((tag, contents, whole))
    return found


def identifier(contents):
    need(contents != b"" and contents[-1] < 128)
    number, first = 0, True
    for byte in contents:
        need(not (first and byte == 128))
        number, first = number * 128 + byte % 128, byte < 128
        need(number < 2 ** 128)
        number = 0 if first else number
    return contents


def integer(contents):
    need(contents != b"")
    need(len(contents) < 2 or not (contents[0] == 0 and contents[1] < 128 or contents[0] == 255 and contents[1] >= 128))
    return contents


def whole_bits(contents):
    need(contents[:1] == b"\x00")
    return contents[1:]


def take(found, tag):
    need(found and found[0][0] == tag)
    return found.pop(0)


def algorithm_of(data):
    found = fields(data)
    oid = identifier(take(found, 6)[1])
    need(len(found) < 2)
    return oid, found[0][2] if found else b""


def kind_of(oid, parameters):
    need(oid in (RSA, EC) or oid in EDWARDS, "U")
    if oid == RSA:
        need(parameters in (b"", b"\x05\x00"))
    elif oid == EC:
        tag, contents, after, _ = value(parameters, 6)
        need(after == b"")
        return oid, identifier(contents)
    else:
        need(parameters == b"")
    return oid, None


def held(kind, bits):
    oid, curve = kind
    if oid == RSA:
        found = fields(bits)
        need([f[0] for f in found] == [2, 2])
        [integer(f[1]) for f in found]
    elif oid in EDWARDS:
        need(len(bits) == 32, "S")
    elif curve in SIZES:
        size = SIZES[curve]
        need(bits[:1] == b"\x04" and len(bits) == 1 + 2 * size or bits[:1] in (b"\x02", b"\x03") and len(bits) == 1 + size, "P")


def public(data):
    found = fields(data)
    oid, parameters = algorithm_of(take(found, 0x30)[2])
    bits = whole_bits(take(found, 3)[1])
    need(found == [])
    held(kind_of(oid, parameters), bits)
    return "o" if oid == RSA and parameters == b"" else "r"


def private(data):
    found = fields(data)
    need(take(found, 2)[1] in (b"\x00", b"\x01"))
    oid, parameters = algorithm_of(take(found, 0x30)[2])
    octets = take(found, 4)[1]
    if found and found[0][0] == 0xA0:
        take(found, 0xA0)
    behind = take(found, 0x81)[1] if found else None
    need(found == [])
    need(behind is None or behind[:1] == b"\x00" or behind[:1] != b"" and behind[0] < 8 and len(behind) > 1)
    kind = kind_of(oid, parameters)
    if oid == RSA:
        inner = fields(octets)
        need([f[0] for f in inner] == [2] * 9)
        [integer(f[1]) for f in inner]
        return "r"
    parts = []
    if oid == EC:
        inner = fields(octets)
        need(take(inner, 2)[1] == b"\x01")
        take(inner, 4)
        if inner and inner[0][0] == 0xA0:
            (curve,) = one(fields(take(inner, 0xA0)[2], 0xA0))
            need(curve[0] == 6)
            identifier(curve[1])
        if inner:
            (point,) = one(fields(take(inner, 0xA1)[2], 0xA1))
            need(point[0] == 3)
            parts.append(whole_bits(point[1]))
        need(inner == [])
    else:
        _, secret, after, _ = value(octets, 4)
        need(after == b"")
    if behind is not None:
        parts.append(whole_bits(behind))
    if oid in EDWARDS:
        need(len(secret) == 32, "S")
    for bits in parts:
        held(kind, bits)
    return "r"


def one(found):
    need(len(found) == 1)
    return found


def letter(rule, data):
    try:
        return rule(data)
    except Refused as refused:
        return refused.args[0]


def is_read(tool, data):
    try:
        tool(data)
        return True
    except (ValueError, TypeError, UnsupportedAlgorithm, InternalError):
        return False


def damaged(data):
    return [data[:at] + bytes([data[at] ^ 1]) + data[at + 1:] for at in range(min(64, len(data)))]


def spans(places):
    out = []
    for at in places:
        if out and out[-1][1] == at - 1:
            out[-1][1] = at
        else:
            out.append([at, at])
    return ", ".join("%d" % a if a == b else "%d to %d" % (a, b) for a, b in out)


def damage_rows(name, call, data, rule, tool, reasons):
    """One row, below a comment for each reason why `cryptography` reads or refuses otherwise."""
    letters, why = "", {}
    assert is_read(tool, data) and letter(rule, data) == "r", name
    for at, other in enumerate(damaged(data)):
        told = letter(rule, other)
        letters += told
        if is_read(tool, other) != (told in "ro"):
            why.setdefault(reasons(data, at, other, told), []).append(at)
    for reason, places in sorted(why.items()):
        print("# cryptography %s: %s" % (reason, spans(places)))
    print("%s, damaged: %s.damaged %s => %s" % (name, call, data.hex(), letters))


def kind_in(algorithm):
    return kind_of(*algorithm_of(algorithm))


def public_reasons(data, at, other, told):
    if told == "D":
        need(whole_bits(b"\x00" + fields(other)[1][1][1:]) and fields(other)[1][1][0] in range(1, 8))
        return "reads unused bits of a key, where they are zero"
    if kind_in(fields(other)[0][2]) != kind_in(fields(data)[0][2]):
        return "refuses curves that it doesn't know"
    return "refuses points that aren't on their curve"


def private_reasons(data, at, other, told):
    assert told == "r", (at, other.hex())
    found = fields(other)
    if found[0][1] != b"\x00":
        return "refuses version 1"
    kind = kind_in(found[1][2])
    if kind != kind_in(fields(data)[1][2]):
        return "refuses curves that it doesn't know"
    if found[3:] != fields(data)[3:]:
        return "refuses attributes that aren't of their form"
    if kind[0] == RSA:
        return "refuses numbers of RSA that don't fit one another, and other versions of them than 0"
    assert kind[0] == EC, (at, other.hex())
    return "refuses a number that isn't that of the point beside it"


def public_rows(name, data):
    damage_rows(name, "public_key", data, public, load_der_public_key, public_reasons)


def private_rows(name, data):
    damage_rows(name, "private_key", data, private, lambda d: load_der_private_key(d, None), private_reasons)
