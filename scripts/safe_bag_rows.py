#!/usr/bin/env python3
"""Rows over bags of PKCS #12 and bags in bags.

    scripts/safe_bag_rows.py rows              prints the rows, for crates/asn1_rows/stdout
    scripts/safe_bag_rows.py check PROGRAM     compares what PROGRAM (asn1_rows, built) answers over some 30 stores, and over bags
                                               nested at random, cut, and with a byte in a place of theirs changed

The bags of a row are encodings by python's `pyasn1`; how deep they are is how they were made. The bags and parts of stores are made
by openssl, and cut out at the places that `openssl asn1parse` lists; the kind of a bag and the number of its attributes are what it
prints there. `check` reads nested bags with a reader of its own, of twenty lines, which walks over headers. Nothing of what a row
says comes from the program.
"""
import random
import sys
import tempfile

from pyasn1.codec.der.encoder import encode
from pyasn1.type import tag, univ

from store_rows import SMALL, answers, stores, tree

BAGS = "1.2.840.113549.1.12.10.1"
KINDS = {f"{BAGS}.1": "Key", f"{BAGS}.2": "EncryptedKey", f"{BAGS}.3": "Certificate", f"{BAGS}.4": "Crl", f"{BAGS}.5": "Secret", f"{BAGS}.6": "SafeContents"}
NAMES = {"keyBag": "Key", "pkcs8ShroudedKeyBag": "EncryptedKey", "certBag": "Certificate", "crlBag": "Crl", "secretBag": "Secret", "safeContentsBag": "SafeContents"}
EXPLICIT = tag.Tag(tag.tagClassContext, tag.tagFormatConstructed, 0)


# ---- values


def sequence(*parts):
    made = univ.Sequence()
    for place, part in enumerate(parts):
        made.setComponentByPosition(place, part)
    return made


def explicit(value):
    return value.subtype(explicitTag=EXPLICIT)


def collected(head, items):
    """The values in items, one after another, behind the header of an empty value with this first octet."""
    body = b"".join(items)
    octets = encode(univ.OctetString(body))
    return head + octets[1:len(octets) - len(body)] + body


def oid(text):
    return univ.ObjectIdentifier(text)


def attribute(kind, *values):
    return encode(sequence(oid(kind), univ.Any(collected(b"\x31", values))))


USER = bytes.fromhex("301706092A864886F70D010914310A1E080055007300650072")
KEY_ID = attribute("1.2.840.113549.1.9.21", encode(univ.OctetString(b"\1\2")))


def bag(kind, value, attributes=None):
    """A bag of this kind, with a value that is given as its bytes."""
    parts = [oid(kind), explicit(univ.Any(value))]
    if attributes is not None:
        parts.append(univ.Any(collected(b"\x31", attributes)))
    return encode(sequence(*parts))


def listed(bags):
    return collected(b"\x30", bags)


def nest(bags, attributes=None):
    return bag(f"{BAGS}.6", listed(bags), attributes)


def chain(levels, inner):
    """A bag in which bags are nested so many levels."""
    for _ in range(levels - 1):
        inner = nest([inner])
    return inner


NULL = encode(univ.Null(""))
KEY = bag(f"{BAGS}.1", encode(sequence(univ.Integer(0), univ.OctetString(b"key"))), [USER, KEY_ID])
CERTIFICATE = bag(f"{BAGS}.3", encode(sequence(oid("1.2.840.113549.1.9.22.1"), explicit(univ.OctetString(b"certificate")))), [KEY_ID])
OTHER_CERTIFICATE = bag(f"{BAGS}.3", encode(sequence(oid("1.2.3"), explicit(univ.Integer(7)))))
PBES2 = sequence(oid("1.2.840.113549.1.5.13"), sequence(sequence(oid("1.2.840.113549.1.5.12"), sequence(univ.OctetString(b"salt"), univ.Integer(2048), sequence(oid("1.2.840.113549.2.9"), univ.Null("")))), sequence(oid("2.16.840.1.101.3.4.1.42"), univ.OctetString(b"i" * 16))))
ENCRYPTED = bag(f"{BAGS}.2", encode(sequence(PBES2, univ.OctetString(b"key"))))
SECRET = bag(f"{BAGS}.5", encode(sequence(oid("1.2.3"), explicit(univ.OctetString(b"secret")))))
CRL = bag(f"{BAGS}.4", encode(sequence(univ.Integer(1))))
UNKNOWN = bag("1.2.3", NULL, [])


# ---- rows


def rows_of_kinds():
    for name, data, kind, count in [("key", KEY, "Key", 2), ("certificate", CERTIFICATE, "Certificate", 1), ("certificate of another type", OTHER_CERTIFICATE, "Certificate", None), ("encrypted key", ENCRYPTED, "EncryptedKey", None), ("secret", SECRET, "Secret", None), ("list of revoked certificates", CRL, "Crl", None), ("another kind", UNKNOWN, "Unknown", 0), ("no bag in a bag", nest([]), "SafeContents", None), ("bags in a bag", nest([KEY, SECRET, nest([UNKNOWN], [USER])], [USER]), "SafeContents", 1)]:
        yield name, "again", data, data.hex()
        yield name, "kind", data, kind
        yield name, "attributes", data, "none" if count is None else str(count)
    head, value = oid(f"{BAGS}.1"), explicit(univ.Any(NULL))
    for name, data, fault in [
        ("no value", encode(sequence(head)), "Truncated"), ("a value without its tag", encode(sequence(head, univ.Null(""))), "WrongTag"), ("two values in the tag", encode(sequence(head, explicit(univ.Any(NULL + NULL)))), "TrailingBytes"),
        ("a sequence for the set", encode(sequence(head, value, univ.Any(listed([USER])))), "TrailingBytes"), ("two sets", encode(sequence(head, value, univ.Any(collected(b"\x31", [])), univ.Any(collected(b"\x31", [])))), "TrailingBytes"),
        ("an attribute that is cut", bag(f"{BAGS}.1", NULL, [USER[:-1]]), "Truncated"), ("bytes behind the bag", KEY + NULL, "TrailingBytes"), ("a set for the bag", b"\x31" + KEY[1:], "WrongTag"),
        ("bags without a sequence", bag(f"{BAGS}.6", KEY[2:]), "WrongTag"), ("bags in a set", bag(f"{BAGS}.6", b"\x31\0"), "WrongTag"), ("a byte for a bag", nest([b"\2"]), "WrongTag"), ("a secret without a value", bag(f"{BAGS}.5", encode(sequence(oid("1.2.3")))), "Truncated"), ("NULL for a certificate", bag(f"{BAGS}.3", NULL), "WrongTag"),
    ]:
        yield name, "again", data, fault


def rows_of_levels():
    tree_of_three = nest([KEY, nest([SECRET], [USER]), KEY])
    for name, data, levels in [("one bag", KEY, 1), ("no bag in a bag", nest([]), 1), ("two bags in a bag", nest([KEY, SECRET]), 2), ("bags at three levels", tree_of_three, 3)] + [(f"bags at {n} levels", chain(n, UNKNOWN), n) for n in (32, 33, 64, 65, 85)]:
        for allowed in sorted({0, 1, levels - 1, levels, levels + 1, 86, 2 ** 32 - 1}):
            yield f"{name}, {allowed} levels", f"within {allowed}", data, data.hex() if levels <= allowed else "none"
    # each level nests three readers, and the value in the last bag two: 86 levels are more than 256
    for levels in (86, 257):
        data = chain(levels, UNKNOWN)
        for allowed, answer in ((64, "none"), (85, "none"), (86, "TooDeep"), (257, "TooDeep"), (2 ** 32 - 1, "TooDeep")):
            yield f"bags at {levels} levels, {allowed} levels", f"within {allowed}", data, answer
        yield f"bags at {levels} levels", "again", data, "TooDeep"
    yield "bags at 85 levels", "again", chain(85, UNKNOWN), chain(85, UNKNOWN).hex()
    two = nest([b"\xff", KEY])
    yield "a byte stands where no bag may", "within 1", two, "none"
    yield "a bad bag at an allowed level", "within 2", two, "WrongTag"
    yield "a bad bag before one that is too deep", "within 2", nest([b"\2\1\0", nest([KEY])]), "WrongTag"
    yield "a bad bag behind one that is too deep", "within 2", nest([nest([KEY]), b"\2\1\0"]), "none"
    yield "a bad attribute before a bag that is too deep", "within 2", nest([bag(f"{BAGS}.1", NULL, [USER[:-1]]), nest([KEY])]), "Truncated"
    yield "a bad attribute of a bag in which one is too deep", "within 2", nest([nest([KEY], [USER[:-1]])]), "none"
    yield "a cut bag that is too deep", "within 2", nest([nest([KEY[:-1]])]), "none"
    yield "a bag whose end is missing around one that is too deep", "within 1", nest([KEY])[:-1], "Truncated"
    yield "no byte", "within 0", b"", "Truncated"
    yield "a byte", "within 0", b"\xff", "none"
    yield "bytes behind the bag are left", "within 1", KEY + b"\xff", KEY.hex()


def rows_of_lists():
    bags = listed([KEY, nest([SECRET]), CERTIFICATE])
    yield "bags of a part", "list", bags, bags.hex()
    for allowed in (0, 1, 2, 3):
        yield f"bags of a part, {allowed} levels", f"contents {allowed}", bags, bags.hex() if 2 <= allowed else "none"
    yield "no bags", "contents 0", listed([]), listed([]).hex()
    yield "a bad bag before one that is too deep", "contents 1", listed([b"\2\1\0", nest([KEY])]), "WrongTag"
    yield "a set of bags", "contents 1", b"\x31\0", "WrongTag"
    part = encode(sequence(oid("1.2.840.113549.1.7.1"), explicit(univ.OctetString(bags))))
    yield "a part", "part", part, part.hex()
    yield "a part", "part_variant", part, "Data"
    yield "bytes behind the bags of a part", "part", encode(sequence(oid("1.2.840.113549.1.7.1"), explicit(univ.OctetString(bags + NULL)))), "TrailingBytes"


def rows_of_bag(name, node):
    yield name, "again", node.bytes, node.bytes.hex()
    yield name, "kind", node.bytes, NAMES.get(node.name(), "Unknown")
    yield name, "attributes", node.bytes, str(len(node.children[2].children)) if len(node.children) > 2 else "none"


def rows_of_store(name, data):
    for number, part in enumerate(tree(tree(data).children[1].children[1].children[0].contents).children):
        place = f"{name} part {number}"
        yield place, "part", part.bytes, part.bytes.hex()
        if part.name() == "pkcs7-data":
            bags = part.children[1].children[0].contents
            yield place, "contents 1", bags, bags.hex()
            for count, node in enumerate(tree(bags).children):
                yield from rows_of_bag(f"{place} bag {count}", node)


# ---- bags drawn at random, and a reader of their levels


def header(data, place, end, wanted):
    """Where the contents of the value of this tag stand, and where they end; a fault by its name."""
    if place >= end:
        raise ValueError("Truncated")
    if data[place] != wanted:
        raise ValueError("WrongTag")
    place += 1
    if place >= end:
        raise ValueError("Truncated")
    size, place = data[place], place + 1
    if size >= 128:
        count = size - 128
        if end - place < count:
            raise ValueError("Truncated")
        octets, place = data[place:place + count], place + count
        if not 0 < count <= 8 or octets[0] == 0 or int.from_bytes(octets, "big") < 128:
            raise ValueError("BadLength")
        size = int.from_bytes(octets, "big")
    if end - place < size:
        raise ValueError("Truncated")
    return place, place + size


class TooManyLevels(Exception):
    """A bag stands deeper than is allowed."""


def read_bag(data, place, end, levels):
    """Reads a bag of kinds that are bags, any one value under 1.2.3, with no attributes; the place behind it."""
    if levels == 0:
        if place >= end:
            raise ValueError("Truncated")
        raise TooManyLevels
    place, last = header(data, place, end, 0x30)
    start, value = header(data, place, last, 6)
    kind = bytes(data[start:value])
    if kind not in (encode(oid(f"{BAGS}.6"))[2:], encode(oid("1.2.3"))[2:]):
        raise LookupError
    inner, after = header(data, value, last, 0xA0)
    if kind == encode(oid("1.2.3"))[2:]:
        if inner < after and data[inner] % 32 == 31:
            raise ValueError("BadValue")
        behind = header(data, inner, after, data[inner] if inner < after else 5)[1]
    else:
        inner, behind = header(data, inner, after, 0x30)
        while inner < behind:
            inner = read_bag(data, inner, behind, levels - 1)
    if behind < after:
        raise ValueError("TrailingBytes")
    if after < last:
        raise ValueError("WrongTag" if data[after] == 0x31 else "TrailingBytes")
    return last


def drawn_bag(drawn, depth):
    if depth == 0 or drawn.random() < 0.3:
        return bag("1.2.3", NULL)
    return nest([drawn_bag(drawn, depth - 1) for _ in range(drawn.randrange(4))])


def rows_drawn(count):
    drawn = random.Random(2)
    for number in range(count):
        data = drawn_bag(drawn, drawn.randrange(1, 7))
        changed = bytearray(data)
        if drawn.random() < 0.7:
            changed[drawn.randrange(len(changed))] ^= drawn.randrange(1, 256)
        if drawn.random() < 0.2:
            changed = changed[:drawn.randrange(len(changed))]
        levels = drawn.randrange(8)
        try:
            answer = bytes(changed[:read_bag(changed, 0, len(changed), levels)]).hex()
        except TooManyLevels:
            answer = "none"
        except LookupError:
            continue
        except ValueError as fault:
            answer = str(fault)
        yield f"drawn {number}", f"within {levels}", bytes(changed), answer


# ---- the program


def printed(rows):
    for title, call, data, answer in rows:
        yield f"{title}: bags.{call} {data.hex() or '-'}", answer


def all_rows():
    for made in (rows_of_kinds, rows_of_levels, rows_of_lists):
        yield from made()


def check(program):
    with tempfile.TemporaryDirectory() as folder:
        made = [row for name, data in stores(folder) for row in rows_of_store(name, data)]
    rows = list(printed(made + list(all_rows()) + list(rows_drawn(4000))))
    wrong = 0
    for (row, wanted), said in zip(rows, answers(program, [row for row, _ in rows])):
        if wanted != said:
            wrong += 1
            print(f"{row[:300]}\n  wanted {wanted[:200]}\n  said   {said[:200]}")
    print(f"{len(rows)} rows, {wrong} wrong")
    return 1 if wrong else 0


def main():
    if sys.argv[1:] == ["rows"]:
        print("# Bags, which python's `pyasn1` wrote, and those of stores that openssl made (scripts/safe_bag_rows.py).")
        with tempfile.TemporaryDirectory() as folder:
            made = [row for name, data in stores(folder, SMALL[:3]) for row in rows_of_store(name, data)]
        for row, answer in printed(list(all_rows()) + made):
            print(f"{row} => {answer}")
        return 0
    if len(sys.argv) == 3 and sys.argv[1] == "check":
        return check(sys.argv[2])
    print(__doc__)
    return 2


if __name__ == "__main__":
    sys.exit(main())
