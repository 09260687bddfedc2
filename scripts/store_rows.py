#!/usr/bin/env python3
"""Rows over real stores of PKCS #12, made by openssl and, where it is installed, keytool.

    scripts/store_rows.py rows              prints rows of a dozen stores, for crates/asn1_rows/stdout
    scripts/store_rows.py check PROGRAM     makes some 30 stores, and compares what PROGRAM (asn1_rows, built) answers

The containers in a store are cut out at the places that `openssl asn1parse` lists, and their variants are named by the identifiers
that it prints there. `check` reads each container and writes it back to the same bytes, and damages each store at 200 places: every
answer is then bytes or a named fault. Nothing of what a row says comes from the program.
"""
import os
import random
import re
import shutil
import subprocess
import sys
import tempfile

LINE = re.compile(r"^\s*(\d+):d=(\d+)\s+hl=(\d+)\s+l=\s*(\d+)\s+(prim|cons):\s*(.*?)\s*$")
FAULTS = {"Truncated", "WrongTag", "BadLength", "BadValue", "TrailingBytes", "TooDeep"}
DIGESTS = {"sha1": "Sha1", "sha224": "Sha224", "sha256": "Sha256", "sha384": "Sha384", "sha512": "Sha512"}
PRFS = {f"hmacWithSHA{n}": f"HmacWithSha{n}" for n in (1, 224, 256, 384, 512)}


def openssl(*words, data=None, folder="."):
    return subprocess.run(["openssl", *words], input=data, cwd=folder, check=True, stdout=subprocess.PIPE, stderr=subprocess.PIPE).stdout


class Node:
    """A value at the place that asn1parse lists."""

    def __init__(self, data, offset, header, length, text):
        self.bytes = data[offset:offset + header + length]
        self.contents = data[offset + header:offset + header + length]
        self.text = text
        self.children = []

    def name(self):
        """The name of the identifier that stands first."""
        return self.children[0].text.split(":", 1)[1].strip()


def tree(data):
    """The one value of the bytes, as asn1parse lists it."""
    top, path = None, []
    for line in openssl("asn1parse", "-inform", "DER", data=data).decode("latin-1").splitlines():
        found = LINE.match(line)
        if not found:
            continue
        offset, depth, header, length, _, text = found.groups()
        node = Node(data, int(offset), int(header), int(length), text)
        path = path[:int(depth)]
        if path:
            path[-1].children.append(node)
        else:
            top = node
        path.append(node)
    return top


def rows_of_algorithm(name, kind, names, node):
    yield f"{name} {kind}", f"store.again {kind}", node.bytes, node.bytes.hex()
    yield f"{name} {kind} variant", f"store.variant {kind}", node.bytes, names.get(node.name(), "Unknown")


def rows_of_encryption(name, node):
    kind = node.name()
    variant = "Pbes2" if kind == "PBES2" else "Pbes1" if kind.startswith("pbeWithSHA1And") and ("3-Key" in kind or "40BitRC2" in kind) else "Unknown"
    yield f"{name} encryption", "store.again encryption", node.bytes, node.bytes.hex()
    yield f"{name} encryption variant", "store.variant encryption", node.bytes, variant
    if variant != "Pbes2":
        return
    kdf, scheme = node.children[1].children
    yield f"{name} kdf", "store.again kdf", kdf.bytes, kdf.bytes.hex()
    yield f"{name} scheme variant", "store.variant scheme", scheme.bytes, "AesCbc" if re.match(r"aes-(128|192|256)-cbc", scheme.name()) else "Unknown"
    params = kdf.children[1]
    prf = next((c for c in params.children if c.children), None)
    yield f"{name} prf", "store.last pbkdf2", params.bytes, "prf: None }" if prf is None else f"prf: Some({PRFS[prf.name()]}) }}"
    if prf is not None:
        yield from rows_of_algorithm(name, "prf", PRFS, prf)


def rows_of_attribute(name, node):
    yield f"{name} attribute", "store.again attribute", node.bytes, node.bytes.hex()
    kind, values = node.name(), node.children[1].children
    if kind == "friendlyName" and len(values) == 1:
        yield f"{name} name", "attribute.holds", node.bytes, values[0].contents.decode("utf-16-be")
    elif kind == "localKeyID" and len(values) == 1:
        yield f"{name} key", "attribute.holds", node.bytes, values[0].contents.hex()
    else:
        yield f"{name} other", "attribute.holds", node.bytes, "unknown"


def rows_of_bag(name, node):
    kind, value = node.name(), node.children[1].children[0]
    if kind == "pkcs8ShroudedKeyBag":
        yield f"{name} encrypted key", "store.again encrypted_key", value.bytes, value.bytes.hex()
        yield from rows_of_encryption(name, value.children[0])
    elif kind == "certBag":
        yield f"{name} certificate", "store.again certificate", value.bytes, value.bytes.hex()
        yield f"{name} certificate variant", "store.variant certificate", value.bytes, "X509" if value.name() == "x509Certificate" else "Unknown"
    elif kind == "secretBag":
        yield f"{name} secret", "store.again secret", value.bytes, value.bytes.hex()
    if len(node.children) > 2:
        yield f"{name} attributes", "store.again attributes", node.children[2].bytes, node.children[2].bytes.hex()
        for attribute in node.children[2].children:
            yield from rows_of_attribute(name, attribute)


def rows_of_store(name, data):
    pfx = tree(data)
    yield f"{name} store", "store.again pfx", data, data.hex()
    safe = pfx.children[1]
    yield f"{name} safe", "store.again safe", safe.bytes, safe.bytes.hex()
    yield f"{name} safe variant", "store.variant safe", safe.bytes, "Data"
    if len(pfx.children) > 2:
        mac = pfx.children[2]
        yield f"{name} mac", "store.again mac", mac.bytes, mac.bytes.hex()
        yield f"{name} mac digest", "store.again digest_info", mac.children[0].bytes, mac.children[0].bytes.hex()
        yield f"{name} mac iterations", "store.last mac", mac.bytes, f"iterations: Some({int.from_bytes(mac.children[2].contents, 'big')}) }}" if len(mac.children) > 2 else "iterations: None }"
        yield from rows_of_algorithm(name, "digest", DIGESTS, mac.children[0].children[0])
    for number, part in enumerate(tree(safe.children[1].children[0].contents).children):
        place = f"{name} part {number}"
        yield place, "store.again part", part.bytes, part.bytes.hex()
        yield f"{place} variant", "store.variant part", part.bytes, "EncryptedData" if part.name() == "pkcs7-encryptedData" else "Data"
        if part.name() == "pkcs7-encryptedData":
            encrypted = part.children[1].children[0]
            yield f"{place} encrypted", "store.again encrypted", encrypted.bytes, encrypted.bytes.hex()
            yield from rows_of_encryption(place, encrypted.children[1].children[1])
        else:
            for bag, node in enumerate(tree(part.children[1].children[0].contents).children):
                yield from rows_of_bag(f"{place} bag {bag}", node)


# ---- values made by the rules of X.690, with what the rules of the containers make of them


def der(tag, *contents):
    body = b"".join(contents)
    size = len(body)
    return bytes([tag]) + (bytes([size]) if size < 128 else bytes([0x81, size])) + body


def oid(text):
    arcs = [int(arc) for arc in text.split(".")]
    octets = b""
    for number in [40 * arcs[0] + arcs[1]] + arcs[2:]:
        groups = [number & 127]
        while number := number >> 7:
            groups.insert(0, number & 127 | 128)
        octets += bytes(groups)
    return der(6, octets)


NULL, PKCS9, PKCS7 = der(5), "1.2.840.113549.1.9", "1.2.840.113549.1.7"


def sequence(*contents):
    return der(0x30, *contents)


def rows_of_attributes():
    name, key = oid(f"{PKCS9}.20"), oid(f"{PKCS9}.21")
    user = bytes.fromhex("301706092A864886F70D010914310A1E080055007300650072")
    yield "friendly name", "store.again attribute", user, user.hex()
    yield "friendly name", "attribute.holds", user, "User"
    for title, head, values in [
        ("two names", name, [der(30, b"\0a"), der(30, b"\0b")]), ("no name", name, []), ("a name of odd length", name, [der(30, b"\0ab")]), ("a surrogate", name, [der(30, b"\xd8\x00")]),
        ("a name that is UTF8String", name, [der(12, b"a")]), ("two keys", key, [der(4, b"a"), der(4, b"b")]), ("a key that is a name", key, [der(30, b"\0a")]), ("another identifier", oid(f"{PKCS9}.22"), [der(30, b"\0a")]),
    ]:
        held = sequence(head, der(0x31, *values))
        yield title, "attribute.holds", held, "unknown"
        yield title, "store.again attribute", held, held.hex()
    yield "a value that is cut", "store.again attribute", sequence(name, der(0x31, b"\x1e\x02\0")), "Truncated"
    yield "no set", "store.again attribute", sequence(name), "Truncated"
    yield "a sequence for the set", "store.again attribute", sequence(name, sequence(der(30, b"\0a"))), "WrongTag"
    yield "bytes after the set", "store.again attribute", sequence(name, der(0x31, der(30, b"\0a")), NULL), "TrailingBytes"
    yield "an empty name", "store.again attribute", sequence(name, der(0x31, der(30))), sequence(name, der(0x31, der(30))).hex()
    yield "an id", "attribute.holds", sequence(key, der(0x31, der(4, b"\1\2"))), "0102"
    other = sequence(oid("1.2.3"), der(0x31, NULL, der(2, b"\1")))
    for title, held in [("attributes in their order", [other, user, sequence(key, der(0x31, der(4)))]), ("two names", [user, user]), ("an attribute without values", [sequence(oid("1.2.3"), der(0x31))]), ("no attributes", [])]:
        yield title, "store.again attributes", der(0x31, *held), der(0x31, *held).hex()
    yield "a sequence of attributes", "store.again attributes", sequence(user), "WrongTag"
    yield "an attribute that is cut", "store.again attributes", der(0x31, user, user[:-1]), "Truncated"


def explicit(*contents):
    return der(0xA0, *contents)


def rows_of_held():
    x509, other, value = oid(f"{PKCS9}.22.1"), oid("1.2.3"), explicit(der(4, b"c"))
    for title, kind, held, variant in [("an X.509 certificate", "certificate", sequence(x509, value), "X509"), ("another certificate", "certificate", sequence(other, explicit(NULL)), "Unknown"), ("a secret", "secret", sequence(other, explicit(NULL)), "SecretBag"), ("a secret that is a certificate", "secret", sequence(x509, value), "SecretBag"), ("a key under another algorithm", "encrypted_key", sequence(sequence(other), der(4, b"k")), "EncryptedKeyBag")]:
        yield title, f"store.again {kind}", held, held.hex()
        yield title, f"store.variant {kind}", held, variant
    for title, kind, held, wanted in [
        ("an X.509 certificate that is a sequence", "certificate", sequence(x509, explicit(sequence())), "WrongTag"), ("a certificate without a value", "certificate", sequence(x509), "Truncated"), ("two values in a tag", "certificate", sequence(other, explicit(NULL, NULL)), "TrailingBytes"), ("bytes after a certificate", "certificate", sequence(x509, value, NULL), "TrailingBytes"),
        ("a secret outside its tag", "secret", sequence(other, NULL), "WrongTag"), ("a secret without a value", "secret", sequence(other, explicit()), "Truncated"), ("a key without its algorithm", "encrypted_key", sequence(der(4, b"k")), "WrongTag"), ("a key without its bytes", "encrypted_key", sequence(sequence(other)), "Truncated"),
    ]:
        yield title, f"store.again {kind}", held, wanted


def rows_of_parts():
    data, encrypted, other = oid(f"{PKCS7}.1"), oid(f"{PKCS7}.6"), oid("1.2.3")
    inside = sequence(der(2, b"\0"), sequence(data, sequence(other), der(0x80, b"c")))
    for title, held, variant in [("no bags", sequence(data, explicit(der(4, sequence()))), "Data"), ("two bags", sequence(data, explicit(der(4, sequence(NULL, sequence())))), "Data"), ("an encrypted part", sequence(encrypted, explicit(inside)), "EncryptedData"), ("another part", sequence(other, explicit(NULL)), "Unknown"), ("another part without content", sequence(other), "Unknown")]:
        yield title, "store.again part", held, held.hex()
        yield title, "store.variant part", held, variant
    for title, held, wanted in [("a part of data without content", sequence(data), "Truncated"), ("an encrypted part without content", sequence(encrypted), "Truncated"), ("bags outside their octets", sequence(data, explicit(sequence())), "WrongTag"), ("bytes after the bags", sequence(data, explicit(der(4, sequence(), NULL))), "TrailingBytes"), ("a bag that is cut", sequence(data, explicit(der(4, sequence(b"\5\1")))), "Truncated"), ("an encrypted part in octets", sequence(encrypted, explicit(der(4, inside))), "WrongTag"), ("bytes after another part", sequence(other, NULL), "TrailingBytes")]:
        yield title, "store.again part", held, wanted


def rows_of_algorithms():
    sha256, hmac1, hmac256 = oid("2.16.840.1.101.3.4.2.1"), oid("1.2.840.113549.2.7"), oid("1.2.840.113549.2.9")
    yield "absent parameters", "store.again digest", sequence(sha256), sequence(sha256, NULL).hex()
    yield "other parameters", "store.again digest", sequence(sha256, der(2, b"\1")), "WrongTag"
    yield "a NULL that isn't empty", "store.again digest", sequence(sha256, der(5, b"\0")), "BadValue"
    yield "two NULLs", "store.again digest", sequence(sha256, NULL, NULL), "TrailingBytes"
    yield "another hash", "store.again digest", sequence(oid("1.2.3"), der(2, b"\1")), sequence(oid("1.2.3"), der(2, b"\1")).hex()
    yield "another hash without parameters", "store.variant digest", sequence(oid("1.2.3")), "Unknown"
    front = der(4, b"salt") + der(2, b"\x08\0")
    yield "an explicit default", "store.again pbkdf2", sequence(front, sequence(hmac1, NULL)), sequence(front).hex()
    yield "an explicit default", "store.last pbkdf2", sequence(front, sequence(hmac1)), "prf: None }"
    yield "an absent default", "store.last pbkdf2", sequence(front), "prf: None }"
    yield "a length and a prf", "store.again pbkdf2", sequence(front, der(2, b"\x20"), sequence(hmac256, NULL)), sequence(front, der(2, b"\x20"), sequence(hmac256, NULL)).hex()
    yield "a prf before the length", "store.again pbkdf2", sequence(front, sequence(hmac256, NULL), der(2, b"\x20")), "TrailingBytes"
    yield "another source of salt", "store.variant salt", sequence(oid("1.2.3")), "OtherSource"
    yield "octets as salt", "store.variant salt", der(4), "Specified"
    yield "a number for a salt", "store.again salt", der(2, b"\1"), "WrongTag"
    yield "no iterations", "store.again pbes1", sequence(der(4)), "Truncated"
    yield "iterations of 33 bits", "store.again pbes1", sequence(der(4), der(2, b"\1\0\0\0\0")), "BadValue"
    yield "AES without a vector", "store.again scheme", sequence(oid("2.16.840.1.101.3.4.1.2")), "Truncated"


def rows_of_outer():
    data, inner = oid(f"{PKCS7}.1"), sequence(oid("1.2.3"))
    for title, version, kind, more, wanted in [("version 1", b"\1", data, b"", "BadValue"), ("another type inside", b"\0", oid(f"{PKCS7}.6"), b"", "BadValue"), ("no content", b"\0", data, b"", None), ("a content", b"\0", data, der(0x80, b"c"), None), ("a constructed content", b"\0", data, der(0xA0, der(4)), "TrailingBytes")]:
        held = sequence(der(2, version), sequence(kind, inner, more))
        yield title, "store.again encrypted", held, wanted or held.hex()
    other = oid(f"{PKCS7}.2")
    yield "data without content", "store.again safe", sequence(data), "Truncated"
    yield "data that is a number", "store.again safe", sequence(data, der(0xA0, der(2, b"\1"))), "WrongTag"
    yield "two values in the tag", "store.again safe", sequence(data, der(0xA0, der(4), der(4))), "TrailingBytes"
    yield "another type without content", "store.again safe", sequence(other), sequence(other).hex()
    yield "another type", "store.variant safe", sequence(other, der(0xA0, NULL)), "Unknown"
    safe = sequence(data, der(0xA0, der(4)))
    yield "a version of 9 bits", "store.again pfx", sequence(der(2, b"\1\0"), safe), "BadValue"
    yield "version 255", "store.again pfx", sequence(der(2, b"\0\xff"), safe), sequence(der(2, b"\0\xff"), safe).hex()
    yield "bytes after the store", "store.again pfx", sequence(der(2, b"\3"), safe) + NULL, "TrailingBytes"


# ---- stores

EXPORTS = [("plain", []), ("iterations 1", ["-iter", "1"]), ("iterations 600000", ["-iter", "600000"]), ("no mac iterations", ["-nomaciter"]), ("no mac", ["-nomac"]), ("no encryption", ["-keypbe", "NONE", "-certpbe", "NONE"]), ("plain certificates", ["-certpbe", "NONE"]), ("plain keys", ["-keypbe", "NONE"]), ("nothing kept from anyone", ["-keypbe", "NONE", "-certpbe", "NONE", "-nomac"])]
EXPORTS += [(f"keys and certificates by {pbe}", ["-keypbe", pbe, "-certpbe", pbe]) for pbe in ("AES-128-CBC", "AES-192-CBC", "AES-256-CBC")]
EXPORTS += [(f"legacy {pbe}", ["-legacy", "-keypbe", pbe, "-certpbe", pbe]) for pbe in ("PBE-SHA1-3DES", "PBE-SHA1-RC2-40", "PBE-SHA1-2DES", "PBE-SHA1-RC2-128", "PBE-SHA1-RC4-128")]
EXPORTS += [(f"mac {digest}", ["-macalg", digest]) for digest in ("sha1", "sha224", "sha256", "sha384", "sha512", "sha512-256", "sha3-256")]
EXPORTS += [(f"name {title}", ["-name", text]) for title, text in (("ascii", "User"), ("umlauts", "Schlüssel"), ("Greek", "κλειδί"), ("Chinese", "密钥"), ("empty", ""), ("long", "n" * 300))]
EXPORTS += [("alias and purpose", ["-name", "User", "-CSP", "A provider", "-LMK"]), ("several certificates", ["-certfile", "other.pem", "-caname", "Other"])]
SMALL = ["no mac iterations", "no mac", "no encryption", "legacy PBE-SHA1-3DES", "legacy PBE-SHA1-RC2-40", "mac sha512", "name umlauts"]


def keys(folder):
    for name in ("user", "other"):
        openssl("req", "-x509", "-newkey", "ec", "-pkeyopt", "ec_paramgen_curve:P-256", "-nodes", "-keyout", f"{name}.key", "-out", f"{name}.pem", "-subj", "/CN=U", "-days", "365", folder=folder)


def stores(folder, only=None):
    keys(folder)
    for name, words in EXPORTS:
        if only is None or name in only:
            try:
                yield name, openssl("pkcs12", "-export", "-inkey", "user.key", "-in", "user.pem", "-passout", "pass:secret", *words, folder=folder)
            except subprocess.CalledProcessError as error:
                print(f"# {name}: openssl makes none: {error.stderr.decode().splitlines()[0]}", file=sys.stderr)
    if only is None and shutil.which("keytool"):
        keytool = ["keytool", "-storetype", "PKCS12", "-storepass", "secret", "-keystore"]
        for name, words in (("keytool key", ["-genkeypair", "-keyalg", "EC", "-alias", "user", "-dname", "CN=U"]), ("keytool secret", ["-genseckey", "-keyalg", "AES", "-keysize", "128", "-alias", "user"])):
            path = os.path.join(folder, name.replace(" ", "_"))
            subprocess.run(keytool + [path] + words, check=True, stdout=subprocess.DEVNULL, stderr=subprocess.DEVNULL)
            with open(path, "rb") as file:
                yield name, file.read()


def answers(program, asked):
    """What the program answers to each row."""
    said = subprocess.run([program], input="".join(f"{row}\n" for row in asked).encode(), stdout=subprocess.PIPE, check=False).stdout.decode().splitlines()
    return [line[len(row) + len(" => "):] for row, line in zip(asked, said, strict=True)]


def check(program):
    drawn = random.Random(1)
    with tempfile.TemporaryDirectory() as folder:
        made, wrong, total, damaged = list(stores(folder)), 0, 0, 0
        for name, data in made:
            rows = list(rows_of_store(name, data))
            asked = [f"{title}: {call} {held.hex()}" for title, call, held, _ in rows]
            for row, wanted, said in zip(asked, (r[3] for r in rows), answers(program, asked)):
                total += 1
                if wanted != said:
                    wrong += 1
                    print(f"{row[:200]}\n  wanted {wanted[:200]}\n  said   {said[:200]}")
            harm = []
            for place in [drawn.randrange(len(data)) for _ in range(200)]:
                changed = bytearray(data)
                changed[place] ^= drawn.randrange(1, 256)
                harm.append(f"{name} damaged at {place}: store.again pfx {changed.hex()}")
            for row, said in zip(harm, answers(program, harm)):
                damaged += 1
                if said not in FAULTS and said != row.split(" ")[-1]:
                    wrong += 1
                    print(f"{row[:100]}\n  said   {said[:200]}")
        print(f"{len(made)} stores, {total} rows, {damaged} damaged, {wrong} wrong")
        return 1 if wrong else 0


def main():
    if sys.argv[1:] == ["rows"]:
        with tempfile.TemporaryDirectory() as folder:
            for made in (rows_of_attributes, rows_of_held, rows_of_parts, rows_of_algorithms, rows_of_outer):
                for title, call, held, wanted in made():
                    print(f"{title}: {call} {held.hex()} => {wanted}")
            for name, data in stores(folder, SMALL):
                for title, call, held, wanted in rows_of_store(name, data):
                    print(f"{title}: {call} {held.hex()} => {wanted}")
        return 0
    if len(sys.argv) == 3 and sys.argv[1] == "check":
        return check(sys.argv[2])
    print(__doc__)
    return 2


if __name__ == "__main__":
    sys.exit(main())
