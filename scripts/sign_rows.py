#!/usr/bin/env python3
"""Prints the rows of crates/sign_rows over signed tokens and HTTP signatures that are made, what is refused, and header texts that are printed.

Keys are made for this run and thrown away, test keys that protect nothing; signatures are made by python's `cryptography`, over the messages
that are put together here:

- tokens: the header and the claims as Python's json writes them, with the members in the order of their names; base64url by Python's base64;
  an ECDSA signature's two numbers by `cryptography` (RFC 7515, sections 3.1 and 7.1; RFC 7518, section 3.4; RFC 7519).
- HTTP signatures: the steps of a builder as docs/DEFINITIONS.md maps their rules, over the lines, requests and readings of
  scripts/http_cases.py.
- refusals: the first rule that the row breaks.

Usage: scripts/sign_rows.py                          prints the rows; each stands in crates/sign_rows/stdout, before those of scripts/http_cases.py
       scripts/sign_rows.py check [PROGRAM [GATE]]   what others say of tokens that are made here, and the other way about

`check`, under fresh RSA, P-256 and Ed25519 keys: tokens that PROGRAM makes (crates/sign_rows/out/sign_rows), of signatures by real arithmetic,
are verified by `joserfc`; tokens that `joserfc` makes are recorded as scripts/record does it, and admitted by GATE
(crates/gate_program/out/gate_program). Where `joserfc` isn't there, `cryptography` stands in its place. It prints how many of how many, and what is left
out for want of a program; the status is 1 where one isn't accepted.
"""
import base64
import importlib.machinery
import importlib.util
import json
import os
import re
import subprocess
import sys
import tempfile
import time
import warnings

from cryptography.exceptions import InvalidSignature
from cryptography.hazmat.primitives import hashes, serialization
from cryptography.hazmat.primitives.asymmetric import ec, ed25519, padding, rsa
from cryptography.hazmat.primitives.asymmetric.utils import decode_dss_signature, encode_dss_signature

import http_cases
from http_cases import NAMES, lower, quoted, trim, url

HERE = os.path.dirname(os.path.abspath(__file__))
HASHES = {"sha224": hashes.SHA224, "sha256": hashes.SHA256, "sha384": hashes.SHA384, "sha512": hashes.SHA512}
# the records' word of each JOSE name, and half the size of its signature where that is of ECDSA
ALGS = {"EdDSA": ("ed25519-sha512", None), "ED25519": ("ed25519-sha512", None)}
for bits, size in (("256", 32), ("384", 48), ("512", 66)):
    ALGS["RS" + bits] = ("rsa-sha" + bits, None)
    ALGS["ES" + bits] = ("ecdsa-sha" + bits, size)
FIELDS = ["alg", "jku", "jwk", "typ", "cty", "kid", "x5u", "x5c", "x5t", "x5t#S256"]


# ---- keys


class Key:
    """A key with its PKCS #8 and its SPKI in DER."""

    def __init__(self, private):
        self.private = private
        self.pkcs8 = private.private_bytes(serialization.Encoding.DER, serialization.PrivateFormat.PKCS8, serialization.NoEncryption())
        self.spki = private.public_key().public_bytes(serialization.Encoding.DER, serialization.PublicFormat.SubjectPublicKeyInfo)
        self.has_public = not isinstance(private, ed25519.Ed25519PrivateKey)

    def sign(self, word, message):
        family, _, name = word.partition("-")
        if family == "rsa":
            return self.private.sign(message, padding.PKCS1v15(), HASHES[name]())
        return self.private.sign(message, ec.ECDSA(HASHES[name]())) if family == "ecdsa" else self.private.sign(message)

    def pair(self):
        """The line that tells the public key of a private one that doesn't hold it."""
        return "" if self.has_public else f"pair {url(self.pkcs8)} {url(self.spki)}\n"

    def record(self, word, message, signature):
        return self.pair() + f"sig {word} {url(self.spki)} {url(message)} {url(signature)}\n"


def der(tag, *parts):
    contents = b"".join(parts)
    length = bytes([len(contents)]) if len(contents) < 128 else b"\x81" + bytes([len(contents)])
    return bytes([tag]) + length + contents


class Small:
    """The RSA key whose modulus and exponent are 65537, which signs nothing."""

    has_public = True
    e = der(2, b"\x01\x00\x01")
    kind = der(0x30, bytes.fromhex("06092a864886f70d010101"), der(5))
    pkcs8 = der(0x30, der(2, b"\0"), kind, der(4, der(0x30, der(2, b"\0"), e, e, *[der(2, b"\x01")] * 6)))
    spki = der(0x30, kind, der(3, b"\0" + der(0x30, e, e)))
    pair, record = Key.pair, Key.record


def fresh():
    return {
        "RSA": Key(rsa.generate_private_key(public_exponent=65537, key_size=2048)),
        "P-256": Key(ec.generate_private_key(ec.SECP256R1())),
        "P-384": Key(ec.generate_private_key(ec.SECP384R1())),
        "P-521": Key(ec.generate_private_key(ec.SECP521R1())),
        "Ed25519": Key(ed25519.Ed25519PrivateKey.generate()),
    }


# ---- tokens


def spelled(tree):
    return json.dumps(tree, separators=(",", ":"), sort_keys=True, ensure_ascii=False)


def as_word(tree):
    """The same with its members as they stand, as a word of a row: without spaces."""
    return json.dumps(tree, separators=(",", ":"), ensure_ascii=False).replace(" ", "\\u0020")


def message_of(header, payload):
    return f"{url(spelled(header).encode())}.{url(payload)}".encode()


def halves(alg, signature):
    """The signature as it stands in a token."""
    size = ALGS[alg][1]
    return signature if size is None else b"".join(n.to_bytes(size, "big") for n in decode_dss_signature(signature))


def lines(text):
    return text.replace("\\", "\\\\").replace("\n", "\\n")


def word(data):
    return data.hex() or "-"


def row(name, call, *said):
    *words, answer = said
    print(f"{name}: {call} {' '.join(words)} => {answer}")


def token_row(name, call, key, header, more, middle, payload, signature=None, answer=None):
    """A row of a token: by its own signature, by one that is given, or with another answer."""
    alg = header["alg"]
    message = message_of({**{k: v for k, v in header.items() if v is not None}, **dict([more] if more else [])}, payload)
    if signature is None and alg in ALGS:
        signature = key.sign(ALGS[alg][0], message)
    records = key.record(ALGS[alg][0], message, signature) if signature else key.pair()
    if answer is None:
        answer = f"{message.decode()}.{url(halves(alg, signature))}"
    row(name, call, key.pkcs8.hex(), as_word(header), *middle, lines(records), answer)


def jws_row(name, key, header, payload=b'{"exp":100}', more=None, signature=None, answer=None, call="token.jws"):
    middle = [*([more[0], as_word(more[1])] if more else ["-", "null"]), word(payload)]
    token_row(name, call, key, header, more, middle, payload, signature, answer)


def nested(depth, inside=None):
    return depth * "[" + ("" if inside is None else inside) + depth * "]"


def jws_rows(keys):
    print("# Tokens of real signatures: header and payload by Python's json and base64, signatures by python's cryptography (scripts/sign_rows.py).")
    of_alg = {"RS256": "RSA", "RS384": "RSA", "RS512": "RSA", "ES256": "P-256", "ES384": "P-384", "ES512": "P-521", "EdDSA": "Ed25519", "ED25519": "Ed25519"}
    for alg, name in of_alg.items():
        jws_row(f"{alg} under {name}", keys[name], {"alg": alg, "kid": "k"})
        jws_row(f"{alg} under {name}, as a token with claims", keys[name], {"alg": alg, "kid": "k"}, call="token.jwt")
    for alg, name in (("ES256", "P-384"), ("ES384", "P-521"), ("ES512", "P-256"), ("ES384", "P-256")):
        small = encode_dss_signature(1, 128)
        jws_row(f"small numbers of {alg} under {name}", keys[name], {"alg": alg}, signature=small)
    ed = keys["Ed25519"]
    jws_row("no name of a key", ed, {"alg": "EdDSA"})
    jws_row("an empty payload", ed, {"alg": "EdDSA", "kid": "k"}, b"")
    jws_row("a payload that is no JSON", ed, {"alg": "EdDSA", "kid": "k"}, b"\0\xff")
    jws_row("one byte of payload", ed, {"alg": "EdDSA", "kid": "k"}, b"a")
    jws_row("two bytes of payload", ed, {"alg": "EdDSA", "kid": "k"}, b"ab")
    jws_row("null is absent", ed, {"alg": "EdDSA", "kid": None, "typ": None})
    whole = {"alg": "EdDSA", "jku": "https://id.example/keys", "typ": "JWT", "cty": "a b", "kid": 'k"\\\n', "x5u": "u", "x5c": ["MA", "MB"], "x5t": "t", "x5t#S256": "s"}
    jws_row("every member that is a text", ed, whole)
    jws_row("a key in the header", ed, {"alg": "EdDSA", "jwk": {"kty": "OKP", "crv": "Ed25519", "x": url(bytes(32)), "kid": "j"}})
    beside = {"zeta": 1, "alpha": [True, None, {"b": 2**64 - 1, "a": -(2**63)}], "\u00e9": "\u82d7", "Alg": "x", "crit": ["b64"], "alg": "EdDSA", "kid": "k"}
    jws_row("additional members in the order of their names", ed, beside)
    jws_row("one more, which stands first", ed, beside, more=("ALPHA", {"z": 0, "a": ""}))
    jws_row("one more, which stands last", ed, beside, more=("\u82d7", False))
    jws_row("an additional member with the empty text in it", ed, {"alg": "EdDSA"}, more=("a", ""))
    jws_row("a header that is 127 deep", ed, {"alg": "EdDSA"}, more=("a", json.loads(nested(126))))


def jws_refusals(keys):
    print("\n# Tokens that are refused, each by the first rule that it breaks (scripts/sign_rows.py).")
    ed, rsa_key, p384 = keys["Ed25519"], keys["RSA"], keys["P-384"]
    bare = {"alg": "EdDSA", "kid": "k"}
    for field in [*FIELDS, "x5t#s256"]:
        jws_row(f"an additional member with the name {field}", ed, bare, more=(field, "x"), answer="Json")
    jws_row("a header that is 128 deep", ed, bare, more=("a", json.loads(nested(127))), answer="Json")
    jws_row("a float in an additional member", ed, bare, more=("a", 1.5), answer="Float")
    jws_row("a float deep in an additional member", ed, bare, more=("a", [{"b": [0, -0.0]}]), answer="Float")
    jws_row("an integer above u64", ed, bare, more=("a", 2**64), answer="Float")
    jws_row("an integer below i64", ed, bare, more=("a", -(2**63) - 1), answer="Float")
    jws_row("a field's name before a float", ed, {**bare, "a": 1.5}, more=("kid", "x"), answer="Json")
    jws_row("a header that is 128 deep before a float", ed, {**bare, "b": 1.5}, more=("a", json.loads(nested(127))), answer="Json")
    for alg in ("HS256", "HS384", "HS512", "PS256", "PS384", "PS512"):
        jws_row(f"the name {alg}", rsa_key, {"alg": alg}, answer="Signature { source: UnsupportedAlgorithm }")
    jws_row("a float before a name that signs nothing", rsa_key, {"alg": "HS256"}, more=("a", 1.5), answer="Float")
    other = ed.sign("ed25519-sha512", b"x")
    message = message_of(bare, b"")
    none = "Signature { source: NoSignature }"
    for name, key, alg, records in (
        ("no record", ed, "EdDSA", ed.pair()),
        ("no record, and no public key", ed, "EdDSA", ""),
        ("a record of another message", ed, "EdDSA", ed.record("ed25519-sha512", message, other)),
        ("a record without the public key of its private key", ed, "EdDSA", ed.record("ed25519-sha512", message_of(bare, b"a"), other).removeprefix(ed.pair())),
        ("a record of another hash", rsa_key, "RS256", rsa_key.record("rsa-sha384", message_of({"alg": "RS256", "kid": "k"}, b"a"), b"\1")),
        ("a name of another family", rsa_key, "EdDSA", rsa_key.record("rsa-sha256", message_of(bare, b"a"), b"\1")),
    ):
        row(name, "token.jws", key.pkcs8.hex(), as_word({"alg": alg, "kid": "k"}), "- null 61", lines(records), none)
    long, longer = 2**384 - 1, 2**256
    for name, alg, r, s, got in (
        ("both numbers are too long", "ES256", long, long - 1, 48),
        ("the first number is too long", "ES256", longer, 1, 33),
        ("the second number is too long", "ES256", 1, long, 48),
        ("the first of two that are too long", "ES256", longer, long, 33),
    ):
        jws_row(name, p384, {"alg": alg}, signature=encode_dss_signature(r, s), answer=f"Signature {{ source: Ec {{ expected: 32, got: {got} }} }}")
    jws_row("numbers that just fit", p384, {"alg": "ES256"}, signature=encode_dss_signature(longer - 1, longer - 2))
    jws_row("a number of a real signature of another curve", p384, {"alg": "ES256"}, signature=real_long(p384), answer="Signature { source: Ec { expected: 32, got: 48 } }")
    jws_row("the same for a token with claims", p384, {"alg": "ES256"}, signature=real_long(p384), answer="Jws { source: Signature { source: Ec { expected: 32, got: 48 } } }", call="token.jwt")
    jws_row("numbers of 66 bytes for ES384", keys["P-521"], {"alg": "ES384"}, signature=encode_dss_signature(2**520, 1), answer="Signature { source: Ec { expected: 48, got: 66 } }")
    for name, more, answer in (("a field's name", ("kid", "x"), "Json"), ("a float", ("a", 1.5), "Float")):
        jws_row(f"{name}, of a token with claims", ed, bare, more=more, answer=f"Jws {{ source: {answer} }}", call="token.jwt")
    jws_row("HS256, of a token with claims", rsa_key, {"alg": "HS256"}, answer="Jws { source: Signature { source: UnsupportedAlgorithm } }", call="token.jwt")


def real_long(key):
    """A real signature whose first number has all of its bytes. Its message is the one of the rows."""
    while True:
        signature = key.sign("ecdsa-sha256", message_of({"alg": "ES256"}, b'{"exp":100}'))
        if decode_dss_signature(signature)[0].bit_length() > 376:
            return signature


def claims_row(name, call, key, header, claims, answer=None):
    made = {
        "new": {"alg": header["alg"], "typ": "JWT", "kid": header.get("kid")},
        "with_cty": {"alg": header["alg"], "typ": "JWT", "cty": header.get("cty"), "kid": header.get("kid")},
    }.get(call, header)
    made = {k: v for k, v in made.items() if v is not None}
    tree = [claims] if call == "deeper" else claims
    payload = spelled(tree).encode()
    alg = header["alg"]
    message = message_of(made, payload)
    signature = key.sign(ALGS[alg][0], message) if alg in ALGS else None
    records = key.record(ALGS[alg][0], message, signature) if signature else key.pair()
    if answer is None:
        answer = f"{message.decode()}.{url(halves(alg, signature))}"
    row(name, "claims." + call, key.pkcs8.hex(), as_word(header), as_word(claims), lines(records), answer)


CLAIMS = {"iss": "https://id.example", "sub": "42", "aud": "api", "iat": 1700000000, "nbf": 1700000000, "exp": 1700003600, "scope": "read write"}


def claims_rows(keys):
    print("\n# Tokens with claims: the compact JSON of header and claims by Python's json, signatures by python's cryptography (scripts/sign_rows.py).")
    for alg, name in (("RS256", "RSA"), ("ES256", "P-256"), ("ES512", "P-521"), ("EdDSA", "Ed25519")):
        claims_row(f"a usual token, {alg}", "new", keys[name], {"alg": alg, "kid": "k"}, CLAIMS)
    ed = keys["Ed25519"]
    for call in ("new", "with_cty", "with_header", "deeper"):
        claims_row(f"members of a header, by {call}", call, ed, {"alg": "EdDSA", "kid": "k", "cty": "x y", "typ": "at+jwt", "v": 1}, {"exp": 100})
    claims_row("an empty content type", "with_cty", ed, {"alg": "EdDSA", "cty": ""}, {"exp": 100})
    claims_row("no name of a key", "new", ed, {"alg": "EdDSA"}, {"exp": 100})
    for name, claims in (
        ("no claims", {}),
        ("claims that are a list", []),
        ("claims that are a text", "a"),
        ("claims that are null", None),
        ("claims in the order of their names", {"b": 1, "a": {"d": 2, "c": 3}, "": 0, "\u82d7": "\u5b57"}),
        ("the ends of the integers", {"a": 2**64 - 1, "b": -(2**63)}),
        ("claims that are 127 deep", json.loads(nested(127))),
    ):
        claims_row(name, "new", ed, {"alg": "EdDSA", "kid": "k"}, claims)
    claims_row("claims that are 127 deep, one list more than the row", "deeper", ed, {"alg": "EdDSA"}, json.loads(nested(126)))
    print("\n# Tokens with claims that are refused, each by the first rule that it breaks (scripts/sign_rows.py).")
    bare, deep = {"alg": "EdDSA", "kid": "k"}, json.loads(nested(127))
    deep_float = json.loads(nested(127, "1.5"))
    for name, call, header, claims, answer in (
        ("a float in claims", "new", bare, {"exp": 1.5}, "Float"),
        ("a float that is whole", "new", bare, {"exp": 100.0}, "Float"),
        ("an integer above u64 in claims", "with_cty", {**bare, "cty": "x"}, {"exp": 2**64}, "Float"),
        ("claims that are 128 deep", "deeper", bare, deep, "Json"),
        ("a float before claims that are 128 deep", "deeper", bare, deep_float, "Float"),
        ("a float in claims before one in the header", "with_header", {**bare, "v": 1.5}, {"exp": 1.5}, "Float"),
        ("claims that are 128 deep before a float in the header", "deeper", {**bare, "v": 1.5}, deep, "Json"),
        ("a float in the header", "with_header", {**bare, "v": 1.5}, {"exp": 1}, "Jws { source: Float }"),
        ("a name that signs nothing", "new", {"alg": "PS256"}, {"exp": 1}, "Jws { source: Signature { source: UnsupportedAlgorithm } }"),
        ("a float in claims before a name that signs nothing", "new", {"alg": "HS256"}, {"exp": 1.5}, "Float"),
    ):
        claims_row(name, call, ed, header, claims, answer)
    row("no record of claims", "claims.new", ed.pkcs8.hex(), as_word(bare), as_word(CLAIMS), lines(ed.pair()), "Jws { source: Signature { source: NoSignature } }")


# ---- HTTP signatures

TOLD = {}
for known, shown in NAMES.items():
    TOLD.setdefault(shown, known)
SPECIAL = {"target": "(request-target)", "created": "(created)", "expires": "(expires)"}
METHODS = {"rsa-sha224": "RsaPkcs1v15(SHA2_224)", "rsa-sha256": "RsaPkcs1v15(SHA2_256)", "ecdsa-sha256": "Ecdsa(SHA2_256)", "ecdsa-sha512": "Ecdsa(SHA2_512)", "ed25519-sha512": "Ed25519"}


def argument(name):
    return f'MissingBuilderArgument {{ arg: "{name}" }}'


class Builder:
    """What the steps of a row set."""

    def __init__(self, head, string):
        self.head, self.string, self.legacy = head, string, False
        self.clear()

    def clear(self):
        self.method = self.key = self.way = self.created = self.expires = None
        self.parts, self.special = [], []

    def covers(self, part, special):
        self.parts.append(part)
        self.special.append(special)

    def step(self, text):
        name, _, value = text.partition("=")
        if name in SPECIAL:
            self.covers(SPECIAL[name], True)
        if name in ("created", "expires"):
            setattr(self, name, int(value))
        elif name == "name":
            self.covers(lower(value), False)
        elif name in ("key", "method"):
            setattr(self, name, value)
        elif name == "legacy":
            self.legacy = True
        elif name in ("asked", "given"):
            self.way = name
        elif name != "target":
            raise ValueError(text)

    def listed(self):
        """What the lines of the given string cover."""
        found = Builder(None, None)
        pieces = self.string.split("\n")
        if pieces[-1] == "":
            pieces.pop()
        else:
            pieces[-1] += "\r"
        for piece in pieces:
            piece = piece.removesuffix("\r")
            key, colon, rest = piece.partition(":")
            value = trim(rest.partition(":")[0])
            bad = http_cases.Refused(f"InvalidSigningString {{ line: {debug(piece)} }}")
            if not colon:
                raise bad
            if key in ("(created)", "(expires)"):
                if not re.fullmatch(r"\+?[0-9]+", value) or int(value) >= 2**64:
                    raise bad
                setattr(found, key.strip("()"), int(value))
            found.covers(key if key in SPECIAL.values() else lower(key), key in SPECIAL.values())
        return found

    def content(self):
        """What is covered, and the signing string."""
        for value, name in ((self.method, "signature_method"), (self.key, "key_id"), (self.way, "signing_string_generation")):
            if value is None:
                raise http_cases.Refused(argument(name))
        if self.way == "given":
            if self.parts:
                raise http_cases.Refused("BuilderHeadersProvidedWithPreGenerated")
            return self.listed(), self.string
        if not self.parts:
            raise http_cases.Refused("BuilderEmptyHeaders")
        read = {"parts": self.parts, "special": self.special, "created": self.created, "expires": self.expires}
        return self, http_cases.signing_string(read, self.head)


def debug(text):
    return quoted(text).replace("\r", "\\r").replace("\n", "\\n")


def printed(key, algorithm, created, expires, parts, signature, legacy):
    mark = "" if legacy else '"'
    items = [f"keyId={mark}{key}{mark}"]
    if algorithm is not None and not legacy:
        items.append(f"algorithm={mark}{algorithm}{mark}")
    items += [f"{name}={n}" for name, n in (("created", created), ("expires", expires)) if n is not None]
    items += [f"headers={mark}{' '.join(parts)}{mark}", f"signature={mark}{signature}{mark}"]
    return "Signature " + ",".join(items)


def again(text, read):
    """What a printed text reads back as: the values of a reading, an algorithm by what it means."""
    try:
        back = http_cases.reading(text)
    except http_cases.Refused:
        return "refused"
    back["algorithm"] = None if back["algorithm"] is None else NAMES.get(back["algorithm"], "custom " + back["algorithm"])
    return "same" if back == read else "another"


def read_of(key, algorithm, created, expires, parts, special, signature, legacy):
    return {"key": key, "parts": parts, "special": special, "created": created, "expires": expires, "signature": signature, "algorithm": algorithm, "legacy": legacy}


def built(builder, key, signature, records):
    """What `build` gives, and the line that records its signature. A signature is real where none is given."""
    try:
        covered, message = builder.content()
    except http_cases.Refused as refusal:
        return str(refusal)
    if signature == "none":
        return "Signature { source: NoSignature }"
    made = key.sign(builder.method, message.encode()) if signature is None else signature
    records.append(f"sig {builder.method} {url(key.spki)} {url(message.encode())} {url(made)}\n")
    text = url(made) if builder.legacy else base64.b64encode(made).decode()
    method = METHODS[builder.method]
    shown = printed(builder.key, TOLD.get(method, "ECDSA unsupported algorithm"), covered.created, covered.expires, covered.parts, text, builder.legacy)
    read = read_of(builder.key, method, covered.created, covered.expires, covered.parts, covered.special, text, builder.legacy)
    now = covered.created or 0
    verdict = "Ok"
    if covered.expires is not None and now > covered.expires:
        verdict = f"Expired {{ not_after: {covered.expires}, now: {now} }}"
    builder.clear()
    return f"{shown} {again(shown, read)} {verdict}"


def build_row(name, key, steps, head=None, string="", signature=None, kinds=("head",), answer=None):
    for kind in kinds:
        builder, records, said = Builder(None if kind == "none" else http_cases.seen_as(kind, head), string), [key.pair()], []
        for step in steps.split(","):
            if step == "build":
                said.append(built(builder, key, signature, records))
            else:
                builder.step(step)
        if answer is not None and said != [answer]:
            sys.exit(f"sign_rows: {name}: {said} isn't {answer}")
        row(name if len(kinds) == 1 else f"{name}, {kind}", "build." + kind, key.pkcs8.hex(), word(head or b""), word(string.encode()), steps, lines("".join(records)), " | ".join(said))


REQUEST = (
    b"GET /foo HTTP/1.1\r\nHost: example.org\r\nDate: Tue, 07 Jun 2014 20:51:35 GMT\r\n"
    b"X-Example:  Example header       with some whitespace.   \r\nX-EmptyHeader:\r\n"
    b"Cache-Control: max-age=60\r\nCache-Control: must-revalidate\r\n\r\n"
)
LINES = (
    "(request-target): get /foo\n(created): 1402170695\nhost: example.org\ndate: Tue, 07 Jun 2014 20:51:35 GMT\n"
    "cache-control: max-age=60, must-revalidate\nx-emptyheader:\nx-example: Example header       with some whitespace."
)
COVER = "target,created=1402170695,name=host,name=date,name=cache-control,name=x-emptyheader,name=X-EXAMPLE"
WHOLE = "key=my-rsa-key," + COVER + ",method=rsa-sha224"
TEXT = (
    'Signature keyId="my-rsa-key",algorithm="rsa-sha224",created=1402170695,headers="(request-target) (created) host date cache-control '
    'x-emptyheader x-example",signature="+/8=" same Ok'
)


def build_rows(keys):
    print("\n# HTTP signatures that are built: lines, texts and readings of scripts/http_cases.py, real signatures by python's cryptography (scripts/sign_rows.py).")
    small, rsa_key, p256, ed = Small(), keys["RSA"], keys["P-256"], keys["Ed25519"]
    if Builder.content(stepped(Builder(http_cases.head_of(REQUEST), LINES), WHOLE + ",asked"))[1] != LINES:
        sys.exit("sign_rows: the seven lines are others")
    kinds = ("head", "parts", "request")
    asked, given = WHOLE + ",asked,build", "key=my-rsa-key,method=rsa-sha224,given,build"
    build_row("seven lines", small, asked, REQUEST, signature=b"\xfb\xff", kinds=kinds, answer=TEXT)
    build_row("seven lines that are given", small, given, REQUEST, LINES, b"\xfb\xff", kinds=("head", "parts", "none"), answer=TEXT)
    build_row("a target with a query", small, asked, REQUEST.replace(b"/foo", b"/foo?q=1"), signature=b"\xfb\xff", kinds=kinds, answer=TEXT)
    build_row("seven lines with a real signature", rsa_key, asked, REQUEST, kinds=kinds)
    build_row("seven lines that are given, with a real signature", rsa_key, given, REQUEST, LINES)
    flagged = TEXT.replace('"', "").replace("algorithm=rsa-sha224,", "").replace("+/8=", "-_8").replace("same", "another")
    build_row("with the flag", small, "legacy," + asked, REQUEST, signature=b"\xfb\xff", kinds=kinds, answer=flagged)
    build_row("seven lines that are given, with the flag", small, "legacy," + given, REQUEST, LINES, b"\xfb\xff", answer=flagged)
    for name, key, method in (("RSA", rsa_key, "rsa-sha256"), ("P-256", p256, "ecdsa-sha256"), ("Ed25519", ed, "ed25519-sha512")):
        build_row(f"a usual signature under {name}", key, f"key=k,target,created=7,name=host,name=date,method={method},asked,build", REQUEST, kinds=kinds)
        build_row(f"the same with the flag, {name}", key, f"legacy,key=k,target,created=7,name=host,name=date,method={method},asked,build", REQUEST)
    build_row("a known algorithm without a name", p256, "key=k,name=host,method=ecdsa-sha512,asked,build", REQUEST)
    build_row("the same with the flag, without a name", p256, "legacy,key=k,name=host,method=ecdsa-sha512,asked,build", REQUEST)
    s = b"\0\x10\x83"
    build_row("expires alone", small, "key=k,expires=9,method=rsa-sha256,asked,build", REQUEST, signature=s)
    build_row("created and expires", small, "key=k,expires=9,created=7,method=rsa-sha256,asked,build", REQUEST, signature=s)
    build_row("expires before created", small, "key=k,expires=5,created=7,method=rsa-sha256,asked,build", REQUEST, signature=s)
    build_row("the greatest numbers", small, f"key=k,created={2**64 - 1},expires={2**64 - 1},method=rsa-sha256,asked,build", REQUEST, signature=s)
    build_row("numbers alone need no request", small, "key=k,created=7,expires=9,method=rsa-sha256,asked,build", signature=s, kinds=("none",))
    build_row("created twice", small, "key=k,created=7,name=host,created=8,method=rsa-sha256,asked,build", REQUEST, signature=s)
    build_row("a name twice", small, "key=k,name=host,name=Host,method=rsa-sha256,asked,build", REQUEST, signature=s)
    build_row("a header that isn't there", small, "key=k,name=absent,method=rsa-sha256,asked,build", REQUEST, signature=s)
    build_row("an empty name", small, "key=k,name=,method=rsa-sha256,asked,build", REQUEST, signature=s)
    build_row("a special text as a name", small, "key=k,name=(created),method=rsa-sha256,asked,build", REQUEST, signature=s)
    build_row("an empty key id", small, "key=,name=host,method=rsa-sha256,asked,build", REQUEST, signature=s)
    build_row("the key id that was set last", small, "key=a,key=b,name=host,method=rsa-sha256,asked,build", REQUEST, signature=s)
    build_row("the method that was set last", small, "key=a,method=rsa-sha224,name=host,method=rsa-sha256,asked,build", REQUEST, signature=s)
    build_row("the request that was set last", small, "key=a,method=rsa-sha224,name=host,given,asked,build", REQUEST, "host: x", signature=s)
    build_row("the string that was set last", small, "key=a,method=rsa-sha224,asked,given,build", REQUEST, "host: x", signature=s)
    build_row("a signature of one byte", small, "key=k,name=host,method=rsa-sha256,asked,build", REQUEST, signature=b"\xff")
    build_row("a signature of one byte, with the flag", small, "legacy,key=k,name=host,method=rsa-sha256,asked,build", REQUEST, signature=b"\xff")

    print("\n# Builders that refuse, in the order of the rules; what was set stays, and Ok takes all but the flag (scripts/sign_rows.py).")
    method, key = "method=rsa-sha256", "key=my-rsa-key"
    build_row("no key id, then with it", small, f"target,created=7,{method},asked,build,{key},build", REQUEST, signature=s, kinds=kinds)
    build_row("one after another is set", small, f"build,{method},build,{key},build,asked,build,name=host,build", REQUEST, signature=s, kinds=kinds)
    build_row("one after another is set, with a given string", small, f"given,build,{method},build,{key},build", REQUEST, "host: x", signature=s)
    build_row("Ok takes all", small, f"{key},name=host,{method},asked,build,build,{method},build,{key},build,asked,build", REQUEST, signature=s)
    build_row("Ok takes numbers", small, f"{key},created=7,expires=8,{method},asked,build,{key},name=host,{method},asked,build", REQUEST, signature=s)
    build_row("Ok leaves the flag", small, f"legacy,{key},name=host,{method},asked,build,{key},name=date,{method},asked,build", REQUEST, signature=s)
    build_row("Ok with a given string takes all", small, f"{key},{method},given,build,build,{method},{key},build", REQUEST, "host: x", signature=s)
    build_row("parts beside a given string", small, f"{key},name=host,{method},given,build,asked,build", REQUEST, "host: x", signature=s)
    build_row("parts beside a bad string", small, f"{key},created=7,{method},given,build", REQUEST, "host", signature=s)
    build_row("a bad string before want of a signature", small, f"{key},{method},given,build", REQUEST, "host", signature="none")
    build_row("no parts", small, f"{key},{method},asked,build", REQUEST, signature=s, kinds=("head", "parts", "none"))
    build_row("no request", small, f"{key},target,{method},asked,build", signature=s, kinds=("none",))
    build_row("no request, and a name", small, f"{key},created=7,name=Host,{method},asked,build", signature=s, kinds=("none",))
    bad = REQUEST.replace(b"\r\n\r\n", b"\r\nX-Bytes: \xe9\r\n\r\n")
    build_row("a value with the byte E9", small, f"{key},name=host,name=X-Bytes,{method},asked,build", bad, signature=s, kinds=kinds)
    build_row("a value with the byte E9 that isn't covered", small, f"{key},name=host,{method},asked,build", bad, signature=s, kinds=kinds)
    build_row("a value with the byte E9 before want of a signature", small, f"{key},name=X-Bytes,{method},asked,build", bad, signature="none")
    build_row("no signature", small, f"{key},name=host,{method},asked,build,legacy,build", REQUEST, signature="none", kinds=kinds)
    build_row("no signature of a given string", small, f"{key},{method},given,build", REQUEST, "host: x", signature="none")
    build_row("an algorithm of another family", small, f"{key},name=host,method=ed25519-sha512,asked,build", REQUEST, signature="none")

    print("\n# Signing strings that are given, cut into lines by Python's split (scripts/sign_rows.py).")
    for name, string in (
        ("no lines", ""),
        ("an empty line", "\n"),
        ("an empty line between two", "a: 1\n\nb: 2"),
        ("a line without a colon", "host: x\ndate"),
        ("the first line without a colon", "host\ndate"),
        ("a line without a colon, CR LF behind it", "host: x\r\ndate\r\n"),
        ("a line without a colon, CR behind it", "host: x\r\ndate\r"),
        ("a line with a colon alone", ":"),
        ("lines that end in CR LF", "host: x\r\ndate: y\r\n"),
        ("an LF last", "host: x\n"),
        ("two LF last", "host: x\n\n"),
        ("names in upper case", "HOST: x\nDate: y"),
        ("a name with spaces", " host : x"),
        ("a space in a name", "a b: x"),
        ("a colon in a value", "host: a:80"),
        ("special parts", "(request-target): get /foo\n(created): 7\n(expires): 9"),
        ("special parts in other letter case", "(Created): x\n(EXPIRES): y"),
        ("a special part behind a space", " (created): x"),
        ("a number up to the next colon", "(created): 7:x"),
        ("a number before the next colon, and spaces", "(created):\t 7 : 8"),
        ("a number without a space", "(created):7"),
        ("a number with a plus", "(created): +7"),
        ("a number with zeros", "(expires): 0000000000000000000000009"),
        ("the greatest number", "(expires): 18446744073709551615"),
        ("created twice", "(created): 7\nhost: x\n(created): 8"),
        ("expires twice", "(expires): 9\n(expires): 8"),
        ("an unused second colon", "(request-target): get http://example.org/"),
        ("a target without a value", "(request-target):"),
        ("a number in CR LF", "(created): 7\r\nhost: x"),
        ("letters past ASCII", "caf\u00e9: \u82d7"),
    ):
        build_row(name, small, f"{key},{method},given,build", REQUEST, string, signature=s)
    for name, value in (("no number", "x"), ("an empty number", ""), ("a minus", "-7"), ("two pluses", "++7"), ("a plus alone", "+"), ("one above u64", "18446744073709551616"), ("a space inside", "1 2"), ("other digits", "\u0661"), ("a fraction", "1.5"), ("a colon first", ":7")):
        for part in ("created", "expires"):
            build_row(f"{name}, {part}", small, f"{key},{method},given,build", REQUEST, f"host: x\n({part}): {value}", signature=s)
    build_row("the first bad line of two", small, f"{key},{method},given,build", REQUEST, "(expires): x\n(created): y", signature=s)
    build_row("a bad number before a line without a colon", small, f"{key},{method},given,build", REQUEST, "(expires): x\nhost", signature=s)


def stepped(builder, steps):
    for step in steps.split(","):
        builder.step(step)
    return builder


def print_rows():
    print("\n# Header texts that are printed, and read back: by Python's split, strip and join (scripts/sign_rows.py).")
    for name, text in http_cases.TEXTS:
        try:
            read = http_cases.reading(text)
        except http_cases.Refused:
            continue
        row(name, "print.again", text, shown_again(read))
    usual = 'Signature keyId="k",algorithm="rsa-sha256",created=1,headers="(created) host",signature="AA=="'
    for name, text in (
        ("a usual text", usual),
        ("the same without an algorithm", usual.replace('algorithm="rsa-sha256",', "")),
        ("with the flag and an algorithm", "Signature keyId=k,algorithm=rsa-sha256,headers=host,signature=AAAA"),
        ("with the flag and no algorithm", "Signature keyId=k,headers=host,signature=-_8"),
        ("with the flag and an algorithm of another name", "Signature keyId=k,algorithm=hs2019,headers=host,signature=AAAA"),
        ("with the flag and dates", "Signature keyId=k,created=1,expires=2,headers=(created) (expires) host,signature=AAAA"),
        ("a name that a first letter case changes", usual.replace("host", "Host")),
    ):
        row(name, "print.again", text, shown_again(http_cases.reading(text)))
    for name, call, value in (
        ("a key id with a comma", "key", "a,b"),
        ("a key id with a quote at its end", "key", 'a"'),
        ("a key id with a quote inside", "key", 'a"b'),
        ("a key id with a space in front", "key", " a"),
        ("a key id with a space inside", "key", "a b"),
        ("a key id with an equals sign", "key", "a=b"),
        ("a key id past ASCII", "key", "caf\u00e9 \u82d7"),
        ("an empty key id", "key", ""),
        ("a key id with a comma and an item", "key", 'k",signature="AAAA'),
        ("an algorithm of another name", "custom", "hs2019"),
        ("an algorithm of another name with a comma", "custom", "a,b"),
        ("an algorithm of another name with the name of a known one", "custom", "rsa-sha256"),
        ("an algorithm of another name with the second name of a known one", "custom", "rsa-sha2-256"),
        ("an algorithm of another name, the empty text", "custom", ""),
        ("one name more", "name", "date"),
        ("one name more, in upper case", "name", "DATE"),
        ("one name more, twice", "name", "host"),
        ("one name more, empty", "name", ""),
        ("one name more, with a space", "name", "a b"),
        ("one name more, a special text", "name", "(created)"),
        ("one name more, with a comma", "name", "a,b"),
    ):
        read = http_cases.reading(usual)
        if call == "key":
            read["key"] = value
        elif call == "name":
            read["parts"].append(lower(value))
            read["special"].append(False)
        row(name, "print." + call, word(value.encode()), usual, shown_again(read, value if call == "custom" else None))


def shown_again(read, custom=None):
    """A reading as it is printed, and what that reads back as. A custom algorithm is one whatever its name."""
    known = NAMES.get(read["algorithm"]) if custom is None else None
    name = custom if custom is not None else TOLD[known] if known else read["algorithm"]
    text = printed(read["key"], name, read["created"], read["expires"], read["parts"], read["signature"], read["legacy"])
    return f"{text} {again(text, {**read, 'algorithm': None if name is None else known or 'custom ' + name})}"


# ---- check

COUNT = 7
CHECKED = (("RS256", "RSA"), ("ES256", "P-256"), ("EdDSA", "Ed25519"))


def jose():
    try:
        import joserfc.jwk
        import joserfc.jwt
    except ImportError:
        return None
    warnings.simplefilter("ignore")
    return joserfc


def pem(key):
    return key.private.private_bytes(serialization.Encoding.PEM, serialization.PrivateFormat.PKCS8, serialization.NoEncryption())


def jose_key(library, key, kind):
    return {"RSA": library.jwk.RSAKey, "P-256": library.jwk.ECKey, "Ed25519": library.jwk.OKPKey}[kind].import_key(pem(key))


def accepted(library, token, alg, kind, key, claims):
    """Whether another program accepts the token, and reads these claims."""
    if library:
        try:
            return library.jwt.decode(token, jose_key(library, key, kind), algorithms=[alg]).claims == claims
        except library.errors.JoseError:
            return False
    front, _, back = token.rpartition(".")
    signature = http_cases.strict(back, True)
    if ALGS[alg][1]:
        half = ALGS[alg][1]
        signature = encode_dss_signature(int.from_bytes(signature[:half], "big"), int.from_bytes(signature[half:], "big"))
    told = json.loads(http_cases.strict(front.partition(".")[2], True))
    return told == claims and record().holds(key.private.public_key(), ALGS[alg][0], front.encode(), signature)


def record():
    """The script scripts/record as a module."""
    loader = importlib.machinery.SourceFileLoader("record", os.path.join(HERE, "record"))
    module = importlib.util.module_from_spec(importlib.util.spec_from_loader("record", loader))
    loader.exec_module(module)
    return module


def made_here(program, library, cases):
    """How many of the tokens that the program makes another one accepts."""
    rows = []
    for kid, alg, kind, key, claims in cases:
        message = message_of({"alg": alg, "kid": kid, "typ": "JWT"}, spelled(claims).encode())
        signature = key.sign(ALGS[alg][0], message)
        rows.append(f"{kid}: claims.new {key.pkcs8.hex()} {as_word({'alg': alg, 'kid': kid})} {as_word(claims)} {lines(key.record(ALGS[alg][0], message, signature))}")
    done = subprocess.run([program], input="\n".join(rows) + "\n", stdout=subprocess.PIPE, check=False, text=True)
    tokens = [line.rpartition(" => ")[2] for line in done.stdout.splitlines()]
    good = 0
    for (kid, alg, kind, key, claims), token in zip(cases, tokens):
        if accepted(library, token, alg, kind, key, claims):
            good += 1
        else:
            print(f"  {alg} {kid}: not accepted: {token[:200]}")
    return good


def made_elsewhere(gate, library, cases, now):
    """How many of the tokens that another program makes the gate admits, over their records."""
    module, good = record(), 0
    for kid, alg, kind, key, claims in cases:
        if library:
            token = library.jwt.encode({"alg": alg, "kid": kid}, claims, jose_key(library, key, kind), algorithms=[alg])
        else:
            message = message_of({"alg": alg, "kid": kid, "typ": "JWT"}, json.dumps(claims).encode())
            token = f"{message.decode()}.{url(halves(alg, key.sign(ALGS[alg][0], message)))}"
        with tempfile.TemporaryDirectory() as folder:
            public = key.private.public_key().public_bytes(serialization.Encoding.PEM, serialization.PublicFormat.SubjectPublicKeyInfo)
            words = module.write(folder, module.put(folder, "key.pem", public.decode()), "Bearer " + token, None)
            done = subprocess.run([gate, *words, "--now", str(now)], stdout=subprocess.PIPE, check=False, text=True)
        if done.returncode == 0 and done.stdout == f'admitted "{kid}"\ntoken {alg} {spelled(claims)}\n':
            good += 1
        else:
            print(f"  {alg} {kid}: not admitted, status {done.returncode}: {done.stdout[:200]}")
    return good


def check(program, gate):
    library, now, keys = jose(), int(time.time()), fresh()
    name = "joserfc" if library else "cryptography"
    if not library:
        print("sign_rows: joserfc is skipped, for it isn't there; cryptography stands in its place")
    cases = [
        (f"{kind}-{i}", alg, kind, keys[kind], {"sub": f"user {i} \u00e9", "exp": now + 600 + i, "nbf": now - i, "roles": ["a" * i, i]})
        for alg, kind in CHECKED
        for i in range(COUNT)
    ]
    bad = 0
    for what, path, made in (
        (f"tokens made here that {name} verifies", program, lambda: made_here(program, library, cases)),
        (f"tokens made by {name} that the gate admits", gate, lambda: made_elsewhere(gate, library, cases, now)),
    ):
        if not os.access(path, os.X_OK):
            print(f"{what}: skipped, for there is no program {os.path.relpath(path)}")
            continue
        good = made()
        bad += len(cases) - good
        print(f"{what}: {good} of {len(cases)} ({', '.join(f'{alg} {COUNT}' for alg, _ in CHECKED)})")
    return min(bad, 1)


def main(words):
    if words[:1] == ["check"]:
        crates = os.path.join(HERE, "..", "crates")
        program = words[1] if len(words) > 1 else os.path.join(crates, "sign_rows", "out", "sign_rows")
        gate = words[2] if len(words) > 2 else os.path.join(crates, "gate_program", "out", "gate_program")
        return check(program, gate)
    if words:
        sys.exit(__doc__)
    keys = fresh()
    jws_rows(keys)
    jws_refusals(keys)
    claims_rows(keys)
    build_rows(keys)
    print_rows()
    return 0


if __name__ == "__main__":
    sys.exit(main(sys.argv[1:]))
