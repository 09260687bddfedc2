#!/usr/bin/env python3
"""Prints rows of crates/token_rows over JSON Web Keys, their sets and headers of signed tokens.

- Forms: each member absent, null, a text, a number, a list and an object, at keys of every type; the answer is the rule of RFC 7517, RFC 7518 and
  RFC 8037 that the row's name says. What is written back is python's json of the members that the rule keeps, sorted by name, without white space.
- Headers: each member of RFC 7515 section 4.1 in the same forms; a member without a field is kept as it is.
- Real keys: made by python's `cryptography` for this run and thrown away, test keys that protect nothing. Their JSON Web Keys are of the numbers that
  `cryptography` gives, their SubjectPublicKeyInfo is the one that `cryptography` writes.

Run at the root of the repository: python3 scripts/jwk_cases.py prints the rows from the first `key_in_json` on; with them in crates/token_rows/stdout,
scripts/rows-stdin token_rows makes the questions.
"""
import base64
import json

from cryptography.hazmat.primitives.asymmetric import ec, ed25519, rsa, x25519
from cryptography.hazmat.primitives.serialization import Encoding, PublicFormat

KEPT = {
    "RSA": ["kty", "n", "e"],
    "EC": ["kty", "crv", "x", "y"],
    "OKP": ["kty", "crv", "x"],
    "oct": ["kty"],
}
OPTIONAL = ["alg", "use", "key_ops", "kid", "x5u", "x5c", "x5t", "x5t#S256"]
ALGORITHMS = (
    "HS256 HS384 HS512 RS256 RS384 RS512 ES256 ES384 ES512 PS256 PS384 PS512 EdDSA ED25519 "
    "RSA1_5 RSA-OAEP RSA-OAEP-256 A128KW A192KW A256KW dir ECDH-ES ECDH-ES+A128KW ECDH-ES+A192KW ECDH-ES+A256KW "
    "A128CBC-HS256 A192CBC-HS384 A256CBC-HS512 A128GCM A192GCM A256GCM"
).split()
OPERATIONS = "sign verify encrypt decrypt wrapKey unwrapKey deriveKey deriveBits".split()


def url(data):
    return base64.urlsafe_b64encode(data).rstrip(b"=").decode()


def compact(tree):
    return json.dumps(tree, sort_keys=True, separators=(",", ":"), ensure_ascii=False)


def row(name, call, words, answer):
    print("%s: key_in_json.%s %s => %s" % (name, call, words, answer))


def kept(key):
    """What is written back of a key that is told: the members of its type and the optional ones that aren't null."""
    found = {name: key[name] for name in KEPT[key["kty"]]}
    for name in OPTIONAL:
        if key.get(name) is not None:
            found[name] = key[name]
    if key.get("x5t#s256") is not None:
        found["x5t#S256"] = key["x5t#s256"]
    return found


def told(name, key):
    row(name, "again", compact(key), compact(kept(key)))


def refused(name, text, call="again", answer="Json"):
    row(name, call, text if isinstance(text, str) else compact(text), answer)


X = url(bytes(range(32)))
ED = {"kty": "OKP", "crv": "Ed25519", "x": X}
RSA = {"kty": "RSA", "n": "sA", "e": "AQAB"}
EC = {"kty": "EC", "crv": "P-256", "x": X, "y": X}
OCT = {"kty": "oct"}


def form_rows():
    print("# Which objects are keys (RFC 7517 section 4; RFC 7518 section 6; RFC 8037 section 2).")
    for name, key in [("an Edwards key", ED), ("an RSA key", RSA), ("a key on a curve", EC), ("an octet sequence", OCT)]:
        told(name, key)
        row(name + " in lines", "lines", compact(key), compact(key))
        for member in KEPT[key["kty"]]:
            without = {k: v for k, v in key.items() if k != member}
            refused("%s without %s" % (name, member), without)
            for form, value in [("null", None), ("a number", 5), ("a list", ["RSA"]), ("an object", {}), ("true", True)]:
                refused("%s whose %s is %s" % (name, member, form), {**key, member: value})
    for kty in ["rsa", "ec", "Oct", "okp", "", "RSA "]:
        refused("an unknown type %r" % kty, {**RSA, **EC, "kty": kty})
    for crv in ["P-192", "p-256", "Ed25519", "secp256k1", ""]:
        refused("an unknown curve %r" % crv, {**EC, "crv": crv})
    for crv in ["P-256", "ed25519", ""]:
        refused("an unknown Edwards curve %r" % crv, {**ED, "crv": crv})
    for crv in ["P-384", "P-521"]:
        told("the curve " + crv, {**EC, "crv": crv})
    for crv in ["Ed448", "X25519", "X448"]:
        told("the Edwards curve " + crv, {**ED, "crv": crv})
    told("texts of a key may be anything when it is read", {"kty": "OKP", "crv": "Ed25519", "x": "no base64 \u00fc"})

    print()
    print("# Optional members: null is as good as absent; a text, a name or a list is what its member is.")
    for member in OPTIONAL:
        told("%s that is null" % member, {**ED, member: None})
    for member in ["kid", "x5u", "x5t", "x5t#S256"]:
        told("%s that is a text" % member, {**ED, member: "a text"})
        told("%s that is empty" % member, {**ED, member: ""})
        for form, value in [("a number", 5), ("a list", ["a"]), ("an object", {"a": "b"}), ("false", False), ("a float", 1.5)]:
            refused("%s that is %s" % (member, form), {**ED, member: value})
    told("a kid of other letters", {**ED, "kid": "\u00fc\u20ac\U0001d11e"})
    for value in [["a", "b"], [], [""]]:
        told("x5c of %d texts" % len(value), {**ED, "x5c": value})
    for form, value in [("a text", "a"), ("a number", 5), ("an object", {}), ("a list with a number", ["a", 1]), ("a list with null", ["a", None])]:
        refused("x5c that is %s" % form, {**ED, "x5c": value})
    for operation in OPERATIONS:
        told("key_ops %s" % operation, {**ED, "key_ops": [operation]})
    told("key_ops of all", {**ED, "key_ops": OPERATIONS})
    told("key_ops of none", {**ED, "key_ops": []})
    told("key_ops with one twice", {**ED, "key_ops": ["sign", "sign"]})
    for form, value in [("a text", "sign"), ("a list with an unknown one", ["sign", "Sign"]), ("a list with null", [None]), ("an object", {"sign": 1}), ("a number", 1)]:
        refused("key_ops that is %s" % form, {**ED, "key_ops": value})
    for use in ["sig", "enc"]:
        told("use %s" % use, {**ED, "use": use})
    for form, value in [("an unknown text", "sign"), ("an empty text", ""), ("a list", ["sig"]), ("an object", {"sig": 1}), ("a number", 1)]:
        refused("use that is %s" % form, {**ED, "use": value})
    for algorithm in ALGORITHMS:
        told("alg %s" % algorithm, {**ED, "alg": algorithm})
    for form, value in [("an unknown text", "none"), ("other letters", "rs256"), ("an empty text", ""), ("a list", ["RS256"]), ("an object", {"EdDSA": None}), ("a number", 1)]:
        refused("alg that is %s" % form, {**ED, "alg": value})

    print()
    print("# Two spellings of one member, and members that no key of the type has.")
    told("the second spelling", {**ED, "x5t#s256": "a"})
    told("the second spelling, null", {**ED, "x5t#s256": None})
    refused("the second spelling, a number", {**ED, "x5t#s256": 5})
    for form, first, second in [("two texts", "a", "a"), ("the first null", None, "a"), ("the second null", "a", None), ("both null", None, None)]:
        refused("both spellings, %s" % form, {**ED, "x5t#S256": first, "x5t#s256": second})
    for form, value in [("a text", "a"), ("a number", 5), ("a float", 1.5), ("a list", [1]), ("an object", {"kty": 1}), ("null", None)]:
        told("an unknown member, %s" % form, {**ED, "ext": value})
        told("members of another type, %s" % form, {**RSA, "crv": value, "x": value, "y": value, "k": value})
        told("members of a private key, %s" % form, {**ED, "d": value, "y": value, "n": value})
    told("names in other letters", {**ED, "KID": "a", "Use": "none", "x5T": 5})
    row("a member twice, the last stands", "again", '{"kty":"oct","kid":5,"kid":"b"}', '{"kid":"b","kty":"oct"}')
    refused("a member twice, the last of another form", '{"kty":"oct","kid":"b","kid":5}')
    row("white space", "again", ' { "kty" : "oct" } ', '{"kty":"oct"}')
    row("an escaped name", "again", '{"\\u006bty":"o\\u0063t"}', '{"kty":"oct"}')

    print()
    print("# Texts that have no tree, and trees that are no object; depth is the reader's, at most 127.")
    for form, text in [("a text", '"oct"'), ("a number", "5"), ("null", "null"), ("a list", "[]"), ("a list of a key", '[{"kty":"oct"}]'), ("an empty object", "{}"), ("nothing", ""), ("half an object", '{"kty":"oct"'), ("something behind it", '{"kty":"oct"} x')]:
        refused("a document that is %s" % form, text)
    deep = lambda levels: '{"kty":"oct","deep":%s%s}' % ("[" * (levels - 1), "]" * (levels - 1))
    row("127 levels", "again", deep(127), '{"kty":"oct"}')
    refused("128 levels", deep(128))


def set_rows():
    print()
    print("# Sets (RFC 7517 section 5): one key that isn't told refuses all; other members are ignored.")
    keys = [{**ED, "kid": "a"}, RSA, {**EC, "use": "sig"}, OCT]
    text = compact({"keys": [kept(key) for key in keys]})
    row("a set of every type", "set", compact({"keys": keys}), text)
    row("an empty set", "set", '{"keys":[]}', '{"keys":[]}')
    row("two keys of one name", "set", compact({"keys": [keys[0], keys[0]]}), compact({"keys": [keys[0], keys[0]]}))
    row("an unknown member beside the keys", "set", compact({"keys": [OCT], "ext": {"keys": 5}, "kty": 1.5}), '{"keys":[{"kty":"oct"}]}')
    for form, key in [
        ("an unknown kty", {"kty": "foo"}),
        ("an unknown crv", {**EC, "crv": "secp256k1"}),
        ("an unknown alg", {**OCT, "alg": "none"}),
        ("an unknown use", {**OCT, "use": "both"}),
        ("an unknown operation", {**OCT, "key_ops": ["verify", "derive"]}),
        ("a kid that is a number", {**OCT, "kid": 5}),
        ("no kty", {"kid": "a"}),
    ]:
        refused("a set with %s" % form, {"keys": keys + [key]}, "set")
    for form, value in [("null", None), ("a text", "keys"), ("a number", 5), ("an object", {"kty": "oct"}), ("a list with null", [None]), ("a list with a list", [[OCT]])]:
        refused("keys that are %s" % form, {"keys": value}, "set")
    refused("no keys", "{}", "set")
    refused("a key in place of a set", OCT, "set")
    refused("a list in place of a set", [OCT], "set")


def coordinate(number, curve):
    return url(number.to_bytes((curve.key_size + 7) // 8, "big"))


def number(value):
    return url(value.to_bytes(max(1, (value.bit_length() + 7) // 8), "big"))


def made():
    for bits, exponent in [(1024, 3), (2048, 65537), (4096, 65537)]:
        key = rsa.generate_private_key(exponent, bits).public_key()
        n = key.public_numbers()
        yield "RSA of %d bits" % bits, key, {"kty": "RSA", "n": number(n.n), "e": number(n.e)}
    for name, curve in [("P-256", ec.SECP256R1()), ("P-384", ec.SECP384R1()), ("P-521", ec.SECP521R1())]:
        key = ec.generate_private_key(curve).public_key()
        n = key.public_numbers()
        yield name, key, {"kty": "EC", "crv": name, "x": coordinate(n.x, curve), "y": coordinate(n.y, curve)}
    key = ed25519.Ed25519PrivateKey.generate().public_key()
    yield "Ed25519", key, {"kty": "OKP", "crv": "Ed25519", "x": url(key.public_bytes_raw())}
    key = x25519.X25519PrivateKey.generate().public_key()
    yield "X25519", key, {"kty": "OKP", "crv": "X25519", "x": url(key.public_bytes_raw())}


def spki(key):
    return key.public_bytes(Encoding.DER, PublicFormat.SubjectPublicKeyInfo).hex()


def integer(value):
    body = value.to_bytes(value.bit_length() // 8 + 1, "big")
    return sealed(2, body)


def sealed(tag, body):
    size = len(body)
    length = bytes([size]) if size < 128 else bytes([0x80 + (size.bit_length() + 7) // 8]) + size.to_bytes((size.bit_length() + 7) // 8, "big")
    return bytes([tag]) + length + body


def rsa_der(n, e):
    """The SubjectPublicKeyInfo of numbers that no RSA key has (RFC 8017 appendix A.1)."""
    algorithm = sealed(48, bytes.fromhex("06092a864886f70d010101") + bytes([5, 0]))
    return sealed(48, algorithm + sealed(3, bytes([0]) + sealed(48, integer(n) + integer(e)))).hex()


def key_rows(keys):
    print()
    print("# Real keys, made by python's cryptography: its numbers as JSON Web Keys, and the SubjectPublicKeyInfo that it writes.")
    for name, key, jwk in keys:
        row(name + ", its public key", "der", compact(jwk), spki(key))
        row(name + ", its JSON Web Key", "of", spki(key), compact(jwk))
        told(name + ", read and written", {**jwk, "kid": name, "use": "sig"})
    row("a set of all", "set", compact({"keys": [jwk for _, _, jwk in keys]}), compact({"keys": [jwk for _, _, jwk in keys]}))

    print()
    print("# Numbers with 00 in front, and the point of a curve in another size: the same key, and it is written in one size.")
    _, key, jwk = keys[1]
    padded = url(bytes(3) + base64.urlsafe_b64decode(jwk["n"] + "=="))
    row("a modulus with 00 in front", "der", compact({**jwk, "n": padded}), spki(key))
    for n, e, name in [(0, 3, "a modulus of zero"), (127, 3, "a modulus of seven bits"), (128, 3, "a modulus of eight bits"), (255, 65537, "a modulus of one byte")]:
        row(name, "der", compact({"kty": "RSA", "n": number(n), "e": number(e)}), rsa_der(n, e))
        row(name + ", back", "of", rsa_der(n, e), compact({"kty": "RSA", "n": number(n), "e": number(e)}))
    row("an empty modulus is zero", "der", compact({"kty": "RSA", "n": "", "e": number(3)}), rsa_der(0, 3))
    row("an empty exponent is zero", "der", compact({"kty": "RSA", "n": number(5), "e": ""}), rsa_der(5, 0))
    curve = ec.SECP256R1()
    for value in (1, 255):
        point = "3059301306072a8648ce3d020106082a8648ce3d03010703420004" + value.to_bytes(32, "big").hex() + (2).to_bytes(32, "big").hex()
        short = {"kty": "EC", "crv": "P-256", "x": number(value), "y": number(2)}
        full = {"kty": "EC", "crv": "P-256", "x": coordinate(value, curve), "y": coordinate(2, curve)}
        row("a short coordinate %d" % value, "der", compact(short), point)
        row("a coordinate %d in the size of the field" % value, "of", point, compact(full))
        row("a coordinate %d in a greater size" % value, "der", compact({**full, "x": url(bytes(9) + value.to_bytes(32, "big"))}), point)
    row("no coordinate at all is zero", "der", compact({"kty": "EC", "crv": "P-256", "x": "", "y": ""}), "3059301306072a8648ce3d020106082a8648ce3d03010703420004" + "00" * 64)


def refusal_rows(keys):
    print()
    print("# Keys that are no public key, each refusal by its condition: texts first, then numbers.")
    rsa_key, curve_key, ed_key = keys[1][2], keys[3][2], keys[6][2]
    for name, key, member in [("a modulus", rsa_key, "n"), ("an exponent", rsa_key, "e"), ("a first coordinate", curve_key, "x"), ("a second coordinate", curve_key, "y"), ("the bytes of a key", ed_key, "x")]:
        refused(name + " in standard base64", {**key, member: "+/+/"}, "der", "Base64Decoding")
        refused(name + " with padding", {**key, member: "AQ=="}, "der", "Base64Decoding")
        refused(name + " with stray bits", {**key, member: "AR"}, "der", "Base64Decoding")
        refused(name + " of one symbol", {**key, member: "A"}, "der", "Base64Decoding")
        refused(name + " with a space", {**key, member: "AQ AB"}, "der", "Base64Decoding")
    long = url(b"\1" + bytes(32))
    refused("a first coordinate of 33 bytes", {**curve_key, "x": long}, "der", "InvalidEcPointCoordinates")
    refused("a second coordinate of 33 bytes", {**curve_key, "y": long}, "der", "InvalidEcPointCoordinates")
    refused("a text that isn't base64 behind one that is too long", {**curve_key, "x": long, "y": "A"}, "der", "Base64Decoding")
    told_cause = 'InvalidEdPublicKey { cause: "the key isn\'t 32 bytes" }'
    for size in (0, 31, 33, 57):
        refused("an Edwards key of %d bytes" % size, {**ed_key, "x": url(bytes(size))}, "der", told_cause)
        refused("an X25519 key of %d bytes" % size, {**ed_key, "crv": "X25519", "x": url(bytes(size))}, "der", told_cause)
    for crv, words in [("Ed448", "ed448 algorithm"), ("X448", "x448 algorithm")]:
        refused(crv + ", whose text isn't looked at", {**ed_key, "crv": crv, "x": "A"}, "der", 'UnsupportedAlgorithm { algorithm: "%s" }' % words)
    refused("an octet sequence", OCT, "der", 'UnsupportedAlgorithm { algorithm: "octet sequence" }')
    key = keys[3][1]
    point = key.public_bytes(Encoding.X962, PublicFormat.CompressedPoint).hex()
    row("a compressed point", "of", "3039301306072a8648ce3d020106082a8648ce3d030107032200" + point, 'InvalidEcPublicKey { cause: "the point isn\'t uncompressed" }')
    other = ec.generate_private_key(ec.SECP256K1()).public_key()
    row("a curve that isn't known here", "of", spki(other), 'UnsupportedAlgorithm { algorithm: "Unsupported EC curve" }')


HEADER = {"alg": "EdDSA"}
HEADER_TEXTS = ["jku", "typ", "cty", "kid", "x5u", "x5t", "x5t#S256"]
REGISTERED = ["alg", "jku", "jwk", "typ", "cty", "kid", "x5u", "x5c", "x5t", "x5t#S256", "x5t#s256"]
SIGNATURES = ALGORITHMS[:14]


def header_row(name, call, words, answer):
    print("%s: header_in_json.%s %s => %s" % (name, call, words, answer))


def header_kept(header):
    """What is written back of a header that is told: fields that aren't null, and all other members as they are."""
    found = {name: value for name, value in header.items() if name not in REGISTERED}
    for name in REGISTERED[:-1]:
        if header.get(name) is not None:
            found[name] = header[name]
    if header.get("jwk") is not None:
        found["jwk"] = kept(header["jwk"])
    if header.get("x5t#s256") is not None:
        found["x5t#S256"] = header["x5t#s256"]
    return found


def header_told(name, header):
    header_row(name, "again", compact(header), compact(header_kept(header)))


def header_refused(name, header):
    header_row(name, "again", header if isinstance(header, str) else compact(header), "NotOfForm")


def header_form_rows():
    print()
    print("# Headers of signed tokens (RFC 7515 section 4.1): `alg` has to be there, and names an algorithm of signatures.")
    for algorithm in SIGNATURES:
        header_told("a header of %s" % algorithm, {"alg": algorithm})
    header_refused("a header without alg", {"kid": "a"})
    for form, value in [("null", None), ("a number", 5), ("a list", ["EdDSA"]), ("an object", {"EdDSA": None}), ("true", True), ("none", "none"), ("an empty text", ""), ("in other letters", "eddsa"), ("of content encryption", "A128GCM"), ("of key wrapping", "dir")]:
        header_refused("a header whose alg is %s" % form, {"alg": value})

    print()
    print("# Optional members of headers: null is as good as absent, and isn't written back.")
    for member in HEADER_TEXTS + ["jwk", "x5c", "x5t#s256"]:
        header_told("a header whose %s is null" % member, {**HEADER, member: None})
    for member in HEADER_TEXTS + ["x5t#s256"]:
        header_told("a header whose %s is a text" % member, {**HEADER, member: "a text \u00fc"})
        header_told("a header whose %s is empty" % member, {**HEADER, member: ""})
        for form, value in [("a number", 5), ("a list", ["a"]), ("an object", {"a": "b"}), ("false", False)]:
            header_refused("a header whose %s is %s" % (member, form), {**HEADER, member: value})
    for value in [["a", "b"], [], [""]]:
        header_told("a header whose x5c has %d texts" % len(value), {**HEADER, "x5c": value})
    for form, value in [("a text", "a"), ("a number", 5), ("an object", {}), ("a list with a number", ["a", 1]), ("a list with null", ["a", None]), ("a list of lists", [["a"]])]:
        header_refused("a header whose x5c is %s" % form, {**HEADER, "x5c": value})
    for name, key in [("an Edwards key", ED), ("an RSA key", RSA), ("a key on a curve", EC), ("an octet sequence", OCT), ("a key with all members", {**ED, "kid": "a", "use": "sig", "alg": "EdDSA", "key_ops": ["verify"], "x5c": ["b"], "x5t#s256": "c"}), ("a key with an unknown member", {**OCT, "ext": [1]})]:
        header_told("a header whose jwk is %s" % name, {**HEADER, "jwk": key})
    for form, value in [("a text", "oct"), ("a number", 5), ("a list of a key", [OCT]), ("an object", {}), ("a key with an unknown kty", {"kty": "foo"}), ("a key without x", {"kty": "OKP", "crv": "Ed25519"}), ("a key whose kid is a number", {**OCT, "kid": 5}), ("a set of keys", {"keys": [OCT]})]:
        header_refused("a header whose jwk is %s" % form, {**HEADER, "jwk": value})


def header_name_rows():
    print()
    print("# Two spellings of one member of headers, and members without a field, which are kept as they are.")
    for form, first, second in [("two texts", "a", "a"), ("the first null", None, "a"), ("the second null", "a", None), ("both null", None, None)]:
        header_refused("a header with both spellings, %s" % form, {**HEADER, "x5t#S256": first, "x5t#s256": second})
    for form, value in [("a text", "a"), ("null", None), ("a number", 5), ("false", False), ("a list", [None, {"a": []}]), ("an object", {"alg": 1, "kid": None})]:
        header_told("an additional member, %s" % form, {**HEADER, "ext": value})
    header_told("critical members", {**HEADER, "crit": ["exp"], "exp": 5})
    header_told("names in other letters", {**HEADER, "ALG": 1, "Kid": [], "X5T": None, "x5t#S257": 2, "": 3})
    everything = {**{member: member for member in HEADER_TEXTS}, **HEADER, "jwk": ED, "x5c": ["a"], "b": 1, "a": [2]}
    header_told("a header with all members", everything)
    header_row("no additional members", "names", compact({name: value for name, value in everything.items() if name in REGISTERED}), "-")
    header_row("additional members in the tree's order", "names", '{"b":1,"alg":"EdDSA","\u00fc":0,"aa":2,"B":3,"a":4,"kid":"k"}', "B a aa b \u00fc")
    header_row("a second spelling isn't additional", "names", compact({**HEADER, "x5t#s256": "a", "ext": 1}), "ext")
    header_row("a null member with a field isn't additional", "names", compact({**HEADER, "kid": None, "jwk": None, "ext": None}), "ext")
    header_row("a member of a header twice, the last stands", "again", '{"alg":"none","kid":5,"alg":"EdDSA","kid":"b"}', '{"alg":"EdDSA","kid":"b"}')
    header_row("an additional member twice, the last stands", "again", '{"ext":1,"alg":"EdDSA","ext":2}', '{"alg":"EdDSA","ext":2}')
    header_row("an escaped name of a header", "again", '{"\\u0061lg":"EdDSA"}', '{"alg":"EdDSA"}')
    for form, text in [("a text", '"EdDSA"'), ("null", "null"), ("a list of a header", '[{"alg":"EdDSA"}]'), ("an empty object", "{}"), ("nothing", "")]:
        header_refused("a header that is %s" % form, text)

    print()
    print("# Headers that are written: no additional member has a field's name, and none nests deeper than 127.")
    header_row("a new header", "new", "JWT", '{"alg":"EdDSA","cty":"JWT"}')
    for member in REGISTERED:
        header_row("an additional member %s" % member, "beside", member + " null", "NotOfForm")
    for member in ["ext", "Alg", "x5t#", "crit", "enc"]:
        header_row("an additional member %s" % member, "beside", member + " [1]", compact({**HEADER, member: [1]}))
    deep = lambda levels: "[" * levels + "]" * levels
    header_row("a header of 127 levels", "beside", "ext " + deep(126), '{"alg":"EdDSA","ext":%s}' % deep(126))
    header_row("a header of 128 levels", "beside", "ext " + deep(127), "NotOfForm")

    print()
    print("# Equality of headers: all fields, and the additional members in any order.")
    first = compact({**everything, "jwk": RSA})
    in_reverse = json.dumps(dict(reversed(json.loads(first).items())), separators=(",", ":"), ensure_ascii=False)
    for form, other, answer in [("itself", first, "true"), ("the order of members", in_reverse, "true"), ("another kid", compact({**everything, "jwk": RSA, "kid": "other"}), "false"), ("another key", compact(everything), "false"), ("another additional member", compact({**everything, "jwk": RSA, "a": [3]}), "false"), ("one additional member more", compact({**everything, "jwk": RSA, "c": None}), "false")]:
        header_row("headers that differ in %s" % form if answer == "false" else "a header and %s" % form, "equal", "%s %s" % (first, other), answer)


def main():
    keys = list(made())
    form_rows()
    set_rows()
    key_rows(keys)
    refusal_rows(keys)
    header_form_rows()
    header_name_rows()


main()
