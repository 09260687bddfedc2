#!/usr/bin/env python3
"""Prints rows of `token_rows` that Python makes: JSON by its json, bytes by its base64, dates by its integers, pairs of numbers in
DER by its cryptography.

Each row stands in crates/token_rows/stdout.
"""
import base64
import json

from cryptography.hazmat.primitives.asymmetric.utils import encode_dss_signature

DEEPEST = 127


class Float:
    """A number that is held as a float."""


def integer(text):
    value = int(text)
    return value if text != "-0" and -(2**63) <= value < 2**64 else Float()


def number(text):
    if float(text) in (float("inf"), float("-inf")):
        raise ValueError("the number is too great")
    return Float()


def has_float(tree):
    if isinstance(tree, dict):
        return any(map(has_float, tree.values()))
    if isinstance(tree, list):
        return any(map(has_float, tree))
    return isinstance(tree, Float)


def compact(text):
    try:
        tree = json.loads(text, parse_int=integer, parse_float=number)
        if has_float(tree):
            return "float"
        spelled = json.dumps(tree, sort_keys=True, separators=(",", ":"), ensure_ascii=False)
        spelled.encode()
        return spelled
    except ValueError:
        return "none"


def json_rows():
    print("# JSON: compact texts by Python's json, with the bounds of 64 bits")
    for name, text in [
        ("an object", '{"exp":100}'),
        ("white space and the order of names", ' { "b" : [ ] , "a" : "\\u00e9" }'),
        ("the greatest i64", "9223372036854775807"),
        ("one above the greatest i64", "9223372036854775808"),
        ("the greatest u64", "18446744073709551615"),
        ("one above the greatest u64", "18446744073709551616"),
        ("the least i64", "-9223372036854775808"),
        ("one below the least i64", "-9223372036854775809"),
        ("zero with a sign", "-0"),
        ("a float inside", '[1,{"a":[1.5]}]'),
        ("a float that a later member hides", '{"a":1.5,"a":1}'),
        ("a number above all floats", "1e999"),
        ("a comma too many", '{"a":1,}'),
        ("no text", ""),
        ("half a surrogate pair", '"\\ud800"'),
    ]:
        asked = f"{name}: json.compact {text}".rstrip()
        print(f"{asked} => {compact(text)}")
    for depth in [1, DEEPEST, DEEPEST + 1, 1000]:
        print(f"lists nested {depth} deep: json.nested {depth} => {'tree' if depth <= DEEPEST else 'none'}")
    text = 'a"b\\\n\u00e9'
    row = text.replace("\\", "\\\\").replace("\n", "\\n")
    print(f"a text with what is escaped: json.quote {row} => {json.dumps(text, ensure_ascii=False)}")


def part_rows():
    print("# The parts of the token of RFC 7515, appendix A.1, by Python's base64")
    for name, text in [
        ("the header", "eyJ0eXAiOiJKV1QiLA0KICJhbGciOiJIUzI1NiJ9"),
        (
            "the payload",
            "eyJpc3MiOiJqb2UiLA0KICJleHAiOjEzMDA4MTkzODAsDQogImh0dHA6Ly9leGFtcGxlLmNvbS9pc19yb290Ijp0cnVlfQ",
        ),
        ("the signature", "dBjftJeZ4CVP-mB92K27uhbUJU1p1r_wW1gFWFOEjXk"),
    ]:
        read = base64.urlsafe_b64decode(text + "=" * (-len(text) % 4))
        print(f"{name} of appendix A.1: base64.decode url {text} => {read.hex()}")


GREATEST = 2**63 - 1
LEAST = -(2**63)


def validated(claims, now, leeway):
    """What `validate` answers of claims with the one date `nbf` or `exp`, in whole numbers."""
    date = f"JwtDate {{ numeric_date: {now}, leeway: {leeway} }}"
    [(claim, at)] = json.loads(claims).items()
    if not (isinstance(at, int) and LEAST <= at <= GREATEST):
        return f'InvalidRegisteredClaimType {{ claim: "{claim}" }}'
    if claim == "nbf" and now < at - leeway:
        return f"NotYetValid {{ not_before: {at}, now: {date} }}"
    if claim == "exp" and now >= at + leeway:
        return f"Expired {{ not_after: {at}, now: {date} }}"
    return "Ok"


def claims_rows():
    print("# Claims with a date: inequalities of Python's integers")
    for name, claims, now, leeway in [
        ("a second before the end", '{"exp":100}', 99, 0),
        ("the end", '{"exp":100}', 100, 0),
        ("the end with a leeway", '{"exp":100}', 100, 1),
        ("a second before the start", '{"nbf":100}', 99, 0),
        ("a second before the start, with a leeway", '{"nbf":100}', 99, 1),
        ("the greatest end, then", '{"exp":9223372036854775807}', GREATEST, 0),
        ("the greatest end, then, with the greatest leeway", '{"exp":9223372036854775807}', GREATEST, 65535),
        ("the greatest end, a second before", '{"exp":9223372036854775807}', GREATEST - 1, 0),
        ("the least end, then", '{"exp":-9223372036854775808}', LEAST, 0),
        ("the least end, then, with the greatest leeway", '{"exp":-9223372036854775808}', LEAST, 65535),
        ("the least end, the greatest leeway later", '{"exp":-9223372036854775808}', LEAST + 65535, 65535),
        ("the least end, a second before", '{"exp":-9223372036854775808}', LEAST + 65534, 65535),
        ("the greatest start, then", '{"nbf":9223372036854775807}', GREATEST, 0),
        ("the greatest start, a second before", '{"nbf":9223372036854775807}', GREATEST - 1, 0),
        ("the greatest start, the greatest leeway before", '{"nbf":9223372036854775807}', GREATEST - 65535, 65535),
        ("the greatest start, a second more before", '{"nbf":9223372036854775807}', GREATEST - 65536, 65535),
        ("the least start, then", '{"nbf":-9223372036854775808}', LEAST, 0),
        ("the least start, then, with the greatest leeway", '{"nbf":-9223372036854775808}', LEAST, 65535),
        ("an end that is no number", '{"exp":null}', 1, 0),
        ("an end one above the greatest i64", '{"exp":9223372036854775808}', 1, 0),
    ]:
        print(f"{name}: jwt.validate {now} {leeway} {claims} => {validated(claims, now, leeway)}")


NOW = 100
CHECKS = {"none": "ignored", "lenient": "optional", "strict": "required"}


def checked(claim, check, claims):
    """What a date of the claims is refused as at NOW, without leeway; None where it isn't refused."""
    date = f"JwtDate {{ numeric_date: {NOW}, leeway: 0 }}"
    if check == "ignored":
        return None
    if claim not in claims:
        return f'RequiredClaimMissing {{ claim: "{claim}" }}' if check == "required" else None
    at = claims[claim]
    if isinstance(at, bool) or not isinstance(at, int) or not LEAST <= at <= GREATEST:
        return f'InvalidRegisteredClaimType {{ claim: "{claim}" }}'
    if claim == "nbf" and NOW < at:
        return f"NotYetValid {{ not_before: {at}, now: {date} }}"
    if claim == "exp" and NOW >= at:
        return f"Expired {{ not_after: {at}, now: {date} }}"
    return None


def validated_by(checks, text):
    """What `validate` answers by a validator at NOW: `nbf`, then `exp`; floats before both."""
    claims = json.loads(text, parse_int=integer, parse_float=number)
    if has_float(claims):
        return "Float"
    check = CHECKS[checks]
    return checked("nbf", check, claims) or checked("exp", check, claims) or "Ok"


def forms_rows():
    print("# Forms of nbf and exp at 100, under each validator, by Python's json and integers; the other date, where it stands, meets 100")
    for claim, other in [("nbf", '"exp":101'), ("exp", '"nbf":100')]:
        for name, form in [
            ("absent", None),
            ("null", "null"),
            ("true", "true"),
            ("a text", '"100"'),
            ("an empty text", '""'),
            ("a list", "[100]"),
            ("an object", '{"nbf":100}'),
            ("the moment", "100"),
            ("a second before the moment", "99"),
            ("a second after the moment", "101"),
            ("zero", "0"),
            ("zero with a sign", "-0"),
            ("the greatest i64", "9223372036854775807"),
            ("one above the greatest i64", "9223372036854775808"),
            ("the greatest u64", "18446744073709551615"),
            ("one above the greatest u64", "18446744073709551616"),
            ("the least i64", "-9223372036854775808"),
            ("one below the least i64", "-9223372036854775809"),
            ("a fraction", "100.5"),
            ("an integer with a fraction", "100.0"),
            ("an integer with an exponent", "1e2"),
        ]:
            text = "{" + other + "}" if form is None else f'{{"{claim}":{form},{other}}}'
            for checks in CHECKS:
                print(f"{claim} that is {name}, {checks}: jwt.validate_by {checks} {text} => {validated_by(checks, text)}")


def date_rows():
    print("# Dates: inequalities of Python's integers")
    now, leeway = 100, 10
    for call, holds, others in [
        ("is_before", lambda other: now <= other + leeway, [90, 89]),
        ("is_before_strict", lambda other: now < other + leeway, [90, 91]),
        ("is_after", lambda other: now >= other - leeway, [110, 111]),
        ("is_after_strict", lambda other: now > other - leeway, [109, 110]),
    ]:
        for other in others:
            name = f"{now} {call.replace('_', ' ')} {other} with a leeway of {leeway}"
            print(f"{name}: date.{call} {now} {leeway} {other} => {str(holds(other)).lower()}")


def url(some):
    return base64.urlsafe_b64encode(some).rstrip(b"=").decode()


def header_rows():
    print("# Headers that are read, whatever checks their signatures: RFC 7515, sections 4.1 and 7.1, in base64url by Python's base64")
    names = "HS256 HS384 HS512 RS256 RS384 RS512 ES256 ES384 ES512 PS256 PS384 PS512 EdDSA ED25519"
    for alg in names.split():
        text = f"{url(json.dumps({'alg': alg}).encode())}.e30.AAAA"
        print(f"a header of {alg}: jws.alg {text} => {alg}")
        print(f"a header of {alg} without a name: jws.kid {text} => none")
    for name, header, kid in [
        ("a usual RSA header", '{"typ":"JWT","alg":"RS256","kid":"my-rsa-key"}', "my-rsa-key"),
        ("an HMAC header with a name", '{"kid":"h","alg":"HS512"}', "h"),
        ("a name that is null", '{"alg":"RS256","kid":null}', "none"),
        ("white space in a header", ' { "alg" : "RS256" , "kid" : "k" } ', "k"),
        ("members without a field", '{"alg":"RS256","kid":"k","crit":["b64"],"b64":false,"n":[{"n":0}]}', "k"),
        ("a repeated name", '{"alg":"RS256","kid":"a","kid":"b"}', "b"),
        ("a repeated algorithm", '{"alg":5,"alg":"RS256","kid":"a"}', "a"),
        ("the signer's key", '{"alg":"RS256","kid":"k","jwk":{"kty":"RSA","n":"AQAB","e":"AQAB"}}', "k"),
        ("a thumbprint in its second spelling", '{"alg":"RS256","kid":"k","x5t#s256":"AA"}', "k"),
        ("an algorithm that nobody knows", '{"alg":"none"}', "Json"),
        ("an algorithm in other letters", '{"alg":"rs256"}', "Json"),
        ("an algorithm that is null", '{"alg":null}', "Json"),
        ("an algorithm that is a list", '{"alg":["RS256"]}', "Json"),
        ("no algorithm", '{"kid":"k"}', "Json"),
        ("a name that is a number", '{"alg":"RS256","kid":5}', "Json"),
        ("both spellings of a thumbprint", '{"alg":"RS256","x5t#S256":"AA","x5t#s256":"AA"}', "Json"),
        ("a signer's key that is none", '{"alg":"RS256","jwk":{}}', "Json"),
        ("a list in place of a header", '["RS256"]', "Json"),
        ("a float among other members", '{"alg":"RS256","n":1.5}', "Float"),
        ("a float where there is no header", '{"alg":1.5}', "Float"),
        ("no header", "", "InvalidEncoding"),
    ]:
        text = f"{url(header.encode())}.e30.AAAA"
        answer = f'InvalidEncoding {{ input: "{text}" }}' if kid == "InvalidEncoding" else kid
        print(f"{name}: jws.kid {text} => {answer}")


SIGNED = url(b'{"alg":"ES256","kid":"e"}') + "." + url(b'{"exp":100}')


def pair_rows():
    print("# ECDSA signatures: the DER of their pairs by Python's cryptography")
    low, high = 1, 2**256 - 1
    for name, alg, r, s, size, more in [
        ("a pair with a sign byte", "ES256", 1, 0x80, 32, b""),
        ("a pair of the greatest numbers of 32 bytes", "ES256", high, high, 32, b""),
        ("a pair with zero", "ES256", 0, low, 32, b""),
    ]:
        pair = encode_dss_signature(r, s)
        halves = r.to_bytes(size, "big") + s.to_bytes(size, "big")
        print(f"{name}: jws.verify_p256 {alg} {SIGNED}.{url(halves)} {pair.hex()} => Ok")
    pair = encode_dss_signature(1, 0x80)
    halves = (1).to_bytes(32, "big") + (0x80).to_bytes(32, "big")
    swapped = halves[32:] + halves[:32]
    bad = "Signature { source: BadSignature }"
    for name, alg, text, answer in [
        ("a pair whose numbers are exchanged", "ES256", f"{SIGNED}.{url(swapped)}", bad),
        ("a pair under another hash", "ES384", f"{SIGNED}.{url(bytes(16) + halves[:32] + bytes(16) + halves[32:])}", bad),
        ("a pair asked as it stands", "EdDSA", f"{SIGNED}.{url(halves)}", bad),
        ("its DER in place of the halves", "ES256", f"{SIGNED}.{url(pair)}", size_answer(64, len(pair))),
        ("63 bytes", "ES256", f"{SIGNED}.{url(halves[:63])}", size_answer(64, 63)),
        ("65 bytes", "ES256", f"{SIGNED}.{url(halves + bytes(1))}", size_answer(64, 65)),
        ("64 bytes of P-384", "ES384", f"{SIGNED}.{url(halves)}", size_answer(96, 64)),
        ("64 bytes of P-521", "ES512", f"{SIGNED}.{url(halves)}", size_answer(132, 64)),
    ]:
        print(f"{name}: jws.verify_p256 {alg} {text} {pair.hex()} => {answer}")


def size_answer(expected, got):
    return f"Signature {{ source: Ec {{ expected: {expected}, got: {got} }} }}"


json_rows()
print()
part_rows()
print()
header_rows()
print()
claims_rows()
print()
forms_rows()
print()
date_rows()
print()
pair_rows()
