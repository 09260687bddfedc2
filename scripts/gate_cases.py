#!/usr/bin/env python3
"""Prints the rows of `gate_rows`: its tokens by Python's base64, signing strings joined from their lines, digests of files by hashlib, and the
texts that seeds make with the words of ChaCha20 of Python's `cryptography`.

The first lines name the texts in base64url that rows and documents are made of. With `--documents` it writes the
documents that rows name into crates/gate_rows/data.
"""
import base64
import hashlib
import json
import pathlib
import sys

from cryptography.hazmat.primitives.ciphers import Cipher, algorithms

DATA = pathlib.Path(__file__).resolve().parent.parent / "crates/gate_rows/data"


def spell(text):
    return base64.urlsafe_b64encode(text.encode()).rstrip(b"=").decode()


def token(header, claims="EXP", signature="AAAA"):
    return ".".join([TEXTS[header][1], TEXTS[claims][1], signature])


TEXTS = {
    name: (text, spell(text))
    for name, text in [
        ("K1", '{"alg":"EdDSA","kid":"k1"}'),
        ("K1_NAMED", '{"alg":"ED25519","kid":"k1"}'),
        ("K1_SECOND", '{"typ":"JWT","kid":"k1","alg":"EdDSA","cty":null,"x5c":["AA=="],"jwk":{"kty":"oct"},"n":[1]}'),
        ("K1_SPACE", '{"alg": "EdDSA","kid":"k1"}'),
        ("K2", '{"alg":"EdDSA","kid":"k2"}'),
        ("NO_KID", '{"alg":"EdDSA"}'),
        ("HS256", '{"alg":"HS256","kid":"k1"}'),
        ("NONE", '{"alg":"none","kid":"k1"}'),
        ("K1_FLOAT", '{"alg":"EdDSA","kid":"k1","v":1.5}'),
        ("NO_ALG_FLOAT", '{"kid":"k1","v":1.5}'),
        ("RSA", '{"typ":"JWT","alg":"RS256","kid":"my-rsa-key"}'),
        ("RSA_512", '{"alg":"RS512","kid":"my-rsa-key"}'),
        ("RSA_ES", '{"alg":"ES256","kid":"my-rsa-key"}'),
        ("E256", '{"alg":"ES256","kid":"e"}'),
        ("E384", '{"alg":"ES384","kid":"e"}'),
        ("E512", '{"alg":"ES512","kid":"e"}'),
        ("F384", '{"alg":"ES384","kid":"f"}'),
        ("EXP", '{"exp":100}'),
        ("NO_EXP", "{}"),
        ("NBF", '{"exp":100,"nbf":1}'),
        ("FLOAT", '{"exp":100,"x":1.5}'),
        ("NULL_END", '{"exp":null}'),
        ("NULL_START", '{"nbf":null,"exp":null}'),
        ("TEXT_END", '{"exp":"100"}'),
        ("WIDE_END", '{"exp":9223372036854775808}'),
        ("LAST_END", '{"exp":9223372036854775807}'),
        ("LATE", '{"exp":100,"nbf":99}'),
        ("LIST", "[]"),
        (
            "USUAL",
            '{"iss":"https://id.example","sub":"42","aud":"api","iat":1700000000,"nbf":1700000000,"exp":1700003600,"scope":"read write"}',
        ),
    ]
}
TEXTS["NOTHING"] = ("", "")
TEXTS["NO_JSON"] = ("abc", spell("abc"))
SPKI = "MCowBQYDK2VwAyEA" + "A" * 43
PKCS8 = "MC4CAQAwBQYDK2VwBCIEI" + "A" * 43
RSA = "MB4wDQYJKoZIhvcNAQEBBQADDQAwCgIDAQABAgMBAAE"
A43 = "A" * 43
KEY = '{"kty":"OKP","crv":"Ed25519","x":"%s","kid":"k1"}' % A43
RSA_KEY = '{"kty":"RSA","n":"AQAB","e":"AQAB","kid":"my-rsa-key"}'


def spki(oid, point):
    """A SubjectPublicKeyInfo (RFC 5480, section 2) of a curve's identifier and an uncompressed point, each in hex."""

    def der(tag, contents):
        return bytes([tag, len(contents)]) + contents if len(contents) < 128 else bytes([tag, 129, len(contents)]) + contents

    algorithm = der(6, bytes.fromhex("2a8648ce3d0201")) + der(6, bytes.fromhex(oid))
    key = der(48, der(48, algorithm) + der(3, b"\0" + point))
    return base64.urlsafe_b64encode(key).rstrip(b"=").decode()


P256 = spki("2a8648ce3d030107", b"\4" + bytes(64))
P384 = spki("2b81040022", b"\4" + bytes(96))


def fixed(size, r, s):
    """A signature of two numbers, as a token holds it (RFC 7518, section 3.4)."""
    octets = r.to_bytes(size, "big") + s.to_bytes(size, "big")
    return base64.urlsafe_b64encode(octets).rstrip(b"=").decode()


# the DER of the pair of 1 and 128
PAIR = base64.urlsafe_b64encode(bytes.fromhex("3007020101" + "02020080")).rstrip(b"=").decode()


def jwk(**members):
    """The text of a key; the name of a member with a dash is spelled with an underscore, and `use` ends in one."""
    names = {"x5t_S256": "x5t#S256", "x5t_s256": "x5t#s256", "use_": "use"}
    return json.dumps({names.get(name, name): value for name, value in members.items()}, separators=(",", ":"))


def jwks(*keys):
    return '{"keys":[%s]}' % ",".join(keys)


def ed(**members):
    return jwk(**{"kty": "OKP", "crv": "Ed25519", "x": A43, "kid": "k1", **members})


def p256(**members):
    return jwk(**{"kty": "EC", "crv": "P-256", "x": A43, "y": A43, "kid": "e", **members})


# keys that are skipped, whose texts no key is read of
SKIPPED = [
    jwk(kty="OKP", crv="Ed25519", x="!"),
    ed(x="!", use_="enc"),
    jwk(kty="oct", kid="k1", k="!"),
    ed(crv="X25519", x="!"),
    ed(crv="Ed448", x="!"),
    ed(crv="X448", x="!"),
    ed(x="!", alg="HS256"),
    ed(x="!", alg="PS512"),
    ed(x="!", alg="A128GCM"),
    ed(x="!", alg="RSA-OAEP"),
]
FULL = {"use_": "sig", "key_ops": ["verify"], "x5u": "u", "x5c": ["AA=="], "x5t": "t", "x5t_S256": "s", "other": [1.5, None]}
NULLS = {"alg": None, "use_": None, "key_ops": None, "x5u": None, "x5c": None, "x5t": None, "x5t_S256": None}


def record(message):
    return f"sig ed25519-sha512 {SPKI} {spell(message)} AAAA\n"


def signed(header, claims):
    return token(header, claims).rsplit(".", 1)[0]


def records_of(algorithm, key, *signed_tokens):
    """Lines for tokens: the text before the last dot, and what is asked of the signature after it."""
    return "".join(f"sig {algorithm} {key} {spell(text.rsplit('.', 1)[0])} {asked}\n" for text, asked in signed_tokens)


def sign_record(message, signature="-_8"):
    return f"sig ed25519-sha512 {SPKI} {spell(message)} {signature}\n"


def lines(*texts):
    return "\n".join(texts)


def head(*fields, target="/foo"):
    return "\r\n".join([f"GET {target} HTTP/1.1", "Host: example.org", *fields, "", ""])


DATE = "Tue, 07 Jun 2014 20:51:35 GMT"
FIELDS = [
    f"Date: {DATE}",
    "X-Example:  Example header       with some whitespace.   ",
    "X-EmptyHeader:",
    "Cache-Control: max-age=60",
    "Cache-Control: must-revalidate",
]
THREE = ["(request-target): get /foo", "(created): 1402170695", f"date: {DATE}"]

DOCUMENTS = {
    "head": head(*FIELDS),
    "head-query": head(*FIELDS, target="/foo?q=1"),
    "head-no-date": head(*FIELDS[1:]),
    "head-e9": head(*FIELDS).encode()[:-2] + b"X-Latin: caf\xe9\r\n\r\n",
    "head-cut": "GET",
    "signed": "".join(
        [
            sign_record(lines(*THREE)),
            sign_record(
                lines(
                    *THREE[:2],
                    "host: example.org",
                    THREE[2],
                    "cache-control: max-age=60, must-revalidate",
                    "x-emptyheader:",
                    "x-example: Example header       with some whitespace.",
                )
            ),
            sign_record(":", "AAAA"),
            sign_record("(created): 7", "AAAA"),
            sign_record("(created): 18446744073709551615", "AAAA"),
            sign_record(lines(*THREE[:2]), "AAAA"),
            sign_record(f"host: example.org\r\ndate: {DATE}", "AAAA"),
        ]
    ),
    "keys": '{"keys":[%s]}' % KEY,
    "no-keys": '{"keys":[]}',
    "object": "{}",
    "rsa": jwks(RSA_KEY),
    "curves": jwks(p256(alg="ES256"), p256(kid="f", crv="P-384", x="A" * 64, y="A" * 64)),
    "curve-512": jwks(p256(alg="ES512")),
    "all-members": jwks(
        jwk(kty="RSA", n="AQAB", e="AQAB", kid="my-rsa-key", alg="RS256", **FULL), p256(alg="ES256", **FULL), ed(alg="EdDSA", **FULL)
    ),
    "all-null": jwks(ed(**NULLS)),
    "skipped": jwks(*SKIPPED, KEY),
    "skipped-only": jwks(*SKIPPED),
    "skipped-unknown": jwks(KEY, ed(use_="enc", alg="none")),
    "no-base64": jwks(ed(x="AAB")),
    "short": jwks(ed(x="AAAA")),
    "wide": jwks(p256(x=spell("x" * 33))),
    "of-rsa": jwks(ed(alg="RS256")),
    "of-x5t-twice": jwks(ed(x5t_S256=None, x5t_s256="s")),
    "kid-number": jwks(ed(kid=1)),
    "no-base64-of-rsa": jwks(ed(x="!", alg="RS256")),
    "twice-of-rsa": jwks(KEY, ed(alg="RS256")),
    "twice-then-no-base64": jwks(KEY, KEY, ed(x="!")),
    "no-base64-then-twice": jwks(ed(x="!", kid="k2"), KEY, KEY),
    "twice-skipped": jwks(KEY, ed(use_="enc")),
    "deep": '{"keys":[%s],"a":%s%s}' % (KEY, "[" * 127, "]" * 127),
    "twice": '{"keys":[%s,%s]}' % (KEY, KEY),
    "records": record(signed("K1", "EXP")),
    "other-message": record(signed("K1", "EXP")[:-1] + "1"),
    "more": "".join(
        record(signed(header, claims))
        for header, claims in [("K1_SPACE", "EXP"), ("K1", "NO_EXP"), ("K1", "NBF"), ("K1", "FLOAT")]
    ),
    "claims": "".join(
        record(signed("K1", claims))
        for claims in ["NULL_END", "NULL_START", "TEXT_END", "WIDE_END", "LAST_END", "LATE", "LIST", "NO_JSON", "NOTHING"]
    ),
    "headers": "".join(record(signed(header, "EXP")) for header in ["K1_NAMED", "K1_SECOND", "HS256", "NO_KID"]),
    "of-rsa-key": records_of("rsa-sha256", RSA, (token("RSA", "USUAL"), "AAAA"), (token("RSA_ES"), PAIR))
    + records_of("rsa-sha512", RSA, (token("RSA_512"), "AAAA"))
    + f"sig rsa-sha256 {RSA} {spell(lines(*THREE))} -_8\n",
    "of-curves": records_of("ecdsa-sha256", P256, (token("E256"), PAIR))
    + records_of("ecdsa-sha384", P256, (token("E384"), PAIR))
    + records_of("ecdsa-sha512", P256, (token("E512"), PAIR))
    + records_of("ecdsa-sha384", P384, (token("F384"), PAIR)),
    "word": "x\n",
    "mixed": f"sig rsa-sha256 {RSA} AAAA AAAA\npair {PKCS8} {SPKI}\n" + record(signed("K1", "EXP")),
    "second-word": record(signed("K1", "EXP")) + "x\nx\n",
    "no-end": record(signed("K1", "EXP"))[:-1],
    "family": f"sig rsa-sha256 {SPKI} AAAA AAAA\n",
    "conflict": f"pair {PKCS8} {SPKI}\npair {PKCS8} {SPKI[:-1]}E\n",
    "same-pair": f"pair {PKCS8} {SPKI}\n" * 2 + record(signed("K1", "EXP")),
    "latin": b"\xe9",
    "five": "five5",
    "empty": "",
    "numbers": "".join(f"{n:04}\n" for n in range(1, 1801)),
}


def document(name):
    text = DOCUMENTS[name]
    return text if isinstance(text, bytes) else text.encode()


def words(text, now="99", keys="keys", records="records", checks=None):
    """The words for a token; without a moment or checks where that is none."""
    flags = [("--now", now), ("--checks", checks)]
    given = "".join(f"|{flag}|{value}" for flag, value in flags if value is not None)
    return f"|admit|--keys|{keys}|--records|{records}|--text|{text}{given}"


def claims_words(claims, now="99", checks=None, records="claims"):
    return words("Bearer " + token("K1", claims), now, records=records, checks=checks)


def admitted(claims, alg="EdDSA", name="k1"):
    return f'admitted "{name}"\\ntoken {alg} {claims}\\n'


def asks(text, request="head", now="1402170695", leeway=None, keys="keys", records="signed"):
    """The words for a header text; without a request, a moment or a leeway where that is none."""
    flags = [("--request", request), ("--now", now), ("--leeway", leeway)]
    given = "".join(f"|{flag}|{value}" for flag, value in flags if value is not None)
    return f"|admit|--keys|{keys}|--records|{records}|--text|{text}{given}"


def header(*items):
    return "Signature " + ",".join(items)


def three(algorithm="ed25519-sha512", signature='"+/8="', parts="(request-target) (created) date", key="k1"):
    return header(
        f'keyId="{key}"', f'algorithm="{algorithm}"', "created=1402170695", f'headers="{parts}"', f"signature={signature}"
    )


def seven(*items):
    return header('keyId="k1"', *items, 'signature="AAAA"')


def request_lines(parts, created="-", expires="-"):
    covered = ",".join(f'"{part}"' for part in parts)
    return f'admitted "k1"\\nrequest ed25519-sha512 [{covered}] {created} {expires}\\n'


FIRST = "Bearer " + token("K1")
ADMITTED = 'admitted "k1"\\ntoken EdDSA {"exp":100}\\n'
UNBUILT = "refused Unbuilt\\n"
JWS = "refused Jws."
JWT = "refused Jwt."
UNCUT = JWS + "InvalidEncoding\\n"
TOKEN_BASE64 = JWS + "Base64Decoding\\n"
NO_HEADER = JWS + "Json\\n"
TOO_LATE = JWT + "Expired\\n"
TOO_EARLY = JWT + "NotYetValid\\n"
NO_CLAIM = JWT + "RequiredClaimMissing\\n"
NO_INTEGER = JWT + "InvalidRegisteredClaimType\\n"
NO_DATE = JWT + "InvalidValidator\\n"
NO_KEY = "refused NoKey\\n"
NO_SCHEME = "refused NoScheme\\n"
SIGNATURE = "refused Jws.Signature\\n"
USAGE = "usage\\n"

RUNS = [
    ("the first row", words(FIRST), 0, ADMITTED),
    (
        "flags in any order, and leading zeros",
        f"|admit|--now|0099|--text|{FIRST}|--records|records|--keys|keys",
        0,
        ADMITTED,
    ),
    ("the end of validity", words(FIRST, "100"), 1, "refused Jwt.Expired\\n"),
    ("another recorded message", words(FIRST, records="other-message"), 1, SIGNATURE),
    ("a name that the ring has not", words("Bearer " + token("K2")), 1, "refused NoKey\\n"),
    ("an empty ring", words(FIRST, keys="no-keys"), 1, "refused NoKey\\n"),
    ("a header with a space, recorded as it stands", words("Bearer " + token("K1_SPACE"), records="more"), 0, ADMITTED),
    ("a header with a space, not recorded", words("Bearer " + token("K1_SPACE")), 1, SIGNATURE),
    ("another signature", words("Bearer " + token("K1", signature="AAAB")), 1, SIGNATURE),
    ("a signature with stray bits", words("Bearer " + token("K1", signature="AAB")), 1, TOKEN_BASE64),
    ("a signature of two bytes", words("Bearer " + token("K1", signature="AAA")), 1, SIGNATURE),
    ("another scheme", words("Basic abc"), 1, NO_SCHEME),
    ("a scheme word in lower case", words("bearer " + token("K1")), 1, NO_SCHEME),
    ("a scheme word without its space", words("Bearer"), 1, NO_SCHEME),
    ("no text", words(""), 1, NO_SCHEME),
    ("no token", words("Bearer "), 1, UNCUT),
    ("four dots", words("Bearer " + token("K1") + ".A.A"), 1, UNBUILT),
    ("four dots and no token", words("Bearer ...."), 1, UNBUILT),
    ("three dots", words("Bearer " + token("K1") + ".AAAA"), 1, TOKEN_BASE64),
    ("an empty header", words("Bearer .abc.abc"), 1, UNCUT),
    ("an empty signature", words("Bearer abc.abc."), 1, UNCUT),
    ("one dot", words("Bearer abc.abc"), 1, UNCUT),
    ("no dot", words("Bearer abc"), 1, UNCUT),
    ("a header that is no JSON", words("Bearer abc.abc.abc"), 1, NO_HEADER),
    ("a header without its end", words("Bearer eyAiYWxnIjogIkhTMjU2IH0K.abc.abc"), 1, NO_HEADER),
    ("a token of other letters", words("Bearer aieoè~†.tésp.à"), 1, TOKEN_BASE64),
    ("three dots, two of them together", words("Bearer " + TEXTS["K1"][1] + "..AA.AAAA"), 1, TOKEN_BASE64),
    ("a payload with stray bits", words("Bearer " + TEXTS["K1"][1] + ".AAB.AAAA"), 1, TOKEN_BASE64),
    ("an unknown algorithm", words("Bearer " + token("NONE", "NO_EXP")), 1, NO_HEADER),
    ("a header with a float", words("Bearer " + token("K1_FLOAT", "NO_EXP")), 1, JWS + "Float\\n"),
    ("a float stands before the form", words("Bearer " + token("NO_ALG_FLOAT")), 1, JWS + "Float\\n"),
    ("the header stands before the signature", words("Bearer " + token("NONE", signature="!")), 1, NO_HEADER),
    ("the cut stands before the key", words("Bearer " + token("K2", signature="AAB")), 1, TOKEN_BASE64),
    ("a header without kid", words("Bearer " + token("NO_KID"), records="headers"), 1, NO_KEY),
    ("an algorithm that nothing checks", words("Bearer " + token("HS256"), records="headers"), 1, SIGNATURE),
    ("the other name of the algorithm", words("Bearer " + token("K1_NAMED"), records="headers"), 0, admitted('{"exp":100}', "ED25519")),
    ("a header of many members", words("Bearer " + token("K1_SECOND"), records="headers"), 0, ADMITTED),
    ("claims without an end, not recorded", words("Bearer " + token("K1", "NO_EXP")), 1, SIGNATURE),
    ("claims without an end, recorded", words("Bearer " + token("K1", "NO_EXP"), records="more"), 0, admitted("{}")),
    ("claims with a start", words("Bearer " + token("K1", "NBF"), records="more"), 0, admitted('{"exp":100,"nbf":1}')),
    ("claims with a float", words("Bearer " + token("K1", "FLOAT"), records="more"), 1, JWT + "Float\\n"),
    ("no payload", claims_words("NOTHING"), 1, JWT + "Json\\n"),
    ("a payload that is no JSON", claims_words("NO_JSON"), 1, JWT + "Json\\n"),
    ("an end that is null", claims_words("NULL_END"), 1, NO_INTEGER),
    ("a start stands before an end", claims_words("NULL_START"), 1, NO_INTEGER),
    ("an end that is a text", claims_words("TEXT_END"), 1, NO_INTEGER),
    ("an end above i64", claims_words("WIDE_END"), 1, NO_INTEGER),
    ("the last end at the last moment", claims_words("LAST_END", str(2**63 - 1)), 1, TOO_LATE),
    ("the last end by the leeway", claims_words("LAST_END", str(2**63 - 1)) + "|--leeway|65535", 0, admitted('{"exp":9223372036854775807}')),
    ("a start at the moment", claims_words("LATE"), 0, admitted('{"exp":100,"nbf":99}')),
    ("a start after the moment", claims_words("LATE", "98"), 1, TOO_EARLY),
    ("a start by the leeway", claims_words("LATE", "98") + "|--leeway|1", 0, admitted('{"exp":100,"nbf":99}')),
    ("claims that are a list", claims_words("LIST"), 0, admitted("[]")),
    ("the greatest moment", words(FIRST, str(2**63 - 1)), 1, "refused Jwt.Expired\\n"),
    ("a moment too great", words(FIRST, str(2**63)), 2, USAGE),
    ("twenty digits", words(FIRST, "99".zfill(20)), 2, USAGE),
    ("a sign", words(FIRST, "-1"), 2, USAGE),
    ("no digits", words(FIRST, ""), 2, USAGE),
    ("no words", "", 2, USAGE),
    ("one empty word", "|", 2, USAGE),
    ("admit alone", "|admit", 2, USAGE),
    ("a flag twice", words(FIRST) + "|--now|99", 2, USAGE),
    ("a flag without value", words(FIRST) + "|--now", 2, USAGE),
    ("another flag", words(FIRST) + "|--store|keys", 2, USAGE),
    ("no moment", words(FIRST, None), 0, ADMITTED),
    ("an end that is null, without a moment", claims_words("NULL_END", None), 0, admitted('{"exp":null}')),
    ("the end with a leeway", words(FIRST, "100") + "|--leeway|1", 0, ADMITTED),
    ("a leeway with leading zeros", words(FIRST, "100") + "|--leeway|00001", 0, ADMITTED),
    ("the end of the leeway", words(FIRST, "101") + "|--leeway|1", 1, "refused Jwt.Expired\\n"),
    ("the greatest leeway", words(FIRST, str(99 + 65535)) + "|--leeway|65535", 0, ADMITTED),
    ("a leeway too great", words(FIRST) + "|--leeway|65536", 2, USAGE),
    ("a leeway of six digits", words(FIRST) + "|--leeway|000001", 2, USAGE),
    ("a leeway without digits", words(FIRST) + "|--leeway|", 2, USAGE),
    ("a leeway with a sign", words(FIRST) + "|--leeway|+1", 2, USAGE),
    ("a leeway twice", words(FIRST) + "|--leeway|1|--leeway|1", 2, USAGE),
    ("a leeway without a moment", words(FIRST, None) + "|--leeway|1", 0, ADMITTED),
    ("strict checks of both claims", claims_words("LATE", checks="strict"), 0, admitted('{"exp":100,"nbf":99}')),
    ("strict checks of claims without a start", words(FIRST, checks="strict"), 1, NO_CLAIM),
    ("strict checks of a list", claims_words("LIST", "1", "strict"), 1, NO_CLAIM),
    ("strict checks after the end", claims_words("LATE", "100", "strict"), 1, TOO_LATE),
    ("strict checks by the leeway", claims_words("LATE", "100", "strict") + "|--leeway|1", 0, admitted('{"exp":100,"nbf":99}')),
    ("strict checks without a moment", claims_words("LATE", None, "strict"), 1, NO_DATE),
    ("strict checks of a list without a moment", claims_words("LIST", None, "strict"), 1, NO_DATE),
    ("the validator stands before the claims", claims_words("NOTHING", None, "strict"), 1, NO_DATE),
    ("the signature stands before the validator", claims_words("LATE", None, "strict", "records"), 1, SIGNATURE),
    ("lenient checks", words(FIRST, checks="lenient"), 0, ADMITTED),
    ("lenient checks after the end", words(FIRST, "100", checks="lenient"), 1, TOO_LATE),
    ("lenient checks of claims without any", claims_words("NO_EXP", checks="lenient", records="more"), 0, admitted("{}")),
    ("lenient checks without a moment", claims_words("TEXT_END", None, "lenient"), 0, admitted('{"exp":"100"}')),
    ("no checks", words(FIRST, "100", checks="none"), 0, ADMITTED),
    ("no checks of an end that is null", claims_words("NULL_END", "1", "none"), 0, admitted('{"exp":null}')),
    ("no checks without a moment", claims_words("NULL_END", None, "none"), 0, admitted('{"exp":null}')),
    ("no checks of claims with a float", claims_words("FLOAT", None, "none", "more"), 1, JWT + "Float\\n"),
    ("checks twice", words(FIRST, checks="none") + "|--checks|none", 2, USAGE),
    ("checks of another word", words(FIRST, checks="Strict"), 2, USAGE),
    ("checks of no word", words(FIRST, checks=""), 2, USAGE),
    ("checks without value", words(FIRST) + "|--checks", 2, USAGE),
    ("another command", words(FIRST).replace("admit", "Admit", 1), 2, USAGE),
    ("records that are not held", words(FIRST, records="nowhere"), 3, "cannot read records\\n"),
    ("keys that are not held", words(FIRST, keys="nowhere"), 3, "cannot read keys\\n"),
    ("keys are fetched first", words(FIRST, keys="nowhere", records="nowhere"), 3, "cannot read keys\\n"),
    ("keys one byte too long", words(FIRST, keys="long"), 4, "bad keys TooLong\\n"),
    ("records one byte too long", words(FIRST, records="long"), 4, "bad records TooLong\\n"),
    ("keys of the greatest length", words(FIRST, keys="full"), 4, "bad keys Jwk.Json\\n"),
    ("keys that are no text", words(FIRST, keys="latin"), 4, "bad keys Utf8\\n"),
    ("records that are no text", words(FIRST, records="latin"), 4, "bad records Utf8\\n"),
    ("keys without keys", words(FIRST, keys="object"), 4, "bad keys Jwk.Json\\n"),
    ("a name of a key that is no text", words(FIRST, keys="kid-number"), 4, "bad keys Jwk.Json\\n"),
    ("both spellings of a member of a key", words(FIRST, keys="of-x5t-twice"), 4, "bad keys Jwk.Json\\n"),
    ("an unknown algorithm of a key that is skipped", words(FIRST, keys="skipped-unknown"), 4, "bad keys Jwk.Json\\n"),
    ("keys that nest 128 deep", words(FIRST, keys="deep"), 4, "bad keys Jwk.Json\\n"),
    ("a key with stray bits", words(FIRST, keys="no-base64"), 4, "bad keys Jwk.Base64Decoding\\n"),
    ("an Ed25519 key of three bytes", words(FIRST, keys="short"), 4, "bad keys Jwk.InvalidEdPublicKey\\n"),
    ("a coordinate of 33 bytes", words(FIRST, keys="wide"), 4, "bad keys Jwk.InvalidEcPointCoordinates\\n"),
    ("an RSA algorithm of an Ed25519 key in a set", words(FIRST, keys="of-rsa"), 4, "bad keys AlgorithmFamily\\n"),
    ("two keys of one name", words(FIRST, keys="twice"), 4, "bad keys DuplicateName\\n"),
    ("a key's texts stand before its algorithm", words(FIRST, keys="no-base64-of-rsa"), 4, "bad keys Jwk.Base64Decoding\\n"),
    ("a key's algorithm stands before its name", words(FIRST, keys="twice-of-rsa"), 4, "bad keys AlgorithmFamily\\n"),
    ("the second of three keys fails", words(FIRST, keys="twice-then-no-base64"), 4, "bad keys DuplicateName\\n"),
    ("the first of three keys fails", words(FIRST, keys="no-base64-then-twice"), 4, "bad keys Jwk.Base64Decoding\\n"),
    ("a name of a key that is skipped", words(FIRST, keys="twice-skipped"), 0, ADMITTED),
    ("ten keys that are skipped", words(FIRST, keys="skipped"), 0, ADMITTED),
    ("no key but those that are skipped", words(FIRST, keys="skipped-only"), 1, NO_KEY),
    ("keys with all members", words(FIRST, keys="all-members"), 0, ADMITTED),
    ("a key whose optional members are null", words(FIRST, keys="all-null"), 0, ADMITTED),
    ("a line of no form", words(FIRST, records="word"), 4, "bad records BadLine 1\\n"),
    ("records are checked first", words(FIRST, keys="object", records="word"), 4, "bad records BadLine 1\\n"),
    ("records of other keys and pairs beside the token's", words(FIRST, records="mixed"), 0, ADMITTED),
    ("the first of two lines of no form", words(FIRST, records="second-word"), 4, "bad records BadLine 2\\n"),
    ("a last line without its end", words(FIRST, records="no-end"), 4, "bad records BadLine 1\\n"),
    ("an RSA algorithm of an Ed25519 key", words(FIRST, records="family"), 4, "bad records Family 1\\n"),
    ("two public keys of one private key", words(FIRST, records="conflict"), 4, "bad records Conflict 2\\n"),
    ("the same pair twice", words(FIRST, records="same-pair"), 0, ADMITTED),
]


def of_rsa(header, claims, now, checks="strict", keys="rsa", signature="AAAA"):
    return words("Bearer " + token(header, claims, signature), now, keys, "of-rsa-key", checks)


def of_curve(header, signature, keys="curves"):
    return words("Bearer " + token(header, signature=signature), keys=keys, records="of-curves")


USUAL = admitted(
    '{"aud":"api","exp":1700003600,"iat":1700000000,"iss":"https://id.example","nbf":1700000000,"scope":"read write","sub":"42"}',
    "RS256",
    "my-rsa-key",
)

FAMILY_RUNS = [
    ("a usual token", of_rsa("RSA", "USUAL", "1700000000"), 0, USUAL),
    ("a usual token before its start", of_rsa("RSA", "USUAL", "1699999999"), 1, TOO_EARLY),
    ("a usual token at its end", of_rsa("RSA", "USUAL", "1700003600"), 1, TOO_LATE),
    ("a usual token under a key with all members", of_rsa("RSA", "USUAL", "1700000000", keys="all-members"), 0, USUAL),
    ("a hash that the ring doesn't name", of_rsa("RSA_512", "EXP", "99", None), 0, admitted('{"exp":100}', "RS512", "my-rsa-key")),
    ("a name of curves under an RSA key", of_rsa("RSA_ES", "EXP", "99", None, signature=fixed(32, 1, 128)), 1, SIGNATURE),
    ("a curve's token", of_curve("E256", fixed(32, 1, 128)), 0, admitted('{"exp":100}', "ES256", "e")),
    ("a curve's token, by 63 bytes", of_curve("E256", fixed(32, 1, 128)[:-2]), 1, SIGNATURE),
    ("a curve's token, by other numbers", of_curve("E256", fixed(32, 128, 1)), 1, SIGNATURE),
    ("a curve's token, by the pair itself", of_curve("E256", PAIR), 1, SIGNATURE),
    ("another name under a curve's key", of_curve("E384", fixed(48, 1, 128)), 0, admitted('{"exp":100}', "ES384", "e")),
    ("another name, by the bytes of its curve", of_curve("E384", fixed(32, 1, 128)), 1, SIGNATURE),
    ("the name that the key has, of another curve", of_curve("E512", fixed(66, 1, 128), "curve-512"), 0, admitted('{"exp":100}', "ES512", "e")),
    ("another curve's token", of_curve("F384", fixed(48, 1, 128)), 0, admitted('{"exp":100}', "ES384", "f")),
]


def rsa_three(algorithm='algorithm="rsa-sha256",', signature='"+/8="', now="1402170695", request="head"):
    parts = "(request-target) (created) date"
    text = f'Signature keyId="my-rsa-key",{algorithm}created=1402170695,headers="{parts}",signature={signature}'
    return asks(text, request, now, keys="rsa", records="of-rsa-key")


RSA_THREE = (
    'admitted "my-rsa-key"\\nrequest rsa-sha256 ["(request-target)","(created)","date"] 1402170695 -\\n'
)

HTTP = "refused Http."
INCOMPATIBLE = HTTP + "IncompatibleAlgorithm\\n"
NO_MOMENT = HTTP + "MissingBuilderArgument\\n"
NO_LINE = HTTP + "SigningStringGeneration\\n"
MISSING = HTTP + "MissingRequiredParameter\\n"
INVALID = HTTP + "InvalidParameter\\n"
NOT_BASE64 = HTTP + "Base64Decoding\\n"
NOT_SIGNED = HTTP + "Signature\\n"
EXPIRED = HTTP + "Expired\\n"
EARLY = HTTP + "NotYetValid\\n"
COVERS_THREE = request_lines(["(request-target)", "(created)", "date"], "1402170695")
LOOSE = (
    'Signature keyId = k1 ,created= "1402170695",,algorithm ="ed25519-sha512  "'
    ",headers=(request-target) (created) date  ,signature=+/8="
)
SEVEN = request_lines(["(created)"], "7")
RSA_RUNS = [
    ("three lines under an RSA key", rsa_three(), 0, RSA_THREE),
    ("three lines without an algorithm", rsa_three(""), 0, RSA_THREE),
    ("an RSA hash that the ring doesn't name", rsa_three('algorithm="rsa-sha512",'), 1, INCOMPATIBLE),
    ("a curve's algorithm under an RSA key", rsa_three('algorithm="ecdsa-sha256",'), 1, INCOMPATIBLE),
    ("another signature under an RSA key", rsa_three(signature='"AAAA"'), 1, NOT_SIGNED),
    ("no checks for a header text", rsa_three(now="1402170694") + "|--checks|none", 1, EARLY),
    ("strict checks for a header text", rsa_three() + "|--checks|strict", 0, RSA_THREE),
]
E9 = three(parts="(request-target) x-latin")

HEADER_RUNS = [
    ("three lines", asks(three()), 0, COVERS_THREE),
    ("a target with a query", asks(three(), "head-query"), 0, COVERS_THREE),
    ("spaces around items, and values without quotes", asks(LOOSE), 0, COVERS_THREE),
    ("base64url without quotes", asks(three(signature="-_8")), 0, COVERS_THREE),
    ("base64url in quotes", asks(three(signature='"-_8"')), 1, NOT_BASE64),
    ("base64 without padding in quotes", asks(three(signature='"+/8"')), 1, NOT_BASE64),
    ("another algorithm that is known", asks(three("rsa-sha224")), 1, INCOMPATIBLE),
    ("an algorithm that is not known", asks(three("hs2019")), 0, COVERS_THREE),
    ("a header text without a moment", asks(three(), now=None), 1, NO_MOMENT),
    ("the algorithm stands before the moment", asks(three("rsa-sha224"), now=None), 1, INCOMPATIBLE),
    ("a header text without a request", asks(three(), None), 1, NO_LINE),
    ("the moment stands before the request", asks(three(), None, now=None), 1, NO_MOMENT),
    ("before created", asks(three(), now="1402170694"), 1, EARLY),
    ("before created, by the leeway", asks(three(), now="1402170694", leeway="1"), 0, COVERS_THREE),
    ("created stands before the request", asks(three(), None, "1402170694"), 1, EARLY),
    ("a covered header that is absent", asks(three(), "head-no-date"), 1, NOT_SIGNED),
    ("other parts than were signed", asks(three(parts="(created) (request-target) date")), 1, NOT_SIGNED),
    ("a part less than was signed", asks(three(parts="(request-target) (created)")), 1, NOT_SIGNED),
    ("base64 with stray bits in quotes", asks(three(signature='"+/9="')), 1, NOT_BASE64),
    ("a signature of other bytes", asks(three(signature='"AAAA"')), 1, NOT_SIGNED),
    ("a covered header with the byte E9", asks(E9, "head-e9"), 1, NO_LINE),
    ("a header with the byte E9 that is not covered", asks(three(), "head-e9"), 0, COVERS_THREE),
    ("a name that the ring has not, in a header text", asks(three(key="k2")), 1, "refused NoKey\\n"),
    ("the name stands before the algorithm", asks(three("rsa-sha224", key="k2")), 1, "refused NoKey\\n"),
    ("an empty ring, for a header text", asks(three(), keys="no-keys"), 1, "refused NoKey\\n"),
    (
        "the last of two items, and an empty list",
        asks('Signature keyId="x",keyId="k1",junk,headers="",signature="AAAA"', now=None),
        0,
        request_lines([""]),
    ),
    ("no created for the part that is covered", asks('Signature keyId="k1",signature="AAAA"'), 1, MISSING),
    ("no keyId", asks('Signature signature="AAAA"'), 1, MISSING),
    ("no signature", asks('Signature keyId="k1"'), 1, MISSING),
    ("no item", asks("Signature "), 1, MISSING),
    ("created with a plus", asks(seven("created=+7"), None, "7"), 0, SEVEN),
    ("created with a minus", asks(seven("created=-7"), None, "7"), 1, INVALID),
    ("created before expires", asks(seven("created=x", "expires=y"), None, "7"), 1, INVALID),
    ("a moment before created", asks(seven("created=+7"), None, "6"), 1, EARLY),
    ("the end of expires by the leeway", asks(seven("created=7", "expires=5"), None, "10", "5"), 0, SEVEN[:-3] + "5\\n"),
    ("after expires and the leeway", asks(seven("created=7", "expires=5"), None, "10", "4"), 1, EXPIRED),
    ("expires stands before created", asks(seven("created=99", "expires=5"), None, "10", "4"), 1, EXPIRED),
    ("the greatest leeway for expires", asks(seven("created=7", "expires=0"), None, "7", "65535"), 0, SEVEN[:-3] + "0\\n"),
    ("the greatest created", asks(seven("created=18446744073709551615"), None, "7"), 1, EARLY),
    ("created above u64", asks(seven("created=18446744073709551616"), None, "7"), 1, INVALID),
    ("lines joined by CR LF were recorded", asks(seven('headers="host date"')), 1, NOT_SIGNED),
    ("a request file of three bytes", asks(three(), "head-cut"), 4, "bad request BadHead\\n"),
    ("an empty request file", asks(three(), "empty"), 4, "bad request BadHead\\n"),
    ("a request one byte too long", asks(three(), "long"), 4, "bad request TooLong\\n"),
    ("a request of the greatest length", asks(three(), "full"), 4, "bad request BadHead\\n"),
    ("a request that is not held", asks(three(), "nowhere"), 3, "cannot read request\\n"),
    ("keys are checked before the request", asks(three(), "head-cut", keys="object"), 4, "bad keys Jwk.Json\\n"),
    ("a request twice", asks(three()) + "|--request|head", 2, USAGE),
    ("a bad request, for a token", words(FIRST) + "|--request|head-cut", 4, "bad request BadHead\\n"),
    ("a token over a request", words(FIRST) + "|--request|head", 0, ADMITTED),
    ("a token's end is not that of a header text", words(FIRST, "100") + "|--request|head", 1, "refused Jwt.Expired\\n"),
]

FILE_RUNS = [
    ("the first row", words(FIRST), 0, ADMITTED),
    ("a keys file that is not there", words(FIRST, keys="nowhere"), 3, "cannot read keys\\n"),
    ("a records file that is not there", words(FIRST, records="nowhere"), 3, "cannot read records\\n"),
    ("neither file is there", words(FIRST, keys="nowhere", records="nowhere"), 3, "cannot read keys\\n"),
    ("a folder for keys", words(FIRST, keys="."), 3, "cannot read keys\\n"),
    ("a folder for records", words(FIRST, records="."), 3, "cannot read records\\n"),
    ("an empty keys file", words(FIRST, keys="empty"), 4, "bad keys Jwk.Json\\n"),
    ("an empty records file", words(FIRST, records="empty"), 1, SIGNATURE),
    ("a keys file that is no text", words(FIRST, keys="latin"), 4, "bad keys Utf8\\n"),
    ("three lines of a request file", asks(three()), 0, COVERS_THREE),
    ("a request file that is not there", asks(three(), "nowhere"), 3, "cannot read request\\n"),
    ("a folder for a request", asks(three(), "."), 3, "cannot read request\\n"),
]


# Texts that a seed makes: how many are admitted is counted here by comparing what each record records with what its token says.


def words_of(seed, count):
    """The first words of the key stream of ChaCha20 (RFC 8439, section 2.3) with the seed as its key, from block 0."""
    key = seed.to_bytes(8, "little") + bytes(24)
    stream = Cipher(algorithms.ChaCha20(key, bytes(16)), mode=None).encryptor().update(bytes(4 * count))
    return [int.from_bytes(stream[4 * i : 4 * i + 4], "little") for i in range(count)]


def generated(word, i):
    """The token of a word and its number, and the fields of its record in bytes."""
    signed = ".".join([spell(json.dumps(part, separators=(",", ":"))) for part in [{"alg": "EdDSA", "kid": f"k{word % 8}"}, {"exp": 1 + word // 8, "n": i}]])
    message = signed.encode()
    if i % 7 == 6:
        message = message[:-1] + bytes([message[-1] ^ 1])
    return signed, word.to_bytes(4, "big"), bytes.fromhex("302a300506032b6570032100") + bytes([word % 8] * 32), message


def unpadded(data):
    return base64.urlsafe_b64encode(data).rstrip(b"=").decode()


def generated_text(word, i):
    signed, signature, _, _ = generated(word, i)
    return f"Bearer {signed}.{unpadded(signature)}"


def generated_record(word, i):
    _, signature, key, message = generated(word, i)
    return f"sig ed25519-sha512 {unpadded(key)} {unpadded(message)} {unpadded(signature)}\\n"


def counted(seed, count):
    """How many texts have a record of the bytes that they sign."""
    return sum(signed.encode() == message for signed, _, _, message in (generated(word, i) for i, word in enumerate(words_of(seed, count))))


def generate(seed, count):
    return f"|generate|--seed|{seed}|--count|{count}"


def generated_line(seed, count):
    good = counted(seed, count)
    return f"generated {count} admitted {good} refused {count - good}\\n"


# words that are no command `generate`
NO_GENERATE = [
    ("no words after the name", "|generate"),
    ("a seed alone", "|generate|--seed|1"),
    ("a count alone", "|generate|--count|1"),
    ("a seed twice", "|generate|--seed|1|--seed|1"),
    ("a count twice", "|generate|--count|1|--count|1"),
    ("a seed twice and a count", "|generate|--seed|1|--seed|1|--count|1"),
    ("a further flag", "|generate|--seed|1|--count|1|--keys|keys"),
    ("a flag of admit", "|generate|--seed|1|--now|1"),
    ("a flag without its value", "|generate|--seed|1|--count"),
    ("flags side by side", "|generate|--seed|--count|1|1"),
    ("a seed of 21 digits", generate("000000000000000000001", 1)),
    ("a seed of 2^64", generate(1 << 64, 1)),
    ("the greatest 20 digits as a seed", generate("9" * 20, 1)),
    ("a seed that is empty", generate("", 1)),
    ("a seed with a sign", generate("+1", 1)),
    ("a negative seed", generate("-1", 1)),
    ("a seed with a space", generate("1 ", 1)),
    ("a count above 10,000", generate(1, 10001)),
    ("a count of six digits", generate(1, "000001")),
    ("a count that is empty", generate(1, "")),
    ("a count with a sign", generate(1, "+1")),
    ("a negative count", generate(1, "-1")),
    ("the command in upper case", "|GENERATE|--seed|1|--count|1"),
    ("the command twice", "|generate|generate|--seed|1|--count|1"),
    ("its flags for admit", "|admit|--seed|1|--count|1"),
]


def row(name, call, answer):
    print(f"{name}: {call}".rstrip() + f" => {answer}")


def rooms(call, text):
    """Each room for the bytes of the text, and more."""
    whole = text.replace("\\n", "\n")
    for room in range(len(whole) + 3):
        front = whole[:room].replace("\n", "\\n") or "-"
        status = 6 if room < len(whole) else 0
        left = max(room - len(whole), 0)
        row(f"room for {room} bytes", f"gate.run_in {room} {call}", f"{status} {left} {front}")


def print_texts():
    print("# Texts in base64url, by Python's base64; AAAA is three zero bytes")
    for text, spelled in TEXTS.values():
        print(f"#   {text} is {spelled}")


def print_runs():
    print("# The program over documents in memory")
    for name, call, status, text in RUNS + FAMILY_RUNS + HEADER_RUNS + RSA_RUNS:
        row(name, f"gate.run {call}", f"{status} {text}")
    print()
    print("# Each room for the first row's output")
    rooms(words(FIRST), ADMITTED)
    row("no room for the usage", "gate.run_in 0 |admit", "6 0 -")
    row("room for half of the usage", "gate.run_in 3 |admit", "6 0 usa")
    row("room for the usage", "gate.run_in 6", "2 0 usage\\n")
    print()
    print("# A document that is put again, in the place of what was there, and one that was not there")
    row("other keys are put", f"gate.run_over keys {b'{}'.hex()} {words(FIRST)}", "4 bad keys Jwk.Json\\n")
    missing = words(FIRST, keys="nowhere")
    row("keys are put where none were", f"gate.run_over nowhere {document('keys').hex()} {missing}", f"0 {ADMITTED}")


def print_cabinets():
    print("# Fetches that are to fail, counted from 1, and a cabinet that never fails")
    for call, status, text in [(1, 3, "cannot read keys\\n"), (2, 3, "cannot read records\\n"), (3, 0, ADMITTED)]:
        row(f"fetch {call} is to fail", f"gate.run_failing {call} {words(FIRST)}", f"{status} {text}")
    for name, call, status, text in [
        ("the first row over it", words(FIRST), 0, ADMITTED),
        ("keys that it holds not are empty", words(FIRST, keys="nowhere"), 4, "bad keys Jwk.Json\\n"),
        ("records that it holds not are empty", words(FIRST, records="nowhere"), 1, SIGNATURE),
    ]:
        row(name, f"gate.run_fixed {call}", f"{status} {text}")


def print_generated():
    print("# Texts that a seed makes, and their records, with the words of Python's ChaCha20; each seventh record is of another message")
    for seed, numbers in [(1, [0, 1, 6, 16, 699]), ((1 << 64) - 1, [0, 13]), (0, [0])]:
        for i in numbers:
            word = words_of(seed, i + 1)[i]
            row(f"text {i} of seed {seed}", f"generated.text {seed} {i}", generated_text(word, i))
            row(f"record {i} of seed {seed}", f"generated.record {seed} {i}", generated_record(word, i))
    print()
    print("# Each of the texts by admit: how many are admitted, and how many are refused for their signatures")
    for seed, count in [(1, 0), (1, 6), (1, 7), (1, 700)]:
        good = counted(seed, count)
        row(f"{count} texts of seed {seed}", f"generated.each {seed} {count}", f"{good} {count - good}")
    print()
    print("# The command generate")
    for seed, count in [(1, 700), (1, 0), (7, 10000), (0, 1), ((1 << 64) - 1, 7), ("0" * 19 + "1", "00014")]:
        row(f"{count} texts of seed {seed}", f"gate.run {generate(seed, count)}", f"0 {generated_line(int(seed), int(count))}")
    row("the count first", "gate.run |generate|--count|7|--seed|3", f"0 {generated_line(3, 7)}")
    row("nothing is asked for", f"gate.asked {generate(1, 7)}", "-")
    for name, call in NO_GENERATE:
        row(name, f"gate.run {call}", "2 usage\\n")
    print()
    print("# Each room for its output")
    rooms(generate(1, 7), generated_line(1, 7))


def print_asked():
    print("# What a run asks its cabinet for")
    for name, call, paths in [
        ("the keys, then the records", words(FIRST), "|keys|records"),
        ("nothing more after keys that are not held", words(FIRST, keys="nowhere"), "|nowhere"),
        ("records that are not held are asked for once", words(FIRST, records="nowhere"), "|keys|nowhere"),
        ("one path for both documents is asked for twice", words(FIRST, records="keys"), "|keys|keys"),
        ("documents that are bad are asked for once", words(FIRST, keys="object", records="word"), "|object|word"),
        ("nothing for words that are no command", "|admit", "-"),
        ("the request comes last", asks(three()), "|keys|signed|head"),
        ("a request for a token is asked for too", words(FIRST) + "|--request|nowhere", "|keys|records|nowhere"),
        ("no request after records that are not held", asks(three(), records="nowhere"), "|keys|nowhere"),
    ]:
        row(name, f"gate.asked {call}", paths)


def print_files():
    print("# Files: the bytes at limits below, at and above the length; as many as the limit and one more are read")
    for name, limits in [("five", [0, 3, 4, 5, 9]), ("empty", [0, 9]), ("latin", [9])]:
        for limit in limits:
            bytes_ = document(name)[: limit + 1].hex() or "-"
            row(f"{name} with the limit {limit}", f"file.fetch {name} {limit}", bytes_)
    row("a file that is not there", "file.fetch nowhere 9", "Failed")
    row("a folder", "file.fetch . 9", "Failed")
    print()
    print("# A file of 9,000 bytes, with the digests of its first bytes by hashlib")
    for limit in [4094, 4095, 4096, 8190, 8191, 8192, 8998, 8999, 9000, 1048576]:
        front = document("numbers")[: limit + 1]
        row(f"numbers with the limit {limit}", f"file.digest numbers {limit}", f"{len(front)} {hashlib.sha256(front).hexdigest()}")
    print()
    print("# The program over files")
    for name, call, status, text in FILE_RUNS:
        row(f"{name}, in files", f"file.run {call}", f"{status} {text}")


if sys.argv[1:] == ["--documents"]:
    for name in DOCUMENTS:
        (DATA / name).write_bytes(document(name))
else:
    print_texts()
    print()
    print_runs()
    print()
    print_cabinets()
    print()
    print_asked()
    print()
    print_generated()
    print()
    print_files()
