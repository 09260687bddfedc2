#!/usr/bin/env python3
"""Prints the rows of `http` and `request` of `sign_rows`: header texts, request heads, signing strings, and what requests answer.

Each is made from the rules that docs/DEFINITIONS.md maps, by splitting and joining Python's own texts; paths of targets are
those of `urllib.parse`. The rows stand at the end of crates/sign_rows/stdout.
"""
import base64
import re
import string
import urllib.parse

WHITE_SPACE = "\t\n\x0b\x0c\r \x85\xa0\u1680\u2000\u2001\u2002\u2003\u2004\u2005\u2006\u2007\u2008\u2009\u200a\u2028\u2029\u202f\u205f\u3000"
NAMES = {
    "rsa-md5": "RsaPkcs1v15(MD5)",
    "rsa-sha1": "RsaPkcs1v15(SHA1)",
    "rsa-sha3-384": "RsaPkcs1v15(SHA3_384)",
    "rsa-sha3-512": "RsaPkcs1v15(SHA3_512)",
    "ecdsa-sha256": "Ecdsa(SHA2_256)",
    "ecdsa-sha384": "Ecdsa(SHA2_384)",
    "ed25519-sha512": "Ed25519",
}
for size in ("224", "256", "384", "512"):
    NAMES["rsa-sha" + size] = NAMES["rsa-sha2-" + size] = f"RsaPkcs1v15(SHA2_{size})"
SPECIAL = {"(request-target)": "RequestTarget", "(created)": "Created", "(expires)": "Expires"}


class Refused(Exception):
    pass


def trim(text):
    return text.strip(WHITE_SPACE)


def lower(text):
    return "".join(c.lower() if c in string.ascii_uppercase else c for c in text)


def quoted(text):
    return '"' + text.replace("\\", "\\\\").replace('"', '\\"').replace("\t", "\\t") + '"'


def raw_value(text, key):
    while text.startswith("Signature"):
        text = text[len("Signature") :]
    values = [v for k, e, v in (piece.partition("=") for piece in text.split(",")) if e and trim(k) == key]
    return trim(values[-1]) if values else None


def value(text, key):
    raw = raw_value(text, key)
    return None if raw is None else trim(raw.strip('"'))


def number(text, key):
    digits = value(text, key)
    if digits is None:
        return None
    if not re.fullmatch(r"\+?[0-9]+", digits) or int(digits) >= 2**64:
        raise Refused(f'InvalidParameter {{ parameter: "{key}" }}')
    return int(digits)


def reading(text):
    created, expires = number(text, "created"), number(text, "expires")
    for key in ("signature", "keyId"):
        if value(text, key) is None:
            raise Refused(f'MissingRequiredParameter {{ parameter: "{key}" }}')
    signature = value(text, "signature")
    headers = value(text, "headers")
    return {
        "key": value(text, "keyId"),
        "parts": [] if headers is None else [p if p in SPECIAL else lower(p) for p in headers.split(" ")],
        "special": [] if headers is None else [p in SPECIAL for p in headers.split(" ")],
        "created": created,
        "expires": expires,
        "signature": signature,
        "algorithm": value(text, "algorithm"),
        "legacy": not raw_value(text, "signature").startswith('"') and not any(c in signature for c in "/+="),
    }


def option(shown):
    return "None" if shown is None else f"Some({shown})"


def shown_reading(text):
    try:
        r = reading(text)
    except Refused as refusal:
        return str(refusal)
    parts = [SPECIAL[p] if s else f"Name({quoted(p)})" for p, s in zip(r["parts"], r["special"])]
    algorithm = None
    if r["algorithm"] is not None:
        known = NAMES.get(r["algorithm"])
        algorithm = f"Known({known})" if known else f"Custom({quoted(r['algorithm'])})"
    return (
        f"HttpSignature {{ key_id: {quoted(r['key'])}, headers: [{', '.join(parts)}], created: {option(r['created'])}, "
        f"expires: {option(r['expires'])}, signature: {quoted(r['signature'])}, algorithm: {option(algorithm)}, "
        f"legacy: {str(r['legacy']).lower()} }}"
    )


TOKEN = rb"[!#$%&'*+\-.^_`|~0-9A-Za-z]+"
HEAD = re.compile(rb"(?:\r?\n)*(" + TOKEN + rb") ([!-~\x80-\xff]+) HTTP/1\.[01]\r?\n((?:" + TOKEN + rb":[\t -~\x80-\xff]*\r?\n)*)\r?\n")


def head_of(data):
    """Method, target and fields of the head that the bytes begin with, or none."""
    found = HEAD.match(data)
    if not found:
        return None
    try:
        target = found[2].decode()
    except UnicodeDecodeError:
        return None
    fields = []
    for line in re.split(rb"\r?\n", found[3])[:-1]:
        name, _, content = line.partition(b":")
        fields.append((lower(name.decode()), content.strip(b" \t")))
    return (found[1].decode(), target, fields) if len(fields) <= 100 else None


def shown_head(data):
    head = head_of(data)
    if head is None:
        return "BadHead"
    method, target, fields = head
    shown = [f"RequestField {{ name: {quoted(n)}, value: [{', '.join(map(str, v))}] }}" for n, v in fields]
    return f"RequestHead {{ method: {quoted(method)}, target: {quoted(target)}, fields: [{', '.join(shown)}] }}"


def answer(head, name):
    if head is None:
        raise Refused('SigningStringGeneration { source: Unexpected { reason: "no request" } }')
    values = [v for n, v in head[2] if lower(n) == lower(name)]
    if any(b != 9 and not 32 <= b <= 126 for v in values for b in v):
        raise Refused(f"SigningStringGeneration {{ source: HeaderValueToStr {{ key: {quoted(name)} }} }}")
    return ", ".join(trim(v.decode()) for v in values)


def start(head):
    """The method and the target of a head, without its query."""
    return lower(head[0]), head[1].partition("?")[0]


def line(part, special, r, head):
    if not special:
        said = answer(head, part)
    elif part == "(request-target)":
        answer(head, "")
        said = " ".join(start(head))
    else:
        said = r[part.strip("()")]
        if said is None:
            raise Refused(f"MissingRequiredParameter {{ parameter: \"{part.strip('()')}\" }}")
    return f"{part}: {said}" if str(said) else f"{part}:"


def signing_string(r, head):
    parts, special = (r["parts"], r["special"]) if r["parts"] else (["(created)"], [True])
    return "\n".join(line(p, s, r, head) for p, s in zip(parts, special))


def url(data):
    return base64.urlsafe_b64encode(data).decode().rstrip("=")


def strict(text, is_url):
    """The bytes of which the text is the one encoding, or none."""
    try:
        data = base64.urlsafe_b64decode(text + "=" * (-len(text) % 4)) if is_url else base64.b64decode(text)
    except ValueError:
        return None
    return data if text == (url(data) if is_url else base64.b64encode(data).decode()) else None


def verified(now, leeway, head, given, recorded, signature, text):
    """What a verifier over one recorded signature answers, with Ed25519."""
    r = reading(text)
    known = NAMES.get(r["algorithm"])
    if known not in (None, "Ed25519"):
        raise Refused(f"IncompatibleAlgorithm {{ value: {known} }}")
    for key, refused, late in (
        ("expires", "Expired { not_after: %d, now: %d }", lambda n: now - leeway > n),
        ("created", "NotYetValid { created: %d, now: %d }", lambda n: now + leeway < n),
    ):
        if r[key] is not None:
            if now is None:
                raise Refused('MissingBuilderArgument { arg: "now" }')
            if late(r[key]):
                raise Refused(refused % (r[key], now))
    message = signing_string(r, head) if given is None else given
    data = strict(r["signature"], r["legacy"])
    if data is None:
        raise Refused("Base64Decoding")
    if message != recorded or data != signature:
        raise Refused("Signature { source: BadSignature }")
    return "Ok"


def word(data):
    return data.hex() or "-"


def read_rows():
    print("# Header texts: the rules of draft-cavage-http-signatures-12, section 2.1, by Python's split and strip: scripts/http_cases.py")
    for name, text in TEXTS:
        print(f"{name}: http.read {text} => {shown_reading(text)}")


def head_rows():
    print("# Request heads: the grammar of RFC 9112, sections 2 to 5, by Python's regular expressions: scripts/http_cases.py")
    for name, data in HEADS:
        print(f"{name}: http.head {word(data)} => {shown_head(data)}")


def verify_rows():
    print("# Signing strings over one recorded signature, joined by Python: scripts/http_cases.py")
    for name, now, leeway, data, given, recorded, signature, text in CHECKS:
        head = None if data is None else head_of(data)
        try:
            said = verified(now, leeway, head, given, recorded, signature, text)
        except Refused as refusal:
            said = str(refusal)
        way = "given" if given is not None else "verify"
        source = word(given.encode()) if given is not None else "none" if data is None else word(data)
        moment = "-" if now is None else str(now)
        print(f"{name}: http.{way} {moment} {leeway} {source} {word(recorded.encode())} {word(signature)} {text} => {said}")


def uri_head(head):
    """The head as `Parts` and `Request` of the crate `http` keep it: its target is a path."""
    method, target, fields = head
    if "://" in target:
        target = urllib.parse.urlsplit(target).path or "/"
    elif target != "*" and not target.startswith("/"):
        target = ""
    return method, re.split("[?#]", target)[0], fields


def seen_as(kind, data):
    return {"head": lambda h: h, "none": lambda h: None}.get(kind, uri_head)(head_of(data))


def shown_line(head):
    return " ".join(['Unexpected { reason: "no request" }'] * 2 if head is None else map(quoted, start(head)))


def shown_values(head, name):
    try:
        return quoted(answer(head, name))
    except Refused as refusal:
        return str(refusal)[len("SigningStringGeneration { source: ") : -2]


def shown_check(head, now, leeway, recorded, signature, text):
    try:
        return verified(now, leeway, head, None, recorded, signature, text)
    except Refused as refusal:
        return str(refusal)


def request_rows():
    print("# Requests, each as a head, as `Parts` and as `Request`, and no request: Python's texts, and paths by its urllib: scripts/http_cases.py")
    for name, data, names in REQUESTS:
        for kind in KINDS if data is FOO else KINDS[:3]:
            head = seen_as(kind, data)
            print(f"{name}, {kind}: request.line {kind} {word(data)} => {shown_line(head)}")
            for asked in names:
                print(f"{name}, {asked or 'the empty name'}, {kind}: request.values {kind} {word(data)} {asked} => {shown_values(head, asked)}")
    for name, now, leeway, data, _, recorded, signature, text in REQUEST_CHECKS:
        for kind in KINDS if "created)" in recorded else KINDS[:3]:
            said = shown_check(seen_as(kind, data), now, leeway, recorded, signature, text)
            moment = "-" if now is None else str(now)
            print(f"{name}, {kind}: request.verify {kind} {word(data)} {moment} {leeway} {word(recorded.encode())} {word(signature)} {text} => {said}")


S = 'keyId="k1",signature="AAAA"'
TEXTS = [
    ("the least text", "Signature " + S),
    ("no scheme word", S),
    ("two scheme words", "SignatureSignature " + S),
    ("a scheme word in lower case is a part of a key", "signature " + S),
    ("a scheme word right before a key is cut", 'SignaturekeyId="k1",signature="AAAA"'),
    ("a scheme word later is no scheme", "x=1,Signature " + S),
    ("all six keys", 'Signature keyId="k",algorithm="rsa-sha256",created=1,expires=2,headers="(created) host",signature="AA=="'),
    ("spaces around everything", 'Signature  keyId = "k1" , signature = "AAAA" '),
    ("tabs around everything", "Signature\tkeyId\t=\tk1\t,\tsignature\t=\tAAAA\t"),
    ("no-break spaces are white space", "Signature\u00a0keyId=\u00a0k1\u3000,signature=AAAA"),
    ("no quotes", "Signature keyId=k1,signature=AAAA"),
    ("a quote in front alone", 'Signature keyId="k1,signature="AAAA'),
    ("a quote behind alone", 'Signature keyId=k1",signature=AAAA"'),
    ("many quotes", 'Signature keyId="""k1"",signature=""AAAA"""'),
    ("quotes inside stay", 'Signature keyId="a"b",signature="AAAA"'),
    ("only quotes", 'Signature keyId="""",signature="AAAA"'),
    ("one quote", 'Signature keyId=",signature="AAAA"'),
    ("spaces inside quotes are cut", 'Signature keyId="  k1  ",signature=" AAAA "'),
    ("quotes behind spaces inside quotes stay", 'Signature keyId=" "k1" ",signature="AAAA"'),
    ("an empty value is there", "Signature keyId=,signature="),
    ("empty quoted values", 'Signature keyId="",signature=""'),
    ("a comma inside quotes cuts", 'Signature keyId="a,b",signature="AAAA"'),
    ("empty pieces", 'Signature ,,keyId="k1",,signature="AAAA",,'),
    ("pieces without an equals sign", 'Signature junk,keyId="k1",more junk,signature="AAAA",end'),
    ("an equals sign in a value", 'Signature keyId="a=b",signature="AA=="'),
    ("an equals sign first", 'Signature =x,keyId="k1",signature="AAAA"'),
    ("unknown keys", 'Signature realm="r",keyId="k1",nonce=1,signature="AAAA"'),
    ("the last of two equal keys", 'Signature keyId="x",keyId="k1",signature="AAAA"'),
    ("the last of two signatures", 'Signature keyId="k1",signature="AAAA",signature=-_8'),
    ("the last of two numbers", 'Signature keyId="k1",created=x,created=5,signature="AAAA"'),
    ("the last of two lists", 'Signature keyId="k1",headers="a",headers="b c",signature="AAAA"'),
    ("a last empty value counts", 'Signature keyId="k1",keyId=,signature="AAAA"'),
    ("letter case of a key counts", 'Signature keyid="x",KEYID="y",keyId="k1",signature="AAAA"'),
    ("a key in other letter case alone", 'Signature keyid="k1",signature="AAAA"'),
    ("no key id", 'Signature signature="AAAA"'),
    ("no signature", 'Signature keyId="k1"'),
    ("neither", "Signature "),
    ("the empty text", ""),
    ("a scheme word alone", "Signature"),
    ("a bad number before missing parts", "Signature created=x"),
    ("a bad created before a bad expires", "Signature created=x,expires=y,keyId=k"),
    ("a bad expires before missing parts", "Signature created=1,expires=y"),
    ("created is zero", "Signature created=0," + S),
    ("created with a plus", "Signature created=+7," + S),
    ("created with two", "Signature created=++7," + S),
    ("created with a minus", "Signature created=-7," + S),
    ("created is a plus alone", "Signature created=+," + S),
    ("created is empty", "Signature created=," + S),
    ("created in quotes", 'Signature created="1402170695",' + S),
    ("created in quotes with spaces", 'Signature created=" 12 ",' + S),
    ("created with leading zeros", "Signature created=0000000000000000000000007," + S),
    ("created is the greatest u64", "Signature created=18446744073709551615," + S),
    ("created is one above", "Signature created=18446744073709551616," + S),
    ("expires is the greatest u64 with a plus", "Signature expires=+18446744073709551615," + S),
    ("expires is one above", "Signature expires=18446744073709551616," + S),
    ("expires with a fraction", "Signature expires=1.5," + S),
    ("expires with a space inside", "Signature expires=1 2," + S),
    ("expires in hexadecimal", "Signature expires=0x10," + S),
    ("expires in other digits", "Signature expires=\u0661," + S),
    ("no list", "Signature " + S),
    ("an empty list has one empty name", 'Signature headers="",' + S),
    ("one name", 'Signature headers="date",' + S),
    ("names in upper case", 'Signature headers="Date X-EXAMPLE",' + S),
    ("special parts", 'Signature headers="(request-target) (created) (expires)",' + S),
    ("special parts in other letter case are names", 'Signature headers="(Created) (REQUEST-TARGET)",' + S),
    ("two spaces make an empty name", 'Signature headers="a  b",' + S),
    ("a tab doesn't cut", "Signature headers=\"a\tb\"," + S),
    ("a list without quotes", "Signature headers=a b c ," + S),
    ("a list with spaces at its ends", 'Signature headers="  a b  ",' + S),
    ("letters past ASCII keep their case", 'Signature headers="\u00c4A",' + S),
    ("a name twice", 'Signature headers="a a",' + S),
    ("a known algorithm", 'Signature algorithm="ed25519-sha512",' + S),
    ("an algorithm in its second spelling", 'Signature algorithm="rsa-sha2-256",' + S),
    ("an algorithm of SHA-3", 'Signature algorithm="rsa-sha3-512",' + S),
    ("an algorithm in other letter case is custom", 'Signature algorithm="RSA-SHA256",' + S),
    ("hs2019 is custom", 'Signature algorithm="hs2019",' + S),
    ("an algorithm that the list lacks is custom", 'Signature algorithm="ecdsa-sha512",' + S),
    ("an empty algorithm is custom", 'Signature algorithm="",' + S),
    ("an algorithm with spaces", 'Signature algorithm ="ecdsa-sha384  ",' + S),
    ("a signature in base64url", "Signature keyId=k1,signature=-_8"),
    ("a signature in quotes is of the standard form", 'Signature keyId=k1,signature="-_8"'),
    ("a signature with padding is of the standard form", "Signature keyId=k1,signature=AA=="),
    ("a signature with a plus is of the standard form", "Signature keyId=k1,signature=AA+A"),
    ("a signature with a slash is of the standard form", "Signature keyId=k1,signature=AA/A"),
    ("a quote behind alone leaves base64url", 'Signature keyId=k1,signature=AAAA"'),
    ("a quote in front alone doesn't", 'Signature keyId=k1,signature="AAAA'),
]
for known in NAMES:
    TEXTS.append((f"the algorithm {known}", f"Signature algorithm={known},{S}"))


def head(*lines, start=b"GET / HTTP/1.1", end=b"\r\n"):
    return end.join((start,) + lines) + end + end


HEADS = [
    ("no fields", head()),
    ("one field", head(b"Date: x")),
    ("a request", head(b"Host: example.org", b"Date: Tue, 07 Jun 2014 20:51:35 GMT", b"X-EmptyHeader:")),
    ("repeated fields", head(b"A: 1", b"B: 2", b"a: 3")),
    ("empty values", head(b"A:", b"B: ", b"C:\t")),
    ("white space around values", head(b"A:   x  ", b"B:\t\ty\t", b"C:z")),
    ("white space inside a value", head(b"A: x \t  y")),
    ("a value past ASCII", head(b"A: caf\xc3\xa9", b"B: \xe9")),
    ("a colon in a value", head(b"Host: a:80")),
    ("a name in mixed letter case", head(b"X-eXaMPle: 1")),
    ("a name of other token characters", head(b"!#$%&'*+-.^_`|~09: 1")),
    ("LF alone ends lines", head(b"A: 1", end=b"\n")),
    ("empty lines before the head", b"\r\n\n" + head(b"A: 1")),
    ("bytes after the head", head(b"A: 1") + b"body\r\n\r\n\xff"),
    ("a second head after the head", head() + head(start=b"PUT /x HTTP/1.1")),
    ("an absolute target", head(start=b"GET http://example.org/a?b HTTP/1.1")),
    ("an asterisk target", head(start=b"OPTIONS * HTTP/1.1")),
    ("an authority target", head(start=b"CONNECT example.org:443 HTTP/1.1")),
    ("a target with a query", head(start=b"GET /foo?q=1 HTTP/1.1")),
    ("a target past ASCII", head(start=b"GET /caf\xc3\xa9 HTTP/1.1")),
    ("a target that isn't UTF-8", head(start=b"GET /\xe9 HTTP/1.1")),
    ("HTTP/1.0", head(start=b"GET / HTTP/1.0")),
    ("HTTP/1.2", head(start=b"GET / HTTP/1.2")),
    ("HTTP/2", head(start=b"GET / HTTP/2")),
    ("a method of its own", head(start=b"x-Own / HTTP/1.1")),
    ("no method", head(start=b" / HTTP/1.1")),
    ("no target", head(start=b"GET  HTTP/1.1")),
    ("two spaces before the target", head(start=b"GET  / HTTP/1.1")),
    ("two spaces behind the target", head(start=b"GET /  HTTP/1.1")),
    ("a tab for a space", head(start=b"GET\t/ HTTP/1.1")),
    ("three bytes", b"GET"),
    ("no bytes", b""),
    ("a head without its last line", b"GET / HTTP/1.1\r\nA: 1\r\n"),
    ("a start line alone", b"GET / HTTP/1.1\r\n"),
    ("a folded line with a space", head(b"A: 1", b" 2")),
    ("a folded line with a tab", head(b"A: 1", b"\t2")),
    ("a space before the colon", head(b"A : 1")),
    ("a space before the name", head(b" A: 1")),
    ("no colon", head(b"A")),
    ("no name", head(b": 1")),
    ("a name past ASCII", head(b"\xc3\xa4: 1")),
    ("CR in a value", head(b"A: 1\r2")),
    ("DEL in a value", head(b"A: 1\x7f")),
    ("NUL in a value", head(b"A: \x00")),
    ("100 fields", head(*[b"A:%d" % i for i in range(100)])),
    ("101 fields", head(*[b"A:%d" % i for i in range(101)])),
]

FOO = (
    b"GET /foo?q=1 HTTP/1.1\r\nHost: example.org\r\nDate: Tue, 07 Jun 2014 20:51:35 GMT\r\n"
    b"X-Example:  Example header       with some whitespace.   \r\nX-EmptyHeader:\r\n"
    b"Cache-Control: max-age=60\r\nCache-Control: must-revalidate\r\nX-Bytes: \xe9\r\n\r\n"
)
COVERED = "(request-target) (created) host date cache-control x-emptyheader X-EXAMPLE"
FOO_LINES = (
    "(request-target): get /foo\n(created): 1402170695\nhost: example.org\ndate: Tue, 07 Jun 2014 20:51:35 GMT\n"
    "cache-control: max-age=60, must-revalidate\nx-emptyheader:\nx-example: Example header       with some whitespace."
)
FOO_TEXT = f'Signature keyId="k1",created=1402170695,headers="{COVERED}",signature="+/8="'
MOMENT = 1402170695
MAX = 2**64 - 1


def check(name, text, recorded, now=None, leeway=0, data=FOO, given=None, signature=b"\0\0\0"):
    return (name, now, leeway, data, given, recorded, signature, text)


CHECKS = [
    check("the lines of a request", FOO_TEXT, FOO_LINES, MOMENT, signature=b"\xfb\xff"),
    check("the lines joined by CR LF", FOO_TEXT, FOO_LINES.replace("\n", "\r\n"), MOMENT, signature=b"\xfb\xff"),
    check("the lines with an LF behind", FOO_TEXT, FOO_LINES + "\n", MOMENT, signature=b"\xfb\xff"),
    check("the query isn't covered", FOO_TEXT, FOO_LINES.replace("/foo", "/foo?q=1"), MOMENT, signature=b"\xfb\xff"),
    check("another signature", FOO_TEXT, FOO_LINES, MOMENT, signature=b"\xfb\xfe"),
    check("base64url of the same", FOO_TEXT.replace('"+/8="', "-_8"), FOO_LINES, MOMENT, signature=b"\xfb\xff"),
    check("base64url in quotes", FOO_TEXT.replace("+/8=", "-_8"), FOO_LINES, MOMENT, signature=b"\xfb\xff"),
    check("one symbol of base64url", "Signature keyId=k1,headers=x,signature=A", "x:"),
    check("stray bits", "Signature keyId=k1,headers=x,signature=AAB", "x:"),
    check("without a moment", FOO_TEXT, FOO_LINES, None, signature=b"\xfb\xff"),
    check("without a request", FOO_TEXT, FOO_LINES, MOMENT, data=None, signature=b"\xfb\xff"),
    check("an absent header has an empty line", 'Signature keyId="k1",headers="absent date",signature="AAAA"', "absent:\ndate: Tue, 07 Jun 2014 20:51:35 GMT"),
    check("an absent header isn't dropped", 'Signature keyId="k1",headers="absent date",signature="AAAA"', "date: Tue, 07 Jun 2014 20:51:35 GMT"),
    check("an empty list covers one empty name", 'Signature keyId="k1",headers="",signature="AAAA"', ":"),
    check("no list covers created", 'Signature keyId="k1",created=+7,signature="AAAA"', "(created): 7", 7, data=None),
    check("no list and no created", 'Signature keyId="k1",signature="AAAA"', "", 7, data=None),
    check("expires is covered and not there", 'Signature keyId="k1",headers="(expires)",signature="AAAA"', ""),
    check("created in other letter case is a name", 'Signature keyId="k1",created=7,headers="(Created)",signature="AAAA"', "(created):", 7),
    check("a covered value with the byte E9", 'Signature keyId="k1",headers="date x-bytes",signature="AAAA"', ""),
    check("the same where it isn't covered", 'Signature keyId="k1",headers="host",signature="AAAA"', "host: example.org"),
    check("the first line without an answer decides", 'Signature keyId="k1",headers="x-bytes (expires)",signature="AAAA"', ""),
    check("the same in the other order", 'Signature keyId="k1",headers="(expires) x-bytes",signature="AAAA"', ""),
    check("a line is looked at before base64", 'Signature keyId="k1",headers="x-bytes",signature="A"', ""),
    check("dates are looked at before lines", 'Signature keyId="k1",created=8,headers="x-bytes",signature="A"', "", 7),
    check("expires is looked at before created", 'Signature keyId="k1",created=9,expires=5,signature="A"', "", 7),
    check("an algorithm is looked at before dates", 'Signature keyId="k1",algorithm="rsa-sha256",created=9,signature="A"', "", 7),
    check("a known algorithm that fits", 'Signature keyId="k1",algorithm="ed25519-sha512",headers="host",signature="AAAA"', "host: example.org"),
    check("a custom algorithm", 'Signature keyId="k1",algorithm="hs2019",headers="host",signature="AAAA"', "host: example.org"),
    check("an algorithm of another family", 'Signature keyId="k1",algorithm="ecdsa-sha256",headers="host",signature="AAAA"', "host: example.org"),
    check("not yet valid", 'Signature keyId="k1",created=7,signature="AAAA"', "(created): 7", 6, data=None),
    check("valid with a leeway", 'Signature keyId="k1",created=7,signature="AAAA"', "(created): 7", 6, 1, data=None),
    check("at its end with a leeway", 'Signature keyId="k1",created=7,expires=5,signature="AAAA"', "(created): 7", 10, 5, data=None),
    check("past its end with a leeway", 'Signature keyId="k1",created=7,expires=5,signature="AAAA"', "(created): 7", 10, 4, data=None),
    check("a leeway above the moment", 'Signature keyId="k1",created=7,expires=0,signature="AAAA"', "(created): 7", 7, 65535, data=None),
    check("the greatest dates", f'Signature keyId="k1",created={MAX},expires={MAX},signature="AAAA"', f"(created): {MAX}", MAX, MAX, data=None),
    check("the greatest created at moment 0", f'Signature keyId="k1",created={MAX},signature="AAAA"', f"(created): {MAX}", 0, MAX, data=None),
    check("the same with a smaller leeway", f'Signature keyId="k1",created={MAX},signature="AAAA"', f"(created): {MAX}", 0, MAX - 1, data=None),
    check("a given string", 'Signature keyId="k1",headers="absent (expires)",signature="AAAA"', "any\r\ntext", data=None, given="any\r\ntext"),
    check("another given string", 'Signature keyId="k1",headers="absent",signature="AAAA"', "any\ntext", data=None, given="any\r\ntext"),
    check("a given string and dates", 'Signature keyId="k1",created=8,signature="AAAA"', "any", 7, data=None, given="any"),
]

KINDS = ("head", "parts", "request", "none")
REQUESTS = [
    ("a request", FOO, ["host", "DATE", "cache-control", "x-emptyheader", "X-Example", "absent", "X-BYTES", ""]),
    ("no query", head(b"A: 1", start=b"GET /a/b HTTP/1.1"), ["a"]),
    ("a method of its own", head(start=b"x-Own / HTTP/1.1"), []),
    ("an empty query", head(start=b"DELETE /a? HTTP/1.1"), []),
    ("two question marks", head(start=b"PUT /a?b?c HTTP/1.1"), []),
    ("an absolute target", head(start=b"GET http://example.org/a?b HTTP/1.1"), []),
    ("an absolute target without a path", head(start=b"GET http://example.org HTTP/1.1"), []),
    ("an asterisk target", head(start=b"OPTIONS * HTTP/1.1"), []),
    ("an authority target", head(start=b"CONNECT example.org:443 HTTP/1.1"), []),
    ("a fragment", head(start=b"GET /a#b HTTP/1.1"), []),
    ("repeated fields", head(b"A: 1", b"B: 2", b"a:\t3 ", b"A:", b"A: 4, 5"), ["a", "B"]),
    ("one of two values past ASCII", head(b"A: 1", b"a: caf\xc3\xa9", b"B: 2"), ["A", "b"]),
    ("a tab inside a value", head(b"A: x\ty"), ["a"]),
]
REQUEST_CHECKS = [c for c in CHECKS if c[3] is FOO and c[0] in (
    "the lines of a request",
    "the lines joined by CR LF",
    "the query isn't covered",
    "another signature",
    "an absent header has an empty line",
    "an absent header isn't dropped",
    "a covered value with the byte E9",
    "the first line without an answer decides",
    "the same in the other order",
)] + [
    check("a covered absolute target", 'Signature keyId="k1",headers="(request-target)",signature="AAAA"', "(request-target): get http://example.org/a", 7, data=head(start=b"GET http://example.org/a?b HTTP/1.1")),
    check("its path alone", 'Signature keyId="k1",headers="(request-target)",signature="AAAA"', "(request-target): get /a", 7, data=head(start=b"GET http://example.org/a?b HTTP/1.1")),
    check("a covered asterisk target", 'Signature keyId="k1",headers="(request-target)",signature="AAAA"', "(request-target): options *", 7, data=head(start=b"OPTIONS * HTTP/1.1")),
    check("created alone", 'Signature keyId="k1",created=7,signature="AAAA"', "(created): 7", 7, data=head()),
]

if __name__ == "__main__":
    read_rows()
    print()
    head_rows()
    print()
    verify_rows()
    print()
    request_rows()
