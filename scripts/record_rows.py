#!/usr/bin/env python3
"""Prints rows over records documents: keys that `openssl` makes for this run and throws away, test keys that protect nothing, with
signatures, wrapped keys and secrets that `openssl` and python's `cryptography` make of them.

- `records.read`: `Ok`, or the refusal that the rule says which the row's name tells.
- `records.verify`, `sign`, `public`, `unwrap`, `wrap`, `agree`, `ephemeral`: what the document says, whose values `openssl` and
  `cryptography` gave.
- `users.signed`, `wrapped`: callers who find again what they made, so `true`.

They stand at the end of crates/key_rows/stdout. Run at the root of the repository: python3 scripts/record_rows.py
"""
import base64
import subprocess

from cryptography.hazmat.primitives import hashes
from cryptography.hazmat.primitives.asymmetric import ec, padding
from cryptography.hazmat.primitives.serialization import load_der_private_key, load_der_public_key


def openssl(*words, given=b""):
    return subprocess.run(["openssl", *words], input=given, check=True, stdout=subprocess.PIPE, stderr=subprocess.DEVNULL).stdout


def made(*words):
    return openssl("pkcs8", "-topk8", "-nocrypt", "-outform", "DER", given=openssl("genpkey", *words))


def public_of(private):
    return openssl("pkey", "-inform", "DER", "-pubout", "-outform", "DER", given=private)


def without_point(private):
    """The PKCS #8 of a key on a curve without its public key."""
    return openssl("pkcs8", "-topk8", "-nocrypt", "-outform", "DER", given=openssl("ec", "-inform", "DER", "-no_public", given=private))


def field(data):
    return base64.urlsafe_b64encode(data).decode().rstrip("=")


def der(tag, *parts):
    body = b"".join(parts)
    n = len(body)
    size = bytes([n]) if n < 128 else bytes([129, n]) if n < 256 else bytes([130]) + n.to_bytes(2, "big")
    return bytes([tag]) + size + body


def numbers(*values):
    return der(0x30, *[der(2, v) for v in values])


def line(*fields):
    return " ".join(f if isinstance(f, str) else field(f) for f in fields) + "\\n"


def row(name, call, words, answer):
    call = call if "." in call else "records." + call
    print("%s => %s" % (("%s: %s %s" % (name, call, words)).rstrip(), answer))


def read(name, document, answer):
    """The answer is `Ok`, or a refusal and the number of its line."""
    refusal, _, number = answer.partition(" ")
    row(name, "read", document, "%s { line: %s }" % (refusal, number) if number else refusal)


A43 = "A" * 43
SK = "MCowBQYDK2VwAyEA" + A43
SK1 = "MCowBQYDK2VwAyEA" + "A" * 42 + "E"
PE = "MC4CAQAwBQYDK2VwBCIEI" + A43
SR = "MB4wDQYJKoZIhvcNAQEBBQADDQAwCgIDAQABAgMBAAE"


def plain(text):
    return base64.urlsafe_b64decode(text + "=" * (-len(text) % 4)).hex()


rsa = made("-algorithm", "RSA", "-pkeyopt", "rsa_keygen_bits:1024")
rsa_other = made("-algorithm", "RSA", "-pkeyopt", "rsa_keygen_bits:1024")
curves = {c: made("-algorithm", "EC", "-pkeyopt", "ec_paramgen_curve:" + c) for c in ["P-256", "P-384", "P-521", "secp256k1"]}
p256, other256 = curves["P-256"], made("-algorithm", "EC", "-pkeyopt", "ec_paramgen_curve:P-256")
bare256 = without_point(p256)
ed, ed_other = made("-algorithm", "ED25519"), made("-algorithm", "ED25519")
x, x_other = made("-algorithm", "X25519"), made("-algorithm", "X25519")
spki = public_of
message = b"a message"

print("# Documents: lines, each ended by LF")
read("no lines", "", "Ok")
read("a word", "x\\n", "BadLine 1")
read("a word without its LF", "x", "BadLine 1")
read("an empty line", "\\n", "BadLine 1")
read("one line", line("sig", "ed25519-sha512", SK, b"m", b"s"), "Ok")
read("the last line lacks its LF", line("sig", "ed25519-sha512", SK, b"m", b"s") * 2 + line("sig", "ed25519-sha512", SK, b"m", b"s")[:-2], "BadLine 3")
read("CR before LF", line("sig", "ed25519-sha512", SK, b"m", "AAAA\\r"), "BadLine 1")
read("two spaces", "sig  ed25519-sha512 %s AAAA AAAA\\n" % SK, "BadLine 1")
read("a space at the end", "sig ed25519-sha512 %s AAAA AAAA \\n" % SK, "BadLine 1")
read("another word in front", "sign ed25519-sha512 %s AAAA AAAA\\n" % SK, "BadLine 1")
read("a field too many in a pair", "pair %s %s AAAA\\n" % (PE, SK), "BadLine 1")
read("the first of two bad lines", line("sig", "ed25519-sha512", SK, b"m", b"s") + "x\\nx\\n", "BadLine 2")
read("a bad line behind a line of another family", line("sig", "rsa-sha256", SK, b"m", b"s") + "x\\n", "Family 1")
read("a line of another family behind a bad line", "x\\n" + line("sig", "rsa-sha256", SK, b"m", b"s"), "BadLine 1")
read("a conflict behind a bad line", "x\\n" + "pair %s %s\\npair %s %s\\n" % (PE, SK, PE, SK1), "BadLine 1")
read("two bad lines of one family each", line("sig", "rsa-sha256", SK, b"m", b"s") * 2, "Family 1")
read("the tenth line", line("sig", "ed25519-sha512", SK, b"m", b"s") * 9 + "x\\n", "BadLine 10")
read("the same line twice", line("sig", "ed25519-sha512", SK, b"m", b"s") * 2, "Ok")
read("two signatures of one message", line("sig", "ed25519-sha512", SK, b"m", b"s") + line("sig", "ed25519-sha512", SK, b"m", b"t"), "Ok")
read("a line of each kind, in any order", line("agree", spki(x), spki(x_other), b"s") + line("unwrap", "RSA1_5", rsa, b"w", b"c") + "pair %s %s\\n" % (PE, SK) + line("sig", "ed25519-sha512", SK, b"m", b"s"), "Ok")
read("LF alone behind a line", line("sig", "ed25519-sha512", SK, b"m", b"s") + "\\n", "BadLine 2")
read("a field too few in a signature", "sig ed25519-sha512 %s AAAA\\n" % SK, "BadLine 1")
read("a field too few in a pair", "pair %s\\n" % PE, "BadLine 1")
read("a field too few in a wrapped key", "unwrap RSA1_5 %s AAAA\\n" % field(rsa), "BadLine 1")
read("a field too few in an agreement", "agree %s %s\\n" % (field(spki(x)), field(spki(x_other))), "BadLine 1")

print()
print("# Lines of signatures")
SIG = "sig"
for name in ["md5", "sha1", "sha224", "sha256", "sha384", "sha512", "sha3-384", "sha3-512"]:
    read("rsa-%s" % name, line(SIG, "rsa-" + name, spki(rsa), message, b"s"), "Ok")
    read("ecdsa-%s" % name, line(SIG, "ecdsa-" + name, spki(p256), message, numbers(b"\x01", b"\x01")), "Ok")
for name in ["rsa-sha3-256", "rsa-", "rsa-SHA256", "ecdsa", "ed25519", "ed25519-sha256", "eddsa-sha512"]:
    read("an algorithm without a name (%s)" % name, line(SIG, name, spki(rsa), message, b"s"), "BadLine 1")
read("an empty algorithm", line(SIG, "", spki(rsa), message, b"s"), "BadLine 1")
read("an empty message", line(SIG, "ed25519-sha512", SK, b"", b"s"), "Ok")
read("an empty signature", line(SIG, "ed25519-sha512", SK, message, b""), "BadLine 1")
read("stray bits", line(SIG, "ed25519-sha512", SK, message, "AAB"), "BadLine 1")
read("padding", line(SIG, "ed25519-sha512", SK, message, "AA=="), "BadLine 1")
read("the other alphabet", line(SIG, "ed25519-sha512", SK, message, "+/+/"), "BadLine 1")
read("a key that can't be read", line(SIG, "ed25519-sha512", spki(ed)[:-1], message, b"s"), "BadLine 1")
read("RSA parameters left out", line(SIG, "rsa-sha256", der(0x30, der(0x30, bytes.fromhex("06092a864886f70d010101")), der(3, b"\0" + numbers(b"\x03", b"\x03"))), message, b"s"), "Ok")
read("RSA with an Ed25519 key", line(SIG, "rsa-sha256", SK, message, b"s"), "Family 1")
read("RSA with a key on a curve", line(SIG, "rsa-sha256", spki(p256), message, b"s"), "Family 1")
read("Ed25519 with an RSA key", line(SIG, "ed25519-sha512", spki(rsa), message, b"s"), "Family 1")
read("Ed25519 with an X25519 key", line(SIG, "ed25519-sha512", spki(x), message, b"s"), "Family 1")
read("ECDSA with an RSA key", line(SIG, "ecdsa-sha256", spki(rsa), message, numbers(b"\x01", b"\x01")), "Family 1")
read("ECDSA with another curve", line(SIG, "ecdsa-sha256", spki(curves["secp256k1"]), message, numbers(b"\x01", b"\x01")), "Family 1")
read("ECDSA with an RSA key, and no pair", line(SIG, "ecdsa-sha256", spki(rsa), message, b"s"), "BadLine 1")
read("ECDSA with another curve, and a long number", line(SIG, "ecdsa-sha256", spki(curves["secp256k1"]), message, numbers(b"\x01" * 70, b"\x01")), "Family 1")
read("a pair that is no sequence", line(SIG, "ecdsa-sha256", spki(p256), message, b"\x00" * 64), "BadLine 1")
read("a number below zero", line(SIG, "ecdsa-sha256", spki(p256), message, numbers(b"\xff", b"\x01")), "BadLine 1")
read("the second number below zero", line(SIG, "ecdsa-sha256", spki(p256), message, numbers(b"\x01", b"\x80")), "BadLine 1")
read("a needless byte in front", line(SIG, "ecdsa-sha256", spki(p256), message, numbers(b"\x00\x01", b"\x01")), "BadLine 1")
read("a number of no byte", line(SIG, "ecdsa-sha256", spki(p256), message, numbers(b"", b"\x01")), "BadLine 1")
read("three numbers", line(SIG, "ecdsa-sha256", spki(p256), message, numbers(b"\x01", b"\x01", b"\x01")), "BadLine 1")
read("a byte behind the pair", line(SIG, "ecdsa-sha256", spki(p256), message, numbers(b"\x01", b"\x01") + b"\x00"), "BadLine 1")
read("zero and zero", line(SIG, "ecdsa-sha256", spki(p256), message, numbers(b"\x00", b"\x00")), "Ok")
for curve, size in [("P-256", 32), ("P-384", 48), ("P-521", 66)]:
    key = spki(curves[curve])
    read("numbers as long as the field of %s" % curve, line(SIG, "ecdsa-sha256", key, message, numbers(b"\x7f" + b"\xff" * (size - 1), b"\x00" + b"\xff" * size)), "Ok")
    read("a number longer than the field of %s" % curve, line(SIG, "ecdsa-sha256", key, message, numbers(b"\x01" + b"\x00" * size, b"\x01")), "BadLine 1")
    read("a second number longer than the field of %s" % curve, line(SIG, "ecdsa-sha256", key, message, numbers(b"\x01", b"\x01" + b"\x00" * size)), "BadLine 1")

rsa_signature = load_der_private_key(rsa, None).sign(message, padding.PKCS1v15(), hashes.SHA256())
ec_signatures = {c: load_der_private_key(curves[c], None).sign(message, ec.ECDSA(hashes.SHA256())) for c in ["P-256", "P-384", "P-521"]}
ed_signature = load_der_private_key(ed, None).sign(message)
signed = line(SIG, "rsa-sha256", spki(rsa), message, rsa_signature) + "".join(line(SIG, "ecdsa-sha256", spki(curves[c]), message, s) for c, s in ec_signatures.items()) + line(SIG, "ed25519-sha512", spki(ed), message, ed_signature)
read("signatures of five keys", signed, "Ok")
row("a recorded signature of RSA", "verify", "%s rsa-sha256 %s %s %s" % (spki(rsa).hex(), message.hex(), rsa_signature.hex(), signed), "true")
row("a recorded signature of P-521", "verify", "%s ecdsa-sha256 %s %s %s" % (spki(curves["P-521"]).hex(), message.hex(), ec_signatures["P-521"].hex(), signed), "true")
row("a recorded signature of Ed25519", "verify", "%s ed25519-sha512 %s %s %s" % (spki(ed).hex(), message.hex(), ed_signature.hex(), signed), "true")
row("another hash", "verify", "%s rsa-sha384 %s %s %s" % (spki(rsa).hex(), message.hex(), rsa_signature.hex(), signed), "false")
row("another key", "verify", "%s rsa-sha256 %s %s %s" % (spki(rsa_other).hex(), message.hex(), rsa_signature.hex(), signed), "false")
row("another message", "verify", "%s rsa-sha256 %s %s %s" % (spki(rsa).hex(), b"a massage".hex(), rsa_signature.hex(), signed), "false")
row("another signature", "verify", "%s rsa-sha256 %s %s %s" % (spki(rsa).hex(), message.hex(), rsa_signature[:-1].hex(), signed), "false")
row("signed by a recorded RSA key", "sign", "%s rsa-sha256 %s %s" % (rsa.hex(), message.hex(), signed), rsa_signature.hex())
row("signed by a recorded key on P-256", "sign", "%s ecdsa-sha256 %s %s" % (p256.hex(), message.hex(), signed), ec_signatures["P-256"].hex())
row("signed by a key without public part", "sign", "%s ed25519-sha512 %s %s" % (ed.hex(), message.hex(), signed), "none")
row("signed by a key of a pair", "sign", "%s ed25519-sha512 %s %s" % (ed.hex(), message.hex(), signed + line("pair", ed, spki(ed))), ed_signature.hex())
row("the first of two signatures", "sign", "%s rsa-sha256 %s %s" % (rsa.hex(), message.hex(), line(SIG, "rsa-sha256", spki(rsa), message, b"one") + line(SIG, "rsa-sha256", spki(rsa), message, b"two")), b"one".hex())

print()
print("# Pairs")
row("the public key of a pair", "public", "%s %s" % (plain(PE), "pair %s %s\\n" % (PE, SK)), plain(SK))
row("no pair", "public", "%s " % plain(PE), "none")
row("a public part", "public", "%s " % rsa.hex(), spki(rsa).hex())
row("a public part on a curve", "public", "%s " % p256.hex(), spki(p256).hex())
read("another public key of the pair", "pair %s %s\\npair %s %s\\n" % (PE, SK, PE, SK1), "Conflict 2")
read("the same pair twice", "pair %s %s\\n" % (PE, SK) * 2, "Ok")
read("two pairs", line("pair", ed, spki(ed)) + line("pair", ed_other, spki(ed_other)), "Ok")
read("a pair of RSA keys", line("pair", rsa, spki(rsa)), "Ok")
read("another public part of an RSA key", line("pair", rsa, spki(rsa_other)), "Conflict 1")
read("another point than the key's own", line("pair", p256, spki(other256)), "Conflict 1")
read("a point compressed is another key", line("pair", p256, openssl("ec", "-inform", "DER", "-pubout", "-conv_form", "compressed", "-outform", "DER", given=p256)), "Conflict 1")
read("a key without its point, and another's", line("pair", bare256, spki(other256)), "Ok")
read("RSA and Ed25519", line("pair", rsa, spki(ed)), "Family 1")
read("Ed25519 and X25519", line("pair", ed, spki(x)), "Family 1")
read("two curves", line("pair", bare256, spki(curves["P-384"])), "Family 1")
read("a known curve and another", line("pair", bare256, spki(curves["secp256k1"])), "Family 1")
read("a curve that isn't known", line("pair", curves["secp256k1"], spki(curves["secp256k1"])), "Ok")
read("a private key that can't be read", line("pair", ed[:-1], spki(ed)), "BadLine 1")
read("a public key in the private one's place", line("pair", spki(ed), spki(ed)), "BadLine 1")
row("the public key of one of two pairs", "public", "%s %s" % (ed_other.hex(), line("pair", ed, spki(ed)) + line("pair", ed_other, spki(ed_other))), spki(ed_other).hex())
read("another public key behind another pair", line("pair", ed, spki(ed)) + line("pair", ed_other, spki(ed_other)) + line("pair", ed, spki(ed_other)), "Conflict 3")
read("a pair of another kind, with another part than its own", line("pair", rsa, spki(p256)), "Family 1")
read("a public key that can't be read, of another kind", line("pair", rsa, spki(p256)[:-1]), "BadLine 1")
read("a conflict behind a family", line("pair", rsa, spki(ed)) + "pair %s %s\\npair %s %s\\n" % (PE, SK, PE, SK1), "Family 1")
read("a conflict in front of a family", "pair %s %s\\npair %s %s\\n" % (PE, SK, PE, SK1) + line("pair", rsa, spki(ed)), "Conflict 2")

print()
print("# Wrapped keys")
cek = bytes(range(32))
wrapped = {
    "RSA1_5": load_der_public_key(spki(rsa)).encrypt(cek, padding.PKCS1v15()),
    "RSA-OAEP": load_der_public_key(spki(rsa)).encrypt(cek, padding.OAEP(padding.MGF1(hashes.SHA1()), hashes.SHA1(), None)),
    "RSA-OAEP-256": load_der_public_key(spki(rsa)).encrypt(cek, padding.OAEP(padding.MGF1(hashes.SHA256()), hashes.SHA256(), None)),
}
document = "".join(line("unwrap", s, rsa, w, cek) for s, w in wrapped.items())
read("each scheme", document, "Ok")
for scheme, w in wrapped.items():
    row("unwrapped by %s" % scheme, "unwrap", "%s %s %s %s" % (scheme, rsa.hex(), w.hex(), document), cek.hex())
    row("wrapped by %s" % scheme, "wrap", "%s %s %s %s" % (scheme, spki(rsa).hex(), cek.hex(), document), w.hex())
row("unwrapped by another scheme", "unwrap", "RSA1_5 %s %s %s" % (rsa.hex(), wrapped["RSA-OAEP"].hex(), document), "none")
row("unwrapped by another key", "unwrap", "RSA1_5 %s %s %s" % (rsa_other.hex(), wrapped["RSA1_5"].hex(), document), "none")
row("wrapped for another key", "wrap", "RSA1_5 %s %s %s" % (spki(rsa_other).hex(), cek.hex(), document), "none")
row("the first of two wrapped keys", "wrap", "RSA1_5 %s %s %s" % (spki(rsa).hex(), cek.hex(), line("unwrap", "RSA1_5", rsa, b"one", cek) + line("unwrap", "RSA1_5", rsa, b"two", cek)), b"one".hex())
read("another content key", line("unwrap", "RSA1_5", rsa, b"w", cek) + line("unwrap", "RSA1_5", rsa, b"w", cek[:-1]), "Conflict 2")
read("the same content key", line("unwrap", "RSA1_5", rsa, b"w", cek) * 2, "Ok")
read("another content key of another wrapped key", line("unwrap", "RSA1_5", rsa, b"w", cek) + line("unwrap", "RSA1_5", rsa, b"v", cek[:-1]), "Ok")
read("another content key of another scheme", line("unwrap", "RSA1_5", rsa, b"w", cek) + line("unwrap", "RSA-OAEP", rsa, b"w", cek[:-1]), "Ok")
read("another content key of another private key", line("unwrap", "RSA1_5", rsa, b"w", cek) + line("unwrap", "RSA1_5", rsa_other, b"w", cek[:-1]), "Ok")
read("another content key in its third line", line("unwrap", "RSA1_5", rsa, b"w", cek) * 2 + line("unwrap", "RSA1_5", rsa, b"w", cek[:-1]), "Conflict 3")
read("another content key that is no base64url", line("unwrap", "RSA1_5", rsa, b"w", cek) + line("unwrap", "RSA1_5", rsa, b"w", "AA=="), "BadLine 2")
read("a key that isn't RSA, and a content key that is no base64url", line("unwrap", "RSA1_5", p256, b"w", "AA=="), "BadLine 1")
read("another scheme's name", line("unwrap", "RSA-OAEP-512", rsa, b"w", cek), "BadLine 1")
read("a key that isn't RSA", line("unwrap", "RSA1_5", p256, b"w", cek), "Family 1")
read("an empty wrapped key and an empty content key", line("unwrap", "RSA1_5", rsa, b"", b""), "Ok")
attributes = der(0x30, rsa[4:], der(0xA0, der(0x30, bytes.fromhex("0603551d0f"), der(0x31, bytes.fromhex("03020410")))))
read("another content key of the same key with attributes", line("unwrap", "RSA1_5", rsa, b"w", cek) + line("unwrap", "RSA1_5", attributes, b"w", cek[:-1]), "Conflict 2")
row("unwrapped by the same key with attributes", "unwrap", "RSA1_5 %s %s %s" % (attributes.hex(), wrapped["RSA1_5"].hex(), document), cek.hex())

print()
print("# Agreements")
secret = load_der_private_key(x, None).exchange(load_der_public_key(spki(x_other)))
secret256 = load_der_private_key(p256, None).exchange(ec.ECDH(), load_der_public_key(spki(other256)))
agreed = line("agree", spki(x), spki(x_other), secret) + line("agree", spki(p256), spki(other256), secret256)
read("X25519 and P-256", agreed, "Ok")
row("agreed on P-256", "agree", "%s %s %s" % (p256.hex(), spki(other256).hex(), agreed), secret256.hex())
row("agreed in the other order", "agree", "%s %s %s" % (other256.hex(), spki(p256).hex(), agreed), secret256.hex())
row("agreed by a key without public part", "agree", "%s %s %s" % (x.hex(), spki(x_other).hex(), agreed), "none")
row("agreed by a key of a pair", "agree", "%s %s %s" % (x.hex(), spki(x_other).hex(), agreed + line("pair", x, spki(x))), secret.hex())
row("agreed on P-256 by the peer's own key", "agree", "%s %s %s" % (p256.hex(), spki(p256).hex(), line("agree", spki(p256), spki(p256), b"own")), b"own".hex())
row("agreed with another peer", "agree", "%s %s %s" % (p256.hex(), spki(p256).hex(), agreed), "none")
row("an ephemeral key for the first key", "ephemeral", "%s %s" % (spki(x).hex(), agreed), "%s %s" % (spki(x_other).hex(), secret.hex()))
row("an ephemeral key for the second key", "ephemeral", "%s %s" % (spki(other256).hex(), agreed), "%s %s" % (spki(p256).hex(), secret256.hex()))
row("the first of two ephemeral keys", "ephemeral", "%s %s" % (spki(x).hex(), line("agree", spki(x_other), spki(x), b"one") + line("agree", spki(x), spki(x), b"two")), "%s %s" % (spki(x_other).hex(), b"one".hex()))
row("an ephemeral key without a secret", "ephemeral", "%s %s" % (spki(x).hex(), line("agree", spki(x), spki(x_other), b"")), "%s -" % spki(x_other).hex())
row("no ephemeral key", "ephemeral", "%s %s" % (spki(ed).hex(), agreed), "none")
read("another secret", line("agree", spki(x), spki(x_other), b"s") + line("agree", spki(x), spki(x_other), b"t"), "Conflict 2")
read("another secret in the other order", line("agree", spki(x), spki(x_other), b"s") + line("agree", spki(x_other), spki(x), b"t"), "Conflict 2")
read("the same secret in the other order", line("agree", spki(x), spki(x_other), b"s") + line("agree", spki(x_other), spki(x), b"s"), "Ok")
read("a key with itself", line("agree", spki(x), spki(x), b"s"), "Ok")
read("an empty secret", line("agree", spki(x), spki(x_other), b""), "Ok")
read("P-256 and P-384", line("agree", spki(p256), spki(curves["P-384"]), b"s"), "Family 1")
read("a curve that isn't known", line("agree", spki(curves["secp256k1"]), spki(curves["secp256k1"]), b"s"), "Family 1")
read("two Ed25519 keys", line("agree", spki(ed), spki(ed_other), b"s"), "Family 1")
read("two RSA keys", line("agree", spki(rsa), spki(rsa_other), b"s"), "Family 1")
read("X25519 and P-256 in one line", line("agree", spki(x), spki(p256), b"s"), "Family 1")
read("an Ed25519 and an X25519 key", line("agree", spki(ed), spki(x), b"s"), "Family 1")
read("a secret that is no base64url, of two RSA keys", line("agree", spki(rsa), spki(rsa_other), "AA=="), "BadLine 1")
read("another secret in the other order, in the third line", line("agree", spki(x), spki(x_other), b"s") * 2 + line("agree", spki(x_other), spki(x), b"t"), "Conflict 3")
read("another secret of another peer", line("agree", spki(p256), spki(other256), b"s") + line("agree", spki(p256), spki(p256), b"t"), "Ok")

print()
print("# Callers, who find again what they signed and wrapped")
users = signed + document
row("a signature of RSA", "users.signed", "%s rsa-sha256 %s %s" % (rsa.hex(), message.hex(), users), "true")
row("a signature of P-256", "users.signed", "%s ecdsa-sha256 %s %s" % (p256.hex(), message.hex(), users), "true")
row("a key that signs nothing", "users.signed", "%s ed25519-sha512 %s %s" % (ed.hex(), message.hex(), users), "true")
for scheme in wrapped:
    row("a key wrapped by %s" % scheme, "users.wrapped", "%s %s %s %s" % (rsa.hex(), scheme, cek.hex(), users), "true")
row("a key that wraps nothing", "users.wrapped", "%s RSA1_5 %s %s" % (rsa_other.hex(), cek.hex(), users), "true")
