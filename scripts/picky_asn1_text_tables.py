#!/usr/bin/env python3
"""Prints rows of texts of crates/asn1_rows/stdout.

The sets of one byte are the tables of X.680 for NumericString (41.2) and PrintableString (41.4), written out, the
bytes of IA5 (00 to 7F), and the bytes that Python's codec utf-8 takes alone. Each BMPString is written by
`openssl asn1parse -genstr FORMAT:UTF8,BMP:TEXT` (its header of two bytes is cut off) and compared with Python's codec
utf-16-be. Texts above U+FFFF have no BMPString.
"""
import string
import subprocess
import tempfile

TEXTS = ["User", "password", "é", "BUéisuteurnt", "苗字", "Ελλά", "При", "€", "\ud7ff", "\ue000", "\uffff", "A\u0000B"]
ABOVE = ["\U0001f511", "a\U00010000", "\U0010ffffz"]


def by_openssl(text):
    with tempfile.NamedTemporaryFile() as out:
        subprocess.run(["openssl", "asn1parse", "-genstr", "FORMAT:UTF8,BMP:" + text, "-noout", "-out", out.name], check=True)
        der = out.read()
    assert der[0] == 0x1E and der[1] == len(der) - 2 < 0x80
    return der[2:]


def by_utf8(byte):
    try:
        return bool(bytes([byte]).decode("utf-8"))
    except UnicodeDecodeError:
        return False


def named(text):
    if text.isprintable() and all(ord(c) < 0xD7FF for c in text):
        return text
    return " ".join(c if c.isalpha() and ord(c) < 0x80 else "U+%04X" % ord(c) for c in text)


SETS = {
    "numeric": set(string.digits.encode() + b" "),
    "printable": set(string.ascii_letters.encode() + string.digits.encode() + b" '()+,-./:=?"),
    "ia5": set(range(0x80)),
    "utf8": {byte for byte in range(0x100) if by_utf8(byte)},
}

print("# The bytes that are in a set alone: the tables of X.680, 41.2 and 41.4; 00 to 7F; what Python's codec utf-8 takes.")
for name, members in SETS.items():
    print("the bytes of %s: text.members %s => %s" % (name, name, bytes(sorted(members)).hex()))
print("# By openssl asn1parse and Python's codec utf-16-be: two bytes for each character.")
for text in TEXTS:
    codec = text.encode("utf-16-be")
    if "\0" not in text and text != "\uffff":
        assert by_openssl(text) == codec, text
    plain, held = text.encode().hex(), codec.hex()
    print("%s in two bytes a character: text.from_str bmp %s => %s" % (named(text), plain, held))
    print("%s is read back: text.to_utf8 bmp %s => %s" % (named(text), held, plain))
    print("%s is the same by its bytes: text.is_that_of bmp %s %s => true" % (named(text), held, plain))
for text in ABOVE:
    print("%s has a character above U+FFFF: text.from_str bmp %s => Invalid" % (named(text), text.encode().hex()))
