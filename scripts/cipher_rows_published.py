#!/usr/bin/env python3
"""Answers published files of test vectors by the program `cipher_rows`, and counts what agrees.

The files are those of Debian's package `python3-cryptography-vectors`: NIST's of AES in ECB mode, of GCM (the cases with a
nonce of 96 bits and a tag of 128), of CBC (the sealed blocks before the padding, and what they are decrypted to) and of key wrap
both ways (keys of at most 1,024 bytes), and those of HMAC (RFC 2202, RFC 4231) and of PBKDF2 (RFC 6070; 16,777,216 iterations
are left to `bench iterate`). Where a machine has none of them the script says so and ends with status 0.

Usage, at the top of the repository: scripts/cipher_rows_published.py PROGRAM
where PROGRAM is the built `cipher_rows` (`rt run` in crates/cipher_rows builds it below crates/cipher_rows/out).
"""
import glob
import os
import subprocess
import sys

ROOTS = [
    "/usr/lib/python3/dist-packages/cryptography_vectors",
]


def records(path):
    """The records of a file: each a dict of its lines and of those of the brackets above it."""
    section, record = {}, {}
    for line in open(path):
        line = line.strip()
        if line.startswith("#"):
            continue
        if line.startswith("["):
            name, _, value = line.strip("[]").partition(" = ")
            section[name] = value
        elif line == "FAIL":
            record["FAIL"] = ""
        elif "=" in line:
            name, _, value = line.partition("=")
            name = name.strip().upper()
            record[name] = value.strip() if name in ("PASSWORD", "SALT") else value.strip().lower()
        elif record:
            yield section, record
            record = {}
    if record:
        yield section, record


def field(text):
    return text or "-"


def ecb_rows(path):
    for _, record in records(path):
        plain, cipher = record["PLAINTEXT"], record["CIPHERTEXT"]
        for at in range(0, len(plain), 32):
            yield f"aes.encrypt {record['KEY']} {plain[at:at + 32]}", cipher[at:at + 32]
            yield f"aes.decrypt {record['KEY']} {cipher[at:at + 32]}", plain[at:at + 32]


def gcm_rows(path):
    for section, record in records(path):
        if section["IVlen"] != "96" or section["Taglen"] != "128":
            continue
        names = f"{record['KEY']} {record['IV']} {field(record['AAD'])}"
        sealed = f"{names} {field(record['CT'])} {record['TAG']}"
        if "FAIL" in record:
            yield f"gcm.open {sealed}", "refused"
            yield f"gcm.left {sealed}", field(record["CT"])
            continue
        yield f"gcm.open {sealed}", field(record["PT"])
        yield f"gcm.seal {names} {field(record['PT'])}", record["CT"] + record["TAG"]


def cbc_rows(path):
    for _, record in records(path):
        names = f"{record['KEY']} {record['IV']}"
        yield f"cbc.encrypt {names} {record['PLAINTEXT']}", record["CIPHERTEXT"]
        yield f"cbc.left {names} {record['CIPHERTEXT']}", record["PLAINTEXT"]


def wrap_rows(path):
    kind = os.path.basename(path)[3:5]
    for _, record in records(path):
        plain, wrapped = record.get("P", ""), record["C"]
        if len(wrapped) > 2 * 1024 or len(plain) > 2 * 1024:
            continue
        if kind == "AE":
            yield f"wrap.wrap {record['K']} {plain}", wrapped
        else:
            yield f"wrap.unwrap {record['K']} {wrapped}", "refused" if "FAIL" in record else plain


def hmac_rows(path):
    name = os.path.basename(path).rsplit("-", 1)[1].removesuffix(".txt")
    for _, record in records(path):
        yield f"kdf.hmac {name} {field(record['KEY'])} {field(record['MSG'])}", record["MD"]


def pbkdf2_rows(path):
    for _, record in records(path):
        iterations = int(record["ITERATIONS"])
        if iterations > 1 << 20:
            continue
        password = record["PASSWORD"].replace("\\0", "\0").encode().hex()
        salt = record["SALT"].replace("\\0", "\0").encode().hex()
        yield f"kdf.pbkdf2 sha1 {password} {salt} {iterations} {record['LENGTH']}", record["DERIVED_KEY"]


FILES = [
    ("ECB", ecb_rows, "ciphers/AES/ECB/*.rsp"),
    ("GCM", gcm_rows, "ciphers/AES/GCM/*.rsp"),
    ("CBC", cbc_rows, "ciphers/AES/CBC/*.rsp"),
    ("key wrap", wrap_rows, "keywrap/kwtestvectors/KW_A[ED]_???.txt"),
    ("HMAC", hmac_rows, "HMAC/rfc-[24]*-sha*.txt"),
    ("PBKDF2", pbkdf2_rows, "KDF/rfc-6070-PBKDF2-SHA1.txt"),
]


def answers(program, rows):
    given = "".join(f"published: {row}\n" for row in rows)
    ran = subprocess.run([program], input=given, capture_output=True, text=True, check=True)
    return [line.rpartition(" => ")[2] for line in ran.stdout.splitlines()]


def agrees(row, got, want):
    # a text is sealed by CBC with its padding, which the files have not
    return got.startswith(want) if row.startswith("cbc.encrypt") else got == want


def main():
    root = next((root for root in ROOTS if os.path.isdir(root)), None)
    if root is None:
        print("skipped: no published files on this machine")
        return 0
    wrong = 0
    for kind, rows, files in FILES:
        of_kind = 0
        for path in sorted(glob.glob(f"{root}/{files}")):
            pairs = list(rows(path))
            given = answers(sys.argv[1], [row for row, _ in pairs])
            agreeing = sum(agrees(row, got, want) for got, (row, want) in zip(given, pairs))
            wrong += len(pairs) - agreeing
            of_kind += agreeing
            print(f"{kind} {os.path.basename(path)}: {agreeing} of {len(pairs)}")
        print(f"{kind}: {of_kind} answers agree")
    return 1 if wrong else 0


sys.exit(main())
