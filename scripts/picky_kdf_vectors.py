#!/usr/bin/env python3
"""Prints rows of HMAC and the derivations, by other programs than this project.

HMAC by Python's hmac, PBKDF2 by hashlib.pbkdf2_hmac, the derivation of PKCS #12 by OpenSSL's PKCS12KDF, the Concat KDF by
ConcatKDFHash of Python's cryptography. What they give is compared with published values (RFC 4231, RFC 6070, RFC 7518).

scripts/cipher-rows calls it. With --large it prints PBKDF2-HMAC-SHA1 of `password`, `salt`, 20 bytes, 16,777,216 iterations.
"""
import base64
import hashlib
import hmac
import subprocess
import sys

from cryptography.hazmat.primitives import hashes
from cryptography.hazmat.primitives.kdf.concatkdf import ConcatKDFHash

from printed_rows import remark, row

HASHES = ["sha1", "sha224", "sha256", "sha384", "sha512"]
SIZE = {name: hashlib.new(name).digest_size for name in HASHES}
USES = {"key": 1, "iv": 2, "mac": 3}
PASSWORDS = {
    "no password": None,
    "a password of no units": "",
    "a password of one unit": "é",
    "a password of seventy units": "Käse und Brot. " * 4 + "0123456789",
}


def pattern(first, step, count):
    """`count` bytes, `step` apart modulo 256."""
    return bytes((first + step * i) % 256 for i in range(count))


def password(units):
    """A password as PKCS #12 takes it: UTF-16, the high byte first, and two zeros at the end."""
    return b"" if units is None else units.encode("utf-16-be") + b"\0\0"


def pkcs12(name, secret, salt, iterations, use, size):
    out = subprocess.run(
        ["openssl", "kdf", "-binary", "-keylen", str(size), "-kdfopt", f"digest:{name.upper()}",
         "-kdfopt", f"hexpass:{secret.hex()}", "-kdfopt", f"hexsalt:{salt.hex()}",
         "-kdfopt", f"id:{USES[use]}", "-kdfopt", f"iter:{iterations}", "PKCS12KDF"],
        check=True, capture_output=True).stdout
    assert len(out) == size
    return out


def concat(algorithm, size, secret, apu, apv):
    info = b"".join(len(t).to_bytes(4, "big") + t for t in (algorithm, apu, apv))
    info += (8 * size).to_bytes(4, "big")
    return ConcatKDFHash(hashes.SHA256(), length=size, otherinfo=info).derive(secret)


def macs():
    remark("HMAC by python's hmac; the last is RFC 4231's of the key `Jefe` (scripts/picky_kdf_vectors.py).")
    message = pattern(5, 3, 90)
    for h in HASHES:
        for n in (0, 4, 20, 64, 65, 128, 129, 131):
            key = pattern(1, 7, n)
            row(f"hmac by {h} under a key of {n} bytes", "kdf.hmac", h, key, message, gives=hmac.new(key, message, h).digest())
    key, message = b"Jefe", b"what do ya want for nothing?"
    mac = hmac.new(key, message, "sha256").digest()
    assert mac.hex() == "5bdcc146bf60754e6a042426089575c75a003f089d2739839dec58b964ec3843"
    row("hmac by sha256 under the key Jefe", "kdf.hmac", "sha256", key, message, gives=mac)


def password_keys():
    remark("PBKDF2 by hashlib; the first three are of RFC 6070 (scripts/picky_kdf_vectors.py).")
    cases = [("sha1", b"password", b"salt", 1, 20), ("sha1", b"password", b"salt", 2, 20),
             ("sha1", b"password", b"salt", 4096, 20),
             ("sha1", b"pass\0word", b"sa\0lt", 4096, 16)]
    for i, h in enumerate(HASHES[1:]):
        cases += [(h, b"password", b"salt", 1, SIZE[h]), (h, b"password", b"salt", 2, SIZE[h] + 1),
                  (h, b"passwordPASSWORDpassword", b"saltSALTsaltSALTsaltSALTsaltSALTsalt", 1000 + i, 100),
                  (h, b"", b"", 3, 1), (h, pattern(1, 7, 131).hex().encode(), b"NaCl", 7, 1024)]
    published = {1: "0c60c80f961f0e71f3a9b524af6012062fe037a6", 2: "ea6c014dc72d6f8ccd1ed92ace1d41f0d8de8957",
                 4096: "4b007901b765489abead49d926f721d065a429c1"}
    for h, p, s, n, size in cases:
        key = hashlib.pbkdf2_hmac(h, p, s, n, size)
        assert (h, p, size) != ("sha1", b"password", 20) or key.hex() == published[n]
        row(f"pbkdf2 by {h} with {n} iterations to {size} bytes", "kdf.pbkdf2", h, p, s, n, size, gives=key)


def store_keys():
    remark("The derivation of PKCS #12 by OpenSSL's PKCS12KDF (scripts/picky_kdf_vectors.py).")
    for i, h in enumerate(HASHES):
        for j, use in enumerate(USES):
            for k, (name, units) in enumerate(PASSWORDS.items()):
                # OpenSSL takes no empty salt beside no password
                salt = pattern(9, 5, (8, 20, 64 if units is None else 0, 150)[(i + j + k) % 4])
                iterations = (1, 2, 5, 1000)[(i + 2 * j + k) % 4]
                size = (24, 8, SIZE[h], 150)[(j + k) % 4]
                key = pkcs12(h, password(units), salt, iterations, use, size)
                row(f"{name} by {h} for {use} beside {len(salt)} bytes of salt with {iterations} iterations to {size} bytes",
                    "kdf.pbkdf1", h, password(units), salt, iterations, use, size, gives=key)
    remark("SHA-1 of 64 bytes 01 by hashlib, as OpenSSL takes neither a password nor a salt.")
    alone = hashlib.sha1(b"\1" * 64).digest()
    row("neither a password nor a salt", "kdf.pbkdf1", "sha1", b"", b"", 1, "key", 20, gives=alone)


def agreed_keys():
    remark("The Concat KDF by python's cryptography; the last is of RFC 7518, appendix C (scripts/picky_kdf_vectors.py).")
    for i, (algorithm, size) in enumerate([
            ("A128GCM", 16), ("A192GCM", 24), ("A256GCM", 32), ("A128CBC-HS256", 32),
            ("A192CBC-HS384", 48), ("A256CBC-HS512", 64), ("ECDH-ES+A128KW", 16),
            ("ECDH-ES+A192KW", 24), ("ECDH-ES+A256KW", 32), ("", 1), ("x", 31), ("x", 33), ("x", 63)]):
        secret = pattern(1, 7, (32, 48, 66, 0)[i % 4])
        apu, apv = pattern(2, 11, (0, 5, 64, 300)[i // 2 % 4]), pattern(3, 13, (3, 0, 65)[i % 3])
        key = concat(algorithm.encode(), size, secret, apu, apv)
        name = f"{size} bytes for {algorithm or 'no name'} of {len(secret)}, {len(apu)} and {len(apv)}"
        row(name, "kdf.concat", algorithm.encode(), size, secret, apu, apv, gives=key)
    z = bytes.fromhex("9e56d91d817135d372834283bf84269cfb316ea3da806a48f6daa7798cfe90c4")
    key = concat(b"A128GCM", 16, z, b"Alice", b"Bob")
    assert base64.urlsafe_b64encode(key).rstrip(b"=") == b"VqqN6vgjbSBcIijNcacQGg"
    row("the key of Alice and Bob", "kdf.concat", b"A128GCM", 16, z, b"Alice", b"Bob", gives=key)


def main():
    if sys.argv[1:] == ["--large"]:
        print(hashlib.pbkdf2_hmac("sha1", b"password", b"salt", 1 << 24, 20).hex())
        return
    assert len(password(PASSWORDS["a password of seventy units"])) == 2 * 70 + 2
    macs()
    password_keys()
    store_keys()
    agreed_keys()


main()
