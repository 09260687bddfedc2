#!/usr/bin/env python3
"""Prints rows of dates of crates/asn1_rows/stdout.

Each text is made by `openssl asn1parse -genstr UTCTIME:TEXT` or `GENTIME:TEXT`, which gives the same text; the six
numbers come from `openssl x509 -startdate` (which applies RFC 5280, 4.1.2.5.1, to two-digit years) on a certificate
with that date, else from the digits by Python's strptime.
"""
import datetime
import subprocess
import tempfile

UTC = ["500101000000Z", "491231235959Z", "491231235958Z", "500101000001Z", "991231235959Z", "000101000000Z", "000229120000Z",
       "700101000000Z", "380119031407Z", "240229010203Z", "091224180000Z", "210630235959Z"]
GENERALIZED = ["19500101000000Z", "20491231235959Z", "20500101000000Z", "19700101000000Z", "00010101000000Z", "99991231235959Z",
               "20000229235959Z", "16010101000000Z", "18991231235959Z", "21000228000000Z", "20380119031408Z", "00990203040506Z"]


def contents(kind, text):
    with tempfile.NamedTemporaryFile() as out:
        subprocess.run(["openssl", "asn1parse", "-genstr", kind + ":" + text, "-noout", "-out", out.name], check=True)
        der = out.read()
    return der[2:].decode()


def by_certificate(text):
    """The date that openssl reads in a certificate whose notBefore is this UTCTime or GeneralizedTime."""
    with tempfile.TemporaryDirectory() as d:
        subprocess.run(["openssl", "req", "-x509", "-newkey", "ed25519", "-nodes", "-keyout", d + "/k", "-out", d + "/c",
                        "-subj", "/CN=x", "-days", "1"], check=True, stderr=subprocess.DEVNULL)
        der = subprocess.run(["openssl", "x509", "-in", d + "/c", "-outform", "der"], check=True, capture_output=True).stdout
        at = der.index(b"\x17\x0d")
        changed = der[:at + 2] + text.encode() + der[at + 15:]
        shown = subprocess.run(["openssl", "x509", "-inform", "der", "-noout", "-startdate"], input=changed, check=True,
                               capture_output=True).stdout.decode().strip()
    return datetime.datetime.strptime(shown, "notBefore=%b %d %H:%M:%S %Y GMT")


def rows(form, text, d):
    date = "%d %d %d %d %d %d" % (d.year, d.month, d.day, d.hour, d.minute, d.second)
    print("%s is read: date.read_text %s %s => %s" % (text, form, text, date))
    print("%s is written: date.write_text %s %s => %s" % (text, form, date, text))
    print("%s has a copy: date.copy %s %s => %s" % (text, form, text, text))


print("# UTCTime, read by openssl x509 -startdate, which applies RFC 5280, 4.1.2.5.1.")
for text in UTC:
    assert contents("UTCTIME", text) == text
    rows("utc", text, by_certificate(text))
print("# GeneralizedTime, which openssl asn1parse takes, read by Python's strptime.")
for text in GENERALIZED:
    assert contents("GENTIME", text) == text
    rows("generalized", text, datetime.datetime.strptime(text, "%Y%m%d%H%M%SZ"))
