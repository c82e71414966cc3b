#!/usr/bin/env python3
"""Writes the table of crates/client_cases: `stdin`, the calls, and `stdout`, what they return.

    tools/client_cases.py

Tokens are read here by RFC 7515 section 7.1, RFC 4648 and RFC 7519 section 4.1; log entries of Rekor's API, bundles and trusted roots by the
second readers that the other tools have. docs/DECISIONS.md, "Tokens and signing", says what is left open.
"""
import base64
import itertools
import json
import sys

sys.dont_write_bytecode = True

import bundle_reader as bundles
from bundle_faults import PROFILES
import fixture
import json_documents as documents
import rekor_cases as notes
import rekor_model_rows as models
import verify_calls
import verify_links as links
from case_table import Table
from fixture import base64_of, compact
from rekor_cases import debug, quoted

TABLE = Table("client_cases")
say = TABLE.group
I64 = (-2**63 - 1, -2**63, -1, 0, 1, 2**63 - 1, 2**63, 2**64 - 1, 2**64, -2**64)


class Refused(Exception):
    """Why a text is not of its kind."""


def row(line, answer):
    try:
        TABLE.case(line, answer())
    except Refused as why:
        TABLE.case(line, str(why))


# ---- configurations of clients

NOT_READABLE = "SigstorePKIFileMalformedError(NotReadable)"
MISSING = "SigstorePKIFileMalformedError(TrustedRootMissing)"


def keys(found):
    return " ".join([str(len(found)), *["%s %s" % (name, found[name].hex()) for name in sorted(found)]])


def configured(text, now):
    """What the trusted root of a configuration has at a time."""
    try:
        config = documents.tree(text)
        root = config.get("trustedRoot") if isinstance(config, dict) else bundles.ask(False)
        if root is None:
            raise Refused(MISSING)
        root = bundles.element(root, links.TRUSTED_ROOT)
    except (documents.NotJson, documents.Float, bundles.Refused):
        raise Refused(NOT_READABLE) from None
    certificates = links.picked_certificates(root, now)
    logs, certificate_logs = links.picked_keys(root["tlogs"], now), links.picked_keys(root["ctlogs"], now)
    words = [" ".join([str(len(certificates)), *[each.hex() for each in certificates]]) if certificates else "TufMetadataError(Fulcio)"]
    return " ".join(["ok", *words, keys(logs), keys(certificate_logs) if certificate_logs else "TufMetadataError(Ctfe)"])


def config(text, now=1700000000):
    row("client_config %d %s" % (now, quoted(text)), lambda: configured(text, now))


def configs():
    whole = compact(fixture.Request().trusted_root())
    say("client_config NOW TEXT: what the trusted root of a client's configuration has at a time. No JSON, no member, an empty root.")
    for text in ("x", "{}", '{"trustedRoot":{}}'):
        config(text)
    say("The root of the fixture, by itself, after another member and before one; of two the last.")
    for text in ("{}", '{"trustedRoot":%s}' % whole, '{"mediaType":1,"trustedRoot":%s}' % whole, '{"trustedRoot":%s,"signingConfig":{"a":[1,{}]}}' % whole,
                 '{"trustedRoot":{},"trustedRoot":%s}' % whole, '{"trustedRoot":%s,"trustedRoot":{}}' % whole, '{"trustedRoot":%s,"trustedRoot":null}' % whole,
                 '{"trusted\\u0052oot":%s}' % whole, ' { "trustedRoot" : %s } ' % whole, whole):
        config(text)
    for now in (0, 1672531199, 1672531200, 1703980799, 1704067199, 1704067200, 2**63 - 1, -2**63):
        config('{"trustedRoot":%s}' % whole, now)
    say("Roots that change with the time: two certificates, and two keys of one log.")
    for tree in (verify_calls.HELD, verify_calls.BOTH):
        for now in (1672531199, 1672531200, 1704067199, 1704067200, 1800000000):
            config(compact({"trustedRoot": tree}), now)
    say("Texts that are not an object; then a trusted root of another kind, or null.")
    for text in ("", " ", "null", "true", "1", "0.5", '"x"', "[]", "[{}]", "{", "{}x", '{"trustedRoot":{}', "\ufeff{}", '{"a":1.5}', '{"trustedRoot":{}, "a":1e3}',
                 '{"trustedRoot":null,"a":-0}', '{"a":0.5,"a":1}', '{"trustedRoot":{"a":0.5}}', '{"trustedRoot":{"a":0.5},"trustedRoot":{}}'):
        config(text)
    for value in ("null", "true", "false", "0", "-1", '""', '"x"', "[]", "[{}]", "{}", '{"other":1}'):
        config('{"trustedRoot":%s}' % value)
        config('{"trustedroot":%s}' % value)
    say("Each member of the trusted root of another kind, and null: it is read as a trusted root by itself is.")
    for name, value in itertools.product(("certificateAuthorities", "tlogs", "ctlogs"), (None, True, 0, "", "x", [], {}, [None], [0], [{}], [[]])):
        config(compact({"trustedRoot": {name: value}}))
    for value in ({"rawBytes": "AA=="}, {"rawBytes": "AA"}, {"rawBytes": 0}, {"validFor": {"start": "2023-01-01"}}):
        config(compact({"trustedRoot": {"tlogs": [{"publicKey": value, "logId": {"keyId": "Teo="}}]}}))
    say("Three hundred authorities and logs, and members that are ignored: three hundred, and one of 127 lists and of 126.")
    authorities = [{"certChain": {"certificates": [{"rawBytes": base64_of(b"%d" % number)}]}} for number in range(300)]
    logs = [{"publicKey": {"rawBytes": base64_of(b"%d" % number)}, "logId": {"keyId": base64_of(b"\xfe%03d" % (number % 200))}} for number in range(300)]
    config(compact({"trustedRoot": {"certificateAuthorities": authorities, "tlogs": logs, "ctlogs": logs}}))
    config(compact({**{"m%d" % number: {"trustedRoot": number} for number in range(300)}, "trustedRoot": {}}))
    for depth in (126, 127):
        config('{"a":%s%s,"trustedRoot":{}}' % ("[" * depth, "]" * depth))


# ---- identity tokens

CLAIMS = {"aud": "sigstore", "exp": 2000, "nbf": 1000, "email": "a@b.c"}
ALPHABET = "ABCDEFGHIJKLMNOPQRSTUVWXYZabcdefghijklmnopqrstuvwxyz0123456789+/"


def refused(fault):
    return Refused("IdentityTokenError(%s)" % fault)


def unpadded(text):
    """RFC 4648 section 4 without padding (section 3.2) and without stray bits (section 3.5)."""
    if len(text) % 4 == 1 or any(letter not in ALPHABET for letter in text):
        return None
    found = base64.b64decode(text + "=" * (-len(text) % 4))
    return found if base64_of(found).rstrip("=") == text else None


def claim(found, name, kind, needed=True):
    value = found.get(name)
    if value is None and not needed:
        return None
    if not isinstance(value, kind) or isinstance(value, bool) or kind is int and not -2**63 <= value < 2**63:
        raise refused("ClaimsJson")
    return value


def read_token(text):
    parts = text.split(".")
    if len(parts) != 3:
        raise refused("NotThreeParts")
    found = unpadded(parts[1])
    if found is None:
        raise refused("ClaimsBase64")
    try:
        found = documents.tree(found)
    except (documents.NotJson, documents.Float):
        raise refused("ClaimsJson") from None
    if not isinstance(found, dict):
        raise refused("ClaimsJson")
    claims = claim(found, "aud", str), claim(found, "exp", int), claim(found, "nbf", int, needed=False), claim(found, "email", str)
    if claims[0] != "sigstore":
        raise refused("NotSigstore")
    return claims


def token_line(text):
    aud, exp, nbf, email = read_token(text)
    return " ".join(["ok", debug(aud), str(exp), "-" if nbf is None else str(nbf), debug(email), debug(text)])


def of_claims(claims):
    content = claims if isinstance(claims, bytes) else (claims if isinstance(claims, str) else compact(claims)).encode()
    return "h.%s.s" % base64_of(content).rstrip("=")


def token(text):
    row("token " + quoted(text), lambda: token_line(text))


def period(now, claims):
    _, exp, nbf, _ = read_token(of_claims(claims))
    row("period %d %s" % (now, quoted(of_claims(claims))), lambda: "ok " + str((nbf is None or nbf <= now) and now < exp).lower())


def changed(**claims):
    return {**CLAIMS, **claims}


def without(name):
    return {each: value for each, value in CLAIMS.items() if each != name}


def parts():
    say("token TEXT: what a token says, and how it is shown. Its period is stated by `period NOW TEXT`.")
    token(of_claims(CLAIMS))
    for now in (999, 1000, 1001, 1999, 2000, 2001, 0, -1, 2**63 - 1, -2**63):
        period(now, CLAIMS)
    token(of_claims(changed(aud="x")))
    coded = of_claims(CLAIMS).split(".")[1]
    token("h." + coded)
    say("Parts: none, one, two, three of which some are empty, four, and more; a point of another script.")
    for text in ("", ".", "..", "...", coded, ".%s" % coded, "%s." % coded, ".%s." % coded, "h.%s." % coded, ".%s.s" % coded, "h..s", "%s..s" % coded, "h.s.%s" % coded,
                 "%s.h.s" % coded, "h.%s.s." % coded, ".h.%s.s" % coded, "h.%s..s" % coded, "h.%s.s.t" % coded, "h.%s.s.t.u" % coded, "h\u3002%s\u3002s" % coded,
                 "h,%s,s" % coded, "h\n.%s.s\n" % coded, "\u00fc.%s.\u20ac" % coded, "h. %s.s" % coded, "h.%s .s" % coded, "." * 300, "a." * 300, "h.%s.%s" % (coded, "s" * 300)):
        token(text)
    say("Base64: padding, another alphabet, one letter too many, stray bits, white space.")
    for length in range(1, 7):
        content = compact(CLAIMS) + " " * length
        text = base64_of(content.encode())
        bare = text.rstrip("=")
        for each in dict.fromkeys([text, bare, bare + "=", bare[:-1], bare + "A", bare + "AA", bare + "\n"]):
            token("h.%s.s" % each)
    for letter in ("-", "_", "=", "%", " ", "\t", "\0", "\u00fc", "+", "/"):
        token("h.%s%s.s" % (letter, coded))
        token("h.%s%s.s" % (coded, letter))
        token("h.%s%s%s.s" % (coded[:4], letter, coded[5:]))
    last = ALPHABET.index(coded[-1])
    for shift in range(0, 64, 5):
        token("h.%s%s.s" % (coded[:-1], ALPHABET[(last + shift) % 64]))
    say("Three bytes above 126, which have the letters + and / in this alphabet, in a member that is ignored.")
    for value in ("\u07fe\u07ff", "\uffff\u00ff?>", "~~~", "???"):
        token(of_claims(changed(sub=value)))
        token(of_claims(changed(sub=value)).replace("+", "-").replace("/", "_"))


def claims():
    say("Payloads that are not an object of claims: not JSON, not UTF-8, floats, other values.")
    for content in (b"", b" ", b"x", b"\xff", b"null", b"true", b"1", b'"x"', b"[]", b"{}", b"[{}]", compact(CLAIMS).encode() + b"x", compact(CLAIMS).encode()[:-1],
                    b"\xef\xbb\xbf" + compact(CLAIMS).encode(), compact(CLAIMS).encode() + b"\xff"):
        token(of_claims(content))
    whole = compact(CLAIMS)
    for text in (whole.replace("2000", "2e3"), whole.replace("2000", "2000.0"), whole.replace("2000", "-0"), whole.replace("1000", "0.5"), whole.replace("{", '{"a":1.5,', 1),
                 whole.replace("{", '{"exp":0.5,', 1), whole.replace("{", '{"exp":"x",', 1), whole.replace("}", ',"exp":3000}'), whole.replace("}", ',"exp":null}'),
                 whole.replace("}", ',"nbf":null}'), whole.replace("}", ',"nbf":0.5,"nbf":1}'), whole.replace("}", ',"aud":"x"}'), whole.replace("{", '{"aud":"x",', 1),
                 whole.replace('"exp"', '"\\u0065xp"'), whole.replace('"sigstore"', '"sig\\u0073tore"'), " " + whole.replace(",", " , ") + "\n"):
        token(of_claims(text))
    say("Each claim absent, null, and of every other kind.")
    for name in CLAIMS:
        token(of_claims(without(name)))
        for value in (None, True, False, 0, -1, "", "x", "1", "sigstore", [], ["sigstore"], {}, {"a": 1}, [None]):
            token(of_claims(changed(**{name: value})))
    say("The bounds of the numbers.")
    for name, value in itertools.product(("exp", "nbf"), I64):
        token(of_claims(changed(**{name: value})))
    say("Audiences next to Sigstore's, and claims that are ignored: one, three hundred, and one of 126 lists and of 127.")
    for value in ("Sigstore", "SIGSTORE", "sigstore ", " sigstore", "sigstor", "sigstoree", "sigst\u043ere", "sigstore\0"):
        token(of_claims(changed(aud=value)))
    token(of_claims(changed(iss="https://oauth2.sigstore.dev/auth", sub="x", iat=0, email_verified=True)))
    token(of_claims({**{"m%d" % number: [number, {"aud": None}] for number in range(300)}, **CLAIMS}))
    for depth in (126, 127):
        token(of_claims(whole.replace("{", '{"a":%s%s,' % ("[" * depth, "]" * depth), 1)))
    for value in ("", "x", "\u00fc@\u20ac", '"', "\\", "\n", "a" * 300):
        token(of_claims(changed(email=value)))


def claims_of_two_faults():
    say("Two rules broken at once: the first is named.")
    for text in ("h.%", "h.%.s.t", "%s.x" % of_claims(changed(aud=1)), "h.%.s", "h.%s=.s" % base64_of(b"x").rstrip("="), of_claims(b"x"), of_claims(changed(aud="x", exp="1")),
                 of_claims(changed(aud="x", nbf="1")), of_claims({"aud": "x"}), of_claims(changed(aud="x", email=1)), of_claims(changed(aud=["sigstore"]))):
        token(text)


def periods():
    say("period NOW TEXT: without a start, and of starts and expirations at the ends of the numbers and in the wrong order.")
    for now in I64[1:6]:
        period(now, without("nbf"))
        for exp, nbf in itertools.product((-2**63, 0, 1, 2**63 - 1), (-2**63, 0, 1, 2**63 - 1)):
            period(now, changed(exp=exp, nbf=nbf))
    for now in (1999, 2000):
        period(now, without("nbf"))
        period(now, changed(nbf=None))


# ---- log entries that are converted, and bundles of what was signed


def from_hex(text):
    try:
        found = bytes.fromhex(text) if text.isalnum() or not text else None
    except ValueError:
        found = None
    if found is None or len(found) * 2 != len(text):
        raise Refused("Refused")
    return base64_of(found)


def from_base64(text):
    if notes.unbase64(text) is None:
        raise Refused("Refused")
    return text


def converted_proof(api):
    if api["treeSize"] >= 2**63:
        raise Refused("Refused")
    return {"logIndex": str(api["logIndex"]), "rootHash": from_hex(api["rootHash"]), "treeSize": str(api["treeSize"]),
            "hashes": [from_hex(text) for text in api["hashes"]], "checkpoint": {"envelope": api["checkpoint"]}}


def converted(text):
    """The entry of a bundle that Rekor's entry is."""
    entry = models.read_entry(text)
    try:
        body = documents.canonical(entry["body"])
    except documents.IntegerTooLarge:
        raise Refused("Refused") from None
    made = {"logIndex": str(entry["logIndex"]), "logId": {"keyId": from_hex(entry["logID"])}, "kindVersion": {"kind": "hashedrekord", "version": "0.0.1"},
            "integratedTime": str(entry["integratedTime"]), "inclusionPromise": {"signedEntryTimestamp": from_base64(entry["promise"])},
            "canonicalizedBody": base64_of(body.encode())}
    return made if entry["proof"] is None else {**made, "inclusionProof": converted_proof(entry["proof"])}


def bundle_line(bundle):
    text = compact(bundle, canonical=True)
    assert bundles.read_bundle(text) == "ok " + text
    return "ok %s true" % text


def convert(text):
    row("try_from_log_entry " + quoted(text), lambda: bundle_line({"mediaType": "", "verificationMaterial": {"tlogEntries": [converted(text)]}}))


def to_bundle(digest, certificate, signature, text):
    def answer():
        signed = {"signature": base64_of(signature), "messageDigest": {"digest": base64_of(digest)}}
        material = {"x509CertificateChain": {"certificates": [{"rawBytes": base64_of(certificate)}]}, "tlogEntries": [converted(text)]}
        return bundle_line({"mediaType": PROFILES["0.2"], "verificationMaterial": material, "messageSignature": signed})

    row(" ".join(["to_bundle", *[each.hex() or "-" for each in (digest, certificate, signature)], quoted(text)]), answer)


def proof_with(**members):
    return models.small({**models.PLAIN, **members})


def converted_entries():
    say("try_from_log_entry ENTRY: a bundle with the converted entry alone. The entry of the staging log: index 1688, and 1227 in its tree.")
    convert(json.dumps(models.ENTRY))
    say("Without a proof, with an empty checkpoint, a checkpoint that is none, and other values beside.")
    for text in (models.small(None), models.small(models.PLAIN), proof_with(checkpoint=""), proof_with(checkpoint="x"), proof_with(checkpoint="\n\u20ac\"\\"), models.small(None, uuid="x", attestation={"dummy": "y"})):
        convert(text)
    say("Numbers at their ends; a tree's size of 2^63 and more has no place in a bundle.")
    for number in (-2**63, -1, 0, 1, 2**63 - 1):
        convert(models.small(models.PLAIN, logIndex=number))
        convert(models.small(models.PLAIN, integratedTime=number))
        convert(proof_with(logIndex=number))
    for number in (0, 1, 2**63 - 1, 2**63, 2**63 + 1, 2**64 - 1):
        convert(proof_with(treeSize=number))


def converted_texts():
    say("Texts of hexadecimal digits: of every length, in both cases; then what is none.")
    texts = ("", "00", "ff", "FF", "aB", "0" * 62, "0" * 64, "0" * 66, "0a" * 300, "0", "000", "g0", "0g", "zz", "0x00", " 00", "00 ", "\u00e90", "\uff10\uff10", "0\n", "-1", "+1")
    for text in texts:
        convert(models.small(models.PLAIN, logID=text))
        convert(proof_with(rootHash=text))
        convert(proof_with(hashes=[text]))
        convert(proof_with(hashes=["00", text, "11"]))
    convert(proof_with(hashes=["%04x" % number for number in range(300)]))
    for place in (0, 1, 150, 299):
        convert(proof_with(hashes=["%04x" % number if number != place else "zz" for number in range(300)]))
    say("Promises in base64: what is the one encoding of bytes, and what is none.")
    for text in ("", "AA==", "AAA=", "AAAA", "//8=", "AA", "A", "AB==", "AA= =", "AA==\n", "-_8=", "%", "AA==AA==", "QUFB" * 300):
        for proof in (None, models.PLAIN):
            convert(json.dumps(dict(models.ENTRY, body=models.coded(models.BODY), verification={"signedEntryTimestamp": text, "inclusionProof": proof})))


def converted_bodies():
    say("Bodies: each kind, which the converted entry does not keep apart; names in the order of UTF-16 units; integers at the end of those that have canonical JSON.")
    for kind in models.KINDS:
        convert(models.entry_with(body=models.coded({"kind": kind, "apiVersion": "0.0.2", "spec": {"b": [1, None, True], "a": "\n\u00fc\u2028"}})))
    convert(models.entry_with(body=models.coded(dict(models.BODY, spec={"\ue000": 1, "\U00010000": 2, "\u20ac": 3, "": 4}))))
    convert(models.entry_with(body=models.coded(dict(models.BODY, more=2**60))))
    for number in (2**53 - 1, 2**53, -2**53 + 1, -2**53, 2**64 - 1, -2**63):
        for spec in (number, [[number]], {"a": {"b": number}}, str(number)):
            convert(models.entry_with(body=models.coded(dict(models.BODY, spec=spec))))
    say("Rules broken by ones and twos: all are one error.")
    large = models.coded(dict(models.BODY, spec=2**53))
    for body, promise, log_id, hashes, root, size in itertools.product((models.coded(models.BODY), large), ("AA==", "x"), ("00", "x"), ([], ["x"]), ("00", "x"), (1, 2**63)):
        proof = dict(models.PLAIN, hashes=hashes, rootHash=root, treeSize=size)
        convert(json.dumps(dict(models.ENTRY, body=body, logID=log_id, verification={"signedEntryTimestamp": promise, "inclusionProof": proof})))


def bundles_of_parts():
    say("to_bundle DIGEST CERT SIGNATURE ENTRY: the text of the bundle of these parts, and whether it is read back.")
    to_bundle(bytes(range(32)), b"\x30\x00", b"sig", json.dumps(models.ENTRY))
    for lengths in itertools.product((0, 1, 300), repeat=3):
        to_bundle(*[bytes([0xAB]) * length for length in lengths], models.small(models.PLAIN))
    to_bundle(b"digest", b"cert", b"signature", models.small(None))
    to_bundle(b"digest", b"cert", b"signature", proof_with(hashes=["%04x" % number for number in range(300)]))


def conversions():
    for rows in (converted_entries, converted_texts, converted_bodies, bundles_of_parts):
        rows()


if __name__ == "__main__":
    configs()
    parts()
    claims()
    claims_of_two_faults()
    periods()
    conversions()
    TABLE.write()
