#!/usr/bin/env python3
"""Writes the table of crates/cosign_cases: `stdin`, the calls, and `stdout`, what they return.

    tools/cosign_cases.py

Payloads and what Rekor promised are read here by the tables of their formats: the simple signing format of containers/image, with the members
that `cosign` writes, and Rekor's signed entry timestamp over canonical JSON (RFC 8785). docs/DECISIONS.md says what is left open.
"""
import itertools
import re
import sys
from types import SimpleNamespace

sys.dont_write_bytecode = True

import cosign_bundle_rows
import cosign_layer_rows
import cosign_manifest_rows
import fixture
import json_documents as documents
import schemes
from case_table import Table
from json_documents import compact
from rekor_cases import debug, quoted

TABLE = Table("cosign_cases")
say = TABLE.group
INTEGERS = (-2**63 - 1, -2**63, -2**53, -2**53 + 1, -1, 0, 1, 2**53 - 1, 2**53, 2**63 - 1, 2**63, 2**64 - 1, 2**64)
OTHERS = (None, True, False, 0, -1, "", "x", [], ["x"], {}, {"x": "y"})
DIGEST = "sha256:" + "a" * 64


class Refused(Exception):
    """Why a call fails."""


def row(line, answer):
    try:
        TABLE.case(line, "ok " + answer())
    except Refused as why:
        TABLE.case(line, str(why))


def read(text, reader, refusal):
    """A text by a table of members, or the one error that a text without them has."""
    try:
        return reader(documents.tree(text))
    except (documents.NotJson, documents.Float, documents.Member):
        raise Refused("UnexpectedError(%s)" % refusal) from None


def want(holds):
    if not holds:
        raise documents.Member


def member(value, name, kind, needed=True):
    want(isinstance(value, dict))
    found = value.get(name)
    if found is None:
        want(not needed)
        return None
    return kind(found)


def text(value):
    want(isinstance(value, str))
    return value


def number(value):
    want(isinstance(value, int) and not isinstance(value, bool) and -2**63 <= value < 2**63)
    return value


def any_value(value):
    return value


# ---- payloads


def read_beside(value):
    creator, timestamp = member(value, "creator", text, False), member(value, "timestamp", number, False)
    return creator, timestamp, {name: item for name, item in value.items() if name not in ("creator", "timestamp")}


def read_signing(value):
    critical = member(value, "critical", any_value)
    reference = member(member(critical, "identity", any_value), "docker-reference", text)
    digest = member(member(critical, "image", any_value), "docker-manifest-digest", text)
    return reference, digest, member(critical, "type", text), member(value, "optional", read_beside, False)


def signing_of(content):
    return read(content, read_signing, "LayerUnreadable")


def shown(signing):
    reference, digest, kind, beside = signing
    words = [debug(reference), debug(digest), debug(kind)]
    if beside is None:
        return " ".join([*words, "-"])
    creator, timestamp, extra = beside
    return " ".join([*words, "-" if creator is None else debug(creator), "-" if timestamp is None else str(timestamp), compact(extra)])


def signing(content):
    row("signing " + quoted(content), lambda: shown(signing_of(content)))


def payload(optional=None, **changes):
    critical = {"identity": {"docker-reference": "registry.example/image"}, "image": {"docker-manifest-digest": DIGEST},
                "type": "cosign container image signature", **changes}
    return {"critical": critical, "optional": optional}


def payloads():
    say("signing TEXT: reference, digest and type of the payload; creator, time and annotations, or that there are none.")
    for optional in (None, {}, {"creator": "c"}, {"timestamp": 1}, {"creator": "c", "timestamp": 1, "env": "prod"}, {"creator": None, "timestamp": None, "a": None},
                     {"creator": "", "timestamp": 0}, {"z": 1, "a": {"b": [1, {"c": None}]}, "creator": "x", "b": True, "timestamp": -1, "Creator": 1}):
        signing(compact(payload(optional)))
    signing(compact({"critical": payload()["critical"]}))
    say("Members that are ignored; doubled ones, of which the last counts; escaped names; white space; no payload at all.")
    whole = compact(payload()["critical"])
    for content in ('{"critical":%s,"other":[1,2]}' % whole, '{"critical":{},"critical":%s}' % whole, '{"critical":%s,"critical":{}}' % whole,
                    '{"crit\\u0069cal":%s}' % whole, ' {"critical" : %s }\n' % whole, '{"critical":%s,"optional":{"a":1,"a":"b"}}' % whole,
                    '{"critical":%s,"optional":{"creator":1,"creator":"b"}}' % whole, '{"critical":%s,"optional":{"\\u0063reator":"b"}}' % whole,
                    '{"critical":%s,"optional":{"a":1.5}}' % whole, '{"critical":%s,"a":1e3}' % whole, '{"critical":%s}x' % whole, '{"critical":%s' % whole,
                    "\ufeff{}", "", "null", "1", "[]", '"x"', "{}", '{"critical":null}'):
        signing(content)
    say("Each member absent, and of each other kind.")
    for path in (("critical",), ("critical", "identity"), ("critical", "identity", "docker-reference"), ("critical", "image"),
                 ("critical", "image", "docker-manifest-digest"), ("critical", "type"), ("optional",), ("optional", "creator"), ("optional", "timestamp")):
        for value in ("absent", *OTHERS):
            tree = payload({"creator": "c", "timestamp": 1})
            place = tree
            for name in path[:-1]:
                place = place[name]
            place[path[-1]] = value
            if value == "absent":
                del place[path[-1]]
            signing(compact(tree))
    say("Times: JSON numbers from -2^63 to 2^63 - 1, and no texts.")
    for value in INTEGERS:
        signing('{"critical":%s,"optional":{"timestamp":%d}}' % (whole, value))
        signing('{"critical":%s,"optional":{"timestamp":"%d"}}' % (whole, value))
    say("Lists as deep as a document may be, and one deeper; three hundred annotations.")
    for depth in (125, 126):
        signing('{"critical":%s,"optional":{"a":%s%s}}' % (whole, "[" * depth, "]" * depth))
    signing(compact(payload({"n%d" % number: number for number in range(300)})))


def made():
    say("new_signing REFERENCE DIGEST: the payload that is made of both.")
    for reference, digest in (("registry.example/image", DIGEST), ("", ""), ('a"b\\c', "\n"), ("é", "sha256:")):
        row("new_signing %s %s" % (quoted(reference), quoted(digest)), lambda: shown((reference, digest, "cosign container image signature", None)))


def manifests():
    say("manifest DIGEST TEXT: whether the payload is of the image of this digest, byte for byte.")
    for asked, digest in itertools.product((DIGEST, DIGEST.upper(), DIGEST[7:], "", DIGEST + " ", DIGEST[:-1]), (DIGEST, DIGEST[7:], "")):
        content = compact(payload(image={"docker-manifest-digest": digest}))
        row("manifest %s %s" % (quoted(asked), quoted(content)), lambda: "true" if signing_of(content)[1] == asked else "false")


# ---- annotations


def said(value):
    """How a value is written, if an annotation can have it."""
    if isinstance(value, bool):
        return "true" if value else "false"
    return value if isinstance(value, str) else str(value) if isinstance(value, int) else None


def has(extra, asked):
    return extra != {} and all(name in extra and said(extra[name]) == value for name, value in asked.items())


def annotated(content, *pairs):
    asked = dict(zip(pairs[::2], pairs[1::2]))

    def answer():
        beside = signing_of(content)[3]
        whole = not asked or beside is not None and has(beside[2], asked)
        words = [whole] if beside is None else [whole, has(beside[2], asked)]
        return " ".join([str(word).lower() for word in words] + (["-"] if beside is None else []))
    row(" ".join(["annotations", quoted(content), *map(quoted, pairs)]), answer)


def annotations():
    say("annotations TEXT NAME VALUE ..: whether the payload has these, and whether its annotations by themselves do.")
    both = compact(payload({"env": "prod", "number": 1, "bool": True}))
    annotated(both, "env", "prod", "number", "1", "bool", "true")
    annotated(compact(payload({"env": "staging", "owner": "flavio"})), "env", "prod")
    for pairs in ((), ("env", "prod"), ("env", "pro"), ("env", "prod "), ("Env", "prod"), ("number", "1"), ("number", "01"), ("number", "+1"), ("number", "1.0"),
                  ("bool", "true"), ("bool", "True"), ("bool", "false"), ("bool", "1"), ("env", "prod", "number", "2"), ("number", "2", "env", "prod"),
                  ("a", "x", "env", "prod"), ("env", "prod", "z", "x"), ("env", "x", "env", "prod"), ("env", "prod", "env", "x")):
        annotated(both, *pairs)
    say("Nothing asked for, of a payload without annotations, with an empty object of them, and with a creator alone.")
    for optional in (None, {}, {"creator": "c"}, {"a": None}):
        for pairs in ((), ("a", "null"), ("creator", "c"), ("a", "")):
            annotated(compact(payload(optional)), *pairs)
    say("A value of each kind, and how it is written.")
    for value, asked in itertools.product((*OTHERS, "true", "0", "null", "[]"), ("", "true", "false", "null", "0", "-1", "x", "[]", "{}", "-0", "00")):
        annotated(compact(payload({"a": value})), "a", asked)
    say("Numbers at their bounds, as they are written and by one more.")
    for value in (-2**63, -2**53, -10, -1, 0, 9, 10, 2**53, 2**63 - 1, 2**63, 2**64 - 1):
        for asked in (value, value + 1):
            annotated(compact(payload({"a": value})), "a", str(asked))
    say("Names and texts of other alphabets, and three hundred annotations.")
    annotated(compact(payload({"é": "ü", "\U0001f600": "\ufb33"})), "é", "ü", "\U0001f600", "\ufb33")
    many = {"n%03d" % number: number for number in range(300)}
    pairs = [word for name, value in many.items() for word in (name, str(value))]
    annotated(compact(payload(many)), *pairs)
    annotated(compact(payload({**many, "n150": 151})), *pairs)


# ---- what Rekor promised

TIMESTAMP = "sig-set"
SCHEME = "ECDSA_P256_SHA256_ASN1"


def read_promise(value):
    body = member(value, "Payload", any_value)
    return (member(value, "SignedEntryTimestamp", text), member(body, "body", text), member(body, "integratedTime", number),
            member(body, "logIndex", number), member(body, "logID", text))


def read_artifact(value):
    return member(value, "base64Signature", text), member(value, "cert", text), member(value, "rekorBundle", read_promise)


def decoded(signature):
    """The bytes of a text in strict base64, or of the text without its line ends."""
    for written in (signature, re.sub("[\r\n]", "", signature)):
        try:
            return documents.as_bytes(written)
        except documents.Member:
            pass
    raise Refused("Base64DecodeError")


def message_of(body, time, index, log):
    """RFC 8785: the canonical JSON of what the log signs."""
    if max(abs(time), abs(index)) > 2**53 - 1:
        raise Refused("UnexpectedError(PromiseInteger)")
    return documents.canonical({"body": body, "integratedTime": time, "logIndex": index, "logID": log}).encode()


def checked(promise, keys, rows):
    signature, body, time, index, log = promise
    message = message_of(body, time, index, log)
    if log not in keys:
        raise Refused("RekorPublicKeyNotFoundError(%s)" % debug(log))
    scheme, key = keys[log]
    if (scheme, key, message, decoded(signature)) not in rows:
        raise Refused("PublicKeyVerificationError")
    return promise


def promise_line(promise):
    signature, body, time, index, log = promise
    return " ".join([debug(signature), debug(body), str(time), str(index), debug(log)])


def keys_words(keys):
    return [str(len(keys)), *[word for name, (scheme, key) in keys.items() for word in (quoted(name), scheme, key.hex() or "-")]]


def rows_words(rows):
    return [word for scheme, key, message, signature in rows for word in ("message", scheme, key.hex() or "-", message.hex() or "-", signature.hex() or "-")]


def promise(content, keys, rows):
    row(" ".join(["promise", quoted(content), *keys_words(keys), *rows_words(rows)]),
        lambda: promise_line(checked(read(content, read_promise, "BundleUnreadable"), keys, rows)))


def artifact(content, keys, rows):
    def answer():
        signature, cert, found = read(content, read_artifact, "BundleUnreadable")
        return " ".join([debug(signature), debug(cert), promise_line(checked(found, keys, rows))])
    row(" ".join(["artifact", quoted(content), *keys_words(keys), *rows_words(rows)]), answer)


LOG = "44" * 32
KEYS = {"33" * 32: (SCHEME, fixture.key(3)), LOG: (SCHEME, fixture.key(4))}
SET = fixture.base64_of(TIMESTAMP.encode())


def tree(signature=SET, **changes):
    return {"SignedEntryTimestamp": signature, "Payload": {"body": "Ym9keQ==", "integratedTime": 1702446700, "logIndex": 900, "logID": LOG, **changes}}


def signed(promised, key=None, scheme=SCHEME, signature=TIMESTAMP.encode()):
    """The row of a checker that accepts it."""
    body = promised["Payload"]
    message = documents.canonical({name: body[name] for name in ("body", "integratedTime", "logIndex", "logID")}).encode()
    return [(scheme, fixture.key(4) if key is None else key, message, signature)]


def promises():
    rows = signed(tree())
    say("promise TEXT KEYS ROWS: what Rekor promised, its signature, body, time, index and log, under these keys and accepted signatures.")
    promise(compact(tree()), KEYS, rows)
    say("Each error as the first: no such object, an integer beyond 2^53 - 1, no key of the log, no base64, a signature that is not accepted.")
    for found, keys, accepted in itertools.product((tree(), tree(logIndex=2**53), tree(logID="55" * 32), tree("%"), {}), (KEYS, {}), (rows, [])):
        promise(compact(found), keys, accepted)
    promise(compact(tree("%", logIndex=2**53)), {}, [])
    promise(compact(tree("%", logID="x")), KEYS, [])
    say("Another key, another scheme, another message or another signature than the accepted one; two rows.")
    for other in (signed(tree(), key=fixture.key(3)), signed(tree(), scheme="ED25519"), signed(tree(logIndex=901)), signed(tree(), signature=b"sig-sex"),
                  signed(tree(logIndex=901)) + rows):
        promise(compact(tree()), KEYS, other)
    for scheme in schemes.others(fixture.SCHEME):
        promise(compact(tree()), {LOG: (scheme, b"key")}, signed(tree(), key=b"key", scheme=scheme))
    say("Log ids are compared byte for byte; the key of an empty one, and of one that has no key.")
    for log in ("", "4" * 63, "44" * 32 + "0", "AB" * 32, "ab" * 32, "\u00e9"):
        found = tree(logID=log)
        promise(compact(found), {**KEYS, "ab" * 32: (SCHEME, b"")}, signed(found))
        promise(compact(found), {log: (SCHEME, b"k")}, signed(found, key=b"k"))
    say("Integers at their bounds; the text that is signed has them as they are.")
    for name, value in itertools.product(("integratedTime", "logIndex"), INTEGERS):
        found = tree(**{name: value})
        promise(compact(found), KEYS, signed(found) if abs(value) < 2**53 else rows)
        promise(compact(tree(**{name: str(value)})), KEYS, rows)


def signatures_and_bodies():
    rows = signed(tree())
    say("Signatures: strict base64, or strict without its line ends; the empty one is a signature of no bytes.")
    for signature in (SET[:4] + "\n" + SET[4:], SET[:4] + "\r\n" + SET[4:] + "\n", SET.rstrip("="), SET + "=", SET + " ", " " + SET, "c2ln", "", "\n", "c2l", "c2lo====", "_-A="):
        promise(compact(tree(signature)), KEYS, rows)
    promise(compact(tree("")), KEYS, signed(tree(), signature=b""))
    say("Bodies are texts of any form, escaped in what is signed as in canonical JSON.")
    for body in ("", "x", '"', "\\", "\n\t\b\f\r\u0001\u007f", "\u00e9\U0001f600", "{}", "Ym9keQ"):
        found = tree(body=body)
        promise(compact(found), KEYS, signed(found))


def members_of_promises():
    rows = signed(tree())
    say("Each member absent, and of each other kind; members that are ignored; doubled ones; other orders and escapes; no object.")
    for path in (("SignedEntryTimestamp",), ("Payload",), ("Payload", "body"), ("Payload", "integratedTime"), ("Payload", "logIndex"), ("Payload", "logID")):
        for value in ("absent", *OTHERS):
            found = tree()
            place = found if len(path) == 1 else found["Payload"]
            place[path[-1]] = value
            if value == "absent":
                del place[path[-1]]
            promise(compact(found), KEYS, rows)
    inner = compact(tree()["Payload"])
    for content in ('{"SignedEntryTimestamp":"%s","Payload":%s,"a":[]}' % (SET, inner), '{"Payload":%s,"SignedEntryTimestamp":"%s"}' % (inner, SET),
                    '{"Payload":{},"SignedEntryTimestamp":"%s","Payload":%s}' % (SET, inner), '{"Payload":%s,"SignedEntryTimestamp":"%s","Payload":{}}' % (inner, SET),
                    '{"Payl\\u006fad":%s,"SignedEntryTimestamp":"%s"}' % (inner, SET), '{"SignedEntryTimestamp":"%s","Payload":%s,"a":0.5}' % (SET, inner),
                    '{"SignedEntryTimestamp":"%s","Payload":%s,"x":1}}' % (SET, inner), compact({**tree(), "Payload": {**tree()["Payload"], "more": {}}}),
                    '{"signedEntryTimestamp":"%s","payload":%s}' % (SET, inner), "", "x", "null", "[]", '"x"', "1", "\ufeff{}"):
        promise(content, KEYS, rows)
    say("Members that are ignored and nest to 127 or one more, beside the payload and in it.")
    for depth, place in itertools.product((126, 127), (tree(), tree()["Payload"])):
        nested = compact(place)[:-1] + ',"a":%s%s}' % ("[" * (depth - ("body" in place)), "]" * (depth - ("body" in place)))
        promise(compact(tree()).replace(compact(place), nested), KEYS, rows)


def hundreds_of_promises():
    say("Three hundred keys, accepted signatures and ignored members: the first, one in the middle, the last, and one more.")
    ignored = {"m%d" % number: number for number in range(300)}
    logs = {"%064d" % number: (SCHEME, b"k%d" % number) for number in range(300)}
    accepted = [found for log, (_, key) in logs.items() for found in signed(tree(logID=log), key=key)]
    for number in (0, 150, 299, 300):
        found = tree(logID="%064d" % number)
        promise(compact({**ignored, **found, "Payload": {**ignored, **found["Payload"]}}), logs, accepted)


def artifacts():
    rows = signed(tree())
    say("artifact TEXT KEYS ROWS: a signature over an artifact and its certificate, neither of which is looked at, with what Rekor promised.")
    whole = {"base64Signature": "c2ln", "cert": "cert", "rekorBundle": tree()}
    for found in (whole, {**whole, "base64Signature": "", "cert": ""}, {**whole, "base64Signature": "%", "cert": "\n", "more": 1}):
        artifact(compact(found), KEYS, rows)
    artifact(compact({**whole, "rekorBundle": tree(logID="55" * 32)}), KEYS, rows)
    artifact(compact({**whole, "rekorBundle": tree(logIndex=-2**53)}), {}, [])
    artifact(compact({**whole, "rekorBundle": tree("%")}), KEYS, rows)
    artifact(compact(whole), KEYS, [])
    artifact(compact(whole), {}, rows)
    say("Each member absent, and of each other kind; what Rekor promised by itself, and no object.")
    for name, value in itertools.product(whole, ("absent", *OTHERS)):
        found = {**whole, name: value}
        if value == "absent":
            del found[name]
        artifact(compact(found), KEYS, rows)
    deep = [compact(whole)[:-1] + ',"a":%s%s}' % ("[" * depth, "]" * depth) for depth in (126, 127)]
    for content in (compact(tree()), "", "null", "[]", "{", compact(whole)[:-1] + ',"a":1.0}', *deep):
        artifact(content, KEYS, rows)


def equal(one, other, rows):
    def answer():
        return " ".join(str(same).lower() for same in (one == other, one["rekorBundle"] == other["rekorBundle"],
                                                       one["rekorBundle"]["Payload"] == other["rekorBundle"]["Payload"]))
    row(" ".join(["equal", quoted(compact(one)), quoted(compact(other)), *keys_words(KEYS), *rows_words(rows)]), answer)


def equalities():
    say("equal TEXT TEXT KEYS ROWS: whether two of them are equal, what Rekor promised of them, and what it signed.")
    whole = {"base64Signature": "c2ln", "cert": "cert", "rekorBundle": tree()}
    line = SET[:4] + "\n" + SET[4:]
    others = [{**whole, "base64Signature": "c2lo"}, {**whole, "cert": "other"}, {**whole, "rekorBundle": tree(line)},
              *[{**whole, "rekorBundle": tree(**{name: value})} for name, value in (("body", "x"), ("integratedTime", 1), ("logIndex", 1), ("logID", "33" * 32))]]
    rows = [found for each in [whole, *others] for found in signed(each["rekorBundle"], key=KEYS[each["rekorBundle"]["Payload"]["logID"]][1])]
    for one, other in [(whole, whole), *[(whole, each) for each in others], *[(each, each) for each in others], *itertools.combinations(others, 2)]:
        equal(one, other, rows)


def main():
    payloads()
    made()
    manifests()
    annotations()
    promises()
    signatures_and_bodies()
    members_of_promises()
    hundreds_of_promises()
    artifacts()
    equalities()
    payload_calls = SimpleNamespace(
        Refused=Refused, signing_of=lambda content: signing_of(content.decode()), shown=shown, payload=payload, tree=tree, signed=signed, decoded=decoded,
        promised=lambda content, keys, rows: checked(read(content, read_promise, "BundleUnreadable"), keys, [row[1:] for row in rows if row[0] == "message"]))
    cosign_layer_rows.rows(TABLE, payload_calls)
    cosign_manifest_rows.rows(TABLE, payload_calls)
    cosign_bundle_rows.rows(TABLE, payload_calls)
    TABLE.write()


if __name__ == "__main__":
    main()
