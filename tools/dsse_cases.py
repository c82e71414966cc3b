#!/usr/bin/env python3
"""Writes the tables of crates/dsse_cases: `stdin`, the calls, and `stdout`, what they return.

    tools/dsse_cases.py

Statements are read here a second time, by the in-toto attestation framework's "Statement layer specification v1" over Python's `json`;
encodings and envelopes are written by the DSSE protocol, digests by Python's `hashlib`. The first encoding and the first envelope are the
examples of the protocol, the messages `abc` those of FIPS 180-4.
"""
import base64
import hashlib
import json
import re

from case_table import Table


STATEMENT_V1 = "https://in-toto.io/Statement/v1"
COSIGN_SIGN_V1 = "https://sigstore.dev/cosign/sign/v1"
TYPE = "application/vnd.in-toto+json"
A, B, C = "a" * 64, "b" * 128, "0123456789ABCDEFabcdef" + "9" * 42

TABLE = Table("dsse_cases")
case, say = TABLE.case, TABLE.note


# ---- texts in arguments and in answers


def percent(text):
    return "".join(chr(b) if b < 128 and (chr(b).isalnum() or chr(b) in "./:") else "%%%02X" % b for b in text.encode()) or "-"


def digits(data):
    return data.hex() or "-"


def listed(items):
    """A list in hexadecimal; a list of one empty element is written as two empty parts joined."""
    if not items:
        return "-"
    return ",".join(item.hex() or "+" for item in items)


def shown(text):
    """A text in quotation marks, as Rust's Debug writes it; the texts here need no other escapes."""
    return '"' + text.replace("\\", "\\\\").replace('"', '\\"') + '"'


def compact(value):
    return json.dumps(value, separators=(",", ":"), sort_keys=True, ensure_ascii=False)


# ---- the DSSE protocol


def pae(payload_type, payload):
    kind = payload_type.encode()
    return b"DSSEv1 " + str(len(kind)).encode() + b" " + kind + b" " + str(len(payload)).encode() + b" " + payload


def member(name, value):
    return [json.dumps(name) + ":" + value] if value else []


def text_member(name, text):
    return member(name, json.dumps(text, ensure_ascii=False) if text else "")


def in_base64(data):
    return base64.b64encode(data).decode()


def envelope_text(payload_type, payload, signatures):
    parts = ["{" + ",".join(text_member("sig", in_base64(sig)) + text_member("keyid", keyid)) + "}" for sig, keyid in signatures]
    members = text_member("payload", in_base64(payload)) + text_member("payloadType", payload_type)
    return "{" + ",".join(members + member("signatures", "[" + ",".join(parts) + "]" if parts else "")) + "}"


def envelope_words(payload_type, payload, signatures):
    sigs = listed([sig for sig, _ in signatures])
    keyids = listed([keyid.encode() for _, keyid in signatures])
    return " ".join([percent(payload_type), digits(payload), sigs, keyids])


# ---- in-toto statements


class NoStatement(Exception):
    pass


def want(holds):
    if not holds:
        raise NoStatement


def no_float(text):
    raise NoStatement


def depth_of(value):
    """How deep lists and objects nest."""
    items = value.values() if isinstance(value, dict) else value if isinstance(value, list) else None
    return 0 if items is None else 1 + max(map(depth_of, items), default=0)


def parsed(payload):
    """The document, without floats: no point, no exponent, no -0, no integer outside -2^63 to 2^64 - 1. It nests to 127."""
    try:
        found = json.loads(payload, parse_float=no_float, parse_constant=no_float, parse_int=integer)
    except ValueError:
        raise NoStatement
    want(depth_of(found) <= 127)
    return found


def integer(text):
    want(text != "-0" and -(2**63) <= int(text) < 2**64)
    return int(text)


def read(payload):
    d = parsed(payload)
    want(isinstance(d, dict))
    want(isinstance(d.get("_type"), str) and isinstance(d.get("predicateType"), str))
    want(isinstance(d.get("subject"), list))
    subjects = []
    for s in d["subject"]:
        want(isinstance(s, dict) and isinstance(s.get("digest"), dict))
        want(s.get("name") is None or isinstance(s["name"], str))
        want(all(isinstance(v, str) for v in s["digest"].values()))
        entries = sorted(s["digest"].items(), key=lambda e: e[0].encode())
        subjects.append((s.get("name"), entries, s.get("annotations")))
    return d["_type"], subjects, d["predicateType"], d.get("predicate")


def statement_answer(payload):
    try:
        kind, subjects, predicate_type, predicate = read(payload)
    except NoStatement:
        return "UnexpectedError(Statement)"
    words = ["ok", shown(kind), shown(predicate_type), "-" if predicate is None else compact(predicate)]
    for name, entries, annotations in subjects:
        words += ["|", "-" if name is None else shown(name)]
        words += [algorithm + "=" + shown(text) for algorithm, text in entries]
        words += ["-" if annotations is None else compact(annotations)]
    return " ".join(words)


SIZES = {"sha256": (64, "Sha256"), "sha512": (128, "Sha512")}


def digests(subjects):
    """The digests by their rules: at most 1024 subjects, then subject by subject at most 32 digests, then the named ones well formed."""
    if len(subjects) > 1024:
        return "TooManySubjects(%d)" % len(subjects)
    found = []
    for _, entries, _ in subjects:
        if len(entries) > 32:
            return "TooManyDigests(%d)" % len(entries)
        for algorithm, text in [entry for entry in entries if entry[0] in SIZES]:
            size, name = SIZES[algorithm]
            if not re.fullmatch("[0-9a-fA-F]{%d}" % size, text):
                return "Malformed(%s)" % name
            found.append(algorithm + " " + text.lower())
    return " ".join(["ok"] + found) if found else "NoneRecognized"


def digest_cases(payload):
    try:
        answer = digests(read(payload)[1])
    except NoStatement:
        case("payload_digests " + payload, "NoStatement")
        case("recognized_digests " + payload, "UnexpectedError(Statement)")
        return
    case("payload_digests " + payload, answer if answer.startswith("ok") else "Subjects(%s)" % answer)
    case("recognized_digests " + payload, answer)


def cosign_answer(payload):
    try:
        kind, subjects, predicate_type, _ = read(payload)
    except NoStatement:
        return "UnexpectedError(Statement)"
    if kind != STATEMENT_V1:
        return "UnexpectedError(StatementType)"
    if predicate_type != COSIGN_SIGN_V1:
        return "UnexpectedError(PredicateType)"
    if not subjects:
        return "UnexpectedError(NoSubjects)"
    return "ok" if "sha256" in dict(subjects[0][1]) else "UnexpectedError(FirstSubjectWithoutSha256)"


def first_answer(payload):
    try:
        _, subjects, _, _ = read(payload)
    except NoStatement:
        return "UnexpectedError(Statement)"
    if not subjects or "sha256" not in dict(subjects[0][1]):
        return "UnexpectedError(FirstSubjectWithoutSha256)"
    return " ".join(["ok", dict(subjects[0][1])["sha256"]] + [str(len(entries)) for _, entries, _ in subjects])


def with_maps(*maps):
    return compact({"_type": "", "predicateType": "", "subject": [{"digest": m} for m in maps]})


def cosign_payload(subjects, kind=STATEMENT_V1, predicate_type=COSIGN_SIGN_V1):
    return compact({"_type": kind, "predicateType": predicate_type, "subject": subjects})


# ---- the tables


def encodings():
    say("encoding TYPE PAYLOAD: the pre-authentication encoding. The example of the protocol, then nothing, then lengths of two and three digits.")
    for payload_type, payload in [
        ("http://example.com/HelloWorld", b"hello world"), ("", b""), ("", b"1 a 1 b"), ("1 ", b"a"), (TYPE, b"{}"),
        ("caf\u00e9", b"\x00\xff"), ("x" * 9, b"y" * 10), ("x" * 10, b"y" * 99), ("x" * 99, b"y" * 100), ("x" * 100, b"y" * 9),
    ]:
        case("encoding %s %s" % (percent(payload_type), digits(payload)), "ok " + digits(pae(payload_type, payload)))


EXAMPLE = base64.b64decode("A3JqsQGtVsJ2O2xqrI5IcnXip5GToJ3F+FnZ+O88SjtR6rDAajabZKciJTfUiHqJPcIAriEGAHTVeCUjW2JIZA==")
ENVELOPES = [
    ("http://example.com/HelloWorld", b"hello world", [(EXAMPLE, "")]),
    (TYPE, b"hello world", [(b"sig-dsse", "")]),
    ('a"\\\n\u0001\u00e9', b"", [(b"s", "k/1"), (b"", "")]),
    ("", b"", []), ("t", b"", []), ("", b"p", []), ("", b"", [(b"", "")]), ("", b"", [(b"", "k")]),
    ("t", b"p", [(b"s", ""), (b"t", "k"), (b"s", "")]), ("\x7f\u2028\U0001f600/", b"\xfb\xff", [(b"\xfe", "<&>")]), ("\b\t\n\f\r\x1f", b"x", []),
]


def escaped(text):
    """RFC 8785 section 3.2.2.2: DEL and all above 1f are written as they are."""
    return text.replace("\\u007f", "\x7f")


def envelopes():
    say("envelope TYPE PAYLOAD SIGS KEYIDS: the envelope as JSON. The example of the protocol, then what has to be escaped or is omitted.")
    for envelope in ENVELOPES:
        case("envelope " + envelope_words(*envelope), "ok " + escaped(envelope_text(*envelope)))
    say("equal_envelopes and two envelopes, equal_signatures SIG KEYID SIG KEYID: whether all parts are equal.")
    base = ("t", b"p", [(b"s", "k")])
    for other in [
        base, ("u", b"p", [(b"s", "k")]), ("t", b"q", [(b"s", "k")]), ("t", b"p", [(b"r", "k")]), ("t", b"p", [(b"s", "j")]), ("t", b"p", []),
        ("t", b"p", [(b"s", "k"), (b"s", "k")]),
    ]:
        case("equal_envelopes %s %s" % (envelope_words(*base), envelope_words(*other)), "ok " + str(base == other).lower())
    for one, other in [((b"k", ""), (b"k", "")), ((b"k", ""), (b"k", "k")), ((b"k", ""), (b"", "k")), ((b"s", "k"), (b"s", "k")), ((b"s", "k"), (b"t", "k"))]:
        words = " ".join(digits(x) for x in [one[0], one[1].encode(), other[0], other[1].encode()])
        case("equal_signatures " + words, "ok " + str(one == other).lower())


FOUR = cosign_payload([
    {"name": "a", "digest": {"sha256": A}}, {"name": "b", "digest": {}}, {"name": "c", "digest": {"sha512": B}}, {"name": "a", "digest": {"sha256": A}},
])
STATEMENTS = [
    '{"_type":"t","subject":[],"predicateType":"p"}',
    '{"_type":"t","subject":[{"digest":{}}],"predicateType":"p","predicate":null,"other":1}',
    '{"_type":"","subject":[{"name":null,"digest":{"a":"b"},"annotations":[1]}],"predicateType":"","predicate":[]}',
    '{"predicate":{"z":-1,"a":{}},"predicateType":"p","subject":[{"annotations":null,"digest":{"sha512":"B","sha256":"a"},"name":"n"}],"_type":"t"}',
    '{"_type":"t","subject":[{"name":"b","digest":{"x":""}},{"name":"","digest":{"y":"1","y":"2"},"annotations":{}}],"predicateType":"p","predicate":false}',
    '{ "_type" : "t" , "subject" : [ ] , "predicateType" : "p" , "predicate" : 18446744073709551615 }',
    '{"_type":"t","_type":"u","subject":[],"predicateType":"p","predicate":"\\u00e9\\"\\\\"}',
    '{"_type":"t","subject":[{"digest":{"a":"b"},"other":[null]}],"predicateType":"p","predicate":-9223372036854775808}',
    FOUR,
]
REFUSED = [
    '{"subject":[],"predicateType":"p"}', '{"_type":"t","predicateType":"p"}', '{"_type":"t","subject":[]}',
    '{"_type":null,"subject":[],"predicateType":"p"}', '{"_type":1,"subject":[],"predicateType":"p"}', '{"_type":"t","subject":{},"predicateType":"p"}',
    '{"_type":"t","subject":null,"predicateType":"p"}', '{"_type":"t","subject":[],"predicateType":null}', '{"_type":"t","subject":[],"predicateType":["p"]}',
    '{"_type":"t","subject":[null],"predicateType":"p"}', '{"_type":"t","subject":["s"],"predicateType":"p"}', '{"_type":"t","subject":[{}],"predicateType":"p"}',
    '{"_type":"t","subject":[{"digest":null}],"predicateType":"p"}', '{"_type":"t","subject":[{"digest":[]}],"predicateType":"p"}',
    '{"_type":"t","subject":[{"digest":{"a":null}}],"predicateType":"p"}', '{"_type":"t","subject":[{"digest":{"a":1}}],"predicateType":"p"}',
    '{"_type":"t","subject":[{"digest":{}},{"digest":{"a":[]}}],"predicateType":"p"}', '{"_type":"t","subject":[{"name":1,"digest":{}}],"predicateType":"p"}',
    '{"_type":"t","subject":[],"predicateType":"p","predicate":1.5}', '{"_type":"t","subject":[],"predicateType":"p","predicate":-0}',
    '{"_type":"t","subject":[],"predicateType":"p","predicate":18446744073709551616}', '{"_type":"t","subject":[],"predicateType":"p","other":1e1}',
    '{"_type":"t","subject":[{"digest":{},"annotations":[0.5]}],"predicateType":"p"}', '{"_type":"t","subject":[],"predicateType":"p"} x',
    "[]", "null", '"s"', "{", " ",
]


def statements():
    say("statement PAYLOAD: the two types, the predicate, and of each subject the name, the digests and the annotations; - for what is absent.")
    for payload in STATEMENTS + REFUSED:
        case("statement " + payload, statement_answer(payload))
    say("Lists nest to 127: in a predicate, in annotations, in a member that is ignored.")
    for levels in (126, 127):
        lists = ("[" * levels + "]" * levels, "[" * (levels - 2) + "]" * (levels - 2))
        for payload in ('{"_type":"t","subject":[],"predicateType":"p","predicate":%s}' % lists[0],
                        '{"_type":"t","subject":[],"predicateType":"p","other":%s}' % lists[0],
                        '{"_type":"t","subject":[{"digest":{},"annotations":%s}],"predicateType":"p"}' % lists[1]):
            case("statement " + payload, statement_answer(payload))
            digest_cases(payload)


def many(subjects, entries):
    return with_maps(*[{str(place): "" for place in range(entries)} for _ in range(subjects)])


def payloads():
    say("payload_digests PAYLOAD, recognized_digests PAYLOAD: the digests named sha256 and sha512, or the first rule that is broken.")
    for payload in STATEMENTS + REFUSED[:3] + REFUSED[-3:]:
        digest_cases(payload)
    bad = {"sha256": "zz"}
    over = {"%02d" % place: "" for place in range(33)}
    full = {"%02d" % place: "" for place in range(31)}
    for maps in [
        [], [{"SHA256": "zz"}], [{"sha-256": A}], [{"sha256 ": A}], [{"sha1": A}], [bad], [{"sha256": ""}], [{"sha256": A[1:]}], [{"sha256": A + "a"}],
        [{"sha256": A[:-1] + "g"}], [{"sha256": B}], [{"sha256": C}], [{"sha512": A}], [{"sha512": B[1:]}], [{"sha512": B + "b"}], [{"sha512": C + C}],
        [{"other": "zz"}, {"sha512": "0"}], [{"sha512": "0", "sha256": A}], [{"sha512": B, "sha256": "0"}], [{"sha512": "0", "sha256": "0"}],
        [{"sha256": A}, {}, {"sha512": B, "sha256": C}, {"sha256": A}], [dict(full, sha256=A)], [dict(full, sha256="0")],
        [over, bad], [bad, over], [dict(over, sha256="0")], [{"sha256": A}, over], [dict(full, sha256=A), over, bad],
    ]:
        digest_cases(with_maps(*maps))
    for subjects, entries in [(1, 32), (1, 33), (3, 34), (1024, 0), (1025, 0)]:
        digest_cases(many(subjects, entries))
    digest_cases(with_maps(*[{}] * 1023, {"sha256": A}))
    digest_cases(with_maps(bad, over, *[{}] * 1023))


def cosign():
    say("cosign PAYLOAD: the statement is one as cosign signs it, or what is not. Of two faults the first is told.")
    first, second = {"digest": {"sha256": "x"}}, {"digest": {"sha512": "x"}}
    payloads = [
        cosign_payload([first]), cosign_payload([first, second]), cosign_payload([second, first]), cosign_payload([{"digest": {"SHA256": "x"}}]),
        cosign_payload([]), FOUR, "{",
    ]
    for kind in [STATEMENT_V1[:-1], STATEMENT_V1 + "/", "https://in-toto.io/Statement/v0.1", "https://in-toto.io/statement/v1", "", "http" + STATEMENT_V1[5:]]:
        payloads += [cosign_payload([first], kind=kind), cosign_payload([], kind=kind, predicate_type="p")]
    for kind in [COSIGN_SIGN_V1[:-1], COSIGN_SIGN_V1 + "/", "https://sigstore.dev/cosign/sign/v2", "https://slsa.dev/provenance/v1", "", "http" + COSIGN_SIGN_V1[5:]]:
        payloads += [cosign_payload([first], predicate_type=kind), cosign_payload([], predicate_type=kind)]
    for payload in payloads:
        case("cosign " + payload, cosign_answer(payload))
    say("first_sha256 PAYLOAD: the text of the first subject's digest named sha256, and how many digests each subject has.")
    for payload in STATEMENTS + payloads[:6] + ["{"]:
        case("first_sha256 " + payload, first_answer(payload))


def hashes():
    say("sha256 BYTES, sha512 BYTES: the digest with its algorithm. FIPS 180-4's example, and no bytes.")
    for data in [b"abc", b"", b"abcdbcdecdefdefgefghfghighijhijkijkljklmklmnlmnomnopnopq"]:
        case("sha256 " + digits(data), "ok sha256 " + hashlib.sha256(data).hexdigest())
        case("sha512 " + digits(data), "ok sha512 " + hashlib.sha512(data).hexdigest())
    say("equal_digests BYTES BYTES: whether two digests, of 32 or 64 bytes, are equal.")
    for one, other in [(7, 7), (7, 9)]:
        for size in [32, 64]:
            case("equal_digests %02x*%d %02x*%d" % (one, size, other, size), "ok " + str(one == other).lower())
            case("equal_digests %02x*%d %02x*%d" % (one, size, other, 96 - size), "ok false")
            case("equal_digests %02x*%d %02x*%d+00" % (one, size, one, size - 1), "ok false")


def faults():
    say("fault NAME: the Debug text, which begins with the Display text, and the Display text of the same fault of a payload.")
    for name, text, outer in [
        ("TooManySubjects", "TooManySubjects(1025)", "Subjects"), ("TooManyDigests", "TooManyDigests(33)", "Subjects"), ("Malformed", "Malformed(Sha512)", "Subjects"),
        ("NoneRecognized", "NoneRecognized", "Subjects"), ("NoMemory", "OutOfMemory", "OutOfMemory"),
    ]:
        case("fault " + name, text + " " + outer)
    case("fault NoStatement", "NoStatement")


def main():
    encodings()
    envelopes()
    statements()
    payloads()
    cosign()
    hashes()
    faults()
    TABLE.write()


if __name__ == "__main__":
    main()
