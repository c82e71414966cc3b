"""Requests of `verify` whose explanations show what those of the table of `verify` do not: long texts and lists, names, times, and which parts
accepted signatures have in common with one that was asked about.

A row changes the fixture's request as those of tools/verify_rows.py do, and states by hand some members of the explanation, by their path."""
import collections

import fixture
from fixture import (A0, DIGEST, FULCIO, ISSUER, OCTET_STRING, SEQUENCE, SET, SUBJECT_ALTERNATIVE_NAME, URI, WORKFLOW, base64_of, certificate, compact, der,
                     extension, key, leaf, note, oid, subject)
from verify_cases import built, held, parts, root, unaccepted
from verify_rows_content import about

Row = collections.namedtuple("Row", "name text wanted")
LONG = 1024
EMAIL, HOST, OBJECT_IDENTIFIER, UTF8, PRINTABLE, IA5, BMP = 0x81, 0x82, 0x06, 0x0C, 0x13, 0x16, 0x1E
# Between the 1,024th byte and the next, and across them.
EDGES = {"a" * LONG: ("a" * LONG, None), "a" * (LONG + 1): ("a" * LONG, "1025"), "a" * (LONG - 1) + "\u00e9": ("a" * (LONG - 1), "1025"),
         "a" * (LONG - 3) + "\U0001f600b": ("a" * (LONG - 3), "1026"), "\u20ac" * 342: ("\u20ac" * 341, "1026")}


def row(name, wanted, *changes):
    return Row(name, compact(built(list(changes))), wanted)


def cut(member, text, length):
    return {member: text, member + "Length": length}


# Texts: whole up to 1,024 bytes, and then cut between two characters.

def texts():
    for place, (text, (shown, length)) in enumerate(EDGES.items()):
        yield row("a media type at the limit, %d" % place, cut("mediaType", shown, length), parts(media_type=text))
        yield row("an expected text at the limit, %d" % place, cut("policy.rules.0.expected", shown, length),
                  parts(policy={"all": [{"issuer": text}]}))
        yield row("a text of the certificate at the limit, %d" % place, cut("certificate.ref", shown, length),
                  held(others=extension(FULCIO["ref"], text.encode())))
        yield row("a subject's name at the limit, %d" % place, cut("envelope.subjects.1.name", shown, length),
                  about(subject(sha256=DIGEST), subject(text, sha256=DIGEST)))
        yield row("a predicate's type at the limit, %d" % place, cut("envelope.predicateType", shown, length),
                  about(subject(sha256=DIGEST), predicateType=text))
        first = "envelope.subjects.0.digests.%d." % (text > "sha256")
        yield row("a digest's name and text at the limit, %d" % place, cut(first + "algorithm", shown, length) | cut(first + "value", shown, length),
                  about(subject(sha256=DIGEST, **{text: text})))
        yield row("an origin at the limit, %d" % place, cut("note.origin", shown, length), parts(noted=note(bytes(32)).replace("fixture.log", text)))
    yield row("control characters, quotation marks and a backslash", {"mediaType": '\x00\x1f\x7f"\\/\b\f\n\r\t\u2028'},
              parts(media_type='\x00\x1f\x7f"\\/\b\f\n\r\t\u2028'))
    for size, length in ((512, None), (513, "1026")):
        yield row("a log id of %d bytes" % size, cut("logId", "00" * 512, length), parts(log_id=bytes(size)), root("tlogs.0.logId.keyId", ""))
        yield row("the id of a log of %d bytes" % size, {"ctlogs.0.logId": "00" * 512, "ctlogs.0.logIdLength": length},
                  root("ctlogs.0.logId.keyId", base64_of(bytes(size))), unaccepted(1))


# Names: that of the issuer as a text of RFC 4514, and those of the subject alternative name.

def attribute(kind, value, tag=UTF8):
    return der(SEQUENCE, der(OBJECT_IDENTIFIER, kind if isinstance(kind, bytes) else oid(kind)), der(tag, value))


def named(*sets):
    return der(SEQUENCE, *[der(SET, *each) for each in sets])


def part(value, kind="2.5.4.3", tag=UTF8):
    return [attribute(kind, value, tag)]


KINDS = ["2.5.4.3", "2.5.4.6", "2.5.4.7", "2.5.4.8", "2.5.4.9", "2.5.4.10", "2.5.4.11", "0.9.2342.19200300.100.1.25", "0.9.2342.19200300.100.1.1"]
ISSUERS = [
    ("of each type", named(*[part(b"x", kind) for kind in KINDS]), "UID=x,DC=x,OU=x,O=x,STREET=x,ST=x,L=x,C=x,CN=x"),
    ("of no parts", named(), ""), ("of no bytes", named(part(b"")), "CN="),
    ("of special characters", named(part(b'"+,;<>\\=\x00\x01')), 'CN=\\"\\+\\,\\;\\<\\>\\\\=\\00\x01'),
    ("of spaces and signs", named(part(b" a# "), part(b"#"), part(b" "), part(b"# #")), "CN=\\# #,CN=\\ ,CN=\\#,CN=\\ a#\\ "),
    ("of printable and other strings", named(part(b"a", tag=PRINTABLE), part(b"b", tag=IA5)), "CN=b,CN=a"),
    ("of letters beyond ASCII", named(part("\u00e9\U0001f600".encode())), "CN=\u00e9\U0001f600"),
    ("of no UTF-8", named(part(b"\xff")), None), ("of a wide string", named(part(b"\x00a", tag=BMP)), None),
    ("of two attributes in one part", named(part(b"a") + part(b"b", "2.5.4.10")), None), ("of another type", named(part(b"a", "2.5.4.5")), None),
    ("of an empty part", named([]), None), ("of an attribute with more after it", named([der(SEQUENCE, der(OBJECT_IDENTIFIER, oid("2.5.4.3")),
     der(UTF8, b"a"), der(UTF8, b"b"))]), None),
    ("of an attribute without a value", named([der(SEQUENCE, der(OBJECT_IDENTIFIER, oid("2.5.4.3")))]), None),
    ("of 64 parts", named(*[part(b"a")] * 64), ",".join(["CN=a"] * 64)), ("of 65 parts", named(*[part(b"a")] * 65), None),
    ("of a long part", named(part(b"a" * 5000)), ("CN=" + "a" * 5000)[:LONG])]


def issuers():
    for title, name, text in ISSUERS:
        wanted = {"issuerName": name.hex()[:LONG], "issuerText": text, "anchorCount": "0", "anchors": []}
        yield row("an issuer's name " + title, wanted, parts(leaf=leaf(issuer=name)))
    namesakes = [certificate(fixture.anchor(key=key(9))), certificate(fixture.anchor(subject=fixture.name("other")))] * 66
    listed = [{"certChain": {"certificates": [{"rawBytes": base64_of(each)} for each in namesakes]}}]
    yield row("more trust anchors of the name than are shown", {"anchors.0": "0", "anchors.63": "126", "anchors.64": None, "anchorCount": "66"},
              root("certificateAuthorities", listed))


def alternative(*elements):
    return held(names=extension(SUBJECT_ALTERNATIVE_NAME, der(SEQUENCE, *elements)))


def other_name(kind, tag, value):
    return der(A0, der(OBJECT_IDENTIFIER, kind), der(A0, der(tag, value)))


ANY_NAME = parts(policy={"all": [{"issuer": ISSUER}]})


def alternative_names():
    others = [other_name(FULCIO["other-name"], UTF8, b"user"), other_name(b"\x2a\x03", OCTET_STRING, b"\xff"), other_name(b"\x2a\x03", UTF8, b"")]
    yield row("names of each kind", {"certificate.names": [
        {"email": "user"}, {"uri": WORKFLOW}, {}, {"otherName": FULCIO["other-name"].hex(), "value": "user"}, {"otherName": "2a03"},
        {"otherName": "2a03", "value": ""}, {}, {"email": ""}]},
        alternative(der(EMAIL, b"user"), der(URI, WORKFLOW.encode()), der(HOST, b"host"), *others, der(0xA4), der(EMAIL)), ANY_NAME)
    yield row("no names", {"certificate.names": []}, held(names=b""), ANY_NAME)
    yield row("malformed names", {"certificate.names": []}, alternative(der(EMAIL, b"\xff")), ANY_NAME)
    yield row("more names than are shown", {"certificate.names.63": {"uri": "63"}, "certificate.names.64": None},
              alternative(*[der(URI, b"%d" % number) for number in range(66)]), ANY_NAME)
    yield row("a long name", cut("certificate.names.0.uri", "a" * LONG, "1025"), alternative(der(URI, b"a" * (LONG + 1))), ANY_NAME)


GROUPS = [texts, issuers, alternative_names]
