"""More rows of explain_rows.py: the certificate, times, logs, digests, policies, and which parts accepted signatures have in common with one that was asked about."""
import hashlib

import fixture
from explain_rows import row
from fixture import DIGEST, FULCIO, ISSUER, OTHER_LOG_ID, SCT_LIST, WIDE_DIGEST, WORKFLOW, base64_of, der, extension, key, leaf, sct, sct_list, subject
from verify_cases import CHECKPOINT, accepted, bundle, held, message, parts, root, unaccepted
from verify_rows_chains import ONE, TWO, to_root
from verify_rows_content import about

MADE = fixture.Request()
CLAIMS = ("trigger", "sha", "name", "repository", "ref")


# The certificate, and who issued it.

def certificates():
    yield row("what Fulcio's extensions say", {"certificate." + name: "the " + name for name in CLAIMS},
              held(others=b"".join(extension(FULCIO[name], b"the " + name.encode()) for name in CLAIMS)))
    yield row("an extension twice", {"certificate.ref": None, "link": "issuance"}, held(others=extension(FULCIO["ref"], b"a") * 2))
    yield row("an extension that is not UTF-8", {"certificate.ref": None, "certificate.sha": ""},
              held(others=extension(FULCIO["ref"], b"\xff") + extension(FULCIO["sha"], b"")))
    for serial in (b"\x00", b"\xff", b"\x00\x80", bytes(range(1, 21)), b"\x01" * 3000):
        yield row("a serial number of %d bytes" % len(serial), {"certificate.serialNumber": serial.hex()}, parts(leaf=leaf(serial=der(2, serial))))
    yield row("issued by a further certificate", {"issuedBy": {"further": "0"}}, to_root(ONE))
    yield row("issued by the second further certificate", {"issuedBy": {"further": "1"}},
              to_root(*TWO, later=[fixture.certificate(each) for each in TWO[::-1]]))
    others = [fixture.certificate(fixture.anchor(key=key(9))), fixture.certificate(fixture.anchor())]
    listed = [{"certChain": {"certificates": [{"rawBytes": base64_of(each)} for each in others]}}]
    yield row("issued by the second trust anchor", {"issuedBy": {"anchor": "1"}}, root("certificateAuthorities", listed))


# Times: in both forms in the years 1 to 9999.

def times():
    for second, utc in ((-62135596800, "0001-01-01T00:00:00Z"), (-62135596801, None), (253402300799, "9999-12-31T23:59:59Z"), (253402300800, None),
                        (0, "1970-01-01T00:00:00Z"), (-1, "1969-12-31T23:59:59Z"), (951782400, "2000-02-29T00:00:00Z"), (4107542399, "2100-02-28T23:59:59Z"),
                        (4107542400, "2100-03-01T00:00:00Z"), (2 ** 63 - 1, None), (-2 ** 63, None)):
        yield row("a time of %d" % second, {"integratedTime.seconds": str(second), "integratedTime.utc": utc, "notAfter.utc": "2023-12-13T06:00:55Z"},
                  parts(integrated_time=second))
    for stamp, second, utc in ((0, 0, "1970-01-01T00:00:00Z"), (999, 0, "1970-01-01T00:00:00Z"), (2 ** 64 - 1, 18446744073709551, None)):
        yield row("an SCT's time of %d" % stamp, {"timestamp": str(stamp), "time.seconds": str(second), "time.utc": utc},
                  held(list=extension(SCT_LIST, sct_list(sct(time=stamp)))))


# Logs and authorities of a trusted root, at the request's time.

def instance(spki=None, identifier=None, **valid_for):
    made = {"publicKey": {"rawBytes": base64_of(spki), "validFor": valid_for}} if spki is not None else {}
    return {**made, "logId": {"keyId": base64_of(identifier)}} if identifier is not None else made


PAST, LATER = "2023-01-01T00:00:00Z", "2024-01-01T00:00:00Z"
LOGS = [instance(), instance(key(9)), instance(None, OTHER_LOG_ID), instance(key(9), OTHER_LOG_ID, start=PAST), instance(key(9), b"", start=PAST, end=LATER),
        instance(b"", OTHER_LOG_ID, start=PAST, end="2023-12-01T00:00:00Z"), instance(key(9), OTHER_LOG_ID, start=LATER), {"publicKey": {}},
        instance(key(9), OTHER_LOG_ID, end=PAST), {"publicKey": {"validFor": {"start": LATER, "end": PAST}}, "logId": {}}]
STATES = [None, "holds", None, "holds", "holds", "ended", "not begun", "holds", "holds", "not begun"]
NOW = {"seconds": "1702500000", "utc": "2023-12-13T20:40:00Z"}


def logs():
    for name, link in (("ctlogs", "sct"), ("tlogs", "log-key")):
        wanted = {"%s.%d.state" % (name, place): state for place, state in enumerate(STATES)}
        yield row("each kind of %s" % name, {"link": link, "now": NOW, name + ".0": {}, name + ".4.logId": "", name + ".3.end": None, **wanted}, root(name, LOGS))
        yield row("more %s than are shown" % name, {name + ".255.logId": OTHER_LOG_ID.hex(), name + ".256": None},
                  root(name, [instance(key(9), OTHER_LOG_ID)] * 257))
    yield row("Certificate Transparency logs without a key", {"link": "ctfe", "now": NOW, "ctlogs": [{"logId": OTHER_LOG_ID.hex()}, {"state": "holds"}]},
              root("ctlogs", [LOGS[2], {"publicKey": {}}]))


def authorities():
    one = {"certChain": {"certificates": [{"rawBytes": ""}]}}
    listed = [{}, {**one, "validFor": {"start": LATER}}, {"certChain": {}, "validFor": {"start": PAST}}, {"validFor": {"start": PAST, "end": "2023-12-01T00:00:00Z"}},
              {"validFor": {"end": PAST}}, {**one, "validFor": {"start": "2023-12-13T20:40:01Z", "end": LATER}}]
    states = ["holds", "not begun", "holds", "ended", "holds", "not begun"]
    wanted = {"certificateAuthorities.%d.state" % place: state for place, state in enumerate(states)}
    yield row("each kind of authority", {"link": "fulcio", "now": NOW, "certificateAuthorityCount": "6", "certificateAuthorities.1.certificateCount": "1",
                                         "certificateAuthorities.2.certificateCount": "0", "certificateAuthorities.3.end.seconds": "1701388800", **wanted},
              root("certificateAuthorities", listed))
    yield row("more authorities than are shown", {"link": "fulcio", "now": NOW, "certificateAuthorities.255.state": "holds", "certificateAuthorities.256": None,
                                                  "certificateAuthorityCount": "257"}, root("certificateAuthorities", [{}] * 257))


# Digests of a statement's subjects, and rules of a policy.

def subjects():
    other = [subject(sha256="%064x" % number, sha512="%0128x" % number) for number in range(200)]
    yield row("more digests than are shown", {"subjectDigests.0": {"sha256": "0" * 64}, "subjectDigests.255": {"sha512": "%0128x" % 127},
                                              "subjectDigests.256": None, "subjectDigestCount": "400", "digest": {"sha256": DIGEST}}, about(*other))
    yield row("digests in upper case, and of other algorithms", {"subjectDigests": [{"sha256": "ab" * 32}], "digest": {"sha512": WIDE_DIGEST}},
              about(subject(sha256="AB" * 32, sha384="x")), parts(digest="sha512:" + WIDE_DIGEST.upper()))
    yield row("as many subjects as there may be", {"envelope.subjectCount": "1024", "envelope.subjects.1023.digests.0.value": DIGEST},
              parts(payload=fixture.statement(subjects=1024)))
    yield row("as many digests as there may be", {"envelope.subjects.0.digests.31.algorithm": "x9", "envelope.subjects.0.name": None},
              about({"digest": {"sha256": DIGEST, **{"x%d" % number: "" for number in range(31)}}}))
    yield row("no envelope", {"envelope": None, "digest": {"sha256": DIGEST}}, message())


def policies():
    held_rule, failing = {"identity": WORKFLOW, "issuer": ISSUER}, {"ref": "x"}
    yield row("more rules than are shown", {"cause": ["Policy", "AllOf"], "total": "70", "policy.total": "70", "policy.rules.31": {"rule": "identity"},
                                            "policy.rules.30": {"rule": "ref", "cause": ["ExtensionNotFound"]}, "policy.rules.32": None},
              parts(policy={"all": [failing] * 31 + [held_rule] + [failing] * 38}))
    yield row("any of more rules than are shown", {"policy.require": "any", "policy.rules.0.cause": ["ExtensionNotFound"], "policy.total": "33"},
              parts(policy={"any": [failing] * 32 + [held_rule]}))
    yield row("none of any", {"cause": ["Policy", "AnyOf"], "total": "2", "policy.require": "any", "policy.rules.1.actual": ISSUER},
              parts(policy={"any": [failing, {"issuer": ""}]}))
    kinds = [{name: "x"} for name in CLAIMS] + [{"issuer": "x"}, {"identity": "x", "issuer": ISSUER}]
    yield row("each kind of rule", {"policy.rules.%d.rule" % place: next(iter(rule)) for place, rule in enumerate(kinds)}, parts(policy={"all": kinds}))


# What accepted signatures have of one that was asked about.

ALL = ["key", "message", "signature"]
# How one of the fixture's accepted signatures is changed, and what it still has.
CHANGES = {
    "nothing": (lambda operation, scheme, under, text, signature: (operation, scheme, b"k", b"m", b"s"), []),
    "the key": (lambda operation, scheme, under, text, signature: (operation, scheme, under, b"m", b"s"), ["key"]),
    "the message": (lambda operation, scheme, under, text, signature: (operation, scheme, b"k", text, b"s"), ["message"]),
    "the signature": (lambda operation, scheme, under, text, signature: (operation, scheme, b"k", b"m", signature), ["signature"]),
    "all, under another scheme": (lambda operation, scheme, *others: (operation, "ED25519", *others), ALL),
    "all, of another operation": (lambda operation, *others: ("prehash", *others), ALL)}


def asked(name, place, change, wanted):
    """The fixture's accepted signatures with the one at this place changed."""
    found = MADE.accepted()[place]
    words = [found["operation"], found["scheme"], *(fixture.base64.b64decode(found[part]) for part in ALL)]
    return row(name, {"accepted": wanted}, unaccepted(place), accepted(*change(*words)))


def signatures():
    for place, link in ((2, "signature"), (3, "promise"), (4, "note-key")):
        for title, (change, wanted) in CHANGES.items():
            # The log's key is that of the promise and of the checkpoint, so that one of them has it in any case.
            found = [part for part in ALL if part in wanted or part == "key" and link != "signature"]
            yield asked("%s: accepted has %s" % (link, title), place, change, found)
    for count, shown in ((65512, {"keySha256": hashlib.sha256(fixture.wide_key(65512)).hexdigest(), "keyLength": None}), (65513, {"keySha256": None, "keyLength": "65537"})):
        yield row("the log's key has %d bytes" % (count + 24), {"link": "promise", **shown}, parts(log_key=fixture.wide_key(count), log_scheme="RSA_PKCS1_SHA256"),
                  unaccepted(3), unaccepted(3))
    yield row("a digest of which no signature is", {"cause": ["Signature", "DigestAlgorithmUnsupported"]}, message(digest="sha512:" + WIDE_DIGEST))
    for count, found in ((16, ["key", "message", "signature"]), (17, ["key", "message"])):
        lines = "".join("\u2014 log %s\n\n" % base64_of(b"\x00\x00\x00\x04sig-%d" % number) for number in range(count - 1))
        own = "\u2014 fixture.log %s\n" % base64_of(b"\x00\x00\x00\x04sig-note")
        under = accepted("message", "ED25519", key(4), MADE.noted.encode(), b"sig-note")
        yield row("the signature is number %d of a note" % count, {"link": "note-key", "accepted": found}, unaccepted(4), under,
                  bundle(CHECKPOINT, lambda old, lines=lines, own=own: old.split("\n\n")[0] + "\n\n" + lines + own))
    yield row("a note without signatures", {"link": "note-key", "accepted": ["key", "message"]},
              bundle(CHECKPOINT, lambda old: old.split("\n\n")[0] + "\n\n"))


GROUPS = [certificates, times, logs, authorities, subjects, policies, signatures]
