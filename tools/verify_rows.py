"""The rows of the table of `verify`: what changes in the fixture's request, and what the result is, stated by hand. tools/verify_cases.py writes them.

The pair of `content` and `envelope` is missing, since `envelope` is about an envelope and `content` fails where there is none.
"""
import json

import fixture
import verify_rows_chains
import verify_rows_content
import verify_rows_documents
import verify_rows_hundreds
import verify_rows_limits
import verify_rows_message
from fixture import (FULCIO, OBJECT_IDENTIFIER, SEQUENCE, anchor, base64_of, compact, der, extension, key, leaf, leaf_extensions, note, sct,
                     sct_list)
from verify_cases import (ABSENT, ANCHOR, AUTHORITY, CERTIFICATE, CHECKPOINT, ENTRY, KEYS, MATERIAL, PROOF, UNKNOWN_CURVE, accepted, bundle, held,
                          of_bytes, parts, request, root, row, unaccepted, whole_row)
from verify_rows_message import in_chain

NO_WORKFLOW = {"all": [{"sha": "x"}]}
NOT_FOUND = "Policy(AllOf { total: 1, errors: PolicyErrors { items: [ExtensionNotFound] } })"


DUPLICATE = extension(FULCIO["ref"], b"a") + extension(FULCIO["ref"], b"a")
OTHER_ID = base64_of(fixture.OTHER_LOG_ID)


def drop(content):
    return content[:-1]


def append(content):
    return content + b"\x00"


# Each link as the first that fails, by one changed part of the fixture; and each two neighbours broken at once.

FIRST = {
    "request": ("no time", "", [request("now", ABSENT)]),
    "root-json": ("a trusted root that is cut", "Json(Root, NotJson)", [request("trustedRoot", lambda text: text[:-1])]),
    "bundle-json": ("a bundle that is cut", "Json(Bundle, NotJson)", [request("bundle", lambda text: text[:-1])]),
    "fulcio": ("no authority", "TrustRoot(Fulcio)", [root("certificateAuthorities", [])]),
    "anchor": ("a trust anchor that is cut", "Anchor(0)", [root(ANCHOR, of_bytes(drop))]),
    "ctfe": ("no log of certificates", "TrustRoot(Ctfe)", [root("ctlogs", [])]),
    "material": ("no certificate", "Bundle(VerificationMaterialContentUnsupported)", [bundle(MATERIAL + ".certificate", ABSENT)]),
    "certificate": ("a certificate and a byte", "Bundle(CertificateMalformed(0))", [bundle(CERTIFICATE, of_bytes(append))]),
    "leaf": ("a leaf without key usage", "Bundle(NoLeaf(Extension(Missing(KeyUsage))))", [held(usage=b"")]),
    "root-in-chain": ("the trust anchor after the leaf", "Bundle(RootInChain)", [in_chain(fixture.certificate(anchor()))]),
    "content": ("no envelope", "Bundle(SignatureMissing)", [bundle("dsseEnvelope", ABSENT)]),
    "envelope": ("no signature", "Bundle(DsseInvalidSignatureCount(0))", [bundle("dsseEnvelope.signatures", [])]),
    "entry": ("two log entries", "Bundle(TlogEntry(2))", [bundle(MATERIAL + ".tlogEntries", lambda entries: entries * 2)]),
    "profile": ("another media type", 'Bundle(BundleProfile(Unknown("text/plain")))', [parts(media_type="text/plain")]),
    "issuance": ("a leaf with a duplicate extension", "Certificate(Malformed)", [held(others=DUPLICATE)]),
    "issuer": ("the leaf's signature is not accepted", "Certificate(VerificationFailed)", [unaccepted(0)]),
    "sct": ("the SCT's signature is not accepted", "Certificate(Sct(Verification(VerificationFailed)))", [unaccepted(1)]),
    "policy": ("a policy that the leaf does not meet", NOT_FOUND, [parts(policy=NO_WORKFLOW)]),
    "key": ("a leaf with a key on a curve of no scheme", "Signature(AlgoUnsupported)", [parts(leaf=leaf(key=UNKNOWN_CURVE))]),
    "signature": ("the envelope's signature is not accepted", "Signature(VerificationFailed)", [unaccepted(2)]),
    "subject": ("another digest", "Signature(SubjectDigestMismatch)", [parts(digest="sha256:" + "b" * 64)]),
    "body": ("a log body about nothing", "Signature(Transparency)", [parts(body=b"{}")]),
    "time": ("a second after the leaf's end", "Certificate(Expired)", [parts(integrated_time=1702447256)]),
    "log-key": ("a log of another id", 'RekorPublicKeyNotFoundError("%s")' % fixture.LOG_ID.hex(), [root("tlogs.0.logId.keyId", OTHER_ID)]),
    "promise": ("the promise is not accepted", "Promise", [unaccepted(3)]),
    "proof": ("a root hash of 31 bytes", "RootLength", [bundle(PROOF + ".rootHash", of_bytes(drop))]),
    "checkpoint": ("a checkpoint without an empty line", "ParseCheckpointError(Format)",
                   [bundle(CHECKPOINT, lambda text: text.replace("\n\n", "\n"))]),
    "note-key": ("the checkpoint's signature is not accepted", "CheckpointSignatureVerificationError", [unaccepted(4)]),
    "note-match": ("a signed note of a longer log", "ConsistencyProofError(NewTreeSmaller { new: 5, old: 6 })", [parts(noted=note(bytes(32), 6))]),
    "inclusion": ("an index at the size", "InclusionProofError(IndexGtTreeSize)", [bundle(PROOF + ".logIndex", "5")]),
}

# Where two changes cannot both be made, the pair has changes of its own.
PAIRS = {("fulcio", "anchor"): [root(AUTHORITY + ".validFor.start", "2024-01-01T00:00:00Z"), *FIRST["anchor"][2]],
         ("material", "certificate"): [bundle(MATERIAL + ".certificate", ABSENT), bundle(MATERIAL + ".publicKey", {"hint": "x"})]}


def links():
    whole_row("the fixture", "verified 2 5")
    for link, (cause, error, changes) in FIRST.items():
        whole_row("first %s: %s" % (link, cause), ("%s %s" % (link, error)).strip(), *changes)
    names = list(FIRST)
    for link, other in zip(names, names[1:]):
        if (link, other) == ("content", "envelope"):
            continue
        _, error, changes = FIRST[link]
        both = PAIRS.get((link, other)) or changes + FIRST[other][2]
        row("both %s and %s" % (link, other), ("%s %s" % (link, error)).strip(), *both)
    _, error, changes = FIRST["content"]
    row("both content and entry", "content " + error, *changes, *FIRST["entry"][2])


# The index in the reply is the proof's, not the entry's own.

def indices():
    for own in (0, 2, -1):
        row("index: the entry's own is %d" % own, "verified 2 5", parts(log_index=own))
    for index, size in ((0, 1), (4, 5), (3, 8)):
        row("index: entry %d of a log of %d" % (index, size), "verified %d %d" % (index, size), parts(index=index, size=size))
    row("index: the proof has the entry's own", "inclusion InclusionProofError(IndexGtTreeSize)", bundle(PROOF + ".logIndex", "900"))
    row("index: the entry's own is the true one, the proof's is not", "inclusion InclusionProofError(MismatchedRoot...", parts(log_index=2),
        bundle(PROOF + ".logIndex", "3"))
    row("index: with leading zeros", "verified 2 5", bundle(PROOF + ".logIndex", "002"), bundle(PROOF + ".treeSize", "05"))


# The log's own entries: the list that the proof is about, and others.

def entries():
    def among(size, index=2):
        return fixture.log_entries(index, size, fixture.Request(index=index, size=size).body)

    def given(listed):
        return request("entries", [base64_of(entry) for entry in listed])

    log = among(5)
    for name, listed, second in [
            ("the log's", log, "entry 2"), ("without the last", log[:-1], "other list"), ("with one more", log + [b""], "other list"),
            ("none", [], "other list"), ("another at the index", log[:2] + [b"other"] + log[3:], "other list"),
            ("another at another index", [b"other"] + log[1:], "other list"), ("in another order", log[::-1], "other list"),
            ("the hashes of the path", [leaf[:32] for leaf in log], "other list")]:
        whole_row("entries: " + name, "verified 2 5\n" + second, given(listed))
    for index, size in ((0, 1), (0, 2), (1, 2), (6, 7), (3, 8), (8, 9)):
        whole_row("entries: index %d of a log of %d" % (index, size), "verified %d %d\nentry %d" % (index, size, index),
                  parts(index=index, size=size), given(among(size, index)))
    whole_row("entries: the index is the proof's, not the entry's own", "verified 2 5\nentry 2", parts(log_index=0), given(log))
    whole_row("entries: null", "verified 2 5", request("entries", None))
    whole_row("entries: another list changes no link", "inclusion InclusionProofError(IndexGtTreeSize)", given(log), bundle(PROOF + ".logIndex", "5"))


# Keys are picked at the request's time: both ends included, absent ends open, expired authorities allowed.

VALID_FOR = "publicKey.validFor"
LOG, CERTIFICATE_LOG = "tlogs.0." + VALID_FOR, "ctlogs.0." + VALID_FOR
RANGES = {"fulcio": (AUTHORITY + ".validFor", "TrustRoot(Fulcio)"), "ctfe": (CERTIFICATE_LOG, "TrustRoot(Ctfe)"),
          "log-key": (LOG, FIRST["log-key"][1])}
NOW = "2023-12-13T20:40:00Z"
PICKED = "material Bundle(VerificationMaterialMissing)"  # what an empty bundle comes to where the trusted root has its keys


def ranges():
    for now, expected in ((1672531200, "verified 2 5"), (1672531199, "fulcio TrustRoot(Fulcio)"), (1704067199, "verified 2 5"),
                          (1704067200, "log-key " + FIRST["log-key"][1]), (2 ** 63 - 1, "log-key " + FIRST["log-key"][1]),
                          (-2 ** 63, "fulcio TrustRoot(Fulcio)")):
        row("time: %d" % now, expected, parts(now=now))
    for link, (path, error) in RANGES.items():
        refused = "%s %s" % (link, error)
        for name, valid_for, expected in [
                ("absent", ABSENT, None), ("null", None, None), ("without ends", {}, None), ("begins now", {"start": NOW}, None),
                ("begins after a second", {"start": "2023-12-13T20:40:01Z"}, refused), ("begins and ends now", {"start": NOW, "end": NOW}, None),
                ("begun after the entry's time", {"start": "2023-12-13T20:00:00Z"}, None), ("no start, and an end long ago",
                {"end": "2000-01-01T00:00:00Z"}, None),
                ("ends within this second", {"start": "2023-01-01T00:00:00Z", "end": "2023-12-13T20:40:00.000000001Z"}, None),
                ("ended a second ago", {"start": "2023-01-01T00:00:00Z", "end": "2023-12-13T20:39:59.999Z"}, None if link == "fulcio" else refused),
                ("held at the entry's time alone", {"start": "2023-12-13T05:51:40Z",
                "end": "2023-12-13T05:51:40Z"}, None if link == "fulcio" else refused),
                ("ends before it begins", {"start": NOW, "end": "2000-01-01T00:00:00Z"}, None if link == "fulcio" else refused)]:
            if link == "log-key":
                row("range of a log's key: %s" % name, expected or "verified 2 5", root(path, valid_for))
            else:
                row("range of %s: %s" % (link, name), expected or PICKED, root(path, valid_for), request("bundle", "{}"))
    for name, start, expected in [("east of Greenwich", "2023-12-13T22:40:00+02:00", PICKED),
                                  ("a second later, east", "2023-12-13T22:40:01+02:00", "fulcio TrustRoot(Fulcio)"),
                                  ("west of Greenwich", "2023-12-13T18:10:00-02:30", PICKED),
                                  ("an offset of nothing", "2023-12-13T20:40:00-00:00", PICKED),
                                  ("the first year", "0001-01-01T00:00:00Z", PICKED),
                                  ("the last year", "9999-12-31T23:59:59Z", "fulcio TrustRoot(Fulcio)")]:
        row("range: a start %s" % name, expected, root(AUTHORITY + ".validFor", {"start": start}), request("bundle", "{}"))


# Of equal log ids the last whose range holds; keys that no range, id or key has are passed over.

def instance(spki, identifier, **valid_for):
    return {"publicKey": {"rawBytes": base64_of(spki), "validFor": valid_for}, "logId": {"keyId": base64_of(identifier)}}


ENDED = {"start": "2023-01-01T00:00:00Z", "end": "2023-12-01T00:00:00Z"}
NOT_BEGUN = {"start": "2024-01-01T00:00:00Z"}


def log_keys():
    other, foreign = instance(key(9), fixture.LOG_ID), instance(key(9), fixture.OTHER_LOG_ID)
    own, no_key = instance(key(4), fixture.LOG_ID), {"logId": {"keyId": base64_of(fixture.LOG_ID)}}
    unknown = "log-key " + FIRST["log-key"][1]
    for name, listed, expected in [
            ("the right key last", [other, own], "verified 2 5"), ("the right key first", [own, other], "promise Promise"),
            ("the last has ended", [own, instance(key(9), fixture.LOG_ID, **ENDED)], "verified 2 5"),
            ("the last has not begun", [own, instance(key(9), fixture.LOG_ID, **NOT_BEGUN)], "verified 2 5"),
            ("the right one has ended", [instance(key(4), fixture.LOG_ID, **ENDED), other], "promise Promise"),
            ("the right one alone has ended", [instance(key(4), fixture.LOG_ID, **ENDED)], unknown),
            ("the last has no key", [own, no_key], "verified 2 5"), ("the last has a key without bytes", [own, {**no_key, "publicKey": {}}],
            "verified 2 5"),
            ("the last has a key of no bytes", [own, {**no_key, "publicKey": {"rawBytes": ""}}], "log-key KeyParsingError"),
            ("the last has no id", [own, {"publicKey": other["publicKey"]}], "verified 2 5"),
            ("of no log", [], unknown),
            ("no id", [{"publicKey": own["publicKey"]}], unknown), ("an id of no bytes", [{**own, "logId": {}}], unknown)]:
        row("log keys: %s" % name, expected, root("tlogs", listed))
    row("log keys: an id of no bytes on both sides", "verified 2 5", parts(log_id=b""), bundle(ENTRY + ".logId", {}), root("tlogs.0.logId", {}))
    row("log keys: no id in the entry", "log-key LogIdMissing", bundle(ENTRY + ".logId", ABSENT))
    row("log keys: null for the entry's id", "log-key LogIdMissing", bundle(ENTRY + ".logId", None))
    row("log keys: an id of no bytes in the entry", 'log-key RekorPublicKeyNotFoundError("")', bundle(ENTRY + ".logId", {}))
    row("log keys: a key that is cut", "log-key KeyParsingError", parts(log_key=key(4)[:-1]))
    row("log keys: a curve of no scheme", "log-key PublicKeyUnsupportedAlgorithmError", parts(log_key=UNKNOWN_CURVE))
    row("log keys: RSA, accepted under another scheme", "promise Promise", parts(log_key=fixture.wide_key()))


def certificate_log_keys():
    own, foreign = instance(key(3), fixture.CERTIFICATE_LOG_ID), instance(key(9), fixture.OTHER_LOG_ID)
    other = instance(key(9), fixture.CERTIFICATE_LOG_ID)
    unknown = "sct Certificate(Sct(Verification(KeyNotFound)))"
    for name, listed, expected in [
            ("the right key last", [other, own], "verified 2 5"), ("the right key first", [own, other], unknown),
            ("the last has ended", [own, instance(key(9), fixture.CERTIFICATE_LOG_ID, **ENDED)], "verified 2 5"),
            ("the right one has ended", [instance(key(3), fixture.CERTIFICATE_LOG_ID, **ENDED), foreign], unknown),
            ("another alone", [foreign], unknown), ("others around it", [foreign, own, foreign], "verified 2 5"),
            ("under another id", [instance(key(3), fixture.OTHER_LOG_ID)], "verified 2 5"), ("under two ids", [own, instance(key(3), fixture.OTHER_LOG_ID)],
            "verified 2 5"),
            ("no key beside it", [instance(b"\x30\x00", fixture.OTHER_LOG_ID), own], "verified 2 5"),
            ("no key alone", [instance(b"", fixture.OTHER_LOG_ID)], unknown),
            ("an RSA key beside it", [own, instance(fixture.wide_key(), fixture.OTHER_LOG_ID)], "verified 2 5"),
            ("ended", [instance(key(3), fixture.CERTIFICATE_LOG_ID, **ENDED)], "ctfe TrustRoot(Ctfe)"),
            ("no id", [{"publicKey": own["publicKey"]}], "ctfe TrustRoot(Ctfe)"), ("no key", [{"logId": own["logId"]}], "ctfe TrustRoot(Ctfe)"),
            ("null for bytes", [{**own, "publicKey": {"rawBytes": None}}], "ctfe TrustRoot(Ctfe)"),
            ("an id of no bytes", [{**own, "logId": {}}], "verified 2 5")]:
        row("certificate log keys: %s" % name, expected, root("ctlogs", listed))
    foreign_certificate_log(*KEYS[0][:2])


def foreign_certificate_log(name, spki):
    """A Certificate Transparency log's key that is of another kind than P-256, under its own id."""
    row("certificate log keys: of %s" % name, "sct Certificate(Sct(Verification(KeyNotFound)))", root("ctlogs.0.publicKey.rawBytes", base64_of(spki)),
        held(list=extension(fixture.SCT_LIST, sct_list(sct(log=fixture.sha256(spki))))))


def other_keys():
    for name, spki, scheme in KEYS:
        row("log keys: of %s" % name, "verified 2 5", parts(log_key=spki, log_scheme=scheme))
    for name, spki, _ in KEYS[1:]:
        foreign_certificate_log(name, spki)


# The issuer is the first trust anchor that issued the leaf; the name by itself does not say.

def chain(*anchors):
    return {"certChain": {"certificates": [{"rawBytes": base64_of(each)} for each in anchors]}}


def leaf_row(under, held=leaf()):
    return accepted("certificate", base64_of(held["algorithm"]), under, fixture.tbs(held), b"sig-leaf")


def issuers():
    own, namesake = fixture.certificate(anchor()), fixture.certificate(anchor(key=key(9)))
    stranger = fixture.certificate(anchor(subject=fixture.name("other root")))
    constrained = fixture.certificate(anchor(extensions=fixture.extensions(extension(fixture.NAME_CONSTRAINTS, b"\x30\x00"))))
    failed, mismatch = "issuer Certificate(VerificationFailed)", "sct Certificate(Sct(Verification(VerificationFailed)))"
    for name, authorities, expected in [
            ("the second of one name signed", [chain(namesake, own)], "verified 2 5"), ("the first of one name signed", [chain(own, namesake)],
            "verified 2 5"),
            ("the second of one name signed, of two authorities", [chain(namesake), chain(own)], "verified 2 5"),
            ("its key under another name before it", [chain(stranger, own)], "verified 2 5"),
            ("its key under another name", [chain(stranger)], failed),
            ("its name with another key", [chain(namesake)], failed), ("itself twice", [chain(own, own)], "verified 2 5"),
            ("after one that has name constraints", [chain(constrained, own)], "anchor Anchor(0)"),
            ("before one that is not a certificate", [chain(own), chain(own, own[:-1])], "anchor Anchor(2)"),
            ("before one of no bytes", [chain(own, b"")], "anchor Anchor(1)"),
            ("before one of an authority that has not begun", [{**chain(b""), "validFor": NOT_BEGUN}, chain(own)], "verified 2 5"),
            ("the index counts what is picked", [{**chain(b""), "validFor": NOT_BEGUN}, chain(own, b"")], "anchor Anchor(1)"),
            ("an authority without a chain before it", [{}, chain(own)], "verified 2 5"), ("an authority with an empty chain", [{"certChain": {}}],
            "fulcio TrustRoot(Fulcio)"),
            ("no chain", [{}], "fulcio TrustRoot(Fulcio)"), ("a certificate of no bytes", [{"certChain": {"certificates": [{}]}}],
            "anchor Anchor(0)")]:
        row("issuer: %s" % name, expected, root("certificateAuthorities", authorities))
    row("issuer: two issued it, and the SCT is about the first", "verified 2 5", parts(anchor=anchor(key=key(9))),
        root("certificateAuthorities", [chain(namesake, own)]),
        leaf_row(key(1)))
    row("issuer: two issued it, and the SCT is about the second", mismatch, root("certificateAuthorities", [chain(namesake, own)]), leaf_row(key(9)))
    for name, changed in [("of 294 bytes of key", dict(key=fixture.wide_key())), ("long expired", dict(validity=fixture.validity("000101000000Z",
                          "010101000000Z"))),
                          ("without extensions", dict(extensions=b"")), ("of version 1", dict(version=b"", extensions=b"")),
                          ("that another signed", dict(issuer=fixture.name("other root")))]:
        row("issuer: a trust anchor %s" % name, "verified 2 5", parts(anchor=anchor(**changed)))
    row("issuer: a leaf that ends before it begins", failed, parts(leaf=leaf(validity=fixture.validity("231213060055Z", "231213055055Z"))))
    row("issuer: a leaf of one second", "verified 2 5", parts(leaf=leaf(validity=fixture.validity("231213055140Z", "231213055140Z"))))


def issuers_accepted_otherwise():
    for name, changed in [("algorithm", ("certificate", base64_of(der(SEQUENCE, der(OBJECT_IDENTIFIER, b"\x55"))), key(1), fixture.tbs(leaf()),
                          b"sig-leaf")),
                          ("key", ("certificate", base64_of(fixture.ALGORITHM), key(9), fixture.tbs(leaf()), b"sig-leaf")),
                          ("TBSCertificate", ("certificate", base64_of(fixture.ALGORITHM), key(1), fixture.tbs(leaf())[:-1], b"sig-leaf")),
                          ("signature", ("certificate", base64_of(fixture.ALGORITHM), key(1), fixture.tbs(leaf()), b"sig-lea")),
                          ("operation", ("message", fixture.SCHEME, key(1), fixture.tbs(leaf()), b"sig-leaf"))]:
        row("issuer: accepted with another %s" % name, "issuer Certificate(VerificationFailed)", unaccepted(0), accepted(*changed))


# The promise is about four members; its integers fit RFC 8785.

def promises():
    largest = 2 ** 53 - 1
    for own in (largest, -largest):
        row("promise: a log index of %d" % own, "verified 2 5", parts(log_index=own))
    for own in (largest + 1, -largest - 1):
        row("promise: a log index of %d" % own, "promise PromiseInteger", parts(log_index=own))
    row("promise: an integer out of range, and no promise", "promise PromiseMissing", parts(log_index=2 ** 53),
        bundle(ENTRY + ".inclusionPromise", ABSENT))
    for name, value, error in [("absent", ABSENT, "PromiseMissing"), ("null", None, "PromiseMissing"), ("of no bytes", {}, "Promise"),
                               ("another", {"signedEntryTimestamp": base64_of(b"sig-other")}, "Promise")]:
        row("promise: %s" % name, "promise " + error, bundle(ENTRY + ".inclusionPromise", value))
    row("promise: of another log index", "promise Promise", bundle(ENTRY + ".logIndex", "901"))
    row("promise: of another time", "promise Promise", bundle(ENTRY + ".integratedTime", "1702446701"))
    row("promise: under the leaf's key", "promise Promise", unaccepted(3), accepted("message", fixture.SCHEME, key(2), fixture.Request().promised(),
        b"sig-set"))
    other = compact({**json.loads(fixture.Request().promised()), "integratedTime": "1702446700"}).encode()
    row("promise: over a text for the time", "promise Promise", unaccepted(3), accepted("message", fixture.SCHEME, key(4), other, b"sig-set"))
    row("promise: no bytes, accepted", "verified 2 5", parts(promise=b""))


# The entry's time is within the leaf's validity, both ends included.

def times():
    for time, expected in ((1702446655, "verified 2 5"), (1702446654, None), (1702447255, "verified 2 5"), (1702447256, None), (-1, None),
                           (1702500000, None)):
        row("entry's time: %d" % time, expected or "time Certificate(Expired)", parts(integrated_time=time))
    row("entry's time: absent", "time Certificate(Expired)", bundle(ENTRY + ".integratedTime", ABSENT))
    row("entry's time: as a number", "verified 2 5", bundle(ENTRY + ".integratedTime", 1702446700))


GROUPS = [links, indices, entries, ranges, log_keys, certificate_log_keys, issuers, issuers_accepted_otherwise, promises, times]
GROUPS += verify_rows_chains.GROUPS + verify_rows_documents.GROUPS + verify_rows_content.GROUPS + verify_rows_message.GROUPS + verify_rows_hundreds.GROUPS
GROUPS += verify_rows_limits.GROUPS
MORE = [other_keys] + verify_rows_content.MORE
