#!/usr/bin/env python3
"""Writes the tables of crates/bundle_cases: `stdin`, the calls, and `stdout`, what they return.

    tools/bundle_cases.py

Bundles are read and written a second time, only by the table of the format (bundle_reader.py); the rows of bundle_cases.txt state the
refusals and, for some, the text that is written; document_fault.py says which member is the first that is wrong. A checked bundle is that of fixture.py with the faults that a row names.
"""
import json

import fixture
from bundle_bodies import body_case, message_case, proof_case
from bundle_faults import CERTIFICATES, MEDIA_TYPE, NARROW, OLDER, PROFILES, WIDE, digests, faulty_case
from bundle_reader import read_bundle
from bundle_table import TABLE, case, group, named_case, sections_of_rows
from document_fault import bundle_fault, root_fault
from fixture import base64_of, compact

# Bundles that differ in one part.

WHOLE = compact({
    "dsseEnvelope": {"payload": "cA==", "payloadType": "t", "signatures": [{"keyid": "k", "sig": "cw=="}]},
    "mediaType": "m",
    "verificationMaterial": {
        "tlogEntries": [{
            "canonicalizedBody": "Yg==", "inclusionPromise": {"signedEntryTimestamp": "dA=="},
            "inclusionProof": {"checkpoint": {"envelope": "c"}, "hashes": ["aA=="], "logIndex": "1", "rootHash": "cg==", "treeSize": "2"},
            "integratedTime": "3", "kindVersion": {"kind": "k", "version": "v"}, "logId": {"keyId": "aQ=="}, "logIndex": "4"}],
        "x509CertificateChain": {"certificates": [{"rawBytes": "YQ=="}]}}})


def parts(content):
    """Bundle, content, material, signer, first entry, its kind, its proof, as what they are read as."""
    bundle = json.loads(read_bundle(content)[3:])
    material = bundle.get("verificationMaterial")
    signer = {name: each for name, each in (material or {}).items() if name != "tlogEntries"} or None
    signed = {name: bundle[name] for name in ("dsseEnvelope", "messageSignature") if name in bundle} or None
    entry = ((material or {}).get("tlogEntries") or [None])[0]
    return [bundle, signed, material, signer, entry, (entry or {}).get("kindVersion"), (entry or {}).get("inclusionProof")]


def equal_case(cause, one, other):
    pairs = zip(parts(one), parts(other))
    words = ["-" if None in pair else str(pair[0] == pair[1]).lower() for pair in pairs]
    named_case(cause, "equal %s %s" % (one, other), " ".join(["ok"] + words))


def changed_case(line):
    old, new = line.split(" => ")
    assert WHOLE.count(old) == 1, line
    other = WHOLE.replace(old, new)
    assert parts(WHOLE)[0] != parts(other)[0], line
    equal_case(line, WHOLE, other)
    equal_case("the same, and itself", other, other)


# The fixture's bundle.

def fixture_bundle():
    request = fixture.Request()
    bundle = compact(request.bundle(), canonical=True)
    group("the fixture's bundle: its text is read back, it passes its checks, and its parts are borrowed")
    case("read_bundle " + bundle, "ok " + bundle)
    case("try_from_bundle " + bundle, digests(["narrow", "wide", "narrow"]))
    case("checked " + bundle, " ".join([
        "ok", request.leaf_der.hex(), request.signature.hex(), "true", "true", fixture.pae(request.payload).hex(),
        request.payload.hex(), fixture.envelope_json(request.payload, request.signature)]))
    for title, more, expected in [("1024 subjects", 1024, digests(["narrow", "wide"] + ["narrow"] * 1021)),
                                  ("1025 subjects", 1025, "DsseTooManySubjects(1025)")]:
        many = fixture.Request(payload=fixture.statement(subjects=more)).bundle()
        named_case(title, "try_from_bundle " + compact(many, canonical=True), expected)
    spoiled = fixture.Request(payload=fixture.statement(first="zz")).bundle()
    named_case("a digest of other letters", "try_from_bundle " + compact(spoiled, canonical=True), "DsseSubjectDigestMalformed(Sha256)")
    message = fixture.MessageRequest(later=(CERTIFICATES["issuer"],))
    bundle = compact(message.bundle(), canonical=True)
    group("the fixture's bundle of a signature over an artifact, with a chain, does the same")
    case("read_bundle " + bundle, "ok " + bundle)
    case("try_from_bundle " + bundle, digests([]))
    case("checked " + bundle, " ".join(
        ["ok", message.leaf_der.hex(), message.signature.hex(), "true", "true", "-", CERTIFICATES["issuer"].hex()]))
    further = (CERTIFICATES["issuer"], CERTIFICATES["self-issued"]) * 8
    many = fixture.MessageRequest(later=further)
    named_case("16 further certificates, in their order", "checked " + compact(many.bundle(), canonical=True), " ".join(
        ["ok", many.leaf_der.hex(), many.signature.hex(), "true", "true", "-"] + [der.hex() for der in further]))
    group("without an inclusion proof, which profile 0.1 does not ask for")
    fetched(message, NARROW)
    fetched(request, "-")
    group("a statement's first SHA-256 digest, and digests as text")
    case("subject_sha256_digest " + request.payload.decode(), "ok " + NARROW)
    case("artifact_digest " + NARROW, "ok sha256 %s %s" % (NARROW, NARROW))
    case("artifact_digest " + WIDE, "ok sha512 %s %s" % (WIDE, WIDE))


def fetched(request, digest):
    """Without an inclusion proof the entry is returned only where none has to be fetched."""
    bundle = request.bundle()
    bundle["mediaType"] = PROFILES["0.1"]
    del bundle["verificationMaterial"]["tlogEntries"][0]["inclusionProof"]
    for offline in ("true", "false"):
        case("tlog_entry %s %s %s" % (offline, digest, compact(bundle, canonical=True)), "ok " + offline)


# What stands for itself in a row.

def versions():
    group("media types that name a version, and how the version is shown")
    older = OLDER
    for media_type, version, shown in [
            (older + "0.1", "Bundle0_1", older + "0.1"), (older + "0.2", "Bundle0_2", older + "0.2"),
            (MEDIA_TYPE, "Bundle0_3", MEDIA_TYPE), (older + "0.3", "Bundle0_3", MEDIA_TYPE)]:
        case("version " + media_type, "ok %s %s" % (version, shown))
    group("media types that name none")
    for media_type in [
            "", "application/json", "application/vnd.dev.sigstore.bundle", "application/vnd.dev.sigstore.bundle+json", older + "0",
            older, older + "0.4", older + "0.10", older.replace(";", "; ") + "0.1", older.replace("a", "A", 1) + "0.1",
            MEDIA_TYPE.replace("0.3", "0.1"), MEDIA_TYPE.replace("0.3", "0.2"), MEDIA_TYPE.replace("0.3", "0.4"), MEDIA_TYPE[:-5],
            MEDIA_TYPE + " ", " " + MEDIA_TYPE, "0.1", older + "0.1 "]:
        case("version " + media_type, "no version")


def message_signatures():
    whole = '{"messageSignature":{"signature":"cw==","messageDigest":{"digest":"ZA=="}}}'
    group("signatures over artifacts compared")
    equal_case("itself", whole, whole)
    equal_case("without a digest", whole, '{"messageSignature":{"signature":"cw=="}}')
    equal_case("without a signature", whole, '{"messageSignature":{"messageDigest":{"digest":"ZA=="}}}')
    equal_case("an empty digest and none", '{"messageSignature":{"messageDigest":{}}}', '{"messageSignature":{}}')


def members(rows, values):
    """Each member with each value: read where the value's kind is the member's."""
    for row in rows:
        kind, bundle = row.split(" ", 1)
        group("a member that is %s, with each value: %s" % (kind, bundle))
        for line in values:
            value, kinds = line.split(" ", 1)
            content = bundle.replace("@", value)
            expected = read_bundle(content)
            assert (expected == "Member") == (kind not in kinds.split(" ")), (row, line)
            case("read_bundle " + content, expected)
            fault_case(content)


def fault_case(content):
    """What is wrong with a bundle: nothing, or the same as the reader says, and of a member which."""
    found = bundle_fault(content)
    causes = {"ok": "ok"} | {cause: "Member" for cause in ("OtherKind", "BeyondRange", "NotAlone")}
    assert read_bundle(content).split(" ")[0] == causes.get(found.split(" ")[0], found), content
    case("bundle_fault " + content, found)


def several_faults():
    """Where more than one member breaks the table, the first in the order of its rows."""
    group("more than one fault: the first in the table's order, whatever the order of the members, and of a list the first element")
    entry = {"canonicalizedBody": 1, "inclusionProof": {"treeSize": [], "rootHash": 1, "hashes": ["AA==", 2, 3]}, "logId": {"keyId": 1}}
    for names in (["canonicalizedBody"], ["inclusionProof", "canonicalizedBody"], ["logId", "inclusionProof"], ["canonicalizedBody", "logId"]):
        for before in (0, 1, 300):
            entries = [{}] * before + [{name: entry[name] for name in names}] + [{"logIndex": True}, 0]
            fault_case(compact({"dsseEnvelope": 1, "verificationMaterial": {"tlogEntries": entries}}))
    fault_case('{"verificationMaterial":{"tlogEntries":[{"inclusionProof":{"hashes":["AA==",null,3],"checkpoint":1}}]}}')
    fault_case('{"dsseEnvelope":{},"messageSignature":{"signature":1}}')
    fault_case('{"dsseEnvelope":{"payload":1},"messageSignature":{}}')
    fault_case('{"dsseEnvelope":{},"messageSignature":{},"verificationMaterial":{"publicKey":{},"certificate":{},"x509CertificateChain":{}}}')
    fault_case('{"verificationMaterial":{"publicKey":{},"x509CertificateChain":{},"tlogEntries":0}}')
    fault_case('{"verificationMaterial":{"publicKey":{},"x509CertificateChain":null,"certificate":null,"tlogEntries":0}}')
    group("trusted roots: nothing is wrong, or the first member that breaks the table")
    time = '"2023-01-01T00:00:00Z"'
    ranges = ["{}", "null", '{"start":%s}' % time, '{"end":null,"start":%s}' % time, '{"end":%s}' % time, '{"start":0,"end":0}', '{"end":"x"}',
              '{"end":"2023-01-01","start":""}', '{"start":"2023-02-29T00:00:00Z"}', "[]"]
    for content in ["", "{", "[]", "null", "{}", '{"tlogs":null}', '{"tlogs":{}}', '{"ctlogs":[0],"tlogs":[[]]}', '{"ctlogs":[{},null]}',
                    '{"certificateAuthorities":[{"certChain":{"certificates":[{},{"rawBytes":"A"}]}}]}', '{"certificateAuthorities":[{"certChain":[]}]}',
                    '{"other":1.5}', '{"tlogs":[{"logId":{"keyId":""},"publicKey":{"rawBytes":0}}]}', '{"tlogs":[{"logId":0}],"ctlogs":0}']:
        case("root_fault " + content, root_fault(content))
    for form in ('{"certificateAuthorities":[{},{"validFor":%s}]}', '{"tlogs":[{"publicKey":{"validFor":%s}}]}', '{"ctlogs":[{},{},{"publicKey":{"validFor":%s}}]}'):
        for each in ranges:
            case("root_fault " + form % each, root_fault(form % each))


def errors():
    group("errors inside errors, and out of memory, show the names of their variants")
    for name, shown in [("InclusionPromiseMissing", ""), ("InclusionProofMissing", ""), ("CheckpointMissing", ""), ("Bundle01Profile", "(InclusionPromiseMissing)"),
                        ("Bundle02Profile", "(CheckpointMissing)"), ("Unknown", '("text/plain")')]:
        case("shown " + name, name + shown)
    case("shown OutOfMemory", "ok OutOfMemory")


def refused_rows(rows):
    for row in rows:
        expected, content = row.split(" ", 1)
        assert read_bundle(content) == expected, row
        case("read_bundle " + content, expected)
        fault_case(content)


def written_rows(rows):
    for content, expected in zip(rows[::2], rows[1::2]):
        assert read_bundle(content) == "ok " + expected.strip(), content
        case("read_bundle " + content, "ok " + expected.strip())
        fault_case(content)


def promises():
    """RFC 8785 sorts these names as they are here; their letters are ASCII."""
    group("the text of the promise to include a log entry, up to the largest integers that canonical JSON has")
    largest = 2 ** 53 - 1
    for log_id, body in [(fixture.LOG_ID, b'{"kind":"dsse"}'), (b"\xdd=0j", b""), (b"", b"\x00\xff")]:
        for time, index in [(1702446700, 900), (0, 0), (-1, -2), (largest, -largest), (-largest, largest), (largest + 1, 0), (0, largest + 1),
                            (-largest - 1, 0), (0, -largest - 1), (2 ** 63 - 1, -2 ** 63)]:
            entry = {"canonicalizedBody": base64_of(body), "integratedTime": str(time), "logId": {"keyId": base64_of(log_id)}, "logIndex": str(index)}
            promise = {"body": base64_of(body), "integratedTime": time, "logID": log_id.hex(), "logIndex": index}
            fits = abs(time) <= largest and abs(index) <= largest
            case("promise_text " + compact({"verificationMaterial": {"tlogEntries": [entry]}}),
                 "ok " + compact(promise) if fits else "IntegerTooLarge")


def cut_leaves():
    """A certificate ends with its last byte, and no byte comes after it: the fixture's leaf is not a certificate if it is cut, at any byte, or has a byte more."""
    group("the fixture's leaf cut at each byte, and with a byte after it")
    leaf = fixture.Request().leaf_der
    for content in [leaf[:size] for size in range(len(leaf))] + [leaf + b"\0", leaf + leaf[-1:], leaf + leaf]:
        bundle = compact({"verificationMaterial": {"certificate": {"rawBytes": base64_of(content)}}})
        case("try_from_bundle " + bundle, "CertificateMalformed(0)")


def replaced_floats():
    """Floats that a later member of the same name replaces: in a bundle, its material, its log entry and in members that are ignored."""
    group("floats that are replaced: in a bundle, in its parts, and in what is ignored of them")
    forms = ['{%s}', '{"mediaType":"a",%s}', '{"verificationMaterial":{%s}}', '{"verificationMaterial":{"tlogEntries":[{%s}]}}',
             '{"other":{%s},"mediaType":"a"}', '{"other":[{%s}]}', '{"dsseEnvelope":{%s},"other":0}']
    values = ["1.5", "[1.5]", '{"b":1.5,"b":1}', "1"]
    orders = [values[first:first + 1] + values[second:second + 1] for first in range(4) for second in range(4)] + [["1.5", "1", "2.5"], ["1.5", "1", "-0", "0"]]
    many = [str(place * 7919 % 300) for place in range(300)]
    for form in forms:
        for order in orders:
            content = form % ",".join('"a":' + value for value in order)
            case("read_bundle " + content, read_bundle(content))
        for last in ("1", "1.5"):
            content = form % ",".join(['"%s":1.5' % name for name in many] + ['"%s":1' % name for name in many[:-1]] + ['"%s":%s' % (many[-1], last)])
            case("read_bundle " + content, read_bundle(content))


ROWS = {"equal": changed_case, "checked": faulty_case, "to_proof": proof_case, "tlog_entry": body_case, "tlog_message": message_case}


def main():
    found = {}
    for head, rows in sections_of_rows():
        kind, _, title = head.partition(" ")
        found[kind] = rows
        if kind in ("member", "value"):
            continue
        group(title)
        if kind == "read_bundle":
            refused_rows(rows)
        elif kind == "written":
            written_rows(rows)
        else:
            for row in rows:
                ROWS[kind](row)
    named_case("a bundle with every member is written as it was read", "read_bundle " + WHOLE, "ok " + WHOLE)
    group("a copy of a log entry with every member, and of one without")
    case("copied_entry " + WHOLE, "ok true")
    case('copied_entry {"verificationMaterial":{"tlogEntries":[{}]}}', "ok true")
    promises()
    replaced_floats()
    members(found["member"], found["value"])
    message_signatures()
    several_faults()
    fixture_bundle()
    cut_leaves()
    versions()
    errors()
    TABLE.write()


if __name__ == "__main__":
    main()
