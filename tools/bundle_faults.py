"""The fixture's bundle with faults, and what checking it returns: the rows `checked` of bundle_cases.txt."""
import copy

import fixture
from bundle_table import named_case
from fixture import base64_of, compact, der, extension

MEDIA_TYPE = "application/vnd.dev.sigstore.bundle.v0.3+json"
OLDER = "application/vnd.dev.sigstore.bundle+json;version="
PROFILES = {"0.1": OLDER + "0.1", "0.2": OLDER + "0.2", "0.3": MEDIA_TYPE, "older-0.3": OLDER + "0.3"}
NARROW, WIDE = "a" * 64, "b" * 128
OTHERS = {"%d" % number: "zz" for number in range(31)}
DIGESTS = {
    "none": {}, "narrow": {"sha256": NARROW}, "capital-name": {"SHA256": NARROW}, "capital-digits": {"sha256": "A" * 64},
    "wide": {"sha512": WIDE}, "wide-and-narrow": {"sha512": WIDE, "sha256": NARROW}, "zz": {"sha256": "zz"},
    "wide-zz": {"sha512": "zz"}, "both-zz": {"sha512": "zz", "sha256": "zz"}, "short-wide": {"sha512": NARROW},
    "long-narrow": {"sha256": WIDE}, "31-others-and-narrow": {**OTHERS, "sha256": NARROW}, "32-others": {**OTHERS, "other": "zz"},
    "33-others": {**OTHERS, "31": "zz", "other": "zz"}, "32-others-and-zz": {**OTHERS, "31": "zz", "sha256": "zz"}}


def about(digests):
    return compact({"_type": "", "predicateType": "", "subject": [{"digest": each} for each in digests]}).encode()


def payload(name):
    if name == "no-statement":
        return b"{}"
    if name == "1025-and-zz":
        return fixture.statement(first="zz", subjects=1025)
    if name in ("1023-nones-and-narrow", "1024-nones-and-narrow"):
        return about([{}] * int(name[:4]) + [DIGESTS["narrow"]])
    return about([DIGESTS[each] for each in name.split("+")])


def entries(names, entry):
    found = []
    for name in names.split("+") if names != "none" else []:
        each = copy.deepcopy(entry)
        if name == "no-promise":
            del each["inclusionPromise"]
        elif name == "no-proof":
            del each["inclusionProof"]
        elif name == "nothing":
            del each["inclusionPromise"], each["inclusionProof"]
        elif name == "no-checkpoint":
            del each["inclusionProof"]["checkpoint"]
        else:
            assert name == "empty-checkpoint"
            each["inclusionProof"]["checkpoint"] = {"envelope": ""}
        found.append(each)
    return found


def leaf_with(**changes):
    """The fixture's leaf with other extensions."""
    return fixture.certificate(fixture.leaf(fixture.leaf_extensions(**changes)))


CERTIFICATES = {
    "leaf": fixture.certificate(fixture.leaf()), "malformed": b"\x30\x00", "anchor": fixture.certificate(fixture.anchor()),
    "issuer": fixture.certificate(fixture.anchor(subject=fixture.name("fixture issuer"))),
    "self-issued": fixture.certificate(fixture.leaf(subject=fixture.name("fixture root"))),
    "cut-anchor": fixture.certificate(fixture.anchor())[:-1],
    "version-2": fixture.certificate(fixture.leaf(version=der(fixture.A0, b"\x02\x01\x01"))),
    "malformed-usage": leaf_with(usage=extension(fixture.KEY_USAGE, b"")), "no-usage": leaf_with(usage=b""),
    "other-usage": leaf_with(usage=extension(fixture.KEY_USAGE, der(fixture.BIT_STRING, b"\x05\x20"))), "no-purposes": leaf_with(purposes=b""),
    "other-purpose": leaf_with(purposes=extension(fixture.EXTENDED_KEY_USAGE, der(fixture.SEQUENCE, der(fixture.OBJECT_IDENTIFIER, b"\x55\x1d"))))}


def certificates(names):
    """The DER of certificates: an issuer is an authority, and an anchor a root. A name may have a count before it."""
    found = []
    for each in filter(None, names.split("+")):
        count, _, name = each.rpartition("*")
        found += [{"rawBytes": base64_of(CERTIFICATES[name])}] * int(count or 1)
    return found


def spoil(bundle, fault):
    material, envelope = bundle.get("verificationMaterial"), bundle.get("dsseEnvelope")
    kind, _, name = fault.partition(":")
    if fault == "no-material":
        del bundle["verificationMaterial"]
    elif fault == "no-content":
        del bundle["dsseEnvelope"]
    elif kind == "content":
        del bundle["dsseEnvelope"]
        digest = {"messageDigest": {"digest": base64_of(b"another digest")}} if name == "message-with-digest" else {}
        bundle["messageSignature"] = {"signature": base64_of(b"sig-msg"), **digest}
    elif kind == "media":
        bundle["mediaType"] = name
    elif kind == "profile":
        bundle["mediaType"] = PROFILES[name]
    elif kind == "signer":
        del material["certificate"]
        material.update({"publicKey": {}} if name == "key" else {})
    elif kind == "certificate":
        material["certificate"], = certificates(name)
    elif kind == "chain":
        del material["certificate"]
        material["x509CertificateChain"] = {"certificates": certificates(name)}
    elif kind == "entries":
        material["tlogEntries"] = entries(name, material["tlogEntries"][0])
    elif kind == "signatures":
        envelope["signatures"] = {"none": [], "two": envelope["signatures"] + [{"sig": base64_of(b"sig-other"), "keyid": ""}]}[name]
    else:
        assert kind == "payload"
        envelope["payload"] = base64_of(payload(name))


def digests(words):
    return " ".join(["ok"] + [{"narrow": "sha256 " + NARROW, "wide": "sha512 " + WIDE}[word] for word in words])


def faulty_case(line):
    faults, expected = line.split(" => ")
    bundle = fixture.Request().bundle()
    for fault in faults.split(" "):
        spoil(bundle, fault)
    if expected.startswith("Ok"):
        expected = digests(expected.split(" ")[1:])
    named_case(faults, "try_from_bundle " + compact(bundle, canonical=True), expected)
