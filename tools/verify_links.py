#!/usr/bin/env python3
"""The links of `verify` once more, in the order of docs/LINKS.md: what tools/verify_cases.py compares its table with.

    tools/verify_links.py < REQUEST    writes the reply, and the error of the library call where a link after `request` fails

Written from the public standards: RFC 5280 and X.690 (certificates), RFC 6962 (SCTs, trees), RFC 8785 (the promise), the DSSE protocol and
in-toto's statement, C2SP signed-note and tlog-checkpoint, Sigstore's bundle and trusted root. JSON, base64, DER, times, checkpoints, audit paths
and bundles are read by the second readers that the other tools have. No signature is computed: the rows of `accepted` say which are genuine.
"""
import base64
import re
import sys
from types import SimpleNamespace

sys.dont_write_bytecode = True
sys.set_int_max_str_digits(0)

import bundle_reader as bundles
import der_cases as der
import dsse_cases as dsse
import json_documents as documents
import log_requests as requests
import rekor_cases as rekor
import verify_certificate as certificates
from rekor_cases import debug
from verify_certificate import sha256


class Fails(Exception):
    """The link does not hold; the text is the library call's error as Rust's Debug prints it."""


def want(holds, error):
    if not holds:
        raise Fails(error)


def of_base64(text):
    """The bytes of a text that a reader has found to be base64."""
    return base64.b64decode(text)


# request: the member table of the request.

MOST = 2 ** 24
RULES = {("identity", "issuer"): "Identity", ("issuer",): "OIDCIssuer", ("trigger",): "GitHubWorkflowTrigger", ("sha",): "GitHubWorkflowSHA",
         ("name",): "GitHubWorkflowName", ("repository",): "GitHubWorkflowRepository", ("ref",): "GitHubWorkflowRef"}
RULE_MEMBERS = ("identity", "issuer", "trigger", "sha", "name", "repository", "ref")


def object_of(value):
    return value if isinstance(value, dict) else requests.refuse()


def digest_of(value):
    """A digest as its algorithm's name and its bytes."""
    found = re.fullmatch("sha256:([0-9a-fA-F]{64})|sha512:([0-9a-fA-F]{128})", requests.text_of(value))
    if not found:
        requests.refuse()
    return ("sha256", bytes.fromhex(found[1])) if found[1] else ("sha512", bytes.fromhex(found[2]))


def rule_of(value):
    members = {name: requests.text_of(value[name]) for name in RULE_MEMBERS if object_of(value).get(name) is not None}
    if tuple(members) not in RULES:
        requests.refuse()
    return RULES[tuple(members)], tuple(members.values())


def policy_of(value):
    given = [name for name in ("all", "any") if object_of(value).get(name) is not None]
    if len(given) != 1:
        requests.refuse()
    rules = requests.list_of(rule_of)(value[given[0]])
    return (given[0], rules) if rules else requests.refuse()


def read_request(content):
    try:
        members = object_of(documents.tree(content) if len(content) <= MOST else requests.refuse())
    except (documents.NotJson, documents.Float):
        requests.refuse()
    required = lambda name, kind: requests.required(members, name, kind)
    return SimpleNamespace(
        trusted_root=required("trustedRoot", requests.text_of), bundle=required("bundle", requests.text_of),
        now=required("now", requests.integer(-2 ** 63, 2 ** 63)), digest=required("digest", digest_of), policy=required("policy", policy_of),
        accepted=set(requests.optional(members, "accepted", requests.list_of(requests.row_of)) or []),
        entries=requests.optional(members, "entries", requests.list_of(requests.bytes_of)))


# root-json, bundle-json: the two documents by their member tables.

def time_text(value):
    """A time by RFC 3339 in seconds since 1970, its fraction dropped."""
    if value is None:
        return None
    found = der.rfc3339(bundles.text(value))
    bundles.ask(found != "none")
    return int(found.removeprefix("ok "))


def given_octets(value):
    return None if value is None else bundles.octets(value)


VALID_FOR = {"start": time_text, "end": time_text}
AUTHORITY = {"certChain": bundles.optional({"certificates": bundles.objects(bundles.CERTIFICATE)}), "validFor": bundles.optional(VALID_FOR)}
INSTANCE = {"publicKey": bundles.optional({"rawBytes": given_octets, "validFor": bundles.optional(VALID_FOR)}),
            "logId": bundles.optional({"keyId": bundles.octets})}
TRUSTED_ROOT = {"certificateAuthorities": bundles.objects(AUTHORITY), "tlogs": bundles.objects(INSTANCE), "ctlogs": bundles.objects(INSTANCE)}
CONTENTS = ("messageSignature", "dsseEnvelope")
SIGNERS = ("certificate", "x509CertificateChain", "publicKey")


def record(part, text, table):
    """What a text holds by its member table."""
    try:
        return bundles.element(documents.tree(text), table)
    except (documents.NotJson, documents.Float) as fault:
        raise Fails("Json(%s, %s)" % (part, type(fault).__name__)) from None
    except bundles.Refused:
        raise Fails("Json(%s, Member)" % part) from None


def root_json(case):
    case.root = record("Root", case.request.trusted_root, TRUSTED_ROOT)


def bundle_json(case):
    case.bundle = record("Bundle", case.request.bundle, bundles.BUNDLE)
    case.material = case.bundle.get("verificationMaterial")
    for oneof, parts in ((CONTENTS, case.bundle), (SIGNERS, case.material or {})):
        want(sum(name in parts for name in oneof) < 2, "Json(Bundle, Member)")


# fulcio, anchor, ctfe: the keys of the trusted root that are picked at the request's time.

def is_within(valid_for, now, expired=False):
    """Whether a range holds at a time: its ends are included, and one that is absent is open."""
    start, end = (valid_for or {}).get("start"), (valid_for or {}).get("end")
    return start is None or start <= now and (expired or end is None or now <= end)


def picked_certificates(root, now):
    """Of the authorities whose range has begun, expired ones included, all certificates in order."""
    chains = [each.get("certChain", {"certificates": []}) for each in root["certificateAuthorities"] if is_within(each.get("validFor"), now, True)]
    return [of_base64(each["rawBytes"]) for chain in chains for each in chain["certificates"]]


def picked_keys(instances, now):
    """The keys by the lower-case hexadecimal of their log ids; of equal ids the last whose range holds."""
    keys = {}
    for each in instances:
        key = each.get("publicKey", {})
        if "rawBytes" in key and "logId" in each and is_within(key.get("validFor"), now):
            keys[of_base64(each["logId"]["keyId"]).hex()] = of_base64(key["rawBytes"])
    return keys


def fulcio(case):
    case.picked = picked_certificates(case.root, case.request.now)
    want(case.picked, "TrustRoot(Fulcio)")


def anchor(case):
    case.anchors = [certificates.read_certificate(each) for each in case.picked]
    for place, each in enumerate(case.anchors):
        want(each and not each.of(certificates.NAME_CONSTRAINTS), "Anchor(%d)" % place)


def ctfe(case):
    case.certificate_logs = picked_keys(case.root["ctlogs"], case.request.now)
    want(case.certificate_logs, "TrustRoot(Ctfe)")


# material to profile: only the bundle.

def material(case):
    want(case.material is not None, "Bundle(VerificationMaterialMissing)")
    alone, chain = case.material.get("certificate"), case.material.get("x509CertificateChain")
    want(alone is not None or chain is not None, "Bundle(VerificationMaterialContentUnsupported)")
    case.encodings = [of_base64(each["rawBytes"]) for each in ([alone] if chain is None else chain["certificates"])]


def certificate(case):
    want(len(case.encodings) <= 17, "Bundle(TooManyCertificates(%d))" % len(case.encodings))
    read = [certificates.read_certificate(each) for each in case.encodings]
    for place, each in enumerate(read):
        want(each, "Bundle(CertificateMalformed(%d))" % place)
    want(read, "Bundle(CertificatesMissing)")
    case.leaf_der, case.leaf, case.later = case.encodings[0], read[0], read[1:]


def leaf(case):
    refusal = certificates.leaf_refusal(case.leaf)
    want(refusal is None, "Bundle(NoLeaf(%s))" % refusal)


def root_in_chain(case):
    want(not any(map(certificates.is_root, case.later)), "Bundle(RootInChain)")


def content(case):
    case.envelope, case.message = map(case.bundle.get, ("dsseEnvelope", "messageSignature"))
    want(case.envelope is not None or case.message is not None, "Bundle(SignatureMissing)")


DIGEST_FAULTS = {"TooManySubjects": "DsseTooManySubjects", "TooManyDigests": "DsseTooManySubjectDigests", "Malformed": "DsseSubjectDigestMalformed",
                 "NoneRecognized": "DsseNoRecognizedSubjectDigest"}


def envelope(case):
    if case.envelope is None:
        case.signature = of_base64(case.message["signature"])
        return
    signatures = case.envelope["signatures"]
    want(len(signatures) == 1, "Bundle(DsseInvalidSignatureCount(%d))" % len(signatures))
    case.signature, keyid = of_base64(signatures[0]["sig"]), signatures[0]["keyid"]
    case.payload, case.payload_type = of_base64(case.envelope["payload"]), case.envelope["payloadType"]
    case.envelope_text = dsse.envelope_text(case.payload_type, case.payload, [(case.signature, keyid)])
    try:
        subjects = dsse.read(documents.compact(documents.tree(case.payload)))[1]
    except (documents.NotJson, documents.Float, dsse.NoStatement):
        raise Fails("Bundle(DssePayloadDecode)") from None
    name, _, digests = dsse.digests(subjects).partition(" ")
    cause, _, kept = name.partition("(")
    want(name == "ok", "Bundle(%s)" % (DIGEST_FAULTS.get(cause, "") + ("(" + kept if kept else "")))
    words = digests.split()
    case.digests = {(algorithm, bytes.fromhex(text)) for algorithm, text in zip(words[::2], words[1::2])}


def entry(case):
    entries = case.material["tlogEntries"]
    want(len(entries) == 1, "Bundle(TlogEntry(%d))" % len(entries))
    case.entry = entries[0]
    case.body = of_base64(case.entry["canonicalizedBody"])


# The media types, by the profile that each names.
PROFILES = {"application/vnd.dev.sigstore.bundle+json;version=0.1": "0.1", "application/vnd.dev.sigstore.bundle+json;version=0.2": "0.2",
            "application/vnd.dev.sigstore.bundle.v0.3+json": "0.3", "application/vnd.dev.sigstore.bundle+json;version=0.3": "0.3"}


def profile(case):
    media_type = case.bundle["mediaType"]
    want(media_type in PROFILES, "Bundle(BundleProfile(Unknown(%s)))" % debug(media_type))
    if PROFILES[media_type] == "0.1":
        want("inclusionPromise" in case.entry, "Bundle(BundleProfile(Bundle01Profile(InclusionPromiseMissing)))")
        return
    want("inclusionProof" in case.entry, "Bundle(BundleProfile(Bundle02Profile(InclusionProofMissing)))")
    want("checkpoint" in case.entry["inclusionProof"], "Bundle(BundleProfile(Bundle02Profile(CheckpointMissing)))")


# issuance, issuer, sct: the leaf under the trusted root.

def issuance(case):
    want(certificates.is_issuable(case.leaf), "Certificate(Malformed)")


LONGEST_PATH = 6


def is_signed(case, child, parent):
    """Whether the one signed the other: the name by itself does not say."""
    return parent.subject == child.issuer and ("certificate", child.algorithm, parent.spki, child.tbs, child.signature) in case.request.accepted


def leads(case, place, others, told):
    """Whether the later certificate at this place leads to a trust anchor, with this many others between it and the leaf. What was found out is `told`."""
    if (place, others) not in told:
        each = case.later[place]
        told[place, others] = others < LONGEST_PATH and certificates.may_stand(each, case.leaf.not_before, others) and (
            any(is_signed(case, each, anchor) for anchor in case.anchors)
            or any(is_signed(case, each, other) and leads(case, above, others + 1, told) for above, other in enumerate(case.later)))
    return told[place, others]


def issuer(case):
    """The first in a path from the leaf to a trust anchor, at the first second of its validity: the trust anchors, and then the later certificates."""
    leaf, told = case.leaf, {}
    want(leaf.not_before <= leaf.not_after, "Certificate(VerificationFailed)")
    ways = [*((anchor, True) for anchor in case.anchors), *((each, place) for place, each in enumerate(case.later))]
    case.issuer = next((each for each, place in ways if is_signed(case, leaf, each) and (place is True or leads(case, place, 0, told))), None)
    want(case.issuer, "Certificate(VerificationFailed)")


def sct(case):
    missing, malformed = "Certificate(Sct(Parsing(LeafSCTMissing)))", "Certificate(Sct(Parsing(LeafSCTMalformed)))"
    lists = case.leaf.of(certificates.SCT_LIST)
    want(len(lists) == 1, missing)
    try:
        texts = certificates.sct_texts(lists[0].value)
        want(len(texts) == 1, missing)
        found = certificates.read_sct(texts[0])
    except certificates.Malformed:
        raise Fails(malformed) from None
    tbs = certificates.precertificate(case.leaf)
    want(len(tbs) < 2 ** 24, "Certificate(Sct(Serialization))")
    signed = certificates.signed_by_log(tbs, case.issuer.spki, found)
    point = certificates.log_point(case.certificate_logs.values(), found.log_id)
    want(point is not None, "Certificate(Sct(Verification(KeyNotFound)))")
    want(("point", None, point, signed, found.signature) in case.request.accepted, "Certificate(Sct(Verification(VerificationFailed)))")


# policy, key, signature, subject, body, time: what was signed, by whom, and when.

def policy(case):
    how, rules = case.request.policy
    refusals = [refusal for refusal in (certificates.rule_refusal(case.leaf, rule) for rule in rules) if refusal]
    if how == "all":
        want(not refusals, "Policy(AllOf { total: %d, errors: PolicyErrors { items: [%s] } })" % (len(rules), ", ".join(refusals)))
    else:
        want(len(refusals) < len(rules), "Policy(AnyOf { total: %d })" % len(rules))


def key(case):
    case.scheme = certificates.scheme_of(case.leaf.spki)
    want(case.scheme, "Signature(AlgoUnsupported)")


def signature(case):
    if case.envelope is None:
        algorithm, signed = case.request.digest
        want(algorithm == "sha256", "Signature(DigestAlgorithmUnsupported)")
        operation = "prehash"
    else:
        operation, signed = "message", dsse.pae(case.payload_type, case.payload)
    want((operation, case.scheme, case.leaf.spki, signed, case.signature) in case.request.accepted, "Signature(VerificationFailed)")


def subject(case):
    want(case.envelope is None or case.request.digest in case.digests, "Signature(SubjectDigestMismatch)")


def member(value, *names):
    """The member of members, or the first item where a name is 0; None where there is none."""
    for name in names:
        if name == 0:
            value = value[0] if isinstance(value, list) and value else None
        else:
            value = value.get(name) if isinstance(value, dict) else None
    return value


def is_hash(value, content):
    """Whether a member is Rekor's object of a SHA-256 of these bytes, in digits of either case."""
    digits = member(value, "value")
    return member(value, "algorithm") == "sha256" and isinstance(digits, str) and digits.isascii() and digits.lower() == sha256(content).hex()


def is_coded(value, content):
    return isinstance(value, str) and rekor.unbase64(value) == content


def is_about_envelope(case, logged):
    """Whether a body, Rekor's kind `dsse` in version 0.0.1, is about this envelope and this certificate, by the members that count."""
    signed = member(logged, "spec", "signatures", 0)
    return (member(logged, "kind") == "dsse" and member(logged, "apiVersion") == "0.0.1"
            and is_hash(member(logged, "spec", "envelopeHash"), case.envelope_text.encode())
            and is_hash(member(logged, "spec", "payloadHash"), case.payload)
            and is_coded(member(signed, "signature"), case.signature)
            and is_coded(member(signed, "verifier"), certificates.pem(case.leaf_der)))


def is_about_artifact(case, logged):
    """Whether a body, Rekor's kind `hashedrekord` in version 0.0.1, is that of this digest, signature and certificate, as a whole."""
    coded = lambda content: base64.b64encode(content).decode()
    spec = {"data": {"hash": {"algorithm": "sha256", "value": case.request.digest[1].hex()}},
            "signature": {"content": coded(case.signature), "publicKey": {"content": coded(certificates.pem(case.leaf_der))}}}
    return logged == {"apiVersion": "0.0.1", "kind": "hashedrekord", "spec": spec}


def body(case):
    try:
        logged = documents.tree(case.body)
    except (documents.NotJson, documents.Float):
        raise Fails("Signature(Transparency)") from None
    is_about = is_about_artifact if case.envelope is None else is_about_envelope
    want(is_about(case, logged), "Signature(Transparency)")


def time(case):
    want(case.leaf.not_before <= int(case.entry["integratedTime"]) <= case.leaf.not_after, "Certificate(Expired)")


# log-key to inclusion: the log's word.

def log_key(case):
    want("logId" in case.entry, "LogIdMissing")
    case.log_id = of_base64(case.entry["logId"]["keyId"]).hex()
    keys = picked_keys(case.root["tlogs"], case.request.now)
    want(case.log_id in keys, "RekorPublicKeyNotFoundError(%s)" % debug(case.log_id))
    case.log_key = keys[case.log_id]
    want(certificates.spki_parts(case.log_key), "KeyParsingError")
    case.log_scheme = certificates.scheme_of(case.log_key)
    want(case.log_scheme, "PublicKeyUnsupportedAlgorithmError")


def promised(case):
    """The members that the log's promise is over."""
    return {"body": case.entry["canonicalizedBody"], "integratedTime": int(case.entry["integratedTime"]), "logID": case.log_id,
            "logIndex": int(case.entry["logIndex"])}


def promise(case):
    want("inclusionPromise" in case.entry, "PromiseMissing")
    try:
        signed = documents.canonical(promised(case)).encode()
    except documents.IntegerTooLarge:
        raise Fails("PromiseInteger") from None
    signature = of_base64(case.entry["inclusionPromise"]["signedEntryTimestamp"])
    want(("message", case.log_scheme, case.log_key, signed, signature) in case.request.accepted, "Promise")


def proof(case):
    want("inclusionProof" in case.entry, "ProofMissing")
    fields = case.entry["inclusionProof"]
    root, hashes = of_base64(fields["rootHash"]), list(map(of_base64, fields["hashes"]))
    want(len(root) == 32, "RootLength")
    for place, each in enumerate(hashes):
        want(len(each) == 32, "HashLength(%d)" % place)
    want(int(fields["treeSize"]) >= 0, "TreeSize")
    want("checkpoint" in fields, "CheckpointMissing")
    case.proof = SimpleNamespace(index=int(fields["logIndex"]), size=int(fields["treeSize"]), root=root, hashes=hashes)


def checkpoint(case):
    try:
        case.checkpoint = rekor.read_checkpoint(case.entry["inclusionProof"]["checkpoint"]["envelope"])
    except rekor.Fault as fault:
        raise Fails("ParseCheckpointError(%s)" % fault) from None


def note_key(case):
    note, signatures = case.checkpoint
    signed = rekor.note_text(note).encode()
    want(any(("message", case.log_scheme, case.log_key, signed, raw) in case.request.accepted for _, _, raw in signatures),
         "CheckpointSignatureVerificationError")


def note_match(case):
    fault = rekor.of_tree(case.checkpoint, case.proof.root, case.proof.size)
    want(fault is None, fault)


def inclusion(case):
    fault = rekor.included(case.body, case.proof.index, case.proof.root, case.proof.size, case.proof.hashes)
    want(fault is None, fault)


# All links in order.

LINKS = {"root-json": root_json, "bundle-json": bundle_json, "fulcio": fulcio, "anchor": anchor, "ctfe": ctfe, "material": material,
         "certificate": certificate, "leaf": leaf, "root-in-chain": root_in_chain, "content": content, "envelope": envelope, "entry": entry,
         "profile": profile, "issuance": issuance, "issuer": issuer, "sct": sct, "policy": policy, "key": key, "signature": signature,
         "subject": subject, "body": body, "time": time, "log-key": log_key, "promise": promise, "proof": proof, "checkpoint": checkpoint,
         "note-key": note_key, "note-match": note_match, "inclusion": inclusion}
NAMES = ["request", *LINKS]


def verify(content):
    """The reply to a request, of one line or two, and the error of the library call, `-` where there is none."""
    try:
        case = SimpleNamespace(request=read_request(content))
    except requests.NoRequest:
        return "refused request", "-"
    for name, link in LINKS.items():
        try:
            link(case)
        except Fails as error:
            return "refused " + name, str(error)
    second = requests.second_line(case.request.entries, case.body, case.proof)
    return "verified %d %d%s" % (case.proof.index, case.proof.size, second and "\n" + second), "-"


if __name__ == "__main__":
    print("\n".join(verify(sys.stdin.buffer.read())))
