"""The layer of a Sigstore bundle in the plainest way, for tools/cosign_bundle_rows.py.

Bundles, statements, log entries, checkpoints and audit paths are read by the second readers that the other tools have, which are written from the public
standards; the rules of a layer are those of `cosign` as docs/PROVED.md and docs/DECISIONS.md say them.
"""
from types import SimpleNamespace

import cosign_layers as layers
import dsse_cases as dsse
import json_documents as documents
import verify_links as links
from cosign_layers import unexpected, want
from rekor_cases import debug
from verify_certificate import sha256


def bundle(case):
    try:
        links.bundle_json(case)
    except links.Fails:
        raise layers.Refused(unexpected("BundleUnreadable")) from None


def envelope(case):
    case.envelope = case.bundle.get("dsseEnvelope")
    want(case.envelope is not None, unexpected("ContentNotDsse"))
    case.payload, case.payload_type = links.of_base64(case.envelope["payload"]), case.envelope["payloadType"]
    want(case.payload_type == "application/vnd.in-toto+json", unexpected("PayloadType"))


def statement(case):
    try:
        kind, subjects, case.predicate_type, _ = dsse.read(documents.compact(documents.tree(case.payload)))
    except (documents.NotJson, documents.Float, dsse.NoStatement):
        raise layers.Refused(unexpected("Statement")) from None
    want(kind == "https://in-toto.io/Statement/v1", unexpected("StatementType"))
    want(case.predicate_type == "https://sigstore.dev/cosign/sign/v1", unexpected("PredicateType"))
    want(subjects, unexpected("NoSubjects"))
    digests = dict(subjects[0][1])
    want("sha256" in digests, unexpected("FirstSubjectWithoutSha256"))
    case.sha256 = digests["sha256"]
    want(case.sha256 == case.source.removeprefix("sha256:"), unexpected("SubjectDigest"))


def signature(case):
    signatures = case.envelope["signatures"]
    want(len(signatures) == 1, unexpected("SignatureCount(%d)" % len(signatures)))
    case.signature = links.of_base64(signatures[0]["sig"])
    case.envelope_text = dsse.envelope_text(case.payload_type, case.payload, [(case.signature, signatures[0]["keyid"])])


def certificate(case):
    want(any(name in (case.material or {}) for name in links.SIGNERS), unexpected("MaterialMissing"))
    want("certificate" in case.material, unexpected("MaterialNotCertificate"))
    case.leaf_der = links.of_base64(case.material["certificate"]["rawBytes"])


def entry(case):
    entries = case.material["tlogEntries"]
    want(len(entries) == 1, unexpected("EntryCount(%d)" % len(entries)))
    case.entry = entries[0]
    case.body = links.of_base64(case.entry["canonicalizedBody"])


def log_key(case):
    want(case.trust.keys is not None, unexpected("KeysMissing"))
    want("logId" in case.entry, unexpected("LogIdMissing"))
    case.log_id = links.of_base64(case.entry["logId"]["keyId"]).hex()
    want(case.log_id in case.trust.keys, "RekorPublicKeyNotFoundError(%s)" % debug(case.log_id))
    case.log_scheme, case.log_key = case.trust.keys[case.log_id]


# What a log's word fails with under its own name; everything else is an unexpected thing.
OWN = ("ParseCheckpointError", "CheckpointSignatureVerificationError", "ConsistencyProofError", "InclusionProofError")


def vouched(case):
    for link in (links.promise, links.proof, links.checkpoint, links.note_key, links.note_match, links.inclusion):
        try:
            link(case)
        except links.Fails as error:
            raise layers.Refused(str(error) if str(error).startswith(OWN) else unexpected(error)) from None


def spells(logged, name, content):
    return links.member(logged, "spec", name, "value") == sha256(content).hex()


def body(case):
    try:
        logged = documents.tree(case.body)
    except (documents.NotJson, documents.Float):
        logged = None
    signatures = links.member(logged, "spec", "signatures")
    want(links.is_about_envelope(case, logged) and isinstance(signatures, list) and len(signatures) == 1
         and spells(logged, "envelopeHash", case.envelope_text.encode()) and spells(logged, "payloadHash", case.payload), unexpected("Body"))


RULES = (bundle, envelope, statement, signature, certificate, entry, log_key, vouched, body)


def layer_of(case):
    for rule in RULES:
        rule(case)
    time = int(case.entry["integratedTime"])
    signer = layers.signer_or_none(case.leaf_der, case.trust.pool, time, case.trust.now, case.trust.rows)
    return SimpleNamespace(signing=(case.reference, "sha256:" + case.sha256, case.predicate_type, None), digest=case.digest, signature=dsse.in_base64(case.signature),
                           logged="SigstoreBundle %s %s %d" % (case.entry["logIndex"], case.body.hex() or "-", time), signer=signer,
                           raw=dsse.pae(case.payload_type, case.payload))
