"""The first part in which the body of a log entry differs from what it has to be. Written from docs/LINKS.md, "What is shown of a refusal"."""
import base64

import json_documents as documents
import verify_certificate as certificates
from explain_shown import sha256
from verify_links import member

MOST_COMPARED = 256  # bytes of a text that is shown


def coded(content):
    return base64.b64encode(content).decode()


def digits(value):
    """The digits of a hash in lower case, if the member is one of 32 bytes."""
    is_hash = isinstance(value, str) and len(value) == 64 and all(each in "0123456789abcdefABCDEF" for each in value)
    return value.lower() if is_hash else None


def of_hash(name, expected, found, read):
    """The algorithm of Rekor's object of a hash, and its digits."""
    return [(f"{name}Algorithm", "sha256", member(found, "algorithm")), (name, expected, read(member(found, "value")))]


def parts_of_envelope(case, logged):
    spec = member(logged, "spec")
    signed = member(spec, "signatures", 0)
    return [*of_hash("envelopeHash", sha256(case.envelope_text.encode()), member(spec, "envelopeHash"), digits),
            *of_hash("payloadHash", sha256(case.payload), member(spec, "payloadHash"), digits),
            ("signature", coded(case.signature), member(signed, "signature")),
            ("certificate", coded(certificates.pem(case.leaf_der)), member(signed, "verifier"))]


def parts_of_artifact(case, logged):
    spec = member(logged, "spec")
    return [*of_hash("digest", case.request.digest[1].hex(), member(spec, "data", "hash"), lambda value: value),
            ("signature", coded(case.signature), member(spec, "signature", "content")),
            ("certificate", coded(certificates.pem(case.leaf_der)), member(spec, "signature", "publicKey", "content"))]


def short(name, text):
    return {name: text} if isinstance(text, str) and len(text.encode()) <= MOST_COMPARED else {}


def body(case):
    """The first part that differs; `members` where none does, and another member is there."""
    try:
        logged = documents.tree(case.body)
    except (documents.NotJson, documents.Float):
        return {"part": "json"}
    kind, parts = ("hashedrekord", parts_of_artifact) if case.envelope is None else ("dsse", parts_of_envelope)
    head = [("kind", kind, member(logged, "kind")), ("apiVersion", "0.0.1", member(logged, "apiVersion"))]
    for name, expected, got in head + parts(case, logged):
        if got != expected:
            return {"part": name, **short("expected", expected), **short("got", got)}
    return {"part": "members"}
