#!/usr/bin/env python3
"""What `explain verify` writes, once more.

    tools/explain_verify.py < REQUEST    writes the reply of `verify`, and as the last line the explanation

tools/verify_links.py follows the links, and what is shown about each is made from docs/LINKS.md: explain_refusal.py makes the error's names and what it
keeps, explain_evidence.py what the link compares, and explain_verified.py what was verified."""
import sys
from types import SimpleNamespace

sys.dont_write_bytecode = True

import document_fault as documents
import dsse_cases as dsse
import explain_evidence as evidence
import verify_links as links
from explain_body import body
from explain_refusal import refusal
from explain_requests import request_refusal
from explain_shown import line
from explain_verified import verified


# What each link compares, where it has something to compare.

def root_json(case):
    return evidence.fault(documents.root_fault(case.request.trusted_root))


def bundle_json(case):
    return evidence.fault(documents.bundle_fault(case.request.bundle))


def ctfe(case):
    return evidence.logs(case, "ctlogs")


def sct(case):
    return {**evidence.sct(case.leaf), **ctfe(case)}


def signature(case):
    """The signature over the envelope's encoding, or over the digest; of a digest of which no signature is, nothing was asked."""
    algorithm, content = case.request.digest
    if case.envelope is None and algorithm != "sha256":
        return {}
    signed = content if case.envelope is None else dsse.pae(case.payload_type, case.payload)
    return evidence.accepted(case.request.accepted, case.scheme, case.leaf.spki, signed, [case.signature])


def log_key(case):
    return {**evidence.log_id(case.entry), **evidence.logs(case, "tlogs")}


def promise(case):
    """The promise, if there is one and its integers are small enough to be signed."""
    if "inclusionPromise" not in case.entry:
        return {}
    try:
        signed = links.documents.canonical(links.promised(case)).encode()
    except links.documents.IntegerTooLarge:
        return {}
    promised = links.of_base64(case.entry["inclusionPromise"]["signedEntryTimestamp"])
    return evidence.accepted(case.request.accepted, case.log_scheme, case.log_key, signed, [promised])


def note_key(case):
    return evidence.accepted_note(case.request.accepted, case.log_scheme, case.log_key, case.checkpoint)


EVIDENCE = {
    "root-json": root_json, "bundle-json": bundle_json, "fulcio": evidence.authorities, "ctfe": ctfe, "issuer": evidence.issuer, "sct": sct, "policy": evidence.policy,
    "signature": signature, "subject": evidence.subjects, "body": body, "time": evidence.times, "log-key": log_key, "promise": promise, "note-key": note_key,
    "note-match": evidence.trees, "inclusion": evidence.trees}


def case_explanation(case):
    """Of a case of which nothing was tested yet: the object of the first link that fails, or of what was verified."""
    for name, link in links.LINKS.items():
        try:
            link(case)
        except links.Fails as error:
            return refusal(name, str(error), EVIDENCE.get(name, lambda _: {})(case))
    return verified(case)


def explanation(text):
    """The object of the last line."""
    refused = request_refusal("verify", text)
    return refused or case_explanation(SimpleNamespace(request=links.read_request(text.encode())))


def lines(text):
    """What is written, without its last newline, and the status."""
    reply = links.verify(text.encode())[0]
    status = 2 if reply == "refused request" else int(reply.startswith("refused"))
    return reply + "\n" + line(explanation(text)), status


if __name__ == "__main__":
    print(lines(sys.stdin.read())[0])
