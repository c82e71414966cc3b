"""What is shown about a bundle that is verified. Written from docs/LINKS.md, "What is shown of a bundle that is verified", RFC 5280 and Fulcio's list of
object identifiers. A `case` is what tools/verify_links.py has read of a request whose links hold."""
import dsse_cases as dsse
import explain_evidence as evidence
import json_documents as documents
import verify_certificate as certificates
import x509_reader as x509
from explain_shown import digest, proof, sha256, shown, time
from fixture import oid

MOST_NAMES, MOST_SUBJECTS, MOST_DIGESTS = 64, 1024, 32
EMAIL, URI, OTHER = 0x81, 0x86, 0xA0
FULCIO = {name: "1.3.6.1.4.1.57264.1.%d" % number
          for number, name in enumerate(("issuer", "trigger", "sha", "name", "repository", "ref"), start=1)}


# The certificate.

def name(tag, content):
    """A name of the subject alternative name; of one that is not read nothing is shown."""
    if tag in (EMAIL, URI):
        return shown("email" if tag == EMAIL else "uri", content.decode())
    if tag != OTHER:
        return {}
    (_, kind, _), (_, tagged, _) = x509.cut(content)
    [(_, value, _)] = x509.cut(tagged)
    return {"otherName": kind.hex(), **shown("value", certificates.utf8(value))}


def alternative_names(leaf):
    """The names that the one subject alternative name gives; none if it is malformed."""
    if leaf.value(certificates.ALTERNATIVE_NAME, certificates.alternative_names) in (None, certificates.MALFORMED):
        return []
    content = certificates.sole(leaf.of(certificates.ALTERNATIVE_NAME)[0].value, 0x30)
    return [name(tag, each) for tag, each, _ in x509.cut(content)]


def said(leaf, dotted):
    """The text of an extension, if there is one of it and it is UTF-8."""
    found = leaf.of(oid(dotted))
    return certificates.utf8(found[0].value) if len(found) == 1 else None


def serial_number(leaf):
    """The INTEGER after the version (RFC 5280 section 4.1.2.2)."""
    elements = x509.cut(certificates.sole(leaf.tbs, 0x30))
    return elements[elements[0][0] == 0xA0][1].hex()


def certificate(case):
    leaf = case.leaf
    members = {"names": alternative_names(leaf)[:MOST_NAMES], "serialNumber": serial_number(leaf), "sha256": sha256(case.leaf_der),
               **evidence.validity(leaf)}
    for member, dotted in FULCIO.items():
        members |= shown(member, said(leaf, dotted))
    return members


def issued_by(case):
    """Who issued the certificate, by the index among the trust anchors or among the further certificates of the bundle."""
    for member, listed in (("anchor", case.anchors), ("further", case.later)):
        for place, each in enumerate(listed):
            if each is case.issuer:
                return {member: str(place)}
    return {}


# What was signed.

def subject(found):
    named, digests, _ = found
    shown_digests = [{**shown("algorithm", algorithm), **shown("value", value)} for algorithm, value in digests[:MOST_DIGESTS]]
    return {**shown("name", named), "digests": shown_digests}


def envelope(case):
    """The envelope and the statement in it; None for a signature over the artifact."""
    if case.envelope is None:
        return {}
    _, listed, predicate, _ = dsse.read(documents.compact(documents.tree(case.payload)))
    return {"envelope": {**shown("payloadType", case.payload_type), "payloadSha256": sha256(case.payload), **shown("predicateType", predicate),
                         "subjects": [subject(each) for each in listed[:MOST_SUBJECTS]], "subjectCount": str(len(listed))}}


def entry(case):
    found = case.proof
    return {**evidence.log_id(case.entry), "logIndex": case.entry["logIndex"], "integratedTime": time(int(case.entry["integratedTime"])),
            "inclusionProof": proof(found.index, found.size, found.root)}


def verified(case):
    return {"certificate": certificate(case), "issuedBy": issued_by(case), "sct": evidence.sct(case.leaf), "tlogEntry": entry(case),
            "digest": digest(case.request.digest), **envelope(case), **evidence.policy(case)}
