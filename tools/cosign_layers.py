"""Cosign's layers in the plainest way, for tools/cosign_layer_rows.py: who signed according to a certificate, the layer of a descriptor and its
bytes, the layers of a manifest, and what is shown about each.

Certificates are read by the second reader that the other tools have, which is written from the public standards; the rules of a layer are those of `cosign` as docs/PROVED.md and docs/DECISIONS.md say them.
"""
import json
from types import SimpleNamespace

import verify_certificate as certificates
import x509_reader as x509
from fixture import oid
from rekor_cases import debug
from verify_certificate import sha256


class Refused(Exception):
    """Why a call fails."""


def want(holds, error):
    if not holds:
        raise Refused(error)


def unexpected(kind):
    return "UnexpectedError(%s)" % kind


# ---- who signed


def names_of(value):
    """Each name of a subject alternative name: its kind and text (RFC 5280 section 4.2.1.6)."""
    certificates.alternative_names(value)
    kinds = {0x81: "Email", 0x86: "Uri"}
    return [(kinds[tag], content.decode()) for tag, content, _ in x509.cut(certificates.sole(value, 0x30)) if tag in kinds]


def named(leaf):
    """Kind and text of the first name."""
    found = leaf.value(certificates.ALTERNATIVE_NAME, names_of)
    want(found is not None and found != certificates.MALFORMED, "CertificateParsingError")
    want(found, "CertificateWithIncompleteSubjectAlternativeName")
    return found[0]


def subject(leaf):
    kind, text = named(leaf)
    return "%s %s" % (kind, debug(text))


def is_signed(child, parent, rows):
    return (child.issuer == parent.subject and child.not_before <= child.not_after
            and ("certificate", child.algorithm, parent.spki, child.tbs, child.signature) in rows)


def may_issue(inter, time):
    listed = inter.value(certificates.EXTENDED_KEY_USAGE, certificates.purposes)
    return (certificates.authority_refusal(inter) is None and inter.not_before <= time <= inter.not_after
            and (listed is None or certificates.CODE_SIGNING in listed))


def check_pool(leaf, anchors, intermediates, rows):
    """The leaf is issued by a trust anchor, or by an intermediate that one issued; longer paths are left to tools/x509_paths.py."""
    want(certificates.is_issuable(leaf), "CertificatePoolError(Malformed)")
    listed = leaf.value(certificates.EXTENDED_KEY_USAGE, certificates.purposes)
    roots = [certificates.read_certificate(each) for each in anchors]
    others = [each for each in map(certificates.read_certificate, intermediates) if each and may_issue(each, leaf.not_before)]
    above = roots + [inter for inter in others if any(is_signed(inter, root, rows) for root in roots)]
    issued = isinstance(listed, list) and certificates.CODE_SIGNING in listed and any(is_signed(leaf, each, rows) for each in above)
    want(issued, "CertificatePoolError(VerificationFailed)")


def check_trust(leaf, time, now):
    usage = leaf.value(certificates.KEY_USAGE, certificates.key_usage)
    want(isinstance(usage, int) and usage & 0x80, "CertificateWithoutDigitalSignatureKeyUsage")
    listed = leaf.value(certificates.EXTENDED_KEY_USAGE, certificates.purposes)
    want(isinstance(listed, list) and certificates.CODE_SIGNING in listed, "CertificateWithoutCodeSigningKeyUsage")
    names = leaf.value(certificates.ALTERNATIVE_NAME, names_of)
    want(isinstance(names, list), "CertificateWithoutSubjectAlternativeName")
    want(leaf.not_before <= now, "CertificateValidityError(%d)" % leaf.not_before)
    want(leaf.not_before <= time, "CertificateExpiredBeforeSignaturesSubmittedToRekor { integrated_time: %d, not_before: %d }" % (time, leaf.not_before))
    want(time <= leaf.not_after, "CertificateIssuedAfterSignaturesSubmittedToRekor { integrated_time: %d, not_after: %d }" % (time, leaf.not_after))


def claim(leaf, number):
    found = leaf.of(oid(certificates.FULCIO + number))
    if not found:
        return None
    text = certificates.utf8(found[0].value)
    want(text is not None, "X509Error")
    return text


def signer_of(content, pool, time, now, rows):
    leaf = certificates.read_certificate(content)
    want(leaf, "X509Error")
    check_pool(leaf, *pool, rows)
    check_trust(leaf, time, now)
    subject = named(leaf)
    scheme = certificates.scheme_of(leaf.spki)
    want(scheme, "X509Error")
    return SimpleNamespace(scheme=scheme, spki=leaf.spki, subject=subject, claims=[claim(leaf, str(number)) for number in range(1, 7)])


def signer_words(found):
    if found is None:
        return "-"
    kind, text = found.subject
    return " ".join([found.scheme, found.spki.hex(), kind, debug(text), *["-" if text is None else debug(text) for text in found.claims]])


def signer(*handed):
    return signer_words(signer_of(*handed))


def signer_or_none(content, pool, time, now, rows):
    try:
        return signer_of(content, pool, time, now, rows) if pool is not None else None
    except Refused:
        return None


# ---- what is shown of a signer, and of a layer

LABELS = ("trigger", "SHA", "name", "repository", "ref")


def signer_text(found):
    """Texts in quotation marks, unescaped, after the name of their kind."""
    said = ["None" if text is None else 'Some("%s")' % text for text in found.claims]
    lines = ["issuer: " + said[0], 'subject: %s("%s")' % found.subject, *["GitHub Workflow %s: %s" % pair for pair in zip(LABELS, said[1:])]]
    return "\n".join(["CertificateSignature", *["- " + line for line in lines], "---"])


def signing_text(signing):
    """JSON as Python's `json` writes it: indented by two spaces, the members in the order of their names."""
    reference, digest, kind, beside = signing
    tree = {"critical": {"identity": {"docker-reference": reference}, "image": {"docker-manifest-digest": digest}, "type": kind}, "optional": None}
    if beside is not None:
        own = {"creator": beside[0], "timestamp": beside[1]}
        tree["optional"] = {**beside[2], **{name: value for name, value in own.items() if value is not None}}
    return json.dumps(tree, indent=2, ensure_ascii=False, sort_keys=True)


def layer_text(made):
    parts = {"digest": made.digest, "signature": "None" if made.signature is None else made.signature, "bundle:": made.logged.split(" ")[0].replace("-", "None"),
             "certificate signature": "None" if made.signer is None else signer_text(made.signer), "Simple Signing": signing_text(made.signing)}
    return "---\n# SignatureLayer\n%s\n---" % "\n\n".join("## %s\n%s" % part for part in parts.items())


def layer_words(made, payloads):
    return " ".join([payloads.shown(made.signing), debug(made.digest), debug(made.signature), made.logged, signer_words(made.signer), made.raw.hex() or "-"])


# ---- the layer of a descriptor and its bytes

SIGNING_TYPE = "application/vnd.dev.cosign.simplesigning.v1+json"
SIGNATURE, BUNDLE = "dev.cosignproject.cosign/signature", "dev.sigstore.cosign/bundle"


def digest_of(content):
    return "sha256:" + sha256(content).hex()


def layer_of(descriptor, fetched, source, trust, payloads):
    """`payloads` reads payloads and what Rekor promised: tools/cosign_cases.py."""
    want(descriptor.media_type == SIGNING_TYPE == fetched.media_type, "SigstoreMediaTypeNotFoundError")
    want(descriptor.digest == digest_of(fetched.content), "SigstoreLayerDigestMismatchError")
    signing = payloads.signing_of(fetched.content)
    want(signing[1] == source, unexpected("ImageDigest"))
    want(SIGNATURE in descriptor.annotations, "SigstoreAnnotationNotFoundError")
    logged, signed = "- -", None
    if BUNDLE in descriptor.annotations and trust.keys is not None:
        promised = payloads.promised(descriptor.annotations[BUNDLE], trust.keys, trust.rows)
        logged = "RekorBundle %d %s %d" % (promised[3], debug(promised[1]), promised[2])
        if descriptor.cert is not None:
            signed = signer_or_none(descriptor.cert, trust.pool, promised[2], trust.now, trust.rows)
    return SimpleNamespace(signing=signing, digest=descriptor.digest, signature=descriptor.annotations[SIGNATURE], logged=logged, signer=signed, raw=fetched.content)


# ---- the layers of a manifest


def built(descriptors, fetched, source, trust, payloads):
    """What is made from each descriptor with the first layer of its digest."""
    made = []
    for descriptor in descriptors:
        of_digest = [each for each in fetched if digest_of(each.content) == descriptor.digest]
        try:
            made += [layer_of(descriptor, each, source, trust, payloads) for each in of_digest[:1]]
        except (Refused, payloads.Refused):
            pass
    want(made, "SigstoreNoVerifiedLayer")
    return " ".join([str(len(made)), *[layer_words(each, payloads) for each in made]])
