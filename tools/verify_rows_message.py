"""The rows of the table of `verify` about signatures over an artifact, chains of certificates, and the profiles that a media type names."""
import json

import fixture
from fixture import DIGEST, SCHEME, WIDE_DIGEST, anchor, base64_of, certificate, compact, hashedrekord, leaf
from verify_cases import ABSENT, ENTRY, MATERIAL, PROOF, accepted, bundle, message, parts, row, unaccepted, whole_row

OTHER_DIGEST = "b" * 64
NOT_SIGNED = "signature Signature(VerificationFailed)"
NOT_LOGGED = "body Signature(Transparency)"
MADE = fixture.MessageRequest()
ROOT = certificate(anchor())
NO_CERTIFICATE = b"\x30\x00"


# The signature, over the SHA-256 digest of the artifact.

def messages():
    whole_row("message: the request", "verified 2 5", message())
    row("message: a SHA-512 digest", "signature Signature(DigestAlgorithmUnsupported)", message(digest="sha512:" + WIDE_DIGEST))
    row("message: another digest", NOT_SIGNED, message(digest="sha256:" + OTHER_DIGEST))
    row("message: another digest, signed and logged", "verified 2 5", message(digest="sha256:" + OTHER_DIGEST, signed=bytes.fromhex(OTHER_DIGEST)))
    row("message: another digest, signed and not logged", NOT_LOGGED,
        message(digest="sha256:" + OTHER_DIGEST, signed=bytes.fromhex(OTHER_DIGEST), body=MADE.body))
    row("message: not accepted", NOT_SIGNED, message(), unaccepted(2))
    words = SCHEME, MADE.leaf["key"], bytes.fromhex(DIGEST), MADE.signature
    row("message: accepted over the digest as a message", NOT_SIGNED, message(), unaccepted(2), accepted("message", *words))
    row("message: of no bytes", "verified 2 5", message(signature=b""))
    row("message: the bundle's own digest is not looked at", "verified 2 5", message(),
        bundle("messageSignature.messageDigest", {"algorithm": "SHA2_512", "digest": base64_of(b"x")}))
    row("message: null for the signature", "content Bundle(SignatureMissing)", message(), bundle("messageSignature", None))
    row("message: without a log entry", "entry Bundle(TlogEntry(0))", message(), bundle(MATERIAL + ".tlogEntries", []))


# Its log entry: the one tree, however it is written.

def logged(change):
    """A change of the members of the body."""
    tree = json.loads(MADE.body)
    change(tree)
    return message(body=compact(tree).encode())


def member(way, value):
    """The change of a body that gives the member at this path this value."""
    *objects, name = way.split(".")

    def change(tree):
        for each in objects:
            tree = tree[each]
        tree[name] = value
    return change


def message_bodies():
    row("message body: spelled otherwise", "verified 2 5", message(body=json.dumps(json.loads(MADE.body), indent=1, sort_keys=True).encode()))
    row("message body: a member twice, the last counts", "verified 2 5", message(body=MADE.body.replace(b'{"apiVersion"', b'{"kind":1,"apiVersion"')))
    for name, change in [
            ("the digest in upper case", member("spec.data.hash.value", DIGEST.upper())), ("another digest", member("spec.data.hash.value", OTHER_DIGEST)),
            ("another algorithm", member("spec.data.hash.algorithm", "sha512")), ("another kind", member("kind", "dsse")),
            ("another version", member("apiVersion", "0.0.2")), ("another signature", member("spec.signature.content", base64_of(b"x"))),
            ("another certificate", member("spec.signature.publicKey.content", base64_of(b"x"))),
            ("another member", member("other", None)), ("another member of the hash", member("spec.data.hash.other", "")),
            ("a number for the kind", member("kind", 1)), ("a list for the kind", member("kind", ["hashedrekord"]))]:
        row("message body: " + name, NOT_LOGGED, logged(change))
    for name, body in [("without a member", compact({"apiVersion": "0.0.1", "kind": "hashedrekord"}).encode()), ("a list around it",
                       b"[" + MADE.body + b"]"), ("nothing", b""), ("no document", MADE.body[:-1]), ("that of an envelope", fixture.Request().body)]:
        row("message body: " + name, NOT_LOGGED, message(body=body))
    row("body: that of a signature over the artifact", NOT_LOGGED, parts(body=hashedrekord(bytes.fromhex(DIGEST), b"sig-dsse", certificate(leaf()))))


# Chains: the first certificate signs, and none after it is a root.

def in_chain(*later):
    """The bundle's certificate as the first of a chain, which these follow."""
    def change(material):
        chain = [material["certificate"], *({"rawBytes": base64_of(each)} for each in later)]
        others = {name: value for name, value in material.items() if name != "certificate"}
        return {**others, "x509CertificateChain": {"certificates": chain}}
    return bundle(MATERIAL, change)


def chains():
    other, intermediate = MADE.leaf_der, certificate(anchor(issuer=fixture.name("another root")))
    for name, later, expected in [
            ("of one", (), "verified 2 5"), ("of three", (other, other), "verified 2 5"), ("with an authority that another issued", (intermediate,),
            "verified 2 5"),
            ("of 17", (other, intermediate) * 8, "verified 2 5"),
            ("of 18", (intermediate,) * 17, "certificate Bundle(TooManyCertificates(18))"),
            ("of 18, the last of which is not a certificate", (other,) * 16 + (NO_CERTIFICATE,), "certificate Bundle(TooManyCertificates(18))"),
            ("with a root", (ROOT,), "root-in-chain Bundle(RootInChain)"),
            ("with a root at the end of three", (intermediate, ROOT), "root-in-chain Bundle(RootInChain)"),
            ("with bytes after the first", (NO_CERTIFICATE,), "certificate Bundle(CertificateMalformed(1))"),
            ("with no bytes at the end of three", (other, b""), "certificate Bundle(CertificateMalformed(2))"),
            ("with two that are not certificates", (NO_CERTIFICATE, b""), "certificate Bundle(CertificateMalformed(1))"),
            ("with a root before bytes", (ROOT, NO_CERTIFICATE), "certificate Bundle(CertificateMalformed(2))")]:
        row("chain: " + name, expected, in_chain(*later))
        row("chain, message: " + name, expected, message(later=later))
    for name, certificates, expected in [
            ("empty", [], "certificate Bundle(CertificatesMissing)"), ("of a root alone", [ROOT], "leaf Bundle(NoLeaf(NotLeaf(IsCA)))"),
            ("the root first", [ROOT, MADE.leaf_der], "leaf Bundle(NoLeaf(NotLeaf(IsCA)))"),
            ("bytes first", [NO_CERTIFICATE, b""], "certificate Bundle(CertificateMalformed(0))")]:
        chain = {"certificates": [{"rawBytes": base64_of(each)} for each in certificates]}
        row("chain: " + name, expected, bundle(MATERIAL, lambda material: {"tlogEntries": material["tlogEntries"], "x509CertificateChain": chain}))
    row("chain: no list", "certificate Bundle(CertificatesMissing)", message(), bundle(MATERIAL + ".x509CertificateChain", {}))


# Profiles: what the media type's version demands of the log entry.

MEDIA_TYPES = ["application/vnd.dev.sigstore.bundle+json;version=0.1", "application/vnd.dev.sigstore.bundle+json;version=0.2",
               "application/vnd.dev.sigstore.bundle.v0.3+json"]


def versions():
    for content, changed in (("an envelope", parts), ("a message", message)):
        for media_type in MEDIA_TYPES:
            name, first = "version: %s, %s" % (media_type, content), media_type == MEDIA_TYPES[0]
            lacking = "profile Bundle(BundleProfile(%s))"
            promise = lacking % "Bundle01Profile(InclusionPromiseMissing)" if first else "promise PromiseMissing"
            proof = "proof ProofMissing" if first else lacking % "Bundle02Profile(InclusionProofMissing)"
            checkpoint = "proof CheckpointMissing" if first else lacking % "Bundle02Profile(CheckpointMissing)"
            row(name, "verified 2 5", changed(media_type=media_type))
            for lacks, path, expected in (("a promise", ENTRY + ".inclusionPromise", promise), ("a proof", PROOF, proof),
                                          ("a checkpoint", PROOF + ".checkpoint", checkpoint)):
                row(name + ", without " + lacks, expected, changed(media_type=media_type), bundle(path, ABSENT))
    row("version: 0.1, without promise and proof", "profile Bundle(BundleProfile(Bundle01Profile(InclusionPromiseMissing)))",
        parts(media_type=MEDIA_TYPES[0]), bundle(ENTRY + ".inclusionPromise", ABSENT), bundle(PROOF, ABSENT))


GROUPS = [messages, message_bodies, chains, versions]
