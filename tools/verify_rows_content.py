"""The rows of the table of `verify` about what the documents hold: leaf, SCT, policy, envelope, log body, proof and checkpoint."""
import json

import fixture
from fixture import (A0, BASIC_CONSTRAINTS, BIT_STRING, CODE_SIGNING, DIGEST, EXTENDED_KEY_USAGE, FULCIO, ISSUER, KEY_USAGE, NAME_CONSTRAINTS,
                     OBJECT_IDENTIFIER, OCTET_STRING, SCT_LIST, SEQUENCE, SUBJECT_ALTERNATIVE_NAME, URI, WIDE_DIGEST, WORKFLOW, base64_of, compact,
                     der, extension, key, leaf, leaf_extensions, note, oid, sct, sct_list, subject)
from rekor_cases import debug
from verify_cases import (ABSENT, CERTIFICATE, CHECKPOINT, ENTRY, KEYS, MATERIAL, PROOF, accepted, bundle, edited, held, of_bytes, parts, row,
                          unaccepted)


# material to profile: the bundle's parts. Those of chains, of signatures over an artifact and of profiles are in verify_rows_message.py.

def materials():
    for name, path, value, error in [
            ("absent", MATERIAL, ABSENT, "VerificationMaterialMissing"), ("null", MATERIAL, None, "VerificationMaterialMissing"),
            ("empty", MATERIAL, {}, "VerificationMaterialContentUnsupported"), ("null for the certificate", MATERIAL + ".certificate", None,
            "VerificationMaterialContentUnsupported"),
            ("a key hint", MATERIAL, {"publicKey": {"hint": "x"}}, "VerificationMaterialContentUnsupported")]:
        row("material: " + name, "material Bundle(%s)" % error, bundle(path, value))
    for name, value in [("no bytes", {}), ("an empty sequence", {"rawBytes": base64_of(b"\x30\x00")})]:
        row("certificate: " + name, "certificate Bundle(CertificateMalformed(0))", bundle(MATERIAL + ".certificate", value))
    row("certificate: cut", "certificate Bundle(CertificateMalformed(0))", bundle(CERTIFICATE, of_bytes(lambda content: content[:-1])))
    row("content: null", "content Bundle(SignatureMissing)", bundle("dsseEnvelope", None))


def leaves():
    authority = extension(BASIC_CONSTRAINTS, der(SEQUENCE, der(1, b"\xff")), critical=True)
    both = extension(KEY_USAGE, der(BIT_STRING, b"\x02\x84"), critical=True)
    for name, change, error in [
            ("of version 1 without extensions", parts(leaf=leaf(version=b"", extensions=b"")), "VersionUnsupported"),
            ("of version 2", parts(leaf=leaf(version=der(A0, b"\x02\x01\x01"))), "VersionUnsupported"),
            ("that is an authority", held(usage=both, others=authority), "NotLeaf(IsCA)"),
            ("with malformed key usage", held(usage=extension(KEY_USAGE, b"")), "Malformed"),
            ("with key usage twice", held(others=extension(KEY_USAGE, der(BIT_STRING, b"\x07\x80"))), "Malformed"),
            ("for other uses", held(usage=extension(KEY_USAGE, der(BIT_STRING, b"\x05\x20"))), "Extension(BitUnset(KeyUsageDigitalSignature))"),
            ("with malformed purposes", held(purposes=extension(EXTENDED_KEY_USAGE, b"\x30")), "Malformed"),
            ("without purposes", held(purposes=b""), "Extension(Missing(ExtendedKeyUsage))"),
            ("for other purposes", held(purposes=extension(EXTENDED_KEY_USAGE, der(SEQUENCE, der(OBJECT_IDENTIFIER, CODE_SIGNING[:-1] + b"\x01")))),
             "Extension(BitUnset(ExtendedKeyUsageDigitalSignature))"),
            ("without extensions", parts(leaf=leaf(extensions=b"")), "Extension(Missing(KeyUsage))")]:
        row("leaf: one " + name, "leaf Bundle(NoLeaf(%s))" % error, change)


def profiles():
    older = "application/vnd.dev.sigstore.bundle+json;version="
    row("profile: 0.3 in the older form", "verified 2 5", parts(media_type=older + "0.3"))
    for media_type in (older + "0.4", "", "application/vnd.dev.sigstore.bundle.v0.3+json ",
    "APPLICATION/vnd.dev.sigstore.bundle.v0.3+json"):
        row("profile: the media type %s" % compact(media_type), "profile Bundle(BundleProfile(Unknown(%s)))" % debug(media_type),
            parts(media_type=media_type))
    for name, path, value, cause in [("no proof", PROOF, ABSENT, "InclusionProofMissing"), ("null for the proof", PROOF, None,
                                     "InclusionProofMissing"),
                                     ("no checkpoint", PROOF + ".checkpoint", ABSENT, "CheckpointMissing"), ("an empty proof", PROOF, {},
                                     "CheckpointMissing")]:
        row("profile: " + name, "profile Bundle(BundleProfile(Bundle02Profile(%s)))" % cause, bundle(path, value))
    row("profile: an empty checkpoint is one", "checkpoint ParseCheckpointError(Format)", bundle(PROOF + ".checkpoint", {}))
    row("entry: none", "entry Bundle(TlogEntry(0))", bundle(MATERIAL + ".tlogEntries", ABSENT))


# issuance and sct: the leaf's profile as one that is issued, and its SCT.

def issuances():
    def constraints(value):
        return extension(BASIC_CONSTRAINTS, value)
    other = der(SEQUENCE, der(OBJECT_IDENTIFIER, oid("1.2.840.10045.4.3.3")))
    for name, change in [("an authority by basic constraints alone", held(others=constraints(der(SEQUENCE, der(1, b"\xff"))))),
                         ("malformed basic constraints", held(others=constraints(b""))),
                         ("name constraints", held(others=extension(NAME_CONSTRAINTS, der(SEQUENCE)))),
                         ("an unknown critical extension", held(others=extension(FULCIO["ref"], b"a", critical=True))),
                         ("a critical list of SCTs", held(list=extension(SCT_LIST, sct_list(sct()), critical=True))),
                         ("two algorithms", parts(leaf=leaf(inner=other))),
                         ("two lists of SCTs", held(others=extension(SCT_LIST, sct_list(sct()))))]:
        row("issuance: " + name, "issuance Certificate(Malformed)", change)


def more_issuances():
    row("issuance: basic constraints of no authority", "verified 2 5", held(others=extension(BASIC_CONSTRAINTS, der(SEQUENCE))))
    row("issuance: critical purposes", "verified 2 5",
        held(purposes=extension(EXTENDED_KEY_USAGE, der(SEQUENCE, der(OBJECT_IDENTIFIER, CODE_SIGNING)), critical=True)))
    other = der(SEQUENCE, der(OBJECT_IDENTIFIER, oid("1.2.840.10045.4.3.3")))
    row("issuance: another algorithm in both places", "verified 2 5", parts(leaf=leaf(inner=other, algorithm=other)))


def scts():
    missing, malformed = "sct Certificate(Sct(Parsing(LeafSCTMissing)))", "sct Certificate(Sct(Parsing(LeafSCTMalformed)))"
    refused = "sct Certificate(Sct(Verification(VerificationFailed)))"

    def listed(value):
        return held(list=extension(SCT_LIST, value))
    for name, change, expected in [
            ("no list", held(list=b""), missing), ("a list of none", listed(sct_list()), missing), ("a list of two", listed(sct_list(sct(), sct())),
            missing),
            ("no octet string", listed(b""), malformed), ("a list that is cut", listed(der(OCTET_STRING, sct_list(sct())[2:-1])), malformed),
            ("a byte after the list", listed(der(OCTET_STRING, sct_list(sct())[2:] + b"\x00")), malformed),
            ("a list of no bytes", listed(der(OCTET_STRING)), malformed),
            ("an element after the list", listed(sct_list(sct()) + b"\x05\x00"), malformed), ("an SCT of no bytes", listed(sct_list(b"")),
            malformed),
            ("an SCT that is cut", listed(sct_list(sct()[:-1])), malformed), ("a byte after the SCT", listed(sct_list(sct() + b"\x00")), malformed),
            ("another version", listed(sct_list(b"\x01" + sct()[1:])), malformed), ("two that are malformed", listed(sct_list(b"", b"")), missing),
            ("another log", listed(sct_list(sct(log=bytes(32)))), "sct Certificate(Sct(Verification(KeyNotFound)))"),
            ("the id that the trusted root has for the log", listed(sct_list(sct(log=fixture.CERTIFICATE_LOG_ID))),
            "sct Certificate(Sct(Verification(KeyNotFound)))"),
            ("another time", listed(sct_list(sct(time=1702446655001))), refused), ("another signature", listed(sct_list(sct(signature=b"sig"))),
            refused),
            ("other extensions", listed(sct_list(sct(more=b"a"))), refused),
            ("other algorithms, which are not compared", listed(sct_list(sct(algorithm=b"\x00\x00"))), "verified 2 5")]:
        row("SCT: " + name, expected, change)
    stamp = {"time": 2 ** 64 - 1, "more": b"more", "signature": b"sig"}
    row("SCT: another one, signed", "verified 2 5", listed(sct_list(sct(**stamp))), parts(stamp=stamp))
    first = extension(SCT_LIST, sct_list(sct()))
    row("SCT: the list comes first", "verified 2 5", parts(leaf=leaf({"first": first, **leaf_extensions(list=b"")})))
    row("SCT: extensions of the same beginning are kept", "verified 2 5",
        held(others=extension(SCT_LIST + b"\x00", b"a") + extension(SCT_LIST[:-1], b"a")))
    written = der(SEQUENCE, der(OBJECT_IDENTIFIER, FULCIO["ref"]), der(1, b"\x00"), der(OCTET_STRING, b"a"))
    row("SCT: an extension is kept as it is written", "verified 2 5", held(others=written))
    made = fixture.Request()
    for name, content in [("the whole TBSCertificate", fixture.tbs(made.leaf)), ("no TBSCertificate", b"")]:
        row("SCT: accepted over %s" % name, refused, unaccepted(1), accepted("point", None, fixture.point(3), fixture.signed_by_log(key(1), content),
            b"sig-sct"))
    row("SCT: accepted under the SPKI and not its point", refused, unaccepted(1),
        accepted("point", None, key(3), fixture.signed_by_log(key(1), made.precertificate()), b"sig-sct"))


# policy: each kind of rule, all of several, any of several.

CLAIMS = {"trigger": "GitHubWorkflowTrigger", "sha": "GitHubWorkflowSHA", "name": "GitHubWorkflowName", "repository": "GitHubWorkflowRepository",
          "ref": "GitHubWorkflowRef"}
CLAIMED = held(others=b"".join(extension(FULCIO[name], b"the " + name.encode()) for name in CLAIMS))
OWN, STRANGE = {"identity": WORKFLOW, "issuer": ISSUER}, {"sha": "x"}


def check_failed(name, expected, actual):
    return 'ExtensionCheckFailed { extension: "%s", expected: "%s", actual: "%s" }' % (name, expected, actual)


def all_of(total, *errors):
    return "policy Policy(AllOf { total: %d, errors: PolicyErrors { items: [%s] } })" % (total, ", ".join(errors))


def policy_row(name, expected, policy, *changes):
    row("policy: " + name, expected, parts(policy=policy), *changes)


def policies():
    case = policy_row
    case("any of one that holds and one that does not", "verified 2 5", {"any": [OWN, STRANGE]})
    case("any, in the other order", "verified 2 5", {"any": [STRANGE, OWN]})
    case("all of one that holds and one that does not", all_of(2, "ExtensionNotFound"), {"all": [OWN, STRANGE]})
    case("any of none that holds", "policy Policy(AnyOf { total: 2 })", {"any": [STRANGE, {"ref": "x"}]})
    case("the errors in order", all_of(3, check_failed("OIDCIssuer", "x", ISSUER), "ExtensionNotFound"), {"all": [{"issuer": "x"}, OWN, STRANGE]})
    case("the issuer alone", "verified 2 5", {"all": [{"issuer": ISSUER}]})
    case("all seven kinds", "verified 2 5", {"all": [OWN, {"issuer": ISSUER}] + [{name: "the " + name} for name in CLAIMS]}, CLAIMED)
    for name, policy in CLAIMS.items():
        case("%s of another text" % name, all_of(1, check_failed(policy, "x", "the " + name)), {"all": [{name: "x"}]}, CLAIMED)
    case("a claim of which there is none", all_of(1, "ExtensionNotFound"), {"all": [{"ref": "the ref"}]})
    for name, identity, issuer, error in [("another identity", "https://other", ISSUER, check_failed("SubjectAltName", "https://other", WORKFLOW)),
                                          ("another issuer", WORKFLOW, "x", check_failed("OIDCIssuer", "x", ISSUER)),
                                          ("another identity and issuer", "https://other", "x", check_failed("OIDCIssuer", "x", ISSUER)),
                                          ("a part of the identity", WORKFLOW[:-1], ISSUER, check_failed("SubjectAltName", WORKFLOW[:-1], WORKFLOW)),
                                          ("no identity", "", ISSUER, check_failed("SubjectAltName", "", WORKFLOW))]:
        case(name, all_of(1, error), {"all": [{"identity": identity, "issuer": issuer}]})


def identities():
    case = policy_row

    def names(*elements):
        return held(names=extension(SUBJECT_ALTERNATIVE_NAME, der(SEQUENCE, *elements)))
    user = {"all": [{"identity": "user", "issuer": ISSUER}]}
    other = der(A0, der(OBJECT_IDENTIFIER, FULCIO["other-name"]), der(A0, der(0x0C, b"user")))
    for name, change in [("an email", names(der(0x81, b"user"))), ("the second of two names", names(der(URI, b"a"), der(0x81, b"user"))),
                         ("another name of Fulcio", names(other))]:
        case("the identity is %s" % name, "verified 2 5", user, change)
    for name, change, error in [
            ("a host name", names(der(0x82, b"user")), check_failed("SubjectAltName", "user", "")),
            ("in a list of others", names(der(URI, b"a"), der(0x81, b"b")), check_failed("SubjectAltName", "user", "a, b")),
            ("in malformed names", names(der(0x81, b"user"), b"\x30\x00"), "ExtensionNotFound"), ("in no names", held(names=b""),
            "ExtensionNotFound")]:
        case("the identity is %s" % name, all_of(1, error), user, change)
    case("an issuer that is not UTF-8", all_of(1, "ExtensionNotFound"), {"all": [{"issuer": "x"}]}, held(issued=extension(FULCIO["issuer"], b"\xff")))
    case("an issuer with quotation marks", all_of(1, 'ExtensionCheckFailed { extension: "OIDCIssuer", expected: "x", actual: "a\\"b" }'),
         {"all": [{"issuer": "x"}]},
         held(issued=extension(FULCIO["issuer"], b'a"b')))


# key, signature, subject: the leaf's key, the envelope, and the digest among its subjects.

def signatures():
    for name, spki, scheme in KEYS:
        row("key: %s" % name, "verified 2 5", parts(leaf=leaf(key=spki), scheme=scheme))
    row("key: RSA, accepted under another scheme", "signature Signature(VerificationFailed)", parts(leaf=leaf(key=fixture.wide_key())))
    unknown = der(SEQUENCE, der(SEQUENCE, der(OBJECT_IDENTIFIER, oid("1.3.101.113"))), der(BIT_STRING, b"\x00", b"\x02"))
    bare = der(SEQUENCE, der(SEQUENCE, der(OBJECT_IDENTIFIER, oid("1.2.840.10045.2.1"))), der(BIT_STRING, b"\x00", b"\x02"))
    for name, spki in [("an unknown algorithm", unknown), ("no curve", bare)]:
        row("key: of %s" % name, "key Signature(AlgoUnsupported)", parts(leaf=leaf(key=spki)))
    made = fixture.Request()
    for name, words in [("the payload itself", ("message", fixture.SCHEME, key(2), made.payload, b"sig-dsse")),
                        ("the encoding, as a digest", ("prehash", fixture.SCHEME, key(2), fixture.pae(made.payload), b"sig-dsse")),
                        ("the encoding, under the log's key", ("message", fixture.SCHEME, key(4), fixture.pae(made.payload), b"sig-dsse")),
                        ("the encoding, under another scheme", ("message", "ED25519", key(2), fixture.pae(made.payload), b"sig-dsse"))]:
        row("signature: accepted over %s" % name, "signature Signature(VerificationFailed)", unaccepted(2), accepted(*words))
    row("signature: another payload type", "signature Signature(VerificationFailed)", bundle("dsseEnvelope.payloadType", "text/plain"))
    row("signature: another statement", "signature Signature(VerificationFailed)",
        bundle("dsseEnvelope.payload", of_bytes(lambda payload: payload + b" ")))
    row("signature: of no bytes, accepted", "verified 2 5", parts(signature=b""))
    row("signature: a key id, which is in the log's hash", "verified 2 5", parts(keyid="key"))
    row("signature: a key id that the log did not see", "body Signature(Transparency)", bundle("dsseEnvelope.signatures.0.keyid", "key"))


def about(*subjects, **others):
    return parts(payload=statement(*subjects, **others))


def statement(*subjects, **others):
    return compact({"_type": "https://in-toto.io/Statement/v1", "subject": list(subjects), "predicateType": "p", **others}).encode()


def subjects():
    wide, other = "sha512:" + WIDE_DIGEST, "c" * 64
    mismatch = "subject Signature(SubjectDigestMismatch)"
    row("subject: the sha512 of the third", "verified 2 5", parts(digest=wide))
    row("subject: asked in upper case", "verified 2 5", parts(digest="sha256:" + DIGEST.upper()))
    row("subject: another sha512", mismatch, parts(digest="sha512:" + "a" * 128))
    own = subject(sha256=DIGEST)
    for name, digest, listed, expected in [
            ("the last of three", None, [subject(sha256=other), subject(sha512=WIDE_DIGEST), own], "verified 2 5"),
            ("in upper case in the statement", None, [subject(sha256=DIGEST.upper())], "verified 2 5"),
            ("the second digest of one subject", wide, [subject(sha256=other, sha512=WIDE_DIGEST)], "verified 2 5"),
            ("of a subject without a name", None, [{"digest": {"sha256": DIGEST}}], "verified 2 5"),
            ("under a name in upper case", None, [subject(SHA256=DIGEST, sha512=WIDE_DIGEST)], mismatch),
            ("under another algorithm's name", None, [subject(sha384=DIGEST, sha256=other)], mismatch),
            ("half of a sha512", None, [subject(sha512=DIGEST * 2)], mismatch), ("a sha256 in both halves", "sha512:" + DIGEST * 2, [own], mismatch)]:
        row("subject: " + name, expected, about(*listed), *([parts(digest=digest)] if digest else []))
    row("subject: with 31 others beside it", "verified 2 5", about(subject(sha256=DIGEST, **{"x%d" % number: "zz" for number in range(31)})))
    row("subject: a statement with a predicate and annotations", "verified 2 5", about({**own, "annotations": {"a": [1]}}, predicate=[{"b": None}]))


def manies():
    row("subject: the last of 1024", "verified 2 5", about(*[{"digest": {}}] * 1023, {"digest": {"sha256": DIGEST}}))


def envelopes():
    def payload(content):
        return bundle("dsseEnvelope.payload", base64_of(content))
    many = {"x%d" % number: "zz" for number in range(32)}
    good = subject(sha256=DIGEST)
    for name, content, error in [
            ("no JSON", b"{", "DssePayloadDecode"), ("a float in the predicate", statement(good, predicate=0.5), "DssePayloadDecode"),
            ("no statement", b"{}", "DssePayloadDecode"), ("no subject's digest", statement({"name": "a"}), "DssePayloadDecode"),
            ("a number for a digest", statement({"digest": {"sha256": 1}}), "DssePayloadDecode"), ("no UTF-8", statement(good)[:-2] + b'\xff"}',
            "DssePayloadDecode"),
            ("no bytes", b"", "DssePayloadDecode"), ("1025 subjects", statement(*[{"digest": {}}] * 1025), "DsseTooManySubjects(1025)"),
            ("1025 subjects, of which one is malformed", statement(subject(sha256="zz"), *[{"digest": {}}] * 1024), "DsseTooManySubjects(1025)"),
            ("33 digests of a subject", statement(good, subject(sha256=DIGEST, **many)), "DsseTooManySubjectDigests(33)"),
            ("33 digests, of which one is malformed", statement(subject(sha256="zz", **many)), "DsseTooManySubjectDigests(33)"),
            ("a malformed digest before 33 of another subject", statement(subject(sha256="zz"), subject(sha256=DIGEST, **many)),
            "DsseSubjectDigestMalformed(Sha256)"),
            ("a sha256 of 63 digits", statement(subject(sha256=DIGEST[1:])), "DsseSubjectDigestMalformed(Sha256)"),
            ("a sha512 of other letters", statement(good, subject(sha512="z" * 128)), "DsseSubjectDigestMalformed(Sha512)"),
            ("both malformed", statement(subject(sha512="zz", sha256="zz")), "DsseSubjectDigestMalformed(Sha256)"),
            ("no subject", statement(), "DsseNoRecognizedSubjectDigest"), ("digests of other names", statement(subject(SHA256=DIGEST, sha1="zz")),
            "DsseNoRecognizedSubjectDigest")]:
        row("envelope: " + name, "envelope Bundle(%s)" % error, payload(content))
    row("envelope: two signatures", "envelope Bundle(DsseInvalidSignatureCount(2))", bundle("dsseEnvelope.signatures", lambda listed: listed * 2))
    row("envelope: two signatures and no statement", "envelope Bundle(DsseInvalidSignatureCount(2))", bundle("dsseEnvelope.signatures",
        lambda listed: listed * 2), payload(b""))
    row("envelope: a payload of no members", "envelope Bundle(DssePayloadDecode)", bundle("dsseEnvelope.payload", ABSENT))


# body: each part that is compared, wrong once; the log has the changed body, and the log signed for it.

def bodies():
    def changed(path, value):
        tree = edited(json.loads(fixture.Request().body), ".".join(map(str, path)), value)
        return parts(body=compact(tree).encode())
    made = fixture.Request()
    first = ("spec", "signatures", 0)
    flipped = lambda digits: ("1" if digits[0] == "0" else "0") + digits[1:]
    for name, path, value in [
            ("the kind", ("kind",), "hashedrekord"), ("the version", ("apiVersion",), "0.0.2"), ("the envelope's algorithm", ("spec", "envelopeHash",
            "algorithm"), "sha512"),
            ("the envelope's hash", ("spec", "envelopeHash", "value"), flipped), ("the payload's algorithm", ("spec", "payloadHash", "algorithm"),
            "SHA256"),
            ("the payload's hash", ("spec", "payloadHash", "value"), flipped), ("the signature", first + ("signature",), base64_of(b"sig-other")),
            ("the certificate", first + ("verifier",), base64_of(fixture.pem(fixture.certificate(fixture.anchor())).encode())),
            ("the certificate in DER", first + ("verifier",), base64_of(made.leaf_der)), ("the certificate, unencoded", first + ("verifier",),
            fixture.pem(made.leaf_der)),
            ("the certificate without its last newline", first + ("verifier",), base64_of(fixture.pem(made.leaf_der).encode()[:-1])),
            ("the signature, without padding", first + ("signature",), lambda text: text.rstrip("=")), ("no signatures", ("spec", "signatures"), []),
            ("no kind", ("kind",), ABSENT), ("no spec", ("spec",), ABSENT),
            ("no hash of the envelope", ("spec", "envelopeHash"), ABSENT), 
            ("no certificate", first + ("verifier",), ABSENT), ("a hash with a byte more", ("spec",
            "payloadHash", "value"), lambda text: text + "00"),
            ("another signature first", ("spec", "signatures"), lambda listed: [{"signature": "", "verifier": ""}] + listed)]:
        row("body: another part: " + name, "body Signature(Transparency)", changed(path, value))
    for name, path, value in [("hashes in upper case", ("spec", "envelopeHash", "value"), str.upper), ("another signature after it", ("spec",
                              "signatures"), lambda listed: listed + [{}]),
                              ("other members", ("other",), [1])]:
        row("body: " + name, "verified 2 5", changed(path, value))
    text = made.body.decode()
    for name, other in [("no JSON", text[:-1]), ("a float", text[:-1] + ',"other":0.5}'), ("a list", "[%s]" % text), ("nothing", "")]:
        row("body: " + name, "body Signature(Transparency)", parts(body=other.encode()))
    row("body: with blanks", "verified 2 5", parts(body=json.dumps(json.loads(text), indent=1).encode()))
    row("body: a kind that is doubled, the last fits", "verified 2 5", parts(body=('{"kind":1,' + text[1:]).encode()))
    row("body: of another envelope", "body Signature(Transparency)", parts(body=fixture.body_of(b"{}", b"sig-dsse", made.leaf_der)))
    row("body: about the fixture, of another log entry", "promise Promise",
        bundle(ENTRY + ".canonicalizedBody", of_bytes(lambda content: content + b" ")))


# proof to inclusion: the log's proof and checkpoint.

LONG, SHORT = base64_of(bytes(33)), base64_of(bytes(31))


def proofs():
    bad_root, bad_hash, bad_size = bundle(PROOF + ".rootHash", LONG), bundle(PROOF + ".hashes.1", SHORT), bundle(PROOF + ".treeSize", "-5")
    row("proof: root hash, hash and size", "proof RootLength", bad_root, bad_hash, bad_size)
    row("proof: hash and size", "proof HashLength(1)", bad_hash, bad_size)
    row("proof: a negative size", "proof TreeSize", bad_size)


def more_proofs():
    for name, path, value, error in [
            ("no root hash", PROOF + ".rootHash", ABSENT, "RootLength"), ("a root hash of 33 bytes", PROOF + ".rootHash", LONG, "RootLength"),
            ("a first hash of 31 bytes", PROOF + ".hashes.0", SHORT, "HashLength(0)"),
            ("a last hash of no bytes", PROOF + ".hashes.2", "", "HashLength(2)"),
            ("a hash too many, of 33 bytes", PROOF + ".hashes", lambda hashes: hashes + [LONG], "HashLength(3)"),
            ("a size of -1", PROOF + ".treeSize", "-1", "TreeSize"), ("the least size", PROOF + ".treeSize", str(-2 ** 63), "TreeSize")]:
        row("proof: " + name, "proof " + error, bundle(path, value))
    row("proof: two hashes", "proof HashLength(0)", bundle(PROOF + ".hashes.0", SHORT), bundle(PROOF + ".hashes.1", SHORT))


def checkpoints():
    text = fixture.checkpoint(fixture.Request().root)
    lines = text.split("\n")
    own = "\u2014 fixture.log %s\n"
    signed = "\n".join(lines[:4]) + "\n" + own
    for name, other, fault in [
            ("no empty line", text.replace("\n\n", "\n"), "Format"), ("nothing", "", "Format"), ("a hyphen for the dash", text.replace("\u2014",
            "-"), "NoDash"),
            ("two parts", text.replace("\u2014 fixture.log ", "\u2014 "), "SignatureFormat"),
            ("two lines joined", signed % "AAAABHg=" + own % "AAAABHg=", "SignatureFormat"),
            ("a signature that is not base64", signed % "AAAABHg", "SignatureBase64"), ("three bytes", signed % "AAAA", "SignatureLength"),
            ("two lines of note", text.replace(lines[2] + "\n", ""), "NoteFormat"), ("a blank origin", text.replace("fixture.log\n5", " \n5"),
            "EmptyOrigin"),
            ("a size in letters", text.replace("\n5\n", "\nfive\n"), "Size"), ("a size of 65 bits", text.replace("\n5\n",
            "\n18446744073709551616\n"), "Size"),
            ("a hash that is not base64", text.replace(lines[2], lines[2][:-1]), "HashBase64"),
            ("a hash of 31 bytes", text.replace(lines[2], base64_of(bytes(31))), "HashLength")]:
        row("checkpoint: " + name, "checkpoint ParseCheckpointError(%s)" % fault, bundle(CHECKPOINT, other))
    row("checkpoint: no signature", "note-key CheckpointSignatureVerificationError", bundle(CHECKPOINT, text.split("\n\n")[0] + "\n\n"))


def checkpoint_forms():
    """Other texts of the same note and signature: the note is signed as it is written anew, and one signature that is accepted is enough."""
    own = "\u2014 fixture.log AAAABHg=\n"
    for name, change in [("with a second signature after it", lambda old: old + "\n" + own),
                         ("with another signature before it", lambda old: old.replace("\n\n", "\n\n" + own + "\n")),
                         ("with a plus sign", lambda old: old.replace("\n5\n", "\n+05\n"))]:
        row("checkpoint: " + name, "verified 2 5", bundle(CHECKPOINT, change))


def more_checkpoint_forms():
    for name, change in [("in quotation marks", lambda old: '"%s"' % old), ("with empty lines at its end", lambda old: old + "\n\n\n"),
                         ("of another signer's name", lambda old: old.replace("\u2014 fixture.log", "\u2014 x"))]:
        row("checkpoint: " + name, "verified 2 5", bundle(CHECKPOINT, change))


def notes():
    made = fixture.Request()
    failed = "note-key CheckpointSignatureVerificationError"
    text = note(made.root)
    row("note: with more lines, signed", "verified 2 5", parts(noted=text + "time: 1\nother\n"))
    row("note: of another origin, signed", "verified 2 5", parts(noted=text.replace("fixture.log", "other.log")))
    row("note: of another origin, not signed", failed, bundle(CHECKPOINT, lambda old: old.replace("fixture.log\n", "other.log\n")))
    row("note: with another line, not signed", failed, bundle(CHECKPOINT, lambda old: old.replace("\n\n", "\nother\n\n")))
    row("note: accepted without its last newline", failed, unaccepted(4), accepted("message", fixture.SCHEME, key(4),
        text.encode()[:-1], b"sig-note"))
    row("note: accepted with the hint of the signature", failed, unaccepted(4), accepted("message", fixture.SCHEME, key(4), text.encode(),
        b"\x00\x00\x00\x04sig-note"))
    row("note: accepted under another log's key", failed, unaccepted(4), accepted("message", fixture.SCHEME, key(3), text.encode(), b"sig-note"))
    row("note: accepted under another scheme", failed, unaccepted(4), accepted("message", "ED25519", key(4), text.encode(), b"sig-note"))
    shorter, longer = "UnexpectedEmptyProof", "NewTreeSmaller { new: 5, old: 6 }"
    for name, noted, error in [("of a shorter log", note(made.root, 4), shorter), ("of a longer log", note(made.root, 6), longer),
                               ("of the empty log", note(fixture.sha256(b""), 0), shorter), ("of another root", note(bytes(32)), "MismatchedRoot..."),
                               ("of the longest log", note(made.root, 2 ** 64 - 1), "NewTreeSmaller { new: 5, old: 18446744073709551615 }")]:
        wanted = "note-match ConsistencyProofError(%s" % error
        row("note: " + name, wanted if error.endswith("...") else wanted + ")", parts(noted=noted))
    row("note: the proof is of a longer log", "note-match ConsistencyProofError(UnexpectedEmptyProof)", bundle(PROOF + ".treeSize", "6"))
    row("note: the proof has another root", "note-match ConsistencyProofError(MismatchedRoot...", bundle(PROOF + ".rootHash", base64_of(bytes(32))))
    row("note: the proof has no size", "note-match ConsistencyProofError(NewTreeSmaller { new: 0, old: 5 })", bundle(PROOF + ".treeSize", ABSENT))


def inclusions():
    out, mismatch = "InclusionProofError(IndexGtTreeSize)", "InclusionProofError(MismatchedRoot..."
    made = fixture.Request()
    hashes = [base64_of(each) for each in made.hashes]
    for name, path, value, error in [
            ("an index of -1", PROOF + ".logIndex", "-1", out), ("the least index", PROOF + ".logIndex", str(-2 ** 63), out),
            ("the greatest index", PROOF + ".logIndex", 2 ** 63 - 1, out),
            ("no index, which is 0", PROOF + ".logIndex", ABSENT, mismatch), ("the neighbour's index", PROOF + ".logIndex", "3", mismatch),
            ("the last index", PROOF + ".logIndex", "4", "InclusionProofError(WrongProofSize { got: 3, want: 1 })"),
            ("no hashes", PROOF + ".hashes", ABSENT, "InclusionProofError(WrongProofSize { got: 0, want: 3 })"),
            ("a hash too few", PROOF + ".hashes", hashes[:-1], "InclusionProofError(WrongProofSize { got: 2, want: 3 })"),
            ("a hash too many", PROOF + ".hashes", hashes + hashes[:1], "InclusionProofError(WrongProofSize { got: 4, want: 3 })"),
            ("the hashes in another order", PROOF + ".hashes", hashes[::-1], mismatch), ("another hash", PROOF + ".hashes.1", base64_of(bytes(32)),
            mismatch)]:
        row("inclusion: " + name, "inclusion " + error, bundle(path, value))
    row("inclusion: an empty log, signed", "inclusion " + out, parts(noted=note(made.root, 0)), bundle(PROOF + ".treeSize", "0"))
    row("inclusion: a longer log under the same root, signed", "verified 2 6", parts(noted=note(made.root, 6)), bundle(PROOF + ".treeSize", "6"))


# What the table in the repository has; and what else the whole table has, where other tables have the single reader's cases.
GROUPS = [issuances, policies, subjects, bodies, proofs, checkpoint_forms]
MORE = [materials, leaves, profiles, more_issuances, scts, identities, signatures, manies, envelopes, more_proofs, checkpoints,
        more_checkpoint_forms, notes, inclusions]
