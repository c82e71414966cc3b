#!/usr/bin/env python3
"""Which table shows each kind of result of the public calls that can fail.

    tools/results.py          ends with `N kinds, M names of explanations, 0 missing`, and with status 1 where a kind or a name is in no table
    tools/results.py --list   says for each kind and each name which program of cases shows it, and in how many lines

A proof lets a body give up: any contract is met by a body that returns out of memory for only one fault. So a line of a stored run shows each
kind of result of each call. A kind is a variant of the call's error type with the variants of what it keeps; numbers, texts and fields do not
count. The types are read from the sources, so that a new variant is missing here until a table shows it. `OutOfMemory` is not a kind: the runs with
an allocation refused are about it.
"""
import collections
import glob
import itertools
import os
import re
import sys

sys.dont_write_bytecode = True
import explain_names

TOP = os.path.join(os.path.dirname(os.path.abspath(__file__)), "..", "crates")

# The variants that a call has, where it does not have all of its type's.

def within(name, kinds):
    """These kinds as what a variant of this name keeps."""
    return ["%s(%s)" % (name, kind) for kind in kinds]


LEAF = ["VersionUnsupported", "Malformed", "NotLeaf(IsCA)", "Extension(Missing(KeyUsage))", "Extension(BitUnset(KeyUsageDigitalSignature))",
        "Extension(Missing(ExtendedKeyUsage))", "Extension(BitUnset(ExtendedKeyUsageDigitalSignature))"]
AUTHORITY = ["VersionUnsupported", "Malformed", "Extension(Missing(BasicConstraints))", "Extension(NotCritical(BasicConstraints))",
             "Extension(Missing(KeyUsage))", "NotCA(Invalid@)", "NotCA(NotCA)"]
SCT = ["LeafSCTMissing", "LeafSCTMalformed"]
KEYRING = ["KeyNotFound", "VerificationFailed"]
FAULTS = ["Format", "NoDash", "SignatureFormat", "SignatureBase64", "SignatureLength", "NoteFormat", "EmptyOrigin", "Size", "HashBase64", "HashLength"]
OF_SIGNATURE = ["NoDash", "SignatureFormat", "SignatureBase64", "SignatureLength"]
OF_NOTE = ["NoteFormat", "EmptyOrigin", "Size", "HashBase64", "HashLength"]
# A checkpoint beside a proof, an audit path, and a consistency proof.
MATCH = within("ConsistencyProofError", ["NewTreeSmaller@", "UnexpectedEmptyProof", "MismatchedRoot@"])
INCLUSION = ["IndexGtTreeSize", "WrongProofSize@", "MismatchedRoot@"]
PATH = within("InclusionProofError", INCLUSION)
CONSISTENCY = ["NewTreeSmaller@", "UnexpectedNonEmptyProof", "WrongEmptyTreeHash", "UnexpectedEmptyProof", "WrongProofSize@", "MismatchedRoot@"]
GROWTH = within("ConsistencyProofError", CONSISTENCY)
HEXADECIMAL = ["HexDecodeError", "UnexpectedError(RootLength)"]
USAGES = ["CertificateWithoutDigitalSignatureKeyUsage", "CertificateWithoutCodeSigningKeyUsage"]
OUTSIDE = ["CertificateIssuedAfterSignaturesSubmittedToRekor@", "CertificateExpiredBeforeSignaturesSubmittedToRekor@"]
NO_NAME = ["CertificateWithoutSubjectAlternativeName"]
KEY = ["KeyParsingError", "PublicKeyUnsupportedAlgorithmError"]
ACCEPTED = ["Base64DecodeError", "PublicKeyVerificationError"]
# A bundle's own checks; what follows them for an artifact; and a log's word for an entry.
BUNDLE = (["VerificationMaterialMissing", "VerificationMaterialContentUnsupported", "TooManyCertificates(_)", "CertificateMalformed(_)",
           "CertificatesMissing"]
          + within("NoLeaf", LEAF) + ["RootInChain", "SignatureMissing", "DsseInvalidSignatureCount(_)", "DssePayloadDecode", "DsseTooManySubjects(_)",
          "DsseTooManySubjectDigests(_)", "DsseSubjectDigestMalformed(Sha256)", "DsseSubjectDigestMalformed(Sha512)", "DsseNoRecognizedSubjectDigest",
          "TlogEntry(_)"] + within("BundleProfile", ["Unknown(_)", "Bundle01Profile(InclusionPromiseMissing)",
          "Bundle02Profile(InclusionProofMissing)", "Bundle02Profile(CheckpointMissing)"]))
SIGNED = ["AlgoUnsupported", "VerificationFailed", "Transparency", "SubjectDigestMismatch", "DigestAlgorithmUnsupported"]
CERTIFIED = (["Malformed", "Expired", "VerificationFailed"] + within("Sct", within("Parsing", SCT) + within("Verification", KEYRING)))
ARTIFACT = within("Bundle", BUNDLE) + within("Certificate", CERTIFIED) + ["Policy(AllOf@)", "Policy(AnyOf@)"] + within("Signature", SIGNED)
LOGGED = (["LogIdMissing", "RekorPublicKeyNotFoundError(_)"] + KEY + ["PromiseMissing", "PromiseInteger", "Promise", "ProofMissing", "RootLength",
          "HashLength(_)", "TreeSize", "CheckpointMissing"] + within("ParseCheckpointError", FAULTS) + ["CheckpointSignatureVerificationError"]
          + MATCH + PATH)

PROMISED = within("UnexpectedError", ["BundleUnreadable", "PromiseInteger"]) + ["RekorPublicKeyNotFoundError(_)"] + ACCEPTED
# What a bundle of `cosign` attests.
ATTESTED = (within("UnexpectedError", ["BundleUnreadable", "ContentNotDsse", "PayloadType", "Statement", "StatementType", "PredicateType", "NoSubjects",
                                       "FirstSubjectWithoutSha256", "SubjectDigest", "SignatureCount(_)", "MaterialMissing", "MaterialNotCertificate",
                                       "EntryCount(_)", "KeysMissing", "LogIdMissing", "PromiseMissing", "PromiseInteger", "Promise", "ProofMissing",
                                       "RootLength", "HashLength(_)", "TreeSize", "CheckpointMissing", "Body"])
            + ["RekorPublicKeyNotFoundError(_)"] + within("ParseCheckpointError", FAULTS) + ["CheckpointSignatureVerificationError"] + MATCH + PATH)

ALL = []  # of the type
COMMANDS = ("log", "verify", "consistency", "audit")

# The public calls: the program and its word for the call, the crate and the name of the error type, and the variants that the call has, all where
# there is none. A word of a program may stand for several calls.
CALLS = [
    ("read_element", "der read_element", "sig_base DerError", ["Truncated", "LongTag", "Length"]),
    ("children", "der children", "sig_base DerError", ["Truncated", "LongTag", "Length"]),
    ("read_all", "der read_all", "sig_base DerError", ["Truncated", "LongTag", "Length", "Trailing", "WrongTag"]),
    ("time_of", "der time_of", "sig_base DerError", ["WrongTag", "Value"]),
    ("SigningScheme::try_from", "base scheme", "sig_base UnknownScheme", ALL),
    ("verify_inclusion", "base verify_inclusion", "sig_base MerkleProofError", INCLUSION),
    ("verify_consistency", "base verify_consistency", "sig_base MerkleProofError", CONSISTENCY),
    ("Signature::decode_bytes", "base decode_bytes", "sig_base SigstoreError", ["Base64DecodeError"]),
    ("CosignVerificationKey::try_from_der", "base try_from_der", "sig_base SigstoreError", KEY),
    ("CosignVerificationKey::try_from_spki", "base try_from_spki", "sig_base SigstoreError", KEY),
    ("CosignVerificationKey::verify_signature", "base verify_signature", "sig_base SigstoreError", ACCEPTED),
    ("CosignVerificationKey::verify_prehash", "base verify_prehash", "sig_base SigstoreError", ACCEPTED),
    ("Document::read", "json read", "sig_json DocumentError", ALL),
    ("BorrowedDocument::read", "json take", "sig_json DocumentError", ALL),
    ("Document::read_members", "json read_members", "sig_json DocumentError", ALL),
    ("Document::read_members_and_list", "json members_and_list", "sig_json JsonError", ALL),
    ("read_record", "json record", "sig_json JsonError", ALL),
    ("canonical", "json canonical", "sig_json_text CanonicalError", ALL),
    ("required_text", "json required_text", "sig_json MemberError", ALL),
    ("required_bytes", "json required_bytes", "sig_json MemberError", ALL),
    ("required_hash", "json required_hash", "sig_json MemberError", ALL),
    ("required_i64, required_u64, read_i64, read_u64", "json integers", "sig_json MemberError", ALL),
    ("read_text", "json read_text", "sig_json MemberError", ALL),
    ("read_bytes", "json read_bytes", "sig_json MemberError", ALL),
    ("required", "json required", "sig_json MemberError", ALL),
    ("optional", "json optional", "sig_json MemberError", ALL),
    ("required_list", "json required_list", "sig_json MemberError", ALL),
    ("optional_list", "json optional_list", "sig_json MemberError", ALL),
    ("Certificate::try_from_der", "x509 certificate", "sig_certificate X509ReadError", ALL),
    ("is_leaf", "x509 is_leaf", "sig_certificate CertificateValidationError", LEAF),
    ("is_ca", "x509 is_ca", "sig_certificate CertificateValidationError", AUTHORITY),
    ("is_root_ca", "x509 is_root_ca", "sig_certificate CertificateValidationError", AUTHORITY + ["NotCA(NotRootCA)"]),
    ("verify_key_usages", "x509 verify_key_usages", "sig_base SigstoreError", USAGES),
    ("verify_has_san", "x509 verify_has_san", "sig_base SigstoreError", NO_NAME),
    ("verify_validity", "x509 verify_validity", "sig_base SigstoreError", ["CertificateValidityError(_)"]),
    ("verify_expiration", "x509 verify_expiration", "sig_base SigstoreError", OUTSIDE),
    ("is_trusted", "x509 is_trusted", "sig_base SigstoreError", USAGES + NO_NAME + ["CertificateValidityError(_)"] + OUTSIDE),
    ("CertificatePool::from_certificates", "x509 from_certificates", "sig_base PoolError", ["Anchor(_)", "TooMany(_)"]),
    ("CertificatePool::verify_der_cert", "x509 verify_der_cert", "sig_base PoolError", ["Malformed", "VerificationFailed"]),
    ("CertificatePool::verify_cert_with_time", "x509 asked", "sig_base PoolError", ["Malformed", "VerificationFailed"]),
    ("CertificatePool::verify_cert_with_chain", "x509 graph", "sig_base PoolError", ["Malformed", "VerificationFailed"]),
    ("Key::new", "x509 key", "sig_timestamp KeyringError", ["KeyMalformed", "AlgoUnsupported"]),
    ("Keyring::verify", "x509 keyring", "sig_timestamp KeyringError", KEYRING),
    ("CertificateEmbeddedSCT::new", "x509 embedded_sct_of_chain", "sig_timestamp SCTError", within("Parsing", ["IssuerMissing"] + SCT)),
    ("CertificateEmbeddedSCT::new_with_verified_path, new_with_issuer_key_hash", "x509 embedded_sct", "sig_timestamp SCTError", within("Parsing", SCT)),
    ("verify_sct", "x509 verify_sct", "sig_timestamp SCTError", ["Serialization"] + within("Verification", KEYRING)),
    ("verify_single, LeafPolicy::verify", "x509 policy", "sig_policy PolicyError", ["ExtensionNotFound", "ExtensionCheckFailed@"]),
    ("Identity::verify", "x509 identity", "sig_policy PolicyError", ["ExtensionNotFound", "ExtensionCheckFailed@"]),
    ("AllOf::verify, RequestPolicy::verify", "x509 all", "sig_policy PolicyError", ["AllOf@"]),
    ("AnyOf::verify, RequestPolicy::verify", "x509 any", "sig_policy PolicyError", ["AnyOf@"]),
    ("SignedCheckpoint::decode", "rekor checkpoint", "sig_rekor ParseCheckpointError", ALL),
    ("SignedNote::decode", "rekor borrowed", "sig_rekor ParseCheckpointError", ALL),
    ("Note::read", "rekor borrowed_text", "sig_rekor ParseCheckpointError", within("DecodeError", OF_NOTE)),
    ("Checkpoint::unmarshal", "rekor note", "sig_rekor ParseCheckpointError", within("DecodeError", OF_NOTE)),
    ("CheckpointSignature::decode", "rekor signature", "sig_rekor ParseCheckpointError", within("DecodeError", OF_SIGNATURE)),
    ("SignedCheckpoint::verify_signature", "rekor signed", "sig_base SigstoreError", ["CheckpointSignatureVerificationError"]),
    ("SignedNote::verify_signature", "rekor borrowed_signed", "sig_base SigstoreError", ["CheckpointSignatureVerificationError"]),
    ("SignedCheckpoint::is_valid_for_proof", "rekor tree", "sig_base SigstoreError", MATCH),
    ("SignedNote::is_valid_for_proof", "rekor borrowed_tree", "sig_base SigstoreError", MATCH),
    ("decode_hash", "rekor hash", "sig_base SigstoreError", ["HexDecodeError", "UnexpectedError(HashLength(_))"]),
    ("decode_hashes", "rekor hashes", "sig_base SigstoreError", ["HexDecodeError", "UnexpectedError(HashLength(_))"]),
    ("InclusionProof::verify", "rekor proof", "sig_base SigstoreError",
     ["UnexpectedError(CheckpointMissing)", "CheckpointSignatureVerificationError"] + MATCH + PATH),
    ("InclusionProof::verify_audit_path", "rekor audit_path", "sig_base SigstoreError", PATH),
    ("InclusionProof::try_from_rekor", "rekor from_rekor", "sig_base SigstoreError",
     HEXADECIMAL + ["UnexpectedError(HashLength(_))"] + within("ParseCheckpointError", FAULTS)),
    ("ConsistencyProof::try_from_rekor", "rekor consistency_from_rekor", "sig_base SigstoreError", HEXADECIMAL + ["UnexpectedError(HashLength(_))"]),
    ("ConsistencyProof::verify", "rekor consistency", "sig_base SigstoreError", GROWTH),
    ("LogInfo::try_from_rekor", "rekor log_info", "sig_base SigstoreError", HEXADECIMAL),
    ("LogInfo::verify_consistency", "rekor grown", "sig_base SigstoreError", ["CheckpointSignatureVerificationError"] + GROWTH),
    ("LogEntry::from_json_text", "rekor entry", "sig_base SigstoreError", ["SerdeJsonError"]),
    ("LogEntry::verify_inclusion", "rekor entry_inclusion", "sig_base SigstoreError",
     within("UnexpectedError", ["ProofMissing", "ProofConversion", "CanonicalBody", "CheckpointMissing"]) + ["CheckpointSignatureVerificationError"]
     + MATCH + PATH),
    ("PublicKey::decode", "rekor public_key", "sig_base SigstoreError", ["Base64DecodeError", "Utf8Error"]),
    ("audit", "audit audit", "sig_audit AuditError",
     ["Empty", "NoteKey(_)", "Origin(_)", "Head(_)"] + ["Consistency(_,%s)" % kind for kind in CONSISTENCY]
     + ["Inclusion(_,%s)" % kind for kind in INCLUSION]),
    ("read_manifest", "gate manifest", "sig_manifest ManifestError", ["NotJson", "Float", "Member", "UnknownRoot(_)", "UnknownPolicy(_)"]),
    ("Witness::add_origin", "witness run", "sig_witness WitnessError", ["OriginText", "OriginKnown"]),
    # A kept head without leaves has the root of none.
    ("Witness::update", "witness run", "sig_witness WitnessError", ["UnknownOrigin", "NoteKey", "OldSize(_)", "Full"]
     + within("Consistency", [kind for kind in CONSISTENCY if kind != "WrongEmptyTreeHash"])),
    ("Witness::decode", "witness state", "sig_witness StateError", ALL),
    ("InTotoStatementV1::from_json", "dsse statement", "sig_base SigstoreError", ["UnexpectedError(Statement)"]),
    ("InTotoStatementV1::validate_cosign_v1", "dsse cosign", "sig_base SigstoreError",
     within("UnexpectedError", ["StatementType", "PredicateType", "NoSubjects", "FirstSubjectWithoutSha256"])),
    ("InTotoStatementV1::subject_sha256_digest", "dsse first_sha256", "sig_base SigstoreError", ["UnexpectedError(FirstSubjectWithoutSha256)"]),
    ("recognized_digests", "dsse recognized_digests", "sig_dsse SubjectFault", ALL),
    ("payload_digests", "dsse payload_digests", "sig_dsse PayloadFault", ALL),
    ("read_bundle", "bundle read_bundle", "sig_json JsonError", ALL),
    ("bundle_fault", "bundle bundle_fault", "sig_table DocumentFault", ["NotJson", "Float"]),
    # No member of a bundle or of a trusted root is required.
    ("bundle_fault", "bundle bundle_fault", "sig_table Cause", ["OtherKind", "BeyondRange", "NotAlone"]),
    ("root_fault", "bundle root_fault", "sig_table DocumentFault", ["NotJson", "Float"]),
    ("root_fault", "bundle root_fault", "sig_table Cause", ["OtherKind"]),
    ("%s_request_fault, %s_request_fault, %s_request_fault, %s_request_fault" % COMMANDS, "request spaces_fault", "sig_request_fault RequestFault",
     ["TooLong"]),
    *(row for name in COMMANDS for row in (
        (name + "_request_fault", "request %s_request_fault" % name, "sig_table DocumentFault", ["NotJson", "Float"]),
        (name + "_request_fault", "request %s_request_fault" % name, "sig_table Cause", ALL))),
    ("CheckedBundle::try_from_bundle", "bundle try_from_bundle", "sig_checked_bundle BundleErrorKind", BUNDLE),
    ("ProofFields::to_proof", "bundle to_proof", "sig_bundle ProofFieldsError", ALL),
    ("promise_text", "bundle promise_text", "sig_json_text CanonicalError", ALL),
    ("TrustRoot::fulcio_certs", "verify fulcio_certs", "sig_base SigstoreError", ["TufMetadataError(Fulcio)"]),
    ("TrustRoot::ctfe_keys", "verify ctfe_keys", "sig_base SigstoreError", ["TufMetadataError(Ctfe)"]),
    ("from_trusted_root_json_unchecked", "verify rekor_keys", "sig_base SigstoreError", ["SerdeJsonError"]),
    ("SigstoreTrustRoot::from_client_trust_config", "client client_config", "sig_base SigstoreError", ["SigstorePKIFileMalformedError"]),
    ("IdentityToken::try_from_text", "client token", "sig_base SigstoreError", ["IdentityTokenError"]),
    ("read_signing", "cosign signing", "sig_base SigstoreError", ["UnexpectedError(LayerUnreadable)"]),
    ("Bundle::new_verified", "cosign promise", "sig_base SigstoreError", PROMISED),
    ("SignedArtifactBundle::new_verified", "cosign artifact", "sig_base SigstoreError", PROMISED),
    ("CertificateSubject::from_certificate", "cosign subject", "sig_base SigstoreError",
     ["CertificateParsingError", "CertificateWithIncompleteSubjectAlternativeName"]),
    ("CertificateSignature::from_der_certificate", "cosign signer", "sig_base SigstoreError",
     ["X509Error", "CertificatePoolError(Malformed)", "CertificatePoolError(VerificationFailed)", "CertificateWithoutDigitalSignatureKeyUsage",
      "CertificateWithoutSubjectAlternativeName", "CertificateValidityError(_)", "CertificateExpiredBeforeSignaturesSubmittedToRekor",
      "CertificateIssuedAfterSignaturesSubmittedToRekor", "CertificateWithIncompleteSubjectAlternativeName"]),
    ("SignatureLayer::new", "cosign layer", "sig_base SigstoreError",
     ["SigstoreMediaTypeNotFoundError", "SigstoreLayerDigestMismatchError", "UnexpectedError(LayerUnreadable)", "UnexpectedError(ImageDigest)",
      "SigstoreAnnotationNotFoundError"] + PROMISED),
    ("build_signature_layers", "cosign build", "sig_base SigstoreError", ["SigstoreNoVerifiedLayer"]),
    ("SignatureLayer::from_sigstore_bundle", "cosign bundle", "sig_base SigstoreError", ATTESTED),
    ("verify_constraints", "constraint verify", "sig_constraint SigstoreVerifyConstraintsError", ALL),
    ("apply_constraints", "constraint apply", "sig_constraint SigstoreApplicationConstraintsError", ALL),
    ("PublicKeyVerifier::try_from_der", "constraint key", "sig_base SigstoreError", KEY),
    ("CertificateVerifier::from_der", "constraint certificate", "sig_base SigstoreError", ["X509Error"] + USAGES + NO_NAME
     + ["CertificateValidityError(_)"] + within("CertificatePoolError", ["Anchor(_)", "Malformed", "VerificationFailed"])
     + ["PublicKeyUnsupportedAlgorithmError"]),
    ("try_from_log_entry", "client try_from_log_entry", "sig_signing ConversionError", ALL),
    ("Verifier::new", "verify verify_digest_with", "sig_base SigstoreError", ["CertificatePoolError(Anchor(_))"]),
    ("Verifier::verify_digest_with", "verify verify_digest_with", "sig_verify VerificationError", ARTIFACT),
    ("Verifier::verify_digest", "verify verify_digest", "sig_verify VerificationError", ["Signature(VerificationFailed)"]),
    ("Verifier::verify", "verify verify", "sig_verify VerificationError", ["Input(Fault)", "Signature(VerificationFailed)"]),
    ("verify_log_entry", "verify verify_log_entry", "sig_verify OfflineError", LOGGED),
    ("verify_offline", "verify verify_offline", "sig_verify OfflineError", ["Json", "TrustRoot", "Anchor(_)"] + ARTIFACT + LOGGED),
    ("questions", "verify questions", "sig_questions NoQuestions", ["TooLong"]),
]

# Variants of error types that no table shows, each with its reason.
CALLERS = "for a caller's own constraints; no call gives it"
UNSHOWN = {
    "sig_base SigstoreError": {
        "VerificationConstraintError": CALLERS, "ApplyConstraintError": CALLERS},
    "sig_der DerWriteError": {"TooLong": "bytes of 2^32 and more"},
    "sig_verify InputFault": {"TooLong": "an artifact of more than 2^40 bytes"},
    "sig_questions NoQuestions": {"Link": "shown by the name of the link alone"},
}


# The types, as the sources have them.

def sources():
    """The text of each module of a library, by crate."""
    for path in sorted(path for path in glob.glob(os.path.join(TOP, "sig_*", "src", "*.rt")) if "sig_cases" not in path):
        with open(path, encoding="utf-8") as file:
            yield path.split(os.sep)[-3], file.read()


def variants_of(body):
    """The variants of an enum's body: a name, and the types that it keeps, or None where it keeps named fields."""
    body = re.sub(r"//[^\n]*|#\[[^\n]*\]", "", body)
    for name, kept, fields in re.findall(r"(\w+)\s*(?:\(([^()]*)\)|(\{[^{}]*\}))?\s*(?:,|$)", body):
        yield name, None if fields else [each.strip() for each in kept.split(",") if each.strip()]


def read_types():
    """The enums and unit structs, and those of them that are errors: they derive `Error`, or implement it."""
    types, errors = {}, []
    for crate, text in sources():
        for derived, name, body in re.findall(r"^(?:#\[derive\(([^\]]*)\)\]\n)?pub enum (\w+)\s*\{\n(.*?)^\}", text, re.S | re.M):
            types[crate, name] = list(variants_of(body))
            if re.search(r"\bError\b", derived) or re.search(r"^impl Error for %s\b" % name, text, re.M):
                errors.append((crate, name))
        for name in re.findall(r"^pub struct (\w+);", text, re.M):
            types[crate, name] = [(name, [])]
    return types, errors


TYPES, ERRORS = read_types()


def type_named(crate, name):
    """The type of this name that a module of the crate sees: its own, or the only one; None where it is not an enum."""
    if (crate, name) in TYPES:
        return crate, name
    found = [each for each in TYPES if each[1] == name]
    return found[0] if len(found) == 1 else None


def kinds_of(key):
    """Every kind of a type, as a normalized line shows it."""
    crate, _ = key
    for variant, kept in TYPES[key]:
        if variant == "OutOfMemory":
            continue
        if kept is None:
            yield variant + "@"
            continue
        inner = [type_named(crate, name) for name in kept]
        parts = [list(kinds_of(each)) if each else ["_"] for each in inner]
        for choice in itertools.product(*parts):
            yield variant + ("(" + ",".join(choice) + ")" if choice else "")


# The tables.

def normalized(line):
    """A line in which texts, numbers and lists of numbers are `_`, and named fields `@`."""
    line = re.sub(r'"(?:[^"\\]|\\.)*"', "_", line)
    line = re.sub(r"\[\d[\d, ]*\]", "_", line)
    line = re.sub(r"(?<![\w])-?\d+\b", "_", line)
    while re.search(r"\s*\{[^{}]*\}", line):
        line = re.sub(r"\s*\{[^{}]*\}", "@", line)
    return line.replace(", ", ",")


def calls_of(path):
    """The calls of a table, each with its result."""
    with open(path, encoding="utf-8") as calls, open(path[:-2] + "out", encoding="utf-8") as results:
        yield from ((call, result) for call, result in zip(calls, results) if not call.startswith("#"))


def read_lines():
    """The results of each word of each program of cases."""
    lines = collections.defaultdict(list)
    for path in sorted(glob.glob(os.path.join(TOP, "*_cases", "stdin"))):
        program = path.split(os.sep)[-2].removesuffix("_cases")
        for call, result in calls_of(path):
            lines["%s %s" % (program, call.split(" ")[0].strip())].append(normalized(result.strip()))
    return lines


def is_shown(kind, line):
    return re.search(r"(?<![\w(,])" + re.escape(kind) + r"(?![\w(@])", line) is not None


def starts(kind, name):
    return re.match(re.escape(name) + r"(?!\w)", kind) is not None


def rows():
    """Each call with each of its kinds, and in how many lines of its word the kind is shown."""
    lines = read_lines()
    for call, word, named, wanted in CALLS:
        assert lines[word], "no line of `%s`" % word
        kinds = [kind for kind in kinds_of(key_of(named)) if not wanted or any(starts(kind, each) for each in wanted)]
        assert all(any(starts(kind, each) for kind in kinds) for each in wanted), "a variant of %s that %s has not" % (call, named)
        for kind in kinds:
            yield call, word, named, kind, sum(is_shown(kind, line) for line in lines[word])


def key_of(named):
    key = tuple(named.split())
    assert key in TYPES, "no type %s" % named
    return key


def variants_in(key, kind):
    """The variants that a kind of this type names, each with its type."""
    variant, _, inner = kind.removesuffix("@").partition("(")
    yield key, variant
    kept = dict(TYPES[key])[variant] or []
    for name, each in zip(kept, inner.removesuffix(")").split(",") if len(kept) > 1 else [inner.removesuffix(")")]):
        if type_named(key[0], name):
            yield from variants_in(type_named(key[0], name), each)


def unclaimed(found):
    """The variants of the error types that no call's kinds name, and that are not among those that no table shows."""
    claimed = {each for _, _, named, kind, _ in found for each in variants_in(key_of(named), kind)}
    for key in ERRORS:
        for variant, _ in TYPES[key]:
            if variant != "OutOfMemory" and (key, variant) not in claimed and variant not in UNSHOWN.get(" ".join(key), {}):
                yield key, variant


def stale(found):
    """The variants that are said to be in no table, and that a call's kinds name."""
    claimed = {each for _, _, named, kind, _ in found for each in variants_in(key_of(named), kind)}
    return [(key_of(named), variant) for named, variants in UNSHOWN.items() for variant in variants if (key_of(named), variant) in claimed]


def explained():
    """Each name that an explanation can show, with the number of lines of run_cases that show it."""
    counts = collections.Counter()
    with open(os.path.join(TOP, "run_cases", "stdin"), encoding="utf-8") as calls, open(os.path.join(TOP, "run_cases", "stdout"), encoding="utf-8") as lines:
        for call, line in zip(calls, lines):
            written = bytes.fromhex(line.split(" ")[1]).decode() if call.startswith("run explain,") and line.split(" ")[1] != "-" else ""
            if written.endswith("}\n"):
                counts.update(explain_names.names_in(written.splitlines()[-1]))
    return counts


def main(words):
    found, names = list(rows()), explained()
    missing = ["%s: %s is in no line of %s" % (call, kind, word) for call, word, _, kind, count in found if count == 0]
    missing += ["%s::%s: no call of the list has it" % (key[1], variant) for key, variant in unclaimed(found)]
    missing += ["%s::%s: it is said to be in no table" % (key[1], variant) for key, variant in stale(found)]
    missing += ["explain: %s is in no line of run" % name for name in explain_names.missing(set(names))]
    if words == ["--list"]:
        for call, word, _, kind, count in found:
            print("%s: %s: %s, %d lines" % (call, kind, word, count))
        for named, variants in UNSHOWN.items():
            for variant, reason in variants.items():
                print("%s::%s: in no table: %s" % (named.split()[1], variant, reason))
        for name in sorted(explain_names.defined()):
            print("explain: %s: %s" % (name, "run, %d lines" % names[name] if name in names else "in no table: " + explain_names.UNSHOWN[name]))
    print("".join(line + "\n" for line in missing) + "%d kinds, %d names of explanations, %d missing" % (len(found), len(explain_names.defined()), len(missing)))
    return 1 if missing else 0


if __name__ == "__main__":
    sys.exit(main(sys.argv[1:]))
