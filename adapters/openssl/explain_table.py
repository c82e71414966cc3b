"""The words for each cause that `sigverify explain` gives, and for what the links compare, as explain_words.py fills them.

A cause is the list of names in the member `cause`, the outermost first. Where links share one, each has its sentence.
The text in braces is a member of the JSON, or one of explain_words.MADE. A new cause has its sentence here, and a case
in explain_cases.jsonl: a line of JSON with the command, the explanation, and the lines that are to be said.
"""

# Why a member breaks its row of a table.
WHY = {
    "Absent": "is absent, and has to be there", "OtherKind": "is of another kind than it has to be",
    "BeyondRange": "is beyond its range: by its value, by its number of elements, or as the name of what is not there",
    "NotAlone": "stands beside a member that excludes it"}

# Parts of a certificate's extensions.
PARTS = {
    "BasicConstraints": "basic constraints", "KeyUsage": "key usage", "ExtendedKeyUsage": "extended key usage",
    "KeyUsageDigitalSignature": "digital signature in its key usage",
    "ExtendedKeyUsageDigitalSignature": "code signing in its extended key usage"}

# What the rules of a policy are about.
RULES = {"identity": "name or issuer", "issuer": "issuer", "trigger": "trigger", "sha": "commit", "name": "workflow",
         "repository": "repository", "ref": "ref"}

# What the certificate says, by the name of the extension in a refusal of a policy.
SAYS = {
    "SubjectAltName": "signed by {actual}, and {expected} was asked for",
    "OIDCIssuer": "the issuer is {actual}, and {expected} was asked for",
    "GitHubWorkflowTrigger": "the workflow's trigger is {actual}, and {expected} was asked for",
    "GitHubWorkflowSHA": "the workflow's commit is {actual}, and {expected} was asked for",
    "GitHubWorkflowName": "the workflow's name is {actual}, and {expected} was asked for",
    "GitHubWorkflowRepository": "the workflow's repository is {actual}, and {expected} was asked for",
    "GitHubWorkflowRef": "the workflow's ref is {actual}, and {expected} was asked for"}

# Why a proof in an RFC 6962 tree fails: of an inclusion proof, of a consistency proof, and of a checkpoint beside a proof,
# which is another tree's if it has another size or root.
PATH = {
    "MismatchedRoot": "the audit path leads to the root hash {expected}, and the tree has {got}",
    "IndexGtTreeSize": "the index is not below the number of entries",
    "UnexpectedNonEmptyProof": "the audit path has hashes, and there is nothing to prove",
    "UnexpectedEmptyProof": "the audit path has no hashes, and there is something to prove",
    "NewTreeSmaller": "the tree is smaller than the older one",
    "WrongProofSize": "the audit path has {got} hashes, and one for this index and size has {want}",
    "WrongEmptyTreeHash": "the root hash of the empty tree is another than that of no entries"}
GROWTH = {
    "MismatchedRoot": "the consistency proof leads to the root hash {expected}, and the tree has {got}",
    "IndexGtTreeSize": "an index is not below the number of entries",
    "UnexpectedNonEmptyProof": "the consistency proof has hashes, and between these sizes there is nothing to prove",
    "UnexpectedEmptyProof": "the consistency proof has no hashes, and the trees differ",
    "NewTreeSmaller": "the log has shrunk: the new tree is smaller than the old one",
    "WrongProofSize": "the consistency proof has {got} hashes, and one between these sizes has {want}",
    "WrongEmptyTreeHash": "the old tree is empty, and its root hash is another than that of no entries"}
MATCH = {
    **GROWTH,
    "MismatchedRoot": "the checkpoint has the root hash {expected}, and the proof {got}, of trees of one size",
    "UnexpectedEmptyProof": "the checkpoint is of a smaller tree than the proof",
    "NewTreeSmaller": "the checkpoint is of a larger tree than the proof"}

# Why a text is not a signed note.
NOTE = {
    "Format": "no empty line stands between the note and its signatures",
    "NoDash": "a signature does not begin with an em dash",
    "SignatureFormat": "a signature has not three parts with one blank between each",
    "SignatureBase64": "the third part of a signature is not base64",
    "SignatureLength": "a signature has less than four bytes",
    "NoteFormat": "the note has less than three lines",
    "EmptyOrigin": "the note's first line, the log's name, is blank",
    "Size": "the note's second line is not a number below 2^64",
    "HashBase64": "the note's third line, the root hash, is not base64",
    "HashLength": "the note's root hash has not 32 bytes"}


def after(name, words):
    """The words for causes that have this name before theirs."""
    return {(name, *(cause if isinstance(cause, tuple) else (cause,))): said for cause, said in words.items()}


REQUEST = {
    ("TooLong",): "the request has more than 2^24 bytes, or has them with the list of its signatures",
    ("NotJson",): "the request is not JSON in UTF-8",
    ("Float",): "the request has a number with a point or an exponent, -0, or one outside -2^63 to 2^64 - 1",
    ("Member",): "of the request, {fault}",
    ("Origin",): {"request": "the added log at index {index} has a name that is empty, of two lines, or there already",
                  "origin": "the checkpoint is of the log {got}, and the first one is of {expected}"},
    ("UnknownOrigin",): "no log of the name {origin} is kept",
    ("OldSize",): "the proof is from {got} entries, and {expected} are kept of the log",
    ("Full",): "4,096 heads of this log were kept in this run, which is the most: hand the update to the next run",
    **after("State", {
        "Lines": "the state is not lines in fives, each with its newline",
        "Origin": "in the state a log's name is empty, or not above the one before it in byte order",
        "Scheme": "in the state the second line of a log is not a scheme's name",
        "Key": "in the state the third line of a log, its key, is not base64",
        "Size": "in the state the fourth line of a log is not a number below 2^64",
        "Hash": "in the state the fifth line of a log is not 32 bytes in base64",
        "Root": "in the state a log has no entries, and another root hash than that of none"})}

DOCUMENT = after("Json", {
    "NotJson": "{document} is not JSON in UTF-8",
    "Float": "{document} has a number with a point or an exponent, -0, or one outside -2^63 to 2^64 - 1",
    "Member": "of {document}, {fault}"})

ROOT = {
    ("TrustRoot", "Fulcio"): "the trusted root has no certificate of an authority whose validFor has begun",
    ("TrustRoot", "Ctfe"): "the trusted root has no Certificate Transparency log whose validFor holds now",
    ("Anchor",): "the certificate at index {index} of the trusted root's authorities cannot be read, or has name constraints"}

LEAF = after("NoLeaf", {
    "VersionUnsupported": "the signer's certificate is not of version 3",
    "Malformed": "of the signer's certificate an extension cannot be read, or is there twice",
    ("NotLeaf", "IsCA"): "the signer's certificate is an authority's",
    ("NotCA", "NotCA"): "the certificate is not an authority's",
    ("NotCA", "NotRootCA"): "the certificate is not a root's",
    ("NotCA", "Invalid"): "of authority and signing of certificates, the certificate has {set}, and not both or none",
    ("Extension", "Missing"): "the signer's certificate has no {part}",
    ("Extension", "NotCritical"): "in the signer's certificate, {part} is not critical",
    ("Extension", "BitUnset"): "the signer's certificate lacks {part}"})

BUNDLE = after("Bundle", {
    "VerificationMaterialMissing": "the bundle has no verification material",
    "VerificationMaterialContentUnsupported": "the bundle has no certificate, but at most a hint at a key",
    "TooManyCertificates": "the bundle has {count} certificates, and at most 17 are read",
    "CertificateMalformed": "the certificate at index {index} of the bundle cannot be read",
    "CertificatesMissing": "the bundle's chain has no certificate",
    **LEAF,
    "RootInChain": "a further certificate of the bundle is a root, which only the trusted root may give",
    "SignatureMissing": "the bundle has neither an envelope nor a signature over an artifact",
    "DsseInvalidSignatureCount": "the envelope has {count} signatures, and not one",
    "DssePayloadDecode": "the envelope's payload is not an in-toto statement, or has a float",
    "DsseTooManySubjects": "the statement has {count} subjects, and at most 1,024 are read",
    "DsseTooManySubjectDigests": "a subject of the statement has {count} digests, and at most 32 are read",
    "DsseSubjectDigestMalformed": "a digest of the statement is not {algorithm} in hexadecimal",
    "DsseNoRecognizedSubjectDigest": "no subject of the statement has a digest by SHA-256 or SHA-512",
    "TlogEntry": "the bundle has {count} log entries, and not one",
    ("BundleProfile", "Bundle01Profile", "InclusionPromiseMissing"): "a bundle of version 0.1 needs the log's promise",
    ("BundleProfile", "Bundle02Profile", "InclusionProofMissing"): "a bundle of this version needs an inclusion proof",
    ("BundleProfile", "Bundle02Profile", "CheckpointMissing"): "a bundle of this version needs a checkpoint in its proof",
    ("BundleProfile", "Unknown"): "the media type {mediaType} is of no version that is read"})

CERTIFICATE = after("Certificate", {
    "Malformed": "the certificate is not of the form of one that an authority issues",
    "VerificationFailed": "no path of accepted signatures leads from the certificate to a trust anchor",
    "Expired": "the log took the entry at {integratedTime}, and the certificate was valid from {notBefore} to {notAfter}",
    ("Sct", "Parsing", "LeafSCTMissing"): "the certificate has not exactly one SCT",
    ("Sct", "Parsing", "IssuerMissing"): "the certificate's issuer, whose key the SCT signs, is not there",
    ("Sct", "Parsing", "LeafSCTMalformed"): "the certificate's SCT cannot be read",
    ("Sct", "Serialization"): "the certificate is too long for an SCT",
    ("Sct", "Verification", "KeyMalformed"): "the key of the SCT's log cannot be read",
    ("Sct", "Verification", "AlgoUnsupported"): "the key of the SCT's log is of a kind that is not supported",
    ("Sct", "Verification", "KeyNotFound"): "the trusted root has no key of the SCT's log whose range holds now",
    ("Sct", "Verification", "VerificationFailed"): "the SCT's signature is not accepted under its log's key"})

POLICY = after("Policy", {
    "ExtensionNotFound": "the certificate does not have the extension, once and readable, that the policy asks for",
    "ExtensionCheckFailed": "{rules}",
    "AllOf": "{rules}",
    "AnyOf": "none of the {total} rules of the policy holds: {rules}",
    "Pattern": "signed by {names}, and no such name as a whole matches the pattern {pattern}"})

SIGNATURE = after("Signature", {
    "AlgoUnsupported": "the certificate's key is of a kind that is not supported",
    "VerificationFailed": "the signature over the content is not accepted under the certificate's key",
    "Transparency": "the log's entry is about another signature, content or certificate than the bundle's",
    "SubjectDigestMismatch": "the statement is not about the artifact: no subject has its digest",
    "DigestAlgorithmUnsupported": "the signature is over the artifact's SHA-256 digest, and another was handed in"})

ENTRY = {
    ("LogIdMissing",): "the log entry names no log",
    ("RekorPublicKeyNotFoundError",): "the trusted root has no key of the log {logId} whose range holds now",
    ("KeyParsingError",): "the key of the log cannot be read",
    ("PublicKeyUnsupportedAlgorithmError",): "the key of the log is of a kind that is not supported",
    ("PromiseMissing",): "the log entry has no promise, so that its time is anybody's word",
    ("PromiseInteger",): "the log entry's time or index is beyond 2^53 - 1, so that no promise is about it",
    ("Promise",): "the log's signature over body, time and index of the entry, the promise, is not accepted",
    ("ProofMissing",): "the log entry has no inclusion proof",
    ("RootLength",): "the root hash of the inclusion proof has not 32 bytes",
    ("HashLength",): "the hash at index {index} of the inclusion proof has not 32 bytes",
    ("TreeSize",): "the size in the inclusion proof is negative",
    ("CheckpointMissing",): "the inclusion proof has no checkpoint",
    ("CheckpointSignatureVerificationError",): "no signature over the checkpoint is accepted under the log's key",
    **after("ParseCheckpointError", NOTE),
    **after("InclusionProofError", PATH),
    **{("ConsistencyProofError", name): {"consistency": GROWTH[name], "note-match": MATCH[name]} for name in GROWTH}}

WORDS = {**REQUEST, **DOCUMENT, **ROOT, **BUNDLE, **CERTIFICATE, **POLICY, **SIGNATURE, **ENTRY}

# What follows the cause, by the link. The first alternative counts whose members are all there.
ASKED = ["{accepted}", "the scheme is {scheme}", ("of the key, SHA-256 is {keySha256}", "the key has {keyLength} bytes"),
         "of the message, SHA-256 is {messageSha256}"]
TREES = ["the proof says index and tree: {proof}", "the checkpoint says: {note}"]
DETAILS = {
    "fulcio": ["{authorities}"], "ctfe": ["{logs}"],
    "issuer": [("the certificate names the issuer {issuerText}", "the certificate names the issuer {issuerName}, in DER"),
               "{anchors}"],
    "sct": [("its SCT is of the log {logId}, at {time}", "its SCT is of the log {logId}"), "{logs}"],
    "policy": ["{several}"],
    "signature": ASKED, "promise": ASKED, "note-key": ASKED,
    "subject": ["the artifact has {digest}", "the statement has {subjectDigests}"],
    "log-key": ["the entry is of the log {logId}", "{logs}"],
    "inclusion": TREES,
    "note-match": [*TREES, "the new tree has {new.treeSize} entries with the root hash {new.rootHash}"],
    "consistency": ["the old tree has {old}", "the new tree has {new}", "the checkpoint says: {note}"]}

# What is said where every link holds, by the command.
VERIFIED = {
    "log": ["the entry with SHA-256 {entrySha256} is logged", "  the proof says index and tree: {proof}",
            "  the checkpoint says: {note}"],
    "consistency": ["the log kept all older entries", "  the old tree has {old}", "  the new tree has {new}",
                    "  the checkpoint says: {note}"],
    "audit": [("{headCount} heads of the log {origin}, each grown from the one before, and {watchedCount} watched entries",
               "{headCount} heads, each grown from the one before")],
    "verify": [("signed by {certificate.names}, by the word of {certificate.issuer}", "signed by {certificate.names}"),
               "  {workflow}",
               "  the artifact has {digest}",
               "  the statement, of the type {envelope.predicateType}, is about {envelope.subjects}",
               "  the payload has the type {envelope.payloadType} and SHA-256 {envelope.payloadSha256}",
               "  the log {tlogEntry.logId} took the entry at {tlogEntry.integratedTime}, at its index {tlogEntry.logIndex}",
               "  its proof says index and tree: {tlogEntry.inclusionProof}",
               "  the certificate of SHA-256 {certificate.sha256} is valid from {certificate.notBefore} to "
               "{certificate.notAfter}",
               ("  the trust anchor at index {issuedBy.anchor} issued it, and its SCT is of the log {sct.logId}, at {sct.time}",
                "  the bundle's further certificate {issuedBy.further} issued it, and its SCT is of the log {sct.logId}, at {sct.time}"),
               "  {rulesHeld}"]}
