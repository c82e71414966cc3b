"""The calls of verify_cases beside those of `verify_offline`: tools/verify_cases.py writes them. Each has a title, the call, and what it returns.

What is returned is stated by hand; for questions and trusted roots the readers of tools/questions_cases.py and tools/verify_links.py say the same.
"""
import hashlib

import fixture
import questions_cases
import request_cases
import results
import verify_links as links
from fixture import base64_of, compact, key, spelled
from verify_cases import ABSENT, CHECKPOINT, ENTRY, MATERIAL, UNKNOWN_CURVE, built, bundle, held, policy_words, request, root, text_word

MOST = 2 ** 24
UNKNOWN_CURVE_OF_LOG = UNKNOWN_CURVE[:-64] + b"\x04" * 64


# A trust root that is given, and artifacts.

def keys_words(keys):
    """Keys by their ids, as arguments of a call."""
    return " ".join([str(len(keys)), *["%s %s" % (identifier.hex(), spelled(der)) for identifier, der in keys]])


def handed_keys(made):
    """The keys of the log and of the Certificate Transparency log of a request."""
    return [(fixture.LOG_ID, made.log_key)], [(fixture.CERTIFICATE_LOG_ID, key(fixture.CERTIFICATE_LOG_KEY))]


def artifacts():
    """Calls over an artifact, by its digest or from a source, under a trust root that is given."""
    log_keys, ct_keys = handed_keys(fixture.Request())

    def of_artifact(title, expected, *words, signed=None):
        sealed = fixture.MessageRequest(**({} if signed is None else {"signed": signed}))
        handed = " ".join([spelled(fixture.certificate(sealed.anchor)), keys_words(log_keys), keys_words(ct_keys)])
        rows = " ".join(map(request_cases.words_of, sealed.accepted()))
        words = [words[0], str(sealed.now), *words[1:], *policy_words(sealed.policy), handed, text_word(compact(sealed.bundle(), canonical=True)), rows]
        return "an artifact: " + title, " ".join(words), expected

    never, text = "9", b"hello world"
    signed = hashlib.sha256(text).digest()
    return [
        of_artifact("by its digest", "ok", "verify_digest", fixture.DIGEST),
        of_artifact("by another digest", "Signature(VerificationFailed)", "verify_digest", "b" * 64),
        of_artifact("a source that fails at once", "Input(Fault)", "verify", "-", "1", "0"),
        of_artifact("a source that fails in the middle", "Input(Fault)", "verify", text.hex(), "4", "2", signed=signed),
        of_artifact("an empty source", "Signature(VerificationFailed)", "verify", "-", "1", never),
        of_artifact("a source of its bytes", "ok", "verify", text.hex(), "100", never, signed=signed),
        of_artifact("a source that gives them in pieces", "ok", "verify", text.hex(), "4", never, signed=signed),
        of_artifact("a source of more than a buffer", "ok", "verify", spelled(bytes(70000)), "100000", never, signed=hashlib.sha256(bytes(70000)).digest()),
        of_artifact("a source of other bytes", "Signature(VerificationFailed)", "verify", text[1:].hex(), "100", never, signed=signed)]


def rooted():
    """Calls of the fixture's bundle and log entry under a trust root that is given."""
    made = fixture.Request()
    bundle_text = text_word(compact(made.bundle(), canonical=True))
    rows = " ".join(map(request_cases.words_of, made.accepted()))
    log_keys, ct_keys = handed_keys(made)

    def of_bundle(title, expected, anchor=fixture.certificate(made.anchor), log_keys=log_keys, ct_keys=ct_keys, digest=made.digest, now=made.now):
        handed = " ".join([spelled(anchor), keys_words(log_keys), keys_words(ct_keys)])
        words = ["verify_digest_with", str(now), digest, *policy_words(made.policy), handed, bundle_text, rows]
        return "a trust root that is handed in: " + title, " ".join(words), expected

    def of_entry(title, expected, log_keys):
        return "the fixture's log entry: " + title, " ".join(["verify_log_entry", keys_words(log_keys), bundle_text, rows]), expected

    return [
        of_bundle("the fixture's bundle", "ok 1"),
        of_bundle("at the start of 1970", "ok 1", now=0),
        of_bundle("a second before 1970", "ok 1", now=-1),
        of_bundle("no key of a log, which the bundle's own links do not ask for", "ok 0", log_keys=[]),
        of_bundle("the trust anchor is not a certificate", "CertificatePoolError(Anchor(0))", anchor=b"\x30\x00"),
        of_bundle("no key of a Certificate Transparency log", "Certificate(Sct(Verification(KeyNotFound)))", ct_keys=[]),
        of_bundle("another artifact", "Signature(SubjectDigestMismatch)", digest="sha256:" + "c" * 64),
        of_entry("under its log's key", "ok 2 5", log_keys),
        of_entry("under no key", 'log-key RekorPublicKeyNotFoundError("%s")' % fixture.LOG_ID.hex(), []),
        of_entry("under another log's key", 'log-key RekorPublicKeyNotFoundError("%s")' % fixture.LOG_ID.hex(), ct_keys)]


# The questions of the fixture, with one part changed.

LETTERS = {"C": "certificate", "P": "point", "M": "message", "H": "prehash"}


def octets_of(row):
    """Scheme, key, message and signature of a row of the links, as bytes."""
    _, scheme, *octets = row
    return [scheme.encode() if isinstance(scheme, str) else scheme or b"", *octets]


def text_of(rows):
    """The text whose SHA-256 is returned: each row as its operation and its parts."""
    return " ".join(["rows", *[word for row in rows for word in (row[0], *[part.hex() or "-" for part in octets_of(row)])]])


def asked(members):
    """The rows that the links of a request ask for, or the name of the first that fails whatever is accepted."""
    rows, failing = questions_cases.rows_or_link(links.SimpleNamespace(request=links.read_request(compact(members).encode())))
    return failing or rows


def size_of(rows):
    return sum(len(part) for row in rows for part in octets_of(row))


def question(title, expected, *changes, most=lambda size: MOST):
    """A call of questions: the letters of its rows in order, or a link, or `TooLong`."""
    members = built(changes)
    found = asked(members)
    if isinstance(found, str):
        returned, limit = found, MOST
        assert found == expected, title
    else:
        limit = most(size_of(found))
        assert "".join(row[0][0].upper() if row[0] != "prehash" else "H" for row in found) == expected.removesuffix(", TooLong"), title
        operations = [LETTERS[letter] for letter in expected.removesuffix(", TooLong")]
        returned = " ".join(["ok", *operations, hashlib.sha256(text_of(found).encode()).hexdigest()])
        returned = "TooLong" if size_of(found) > limit else returned
        assert (returned == "TooLong") == expected.endswith("TooLong"), title
    words = ["questions", str(members["now"]), members["digest"], str(limit), text_word(members["trustedRoot"]), text_word(members["bundle"])]
    return "questions: " + title, " ".join(words), returned


def questions():
    own, namesake = fixture.certificate(fixture.anchor()), fixture.certificate(fixture.anchor(key=key(9)))
    stranger = fixture.certificate(fixture.anchor(subject=fixture.name("another root")))
    strange_leaf = MATERIAL + ".certificate.rawBytes", base64_of(fixture.certificate(fixture.leaf(key=UNKNOWN_CURVE)))
    message = [bundle("dsseEnvelope", ABSENT), bundle("messageSignature", {"signature": base64_of(b"sig-msg")})]
    wide = request("digest", "sha512:" + fixture.WIDE_DIGEST)

    def anchors(*certificates):
        return root("certificateAuthorities.0.certChain.certificates", [{"rawBytes": base64_of(each)} for each in certificates])

    return [
        question("of the fixture", "CPMMM"),
        question("of as many bytes as there may be", "CPMMM", most=lambda size: size),
        question("of a byte more", "CPMMM, TooLong", most=lambda size: size - 1),
        question("of no bytes", "CPMMM, TooLong", most=lambda size: 0),
        question("at the start of 1970", "fulcio", request("now", 0)),
        question("under a trust anchor of another name", "issuer", anchors(stranger)),
        question("under one of another name before its own", "CPMMM", anchors(stranger, own)),
        question("under one of its name with another key before its own", "CCPPMMM", anchors(namesake, own)),
        question("of a signature over the artifact", "CPHMM", *message),
        question("of a signature over the artifact, SHA-512", "CPMM", *message, wide),
        question("of a signature over the artifact, a leaf on a curve of no scheme", "CPMM", *message, bundle(*strange_leaf)),
        question("a log's key on a curve of no scheme", "CPM", root("tlogs.0.publicKey.rawBytes", base64_of(UNKNOWN_CURVE_OF_LOG))),
        question("no promise", "CPMM", bundle(ENTRY + ".inclusionPromise", ABSENT)),
        question("an index of 2^53", "CPMM", bundle(ENTRY + ".logIndex", str(2 ** 53))),
        question("a checkpoint without a size", "CPMM", bundle(CHECKPOINT, lambda text: text.replace("\n5\n", "\nx\n"))),
        question("a checkpoint with two signatures", "CPMMMM", bundle(CHECKPOINT, lambda text: text + "\n\u2014 other %s\n" % base64_of(b"\x00\x00\x00\x04sig"))),
        question("a leaf without an SCT", "CMMM", held(list=b"")),
        question("a leaf with two SCTs", "CMMM", held(list=fixture.extension(fixture.SCT_LIST, fixture.sct_list(fixture.sct(), fixture.sct())))),
        question("a malformed SCT", "CMMM", held(list=fixture.extension(fixture.SCT_LIST, fixture.sct_list(fixture.sct()[:-1])))),
        question("of a hundred trust anchors of one name", "C" * 100 + "P" * 100 + "MMM", anchors(*[fixture.certificate(fixture.anchor(key=key(place % 250 + 1))) for place in range(100, 199)], own)),
        question("an entry of another log", "CPM", bundle(ENTRY + ".logId.keyId", base64_of(fixture.OTHER_LOG_ID)))]


# What a trusted root has at a time.

# The certificates `one` and `two` from 2023 to 2024; the keys `old` to the end of 2023 and `new` from 2024 on, both of the log id 4d ea; no
# Certificate Transparency log.
HELD = {"certificateAuthorities": [{"certChain": {"certificates": [{"rawBytes": "b25l"}, {"rawBytes": "dHdv"}]},
                                    "validFor": {"start": "2023-01-01T00:00:00Z", "end": "2024-01-01T00:00:00Z"}}],
        "tlogs": [{"publicKey": {"rawBytes": "b2xk", "validFor": {"start": "2023-01-01T00:00:00Z", "end": "2023-12-31T23:59:59.999Z"}},
                   "logId": {"keyId": "Teo="}},
                  {"publicKey": {"rawBytes": "bmV3", "validFor": {"start": "2024-01-01T00:00:00+00:00"}}, "logId": {"keyId": "Teo="}}],
        "ctlogs": []}
BOTH = {**HELD, "tlogs": [{**log, "publicKey": {"rawBytes": log["publicKey"]["rawBytes"]}} for log in HELD["tlogs"]], "ctlogs": HELD["tlogs"]}


def shown(keys):
    return " ".join(["ok", str(len(keys)), *["%s %s" % (name, keys[name].hex()) for name in sorted(keys)]])


def picked(call, tree, now):
    """What links say of a trusted root."""
    record = links.record("Root", compact(tree), links.TRUSTED_ROOT)
    if call == "fulcio_certs":
        found = links.picked_certificates(record, now)
        return " ".join(["ok", str(len(found)), *[each.hex() for each in found]]) if found else "TufMetadataError(Fulcio)"
    found = links.picked_keys(record["tlogs" if call == "rekor_keys" else "ctlogs"], now)
    return shown(found) if found or call == "rekor_keys" else "TufMetadataError(Ctfe)"


def roots():
    both, none = "ok 2 6f6e65 74776f", "TufMetadataError(Fulcio)"

    def at(title, call, now, expected, tree=HELD):
        assert picked(call, tree, now) == expected, title
        return "a trusted root: " + title, " ".join([call, str(now), text_word(compact(tree))]), expected

    return [
        at("a second before its authority begins", "fulcio_certs", 1672531199, none),
        at("as its authority begins", "fulcio_certs", 1672531200, both),
        at("years after its authority ended", "fulcio_certs", 1800000000, both),
        at("no authority", "fulcio_certs", 0, none, {}),
        at("a second before the first key", "rekor_keys", 1672531199, "ok 0"),
        at("the first second of the first key", "rekor_keys", 1672531200, "ok 1 4dea 6f6c64"),
        at("the last second of the first key", "rekor_keys", 1704067199, "ok 1 4dea 6f6c64"),
        at("the first second of the last key", "rekor_keys", 1704067200, "ok 1 4dea 6e6577"),
        at("of two keys of one id the last", "rekor_keys", 0, "ok 1 4dea 6e6577", BOTH),
        at("no key of a Certificate Transparency log", "ctfe_keys", 1800000000, "TufMetadataError(Ctfe)"),
        at("its key of a Certificate Transparency log", "ctfe_keys", 1800000000, "ok 1 4dea 6e6577", BOTH),
        ("a trusted root: a list", "rekor_keys 0 []", "SerdeJsonError")]


# The rows of `verify_offline` whose error comes from one of its parts, as calls of that part: the links from `material` to `time` are those of
# `verify_digest_with` under the keys that the trusted root has, and the links after them those of `verify_log_entry`.

ARTIFACT_LINKS = links.NAMES[links.NAMES.index("material"):links.NAMES.index("log-key")]
LOG_LINKS = links.NAMES[links.NAMES.index("log-key"):]


def of_part(name, members, link, error):
    """The call of the part that a row's link belongs to; None where the call's words cannot say the row's trusted root."""
    tree = links.record("Root", members["trustedRoot"], links.TRUSTED_ROOT)
    now = int(members["now"])
    anchors = links.picked_certificates(tree, now)
    log_keys, ct_keys = [[(bytes.fromhex(identifier), der) for identifier, der in sorted(links.picked_keys(tree[part], now).items())]
                         for part in ("tlogs", "ctlogs")]
    bundle_text = text_word(members["bundle"])
    rows = list(map(request_cases.words_of, members.get("accepted") or []))
    if link in LOG_LINKS:
        return "the log entry of: " + name, " ".join(["verify_log_entry", keys_words(log_keys), bundle_text, *rows]), "%s %s" % (link, error)
    if len(anchors) != 1:
        return None
    handed = " ".join([spelled(anchors[0]), keys_words(log_keys), keys_words(ct_keys)])
    words = ["verify_digest_with", str(now), members["digest"], *policy_words(members["policy"]), handed, bundle_text, *rows]
    return "the bundle of: " + name, " ".join(words), error


def of_parts(rows):
    """For each kind of error of these parts the call of the first row that shows it."""
    shown, calls = set(), []
    for row in rows:
        link, error = row.expected[0].removeprefix("refused "), row.expected[1]
        kind = results.normalized(error)
        if link in ARTIFACT_LINKS + LOG_LINKS and kind not in shown:
            found = of_part(row.name, links.documents.tree(row.text.encode()), link, error)
            if found:
                shown.add(kind)
                calls.append(found)
    return calls


# The texts of errors: of each type its variants, by their Debug text; Display is the name of the variant.

ERRORS = {
    "InputFault": "Fault TooLong",
    "CertificateErrorKind": "Malformed Expired Sct(Serialization) VerificationFailed",
    "SignatureErrorKind": "AlgoUnsupported VerificationFailed Transparency SubjectDigestMismatch DigestAlgorithmUnsupported",
    "VerificationError": "Input(Fault) Bundle(SignatureMissing) Certificate(Expired) Signature(Transparency) Policy(ExtensionNotFound) OutOfMemory",
    "OfflineError": "LogIdMissing KeyParsingError PublicKeyUnsupportedAlgorithmError PromiseMissing PromiseInteger Promise ProofMissing RootLength"
                    " TreeSize CheckpointMissing CheckpointSignatureVerificationError OutOfMemory"
                    " Json(Root, NotJson) Json(Bundle, Float) TrustRoot(Ctfe) Anchor(3) Bundle(SignatureMissing) Certificate(Expired)"
                    " Policy(ExtensionNotFound) Signature(Transparency) HashLength(4) ParseCheckpointError(Size)"
                    ' ConsistencyProofError(IndexGtTreeSize) InclusionProofError(IndexGtTreeSize) RekorPublicKeyNotFoundError("id")',
    "NoQuestions": "Link TooLong OutOfMemory"}


def errors():
    return [("errors of %s, each by its Debug text, which begins with its Display text" % name, "errors " + name, "ok " + texts)
            for name, texts in ERRORS.items()]


def calls():
    return artifacts() + rooted() + questions() + roots() + errors()
