"""The rows of the table of `verify` with lists of three hundred elements: only these rows refuse a body that gives up on long lists."""
import fixture
from fixture import (DIGEST, FULCIO, ISSUER, SUBJECT_ALTERNATIVE_NAME, SEQUENCE, URI, WORKFLOW, anchor, base64_of, certificate, compact, der, extension,
                     key, note, oid, statement, subject)
from verify_cases import CHECKPOINT, ENTRY, MATERIAL, PROOF, accepted, bundle, held, parts, request, root, row, unaccepted, whole_row
from verify_rows_message import in_chain

COUNT = 300
LAST = COUNT - 1


def identifier(number):
    """The id of a log that nobody asks for."""
    return b"\x10" + number.to_bytes(31, "big")


def numbered_key(byte, number):
    """One of many keys, in their order."""
    return key(byte)[:-4] + number.to_bytes(4, "big")


def accepted_under(spki):
    """With the certificate's signature accepted under this key too."""
    return "accepted", {**fixture.Request().accepted()[0], "key": base64_of(spki)}


def instance(spki, log):
    return {"publicKey": {"rawBytes": base64_of(spki)}, "logId": {"keyId": base64_of(log)}}


# The trusted root.

def logs():
    others = [instance(key(9), identifier(number)) for number in range(LAST)]
    earlier = [instance(key(9), fixture.LOG_ID)] * LAST
    row("hundreds: keys of logs, the last of its id", "verified 2 5", root("tlogs", others + [instance(key(4), fixture.LOG_ID)]))
    row("hundreds: keys of one log, the last of which counts", "verified 2 5", root("tlogs", earlier + [instance(key(4), fixture.LOG_ID)]))
    row("hundreds: keys of logs, none of its id", 'log-key RekorPublicKeyNotFoundError("%s")' % fixture.LOG_ID.hex(), root("tlogs", others))
    row("hundreds: keys of Certificate Transparency logs, the last of its id", "verified 2 5",
        root("ctlogs", others + [instance(key(3), fixture.CERTIFICATE_LOG_ID)]))
    row("a few keys of Certificate Transparency logs, the last of its id", "verified 2 5",
        root("ctlogs", others[:3] + [instance(key(3), fixture.CERTIFICATE_LOG_ID)]))
    row("hundreds: keys of Certificate Transparency logs, none its own", "sct Certificate(Sct(Verification(KeyNotFound)))", root("ctlogs", others))


def anchors():
    own, namesake = certificate(anchor()), certificate(anchor(key=key(9)))
    stranger = certificate(anchor(subject=fixture.name("other root")))

    def chain(*listed):
        return {"certChain": {"certificates": [{"rawBytes": base64_of(each)} for each in listed]}}
    row("hundreds: trust anchors of one name, the last of which issued it", "verified 2 5",
        root("certificateAuthorities", [chain(*[namesake] * LAST, own)]))
    row("hundreds: authorities of other names, the last of which issued it", "verified 2 5",
        root("certificateAuthorities", [chain(stranger)] * LAST + [chain(own)]))
    row("hundreds: trust anchors of one name, none of which issued it", "issuer Certificate(VerificationFailed)",
        root("certificateAuthorities", [chain(*[namesake] * COUNT)]))
    row("hundreds: trust anchors, the last of which is not a certificate", "anchor Anchor(%d)" % LAST,
        root("certificateAuthorities", [chain(*[own] * LAST, b"\x30\x00")]))
    others = [certificate(anchor(key=numbered_key(9, place))) for place in range(LAST)]
    keys = [accepted_under(numbered_key(8, place)) for place in range(COUNT)]
    row("hundreds: trust anchors of one name and other keys, the last of which issued it", "verified 2 5",
        root("certificateAuthorities", [chain(*others, own)]))
    row("hundreds: keys under which the certificate is accepted, one of which is a trust anchor's", "verified 2 5", *keys)
    row("hundreds: trust anchors of one name, and keys under which the certificate is accepted, with one in common", "verified 2 5",
        root("certificateAuthorities", [chain(*others, own)]), *keys)
    row("hundreds: trust anchors of one name, and keys under which the certificate is accepted, with none in common",
        "issuer Certificate(VerificationFailed)", root("certificateAuthorities", [chain(*others, own)]), unaccepted(0), *keys)


# The bundle's certificates, and what they hold.

def chains():
    issuer, self_issued = certificate(anchor(issuer=fixture.name("another root"))), certificate(anchor())
    many = "certificate Bundle(TooManyCertificates(%d))" % COUNT
    row("hundreds: a chain", many, in_chain(*[issuer] * LAST))
    row("hundreds: a chain with a root at its end", many, in_chain(*[issuer] * (LAST - 1), self_issued))
    row("hundreds: a chain with no certificate at its end", many, in_chain(*[issuer] * (LAST - 1), b"\x30\x00"))
    row("hundreds: a chain with no certificate first", many, bundle(MATERIAL, lambda material: {
        "tlogEntries": material["tlogEntries"], "x509CertificateChain": {"certificates": [{"rawBytes": "MAA="}] * COUNT}}))


def leaves():
    def numbered(number):
        return extension(oid("1.3.6.1.4.1.99999.%d" % number), b"x")
    own = der(URI, WORKFLOW.encode())

    def named(*names):
        return held(names=extension(SUBJECT_ALTERNATIVE_NAME, der(SEQUENCE, *names)))
    others = [der(URI, b"https://example.com/%d" % number) for number in range(LAST)]
    many = b"".join(map(numbered, range(COUNT)))
    row("hundreds: extensions", "verified 2 5", held(others=many))
    row("hundreds: extensions, the last a duplicate", "issuance Certificate(Malformed)", held(others=many + numbered(0)))
    row("hundreds: names, the last of which is asked for", "verified 2 5", named(*others, own))
    names = ", ".join("https://example.com/%d" % number for number in range(LAST))
    row("hundreds: names, none of which is asked for", 'policy Policy(AllOf { total: 1, errors: PolicyErrors { items: [ExtensionCheckFailed '
        '{ extension: "SubjectAltName", expected: "%s", actual: "%s" }] } })' % (WORKFLOW, names), named(*others))
    row("hundreds: bytes of a malformed name", "policy Policy(AllOf { total: 1, errors: PolicyErrors { items: [ExtensionNotFound] } })",
        named(own, der(URI, b"\xff" * COUNT)))


def policies():
    strange, own = {"sha": "x"}, {"identity": WORKFLOW, "issuer": ISSUER}
    claimed = held(others=extension(FULCIO["sha"], b"x"))
    errors = ", ".join(["ExtensionNotFound"] * COUNT)
    row("hundreds: rules, all of which hold", "verified 2 5", parts(policy={"all": [strange] * LAST + [own]}), claimed)
    row("hundreds: rules, any of which may hold, and the last does", "verified 2 5", parts(policy={"any": [strange] * LAST + [own]}))
    row("hundreds: rules, none of which holds", "policy Policy(AllOf { total: %d, errors: PolicyErrors { items: [%s] } })" % (COUNT, errors),
        parts(policy={"all": [strange] * COUNT}))
    row("hundreds: rules, any of which may hold, and none does", "policy Policy(AnyOf { total: %d })" % COUNT, parts(policy={"any": [strange] * COUNT}))


# The envelope, the log entry, and the signatures that are accepted.

def envelopes():
    others = [subject(sha256="%064x" % number) for number in range(LAST)]
    row("hundreds: subjects, the last of which is asked for", "verified 2 5", parts(payload=compact_statement(*others, subject(sha256=DIGEST))))
    row("hundreds: subjects, none of which is asked for", "subject Signature(SubjectDigestMismatch)", parts(payload=compact_statement(*others)))
    row("hundreds: subjects, the last malformed", "envelope Bundle(DsseSubjectDigestMalformed(Sha512))",
        bundle("dsseEnvelope.payload", base64_of(compact_statement(*others, subject(sha512="zz")))))
    row("hundreds: signatures of the envelope", "envelope Bundle(DsseInvalidSignatureCount(%d))" % COUNT,
        bundle("dsseEnvelope.signatures", lambda listed: listed * COUNT))
    row("hundreds: log entries", "entry Bundle(TlogEntry(%d))" % COUNT, bundle(MATERIAL + ".tlogEntries", lambda listed: listed * COUNT))


def compact_statement(*subjects):
    """A payload with these subjects."""
    import json
    return compact({**json.loads(statement()), "subject": list(subjects)}).encode()


def notes():
    made = fixture.Request()
    lines = ["line: %d" % number for number in range(COUNT)]
    text = note(made.root)
    strange = "".join("\u2014 log %s\n\n" % base64_of(b"\x00\x00\x00\x04sig-%d" % number) for number in range(LAST))

    def signed_last(old):
        head, line = old.rsplit("\n\n", 1)
        return head + "\n\n" + strange + line
    row("hundreds: lines of the note", "verified 2 5", parts(noted=text + "".join(line + "\n" for line in lines)))
    row("hundreds: signatures of the note, the last accepted", "verified 2 5", bundle(CHECKPOINT, signed_last))
    row("hundreds: signatures of the note, none accepted", "note-key CheckpointSignatureVerificationError", bundle(CHECKPOINT, signed_last),
        unaccepted(4))
    row("hundreds: signatures of the note, the last malformed", "checkpoint ParseCheckpointError(SignatureBase64)",
        bundle(CHECKPOINT, lambda old: old.rsplit("\n\n", 1)[0] + "\n\n" + strange + "\u2014 log %%\n"))


def rows():
    others = [accepted("message", fixture.SCHEME, key(9), b"message %d" % number, b"sig-%d" % number) for number in range(COUNT)]
    row("hundreds: accepted signatures", "verified 2 5", *others)
    row("hundreds: accepted signatures, none of the promise", "promise Promise", unaccepted(3), *others)


# Proofs: indices and sizes beyond a hundred, and lists of hashes that are too long.

def proofs():
    for index, size in ((298, 300), (150, 300), (255, 256), (1500, 2000)):
        row("hundreds: entry %d of a log of %d" % (index, size), "verified %d %d" % (index, size), parts(index=index, size=size))
    hashes = [base64_of(fixture.sha256(b"%d" % number)) for number in range(COUNT)]
    row("hundreds: hashes of the proof", "inclusion InclusionProofError(WrongProofSize { got: %d, want: 3 })" % COUNT, bundle(PROOF + ".hashes", hashes))
    row("hundreds: hashes of the proof, the last too short", "proof HashLength(%d)" % LAST, bundle(PROOF + ".hashes", hashes[:-1] + ["AA=="]))
    row("hundreds: the note is of a log of thousands", "note-match ConsistencyProofError(NewTreeSmaller { new: 5, old: 5000 })",
        parts(noted=note(fixture.Request().root, 5000)))
    made = fixture.Request(index=150, size=COUNT)
    log = fixture.log_entries(150, COUNT, made.body)
    for name, listed, second in [("the log's", log, "entry 150"), ("one more", log + [b""], "other list"), ("another at the end", log[:-1] + [b""],
                                 "other list")]:
        whole_row("hundreds: entries, %s" % name, "verified 150 %d\n%s" % (COUNT, second), parts(index=150, size=COUNT),
                  request("entries", [base64_of(each) for each in listed]))


GROUPS = [logs, anchors, chains, leaves, policies, envelopes, notes, rows, proofs]
