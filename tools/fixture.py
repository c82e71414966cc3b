#!/usr/bin/env python3
"""The fixture of this repository: one request of `verify` whose parts all agree, made from the standards alone.

    tools/fixture.py FOLDER    writes request.json, trusted_root.json, bundle.json and accepted.json into FOLDER

Nothing is signed. A signature is a few bytes such as `sig-leaf`, and `accepted` lists the signatures that count as genuine: under which
key, over which message. Each function takes the parts from which it makes its value, so that a case changes one part and all that is computed from
it is made anew: `certificate(leaf(validity=..))`, `Request(payload=statement(subjects=1025))`.

Standards: X.690 (DER), RFC 5280 (certificates), RFC 5480 and RFC 3279 (keys), RFC 6962 (SCTs, trees), DSSE protocol, in-toto statement v1,
RFC 8785 (canonical JSON), C2SP signed-note and tlog-checkpoint, Sigstore's bundle and trusted root.
"""
import base64
import hashlib
import json
import os
import re
import sys


# X.690: an element, and the contents of an object identifier.

def der(tag, *parts):
    """The element with this identifier octet, sections 8.1.2 to 8.1.4, its length in the fewest octets (10.1)."""
    content = b"".join(parts)
    size = len(content)
    if size < 0x80:
        return bytes([tag, size]) + content
    digits = size.to_bytes((size.bit_length() + 7) // 8, "big")
    return bytes([tag, 0x80 | len(digits)]) + digits + content


def oid(dotted):
    """The contents octets of an object identifier, section 8.19."""
    first, second, *rest = [int(number) for number in dotted.split(".")]
    octets = b""
    for number in [first * 40 + second] + rest:
        digits = bytes([number & 0x7F])
        while number := number >> 7:
            digits = bytes([0x80 | number & 0x7F]) + digits
        octets += digits
    return octets


BOOLEAN, BIT_STRING, OCTET_STRING, OBJECT_IDENTIFIER, UTF8_STRING, UTC_TIME = 0x01, 0x03, 0x04, 0x06, 0x0C, 0x17
SEQUENCE, SET, URI, A0, A3 = 0x30, 0x31, 0x86, 0xA0, 0xA3

KEY_USAGE = oid("2.5.29.15")
SUBJECT_ALTERNATIVE_NAME = oid("2.5.29.17")
BASIC_CONSTRAINTS = oid("2.5.29.19")
NAME_CONSTRAINTS = oid("2.5.29.30")
EXTENDED_KEY_USAGE = oid("2.5.29.37")
CODE_SIGNING = oid("1.3.6.1.5.5.7.3.3")
SCT_LIST = oid("1.3.6.1.4.1.11129.2.4.2")
PRECERTIFICATE_SIGNING = oid("1.3.6.1.4.1.11129.2.4.4")
FULCIO = {name: oid("1.3.6.1.4.1.57264.1.%d" % number) for number, name in
          enumerate(["issuer", "trigger", "sha", "name", "repository", "ref", "other-name"], start=1)}


# RFC 5280 section 4.1: certificates, as their parts in order.

ALGORITHM = der(SEQUENCE, der(OBJECT_IDENTIFIER, oid("1.2.840.10045.4.3.2")))  # ecdsa-with-SHA256, RFC 5758
TBS_PARTS = ["version", "serial", "inner", "issuer", "validity", "subject", "key", "identifiers", "extensions"]


def point(byte):
    """An uncompressed point, SEC 1 section 2.3.3. It need not lie on the curve."""
    return b"\x04" + bytes([byte]) * 64


def key(byte):
    """A SubjectPublicKeyInfo of P-256, RFC 5480 section 2."""
    algorithm = der(OBJECT_IDENTIFIER, oid("1.2.840.10045.2.1")), der(OBJECT_IDENTIFIER, oid("1.2.840.10045.3.1.7"))
    return der(SEQUENCE, der(SEQUENCE, *algorithm), der(BIT_STRING, b"\x00", point(byte)))


def wide_key(count=270):
    """A SubjectPublicKeyInfo of RSA, of 294 bytes if nothing is said, RFC 3279 section 2.3.1; modulus and exponent are this many bytes of 1."""
    algorithm = der(OBJECT_IDENTIFIER, oid("1.2.840.113549.1.1.1")), der(0x05)
    return der(SEQUENCE, der(SEQUENCE, *algorithm), der(BIT_STRING, b"\x00", b"\x01" * count))


def name(common_name):
    attribute = der(SEQUENCE, der(OBJECT_IDENTIFIER, oid("2.5.4.3")), der(UTF8_STRING, common_name.encode()))
    return der(SEQUENCE, der(SET, attribute))


def validity(first, last):
    return der(SEQUENCE, der(UTC_TIME, first.encode()), der(UTC_TIME, last.encode()))


def extension(identifier, value, critical=False):
    truth = der(BOOLEAN, b"\xff") if critical else b""
    return der(SEQUENCE, der(OBJECT_IDENTIFIER, identifier), truth, der(OCTET_STRING, value))


def extensions(*items):
    return der(A3, der(SEQUENCE, *items))


def anchor(**changes):
    """The parts of the trust anchor."""
    parts = dict(
        version=der(A0, b"\x02\x01\x02"),
        serial=b"\x02\x01\x01",
        inner=ALGORITHM,
        issuer=name("fixture root"),
        validity=validity("230101000000Z", "330101000000Z"),
        subject=name("fixture root"),
        key=key(1),
        identifiers=b"",
        extensions=extensions(
            extension(BASIC_CONSTRAINTS, der(SEQUENCE, der(BOOLEAN, b"\xff")), critical=True),
            extension(KEY_USAGE, der(BIT_STRING, b"\x02\x04"), critical=True)),
        algorithm=ALGORITHM,
        signature=der(BIT_STRING, b"\x00", b"sig-anchor"))
    return {**parts, **changes}


WORKFLOW = "https://example.com/workflow"
ISSUER = "https://issuer.example"


def leaf_extensions(scts=None, **changes):
    """The extensions of the leaf by name, in order. A change puts another in its place, or none for no bytes."""
    listed = dict(
        usage=extension(KEY_USAGE, der(BIT_STRING, b"\x07\x80"), critical=True),
        purposes=extension(EXTENDED_KEY_USAGE, der(SEQUENCE, der(OBJECT_IDENTIFIER, CODE_SIGNING))),
        names=extension(SUBJECT_ALTERNATIVE_NAME, der(SEQUENCE, der(URI, WORKFLOW.encode())), critical=True),
        issued=extension(FULCIO["issuer"], ISSUER.encode()),
        list=extension(SCT_LIST, sct_list(sct()) if scts is None else scts),
        others=b"")
    return {**listed, **changes}


def leaf(held=None, **changes):
    """The parts of the leaf, with these extensions."""
    held = leaf_extensions() if held is None else held
    parts = anchor(
        serial=b"\x02\x01\x02",
        validity=validity("231213055055Z", "231213060055Z"),
        subject=der(SEQUENCE),
        key=key(2),
        extensions=extensions(*held.values()),
        signature=der(BIT_STRING, b"\x00", b"sig-leaf"))
    return {**parts, **changes}


def tbs(parts):
    return der(SEQUENCE, *[parts[part] for part in TBS_PARTS])


def certificate(parts):
    return der(SEQUENCE, tbs(parts), parts["algorithm"], parts["signature"])


# RFC 6962 sections 3.2 and 3.3: SCTs, their list in an extension, and what they sign.

def counted(content, size=2):
    return len(content).to_bytes(size, "big") + content


def sct(log=None, time=1702446655000, more=b"", algorithm=b"\x04\x03", signature=b"sig-sct"):
    log = sha256(key(3)) if log is None else log
    return b"\x00" + log + time.to_bytes(8, "big") + counted(more) + algorithm + counted(signature)


def sct_list(*scts):
    return der(OCTET_STRING, counted(b"".join(counted(each) for each in scts)))


def signed_by_log(issuer_key, body, time=1702446655000, more=b""):
    """The digitally-signed struct of section 3.2, for a precert_entry."""
    return b"\x00\x00" + time.to_bytes(8, "big") + b"\x00\x01" + sha256(issuer_key) + counted(body, 3) + counted(more)


# RFC 6962 section 2.1: the log, of five entries of which the third is the bundle's.

def sha256(content):
    return hashlib.sha256(content).digest()


def leaf_hash(entry):
    return sha256(b"\x00" + entry)


def node_hash(left, right):
    return sha256(b"\x01" + left + right)


def cut_at(size):
    """The largest power of two below the size."""
    return 1 << (size - 1).bit_length() - 1


def root_hash(entries):
    """The Merkle tree hash of a list that is not empty."""
    if len(entries) == 1:
        return leaf_hash(entries[0])
    cut = cut_at(len(entries))
    return node_hash(root_hash(entries[:cut]), root_hash(entries[cut:]))


def audit_path(index, entries):
    """The hashes from the entry at the index up to the root, section 2.1.1."""
    if len(entries) == 1:
        return []
    cut = cut_at(len(entries))
    if index < cut:
        return audit_path(index, entries[:cut]) + [root_hash(entries[cut:])]
    return audit_path(index - cut, entries[cut:]) + [root_hash(entries[:cut])]


def log_entries(index, size, body):
    """The log's entries: the bundle's body at the index, and others."""
    return [body if at == index else b"other %d" % at for at in range(size)]


def note(root, size=5):
    """The checkpoint's text, C2SP tlog-checkpoint."""
    return "fixture.log\n%d\n%s\n" % (size, base64_of(root))


def signed_note(text, signature=b"sig-note"):
    """The signed note, C2SP signed-note."""
    return "%s\n\u2014 fixture.log %s\n" % (text, base64_of(b"\x00\x00\x00\x04" + signature))


def checkpoint(root):
    return signed_note(note(root))


# Texts: JSON without blanks, its members as they come or, canonical, in the order of their names.

def base64_of(content):
    return base64.b64encode(content).decode()


def compact(value, canonical=False):
    return json.dumps(value, ensure_ascii=False, separators=(",", ":"), sort_keys=canonical)


def pem(content):
    text = base64_of(content)
    lines = [text[at:at + 64] for at in range(0, len(text), 64)]
    return "\n".join(["-----BEGIN CERTIFICATE-----", *lines, "-----END CERTIFICATE-----", ""])


# in-toto statement v1 and DSSE.

PAYLOAD_TYPE = "application/vnd.in-toto+json"
DIGEST = "a" * 64
WIDE_DIGEST = "b" * 128


def subject(title="a", **digests):
    return {"name": title, "digest": digests}


def statement(first=DIGEST, subjects=4):
    """The statement of this many subjects, four or more, the first with this SHA-256 digest."""
    listed = [subject(sha256=first), subject("b"), subject("c", sha512=WIDE_DIGEST)]
    listed += [subject(sha256=DIGEST)] * (subjects - 3)
    return compact({"_type": "https://in-toto.io/Statement/v1", "subject": listed,
                    "predicateType": "https://example.com/p/v1", "predicate": {}}).encode()


def pae(payload):
    """The pre-authentication encoding, DSSE protocol v1."""
    return b"DSSEv1 %d %s %d %s" % (len(PAYLOAD_TYPE), PAYLOAD_TYPE.encode(), len(payload), payload)


def envelope_json(payload, signature, keyid=""):
    """The envelope as Rekor hashes it, without members that are empty."""
    members = {"sig": base64_of(signature), "keyid": keyid}
    return compact({"payload": base64_of(payload), "payloadType": PAYLOAD_TYPE,
                    "signatures": [{title: text for title, text in members.items() if text}]})


def body_of(payload, signature, signer, keyid=""):
    """The body of Rekor's log entry of kind dsse, version 0.0.1."""
    def digest(content):
        return {"algorithm": "sha256", "value": sha256(content).hex()}
    spec = {"envelopeHash": digest(envelope_json(payload, signature, keyid).encode()), "payloadHash": digest(payload),
            "signatures": [{"signature": base64_of(signature), "verifier": base64_of(pem(signer).encode())}]}
    return compact({"apiVersion": "0.0.1", "kind": "dsse", "spec": spec}).encode()


def hashedrekord(digest, signature, signer):
    """The body of Rekor's log entry of kind hashedrekord, version 0.0.1."""
    spec = {"data": {"hash": {"algorithm": "sha256", "value": digest.hex()}},
            "signature": {"content": base64_of(signature), "publicKey": {"content": base64_of(pem(signer).encode())}}}
    return compact({"apiVersion": "0.0.1", "kind": "hashedrekord", "spec": spec}).encode()


# The request of `verify`.

SCHEME = "ECDSA_P256_SHA256_ASN1"
LOG_KEY, CERTIFICATE_LOG_KEY = 4, 3
# Hexadecimal digits of these have letters, as either half of a byte.
LOG_ID, CERTIFICATE_LOG_ID, OTHER_LOG_ID = bytes.fromhex("4dea" * 16), bytes.fromhex("3cfb" * 16), bytes.fromhex("5eac" * 16)


def row(operation, scheme, under, message, signature):
    """A row of `accepted`."""
    members = {"operation": operation}
    if scheme is not None:
        members["scheme"] = scheme
    return {**members, "key": base64_of(under), "message": base64_of(message), "signature": base64_of(signature)}


class Request:
    """A request by its parts. Each argument changes one of them, and what is computed from it changes too: `stamp` says how the leaf's SCT
    differs from `sct()`, `scheme` and `log_scheme` are the schemes of other keys of leaf and log, `body` is another body than the envelope's,
    `index` and `size` are of another log, and `noted` is another note than that log's."""

    def __init__(self, anchor=anchor(), leaf=leaf(), stamp={}, payload=statement(), signature=b"sig-dsse", promise=b"sig-set",
                 log_index=900, integrated_time=1702446700, now=1702500000, digest="sha256:" + DIGEST,
                 media_type="application/vnd.dev.sigstore.bundle.v0.3+json",
                 policy={"all": [{"identity": WORKFLOW, "issuer": ISSUER}]},
                 scheme=SCHEME, log_key=key(LOG_KEY), log_scheme=SCHEME, log_id=LOG_ID, body=None, index=2, size=5, noted=None, keyid=""):
        self.__dict__.update(locals())
        self.leaf_der = certificate(leaf)
        self.body = body_of(payload, signature, self.leaf_der, keyid) if body is None else body
        entries = log_entries(index, size, self.body)
        self.hashes, self.root = audit_path(index, entries), root_hash(entries)
        self.noted = note(self.root, size) if noted is None else noted

    def trusted_root(self):
        opened = {"start": "2023-01-01T00:00:00Z"}
        closed = {**opened, "end": "2023-12-31T23:59:59.999Z"}

        def log(spki, valid_for, identifier):
            return {"publicKey": {"rawBytes": base64_of(spki), "validFor": valid_for},
                    "logId": {"keyId": base64_of(identifier)}}
        chain = {"certificates": [{"rawBytes": base64_of(certificate(self.anchor))}]}
        return {"certificateAuthorities": [{"certChain": chain, "validFor": opened}],
                "tlogs": [log(self.log_key, closed, self.log_id)],
                "ctlogs": [log(key(CERTIFICATE_LOG_KEY), opened, CERTIFICATE_LOG_ID)]}

    def entry(self):
        proof = {"logIndex": str(self.index), "treeSize": str(self.size), "rootHash": base64_of(self.root),
                 "hashes": [base64_of(each) for each in self.hashes], "checkpoint": {"envelope": signed_note(self.noted)}}
        return {"logIndex": str(self.log_index), "logId": {"keyId": base64_of(self.log_id)},
                "integratedTime": str(self.integrated_time),
                "inclusionPromise": {"signedEntryTimestamp": base64_of(self.promise)},
                "inclusionProof": proof, "canonicalizedBody": base64_of(self.body)}

    def bundle(self):
        signatures = [{"sig": base64_of(self.signature), "keyid": self.keyid}]
        return {"mediaType": self.media_type,
                "verificationMaterial": {"certificate": {"rawBytes": base64_of(self.leaf_der)}, "tlogEntries": [self.entry()]},
                "dsseEnvelope": {"payload": base64_of(self.payload), "payloadType": PAYLOAD_TYPE, "signatures": signatures}}

    def promised(self):
        """What the log's promise is over (RFC 8785's text of four members of the entry)."""
        return compact({"body": base64_of(self.body), "integratedTime": self.integrated_time,
                        "logID": self.log_id.hex(), "logIndex": self.log_index}, canonical=True).encode()

    def precertificate(self):
        """The leaf's TBSCertificate without its list of SCTs, RFC 6962 section 3.2."""
        held = {**self.leaf, "extensions": without_scts(self.leaf["extensions"])}
        return tbs(held)

    def accepted(self):
        """The rows in the order in which `verify` asks for them: of the leaf, its SCT, the envelope, the promise, the checkpoint."""
        under = self.anchor["key"]
        stamp = {"time": 1702446655000, "more": b"", "signature": b"sig-sct", **self.stamp}
        logged = signed_by_log(under, self.precertificate(), stamp["time"], stamp["more"])
        return [
            row("certificate", base64_of(self.leaf["algorithm"]), under, tbs(self.leaf), self.leaf["signature"][3:]),
            row("point", None, point(CERTIFICATE_LOG_KEY), logged, stamp["signature"]),
            row("message", self.scheme, self.leaf["key"], pae(self.payload), self.signature),
            row("message", self.log_scheme, self.log_key, self.promised(), self.promise),
            row("message", self.log_scheme, self.log_key, self.noted.encode(), b"sig-note")]

    def request(self):
        return {"trustedRoot": compact(self.trusted_root()), "bundle": compact(self.bundle(), canonical=True),
                "now": self.now, "digest": self.digest, "policy": self.policy, "accepted": self.accepted()}


class MessageRequest(Request):
    """A request over a signature of the artifact itself: the certificate is the first of a chain, which these follow, and the profile is
    0.2. `signed` is the SHA-256 digest that the signature and the log entry are over."""

    def __init__(self, later=(), signed=bytes.fromhex(DIGEST), leaf=leaf(), signature=b"sig-msg", body=None,
                 media_type="application/vnd.dev.sigstore.bundle+json;version=0.2", **changes):
        body = hashedrekord(signed, signature, certificate(leaf)) if body is None else body
        super().__init__(leaf=leaf, signature=signature, body=body, media_type=media_type, **changes)
        self.later, self.signed = later, signed

    def bundle(self):
        chain = [{"rawBytes": base64_of(each)} for each in (self.leaf_der, *self.later)]
        return {"mediaType": self.media_type,
                "verificationMaterial": {"x509CertificateChain": {"certificates": chain}, "tlogEntries": [self.entry()]},
                "messageSignature": {"signature": base64_of(self.signature)}}

    def accepted(self):
        rows = super().accepted()
        rows[2] = row("prehash", self.scheme, self.leaf["key"], self.signed, self.signature)
        return rows


class ChainRequest(Request):
    """A request whose leaf was issued by the first of these intermediates, and each by the next, and the last by the trust anchor; so the SCT is
    over the key of the first. They are the certificates after the leaf, unless `later` are; the profile is 0.2."""

    def __init__(self, over, later=None, stamped=None, media_type="application/vnd.dev.sigstore.bundle+json;version=0.2", **changes):
        super().__init__(media_type=media_type, **changes)
        self.over, self.stamped = over, stamped or over[0]["key"]
        self.later = [certificate(each) for each in over] if later is None else later

    def bundle(self):
        made = super().bundle()
        leaf, *rest = made["verificationMaterial"].items()
        chain = [leaf[1], *({"rawBytes": base64_of(each)} for each in self.later)]
        return {**made, "verificationMaterial": {"x509CertificateChain": {"certificates": chain}, **dict(rest)}}

    def accepted(self):
        return with_intermediates(self, super().accepted())


class MessageChainRequest(MessageRequest):
    """The same over a signature of the artifact itself."""

    def __init__(self, over, later=None, stamped=None, **changes):
        super().__init__(later=[certificate(each) for each in over] if later is None else later, **changes)
        self.over, self.stamped = over, stamped or over[0]["key"]

    def accepted(self):
        return with_intermediates(self, super().accepted())


def with_intermediates(made, rows):
    """The rows of a request whose leaf these intermediates connect to the trust anchor: after those of other requests, the intermediates'."""
    signed = [made.leaf, *made.over]
    signatures = [row("certificate", base64_of(one["algorithm"]), other["key"], tbs(one), one["signature"][3:])
                  for one, other in zip(signed, [*made.over, made.anchor])]
    stamp = {"time": 1702446655000, "more": b"", "signature": b"sig-sct", **made.stamp}
    logged = signed_by_log(made.stamped, made.precertificate(), stamp["time"], stamp["more"])
    return [signatures[0], row("point", None, point(CERTIFICATE_LOG_KEY), logged, stamp["signature"]), *rows[2:], *signatures[1:]]


def pieces(content):
    """The elements that follow one another."""
    found, at = [], 0
    while at < len(content):
        size, used = content[at + 1], at + 2
        if size >= 0x80:
            used = at + 2 + (size & 0x7F)
            size = int.from_bytes(content[at + 2:used], "big")
        end = used + size
        found.append((content[at], content[used:end], content[at:end]))
        at = end
    return found


def without_scts(tagged):
    """The tagged extensions without those of the list of SCTs."""
    if not tagged:
        return tagged
    listed = pieces(pieces(pieces(tagged)[0][1])[0][1])
    return extensions(*[whole for _, content, whole in listed if pieces(content)[0][1] != SCT_LIST])


# Arguments of a program of cases.

def spelled(content):
    """Bytes as the program reads them: a long run of one byte by its length."""
    parts = []
    for match in re.finditer(rb"(?s)(.)\1{23,}|(?:(?!(.)\2{23,}).)+", content):
        run = match.group()
        parts.append("%s*%d" % (run[:1].hex(), len(run)) if match.group(1) is not None else run.hex())
    return "+".join(parts) or "-"


def main(folder):
    fixture = Request()
    texts = {"request.json": compact(fixture.request()), "trusted_root.json": compact(fixture.trusted_root()),
             "bundle.json": compact(fixture.bundle(), canonical=True), "accepted.json": compact(fixture.accepted())}
    for title, text in texts.items():
        with open(os.path.join(folder, title), "w", encoding="utf-8") as file:
            file.write(text)


if __name__ == "__main__":
    main(*sys.argv[1:])
