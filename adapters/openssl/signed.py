#!/usr/bin/python3
"""Bundles that are really signed: authority, Certificate Transparency log, log and signer are all made here.

    signed.py FOLDER    writes an artifact, a bundle of it and the trusted root under which it is verified, with new keys

The form of each part is tools/fixture.py's; keys and signatures are the package cryptography's. Each request knows
the rows that a checker has to accept. One of its signatures can be spoiled: what is made from it is then made from the
spoiled one, so that the chain fails at this signature and nowhere else.
"""
import functools
import os
import sys

sys.dont_write_bytecode = True
sys.path.insert(0, os.path.join(os.path.dirname(os.path.abspath(__file__)), "..", "..", "tools"))

from cryptography.hazmat.primitives import hashes
from cryptography.hazmat.primitives.asymmetric import ec, ed25519, padding, rsa, utils
from cryptography.hazmat.primitives.serialization import Encoding, PublicFormat

import fixture
from fixture import BIT_STRING, OBJECT_IDENTIFIER, SEQUENCE, base64_of, compact, der, oid, sha256

SHA256, SHA384, SHA512 = hashes.SHA256(), hashes.SHA384(), hashes.SHA512()
HASHES = {"SHA256": SHA256, "SHA384": SHA384, "SHA512": SHA512}
MEDIA_TYPES = {"0.1": "application/vnd.dev.sigstore.bundle+json;version=0.1",
               "0.2": "application/vnd.dev.sigstore.bundle+json;version=0.2",
               "0.3": "application/vnd.dev.sigstore.bundle.v0.3+json"}
IDENTITY, ISSUER = fixture.WORKFLOW, fixture.ISSUER
NOW = 1702512000  # 2023-12-14T00:00:00Z


# Keys, by their kinds: as `message` and `prehash` name the scheme, and what signs.

CURVES = {"P-256": (ec.SECP256R1(), SHA256), "P-384": (ec.SECP384R1(), SHA384), "P-521": (ec.SECP521R1(), SHA512)}
SCHEMES = {"P-256": "ECDSA_P256_SHA256_ASN1", "P-384": "ECDSA_P384_SHA384_ASN1", "P-521": "ECDSA_P521_SHA512_ASN1",
           "RSA": "RSA_PKCS1_SHA256", "RSA-1024": "RSA_PKCS1_SHA256", "RSA-PSS": "RSA_PSS_SHA256",
           "Ed25519": "ED25519"}


def private_key(kind):
    if kind in CURVES:
        return ec.generate_private_key(CURVES[kind][0])
    if kind == "Ed25519":
        return ed25519.Ed25519PrivateKey.generate()
    return rsa.generate_private_key(65537, 1024 if kind == "RSA-1024" else 2048)


class Signer:
    """A key of a kind, which signs as the kind's scheme does, or with another hash where one is named."""

    def __init__(self, kind):
        self.kind, self.scheme, self.private = kind, SCHEMES[kind], private_key(kind)
        self.spki = self.private.public_key().public_bytes(Encoding.DER, PublicFormat.SubjectPublicKeyInfo)

    def sign(self, message, chosen=None):
        if self.kind == "Ed25519":
            return self.private.sign(message)
        if self.kind in CURVES:
            return self.private.sign(message, ec.ECDSA(chosen or CURVES[self.kind][1]))
        chosen, padded = chosen or SHA256, padding.PKCS1v15()
        if self.kind == "RSA-PSS":
            padded = padding.PSS(mgf=padding.MGF1(chosen), salt_length=chosen.digest_size)
        return self.private.sign(message, padded, chosen)

    def sign_digest(self, digest):
        """Over a SHA-256 digest; Ed25519 over its bytes, which is not a signature over the artifact."""
        return self.private.sign(digest) if self.kind == "Ed25519" else self.sign(digest, utils.Prehashed(SHA256))


@functools.lru_cache(maxsize=None)
def signer(kind, role):
    """The one key of the kind that has this role."""
    return Signer(kind)


# AlgorithmIdentifiers: RFC 5758 section 3.2, RFC 8410 section 3, RFC 4055 sections 3.1 and 5.

NULL = der(0x05)


def identifier(dotted, *parameters):
    return der(SEQUENCE, der(OBJECT_IDENTIFIER, oid(dotted)), *parameters)


def algorithm(kind, named):
    place = list(HASHES).index(named)
    if kind == "Ed25519":
        return identifier("1.3.101.112")
    if kind in CURVES:
        return identifier("1.2.840.10045.4.3.%d" % (2 + place))
    if kind != "RSA-PSS":
        return identifier("1.2.840.113549.1.1.%d" % (11 + place), NULL)
    digest = identifier("2.16.840.1.101.3.4.2.%d" % (1 + place), NULL)
    mask, salt = identifier("1.2.840.113549.1.1.8", digest), b"\x02\x01" + bytes([HASHES[named].digest_size])
    return identifier("1.2.840.113549.1.1.10", der(SEQUENCE, der(0xA0, digest), der(0xA1, mask), der(0xA2, salt)))


# A request.

LINKS = {"certificate": "issuer", "sct": "sct", "content": "signature", "promise": "promise", "note": "note-key"}
NAMES = ["root", "authority", "second authority"]  # the root, and what is below it
WORKFLOW = {"trigger": "push", "sha": "0" * 40, "name": "release", "repository": "example/artifact",
            "ref": "refs/tags/v1"}


def limited(others):
    """The extensions of an authority below which this many others may be (RFC 5280 section 4.2.1.9)."""
    limits = der(SEQUENCE, der(fixture.BOOLEAN, b"\xff"), der(0x02, bytes([others])))
    return fixture.extensions(fixture.extension(fixture.BASIC_CONSTRAINTS, limits, critical=True),
                              fixture.extension(fixture.KEY_USAGE, der(BIT_STRING, b"\x02\x04"), critical=True))


def flipped(signature):
    return signature[:-1] + bytes([signature[-1] ^ 1])


class Signed:
    """A trusted root, a bundle and an artifact. `leaf` and `log` are kinds of keys, or a leaf is
    a signer of its own; `authority` is a kind with a hash.
    The content is an envelope or a message. With a chain this many authorities below the root, each issued by the one
    above, come before the certificate, and the bundle has them; all are trust anchors, or with `alone` the root is the
    only one. With a rival the trusted root has another authority of the issuer's name before it. Of the `spoiled`
    signature, a title of `LINKS` or `authority`, the last bit is flipped, or a stranger's key of the same kind made it.
    The bundle lacks the authority of the number that is `left_out`, counted from the lowest, of which `authorities` has
    other parts; `uppermost` has those of the one below the root.
    Parts of other forms: the `stamps` are so
    many SCTs, `issued` the extension with the issuer, `workflow` the texts of further ones, and `anchor` has other
    parts of trust anchors; `payload` makes the statement of a digest, and `body` the log entry's body from payload,
    or digest of a message, signature and certificate."""

    def __init__(self, leaf="P-256", authority=("P-256", "SHA256"), log="P-256", content="envelope", profile="0.3",
                 chain=False, rival=False, spoiled=None, by="flip", artifact=b"an artifact\n", stamps=1, issued=None,
                 anchor={}, payload=fixture.statement, body=None, workflow=WORKFLOW, alone=False,
                 left_out=None, authorities={}, uppermost={}):
        self.content, self.profile, self.chain, self.rival = content, profile, int(chain), rival
        self.alone, self.left_out, self.changed = alone, left_out, (authorities, uppermost)
        self.spoiled, self.by, self.artifact, self.stamps, self.issued = spoiled, by, artifact, stamps, issued
        self.other_anchor, self.payload_of, self.workflow = anchor, payload, workflow
        self.body_of = body or {"envelope": fixture.body_of, "message": fixture.hashedrekord}[content]
        self.rows, self.digest = {}, sha256(artifact)
        self.leaf = leaf if isinstance(leaf, Signer) else signer(leaf, "leaf")
        self.log, self.ct = signer(log, "log"), signer("P-256", "ct")
        self.issue(*authority)
        self.sign_content()
        self.enter(index=2, size=5)

    def signature(self, title, of, message, row, chosen=None, digest=False):
        """The signature with this title, and the row that says that it is genuine."""
        stranger = self.spoiled == title and self.by == "stranger"
        with_key = signer(of.kind, "stranger") if stranger else of
        made = with_key.sign_digest(message) if digest else with_key.sign(message, chosen)
        if self.spoiled == title and self.by == "flip":
            made = flipped(made)
        operation, scheme, key = row
        self.rows[title] = fixture.row(operation, scheme, key, message, made)
        return made

    # The certificates, RFC 5280 section 4.1, and the SCT, RFC 6962 section 3.2.

    def anchor(self, number, title, issuer_title, key, issuer, named, changed={}):
        """The certificate, and the row of its signature."""
        made_with = algorithm(issuer.kind, named)
        parts = {**fixture.anchor(serial=b"\x02\x01" + bytes([number]), subject=fixture.name(title), key=key.spki,
                                  issuer=fixture.name(issuer_title), inner=made_with, algorithm=made_with),
                 **self.other_anchor, **changed}
        sealed = issuer.sign(fixture.tbs(parts), HASHES[named])
        if self.spoiled == "authority" and number == 2:
            stranger = signer(issuer.kind, "stranger")
            sealed = flipped(sealed) if self.by == "flip" else stranger.sign(fixture.tbs(parts), HASHES[named])
        made = fixture.certificate({**parts, "signature": der(BIT_STRING, b"\x00", sealed), **self.other_anchor})
        return made, fixture.row("certificate", base64_of(made_with), issuer.spki, fixture.tbs(parts), sealed)

    def authorities(self, kind, named):
        """The root, the authorities below it, and the rows of their signatures."""
        keys = [signer(kind, each) for each in NAMES[:self.chain + 1]]
        self.anchors, self.signatures = [self.anchor(1, "root", "root", keys[0], keys[0], named)[0]], []
        for place in range(self.chain):
            lowest, uppermost = self.changed
            changed = {**(uppermost if place == 0 else {}), **(lowest if place == self.chain - 1 else {})}
            made, row = self.anchor(2 + place, NAMES[place + 1], NAMES[place], keys[place + 1], keys[place], named, changed)
            self.anchors.insert(0, made)
            self.signatures.insert(0, row)
        return keys[-1]

    def issue(self, kind, named):
        title, rival = NAMES[self.chain], signer(kind, "stranger")
        self.authority = self.authorities(kind, named)
        self.rivals = [self.anchor(9, title, title, rival, rival, named)[0]] if self.rival else []
        self.trusted = self.rivals + (self.anchors[-1:] if self.alone else self.anchors)
        self.further = [each for place, each in enumerate(self.anchors[:-1]) if place != self.left_out]
        made_with = algorithm(kind, named)

        def leaf(scts):
            others = [fixture.extension(fixture.FULCIO[each], text.encode()) for each, text in self.workflow.items()]
            changed = {} if self.issued is None else {"issued": self.issued}
            listed = fixture.extension(fixture.SCT_LIST, scts) if scts else b""
            return fixture.leaf(fixture.leaf_extensions(b"", list=listed, others=b"".join(others), **changed),
                                issuer=fixture.name(title), key=self.leaf.spki, inner=made_with, algorithm=made_with)
        logged = fixture.signed_by_log(self.authority.spki, fixture.tbs(leaf(b"")))
        stamp = self.signature("sct", self.ct, logged, ("point", None, self.ct.spki[-65:]))
        parts = leaf(fixture.sct_list(*[fixture.sct(log=sha256(self.ct.spki), signature=stamp)] * self.stamps))
        row = "certificate", base64_of(made_with), self.authority.spki
        sealed = self.signature("certificate", self.authority, fixture.tbs(parts), row, HASHES[named])
        self.certificate = fixture.certificate({**parts, "signature": der(BIT_STRING, b"\x00", sealed)})

    # What the signer signs: DSSE protocol v1, or the artifact's digest.

    def sign_content(self):
        if self.content == "envelope":
            self.payload = self.payload_of(self.digest.hex())
            row = "message", self.leaf.scheme, self.leaf.spki
            self.made = self.signature("content", self.leaf, fixture.pae(self.payload), row)
            self.body = self.body_of(self.payload, self.made, self.certificate)
        else:
            row = "prehash", self.leaf.scheme, self.leaf.spki
            self.made = self.signature("content", self.leaf, self.digest, row, digest=True)
            self.body = self.body_of(self.digest, self.made, self.certificate)

    # The log's entry: its promise, its inclusion proof, and the checkpoint, a signed note.

    def enter(self, index, size):
        entries = fixture.log_entries(index, size, self.body)
        root, log_id = fixture.root_hash(entries), sha256(self.log.spki)
        promised = compact({"body": base64_of(self.body), "integratedTime": 1702446700, "logID": log_id.hex(),
                            "logIndex": 900}, canonical=True).encode()
        row = "message", self.log.scheme, self.log.spki
        promise = self.signature("promise", self.log, promised, row)
        note = fixture.note(root, size)
        sealed = self.signature("note", self.log, note.encode(), row)
        checkpoint = "%s\n\u2014 fixture.log %s\n" % (note, base64_of(log_id[:4] + sealed))
        proof = {"logIndex": str(index), "treeSize": str(size), "rootHash": base64_of(root),
                 "hashes": [base64_of(each) for each in fixture.audit_path(index, entries)],
                 "checkpoint": {"envelope": checkpoint}}
        self.entry = {"logIndex": "900", "logId": {"keyId": base64_of(log_id)}, "integratedTime": "1702446700",
                      "inclusionPromise": {"signedEntryTimestamp": base64_of(promise)}, "inclusionProof": proof,
                      "canonicalizedBody": base64_of(self.body)}

    # The files.

    def bundle(self):
        listed = [{"rawBytes": base64_of(each)} for each in [self.certificate, *self.further]]
        signed_with = {"x509CertificateChain": {"certificates": listed}} if self.chain else {"certificate": listed[0]}
        content = {"messageSignature": {"messageDigest": {"algorithm": "SHA2_256", "digest": base64_of(self.digest)},
                                        "signature": base64_of(self.made)}}
        if self.content == "envelope":
            content = {"dsseEnvelope": {"payload": base64_of(self.payload), "payloadType": fixture.PAYLOAD_TYPE,
                                        "signatures": [{"sig": base64_of(self.made)}]}}
        return {"mediaType": MEDIA_TYPES[self.profile],
                "verificationMaterial": {**signed_with, "tlogEntries": [self.entry]}, **content}

    def trusted_root(self):
        opened = {"start": "2023-01-01T00:00:00Z"}

        def log(key):
            return {"hashAlgorithm": "SHA2_256", "publicKey": {"rawBytes": base64_of(key.spki), "validFor": opened},
                    "logId": {"keyId": base64_of(sha256(key.spki))}}
        certificates = [{"rawBytes": base64_of(each)} for each in self.trusted]
        return {"mediaType": "application/vnd.dev.sigstore.trustedroot+json;version=0.1", "tlogs": [log(self.log)],
                "certificateAuthorities": [{"certChain": {"certificates": certificates}, "validFor": opened}],
                "ctlogs": [log(self.ct)]}

    def accepted(self, missing=()):
        """The rows of all signatures except those with these titles, in the order in which the links ask for them: once for
        each certificate that has the issuer's key, as trust anchor and in the bundle."""
        def times(place):
            return [*self.trusted, *self.further].count(self.anchors[place])
        signed = [(self.rows["certificate"], times(0)) for title in ["certificate"] if title not in missing]
        spoiled = self.chain - 1 if "authority" in missing else None  # that of the uppermost
        signed += [(row, times(place + 1)) for place, row in enumerate(self.signatures)
                   if self.anchors[place] in self.further and place != spoiled]
        rows = [row for row, count in signed for _ in range(count)]
        rows += [self.rows["sct"]] * times(0) if "sct" not in missing else []
        return rows + [self.rows[title] for title in list(LINKS)[2:] if title not in missing]


def write(folder, signed):
    """The files of a request."""
    files = {"trusted_root.json": compact(signed.trusted_root()).encode(), "artifact": signed.artifact,
             "bundle.json": compact(signed.bundle()).encode()}
    for title, content in files.items():
        with open(os.path.join(folder, title), "wb") as file:
            file.write(content)


if __name__ == "__main__":
    write(sys.argv[1], Signed())
