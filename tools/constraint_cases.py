#!/usr/bin/env python3
"""Writes the table of crates/constraint_cases: `stdin`, the calls, and `stdout`, what they return.

    tools/constraint_cases.py

This file says in words of its own what a constraint means: which annotations a payload has, whom a certificate names, which key signed, and
when a log took it. Certificates are the fixture's, with parts that are changed; patterns are those of Python's `re`, of a syntax that it has in
common with `regex`. docs/DECISIONS.md says what is left open.
"""
import itertools
import re
import sys

sys.dont_write_bytecode = True

import cosign_cases as cosign
import cosign_layers as layers
import fixture
from case_table import Table, hexed
from json_documents import compact
from rekor_cases import debug, quoted

TABLE = Table("constraint_cases")
say = TABLE.group
SCHEME = "ECDSA_P256_SHA256_ASN1"
RAW, SIGNATURE = b"r", "c2ln"


def truth(holds):
    return "true" if holds else "false"


# ---- layers


class Layer:
    """A layer by its parts; a signer is its subject, as `email:TEXT` or `uri:TEXT`, and its issuer."""

    def __init__(self, optional=None, raw=RAW, signature=SIGNATURE, subject=None, issuer=None, bundle=None):
        self.optional, self.raw, self.signature = optional, raw, signature
        self.subject, self.issuer, self.bundle = subject, issuer, bundle

    def words(self):
        return [quoted(compact(cosign.payload(self.optional))), hexed(self.raw), optional_word(self.signature),
                "-" if self.subject is None else quoted(self.subject), optional_word(self.issuer), self.bundle or "-"]

    def beside(self):
        return cosign.signing_of(compact(cosign.payload(self.optional)))[3]

    def time(self):
        return None if self.bundle is None else int(self.bundle.split(":")[1])


def optional_word(text):
    return "-" if text is None else quoted("=" + text)


def has(beside, asked):
    return not asked or beside is not None and cosign.has(beside[2], asked)


def beside_words(beside):
    if beside is None:
        return ["-"]
    creator, timestamp, extra = beside
    return ["-" if creator is None else debug(creator), "-" if timestamp is None else str(timestamp), compact(extra)]


def pairs_of(asked):
    return [quoted(word) for pair in asked.items() for word in pair]


# ---- annotations


def annotation(layer, asked):
    TABLE.case(" ".join(["annotation", *layer.words(), *pairs_of(asked)]), "ok " + truth(has(layer.beside(), asked)))


BESIDES = (None, {}, {"creator": "c"}, {"env": "prod"}, {"env": "staging", "owner": "flavio"}, {"env": "prod", "number": 1, "bool": True},
           {"env": None}, {"env": ["prod"]}, {"env": {"prod": "prod"}}, {"creator": "c", "timestamp": 7, "env": "prod"}, {"number": "1", "bool": "true"})
ASKED = ({}, {"env": "prod"}, {"number": "1"}, {"bool": "true"}, {"env": "prod", "number": "1", "bool": "true"}, {"creator": "c"}, {"timestamp": "7"},
         {"owner": "flavio", "env": "prod"}, {"": ""}, {"a": "x", "env": "prod", "z": "y"})


def annotations():
    say("annotation LAYER NAME TEXT ..: whether the layer has these annotations. A layer is its payload, raw data, signature, subject, issuer and bundle.")
    for optional, asked in itertools.product(BESIDES, ASKED):
        annotation(Layer(optional), asked)
    say("Each other part of the layer absent.")
    for change in ({"signature": None}, {"raw": b""}, {"subject": "email:a@b", "issuer": "i"}, {"bundle": "rekor:1"}):
        annotation(Layer({"env": "prod"}, **change), {"env": "prod"})
    say("Three hundred annotations, and one of them another.")
    many = {"n%03d" % number: "t%d" % number for number in range(300)}
    annotation(Layer(many), many)
    annotation(Layer({**many, "n150": "x"}), many)


# ---- subjects


def accepts(accepted, text):
    kind, _, asked = accepted.partition(":")
    return text == asked if kind == "exact" else re.search(asked, text) is not None


def email(layer, asked, issuer=None):
    subject = layer.subject or ""
    holds = subject.startswith("email:") and accepts(asked, subject[6:]) and (issuer is None or layer.issuer is not None and accepts(issuer, layer.issuer))
    TABLE.case(" ".join(["email", *layer.words(), quoted(asked), "-" if issuer is None else quoted(issuer)]), "ok " + truth(holds))


def url(layer, asked, issuer):
    holds = layer.subject == "uri:" + asked and layer.issuer == issuer
    TABLE.case(" ".join(["url", *layer.words(), quoted(asked), quoted(issuer)]), "ok " + truth(holds))


ISSUERS = (None, "", "the issuer", "the issuer ", "https://github.com/login/oauth")


def emails():
    say("email LAYER EMAIL ISSUER: whether the layer is of an email that is accepted, and of an issuer, if one is asked for.")
    subjects = (None, "email:alice@example.com", "email:bob@example.com", "email:", "uri:alice@example.com", "uri:https://sigstore.dev/test")
    for subject, issuer, asked in itertools.product(subjects, ISSUERS, (None, "exact:the issuer", "regex:^the", "regex:github\\.com|google\\.com", "exact:")):
        email(Layer(subject=subject, issuer=issuer), "exact:alice@example.com", asked)
    say("A pattern has a match anywhere, unless it is tied to an end.")
    for subject, pattern in itertools.product(("email:a@example.com", "email:a@example.org", "email:a@example.com.evil", "email:A@EXAMPLE.COM", "email:"),
                                              ("@example\\.com$", "@example\\.com", "^a@", ".*@example.com", "^$", "", "(?i)^a@example\\.com$", "[a-z]+@([a-z]+\\.)+(com|org)$",
                                               "a{2}", "a|b", "\\.", "example")):
        email(Layer(subject=subject), "regex:" + pattern)
    say("Texts are compared byte for byte.")
    for subject, asked in itertools.product(("email:\u00e9", "email:e\u0301", "email:a@b", "email:a@b "), ("exact:\u00e9", "exact:a@b", "exact:A@b", "exact:a@b ")):
        email(Layer(subject=subject), asked)
    email(Layer(subject="email:" + "a" * 3000 + "@example.com"), "regex:^a+@example\\.com$")
    email(Layer(subject="email:" + "a" * 3000), "regex:^(a+)+$")
    email(Layer(subject="email:" + "a" * 40 + "b"), "regex:^(a?){3}a{40}b$")


def urls():
    say("url LAYER URL ISSUER: whether the layer is of this URI, by the word of this issuer.")
    subjects = (None, "uri:https://sigstore.dev/test", "uri:https://sigstore.dev/tes", "uri:https://sigstore.dev/test/", "uri:", "email:https://sigstore.dev/test")
    for subject, issuer, asked in itertools.product(subjects, ISSUERS, ("https://sigstore.dev/test", "a different url", "")):
        url(Layer(subject=subject, issuer=issuer), asked, "the issuer")
    url(Layer(subject="uri:", issuer=""), "", "")
    say("urls LAYER URL ISSUER ..: whether the layer satisfies each of these verifiers, in boxes.")
    layer = Layer(subject="uri:https://sigstore.dev/test", issuer="the issuer")
    for asked in ((), ("https://sigstore.dev/test",), ("https://sigstore.dev/test", "a different url"), ("x", "https://sigstore.dev/test", "y"), ("x", "y")):
        missing = [index for index, each in enumerate(asked) if each != "https://sigstore.dev/test"]
        words = [word for each in asked for word in (quoted(each), quoted("the issuer"))]
        TABLE.case(" ".join(["urls", *layer.words(), *words]), unsatisfied(missing))


def strings():
    say("string ACCEPTED: how the texts that are accepted are shown.")
    for accepted in ("exact:alice@example.com", "exact:", "exact:a b", "regex:@example\\.com$", "regex:"):
        kind, _, asked = accepted.partition(":")
        TABLE.case("string " + quoted(accepted), "ok " + ("is exactly " if kind == "exact" else "matches regular expression ") + asked)


# ---- keys


class Refused(Exception):
    """Why a verifier is not made."""


def algorithm(*parts):
    return fixture.der(fixture.SEQUENCE, *parts)


def identifier(dotted):
    return fixture.der(fixture.OBJECT_IDENTIFIER, fixture.oid(dotted))


def spki(*parts):
    return fixture.der(fixture.SEQUENCE, algorithm(*parts), fixture.der(fixture.BIT_STRING, b"\x00", b"bits"))


EC = identifier("1.2.840.10045.2.1")
KINDS = {
    SCHEME: spki(EC, identifier("1.2.840.10045.3.1.7")),
    "ECDSA_P384_SHA384_ASN1": spki(EC, identifier("1.3.132.0.34")),
    "ECDSA_P521_SHA512_ASN1": spki(EC, identifier("1.3.132.0.35")),
    "RSA_PKCS1_SHA256": spki(identifier("1.2.840.113549.1.1.1"), fixture.der(0x05)),
    "ED25519": spki(identifier("1.3.101.112")),
}
UNSUPPORTED = spki(identifier("1.3.101.113"))


def message_row(key, message=RAW, signature=b"sig", scheme=SCHEME):
    return "message", scheme, key, message, signature


def certificate_row(parts, signer):
    return "certificate", parts["algorithm"], signer["key"], fixture.tbs(parts), parts["signature"][3:]


def row_words(row):
    return [row[0], *(each if isinstance(each, str) else hexed(each) for each in row[1:])]


def rows_words(rows):
    return [word for row in rows for word in row_words(row)]


def is_signed(layer, scheme, key, rows):
    if layer.signature is None:
        return False
    try:
        signature = cosign.decoded(layer.signature)
    except cosign.Refused:
        return False
    return ("message", scheme, key, layer.raw, signature) in rows


def answer(line, made):
    try:
        TABLE.case(line, "ok " + truth(made()))
    except Refused as why:
        TABLE.case(line, str(why))


def key(layer, der, rows, scheme=SCHEME, refusal=None):
    def made():
        if refusal is not None:
            raise Refused(refusal)
        return is_signed(layer, scheme, der, rows)
    answer(" ".join(["key", *layer.words(), hexed(der), *rows_words(rows)]), made)


SIGNATURES = (None, "", SIGNATURE, "c2l\nn", "c2l\r\nn\n", "c2ln ", "c2lo", "%", "c2ln=")


def keys():
    say("key LAYER SPKI ROWS: whether the layer is signed by the key of the SPKI, under a checker of these accepted signatures.")
    accepted = [message_row(fixture.key(2))]
    for number in (2, 3):
        key(Layer(), fixture.key(number), accepted)
    for signature, raw in itertools.product(SIGNATURES, (RAW, b"", b"rr")):
        key(Layer(signature=signature, raw=raw), fixture.key(2), accepted)
    key(Layer(signature=""), fixture.key(2), [message_row(fixture.key(2), signature=b"")])
    key(Layer(), fixture.key(2), [])
    key(Layer(subject="email:a@b", bundle="rekor:1", optional={"a": "b"}), fixture.key(2), accepted)
    say("Keys of each kind, and of none.")
    for scheme, der in KINDS.items():
        for accepted in ([message_row(der, scheme=scheme)], [message_row(der, scheme=SCHEME)], [message_row(der, scheme="RSA_PSS_SHA256")]):
            key(Layer(), der, accepted, scheme)
    for der in (b"", b"key", fixture.key(2)[:-1], fixture.key(2) + b"\x00", fixture.der(0x30)):
        key(Layer(), der, [message_row(der)], refusal="KeyParsingError")
    for der in (UNSUPPORTED, spki(EC), spki(EC, identifier("1.3.132.0.10"))):
        key(Layer(), der, [message_row(der)], refusal="PublicKeyUnsupportedAlgorithmError")
    say("scheme LAYER SCHEME DER ROWS: the same of a key of this scheme, whatever its bytes are.")
    for scheme, der in itertools.product((*KINDS, "RSA_PSS_SHA256"), (b"", b"key", fixture.key(2))):
        for accepted in ([message_row(der, scheme=scheme)], [message_row(der + b"x", scheme=scheme)]):
            answer(" ".join(["scheme", *Layer().words(), scheme, hexed(der), *rows_words(accepted)]), lambda: is_signed(Layer(), scheme, der, accepted))


def trusted():
    say("trusted LAYER LAYER SPKI NAME TEXT ROWS: whether one of the layers is signed by the key and has the annotation, as README.md's caller asks.")
    annotated, other = {"env": "prod"}, {"env": "staging"}
    kinds = [Layer(optional=optional, signature=signature) for optional in (annotated, other, None) for signature in (SIGNATURE, "c2lo")]
    accepted = [message_row(fixture.key(2))]
    for one, two in itertools.product(kinds, repeat=2):
        holds = any(has(each.beside(), annotated) and is_signed(each, SCHEME, fixture.key(2), accepted) for each in (one, two))
        TABLE.case(" ".join(["trusted", *one.words(), *two.words(), hexed(fixture.key(2)), "env", "prod", *rows_words(accepted)]), "ok " + truth(holds))
    TABLE.case(" ".join(["trusted", *Layer().words(), *Layer().words(), "-", "env", "prod", *rows_words(accepted)]), "KeyParsingError")


# ---- certificates

FIRST, LAST = 1702446655, 1702447255
ANCHOR = fixture.anchor()
OTHER = fixture.anchor(subject=fixture.name("other root"))
BOUND = fixture.anchor(extensions=fixture.extensions(fixture.extension(fixture.NAME_CONSTRAINTS, fixture.der(fixture.SEQUENCE), critical=True)))


class Certified:
    """A certificate and a chain with these rules broken, and the first refusal in the order of the rules."""

    def __init__(self, broken=(), chain=(ANCHOR,), now=FIRST, key=None):
        self.broken, self.chain, self.now = broken, chain, now
        held = {}
        if "usage" in broken:
            held["usage"] = fixture.extension(fixture.KEY_USAGE, fixture.der(fixture.BIT_STRING, b"\x02\x04"), critical=True)
        if "purposes" in broken:
            held["purposes"] = fixture.extension(fixture.EXTENDED_KEY_USAGE, fixture.der(fixture.SEQUENCE, identifier("1.3.6.1.5.5.7.3.1")))
        if "names" in broken:
            held["names"] = b""
        if "twice" in broken:
            held["others"] = fixture.extension(fixture.FULCIO["issuer"], b"again")
        self.key = fixture.key(2) if key is None else key
        self.parts = fixture.leaf(fixture.leaf_extensions(**held), key=self.key)

    def der(self):
        return fixture.certificate(self.parts) + (b"\x00" if "bytes" in self.broken else b"")

    def ders(self):
        return [each if isinstance(each, bytes) else fixture.certificate(each) for each in self.chain]

    def chain_words(self):
        return ["none"] if self.chain is None else ["chain", ",".join(each.hex() for each in self.ders()) or "-"]

    def refusal(self, rows):
        for name, error in (("bytes", "X509Error"), ("usage", "CertificateWithoutDigitalSignatureKeyUsage"),
                            ("purposes", "CertificateWithoutCodeSigningKeyUsage"), ("names", "CertificateWithoutSubjectAlternativeName")):
            if name in self.broken:
                return error
        if self.now < FIRST:
            return "CertificateValidityError(%d)" % FIRST
        return self.chain_refusal(rows) or ("PublicKeyUnsupportedAlgorithmError" if self.key == UNSUPPORTED else None)

    def chain_refusal(self, rows):
        if self.chain is None:
            return None
        for index, each in enumerate(self.chain):
            if isinstance(each, bytes) or each is BOUND:
                return "CertificatePoolError(Anchor(%d))" % index
        if "twice" in self.broken:
            return "CertificatePoolError(Malformed)"
        signed = any(each["subject"] == self.parts["issuer"] and certificate_row(self.parts, each) in rows for each in self.chain)
        return None if signed and self.now <= LAST else "CertificatePoolError(VerificationFailed)"


def certificate(layer, certified, required=False, rows=None):
    rows = [certificate_row(certified.parts, ANCHOR), message_row(certified.key)] if rows is None else rows

    def made():
        refusal = certified.refusal(rows)
        if refusal is not None:
            raise Refused(refusal)
        timely = not required if layer.bundle is None else FIRST <= layer.time() <= LAST
        return is_signed(layer, SCHEME, certified.key, rows) and timely
    answer(" ".join(["certificate", *layer.words(), hexed(certified.der()), truth(required), *certified.chain_words(), str(certified.now),
                     *rows_words(rows)]), made)


def certificates():
    say("certificate LAYER DER REQUIRED CHAIN NOW ROWS: whether the layer is signed by the certificate's key, and a log took it while that was valid.")
    for now in (FIRST - 1, FIRST, LAST, LAST + 1, -2**63, -1, 0, 2**63 - 1):
        certificate(Layer(), Certified(chain=None, now=now))
    for bundle, required in itertools.product((None, *("%s:%d" % (kind, time) for kind in ("rekor", "sigstore") for time in
                                                       (-2**63, -1, 0, FIRST - 1, FIRST, LAST, LAST + 1, 2**63 - 1))), (False, True)):
        certificate(Layer(bundle=bundle), Certified(chain=None), required)
    say("The layer's signature absent, no base64, of another key, and over other data.")
    for change, bundle in itertools.product(({"signature": None}, {"signature": "%"}, {"signature": ""}, {"raw": b"x"}, {"signature": "c2l\nn"}), (None, "rekor:%d" % FIRST)):
        certificate(Layer(bundle=bundle, **change), Certified(chain=None))
    certificate(Layer(), Certified(chain=None), rows=[message_row(fixture.key(3))])
    say("Chains: the anchor, others beside it, another alone, an empty one, what is not an anchor, and an issuer that did not sign.")
    for chain in ((ANCHOR,), (OTHER, ANCHOR), (ANCHOR, OTHER), (OTHER,), (), (b"x",), (ANCHOR, b""), (BOUND,), (ANCHOR, BOUND, b"x"), (OTHER,) * 300 + (ANCHOR,)):
        certificate(Layer(), Certified(chain=chain))
    certificate(Layer(), Certified(), rows=[message_row(fixture.key(2))])
    for now in (FIRST - 1, FIRST, LAST, LAST + 1, -2**63, 0, 2**63 - 1):
        certificate(Layer(), Certified(now=now))
    say("Each refusal as the first, and each two at once.")
    breaks = (("bytes", {}), ("usage", {}), ("purposes", {}), ("names", {}), ("now", {"now": FIRST - 1}), ("anchor", {"chain": (b"x",)}), ("twice", {}),
              ("issuer", {"chain": (OTHER,)}), ("key", {"key": UNSUPPORTED}))
    for number in (1, 2):
        for chosen in itertools.combinations(breaks, number):
            changes = {name: value for _, change in reversed(chosen) for name, value in change.items()}
            certificate(Layer(), Certified(tuple(name for name, _ in chosen), **changes))


# ---- markers

LEFT = {}  # by the call that changes a layer, the lines that it may have out of memory: the layer is as it was, or as the constraints before left it


def marked(beside, asked):
    """What is beside the image with these annotations, None where a name has another value."""
    creator, timestamp, extra = (None, None, {}) if beside is None else beside
    if any(name in extra and (extra[name] != text or not isinstance(extra[name], str)) for name, text in asked.items()):
        return None
    return creator, timestamp, {**extra, **asked}


def mark(optional, asked):
    layer = Layer(optional, signature=None)
    beside = layer.beside()
    given = marked(beside, asked)
    after = beside if given is None else given
    call = " ".join(["mark", *layer.words(), *pairs_of(asked)])
    TABLE.case(call, " ".join(["ok", truth(given is not None), *beside_words(after), "-", truth(has(after, asked))]))
    LEFT[call] = [" ".join(["OutOfMemory", *beside_words(beside), "-", truth(has(beside, asked))])]


def markers():
    say("mark LAYER NAME TEXT ..: whether the annotations apply; creator, time and annotations afterwards, the signature, and whether the layer has them.")
    for optional, asked in itertools.product(BESIDES, ASKED):
        mark(optional, asked)
    say("Values of each kind that the name has; its own text.")
    for value in (None, True, False, 0, 1, -1, "", "x", "1", "true", [], ["x"], {}, {"x": "y"}):
        for text in ("", "x", "1", "true", "null"):
            mark({"a": value, "b": 2}, {"a": text})
    say("Three hundred names, beside three hundred others.")
    many = {"n%03d" % number: "t%d" % number for number in range(300)}
    mark(many, {"m%03d" % number: "t" for number in range(300)})
    mark(many, many)
    mark({**many, "n299": "x"}, many)


def shown(optional, asked):
    """Members of one name: the payload's own first."""
    creator, timestamp, extra = marked(Layer(optional).beside(), asked)
    own = [(name, value) for name, value in (("creator", creator), ("timestamp", timestamp)) if value is not None]
    lines = ["    %s: %s" % (compact(name), compact(value)) for name, value in sorted([*own, *extra.items()], key=lambda pair: pair[0])]
    within = '"optional": {\n%s\n  }' % ",\n".join(lines) if lines else '"optional": {}'
    text = layers.signing_text((*cosign.signing_of(compact(cosign.payload()))[:3], None)).replace('"optional": null', within)
    TABLE.case(" ".join(["shown", *Layer(optional).words(), *pairs_of(asked)]), "ok true " + debug(text))


def shown_markers():
    say("shown LAYER NAME TEXT ..: whether the annotations apply, and the text that the payload is then shown as: members of one name, its own first.")
    optionals = (None, {}, {"creator": "c"}, {"timestamp": 7}, {"creator": "c", "timestamp": 7, "env": "prod"})
    for optional, asked in itertools.product(optionals, ({}, {"creator": "d"}, {"timestamp": "8"}, {"creator": "d", "timestamp": "8", "a": "", "z": "x"})):
        shown(optional, asked)


# ---- lists


def unsatisfied(indices):
    return "Unsatisfied(%s)" % indices if indices else "ok"


def verify(signatures, constraints):
    def holds(constraint, signature):
        return constraint == "always" or constraint == "=" + signature
    missing = [index for index, each in enumerate(constraints) if not any(holds(each, signature) for signature in signatures)]
    TABLE.case("verify %s %s" % (",".join(signatures) or "-", ",".join(constraints) or "-"), unsatisfied(missing))


def lists():
    say("verify SIGNATURES CONSTRAINTS: whether layers with these signatures satisfy constraints of the program: of each layer, of none, that fail, of a signature.")
    kinds = ("always", "never", "fails", "=a", "=b")
    for signatures in ((), ("a",), ("b", "a"), ("c",)):
        for constraints in ((), *itertools.product(kinds, repeat=1), *itertools.product(kinds, repeat=2)):
            verify(signatures, constraints)
    verify(("a", "b"), ("fails", "=b", "never", "always", "=a", "=c"))
    say("Lists of three hundred.")
    many = ["s%d" % number for number in range(300)]
    verify(many, ["=" + each for each in many])
    verify(many, ["=" + each for each in reversed(many)])
    verify(many[:299], ["=" + each for each in many])
    verify(many[1::2], ["=" + each for each in many])
    verify(many, ["fails"] * 300)
    verify(many, ["=s299"] * 300)
    verify((), ["always"] * 300)


def layer_words(beside, signature):
    return " ".join([*beside_words(beside), "-" if signature is None else debug(signature)])


def apply(layer, constraints):
    beside, signature, missing = layer.beside(), layer.signature, []
    left = [layer_words(beside, signature)]
    for index, each in enumerate(constraints):
        name, colon, text = each.partition(":")
        if colon:
            given = marked(beside, {name: text})
            applies = given is not None
            beside = given if applies else beside
        elif each.startswith("="):
            applies = signature is None
            signature = each[1:] if applies else signature
        else:
            applies = each == "always"
        if not applies:
            missing.append(index)
        left.append(layer_words(beside, signature))
    call = " ".join(["apply", *layer.words(), ",".join(constraints) or "-"])
    TABLE.case(call, " ".join(["Unapplied(%s)" % missing if missing else "ok", left[-1]]))
    LEFT[call] = ["OutOfMemory " + each for each in dict.fromkeys(left)]


def applied():
    say("apply LAYER CONSTRAINTS: which constraints do not apply, and the layer afterwards: markers of one annotation, and constraints of the program.")
    apply(Layer({"env": "staging"}, signature=None), ("env:prod",))
    apply(Layer(None, signature=None), ("env:prod",))
    kinds = ("always", "never", "fails", "=a", "=b", "env:prod", "env:staging", "x:y")
    for optional, signature in ((None, None), ({"env": "prod"}, "old")):
        for constraints in ((), *itertools.product(kinds, repeat=1), *itertools.product(kinds, repeat=2)):
            apply(Layer(optional, signature=signature), constraints)
    say("Lists of three hundred.")
    many = ["n%d:t%d" % (number, number) for number in range(300)]
    apply(Layer(None, signature=None), many)
    apply(Layer({"n%d" % number: "x" for number in range(0, 300, 2)}, signature=None), many)
    apply(Layer(None, signature=None), ["=s%d" % number for number in range(300)])
    apply(Layer(None, signature=None), ["fails"] * 299 + ["x:y"])


def main():
    for part in (annotations, emails, urls, strings, keys, trusted, certificates, markers, shown_markers, lists, applied):
        part()
    TABLE.write()


if __name__ == "__main__":
    main()
