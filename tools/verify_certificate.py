"""What `verify` demands of certificates, in the plainest way: extensions, profiles, SCTs, keys and policies, for tools/verify_links.py.

Written from RFC 5280 (certificates), X.690 (DER), RFC 6962 section 3 (SCTs), RFC 5480, RFC 3279 and RFC 8410 (keys), RFC 7468 (PEM) and Fulcio's
list of object identifiers. A certificate is cut into its fields by tools/x509_reader.py, which this one continues.
"""
import base64
import hashlib
import textwrap
from types import SimpleNamespace

import der_cases as der
import x509_reader as x509
from fixture import oid
from rekor_cases import debug


def sha256(content):
    return hashlib.sha256(content).digest()


# Certificates, as tools/x509_reader.py reads them, and the values of their extensions (RFC 5280 section 4.2).

KEY_USAGE, ALTERNATIVE_NAME, BASIC_CONSTRAINTS = b"\x55\x1d\x0f", b"\x55\x1d\x11", b"\x55\x1d\x13"
NAME_CONSTRAINTS, EXTENDED_KEY_USAGE = b"\x55\x1d\x1e", b"\x55\x1d\x25"
CODE_SIGNING = oid("1.3.6.1.5.5.7.3.3")
SCT_LIST = oid("1.3.6.1.4.1.11129.2.4.2")
FULCIO = "1.3.6.1.4.1.57264.1."
MALFORMED = "malformed"


class Certificate:
    def __init__(self, words):
        unhex = lambda word: b"" if word == "-" else bytes.fromhex(word)
        self.version, self.not_before, self.not_after = map(int, words[:3])
        self.inner, self.algorithm, self.issuer, self.subject, self.spki, self.tbs, self.signature = map(unhex, words[3:10])
        self.extensions = []
        for at in range(11, len(words), 4):
            identifier, critical, value, whole = words[at:at + 4]
            self.extensions.append(SimpleNamespace(oid=unhex(identifier), critical=critical == "true", value=unhex(value), whole=unhex(whole)))

    def of(self, identifier):
        return [each for each in self.extensions if each.oid == identifier]

    def value(self, identifier, reader):
        """None where there is no such extension, `MALFORMED` where its value is malformed or where there are several."""
        found = self.of(identifier)
        if not found:
            return None
        try:
            return reader(found[0].value) if len(found) == 1 else MALFORMED
        except x509.NoCertificate:
            return MALFORMED


def read_certificate(content):
    line = x509.read_or_none(content)
    return Certificate(line.split()[1:]) if line else None


def sole(content, tag):
    """The contents octets of the one element of this tag that the bytes are."""
    elements = x509.cut(content)
    x509.ask(x509.tags(elements) == [tag])
    return elements[0][1]


def key_usage(value):
    """The first octet of the bits (section 4.2.1.3)."""
    content = sole(value, 3)
    x509.ask(content and content[0] <= 7 and (len(content) > 1 or content[0] == 0))
    return content[1] if len(content) > 1 else 0


def purposes(value):
    """The purposes' object identifiers (section 4.2.1.12)."""
    elements = x509.cut(sole(value, 0x30))
    x509.ask(all(tag == 6 and content for tag, content, _ in elements))
    return [content for _, content, _ in elements]


def basic_constraints(value):
    """`cA` and the path length (section 4.2.1.9), None where there is no length."""
    elements = x509.cut(sole(value, 0x30))
    authority = False
    if x509.tags(elements)[:1] == [1]:
        truth = elements.pop(0)[1]
        x509.ask(truth in (b"\x00", b"\xff"))
        authority = truth == b"\xff"
    if not elements:
        return authority, None
    length = elements[0][1]
    x509.ask(x509.tags(elements) == [2] and 1 <= len(length) <= 4 and length[0] < 0x80)
    x509.ask(len(length) == 1 or length[0] or length[1] >= 0x80)
    return authority, int.from_bytes(length, "big")


def is_authority(value):
    return basic_constraints(value)[0]


def alternative_names(value):
    """Emails, URIs and Fulcio's other names, in order (section 4.2.1.6); an other name is not a text where it is not UTF-8."""
    names = []
    for tag, content, _ in x509.cut(sole(value, 0x30)):
        x509.ask(tag & 0xC0 == 0x80 and tag & 0x1F <= 8)
        if tag in (0x81, 0x86):
            x509.ask(content.isascii())
            names.append(content.decode())
        if tag == 0xA0:
            parts = x509.cut(content)
            x509.ask(x509.tags(parts) == [6, 0xA0] and parts[0][1])
            inner = x509.cut(parts[1][1])
            x509.ask(len(inner) == 1)
            if parts[0][1] == oid(FULCIO + "7"):
                names += [text for text in [utf8(inner[0][1])] if text is not None]
    return names


def utf8(content):
    try:
        return content.decode("utf-8")
    except UnicodeDecodeError:
        return None


def authority_refusal(certificate):
    """Why the certificate is that of no certification authority; None where it is."""
    if certificate.version != 3:
        return "VersionUnsupported"
    authority, usage = certificate.value(BASIC_CONSTRAINTS, is_authority), certificate.value(KEY_USAGE, key_usage)
    if authority == MALFORMED:
        return "Malformed"
    if authority is None:
        return "Extension(Missing(BasicConstraints))"
    if not certificate.of(BASIC_CONSTRAINTS)[0].critical:
        return "Extension(NotCritical(BasicConstraints))"
    if usage == MALFORMED:
        return "Malformed"
    if usage is None:
        return "Extension(Missing(KeyUsage))"
    signs = usage & 0x04 != 0
    if authority and signs:
        return None
    if not authority and not signs:
        return "NotCA(NotCA)"
    return "NotCA(Invalid { ca: %s, key_cert_sign: %s })" % (str(authority).lower(), str(signs).lower())


def is_root(certificate):
    """Whether it is of a certification authority, and by its names its own issuer."""
    return authority_refusal(certificate) is None and certificate.issuer == certificate.subject


def leaf_refusal(certificate):
    """Why the certificate is not a leaf that signs code; None where it is."""
    if certificate.version != 3:
        return "VersionUnsupported"
    if authority_refusal(certificate) is None:
        return "NotLeaf(IsCA)"
    usage, listed = certificate.value(KEY_USAGE, key_usage), certificate.value(EXTENDED_KEY_USAGE, purposes)
    if usage == MALFORMED:
        return "Malformed"
    if usage is None:
        return "Extension(Missing(KeyUsage))"
    if not usage & 0x80:
        return "Extension(BitUnset(KeyUsageDigitalSignature))"
    if listed == MALFORMED:
        return "Malformed"
    if listed is None:
        return "Extension(Missing(ExtendedKeyUsage))"
    return None if CODE_SIGNING in listed else "Extension(BitUnset(ExtendedKeyUsageDigitalSignature))"


KNOWN = (KEY_USAGE, ALTERNATIVE_NAME, BASIC_CONSTRAINTS, EXTENDED_KEY_USAGE)


def is_fit(certificate):
    """Whether it can be judged: all that is critical is known, and nothing is there twice."""
    identifiers = [each.oid for each in certificate.extensions]
    return (certificate.version == 3 and certificate.inner == certificate.algorithm and len(set(identifiers)) == len(identifiers)
            and all(each.oid in KNOWN for each in certificate.extensions if each.critical) and not certificate.of(NAME_CONSTRAINTS))


def is_issuable(leaf):
    """Whether an issuer may be looked for: it can be judged, and is not an authority."""
    return is_fit(leaf) and not leaf.value(BASIC_CONSTRAINTS, is_authority)


def may_stand(certificate, time, others):
    """Whether an intermediate may be in a path, with this many others between it and the leaf (sections 4.2.1.9 and 4.2.1.12)."""
    if not is_fit(certificate) or authority_refusal(certificate) is not None:
        return False
    listed, length = certificate.value(EXTENDED_KEY_USAGE, purposes), certificate.value(BASIC_CONSTRAINTS, basic_constraints)[1]
    return (certificate.not_before <= time <= certificate.not_after and listed != MALFORMED and (listed is None or CODE_SIGNING in listed)
            and (length is None or others <= length))


# SCTs, the precertificate that they sign, and keys.

class Malformed(Exception):
    pass


def vector(content, size=2):
    """A vector whose length comes before it (RFC 5246 section 4.3), and what follows."""
    end = size + int.from_bytes(content[:size], "big")
    if len(content) < end:
        raise Malformed
    return content[size:end], content[end:]


def taken(content, size):
    if len(content) < size:
        raise Malformed
    return content[:size], content[size:]


def sct_texts(value):
    """The SCTs of the extension's value (RFC 6962 section 3.3)."""
    try:
        listed, rest = vector(sole(value, 4))
    except x509.NoCertificate:
        raise Malformed from None
    texts = []
    while listed:
        text, listed = vector(listed)
        texts.append(text)
    if rest:
        raise Malformed
    return texts


def read_sct(text):
    """One SCT (RFC 6962 section 3.2); its signature's two bytes of algorithms are not compared."""
    version, rest = taken(text, 1)
    log_id, rest = taken(rest, 32)
    timestamp, rest = taken(rest, 8)
    extensions, rest = vector(rest)
    _, rest = taken(rest, 2)
    signature, rest = vector(rest)
    if version != b"\x00" or rest:
        raise Malformed
    return SimpleNamespace(log_id=log_id, timestamp=timestamp, extensions=extensions, signature=signature)


def precertificate(certificate):
    """The TBSCertificate without its lists of SCTs; all else as it is (RFC 6962 section 3.2)."""
    kept = [each.whole for each in certificate.extensions if each.oid != SCT_LIST]
    extensions = der.element(0xA3, der.element(0x30, b"".join(kept)))
    parts = [extensions if tag == 0xA3 else whole for tag, _, whole in x509.cut(sole(certificate.tbs, 0x30))]
    return der.element(0x30, b"".join(parts))


def counted(content, size):
    return len(content).to_bytes(size, "big") + content


def signed_by_log(tbs, issuer_spki, found):
    """What a log signs for a precertificate (section 3.2)."""
    return b"\x00\x00" + found.timestamp + b"\x00\x01" + sha256(issuer_spki) + counted(tbs, 3) + counted(found.extensions, 2)


def spki_parts(content):
    """Algorithm, its parameters and the key's bits, or None (RFC 5280 section 4.1.2.7)."""
    try:
        parts = x509.cut(sole(content, 0x30))
        x509.ask(x509.tags(parts) == [0x30, 3])
        x509.read_algorithm(parts[0][1])
        algorithm = x509.cut(parts[0][1])
        return algorithm[0][1], [each[:2] for each in algorithm[1:]], x509.read_bits(parts[1][1])
    except x509.NoCertificate:
        return None


ELLIPTIC = oid("1.2.840.10045.2.1")
CURVES = {oid("1.2.840.10045.3.1.7"): "ECDSA_P256_SHA256_ASN1", oid("1.3.132.0.34"): "ECDSA_P384_SHA384_ASN1",
          oid("1.3.132.0.35"): "ECDSA_P521_SHA512_ASN1"}
OTHERS = {oid("1.2.840.113549.1.1.1"): "RSA_PKCS1_SHA256", oid("1.3.101.112"): "ED25519"}


def scheme_of(spki):
    """The scheme of a key's kind; None for an unsupported one (RFC 5480, RFC 3279, RFC 8410)."""
    algorithm, parameters, _ = spki_parts(spki)
    if algorithm == ELLIPTIC:
        return CURVES.get(parameters[0][1]) if parameters and parameters[0][0] == 6 else None
    return OTHERS.get(algorithm)


def log_point(keys, log_id):
    """The point of the P-256 key whose hash is this log id; keys of other kinds are passed over."""
    for key in keys:
        if sha256(key) == log_id and spki_parts(key) and scheme_of(key) == "ECDSA_P256_SHA256_ASN1":
            return spki_parts(key)[2]
    return None


# Policies: what a certificate says about who signed (Fulcio's object identifiers).

OIDS = {"OIDCIssuer": "1", "GitHubWorkflowTrigger": "2", "GitHubWorkflowSHA": "3", "GitHubWorkflowName": "4", "GitHubWorkflowRepository": "5",
        "GitHubWorkflowRef": "6"}


def check_failed(extension, expected, actual):
    return "ExtensionCheckFailed { extension: %s, expected: %s, actual: %s }" % (debug(extension), debug(expected), debug(actual))


def single_refusal(certificate, name, expected):
    """An extension of Fulcio, whose value is the text itself."""
    found = certificate.of(oid(FULCIO + OIDS[name]))
    actual = utf8(found[0].value) if len(found) == 1 else None
    if actual is None:
        return "ExtensionNotFound"
    return None if actual == expected else check_failed(name, expected, actual)


def rule_refusal(certificate, rule):
    name, texts = rule
    if name != "Identity":
        return single_refusal(certificate, name, *texts)
    identity, issuer = texts
    refusal = single_refusal(certificate, "OIDCIssuer", issuer)
    if refusal:
        return refusal
    names = certificate.value(ALTERNATIVE_NAME, alternative_names)
    if names is None or names == MALFORMED:
        return "ExtensionNotFound"
    return None if identity in names else check_failed("SubjectAltName", identity, ", ".join(names))


# PEM.

def pem(content):
    """RFC 7468 section 2, with a newline at the end."""
    lines = textwrap.wrap(base64.b64encode(content).decode(), 64)
    return "".join(line + "\n" for line in ["-----BEGIN CERTIFICATE-----", *lines, "-----END CERTIFICATE-----"]).encode()
