"""Rows of x509_cases that state a change of the fixture leaf and the answer: those of x509_cases.txt, and each bit and purpose by itself."""
import os

import fixture
from fixture import der, extension, extensions, key, leaf_extensions, sha256, spelled
from x509_calls import KINDS, ROOT, answer, case, genuine_leaf, group, leaf_with, listed, pool_line, with_part, written
from x509_reader import cut, read_or_none

HERE = os.path.dirname(os.path.abspath(__file__))


# The rows of the table.

def certificate_case(cause, change, expected):
    content = fixture.certificate(with_part(fixture.leaf(leaf_extensions(scts=b"")), change))
    line = read_or_none(content)
    assert (expected == "ok") == (line is not None) and expected in ("ok", "Der"), cause
    case(cause, "certificate " + spelled(content), line or "Der")


def judged_case(call):
    def judged(cause, change, changes, expected):
        case(cause, "%s %s" % (call, spelled(fixture.certificate(leaf_with(change, changes)))), expected)
    return judged


def trusted_case(cause, integrated, now, changes, expected):
    case(cause, "is_trusted %s %s %s" % (integrated, now, spelled(fixture.certificate(leaf_with("", changes)))), expected)


def pool_case(cause, time, change, changes, expected):
    parts = leaf_with(change, changes)
    case(cause, pool_line(time, parts, [ROOT], genuine_leaf(parts)), expected)


def crowd_case(cause, count, last, expected):
    numbers = [bytes([42, number // 100, number % 100]) for number in range(int(count))]
    crowd = b"".join(extension(oid, b"") for oid in numbers + [bytes.fromhex(last)])
    parts = fixture.leaf(leaf_extensions(others=crowd))
    case(cause, pool_line(1702446655, parts, [ROOT], genuine_leaf(parts)), expected)


def sct_of(parts):
    """The fields of the only SCT."""
    found = [cut(content) for _, content, _ in cut(cut(cut(parts["extensions"])[0][1])[0][1])]
    value = [each[-1][1] for each in found if each[0][1] == fixture.SCT_LIST][0]
    text = cut(value)[0][1][4:]
    more = int.from_bytes(text[41:43], "big")
    return text[1:33], int.from_bytes(text[33:41], "big"), text[43:43 + more], text[47 + more:]


def embedded_line(parts, spki):
    log_id, time, more, signature = sct_of(parts)
    body = fixture.tbs({**parts, "extensions": fixture.without_scts(parts["extensions"])})
    return answer(log_id.hex(), time, sha256(spki).hex(), body.hex(), written(more), written(signature))


def embedded_case(cause, changes, expected):
    parts = leaf_with("", changes)
    if expected == "ok":
        expected = embedded_line(parts, key(1))
    case(cause, "embedded_sct %s %s" % (spelled(fixture.certificate(parts)), spelled(key(1))), expected)


AUTHORITY = "usage=03020204 constraints=30030101ff"
CHAIN = {
    "leaf": "",
    "authority": AUTHORITY + " purposes=-",
    "other-purpose": AUTHORITY,
    "signer": AUTHORITY + " purposes=300c060a2b06010401d679020404",
    "signer-among": AUTHORITY + " purposes=301606082b06010505070303060a2b06010401d679020404",
    "leaf-signer": "purposes=300c060a2b06010401d679020404",
    "malformed-purposes": AUTHORITY + " purposes=300e060a2b06010401d6790204040500",
    "purposes-twice": AUTHORITY + " purposes=300c060a2b06010401d679020404 second-purposes=300c060a2b06010401d679020404",
    "constraints-alone": "constraints=30030101ff",
    "malformed-constraints": "usage=03020204 constraints=",
}


def chain_case(cause, changes, words, expected):
    chain = []
    for word in words.split(" ") if words != "-" else []:
        name, number = word.split(":")
        chain.append(fixture.certificate({**leaf_with("", CHAIN[name]), "key": key(int(number))}))
    parts = leaf_with("", changes)
    if expected.isdigit():
        expected = embedded_line(parts, key(int(expected)))
    case(cause, "embedded_sct_of_chain %s %s" % (spelled(fixture.certificate(parts)), listed(chain)), expected)


def word_extension(word):
    """The extension `KIND:NUMBER` whose value has this many bytes 00; `false` is one that says that it is not critical."""
    name, size = word.split(":")
    if name == "false":
        return der(0x30, der(6, fixture.FULCIO["ref"]), der(1, b"\x00"), der(4, bytes(int(size))))
    oid, critical = KINDS[name]
    return extension(oid, bytes(int(size)), critical)


def precert_case(cause, change, words, before, after):
    def parts_of(kept):
        parts = with_part(fixture.leaf(leaf_extensions(scts=b"")), change)
        return {**parts, "extensions": b"" if words == "-" else extensions(*[word_extension(word) for word in kept])}
    every = [word for word in words.split(" ") if ":" in word]
    old = parts_of(every)
    new = parts_of([word for word in every if word.split(":")[0] not in ("list", "critical-list")])
    for parts, heads in [(old, before), (new, after)]:
        body, held_head = map(bytes.fromhex, heads.split("/"))
        assert fixture.tbs(parts).startswith(body) and parts["extensions"].startswith(held_head), cause
    body = fixture.tbs(new)
    if len(body) < 1000:
        case(cause, "precert_tbs_der " + spelled(fixture.certificate(old)), answer(body.hex()))
    else:
        case(cause, "precert_tbs_digest " + spelled(fixture.certificate(old)), answer(len(body), sha256(body).hex()))


def identity_case(cause, changes, expected):
    case(cause, "identity a %s %s" % (fixture.ISSUER, spelled(fixture.certificate(leaf_with("", changes)))), expected)


def policy_case(name):
    def policy(cause, changes, expected):
        case(cause, "policy %s a %s" % (name, spelled(fixture.certificate(leaf_with("", changes)))), expected)
    return policy


def key_case(cause, digits, expected):
    case(cause, "key " + spelled(bytes.fromhex(digits)), expected)


def writer(kind):
    """What writes the rows of a kind."""
    if kind.startswith("policy:"):
        return policy_case(kind.removeprefix("policy:"))
    by_kind = {"certificate": certificate_case, "is_trusted": trusted_case, "pool": pool_case, "crowd": crowd_case,
               "embedded_sct": embedded_case, "embedded_sct_of_chain": chain_case, "precert": precert_case,
               "identity": identity_case, "key": key_case}
    return by_kind.get(kind) or judged_case(kind)


def rows():
    with open(os.path.join(HERE, "x509_cases.txt"), encoding="utf-8") as file:
        lines = file.read().splitlines()
    for line in lines:
        if line.startswith("@"):
            kind, title = line[1:].split(" ", 1)
            group("%s: %s" % (kind.replace("policy:", ""), title))
            write = writer(kind)
        elif line:
            write(*line.split("|"))


# What stands for itself in a row.

USAGES = ["digitalSignature", "nonRepudiation", "keyEncipherment", "dataEncipherment", "keyAgreement", "keyCertSign", "cRLSign",
          "encipherOnly", "decipherOnly"]
PURPOSES = {1: "serverAuth", 2: "clientAuth", 3: "codeSigning", 4: "emailProtection", 8: "timeStamping", 9: "OCSPSigning"}


def bits():
    """Each bit of key usage by itself (RFC 5280 section 4.2.1.3), and each purpose by itself (section 4.2.1.12)."""
    group("each bit of key usage alone")
    for number, name in enumerate(USAGES):
        octets = number // 8 + 1
        value = der(3, bytes([octets * 8 - number - 1]) + (1 << octets * 8 - number - 1).to_bytes(octets, "big"))
        usage = "usage=" + value.hex()
        judged_case("is_leaf")(name, "", usage, "ok" if number == 0 else "Extension(BitUnset(KeyUsageDigitalSignature))")
        judged_case("verify_key_usages")(name, "", usage, "ok" if number == 0 else "CertificateWithoutDigitalSignatureKeyUsage")
        judged_case("is_ca")(name, "", usage + " constraints=30030101ff",
                             "ok" if number == 5 else "NotCA(Invalid { ca: true, key_cert_sign: false })")
    group("each purpose of extended key usage alone")
    for number, name in PURPOSES.items():
        change = "purposes=" + der(0x30, der(6, fixture.oid("1.3.6.1.5.5.7.3.%d" % number))).hex()
        judged_case("is_leaf")(name, "", change, "ok" if number == 3 else "Extension(BitUnset(ExtendedKeyUsageDigitalSignature))")
        judged_case("verify_key_usages")(name, "", change, "ok" if number == 3 else "CertificateWithoutCodeSigningKeyUsage")
    group("each extension of Fulcio alone, by the number after 1.3.6.1.4.1.57264.1, with every policy")
    names = ["OIDCIssuer", "GitHubWorkflowTrigger", "GitHubWorkflowSHA", "GitHubWorkflowName", "GitHubWorkflowRepository", "GitHubWorkflowRef"]
    for number in range(1, 10):
        held_alone = {name: b"" for name in leaf_extensions()}
        held_alone["others"] = extension(fixture.oid("1.3.6.1.4.1.57264.1.%d" % number), b"a")
        content = spelled(fixture.certificate(fixture.leaf(held_alone)))
        for place, name in enumerate(names, start=1):
            case("%d: %s" % (number, name), "policy %s a %s" % (name, content), "ok" if place == number else "ExtensionNotFound")
