"""Rows of x509_cases of lists: 300 elements of each, keyrings, and several policies."""
import fixture
from fixture import der, extension, key, leaf_extensions, sha256, spelled
from x509_calls import answer, case, group, leaf_with, listed
from x509_reader import read_certificate
from x509_rows import CHAIN, embedded_case, embedded_line, identity_case, judged_case
from x509_sigstore import extension_at, extension_line


def hundreds():
    """Lists of 300 extensions."""
    group("300 extensions")
    several = b"".join(extension(bytes([42, number // 100, number % 100]), bytes([number % 256]), number % 2 == 1) for number in range(300))
    parts = fixture.leaf(leaf_extensions(others=several))
    content = fixture.certificate(parts)
    case("all of them", "certificate " + spelled(content), read_certificate(content))
    count = int(read_certificate(content).split(" ")[11])
    assert count == 305
    for index in [0, 150, 299, count - 1, count]:
        extension_at("extension %d of %d" % (index, count), content, index)
    case("the last by its identifier", "extension 2a0263 " + spelled(content), extension_line(content, count - 1))
    without = fixture.tbs({**parts, "extensions": fixture.without_scts(parts["extensions"])})
    case("of the precertificate", "precert_tbs_digest " + spelled(content), answer(len(without), sha256(without).hex()))
    case("beside the SCT", "embedded_sct %s %s" % (spelled(content), spelled(key(1))), embedded_line(parts, key(1)))


def hundreds_of_names():
    """Lists of 300 purposes, names and SCTs."""
    group("300 purposes, names and SCTs")
    others = b"".join(der(6, fixture.oid("1.3.6.1.5.5.7.3.%d" % (number + 10))) for number in range(299))
    unset = "Extension(BitUnset(ExtendedKeyUsageDigitalSignature))"
    for cause, last, expected in [("code signing is the last", der(6, fixture.CODE_SIGNING), "ok"), ("without code signing", der(6, b"*"), unset),
                                  ("the last is malformed", der(5), "Malformed")]:
        judged_case("is_leaf")(cause, "", "purposes=" + der(0x30, others, last).hex(), expected)
    emails = b"".join(der(0x81, b"%d" % number) for number in range(299))
    for cause, last, has, policy in [
            ("the last is the one", der(0x86, b"a"), "ok", "ok"),
            ("the last is another", der(0x86, b"b"), "ok",
             'ExtensionCheckFailed { extension: "SubjectAltName", expected: "a", actual: "%s, b" }' % ", ".join(map(str, range(299)))),
            ("the last is malformed", der(0x86, b"\xff"), "CertificateWithoutSubjectAlternativeName", "ExtensionNotFound")]:
        names = "names=" + der(0x30, emails, last).hex()
        judged_case("verify_has_san")(cause, "", names, has)
        identity_case(cause, names, policy)
    sct = bytes(43) + bytes.fromhex("04030000")

    def vector(item):
        return len(item).to_bytes(2, "big") + item
    for cause, items, expected in [
            ("all of them", [sct] * 300, "LeafSCTMissing"), ("the last is empty", [sct] * 299 + [b""], "LeafSCTMissing"),
            ("the last is cut", None, "LeafSCTMalformed")]:
        held_list = b"".join(map(vector, [sct] * 299)) + vector(sct)[:-1] if items is None else b"".join(map(vector, items))
        embedded_case(cause, "list=" + der(4, vector(held_list)).hex(), "Parsing(%s)" % expected)


def hundreds_of_certificates():
    """Lists of 300 certificates of a chain and of keys of a ring."""
    group("300 certificates of a chain, and keys of a ring")
    chain = [{**leaf_with("", CHAIN["authority"]), "key": key(1)}] + [{**leaf_with(), "key": key(number % 200 + 2)} for number in range(299)]
    parts = leaf_with()
    for cause, certificates, expected in [("the issuer is the first", chain, embedded_line(parts, key(1))),
                                          ("the issuer is the last", chain[::-1], "Parsing(IssuerMissing)")]:
        case(cause, "embedded_sct_of_chain %s %s" % (spelled(fixture.certificate(parts)), listed(map(fixture.certificate, certificates))), expected)
    ring = [fixture.wide_key()] * 299
    for cause, keys, identifier, expected in [
            ("the key is the last", ring + [key(3)], key(3), "VerificationFailed"), ("the key is the first", [key(3)] + ring, key(3), "VerificationFailed"),
            ("another key", ring + [key(3)], key(4), "KeyNotFound")]:
        case(cause, "keyring %s %s - -" % (listed(keys), spelled(sha256(identifier))), expected)


def keyrings():
    ring = listed([b"", key(3), b"\x30\x00"])
    group("a keyring of no key, a key, and no key")
    for cause, identifier, expected in [("the key", key(3), "VerificationFailed"), ("the first", b"", "KeyNotFound"),
                                        ("the last", b"\x30\x00", "KeyNotFound"), ("another key", key(4), "KeyNotFound")]:
        case(cause, "keyring %s %s - -" % (ring, spelled(sha256(identifier))), expected)


def policies():
    content = spelled(fixture.certificate(leaf_with()))
    failed = 'ExtensionCheckFailed { extension: "SubjectAltName", expected: "https://other", actual: "https://example.com/workflow" }'
    group("the identity of the fixture leaf")
    case("the workflow", "identity %s %s %s" % (fixture.WORKFLOW, fixture.ISSUER, content), "ok")
    case("another", "identity https://other %s %s" % (fixture.ISSUER, content), failed)
    case("another issuer", "identity %s x %s" % (fixture.WORKFLOW, content),
         'ExtensionCheckFailed { extension: "OIDCIssuer", expected: "x", actual: "https://issuer.example" }')
    case("no commit", "policy GitHubWorkflowSHA x " + content, "ExtensionNotFound")
    group("all of several policies, and any of them")
    met, one, other = "OIDCIssuer=" + fixture.ISSUER, "OIDCIssuer=x", "OIDCIssuer=y"

    def refusal(text):
        return 'ExtensionCheckFailed { extension: "OIDCIssuer", expected: "%s", actual: "https://issuer.example" }' % text
    for call, listing, expected in [
            ("all", [met], "ok"), ("all", [met, met], "ok"), ("all", [], "ok"),
            ("all", [one, met, other], all_of(3, refusal("x"), refusal("y"))),
            ("all", [met, "GitHubWorkflowRef=x"], all_of(2, "ExtensionNotFound")),
            ("any", [one, met], "ok"), ("any", [met, one], "ok"), ("any", [one, other], "AnyOf { total: 2 }"), ("any", [], "AnyOf { total: 0 }")]:
        case("%s of %s" % (call, " and ".join(listing) or "none"), "%s %s %s" % (call, ",".join(listing) or "-", content), expected)


def all_of(total, *refusals):
    return "AllOf { total: %d, errors: PolicyErrors { items: [%s] } }" % (total, ", ".join(refusals))
