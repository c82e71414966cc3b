"""Rows of x509_cases of pools of trust anchors, and of the keys that a checker is asked about."""
import fixture
from fixture import der, key, spelled
from x509_calls import ROOT, answer, case, genuine_leaf, group, leaf_with, listed, pool_line, written
from x509_reader import read_certificate


def pools():
    parts = leaf_with()
    other_name = fixture.certificate(fixture.anchor(subject=fixture.name("another root")))
    other_key = fixture.certificate(fixture.anchor(key=key(9)))
    wide = fixture.certificate(fixture.anchor(key=fixture.wide_key()))
    several = [other_name, other_key, ROOT, ROOT]
    group("pools of several trust anchors")
    case("the first issuer of four", pool_line(1702446655, parts, several, genuine_leaf(parts)), "ok anchor 2")
    case("a signature that is not genuine", pool_line(1702446655, parts, several, []), "VerificationFailed")
    case("a signature under another key", pool_line(1702446655, parts, several, genuine_leaf(parts, key(9))), "ok anchor 1")
    case("a key of 294 bytes", pool_line(1702446655, parts, [wide], genuine_leaf(parts, fixture.wide_key())), "ok anchor 0")
    case("no trust anchor", pool_line(1702446655, parts, [], genuine_leaf(parts)), "VerificationFailed")
    for place, expected in [(0, answer(key(1).hex())), (1, answer(key(9).hex())), (2, answer(key(1).hex())), (4, "none")]:
        case("the SPKI of the trust anchor %d" % place, "issuer_spki anchor %d %s -" % (place, listed(several)), expected)
    content = fixture.certificate(parts)
    case("a leaf that is cut", "verify_der_cert 1702446655 %s %s -" % (spelled(content[:-1]), spelled(ROOT)), "Malformed")
    constrained = fixture.certificate(leaf_with("", "name-constraints=3000"))
    for cause, anchors, expected in [
            ("no trust anchor", [], "ok"), ("one", [ROOT], "ok"), ("no certificate at the second place", [ROOT, content[:-1]], "Anchor(1)"),
            ("no certificate at the first", [b"", ROOT], "Anchor(0)"), ("one with name constraints", [ROOT, ROOT, constrained], "Anchor(2)")]:
        case(cause, "from_certificates %s -" % listed(anchors), expected)


ORDERS = ["aa", "aab", "aba", "baa", "abab", "abba", "bbaa", "abc", "acb", "bac", "bca", "cab", "cba", "abcabc", "Aa", "aAa", "Aba", "bAa"]
FIRST_FIELDS = ["version", "first", "last", "inner", "algorithm", "issuer", "subject", "spki"]


def fields_of(content):
    """The first fields of a certificate, as they are read above."""
    return dict(zip(FIRST_FIELDS, read_certificate(content).split()[1:]))


def signer_among(leaf, anchors, under):
    """The first of the trust anchors that has the issuer's name and this key."""
    wanted = (fields_of(leaf)["issuer"], written(under))
    found = [fields_of(anchor) for anchor in anchors]
    places = [place for place, fields in enumerate(found) if (fields["subject"], fields["spki"]) == wanted]
    return answer("anchor", places[0]) if places else "VerificationFailed"


def anchors_in(order):
    """A trust anchor for each letter: its key, of the issuer's name, or of another name in upper case. No two are equal."""
    for place, letter in enumerate(order, start=1):
        changes = {"subject": fixture.name("another root")} if letter.isupper() else {}
        yield fixture.certificate(fixture.anchor(serial=der(2, bytes([place])), key=key(ord(letter.lower())), **changes))


def pools_of_one_name():
    parts = leaf_with()
    group("pools of trust anchors of one name: each letter a key, in upper case of another name")
    for order in ORDERS:
        anchors = list(anchors_in(order))
        for letter in sorted({*order.lower(), "z"}):
            under = key(ord(letter))
            expected = signer_among(fixture.certificate(parts), anchors, under)
            case("%s, signed under %s" % (order, letter), pool_line(1702446655, parts, anchors, genuine_leaf(parts, under)), expected)


def keys_asked(leaf, anchors, under=None):
    """The keys about which a checker is asked that accepts only this one: each of the issuer's name once, in order, up to that one."""
    issuer = fields_of(leaf)["issuer"]
    found = [fields_of(anchor) for anchor in anchors]
    keys = list(dict.fromkeys(fields["spki"] for fields in found if fields["subject"] == issuer))
    last = None if under is None else written(under)
    return keys[:keys.index(last) + 1] if last in keys else keys


def asked_case(cause, parts, anchors, under=None, time=1702446655, refusal=None):
    """What both calls return, and about which keys they ask: about none where a refusal is stated."""
    leaf = fixture.certificate(parts)
    result = refusal or signer_among(leaf, anchors, b"" if under is None else under)
    keys = [] if refusal else keys_asked(leaf, anchors, under)
    rows = genuine_leaf(parts, under) if under is not None else []
    for call in ["asked", "der_asked"]:
        case(cause, " ".join([call, str(time), spelled(leaf), listed(anchors), "-", *rows]), " ".join([result, "asked", *keys]))


def questions():
    """Which keys a pool asks its checker about."""
    parts = leaf_with()
    group("asked, der_asked: which keys a checker is asked about, of trust anchors of one name: each letter a key, in upper case of another name")
    for order in [*ORDERS, "", "A", "AB", "z"]:
        anchors = list(anchors_in(order))
        asked_case("%s, no genuine signature" % (order or "no trust anchor"), parts, anchors)
        for letter in sorted({*order.lower()}):
            asked_case("%s, signed under %s" % (order, letter), parts, anchors, key(ord(letter)))
    asked_case("one trust anchor twice", parts, [ROOT, ROOT])
    group("asked, der_asked: 300 trust anchors of one name and three keys, and of three names and one key")
    numbered = [{"serial": der(2, b"\x01", bytes([number // 100, number % 100]))} for number in range(300)]
    three_keys = [fixture.certificate(fixture.anchor(**each, key=key(number % 3 + 10))) for number, each in enumerate(numbered)]
    names = [fixture.name("fixture root"), fixture.name("another root"), fixture.name("fixture roots")]
    three_names = [fixture.certificate(fixture.anchor(**each, subject=names[number % 3])) for number, each in enumerate(numbered)]
    asked_case("three keys, no genuine signature", parts, three_keys)
    asked_case("three names, no genuine signature", parts, three_names)
    asked_case("two other names, signed under the key", parts, three_names[1:3], key(1))
    assert len(keys_asked(fixture.certificate(parts), three_keys)) == 3
    group("asked, der_asked: nothing is asked about a leaf that has not the profile, signs no code, or is not valid at the time")
    for cause, part, changes in [("version 2", "version=a003020101", ""), ("two algorithms", "inner=3003060155", ""),
                                 ("key usage twice", "", "second-usage=03020780"), ("an unknown critical extension", "", "critical="),
                                 ("name constraints", "", "name-constraints=3000"), ("an authority", "", "constraints=30030101ff")]:
        asked_case(cause, leaf_with(part, changes), [ROOT, ROOT], key(1), refusal="Malformed")
    for cause, changes in [("no purposes", "purposes=-"), ("another purpose", "purposes=300a06082b06010505070301"), ("malformed purposes", "purposes=")]:
        asked_case(cause, leaf_with("", changes), [ROOT, ROOT], key(1), refusal="VerificationFailed")
    for cause, time in [("a second before", 1702446654), ("a second after", 1702447256)]:
        asked_case(cause, parts, [ROOT, ROOT], key(1), time, "VerificationFailed")
