"""The rows of the table of `verify` about intermediates: the certificates after a bundle's leaf, through which a path leads to a trust anchor."""
import fixture
from fixture import BASIC_CONSTRAINTS, BIT_STRING, KEY_USAGE, SEQUENCE, anchor, base64_of, certificate, der, extension, key, leaf, name
from verify_cases import accepted, chain, message, root, row, unaccepted, whole_row
from x509_paths import BOOLEAN, inter

LEAF = leaf(issuer=name("a"))
ONE = inter("a", "fixture root", 5)
TWO = [inter("a", "b", 5), inter("b", "fixture root", 6, 1)]
FAILED = "issuer Certificate(VerificationFailed)"
MISMATCH = "sct Certificate(Sct(Verification(VerificationFailed)))"


def to_root(*over, **changes):
    """A request whose leaf has these intermediates above it."""
    return chain(list(over), leaf=LEAF, **changes)


def copies(count):
    return [certificate(ONE)] * count


def intermediates():
    whole_row("intermediates: one", "verified 2 5", to_root(ONE))
    whole_row("intermediates: the leaf alone", FAILED, to_root(ONE, later=[]))
    row("intermediates: the SCT is over the trust anchor's key", MISMATCH, to_root(ONE, stamped=key(1)))
    row("intermediates: 16, each the same", "verified 2 5", to_root(ONE, later=copies(16)))
    row("intermediates: 17, each the same", "certificate Bundle(TooManyCertificates(18))", to_root(ONE, later=copies(17)))
    row("intermediates: with the trust anchor", "root-in-chain Bundle(RootInChain)", to_root(ONE, later=[certificate(ONE), certificate(anchor())]))
    row("intermediates: the leaf's signature is not accepted", FAILED, to_root(ONE), unaccepted(0))
    row("intermediates: its signature is not accepted", FAILED, to_root(ONE), unaccepted(5))
    row("intermediates: after the leaf again", "verified 2 5", to_root(ONE, later=[certificate(LEAF), certificate(ONE)]))


def longer_paths():
    whole_row("intermediates: two", "verified 2 5", to_root(*TWO))
    row("intermediates: two in the other order", "verified 2 5", to_root(*TWO, later=[certificate(each) for each in TWO[::-1]]))
    row("intermediates: two, the lower left out", FAILED, to_root(*TWO, later=[certificate(TWO[1])]))
    row("intermediates: two, the upper left out", FAILED, to_root(*TWO, later=[certificate(TWO[0])]))
    row("intermediates: two, the upper not accepted", FAILED, to_root(*TWO), unaccepted(6))
    row("intermediates: two, of which none may be between", FAILED, to_root(TWO[0], inter("b", "fixture root", 6, 0)))
    for count, expected in ((6, "verified 2 5"), (7, FAILED)):
        names = ["a", *(chr(ord("b") + place) for place in range(count - 1)), "fixture root"]
        row("intermediates: %d in a row" % count, expected,
            to_root(*(inter(one, other, 5 + place) for place, (one, other) in enumerate(zip(names, names[1:])))))
    circle = [inter("a", "b", 5), inter("b", "a", 6)]
    row("intermediates: two that signed each other", FAILED, to_root(*circle, inter("c", "fixture root", 7), later=[certificate(each) for each in circle]))


def unfit():
    usage = extension(KEY_USAGE, der(BIT_STRING, b"\x02\x04"), critical=True)
    limits = extension(BASIC_CONSTRAINTS, der(SEQUENCE, der(BOOLEAN, b"\xff")), critical=True)
    for title, changed in [
            ("that expired", inter("a", "fixture root", 5, last="231213055054Z")), ("of one second", inter("a", "fixture root", 5, first="231213055055Z",
             last="231213055055Z")),
            ("that has not begun", inter("a", "fixture root", 5, first="231213055056Z")),
            ("with an unknown critical extension", inter("a", "fixture root", 5, critical=b"\x55\x1d\x63")),
            ("without basic constraints", {**ONE, "extensions": fixture.extensions(usage)}),
            ("without key usage", {**ONE, "extensions": fixture.extensions(limits)}),
            ("of version 1", {**ONE, "version": b"", "extensions": b""}),
            ("for other purposes", {**ONE, "extensions": fixture.extensions(limits, usage, extension(fixture.EXTENDED_KEY_USAGE, der(
                SEQUENCE, der(fixture.OBJECT_IDENTIFIER, fixture.CODE_SIGNING[:-1] + b"\x01"))))})]:
        row("intermediates: one " + title, "verified 2 5" if title == "of one second" else FAILED, to_root(changed))


def anchors_too():
    """A trusted root may list an intermediate as a trust anchor."""
    listed = [{"certChain": {"certificates": [{"rawBytes": base64_of(certificate(each))} for each in (ONE, anchor())]}}]
    row("intermediates: one that is a trust anchor too", "verified 2 5", to_root(ONE), root("certificateAuthorities", listed))
    row("intermediates: one that is a trust anchor, and the leaf alone", "verified 2 5", to_root(ONE, later=[]), root("certificateAuthorities", listed))
    namesake = inter("a", "fixture root", 7, serial=2)
    both = [certificate(namesake), certificate(ONE)]
    row("intermediates: the second of one name signed", "verified 2 5", to_root(ONE, later=both))
    first = accepted("certificate", base64_of(LEAF["algorithm"]), key(7), fixture.tbs(LEAF), b"sig-leaf")
    led = accepted("certificate", base64_of(namesake["algorithm"]), key(1), fixture.tbs(namesake), b"sig-a")
    row("intermediates: two of one name signed, the first of which leads nowhere", "verified 2 5", to_root(ONE, later=both), first)
    row("intermediates: two of one name signed, and the SCT is about the second", MISMATCH, to_root(ONE, later=both), first, led)
    row("intermediates: two of one name signed, and the SCT is about the first", "verified 2 5", to_root(ONE, later=both, stamped=key(7)), first, led)


def over_messages():
    """The same of a signature over the artifact itself."""
    whole_row("message intermediates: one", "verified 2 5", to_root(ONE), message())
    whole_row("message intermediates: the leaf alone", FAILED, to_root(ONE, later=[]), message())
    row("message intermediates: the SCT is over the trust anchor's key", MISMATCH, to_root(ONE, stamped=key(1)), message())
    row("message intermediates: 16, each the same", "verified 2 5", to_root(ONE, later=copies(16)), message())
    row("message intermediates: 17, each the same", "certificate Bundle(TooManyCertificates(18))", to_root(ONE, later=copies(17)), message())
    row("message intermediates: with the trust anchor", "root-in-chain Bundle(RootInChain)",
        to_root(ONE, later=[certificate(ONE), certificate(anchor())]), message())


GROUPS = [intermediates, longer_paths, unfit, anchors_too, over_messages]
