"""Rows of x509_cases of pools whose certificates are spelled by letters. The second implementation tries every list of intermediates.

A certificate is six letters: its name, its issuer's, its key, the key that signed it (`0` is nobody's), its path length (`-` if it has none), and
`.` or what is wrong with it. A trust anchor is its name and its key; a leaf is `l`, its issuer's name and the key that signed it; `?` is not a
certificate.
"""
import random
from types import SimpleNamespace

import fixture
from fixture import der, extension

PLACES = 6


# The DER of a word, RFC 5280 section 4.1.

def name(letter):
    attribute = der(0x30, der(6, fixture.oid("2.5.4.3")), der(0x0C, letter.encode()))
    return der(0x30, der(0x31, attribute))


def spki(digit):
    return der(0x30, der(0x30, der(6, b"*")), der(3, b"\x00", digit.encode()))


ALGORITHM, OTHER_ALGORITHM = (der(0x30, der(6, fixture.oid("1.2.3.%d" % number))) for number in (4, 5))
STATES = {"s": "the purpose code signing", "p": "another purpose", "u": "an unknown critical extension", "n": "name constraints",
          "t": "key usage twice", "c": "no authority", "k": "no signer of certificates", "v": "version 2", "a": "two algorithms",
          "x": "expired", "y": "not yet valid"}
USABLE = ".s"


def purpose(last):
    return extension(fixture.EXTENDED_KEY_USAGE, der(0x30, der(6, fixture.CODE_SIGNING[:-1] + bytes([last]))))


def held(node):
    """The extensions of a node."""
    if node.state == "l":
        return [purpose(3)]
    limit = b"" if node.length == "-" else der(2, bytes([int(node.length)]))
    usage = extension(fixture.KEY_USAGE, der(3, b"\x07\x80" if node.state == "k" else b"\x02\x04"), critical=True)
    constraints = b"" if node.state == "c" else der(1, b"\xff") + limit
    more = {"s": purpose(3), "p": purpose(1), "u": extension(b"*", b"", critical=True), "t": usage,
            "n": extension(fixture.NAME_CONSTRAINTS, b"\x30\x00")}
    return [extension(fixture.BASIC_CONSTRAINTS, der(0x30, constraints), critical=True), usage, more.get(node.state, b"")]


def certificate(node):
    first = "240101000000Z" if node.state == "y" else "230101000000Z"
    last = "230201000000Z" if node.state == "x" else "330101000000Z"
    return fixture.certificate(dict(
        version=der(0xA0, der(2, b"\x01" if node.state == "v" else b"\x02")), serial=der(2, b"\x01"),
        inner=OTHER_ALGORITHM if node.state == "a" else ALGORITHM, issuer=name(node.issuer), validity=fixture.validity(first, last),
        subject=name(node.subject), key=spki(node.key), identifiers=b"", extensions=fixture.extensions(*held(node)), algorithm=ALGORITHM,
        signature=der(3, b"\x00", spki(node.signer))))


def node(word):
    """The certificate of a word; None for no certificate."""
    if word == "?":
        return None
    if len(word) == 2:
        word = word[0] + word[0] + word[1] + word[1] + "-."
    elif len(word) == 3:
        word = "-" + word[1] + "-" + word[2] + "-l"
    return SimpleNamespace(**dict(zip(["subject", "issuer", "key", "signer", "length", "state"], word)))


# The issuer, and the questions.

def signed(child, parent):
    return child.issuer == parent.subject and child.signer == parent.key


def stands(one, others):
    """Whether it may be in a list with this many others before it."""
    return one.state in USABLE and (one.length == "-" or int(one.length) >= others)


def leads(over, roots, given):
    """Whether a list of at most six that begins with these, of which each is signed by the next, ends at a trust anchor."""
    if any(signed(over[-1], root) for root in roots):
        return True
    return len(over) < PLACES and any(
        leads([*over, more], roots, given) for more in given if stands(more, len(over)) and signed(over[-1], more))


def asked_of_anchors(child, distinct):
    """How many questions are asked until a trust anchor of the issuer's name signed it."""
    count = 0
    for root in distinct:
        count += child.issuer == root.subject
        if signed(child, root):
            break
    return count


def issuer(leaf, roots, intermediates):
    """The first issuer, and how many questions are asked, as x509_paths.py says."""
    distinct = list({(root.subject, root.key): root for root in roots}.values())
    count = asked_of_anchors(leaf, distinct)
    for place, root in enumerate(roots):
        if signed(leaf, root):
            return "ok anchor %d asked %d" % (place, count)
    usable = [one for one in intermediates if one and one.state in USABLE]
    count += sum(asked_of_anchors(child, distinct) for child in {tuple(vars(one).items()): one for one in usable}.values())
    count += sum(child.issuer == parent.subject for child in usable for parent in usable)
    for place, first in enumerate(intermediates):
        if first and leaf.issuer == first.subject and stands(first, 0) and leads([first], roots, usable):
            count += 1
            if signed(leaf, first):
                return "ok intermediate %d asked %d" % (place, count)
    return "VerificationFailed asked %d" % count


def row(table, leaf, roots, given, further=(), expected=None):
    """A line; where a result is stated, the second implementation has to give it too."""
    nodes = [node(word) for word in [*given, *further]]
    found = issuer(node("l" + leaf), [node(word) for word in roots], nodes)
    assert expected is None or found.startswith(expected + " asked "), (leaf, roots, given, further, expected, found)
    assert int(found.split(" ")[-1]) <= (len(nodes) + 1) * (len(nodes) + len(roots)), (leaf, roots, given, further)
    table.case(" ".join(["graph", "l" + leaf, *[",".join(words) or "-" for words in (roots, given, further)]]), found)


# The rows.

LEAF, ROOT = "a1", "r9"


def chain(names, last=ROOT, length="-"):
    """An intermediate for each name, of which each is signed by the next, and the last by the trust anchor; the leaf by the first."""
    keys = "1234567890ABCDEF"
    return [one + (names[at + 1] if at + 1 < len(names) else last[0]) + keys[at] + (keys[at + 1] if at + 1 < len(names) else last[1]) + length + "."
            for at, one in enumerate(names)]


def spelled_certificates(table):
    table.group("certificates that are spelled, with each thing that may be amiss")
    for word in ["r9", "la1", "ab12-.", "ab120.", "ab129.", *["ab12-" + state for state in STATES], *["ab121" + state for state in STATES]]:
        table.case("spelled " + word, "ok " + certificate(node(word)).hex())


def further_rows(table):
    table.group("intermediates that come with the leaf: their indices count on from the pool's")
    table.note("none; in the pool; with the leaf; after one, and after one that is not a certificate, of the pool")
    row(table, LEAF, [ROOT], [], [], "VerificationFailed")
    row(table, LEAF, [ROOT], ["ar19-."], [], "ok intermediate 0")
    row(table, LEAF, [ROOT], [], ["ar19-."], "ok intermediate 0")
    row(table, LEAF, [ROOT], ["zr59-."], ["ar19-."], "ok intermediate 1")
    row(table, LEAF, [ROOT], ["?"], ["ar19-."], "ok intermediate 1")
    table.note("in both: the pool's is before; a trust anchor is before both")
    row(table, LEAF, [ROOT], ["zr59-.", "ar19-."], ["ar19-."], "ok intermediate 1")
    row(table, LEAF, [ROOT, "a1"], ["ar19-."], ["ar19-."], "ok anchor 1")
    table.note("a path over one of the pool and one of the leaf, in both orders")
    row(table, LEAF, [ROOT], ["br29-."], ["ab12-."], "ok intermediate 1")
    row(table, LEAF, [ROOT], ["ab12-."], ["br29-."], "ok intermediate 0")
    table.note("6 and 7 in a row, of which 0 to 7 come with the leaf")
    for names in ["abcdef", "abcdefg"]:
        words = chain(names)
        for own in range(len(words) + 1):
            row(table, LEAF, [ROOT], words[:own], words[own:], "ok intermediate 0" if len(words) == 6 else "VerificationFailed")
    table.note("16 come with the leaf: the issuer is the first, the last, none")
    for at in [0, 15, None]:
        words = ["z%s59-." % "r"] * 16
        if at is not None:
            words[at] = "ar19-."
        row(table, LEAF, [ROOT], ["zr59-."], words, "VerificationFailed" if at is None else "ok intermediate %d" % (at + 1))
    table.note("16 of one name, of which only the last has a path, whose certificates are in the opposite order")
    row(table, LEAF, [ROOT], [], ["ab1%s-." % "0"] * 10 + chain("abcdef")[::-1], "ok intermediate 15")


def state_rows(table):
    table.group("what is amiss with the issuer, and with the one above it")
    for state in ["", *STATES]:
        expected = "ok intermediate 0" if (state or ".") in USABLE else "VerificationFailed"
        row(table, LEAF, [ROOT], ["ar19-" + (state or ".")], [], expected)
        row(table, LEAF, [ROOT], ["ab12-.", "br29-" + (state or ".")], [], expected)
        row(table, LEAF, [ROOT], ["ab12-" + (state or "."), "br29-."], [], expected)
    table.group("what is amiss with the leaf: it is an authority, or cannot be judged, or signs no code")
    for state in [".", *STATES]:
        answer = "VerificationFailed" if state == "c" else "Malformed"
        table.case("graph ab19-%s r9,a9,b9 ar19-. br29-." % state, answer + " asked 0")
    table.group("path lengths: each length at each place of a path of six")
    for at in range(6):
        for length in range(7):
            words = chain("abcdef")
            words[at] = words[at][:4] + str(length) + words[at][5:]
            row(table, LEAF, [ROOT], words, [], "ok intermediate 0" if length >= at else "VerificationFailed")
    table.group("a certificate twice in a path: it adds nothing")
    row(table, LEAF, [ROOT], ["aa11-.", "ar19-."], [], "ok intermediate 0")
    row(table, LEAF, [ROOT], ["aa110.", "ar190."], [], "ok intermediate 1")
    row(table, LEAF, [ROOT], ["ab12-.", "ba21-."], [], "VerificationFailed")
    row(table, LEAF, [ROOT], ["ab12-.", "ba21-.", "br29-."], [], "ok intermediate 0")
    row(table, LEAF, [ROOT], ["ab12-.", "ba21-.", "ar190."], [], "ok intermediate 2")
    row(table, LEAF, [ROOT], ["ab12-.", "ba21-.", "ar191."], [], "ok intermediate 2")
    row(table, LEAF, [ROOT], ["ab12-.", "ba21-.", "ar192."], [], "ok intermediate 0")


def hundred_rows(table):
    table.group("300 intermediates")
    table.note("of the issuer's name: only the last is signed by the trust anchor, only the first, none")
    forged = ["ar1%s-." % "0"] * 299
    row(table, LEAF, [ROOT], [*forged, "ar19-."], [], "ok intermediate 299")
    row(table, LEAF, [ROOT], ["ar19-.", *forged], [], "ok intermediate 0")
    row(table, LEAF, [ROOT], [*forged, forged[0]], [], "VerificationFailed")
    table.note("of one name, each with a question about each: 300 times 301")
    row(table, LEAF, ["a9"], ["aa10-."] * 300, [], "VerificationFailed")
    row(table, LEAF, ["a9"], ["aa10-."] * 299 + ["aa19-."], [], "ok intermediate 299")
    table.note("of which none is a certificate, except the last")
    row(table, LEAF, [ROOT], ["?"] * 299 + ["ar19-."], [], "ok intermediate 299")
    table.note("a path of six, from the last one down, between others")
    words = ["zr59-."] * 300
    for place, word in zip([299, 240, 180, 120, 60, 0], chain("abcdef")):
        words[place] = word
    row(table, LEAF, [ROOT], words, [], "ok intermediate 299")
    row(table, LEAF, [ROOT], words[:-16], words[-16:], "ok intermediate 299")
    table.note("300 trust anchors: the last signed the last intermediate; of 300 with one name and key the first alone is asked")
    letters = "BCDEFGHIJKLMNOPQRSTUVWXYZ"
    roots = ["%s%d" % (letters[number % 25], number // 25 % 10) for number in range(250)] + ["s%d" % (number % 10) for number in range(49)] + [ROOT]
    row(table, LEAF, roots, ["ar19-."], [], "ok intermediate 0")
    row(table, LEAF, ["r8"] * 300, ["ar19-."], [], "VerificationFailed")


def by_chance(chance):
    """The words of a graph: up to eight certificates of three names and three keys; most signatures are those of a certificate of the
    issuer's name."""
    names, keys = "abc", "123"

    def some(count):
        words = []
        for _ in range(count):
            length = chance.choice("-----012")
            state = chance.choice("......sss" + "".join(STATES)) if chance.random() < 0.4 else "."
            words.append([chance.choice(names), chance.choice(names), chance.choice(keys), "0", length, state])
        return words
    roots = [chance.choice("abcccc") + chance.choice(keys) for _ in range(chance.choice([0, 1, 1, 1, 1, 1, 2, 2, 3]))]
    words = some(chance.choice([0, 1, 2, 3, 4, 5, 6, 6, 7, 7, 8, 8, 8]))
    parents = [*roots, *["%s%s" % (word[0], word[2]) for word in words]]

    def signer(issuer_name):
        fitting = [parent[1] for parent in parents if parent[0] == issuer_name]
        return chance.choice(fitting) if fitting and chance.random() < 0.9 else chance.choice("0123")
    for word in words:
        word[3] = signer(word[1])
    leaf = chance.choice("aaabbc")
    leaf += signer(leaf)
    spelled = ["".join(word) for word in words]
    own = chance.choice([len(words), len(words), chance.randrange(len(words) + 1)])
    return leaf, roots, [word if chance.random() < 0.95 else "?" for word in spelled[:own]], spelled[own:]


def chance_rows(table):
    table.group("2,000 graphs by chance")
    chance = random.Random(37)
    for _ in range(2000):
        row(table, *by_chance(chance))


def rows(table):
    """The tables."""
    for made in (spelled_certificates, state_rows, further_rows, hundred_rows, chance_rows):
        made(table)
