#!/usr/bin/env python3
"""Rows of pools with intermediates for x509_cases. The second implementation tries every list of at most six intermediates."""
import itertools

import fixture
from fixture import der, extension, extensions, key, name

SEQUENCE, BOOLEAN, INTEGER, BIT_STRING = 0x30, 1, 2, 3
TIME = 1702446655


def inter(subject, issuer, under, length=None, critical=b"", first="230101000000Z", last="330101000000Z", serial=1):
    """The parts of an intermediate: its name, its issuer's, its key, its path length."""
    limit = der(INTEGER, bytes([length])) if length is not None else b""
    more = [extension(critical, b"", critical=True)] if critical else []
    return fixture.anchor(
        serial=der(INTEGER, bytes([serial])), issuer=name(issuer), validity=fixture.validity(first, last), subject=name(subject), key=key(under),
        extensions=extensions(
            extension(fixture.BASIC_CONSTRAINTS, der(SEQUENCE, der(BOOLEAN, b"\xff"), limit), critical=True),
            extension(fixture.KEY_USAGE, der(BIT_STRING, b"\x02\x04"), critical=True), *more),
        signature=der(BIT_STRING, b"\x00", b"sig-" + subject.encode()))


class Node:
    """A certificate of a graph, in the words of its rules: `parts` says what its DER is."""

    def __init__(self, parts, subject, issuer, under, length=None, usable=True):
        self.parts, self.subject, self.issuer, self.key, self.length, self.usable = parts, subject, issuer, key(under), length, usable
        self.der = fixture.certificate(parts)
        self.bits = b"sig-leaf" if subject is None else b"sig-" + subject.encode()

    def row(self, under):
        return ["certificate", self.parts["algorithm"], under, fixture.tbs(self.parts), self.bits]


def made(subject, issuer, under, length=None, **changes):
    usable = not changes.get("critical") and changes.get("last", "330101000000Z") > "231213055055Z"
    return Node(inter(subject, issuer, under, length, **changes), subject, issuer, under, length, usable)


def root_node(under=1, subject="fixture root", serial=1):
    parts = fixture.anchor(key=key(under), subject=name(subject), serial=der(INTEGER, bytes([serial])))
    return Node(parts, subject, subject, under)


def leaf_node(issuer):
    return Node(fixture.leaf(issuer=name(issuer)), None, issuer, 2)


def signed(genuine, child, parent):
    return child.issuer == parent.subject and (child.der, parent.key) in genuine


def has_path(genuine, roots, intermediates, over, leaf):
    """Whether this list of intermediates is a path from the leaf to a trust anchor."""
    chain = [leaf, *over]
    return (all(node.usable and (node.length is None or node.length >= others) for others, node in enumerate(over))
            and all(signed(genuine, child, parent) for child, parent in zip(chain, over))
            and any(signed(genuine, chain[-1], root) for root in roots))


def issuer(genuine, roots, intermediates, leaf):
    """The first issuer, by trying every list."""
    for place, root in enumerate(roots):
        if signed(genuine, leaf, root):
            return "ok anchor %d" % place
    readable = [node for node in intermediates if node]
    for place, first in enumerate(intermediates):
        if first and signed(genuine, leaf, first):
            if any(has_path(genuine, roots, intermediates, (first, *rest), leaf)
                   for size in range(6) for rest in itertools.product(readable, repeat=size)):
                return "ok intermediate %d" % place
    return "VerificationFailed"


def asked_of_anchors(genuine, child, distinct):
    """How many questions are asked until a trust anchor of the issuer's name signed it."""
    count = 0
    for root in distinct:
        count += child.issuer == root.subject
        if signed(genuine, child, root):
            break
    return count


def questions(genuine, roots, intermediates, leaf, lists=False):
    """How many questions are asked: of the leaf and of each usable intermediate, equal ones once, the trust anchors of its issuer's
    name, up to one that signed it, and where that is not the leaf, of each usable intermediate the usable intermediates of its issuer's
    name; and then of the leaf each intermediate of its issuer's name that leads to a trust anchor, up to one that signed it. Of trust
    anchors with one name and key only the first. A checker that lists the keys of a signature is asked about no trust anchor, nor
    about a certificate for which it lists none, and about none at all if that is the leaf."""
    def may(child):
        return not lists or any(der == child.der for der, _ in genuine)

    if not may(leaf):
        return 0
    distinct = list({(root.subject, root.key): root for root in reversed(roots)}.values())
    distinct.sort(key=lambda root: min(place for place, other in enumerate(roots) if (other.subject, other.key) == (root.subject, root.key)))
    count = 0 if lists else asked_of_anchors(genuine, leaf, distinct)
    if any(signed(genuine, leaf, root) for root in distinct):
        return count
    usable = [node for node in intermediates if node and node.usable]
    if not lists:
        count += sum(asked_of_anchors(genuine, child, distinct) for child in {node.der: node for node in usable}.values())
    count += sum(child.issuer == parent.subject for child in usable if may(child) for parent in usable)
    for first in usable:
        if leaf.issuer == first.subject and any(
                has_path({*genuine, (leaf.der, first.key)}, roots, intermediates, (first, *rest), leaf)
                for size in range(6) for rest in itertools.product(usable, repeat=size)):
            count += 1
            if signed(genuine, leaf, first):
                return count
    return count


def add(case, listed, spelled, cause, roots, intermediates, leaf, genuine, expected=None):
    """A row of both calls; where a result is stated, the second implementation has to give it too."""
    pairs = {(child.der, under) for child, under in genuine}
    found = issuer(pairs, roots, intermediates, leaf)
    assert expected in (None, found), (cause, expected, found)
    rows = [spelled(word) if isinstance(word, bytes) else word for child, under in genuine for word in child.row(under)]
    given = [node.der if node else b"\x30\x00" for node in intermediates]
    count = questions(pairs, roots, intermediates, leaf)
    readable = len(intermediates)
    assert count <= (readable + 1) * (readable + len(roots)), cause
    arguments = [str(TIME), spelled(leaf.der), listed([root.der for root in roots]), listed(given), *rows]
    case(cause, " ".join(["verify_der_cert", *arguments]), found)
    case(cause + ", questions", " ".join(["questions", *arguments]), "%s asked %d" % (found, count))
    case(cause + ", of a checker that lists keys", " ".join(["listed", *arguments]),
         "%s asked %d" % (found, questions(pairs, roots, intermediates, leaf, lists=True)))


def under_issuers(nodes, others):
    """Each signature is genuine under its issuer's key: that of the first that has the name."""
    for node in nodes:
        for other in others:
            if other and node and other.subject == node.issuer:
                yield node, other.key


def rows(group, case, listed, spelled):
    """The tables."""
    def one(cause, leaf_issuer, intermediates, expected, but=(), more=()):
        roots, leaf = [root_node()], leaf_node(leaf_issuer)
        everyone = [*roots, *[node for node in intermediates if node]]
        genuine = [pair for pair in under_issuers([leaf, *[node for node in intermediates if node]], everyone) if pair[0] not in but]
        add(case, listed, spelled, cause, roots, intermediates, leaf, [*genuine, *more], expected)

    group("pools with intermediates: the issuer, and how many questions are asked, also of a checker that lists keys")
    a = made("a", "fixture root", 5)
    one("one intermediate", "a", [a], "ok intermediate 0")
    one("its signature is not genuine", "a", [a], "VerificationFailed", but=[a])
    add(case, listed, spelled, "the leaf's signature is not genuine", [root_node()], [a], leaf_node("a"), [(a, root_node().key)], "VerificationFailed")
    one("the first has no issuer", "a", [made("a", "nobody", 6), a], "ok intermediate 1")
    one("a path length of 1", "a", [made("a", "b", 5), made("b", "fixture root", 6, 1)], "ok intermediate 0")
    one("a path length of 0", "a", [made("a", "b", 5), made("b", "fixture root", 6, 0)], "VerificationFailed")
    names = ["a", "b", "c", "d", "e", "f", "g", "fixture root"]
    for count, expected in [(6, "ok intermediate 0"), (7, "VerificationFailed")]:
        chain = [made(names[at], names[at + 1] if at + 1 < count else "fixture root", 10 + at) for at in range(count)]
        one("%d in a row" % count, "a", chain, expected)
    one("a cycle", "a", [made("a", "b", 5), made("b", "a", 6)], "VerificationFailed")
    one("one that is not a certificate keeps its index", "a", [None, a], "ok intermediate 1")
    one("an unknown critical extension", "a", [made("a", "fixture root", 5, critical=b"*")], "VerificationFailed")
    one("expired", "a", [made("a", "fixture root", 5, last="230201000000Z")], "VerificationFailed")
    group("pools of too many intermediates")
    for count, expected in [(1024, "ok"), (1025, "TooMany(1025)")]:
        case("%d that are not certificates" % count, "from_certificates %s %s" % (spelled(root_node().der), ",".join(["00"] * count)), expected)
