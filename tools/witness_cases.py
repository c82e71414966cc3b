#!/usr/bin/env python3
"""Writes the table of crates/witness_cases: `stdin`, the calls, and `stdout`, what they return.

    tools/witness_cases.py

A witness is a dictionary here, from origins to a key and heads, and its text is read by splitting it at newlines. Trees and consistency
proofs are those of RFC 6962 section 2.1, by its recursions; a consistency proof is judged by the walk of RFC 9162 section 2.1.4.2. For each
witness it is asserted that the list has what is kept, since no collision of SHA-256 is known.
"""
import base64
import binascii
import collections
import functools
import hashlib
import json
import random
import re
import sys

sys.dont_write_bytecode = True

import consistency_cases as trees
from case_table import Table, hexed
from consistency_cases import EMPTY, flipped, joined, subproof
from rekor_cases import quoted
from schemes import SCHEMES

TABLE = Table("witness_cases")
SCHEME, KEY, SIGNATURE, ORIGIN = SCHEMES[2], b"key", b"s", "log.example"
OTHER = bytes([7] * 32)
MOST, MOST_HEADS = 2 ** 64 - 1, 4096

Log = collections.namedtuple("Log", "scheme key heads")
Origin = collections.namedtuple("Origin", "origin scheme key")
Update = collections.namedtuple("Update", "origin size root old path signatures times")


def note(update):
    return f"{update.origin}\n{update.size}\n{base64.b64encode(update.root).decode()}\n"


def signed(update):
    lines = (f"\u2014 o {base64.b64encode(bytes(4) + raw).decode()}\n" for raw in update.signatures)
    return note(update) + "\n" + "\n".join(lines)


@functools.lru_cache(None)
def root_of(entries):
    return trees.tree_hash(entries)


def numbered(count, changed=None):
    return tuple(trees.numbered(count, changed))


def proof(old, entries):
    return subproof(old, entries, True) if old else []


def update(entries, old=0, path=None, root=None, origin=ORIGIN, signatures=(SIGNATURE,), times=1):
    """An update to the tree of these entries, from that of the first ones."""
    path = proof(old, entries) if path is None else path
    return Update(origin, len(entries), root_of(entries) if root is None else root, old, list(path), signatures, times)


# ---- a witness

def add(witness, each):
    if not each.origin or "\n" in each.origin:
        return "OriginText"
    if each.origin in witness:
        return "OriginKnown"
    witness[each.origin] = Log(each.scheme, each.key, [(0, EMPTY)])
    return "added"


def make(witness, each, rows):
    """What an update returns; the witness is changed if it is taken."""
    log = witness.get(each.origin)
    if log is None:
        return "UnknownOrigin"
    if not any((log.scheme, log.key, note(each).encode(), signature) in rows for signature in each.signatures):
        return "NoteKey"
    size, root = log.heads[-1]
    if each.old != size:
        return f"OldSize({size})"
    found = trees.verdict(size, each.size, each.path, root, each.root)
    if found != "ok":
        return f"Consistency({found})"
    if len(log.heads) == MOST_HEADS:
        return "Full"
    log.heads.append((each.size, each.root))
    return str(each.size)


def made(witness, updates, rows):
    """What each update returns, after what those before the last of its times return if they fail."""
    for each in updates:
        returned = [make(witness, each, rows) for _ in range(max(each.times, 1))]
        yield each, [one for one in returned[:-1] if not one.isdigit()] + returned[-1:]


def text_of(witness):
    groups = []
    for origin in sorted(witness, key=str.encode):
        log = witness[origin]
        size, root = log.heads[-1]
        groups.append((origin, log.scheme, base64.b64encode(log.key).decode(), str(size), base64.b64encode(root).decode()))
    return "".join(line + "\n" for group in groups for line in group)


def bytes_of(line):
    """The bytes of a line in base64; None where it is not exactly what is written for them."""
    try:
        found = base64.b64decode(line.encode(), validate=True)
    except (binascii.Error, ValueError):
        return None
    return found if base64.b64encode(found).decode() == line else None


def group_fault(before, origin, scheme, key, size, root):
    if not origin or (before is not None and origin.encode() <= before.encode()):
        return "Origin"
    if scheme not in SCHEMES:
        return "Scheme"
    if bytes_of(key) is None:
        return "Key"
    if not re.fullmatch("0|[1-9][0-9]*", size, re.ASCII) or int(size) > MOST:
        return "Size"
    found = bytes_of(root)
    if found is None or len(found) != 32:
        return "Hash"
    return "Root" if size == "0" and found != EMPTY else None


def read(text):
    """The witness of a text, or why it is not one."""
    lines = text.split("\n")
    if lines.pop() != "" or len(lines) % 5:
        return "Lines", None
    witness, before = {}, None
    for place in range(0, len(lines), 5):
        origin, scheme, key, size, root = lines[place:place + 5]
        fault = group_fault(before, origin, scheme, key, size, root)
        if fault:
            return fault, None
        witness[origin] = Log(scheme, bytes_of(key), [(int(size), bytes_of(root))])
        before = origin
    return None, witness


# ---- lines

def row_words(rows):
    for scheme, key, message, signature in rows:
        yield f"message {scheme} {hexed(key)} {hexed(message)} {hexed(signature)}"


def origin_words(origins):
    yield str(len(origins))
    for each in origins:
        yield from (quoted(each.origin) or "-", each.scheme, hexed(each.key))


def update_words(updates):
    yield str(len(updates))
    for each in updates:
        yield from (str(each.times), quoted(signed(each)), str(each.old), joined(each.path))


def rows_of(updates, origins, without=()):
    """The rows under which each update is signed by its origin's key, but those at some places."""
    keys = {each.origin: (each.scheme, each.key) for each in reversed(origins)}
    rows = ((*keys.get(each.origin, (SCHEME, KEY)), note(each).encode(), SIGNATURE) for place, each in enumerate(updates) if place not in without)
    return list(dict.fromkeys(rows))


def digest_of(witness):
    text = text_of(witness)
    fault, again = read(text)
    assert fault is None and text_of(again) == text
    return hashlib.sha256(text.encode()).hexdigest()[:8]


def debugged(text):
    """A text as Rust's Debug shows it; of the texts here JSON shows the same."""
    return json.dumps(text, ensure_ascii=False)


def run(updates, origins=(Origin(ORIGIN, SCHEME, KEY),), rows=None, state=""):
    rows = rows_of(updates, origins) if rows is None else rows
    call = " ".join(("run", quoted(state) or "-", *origin_words(origins), *update_words(updates), *row_words(rows)))
    fault, witness = read(state)
    assert fault is None
    returned = ["ok", *(add(witness, each) for each in origins)]
    accepted = set(rows)
    for _, answers in made(witness, updates, accepted):
        returned += [*answers, digest_of(witness)]
    TABLE.case(call, " ".join([*returned, debugged(text_of(witness))]))
    return witness


def beside(updates, entries, origin=ORIGIN, origins=(Origin(ORIGIN, SCHEME, KEY),)):
    rows = rows_of(updates, origins)
    words = ("list", *origin_words(origins), *update_words(updates), quoted(origin) or "-", joined(entries) if entries else "-", *row_words(rows))
    witness = {}
    returned = [add(witness, each) for each in origins]
    for _, answers in made(witness, updates, set(rows)):
        returned += answers
    heads = witness[origin].heads if origin in witness else []
    if heads and heads[-1] == (len(entries), root_of(entries)):
        assert all(root == root_of(entries[:size]) for size, root in heads)
        returned.append("none")
    else:
        returned.append("other")
    TABLE.case(" ".join(words), " ".join(returned))


def state(text):
    fault, witness = read(text)
    if witness is not None:
        assert text_of(witness) == text
    TABLE.case(f"state {quoted(text) or '-'}", fault or f"ok {len(witness)} same")


# ---- the cases

ONE = (b"L123456",)
NONE = update(())


def first_rows():
    TABLE.group("run STATE ORIGINS UPDATES ROWS: the tree of L123456; again from 0, from 1, and the empty tree")
    one = update(ONE)
    again = one._replace(old=1)
    run([one])
    witness = run([one, one, again, NONE._replace(old=1)])
    TABLE.group("list ORIGINS UPDATES ORIGIN ENTRIES ROWS, state TEXT: the same witness")
    for entries in (ONE, (), (b"x",), ONE * 2):
        beside([one], entries)
    beside([one, again], ONE)
    beside([one], ONE, origin="other")
    beside([], ())
    beside([], ONE)
    text = text_of(witness)
    state(text)
    state(text.replace("\n1\n", "\n01\n"))
    run([again], (), state=text)
    run([one, again], (), [(SCHEME, KEY, note(one).encode(), SIGNATURE)], text)
    TABLE.group("no origin; no update; an origin that the state has")
    run([], ())
    run([one], ())
    run([])
    run([], state=text)
    run([again], (Origin(ORIGIN, SCHEME, b"other"),), [(SCHEME, KEY, note(one).encode(), SIGNATURE)], text)


def origins():
    TABLE.group("origins: empty, with a newline, twice, in any order, of each scheme; keys of no bytes and of 300")
    for text in ("", "\n", "a\nb", "a\n", "\na", " ", "a b", "\r", "\t", "\u00e9", "a" * 300):
        run([update(ONE, origin=text)] if text and "\n" not in text and text.strip() else [], (Origin(text, SCHEME, KEY),))
    run([], (Origin("a", SCHEME, KEY), Origin("a", SCHEME, b"other"), Origin("", SCHEME, KEY), Origin("a", SCHEME, KEY)))
    run([update(ONE, origin="a")], (Origin("a", SCHEME, KEY), Origin("a", SCHEME, b"other")), [(SCHEME, b"other", note(update(ONE, origin="a")).encode(), SIGNATURE)])
    for key in (b"", bytes(300), bytes(range(256))):
        run([], [Origin(f"o{place}", scheme, key) for place, scheme in enumerate(SCHEMES)])
    names = ["b", "a", "ab", "aa", "\u00e9", "z", "~", "B", "a b", "_", "\U0001f600", "\uffee"]
    everyone = [Origin(name, SCHEMES[place % len(SCHEMES)], name.encode()) for place, name in enumerate(names)]
    run([update(ONE, origin=name) for name in names], everyone)
    run([update(ONE, origin=name) for name in names], everyone[::-1])


def faults():
    entries = numbered(12)
    first = update(entries[:5])
    good = update(entries, 5)
    TABLE.group("signatures: without the row; of another key, scheme, note or signature; several, of which one is accepted")
    row = (SCHEME, KEY, note(good).encode(), SIGNATURE)
    start = rows_of([first], [Origin(ORIGIN, SCHEME, KEY)])
    for other in ((SCHEMES[5], *row[1:]), (SCHEME, b"other", *row[2:]), (*row[:2], row[2] + b"\n", SIGNATURE), (*row[:3], b"t"), (*row[:3], b"")):
        run([first, good], rows=[*start, other])
    run([first, good], rows=start)
    for signatures in ((SIGNATURE, b"t"), (b"t", SIGNATURE), (b"t", b"u", b""), (b"t",) * 3 + (SIGNATURE,) * 2):
        run([first, good._replace(signatures=signatures)])
    TABLE.group("old sizes: each but the kept one, before a good update and after it")
    for old in (0, 4, 6, 12, 13, MOST):
        run([first, good._replace(old=old), good, good._replace(old=old)])
    TABLE.group("consistency: each error, and then the good update")
    for path in ([], [OTHER], good.path + [OTHER], good.path[:-1], good.path[::-1], [OTHER] * 300):
        run([first, good._replace(path=path), good])
    for number, digest in enumerate(good.path):
        run([first, good._replace(path=good.path[:number] + [flipped(digest)] + good.path[number + 1:]), good])
    for size in (0, 4, 5, 6, 13, MOST):
        run([first, good._replace(size=size), good])
    run([first, good._replace(root=flipped(good.root)), good])
    run([first._replace(root=OTHER), good, update(numbered(12, 3), 5)])
    TABLE.group("the tree without entries: its root, another root, hashes; a tree from it with hashes")
    for each in (NONE, NONE._replace(root=OTHER), NONE._replace(path=[OTHER]), first._replace(path=[OTHER]), first._replace(size=0)):
        run([each, first, good])
    TABLE.group("two faults at once: the first counts")
    turns = (("origin", "other"), ("signatures", (b"t",)), ("old", 4), ("path", [OTHER] * 9))
    for place, (name, value) in enumerate(turns):
        for other, another in turns[place + 1:]:
            run([first, good._replace(**{name: value, other: another})], rows=rows_of([first, good], [Origin(ORIGIN, SCHEME, KEY)]))


def full():
    TABLE.group("4,096 heads of an origin: there is no room for one more, also of another tree; other faults come before; another origin has room")
    one = update(ONE)
    again = one._replace(old=1)
    two = update((*ONE, b"x"), 1)
    other = update(ONE, origin="other")
    both = (Origin(ORIGIN, SCHEME, KEY), Origin("other", SCHEME, b"key 2"))
    many = [one, again._replace(times=MOST_HEADS - 3), again]
    run([*many, again, two, two._replace(path=[]), two._replace(old=2), other, again], both)
    run([*many[:2], two, two._replace(old=2, path=[])], both)
    beside([one, again._replace(times=200), two], (*ONE, b"x"))
    state(text_of(run([*many, again], both)))


GOOD = ("a", SCHEME, "a2V5", "5", base64.b64encode(OTHER).decode())
EMPTY_ROOT = base64.b64encode(EMPTY).decode()


def lines(*groups):
    return "".join(line + "\n" for group in groups for line in group)


def put(group, place, line):
    return group[:place] + (line,) + group[place + 1:]


WRONG = {
    0: ("", ),
    1: ("", "ED25519 ", " ED25519", "ed25519", "ECDSA", "RSA_PSS_SHA256(2048)", "ED25519\r"),
    2: ("a", "a2V", "a2V5 ", " a2V5", "a2V5=", "a2V5====", "a2V=", "a2W=", "a-_5", "a2V5\r", "\u00e9\u00e9"),
    3: ("", "05", "00", "+5", "-5", "5 ", " 5", "0x5", "5.0", "18446744073709551616", "9" * 300, "\u0665"),
    4: ("", "AA==", GOOD[4][:-1], GOOD[4] + "=", GOOD[4][:-2] + "d=", base64.b64encode(bytes(31)).decode(), base64.b64encode(bytes(33)).decode(), "x" * 44),
}
RIGHT = {
    0: ("a", "\u00e9", " ", "\r", "a b", "x" * 300),
    1: SCHEMES,
    2: ("", "AA==", "AAA=", "AAAA", base64.b64encode(bytes(300)).decode()),
    3: ("1", "10", "9", str(MOST), str(2 ** 63)),
    4: (EMPTY_ROOT, base64.b64encode(bytes(32)).decode()),
}


def states():
    TABLE.group("state TEXT: numbers of lines, a last line without newline")
    good = lines(GOOD)
    for text in ("", "\n", "\n" * 4, "\n" * 5, "\n" * 10, good[:-1], good + "\n", "\n" + good, good + "b", good + lines(GOOD[:4]), good.replace("\n", "\r\n"), good.replace("\n", " ")):
        state(text)
    TABLE.group("each line of an origin, right and wrong; and of a second origin")
    for place in range(5):
        for line in (*RIGHT[place], *WRONG[place]):
            state(lines(put(GOOD, place, line)))
            state(lines(("A", *GOOD[1:]), put(GOOD, place, line)))
            state(lines(put(GOOD, place, line), ("z", *GOOD[1:])))
    TABLE.group("the size 0: with the root of no entries, and with others")
    for root in (EMPTY_ROOT, GOOD[4], EMPTY_ROOT[:-2] + "V=", ""):
        state(lines((*GOOD[:3], "0", root)))
        state(lines(GOOD, ("b", *GOOD[1:3], "0", root)))
    TABLE.group("two lines wrong at once: the first counts; and of two origins")
    for place in range(5):
        for other in range(place + 1, 5):
            state(lines(put(put(GOOD, place, WRONG[place][0]), other, WRONG[other][0])))
        for other in range(5):
            state(lines(put(GOOD, place, WRONG[place][0]), put(("b", *GOOD[1:]), other, WRONG[other][0])))
            state(lines(put(GOOD, place, WRONG[place][0]), put(("b", *GOOD[1:]), other, WRONG[other][0]))[:-1])
    TABLE.group("the order of origins: by bytes, each once")
    for one, other in (("a", "a"), ("b", "a"), ("a", "b"), ("a", "aa"), ("aa", "a"), ("a", ""), ("", "a"), ("", ""), ("Z", "a"), ("a", "Z"), ("\u00e9", "z"), ("z", "\u00e9"), ("\U0001f600", "\uffee"), ("\uffee", "\U0001f600")):
        state(lines((one, *GOOD[1:]), (other, *GOOD[1:])))
    TABLE.group("300 origins; one of them out of order, one with a fault")
    many = [(f"log {place:03}", SCHEMES[place % len(SCHEMES)], base64.b64encode(bytes([place % 256] * (place % 5))).decode(), str(place + 1), GOOD[4]) for place in range(300)]
    state(lines(*many))
    state(lines(*many[:299], ("log 298", *many[299][1:])))
    for place in (0, 150, 299):
        state(lines(*many[:place], put(many[place], 3, "07"), *many[place + 1:]))
    run([], [Origin(f"log {place * 7 % 300:03}", SCHEMES[place % len(SCHEMES)], bytes([place % 256])) for place in range(300)])


# ---- sequences by chance

NAMES = ("log.example", "other.example", "third", "z")


class Logs:
    """Four logs that grow, and what has been asked of them."""

    def __init__(self, chance):
        self.chance = chance
        self.entries = {name: numbered(60, place) for place, name in enumerate(NAMES)}
        self.witness = {name: Log(SCHEME, KEY, [(0, EMPTY)]) for name in NAMES}
        self.asked = []

    def size(self, name):
        return self.witness[name].heads[-1][0]

    def honest(self, name):
        old = self.size(name)
        size = min(old + self.chance.choice((0, 1, 1, 2, 3, 5, 8)), 60)
        return update(self.entries[name][:size], old, origin=name)

    def forged(self, name):
        """A head of another list, a root or a hash that was changed, or a smaller tree."""
        old = self.size(name)
        size = self.chance.randrange(1, 61)
        turn = self.chance.randrange(4) if old else 2
        if turn == 0:
            return update(numbered(60, 59 - len(name))[:max(size, old)], old, origin=name)
        if turn == 1:
            return update(self.entries[name][:max(size, old)], old, root=OTHER, origin=name)
        if turn == 2:
            return update(self.entries[name][:size], old, path=[OTHER] * self.chance.randrange(1, 8), origin=name)
        return update(self.entries[name][:old - 1], old, path=[], origin=name)

    def out_of_order(self, name):
        old = self.chance.randrange(0, 61)
        size = self.chance.randrange(old, 61)
        return update(self.entries[name][:size], old, origin=name)

    def any(self):
        name = self.chance.choice(NAMES)
        kind = self.chance.choice(("honest",) * 6 + ("forged", "replayed", "out of order", "unknown", "not signed"))
        if kind == "replayed" and self.asked:
            return self.chance.choice(self.asked)
        if kind == "unknown":
            return self.honest(name)._replace(origin="nobody")
        if kind == "not signed":
            return self.honest(name)._replace(signatures=(b"t",))
        return {"forged": self.forged, "out of order": self.out_of_order}.get(kind, self.honest)(name)

    def next(self):
        each = self.any()
        make(self.witness, each, {(SCHEME, KEY, note(each).encode(), SIGNATURE)})
        self.asked.append(each)
        return each


def at_random():
    TABLE.group("sequences of up to 60 updates of 4 origins by chance: honest, forged, replayed, out of order, unknown and not signed")
    chance = random.Random(41)
    everyone = [Origin(name, SCHEMES[place + 1], name.encode()) for place, name in enumerate(NAMES)]
    for number in range(60):
        logs = Logs(chance)
        updates = [logs.next() for _ in range(number + 1)]
        if number % 3 == 2:
            cut = chance.randrange(number + 1)
            half = run(updates[:cut], everyone)
            run(updates[cut:], (), rows_of(updates[cut:], everyone), text_of(half))
        else:
            run(updates, chance.sample(everyone, 4))
    TABLE.group("the heads of such logs beside the list of their entries")
    for number in range(20):
        entries = numbered(60, number)
        sizes = sorted(chance.randrange(61) for _ in range(number + 1))
        updates = [update(entries[:size], old, origin=NAMES[0]) for old, size in zip([0, *sizes], sizes)]
        beside(updates, entries[:updates[-1].size])
        beside(updates, entries[:updates[-1].size - 1] if updates[-1].size else entries)


def main():
    first_rows()
    origins()
    faults()
    full()
    states()
    at_random()
    TABLE.write()


if __name__ == "__main__":
    main()
