#!/usr/bin/env python3
"""Writes the table of crates/audit_cases: `stdin`, the calls, and `stdout`, what they return.

    tools/audit_cases.py

Trees, audit paths and consistency proofs are those of RFC 6962 section 2.1, by its recursions; a consistency proof is judged by the walk of
RFC 9162 section 2.1.4.2, an audit path by the recursion of the path. An audit is judged head by head and then watch by watch. For each audit
it is asserted that the list has what is audited, since no collision of SHA-256 is known.
"""
import base64
import collections
import functools
import itertools
import random
import sys

sys.dont_write_bytecode = True

import consistency_cases as trees
from base_cases import REFERENCE, ROOTS, audit_path, inclusion
from case_table import Table, hexed
from consistency_cases import EMPTY, flipped, joined, leaf_hash, subproof
from rekor_cases import quoted

TABLE = Table("audit_cases")
KEY, OTHER_KEY, SIGNATURE, ORIGIN, NAME = b"key", b"other", b"s", "o", "o"
OTHER = bytes([7] * 32)
MOST = 2 ** 64 - 1


class Head(collections.namedtuple("Head", "origin size root path signatures")):
    def note(self):
        return f"{self.origin}\n{self.size}\n{base64.b64encode(self.root).decode()}\n"

    def text(self):
        lines = (f"\u2014 {NAME} {base64.b64encode(bytes(4) + raw).decode()}\n" for raw in self.signatures)
        return self.note() + "\n" + "\n".join(lines)


Watch = collections.namedtuple("Watch", "head index path entry")


@functools.lru_cache(None)
def root_of(entries):
    return trees.tree_hash(entries)


def head(entries, path=(), root=None, origin=ORIGIN, signatures=(SIGNATURE,)):
    return Head(origin, len(entries), root_of(entries) if root is None else root, list(path), signatures)


def numbered(count, changed=None):
    return tuple(trees.numbered(count, changed))


def proof(old, entries):
    return subproof(old, entries, True) if old else []


def log(sizes, entries):
    """The heads of a log at these sizes."""
    return [head(entries[:size], proof(before, entries[:size])) for before, size in zip([sizes[0], *sizes], sizes)]


def watch(heads, place, index, entries):
    return Watch(place, index, audit_path(index, entries[:heads[place].size]), entries[index])


def put(items, place, item):
    return items[:place] + [item] + items[place + 1:]


# ---- what the calls return

def row(key, note, signature):
    return key, note.encode(), signature


def rows_of(heads, without=None):
    """The rows under which each head is signed, except the one at a place."""
    return list(dict.fromkeys(row(KEY, each.note(), SIGNATURE) for place, each in enumerate(heads) if place != without))


def grown(before, each):
    return trees.verdict(before.size, each.size, each.path, before.root, each.root)


def audited(heads, watched, rows):
    if not heads:
        return "Empty"
    for place, each in enumerate(heads):
        if not any(row(KEY, each.note(), signature) in rows for signature in each.signatures):
            return f"NoteKey({place})"
        if each.origin != heads[0].origin:
            return f"Origin({place})"
        found = grown(heads[place - 1], each) if place else "ok"
        if found != "ok":
            return f"Consistency({place}, {found})"
    for place, each in enumerate(watched):
        if each.head >= len(heads):
            return f"Head({place})"
        under = heads[each.head]
        found = inclusion(each.index, leaf_hash(each.entry), under.size, each.path, under.root)
        if found != "ok":
            return f"Inclusion({place}, {found})"
    return f"ok {heads[-1].size}"


def listed(heads, watched, entries, rows):
    found = audited(heads, watched, rows)
    if not found.startswith("ok"):
        return found
    if (heads[-1].size, heads[-1].root) != (len(entries), root_of(entries)):
        return "ok other"
    assert all(each.root == root_of(entries[:each.size]) for each in heads)
    assert all(entries[each.index] == each.entry for each in watched)
    return "ok listed none none"


# ---- lines

def parts(heads, watched):
    yield hexed(KEY)
    yield str(len(heads))
    for each in heads:
        yield from (quoted(each.text()), joined(each.path))
    yield str(len(watched))
    for each in watched:
        yield from (str(each.head), str(each.index), joined(each.path), hexed(each.entry))


def row_words(rows):
    for key, note, signature in rows:
        yield f"message ECDSA_P256_SHA256_ASN1 {hexed(key)} {hexed(note)} {hexed(signature)}"


def audit(heads, watched=(), rows=None):
    rows = rows_of(heads) if rows is None else rows
    TABLE.case(" ".join(("audit", *parts(heads, watched), *row_words(rows))), audited(heads, watched, set(rows)))


def beside(heads, watched, entries, rows=None):
    rows = rows_of(heads) if rows is None else rows
    words = ("list", *parts(heads, watched), joined(entries) if entries else "-", *row_words(rows))
    TABLE.case(" ".join(words), listed(heads, watched, entries, set(rows)))


def fronts(counts, entries):
    roots = [root_of(entries[:count]).hex() for count in counts]
    TABLE.case(" ".join(("fronts", str(len(counts)), *map(str, counts), joined(entries))), " ".join(["ok", *roots]))


# ---- the cases

def first_rows():
    TABLE.group("audit KEY HEADS WATCHES ROWS, list KEY HEADS WATCHES ENTRIES ROWS: the empty tree and that of L123456")
    entries = (b"L123456",)
    one, none = head(entries, origin="log.example"), head((), origin="log.example")
    watched = [Watch(1, 0, [], entries[0])]
    audit([none, one], watched)
    beside([none, one], watched, entries)
    audit([one, none])
    audit([one], [Watch(0, 1, [], entries[0])])
    TABLE.group("no head; one; its hashes are not looked at")
    audit([])
    audit([], watched)
    beside([], [], ())
    audit([one])
    audit([none])
    audit([none._replace(path=[OTHER])])
    audit([one._replace(path=[OTHER] * 300)])
    beside([one._replace(path=[OTHER])], [], entries)


ENTRIES = numbered(11)
HEADS = log((3, 6, 6, 11), ENTRIES)
WATCHED = [watch(HEADS, 0, 2, ENTRIES), watch(HEADS, 3, 7, ENTRIES), watch(HEADS, 1, 0, ENTRIES)]


def signatures():
    TABLE.group("signatures: a head without its row; its row under another key, over another note and of another signature")
    for place, each in enumerate(HEADS):
        rows = rows_of(HEADS, place)
        audit(HEADS, WATCHED, rows)
        if place != 1:
            continue
        others = (row(OTHER_KEY, each.note(), SIGNATURE), row(KEY, each.note() + "\n", SIGNATURE), row(KEY, each.note(), b"t"), row(KEY, each.note(), b""))
        for other in others:
            audit(HEADS, WATCHED, rows + [other])
    audit(HEADS, WATCHED, [])
    TABLE.group("several signatures of a head, of which the first, the last and none is accepted")
    for these in ((SIGNATURE, b"t"), (b"t", SIGNATURE), (b"t", b"u", b""), (b"t",) * 3 + (SIGNATURE,) * 2):
        audit(put(HEADS, 2, HEADS[2]._replace(signatures=these)), WATCHED)
    TABLE.group("origins: another at each place, and at two")
    for place in range(4):
        audit(put(HEADS, place, HEADS[place]._replace(origin="p")), WATCHED)
        audit(put(put(HEADS, 0, HEADS[0]._replace(origin="p")), place, HEADS[place]._replace(origin="p")), WATCHED)
    audit([each._replace(origin="p q\u00e9") for each in HEADS], WATCHED)
    audit(put(HEADS, 2, HEADS[2]._replace(origin="o ")), WATCHED)


def growths():
    TABLE.group("each error of a consistency proof, at each place")
    for place in (1, 2, 3):
        each = HEADS[place]
        for path in ([], [OTHER], each.path + [OTHER], each.path[:-1], each.path[::-1], [flipped(digest) for digest in each.path], [OTHER] * 300):
            audit(put(HEADS, place, each._replace(path=path)))
        for number, digest in enumerate(each.path):
            audit(put(HEADS, place, each._replace(path=put(each.path, number, flipped(digest)))))
        for size in (0, each.size - 1, each.size + 1, MOST):
            audit(put(HEADS, place, each._replace(size=size)))
        audit(put(HEADS, place, each._replace(root=flipped(each.root))))
    audit(put(HEADS, 0, HEADS[0]._replace(root=OTHER)))
    audit(put(HEADS, 0, HEADS[0]._replace(size=2)))
    audit(put(HEADS, 0, HEADS[0]._replace(size=0)))
    audit(put(HEADS, 0, HEADS[0]._replace(size=0, root=EMPTY)))
    TABLE.group("empty heads: of equal and of other hashes, with hashes, and what follows them")
    none, other, one = head(()), head((), root=OTHER), head((b"x",))
    for heads in ([none, none], [other, other], [none, other], [other, none], [none, none._replace(path=[OTHER])], [none] * 3, [other] * 3,
                  [none, none, one], [other, other, one], [none, one._replace(path=[OTHER])], [none, one, none], [one, one], [other, one._replace(path=[OTHER])]):
        audit(heads)
        for entries in ((), (b"x",), (b"y",)):
            beside(heads, [], entries)
    audit([none], [Watch(0, 0, [], b"")])
    audit([none, one], [Watch(0, 0, [], b"x")])


def moved():
    TABLE.group("watches: heads that are there and not, and indexes")
    good = WATCHED[1]
    for place in (*range(5), 2 ** 32, MOST):
        audit(HEADS, put(WATCHED, 1, good._replace(head=place)))
    for index in (*range(12), 2 ** 32, 2 ** 63, MOST):
        audit(HEADS, put(WATCHED, 1, good._replace(index=index)))
    TABLE.group("watches: each hash changed, dropped and doubled; another entry")
    for number, digest in enumerate(good.path):
        for others in ([flipped(digest)], [], [digest, digest]):
            audit(HEADS, put(WATCHED, 1, good._replace(path=good.path[:number] + others + good.path[number + 1:])))
    for path in ([], good.path[::-1], [OTHER] * 300):
        audit(HEADS, put(WATCHED, 1, good._replace(path=path)))
    for entry in (b"", b"entry 8", b"entry 7 ", b"entry 70" * 300):
        audit(HEADS, put(WATCHED, 1, good._replace(entry=entry)))
    for place in range(3):
        audit(HEADS, put(WATCHED, place, WATCHED[place]._replace(entry=b"x")))
        audit(HEADS, put(WATCHED, place, WATCHED[place]._replace(head=4)))
        audit(HEADS, WATCHED[:place])
    TABLE.group("a watch of each entry under each head that has it, and under the others")
    every = [watch(HEADS, place, index, ENTRIES) for place in range(4) for index in range(HEADS[place].size)]
    beside(HEADS, every, ENTRIES)
    for place, each in enumerate(every[::3]):
        audit(HEADS, [each._replace(head=(each.head + 1) % 4)])
    TABLE.group("two leaves of a tree, joined, are not an entry of it, nor of a tree of one")
    two = head((b"a", b"b"))
    audit([two], [Watch(0, 0, [], leaf_hash(b"a") + leaf_hash(b"b"))])
    audit([two._replace(size=1)], [Watch(0, 0, [], leaf_hash(b"a") + leaf_hash(b"b"))])


def broken():
    """The log with one fault, by the name of each."""
    for place in range(4):
        yield lambda heads, watched, rows, place=place: (heads, watched, rows | {place})
        if place:
            yield lambda heads, watched, rows, place=place: (put(heads, place, heads[place]._replace(origin="p")), watched, rows)
            yield lambda heads, watched, rows, place=place: (put(heads, place, heads[place]._replace(path=[OTHER] * 9)), watched, rows)
    for place in range(3):
        yield lambda heads, watched, rows, place=place: (heads, put(watched, place, watched[place]._replace(head=9)), rows)
        yield lambda heads, watched, rows, place=place: (heads, put(watched, place, watched[place]._replace(entry=b"x")), rows)


def neighbours():
    TABLE.group("two faults at once, of heads and of watches, at equal and at other places: the first counts")
    for one, other in itertools.combinations(list(broken()), 2):
        heads, watched, unsigned = other(*one(HEADS, WATCHED, frozenset()))
        audit(heads, watched, [row(KEY, each.note(), SIGNATURE) for place, each in enumerate(heads) if place not in unsigned])


def forged(heads, place):
    """The head at this place with another root, signed."""
    return put(heads, place, heads[place]._replace(root=flipped(heads[place].root)))


def logs():
    TABLE.group("a log of 200 entries in 20 heads: one head forged at each place, one proof changed, the later heads of another list")
    entries, other = numbered(200), numbered(200, 4)
    sizes = [number * 10 + number % 3 for number in range(1, 20)] + [200]
    heads, later = log(sizes, entries), log(sizes, other)
    watched = [watch(heads, place, sizes[place] - 1 - place, entries) for place in range(0, 20, 3)]
    audit(heads, watched)
    for place in range(20):
        audit(forged(heads, place))
        if place % 3 == 1:
            path = heads[place].path
            audit(put(heads, place, heads[place]._replace(path=put(path, place % len(path), flipped(path[place % len(path)])))))
            audit(heads[:place] + later[place:])
    TABLE.group("one watch moved: to the next index, to the head before, and to the next")
    for place, each in enumerate(watched):
        for changed in (each._replace(index=each.index + 1), each._replace(head=each.head - 1 if each.head else 20), each._replace(head=each.head + 1)):
            audit(heads, put(watched, place, changed))
    TABLE.group("the log beside its list and others: one entry changed, one more, one fewer, in another order, none")
    for entries_beside in (entries, other, numbered(200, 199), numbered(201), numbered(199), entries[::-1], ()):
        beside(heads, watched, entries_beside)
    TABLE.group("40 heads of 200 entries")
    sizes = [number * 5 for number in range(1, 41)]
    heads = log(sizes, entries)
    watched = [watch(heads, place, 3, entries) for place in range(40)]
    beside(heads, watched, entries)
    beside(heads, watched, other)
    for place in (0, 1, 20, 38, 39):
        audit(forged(heads, place), watched)


def hundreds():
    TABLE.group("300 heads and 300 watches; 300 heads of which the last is forged or not signed; 300 watches of which the last is broken")
    entries = numbered(300)
    heads = log(range(1, 301), entries)
    watched = [watch(heads, 299 - place // 2, place * 7 % (300 - place // 2), entries) for place in range(300)]
    beside(heads, watched, entries)
    audit(forged(heads, 299))
    audit(heads, [], rows_of(heads, 299))
    under = [watch(heads[299:], 0, place, entries) for place in range(300)]
    for each in (under[299], under[299]._replace(head=1), under[299]._replace(entry=b"x")):
        audit(heads[299:], put(under, 299, each))
    TABLE.group("300 equal heads, and 300 empty ones")
    beside([head(entries)] * 300, [], entries)
    beside([head(())] * 300, [], ())


def at_random():
    TABLE.group("logs at random, beside their list, and with a part changed")
    chance = random.Random(6962)
    for _ in range(60):
        entries = numbered(chance.randrange(1, 70))
        sizes = sorted(chance.randrange(len(entries) + 1) for _ in range(chance.randrange(7))) + [len(entries)]
        heads = log(sizes, entries)
        some = [place for place, size in enumerate(sizes) if size]
        watched = [watch(heads, place, chance.randrange(sizes[place]), entries) for place in chance.choices(some, k=chance.randrange(6))]
        beside(heads, watched, entries)
        place = chance.randrange(len(heads))
        changed = (forged(heads, place), put(heads, place, heads[place]._replace(size=chance.randrange(70))), heads[:place] + heads[place + 1:],
                   heads[:place] + [heads[place]] + heads[place:])[chance.randrange(4)]
        beside(changed, watched, entries)


def roots():
    TABLE.group("fronts MANY COUNT .. ENTRIES: the roots of the first entries, at so many counts. The reference tree, whose roots are published")
    fronts(list(range(9)), tuple(REFERENCE))
    assert [root_of(tuple(REFERENCE[:count])).hex() for count in range(9)] == ROOTS
    TABLE.group("no count; no entry; each count once, twice, and alone; equal entries")
    for entries in ((), (b"",), numbered(5)):
        fronts([], entries)
        fronts([0] * 3, entries)
    for many in range(1, 19):
        fronts(list(range(many + 1)), numbered(many))
        fronts(sorted(list(range(many + 1)) * 2), numbered(many))
        fronts(list(range(0, many + 1, 2)), (b"same",) * many)
    for count in range(14):
        fronts([count], numbered(13))
    TABLE.group("300 counts of 300 entries, of 2, and of none; the last alone")
    entries = numbered(300)
    fronts(list(range(1, 301)), entries)
    fronts([1] * 150 + [2] * 150, entries[:2])
    fronts([0] * 300, ())
    for counts in ([300], [256, 257, 299], [0, 300, 300]):
        fronts(counts, entries)


def main():
    for rows in (first_rows, signatures, growths, moved, neighbours, logs, hundreds, at_random, roots):
        rows()
    TABLE.write()


if __name__ == "__main__":
    main()
