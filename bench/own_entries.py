"""Requests of `log`, of `consistency` and of `audit` with the log's own entries, and what only hashing those takes."""
import functools
import hashlib
import random
import time

from shapes import EXAMPLE, coded, request, row

KEY_HINT_AND_SIGNATURE = EXAMPLE["checkpoint"].split("\n\n")[1]


# Equal neighbours are hashed once.

@functools.lru_cache(maxsize=4)
def leaf(entry):
    return hashlib.sha256(b"\0" + entry).digest()


@functools.lru_cache(maxsize=4)
def node(left, right):
    return hashlib.sha256(b"\1" + left + right).digest()


def levels(entries):
    """The hashes of a tree, level by level, from the leaves to the root (RFC 6962 section 2.1). A node without a
    neighbour is in the next level unchanged."""
    return levels_above([leaf(entry) for entry in entries])


def levels_above(level):
    """The levels from this one on."""
    while len(level) > 1:
        yield level
        pairs = zip(level[::2], level[1::2])
        level = [node(*pair) for pair in pairs] + level[len(level) & ~1 :]
    yield level


def with_root(size, root, hashes, **members):
    """A request with these hashes of a log of this size and root."""
    note = f"log.example\n{size}\n{coded(root)}\n"
    return request(
        treeSize=size, rootHash=root.hex(), hashes=[each.hex() for each in hashes],
        checkpoint=f"{note}\n{KEY_HINT_AND_SIGNATURE}", accepted=[row(note.encode())], **members,
    )


def with_list(entries, more, root, hashes, **members):
    """The same with the log's entries and more."""
    return with_root(len(entries), root, hashes, entries=[coded(entry) for entry in (*entries, *more)], **members)


def of_log(entries, more=()):
    """A request for the first of the entries of a log, with the log's entries and more."""
    *below, [root] = levels(entries)
    return with_list(entries, more, root, [level[1] for level in below], entry=coded(entries[0]))


def of_growth(entries, more=()):
    """A request of `consistency` of a log that grew by the last of an even number of entries, with the log's entries
    and more."""
    *below, [root] = levels(entries)
    lefts = [level[-2] for level in below if len(level) % 2 == 0]
    old = lefts[0]
    for left in lefts[1:]:
        old = node(left, old)
    hashes = [lefts[0], below[0][-1], *lefts[1:]]
    return with_list(entries, more, root, hashes, oldSize=len(entries) - 1, oldRoot=old.hex())


def of_blocks(most):
    """A request of `log` of nearly this many bytes whose entries are 8,192 ones again and again, of which every second has three bytes, and how many
    there are. It takes as long as if all of three bytes were different, and is made sooner."""
    block = [b"" if place % 2 else place.to_bytes(3, "big") for place in range(2**13)]
    text = ",".join(f'"{coded(entry)}"' for entry in block)
    times = (most - 4096) // (len(text) + 1)
    *lower, [top] = levels(block)
    *upper, [root] = levels_above([top] * times)
    made = with_root(len(block) * times, root, [level[1] for level in (*lower, *upper)], entry=coded(block[0]), entries="@")
    return made.replace(b'"@"', b"[" + ",".join([text] * times).encode() + b"]"), len(block) * times


def below(size):
    """The largest power of two below a number."""
    return 1 << (size - 1).bit_length() - 1


def span(made, low, high):
    """The root of the entries from one index to another, by the levels of the whole tree."""
    size = high - low
    if size & (size - 1) == 0:
        return made[size.bit_length() - 1][low // size]
    middle = low + below(size)
    return node(span(made, low, middle), span(made, middle, high))


def growth(made, old, low, high, whole=True):
    """SUBPROOF of RFC 6962 section 2.1.2, by the levels of the whole tree."""
    if old == high - low:
        return [] if whole else [span(made, low, high)]
    middle = low + below(high - low)
    if low + old <= middle:
        return [*growth(made, old, low, middle, whole), span(made, middle, high)]
    return [*growth(made, low + old - middle, middle, high, False), span(made, low, middle)]


def of_heads(count, entries, more=()):
    """A request of `audit` of a log at this many sizes, the last with these entries, with them and more."""
    made = list(levels(entries))
    sizes = [(place + 1) * len(entries) // count for place in range(count)]
    heads, rows = [], []
    for before, size in zip([None, *sizes], sizes):
        note = f"log.example\n{size}\n{coded(span(made, 0, size))}\n"
        hashes = growth(made, before, 0, size) if before else []
        heads.append({"checkpoint": f"{note}\n{KEY_HINT_AND_SIGNATURE}", "hashes": [each.hex() for each in hashes]})
        rows.append(row(note.encode()))
    return request(heads=heads, accepted=rows, entries=[coded(entry) for entry in (*entries, *more)])


def big(size, more=1):
    """Four entries that make a request of nearly this many bytes, where it has them and this many more of their size."""
    return [bytes([number]) * (3 * size // (16 + 4 * more) - 400) for number in range(4)]


def small(count):
    return [b"entry %d" % number for number in range(count)]


def filling(most, period, entry):
    """An even number of entries that make a request of nearly this many bytes: of each `period` one is `entry` of its
    number, which is four characters in base64, and the others have no byte."""
    count = (most - 4096) * period // (3 * period + 4) // (2 * period) * (2 * period)
    return [b"" if place % period else entry(place) for place in range(count)]


def of_a_byte(most):
    """One entry of eight has a byte, the others none, in no order."""
    made = filling(most, 8, lambda place: b"\0")
    random.Random(most).shuffle(made)
    return made


def of_three_bytes(most):
    """Every second entry has three bytes, all different, and the others none."""
    return filling(most, 2, lambda place: place.to_bytes(3, "big"))


def of_no_byte(most):
    return [b""] * ((most - 4096) // 6 * 2)


# Small entries that cost most to read or to hash: in the first two few of them follow an equal one.
FILLING = (
    ("one of eight has a byte, in no order", of_a_byte),
    ("every second has three bytes", of_three_bytes),
    ("all are empty", of_no_byte),
)


def hashing_tree(count):
    """The seconds of the processor that the hashes of a tree of 2^k entries take, by the library that Python has."""
    made = small(count)
    begun = time.process_time()
    for _ in levels(made):
        pass
    return time.process_time() - begun
