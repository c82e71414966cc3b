"""Requests of `witness`, and their table. Each is a function from a count to the bytes and to what the program writes."""
import hashlib
import json

import measure
import shapes
from goals import MOST_MEGABYTES, MOST_SECONDS
from measure import megabytes, written
from shapes import EXAMPLE, coded, numbered, signature_line

SCHEME, KEY, EMPTY = EXAMPLE["scheme"], EXAMPLE["key"], coded(hashlib.sha256(b"").digest())
ROOT = EXAMPLE["checkpoint"].split("\n")[2]
MOST_UPDATES = 4096


def request(**members):
    return json.dumps(members, separators=(",", ":"), ensure_ascii=False).encode()


def names(count):
    """The names of this many origins, in no order."""
    return [f"log {name.hex()}" for name in numbered(b"", count)]


def kept(name, size=0, root=EMPTY, key=KEY):
    return "".join(line + "\n" for line in (name, SCHEME, key, str(size), root))


def note(name):
    return f"{name}\n1\n{ROOT}\n"


def updates(count):
    """An update of each of this many origins, each of which is added and takes it."""
    made = names(count)
    origins = [{"origin": name, "scheme": SCHEME, "key": KEY} for name in made]
    each = [{"checkpoint": note(name) + "\n" + signature_line(b"sig"), "oldSize": 0} for name in made]
    rows = [shapes.row(note(name).encode()) for name in made]
    said = "accepted 1\n" * count + "\n" + "".join(kept(name, 1, ROOT) for name in sorted(made))
    return request(origins=origins, updates=each, accepted=rows), said, 0


def origins(count):
    made = names(count)
    return request(origins=[{"origin": name, "scheme": SCHEME, "key": KEY} for name in made]), "\n" + "".join(map(kept, sorted(made))), 0


def states(count):
    state = "".join(map(kept, sorted(names(count))))
    return request(state=state), "\n" + state, 0


def one_update(**changes):
    """An update of one origin with a member changed, which is refused."""
    made = {"checkpoint": EXAMPLE["checkpoint"], "oldSize": 0, **changes}
    return request(origins=[{"origin": "log.example", "scheme": SCHEME, "key": KEY}], updates=[made], accepted=EXAMPLE["accepted"])


def hashes(count):
    return one_update(hashes=["00" * 32] * (count + 1)), "refused consistency\n\n" + kept("log.example"), 1


def signatures(count):
    lines = [signature_line(signature) for signature in numbered(b"s" * 66, count)]
    return one_update(checkpoint=shapes.NOTE + "\n" + "\n".join(lines)), "refused note-key\n\n" + kept("log.example"), 1


def of_a_long_key(count):
    """As many updates as there may be of one note under a key of this many bytes, of which another signature is accepted."""
    key = coded(b"k" * count)
    origin = {"origin": "log.example", "scheme": SCHEME, "key": key}
    update = {"checkpoint": shapes.NOTE + "\n" + signature_line(b"sih"), "oldSize": 0}
    said = "refused note-key\n" * MOST_UPDATES + "\n" + kept("log.example", key=key)
    return request(origins=[origin], updates=[update] * MOST_UPDATES, accepted=[shapes.row(key=key)]), said, 1


def too_many(count):
    return request(updates=[{"checkpoint": "", "oldSize": 0}] * (count + MOST_UPDATES)), "refused request\n", 2


# The lists: each is made at half of the largest size, and at the whole; and the updates that a request may have.
LISTS = (("origins in the state", states), ("origins that are added", origins), ("hashes of an update", hashes),
         ("signatures of an update", signatures), ("updates under a long key", of_a_long_key), ("more updates than there may be", too_many))


def rows(bench):
    yield "updates of as many origins", updates(MOST_UPDATES // 2), updates(MOST_UPDATES)
    for name, make in LISTS:
        yield name, *(make(count_of(make, most)) for most in (bench.most // 2, bench.most))


def count_of(make, most):
    """How many elements a request of nearly this many bytes has."""
    few, more = len(make(50)[0]), len(make(100)[0])
    return 50 + max(0, most - few) * 50 // (more - few) * 99 // 100


def witnesses(bench):
    """Requests of `witness`: updates of as many origins, and each list of a request at half of the largest size and at the whole. The last column is
    the time to that over half the size."""
    table = bench.table(witnesses, "request", "bytes", "ms", "MB", "to half")
    words = [bench.program, "witness"]

    def timed(text, said, status):
        path = bench.kept(text)
        measure.expect(words, path, written(words, path, status), said.strip())
        return bench.timer(path, words, status)

    for name, half, whole in rows(bench):
        first, took = timed(*half), timed(*whole)
        doubled, peak = bench.doubled(f"witness, {name}", first, took), megabytes(words, took.path, whole[2])
        table.row(name, len(whole[0]), took.least * 1000, round(peak), doubled)
        bench.goal(f"witness, {name}, MB", peak, MOST_MEGABYTES)
        bench.goal(f"witness, {name}, seconds", took.least, MOST_SECONDS)
