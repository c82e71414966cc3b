"""Requests of `questions` and of `explain` over signed notes, whose lists are as long as fit: each a function from a count to the bytes."""
import hashlib
import json

import shapes
from shapes import EXAMPLE, NOTE, coded, numbered, signature_line

HEADS, UPDATES = 256, 4096  # of a request
WATCHED = 256  # as many watched entries as are shown


def over_note(**members):
    """A request of `log`, and of `consistency` of a log that did not grow."""
    return shapes.request(oldSize=EXAMPLE["treeSize"], oldRoot=EXAMPLE["rootHash"], **members)


def signed(signatures, note=NOTE):
    return note + "\n" + "\n".join(map(signature_line, signatures))


def signatures(count):
    """Signatures, none of which is accepted."""
    return over_note(checkpoint=signed(numbered(b"s" * 66, count)))


def hashes(count):
    return over_note(hashes=["a5" * 32] * count)


def empty_entries(count):
    return over_note(entries=[""] * count)


def entries_of_three_bytes(count):
    """Every second entry has three bytes, all different, and the others none."""
    return over_note(entries=[text for place in range(count) for text in ("", coded(place.to_bytes(3, "big")))])


def long_origin(count):
    """The note of a log of a long origin, which is not that of the tree."""
    note = "o" * count + "\n2\n" + EXAMPLE["checkpoint"].split("\n")[2] + "\n"
    return over_note(checkpoint=signed([b"sig"], note), accepted=[shapes.row(note.encode())])


def heads_of_signatures(count):
    """As many heads as there may be, with this many signatures together."""
    each = list(numbered(b"s" * 66, count))
    heads = [{"checkpoint": signed([*each[place::HEADS], b"sig"])} for place in range(HEADS)]
    return shapes.audit(heads)


def heads_of_hashes(count):
    """As many heads of one tree, each with this many hashes, which only the first may have."""
    return shapes.audit([{**shapes.HEAD, "hashes": ["a5" * 32] * count}] * HEADS)


def watched(count):
    """As many watched entries as are shown, each of this many bytes, and in the tree."""
    entry = b"e" * count
    root = hashlib.sha256(b"\0" + entry).digest()
    note = f"log.example\n1\n{coded(root)}\n"
    each = {**shapes.WATCH, "entry": coded(entry)}
    return shapes.audit([{"checkpoint": signed([b"sig"], note)}], watched=[each] * WATCHED, accepted=[shapes.row(note.encode())])


def heads_and_entries(count):
    return shapes.audit([shapes.HEAD] * HEADS, entries=[""] * count)


ORIGIN = {"origin": "log.example", "scheme": EXAMPLE["scheme"], "key": EXAMPLE["key"]}


def witness(updates, origin=ORIGIN, **members):
    made = {"origins": [origin], "updates": updates, **members}
    return json.dumps(made, separators=(",", ":"), ensure_ascii=False).encode()


def updates_of_signatures(count):
    """As many updates as there may be, with this many signatures together."""
    each = list(numbered(b"s" * 66, count))
    return witness([{"checkpoint": signed([*each[place::UPDATES], b"sig"]), "oldSize": 0} for place in range(UPDATES)])


def updates_of_other_origins(count):
    """As many updates of an origin of this many characters, which nobody watches."""
    note = "o" * count + "\n1\n" + EXAMPLE["checkpoint"].split("\n")[2] + "\n"
    return witness([{"checkpoint": signed([b"sig"], note), "oldSize": 0}] * UPDATES)


OF_NOTES = (
    ("signatures", signatures), ("hashes", hashes), ("empty entries", empty_entries), ("entries, every second of three bytes", entries_of_three_bytes),
)
OF_AUDITS = (
    ("256 heads of many signatures", heads_of_signatures), ("256 heads of many hashes", heads_of_hashes),
    ("long watched entries", watched), ("256 heads, empty entries", heads_and_entries),
)
OF_WITNESSES = (
    ("4,096 updates of many signatures", updates_of_signatures), ("4,096 updates of long origins", updates_of_other_origins),
)

# By the command, what the request is, and how it is made.
QUESTIONS = (*((command, *each) for command in ("log", "consistency") for each in OF_NOTES),
             *(("audit", *each) for each in OF_AUDITS), *(("witness", *each) for each in OF_WITNESSES))
EXPLAINED = (*(("consistency", *each) for each in (*OF_NOTES, ("a long origin", long_origin))),
             *(("audit", *each) for each in OF_AUDITS), *(("witness", *each) for each in OF_WITNESSES))


def room_share(make):
    """How much of the room that a request and its list have together the request may take."""
    return 0.29 if make in (signatures, heads_of_signatures, updates_of_signatures) else 0.99
