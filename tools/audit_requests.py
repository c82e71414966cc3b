#!/usr/bin/env python3
"""Requests of `audit` and the replies to them, by a reader of its own.

    tools/audit_requests.py                  writes examples/audit.requests, one request on a line, and below each the reply and the status; and
                                             the examples audit*.json with their replies
    tools/audit_requests.py check PROGRAM    runs the program on logs of up to 40 heads and 200 entries, one head forged at each place, one proof
                                             changed, one watch moved, and other lists; and compares its replies

The replies are this program's own: members and checkpoints are read as tools/log_requests.py does, a consistency proof is checked by the walk of
RFC 9162 in tools/consistency_cases.py, an audit path by the recursion of RFC 6962 in tools/base_cases.py, and a list of entries is hashed from
its leaves up. It takes for granted that no list has other entries than the last head's under the same root."""
import base64
import functools
import json
import pathlib
import random
import sys

TOP = pathlib.Path(__file__).resolve().parent.parent
sys.dont_write_bytecode = True
sys.path.insert(0, str(TOP / "tools"))
import consistency_cases as trees
import log_requests as log
import request_table
from base_cases import audit_path, inclusion
from consistency_requests import nested

MOST_HEADS, MOST_WATCHES, MOST = 256, 4096, 2**64
ORIGIN, NAME, SIGNATURE = "log.example", "log.example", b"sig"
EMPTY = trees.EMPTY


# ---- the replies

def head_of(value):
    if not isinstance(value, dict):
        log.refuse()
    return {"checkpoint": log.required(value, "checkpoint", log.text_of), "hashes": log.optional(value, "hashes", log.list_of(log.hash_of)) or []}


def watch_of(value):
    if not isinstance(value, dict):
        log.refuse()
    return {
        "head": log.required(value, "head", log.integer(0, MOST)),
        "index": log.required(value, "index", log.integer(0, MOST)),
        "hashes": log.optional(value, "hashes", log.list_of(log.hash_of)) or [],
        "entry": log.required(value, "entry", log.bytes_of),
    }


def read_request(text):
    members = log.members_of(text)
    read = {
        "heads": log.required(members, "heads", log.list_of(head_of)),
        "watched": log.optional(members, "watched", log.list_of(watch_of)) or [],
        "scheme": log.required(members, "scheme", log.one_of(log.SCHEMES)),
        "key": log.required(members, "key", log.bytes_of),
        "accepted": log.optional(members, "accepted", log.list_of(log.row_of)) or [],
        "entries": log.optional(members, "entries", log.list_of(log.bytes_of)),
    }
    within = 1 <= len(read["heads"]) <= MOST_HEADS and len(read["watched"]) <= MOST_WATCHES
    if not within or any(watch["head"] >= len(read["heads"]) for watch in read["watched"]):
        log.refuse()
    return read


def second_line(request, notes):
    """What the log's own entries say of the heads and of the watched entries, where a request gives them."""
    entries = request["entries"]
    if entries is None:
        return ""
    if (len(entries), log.root_of(entries)) != (notes[-1][1], notes[-1][2]):
        return "other list"
    assert all(log.root_of(entries[:size]) == root for _, size, root in notes), "a collision of SHA-256"
    assert all(entries[watch["index"]] == watch["entry"] for watch in request["watched"]), "a collision of SHA-256"
    return f"prefixes {len(notes)}"


def read_notes(request):
    """Each head's checkpoint, or the reply to the first that has no reading."""
    read = []
    for place, head in enumerate(request["heads"]):
        try:
            read.append(log.rekor.read_checkpoint(head["checkpoint"]))
        except log.rekor.Fault:
            return None, f"refused checkpoint {place}"
    return read, None


def refusal(request, checkpoints, notes):
    """The first link of heads and watches that fails."""
    for place, (note, signatures) in enumerate(checkpoints):
        signed = log.rekor.note_text(note).encode()
        if not any(("message", request["scheme"], request["key"], signed, raw) in request["rows"] for _, _, raw in signatures):
            return f"refused note-key {place}"
        if notes[place][0] != notes[0][0]:
            return f"refused origin {place}"
        if place:
            (_, old, old_root), (_, new, new_root) = notes[place - 1 : place + 1]
            if trees.verdict(old, new, request["heads"][place]["hashes"], old_root, new_root) != "ok":
                return f"refused consistency {place}"
    for place, watch in enumerate(request["watched"]):
        _, size, root = notes[watch["head"]]
        if inclusion(watch["index"], trees.leaf_hash(watch["entry"]), size, watch["hashes"], root) != "ok":
            return f"refused inclusion {place}"
    return None


def note_of(note):
    """The origin, the size and the root of a note."""
    return note[:3]


def reply(text):
    """The reply and the status, by the links in their order."""
    try:
        request = read_request(text)
    except log.NoRequest:
        return "refused request", 2
    checkpoints, refused = read_notes(request)
    if refused:
        return refused, 1
    request["rows"] = set(request["accepted"])
    notes = [note_of(note) for note, _ in checkpoints]
    refused = refusal(request, checkpoints, notes)
    if refused:
        return refused, 1
    second = second_line(request, notes)
    return f"audited {len(notes)} {len(request['watched'])} {notes[-1][1]}{second and ' ' + second}", 0


def lines(text):
    """The reply, its second line below the first, and the status."""
    line, status = reply(text)
    return line.replace(" prefixes", "\nprefixes").replace(" other", "\nother"), status


# ---- the requests

@functools.lru_cache(None)
def root_of(entries):
    return trees.tree_hash(list(entries))


def in_base64(found):
    return base64.b64encode(found).decode()


def note(size, root, origin=ORIGIN):
    return f"{origin}\n{size}\n{in_base64(root)}\n"


def checkpoint(size, root, origin=ORIGIN, signatures=(SIGNATURE,)):
    return note(size, root, origin) + "\n" + "\n".join(f"\u2014 {NAME} {in_base64(bytes([0, 0, 0, 1]) + raw)}\n" for raw in signatures)


def head(entries, before=None, **changes):
    """The head of a log of these entries that had this many before; None: it is the first."""
    entries = tuple(entries)
    hashes = [digest.hex() for digest in trees.subproof(before, list(entries), True)] if before else []
    parts = {"size": len(entries), "root": root_of(entries), "origin": ORIGIN, "signatures": (SIGNATURE,)} | changes
    return {"checkpoint": checkpoint(**parts), "hashes": hashes}


def heads_of(sizes, entries):
    return [head(entries[:size], before) for before, size in zip([None, *sizes], sizes)]


def watch(place, index, entries):
    """An entry watched under the head of these entries."""
    hashes = [digest.hex() for digest in audit_path(index, list(entries))]
    return {"head": place, "index": index, "hashes": hashes, "entry": in_base64(entries[index])}


def row(text, **changes):
    """The row under which a checkpoint's note is signed."""
    message = text.split("\n\n")[0] + "\n"
    return {"operation": "message", "scheme": log.SCHEMES[0], "key": "a2V5", "message": in_base64(message.encode()),
            "signature": in_base64(SIGNATURE)} | changes


def rows_of(heads):
    """The rows under which these heads are signed, each once."""
    return [row(text) for text in dict.fromkeys(found["checkpoint"] for found in heads)]


def request(heads, watched=(), entries=None, **changes):
    made = {"heads": heads, "watched": list(watched), "scheme": log.SCHEMES[0], "key": "a2V5", "accepted": rows_of(heads)}
    if entries is not None:
        made["entries"] = [in_base64(entry) for entry in entries]
    return made | changes


def put(items, place, item):
    return [*items[:place], item, *items[place + 1 :]]


# the log of one entry that the examples of `log` have, and the empty one before it
LOG = (b"L123456",)
X, Y = head(LOG), head(())
ONE = {"head": 0, "index": 0, "entry": "TDEyMzQ1Ng=="}
ENTRIES = tuple(f"L{123456 + number}".encode() for number in range(11))
SIZES = (3, 6, 6, 11)
HEADS = heads_of(SIZES, ENTRIES)
WATCHED = [watch(0, 2, ENTRIES[:3]), watch(3, 7, ENTRIES), watch(1, 0, ENTRIES[:6])]
OTHER_ROOT = bytes(32)
BROKEN = "log.example\n1\nno hash\n\n\u2014 log.example AAAAAXNpZw==\n"


def first_rows():
    """An empty head and one of one entry, in order and not; an index that no entry has."""
    at = {"head": 1, "index": 0, "entry": "TDEyMzQ1Ng=="}
    yield request([Y, X], [at], LOG)
    yield request([X, Y])
    yield request([X], [at | {"head": 0, "index": 1}])
    for entries in ((), (b"L123457",), LOG + LOG, (b"",)):
        yield request([Y, X], [at], entries)
    yield request([X])
    yield request([Y], entries=())
    yield request([Y, Y, X], entries=LOG)


def links():
    """Each link as the first that fails, at each place, by itself and before others."""
    whole = request(HEADS, WATCHED, ENTRIES)
    yield whole
    for place, found in enumerate(HEADS):
        yield whole | {"heads": put(HEADS, place, found | {"checkpoint": BROKEN})}
        yield whole | {"accepted": rows_of(put(HEADS, place, X))} if place in (0, 1, 3) else whole | {"accepted": rows_of(HEADS[:1])}
        other = head(ENTRIES[: SIZES[place]], SIZES[place - 1] if place else None, origin="other.example")
        yield request(put(HEADS, place, other), WATCHED, ENTRIES)
        forged = head(ENTRIES[: SIZES[place]], SIZES[place - 1] if place else None, root=OTHER_ROOT)
        yield request(put(HEADS, place, forged), WATCHED, ENTRIES)
        yield request(put(HEADS, place, found | {"hashes": [*found["hashes"], "00" * 32]}), WATCHED, ENTRIES)
        yield request(put(HEADS, place, found | {"hashes": found["hashes"][:-1]}), WATCHED, ENTRIES)
    for place, found in enumerate(WATCHED):
        for changes in ({"entry": ""}, {"index": found["index"] + 1}, {"hashes": []}, {"hashes": [*found["hashes"], "00" * 32]}, {"head": 2}, {"index": MOST - 1}):
            yield request(HEADS, put(WATCHED, place, found | changes), ENTRIES)
    # Two links fail: the first counts.
    last = {"checkpoint": BROKEN}
    yield request(put(HEADS, 3, last), WATCHED, accepted=[])
    yield request(put(put(HEADS, 3, last), 1, last), WATCHED)
    yield request([X, head(LOG, origin="other.example")], [], accepted=rows_of([X]))
    yield request([X, head((), origin="other.example")])
    yield request([X, Y], [{"head": 0, "index": 1, "entry": ""}])
    yield request([head(ENTRIES[:3], root=OTHER_ROOT), *HEADS[1:]], put(WATCHED, 0, WATCHED[0] | {"entry": ""}))
    # Several signatures of a head, of which any may be the log's.
    for these in ((b"t", SIGNATURE), (SIGNATURE, b"t"), (b"t", b"u"), ()):
        yield request(put(HEADS, 2, head(ENTRIES[:6], 6, signatures=these)), WATCHED, accepted=rows_of(HEADS))
    yield whole | {"key": "a2V6"}
    yield whole | {"scheme": log.SCHEMES[3]}
    yield whole | {"accepted": [row(found["checkpoint"], operation="prehash") for found in HEADS]}


def members():
    """Members of another kind, out of range, absent, doubled, null."""
    whole = request(HEADS, WATCHED, ENTRIES)
    for name in (*whole, "other"):
        yield {other: value for other, value in whole.items() if other != name}
        for value in (None, True, 7, "x", {}, [], [[]], [None], [{}]):
            yield whole | {name: value}
    for name in HEADS[1]:
        yield whole | {"heads": put(HEADS, 1, {other: value for other, value in HEADS[1].items() if other != name})}
        for value in (None, True, "x", ["x"], {}):
            yield whole | {"heads": put(HEADS, 1, HEADS[1] | {name: value})}
    for name in WATCHED[1]:
        yield request(HEADS, put(WATCHED, 1, {other: value for other, value in WATCHED[1].items() if other != name}))
        for value in (None, True, "x", ["x"], {}, -1, "3", "03", 4, MOST, str(MOST - 1)):
            yield request(HEADS, put(WATCHED, 1, WATCHED[1] | {name: value}))
    text = json.dumps(whole, separators=(",", ":"))
    yield text.replace('"head":3', '"head":9,"head":3')
    yield text.replace('"head":3', '"head":3.0')
    yield text.replace('"watched":', '"watched":[],"watched":')
    yield text.replace('"entries":', '"entries":1,"entries":')
    yield text[:-1]
    yield text + "{}"


def nesting():
    """Lists and objects nest to 127, in a member of the request and in one of a head and of a watched entry."""
    yield from nested(request(HEADS, WATCHED, ENTRIES), "heads", "watched")


def largest():
    """Heads about 2^63 and of 2^64 - 1 entries, by a made-up proof, and an entry watched at the end of the last."""
    first, digest = trees.leaf_hash(b"L"), bytes([1] * 32)
    for old, new in ((2 ** 63 - 1, 2 ** 63), (2 ** 63, 2 ** 63 + 1), (2 ** 64 - 2, 2 ** 64 - 1)):
        path = [digest] * trees.proof_len(old, new)
        old_root, root = trees.walk(old, new, path, first)
        heads = [head((), size=old, root=old_root), head((), size=new, root=root) | {"hashes": [each.hex() for each in path]}]
        yield request(heads)
        yield request(heads[::-1])
        yield request(heads, entries=())
        for hashes in ([], heads[1]["hashes"][1:], [*heads[1]["hashes"], digest.hex()]):
            yield request([heads[0], heads[1] | {"hashes": hashes}])
        for index in (new - 1, new, 2 ** 64 - 1, 2 ** 64):
            yield request(heads, [{"head": 1, "index": index, "hashes": heads[1]["hashes"], "entry": "TA=="}])
    yield request([head((), size=2 ** 64)])
    yield request([head((), size=2 ** 64 - 1), head((), size=2 ** 64 - 1)], [ONE])


def limits():
    """From 1 to 256 heads, and watched entries under them."""
    yield request([], accepted=[])
    for count in (255, 256, 257):
        yield request([X] * count, entries=LOG)
    yield request([Y] * 256)
    one = ONE
    for last in (one, one | {"entry": ""}, one | {"head": 1}):
        yield request([X], [one] * 299 + [last])
    yield request([X] * 255 + [Y])
    yield request([X] * 255 + [{"checkpoint": BROKEN}])
    yield request([X] * 255 + [head(LOG, origin="o")])
    yield request([X] * 255 + [head(LOG, 1)], [one | {"head": 255}, one | {"head": 256}])


def many_watches():
    """At most 4,096 watched entries."""
    for count in (4095, 4096, 4097):
        yield request([X], [ONE] * count)
    for changes in ({"entry": ""}, {"head": 1}, {"index": 1}):
        yield request([X], [ONE] * 4095 + [ONE | changes])


def forged_logs(count, sizes, entries):
    """A log at these sizes: whole, beside other lists, and with one head forged, one proof changed, one watch moved at each of this many places."""
    heads = heads_of(sizes, entries)
    watched = [watch(place, sizes[place] - 1 - place % sizes[place], entries[: sizes[place]]) for place in range(0, len(sizes), 3) if sizes[place]]
    yield request(heads, watched, entries)
    for other in (entries[:-1], entries + (b"",), put(list(entries), 0, b"other"), entries[::-1]):
        yield request(heads, watched, tuple(other))
    step = max(1, len(sizes) // count)
    for place in range(0, len(sizes), step):
        before = sizes[place - 1] if place else None
        yield request(put(heads, place, head(entries[: sizes[place]], before, root=OTHER_ROOT)), watched, entries)
        for hashes in (heads[place]["hashes"][::-1], heads[place]["hashes"][1:]):
            yield request(put(heads, place, heads[place] | {"hashes": hashes}), watched, entries)
    for place, found in list(enumerate(watched))[:: max(1, len(watched) // count)]:
        for changes in ({"index": found["index"] + 1}, {"head": (found["head"] + 1) % len(heads)}, {"entry": in_base64(b"other")}):
            yield request(heads, put(watched, place, found | changes), entries)


def logs():
    """Logs of several sizes, a head forged, a proof changed, a watch moved; a list of 300 entries."""
    yield from forged_logs(3, (0, 1, 2, 4, 7), ENTRIES[:7])
    yield from forged_logs(3, tuple(range(1, 41, 4)), tuple(f"entry {number}".encode() for number in range(37)))
    entries = tuple(f"entry {number}".encode() for number in range(300))
    yield request(heads_of((100, 256, 300), entries), [watch(1, 255, entries[:256])], entries)
    same = (b"same",) * 6
    yield request(heads_of((1, 2, 4, 6), same), [watch(3, 5, same)], same)


def sweep():
    """Logs of up to 40 heads and 200 entries."""
    yield from many_watches()
    chance = random.Random(6962)
    for heads, size in ((1, 1), (2, 3), (5, 8), (9, 33), (17, 64), (33, 130), (40, 200)):
        entries = tuple(f"entry {number}".encode() for number in range(size))
        sizes = tuple(sorted(chance.randrange(size + 1) for _ in range(heads - 1))) + (size,)
        yield from forged_logs(heads, sizes, entries)


GROUPS = {"an empty head and one of one entry": first_rows, "each link as the first that fails": links,
          "members of another kind, out of range, absent, doubled, null": members, "lists and objects nest to 127": nesting,
          "the largest logs": largest, "from 1 to 256 heads, and hundreds of watched entries": limits,
          "logs of several sizes: a head forged, a proof changed, a watch moved, other lists": logs}


def week():
    """A week of checkpoints of one log, and two entries watched."""
    entries = tuple(f"L{123456 + number}".encode() for number in range(40))
    sizes = (5, 9, 14, 14, 22, 31, 40)
    return request(heads_of(sizes, entries), [watch(0, 3, entries[:5]), watch(6, 3, entries)], entries)


def examples():
    found = week()
    yield "audit", found
    yield "audit-forged", found | {"heads": put(found["heads"], 4, found["heads"][4] | {"hashes": found["heads"][4]["hashes"][::-1]})}
    yield "audit-other-list", found | {"entries": found["entries"][:-1]}


if __name__ == "__main__":
    if sys.argv[1:2] == ["check"]:
        sys.exit(min(request_table.count_differing(sys.argv[2], "audit", sweep(), lines), 1))
    request_table.write("audit", GROUPS, reply, examples(), lines)
