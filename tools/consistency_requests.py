#!/usr/bin/env python3
"""Requests of `consistency` and the replies to them, by a reader of its own.

    tools/consistency_requests.py                  writes examples/consistency.requests, one request on a line, and below each the reply and
                                                   the status; and the examples consistency*.json with their replies
    tools/consistency_requests.py check PROGRAM    runs the program on requests with the log's own entries, of all sizes up to 33 and all
                                                   older sizes, and compares its replies: with the log's list, and with others

The replies are this program's own: members and checkpoints are read as tools/log_requests.py does, a proof is checked by the walk of
RFC 9162 in tools/consistency_cases.py, and a list of entries is hashed from its leaves up. It takes for granted that no list has
another front than the old tree under the same two roots."""
import base64
import json
import pathlib
import sys

TOP = pathlib.Path(__file__).resolve().parent.parent
sys.dont_write_bytecode = True
sys.path.insert(0, str(TOP / "tools"))
import consistency_cases as trees
import log_requests as log
import request_table


def read_request(text):
    members = log.members_of(text)
    return {
        "old_size": log.required(members, "oldSize", log.integer(0, 2**64)),
        "old_root": log.required(members, "oldRoot", log.hash_of),
        "size": log.required(members, "treeSize", log.integer(0, 2**64)),
        "root": log.required(members, "rootHash", log.hash_of),
        "hashes": log.optional(members, "hashes", log.list_of(log.hash_of)) or [],
        "checkpoint": log.required(members, "checkpoint", log.text_of),
        "scheme": log.required(members, "scheme", log.one_of(log.SCHEMES)),
        "key": log.required(members, "key", log.bytes_of),
        "accepted": log.optional(members, "accepted", log.list_of(log.row_of)) or [],
        "entries": log.optional(members, "entries", log.list_of(log.bytes_of)),
    }


def second_line(request):
    """What the log's own entries say of the old root, where a request gives them."""
    entries, old = request["entries"], request["old_size"]
    if entries is None:
        return ""
    if len(entries) != request["size"] or log.root_of(entries) != request["root"]:
        return "other list"
    assert log.root_of(entries[:old]) == request["old_root"], "a collision of SHA-256"
    return f"prefix {old}"


def reply(text):
    """The reply and the status, by the links in their order."""
    try:
        request = read_request(text)
    except log.NoRequest:
        return "refused request", 2
    try:
        checkpoint = log.rekor.read_checkpoint(request["checkpoint"])
    except log.rekor.Fault:
        return "refused checkpoint", 1
    note = log.rekor.note_text(checkpoint[0]).encode()
    if not any(("message", request["scheme"], request["key"], note, raw) in request["accepted"] for _, _, raw in checkpoint[1]):
        return "refused note-key", 1
    if log.rekor.of_tree(checkpoint, request["root"], request["size"]):
        return "refused note-match", 1
    if trees.verdict(request["old_size"], request["size"], request["hashes"], request["old_root"], request["root"]) != "ok":
        return "refused consistency", 1
    second = second_line(request)
    return f"consistent {request['old_size']} {request['size']}{second and ' ' + second}", 0


def lines(text):
    """The reply, its second line below the first, and the status."""
    line, status = reply(text)
    return line.replace(" prefix", "\nprefix").replace(" other", "\nother"), status


def head(size, root):
    """The members of a head whose checkpoint is accepted."""
    note = f"log.example\n{size}\n{base64.b64encode(root).decode()}\n"
    row = {"operation": "message", "scheme": log.SCHEMES[0], "key": "a2V5", "message": base64.b64encode(note.encode()).decode(), "signature": "c2ln"}
    return {"treeSize": size, "rootHash": root.hex(), "checkpoint": note + "\n\u2014 log.example AAAAAXNpZw==\n", "scheme": log.SCHEMES[0],
            "key": "a2V5", "accepted": [row]}


def request(old, entries, handed=None, /, **changes):
    """A request of a log that had this many of its entries, with the list that is given."""
    path = [digest.hex() for digest in trees.subproof(old, entries, True)] if old else []
    made = {"oldSize": old, "oldRoot": trees.tree_hash(entries[:old]).hex(), "hashes": path, **head(len(entries), trees.tree_hash(entries))}
    given = {} if handed is None else {"entries": [base64.b64encode(entry).decode() for entry in handed]}
    return {**made, **given, **changes}


# the log of one entry that the examples of `log` have
LOG = [b"L123456"]
ROOT = trees.tree_hash(LOG).hex()
ENTRIES = [f"L{123456 + number}".encode() for number in range(7)]


def links():
    """Each link that fails, and what holds."""
    yield request(1, LOG)
    yield request(0, LOG)
    yield request(0, LOG, oldRoot=ROOT)
    yield request(2, LOG + LOG, **head(1, trees.tree_hash(LOG)) | {"oldRoot": ROOT, "hashes": []})
    yield request(1, LOG, hashes=[ROOT])
    for old in range(8):
        yield request(old, ENTRIES)
    whole = request(3, ENTRIES)
    for changes in ({"oldSize": 8}, {"oldSize": 4}, {"oldSize": 2}, {"oldRoot": ROOT}, {"hashes": []}, {"hashes": whole["hashes"][::-1]},
                    {"hashes": whole["hashes"][:-1]}, {"hashes": whole["hashes"] + [ROOT]}, {"rootHash": ROOT}, {"treeSize": 8},
                    {"treeSize": 2 ** 64 - 1}, {"oldSize": 2 ** 64 - 1}, {"accepted": []}, {"key": "a2V6"}, {"scheme": log.SCHEMES[3]},
                    {"checkpoint": whole["checkpoint"].replace("\n\n", "\n")}, {"checkpoint": ""},
                    {"checkpoint": "", "oldRoot": ROOT}, {"accepted": [], "treeSize": 8}, {"treeSize": 8, "oldSize": 9}):
        yield {**whole, **changes}
    yield request(0, [])
    yield request(0, [], oldRoot=ROOT)


def members():
    """Members of another kind, out of range, absent, doubled, null."""
    whole = request(3, ENTRIES)
    for name in whole:
        yield {other: value for other, value in whole.items() if other != name}
        yield {**whole, name: None}
        yield {**whole, name: True}
    for changes in ({"oldSize": "3"}, {"oldSize": -1}, {"oldSize": 2 ** 64}, {"oldSize": "03"}, {"oldSize": ""}, {"oldRoot": "00"},
                    {"oldRoot": whole["oldRoot"].upper()}, {"hashes": ["00"]}, {"hashes": {}}, {"entry": 1, "logIndex": "x"}, {"other": [1, {}]}):
        yield {**whole, **changes}
    text = json.dumps(whole, separators=(",", ":"))
    yield text.replace('"oldSize":3', '"oldSize":9,"oldSize":3')
    yield text.replace('"oldSize":3', '"oldSize":3.0')
    yield text[:-1]
    yield text + "{}"


def deeper(text, depth):
    """The text of an object with one member more, by which the text nests so deep."""
    return f'{text[:-1]},"other":{"[" * (depth - 1)}{"]" * (depth - 1)}}}'


def nested(whole, *lists):
    """The texts of a request that nests to 127 and about it: in a member of the request, and in one of the first element of each of these lists."""
    text = json.dumps(whole, separators=(",", ":"))
    for depth in (126, 127, 128):
        yield deeper(text, depth)
        for name in lists:
            first = json.dumps(whole[name][0], separators=(",", ":"))
            yield text.replace(first, deeper(first, depth - 2))


def nesting():
    """Lists and objects nest to 127, with and without the log's entries."""
    for handed in (None, ENTRIES):
        yield from nested(request(3, ENTRIES, handed))


def largest():
    """Logs about 2^63 and of 2^64 - 1 entries, by a made-up proof; with a hash less and one more, and of other sizes."""
    first, digest = trees.leaf_hash(b""), bytes([1] * 32)
    for old, new in ((2 ** 63 - 1, 2 ** 63), (2 ** 63, 2 ** 63 + 1), (1, 2 ** 63), (2 ** 63 + 1, 2 ** 64 - 1), (2 ** 64 - 2, 2 ** 64 - 1)):
        path = [digest] * trees.proof_len(old, new)
        old_root, root = trees.walk(old, new, path, first)
        made = {"oldSize": old, "oldRoot": old_root.hex(), "hashes": [each.hex() for each in path], **head(new, root)}
        for changes in ({}, {"hashes": []}, {"hashes": made["hashes"][1:]}, {"hashes": [*made["hashes"], digest.hex()]}, {"oldSize": old - 1},
                        {"oldSize": new}, {"oldSize": str(old)}, {"treeSize": 2 ** 64}, {"oldRoot": digest.hex()}, {"entries": []}):
            yield {**made, **changes}


def lists():
    """The log's own entries: what is a list of base64 and what is none, and links that fail before the list is looked at."""
    for old, oldRoot in ((1, ROOT), (0, trees.EMPTY.hex())):
        for handed in (LOG, [], [b"L123457"], LOG + LOG, [b""]):
            yield request(old, LOG, handed, oldRoot=oldRoot)
    for handed in (None, "TDEyMzQ1Ng==", True, False, 1, -1, {}, {"0": "TDEyMzQ1Ng=="}, ["TDEyMzQ1Ng"], ["TDEyMzQ1Nh=="], [None], [7], [[]],
                   ["TDEyMzQ1Ng==", {}], ["TDEyMzQ1Ng==\n"], ["TDEyMzQ1Ng==", "-"]):
        yield request(1, LOG, entries=handed)
    text = json.dumps(request(1, LOG, LOG), separators=(",", ":"))
    yield text.replace('"entries":', '"entries":1,"entries":')
    yield text.replace('"entries":', '"entries":null,"\\u0065ntries":')
    yield text.replace('"entries":', '"Entries":')
    yield text.replace('"entries":["TDE', '"entries":[1.5,"TDE')
    yield text[:-1] + ',"entries":null}'
    whole = request(3, ENTRIES, ENTRIES)
    for changes in ({"oldRoot": ROOT}, {"hashes": []}, {"accepted": []}, {"treeSize": 8}, {"checkpoint": ""}, {"oldSize": 8}, {"oldSize": 2 ** 64 - 1}):
        yield {**whole, **changes}
    # Trees of no entries.
    for handed in ([], [b""]):
        yield request(0, [], handed)
    # Lists of equal entries, and of empty ones, of which another front may be the same list.
    for same in (b"same", b""):
        for old in range(7):
            yield request(old, [same] * 6, [same] * 6)
        yield request(4, [same] * 6, [same] * 5)


def changed(entries, place):
    return [*entries[:place], b"other", *entries[place + 1 :]]


def of_sizes(old, new):
    """Requests of a log of this size that had this many entries: with the log's list, with an entry of the front and one after it changed, and
    with one entry more and one fewer; with the last entry first; and with only the old tree's entries."""
    entries = [f"entry {number}".encode() for number in range(new)]
    yield request(old, entries, entries)
    if old:
        yield request(old, entries, changed(entries, old // 2))
    if old < new:
        yield request(old, entries, changed(entries, old + (new - old) // 2))
    yield request(old, entries, [*entries, b""])
    if new:
        yield request(old, entries, entries[:-1])
        yield request(old, entries, [entries[-1], *entries[:-1]])
    if old < new:
        yield request(old, entries, entries[:old])


MOST_OF_SWEEP = 33


def sweep():
    for new in range(MOST_OF_SWEEP + 1):
        for old in range(new + 1):
            yield from of_sizes(old, new)


def sizes():
    """A part of `sweep` that has each kind of tree, and a log of 300 entries."""
    for old, new in ((1, 2), (2, 3), (3, 5), (4, 7), (6, 8), (8, 9), (7, 13), (16, 16), (16, 33), (31, 33)):
        yield from of_sizes(old, new)
    for old in (1, 128, 256, 299):
        yield from of_sizes(old, 300)


GROUPS = {"each link that fails, and what holds": links, "members of another kind, out of range, absent, doubled, null": members,
          "lists and objects nest to 127": nesting, "the largest logs": largest,
          "the log's own entries: the list, other lists, what is not a list of base64": lists, "logs of several sizes and their entries": sizes}


def examples():
    rewritten = trees.tree_hash(ENTRIES[1:4]).hex()
    yield "consistency", request(3, ENTRIES)
    yield "consistency-entries", request(3, ENTRIES, ENTRIES)
    yield "consistency-other-list", request(3, ENTRIES, ENTRIES[:3] + [b"L999999"] + ENTRIES[4:])
    yield "consistency-rewritten", request(3, ENTRIES, oldRoot=rewritten)


if __name__ == "__main__":
    if sys.argv[1:2] == ["check"]:
        sys.exit(min(request_table.count_differing(sys.argv[2], "consistency", sweep(), lines), 1))
    request_table.write("consistency", GROUPS, reply, examples(), lines)
