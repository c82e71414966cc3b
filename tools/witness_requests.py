#!/usr/bin/env python3
"""Requests of `witness` and the replies to them, by a reader of its own.

    tools/witness_requests.py                  writes examples/witness.requests, one request on a line, and below each the reply and the status; and
                                               the examples witness*.json with their replies
    tools/witness_requests.py check PROGRAM    runs the program on sequences of up to 60 updates of four logs, whose state is passed from run to run,
                                               and on the longest lists; and compares its replies

The replies are this program's own: members and checkpoints are read as tools/log_requests.py does, a state is read and written, and an update judged,
by the dictionary of tools/witness_cases.py."""
import collections
import json
import pathlib
import random
import sys

TOP = pathlib.Path(__file__).resolve().parent.parent
sys.dont_write_bytecode = True
sys.path.insert(0, str(TOP / "tools"))
import audit_requests as audits
import log_requests as log
import request_table
import witness_cases as kept
from consistency_requests import nested

MOST_UPDATES, MOST = 4096, 2**64
SCHEME, KEY, ORIGIN = log.SCHEMES[0], "a2V5", "log.example"
WORDS = {"UnknownOrigin": "origin", "NoteKey": "note-key", "Full": "full"}

Read = collections.namedtuple("Read", "origin size root old path note signatures")


# ---- the replies

def origin_of(value):
    if not isinstance(value, dict):
        log.refuse()
    return kept.Origin(log.required(value, "origin", log.text_of), log.required(value, "scheme", log.one_of(log.SCHEMES)),
                       log.required(value, "key", log.bytes_of))


def update_of(value):
    if not isinstance(value, dict):
        log.refuse()
    return {
        "checkpoint": log.required(value, "checkpoint", log.text_of),
        "old": log.required(value, "oldSize", log.integer(0, MOST)),
        "hashes": log.optional(value, "hashes", log.list_of(log.hash_of)) or [],
    }


def read_request(text):
    try:
        members = log.tested(json.loads(text, parse_int=log.whole, parse_float=log.fraction, parse_constant=log.refuse))
    except (ValueError, RecursionError):
        log.refuse()
    if not isinstance(members, dict):
        log.refuse()
    read = {
        "state": log.optional(members, "state", log.text_of) or "",
        "origins": log.optional(members, "origins", log.list_of(origin_of)) or [],
        "updates": log.optional(members, "updates", log.list_of(update_of)) or [],
        "accepted": log.optional(members, "accepted", log.list_of(log.row_of)) or [],
    }
    return read if len(read["updates"]) <= MOST_UPDATES else log.refuse()


def started(request):
    """The dictionary of a request's state with its origins."""
    fault, witness = kept.read(request["state"])
    if fault or any(kept.add(witness, each) != "added" for each in request["origins"]):
        log.refuse()
    return witness


def read_update(update):
    """An update whose text is a checkpoint; None where it is not."""
    try:
        (origin, size, root, *_), signatures = parts = log.rekor.read_checkpoint(update["checkpoint"])
    except log.rekor.Fault:
        return None
    return Read(origin, size, root, update["old"], update["hashes"], log.rekor.note_text(parts[0]).encode(), [raw for _, _, raw in signatures])


def is_signed(witness, update, rows):
    found = witness.get(update.origin)
    return found is None or any(("message", found.scheme, found.key, update.note, raw) in rows for raw in update.signatures)


def taken(witness, read):
    """What the dictionary says to an update whose signature is accepted, under its own key and as a row of its own."""
    plain = kept.Update(read.origin, read.size, read.root, read.old, read.path, (kept.SIGNATURE,), 1)
    log_of = witness.get(read.origin)
    accepted = {(log_of.scheme, log_of.key, kept.note(plain).encode(), kept.SIGNATURE)} if log_of else set()
    return kept.make(witness, plain, accepted)


def judged(witness, update, rows):
    """The line of an update, which the dictionary is changed by if it is taken."""
    read = read_update(update)
    if read is None:
        return "refused checkpoint"
    if not is_signed(witness, read, rows):
        return "refused note-key"
    said = taken(witness, read)
    if said.isdigit():
        return f"accepted {said}"
    if said.startswith("OldSize("):
        return f"refused old-size {said[8:-1]}"
    return "refused " + WORDS.get(said, "consistency")


def lines(text):
    """The reply and the status."""
    try:
        request = read_request(text)
        witness = started(request)
    except log.NoRequest:
        return "refused request", 2
    rows = set(request["accepted"])
    said = [judged(witness, update, rows) for update in request["updates"]]
    status = int(any(not line.startswith("accepted") for line in said))
    return "\n".join([*said, "", *kept.text_of(witness).split("\n")]).removesuffix("\n"), status


def reply(text):
    """The same, its lines in one."""
    line, status = lines(text)
    return line.replace("\n", " "), status


def rows_asked(request, witness):
    """The rows that are asked for, each once, as members of `accepted`."""
    rows = []
    for update in map(read_update, request["updates"]):
        if update is None or update.origin not in witness:
            continue
        found = witness[update.origin]
        rows += [audits_row(found.scheme, found.key, update.note, raw) for raw in update.signatures]
    return [json.loads(row) for row in dict.fromkeys(map(json.dumps, rows))]


def audits_row(scheme, key, note, raw):
    return {"operation": "message", "scheme": scheme, "key": audits.in_base64(key), "message": audits.in_base64(note), "signature": audits.in_base64(raw)}


# ---- the requests

def update(entries, old=0, origin=ORIGIN, hashes=None, **changes):
    """The update to the tree of these entries, from that of the first ones."""
    found = audits.head(entries, (old or None) if hashes is None else None, origin=origin, **changes)
    return {"checkpoint": found["checkpoint"], "oldSize": old, "hashes": found["hashes"] if hashes is None else hashes}


def origin(name=ORIGIN, scheme=SCHEME, key=KEY):
    return {"origin": name, "scheme": scheme, "key": key}


def request(updates, origins=(origin(),), state=None, **changes):
    """These updates, all of whose notes the origin's key signed."""
    keys = {each["origin"]: (each["scheme"], each["key"]) for each in origins}
    keys |= {name: (found.scheme, audits.in_base64(found.key)) for name, found in (kept.read(state or "")[1] or {}).items()}
    texts = dict.fromkeys(each["checkpoint"] for each in updates)
    rows = [audits.row(text, scheme=scheme, key=key) for text in texts for scheme, key in [keys.get(text.split("\n")[0], (SCHEME, KEY))]]
    made = {"origins": list(origins), "updates": list(updates), "accepted": rows}
    if state is not None:
        made = {"state": state} | made
    return made | changes


def state_of(found):
    """The state that is written of a request."""
    return lines(json.dumps(found))[0].split("\n\n", 1)[1].rstrip("\n") + "\n"


LOG, ENTRIES, BROKEN = audits.LOG, audits.ENTRIES, audits.BROKEN
X, AGAIN, EMPTY = update(LOG), update(LOG, 1), update((), 1, hashes=[])
GROWN = [update(ENTRIES[:size], old) for old, size in ((0, 3), (3, 6), (6, 6), (6, 11))]
OTHERS = [origin(), origin("other.example", "ED25519", "b3RoZXI="), origin("a", "RSA_PSS_SHA256", "")]


def first_rows():
    """The tree of one entry: from nothing, again, and the empty one after it."""
    yield request([X])
    yield request([X, X, AGAIN, EMPTY])
    kept_state = state_of(request([X]))
    yield request([], (), kept_state)
    yield request([AGAIN, X], (), kept_state)
    yield request([], (), kept_state.replace("\n1\n", "\n01\n"))
    yield {}
    yield request([], ())
    yield request([])
    yield request([X], ())


def refusals():
    """Each refusal of an update, before and after one that is taken; two at once."""
    yield request(GROWN)
    good, spoiled = GROWN[1], {"checkpoint": BROKEN, "oldSize": 3}
    unknown = update(ENTRIES[:6], 3, origin="nobody")
    wrong = ({"oldSize": 2}, {"oldSize": MOST - 1}, {"hashes": []}, {"hashes": good["hashes"][::-1]}, {"hashes": [*good["hashes"], "00" * 32]},
             {"checkpoint": update(ENTRIES[:6], 3, root=audits.OTHER_ROOT)["checkpoint"]}, {"checkpoint": update(ENTRIES[:2])["checkpoint"]})
    for each in (spoiled, unknown, *(good | changes for changes in wrong)):
        yield request([GROWN[0], each])
        yield request([GROWN[0], each, good, *GROWN[2:]])
    whole = request(GROWN)
    for place in range(len(GROWN)):
        yield whole | {"accepted": audits.put(whole["accepted"], place, audits.row(X["checkpoint"]))} if place < len(whole["accepted"]) else whole
    for changes in ({"scheme": "ED25519"}, {"key": "a2V6"}, {"operation": "prehash"}, {"signature": "AA=="}, {"message": "AA=="}):
        yield whole | {"accepted": [row | changes for row in whole["accepted"]]}
    for these in ((b"t", audits.SIGNATURE), (audits.SIGNATURE, b"t"), (b"t", b"u"), ()):
        yield request([update(LOG, signatures=these)], accepted=[audits.row(X["checkpoint"])])
    yield request([unknown | {"oldSize": 9}, {**spoiled, "oldSize": 9}], accepted=[])
    yield request([GROWN[0], good | {"oldSize": 2, "hashes": []}, good | {"hashes": []}], accepted=[audits.row(GROWN[0]["checkpoint"])])


def origins_and_states():
    """Several logs, each with a key and heads of its own; origins that cannot be added; states that are not one."""
    updates = [update(ENTRIES[:2], origin="a"), X, update(ENTRIES[:4], origin="other.example"), update(ENTRIES[:5], 2, origin="a")]
    whole = request(updates, OTHERS)
    yield whole
    state = state_of(whole)
    yield request([update(ENTRIES[:8], 5, origin="a"), AGAIN], (), state)
    yield request([update(LOG, origin="new")], [origin("new")], state)
    for name in ("", "\n", "a\nb", "a", ORIGIN):
        yield request([], [origin(name)], state)
        yield request([], [origin("new"), origin(name), origin("newer")], state)
    yield request([], [origin("new"), origin("new", "ED25519")])
    for name in (" ", "\u00e9", "z" * 300):
        yield request([], [origin(name)], state)
    group = state.split("\n")[:5]
    for place, wrong in enumerate(("", "ED25519 ", "a2V", "05", "AA==")):
        yield {"state": "\n".join(audits.put(group, place, wrong)) + "\n"}
        yield {"state": state + "\n".join(audits.put(["z", *group[1:]], place, wrong)) + "\n", "updates": [AGAIN]}
    for text in (state[:-1], "\n" + state, state + state, "\n", "x"):
        yield {"state": text}
    yield {"state": "\n".join([*group[:3], "0", group[4]]) + "\n"}


def members():
    """Members of another kind, out of range, absent, doubled, null."""
    whole = request(GROWN, OTHERS, state_of(request([update(LOG, origin="b")], [origin("b")])))
    for name in (*whole, "other"):
        yield {other: value for other, value in whole.items() if other != name}
        for value in (None, True, 7, "x", {}, [], [[]], [None], [{}]):
            yield whole | {name: value}
    for name in GROWN[1]:
        yield whole | {"updates": audits.put(GROWN, 1, {other: value for other, value in GROWN[1].items() if other != name})}
        for value in (None, True, "x", ["x"], {}, -1, "3", "03", MOST, str(MOST - 1)):
            yield whole | {"updates": audits.put(GROWN, 1, GROWN[1] | {name: value})}
    for name in OTHERS[1]:
        yield whole | {"origins": audits.put(OTHERS, 1, {other: value for other, value in OTHERS[1].items() if other != name})}
        for value in (None, True, "x", ["x"], {}, "", "AAA="):
            yield whole | {"origins": audits.put(OTHERS, 1, OTHERS[1] | {name: value})}
    text = json.dumps(whole, separators=(",", ":"))
    yield text.replace('"oldSize":3', '"oldSize":9,"oldSize":3')
    yield text.replace('"oldSize":3', '"oldSize":3.0')
    yield text.replace('"updates":', '"updates":[],"updates":')
    yield text[:-1]
    yield text + "{}"
    yield "[]"


def nesting():
    """Lists and objects nest to 127, in a member of the request and in one of an origin and of an update."""
    yield from nested(request(GROWN, OTHERS), "origins", "updates")


def largest():
    """Heads about 2^63 and of 2^64 - 1 entries, by a made-up proof."""
    first, digest = audits.trees.leaf_hash(b"L"), bytes([1] * 32)
    for old, new in ((2**63 - 1, 2**63), (2**63, 2**63 + 1), (2**64 - 2, 2**64 - 1)):
        path = [digest] * audits.trees.proof_len(old, new)
        old_root, root = audits.trees.walk(old, new, path, first)
        heads = [update((), size=old, root=old_root), update((), size=new, root=root) | {"oldSize": old, "hashes": [each.hex() for each in path]}]
        yield request(heads)
        yield request([*heads, heads[1] | {"oldSize": new, "hashes": []}, heads[0]])
        for hashes in ([], heads[1]["hashes"][1:], [*heads[1]["hashes"], digest.hex()]):
            yield request([heads[0], heads[1] | {"hashes": hashes}])


def hundreds():
    """300 updates of one log, 300 origins, and 300 signatures of a note."""
    entries = tuple(f"entry {number}".encode() for number in range(300))
    yield request([update(entries[: size + 1], size) for size in range(0, 300)])
    yield request([update(LOG, origin=f"log {place}") for place in range(300)], [origin(f"log {place * 7 % 300}") for place in range(300)])
    yield request([X] * 300)
    yield request([update(LOG, signatures=tuple(bytes([place % 200]) for place in range(300)) + (audits.SIGNATURE,))], accepted=[audits.row(X["checkpoint"])])


GROUPS = {"the tree of one entry: from nothing, again, and the empty one after it": first_rows,
          "each refusal of an update, before and after one that is taken": refusals,
          "several logs; origins that cannot be added; states that are not one": origins_and_states,
          "members of another kind, out of range, absent, doubled, null": members, "lists and objects nest to 127": nesting,
          "the largest logs": largest, "300 updates, origins, signatures": hundreds}


def week():
    """A week of checkpoints of one log, and one of another."""
    entries = tuple(f"L{123456 + number}".encode() for number in range(40))
    sizes = (5, 9, 14, 14, 22, 31, 40)
    updates = [update(entries[:size], old) for old, size in zip((0, *sizes), sizes)]
    return request([*updates[:3], update(entries[:3], origin="other.example"), *updates[3:]], OTHERS[:2])


def examples():
    found = week()
    yield "witness", found
    grown = tuple(f"L{123456 + number}".encode() for number in range(47))
    forged = update(grown[:41], 40, root=audits.OTHER_ROOT)
    yield "witness-next", request([forged, update(grown, 40)], (), state_of(found))


# ---- runs of the program

def sequences():
    """Up to 60 updates of four logs by chance: honest, forged, replayed, out of order, unknown and not signed."""
    chance = random.Random(6962)
    everyone = [origin(name, log.SCHEMES[place + 1], audits.in_base64(name.encode())) for place, name in enumerate(kept.NAMES)]
    for number in range(0, 61, 4):
        logs = kept.Logs(chance)
        made = [logs.next() for _ in range(number)]
        yield everyone, [{"checkpoint": kept.signed(each), "oldSize": each.old, "hashes": [found.hex() for found in each.path]} for each in made]


def rows_of(updates, everyone):
    keys = {each["origin"]: each for each in everyone}
    for text in dict.fromkeys(each["checkpoint"] for each in updates):
        found = keys.get(text.split("\n")[0], everyone[0])
        yield audits.row(text, scheme=found["scheme"], key=found["key"], signature=audits.in_base64(kept.SIGNATURE))


def runs():
    """Each sequence in one run, and in several, each of which is given the state that the one before it wrote."""
    for everyone, updates in sequences():
        rows = list(rows_of(updates, everyone))
        yield {"origins": everyone, "updates": updates, "accepted": rows}
        state = None
        for place in range(0, len(updates), 7):
            part = {"updates": updates[place : place + 7], "accepted": rows}
            found = part | ({"origins": everyone} if state is None else {"state": state})
            yield found
            state = state_of(found)
    again = [AGAIN] * (kept.MOST_HEADS - 3)
    for count in (0, 1, 2):
        yield request([X, *again, *[AGAIN] * count])
    for count in (MOST_UPDATES, MOST_UPDATES + 1):
        yield request([]) | {"updates": [{"checkpoint": "", "oldSize": 0}] * count}


if __name__ == "__main__":
    if sys.argv[1:2] == ["check"]:
        sys.exit(min(request_table.count_differing(sys.argv[2], "witness", runs(), lines), 1))
    request_table.write("witness", GROUPS, reply, examples(), lines)
