#!/usr/bin/env python3
"""Writes examples/log.requests: requests of `log`, one on each line, and below each the reply and the status; and examples/log-entries.json, a request
with the log's entries, with its reply. Run by hand: tools/log_requests.py

The replies are this program's own: it reads a request by the member tables of docs/REQUESTS.md and docs/DECISIONS.md, a checkpoint by
tools/rekor_cases.py, follows an audit path by RFC 6962, and hashes a list of entries from its leaves up. It takes for granted that no
list has another entry than the proof's under the same root."""
import base64
import hashlib
import importlib.util
import json
import pathlib
import sys
import types

TOP = pathlib.Path(__file__).resolve().parent.parent
sys.dont_write_bytecode = True
from schemes import UNSIZED_FIRST as SCHEMES

SPEC = importlib.util.spec_from_file_location("rekor_cases", TOP / "tools/rekor_cases.py")
rekor = importlib.util.module_from_spec(SPEC)
SPEC.loader.exec_module(rekor)


class NoRequest(Exception):
    """The text is not a request."""


class Fraction:
    """A number that is a float: the text is not a request, unless a later member of the same name takes its place."""


def refuse(_=None):
    raise NoRequest


def whole(text):
    """A JSON integer; -0 and what no 64 bits hold are floats."""
    found = int(text)
    return found if text != "-0" and -(2**63) <= found < 2**64 else Fraction()


def fraction(text):
    """A number that rounds to no finite float of 64 bits is not JSON."""
    return Fraction() if abs(float(text)) != float("inf") else refuse()


def tested(value, depth=0):
    """The value, if it nests to 127 and holds no float."""
    if isinstance(value, Fraction):
        refuse()
    if isinstance(value, (dict, list)):
        if depth == 127:
            refuse()
        for item in value.values() if isinstance(value, dict) else value:
            tested(item, depth + 1)
    return value


def text_of(value):
    return value if isinstance(value, str) else refuse()


def bytes_of(value):
    found = rekor.unbase64(text_of(value))
    return found if found is not None else refuse()


def hash_of(value):
    digits = text_of(value)
    if len(digits) != 64 or any(digit not in "0123456789abcdefABCDEF" for digit in digits):
        refuse()
    return bytes.fromhex(digits)


def integer(low, high):
    def read(value):
        if isinstance(value, str):
            digits = value[1:] if value.startswith("-") else value
            if not digits or any(digit not in "0123456789" for digit in digits):
                refuse()
            value = int(value)
        if isinstance(value, bool) or not isinstance(value, int) or not low <= value < high:
            refuse()
        return value

    return read


def one_of(names):
    return lambda value: value if text_of(value) in names else refuse()


def required(members, name, kind):
    return kind(members[name]) if members.get(name) is not None else refuse()


def optional(members, name, kind):
    return None if members.get(name) is None else kind(members[name])


def list_of(kind):
    return lambda value: [kind(item) for item in value] if isinstance(value, list) else refuse()


def row_of(value):
    if not isinstance(value, dict):
        refuse()
    operation = required(value, "operation", one_of(("message", "prehash", "point", "certificate")))
    if operation in ("message", "prehash"):
        scheme = required(value, "scheme", one_of(SCHEMES))
    elif operation == "point":
        scheme = optional(value, "scheme", refuse)
    else:
        scheme = required(value, "scheme", bytes_of)
    return (operation, scheme, *(required(value, name, bytes_of) for name in ("key", "message", "signature")))


def members_of(text):
    """The members of a request's text, which has to be a JSON object without floats."""
    try:
        members = tested(json.loads(text, parse_int=whole, parse_float=fraction, parse_constant=refuse))
    except (ValueError, RecursionError):
        refuse()
    if not isinstance(members, dict):
        refuse()
    return members


def read_request(text):
    members = members_of(text)
    return {
        "entry": required(members, "entry", bytes_of),
        "index": required(members, "logIndex", integer(-(2**63), 2**63)),
        "size": required(members, "treeSize", integer(0, 2**64)),
        "root": required(members, "rootHash", hash_of),
        "hashes": optional(members, "hashes", list_of(hash_of)) or [],
        "checkpoint": required(members, "checkpoint", text_of),
        "scheme": required(members, "scheme", one_of(SCHEMES)),
        "key": required(members, "key", bytes_of),
        "accepted": optional(members, "accepted", list_of(row_of)) or [],
        "entries": optional(members, "entries", list_of(bytes_of)),
    }


def root_of(entries):
    """The root of a list of entries, from the leaves up: complete trees, the smallest last, each of them with its number of leaves."""
    complete = []
    for entry in entries:
        complete.append((1, hashlib.sha256(b"\0" + entry).digest()))
        while len(complete) > 1 and complete[-1][0] == complete[-2][0]:
            join(complete)
    while len(complete) > 1:
        join(complete)
    return complete[0][1] if complete else hashlib.sha256(b"").digest()


def join(complete):
    (right_count, right), (left_count, left) = complete.pop(), complete.pop()
    complete.append((left_count + right_count, hashlib.sha256(b"\1" + left + right).digest()))


def second_line(entries, body, proof):
    """What the log's own entries say of the logged body, where a request gives them."""
    if entries is None:
        return ""
    if len(entries) != proof.size or root_of(entries) != proof.root:
        return "other list"
    assert entries[proof.index] == body, "a collision of SHA-256"
    return f"entry {proof.index}"


def reply(text):
    """The reply and the status, by the links in their order."""
    try:
        request = read_request(text)
    except NoRequest:
        return "refused request", 2
    try:
        checkpoint = rekor.read_checkpoint(request["checkpoint"])
    except rekor.Fault:
        return "refused checkpoint", 1
    note = rekor.note_text(checkpoint[0]).encode()
    if not any(("message", request["scheme"], request["key"], note, raw) in request["accepted"] for _, _, raw in checkpoint[1]):
        return "refused note-key", 1
    if rekor.of_tree(checkpoint, request["root"], request["size"]):
        return "refused note-match", 1
    if rekor.included(request["entry"], request["index"], request["root"], request["size"], request["hashes"]):
        return "refused inclusion", 1
    second = second_line(request["entries"], request["entry"], types.SimpleNamespace(**request))
    return f"logged {request['index']} {request['size']}{second and ' ' + second}", 0


FIRST = (TOP / "crates/sigverify/stdin").read_text().strip()

# Changes of the first request: OLD ~ NEW ; OLD ~ NEW.
LINKS = r"""scheme ~ scheme
"entry":"TDEyMzQ1Ng==" ~ "entry":"" ; 395aa064aa4c29f7010acfe3f25db9485bbd4b91897b6ad7ad547639252b4d56 ~ 6e340b9cffb37a989ca544e6bb780a2c78901d3fb33738768511a30617afa01d ; OVqgZKpMKfcBCs/j8l25SFu9S5GJe2rXrVR2OSUrTVY= ~ bjQLnP+zepicpUTmu3gKLHiQHT+zNzh2hRGjBhevoB0= ; bG9nLmV4YW1wbGUKMQpPVnFnWktwTUtmY0JDcy9qOGwyNVNGdTlTNUdKZTJyWHJWUjJPU1VyVFZZPQo= ~ bG9nLmV4YW1wbGUKMQpialFMblAremVwaWNwVVRtdTNnS0xIaVFIVCt6TnpoMmhSR2pCaGV2b0IwPQo=
AAAAAXNpZw==\n ~ AAAAAXNpZw==\n\n\n\n
AAAAAXNpZw==\n ~ AAAAAXNpZw==\n\u2014 log.example AAAAAXNpZw==\n
log.example\n1\n ~  ; "logIndex":0 ~ "logIndex":1
\n\n\u2014 ~ \u2014
"signature":"c2ln" ~ "signature":"c2lo"
"operation":"message" ~ "operation":"prehash"
"key":"a2V5","accepted" ~ "key":"a2V6","accepted"
"scheme":"ECDSA_P256_SHA256_ASN1","key":"a2V5","accepted" ~ "scheme":"ED25519","key":"a2V5","accepted"
"signature":"c2ln" ~ "signature":"" ; "logIndex":0 ~ "logIndex":1
"treeSize":1 ~ "treeSize":2
"rootHash":"395a ~ "rootHash":"395b
log.example\n1\nOVqgZKpMKfcBCs/j8l25SFu9S5GJe2rXrVR2OSUrTVY= ~ log.example\n0\n47DEQpj8HBSa+/TImW+5JCeuQeRkm5NMpJWZG3hSuFU= ; bG9nLmV4YW1wbGUKMQpPVnFnWktwTUtmY0JDcy9qOGwyNVNGdTlTNUdKZTJyWHJWUjJPU1VyVFZZPQo= ~ bG9nLmV4YW1wbGUKMAo0N0RFUXBqOEhCU2ErL1RJbVcrNUpDZXVRZVJrbTVOTXBKV1pHM2hTdUZVPQo=
"treeSize":1 ~ "treeSize":2 ; "logIndex":0 ~ "logIndex":7
"logIndex":0 ~ "logIndex":1
"logIndex":0 ~ "logIndex":-1
"logIndex":0 ~ "logIndex":-9223372036854775808
"entry":"TDEyMzQ1Ng==" ~ "entry":""
"hashes":[] ~ "hashes":["395aa064aa4c29f7010acfe3f25db9485bbd4b91897b6ad7ad547639252b4d56"]"""

MEMBERS = r""""logIndex":0 ~ "logIndex":"-0"
"treeSize":1 ~ "treeSize":"01"
"hashes":[] ~ "hashes":null
"hashes":[], ~ 
"scheme" ~ "entries":null,"scheme"
"395aa ~ "395AA
"logIndex":0 ~ "logIndex":9,"logIndex":0
"logIndex":0 ~ "other":{},"logIndex":0
"operation":"message" ~ "operation":"message","other":1
"accepted":[ ~ "accepted":[{"operation":"point","key":"","message":"","signature":""},
"accepted":[ ~ "accepted":[{"operation":"certificate","scheme":"AA==","key":"","message":"","signature":""},
"accepted":[ ~ "accepted":[{"operation":"prehash","scheme":"ED25519","key":"","message":"","signature":""},
"accepted":[ ~ "accepted":[{"operation":"point","scheme":"ED25519","key":"","message":"","signature":""},
"accepted":[ ~ "accepted":[{"operation":"message","scheme":"ED448","key":"","message":"","signature":""},
"accepted":[ ~ "accepted":[{"operation":"prehash","scheme":"ED25519","message":"","signature":""},
"accepted":[ ~ "accepted":[null,
"scheme" ~ "entries":[],"scheme"
"scheme" ~ "other":0.5,"scheme"
"hashes":[] ~ "hashes":["00"]
"hashes":[] ~ "hashes":[null]
"hashes":[] ~ "hashes":{}
"entry":"TDEyMzQ1Ng==", ~ 
"entry":"TDEyMzQ1Ng==" ~ "entry":"TDEyMzQ1Ng"
"entry":"TDEyMzQ1Ng==" ~ "entry":null
"entry":"TDEyMzQ1Ng==" ~ "entry":1
"logIndex":0 ~ "logIndex":9223372036854775808
"logIndex":0 ~ "logIndex":-0
"logIndex":0 ~ "logIndex":true
"treeSize":1 ~ "treeSize":-1
"treeSize":1 ~ "treeSize":18446744073709551616
"395aa ~ "0395aa
"key":"a2V5","accepted" ~ "key":null,"accepted"
"scheme":"ECDSA_P256_SHA256_ASN1","key":"a2V5","accepted" ~ "scheme":"","key":"a2V5","accepted"
}]} ~ }]
"treeSize":1 ~ "treeSize":"+1"
"treeSize":1 ~ "treeSize":""
"treeSize":1 ~ "treeSize":"-0"
"treeSize":1 ~ "treeSize":1.0
"treeSize":1 ~ "treeSize":1e0
"treeSize":1 ~ "treeSize":18446744073709551615
"logIndex":0 ~ "logIndex":"9223372036854775807"
"logIndex":0 ~ "logIndex":"9223372036854775808"
"logIndex":0 ~ "logIndex":null
"rootHash":"395 ~ "rootHash":"g95
"checkpoint":"log ~ "checkpoint":1,"other":"log
"scheme":"ECDSA_P256_SHA256_ASN1","key":"a2V5","accepted" ~ "scheme":"ecdsa_p256_sha256_asn1","key":"a2V5","accepted"
"accepted":[ ~ "accepted":{},"other":[
"accepted":[ ~ "accepted":null,"other":[
"accepted":[ ~ "accepted":[{"operation":"Message","scheme":"ED25519","key":"","message":"","signature":""},
"accepted":[ ~ "accepted":[{"operation":null,"scheme":"ED25519","key":"","message":"","signature":""},
"accepted":[ ~ "accepted":[{"operation":"point","scheme":null,"key":"","message":"","signature":""},
"accepted":[ ~ "accepted":[{"operation":"certificate","key":"","message":"","signature":""},
"accepted":[ ~ "accepted":[{"operation":"message","scheme":"ED25519","key":"","message":"","signature":null},
"entry":"TDEyMzQ1Ng==" ~ "entry":"TDEyMzQ1Nh=="
"entry":"TDEyMzQ1Ng==" ~ "entry":"TDEyMzQ1Ng==\n"
"key":"a2V5","accepted" ~ "key":"a2V5\u0000","accepted"
"""

IGNORED = r"""
"key":"a2V5" ~ "key":"a2V5","other":[{"a":1},{"a":"\u00e9"},null]
"key":"a2V5" ~ "key":"a2V5","Entry":1,"entry ":2,"":3
"key":"a2V5" ~ "key":"a2V5","other":1.5
"key":"a2V5" ~ "key":"a2V5","other":[{"a":[-0]}]
"key":"a2V5" ~ "key":"a2V5","other":1.5,"other":1
"key":"a2V5" ~ "key":"a2V5","other":[{"a":[-0]}],"\u006fther":null
"key":"a2V5" ~ "key":"a2V5","other":{"a":1.5,"b":1,"a":[]}
"key":"a2V5" ~ "key":"a2V5","other":1,"other":1.5
"key":"a2V5" ~ "key":"a2V5","other":18446744073709551616
"key":"a2V5" ~ "key":"a2V5","other":1e999,"other":1
"key":"a2V5" ~ "key":"a2V5","other":[1,]
"key":"a2V5" ~ "key":"a2V5","other":{"a"}
"key":"a2V5" ~ "key":"a2V5","other":nul
"key":"a2V5" ~ "key":1.5,"\u006bey":"a2V5"
"key":"a2V5" ~ "\u006bey":"a2V5"
"""

# The log's own entries, of the first request: the list, other lists, what is not a list of base64.
ENTRIES = r"""
"scheme" ~ "entries":["TDEyMzQ1Ng=="],"scheme"
"scheme" ~ "entries":[],"scheme"
"scheme" ~ "entries":["TDEyMzQ1Nw=="],"scheme"
"scheme" ~ "entries":["TDEyMzQ1Ng==","TDEyMzQ1Ng=="],"scheme"
"scheme" ~ "entries":[""],"scheme"
"scheme" ~ "entries":null,"scheme"
"scheme" ~ "entries":["TDEyMzQ1Ng=="],"entries":null,"scheme"
"scheme" ~ "entries":["TDEyMzQ1Ng"],"scheme"
"scheme" ~ "entries":["TDEyMzQ1Nh=="],"scheme"
"scheme" ~ "entries":[null],"scheme"
"scheme" ~ "entries":[7],"scheme"
"scheme" ~ "entries":"TDEyMzQ1Ng==","scheme"
"scheme" ~ "entries":{},"scheme"
"scheme" ~ "entries":["TDEyMzQ1Ng=="],"scheme" ; "logIndex":0 ~ "logIndex":1
"scheme" ~ "entries":[],"scheme" ; "signature":"c2ln" ~ "signature":"c2lo"
"""

NESTED = [FIRST[:-1] + ',"other":' + begin * depth + "1" + end * depth + "}" for begin, end in ("[]", ('{"a":', "}")) for depth in (126, 127)]

TEXTS = ["{}", "[]", "null", "1", "1.5", '"log"', '{"entry":1}', "\ufeff" + FIRST, " " + FIRST + " ", FIRST[:-1], FIRST + "{}", "[" + FIRST + "]", "nul"]


def changed(line):
    text = FIRST
    for change in line.split(" ; "):
        old, new = change.split(" ~ ")
        assert old in text, line
        text = text.replace(old, new)
    return text


def in_base64(found):
    return base64.b64encode(found).decode()


def row(number, message="", **changes):
    """A row of the request's key and scheme, with this number as signature."""
    made = {"operation": "message", "scheme": SCHEMES[0], "key": "a2V5", "message": message, "signature": in_base64(number.to_bytes(4, "big"))}
    return {**made, **changes}


def tables():
    """Requests whose checkpoint has many signatures, and whose table has many rows, in the worst orders."""
    first = json.loads(FIRST)
    honest = first["accepted"][0]
    lines = [f"\u2014 log.example {in_base64(bytes(4) + number.to_bytes(4, 'big'))}\n" for number in range(1000)]
    rows = [row(number) for number in range(100)]
    note = first["accepted"][0]["message"]
    near = [row(number, note, signature="c2ln") | {name: other} for number, (name, other) in enumerate(
        (("operation", "prehash"), ("scheme", SCHEMES[1]), ("key", "a2V6"), ("key", "a2V5AA=="), ("message", note[:-8]), ("signature", "c2lo"), ("signature", "c2k=")))]
    for accepted in (rows + [honest], [honest] + rows[::-1], rows[::2] + [honest] + rows[1::2], [honest] * 100, rows[:1] * 100, rows + rows, near, near + [honest], near[::-1] + [honest]):
        yield {**first, "accepted": accepted}
    for count, accepted in ((1000, rows + [row(999, note)]), (1000, rows + [row(1000, note)]), (100, [row(0, note)] + rows), (100, rows + [honest])):
        signed = first["checkpoint"].split("\n\n")[0] + "\n\n" + "\n".join(lines[:count])
        yield {**first, "checkpoint": signed, "accepted": accepted}


def logs():
    """Requests of logs of several sizes with their entries; and with another entry, with two of them exchanged, with one less and one more."""
    first = json.loads(FIRST)
    for size in (2, 3, 4, 5, 7, 8, 9):
        entries = [b"L%d" % (123456 + number) for number in range(size)]
        for index in sorted({0, size // 2, size - 1}):
            yield of_log(first, index, entries, entries)
        yield of_log(first, size - 1, entries, [b"other", *entries[1:]])
        yield of_log(first, 0, entries, [entries[1], entries[0], *entries[2:]])
        yield of_log(first, 0, entries, entries[:-1])
        yield of_log(first, 0, entries, [*entries, b""])
    same = [b"same"] * 6
    yield of_log(first, 4, same, same)
    yield of_log(first, 4, same, same[:5])


def audit_path(index, entries):
    """The roots of the halves that the entry is not in, the smallest first."""
    if len(entries) == 1:
        return []
    half = 1 << (len(entries) - 1).bit_length() - 1
    left, right = entries[:half], entries[half:]
    return audit_path(index, left) + [root_of(right)] if index < half else audit_path(index - half, right) + [root_of(left)]


def of_log(first, index, entries, handed):
    """A request for an entry of a log of these entries, with other entries in their place."""
    root = root_of(entries)
    note = f"log.example\n{len(entries)}\n{in_base64(root)}\n"
    accepted = [{**first["accepted"][0], "message": in_base64(note.encode())}]
    return {**first, "entry": in_base64(entries[index]), "logIndex": index, "treeSize": len(entries), "rootHash": root.hex(),
            "hashes": [each.hex() for each in audit_path(index, entries)], "checkpoint": note + "\n\u2014 log.example AAAAAXNpZw==\n",
            "accepted": accepted, "entries": [in_base64(entry) for entry in handed]}


def largest():
    """Requests for the first entry of logs about 2^63 and of 2^64 - 1 entries, by a made-up path; with a hash less, and of another size or index."""
    first = json.loads(FIRST)
    entry = base64.b64decode(first["entry"])
    for size in (2 ** 63 - 1, 2 ** 63, 2 ** 63 + 1, 2 ** 64 - 1):
        root, path = hashlib.sha256(b"\0" + entry).digest(), [bytes([number]) * 32 for number in range((size - 1).bit_length())]
        for sibling in path:
            root = hashlib.sha256(b"\1" + root + sibling).digest()
        note = f"log.example\n{size}\n{in_base64(root)}\n"
        made = {**first, "treeSize": size, "rootHash": root.hex(), "hashes": [each.hex() for each in path],
                "checkpoint": note + "\n\u2014 log.example AAAAAXNpZw==\n", "accepted": [{**first["accepted"][0], "message": in_base64(note.encode())}]}
        for changes in ({}, {"hashes": made["hashes"][1:]}, {"hashes": [*made["hashes"], root.hex()]}, {"logIndex": 2 ** 63 - 1}, {"treeSize": size - 1},
                        {"treeSize": str(size)}, {"treeSize": 2 ** 64}, {"logIndex": 2 ** 63}):
            yield {**made, **changes}


def main():
    with open(TOP / "examples/log.requests", "w", encoding="utf-8") as made:
        def say(words, texts):
            made.write(f"# {words}\n")
            for text in texts:
                line, status = reply(text)
                made.write(f"{text}\n{line} status {status}\n")

        say("the first request, changed: each link that fails", map(changed, LINKS.splitlines()))
        say("its members: of another kind, out of range, absent, doubled, null", map(changed, MEMBERS.strip().splitlines()))
        say("members that are ignored: floats in them, members of one name, what is not JSON, nesting", [*map(changed, IGNORED.strip().splitlines()), *NESTED])
        say("the log's own entries: the list, another list, what is not a list of base64", map(changed, ENTRIES.strip().splitlines()))
        say("logs of several sizes and their entries", (json.dumps(found, separators=(",", ":")) for found in logs()))
        say("the largest logs", (json.dumps(found, separators=(",", ":")) for found in largest()))
        say("texts that are not requests", TEXTS)
        say("many signatures and rows, in the worst orders; equal rows; rows that differ in one part", (json.dumps(found, separators=(",", ":")) for found in tables()))
    entries = [b"L%d" % (123456 + number) for number in range(5)]
    example = json.dumps(of_log(json.loads(FIRST), 2, entries, entries), indent=2)
    line, status = reply(example)
    (TOP / "examples/log-entries.json").write_text(example + "\n", encoding="utf-8")
    (TOP / "examples/log-entries.expected").write_text(line.replace(" entry", "\nentry") + f"\nstatus {status}\n", encoding="utf-8")


if __name__ == "__main__":
    main()
