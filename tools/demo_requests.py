"""The demonstration's request of `log` and what `demo` writes, by a program in another language: the entries, their tree by RFC 6962 section
2.1, an audit path by section 2.1.1, the checkpoint, and the request as compact JSON, each made here from its standard."""
import base64
import hashlib
import json

MOST = 4096


def leaf(entry):
    return hashlib.sha256(b"\0" + entry).digest()


def node(left, right):
    return hashlib.sha256(b"\1" + left + right).digest()


def split(count):
    """The largest power of two below the number of leaves."""
    return 1 << (count - 1).bit_length() - 1


def root_of(entries):
    """MTH of RFC 6962 section 2.1."""
    if len(entries) == 1:
        return leaf(entries[0])
    at = split(len(entries))
    return node(root_of(entries[:at]), root_of(entries[at:]))


def path_of(index, entries):
    """PATH of RFC 6962 section 2.1.1."""
    if len(entries) == 1:
        return []
    at = split(len(entries))
    if index < at:
        return [*path_of(index, entries[:at]), root_of(entries[at:])]
    return [*path_of(index - at, entries[at:]), root_of(entries[:at])]


def coded(value):
    return base64.b64encode(value).decode()


def entries_of(count):
    return [f"L{123456 + index}".encode() for index in range(count)]


def request(count):
    """The request's text: members in the byte order of their names, no white space."""
    entries = entries_of(count)
    root, index = root_of(entries), count // 2
    note = f"demo\n{count}\n{coded(root)}\n"
    row = {"operation": "message", "scheme": "ECDSA_P256_SHA256_ASN1", "key": coded(b"key"), "message": coded(note.encode()), "signature": coded(b"sig")}
    members = {
        "entry": coded(entries[index]),
        "logIndex": index,
        "treeSize": count,
        "rootHash": root.hex(),
        "hashes": [digest.hex() for digest in path_of(index, entries)],
        # As the crate writes one: two newlines after the note, whose last line has its own.
        "checkpoint": f"{note}\n\n\u2014 demo {coded(bytes([0, 0, 0, 1]) + b'sig')}\n",
        "scheme": row["scheme"],
        "key": row["key"],
        "accepted": [row],
        "entries": [coded(entry) for entry in entries],
    }
    return json.dumps(members, sort_keys=True, separators=(",", ":"), ensure_ascii=False)


def reply(count):
    """What `log` replies to the request: its entry is the one at the index."""
    return f"logged {count // 2} {count}\nentry {count // 2}\n"


def shown(count):
    """What `demo` writes."""
    return f"entries {count}\nroot {root_of(entries_of(count)).hex()}\nlogged {count // 2} {count}\n"
