"""Values as an explanation shows them: numbers as texts of decimal digits, bytes as hexadecimal digits, times in two forms, long texts cut.

Written from docs/LINKS.md, "What is shown of a refusal", and RFC 3339. An object is a dictionary here; its text has the members in the byte order
of their names (`line`)."""
import datetime
import hashlib

import json_documents as documents

MOST_SHOWN = 1024  # bytes of a text


def line(members):
    """The last line of a reply of `explain`: an object as compact JSON."""
    return documents.compact(members)


def cut(text):
    """The first characters of a text that have no more bytes than are shown."""
    return text.encode()[:MOST_SHOWN].decode(errors="ignore")


def shown(name, text):
    """A text under a name; if it is cut, also how many bytes it has. Nothing if there is no text."""
    if text is None:
        return {}
    size = len(text.encode())
    return {name: cut(text), **({name + "Length": str(size)} if size > MOST_SHOWN else {})}


def sha256(content):
    return hashlib.sha256(content).hexdigest()


def digest(found):
    """A digest of an artifact, an algorithm's name and bytes."""
    algorithm, content = found
    return {algorithm: content.hex()}


def time(second):
    """A second since 1970, and the same as a text of RFC 3339 if its year is one of 1 to 9999."""
    first = datetime.datetime(1970, 1, 1)
    try:
        utc = {"utc": (first + datetime.timedelta(seconds=second)).strftime("%Y-%m-%dT%H:%M:%SZ").zfill(20)}
    except OverflowError:
        utc = {}
    return {"seconds": str(second), **utc}


def tree(size, root):
    return {"treeSize": str(size), "rootHash": root.hex()}


def proof(index, size, root):
    """What an inclusion proof says of a tree."""
    return {"logIndex": str(index), **tree(size, root)}


def note(found):
    """What the note of a checkpoint says: origin, size and root, whatever follows."""
    origin, size, root = found[:3]
    return {**shown("origin", origin), **tree(size, root)}
