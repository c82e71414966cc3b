"""JSON documents, read and written for the programs of tools/: what a text is as a tree, its compact and canonical texts, and the kinds of members.

RFC 8259 and docs/DECISIONS.md say what is JSON: Python's `json` reads it, with hooks for numbers, for members of one name, for
surrogates and for how deep lists and objects nest. Compact and canonical texts (RFC 8785) are written here; base64 and hexadecimal digits are
those of RFC 4648. None of the project's code runs.
"""
import base64
import json
import re


# ---- what a text is as a tree


class NotJson(Exception):
    """The text is not UTF-8, or has no reading."""


class Float(Exception):
    """The tree holds a float."""


class IntegerTooLarge(Exception):
    """RFC 8785 section 3.2.2.3, of integers: beyond plus or minus 2^53 - 1."""


class Member(Exception):
    """The member is not what its row says."""


class Pairs:
    """The members of an object as they are written, those of one name too."""

    def __init__(self, pairs):
        self.pairs = pairs


class Fraction:
    """A number that is not an integer from -2^63 to 2^64 - 1, or `-0`."""


def number(text):
    """RFC 8259 section 6; a number that rounds to no finite float of 64 bits is none here."""
    if re.fullmatch("-?[0-9]+", text) and text != "-0" and len(text) <= 21 and -2**63 <= int(text) < 2**64:
        return int(text)
    if float(text) in (float("inf"), float("-inf")):
        raise NotJson
    return Fraction()


def constant(_):
    """NaN and infinities, which Python's `json` would read."""
    raise NotJson


def text_of(text):
    """RFC 8259 section 8.2: surrogates that are not in a pair do not stand for any text."""
    if any(0xD800 <= ord(c) < 0xE000 for c in text):
        raise NotJson


def measure(value):
    """How deep lists and objects nest; each text on the way has to be one."""
    if isinstance(value, str):
        text_of(value)
    if isinstance(value, list):
        return 1 + max([measure(item) for item in value], default=0)
    if isinstance(value, Pairs):
        for name, _ in value.pairs:
            text_of(name)
        return 1 + max([measure(item) for _, item in value.pairs], default=0)
    return 0


def settled(value):
    """The tree: of members of one name the last counts."""
    if isinstance(value, Fraction):
        raise Float
    if isinstance(value, list):
        return [settled(item) for item in value]
    if isinstance(value, Pairs):
        return {name: settled(item) for name, item in dict(value.pairs).items()}
    return value


def tree(data):
    try:
        text = data.decode("utf-8") if isinstance(data, bytes) else data
        value = json.loads(text, parse_int=number, parse_float=number, parse_constant=constant, object_pairs_hook=Pairs)
        if measure(value) > 127:
            raise NotJson
    except (ValueError, RecursionError):
        raise NotJson from None
    return settled(value)


# ---- texts of trees

SHORT = {'"': '\\"', "\\": "\\\\", "\b": "\\b", "\t": "\\t", "\n": "\\n", "\f": "\\f", "\r": "\\r"}


def quoted(text):
    """RFC 8785 section 3.2.2.2."""
    return '"' + "".join(SHORT.get(c) or ("\\u%04x" % ord(c) if c < " " else c) for c in text) + '"'


def written(value, order, integer):
    if value is None or isinstance(value, bool):
        return {None: "null", True: "true", False: "false"}[value]
    if isinstance(value, int):
        return integer(value)
    if isinstance(value, str):
        return quoted(value)
    if isinstance(value, list):
        return "[" + ",".join(written(item, order, integer) for item in value) + "]"
    return "{" + ",".join(quoted(name) + ":" + written(value[name], order, integer) for name in sorted(value, key=order)) + "}"


def compact(value):
    """The names in the order of their bytes."""
    return written(value, lambda name: name.encode(), str)


def canonical_integer(value):
    if abs(value) > 2**53 - 1:
        raise IntegerTooLarge
    return str(value)


def canonical(value):
    """RFC 8785: the names in the order of their UTF-16 code units."""
    return written(value, lambda name: name.encode("utf-16-be"), canonical_integer)


# ---- the kinds of members


def as_text(value):
    if not isinstance(value, str):
        raise Member
    return value


BASE64 = "(?:[A-Za-z0-9+/]{4})*(?:[A-Za-z0-9+/]{2}==|[A-Za-z0-9+/]{3}=)?"


def as_bytes(value):
    """RFC 4648 section 4, padded, with zero bits in what the padding leaves over (section 3.5)."""
    text = as_text(value)
    if not re.fullmatch(BASE64, text):
        raise Member
    data = base64.b64decode(text)
    if base64.b64encode(data).decode() != text:
        raise Member
    return data


def as_hash(value):
    if not re.fullmatch("[0-9A-Fa-f]{64}", as_text(value)):
        raise Member
    return bytes.fromhex(value)


def as_map(value):
    if not isinstance(value, dict):
        raise Member
    return {name: as_text(item) for name, item in value.items()}


def as_any(value):
    return value


def as_integer(low, high):
    def read(value):
        if isinstance(value, str) and re.fullmatch("-?[0-9]+", value):
            value = int(value)
        if not isinstance(value, int) or isinstance(value, bool) or not low <= value < high:
            raise Member
        return value

    return read


as_i64 = as_integer(-2**63, 2**63)
as_u64 = as_integer(0, 2**64)


def digits(data):
    return data.hex() or "-"


def map_words(texts):
    return " ".join([str(len(texts))] + [quoted(x) for name in sorted(texts, key=str.encode) for x in (name, texts[name])])


KINDS = {
    "text": (as_text, quoted), "bytes": (as_bytes, digits), "hash": (as_hash, digits), "map": (as_map, map_words), "any": (as_any, compact),
}


def found(value, name):
    """The member, None where it is absent or null."""
    if not isinstance(value, dict):
        raise Member
    return value.get(name)


def required(kind, value, name):
    there = found(value, name)
    if there is None:
        raise Member
    return kind(there)


def optional(kind, value, name, absent):
    there = found(value, name)
    return absent if there is None else kind(there)


def each(kind):
    def read(value):
        if not isinstance(value, list):
            raise Member
        return [kind(item) for item in value]

    return read


def list_words(show, items):
    return " ".join([str(len(items))] + [show(item) for item in items])
