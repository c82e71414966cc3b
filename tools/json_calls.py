"""The calls of json_cases as lines of its table: each function adds a call, and what it returns."""
import re

from case_table import Table
from json_documents import (
    Float, IntegerTooLarge, KINDS, Member, NotJson, as_bytes, as_hash, as_i64, as_text, as_u64, canonical, compact, digits, each, list_words,
    optional, quoted, required, tree,
)

TABLE = Table("json_cases")
case, say = TABLE.case, TABLE.note


def percent(text):
    return "".join(c if c.isascii() and c.isalnum() else "".join("%%%02X" % b for b in c.encode()) for c in text) or "-"


def document(data):
    """A document as arguments: as it is where it has letters that are seen."""
    if isinstance(data, str) and data and not re.search("[\x00-\x1f\x7f-\xa0\u2028\u2029\u200b\ufeff\ufffe\uffff]", data):
        return "json " + data
    data = data.encode() if isinstance(data, str) else data
    return "hex " + digits(data)


def answer(make):
    """`ok` and what is made, or the name of the fault."""
    try:
        made = make()
        return "ok " + made if made else "ok"
    except (NotJson, Float, IntegerTooLarge, Member) as fault:
        return type(fault).__name__


def read_case(data, words=None):
    case("read " + (words or document(data)), answer(lambda: compact(tree(data))))


def only(names, value):
    """An object with only its members of these names."""
    return {name: item for name, item in value.items() if name in names} if isinstance(value, dict) else value


def counted(names):
    return [str(len(names))] + [percent(name) for name in names]


def members_of_names_case(names, data, words=None):
    case(" ".join(["read_members", *counted(names), words or document(data)]), answer(lambda: compact(only(names, tree(data)))))


def take_case(name, data, words=None):
    def make():
        value = tree(data)
        return compact(value[name]) if isinstance(value, dict) and name in value else "none"

    case(" ".join(["take", percent(name), words or document(data)]), answer(make))


def without_case(names, data, words=None):
    def make():
        value = tree(data)
        return compact(only(value.keys() - set(names), value) if isinstance(value, dict) else value)

    case(" ".join(["without", *counted(names), words or document(data)]), answer(make))


def members_and_list_case(word, name, names, data, words=None):
    kind, show = KINDS[word]

    def make():
        value = tree(data)
        items = optional(each(kind), value, name, [])
        return compact(only(names, value)) + " " + list_words(show, items)

    case(" ".join(["members_and_list", word, percent(name), *counted(names), words or document(data)]), answer(make))


def back_case(data, words=None):
    case("read_back " + (words or document(data)), answer(lambda: "true true" if tree(data) is not Ellipsis else ""))


def canonical_case(data, words=None):
    case("canonical " + (words or document(data)), answer(lambda: canonical(tree(data))))


def integers_case(text, name="m"):
    def word(make):
        try:
            return str(make())
        except Member:
            return "Member"

    value = tree(text)
    words = [
        word(lambda: optional(as_i64, value, name, 0)), word(lambda: optional(as_u64, value, name, 0)),
        word(lambda: required(as_i64, value, name)), word(lambda: required(as_u64, value, name)),
    ]
    case("integers %s %s" % (percent(name), document(text)), "ok " + " ".join(words))


def row_cases(text, name="m"):
    value = tree(text)
    for call, make in [
        ("read_text", lambda: quoted(optional(as_text, value, name, ""))), ("required_text", lambda: quoted(required(as_text, value, name))),
        ("read_bytes", lambda: digits(optional(as_bytes, value, name, b""))), ("required_bytes", lambda: digits(required(as_bytes, value, name))),
        ("required_hash", lambda: digits(required(as_hash, value, name))),
    ]:
        case("%s %s %s" % (call, percent(name), document(text)), answer(make))


def kind_cases(text, kinds=tuple(KINDS), calls=("required", "optional", "required_list", "optional_list"), name="m"):
    value = tree(text)

    def shown(show, item):
        return "none" if item is None else show(item)

    for word in kinds:
        kind, show = KINDS[word]
        makes = {
            "required": lambda: show(required(kind, value, name)),
            "optional": lambda: shown(show, optional(kind, value, name, None)),
            "required_list": lambda: list_words(show, required(each(kind), value, name)),
            "optional_list": lambda: list_words(show, optional(each(kind), value, name, [])),
        }
        for call in calls:
            case("%s %s %s %s" % (call, word, percent(name), document(text)), answer(makes[call]))


def record_cases(data, kinds=tuple(KINDS)):
    for word in kinds:
        kind, show = KINDS[word]
        case("record %s %s" % (word, document(data)), answer(lambda: show(kind(tree(data)))))


def same(one, other):
    if type(one) is not type(other):
        return False
    if isinstance(one, list):
        return len(one) == len(other) and all(same(a, b) for a, b in zip(one, other))
    if isinstance(one, dict):
        return one.keys() == other.keys() and all(same(one[name], other[name]) for name in one)
    return one == other


def equal_case(one, other):
    word = str(same(tree(one), tree(other))).lower()
    case("equal %s %s" % (percent(one), percent(other)), "ok " + " ".join([word] * 3))


# ---- the parts of several groups of rows

HASH = "AAaa00112233445566778899aabbccddeeff00112233445566778899aabbccdd"
OTHER = "00112233445566778899aabbccddeeff00112233445566778899aabbccddeeff"
VALUES = [
    "null", "true", "false", "{}", "[]", "0", "7", "-7", "1", "9223372036854775807", "9223372036854775808", "-9223372036854775808", "18446744073709551615", '"9223372036854775807"', '"9223372036854775808"',
    '"-9223372036854775808"', '"-9223372036854775809"', '"18446744073709551615"', '"18446744073709551616"', '"018446744073709551615"', '"018446744073709551616"', '"99999999999999999999999999"', '"007"', '"0"', '"-0"',
    '"-00"', '"-007"', '"-1"', '"+1"', '"+0"', '"-+1"', '"+-1"', '"--1"', '"-"', '"+"', '""', '" "', '"1\\u0020"', '" 1"', '"- 1"', '"1.0"', '"1e0"', '"0x1"', '"1_0"', '"\u0661"', '"\\u0031"', '"1\\u0000"', '"-0000000000000000000000"',
    '"0000000000000000000000000007"', '"null"', '"true"', '"aGk="', '"aGk"', '"aGl="', '"aGk=\\n"', '"Pj4/"', '"Pj4_"', '"Pj4\\/"', '{"a":null}', '{"a":"b"}', '[null]', '["a"]', "[7]", '"%s"' % HASH, '"a\\u0001\\"\\\\\\/\\u00e9\\n"',
]
NO_OBJECTS = ["null", "[]", "7", '"m"', "true", '["m"]', '[{"m":1}]', '[{"m":"aGk="}]']


def nested(depth, begin, end, core="[]"):
    """The core between this many beginnings and ends: its text, and the words that stand for it."""
    text = begin * depth + core + end * depth
    words = "hex " + "+".join(part for part in [begin.encode().hex() + "*%d" % depth, core.encode().hex(), end.encode().hex() + "*%d" % depth] if part)
    return text, words
