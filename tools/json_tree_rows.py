"""Rows of json_cases on trees: canonical texts, what is built, equality, and the errors."""
import itertools
import json
import random

from json_calls import canonical_case, case, equal_case, nested, percent, read_case, say
from json_documents import compact, quoted, tree

NAMES = r'''{
  "\u20ac": "Euro Sign",
  "\r": "Carriage Return",
  "\ufb33": "Hebrew Letter Dalet With Dagesh",
  "1": "One",
  "\ud83d\ude00": "Emoji: Grinning Face",
  "\u0080": "Control",
  "\u00f6": "Latin Small Letter O With Diaeresis"
}'''
LITERALS = r'''{
  "string": "\u20ac$\u000F\u000aA'\u0042\u0022\u005c\\\"\/",
  "literals": [null, true, false]
}'''
CANONICAL = [
    '{"\\ufb33":1,"\\ud83d\\ude00":"\\u007f\\u0080"}',
    '{"\uff5e":6,"\ufb00":5,"\\ud83d\\ude00":4,"\\ud834\\udd1e":3,"\\ud55c":2,"\u20ac":1}',
    '{"\\ud83d\\ude01":3,"\\ud83d\\ude00a":2,"\\ud83d\\ude00":1,"":0}', '{"a":1,"b":[],"a":2}', '{"a":{"c":1},"\\u0061":{"d":null}}', '{"b":{"z":1,"y":2},"a":[{"y":3,"x":4}]}',
    "9007199254740990", "9007199254740991", "-9007199254740991", "9007199254740992", "-9007199254740992", "9007199254740993", "-9007199254740993", "9223372036854775807", "9223372036854775808",
    "18446744073709551615", "-9223372036854775808", "0", "-1", "4503599627370496", "18014398509481984", "18014398509481983", '{"a":1,"b":[{"c":9007199254740992}]}', '"\\u0001\\u001F\\u0020"', '""', "null",
    "true", "false", "[]", "{}", "[ true , false , [ ] , { } ]", "[9007199254740991,-9007199254740991]", "[9007199254740992]", "[1,9007199254740992,2]", "[-9007199254740992]", '{"a":-9007199254740991}',
    '{"a":-9007199254740992}', '{"a":9007199254740992,"a":1}', '{"a":1,"a":9007199254740992}', '{"b":1,"a":9007199254740992}', '{"9007199254740992":"9007199254740992"}', "[[[[9007199254740992]]]]",
    '{"b":[{"d":1,"c":2}],"a":"/"}', '"\\u20ac$\\u000F\\u000aA\'\\u0042\\u0022\\u005c\\\\\\"\\/\\b\\t\\f\\u0000"', "1.5", "[9007199254740992,1.5]", "[9007199254740992", "-0", '{"a":1e1}',
]


def canonicals():
    say("canonical DOCUMENT: the canonical text, IntegerTooLarge where an integer is beyond plus or minus 2^53 - 1. RFC 8785's examples without floats.")
    for text in [NAMES, LITERALS] + CANONICAL:
        canonical_case(text)
    say("Names in every order: those of UTF-16 code units and of bytes differ from U+E000 on.")
    for order in itertools.permutations(["\u20ac", "\ud7ff", "\ue000", "\uffff", "\U00010000"]):
        text = json.dumps({name: ord(name) for name in order})
        canonical_case(text)
    for names in [["\U0001f600", "\U0001f601", "\U0001f600a", "\ufb00", ""], ["\ue000\U00010000", "\U00010000\ue000", "\ue000\ue000", "\U00010000\U00010000"], ["a\U00010000", "a\ue000", "a", "aa"]]:
        for order in itertools.permutations(names):
            text = json.dumps({name: place for place, name in enumerate(order)}, ensure_ascii=False)
            canonical_case(text)
            read_case(text)
    say("Both orders at each depth.")
    for depth in (1, 2, 50, 100, 126):
        for begin, end in [('{"\ufb00":1,"\U0001f600":', "}"), ('{"\U0001f600":', ',"\ufb00":1}')]:
            text, words = nested(depth, begin, end)
            canonical_case(text, words)
            read_case(text, words)
    for depth in (1, 126, 127):
        canonical_case(*nested(depth, '{"a":', "}"))
        canonical_case(*nested(depth, "[", "]", "9007199254740992"))
    say("quoted TEXT: RFC 8785 section 3.2.2.2, each character of ASCII and what is next to each bound of UTF-8 and of surrogates.")
    for code in list(range(0x80)) + [0x80, 0x9F, 0xA0, 0x7FF, 0x800, 0x2028, 0x2029, 0xD7FF, 0xE000, 0xFEFF, 0xFFFD, 0xFFFE, 0xFFFF, 0x10000, 0x1F600, 0x10FFFF]:
        case("quoted " + percent(chr(code)), "ok " + quoted(chr(code)))
        canonical_case('"\\u%04X"' % code if code < 0x10000 else '"%s"' % chr(code))
    for text in ["", 'a\u0001"\\/\u00e9\n', "a" * 300, "\\u0041", '"""', "\\\\", "\u0301", "</script>"]:
        case("quoted " + percent(text), "ok " + quoted(text))


def words(value):
    """A value that is built, as arguments."""
    kind, part = value
    return "%s %s" % (kind, part if kind == "integer" else percent(part))


def meant(value):
    """The tree of a value that is built."""
    return tree(value[1]) if value[0] == "json" else value[1]


def builders():
    say("object NAME VALUE .., list VALUE ..: what is built of these values, set and added in turn.")
    values = [("integer", 0), ("integer", -7), ("integer", -2**63), ("integer", 2**63 - 1), ("text", ""), ("text", "x"), ("text", "\u00e9\"\\\n\U0001f600"), ("json", "null"), ("json", "true"), ("json", "[]"), ("json", "{}"), ("json", "18446744073709551615"), ("json", '{"b":[null,"x"],"a":{"c":1},"b":2}')]

    def object_case(pairs):
        case(" ".join(["object"] + ["%s %s" % (percent(name), words(value)) for name, value in pairs]), "ok " + compact({name: meant(value) for name, value in pairs}))

    def list_case(items):
        case(" ".join(["list"] + [words(value) for value in items]), "ok " + compact([meant(value) for value in items]))

    object_case([])
    list_case([])
    for value in values:
        object_case([("a", value)])
        object_case([("", value), ("a", ("integer", 1)), ("", value)])
        list_case([value])
        list_case([value, ("text", "last"), value])
    whole = [("t", ("text", "old")), ("l", ("json", '[null,"x"]')), ("i", ("integer", -7)), ("t", ("text", "\u00e9")), ("b", ("json", "true"))]
    for length in range(len(whole) + 1):
        object_case(whole[:length])
        list_case([value for _, value in whole[:length]])
    for length in range(5):
        for order in itertools.product("abc", repeat=length):
            object_case([(name, ("integer", place)) for place, name in enumerate(order)])
    for order in itertools.permutations(["", "a", "\u00e9", "\uffff", "\U00010000"]):
        object_case([(name, ("text", name)) for name in order])
    chance = random.Random(8785)
    for count in (10, 30, 100):
        object_case([("k%d" % chance.randrange(count), chance.choice(values)) for _ in range(count)])
        list_case([chance.choice(values) for _ in range(count)])
    deep = "[" * 127 + "]" * 127
    case("list json " + percent(deep), "ok [" + deep + "]")
    case("object a json " + percent(deep), 'ok {"a":' + deep + "}")


def equality():
    say("equal JSON JSON: whether the trees are equal, by views, by documents, and by what is derived of documents.")
    trees = [
        "null", "true", "false", "0", "1", "-1", "-2", "9223372036854775808", "-9223372036854775808", "18446744073709551615", '"1"', '""', '"a"', '"b"', "[]", "[1]", "[2]", "[1,1]", "[1,2]", "[null]", "{}",
        '{"a":1}', '{"a":2}', '{"b":1}', '{"a":1,"b":2}', '{"a":2,"b":1}', '{"a":{"b":1}}', '{"a":{"b":2}}', '{"":1}', '[{"a":1}]',
    ]
    for one in trees:
        for other in trees:
            equal_case(one, other)
    for one, other in [
        ('[1,-1,"a"]', ' [ 1 , -1 , "\\u0061" ] '), ('{"a":1,"b":2}', '{"b":2,"a":1}'), ('{"a":0,"a":1}', '{"a":1}'), ('{"a":1.5,"a":1}', '{"a":1}'), ('"\\/"', '"/"'), ('"\\ud83d\\ude00"', '"\U0001f600"'), ('{"\\u0061":1}', '{"a":1}'),
        ('[{"b":1,"a":[{"d":2,"c":3}]}]', '[{"a":[{"c":3,"d":2}],"b":1}]'), ('[{"b":1,"a":[{"d":2,"c":3}]}]', '[{"a":[{"c":2,"d":3}],"b":1}]'), ("[" * 127 + "]" * 127, "[" * 127 + "]" * 127), ("[" * 127 + "]" * 127, "[" * 126 + "]" * 126),
    ]:
        equal_case(one, other)
        equal_case(other, one)


def errors():
    say("errors: the text of each error, of documents, members, records and canonical texts, and of what each is converted to.")
    document_errors, member_errors = ["NotJson", "Float", "OutOfMemory"], ["Member", "OutOfMemory"]
    case("errors", " ".join(["ok"] + document_errors + member_errors + ["OutOfMemory", "NotJson", "Float", "Member", "OutOfMemory"] + document_errors + member_errors + ["IntegerTooLarge", "OutOfMemory", "OutOfMemory"]))
