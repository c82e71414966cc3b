"""Rows of json_cases on texts: numbers, strings, what is not JSON, how deep it nests, and names in every order."""
import itertools
import json
import random

from json_calls import back_case, canonical_case, nested, read_case, say

NUMBERS = """0 -0 1 -1 00 -00 01 -01 007 +1 +0 - -- --1 -+1 1- 1+ .5 -.5 5. -5. 1.e1 1e 1e+ 1e- 1e+-1 1E5 1e5 1e05 1e+5 1e-5 0e0 -0e0 0.0 -0.0 1.0
-1.5 1e3 0.1e1 10.50 0x10 0b1 0o7 1_000 1,5 1f \u0661 \u00b2 \uff11 NaN Infinity -Infinity inf -inf nan 1e1.5 1.2.3
9007199254740991 9007199254740992 9007199254740993 -9007199254740991 -9007199254740992
4294967295 4294967296 2147483648 9223372036854775807 9223372036854775808 9223372036854775809 9999999999999999999 10000000000000000000
18446744073709551614 18446744073709551615 18446744073709551616 18446744073709551617 18446744073709551620 99999999999999999999
100000000000000000000 340282366920938463463374607431768211456
-9223372036854775807 -9223372036854775808 -9223372036854775809 -9223372036854775810 -9999999999999999999 -18446744073709551615 -18446744073709551616
18446744073709551615.0 9223372036854775807e0 1e308 1e309 -1e308 -1e309 1e999 -1e999 1e-400 -1e-400 1e999999999999 1e-999999999999
0e999999999999 0.0e999999999999 1e0000000400 1e0000000300 1.7976931348623157e308 1.7976931348623158e308 1.7976931348623159e308 2e308 5e-324 1e-324""".split()
LONG = ["1" + "0" * 308, "1" + "0" * 309, "-1" + "0" * 308, "-1" + "0" * 309, "0." + "0" * 400 + "1", "9" * 308, "9" * 309, "1" * 20, "0" * 20, "1" + "0" * 400 + "e-400"]
STRINGS = [
    r'""', r'"a"', r'"\""', r'"\\"', r'"\/"', r'"/"', r'"\b\f\n\r\t"', r'"\u0000"', r'"\u001f"', r'"\u007f"', r'"\u0080"', r'"\u00e9"', r'"\u00E9"', r'"\u20ac"',
    r'"\uffff"', r'"\ufffe"', r'"\ufdd0"', r'"\uFEFF"', r'"\u2028\u2029"', r'"\ud83d\ude00"', r'"\uD83D\uDE00"', r'"\ud83d\ude00 \u0000"', r'"\ud800\udc00"',
    r'"\udbff\udfff"', r'"\ud7ff\ue000"', '"\u00e9"', '"\u0301e"', '"\U0001f600"', '"\U0010ffff"', '"\ud7ff\ue000"', '"\x7f"', '"\x80\x9f"', '"\u2028\u2029"',
    '"\ufeff"', '"\ufffe\uffff"', r'"\u0041\u006a"', r'"\u004A"', r'"a\u0062c"', r'"\\u0041"', r'"\\\u0041"', r'"\"\\\/"', r'"\u0041\/"', "\" \"", '"//"', '"null"', '"\\u0022"',
    # no strings
    r'"\ud83d"', r'"\ude00"', r'"\ude00\ud83d"', r'"\ud83d\ud83d"', r'"\ud83d\ud83d\ude00"', r'"\ud83d\ude00\ude00"', r'"\ud83dx"', r'"\ud83d\n"',
    r'"\ud83d\u0041"', r'"\ud83d\\ude00"', r'"\ud83d ude00"', r'"\ud800"', r'"\udbff"', r'"\udc00"', r'"\udfff"', r'"\udbff\ue000"', r'"\ud7ff\udc00"',
    r'"\x41"', r'"\a"', r'"\v"', r'"\0"', r'"\'"', r'"\ "', r'"\U0041"', r'"\u"', r'"\u1"', r'"\u12"', r'"\u123"', r'"\u123g"', r'"\ug123"', r'"\u 123"',
    r'"\u+123"', r'"\u00-1"', r'"\u{41}"', r'"\N"', r'"\B"', r'"\T"', '"', '"a', '"\\"', '"\\', '"\\u', '"\\u0', "'a'", '"a""b"', '"a" "b"', 'a', '`a`', '"\u00e9', '"a\\',
    '"\\\u00e9"', '"\\u\uff11\uff11\uff11\uff11"',
]
STRUCTURES = [
    "null", "true", "false", " null", "null ", "\tnull\t", "[]", "{}", "[ ]", "{ }", " [ ] ", " [ 1 , -2 , true , null ] ", '{ "b" : { } , "a" : [ ] }', "[[]]", "[{}]", '{"a":[]}', '{"a":{}}', '{"":1}', '{" ":1}', "[null]",
    "[null,null]", "[true,false,null]", ' [ 1 , -9223372036854775808, 18446744073709551615 ] ', '{"a":1}', '{ "a" : 1 , "b" : 2 }', '{"a":1,"b":2}', '{"b":1,"a":2}',
    '{"a":1,"a":"\\ud83d\\ude00 \\u0000"}', '{"\\u0061":1,"a":2}', '{"a":1,"\\u0061":2}', '{"\\ud83d\\ude00":1,"\U0001f600":2}', '{"\\ud83d\\ude00":1,"\\ufb00":2}', '{"\u00e9":1,"e\u0301":2}', '{"a":1,"A":2}',
    "\n[\n1\n,\n2\n]\n", "\r\n{\r\n\"a\"\r\n:\r\n1\r\n}\r\n", "\t\r\n null\t\r\n ", "[1,\t2]",
    # no JSON
    "", " ", "\n", "[", "]", "{", "}", "[[", "[[]", "[]]", "[}", "{]", "[{]}", "{[}]", ",", ":", "[,]", "[,1]", "[1,]", "[1,,2]", "[1 2]", "[1;2]", "[1:2]", "[1", "[1,", "[1,2",
    "[1]]", "[1] 2", "[1] ]", "[1][2]", "[1],", "[1],[2]", "1 2", "1,2", "1,", "null null", "nullnull", "null,", "nul", "nulll", "n", "Null", "NULL", "tru", "truex", "TRUE", "True",
    "fals", "falsey", "False", "none", "None", "undefined", "nil", "yes", "{,}", '{"a"}', '{"a":}', '{"a":1,}', '{,"a":1}', '{"a" 1}', '{"a"=1}', '{"a":1 "b":2}', '{"a":1;"b":2}',
    '{"a":1,,"b":2}', '{"a"::1}', '{"a":1:2}', '{:1}', '{1:2}', "{null:1}", "{a:1}", "{'a':1}", '{[]:1}', '{"a":1', '{"a":', '{"a"', '{"a', '["a":1]', '{"a","b"}', '{"a":1}}',
    '{"a":1}{"b":2}', '{"a":1}x', "//c\n1", "/* */1", "1 //c", "1/**/", "# 1", "1#", "<null/>", "(1)", "[1)", "\x0bnull", "\x0cnull", "null\x0b", "null\x0c", "\x00null", "null\x00",
    "[\x00]", "\u00a0null", "\u00a01", "null\u00a0", "\u2028null", "\u2003null", "\u3000null", "\x85null", "[1,\u00a02]", "\ufeffnull", "\ufeff1", "\ufeff{}", "null\ufeff", "[\ufeff1]", "\ufeff", "\ufffenull",
    "\u200bnull", "\\u006eull", "\\n1", "\u00e9", "\U0001f600",
]
RAW = [
    b'"\xff"', b'"\xfe"', b'"\x80"', b'"\xbf"', b'"\xc0\x80"', b'"\xc1\xbf"', b'"\xc2"', b'"\xc2\x41"', b'"\xe0\x80\x80"', b'"\xe0\x9f\xbf"', b'"\xe2\x82"', b'"\xed\xa0\x80"',
    b'"\xed\xa0\xbd\xed\xb8\x80"', b'"\xed\xbf\xbf"', b'"\xf0\x80\x80\x80"', b'"\xf0\x8f\xbf\xbf"', b'"\xf0\x9f\x98"', b'"\xf4\x90\x80\x80"', b'"\xf5\x80\x80\x80"', b'"\xf8\x88\x80\x80\x80"',
    b'"\xc2\x80"', b'"\xe0\xa0\x80"', b'"\xed\x9f\xbf"', b'"\xee\x80\x80"', b'"\xf0\x90\x80\x80"', b'"\xf4\x8f\xbf\xbf"',
    b'{"\xff":1}', b'{"\xed\xa0\x80":1}', b'{"a":1,"\xff":2}', b'[1]\xff', b'\xff[1]', b'[\xff]', b'null\x80', b'\xef\xbb\xbfnull', b'\xef\xbb', b'\xfe\xff\x00[\x00]', b'\xff\xfe[\x00]\x00',
    b'[\x00\x31\x00]', b'[1.5,"\xff"]', b'{"a":"\xff","a":1}',
]


def texts():
    say("read DOCUMENT: the compact text of its tree, NotJson where it has none, Float where it holds a float. RFC 8259 section 6: numbers, alone and within.")
    for text in NUMBERS + LONG:
        for form in ["%s", "[1, %s ,2]", '{"m":%s}', '{"m":%s,"m":1}', '{"m":1,"m":%s}']:
            read_case(form % text)
    say("Section 7: strings, alone, within, and as names.")
    for text in STRINGS:
        for form in ["%s", "[%s,1]", "{%s:1}", '{"m":%s,"m":1}']:
            read_case(form % text)
    say("Each control character in a string, as it is and by its escape, and each character of ASCII after a backslash.")
    for code in range(0x20):
        read_case(b'"' + bytes([code]) + b'"')
        read_case(b'{"a' + bytes([code]) + b'":1}')
        read_case('"\\u%04x"' % code)
        read_case('"\\u%04X"' % code)
    for code in range(0x20, 0x80):
        read_case('"\\' + chr(code) + '"')
        read_case('"' + chr(code) + '"')


def structures():
    say("Sections 2 to 5: white space, literals, lists, objects, and what is none.")
    for text in STRUCTURES:
        read_case(text)
    for text in ["[]", "0"]:
        for code in range(0x80):
            if chr(code) not in '"':
                read_case(chr(code).encode() + text.encode())
                read_case(text.encode() + chr(code).encode())
    say("Section 8.1: UTF-8, whatever else is wrong; a byte order mark is refused.")
    for data in RAW:
        read_case(data)
    say("Of two faults NotJson is the first, wherever it stands.")
    for text in [
        "[1.5", "[1.5,]", '{"a":1.5} x', '[1.5,"\\ud800"]', '["\\ud800",1.5]', "[1.5,1e999]", "[1.5, 1e999]", "[1e999,1.5]", "[1e3]", "[1.5,nul]", '{"a":1.5,"a":1', '{"a":1.5,"a":1.5}', "[1.5]", "[[[1.5]]]", '{"a":{"b":[1.5]}}',
        '{"a":1.5,"a":1}', '{"a":1,"a":1.5}', '{"a":[1.5],"b":1,"a":2}', '{"a":{"b":1.5},"a":{"b":1}}', '{"a":{"b":1.5,"b":1},"c":-0}', '{"a":-0,"a":0}', '{"a":0,"a":-0}', '{"a":1.5,"a":1.5,"a":1}',
        '{"a":1.5,"\\u0061":1}', '{"a":1,"\\u0061":1.5}', '{"a":1e999,"a":1}', '{"a":1,"a":1e999}', '{"a":1.5,"A":1}', '{"a":18446744073709551616,"a":18446744073709551615}', '[{"a":1.5,"a":1},1.5]',
    ]:
        read_case(text)
    say("Every prefix of a text.")
    whole = '{"a":[1,-2,"\\u00e9\\n",{"b":null}],"c":true,"d":false}'
    for length in range(len(whole) + 1):
        read_case(whole[:length])


def nesting():
    say("Lists and objects nest to 127, in a member that is replaced as well; a number or a text takes no level.")
    forms = [("[", "]"), ('{"a":', "}"), ('[{"a":', "}]"), ("[1,", "]"), ("[", ",1]"), ('{"a":1,"a":', "}"), ('{"b":0,"a":', ',"c":0}')]
    for begin, end in forms:
        levels = begin.count("[") + begin.count("{")
        for core, inner in [("[]", 1), ("{}", 1), ("1", 0), ('"a"', 0), ("1.5", 0), ("1e999", 0), ("[1.5]", 1), ('[{"a":1}]', 2), ("", 0)]:
            for depth in {(limit - inner) // levels for limit in (126, 127, 128, 129)}:
                read_case(*nested(depth, begin, end, core))
    for depth in (125, 126, 127, 128):
        inner, words = nested(depth, "[", "]", "")
        for front, back in [('{"a":', ',"a":1}'), ('{"a":1,"a":', "}"), ("[1.5,", "]"), ("[", ",1.5]"), ('{"a":1.5,"b":', ',"a":1}')]:
            read_case(front + inner + back, "hex %s+%s+%s" % (front.encode().hex(), words[4:].replace("++", "+"), back.encode().hex()))
    for begin, end in [("[", ""), ("[", "]"), ('{"a":', ""), ('{"a":', "}"), ("[]", ""), ("]", ""), ("[[],", "")]:
        for depth in (1000, 100000):
            text, words = nested(depth, begin, end, "1")
            read_case(text, words.replace("+*%d" % depth, ""))
    read_case("[" + "[]," * 2000 + "[]]", "hex 5b+5b5d2c*2000+5b5d5d")
    say("read_back DOCUMENT: whether its compact text is read as an equal tree, and has itself as its compact text.")
    for begin, end in forms[:2]:
        for depth in (0, 1, 126, 127):
            back_case(*nested(depth, begin, end))
    for text in STRUCTURES + STRINGS + NUMBERS:
        back_case(text)


def orders():
    say("The members of an object in every order of their names: the compact text has them in the order of their bytes.")
    names = ["", "a", "aa", "b", "\u00e9"]
    for order in itertools.permutations(names):
        read_case("{" + ",".join('"%s":%d' % (name, names.index(name)) for name in order) + "}")
    say("Names in every order with every repetition: of one name the last counts, in the canonical text and for its readers as well.")
    for length in range(5):
        for order in itertools.product("abc", repeat=length):
            text = "{" + ",".join('"%s":%d' % (name, place) for place, name in enumerate(order)) + "}"
            read_case(text)
            canonical_case(text)
    chance = random.Random(8259)
    for count in (10, 30, 100, 300):
        for spread in (3, count, 10 * count):
            pairs = [(chance.choice(["", "k", "\u00e9", "\U0001f600", "\uffee"]) + str(chance.randrange(spread)), chance.randrange(10**6)) for _ in range(count)]
            text = "{" + ",".join('"%s":%d' % pair for pair in pairs) + "}"
            read_case(text)
            canonical_case(text)
    up = ['"%04d":%d' % (place, place) for place in range(400)]
    for members in [up, up[::-1], up[::2] + up[1::2], up + up[::-1], up[200:] + up[:200], up + up[:1], up[:1] + up, up[-1:] + up]:
        read_case("{" + ",".join(members) + "}")
    many_names()


def many_names():
    """Objects of so many members that these are sorted, by the first seven bytes of their names and then by the names."""
    down = ["z%02d" % place for place in range(33, 0, -1)]

    def among(names):
        """The names before, among and after others that descend."""
        for place in (0, 16, 33):
            order = down[:place] + names + down[place:]
            read_case("{" + ",".join("%s:%d" % (json.dumps(name), value) for value, name in enumerate(order)) + "}")

    say("Equal names among many, in every arrangement: of one name the last counts.")
    for order in itertools.product(["a", "z17", "zz"], repeat=3):
        among(list(order))
    say("Names that agree in their first bytes, that end where others go on, and that go on with U+0000, in every order.")
    for names in [["", "\0", "\0\0"], ["a", "a\0", "a\0\0", "aa"], ["abcdef", "abcdefg", "abcdefgh", "abcdef\0"], ["abcdefg", "abcdefg\0", "abcdefg\0\0", "abcdefga"],
                  ["abcdefgh", "abcdefghi", "abcdefgh\0", "abcdefgi"], ["abcdef\u00e9", "abcdef\u00ea", "abcdef\u00e9a", "abcdef"], ["\u007f", "\u0080", "\u00ff", "\U0010ffff"]]:
        for order in itertools.permutations(names):
            among(list(order))
    chance = random.Random(8785)
    for count in (33, 40, 64, 65, 200, 600):
        for beginning in ("", "same beginning "):
            for spread in (2, count // 4, 100 * count):
                names = [beginning + "%x" % chance.randrange(spread) for _ in range(count)]
                text = "{" + ",".join('"%s":%d' % (name, place) for place, name in enumerate(names)) + "}"
                read_case(text)
                canonical_case(text)
