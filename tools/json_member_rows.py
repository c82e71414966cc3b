"""Rows of json_cases on members: some of them kept, the calls of a view, and each reader of a member."""
import itertools

from json_calls import (
    HASH, NO_OBJECTS, OTHER, VALUES, case, document, integers_case, kind_cases, members_and_list_case, members_of_names_case, nested, percent,
    record_cases, row_cases, say, take_case, without_case,
)
from json_documents import KINDS, compact, quoted, tree
from json_text_rows import LONG, NUMBERS, RAW, STRINGS, STRUCTURES


def members_of_names():
    say("read_members COUNT NAME.. DOCUMENT: as read, but of an object with the members of these names alone. A float that is ignored counts too,")
    say("unless a later member of its name takes its place; a number without a finite value never does.")
    forms = ['{"k":%s}', '{"x":%s,"k":1}', '{"k":%s,"k":1}', '{"x":%s,"k":1,"x":1}', '{"x":1,"k":1,"x":%s}', '{"k":1,"x":[{"m":%s,"m":1}]}', '{"x":[1,{"m":%s}],"k":1}', "[%s]", "%s"]
    for text in NUMBERS + LONG:
        for form in forms:
            members_of_names_case(["k"], form % text)
    say("Names are the same where their bytes are, escapes resolved.")
    for text in STRINGS:
        for form in ['{%s:1,"k":2}', '{"x":%s,"k":1}', '{"x":{%s:1},"k":1}', '{"k":{%s:1},"x":1}']:
            members_of_names_case(["k", "a", ""], form % text)
    for names in [[], ["k"], ["K"], ["kk"], [""], ["k\0"], ["\u00e9"], ["e\u0301"], ["k", "k"], ["x", "\u00e9", "k"]]:
        for text in ['{"k":1,"K":2,"kk":3,"":4,"k\\u0000":5}', '{"\\u006b":1,"x":2}', '{"k":1,"\\u006b":2}', '{"\\u006b":1,"k":2}', '{"\u00e9":1,"e\u0301":2,"\\u00e9":3}', '{"k":1.5,"\\u006b":2}', "{}"]:
            members_of_names_case(names, text)
    say("What is not JSON is so wherever it stands, and any value but an object is kept whole.")
    for text in STRUCTURES:
        members_of_names_case(["a"], text)
        members_of_names_case([], '{"x":%s,"a":1}' % text)
    for data in RAW:
        members_of_names_case(["k"], data)
        members_of_names_case(["k"], b'{"x":' + data + b',"k":1}')
    whole = '{"a":[1,-2,"\\u00e9\\n",{"b":null}],"c":true,"d":{"e":[false]}}'
    for length in range(len(whole) + 1):
        members_of_names_case(["c"], whole[:length])


def repeated_members():
    say("Members of one name, with floats or without: the last counts.")
    for length in range(5):
        for order in itertools.product(['"k":1', '"k":1.5', '"x":2', '"x":-0'], repeat=length):
            members_of_names_case(["k"], "{" + ",".join(order) + "}")
    for text in ['{"x":{"y":1.5},"x":{}}', '{"x":{"y":1.5,"y":1},"k":1}', '{"x":[{"y":[1.5],"y":1}],"k":1}', '{"x":[{"y":1,"y":1.5}],"k":1}', '{"x":[1.5,{"y":1,"y":1}],"k":1}', '{"k":{"y":1.5,"y":1},"x":1}',
                 '{"x":1.5,"k":1.5,"x":1,"k":1}', '{"x":1.5,"k":1', '{"x":1.5,"k":nul}', '{"x":1.5,"k":1e999}', '{"x":1e999,"x":1}', '{"x":1e999,"k":1.5}', '{"x":[1e999,1.5]}', '{"x":1.5} x', '{"x":1} {}', '{"k":1} 1.5']:
        members_of_names_case(["k"], text)
    say("Lists and objects nest to 127, in an ignored member too.")
    pairs = [("[", "]"), ('{"a":', "}"), ('[{"a":', "}]"), ('{"a":1,"a":', "}")]
    for (begin, end), (core, inner) in itertools.product(pairs, [("[]", 1), ("{}", 1), ("1", 0), ("1.5", 0), ("", 0)]):
        levels = begin.count("[") + begin.count("{")
        for depth in sorted({(limit - inner) // levels for limit in (125, 126, 127, 128)}):
            text, words = nested(depth, begin, end, core)
            for front, back in [('{"x":', ',"k":1}'), ('{"k":', "}"), ('{"x":', ',"x":1}')]:
                members_of_names_case(["k"], front + text + back, "hex %s+%s+%s" % (front.encode().hex(), words[4:], back.encode().hex()))
    for depth in (1000, 100000):
        for begin, end in [("[", "]"), ('{"a":', "}"), ("[", "")]:
            text, words = nested(depth, begin, end, "1")
            members_of_names_case(["k"], '{"x":' + text + "}", "hex 7b2278223a+%s+7d" % words[4:].replace("+*%d" % depth, ""))


def members_beside_a_list():
    say("members_and_list KIND LIST COUNT NAME.. DOCUMENT: as read_members, and beside it each element of the list of one name, none where it is absent or null.")
    for text in NO_OBJECTS + ["{}", '{"l":null}', '{"l":[]}', '{"l":{}}', '{"l":7}', '{"l":"a"}', '{"l":["a","b"],"k":1}', '{"k":1,"l":["a"],"x":2}', '{"x":[1],"\\u006c":["a"],"k":1}', '{"L":["a"]}', '{"l":["a"]} x',
                              '{"l":["a"]', '{"l":["a"', '{"l":["a",]}', '{"l":[,"a"]}', '{"l":["a" "b"]}', '{"l":["a"}', '{"l":["a"]]}', '{"l":["a"],}', '{"l"["a"]}', '{"l":["a"]}{}', '["l",["a"]]']:
        members_and_list_case("text", "l", ["k"], text)
    say("An element of another kind, a float in an element, beside the list or in what is ignored, and which of the faults is told.")
    for item in VALUES + ["1.5", "[1.5]", '{"a":1.5,"a":1}', '{"a":1,"a":1.5}', "1e999", "nul"]:
        for word in ("text", "bytes", "any"):
            members_and_list_case(word, "l", ["k"], '{"k":1,"l":["aGk=",%s],"x":2}' % item)
        for form in ['{"l":["a"],"k":%s}', '{"x":%s,"l":["a"]}', '{"l":[7],"x":%s}', '{"k":%s,"l":7}']:
            members_and_list_case("text", "l", ["k"], form % item)
    say("The list twice: the last counts, whatever it is.")
    for first, second in itertools.product(['["a"]', '["b","c"]', "[]", "null", "7", "[7]", "[1.5]", "1.5", '["a"', "[1e999]"], repeat=2):
        members_and_list_case("text", "l", ["k"], '{"l":%s,"k":1,"l":%s}' % (first, second))
        members_and_list_case("text", "l", ["k"], '{"l":%s,"k":1,"\\u006c":%s}' % (first, second))
    say("The name of the list among the others, no other name, and each kind.")
    for names in [["l"], [], ["k", "l"], ["l", "l"], ["k", "k"]]:
        for text in ['{"k":1,"l":["a"]}', '{"l":["a"],"l":["b"],"k":2}', '{"k":1.5,"l":["a"]}', '{"l":[7],"k":1}', "{}"]:
            members_and_list_case("text", "l", names, text)
    for word in KINDS:
        for item in ['"aGk="', '"%s"' % HASH, '{"a":"b"}', "[1,2]", "null"]:
            members_and_list_case(word, "", ["k"], '{"":[%s,%s],"k":%s}' % (item, item, item))
    say("Lists and objects nest to 127, in an element too.")
    for (begin, end), (core, inner) in itertools.product([("[", "]"), ('{"a":', "}")], [("[]", 1), ("1", 0)]):
        for depth in (limit - inner for limit in (124, 125, 126, 127)):
            text, words = nested(depth, begin, end, core)
            for front, back in [('{"l":[', '],"k":1}'), ('{"l":[1,', "]}")]:
                members_and_list_case("any", "l", ["k"], front + text + back, "hex %s+%s+%s" % (front.encode().hex(), words[4:], back.encode().hex()))
    for count in (31, 32, 33, 1000):
        members_and_list_case("text", "l", ["k"], '{"l":[%s],"k":1}' % ",".join(['"a"'] * count))


def views():
    say("values DOCUMENT: whether it is null, its truth value, its integer, its text, how many elements it has, and whether it has members.")
    for text in VALUES + NO_OBJECTS + ['{"a":1,"b":2,"a":3}', "[1,2,3]", '{"":null}', "[[],[]]"]:
        value = tree(text)
        words = [
            str(value is None).lower(), str(value).lower() if isinstance(value, bool) else "none", str(value) if isinstance(value, int) and not isinstance(value, bool) else "none",
            quoted(value) if isinstance(value, str) else "none", str(len(value)) if isinstance(value, list) else "none", str(isinstance(value, dict)).lower(),
        ]
        case("values " + document(text), "ok " + " ".join(words))
        members_case(text)
    say("get NAME DOCUMENT: the member of this name, a null too; item PLACE DOCUMENT: the element, counted from 0.")
    objects = ['{"b":true,"i":-7,"l":[null,"x"],"t":"\\u00e9"}', '{"":0,"a":1,"aa":2,"ab":3,"b":null}', '{"\u00e9":1,"e\u0301":2,"E":3}', '{"a":1,"a":2}', "{}", '{"\\u0000":1,"a\\u0000":2}']
    for text in objects + NO_OBJECTS:
        for name in ["", "a", "aa", "ab", "b", "l", "t", "m", "z", "\u00e9", "e\u0301", "E", "e", "\0", "a\0"]:
            value = tree(text)
            answer_of = compact(value[name]) if isinstance(value, dict) and name in value else "none"
            case("get %s %s" % (percent(name), document(text)), "ok " + answer_of)
        members_case(text)
    for count in (1, 2, 3, 4, 7, 8, 9):
        text = compact({chr(97 + 2 * place): place for place in range(count)})
        for code in range(96, 98 + 2 * count):
            place = (code - 97) // 2
            hit = code >= 97 and (code - 97) % 2 == 0 and place < count
            case("get %s %s" % (percent(chr(code)), document(text)), "ok " + (str(place) if hit else "none"))
    for text in ["[]", "[null]", '[1,"a",[2],{"b":3}]', "{}", '{"0":1}', '"abc"', "null", "7"]:
        value = tree(text)
        for place in [0, 1, 2, 3, 4, 2**32, 2**63, 2**64 - 1]:
            case("item %d %s" % (place, document(text)), "ok " + (compact(value[place]) if isinstance(value, list) and place < len(value) else "none"))


def parts():
    say("take NAME DOCUMENT: the member of this name, moved out; without COUNT NAME.. DOCUMENT: the document, of an object without the members of these names.")
    objects = ['{"b":true,"i":-7,"l":[null,"x",{"a":[]}],"t":"\\u00e9\\n"}', '{"":0,"a":1,"aa":{"a":1,"b":2},"ab":3,"b":null}', '{"a":1,"a":[2]}', '{"\\u0061":1,"b":{"\\u0061":"\\ud83d\\ude00"}}', "{}"]
    for text in objects + VALUES + NO_OBJECTS + ["1.5", '{"a":1.5}', '{"a":1.5,"a":1}', "[", '{"a":1', ""]:
        for name in ["", "a", "aa", "b", "l", "m", "z"]:
            take_case(name, text)
        for names in [[], ["a"], ["a", "b"], ["b", "", "a"], ["l", "l", "z"], ["m"]]:
            without_case(names, text)
    for count in (1, 2, 7, 8, 9, 32, 33, 300):
        text = compact({"%03d" % (2 * place): [place, {"": str(place)}] for place in range(count)})
        for name in sorted({"000", "001", "%03d" % (2 * (count // 2)), "%03d" % (2 * count - 2), "%03d" % (2 * count)}):
            take_case(name, text)
        for names in [["000"], ["%03d" % (2 * count - 2)], ["%03d" % place for place in range(0, 2 * count, 4)], ["%03d" % place for place in range(2 * count)]]:
            without_case(names, text)
    for begin, end in [("[", "]"), ('{"a":', "}")]:
        for depth in (125, 126):
            text, words = nested(depth, begin, end, "[7]")
            take_case("a", '{"a":' + text + "}", "hex 7b2261223a+%s+7d" % words[4:])
            without_case(["b"], '{"a":' + text + "}", "hex 7b2261223a+%s+7d" % words[4:])
    say("A list that is read gives up the room of 65,536 elements at a time.")
    for count in (65535, 65536, 131072):
        for place in (0, count - 1, count, count + 1):
            answer_of = "0" if place < count else "1" if place == count else "none"
            case("item %d hex 5b+302c*%d+315d" % (place, count), "ok " + answer_of)


def members_case(text):
    value = tree(text)
    if isinstance(value, dict):
        words = ["ok"] + [x for name in sorted(value, key=str.encode) for x in (quoted(name), compact(value[name]))]
    else:
        words = ["ok", "none"]
    case("members " + document(text), " ".join(words))


def integers():
    say("integers NAME DOCUMENT: read_i64, read_u64, required_i64, required_u64 of the member; and the readers of texts, bytes and hashes.")
    texts_of = ['{"m":%s}' % value for value in VALUES] + NO_OBJECTS + [
        "{}", '{"m":null}', '{"m":1,"m":null}', '{"m":null,"m":1}', '{"m":null,"m":7}', '{"m":"x","m":7}', '{"m":7,"m":"x"}', '{"m":null,"m":"-7"}', '{"M":7}', '{"n":7}', '{"mm":7}', '{"":7}', '{"m\\u0000":7}', '{"\\u006d":7}',
    ]
    for text in texts_of:
        integers_case(text)
        row_cases(text)
    for name in ["", "\u00e9", "a b", "m"]:
        for text in ['{"":"aGk=","\u00e9":"7","a b":"-7"}', "{}"]:
            integers_case(text, name)
            row_cases(text, name)
    say("Each bound of the integers, as a number and as a text.")
    for bound in [0, 1, 10, 2**31, 2**32, 2**53, 2**63, 2**64, 10**19, 10**20]:
        for near, sign in itertools.product((-1, 0, 1), (1, -1)):
            value = sign * bound + near
            if -2**63 <= value < 2**64:
                integers_case('{"m":%d}' % value)
            integers_case('{"m":"%d"}' % value)
            integers_case('{"m":"%s%s"}' % ("-" if value < 0 else "", "000" + str(abs(value))))


def kinds():
    say("Each kind of value under each reader of kinds; `none` is an absent member.")
    for text in ['{"m":%s}' % value for value in VALUES if value[:2] not in ('"-', '"+')] + NO_OBJECTS + ["{}", '{"m":null}', '{"m":1,"m":null}', '{"m":null,"m":"aGk="}', '{"n":"aGk="}']:
        kind_cases(text)
    say("Lists: the first element that is not of the kind refuses the whole.")
    lists = [
        "[]", "[null]", '["aGk=","","Pj4/"]', '["aGk=",null]', '[null,"aGk="]', '["b","a","b"]', '["b",1]', '[1,"b"]', '[["b"]]', '[{}]', "[{},{\"a\":\"b\"}]", '[{"a":1},{}]', '"aGk="', '"H"', '["H"]', '["H","H"]', '["H","O"]', '["H",null]', '["H",1]',
        '["H","00"]', '[["H"]]', '["O","H","O","aGk="]', '{"0":"H"}', "[true]", "[7,-7]", '["",""]',
    ]
    for value in lists:
        kind_cases('{"m":%s}' % value.replace('"H"', '"%s"' % HASH).replace('"O"', '"%s"' % OTHER))
    kind_cases('{"m":[%s]}' % ",".join('"%d"' % place for place in range(200)))
    kind_cases('{"m":[%s,null]}' % ",".join('"%d"' % place for place in range(200)))


def encoded_bytes():
    say("Bytes: the vectors of RFC 4648 section 10, then padding, bits that are left over, other alphabets and white space.")
    vectors = ["", "Zg==", "Zm8=", "Zm9v", "Zm9vYg==", "Zm9vYmE=", "Zm9vYmFy"]
    wrong = ["Zg", "Zg=", "Zg===", "Zh==", "Zm9=", "Zm8", "Zm8==", "Zm9v=", "Zm9v====", "=", "==", "====", "Z", "Z===", "Zg==Zg==", "Zm9v Yg==", "Zm9v\\n", " Zm9v", "Zm-_", "Zm+/", "++++", "////", "----", "AAAA", "AA==", "AB==", "AAB=", "Zm9\u00e9", "Zm9v\\u0000", "Z=g="]
    for text in vectors + wrong:
        row_cases('{"m":"%s"}' % text)
        kind_cases('{"m":["Zm9v","%s"]}' % text, kinds=("bytes",), calls=("required_list",))
    for letter in range(0x21, 0x7F):
        if chr(letter) not in '"\\':
            row_cases('{"m":"AA%sA"}' % chr(letter))


def hashes():
    say("Hashes: 64 digits in either case.")
    for text in [HASH, OTHER, HASH.lower(), HASH.upper(), HASH[1:], HASH + "0", HASH[:-2], HASH + "00", "0x" + HASH[2:], HASH[:-1] + "g", "G" + HASH[1:], HASH[:-1] + " ", " " + HASH[1:], "", HASH[:32], "\u00e9" * 32, HASH[:62] + "\u00e9", "+" + HASH[1:], HASH[:30] + ":" + HASH[31:]]:
        kind_cases('{"m":"%s"}' % text, kinds=("hash", "text"))
        row_cases('{"m":"%s"}' % text)
    for code in list(range(0x21, 0x7F)):
        if chr(code) not in '"\\':
            kind_cases('{"m":"%s"}' % (HASH[:-1] + chr(code)), kinds=("hash",), calls=("required",))


def texts_by_names():
    say("Texts by their names, in every order of the names.")
    names = ["", "a", "ab", "\u00e9", "\U0001f600"]
    for order in itertools.permutations(names):
        text = '{"m":{%s}}' % ",".join('"%s":"%d"' % (name, names.index(name)) for name in order)
        kind_cases(text, kinds=("map",), calls=("required",))
    for value in ['{"b":"2","a":"1","b":"3"}', '{"a":"1","b":null}', '{"a":null,"b":"1"}', '{"a":1}', '{"a":1,"a":"1"}', '{"a":"1","a":1}', '{"a":{}}', '{"a":[]}', '["a"]', '"a"', "{}", '{"":""}']:
        kind_cases('{"m":%s}' % value, kinds=("map",))


def records():
    say("record KIND DOCUMENT: NotJson before Float before Member.")
    for text in VALUES + ["1.0", "[", "", '"x"', "[1.5]", '{"a":1.5}', '{"a":1.5', '{"a":1.5,"a":"x"}', '{"a":"x","a":1.5}', '{"a":1}', "-0", "1e999", '"\\ud800"', '{"b":"1","a":"2","b":"3"}', '"%s"' % OTHER]:
        record_cases(text)
    record_cases(b'"\xff"')
