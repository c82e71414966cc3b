"""Rows of json_cases about members that hold a float and are replaced: which member counts, kept and ignored, in lists
beside them, and among some hundred."""
import itertools

MEMBERS = ['"k":1', '"k":[-0]', '"x":1', '"x":1.5', '"y":{"z":1.5}', '"y":{"z":1.5,"z":1}']
MANY = 300


def in_braces(members):
    return "{" + ",".join(members) + "}"


def orders(case):
    """Each order of a few members of a kept name and of two that are ignored."""
    for length in (2, 3):
        for order in itertools.product(MEMBERS, repeat=length):
            if "." in "".join(order) or "-0" in "".join(order):
                case(in_braces(order))


def comes_again(case):
    """A float that is replaced, replaced by another, dropped and there again, at the top and further down."""
    for name in ("k", "x"):
        for values in (["1.5", "2.5"], ["1.5", "1", "2.5"], ["1.5", "1", "2.5", "2"], ["1", "1.5", "1"], ["[1.5]", "[]"], ["[]", "[1.5]"],
                       ['{"a":1.5}', '{"a":1}'], ['{"a":1.5,"a":1}'] * 2, ['{"a":1,"a":1.5}', "null"], ["null", '{"a":1,"a":1.5}'],
                       ['[{"a":[1.5],"a":[{"b":-0,"b":0}]}]'], ['[{"a":[1.5],"a":[{"b":0,"b":-0}]}]'], ["18446744073709551616", '"a"']):
            repeated = [f'"{name}":{value}' for value in values]
            for others in ([], ['"k":{"b":2}'], ['"z":[true]']):
                case(in_braces(others + repeated))
                case(in_braces(repeated + others))
    for text in ['{"x":1.5,"\\u0078":1}', '{"\\u0078":1,"x":1.5}', '{"x":1.5,"X":1}', '{"":1.5,"":1}', '{"x\\u0000":1.5,"x":1}', '{"x":1.5,"x":1} 1', '{"x":1.5,"x":',
                 '{"x":1.5,"x":1,}', '{"x":1.5,"x":1e999}', '{"x":1.5,"x":[}', '[{"x":1.5,"x":1}]', '[{"x":1.5}]', '{"x":1.5,"x":"\\ud800"}', '{"x":1.5,"\\ud800":1}']:
        case(text)


def among_many(case):
    """Some hundred members, of which each holds a float, and as many that replace them: all, all except one, or one twice."""
    names = [str(place * 7919 % MANY) for place in range(MANY)]
    floats, whole = [f'"{name}":1.5' for name in names], [f'"{name}":1' for name in sorted(names)]
    kept = ['"k":2']
    for members in (floats, floats + whole, whole + floats, floats + whole[1:], floats + whole[:-1], floats + whole + floats[:1], floats + whole + floats[-1:] + whole[:1],
                    [each for pair in zip(floats, whole) for each in pair], floats[:1] + whole, whole + floats[:1], ['"a":{%s}' % ",".join(floats + whole)],
                    ['"a":{%s}' % ",".join(whole + floats)], ['"k":{%s}' % ",".join(floats + whole)], ['"k":{%s}' % ",".join(whole + floats[:1])]):
        case(in_braces(kept + members))


def mixed(names, step):
    """The same names in another order, the same each time."""
    return sorted(names, key=lambda name: (int(name) * step % 1009, int(name)))


def few_and_more(case):
    """About eight names and about 32, in orders of several kinds: all floats replaced, all but one, one that comes again,
    and none at first; of an object at the top, in a list, in an object and in a list of lists."""
    for count in (1, 2, 7, 8, 9, 10, 31, 32, 33, 34):
        names = [str(place) for place in range(count)]
        for first, second in ((names, names), (names, names[::-1]), (names[::-1], names), (mixed(names, 389), mixed(names, 577))):
            floats, whole = [f'"{name}":1.5' for name in first], [f'"{name}":1' for name in second]
            for members in (floats + whole, floats + whole[1:], floats + whole[:-1], whole + floats, floats + whole + floats[count // 2:][:1],
                            whole + floats + whole, whole + floats[:1] + whole[::-1]):
                inner = in_braces(members)
                for form in ("%s", '{"a":%s}', '{"a":[1,%s,2]}', '{"a":[[%s],{"b":1}]}'):
                    case(form % inner)


def further_down(case):
    """A float that a member replaces at one level of three, or does not: in lists and objects of each other."""
    values = ["1", "1.5", '{"c":1.5,"c":1}', '{"c":1,"c":1.5}', "[1,1.5]", "[[],{}]"]
    for one, other in itertools.product(values, repeat=2):
        for form in ('{"a":{"b":%s,"b":%s}}', '{"a":[{"b":%s},{"b":%s}]}', '{"a":{"b":%s},"a":{"b":%s}}', '{"a":[{"b":%s,"b":%s}],"a":[]}',
                     '{"a":{"b":{"d":%s,"e":2,"d":%s},"f":[]}}', '{"x":{"b":%s},"y":{"b":%s},"x":1}', '{"x":{"b":%s},"y":{"b":%s},"x":1,"y":2}',
                     '{"x":[%s],"k":1,"x":[%s]}', '{"k":[%s],"x":2,"k":[%s]}'):
            case(form % (one, other))


def at_some_depth(case):
    """A float that is replaced where lists and objects nest to 127 and one deeper."""
    for levels in (1, 2, 60, 124, 125, 126, 127):
        for begin, end in (("[", "]"), ('{"a":', "}"), ('{"a":1.5,"a":', "}"), ('{"b":1.5,"a":', ',"b":1}'), ('[{"a":1.5,"b":1,"a":', "}]")):
            for core in ("1", "1.5", "{}"):
                case('{"x":' + begin * levels + core + end * levels + "}")


def lists_that_fail(case):
    """A list of another kind, and an element that is not one, before and after floats that count, are replaced or are in what
    is no JSON."""
    values = ["null", "7", "1.5", '"a"', "true", "{}", '{"a":1.5}', '{"a":1.5,"a":1}', "[]", '["a"]', "[7]", "[1.5]", '["a",7,1.5]', '["a",1.5,7]', '[7,{"a":1.5,"a":"b"}]',
              '[7,{"a":1.5,"b":1}]', '["a",[1.5]]', '[7,"a"]', '[7,nul]', '[7,1e999]', '[7,[}]', '{"a":}', "tru", '[7,"a"', '[1.5,"a",]', '[7,[[]],{"b":[]}]']
    for first in values:
        for form in ('{"l":%s}', '{"k":1,"l":%s,"x":[2]}', '{"x":1.5,"l":%s,"x":1}', '{"k":1.5,"l":%s}', '{"x":{"y":1.5},"l":%s}', '{"l":%s}]'):
            case(form % first)
        for second in values:
            case('{"l":%s,"k":1,"l":%s}' % (first, second))
    for levels in (124, 125, 126, 127):
        for begin, end in (("[", "]"), ('{"a":', "}")):
            for front, back in (('{"l":[7,', "]}"), ('{"l":', "}"), ('{"l":[1.5,', "]}")):
                case(front + begin * levels + "1" + end * levels + back)


def rows(say, members_case, list_case):
    """The rows, of both calls."""
    say("A float that a later member replaces, in kept and ignored members: what holds one last counts.")
    for make in (orders, comes_again, among_many, few_and_more, further_down, at_some_depth):
        make(lambda text: members_case(["k"], text))
    say("The same beside a list, whose elements may hold one that is replaced, too.")
    for make in (comes_again, among_many, further_down):
        make(lambda text: list_case("any", "l", ["k"], text.replace("{", '{"l":[{"a":1.5,"a":1}],', 1)))
    for make in (further_down, at_some_depth):
        make(lambda text: list_case("any", "l", ["k"], '{"l":[%s]}' % text))
        make(lambda text: list_case("text", "l", ["k"], '{"l":["a",%s],"x":1.5,"x":1}' % text))
    lists_that_fail(lambda text: list_case("text", "l", ["k"], text))
    comes_again(lambda text: list_case("any", "x", ["k"], text))
