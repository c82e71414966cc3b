#!/usr/bin/env python3
"""Writes the table of crates/gate_cases: `stdin`, the calls, and `stdout`, what they return.

    tools/gate_cases.py

The second reader of tools/gate_manifests.py says what the result of a text is. It is also stated by hand, row by row, except for the random ones, that a
text is not a manifest for this cause and no other. The rows of verdicts are in tools/gate_rows.py.
"""
import random
import sys

sys.dont_write_bytecode = True

import gate_rows
from gate_manifests import (ABSENT, MOST_ARTIFACTS, MOST_NAME, POLICY, ROW, RULES, TABLE, artifact, manifest, nested, returned, some_rule, spelled)


# ---- rows of manifests

def case(expected, text):
    """A row of a text, or of the text of a tree. What is stated is the error, or `ok`."""
    text = text if isinstance(text, str) else spelled(text)
    found = returned(text)
    assert found.split(" ")[0] == expected, (expected, found, text[:200])
    TABLE.case("manifest " + text, found)


def ruled(expected, *rules):
    for rule in rules:
        case(expected, manifest(artifact(rule=rule)))


def members():
    TABLE.group("manifest TEXT: members, each absent, null and of another kind")
    case("ok", manifest())
    for name in ("now", "roots", "policies", "artifacts"):
        for value in (ABSENT, None, True, [[]]):
            case("Member", manifest(**{name: value}))
    for value in (ABSENT, None, [], [ROW], [ROW, {**ROW, "scheme": "RSA_PSS_SHA256"}]):
        case("ok", manifest(accepted=value))
    for value in ({}, "", [None], [ROW, {**ROW, "operation": "sign"}], [{**ROW, "key": "a2V5="}]):
        case("Member", manifest(accepted=value))
    for name in ("name", "digest", "root", "policy", "rule"):
        for value in (ABSENT, None, 1, []):
            case("Member", manifest(artifact(**{name: value})))
    for value in (ABSENT, None, [], [""], ["b", "b"], ["\u00e9"]):
        case("ok", manifest(artifact(bundles=value)))
    for value in ("", {}, [None], ["b", 1], [["b"]]):
        case("Member", manifest(artifact(bundles=value)))
    case("ok", manifest(other=[{}, None, 1], artifacts=[artifact(other={"least": 3})]))
    case("Member", manifest(artifact(), None))


def values():
    TABLE.group("times, digests, trusted roots and policies")
    for now in (-2 ** 63, 2 ** 63 - 1, "-5", "007"):
        case("ok", manifest(now=now))
    for now in (2 ** 63, "", "+1", "1.0", " 1", True):
        case("Member", manifest(now=now))
    for digest in ("sha256:" + "aB" * 32, "sha512:" + "0" * 128):
        case("ok", manifest(artifact(digest=digest)))
    for digest in ("", "sha256:", "sha256:" + "a" * 63, "sha256:" + "g" * 64, "sha512:" + "0" * 64, "SHA256:" + "a" * 64, "sha384:" + "0" * 96):
        case("Member", manifest(artifact(digest=digest)))
    case("ok", manifest(roots={"r": "no root", "": "", "\u20ac": "x", "z": "y"}, policies={"p": POLICY, "": {"any": [{"ref": ""}]}, "b": POLICY}))
    for roots in ({"r": None}, {"r": "{}", "s": {}}, {"r": ["{}"]}):
        case("Member", manifest(roots=roots))
    for policy in (None, {}, {"all": []}, {"all": [{}]}, {"all": [{"issuer": "i"}], "any": [{"issuer": "i"}]}, {"all": [{"identity": "i"}]},
                   {"all": [{"issuer": "i", "ref": "r"}]}, {"all": {"issuer": "i"}}, []):
        case("Member", manifest(policies={"p": POLICY, "q": policy}))
    for policy in ({"any": [{"issuer": "i", "identity": "n"}]}, {"all": [{"ref": "r"}, {"sha": "s"}], "any": None}):
        case("ok", manifest(policies={"p": policy}))


def texts():
    TABLE.group("texts that are not JSON, hold a float, are of another value, or have members twice")
    for text in ("", "{", spelled(manifest()) + "x", spelled(manifest())[:-1], "{'now':1}", '"\\ud800"'):
        case("NotJson", text)
    for tree in (manifest(now=1.5), manifest(other=[0.5]), manifest(artifact(rule={"least": 1.0})), manifest(now=2 ** 64), manifest(accepted=[1e3])):
        case("Float", tree)
    case("Float", '{"x":-0}')
    for text in ("[]", "null", "1", '"manifest"', "{}"):
        case("Member", text)
    case("ok", '{"now":true,' + spelled(manifest())[1:])
    case("Member", spelled(manifest())[:-1] + ',"now":true}')
    case("ok", '{"accepted":[1],' + spelled(manifest(accepted=[ROW]))[1:])
    case("ok", spelled(manifest()).replace('"roots"', '"r\\u006fots"').replace(",", " ,\t"))


def names():
    TABLE.group("names of artifacts, at their least and greatest length, and of bytes at the ends and past them")
    for name in ("!", "~", "a" * MOST_NAME, '"\\/', "".join(map(chr, range(0x21, 0x7F)))):
        case("ok", manifest(artifact(name=name)))
    for name in ("", "a" * (MOST_NAME + 1), " ", "a b", "a\n", "\x7f", "\u00e9", "a\x00", "\u0120"):
        case("Member", manifest(artifact(name=name)))
    case("ok", manifest(artifact(), artifact(), artifact(name="b"), artifact()))


def counts():
    TABLE.group("1 to 256 artifacts, and at most 256 bundles of all together")
    case("Member", manifest(artifacts=[]))
    case("ok", manifest(*[artifact(name="a%d" % place) for place in range(MOST_ARTIFACTS)]))
    case("Member", manifest(*[artifact(name="a%d" % place) for place in range(MOST_ARTIFACTS + 1)]))
    for sizes in ([256], [0, 256, 0], [128, 128], [1] * 256, [255, 0, 1]):
        case("ok", manifest(*[artifact(bundles=["b"] * size) for size in sizes]))
    for sizes in ([257], [256, 1], [1, 256], [128, 0, 129], [2] + [1] * 255, [300, 300]):
        case("Member", manifest(*[artifact(bundles=["b"] * size) for size in sizes]))


def unknown():
    TABLE.group("trusted roots and policies that are not there")
    missing = {"root": artifact(root="s"), "policy": artifact(policy="q"), "both": artifact(root="s", policy="q"), "none": artifact()}
    case("UnknownRoot(0)", manifest(missing["root"]))
    case("UnknownPolicy(0)", manifest(missing["policy"]))
    case("UnknownRoot(0)", manifest(missing["both"]))
    case("UnknownRoot(0)", manifest(artifact(root="")))
    case("UnknownRoot(0)", manifest(roots={}, policies={}))
    case("UnknownPolicy(0)", manifest(policies={}))
    case("UnknownRoot(1)", manifest(missing["none"], missing["root"], missing["policy"]))
    case("UnknownPolicy(1)", manifest(missing["none"], missing["policy"], missing["root"]))
    case("UnknownPolicy(255)", manifest(*[missing["none"]] * 255, missing["policy"]))
    case("Member", manifest(missing["root"], artifact(rule={})))
    case("ok", manifest(artifact(root="R"), roots={"R": "{}", "r": "{}"}))
    case("UnknownRoot(0)", manifest(artifact(root="R")))


def rules():
    TABLE.group("rules of each form, at the ends of their values and past them")
    ruled("ok", {"least": 1}, {"least": 16}, {"least": "16"}, {"origin": ""}, {"origin": "log \u20ac"}, {"size": 0}, {"size": 2 ** 64 - 1}, {"size": "9"},
          {"all": [{"least": 1}]}, {"any": [{"least": 1}, {"size": 2}, {"origin": "o"}]}, {"not": {"origin": "o"}}, {"least": 1, "size": None},
          {"least": 2, "other": 3}, {"all": None, "any": [{"least": 1}]})
    ruled("Member", {}, [], "least", 1, {"least": 0}, {"least": 17}, {"least": -1}, {"least": None}, {"least": "x"}, {"least": 2 ** 63}, {"origin": 1},
          {"size": -1}, {"size": "x"}, {"all": []}, {"any": []}, {"all": {}}, {"all": {"least": 1}}, {"all": [None]}, {"any": [{}]},
          {"all": [{"least": 1}, {"least": 0}]}, {"not": []}, {"not": {}}, {"not": [{"least": 1}]}, {"not": None}, {"not": {"not": 1}})
    for first in RULES:
        for other in RULES:
            if first != other:
                ruled("Member", {first: 1, other: {}}, {first: [{"least": 1}], other: 0})
    TABLE.group("rules of 64 nodes, and of one more")
    flat = lambda name, count: {name: [{"least": 1}] * count}
    ruled("ok", nested("not", 63, {"least": 1}), flat("all", 63), flat("any", 63), {"all": [flat("any", 31), flat("all", 30)]},
          nested("all", 20, flat("any", 43)), nested("not", 32, flat("all", 31)), nested("any", 60, {"not": {"size": 1}}))
    ruled("Member", nested("not", 64, {"least": 1}), flat("all", 64), flat("any", 64), {"all": [flat("any", 31), flat("all", 31)]},
          nested("all", 20, flat("any", 44)), nested("not", 32, flat("all", 32)), flat("all", 1000), nested("not", 100, {"least": 1}))
    ruled("NotJson", nested("not", 124, {"least": 1}), nested("all", 63, {"least": 1}))


def limits():
    TABLE.group("members that are ignored and nest to 127 or one more, beside the others, in an artifact and in a rule; 300 of each that has no limit")
    for depth, expected in ((127, "ok"), (128, "NotJson")):
        text = spelled(manifest(other="", artifacts=[artifact(other="", rule={"least": 1, "other": ""})]))
        for place, levels in enumerate((4, 3, 1)):
            parts = text.split('""')
            parts[place] += "[" * (depth - levels) + "]" * (depth - levels)
            case(expected, '""'.join(parts[:place]) + '""' * (place > 0) + parts[place] + '""'.join(parts[place + 1:]))
    several = {"n%03d" % place: str(place) for place in range(300)}
    case("ok", manifest(artifact(root="n299"), roots=several))
    case("UnknownRoot(0)", manifest(artifact(root="n300"), roots=several))
    case("Member", manifest(artifact(root="n299"), roots={**several, "n300": 1}))
    case("ok", manifest(artifact(policy="n299"), policies={name: POLICY for name in several}))
    case("UnknownPolicy(0)", manifest(artifact(policy="n300"), policies={name: POLICY for name in several}))
    case("Member", manifest(artifact(policy="n299"), policies={**{name: POLICY for name in several}, "n300": {}}))
    for last, expected in ({"ref": "r"}, "ok"), ({"ref": None}, "Member"):
        case(expected, manifest(policies={"p": {"any": [{"sha": "s"}] * 299 + [last]}}))
    others = [{**ROW, "message": "bWVz"}] * 299
    for last, expected in (ROW, "ok"), ({**ROW, "scheme": "ED"}, "Member"):
        case(expected, manifest(accepted=[*others, last]))


# ---- manifests by chance

def some_artifact(chance):
    names = ("r", "s") if chance.random() < 0.97 else ("t", "r")
    made = artifact(name=chance.choice("abc~"), root=chance.choice(names), policy=chance.choice("pq" if chance.random() < 0.97 else "pu"),
                    bundles=[chance.choice(("", "b", "{}")) for _ in range(chance.randint(0, 3))], rule=some_rule(chance, chance.choice((1, 6, 30))))
    if chance.random() < 0.03:
        made[chance.choice(list(made))] = chance.choice((None, 1, "", [], {}))
    return made


def by_chance(count):
    TABLE.group("manifests by chance")
    chance = random.Random(40)
    for _ in range(count):
        made = manifest(*[some_artifact(chance) for _ in range(chance.randint(1, 5))], roots={"r": "1", "s": "2"}, policies={"p": POLICY, "q": POLICY})
        text = spelled(made)
        TABLE.case("manifest " + text, returned(text))


def main():
    for rows in (members, values, texts, names, counts, unknown, rules, limits):
        rows()
    by_chance(400)
    gate_rows.add_all()
    TABLE.write()


if __name__ == "__main__":
    main()
