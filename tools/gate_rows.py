"""Rows of the call `gate` of gate_cases: tools/gate_cases.py writes them. What a row's report says is stated by hand; tools/gate_verdicts.py, a second
implementation, has to say the same, and says the rest of what the call returns.
"""
import json
import random

import fixture
import gate_verdicts
import verify_cases
import verify_links
import verify_rows
from fixture import compact
from gate_manifests import TABLE, some_rule

RULE = {"least": 1}


# ---- bundles that verify, under one trusted root and one policy

def noted(origin, **changes):
    """The fixture's request, with a checkpoint of another origin."""
    note = fixture.note(fixture.Request(**changes).root, changes.get("size", 5))
    return fixture.Request(noted=note.replace("fixture.log", origin, 1), **changes)


F = fixture.Request()
LATE = fixture.Request(integrated_time=-1)
OTHER_BODY, THIRD_BODY = fixture.Request(payload=fixture.statement(subjects=5)), fixture.Request(payload=fixture.statement(subjects=6))
OTHER_ORIGIN, LARGER = noted("other.log"), fixture.Request(index=3, size=9)
MADE = {"F": F, "F-": LATE, "other body": OTHER_BODY, "third body": THIRD_BODY, "other origin": OTHER_ORIGIN, "larger": LARGER}
BUNDLES = {name: compact(made.bundle(), canonical=True) for name, made in MADE.items()}
ROOT, POLICY = compact(F.trusted_root()), F.policy


def accepted():
    """The rows of all, each once."""
    rows = [row for made in MADE.values() for row in made.accepted()]
    return [row for place, row in enumerate(rows) if row not in rows[:place]]


ACCEPTED = accepted()


def artifact(*bundles, rule=RULE, name="a", **changes):
    """An artifact with these bundles, each by its name here or as a text."""
    texts = [BUNDLES.get(bundle, bundle) for bundle in bundles]
    return {"name": name, "digest": F.digest, "root": "r", "policy": "p", "bundles": texts, "rule": rule, **changes}


def manifest(*artifacts, **changes):
    return {"now": F.now, "roots": {"r": ROOT}, "policies": {"p": POLICY}, "accepted": ACCEPTED, "artifacts": list(artifacts), **changes}


# ---- rows

def add(text, *report):
    """A row whose report has these lines, or, where it is an error, this one."""
    said, found = gate_verdicts.returned(text)
    wanted = "".join(line + "\n" for line in report)
    assert wanted in (found, said + "\n"), (report, found or said)
    TABLE.case("gate " + text, said)


def case(made, *report):
    add(compact(made), *report)


def of_one(found, *bundles, rule=RULE):
    """A row of one artifact; what is found for each bundle comes after its place."""
    decision, *each = found
    lines = ["bundle %d %s" % (place, words) for place, words in enumerate(each)]
    case(manifest(artifact(*bundles, rule=rule)), "artifact a " + decision, *lines, "admitted %d of 1" % (decision == "admit"))


HERE, THERE = "verified 2 5", "verified 3 9"


def of_bundles():
    TABLE.group("gate TEXT: what becomes of the artifacts of a manifest, and the report")
    of_one(("admit", HERE), "F")
    of_one(("deny rule", "refused time", HERE), "F-", "F", rule={"not": {"origin": "fixture.log"}})
    of_one(("deny rule", HERE, HERE), "F", "F", rule={"least": 2})
    of_one(("deny none",), rule={"not": {"least": 1}})
    of_one(("deny none", "refused time"), "F-", rule={"not": {"least": 1}})
    of_one(("admit", "refused time", HERE), "F-", "F")
    of_one(("admit", HERE, "refused time"), "F", "F-")
    of_one(("admit", HERE, "refused bundle-json", THERE, "refused material"), "F", "", "larger", "{}")
    case({**manifest(artifact("F")), "now": None}, "Member")


def of_rules():
    TABLE.group("rules of each form")
    many = ("F", "other body", "third body", "F", "other origin", "larger", "F-")
    found = (HERE, HERE, HERE, HERE, HERE, THERE, "refused time")
    for rules, decision in (
            ([{"least": 1}, {"least": 2}, {"least": 3}, {"origin": "fixture.log"}, {"origin": "other.log"}, {"size": 0}, {"size": 5}, {"size": 9},
              {"all": [{"least": 3}, {"origin": "other.log"}, {"size": 9}]}, {"any": [{"least": 4}, {"size": 9}]}, {"any": [{"origin": "fixture.log"}]},
              {"not": {"least": 4}}, {"not": {"origin": "Fixture.log"}}, {"not": {"size": 10}}, {"not": {"all": [{"least": 1}, {"least": 4}]}},
              {"not": {"any": [{"least": 16}, {"size": 2 ** 64 - 1}]}}, {"not": {"not": {"least": 3}}}], "admit"),
            ([{"least": 4}, {"least": 16}, {"origin": ""}, {"origin": "fixture.lo"}, {"origin": "fixture.log2"}, {"size": 10}, {"size": 2 ** 64 - 1},
              {"all": [{"least": 3}, {"size": 10}]}, {"any": [{"least": 4}, {"origin": "x"}]}, {"not": {"least": 3}}, {"not": {"origin": "other.log"}},
              {"not": {"size": 9}}, {"not": {"any": [{"least": 4}, {"least": 1}]}}, {"not": {"not": {"least": 4}}}], "deny rule")):
        for rule in rules:
            of_one((decision, *found), *many, rule=rule)
    of_one(("admit", HERE), "other origin", rule={"not": {"origin": "fixture.log"}})
    of_one(("admit", HERE, HERE), "F", "other origin", rule={"not": {"least": 2}})


def of_artifacts():
    TABLE.group("several artifacts, trusted roots and policies")
    case(manifest(artifact("F", name="x"), artifact("F-", name="y"), artifact(name="z"), artifact("other body", "F", name="~", rule={"least": 2})),
         "artifact x admit", "bundle 0 " + HERE, "artifact y deny none", "bundle 0 refused time", "artifact z deny none",
         "artifact ~ admit", "bundle 0 " + HERE, "bundle 1 " + HERE, "admitted 2 of 4")
    roots = {"r": ROOT, "s": "", "t": "{}", "u": "no JSON", "": ROOT}
    names = ("r", "s", "r", "t", "", "u", "s")
    said = {"r": HERE, "": HERE, "t": "refused fulcio"}
    lines = []
    for place, name in enumerate(names):
        found = said.get(name, "refused root-json")
        lines += ["artifact a%d %s" % (place, "admit" if found == HERE else "deny none"), "bundle 0 " + found, "bundle 1 " + found]
    case(manifest(*[artifact("F", "F", name="a%d" % place, root=name) for place, name in enumerate(names)], roots=roots), *lines, "admitted 3 of 7")
    case(manifest(artifact(name="b", root="u"), artifact("F", "{", root="u"), roots=roots), "artifact b deny none", "artifact a deny none",
         "bundle 0 refused root-json", "bundle 1 refused root-json", "admitted 0 of 2")
    case(manifest(artifact("F"), artifact("F", name="b", policy="q"), artifact("F", name="c", digest="sha256:" + "b" * 64),
                  policies={"p": POLICY, "q": {"all": [{"issuer": "https://other.example"}]}}),
         "artifact a admit", "bundle 0 " + HERE, "artifact b deny none", "bundle 0 refused policy", "artifact c deny none", "bundle 0 refused subject",
         "admitted 1 of 3")
    case(manifest(artifact("F"), accepted=[]), "artifact a deny none", "bundle 0 refused issuer", "admitted 0 of 1")
    case(manifest(artifact("F"), now=2 ** 63 - 1), "artifact a deny none", "bundle 0 refused log-key", "admitted 0 of 1")
    case(manifest(artifact("F"), now=-2 ** 63), "artifact a deny none", "bundle 0 refused fulcio", "admitted 0 of 1")
    case(manifest(artifact("F", root="v")), "UnknownRoot(0)")
    case(manifest(artifact("F", policy="v")), "UnknownPolicy(0)")


def of_links():
    TABLE.group("each link as the first that fails of a bundle, beside one that verifies if the trusted root is not at fault")
    for group in verify_rows.GROUPS:
        group()
    for link in verify_links.LINKS:
        rows = [json.loads(row.text) for row in verify_cases.ROWS if row.expected[0] == "refused " + link]
        of_link(link, min(rows, key=lambda members: len(compact(members))))


def of_link(link, members):
    """A row of a request of `verify` of which this link fails, as the bundle of an artifact."""
    made = {"now": members["now"], "roots": {"r": members["trustedRoot"]}, "policies": {"p": members["policy"]}, "accepted": members.get("accepted"),
            "artifacts": [artifact(members["bundle"], digest=members["digest"])]}
    case(made, "artifact a deny none", "bundle 0 refused " + link, "admitted 0 of 1")


def of_many():
    TABLE.group("256 artifacts under one trusted root, and 256 bundles of one artifact")
    lines, artifacts = [], []
    for place in range(256):
        has = place % 8 == 3
        artifacts.append(artifact(*(["F"] if has else []), name="a%d" % place))
        lines += ["artifact a%d %s" % (place, "admit" if has else "deny none"), *(["bundle 0 " + HERE] if has else [])]
    case(manifest(*artifacts), *lines, "admitted 32 of 256")
    bundles = ["{}" if place % 16 else ("F", "other body", "third body")[place // 16 % 3] for place in range(256)]
    of_one(("admit", *["refused material" if place % 16 else HERE for place in range(256)]), *bundles, rule={"all": [{"least": 3}, {"not": {"least": 4}}]})


def rule_by_chance(chance):
    """A rule over what the bundles here show."""
    said = compact(some_rule(chance, 12)).replace('"o"', '"fixture.log"').replace('"p"', '"other.log"').replace('"size":3', '"size":9')
    return json.loads(said)


def artifact_by_chance(chance, place, most):
    bundles = [chance.choice((*BUNDLES, *BUNDLES, "{}")) for _ in range(chance.randint(0, most))]
    return artifact(*bundles, rule=rule_by_chance(chance), name="a%d" % place)


def by_chance(manifests, artifacts, most):
    """Manifests of this many artifacts each, and of at most this many bundles of each artifact."""
    TABLE.group("artifacts by chance")
    chance = random.Random(40 + artifacts)
    for _ in range(manifests):
        text = compact(manifest(*(artifact_by_chance(chance, place, most) for place in range(artifacts))))
        TABLE.case("gate " + text, gate_verdicts.returned(text)[0])


def add_all():
    for rows in (of_bundles, of_rules, of_artifacts, of_links, of_many):
        rows()
    by_chance(24, 1, 4)
    by_chance(24, 25, 2)
