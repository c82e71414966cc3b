"""Manifests of a gate: a second reader of them, by their table of members in docs/REQUESTS.md, and the manifests that the rows of
tools/gate_cases.py change. JSON, members, digests and policies are read by the second readers that the other tools have.
"""
import json
import re

import json_documents as documents
import log_requests as requests
import verify_links as links
from case_table import Table, hexed

TABLE = Table("gate_cases")
MOST_ARTIFACTS = MOST_BUNDLES = MOST_NAME = 256
MOST_NODES, MOST_LEAST = 64, 16
GENUINE = ("message", "ED25519", b"key", b"message", b"sig")


class Refused(Exception):
    """The text is not a manifest; the text is the error as Rust's Debug prints it."""


# ---- a manifest, as its table has it

def name_of(value):
    text = requests.text_of(value)
    return text if re.fullmatch("[!-~]{1,%d}" % MOST_NAME, text) else requests.refuse()


def rules_of(value):
    return requests.list_of(rule_of)(value) or requests.refuse()


RULES = {"least": requests.integer(1, MOST_LEAST + 1), "origin": requests.text_of, "size": requests.integer(0, 2 ** 64), "all": rules_of,
         "any": rules_of, "not": lambda value: rule_of(value)}


def rule_of(value):
    """A rule as its member's name and what that has."""
    given = [name for name in RULES if links.object_of(value).get(name) is not None]
    return (given[0], RULES[given[0]](value[given[0]])) if len(given) == 1 else requests.refuse()


def nodes(rule):
    name, held = rule
    return 1 + (sum(map(nodes, held)) if name in ("all", "any") else nodes(held) if name == "not" else 0)


def small_rule_of(value):
    rule = rule_of(value)
    return rule if nodes(rule) <= MOST_NODES else requests.refuse()


def map_of(kind):
    return lambda value: {name: kind(item) for name, item in links.object_of(value).items()}


def artifact_of(value):
    members = links.object_of(value)
    bundles = requests.optional(members, "bundles", requests.list_of(requests.text_of)) or []
    kinds = {"name": name_of, "digest": links.digest_of, "root": requests.text_of, "policy": requests.text_of, "rule": small_rule_of}
    return {"bundles": bundles, **{name: requests.required(members, name, kind) for name, kind in kinds.items()}}


def members_of(tree):
    members = links.object_of(tree)
    kinds = {"now": requests.integer(-2 ** 63, 2 ** 63), "roots": map_of(requests.text_of), "policies": map_of(links.policy_of),
             "artifacts": requests.list_of(artifact_of)}
    read = {name: requests.required(members, name, kind) for name, kind in kinds.items()}
    read["accepted"] = requests.optional(members, "accepted", requests.list_of(requests.row_of)) or []
    artifacts = read["artifacts"]
    if not 1 <= len(artifacts) <= MOST_ARTIFACTS or sum(len(each["bundles"]) for each in artifacts) > MOST_BUNDLES:
        requests.refuse()
    return read


def read_manifest(text):
    try:
        read = members_of(documents.tree(text))
    except (documents.NotJson, documents.Float) as fault:
        raise Refused(type(fault).__name__) from None
    except requests.NoRequest:
        raise Refused("Member") from None
    for place, artifact in enumerate(read["artifacts"]):
        for member, given, error in (("root", "roots", "UnknownRoot"), ("policy", "policies", "UnknownPolicy")):
            if artifact[member] not in read[given]:
                raise Refused("%s(%d)" % (error, place))
    return read


# ---- what the calls return

def rule_words(rule):
    name, held = rule
    if name in ("all", "any"):
        return [name, len(held), *(word for inner in held for word in rule_words(inner))]
    return [name, *(rule_words(held) if name == "not" else [hexed(held.encode()) if name == "origin" else held])]


def artifact_words(artifact):
    algorithm, digest = artifact["digest"]
    texts = [hexed(text.encode()) for text in (artifact["root"], artifact["policy"])]
    bundles = [hexed(bundle.encode()) for bundle in artifact["bundles"]]
    return [artifact["name"], algorithm, digest.hex(), *texts, len(bundles), *bundles, *rule_words(artifact["rule"])]


def in_byte_order(named):
    return sorted(named, key=str.encode)


def shown(read):
    """What the table has of a manifest that is read."""
    roots = [hexed(text.encode()) for name in in_byte_order(read["roots"]) for text in (name, read["roots"][name])]
    policies = [hexed(name.encode()) for name in in_byte_order(read["policies"])]
    artifacts = [word for artifact in read["artifacts"] for word in artifact_words(artifact)]
    accepts = str(GENUINE in read["accepted"]).lower()
    words = ["ok", read["now"], len(read["roots"]), *roots, len(policies), *policies, len(read["artifacts"]), *artifacts, accepts]
    return " ".join(map(str, words))


def returned(text):
    try:
        return shown(read_manifest(text))
    except Refused as refused:
        return str(refused)


# ---- manifests to change

DIGEST = "sha256:" + "0a" * 32
POLICY = {"all": [{"issuer": "i"}]}
ROW = {"operation": "message", "scheme": "ED25519", "key": "a2V5", "message": "bWVzc2FnZQ==", "signature": "c2ln"}
ABSENT = object()


def changed(members, changes):
    both = {**members, **changes}
    return {name: value for name, value in both.items() if value is not ABSENT}


def artifact(**changes):
    return changed({"name": "a", "digest": DIGEST, "root": "r", "policy": "p", "bundles": [], "rule": {"least": 1}}, changes)


def manifest(*artifacts, **changes):
    made = {"now": 1702500000, "roots": {"r": "{}"}, "policies": {"p": POLICY}, "artifacts": list(artifacts) or [artifact()]}
    return changed(made, changes)


def spelled(tree):
    return json.dumps(tree, separators=(",", ":"), ensure_ascii=False)


def nested(name, count, inner):
    """A rule of this many levels over the inner one."""
    for _ in range(count):
        inner = {name: inner if name == "not" else [inner]}
    return inner


def some_rule(chance, left):
    """A rule of at most this many nodes."""
    form = chance.choice(list(RULES)) if left > 1 else chance.choice(("least", "origin", "size"))
    if form == "least":
        return {form: chance.choice((1, 2, 3, 16, 1, 2, 17, 0) if chance.random() < 0.1 else (1, 2, 3))}
    if form in ("origin", "size"):
        return {form: chance.choice(("o", "p", "") if form == "origin" else (0, 3, 2 ** 64 - 1))}
    if form == "not":
        return {form: some_rule(chance, left - 1)}
    count = chance.randint(1, min(4, left - 1))
    return {form: [some_rule(chance, (left - 1) // count) for _ in range(count)]}
