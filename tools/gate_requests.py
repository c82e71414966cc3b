#!/usr/bin/env python3
"""Manifests that `gate` is given and the replies to them, by a reader of its own.

    tools/gate_requests.py                  writes examples/gate.requests, one manifest on a line, and below each the reply and the status; and the
                                            examples gate*.json with their replies
    tools/gate_requests.py check PROGRAM    runs the program on random manifests, and on the longest lists; and compares its replies

The replies are this program's own: a manifest is read as tools/gate_manifests.py does, and its artifacts are judged as tools/gate_verdicts.py does."""
import itertools
import json
import pathlib
import random
import sys
from types import SimpleNamespace

TOP = pathlib.Path(__file__).resolve().parent.parent
sys.dont_write_bytecode = True
sys.path.insert(0, str(TOP / "tools"))
import fixture
from fixture import FULCIO, ISSUER, SEQUENCE, SUBJECT_ALTERNATIVE_NAME, URI, WORKFLOW, der, extension, leaf, leaf_extensions
import gate_manifests as manifests
import request_table
from gate_verdicts import report_lines, verdict

MOST_BYTES = 1 << 24
ORIGIN = "fixture.log"


# ---- the replies

def read_request(text):
    """A manifest as it is read. gate_manifests.Refused: the text is not one."""
    if len(text.encode()) > MOST_BYTES:
        raise manifests.Refused("TooLong")
    return manifests.read_manifest(text)


def case_of(read, artifact, bundle):
    """What the links of a bundle of an artifact are about."""
    request = SimpleNamespace(trusted_root=read["roots"][artifact["root"]], bundle=bundle, now=read["now"], digest=artifact["digest"],
                              policy=read["policies"][artifact["policy"]], accepted=set(read["accepted"]), entries=None)
    return SimpleNamespace(request=request)


def lines(text):
    """The reply to a text without its last newline, and the status."""
    try:
        read = read_request(text)
    except manifests.Refused:
        return "refused request", 2
    verdicts = [verdict(read, artifact) for artifact in read["artifacts"]]
    return "".join(report_lines(read, verdicts)).removesuffix("\n"), int(not all(admitted for admitted, _ in verdicts))


def reply(text):
    """The reply on one line, and the status."""
    said, status = lines(text)
    return said.replace("\n", " "), status


# ---- manifests

F = fixture.Request()
LATE = fixture.Request(integrated_time=-1)
OTHER = fixture.Request(keyid="other")  # another log body over the same artifact
LARGER = fixture.Request(keyid="larger", index=6, size=9)
MESSAGE = fixture.MessageRequest()
ROOT = fixture.compact(F.trusted_root())


def signed_by(**held):
    """A request whose certificate says something else of the signer."""
    return fixture.Request(leaf=leaf(leaf_extensions(**held)))


CLAIMS = ("trigger", "sha", "name", "repository", "ref")
CLAIMED = signed_by(others=b"".join(extension(FULCIO[name], b"the " + name.encode()) for name in CLAIMS))
TWO_NAMES = signed_by(names=extension(SUBJECT_ALTERNATIVE_NAME, der(SEQUENCE, der(0x81, b"user"), der(URI, WORKFLOW.encode()))))
NAMELESS, WITHOUT_ISSUER = signed_by(names=b""), signed_by(issued=b"")


def text_of(made):
    return fixture.compact(made.bundle(), canonical=True)


def artifact(bundles=(F,), rule=None, name="a", **changes):
    texts = [each if isinstance(each, str) else text_of(each) for each in bundles]
    return {"name": name, "digest": F.digest, "root": "r", "policy": "p", "bundles": texts, "rule": {"least": 1} if rule is None else rule, **changes}


def rows_of(*given):
    """The rows of these, each once."""
    found = []
    for made in given:
        found += [row for row in made.accepted() if row not in found]
    return found


TEXTS = {text_of(made): made for made in (F, LATE, OTHER, LARGER, MESSAGE)}
SIGNERS = {text_of(made): made for made in (CLAIMED, TWO_NAMES, NAMELESS, WITHOUT_ISSUER)}
MADE = {**TEXTS, **SIGNERS}


def manifest(*artifacts, accepted=None, **changes):
    """The manifest of these artifacts, which accepts the signatures of their bundles, if nothing else is given."""
    artifacts = list(artifacts) or [artifact()]
    used = dict.fromkeys(text for each in artifacts for text in each.get("bundles", ()) if text in MADE)
    made = {"now": F.now, "roots": {"r": ROOT}, "policies": {"p": F.policy}, "artifacts": artifacts,
            "accepted": rows_of(*map(MADE.get, used)) if accepted is None else accepted}
    return {**made, **changes}


def first_rows():
    yield manifest(artifact([F], {"least": 1}))
    yield manifest(artifact([LATE, F], {"not": {"origin": ORIGIN}}))
    yield manifest(artifact([F, F], {"least": 2}))
    yield manifest(artifact([], {"not": {"least": 1}}), accepted=F.accepted())


def rules():
    for rule in ({"least": 2}, {"least": 3}, {"least": 4}, {"size": 5}, {"size": 9}, {"size": 10}, {"origin": ORIGIN}, {"origin": "other"},
                 {"origin": ""}):
        yield manifest(artifact([F, OTHER, LARGER], rule))
        yield manifest(artifact([F, OTHER, LARGER], {"not": rule}))
    for first in ({"least": 1}, {"least": 2}):
        for second in ({"size": 5}, {"size": 6}):
            for name in "all", "any":
                yield manifest(artifact([F], {name: [first, second]}))
    yield manifest(artifact([F], {"all": [{"any": [{"least": 2}, {"not": {"size": 6}}]}, {"origin": ORIGIN}]}))
    yield manifest(artifact([LATE], {"not": {"least": 1}}))
    for levels in (62, 63, 64):
        yield manifest(artifact([F], manifests.nested("not", levels, {"least": 1})))


def bundles():
    for changes in ({"integrated_time": -1}, {"promise": b"x"}, {"signature": b"x"}, {"index": 1}, {"log_index": 1}, {"payload": b"{}"},
                    {"media_type": "x"}, {"noted": "other"}, {"log_id": fixture.OTHER_LOG_ID}):
        made = fixture.Request(**changes)
        yield manifest(artifact([made, F]), accepted=rows_of(F))
    for text in ("", "{}", "[]", "x", text_of(F)[:-1], text_of(F) + " "):
        yield manifest(artifact([text, F]))
    for place in range(5):
        yield manifest(accepted=[row for at, row in enumerate(F.accepted()) if at != place])
    yield manifest(artifact([MESSAGE]))
    yield manifest(artifact([MESSAGE, F, OTHER, LATE, LARGER, F], {"least": 4}))
    yield manifest(artifact([]))
    yield manifest({name: value for name, value in artifact().items() if name != "bundles"})


def artifacts():
    other = "sha256:" + "00" * 32
    yield manifest(artifact(name="tool-1.0.tar.gz"), artifact([F, LATE], name="b"), artifact([], name="c"), artifact(digest=other, name="d"))
    yield manifest(artifact(name="a"), artifact(name="a"), artifact(name="~!\"\\"))
    yield manifest(artifact(root="s"), artifact(root="x"), artifact(), roots={"r": ROOT, "s": "{}", "x": "no root"})
    bundled = [F, OTHER, LATE, LARGER, MESSAGE, "x"]
    yield manifest(*[artifact([each], root=root, name=f"a{place}") for place, (each, root) in enumerate(zip(bundled, "rx" * 3))],
                   roots={"r": ROOT, "x": "no root"})
    yield manifest(artifact([], root="x"), artifact([F, OTHER], name="b"), artifact([], root="x", name="c"), roots={"r": ROOT, "x": "no root"})
    yield manifest(artifact(policy="q"), artifact(), policies={"p": F.policy, "q": {"all": [{"issuer": "nobody"}]}})
    yield manifest(artifact(root="t"))
    yield manifest(artifact(), artifact(policy="t"))
    for name in ("", "a b", "\u00e9", "a" * 256, "a" * 257):
        yield manifest(artifact(name=name))
    for now in (0, 1704067200, 2**62):
        yield manifest(now=now)


def identity(name, issuer=ISSUER):
    return {"identity": name, "issuer": issuer}


HELD = [{"issuer": ISSUER}, *({name: "the " + name} for name in CLAIMS), identity(WORKFLOW)]  # a rule of each kind, which CLAIMED meets
NOT_HELD = [{"issuer": "x"}, *({name: "the " + name + "s"} for name in CLAIMS), identity(WORKFLOW + "s")]


def under(bundles, *policies, **changes):
    """An artifact under each of these policies."""
    return manifest(*[artifact(bundles, name=f"a{place}", policy=f"p{place}") for place in range(len(policies))],
                    policies={f"p{place}": policy for place, policy in enumerate(policies)}, **changes)


def policies():
    pairs = list(zip(HELD, NOT_HELD))
    yield under([CLAIMED], *({"any": [other, rule, other]} for rule, other in pairs))
    yield under([CLAIMED], *({"any": [other, other]} for _, other in pairs), {"any": NOT_HELD})
    yield under([CLAIMED], *({"all": [rule, rule]} for rule, _ in pairs), {"all": HELD})
    yield under([CLAIMED], *({"all": [rule, other, rule]} for rule, other in pairs), {"all": [*HELD, *HELD, NOT_HELD[3]]})
    own, strange = identity(WORKFLOW), identity(WORKFLOW, "x")
    crossed = [strange, identity("user", "x"), identity("nobody")]
    yield under([TWO_NAMES, NAMELESS, WITHOUT_ISSUER], {"any": crossed}, {"any": [*crossed, identity("user")]}, {"any": [{"issuer": ISSUER}, *crossed]})
    yield under([TWO_NAMES, NAMELESS], {"all": [own, identity("user"), own]}, {"all": [own, strange]}, {"all": [own, {"issuer": "x"}]},
                {"all": [own, identity("nobody")]})
    yield under([F], {"any": [identity("")]}, {"any": [identity(WORKFLOW, "")]}, {"all": [identity(""), own]}, {"any": [{"ref": ""}, {"issuer": ""}]})
    wide = {"any": [*NOT_HELD, own]}
    near = {"any": [*NOT_HELD, identity(WORKFLOW[:-1])]}
    yield manifest(*[artifact([F, LARGER], name=f"{name}{place}", policy=name) for place in range(3) for name in ("wide", "near")],
                   policies={"wide": wide, "near": near})
    yield manifest(*[artifact([], name=name, policy=name) for name in ("wide", "near")], artifact(policy="wide"), policies={"wide": wide, "near": near})
    texts = [identity(f"{WORKFLOW}/{place}", f"{ISSUER}/{place % 7}") for place in range(150)]
    for how in "any", "all":
        yield under([F], {how: texts}, {how: [*texts[:75], own, *texts[75:]]}, {how: [own] * 150}, {how: [{"issuer": ISSUER}] * 75 + [own] * 75})


def members():
    yield {}
    yield manifest(artifacts=[])
    yield manifest(artifact(), accepted=[{**F.accepted()[0], "key": "a"}])
    yield manifest(artifact(rule={"least": 0}))
    yield manifest(artifact(rule={"least": 17}))
    yield manifest(artifact(rule={"least": 1, "size": 1}))
    yield manifest(artifact(rule={"all": []}))
    yield manifest(artifact(rule={}))
    yield manifest(other=1.5)
    yield json.dumps(manifest())[:-1]
    yield from ("[]", "null", "x")


def hundreds():
    yield manifest(*[artifact([], name=f"artifact-{place}") for place in range(256)])
    yield manifest(*[artifact([], name=f"artifact-{place}") for place in range(257)])
    yield manifest(artifact(["{}"] * 256))
    yield manifest(artifact(["{}"] * 257))
    yield manifest(artifact(["{}"] * 128), artifact(["{}"] * 129, name="b"))


GROUPS = {"one bundle, two of which one fails, one bundle twice, and none": first_rows, "each rule, and rules of rules": rules,
          "bundles that are refused, each by a link, beside one that is not": bundles,
          "several artifacts, trusted roots and policies": artifacts,
          "policies of rules of each kind, of equal rules, of an identity under another issuer, and of many": policies,
          "texts that are not a manifest": members,
          "the longest lists, and longer ones": hundreds}


def examples():
    release = [artifact([F, OTHER], {"all": [{"least": 2}, {"origin": ORIGIN}]}, name="tool-1.0.tar.gz"), artifact(name="tool-1.0.sbom.json")]
    yield "gate", manifest(*release)
    denied = [*release, artifact([LATE], name="tool-1.1.tar.gz"), artifact([LATE, LARGER], {"size": 10}, name="tool-1.2.tar.gz")]
    yield "gate-denied", manifest(*denied)
    for name, made in zip(("one-bundle", "not-that-log", "one-bundle-twice", "no-bundle"), first_rows()):
        yield f"gate-{name}", made


# ---- runs of the program

def by_chance():
    """Up to eight artifacts of up to six bundles, and rules of up to twelve nodes."""
    chance = random.Random(9162)
    rows = rows_of(*TEXTS.values())
    for _ in range(60):
        made = [artifact(chance.choices([*TEXTS, "{}"], k=chance.randint(0, 6)), some_rule(chance, 12), name=f"a{place}")
                for place in range(chance.randint(1, 8))]
        yield manifest(*made, accepted=[row for row in rows if chance.random() < 0.97])


def policies_by_chance():
    """Up to four policies of up to nine rules, and up to eight artifacts under them."""
    chance = random.Random(335)
    rules = [*HELD, *NOT_HELD, *({"issuer": text} for text in ("", ISSUER + "x")),
             *(identity(name, issuer) for name in ("user", WORKFLOW, "nobody") for issuer in (ISSUER, "x"))]
    for _ in range(80):
        names = "abcd"[:chance.randint(1, 4)]
        listed = {name: {chance.choice(("all", "any")): chance.choices(chance.sample(rules, 3), k=chance.randint(1, 9))} for name in names}
        made = [artifact(chance.choices([*SIGNERS, *TEXTS], k=chance.randint(0, 3)), name=f"a{place}", policy=chance.choice(names))
                for place in range(chance.randint(1, 8))]
        yield manifest(*made, policies=listed)


def some_rule(chance, left):
    form = chance.choice(("least", "origin", "size") if left < 3 else ("least", "origin", "size", "all", "any", "not"))
    if form == "not":
        return {form: some_rule(chance, left - 1)}
    if form in ("all", "any"):
        count = chance.randint(1, 3)
        return {form: [some_rule(chance, left // count - 1) for _ in range(count)]}
    return {form: chance.choice({"least": (1, 1, 2, 3, 4), "origin": (ORIGIN, ORIGIN, "other"), "size": (0, 5, 9, 10)}[form])}


if __name__ == "__main__":
    if sys.argv[1:2] == ["check"]:
        sys.exit(min(request_table.count_differing(sys.argv[2], "gate", itertools.chain(by_chance(), policies_by_chance()), lines), 1))
    request_table.write("gate", GROUPS, reply, examples(), lines)
