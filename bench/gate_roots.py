"""Manifests of `gate` and `questions gate` under large trusted roots, each with the reply: a function from a count to the bytes."""
import json

import long_keys
import manifests
from manifests import MOST_ARTIFACTS, artifact, manifest, report
from roots import keys, log_of, with_anchors
from shapes import numbered

import fixture
import questions_cases
from fixture import certificate, compact, leaf, name
from x509_paths import inter

ROOT = "fixture root"
OF_NAME = 240  # trust anchors of the issuer's name, where it is to be asked about each of them for each bundle


GATES = (
    ("bundles with SCTs, a trust anchor of a long key", long_keys.of_anchor, report("verified 2 5")),
    ("bundles of a log of a long key", long_keys.of_log(), report("verified 2 5")),
)


# Roots of `questions gate`.

def log_keys(count):
    made = fixture.Request()
    root = made.trusted_root()
    return manifests.of_bundles(made, {**root, "tlogs": [log_of(fixture.key(9), each) for each in numbered(b"\x44" * 28, count)] + root["tlogs"]})


def empty_logs(count):
    made = fixture.Request()
    root = made.trusted_root()
    return manifests.of_bundles(made, {**root, "tlogs": [{}] * count + root["tlogs"]})


def over_sixteen(issuer):
    """A request whose bundle has 16 further certificates: each has this issuer, and may have issued the bundle's own."""
    signers = [inter("a", issuer, under) for under in range(100, 116)]
    made = fixture.ChainRequest([signers[-1]], [certificate(each) for each in signers], leaf=leaf(issuer=name("a")))
    made.anchor = fixture.anchor(subject=name(issuer), issuer=name(issuer))
    return made


def other_names(issuer, count):
    """Trust anchors of other names, each as long as the issuer's, from which it differs in its last bytes."""
    return [fixture.anchor(subject=name(issuer[:-8] + "%08d" % place)) for place in range(count)]


def anchors_of(issuer):
    """As many trust anchors of other names than this issuer's, under bundles of 16 further certificates."""
    def make(count):
        made = over_sixteen(issuer)
        return manifests.of_bundles(made, with_anchors(made, other_names(issuer, count)))
    return make


def anchors_of_one_name(count):
    """Trust anchors of the issuer's name, more than the signatures of all bundles have room for."""
    made = fixture.Request()
    return manifests.of_bundles(made, with_anchors(made, (fixture.anchor(key=key) for key in keys(count + 1000))))


def anchors_asked(count):
    """As many trust anchors of the issuer's name as the signatures of all bundles have room for, and others."""
    made = fixture.Request()
    others = [fixture.anchor(subject=name("fixture r%03x" % (place % 4096))) for place in range(count)]
    return manifests.of_bundles(made, with_anchors(made, [*(fixture.anchor(key=key) for key in keys(OF_NAME)), *others]))


def by_turns(count):
    """Artifacts of two trusted roots by turns."""
    made = fixture.Request()
    root = compact({**made.trusted_root(), "tlogs": [{}] * (count // 2) + made.trusted_root()["tlogs"]})
    roots = {"root": root, "other": root}
    each = artifact(made, 0)
    artifacts = [{**each, "name": f"artifact-{place}", "root": ("root", "other")[place % 2]} for place in range(MOST_ARTIFACTS)]
    return manifest(made, artifacts, made.accepted(), roots=roots)


LONG_NAME = "fixture root" + "n" * 238

# What the manifest is, how it is made, and whether the signatures have room.
QUESTIONS = (
    ("256 bundles under one root: log keys", log_keys, True),
    ("empty logs", empty_logs, True),
    ("trust anchors of other names, 16 further certificates", anchors_of("fixture root nnnnnnnn"), True),
    ("trust anchors of other long names, 16 further certificates", anchors_of(LONG_NAME), True),
    ("trust anchors of the issuer's name", anchors_of_one_name, False),
    ("trust anchors of the issuer's name and of others", anchors_asked, True),
    ("two roots by turns", by_turns, True),
)


def listed(make):
    """The list that `questions gate` writes of such manifests, by a second reader, over one bundle under few trust anchors."""
    members = json.loads(make(2))
    text, _ = questions_cases.gate_reply(compact({**members, "artifacts": members["artifacts"][:1]}))
    return text
