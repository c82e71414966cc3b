"""Manifests of `gate` by the request of `verify` from which their bundles are, and what is written about them."""
import sys

import measure

sys.path.append(str(measure.TOP / "tools"))
import fixture
from fixture import FULCIO, compact, extension, leaf

MOST_ARTIFACTS = 256  # of a manifest, and as many bundles


def artifact(made, place, **changes):
    """An artifact of this request's digest and bundle, which one log body is enough for."""
    bundles = [compact(made.bundle(), canonical=True)]
    named = {"name": f"artifact-{place}", "digest": made.digest, "root": "root", "policy": "policy"}
    return {**named, "bundles": bundles, "rule": {"least": 1}, **changes}


def manifest(made, artifacts, rows, **changes):
    """A manifest whose trusted root and policy are this request's."""
    members = {"now": made.now, "roots": {"root": compact(made.trusted_root())}, "policies": {"policy": made.policy},
               "accepted": rows, "artifacts": artifacts, **changes}
    return compact(members).encode()


def of_bundles(made, root=None, rows=None, **changes):
    """A manifest of as many artifacts as there may be, each with this request's bundle, under this trusted root or the request's."""
    roots = {"root": compact(made.trusted_root() if root is None else root)}
    artifacts = [artifact(made, 0)] * MOST_ARTIFACTS
    named = [{**each, "name": f"artifact-{place}"} for place, each in enumerate(artifacts)]
    return manifest(made, named, made.accepted() if rows is None else rows, **{"roots": roots, **changes})


def report(said, count=MOST_ARTIFACTS):
    """What is written about this many artifacts, for whose one bundle this is said."""
    is_verified = said.startswith("verified")
    decided = "admit" if is_verified else "deny none"
    each = "".join(f"artifact artifact-{place} {decided}\nbundle 0 {said}\n" for place in range(count))
    return each + f"admitted {count if is_verified else 0} of {count}\n"


def with_ref(text, **changes):
    """A request whose certificate has this text as the Git reference of its workflow."""
    return fixture.Request(leaf=leaf(fixture.leaf_extensions(others=extension(FULCIO["ref"], text))), **changes)
