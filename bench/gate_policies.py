"""Manifests of `gate` whose policy has many rules, each with the report: a function from a count to the bytes."""
import manifests
from manifests import report, with_ref

import fixture
from fixture import FULCIO, SUBJECT_ALTERNATIVE_NAME, URI, der, extension, leaf

SEQUENCE = 0x30
RULES_TO_NAMES = 200  # the rules of a policy that asks for identities, to the names of each certificate


def any_of_none(count):
    """Rules of which none holds: each asks for a text of one letter, and the certificate has another."""
    return manifests.of_bundles(with_ref(b"x", policy={"any": [{"ref": "y"}] * count}))


def all_of_one(count):
    """Equal rules that hold."""
    return manifests.of_bundles(with_ref(b"x", policy={"all": [{"ref": "x"}] * count}))


def any_of_a_length(count):
    """Rules whose texts are as long as the certificate's, and agree with it in all bytes except the last."""
    return manifests.of_bundles(with_ref(b"x" * 64, policy={"any": [{"ref": "x" * 63 + "y"}] * count}))


def named(names, **changes):
    """A request whose certificate has these names, from the issuer `i`."""
    listed = der(SEQUENCE, *[der(URI, name.encode()) for name in names])
    held = fixture.leaf_extensions(names=extension(SUBJECT_ALTERNATIVE_NAME, listed, critical=True), issued=extension(FULCIO["issuer"], b"i"))
    return fixture.Request(leaf=leaf(held), **changes)


def any_identity(count):
    """Identities between the names that each certificate has."""
    rules = [{"identity": "%06x" % (2 * place + 1), "issuer": "i"} for place in range(count)]
    names = ["%06x" % (2 * RULES_TO_NAMES * place) for place in range(1 + count // RULES_TO_NAMES)]
    return manifests.of_bundles(named(names, policy={"any": rules}))


def all_identities(count):
    """The same identity again and again, the last of the certificate's names."""
    names = ["%06x" % place for place in range(1 + count // RULES_TO_NAMES)]
    return manifests.of_bundles(named(names, policy={"all": [{"identity": names[-1], "issuer": "i"}] * count}))


REFUSED = report("refused policy")
VERIFIED = report("verified 2 5")

# What the manifest is, how it is made, and what `gate` writes of it.
MANIFESTS = (
    ("any of many rules, none holds", any_of_none, REFUSED),
    ("all of many equal rules", all_of_one, VERIFIED),
    ("any of many rules of 64 letters, none holds", any_of_a_length, REFUSED),
    ("any of many identities, certificates of many names", any_identity, REFUSED),
    ("all of equal identities, certificates of many names", all_identities, VERIFIED),
)
