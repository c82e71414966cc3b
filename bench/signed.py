"""The fixture of tools/fixture.py with parts in place of its own, as the text of a request of `verify`."""
import sys

import measure
import shapes

sys.path.append(str(measure.TOP / "tools"))
import fixture
from fixture import compact, extensions, leaf


class Signed(fixture.Request):
    """A request whose leaf has many extensions; its precertificate is made of the extensions by name."""

    def __init__(self, held, **changes):
        self.held = held
        super().__init__(leaf=leaf(held), **changes)

    def precertificate(self):
        others = [item for name, item in self.held.items() if name != "list"]
        return fixture.tbs({**self.leaf, "extensions": extensions(*others)})


def written(made, root=None, bundle=None, rows=None, **members):
    """The request's text, by a trusted root, a bundle, rows and members in place of those that were made."""
    members = {"now": made.now, "digest": made.digest, "policy": made.policy, **members}
    members["trustedRoot"] = compact(root or made.trusted_root())
    members["bundle"] = compact(bundle or made.bundle(), canonical=True)
    members["accepted"] = made.accepted() if rows is None else rows
    return compact(members).encode()


def example(_count=0):
    return written(fixture.Request())


def bundle():
    """The bundle of the example."""
    return compact(fixture.Request().bundle(), canonical=True).encode()


def unknown(place):
    """The contents octets of an object identifier that nothing here knows."""
    return b"\x2b\x06\x01\x05" + shapes.arc(2**14 + place)
