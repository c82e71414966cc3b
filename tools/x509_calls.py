"""The calls of x509_cases as lines of its table, and the fixture leaf with changes."""
import fixture
from case_table import Table
from fixture import extension, key, leaf_extensions, spelled


# The fixture leaf with changes.

KINDS = {
    "usage": (fixture.KEY_USAGE, True),
    "purposes": (fixture.EXTENDED_KEY_USAGE, False),
    "names": (fixture.SUBJECT_ALTERNATIVE_NAME, True),
    "second-names": (fixture.SUBJECT_ALTERNATIVE_NAME, False),
    "issued": (fixture.FULCIO["issuer"], False),
    "list": (fixture.SCT_LIST, False),
    "critical-list": (fixture.SCT_LIST, True),
    "constraints": (fixture.BASIC_CONSTRAINTS, True),
    "uncritical-constraints": (fixture.BASIC_CONSTRAINTS, False),
    "name-constraints": (fixture.NAME_CONSTRAINTS, False),
    "critical-name-constraints": (fixture.NAME_CONSTRAINTS, True),
    "policies": (fixture.oid("2.5.29.32"), False),
    "critical-policies": (fixture.oid("2.5.29.32"), True),
    "critical": (fixture.FULCIO["ref"], True),
    "uncritical": (fixture.FULCIO["ref"], False),
    "kept": (fixture.FULCIO["ref"], False),
    "near": (fixture.PRECERTIFICATE_SIGNING, False),
    "longer": (fixture.SCT_LIST + b"\x00", False),
    "shorter": (fixture.SCT_LIST[:-1], False),
    **{name: (fixture.FULCIO[name], False) for name in ["trigger", "sha", "name", "repository", "ref"]},
}


def kind_of(name):
    return KINDS[name] if name in KINDS else KINDS[name.removeprefix("second-")]


def held(changes):
    """The leaf's extensions with changes `NAME=DIGITS`: in the place of the one of this name, at the end for another name; `-` for none."""
    listed = leaf_extensions()
    for change in filter(None, changes.split(" ")):
        name, digits = change.split("=")
        whole = b"" if digits == "-" else extension(kind_of(name)[0], bytes.fromhex(digits), kind_of(name)[1])
        if name in ["usage", "purposes", "names", "issued", "list"]:
            listed[name] = whole
        else:
            listed["others"] += whole
    return listed


def with_part(parts, change):
    """The parts with a change `NAME=DIGITS` of a whole element, or as they are."""
    if change:
        name, digits = change.split("=")
        parts = {**parts, name: bytes.fromhex(digits)}
    return parts


def leaf_with(part="", changes=""):
    return with_part(fixture.leaf(held(changes)), part)


# Lines.

def written(content):
    """Bytes as the program writes them."""
    return content.hex() or "-"


def listed(items):
    return ",".join(spelled(item) if item else "" for item in items) if items else "-"


def answer(*values):
    return " ".join(["ok", *map(str, values)])


TABLE = Table("x509_cases")
group = TABLE.group


def case(cause, call, expected):
    TABLE.note(cause)
    TABLE.case(call, expected)


# The fixture's trust anchor, and lines of pools.

def genuine_leaf(parts, under=None):
    """The row that accepts the leaf's signature under the anchor's key."""
    under = key(1) if under is None else under
    return ["certificate", *map(spelled, [parts["algorithm"], under, fixture.tbs(parts), b"sig-leaf"])]


def pool_line(time, parts, anchors, accepts, intermediates=()):
    return " ".join(["verify_der_cert", str(time), spelled(fixture.certificate(parts)), listed(anchors), listed(intermediates), *accepts])


ROOT = fixture.certificate(fixture.anchor())
