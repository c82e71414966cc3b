"""What is shown for the link `request`: what is wrong with a text that has to be a request. Written from docs/REQUESTS.md and docs/LINKS.md.

The tables of `log`, `verify`, `consistency` and `audit` are those of request_fault.py. Those of `witness` and `gate` are made here from the same parts;
what else is wrong with a state, with an origin and with a name of a manifest comes after the table."""
import gate_manifests as manifests
import log_requests as log
import request_fault as requests
import witness_cases as kept
import witness_requests as witnesses
from document_fault import BESIDE, document_fault, record, required
from explain_evidence import fault
from request_fault import ACCEPTED, BYTES, DIGEST, HASHES, I64, POLICY, SCHEME, TEXT, U64, list_of, nothing, sized, there

MOST = 2 ** 24


def refusal(cause, **members):
    return {"link": "request", "cause": cause, **members}


def of_fault(found):
    """The object of what a table says of a text: a cause, or a member that breaks its row."""
    why, _, path = found.partition(" ")
    return refusal(["Member"], **fault(found)) if path else refusal([why])


def too_long(text):
    return len(text.encode()) > MOST


# ---- witness

UPDATE = record(required("checkpoint", TEXT), required("oldSize", U64), HASHES)
ORIGIN = record(required("origin", TEXT), required("scheme", SCHEME), required("key", BYTES))
WITNESS = record(("state", TEXT), ("origins", list_of(ORIGIN)), ("updates", sized(0, witnesses.MOST_UPDATES, UPDATE)), ACCEPTED)


def witness_refusal(text):
    """What is wrong with the table, else with the state, else with the first origin that cannot be added."""
    found = "TooLong" if too_long(text) else document_fault(WITNESS, text)
    if found != "ok":
        return of_fault(found)
    read = witnesses.read_request(text)
    state, witness = kept.read(read["state"])
    if state:
        return refusal(["State", state])
    for place, each in enumerate(read["origins"]):
        if kept.add(witness, each) != "added":
            return refusal(["Origin"], index=str(place))
    return None


# ---- gate

def map_of(kind):
    """An object of members of any names, in the byte order of these, each of which has to be there."""
    def fault_of(value):
        names = sorted(value, key=str.encode) if isinstance(value, dict) else []
        return record(*(required(name, kind) for name in names))(value)
    return fault_of


def beyond(reader):
    """A value of which earlier rows have the kind, and which has to be in a range too."""
    return requests.read_by(reader, lambda value: True)


def no_form(value):
    """A value that does not have exactly one of the members of a rule."""
    return record((BESIDE, list(manifests.RULES)), required("least", nothing))(value)


def nested(levels):
    """A rule in which rules nest to at most this many levels."""
    def fault_of(value):
        given = [name for name in manifests.RULES if there(value, name)]
        if levels == 0:
            return "BeyondRange", ""
        if len(given) != 1:
            return no_form(value)
        some = sized(1, MOST, nested(levels - 1))
        kinds = {"least": requests.integer(1, manifests.MOST_LEAST + 1), "origin": TEXT, "size": U64, "all": some, "any": some}
        return record(required(given[0], kinds.get(given[0]) or nested(levels - 1)))(value)
    return fault_of


def within(artifacts):
    """As many artifacts as a manifest may have, with as many bundles."""
    count = sum(len(each.get("bundles") or []) for each in artifacts)
    return 1 <= len(artifacts) <= manifests.MOST_ARTIFACTS and count <= manifests.MOST_BUNDLES or log.refuse()


ARTIFACT = record(required("name", requests.read_by(manifests.name_of)), required("digest", DIGEST), required("root", TEXT), required("policy", TEXT),
                  ("bundles", list_of(TEXT)), required("rule", nested(64)), required("rule", beyond(manifests.small_rule_of)))
GATE = record(required("now", I64), required("roots", map_of(TEXT)), required("policies", map_of(POLICY)), ACCEPTED,
              required("artifacts", list_of(ARTIFACT)), required("artifacts", beyond(within)))


def gate_refusal(text):
    """What is wrong with the table, else with the first name of a trusted root or of a policy that is not there."""
    found = "TooLong" if too_long(text) else document_fault(GATE, text)
    if found != "ok":
        return of_fault(found)
    try:
        manifests.read_manifest(text)
    except manifests.Refused as refused:
        assert str(refused).startswith("Unknown"), f"the table does not refuse what the reader does: {refused}"
        unknown, _, place = str(refused).removesuffix(")").partition("(")
        return of_fault(f"BeyondRange artifacts[{place}].{unknown.removeprefix('Unknown').lower()}")
    return None


# ---- all commands

def request_refusal(command, text):
    """The object of the link `request`; none if the text is a request."""
    if command == "witness":
        return witness_refusal(text)
    if command == "gate":
        return gate_refusal(text)
    found = requests.request_fault(command, text)
    return None if found == "ok" else of_fault(found)


def long_texts(command):
    """A text about the limit, and one that is longer, of spaces."""
    return [" " * size for size in (MOST, MOST + 1)] if command == "log" else []
