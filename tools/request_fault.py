"""What is wrong with a text that has to be a request of `log`, `verify`, `consistency` or `audit`: that it is too long, is not JSON, has a float, or
the first member that breaks the table of the command, in the order of docs/REQUESTS.md.

The tables are made from those of document_fault.py; values are read by the readers of log_requests.py and verify_links.py. `is_request` asks the whole
readers, which say nothing about members.
"""
import audit_requests
import bundle_reader
import consistency_requests
import log_requests as log
import verify_links
from document_fault import BESIDE, document_fault, is_integer, list_of, record, required, single

MOST = 2 ** 24
WORKFLOW = ["trigger", "sha", "name", "repository", "ref"]


def read_by(reader, is_of_kind=lambda value: False):
    def read(value):
        try:
            reader(value)
        except log.NoRequest:
            raise bundle_reader.Refused("Member")
    return single(read, is_of_kind)


def integer(low, end):
    return read_by(log.integer(low, end), is_integer)


def sized(least, most, element):
    """A list of this many elements: its length comes before what is in it."""
    def fault(value):
        if isinstance(value, list) and not least <= len(value) <= most:
            return "BeyondRange", ""
        return list_of(element)(value)
    return fault


def chosen(table):
    """A table that the value chooses."""
    return lambda value: table(value)(value)


def there(value, name):
    return isinstance(value, dict) and value.get(name) is not None


def nothing(value):
    return "NotAlone", ""


TEXT, BYTES, HASH, SCHEME, DIGEST = map(read_by, (log.text_of, log.bytes_of, log.hash_of, log.one_of(log.SCHEMES), verify_links.digest_of))
I64, U64 = integer(-2 ** 63, 2 ** 63), integer(0, 2 ** 64)
HASHES, ENTRIES = ("hashes", list_of(HASH)), ("entries", list_of(BYTES))

# ---- an accepted signature, whose operation says what its scheme is
OPERATIONS = {"message": required("scheme", SCHEME), "prehash": required("scheme", SCHEME), "certificate": required("scheme", BYTES),
              "point": ("scheme", nothing)}


def row(value):
    operation = value.get("operation") if isinstance(value, dict) else None
    scheme = [OPERATIONS[operation]] if isinstance(operation, str) and operation in OPERATIONS else []
    return record(required("operation", read_by(log.one_of(OPERATIONS))), *scheme, *(required(name, BYTES) for name in ("key", "message", "signature")))


ACCEPTED = ("accepted", list_of(chosen(row)))

# ---- a policy: a rule is about the workflow, or about the issuer
WORKFLOW_RULE = record(*((name, TEXT) for name in WORKFLOW), (BESIDE, WORKFLOW), ("identity", nothing), ("issuer", nothing))
ISSUER_RULE = record(("identity", TEXT), required("issuer", TEXT))
RULES = sized(1, MOST, chosen(lambda value: WORKFLOW_RULE if any(there(value, name) for name in WORKFLOW) else ISSUER_RULE))
ANY, ALL = record(("all", RULES), required("any", RULES), (BESIDE, ["all", "any"])), record(required("all", RULES))
POLICY = chosen(lambda value: ANY if there(value, "any") else ALL)

# ---- the requests
HEAD = [required("checkpoint", TEXT), required("scheme", SCHEME), required("key", BYTES)]
LOG = record(required("entry", BYTES), required("logIndex", I64), required("treeSize", U64), required("rootHash", HASH), HASHES, *HEAD, ACCEPTED, ENTRIES)
CONSISTENCY = record(required("oldSize", U64), required("oldRoot", HASH), required("treeSize", U64), required("rootHash", HASH), HASHES, *HEAD, ACCEPTED,
                     ENTRIES)
VERIFY = record(required("trustedRoot", TEXT), required("bundle", TEXT), required("now", I64), required("digest", DIGEST), required("policy", POLICY),
                ACCEPTED, ENTRIES)


def audit(value):
    heads = value["heads"] if there(value, "heads") and isinstance(value["heads"], list) else []
    watch = record(required("head", integer(0, len(heads))), required("index", U64), HASHES, required("entry", BYTES))
    return record(required("heads", sized(1, 256, record(required("checkpoint", TEXT), HASHES))), ("watched", sized(0, 4096, watch)),
                  required("scheme", SCHEME), required("key", BYTES), ACCEPTED, ENTRIES)


TABLES = {"log": LOG, "verify": VERIFY, "consistency": CONSISTENCY, "audit": chosen(audit)}
READERS = {"log": log.read_request, "verify": lambda text: verify_links.read_request(text.encode()),
           "consistency": consistency_requests.read_request, "audit": audit_requests.read_request}


def request_fault(command, text):
    found = "TooLong" if len(text.encode()) > MOST else document_fault(TABLES[command], text)
    assert (found == "ok") == is_request(command, text), (command, text, found)
    return found


def is_request(command, text):
    """Whether the whole reader takes the text."""
    try:
        READERS[command](text)
    except log.NoRequest:
        return False
    return len(text.encode()) <= MOST
