"""Manifests of as many bundles as there may be, each of which is refused at one link, where `explain gate` has much to show of each or much
to look for: each a function from a count to the bytes."""
import long_keys
import manifests
import shapes
from chains import note_line, payload_of
from gate_policies import named
from manifests import with_ref
from roots import log_of, with_anchors
from shapes import numbered

import fixture
from fixture import compact, name

LOGS = 256  # of a trusted root, as many as are shown
RULES = 32  # of a policy, likewise
SIGNATURES = 16  # of a note, as many as are looked for
ENDED = {"end": "2023-01-02T00:00:00Z"}


# The logs of the trusted root, each with the SHA-256 of its key.

def logs(key_size, id_size, **valid_for):
    """Logs whose keys and ids have this many bytes each."""
    return [log_of(b"k" * key_size, bytes([place]) * id_size, **valid_for) for place in range(LOGS)]


# The logs by how many bytes the others have.
OF_LOGS = (
    ("long keys", lambda count, **valid_for: logs(count, 32, **valid_for)),
    ("long keys, ids of 3,000 bytes", lambda count, **valid_for: logs(count, 3000, **valid_for)),
    ("long ids", lambda count, **valid_for: logs(32, count, **valid_for)),
)


def of_ended_logs(made_logs):
    """No key of a Certificate Transparency log is in its range."""
    def make(count):
        made = fixture.Request()
        return manifests.of_bundles(made, {**made.trusted_root(), "ctlogs": made_logs(count, **ENDED)})
    return make


def of_certificate_logs(made_logs):
    """No SCT is accepted."""
    def make(count):
        made = fixture.Request()
        root = made.trusted_root()
        rows = [row for place, row in enumerate(made.accepted()) if place != 1]
        return manifests.of_bundles(made, {**root, "ctlogs": made_logs(count)[1:] + root["ctlogs"]}, rows)
    return make


def of_other_logs(made_logs):
    """No log of the trusted root is that of the log entry."""
    def make(count):
        made = fixture.Request()
        return manifests.of_bundles(made, {**made.trusted_root(), "tlogs": made_logs(count)})
    return make


# Accepted signatures, among which those are looked for that were asked about.

class Noted(fixture.Request):
    """A request whose note has many signatures."""

    def bundle(self):
        made = super().bundle()
        lines = [note_line(signature) for signature in numbered(b"seal", SIGNATURES)]
        made["verificationMaterial"]["tlogEntries"][0]["inclusionProof"]["checkpoint"]["envelope"] = self.noted + "\n" + "\n".join(lines)
        return made


def short_rows(count, size):
    """Rows whose signatures have this many bytes and begin alike."""
    row = {"operation": "point", "key": "", "message": ""}
    return [{**row, "signature": shapes.coded(each)} for each in numbered(b"sig-"[: size - 4], count)]


def beside_short_rows(place, size, made=fixture.Request):
    """The accepted signature at a place is left out, and there are many others, whose signatures are of its size."""
    def make(count):
        request = made()
        rows = [row for at, row in enumerate(request.accepted()) if at != place]
        return manifests.of_bundles(request, rows=rows + short_rows(count, size))
    return make


def beside_equal_rows(place, made=fixture.Request):
    """The same, and the others agree with the one in key and message too, in all bytes except the last."""
    def make(count):
        request = made()
        accepted = request.accepted()
        asked = accepted.pop(place)
        others = [{**asked, "key": asked["key"][:-4] + "AAAA", "message": asked["message"][:-4] + "AAAA", "signature": shapes.coded(each)}
                  for each in numbered(b"sig-", count)]
        return manifests.of_bundles(request, rows=accepted + others)
    return make


# The rules of the policy, and what each certificate says to them.

def of_long_texts(count):
    """As many rules as are shown ask for a text of this many characters, each of which is escaped, and each certificate has another one."""
    return manifests.of_bundles(with_ref(b"\1" * count, policy={"all": [{"ref": "\1" * (count - 1) + "\2"}] * RULES}))


def of_many_names(count):
    """As many rules as are shown ask for an identity, and each certificate has many names, of a character that is escaped."""
    return manifests.of_bundles(named(["\1"] * count, policy={"all": [{"identity": "\2", "issuer": "i"}] * RULES}))


# Trust anchors, statements and log entries.

def under_anchors(make_names):
    """No trust anchor signed the certificates."""
    def make(count):
        made = fixture.Request()
        root = with_anchors(made, (fixture.anchor(subject=each) for each in make_names(count)))
        return manifests.of_bundles(made, root, made.accepted()[1:])
    return make


def of_the_name(count):
    return [name("fixture root")] * count


def of_other_names(count):
    return [name("fixture roo%c" % (97 + place % 19)) for place in range(count)]


def other_subjects(count):
    """Statements of many digests, none of which is the artifact's."""
    subjects = [fixture.subject("", sha256="%064x" % place) for place in range(count)]
    payload = fixture.statement(first="b" * 64).replace(b'"subject":[', b'"subject":' + compact(subjects).encode()[:-1] + b",")
    return manifests.of_bundles(fixture.Request(payload=payload.replace(fixture.DIGEST.encode(), b"d" * 64)))


def other_bodies(count):
    """Log entries about other statements than the bundles', which are long."""
    made = fixture.Request(payload=payload_of(count + 1000))
    made = fixture.Request(payload=made.payload, body=fixture.body_of(b"another", made.signature, made.leaf_der))
    return manifests.of_bundles(made)


# The link at which the bundles are refused, beside what, and how the manifest is made.
REFUSALS = (
    *((link, f"{title} of {what}", make(made_logs)) for what, made_logs in OF_LOGS for link, title, make in (
        ("ctfe", "256 ended logs", of_ended_logs), ("sct", "256 logs", of_certificate_logs), ("log-key", "256 other logs", of_other_logs))),
    ("signature", "accepted signatures of as many bytes", beside_short_rows(2, 8)),
    ("promise", "accepted signatures of as many bytes", beside_short_rows(3, 7)),
    ("note-key", "accepted signatures of as many bytes as its 16", beside_short_rows(4, 8, Noted)),
    ("signature", "accepted signatures, keys and messages of as many bytes", beside_equal_rows(2)),
    ("note-key", "accepted signatures, keys and messages of as many bytes", beside_equal_rows(4, Noted)),
    ("promise", "a log of a long key", long_keys.of_log([3, 4])),
    ("note-key", "a log of a long key", long_keys.of_log([4])),
    ("policy", f"{RULES} rules of a long text", of_long_texts),
    ("policy", f"{RULES} rules, certificates of many names", of_many_names),
    ("issuer", "trust anchors of the issuer's name", under_anchors(of_the_name)),
    ("issuer", "trust anchors of other names", under_anchors(of_other_names)),
    ("subject", "statements of other digests", other_subjects),
    ("body", "log entries of other, long statements", other_bodies),
)
