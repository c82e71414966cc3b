"""Requests of `verify` with many of one kind: each a function from a count to the bytes. Only the list grows:
the rest is the fixture of tools/fixture.py, of which each link holds unless the table says another reply."""
import random

import long_keys
import shapes
from roots import (anchors_and_rows, anchors_by_name, anchors_of_one_key, anchors_of_other_keys, anchors_over_intermediates, authorities,
                   certificate_log_keys, log_keys, log_keys_of_one_id, usual_log_keys, with_anchors)
from shapes import coded, numbered
from signed import Signed, unknown, written

import fixture
from fixture import SEQUENCE, compact, der, extension

MOST_SUBJECTS, MOST_DIGESTS = 1024, 32  # of a statement


def payload_of(size):
    """A payload of nearly this many bytes: its predicate is one text."""
    return fixture.statement().replace(b'"predicate":{}', b'"predicate":{"a":"' + b"p" * (size - 500) + b'"}')


def small(size):
    return written(fixture.Request(payload=payload_of(size)))


def predicate(count):
    return written(fixture.Request(payload=payload_of(500 + 3 * count)))


# The leaf and the policy


def leaf_of_extensions(count):
    """The leaf's extensions after this many others, whose object identifiers come in no order."""
    order = random.Random(count).sample(range(count), count)
    others = b"".join(extension(unknown(place), b"v") for place in order)
    return {"before": others, **fixture.leaf_extensions()}


def names_of(count):
    """This many identities that share a prefix, in no order."""
    return [fixture.WORKFLOW + place.hex() for place in numbered(b"", count)]


def leaf_of_names(names):
    """The leaf's extensions, where the alternative names are these."""
    listed = der(SEQUENCE, *(der(fixture.URI, name.encode()) for name in names))
    return fixture.leaf_extensions(names=extension(fixture.SUBJECT_ALTERNATIVE_NAME, listed, critical=True))


def anchors_beside_extensions(count):
    """As many trust anchors of the issuer's name, of one other key, as the leaf has extensions more."""
    made = Signed(leaf_of_extensions(count))
    return written(made, with_anchors(made, [fixture.anchor(key=fixture.key(9))] * count))


def leaf_extensions(count):
    return written(Signed(leaf_of_extensions(count)))


def leaf_names(count):
    return written(Signed(leaf_of_names(names_of(count) + [fixture.WORKFLOW])))


def asked_for(name):
    return {"identity": name, "issuer": fixture.ISSUER}


def all_names(count):
    """All of the identities that the leaf has are asked for."""
    names = names_of(count)
    return written(Signed(leaf_of_names(names), policy={"all": [asked_for(name) for name in reversed(names)]}))


def any_name(count):
    """Identities of which the leaf has only the last that is asked for."""
    asked = [asked_for(name + "x") for name in names_of(count)] + [asked_for(fixture.WORKFLOW)]
    return written(Signed(leaf_of_names(names_of(count) + [fixture.WORKFLOW]), policy={"any": asked}))


def no_name(count):
    """Identities of which the leaf has none."""
    asked = [asked_for(name + "x") for name in names_of(count)]
    return written(Signed(leaf_of_names(names_of(count)), policy={"any": asked}))


def rules_over_extensions(count):
    """As many rules as extensions before the one that they ask for."""
    return written(Signed(leaf_of_extensions(count), policy={"all": [{"issuer": fixture.ISSUER}] * count}))


def any_rule_of_a_long_text(count):
    """Rules of which none holds, over an extension of ten bytes for each rule."""
    held = fixture.leaf_extensions(issued=extension(fixture.FULCIO["issuer"], b"i" * (10 * count)))
    return written(Signed(held, policy={"any": [{"issuer": "i" * 10}] * count}))


def all_rules_of_a_long_text(count):
    """Rules that all have to hold, and of which none does, over an extension of ten bytes for each rule."""
    held = fixture.leaf_extensions(issued=extension(fixture.FULCIO["issuer"], b"i" * (10 * count)))
    return written(Signed(held, policy={"all": [{"issuer": ""}] * count}))


def all_other_names(count):
    """Identities that are each asked for, and of which the leaf has none."""
    asked = [asked_for(name + "x") for name in names_of(count)]
    return written(Signed(leaf_of_names(names_of(count)), policy={"all": asked}))


# The statement


def digests(count):
    """This many digests of a subject, of which two can be compared, and neither is the artifact's."""
    others = {f"other{place}": "a5" * 32 for place in range(count - 2)}
    return {"sha256": "c" * 64, "sha512": "c" * 128, **others}


def statement(subjects, each):
    """A statement of this many subjects of this many digests, of which the last has the artifact's."""
    listed = [fixture.subject(str(place), **digests(each)) for place in range(subjects)]
    listed[-1]["digest"]["sha256"] = fixture.DIGEST
    members = {"_type": "https://in-toto.io/Statement/v1", "subject": listed, "predicateType": "", "predicate": {}}
    return written(fixture.Request(payload=compact(members).encode()))


def subjects(count):
    return statement(count, MOST_DIGESTS)


def digests_of_a_subject(count):
    return statement(MOST_SUBJECTS, count)


# The log's entry and its note


def note_line(signature, name="fixture.log"):
    return f"\u2014 {name} {coded(bytes(4) + signature)}\n"


def with_note(made, signatures, rows):
    """The request whose note has these signatures before the genuine one, with these rows before its own."""
    bundle = made.bundle()
    lines = [note_line(signature) for signature in signatures] + [note_line(b"sig-note")]
    proof = bundle["verificationMaterial"]["tlogEntries"][0]["inclusionProof"]
    proof["checkpoint"]["envelope"] = made.noted + "\n" + "\n".join(lines)
    return written(made, bundle=bundle, rows=rows + made.accepted())


def note_signatures(count):
    """As many signatures of the note as rows under the log's key, none of them equal."""
    made = fixture.Request()
    last = made.accepted()[-1]
    rows = [{**last, "signature": coded(signature)} for signature in numbered(b"t" * 66, count)]
    return with_note(made, numbered(b"s" * 66, count), rows)


def note_of_many_lines(count):
    """Signatures that differ, over a note of as many lines."""
    made = fixture.Request()
    made.noted += "c\n" * count
    return with_note(made, numbered(b"s" * 66, count), [])


def note_signatures_of_a_long_key(count):
    """Signatures of the note by a key of a hundred bytes for each."""
    made = fixture.Request(log_key=long_keys.long_key(100 * count), log_scheme=long_keys.SCHEME)
    return with_note(made, numbered(b"s" * 66, count), [])


def rows_by_signature(count):
    """Rows that differ from the note's in the last bytes of the signature."""
    made = fixture.Request()
    last = made.accepted()[-1]
    rows = [{**last, "signature": coded(signature)} for signature in numbered(b"s" * 66, count)]
    return written(made, rows=rows + made.accepted())


def rows_by_message(count):
    """Rows that differ from the leaf's in the last bytes of the TBSCertificate."""
    made = fixture.Request()
    first, tbs = made.accepted()[0], fixture.tbs(made.leaf)
    rows = [{**first, "message": coded(message)} for message in numbered(tbs[:-4], count)]
    return written(made, rows=rows + made.accepted())


def hashes(count):
    made = fixture.Request()
    bundle = made.bundle()
    proof = bundle["verificationMaterial"]["tlogEntries"][0]["inclusionProof"]
    proof["hashes"] = [coded(b"\xa5" * 32)] * count
    return written(made, bundle=bundle)


def entries(count):
    made = fixture.Request()
    bundle = made.bundle()
    bundle["verificationMaterial"]["tlogEntries"] *= count
    return written(made, bundle=bundle)


def empty_signatures(count):
    """An envelope of signatures without a member."""
    made = fixture.Request()
    tree = made.bundle()
    return written(made, bundle={**tree, "dsseEnvelope": {**tree["dsseEnvelope"], "signatures": [{}] * count}})


def envelope_signatures(count):
    made = fixture.Request()
    bundle = made.bundle()
    bundle["dsseEnvelope"]["signatures"] *= count
    return written(made, bundle=bundle)


# Ignored members inside


def ignored(place, make_items):
    """Requests with a member that is ignored, of this many items, in an object inside: a tree is made of it."""
    def make(count):
        made = fixture.Request()
        root, bundle, rows = made.trusted_root(), made.bundle(), made.accepted()
        inside = {
            "trusted root": root["tlogs"][0],
            "log entry": bundle["verificationMaterial"]["tlogEntries"][0],
            "row": rows[0],
        }
        inside[place]["ignored"] = "@items"
        text, items = written(made, root, bundle, rows), make_items(count)
        if place == "row":
            return text.replace(b'"@items"', items)
        return text.replace(rb"\"@items\"", items.replace(b'"', rb"\""))
    return make


# Where an ignored member is of which a tree is made, and how deep it is.
PLACES = (("trusted root", 3), ("log entry", 4), ("row", 3))


# Records without members


def empty_records(member):
    """Requests whose trusted root has this many empty records in a list before its own."""
    def make(count):
        made = fixture.Request()
        root = made.trusted_root()
        return written(made, {**root, member: [{}] * count + root[member]})
    return make


# Floats that a later member replaces


def replaced(place, items):
    """Requests with ignored members at a place: these, of which the last is a float that is replaced."""
    def make(count):
        made = fixture.Request()
        root, bundle, rows = made.trusted_root(), made.bundle(), made.accepted()
        inside = {
            "trusted root": root,
            "trusted root's log": root["tlogs"][0],
            "bundle": bundle,
            "log entry": bundle["verificationMaterial"]["tlogEntries"][0],
            "row": rows[0],
        }
        if place == "request":
            text = written(made, root, bundle, rows, ignored="@items")
        else:
            inside[place]["ignored"] = "@items"
            text = written(made, root, bundle, rows)
        if place in ("request", "row"):
            return text.replace(b'"@items"', items(count))
        return text.replace(rb"\"@items\"", items(count).replace(b'"', rb"\""))
    return make


def object_before(count):
    """An object of this many members in no order, and after it the float."""
    return shapes.members("")(count) + b',"y":1.5,"y":1'


def object_around(count):
    """An object of this many members in no order, and in it the float."""
    return shapes.members("")(count)[:-1] + b',"y":1.5,"y":1}'


def floats(count):
    """This many members that hold a float each, and as many that replace them."""
    names = [place.hex() for place in numbered(b"", count // 2)]
    return b"0," + b",".join(b'"%s":%s' % (name.encode(), value) for value in (b"1.5", b"1") for name in names)


REPLACED = tuple(
    (f"a float that is replaced, {name}, in the {place}", replaced(place, items))
    for place in ("request", "row", "trusted root", "trusted root's log", "bundle", "log entry")
    for name, items in (("after an object", object_before), ("within an object", object_around), ("many", floats))
)


# The requests by their reply; each is made at half of the largest size, and at the whole.
REQUESTS = {
    "verified 2 5": (
        ("one payload", predicate),
        ("trust anchors, a row each", anchors_and_rows),
        ("trust anchors of one key, a long leaf", anchors_of_one_key),
        ("trust anchors of other keys, a long signature", anchors_of_other_keys),
        ("trust anchors of long names", anchors_by_name),
        ("trust anchors over 16 intermediates", anchors_over_intermediates),
        ("trust anchors, extensions of the leaf", anchors_beside_extensions),
        ("authorities", authorities),
        ("log keys, ids of a long prefix", log_keys),
        ("log keys of one id", log_keys_of_one_id),
        ("Certificate Transparency log keys", certificate_log_keys),
        ("extensions of the leaf", leaf_extensions),
        ("alternative names of the leaf", leaf_names),
        ("policy, all of the leaf's names", all_names),
        ("policy, any name, the last", any_name),
        ("policy rules, extensions", rules_over_extensions),
        ("signatures of the note, rows", note_signatures),
        ("signatures of the note, its lines", note_of_many_lines),
        ("signatures of the note, a long key", note_signatures_of_a_long_key),
        ("rows by signature", rows_by_signature),
        ("rows by message", rows_by_message),
        *(
            (f"ignored in a {place}: {name}", ignored(place, shapes.repeated(item)))
            for place, above in PLACES
            for name, item in shapes.worst(above)
        ),
        *(
            (f"ignored in a {place}: {name}", ignored(place, make))
            for place, _ in PLACES
            for name, make in shapes.UNORDERED
        ),
        *((f"empty {member}", empty_records(member)) for member in ("tlogs", "ctlogs", "certificateAuthorities")),
        *REPLACED,
    ),
    "refused policy": (
        ("policy, any name, none", no_name),
        ("policy, any rule, a long text", any_rule_of_a_long_text),
        ("policy, all rules of a long text, none holds", all_rules_of_a_long_text),
        ("policy, all identities, none holds", all_other_names),
    ),
    "refused envelope": (("signatures of the envelope", envelope_signatures), ("empty signatures", empty_signatures)),
    "refused entry": (("log entries", entries),),
    "refused inclusion": (("hashes of the proof", hashes),),
}

# Lists by their number of items, which a rule or a usual size limits: this many, and half.
COUNTED = (
    ("20,000 log keys", usual_log_keys, 20000),
    (f"subjects of {MOST_DIGESTS} digests", subjects, MOST_SUBJECTS),
    (f"digests of {MOST_SUBJECTS} subjects", digests_of_a_subject, MOST_DIGESTS),
)

# Requests of `questions verify`. Its status is 2 where request and list would have more than 2^24 bytes, and else 0.
QUESTIONS = (
    ("one payload", predicate),
    ("trust anchors of long names", anchors_by_name),
    ("trust anchors over 16 intermediates", anchors_over_intermediates),
    ("log keys of one id", log_keys_of_one_id),
    ("extensions of the leaf", leaf_extensions),
    ("signatures of the note, rows", note_signatures),
    ("rows by signature", rows_by_signature),
    *((f"ignored in a log entry: {name}", ignored("log entry", make)) for name, make in shapes.UNORDERED),
    ("empty tlogs", empty_records("tlogs")),
    *REPLACED,
    ("trust anchors, extensions of the leaf", anchors_beside_extensions),
    ("signatures of the note, its lines", note_of_many_lines),
)
