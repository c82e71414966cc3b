"""Requests of `explain`, and their table: those of the commands' own tables, at the largest size, and those whose explanations cost most."""
import itertools
import json

import chains
import gate_policies
import gate_roots
import gates
import manifests
import measure
import notes
import shapes
import witnesses
from asked import largest
from gate_refusals import REFUSALS
from goals import MOST_MEGABYTES, MOST_SECONDS
from measure import megabytes
from shapes import EXAMPLE, numbered, signature_line
from signed import written

import fixture
from fixture import compact, der, extension, leaf

UTF8_STRING, SET, SEQUENCE, COMMON_NAME = 0x0C, 0x31, 0x30, bytes.fromhex("0603550403")


# What is wrong with a request is looked for member by member, up to the last.

def last_row(count):
    """This many accepted signatures, the last of which has no scheme."""
    rows = [shapes.row(signature=signature) for signature in numbered(b"s" * 66, count)]
    return shapes.request(accepted=[*rows, {**rows[0], "scheme": None}])


def last_hash(count):
    return shapes.request(hashes=["a5" * 32] * count + ["a5"])


def last_entry(count):
    return shapes.request(entries=["AA=="] * count + ["A"])


def last_float(count):
    return shapes.request(hashes=["a5" * 32] * count, ignored=0.5)


def last_rule(count):
    """This many rules of a policy, the last of which is not one."""
    return written_policy([{"ref": "x"}] * count + [{}])


def written_policy(rules):
    made = fixture.Request()
    return compact({**made.request(), "policy": {"all": rules}}).encode()


def last_log(count):
    """A trusted root of this many logs without members, and one that is not a record."""
    made = fixture.Request()
    root = made.trusted_root()
    return written(made, {**root, "ctlogs": [*root["ctlogs"], *[{}] * count, 1]})


def last_log_entry(count):
    """A bundle of this many log entries without members, and one that is not a record."""
    made = fixture.Request()
    bundle = made.bundle()
    bundle["verificationMaterial"]["tlogEntries"] += [{}] * count + [1]
    return written(made, bundle=bundle)


# What a link compares is long.

def unsigned(made, *places):
    """A request without these accepted signatures."""
    rows = [row for place, row in enumerate(made.accepted()) if place not in places]
    return written(made, rows=rows)


def name(*parts):
    return der(SEQUENCE, *parts)


def issuer_of_parts(count):
    """The name of the issuer has this many parts, more than are shown as a text."""
    part = der(SET, der(SEQUENCE, COMMON_NAME, der(UTF8_STRING, b"a")))
    return unsigned(fixture.Request(leaf=leaf(issuer=name(part * count))), 0)


def issuer_of_a_long_part(count):
    """The name of the issuer has one part, of which each character is escaped."""
    part = der(SET, der(SEQUENCE, COMMON_NAME, der(UTF8_STRING, b"+" * count)))
    return unsigned(fixture.Request(leaf=leaf(issuer=name(part))), 0)


def unsigned_payload(count):
    return unsigned(fixture.Request(payload=chains.payload_of(count + 1000)), 2)


def unsigned_extensions(count):
    return unsigned(fixture.Request(leaf=leaf(fixture.leaf_extensions(others=extension(fixture.FULCIO["ref"], b"v" * count)))), 0)


def rules_of_names(count):
    """As many rules as are shown, of each of which the refusal has all names of the leaf."""
    names = der(SEQUENCE, *[der(fixture.URI, place.hex().encode()) for place in numbered(b"", count)])
    held = fixture.leaf_extensions(names=extension(fixture.SUBJECT_ALTERNATIVE_NAME, names, critical=True))
    rule = {"identity": "x", "issuer": fixture.ISSUER}
    return written(fixture.Request(leaf=leaf(held), policy={"all": [rule] * 32}))


def mismatched(count):
    """A statement of many digests in 1,024 subjects, none of which is the artifact's."""
    made = fixture.Request(payload=shapes.many_subjects() + b" " * count)
    return written(made)


def long_note(count):
    """The note of a log of a long origin, which is not the proof's tree."""
    note = "o" * count + "\n2\n" + EXAMPLE["checkpoint"].split("\n")[2] + "\n"
    return shapes.request(checkpoint=note + "\n" + signature_line(b"sig"), accepted=[shapes.row(note.encode())])


# Many refusals beside many accepted signatures.

def unsigned_updates(count):
    """As many updates as there may be of one log, none of which the log signed, beside this many accepted signatures."""
    rows = [shapes.row(signature=signature) for signature in numbered(b"s" * 66, count)]
    lines = "\n".join(signature_line(b"t%d" % place) for place in range(16))
    update = {"checkpoint": shapes.NOTE + "\n" + lines, "oldSize": 0}
    origin = {"origin": "log.example", "scheme": EXAMPLE["scheme"], "key": EXAMPLE["key"]}
    return json.dumps({"origins": [origin], "updates": [update] * 4096, "accepted": rows}, separators=(",", ":"), ensure_ascii=False).encode()


def unsigned_bundles(count):
    """As many bundles as there may be, of each of which no accepted signature is over the envelope."""
    made = fixture.Request()
    rows = [row for place, row in enumerate(made.accepted()) if place != 2]
    others = list(map(shapes.row, numbered(b"m" * 24, count)))
    return manifests.of_bundles(made, rows=rows + others)


def root_that_is_none(count):
    """As many bundles as there may be under a trusted root whose last log is not one."""
    made = fixture.Request()
    root = made.trusted_root()
    return manifests.of_bundles(made, {**root, "ctlogs": [*root["ctlogs"], *[{}] * count, 1]})


OWN = {
    "log": (("the last accepted signature is not one", last_row), ("the last hash is not one", last_hash), ("the last entry is not one", last_entry),
            ("a float after many hashes", last_float), ("a long origin", long_note)),
    "verify": (("the last rule is not one", last_rule), ("the last log of the trusted root is not one", last_log),
               ("the last log entry of the bundle is not one", last_log_entry), ("an issuer's name of many parts", issuer_of_parts),
               ("an issuer's name of one long part", issuer_of_a_long_part), ("a long payload that nobody signed", unsigned_payload),
               ("a long certificate that nobody signed", unsigned_extensions), ("rules that show all names", rules_of_names),
               ("digests of many subjects, none the artifact's", mismatched)),
    "witness": (("updates that nobody signed, accepted signatures", unsigned_updates),),
    "gate": (("bundles whose envelopes nobody signed, accepted signatures", unsigned_bundles),
             ("bundles under a text that is not a trusted root", root_that_is_none)),
}


def of_count(made_by, make):
    """How a request is made for a size by a table that also says what is written about it."""
    return lambda size: make(made_by.count_of(make, size))[0]


def of_tables(kinds_of):
    """The command, what the request is, and how it is made for a size, for those of the commands' own tables."""
    for command, kinds in {**kinds_of, "verify": chains.REQUESTS}.items():
        for requests in kinds.values():
            for title, make in requests:
                yield command, title, largest(make)
    for command, made_by in (("witness", witnesses), ("gate", gates)):
        for title, make in made_by.LISTS:
            yield command, title, of_count(made_by, make)
    for title, make, _ in (*gate_policies.MANIFESTS, *gate_roots.GATES):
        yield "gate", title, largest(make)


def own():
    """The same for those whose explanations cost most."""
    for command, kinds in OWN.items():
        for title, make in kinds:
            yield command, title, largest(make)
    for link, title, make in REFUSALS:
        yield "gate", f"refused at {link}: {title}", largest(make)
    for command, title, make in notes.EXPLAINED:
        yield command, title, largest(make)


def requests(bench, kinds_of):
    """Each command, what the request is, its text, and that of half the size; and texts that are too long for one, which have none."""
    for command, title, made in itertools.chain(of_tables(kinds_of), own()):
        yield command, title, made(bench.most), made(bench.most // 2)
    for command in ("log", "verify"):
        yield command, "too long, refused", b" " * (2 * bench.most), None


def timed(bench, command, text):
    """The status, the timer and the memory of `explain` over a request, and the time of the command alone."""
    path, words, plain = bench.kept(text), [bench.program, "explain", command], [bench.program, command]
    status = measure.status_over(plain, path)
    took, [alone] = bench.timer(path, words, status), bench.seconds(path, plain, status=status)
    return status, took, megabytes(words, path, status), alone


def measured(bench, table, command, title, text, half):
    """The row of a request: the time and memory of `explain`, beside the time of the command alone, and that over half as much."""
    first = half and timed(bench, command, half)[1]
    status, took, peak, alone = timed(bench, command, text)
    doubled = half and bench.doubled(f"explain {command}, {title}", first, took)
    table.row(f"{command}, {title}", status, len(text), took.least * 1000, round(peak), took.least / alone, doubled)
    bench.goal(f"explain {command}, {title}, MB", peak, MOST_MEGABYTES)
    bench.goal(f"explain {command}, {title}, seconds", took.least, MOST_SECONDS)
    for timer in filter(None, (first, took)):
        timer.path.unlink()
