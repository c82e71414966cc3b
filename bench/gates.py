"""Manifests of `gate`, and their table. Each is a function from a count to the bytes and to what the program writes."""
import gate_policies
import gate_roots
import measure
import shapes
import signed
from chains import payload_of
from goals import MOST_MEGABYTES, MOST_SECONDS, MOST_TO_CHECKS
from library import PAYLOAD
from manifests import MOST_ARTIFACTS, artifact, manifest, report
from measure import megabytes, written
from roots import keys, with_anchors
from shapes import filled, numbered

import fixture
from fixture import certificate, compact, leaf
from x509_paths import inter

ORIGIN = "fixture.log"
VERIFIED = "verified 2 5"


def requests(count, size):
    """This many requests of `verify` with bundles of other payloads, each of nearly this many bytes, and one trusted root."""
    return [fixture.Request(payload=payload_of(size + place)) for place in range(count)]


def each_once(rows):
    return list({compact(row): row for row in rows}.values())


def many(made):
    """The manifest of the artifacts of these requests."""
    rows = each_once(row for one in made for row in one.accepted())
    return manifest(made[0], [artifact(one, place) for place, one in enumerate(made)], rows), report(VERIFIED, len(made))


def of_one(**changes):
    """The manifest of one artifact, with members changed, which admits it."""
    made = fixture.Request()
    return manifest(made, [artifact(made, 0)], made.accepted(), **changes), report(VERIFIED, 1)


def policies(count):
    made = fixture.Request()
    return of_one(policies={"policy": made.policy, **{name.hex(): made.policy for name in numbered(b"", count)}})


def roots(count):
    """Trusted roots that no artifact names, and that are not read."""
    made = fixture.Request()
    return of_one(roots={"root": compact(made.trusted_root()), **{name.hex(): "{}" for name in numbered(b"", count)}})


def accepted(count):
    made = fixture.Request()
    return of_one(accepted=[*made.accepted(), *map(shapes.row, numbered(b"m" * 24, count))])


def bundle_of_a_long_payload(count):
    return many(requests(1, 500 + count))


def origins(count):
    """A rule of as many origins as it may have, each of this many letters, of which only the last is the log's."""
    made = fixture.Request()
    others = [{"origin": "o" * (count + place)} for place in range(62)]
    rule = {"any": [*others, {"origin": ORIGIN}]}
    return manifest(made, [artifact(made, 0, rule=rule)], made.accepted()), report(VERIFIED, 1)


def over_intermediates(anchor_keys, accepted_keys):
    """As many artifacts as there may be, each with a bundle of 16 intermediates of the name of trust anchors with these keys; accepted is
    the signature of the leaf, by the last of them, and of each intermediate in turn one under each of the other keys."""
    signers = [inter("a", "fixture root", under) for under in range(100, 116)]
    made = fixture.ChainRequest([signers[-1]], [certificate(each) for each in signers], leaf=leaf(issuer=fixture.name("a")))
    root = with_anchors(made, (fixture.anchor(key=key) for key in anchor_keys))
    signed_by_last, above = made.accepted()[0], made.accepted()[-1]
    rows = [{**above, "message": shapes.coded(fixture.tbs(signers[place % 16])), "key": shapes.coded(key)} for place, key in enumerate(accepted_keys)]
    artifacts = [artifact(made, place) for place in range(MOST_ARTIFACTS)]
    return manifest(made, artifacts, [signed_by_last, *rows], roots={"root": compact(root)}), report("refused issuer")


def anchors_over_intermediates(count):
    """Nobody signed the intermediates."""
    return over_intermediates(keys(count), [])


def anchors_beside_accepted_keys(count):
    """Each intermediate is signed under thousands of keys that lie between those of the trust anchors."""
    every = [*keys(2 * count)]
    return over_intermediates(every[::2], every[1::2])


# Each is made of as many as the largest size holds, and of half as many.
LISTS = (("trust anchors of one name over 16 intermediates each", anchors_over_intermediates),
         ("the same, accepted under other keys", anchors_beside_accepted_keys), ("policies", policies), ("trusted roots that no artifact names", roots), ("accepted signatures", accepted),
         ("a bundle of a long payload", bundle_of_a_long_payload), ("a rule of long origins", origins))


def count_of(make, most):
    """How many elements a manifest of nearly this many bytes has."""
    few, more = len(make(500)[0]), len(make(1000)[0])
    return 500 + max(0, most - few) * 500 // (more - few) * 99 // 100


def checks_alone(bench, made):
    """The seconds of a process that reads the accepted signatures of these requests and their trusted root once, and reads and verifies the
    bundle of each."""
    rows = each_once(row for one in made for row in one.accepted())
    lines = [compact({"accepted": rows}), compact(made[0].trusted_root()), *(f"{one.digest.removeprefix('sha256:')} {compact(one.bundle(), canonical=True)}" for one in made)]
    path, words = bench.kept("\n".join(lines).encode()), [bench.reader, "checks", str(made[0].now)]
    measure.expect(words, path, written(words, path), str(len(made)))
    return bench.seconds(path, words)[0]


def gates(bench):
    """Manifests of `gate`: 256 artifacts of one trusted root, each with a bundle of its own of 10 KB, beside a process that reads the
    accepted signatures and the trusted root once and reads and verifies these bundles alone, and beside as many processes of `verify`; the lists of a manifest;
    and 256 bundles beside a policy of many rules, or under a trust anchor of a long key.
    The last column is the time to that over half as many."""
    table = bench.table(gates, "manifest", "bytes", "ms", "MB", "to the bundles alone", "to processes", "to half")
    words = [bench.program, "gate"]

    def timed(text, said):
        path, status = bench.kept(text), int(" deny " in said)
        measure.expect(words, path, written(words, path, status), said.strip())
        return bench.timer(path, words, status)

    def row(name, half, whole, alone=None, processes=None):
        first, timer = timed(*half), timed(*whole)
        doubled = bench.doubled(f"gate, {name}", first, timer)
        took, peak = timer.least, megabytes(words, timer.path, timer.status)
        table.row(name, len(whole[0]), took * 1000, round(peak), alone and took / alone, processes and took / processes, doubled)
        bench.goal(f"gate, {name}, MB", peak, MOST_MEGABYTES)
        bench.goal(f"gate, {name}, seconds", took, MOST_SECONDS)
        return took

    made = requests(MOST_ARTIFACTS, PAYLOAD)
    alone = checks_alone(bench, made)
    [process] = bench.seconds(bench.kept(signed.written(made[0])), [bench.program, "verify"])
    took = row(f"{MOST_ARTIFACTS} artifacts", many(made[::2]), many(made), alone, MOST_ARTIFACTS * process)
    bench.goal("gate, its time to that of the bundles alone", took / alone, MOST_TO_CHECKS)
    for name, make in LISTS:
        count = count_of(make, bench.most)
        row(name, make(count // 2), make(count))
    for name, make, said in (*gate_policies.MANIFESTS, *gate_roots.GATES):
        row(name, *((filled(make, most), said) for most in (bench.most // 2, bench.most)))

