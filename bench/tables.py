"""The tables of bench/run: each a function over the run, whose rows are what was measured."""
import itertools
import sys

import chains
import explained
import long_keys
import measure
import own_entries
import roots
import shapes
import signed
from asked import questions
from bundles_at_once import bundles_at_once
from gates import gates
from goals import (
    MOST_TO_PLAIN, MOST_TO_PLAIN_SMALL, MOST_TO_READING_AND_HASHING, MOST_OF_HEADS, MOST_BEYOND_START,
    MOST_OF_DEMO, MOST_MEGABYTES, MOST_MEGABYTES_OF_STATEMENT, MOST_SECONDS, MOST_SECONDS_OF_A_MILLION,
    MOST_TO_HASHING, MOST_MEGABYTES_OF_ARTIFACT, MOST_OF_TWICE_AS_MANY, MOST_TO_HASHES,
)
from layers import images
from library import library
from measure import megabytes, written
from shapes import filled
from witnesses import witnesses

# Requests of `log` by the reply that they have; each is made at half of the largest size, and at the whole.
LOG_REQUESTS = {
    "refused inclusion": (
        ("one entry", shapes.one_entry),
        ("one entry of escapes", shapes.escaped_entry),
        ("hashes", shapes.hashes),
    ),
    "logged 0 1": (
        ("equal rows", shapes.equal_rows),
        ("rows by signature", shapes.rows_by_signature),
        ("rows by key", shapes.rows_by_key),
        ("rows by message", shapes.rows_by_message),
        ("signatures and rows", shapes.signatures_and_rows),
        ("signatures, a long note", shapes.signatures_of_a_long_note),
        ("signatures, a long key", long_keys.signatures),
        ("equal signatures, a long note", shapes.equal_signatures_of_a_long_note),
        *((f"ignored: {name}", shapes.ignored(shapes.repeated(item))) for name, item in shapes.worst(above=1)),
        ("ignored: shuffled names", shapes.ignored(shapes.shuffled_names)),
        ("ignored: members", shapes.ignored_members("m")),
        ("ignored: long names", shapes.ignored_members("m" * 1000)),
        ("ignored: one object", shapes.ignored(shapes.members("m"))),
    ),
    "refused note-key": (
        ("signatures", shapes.signatures),
        ("contents", shapes.contents("a key: and its value, which is a line of a usual length\n")),
        ("contents, a byte each", shapes.contents("c\n")),
        ("contents, a pair each", shapes.contents("k: v\n")),
    ),
}


# What `demo` of 2,048 and of 4,096 entries writes last.
DEMO_SHOWN = ("logged 1024 2048", "logged 2048 4096")


def status_of(reply):
    return 2 if reply == "refused request" else 1 if reply.startswith("refused") else 0


def timed(bench, command, text, reply, start=0):
    """The timer of a command over a request that has to have this reply, and its peak memory."""
    path, status = bench.kept(text), status_of(reply)
    measure.expect(command, path, written(command, path, status), reply)
    return bench.timer(path, command, status, start), megabytes(command, path, status)


def log(bench):
    """Requests of `log`, beside the plain program of `bench/peers/log` where it can be built. The last column is the
    time to that over a request of half the size."""
    packages = "librust-serde-json-dev librust-sha2-dev librust-base64-dev librust-hex-dev"
    plain = measure.peer("log", "plain-log", packages)
    command = [bench.program, "log"]
    beside = ("plain ms", "plain MB", "to plain") if plain else ()
    table = bench.table(log, "request", "reply", "bytes", "ms", "MB", *beside, "to half")

    def measured(name, text, reply):
        """The timer and the peak over a request, and what it is to the plain program; the goals that it misses are noted."""
        took, peak = timed(bench, command, text, reply)
        said = f"log, {name}, {len(text)} bytes"
        bench.goal(f"{said}, MB", peak, MOST_MEGABYTES)
        bench.goal(f"{said}, seconds", took.least, MOST_SECONDS)
        if not plain:
            return took, peak, []
        other, others_peak = timed(bench, [plain, "log"], text, reply)
        bench.goal(f"{said}, time to the plain program", took.least / other.least, MOST_TO_PLAIN if len(text) > 2**16 else MOST_TO_PLAIN_SMALL)
        return took, peak, [other.least * 1000, round(others_peak), took.least / other.least]

    def row(name, text, reply, half=None):
        """The row of a request, and of the one of half its size where there is one."""
        first = half and measured(name, half, reply)[0]
        took, peak, cells = measured(name, text, reply)
        doubled = half and bench.doubled(f"log, {name}", first, took)
        table.row(name, reply, len(text), took.least * 1000, round(peak), *cells, doubled)

    for name in ("log", "log-rekor-staging"):
        example = measure.TOP / f"examples/{name}.json"
        row(f"examples/{name}.json", example.read_bytes(), example.with_suffix(".expected").read_text().splitlines()[0])
    for reply, kinds in LOG_REQUESTS.items():
        for name, make in kinds:
            row(name, filled(make, bench.most), reply, filled(make, bench.most // 2))
    row("too long, refused", shapes.request() + b" " * 2**25, "refused request")


def verify(bench):
    """Requests of `verify`, and of `questions verify` and `explain verify` the slowest of a million bytes. The milliseconds
    are those beyond a process that reads no request, which the first row has; the last column is their ratio to those
    over a request whose list has half as many items."""
    command = [bench.program, "verify"]
    start = bench.seconds(bench.kept(b""), [bench.program, "--version"])[0]
    table = bench.table(verify, "request", "reply", "bytes", "ms", "MB", "to half")
    table.row("none: the process alone", "", 0, start * 1000, None, None)

    def measured(name, text, reply):
        """The timer beyond the start and the peak over a request."""
        took, peak = timed(bench, command, text, reply, start)
        bench.goal(f"verify, {name}, {len(text)} bytes, MB", peak, MOST_MEGABYTES)
        bench.goal(f"verify, {name}, {len(text)} bytes, seconds", took.least + start, MOST_SECONDS)
        return took, peak

    def row(name, text, reply, half=None):
        first = half and measured(name, half, reply)[0]
        took, peak = measured(name, text, reply)
        doubled = half and bench.doubled(f"verify, {name}", first, took)
        table.row(name, reply, len(text), took.least * 1000, round(peak), doubled)
        return took.least * 1000

    for name, text in (("examples/verify.json", signed.example()), ("a payload of 10 KB", chains.small(10000))):
        bench.goal(f"verify, {name}, ms beyond the start", row(name, text, "verified 2 5"), MOST_BEYOND_START)
    for name, make, most in chains.COUNTED:
        row(name, make(most), "verified 2 5", make(most // 2))
    for reply, kinds in chains.REQUESTS.items():
        for name, make in kinds:
            row(name, filled(make, bench.most), reply, filled(make, bench.most // 2))
    for each in OF_BUNDLES:
        slowest_of_a_million(bench, table, each, start)
    row("too long, refused", signed.example() + b" " * 2**25, "refused request")


# The commands over one bundle, what their requests are, how they are made, and the reply where it is stated.
OF_VERIFY = [(name, make, reply) for reply, kinds in chains.REQUESTS.items() for name, make in kinds]
OF_BUNDLES = {
    "verify": OF_VERIFY,
    "questions verify": [(name, make, None) for name, make in chains.QUESTIONS],
    "explain verify": [*OF_VERIFY, *((name, make, None) for name, make in explained.OWN["verify"])],
}


def slowest_of_a_million(bench, table, command, start):
    """The row of the request of a million bytes over which a command takes longest beyond the start."""
    words = [bench.program, *command.split()]

    def took(text, reply):
        path = bench.kept(text)
        status = status_of(reply) if reply else measure.status_over(words, path)
        if reply:
            measure.expect(words, path, written(words, path, status).split("\n", 1)[0], reply)
        seconds = bench.seconds(path, words, status=status, slow=True)[0] - start
        path.unlink()
        return seconds

    made = ((name, filled(make, 10**6), reply) for name, make, reply in OF_BUNDLES[command])
    slowest, name, size, reply = max((took(text, reply), name, len(text), reply or "") for name, text, reply in made)
    table.row(f"{command}, the slowest of a million bytes: {name}", reply, size, slowest * 1000, None, None)
    bench.goal(f"{command}, {name}, a million bytes, seconds", slowest, MOST_SECONDS_OF_A_MILLION)


# The commands that take the log's own entries: how their requests are made, and the reply except for its second line.
OF_ENTRIES = {
    "log": (own_entries.of_log, lambda size: (f"logged 0 {size}", "entry 0")),
    "consistency": (own_entries.of_growth, lambda size: (f"consistent {size - 1} {size}", f"prefix {size - 1}")),
}


def entries(bench):
    """Requests of `log` and of `consistency` with the log's own entries, beside the same request with one entry more,
    which is read and not hashed, and the hashing of as many bytes as the big entries have, by the same `sha2`. A log of
    `consistency` grew by its last entry. The last column is the time to that over half as many."""
    table = bench.table(entries, "command", "entries", "bytes", "ms", "MB", "read ms", "hash ms", "to both", "to half")

    def measured(command, name, made):
        """Size, timer and peak over the request with these entries, and the time of reading it alone."""
        make, replies = OF_ENTRIES[command]
        first, second = replies(len(made))
        words, text = [bench.program, command], make(made)
        took, peak = timed(bench, words, text, f"{first}\n{second}")
        read, _ = timed(bench, words, make(made, [b"more"]), f"{first}\nother list")
        bench.goal(f"{command}, {name}, {len(text)} bytes, MB", peak, MOST_MEGABYTES)
        bench.goal(f"{command}, {name}, {len(text)} bytes, seconds", took.least, MOST_SECONDS)
        return len(text), took, peak, read.least

    def row(command, name, half, whole):
        first = measured(command, name, half)[1]
        size, took, peak, read = measured(command, name, whole)
        doubled = bench.doubled(f"{command}, {name}", first, took)
        table.row(command, name, size, took.least * 1000, round(peak), read * 1000, None, None, doubled)

    for command in OF_ENTRIES:
        # A request of `log` has its entry besides.
        big = own_entries.big(bench.most, more=int(command == "log"))
        [hashed] = bench.seconds(bench.kept(b""), [bench.reader, "hash", str(sum(map(len, big)))], slow=True)
        size, took, peak, read = measured(command, "big entries", big)
        to_both = took.least / (read + hashed)
        table.row(command, "four of one size", size, took.least * 1000, round(peak), read * 1000, hashed * 1000, to_both, None)
        bench.goal(f"{command}, big entries, time to reading and hashing", to_both, MOST_TO_READING_AND_HASHING)
        row(command, "131,072 small ones", own_entries.small(2**16), own_entries.small(2**17))
        for name, make in own_entries.FILLING:
            row(command, name, make(bench.most // 2), make(bench.most))


def audits(bench):
    """Requests of `audit` of a log of 100,000 entries at so many sizes, with the log's own entries, beside the same
    request with one entry more, which is read and not hashed. The last column is the time beyond that, of hashing the
    list and of the roots of its beginnings, to that of one head alone."""
    table = bench.table(audits, "heads", "bytes", "ms", "MB", "read ms", "hash ms", "to one")
    words, made, alone = [bench.program, "audit"], own_entries.small(100_000), None
    for count in (1, 16, 256):
        text = own_entries.of_heads(count, made)
        took, peak = timed(bench, words, text, f"audited {count} 0 100000\nprefixes {count}")
        read, _ = timed(bench, words, own_entries.of_heads(count, made, [b"more"]), f"audited {count} 0 100000\nother list")
        hashed = took.least - read.least
        alone = hashed if alone is None else alone
        table.row(str(count), len(text), took.least * 1000, round(peak), read.least * 1000, hashed * 1000, hashed / alone)
        bench.goal(f"audit, {count} heads, time of the list to that of one", hashed / alone, MOST_OF_HEADS)


# The lists of a request of `audit`, by the reply: each is made at half of the largest size, and at the whole.
AUDIT_REQUESTS = {
    "refused request": (
        ("heads", shapes.audit_heads),
        ("watched entries", shapes.audit_watches),
    ),
    "audited 1 0 1": (("hashes of the first head", shapes.audit_hashes),),
    "refused consistency 1": (("hashes of a head", shapes.audit_proof),),
    "refused note-key 0": (("signatures of a head", shapes.audit_signatures),),
}


def audit_lists(bench):
    """Requests of `audit`, each of their lists at half of the largest size and at the whole. The last column is the time
    to that over a request of half the size."""
    table = bench.table(audit_lists, "request", "reply", "bytes", "ms", "MB", "to half")
    words = [bench.program, "audit"]
    for reply, requests in AUDIT_REQUESTS.items():
        for name, make in requests:
            first, _ = timed(bench, words, filled(make, bench.most // 2), reply)
            text = filled(make, bench.most)
            took, peak = timed(bench, words, text, reply)
            doubled = bench.doubled(f"audit, {name}", first, took)
            table.row(name, reply, len(text), took.least * 1000, round(peak), doubled)
            bench.goal(f"audit, {name}, MB", peak, MOST_MEGABYTES)
            bench.goal(f"audit, {name}, seconds", took.least, MOST_SECONDS)


def explanations(bench):
    """Requests of `explain`: those of the commands' own tables, and those of which much is shown or looked for, all of
    the largest size. The last columns are the time to that of the command without `explain`, and to that over a request
    of half the size."""
    table = bench.table(explanations, "request", "status", "bytes", "ms", "MB", "to the command", "to half")
    for request in explained.requests(bench, {"log": LOG_REQUESTS, "audit": AUDIT_REQUESTS}):
        explained.measured(bench, table, *request)


def demo(bench):
    """`demo` of the most entries, and of half as many: the milliseconds beyond a process that is asked for nothing, and
    what hashing each leaf and node of the tree once takes by Python's `hashlib`."""
    table = bench.table(demo, "entries", "ms", "MB", "hash ms", "to half")
    nothing = bench.kept(b"")
    commands = [[bench.program, "--version"], *([bench.program, "demo", str(count)] for count in (2048, 4096))]
    for words, shown in zip(commands[1:], DEMO_SHOWN):
        measure.expect(words, nothing, written(words, nothing).splitlines()[-1], shown)
    [start] = bench.seconds(nothing, commands[0])
    half, whole = (bench.timer(nothing, command, start=start) for command in commands[1:])
    hashed = min(own_entries.hashing_tree(2**12) for _ in range(bench.runs))
    doubled = bench.doubled("demo", half, whole)
    table.row("4,096", whole.least * 1000, round(megabytes(commands[-1], nothing)), hashed * 1000, doubled)
    bench.goal("demo, milliseconds", whole.least * 1000, MOST_OF_DEMO)


# Certificates by their numbers of extensions; webpki reads no more than 2^16 bytes.
CERTIFICATES = (
    ("usual", (9,), shapes.in_order, b""),
    ("in order", (500, 1000), shapes.in_order, b""),
    ("shuffled", (500, 1000, 18000, 36000), shapes.shuffled, b""),
    ("shuffled, long identifiers", (18000, 36000), shapes.shuffled, b"\1" * 90),
)


def certificates(bench):
    """Certificates whose extensions come in some order, beside webpki where it can be built, which reads no more than
    2^16 bytes."""
    webpki = measure.peer("certificate", "webpki-read", "librust-webpki-dev")
    beside = ("webpki a second", "to webpki") if webpki else ()
    table = bench.table(certificates, "certificate", "extensions", "bytes", "read a second", "ns a byte", *beside)
    for name, counts, order, prefix in CERTIFICATES:
        for count in counts:
            text = shapes.certificate(count, order, prefix)
            path, times = bench.kept(text), max(20, 10**7 // len(text))
            words = [[bench.reader, "certificate"]] + ([[webpki]] if webpki and len(text) < 2**16 else [])
            once = bench.seconds(path, *([*start, "1"] for start in words))
            more = bench.seconds(path, *([*start, str(times + 1)] for start in words))
            each = [(end - begun) / times for begun, end in zip(once, more)]
            cells = [count, len(text), round(1 / each[0]), each[0] / len(text) * 1e9]
            if webpki:
                cells += [round(1 / each[1]), each[0] / each[1]] if len(each) > 1 else [None, None]
            table.row(name, *cells)


# The kinds of documents that cost most for a byte: in time, in memory or in depth.
DOCUMENTS = (
    *((name, shapes.repeated(item)) for name, item in shapes.worst(above=0)),
    ("empty objects", shapes.repeated("{}")),
    ("small integers", shapes.repeated("1")),
    ("members of one object", shapes.members("m")),
    ("names of a long prefix", shapes.members("m" * 1000)),
    ("names in two orders", shapes.two_orders),
    *shapes.UNORDERED,
    ("one text", shapes.one_text()),
    ("one text 126 deep", shapes.one_text(depth=126)),
    ("one text of escapes", shapes.one_text(unit=rb"\u00e9")),
)

# Reading by Python's own reader, timed inside the process, so that its start does not count.
PYTHON = """
import json, sys, time
text = sys.stdin.buffer.read()
begun = time.process_time()
json.loads(text)
print(time.process_time() - begun)
"""


def documents(bench):
    """Documents of the worst kinds: the milliseconds to read one of the largest size, and their ratio to those of
    Python's `json`; then those to read and write it, compact and canonical, and their ratio to those at half the
    size."""
    reader = bench.reader
    start = bench.seconds(bench.kept(b"{}"), [reader, "read"])[0]
    ways = (column for word in ("compact", "canonical") for column in (f"{word} ms", "to half", "MB"))
    table = bench.table(documents, "document", "read ms", "to Python", "MB", *ways)
    for name, make in DOCUMENTS:
        half, whole = (bench.kept(filled(make, most)) for most in (bench.most // 2, bench.most))
        took, peak = bench.seconds(whole, [reader, "read"])[0] - start, megabytes([reader, "read"], whole)
        python = min(float(written([sys.executable, "-c", PYTHON], whole)) for _ in range(bench.runs))
        cells = [took * 1000, took / python, round(peak)]
        bench.goal(f"document, {name}, MB", peak, MOST_MEGABYTES)
        bench.goal(f"document, {name}, seconds", took, MOST_SECONDS)
        for word in ("compact", "canonical"):
            first, both = (bench.timer(path, [reader, word], start=start) for path in (half, whole))
            doubled = bench.doubled(f"document, {name}, {word}", first, both)
            cells += [both.least * 1000, doubled, round(megabytes([reader, word], whole))]
        table.row(name, *cells)


def as_entry(item):
    """A log entry: the item, if it is an object, else an entry with the item as a member that is ignored."""
    return item if item.startswith("{") else '{"a":' + item + "}"


# Bundles of most parts.
BUNDLES = (
    *((f"entries: {name}", shapes.bundle_of_entries(as_entry(item))) for name, item in shapes.worst(above=3)),
    *((f"an entry: {name}", shapes.bundle_of_entry(make)) for name, make in shapes.UNORDERED),
    ("entries: {}", shapes.bundle_of_entries("{}")),
    ('entries: {"logId":{}}', shapes.bundle_of_entries('{"logId":{}}')),
    ("entries: with a proof", shapes.bundle_of_entries('{"inclusionProof":{}}')),
    ("hashes of one byte", shapes.bundle_of_hashes),
    ("empty certificates", shapes.bundle_of_certificates),
    ("empty signatures", shapes.bundle_of_signatures),
    ("one payload", shapes.bundle_of_payload),
)


def bundles(bench):
    """Bundles of the most decoded parts, of the largest size. The last column is the time to that over a bundle of half the size."""
    rows = ((name, filled(make, bench.most // 2), filled(make, bench.most)) for name, make in BUNDLES)
    read(bench, bench.table(bundles, "bundle", "bytes", "read ms", "MB", "to half"), rows, ["bundle"])


def statements(bench):
    """Payloads as large as base64 in a text of the largest size can carry, read as statements by
    `InTotoStatementV1::from_json`, and for their digests alone, as the checks of a bundle do. Beside each is the time to
    that over a payload of half the size, or of half as many subjects."""
    most = bench.most // 4 * 3
    made = (
        (f"{member}: {name}", *(filled(shapes.statement_of(member, shapes.repeated(item)), size) for size in (most // 2, most)))
        for member, above in (("predicate", 1), ("annotations", 3))
        for name, item in shapes.worst(above)
    )
    rows = itertools.chain(made, [("1,024 subjects", shapes.many_subjects(512), shapes.many_subjects(1024))])
    table = bench.table(statements, "payload", "bytes", "statement ms", "MB", "to half", "digests ms", "MB", "to half")
    read(bench, table, rows, ["statement", "digests"], MOST_MEGABYTES_OF_STATEMENT)


def read(bench, table, rows, words, most=MOST_MEGABYTES):
    """Adds for each text how long the reader takes by each word, how much memory, and how many times as long as over half of it."""
    commands = [[bench.reader, word] for word in words]
    start = bench.seconds(bench.kept(b"{}"), [bench.reader, "read"])[0]
    for name, half, text in rows:
        first, path, cells = bench.kept(half), bench.kept(text), []
        for word, command in zip(words, commands):
            timers = [bench.timer(each, command, start=start) for each in (first, path)]
            doubled, took, peak = bench.doubled(f"{word}, {name}", *timers), timers[1].least, megabytes(command, path)
            cells += [took * 1000, round(peak), doubled]
            bench.goal(f"{word}, {name}, MB", peak, most)
            bench.goal(f"{word}, {name}, seconds", took + start, MOST_SECONDS)
        table.row(name, len(text), *cells)


def artifacts(bench):
    """Artifacts of zero bytes that `Verifier::verify` reads from a source, beside their SHA-256 alone, by the same
    `sha2`."""
    path = bench.kept(signed.bundle())
    table = bench.table(artifacts, "artifact", "bytes", "hashed ms", "verified ms", "to hashing", "MB")
    for size in (10**8, 10**9):
        commands = [[bench.reader, word, str(size)] for word in ("hash", "artifact")]
        hashed, verified = bench.seconds(path, *commands, slow=True)
        peak = megabytes(commands[1], path)
        table.row("zeros", size, hashed * 1000, verified * 1000, verified / hashed, round(peak))
        bench.goal(f"artifact of {size} bytes, time to hashing", verified / hashed, MOST_TO_HASHING)
        bench.goal(f"artifact of {size} bytes, MB", peak, MOST_MEGABYTES_OF_ARTIFACT)


MOST_INTERMEDIATES = 1024  # of a pool


def pools(bench):
    """Pools of as many trust anchors as intermediates, all of one name, each with its own key, and a leaf of that name
    that none of them signed: the most that a hostile list of certificates can cost. The checker refuses each signature
    at once, so the time is the pool's own; a question beside it costs what it costs to check a signature. The last
    column is the time to that over half as many certificates, which are a quarter of the pairs."""
    table = bench.table(pools, "pool", "pairs", "questions", "ms", "MB", "to half")
    start = bench.seconds(bench.kept(b"{}"), [bench.reader, "read"])[0]

    def measured(count):
        path, command = bench.kept(roots.one_name(count)), [bench.reader, "pool", str(count)]
        questions = count + count * 2 * count
        measure.expect(command, path, written(command, path), str(questions))
        return questions, bench.timer(path, command, start=start), megabytes(command, path)

    for count in (MOST_INTERMEDIATES // 2, MOST_INTERMEDIATES):
        (questions, took, peak), (_, half, _) = measured(count), measured(count // 2)
        name = f"{count:,} and {count:,} of one name"
        doubled = bench.doubled(f"pool, {name}", half, took, MOST_OF_TWICE_AS_MANY)
        table.row(name, 2 * count * count, questions, took.least * 1000, round(peak), doubled)
        bench.goal(f"pool, {name}, seconds", took.least, MOST_SECONDS)


CHECKS = 10000  # how many checks of inclusion are timed at once


def walks(bench):
    """Checks that a leaf is in a tree of 2^63 leaves: by sig_merkle's walk over bits, by the recursion of RFC 6962
    section 2.1.1, and their 63 hashes alone, called like the check's or written out in their place; and by Go's
    `tlog.CheckRecord`, in a tree of 2^62 leaves, its largest, with its 62 hashes. The microseconds are of one check,
    beyond the start of the process."""
    own = [[bench.reader, word] for word in ("walk", "recursion", "hashes", "inline")]
    go = measure.go_peer("walks", "golang-go golang-golang-x-mod-dev")
    others = [[go, word] for word in ("walk", "hashes")] if go else []
    path = bench.kept(b"")
    for command in own + others:
        measure.expect(command, path, written([*command, str(CHECKS)], path), str(CHECKS))
    starts = bench.seconds(path, *([*command, "0"] for command in own + others))
    ends = bench.seconds(path, *([*command, str(CHECKS)] for command in own + others))
    took = [(end - start) / CHECKS for start, end in zip(starts, ends)]
    table = bench.table(walks, "check", "hashes", "us", "ns a hash", "to hashes")
    names = ("walk", "recursion", "hashes alone", "hashes alone, written out in place")
    rows = [(name, 63, time, took[2]) for name, time in zip(names, took)]
    rows += [(f"Go: {name}", 62, time, took[-1]) for name, time in zip(("tlog.CheckRecord", "hashes alone"), took[4:])]
    for name, hashes, time, alone in rows:
        table.row(name, hashes, time * 1e6, time / hashes * 1e9, time / alone)
    bench.goal("check of inclusion, time to its hashes", took[0] / took[2], MOST_TO_HASHES)


OF_PROGRAM = (log, entries, audits, audit_lists, witnesses, gates, demo, verify, questions, explanations, bundles_at_once, library)  # of sigverify
OF_READERS = (entries, gates, certificates, documents, bundles, statements, images, artifacts, pools, walks)  # those that run sig_bench
TABLES = {table.__name__: table for table in (*OF_PROGRAM, *OF_READERS)}
