"""The table of the library for C, beside the program."""
import json
import os
import subprocess
import sys

import chains
import measure

sys.path.append(str(measure.TOP / "adapters/c"))
import build

LEAST_CALLS = 5000  # a second of one processor
LEAST_SCALING = 3  # of four threads, to one
THREADS = 4
PAYLOAD = 5300  # bytes, by which the bundle has 10 KB
MOST_BUSY = 0.5  # of the processors, where threads are compared
VERIFY, QUESTIONS = 2, 256


def caller():
    """The program that calls the library again and again."""
    home = build.kit()
    archive, to = build.archive(home), measure.PEERS / "out/library"
    to.parent.mkdir(exist_ok=True)
    words = ["cc", "-O2", "-pthread", f"-I{build.HERE}", "-o", to, measure.TOP / "bench/library.c", archive]
    subprocess.run([*words, home / "c/liblibc_c.a"], check=True)
    return to


def called(bench, program, path, command, status, threads=1):
    """The least nanoseconds of a call over a file: those that passed, and those of the processor."""
    count = 2000 // threads
    words = [program, path, command, status, count, threads]
    runs = [measure.written([str(word) for word in words], path).split() for _ in range(bench.runs)]
    return [min(int(run[place]) for run in runs) / (count * threads) for place in (0, 1)]


def parts(text):
    """Requests of `verify` that are refused after more and more was done, with their statuses."""
    members = json.loads(text)

    def changed(**others):
        return json.dumps({**members, **others}, separators=(",", ":"), ensure_ascii=False).encode()
    yield "the call alone", b"{", 2
    yield "and reading the request", changed(policy=None), 2
    yield "and reading the trusted root", changed(bundle="{}"), 1
    yield "and reading the bundle, and all links", text, 0


def library(bench):
    """Calls of the library for C over a request of `verify` whose bundle has 10 KB, beside the program over it: the
    microseconds of a processor, of the calls their mean. The parts are requests that are refused after more and more was
    done. Of threads the microseconds are those that pass for each call of all, and the last column is how many times as
    many calls there are as by one."""
    table = bench.table(library, "call", "bytes", "us", "a second", "to one thread")
    program, text = caller(), chains.small(PAYLOAD)

    def row(name, given, command=VERIFY, status=0):
        _, took = called(bench, program, bench.kept(given), command, status)
        table.row(name, len(given), took / 1000, round(1e9 / took), None)
        return took

    path = bench.kept(text)
    [process] = bench.seconds(path, [bench.program, "verify"])
    table.row("verify, the program", len(text), process * 1e6, round(1 / process), None)
    took = row("verify, the library", text)
    bench.goal("verify by the library, us", took / 1000, 1e6 / LEAST_CALLS)
    for name, given, status in parts(text):
        row(f"verify, {name}", given, status=status)
    row("questions verify, the library", text, VERIFY + QUESTIONS)
    alone, _ = called(bench, program, path, VERIFY, 0)
    passed, _ = called(bench, program, path, VERIFY, 0, THREADS)
    table.row(f"verify, the library, {THREADS} threads", len(text), passed / 1000, round(1e9 / passed), alone / passed)
    if os.getloadavg()[0] < MOST_BUSY * os.cpu_count():
        bench.goal(f"verify by {THREADS} threads, us", passed / 1000, alone / 1000 / LEAST_SCALING)
