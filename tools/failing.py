"""Runs a program whose allocations, reads or writes fail. failing_calls.c says which; cc compiles it, and the loader preloads it.

A request is a `Case`: the words and the request that the program gets, and the reply and the status with which it has to end where nothing fails. The
cases are requests of the other tools, whose replies are those of their own readers."""
import collections
import json
import os
import pathlib
import re
import subprocess
import tempfile
import threading

import audit_requests
import consistency_requests
import demo_requests
import explain_cases
import fixture
import gate_requests
import log_requests
import questions_cases
import verify_cases
import verify_links
import witness_requests
from fixture import anchor, certificate, compact, name

HERE = pathlib.Path(__file__).resolve().parent
NO_MEMORY, FAULT = 71, 74

Case = collections.namedtuple("Case", "title words text reply status")
Ended = collections.namedtuple("Ended", "written status")
Counts = collections.namedtuple("Counts", "allocations reads writes")


class Failing:
    """A program whose calls can be made to fail. `close` removes what was compiled."""

    def __init__(self, program):
        self.program = os.path.abspath(program)
        self.folder = tempfile.TemporaryDirectory()
        self.library = os.path.join(self.folder.name, "failing_calls.so")
        subprocess.run(["cc", "-shared", "-fPIC", "-O1", "-o", self.library, HERE / "failing_calls.c"], check=True)

    def __enter__(self):
        return self

    def __exit__(self, *_):
        self.folder.cleanup()

    @property
    def counts(self):
        """Where the program writes how many calls it made: each thread that runs it has a file of its own."""
        return os.path.join(self.folder.name, f"counts-{threading.get_ident()}")

    def run(self, case, **settings):
        """What was written, and the status, where the calls fail as the settings say."""
        given = {"LD_PRELOAD": self.library, "COUNTS": self.counts, **{key: str(value) for key, value in settings.items()}}
        done = subprocess.run([self.program, *case.words], input=case.text, stdout=subprocess.PIPE, stderr=subprocess.DEVNULL, env=given)
        return Ended(done.stdout, done.returncode)

    def counted(self, case, **settings):
        """How many calls of each kind the program makes where none fails: some. The run has to end with the reply of the case."""
        ended = self.run(case, **settings)
        if ended != (case.reply, case.status):
            raise AssertionError(f"{case.title}: ended with {ended}, and not with {(case.reply, case.status)}")
        with open(self.counts) as file:
            counts = Counts(*map(int, file.read().split()))
        if not counts.allocations or not counts.writes:
            raise AssertionError(f"{case.title}: no call is counted: the program does not make those of the C library that was loaded before it")
        return counts


def in_lines(reply):
    """A reply as it is written, of which the readers have both lines in one."""
    return (re.sub("^((?:logged|verified|consistent|audited [0-9]+) [0-9]+ [0-9]+) ", r"\1\n", reply) + "\n").encode()


# The cases: the smallest request of each command whose links hold, and one that is refused late in its chain.

def made(title, words, text, found):
    reply, status = found
    return Case(title, words.split(), text.encode(), in_lines(reply), status)


def log_cases():
    late = log_requests.FIRST.replace('"logIndex":0', '"logIndex":1')
    yield made("log", "log", log_requests.FIRST, log_requests.reply(log_requests.FIRST))
    yield made("log, refused inclusion", "log", late, log_requests.reply(late))
    yield made("questions log", "questions log", log_requests.FIRST, questions_cases.log_reply(log_requests.FIRST))


def verify_cases_made():
    intermediate = certificate(anchor(issuer=name("another root")))
    whole = verify_cases.built([verify_cases.message(later=(intermediate,))])
    late = {**whole, "accepted": whole["accepted"][:-1]}
    for title, members in (("verify", whole), ("verify, refused note-key", late)):
        text = compact(members)
        yield made(title, "verify", text, questions_cases.verify_second(text))
    yield made("questions verify", "questions verify", compact(whole), questions_cases.verify_reply(compact(whole)))
    unasked = compact(verify_cases.edited({**whole}, "bundle", lambda text: text.replace("0.2", "9.9")))
    yield made("questions verify, refused profile", "questions verify", unasked, questions_cases.verify_reply(unasked))


def consistency_cases():
    entries = consistency_requests.ENTRIES
    whole, late = (json.dumps(each, separators=(",", ":")) for each in
                   (consistency_requests.request(3, entries, entries), consistency_requests.request(3, entries, entries, hashes=[])))
    for title, text in (("consistency", whole), ("consistency, refused consistency", late)):
        yield made(title, "consistency", text, consistency_requests.lines(text))
    yield made("questions consistency", "questions consistency", whole, questions_cases.consistency_reply(whole))


def audit_cases():
    heads, watched, entries = audit_requests.HEADS, audit_requests.WATCHED, audit_requests.ENTRIES
    moved = audit_requests.put(watched, 2, {**watched[2], "hashes": []})
    whole, late = (json.dumps(each, separators=(",", ":")) for each in
                   (audit_requests.request(heads, watched, entries), audit_requests.request(heads, moved, entries)))
    for title, text in (("audit", whole), ("audit, refused inclusion", late)):
        yield made(title, "audit", text, audit_requests.lines(text))
    yield made("questions audit", "questions audit", whole, questions_cases.audit_reply(whole))


def witness_cases_made():
    """Three updates, and one of them refused; a state; and the signatures of the updates."""
    grown = witness_requests.GROWN[:3]
    whole = json.dumps(witness_requests.request(grown, witness_requests.OTHERS))
    state = witness_requests.state_of(json.loads(whole))
    late = json.dumps(witness_requests.request([witness_requests.GROWN[3], grown[0], witness_requests.AGAIN], (), state))
    for title, text in (("witness", whole), ("witness, refused old-size", late)):
        yield made(title, "witness", text, witness_requests.lines(text))
    yield made("questions witness", "questions witness", whole, questions_cases.witness_reply(whole))


def gate_cases_made():
    """Two artifacts, one of two bundles, and one of them denied; and the signatures of the bundles."""
    artifacts = [gate_requests.artifact([gate_requests.F, gate_requests.OTHER], {"all": [{"least": 2}, {"origin": gate_requests.ORIGIN}]}),
                 gate_requests.artifact(name="b")]
    whole = json.dumps(gate_requests.manifest(*artifacts))
    late = json.dumps(gate_requests.manifest(*artifacts, gate_requests.artifact([gate_requests.LATE, ""], {"size": 10}, name="c")))
    for title, text in (("gate", whole), ("gate, deny none", late)):
        yield made(title, "gate", text, gate_requests.lines(text))
    yield made("questions gate", "questions gate", late, questions_cases.gate_reply(late))


def explained(case):
    """The same request, explained."""
    text, status = explain_cases.explained(case.words[0], case.text.decode())
    return Case("explain " + case.title, ["explain", *case.words], case.text, f"{text}\n".encode(), status)


def demo_cases():
    yield Case("demo 3", ["demo", "3"], b"", demo_requests.shown(3).encode(), 0)


def cases():
    found = [*log_cases(), *verify_cases_made(), *consistency_cases(), *audit_cases(), *witness_cases_made(), *gate_cases_made()]
    return [*found, *(explained(case) for case in found if case.words[0] != "questions"), *demo_cases()]
