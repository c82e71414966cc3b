#!/usr/bin/env python3
"""Writes the table of run_cases: runs over streams that give and take pieces, and fail at one call. Run by hand: tools/run_cases.py

The result of a run is computed here by the contract of `run`: a request is read until the source gives nothing more, its calls counted from 0;
the reply is written when it is whole, each call given all that is left of it; a read that fails writes nothing, and a write that fails leaves
what was written before it, with status 74 both times; words that are not a command, and `demo N`, read nothing. The replies are those of
tools/log_requests.py, tools/consistency_requests.py, tools/audit_requests.py, tools/witness_requests.py, tools/gate_requests.py,
tools/questions_cases.py, tools/explain_cases.py and, for `demo`, tools/demo_requests.py."""
import hashlib
import json
import sys
import urllib.parse

sys.dont_write_bytecode = True
import audit_requests as audits
import consistency_requests as growth
import demo_requests
import explain_cases
import explain_names
import gate_requests as gates
import questions_cases
import witness_requests as witnesses
from case_table import Table
from log_requests import FIRST

# The most bytes that the program asks for at a time.
ASKED = 16_384
FAULT = 74
NEVER = 999_999
COMMANDS = ("log", "verify", "consistency", "audit", "witness", "gate", "questions,log", "questions,verify", "questions,consistency", "questions,audit",
            "questions,witness", "questions,gate")
EXPLAINED = ("explain,log", "explain,verify", "explain,consistency", "explain,audit", "explain,witness", "explain,gate")

# Words that look like `demo N`.
NOT_DEMO = (
    "demo", "demo,", "demo,0", "demo,4097", "demo,00", "demo,01", "demo,0001", "demo,+1", "demo,-1", "demo,1x", "demo,x1", "demo, 1", "demo,1 ",
    "demo,1.0", "demo,1e3", "demo,0x10", "demo,4_096", "demo,10000", "demo,18446744073709551615", "demo,18446744073709551616",
    "demo,18446744073709551617", "demo,\u0661", "demo,\uff11", "demo,1,2", "demo,1,", "demo,1,1", "1,demo", "demo,demo", "Demo,1", "DEMO,1", " demo,1",
    "demo ,1", "demo 1", "questions,demo", "log,1", "demo,log", "demo\0,1", "demo,1\0", "demo,1\n",
)


def read(text, piece, failing):
    """Whether the request is read whole, and how many bytes are left then."""
    left, call = len(text), 0
    while call != failing:
        count = min(left, piece, ASKED)
        left, call = left - count, call + 1
        if count == 0:
            return True, 0
    return False, left


def write(reply, piece, failing, room):
    """Whether the reply is written whole, and what is written."""
    written, call = 0, 0
    while written < len(reply):
        count = min(len(reply) - written, piece, room - written)
        if call == failing or count == 0:
            return False, reply[:written]
        written, call = written + count, call + 1
    return True, reply


def outcome(words, text, source, sink, reply, status):
    """The line of a run. Of words that are not a command, and of `demo`, nothing is read."""
    is_read, left = read(text, *source) if status != 64 and not words.startswith("demo,") else (True, len(text))
    if not is_read:
        return f"{FAULT} - {left}"
    is_written, taken = write(reply, *sink)
    return f"{status if is_written else FAULT} {taken.hex() or '-'} {left}"


TABLE = Table("run_cases")
group = TABLE.group
STEADY, WIDE = (64, NEVER), (64, NEVER, 256)
LOGGED, REFUSED, USAGE = b"logged 0 1\n", b"refused request\n", b"usage\n"
NOT_JSON = REFUSED + b'{"cause":["NotJson"],"link":"request"}\n'


def run(words, text, source, sink, reply, status):
    """The case of a run. A source is the size of its pieces and the call that fails; a sink also has its room."""
    shown = urllib.parse.quote(text, safe="") or "-"
    call = f"run {words} {shown} {source[0]} {source[1]} {sink[0]} {sink[1]} {sink[2]}"
    TABLE.case(call, outcome(words, text.encode(), source, sink, reply, status))


def pieces():
    size = len(FIRST)
    group("A request that is logged, in pieces of every kind")
    for piece in (1, 2, 3, 7, 63, 64, 65, size - 1, size, size + 1, 20_000):
        run("log", FIRST, (piece, NEVER), WIDE, LOGGED, 0)
    for piece in range(1, len(LOGGED) + 2):
        run("log", FIRST, STEADY, (piece, NEVER, 256), LOGGED, 0)
    group("Each strict prefix of the request")
    for end in range(size):
        run("log", FIRST[:end], WIDE[:2], WIDE, REFUSED, 2)


def failing_calls():
    group("The source fails at each of its calls, the one that tells the end included: nothing is written")
    for failing in range(-(-len(FIRST) // 64) + 3):
        run("log", FIRST, (64, failing), WIDE, LOGGED, 0)
    for command in COMMANDS:
        for failing in range(8):
            run(command, "12345", (1, failing), WIDE, REFUSED, 2)
    group("The sink fails at each of its calls: what was written before stays written")
    for piece in (1, 4, 10, 11):
        for failing in range(-(-len(LOGGED) // piece) + 1):
            run("log", FIRST, STEADY, (piece, failing, 256), LOGGED, 0)
    for command in COMMANDS:
        for failing in range(6):
            run(command, "12345", STEADY, (4, failing, 256), REFUSED, 2)
    group("The sink has room for a part of the reply")
    for room in range(len(LOGGED) + 2):
        run("log", FIRST, STEADY, (64, NEVER, room), LOGGED, 0)


def grown_trees():
    def both(request, source=STEADY):
        found = json.dumps(request, separators=(",", ":"))
        for words, (reply, status) in (("consistency", growth.lines(found)), ("questions,consistency", questions_cases.consistency_reply(found))):
            run(words, found, source, (64, NEVER, 4096), reply.encode() + b"\n", status)

    group("A tree that grew, with the log's own entries and with another list; and the signatures that `consistency` rests on")
    for handed in (growth.ENTRIES, growth.ENTRIES[:-1], growth.ENTRIES[1:] + growth.ENTRIES[:1], None):
        both(growth.request(3, growth.ENTRIES, handed))
    most = [b"entry %d" % number for number in range(300)]
    both(growth.request(299, most, most))
    for changes in ({"checkpoint": ""}, {"oldRoot": growth.ROOT}, {"accepted": []}, {"entries": 1}):
        both(growth.request(3, growth.ENTRIES, **changes))


def audited_logs():
    def both(request, source=STEADY):
        found = json.dumps(request, separators=(",", ":"))
        for words, (reply, status) in (("audit", audits.lines(found)), ("questions,audit", questions_cases.audit_reply(found))):
            run(words, found, source, (64, NEVER, 4096), reply.encode() + b"\n", status)

    group("Heads of a log over time: each link that fails first, the log's own entries and another list; and the signatures of the heads")
    heads, watched, entries = audits.HEADS, audits.WATCHED, audits.ENTRIES
    whole = audits.request(heads, watched, entries)
    for changes in ({}, {"entries": None}, {"entries": []}, {"heads": []}, {"key": "a2V6"}, {"accepted": audits.rows_of(heads[:1])},
                    {"watched": audits.put(watched, 1, {**watched[1], "index": 6})}, {"watched": audits.put(watched, 1, {**watched[1], "head": 4})}):
        both({**whole, **changes})
    for these in (audits.put(heads, 2, {"checkpoint": ""}), audits.put(heads, 3, {**heads[3], "hashes": []}), heads[::-1],
                  audits.put(heads, 2, audits.head(entries[:6], 6, origin="o"))):
        both(audits.request(these))
    both(audits.request([audits.X] * 256, [audits.ONE] * 300, audits.LOG), WIDE[:2])


def kept_heads():
    def both(request, source=STEADY):
        found = json.dumps(request, separators=(",", ":"))
        for words, (reply, status) in (("witness", witnesses.lines(found)), ("questions,witness", questions_cases.witness_reply(found))):
            run(words, found, source, (64, NEVER, 65536), reply.encode() + b"\n", status)

    group("Heads kept over time: the first updates of a log; each refusal; a state that is handed back, and states and origins that are none")
    for request in witnesses.first_rows():
        both(request)
    grown, others = witnesses.GROWN, witnesses.OTHERS
    whole = witnesses.request(grown, others)
    state = witnesses.state_of(whole)
    spoiled = ({"checkpoint": witnesses.BROKEN}, {"oldSize": 2}, {"hashes": []}, {"checkpoint": witnesses.update(witnesses.LOG, origin="nobody")["checkpoint"]})
    for changes in spoiled:
        both(witnesses.request(audits.put(grown, 1, {**grown[1], **changes}), others))
    both({**whole, "accepted": whole["accepted"][1:]})
    both(witnesses.request([witnesses.update(witnesses.LOG, origin="a")], (), state))
    both(witnesses.request([], others, state))
    both(witnesses.request([], (), state[:-1]))
    both(witnesses.request(grown + grown, [witnesses.origin("\n")]))
    for request in list(witnesses.hundreds())[1:]:
        both(request, WIDE[:2])


def gated_artifacts():
    def both(request, source=STEADY):
        found = request if isinstance(request, str) else json.dumps(request, separators=(",", ":"))
        for words, (reply, status) in (("gate", gates.lines(found)), ("questions,gate", questions_cases.gate_reply(found))):
            run(words, found, source, (64, NEVER, 65536), reply.encode() + b"\n", status)

    group("Artifacts of a manifest: one bundle, two of which one fails, one twice, and none; rules; several artifacts; and texts that are none")
    for request in gates.first_rows():
        both(request)
    bundles = [gates.F, gates.OTHER, gates.LARGER]
    for rule in ({"least": 3}, {"least": 4}, {"all": [{"size": 9}, {"origin": gates.ORIGIN}]}, {"any": [{"size": 10}, {"not": {"origin": "other"}}]}):
        both(gates.manifest(gates.artifact(bundles, rule)))
    both(gates.manifest(gates.artifact(), gates.artifact(["", gates.MESSAGE], name="b"), gates.artifact(root="s", name="c"),
                        roots={"r": gates.ROOT, "s": "{}"}))
    both(gates.manifest(accepted=[]))
    for place in range(5):
        both(gates.manifest(accepted=[row for at, row in enumerate(gates.F.accepted()) if at != place]))
    both(gates.manifest(gates.artifact(root="s")))
    both(gates.manifest(gates.artifact(policy="q")))
    both(gates.manifest(artifacts=[]))
    both(json.dumps(gates.manifest())[:-1])
    for request in list(gates.hundreds())[:4]:
        both(request, WIDE[:2])


MOST_OF_REQUEST, MOST_OF_EXPLANATION = 100_000, 60_000  # bytes


def shortest_of_kinds(command):
    """The shortest request of each kind of explanation, with what is written and the status."""
    shortest = {}
    for text in explain_cases.requests(command, False):
        if len(text) > MOST_OF_REQUEST:
            continue
        found = explain_cases.explained(command, text)
        kind = explain_names.kind_of(found[0].split("\n")[-1])
        if len(found[0]) < MOST_OF_EXPLANATION and (kind not in shortest or len(text) < len(shortest[kind][0])):
            shortest[kind] = text, *found
    return shortest.values()


def explained():
    for words in EXPLAINED:
        command = words.removeprefix("explain,")
        group(f"`explain {command}`: the shortest request of each link with each cause and each list of members")
        for text, reply, status in shortest_of_kinds(command):
            run(words, text, WIDE[:2], (64, NEVER, 65536), reply.encode() + b"\n", status)


def other_words():
    group("Both fail: the read comes first")
    run("log", FIRST, (64, 2), (1, 3, 256), LOGGED, 0)
    run("log", "", (1, 0), (1, 0, 0), REFUSED, 2)
    group("Words that are not a command, and those that `main` answers itself: nothing is read")
    for words in ("x", "--help", "--version", "log,log", "questions", "questions,questions", "questions,consistency,log", "audit,audit", "questions,audit,audit", "witness,witness", "Witness", "gate,gate", "Gate", "Audit", "Log", "log,", "explain",
                  "explain,explain", "explain,log,log", "log,explain", "explain,questions", "explain,questions,log", "questions,explain,log", "explain,demo",
                  "Explain,log", "explain,Log", "explain,"):
        run(words, "12345", (1, 0), WIDE, USAGE, 64)
        for failing in range(4):
            run(words, "12345", STEADY, (2, failing, 256), USAGE, 64)
    group("A source with nothing left")
    for command in COMMANDS:
        run(command, "", STEADY, WIDE, REFUSED, 2)


def explanations():
    group("A reply that is explained: the source fails at each of its calls, the sink at each of its, or it has room for a part")
    for command in EXPLAINED:
        run(command, "", STEADY, WIDE, NOT_JSON, 2)
        for failing in range(8):
            run(command, "1234,", (1, failing), WIDE, NOT_JSON, 2)
        for failing in range(6):
            run(command, "1234,", STEADY, (12, failing, 256), NOT_JSON, 2)
        for room in (0, 15, 16, 17, len(NOT_JSON) - 1, len(NOT_JSON)):
            run(command, "1234,", STEADY, (64, NEVER, room), NOT_JSON, 2)


def demo():
    group("`demo N`: nothing is read, and the sink fails at each of its calls, or has room for a part of the text")
    for count in (1, 2, 3, 5, 70, 4095, 4096):
        for _ in range(2):
            run(f"demo,{count}", "12345", (1, 0), WIDE, demo_requests.shown(count).encode(), 0)
    for failing in range(9):
        run("demo,5", "12345", STEADY, (12, failing, 256), demo_requests.shown(5).encode(), 0)
    for room in (0, 1, 9, 10, 80, 81, 92, 93, 94):
        run("demo,5", "12345", STEADY, (64, NEVER, room), demo_requests.shown(5).encode(), 0)
    group("Words that are not `demo` and a number from 1 to 4096 in decimal digits")
    for words in NOT_DEMO:
        run(urllib.parse.quote(words, safe=","), "12345", (1, 0), WIDE, USAGE, 64)
        for failing in range(4):
            run(urllib.parse.quote(words, safe=","), "12345", STEADY, (2, failing, 256), USAGE, 64)
    group("The request of `demo`: the SHA-256 of its text, its length, and what `log` replies to it")
    for count in (*range(1, 71), 127, 128, 129, 1000, demo_requests.MOST - 1, demo_requests.MOST):
        text = demo_requests.request(count).encode()
        TABLE.case(f"request {count}", f"{hashlib.sha256(text).hexdigest()} {len(text)} 0 {demo_requests.reply(count).encode().hex()}")


def main():
    TABLE.note("`run` over a source that gives pieces, and a sink that takes pieces: the status, what was written, what is left.")
    pieces()
    failing_calls()
    grown_trees()
    audited_logs()
    kept_heads()
    gated_artifacts()
    explained()
    other_words()
    explanations()
    demo()
    TABLE.write()


if __name__ == "__main__":
    main()
