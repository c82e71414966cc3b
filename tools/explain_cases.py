#!/usr/bin/env python3
"""What `explain` of each command writes, beside a second implementation.

    tools/explain_cases.py                          writes the examples/explain-*.expected
    tools/explain_cases.py check PROGRAM [COMMAND]  gives requests to `PROGRAM explain COMMAND`, and compares what is written and the status: the rows of
                                                    `verify` and of tools/explain_rows.py, the requests of examples/COMMAND.requests, and one request
                                                    for each explanation from tools/request_fault_rows.py and crates/gate_cases
    tools/explain_cases.py all PROGRAM [COMMAND]    the same with all of these

The lines before the last are the reply of the second implementation of the command. Each name of an error's variant that an
explanation can have (crates/sig_explanation/specs/Names.antt) is shown by some request, or is among `UNSHOWN`, with its reason."""
import concurrent.futures
import functools
import json
import os
import pathlib
import subprocess
import sys

sys.dont_write_bytecode = True
import explain_audit
import explain_gate
import explain_head
import explain_names
import explain_requests
import explain_rows
import explain_verify
import explain_witness
import request_fault_rows
import verify_cases

TOP = pathlib.Path(__file__).resolve().parent.parent
LINES = {"log": explain_head.log_lines, "verify": explain_verify.lines, "consistency": explain_head.consistency_lines, "audit": explain_audit.lines,
         "witness": explain_witness.lines, "gate": explain_gate.lines}
EXAMPLES = ("verify", "verify-refused", "log", "log-wrong-path", "consistency-rewritten", "audit-forged", "witness-next", "gate-denied")


def explained(command, text):
    """What is written without its last newline, and the status."""
    return LINES[command](text)


# ---- the requests

def at(value, path):
    """The value at a path; None where there is no value."""
    for step in path.split("."):
        if isinstance(value, list):
            value = value[int(step)] if int(step) < len(value) else None
        else:
            value = value.get(step) if isinstance(value, dict) else None
    return value


def own_rows():
    """The requests of explain_rows.py, whose explanations have the members that are stated there."""
    import explain_rows_parts
    for group in explain_rows.GROUPS + explain_rows_parts.GROUPS:
        for row in group():
            found = explain_verify.explanation(row.text)
            for path, wanted in row.wanted.items():
                assert at(found, path) == wanted, (row.name, path, wanted, at(found, path))
            yield row.text


@functools.lru_cache(None)
def verify_rows():
    """The rows of `verify`, and those beside its table."""
    import verify_rows as rows
    for group in rows.GROUPS + rows.MORE:
        group()
    return [row.text for row in verify_cases.ROWS]


def stored(command):
    lines = (TOP / f"examples/{command}.requests").read_text(encoding="utf-8").split("\n")
    return [line for line in lines if line.startswith((" ", "{", "[", "\ufeff"))]


def texts_of(request):
    return request if isinstance(request, str) else json.dumps(request, **request_fault_rows.COMPACT)


def fault_texts(command):
    """The requests of request_fault_rows.py, and of `gate` the manifests of crates/gate_cases."""
    if command == "gate":
        lines = (TOP / "crates/gate_cases/stdin").read_text(encoding="utf-8").split("\n")
        yield from (line.partition(" ")[2] for line in lines if line.startswith("manifest "))
    if command in request_fault_rows.REQUESTS:
        for make in (request_fault_rows.changed, request_fault_rows.broken, request_fault_rows.parts, request_fault_rows.texts):
            yield from map(texts_of, make(command))


def faulty(command, is_all):
    """These requests: all of them, or one of each explanation."""
    shown = set()
    for text in dict.fromkeys(fault_texts(command)):
        found = explained(command, text)[0]
        if is_all or found not in shown:
            shown.add(found)
            yield text


def requests(command, is_all):
    """The requests of a command, each once."""
    given = [*verify_rows(), *own_rows()] if command == "verify" else stored(command)
    return list(dict.fromkeys([*given, *faulty(command, is_all), *explain_requests.long_texts(command)]))


# ---- the runs

def run(program, command, text):
    done = subprocess.run([program, "explain", command], input=text.encode(), stdout=subprocess.PIPE, check=False)
    return done.stdout.decode(errors="replace"), done.returncode


def differing(program, command, text, wanted):
    """What the program writes, where it is not what is wanted."""
    said = run(program, command, text)
    return None if said == (wanted[0] + "\n", wanted[1]) else said


def first_difference(said, wanted):
    """Two texts from where they differ."""
    at_most = min(len(said), len(wanted))
    place = next((place for place in range(at_most) if said[place] != wanted[place]), at_most)
    start = max(0, place - 60)
    return said[start:place + 200], wanted[start:place + 200]


def check(program, commands, is_all):
    """How many requests have another explanation, and how many names no explanation shows."""
    failed, shown = 0, set()
    for command in commands:
        texts = requests(command, is_all)
        wanted = [explained(command, text) for text in texts]
        with concurrent.futures.ThreadPoolExecutor(os.cpu_count()) as pool:
            differ = list(pool.map(lambda pair: differing(program, command, *pair), zip(texts, wanted)))
        for text, want, said in zip(texts, wanted, differ):
            shown |= explain_names.names_in(want[0].split("\n")[-1])
            if said is not None:
                failed += 1
                gave, wants = first_difference(said[0], want[0] + "\n")
                print(f"explain {command} of {text[:200]}\n  gave {gave!r} {said[1]}\n  and not {wants!r} {want[1]}")
        print(f"explain {command}: {len(texts)} requests")
    missing = explain_names.missing(shown) if commands == list(LINES) else []
    for name in missing:
        print(f"no explanation shows {name}")
    print(f"explanations: {failed} differ, {len(missing)} names missing")
    return failed + len(missing)


def write():
    for name in EXAMPLES:
        written, status = explained(name.split("-")[0], (TOP / f"examples/{name}.json").read_text(encoding="utf-8"))
        (TOP / f"examples/explain-{name}.expected").write_text(f"{written}\nstatus {status}\n", encoding="utf-8")


def main(words):
    if words[:1] in (["check"], ["all"]):
        return min(check(words[1], words[2:] or list(LINES), words[0] == "all"), 1)
    return write()


if __name__ == "__main__":
    sys.modules["explain_cases"] = sys.modules["__main__"]
    sys.exit(main(sys.argv[1:]))
