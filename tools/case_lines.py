"""Lines of the programs of cases, for runs in which an allocation is refused: for each call, and for each kind of result that it has in the table, the
shortest line, and the longest of those that are not long. A kind whose lines are all very long is left out."""
import collections
import json
import pathlib
import re

import constraint_cases
import results
from failing import NO_MEMORY, Case

CRATES = pathlib.Path(__file__).resolve().parent.parent / "crates"
NOT_LONG, VERY_LONG = 4000, 20000  # bytes
FIRST = 12  # of a result's words, those that tell its kind
ENDED = 1  # the status of a program of cases that memory ran out for
UNMADE = "bad line"  # what is written where an argument, such as a key, could not be made


def names():
    """The programs of cases that have a table, without `_cases`."""
    return sorted(path.parent.name.removesuffix("_cases") for path in CRATES.glob("*_cases/stdin"))


def program(name):
    return CRATES / f"{name}_cases" / "out" / f"{name}_cases"


def kind_of(returned):
    """The kind of a result: `ok`, the error or a status, and which values are there, of which names and truth values tell themselves."""
    first, *values = results.normalized(returned).split(" ")[:FIRST]
    first = "_" if re.fullmatch("[0-9a-f]{64}", first) else first
    return " ".join([first, *(word if re.fullmatch("[A-Za-z_@(),-]+|[A-Z][A-Z0-9_]+", word) else "_" for word in values)])


def cause_of(call, returned):
    """Of a run of `explain` that wrote its last line, the command, the link and the cause, which tell its kind too."""
    written = returned.split(" ")[1] if call.startswith("run explain,") else ""
    if not written.endswith(b"}\n".hex()):
        return ""
    shown = json.loads(bytes.fromhex(written).decode().splitlines()[-1])
    return ", ".join(["", call.split(" ")[1], shown.get("link", "none"), *shown.get("cause", [])])


def table(name):
    """The calls of a table, each with what it returns."""
    folder = CRATES / f"{name}_cases"
    with open(folder / "stdin", encoding="utf-8") as calls, open(folder / "stdout", encoding="utf-8") as returned:
        for call, line in zip(calls, returned):
            if call.strip() and not call.startswith("#"):
                yield call.rstrip("\n"), line.rstrip("\n")


def chosen(rows):
    """The shortest of these rows, unless it is very long, and the longest that is not long, where that is another."""
    shortest = min(rows, key=lambda row: len(row[0]))
    if len(shortest[0]) > VERY_LONG:
        return []
    fitting = [row for row in rows if len(row[0]) <= NOT_LONG]
    longest = max(fitting, key=lambda row: len(row[0]), default=shortest)
    return [shortest, *([longest] if longest != shortest else [])]


def left_by(name, call):
    """What a call may write out of memory, as a pattern: of a layer what its table says that is left; of `run` its status, with nothing written,
    whatever is left of the source; of a caller's own check that it failed, which it takes for no."""
    if name == "run" and call.startswith("run "):
        return f"{UNMADE}|{NO_MEMORY} - [0-9]+"
    if name != "constraint":
        return UNMADE
    if not constraint_cases.LEFT:
        constraint_cases.markers()
        constraint_cases.applied()
    left = ["ok false"] if call.startswith("trusted ") else constraint_cases.LEFT.get(call, [])
    return "|".join(map(re.escape, [UNMADE, *left]))


def ends_of(name, call):
    """Whether a run of a call in which memory ran out may end so: with nothing written, or with a line that such a call leaves."""
    left = re.compile(f"(?:{left_by(name, call)})\n")

    def allowed(ended):
        if ended.status == 0:
            return left.fullmatch(ended.written.decode()) is not None
        return ended == (b"", ENDED)
    return allowed


def lines(name):
    """The lines of a program, and with each whether a run in which memory ran out may end so."""
    kinds = collections.defaultdict(list)
    for call, returned in table(name):
        kinds[call.split(" ")[0], kind_of(returned) + cause_of(call, returned)].append((call, returned))
    for (word, kind), rows in kinds.items():
        for call, returned in chosen(rows):
            case = Case(f"{name}_cases, {word}, {kind}", [], f"{call}\n".encode(), f"{returned}\n".encode(), 0)
            yield case, ends_of(name, call)
