#!/usr/bin/env python3
"""Draws which crate stands on which, as the picture at the head of docs/ARCHITECTURE.md, from crates.txt, whose headings are the floors.

    tools/floors.py          writes the picture into the document, in place of the one that is there
    tools/floors.py check    says whether the one that is there is that of crates.txt

Crates for tests are left out, and so is a line to a crate to which another line of the same crate leads. Other programs
use this file to read crates.txt, and to find the files from which a crate is built."""
import pathlib
import sys

TOP = pathlib.Path(__file__).resolve().parent.parent
DOCUMENT = TOP / "docs/ARCHITECTURE.md"
BEGIN, END = "```mermaid\n", "```\n"


def is_for_tests(crate):
    return crate.endswith("_cases") or crate == "sig_bench"


def dependencies():
    """What each crate depends on, of this repository and of the kit."""
    lines = (line.partition("#")[0] for line in (TOP / "crates.txt").read_text().splitlines())
    rows = (line.partition(":") for line in lines if ":" in line)
    return {name.split()[0]: on.split() for name, _, on in rows}


def floors():
    """The crates of each floor, by the heading's words before its colon, and what each crate depends on."""
    found, name = {}, None
    for line in (TOP / "crates.txt").read_text().splitlines():
        if line.startswith("#"):
            name = line[1:].strip().rstrip(".").split(":")[0]
        elif ":" in line and not is_for_tests(crate := line.split(":")[0].split()[0]):
            found.setdefault(name, []).append(crate)
    on = {crate: others for crate, others in dependencies().items() if not is_for_tests(crate)}
    return found, {crate: [other for other in others if other in on] for crate, others in on.items()}


def below(on, crate):
    """All crates of this repository that a crate stands on."""
    found = [crate]
    for name in found:
        found += [other for other in on[name] if other in on and other not in found]
    return found[1:]


def sources(crates):
    """The files from which crates are built, and their folders, which become newer if a file is removed."""
    yield TOP / "crates.txt"
    for folder in (TOP / "crates" / name / part for name in crates for part in ("src", "specs")):
        if folder.is_dir():
            yield folder
            yield from folder.rglob("*")


def drawn():
    found, on = floors()
    yield "flowchart TB\n"
    for place, (floor, crates) in enumerate(found.items()):
        yield f'  subgraph floor{place} ["{floor}"]\n    {"; ".join(crates)}\n  end\n'
    for crate, others in on.items():
        for other in sorted(set(others) - {further for direct in others for further in below(on, direct)}, key=others.index):
            yield f"  {crate} --> {other}\n"


def main(words):
    text = DOCUMENT.read_text()
    before, rest = text.split(BEGIN, 1)
    whole = before + BEGIN + "".join(drawn()) + END + rest.split(END, 1)[1]
    if words == ["check"]:
        if whole != text:
            print("floors.py: the picture of docs/ARCHITECTURE.md is not that of crates.txt", file=sys.stderr)
        return int(whole != text)
    DOCUMENT.write_text(whole)
    return 0


if __name__ == "__main__":
    sys.exit(main(sys.argv[1:]))
