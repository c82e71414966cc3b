#!/usr/bin/env python3
"""Draws the tree of docs/PICTURES.md, and compares the arrows of its other pictures with the links.

    tools/pictures.py          writes the tree into the document, in place of the one that is there
    tools/pictures.py check    says what differs: the tree, or which links a picture lacks or has beside those of its command

The links of a command are those that docs/LINKS.md names in the command's section, in the first cells of its table and in the text above it;
all pictures together have the names that the program writes. The tree is that of `demo`, by the second implementation in tools/demo_requests.py."""
import pathlib
import re
import sys

sys.dont_write_bytecode = True

import demo_requests as demo

TOP = pathlib.Path(__file__).resolve().parent.parent
DOCUMENT = TOP / "docs/PICTURES.md"
LINKS = TOP / "docs/LINKS.md"
BEGIN, END = "<!-- written by tools/pictures.py -->\n", "<!-- to here -->\n"
COUNT, INDEX = 5, 2  # the entries of the log that is drawn, and the entry that is shown


# The links.

def names_of_program():
    """The names that replies have, from the sources: `Link::Kind => "name"`, `refused_at(alloc, "name", ..)`, and the lines "refused name"."""
    texts = [path.read_text() for path in sorted(TOP.glob("crates/*/src/*.rt"))]
    forms = r'\w*Link::\w+ => "([a-z-]+)"|refused_at\(\s*alloc,\s*"([a-z-]+)"|"refused ([a-z-]+)(?:\\n)?"'
    return {name for text in texts for names in re.findall(forms, text) for name in names if name}


def sections(path):
    """The text below each heading of a command."""
    return dict(re.findall(r"(?ms)^## `([a-z]+)`\n(.*?)(?=^## |\Z)", path.read_text()))


def links_of(section, names):
    """The links that a section of LINKS.md names, above its table and in its first cells."""
    lead = section.split("\n| ", 1)[0]
    cells = re.findall(r"(?m)^\| `([a-z-]+)` \|", section)
    return set(cells) | {name for name in re.findall("`([a-z-]+)`", lead) if name in names}


def arrows_of(section):
    return set(re.findall(r"(?m)^  \w+ -->\|([a-z-]+)\| \w+$", section))


def faults():
    """What differs between the pictures, the tables of LINKS.md and the program."""
    names, pictures = names_of_program(), {command: arrows_of(section) for command, section in sections(DOCUMENT).items()}
    tables = {command: links_of(section, names) for command, section in sections(LINKS).items() if "\n| `" in section}
    for command in sorted({*pictures, *tables}):
        yield from differing(f"the picture of {command}", pictures.get(command, set()), tables.get(command, set()))
    yield from differing("the whole of the pictures", set().union(*pictures.values()), names)


def differing(title, pictured, wanted):
    for name in sorted(wanted - pictured):
        yield f"{title} has not the link {name}"
    for name in sorted(pictured - wanted):
        yield f"{title} has {name}, which is not a link there"


# The tree.

def node(first, last):
    return f"n{first}_{last}"


def drawn(first, last, entries, kind):
    """The lines of the tree over the entries from `first` to below `last`: `kind` is that of its uppermost node."""
    digest = demo.root_of(entries[first:last]).hex()[:8]
    title = f"leaf {first}" if last - first == 1 else f"{first} to {last - 1}"
    yield f'  {node(first, last)}["{title}<br>{digest}.."]:::{kind}\n'
    if last - first > 1:
        at = first + demo.split(last - first)
        for low, high in (first, at), (at, last):
            below = "beside" if kind != "computed" else "computed" if low <= INDEX < high else "given"
            yield from drawn(low, high, entries, below)
            yield f"  {node(first, last)} --- {node(low, high)}\n"
    else:
        yield f'  e{first}(["{entries[first].decode()}"])\n  {node(first, last)} --- e{first}\n'


def tree():
    """The tree, and what it shows."""
    entries = demo.entries_of(COUNT)
    path = [f"`{digest.hex()[:8]}..`" for digest in demo.path_of(INDEX, entries)]
    yield (f"The tree of `demo {COUNT}`, with the first digits of each hash (RFC 6962 section 2.1). Entry {INDEX}, `{entries[INDEX].decode()}`, is "
           f"shown by its audit path, {', '.join(path[:-1])} and {path[-1]}, the nodes with a thick border. From the entry and these the nodes with a "
           "dashed border are computed, from the leaf up, and the uppermost has to be the root hash that the log signed. No other node is needed.\n\n")
    yield "```mermaid\nflowchart TB\n"
    yield from drawn(0, COUNT, entries, "computed")
    yield "  classDef computed stroke-dasharray: 5 5\n  classDef given stroke-width:4px\n  classDef beside stroke-width: 1px\n```\n"


def main(words):
    text = DOCUMENT.read_text()
    before, rest = text.split(BEGIN)
    whole = before + BEGIN + "".join(tree()) + END + rest.split(END)[1]
    if words != ["check"]:
        DOCUMENT.write_text(whole)
        return 0
    found = [*faults(), *["the tree is not that of tools/pictures.py"] * (whole != text)]
    for fault in found:
        print(f"docs/PICTURES.md: {fault}", file=sys.stderr)
    return int(bool(found))


if __name__ == "__main__":
    sys.exit(main(sys.argv[1:]))
