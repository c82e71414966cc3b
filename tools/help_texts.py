"""The texts that `--help` of the program and of the adapters write, in parts, from which man pages and completions are made."""
import collections
import pathlib
import re
import sys
import types

TOP = pathlib.Path(__file__).resolve().parent.parent
SOURCE = TOP / "crates/sigverify/src/help.rt"
ADAPTERS = TOP / "adapters/openssl"

# A line `term  text` of a text and what follows it, indented further. Terms end at two blanks.
Row = collections.namedtuple("Row", "term text")


def constant(name):
    """A text of the program's source."""
    found, = re.findall(rf'(?s)const {name}: &str = "(.*?)(?<!\\)";', SOURCE.read_text(encoding="utf-8"))
    return re.sub(r"\\n", "\n", found.replace("\\\n", "")).replace('\\"', '"')


def adapters():
    """What sigverify-bundle and sigverify-checked say; the texts need no OpenSSL."""
    kept = sys.dont_write_bytecode, sys.path[:], sys.modules.get("genuine")
    sys.dont_write_bytecode = True
    sys.path.insert(0, str(ADAPTERS))
    sys.modules["genuine"] = types.SimpleNamespace(is_genuine=None)
    try:
        import bundle
        import checked
    finally:
        sys.dont_write_bytecode, sys.path[:], genuine = kept
        del sys.modules["genuine"]
        if genuine:
            sys.modules["genuine"] = genuine
    return {"sigverify-bundle": bundle.HELP, "sigverify-checked": checked.help_text()}


def texts():
    """The texts, by the program's name."""
    return {"sigverify": constant("HELP"), **adapters()}


def version():
    return constant("VERSION").split()[1]


class Help:
    """A text in parts: what the program is for, its usage, paragraphs, rows of options, of commands and of the status."""

    def __init__(self, name, text):
        self.name = name
        self.about, self.paragraphs, self.options, self.commands, self.status = None, [], [], [], []
        blocks = re.split("\n\n+", text.strip("\n"))
        if blocks[0].startswith(f"{name} - "):
            self.about = blocks.pop(0).partition(" - ")[2]
            self.paragraphs.append(f"{name} {self.about}.")
        self.usage = usage_of(blocks.pop(0))
        for block in blocks:
            self._take(block)
        self.about = self.about or first_words(self.paragraphs[0])

    def _take(self, block):
        head, _, rest = block.partition("\n")
        if head == "commands:":
            self.commands += commands_in(rest, self._terms())
        elif head == "status:":
            self.status += rows_in(rest)
        elif head.startswith("Status: "):
            self.status.append(Row(None, " ".join(block.removeprefix("Status: ").split())))
        elif not block.startswith(" "):
            self.paragraphs.append(" ".join(block.split()))
        elif self.commands:
            self.commands += commands_in(block, self._terms())
        else:
            self.options += rows_in(block)

    def _terms(self):
        """The words of the commands, by the usage."""
        return [words.removesuffix(" < REQUEST") for words in self.usage if not words.startswith("-")]


def usage_of(block):
    """The words after the name of each form of a command line."""
    lines, found = block.removeprefix("usage:").split("\n"), []
    for line in lines:
        if re.match(r" {1,7}sigverify", line):
            found.append(line.strip().partition(" ")[2])
        else:
            found[-1] += " " + line.strip()
    return found


def first_words(paragraph):
    about = re.split("[,.:]", paragraph)[0]
    return about[0].lower() + about[1:]


def rows_in(block):
    found = []
    for line in block.split("\n"):
        if re.match("  [^ ]", line):
            term, _, text = line.strip().partition("  ")
            found.append(Row(term, text.strip()))
        else:
            found[-1] = Row(found[-1].term, f"{found[-1].text} {line.strip()}".strip())
    return found


def commands_in(block, terms):
    """Commands, each with what is said about it: paragraphs, and lists of lines."""
    found = []
    for line in block.split("\n"):
        if re.match("  [^ ]", line):
            term = term_of(line.strip(), terms)
            found.append(Row(term, [line.strip()[len(term):].strip()]))
        elif re.match(" {9}[^ ]", line):
            add_words(found[-1].text, line.strip())
        else:
            add_line(found[-1].text, line[11:])
    return found


def term_of(line, terms):
    """The command, or the commands, at the head of a line."""
    one = "|".join(sorted(map(re.escape, terms), key=len, reverse=True))
    found = re.match(f"(?:{one})(?:, (?:{one}))*(?= |$)", line)
    if not found:
        sys.exit(f"{SOURCE}: no form of the usage has the command of the line: {line}")
    return found[0]


def add_words(parts, words):
    if parts and isinstance(parts[-1], str):
        parts[-1] = f"{parts[-1]} {words}".strip()
    else:
        parts.append(words)


def add_line(parts, line):
    if parts and isinstance(parts[-1], list):
        parts[-1].append(line)
    else:
        parts.append([line])
