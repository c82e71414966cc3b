"""A page of the manual, in the macros of man(7), made from what a program's `--help` says."""
import re

SPECIAL = {"\\": "\\e", "-": "\\-", "^": "\\(ha", "~": "\\(ti", "`": "\\(ga", "'": "\\(aq"}


def escaped(text):
    """A text as it is to be shown."""
    return re.sub(r"[\\^~`'-]", lambda found: SPECIAL[found[0]], text)


def words(text):
    """Words of a command line: what is typed is bold, and a placeholder is in italics."""
    def shown(word):
        if re.fullmatch("[A-Z]+", word):
            return f"\\fI{word}\\fR"
        return f"\\fB{escaped(word)}\\fR" if re.search(r"\w|-", word) and word != "and" else word
    return "".join(map(shown, re.split(r"([\w-]+)", text)))


def line(text):
    """A line of text, which is not a request of roff's."""
    return ("\\&" if text.startswith((".", "'")) else "") + escaped(text) + "\n"


def sentences(text):
    """A line for each sentence, as roff sets the space after one."""
    return re.sub(r"(?<=[a-z)`][.?]) (?=[A-Z])", "\n", text).split("\n")


def paragraph(text):
    return ".PP\n" + "".join(map(line, sentences(text)))


def body(parts):
    """What is said about a command: paragraphs, and lists of lines that are set as they are."""
    for part in parts:
        if isinstance(part, str):
            yield paragraph(part)
        else:
            yield ".RS 4\n.EX\n" + "".join(map(line, part)) + ".EE\n.RE\n"


def tagged(row):
    if row.term is None:
        return "".join(map(line, sentences(row.text)))
    return f".TP\n{words(row.term)}\n" + "".join(map(line, sentences(row.text)))


def section(title, content):
    return f".SH {title}\n{content}" if content else ""


def page(told, date, version, others):
    """The page of a program that `Help` describes; `others` are the pages to see also."""
    synopsis = ".br\n".join(f"\\fB{escaped(told.name)}\\fR {words(form)}\n" for form in told.usage)
    description = "".join(map(paragraph, told.paragraphs)).removeprefix(".PP\n")
    commands = "".join(f'.SS "{escaped(row.term)}"\n' + "".join(body(row.text)).removeprefix(".PP\n") for row in told.commands)
    return "".join([
        f".\\\" Made by tools/man_pages of what {told.name} --help writes.\n",
        f'.TH {escaped(told.name.upper())} 1 "{date}" "sigverify {version}" "User Commands"\n.nh\n.ad l\n',
        section("NAME", f"{escaped(told.name)} \\- {escaped(told.about)}\n"),
        section("SYNOPSIS", synopsis),
        section("DESCRIPTION", description),
        section("COMMANDS", commands),
        section("OPTIONS", "".join(map(tagged, told.options))),
        section("EXIT STATUS", "".join(map(tagged, told.status))),
        section("SEE ALSO", ",\n".join(f".BR {escaped(name)} (1)" for name in others).replace(" (1),", " (1),") + "\n")])
