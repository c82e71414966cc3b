"""Completions for bash of the words of the program and of the adapters, made from what their `--help` says."""
import re
import textwrap

HEAD = """\
# Completions for bash of sigverify, sigverify-bundle and sigverify-checked. Made by tools/man_pages of what --help writes.

# The words of the list that begin with the one at the cursor.
_sigverify_reply() {
  mapfile -t COMPREPLY < <(compgen -W "$1" -- "$2")
}

"""

# A command: the words that may follow those before the cursor.
OF_PROGRAM = """\
_sigverify() {
  case ${COMP_WORDS[*]:1:COMP_CWORD-1} in
%s  *) COMPREPLY=() ;;
  esac
}

"""

# An adapter: its words, where the one at the cursor begins with -, and else the bare words. Where there is none of these,
# bash completes the name of a file.
OF_ADAPTER = """\
%s() {
  COMPREPLY=()
  case ${COMP_WORDS[COMP_CWORD-1]} in
  %s) return ;;
  esac
  case ${COMP_WORDS[COMP_CWORD]} in
  -*) _sigverify_reply %s "${COMP_WORDS[COMP_CWORD]}" ;;
%s  esac
}

"""


def wrapped(words, between=""):
    """The words in lines of a shell."""
    return textwrap.fill(f"{between} ".join(words), 100, break_on_hyphens=False, break_long_words=False).replace("\n", " \\\n    ")


def quoted(words):
    return "'" + textwrap.fill(" ".join(words), 100, break_on_hyphens=False, break_long_words=False).replace("\n", "\n    ") + "'"


def of_program(told):
    """By the words before the cursor: those that may follow."""
    following = {}
    for form in told.usage:
        words = [word for word in form.removesuffix(" < REQUEST").split() if word != "|"]
        if form.startswith("-"):
            following.setdefault("", []).extend(words)
            continue
        for place, word in enumerate(words):
            if not word.isupper():
                following.setdefault(" ".join(words[:place]), []).append(word)
    cases = "".join(f"  '{before}') _sigverify_reply {quoted(dict.fromkeys(words))} \"${{COMP_WORDS[COMP_CWORD]}}\" ;;\n"
                    for before, words in following.items())
    return OF_PROGRAM % cases


def named_of(told):
    """The words of an adapter that begin with -, each with whether it takes a value."""
    found = {}
    for row in told.options:
        term = re.sub(" [A-Z]+$", "", row.term)
        first, *endings = re.split(", | and ", term)
        names = [first, *[re.sub("-[a-z]+$", ending, first) for ending in endings], *re.findall(r"^or (--[a-z-]+)", row.text)]
        found.update({name: term != row.term for name in names if name.startswith("--")})
    return {**found, "--help": False}


def of_adapter(told, function):
    named = named_of(told)
    bare = [row.text.split(", ") for row in told.options if row.term == "COMMAND"]
    words = f'  *) _sigverify_reply {quoted(bare[0])} "${{COMP_WORDS[COMP_CWORD]}}" ;;\n' if bare else ""
    valued = wrapped([name for name, takes in named.items() if takes], " |")
    return OF_ADAPTER % (function, valued, quoted(named), words)


def script(told_of):
    functions = {name: "_" + name.replace("-", "_") for name in told_of}
    yield HEAD
    for name, told in told_of.items():
        yield of_program(told) if told.commands else of_adapter(told, functions[name])
    for name, function in functions.items():
        yield f"complete {'' if told_of[name].commands else '-o default '}-F {function} {name}\n"
