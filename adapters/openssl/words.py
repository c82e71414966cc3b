"""What the adapters read of their words, and how they write."""
import os
import sys

from start import is_abandoned

FLAGS = "--explain", "--json", "--print-request", "--staging"  # the words without a value


def write(number, content):
    """All of the content to standard output, 1, or standard error, 2, if the status after it is going to be seen."""
    if is_abandoned():
        sys.exit("the shell that started this has ended")
    left = memoryview(content)
    try:
        while left:
            left = left[os.write(number, left):]
    except OSError as error:
        sys.exit(f"standard {'output' if number == 1 else 'error'} cannot be written: {error.strerror}")


def misused(message):
    sys.exit(f"{message}; see --help")


def read_words(given, names):
    """The values by their names, and the words without one, each with whether it follows --. `names` has for each word
    that takes a value the name of the value, which is given once, by one of its words. Nothing is guessed: what begins
    with - and has more is a word of the help, or follows --."""
    found, unnamed, rest = {}, [], iter(given)

    def keep(name, value):
        if name in found:
            misused(f"{name} is given twice")
        if value == "":
            misused(f"{name} is empty")
        found[name] = value

    for word in rest:
        name, equals, value = word.partition("=")
        if word == "--":
            unnamed += [(each, True) for each in rest]
        elif not word.startswith("-") or word == "-":
            unnamed.append((word, False))
        elif word in FLAGS:
            keep(word, word)
        elif name not in names:
            misused(f"{word} is not a word here, or not beside others; for a name put -- before it")
        else:
            value = value if equals else next(rest, "-")
            if not equals and value.startswith("-"):
                misused(f"{name} needs a value, and one that begins with - as {name}=VALUE")
            keep(names[name], value)
    if any(word == "" for word, _ in unnamed):
        misused("a word is empty")
    return found, unnamed


def utf8(name, word):
    """The text of a word, whose bytes are UTF-8 whatever the locale is."""
    try:
        return os.fsencode(word).decode()
    except UnicodeDecodeError:
        return sys.exit(f"{name} is not UTF-8")
