"""Asks sigverify for the signatures of a request, OpenSSL for the genuine ones, and sigverify for the reply."""
import collections
import functools
import importlib.util
import json
import os
import re
import subprocess
import sys

import explain_words
from genuine import is_genuine
from words import misused, read_words, write

MOST_BYTES = 1 << 24  # of a request
# How many signatures are verified for a request: for one note or one bundle, and for requests that have many.
MOST_ROWS = {**dict.fromkeys(["log", "verify", "consistency"], 1024), **dict.fromkeys(["audit", "witness", "gate"], 16384)}
SIGVERIFY = os.path.join(os.path.dirname(os.path.realpath(__file__)), "..", "..", "sigverify")
HELP = """\
usage: sigverify-checked [--explain | --json] [--print-request] [--sigverify PROGRAM] COMMAND < REQUEST
       sigverify-checked --help

Runs a command of sigverify on a request, of which OpenSSL verifies the signatures.

  COMMAND              %s
  --explain            write after the reply, in at most ten lines, why it is refused, or what was verified; of witness
                       this follows the state, which is to be kept without it
  --json               write instead, after the reply, the line of JSON that `sigverify explain` gives
  --print-request      write the request, with `accepted`, to standard output, and the reply to standard error
  --sigverify PROGRAM  else that of this repository, or the installed one

The request is JSON of at most 2^24 bytes, without `accepted`, or with one that does not count. There is no
reply where more than 1,024 signatures would have to be verified; of audit, witness and gate, more than 16,384.

Status: that of the reply, 0 if every link of the command holds, 1 and 2 if not; 3, as any other, there was no reply.
"""

# What a reply is, by its status; the list of `questions` has status 0, and `explain` writes a line of JSON after a reply.
REFUSED = {1: b"refused [0-9a-z-]+\n", 2: b"refused request\n"}
REFUSED_AT = {1: b"refused [0-9a-z-]+ [0-9]+\n", 2: b"refused request\n"}
LIST = rb"(?s)\[.*\]\n"
EXPLANATION = rb"\{[^\n]*\}\n"
OF_ENTRIES = b"(?:(?:entry|prefix|prefixes) [0-9]+\n|other list\n|collision [0-9a-f]+ [0-9a-f]+\n)?"
REPLIES = {command: {0: b"%s [0-9]+ [0-9]+\n%s" % (word, OF_ENTRIES), **REFUSED}
           for command, word in (("log", b"logged"), ("verify", b"verified"), ("consistency", b"consistent"))}
REPLIES["audit"] = {0: b"audited [0-9]+ [0-9]+ [0-9]+\n%s" % OF_ENTRIES, **REFUSED_AT}
# A line for each update, an empty line, and five for each origin; with status 1 one of the updates is refused.
STATE = rb"\n(?:[^\n]+\n[A-Z0-9_]+\n[0-9A-Za-z+/=]*\n[0-9]+\n[0-9A-Za-z+/]{43}=\n)*"
NOT_KEPT = rb"refused (?:checkpoint|origin|note-key|old-size [0-9]+|consistency|full)\n"
KEPT = rb"accepted [0-9]+\n"
REPLIES["witness"] = {0: b"(?:%s)*%s" % (KEPT, STATE), 1: b"(?:%s)*%s(?:%s|%s)*%s" % (KEPT, NOT_KEPT, KEPT, NOT_KEPT, STATE), 2: REFUSED[2]}
# For each artifact a line, and one for each of its bundles; and how many are admitted. With status 1 one of them is not.
NAME = rb"[!-~]{1,256}"
BUNDLES = rb"(?:bundle [0-9]+ (?:verified -?[0-9]+ [0-9]+|refused [0-9a-z-]+)\n)*"
ADMITTED = b"artifact %s admit\n%s" % (NAME, BUNDLES)
DENIED = b"artifact %s deny (?:none|rule)\n%s" % (NAME, BUNDLES)
COUNTED = rb"admitted [0-9]+ of [0-9]+\n"
REPLIES["gate"] = {0: b"(?:%s)+%s" % (ADMITTED, COUNTED), 1: b"(?:%s)*%s(?:%s|%s)*%s" % (ADMITTED, DENIED, ADMITTED, DENIED, COUNTED), 2: REFUSED[2]}


def help_text():
    return HELP % ", ".join(REPLIES)


def compact(value):
    """JSON in the fewest bytes, as sigverify writes its lists."""
    return json.dumps(value, ensure_ascii=False, separators=(",", ":")).encode()


@functools.lru_cache(maxsize=None)
def library():
    """adapters/python/sigverify.py, if its library is there and up to date; else None."""
    path = os.path.join(os.path.dirname(SIGVERIFY), "adapters", "python", "sigverify.py")
    if not os.path.isfile(path):
        return None
    spec = importlib.util.spec_from_file_location("sigverify", path)
    module = importlib.util.module_from_spec(spec)
    spec.loader.exec_module(module)
    return module if module.is_current() else None


def ended(program, words, request):
    """How a program ended, and what it wrote. In place of this repository's own program the library is called, if it is there."""
    try:
        if program == SIGVERIFY and library():
            return library().reply(words, request)
        done = subprocess.run([program, *words], input=request, stdout=subprocess.PIPE)
    except OSError as error:
        sys.exit(f"no reply: {program}: {error.strerror or error}")
    return done.returncode, done.stdout


def run(program, words, request, replies):
    """The program's reply, and its status. Whatever else the program does is not a reply."""
    title = " ".join([program, *words])
    status, said = ended(program, words, request)
    if status not in replies:
        sys.exit(f"no reply: {title} ended with status {status}")
    if not re.fullmatch(replies[status], said):
        sys.exit(f"no reply: what {title} wrote is not a reply of status {status}")
    return said, status


def genuine_of(command, listed):
    """The rows of a list that are genuine. One that is too long is refused before any is verified."""
    try:
        rows = json.loads(listed)
        if len(rows) > MOST_ROWS[command]:
            sys.exit(f"no reply: `questions {command}` lists {len(rows):,} signatures, and at most {MOST_ROWS[command]:,} are verified")
        return [row for row in rows if is_genuine(row)]
    except (AttributeError, KeyError, RecursionError, TypeError, ValueError):
        return sys.exit(f"no reply: what `questions {command}` wrote is not a list of signatures")


# A reply to a request with the rows that are accepted, its status, and the JSON that explains it, if that is asked for.
Answer = collections.namedtuple("Answer", "request reply status explanation")


def explains(words):
    return "--explain" in words or "--json" in words


def explained(program, command, request, replies):
    """The reply, its status, and the line of JSON after it."""
    patterns = {status: b"(?:%s)%s" % (reply, EXPLANATION) for status, reply in replies.items()}
    said, status = run(program, ["explain", command], request, patterns)
    end = said.rindex(b"\n", 0, -1) + 1
    return said[:end], status, said[end:]


def refused(program, command, request, said, replies):
    """The line of JSON that explains a reply of `questions`, whatever is accepted. What only `questions` refuses has no room
    for the list beside it, and is explained as a request that is too long."""
    for text in request, request.ljust(MOST_BYTES + 1):
        *again, explanation = explained(program, command, text, replies)
        if again == said:
            return explanation
    return sys.exit(f"no reply: {program} questions {command} and explain {command} say two different things")


def answer(program, command, request, replies, with_explanation=False):
    """The reply to a request. The rows come before its last brace, byte for byte as listed, since sigverify lists what fits
    in there."""
    listed, status = run(program, ["questions", command], request, {**replies, 0: LIST})
    if status != 0:
        explanation = refused(program, command, request, [listed, status], replies) if with_explanation else None
        return Answer(request, listed, status, explanation)
    end = request.rindex(b"}")
    comma = b"" if request[:end].rstrip(b" \t\r\n").endswith(b"{") else b","  # after the members that there are
    answered = request[:end] + comma + b'"accepted":' + compact(genuine_of(command, listed)) + request[end:]
    if with_explanation:
        return Answer(answered, *explained(program, command, answered, replies))
    return Answer(answered, *run(program, [command], answered, replies), None)


def put(words, command, found, line):
    """Writes the line of a reply, and what explains it; and before them the request, if that is asked for."""
    beside = 2 if "--print-request" in words else 1
    members = explain_words.read(found.explanation) if explains(words) else None
    if members is not None:
        line += found.explanation if "--json" in words else explain_words.text(command, members)
    if "--print-request" in words:
        write(1, found.request + b"\n")
    write(beside, line)
    return found.status


def reply(words, command, request, replies):
    """The status of the reply, once that is written."""
    found = answer(words.get("--sigverify", SIGVERIFY), command, request, replies, explains(words))
    return put(words, command, found, found.reply)


def given_request():
    """What standard input gives, or enough of it for a request that is refused as too long."""
    parts, left = [], MOST_BYTES + 1
    try:
        while left and (part := os.read(0, min(left, 1 << 20))):
            parts.append(part)
            left -= len(part)
    except OSError as error:
        sys.exit(f"standard input cannot be read: {error.strerror}")
    return b"".join(parts)


def main(given):
    """The status of the reply to the request of standard input."""
    if given in (["--help"], ["-h"]):
        write(1, help_text().encode())
        return 0
    words, unnamed = read_words(given, {"--sigverify": "--sigverify"})
    if "--staging" in words:
        misused("--staging is not a word here")
    if len(unnamed) != 1:
        misused("COMMAND is given twice" if unnamed else "COMMAND is missing")
    [[command, _]] = unnamed
    if command not in REPLIES:
        misused(f"{command} is not a command here: {', '.join(REPLIES)}")
    return reply(words, command, given_request(), REPLIES[command])
