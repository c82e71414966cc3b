"""The words of sigverify-bundle, the times that --now takes, and what the request is made of."""
import os
import subprocess
import tempfile

import bundle
import signed
from signed import IDENTITY, ISSUER, NOW, Signed
from test_common import ADAPTER, HERE, VERIFIED, compare_end, file_of, run, words_of

EXAMPLE = os.path.join(HERE, "example")
LIMIT = 1 << 24


def check_replies(results, program):
    """By the words that differ: the status, and the reply."""
    with tempfile.TemporaryDirectory() as folder:
        signed.write(folder, Signed())
        other = file_of(folder, "other", b"another artifact\n")
        cut = file_of(folder, "cut.json", b"{")
        long = file_of(folder, "long.json", b" " * LIMIT)
        cut_letter = file_of(folder, "letters.json", b" " + "\u00e9".encode() * (LIMIT // 2))
        for status, reply, changes in [
                (0, VERIFIED, {}), (0, VERIFIED, {"now": None}), (0, VERIFIED, {"now": "2023-12-14T01:00:00+01:00"}),
                (0, VERIFIED, {"now": "2023-12-14T00:00:00.5Z"}),
                (1, "refused fulcio", {"now": "2022-12-31T23:59:59Z"}),
                (1, "refused fulcio", {"now": "2023-01-01T00:30:00+01:00"}), (1, "refused fulcio", {"now": 0}),
                (0, VERIFIED, {"now": "2023-01-01T00:00:00Z"}),
                (1, "refused policy", {"identity": IDENTITY + "x"}), (1, "refused policy", {"issuer": "https://x"}),
                (1, "refused policy", {"identity": ISSUER, "issuer": IDENTITY}),
                (1, "refused policy", {"identity": "\u00e9"}), (1, "refused policy", {"identity": "-x"}),
                (1, "refused subject", {"artifact": other}), (1, "refused bundle-json", {"bundle": cut}),
                (1, "refused root-json", {"trusted_root": cut}), (2, "refused request", {"now": 2 ** 63}),
                (2, "refused request", {"bundle": long}), (2, "refused request", {"bundle": cut_letter})]:
            gave = run(words_of(folder, program, **changes))
            results.compare(f"the words {changes}", gave, (status, reply + "\n", ""))
        signed.write(folder, Signed(content="message"))
        gave = run(words_of(folder, program, artifact=other))
        results.compare("another artifact than the signed one", gave, (1, "refused signature\n", ""))


# What begins with -, and what is given twice.

MISUSED = [
    ["--help"], ["-h"], ["--version"], ["-x"], ["-5"], ["-"], ["- x"], ["-h x"], ["--print-request=yes"],
    ["--print-request="],
    ["--ident=x"], ["--now"], ["--now", "-5"], ["--now", "--"], ["--help=yes"], ["--offline"], ["--=x"], ["---"],
    ["artifact"], ["--", "artifact"], ["--", "--"], ["--print-request", "--print-request"], [""]]


def check_misuse(results, program):
    with tempfile.TemporaryDirectory() as folder:
        signed.write(folder, Signed())
        given = words_of(folder, program)
        for more in MISUSED:
            compare_end(results, f"and {more}", given + more, "see --help")
            compare_end(results, f"{more} before", more + given, "see --help")
        for at, word in enumerate(given):
            name, equals, value = word.partition("=")
            compare_end(results, f"{word} twice", given + [word], "twice" if equals else "beside one artifact alone")
            if equals:
                compare_end(results, f"{name} of nothing", [*given[:at], name + "=", *given[at + 1:]], "is empty")
                compare_end(results, f"{name} at the end", [*given[:at], *given[at + 1:], name], "needs a value")
                compare_end(results, f"{name} -- ", [*given[:at], *given[at + 1:], name, "--bundle"], "needs a value")
                compare_end(results, f"{name}, then {word}", given + [name, value], "twice")
        for missing in "trusted_root", "identity", "issuer":
            compare_end(results, f"no {missing}", words_of(folder, program, **{missing: None}), "is missing")
        compare_end(results, "no bundle", words_of(folder, program, bundle=None), "artifact.sigstore.json: No such file")
        compare_end(results, "no artifact", given[:-1], "ARTIFACT is missing")
        compare_end(results, "-- and no artifact", given[:-1] + ["--"], "ARTIFACT is missing")
        compare_end(results, "no words", [], "is missing")
        for name in "identity", "issuer":
            latin = [word for word in given if not word.startswith(f"--{name}=")] + [f"--{name}=".encode() + b"\xff"]
            compare_end(results, f"{name} in another encoding", latin, "not UTF-8")


def check_names(results, program):
    """Artifacts whose names look like words: nothing is verified without --, and the artifact after it."""
    with tempfile.TemporaryDirectory() as folder:
        signed.write(folder, Signed())
        *given, artifact = words_of(folder, program)
        for name in "-h", "--help", "--print-request", "--", "-5", "-", "--bundle=x", "a\nb", "a b", "\u00e9", b"\xff":
            path = file_of(os.fsencode(folder), os.fsencode(name), b"an artifact\n")
            for words in [given + ["--", name], ["--", name]]:
                words = words if words[0] != "--" else given + words
                results.compare(f"the artifact {name!r}", run(words, cwd=folder), (0, VERIFIED + "\n", ""))
            with open(path, "ab") as file:
                file.write(b"changed")
            gave = run([*given, "--", name], cwd=folder)
            results.compare(f"the changed artifact {name!r}", gave, (1, "refused subject\n", ""))
            if os.fsencode(name)[:1] == b"-":
                compare_end(results, f"no -- before {name!r}", given + [name], "see --help", cwd=folder)
            os.remove(path)
        split = [part for word in given for part in word.split("=", 1)]
        results.compare("values that stand apart", run(split + [artifact]), (0, VERIFIED + "\n", ""))
        results.compare("the artifact first", run([artifact] + given), (0, VERIFIED + "\n", ""))
        results.compare("-- and the artifact", run([*given, "--", artifact]), (0, VERIFIED + "\n", ""))


def check_help(results, program):
    for word in "--help", "-h":
        results.compare(word, run([word]), (0, bundle.HELP, ""))
    compare_end(results, "help twice", ["--help", "--help"], "see --help")
    compare_end(results, "help as an artifact", ["--", "--help"], "is missing")


# RFC 3339 section 5.6, with the examples of 5.8, and what else ISO 8601 has.

TIMES = {
    "0": 0, "1702512000": NOW, "9223372036854775808": 2 ** 63, "1970-01-01T00:00:00Z": 0,
    "2023-12-14T00:00:00Z": NOW, "2023-12-14t00:00:00z": NOW, "2023-12-14T00:00:00.999999999999Z": NOW,
    "2023-12-14T00:00:00-00:00": NOW, "2023-12-14T14:30:00+14:30": NOW, "2023-12-13T00:01:00-23:59": NOW,
    "1985-04-12T23:20:50.52Z": 482196050, "1996-12-19T16:39:57-08:00": 851042397, "1990-12-31T23:59:60Z": 662688000,
    "1990-12-31T15:59:60-08:00": 662688000, "1937-01-01T12:00:27.87+00:20": -1041337173,
    "2024-02-29T00:00:00Z": 1709164800,
    "1969-12-31T23:59:59.5Z": -1, "0000-01-01T00:00:00Z": -62167219200, "0000-12-31T23:59:59Z": -62135596801,
    "0001-01-01T00:00:00Z": -62135596800, "9999-12-31T23:59:59Z": 253402300799,
    "9999-12-31T23:59:59-23:59": 253402387139}
NO_TIMES = [
    "20231214T000000Z", "2023-12-14T00:00:00zz", "2023-W50-4T00:00:00Z", "2023-348T00:00:00Z", "2023-12-14T00:00:00,5Z",
    "2023-12-14 00:00:00Z", "2023-12-14_00:00:00Z", "2023-12-14T00:00Z", "2023-12-14T00Z", "2023-12-14", "2023-12",
    "2023-12-14T00:00:00", "2023-12-14T00:00:00.Z", "2023-12-14T00:00:00+01", "2023-12-14T00:00:00+0100",
    "2023-12-14T00:00:00+01:00:00", "2023-12-14T00:00:00+24:00", "2023-12-14T00:00:00+01:60", "2023-12-14T00:00:00 Z",
    "2023-12-14T00:00:00\u221201:00", "2023-12-14T24:00:00Z", "2023-12-14T00:60:00Z", "2023-12-14T00:00:60Z",
    "2023-12-14T00:00:61Z", "2023-12-14T23:59:60Z", "2016-12-31T22:59:60Z", "2016-12-31T23:59:60+01:00",
    "2023-02-29T00:00:00Z", "2023-04-31T00:00:00Z", "2023-13-01T00:00:00Z", "2023-00-01T00:00:00Z",
    "2023-01-00T00:00:00Z",
    "02023-12-14T00:00:00Z", "+2023-12-14T00:00:00Z", "-2023-12-14T00:00:00Z", "23-12-14T00:00:00Z",
    "2023-12-14T00:00:00Z\n", "\n2023-12-14T00:00:00Z", " 1702512000", "1702512000 ", "1702512000\n", "+1", "-1", "-0",
    "01", "00", "1e9", "1_000", "0x10", "1.5", "1,5", "\uff11", "2023-12-14T00:00:0\u0660Z", "9" * 20, "1" * 5000,
    "now",
    "1970-01-01T00:00:00Z/1970-01-02T00:00:00Z", "P1D", "inf", "nan", "9999-12-31T23:59:60Z"]


def check_times(results, program):
    for text, seconds in TIMES.items():
        results.compare(f"the time {text}", bundle.seconds_of(text), seconds)
    for text in NO_TIMES:
        try:
            gave = bundle.seconds_of(text)
        except SystemExit as end:
            gave = end.code.startswith("--now")
        results.compare(f"the time {text!r}", gave, True)
    with tempfile.TemporaryDirectory() as folder:
        signed.write(folder, Signed())
        for text in "soon", "2023-12-14T00:00:00", "2023-12-14T00:00:00zz", "2023-02-29T00:00:00Z", "-1", "1.5":
            compare_end(results, f"the time {text!r}", words_of(folder, program, now=text), "--now")
        compare_end(results, "no such time", words_of(folder, program, now="20231214T000000Z"),
                    "--now takes a time of RFC 3339 as 2023-12-14T00:00:00Z, or seconds since 1970")


# What --print-request writes is a request, to which the program gives the same reply.

def check_request(results, program):
    for parts in dict(), dict(spoiled="note"), dict(authority=("RSA-PSS", "SHA512")):
        with tempfile.TemporaryDirectory() as folder:
            signed.write(folder, Signed(**parts))
            status, request, said = run(words_of(folder, program, identity="\u00e9\"\\\u2028") + ["--print-request"])
        done = subprocess.run([program, "verify"], input=request.encode(), capture_output=True)
        results.compare("the printed request", (done.returncode, done.stdout.decode()), (status, said))
        results.compare("its text", "\\u00e9" in request or ", " in request or request.count("\n") != 1, False)
        listed = subprocess.run([program, "questions", "verify"], input=request.encode(), capture_output=True).stdout
        fits = not parts.get("spoiled") and not request.endswith(',"accepted":' + listed.decode().strip() + "}\n")
        results.compare("its list, as it was written", fits, False)


def check_limit(results, program):
    """A request and its list that fit together, of 2^24 bytes, are verified; with one byte more they are refused."""
    made = Signed()
    with tempfile.TemporaryDirectory() as folder:
        signed.write(folder, made)

        def padded(count):
            text = signed.compact({**made.trusted_root(), "ignored": "x" * count})
            return words_of(folder, program, trusted_root=file_of(folder, "padded.json", text.encode()))
        room = LIMIT - len(run(padded(0) + ["--print-request"])[1].rstrip("\n").encode())
        for more, wanted in (0, (0, VERIFIED + "\n", "")), (1, (2, "refused request\n", "")):
            results.compare(f"{LIMIT + more} bytes", run(padded(room + more)), wanted)


def check_example(results, program):
    results.compare("the example", run(words_of(EXAMPLE, program, now=None)), (0, VERIFIED + "\n", ""))
    with tempfile.TemporaryDirectory() as folder:
        link = os.path.join(folder, "a link")
        os.symlink(ADAPTER, link)
        done = subprocess.run([link, *words_of(EXAMPLE, program)], capture_output=True, cwd=folder)
        results.compare("by a link", (done.returncode, done.stdout), (0, VERIFIED.encode() + b"\n"))


PARTS = check_replies, check_misuse, check_names, check_help, check_times, check_request, check_limit, check_example
