"""What the tests of the adapters share: results, runs, and the files that a run is given."""
import os
import subprocess
import sys

from signed import IDENTITY, ISSUER, NOW

HERE = os.path.dirname(os.path.abspath(__file__))
ADAPTER = os.path.join(HERE, "sigverify-bundle")
CHECKED = os.path.join(HERE, "sigverify-checked")
PYTHON = "/usr/bin/python3"
MODULES = "start", "genuine", "words", "times", "explain_table", "explain_words", "pattern", "checked", "bundle"
FILES = "sigverify-bundle", *[f"{name}.py" for name in MODULES]
VERIFIED = "verified 2 5"
NO_REPLY = 3


class Results:
    def __init__(self):
        self.passed = self.failed = 0

    def compare(self, title, gave, wanted):
        if gave == wanted:
            self.passed += 1
        else:
            self.failed += 1
            print(f"{title}: gave\n{gave}\nand not\n{wanted}", file=sys.stderr)


def run(words, start=(), adapter=ADAPTER, **options):
    """Status, standard output and standard error of an adapter, which its first line starts, or other words."""
    done = subprocess.run([*start, adapter, *words], capture_output=True, timeout=300, **options)
    return done.returncode, done.stdout.decode(), done.stderr.decode()


def compare_end(results, title, words, said="", adapter=ADAPTER, **options):
    """Whether a run ends without a reply: status 3, nothing on standard output, and one line, which has these words, on
    standard error."""
    status, reply, line = run(words, adapter=adapter, **options)
    prefix = os.path.basename(adapter) + ": "
    is_line = line.startswith(prefix) and line.count("\n") == 1 and line.endswith("\n") and said in line
    results.compare(f"{title} ({line!r})", (status, reply, is_line), (NO_REPLY, "", True))


def words_of(folder, program, **changes):
    """The words for the files in a folder, with other values for some, and without those whose value is None."""
    given = {"trusted_root": os.path.join(folder, "trusted_root.json"), "bundle": os.path.join(folder, "bundle.json"),
             "identity": IDENTITY, "issuer": ISSUER, "now": NOW, "sigverify": program,
             "artifact": os.path.join(folder, "artifact"), **changes}
    artifact = given.pop("artifact")
    named = {name.replace("_", "-"): value for name, value in given.items() if value is not None}
    return [f"--{name}={value}" for name, value in named.items()] + [artifact]


def file_of(folder, name, content):
    path = os.path.join(folder, name)
    with open(path, "wb") as file:
        file.write(content)
    return path


def program_that(folder, does):
    path = file_of(folder, "program", f"#!/bin/sh\n{does}\n".encode())
    os.chmod(path, 0o755)
    return path
