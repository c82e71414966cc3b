"""The words of explanations: each cause has its own, by the definitions of the program and by the table of cases beside
this file; then --explain and --json of both adapters, over the program."""
import glob
import itertools
import json
import os
import re
import subprocess
import tempfile

import explain_table
import explain_words
import signed
import test_checked
from signed import IDENTITY, Signed
from test_common import CHECKED, HERE, VERIFIED, compare_end, file_of, program_that, run, words_of
from test_forms import several

TOP = os.path.join(HERE, "..", "..")
CRATES = os.path.join(TOP, "crates")
CASES = os.path.join(HERE, "explain_cases.jsonl")
OF_WITNESS = {("UnknownOrigin",), ("OldSize",), ("Full",), ("Origin",)}
OF_ADAPTER = {("Policy", "Pattern")}


# What causes there are: by the names of variants, in the definitions of sig_explanation and in the types of errors.

def text_of(*path):
    with open(os.path.join(CRATES, *path), encoding="utf-8") as file:
        return file.read()


def names_in(text):
    """By the kind of an error the names of its variants; memory that runs out is not a cause."""
    found = {}
    for kind, name in re.findall(r'^(?:opened_)?(\w+)_name (?:\(.*?\)|\S+) = codes "(\w+)"$', text, re.M):
        found.setdefault(kind, []).append(name)
    return {kind: [name for name in names if name != "OutOfMemory"] for kind, names in found.items()}


def after_in(text):
    """By the kind of an error and a variant of it: the kind of what the variant keeps."""
    rows = re.findall(r"^after_(\w+) \(\w+\.(\w+) .*?\) = (\w+)_(?:name|cause) ", text, re.M)
    return {(kind, variant): inner for kind, variant, inner in rows}


def paths(kind, names, after):
    for name in names[kind]:
        inner = after.get((kind, name))
        yield from [(name, *rest) for rest in paths(inner, names, after)] if inner else [(name,)]


def variants(crate, name):
    """The variants of an error's type."""
    for path in glob.glob(os.path.join(CRATES, crate, "src", "*.rt")):
        found = re.search(rf"(?ms)^pub enum {name} {{\n(.*?)^}}", text_of(path))
        if found:
            return set(re.findall(r"^    ([A-Z]\w+)", found[1], re.M)) - {"OutOfMemory"}
    raise AssertionError(f"{crate} has no {name}")


def causes():
    names = names_in(text_of("sig_explanation", "specs", "Names.antt"))
    after = after_in(text_of("sig_explanation", "specs", "Cause.antt"))
    request = variants("sig_request_fault", "RequestFault") - {"Document"} | variants("sig_table", "DocumentFault")
    states = variants("sig_witness", "StateError")
    return {*paths("offline", names, after), *[(name,) for name in request], *[("State", name) for name in states]}


def check_table(results, _):
    results.compare("the causes", sorted(causes() | OF_WITNESS | OF_ADAPTER), sorted(explain_table.WORDS))
    names = names_in(text_of("sig_explanation", "specs", "Names.antt"))
    results.compare("parts of certificates", sorted(explain_table.PARTS), sorted(names["part"]))
    why = names_in(text_of("sig_evidence", "specs", "Fault.antt"))["why"]
    results.compare("why a member is refused", sorted(explain_table.WHY), sorted(why))
    rules = names_in(text_of("sig_explanation", "specs", "Rules.antt"))["rule"]
    results.compare("rules", sorted(explain_table.RULES), sorted(rules))
    asked = text_of("sig_policy", "specs", "Requests.antt") + text_of("sig_policy", "specs", "Identities.antt")
    compared = re.findall(r'(?:single_refusal|check_failed) \(codes "(\w+)"\)', asked)
    results.compare("what rules compare", sorted(explain_table.SAYS), sorted({*compared}))


# The table of cases.

def cases():
    with open(CASES, encoding="utf-8") as file:
        return [json.loads(line) for line in file]


def check_cases(results, _):
    told = set()
    for case in cases():
        said = explain_words.lines_of(case["command"], case["explanation"])
        results.compare(f"the words for {case['explanation']}", said, case["lines"])
        for refusal in [case["explanation"], *case["explanation"].get("updates", [])]:
            told.add((refusal.get("link"), *refusal.get("cause", [])))
    for cause, words in explain_table.WORDS.items():
        for link in words if isinstance(words, dict) else [None]:
            found = any(path[1:] == cause and link in (None, path[0]) for path in told)
            results.compare(f"a case of {cause} at {link}", found, True)


HOSTILE = ["a\nverified 2 5\n", "a, and b was asked for", 'a" b', "a\u202eb", "\x1b[31m", "a\\nb", "\u2028", "", "a\u00e9", "x" * 4096, "{actual}"]


def check_hostile(results, _):
    """A text of somebody else stays within its line, and within quotes where it could pass for words."""
    for text in HOSTILE:
        name = {"uri": text}
        lines = [line for each in (
            {"certificate": {"names": [name] * 64, "issuer": text}}, {"link": "policy", "cause": ["Policy", "Pattern"], "names": [name], "pattern": text},
            {"link": "profile", "cause": ["Bundle", "BundleProfile", "Unknown"], "mediaType": text},
            {"link": text, "cause": [text]}) for line in explain_words.lines_of("verify", each)]
        results.compare(f"the lines of {text!r}", [line for line in lines if not line.isprintable() and "\n" in text], [])
        bare = re.fullmatch("[!#-~]+", text) is not None
        results.compare(f"{text!r} between quotes", lines[0].startswith(f"signed by {text}," if bare else 'signed by "'), True)
    many = {"updateCount": "4096", "updates": [{"accepted": "1", "origin": "a b"}] * 4000 + [{"link": "full", "cause": ["Full"]}] * 96}
    lines = explain_words.lines_of("witness", many)
    results.compare("of many updates", (len(lines), lines[0][:26], lines[-1][:21]), (10, "update 4000: refused full:", "and 4087 lines more; "))
    bundle = {"link": "policy", "cause": ["Policy", "AnyOf"], "total": "1"}
    gate = {"artifacts": [{"name": "artifact", "admitted": "yes", "bundles": []}, {"name": "b", "admitted": "no", "bundles": [bundle] * 256}]}
    lines = explain_words.lines_of("gate", gate)
    results.compare("of many bundles", (len(lines), {line[:14] for line in lines[:-1]}), (10, {"not admitted: "}))


# The adapters.

def compare_explained(results, title, plain, explained, as_json, explanation):
    """What an adapter gave without and with --explain and --json, and the program's own line."""
    status, reply, said = plain
    lines = explained[1][len(reply):].splitlines()
    gave = explained[0], explained[1].startswith(reply), explained[2], 1 <= len(lines) <= 10, explained[1].endswith("\n")
    results.compare(f"{title}, explained ({explained[1]})", gave, (status, True, said, True, True))
    results.compare(f"{title}, in words that there are", [line for line in lines if "not shown" in line or "by the cause" in line], [])
    results.compare(f"{title}, the words", lines, explain_words.lines_of(title.split()[0], json.loads(explanation)))
    results.compare(f"{title}, as JSON", as_json, (status, reply + explanation, said))


def explanation_of(program, command, request):
    """The last line that the program writes."""
    done = subprocess.run([program, "explain", command], input=request, capture_output=True)
    return done.stdout.decode().splitlines(keepends=True)[-1]


def check_bundles(results, program):
    for title, content in itertools.product([None, *signed.LINKS], ["envelope", "message"]):
        with tempfile.TemporaryDirectory() as folder:
            signed.write(folder, Signed(spoiled=title, content=content))
            for changes in [{}] if title else [{}, {"identity": "x"}, {"now": 0}, {"now": 2 ** 63}]:
                words = words_of(folder, program, **changes)
                request = run(words + ["--print-request"])[1].encode()
                explanation = explanation_of(program, "verify", request)
                compare_explained(results, f"verify {title}, {content}, {changes}", run(words), run(words + ["--explain"]),
                                  run(words + ["--json"]), explanation)
                beside = run(words + ["--json", "--explain", "--print-request"])
                wanted = run(words + ["--print-request"])
                results.compare(f"{title}, beside the request", beside, (*wanted[:2], wanted[2] + explanation))


def check_said(results, program):
    """Whole lines of a refusal and of a bundle that is verified."""
    with tempfile.TemporaryDirectory() as folder:
        signed.write(folder, Signed())
        status, said, _ = run(words_of(folder, program, identity="https://example.com/other") + ["--explain"])
        wanted = f"refused policy\nrefused policy: signed by {IDENTITY}, and https://example.com/other was asked for\n"
        results.compare("a refusal", (status, said), (1, wanted))
        status, said, _ = run(words_of(folder, program) + ["--explain"])
        begun = f"{VERIFIED}\nsigned by {IDENTITY}, by the word of {signed.ISSUER}\n"
        results.compare("a bundle that is verified", (status, said[:len(begun)], said.count("\n")), (0, begun, 11))


def check_several(results, program):
    """The words of each artifact follow its line; what is on standard input has them too."""
    with tempfile.TemporaryDirectory() as folder:
        several(folder, ["a", "b"])
        file_of(folder, "b", b"changed")
        given = words_of(folder, program, bundle=None)[:-1]
        for word in "--explain", "--json":
            each = [run([*given, word, name], cwd=folder) for name in ("a", "b")]
            wanted = "".join(said.replace("\n", f" {name}\n", 1) for (_, said, _), name in zip(each, ("a", "b")))
            results.compare(f"several, {word}", run([*given, word, "a", "b"], cwd=folder), (1, wanted, ""))
            status, _, said = run([*given, word, "--print-request", "a", "b"], cwd=folder)
            results.compare(f"several, {word}, beside requests", (status, said), (1, wanted))
            status, said, reason = run([*given, word, "a", "c"], cwd=folder)
            gave = status, said, reason.count("\n")
            results.compare(f"several, {word}, one without a reply", gave, (3, wanted.split("refused")[0], 1))
        signed.write(folder, Signed())
        words = words_of(folder, program, artifact="-")
        for word in "--explain", "--json":
            wanted = run([*words[:-1], word, os.path.join(folder, "artifact")])
            results.compare(f"-, {word}", run([*words, word], input=b"an artifact\n"), wanted)


def check_misused(results, program):
    with tempfile.TemporaryDirectory() as folder:
        signed.write(folder, Signed())
        words = words_of(folder, program)
        for word in "--explain", "--json":
            compare_end(results, f"{word} twice", [*words, word, word], "twice")
            compare_end(results, f"{word} twice, checked", [word, word, "log"], "twice", adapter=CHECKED, input=b"{}")
            for more in f"{word}=yes", f"{word}=", word[:-1]:
                compare_end(results, more, [*words, more], "see --help")


def check_commands(results, program):
    """A request of each command with each of its replies."""
    done = set()
    for command, request, status, lines in test_checked.requests():
        if (command, lines.split("\n")[0]) in done:
            continue
        done.add((command, lines.split("\n")[0]))
        text = test_checked.compact(request)
        answered = test_checked.ask(program, command, text, "--print-request")[1].encode()
        gave = [test_checked.ask(program, command, text, *words) for words in ((), ("--explain",), ("--json",))]
        compare_explained(results, f"{command} {lines!r}", *gave, explanation_of(program, command, answered))


def check_texts(results, program):
    """Texts that are not requests, with a list of their own, and such as have no room for the list."""
    text = test_checked.compact(test_checked.log_request(Signed()))
    whole = test_checked.ask(program, "log", text, "--print-request")[1].rstrip("\n").encode()
    room = test_checked.LIMIT - len(whole) - len(b',"a":""')
    padded = whole[:-1] + b',"a":"' + b"x" * room + b'"}'  # of 2^24 bytes, with a list that would be accepted
    for title, other, cause in [
            ("no text", b"", ["NotJson"]), ("a float", text[:-1] + b',"logIndex":2.0}', ["Float"]), ("no object", b"[]", ["Member"]),
            ("a list that is not one", text[:-1] + b',"accepted":5}', ["Member"]), ("no room", padded, ["TooLong"]),
            ("too long", b" " * (test_checked.LIMIT + 1), ["TooLong"])]:
        status, said, reason = test_checked.ask(program, "log", other, "--json")
        gave = status, said.splitlines()[:1], json.loads(said.splitlines()[-1])["cause"], reason
        results.compare(f"{title}, as JSON", gave, (2, ["refused request"], cause, ""))
        status, said, reason = test_checked.ask(program, "log", other, "--explain")
        gave = status, said.startswith("refused request\nrefused request: "), said.count("\n"), reason
        results.compare(f"{title}, explained", gave, (2, True, 2, ""))


# A program that does this for `explain`, after a list of no signatures, gives no reply.
NO_EXPLANATIONS = [
    "exit 64", "exit 71", "exit 0", "echo 'logged 2 5'", "echo '{}'", "echo 'logged 2 5'; echo", "echo 'logged 2 5'; echo '[]'",
    "echo 'logged 2 5'; echo '{x}'", "echo 'logged 2 5'; printf '{}'", "echo 'logged 2 5'; echo '{}'; echo '{}'",
    "echo 'logged 2 5'; echo '{}'; exit 1", "echo 'refused x'; echo '{}'", "echo 'verified 2 5'; echo '{}'"]


def check_ends(results, program):
    text = test_checked.compact(test_checked.log_request(Signed()))
    with tempfile.TemporaryDirectory() as folder:
        for does, word in itertools.product(NO_EXPLANATIONS, ["--explain", "--json"]):
            made = program_that(folder, f'[ "$1" = explain ] || {{ echo "[]"; exit; }}; {does}')
            words = [f"--sigverify={made}", word, "log"]
            compare_end(results, f"`explain` does: {does}", words, "no reply", adapter=CHECKED, input=text)
        for does in "echo 'refused note-key'; echo '{}'; exit 1", "echo 'logged 2 5'; echo '{}'":
            made = program_that(folder, f'[ "$1" = explain ] || {{ echo "refused checkpoint"; exit 1; }}; {does}')
            words = [f"--sigverify={made}", "--explain", "log"]
            compare_end(results, f"another reply: {does}", words, "two different things", adapter=CHECKED, input=text)


PARTS = (check_table, check_cases, check_hostile, check_bundles, check_said, check_several, check_misused, check_commands,
         check_texts, check_ends)
