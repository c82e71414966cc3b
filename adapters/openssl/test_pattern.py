"""--certificate-identity-regexp: which names match, beside which words it may be given, and that it ends."""
import concurrent.futures
import json
import multiprocessing
import os
import subprocess
import tempfile

import pattern
import signed
from fixture import der, oid
from signed import IDENTITY, ISSUER, WORKFLOW, Signed
from test_common import VERIFIED, compare_end, file_of, program_that, run, words_of
from test_forms import several

WORD = pattern.WORD
FULCIO, OTHER = pattern.FULCIO_NAME, "2b0601040182371402"  # 1.3.6.1.4.1.57264.1.7, and a user principal name

# By the pattern: whether it matches the names.
URI = [{"uri": "https://example.com/workflow@refs/tags/v1"}]
NAMES = [
    ("https://example[.]com/workflow@refs/tags/.*", URI, True), ("https://example.com/workflow", URI, False),
    (".*/v1", URI, True), ("workflow", URI, False), ("^https://example.com/", URI, False), ("", URI, False),
    ("(?i)HTTPS://EXAMPLE[.]COM/.*", URI, True), ("a|https://example.com/.*", URI, True),
    (".*", [], False), (".*", [{}], False), ("", [{"email": ""}], True), ("a@b", [{"email": "a@b"}], True),
    ("a@b$", [{"email": "a@b\n"}], False), ("a.b", [{"email": "a\nb"}], False), ("b", [{"email": "a"}, {"uri": "b"}], True),
    ("x", [{"otherName": FULCIO, "value": "x"}], True), (".*", [{"otherName": OTHER, "value": "x"}], False),
    (".*", [{"otherName": FULCIO}], False), (".*", [{"value": "x"}], False),
    (".*", [{"uri": "x", "uriLength": "5000"}], False), (".*", [{"email": "x", "emailLength": "5000"}], False),
    (".*", [{"otherName": FULCIO, "value": "x", "valueLength": "5000"}], False),
    (".*", [{"uri": "x", "uriLength": "5000"}, {"uri": "y"}], True), (r"\w+", [{"uri": "\u00e9"}], False),
    (r"\d", [{"uri": "\u0660"}], False), ("(?i)k", [{"uri": "\u212a"}], False), (".", [{"uri": "\u00e9"}], True)]
BAD = ["(", "[", "*", "a**", r"\z", "(?u)a", "(?L)a", "a(?i)", "[[a]", "(?P<x>a)(?P<x>b)", "a{99999999999}", "(" * 5000]
SLOW = "(?:.|.)*!", "(.*)*!"


def matched(text, names):
    return pattern.matches(pattern.compiled(text), names)


def check_names(results, _):
    """In a process of its own, since the test's parts run in threads, and a time can be set only in the main one."""
    with concurrent.futures.ProcessPoolExecutor(1, multiprocessing.get_context("spawn")) as pool:
        for text, names, wanted in NAMES:
            results.compare(f"{text} of {names}", pool.submit(matched, text, names).result(), wanted)


def given(folder, program, text, **changes):
    return [f"{WORD}={text}", *words_of(folder, program, identity=None, **changes)]


def check_replies(results, program):
    """Of bundles with each signature genuine or spoiled: without --explain, with it, and as JSON."""
    for content in "envelope", "message":
        with tempfile.TemporaryDirectory() as folder:
            signed.write(folder, Signed(content=content))
            for text in ".*", "https://example[.]com/(workflow|other)":
                results.compare(f"the pattern {text}", run(given(folder, program, text)), (0, VERIFIED + "\n", ""))
            said = f"signed by {IDENTITY}, and no such name as a whole matches the pattern workflow"
            words = given(folder, program, "workflow")
            results.compare("another pattern", run(words), (1, "refused policy\n", f"sigverify-bundle: {said}\n"))
            results.compare("another pattern, explained", run(words + ["--explain"]), (1, f"refused policy\nrefused policy: {said}\n", ""))
            status, lines, _ = run(words + ["--json"])
            wanted = {"cause": ["Policy", "Pattern"], "link": "policy", "names": [{"uri": IDENTITY}], "pattern": "workflow"}
            results.compare("another pattern, as JSON", (status, lines.split("\n")[0], json.loads(lines.split("\n")[1])), (1, "refused policy", wanted))
            for changes, wanted in [({"issuer": "x"}, "refused policy"), ({"now": 0}, "refused fulcio")]:
                results.compare(f"the pattern, and {changes}", run(given(folder, program, ".*", **changes)), (1, wanted + "\n", ""))
            explained = run(given(folder, program, ".*") + ["--explain"])
            results.compare("a match, explained", (explained[0], explained[1].startswith(f"{VERIFIED}\nsigned by {IDENTITY}")), (0, True))
        for title, link in signed.LINKS.items():
            with tempfile.TemporaryDirectory() as folder:
                signed.write(folder, Signed(content=content, spoiled=title))
                results.compare(f"{title} spoiled", run(given(folder, program, ".*")), (1, f"refused {link}\n", ""))


def check_rules(results, program):
    """The issuer, a word of the workflow, or several are given with it; and the request has only these rules."""
    rules = {f"--certificate-github-workflow-{rule}": text for rule, text in WORKFLOW.items()}
    with tempfile.TemporaryDirectory() as folder:
        signed.write(folder, Signed())
        bare = given(folder, program, ".*", issuer=None)
        compare_end(results, "nothing beside it", bare, "--certificate-oidc-issuer is missing beside")
        for word, text in rules.items():
            results.compare(f"{word} alone", run([f"{word}={text}", *bare]), (0, VERIFIED + "\n", ""))
            results.compare(f"another {word} alone", run([f"{word}={text}x", *bare]), (1, "refused policy\n", ""))
        every = [f"{word}={text}" for word, text in rules.items()]
        results.compare("all beside it", run([*every, *given(folder, program, ".*")]), (0, VERIFIED + "\n", ""))
        keeps = program_that(folder, f'cat > "{folder}/request"; echo "refused sct"; exit 1')
        run([f"--certificate-oidc-issuer={ISSUER}", *every, *given(folder, keeps, "x", issuer=None)])
        with open(os.path.join(folder, "request"), encoding="utf-8") as file:
            policy = json.load(file)["policy"]
        results.compare("the policy", policy, {"all": [{"issuer": ISSUER}, *({rule: text} for rule, text in WORKFLOW.items())]})


def check_misused(results, program):
    with tempfile.TemporaryDirectory() as folder:
        signed.write(folder, Signed())
        words = given(folder, program, ".*")
        for word in "--identity", "--certificate-identity":
            compare_end(results, f"beside {word}", [f"{word}={IDENTITY}", *words], f"{WORD} is a word in the place of")
        for more, said in [(f"{WORD}=.*", "twice"), (f"{WORD}=", "is empty"), ("--print-request", "a request has no pattern")]:
            compare_end(results, f"and {more}", [more, *words], said)
        compare_end(results, "empty", given(folder, program, ""), "is empty")
        compare_end(results, "no value", [*words[1:], WORD], "needs a value")
        compare_end(results, "not UTF-8", [os.fsencode(WORD) + b"=\xff", *words[1:]], "is not UTF-8")
        for text in BAD:
            compare_end(results, f"the pattern {text[:20]}", given(folder, program, text), "is not a pattern of Python's re")
        for text in SLOW:
            for start in [], ["/bin/sh", "-c", 'trap "" VTALRM; exec "$@"', "sh"]:
                compare_end(results, f"the pattern {text}", given(folder, program, text), "takes more than 2 seconds", start=start)
        compare_end(results, "no rule at all", [word for word in words if "issuer" not in word], "is missing")


def check_several(results, program):
    with tempfile.TemporaryDirectory() as folder:
        several(folder, ["a", "b"])
        words = given(folder, program, "x", bundle=None)[:-1]
        status, lines, said = run([*words, "a", "b"], cwd=folder)
        results.compare("of several, none", (status, lines, said.count("no such name as a whole matches the pattern x\n")),
                        (1, "refused policy a\nrefused policy b\n", 2))
        results.compare("each by its name", [line.split(": ")[1] for line in said.splitlines()], ["a", "b"])
        words = given(folder, program, ".*", bundle=None)[:-1]
        results.compare("of several, all", run([*words, "a", "b"], cwd=folder), (0, f"{VERIFIED} a\n{VERIFIED} b\n", ""))
        slow = given(folder, program, SLOW[0], bundle=None)[:-1]
        status, lines, said = run([*slow, "a", "b"], cwd=folder)
        results.compare("of several, a slow pattern", (status, lines, said.count("takes more than 2 seconds")), (3, "", 2))


# A program that says that a bundle is verified, and shows no name that matches.
NAMELESS = ['{}', '{"certificate":{}}', '{"certificate":{"names":[]}}', '{"link":"policy"}', '{"certificate":{"names":[{"value":"x"}]}}']


def check_programs(results, program):
    with tempfile.TemporaryDirectory() as folder:
        signed.write(folder, Signed())
        for explanation in NAMELESS:
            made = program_that(folder, f"[ \"$1\" = explain ] || {{ echo '[]'; exit; }}; echo 'verified 2 5'; echo '{explanation}'")
            status, reply, said = run(given(folder, made, ".*"))
            results.compare(f"the names of {explanation}", (status, reply, said.count("\n")), (1, "refused policy\n", 1))
        made = program_that(folder, "[ \"$1\" = explain ] || { echo '[]'; exit; }; echo 'verified 2 5'")
        compare_end(results, "no explanation", given(folder, made, ".*"), "no reply")


PARTS = check_names, check_replies, check_rules, check_misused, check_several, check_programs
