"""sigverify-checked: requests of each command that are really signed, what becomes of their texts, and each end without
a reply."""
import base64
import json
import os
import subprocess
import tempfile

import signed
from signed import IDENTITY, ISSUER, NOW, Signed, fixture
from test_common import CHECKED, HERE, PYTHON, VERIFIED, compare_end, file_of, program_that, run, words_of

LIMIT = 1 << 24
SIZES = 3, 7


def compact(value):
    return signed.compact(value).encode()


def log_request(made):
    """The request of `log` about the entry of a bundle."""
    proof = made.entry["inclusionProof"]
    hashes = [base64.b64decode(each).hex() for each in proof["hashes"]]
    return {"entry": made.entry["canonicalizedBody"], "logIndex": int(proof["logIndex"]),
            "treeSize": int(proof["treeSize"]), "rootHash": base64.b64decode(proof["rootHash"]).hex(),
            "hashes": hashes, "checkpoint": proof["checkpoint"]["envelope"], "scheme": made.log.scheme,
            "key": signed.base64_of(made.log.spki)}


def verify_request(made):
    return {"trustedRoot": signed.compact(made.trusted_root()), "bundle": signed.compact(made.bundle()), "now": NOW,
            "digest": "sha256:" + made.digest.hex(), "policy": {"all": [{"identity": IDENTITY, "issuer": ISSUER}]}}


def grown(kind, spoil=False):
    """The request of `consistency` for a log that grew, with its entries, and signed by a key of the kind."""
    import consistency_requests
    log, entries = signed.signer(kind, "log"), [b"entry %d" % place for place in range(SIZES[1])]
    request = consistency_requests.request(SIZES[0], entries, entries)
    note = fixture.note(fixture.root_hash(entries), SIZES[1])
    made = log.sign(note.encode())
    made = signed.flipped(made) if spoil else made
    del request["accepted"]
    line = signed.base64_of(fixture.sha256(log.spki)[:4] + made)
    return {**request, "checkpoint": f"{note}\n\u2014 fixture.log {line}\n", "scheme": log.scheme,
            "key": signed.base64_of(log.spki)}


def audits():
    """Audits of a log whose heads are signed, and each head in turn signed otherwise; as many rows are claimed."""
    import signed_audit
    for kind in "P-256", "P-384", "P-521", "RSA", "RSA-PSS", "Ed25519":
        signer = signed.signer(kind, "log")
        yield "audit", signed_audit.audit(signer)[0], 0, "audited 4 1 9\nprefixes 4\n"
        for place in range(4):
            for by in "flip", "stranger", "another note":
                request, _ = signed_audit.audit(signer, place, by)
                claimed = {**request, "accepted": signed_audit.claimed(request, signer)}
                yield "audit", request, 1, f"refused note-key {place}\n"
                yield "audit", claimed, 1, f"refused note-key {place}\n"
    for place, first in enumerate((1, 1, 2, 3)):
        yield "audit", signed_audit.audit(signed.signer("P-256", "log"), rewritten=place)[0], 1, f"refused consistency {first}\n"
    request, _ = signed_audit.audit(signed.signer("P-256", "log"))
    yield "audit", {**request, "watched": request["watched"] + [{**request["watched"][0], "index": 3}]}, 1, "refused inclusion 1\n"
    yield "audit", {**request, "entries": []}, 0, "audited 4 1 9\nother list\n"
    yield "audit", {**request, "heads": request["heads"] + [{"checkpoint": ""}]}, 1, "refused checkpoint 4\n"
    yield "audit", {**request, "heads": []}, 2, "refused request\n"
    with open(os.path.join(HERE, "example", "audit.json"), encoding="utf-8") as file:
        yield "audit", json.load(file), 0, "audited 7 1 40\nprefixes 7\n"


# How the update at each place is signed otherwise, the lines of those after it, and the last that is accepted.
SPOILED = (("flip", ["refused old-size 0"] * 3, None), ("stranger", ["refused old-size 2"] * 2, 0), ("another note", ["accepted 9"], 3), ("flip", [], 2))


def witnesses():
    """The heads of such audits as updates, in one run and in two, and each of them in turn signed otherwise; as many rows are claimed."""
    import signed_audit
    for kind in "P-256", "RSA-PSS", "Ed25519":
        signer = signed.signer(kind, "log")
        whole = witnessed(signer, signed_audit.audit(signer)[0])
        yield "witness", whole, 0, lines_of("accepted 2", "accepted 5", "accepted 5", "accepted 9", *state_lines(signer, whole, 3))
        for place, (by, after, last) in enumerate(SPOILED):
            request, _ = signed_audit.audit(signer, place, by)
            claimed = {**witnessed(signer, request), "accepted": signed_audit.claimed(request, signer)}
            said = ["accepted 2", "accepted 5", "accepted 5", "accepted 9"][:place]
            yield "witness", claimed, 1, lines_of(*said, "refused note-key", *after, *state_lines(signer, claimed, last))
    signer = signed.signer("P-256", "log")
    whole = witnessed(signer, signed_audit.audit(signer)[0])
    state = "".join(line + "\n" for line in state_lines(signer, whole, 1)[1:])
    later = {"state": state, "updates": whole["updates"][2:]}
    yield "witness", later, 0, lines_of("accepted 5", "accepted 9", *state_lines(signer, whole, 3))
    yield "witness", {**later, "origins": whole["origins"]}, 2, "refused request\n"
    yield "witness", {}, 0, "\n"


def witnessed(signer, audit):
    """The request of `witness` with the heads of an audit."""
    sizes = [int(head["checkpoint"].split("\n")[1]) for head in audit["heads"]]
    updates = [{**head, "oldSize": old} for head, old in zip(audit["heads"], [0, *sizes])]
    origin = {"origin": audit["heads"][0]["checkpoint"].split("\n")[0], "scheme": signer.scheme, "key": signed.base64_of(signer.spki)}
    return {"origins": [origin], "updates": updates}


def state_lines(signer, request, place):
    """The lines after those of the updates, where this update is the last that was accepted."""
    origin, size, root = request["updates"][place or 0]["checkpoint"].split("\n")[:3]
    if place is None:
        size, root = "0", signed.base64_of(fixture.sha256(b""))
    return ["", origin, signer.scheme, signed.base64_of(signer.spki), size, root]


def gated(*artifacts):
    """The manifest of artifacts, each the bundles of one artifact and its rule, under the first bundle's trusted root."""
    made = [{"name": f"a{place}", "digest": "sha256:" + bundles[0].digest.hex(), "root": "root", "policy": "policy",
             "bundles": [signed.compact(each.bundle()) for each in bundles], "rule": rule} for place, (bundles, rule) in enumerate(artifacts)]
    return {"now": NOW, "roots": {"root": signed.compact(artifacts[0][0][0].trusted_root())},
            "policies": {"policy": {"all": [{"identity": IDENTITY, "issuer": ISSUER}]}}, "artifacts": made}


def gates():
    """A bundle alone; beside one of which each signature in turn is made otherwise; twice, where two logged signatures are asked for; and artifacts
    of which not all are admitted."""
    whole, least, two = Signed(), {"least": 1}, {"least": 2}
    admitted = ["artifact a0 admit", "bundle 0 verified 2 5"]
    yield "gate", gated(([whole], least)), 0, lines_of(*admitted, "admitted 1 of 1")
    for title, link in signed.LINKS.items():
        for by in "flip", "stranger":
            lines = lines_of("artifact a0 admit", f"bundle 0 refused {link}", "bundle 1 verified 2 5", "artifact a1 deny none",
                             f"bundle 0 refused {link}", "admitted 1 of 2")
            spoiled = Signed(spoiled=title, by=by)
            yield "gate", gated(([spoiled, whole], least), ([spoiled], {"not": least})), 1, lines
    yield "gate", gated(([whole, whole], two)), 1, lines_of("artifact a0 deny rule", "bundle 0 verified 2 5", "bundle 1 verified 2 5", "admitted 0 of 1")
    yield "gate", gated(([whole, Signed()], two)), 0, lines_of(*admitted, "bundle 1 verified 2 5", "admitted 1 of 1")
    yield "gate", {**gated(([whole], least)), "roots": {}}, 2, "refused request\n"
    yield "gate", {}, 2, "refused request\n"


def lines_of(*lines):
    return "".join(line + "\n" for line in lines)


def requests():
    """By command: a request, the status, and the lines."""
    for kind in "P-256", "P-384", "P-521", "RSA", "RSA-PSS", "Ed25519":
        yield "consistency", grown(kind), 0, "consistent 3 7\nprefix 3\n"
        yield "consistency", grown(kind, spoil=True), 1, "refused note-key\n"
    for kind in "P-256", "RSA":
        yield "log", log_request(Signed(log=kind)), 0, "logged 2 5\n"
        for by in "flip", "stranger":
            yield "log", log_request(Signed(log=kind, spoiled="note", by=by)), 1, "refused note-key\n"
    yield "log", {**log_request(Signed()), "entry": ""}, 1, "refused inclusion\n"
    yield "log", {**log_request(Signed()), "entries": []}, 0, "logged 2 5\nother list\n"
    yield "verify", verify_request(Signed()), 0, VERIFIED + "\n"
    for title, link in signed.LINKS.items():
        yield "verify", verify_request(Signed(spoiled=title)), 1, f"refused {link}\n"
    yield from audits()
    yield from witnesses()
    yield from gates()
    yield "log", verify_request(Signed()), 2, "refused request\n"
    yield "verify", {}, 2, "refused request\n"


def ask(program, command, text, *words):
    return run([f"--sigverify={program}", *words, command], adapter=CHECKED, input=text)


def check_requests(results, program):
    for command, request, status, lines in requests():
        results.compare(f"{command}, {lines!r}", ask(program, command, compact(request)), (status, lines, ""))


def check_texts(results, program):
    """The text is passed on as it came: with blanks, doubled members, and what the program refuses. A list of its own,
    forged or not, does not count."""
    made = Signed(spoiled="note")
    forged = compact({**log_request(made), "accepted": [made.rows["note"]]})
    results.compare("a forged list", ask(program, "log", forged), (1, "refused note-key\n", ""))
    text = compact(log_request(Signed()))
    logged, refused = (0, "logged 2 5\n", ""), (2, "refused request\n", "")
    for title, other, wanted in [
            ("blanks", b" \t\r\n" + text[:-1] + b" \n}\r\n\t ", logged),
            ("an ignored member", text[:-1] + b',"a":{"}":"}"}}', logged),
            ("a member that is replaced", b'{"logIndex":7,' + text[1:], logged),
            ("a member that replaces", text[:-1] + b',"logIndex":7}', (1, "refused inclusion\n", "")),
            ("-0", text[:-1] + b',"logIndex":-0}', refused), ("a float", text[:-1] + b',"logIndex":2.0}', refused),
            ("half a pair", text[:-1] + b',"checkpoint":"\\ud800"}', refused), ("more text", text + b"{}", refused),
            ("two texts", text + text, refused), ("no end", text[:-1], refused), ("no text", b"", refused),
            ("no UTF-8", text[:-1] + b',"a":"\xff"}', refused), ("a list", b"[" + text + b"]", refused),
            ("an empty object", b"{}", refused), ("a comma", text[:-1] + b",}", refused)]:
        results.compare(title, ask(program, "log", other), wanted)
        if wanted == logged:
            status, request, line = ask(program, "log", other, "--print-request")
            end = other.rindex(b"}")
            first, last = request.encode()[:end + 13], request.encode()[end - len(other) - 1:]
            kept = first == other[:end] + b',"accepted":[', last == other[end:] + b"\n"
            results.compare(f"{title}, printed", (status, line, *kept), (0, "logged 2 5\n", True, True))
            again = subprocess.run([program, "log"], input=request.encode(), capture_output=True)
            results.compare(f"{title}, without the adapter", (again.returncode, again.stdout), (0, b"logged 2 5\n"))


def check_limit(results, program):
    """A request whose text, list and `,"accepted":` have 2^24 bytes, and one of a byte more."""
    text = compact(log_request(Signed()))
    with_list = ask(program, "log", text, "--print-request")[1].rstrip("\n").encode()
    room = LIMIT - len(with_list) - len(b',"a":""')
    for more, wanted in (0, (0, "logged 2 5\n", "")), (1, (2, "refused request\n", "")):
        padded = text[:-1] + b',"a":"' + b"x" * (room + more) + b'"}'
        results.compare(f"{LIMIT + more} bytes", ask(program, "log", padded), wanted)
    results.compare("no end of input", ask(program, "log", b" " * (LIMIT + 2)), (2, "refused request\n", ""))


MISUSED = [
    ([], "COMMAND is missing"), (["--"], "is missing"), (["--sigverify", "log"], "is missing"), ([""], "empty"),
    (["log", "log"], "twice"), (["audit", "log"], "twice"), (["--print-request", "--print-request", "log"], "twice"),
    (["--help", "log"], "not a word"), (["log", "--help"], "not a word"), (["-x"], "not a word"),
    (["--now=1", "log"], "not a word"), (["log", "--sigverify"], "needs a value"), (["x"], "not a command"),
    (["--", "-x"], "not a command"), (["questions"], "not a command"), (["demo"], "not a command")]


def check_misuse(results, program):
    for words, said in MISUSED:
        compare_end(results, f"the words {words}", words, said, adapter=CHECKED, input=b"{}")
    status, shown, said = run(["--help"], adapter=CHECKED)
    results.compare("--help", (status, shown.startswith("usage: sigverify-checked"), said), (0, True, ""))
    results.compare("-h", run(["-h"], adapter=CHECKED), (status, shown, said))


NO_REPLIES = [
    "exit 0", "exit 1", "exit 71", "exit 64; echo usage", "echo 'logged 2 5'", "echo '[]'; exit 1", "kill -9 $$"]
NO_SECOND_REPLIES = [
    "exit 0", "exit 1", "exit 71", "echo 'verified 2 5'", "echo 'logged 2 5'; exit 1", "printf 'logged 2 5'",
    "echo 'logged 2 5'; echo", "echo 'logged 2 5'; echo 'entry'", "echo 'refused x'",
    "echo 'logged 2 5'; echo 'entry 2'; echo 'entry 2'"]


def check_ends(results, program):
    text = compact(log_request(Signed()))
    with tempfile.TemporaryDirectory() as folder:
        def ends(title, does):
            words = [f"--sigverify={program_that(folder, does)}", "log"]
            compare_end(results, title, words, "no reply", adapter=CHECKED, input=text)
        for does in NO_REPLIES:
            ends(f"a program that does: {does}", does)
        for does in NO_SECOND_REPLIES:
            ends(f"a second run that does: {does}", f'[ "$1" = log ] || {{ echo "[]"; exit; }}; {does}')
        for does in "echo 'audited 1 0'", "echo 'refused note-key'; exit 1", "echo 'audited 1 0 1'; echo 'entry 1 1'":
            program_of = program_that(folder, f'[ "$1" = audit ] || {{ echo "[]"; exit; }}; {does}')
            compare_end(results, f"an audit that does: {does}", [f"--sigverify={program_of}", "audit"], "no reply", adapter=CHECKED, input=text)
        for does in "echo 'accepted 1'", "echo; echo x", "echo 'refused full'; echo; exit 0", "echo 'accepted 1'; echo; exit 1", "echo; exit 1":
            program_of = program_that(folder, f'[ "$1" = witness ] || {{ echo "[]"; exit; }}; {does}')
            compare_end(results, f"a witness that does: {does}", [f"--sigverify={program_of}", "witness"], "no reply", adapter=CHECKED, input=text)
        for does in ("echo 'admitted 1 of 1'", "echo 'artifact a admit'", "echo 'artifact a deny none'; echo 'admitted 0 of 1'",
                     "echo 'artifact a admit'; echo 'admitted 1 of 1'; exit 1", "echo 'artifact a b admit'; echo 'admitted 1 of 1'"):
            program_of = program_that(folder, f'[ "$1" = gate ] || {{ echo "[]"; exit; }}; {does}')
            compare_end(results, f"a gate that does: {does}", [f"--sigverify={program_of}", "gate"], "no reply", adapter=CHECKED, input=text)
        file_of(folder, "start.py", b"raise MemoryError")
        there = os.path.join(folder, "sigverify-checked")
        with open(CHECKED, "rb") as file:
            os.chmod(file_of(folder, "sigverify-checked", file.read()), 0o755)
        for start in [], [PYTHON, "-I"]:
            compare_end(results, "start.py fails", ["log"], "start.py: MemoryError: ", adapter=there, start=start, input=text)
        os.remove(os.path.join(folder, "start.py"))
        compare_end(results, "no start.py", ["log"], "start.py: FileNotFoundError: ", adapter=there, input=text)
    words = [f"--sigverify={program}", "log"]
    shell = ["/bin/sh", "-c", 'exec "$@" <&-', "sh"]
    compare_end(results, "the input is closed", words, "standard input cannot be read", adapter=CHECKED, start=shell)
    gave = run(words, ["/bin/sh", "-c", 'exec "$@" </', "sh"], CHECKED)  # Python does not start
    results.compare("the input is a folder", gave[:2], (3, ""))
    for output in "/dev/full", "&-":
        gave = run(words, ["/bin/sh", "-c", f'exec "$@" >{output}', "sh"], CHECKED, input=text)
        results.compare(f"the output is {output}", (gave[0], gave[1]), (3, ""))


# What a program may write of each command.
LINES = {"log": "logged 2 5", "verify": VERIFIED, "consistency": "consistent 3 7", "audit": "audited 1 0 1", "witness": "",
         "gate": "artifact a admit\nadmitted 1 of 1"}


def check_many(results, _):
    """A list of as many signatures as are verified for a request, and of one more; --help has the numbers."""
    row = compact(fixture.row("message", "ED25519", b"", b"", b""))
    with tempfile.TemporaryDirectory() as folder:
        listed, written = os.path.join(folder, "rows"), os.path.join(folder, "lines")
        program = program_that(folder, f'if [ "$1" = questions ]; then cat {listed}; else cat {written}; fi')
        for most, commands in (1024, ("log", "verify", "consistency")), (16384, ("audit", "witness", "gate")):
            said = f"lists {most + 1:,} signatures, and at most {most:,} are verified"
            for command in commands:
                file_of(folder, "lines", f"{LINES[command]}\n".encode())
                file_of(folder, "rows", b"[" + b",".join([row] * most) + b"]\n")
                results.compare(f"{command}, {most} rows", ask(program, command, b"{}"), (0, LINES[command] + "\n", ""))
                file_of(folder, "rows", b"[" + b",".join([row] * (most + 1)) + b"]\n")
                words = [f"--sigverify={program}", command]
                compare_end(results, f"{command}, {most + 1} rows", words, said, adapter=CHECKED, input=b"{}")
            results.compare(f"{most:,} in the help", f"more than {most:,}" in run(["--help"], adapter=CHECKED)[1], True)
        signed.write(folder, Signed())
        file_of(folder, "rows", b"[" + b",".join([row] * 1025) + b"]\n")
        compare_end(results, "a bundle, 1025 rows", words_of(folder, program), "lists 1,025 signatures")
        results.compare("1,024 in the help", "more than 1,024 signatures" in run(["--help"])[1], True)


PARTS = check_requests, check_texts, check_limit, check_misuse, check_ends, check_many
