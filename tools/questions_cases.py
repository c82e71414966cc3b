#!/usr/bin/env python3
"""The replies of `questions`, beside the program: what a reader of its own says, and that nothing else matters.

    tools/questions_cases.py                  writes the examples/questions-*.expected
    tools/questions_cases.py check PROGRAM    runs the program on each request of examples/log.requests, of examples/consistency.requests, of
                                              examples/audit.requests, of examples/witness.requests, of examples/gate.requests and of the rows of `verify`, and compares its reply with this reader's. Where it lists signatures, the command has to have
                                              the same reply with only those of the accepted signatures that are listed, and that of
                                              the second implementation with all that are listed; where it names a link of the chain
                                              of trust, `verify` has to name it too, with and without accepted signatures. Then come
                                              requests about the limit, which gets each list back before the request's last brace, and
                                              those with the longest chains, whose lists have the number of rows that is stated by hand, and
                                              those for which it is stated by hand on which signatures of a path `issuer` rests

The readers of requests of `log`, `consistency`, `audit` and `witness`, and of manifests, are those of tools/log_requests.py,
tools/consistency_requests.py, tools/audit_requests.py, tools/witness_requests.py and tools/gate_requests.py. The reader of a
request of `verify`, and of a bundle of a manifest, asks the links of tools/verify_links.py: those before `issuer` for the first
that fails, and the others for the signatures that they look up, under one issuer at a time. It walks all paths to find out which
certificates come after one another in a path, if every signature is genuine.
"""
import base64
import json
import pathlib
import subprocess
import sys

TOP = pathlib.Path(__file__).resolve().parent.parent
sys.dont_write_bytecode = True
sys.path.insert(0, str(TOP / "tools"))
import audit_requests  # noqa: E402
import consistency_requests  # noqa: E402
import fixture  # noqa: E402
import gate_requests  # noqa: E402
import log_requests  # noqa: E402
import verify_cases  # noqa: E402
import verify_certificate as certificates  # noqa: E402
import verify_links as links  # noqa: E402
import verify_rows  # noqa: E402
import verify_rows_content  # noqa: E402
import witness_requests  # noqa: E402
from log_requests import NoRequest, rekor  # noqa: E402
from x509_paths import inter  # noqa: E402

MOST_BYTES = 2**24
BETWEEN = ',"accepted":'  # a request and its list
LOG = ["log", "log-entries", "log-rekor-staging", "log-wrong-path"]
CONSISTENCY = ["consistency", "consistency-entries", "consistency-rewritten"]
AUDIT = ["audit", "audit-forged"]
WITNESS = ["witness", "witness-next"]
GATE = ["gate", "gate-denied"]
MOST_ASKED = 2**26  # bytes of all rows of a manifest, each as often as it is asked for
VERIFY = ["verify", "verify-refused"]


def document(rows):
    """The rows without white space, their members in the order of their names."""
    return json.dumps(rows, separators=(",", ":"), sort_keys=True)


def listing(text, found):
    """The reply that has this list, if it fits one request with the request's text, and its status."""
    fits = len(text.encode()) + len(found) + len(BETWEEN) <= MOST_BYTES
    return (found, 0) if fits else ("refused request", 2)


def in_base64(found):
    return base64.b64encode(found).decode()


def note_rows(request):
    """Each signature of the checkpoint, over the note, under the log's scheme and key."""
    note, signatures = rekor.read_checkpoint(request["checkpoint"])
    message = in_base64(rekor.note_text(note).encode())
    key = in_base64(request["key"])
    return [{"operation": "message", "scheme": request["scheme"], "key": key, "message": message, "signature": in_base64(raw)}
            for _, _, raw in signatures]


def head_reply(text, read_request):
    """The reply of `questions` on the tree head of a request, by the reader of the command's requests, and its status."""
    try:
        found = document(note_rows(read_request(text)))
    except NoRequest:
        return "refused request", 2
    except rekor.Fault:
        return "refused checkpoint", 1
    return listing(text, found)


def log_reply(text):
    return head_reply(text, log_requests.read_request)


def consistency_reply(text):
    return head_reply(text, consistency_requests.read_request)


def audit_reply(text):
    """The reply of `questions audit` and its status: the signatures of each head in order."""
    try:
        request = audit_requests.read_request(text)
    except NoRequest:
        return "refused request", 2
    rows = []
    for place, head in enumerate(request["heads"]):
        try:
            rows += note_rows({**request, **head})
        except rekor.Fault:
            return f"refused checkpoint {place}", 1
    return listing(text, document(rows))


def witness_reply(text):
    """The reply of `questions witness` and its status: the signatures of each update under the key of its origin, each once."""
    try:
        request = witness_requests.read_request(text)
        witness = witness_requests.started(request)
    except NoRequest:
        return "refused request", 2
    return listing(text, document(witness_requests.rows_asked(request, witness)))


class Asked(list):
    """The signatures that are looked up in it, in order. All of them are genuine, or none is."""

    def __init__(self, genuine):
        super().__init__()
        self.genuine = genuine

    def __contains__(self, row):
        self.append(row)
        return self.genuine


def asked(case, *names, genuine=True):
    """What these links look up, up to the first that fails."""
    case.request.accepted = Asked(genuine)
    try:
        for name in names:
            links.LINKS[name](case)
    except (links.Fails, KeyError):
        pass
    return case.request.accepted


def steps_of_paths(case):
    """For each path from the leaf to a trust anchor, if every signature is genuine, which certificate comes after which: the leaf is 0 and then come the
    later certificates; who signed is the place among the trust anchors and then the later certificates."""
    signed, signers, found = [case.leaf, *case.later], [*case.anchors, *case.later], set()

    def walk(steps, place):
        for above, each in enumerate(signers):
            if each.subject != signed[place].issuer:
                continue
            if above < len(case.anchors):
                found.update([*steps, (place, above)])
            elif len(steps) < links.LONGEST_PATH and certificates.may_stand(each, case.leaf.not_before, len(steps)):
                walk([*steps, (place, above)], above - len(case.anchors) + 1)

    if case.leaf.not_before <= case.leaf.not_after:
        walk([], 0)
    return signed, signers, sorted(found)


def verify_questions(case):
    """What the links ask of a case of which those before `issuer` hold."""
    signed, signers, steps = steps_of_paths(case)
    rows = [("certificate", signed[place].algorithm, signers[above].spki, signed[place].tbs, signed[place].signature) for place, above in steps]
    points = []
    for place, above in steps:
        if place == 0:
            case.issuer = signers[above]
            points += asked(case, "sct")
    content, promise = asked(case, "key", "signature"), asked(case, "log-key", "promise")
    # Where the first look-up of a link says that a signature is genuine, no other of the note is looked up.
    return rows, points + content + promise + asked(case, "log-key", "checkpoint", "note-key", genuine=False)


def written(row):
    """A row of a second reader as a row of `accepted`."""
    operation, scheme, *values = row
    if operation == "certificate":
        scheme = in_base64(scheme)
    members = {"operation": operation, "scheme": scheme, **dict(zip(("key", "message", "signature"), map(in_base64, values)))}
    return {name: value for name, value in members.items() if value is not None}


def rows_or_link(case):
    """The rows that the links of a case ask for, or the first link that fails whatever is accepted."""
    for name, link in links.LINKS.items():
        if name == "issuer":
            break
        try:
            link(case)
        except links.Fails:
            return None, name
    rows, others = verify_questions(case)
    return (rows + others, None) if rows else (None, "issuer")


def verify_reply(text):
    """The reply of `questions verify` and its status."""
    try:
        case = links.SimpleNamespace(request=links.read_request(text.encode()))
    except NoRequest:
        return "refused request", 2
    rows, failing = rows_or_link(case)
    return (f"refused {failing}", 1) if failing else listing(text, document(list(map(written, rows))))


def gate_reply(text):
    """The reply of `questions gate` and its status: what the links of each bundle ask for, each once."""
    try:
        read = gate_requests.read_request(text)
    except gate_requests.manifests.Refused:
        return "refused request", 2
    cases = [gate_requests.case_of(read, artifact, bundle) for artifact in read["artifacts"] for bundle in artifact["bundles"]]
    rows = [row for case in cases for row in rows_or_link(case)[0] or []]
    if sum(len(part or "") for _, *parts in rows for part in parts) > MOST_ASKED:
        return "refused request", 2
    return listing(text, document(list(map(written, dict.fromkeys(rows)))))


def write():
    for names, reply in ((LOG, log_reply), (CONSISTENCY, consistency_reply), (AUDIT, audit_reply), (WITNESS, witness_reply), (GATE, gate_reply),
                         (VERIFY, verify_reply)):
        for name in names:
            text, status = reply((TOP / f"examples/{name}.json").read_text())
            (TOP / f"examples/questions-{name}.expected").write_text(f"{text}\nstatus {status}\n")


def run(program, text, *words):
    """The reply, its lines in one, and the status."""
    done = subprocess.run([program, *words], input=text, text=True, capture_output=True)
    return done.stdout.removesuffix("\n").replace("\n", " "), done.returncode


def with_accepted(text, rows):
    return json.dumps({**json.loads(text), "accepted": rows})


def verify_second(text):
    reply = links.verify(text.encode())[0]
    return reply.replace("\n", " "), verify_cases.status_of(reply)


def is_same(program, command, text, wanted, second):
    """Whether the program lists what this reader lists of a request, and nothing else matters to its command."""
    said = run(program, text, "questions", command)
    if said != wanted:
        return False
    reply = run(program, text, command)
    if said[1] == 2:
        return True
    if said[1] == 1:
        return said == reply == run(program, with_accepted(text, []), command)
    listed = json.loads(said[0])
    read = [log_requests.row_of(row) for row in listed]
    kept = [row for row in json.loads(text).get("accepted") or [] if log_requests.row_of(row) in read]
    every = with_accepted(text, listed)
    return run(program, with_accepted(text, kept), command) == reply and run(program, every, command) == second(every)


def with_signatures(text, count):
    """The request whose checkpoint has its signature this many times."""
    request = json.loads(text)
    note, signature = request["checkpoint"].split("\n\n")
    return json.dumps({**request, "checkpoint": "\n\n".join([note] + [signature.rstrip("\n")] * count)})


def with_many_heads(text, count):
    """The request of an audit whose last head follows itself this many times, each time with two hundred signatures."""
    request = json.loads(text)
    note, signature = request["heads"][-1]["checkpoint"].split("\n\n")
    again = {"checkpoint": "\n\n".join([note] + [signature.rstrip("\n")] * 200)}
    return json.dumps({**request, "heads": request["heads"] + [again] * count})


def with_different_signatures(text, count):
    """The request of a witness whose first checkpoint has this many signatures, each of them twice."""
    request = json.loads(text)
    first = request["updates"][0]
    note, _ = first["checkpoint"].split("\n\n")
    lines = [f"\u2014 log.example {in_base64(number.to_bytes(8, 'big'))}" for number in range(count)]
    return json.dumps({**request, "updates": [{**first, "checkpoint": "\n\n".join([note, *lines, *lines])}]})


def with_many_artifacts(text):
    """The manifest with 128 artifacts, all of the same bundle."""
    request = json.loads(text)
    return json.dumps({**request, "artifacts": request["artifacts"][-1:] * 128})


def about_the_limit(program, command, text):
    """Whether the list of a request is written as long as the two fit one request, which is then read."""
    front, brace = text.rstrip()[:-1], "}"
    found, status = run(program, text, "questions", command)
    reply = run(program, with_accepted(text, json.loads(found)), command)
    room = MOST_BYTES - len(found) - len(BETWEEN) - len(brace)
    for length, wanted in ((room - 1, (found, 0)), (room, (found, 0)), (room + 1, ("refused request", 2))):
        padded = front + " " * (length - len(front.encode()))
        if run(program, padded + brace, "questions", command) != wanted:
            return False
        if wanted[1] == 0 and run(program, padded + BETWEEN + found + brace, command) != reply:
            return False
    return status == 0


def limit_texts():
    log, consistency, audit, witness, gate, verify = ((TOP / f"examples/{name}.json").read_text()
                                                      for name in ("log", "consistency", "audit", "witness", "gate", "verify"))
    # The list of many signatures is longer than the request, whose note each of them repeats.
    return [("log", log), ("log", with_signatures(log, 40_000)), ("consistency", consistency),
            ("consistency", with_signatures(consistency, 40_000)), ("audit", audit), ("audit", with_many_heads(audit, 200)),
            ("witness", witness), ("witness", with_different_signatures(witness, 40_000)), ("gate", gate), ("gate", with_many_artifacts(gate)),
            ("verify", verify)]


def keyed_text(over, anchors):
    """A request of `verify` whose leaf was issued under the name a, with these intermediates (name, issuer, key, path length) and trust anchors
    (name, key)."""
    made = [inter(*parts) for parts in over]
    roots = [fixture.anchor(subject=fixture.name(name), issuer=fixture.name(name), key=fixture.key(under)) for name, under in anchors]
    listed = [{"certChain": {"certificates": [{"rawBytes": in_base64(fixture.certificate(each))} for each in roots]}}]
    changes = [verify_cases.chain(made, leaf=fixture.leaf(issuer=fixture.name("a"))), verify_cases.root("certificateAuthorities", listed)]
    return fixture.compact(verify_cases.built(changes))


def chain_text(over, anchors):
    """The same, each certificate with a key of its own."""
    return keyed_text([(*names, 16 + place, length) for place, (*names, length) in enumerate(over)],
                      [(name, 64 + place) for place, name in enumerate(anchors)])


# 16 further certificates and some trust anchors, and how many rows are of signatures of certificates and how many of the SCT. At most they are
# 17 * (16 + anchors) and 16 + anchors: 323 and 19, 340 and 20.
LONGEST = [([("a", "root", None)] * 16, ["root"] * 3, 16 + 16 * 3, 16),
           ([("a", "b", None)] * 6 + [("b", "c", None)] * 5 + [("c", "root", None)] * 5, ["root"] * 4, 6 + 6 * 5 + 5 * 5 + 5 * 4, 6),
           ([("a", "b", None)] * 8 + [("b", "a", 1)] * 8, ["a", "a", "b", "b"], 17 * 10, 10)]


def has_lengths(program, text, certificates, points):
    """Whether the list of a request is that of this reader, with this many rows of certificates and of the SCT."""
    wanted = verify_reply(text)
    kinds = [row["operation"] for row in json.loads(wanted[0])]
    return (kinds.count("certificate"), kinds.count("point")) == (certificates, points) and run(program, text, "questions", "verify") == wanted


# Intermediates and trust anchors, a path over some of the intermediates in order to the first trust anchor, and of which of its signatures, from
# the leaf's up, it is stated by hand that `issuer` rests on them (1) or that a shortcut goes past them (0). A shortcut goes from an intermediate
# below the signature to one above it, or to a trust anchor, which has its name and its key.
STEPS = [
    # each name and key once
    ([("a", "b", 16, None), ("b", "root", 17, None)], [("root", 64)], [0, 1], "111"),
    ([("a", "b", 16, None), ("b", "c", 17, None), ("c", "d", 18, None), ("d", "e", 19, None), ("e", "f", 20, None), ("f", "root", 21, None)],
     [("root", 64)], [0, 1, 2, 3, 4, 5], "1111111"),
    # two certificates of one name and key, of one name, of one key; one certificate twice
    ([("a", "b", 16, None), ("b", "a", 17, None), ("a", "root", 16, None)], [("root", 64)], [0, 1, 2], "1001"),
    ([("a", "b", 16, None), ("b", "a", 17, None), ("a", "root", 18, None)], [("root", 64)], [0, 1, 2], "1111"),
    ([("a", "b", 16, None), ("b", "c", 17, None), ("c", "root", 16, None)], [("root", 64)], [0, 1, 2], "1111"),
    ([("a", "b", 16, None), ("b", "a", 17, None)], [("b", 64)], [0, 1, 0], "1001"),
    # a shortcut past one signature of many, and none below or above it
    ([("a", "b", 16, None), ("b", "c", 17, None), ("c", "b", 18, None), ("b", "root", 17, None)], [("root", 64)], [0, 1, 2, 3], "11001"),
    # another trust anchor of an intermediate's name and key, of its name, of its key
    ([("a", "b", 16, None), ("b", "root", 17, None)], [("root", 64), ("b", 17)], [0, 1], "110"),
    ([("a", "b", 16, None), ("b", "root", 17, None)], [("root", 64), ("b", 65)], [0, 1], "111"),
    ([("a", "b", 16, None), ("b", "root", 17, None)], [("root", 64), ("c", 17)], [0, 1], "111"),
]


def listed_case(text):
    """The case of a request of `verify` of which the links before `issuer` hold."""
    case = links.SimpleNamespace(request=links.read_request(text.encode()))
    for name in list(links.LINKS)[:list(links.LINKS).index("issuer")]:
        links.LINKS[name](case)
    return case


def step(y, x):
    return written(("certificate", y.algorithm, x.spki, y.tbs, y.signature))


def replies_without(program, text, steps, others):
    """The reply of `verify` where all of these signatures are accepted, and that where one of the steps is not, for each."""
    return [run(program, with_accepted(text, [row for row in steps if row != left] + others), "verify") for left in [None, *steps]]


def resting(program, text, path):
    """For each signature of a path 1 if `verify` refuses `issuer` where only this one is not accepted, and otherwise 0."""
    case = listed_case(text)
    above = [*(case.later[place] for place in path), case.anchors[0]]
    whole, *replies = replies_without(program, text, [step(y, x) for y, x in zip([case.leaf, *above], above)],
                                      list(map(written, verify_questions(case)[1])))
    if whole[1] != 0 or any(each not in (whole, ("refused issuer", 1)) for each in replies):
        return None
    return "".join("0" if each == whole else "1" for each in replies)


def first_issuer_turns(program):
    """Whether `sct` rests on a signature past which a shortcut goes: without it another issuer comes first in a path, and its key is not the one
    under which the SCT is genuine."""
    text = keyed_text([("a", "b", 16, None), ("a", "root", 17, None), ("b", "a", 18, None), ("a", "root", 16, None)], [("root", 64)])
    case = listed_case(text)
    (one, other, between, last), top = case.later, case.anchors[0]
    case.issuer = one
    points = list(map(written, asked(case, "sct")))
    others = points + [row for row in map(written, verify_questions(case)[1]) if row["operation"] != "point"]
    steps = [step(one, between), step(between, last), step(case.leaf, one), step(last, top), step(case.leaf, other), step(other, top)]
    replies = replies_without(program, text, steps, others)
    return replies[0][1] == 0 and replies[1:3] == [("refused sct", 1)] * 2


def texts_of(command):
    lines = (TOP / f"examples/{command}.requests").read_text().split("\n")
    return [line for line in lines if line.startswith((" ", "{", "[", "\ufeff"))]


def verify_texts():
    # Of the further rows those of SCTs, under which a row of the SCT's log is listed or not.
    for group in [*verify_rows.GROUPS, verify_rows_content.scts]:
        group()
    return [row.text for row in verify_cases.ROWS]


def check(program):
    failed = 0
    for command, texts, reader, second in (("log", texts_of("log"), log_reply, log_requests.reply),
                                           ("consistency", texts_of("consistency"), consistency_reply, consistency_requests.reply),
                                           ("audit", texts_of("audit"), audit_reply, audit_requests.reply),
                                           ("witness", texts_of("witness"), witness_reply, witness_requests.reply),
                                           ("gate", texts_of("gate"), gate_reply, gate_requests.reply),
                                           ("verify", verify_texts(), verify_reply, verify_second)):
        for text in texts:
            wanted = reader(text)
            if not is_same(program, command, text, wanted, second):
                failed += 1
                print(f"{command} of {text[:200]}\n  is not {wanted[0][:200]} {wanted[1]}", file=sys.stderr)
        print(f"questions {command}: {len(texts)} requests", file=sys.stderr)
    for over, anchors, *lengths in LONGEST:
        if not has_lengths(program, chain_text(over, anchors), *lengths):
            failed += 1
            print(f"questions verify of a chain of {over} under {anchors} has not {lengths} rows", file=sys.stderr)
    for over, anchors, path, wanted in STEPS:
        if resting(program, keyed_text(over, anchors), path) != wanted:
            failed += 1
            print(f"issuer does not rest on the signatures {wanted} of the path {path} of {over} under {anchors}", file=sys.stderr)
    if not first_issuer_turns(program):
        failed += 1
        print("sct does not rest on a signature past which a shortcut goes", file=sys.stderr)
    for command, text in limit_texts():
        if not about_the_limit(program, command, text):
            failed += 1
            print(f"{command} about the limit of {text[:200]}", file=sys.stderr)
    return failed


if __name__ == "__main__":
    if sys.argv[1:2] == ["check"]:
        sys.exit(min(check(sys.argv[2]), 1))
    write()
