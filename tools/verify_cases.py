#!/usr/bin/env python3
"""Writes a table of requests of `verify` with their replies, and the examples of `verify`.

    tools/verify_cases.py                      writes the calls of the library with what they return, crates/verify_cases/stdin and stdout, and
                                               says how many rows each link has
    tools/verify_cases.py REQUESTS EXPECTED    writes the requests and their replies there, and a longer table, with cases that other tables
                                               have for a single reader
    tools/verify_cases.py check PROGRAM        gives the request of each row to `PROGRAM verify`, and compares reply and status
    tools/verify_cases.py examples FOLDER      writes verify.json and verify-refused.json with their .expected files

A row of tools/verify_rows.py says what changes in the fixture's request and, by hand, what the result is. tools/verify_links.py, a second
implementation of the links, has to say the same; otherwise nothing is written. A line of the requests is a row's name, a tab, and the request; a line
of what is expected is the name, a tab, the reply, a tab, and the error of the library call `verify_offline` (`-` where there is none, and where
the request itself is refused, which no library call reads). Such rows are not calls; each other row is one, under a `#` line of its name. The
calls of tools/verify_calls.py follow.
"""
import base64
import collections
import copy
import json
import os
import subprocess
import sys
from urllib.parse import quote

sys.dont_write_bytecode = True

import fixture
import request_cases
import results
import verify_links
from case_table import Table
from fixture import BIT_STRING, OBJECT_IDENTIFIER, SEQUENCE, compact, der, leaf, leaf_extensions, oid

ABSENT = object()


# What a row changes. Edits of `parts` rebuild all that is computed from them, the accepted signatures too, as if the signer had signed the changed
# thing; the others are made afterwards, in the trusted root, the bundle or the request, and nothing is signed anew.

def parts(**changed):
    return "parts", changed


def message(**changed):
    """As `parts`, of the request over a signature of the artifact itself."""
    return "message", changed


def chain(over, **changed):
    """As `parts`, of the request whose leaf these intermediates connect to the trust anchor; beside a message, over a signature of the artifact."""
    return "chain", {"over": over, **changed}


def root(path, value):
    """The member of the trusted root at this path, as `tlogs.0.logId.keyId`; a function of the old value, or ABSENT, or the new value."""
    return "root", (path, value)


def bundle(path, value):
    return "bundle", (path, value)


def request(path, value):
    return "request", (path, value)


def unaccepted(place):
    """Without this row of `accepted`: 0 the leaf's, 1 the SCT's, 2 the envelope's, 3 the promise's, 4 the checkpoint's; of a chain, from 5 on
    the intermediates'."""
    return "unaccepted", place


def accepted(*words):
    """With another row of `accepted`: operation, scheme, key, message, signature."""
    return "accepted", fixture.row(*words)


def of_bytes(change):
    """A change of the bytes of a base64 member."""
    return lambda text: fixture.base64_of(change(base64.b64decode(text)))


# Where things are in the fixture, and other parts for it.

MATERIAL = "verificationMaterial"
CERTIFICATE = MATERIAL + ".certificate.rawBytes"
ENTRY = MATERIAL + ".tlogEntries.0"
PROOF = ENTRY + ".inclusionProof"
CHECKPOINT = PROOF + ".checkpoint.envelope"
AUTHORITY = "certificateAuthorities.0"
ANCHOR = AUTHORITY + ".certChain.certificates.0.rawBytes"


def held(**changes):
    """The fixture's leaf with other extensions."""
    return parts(leaf=leaf(leaf_extensions(**changes)))


def elliptic(curve, bits=b"\x04" + b"\x02" * 64):
    """A SubjectPublicKeyInfo on a curve (RFC 5480 section 2)."""
    algorithm = der(OBJECT_IDENTIFIER, oid("1.2.840.10045.2.1")), der(OBJECT_IDENTIFIER, oid(curve))
    return der(SEQUENCE, der(SEQUENCE, *algorithm), der(BIT_STRING, b"\x00", bits))


UNKNOWN_CURVE = elliptic("1.3.132.0.10")
KEYS = [("P-384", elliptic("1.3.132.0.34", b"\x04" + b"\x02" * 96), "ECDSA_P384_SHA384_ASN1"),
        ("P-521", elliptic("1.3.132.0.35", b"\x04" + b"\x02" * 132), "ECDSA_P521_SHA512_ASN1"),
        ("RSA", fixture.wide_key(), "RSA_PKCS1_SHA256"),
        ("Ed25519", der(SEQUENCE, der(SEQUENCE, der(OBJECT_IDENTIFIER, oid("1.3.101.112"))), der(BIT_STRING, b"\x00", b"\x02" * 32)), "ED25519")]


# The request that the changes make.

def edited(tree, path, value):
    if path == "":
        return value(tree) if callable(value) else value
    *way, last = [int(name) if name.isdigit() else name for name in path.split(".")]
    place = tree
    for name in way:
        place = place[name]
    if value is ABSENT:
        del place[last]
    else:
        place[last] = value(place[last]) if callable(value) else copy.deepcopy(value)
    return tree


def of_kind(changes, kind):
    return [change for each, change in changes if each == kind]


def built(changes):
    """The members of the request that the changes make of the fixture's."""
    changed, messages, chains = {}, of_kind(changes, "message"), of_kind(changes, "chain")
    for each in of_kind(changes, "parts") + messages + chains:
        assert not set(changed) & set(each), "two changes of one part"
        changed.update(each)
    kinds = {(True, False): fixture.ChainRequest, (False, True): fixture.MessageRequest, (True, True): fixture.MessageChainRequest}
    made = kinds.get((bool(chains), bool(messages)), fixture.Request)(**changed)
    documents = {"root": made.trusted_root(), "bundle": made.bundle()}
    for name in documents:
        for path, value in of_kind(changes, name):
            documents[name] = edited(documents[name], path, value)
    rows = [row for place, row in enumerate(made.accepted()) if place not in of_kind(changes, "unaccepted")]
    members = {"trustedRoot": compact(documents["root"]), "bundle": compact(documents["bundle"], canonical=True), "now": made.now,
               "digest": made.digest, "policy": made.policy, "accepted": rows + of_kind(changes, "accepted")}
    for path, value in of_kind(changes, "request"):
        members = edited(members, path, value)
    return members


# Rows and lines.

Row = collections.namedtuple("Row", "name expected text")
ROWS = []


def judged(text):
    return verify_links.verify(text.encode())


def meets(said, expected):
    """Whether reply and error are the expected lines: `verified I N`, with a second line of entries, or a link and the error, of which `...` leaves the end open."""
    reply, error = said
    link, _, wanted = expected.partition(" ")
    if link == "verified":
        return said == (expected, "-")
    same = error.startswith(wanted[:-3]) if wanted.endswith("...") else error == (wanted or "-")
    return reply == "refused " + link and same


def add(name, expected, text):
    said = judged(text)
    assert meets(said, expected), "%s: expected %s, but the second implementation says %s" % (name, expected, said)
    assert "\t" not in name and "\n" not in text and "\t" not in text and all(name != row.name for row in ROWS), name
    ROWS.append(Row(name, said, text))


# The first link that asks for a part of a document, and for a row of `accepted`: a row that fails before does without it.
ASKS = [("content", "bundle", "dsseEnvelope"), ("entry", "bundle", MATERIAL + ".tlogEntries"), ("profile", "bundle", PROOF),
        ("promise", "bundle", ENTRY + ".inclusionPromise"), ("body", "bundle", ENTRY + ".canonicalizedBody"),
        ("ctfe", "trustedRoot", "ctlogs"), ("log-key", "trustedRoot", "tlogs")]
ASKS_ROWS = ["issuer", "sct", "signature", "promise", "note-key"]


def without(members, name, path):
    """The members without what is at this path of a document, or as they are where the document has nothing there or is written otherwise."""
    try:
        tree = json.loads(members[name])
        if compact(tree, canonical=name == "bundle") == members[name]:
            return {**members, name: compact(edited(tree, path, ABSENT), canonical=name == "bundle")}
    except (ValueError, KeyError, IndexError, TypeError):
        pass
    return members


def without_row(members, place):
    """The members without the row of `accepted` that the fixture has in this place, whatever changes of it."""
    kept = [row for row in members["accepted"] if row["signature"] != fixture.Request().accepted()[place]["signature"]]
    return {**members, "accepted": kept}


def smaller(members):
    """The same request without what only links after the first that fails would ask for."""
    said = judged(compact(members))
    if said[0].startswith("verified"):
        return members
    order = verify_links.NAMES.index
    failing = order(said[0].removeprefix("refused "))
    wanted = [lambda old: {**old, "bundle": "{}"}] if failing < order("material") else []
    wanted += [lambda old, part=part: without(old, *part) for link, *part in ASKS if failing < order(link)]
    wanted += [lambda old, place=place: without_row(old, place) for place, link in enumerate(ASKS_ROWS) if failing < order(link)]
    for change in wanted:
        other = change(members)
        if other != members and judged(compact(other)) == said:
            members = other
    return members


def row(name, expected, *changes):
    add(name, expected, compact(smaller(built(changes))))


def whole_row(name, expected, *changes):
    """A row with all of the request, so that only its changes can fail."""
    add(name, expected, compact(built(changes)))


def text_row(name, expected, text):
    """A row whose request is this text."""
    add(name, expected, text)


# Files.

def write(path, lines):
    with open(path, "w", encoding="utf-8") as file:
        file.write("".join(line + "\n" for line in lines))


def write_table(requests, expected):
    write(requests, ["%s\t%s" % (row.name, row.text) for row in ROWS])
    write(expected, ["%s\t%s\t%s" % (row.name, *row.expected) for row in ROWS])


def count():
    """Says how many rows fail first at each link."""
    counts = collections.Counter(row.expected[0].removeprefix("refused ").split(" ")[0] for row in ROWS)
    for name in ["verified", *verify_links.NAMES]:
        print("%s: %d" % (name, counts[name]))
    print("%d rows" % len(ROWS))


# The same rows as calls of the library.

PLAIN = "".join(map(chr, range(0x21, 0x7F))).replace("%", "")


def text_word(text):
    """A text as one argument of a call; `-` is the empty one."""
    return quote(text, safe=PLAIN) if text not in ("", "-") else "%2D" if text else "-"


def policy_words(policy):
    quantifier, rules = verify_links.policy_of(policy)
    return [quantifier, str(len(rules)), *[word for name, texts in rules for word in (name, *map(text_word, texts))]]


def call(text):
    """The call of `verify_offline` for which a request stands."""
    members = verify_links.documents.tree(text.encode())
    return " ".join(["verify_offline", str(int(members["now"])), members["digest"], *policy_words(members["policy"]),
                     text_word(members["trustedRoot"]), text_word(members["bundle"]), *map(request_cases.words_of, members.get("accepted") or [])])


def returned(reply, error):
    """The line that is written for a call: `ok` and two numbers, or the link and the error."""
    kind, _, rest = reply.partition(" ")
    return "ok " + rest if kind == "verified" else "%s %s" % (rest, error)


# The rows that are not calls too, since the table would be too long: rows like them are in the tables of the readers that they are about, or
# stay beside them.
NO_CALLS = ("index: the entry's own", "message intermediates: ", "range of a log's key: null", "range of a log's key: without", "range of a log's key: begun",
            "range of a log's key: no start", "policy: ", "subject: a", "subject: in upper", "subject: of", "subject: with", "subject: the second",
            "proof: ", "checkpoint: ", "promise: null", "promise: of no bytes", "promise: of another", "body: another part: the kind",
            "body: another part: the version", "body: another part: the envelope's alg", "body: another part: the payload's alg",
            "body: another part: no", "issuer: a trust anchor without", "issuer: a trust anchor of version", "issuer: itself twice",
            "certificate log keys: others", "certificate log keys: no key beside", "certificate log keys: an RSA", "certificate log keys: under",
            "bundle: null for a content", "bundle: a doubled", "trusted root: the 29th", "entries: ", "request: entries", "hundreds: entries",
            "request: members of a rule")
CALLED = ("policy: any of", "policy: an issuer with quotation marks", "policy: all seven", "policy: the errors", "body: another part: no certificate", "subject: asked")


def is_call(row):
    return row.expected[0] != "refused request" and (row.name.startswith(CALLED) or not row.name.startswith(NO_CALLS))


def new_kinds(rows, shown):
    """The rows whose error is of a kind that no row before shows, and that is not among those shown."""
    shown = set(shown)
    for each in rows:
        kind = results.normalized(each.expected[1])
        if kind not in shown:
            shown.add(kind)
            yield each


def called_rows(rows, further):
    """The rows that are calls: those of the table, and of the others what shows a kind of error that the table does not."""
    calls = [each for each in rows if is_call(each)]
    return calls + list(new_kinds([each for each in further if each.expected[0] != "refused request"], kinds_in(calls)))


def kinds_in(rows):
    return [results.normalized(each.expected[1]) for each in rows]


def write_calls(rows, further):
    import verify_calls
    table = Table("verify_cases")
    called = called_rows(rows, further)
    calls = [(row.name, call(row.text), returned(*row.expected)) for row in called] + verify_calls.calls() + verify_calls.of_parts(called)
    for name, asked, wanted in calls:
        table.note(name)
        table.case(asked, wanted)
    table.write()


def write_examples(folder):
    """The fixture's request, and one whose leaf was issued for another workflow than the policy names."""
    other = built([parts(policy={"all": [{"identity": "https://example.com/other", "issuer": fixture.ISSUER}]})])
    for name, members, reply in [("verify", built([]), "verified 2 5"), ("verify-refused", other, "refused policy")]:
        assert judged(compact(members))[0] == reply
        write(os.path.join(folder, name + ".json"), [compact(members)])
        write(os.path.join(folder, name + ".expected"), [reply, "status %d" % status_of(reply)])


def is_verified(reply):
    return reply.startswith("verified ")


def status_of(reply):
    return {"refused request": 2}.get(reply, 0 if is_verified(reply) else 1)


def check(program):
    """Runs the program on each row of the table, and says which replies and statuses are others."""
    failed = 0
    for row in ROWS:
        name, reply = row.name, row.expected[0]
        run = subprocess.run([program, "verify"], input=row.text.encode(), stdout=subprocess.PIPE, check=False)
        said, wanted = (run.stdout, run.returncode), ((reply + "\n").encode(), status_of(reply))
        if said != wanted:
            failed += 1
            print("%s: gave %s and not %s" % (name, said, wanted))
    print("%d rows, %d failed" % (len(ROWS), failed))
    sys.exit(failed > 0)


def main(words):
    if words[:1] == ["examples"]:
        write_examples(words[1])
        return
    import verify_rows
    for group in verify_rows.GROUPS:
        group()
    rows = list(ROWS)
    for group in verify_rows.MORE:
        group()
    if words[:1] == ["check"]:
        check(words[1])
    elif words:
        write_table(*words)
    else:
        write_calls(rows, ROWS[len(rows):])
    count()


if __name__ == "__main__":
    sys.modules["verify_cases"] = sys.modules["__main__"]
    main(sys.argv[1:])
