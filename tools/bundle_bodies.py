"""Proofs and bodies of log entries, with one or more parts changed: the rows `to_proof`, `tlog_entry` and `tlog_message` of bundle_cases.txt."""
import base64
import json
import re

import fixture
from bundle_faults import NARROW
from bundle_reader import Float, Refused, ask, has_float
from bundle_table import named_case
from fixture import base64_of, compact
from rekor_cases import Fault, debug, read_checkpoint


def changed(tree, change):
    """Sets the part of this path to a value: JSON, `absent`, or a word for what becomes of the part that is there."""
    path, _, value = change.partition(" ")
    *above, last = [int(step) if step.isdigit() else step for step in path.split(".")]
    for step in above:
        tree = tree[step]
    words = {"upper": str.upper, "short": lambda text: text[:-2], "again": lambda held: held + held,
             "other-first": lambda text: ("1" if text[0] == "0" else "0") + text[1:], "more": lambda text: text + "00",
             "after-null": lambda held: [None] + held, "before-null": lambda held: held + [None],
             "unpadded": lambda text: text.rstrip("="), "first": lambda held: held[0]}
    if value == "absent":
        del tree[last]
    else:
        tree[last] = words[value](tree[last]) if value in words else json.loads(value)


def proof_of(fields):
    """The line of the proof that the members are, or the first fault (RFC 6962 section 2.1.1)."""
    def is_hash(coded):
        return len(base64.b64decode(coded)) == 32
    if not is_hash(fields["rootHash"]):
        return "RootLength"
    for place, coded in enumerate(fields["hashes"]):
        if not is_hash(coded):
            return "HashLength(%d)" % place
    if int(fields["treeSize"]) < 0:
        return "TreeSize"
    if fields.get("checkpoint") is None:
        return "CheckpointMissing"
    try:
        note, signatures = read_checkpoint(fields["checkpoint"].get("envelope", ""))
    except Fault as fault:
        return "Checkpoint(%s)" % fault
    hashes = [base64.b64decode(coded).hex() for coded in fields["hashes"]]
    return " ".join(["ok", fields["logIndex"], base64.b64decode(fields["rootHash"]).hex(), fields["treeSize"], str(len(hashes)), *hashes,
                     debug(note[0]), str(note[1]), note[2].hex(), str(len(signatures))])


def proof_case(line):
    expected, _, changes = line.partition(" ")
    bundle = fixture.Request().bundle()
    fields = bundle["verificationMaterial"]["tlogEntries"][0]["inclusionProof"]
    for change in changes.split("; ") if changes else []:
        changed(fields, change)
    found = proof_of(fields)
    assert found.split(" ")[0] == expected, line
    named_case(changes or "as it is", "to_proof " + compact(bundle, canonical=True), found)


def get(value, name):
    """The member of an object, None where it is absent or null."""
    ask(isinstance(value, dict) and value.get(name) is not None)
    return value[name]


def says(value, name, wanted):
    found = get(value, name)
    ask(isinstance(found, str) and found == wanted)


def hashes_to(value, name, content):
    part = get(value, name)
    says(part, "algorithm", "sha256")
    digits = get(part, "value")
    ask(isinstance(digits, str) and re.fullmatch("[0-9a-fA-F]{64}", digits) and digits.lower() == fixture.sha256(content).hex())


def is_body(body, request):
    """Whether the text is Rekor's entry of kind dsse, version 0.0.1, about the request's envelope."""
    try:
        tree = json.loads(body, parse_float=lambda _: Float())
        ask(not has_float(tree))
        says(tree, "kind", "dsse")
        says(tree, "apiVersion", "0.0.1")
        spec = get(tree, "spec")
        hashes_to(spec, "envelopeHash", fixture.envelope_json(request.payload, request.signature).encode())
        hashes_to(spec, "payloadHash", request.payload)
        listed = get(spec, "signatures")
        ask(isinstance(listed, list) and listed)
        says(listed[0], "signature", base64_of(request.signature))
        says(listed[0], "verifier", base64_of(fixture.pem(request.leaf_der).encode()))
    except (ValueError, Refused):
        return False
    return True


def is_hashedrekord(body, request, digest):
    """Whether the text is Rekor's entry of kind hashedrekord, version 0.0.1, about an artifact of this digest, and nothing else."""
    hashed = {"algorithm": "sha256", "value": digest.hex()}
    key = {"content": base64_of(fixture.pem(request.leaf_der).encode())}
    signed = {"content": base64_of(request.signature), "publicKey": key}
    entry = {"apiVersion": "0.0.1", "kind": "hashedrekord", "spec": {"data": {"hash": hashed}, "signature": signed}}
    try:
        return json.loads(body, parse_float=lambda _: Float()) == entry
    except ValueError:
        return False


def turned(tree):
    """The members of each object in the other order."""
    return {name: turned(tree[name]) for name in reversed(tree)} if isinstance(tree, dict) else tree


def changed_body(body, kind, rest, change):
    """The body with a change; after `text` it is that text, and `blanks`, `turned` and `escaped` are other texts of the same tree."""
    if kind == "text":
        return rest
    if kind == "blanks":
        return " " + json.dumps(json.loads(body), indent=1) + "\n"
    if kind == "turned":
        return compact(turned(json.loads(body)))
    if kind == "escaped":
        return body.replace("sha256", "\\u0073ha256").replace("/", "\\/")
    if kind == "doubled":
        return body.replace('{"apiVersion"', '{"kind":"dsse","apiVersion"', 1)
    if not change:
        return body
    tree = json.loads(body)
    changed(tree, change)
    return compact(tree)


def body_lines(request, is_body, digest, line):
    """A change of the body, or of the leaf, or after `digest` another digest of the artifact."""
    expected, _, change = line.partition(" ")
    kind, _, rest = change.partition(" ")
    made = request()
    bundle, body = made.bundle(), made.body.decode()
    if kind == "leaf":
        made = request(leaf=fixture.leaf(serial=b"\x02\x01\x09"))
        bundle = made.bundle()
    elif kind == "digest":
        digest = bytes.fromhex(rest)
    else:
        body = changed_body(body, kind, rest, change)
    bundle["verificationMaterial"]["tlogEntries"][0]["canonicalizedBody"] = base64_of(body.encode())
    assert is_body(body, made, digest) == (expected == "true"), line
    for offline in ("true", "false"):
        call = "tlog_entry %s %s %s" % (offline, digest.hex() or "-", compact(bundle, canonical=True))
        named_case(change or "as it is", call, "ok " + expected)


def body_case(line):
    body_lines(fixture.Request, lambda body, request, _: is_body(body, request), b"", line)


def message_case(line):
    body_lines(fixture.MessageRequest, is_hashedrekord, bytes.fromhex(NARROW), line)
