"""The rows of crates/rekor_cases on the models of Rekor's API, which tools/rekor_cases.py writes after its own.

The answers are this program's own: JSON as RFC 8259 has it, with only integers, by Python's reader; canonical JSON by RFC 8785; hexadecimal and base64
by RFC 4648; checkpoints and audit paths as tools/rekor_cases.py reads them. The first entry is a real one of Sigstore's staging log."""
import base64
import itertools
import json
import pathlib
import re

import rekor_cases as notes
from case_table import Table
from dsse_cases import depth_of

EXAMPLES = pathlib.Path(__file__).resolve().parent.parent / "examples"
KINDS = ("alpine", "hashedrekord", "helm", "intoto", "jar", "rekord", "rfc3161", "rpm", "tuf")
TABLE = Table("rekor_cases")


class Refused(Exception):
    """Why a text is not a model, or the model does not hold."""


def say(first, *others):
    TABLE.group(first)
    for line in others:
        TABLE.note(line)


def row(line, answer):
    try:
        TABLE.case(line, answer())
    except Refused as why:
        TABLE.case(line, str(why))


# ---- hashes and proofs


def read_hash(text, length):
    if len(text) % 2 or not re.fullmatch("[0-9a-fA-F]*", text):
        raise Refused("HexDecodeError")
    if len(text) != 64:
        raise Refused(f"UnexpectedError({length})")
    return bytes.fromhex(text)


def read_checkpoint(text):
    try:
        return notes.read_checkpoint(text)
    except notes.Fault as fault:
        raise Refused(f"ParseCheckpointError({fault})") from None


def read_proof(api):
    hashes = [read_hash(text, f"HashLength({place})") for place, text in enumerate(api["hashes"])]
    root = read_hash(api["rootHash"], "RootLength")
    return hashes, root, read_checkpoint(api["checkpoint"]) if api["checkpoint"] else None


def proof_line(api):
    hashes, root, checkpoint = read_proof(api)
    shown = "none" if checkpoint is None else notes.checkpoint_line(checkpoint)
    return " ".join(("ok", str(api["logIndex"]), root.hex(), str(api["treeSize"]), *(h.hex() for h in hashes), shown))


def hex_list(texts):
    return ",".join(notes.in_hex(text.encode()) for text in texts) or "-"


def from_rekor(api):
    words = (hex_list(api["hashes"]), str(api["logIndex"]), notes.quoted(api["rootHash"]), str(api["treeSize"]), notes.quoted(api["checkpoint"]))
    row("from_rekor " + " ".join(words), lambda: proof_line(api))


# ---- entries


def whole(digits):
    if digits == "-0" or not -(2**63) <= int(digits) < 2**64:
        raise Refused("float")
    return int(digits)


def no_float(text):
    raise Refused("float")


def document(text):
    try:
        found = json.loads(text, parse_int=whole, parse_float=no_float, parse_constant=no_float)
    except (ValueError, Refused):
        raise Refused("SerdeJsonError") from None
    if depth_of(found) > 127:
        raise Refused("SerdeJsonError")
    return found


def member(found, name, kind, needed=True):
    """The member of an object, None where it is absent or null."""
    if not isinstance(found, dict):
        raise Refused("SerdeJsonError")
    value = found.get(name)
    if value is None and not needed:
        return None
    if not isinstance(value, kind) or (kind is int and isinstance(value, bool)):
        raise Refused("SerdeJsonError")
    return value


def number(found, name, low, high):
    value = member(found, name, int)
    if not low <= value < high:
        raise Refused("SerdeJsonError")
    return value


def i64(found, name):
    return number(found, name, -(2**63), 2**63)


def read_body(text):
    found = notes.unbase64(text)
    if found is None:
        raise Refused("SerdeJsonError")
    try:
        body = document(found.decode())
    except UnicodeDecodeError:
        raise Refused("SerdeJsonError") from None
    if member(body, "kind", str) not in KINDS or body.get("spec") is None:
        raise Refused("SerdeJsonError")
    return {"apiVersion": member(body, "apiVersion", str), "kind": body["kind"], "spec": body["spec"]}


def read_api_proof(found):
    hashes = member(found, "hashes", list)
    if not all(isinstance(text, str) for text in hashes):
        raise Refused("SerdeJsonError")
    return {
        "hashes": hashes,
        "logIndex": i64(found, "logIndex"),
        "rootHash": member(found, "rootHash", str),
        "treeSize": number(found, "treeSize", 0, 2**64),
        "checkpoint": member(found, "checkpoint", str),
    }


def read_entry(text):
    found = document(text)
    uuid = member(found, "uuid", str, needed=False)
    if set(found) - {"uuid", "attestation", "body", "integratedTime", "logID", "logIndex", "verification"}:
        raise Refused("SerdeJsonError")
    attestation = member(found, "attestation", dict, needed=False)
    dummy = None if attestation is None else member(attestation, "dummy", str, needed=False)
    verification = member(found, "verification", dict)
    proof = member(verification, "inclusionProof", dict, needed=False)
    return {
        "uuid": uuid,
        "attestation": attestation is not None,
        "dummy": dummy,
        "body": read_body(member(found, "body", str)),
        "integratedTime": i64(found, "integratedTime"),
        "logID": member(found, "logID", str),
        "logIndex": i64(found, "logIndex"),
        "proof": None if proof is None else read_api_proof(proof),
        "promise": member(verification, "signedEntryTimestamp", str),
    }


def compact(tree):
    return json.dumps(tree, sort_keys=True, separators=(",", ":"), ensure_ascii=False)


def or_none(text):
    return "none" if text is None else notes.debug(text)


def api_proof_words(proof):
    if proof is None:
        return ["none"]
    shown = [str(proof["logIndex"]), notes.debug(proof["rootHash"]), str(proof["treeSize"]), notes.debug(proof["checkpoint"])]
    return shown + [notes.in_hex(text.encode()) for text in proof["hashes"]]


def entry_line(text):
    entry = read_entry(text)
    words = ["ok", or_none(entry["uuid"]), *(["attestation", or_none(entry["dummy"])] if entry["attestation"] else ["none"]), entry["body"]["kind"]]
    words += [str(entry["integratedTime"]), notes.debug(entry["logID"]), str(entry["logIndex"]), notes.debug(entry["promise"])]
    return " ".join(words + api_proof_words(entry["proof"]) + [compact(entry["body"])])


def entry(text):
    row(f"entry {notes.quoted(text)}", lambda: entry_line(text))


def is_large(tree):
    if isinstance(tree, bool):
        return False
    if isinstance(tree, int):
        return abs(tree) > 2**53 - 1
    return any(map(is_large, tree.values() if isinstance(tree, dict) else tree if isinstance(tree, list) else ()))


def inclusion_line(text, rows):
    found = read_entry(text)
    if found["proof"] is None:
        raise Refused("UnexpectedError(ProofMissing)")
    try:
        path, root, checkpoint = read_proof(found["proof"])
    except Refused:
        raise Refused("UnexpectedError(ProofConversion)") from None
    if is_large(found["body"]):
        raise Refused("UnexpectedError(CanonicalBody)")
    if checkpoint is None:
        raise Refused("UnexpectedError(CheckpointMissing)")
    index, size = found["proof"]["logIndex"], found["proof"]["treeSize"]
    leaf = compact(found["body"]).encode()
    return notes.signed(checkpoint, rows) or notes.of_tree(checkpoint, root, size) or notes.included(leaf, index, root, size, path) or "ok"


def entry_inclusion(key, rows, text):
    row(f"entry_inclusion {key.hex()} {notes.table(rows)} {notes.quoted(text)}", lambda: inclusion_line(text, rows))


def public_key(text):
    def answer():
        found = notes.unbase64(text)
        if found is None:
            raise Refused("Base64DecodeError")
        try:
            return f"ok {notes.debug(text)} {notes.debug(found.decode())}"
        except UnicodeDecodeError:
            raise Refused("Utf8Error") from None

    row(f"public_key {notes.quoted(text)}", answer)


# ---- entries to propose


def spec_tree(algorithm, value, signature, key):
    return {"data": {"hash": {"algorithm": algorithm, "value": value}}, "signature": {"content": signature, "publicKey": {"content": key}}}


def spec_words(algorithm, texts):
    return " ".join(("default" if algorithm == "sha256" else algorithm, *map(notes.quoted, texts)))


def hashedrekord(kind, version, algorithm, *texts):
    tree = {"apiVersion": version, "kind": kind, "spec": spec_tree(algorithm, *texts)}
    row(f"hashedrekord {notes.quoted(kind)} {notes.quoted(version)} {spec_words(algorithm, texts)}", lambda: "ok " + compact(tree))


def proposed(kind, version, spec):
    tree = {"apiVersion": version, "kind": kind, "spec": spec}
    row(f"proposed {kind} {notes.quoted(version)} {json.dumps(spec)}", lambda: "ok " + compact(tree))


def proposed_hashedrekord(version, algorithm, *texts):
    tree = {"apiVersion": version, "kind": "hashedrekord", "spec": spec_tree(algorithm, *texts)}
    row(f"proposed hashedrekord {notes.quoted(version)} {spec_words(algorithm, texts)}", lambda: "ok " + compact(tree))


# ---- the rows

STAGING = json.loads((EXAMPLES / "log-rekor-staging.json").read_text())
KEY = base64.b64decode(STAGING["key"])
ROWS = [(base64.b64decode(r["message"]), base64.b64decode(r["signature"])) for r in STAGING["accepted"]]
PROOF = {
    "hashes": STAGING["hashes"],
    "logIndex": STAGING["logIndex"],
    "rootHash": STAGING["rootHash"],
    "treeSize": STAGING["treeSize"],
    "checkpoint": STAGING["checkpoint"],
}
ENTRY = {
    "body": STAGING["entry"],
    "integratedTime": 0,
    "logID": "0" * 64,
    "logIndex": 1688,
    "verification": {"inclusionProof": PROOF, "signedEntryTimestamp": "AA=="},
}
BODY = {"apiVersion": "0.0.1", "kind": "hashedrekord", "spec": {}}
ROOT, ONE = notes.ROOT.hex(), notes.ONE


def coded(body):
    return base64.b64encode(body if isinstance(body, bytes) else json.dumps(body).encode()).decode()


def entry_with(**members):
    return json.dumps(dict(ENTRY, **members))


def with_proof(**members):
    return entry_with(verification={"signedEntryTimestamp": "AA==", "inclusionProof": dict(PROOF, **members)})


def small(proof, **members):
    return json.dumps(dict(ENTRY, body=coded(BODY), verification={"signedEntryTimestamp": "AA==", "inclusionProof": proof}, **members))


def without(found, name):
    return {n: v for n, v in found.items() if n != name}


# A checkpoint for each rule of its format, which it breaks first.
AT_FAULT = ("", "log\n1\nAA==\n\nx", "log\n1\nAA==\n\n\u2014 a\n", "log\n1\nAA==\n\n\u2014 a %%\n", "log\n1\nAA==\n\n\u2014 a AAA=\n", "log\n1\n\n",
            " \n1\nAA==\n\n", "log\nx\nAA==\n\n", "log\n1\nA\n\n", "log\n1\nAA==\n\n")

PLAIN = {"hashes": [], "logIndex": 0, "rootHash": ROOT, "treeSize": 1, "checkpoint": ONE}

say("from_rekor HASHES INDEX ROOT SIZE CHECKPOINT: what InclusionProof::try_from_rekor reads. The staging log's proof, and none of these letters.")
from_rekor(PROOF)
from_rekor(dict(PLAIN, checkpoint=""))
from_rekor(dict(PLAIN, rootHash=ROOT.upper(), hashes=[ROOT, "aB" * 32], logIndex=-(2**63), treeSize=2**64 - 1))
say("Hashes in order, then the root, then the checkpoint: the first that is none is named.")
BAD = (ROOT, "zz", "z" * 64, "00", "0", "", ROOT + "00", ROOT[:-1], ROOT[:-1] + "\u00e9")
for text in BAD[1:]:
    if text:  # a case's list has no empty elements
        from_rekor(dict(PLAIN, hashes=[text]))
        from_rekor(dict(PLAIN, hashes=[ROOT, ROOT, text, "zz"]))
    from_rekor(dict(PLAIN, rootHash=text))
for one, two, root, text in itertools.product((ROOT, "zz", "00"), (ROOT, "zz", "00"), (ROOT, "zz", "00"), (ONE, "", "x", "bad note\n\n")):
    from_rekor(dict(PLAIN, hashes=[one, two], rootHash=root, checkpoint=text))

say("Each rule of a checkpoint as the first that is broken.")
for text in AT_FAULT:
    from_rekor(dict(PLAIN, checkpoint=text))

say("entry TEXT: what LogEntry::from_json_text reads. An entry of the staging log.")
entry(json.dumps(ENTRY))
entry(small(None, uuid="362f8ecba72f4326", attestation={"dummy": "x", "more": 1}))
entry(small(None, uuid=None, attestation={}))
entry(small(None, attestation={"dummy": None}))
entry(small(PLAIN, attestation=None))
say("Each member that is not there, is null, or is of another kind.")
for name in (*ENTRY, "uuid", "attestation"):
    entry(json.dumps(without(ENTRY, name)))
    for value in (None, True, 1, -1, 2**64 - 1, "1", "x", [], {}):
        entry(json.dumps(dict(ENTRY, body=coded(BODY)) | {name: value}))
for name in PROOF:
    entry(small(without(PLAIN, name)))
    for value in (None, False, 1, -1, 2**63, 2**64 - 1, "1", [], ["x"], [None], [1], {}):
        entry(small(dict(PLAIN, **{name: value})))
for value in (None, "x", [], {}, 1):
    entry(entry_with(verification=value))
    entry(entry_with(verification={"signedEntryTimestamp": value}))
    entry(entry_with(verification={"signedEntryTimestamp": "", "inclusionProof": value}))
for value in ("x", {"dummy": 1}, {"dummy": []}):
    entry(small(PLAIN, attestation=value))
say("Other members: refused in the entry, ignored in the objects within it. Texts that are not objects, and floats.")
entry(small(PLAIN, more=1))
entry(small(PLAIN, kind=None))
entry(small(dict(PLAIN, more=1)))
entry(entry_with(verification={"signedEntryTimestamp": "AA==", "more": None}))
entry(entry_with(body=coded(dict(BODY, more=[]))))
for text in ("", "x", "null", "[]", "1", '"x"', "{}", json.dumps(ENTRY) + "x", small(PLAIN, integratedTime=1.0), small(PLAIN, integratedTime=1e3)):
    entry(text)
entry(small(PLAIN).replace('"integratedTime": 0', '"integratedTime": -0'))
entry(small(PLAIN).replace('"integratedTime": 0', '"integratedTime": 1, "integratedTime": 2'))
say("Lists nest to 127 in an entry, in a member that is ignored, and in its body.")
for levels in (126, 127):
    deep = json.loads("[" * (levels - 2) + "]" * (levels - 2))
    entry(small({**PLAIN, "other": deep}))
    entry(entry_with(body=coded(dict(BODY, spec=json.loads("[" * levels + "]" * levels)))))
say("The bounds of the numbers.")
for number_ in (-(2**63) - 1, -(2**63), 2**63 - 1, 2**63, 2**64):
    entry(small(PLAIN, integratedTime=number_))
    entry(small(PLAIN, logIndex=number_))
    entry(small(dict(PLAIN, logIndex=number_)))
    entry(small(dict(PLAIN, treeSize=number_)))
say("Bodies: each kind, a number, no base64, no document, and members that are not there or of another kind.")
for kind in (*KINDS, "", "dsse", "Rpm", "rpm "):
    entry(entry_with(body=coded({"kind": kind, "apiVersion": "0.0.2", "spec": {"b": [1, None], "a": "\n\u00fc"}})))
for value in (1, "%", "AA", "e30", "e30=\n", coded(b""), coded(b"\xff"), coded(b"{}x"), coded([]), coded({}), coded(dict(BODY, spec=1.5))):
    entry(entry_with(body=value))
for name in BODY:
    entry(entry_with(body=coded(without(BODY, name))))
    for value in (None, 1, False, [], {}, "rpm"):
        entry(entry_with(body=coded(dict(BODY, **{name: value}))))

say("entry_inclusion KEY NOTES SIGNATURES TEXT: what LogEntry::verify_inclusion says. The staging log's entry, and with its first hash turned.")
entry_inclusion(KEY, ROWS, json.dumps(ENTRY))
entry_inclusion(KEY, ROWS, with_proof(hashes=[PROOF["hashes"][0][32:] + PROOF["hashes"][0][:32], *PROOF["hashes"][1:]]))
say("No proof, one whose texts are none, a body without canonical JSON, and then what InclusionProof::verify refuses, in this order.")
LARGE = coded(dict(BODY, spec={"n": [2**53]}))
PROOFS = (None, dict(PROOF, hashes=["zz"]), dict(PROOF, rootHash="00"), dict(PROOF, checkpoint="x"), dict(PROOF, checkpoint=""), PROOF)
for proof_, body, rows in itertools.product(PROOFS, (STAGING["entry"], LARGE), (ROWS, [])):
    entry_inclusion(KEY, rows, entry_with(body=body, verification={"signedEntryTimestamp": "", "inclusionProof": proof_}))
for changed in ({"treeSize": 14357}, {"treeSize": 14359}, {"rootHash": "00" * 32}, {"logIndex": 1226}, {"logIndex": -1}, {"logIndex": 14358}, {"hashes": PROOF["hashes"][1:]}):
    entry_inclusion(KEY, ROWS, with_proof(**changed))
say("The body's members in another order, with blanks, are the same canonical JSON; an integer of 2^53 - 1 has one.")
SAME = json.loads(base64.b64decode(STAGING["entry"]))
entry_inclusion(KEY, ROWS, entry_with(body=coded({name: SAME[name] for name in ("spec", "kind", "apiVersion")})))
entry_inclusion(KEY, ROWS, entry_with(body=coded(dict(SAME, more=0))))
for number_ in (2**53 - 1, 2**53, -(2**53) + 1, -(2**53)):
    entry_inclusion(KEY, ROWS, entry_with(body=coded(dict(BODY, spec=number_))))

say("public_key TEXT: what PublicKey::decode reads.")
for text in ("a2V5", "%", "/w==", "", "a2V5=", "a2V", "4oCU", "4oA=", "7aCA"):
    public_key(text)

say("hashedrekord KIND VERSION ALGORITHM VALUE SIGNATURE KEY: the JSON of the entry.")
hashedrekord("hashedrekord", "0.0.1", "sha256", "00", "c2ln", "a2V5")
hashedrekord("hashedrekord", "0.0.1", "sha1", "", "", "")
hashedrekord('k"\u00fc', "\n", "sha1", "\\", "\u2028", "\U0001f600")
say("proposed KIND VERSION SPEC: the JSON of an entry to propose.")
for kind in KINDS:
    if kind != "hashedrekord":
        proposed(kind, "0.0.1", {})
        proposed(kind, "2", {"b": 1, "a": [None, True, {"z": "", "y": -1}]})
proposed_hashedrekord("0.0.1", "sha256", "00", "c2ln", "a2V5")
proposed_hashedrekord("", "sha1", "0", "1", "2")
