"""What the links of `verify` compare, as an explanation shows it: of a bundle, a trusted root, a policy and the accepted signatures.

Written from docs/LINKS.md, "What is shown of a refusal". A `case` is what tools/verify_links.py has read of a request when a link fails."""
import json_documents as documents
import dsse_cases as dsse
import rekor_cases as rekor
import rust_debug
import verify_certificate as certificates
import verify_links as links
from explain_name import name_text
from explain_refusal import kept, names
from explain_shown import digest, note, proof, sha256, shown, time

MOST_ANCHORS, MOST_LOGS, MOST_RULES, MOST_DIGESTS, MOST_SIGNATURES, MOST_AUTHORITIES = 64, 256, 32, 256, 16, 256
MOST_KEY_BYTES = 65536
RULES = {kind: named[0] for named, kind in links.RULES.items()}  # the name that a request has for a rule


def fault(found):
    """Where the first member is that breaks its row of a table, and why; nothing more of a text that is not JSON or has a float."""
    why, _, path = found.partition(" ")
    return {**shown("path", path), "why": why} if path else {}


# The certificate: who issued it, its SCT, and how long it is valid.

def issuer(case):
    name = case.leaf.issuer
    places = [str(place) for place, each in enumerate(case.anchors) if each.subject == name]
    return {**shown("issuerName", name.hex()), **shown("issuerText", name_text(name)), "anchors": places[:MOST_ANCHORS], "anchorCount": str(len(places))}


def sct(leaf):
    """The log and the time of the one SCT; nothing where there is not one."""
    lists = leaf.of(certificates.SCT_LIST)
    try:
        texts = certificates.sct_texts(lists[0].value) if len(lists) == 1 else []
        found = certificates.read_sct(texts[0]) if len(texts) == 1 else None
    except certificates.Malformed:
        found = None
    if found is None:
        return {}
    stamp = int.from_bytes(found.timestamp, "big")
    return {"logId": found.log_id.hex(), "timestamp": str(stamp), "time": time(stamp // 1000)}


def validity(leaf):
    return {"notBefore": time(leaf.not_before), "notAfter": time(leaf.not_after)}


# The trusted root: its logs at a time.

def state(valid_for, now):
    if links.is_within(valid_for, now):
        return "holds"
    return "ended" if links.is_within(valid_for, now, expired=True) else "not begun"


def key(found, now):
    """The SHA-256 of a log's key, if it has bytes, and its range."""
    valid_for = found.get("validFor") or {}
    coded = {"keySha256": sha256(links.of_base64(found["rawBytes"]))} if "rawBytes" in found else {}
    return {**coded, "state": state(valid_for, now), **{end: time(valid_for[end]) for end in ("start", "end") if end in valid_for}}


def log_id(instance):
    """The id of a log, of a log entry or of one of a trusted root, if there is one."""
    return shown("logId", links.of_base64(instance["logId"]["keyId"]).hex()) if "logId" in instance else {}


def logs(case, name):
    """The logs of this member of the trusted root, and when their ranges were looked at."""
    now = case.request.now
    found = [{**log_id(each), **(key(each["publicKey"], now) if "publicKey" in each else {})} for each in case.root[name][:MOST_LOGS]]
    return {name: found, "now": time(now)}


def authorities(case):
    """The certificate authorities of the trusted root, how many there are, and when their ranges were looked at."""
    listed, now = case.root["certificateAuthorities"], case.request.now
    found = []
    for each in listed[:MOST_AUTHORITIES]:
        valid_for = each.get("validFor") or {}
        chain = (each.get("certChain") or {}).get("certificates") or []
        found.append({"certificateCount": str(len(chain)), "state": state(valid_for, now), **{end: time(valid_for[end]) for end in ("start", "end") if end in valid_for}})
    return {"certificateAuthorities": found, "certificateAuthorityCount": str(len(listed)), "now": time(now)}


# The policy.

def rule(leaf, each):
    refusal = certificates.rule_refusal(leaf, each)
    error = rust_debug.read(refusal) if refusal else None
    return {"rule": RULES[each[0]], **({"cause": names(error), **kept(error)} if error else {})}


def policy(case):
    how, rules = case.request.policy
    return {"policy": {"require": how, "total": str(len(rules)), "rules": [rule(case.leaf, each) for each in rules[:MOST_RULES]]}}


# Signatures and digests.

def accepted(rows, scheme, under, message, signatures):
    """The scheme, the key and the message that were asked about, and what some accepted signature has of them and of the first signatures."""
    asked = ("key", 2, [under]), ("message", 3, [message]), ("signature", 4, signatures[:MOST_SIGNATURES])
    found = [name for name, place, wanted in asked if any(row[place] in wanted for row in rows)]
    return {"scheme": scheme, **shown_key(under), "messageSha256": sha256(message), "accepted": found}


def shown_key(spki):
    """The SHA-256 of a key, or of a long one its length."""
    return {"keySha256": sha256(spki)} if len(spki) <= MOST_KEY_BYTES else {"keyLength": str(len(spki))}


def accepted_note(rows, scheme, under, checkpoint):
    """The same of the signatures over the note of a checkpoint."""
    note_of, signatures = checkpoint
    return accepted(rows, scheme, under, rekor.note_text(note_of).encode(), [raw for _, _, raw in signatures])


def subjects(case):
    """The digest of the request, and those of the statement, in order."""
    if case.envelope is None:
        return {"digest": digest(case.request.digest)}
    read = dsse.read(documents.compact(documents.tree(case.payload)))[1]
    words = dsse.digests(read).split()[1:]
    listed = [{algorithm: text} for algorithm, text in zip(words[::2], words[1::2])]
    return {"digest": digest(case.request.digest), "subjectDigests": listed[:MOST_DIGESTS], "subjectDigestCount": str(len(listed))}


# The log entry.

def times(case):
    return {"integratedTime": time(int(case.entry["integratedTime"])), **validity(case.leaf)}


def trees(case):
    found = case.proof
    return {"proof": proof(found.index, found.size, found.root), "note": note(case.checkpoint[0])}
