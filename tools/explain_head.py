"""What `explain log` and `explain consistency` write, once more, and what is shown about any checkpoint. Written from docs/LINKS.md.

Requests are read by log_requests.py and consistency_requests.py, checkpoints by rekor_cases.py, and proofs are judged as those do."""
import consistency_cases as trees
import consistency_requests
import explain_evidence as evidence
import log_requests
import rekor_cases as rekor
from explain_refusal import refusal
from explain_requests import request_refusal
from explain_shown import line, note, proof, sha256, tree


# ---- a checkpoint

def read_checkpoint(text):
    """A checkpoint, and the object of the link `checkpoint` where the text is not one."""
    try:
        return rekor.read_checkpoint(text), None
    except rekor.Fault as fault:
        return None, refusal("checkpoint", f"ParseCheckpointError({fault})")


def is_signed(rows, scheme, key, checkpoint):
    signed = rekor.note_text(checkpoint[0]).encode()
    return any(("message", scheme, key, signed, raw) in rows for _, _, raw in checkpoint[1])


def note_key(rows, scheme, key, checkpoint):
    """The object of the link `note-key`."""
    return refusal("note-key", "CheckpointSignatureVerificationError", evidence.accepted_note(rows, scheme, key, checkpoint))


def grown(verdict, *shown):
    """The object of the link `consistency`; none if the proof holds."""
    return None if verdict == "ok" else refusal("consistency", f"ConsistencyProofError({verdict})", *shown)


def head_refusal(request, shown):
    """The object of the first link of a request's checkpoint that fails, if one does, and the checkpoint."""
    checkpoint, refused = read_checkpoint(request["checkpoint"])
    if refused:
        return refused, None
    if not is_signed(request["accepted"], request["scheme"], request["key"], checkpoint):
        return note_key(request["accepted"], request["scheme"], request["key"], checkpoint), None
    error = rekor.of_tree(checkpoint, request["root"], request["size"])
    return refusal("note-match", error, shown, {"note": note(checkpoint[0])}) if error else None, checkpoint


# ---- log

def log_explanation(text):
    refused = request_refusal("log", text)
    if refused:
        return refused
    request = log_requests.read_request(text)
    shown = {"proof": proof(request["index"], request["size"], request["root"])}
    refused, checkpoint = head_refusal(request, shown)
    if refused:
        return refused
    shown["note"] = note(checkpoint[0])
    error = rekor.included(request["entry"], request["index"], request["root"], request["size"], request["hashes"])
    return refusal("inclusion", error, shown) if error else {"entrySha256": sha256(request["entry"]), **shown}


# ---- consistency

def consistency_explanation(text):
    refused = request_refusal("consistency", text)
    if refused:
        return refused
    request = consistency_requests.read_request(text)
    shown = {"new": tree(request["size"], request["root"])}
    refused, checkpoint = head_refusal(request, shown)
    if refused:
        return refused
    shown |= {"note": note(checkpoint[0]), "old": tree(request["old_size"], request["old_root"])}
    verdict = trees.verdict(request["old_size"], request["size"], request["hashes"], request["old_root"], request["root"])
    return grown(verdict, shown) or shown


# ---- what is written, without its last newline, and the status

def log_lines(text):
    reply, status = log_requests.reply(text)
    second = reply.replace(" entry", "\nentry").replace(" other list", "\nother list")
    return second + "\n" + line(log_explanation(text)), status


def consistency_lines(text):
    reply, status = consistency_requests.lines(text)
    return reply + "\n" + line(consistency_explanation(text)), status
