"""What `explain audit` writes, once more. Written from docs/LINKS.md; requests, checkpoints and proofs are read and judged as audit_requests.py does."""
import audit_requests as audits
import consistency_cases as trees
from base_cases import inclusion
from explain_head import grown, is_signed, note_key, read_checkpoint
from explain_refusal import refusal
from explain_requests import request_refusal
from explain_shown import line, proof, sha256, shown, tree

MOST_HEADS = MOST_WATCHED = 256


def placed(place, refused):
    """A refusal with the index of the head or of the watched entry."""
    return refused and {**refused, "index": str(place)}


def head_tree(note):
    return tree(*note[1:3])


def refused_head(request, place, checkpoints):
    """The object of the first link of this head that fails, none if they hold."""
    notes = [note for note, _ in checkpoints]
    if not is_signed(request["accepted"], request["scheme"], request["key"], checkpoints[place]):
        return note_key(request["accepted"], request["scheme"], request["key"], checkpoints[place])
    first, note = notes[0], notes[place]
    if note[0] != first[0]:
        return refusal("origin", "Origin", shown("expected", first[0]), shown("got", note[0]))
    if place == 0:
        return None
    old = notes[place - 1]
    verdict = trees.verdict(old[1], note[1], request["heads"][place]["hashes"], old[2], note[2])
    return grown(verdict, {"old": head_tree(old), "new": head_tree(note)})


def refused_watch(watch, note):
    """The object of the link `inclusion` of a watched entry under the note of its head, none if it holds."""
    _, size, root = note[:3]
    verdict = inclusion(watch["index"], trees.leaf_hash(watch["entry"]), size, watch["hashes"], root)
    return None if verdict == "ok" else refusal("inclusion", f"InclusionProofError({verdict})", {"proof": proof(watch["index"], size, root)})


def first_refusal(request):
    """The object of the first link that fails, if one does, and the notes of the heads."""
    checkpoints = []
    for place, head in enumerate(request["heads"]):
        checkpoint, refused = read_checkpoint(head["checkpoint"])
        if refused:
            return placed(place, refused), None
        checkpoints.append(checkpoint)
    notes = [note for note, _ in checkpoints]
    for place in range(len(checkpoints)):
        if refused := refused_head(request, place, checkpoints):
            return placed(place, refused), notes
    for place, watch in enumerate(request["watched"]):
        if refused := refused_watch(watch, notes[watch["head"]]):
            return placed(place, refused), notes
    return None, notes


def audit_explanation(text):
    refused = request_refusal("audit", text)
    if refused:
        return refused
    request = audits.read_request(text)
    request["accepted"] = dict.fromkeys(request["accepted"])
    refused, notes = first_refusal(request)
    if refused:
        return refused
    watched = [{"head": str(each["head"]), "index": str(each["index"]), "entrySha256": sha256(each["entry"])} for each in request["watched"]]
    return {**shown("origin", notes[0][0]), "headCount": str(len(notes)), "heads": list(map(head_tree, notes[:MOST_HEADS])),
            "watchedCount": str(len(watched)), "watched": watched[:MOST_WATCHED]}


def lines(text):
    """What is written, without its last newline, and the status."""
    reply, status = audits.lines(text)
    return reply + "\n" + line(audit_explanation(text)), status
