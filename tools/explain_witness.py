"""What `explain witness` writes, once more. Written from docs/LINKS.md; requests and states are read, and updates judged, as witness_requests.py does."""
import rust_debug
import witness_requests as witnesses
from explain_head import grown, note_key, read_checkpoint
from explain_refusal import refusal
from explain_requests import request_refusal
from explain_shown import line, shown, tree

MOST_UNSIGNED = 16  # of the updates that no accepted signature is over, those of which it is shown what was asked about


def refused(said, log, read):
    """The object of a refusal of an update whose checkpoint is read, by what the dictionary of witness_cases.py says."""
    error = rust_debug.read(said)
    if error.name == "UnknownOrigin":
        return refusal("origin", said, shown("origin", read.origin))
    if error.name == "OldSize":
        return refusal("old-size", "OldSize", {"expected": str(error.parts[0]), "got": str(read.old)})
    if error.name == "Full":
        return refusal("full", said)
    return grown(said.removeprefix("Consistency(").removesuffix(")"), {"old": tree(*log.heads[-1]), "new": tree(read.size, read.root)})


def unsigned(log, checkpoint, rows, is_shown):
    """The object of the link `note-key`: of the first ones also what was asked about."""
    found = note_key(rows, log.scheme, log.key, checkpoint)
    return {name: found[name] for name in found if is_shown or name in ("cause", "link")}


def update_explanation(witness, update, rows, count):
    """The object of an update, which changes the dictionary if it is accepted; this many before it were not signed."""
    checkpoint, unread = read_checkpoint(update["checkpoint"])
    if unread:
        return unread
    read, log = witnesses.read_update(update), witness.get(checkpoint[0][0])
    if not witnesses.is_signed(witness, read, rows):
        return {**unsigned(log, checkpoint, rows, count < MOST_UNSIGNED), **shown("origin", read.origin)}
    said = witnesses.taken(witness, read)
    return {"accepted": said, **shown("origin", read.origin)} if said.isdigit() else refused(said, log, read)


def witness_explanation(text):
    if found := request_refusal("witness", text):
        return found
    request = witnesses.read_request(text)
    witness, rows = witnesses.started(request), dict.fromkeys(request["accepted"])
    updates, count = [], 0
    for each in request["updates"]:
        updates.append(update_explanation(witness, each, rows, count))
        count += updates[-1].get("link") == "note-key"
    return {"updateCount": str(len(updates)), "updates": updates}


def lines(text):
    """What is written, without its last newline, and the status."""
    reply, status = witnesses.lines(text)
    return reply + "\n" + line(witness_explanation(text)), status
