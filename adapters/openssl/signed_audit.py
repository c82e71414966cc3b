#!/usr/bin/python3
"""Audits that are really signed: the log's key is made here.

    signed_audit.py FOLDER    writes audit.json: a week of checkpoints of one log, with a new key

The log, its heads and its proofs are those of tools/audit_requests.py. One signature can be spoiled, or the log signs one head of another list.
"""
import json
import os
import sys

import signed
import audit_requests

ENTRIES = tuple(f"entry {number}".encode() for number in range(9))


def signature(signer, note, by):
    """By the log's key over the note; with its last bit flipped, over another note, or by a stranger's key."""
    if by == "stranger":
        return signed.signer(signer.kind, "stranger").sign(note)
    made = signer.sign(note + b"\n" if by == "another note" else note)
    return signed.flipped(made) if by == "flip" else made


def audit(signer, spoiled=None, by="log", sizes=(2, 5, 5, 9), entries=ENTRIES, rewritten=None):
    """An audit of a log whose heads are signed, one of them otherwise, or one with the root of another list; and the rows that are genuine."""
    heads, rows = [], []
    for place, size in enumerate(sizes):
        root = audit_requests.OTHER_ROOT if place == rewritten else audit_requests.root_of(entries[:size])
        note = audit_requests.note(size, root).encode()
        raw = signature(signer, note, by if place == spoiled else "log")
        heads.append(audit_requests.head(entries[:size], sizes[place - 1] if place else None, root=root, signatures=(raw,)))
        if place != spoiled:
            rows.append(signed.fixture.row("message", signer.scheme, signer.spki, note, raw))
    watched = [audit_requests.watch(1, 4, entries[: sizes[1]])]
    request = audit_requests.request(heads, watched, entries, scheme=signer.scheme, key=signed.base64_of(signer.spki))
    del request["accepted"]
    return request, rows


def claimed(request, signer):
    """A row for each signature of the heads, as if all were genuine."""
    rows = []
    for head in request["heads"]:
        note, signatures = audit_requests.log.rekor.read_checkpoint(head["checkpoint"])
        text = audit_requests.log.rekor.note_text(note).encode()
        rows += [signed.fixture.row("message", signer.scheme, signer.spki, text, raw) for _, _, raw in signatures]
    return rows


def main(folder):
    entries = tuple(f"L{123456 + number}".encode() for number in range(40))
    request, _ = audit(signed.signer("P-256", "audited log"), sizes=(5, 9, 14, 14, 22, 31, 40), entries=entries)
    with open(os.path.join(folder, "audit.json"), "w", encoding="utf-8") as file:
        json.dump(request, file, ensure_ascii=False, indent=2)
        file.write("\n")


if __name__ == "__main__":
    main(*sys.argv[1:])
