"""The rows of crates/rekor_cases on heads of logs and consistency proofs of Rekor's API, which tools/rekor_cases.py writes after the others.

Proofs are made and checked as in tools/consistency_cases.py, by RFC 6962 and by the walk of RFC 9162; hashes, checkpoints and heads are read as in
tools/rekor_model_rows.py."""
import base64
import itertools

import consistency_cases as trees
import rekor_cases as notes
import rekor_model_rows as models
from rekor_model_rows import BAD, ONE, ROOT, Refused, hex_list, read_hash, row, say


def read_proof(root, hashes):
    """The root, then the hashes in order: the first that is not a hash is named."""
    return read_hash(root, "RootLength"), [read_hash(text, f"HashLength({place})") for place, text in enumerate(hashes)]


def proof_words(root, hashes):
    return f"{notes.quoted(root)} {hex_list(hashes)}"


def log_info(root, size, text, tree_id=None, shards=()):
    checkpoint = models.read_checkpoint(text)

    def answer():
        words = ["ok", read_hash(root, "RootLength").hex(), str(size), notes.checkpoint_line(checkpoint), models.or_none(tree_id)]
        if tree_id is None:
            return " ".join(words + ["none"])
        shown = [f"shard {' '.join(map(notes.debug, texts))} {count}" for *texts, count in shards]
        return " ".join(words + [str(len(shards)), *shown])

    given = [notes.quoted(root), str(size), notes.quoted(text)]
    if tree_id is not None:
        given.append(notes.quoted(tree_id))
    given += [f"{' '.join(map(notes.quoted, texts))} {count}" for *texts, count in shards]
    row("log_info " + " ".join(given), answer)


def from_rekor(root, hashes):
    def answer():
        own, path = read_proof(root, hashes)
        return " ".join(("ok", own.hex(), *(digest.hex() for digest in path)))

    row(f"consistency_from_rekor {proof_words(root, hashes)}", answer)


def verdict(old, new, path, old_root, new_root):
    found = trees.verdict(old, new, path, old_root, new_root)
    return found if found == "ok" else f"ConsistencyProofError({found})"


def consistency(root, hashes, old, old_root, new, new_root=None):
    def answer():
        own, path = read_proof(root, hashes)
        return verdict(old, new, path, old_root, own if new_root is None else new_root)

    given = "" if new_root is None else f" {new_root.hex()}"
    row(f"consistency {proof_words(root, hashes)} {old} {old_root.hex()} {new}{given}", answer)


def grown(rows, head, old, old_root, root, hashes):
    """The head's signature, its tree, and then the proof: the first that fails."""
    head_root, size, text = head
    checkpoint = models.read_checkpoint(text)

    def answer():
        found = read_hash(head_root, "RootLength")
        _, path = read_proof(root, hashes)
        return notes.signed(checkpoint, rows) or notes.of_tree(checkpoint, found, size) or verdict(old, size, path, old_root, found)

    words = (notes.table(rows), notes.quoted(head_root), str(size), notes.quoted(text), str(old), old_root.hex(), proof_words(root, hashes))
    row("grown " + " ".join(words), answer)


# ---- trees

OWN, EMPTY, OTHER = notes.ROOT, trees.EMPTY, bytes([7] * 32)
ENTRIES = [f"entry {number}".encode() for number in range(2000)]


def root_of(size):
    return trees.tree_hash(ENTRIES[:size])


def path_of(old, new):
    return trees.subproof(old, ENTRIES[:new], True)


def texts(path):
    return [digest.hex() for digest in path]


def head_of(size, root):
    note = f"log.example\n{size}\n{base64.b64encode(root).decode()}\n"
    return (root.hex(), size, f"{note}\n{notes.LINE}"), [(note.encode(), b"sig")]


# ---- the rows

say("log_info ROOT SIZE CHECKPOINT ID SHARDS: what LogInfo::try_from_rekor reads. The root alone is converted.")
for text in BAD:
    log_info(text, 1, ONE)
log_info(ROOT.upper(), 2**64 - 1, ONE)
log_info(OTHER.hex(), 0, notes.NOTE + "k: v\n\n" + notes.LINE + "\n" + notes.LINE)
for shards in ((), (("a", "b", "c", 0),), (("zz", "\u2014", "", 2**64 - 1), ("", "x y", '"', 7), (ROOT, ONE, "1", 1))):
    log_info(ROOT, 1, ONE, "108574341321668964", shards)
    log_info("zz", 1, ONE, "", shards)

say("consistency_from_rekor ROOT HASHES: what ConsistencyProof::try_from_rekor reads. The root, then the hashes in order: the first that is none.")
from_rekor(ROOT, [])
from_rekor(ROOT.upper(), [ROOT, "aB" * 32])
for text in BAD[1:]:
    from_rekor(text, [ROOT])
    if text:  # a case's list has no empty elements
        from_rekor(ROOT, [ROOT, ROOT, text, "zz"])
for root, one, two in itertools.product((ROOT, "zz", "00"), repeat=3):
    from_rekor(root, [one, two])

say("consistency ROOT HASHES OLDSIZE OLDROOT NEWSIZE NEWROOT: what ConsistencyProof::verify says of the proof. Without a new root it is the proof's.")
consistency(ROOT, [], 1, OWN, 1)
consistency("zz", [], 1, OWN, 1)
consistency("00", [], 1, OWN, 1)
consistency(ROOT, ["zz"], 1, OWN, 1)
consistency(ROOT, [ROOT, "00"], 1, OWN, 1)
say("The root that is given, and not the proof's own.")
consistency(ROOT, [], 1, OWN, 1, OWN)
consistency(ROOT, [], 1, OTHER, 1, OTHER)
consistency(OTHER.hex(), [], 1, OWN, 1, OWN)
consistency(ROOT, [], 1, OWN, 1, OTHER)
consistency(OTHER.hex(), [], 1, OWN, 1)
say("A smaller tree, equal trees, and the empty one: each with hashes and without.")
for old, new, old_root, path in itertools.product((0, 1, 2, 2**64 - 1), (0, 1, 2**64 - 1), (OWN, EMPTY), ([], [OTHER])):
    consistency(ROOT, texts(path), old, old_root, new)
say("No hashes, another number of them, another old root, another new root, in this order.")
for path, old_root, new_root in itertools.product(([], path_of(3, 7)[1:], path_of(3, 7) + [OTHER], path_of(3, 7)), (root_of(3), OTHER), (root_of(7), OTHER)):
    consistency(root_of(7).hex(), texts(path), 3, old_root, 7, new_root)
say("Trees of up to 8 entries, and of 9 each proof with a hash changed, dropped and doubled, and with sizes one less and one more.")
for new in range(1, 9):
    for old in range(1, new + 1):
        consistency(root_of(new).hex(), texts(path_of(old, new)), old, root_of(old), new)
for old in (1, 4, 6, 7, 8):
    for first, second, path, old_root, new_root in trees.turned(old, 9, path_of(old, 9), root_of(old), root_of(9)):
        consistency(new_root.hex(), texts(path), first, old_root, second)

say("grown NOTES SIGNATURES HEADROOT SIZE CHECKPOINT OLDSIZE OLDROOT ROOT HASHES: what LogInfo::verify_consistency says of a head and a proof.",
    "From the empty tree to one entry.")
FIRST = (ROOT, 1, ONE)
grown(notes.ROW, FIRST, 0, EMPTY, ROOT, [])
for root in BAD[1:]:
    grown(notes.ROW, (root, 1, ONE), 0, EMPTY, ROOT, [])
grown(notes.ROW, FIRST, 0, EMPTY, "zz", [])
grown(notes.ROW, FIRST, 0, EMPTY, "00", [])
grown(notes.ROW, FIRST, 0, EMPTY, ROOT, ["zz"])
grown(notes.ROW, FIRST, 0, EMPTY, ROOT, ["00"])
say("Each of the proof's refusals, of a head that the log signed for its own tree. The proof's own root is not looked at.")
grown(notes.ROW, FIRST, 1, OWN, OTHER.hex(), [])
grown(notes.ROW, FIRST, 2, OWN, ROOT, [])
grown(notes.ROW, FIRST, 1, OTHER, ROOT, [])
grown(notes.ROW, FIRST, 1, OWN, ROOT, [ROOT])
grown(notes.ROW, FIRST, 0, EMPTY, ROOT, [ROOT])
grown(notes.ROW, FIRST, 0, OWN, ROOT, [])
SEVEN, SIGNED = head_of(7, root_of(7))
PATH = path_of(3, 7)
grown(SIGNED, SEVEN, 3, root_of(3), OTHER.hex(), texts(PATH))
grown(SIGNED, SEVEN, 3, root_of(3), ROOT, [])
grown(SIGNED, SEVEN, 3, root_of(3), ROOT, texts(PATH[1:]))
grown(SIGNED, SEVEN, 3, OTHER, ROOT, texts(PATH))
grown(SIGNED, SEVEN, 3, root_of(3), ROOT, texts(PATH[:-1] + [OTHER]))
say("No accepted signature, another tree, no proof: each choice of them, and the first that fails. The head's tree is larger, smaller, of another root.")
for rows, head, old_root, path in itertools.product(
    (SIGNED, [], [(SIGNED[0][0], b"sih")], [(SIGNED[0][0][:-1], b"sig")]),
    (SEVEN, (SEVEN[0], 6, SEVEN[2]), (SEVEN[0], 8, SEVEN[2]), (OTHER.hex(), 7, SEVEN[2])),
    (root_of(3), OTHER),
    (PATH, []),
):
    grown(rows, head, 3, old_root, ROOT, texts(path))
say("Heads of a log of two thousand entries, and lists of three hundred hashes and shards.")
LARGE, LARGE_SIGNED = head_of(2000, root_of(2000))
for old, old_root, path in ((1500, root_of(1500), path_of(1500, 2000)), (1500, OTHER, path_of(1500, 2000)), (1024, root_of(1024), path_of(1024, 2000)),
                            (2000, root_of(2000), []), (1500, root_of(1500), [OTHER] * 300)):
    grown(LARGE_SIGNED, LARGE, old, old_root, ROOT, texts(path))
    consistency(root_of(2000).hex(), texts(path), old, old_root, 2000)
grown([], LARGE, 1500, root_of(1500), ROOT, texts(path_of(1500, 2000)))
from_rekor(ROOT, [ROOT] * 300)
from_rekor(ROOT, [ROOT] * 299 + ["zz"])
log_info(ROOT, 1, ONE, "1", (("a", "b", "c", 0),) * 300)
