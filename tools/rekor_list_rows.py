"""The rows of crates/rekor_cases on lists of three hundred, and on what a checker is asked about, which tools/rekor_cases.py writes after the others.

A proof lets a body give up only for long lists, so each list of a call has a row. The answers are those of the readers of the other files."""
import base64
import hashlib
import json

import rekor_cases as notes
import rekor_growth_rows as growth
import rekor_model_rows as models
from rekor_model_rows import BAD, ROOT, hex_list, read_hash, row, say

COUNT = 300


def case(call, text):
    """A call on a text, by its reader."""

    def answer():
        try:
            return "ok " + notes.READERS[call](text)
        except notes.Fault as fault:
            raise models.Refused(f"DecodeError({fault})") from None

    row(f"{call} {notes.quoted(text)}", answer)


def signed(call, text, rows):
    row(f"{call} {notes.quoted(text)} {notes.table(rows)}", lambda: notes.signed(notes.read_checkpoint(text), rows) or "ok")


def asked(text, rows):
    """Each different signature once, in byte order, until one is accepted."""

    def answer():
        checkpoint = notes.read_checkpoint(text)
        message = notes.note_text(checkpoint[0]).encode()
        questions = []
        for raw in sorted({raw for _, _, raw in checkpoint[1]}):
            questions.append(raw)
            if (message, raw) in rows:
                break
        return " ".join((notes.signed(checkpoint, rows) or "ok", "asked", *map(notes.in_hex, questions)))

    for call in ("asked", "borrowed_asked"):
        row(f"{call} {notes.quoted(text)} {notes.table(rows)}", answer)


def line(raw, name="log.example", fingerprint=bytes(4)):
    return f"\u2014 {name} {base64.b64encode(fingerprint + raw).decode()}\n"


def signatures(*raws):
    return notes.NOTE + "\n" + "\n".join(map(line, raws))


ROOT64 = base64.b64encode(notes.ROOT).decode()


def digest(number):
    return hashlib.sha256(str(number).encode()).digest()


def row_of(raw):
    return [(notes.MESSAGE, raw)]


# ---- what is asked

say("asked, borrowed_asked CHECKPOINT NOTES SIGNATURES: as signed and borrowed_signed, and each signature that the checker was asked about.",
    "Each different one once, in byte order, until one is accepted: none, one, equal ones, of other names and keys too, and beginnings of others.")
asked(notes.NOTE + "\n", notes.ROW)
asked(notes.ONE, notes.ROW)
asked(notes.ONE, [])
asked(signatures(b"sig", b"sig"), [])
asked(signatures(b"sig", b"sig"), notes.ROW)
asked(notes.NOTE + "\n" + line(b"sig") + "\n" + line(b"sig", "witness", b"abcd"), [])
asked(signatures(b"b", b"", b"ab", b"a", b"", b"ab", b"\xff", b"\x00"), [])
for last in (b"\x00", b"a", b"ab", b"b", b"\xff", b"none"):  # a case's list has no empty elements
    asked(signatures(b"b", b"", b"ab", b"a", b"", b"ab", b"\xff", b"\x00"), row_of(last))
say("Three hundred, and a hundred three times each: none accepted, the first, one in the middle, the last.")
EACH = [digest(number) for number in range(COUNT)]
THRICE = [digest(number % 100) for number in range(COUNT)]
for raws in (EACH, THRICE):
    order = sorted(set(raws))
    for rows in ([], row_of(order[0]), row_of(order[len(order) // 2]), row_of(order[-1])):
        asked(signatures(*raws), rows)

# ---- lists

say("Three hundred contents, and three hundred signatures: read, written, and with a last one that is none.")
CONTENTS = notes.NOTE + "".join(f"key {number}: value\n" if number % 2 else f"line {number}\n" for number in range(COUNT))
LONG = CONTENTS + "\n" + "\n".join(line(digest(number), f"key-{number}") for number in range(COUNT))
for call in ("note", "note_text", "borrowed_text"):
    case(call, CONTENTS)
for call in ("checkpoint", "checkpoint_text", "borrowed"):
    case(call, LONG)
case("checkpoint", f"{LONG}\nno dash")
case("borrowed", f"{LONG}\n\u2014 n AQID")
say("Each fault of a text that is borrowed.")
for text in models.AT_FAULT[1:]:
    case("borrowed", text)
for text in ("o", " \n1\nx", "o\nx\nx", "o\n1\nx", "o\n1\nAAAA"):
    case("borrowed_text", text)
say("A line of three hundred letters: without a dash, with too few parts and with too many, no base64, a short fingerprint; and none of these.")
WIDE_NAME, DASH = "n" * COUNT, "\u2014"
for text in (WIDE_NAME, DASH + WIDE_NAME, f"{DASH} {WIDE_NAME}", " ".join([DASH, *"n" * COUNT]), f"{DASH} {WIDE_NAME} %", f"{DASH} n {'A' * 301}",
             f"{DASH} {WIDE_NAME} AQID", f"{DASH} {WIDE_NAME} AQIDBA==", f"{DASH} n {'A' * COUNT}", f"{DASH}{WIDE_NAME} n AQIDBA=="):
    case("signature", text)
    for call in ("checkpoint", "borrowed"):
        case(call, f"{notes.NOTE}\n{text}\n")
for text in (WIDE_NAME, f"{' ' * COUNT}\n1\n{ROOT64}", f"o\n{'9' * COUNT}\n{ROOT64}", f"o\n{WIDE_NAME}\n{ROOT64}", f"o\n1\n{WIDE_NAME}%",
             f"o\n1\n{'A' * COUNT}", f"{WIDE_NAME}\n{'0' * COUNT}1\n{ROOT64}\n{WIDE_NAME}: {WIDE_NAME}\n"):
    for call in ("note", "note_text", "borrowed_text"):
        case(call, text)
    for call in ("checkpoint", "borrowed"):
        case(call, f"{text}\n\n{DASH} n AQIDBA==\n")
say("Three hundred signatures over a note of three hundred contents: the first accepted, the last, none.")
MESSAGE = CONTENTS.encode()
for call in ("signed", "borrowed_signed"):
    for rows in ([(MESSAGE, digest(0))], [(MESSAGE, digest(COUNT - 1))], []):
        signed(call, LONG, rows)
for call in ("tree", "borrowed_tree"):
    for root in (notes.ROOT, bytes(32)):
        found = notes.of_tree(notes.read_checkpoint(LONG), root, 1) or "ok"
        models.TABLE.case(f"{call} {notes.quoted(LONG)} {root.hex()} 1", found)

say("hash PLACE TEXT: what decode_hash reads; hashes TEXTS: what decode_hashes reads. Each fault, at the first place and at the last of three hundred.")
for text in (*BAD, ROOT.upper(), ROOT[:32] + ROOT[32:].upper(), " " + ROOT[1:], "0x" + ROOT[2:], "g" + ROOT[1:], ROOT + " "):
    for place in (0, COUNT):
        row(f"hash {place} {notes.quoted(text)}", lambda: "ok " + read_hash(text, f"HashLength({place})").hex())
TEXTS = [digest(number).hex() for number in range(COUNT)]


def hashes(texts):
    row("hashes " + hex_list(texts), lambda: " ".join(("ok", *(read_hash(text, f"HashLength({place})").hex() for place, text in enumerate(texts)))))


for text in BAD[1:]:
    if text:  # a case's list has no empty elements
        hashes([text])
        hashes([ROOT, text, "zz"])
MALFORMED = [TEXTS[:-2] + [text, "zz"] for text in ("zz", "00")]
for texts in ([], TEXTS, ["zz", *TEXTS], TEXTS[:-1] + ["00"], *MALFORMED):
    hashes(texts)
say("Proofs of three hundred hashes: read, with a malformed one, and checked.")
for texts in (TEXTS, *MALFORMED):
    models.from_rekor(dict(models.PLAIN, hashes=texts))
    growth.from_rekor(ROOT, texts)
models.from_rekor(dict(models.PLAIN, hashes=TEXTS, rootHash="00", checkpoint=LONG))
models.from_rekor(dict(models.PLAIN, hashes=TEXTS, checkpoint=LONG))
models.from_rekor(dict(models.PLAIN, hashes=TEXTS, checkpoint=f"{LONG}\nno dash"))
models.entry(models.small(dict(models.PLAIN, hashes=TEXTS)))
models.entry(models.small(dict(models.PLAIN, hashes=TEXTS + [1])))
growth.consistency(ROOT, TEXTS, 1, growth.OWN, 2)
growth.consistency(ROOT, TEXTS, 1, growth.OWN, 1)
growth.grown(growth.SIGNED, growth.SEVEN, 3, growth.root_of(3), ROOT, TEXTS)
growth.log_info(ROOT, 1, LONG, "1", [(digest(number).hex(), f"head {number}", str(number), number) for number in range(COUNT)])


def proof(entry, index, size, path, root, signed_for=None):
    """The check of a proof, under a checkpoint of three hundred signatures for its own tree."""
    head = f"log.example\n{size}\n{base64.b64encode(signed_for or root).decode()}\n"
    text = head + "\n" + "\n".join(line(digest(number)) for number in range(COUNT))
    rows = [(head.encode(), digest(COUNT - 1))]
    answer = (notes.signed(notes.read_checkpoint(text), rows) or notes.of_tree(notes.read_checkpoint(text), root, size)
              or notes.included(entry, index, root, size, path) or "ok")
    words = (notes.in_hex(entry), str(index), root.hex(), str(size), ",".join(h.hex() for h in path), notes.table(rows), notes.quoted(text))
    models.TABLE.case("proof " + " ".join(words), answer)
    if signed_for is None:
        models.TABLE.case("audit_path " + " ".join(words[:5]), notes.included(entry, index, root, size, path) or "ok")


say("A path of three hundred hashes, and the longest one there is, of 63, in a tree of 2^63 leaves.")
PATH = [digest(number) for number in range(63)]
LEAF = hashlib.sha256(b"\0entry").digest()
TOP = notes.path_root(5, 2**63, LEAF, PATH)
proof(b"entry", 5, 2**63, [digest(number) for number in range(COUNT)], TOP)
proof(b"entry", 5, 2**63, PATH, TOP)
proof(b"entry", 4, 2**63, PATH, TOP)
proof(b"entry", 5, 2**63, PATH[:-1] + PATH[:1], TOP)
proof(b"entry", 5, 2**63, PATH, TOP, bytes(32))
say("Entries whose proof has three hundred hashes, and whose body has three hundred elements.")
WIDE = models.coded(dict(models.BODY, spec=list(range(COUNT))))
for body in (models.STAGING["entry"], WIDE):
    for hashes_ in (models.PROOF["hashes"], TEXTS, TEXTS[:-1] + ["00"]):
        models.entry_inclusion(models.KEY, models.ROWS,
                               models.entry_with(body=body, verification={"signedEntryTimestamp": "", "inclusionProof": dict(models.PROOF, hashes=hashes_)}))
models.entry(models.entry_with(body=WIDE))
models.public_key(base64.b64encode(CONTENTS.encode()).decode())
