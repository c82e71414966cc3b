#!/usr/bin/env python3
"""Writes the table of crates/rekor_cases: its stdin, and the stdout that it has to write. Run by hand: tools/rekor_cases.py

The answers are this program's own, written from the checkpoint format of transparency-dev, from Go's sumdb/note for a signature line, from
RFC 4648 for base64, RFC 6962 for a tree and Unicode's PropList.txt for white space; docs/DECISIONS.md says how this project cuts a text."""
import base64
import hashlib
import itertools
import urllib.parse

from case_table import Table


# PropList.txt, White_Space
WHITE = {0x09, 0x0A, 0x0B, 0x0C, 0x0D, 0x20, 0x85, 0xA0, 0x1680, *range(0x2000, 0x200B), 0x2028, 0x2029, 0x202F, 0x205F, 0x3000}


class Fault(Exception):
    """The rule of the format that a text breaks first."""


def is_blank(text):
    return all(ord(letter) in WHITE for letter in text)


def unbase64(text):
    """The bytes of a text that is the one encoding of them, or None."""
    try:
        found = base64.b64decode(text.encode(), validate=True)
    except ValueError:
        return None
    return found if base64.b64encode(found).decode() == text else None


def read_note(text):
    lines = text.split("\n")
    if len(lines) < 3:
        raise Fault("NoteFormat")
    origin, size, coded = lines[:3]
    if is_blank(origin):
        raise Fault("EmptyOrigin")
    digits = size[1:] if size.startswith("+") else size
    if not digits or any(digit not in "0123456789" for digit in digits) or int(digits) >= 2**64:
        raise Fault("Size")
    root = unbase64(coded)
    if root is None:
        raise Fault("HashBase64")
    if len(root) != 32:
        raise Fault("HashLength")
    return origin, int(digits), root, [line for line in lines[3:] if line]


def read_signature(text):
    line = text.strip("\n")
    if line[:1] != "\u2014":
        raise Fault("NoDash")
    parts = line.split(" ")
    if len(parts) != 3:
        raise Fault("SignatureFormat")
    coded = parts[2]
    while coded and ord(coded[-1]) in WHITE:
        coded = coded[:-1]
    found = unbase64(coded)
    if found is None:
        raise Fault("SignatureBase64")
    if len(found) < 4:
        raise Fault("SignatureLength")
    return parts[1], found[:4], found[4:]


def read_checkpoint(text):
    body = text.strip('"')
    if "\n\n" not in body:
        raise Fault("Format")
    note, _, rest = body.partition("\n\n")
    signatures = [read_signature(piece) for piece in rest.split("\n\n") if not is_blank(piece)]
    return read_note(note), signatures


def note_text(note):
    origin, size, root, others = note
    return "".join(line + "\n" for line in (origin, str(size), base64.b64encode(root).decode(), *others))


def signature_text(signature):
    name, fingerprint, raw = signature
    return f"\u2014 {name} {base64.b64encode(fingerprint + raw).decode()}\n"


def checkpoint_text(checkpoint):
    return note_text(checkpoint[0]) + "\n\n" + "\n".join(map(signature_text, checkpoint[1]))


def debug(text):
    """A text as Rust's Debug prints it."""
    plain = {"\n": "\\n", "\t": "\\t", "\r": "\\r", '"': '\\"', "\\": "\\\\"}
    return '"' + "".join(plain.get(c, c if c.isprintable() else f"\\u{{{ord(c):x}}}") for c in text) + '"'


def in_hex(found):
    return found.hex() or "-"


def note_line(note):
    origin, size, root, others = note
    words = [debug(origin), str(size), in_hex(root)]
    for line in others:
        key, colon, value = line.partition(": ")
        words += ["key", debug(key), debug(value)] if colon else ["value", debug(line)]
        words += ["=", line]
    return " ".join(words)


def signature_line(signature):
    return " ".join((debug(signature[0]), in_hex(signature[1]), in_hex(signature[2])))


def checkpoint_line(checkpoint):
    return " ".join((note_line(checkpoint[0]), *("signature " + signature_line(s) for s in checkpoint[1])))


def borrowed_line(checkpoint):
    return " ".join((debug(note_text(checkpoint[0])), *("signature " + signature_line(s) for s in checkpoint[1])))


READERS = {
    "note": lambda text: note_line(read_note(text)),
    "note_text": lambda text: debug(note_text(read_note(text))),
    "signature": lambda text: signature_line(read_signature(text)),
    "signature_text": lambda text: debug(signature_text(read_signature(text))),
    "checkpoint": lambda text: checkpoint_line(read_checkpoint(text)),
    "checkpoint_text": lambda text: debug(checkpoint_text(read_checkpoint(text))),
    "borrowed_text": lambda text: debug(note_text(read_note(text))),
    "borrowed": lambda text: borrowed_line(read_checkpoint(text)),
}

TABLE = Table("rekor_cases")


def say(first, *others):
    TABLE.group(first)
    for line in others:
        TABLE.note(line)


def quoted(text):
    return urllib.parse.quote(text) or "-"


def case(call, *texts):
    for text in texts:
        try:
            answer = "ok " + READERS[call](text)
        except Fault as fault:
            answer = f"DecodeError({fault})"
        TABLE.case(f"{call} {quoted(text)}", answer)


def counts(parts):
    """A text in parts, each this many times."""
    text = "".join(part * times for part, times in parts)
    try:
        note, signatures = read_checkpoint(text)
        answer = f"ok {len(note[3])} {len(signatures)}"
    except Fault as fault:
        answer = f"DecodeError({fault})"
    TABLE.case("counts " + "+".join(f"{part.encode().hex()}*{times}" for part, times in parts), answer)


def path_root(index, size, leaf, path):
    """The root to which an audit path leads (RFC 6962 section 2.1.1), by the tree's own recursion from the top; None for another length."""
    if size == 1:
        return leaf if not path else None
    if not path:
        return None
    split = 1
    while split * 2 < size:
        split *= 2
    if index < split:
        left = path_root(index, split, leaf, path[:-1])
        return left and hashlib.sha256(b"\1" + left + path[-1]).digest()
    right = path_root(index - split, size - split, leaf, path[:-1])
    return right and hashlib.sha256(b"\1" + path[-1] + right).digest()


def path_length(index, size):
    if size == 1:
        return 0
    split = 1
    while split * 2 < size:
        split *= 2
    return 1 + (path_length(index, split) if index < split else path_length(index - split, size - split))


def numbers(found):
    return "[" + ", ".join(map(str, found)) + "]"


def mismatch(expected, got):
    return f"MismatchedRoot {{ expected: RootHex {{ root: {numbers(expected)} }}, got: RootHex {{ root: {numbers(got)} }} }}"


def signed(checkpoint, rows):
    note, signatures = checkpoint
    text = note_text(note).encode()
    if any((text, raw) in rows for _, _, raw in signatures):
        return None
    return "CheckpointSignatureVerificationError"


def of_tree(checkpoint, root, size):
    (_, own, own_root, _), _ = checkpoint
    if own > size:
        return f"ConsistencyProofError(NewTreeSmaller {{ new: {size}, old: {own} }})"
    if own < size:
        return "ConsistencyProofError(UnexpectedEmptyProof)"
    return None if own_root == root else f"ConsistencyProofError({mismatch(own_root, root)})"


def included(entry, index, root, size, path):
    if not 0 <= index < size:
        return "InclusionProofError(IndexGtTreeSize)"
    want = path_length(index, size)
    if len(path) != want:
        return f"InclusionProofError(WrongProofSize {{ got: {len(path)}, want: {want} }})"
    # The ported crate calls the computed root the expected one.
    found = path_root(index, size, hashlib.sha256(b"\0" + entry).digest(), path)
    return None if found == root else f"InclusionProofError({mismatch(found, root)})"


def table(rows):
    if not rows:
        return "- -"
    return ",".join(in_hex(m) for m, _ in rows) + " " + ",".join(in_hex(s) for _, s in rows)


def proof(entry, index, root, size, path, rows, text):
    if text is None:
        answer = "UnexpectedError(CheckpointMissing)"
    else:
        checkpoint = read_checkpoint(text)
        answer = signed(checkpoint, rows) or of_tree(checkpoint, root, size) or included(entry, index, root, size, path) or "ok"
    line = f"proof {in_hex(entry)} {index} {root.hex()} {size} {','.join(h.hex() for h in path) or '-'} {table(rows)}"
    TABLE.case(line + ("" if text is None else " " + quoted(text)), answer)


def audit_path(entry, index, root, size, path):
    line = f"audit_path {in_hex(entry)} {index} {root.hex()} {size} {','.join(h.hex() for h in path) or '-'}"
    TABLE.case(line, included(entry, index, root, size, path) or "ok")


def tree(text, root, size, call="tree"):
    TABLE.case(f"{call} {quoted(text)} {root.hex()} {size}", of_tree(read_checkpoint(text), root, size) or "ok")


def asked(text, rows, call="signed"):
    TABLE.case(f"{call} {quoted(text)} {table(rows)}", signed(read_checkpoint(text), rows) or "ok")


def coded(size):
    return base64.b64encode(bytes(range(1, size + 1))).decode()


BANANA = "Banana Checkpoint v7\n9943\nAgICAgICAgICAgICAgICAgICAgICAgICAgICAgICAgI=\n"
ROOT = hashlib.sha256(b"\0L123456").digest()
NOTE = f"log.example\n1\n{base64.b64encode(ROOT).decode()}\n"
LINE = "\u2014 log.example AAAAAXNpZw==\n"
ONE = NOTE + "\n" + LINE

say("note TEXT: what Checkpoint::unmarshal reads. Go's checkpoint tests: a note, with empty lines after it, with contents.")
case("note", "Log Checkpoint v0\n123\nAAAAAAAAAAAAAAAAAAAAAAAAAAAAAAAAAAAAAAAAAAA=\n", BANANA, BANANA + "\n\n\n", BANANA + "foo\nbar")
case("note", BANANA + "foo\nTimestamp: 1689748607742585419: late\n", BANANA + "a: b: c\n:x\nk: \n: v\n: \na:b\n \n\nlast: line")
say("Sizes: a plus sign and zeros, the largest below 2^64, and what is none.")
for size in ("7", "+007", "+0", "0", str(2**64 - 1), "0" * 30 + "1", str(2**64), "9" * 40, "-7", "-0", "+", "++7", "", " 7", "7 ", "7\r", "0x7", "7_0",
             "1e3", "\uff17", "bananas"):
    case("note", f"o\n{size}\n{coded(32)}\n")
say("Origins: each character of Unicode's White_Space alone, all of them, one among others, and characters that are none.")
for point in sorted(WHITE - {0x0A}):
    case("note", f"{chr(point)}\n1\n{coded(32)}\n")
case("note", "".join(map(chr, sorted(WHITE - {0x0A}))) + f"\n1\n{coded(32)}\n", f" \u3000x \n1\n{coded(32)}\n")
for point in (0x08, 0x0E, 0x1C, 0x1F, 0x21, 0x84, 0x86, 0x180E, 0x200B, 0x200C, 0x2060, 0x2800, 0x3001, 0xFEFF):
    case("note", f"{chr(point)}\n1\n{coded(32)}\n")
say("Hashes: of 0, 31, 32 and 33 bytes, without padding, with trailing bits, of other letters, with blanks.")
case("note", *(f"o\n1\n{line}\n" for line in (coded(0), coded(31), coded(32), coded(33), coded(32)[:-1], coded(32) + "=", coded(32)[:-2] + "B=")))
case("note", *(f"o\n1\n{line}" for line in ("ThisIsn'tBase64", "YmFuYW5hcw==", coded(32) + " ", " " + coded(32), coded(32).replace("A", "-"), coded(32) + "\r")))
say("Every choice of broken rules: the first is named.")
for lines, origin, size, root in itertools.product((True, False), ("o", " "), ("1", "x"), (coded(32), "%", coded(31))):
    case("note", f"{origin}\n{size}\n{root}\n" if lines else f"{origin}\n{size}{root}")
case("note", "", "\n", "\n\n", "o", "o\n", "o\n1", "o\n1\n")

say("note_text TEXT: what is written of a note that was read.")
case("note_text", BANANA, f"o\n+007\n{coded(32)}", f"o\n1\n{coded(32)}\n\nx: y: z\n\n\nlast", f" \u3000o\n{2**64 - 1}\n{coded(32)}\n: \n:\n")

say("signature TEXT: what CheckpointSignature::decode reads. Names, newlines at both ends, and white space after the base64.")
for name in ("log.example.org", "815f6c60aab9", "https://log.example/path?q=1", "", "a+b", "\u2014", "a\tb"):
    case("signature", f"\u2014 {name} {coded(36)}\n", f"\n\n\u2014any {name} {coded(36)}\t\u00a0\u3000\n\n")
say("The first part after the dash is not looked at; newlines alone are trimmed.")
case("signature", f"\u2014\u2014 n {coded(4)}", f"\u2014x n {coded(4)}", f"\r\u2014 n {coded(4)}", f"\n \u2014 n {coded(4)}", f"\u2014 n {coded(4)}\r\n", f"\u2014\nn n {coded(4)}")
for point in (0x2D, 0x2010, 0x2012, 0x2013, 0x2015, 0x2212, 0x2E3A, 0x0014, 0x94, 0x4E14):
    case("signature", f"{chr(point)} n {coded(4)}")
say("Fingerprint and signature of 0 to 5 bytes.")
case("signature", *(f"\u2014 n {coded(size)}" for size in range(6)))
say("Each fault, and every choice of broken rules: the first is named.")
case("signature", "", "\n", " \u2014 n AQIDBA==", "- n AQIDBA==", "\u2014", "\u2014 n", "\u2014 Foo Bar AQIDBA==", "\u2014 n AQIDBA== ", "\u2014  n AQIDBA==")
case("signature", "\u2014 n AQIDBA", "\u2014 n AQIDBB==", "\u2014 n AQIDBA=\n=", "\u2014 n %", "\u2014 n AQID", "\u2014 n ")
for dash, name, third in itertools.product(("\u2014", "-"), ("n", "n n"), ("AQIDBA==", "%", "AQID")):
    case("signature", f"{dash} {name} {third}")

say("signature_text TEXT: what is written of a signature that was read.")
case("signature_text", f"\n\u2014x n {coded(70)} \n", f"\u2014 log.example.org {coded(4)}", f"\u2014  {coded(5)}")

say("checkpoint TEXT: what SignedCheckpoint::decode reads. Quotation marks and pieces of white space are dropped.")
case("checkpoint", ONE, f'""{ONE}"', f'"{ONE}', ONE + "\n\n\n\n\n\n", ONE + "\n\n \u2003\t\n\n" + LINE, NOTE + "\n", NOTE + "\n\n", BANANA + "foo\nk: v\n\n" + LINE + "\n" + LINE.replace("log", "witness"))
case("checkpoint", NOTE + "\n\n\n" + LINE, f"'{ONE}'", '"' + NOTE + "\n" + LINE.replace("example", '"example"') + '"', "o\n1\n" + coded(32) + "\n\n" + LINE[:-1])
say("Two signature lines that one newline joins are one malformed signature.")
case("checkpoint", ONE + LINE)
say("Each fault. The cut comes first, then the signatures from the left, then the note.")
case("checkpoint", "", '""""', "foo", "o\n1\nx\n", "bad note\n\n\u2014 n %\n\nno dash", "bad note\n\nno dash\n\n\u2014 n %", "bad note\n\n\u2014 n AQIDBA==",
     "bad note\n\n\n\n \u2003\n\n", "o\n1\nx\n\n", "\n\n", "\n\nno dash", "\r\n\r\n" + ONE)
PIECES = ("\u2014 n AQIDBA==", "no dash", "\u2014 n", "\u2014 n %", "\u2014 n AQID", " \t")
for first, second in itertools.product(PIECES, PIECES):
    case("checkpoint", f"{NOTE}\n{first}\n\n{second}\n")
for piece, note in itertools.product(PIECES[1:2] + PIECES[4:], ("o", " \n1\nx", "o\nx\nx", "o\n1\nx", "o\n1\nAAAA")):
    case("checkpoint", f"{note}\n\n{piece}")

say("checkpoint_text TEXT: what is written of a checkpoint that was read.")
case("checkpoint_text", ONE, NOTE + "\n", BANANA + "foo\n\n" + LINE + "\n" + LINE.replace("log", "witness") + "\n" + LINE.replace("log", "mirror"), f'"o\n+07\n{coded(32)}\n\n\n"')

say("counts BYTES: how many contents and signatures a text has. A million lines, newlines and marks; a hundred thousand signatures.")
counts([(NOTE, 1), ("x\n", 1 << 20), ("\n", 1)])
counts([(NOTE, 1), ("\n" + LINE, 100000)])
counts([(NOTE, 1), ("\n", 1 << 20)])
counts([('"', 1 << 20)])
counts([(NOTE, 1), ("key: value\n", 200000), ("\n", 1), (LINE + "\n", 100000), ("no dash", 1)])

MESSAGE = NOTE.encode()
ROW = [(MESSAGE, b"sig")]
say("signed CHECKPOINT NOTES SIGNATURES: whether one of its signatures is accepted over the note's text under these rows.")
asked(ONE, ROW)
asked(ONE, [])
asked(ONE, [(MESSAGE[:-1], b"sig")])
asked(ONE, [(MESSAGE, b"sih")])
asked(ONE, [(MESSAGE, b"s")] + ROW)
asked(ONE, ROW + ROW)
asked(NOTE + "\n", ROW)
asked(ONE.replace("\n1\n", "\n+01\n"), ROW)
asked(NOTE + "\n\u2014 w AAAAAg==\n\n" + LINE, ROW)
asked(NOTE + "\n" + LINE + "\n\u2014 w AAAAAg==\n", ROW)
asked(NOTE + "\n\u2014 w AAAAAg==\n\n\u2014 v AAAAAw==\n", ROW)
asked(NOTE + "x\n\n" + LINE, ROW)
asked(NOTE + "x\n\n" + LINE, [(MESSAGE + b"x\n", b"sig")])
say("tree CHECKPOINT ROOT SIZE: whether it is of that tree. An empty tree vouches for no other.")
EMPTY = f"log.example\n0\n{base64.b64encode(hashlib.sha256(b'').digest()).decode()}\n\n" + LINE
for size in (0, 1, 2, 2**64 - 1):
    for root in (ROOT, bytes(32), ROOT[:31] + bytes([ROOT[31] ^ 1]), bytes([ROOT[0] ^ 128]) + ROOT[1:]):
        tree(ONE, root, size)
    tree(EMPTY, hashlib.sha256(b"").digest(), size)
say("borrowed_text TEXT: what Note::read and Note::marshal make of a note: without lines after the hash, with some, and with empty ones.")
case("borrowed_text", BANANA, BANANA + "\n", BANANA + "foo", BANANA + "foo\n", BANANA + "\nfoo", BANANA + "foo\nk: v: w\n: ", BANANA + "foo\n\nk: v\n\n\nbar\n\n", "o")
say("borrowed TEXT: what SignedNote::decode reads: the text that is signed, and each signature. Then its checks, as of signed and tree.")
case("borrowed", ONE, BANANA + "foo\nk: v\n\n" + LINE + "\n" + LINE.replace("log", "witness"), "foo")
asked(ONE, ROW, "borrowed_signed")
asked(NOTE + "x\n\n" + LINE, ROW, "borrowed_signed")
asked(NOTE + "x\n\n" + LINE, [(MESSAGE + b"x\n", b"sig")], "borrowed_signed")
for size in (0, 1, 2):
    tree(ONE, ROOT, size, "borrowed_tree")
tree(ONE, bytes(32), 1, "borrowed_tree")
say("proof ENTRY INDEX ROOT SIZE HASHES NOTES SIGNATURES CHECKPOINT: no checkpoint, no accepted signature, another tree, another path, in this order.")
for entry, index, size, path, rows, text in itertools.product((b"L123456", b""), (0, 1), (1, 2), ([], [bytes(32)]), (ROW, []), (ONE, None)):
    proof(entry, index, ROOT, size, path, rows, text)
for index in (-1, -(2**63), 2**63 - 1):
    proof(b"L123456", index, ROOT, 1, [], ROW, ONE)
say("A note of a longer log, and one of the same size under another root; the note is looked at before the path.")
for size, root, path in itertools.product((2, 1), (ROOT, bytes(32)), ([], [bytes(32)])):
    noted = f"log.example\n{size}\n{base64.b64encode(root).decode()}\n"
    proof(b"L123456", 0, ROOT, 1, path, [(noted.encode(), b"sig")], noted + "\n" + LINE)
say("A tree of three leaves: each of them, and each with the path of another.")
LEAVES = [hashlib.sha256(b"\0" + entry).digest() for entry in (b"a", b"b", b"c")]
PAIR = hashlib.sha256(b"\1" + LEAVES[0] + LEAVES[1]).digest()
TOP = hashlib.sha256(b"\1" + PAIR + LEAVES[2]).digest()
PATHS = ([LEAVES[1], LEAVES[2]], [LEAVES[0], LEAVES[2]], [PAIR])
THREE = f"log.example\n3\n{base64.b64encode(TOP).decode()}\nnow: today\n"
for index, path in itertools.product(range(4), PATHS):
    proof(b"abcd"[index : index + 1], index, TOP, 3, path, [(THREE.encode(), b"sig")], THREE + "\n" + LINE)
say("audit_path ENTRY INDEX ROOT SIZE HASHES: the path alone, of a tree of one leaf and of one of three.")
for entry, index, size, path in itertools.product((b"L123456", b""), (0, 1, -1, -(2**63), 2**63 - 1), (1, 2), ([], [bytes(32)])):
    audit_path(entry, index, ROOT, size, path)
for index, path in itertools.product(range(4), PATHS):
    audit_path(b"abcd"[index : index + 1], index, TOP, 3, path)

if __name__ == "__main__":
    import rekor_list_rows  # writes its rows after those of rekor_growth_rows, which writes its own after those of rekor_model_rows
    import rekor_model_rows

    TABLE.line("")
    TABLE.rows += rekor_model_rows.TABLE.rows
    TABLE.write()
