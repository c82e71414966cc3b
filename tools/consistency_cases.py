"""The rows of base_cases on consistency proofs.

Proofs are made by the recursions PROOF and SUBPROOF of RFC 6962 section 2.1.2. What a check returns is computed by another algorithm, the walk
over bits of RFC 9162 section 2.1.4.2; only the number of hashes that a refusal wants is that of PROOF.
"""
import hashlib


def leaf_hash(entry):
    return hashlib.sha256(b"\x00" + entry).digest()


def node_hash(left, right):
    return hashlib.sha256(b"\x01" + left + right).digest()


EMPTY = hashlib.sha256(b"").digest()


def cut(n):
    """The largest power of two smaller than n."""
    return 1 << ((n - 1).bit_length() - 1)


def tree_hash(entries):
    """MTH (section 2.1)."""
    if len(entries) < 2:
        return leaf_hash(entries[0]) if entries else EMPTY
    k = cut(len(entries))
    return node_hash(tree_hash(entries[:k]), tree_hash(entries[k:]))


def subproof(m, entries, known):
    """SUBPROOF(m, D[n], b) (section 2.1.2)."""
    if m == len(entries):
        return [] if known else [tree_hash(entries)]
    k = cut(len(entries))
    if m <= k:
        return subproof(m, entries[:k], known) + [tree_hash(entries[k:])]
    return subproof(m - k, entries[k:], False) + [tree_hash(entries[:k])]


def proof_len(m, n, known=True):
    if m == n:
        return 0 if known else 1
    k = cut(n)
    return 1 + (proof_len(m, k, known) if m <= k else proof_len(m - k, n - k, False))


def walk(first, second, path, first_hash):
    """The two roots to which a path leads (RFC 9162 section 2.1.4.2); None where its length does not fit."""
    path = list(path)
    if first & (first - 1) == 0:
        path.insert(0, first_hash)
    fn, sn = first - 1, second - 1
    while fn & 1:
        fn, sn = fn >> 1, sn >> 1
    if not path:
        return None
    fr = sr = path[0]
    for c in path[1:]:
        if sn == 0:
            return None
        if fn & 1 or fn == sn:
            fr, sr = node_hash(c, fr), node_hash(c, sr)
            while not fn & 1 and fn:
                fn, sn = fn >> 1, sn >> 1
        else:
            sr = node_hash(sr, c)
        fn, sn = fn >> 1, sn >> 1
    return (fr, sr) if sn == 0 else None


def shown(digest):
    return f"RootHex {{ root: [{', '.join(str(byte) for byte in digest)}] }}"


def mismatch(expected, got):
    return f"MismatchedRoot {{ expected: {shown(expected)}, got: {shown(got)} }}"


def verdict(old, new, path, old_root, new_root):
    """What a check returns."""
    if old > new:
        return f"NewTreeSmaller {{ new: {new}, old: {old} }}"
    if old == new and not path:
        return "ok" if old_root == new_root else mismatch(old_root, new_root)
    if path and old in (0, new):
        return "UnexpectedNonEmptyProof"
    if old == 0:
        return "ok" if old_root == EMPTY else "WrongEmptyTreeHash"
    if not path:
        return "UnexpectedEmptyProof"
    led, want = walk(old, new, path, old_root), proof_len(old, new)
    assert (led is None) == (len(path) != want)
    if led is None:
        return f"WrongProofSize {{ got: {len(path)}, want: {want} }}"
    if led[0] != old_root:
        return mismatch(led[0], old_root)
    return "ok" if led[1] == new_root else mismatch(led[1], new_root)


def joined(parts):
    return ",".join(part.hex() for part in parts) or "-"


def flipped(digest):
    return bytes([digest[0] ^ 1]) + digest[1:]


def turned(old, new, path, old_root, new_root):
    """A proof, and the proof with each hash changed, dropped and doubled, and with each size one less and one more."""
    yield old, new, path, old_root, new_root
    for place, digest in enumerate(path):
        for others in ([flipped(digest)], [], [digest, digest]):
            yield old, new, path[:place] + others + path[place + 1:], old_root, new_root
    yield max(old - 1, 0), new, path, old_root, new_root
    yield old + 1, new, path, old_root, new_root
    yield old, max(new - 1, 0), path, old_root, new_root
    yield old, new + 1, path, old_root, new_root


def check(old, new, path, old_root, new_root):
    call = f"verify_consistency {old} {new} {joined(path)} {old_root.hex()} {new_root.hex()}"
    return call, verdict(old, new, path, old_root, new_root)


def proof_row(old, entries):
    return f"proof_of {old} {joined(entries)}", " ".join(["ok"] + [digest.hex() for digest in subproof(old, entries, True)])


def example():
    """The example of RFC 6962 section 2.1.3: the tree of seven entries, whose nodes it names."""
    entries = [bytes([number]) for number in range(7)]
    a, b, c, d, e, f, j = map(leaf_hash, entries)
    g, h, i = node_hash(a, b), node_hash(c, d), node_hash(e, f)
    k, l = node_hash(g, h), node_hash(i, j)
    for old, path in ((3, [c, d, g, l]), (4, [l]), (6, [i, j, k])):
        assert subproof(old, entries, True) == path
        yield proof_row(old, entries)
        yield check(old, 7, path, tree_hash(entries[:old]), node_hash(k, l))


LETTERS = {"ok": "k", "MismatchedRoot": "r", "WrongProofSize": "w", "UnexpectedNonEmptyProof": "f", "UnexpectedEmptyProof": "e",
           "NewTreeSmaller": "s", "WrongEmptyTreeHash": "h"}


def sweep(old, new):
    entries = [f"entry {number}".encode() for number in range(new)]
    path = subproof(old, entries, True)
    proof = (old, new, path, tree_hash(entries[:old]), tree_hash(entries))
    letters = "".join(LETTERS[verdict(*other).split()[0]] for other in turned(*proof))
    return f"sweep {old} {new}", f"ok {hashlib.sha256(b''.join(path)).hexdigest()} {letters}"


def numbered(count, changed=None):
    return [b"other" if number == changed else f"entry {number}".encode() for number in range(count)]


def fronts(old, new):
    """No collision of SHA-256 is known, so a proof that is accepted for a list has the root of its first entries."""
    entries = numbered(new)
    roots = tree_hash(entries[:old]), tree_hash(entries)
    path = subproof(old, entries, True) if old else []
    letters = ""
    for other in (entries, numbered(new, 0), numbered(new, max(new - 1, 0)), numbered(new + 1), numbered(max(new - 1, 0))):
        accepted = verdict(old, len(other), path, roots[0], tree_hash(other)) == "ok"
        assert not accepted or tree_hash(other[:old]) == roots[0]
        letters += "n" if accepted else "x"
    return f"fronts {old} {new}", f"ok {hashlib.sha256(b''.join(roots)).hexdigest()} {letters}"


def notes_and_rows():
    yield "verify_consistency OLD NEW PATH OLDROOT NEWROOT, proof_of OLD ENTRIES: the example of RFC 6962 section 2.1.3", example()
    one, other = leaf_hash(b""), bytes([7] * 32)
    yield "equal trees, and the empty one", (check(*row) for row in (
        (1, 1, [], one, one), (1, 1, [], one, other), (1, 1, [one], one, one), (7, 7, [other] * 3, one, one), (0, 0, [], EMPTY, EMPTY),
        (0, 0, [], one, one), (0, 0, [], one, other), (0, 0, [one], EMPTY, EMPTY), (0, 5, [], EMPTY, other), (0, 5, [], one, other),
        (0, 5, [one], EMPTY, other), (8, 7, [], one, one), (2, 1, [], one, one), (8, 7, [one], one, one), (1, 0, [], one, one),
        (1, 2, [], one, one), (2 ** 63, 2 ** 63 + 1, [], one, one), (2 ** 64 - 1, 2 ** 64 - 1, [], one, one)))
    yield "trees of 1 to 6 entries, each proof with each hash changed, dropped and doubled, and with sizes one less and one more", small()
    yield "the longest proofs", (check(*row) for row in longest())
    yield "sweep OLD NEW: the hash of the proof's hashes, and what is returned of it and of each such change, a letter each", (
        sweep(old, new) for new in range(1, 34) for old in range(1, new + 1))
    yield ("fronts OLD NEW: the digest of the roots of the first entries and of all, and whether the proof between them shows another front of the "
           "entries, of those with the first and with the last changed, of one more and of one fewer: n if it does not, x if it is not accepted"), (
        fronts(old, new) for new in range(34) for old in range(new + 1))
    yield "fronts of 300 entries", (fronts(old, 300) for old in (0, 1, 171, 256, 299, 300))


def small():
    for new in range(1, 7):
        entries = [f"entry {number}".encode() for number in range(new)]
        for old in range(1, new):
            path = subproof(old, entries, True)
            yield proof_row(old, entries)
            for proof in turned(old, new, path, tree_hash(entries[:old]), tree_hash(entries)):
                yield check(*proof)


def longest():
    """For 2^64 - 1 leaves, the proof from one leaf, and that from all except one."""
    one, other = leaf_hash(b""), bytes([1] * 32)
    most = 2 ** 64 - 1
    for old in (1, most - 1, 2 ** 63, 2 ** 63 + 1):
        path = [other] * proof_len(old, most)
        led = walk(old, most, path, one)
        yield old, most, path, led[0], led[1]
        yield old, most, path, one, led[1]
        yield old, most, path + [other], led[0], led[1]
        yield old, most, path, led[0], other
