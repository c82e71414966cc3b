#!/usr/bin/env python3
"""Writes the table of base_cases: `stdin`, the calls, and `stdout`, what they return.

Trees and paths are computed by the recursion of RFC 6962 sections 2.1 and 2.1.1, and walks by RFC 9162 sections 2.1.3.2 and 2.1.4.2, digests by Python's hashlib, texts by its base64. The reference
tree and its roots are those that Certificate Transparency's implementations publish. The keys are OpenSSL's, in `tools/base_cases.txt`.

    tools/base_cases.py
"""
import base64
import functools
import hashlib
import os

import consistency_cases
import key_rows
from case_table import Table, hexed
from consistency_cases import cut, leaf_hash, node_hash, proof_len, tree_hash
from schemes import SCHEMES, SIZED

TABLE = Table("base_cases")
case, note = TABLE.case, TABLE.note


def quoted(text):
    """The Debug text of a str of these letters."""
    return '"' + text.replace("\\", "\\\\").replace('"', '\\"') + '"'


# ---- sig_base

DIGESTS = [b"abc", b"abcdbcdecdefdefgefghfghighijhijkijkljklmklmnlmnomnopnopq", b""]

# RFC 4648 section 10, and the last two letters of the alphabet
BASE64 = [(b"", b""), (b"Zg==", b"f"), (b"Zm8=", b"fo"), (b"Zm9v", b"foo"), (b"Zm9vYg==", b"foob"), (b"Zm9vYmE=", b"fooba"),
          (b"Zm9vYmFy", b"foobar"), (b"w7/Dvg==", "\xff\xfe".encode()), (b"4pi+", "\u263e".encode())]

# padding that is missing, short or too much, stray bits, line ends, spaces, other letters, and the URL alphabet
NO_BASE64 = [b"Z", b"Zg", b"Zg=", b"Zm8", b"Zm9v====", b"Zg==Zg==", b"=", b"Zh==", b"Zm9=", b"Zm9v\n", b"Zm9v\nZm9v", b"Zg==\n", b" Zm9v",
             "Zm9v\xe9".encode(), b"w7_Dvg==", b"4pi-"]

ERRORS = [
    ('OutOfMemory', ['OutOfMemory']),
    ('Failed', ['Failed']),
    ('UnknownScheme', ['UnknownScheme']),
    ('DerError', ['Truncated', 'LongTag', 'Length', 'Trailing', 'WrongTag', 'Value']),
    ('CheckpointFault', ['Format', 'NoDash', 'SignatureFormat', 'SignatureBase64', 'SignatureLength', 'NoteFormat', 'EmptyOrigin', 'Size', 'HashBase64', 'HashLength']),
    ('PoolError', ['TooMany(1025)', 'Anchor(3)', 'Malformed', 'VerificationFailed', 'OutOfMemory']),
    ('TokenFault', ['NotThreeParts', 'ClaimsBase64', 'ClaimsJson', 'NotSigstore']),
    ('PkiFault', ['NotReadable', 'TrustedRootMissing']),
    ('TrustPart', ['Fulcio', 'Ctfe']),
    ('UnexpectedKind', ['BundleUnreadable', 'ContentNotDsse', 'PayloadType', 'Statement', 'StatementType', 'PredicateType', 'NoSubjects', 'FirstSubjectWithoutSha256', 'SubjectDigest', 'SignatureCount(4)', 'MaterialMissing', 'MaterialNotCertificate', 'EntryCount(4)', 'KeysMissing', 'LogIdMissing', 'PromiseMissing', 'PromiseInteger', 'Promise', 'ProofMissing', 'RootLength', 'HashLength(4)', 'TreeSize', 'CheckpointMissing', 'ProofConversion', 'CanonicalBody', 'Body', 'LayerUnreadable', 'ImageDigest']),
    ('MerkleProofError', ['MismatchedRoot { expected: RootHex { root: [7, 7, 7, 7, 7, 7, 7, 7, 7, 7, 7, 7, 7, 7, 7, 7, 7, 7, 7, 7, 7, 7, 7, 7, 7, 7, 7, 7, 7, 7, 7, 7] }, got: RootHex { root: [7, 7, 7, 7, 7, 7, 7, 7, 7, 7, 7, 7, 7, 7, 7, 7, 7, 7, 7, 7, 7, 7, 7, 7, 7, 7, 7, 7, 7, 7, 7, 7] } }', 'IndexGtTreeSize', 'UnexpectedNonEmptyProof', 'UnexpectedEmptyProof', 'NewTreeSmaller { new: 1, old: 2 }', 'WrongProofSize { got: 1, want: 2 }', 'WrongEmptyTreeHash']),
    ('SigstoreError', ['Base64DecodeError', 'HexDecodeError', 'Utf8Error', 'SerdeJsonError', 'PublicKeyUnsupportedAlgorithmError', 'PublicKeyVerificationError', 'KeyParsingError', 'CheckpointSignatureVerificationError', 'CertificateWithoutDigitalSignatureKeyUsage', 'CertificateWithoutCodeSigningKeyUsage', 'CertificateWithoutSubjectAlternativeName', 'CertificateWithIncompleteSubjectAlternativeName', 'CertificateParsingError', 'X509Error', 'SigstoreMediaTypeNotFoundError', 'SigstoreLayerDigestMismatchError', 'SigstoreAnnotationNotFoundError', 'SigstoreNoVerifiedLayer', 'OutOfMemory',
        'ParseCheckpointError(Size)', 'CertificateValidityError(7)', 'CertificatePoolError(Malformed)', 'ConsistencyProofError(IndexGtTreeSize)', 'InclusionProofError(IndexGtTreeSize)', 'SigstorePKIFileMalformedError(NotReadable)', 'TufMetadataError(Ctfe)', 'IdentityTokenError(NotSigstore)', 'UnexpectedError(Body)', 'CertificateExpiredBeforeSignaturesSubmittedToRekor { integrated_time: 6, not_before: 7 }', 'CertificateIssuedAfterSignaturesSubmittedToRekor { integrated_time: 8, not_after: 7 }', 'RekorPublicKeyNotFoundError("id")', 'VerificationConstraintError("text")', 'ApplyConstraintError("text")']),
]


def base():
    note("sha256 BYTES: their digest. FIPS 180-4's examples of one and of two blocks, and no bytes.")
    for data in DIGESTS:
        case(f"sha256 {hexed(data)}", f"ok {hashlib.sha256(data).hexdigest()}")
    note("of_base64 TEXT: the bytes of a text in base64. RFC 4648 section 10, and both ends of the alphabet.")
    for text, data in BASE64:
        assert base64.b64encode(data) == text
        case(f"of_base64 {hexed(text)}", f"ok {hexed(data)}")
    note("no base64: padding that is missing, short or too much, stray bits, line ends, spaces, other letters")
    for text in NO_BASE64:
        case(f"of_base64 {hexed(text)}", "None")
    note("in_base64 BYTES: the text of some bytes")
    for text, data in BASE64:
        case(f"in_base64 {hexed(data)}", "ok " + quoted(text.decode()))
    note("root_hex ROOT: a root as an error shows it")
    case("root_hex 0f" + "a0" * 31, "ok 0f" + "a0" * 31)
    case("root_hex " + bytes(range(224, 256)).hex(), "ok " + bytes(range(224, 256)).hex())
    note("scheme TEXT: the scheme that a text names, and its name")
    for name in SCHEMES:
        case(f"scheme {name}", f"ok {name}{'(2048)' if name in SIZED else ''} {name}")
    for name in ["-", "ED2551", "ED255199", "ed25519", "ECDSA_P256_SHA256_ASN2", "RSA_PSS_SHA256%20", "%20RSA_PSS_SHA256"]:
        case(f"scheme {name}", "UnknownScheme")
    note("equal ONE OTHER: whether two texts are equal, and whether their bytes are")
    for one, other in [("-", "-"), ("a", "a"), ("a", "b"), ("a", "-"), ("ab", "abc"), ("%e2%80%94", "%e2%80%94")]:
        same = "true" if one == other else "false"
        case(f"equal {one} {other}", f"ok {same} {same}")
    tables()
    maps()
    ranks()
    note("errors TYPE: the Debug text of each variant; Display is the name, or follows in brackets")
    for name, texts in ERRORS:
        case(f"errors {name}", " ".join(["ok"] + texts))


def ranks():
    note("rank TEXT FROM: the seven bytes of a text from there as a number; an absent one is less than 0")
    texts = [b"", b"\0", b"\0\0", b"a", b"\xff", b"abcdefg", b"abcdefgh", b"\xff" * 9]
    for text in texts:
        for start in dict.fromkeys((0, 1, 7, len(text), len(text) + 1)):
            digits = [byte + 1 for byte in text[start:start + 7]]
            case(f"rank {hexed(text)} {start}", f"ok {functools.reduce(lambda rank, digit: rank * 257 + digit, [*digits, *[0] * (7 - len(digits))])}")
    note("shared TEXTS: with how many bytes all begin alike")
    for texts in [[], [b"abc"], [b"", b""], [b"abc", b"abc"], [b"abc", b""], [b"abc", b"ab"], [b"ab", b"abc"], [b"abd", b"abc", b"b"],
                  [b"abcd", b"abce", b"abxd"], [b"\0", b""], [b"x" * 300 + b"a", b"x" * 300 + b"b", b"x" * 299]]:
        case(f"shared {','.join(map(bytes.hex, texts)) or '-'}", f"ok {len(os.path.commonprefix(texts)) if texts else 0}")


def tables():
    note("accepts OPERATION SCHEME KEY MESSAGE SIGNATURE and rows: whether a row equals all five parts")
    rows = [("message", "ED25519", "01", "0a", f"{n:02x}") for n in (5, 3, 9, 3, 7)]
    rows += [("message", "ED25519", "01", f"{n:02x}", "20") for n in (9, 4, 4, 7, 1, 8)]
    rows += [("message", "ED25519", f"{n:02x}", "0a", "21") for n in (3, 1, 2)]
    rows += [("message", name, "05", "0a", "22") for name in ("RSA_PSS_SHA256", "ED25519")]
    rows += [("prehash", "ED25519", "01", "0a", "23"), ("point", "-", "01", "0a", "24"), ("certificate", "3000", "01", "0a", "25")]
    listed = " ".join(" ".join(part for part in row if not (row[0] == "point" and part == "-")) for row in rows)
    asked = list(rows)
    asked += [("message", "ED25519", "01", "0a", f"{n:02x}") for n in range(0, 12)]
    asked += [("message", "ED25519", "01", f"{n:02x}", "20") for n in range(0, 12)]
    asked += [("message", "ED25519", f"{n:02x}", "0a", "21") for n in range(0, 5)]
    asked += [("message", "RSA_PKCS1_SHA256", "05", "0a", "22"), ("message", "ED25519", "05", "0a", "22")]
    asked += [(kind, "ED25519", "01", "0a", "23") for kind in ("message", "prehash")]
    asked += [(kind, "-", "01", "0a", "24") for kind in ("message", "prehash", "point")]
    asked += [("message", "ED25519", "-", "-", "-"), ("message", "ED25519", "01", "0a", "0505"), ("message", "ED25519", "01", "0a0a", "05")]
    asked = list(dict.fromkeys(asked))
    for row in asked:
        # a scheme is a text here, and in a row of a certificate bytes in hexadecimal
        scheme = "0%00" if row[0] == "certificate" else row[1]
        case(f"accepts {row[0]} {scheme} {row[2]} {row[3]} {row[4]} {listed}", "ok " + ("true" if row in rows else "false"))
    case("accepts message ED25519 01 0a 05", "ok false")
    note("has PART BYTES and rows: whether some row has these bytes as this part, before the rows are in the order of their parts and after")
    for name, place in (("key", 2), ("message", 3), ("signature", 4)):
        held = {row[place] for row in rows}
        for sought in sorted(held | {"-", "00", "ff", "0a0a", "0505"}):
            case(f"has {name} {sought} {listed}", "ok " + ("true true" if sought in held else "false false"))
        case(f"has {name} 01", "ok false false")


def maps():
    note("key_map SOUGHT and entries: the number of entries, the value, the entry at index 1, and all in byte order")
    entries = [("b", "6f6c64"), ("ab", "ff"), ("b", "6e6577"), ("a", "-"), ("%c3%a9", "01"), ("z", "02")]
    held = dict(entries)
    order = sorted(held, key=lambda key: percent(key))
    shown = " ".join(f"{quoted(percent(key).decode())} {held[key]}" for key in order)
    second = f"{quoted(percent(order[1]).decode())} {held[order[1]]}"
    listed = " ".join(f"{key} {value}" for key, value in entries)
    for sought in ["b", "a", "ab", "z", "%c3%a9", "-", "abc"]:
        case(f"key_map {sought} {listed}", f"ok {len(held)} {held.get(sought, 'None')} {second} {shown}")
    case("key_map a", "ok 0 None None")
    case("key_map a a 01", 'ok 1 01 None "a" 01')
    note("text_map SOUGHT and entries: the same with texts")
    entries = [("%c3%a9", "old"), ("z", "last%20of%20ASCII"), ("%c3%a9", "new"), ("-", "-")]
    held = dict(entries)
    order = sorted(held, key=lambda key: percent(key))
    text = lambda word: quoted(percent(word).decode())
    shown = " ".join(f"{text(key)} {text(held[key])}" for key in order)
    second = f"{text(order[1])} {text(held[order[1]])}"
    listed = " ".join(f"{key} {value}" for key, value in entries)
    for sought in ["%c3%a9", "z", "-", "e"]:
        value = text(held[sought]) if sought in held else "None"
        case(f"text_map {sought} {listed}", f"ok {len(held)} {value} {second} {shown}")
    case("text_map a", "ok 0 None None")
    note("entries INDEX LIST: the number, whether a copy is equal, the entry at the index, and all")
    for index in range(0, 4):
        value = ["6669727374", "-", "00ff"][index] if index < 3 else "None"
        case(f"entries {index} 6669727374,,00ff", f"ok 3 true {value} 6669727374 - 00ff")
    case("entries 0 -", "ok 0 true None")
    note("numbers INDEX and numbers; hashes and digests")
    case("numbers 1 5", "ok 1 true None 5")
    case("numbers 0 5 0 18446744073709551615", "ok 3 true 5 5 0 18446744073709551615")
    case("hashes", "ok 0")
    case("hashes " + "03" * 32 + " " + "ff" * 32, "ok 2 " + "03" * 32 + " " + "ff" * 32)


def percent(word):
    from urllib.parse import unquote_to_bytes
    return b"" if word == "-" else unquote_to_bytes(word)


# ---- sig_merkle: RFC 6962 section 2.1

REFERENCE = [b"", b"\x00", b"\x10", b"\x20\x21", b"\x30\x31", b"\x40\x41\x42\x43", b"PQRSTUVW", b"`abcdefghijklmno"]

# the published roots of the first 0 to 8 entries
ROOTS = ["e3b0c44298fc1c149afbf4c8996fb92427ae41e4649b934ca495991b7852b855",
         "6e340b9cffb37a989ca544e6bb780a2c78901d3fb33738768511a30617afa01d",
         "fac54203e7cc696cf0dfcb42c92a1d9dbaf70ad9e621f4bd8d98662f00e3c125",
         "aeb6bcfe274b70a14fb067a5e5578264db0fa9b51af5e0ba159158f329e06e77",
         "d37ee418976dd95753c1c73862b9398fa2a2cf9b4ff0fdfe8b30cd95209614b7",
         "4e3bbb1f7b478dcfe71fb631631519a3bca12c9aefca1612bfce4c13a86264d4",
         "76e67dadbcdf1e10e1b74ddc608abd2f98dfb16fbce75277b5232a127f2087ef",
         "ddb89be403809e325750d3d263cd78929c2942b7942a34b77e122c9594a74c8c",
         "5dc9da79a70659a9ad559cb701ded9a2ab9d823aad2f4960cfe370eff4604328"]


def audit_path(m, entries):
    """PATH(m, D[n]) (section 2.1.1)."""
    if len(entries) == 1:
        return []
    k = cut(len(entries))
    if m < k:
        return audit_path(m, entries[:k]) + [tree_hash(entries[k:])]
    return audit_path(m - k, entries[k:]) + [tree_hash(entries[:k])]


def root_of(index, leaf, size, path):
    """The root that a path leads to, by the recursion of the path; no such root where the number of hashes does not fit."""
    if size == 1:
        return leaf if not path else None
    if not path:
        return None
    k = cut(size)
    if index < k:
        left = root_of(index, leaf, k, path[:-1])
        return left and node_hash(left, path[-1])
    right = root_of(index - k, leaf, size - k, path[:-1])
    return right and node_hash(path[-1], right)


def path_len(index, size):
    if size == 1:
        return 0
    k = cut(size)
    return 1 + (path_len(index, k) if index < k else path_len(index - k, size - k))


def inclusion(index, leaf, size, path, root):
    """What section 2.1.1 says of a proof."""
    if index >= size:
        return "IndexGtTreeSize"
    led = root_of(index, leaf, size, path)
    if led is None:
        return f"WrongProofSize {{ got: {len(path)}, want: {path_len(index, size)} }}"
    if led != root:
        shown = lambda digest: f"RootHex {{ root: [{', '.join(str(byte) for byte in digest)}] }}"
        return f"MismatchedRoot {{ expected: {shown(led)}, got: {shown(root)} }}"
    return "ok"


def check(index, leaf, size, path, root):
    listed = ",".join(digest.hex() for digest in path) or "-"
    case(f"verify_inclusion {index} {leaf.hex()} {size} {listed} {root.hex()}", inclusion(index, leaf, size, path, root))


def turned(index, leaf, size, path, root):
    """A proof, and the proof with each of its parts turned."""
    check(index, leaf, size, path, root)
    check(size, leaf, size, path, root)
    check(index, leaf, size, path, bytes([7] * 32))
    if path:
        check(index, leaf, size, path[:-1], root)
    check(index, leaf, size, path + [leaf], root)


def hashes_and_leaves():
    note("empty_root, hash_leaf ENTRY, hash_children LEFT RIGHT: the published hashes")
    case("empty_root", "ok " + ROOTS[0])
    case("hash_leaf " + b"L123456".hex(), "ok 395aa064aa4c29f7010acfe3f25db9485bbd4b91897b6ad7ad547639252b4d56")
    case(f"hash_children {b'N123'.hex()} {b'N456'.hex()}", "ok aa217fe888e47007fa15edab33c2b492a722cb106c64667fc2b044444de66bbb")
    for entry in REFERENCE:
        case(f"hash_leaf {hexed(entry)}", "ok " + leaf_hash(entry).hex())
    note("verify_inclusion INDEX LEAF SIZE PATH ROOT: each leaf of the reference tree, with each part turned")
    for size in range(1, 9):
        entries = REFERENCE[:size]
        assert tree_hash(entries).hex() == ROOTS[size]
        for index in range(size):
            turned(index, leaf_hash(entries[index]), size, audit_path(index, entries), tree_hash(entries))
    note("another leaf, size or order of the hashes leads to another root")
    entries = REFERENCE[:7]
    leaves = [leaf_hash(entry) for entry in entries]
    path, root = audit_path(6, entries), tree_hash(entries)
    check(6, leaves[5], 7, path, root)
    check(2, leaves[6], 4, path, root)
    check(6, leaves[6], 7, path[::-1], root)


def larger_trees():
    note("trees of 9 to 33 entries: each index, and its path with a hash less and a hash more")
    for size in range(9, 34):
        entries = [f"entry {number} of {size}".encode() for number in range(size)]
        root = tree_hash(entries)
        for index in range(size):
            leaf, path = leaf_hash(entries[index]), audit_path(index, entries)
            check(index, leaf, size, path, root)
            check(index ^ 1, leaf, size, path, root)
        check(size, leaf, size, path, root)
        check(0, leaf, size, audit_path(0, entries)[:-1], root)
        check(0, leaf, size, audit_path(0, entries) + [leaf], root)
    note("no leaf is in the empty tree; the largest tree")
    leaf, sibling = leaf_hash(b""), bytes([1] * 32)
    check(0, leaf, 0, [], leaf)
    first, last = leaf, leaf
    for level in range(64):
        first = node_hash(first, sibling)
    for level in range(63):
        last = node_hash(sibling, last)
    most = 2 ** 64 - 1
    turned(0, leaf, most, [sibling] * 64, first)
    turned(most - 1, leaf, most, [sibling] * 63, last)


def counted_paths():
    note("counted INDEX LEAF SIZE PATH: the root that a path leads to, with a counter of steps")
    entries = REFERENCE[:7]
    for index in range(7):
        listed = ",".join(digest.hex() for digest in audit_path(index, entries)) or "-"
        case(f"counted {index} {leaf_hash(entries[index]).hex()} 7 {listed}", "ok " + ROOTS[7])
    case(f"counted 7 {leaf_hash(b'').hex()} 7 -", "IndexGtTreeSize")
    case(f"counted 0 {leaf_hash(b'').hex()} 7 -", "WrongProofSize { got: 0, want: 3 }")
    case(f"counted 0 {leaf_hash(b'').hex()} 1 -", "ok " + ROOTS[1])
    leaf, zero = leaf_hash(b""), bytes(32)
    root = leaf
    for level in range(64):
        root = node_hash(root, zero)
    for count, wanted in ((63, "WrongProofSize { got: 63, want: 64 }"), (64, "ok " + root.hex()), (65, "WrongProofSize { got: 65, want: 64 }")):
        case(f"counted 0 {leaf.hex()} {2 ** 63 + 1} {','.join([zero.hex()] * count)}", wanted)


def merkle():
    for rows in (hashes_and_leaves, larger_trees, counted_paths):
        rows()


# one leaf; only inner hashes and only border hashes; the most of either
DECOMPOSED = [(0, 1), (0, 8), (2, 5), (6, 7), (1227, 14358), (0, 2 ** 63 + 1), (2 ** 63 - 1, 2 ** 64 - 1), (2 ** 64 - 2, 2 ** 64 - 1)]


def decomposed(index, size):
    """The hashes of a path below the level where it meets the tree's right border, and those along it: a node that is not the last
    of its level has a sibling, and one that is has one if it is a right child."""
    inner = border = 0
    node, last = index, size - 1
    while last:
        if node != last:
            inner += 1
        elif node % 2:
            border += 1
        node, last = node // 2, last // 2
    return inner, border


def walked(index, leaf, size, path):
    """The root that a path leads to, by the algorithm of RFC 9162 section 2.1.3.2."""
    fn, sn, r = index, size - 1, leaf
    for p in path:
        if sn == 0:
            return None
        if fn & 1 or fn == sn:
            r = node_hash(p, r)
            while not fn & 1 and fn:
                fn, sn = fn >> 1, sn >> 1
        else:
            r = node_hash(r, p)
        fn, sn = fn >> 1, sn >> 1
    return r if sn == 0 else None


def both_ways(size, first, count):
    leaf, roots = bytes([255] * 32), b""
    for index in range(first, first + count):
        path = [bytes([place] * 32) for place in range(path_len(index, size))]
        root = root_of(index, leaf, size, path)
        assert root == walked(index, leaf, size, path) and sum(decomposed(index, size)) == len(path)
        roots += root
    digest = hashlib.sha256(roots).hexdigest()
    case(f"both_ways {size} {first} {count}", f"ok {digest} {digest}")


def grown(m, n, known, old, path):
    """The old and the new root that a proof leads to, by the recursion of SUBPROOF."""
    if m == n:
        return (old, old) if known else (path[0], path[0])
    k = cut(n)
    if m <= k:
        first, second = grown(m, k, known, old, path[:-1])
        return first, node_hash(second, path[-1])
    first, second = grown(m - k, n - k, False, old, path[:-1])
    return node_hash(path[-1], first), node_hash(path[-1], second)


def both_growths(size, first, count):
    old, roots = bytes([255] * 32), b""
    for old_size in range(first, first + count):
        path = [bytes([place] * 32) for place in range(proof_len(old_size, size))]
        led = grown(old_size, size, True, old, path)
        assert led == consistency_cases.walk(old_size, size, path, old)
        roots += led[0] + led[1]
    case(f"both_growths {size} {first} {count}", f"ok {hashlib.sha256(roots).hexdigest()}")


EDGES = [2 ** 63 - 1, 2 ** 63, 2 ** 63 + 1, 2 ** 64 - 1]


def walks():
    note("decomposed INDEX SIZE: how many hashes of a path are inner ones, and how many are of the right border")
    for index, size in DECOMPOSED:
        inner, border = decomposed(index, size)
        case(f"decomposed {index} {size}", f"ok {inner} {border}")
    note("both_ways SIZE FIRST COUNT: the digests of the roots of made-up paths for so many indices, by the walk and by the recursion")
    for size in range(1, 66):
        both_ways(size, 0, size)
    for size in EDGES:
        for first in [0, 2 ** 62 - 2, 2 ** 63 - 5, size - 4]:
            both_ways(size, first, 4)
        both_ways(size, 0x5555555555555554, 3)
    note("both_growths SIZE FIRST COUNT: the digest of the roots of made-up consistency proofs for so many old sizes, by the recursion; the walk checks each")
    for size in range(2, 66):
        both_growths(size, 1, size - 1)
    for size in EDGES:
        for first in [1, 2 ** 62 - 2, 2 ** 63 - 6, size - 4]:
            both_growths(size, first, 4)
        both_growths(size, 0x5555555555555554, 3)


def listed(entries):
    return ",".join(entry.hex() for entry in entries) if entries else "-"


def paths(index, entries, path):
    shown = "".join(" " + digest.hex() for digest in path)
    case(f"path_of {index} {listed(entries)}", "ok" + shown)


def trees():
    note("root_of COUNT ENTRIES: the published roots of the first 0 to 8 entries")
    for size, root in enumerate(ROOTS):
        case(f"root_of {size} {listed(REFERENCE)}", "ok " + root)
    note("path_of INDEX ENTRIES: the example of RFC 6962 section 2.1.3, whose tree of seven entries has these nodes")
    entries = [bytes([number]) for number in range(7)]
    a, b, c, d, e, f, j = map(leaf_hash, entries)
    g, h, i = node_hash(a, b), node_hash(c, d), node_hash(e, f)
    k, l = node_hash(g, h), node_hash(i, j)
    case(f"root_of 7 {listed(entries)}", "ok " + node_hash(k, l).hex())
    for index, path in ((0, [b, h, l]), (3, [c, g, l]), (4, [f, j, k]), (6, [i, k])):
        paths(index, entries, path)
    note("trees of 0 to 33 entries: the root, and the path of each index")
    for size in range(34):
        entries = [bytes([size, number]) for number in range(size)]
        case(f"root_of {size} {listed(entries)}", "ok " + tree_hash(entries).hex())
        for index in range(size):
            paths(index, entries, audit_path(index, entries))
    note("trees of equal entries, and of which one is another")
    for entry, other in ((b"", b"\0"), (b"a", b"b"), (b"ab", b"a")):
        for size in range(2, 10):
            for place in range(-1, size):
                entries = [other if number == place else entry for number in range(size)]
                case(f"root_of {size} {listed(entries)}", "ok " + tree_hash(entries).hex())
    entries = [b"a"] * 170 + [b"b"] * 130
    case(f"root_of 300 {listed(entries)}", "ok " + tree_hash(entries).hex())
    note("twins INDEX COUNT: whether the path of one of so many entries shows another entry there: that path for this entry, and for no bytes, and "
         "beside the entries, and beside them with this one changed: n if it does not, x if it is not accepted")
    for size, indices in [(size, range(size)) for size in (*range(1, 18), 33)] + [(300, (0, 171, 299))]:
        for index in indices:
            case(f"twins {index} {size}", "ok n x n x")


def main():
    base()
    merkle()
    walks()
    trees()
    for text, rows in consistency_cases.notes_and_rows():
        note(text)
        for call, result in rows:
            case(call, result)
    key_rows.rows(TABLE, SCHEMES)
    TABLE.write()


if __name__ == "__main__":
    main()
