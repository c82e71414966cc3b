"""Rows of base_cases on keys and signatures: which keys SPKIs are, how signature texts are decoded, and what a key accepts.

The keys are OpenSSL's, in base_cases.txt."""
import base64
import itertools
import pathlib

from case_table import hexed

KEYS = pathlib.Path(__file__).resolve().parent / "base_cases.txt"


def made_keys():
    """The keys that OpenSSL made, by their names."""
    lines = (line.split() for line in KEYS.open() if line.strip() and not line.startswith("#"))
    return {name: bytes.fromhex(data) for name, data in lines}


def changed(data, index, byte):
    return data[:index] + bytes([byte]) + data[index + 1:]


def one_bit_turned(made):
    """SPKIs in which one bit of an object identifier is turned, each with what is in the identifier's place."""
    for name, start, end in [("P256", 6, 13), ("P256", 15, 23), ("P384", 15, 20), ("P521", 16, 21), ("RSA", 8, 17), ("ED25519", 6, 9)]:
        for index, bit in itertools.product(range(start, end), range(8)):
            other = changed(made[name], index, made[name][index] ^ 1 << bit)
            yield other, other[start:end]


def spkis(made):
    """SPKIs with the schemes of their keys, SPKIs of other keys, and bytes that are none."""
    p256 = made["P256"]
    kinds = [(made["P256"], "ECDSA_P256_SHA256_ASN1"), (made["P384"], "ECDSA_P384_SHA384_ASN1"), (made["P521"], "ECDSA_P521_SHA512_ASN1"),
             (made["RSA"], "RSA_PKCS1_SHA256"), (made["ED25519"], "ED25519"),
             # RSA without parameters, Ed25519 with NULL
             (bytes.fromhex("3011300b06092a864886f70d01010103020001"), "RSA_PKCS1_SHA256"),
             (bytes.fromhex("300d300706032b6570050003020001"), "ED25519")]
    unsupported = [made["SECP256K1"], made["X25519"], changed(p256, 12, p256[12] ^ 2), changed(p256, 22, p256[22] ^ 1), changed(p256, 13, 4),
                   # EC without parameters
                   bytes.fromhex("300f300906072a8648ce3d020103020001")]
    # each bit of each object identifier turned is another algorithm; that of P-384 and that of P-521 are one bit apart
    curves = {bytes.fromhex("2b81040022"): "ECDSA_P384_SHA384_ASN1", bytes.fromhex("2b81040023"): "ECDSA_P521_SHA512_ASN1"}
    for other, identifier in one_bit_turned(made):
        if identifier in curves:
            kinds.append((other, curves[identifier]))
        elif is_identifier(identifier):
            unsupported.append(other)
    none = [b"", p256[:90], changed(p256, 25, 1),
            # two parameters, an empty identifier, a byte after it
            bytes.fromhex("300f300906032b65700500050003020001"), bytes.fromhex("30083002060003020001"), bytes.fromhex("300b300506032b65700302000100"),
            b"key"]
    return kinds, unsupported, none


def keys(table, schemes):
    table.note("key_kind SPKI, try_from_der SPKI, try_from_spki SPKI. Keys that OpenSSL made: RFC 5480, RFC 8017, RFC 8410")
    kinds, unsupported, none = spkis(made_keys())
    for spki, scheme in kinds:
        table.case(f"key_kind {spki.hex()}", f"ok {scheme}")
        table.case(f"try_from_der {spki.hex()}", f"ok {scheme} {spki.hex()}")
        table.case(f"try_from_spki {spki.hex()}", f"ok {scheme} {spki.hex()}")
    for spki in unsupported:
        table.case(f"key_kind {spki.hex()}", "Unsupported")
    for spki in unsupported[:6]:
        table.case(f"try_from_der {spki.hex()}", "PublicKeyUnsupportedAlgorithmError")
        table.case(f"try_from_spki {spki.hex()}", "PublicKeyUnsupportedAlgorithmError")
    for spki in none:
        table.case(f"key_kind {hexed(spki)}", "NoKeyInfo")
        table.case(f"try_from_der {hexed(spki)}", "KeyParsingError")
        table.case(f"try_from_spki {hexed(spki)}", "KeyParsingError")
    table.note("from_der SCHEME DER: a key of this scheme, whatever the DER is")
    for name in schemes:
        table.case(f"from_der {name} {b'key'.hex()}", f"ok {name} {b'key'.hex()}")


def is_identifier(contents):
    """Whether contents octets are those of an object identifier: X.690 section 8.19.2."""
    start = True
    for octet in contents:
        if start and octet == 0x80:
            return False
        start = octet < 0x80
    return start


def signatures(table):
    table.note("decode_bytes raw|base64 SIGNATURE: the bytes, of a text in base64 that may be in lines")
    table.case(f"decode_bytes raw {b'c2 ln'.hex()}", "ok " + b"c2 ln".hex())
    table.case("decode_bytes raw -", "ok -")
    for text, data in [(b"", b""), (b"c2ln", b"sig"), (b"c2lnbg==", b"sign"), (b"c2\nln\n", b"sig"), (b"c2\r\nlnb\r\ng==\r\n", b"sign"), (b"\n\r", b"")]:
        table.case(f"decode_bytes base64 {hexed(text)}", "ok " + hexed(data))
    for text in [b"c2lnbg", b"c2lnbh==", b"c2 ln", b"c2ln=", b"-_-_", b"\xff\xff\xff\xff", b"c2\tln", b"c2lnbg==\nc2ln", b"c2lnbg\n=\n"]:
        table.case(f"decode_bytes base64 {hexed(text)}", "Base64DecodeError")


def checks(table):
    table.note("key_accepts SCHEME KEY SIGNATURE MESSAGE and rows; verify_signature and verify_prehash SCHEME KEY FORM SIGNATURE MESSAGE and rows")
    key, other, msg, sig = b"key".hex(), b"yek".hex(), b"msg".hex(), b"sig".hex()
    row = f"message ECDSA_P256_SHA256_ASN1 {key} {msg} {sig}"
    for scheme, k, s, m, fits in [("ECDSA_P256_SHA256_ASN1", key, sig, msg, True), ("ED25519", key, sig, msg, False),
                                  ("ECDSA_P256_SHA256_ASN1", other, sig, msg, False), ("ECDSA_P256_SHA256_ASN1", key, msg, sig, False),
                                  ("ECDSA_P256_SHA256_ASN1", key, sig, "-", False)]:
        verdict = "ok" if fits else "PublicKeyVerificationError"
        table.case(f"key_accepts {scheme} {k} {s} {m} {row}", "ok " + ("true" if fits else "false"))
        table.case(f"verify_signature {scheme} {k} raw {s} {m} {row}", verdict)
        text = base64.b64encode(bytes.fromhex(s))
        lines = text[:2] + b"\n" + text[2:]
        table.case(f"verify_signature {scheme} {k} base64 {hexed(lines)} {m} {row}", verdict)
        table.case(f"verify_prehash {scheme} {k} raw {s} {m} {row}", "PublicKeyVerificationError")
        prehash = row.replace("message", "prehash")
        table.case(f"verify_prehash {scheme} {k} raw {s} {m} {prehash}", verdict)
        table.case(f"verify_prehash {scheme} {k} base64 {hexed(text)} {m} {prehash}", verdict)
        table.case(f"verify_signature {scheme} {k} raw {s} {m} {prehash}", "PublicKeyVerificationError")
    for call in ["verify_signature", "verify_prehash"]:
        table.case(f"{call} ED25519 {key} base64 {b'c2l'.hex()} {msg} {row}", "Base64DecodeError")
        table.case(f"{call} ED25519 {key} base64 {b'c2ln!'.hex()} {msg} {row}", "Base64DecodeError")
    table.note("keys SOUGHT and names, schemes and keys: the last key of the name")
    listed = "a ECDSA_P256_SHA256_ASN1 01 b ECDSA_P521_SHA512_ASN1 02 a ED25519 03"
    for sought, found in [("a", "ok ED25519 03"), ("b", "ok ECDSA_P521_SHA512_ASN1 02"), ("c", "None"), ("-", "None")]:
        table.case(f"keys {sought} {listed}", found)
    table.case("keys a", "None")


def rows(table, schemes):
    keys(table, schemes)
    signatures(table)
    checks(table)
