"""Rows of x509_cases of two certificates of Sigstore, and the SCT of one. Where their parts are, OpenSSL said (`openssl asn1parse`)."""
import base64

import fixture
from fixture import sha256, spelled
from x509_calls import answer, case, group, leaf_with
from x509_reader import cut, read_certificate, read_or_none


# The two certificates of Sigstore, and the log's SCT.

def of(text):
    return base64.b64decode("".join(text.split()))


LEAF = of("""
    MIICzDCCAlGgAwIBAgIUF96OLbM9/tDVHKCJliXLTFvnfjAwCgYIKoZIzj0EAwMw
    NzEVMBMGA1UEChMMc2lnc3RvcmUuZGV2MR4wHAYDVQQDExVzaWdzdG9yZS1pbnRl
    cm1lZGlhdGUwHhcNMjMxMjEzMDU1MDU1WhcNMjMxMjEzMDYwMDU1WjAAMFkwEwYH
    KoZIzj0CAQYIKoZIzj0DAQcDQgAEmir+Lah2291zCsLkmREQNLzf99z571BNB+fa
    rerSLGzcwLFK7GRLTGYcO0oStxCYavxRQPMo3JvB8vGtZbn/76OCAXAwggFsMA4G
    A1UdDwEB/wQEAwIHgDATBgNVHSUEDDAKBggrBgEFBQcDAzAdBgNVHQ4EFgQU8U9M
    t9GMrRm8+gifPtc63nlP3OIwHwYDVR0jBBgwFoAU39Ppz1YkEZb5qNjpKFWixi4Y
    ZD8wGwYDVR0RAQH/BBEwD4ENYXNjQHRldHN1by5zaDAsBgorBgEEAYO/MAEBBB5o
    dHRwczovL2dpdGh1Yi5jb20vbG9naW4vb2F1dGgwLgYKKwYBBAGDvzABCAQgDB5o
    dHRwczovL2dpdGh1Yi5jb20vbG9naW4vb2F1dGgwgYkGCisGAQQB1nkCBAIEewR5
    AHcAdQDdPTBqxscRMmMZHhyZZzcCokpeuN48rf+HinKALynujgAAAYxhumYsAAAE
    AwBGMEQCIHRRe20lRrNM4xd07mpjTtgaE6FGS3jjF++zW8ZMnth3AiAd6LVAAeVW
    hSW4T0XJRw9lGU6/EK9+ELZpEjrY03dJ1zAKBggqhkjOPQQDAwNpADBmAjEAiHqK
    W9PQ/5h7VROVIWPaxUo3LhrL2sZanw4bzTDBDY0dRR19ZFzjtAph1RzpQqppAjEA
    plAvxwkAIR2jurboJZ4Zm9rNAx8KvA+A5yQFzNkGgKDLjTJrKmSKoIcWV3j7WfdL""")

INTERMEDIATE = of("""
    MIICGjCCAaGgAwIBAgIUALnViVfnU0brJasmRkHrn/UnfaQwCgYIKoZIzj0EAwMw
    KjEVMBMGA1UEChMMc2lnc3RvcmUuZGV2MREwDwYDVQQDEwhzaWdzdG9yZTAeFw0y
    MjA0MTMyMDA2MTVaFw0zMTEwMDUxMzU2NThaMDcxFTATBgNVBAoTDHNpZ3N0b3Jl
    LmRldjEeMBwGA1UEAxMVc2lnc3RvcmUtaW50ZXJtZWRpYXRlMHYwEAYHKoZIzj0C
    AQYFK4EEACIDYgAE8RVS/ysH+NOvuDZyPIZtilgUF9NlarYpAd9HP1vBBH1U5CV7
    7LSS7s0ZiH4nE7Hv7ptS6LvvR/STk798LVgMzLlJ4HeIfF3tHSaexLcYpSASr1kS
    0N/RgBJz/9jWCiXno3sweTAOBgNVHQ8BAf8EBAMCAQYwEwYDVR0lBAwwCgYIKwYB
    BQUHAwMwEgYDVR0TAQH/BAgwBgEB/wIBADAdBgNVHQ4EFgQU39Ppz1YkEZb5qNjp
    KFWixi4YZD8wHwYDVR0jBBgwFoAUWMAeX5FFpWapesyQoZMi0CrFxfowCgYIKoZI
    zj0EAwMDZwAwZAIwPCsQK4DYiZYDPIaDi5HFKnfxXx6ASSVmERfsynYBiX2X6SJR
    nZU84/9DZdnFvvxmAjBOt6QpBlc4J/0DxvkTCqpclvziL6BCCPnjdlIB3Pu3BxsP
    mygUY7Ii2zbdCdliiow=""")

LOG_KEY = of("""
    MFkwEwYHKoZIzj0CAQYIKoZIzj0DAQcDQgAEiPSlFi0CmFTfEjCUqF9HuCEcYXNK
    AaYalIJmBZ8yyezPjTqhxrKBpMnaocVtLJBI1eM3uXnQzQGAJdJ4gs9Fyw==""")

SCT_SIGNATURE = of("""
    MEQCIHRRe20lRrNM4xd07mpjTtgaE6FGS3jjF++zW8ZMnth3AiAd6LVAAeVWhSW4
    T0XJRw9lGU6/EK9+ELZpEjrY03dJ1w==""")

# Where their parts are, from where to before where, as `openssl asn1parse -inform DER` prints them (d, hl and l of each line): inner algorithm,
# algorithm, issuer, subject, SPKI, TBSCertificate, bits of the signature.
FIELDS = {
    "leaf": (LEAF, (3, 1702446655, 1702447255), "35..47 601..613 47..104 136..138 138..229 4..601 616..720"),
    "intermediate": (INTERMEDIATE, (3, 1649880375, 1948975018), "35..47 425..437 47..91 123..180 180..300 4..425 440..542"),
}

# Of each extension: whether it is critical, and where its identifier's and its value's contents and the whole are.
EXTENSIONS = {
    "leaf": """
        true 241..244 249..253 237..253
        false 257..260 262..274 253..274
        false 278..281 283..305 274..305
        false 309..312 314..338 305..338
        true 342..345 350..367 338..367
        false 371..381 383..413 367..413
        false 417..427 429..461 413..461
        false 466..476 478..601 461..601""",
    "intermediate": """
        true 308..311 316..320 304..320
        false 324..327 329..341 320..341
        true 345..348 353..361 341..361
        false 365..368 370..392 361..392
        false 396..399 401..425 392..425""",
}


def part(content, places):
    first, end = map(int, places.split(".."))
    return content[first:end].hex()


def by_openssl(name):
    """The line for a certificate by the places that OpenSSL printed."""
    content, numbers, fields = FIELDS[name]
    rows = [line.split() for line in EXTENSIONS[name].strip().splitlines()]
    found = [[part(content, oid), critical, part(content, value), part(content, whole)] for critical, oid, value, whole in rows]
    return answer(*numbers, *[part(content, each) for each in fields.split()], len(rows), *sum(found, []))


def flipped(content, mask):
    places, texts = [], ""
    for place in range(len(content)):
        other = bytearray(content)
        other[place] ^= mask
        text = read_or_none(bytes(other))
        if text:
            places.append(place)
            texts += text
    return answer(*places, sha256(texts.encode()).hex())


def extension_line(content, index):
    """The line for the extension at this index of a certificate."""
    fields = read_certificate(content).split(" ")[11:]
    return answer(*fields[4 * index + 1:4 * index + 5]) if index < int(fields[0]) else "none"


def extension_at(cause, content, index):
    case(cause, "extension_at %d %s" % (index, spelled(content)), extension_line(content, index))


def real_certificates():
    for name, (content, _, _) in FIELDS.items():
        group("the %s of a signature of December 2023, made by Sigstore" % name)
        line = by_openssl(name)
        assert line == read_certificate(content)
        case("its parts are where OpenSSL says", "certificate " + spelled(content), line)
        case("as PEM", "der_to_pem " + spelled(content), answer('"%s"' % fixture.pem(content).replace("\n", "\\n")))
        case("no shorter and no longer text is a certificate", "cut " + spelled(content), answer(len(content)))
        for mask in [0x01, 0x02, 0x20, 0x80, 0xFF]:
            case("flipped in each byte: %02x" % mask, "flipped %02x %s" % (mask, spelled(content)), flipped(content, mask))
    group("its extensions by their object identifiers")
    for cause, oid, expected in [
            ("the subject alternative name", "2.5.29.17", answer("551d11", "true", (b"\x30\x0f\x81\x0dasc@tetsuo.sh").hex(), part(LEAF, "338..367"))),
            ("the SCT list", "1.3.6.1.4.1.11129.2.4.2", answer("2b06010401d679020402", "false", part(LEAF, "478..601"), part(LEAF, "461..601"))),
            ("name constraints", "2.5.29.30", "ok absent"), ("basic constraints", "2.5.29.19", "ok absent"),
            ("an object identifier one number shorter", "1.3.6.1.4.1.11129.2.4", "ok absent")]:
        case(cause, "extension %s %s" % (fixture.oid(oid).hex(), spelled(LEAF)), expected)
    case("one twice", "extension 551d0f " + spelled(fixture.certificate(leaf_with("", "second-usage=03020780"))), "ok several")
    group("its extensions by their indices")
    for index in [*range(9), 2 ** 64 - 1]:
        extension_at("extension %d of 8" % index, LEAF, index)
    for index in [0, 1, 2 ** 64 - 1]:
        extension_at("extension %d of none" % index, fixture.certificate({**leaf_with(), "extensions": b""}), index)


def profiles():
    group("their profiles, and when the leaf is trusted")
    for call, content, expected in [
            ("is_leaf", LEAF, "ok"), ("is_ca", LEAF, "Extension(Missing(BasicConstraints))"),
            ("is_root_ca", LEAF, "Extension(Missing(BasicConstraints))"), ("is_leaf", INTERMEDIATE, "NotLeaf(IsCA)"),
            ("is_ca", INTERMEDIATE, "ok"), ("is_root_ca", INTERMEDIATE, "NotCA(NotRootCA)"),
            ("verify_has_san", LEAF, "ok"), ("verify_has_san", INTERMEDIATE, "CertificateWithoutSubjectAlternativeName"),
            ("verify_key_usages", LEAF, "ok"),
            ("verify_key_usages", INTERMEDIATE, "CertificateWithoutDigitalSignatureKeyUsage")]:
        case(call, "%s %s" % (call, spelled(content)), expected)
    too_late = "CertificateIssuedAfterSignaturesSubmittedToRekor { integrated_time: 1702447256, not_after: 1702447255 }"
    too_early = "CertificateExpiredBeforeSignaturesSubmittedToRekor { integrated_time: 1702446654, not_before: 1702446655 }"
    for call, expected in [
            ("is_trusted 1702446655 1702446655", "ok"), ("is_trusted 1702447255 1702500000", "ok"),
            ("is_trusted 1702447256 1702500000", too_late), ("verify_expiration 1702447255", "ok"),
            ("verify_expiration 1702447256", too_late), ("verify_expiration 1702446655", "ok"), ("verify_expiration 1702446654", too_early),
            ("verify_validity 1702446655", "ok"),
            ("verify_validity 1702446654", "CertificateValidityError(1702446655)")]:
        case(call, "%s %s" % (call, spelled(LEAF)), expected)


def real_sct():
    """The leaf's SCT (RFC 6962 section 3.2). OpenSSL takes its signature for genuine over these bytes under the log's key."""
    body = fixture.tbs(dict(zip(fixture.TBS_PARTS, without_list(LEAF))))
    issuer = INTERMEDIATE[180:300]
    message = fixture.signed_by_log(issuer, body, time=1702446655020)
    assert len(body) == 455 and len(message) == 504 and message.endswith(b"\x00\x00")
    assert message[:12].hex() == "00000000018c61ba662c0001" and message[44:47].hex() == "0001c7"
    assert sha256(issuer).hex() == "c355ee53d69e68aade04e5c6cc202cfac11fbcaa67e9a2ba7a64ced2aec8ccd0"
    log_id = sha256(LOG_KEY)
    assert log_id.hex() == "dd3d306ac6c7113263191e1c99673702a24a5eb8de3cadff878a72802f29ee8e"
    group("the leaf's SCT, the TBSCertificate that its log saw, and the log's key")
    case("the TBSCertificate of the precertificate", "precert_tbs_der " + spelled(LEAF), answer(body.hex()))
    fields = answer(log_id.hex(), 1702446655020, sha256(issuer).hex(), body.hex(), "-", SCT_SIGNATURE.hex())
    case("by the issuer's SPKI", "embedded_sct %s %s" % (spelled(LEAF), spelled(issuer)), fields)
    case("by the chain of the intermediate", "embedded_sct_of_chain %s %s" % (spelled(LEAF), spelled(INTERMEDIATE)), fields)
    case("by no chain", "embedded_sct_of_chain %s -" % spelled(LEAF), "Parsing(IssuerMissing)")
    case("by itself", "embedded_sct_of_chain %s %s" % (spelled(LEAF), spelled(LEAF)), "Parsing(IssuerMissing)")


def changed_sct():
    """Whether the log's key vouches for the leaf's SCT: with a field changed, and with lengths that have no encoding."""
    body, issuer, log_id = fixture.tbs(dict(zip(fixture.TBS_PARTS, without_list(LEAF)))), INTERMEDIATE[180:300], sha256(LOG_KEY)
    message = fixture.signed_by_log(issuer, body, time=1702446655020)
    genuine = "point %s %s %s" % (spelled(LOG_KEY[26:]), spelled(message), spelled(SCT_SIGNATURE))
    group("whether the log's key vouches for the SCT, with a field changed")
    failed, unknown = "Verification(VerificationFailed)", "Verification(KeyNotFound)"
    for field, value, expected in [
            (None, None, "ok"), (1, "1702446655021", failed), (1, "1702446655019", failed), (2, "07*32", failed),
            (2, spelled(bytes([sha256(issuer)[0] ^ 1]) + sha256(issuer)[1:]), failed), (3, b"body".hex(), failed),
            (3, spelled(body[:-1]), failed), (4, "00", failed), (5, "-", failed), (5, spelled(SCT_SIGNATURE + b"\x00"), failed),
            (0, "07*32", unknown), (0, spelled(log_id[:-1] + bytes([log_id[-1] ^ 1])), unknown)]:
        fields = [spelled(log_id), "1702446655020", spelled(sha256(issuer)), spelled(body), "-", spelled(SCT_SIGNATURE)]
        title = "none" if field is None else ["log", "time", "issuer", "TBSCertificate", "extensions", "signature"][field]
        if field is not None:
            fields[field] = value
        case(title, "verify_sct %s %s %s" % (" ".join(fields), spelled(LOG_KEY), genuine), expected)
        if field is None:
            case("no genuine signature", "verify_sct %s %s" % (" ".join(fields), spelled(LOG_KEY)), failed)
            case("no key", "verify_sct %s - %s" % (" ".join(fields), genuine), unknown)
    group("lengths of TBSCertificate and extensions that have no encoding")
    for size, more, expected in [("16777215", "65535", unknown), ("16777216", "0", "Serialization"), ("0", "65536", "Serialization"),
                                 ("16777215", "65536", "Serialization"), ("16777216", "65535", "Serialization")]:
        sizes = " ".join("00*%s" % each if each != "0" else "-" for each in (size, more))
        case("%s and %s" % (size, more), "verify_sct 07*32 0 07*32 %s - -" % sizes, expected)
    group("a signature under the id of a key")
    for identifier, expected in [(log_id, "ok"), (log_id[:-1] + bytes([log_id[-1] ^ 1]), "KeyNotFound"), (bytes(32), "KeyNotFound")]:
        case(identifier.hex(), "keyring %s %s %s %s %s" % (
            spelled(LOG_KEY), spelled(identifier), spelled(SCT_SIGNATURE), spelled(message), genuine), expected)


def without_list(content):
    """The parts of a TBSCertificate without unique identifiers, without the SCT list."""
    elements = [whole for _, _, whole in cut(cut(cut(content)[0][1])[0][1])]
    return elements[:7] + [b"", fixture.without_scts(elements[7])]
