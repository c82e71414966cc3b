"""Which signatures of a list of `sigverify questions` are genuine: OpenSSL says so, by Python's package cryptography.

`is_genuine` is what a caller of this module has to trust. It is true for a row only if the library verified the row's
signature over the row's message, under the row's key, in one of the ways below. It is false for a key under which
anybody can sign: RSA of few bits or with an exponent that RFC 8017 does not allow, and a point of small order; and for an
RSA key whose exponent is so long that each signature would take milliseconds.
"""
import base64
import collections
import functools
import sys


def unloaded(error):
    """What is said where the package cannot be loaded: it is not installed, it is an older one, or its files
    cannot be read, for example without memory."""
    said = f"Python's package cryptography cannot be loaded: {error}"
    if isinstance(error, ModuleNotFoundError):
        return f"{said}; apt-get install python3-cryptography, of version 38 or later"
    return f"{said}; it has to be of version 38 or later" if "cannot import name" in str(error) else said


try:
    from cryptography.exceptions import InvalidSignature, UnsupportedAlgorithm
    from cryptography.hazmat.primitives.asymmetric.ec import ECDSA, SECP256R1, EllipticCurvePublicKey
    from cryptography.hazmat.primitives.asymmetric.ed25519 import Ed25519PublicKey
    from cryptography.hazmat.primitives.asymmetric.padding import MGF1, PSS, PKCS1v15
    from cryptography.hazmat.primitives.asymmetric.rsa import RSAPublicKey
    from cryptography.hazmat.primitives.asymmetric.utils import Prehashed
    from cryptography.hazmat.primitives.hashes import SHA256, SHA384, SHA512
    from cryptography.hazmat.primitives.serialization import Encoding, PublicFormat, load_der_public_key
except ImportError as failed:
    sys.exit(unloaded(failed))


# How signatures are made: under which kinds of key, with which hash, and of RSA with which padding.

Way = collections.namedtuple("Way", "kinds hash padding")


def pss(chosen):
    """RSASSA-PSS whose mask is made with the same hash, and whose salt has its length."""
    return PSS(mgf=MGF1(chosen), salt_length=chosen.digest_size)


# By the names that the operations `message` and `prehash` have for them.
SCHEMES = {
    "ECDSA_P256_SHA256_ASN1": Way(["secp256r1"], SHA256(), None),
    "ECDSA_P384_SHA384_ASN1": Way(["secp384r1"], SHA384(), None),
    "ECDSA_P521_SHA512_ASN1": Way(["secp521r1"], SHA512(), None),
    "ED25519": Way(["ed25519"], None, None),
    "RSA_PKCS1_SHA256": Way(["rsa"], SHA256(), PKCS1v15()),
    "RSA_PSS_SHA256": Way(["rsa"], SHA256(), pss(SHA256())),
}


def der(tag, *parts):
    content = b"".join(parts)
    return bytes([tag, len(content)]) + content


def identifier(oid, *parameters):
    return der(0x30, der(0x06, bytes.fromhex(oid)), *parameters)


def algorithms():
    """By the AlgorithmIdentifiers of certificates, in DER: RFC 8410, RFC 5758, and RFC 4055, there with NULL or no
    parameters of the hash."""
    found = {identifier("2b6570"): Way(["ed25519"], None, None)}
    for place, chosen in enumerate([SHA256(), SHA384(), SHA512()]):
        found[identifier(f"2a8648ce3d04030{2 + place}")] = Way(["secp256r1", "secp384r1", "secp521r1"], chosen, None)
        for parameters in [], [der(0x05)]:
            found[identifier(f"2a864886f70d01010{11 + place:x}", *parameters)] = Way(["rsa"], chosen, PKCS1v15())
            inner = identifier(f"60864801650304020{1 + place}", *parameters)
            mask, salt = identifier("2a864886f70d010108", inner), der(0x02, bytes([chosen.digest_size]))
            outer = der(0x30, der(0xA0, inner), der(0xA1, mask), der(0xA2, salt))
            found[identifier("2a864886f70d01010a", outer)] = Way(["rsa"], chosen, pss(chosen))
    return found


ALGORITHMS = algorithms()


# What is a key. Under each of those that are not, anybody can sign, or to verify takes long.

LEAST_RSA_BITS = 2048
MOST_EXPONENT_BITS = 64  # the most that OpenSSL takes of a modulus of more than 3,072 bits
FIELD = 2 ** 255 - 19  # of Ed25519, RFC 8032 section 5.1, whose curve is -x^2 + y^2 = 1 + D x^2 y^2
D = -121665 * pow(121666, -1, FIELD) % FIELD


def is_rsa(numbers):
    """RFC 8017 section 3.1: an exponent from 3 to n - 1, and odd, as all that have no factor with an even number in
    common are; and a modulus of enough bits, odd, as the product of odd primes. The exponent is not a long one."""
    return (numbers.n.bit_length() >= LEAST_RSA_BITS and numbers.n % 2 == 1
            and 3 <= numbers.e < numbers.n and numbers.e % 2 == 1 and numbers.e.bit_length() <= MOST_EXPONENT_BITS)


def has_small_order(encoding):
    """Whether eight times the point of Ed25519 is the neutral element, by its coordinate y, however it is encoded. Such
    points have y 1 or -1 (order 1 and 2), 0 (order 4), or are of order 8: doubled they have y 0, so y^2 is -x^2."""
    y = int.from_bytes(encoding, "little") % 2 ** 255 % FIELD
    return y * (y ** 2 - 1) * (D * y ** 4 + 2 * y ** 2 - 1) % FIELD == 0


def kind_of(key):
    if isinstance(key, EllipticCurvePublicKey):
        return key.curve.name
    if isinstance(key, RSAPublicKey) and is_rsa(key.public_numbers()):
        return "rsa"
    if isinstance(key, Ed25519PublicKey) and not has_small_order(key.public_bytes(Encoding.Raw, PublicFormat.Raw)):
        return "ed25519"
    return None


# The SubjectPublicKeyInfo of an uncompressed point of P-256, RFC 5480 section 2, up to the point.
P256_HEAD = bytes.fromhex("3059301306072a8648ce3d020106082a8648ce3d030107034200")
MOST_KEYS = 256  # that are kept: those of authorities and logs are those of many requests, and to read one takes a millisecond


@functools.lru_cache(MOST_KEYS)
def spki_key(spki):
    if len(spki) == len(P256_HEAD) + 65 and spki.startswith(P256_HEAD):
        return point_key(spki[len(P256_HEAD):])
    key = load_der_public_key(spki)
    if key.public_bytes(Encoding.DER, PublicFormat.SubjectPublicKeyInfo) != spki:
        raise ValueError("bytes that the library passes over")
    return key


@functools.lru_cache(MOST_KEYS)
def point_key(point):
    if point[:1] != b"\x04":
        raise ValueError("not an uncompressed point")
    return EllipticCurvePublicKey.from_encoded_point(SECP256R1(), point)


# Which rows are accepted.

def is_signed(way, key, message, signature, is_digest=False):
    """Whether the library verifies the signature; it raises InvalidSignature where it does not. A digest is the
    artifact's SHA-256, which an elliptic curve of any size signs as it is; Ed25519 does not sign a digest."""
    if kind_of(key) not in way.kinds or is_digest and way.hash is None:
        return False
    chosen = Prehashed(SHA256()) if is_digest else way.hash
    if chosen is None:
        key.verify(signature, message)
    elif way.padding is None:
        key.verify(signature, message, ECDSA(chosen))
    else:
        key.verify(signature, message, way.padding, chosen)
    return True


def is_genuine(row):
    """Whether the library verified the row's signature, in one of the ways above. What it cannot read is not genuine."""
    operation, scheme = row["operation"], row.get("scheme")
    key, message, signature = [base64.b64decode(row[name], validate=True) for name in ("key", "message", "signature")]
    try:
        if operation == "message":
            return is_signed(SCHEMES[scheme], spki_key(key), message, signature)
        if operation == "prehash":
            return is_signed(SCHEMES[scheme], spki_key(key), message, signature, is_digest=True)
        if operation == "point" and scheme is None:
            return is_signed(SCHEMES["ECDSA_P256_SHA256_ASN1"], point_key(key), message, signature)
        if operation == "certificate":
            way = ALGORITHMS[base64.b64decode(scheme, validate=True)]
            return is_signed(way, spki_key(key), message, signature)
    except (InvalidSignature, UnsupportedAlgorithm, KeyError, TypeError, ValueError):
        pass
    return False
