"""Keys under which anybody can sign: the library verifies what is signed here without a private key, and no row is
genuine."""
import hashlib
import tempfile

from cryptography.exceptions import InvalidSignature
from cryptography.hazmat.primitives import hashes
from cryptography.hazmat.primitives.asymmetric import ed25519, padding, rsa
from cryptography.hazmat.primitives.serialization import Encoding, PublicFormat, load_der_public_key

import signed
from fixture import BIT_STRING, OBJECT_IDENTIFIER, SEQUENCE, der, oid, row
from genuine import has_small_order, is_genuine
from signed import NULL, Signed, Signer, base64_of, identifier
from test_common import run, words_of

MESSAGE = b"a message"
PSS = signed.algorithm("RSA-PSS", "SHA256")


def spki(algorithm, key):
    return der(SEQUENCE, algorithm, der(BIT_STRING, b"\0", key))


# Ed25519, RFC 8032 section 5.1: points as pairs of numbers modulo 2^255 - 19, on -x^2 + y^2 = 1 + d x^2 y^2.

FIELD = 2 ** 255 - 19
ORDER = 2 ** 252 + 27742317777372353535851937790883648493  # of the base point; the curve has eight times as many points
NEUTRAL = 0, 1


def divided(above, below):
    return above * pow(below, FIELD - 2, FIELD) % FIELD


FACTOR = divided(-121665, 121666)


def plus(first, second):
    (x1, y1), (x2, y2) = first, second
    both = FACTOR * x1 * x2 * y1 * y2
    return divided(x1 * y2 + x2 * y1, 1 + both), divided(y1 * y2 + x1 * x2, 1 - both)


def times(count, point):
    total = NEUTRAL
    for bit in bin(count)[2:]:
        total = plus(total, total)
        total = plus(total, point) if bit == "1" else total
    return total


def root(square):
    """A square root, if there is one: FIELD is 5 modulo 8."""
    found = pow(square, (FIELD + 3) // 8, FIELD)
    found = found if found * found % FIELD == square else found * pow(2, (FIELD - 1) // 4, FIELD) % FIELD
    return found if found * found % FIELD == square else None


def point_at(y):
    """The point with this coordinate, if there is one."""
    x = root(divided(y * y - 1, FACTOR * y * y + 1))
    return None if x is None else (x, y)


def small_points():
    """The eight points whose order divides eight: the multiples of one of order eight."""
    for y in range(2, 100):
        point = point_at(y)
        if point is not None:
            small = times(ORDER, point)
            if times(4, small) != NEUTRAL:
                return [times(count, small) for count in range(8)]
    raise AssertionError("no point of order eight")


def encodings(point):
    """Each text of 32 bytes that a reader of the y modulo FIELD, who ignores the sign of 0, takes for the point."""
    x, y = point
    for number in range(y, 2 ** 255, FIELD):
        for sign in [x % 2] if x else [0, 1]:
            yield (number + (sign << 255)).to_bytes(32, "little")


def verifies(key, signature, message, *ways):
    try:
        key.verify(signature, message, *ways)
        return True
    except InvalidSignature:
        return False


def forged(encoding, points):
    """A message and its signature, found by trying: the point R of small order, and the number 0."""
    key = ed25519.Ed25519PublicKey.from_public_bytes(encoding)
    for number in range(100):
        message = b"message %d" % number
        for point in points:
            signature = next(encodings(point)) + bytes(32)
            if verifies(key, signature, message):
                return message, signature
    raise AssertionError("nothing can be signed under this point")


def check_points(results, _):
    points = small_points()
    small = sorted({encoding for point in points for encoding in encodings(point)})
    results.compare("points and encodings", (len(set(points)), len(small)), (8, 14))
    algorithm = identifier("1.3.101.112")
    for encoding in small:
        message, signature = forged(encoding, points)
        for operation, scheme in ("message", "ED25519"), ("certificate", base64_of(algorithm)):
            row_of = row(operation, scheme, spki(algorithm, encoding), message, signature)
            results.compare(f"{operation} under {encoding.hex()}", is_genuine(row_of), False)
    tried = [*range(300), *range(FIELD - 300, 2 ** 255), *[point[1] for point in points]]
    found = {number + sign for number in tried for sign in (0, 1 << 255)
             if has_small_order((number + sign).to_bytes(32, "little"))}
    # Beside those listed: with the other sign, since x is 0 or has both signs, each is listed as well.
    results.compare("small orders", found, {int.from_bytes(encoding, "little") for encoding in small})
    for _ in range(20):
        private = ed25519.Ed25519PrivateKey.generate()
        raw = private.public_key().public_bytes(Encoding.Raw, PublicFormat.Raw)
        row_of = row("message", "ED25519", spki(algorithm, raw), MESSAGE, private.sign(MESSAGE))
        results.compare("a genuine row of Ed25519", is_genuine(row_of), True)


# RSA, RFC 8017: signatures by the exponents 1 and powers of two, whose roots can be found with the factors.

def rsa_spki(modulus, exponent):
    def integer(number):
        return der(0x02, number.to_bytes(number.bit_length() // 8 + 1, "big"))
    key = der(SEQUENCE, integer(modulus), integer(exponent))
    return spki(identifier("1.2.840.113549.1.1.1", NULL), key)


def pkcs1_encoding(message, size):
    """EMSA-PKCS1-v1_5 with SHA-256, section 9.2."""
    digest = der(SEQUENCE, identifier("2.16.840.1.101.3.4.2.1", NULL), der(0x04, hashlib.sha256(message).digest()))
    return b"\x00\x01" + b"\xff" * (size - 3 - len(digest)) + b"\x00" + digest


def pss_encoding(message, size):
    """EMSA-PSS with SHA-256 and a salt of 32 bytes, section 9.1.1, for a modulus whose first bit is set."""
    salt = bytes(32)
    hashed = hashlib.sha256(bytes(8) + hashlib.sha256(message).digest() + salt).digest()
    block = bytes(size - 66) + b"\x01" + salt
    counted = b"".join(hashlib.sha256(hashed + bytes([0, 0, 0, at])).digest() for at in range(size // 32 + 1))
    masked = bytes(one ^ other for one, other in zip(block, counted))
    return bytes([masked[0] & 0x7F]) + masked[1:] + hashed + b"\xbc"


def factors():
    """Two primes, 3 modulo 4, of a modulus of 2,048 bits: there the squares have roots by every power of two."""
    while True:
        numbers = rsa.generate_private_key(65537, 2048).private_numbers()
        if numbers.p % 4 == numbers.q % 4 == 3:
            return numbers.p, numbers.q


def rooted(primes, exponent, encoded):
    """A message with this encoding, and its signature: the encoding's root by the exponent."""
    p, q = primes
    for number in range(1000):
        message = b"message %d" % number
        value = int.from_bytes(encoded(message, 256), "big")
        if exponent == 1 or pow(value, (p - 1) // 2, p) == pow(value, (q - 1) // 2, q) == 1:
            power = pow(exponent, -1, (p - 1) * (q - 1) // 4)
            return message, pow(value, power, p * q).to_bytes(256, "big")
    raise AssertionError("no square")


def compare_exponent(results, primes, exponent, is_key):
    """Whether signatures by the exponent are genuine, which the library verifies."""
    key = rsa_spki(primes[0] * primes[1], exponent)
    certified = base64_of(identifier("1.2.840.113549.1.1.11", NULL))
    salted = padding.PSS(mgf=padding.MGF1(signed.SHA256), salt_length=32)
    for encoded, padded, ways in [
            (pkcs1_encoding, padding.PKCS1v15(), [("message", "RSA_PKCS1_SHA256"), ("certificate", certified)]),
            (pss_encoding, salted, [("message", "RSA_PSS_SHA256"), ("certificate", base64_of(PSS))])]:
        message, signature = rooted(primes, exponent, encoded)
        taken = verifies(load_der_public_key(key), signature, message, padded, hashes.SHA256())
        results.compare(f"the library verifies by exponent {exponent}", taken, True)
        for operation, scheme in ways:
            gave = is_genuine(row(operation, scheme, key, message, signature))
            results.compare(f"{operation} by exponent {exponent}, {scheme}", gave, is_key)
    prehashed = row("prehash", "RSA_PKCS1_SHA256", key, hashlib.sha256(message).digest(), signature)
    results.compare(f"prehash by exponent {exponent}, of another encoding", is_genuine(prehashed), False)


def check_exponents(results, _):
    primes = factors()
    modulus = primes[0] * primes[1]
    for exponent in 1, 2, 4, 65536:
        compare_exponent(results, primes, exponent, False)
    # Primes: of 64 bits the largest, of 65 the smallest, and one by which a signature takes some 400 microseconds.
    for exponent, is_key in (2 ** 64 - 59, True), (2 ** 64 + 13, False), (2 ** 521 - 1, False):
        compare_exponent(results, primes, exponent, is_key)
    for exponent in 0, modulus, modulus + 2:
        gave = is_genuine(row("message", "RSA_PKCS1_SHA256", rsa_spki(modulus, exponent), MESSAGE, bytes(256)))
        results.compare(f"exponent {exponent}", gave, False)
    private = rsa.generate_private_key(3, 2048)
    key = private.public_key().public_bytes(Encoding.DER, PublicFormat.SubjectPublicKeyInfo)
    made = private.sign(MESSAGE, padding.PKCS1v15(), hashes.SHA256())
    results.compare("exponent 3", is_genuine(row("message", "RSA_PKCS1_SHA256", key, MESSAGE, made)), True)


def check_infinity(results, _):
    """The point at infinity of P-256, SEC 1 section 2.3.3: under it r has to be the x of z/s times the base point."""
    named = der(OBJECT_IDENTIFIER, oid("1.2.840.10045.3.1.7"))
    key = spki(identifier("1.2.840.10045.2.1", named), b"\0")
    signer = signed.ec.derive_private_key(1, signed.ec.SECP256R1())
    order = 0xFFFFFFFF00000000FFFFFFFFFFFFFFFFBCE6FAADA7179E84F3B9CAC2FC632551
    number = int.from_bytes(hashlib.sha256(MESSAGE).digest(), "big") % order
    made = signed.utils.encode_dss_signature(signer.public_key().public_numbers().x % order, number)
    for operation, under in ("message", key), ("point", b"\0"):
        scheme = "ECDSA_P256_SHA256_ASN1" if operation == "message" else None
        results.compare(f"{operation} at infinity", is_genuine(row(operation, scheme, under, MESSAGE, made)), False)


# Whole bundles, of a signer whose key is the neutral element, and of one by the exponent 1.

class Anybody(Signer):
    def __init__(self, kind):
        super().__init__(kind)
        numbers = None if kind == "Ed25519" else self.private.public_key().public_numbers()
        self.spki = rsa_spki(numbers.n, 1) if numbers else spki(identifier("1.3.101.112"), b"\1" + bytes(31))

    def sign(self, message, chosen=None):
        return b"\1" + bytes(63) if self.kind == "Ed25519" else pkcs1_encoding(message, 256)


def check_anybody(results, program):
    for kind in "Ed25519", "RSA":
        with tempfile.TemporaryDirectory() as folder:
            signed.write(folder, Signed(leaf=Anybody(kind)))
            gave = run(words_of(folder, program))
        results.compare(f"a bundle that anybody signs, {kind}", gave, (1, "refused signature\n", ""))


PARTS = check_points, check_exponents, check_infinity, check_anybody
