"""Requests whose keys are as long as fit, each a function from a count to the bytes, with a hundred bytes of key for each: the key of a
trust anchor, of the log of the entries, and of a log's notes."""
import manifests
import shapes
from shapes import NOTE, coded, numbered, signature_line

import fixture
from fixture import BIT_STRING, OBJECT_IDENTIFIER, der, oid

SEQUENCE, NULL = 0x30, 0x05
RSA = der(SEQUENCE, der(OBJECT_IDENTIFIER, oid("1.2.840.113549.1.1.1")), der(NULL))  # RFC 3279 section 2.3.1
SCHEME = "RSA_PKCS1_SHA256"


def long_key(size):
    return der(SEQUENCE, RSA, der(BIT_STRING, b"\0", b"\1" * size))


def of_anchor(count):
    """Bundles with SCTs, which are over the hash of the key of the trust anchor that signed each certificate."""
    return manifests.of_bundles(fixture.Request(anchor=fixture.anchor(key=long_key(100 * count))))


def of_log(left_out=()):
    """Bundles whose log entries are of a log of one long key, without the accepted signatures at these places."""
    def make(count):
        made = fixture.Request(log_key=long_key(100 * count), log_scheme=SCHEME)
        rows = [row for place, row in enumerate(made.accepted()) if place not in left_out]
        return manifests.of_bundles(made, rows=rows)
    return make


def signatures(count):
    """Signatures of a note by a key of a hundred bytes for each, of which the last is accepted."""
    key = coded(b"k" * (100 * count))
    lines = [signature_line(signature) for signature in numbered(b"s" * 66, count)] + [signature_line(b"sig")]
    return shapes.request(key=key, checkpoint=NOTE + "\n" + "\n".join(lines), accepted=[shapes.row(key=key)])
