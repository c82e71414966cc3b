"""Requests of `verify` whose trusted root has many of one kind: each a function from a count to the bytes."""
from shapes import coded, numbered
from signed import Signed, unknown, written

import fixture
from fixture import certificate, der, extension, leaf
from x509_paths import inter

FAR = "fixture root" + "n" * 1000  # a name that agrees with no issuer's in its last bytes


def with_anchors(made, anchors):
    """The made trusted root with these trust anchors before its own."""
    root = made.trusted_root()
    chain = root["certificateAuthorities"][0]["certChain"]["certificates"]
    chain[:0] = [{"rawBytes": coded(certificate(anchor))} for anchor in anchors]
    return root


def keys(count):
    """This many keys of P-256 whose points share a prefix, in no order."""
    prefix = fixture.key(9)[:-4]
    return list(numbered(prefix, count))


def one_name(count):
    """A leaf, and this many trust anchors and intermediates of its issuer's name, each with its own key and its length in
    two bytes before it; none signed another."""
    listed = [certificate(leaf()), *(certificate(fixture.anchor(key=key)) for key in keys(2 * count))]
    return b"".join(len(each).to_bytes(2, "big") + each for each in listed)


def turned(content):
    """The bytes with a different last one."""
    return content[:-1] + bytes([content[-1] ^ 1])


def anchors_and_rows(count):
    """Trust anchors of the issuer's name and other keys, each with a row of the leaf's signature over other bytes."""
    made, others = fixture.Request(), keys(count)
    first = made.accepted()[0]
    other = coded(turned(fixture.tbs(made.leaf)))
    rows = [{**first, "key": coded(key), "message": other} for key in others]
    return written(made, with_anchors(made, (fixture.anchor(key=key) for key in others)), rows=rows + made.accepted())


def anchors_of_one_key(count):
    """Trust anchors of the issuer's name and one other key, a leaf of a hundred bytes for each of them, and a row under
    that key whose message differs from the leaf's TBSCertificate in its last byte."""
    made = Signed(fixture.leaf_extensions(others=extension(unknown(0), b"v" * (100 * count))))
    first = made.accepted()[0]
    row = {**first, "key": coded(fixture.key(9)), "message": coded(turned(fixture.tbs(made.leaf)))}
    root = with_anchors(made, [fixture.anchor(key=fixture.key(9))] * count)
    return written(made, root, rows=[row] + made.accepted())


def anchors_of_other_keys(count):
    """Trust anchors of the issuer's name and other keys, a leaf whose signature has a hundred bytes for each of them,
    and a row of that signature under a key that no anchor has."""
    signature = b"s" * (100 * count)
    made = fixture.Request(leaf=leaf(signature=der(fixture.BIT_STRING, b"\x00", signature)))
    first, *others = made.accepted()
    first = {**first, "signature": coded(signature)}
    rows = [{**first, "key": coded(turned(fixture.key(9)))}, first, *others]
    return written(made, with_anchors(made, (fixture.anchor(key=key) for key in keys(count))), rows=rows)


def anchors_over_intermediates(count):
    """Trust anchors of one name and other keys, each of which may have signed each of 16 intermediates, of which the last
    signed the leaf; a row for each anchor, of the last one's signature over other bytes."""
    signer, *others = [inter("a", "fixture root", under) for under in range(100, 116)]
    later = [certificate(each) for each in [*others, signer]]
    made, other = fixture.ChainRequest([signer], later, leaf=leaf(issuer=fixture.name("a"))), coded(turned(fixture.tbs(signer)))
    *first, last = made.accepted()
    rows = [{**last, "key": coded(key), "message": other} for key in keys(count)]
    return written(made, with_anchors(made, (fixture.anchor(key=key) for key in keys(count))), rows=[*rows, *first, last])


def anchors_by_name(count):
    """Trust anchors whose names share all bytes except the last with the leaf's issuer."""
    issuer = fixture.name(FAR)
    made = fixture.Request(anchor=fixture.anchor(subject=issuer), leaf=leaf(issuer=issuer))
    names = [fixture.name(FAR[:-8] + "%08d" % place) for place in range(count)]
    return written(made, with_anchors(made, (fixture.anchor(subject=name) for name in names)))


def authorities(count):
    """As many authorities, with a trust anchor of another name each."""
    made = fixture.Request()
    root = made.trusted_root()
    other = certificate(fixture.anchor(subject=fixture.name("fixture r00t")))
    chain = {"certificates": [{"rawBytes": coded(other)}]}
    listed = [{"certChain": chain, "validFor": {"start": "2023-01-01T00:00:00Z"}}] * count
    return written(made, {**root, "certificateAuthorities": listed + root["certificateAuthorities"]})


def log_of(key, identifier, **valid_for):
    opened = {"start": "2023-01-01T00:00:00Z", **valid_for}
    return {"publicKey": {"rawBytes": coded(key), "validFor": opened}, "logId": {"keyId": coded(identifier)}}


def log_keys(count, size=1000):
    """Keys of logs whose ids share this many bytes with the entry's."""
    made = fixture.Request(log_id=b"\x44" * size)
    root = made.trusted_root()
    others = [log_of(fixture.key(9), identifier) for identifier in numbered(b"\x44" * (size - 4), count)]
    return written(made, {**root, "tlogs": others + root["tlogs"]})


def usual_log_keys(count):
    """Keys of logs whose ids have 32 bytes, as those of Sigstore."""
    return log_keys(count, size=32)


def log_keys_of_one_id(count):
    """Keys of the entry's log; the last in range is the one."""
    made = fixture.Request()
    root = made.trusted_root()
    others = [log_of(key, fixture.LOG_ID) for key in keys(count)]
    return written(made, {**root, "tlogs": others + root["tlogs"]})


def certificate_log_keys(count):
    made = fixture.Request()
    root = made.trusted_root()
    others = [log_of(key, fixture.CERTIFICATE_LOG_ID) for key in keys(count)]
    return written(made, {**root, "ctlogs": others + root["ctlogs"]})
