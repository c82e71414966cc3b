"""Bundles read by the table of the format: an absent member and null mean an empty text, no bytes, 0, no elements, or nothing."""
import base64
import binascii
import json
import re

from fixture import base64_of, compact


class Refused(Exception):
    pass


def ask(holds):
    if not holds:
        raise Refused("Member")


def text(value):
    ask(value is None or isinstance(value, str))
    return value or ""


def octets(value):
    try:
        decoded = base64.b64decode(text(value).encode(), validate=True)
    except (binascii.Error, UnicodeError):
        raise Refused("Member")
    ask(base64_of(decoded) == text(value))
    return text(value)


def integer(value):
    """A whole number of 64 bits with a sign, or a text of one; written as a text."""
    value = 0 if value is None else value
    if isinstance(value, str):
        ask(re.fullmatch(r"-?[0-9]+", value))
        value = int(value)
    ask(isinstance(value, int) and not isinstance(value, bool) and -2 ** 63 <= value < 2 ** 63)
    return str(value)


def element(value, members):
    """An object with these readers of its members."""
    ask(isinstance(value, dict))
    read = {name: reader(value.get(name)) for name, reader in members.items()}
    return {name: each for name, each in read.items() if each is not None}


def optional(members):
    return lambda value: None if value is None else element(value, members)


def elements(reader):
    def read(value):
        ask(value is None or isinstance(value, list))
        ask(all(each is not None for each in value or []))
        return [reader(each) for each in value or []]
    return read


def objects(members):
    return elements(lambda value: element(value, members))


CERTIFICATE = {"rawBytes": octets}
PROOF = {"logIndex": integer, "treeSize": integer, "rootHash": octets, "hashes": elements(octets),
         "checkpoint": optional({"envelope": text})}
ENTRY = {"logIndex": integer, "integratedTime": integer, "logId": optional({"keyId": octets}),
         "kindVersion": optional({"kind": text, "version": text}),
         "inclusionPromise": optional({"signedEntryTimestamp": octets}), "inclusionProof": optional(PROOF),
         "canonicalizedBody": octets}
MATERIAL = {"certificate": optional(CERTIFICATE), "x509CertificateChain": optional({"certificates": objects(CERTIFICATE)}),
            "publicKey": optional({}), "tlogEntries": objects(ENTRY)}
SIGNATURE = {"signature": octets, "messageDigest": optional({"digest": octets})}
ENVELOPE = {"payload": octets, "payloadType": text, "signatures": objects({"sig": octets, "keyid": text})}
BUNDLE = {"mediaType": text, "verificationMaterial": optional(MATERIAL), "messageSignature": optional(SIGNATURE),
          "dsseEnvelope": optional(ENVELOPE)}


class Float:
    pass


def has_float(tree):
    if isinstance(tree, dict):
        tree = list(tree.values())
    return isinstance(tree, Float) or isinstance(tree, list) and any(map(has_float, tree))


def read_bundle(content):
    """The text that is written for a bundle, or the name of the refusal."""
    try:
        tree = json.loads(content, parse_float=lambda _: Float())
    except ValueError:
        return "NotJson"
    if has_float(tree):
        return "Float"
    try:
        bundle = element(tree, BUNDLE)
        ask("messageSignature" not in bundle or "dsseEnvelope" not in bundle)
        material = bundle.get("verificationMaterial", {})
        ask(len({"certificate", "x509CertificateChain", "publicKey"} & set(material)) < 2)
    except Refused as refusal:
        return str(refusal)
    return "ok " + compact(bundle, canonical=True)
