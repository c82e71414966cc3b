"""What is wrong with a text that has to be a bundle, or a trusted root: the first member that breaks the table of its format, found only by tables.

A table is a list of rows in the order in which the formats name the members: a name and what its value has to be, or names of which at most one
may be there. Values are read by the second readers that the other tools have; `fault` returns nothing, or the cause and the path inside.
"""
import re

import bundle_reader as bundles
import der_cases as der
import json_documents as documents

BESIDE = None  # as a row's name: of these members at most one is there


def single(reader, is_of_kind=lambda value: False):
    """A value that a reader takes; one that it does not take is beyond its range if it is of the kind, and otherwise of another kind."""
    def fault(value):
        try:
            bundles.ask(value is not None)
            reader(value)
        except bundles.Refused:
            return ("BeyondRange" if is_of_kind(value) else "OtherKind"), ""
    return fault


def is_integer(value):
    return isinstance(value, int) and not isinstance(value, bool) or isinstance(value, str) and re.fullmatch("-?[0-9]+", value)


def list_of(element):
    def fault(value):
        if not isinstance(value, list):
            return "OtherKind", ""
        for place, each in enumerate(value):
            if found := element(each):
                return found[0], "[%d]%s" % (place, found[1])
    return fault


def required(name, kind):
    """The row of a member that has to be there."""
    return name, kind, True


def record(*rows):
    """An object with these members, which are optional except for those of `required`; null is absent."""
    def fault(value):
        if not isinstance(value, dict):
            return "OtherKind", ""
        for name, kind, *is_required in rows:
            there = [each for each in (kind if name is BESIDE else [name]) if value.get(each) is not None]
            if is_required and not there:
                return "Absent", "." + name
            if name is BESIDE and len(there) > 1:
                return "NotAlone", "." + there[1]
            if name is not BESIDE and there and (found := kind(value[name])):
                return found[0], ".%s%s" % (name, found[1])
    return fault


def time_text(value):
    bundles.ask(isinstance(value, str) and der.rfc3339(value) != "none")


TEXT, BYTES, TIME = single(bundles.text), single(bundles.octets), single(time_text)
INTEGER = single(bundles.integer, is_integer)
CERTIFICATE, LOG_ID = record(("rawBytes", BYTES)), record(("keyId", BYTES))
CHAIN = record(("certificates", list_of(CERTIFICATE)))
PROOF = record(("logIndex", INTEGER), ("rootHash", BYTES), ("treeSize", INTEGER), ("hashes", list_of(BYTES)),
               ("checkpoint", record(("envelope", TEXT))))
ENTRY = record(("logIndex", INTEGER), ("logId", LOG_ID), ("kindVersion", record(("kind", TEXT), ("version", TEXT))), ("integratedTime", INTEGER),
               ("inclusionPromise", record(("signedEntryTimestamp", BYTES))), ("inclusionProof", PROOF), ("canonicalizedBody", BYTES))
MATERIAL = record(("certificate", CERTIFICATE), ("x509CertificateChain", CHAIN), ("publicKey", record()),
                  (BESIDE, ["certificate", "x509CertificateChain", "publicKey"]), ("tlogEntries", list_of(ENTRY)))
SIGNATURE = record(("signature", BYTES), ("messageDigest", record(("digest", BYTES))))
ENVELOPE = record(("payload", BYTES), ("payloadType", TEXT), ("signatures", list_of(record(("sig", BYTES), ("keyid", TEXT)))))
BUNDLE = record(("mediaType", TEXT), ("verificationMaterial", MATERIAL), ("messageSignature", SIGNATURE), ("dsseEnvelope", ENVELOPE),
                (BESIDE, ["messageSignature", "dsseEnvelope"]))
RANGE = record(("start", TIME), ("end", TIME))
INSTANCE = record(("publicKey", record(("rawBytes", BYTES), ("validFor", RANGE))), ("logId", LOG_ID))
ROOT = record(("certificateAuthorities", list_of(record(("certChain", CHAIN), ("validFor", RANGE)))), ("tlogs", list_of(INSTANCE)),
              ("ctlogs", list_of(INSTANCE)))


def document_fault(table, content):
    try:
        found = table(documents.tree(content))
    except (documents.NotJson, documents.Float) as refusal:
        return type(refusal).__name__
    return "ok" if found is None else "%s %s" % (found[0], found[1].removeprefix(".") or ".")


def bundle_fault(content):
    return document_fault(BUNDLE, content)


def root_fault(content):
    return document_fault(ROOT, content)
