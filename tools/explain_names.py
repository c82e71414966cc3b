"""The names of errors' variants that explanations show, and those that crates/sig_explanation/specs/Names.antt has.

A name comes with the definition that gives it, as in `checkpoint_name HashLength`: two types of errors may have a variant of one name."""
import json
import pathlib
import re

DEFINITIONS = pathlib.Path(__file__).resolve().parent.parent / "crates/sig_explanation/specs/Names.antt"

# Which definition names what comes after a name in a cause; before the first name there is the error of the library call.
FIRST = ""
AFTER = {FIRST: "offline_name", "Json": "json_name", "TrustRoot": "trust_part_name", "Bundle": "bundle_name", "NoLeaf": "validation_name",
          "NotLeaf": "not_leaf_name", "NotCA": "not_ca_name", "Extension": "extension_name", "BundleProfile": "profile_name",
          "Bundle01Profile": "profile_01_name", "Bundle02Profile": "profile_02_name", "Certificate": "certificate_name", "Sct": "sct_name",
          "Parsing": "parsing_name", "Verification": "keyring_name", "Signature": "signature_name", "ParseCheckpointError": "checkpoint_name",
          "ConsistencyProofError": "merkle_name", "InclusionProofError": "merkle_name", "Policy": "opened_policy_name"}

MEMORY = "memory that runs out is not an explanation: the program ends with status 71"
AUTHORITY = "what an authority lacks: a certificate that signs code is none"
UNSHOWN = {
    **{f"{definition} OutOfMemory": MEMORY for definition in
       ("offline_name", "json_name", "bundle_name", "sct_name", "keyring_name", "opened_policy_name")},
    **{name: AUTHORITY for name in ("validation_name NotCA", "not_ca_name NotCA", "not_ca_name NotRootCA", "not_ca_name Invalid",
                                    "extension_name NotCritical", "part_name BasicConstraints")},
    "parsing_name IssuerMissing": "of a chain without an issuer: here the issuer is found before",
    "keyring_name KeyMalformed": "of a key that is added: those of a trusted root that cannot be read are passed over",
    "keyring_name AlgoUnsupported": "likewise",
    "sct_name Serialization": "a precertificate of 2^24 bytes and more: no request has as many",
}


def defined():
    """Each name, with its definition."""
    return {f"{definition} {name}" for definition, name in re.findall(r'^(\w+_name) .*= codes "(\w+)"$', DEFINITIONS.read_text(encoding="utf-8"), re.M)}


def of_cause(cause, first):
    """The names of a cause that comes after this name."""
    return {f"{AFTER[before]} {name}" for before, name in zip([first, *cause], cause) if before in AFTER}


def names_within(value, first=FIRST):
    """The names that a value shows, rules of a policy after the name of their policy."""
    if isinstance(value, list):
        return {name for each in value for name in names_within(each, first)}
    if not isinstance(value, dict):
        return set()
    found = {name for member, each in value.items() for name in names_within(each, "Policy" if member == "rules" else first)}
    found |= {f"part_name {value['part']}"} if "part" in value else set()
    return found | of_cause(value.get("cause", []), first)


def names_in(line):
    return names_within(json.loads(line))


def shape(value):
    """What an object has, except the values of its members."""
    if isinstance(value, dict):
        return tuple((name, tuple(each) if name == "cause" else each if name in ("link", "part", "state") else shape(each))
                     for name, each in sorted(value.items()))
    return tuple(dict.fromkeys(map(shape, value))) if isinstance(value, list) else ()


def kind_of(line):
    """The kind of an explanation: its link and cause, and the names of its members."""
    return shape(json.loads(line))


def missing(shown):
    """Names that nothing shows, that are shown and said not to be, and that are in no definition."""
    return sorted(defined() - shown - set(UNSHOWN)) + [f"{name}, which is said to be shown nowhere, but is" for name in sorted(shown & set(UNSHOWN))] + [
        f"{name}, since there is no such definition" for name in sorted(set(UNSHOWN) - defined())]
