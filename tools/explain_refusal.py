"""What is shown about only an error: the names of its variants, and what it keeps. Written from docs/LINKS.md, "What is shown of a refusal".

An error is the text that Rust's Debug prints for it, which the second readers of this folder return."""
import rust_debug
from explain_shown import shown
from rust_debug import Variant

# Variants that keep the name of something, which is not a cause.
LAST = ("Missing", "NotCritical", "BitUnset", "DsseSubjectDigestMalformed")


def causes(error):
    """The variants of an error, the outermost first; of a document that is refused the part does not count."""
    inner = [each for each in error.parts if isinstance(each, Variant)] if error.name not in LAST else []
    return [error, *(causes(inner[-1]) if inner else [])]


def names(error):
    return [each.name for each in causes(error)]


# What the innermost variant keeps.

def counted(member):
    return lambda error: {member: str(error.parts[0])}


def numbered(*members):
    return lambda error: {member: str(error.fields[member]) for member in members}


def roots(error):
    return {member: bytes(error.fields[member].fields["root"]).hex() for member in ("expected", "got")}


def part(error):
    return {"part": error.parts[0].name}


def authority(error):
    """Which of the two is set that an authority sets together."""
    return {"set": [name for name, field in (("cA", "ca"), ("keyCertSign", "key_cert_sign")) if error.fields[field]]}


def comparison(error):
    return {name: text for member in ("extension", "expected", "actual") for name, text in shown(member, error.fields[member]).items()}


KEPT = {
    "Anchor": counted("index"), "CertificateMalformed": counted("index"), "TooManyCertificates": counted("count"),
    "DsseInvalidSignatureCount": counted("count"), "DsseTooManySubjects": counted("count"), "DsseTooManySubjectDigests": counted("count"),
    "TlogEntry": counted("count"), "Missing": part, "NotCritical": part, "BitUnset": part, "Invalid": authority,
    "DsseSubjectDigestMalformed": lambda error: {"algorithm": error.parts[0].name.lower()}, "Unknown": lambda error: shown("mediaType", error.parts[0]),
    "RekorPublicKeyNotFoundError": lambda error: shown("logId", error.parts[0]),
    # A checkpoint's hash has a wrong length too, and no index.
    "HashLength": lambda error: counted("index")(error) if error.parts else {},
    "MismatchedRoot": roots, "NewTreeSmaller": numbered("new", "old"), "WrongProofSize": numbered("got", "want"),
    "ExtensionCheckFailed": comparison,
    # The rules of a policy are shown with what the certificate says to each.
    "AllOf": numbered("total"), "AnyOf": numbered("total"),
}


def kept(error):
    innermost = causes(error)[-1]
    return KEPT.get(innermost.name, lambda _: {})(innermost)


def refusal(link, text, *evidence):
    """The object of a refusal: the link, the cause, what the error keeps, and what the link compares."""
    error = rust_debug.read(text)
    members = {"link": link, "cause": names(error), **kept(error)}
    for each in evidence:
        members |= each
    return members
