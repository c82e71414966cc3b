"""What cosign stores beside an image, of the worst kinds, and its table. Each row is the reader's word, what was made, a function from a count to the
bytes, and what the reader prints: 0 for a layer that was read and signed, 1 for a refusal."""
import json

import fixture
import measure
import shapes
from goals import MOST_MEGABYTES, MOST_SECONDS
from measure import megabytes, written
from shapes import filled, repeated

MANIFEST = "sha256:00"
PROMISE = {"SignedEntryTimestamp": "c2V0", "Payload": {"body": "Ym9keQ==", "integratedTime": 1, "logIndex": 1, "logID": "log"}}


def compact(value):
    return json.dumps(value, separators=(",", ":"))


def payload(optional=b"null", reference=b'"image"', beside=b""):
    """A payload of these parts, each as it is."""
    manifest = compact({"docker-manifest-digest": MANIFEST}).encode()
    critical = b'{"identity":{"docker-reference":' + reference + b'},"image":' + manifest + b',"type":"cosign container image signature"}'
    return b'{"critical":' + critical + b',"optional":' + optional + beside + b"}"


def promise(beside=b"", **changed):
    """What a log promised, with a member of its payload changed, and with members that are ignored."""
    made = compact({**PROMISE, "Payload": {**PROMISE["Payload"], **changed}}).encode()
    return made[:-2] + beside + b"}}"


def beside(make):
    """A member that is ignored."""
    return lambda count: b',"a":' + make(count)


def of_payloads():
    for name, item in shapes.worst(above=2):
        yield f"annotation: {name}", lambda count, make=repeated(item): payload(b'{"a":' + make(count) + b"}"), "0"
    for name, make in (*shapes.UNORDERED, ("long names", shapes.members("m" * 1000)), ("many names", shapes.members("m"))):
        yield f"annotations: {name}", lambda count, make=make: payload(make(count)), "0"
    yield "annotations of small integers", lambda count: payload(b'{"a":' + repeated("1")(count) + b"}"), "0"
    yield "an annotation of one text", lambda count: payload(b'{"a":' + shapes.one_text()(count) + b"}"), "0"
    yield "a reference of one text", lambda count: payload(reference=shapes.one_text()(count)), "0"
    yield "ignored: lists of five", lambda count: payload(beside=b',"a":' + repeated("[0,0,0,0,0]")(count)), "0"
    yield "ignored: shuffled names", lambda count: payload(beside=b',"a":' + shapes.shuffled_names(count)), "0"
    yield "nested too deep", lambda count: b"[" * count, "1"
    yield "a list of payloads", repeated(payload().decode()), "1"


def of_promises():
    for name, item in shapes.worst(above=2):
        yield f"ignored: {name}", lambda count, make=beside(repeated(item)): promise(make(count)), "0"
    for name, make in (*shapes.UNORDERED, ("long names", shapes.members("m" * 1000)), ("many names", shapes.members("m"))):
        yield f"ignored: {name}", lambda count, make=beside(make): promise(make(count)), "0"
    yield "a body of one text", lambda count: promise(body="b" * count), "0"
    yield "a body of control characters", lambda count: promise(body="\x01" * count), "0"
    yield "a log id of one text", lambda count: promise(logID="b" * count), "1"
    yield "nested too deep", lambda count: b"[" * count, "1"


def bundle(predicate=b"{}", subjects=(), inside=b"", after=b"", signature=b"sig-dsse", certificate=b"der"):
    """The bundle of an image, with a predicate and further subjects as they are, and with members that are ignored."""
    first = {"name": "image", "digest": {"sha256": fixture.DIGEST}}
    kinds = {"_type": "https://in-toto.io/Statement/v1", "predicateType": "https://sigstore.dev/cosign/sign/v1"}
    statement = compact({**kinds, "subject": [first, *subjects]}).encode()
    payload = statement[:-1] + b',"predicate":' + predicate + b"}"
    made = fixture.Request(payload=payload, signature=signature, body=fixture.body_of(payload, signature, certificate), log_id=bytes(32))
    tree = made.bundle()
    tree["verificationMaterial"]["certificate"]["rawBytes"] = fixture.base64_of(certificate)
    return compact(tree).encode().replace(b'"tlogEntries":[{', b'"tlogEntries":[{' + inside, 1)[:-1] + after + b"}"


def of_bundles():
    for name, item in shapes.worst(above=2):
        yield f"ignored: {name}", lambda count, make=beside(repeated(item)): bundle(after=make(count)), "0"
    yield "ignored: lists of five, in the log entry", lambda count: bundle(inside=b'"a":' + repeated("[0,0,0,0,0]")(count) + b","), "0"
    yield "a predicate of lists of five", lambda count: bundle(predicate=repeated("[0,0,0,0,0]")(count)), "0"
    yield "further subjects", lambda count: bundle(subjects=[{"digest": {"sha256": ""}}] * count), "0"
    yield "a signature of many bytes", lambda count: bundle(signature=b"s" * count), "0"
    yield "a certificate of many bytes", lambda count: bundle(certificate=b"c" * count), "0"
    yield "nested too deep", lambda count: b"[" * count, "1"


def rows():
    attested = f"attested sha256:{fixture.DIGEST} {'00' * 32}"
    for word, made in (("payload", of_payloads()), ("promise", of_promises()), (attested, of_bundles())):
        for name, make, shown in made:
            yield word, name, make, shown
    yield "signature", "base64", lambda count: b"AAAA" * count, "0"
    yield "signature", "no base64", lambda count: b"AAAA" * count + b"%", "1"


def images(bench):
    """What cosign stores beside an image, read by `SignatureLayer::new` as the payload of a layer, as what a log promised of it in an annotation, or as
    its signature in one, or by `from_sigstore_bundle` as a bundle (`attested`), and then asked whether a key signed it. The last column is the time to
    that over half the size."""
    table = bench.table(images, "read", "shown", "bytes", "ms", "MB", "to half")
    start = bench.seconds(bench.kept(b"{}"), [bench.reader, "read"])[0]
    for word, name, make, shown in rows():
        half, whole = (bench.kept(filled(make, most)) for most in (bench.most // 2, bench.most))
        command, word = [bench.reader, *word.split(" ")], word.split(" ")[0]
        for path in (half, whole):
            measure.expect(command, path, written(command, path), shown)
        first, timer = (bench.timer(path, command, start=start) for path in (half, whole))
        doubled = bench.doubled(f"{word}, {name}", first, timer)
        took, peak = timer.least + start, megabytes(command, whole)
        table.row(f"{word}, {name}", shown, whole.stat().st_size, took * 1000, round(peak), doubled)
        bench.goal(f"{word}, {name}, MB", peak, MOST_MEGABYTES)
        bench.goal(f"{word}, {name}, seconds", took, MOST_SECONDS)
