"""Rows of the layers of Sigstore bundles for tools/cosign_cases.py. tools/cosign_bundles.py says what each call returns."""
import copy
import itertools
from types import SimpleNamespace

import cosign_bundles as bundles
import cosign_layers as layers
import fixture
import schemes
from cosign_layer_rows import ANCHOR, LEAF, NOW, REFERENCE, TIME, flat, keys_words, leaf_row, pool_words, row, trust
from fixture import DIGEST, SCHEME, base64_of
from json_documents import compact
from rekor_cases import debug, quoted

LOG = "4d" * 32
KEYS = {"3c" * 32: (SCHEME, fixture.key(3)), LOG: (SCHEME, fixture.key(4))}
POOL = ((ANCHOR,), ())
LAYER = "sha256:" + "c" * 64


class Made:
    """What a call is given, by its parts: the statement, then the bundle of it as a tree, then what is said about the image and whom to trust. Each change is
    made where it says, and what is computed from it changes too."""

    def __init__(self, said=(), held=(), told=(), **parts):
        self.statement = {"_type": "https://in-toto.io/Statement/v1", "subject": [{"name": "image", "digest": {"sha256": DIGEST}}],
                          "predicateType": "https://sigstore.dev/cosign/sign/v1", "predicate": {}}
        self.parts = {"log_id": bytes.fromhex(LOG), "payload": None, **parts}
        self.text = None
        for change in said:
            change(self)
        if self.parts["payload"] is None:
            self.parts["payload"] = compact(self.statement).encode()
        request = fixture.Request(**self.parts)
        self.tree = request.bundle()
        under = (request.log_scheme, request.log_key)
        self.trust = trust(KEYS, POOL, [leaf_row(LEAF), ("message", *under, request.promised(), request.promise),
                                        ("message", *under, request.noted.encode(), b"sig-note")])
        self.digest, self.source, self.reference = LAYER, "sha256:" + DIGEST, REFERENCE
        for change in (*held, *told):
            change(self)
        if self.text is None:
            self.text = compact(self.tree)

    @property
    def material(self):
        return self.tree["verificationMaterial"]

    @property
    def entry(self):
        return self.material["tlogEntries"][0]

    @property
    def proof(self):
        return self.entry["inclusionProof"]


def bundle_row(table, payloads, made, shown=False):
    words = ["shown_bundle" if shown else "bundle", quoted(made.text), quoted(made.digest), quoted(made.source), quoted(made.reference), *pool_words(made.trust.pool),
             *keys_words(made.trust.keys), str(made.trust.now), *flat(made.trust.rows)]
    request = SimpleNamespace(bundle=made.text, accepted=made.trust.rows)
    case = SimpleNamespace(request=request, source=made.source, digest=made.digest, reference=made.reference, trust=made.trust)
    say = (lambda layer: debug(layers.layer_text(layer))) if shown else (lambda layer: layers.layer_words(layer, payloads))
    row(table, " ".join(words), lambda: say(bundles.layer_of(case)))


# ---- each rule broken, in the order of the rules


def setting(place, name, value):
    """A change that gives a member this value."""
    def change(made):
        place(made)[name] = value
    return change


def without(place, name):
    def change(made):
        place(made).pop(name, None)
    return change


whole, statement, envelope = (lambda made: made.tree), (lambda made: made.statement), (lambda made: made.tree["dsseEnvelope"])
material, entry, proof, trusted = (lambda made: made.material), (lambda made: made.entry), (lambda made: made.proof), (lambda made: made.trust)


def cut(made):
    made.text = compact(made.tree)[:-1]


def no_envelope(made):
    del made.tree["dsseEnvelope"]
    made.tree["messageSignature"] = {"signature": "c2ln"}


def no_statement(made):
    made.parts["payload"] = b"{}"


def doubled(place, name):
    def change(made):
        place(made)[name] = place(made)[name] * 2
    return change


def signerless(made):
    for name in ("certificate", "x509CertificateChain"):
        made.material.pop(name, None)


def chained(made):
    made.material["x509CertificateChain"] = {"certificates": [made.material.pop("certificate")]}


def without_row(number):
    """A change that has the checker refuse: the certificate's signature, the promise or the checkpoint's signature."""
    def change(made):
        made.trust.rows[number] = ("message", SCHEME, b"", b"", b"%d" % number)
    return change


def sibling(made):
    """Another hash of the audit path."""
    made.proof["hashes"][0] = base64_of(b"\x01" * 32)


def other_source(made):
    made.source = "sha256:" + "b" * 64


ROOT = base64_of(b"\x02" * 32)
SIGNED = "\u2014 a AAAABHNpZw=="
FAULTS = [
    ("told", cut), ("held", no_envelope), ("held", setting(envelope, "payloadType", "application/json")), ("said", no_statement),
    ("said", setting(statement, "_type", "https://in-toto.io/Statement/v0.1")), ("said", setting(statement, "predicateType", "https://example.com/p/v1")),
    ("said", setting(statement, "subject", [])), ("said", setting(statement, "subject", [{"digest": {"sha512": fixture.WIDE_DIGEST}}])), ("told", other_source),
    ("held", doubled(envelope, "signatures")), ("held", signerless), ("held", chained), ("held", doubled(material, "tlogEntries")),
    ("told", setting(lambda made: made.trust.__dict__, "keys", None)), ("held", without(entry, "logId")),
    ("told", setting(lambda made: made.trust.__dict__, "keys", {"3c" * 32: KEYS["3c" * 32]})), ("held", without(entry, "inclusionPromise")),
    ("held", setting(entry, "logIndex", str(2**53))), ("told", without_row(1)), ("held", without(entry, "inclusionProof")), ("held", setting(proof, "rootHash", "AAAA")),
    ("held", setting(proof, "hashes", ["AAAA"])), ("held", setting(proof, "treeSize", "-1")), ("held", without(proof, "checkpoint")),
    ("held", setting(proof, "checkpoint", {"envelope": "x"})), ("told", without_row(2)), ("held", setting(proof, "rootHash", ROOT)), ("held", sibling),
    ("said", lambda made: made.parts.update(body=b"{}"))]


def broken(*faults):
    """Later rules are broken first, since an earlier one may take away what they speak of."""
    faults = faults[::-1]
    return Made(**{phase: [change for when, change in faults if when == phase] for phase in ("said", "held", "told")})


def fault_rows(table, payloads):
    table.note("Each rule broken by itself: every error, in the order of the rules.")
    for fault in FAULTS:
        bundle_row(table, payloads, broken(fault))
    table.note("Each two neighbours broken at once, and the next but one.")
    for distance in (1, 2):
        for one, other in zip(FAULTS, FAULTS[distance:]):
            bundle_row(table, payloads, broken(one, other))


# ---- what each rule asks


def parts_rows(table, payloads):
    say = lambda *changes, **parts: bundle_row(table, payloads, Made(held=changes, **parts))
    table.note("A predicate of another kind, and no keys: the bundle of another tool, and a caller without trust in logs.")
    bundle_row(table, payloads, Made(payload=fixture.statement()))
    bundle_row(table, payloads, Made(told=[setting(lambda made: made.trust.__dict__, "keys", None)]))
    table.note("Envelopes without signatures, material without anything, with a hint at a key, and with no or three log entries.")
    for change in (setting(envelope, "signatures", []), without(whole, "verificationMaterial"), setting(whole, "verificationMaterial", {}), without(whole, "dsseEnvelope"),
                   setting(whole, "mediaType", "x"), setting(material, "tlogEntries", []), setting(envelope, "payloadType", "")):
        say(change)
    say(without(material, "certificate"), setting(material, "publicKey", {"hint": "x"}))
    say(lambda made: made.material.update(tlogEntries=made.material["tlogEntries"] * 3))
    table.note("Other signatures, hints at keys, log indices and times; integers at their bounds.")
    say(signature=b"", keyid="")
    say(signature=b"\x00" * 72, keyid="key\"é")
    for index, time in itertools.product((0, -1, 2**53 - 1, -2**53 + 1), (TIME, 0, 2**53 - 1)):
        say(log_index=index, integrated_time=time)
    for index, time in ((2**53, TIME), (-2**53, TIME), (900, 2**53), (900, -2**53), (2**63 - 1, -2**63)):
        say(log_index=index, integrated_time=time)
    table.note("Digests: with and without the prefix, with two of them, of other letters; of the second subject alone; three hundred subjects.")
    for source in (DIGEST, "sha256:" + DIGEST, "sha256:sha256:" + DIGEST, "SHA256:" + DIGEST, DIGEST.upper(), "", "sha256:", DIGEST + " "):
        bundle_row(table, payloads, Made(told=[lambda made: setattr(made, "source", source)]))
    for text, source in (("", ""), ("", "sha256:"), ("x\"é", "sha256:x\"é"), ("sha256:" + DIGEST, "sha256:" + DIGEST), ("sha256:" + DIGEST, "sha256:sha256:" + DIGEST)):
        bundle_row(table, payloads, Made(said=[setting(statement, "subject", [{"digest": {"sha256": text}}])], told=[lambda made: setattr(made, "source", source)]))
    named = [{"digest": {"sha256": "%064d" % number}} for number in range(300)]
    for place in (0, 1, 299):
        bundle_row(table, payloads, Made(said=[setting(statement, "subject", named)], told=[lambda made: setattr(made, "source", "%064d" % place)]))
    table.note("What is told of the layer is not looked at.")
    for text in ("", "x", "é\"\\\n"):
        bundle_row(table, payloads, Made(told=[lambda made: made.__dict__.update(digest=text, reference=text)]))


def signer_rows(table, payloads):
    table.note("Who signed: without a pool, with one that does not find the issuer, at the bounds of the validity, and later than now.")
    for pool in (None, ((), ()), POOL):
        bundle_row(table, payloads, Made(told=[setting(lambda made: made.trust.__dict__, "pool", pool)]))
    bundle_row(table, payloads, Made(told=[without_row(0)]))
    for time in (1702446654, 1702446655, 1702447255, 1702447256, -2**53 + 1):
        bundle_row(table, payloads, Made(integrated_time=time))
        bundle_row(table, payloads, Made(told=[setting(lambda made: made.trust.__dict__, "now", time)]))
    table.note("Bytes that are not a certificate are logged as any others, and tell nobody.")
    request = fixture.Request(payload=compact(Made().statement).encode())
    for der in (b"", request.leaf_der[:-1]):
        body = fixture.body_of(request.payload, request.signature, der)
        bundle_row(table, payloads, Made(body=body, held=[setting(material, "certificate", {"rawBytes": base64_of(der)})]))


# ---- the log's word


def log_rows(table, payloads):
    say = lambda *changes, **parts: bundle_row(table, payloads, Made(held=changes, **parts))
    table.note("Keys of other schemes; log ids of other lengths; names of keys in upper case; three hundred keys.")
    for scheme in schemes.others(SCHEME):
        keys = {LOG: (scheme, b"key")}
        bundle_row(table, payloads, Made(log_scheme=scheme, log_key=b"key", told=[setting(lambda made: made.trust.__dict__, "keys", keys)]))
        bundle_row(table, payloads, Made(told=[setting(lambda made: made.trust.__dict__, "keys", {LOG: (scheme, fixture.key(4))})]))
    for identifier in (b"", b"\x4d", b"\xab\xcd" * 20):
        for name in (identifier.hex(), identifier.hex().upper()):
            bundle_row(table, payloads, Made(log_id=identifier, told=[setting(lambda made: made.trust.__dict__, "keys", {name: KEYS[LOG]})]))
    many = {"%064x" % number: (SCHEME, fixture.key(number % 250)) for number in range(300)}
    for number in (0, 150, 299):
        bundle_row(table, payloads, Made(log_id=number.to_bytes(32, "big"), log_key=fixture.key(number % 250),
                                         told=[setting(lambda made: made.trust.__dict__, "keys", many)]))
    table.note("Proofs: of one entry, of three hundred, of another place, size and length; by the entry's own index.")
    for index, size in ((0, 1), (0, 2), (1, 2), (299, 300), (150, 300)):
        say(index=index, size=size)
    for changes in ({"logIndex": "-1"}, {"logIndex": "5"}, {"logIndex": "900"}, {"logIndex": str(2**63 - 1)}, {"treeSize": "4"}, {"treeSize": "6"}, {"treeSize": "0"}, {"hashes": []}):
        say(lambda made: made.proof.update(changes))
    for place in (0, 1, 2):
        say(lambda made: made.proof["hashes"].insert(place, base64_of(b"\x00" * 33)))
    say(lambda made: made.proof["hashes"].append(base64_of(b"\x00" * 32)))
    table.note("Checkpoints: of another tree, under more signatures, and malformed in each way.")
    texts = ["", "x", "\n\n"] + ["%s\n\n%s\n" % (note, signature) for note, signature in (
        ("a\n1\nAAAA", SIGNED), ("a\nx\nAAAA", SIGNED), ("a\n1\nA", SIGNED), ("a\n1", SIGNED), (" \n1\nAAAA", SIGNED), ("a\n1\nAAAA", "- a AAAABHNpZw=="),
        ("a\n1\nAAAA", "\u2014 a"), ("a\n1\nAAAA", "\u2014 a %"), ("a\n1\nAAAA", "\u2014 a AAA="))]
    for text in texts:
        say(setting(proof, "checkpoint", {"envelope": text}))
    say(lambda made: made.proof["checkpoint"].update(envelope=made.proof["checkpoint"]["envelope"] + "\n\u2014 other AAAABHNpZw==\n"))


# ---- the body


def body_rows(table, payloads):
    table.note("Bodies: members that are ignored; hashes in upper case; two signatures and none; each member absent or of another value; no document.")
    request = fixture.Request(payload=compact(Made().statement).encode())
    tree = bundles.documents.tree(request.body)
    for change in body_changes(tree):
        changed = copy.deepcopy(tree)
        change(changed)
        bundle_row(table, payloads, Made(body=compact(changed).encode()))
    text = request.body.decode()
    for content in ("", "{", "null", "[]", text[:-1], text + " ", " " + text, text[:-1] + ',"x":1.5}', text[:-1] + ',"kind":"intoto"}', text.replace("dsse", "ds\\u0073e")):
        bundle_row(table, payloads, Made(body=content.encode()))
    bundle_row(table, payloads, Made(body=b"\xff" + request.body))


def body_changes(tree):
    spec = lambda body: body["spec"]
    first = lambda body: body["spec"]["signatures"][0]
    yield lambda body: body.update(more=1)
    yield lambda body: (spec(body).update(proposedContent={}), first(body).update(more=[]), spec(body)["payloadHash"].update(more=None))
    for name in ("kind", "apiVersion"):
        yield lambda body: body.pop(name)
        yield lambda body: body.update({name: "x"})
    yield lambda body: body.pop("spec")
    for part in ("envelopeHash", "payloadHash"):
        digits = tree["spec"][part]["value"]
        for value in (digits.upper(), digits[:-1] + digits[-1].swapcase(), digits[:-1], digits + "0", "0" * 64, "", None, 1):
            yield lambda body: spec(body)[part].update(value=value)
        for name in ("SHA256", "sha512", "", None):
            yield lambda body: spec(body)[part].update(algorithm=name)
        yield lambda body: spec(body).pop(part)
    yield lambda body: [spec(body)[part].update(value=tree["spec"][part]["value"].upper()) for part in ("envelopeHash", "payloadHash")]
    yield lambda body: spec(body).update(envelopeHash=tree["spec"]["payloadHash"], payloadHash=tree["spec"]["envelopeHash"])
    for signatures in ([], None, {}, "x", [None], [1]):
        yield lambda body: spec(body).update(signatures=signatures)
    for other in (None, {}, tree["spec"]["signatures"][0]):
        yield lambda body: spec(body)["signatures"].append(other)
        yield lambda body: spec(body)["signatures"].insert(0, other)
    yield lambda body: spec(body).update(signatures=tree["spec"]["signatures"] + [{}] * 299)
    for name, value in itertools.product(("signature", "verifier"), ("c2lo", "", "%", None)):
        yield lambda body: first(body).update({name: value})


# ---- nesting


def deep_rows(table, payloads):
    table.note("Members that are ignored and nest to 127 or one more: in the bundle, in the payload and in the body.")
    body = fixture.Request(payload=compact(Made().statement).encode()).body.decode()
    for depth in (127, 128):
        def deeper(text):
            return text[:-1] + ',"more":%s%s}' % ("[" * (depth - 1), "]" * (depth - 1))
        bundle_row(table, payloads, Made(told=[lambda made: setattr(made, "text", deeper(compact(made.tree)))]))
        bundle_row(table, payloads, Made(payload=deeper(compact(Made().statement)).encode()))
        bundle_row(table, payloads, Made(body=deeper(body).encode()))


def rows(table, payloads):
    table.group("bundle TEXT DIGEST SOURCE REFERENCE POOL KEYS NOW ROWS: the layer of a Sigstore bundle, as `unsigned` shows it.")
    bundle_row(table, payloads, Made())
    fault_rows(table, payloads)
    parts_rows(table, payloads)
    signer_rows(table, payloads)
    log_rows(table, payloads)
    body_rows(table, payloads)
    deep_rows(table, payloads)
    table.group("shown_bundle TEXT DIGEST SOURCE REFERENCE POOL KEYS NOW ROWS: the text that the layer is shown as, or why there is none.")
    for told in ((), [setting(lambda made: made.trust.__dict__, "pool", None)], [lambda made: made.__dict__.update(digest="", reference="a\"\n\\")], [other_source]):
        bundle_row(table, payloads, Made(told=told), shown=True)
