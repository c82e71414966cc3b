"""Rows of the layers of manifests, and of what is shown about payloads and layers, for tools/cosign_cases.py. tools/cosign_layers.py says
what each call returns."""
import itertools

import cosign_layer_rows as rows_of
import cosign_layers as layers
import fixture
from cosign_layer_rows import ANCHOR, BUNDLE, CONTENT, KEYS, LEAF, REFERENCE, SIGNATURE, SOURCE, descriptor, fetched, leaf_row, row, trust, unsigned_text
from json_documents import compact
from rekor_cases import debug, quoted

OTHER_TYPE = "application/vnd.oci.image.layer.v1.tar+gzip"
POOL = ((ANCHOR,), ())


def build_row(table, payloads, descriptors, found, source=SOURCE, trusted=trust()):
    words = ["build", str(len(descriptors)), *[word for each in descriptors for word in rows_of.descriptor_words(each)],
             str(len(found)), *[word for each in found for word in rows_of.fetched_words(each)], quoted(source),
             *rows_of.keys_words(trusted.keys), *rows_of.pool_words(trusted.pool), str(trusted.now), *rows_of.flat(trusted.rows)]
    row(table, " ".join(words), lambda: layers.built(descriptors, found, source, trusted, payloads))


def contents(count, source=SOURCE):
    """Payloads of one image, each of another reference."""
    return [unsigned_text("r%d" % number, source) for number in range(count)]


def choices(table, payloads):
    build = lambda *handed, **others: build_row(table, payloads, *handed, **others)
    table.group("build COUNT DESCRIPTOR .. COUNT LAYER .. SOURCE KEYS POOL NOW ROWS: how many layers there are, and each as `unsigned` shows it.")
    build([descriptor()], [fetched()])
    build([descriptor()], [fetched(media_type=OTHER_TYPE)])
    table.note("No descriptors, no layers, neither; digests that no layer has.")
    for descriptors, found in itertools.product(([], [descriptor()]), ([], [fetched()])):
        build(descriptors, found)
    digest = layers.digest_of(CONTENT)
    for text in (digest.upper(), digest[7:], "", "sha256:" + digest, rows_of.DIGEST):
        build([descriptor(digest=text)], [fetched()])
    one, two, three = contents(3)
    for others in ([descriptor(one), descriptor(digest="x"), descriptor(two)], [descriptor(digest="x"), descriptor(two)], [descriptor(two), descriptor(three)]):
        build(others, [fetched(one), fetched(two)])
    table.note("The order is that of the descriptors. Two descriptors of one digest; two layers of the same bytes, of which the first counts.")
    for order in itertools.permutations((one, two, three)):
        build([descriptor(each) for each in order], [fetched(three), fetched(one), fetched(two)])
    build([descriptor(one), descriptor(one, **{SIGNATURE: "c2lo"}), descriptor(two), descriptor(one)], [fetched(two), fetched(one)])
    for types in itertools.product((layers.SIGNING_TYPE, OTHER_TYPE), repeat=2):
        build([descriptor()], [fetched(media_type=each) for each in types])
        build([descriptor(two), descriptor()], [fetched(media_type=types[0]), fetched(two), fetched(media_type=types[1])])


def refusals(table, payloads):
    build = lambda *handed, **others: build_row(table, payloads, *handed, **others)
    table.note("A descriptor of which no layer is made is left out, whatever the error is: between two others, and alone.")
    one, two, bad, wrong = unsigned_text("1", SOURCE), unsigned_text("2", SOURCE), b'{"critical":1}', unsigned_text(REFERENCE, "x")
    faults = [(descriptor(media_type=OTHER_TYPE), fetched()), (descriptor(), fetched(media_type=OTHER_TYPE)), (descriptor(bad), fetched(bad)), (descriptor(b""), fetched(b"")),
              (descriptor(wrong), fetched(wrong)), (descriptor(**{SIGNATURE: None}), fetched())]
    faults += [(descriptor(**{BUNDLE: text}), fetched()) for text in ("{", compact(payloads.tree(logIndex=2**53)), compact(payloads.tree(logID="55" * 32)), compact(payloads.tree("%")),
                                                                      compact(payloads.tree(logIndex=7)))]
    for described, found in faults:
        build([descriptor(one), described, descriptor(two)], [fetched(one), found, fetched(two)], trusted=trust(KEYS))
        build([described], [found], trusted=trust(KEYS))
    build([each for each, _ in faults], [each for _, each in faults], trusted=trust(KEYS))
    build([descriptor()], [fetched()], source="sha256:" + "b" * 64)


def signers(table, payloads):
    build = lambda *handed, **others: build_row(table, payloads, *handed, **others)
    table.note("What Rekor promised, and who signed: with keys and pool, and without them.")
    promise, leaf = payloads.tree(), fixture.certificate(LEAF)
    rows = [*[tuple(["message", *each]) for each in payloads.signed(promise)], leaf_row(LEAF)]
    noted = descriptor(cert=leaf, **{BUNDLE: compact(promise)})
    for keys, pool in itertools.product((KEYS, None), (POOL, None)):
        build([descriptor(), noted], [fetched()], trusted=trust(keys, pool, rows))
    for now in (1702446654, 1702446655):
        build([noted], [fetched()], trusted=trust(KEYS, POOL, rows, now=now))
    table.note("Three hundred descriptors, and three hundred layers, of which the last ones belong together.")
    few, many = contents(2, "s"), [b"%d" % number for number in range(299)]
    build([descriptor(few[number % 2]) for number in range(300)], [fetched(each) for each in few], source="s")
    build([*[descriptor(each) for each in many], descriptor(few[0])], [*map(fetched, many), fetched(few[0])], source="s")
    build([descriptor(each) for each in many], list(map(fetched, many)))


# ---- what is shown


def shown_rows(table, payloads):
    table.group("shown_signing TEXT: the text that the payload is shown as.")
    texts = ("", "prod", 'a"b\\c/', "\b\f\n\r\t", "".join(map(chr, (*range(32), 127, 0xE9, 0x2028, 0x1F600))))
    beside = [None, {}, {"creator": "c"}, {"timestamp": -2**63}, {"timestamp": 2**63 - 1, "creator": ""}, {"a": 1}, {"d": 1, "creator": "c", "timestamp": 0, "z": 2},
              {"creatof": 1, "creator": "c", "creators": 2, "creato": 3, "timestamo": 4, "timestamp": 5, "timestamps": 6, "timestam": 7}, {"": None, "é": True, "\U0001f600": False, "\uffff": []},
              {"a": [], "b": {}, "c": [[]], "d": [{}], "e": {"f": {}}, "g": {"h": []}}, {"a": [1, [2, [3, {"b": [None, {"c": {"d": "e"}}]}]], "x"], "b": {"z": 1, "a": 2, "": 3}},
              {"a": [True, False, None, -2**63, 2**64 - 1, 0, "x"]}, *[{"env": text, text: 1} for text in texts], {"n%d" % number: [number] for number in range(300)}]
    for optional in beside:
        shown_signing(table, payloads, compact(payloads.payload(optional)))
    for text in texts:
        shown_signing(table, payloads, compact(payloads.payload(**{"type": text, "identity": {"docker-reference": text}, "image": {"docker-manifest-digest": text}})))
    shown_signing(table, payloads, compact(payloads.payload({"a": 0}))[:-3] + "[" * 125 + "]" * 125 + "}}")
    shown_signing(table, payloads, compact(payloads.payload({"a": 0}))[:-3] + '{"b":' * 124 + "1" + "}" * 126)


def shown_signing(table, payloads, content):
    try:
        table.case("shown_signing " + quoted(content), "ok " + debug(layers.signing_text(payloads.signing_of(content.encode()))))
    except payloads.Refused as why:
        table.case("shown_signing " + quoted(content), str(why))


def shown_layer_rows(table, payloads):
    table.group("shown_layer DESCRIPTOR LAYER SOURCE KEYS POOL NOW ROWS: the text that the layer is shown as, or why there is none.")
    show = lambda described, found=fetched(), trusted=trust(), source=SOURCE: rows_of.layer_row(table, payloads, described, found, source, trusted, shown=True)
    promise = payloads.tree()
    promised = [tuple(["message", *each]) for each in payloads.signed(promise)]
    show(descriptor())
    for text in ("", 'a"\n---\n# SignatureLayer', "é"):
        show(descriptor(**{SIGNATURE: text}))
    show(descriptor(**{SIGNATURE: None}))
    show(descriptor(**{BUNDLE: compact(promise)}), trusted=trust(KEYS, rows=promised))
    content = compact(payloads.payload({"creator": "c", "env": {"a": [1]}})).encode()
    show(descriptor(content), fetched(content), source=payloads.signing_of(content)[1])
    everything = dict(issuer=b"i", trigger=b"push", sha=b"0f", name=b"build", repository=b"owner/repository", ref=b"refs/heads/main")
    kinds = [rows_of.held(), rows_of.held(names=rows_of.names(rows_of.EMAIL)), rows_of.held(issued=b""), rows_of.held(names=rows_of.names(rows_of.der(0x86, b'a"b\\c\nd')))]
    kinds += [rows_of.claims(**{name: text for name, text in everything.items() if name not in ("issuer", left)}) for left in (None, *everything)]
    for parts in kinds:
        show(descriptor(cert=fixture.certificate(parts), **{BUNDLE: compact(promise)}), trusted=trust(KEYS, POOL, [*promised, leaf_row(parts)]))


def rows(table, payloads):
    choices(table, payloads)
    refusals(table, payloads)
    signers(table, payloads)
    shown_rows(table, payloads)
    shown_layer_rows(table, payloads)
