"""Inputs of the worst kinds: each a function from a count to the bytes."""
import base64
import json
import pathlib
import random

EXAMPLE = json.loads((pathlib.Path(__file__).resolve().parent.parent / "examples/log.json").read_text())
NOTE = EXAMPLE["checkpoint"].split("\n\n")[0] + "\n"  # what is signed
DEEPEST = 127  # how deep a document may nest


def filled(make, most):
    """A text of nearly this many bytes, and not more: the count by the sizes of two small ones, then less, until it
    fits."""
    few, more = len(make(50)), len(make(100))
    count = 50 + max(0, most - few) * 50 // (more - few)
    while len(text := make(count)) > most and count > 1:
        count = min(count - 1, count * most // len(text))
    return text


def coded(data):
    return base64.b64encode(data).decode()


def numbered(prefix, count):
    """This many byte strings that share a prefix, in no order, each once."""
    places = list(range(count))
    random.Random(count).shuffle(places)
    return (prefix + place.to_bytes(4, "big") for place in places)


# Requests of `log`


def request(**changed):
    """The request of the first example with members changed."""
    return json.dumps({**EXAMPLE, **changed}, separators=(",", ":"), ensure_ascii=False).encode()


def row(message=NOTE.encode(), signature=b"sig", key=EXAMPLE["key"]):
    """An accepted signature; without arguments the example's."""
    return {**EXAMPLE["accepted"][0], "key": key, "message": coded(message), "signature": coded(signature)}


def signature_line(signature, name="log.example"):
    return f"\u2014 {name} {coded(bytes(4) + signature)}\n"


def audit(heads, **members):
    """A request of `audit` of these heads, which the example's row accepts."""
    return request(heads=heads, **members)


HEAD = {"checkpoint": EXAMPLE["checkpoint"]}
WATCH = {"head": 0, "index": 0, "entry": EXAMPLE["entry"]}


def audit_heads(count):
    """More heads than an audit may have."""
    return audit([HEAD] * (count + 256))


def audit_watches(count):
    """More watched entries than an audit may have."""
    return audit([HEAD], watched=[WATCH] * (count + 4096))


def audit_hashes(count):
    """A first head with many hashes, which are not looked at."""
    return audit([{**HEAD, "hashes": ["00" * 32] * count}])


def audit_proof(count):
    return audit([HEAD, {**HEAD, "hashes": ["00" * 32] * (count + 1)}])


def audit_signatures(count):
    """A head with many signatures, none of which is accepted."""
    lines = [signature_line(signature) for signature in numbered(b"s" * 66, count)]
    return audit([{"checkpoint": NOTE + "\n" + "\n".join(lines)}])


def one_entry(count):
    return request(entry=coded(bytes(3 * count)))


def escaped_entry(count):
    return request(entry="?").replace(b'"?"', b'"' + rb"\u0041" * (4 * count) + b'"')


def hashes(count):
    return request(hashes=["a5" * 32] * count)


def equal_rows(count):
    return request(accepted=[row()] * count)


def rows_by_signature(count):
    """Rows that differ in the last bytes of the signature, and as the last the one that is asked for."""
    return request(accepted=[row(signature=signature) for signature in numbered(b"s" * 66, count)] + [row()])


def rows_by_key(count):
    """Rows whose keys share a thousand bytes with the log's key."""
    key = coded(b"k" * 1000)
    others = [row(key=coded(other)) for other in numbered(b"k" * 1000, count)]
    return request(key=key, accepted=others + [row(key=key)])


def rows_by_message(count):
    """Rows whose messages share a thousand bytes with the note."""
    note = NOTE + "c" * 1000 + "\n"
    rows = [row(message=message) for message in numbered(note.encode()[:-1], count)] + [row(message=note.encode())]
    return request(checkpoint=note + "\n" + signature_line(b"sig"), accepted=rows)


def signatures_and_rows(count):
    """As many signatures of a note as rows, of which only the last agree."""
    lines = [signature_line(signature) for signature in numbered(b"s" * 66, count)] + [signature_line(b"sig")]
    rows = [row(signature=signature) for signature in numbered(b"t" * 66, count)] + [row()]
    return request(checkpoint=NOTE + "\n" + "\n".join(lines), accepted=rows)


def signatures_of_a_long_note(count):
    """The shortest signatures, over a note of five bytes for each, and two rows over it, one of the last signature."""
    note = NOTE + "c" * (5 * count) + "\n"
    lines = [signature_line(b"", name="")] * count + [signature_line(b"sig")]
    rows = [row(note.encode(), signature) for signature in (b"sig", b"another")]
    return request(checkpoint=note + "\n" + "\n".join(lines), accepted=rows)


def equal_signatures_of_a_long_note(count):
    """The same, but the row of the equal signatures is over a note that differs from this one in its last byte."""
    note = NOTE + "c" * (5 * count) + "\n"
    lines = [signature_line(b"", name="")] * count + [signature_line(b"sig")]
    rows = [row(note.encode()), row(note.encode()[:-1] + b"c", b"")]
    return request(checkpoint=note + "\n" + "\n".join(lines), accepted=rows)


def signatures(count):
    """Signatures of which none is accepted."""
    return request(checkpoint=NOTE + "\n" + "\n".join([signature_line(b"s" * 70)] * count))


def contents(line):
    """Notes of this many lines after the hash; their signature is over another note."""
    return lambda count: request(checkpoint=NOTE + line * count + "\n" + signature_line(b"sig"))


def ignored(items):
    """A request with a member that is ignored, the list of these items."""
    return lambda count: request()[:-1] + b',"ignored":' + items(count) + b"}"


def ignored_members(prefix):
    """Requests with this many members that are ignored, whose names share a prefix."""
    return lambda count: request()[:-1] + b"," + members(prefix)(count)[1:]


# Documents


def repeated(item):
    """The list of this many equal items."""
    return lambda count: ("[" + ",".join([item] * count) + "]").encode()


def members(prefix):
    """The object of this many members whose names share a prefix, in no order."""
    def make(count):
        names = (prefix + str(int.from_bytes(place, "big")) for place in numbered(b"", count))
        return ("{" + ",".join(f'"{name}":1' for name in names) + "}").encode()
    return make


def name_of(place):
    """A name that begins past U+FFFF for an odd place, and from U+E000 to U+FEFF for an even one: by bytes the odd ones
    come last, by UTF-16 units first."""
    first = 0x10000 + place // 2 if place % 2 else 0xE000 + place // 2 % 0x1F00
    return chr(first) + str(place)


def two_orders(count):
    """An object whose names have another order by bytes than by UTF-16 units, which canonical JSON wants."""
    return ("{" + ",".join(f'"{name_of(place)}":1' for place in range(count)) + "}").encode()


LETTERS = [chr(code) for code in range(0x20, 0x7F) if chr(code) not in '"\\']


def letters(place, count=4):
    """The name of this many letters at a place in the order of all such names."""
    name = ""
    for _ in range(count):
        place, last = divmod(place, len(LETTERS))
        name = LETTERS[last] + name
    return name


def object_of(names):
    return ("{" + ",".join(f'"{name}":0' for name in names) + "}").encode()


def chosen(count, prefix=""):
    """This many different names of four letters after a prefix, in no order."""
    return [prefix + letters(place) for place in random.Random(count).sample(range(len(LETTERS) ** 4), count)]


def shuffled_names(count):
    return object_of(chosen(count))


def alike_names(count):
    """Names in no order, which agree in their first eight bytes."""
    return object_of(chosen(count, "prefixed"))


def falling_names(count):
    return object_of(sorted(chosen(count), reverse=True))


def rising_twice(count):
    """Names that ascend, and from the middle on ascend once more, between the first ones."""
    names = sorted(chosen(count))
    return object_of(names[::2] + names[1::2])


def equal_names(count):
    """Some two hundred names of one letter or two, each many times, in no order."""
    chance = random.Random(count)
    return object_of(letters(chance.randrange(100), 1 + chance.randrange(2)) for _ in range(count))


# Objects whose names cost most to put in order.
UNORDERED = (
    ("shuffled names", shuffled_names),
    ("shuffled names that agree in eight bytes", alike_names),
    ("names that descend", falling_names),
    ("names that ascend twice", rising_twice),
    ("equal names", equal_names),
)


def one_text(depth=0, unit=b"a"):
    """One text of this many units, as the only member of objects so deep."""
    return lambda count: b'{"a":' * depth + b'"' + unit * count + b'"' + b"}" * depth


def nested(begin, inner, end, depth):
    return begin * (depth - 1) + inner + end * (depth - 1)


def worst(above):
    """Items that take most memory for a byte, in a list that is inside this many others: names, and the item of each."""
    deepest = DEEPEST - above - 1
    return (
        (f"objects nested to {deepest}", nested('{"a":', "{}", "}", deepest)),
        ("objects nested to 5", nested('{"a":', '{"a":1}', "}", 5)),
        ('{"":1}', '{"":1}'),
        ('{"a":1}', '{"a":1}'),
        (f"lists nested to {deepest}", nested("[", "[]", "]", deepest)),
        ("lists of five", "[0,0,0,0,0]"),
    )


# Bundles and statements


def bundle_of_entries(item):
    """Bundles of this many equal log entries."""
    return lambda count: b'{"verificationMaterial":{"tlogEntries":' + repeated(item)(count) + b"}}"


def bundle_of_entry(make):
    """Bundles of one log entry, with a member that is ignored."""
    return lambda count: b'{"verificationMaterial":{"tlogEntries":[{"a":' + make(count) + b"}]}}"


def bundle_of_hashes(count):
    hashes = repeated('"AA=="')(count)
    return b'{"verificationMaterial":{"tlogEntries":[{"inclusionProof":{"hashes":' + hashes + b"}}]}}"


def bundle_of_certificates(count):
    return b'{"verificationMaterial":{"x509CertificateChain":{"certificates":' + repeated("{}")(count) + b"}}}"


def bundle_of_signatures(count):
    return b'{"dsseEnvelope":{"signatures":' + repeated("{}")(count) + b"}}"


def bundle_of_payload(count):
    return b'{"dsseEnvelope":{"payload":"' + b"AAAA" * count + b'"}}'


DIGESTS = '{"sha256":"' + "a5" * 32 + '"}'


def statement(annotations="null", predicate="null", subjects=""):
    """A statement of a subject with one digest that can be compared with an artifact's, and of the subjects given."""
    first = f'{{"digest":{DIGESTS},"annotations":{annotations}}}'
    return f'{{"_type":"","predicateType":"","subject":[{first}{subjects}],"predicate":{predicate}}}'.encode()


def statement_of(member, items):
    return lambda count: statement(**{member: items(count).decode()})


def many_subjects(count=1024):
    """A statement of this many subjects of 32 digests each, except the first, which has one; of the 32 two can be compared."""
    others = "".join(f',"other{place}":"' + "a5" * 32 + '"' for place in range(30))
    digests = '{"sha256":"' + "a5" * 32 + '","sha512":"' + "a5" * 64 + '"' + others + "}"
    return statement(subjects=(',{"digest":' + digests + "}") * (count - 1))


# Certificates


def element(tag, content):
    """A DER element."""
    size = len(content)
    if size < 128:
        return bytes([tag, size]) + content
    length = size.to_bytes((size.bit_length() + 7) // 8, "big")
    return bytes([tag, 128 + len(length)]) + length + content


def arc(number):
    """The bytes of an object identifier's number from 2^14 to 2^21 - 1 (X.690 section 8.19)."""
    return bytes([128 | number >> 14, 128 | number >> 7 & 127, number & 127])


def in_order(count):
    return range(count)


def shuffled(count):
    return random.Random(count).sample(range(count), count)


def certificate(count, order, prefix=b""):
    """A certificate of this many extensions, whose object identifiers share a prefix and come in an order."""
    algorithm = element(0x30, bytes.fromhex("06082a8648ce3d040302"))
    curve = element(0x30, bytes.fromhex("06072a8648ce3d020106082a8648ce3d030107"))
    key = element(0x30, curve + element(0x03, b"\0\4" + b"k" * 64))
    name = element(0x30, b"")
    validity = element(0x30, element(0x17, b"231213055055Z") + element(0x17, b"231213060055Z"))
    value = element(0x04, b"v" * 40)
    identifiers = (element(0x06, b"\x2b\x06\x01" + prefix + arc(2**14 + place)) for place in order(count))
    listed = b"".join(element(0x30, identifier + value) for identifier in identifiers)
    extensions = element(0xA3, element(0x30, listed))
    head = bytes.fromhex("a003020102020101") + algorithm + name + validity + name + key
    return element(0x30, element(0x30, head + extensions) + algorithm + element(0x03, b"\0signature"))
