#!/usr/bin/env python3
"""A walk of hostile requests of `verify`: the fixture's, over an envelope, over a message, and with two intermediates, each changed in one place.

    tools/hostile.py all [PROGRAM]       every request of the walk, some 100,000
    tools/hostile.py [PROGRAM]           one request of every forty
    tools/hostile.py count               how many requests each part of the walk has

It changes each byte of the bundle and of the trusted root, in four ways. It leaves out each member of both, doubles it, makes it null, and makes it each
other kind of value. It makes each base64 text one character short. It changes each byte, each length and each element of the certificates and of the
SCT, with all lengths about it made right again or left as they are. Where a member, a text of base64 or a certificate is changed, the request is tried
twice: first with the signatures that the fixture accepts; then `questions verify` has to list what the changed request asks for, or to name the link
that fails whatever is accepted, and `verify` is tried with all that is listed.

A second implementation, tools/verify_links.py, says what the reply is. The program has to write that, with its status 0, 1 or 2, in at most 100
milliseconds of a processor and with 50 megabytes of addresses. The status of this tool is 0 if it does so for each request."""
import base64
import collections
import itertools
import json
import multiprocessing
import os
import pathlib
import resource
import sys

sys.dont_write_bytecode = True

import fixture
import questions_cases
import verify_cases
from failing import in_lines
from fixture import anchor, certificate, compact, name
from verify_rows_chains import TWO, to_root

PROGRAM = pathlib.Path(__file__).resolve().parent.parent / "crates/sigverify/out/sigverify"
SAMPLED = 40
MOST_SECONDS = 0.1
RUNS = 10  # of a request that takes longer
MOST_MEMORY = 50_000_000

Request = collections.namedtuple("Request", "title text")


# What is changed: the members of a request whose bundle and trusted root are texts.

def fixtures():
    intermediate = certificate(anchor(issuer=name("another root")))
    yield "envelope", verify_cases.built([])
    yield "message", verify_cases.built([verify_cases.message(later=(intermediate,))])
    yield "chain", verify_cases.built([to_root(*TWO)])


def bytes_changed(content):
    """Each byte in four ways: its lowest bit, a quotation mark in its place, twice, and left out."""
    for at, byte in enumerate(content):
        for title, put in (("bit", bytes([byte ^ 1])), ("quotation mark", b'"'), ("twice", bytes([byte, byte])), ("left out", b"")):
            yield f"byte {at}, {title}", content[:at] + put + content[at + 1:]


KINDS = {"null": "null", "a truth": "true", "zero": "0", "a negative number": "-1", "a float": "0.5", "a text": '""', "a list": "[]", "a list of null": "[null]",
         "an object": "{}", "a deep list": "[" * 126 + "]" * 126}


def places(value, way=()):
    """The ways to each member and each element, at every depth."""
    items = value.items() if isinstance(value, dict) else enumerate(value) if isinstance(value, list) else ()
    for key, inner in items:
        yield (*way, key)
        yield from places(inner, (*way, key))


class Written:
    """A text of JSON that stands for a value."""

    def __init__(self, text):
        self.text = text


def written(value):
    """Compact JSON, in which an object can be a list of pairs, whose names may be equal."""
    if isinstance(value, Written):
        return value.text
    if isinstance(value, list):
        return "[" + ",".join(map(written, value)) + "]"
    if isinstance(value, dict):
        value = list(value.items())
    if isinstance(value, tuple):
        value = value[0]
    if isinstance(value, Pairs):
        value = value.listed
    elif not isinstance(value, list):
        return compact(value)
    return "{" + ",".join(compact(key) + ":" + written(inner) for key, inner in value) + "}"


class Pairs:
    """An object by its members in order."""

    def __init__(self, listed):
        self.listed = listed


def replaced(value, way, change):
    """The value where `change` was made to the list or object that has the last step of the way, at its key."""
    key, *rest = way
    if not rest:
        return change(value, key)
    made = dict(value) if isinstance(value, dict) else list(value)
    made[key] = replaced(value[key], rest, change)
    return made


def set_to(new):
    def change(value, key):
        made = dict(value) if isinstance(value, dict) else list(value)
        made[key] = new(value[key]) if callable(new) else new
        return made
    return change


def left_out(value, key):
    if isinstance(value, dict):
        return {each: inner for each, inner in value.items() if each != key}
    return value[:key] + value[key + 1:]


def doubled(value, key):
    """The same member or element twice."""
    if isinstance(value, list):
        return value[:key + 1] + value[key:]
    return Pairs([*value.items(), (key, value[key])])


def doubled_by_null(value, key):
    """A member that a later null replaces; of a list, a null after the element."""
    if isinstance(value, list):
        return [*value[:key + 1], None, *value[key + 1:]]
    return Pairs([*value.items(), (key, None)])


def is_base64(text):
    try:
        return isinstance(text, str) and len(text) >= 4 and base64.b64encode(base64.b64decode(text, validate=True)).decode() == text
    except ValueError:
        return False


def members_changed(value):
    """Each member left out, doubled, and made each kind of value; each base64 text one character short."""
    for way in places(value):
        title = ".".join(map(str, way))
        for named, change in (("left out", left_out), ("twice", doubled), ("and then null", doubled_by_null)):
            yield f"{title} {named}", written(replaced(value, way, change))
        for kind, text in KINDS.items():
            yield f"{title} {kind}", written(replaced(value, way, set_to(Written(text))))
        inner = at(value, way)
        if isinstance(inner, str) and inner:
            for named, cut in (("without its last character", inner[:-1]), ("without its first character", inner[1:]), ("with one more", inner + "A")):
                yield f"{title} {named}", written(replaced(value, way, set_to(cut)))


def at(value, way):
    for key in way:
        value = value[key]
    return value


# DER, whose elements are found by their own lengths.

CONSTRUCTED = 0x20


def elements(content, start=0, end=None):
    """The places of the elements: of the identifier, of the content, and of the end; those inside of constructed ones and of OCTET STRINGs too."""
    end = len(content) if end is None else end
    while start + 2 <= end:
        size, at = content[start + 1], start + 2
        if size >= 0x80:
            at = start + 2 + (size & 0x7F)
            size = int.from_bytes(content[start + 2:at], "big")
        if at + size > end or content[start + 1] == 0x80:
            return
        yield start, at, at + size
        if content[start] & CONSTRUCTED or content[start] == 0x04:
            yield from elements(content, at, at + size)
        start = at + size


def mended(content, changed_at, old_end, grown):
    """The content whose elements about this place are as much longer, by their lengths; where a length gets more octets, as it comes."""
    made = bytearray(content)
    for start, at, end in reversed(list(elements(content))):
        if at <= changed_at and old_end <= end and start != changed_at:
            octets = content[start + 1] & 0x7F if content[start + 1] >= 0x80 else 0
            size = end - at + grown
            room = octets or 1
            if size < 0 or size >= 1 << (8 * room if octets else 7):
                continue
            made[start + 1 + (octets > 0):start + 1 + (octets > 0) + room] = size.to_bytes(room, "big")
    return bytes(made)


def der_changed(content):
    """Each byte in three ways; each length one more and one less; each element left out, twice, of another tag, and without its last byte."""
    for place, byte in enumerate(content):
        for title, put in (("one more", (byte + 1) % 256), ("its highest bit", byte ^ 0x80), ("zero", 0)):
            yield f"byte {place} {title}", content[:place] + bytes([put]) + content[place + 1:]
    for start, begin, end in elements(content):
        last = begin - 1
        for title, grown in (("longer", 1), ("shorter", -1)):
            yield f"element {start} by its length {title}", content[:last] + bytes([(content[last] + grown) % 256]) + content[last + 1:]
        whole, size = content[start:end], end - start
        for title, put in (("left out", b""), ("twice", whole + whole), ("without its last byte", content[start:end - 1]), ("with a byte more", whole + b"\0"),
                           ("of another tag", bytes([content[start] ^ 0x01]) + content[start + 1:end]), ("null", b"\x05\x00")):
            grown = len(put) - size
            yield f"element {start} {title}", content[:start] + put + content[end:]
            if grown:
                about = mended(content, start, end, grown)
                yield f"element {start} {title}, in its room", about[:start] + put + about[end:]


# The requests.

def tried_twice(title, members):
    yield Request(title, compact(members))
    yield Request(title + ", asked", members)  # the signatures are listed where the request is tried


def document_walk(title, members, part):
    for changed, content in bytes_changed(members[part].encode()):
        try:
            yield Request(f"{title}: {part}: {changed}", compact({**members, part: content.decode()}))
        except UnicodeDecodeError:
            continue
    for changed, text in members_changed(json.loads(members[part])):
        yield from tried_twice(f"{title}: {part}: {changed}", {**members, part: text})


CERTIFICATES = {"bundle": [("verificationMaterial", "certificate", "rawBytes"), ("verificationMaterial", "x509CertificateChain", "certificates", 0, "rawBytes"),
                           ("verificationMaterial", "x509CertificateChain", "certificates", 1, "rawBytes"),
                           ("verificationMaterial", "x509CertificateChain", "certificates", 2, "rawBytes")],
                "trustedRoot": [("certificateAuthorities", 0, "certChain", "certificates", 0, "rawBytes"), ("tlogs", 0, "publicKey", "rawBytes"),
                                ("ctlogs", 0, "publicKey", "rawBytes")]}


def der_walk(title, members):
    for part, ways in CERTIFICATES.items():
        value = json.loads(members[part])
        for way in ways:
            try:
                content = base64.b64decode(at(value, way))
            except (KeyError, IndexError):
                continue
            for changed, other in der_changed(content):
                text = written(replaced(value, way, set_to(fixture.base64_of(other))))
                yield from tried_twice(f"{title}: {part}: {'.'.join(map(str, way))}: {changed}", {**members, part: text})


def request_walk(title, members):
    for changed, text in members_changed(members):
        yield Request(f"{title}: request: {changed}", text)


def walk():
    for title, members in fixtures():
        for part in ("bundle", "trustedRoot"):
            yield from document_walk(title, members, part)
        yield from der_walk(title, members)
        yield from request_walk(title, members)


# The runs.

def limit():
    resource.setrlimit(resource.RLIMIT_AS, (MOST_MEMORY, MOST_MEMORY))


def ended(program, words, text):
    """What the program writes, its status, and its seconds of a processor."""
    request, reply = os.memfd_create("request"), os.memfd_create("reply")
    os.write(request, text)
    os.lseek(request, 0, os.SEEK_SET)
    child = os.fork()
    if child == 0:
        try:
            limit()
            os.dup2(request, 0)
            os.dup2(reply, 1)
            os.execv(program, [program, *words])
        finally:
            os._exit(127)
    _, status, used = os.wait4(child, 0)
    said = os.pread(reply, 1 << 20, 0)
    os.close(request)
    os.close(reply)
    return said, os.waitstatus_to_exitcode(status), used.ru_utime + used.ru_stime


def differs(program, words, text, wanted):
    """What is wrong of a run, None where all is well. The time counts that is the least of several runs: other work on the machine, and its host, take
    now and then what is counted for the program."""
    for _ in range(RUNS):
        reply, status, seconds = ended(program, words, text.encode())
        if (reply, status) != (in_lines(wanted[0]), wanted[1]):
            return f"{' '.join(words)} gave {reply} and {status}, and not {wanted}"
        if seconds <= MOST_SECONDS:
            return None
    return f"{' '.join(words)} took {seconds:.3f} seconds, and no less in {RUNS} runs"


def fault(program, request):
    """What is wrong of a request, None where all is well. Of members `questions` has to list the signatures, or to name the link that fails whatever
    is accepted; with those that are listed `verify` is tried."""
    text = request.text
    if isinstance(text, str):
        return differs(program, ["verify"], text, questions_cases.verify_second(text))
    members, text = text, compact(text)
    listed = questions_cases.verify_reply(text)
    found = differs(program, ["questions", "verify"], text, listed)
    if found or listed[1]:
        return found
    text = compact({**members, "accepted": json.loads(listed[0])})
    return differs(program, ["verify"], text, questions_cases.verify_second(text))


def of_worker(work):
    program, first, step = work
    found, tried_ones = [], 0
    for request in itertools.islice(walk(), first, None, step):
        tried_ones += 1
        wrong = fault(program, request)
        found.append(wrong and f"{request.title}: {wrong}")
    return tried_ones, [each for each in found if each]


def count():
    parts = collections.Counter(" ".join(request.title.split(": ")[:2]) for request in walk())
    for part, number in parts.items():
        print(f"{part}: {number}")
    print(f"{sum(parts.values())} requests")
    return 0


def main(words):
    if words == ["count"]:
        return count()
    is_whole = words[:1] == ["all"]
    program = os.path.abspath((words[1:] if is_whole else words)[0] if len(words) > is_whole else PROGRAM)
    workers = os.cpu_count() or 1
    step = workers * (1 if is_whole else SAMPLED)
    with multiprocessing.Pool(workers) as pool:
        done = pool.map(of_worker, [(program, place * (1 if is_whole else SAMPLED), step) for place in range(workers)])
    failed = [each for _, found in done for each in found]
    for each in failed[:40]:
        print(each)
    runs = sum(number for number, _ in done)
    print(f"hostile requests: {runs} tried, {len(failed)} failed")
    return 1 if failed or not runs else 0


if __name__ == "__main__":
    sys.exit(main(sys.argv[1:]))
