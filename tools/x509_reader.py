"""What is borrowed from a certificate, read a second time, in the plainest way, from RFC 5280 section 4.1 and X.690: each level is cut into its whole
list of elements, and the list is compared with what it may be."""
import calendar
import re

from x509_calls import answer, written


class NoCertificate(Exception):
    pass


def ask(holds):
    if not holds:
        raise NoCertificate


def cut(content):
    """The elements that the bytes are: identifier octet, contents octets, the whole (X.690 section 8.1, in DER)."""
    found = []
    while content:
        tag = content[0]
        ask(tag & 0x1F != 0x1F and len(content) > 1)
        size, used = content[1], 2
        if size >= 0x80:
            used += size - 0x80
            digits = content[2:used]
            ask(1 <= size - 0x80 <= 4 and len(digits) == size - 0x80 and digits[0] != 0)
            size = int.from_bytes(digits, "big")
            ask(size >= 0x80)
        ask(len(content) >= used + size)
        found.append((tag, content[used:used + size], content[:used + size]))
        content = content[used + size:]
    return found


def tags(elements):
    return [tag for tag, _, _ in elements]


def read_algorithm(content):
    elements = cut(content)
    ask(len(elements) in (1, 2) and elements[0][0] == 6 and elements[0][1])


def read_bits(content):
    ask(content[:1] == b"\x00")
    return content[1:]


def read_time(tag, content):
    text = content.decode("latin-1")
    ask(tag in (0x17, 0x18) and re.fullmatch(r"[0-9]{%d}Z" % (12 if tag == 0x17 else 14), text))
    if tag == 0x17:
        ask(not "50" <= text[:2] <= "69")
        text = ("20" if text[:2] < "50" else "19") + text
    year, month, day, hour, minute, second = int(text[:4]), *[int(text[at:at + 2]) for at in range(4, 14, 2)]
    ask(year >= 1970 and 1 <= month <= 12 and 1 <= day <= calendar.monthrange(year, month)[1])
    ask(hour < 24 and minute < 60 and second < 60)
    return calendar.timegm((year, month, day, hour, minute, second))


def read_extension(tag, content, whole):
    elements = cut(content)
    ask(tag == 0x30 and tags(elements) in ([6, 4], [6, 1, 4]) and elements[0][1])
    critical = elements[1][1] if len(elements) == 3 else b"\x00"
    ask(critical in (b"\x00", b"\xff"))
    return [elements[0][1].hex(), "true" if critical == b"\xff" else "false", written(elements[-1][1]), whole.hex()]


def read_certificate(content):
    """The fields in the order in which the program writes them."""
    outer = cut(content)
    ask(tags(outer) == [0x30])
    outer = cut(outer[0][1])
    ask(tags(outer) == [0x30, 0x30, 3])
    read_algorithm(outer[1][1])
    signature = read_bits(outer[2][1])
    elements = cut(outer[0][1])
    version = 1
    if tags(elements)[:1] == [0xA0]:
        number = cut(elements.pop(0)[1])
        ask(tags(number) == [2] and number[0][1] in (b"\x00", b"\x01", b"\x02"))
        version = number[0][1][0] + 1
    ask(tags(elements)[:6] == [2] + [0x30] * 5 and elements[0][1])
    _, inner, issuer, period, subject, spki = elements[:6]
    read_algorithm(inner[1])
    times = cut(period[1])
    ask(len(times) == 2)
    first, last = [read_time(tag, content) for tag, content, _ in times]
    parts = cut(spki[1])
    ask(tags(parts) == [0x30, 3])
    read_algorithm(parts[0][1])
    read_bits(parts[1][1])
    tail = elements[6:]
    ask(tags(tail) in [ids + more for ids in ([], [0x81], [0x82], [0x81, 0x82]) for more in ([], [0xA3])])
    found = []
    if tags(tail)[-1:] == [0xA3]:
        listed = cut(tail[-1][1])
        ask(tags(listed) == [0x30])
        found = [read_extension(*each) for each in cut(listed[0][1])]
    fields = [inner[2], outer[1][2], issuer[2], subject[2], spki[2], outer[0][2], signature]
    return answer(version, first, last, *map(written, fields), len(found), *sum(found, []))


def read_or_none(content):
    try:
        return read_certificate(content)
    except NoCertificate:
        return None
