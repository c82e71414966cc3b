"""The text of a distinguished name (RFC 4514), for names whose parts have one attribute each (RFC 5280 section 4.1.2.4), whose type has a name
there and whose value is a text: PrintableString, UTF8String or IA5String. Other names have no text here."""
import x509_reader as x509
from fixture import oid

MOST_PARTS = 64
PRINTABLE, UTF8, IA5 = 0x13, 0x0C, 0x16
# RFC 4514 section 3
TYPES = {"2.5.4.3": "CN", "2.5.4.6": "C", "2.5.4.7": "L", "2.5.4.8": "ST", "2.5.4.9": "STREET", "2.5.4.10": "O", "2.5.4.11": "OU",
         "0.9.2342.19200300.100.1.25": "DC", "0.9.2342.19200300.100.1.1": "UID"}
NAMES = {oid(dotted): name for dotted, name in TYPES.items()}


def inside(elements, *kinds):
    """The contents of these elements, which have to be of these kinds."""
    x509.ask(x509.tags(elements) == list(kinds))
    return [content for _, content, _ in elements]


def part(content):
    """The name of the type and the value of a part, a SET of one SEQUENCE."""
    [attribute] = inside(x509.cut(content), 0x30)
    elements = x509.cut(attribute)
    x509.ask(len(elements) == 2 and elements[0][0] == 6 and elements[0][1] in NAMES and elements[1][0] in (PRINTABLE, UTF8, IA5))
    return NAMES[elements[0][1]], elements[1][1]


def escaped(value):
    """Section 2.4: the special characters after a backslash, a null character as two digits, and spaces and a number sign at the ends."""
    last = len(value) - 1
    for at, byte in enumerate(value):
        special = byte in b'"+,;<>\\' or byte == 0x20 and at in (0, last) or byte == 0x23 and at == 0
        yield b"\\00" if byte == 0 else b"\\" * special + bytes([byte])


def name_text(der):
    """The text of a name; None where it has none here."""
    try:
        [content] = inside(x509.cut(der), 0x30)
        sets = x509.cut(content)
        parts = [part(each) for each in inside(sets, *[0x31] * len(sets))]
        x509.ask(len(parts) <= MOST_PARTS)
        return b",".join(name.encode() + b"=" + b"".join(escaped(value)) for name, value in reversed(parts)).decode()
    except (x509.NoCertificate, UnicodeDecodeError):
        return None
