"""Values as Rust's Debug prints them, read back: `Bundle(NoLeaf(Extension(Missing(KeyUsage))))`, `NewTreeSmaller { new: 5, old: 6 }`.

Second readers of this folder tell an error by this text. Here it is taken apart, so that its names and what it keeps can be shown."""
import collections
import re

# A name, the text in its parentheses, and its named fields.
Variant = collections.namedtuple("Variant", "name parts fields")
TOKEN = re.compile(r'"(?:[^"\\]|\\.)*"|-?[0-9]+|[A-Za-z_][A-Za-z0-9_]*|[^\s]')
ESCAPED = {"n": "\n", "t": "\t", "r": "\r", '"': '"', "\\": "\\"}
TRUTHS = {"true": True, "false": False}


def unescaped(text):
    """A text without its quotation marks and escapes."""
    def plain(found):
        return chr(int(found[1], 16)) if found[1] else ESCAPED[found[2]]
    return re.sub(r"\\(?:u\{([0-9a-f]+)\}|(.))", plain, text[1:-1])


class Reader:
    """The tokens of a text, from the first that is not read yet."""

    def __init__(self, text):
        self.tokens, self.at = TOKEN.findall(text), 0

    def peek(self):
        return self.tokens[self.at] if self.at < len(self.tokens) else None

    def take(self, wanted=None):
        token = self.tokens[self.at]
        assert wanted in (None, token), f"{token} and not {wanted}"
        self.at += 1
        return token

    def until(self, end, item):
        """The items up to this token, with commas between them."""
        found = []
        while self.peek() != end:
            found.append(item())
            if self.peek() == ",":
                self.take()
        self.take(end)
        return found

    def field(self):
        name = self.take()
        self.take(":")
        return name, self.value()

    def value(self):
        token = self.take()
        if token.startswith('"'):
            return unescaped(token)
        if token == "[":
            return self.until("]", self.value)
        if re.fullmatch("-?[0-9]+", token):
            return int(token)
        return TRUTHS[token] if token in TRUTHS else self.variant(token)

    def variant(self, name):
        if self.peek() == "(":
            self.take()
            return Variant(name, self.until(")", self.value), {})
        if self.peek() == "{":
            self.take()
            return Variant(name, [], dict(self.until("}", self.field)))
        return Variant(name, [], {})


def read(text):
    reader = Reader(text)
    found = reader.value()
    assert reader.peek() is None, f"more after a value: {text}"
    return found
