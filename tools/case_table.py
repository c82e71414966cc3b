"""The table of a program of cases: `stdin`, one call on each line, and `stdout`, what each call returns."""
import pathlib

CRATES = pathlib.Path(__file__).resolve().parent.parent / "crates"


def hexed(data):
    """Bytes as an argument: in hexadecimal, and `-` for none."""
    return data.hex() or "-"


class Table:
    def __init__(self, crate):
        self.crate = crate
        self.rows = []

    def case(self, call, returned):
        self.rows.append((call, returned))

    def line(self, text):
        """A line of both files, which the program writes as it reads it: one without text, or after `#`."""
        self.case(text, text)

    def note(self, text):
        self.line("# " + text)

    def group(self, title):
        """A note with an empty line before it, if anything is before it."""
        if self.rows:
            self.line("")
        self.note(title)

    def write(self):
        for column, name in enumerate(("stdin", "stdout")):
            text = "".join(row[column] + "\n" for row in self.rows)
            (CRATES / self.crate / name).write_text(text, encoding="utf-8", newline="\n")
