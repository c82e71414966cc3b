"""The table of crates/bundle_cases, and the sections of bundle_cases.txt from which it is made."""
import os

from case_table import Table

HERE = os.path.dirname(os.path.abspath(__file__))
TABLE = Table("bundle_cases")
case, group = TABLE.case, TABLE.group


def named_case(cause, call, expected):
    TABLE.note(cause)
    case(call, expected)


def sections_of_rows():
    """The sections of bundle_cases.txt: their heads, and their rows."""
    sections = []
    with open(os.path.join(HERE, "bundle_cases.txt"), encoding="utf-8") as file:
        for line in file.read().split("\n"):
            if line.startswith("@"):
                sections.append((line[1:], []))
            elif line:
                sections[-1][1].append(line)
    return sections
