#!/usr/bin/env python3
"""Writes the tables of crates/json_cases: `stdin`, the calls, and `stdout`, what they return.

    tools/json_cases.py

json_documents.py says what a text is as a tree, and how a tree is written; none of the project's code runs.
"""
import json_float_rows
from json_calls import TABLE, members_and_list_case, members_of_names_case, say
from json_member_rows import (
    encoded_bytes, hashes, integers, kinds, members_beside_a_list, members_of_names, parts, records, repeated_members, texts_by_names, views,
)
from json_text_rows import nesting, orders, structures, texts
from json_tree_rows import builders, canonicals, equality, errors


def float_rows():
    json_float_rows.rows(say, members_of_names_case, members_and_list_case)


def main():
    for rows in (
        texts, structures, nesting, members_of_names, repeated_members, members_beside_a_list, float_rows, orders, canonicals, views, parts, integers, kinds, encoded_bytes,
        hashes, texts_by_names, records, builders, equality, errors,
    ):
        rows()
    TABLE.write()


if __name__ == "__main__":
    main()
