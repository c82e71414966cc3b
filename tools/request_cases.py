#!/usr/bin/env python3
"""Writes the tables of crates/request_cases: `stdin`, the calls, and `stdout`, what they return.

    tools/request_cases.py

The cases are a request of fixture.py, unchanged and with one part changed: each signature in it is genuine by the request's own rows, and only
one signature needs each row. The signatures of the leaf and of its SCT are among the cases of x509_cases.py. The table also has what is wrong
with requests, by request_fault_rows.py.
"""
import json
from urllib.parse import quote

import fixture
import request_fault_rows
from case_table import Table
from fixture import key, spelled

REFUSALS = {"envelope": "PublicKeyVerificationError", "promise": "PublicKeyVerificationError",
            "checkpoint": "CheckpointSignatureVerificationError",
            "verify_der_cert": "VerificationFailed", "verify_sct": "Verification(VerificationFailed)"}
PLACES = {"verify_der_cert": 0, "verify_sct": 1, "envelope": 2, "promise": 3, "checkpoint": 4}


def words_of(row):
    """A row of `accepted` as arguments."""
    octets = {name: fixture.base64.b64decode(row[name]) for name in ("key", "message", "signature")}
    scheme = row.get("scheme")
    if row["operation"] == "certificate":
        scheme = spelled(fixture.base64.b64decode(scheme))
    return " ".join(filter(None, [row["operation"], scheme, *map(spelled, octets.values())]))


def calls(request):
    """What asks for a signature: its arguments before the rows."""
    promised = json.loads(request.promised())
    other_order = json.dumps(dict(reversed(promised.items())))
    return {
        "envelope": " ".join([spelled(request.leaf["key"]), fixture.PAYLOAD_TYPE.replace("+", "%2B"), spelled(request.payload),
                              spelled(request.signature)]),
        "promise": " ".join([spelled(key(fixture.LOG_KEY)), quote(other_order), spelled(request.promise)]),
        "checkpoint": " ".join([spelled(key(fixture.LOG_KEY)), quote(fixture.checkpoint(request.root))])}


STAMP = {"time": 1702446656789, "more": b"more", "signature": b"sig-other"}
CHANGES = {
    "the fixture": {},
    "another anchor's key": {"anchor": fixture.anchor(key=fixture.wide_key())},
    "another leaf": {"stamp": STAMP, "leaf": fixture.leaf(fixture.leaf_extensions(
        scts=fixture.sct_list(fixture.sct(**STAMP)),
        issued=fixture.extension(fixture.FULCIO["issuer"], b"https://other.example")))},
    "another time": {"integrated_time": -1},
    "another log index": {"log_index": 901},
    "another promise": {"promise": b"promise"},
    "another signature": {"signature": b"sig"},
    "1024 subjects": {"payload": fixture.statement(subjects=1024)},
}


def leaf_calls(request):
    """The same of the signatures of the leaf and of its SCT, which x509_cases asks for."""
    stamp = {**fixture_stamp(), **request.stamp}
    issuer = request.anchor["key"]
    return {
        "verify_der_cert": " ".join(["1702446655", spelled(request.leaf_der), spelled(fixture.certificate(request.anchor)), "-"]),
        "verify_sct": " ".join([spelled(fixture.sha256(key(fixture.CERTIFICATE_LOG_KEY))), str(stamp["time"]), spelled(fixture.sha256(issuer)),
                                spelled(request.precertificate()), spelled(stamp["more"]), spelled(stamp["signature"]),
                                spelled(key(fixture.CERTIFICATE_LOG_KEY))])}


def fixture_stamp():
    return {"time": 1702446655000, "more": b"", "signature": b"sig-sct"}


def add_calls(table, asked):
    """Adds these calls of each request: by all rows, and of the fixture without each row."""
    for place, (title, change) in enumerate(CHANGES.items()):
        request = fixture.Request(**change)
        rows = list(map(words_of, request.accepted()))
        if place:
            table.line("")
        table.note("a request's signatures by its rows: " + title)
        for call, arguments in asked(request).items():
            good = "ok anchor 0" if call == "verify_der_cert" else "ok"
            table.case(" ".join([call, arguments, *rows]), good)
            for left_out in range(len(rows)) if not change else []:
                fewer = rows[:left_out] + rows[left_out + 1:]
                table.note("without row %d" % left_out)
                table.case(" ".join([call, arguments, *fewer]), REFUSALS[call] if left_out == PLACES[call] else good)


def main():
    table = Table("request_cases")
    add_calls(table, calls)
    request_fault_rows.add(table)
    table.write()


if __name__ == "__main__":
    main()
