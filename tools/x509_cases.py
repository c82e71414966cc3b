#!/usr/bin/env python3
"""Writes the tables of crates/x509_cases: `stdin`, the calls, and `stdout`, what they return.

    tools/x509_cases.py

The rows of x509_cases.txt state a change of the fixture leaf and the answer; fixture.py makes the bytes. x509_reader.py reads what is
borrowed from a certificate a second time, and x509_graphs.py finds the issuer in a pool a second time.
"""
import re

import request_cases
import x509_graphs
import x509_paths
from fixture import spelled
from x509_calls import TABLE, answer, case, group, listed
from x509_list_rows import hundreds, hundreds_of_certificates, hundreds_of_names, keyrings, policies
from x509_pool_rows import pools, pools_of_one_name, questions
from x509_rows import bits, rows
from x509_sigstore import changed_sct, profiles, real_certificates, real_sct


def paths():
    x509_paths.rows(group, case, listed, spelled)
    x509_graphs.rows(TABLE)


def requests():
    """The signatures of the leaf and of its SCT in the requests of request_cases.py."""
    TABLE.line("")
    request_cases.add_calls(TABLE, request_cases.leaf_calls)


def errors():
    group("errors inside errors show the names of their variants")
    for name in ["IsCA", "NotCA", "NotRootCA", "Invalid { ca: true, key_cert_sign: false }", "Missing(KeyUsage)", "NotCritical(BasicConstraints)",
                 "BitUnset(KeyUsageDigitalSignature)", "LeafSCTMissing", "LeafSCTMalformed", "IssuerMissing", "KeyNotFound", "VerificationFailed", "TooLong"]:
        short = re.match(r"\w+", name).group()
        case(short, "shown " + short, name)
    case("out of memory, of five types", "shown OutOfMemory", answer(*["OutOfMemory"] * 5))


def main():
    for made in (
        real_certificates, profiles, real_sct, changed_sct, rows, bits, pools, pools_of_one_name, questions, paths, keyrings, hundreds, hundreds_of_names,
        hundreds_of_certificates, policies, requests, errors,
    ):
        made()
    TABLE.write()


if __name__ == "__main__":
    main()
