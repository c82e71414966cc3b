"""What LINKS.md says about whole bundles: which are refused, at which link, and what the chain does not test."""
import json
import os
import subprocess
import tempfile

import signed
from fixture import BASIC_CONSTRAINTS, BIT_STRING, KEY_USAGE, SEQUENCE, base64_of, compact, der, extension, oid
from signed import IDENTITY, ISSUER, Signed, fixture
from test_common import ADAPTER, HERE, file_of, run, words_of

LINKS = os.path.join(HERE, "..", "..", "docs", "LINKS.md")
README = os.path.join(HERE, "..", "..", "README.md")
DECISIONS = os.path.join(HERE, "..", "..", "docs", "DECISIONS.md")
REQUESTS = os.path.join(HERE, "..", "..", "docs", "REQUESTS.md")
ENDED = {"start": "2023-01-01T00:00:00Z", "end": "2023-12-13T23:59:59Z"}  # a second before the time of the runs
BEGUN = {"start": "2023-12-13T12:00:00Z"}  # after the entry's time
PAST = {"start": "2020-01-01T00:00:00Z", "end": "2021-01-01T00:00:00Z"}


def other(predicate):
    """Statements with this predicate."""
    return lambda digest: fixture.statement(digest).replace(b'"predicate":{}', b'"predicate":' + predicate)


def spaced_body(payload, signature, signer):
    """The body whose envelope hash is of JSON with blanks."""
    body = json.loads(fixture.body_of(payload, signature, signer))
    envelope = json.loads(fixture.envelope_json(payload, signature))
    body["spec"]["envelopeHash"]["value"] = fixture.sha256(json.dumps(envelope).encode()).hex()
    return compact(body).encode()


def signature_of(signature, signer):
    """How a body of Rekor's second version has a signature."""
    verifier = {"x509Certificate": {"rawBytes": base64_of(signer)}, "keyDetails": "PKIX_ECDSA_P256_SHA_256"}
    return {"content": base64_of(signature), "verifier": verifier}


def second_dsse(payload, signature, signer):
    """The body of an entry of Rekor's second version, over an envelope."""
    digest = {"algorithm": "SHA2_256", "digest": base64_of(fixture.sha256(payload))}
    spec = {"dsseV002": {"payloadHash": digest, "signatures": [signature_of(signature, signer)]}}
    return compact({"apiVersion": "0.0.2", "kind": "dsse", "spec": spec}).encode()


def second_hashedrekord(digest, signature, signer):
    """Likewise over an artifact's digest."""
    data = {"algorithm": "SHA2_256", "digest": base64_of(digest)}
    spec = {"hashedRekordV002": {"data": data, "signature": signature_of(signature, signer)}}
    return compact({"apiVersion": "0.0.2", "kind": "hashedrekord", "spec": spec}).encode()


# How the files of a request become others: by functions of the trusted root and the bundle, both as values.

def entry_of(bundle):
    return bundle["verificationMaterial"]["tlogEntries"][0]


def without_promise(root, bundle):
    del entry_of(bundle)["inclusionPromise"]


def second_entry(root, bundle):
    without_promise(root, bundle)
    entry_of(bundle)["integratedTime"] = "0"


def bare_key(root, bundle):
    material = bundle["verificationMaterial"]
    del material["certificate"]
    material["publicKey"] = {"hint": "a key"}


def cosigned(root, bundle):
    entry_of(bundle)["inclusionProof"]["checkpoint"]["envelope"] += "\u2014 witness.example %s\n" % base64_of(bytes(68))


def older_cosign(root, bundle):
    entry = entry_of(bundle)
    payload = {"body": entry["canonicalizedBody"], "integratedTime": int(entry["integratedTime"]),
               "logIndex": int(entry["logIndex"]), "logID": "00" * 32}
    promise = entry["inclusionPromise"]["signedEntryTimestamp"]
    return {"base64Signature": "AAAA", "cert": bundle["verificationMaterial"]["certificate"]["rawBytes"],
            "rekorBundle": {"SignedEntryTimestamp": promise, "Payload": payload}}


def wrapped(root, bundle):
    return {"attestations": [{"bundle": bundle, "repository_id": 1}]}


def ranged(place, valid_for):
    """The keys or authorities of one kind of the trusted root have this `validFor`."""
    def change(root, bundle):
        for held in root[place]:
            held.get("publicKey", held)["validFor"] = valid_for
    return change


def second_log(root, bundle):
    """The Certificate Transparency log has ended, and another has not."""
    other_key = signed.signer("P-256", "stranger").spki
    held = json.loads(compact(root["ctlogs"][0]))
    held["publicKey"]["rawBytes"], held["logId"]["keyId"] = base64_of(other_key), base64_of(fixture.sha256(other_key))
    ranged("ctlogs", ENDED)(root, bundle)
    root["ctlogs"].append(held)


def chain_of(bundle):
    return bundle["verificationMaterial"]["x509CertificateChain"]["certificates"]


def many_certificates(root, bundle):
    chain_of(bundle).extend(chain_of(bundle)[1:] * 16)


def root_too(root, bundle):
    chain_of(bundle).extend(root["certificateAuthorities"][0]["certChain"]["certificates"][-1:])


NEWER_ISSUER = extension(oid("1.3.6.1.4.1.57264.1.8"), der(0x0C, ISSUER.encode()))

# By the first column of the table: the link, the parts of `Signed`, and what is made of its files.
REFUSED = {
    "a payload with a float, as `1.5` in a predicate": ("envelope", dict(payload=other(b'{"score":1.5}')), None),
    "an issuer in the newer extension alone, 1.3.6.1.4.1.57264.1.8": ("policy", dict(issued=NEWER_ISSUER), None),
    "two SCTs in the certificate": ("sct", dict(stamps=2), None),
    "no promise of the log, of version 0.2 or 0.3": ("promise", {}, without_promise),
    "no promise of the log, of version 0.1": ("profile", dict(profile="0.1"), without_promise),
    "an entry of Rekor version 2": ("body", dict(body=second_dsse), second_entry),
    "an envelope hash in the log entry over JSON in another spelling": ("body", dict(body=spaced_body), None),
    "a bare key in place of a certificate": ("material", {}, bare_key),
    "cosign's older bundle, with `base64Signature` and `rekorBundle`": ("material", {}, older_cosign),
    "the reply of GitHub's API, `{\"attestations\": [..]}`": ("material", {}, wrapped),
    "several bundles in one file, as lines": ("bundle-json", {}, "lines"),
    "several bundles in one file, as a list": ("bundle-json", {}, "list"),
    "a key of the transparency log that has ended": ("log-key", {}, ranged("tlogs", ENDED)),
    "all Certificate Transparency logs have ended": ("ctfe", {}, ranged("ctlogs", ENDED)),
    "the certificate's Certificate Transparency log has ended": ("sct", {}, second_log),
    "a checkpoint with a second signature, of a witness": ("checkpoint", {}, cosigned),
    "a trusted root with the root certificate alone, and a bundle without the certificates between":
        ("issuer", dict(chain=1, alone=True, left_out=0), None),
    "a chain of more than 17 certificates": ("certificate", dict(chain=1, alone=True), many_certificates),
    "a chain that has the root too": ("root-in-chain", dict(chain=1, alone=True), root_too),
}

# Further bundles of its rows.
REFUSED_TOO = [
    *[("no promise of the log, of version 0.2 or 0.3", dict(profile=profile, content=content), without_promise)
      for profile in ("0.2", "0.3") for content in ("envelope", "message")],
    ("no promise of the log, of version 0.1", dict(profile="0.1", content="message"), without_promise),
    ("an entry of Rekor version 2", dict(content="message", body=second_hashedrekord), second_entry),
]

NOT_CA = fixture.extensions(extension(BASIC_CONSTRAINTS, der(SEQUENCE), critical=True))
NO_PURPOSE = fixture.extensions(extension(KEY_USAGE, der(BIT_STRING, b"\x07\x80"), critical=True))

EXPIRED, COMING = fixture.validity("200101000000Z", "210101000000Z"), fixture.validity("400101000000Z", "410101000000Z")
BOTH_ISSUERS = extension(fixture.FULCIO["issuer"], ISSUER.encode()) + NEWER_ISSUER

OF_ANCHOR = ("of a trust anchor its own validity, its being a CA and its own signature are not tested",
             "Its own validity, basic constraints, key usage and signature are not tested")

# By the first column of the table of what no link tests, whose bundles are verified: the parts of `Signed`, what is made of its
# files, and the words of README.md and of DECISIONS.md.
UNTESTED = {
    "the certificate was issued after its authority's `validFor` ended":
        ({}, ranged("certificateAuthorities", PAST),
         "an authority whose `validFor` has ended still counts", "a certificate issued after the end passes"),
    "the trust anchor's own validity has ended": (dict(anchor=dict(validity=EXPIRED)), None, *OF_ANCHOR),
    "the trust anchor's own validity has not begun": (dict(anchor=dict(validity=COMING)), None, *OF_ANCHOR),
    "the trust anchor is not a CA by its basic constraints": (dict(anchor=dict(extensions=NOT_CA)), None, *OF_ANCHOR),
    "the trust anchor may not sign certificates by its key usage": (dict(anchor=dict(extensions=NO_PURPOSE)), None, *OF_ANCHOR),
    "the trust anchor's own signature is broken":
        (dict(anchor=dict(signature=der(BIT_STRING, b"\0", b"broken"))), None, *OF_ANCHOR),
    "the range of the log's key begins after the entry":
        ({}, ranged("tlogs", BEGUN), "compared with *now*, not with the time of the entry", "a key whose range began after the entry passes"),
    "the range of the key of the Certificate Transparency log begins after the SCT":
        ({}, ranged("ctlogs", BEGUN), "the range of a log's key is compared with *now*", "not with the time of the entry or of the SCT"),
}

# Bundles that are verified, though they have a property that is near to one of REFUSED.
VERIFIED_TOO = {
    "a bundle as the one line of its file": ({}, "line"),
    "the newer issuer beside the older": (dict(issued=BOTH_ISSUERS), None),
}


def reply_to(program, parts, change):
    """The status and the reply where the files are changed so."""
    made = Signed(**parts)
    with tempfile.TemporaryDirectory() as folder:
        signed.write(folder, made)
        root, bundle = made.trusted_root(), made.bundle()
        if callable(change):
            bundle = change(root, bundle) or bundle
        text = compact(bundle)
        text = {"lines": f"{text}\n{text}\n", "list": f"[{text},{text}]", "line": text + "\n"}.get(change, text)
        file_of(folder, "trusted_root.json", compact(root).encode())
        file_of(folder, "bundle.json", text.encode())
        return run(words_of(folder, program))


def rows_of(path, heading):
    """The rows of the table under a heading, as lists of cells."""
    with open(path, encoding="utf-8") as file:
        part = file.read().split(f"\n## {heading}\n", 1)[1].split("\n## ", 1)[0]
    rows = [line.strip("|").split("|") for line in part.splitlines() if line.startswith("|")]
    return [[cell.strip() for cell in row] for row in rows[2:]]


def check_refused(results, program):
    for title, parts, change in [*[(title, *row[1:]) for title, row in REFUSED.items()], *REFUSED_TOO]:
        results.compare(f"{title}, {parts}", reply_to(program, parts, change), (1, f"refused {REFUSED[title][0]}\n", ""))
    table = {row[0]: row[1] for row in rows_of(LINKS, "Bundles that are refused, and why")}
    results.compare("the table of LINKS.md", table, {title: f"`{link}`" for title, (link, *_) in REFUSED.items()})


def part_of(path, first, last):
    """What a document has between two texts, on one line."""
    with open(path, encoding="utf-8") as file:
        return " ".join(file.read().split(first, 1)[1].split(last, 1)[0].split())


def check_untested(results, program):
    for title, (parts, change, *_) in {**UNTESTED, **VERIFIED_TOO}.items():
        results.compare(title, reply_to(program, parts, change), (0, "verified 2 5\n", ""))
    results.compare("what no link tests, by LINKS.md", [row[0] for row in rows_of(LINKS, "What no link tests")], list(UNTESTED))
    readme, decisions = part_of(README, "What it does not do:", "\n"), part_of(DECISIONS, "## What a trusted root vouches for\n", "\n## ")
    for title, (_, _, *said) in UNTESTED.items():
        results.compare(f"{title}, by README.md and DECISIONS.md", [text in part for text, part in zip(said, (readme, decisions))], [True] * 2)


def check_other_files(results, program):
    """Files of another kind."""
    with tempfile.TemporaryDirectory() as folder:
        signed.write(folder, Signed())
        empty, no_rows = file_of(folder, "empty.json", b"{}"), file_of(folder, "list.json", b"[]")
        root, bundle = [os.path.join(folder, f"{name}.json") for name in ("trusted_root", "bundle")]
        for wanted, changes in [("fulcio", {"trusted_root": empty}), ("fulcio", {"trusted_root": bundle}),
                                ("root-json", {"trusted_root": no_rows}),
                                ("material", {"bundle": empty}), ("material", {"bundle": root})]:
            gave = run(words_of(folder, program, **changes))
            results.compare(f"other files: {changes}", gave, (1, f"refused {wanted}\n", ""))


# Policies: which extension each rule compares.

def check_rules(results, program):
    """Each extension has a text of its own: a rule holds only for that of the extension that REQUESTS.md names."""
    rules = {row[0].strip("`"): row[1] for row in rows_of(REQUESTS, "The rules of a policy")}
    identifiers = {name.split("`")[0]: cell.split(",")[0] for name, cell in rules.items()}
    texts = {number: f"text {number}" for number in range(1, 7)}
    more = b"".join(extension(oid(f"1.3.6.1.4.1.57264.1.{number}"), text.encode()) for number, text in texts.items())
    made = Signed(issued=more, workflow={})
    results.compare("the rules of REQUESTS.md", sorted(identifiers),
                    sorted(["identity", "issuer", "trigger", "sha", "name", "repository", "ref"]))
    with tempfile.TemporaryDirectory() as folder:
        signed.write(folder, made)
        request = json.loads(run(words_of(folder, program, issuer="text 1") + ["--print-request"])[1])
    for name, identifier in identifiers.items():
        for number, text in texts.items():
            rule = {"identity": IDENTITY, "issuer": text} if name == "identity" else {name: text}
            given = compact({**request, "policy": {"all": [rule]}}).encode()
            done = subprocess.run([program, "verify"], input=given, capture_output=True)
            named = identifier == f"1.3.6.1.4.1.57264.1.{number}"
            results.compare(f"{rule} by {identifier}", done.stdout, b"verified 2 5\n" if named else b"refused policy\n")


# What the adapters and README.md say is trusted.

TRUSTED = ["is_genuine", "sha256:HEX", "sha512:HEX", "standard input", "all hold which the words name", "what they say of the workflow",
           "--now", "are those of the files", "the status is 0 only of a reply", "several artifacts", "the artifact whose reply",
           "`env -S`", "/bin/sh", "40, 41 and 42 of Python", "3 of every other end", "--sigverify", "PATH", "SIGVERIFY_BUILD=quick", "up to date",
           "pattern", "words of explanations", "adapters/python/sigverify.py", "package cryptography"]


def check_trusted(results, _):
    """The list at the head of sigverify-bundle and README.md name the same."""
    for path, first, last in (ADAPTER, "all that is trusted of it:", '"""'), (README, "Trusted of `adapters/openssl` are:", "\n"):
        listed = part_of(path, first, last)
        results.compare(f"what is trusted, by {path}", [each for each in TRUSTED if each not in listed], [])


PARTS = check_refused, check_untested, check_other_files, check_rules, check_trusted
