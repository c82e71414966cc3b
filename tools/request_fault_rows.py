"""What is wrong with requests of `log`, `verify`, `consistency` and `audit`: rows of request_cases.py, whose result request_fault.py says."""
import json

import request_fault

COMPACT = {"separators": (",", ":")}
HASH, OTHER_HASH = "6e340b9cffb37a989ca544e6bb780a2c78901d3fb33738768511a30617afa01d", "AB" * 32
ROW = {"operation": "message", "scheme": "ED25519", "key": "a2V5", "message": "bQ==", "signature": "c2ln"}
HEAD = {"checkpoint": "log.example\n", "scheme": "ECDSA_P256_SHA256_ASN1", "key": "a2V5", "accepted": [ROW]}
RULE = {"identity": "https://example.com/workflow", "issuer": "https://issuer.example"}
REQUESTS = {
    "log": {"entry": "TDE=", "logIndex": 0, "treeSize": "1", "rootHash": HASH, "hashes": [HASH, OTHER_HASH], **HEAD, "entries": ["TDE=", ""]},
    "verify": {"trustedRoot": "{}", "bundle": "", "now": -1, "digest": "sha256:" + HASH, "policy": {"all": [RULE]}, "accepted": [ROW], "entries": []},
    "consistency": {"oldSize": "007", "oldRoot": OTHER_HASH, "treeSize": 2 ** 64 - 1, "rootHash": HASH, "hashes": [], **HEAD, "entries": ["AA=="]},
    "audit": {"heads": [{"checkpoint": "a"}, {"checkpoint": "", "hashes": [HASH]}],
              "watched": [{"head": 1, "index": 0, "hashes": [], "entry": ""}, {"head": "0", "index": 2 ** 64 - 1, "entry": "TDE="}],
              **{name: HEAD[name] for name in ("scheme", "key", "accepted")}, "entries": [""]},
}
OPTIONAL = ("hashes", "watched", "accepted", "entries")
VALUES = [1, "", "AA=", HASH, HASH[1:], -1, 2 ** 63, str(2 ** 63), str(-2 ** 63), str(2 ** 64), "1.5", True, [], [None], [HASH, HASH[1:]], ["AA==", "A"],
          {}, "sha512:" + 2 * HASH, "sha512:" + HASH, "RSA_PSS_SHA256", "ed25519"]
POLICIES = [
    {}, {"all": []}, {"any": []}, {"all": None, "any": None}, {"all": [RULE], "any": None}, {"any": [RULE]}, {"all": [RULE], "any": [RULE]},
    {"any": [RULE], "all": []}, {"all": [{}], "any": [RULE]}, {"all": {}}, {"any": 1}, {"all": [RULE, None]}, {"all": [RULE, {}]}, {"any": [[]]},
    {"other": [RULE]}, [RULE], "all",
]
RULES = [
    {"issuer": "i"}, {"identity": "i"}, {"identity": 1}, {"identity": None, "issuer": "i"}, {"issuer": 0}, {"issuer": None}, {"trigger": "t"},
    {"sha": "s"}, {"name": "n"}, {"repository": "r"}, {"ref": "r"}, {"trigger": []}, {"ref": 1}, {"trigger": "t", "sha": "s"}, {"ref": "r", "name": "n"},
    {"name": "n", "repository": None, "ref": "r"}, {"trigger": "t", "ref": 1}, {"issuer": "i", "trigger": "t"}, {"identity": "i", "ref": "r"},
    {"identity": "i", "issuer": "i", "sha": "s"}, {"identity": None, "issuer": None, "sha": "s", "other": 1}, {"issuer": "i", "sha": 1},
]
ROWS = [{**ROW, **change} for change in (
    {"operation": "prehash"}, {"operation": "point"}, {"operation": "point", "scheme": None}, {"operation": "point", "scheme": 1},
    {"operation": "certificate"}, {"operation": "certificate", "scheme": "MAA="}, {"operation": "certificate", "scheme": None}, {"operation": "Message"},
    {"operation": None}, {"operation": 1, "scheme": 1}, {"scheme": None}, {"scheme": "MAA="}, {"scheme": 1}, {"key": None}, {"key": "a"}, {"message": 1},
    {"message": None, "signature": None}, {"signature": []}, {"signature": None}, {"other": 1})] + [1, None, [], {}]
WATCHES = [{"head": 0, "index": 0, "entry": "", **change} for change in (
    {"head": 2}, {"head": "2"}, {"head": 2 ** 64 - 1}, {"head": -1}, {"head": "x"}, {"head": True}, {"head": None}, {"index": -1}, {"index": None},
    {"hashes": [HASH, 1]}, {"hashes": {}}, {"entry": None}, {"entry": "A"}, {"head": 2, "index": None}, {"other": 1})] + [1, None]


def changed(command):
    """The request with one member absent, null, or of each value, and without the members that may be absent."""
    request = {name: value for name, value in REQUESTS[command].items() if name not in OPTIONAL}
    for name in REQUESTS[command]:
        yield {each: value for each, value in request.items() if each != name}
        for value in [None, *VALUES]:
            yield {**request, name: value}


def broken(command):
    """Requests without their last members, and with members in another order: the first that breaks the table is named."""
    names = list(REQUESTS[command])
    for count in range(len(names)):
        yield {name: True for name in names[count:][::-1]} | {name: REQUESTS[command][name] for name in names[:count]}


def parts(command):
    """The request with other accepted signatures, and with other policies or heads."""
    request = REQUESTS[command]
    for row in ROWS:
        yield {**request, "accepted": [ROW, row]}
    yield {**request, "accepted": [ROWS[3], ROWS[0]], "entries": 0}
    if command == "verify":
        for policy in POLICIES + [{form: [RULE, rule]} for form, rule in zip(["all", "any"] * len(RULES), RULES)]:
            yield {**request, "policy": policy}
    if command == "audit":
        for watch in WATCHES:
            yield {**request, "watched": [*request["watched"], watch]}
        for count in (0, 1, 256, 257):
            yield {**request, "heads": request["heads"][:1] * count}
        yield {**request, "heads": [0] * 257}
        yield {**request, "heads": request["heads"][:1] * 256, "watched": [{"head": 255, "index": 0, "entry": ""}, {"head": 256}]}
        for count in (4096, 4097):
            yield {**request, "watched": [0] * count}
        for head in ({}, {"checkpoint": None}, {"checkpoint": 1}, {"checkpoint": "", "hashes": [HASH[1:]]}, {"checkpoint": "", "other": 1}, 1):
            yield {**request, "heads": [request["heads"][0], head]}


def texts(command):
    """Texts that are not objects, and what is wrong before any member is looked at."""
    for text in ("", "{", "null", "[]", "1", '"{}"', '{"a":1.5}', '{"a":1.5,"a":1}', '{"entry":1,"a":[1e0]}', '{"a":"\\ud800"}', "{}", "{} x"):
        yield text


def add(table):
    for command, request in REQUESTS.items():
        call = command + "_request_fault "
        table.group("what is wrong with requests of `%s`" % command)
        said = set()
        for found in (request, *changed(command), *broken(command), *parts(command), *texts(command)):
            text = found if isinstance(found, str) else json.dumps(found, **COMPACT)
            if text not in said:
                said.add(text)
                table.case(call + text, request_fault.request_fault(command, text))
    table.group("what is wrong with spaces, and with more of them than a request may have bytes, as requests of each command")
    for count in (0, 1, 5000, request_fault.MOST + 1):
        table.case("spaces_fault %d" % count, " ".join(request_fault.request_fault(command, " " * count) for command in REQUESTS))
