"""The rows of the table of `verify` about its three documents: the request, the trusted root, and the bundle as JSON."""
import itertools

import fixture
from fixture import compact
from schemes import UNSIZED_FIRST
from verify_cases import ABSENT, ANCHOR, AUTHORITY, CHECKPOINT, ENTRY, MATERIAL, PROOF, bundle, request, root, row, text_row

# The smallest request, and its reply: no authority.
SMALL = {"trustedRoot": "{}", "bundle": "{}", "now": 0, "digest": "sha256:" + "a" * 64, "policy": {"all": [{"sha": "x"}]}}
READ = "fulcio TrustRoot(Fulcio)"
UNREAD = "request"


def small(name, expected, **changed):
    members = {name: value for name, value in {**SMALL, **changed}.items() if value is not ABSENT}
    text_row("request: " + name, expected, compact(members))


def rule(name, expected, value):
    small("a rule %s" % name, expected, policy={"all": [value]})


def accepted_row(name, expected, **changed):
    members = {"operation": "message", "scheme": "ED25519", "key": "", "message": "", "signature": "", **changed}
    small("accepted: " + name, expected, accepted=[{name: value for name, value in members.items() if value is not ABSENT}])


def requests():
    text = compact(SMALL)
    for name, expected, other in [
            ("the smallest", READ, text), ("cut", UNREAD, text[:-1]), ("nothing", UNREAD, ""), ("a list", UNREAD, "[%s]" % text), ("null", UNREAD,
            "null"),
            ("a text", UNREAD, '"verify"'), ("no member", UNREAD, "{}"), ("a byte after it", UNREAD, text + "}"), ("blanks around it", READ,
            " %s " % text),
            ("a byte order mark", UNREAD, "\ufeff" + text), ("a float in an unknown member", UNREAD, '{"other":0.5,' + text[1:]),
            ("a doubled member, the last fits", READ, '{"now":"x",' + text[1:]),
            ("a doubled member, the last does not fit", UNREAD, text[:-1] + ',"now":"x"}'),
            ("a float in a member that is replaced", READ, '{"now":0.5,' + text[1:]),
            ("a float in an unknown member that is replaced", READ, '{"other":[0.5],"other":0,' + text[1:]),
            ("a float in an unknown member that is replaced by another", UNREAD, '{"other":0.5,"other":-0,' + text[1:]),
            ("a float that is replaced in an unknown member", READ, '{"other":{"a":0.5,"a":0},' + text[1:])]:
        text_row("request: " + name, expected, other)
    for member in SMALL:
        small("no %s" % member, UNREAD, **{member: ABSENT})
        small("null for %s" % member, UNREAD, **{member: None})
        small("a truth value for %s" % member, UNREAD, **{member: True})
        small("a list for %s" % member, UNREAD, **{member: []})
    for member in ("trustedRoot", "bundle"):
        small("an object for %s" % member, UNREAD, **{member: {}})
    small("a number for digest", UNREAD, digest=0)
    small("another member", READ, other={})
    small("null for entries", READ, entries=None)
    for value, expected in (([], READ), (["", "AA=="], READ), ({}, UNREAD), ("AA==", UNREAD), (["AA"], UNREAD), (["AB=="], UNREAD),
                            ([None], UNREAD), ([0], UNREAD), ([["AA=="]], UNREAD)):
        small("entries are %s" % compact(value), expected, entries=value)


def values_of_requests():
    for value, expected in (("0", READ), ("-0", READ), ("007", READ), (2 ** 63 - 1, READ), (str(2 ** 63 - 1), READ), (-2 ** 63, READ),
    (2 ** 63, UNREAD),
                            (str(2 ** 63), UNREAD), (-2 ** 63 - 1, UNREAD), ("", UNREAD), ("+1", UNREAD), (" 1", UNREAD), ("1.0", UNREAD),
                            ("x", UNREAD)):
        small("now is %s" % compact(value), expected, now=value)
    text_row("request: now is -0, which is a float", UNREAD, compact(SMALL).replace('"now":0', '"now":-0'))
    for value, expected in (("sha256:" + "A" * 64, READ), ("sha512:" + "b" * 128, READ), ("sha256:" + "a" * 63, UNREAD),
    ("sha256:" + "a" * 65, UNREAD),
                            ("sha256:" + "g" * 64, UNREAD), ("a" * 64, UNREAD), ("sha256:", UNREAD), ("SHA256:" + "a" * 64, UNREAD),
                            ("sha512:" + "a" * 64, UNREAD),
                            ("sha256:" + "b" * 128, UNREAD), ("sha384:" + "a" * 96, UNREAD), ("sha256-" + "a" * 64, UNREAD),
                            (" sha256:" + "a" * 64, UNREAD), ("sha256:e3b0", UNREAD), ("sha384:", UNREAD),
                            ("sha256: " + "a" * 64, UNREAD), ("sha256:" + "a" * 64 + "\n", UNREAD), ("", UNREAD)):
        small("digest is %s" % compact(value), expected, digest=value)
    policies()
    members_of_rules()
    rows()


def policies():
    one = [{"sha": "x"}]
    for value, expected in (({"any": one}, READ), ({"all": one, "any": None}, READ), ({"all": one, "other": []}, READ), ({"all": one * 2}, READ),
    ({}, UNREAD),
                            ({"all": one, "any": one}, UNREAD), ({"all": []}, UNREAD), ({"any": []}, UNREAD), ({"all": None, "any": None}, UNREAD),
                            ({"All": one}, UNREAD),
                            ({"all": {}}, UNREAD), ({"all": one[0]}, UNREAD), ({"all": "x"}, UNREAD), ({"all": [None]}, UNREAD),
                            ({"all": one + [None]}, UNREAD),
                            ({"all": [one]}, UNREAD), ({"all": [], "any": one}, UNREAD), ({"all": one, "any": []}, UNREAD),
                            ({"any": [{"sha": "a", "name": "b"}]}, UNREAD), ({"any": [{"trigger": 7}]}, UNREAD),
                            ({"all": [{"identity": "https://example.com/workflow", "issuer": "https://issuer.example"},
                                      {"repository": "example/artifact", "note": "ignored"}], "any": None}, READ)):
        small("policy is %s" % compact(value), expected, policy=value)
    for name in ("issuer", "trigger", "sha", "name", "repository", "ref"):
        rule("of %s" % name, READ, {name: "x"})
    rule("of identity and issuer", READ, {"identity": "x", "issuer": "y"})
    rule("of an empty text", READ, {"ref": ""})
    rule("with another member", READ, {"ref": "x", "other": 1})
    rule("with null for another", READ, {"ref": "x", "sha": None})
    rule("of issuer, null for identity", READ, {"identity": None, "issuer": "x"})
    for value in ({}, {"identity": "x"}, {"identity": "x", "issuer": None}, {"other": "x"}, {"sha": "x", "ref": "y"}, {"identity": "x", "sha": "y"},
                  {"identity": "x", "issuer": "y", "sha": "z"}, {"issuer": "x", "ref": "y"}, {"sha": 1}, {"sha": None}, {"sha": ["x"]}, {"sha": {}},
                  {"SHA": "x"},
                  {"ref": "x", "sha": 1}):
        rule("is %s" % compact(value), UNREAD, value)


def members_of_rules():
    """Each two members that a rule may have, and each three of which two are a rule."""
    names = ("identity", "issuer", "trigger", "sha", "name", "repository", "ref")

    def case(name, expected, value):
        small("members of a rule: " + name, expected, policy={"any": [value]})
    for one, other in itertools.combinations(names, 2):
        case("%s and %s" % (one, other), READ if (one, other) == ("identity", "issuer") else UNREAD, {one: "x", other: "y"})
        case("%s, and null for %s" % (one, other), UNREAD if one == "identity" else READ, {one: "x", other: None})
        case("%s, and null for %s" % (other, one), READ, {other: "y", one: None})
    for other in names[2:]:
        case("identity, issuer and %s" % other, UNREAD, {"identity": "x", "issuer": "y", other: "z"})


def rows():
    small("accepted: none", READ, accepted=[])
    small("accepted: null", READ, accepted=None)
    for value in ({}, "x", [None], [[]], ["x"], [{}]):
        small("accepted: %s" % compact(value), UNREAD, accepted=value)
    for name in UNSIZED_FIRST:
        accepted_row("a message under %s" % name, READ, scheme=name)
    for name, changed in [("a digest", dict(operation="prehash")), ("a point", dict(operation="point", scheme=ABSENT)),
                          ("a point, null for the scheme", dict(operation="point", scheme=None)), ("a certificate",
                          dict(operation="certificate", scheme="MAA=")),
                          ("a certificate of an empty algorithm", dict(operation="certificate", scheme="")), ("another member", dict(other=1))]:
        accepted_row(name, READ, **changed)
    for name, changed in [("no operation", dict(operation=ABSENT)), ("null for the operation", dict(operation=None)), ("another operation",
                          dict(operation="Message")),
                          ("no scheme", dict(scheme=ABSENT)), ("another scheme", dict(scheme="ED448")), ("a point with a scheme",
                          dict(operation="point")),
                          ("a certificate without a scheme", dict(operation="certificate", scheme=ABSENT)),
                          ("a certificate under a name", dict(operation="certificate", scheme="ED25519")), ("no key", dict(key=ABSENT)),
                          ("null for the key", dict(key=None)),
                          ("a key that is not base64", dict(key="A")), ("no message", dict(message=ABSENT)), ("a message without padding",
                          dict(message="AA")),
                          ("no signature", dict(signature=ABSENT)), ("a signature with bits left over", dict(signature="AB==")),
                          ("a number for the signature", dict(signature=1))]:
        accepted_row(name, UNREAD, **changed)


# The trusted root's refusals are told apart: not JSON, a float, a member; then that for which it has no keys.

def trusted_roots():
    def read(name, expected, text):
        row("trusted root: " + name, "root-json Json(Root, %s)" % expected if expected else READ, request("trustedRoot", text))
    text = compact(fixture.Request().trusted_root())
    for name, expected, other in [("nothing", "NotJson", ""), ("text after it", "NotJson", text + "x"), ("a byte order mark", "NotJson",
                                  "\ufeff" + text),
                                  ("half a surrogate pair", "NotJson", '{"other":"\\ud800"}'), ("too deep", "NotJson", "[" * 128 + "]" * 128),
                                  ("a number beyond all floats", "NotJson", '{"other":1e999}'), ("a float", "Float", '{"other":1.5}'),
                                  ("a float among lists of another kind", "Float", '{"tlogs":0.5}'),
                                  ("a float that is replaced", None, '{"other":1.5,"other":1}'), ("a float that is replaced inside", None, '{"other":[{"a":1.5,"a":1}]}'),
                                  ("a float that is replaced by another", "Float", '{"other":1.5,"other":-0}'), ("-0", "Float", '{"other":-0}'),
                                  ("an integer of 65 bits", "Float", '{"other":18446744073709551616}'), ("null", "Member", "null"), ("a list",
                                  "Member", "[]"),
                                  ("a text", "Member", '"{}"'), ("deep in a list", "Member", "[" * 127 + "]" * 127), ("no members", None, "{}"),
                                  ("another member", None, '{"mediaType":1}'), ("null for all", None,
                                  '{"certificateAuthorities":null,"tlogs":null,"ctlogs":null}')]:
        read(name, expected, other)

    def member(name, path, value):
        row("trusted root: " + name, "root-json Json(Root, Member)", root(path, value))
    for path in ("certificateAuthorities", "tlogs", "ctlogs"):
        for value in ({}, "x", [None], [[]]):
            member("%s is %s" % (path, compact(value)), path, value)
    for path in (AUTHORITY + ".certChain", AUTHORITY + ".validFor", "tlogs.0.publicKey", "tlogs.0.logId", "ctlogs.0.publicKey.validFor"):
        member("a list for %s" % path, path, [])
    for path in (ANCHOR, "tlogs.0.publicKey.rawBytes", "ctlogs.0.logId.keyId"):
        member("no base64 for %s" % path, path, "A")
        member("a number for %s" % path, path, 1)
    member("null among the certificates", AUTHORITY + ".certChain.certificates", [None])
    times(member)


def times(member):
    for value in ("", "2023-01-01", "2023-01-01T00:00:00", "2023-01-01 00:00:00Z", "2023-01-01t00:00:00Z", "2023-01-01T00:00:00z",
    "2023-02-29T00:00:00Z",
                  "2023-00-01T00:00:00Z", "2023-13-01T00:00:00Z", "2023-01-00T00:00:00Z", "0000-01-01T00:00:00Z", "2023-01-01T24:00:00Z",
                  "2023-01-01T00:60:00Z",
                  "2016-12-31T23:59:60Z", "2023-01-01T00:00:00.Z", "2023-01-01T00:00:00.0123456789Z", "2023-01-01T00:00:00+24:00",
                  "2023-01-01T00:00:00+00:60",
                  "2023-01-01T00:00:00+0000", "+2023-01-01T00:00:00Z", "2023-01-01T00:00:00Z ", 1672531200, {}, True):
        member("a start of %s" % compact(value), AUTHORITY + ".validFor", {"start": value})
    member("an end that is not a time", "tlogs.0.publicKey.validFor", {"end": "never"})
    row("trusted root: the 29th of February of a leap year", "verified 2 5", root(AUTHORITY + ".validFor", {"start": "2020-02-29T00:00:00Z"}))


# The bundle as JSON.

def bundles():
    def read(name, expected, text):
        row("bundle: " + name, expected, request("bundle", text))
    text = compact(fixture.Request().bundle(), canonical=True)
    for name, expected, other in [("nothing", "NotJson", ""), ("too deep", "NotJson", "[" * 128 + "]" * 128), ("a float in an unknown member",
                                  "Float", '{"other":1.0}'),
                                  ("a list", "Member", "[]"), ("both contents", "Member", '{"dsseEnvelope":{},"messageSignature":{}}'),
                                  ("two signers", "Member", '{"verificationMaterial":{"certificate":{},"publicKey":{}}}'),
                                  ("a number for the media type", "Member", '{"mediaType":1}')]:
        read(name, "bundle-json Json(Bundle, %s)" % expected, other)
    read("no members", "material Bundle(VerificationMaterialMissing)", "{}")
    read("null for a content beside the other", "verified 2 5", text[:-1] + ',"messageSignature":null}')
    read("a doubled member", "verified 2 5", '{"mediaType":1,' + text[1:])
    for place, head in [("the bundle", "{"), ("its material", '"verificationMaterial":{'), ("its log entry", '"tlogEntries":[{')]:
        for name, expected, other in [("a float that is replaced", "verified 2 5", '"other":1.5,"other":1,'),
                                      ("a float that is replaced in an unknown member", "verified 2 5", '"other":{"a":[1.5],"a":[]},'),
                                      ("a float that is replaced by another", "bundle-json Json(Bundle, Float)", '"other":1.5,"other":[1.5],')]:
            read("%s, in %s" % (name, place), expected, text.replace(head, head + other, 1))
    for name, path, value in [("an index of 64 bits without a sign", ENTRY + ".logIndex", 2 ** 63), ("a tree size with a plus", PROOF + ".treeSize",
                              "+5"),
                              ("null among the hashes", PROOF + ".hashes", [None]), ("an envelope of bytes", "dsseEnvelope", "AA=="),
                              ("a number for the checkpoint", CHECKPOINT, 1), ("a list for the kind", ENTRY + ".kindVersion", []),
                              ("no base64 for the body", ENTRY + ".canonicalizedBody", "A"),
                              ("an object for the log entries", MATERIAL + ".tlogEntries", {})]:
        row("bundle: " + name, "bundle-json Json(Bundle, Member)", bundle(path, value))
    row("bundle: a kind and version that nobody asks for", "verified 2 5", bundle(ENTRY + ".kindVersion", {"kind": "other", "version": "9"}))


GROUPS = [requests, values_of_requests, trusted_roots, bundles]
