"""The rows of the table of `verify` at limits: how deep each text of a request may nest, and the ends of its integers."""
import fixture
from fixture import WORKFLOW, compact
from verify_cases import ENTRY, PROOF, built, bundle, parts, request, row, text_row

DEEPEST = 127  # lists and objects within one another


def lists(depth):
    return "[" * depth + "]" * depth


def deeper(text, depth):
    """The text of an object with one member more, by which the text nests so deep."""
    return '%s,"other":%s}' % (text[:-1], lists(depth - 1))


def nesting():
    made = fixture.Request()
    whole, root, body = compact(built([])), compact(made.trusted_root()), made.body.decode()
    bundled, payload = compact(made.bundle(), canonical=True), made.payload.decode()
    for depth in (DEEPEST - 1, DEEPEST, DEEPEST + 1, DEEPEST + 2):
        name, fits = "nesting: %d in " % depth, depth <= DEEPEST
        text_row(name + "the request", "verified 2 5" if fits else "request", deeper(whole, depth))
        row(name + "the trusted root", "verified 2 5" if fits else "root-json Json(Root, NotJson)", request("trustedRoot", deeper(root, depth)))
        row(name + "the bundle", "verified 2 5" if fits else "bundle-json Json(Bundle, NotJson)", request("bundle", deeper(bundled, depth)))
        row(name + "the payload", "verified 2 5" if fits else "envelope Bundle(DssePayloadDecode)", parts(payload=deeper(payload, depth).encode()))
        row(name + "the body", "verified 2 5" if fits else "body Signature(Transparency)", parts(body=deeper(body, depth).encode()))


def integers():
    for now, expected in ((0, "fulcio TrustRoot(Fulcio)"), (-1, "fulcio TrustRoot(Fulcio)"), ("-9223372036854775808", "fulcio TrustRoot(Fulcio)")):
        row("limit: now is %s" % now, expected, parts(now=now))
    for time in (0, 2 ** 63 - 1, -2 ** 63):
        row("limit: an entry's time of %d" % time, "time Certificate(Expired)", parts(integrated_time=time))
    for index in (2 ** 63 - 1, -2 ** 63):
        row("limit: a log index of %d" % index, "promise PromiseInteger", parts(log_index=index))
    for size, error in ((2 ** 63 - 1, "inclusion InclusionProofError(WrongProofSize { got: 3, want: 63 })"), (0, "inclusion InclusionProofError(IndexGtTreeSize)")):
        row("limit: a tree of %d" % size, error, parts(noted=fixture.note(fixture.Request().root, size)), bundle(PROOF + ".treeSize", str(size)))
    row("limit: an entry of a log of no id", "log-key LogIdMissing", bundle(ENTRY + ".logId", None))


def policies():
    """Rules one after another; the policy holds if all do, or one."""
    held, failing = {"identity": WORKFLOW, "issuer": fixture.ISSUER}, {"identity": "https://example.com/other", "issuer": fixture.ISSUER}
    row("limit: 300 rules that hold", "verified 2 5", parts(policy={"all": [held] * 300}))
    row("limit: 300 rules of which the last holds", "verified 2 5", parts(policy={"any": [failing] * 299 + [held]}))
    row("limit: 300 rules, none of which holds", "policy Policy(AnyOf { total: 300 })", parts(policy={"any": [failing] * 300}))


GROUPS = [nesting, integers, policies]
