"""What the JSON of `sigverify explain` says to a person: at most ten lines of plain English.

No verdict rests on these words, and no other file of the adapters words that JSON. WORDS has the sentence for each cause;
DETAILS and VERIFIED have what follows it, and what is said where every link holds. The members of the JSON are in braces,
as docs/LINKS.md has them. A text that somebody else wrote, such as a name of a certificate, is in a line as it is
if it has neither blanks nor quotes, and otherwise between quotes, so that it cannot pass for words of the sentence.
"""
import json
import re
import sys

from explain_table import DETAILS, PARTS, RULES, SAYS, VERIFIED, WHY, WORDS
from start import shown

MOST_LINES = 10
MOST_LISTED = 3  # of a list in a line
FULCIO_NAME = "2b0601040183bf300107"  # 1.3.6.1.4.1.57264.1.7, the other name that is an identity
DOCUMENTS = {"root-json": "the trusted root", "bundle-json": "the bundle"}


def read(line):
    """The object of the last line that `explain` wrote."""
    try:
        found = json.loads(line)
    except (RecursionError, ValueError):
        found = None
    return found if isinstance(found, dict) else sys.exit("no reply: the last line of `explain` is not an object of JSON")


# Values.

def quoted(text):
    """A text on one line, between quotes if it could pass for other words."""
    if re.fullmatch("[!#-~]+", text):
        return text
    return '"' + shown(text.replace("\\", "\\\\").replace('"', '\\"')) + '"'


def text_of(members, name):
    """The text of a member, and where it is cut, how long it is."""
    length = members.get(f"{name}Length")
    return quoted(str(members[name])) + (f" (cut, of {length} bytes)" if length else "")


def name_text(name):
    """A name of a certificate's subject alternative name."""
    for kind in "email", "uri":
        if kind in name:
            return text_of(name, kind)
    if "otherName" not in name:
        return "a name of a kind that is not read"
    said = text_of(name, "value") if "value" in name else "no text"
    return said if name["otherName"] == FULCIO_NAME else f"{said} (other name {name['otherName']})"


def tree_text(tree):
    place = f"index {tree['logIndex']} of " if "logIndex" in tree else ""
    origin = f", by the log {text_of(tree, 'origin')}" if "origin" in tree else ""
    root = f" with the root hash {tree['rootHash']}" if "rootHash" in tree else ""
    return f"{place}{tree['treeSize']} entries{root}{origin}"


def object_text(value):
    """What an object says, by its members."""
    if "seconds" in value:
        return value.get("utc", f"{value['seconds']} seconds since 1970")
    if "treeSize" in value:
        return tree_text(value)
    if "digests" in value:
        named = text_of(value, "name") if "name" in value else "a subject without a name"
        return f"{named} ({listed(value['digests'])})" if value["digests"] else named
    if "algorithm" in value:
        return f"{text_of(value, 'algorithm')}:{text_of(value, 'value')}"
    if {"sha256", "sha512"} & set(value):
        return ", ".join(f"{algorithm}:{digits}" for algorithm, digits in value.items())
    return name_text(value)


def listed(values, count=None):
    """The first of a list that has this many elements."""
    texts = [object_text(each) if isinstance(each, dict) else quoted(str(each)) for each in values[:MOST_LISTED]]
    left = int(count or len(values)) - len(texts)
    return (", ".join(texts) or "none") + (f" and {left} more" if left > 0 else "")


# Sentences.

def fault(members):
    """Which member of a document breaks its table, and how."""
    if "path" not in members:
        return None
    path = "the text as a whole" if members["path"] == "." else f"the member `{text_of(members, 'path')}`"
    return f"{path} {WHY.get(members.get('why'), 'is not what it has to be')}"


def rules_refused(members):
    """For each rule that does not hold, what the certificate says and what was asked for."""
    rules = members.get("policy", members).get("rules", members.get("refusals", [members]))
    return [rule_text(rule) for rule in rules if "cause" in rule and ("extension" in rule or "rule" in rule)]


def rule_text(rule):
    if "extension" not in rule:
        return f"the certificate has no {RULES.get(rule['rule'], quoted(rule['rule']))} that is read, and one was asked for"
    said = SAYS.get(rule["extension"], "{extension}: the certificate says {actual}, and {expected} was asked for")
    return filled(said, {**rule, "actual": rule["actual"] or "nothing"} if rule["extension"] == "SubjectAltName" else rule)


def first_of(texts, count):
    """The first texts of this many."""
    left = count - len(texts)
    return ("; ".join(texts) or "none") + (f" and {left} more" if left else "")


def with_now(said, members):
    """What is said about ranges of the trusted root, and the time at which they were looked at."""
    return f"{said}; now is {object_text(members['now'])}" if "now" in members else said


def logs(members):
    """What the trusted root has about the log that was asked for, and otherwise which logs it has. A Certificate Transparency log is
    known by the SHA-256 of its key (RFC 6962 section 3.2), and the log of an entry by the id that the trusted root gives."""
    kind, name = ("ctlogs", "keySha256") if "ctlogs" in members else ("tlogs", "logId")
    held = members.get(kind)
    if held is None:
        return None
    found = [log for log in held if "logId" in members and log.get(name) == members["logId"]]
    if found:
        return with_now("the trusted root has this log: " + "; ".join(map(key_text, found[:MOST_LISTED])), members)
    others = [f"{quoted(log[name]) if name in log else 'one'} ({key_text(log)})" for log in held[:MOST_LISTED]]
    return with_now(f"logs of the trusted root: {first_of(others, len(held))}", members)


def key_text(log):
    """The range of a log's key. A log without an id is not used."""
    said = range_text(log, "its key's range") if "state" in log else "without a key"
    return ", ".join(["without an id"] * ("logId" not in log) + [said])


def range_text(each, whose):
    """Whether a range holds, and which it is."""
    times = [f" {word} {object_text(each[name])}" for word, name in (("from", "start"), ("to", "end")) if name in each]
    state = {"holds": "holds", "ended": "has ended", "not begun": "has not begun"}.get(each["state"], quoted(each["state"]))
    return f"{whose} {state}" + ("," if times else "") + "".join(times)


def authorities(members):
    """Which certificate authorities the trusted root has, by their ranges."""
    held = members.get("certificateAuthorities")
    if held is None:
        return None
    counts = {"0": "no certificates", "1": "1 certificate"}
    said = [f"one with {counts.get(count, f'{count} certificates')} ({range_text(each, 'its range')})"
            for each in held[:MOST_LISTED] for count in [each["certificateCount"]]]
    return with_now(f"authorities of the trusted root: {first_of(said, int(members['certificateAuthorityCount']))}", members)


def accepted(members):
    """Which of the three mistakes was made where no accepted signature is the one that was asked for."""
    if "accepted" not in members:
        return None
    names = "key", "message", "signature"
    has = [f"the {name}" for name in names if name in members["accepted"]]
    lacks = [f"the {name}" for name in names if name not in members["accepted"]]
    if not lacks:
        return "accepted signatures have key, message and signature, but none all three under this scheme"
    if not has:
        return "no accepted signature has the key, the message or the signature"
    return f"accepted signatures have {' and '.join(has)}, and none has {' or '.join(lacks)}"


def anchors(members):
    if "anchors" not in members:
        return None
    return f"trust anchors of this name, by their index: {listed(members['anchors'], members.get('anchorCount'))}"


def total(members):
    """How many rules the policy has."""
    return members.get("total") or members.get("policy", {}).get("total")


def several(members):
    """How many of several rules do not hold, where all have to."""
    rules, count = members.get("policy", members).get("rules", []), total(members)
    if len(rules) < 2 or "AllOf" not in members["cause"]:
        return None
    failed = sum("cause" in rule for rule in rules)
    return f"rules that do not hold: {failed} of " + (count if count == str(len(rules)) else f"the first {len(rules)} of {count}")


def workflow(members):
    certificate = members.get("certificate", {})
    said = [f"{RULES[name]} {text_of(certificate, name)}" for name in list(RULES)[2:] if name in certificate]
    return "the certificate says besides: " + ", ".join(said) if said else None


def rules_held(members):
    policy = members.get("policy", {})
    held = [rule["rule"] for rule in policy.get("rules", []) if "cause" not in rule]
    asked = {"all": "all of its rules hold", "any": "one of its rules holds"}.get(policy.get("require"))
    return asked and f"the policy asks that {asked}, {policy.get('total')} in number, and these do: {', '.join(held)}"


MADE = {
    "document": lambda members: DOCUMENTS.get(members.get("link"), "the document"), "fault": fault, "logs": logs,
    "part": lambda members: PARTS.get(members.get("part")), "anchors": anchors, "accepted": accepted, "authorities": authorities,
    "workflow": workflow, "rulesHeld": rules_held, "total": total, "several": several,
    "rules": lambda members: (rules_refused(members) or ["a rule does not hold that is not among the first 32"])[0],
    "set": lambda members: " and ".join(members["set"]) or "neither" if "set" in members else None,
    "subjectDigests": lambda members: "subjectDigests" in members and listed(
        members["subjectDigests"], members.get("subjectDigestCount")) or None,
}


def value_of(members, path):
    """What a sentence has in place of a path of members; None where there is no such member."""
    if path in MADE:
        return MADE[path](members)
    *outer, name = path.split(".")
    for each in outer:
        members = members.get(each, {})
    if not isinstance(members, dict) or name not in members:
        return None
    value = members[name]
    if isinstance(value, dict):
        return object_text(value)
    if name == "names" and not value:
        return "nobody whose name is read"
    return listed(value, members.get(f"{name[:-1]}Count")) if isinstance(value, list) else text_of(members, name)


def filled(sentence, members, absent=None):
    """The sentence with what its braces name; None if a member is absent, and no words stand for it."""
    values = {path: value_of(members, path) for path in re.findall(r"\{([A-Za-z0-9.]+)\}", sentence)}
    if absent is None and None in values.values():
        return None
    return re.sub(r"\{([A-Za-z0-9.]+)\}", lambda found: absent if values[found[1]] is None else values[found[1]], sentence)


def first_filled(sentences, members):
    """The first of some sentences of which all members are there; or one alone."""
    made = [filled(each, members) for each in ([sentences] if isinstance(sentences, str) else sentences)]
    return next((each for each in made if each), None)


# Refusals.

def words_of(members):
    """The sentence for the cause."""
    cause, link = tuple(members.get("cause", [])), members.get("link")
    words = WORDS.get(cause)
    if isinstance(words, dict):
        words = words.get(link)
    return filled(words, members, "what is not shown") if words else f"by the cause {'/'.join(map(quoted, cause))}"


def refusal(members, place=""):
    """What was refused, and why."""
    return f"refused {quoted(members['link'])}{place}: {words_of(members)}"


def refused(members, place):
    """The refusal, and what the link compares."""
    yield refusal(members, place)
    details = rules_refused(members)[1:] if members["link"] == "policy" else []
    details += [first_filled(each, members) for each in DETAILS.get(members["link"], [])]
    yield from [f"  {each}" for each in details if each]


# What was verified.

def audited(members):
    heads = members.get("heads", [])
    yield from [f"  head {place}: {tree_text(heads[place])}" for place in sorted({0, len(heads) - 1}) if heads]
    for watched in members.get("watched", []):
        yield f"  watched under head {watched['head']}: index {watched['index']}, of the entry with SHA-256 {watched['entrySha256']}"


def witnessed(members):
    """What became of each update, the refused ones first."""
    if not members.get("updates"):
        yield "there are no updates"
    updates = [(f"update {place}", update) for place, update in enumerate(members.get("updates", []))]
    for title, update in updates:
        if "link" in update:
            yield title + (f" of the log {text_of(update, 'origin')}" if "origin" in update else "") + f": {refusal(update)}"
    for title, update in updates:
        if "link" not in update:
            yield f"{title}: the log {text_of(update, 'origin')} is now kept with {update['accepted']} entries"


def gated(members):
    """What became of each bundle, those of artifacts that are not admitted first."""
    artifacts = members.get("artifacts", [])
    for is_admitted in False, True:
        for artifact in artifacts:
            if (artifact["admitted"] == "yes") == is_admitted:
                yield from artifact_lines(artifact, "admitted: " if is_admitted else "not admitted: ")


def refused_in_short(bundle):
    """The refusal, and the ranges of the trusted root that it is about, in one line."""
    return "; ".join([refusal(bundle)] + [each for each in (authorities(bundle), logs(bundle)) if each])


def artifact_lines(artifact, title):
    name, bundles = quoted(artifact["name"]), artifact["bundles"]
    if not bundles:
        yield f"{title}{name} came without a bundle"
    elif artifact["admitted"] != "yes" and not all("link" in bundle for bundle in bundles):
        yield f"{title}{name}, since its rule does not hold of the bundles that are verified"
    for place, bundle in enumerate(bundles):
        said = refused_in_short(bundle) if "link" in bundle else first_filled(VERIFIED["verify"][0], bundle) or "verified"
        yield f"{title}{name}, bundle {place}: {said}"


MORE = {"audit": audited, "witness": witnessed, "gate": gated}


def lines_of(command, members):
    """At most ten lines. None begins with a word that a reply begins with, except for `refused LINK`, which is so in both."""
    if "link" in members:
        of_audit = command == "audit" and "index" in members and members["link"] != "request"
        lines = [*refused(members, f" {members['index']}" if of_audit else "")]
    else:
        said = [first_filled(each, members) for each in VERIFIED.get(command, [])]
        lines = [each for each in said if each] + [*MORE.get(command, lambda _: [])(members)]
    return lines if len(lines) <= MOST_LINES else lines[:MOST_LINES - 1] + [f"and {len(lines) - MOST_LINES + 1} lines more; --json has all"]


def text(command, members):
    """The same as bytes."""
    return "".join(f"{line}\n" for line in lines_of(command, members)).encode("utf-8", "backslashreplace")
