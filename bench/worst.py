"""The most costly known requests of each command, for a check of what they cost. Each is a function from a size in bytes to a request of nearly
that size, and to what the program writes: all of it, or the lines before an explanation."""
import collections

import chains
import explained
import gate_policies
import gate_refusals
import gate_roots
import gates
import long_keys
import notes
import own_entries
import shapes
import witnesses
from asked import beside, in_share
from manifests import report
from shapes import filled

import questions_cases

Case = collections.namedtuple("Case", "command title made")


def replied(make, said):
    """The largest request of these, all of which have one reply."""
    return lambda size: (filled(make, size), said + "\n")


def listed(make, reply):
    """The largest request beside which its list has room, which a second reader makes."""
    def made(size):
        text = in_share(make)(size)
        return text, reply(text.decode())[0] + "\n"
    return made


def beside_list(make, said):
    """The largest of these requests beside which this list has room, which is the reply to each."""
    return lambda size: (beside(make, said)(size), said + "\n")


def listed_alike(make, reply):
    """The same for the list that a second reader makes from a small one."""
    return beside_list(make, reply(make(2).decode())[0])


def blocks_of_entries(size):
    text, count = own_entries.of_blocks(size)
    return text, f"logged 0 {count}\nentry 0\n"


def empty_entries(size):
    """A log that grew by the last of many entries without a byte."""
    entries = own_entries.of_no_byte(size)
    count = len(entries)
    return own_entries.of_growth(entries), f"consistent {count - 1} {count}\nprefix {count - 1}\n"


def of_witness(make):
    return lambda size: make(witnesses.count_of(make, size))[:2]


def keys_between(size):
    return gates.anchors_beside_accepted_keys(gates.count_of(gates.anchors_beside_accepted_keys, size))


def of_lists(command, rows):
    """Those of a list of requests by what they are, how they are made, and what is written."""
    return [Case(command, title, replied(make, said.removesuffix("\n"))) for title, make, said in rows]


def of_refusals():
    return [Case("explain gate", f"refused at {link}: {title}", replied(make, report(f"refused {link}").removesuffix("\n")))
            for link, title, make in gate_refusals.REFUSALS]


def of_roots():
    for title, make, has_room in gate_roots.QUESTIONS:
        yield Case("questions gate", title, beside_list(make, gate_roots.listed(make) if has_room else "refused request"))


NESTED = chains.ignored("log entry", shapes.repeated(shapes.nested("[", "[]", "]", 122)))
LISTS_OF_FIVE = chains.ignored("trusted root", shapes.repeated("[0,0,0,0,0]"))

# Of `verify` and of `questions verify`.
OF_BUNDLES = (
    ("an object of shuffled names in a log entry", chains.ignored("log entry", shapes.shuffled_names)),
    ("a float that is replaced, within an object, in a log entry", chains.replaced("log entry", chains.object_around)),
    ("empty tlogs", chains.empty_records("tlogs")),
)


# Those of the lists that cost what another one costs.
LEFT_OUT = {
    "gate": {"any of many rules of 64 letters, none holds", "all of equal identities, certificates of many names"},
    "questions gate": {"256 bundles under one root: log keys", "trust anchors of other names, 16 further certificates"},
    "explain gate": {
        *(f"refused at {link}: {title}" for link, title in (
            ("issuer", "trust anchors of the issuer's name"), ("body", "log entries of other, long statements"),
        )),
    },
}


# At half the size what is looked up fits a processor's cache, and a run takes as long as memory does: no ratio is asserted of it.
OF_MEMORY = {"accepted keys between those of trust anchors"}


def cases():
    """All requests of this list except those that are left out."""
    return (case for case in every() if case.title not in LEFT_OUT.get(case.command, ()))


def every():
    yield Case("log", "rows by signature", replied(shapes.rows_by_signature, "logged 0 1"))
    yield Case("log", "entries, every second of three bytes", blocks_of_entries)
    yield Case("verify", "trust anchors over 16 intermediates", replied(chains.anchors_over_intermediates, "verified 2 5"))
    yield Case("log", "signatures, a long key", replied(long_keys.signatures, "logged 0 1"))
    yield Case("verify", "signatures of the note, a long key", replied(chains.note_signatures_of_a_long_key, "verified 2 5"))
    yield Case("verify", "lists nested to 122 in a log entry", replied(NESTED, "verified 2 5"))
    yield Case("verify", "lists of five in the trusted root", replied(LISTS_OF_FIVE, "verified 2 5"))
    yield from of_lists("verify", ((title, make, "verified 2 5") for title, make in OF_BUNDLES))
    yield Case("consistency", "empty entries", empty_entries)
    yield Case("audit", "256 heads of many signatures", replied(notes.heads_of_signatures, "audited 256 0 1"))
    yield Case("witness", "origins that are added", of_witness(witnesses.origins))
    yield Case("witness", "updates under a long key", of_witness(witnesses.of_a_long_key))
    yield Case("gate", "accepted keys between those of trust anchors", keys_between)
    yield from of_lists("gate", (*gate_policies.MANIFESTS, *gate_roots.GATES))
    yield from of_questions()
    yield from of_roots()
    yield from of_explanations()
    yield from of_refusals()


def of_questions():
    yield Case("questions verify", "trust anchors of long names", listed_alike(chains.anchors_by_name, questions_cases.verify_reply))
    for title, make in OF_BUNDLES:
        yield Case("questions verify", title, listed_alike(make, questions_cases.verify_reply))
    yield Case("questions log", "signatures", listed(notes.signatures, questions_cases.log_reply))
    yield Case("questions consistency", "empty entries", listed_alike(notes.empty_entries, questions_cases.consistency_reply))
    yield Case("questions audit", "256 heads of many signatures", listed(notes.heads_of_signatures, questions_cases.audit_reply))
    yield Case("questions witness", "4,096 updates of many signatures", listed(notes.updates_of_signatures, questions_cases.witness_reply))


def of_explanations():
    yield Case("explain log", "the last accepted signature is not one", replied(explained.last_row, "refused request"))
    yield Case("explain verify", "lists nested to 122 in a log entry", replied(NESTED, "verified 2 5"))
    yield Case("explain consistency", "signatures", replied(notes.signatures, "refused note-key"))
    yield Case("explain audit", "long watched entries", replied(notes.watched, f"audited 1 {notes.WATCHED} 1"))
    yield Case("explain witness", "updates that nobody signed", replied(explained.unsigned_updates, "refused note-key\n" * notes.UPDATES))
    yield Case("explain gate", "accepted keys between those of trust anchors", keys_between)
    yield from of_lists("explain gate", gate_policies.MANIFESTS[:1])
