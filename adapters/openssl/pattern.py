"""--certificate-identity-regexp: whether a name of the signer matches a pattern as a whole, by Python's re.

This match is the adapter's own, and no proof is about it. The names are those that `explain verify` shows of a bundle that
verified under the other rules. Those count that the rule `identity` compares: an email, a URI, or Fulcio's otherName. A
name that is cut never matches. The pattern is the operator's own: for one that takes too long there is no reply.
"""
import contextlib
import re
import signal
import sys
import warnings

from explain_words import FULCIO_NAME
from words import misused

WORD = "--certificate-identity-regexp"
MOST_SECONDS = 2  # of the processor, for all names of a certificate


@contextlib.contextmanager
def limited():
    """Ends without a reply what takes longer. While it matches, Python's re looks for signals."""
    def end(number, frame):
        sys.exit(f"{WORD} takes more than {MOST_SECONDS} seconds")
    signal.signal(signal.SIGVTALRM, end)
    signal.pthread_sigmask(signal.SIG_UNBLOCK, {signal.SIGVTALRM})
    signal.setitimer(signal.ITIMER_VIRTUAL, MOST_SECONDS)
    try:
        yield
    finally:
        signal.setitimer(signal.ITIMER_VIRTUAL, 0)


def compiled(text):
    """The pattern, whose classes such as \\w have only the letters of ASCII; what Python warns about is an error."""
    try:
        with limited(), warnings.catch_warnings():
            warnings.simplefilter("error")
            return re.compile(text, re.ASCII)
    except (re.error, OverflowError, RecursionError, ValueError, Warning) as error:
        return misused(f"{WORD} is not a pattern of Python's re: {error}")


def identities(names):
    """The texts of names that are whole, and are identities."""
    for name in names:
        for kind in "email", "uri", "value":
            is_identity = kind != "value" or name.get("otherName") == FULCIO_NAME
            if is_identity and kind in name and f"{kind}Length" not in name:
                yield name[kind]


def matches(pattern, names):
    with limited():
        return any(pattern.fullmatch(identity) for identity in identities(names))
