"""sigverify for Python: the replies of its commands, by the library that adapters/c/build.py makes, without a process.

    import sigverify
    status, text = sigverify.reply(["verify"], request)

    status, text = sigverify.verify(trusted_root, bundle, "sha256:..", {"all": [{"identity": "..", "issuer": ".."}]})
    if status == sigverify.HOLDS: ...  # trusted

`reply` says what the program says to a request: with a status of 0, 1 or 2 the text is the reply. This is proved of the
library, as adapters/c/sigverify.h says. It is not proved that this file gives it the request. Several threads may make
calls at once, and other threads run meanwhile.

`checked` and `verify` ask on which signatures the reply can rest, and accept those that OpenSSL says are genuine:
`is_genuine` of adapters/openssl/genuine.py, which needs the package cryptography.
"""
import ctypes
import functools
import importlib.util
import json
import os
import time

HOLDS, REFUSED, NO_REQUEST = 0, 1, 2
NO_COMMAND, NO_MEMORY, NO_ROOM = 64, 71, 75

# The numbers of sigverify.h; the questions of a command have QUESTIONS more, its explained reply has EXPLAIN more.
COMMANDS = {"log": 1, "verify": 2, "consistency": 3, "audit": 4, "witness": 5, "gate": 6}
QUESTIONS, EXPLAIN = 256, 512

VERSION = 0x000100
MOST_BYTES = 1 << 24  # of a request
FIRST_ROOM = 1 << 12  # for a reply; a list of questions and an explanation can be longer

HERE = os.path.dirname(os.path.realpath(__file__))
TOP = os.path.join(HERE, "..", "..")
LIBRARY = os.path.join(HERE, "..", "c", "out", "libsigverify.so")
GENUINE = os.path.join(HERE, "..", "openssl", "genuine.py")


class NoReply(Exception):
    """The library has no reply: it is out of memory, or this file is for another library."""


@functools.lru_cache(maxsize=None)
def library(path=LIBRARY):
    """The library in a file, which is loaded once. OSError: it cannot be loaded; NoReply: it is of another version."""
    found = ctypes.CDLL(path)
    found.sigverify_version.restype, found.sigverify_version.argtypes = ctypes.c_uint32, []
    found.sigverify_reply.restype = ctypes.c_uint8
    found.sigverify_reply.argtypes = [ctypes.c_uint32, ctypes.c_char_p, ctypes.c_size_t, ctypes.c_char_p, ctypes.c_size_t,
                                      ctypes.POINTER(ctypes.c_size_t)]
    if found.sigverify_version() != VERSION:
        raise NoReply(f"{path} has the version {found.sigverify_version():#x}, and not {VERSION:#x}")
    return found


def sources():
    """The files from which the library is made, and their folders, which become newer if a file is removed."""
    yield os.path.join(TOP, "crates.txt")
    for crate in os.scandir(os.path.join(TOP, "crates")):
        for part in "src", "specs":
            for folder, _, names in os.walk(os.path.join(crate.path, part)):
                yield from [folder, *(os.path.join(folder, name) for name in names)]


def is_current():
    """Whether the library is there, and no source of it is newer. Where no sources are, nothing is."""
    try:
        since = os.stat(LIBRARY).st_mtime_ns
        return not os.path.exists(os.path.join(TOP, "crates.txt")) or all(os.stat(path).st_mtime_ns <= since for path in sources())
    except OSError:
        return False


def number_of(words):
    """The number of a command, by its words. ValueError: they are those of none."""
    *before, command = words
    if command not in COMMANDS or before not in ([], ["questions"], ["explain"]):
        raise ValueError(f"no command: {' '.join(words)}")
    return COMMANDS[command] + sum({"questions": QUESTIONS, "explain": EXPLAIN}[word] for word in before)


def reply(words, request):
    """The status, 0, 1 or 2, and the text of the reply of a command, as ["verify"], ["questions", "verify"] or
    ["explain", "verify"], to a request, of bytes. ValueError: the words are not a command's; MemoryError; OSError: there is no library."""
    number, request = number_of(words), bytes(request)
    room, written = FIRST_ROOM, ctypes.c_size_t()
    while True:
        text = ctypes.create_string_buffer(room)
        status = library().sigverify_reply(number, request, len(request), text, room, ctypes.byref(written))
        if status in (HOLDS, REFUSED, NO_REQUEST):
            return status, ctypes.string_at(text, written.value)
        if status == NO_MEMORY:
            raise MemoryError("sigverify")
        if status != NO_ROOM or written.value <= room:
            raise NoReply(f"sigverify_reply returned {status}")
        room = written.value


@functools.lru_cache(maxsize=None)
def genuine():
    """The function `is_genuine` of the file that calls OpenSSL. It raises ImportError where cryptography is absent."""
    spec = importlib.util.spec_from_file_location("sigverify_genuine", GENUINE)
    module = importlib.util.module_from_spec(spec)
    try:
        spec.loader.exec_module(module)
    except SystemExit as error:
        raise ImportError(error.code) from error
    return module.is_genuine


def compact(value):
    """JSON in the fewest bytes."""
    return json.dumps(value, ensure_ascii=False, separators=(",", ":")).encode()


def checked(command, request):
    """The reply of a command to a request, of which OpenSSL verifies the signatures: what it accepts itself does not
    count, since of equal members the last one counts."""
    status, listed = reply(["questions", command], request)
    if status != HOLDS:
        return status, listed
    end = request.rindex(b"}")
    rows = [row for row in json.loads(listed) if genuine()(row)]
    comma = b"" if request[:end].rstrip(b" \t\r\n").endswith(b"{") else b","  # after the members that there are
    return reply([command], request[:end] + comma + b'"accepted":' + compact(rows) + request[end:])


def verify(trusted_root, bundle, digest, policy, now=None):
    """The reply of `verify` for an artifact of this digest, `sha256:` or `sha512:` and hexadecimal digits: whether the
    bundle shows that it was signed by whom the policy names, under the trusted root, at a time in seconds since 1970, or
    now. The first two are the texts of the files; the policy is that of a request."""
    now = int(time.time()) if now is None else now
    return checked("verify", compact({"trustedRoot": trusted_root, "bundle": bundle, "now": now, "digest": digest, "policy": policy}))
