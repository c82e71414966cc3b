"""What sigverify-bundle does: it reads its words, and makes the request of each artifact."""
import codecs
import hashlib
import os
import re
import stat
import subprocess
import sys
import time

import explain_words
import pattern
from checked import MOST_BYTES, REFUSED, SIGVERIFY, answer, compact, explains, library, put
from start import NO_REPLY, reason, say, shown
from times import seconds_of
from words import misused, read_words, utf8, write

HELP = """\
usage: sigverify-bundle --trusted-root FILE [--bundle FILE] --certificate-identity TEXT
                        --certificate-oidc-issuer URL [--certificate-github-workflow-... TEXT] [--now TIME]
                        [--explain | --json] [--print-request] [--sigverify PROGRAM] [--] ARTIFACT ...
       sigverify-bundle --certificate-identity-regexp REGEXP ...
       sigverify-bundle verify-bundle [--staging] ...
       sigverify-bundle --help

Verifies the Sigstore bundles of artifacts, each under the same policy: all of these hold of its certificate.

  --trusted-root FILE             whom to trust: the trusted root of the Sigstore instance, the file trusted_root.json
                                  that cosign, gh and sigstore-python keep
  --bundle FILE                   the bundle that came with the artifact; without it, ARTIFACT.sigstore.json, a regular
                                  file
  --certificate-identity TEXT     or --identity: who has to have signed, an email, a URI or a name
  --certificate-identity-regexp REGEXP
                                  in place of --certificate-identity: a pattern of Python's re, which one such name has
                                  to match as a whole. This match is the adapter's own, and is not proved: the reply is
                                  to the other words, of which the issuer or one of the workflow has to be given
  --certificate-oidc-issuer URL   or --issuer: by whose word, the OIDC issuer
  --certificate-github-workflow-trigger, -sha, -name, -repository and -ref TEXT
                                  the event, commit, name, repository and reference of the workflow that signed
  --now TIME                      as 2023-12-14T00:00:00Z (RFC 3339), or in seconds since 1970; else by the clock
  --explain                       write after the reply, in at most ten lines, why it is refused, or what was verified
  --json                          write instead, after the reply, the line of JSON that `sigverify explain verify` gives
  --print-request                 write the request, with `accepted`, to standard output, and the reply to standard
                                  error; of several artifacts a line each. Not beside a pattern: a request has none
  --sigverify PROGRAM             else that of this repository, or the installed one
  ARTIFACT                        a regular file; or its digest, as sha256:HEX or sha512:HEX; or - for standard input,
                                  if no file is there that has this name. After -- all are files, also one whose name
                                  begins with -

A value can also be given as --word=VALUE, and one that begins with - has to be. Each is given at most once. Several
artifacts have a line each, the reply and then the name. `verify-bundle`, as the first word, is the protocol of
sigstore-conformance, for one artifact; there --staging changes nothing, since the trusted root is given. A word that is
also the name of a file in the current folder, as `verify-bundle` or --json may be, is an error; the file is given as
./verify-bundle or ./--json. A bundle for which more than 1,024 signatures would have to be verified has no reply.

Status: 0 trusted; 1 and 2 not, and the line names the link that fails; 3, as any other, there was no reply. Of several
artifacts it is that of the first that is not trusted.
"""

# The words, by the rules of a policy.

RULES = {"identity": "--certificate-identity", "issuer": "--certificate-oidc-issuer",
         **{rule: f"--certificate-github-workflow-{rule}" for rule in ("trigger", "sha", "name", "repository", "ref")}}
OTHERS = ["--trusted-root", "--bundle", "--now", "--sigverify", pattern.WORD]
NAMES = {"--identity": RULES["identity"], "--issuer": RULES["issuer"],
         **{word: word for word in [*RULES.values(), *OTHERS]}}


def words_of(given):
    """The values by their words, and the artifacts, each with whether it is a file whatever its name is."""
    is_protocol = given[:1] == ["verify-bundle"]
    check_files(given, is_protocol)
    words, artifacts = read_words(given[is_protocol:], NAMES)
    if "--staging" in words and not is_protocol:
        misused("--staging is a word after verify-bundle alone")
    if pattern.WORD in words:
        check_pattern(words)
    for name in ["--trusted-root"] + [RULES["identity"], RULES["issuer"]] * (pattern.WORD not in words):
        if name not in words:
            misused(f"{name} is missing")
    if not artifacts:
        misused("ARTIFACT is missing")
    if len(artifacts) > 1 and is_protocol:
        misused(f"verify-bundle is a word before one artifact alone, and not {len(artifacts)}")
    if len(artifacts) > 1 and "--bundle" in words:
        misused(f"--bundle is a word beside one artifact alone, and not {len(artifacts)}")
    return words, artifacts


def check_files(given, is_protocol):
    """No file's name is taken for another word: a shell's pattern gives names that a stranger chose, and such a file
    would not be verified. After -- all are files, also one that is named --."""
    end = given.index("--") if "--" in given else len(given)
    taken = given[:is_protocol] + [word for word in given[:end] if word.startswith("-") and word != "-"]
    taken += ["--"] * (end < len(given) and "--" not in given[end + 1:])
    for word in taken:
        if os.path.lexists(word):
            misused(f"{word} is a word here, and there is a file {word}; for the file put ./ before it, and for the word start "
                    "in another folder")


def check_pattern(words):
    """A pattern takes the place of the identity, beside another rule."""
    if RULES["identity"] in words:
        misused(f"{pattern.WORD} is a word in the place of {RULES['identity']}")
    if not any(word in words for word in RULES.values()):
        misused(f"{RULES['issuer']} is missing beside {pattern.WORD}, or a word of the workflow")
    if "--print-request" in words:
        misused(f"--print-request is not a word beside {pattern.WORD}, since a request has no pattern")


# The parts of a request.

def regular(path):
    """The file, which is opened without waiting for a writer, and has to be a regular one."""
    file = open(os.open(path, os.O_RDONLY | os.O_NONBLOCK | os.O_NOCTTY), "rb")
    if not stat.S_ISREG(os.fstat(file.fileno()).st_mode):
        sys.exit(f"{path} is not a regular file")
    return file


def text_of(path, opened=lambda path: open(path, "rb")):
    """The file's text, or enough of it for a request that is refused as too long."""
    try:
        with opened(path) as file:
            content = file.read(MOST_BYTES + 1)
        return codecs.getincrementaldecoder("utf-8")().decode(content, final=len(content) <= MOST_BYTES)
    except OSError as error:
        return sys.exit(f"{path}: {error.strerror}")
    except UnicodeDecodeError:
        return sys.exit(f"{path} is not UTF-8")


def sha256_of(path, opened):
    """The digest of all that a stream gives."""
    digest = hashlib.sha256()
    try:
        with opened(path) as artifact:
            while part := artifact.read(1 << 20):
                digest.update(part)
    except OSError as error:
        sys.exit(f"{path}: {error.strerror}")
    return digest.hexdigest()


def digest_of(artifact, is_file):
    """The digest, as a request has it, and whether a bundle can be beside it. Where a file has the name of a digest or
    of standard input, nothing is guessed: a shell's pattern gives the names that a stranger chose. A file has to be a
    regular one: what came from a pipe was read here, and cannot be installed after it."""
    if not is_file and (artifact == "-" or artifact.startswith(("sha256:", "sha512:"))):
        if os.path.lexists(artifact):
            misused(f"there is a file {artifact}; for the file put ./ before it")
        if artifact == "-":
            return "sha256:" + sha256_of("standard input", lambda _: open(0, "rb")), False
        if not re.fullmatch("sha256:[0-9a-fA-F]{64}|sha512:[0-9a-fA-F]{128}", artifact):
            misused(f"{artifact} is not a digest; for a file of this name put ./ before it")
        return artifact, False
    return "sha256:" + sha256_of(artifact, regular), True


def policy_of(words):
    """All rules whose words are given, except the pattern. The rule of the identity names the issuer too."""
    texts = {rule: utf8(word, words[word]) for rule, word in RULES.items() if word in words}
    signer = {rule: texts.pop(rule) for rule in ("identity", "issuer") if rule in texts}
    return {"all": [each for each in (signer, *({rule: text} for rule, text in texts.items())) if each]}


def requests_of(words):
    """The function that makes the request, without `accepted`, of an artifact."""
    now = seconds_of(words["--now"]) if "--now" in words else int(time.time())
    root, policy = text_of(words["--trusted-root"]), policy_of(words)

    def request(artifact, is_file):
        digest, has_bundle = digest_of(artifact, is_file)
        if "--bundle" not in words and not has_bundle:
            misused(f"--bundle is missing: none is beside {artifact}")
        named = [words["--bundle"]] if "--bundle" in words else [f"{artifact}.sigstore.json", regular]
        bundle = text_of(*named)
        return compact({"trustedRoot": root, "bundle": bundle, "now": now, "digest": digest, "policy": policy})
    return request


# The runs.

VERIFIED = {0: b"verified [0-9]+ [0-9]+\n", **REFUSED}
CRATES = os.path.join(os.path.dirname(SIGVERIFY), "crates")


def program_of(words):
    """The program for many runs. In a checkout a launcher looks once whether it is up to date, and builds it
    if not; where the adapter is installed, the program is in the launcher's place."""
    named = "--sigverify" in words or os.environ.get("SIGVERIFY_BUILD") == "quick" or not os.path.isdir(CRATES)
    if named or library():
        return words.get("--sigverify", SIGVERIFY)
    built = subprocess.run([SIGVERIFY, "--version"], stdin=subprocess.DEVNULL, stdout=subprocess.DEVNULL)
    if built.returncode != 0:
        sys.exit(f"no reply: {SIGVERIFY} --version ended with status {built.returncode}")
    return os.path.join(CRATES, "sigverify", "out", "sigverify")


def policy_refused(found, names, wanted):
    """The answer where no name matches the pattern, in the form of an explanation."""
    members = {"cause": ["Policy", "Pattern"], "link": "policy", "names": names, "pattern": wanted.pattern}
    return found._replace(reply=b"refused policy\n", status=1, explanation=compact(members) + b"\n")


def answer_of(words, program, request, wanted):
    """The answer to a request, and what is to be said about a pattern. Where it is verified, and a pattern is wanted, the names
    have to match it too."""
    found = answer(program, "verify", request, VERIFIED, explains(words) or wanted is not None)
    if wanted is None or found.status != 0:
        return found, None
    names = explain_words.read(found.explanation).get("certificate", {}).get("names", [])
    if pattern.matches(wanted, names):
        return found, None
    found = policy_refused(found, names, wanted)
    return found, None if explains(words) else explain_words.words_of(explain_words.read(found.explanation))


def line_of(words, program, request, wanted, artifact, is_file):
    """The line of one of several artifacts, and its status; if it ends without a reply, the reason on standard error."""
    name = os.fsencode(artifact).decode("utf-8", "backslashreplace")
    try:
        found, said = answer_of(words, program, request(artifact, is_file), wanted)
    except SystemExit as error:
        say("sigverify-bundle", f"{name}: {reason(error)}")
        return NO_REPLY
    if said:
        say("sigverify-bundle", f"{name}: {said}")
    return put(words, "verify", found, found.reply.rstrip(b"\n") + f" {shown(name)}\n".encode())


def one(words, request, wanted, artifact, is_file):
    """The status of the reply of the one artifact, once that is written."""
    found, said = answer_of(words, words.get("--sigverify", SIGVERIFY), request(artifact, is_file), wanted)
    if said:
        say("sigverify-bundle", said)
    return put(words, "verify", found, found.reply)


def main(given):
    """The status of the reply, once that is written; for several artifacts, that of the first that is not trusted."""
    if given in (["--help"], ["-h"]):
        write(1, HELP.encode())
        return 0
    words, artifacts = words_of(given)
    wanted = pattern.compiled(utf8(pattern.WORD, words[pattern.WORD])) if pattern.WORD in words else None
    request = requests_of(words)
    if len(artifacts) == 1:
        return one(words, request, wanted, *artifacts[0])
    program = program_of(words)
    return next(filter(None, [line_of(words, program, request, wanted, *each) for each in artifacts]), 0)
