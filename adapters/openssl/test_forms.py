"""The forms in which sigverify-bundle takes artifacts and policies: digests, standard input, several artifacts, the
words of cosign, and the protocol of sigstore-conformance."""
import itertools
import os
import subprocess
import tempfile

import signed
from signed import IDENTITY, ISSUER, NOW, WORKFLOW, Signed
from test_common import VERIFIED, compare_end, file_of, run, words_of

RULES = {f"--certificate-github-workflow-{rule}": text for rule, text in WORKFLOW.items()}


def check_policies(results, program):
    """Each rule by its word, one by one and all together; with another text it does not hold."""
    with tempfile.TemporaryDirectory() as folder:
        signed.write(folder, Signed())
        short = words_of(folder, program)
        long = [word.replace("--identity", "--certificate-identity").replace("--issuer", "--certificate-oidc-issuer")
                for word in short]
        results.compare("cosign's words", run(long), (0, VERIFIED + "\n", ""))
        every = [f"{word}={text}" for word, text in RULES.items()]
        results.compare("all rules", run(every + long), (0, VERIFIED + "\n", ""))
        for word, text in RULES.items():
            results.compare(f"{word}", run([word, text, *short]), (0, VERIFIED + "\n", ""))
            for other in text + "x", text[:-1], text.upper() + "-":
                results.compare(f"{word} {other}", run([f"{word}={other}", *short]), (1, "refused policy\n", ""))
            others = [each for each in every if not each.startswith(word + "=")]
            results.compare(f"another {word}", run([*others, f"{word}=x", *long]), (1, "refused policy\n", ""))
            compare_end(results, f"{word} twice", [f"{word}={text}", f"{word}={text}", *short], "twice")
        for name, value in ("--certificate-identity", IDENTITY), ("--certificate-oidc-issuer", ISSUER):
            compare_end(results, f"{name} beside its short form", [name, value, *short], "twice")


def check_digests(results, program):
    for content in "envelope", "message":
        made = Signed(content=content)
        with tempfile.TemporaryDirectory() as folder:
            signed.write(folder, made)
            file_of(folder, "sha256:x", made.artifact)
            hexed, link = made.digest.hex(), "subject" if content == "envelope" else "signature"
            for artifact, wanted in [(f"sha256:{hexed}", VERIFIED), (f"sha256:{hexed.upper()}", VERIFIED),
                                     (f"sha256:{hexed[:-1]}{'1' if hexed[-1] == '0' else '0'}", f"refused {link}")]:
                gave = run(words_of(folder, program, artifact=artifact))
                results.compare(artifact, gave, (0 if wanted == VERIFIED else 1, wanted + "\n", ""))
            wide = run(words_of(folder, program, artifact="sha512:" + "b" * 128))
            results.compare(f"SHA-512, {content}", wide[0] in (0, 1) and wide[2] == "", True)
            for artifact in ("sha256:", "sha512:", f"sha256:{hexed}0", f"sha256:{hexed[1:]}", f"sha512:{hexed}",
                             f"sha256:{hexed[:-1]}g", f"sha256: {hexed[1:]}", "sha256:x"):
                words = words_of(folder, program, artifact=artifact)
                compare_end(results, artifact, words, "put ./ before it", cwd=folder)
            for more in ["./sha256:x"], ["--", "sha256:x"]:
                gave = run([*words_of(folder, program)[:-1], *more], cwd=folder)
                results.compare(f"a file named as a digest, {more}", gave, (0, VERIFIED + "\n", ""))
            words = words_of(folder, program, artifact=f"sha256:{hexed}", bundle=None)
            compare_end(results, "a digest without a bundle", words, "--bundle is missing")


def check_strangers_names(results, program):
    """Files whose names are a digest, or that of standard input, and whose content is another: nothing is verified unless
    they are said to be files, and then they are."""
    made = Signed()
    with tempfile.TemporaryDirectory() as folder:
        signed.write(folder, made)
        for name in f"sha256:{made.digest.hex()}", f"sha256:{made.digest.hex().upper()}", "sha512:" + "b" * 128, "-":
            path = file_of(folder, name, b"another artifact")
            words = words_of(folder, program, artifact=name)
            compare_end(results, f"a file {name}", words, "put ./ before it", cwd=folder, input=made.artifact)
            for more in [f"./{name}"], ["--", name]:
                gave = run([*words[:-1], *more], cwd=folder)
                results.compare(f"the file {more}", gave, (1, "refused subject\n", ""))
            os.remove(path)
            os.symlink("/absent", path)
            compare_end(results, f"a link {name}", words, "put ./ before it", cwd=folder, input=made.artifact)
            os.remove(path)


# Words that a file may be named as.
WORDS = ("verify-bundle", "--explain", "--json", "--print-request", "--staging", "--now=0", "--now", "--bundle=z.sigstore.json",
         "--certificate-github-workflow-name=test", "--")


def check_named_as_words(results, program):
    """The file of a stranger whose name is a word here, and which a shell's pattern puts before another artifact: nothing
    is verified, unless it is said to be a file, and then it is."""
    with tempfile.TemporaryDirectory() as folder:
        several(folder, ["z", *WORDS])
        given = words_of(folder, program, bundle=None)[:-1]
        for name in WORDS:
            os.remove(os.path.join(folder, name))
        for name in WORDS:
            path, wanted = file_of(folder, name, b"another artifact"), f"refused subject {name}\n{VERIFIED} z\n"
            for words in [name, "z", *given], [name, *given, "z"]:
                compare_end(results, f"a file {words[:2]}", words, f"there is a file {name}; for the file put ./", cwd=folder)
            results.compare(f"the file ./{name}", run([f"./{name}", "z", *given], cwd=folder), (1, wanted.replace(name, f"./{name}"), ""))
            results.compare(f"the file -- {name}", run([*given, "--", name, "z"], cwd=folder), (1, wanted, ""))
            os.remove(path)
            os.symlink("/absent", path)
            compare_end(results, f"a link {name}", [name, "z", *given], f"there is a file {name}", cwd=folder)
            os.remove(path)
        file_of(folder, "verify-bundle", b"another artifact")
        wanted = f"{VERIFIED} z\nrefused subject verify-bundle\n"
        results.compare("verify-bundle after another", run([*given, "z", "verify-bundle"], cwd=folder), (1, wanted, ""))


def check_input(results, program):
    made = Signed()
    with tempfile.TemporaryDirectory() as folder:
        signed.write(folder, made)
        words = words_of(folder, program, artifact="-")
        results.compare("standard input", run(words, input=made.artifact), (0, VERIFIED + "\n", ""))
        for other in b"", made.artifact[:-1], made.artifact + b"\0":
            results.compare("other input", run(words, input=other), (1, "refused subject\n", ""))
        without = words_of(folder, program, artifact="-", bundle=None)
        compare_end(results, "input without a bundle", without, "--bundle is missing", input=b"")
        compare_end(results, "closed", words, "standard input: ", start=["/bin/sh", "-c", 'exec "$@" <&-', "sh"])
        compare_end(results, "twice", words + ["-"], "one artifact alone", input=b"")


def several(folder, names):
    """Artifacts of these names, each with its bundle beside it, all under one trusted root."""
    for name in names:
        made = Signed(artifact=f"the artifact {name}".encode())
        file_of(folder, name, made.artifact)
        file_of(folder, name + ".sigstore.json", signed.compact(made.bundle()).encode())
        file_of(folder, "trusted_root.json", signed.compact(made.trusted_root()).encode())


def check_several(results, program):
    """One line each, and the status of the first that is not trusted."""
    with tempfile.TemporaryDirectory() as folder:
        several(folder, ["a", "b", "c d", "e\nf", "-g"])
        given = [word for word in words_of(folder, program, bundle=None)[:-1]]
        wanted = "".join(f"{VERIFIED} {name}\n" for name in ("a", "b", "c d", "e\\nf", "-g"))
        every = [*given, "--", "a", "b", "c d", "e\nf", "-g"]
        results.compare("all trusted", run(every, cwd=folder), (0, wanted, ""))
        results.compare("one, its bundle beside it", run([*given, "b"], cwd=folder), (0, VERIFIED + "\n", ""))
        file_of(folder, "b", b"changed")
        wanted = wanted.replace(f"{VERIFIED} b\n", "refused subject b\n")
        results.compare("one changed", run(every, cwd=folder), (1, wanted, ""))
        os.remove(os.path.join(folder, "c d"))
        status, lines, said = run(every, cwd=folder)
        wanted = wanted.replace(f"{VERIFIED} c d\n", "")
        gave = status, lines, said.count("\n"), "c d: No such file" in said
        results.compare("one absent, after it", gave, (1, wanted, 1, True))
        status, lines, said = run([*given, "a", "c d", "b"], cwd=folder)
        results.compare("one absent, before it", (status, lines), (3, f"{VERIFIED} a\nrefused subject b\n"))
        word = "--bundle=a.sigstore.json"
        compare_end(results, word, [*given, word, "a", "b"], "one artifact alone", cwd=folder)
        check_printed(results, program, [*given, "--print-request", "a", "c d", "b", "e\nf"], folder)
        status, lines, said = run([*given, "a", "sha256:" + "0" * 64], cwd=folder)
        gave = status, lines, "--bundle is missing" in said
        results.compare("a digest among them", gave, (3, f"{VERIFIED} a\n", True))


def check_printed(results, program, words, folder):
    """The requests of several artifacts, a line each, and beside them the replies; there is none for an artifact without a reply."""
    status, requests, lines = run(words, cwd=folder)
    said = [line for line in lines.splitlines() if not line.startswith("sigverify-bundle: c d: ")]
    results.compare("the replies beside requests", (status, said, lines.count("\n")),
                    (3, [f"{VERIFIED} a", "refused subject b", f"{VERIFIED} e\\nf"], 4))
    again = [subprocess.run([program, "verify"], input=line.encode(), capture_output=True).stdout.decode()
             for line in requests.splitlines()]
    results.compare("the requests", again, [VERIFIED + "\n", "refused subject\n", VERIFIED + "\n"])


def check_protocol(results, program):
    """sigstore-conformance: verify-bundle [--staging] --bundle FILE --certificate-identity ID
    --certificate-oidc-issuer URL [--trusted-root FILE] FILE_OR_DIGEST."""
    for content, title in itertools.product(["envelope", "message"], [None, *signed.LINKS]):
        made = Signed(content=content, spoiled=title)
        wanted = (0, VERIFIED + "\n", "") if title is None else (1, f"refused {signed.LINKS[title]}\n", "")
        with tempfile.TemporaryDirectory() as folder:
            signed.write(folder, made)
            bundle, root, artifact = [os.path.join(folder, name) for name in ("bundle.json", "trusted_root.json", "artifact")]
            given = ["--bundle", bundle, "--certificate-identity", IDENTITY, "--certificate-oidc-issuer", ISSUER,
                     "--trusted-root", root]
            for staging, named in itertools.product([[], ["--staging"]], [artifact, "sha256:" + made.digest.hex()]):
                words = ["verify-bundle", *staging, *given, named, f"--sigverify={program}", f"--now={NOW}"]
                results.compare(f"the protocol, {content}, {title}, {staging}", run(words), wanted)


def check_protocol_misused(results, program):
    with tempfile.TemporaryDirectory() as folder:
        signed.write(folder, Signed())
        given, rootless = words_of(folder, program), words_of(folder, program, trusted_root=None)
        for words, said in [(["--staging", *given], "after verify-bundle alone"), (["verify-bundle", "--key=x", *given], "not a word"),
                            (["verify-bundle", "--staging", *rootless], "--trusted-root is missing"),
                            ([*given, "verify-bundle"], "one artifact alone"),
                            (["verify-bundle", *given, "x"], "before one artifact alone, and not 2")]:
            compare_end(results, f"the protocol, {said}", words, said)
        several(folder, ["a", "b"])
        words = ["verify-bundle", *words_of(folder, program, bundle=None)[:-1], "a", "b"]
        compare_end(results, "the protocol, two bundles", words, "before one artifact alone, and not 2", cwd=folder)


def check_beside(results, program):
    """The bundle beside an artifact is a regular file: nobody waits for what a stranger put there."""
    with tempfile.TemporaryDirectory() as folder:
        several(folder, ["a"])
        words, beside = [*words_of(folder, program, bundle=None)[:-1], "a"], os.path.join(folder, "a.sigstore.json")
        os.rename(beside, os.path.join(folder, "kept"))
        os.symlink("kept", beside)
        results.compare("a link to a bundle", run(words, cwd=folder), (0, VERIFIED + "\n", ""))
        bounded = ["/usr/bin/timeout", "20"]
        for title, put in [("a pipe", os.mkfifo), ("/dev/zero", lambda path: os.symlink("/dev/zero", path)),
                           ("standard input", lambda path: os.symlink("/dev/stdin", path))]:
            os.remove(beside)
            put(beside)
            said = "a.sigstore.json is not a regular file"
            compare_end(results, f"beside it {title}", words, said, start=bounded, cwd=folder, stdin=subprocess.PIPE)
        os.remove(beside)
        os.mkdir(beside)
        compare_end(results, "beside it a folder", words, "Is a directory", start=bounded, cwd=folder)


PARTS = (check_policies, check_digests, check_strangers_names, check_named_as_words, check_input, check_several, check_protocol,
         check_protocol_misused, check_beside)
