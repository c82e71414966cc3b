"""Every end of sigverify-bundle without a reply has status 3, whatever the streams, the environment and the files are;
and no environment or file makes a reply."""
import os
import shutil
import subprocess
import tempfile

import signed
from signed import Signed
from test_checked import compact, log_request
from test_common import ADAPTER, CHECKED, FILES, HERE, MODULES, PYTHON, VERIFIED, compare_end, file_of, program_that, run, words_of

# By which OpenSSL has no algorithm.
OPENSSL_SETTINGS = b"openssl_conf = all\n[all]\nproviders = named\n[named]\nbase = on\n[on]\nactivate = 1\n"
JSON = subprocess.run([PYTHON, "-I", "-c", "import json; print(json.__file__)"], capture_output=True, text=True).stdout.strip()
FORGED = "import os\nos.write(1, b'verified 2 5\\n')\nos._exit(0)\n"


# What is not a reply.

NO_REPLIES = [
    "kill -9 $$", "true", "cat", "echo 1", "echo null", "echo '{}'", "echo '['", "echo '[1]'", "echo '[{}]'",
    "yes '[' | head -n 100000 | tr -d '\\n'; echo", "echo 'verified 2 5'", "echo 'verified 2 5'; exit 1",
    "echo 'refused policy'", "echo 'refused policy'; exit 2", "printf 'refused policy'; exit 1", "echo usage; exit 1",
    "echo '[]'; exit 1"]
NO_SECOND_REPLIES = [
    "exit 71", "exit 0", "exit 1", "exit 2", "echo '[]'", "echo 'refused policy'", "echo 'verified 2 5'; exit 1",
    "printf 'verified 2 5'", "echo 'verified 2'", "echo 'verified 2 5 '", "echo 'logged 2 5'",
    "echo; echo 'verified 2 5'", "echo 'verified 2 5'; echo 'entry 2'"]


def check_programs(results, program):
    with tempfile.TemporaryDirectory() as folder:
        signed.write(folder, Signed())

        def ends(title, does):
            compare_end(results, title, words_of(folder, program_that(folder, does)), "no reply")
        for status in 1, 2, 3, 64, 70, 71, 74, 126, 127, 255:
            ends(f"status {status}", f"exit {status}")
        for does in NO_REPLIES:
            ends(f"a program that does: {does}", does)
        for does in NO_SECOND_REPLIES:
            ends(f"a second run that does: {does}", f'[ "$1" = verify ] || {{ echo "[]"; exit; }}; {does}')
        for name, content in ("text", b"no program"), ("loop", b"#!" + os.fsencode(folder) + b"/absent\n"):
            path = file_of(folder, name, content)
            compare_end(results, f"no program, {name}", words_of(folder, path), "no reply")
            os.chmod(path, 0o755)
            compare_end(results, f"no program, but executable: {name}", words_of(folder, path), "no reply")
        compare_end(results, "a folder in place of a program", words_of(folder, folder), "no reply")


def check_signals(results, program):
    """Where the caller ignores a signal, among them the one on which a child's status depends."""
    with tempfile.TemporaryDirectory() as folder:
        signed.write(folder, Signed())
        for ignored in "CHLD", "PIPE", "CHLD HUP INT QUIT PIPE TERM USR1 XFSZ":
            shell = ["/bin/bash", "-c", f"trap '' {ignored}; exec \"$@\"", "bash"]
            for wanted, changes in [((0, VERIFIED + "\n", ""), {}), ((1, "refused policy\n", ""), {"identity": "x"}),
                                    ((1, "refused fulcio\n", ""), {"now": 0}),
                                    ((2, "refused request\n", ""), {"now": 2 ** 63})]:
                results.compare(f"{ignored} ignored", run(words_of(folder, program, **changes), shell), wanted)
            fails = words_of(folder, program_that(folder, "exit 71"))
            compare_end(results, f"{ignored} ignored, no reply", fails, "status 71", start=shell)


def check_files(results, program):
    with tempfile.TemporaryDirectory() as folder:
        signed.write(folder, Signed())
        for name in "artifact", "bundle", "trusted_root", "sigverify":
            absent = os.path.join(folder, "absent")
            compare_end(results, f"no {name}", words_of(folder, program, **{name: absent}), "absent: No such file")
            lines = os.path.join(folder, "two\nlines\x1b[31m")
            words = words_of(folder, program, **{name: lines})
            compare_end(results, f"no {name} of two lines", words, "two\\nlines\\x1b[31m")
            if name != "sigverify":
                compare_end(results, f"{name}, a folder", words_of(folder, program, **{name: folder}), "Is a directory")
        for name in "bundle", "trusted_root":
            latin = file_of(folder, "latin.json", b"\xff")
            compare_end(results, f"no text, {name}", words_of(folder, program, **{name: latin}), "is not UTF-8")
            half = file_of(folder, "half.json", b'"\xc3')
            compare_end(results, f"half a letter, {name}", words_of(folder, program, **{name: half}), "is not UTF-8")
        pipe, link = os.path.join(folder, "pipe"), os.path.join(folder, "link")
        os.mkfifo(pipe)
        for path in pipe, "/dev/null", "/dev/zero", "/dev/stdin":
            words = words_of(folder, program, artifact=path)
            compare_end(results, f"the artifact {path}", words, "not a regular file", stdin=subprocess.PIPE)
        os.symlink("artifact", link)
        gave = run(words_of(folder, program, artifact=link))
        results.compare("a link to an artifact", gave, (0, VERIFIED + "\n", ""))
        for name in "bundle", "trusted_root":
            with open(os.path.join(folder, f"{name}.json"), "rb") as file:
                gave = run(words_of(folder, program, **{name: "/dev/stdin"}), input=file.read())
            results.compare(f"{name} from a pipe", gave, (0, VERIFIED + "\n", ""))


# Streams that are closed, or cannot be written.

def check_streams(results, program):
    def ended(title, words, redirected, wanted):
        shell = ["/bin/sh", "-c", f'exec "$@" {redirected}', "sh"]
        status, reply, said = run(words, shell)
        results.compare(f"{title}, {redirected}", (status, reply, said), wanted)

    with tempfile.TemporaryDirectory() as folder:
        signed.write(folder, Signed())
        given, output = words_of(folder, program), "sigverify-bundle: standard output cannot be written: "
        closed, full = output + "Bad file descriptor\n", output + "No space left on device\n"
        absent, printed = words_of(folder, program, bundle="/absent"), given + ["--print-request"]
        for redirected in "2>/dev/full", "2>&-", "<&- >&- 2>&-":
            ended("a fault", absent, redirected, (3, "", ""))
            ended("no words", [], redirected, (3, "", ""))
        for words in given, printed, ["--help"]:
            ended("the output is closed", words, ">&-", (3, "", closed))
            ended("input and output are closed", words, "<&- >&-", (3, "", closed))
            ended("the output is full", words, ">/dev/full", (3, "", full))
            ended("everything is closed", words, "<&- >&- 2>&-", (3, "", ""))
        for redirected in "2>&-", "2>/dev/full", "<&-", "<&- 2>&-":
            ended("the reply is written", given, redirected, (0, VERIFIED + "\n", ""))
        for redirected in "2>&-", "2>/dev/full":
            status, request, _ = run(printed, ["/bin/sh", "-c", f'exec "$@" {redirected}', "sh"])
            results.compare("no reply beside the request", (status, request.startswith("{")), (3, True))
        reading, writing = os.pipe()
        os.close(reading)
        done = subprocess.run([ADAPTER, *given], stdout=writing, stderr=subprocess.PIPE)
        os.close(writing)
        results.compare("nobody reads", (done.returncode, done.stderr), (3, f"{output}Broken pipe\n".encode()))


# What is raised while modules are read.

RAISED = {
    "raise MemoryError": "out of memory", "raise RuntimeError('x')": "RuntimeError: x", "x": "NameError: ",
    "raise ImportError('x')": "ImportError: x", "import absent": "ModuleNotFoundError: No module named 'absent'",
    "raise KeyboardInterrupt": "interrupted", "raise BaseException('x\\ny')": "BaseException: x\\ny",
    "(": "SyntaxError: ",
    "import sys; sys.exit(0)": "0", "import sys; sys.exit()": "None", "raise SystemExit(1)": "1",
    "raise OSError(28, 'x')": "OSError: [Errno 28] x", "raise OSError('\\ud800')": "OSError: \\ud800",
    "def f(): f()\nf()": "RecursionError: "}
SPEECHLESS = "class E(Exception):\n    def __str__(self): raise self\nraise E"
# Of start.py itself the adapter's own lines say what was raised, if it is not as above.
OF_START = {
    "raise MemoryError": "MemoryError: ", "raise KeyboardInterrupt": "KeyboardInterrupt: ", "": "KeyError: 'run'",
    "import sys; sys.exit(0)": "SystemExit: 0", "import sys; sys.exit()": "SystemExit: ", "raise SystemExit(1)": "SystemExit: 1"}


def raised_in(name):
    """What the module does, and how the line on standard error begins; there is none where nothing is said."""
    said = {**RAISED, **OF_START} if name == "start" else RAISED
    prefix = "sigverify-bundle: start.py: " if name == "start" else "sigverify-bundle: "
    return {**{does: prefix + text for does, text in said.items()}, SPEECHLESS: ""}


# What the package does as it is loaded, and what is said of it.
UNLOADED = "Python's package cryptography cannot be loaded: "
PACKAGES = {
    "raise ImportError('x.so: failed to map segment')": UNLOADED + "x.so: failed to map segment",
    "from json import Absent": UNLOADED + f"cannot import name 'Absent' from 'json' ({JSON}); it has to be of version 38 or later",
    "import absent": UNLOADED + "No module named 'absent'; apt-get install python3-cryptography, of version 38 or later",
    "raise MemoryError": "out of memory", "raise OSError(12, 'x')": "OSError: [Errno 12] x"}


def check_imports(results, program):
    with tempfile.TemporaryDirectory() as folder:
        signed.write(folder, Signed())
        there = os.path.join(folder, "sigverify-bundle")
        for name in MODULES:
            for each in FILES:
                shutil.copy(os.path.join(HERE, each), folder)
            for does, wanted in raised_in(name).items():
                file_of(folder, f"{name}.py", does.encode())
                # By Python's name there is no shell, which makes 3 of any end of Python.
                for start in ([PYTHON, "-I"], []) if name == "start" else ([PYTHON, "-I"],):
                    status, reply, said = run(words_of(folder, program), start, there)
                    gave = status, reply, said.count("\n"), said.startswith(wanted)
                    results.compare(f"{start} {name}.py does: {does} ({said})", gave, (3, "", 1 if wanted else 0, True))
        words = words_of(folder, program)
        for each in FILES:
            shutil.copy(os.path.join(HERE, each), folder)
        with open(os.path.join(HERE, "genuine.py"), encoding="utf-8") as file:
            first, rest = file.read().split("\ntry:\n")
        for line, said in PACKAGES.items():
            file_of(folder, "genuine.py", f"{first}\ntry:\n    {line}\n{rest}".encode())
            results.compare(f"a package that does: {line}", run(words, adapter=there), (3, "", f"sigverify-bundle: {said}\n"))
        for flags in ["-S"], ["-S", "-E"], ["-I", "-S"]:
            compare_end(results, "no package", words, "apt-get install python3-cryptography", start=[PYTHON, *flags])


# What an environment or a folder would make of it. The request is refused, and stays so.

def planted(folder):
    """A folder with modules that write a reply, under the names of those that are imported."""
    for package in "cryptography", "encodings", "importlib":
        os.mkdir(os.path.join(folder, package))
        file_of(folder, os.path.join(package, "__init__.py"), FORGED.encode())
    for name in ("sitecustomize", "usercustomize", *MODULES, "json", "re", "os", "subprocess", "hashlib", "signal"):
        file_of(folder, f"{name}.py", FORGED.encode())
    file_of(folder, "bash_env", b"echo verified 2 5; exit 0\n")
    file_of(folder, "openssl.cnf", OPENSSL_SETTINGS)


def variables_of(place):
    """Variables that Python, OpenSSL or a shell would take for code, for a place of code, or for other settings."""
    shell = os.path.join(place, "bash_env")
    return {
        "PYTHONPATH": place, "PYTHONHOME": place, "PYTHONSTARTUP": os.path.join(place, "json.py"), "PYTHONINSPECT": "1",
        "PYTHONUSERBASE": place, "PYTHONSAFEPATH": "", "PYTHONPLATLIBDIR": place, "PYTHONBREAKPOINT": "json.x",
        "PYTHONWARNINGS": "error", "PYTHONDEVMODE": "1", "PYTHONOPTIMIZE": "2", "PYTHONPYCACHEPREFIX": place,
        "OPENSSL_CONF": os.path.join(place, "openssl.cnf"), "OPENSSL_MODULES": place, "OPENSSL_ENGINES": place,
        "OPENSSL_CONF_INCLUDE": place, "OPENSSL_ia32cap": "0xffffffffffffffff:0xffffffffffffffff",
        "CTLOG_FILE": place, "RANDFILE": place, "SSL_CERT_DIR": place, "SSL_CERT_FILE": os.path.join(place, "openssl.cnf"),
        "BASH_ENV": shell, "ENV": shell, "SHELLOPTS": "xtrace:noexec", "PS4": "$(echo verified 2 5 >&2)",
        "BASH_FUNC_find%%": "() { echo verified 2 5; }", "BASH_FUNC_exec%%": "() { echo verified 2 5; exit 0; }",
        "GLOBIGNORE": "*", "IFS": "/", "CDPATH": place, "POSIXLY_CORRECT": "1", "LC_ALL": "C", "LANG": "x",
        "HOME": place, "TMPDIR": place}


def planted_beside(folder):
    """A folder with such modules, but without those that Python itself loads as it starts, before any line of a program."""
    os.mkdir(os.path.join(folder, "cryptography"))
    file_of(folder, os.path.join("cryptography", "__init__.py"), FORGED.encode())
    for name in (*MODULES, "json", "re", "subprocess", "hashlib", "signal"):
        file_of(folder, f"{name}.py", FORGED.encode())


def adapters_run(folder, place, program):
    """Of each adapter a run that is refused and one that is trusted: its words, its input, and what is wanted."""
    other = file_of(place, "other", b"another artifact\n")
    yield ADAPTER, words_of(folder, program, artifact=other), b"", (1, "refused subject\n", "")
    yield ADAPTER, words_of(folder, program), b"", (0, VERIFIED + "\n", "")
    for spoiled, wanted in ("note", (1, "refused note-key\n", "")), (None, (0, "logged 2 5\n", "")):
        request = compact(log_request(Signed(spoiled=spoiled)))
        yield CHECKED, [f"--sigverify={program}", "log"], request, wanted


def check_environment(results, program):
    with tempfile.TemporaryDirectory() as folder, tempfile.TemporaryDirectory() as place, tempfile.TemporaryDirectory() as beside:
        signed.write(folder, Signed())
        planted(place)
        planted_beside(beside)
        variables = variables_of(place)
        for path in ADAPTER, CHECKED:
            os.symlink(path, os.path.join(place, os.path.basename(path)))
        for adapter, words, given, wanted in adapters_run(folder, place, program):
            link = os.path.join(place, os.path.basename(adapter))

            def compare(title, path, start=(), **changed):
                environment = {**os.environ, **changed}
                done = subprocess.run([*start, path, *words], capture_output=True, cwd=place, env=environment, input=given)
                gave = done.returncode, done.stdout.decode(), done.stderr.decode()
                results.compare(f"in a planted folder, {os.path.basename(adapter)} {title}", gave, wanted)
            for name, value in variables.items():
                compare(name, adapter, **{name: value})
            compare("with all variables", adapter, **variables)
            compare("by a link", link, **variables)
            compare("by -I", adapter, [PYTHON, "-I"], **variables)
            compare("by Python's name", adapter, [PYTHON])
            compare("by Python's name and a link", link, [PYTHON])
            compare("by Python's name, with PYTHONPATH", adapter, [PYTHON], PYTHONPATH=beside)


PARTS = check_programs, check_signals, check_files, check_streams, check_imports, check_environment
