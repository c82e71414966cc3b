"""How the adapters start: by their first line each end of Python without a reply has status 3, and 0, 1 and 2 are those of
a reply, under whatever limits, by whatever name and with whatever signals they run."""
import os
import shutil
import signal
import subprocess
import tempfile
import time

import signed
from signed import Signed
from test_common import ADAPTER, CHECKED, FILES, HERE, NO_REPLY, PYTHON, VERIFIED, compare_end, file_of, program_that, run, words_of

MOST_OF_LINE = 255  # that Linux reads of a first line, from version 5.1 on


def first_line(path):
    with open(path, encoding="utf-8") as file:
        return file.readline()


def copied(folder, old="", new=""):
    """sigverify-bundle, copied into a folder, with another text in the place of one in its first line."""
    os.makedirs(folder, exist_ok=True)
    for name in FILES:
        shutil.copy(os.path.join(HERE, name), folder)
    path = os.path.join(folder, os.path.basename(ADAPTER))
    with open(path, encoding="utf-8") as file:
        head, rest = file.readline(), file.read()
    with open(path, "w", encoding="utf-8") as file:
        file.write(head.replace(old, new) + rest)
    return path


def limited(flag, most):
    return ["/bin/sh", "-c", f'ulimit -{flag} {most}; exec "$@"', "sh"]


# What Python does, and the status by the first line.
ENDS = {**{f"exit {status}": NO_REPLY for status in (0, 1, 2, 3, 39, 43, 70, 120, 126, 127, 168, 255)},
        **{f"kill -{name} $$": NO_REPLY for name in ("ABRT", "BUS", "FPE", "HUP", "ILL", "INT", "KILL", "PIPE", "SEGV", "TERM")},
        "exit 40": 0, "exit 41": 1, "exit 42": 2}

NAME = os.fsdecode(bytes(set(range(1, 256)) - {*b"/:"}))  # of all bytes that a folder in PATH can have
WORDS = b"a b", b"", b"*", b"$0", b"-x", b"--", bytes(range(1, 256)), bytes(range(255, 0, -1))


def check_line(results, _):
    """The one line of both, by sh and by bash; in place of Python there is a program that ends as it says."""
    line = first_line(ADAPTER)
    results.compare("the first lines", (first_line(CHECKED), len(line.encode()) <= MOST_OF_LINE), (line, True))
    results.compare("the Python of the first line", line.count(f" {PYTHON} "), 1)
    for shell in "/bin/sh", "/bin/bash":
        with tempfile.TemporaryDirectory() as folder:
            adapter = copied(os.path.join(folder, "copy"), PYTHON, f"{folder}/program")
            with open(adapter, encoding="utf-8") as file:
                file_of(os.path.dirname(adapter), os.path.basename(adapter), file.read().replace("/bin/sh", shell, 1).encode())
            for does, wanted in ENDS.items():
                program_that(folder, does)
                results.compare(f"Python does: {does}, {shell}", run([], adapter=adapter)[:2], (wanted, ""))
            os.remove(os.path.join(folder, "program"))
            status, reply, said = run([], adapter=adapter)
            results.compare(f"no Python, {shell} ({said})", (status, reply, "program" in said), (NO_REPLY, "", True))
            program_that(folder, "printf '%s\\0' \"$@\"")
            shown = subprocess.run([adapter, *WORDS], capture_output=True).stdout.split(b"\0")
            wanted = [b"-I", b"-X", shown[2], b"--", os.fsencode(adapter), *WORDS, b""]
            results.compare(f"the words, {shell}", (shown, shown[2].startswith(b"shell=")), (wanted, True))


def check_crashes(results, program):
    """Where Python is ended within a module, or before it has read one."""
    with tempfile.TemporaryDirectory() as folder:
        signed.write(folder, Signed())
        given = words_of(folder, program)
        adapter = copied(os.path.join(folder, "copy"))
        for name in "start", "genuine":
            for number in signal.SIGILL, signal.SIGSEGV, signal.SIGABRT, signal.SIGKILL, signal.SIGINT:
                copied(os.path.join(folder, "copy"))
                does = f"import os, signal\nos.kill(os.getpid(), {int(number)})\n"
                file_of(os.path.dirname(adapter), f"{name}.py", does.encode())
                results.compare(f"{name}.py gets the signal {number}", run(given, adapter=adapter)[:2], (NO_REPLY, ""))


def check_limits(results, program):
    """Under each limit there is a reply, or status 3; under the least, where no shell starts, a status above 2 or a signal."""
    with tempfile.TemporaryDirectory() as folder:
        signed.write(folder, Signed())
        given, ends = words_of(folder, program), set()
        # Kilobytes of addresses, of data and of the stack, and numbers of files; and from where on the shell is there.
        for flag, limits, least in [("v", [*range(200, 4000, 300), *range(2400, 2700, 20), *range(4000, 40000, 900), 12600, 16500], 4000),
                                    ("d", [*range(0, 400, 20), *range(400, 12000, 1000)], 1000), ("s", range(0, 80, 8), 32),
                                    ("n", range(14), 4)]:
            for most in limits:
                status, reply, said = run(given, limited(flag, most))
                fits = status == 0 if reply else status == NO_REPLY if most >= least else status not in (0, 1, 2)
                results.compare(f"ulimit -{flag} {most}: {status} ({said})", (reply in ("", VERIFIED + "\n"), fits), (True, True))
                results.compare(f"ulimit -{flag} {most}, the message ({said})", "version 38" in said, False)
                ends.add(said)
        results.compare("out of memory", "sigverify-bundle: out of memory\n" in ends, True)
        shell = ["/bin/sh", "-c", 'exec "$@" </', "sh"]  # with which Python does not start
        results.compare("the input is a folder", run(given, shell)[:2], (NO_REPLY, ""))


def check_names(results, program):
    """Paths that a shell or Python could take for something else."""
    with tempfile.TemporaryDirectory() as folder:
        signed.write(folder, Signed())
        given, wanted = words_of(folder, program), (0, VERIFIED + "\n", "")
        for name in "a b", "-x", "-c", "--", "$0", "'", "a=b", "*", "\n", "\\", NAME:
            copied(os.path.join(folder, "of", name))
            path = os.path.join(name, "sigverify-bundle")
            results.compare(f"the folder {name!a}", run(given, adapter=path, cwd=os.path.join(folder, "of")), wanted)
            os.symlink(path, os.path.join(folder, "of", "link"))
            results.compare(f"a link to the folder {name!a}", run(given, adapter="./link", cwd=os.path.join(folder, "of")), wanted)
            environment = {**os.environ, "PATH": f"{name}:{os.environ['PATH']}"}
            shell = ["/bin/sh", "-c", 'exec "$@"', "sh"]
            gave = run(given, shell, "sigverify-bundle", cwd=os.path.join(folder, "of"), env=environment)
            results.compare(f"by PATH, the folder {name!a}", gave, wanted)
            os.remove(os.path.join(folder, "of", "link"))


# Signals. A program is run that says by a file that it has begun, and waits for another one, for a minute at most.

WAITS = """echo > {0}/begun
n=0
until [ -e {0}/go ] || [ $n = 1200 ]; do sleep 0.05; n=$((n + 1)); done
[ "$1" = verify ] && echo %s || echo '[]'""" % VERIFIED


def started(folder, more=()):
    """The adapter, in a group of its own, once its program runs."""
    words = [ADAPTER, *words_of(folder, program_that(folder, WAITS.format(folder))), *more]
    child = subprocess.Popen(words, stdout=subprocess.PIPE, stderr=subprocess.PIPE, start_new_session=True)
    while not os.path.exists(os.path.join(folder, "begun")) and child.poll() is None:
        time.sleep(0.01)
    return child


def check_interrupted(results, program):
    """Signals to all of its group, as a terminal sends them, also as Python starts: the end is 3 or that signal's, or there
    is a reply."""
    with tempfile.TemporaryDirectory() as folder:
        signed.write(folder, Signed())
        for number in signal.SIGINT, signal.SIGTERM, signal.SIGHUP:
            for delay in range(0, 40, 2):
                words = [ADAPTER, *words_of(folder, program)]
                child = subprocess.Popen(words, stdout=subprocess.PIPE, stderr=subprocess.PIPE, start_new_session=True)
                time.sleep(delay / 1000)
                os.killpg(child.pid, number)
                reply, _ = child.communicate()
                fits = child.returncode in (NO_REPLY, -number) or (child.returncode, reply) == (0, VERIFIED.encode() + b"\n")
                results.compare(f"{number} after {delay} milliseconds: {child.returncode}", fits, True)
            child = started(folder)
            os.killpg(child.pid, number)
            reply, _ = child.communicate()
            results.compare(f"{number} beside the program", (child.returncode in (NO_REPLY, -number), reply), (True, b""))
            os.remove(os.path.join(folder, "begun"))


def check_abandoned(results, _):
    """Where only the shell is ended, Python writes no reply."""
    with tempfile.TemporaryDirectory() as folder:
        signed.write(folder, Signed())
        said = b"sigverify-bundle: the shell that started this has ended\n"
        for number in signal.SIGKILL, signal.SIGTERM:
            for more in [], ["--print-request"]:
                child = started(folder, more)
                os.kill(child.pid, number)
                child.wait()
                file_of(folder, "go", b"")
                gave = *child.communicate(), child.returncode
                results.compare(f"{number} to the shell, {more}", gave, (b"", said, -number))
                for name in "begun", "go":
                    os.remove(os.path.join(folder, name))


def check_by_name(results, program):
    """Started by Python's name it has the same statuses."""
    with tempfile.TemporaryDirectory() as folder:
        signed.write(folder, Signed())
        for start in [PYTHON], [PYTHON, "-I"], [PYTHON, "-I", "--"]:
            for wanted, changes in [((0, VERIFIED + "\n", ""), {}), ((1, "refused policy\n", ""), {"identity": "x"}),
                                    ((2, "refused request\n", ""), {"now": 2 ** 63})]:
                results.compare(f"by {start}, {changes}", run(words_of(folder, program, **changes), start), wanted)
            compare_end(results, f"by {start}", words_of(folder, program_that(folder, "exit 1")), "no reply", start=start)


PARTS = check_line, check_crashes, check_limits, check_names, check_interrupted, check_abandoned, check_by_name
