"""Programs that are measured: whether they are up to date, how long they take over a file, and how much memory."""
import ctypes
import dataclasses
import os
import pathlib
import shutil
import subprocess
import sys
import tempfile

TOP = pathlib.Path(__file__).resolve().parent.parent
sys.path.append(str(TOP / "tools"))

from floors import below, dependencies, sources
from goals import MOST_DOUBLED

PEERS = TOP / "bench/peers"
SMALL = 2**20  # the time over a file of fewer bytes is the best of ten times as many runs
MORE_TURNS = 6  # how often an input and half of it are measured again, while their ratio misses its goal


class Bench:
    """A run of this program: what it measures, its inputs, how often each command runs, which goals were missed."""

    program = None  # sigverify's
    reader = None  # sig_bench's, which reads only one certificate or one document

    def __init__(self, runs, most):
        self.runs = runs
        self.most = most  # how many bytes the largest input has
        self.missed = []
        self.tables = []
        self._folder = tempfile.TemporaryDirectory()
        self._paths = 0

    def kept(self, text):
        """A file of this text."""
        self._paths += 1
        path = pathlib.Path(self._folder.name) / str(self._paths)
        path.write_bytes(text)
        return path

    def table(self, made_by, *columns):
        """Begins a table of these columns, of which the function that makes it says what they are, and prints them."""
        self.tables.append(Table(" ".join(made_by.__doc__.split()), columns))
        return self.tables[-1]

    def goal(self, what, value, most):
        """Notes that a value is above the most that it is to be."""
        if value > most:
            self.missed.append(f"{what}: {value:.2f}, and not {most}")

    def seconds(self, path, *commands, status=0, slow=False):
        """The least processor time of each command over a file, in turns; each has to end with this status. There are
        more turns over a small file, unless the commands are slow whatever the file."""
        best = [float("inf")] * len(commands)
        for _ in range(self.runs if slow or path.stat().st_size > SMALL else self.runs * 10):
            for place, words in enumerate(commands):
                best[place] = min(best[place], processor_seconds(words, path, status))
        return best

    def timer(self, path, words, status=0, start=0):
        """The least time of a command over a file, beyond the seconds of the start of its process."""
        [least] = self.seconds(path, words, status=status)
        return Timer(path, words, status, start, least - start)

    def doubled(self, what, half, whole, most=MOST_DOUBLED):
        """The time over an input to that over half of it, by the least of each. While their ratio is above the goal both are measured
        again, in turns: a least time of few runs is above the least of many by what else the machine did."""
        for _ in range(MORE_TURNS):
            if whole.least <= most * half.least:
                break
            half.again()
            whole.again()
        self.goal(f"{what}, time to that at half", whole.least / half.least, most)
        return whole.least / half.least


@dataclasses.dataclass
class Timer:
    """A command over a file, and the least time that it took, in seconds beyond the start of its process."""

    path: pathlib.Path
    words: list
    status: int
    start: float
    least: float

    def again(self):
        self.least = min(self.least, processor_seconds(self.words, self.path, self.status) - self.start)


class Table:
    """A table whose rows are printed as they come, and kept for Markdown: a name, and numbers or words."""

    NAME, CELL = 44, 9  # the widths in which they are printed, at least
    WIDE = {"reply": 17}

    def __init__(self, about, columns):
        self.about = about
        self.rows = []
        self._columns = columns
        print(about)
        self._print(columns)

    def _print(self, cells):
        widths = (max(self.WIDE.get(column, self.CELL), len(column)) for column in self._columns[1:])
        print(f"{cells[0]:{self.NAME}}", *(f"{cell:>{width}}" for cell, width in zip(cells[1:], widths)), flush=True)

    def row(self, name, *numbers):
        """Prints a row; a number has three digits or more, and `None` is an empty cell."""
        cells = [name, *map(shown, numbers)]
        self.rows.append(cells)
        self._print(cells)

    def markdown(self):
        lines = [self._columns, ["---"] * len(self._columns), *self.rows]
        return self.about + "\n\n" + "".join("| " + " | ".join(cells) + " |\n" for cells in lines)


def shown(number):
    """A cell of a table: whole numbers whole, others with three digits at least."""
    if number is None:
        return ""
    if isinstance(number, (int, str)):
        return f"{number:,}" if isinstance(number, int) else number
    return f"{number:,.0f}" if number >= 100 else f"{number:.1f}" if number >= 10 else f"{number:.2f}"


def fail(said):
    sys.exit(f"bench/run: {said}")


def expect(words, path, found, wanted):
    """Ends this program where a command over a file had another status, or wrote another line, than it has to."""
    if found != wanted:
        kept = shutil.copy(path, tempfile.gettempdir() + "/bench-input")
        fail(f"{' '.join(map(str, words))} over {kept}: {found}, and not {wanted}")


def written(words, path, status=0):
    """What a command writes over a file, without the newline."""
    with open(path, "rb") as given:
        ran = subprocess.run(words, stdin=given, stdout=subprocess.PIPE)
    expect(words, path, ran.returncode, status)
    return ran.stdout.decode().strip()


def status_over(words, path):
    """The status of a command over a file."""
    with open(path, "rb") as given:
        return subprocess.run(words, stdin=given, stdout=subprocess.DEVNULL).returncode


def processor_seconds(words, path, status):
    """The processor's time, in user and system, of a command over a file, from the start of its process to its end."""
    with open(path, "rb") as given:
        process = subprocess.Popen(words, stdin=given, stdout=subprocess.DEVNULL)
    _, ended, used = os.wait4(process.pid, 0)
    process.returncode = os.waitstatus_to_exitcode(ended)
    expect(words, path, process.returncode, status)
    return used.ru_utime + used.ru_stime


# The shell makes a process that waits for the end of the shell's input, and then becomes the command over the file.
# The shell ends at once, and this program, as their nearest reaper, is given the process, and at its end what it used.
LATER = 'exec 3<&0; (read -r _ <&3; exec "$@" <"$0" >/dev/null 3<&-) & echo $!'
PR_SET_CHILD_SUBREAPER = 36


def megabytes(words, path, status=0):
    """The peak memory of a command over a file, in 10^6 bytes. A process's peak counts what it was before it became the command: here
    a copy of `sh`, which is smaller than any command (of `true` it tells one megabyte)."""
    ctypes.CDLL(None).prctl(PR_SET_CHILD_SUBREAPER, 1, 0, 0, 0)
    shell = subprocess.Popen(["sh", "-c", LATER, path, *words], stdin=subprocess.PIPE, stdout=subprocess.PIPE)
    process = int(shell.stdout.readline())
    # The shell's own end is waited for with its input open, so that the command does not begin before.
    os.waitpid(shell.pid, 0)
    shell.returncode = 0
    shell.stdin.close()
    shell.stdout.close()
    _, ended, used = os.wait4(process, 0)
    expect(words, path, os.waitstatus_to_exitcode(ended), status)
    return used.ru_maxrss * 1024 / 10**6


def built(crate, named=None):
    """The program of a crate, or the one that was named in its place. Ends this program where it is not there, or where
    a source is newer than it, or than the stamp that ./sigverify made before the build; of a named one, which may be
    another tree's, the latter is only said."""
    program = named.absolute() if named else TOP / "crates" / crate / "out" / crate
    if not program.is_file():
        fail(f"{program} is not there: .ci/run builds it")
    stamp = program.parent / "sources.stamp"
    since = min(path.stat().st_mtime_ns for path in (program, stamp) if path.exists())
    built_of = sources([crate, *below(dependencies(), crate)])
    newer = next((path for path in built_of if path.stat().st_mtime_ns > since), None)
    if newer:
        said = f"{program} is older than {newer.relative_to(TOP)}"
        if not named:
            fail(f"{said}: .ci/run builds it anew")
        print(f"bench/run: {said}", file=sys.stderr)
    return program


def peer(folder, name, packages):
    """The program of bench/peers/FOLDER, built by cargo of Debian's packages; None where it cannot be, as is said."""
    words = ["cargo", "build", "--release", "--quiet"]
    built = PEERS / "out/release" / name
    return built if made(words, PEERS / folder, name, f"cargo {packages}") else None


def go_peer(name, packages):
    """The program of bench/peers/NAME, built by go of Debian's packages; None where it cannot be, which is said."""
    built = PEERS / "out" / name
    debian = {"GO111MODULE": "off", "GOPATH": "/usr/share/gocode"}
    return built if made(["go", "build", "-o", built, "."], PEERS / name, name, packages, **debian) else None


def made(words, folder, name, packages, **environment):
    """Whether a build in a folder passes; where it does not, the reason is said, and which packages it needs."""
    if not shutil.which(words[0]):
        said = f"{words[0]} is not there"
    else:
        surroundings = {**os.environ, **environment}
        ran = subprocess.run(words, cwd=folder, env=surroundings, stderr=subprocess.PIPE, text=True)
        if ran.returncode == 0:
            return True
        said = (ran.stderr.strip() or f"{words[0]} ends with status {ran.returncode}").splitlines()[0]
    print(f"bench/run: without {name}: {said} (Debian: {packages})", file=sys.stderr)
    return False
