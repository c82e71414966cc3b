"""The table of `questions`: which signatures a command's reply can rest on."""
import chains
import gate_roots
import measure
import notes
from goals import MOST_MEGABYTES, MOST_SECONDS
from measure import megabytes, written
from shapes import filled


BETWEEN = len(',"accepted":')  # a request and its list


def beside(make, listed):
    """The largest of these requests beside which this list has room."""
    return lambda size: filled(make, size - len(listed) - BETWEEN)


def in_share(make):
    """The largest beside which the list of its own signatures has room."""
    return lambda size: filled(make, int(size * notes.room_share(make)))


def largest(make):
    return lambda size: filled(make, size)


def requests():
    """For each request the command, what it is, how it is made for a size, and the list; `None` if only its status is looked at."""
    for name, make in chains.QUESTIONS:
        yield "verify", name, largest(make), None
    for name, make, has_room in gate_roots.QUESTIONS:
        listed = gate_roots.listed(make) if has_room else "refused request"
        yield "gate", name, beside(make, listed), listed
    for command, name, make in notes.QUESTIONS:
        yield command, name, in_share(make), None
    yield "log", "signatures, more than have room", largest(notes.signatures), "refused request"


def questions(bench):
    """Requests of `questions`: of `verify` the worst of its own table, of `gate` 256 bundles under a large trusted root, and of the others their lists.
    With the status 2 request and list would have more than 2^24 bytes, or the signatures of all bundles more than 2^26. The last column is the time to
    that over a request of half the size."""
    table = bench.table(questions, "request", "status", "bytes", "ms", "MB", "to half")

    def measured(words, said, text, wanted):
        path = bench.kept(text)
        status = measure.status_over(words, path)
        if status not in (0, 2):
            measure.fail(f"questions {said}: {status}")
        if wanted:
            measure.expect(words, path, written(words, path, status), wanted)
        took, peak = bench.timer(path, words, status), megabytes(words, path, status)
        bench.goal(f"questions {said}, {len(text)} bytes, MB", peak, MOST_MEGABYTES)
        bench.goal(f"questions {said}, {len(text)} bytes, seconds", took.least, MOST_SECONDS)
        return status, took, peak

    for command, name, make, wanted in requests():
        words, said = [bench.program, "questions", command], f"{command}, {name}"
        text, half = make(bench.most), make(bench.most // 2)
        (status, took, peak), (_, first, _) = measured(words, said, text, wanted), measured(words, said, half, wanted)
        doubled = bench.doubled(f"questions {said}", first, took)
        table.row(said, status, len(text), took.least * 1000, round(peak), doubled)
        first.path.unlink()
        took.path.unlink()
