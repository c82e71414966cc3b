"""The table of many bundles by one call of the adapter, adapters/openssl/sigverify-bundle."""
import importlib.util
import pathlib
import subprocess
import sys
import tempfile
import time

import measure

sys.path.append(str(measure.TOP / "adapters/c"))
import build

ADAPTERS = measure.TOP / "adapters/openssl"
COUNT = 1000  # how many bundles one call is given
MOST_MILLISECONDS = 4  # what a bundle takes then, OpenSSL included
LINE = "verified 2 5"


def signed_bundles():
    """The module that signs bundles, by its path, since this folder has one of its name. None where the package cryptography is
    not there."""
    spec = importlib.util.spec_from_file_location("signed_bundles", ADAPTERS / "signed.py")
    module = importlib.util.module_from_spec(spec)
    try:
        spec.loader.exec_module(module)
    except ModuleNotFoundError as absent:
        print(f"bench/run: without bundles at once: there is no {absent.name} (Debian: python3-cryptography)", file=sys.stderr)
        return None
    return module


def made(signed, folder):
    """The words of a call: bundles of one trusted root, each of an artifact and a signer of its own."""
    for place in range(COUNT):
        one = signed.Signed(leaf=signed.Signer("P-256"), artifact=b"artifact %d" % place)
        (folder / str(place)).write_bytes(one.artifact)
        (folder / f"{place}.sigstore.json").write_text(signed.compact(one.bundle()))
    root = folder / "trusted_root.json"
    root.write_text(signed.compact(one.trusted_root()))
    return [ADAPTERS / "sigverify-bundle", f"--trusted-root={root}", f"--identity={signed.IDENTITY}",
            f"--issuer={signed.ISSUER}", f"--now={signed.NOW}"]


def two_runs(bench, words, artifact):
    """The processor's seconds of `questions verify` and of `verify`, over the request of one of the bundles."""
    request = subprocess.run([*words, "--print-request", artifact], stdout=subprocess.PIPE, stderr=subprocess.DEVNULL, check=True).stdout
    path = bench.kept(request)
    measure.expect([bench.program, "verify"], path, measure.written([bench.program, "verify"], path), LINE)
    return sum(bench.seconds(path, [bench.program, "questions", "verify"], [bench.program, "verify"]))


def by_library():
    """Makes the library for C, which the adapter then calls. Whether it is there."""
    try:
        build.make()
    except (OSError, SystemExit) as error:
        print(f"bench/run: bundles at once without the library for C: {error}", file=sys.stderr)
        return False
    return True


def timed(bench, command, artifacts):
    """The processor's seconds of a call over these artifacts, the least of some, and those by the clock."""
    path = bench.kept(b"")
    wanted = "\n".join(f"{LINE} {artifact}" for artifact in artifacts)
    measure.expect([command[0]], path, measure.written([*command, *artifacts], path) == wanted, True)
    begun = time.monotonic()
    used = measure.processor_seconds([*command, *artifacts], path, 0)
    clock = time.monotonic() - begun
    return min(used, *bench.seconds(path, [*command, *artifacts], slow=True)), clock


def bundles_at_once(bench):
    """1,000 bundles of one trusted root, each of a signer and an artifact of its own, by one call of
    adapters/openssl/sigverify-bundle: the processor's milliseconds for each, and those by the clock. The call has the replies of the
    library for C, where that is made, or of two runs of the program for each bundle, which are in its time; what is left is Python's and
    OpenSSL's."""
    signed = signed_bundles()
    if signed is None:
        return
    table = bench.table(bundles_at_once, "bundles", "ms each", "ms by the clock", "the program's", "the rest")
    with tempfile.TemporaryDirectory() as within:
        folder = pathlib.Path(within)
        words, artifacts = made(signed, folder), [folder / str(place) for place in range(COUNT)]
        by_program = [*words, f"--sigverify={bench.program}"]
        program = two_runs(bench, by_program, artifacts[0])
        ways = [("by the library", words)] if by_library() else []
        for name, command in [*ways, ("by the program", by_program)]:
            used, clock = timed(bench, command, artifacts)
            each = used / COUNT * 1000
            mine = program * 1000 if command == by_program else None
            table.row(f"{COUNT:,} {name}", each, clock / COUNT * 1000, mine, mine and each - mine)
            if command == words or not ways:
                bench.goal("bundles at once, milliseconds each", each, MOST_MILLISECONDS)
