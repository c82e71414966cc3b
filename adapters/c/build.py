#!/usr/bin/python3
"""Makes the shared library adapters/c/out/libsigverify.so, from the static library of crates/sigverify_c and of the Rattle
kit's archive for the heap.

    adapters/c/build.py

The static library is proved and built first, where a source is newer than it; so are the crates below it, if neither
`rt ci` nor `rt lib` has built them since. It needs the kit's bin/ on PATH, and a C compiler, cc."""
import os
import pathlib
import subprocess
import sys
import time

HERE = pathlib.Path(__file__).resolve().parent
TOP = HERE.parent.parent
sys.path.append(str(TOP / "tools"))

from floors import below, dependencies, sources

CRATE = "sigverify_c"
ARCHIVE = TOP / "crates" / CRATE / "out" / f"lib{CRATE}.a"
SHARED = HERE / "out/libsigverify.so"


def ran(words, folder=HERE):
    """What a command writes; this program ends if the command fails."""
    done = subprocess.run(words, cwd=folder, stdout=subprocess.PIPE, stderr=subprocess.STDOUT, text=True)
    if done.returncode != 0:
        sys.stderr.write(done.stdout[-4000:])
        sys.exit(f"adapters/c/build.py: {words[0]} ended with status {done.returncode}")
    return done.stdout


def kit():
    """The folder of the kit, which has its first page at the top."""
    return pathlib.Path(ran(["rt", "doc"]).strip()).parent


def is_current(made, on, crate):
    """Whether a file or folder is there, and not older than any source of a crate and of those below it."""
    built_of = sources([crate, *below(on, crate)])
    return made.exists() and all(path.stat().st_mtime <= made.stat().st_mtime for path in built_of)


def rlib(name):
    return TOP / "crates" / name / f"out/rlib/{name}.rlib"


def prove(home, on):
    """Proves the crate, and builds its archive: over the libraries that `rt ci` left, where they are current, since `rt lib`
    would prove all of them again."""
    libraries = below(on, CRATE)
    if not all(is_current(rlib(name).parent, on, name) for name in libraries):
        print("adapters/c/build.py: proving what changed; a first build takes some 40 minutes", file=sys.stderr)
        ran([TOP / "tools/libraries", CRATE, "lib"])
        return
    of_kit = [name for name in dict.fromkeys(["std", *on[CRATE]]) if name not in on]
    words = [home / "bin/rattle", "build", "--crate-name", CRATE, "src/lib.rt", "--crate-type", "staticlib"]
    words += [f"--extern={name}={home}/rlibs/{name}.rlib" for name in of_kit]
    words += [f"--extern={name}={rlib(name)}" for name in on[CRATE] if name in on]
    words += [f"-Ldependency={folder}" for folder in [home / "rlibs", *(rlib(name).parent for name in libraries)]]
    words += ["--antt-project", home / "rattle/logic/antt-project.json", "--logic-built", home / "logic_built"]
    words += ["--toolchain", home / "toolchain", "--backend", "llvm", "--jobs", "2", "--links", f"{CRATE}="]
    ran([*words, "-o", f"out/{ARCHIVE.name}"], TOP / "crates" / CRATE)


def archive(home):
    """The static library, which has the time at which its building began, so that a source that is saved meanwhile is newer."""
    on = dependencies()
    if not is_current(ARCHIVE, on, CRATE):
        begun = time.time()
        ARCHIVE.parent.mkdir(exist_ok=True)
        prove(home, on)
        os.utime(ARCHIVE, (begun, begun))
    return ARCHIVE


def link(static, heap):
    """The shared library, which replaces an older one whole, and has the time of the static one."""
    SHARED.parent.mkdir(exist_ok=True)
    made = SHARED.with_suffix(f".{os.getpid()}")
    words = ["cc", "-shared", "-o", made, "-Wl,--whole-archive", static, "-Wl,--no-whole-archive", heap]
    ran([*words, f"-Wl,-soname,{SHARED.name}", f"-Wl,--version-script={HERE / 'exports.map'}", "-Wl,-z,defs"])
    at = static.stat().st_mtime
    os.utime(made, (at, at))
    made.replace(SHARED)


def make():
    """Makes the parts of the shared library that are not up to date."""
    home = kit()
    link(archive(home), home / "c/liblibc_c.a")


def main():
    make()
    print(SHARED.relative_to(TOP))


if __name__ == "__main__":
    sys.exit(main())
