"""The kit's rt as a module, for tools that run a command of it in their own way."""
import functools
import importlib.machinery
import importlib.util
import os
import shutil
import sys


def found(tool):
    """The path of rt. Without one the tool ends with 127."""
    path = shutil.which("rt")
    if path is None:
        print(f"{tool}: this needs the Rattle kit: put its bin/ on PATH", file=sys.stderr)
        sys.exit(127)
    return path


def loaded(path):
    """The rt of this path as a module, or None if it is not the kit's. It sums the sources of each crate once.

    By itself rt sums a crate anew for each way by which another crate stands on it. There are some 15,000 ways down from the program, so
    that a command in an upper crate takes minutes before it begins. The sums are the same: a source that is saved meanwhile is newer
    than its sum, and the next command builds it."""
    path = os.path.realpath(path)
    if not os.path.isfile(os.path.join(os.path.dirname(path), "rtlib.py")):
        return None
    loader = importlib.machinery.SourceFileLoader("rt", path)
    sys.modules["rt"] = module = importlib.util.module_from_spec(importlib.util.spec_from_loader("rt", loader))
    loader.exec_module(module)
    crate = module.rtlib.Crate
    crate.stamp = functools.cache(crate.stamp)
    below = functools.cache(crate.below)
    crate.below = lambda self: [*below(self)]
    return module
