"""How an adapter starts and ends: isolated, with three standard streams, and at each end without a reply with status 3.

Python by itself may end with 1 or 2 before a line of its program runs, for example without memory, and at any time by a
signal. So an adapter's first line runs a shell, and the shell runs Python: it makes 0, 1 and 2 from Python's statuses 40,
41 and 42, and 3 from every other end.

Nothing here is found by a search: `run` loads the modules beside this file, wherever a link to the adapter is.
"""
import os
import sys

NO_REPLY = 3
SHELL = sys._xoptions.get("shell")  # the process of the first line's shell, which gives it to Python; else None
OF_SHELL = 40  # how much more than the adapter's status that of Python then is


def isolate():
    """Python, if it was not started as the adapter's first line has it, is started anew, before anything is imported: a
    variable of Python may name a folder of other modules. Variables of OpenSSL, which may name code, other settings or
    instructions that the processor lacks, are dropped before anything loads its library. And where the caller ignored
    SIGCHLD, by which each child's status would be lost and read as 0, it is ignored no longer."""
    if not sys.flags.isolated:
        os.execv(sys.executable, [sys.executable, "-I", *["-S"] * sys.flags.no_site, *sys.argv])
    for name in [name for name in os.environ if name.startswith("OPENSSL_")]:
        del os.environ[name]
    import signal
    signal.signal(signal.SIGCHLD, signal.SIG_DFL)


def hold_streams():
    """A standard stream that is closed becomes one that fails as it is used, so that no file gets its number."""
    for number, way in (0, os.O_WRONLY), (1, os.O_RDONLY), (2, os.O_RDONLY):
        try:
            os.fstat(number)
        except OSError:
            os.set_inheritable(os.open(os.devnull, way), True)


def module(name):
    """The module in the file of this name beside this one."""
    import importlib.util
    path = os.path.join(os.path.dirname(os.path.realpath(__file__)), f"{name}.py")
    spec = importlib.util.spec_from_file_location(name, path)
    sys.modules[name] = importlib.util.module_from_spec(spec)
    spec.loader.exec_module(sys.modules[name])
    return sys.modules[name]


def reason(error):
    if isinstance(error, SystemExit):
        return str(error.code)
    if isinstance(error, MemoryError):
        return "out of memory"
    if isinstance(error, KeyboardInterrupt):
        return "interrupted"
    return f"{type(error).__name__}: {error}"


def shown(message):
    """A text on one line: what is not printable, such as the end of a line in a file's name, is escaped."""
    return "".join(each if each.isprintable() else ascii(each)[1:-1] for each in message)


def say(adapter, message):
    """One line on standard error."""
    os.write(2, f"{adapter}: {shown(message)}\n".encode())


def is_abandoned():
    """Whether the first line's shell has ended before Python, so that nobody sees the status of a reply."""
    return SHELL is not None and SHELL != str(os.getppid())


def run(adapter, modules, words):
    """Ends with the reply's status, which `main` of the last module returns once the reply is written; otherwise with 3,
    whatever was raised, here too."""
    status = NO_REPLY
    try:
        isolate()
        hold_streams()
        sys.dont_write_bytecode = True
        status = [module(name) for name in modules][-1].main(words)
    except BaseException as error:  # Python would end with 1, the status of a reply
        say(adapter, reason(error))
    finally:
        os._exit(status if SHELL is None else OF_SHELL + status)
