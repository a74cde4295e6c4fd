"""Starts a command, and ends it by a signal: what has to work before any module is loaded that a small Python, or one
of old, may lack."""
import contextlib
import errno
import importlib
import signal
import sys
from typing import Iterator, NoReturn, Optional

PACKAGE = __name__.partition(".")[0]
OUT_OF_MEMORY = ("out of memory: a higher limit, of --most-memory or CMH_LOOK_BYTES (512 MB), of ulimit -v or of the "
                 "cgroup, or a larger machine may have enough")
# What the machine may lack, by the error that says so: in words, the limit in question, and what to do.
SHORTAGES = {
    errno.EMFILE: ("too many open files", "RLIMIT_NOFILE", "ulimit -n{}", "raise that, such as by ulimit -n 1024"),
    errno.ENFILE: ("too many open files of all processes", "", "fs.file-max", "end some, or raise that by sysctl"),
    errno.EAGAIN: ("no further process or thread may begin", "RLIMIT_NPROC",
                   "ulimit -u{}, pids.max of the cgroup, or too little memory", "end some, or raise that"),
}
NO_THREAD = "can't start new thread"  # as Python says it


class Signals:
    """The signals that end a command. It ends as by an exception, so that what was begun is put away."""

    def __init__(self) -> None:
        self.is_held, self.number = False, 0

    def install(self) -> None:
        for number in (signal.SIGTERM, signal.SIGHUP, signal.SIGINT):
            if signal.getsignal(number) != signal.SIG_IGN:
                signal.signal(number, self.leave)

    def leave(self, number: int, _: object = None) -> None:
        """Ends the command, unless this is held back. No second signal disturbs the end, whichever it is."""
        self.number = number
        if not self.is_held:
            self.is_held = True
            sys.exit(128 + number)

    def forget(self) -> None:
        """Goes on after a signal that has ended a part of the command alone. The next one ends it all."""
        self.is_held, self.number = False, 0

    @contextlib.contextmanager
    def hold(self) -> Iterator[None]:
        """Holds signals back from what is done here as a whole."""
        was_held, self.is_held = self.is_held, True
        try:
            yield
        finally:
            self.is_held = was_held
            if self.number:
                self.leave(self.number)


SIGNALS = Signals()


def start(name: str, module: str) -> NoReturn:
    """Runs the command of a module with the words of the command line, and ends with its status."""
    if sys.version_info < (3, 8):
        end(f"{name}: Python 3.8 or later is needed")
    SIGNALS.install()
    try:
        status: int = importlib.import_module(f"{PACKAGE}.commands.{module}").command(sys.argv[1:])
    except ModuleNotFoundError as error:
        end(f"{name}: {lack(error.name)}")
    except Exception as error:  # (before the command can say so itself)
        own_fault = f"this is a fault of {name}, and nothing is said: {type(error).__name__}: {error}"
        end(f"{name}: {shortage(error) or own_fault}")
    finally:
        SIGNALS.is_held = True  # (what has to be said is said)
    sys.exit(status)


def lack(name: Optional[str]) -> str:
    """Says which module is missing, and what brings it: Debian and its children have a Python of the smallest modules
    alone, python3-minimal, which libpython3-stdlib makes whole."""
    if str(name).partition(".")[0] == PACKAGE:
        return f"the module {name} isn't there: it isn't installed as a whole"
    return f"Python has no module {name}: its standard library isn't whole (Debian: apt-get install libpython3-stdlib)"


def shortage(error: BaseException) -> str:
    """Says what the machine lacks, and what to do. Returns nothing if an error is of another kind."""
    number = errno.EAGAIN if str(error) == NO_THREAD else error.errno if isinstance(error, OSError) else None
    if isinstance(error, (MemoryError, SystemError)) or number == errno.ENOMEM:
        return OUT_OF_MEMORY
    if number not in SHORTAGES:
        return ""
    words, limit, called, advice = SHORTAGES[number]
    return f"{words} ({called.format(value_of(limit))}): {advice}"


def value_of(limit: str) -> str:
    """Returns the value of a limit of this process in words, if that can be had."""
    with contextlib.suppress(ImportError, OSError, AttributeError):  # (to load a module takes a file too)
        import resource
        value = resource.getrlimit(getattr(resource, limit))[0]
        return f" is {'unlimited' if value == resource.RLIM_INFINITY else value}"
    return ""


def end(text: str) -> NoReturn:
    if sys.stderr is not None:
        print(text, file=sys.stderr)
    sys.exit(4)
