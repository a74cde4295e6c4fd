"""Prints on a signal where each thread and each asyncio task of this Python program stands.

Import it first of all, in each process of the job:

    import cmh_state

From then on `kill -RTMAX PID` prints a state of that process, and five seconds later a second one, also while its main
thread or its event loop is blocked, for they are printed by a thread of its own. Four variables of the environment
change that: CMH_STATE_SIGNAL, which is read at the import, names another signal, if a program has a handler for this
one, as more have for SIGUSR2; CMH_STATE_FILE names a file that states are added to, in place of standard error, where
`%p` stands for the process id; CMH_STATE_PAUSE is the time from the first state to the second, or 0 for one alone;
CMH_STATE_SECONDS is the time between the two looks that are taken for a state, which show who has moved.

A signal that no handler takes ends a program. So a process that answers has a file in memory of the name `cmh_state`
open, with the signal's name in it, where Linux has such files. /proc/PID/fd shows it: send a signal to no other.

Nothing that fails here disturbs the program: it is said once on standard error, and the program goes on without a
state. So this file has only what any Python 3 can read, and the files beside it have the rest.

A state is lines of JSON, each behind `cmh-state `. It has names of the machine, files, functions, threads, tasks and
locks, limits of waits, and no other values. It needs CPython 3.8 to 3.13 on a system with signals, so not Windows.
"""
import sys

TYPE_CHECKING = False
if TYPE_CHECKING:
    from typing import Any, Callable, Set

OLDEST = (3, 8)
SAID = set()  # type: Set[bytes]  # what has been said of faults
MOST = 500  # bytes of a line that are said, which a pipe takes as a whole


def say(text: str) -> None:
    """Says something once on standard error, if there is one that takes it now. Nothing comes of a fault here."""
    try:
        import os
        line = ("cmh_state: " + " ".join(text.split())).encode("ascii", "backslashreplace")[:MOST] + b"\n"
        if line not in SAID and has_room(2, 0):
            os.write(2, line)
        SAID.add(line)
    except Exception:
        pass


def has_room(number: int, seconds: float) -> bool:
    """Whether a file takes something within some seconds. A pipe that nobody reads any more takes nothing: to write to
    it ends a program that asks for that. Standard error is none where Python has found none, since another file of the
    program may have its number."""
    import select
    if number == 2 and (sys.__stderr__ is None or sys.__stderr__.closed):
        return False
    asked = select.poll()
    asked.register(number, select.POLLOUT)
    events = asked.poll(1000 * seconds)
    return bool(events) and not events[0][1] & (select.POLLERR | select.POLLHUP | select.POLLNVAL)


def is_of_program(error: BaseException) -> bool:
    """Whether an exception is the program's: of Ctrl-C, or of its own handler of a signal, which may come at any step
    of ours."""
    import signal
    codes = [getattr(signal.getsignal(number), "__code__", None) for number in range(1, signal.NSIG)]
    place = error.__traceback__
    while place is not None and place.tb_frame.f_code not in codes:
        place = place.tb_next
    return place is not None


def attempt(function: "Callable[..., Any]", *arguments: "Any") -> "Any":
    """Calls a function of ours. Where that fails, it is said, and the program goes on."""
    try:
        return function(*arguments)
    except KeyboardInterrupt:
        raise
    except BaseException as error:
        is_theirs = False
        try:
            is_theirs = is_of_program(error)
            if not is_theirs:
                say("no state: " + ": ".join(filter(None, (type(error).__name__, str(error)))))
        except Exception:  # (where there is no memory or no stack left to say it)
            pass
        if is_theirs:
            raise
    return None


def start() -> "Any":
    """Begins to answer the signal, and returns what does, or None where it can't."""
    if sys.version_info < OLDEST:
        raise RuntimeError("Python 3.8 or later is needed, and this is " + sys.version.split()[0])
    import importlib
    return importlib.import_module(__name__ + ".printer").start()


PRINTER = attempt(start)
