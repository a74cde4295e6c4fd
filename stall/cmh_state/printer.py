"""The thread that prints a state, and what wakes it."""
from __future__ import annotations

import atexit
import contextlib
import faulthandler
import fcntl
import functools
import os
import select
import signal
import stat
import threading
import time

from . import attempt, has_room, say
from .state import seconds_of, state
from .tasks import INHERITED, tasks_of_all
from .threads import status_of

TYPE_CHECKING = False
if TYPE_CHECKING:
    from typing import Optional, Tuple
    File = Optional[Tuple[int, int]]  # what tells one at a descriptor from any other

STUCK, AT_END = 5, 1  # seconds that the program waits for the thread: at a fork, and at its end
GATHER, BYTES = 0.02, 65536  # seconds for what the signal's handler still writes, and bytes that are read of it
# What ends the thread that prints, and takes that back: what faulthandler writes has no such byte, whatever functions
# are called.
STOP, GOES_ON = b"\0", b"\1"
LOOKS = 0.1, 1, 10  # seconds after which a new pipe is looked at again: a program goes into the background early
SETTLE = 0.05  # seconds from the signal to the first look: it wakes a thread that takes it too, and then waits again


def open_file(path: str) -> int:
    """Opens the file that states are added to. Raises OSError if somebody else may have put it there, or may write it:
    who knows what a state has would read it, or make another one of it."""
    number = os.open(path, os.O_WRONLY | os.O_APPEND | os.O_CREAT | os.O_NOFOLLOW | os.O_NONBLOCK, 0o600)
    there = os.fstat(number)
    is_own = there.st_uid in (os.geteuid(), 0) and there.st_nlink == 1 and not there.st_mode & 0o022
    if stat.S_ISREG(there.st_mode) and is_own:
        return number
    os.close(number)
    raise OSError(f"{path} isn't a plain file of this user, with one link, that nobody else may write")


def write_state(number: int = 0) -> None:
    text = state(number).encode()
    path = os.environ.get("CMH_STATE_FILE", "").replace("%p", str(os.getpid()))
    number = open_file(path) if path else 2
    try:
        write_all(number, text)
    finally:
        if path:
            os.close(number)


def write_all(number: int, text: bytes) -> None:
    """Writes a text. What is no plain file may take nothing any more, and isn't waited for longer than some seconds."""
    left, is_plain = memoryview(text), stat.S_ISREG(os.fstat(number).st_mode)
    while left:
        if not (is_plain and number > 2) and not has_room(number, STUCK):
            raise OSError("standard error takes nothing" if number == 2 else "the file takes nothing")
        left = left[os.write(number, left if is_plain else left[:select.PIPE_BUF]):]


def has_input(number: int, seconds: Optional[float]) -> bool:
    """Waits for input, for some seconds or for good, and tells whether something is there, or the file isn't."""
    asked = select.poll()
    asked.register(number, select.POLLIN)
    return bool(asked.poll(seconds and 1000 * seconds))


def out_of_the_way(number: int) -> int:
    """Moves a descriptor to a number that isn't that of standard input, output or error, one of which may be closed."""
    if number > 2:
        return number
    try:
        return fcntl.fcntl(number, fcntl.F_DUPFD_CLOEXEC, 3)
    finally:
        os.close(number)


def file_at(number: int) -> File:
    """What tells the file at a descriptor from any other, or None if there is none."""
    try:
        status = os.fstat(number)
    except OSError:
        return None
    return status.st_dev, status.st_ino


class Printer:
    """A thread that prints a state each time that the signal comes.

    faulthandler writes into its pipe from within the signal's handler, so that no Python code of a blocked thread has
    to run for it. Only this thread takes the signal: a system call of another one may return at it, as signal.pause
    does, at which a main thread may end the program.

    A program that goes into the background closes all files that it doesn't know, also this pipe, whose numbers may
    then be those of its own: what isn't the pipe any more is never read, written or closed."""

    def __init__(self, name: str, number: int) -> None:
        self.name, self.number, self.signals, self.is_stuck = name, number, 0, False
        self.thread: Optional[threading.Thread] = None
        self.shown: Tuple[int, File] = -1, None
        self.open()

    def open(self) -> None:
        self.read_end, self.write_end = map(out_of_the_way, os.pipe())
        self.pipe, self.looks = self.ends(), iter(LOOKS)
        os.set_blocking(self.write_end, False)
        faulthandler.register(self.number, file=self.write_end, all_threads=False)

    def reopen(self) -> None:
        """Opens another pipe, and only then leaves this one, to which the signal's handler writes till then."""
        before = zip((self.read_end, self.write_end), self.pipe)
        self.open()
        for number, end in before:
            if file_at(number) == end:
                os.close(number)

    def ends(self) -> Tuple[File, File]:
        return file_at(self.read_end), file_at(self.write_end)

    def is_open(self) -> bool:
        return self.ends() == self.pipe

    def start(self) -> None:
        if self.thread is None or not self.thread.is_alive():
            self.is_stuck = False
            self.thread = threading.Thread(target=attempt, args=(self.serve,), name="cmh_state", daemon=True)
            self.thread.start()
        elif self.is_stuck:
            self.tell(GOES_ON)

    def serve(self) -> None:
        pause = seconds_of("CMH_STATE_PAUSE", 5)
        signal.pthread_sigmask(signal.SIG_UNBLOCK, [self.number])
        while True:
            text = self.read()
            if STOP in text.rpartition(GOES_ON)[2]:
                return
            self.is_stuck = False
            if not text:
                self.reopen()
            elif text.strip(STOP + GOES_ON):
                self.show_again()
                self.serve_once(pause)

    def serve_once(self, pause: float) -> None:
        self.signals += 1
        time.sleep(SETTLE)
        attempt(write_state, self.signals)
        if pause > 0 and self.is_open() and not has_input(self.read_end, pause):
            attempt(write_state, self.signals)

    def read(self) -> bytes:
        """What the signal's handler wrote, all of it, or nothing if the pipe isn't open any more, which may be closed
        between any two steps. So nothing is read before something is there: what the program then has under the number
        is waited for at most."""
        text = b""
        with contextlib.suppress(OSError):
            while self.is_open() and not has_input(self.read_end, next(self.looks, None)):
                self.show_again()
            while STOP not in text and has_input(self.read_end, GATHER) and self.is_open():
                text += os.read(self.read_end, BYTES)
        return text

    def show(self) -> None:
        """Keeps a file in memory open with the signal's name, by which others see that this process answers. A process
        that is forked has it too, and answers; one that runs another program hasn't."""
        if hasattr(os, "memfd_create"):
            with contextlib.suppress(OSError):  # (an old kernel)
                number = out_of_the_way(os.memfd_create("cmh_state"))
                os.write(number, self.name.encode())
                self.shown = number, file_at(number)

    def show_again(self) -> None:
        """Shows it again where all files were closed: a look later than the pipe is open again, when that is over. A
        file of the program may else get this number, and what is written there."""
        number, file = self.shown
        if file is not None and file_at(number) != file:
            self.show()

    def tell(self, what: bytes) -> None:
        if self.is_open():
            os.write(self.write_end, what)

    def stop(self, seconds: float = STUCK) -> None:
        """Ends the thread. Before a fork, so that the child begins with no lock that this thread has; before the end of
        the program, since Python would end it by pthread_exit, which aborts where libgcc_s isn't there. Where what it
        prints can't be written, nobody waits for it a second time."""
        if self.thread is not None and self.thread.is_alive() and not self.is_stuck:
            self.tell(STOP)
            self.thread.join(seconds)
            self.is_stuck = self.thread.is_alive()

    def open_in_child(self) -> None:
        """After a fork. The child has copies of all tasks, and no thread that runs them."""
        INHERITED.update(tasks_of_all())
        self.thread = None
        self.reopen()
        self.start()


def is_taken(number: int) -> bool:
    """Whether a signal is ignored or has a handler, of Python or, as the kernel has it, of a library."""
    caught = int(status_of("/proc/self").get("SigCgt", "0"), 16) >> number - 1 & 1
    return bool(caught) or signal.getsignal(number) != signal.SIG_DFL


def start() -> Optional[Printer]:
    name = os.environ.get("CMH_STATE_SIGNAL", "SIGRTMAX" if hasattr(signal, "SIGRTMAX") else "SIGUSR2")
    number = signal.Signals.__members__.get(name)
    if number is None or is_taken(number):
        say(f"{name} is taken or unknown: name another in CMH_STATE_SIGNAL")
        return None
    printer = Printer(name, number)
    signal.pthread_sigmask(signal.SIG_BLOCK, [number])
    printer.start()
    hooks = (functools.partial(attempt, hook) for hook in (printer.stop, printer.start, printer.open_in_child))
    os.register_at_fork(**dict(zip(("before", "after_in_parent", "after_in_child"), hooks)))
    atexit.register(attempt, printer.stop, AT_END)
    printer.show()
    return printer
