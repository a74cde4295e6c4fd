"""Others' programs, each with so many bytes of output, bytes of memory and seconds at most."""
from __future__ import annotations

import contextlib
import os
import resource
import selectors
import signal
import subprocess
import sys
import time
from typing import IO, Dict, Iterable, Iterator, List, Mapping, NamedTuple, NoReturn, Optional, Sequence

from .budget import BUDGET, size_in_words
from .door import PIECE, field, kernel_row, tids
from .held import let_go, standstill

STEP = 0.05  # seconds from one look at its memory to the next
PATIENCE = 5.0  # seconds in which one that is asked to end, or to detach, does so
KILOBYTE = 1024
MOST_ERRORS = 1 << 20
OF_SHELL = 128  # a shell adds this to the number of the signal that has ended its last command
KILLED = "it was killed by signal {} ({}); the system's log may say why: dmesg"
MEMORY, OUTPUT, TIME = "it took more than {} of memory", "it printed more than {}", "it took longer than {:g} s"


class Ran(NamedTuple):
    """What a program has printed, its status as that of `subprocess`, and why it was ended, or nothing."""

    status: int
    output: bytes
    errors: bytes
    why: str


class ProgramLimits(NamedTuple):
    """What a program may print, and have in memory with those that it starts, and how long it may take. `space` is what
    it may reserve of memory, of which some need more than they use."""

    most: int
    resident: int
    seconds: float
    space: Optional[int] = None


class Program:
    """A program that runs in a session of its own, with what it has printed so far."""

    def __init__(self, words: Sequence[str], limits: ProgramLimits, env: Optional[Mapping[str, str]],
                 stdin: IO[bytes]) -> None:
        self.limits, self.why = limits, ""
        self.last = time.monotonic() + min(limits.seconds, BUDGET.seconds())
        with stdin as file:
            self.process = subprocess.Popen(words, stdin=file, stdout=subprocess.PIPE, stderr=subprocess.PIPE,
                                            start_new_session=True, env=env)
        if limits.space is not None:
            with contextlib.suppress(OSError, ValueError):  # (it may have ended)
                resource.prlimit(self.process.pid, resource.RLIMIT_AS, (limits.space, limits.space))
        self.printed: Dict[str, List[bytes]] = {"output": [], "errors": []}
        self.left = {"output": limits.most, "errors": min(limits.most, MOST_ERRORS)}
        self.selector = selectors.DefaultSelector()
        for name, pipe in (("output", self.process.stdout), ("errors", self.process.stderr)):
            assert pipe is not None
            os.set_blocking(pipe.fileno(), False)
            self.selector.register(pipe, selectors.EVENT_READ, name)

    def follow(self, end: bytes = b"") -> None:
        """Reads what it prints until it has ended, or comes to one of its limits, or has printed an end. What it has
        left running may keep its output open."""
        looked = time.monotonic()
        while not self.why and not (end and end in b"".join(self.printed["output"])):
            has_ended = self.process.poll() is not None
            if not self.read(0 if has_ended else STEP) and has_ended:
                self.why = killed_words(self.process.returncode)
                return
            now = time.monotonic()
            if now > self.last:
                self.why = TIME.format(self.limits.seconds)
            elif now > looked + STEP:
                looked = now
                self.weigh()

    def read(self, seconds: float) -> bool:
        """Reads what it prints within some seconds. Returns whether there was something."""
        if not self.selector.get_map():
            with contextlib.suppress(subprocess.TimeoutExpired):
                self.process.wait(seconds)
            return False
        return any([self.take(key) for key, _ in self.selector.select(seconds)])

    def take(self, key: selectors.SelectorKey) -> bool:
        """Takes a piece of what it has printed. What is beyond its limit is thrown away."""
        try:
            piece = os.read(key.fd, PIECE)
        except BlockingIOError:
            return False
        if not piece:
            self.selector.unregister(key.fileobj)
        self.left[key.data] -= len(piece)
        if self.left[key.data] >= 0:
            self.printed[key.data].append(piece)
        elif key.data == "output" and not self.why:
            self.why = OUTPUT.format(size_in_words(self.limits.most))
        return True

    def weigh(self) -> None:
        if resident_size(self.process.pid) > self.limits.resident:
            self.why = MEMORY.format(size_in_words(self.limits.resident))

    def end(self, is_asked: bool = True) -> bool:
        """Ends it: asks it by SIGTERM, and kills it if it hasn't ended after some time. Returns whether it had ended by
        itself, and well."""
        is_there = self.process.poll() is None
        if is_there and is_asked:
            send(self.process.pid, signal.SIGTERM)
            self.wait(PATIENCE)
        send(self.process.pid, signal.SIGKILL)
        self.process.wait()
        self.selector.close()
        for pipe in (self.process.stdout, self.process.stderr):
            assert pipe is not None
            pipe.close()
        return not is_there and self.process.returncode == 0

    def wait(self, seconds: float) -> None:
        """Waits for its end, while it may go on printing."""
        last = time.monotonic() + seconds
        while self.process.poll() is None and time.monotonic() < last:
            self.read(STEP)

    def ran(self) -> Ran:
        output, errors = (b"".join(self.printed[name]) for name in ("output", "errors"))
        BUDGET.spend(len(output) + len(errors))
        return Ran(self.process.returncode, output, errors, self.why)


class Session(Program):
    """A program that is told what to do step by step, and stops a process at each. Its limits are for one step."""

    def __init__(self, words: Sequence[str], limits: ProgramLimits) -> None:
        read_end, self.write_end = os.pipe()
        super().__init__(words, limits, None, open(read_end, "rb"))
        self.has_ended = False

    def tell(self, text: bytes) -> None:
        """Tells it something to do. (One that has ended takes nothing.)"""
        with contextlib.suppress(OSError):
            os.write(self.write_end, text)

    def ask(self, text: bytes, end: bytes, pid: int) -> bytes:
        """Tells it what to do with a process, and returns what it prints until an end. Past its limits it is asked to
        detach by the end of its input, and killed, and then the process goes on, unless it stood still before."""
        moving = [] if standstill(pid) else [pid]
        is_done = False
        self.last = time.monotonic() + min(self.limits.seconds, BUDGET.seconds())
        self.left["output"] = self.limits.most
        self.printed["output"].clear()
        try:
            self.tell(text)
            if not self.has_ended:
                self.follow(end)
            is_done = not self.why and self.process.poll() is None
        finally:
            if not is_done:
                self.close()
                let_go(moving)
        return b"".join(self.printed["output"]).partition(end)[0]

    def close(self) -> None:
        """Ends its input, at which it detaches if it isn't in the midst of a step."""
        if not self.has_ended:
            self.has_ended = True
            os.close(self.write_end)
            self.wait(PATIENCE)
            self.end(is_asked=False)


def heed_signals() -> None:
    """Has a signal end a script as an exception does, so that what it runs is ended, and lets go whom it holds."""
    for number in (signal.SIGHUP, signal.SIGINT, signal.SIGTERM):
        signal.signal(number, leave)


def leave(number: int, _: object) -> NoReturn:
    for other in (signal.SIGHUP, signal.SIGINT, signal.SIGTERM):
        signal.signal(other, signal.SIG_IGN)  # (none disturbs the end)
    sys.exit(128 + number)


def killed_words(status: int) -> str:
    """Returns by which signal a program has ended, or what it has run as a shell says it, or nothing."""
    number = status - OF_SHELL if status > OF_SHELL else -status
    return KILLED.format(number, signal.Signals(number).name) if number in {*signal.Signals} else ""


def given(data: bytes) -> IO[bytes]:
    """Returns what a program reads: no file that others may change, and no pipe that may be full."""
    file = open(os.memfd_create("cmh_input"), "w+b")
    file.write(data)
    file.seek(0)
    return file


def send(group: int, number: int) -> None:
    with contextlib.suppress(ProcessLookupError, PermissionError):
        os.killpg(group, number)


def resident_size(pid: int) -> int:
    """Returns how many bytes of memory a process has, with all below it."""
    total = 0
    for one in below(pid):
        with contextlib.suppress(OSError, IndexError, ValueError):
            total += KILOBYTE * int(field(kernel_row(f"/proc/{one}/status"), "VmRSS").split()[0])
    return total


def below(pid: int) -> Iterator[int]:
    """Yields a process, with its children and theirs, as far as the kernel says that."""
    left, seen = [pid], {pid}
    while left:
        yield left[-1]
        more = [child for child in children_of(left.pop()) if child not in seen]
        seen.update(more)
        left += more


def children_of(pid: int) -> List[int]:
    """Returns the children of a process, as far as the kernel says that."""
    with contextlib.suppress(OSError):
        rows = [kernel_row(f"/proc/{pid}/task/{tid}/children") for tid in tids(pid)]
        return [int(word) for row in rows for word in row.split()]
    return []


def run(words: Sequence[str], *, most: int, resident: int, seconds: float, space: Optional[int] = None,
        env: Optional[Mapping[str, str]] = None, stdin: bytes = b"") -> Ran:
    """Runs a program, and returns what it has printed. One that prints more than so many bytes, has more memory with
    those that it starts, or takes longer, is ended with these, and `why` says so. Raises OSError if it isn't there."""
    BUDGET.check()
    program = Program(words, ProgramLimits(most, resident, seconds, space), env, given(stdin))
    try:
        program.follow()
    finally:
        program.end()
    return program.ran()


def attach(words: Sequence[str], pids: Iterable[int], *, most: int, resident: int, seconds: float,
           env: Optional[Mapping[str, str]] = None) -> Ran:
    """Runs a program that stops some processes, and kills it past its limits: the kernel detaches it then. By a signal
    that asks it to end, gdb sends a SIGINT to a process that it waits for, which may end by that. Whatever becomes of
    it, those go on that it has stopped, and who has stood still before stays so."""
    BUDGET.check()
    moving = [pid for pid in pids if not standstill(pid)]
    program: Optional[Program] = None
    try:
        program = Program(words, ProgramLimits(most, resident, seconds), env, given(b""))
        program.follow()
    finally:
        if program is not None and not program.end(is_asked=False):
            let_go(moving)
    return program.ran()
