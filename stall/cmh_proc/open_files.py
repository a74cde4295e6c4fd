"""The descriptors of a process, as rows, which the collector fills and prints into a state, and which are read of it.

A state has each as a list of words: where its link leads, how it is open, and what else the kernel says of its file, as
the kernel words it, or by what its descriptors are told from those of other files.
"""
from __future__ import annotations

import re
from typing import Any, Callable, Iterable, List, NamedTuple, Optional, Sequence, Tuple

PIPE, SOCKET, ANONYMOUS = "pipe:[", "socket:[", "anon_inode:["  # how links begin that lead to no path
EPOLL, EVENTFD = "anon_inode:[eventpoll]", "anon_inode:[eventfd]"
NUMBERS = r"[0-9a-f]{1,16}:\d{1,20}"  # of a file: device and number
MEMORY = r"memory [0-9a-f]{1,8}:[0-9a-f]{1,8} [0-9]{1,20}"


class FileFact(NamedTuple):
    """What may be known of a file: how it begins among the words of a state, its form, and how it is read and written.
    One that `tells` tells its file from others."""

    begin: str
    form: str
    read: Callable[[str], Any] = int
    write: Callable[[Any], str] = str
    tells: bool = True


def times_in(text: str) -> Tuple[int, ...]:
    return tuple(map(int, text.strip("()").split(",")))


# In the order in which they are written.
FACTS = {
    "event": FileFact("eventfd-id:", r"\d{1,10}"),
    "pid": FileFact("Pid:", r"-?\d{1,10}"),
    "timer": FileFact("it_value:", r"\(\d{1,20}, \d{1,9}\)", times_in),
    "signals": FileFact("sigmask:", "[0-9a-f]{1,16}", lambda text: int(text, 16), "{:016x}".format, False),
    "kept": FileFact("UserFiles:", r"\d{1,10}", tells=False),
    "carried": FileFact("scm_fds:", r"\d{1,10}", tells=False),
    "fifo": FileFact("fifo", NUMBERS, str),
    "file": FileFact("file", NUMBERS, str),
    "locks": FileFact("lock:", ".*", str, tells=False),
    "open": FileFact("open", r"\d{1,10}:\d{1,10}", str),
    "queue": FileFact("queue", NUMBERS, str),
    "memory": FileFact("memory", MEMORY.partition(" ")[2], str)}
MORE = re.compile("|".join(rf"{fact.begin}\s*(?P<{name}>{fact.form})" for name, fact in FACTS.items()))
OF_KERNEL = tuple(fact.begin for fact in FACTS.values() if fact.begin.endswith(":") and fact.begin != "lock:")


class OpenFile:
    """What a descriptor leads to. `mode` says how it is open, or nothing where that isn't known. `event` is the number
    of an eventfd, `pid` whose end a pidfd tells, `timer` in how many seconds and nanoseconds a timer comes, and
    `signals` which of them it takes; an io_uring has `kept` so many files, and through a socket so many are `carried`.
    `fifo`, `file` and `queue` have device and number, `memory` what is shared, `locks` the kernel's lines of locks, and
    `open` names what several descriptors share: by process and descriptor. (Each has only those that are known.)"""

    event: Optional[int] = None
    pid: Optional[int] = None
    timer: Optional[Tuple[int, int]] = None
    signals: Optional[int] = None
    kept: Optional[int] = None
    carried: Optional[int] = None
    locks: Tuple[str, ...] = ()
    fifo = file = open = queue = memory = ""

    def __init__(self, target: str, mode: str = "") -> None:
        self.target, self.mode = target, mode

    @staticmethod
    def of(words: Sequence[str]) -> "OpenFile":
        """Returns what the words of a state say."""
        file = OpenFile(*words[:2])
        file.add(words[2:])
        return file

    def add(self, words: Iterable[str]) -> None:
        """Adds what is known, as a state or the kernel has it."""
        for match in map(MORE.fullmatch, words):
            name = match.lastgroup if match is not None else None
            if match is not None and name is not None:
                value = FACTS[name].read(match[name])
                setattr(self, name, (*self.locks, value) if name == "locks" else value)

    def words(self) -> List[str]:
        """Returns it as a state has it."""
        return [self.target, self.mode, *(text for name in self.known() for text in (
            [self.key(name)] if name != "locks" else [f"lock: {line}" for line in self.locks]))]

    def known(self) -> List[str]:
        """Returns the names of what is known of it besides, in the order in which that is written."""
        own = vars(self)
        return [name for name in FACTS if name in own] if len(own) > 2 else []

    def keys(self) -> List[str]:
        """Returns what tells its file from others: the number of its pipe or socket, or what more is known."""
        own = [self.target] if self.target.startswith((PIPE, SOCKET)) else []
        return own + [self.key(name) for name in self.known() if FACTS[name].tells]

    def key(self, name: str) -> str:
        """Returns the one of these keys that has a name."""
        return f"{FACTS[name].begin} {FACTS[name].write(getattr(self, name))}"

    @property
    def is_pipe(self) -> bool:
        return self.target.startswith(PIPE)

    @property
    def socket(self) -> int:
        """The number of its socket, or 0."""
        return int(self.target[len(SOCKET):-1]) if self.target.startswith(SOCKET) else 0

    @property
    def is_ring(self) -> bool:
        """Whether it is an io_uring."""
        return "io_uring" in self.target

    def is_end(self) -> bool:
        """Whether it may be an end of somebody's wait."""
        return self.target.startswith((PIPE, SOCKET, ANONYMOUS)) or self.known() != []
