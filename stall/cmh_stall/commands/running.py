"""What runs on this machine that a state can be taken of: the command for each, which systems see inside of it, its
user, its age and its command line. Who has stood still for longest comes first."""
from __future__ import annotations

import os
import time
from typing import Dict, Iterator, List, NamedTuple, Optional, Tuple

from cmh_linux.limits import Clocks
from cmh_proc.process import MOST_WORDS, bytes_of, name_of, pids, stat_of, threads_of, user_of

from ..core.files import shown
from ..core.folder import name_of_user
from ..systems import NAMES, taker_of
from ..core.times import in_words

WIDTH = 120  # of a command line
UNITS = {"d": "days", "h": "hours", "min": "minutes"}


class Row(NamedTuple):
    """A process: what it is, the command that takes its state, and which systems see inside of it."""

    what: str
    command: str
    inside: str
    pid: int


def proposals() -> List[str]:
    """Returns for each other process that a parser sees inside of some lines: what it is with the command that takes
    its state, and who runs it."""
    by_command: Dict[str, Row] = {}
    for pid in pids():
        for row in rows_of(pid) if pid != os.getpid() else ():
            by_command.setdefault(row.command, row)
    clocks = Clocks()
    waits = {row.command: waits_of(row.pid, clocks) for row in by_command.values()}
    rows = sorted(by_command.values(), key=lambda row: -(waits[row.command] or 0))
    return [f"{shown(row.what)}: {shown(row.command)}\n    {details(row, waits[row.command])}" for row in rows]


def details(row: Row, waited: Optional[float]) -> str:
    """Returns who runs a process, for how long it has been there and stood still, what sees it, and its words."""
    still = "" if waited is None else ", it runs" if waited < 1 else \
        f", no thread of it ran for {in_words(waited, 2, UNITS)}"
    line = shown(" ".join(words_of(row.pid)).strip())
    line = line if len(line) <= WIDTH else f"{line[:WIDTH]} .."
    return f"{user(row.pid)}, begun {in_words(age_of(row.pid), 2, UNITS)} ago{still}; {row.inside}: {line}"


def user(pid: int) -> str:
    number = user_of(pid)
    return "?" if number is None else shown(name_of_user(number))


def age_of(pid: int) -> float:
    """Returns for how many seconds a process has been there."""
    begun = (stat_of(f"/proc/{pid}")[19:] or ["?"])[0]
    return max(0.0, time.clock_gettime(time.CLOCK_BOOTTIME) - int(begun) / os.sysconf("SC_CLK_TCK")) \
        if begun.isdigit() else 0.0


def waits_of(pid: int, clocks: Clocks) -> Optional[float]:
    """Returns for how many seconds no thread of a process has run, or None if the kernel doesn't say that."""
    waits = [clocks.waited(f"/proc/{pid}/task/{tid}") for tid in threads_of(pid)]
    known = [seconds for seconds in waits if seconds is not None]
    return min(known) if known and len(known) == len(waits) else None


def words_of(pid: int) -> List[str]:
    words = bytes_of(f"/proc/{pid}/cmdline", MOST_WORDS).split(b"\0")
    return [word.decode(errors="backslashreplace") for word in words]


def rows_of(pid: int) -> Iterator[Row]:
    for what, command, inside in commands_for(pid):
        yield Row(f"{what} {pid}", command, inside, pid)


def commands_for(pid: int) -> List[Tuple[str, str, str]]:
    """Returns what a process is, the command for it, and what that sees, by the first system that knows it."""
    name, words = name_of(pid), words_of(pid)
    made = (list(taker_of(system).commands(pid, name, words)) for system in NAMES)
    return next(filter(None, made), [])
