"""A reading: all processes of the machine, as they were read one after the other, and who is around whom."""
from __future__ import annotations

import os
import sys
import time
from typing import Dict, Iterable, Iterator, List, Set

from cmh_proc.budget import BUDGET, Budget
from cmh_proc.calls import EPOLLS, OWNER, PRIVATE, SLEEPS, int32
from cmh_proc.open_files import OpenFile
from cmh_proc.process import Row
from cmh_proc.process import pids as all_pids
from cmh_proc.programs import below

from .memory import add_kin
from .processes import Collector, name_open_files
from .readers import read_all
from .sockets import Sockets

NO_KEY = 0  # what has no key in System V


class MachineReading:
    """All processes of the machine, as they were read one after the other."""

    def __init__(self, asked: Iterable[int] = (), budget: Budget = BUDGET) -> None:
        self.began, start = time.time(), time.monotonic()
        machine = Collector(budget)
        rows = [*read_all(machine, processes(asked)), machine.itself()]
        machine.add_locks(rows)
        machine.add_queues(rows)
        machine.add_memory(rows)
        machine.add_refused(rows)
        add_kin(rows)
        name_open_files(machine.epolls)
        self.rows = {row["pid"]: row for row in rows}
        self.sockets = Sockets(rows)
        self.warnings = machine.warnings + self.sockets.warnings
        self.seconds = time.monotonic() - start
        self.holders: Dict[str, Set[int]] = {}
        self.children: Dict[int, Set[int]] = {}
        self.threads: Dict[int, Set[int]] = {}  # the processes of a thread, by its number as it sees itself
        for row in rows:
            for thread in row.get("threads", ()):
                self.threads.setdefault(thread.get("inner", thread["tid"]), set()).add(row["pid"])
            for key in keys_of(row):
                self.holders.setdefault(key, set()).add(row["pid"])
            for parent in (row["ppid"], int(row.get("TracerPid", "0"))):
                self.children.setdefault(parent, set()).add(row["pid"])

    def tree(self, pids: Iterable[int]) -> Set[int]:
        """Returns some processes, with all their children and theirs."""
        below: Set[int] = set()
        left = list(pids)
        while left:
            pid = left.pop()
            if pid not in below:
                below.add(pid)
                left += self.children.get(pid, ())
        return below

    def rows_of(self, pids: Iterable[int]) -> List[Row]:
        return [self.rows[pid] for pid in pids if pid in self.rows]

    def top(self, row: Row) -> int:
        """Returns the highest process above one whose session or program is that of the one below it."""
        while True:
            above = self.rows.get(row["ppid"], {})
            if not any(row.get(name, "") == above.get(name) for name in ("session", "exe")):
                return int(row["pid"])
            row = above

    def later_branches(self, pid: int) -> Set[int]:
        """Returns the children of those above a process that began after it: one may be an orphan of those below it."""
        start, later = self.rows[pid]["start"], set()
        while pid in self.rows:
            pid = self.rows[pid]["ppid"]
            later |= {child for child in self.children.get(pid, ()) if self.rows[child].get("start", start) >= start}
        return later

    def carriers(self) -> Set[int]:
        """Returns the processes that may have a file which no descriptor shows: on its way, or used by an io_uring."""
        return {row["pid"] for row in self.rows.values() if any(map(may_carry, row.get("fds", {}).values()))}

    def around(self, pid: int, is_near: bool = False) -> Set[int]:
        """Returns the processes that may end a wait of one: that have another end of it, or are its children, and those
        that may use what has no key, unless only the near ones are asked for."""
        row = self.rows.get(pid)
        if row is None:
            return set()
        near = self.children.get(pid, set()) | {int(row.get("TracerPid", "0")), *row.get("kin", ())}
        for thread in row.get("threads", ()):
            near = near | self.threads.get(owner_of(thread), set())
            if thread.get("key") == NO_KEY and not is_near:
                tops = {self.top(user) for user in [row, *self.rows_of(thread["users"])]}
                near = near | self.tree(tops.union(*map(self.later_branches, tops)))
            # (One that sleeps may poll for a file that somebody has locked.)
            locked = (key for key in keys_of(row) if key.startswith("file "))
            for key in locked if thread.get("call") in SLEEPS else self.keys_of_wait(row, thread):
                near = near | self.holders.get(key, set())
        return near

    def keys_of_wait(self, row: Row, thread: Row) -> Iterator[str]:
        """Yields what tells the ends of the files that a thread waits at."""
        for fd, *_ in thread.get("set", ()):
            file = row["fds"].get(str(fd))
            if file is None:
                continue
            if file.socket:
                yield from (f"socket:[{peer}]" for peer in self.sockets.rows.get(file.socket, {}).get("peers", ()))
            yield from file.keys()
        if thread.get("call") in EPOLLS:
            epoll = row["fds"].get(str(int32(int(thread["args"][0], 16))))
            yield from epoll.keys() if epoll is not None else ()
        if thread.get("memory"):
            yield thread["memory"]
        if thread.get("call") == "connect":
            asks = thread.get("asks", "")
            for key in (asks, f"{row['net']} {asks}"):
                yield from (f"socket:[{inode}]" for inode in self.sockets.listening.get(key, ()))

    def parents(self, pids: Set[int]) -> Dict[int, List[int]]:
        """Returns the parent of each process above some, and when it began."""
        parents: Dict[int, List[int]] = {}
        left = [self.rows[pid]["ppid"] for pid in pids]
        while left:
            pid = left.pop()
            row = self.rows.get(pid, {})
            if "start" in row and pid not in pids and pid not in parents:
                parents[pid] = [row["ppid"], row["start"]]
                left.append(row["ppid"])
        return parents

    def text(self, number: int, kept: Set[int]) -> Iterator[Row]:
        """Yields the rows of the state for some processes."""
        rows = [self.rows[pid] for pid in sorted(kept) if pid in self.rows]
        missing = [row for pid, row in sorted(self.rows.items()) if pid not in kept and "unreadable" in row]
        numbers = {file.socket for row in rows for file in row.get("fds", {}).values()} - {0}
        yield {"reading": number, "began": self.began, "seconds": round(self.seconds, 2),
               "warnings": self.warnings}
        yield from ({**with_words(row, row.get("fds", {})), "command": "", "apart": True} for row in missing)
        for row in rows:
            wanted = {fd for thread in row.get("threads", ()) for fd, *_ in thread.get("set", ())}
            yield with_words(row, (fd for fd, file in row.get("fds", {}).items() if file.is_end() or int(fd) in wanted))
        for inode in sorted(numbers & self.sockets.rows.keys()):
            yield {"socket": inode, **self.sockets.rows[inode]}
        yield {"listening": {key: them for key, them in self.sockets.listening.items() if numbers & {*them}}}
        yield {"parents": self.parents({row["pid"] for row in (*rows, *missing)})}
        yield {"end": number, "processes": len(rows) + len(missing)}


def processes(asked: Iterable[int]) -> List[int]:
    """Returns all other processes. Those that are asked for, and those below them, come last, and so are read first:
    what others take of the budget takes nothing away from them."""
    own, near = os.getpid(), [pid for one in asked for pid in below(one)]
    pids = [pid for pid in all_pids() if pid != own]
    there = {*pids}
    return [pid for pid in pids if pid not in {*near}] + [pid for pid in dict.fromkeys(reversed(near)) if pid in there]


def keys_of(row: Row) -> Iterator[str]:
    """Yields what tells the files of a process from others."""
    return (key for file in row.get("fds", {}).values() for key in file.keys())


def with_words(row: Row, fds: Iterable[str]) -> Row:
    """Returns the row of a process with some of its descriptors, as a state has these."""
    return {**row, "fds": {fd: row["fds"][fd].words() for fd in fds}} if "fds" in row else row


def owner_of(thread: Row) -> int:
    """Returns the number of the thread that has the mutex of several processes at which a thread waits, or 0."""
    words = bytes.fromhex(thread.get("words", ""))
    if thread.get("call") != "futex" or int(thread["args"][1], 16) & PRIVATE or len(words) < 12:
        return 0
    word, owner = (int.from_bytes(words[start:start + 4], sys.byteorder) for start in (0, 8))
    return owner if word == 2 else word & OWNER if word >> 31 else 0


def may_carry(file: OpenFile) -> bool:
    """Whether a descriptor may have or use files that none shows. (Of a ring an older kernel doesn't say how many.)"""
    return file.kept != 0 if file.is_ring else file.carried is not None
