"""Locks of files, of `flock` and of `fcntl`: who has one that is in the way of another."""
from __future__ import annotations

import re
from dataclasses import dataclass
from typing import Dict, Iterator, List, Optional, Tuple

from cmh_proc.calls import SETLKW, int32
from cmh_proc.open_files import OpenFile

from ...core.model import Part, any_of, unseen
from .machine import NOWHERE, Host, LinuxThread, Owner, some_names
from .waits import FILES, LinuxWait, against, not_understood, users_of, with_end, with_sleeper

NUMBER = re.compile(r"[0-9]{1,19}")
LOCK_OF = "lock of"


@dataclass
class Holding:
    """A lock in the way, with the processes that share its open file. One of these may have taken it."""

    owners: List[Owner]
    taker: Optional[Owner] = None
    is_for_reading: bool = False


def wait_for_lock(machine: Host, thread: LinuxThread) -> LinuxWait:
    """Returns the wait for a lock on a file: for each open file that has one in the way."""
    fd = int32(thread.arguments[0])
    file = thread.owner.file(fd)
    what, wanted = f"{file.target if file is not NOWHERE else 'a file'} (descriptor {fd})", Lock.wanted(thread)
    if not file.file or wanted is None:
        return not_understood("which lock it waits for isn't known", what, LOCK_OF)
    holdings: Dict[str, Holding] = {}
    is_clear, owners = True, machine.with_file(file.key("file"))
    for owner in owners:
        for held, text in locks_of(owner, file):
            lock = Lock.of(text)
            is_clear = is_clear and lock is not None
            if lock is not None and lock.is_in_the_way_of(wanted) and not is_own(lock, owner, held, thread.owner, file):
                add_holder(holdings.setdefault(holder_of(lock, owner, held, text), Holding([])), owner, lock)
    wait = wait_for_holdings(machine, thread, list(holdings.values()), wanted)
    if not is_clear or not {sharer for name in holdings for sharer in machine.with_file(name)} <= {*owners}:
        wait.why = "a lock of its file isn't understood"
        wait.parts = [(*part, unseen("unshown", wait.why)) for part in wait.parts]
    wait.what = what
    return wait


def locks_besides(machine: Host, thread: LinuxThread) -> str:
    """Returns in words who has locked a file that the process of a thread has open, or nothing: it may poll for that.
    """
    said = []
    for file in thread.owner.files.values():
        holders = [owner for owner in machine.with_file(file.key("file")) if owner is not thread.owner
                   and any(Lock.of(text) is not None for _, text in locks_of(owner, file))] if file.file else []
        if holders and not file.locks:  # (else it shares that lock, or has one)
            is_still = all(thread.state in "Tt" for owner in holders for thread in owner.living)
            more = ", and is stopped" if is_still else ""
            said.append(f"{some_names(holders)} has a lock of {file.target}, which it has open too{more}")
    return "; ".join(dict.fromkeys(said))


def add_holder(holding: Holding, owner: Owner, lock: "Lock") -> None:
    holding.owners += [owner] if owner not in holding.owners else []
    holding.taker = owner if lock.taker == owner.pid else holding.taker
    holding.is_for_reading = holding.is_for_reading or not lock.is_write


def wait_for_holdings(machine: Host, thread: LinuxThread, holdings: List[Holding], wanted: "Lock") -> LinuxWait:
    """Returns the wait for all who have a lock in the way. Where it isn't known whether that is one lock or several, it
    is for any of those who may have it."""
    parts = [part_of(machine, thread, holding) for holding in holdings]
    others = list(dict.fromkeys(owner for holding in holdings for owner in holding.owners))
    premises = with_sleeper([FILES], others)
    if not others:
        why = "who holds the lock isn't known"
        return LinuxWait(any_of(unseen("unshown")), why=why, premises=premises, operation=LOCK_OF)
    is_vague = wanted.is_anywhere or any(holding.is_for_reading and len(holding.owners) > 1 for holding in holdings)
    if is_vague and len(parts) > 1:
        parts = any_of(*(group for part in parts for group in part))
    return LinuxWait(parts, others=others, premises=premises, operation=LOCK_OF)


def part_of(machine: Host, thread: LinuxThread, holding: Holding) -> Part:
    """Returns who may let go of a lock: who took it, and in another way who shares its open file."""
    users = users_of(holding.owners)
    takers = [holding.taker] if holding.taker is not None else users
    others = [owner for owner in users if owner not in takers]
    return (*with_end(machine, thread, takers, "owns"), *against(machine, thread, others, "closes"))


def holder_of(lock: "Lock", owner: Owner, held: OpenFile, text: str) -> str:
    """Returns what tells who has a lock: the process, or else the open file; where that has no name, the lock."""
    if lock.kind == "POSIX":
        return f"process {owner.pid}"
    return held.key("open") if held.open else text.partition(": ")[2]


def is_own(lock: "Lock", owner: Owner, held: OpenFile, other: Owner, asked: OpenFile) -> bool:
    """Whether a lock is of the very one, a process or an open file, that asks for another one by a descriptor."""
    if lock.kind == "POSIX":
        return owner is other
    return held is asked or held.open != "" and held.open == asked.open


def locks_of(owner: Owner, file: OpenFile) -> Iterator[Tuple[OpenFile, str]]:
    """Yields the locks that a process has by its open files of one file, each with the descriptor."""
    return ((held, text) for held in owner.files.values() if held.file == file.file for text in held.locks)


@dataclass
class Lock:
    """A lock of a file. One of the whole file has no last byte. Where one that `is_anywhere` begins isn't known.
    `taker` is the process that took it, which may have ended since, or 0."""

    kind: str
    is_write: bool
    first: int = 0
    last: Optional[int] = None
    is_anywhere: bool = False
    taker: int = 0

    @staticmethod
    def of(text: str) -> Optional["Lock"]:
        """Returns the lock of a line of fdinfo, or None if it isn't understood."""
        words = text.split()[1:]
        if len(words) != 7 or words[0] not in ("FLOCK", "POSIX", "OFDLCK") or words[2] not in ("READ", "WRITE"):
            return None
        if not (NUMBER.fullmatch(words[5]) and (words[6] == "EOF" or NUMBER.fullmatch(words[6]))):
            return None
        return Lock(words[0], words[2] == "WRITE", int(words[5]), None if words[6] == "EOF" else int(words[6]),
                    taker=int(words[3]) if NUMBER.fullmatch(words[3]) else 0)

    @staticmethod
    def wanted(thread: LinuxThread) -> Optional["Lock"]:
        """Returns the lock that a thread asks for, or None if that isn't known."""
        if thread.call == "flock":
            return Lock("FLOCK", bool(thread.arguments[1] & 2))  # LOCK_EX
        kind, whence, first, length = thread.row.get("range", (0, -1, 0, 0))
        if whence < 0:
            return None
        name = "POSIX" if int32(thread.arguments[1]) == SETLKW[0] else "OFDLCK"
        if whence or length < 0:  # (from where its descriptor stands, from the end, or backwards)
            return Lock(name, kind == 1, is_anywhere=True)
        return Lock(name, kind == 1, first, first + length - 1 if length else None)

    def is_in_the_way_of(self, other: "Lock") -> bool:
        """Whether it has to go before another one is given, if that is of somebody else."""
        if (self.kind == "FLOCK") != (other.kind == "FLOCK"):
            return False
        if not self.is_write and not other.is_write:
            return False
        return (self.last is None or other.first <= self.last) and (other.last is None or self.first <= other.last)
