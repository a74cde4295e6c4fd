"""Which processes that can't be read may have a file that others wait at, by who descends from whom.

A pipe or a socket is had by who made it, by those below who inherited it, and by whom it was given to. Where all who
have a file descend from a process that can be read and hasn't got it, it was made there or below, so that those above,
as process 1, and those of other branches have none of it. Whoever can't be read and may descend from that one, also as
an orphan, may have it.
"""
from __future__ import annotations

from collections import Counter
from typing import Dict, Iterator, List, Optional, Set, Tuple

from cmh_proc.calls import EPOLLS, IPC, int32
from cmh_proc.open_files import OpenFile

from ...core.sketch import UNREADABLE, Process, garbled, unknown
from .children import tops_of
from .machine import Host, LinuxThread, Owner
from .text import ODD_THREADS

BELOW = "below "  # what stands for whatever is used below a process


class Branches:
    """The processes of one reading by who descends from whom."""

    def __init__(self, machine: Host) -> None:
        self.machine = machine
        self.roots: Dict[str, Optional[int]] = {}  # below which process each file was made
        self.answers: Dict[Tuple[int, int], bool] = {}

    def may_have(self, unread: List[Owner], thread: LinuxThread) -> bool:
        """Whether one of some processes that can't be read may have a file at which a thread waits. Where it isn't
        known who they are, they may."""
        keys = list(dict.fromkeys(keys_of_wait(self.machine, thread)))
        roots = {self.root_of(key) for key in keys}
        if any(not set(keys).isdisjoint(file.keys()) for owner in unread for file in owner.files.values()):
            return True
        return not unread or not roots or any(
            root is None or self.may_descend(owner, root) for root in roots for owner in unread)

    def root_of(self, key: str) -> Optional[int]:
        """Returns the lowest process from which all descend that have a file, if that can be read and hasn't got it."""
        if key.startswith(BELOW):
            return int(key[len(BELOW):])
        if key not in self.roots:
            holders = {owner.pid for owner in self.machine.with_file(key)}
            above = [self.above(pid) for pid in holders]
            common = [pid for pid in above[0] if all(pid in pids for pids in above)] if above else []
            known = (pid for pid in common if pid not in holders and self.can_be_read(pid))
            self.roots[key] = next(known, None)
        return self.roots[key]

    def can_be_read(self, pid: int) -> bool:
        owner = self.machine.by_pid.get(pid)
        return pid in self.machine.parents and (owner is None or not owner.why)

    def above(self, pid: int) -> List[int]:
        """Returns those from whom a process descends, as far as they are known, the nearest first."""
        above: List[int] = []
        parent = self.parent(pid)
        while parent and parent not in above:
            above.append(parent)
            parent = self.parent(parent)
        return above

    def parent(self, pid: int) -> int:
        return self.machine.parents.get(pid, (0, 0))[0]

    def may_descend(self, unread: Owner, root: int) -> bool:
        """Whether a process may descend from another one. An orphan has a parent from whom its lost one descended, and
        began after all those above it."""
        key = unread.pid, root
        if key not in self.answers:
            self.answers[key] = self.descends(unread.pid, root, {*self.above(root)})
        return self.answers[key]

    def descends(self, pid: int, root: int, above: Set[int]) -> bool:
        if pid in above:
            return False
        start, ancestor = self.machine.parents[root][1], pid
        while ancestor in self.machine.parents and ancestor != root:
            parent, began = self.machine.parents[ancestor]
            if began < start:
                return ancestor != pid and ancestor in above
            if not parent:
                return False  # (it was begun from outside of the container, and is nobody's orphan)
            ancestor = parent
        return True


def keys_of_wait(machine: Host, thread: LinuxThread) -> Iterator[str]:
    """Yields what tells the files or the memory at which a thread waits, and their other ends, from others."""
    if thread.call in IPC:
        yield from (f"{BELOW}{top.pid}" for top in tops_of(machine, thread))
        return
    if thread.call == "futex":
        yield from filter(None, [thread.row.get("memory")])
        return
    for fd, *_ in thread.events or [[int32(thread.arguments[0])]]:
        yield from keys_with_peers(machine, thread.owner.file(fd))
    if thread.call in EPOLLS:
        yield from keys_with_peers(machine, thread.owner.file(int32(thread.arguments[0])))
    if thread.call == "connect":
        numbers = machine.listening.get(f"{thread.owner.row.get('net')} {thread.row.get('path', '')}", [])
        yield from (f"socket:[{number}]" for number in numbers)


def keys_with_peers(machine: Host, file: OpenFile) -> Iterator[str]:
    """Yields what tells an open file, and if it is a socket its peers."""
    yield from file.keys()
    yield from (f"socket:[{peer}]" for peer in machine.sockets.get(file.socket, {}).get("peers", ()))


def unread_name(owners: List[Owner]) -> str:
    """Returns the name of processes that can't be read."""
    if not owners:
        return "processes that /proc hides"
    more = f" and {len(owners) - 1:,} more" if owners[1:] else ""
    return f"{owners[0].name}{more}, which can't be read"


def unread_one(owners: List[Owner], is_asked: bool) -> Process:
    """Returns one that can't be read. One that wasn't asked for stands for whatever has another end of a wait, and runs
    nowhere in the system by itself."""
    why = why_of(owners) if owners else "the option hidepid of /proc hides processes of other users"
    if any(owner.why in ODD_THREADS for owner in owners):
        return garbled(unread_name(owners), why, frames=[owners[0].command])
    more = "" if " root may " in why else "root can read more, and "
    return unknown(unread_name(owners), f"{why}: {more}the fact `{UNREADABLE} -> ended` says that it has nothing of "
                   "what the others wait at", frames=[UNREADABLE],
                   site=f"{owners[0].command}-{owners[0].pid}" if is_asked else None)


def why_of(owners: List[Owner]) -> str:
    """Returns why some processes can't be read: of several how many for each reason, the most frequent first."""
    counts = Counter(owner.why for owner in owners)
    if not owners[1:]:
        return owners[0].why
    return ", ".join(f"{why} ({number:,})" for why, number in counts.most_common())
