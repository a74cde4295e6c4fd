"""Erlang: a transaction of Mnesia that wants a lock. It stands in a queue for it if it is older than who has the lock.
Else Mnesia restarts it again and again, each time some moments later, and no state shows which lock it wants.
"""
from __future__ import annotations

import re
from typing import Iterable, List, NamedTuple, Optional

from ...core.model import all_of, any_of, wakers
from ...core.sketch import SYSTEM, Process, blocked, premise
from .nodes import More, Nodes, not_shown
from .readings import NodeReading
from .text import ErlangBlock, of_elixir

ENDS, RETRIES = "transactions", re.compile(r"mnesia_tm:restart/\d+")
QUEUES = re.compile(r"mnesia_locker:(l_req_rec|receive_wlocks|send_requests|rlock_get_reply)/\d+")
OPERATION, WHOLE = "mnesia:transaction", "'______WHOLETABLE_____'"
CUT = "..."  # in an older text of a long key, which may be that of another one
READS, WRITES = {"read"}, {"write", "read_write"}


class MnesiaRow(NamedTuple):
    """Who has a lock or wants it: the node that gives it out, the table and the key in it, its kind, the process, if
    that is in the state, and the pid of the one whose transaction it is."""

    node: str
    table: str
    key: str
    kind: str
    who: Optional[ErlangBlock]
    owner: str

    def excludes(self, wanted: MnesiaRow) -> bool:
        """Whether who has this lock keeps another one from what that wants."""
        is_same = self.key == wanted.key or WHOLE in (self.key, wanted.key)
        kinds = {self.kind, wanted.kind}
        return (self.node, self.table) == (wanted.node, wanted.table) and is_same and kinds <= READS | WRITES \
            and kinds != READS and self.owner != wanted.owner


def rows_of(readings: Iterable[NodeReading], snapshot: Nodes, word: str) -> List[MnesiaRow]:
    """Returns who has which lock, or who wants it."""
    rows = []
    for reading in readings:
        for row in reading.mnesia:
            table, _, key = row["what"].partition(",")
            who = snapshot.find((reading.source, row["pid"]))
            made = MnesiaRow(reading.source, table, key, row["kind"], who, row["owner"] or row["pid"])
            rows += [made] if row["word"] == word else []
    return rows


def wait_of_transaction(block: ErlangBlock, snapshot: Nodes, more: More) -> Optional[Process]:
    """Returns a process that wants a lock of Mnesia, or None for one that is elsewhere."""
    if block.extra("status") != "waiting":
        return None
    if any(RETRIES.match(other) for other in block.stack[1:2]):
        return wait_for_others(block, snapshot, more)
    if not QUEUES.match(block.stack[0]) or block.is_mail_cut or "{mnesia_locker," in block.messages:
        return None
    return wait_in_queue(block, snapshot, more)


def wait_for_others(block: ErlangBlock, snapshot: Nodes, more: More) -> Process:
    """Returns one that tries again. As its lock isn't known, those are able who have one."""
    more.update(operation=OPERATION, note=f"{OPERATION} in {block.frames()[0]}")
    numbers = [other for other in block.retrying if other.startswith("{tid,")]
    more["count"] = numbers[0] if numbers else more["count"]  # (it keeps its number as long as it is begun again)
    others = [row.who for row in snapshot.held if row.who not in (None, block)]
    why = "it begins its transaction again and again, until it gets a lock, and the state doesn't say which"
    return not_shown(block, snapshot, why, more, *snapshot.some("reaches", list(filter(None, others))))


def wait_in_queue(block: ErlangBlock, snapshot: Nodes, more: More) -> Optional[Process]:
    """Returns one that stands in the queue for a lock. The locker was asked before all processes of its node were read
    the first time, and after them the second time: so who has the lock in both has had it while this one waited."""
    name, wanted = snapshot.name(block), [row for row in snapshot.wanted if row.who is block]
    if not wanted:
        return None
    more.update(operation=OPERATION, note=f"{OPERATION} in {block.frames()[0]}")
    having = [row for row in snapshot.held if any(row.excludes(other) for other in wanted)]
    if not having or any(row.who is None or CUT in row.key for row in [*having, *wanted]):
        return not_shown(block, snapshot, "who has the lock that it wants isn't in the state", more)
    names = snapshot.names(row.who for row in having if row.who is not None)
    more["objects"] = [*names, *(of_elixir(f"{{{other.table},{other.key}}}") for other in wanted)]
    return blocked(name, any_of(wakers("owns", names)) if len(names) == 1 else all_of(names, "owns"),
                   [SYSTEM, premise(ENDS)], **more)
