"""Erlang: who may end a process, whatever it waits for: who fails and has a link to it, who kills it or has a
supervisor end it, who fails below a supervisor that then ends all its children, and who ends the node.
"""
from __future__ import annotations

import re
from collections import defaultdict
from itertools import islice
from typing import Any, DefaultDict, Dict, Iterator, List, Tuple

from .calls import REGISTRY
from .nodes import Enders, Nodes
from .text import ErlangBlock, Key

LINK = re.compile(r"<[\d.]+>")
SHOWN = 3  # of those that end with a process


def stoppers_of(blocks: List[ErlangBlock]) -> Dict[Key, Enders]:
    """Those that start or stop each process, by its node and pid: after their limit they kill it, whatever it waits
    for."""
    stoppers: Dict[Key, Enders] = defaultdict(lambda: Enders([], []))
    for block in blocks:
        for pid in block.stopped:
            stoppers[block.node, pid].own.append(block)
    return stoppers


def add_enders(snapshot: Nodes) -> None:
    """Adds for each process who may end it, to those that start or stop it."""
    above, below = supervised(snapshot)
    snapshot.above = above
    beside = Beside(above, below)
    ending, stopping, halting = (by_code(snapshot, word) for word in ("exits", "stops", "halts"))
    for block in snapshot.rows():
        enders = snapshot.enders[block.node, block.pid]
        enders.own.extend(linked_to(block, snapshot))
        enders.shared.extend([
            *beside.failing(block), *([ending[block.node]] if block.role not in ("[]", "") else []),
            *([stopping[block.node]] if block in above else []), halting[block.node]])
    snapshot.children = {*above}
    snapshot.spared = {(block.node, block.pid) for block in above if beside.spares(block)}
    for block in snapshot.rows():
        for whom in filter(None, [snapshot.find((block.node, pid)) for pid in block.may_end()]):
            snapshot.enders[whom.node, whom.pid].own.append(block)


def by_code(snapshot: Nodes, word: str) -> DefaultDict[str, List[ErlangBlock]]:
    """Those whose code has a word, by the node on which they may do so: their own, or any if it is `far`. All are kept,
    as of some that stand at one place one may go on."""
    ending: DefaultDict[str, List[ErlangBlock]] = defaultdict(list)
    able = [block for block in snapshot.rows() if word in block.code() or is_unread(block)]
    far = [block for block in able if {word, "far"} <= {*block.code()}]
    for reading in snapshot.readings:
        own = [block for block in able if block.node == reading.source]
        ending[reading.source] = own + [block for block in far if block.node != reading.source]
    return ending


def is_unread(block: ErlangBlock) -> bool:
    """Whether a process is a manager of events, of whose handlers an older text doesn't say what they call."""
    return block.start[0] == "gen_event" and block.extra("timed") is None


def supervised(snapshot: Nodes) -> Any:
    """Returns the supervisor of each process that has one, and the children of each supervisor."""
    above: Dict[ErlangBlock, ErlangBlock] = {}
    below: Dict[ErlangBlock, List[ErlangBlock]] = {}
    for block in filter(ErlangBlock.is_supervisor, snapshot.rows()):
        links = [snapshot.find((block.node, pid)) for pid in LINK.findall(block.extra("links") or "")]
        began = set(block.ancestors()[:1])
        children = [other for other in links if other is not None and began.isdisjoint({other.pid, other.role})]
        above.update(dict.fromkeys(children, block))
        below[block] = [other for other in children if other.start[0] != REGISTRY]
    return above, below


def supervisors_of(block: ErlangBlock,
                   above: Dict[ErlangBlock, ErlangBlock]) -> Iterator[Tuple[ErlangBlock, ErlangBlock]]:
    """Yields each supervisor above a process, behind the child through which it is above."""
    seen = set()
    while block in above and block not in seen:
        seen.add(block)
        yield block, above[block]
        block = above[block]


class Beside:
    """Who stands below the supervisors above a process, as lists that many have: `below` has all children of each
    supervisor, `others` has by each supervisor that is a child those beside it, and `restless` has two children of each
    that may fail by themselves."""

    def __init__(self, above: Dict[ErlangBlock, ErlangBlock], below: Dict[ErlangBlock, List[ErlangBlock]]) -> None:
        self.above, self.below = above, below
        self.others = {child: [other for other in below[above[child]] if other is not child]
                       for child in below if child in above}
        self.restless = {block: list(islice((other for other in children if not other.is_asleep()), 2))
                         for block, children in below.items()}

    def failing(self, block: ErlangBlock) -> List[List[ErlangBlock]]:
        """Returns those that may fail below a supervisor above a process, which isn't known to restart one alone. The
        process may be among those beside it."""
        return [self.others.get(child, self.below[supervisor])
                for child, supervisor in supervisors_of(block, self.above) if not supervisor.restarts_one()]

    def spares(self, block: ErlangBlock) -> bool:
        """Whether a supervisor above a process restarts others alone that may fail, as long as it doesn't give up."""
        return any(other is not child for child, supervisor in supervisors_of(block, self.above)
                   if supervisor.restarts_one() for other in self.restless[supervisor])


def when_killed(block: ErlangBlock, snapshot: Nodes) -> str:
    """Returns in words what `exit(Pid, kill)` does besides: who is linked and ends too, and which supervisor may start
    it again."""
    along = [snapshot.name(other) for other in ending_along(block, snapshot)]
    more = f", {', '.join(along[:SHOWN])}{' and others' if along[SHOWN:] else ''} too" if along else " alone"
    over = snapshot.above.get(block)
    again = f"{snapshot.name(over)} may start {'it' if over.restarts_one() else 'all below it'} again" if over else \
        "the state shows no supervisor that starts it again"
    return f"exit({block.pid}, kill) ends it{more}, and {again}"


def ending_along(block: ErlangBlock, snapshot: Nodes) -> List[ErlangBlock]:
    """Returns those that end with a process: linked to it, or to one of these, and trapping no exits."""
    ended: Dict[ErlangBlock, None] = {block: None}
    todo = [block]
    while todo and len(ended) <= SHOWN:
        one = todo.pop(0)
        links = [snapshot.find((one.node, pid)) for pid in LINK.findall(one.extra("links") or "")]
        new = [other for other in links if other is not None and other not in ended
               and other.items.get("trap_exit") == "false"]
        ended.update(dict.fromkeys(new))
        todo += new
    return list(ended)[1:]


def linked_to(block: ErlangBlock, snapshot: Nodes) -> List[ErlangBlock]:
    """Those that take a process along if they fail: linked to it, no supervisors but one that it has begun itself, and
    no registry."""
    chosen = [snapshot.find((block.node, pid)) for pid in block.linked()]
    return [other for other in chosen if other is not None and other.start[0] != REGISTRY
            and not (other.is_supervisor() and not {block.pid, block.role}.intersection(other.ancestors()[:1]))]
