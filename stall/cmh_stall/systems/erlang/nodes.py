"""Erlang: the processes of all nodes at one time, and what is said of those that wait with a limit, or for somebody
whom the state doesn't show."""
from __future__ import annotations

from itertools import chain
from typing import Any, Callable, Dict, Iterable, List, NamedTuple, Optional, Sequence, Set, Tuple

from ...core.files import escaped
from ...core.model import Part, Sign, Wakers, any_of, unseen, wakers
from ...core.sketch import LIMIT, REST, Process, blocked, goes_on, premise
from ..base import Snapshot
from .text import ErlangBlock, Key, Receives

MOST = 1000000  # names of lists that a few beside them keep from being shared
MANY = "many processes"
STANDS_FOR = "stands for processes whose code or end may end others: told apart, their lists are too long"
More = Dict[str, Any]  # what is the same of a process, whatever it waits for: its frames, site, count, operation


class Enders(NamedTuple):
    """Who may end a process: those that may end few others, and lists that many processes share."""

    own: List[ErlangBlock]
    shared: List[List[ErlangBlock]]


class Lists:
    """The names of a few processes and of those in lists that many share. Who asks for the same ones gets one list. As
    soon as those are too long together that a few keep from being shared, somebody unknown stands for the many."""

    def __init__(self, name: Callable[[ErlangBlock], str]) -> None:
        self.name, self.room = name, MOST
        self.made: Dict[Tuple[Any, ...], List[str]] = {}
        # (With the list, so that its id stays its own.)
        self.sets: Dict[int, Tuple[List[ErlangBlock], Set[ErlangBlock]]] = {}

    def names(self, few: Iterable[ErlangBlock], shared: Iterable[List[ErlangBlock]]) -> List[str]:
        known = {id(blocks): blocks for blocks in shared}
        sets = [self.set_of(blocks) for blocks in known.values()]
        own = [block for block in dict.fromkeys(few) if not any(block in blocks for blocks in sets)]
        key = (*own, *known)
        if key not in self.made:
            is_over = own and self.room < 0
            names = [*map(self.name, own), *([MANY] if is_over else map(self.name, chain(*known.values())))]
            self.made[key] = list(dict.fromkeys(names))
            self.room -= len(names) if own else 0
        return self.made[key]

    def set_of(self, blocks: List[ErlangBlock]) -> Set[ErlangBlock]:
        if id(blocks) not in self.sets:
            self.sets[id(blocks)] = blocks, set(blocks)
        return self.sets[id(blocks)][1]


class Nodes(Snapshot):
    """The processes of all nodes at one time: by what others know them by, and by the tails of the references that they
    have; their names in the sketch; each answer that is under way, as (sender, receiver); who may end a process, by its
    node and pid, and what may end any; who stands below a supervisor that restarts one alone, beside others that may
    fail; who is the child of a supervisor, and the supervisor above each that has one; who has a fun that may have any
    reference; the receives in a function, by its node and its name, and whom it has asked before; where a reference may
    be that no process has, in words, or nothing; nodes, by another one and the number that they have there; the locks
    of a node, by it and by what is locked; who has locks of Mnesia, or wants one; those who aren't at rest, of
    these by a server those who know it; the ports of a node whose ends are known; who stands for what is no process,
    with what that is, and of these whoever an older state may only lack; and the names of lists of processes that many
    share."""

    by_key: Dict[Key, ErlangBlock]
    has_tail: Dict[str, List[ErlangBlock]]
    name: Callable[[ErlangBlock], str]
    answers: List[Tuple[str, str]]
    enders: Dict[Key, Enders]
    ending_any: Part
    spared: Any
    children: Set[ErlangBlock]
    closures: List[ErlangBlock]
    receives: Dict[Tuple[str, ...], Receives]
    asks: Dict[Tuple[str, ...], List[str]]
    elsewhere: str
    nodes: Dict[Tuple[str, str], str]
    locks: Dict[Tuple[str, str], Tuple[str, str]]
    held: List[Any]
    wanted: List[Any]
    awake: List[ErlangBlock]
    known: Dict[int, List[ErlangBlock]]
    above: Dict[ErlangBlock, ErlangBlock]
    ports: Dict[str, Set[str]]
    stand_ins: Dict[str, str]
    unlooked: Set[str]
    lists: Lists

    def find(self, key: Key) -> Optional[ErlangBlock]:
        """Returns a process by what another one knows it by: a pid of another node begins with the number of that."""
        if self.nodes and isinstance(key, tuple):
            number, _, rest = key[1].partition(".")
            node = self.nodes.get((key[0], number))
            key = (node, f"<0.{rest}") if node else key
        return self.by_key.get(key)

    def watched(self, block: ErlangBlock) -> List[Optional[ErlangBlock]]:
        """Returns those that a process monitors, None for one that isn't in the state."""
        return list(map(self.find, block.monitored))

    def names(self, blocks: Iterable[ErlangBlock]) -> List[str]:
        """Returns the names of some, each once."""
        return list(dict.fromkeys(map(self.name, blocks)))

    def left_out(self, *nodes: str) -> Part:
        """Those who may be missing, on some nodes or on any."""
        names = [f"{escaped(reading.site)}/{REST}" for reading in self.readings
                 if reading.missing and reading.source in (nodes or [reading.source])]
        return (wakers("left-out", list(dict.fromkeys(names))),) if names else ()

    def some(self, how: str, blocks: Sequence[ErlangBlock], *because: str) -> Part:
        """Those of some processes, if there are any, as wakers."""
        return (wakers(how, self.names(blocks), *because),) if blocks else ()

    def any_of_lists(self, how: str, own: List[ErlangBlock], *shared: List[ErlangBlock]) -> Part:
        """The same of a few and of lists that many have."""
        names = self.lists.names(own, shared) if own or any(shared) else []
        if names[-1:] == [MANY]:
            self.stand_ins[MANY] = STANDS_FOR
        return (wakers(how, names),) if names else ()


def limited(block: ErlangBlock, snapshot: Nodes, why: str, more: More) -> Process:
    """One that waits with a limit, of which its operation tells."""
    sign = Sign.TICKS if block.sleeps_in_own_loop() else Sign.SLEEPS
    return goes_on(snapshot.name(block), why, [premise(LIMIT)], sign, **more)


def not_shown(block: ErlangBlock, snapshot: Nodes, why: str, more: More, *known: Wakers) -> Process:
    """One that waits for whom the state doesn't show, or not all of them."""
    return blocked(snapshot.name(block), any_of(*known, unseen("unshown", why)), [], **{**more, "reason": why})
