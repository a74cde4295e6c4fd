"""Who of those that may end a wait is likely to do it as the first. By this alone roots are as small as they may be.
Who is stuck the rule decides without it.

Near is who stands inside of what is waited at, as in a method of it. One that has what others wait for, and that
anybody of its process may free, is likely to wait for one of these: two circles at once are rare. Who only waits for
the end of others of a list frees none of them.
"""
from __future__ import annotations

from functools import cached_property
from typing import TYPE_CHECKING, Dict, Iterable, List, Sequence, Set

from .model import Part, Strength
from .sketch import ALL, ANY, has_how
from ..systems import all_described

if TYPE_CHECKING:
    from .stuck import Waits

OWNS, PROCESS = "owns", "same-process"  # hows
NEAR = ("inside", "guess")  # those of able ones that are nearer to what is waited at than who merely reaches it
HAVE = (OWNS, "inside")  # those who have what is waited for, or are likely to have it
REACH = ("reaches", PROCESS)  # those who merely reach what is waited at
MAY_HAVE = (*REACH, *NEAR, "listed", "subscribes")  # those of whom the state doesn't show who has it
FOR_END = {word for system in all_described() for word in system.bare_joins}
JOINS = {word for system in all_described() for word in system.joins}


def owners_of(parts: Sequence[Part]) -> List[str]:
    """Returns those who have what a wait is for, as far as the system says so."""
    return [name for part in parts for wakers in part if wakers.how == OWNS for name in wakers.names()]


class Nearness:
    """Who is near to whom, of some waits."""

    def __init__(self, waits: Waits) -> None:
        self.waits = waits
        self.lists: Dict[int, Set[int]] = {}  # those of hubs

    @cached_property
    def wanting(self) -> Dict[int, List[int]]:
        """Those who wait for a lock of each one that has some."""
        wanting: Dict[int, List[int]] = {}
        for index, process in enumerate(self.waits.processes):
            names = owners_of(process.parts) if has_how(process, OWNS) else ()
            for owner in names:
                wanting.setdefault(self.waits.index[owner], []).append(index)
        return wanting

    @cached_property
    def behind(self) -> Dict[int, List[int]]:
        """Those who wait for each one alone, as for a lock that it has, or since it stands inside of that."""
        behind: Dict[int, List[int]] = {}
        for index, subject in enumerate(self.waits.subjects):
            for part in subject.parts if self.waits.kinds[index] == ANY else ():
                names = {name for wakers, left in zip(part, self.waits.decision.left_of(part)) if wakers.how in HAVE
                         for name in left if name != subject.name}
                if len(names) == 1:
                    behind.setdefault(self.waits.index[names.pop()], []).append(index)
        return behind

    def is_shown(self, index: int) -> bool:
        """Whether the state shows more than who can reach what one waits for, or one waits for all of some."""
        hows = {wakers.how for part in self.waits.processes[index].parts for wakers in part}
        return self.waits.kinds[index] == ALL or hows.isdisjoint(REACH)

    def of(self, index: int, nodes: List[int]) -> List[int]:
        """Returns those of the nodes of a list who are likely to free one as the first: anybody of a list whose end is
        waited for, wherever it waits itself."""
        is_for_end = self.waits.processes[index].operation in FOR_END
        return nodes if is_for_end else self.without_joiners(index, self.of_holder(index, nodes))

    def of_holder(self, index: int, nodes: List[int]) -> List[int]:
        """Returns the nodes of a list of one that has what others wait for, and that anybody of its process may free:
        those who are behind it alone, and first of these who is there for something else than it."""
        process, parts = self.waits.processes[index], self.waits.subjects[index].parts
        hows = [wakers.how for wakers in parts[0] if wakers.strength in (Strength.NAMED, Strength.ABLE)]
        if hows != [PROCESS] or index not in self.behind and index not in self.wanting:
            return nodes
        near = [other for other in self.all_behind(index) if self.is_among(other, nodes)]
        first = [other for other in near if self.waits.processes[other].entry != process.entry]
        return first or near or nodes

    def all_behind(self, index: int) -> List[int]:
        """Returns those that wait for one alone, or for one of these, in their order."""
        todo, behind = [index], {index}
        for other in todo:
            new = [waiter for waiter in self.behind.get(other, ()) if waiter not in behind]
            behind.update(new)
            todo += new
        return sorted(behind - {index})

    def is_among(self, index: int, nodes: Iterable[int]) -> bool:
        """Whether one is among some nodes, or in the list of a hub of these."""
        return any(node == index or node >= self.waits.number and index in self.list_of(node) for node in nodes)

    def list_of(self, hub: int) -> Set[int]:
        if hub not in self.lists:
            self.lists[hub] = set(self.waits.left[hub])
        return self.lists[hub]

    def without_joiners(self, index: int, nodes: List[int]) -> List[int]:
        """Returns the nodes of a list without those that only wait for the end of others of it, or of the waiter: they
        don't end its wait as the first, unless all have to come."""
        process, inside = self.waits.processes[index], {*nodes, index}
        left = [node for node in nodes if node >= self.waits.number or not self.is_joiner(node, inside)]
        return left if {*left} - {index} and not process.is_collective else nodes

    def is_joiner(self, index: int, whom: Set[int]) -> bool:
        """Whether one can't go on before one of some others has ended, as where it waits for the end of all."""
        left, process = self.waits.left[index], self.waits.processes[index]
        if self.waits.kinds[index] != ALL:
            return process.operation in JOINS and whom.issuperset(left)
        named = {wakers.how for part in process.parts for wakers in part if wakers.strength is Strength.NAMED}
        return (process.operation in JOINS or named == {"ends"}) and not whom.isdisjoint(left)
