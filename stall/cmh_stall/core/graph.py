"""The graph in which the rule searches: who may end which wait, and in which way. It is built once, in time linear in
the lists of wakers: those that share a list of many have it once, and so have those that share a wait for all."""
from __future__ import annotations

from typing import AbstractSet, Dict, Iterable, List, Mapping, Optional, Sequence, Tuple, Union

from .model import Anybody, Part, Sign, Strength, Subject, Who, once

FEW = 4  # wakers of a list that stand for themselves
Way = Union[Strength, str]  # in which wakers count
Counts = Mapping[Way, AbstractSet[Optional[Sign]]]  # by each way that counts, the signs of those who do
Reached = Dict[int, Optional[str]]  # nodes, each with the name of the process by which it was reached
INSIDE = Strength.NAMED  # the way from a part to its wait, and from that to those who share it, which always counts


class Graph:
    """Its nodes are the processes, by their numbers, then whoever isn't in the state, and lists, parts and waits.
    `ends` has whom each may end, and in which way, and `needs` how many have to end it: of a wait all parts, or else
    one."""

    def __init__(self, subjects: Sequence[Subject]) -> None:
        self.names = [subject.name for subject in subjects]
        self.index, self.nobody = {name: number for number, name in enumerate(self.names)}, len(self.names)
        self.signs: List[Optional[Sign]] = [*(subject.sign for subject in subjects), None]
        self.needs = [0] * len(self.signs)
        self.ends: List[List[Tuple[Way, int]]] = [[] for _ in self.signs]
        self.lists: Dict[Tuple[int, Way], Tuple[int, Who]] = {}

    def add(self, needs: int, *ends: int) -> int:
        """Returns a new node."""
        self.needs.append(needs)
        self.ends.append([(INSIDE, end) for end in ends])
        return len(self.needs) - 1

    def add_wait(self, parts: Sequence[Part], ways: Sequence[Sequence[Way]], owners: Sequence[int]) -> Sequence[int]:
        """Adds a wait of some who share it, by its parts and the ways of their wakers. Returns the nodes of the parts:
        of one that is alone it is the owner itself."""
        nodes = owners
        if len(parts) > 1:
            wait = self.add(len(parts), *owners)
            nodes = [self.add(1, wait) for _ in parts]
        for part, some, node in zip(parts, ways, nodes):
            self.add_part(part, some, node)
        return nodes

    def add_part(self, part: Part, ways: Sequence[Way], node: int) -> None:
        for wakers, way in zip(part, ways):
            for waker in self.nodes_of(wakers.who, way):
                self.ends[waker].append((way, node))

    def nodes_of(self, who: Who, way: Way) -> Sequence[int]:
        """Returns the nodes of a few, or that of a list of many."""
        if isinstance(who, Anybody):
            return [self.nobody]
        if len(who) == 1:  # (as most have)
            return (self.index.get(who[0], self.nobody),)
        if len(who) <= FEW:
            return [self.index.get(name, self.nobody) for name in who]
        if (id(who), way) not in self.lists:
            edge = way, self.add(1)  # (one for all: of many large lists these are most of what is kept)
            self.lists[id(who), way] = edge[1], who
            for name in who:
                self.ends[self.index.get(name, self.nobody)].append(edge)
        return [self.lists[id(who), way][0]]

    def reach(self, starts: Iterable[int], through: Iterable[int], counts: Counts) -> Reached:
        """Returns whom the starts reach by those who count: of other processes those of `through` alone."""
        needs, reached = self.needs[:], dict.fromkeys(starts)  # type: List[int], Reached
        for number in through:
            needs[number] = 1
        ways = {sign: {way for way, signs in counts.items() if sign in signs} for sign in (*Sign, None)}
        todo = list(reached)
        for node in todo:
            open_ways = ways[self.signs[node]] if node <= self.nobody else counts.keys()
            cause = self.names[node] if node < self.nobody else reached[node]
            for way, other in self.ends[node]:
                if way in open_ways and other not in reached:
                    needs[other] -= 1
                    if not needs[other]:
                        reached[other] = cause
                        todo.append(other)
        return reached


def shared_waits(subjects: Sequence[Subject], numbers: Iterable[int]) -> Iterable[List[int]]:
    """Returns those of some who share each wait. Who may end one of several parts by reach has its own, as it isn't
    left there for itself."""
    able = once(lambda parts: {name for part in parts for wakers in part if wakers.strength is Strength.ABLE
                               for name in wakers.names()})
    waits: Dict[object, List[int]] = {}
    for number in numbers:
        name, sign, parts = subjects[number]
        is_own = len(parts) == 1 or name in able(parts)
        waits.setdefault(number if is_own else (id(parts), sign), []).append(number)
    return waits.values()
