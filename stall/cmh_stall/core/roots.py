"""The roots of a stall: the components of the stuck ones that no edge leaves, and who is stuck behind which of them.

An edge leads from each stuck one to each stuck one of its list, for waits of both kinds, or through a hub, but not to
those who may end its wait only in another way, as by a timer that nobody has started. Of a list where any one is enough
it leads to those alone who are near, as `nearness` has it. So a root is as small as it may be.
"""
from __future__ import annotations

from itertools import islice
from typing import AbstractSet, Callable, Container, Dict, Iterable, Iterator, List, Optional, Set, Tuple

from .steps import Edges, way
from .stuck import Answer, Waits

MOST_ROOTS = 4  # of those behind which one is stuck, as many are kept apart
STEPS = 3_000_000  # as many steps, all together, count those behind unknown ones


class Knots:
    """The edges among those who are stuck, and the strongly connected components of these, the knots, each after those
    that its edges lead to. `of[p]` is the number of p's knot, and `above[k]` those of the roots that knot k is behind,
    or of itself: at most MOST_ROOTS, where that of one that is `sure` is a root of such alone."""

    def __init__(self, waits: Waits, among: List[int], sure: AbstractSet[int] = frozenset()) -> None:
        self.waits = waits
        self.edges = edges_among(waits, among)
        for index in sure if len(sure) < len(among) else ():
            self.edges[index] = self.sure_edges(index, sure)
        self.knots = components(self.edges)
        self.of = {index: number for number, members in enumerate(self.knots) for index in members}
        self.above: Dict[int, Tuple[int, ...]] = {}
        for number, members in enumerate(self.knots):
            out = {self.of[other] for index in members for other in self.edges[index]} - {number}
            over = sorted({root for knot in out for root in self.above[knot]}) if out else [number]
            self.above[number] = tuple(over[:MOST_ROOTS])

    def sure_edges(self, index: int, sure: AbstractSet[int]) -> List[int]:
        """Returns the edges of a sure one to sure ones. Through a hub it may reach others too, if it waits for all."""
        edges = self.edges[index]
        if all(node in sure or node >= self.waits.number and sure >= set(self.edges[node]) for node in edges):
            return edges
        return [node for node in self.waits.without_hubs(edges) if node in sure]

    def is_root(self, number: int) -> bool:
        return self.above[number] == (number,)

    def in_roots(self) -> List[int]:
        """Returns the members of all roots."""
        return without_hubs(self.waits, (index for index, number in self.of.items() if self.is_root(number)))


class Roots:
    """`roots` are lists of members, along their waits: those first that `doubts` gives the least number, and of these
    with most others behind them alone. `behind[r]` are those stuck behind root r alone, `shared` those behind
    more than one. `above[p]` are the roots of p, and `root_of[p]` is the one that it is a member of."""

    def __init__(self, knots: Knots, doubts: Callable[[List[int]], int]) -> None:
        self.waits, self.edges = knots.waits, knots.edges
        tops = [number for number in knots.above if knots.is_root(number)]
        behind: Dict[int, List[int]] = {number: [] for number in tops}
        self.shared: List[int] = []
        members = without_hubs(self.waits, self.edges)
        for index in members:
            over = knots.above[knots.of[index]]
            if len(over) > 1:
                self.shared.append(index)
            elif over != (knots.of[index],):
                behind[over[0]].append(index)
        tops.sort(key=lambda number: (doubts(without_hubs(self.waits, knots.knots[number])), -len(behind[number]),
                                      min(knots.knots[number])))
        place = {number: position for position, number in enumerate(tops)}
        self.roots = [without_hubs(self.waits, along(self.edges, knots.knots[number])) for number in tops]
        self.behind = [behind[number] for number in tops]
        above = {number: sorted(map(place.__getitem__, knots.above[number])) for number in {*knots.of.values()}}
        self.above = {index: above[knots.of[index]] for index in members}
        self.root_of = {index: place[knots.of[index]] for index in members if knots.of[index] in place}

    def maybe_behind(self, number: int) -> List[int]:
        """Returns the members of a root of more than two for each of whom nobody waits alone. Where the state shows who
        can reach what is waited at, but not who has it, some of them may only be behind the rest."""
        members = self.roots[number]
        needed = self.needed(set(members)) if len(members) > 2 else {*members}
        return [index for index in members if index not in needed]

    def needed(self, inside: Set[int]) -> Set[int]:
        """Returns those of some for whom another one of them waits alone, or since it has what is wanted."""
        shown_ones = {index for index in inside if self.waits.nearness.is_shown(index)}
        needed = set(self.waits.without_hubs({node for index in shown_ones for node in self.edges[index]}))
        hubs: Dict[int, List[int]] = {}
        for index in inside - shown_ones:
            few = list(islice(self.others_of(index, inside, hubs), 2))
            needed.update(few if len(few) == 1 else ())
        return needed

    def others_of(self, index: int, inside: Set[int], hubs: Dict[int, List[int]]) -> Iterator[int]:
        """Yields those of some for whom another one of them waits. `hubs` keeps those of each hub."""
        for node in self.edges[index]:
            if node >= self.waits.number and node not in hubs:
                hubs[node] = [other for other in self.waits.all_left(node) if other in inside]
            yield from (other for other in hubs.get(node, [node]) if other in inside and other != index)

    def chain(self, at: int) -> List[int]:
        """Returns a shortest way from one who is stuck to the first member of a root, both included."""
        return without_hubs(self.waits, way(self.edges, at, self.root_of))


def edges_among(waits: Waits, some: List[int]) -> Edges:
    """Returns the edges from some to some, and through hubs. A hub that leads to none of them has no edge to it."""
    among = set(some)
    hubs = {at: [it for it in waits.left[at] if it in among] for at in range(waits.number, len(waits.left))}
    among.update(at for at, others in hubs.items() if others)
    edges = {at: [it for it in waits.left_of(at) if it in among] for at in some}
    edges.update((at, others) for at, others in hubs.items() if others)
    return edges


def without_hubs(waits: Waits, some: Iterable[int]) -> List[int]:
    return [at for at in some if at < waits.number]


def components(edges: Edges) -> List[List[int]]:
    """Returns the strongly connected components, each after those that its edges lead to."""
    found: List[List[int]] = []
    order: Dict[int, int] = {}
    low: Dict[int, int] = {}
    stack: List[int] = []
    on: Set[int] = set()
    for start in edges:
        work = [(start, iter(edges[start]))] if start not in order else []
        while work:
            at, rest = work[-1]
            if at not in order:
                order[at] = low[at] = len(order)
                stack.append(at)
                on.add(at)
            new = step(rest, at, order, low, on)
            if new is not None:
                work.append((new, iter(edges[new])))
                continue
            work.pop()
            if work and low[at] < low[work[-1][0]]:
                low[work[-1][0]] = low[at]
            if low[at] == order[at]:
                found.append(cut_off(stack, on, at))
    return found


def step(rest: Iterator[int], at: int, order: Dict[int, int], low: Dict[int, int], on: Set[int]) -> Optional[int]:
    """Returns the next one that hasn't been seen, or None at the end of the list."""
    for other in rest:
        if other not in order:
            return other
        if order[other] < low[at] and other in on:
            low[at] = order[other]
    return None


def cut_off(stack: List[int], on: Set[int], at: int) -> List[int]:
    """Takes a component off the stack, down to its first member."""
    cut = len(stack) - 1
    while stack[cut] != at:
        cut -= 1
    members = stack[cut:]
    del stack[cut:]
    on.difference_update(members)
    return sorted(members)


def along(edges: Edges, members: List[int]) -> List[int]:
    """Returns members so that each next one is, as far as it goes, one that the last one waits for."""
    inside, todo = set(members), [members[0]]
    seen: Dict[int, None] = {}
    while todo:
        at = todo.pop()
        if at not in seen:
            seen[at] = None
            todo += [it for it in reversed(edges[at]) if it in inside]
    return list(seen)


def count_waiters(waits: Waits, among: Container[int], starts: List[int],
                  most: int) -> Dict[int, Tuple[int, bool, List[int]]]:
    """Returns for each start how many of `among` reach it, whether that is the whole number, and at most `most` of
    them, the nearest first. After STEPS steps in all only those that wait for a start directly are counted."""
    steps = 0
    found: Dict[int, Tuple[int, bool, List[int]]] = {}
    for start in starts:
        seen: Set[int] = {start}
        todo = [start]
        for at in todo:
            steps += len(waits.waiters[at])
            if steps > STEPS and at != start:
                break
            new = [it for it in waits.waiters[at] if (it in among or it >= waits.number) and it not in seen]
            seen.update(new)
            todo += new
        others = without_hubs(waits, todo[1:])
        found[start] = len(others), steps <= STEPS, others[:most]
    return found


def ends(answer: Answer) -> Dict[int, int]:
    """Returns for each one outside of a set that waits, the one at the end of the chain of causes: it goes on by
    itself."""
    found: Dict[int, int] = {}
    for at, cause in enumerate(answer.cause[:answer.waits.number]):
        chain: List[int] = []
        while cause is not None and at not in found:
            chain.append(at)
            at, cause = cause, answer.cause[cause]
        end = found.get(at, at)
        found.update((it, end) for it in chain)
    return found
