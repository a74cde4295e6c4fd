"""The rule: who is stuck for certain, who is likely to be, what that hangs on, and who is freed by whom; from wakers
and signs alone.

Certain is the greatest set of those that are blocked or rest, each with a part of its wait whose wakers are all in the
set. For the likely one, wakers are set aside, once: those that are against or unseen, able ones that are unknown or
idle, and where a named one is there, able ones that stand without a limit. Idle is who rests, ticks or polls, and who
waits in each part for a named one that does, and for none who moves. It is the greatest set of those that are certain
or blocked, each of the latter with a part in which somebody is left, and all who are left are in the set. Who was set
aside is a doubt: if none of them frees anybody, the likely ones are certain.

Who has ended frees nobody. Who isn't in the state is unseen, whatever is said of it.
"""
from __future__ import annotations

from functools import cached_property
from itertools import chain
from typing import AbstractSet, Collection, Dict, Iterable, Iterator, List, Optional, Sequence, Set, Tuple

from .graph import Counts, Graph, Reached, Way, shared_waits
from .model import Anybody, Aside, Headline, Part, Sign, Strength, Subject, Wakers, Who

NAMED, ABLE, BESIDE, AT_REST = Strength.NAMED, Strength.ABLE, "beside a named one", "of one at rest"  # ways
PRESENT, IDLE = frozenset(Sign), frozenset((Sign.RESTS, Sign.TICKS, Sign.POLLS))
MOVING, FREEING = frozenset((Sign.GOES_ON, Sign.SLEEPS, Sign.UNKNOWN)), PRESENT - {Sign.SLEEPS}
EVERYBODY: Counts = {way: {*Sign, None} for way in (*Strength, BESIDE, AT_REST)}
LEFT: Counts = {NAMED: PRESENT, ABLE: PRESENT - IDLE - {Sign.UNKNOWN}, BESIDE: {Sign.GOES_ON, Sign.SLEEPS, Sign.ENDED}}
FREE: Counts = {NAMED: PRESENT, ABLE: FREEING, BESIDE: FREEING}  # (the end of a sleep frees by name alone)
FEED: Counts = {**FREE, AT_REST: PRESENT}


class Decision:
    """What the rule says of a system, whose processes have the numbers of their places. `certain` are those who are
    stuck for certain, and `likely` those who are likely to be, the certain ones included. `uncertain` has all but the
    former, each that waits with a waker that may free it. `freed` has those who go on or sleep, with None, and whom
    these free, each with the waker that does so: nobody who is certain to be stuck."""

    def __init__(self, subjects: Sequence[Subject]) -> None:
        self.subjects = [subject._replace(sign=Sign.GOES_ON) if subject.sign is Sign.BLOCKED and not subject.parts
                         else subject for subject in subjects]
        self.blocked, self.resting = ({number for number, subject in enumerate(self.subjects) if subject.sign is sign
                                       and subject.parts} for sign in (Sign.BLOCKED, Sign.RESTS))
        self.graph = Graph(self.subjects)
        self.index, self.signs, self.nobody = self.graph.index, self.graph.signs, self.graph.nobody
        self.kept: Dict[Tuple[int, Way], Sequence[str]] = {}
        self.waits: Dict[int, List[Tuple[Part, int]]] = {}  # the parts of each with their nodes, one list for all of it
        for owners in shared_waits(self.subjects, sorted(self.blocked | self.resting)):
            _, sign, parts = self.subjects[owners[0]]
            ways = [self.ways_of(part) if sign is Sign.BLOCKED else [AT_REST] * len(part) for part in parts]
            wait = [*zip(parts, self.graph.add_wait(parts, ways, owners))]
            self.waits.update(dict.fromkeys(owners, wait))
        if {*self.signs} & IDLE:
            self.rest_behind_idle()
        self.uncertain = self.outside(self.blocked | self.resting)
        self.certain = (self.blocked | self.resting).difference(self.uncertain)
        waits = {id(self.waits[number]): number for number in self.blocked - self.certain}
        rows = [(self.subjects[number].name, *row) for number in waits.values() for row in self.waits[number]]
        self.left = {node: self.left_of(part) for _, part, node in rows}  # who is left, of the parts of uncertain ones
        over = [node for name, part, node in rows if not is_left(name, part, self.left[node])]
        self.is_left = len(over) < len(rows)
        self.unlikely = self.outside(self.blocked, self.certain, LEFT, over) if rows else {}
        self.likely = (self.blocked | self.certain).difference(self.unlikely)
        self.freed = self.freed_of(self.blocked - self.certain, FREE)

    def rest_behind_idle(self) -> None:
        """Has those rest who wait in each part for a named one that is idle, and for none who moves."""
        idle, moving = (self.graph.reach([number for number, sign in enumerate(self.signs) if sign in signs],
                                         self.blocked, {NAMED: signs}) for signs in (IDLE, MOVING))
        behind = {id(parts) for parts in self.waits.values() if moving.keys().isdisjoint(node for _, node in parts)}
        for number in self.blocked & idle.keys():
            self.signs[number] = Sign.RESTS if id(self.waits[number]) in behind else Sign.BLOCKED

    def outside(self, waiting: AbstractSet[int], sure: AbstractSet[int] = frozenset(), counts: Counts = EVERYBODY,
                over: Iterable[int] = ()) -> Reached:
        """Returns who isn't in the greatest set of those that wait and of sure ones, whose parts aren't over."""
        others = sorted({*range(self.nobody)}.difference(waiting, sure))
        there = (number for number in others if self.signs[number] is not Sign.ENDED)
        return self.graph.reach([self.nobody, *over, *there], waiting - sure, counts)

    def freed_of(self, waiting: AbstractSet[int], counts: Counts) -> Reached:
        moving = [number for number, sign in enumerate(self.signs) if sign in (Sign.GOES_ON, Sign.SLEEPS)]
        return {at: cause for at, cause in self.graph.reach(moving, waiting, counts).items() if at < self.nobody}

    @cached_property
    def headline(self) -> Headline:
        if self.certain or self.likely:
            return Headline.DEADLOCK if self.certain else Headline.LIKELY
        signs = {subject.sign for subject in self.subjects}
        goes_on = Sign.GOES_ON in signs
        # Where nobody goes on, one who is blocked is freed by a named one.
        is_well = self.blocked <= self.freed.keys() and (goes_on or self.blocked) and not self.owed()
        if Sign.UNKNOWN in signs or not is_well and (goes_on or self.is_left):
            return Headline.NOT_KNOWN
        return Headline.NONE if is_well else Headline.IDLE

    def owed(self) -> Set[int]:
        """Returns those at rest that wait for a named one, and that nobody who moves gives anything to, in any way."""
        named = {number for number in self.resting if any(map(self.has_named, self.subjects[number].parts))}
        return named and named - self.freed_of(self.blocked | self.resting, FEED).keys()

    def has_named(self, part: Part) -> bool:
        """Whether a named one of a part is there."""
        return any(wakers.strength is NAMED and not self.index.keys().isdisjoint(wakers.names()) for wakers in part)

    def ways_of(self, part: Part) -> Sequence[Way]:
        """Returns in which way each wakers of a part count."""
        if len(part) == 1 or not self.has_named(part):
            return [part[0].strength] if len(part) == 1 else [wakers.strength for wakers in part]
        return [BESIDE if wakers.strength is ABLE else wakers.strength for wakers in part]

    def left_of(self, part: Part) -> List[Sequence[str]]:
        """Returns those of each wakers of a part who aren't set aside: one list for all parts that share theirs."""
        return [self.left_in(wakers.who, way) for wakers, way in zip(part, self.ways_of(part))]

    def left_in(self, who: Who, way: Way) -> Sequence[str]:
        if isinstance(who, Anybody) or way not in LEFT:
            return ()
        if len(who) == 1:
            return who if self.signs[self.index.get(who[0], self.nobody)] in LEFT[way] else ()
        if (id(who), way) not in self.kept:
            left = [name for name in who if self.signs[self.index.get(name, self.nobody)] in LEFT[way]]
            self.kept[id(who), way] = left if len(left) < len(who) else who
        return self.kept[id(who), way]

    def holding_parts(self, number: int) -> List[Part]:
        """Returns the parts by which one is likely to be stuck, and not for certain."""
        return [part for part, node in self.waits[number] if node not in self.unlikely]

    def doubts(self, root: Collection[int]) -> List[Aside]:
        """Returns on whom it hangs that the members of a likely root are stuck."""
        members = set(root)
        found: Dict[Tuple[Optional[str], str, Strength], Dict[int, Sequence[str]]] = {}
        for wakers, left, waits in self.holding_wakers(root):
            kept = set(left)
            for who in [None] if isinstance(wakers.who, Anybody) else wakers.who:
                if who not in kept and self.may_free(who, members):
                    found.setdefault((who, wakers.how, wakers.strength), {})[id(waits)] = waits
        return [Aside(*key, names_in(lists)) for key, lists in found.items()]

    def may_free(self, name: Optional[str], members: Set[int]) -> bool:
        """Whether one who was set aside may free a member: not who has ended, is certainly stuck, or is one itself."""
        number = self.nobody if name is None else self.index.get(name, self.nobody)
        return not (number in members or number in self.certain or self.signs[number] is Sign.ENDED)

    def holding_wakers(self, root: Iterable[int]) -> Iterator[Tuple[Wakers, Sequence[str], Sequence[str]]]:
        """Yields the wakers of parts by which members are likely to be stuck, with who is left, and these members."""
        owners: Dict[int, Tuple[int, List[str]]] = {}
        for number in root:
            if number not in self.certain:
                owners.setdefault(id(self.waits[number]), (number, []))[1].append(self.subjects[number].name)
        groups: Dict[Tuple[int, int, str, Strength], Tuple[Wakers, Sequence[str], Dict[int, Sequence[str]]]] = {}
        for number, names in owners.values():
            for wakers, left in [row for part, node in self.waits[number] if node not in self.unlikely
                                 for row in zip(part, self.left[node])]:
                key = id(wakers.who), id(left), wakers.how, wakers.strength
                groups.setdefault(key, (wakers, left, {}))[2][number] = names
        return ((wakers, left, names_in(lists)) for wakers, left, lists in groups.values())


def is_left(owner: str, part: Part, left: Sequence[Sequence[str]]) -> bool:
    """Whether somebody is left in a part beside the waiter: it may stand in the list that all of its process share, and
    it wakes nobody while it waits."""
    return any(len(names) > 1 or names and (names[0] != owner or wakers.strength is NAMED)
               for wakers, names in zip(part, left))


def names_in(lists: Dict[int, Sequence[str]]) -> Sequence[str]:
    """Returns the names of some lists: the list itself of one."""
    rows = list(lists.values())
    return rows[0] if len(rows) == 1 else list(dict.fromkeys(chain(*rows)))
