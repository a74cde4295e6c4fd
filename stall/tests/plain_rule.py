"""Random systems of waits, and what is right of them: a plain search by names and sets that shares nothing with the
rule.
"""
from __future__ import annotations

import random
from typing import Dict, FrozenSet, List, NamedTuple, Optional, Sequence, Set, Tuple

from plain import plain_roots

from cmh_stall.core.model import (ANYBODY, COMES, HOWS, Anybody, Headline, Part, Sign, Strength, Subject, Wakers,
                             wakers)

GOES_ON, TICKS, SLEEPS, POLLS, RESTS, BLOCKED, UNKNOWN, ENDED = list(Sign)
NAMED, ABLE, AGAINST, UNSEEN = list(Strength)
DEADLOCK, LIKELY, NONE, IDLE, NOT_KNOWN = list(Headline)


class One(NamedTuple):
    """A waker by itself, and None for anybody. Who isn't there is unseen."""

    who: Optional[str]
    how: str
    strength: Strength


Parts = List[List[One]]


class Plain:
    """What is right of a system. Each greatest set begins with all, and loses who doesn't fit until nothing changes."""

    def __init__(self, subjects: Sequence[Subject]) -> None:
        self.signs = {subject.name: subject.sign for subject in subjects}
        self.parts = {subject.name: [self.ones(part) for part in subject.parts] for subject in subjects}
        ended_waits = {name for name in self.of_sign(BLOCKED) if not self.parts[name]}
        self.signs.update({name: GOES_ON for name in ended_waits})
        self.left = {name: [left for left in (self.left_in(name, part) for part in parts) if left]
                     for name, parts in self.parts.items()}
        self.certain = self.greatest(self.of_sign(BLOCKED, RESTS), self.parts, set())
        self.likely = self.greatest(self.of_sign(BLOCKED) | self.certain, self.left, self.certain)
        self.freed = self.least_freed()

    def ones(self, part: Part) -> List[One]:
        return [One(who, group.how, group.strength if who in self.signs else UNSEEN)
                for group in part for who in ([None] if isinstance(group.who, Anybody) else group.who)]

    def of_sign(self, *signs: Sign) -> Set[str]:
        return {name for name, sign in self.signs.items() if sign in signs}

    def left_in(self, name: str, part: List[One]) -> List[One]:
        """Those of a part who aren't set aside. One who waits, and alone is able to wake itself, is nobody."""
        is_named = any(one.strength is NAMED for one in part)
        left = [one for one in part if not self.is_aside(one, is_named)]
        return left if any(one.who != name or one.strength is NAMED for one in left) else []

    def is_aside(self, one: One, beside_named: bool) -> bool:
        if one.strength is not ABLE or one.who is None:
            return one.strength is not NAMED
        sign = self.signs[one.who]
        is_idle = sign in (RESTS, TICKS, POLLS) or self.waits_for_idle(one.who)
        return is_idle or sign is UNKNOWN or beside_named and sign is BLOCKED

    def waits_for_idle(self, name: str) -> bool:
        """Whether one who is blocked waits, in each part, for a named one who is idle, and for none who moves."""
        idle = {RESTS, TICKS, POLLS}
        lists = [{self.signs[str(one.who)] for one in part if one.strength is NAMED} for part in self.parts[name]]
        return self.signs[name] is BLOCKED and all(signs & idle and signs <= {*idle, BLOCKED, ENDED} for signs in lists)

    def greatest(self, inside: Set[str], parts: Dict[str, Parts], sure: Set[str]) -> Set[str]:
        while True:
            over = inside | self.of_sign(ENDED)
            kept = {name for name in inside
                    if name in sure or any(all(one.who in over for one in part) for part in parts[name])}
            if kept == inside:
                return inside
            inside = kept

    def least_freed(self) -> Set[str]:
        """Those who are blocked and freed, over their wakers, by one who goes on or by a named one who sleeps."""
        freed: Set[str] = set()
        while True:
            more = {name for name in self.of_sign(BLOCKED)
                    if all(any(self.frees(one, freed) for one in part) for part in self.parts[name])}
            if more == freed:
                return freed
            freed = more

    def owed(self) -> Set[str]:
        """Those at rest that wait for a named one, and get nothing by one who goes on or sleeps, over anybody."""
        fed: Set[str] = set()
        while True:
            more = {name for name in self.of_sign(BLOCKED, RESTS) if all(any(
                self.frees(one, fed) or self.signs[name] is RESTS and (one.who in fed or one.who is not None
                                                                       and self.signs.get(one.who) in (GOES_ON, SLEEPS))
                for one in part) for part in self.parts[name]) and self.parts[name]}
            if more == fed:
                return {name for name in self.of_sign(RESTS) - fed for part in self.parts[name] for one in part
                        if one.strength is NAMED}
            fed = more

    def frees(self, one: One, freed: Set[str]) -> bool:
        if one.strength not in (NAMED, ABLE) or one.who is None:
            return False
        sign = self.signs[one.who]
        return one.who in freed or sign is GOES_ON or one.strength is NAMED and sign is SLEEPS

    def headline(self) -> Headline:
        if self.certain or self.likely:
            return DEADLOCK if self.certain else LIKELY
        is_named = any(one.strength is NAMED for name in self.of_sign(BLOCKED) for part in self.parts[name]
                       for one in part)
        if self.of_sign(UNKNOWN):
            return NOT_KNOWN
        if self.of_sign(BLOCKED) == self.freed and (self.of_sign(GOES_ON) or is_named) and not self.owed():
            return NONE
        is_alone = not any(self.left[name] for name in self.of_sign(BLOCKED))
        return IDLE if is_alone and not self.of_sign(GOES_ON) else NOT_KNOWN

    def doubts(self, root: Set[str]) -> Set[Tuple[Optional[str], str, FrozenSet[str]]]:
        """Those set aside in the parts by which the members are stuck, but for members, and those who bring nothing."""
        nothing = root | self.certain | self.of_sign(ENDED)
        waits: Dict[Tuple[Optional[str], str], Set[str]] = {}
        for name in root - self.certain:
            for one in self.aside_of(name):
                if one.who not in nothing:
                    waits.setdefault((one.who, one.how), set()).add(name)
        return {(who, how, frozenset(names)) for (who, how), names in waits.items()}

    def aside_of(self, name: str) -> List[One]:
        over = self.likely | self.of_sign(ENDED)
        parts = [part for part in self.parts[name] if self.left_in(name, part)]
        holding = [part for part in parts if all(one.who in over for one in self.left_in(name, part))]
        return [one for part in holding for one in part if one not in self.left_in(name, part)]

    def roots(self) -> List[Set[str]]:
        """The likely roots: those of whom nobody waits for one who isn't a member."""
        edges = {name: {one.who for part in (self.parts if name in self.certain else self.left)[name] for one in part
                        if one.who in self.likely} for name in self.likely}
        return [set(root) for root in plain_roots(edges)[0] if not root & self.certain]


def random_system(chance: random.Random) -> List[Subject]:
    """Returns 2 to 8 processes, of all signs or a few, whose lists are their own, shared, or of those who aren't there.
    """
    names = [f"p{number}" for number in range(chance.randint(2, 8))]
    ghosts = ["ghost"] * (chance.random() < 0.2)
    shared = [some_names(chance, names + ghosts) for _ in range(2)]
    signs = chance.choice([[BLOCKED], [BLOCKED, RESTS], [BLOCKED, BLOCKED, BLOCKED, *chance.sample(list(Sign), 3)],
                           list(Sign), [RESTS, TICKS, SLEEPS, POLLS, BLOCKED]])
    hows = chance.choice([["owns"], ["reaches", "owns", "said"], ["reaches", "owns", "cancels"], list(HOWS)])
    return [Subject(name, chance.choice(signs), [random_part(chance, names + ghosts, shared, hows) for _ in range(
        chance.choice([0, 1, 1, 1, 1, 2, 2, 3]))]) for name in names]


def some_names(chance: random.Random, names: List[str]) -> List[str]:
    return chance.sample(names, min(len(names), chance.choice([0, 1, 1, 1, 2, 2, 3, 5])))


def random_part(chance: random.Random, names: List[str], shared: List[List[str]], hows: List[str]) -> Part:
    return tuple(random_wakers(chance, names, shared, hows) for _ in range(chance.choice([0, 1, 1, 1, 2, 2, 3])))


def random_wakers(chance: random.Random, names: List[str], shared: List[List[str]], hows: List[str]) -> Wakers:
    how = chance.choice(hows)
    if HOWS[how][0] is UNSEEN or chance.random() < 0.05:
        return wakers(how, ANYBODY)
    return wakers(how, chance.choice(shared) if chance.random() < 0.3 else some_names(chance, names))


def without_ghosts(subjects: List[Subject]) -> List[Subject]:
    """Returns a system as a sketch has it, in which each name is that of one who is there."""
    names = {subject.name for subject in subjects}
    return [subject._replace(parts=[tuple(group if isinstance(group.who, Anybody) else group.of(
        [name for name in group.who if name in names]) for group in part) for part in subject.parts]
        if subject.sign in (BLOCKED, RESTS) else []) for subject in subjects]


def what_is_left(subjects: List[Subject], pairs: Sequence[Tuple[str, str]], done: Set[str]) -> List[Subject]:
    """Returns a system without those parts that are over: by a message in transit from a waker, or since one has ended
    well who had to come. One who has no part left goes on."""
    left = [subject._replace(parts=[part for part in subject.parts if not any(
        (name, subject.name) in pairs or group.how == COMES and name in done
        for group in part for name in group.names())]) for subject in subjects]
    return [subject._replace(sign=GOES_ON) if before.parts and not subject.parts else subject
            for before, subject in zip(subjects, left)]


def change(subjects: List[Subject], number: int, place: int, part: Part) -> List[Subject]:
    """Returns a system in which a part of a wait is another one."""
    parts = list(subjects[number].parts)
    parts[place] = part
    return [*subjects[:number], subjects[number]._replace(parts=parts), *subjects[number + 1:]]
