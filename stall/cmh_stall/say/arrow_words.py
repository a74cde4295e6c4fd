"""What an arrow between two boxes of a picture says of how many, where not all of one wait for all of the other."""
from __future__ import annotations

from typing import Collection, Dict, FrozenSet, Iterable, List, NamedTuple, Tuple

Pair = Tuple[int, int]


class Coverage(NamedTuple):
    """How many of a box have whom of another one, each set once, and whether all of them have all of it."""

    number: int
    sets: FrozenSet[FrozenSet[int]]
    is_whole: bool


def words_of(coverage: Coverage, start: int, end: int, needs_all: bool) -> str:
    """Returns the words on an arrow between boxes of so many: how many have whom, if not all have all."""
    who = "" if coverage.number == start else f"{coverage.number:,} of {start:,}"
    if end == 1 or coverage.is_whole:
        return who if end == 1 or not who else f"{who} → {'all' if needs_all else 'any of'} {end:,}"
    if len(coverage.sets) == 1:
        whom = f"{sum(map(len, coverage.sets)):,} of {end:,}"
        return whom if start == 1 else f"{who or 'all'} → {whom}"
    return f"{who} → {each_words(coverage)}".lstrip("→ ")


def lines_of_words(words: str) -> List[str]:
    """Returns the words on an arrow in lines, as where boxes are narrow."""
    return words.replace(" → ", " →\n").replace(" of these", "\nof these").split("\n") if words else []


def far_words(number: int, start: int) -> str:
    """Returns the words on an arrow from so many to the root that they are behind: how many wait for it themselves."""
    return f"{number:,} of {start:,} directly" if number else "through others"


def each_words(coverage: Coverage) -> str:
    """Returns whom each one has, if not all have the same."""
    if any(len(whom) > 1 for whom in coverage.sets):
        return "each some of these"
    return "each its own" if len(coverage.sets) == coverage.number else "each one of these"


def coverage_of(rows: Iterable[Tuple[List[int], Collection[int], bool]], end: Collection[int]) -> Coverage:
    """Returns how far some cover a box. Each row has those that share a list, it, and whether it is of one alone,
    who doesn't have to be in it."""
    number, sets, is_whole, inside = 0, set(), True, frozenset(end)
    for members, whom, is_own in rows:
        common = inside.intersection(whom)
        if common:
            number += len(members)
            sets.add(common)
            is_whole = is_whole and len(common.union(inside.intersection(members) if is_own else ())) == len(inside)
    return Coverage(number, frozenset(sets), is_whole)


def by_first(pairs: Iterable[Pair]) -> Dict[int, List[int]]:
    """Returns for each first one of some pairs the others."""
    others_by_first: Dict[int, List[int]] = {}
    for first, other in pairs:
        others_by_first.setdefault(first, []).append(other)
    return others_by_first
