"""Makes a sketch fit the program's limits, exactly: each step changes no verdict of those that stay, and is taken only
where the sketch doesn't fit yet. What still doesn't fit is answered, and the program doesn't confirm it.

1. Lists that several share are one by `Waits`: a hub of ANY is a process of the dump, which waits for any of the list.
2. Who is waited for by nobody is left out, as many as needed. That changes no other root or path either.
3. Twins are folded into one: they have the same site, wait and messages, and stand in just the same lists.
"""
from __future__ import annotations

from typing import Dict, List, Optional

from .limits import DEPENDENTS, ENTRIES
from .sketch import ALL, ANY, ENDED, RUNS
from .stuck import Answer, Waits


class Reduction:
    """`kept` are the indices of those in the dump, hubs too, `left_out` of those that aren't, and `folded` has who
    stands for each one that is folded. `is_too_large` says that the program can't take it."""

    def __init__(self, waits: Waits) -> None:
        self.waits, self.number = waits, waits.number
        self.left_out: List[int] = []
        self.folded: Dict[int, int] = {}
        self.there = [kind != ENDED for kind in waits.kinds]
        self.count()
        for reduce in (self.leave_out, self.fold_twins):
            if not self.fits():
                reduce()
        self.kept, self.is_too_large = self.rows(), not self.fits()

    def dependents(self, at: int, answer: Answer) -> Optional[List[int]]:
        """Returns whom the dump names for one of `kept` by an answer, or None where it is active."""
        others = answer.dependents(at)
        return None if others is None else [it for it in dict.fromkeys(map(self.stands_for, others)) if self.there[it]]

    def stands_for(self, at: int) -> int:
        """Returns who stands for one: itself, or the one that it is folded into."""
        return self.folded.get(at, at)

    def rows(self) -> List[int]:
        """Returns the processes of the dump. Of a hub of ALL another one is named."""
        return [at for at, there in enumerate(self.there) if there and self.is_row(at)]

    def is_row(self, at: int) -> bool:
        return at < self.number or self.waits.kinds[at] == ANY

    def width(self, at: int) -> int:
        """Returns how many dependents one takes."""
        waits = self.waits
        names = 1 if waits.kinds[at] == ALL else len({*map(self.stands_for, waits.left_there(at))})
        return names + 1 if waits.senders[at] and waits.has_hub(at) else names

    def count(self) -> None:
        rows = self.rows()
        self.processes, self.names = len(rows), sum(map(self.width, rows))

    def fits(self) -> bool:
        return self.processes <= ENTRIES and self.names <= DEPENDENTS

    def leave_out(self) -> None:
        """Leaves out those that nobody else waits for, again and again, first those that run."""
        left = self.waits.left
        counts = [len(waiters) - waiters.count(at) for at, waiters in enumerate(self.waits.waiters)]
        alone = [at for at, there in enumerate(self.there) if there and counts[at] == 0]
        alone.sort(key=lambda at: self.waits.kinds[at] == RUNS)
        while alone and not self.fits():
            at = alone.pop()
            self.there[at] = False
            self.processes -= self.is_row(at)
            self.names -= self.width(at) if self.is_row(at) else 0
            for other in left[at]:
                counts[other] -= other != at
                if counts[other] == 0 and self.there[other] and other != at:
                    alone.append(other)
        self.left_out = [at for at in range(self.number) if not self.there[at] and self.waits.kinds[at] != ENDED]

    def fold_twins(self) -> None:
        """Folds all twins. Lists get shorter with it."""
        receivers: Dict[int, List[int]] = {}
        for at, senders in enumerate(self.waits.senders):
            for sender in senders:
                receivers.setdefault(sender, []).append(at)
        there, first = list(self.there), {}  # type: List[bool], Dict[object, int]
        for at in range(self.number):
            if there[at]:
                one = first.setdefault(self.key(at, receivers.get(at, []), there), at)
                if one != at:
                    self.folded[at], self.there[at] = one, False
        self.count()

    def key(self, at: int, receivers: List[int], there: List[bool]) -> object:
        """Returns what twins have in common."""
        waits, process = self.waits, self.waits.processes[at]
        lists = tuple(filter(there.__getitem__, waits.waiters[at]))
        return process.site, process.kind, tuple(sorted(waits.left[at])), tuple(sorted(waits.senders[at])), \
            tuple(receivers), lists
