"""A state is taken in slices: after each of them the threads of the program have the interpreter.

They would get it without that too, but only where they have waited for five milliseconds, each time that they need it.
What is kept of a state's own is forgotten at its end.
"""
from __future__ import annotations

import functools
import time

TYPE_CHECKING = False
if TYPE_CHECKING:
    from typing import Any, Callable, Dict, List, Tuple, TypeVar
    from .objects import Thing
    Answer = TypeVar("Answer")

SLICE, LONGEST = 0.001, 0.005  # seconds of a slice: where nobody else computes, and where others keep the interpreter
REST = 0.0002  # seconds between two slices, at least
PATIENCE = 3  # seconds of a state after which the program has no rest between two slices

KNOWN: List[Dict[Any, Any]] = []  # what is forgotten at the end of a state


class Pace:
    """When a state was begun, and its present slice, how many seconds that may have, and the number of the row.
    `reached` has by the ids of things the numbers of the rows that first reached them."""

    def __init__(self) -> None:
        self.reached: Dict[int, int] = {}
        KNOWN.append(self.reached)
        self.begin()

    def begin(self) -> None:
        forget()
        self.row = 0
        self.first = self.last = time.perf_counter()
        self.length = SLICE

    def has_time(self) -> bool:
        """Whether the slice isn't over."""
        return time.perf_counter() < self.last + self.length

    def give_way(self) -> None:
        """Lets others run after a row if the slice is over. Where they take long, the next one is longer, as their own
        are."""
        self.row += 1
        if self.has_time():
            return
        begun = time.perf_counter()
        time.sleep(REST if begun < self.first + PATIENCE else 0)
        self.last = time.perf_counter()
        self.length = min(max(SLICE, self.last - begun), LONGEST)

    def is_shared(self, thing: Thing) -> bool:
        """Whether another row has reached a thing, or one that had its place. So what one thread alone has isn't kept,
        and goes when that drops it."""
        return self.reached.setdefault(id(thing), self.row) != self.row


def once_each(function: Callable[[Thing], Answer]) -> Callable[[Thing], Answer]:
    """Has a function look at each thing once in a state. All of these stay there until it ends, so they are classes,
    functions, modules and what else lasts."""
    known: Dict[int, Tuple[Thing, Answer]] = {}
    KNOWN.append(known)

    @functools.wraps(function)
    def answer(thing: Thing) -> Answer:
        row = known.get(id(thing))
        if row is None:
            row = known[id(thing)] = thing, function(thing)
        return row[1]
    return answer


def forget() -> None:
    """Leaves what the functions above have found."""
    for known in KNOWN:
        known.clear()


PACE = Pace()
