"""How much one look may read, and until when. The processes of one look share the end, which their environment has."""
from __future__ import annotations

import os
import time
from typing import Dict, Mapping, Optional

SIZE, UNTIL = "CMH_LOOK_BYTES", "CMH_LOOK_UNTIL"  # the second is a moment of CLOCK_MONOTONIC
MOST_BYTES, MOST_SECONDS = 512 << 20, 600.0
UNITS = (1 << 30, "GB"), (1 << 20, "MB"), (1 << 10, "KB")


class Refused(OSError):
    """Something isn't read. The text says why: 'it is a FIFO'."""


OF_LOOK, OF_ONE = "the look has read {}", "it is larger than {}"


class Budget:
    """How many bytes may be read and kept, and until when. `whole` is the budget that this is a part of, and `text`
    says what there is too much of."""

    def __init__(self, size: int, seconds: float, text: str = OF_LOOK, whole: Optional["Budget"] = None) -> None:
        self.size, self.left, self.text, self.whole = size, size, text, whole
        self.until = time.monotonic() + seconds

    def spend(self, size: int) -> None:
        """Counts what was read, or is about to be. Raises Refused where that is too much, or too late."""
        self.check()
        budget: Optional[Budget] = self
        while budget is not None:  # (no part has more time than the whole)
            budget.left -= size
            if budget.left < 0:
                raise Refused(budget.text.format(size_in_words(budget.size)))
            budget = budget.whole

    def check(self) -> None:
        """Raises Refused if the time is over."""
        if time.monotonic() > self.until:
            raise Refused("its time is over")

    def seconds(self) -> float:
        """Returns how many seconds are left."""
        left = max(0.0, self.until - time.monotonic())
        return left if self.whole is None else min(left, self.whole.seconds())

    def give(self, seconds: float, size: Optional[int] = None) -> None:
        """Has the time end in some seconds, and sets how many bytes may be read from now on."""
        self.until = time.monotonic() + seconds
        if size is not None:
            self.size = self.left = size

    def environment(self) -> Dict[str, str]:
        """Returns what tells a process that is started for the same look of it."""
        return {SIZE: str(max(0, self.left)), UNTIL: repr(self.until)}

    def part(self, size: int, seconds: float, text: str = OF_LOOK) -> "Budget":
        """Returns a part of it, as for one process of many."""
        return Budget(size, min(seconds, self.seconds()), text, self)


def budget_of(environ: Mapping[str, str]) -> Budget:
    """Returns the budget that an environment has, or the usual one where that says none."""
    budget = Budget(MOST_BYTES, MOST_SECONDS)
    try:
        budget.size = budget.left = int(environ.get(SIZE, budget.size))
        budget.until = float(environ.get(UNTIL, budget.until))
    except ValueError:
        return Budget(MOST_BYTES, MOST_SECONDS)
    return budget


def size_in_words(size: int) -> str:
    """Returns '512 MB' of 536870912."""
    unit, name = next(((unit, name) for unit, name in UNITS if size >= unit), (1, "bytes"))
    return f"{size / unit:.3g} {name}"


BUDGET = budget_of(os.environ)
