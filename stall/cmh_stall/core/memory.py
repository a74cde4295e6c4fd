"""How much memory a command takes at most, so that no state that somebody sends has a machine run out of it."""
from __future__ import annotations

import contextlib
import resource

from cmh_proc.budget import BUDGET

OTHERS = 64 << 20  # bytes that are left for the program cmh, and for what isn't counted as data


def bound_memory(times: int = 1) -> None:
    """Has this process get no more memory than one look may read, by its budget, or so many times as much: what it has
    taken itself of a large system needs more to be explained."""
    _, hard = resource.getrlimit(resource.RLIMIT_DATA)
    with contextlib.suppress(OSError, ValueError):
        resource.setrlimit(resource.RLIMIT_DATA, (max(OTHERS, times * BUDGET.size - OTHERS), hard))


def unbound_memory(pid: int) -> None:
    """Takes that back for a child, whose limits are others'."""
    with contextlib.suppress(OSError, ValueError):  # (it may have ended)
        _, hard = resource.getrlimit(resource.RLIMIT_DATA)
        resource.prlimit(pid, resource.RLIMIT_DATA, (hard, hard))
