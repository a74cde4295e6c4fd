"""How long the limit of a wait is, and for how long it has lasted. A limit that ends in more than an hour is none: it
may end the wait in another way.
"""
from __future__ import annotations

from typing import Optional, Tuple

from cmh_proc.calls import SLEEPS

from ...core.model import Part, wakers
from ...core.times import duration
from ..base import FAR
from .machine import Host, LinuxThread

LEAST = 10.0  # so far off may the clocks of processors be by which it is known when a thread ran last


def limit_of(thread: LinuxThread) -> Tuple[Optional[float], Optional[float]]:
    """Returns how long the limit of a wait is, and in how many seconds it ends, as far as that is known."""
    length, ends = thread.row.get("limit", (None, None))
    if length is not None:
        return length, max(0.0, length - (waited_of(thread) or 0.0))
    return None, ends


def waited_of(thread: LinuxThread) -> Optional[float]:
    waited: Optional[float] = thread.row.get("waited")
    return waited


def is_far(thread: LinuxThread) -> bool:
    """Whether the limit of a wait ends in more than an hour."""
    return thread.has_limit and (limit_of(thread)[1] or 0.0) > FAR


def far_limit(machine: Host, thread: LinuxThread, seconds: float) -> Part:
    """Returns what stands for a limit far away. A fact may say that nobody is to wait for it."""
    name = f"limit of {thread.name}"
    machine.unseen[name] = f"ends in {duration(seconds)}"
    return (wakers("limit", machine.shared(["limit", name], [name])),)


def words_of(thread: LinuxThread) -> str:
    """Returns how one waits that has a limit, in words: 'it sleeps for 27 h, of which 3 min are over'."""
    length, ends = limit_of(thread)
    if length is None and ends is None:
        return "it sleeps" if thread.call in SLEEPS else "it waits with a limit"
    verb = "sleeps" if thread.call in SLEEPS else "waits"
    if length is None:
        return f"it {verb} for {duration(ends or 0.0)} from then on"
    over = waited_of(thread) or 0.0
    more = f", of which {duration(round(over))} are over" if LEAST <= over < length else ""
    return f"it {verb} for {duration(length)}{more}"


def age_of(thread: LinuxThread) -> str:
    """Returns for how long one has waited without a limit, in words, or nothing."""
    waited = waited_of(thread)
    return f"for {duration(round(waited))}" if waited is not None and waited >= LEAST else ""
