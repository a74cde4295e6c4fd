"""The threads of one reading of a JVM: who can reach, own or end what one of them waits for."""
from __future__ import annotations

import re
from typing import Dict, List, Set

from ...core.model import Part, Wakers, wakers
from ...core.sketch import INNER, REST, premise
from ..base import Snapshot
from .frames import (CONDITION, FUTURE, MEETS, OF_QUEUES, POOLS_OWN, RUNS_TASK, SOCKETS, JvmPlace, caller_of, is_in,
                     place_of)
from .heap import HeapView, Reached
from .locks import Locks
from .text import PARKED, JvmDump, JvmThread, stack_of

POOLS, COMPLETES, REACHES = "pools", "completes", "reaches"
END, MAIN = "waits for the end of the JVM", "main"
UNSHOWN, TO_COME = "unshown", "to-come"


class Everybody:
    """Those who may end the wait of any thread, in lists that all share: the job's threads, but for those that do
    nothing until one of these gives it to them. `periodic` do again and again what they have to do, by the heap, and
    `newcomers` came after the first state, so that the heap may lack them."""

    def __init__(self, names: List[str], periodic: List[str], newcomers: List[str], main: str = "") -> None:
        self.periodic = set(periodic)
        others = [name for name in names if name not in self.periodic]
        self.able = wakers("same-process", others, premise(INNER))
        self.able_but_main = self.able.without([main])
        self.cancels = wakers("cancels", others)
        self.repeats: Part = (wakers("repeats", periodic),) if periodic else ()
        self.newcomers: Part = (wakers(TO_COME, newcomers),) if newcomers else ()


class JvmThreads(Snapshot):
    """The dump of one time. `limited` are the keys of those whose wait has a limit, and `breakers` the names of those
    at a barrier; `meetings` has by key at which barrier one waits, if the state shows that of all who wait at one.
    `counts` says that processor times tell one wait from the next. `moved` has at what some wait who haven't stood, or
    in another way than for a ReentrantLock, and `shows_owners` says that whoever owns one is shown. `timers` are
    the JDK's own with something to do for futures. `scheduled` are the keys of those that take tasks of a schedule, and
    wait with a limit in one state at least: its threads take turns in that. `of_file` has the names of those that were
    read by themselves, beside what jstack prints."""

    dump: JvmDump
    threads: List[JvmThread]
    by_key: Dict[str, JvmThread]
    names: Dict[str, str]
    everybody: Everybody
    locks: Locks
    heap: HeapView
    limited: Set[str]
    breakers: List[str]
    meetings: Dict[str, str]
    counts: bool
    moved: Set[str]
    shows_owners: bool
    known_owners: Dict[str, Part]
    known_runners: Dict["re.Pattern[str]", Part]
    known_able: Dict[str, Wakers]
    timers: List[str]
    scheduled: Set[str]
    of_file: Set[str]

    def left_out(self) -> Part:
        """Those who may be missing, beside those that are named: whoever is found by a search has them anyway."""
        return (wakers("left-out", [REST]),) if self.lacks() else ()

    def able(self, thread: JvmThread) -> Part:
        """Returns who may end the wait of a thread at an object of the runtime."""
        reached = self.heap.reach_of(thread)
        if reached is None:
            able = self.everybody.able_but_main if thread.name == MAIN else self.able_beside(parked_at(thread))
            return (able, *self.everybody.repeats)
        return self.reaching("reaches", reached)

    def able_beside(self, lock: str) -> Wakers:
        """Returns all who may end a wait at an object. Who waits to read with a lock has nothing of it: a reader that
        has it gets it once more at once."""
        if lock not in self.locks.readers:
            return self.everybody.able
        if lock not in self.known_able:
            names = (self.names[key] for key in self.locks.readers[lock])
            self.known_able[lock] = self.everybody.able.without(names)
        return self.known_able[lock]

    def cancelling(self, thread: JvmThread) -> Part:
        """Returns who may interrupt a thread, or cancel what it waits for."""
        reached = self.heap.reach_of(thread)
        if reached is None:
            return (self.everybody.cancels, *self.everybody.repeats)
        return () if reached.is_alone else self.reaching("cancels", reached)

    def reaching(self, how: str, reached: Reached) -> Part:
        """Returns those who have a reference. What does the same again and again, finalizes objects or came later may
        have one too."""
        periodic = [name for name in reached.names if name in self.everybody.periodic]
        others = [name for name in reached.names if name not in self.everybody.periodic]
        return (wakers(how, others, premise(REACHES)), *([wakers("repeats", periodic)] if periodic else []),
                *([wakers("finalizes", reached.inner)] if reached.inner else []), *self.everybody.newcomers)

    def owners(self, thread: JvmThread) -> Part:
        """Returns who has a lock of the JDK's: one at a condition that was signalled still stands there until it gets
        the lock. The JDK's own queues give their locks back at once, unless code of the job runs within."""
        if CONDITION not in thread.parked_class:
            return ()
        inside = inside_of(thread)
        if inside not in self.known_owners:
            names = [self.names[other.key] for other in self.threads if has_lock(other)
                     and any(frame.method.startswith(inside) for frame in other.frames)]
            names += [REST] if self.lacks() else []
            self.known_owners[inside] = (wakers("releases", names),) if names else ()
        return self.known_owners[inside]

    def runners(self, place: JvmPlace) -> Part:
        """Returns those who run a task of the kind that one waits for: what one of them runs, or has still to run."""
        task = next((task for call, task in RUNS_TASK if call.fullmatch(place.call)), None)
        if task is None:
            return ()
        if task not in self.known_runners:
            names = [self.names[thread.key] for thread in self.threads
                     if is_in(task, stack_of(thread)) and not place_of(thread).idle]
            self.known_runners[task] = (wakers("guess", names),) if names else ()
        return self.known_runners[task]

    def breaking(self, place: JvmPlace) -> Part:
        """Returns who may end a wait at a barrier or for a future by a limit: that of a thread that waits there too, or
        one of which a thread of the JDK takes care."""
        names = self.breakers if MEETS.fullmatch(place.call) else self.timers
        names = [*names, *([REST] if self.lacks() else [])]
        has_limits = MEETS.fullmatch(place.call) or FUTURE.fullmatch(place.call)
        return (wakers("cancels", names),) if names and has_limits else ()


def parked_at(thread: JvmThread) -> str:
    """Returns the object at which a thread is parked, or nothing."""
    return next((thing for frame in thread.frames[:1] for kind, thing in frame.marks if kind == PARKED), "")


def has_lock(thread: JvmThread) -> bool:
    """Whether a thread owns a lock besides that of its pool, and that of the socket at which it is in a call."""
    locks = [name for name in thread.owned.values() if name != POOLS_OWN]
    return len(locks) > is_in(SOCKETS, stack_of(thread))


def inside_of(thread: JvmThread) -> str:
    """Returns the class of the JDK within which a thread waits, with a dot, or nothing."""
    caller = caller_of(thread)
    return caller.rpartition(".")[0] + "." if caller.startswith(OF_QUEUES) else ""
