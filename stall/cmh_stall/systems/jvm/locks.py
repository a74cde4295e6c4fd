"""Who holds, wants and waits at what in one state of a JVM."""
from __future__ import annotations

import re
from collections import defaultdict
from functools import lru_cache
from typing import DefaultDict, Dict, List, NamedTuple, Optional, Set

from .frames import is_in
from .text import CLASS_INIT, PARKED, JvmThread, Stack, stack_of

NO_OBJECT = "no object reference available"
RELOCK, INITIALISER = "waiting to re-lock in wait()", ".<clinit>"
WRITES, READS = (re.compile(rf"java\.util\.concurrent\.locks\.ReentrantReadWriteLock\${kind}Lock\.\w+")
                 for kind in ("Write", "Read"))
WAITS = ("java.lang.Object.wait", "java.lang.Object.wait0")
JOIN = "java.lang.Thread.join"


class Monitors(NamedTuple):
    """The monitors of a thread: those that it holds, those of which it has given one back in Object.wait(), if it isn't
    known which, and those that it has given back."""

    locked: List[str]
    perhaps: List[str]
    given: List[str]


def monitors_of(thread: JvmThread) -> Monitors:
    marks = [mark for frame in thread.frames for mark in frame.marks]
    waited = [thing for kind, thing in marks if kind in (RELOCK, "waiting on") and thing != NO_OBJECT]
    given = waited or joined_by(thread)
    locked = list(dict.fromkeys(thing for kind, thing in marks if kind == "locked" and thing not in given))
    if given or not thread.frames or thread.frames[0].method not in WAITS:
        return Monitors(locked, [], given)
    return Monitors([], [], locked) if len(locked) == 1 else Monitors([], locked, [])


def joined_by(thread: JvmThread) -> List[str]:
    """Returns the monitor of the thread that one joins, if the state shows it: Thread.join locks it, and no other, and
    gives it back by waiting. Compiled code doesn't show what it waits on."""
    inner = next((frame for frame in thread.frames if frame.method not in WAITS), None)
    is_joining = inner is not None and inner is not thread.frames[0] and inner.method == JOIN
    locked = [thing for kind, thing in inner.marks if kind == "locked"] if inner is not None and is_joining else []
    return locked if len(locked) == 1 else []


def marks_of(thread: JvmThread, wanted: str) -> List[str]:
    """The objects of one kind of marks under the first frame, where what a thread waits for stands."""
    return [thing for kind, thing in thread.frames[0].marks if kind == wanted] if thread.frames else []


def wanted_of(thread: JvmThread, held: Monitors) -> List[str]:
    """Returns the monitor that a thread waits to enter, if the state shows it."""
    return (marks_of(thread, "waiting to lock") or held.given)[:1] if thread.state == "BLOCKED" else []


def objects_of(thread: JvmThread, held: Monitors) -> List[str]:
    """Returns what a thread waits at, if the state shows it."""
    things = marks_of(thread, PARKED) or held.given or marks_of(thread, CLASS_INIT)
    return wanted_of(thread, held) or things[:1]


@lru_cache(maxsize=4096)
def initialised_in(stack: Stack) -> List[str]:
    """The classes whose initialisers run."""
    return [method[:-len(INITIALISER)] for method, _, _ in stack if method.endswith(INITIALISER)]


class Locks:
    """All is by the keys of threads. `holders` has for each monitor who surely holds it, `perhaps` who holds it or has
    given back another one of several, `owners` who owns a lock of `java.util.concurrent`, `wanted` the monitor that a
    thread waits to enter, `objects` what it waits at, `initialisers` who runs the initialiser of a class, `beginners`
    who runs that of any class and waits for none, and `writers` and `readers` who waits for a lock of readers and
    writers in order to write, or to read. `shown` is `found_owners` of a Dump.
    """

    def __init__(self, threads: List[JvmThread], shown: Dict[str, str]) -> None:
        self.holders: DefaultDict[str, List[str]] = defaultdict(list)
        self.perhaps: DefaultDict[str, List[str]] = defaultdict(list)
        self.owners: DefaultDict[str, List[str]] = defaultdict(list)
        self.initialisers: DefaultDict[str, List[str]] = defaultdict(list)
        self.writers: DefaultDict[str, List[str]] = defaultdict(list)
        self.readers: DefaultDict[str, List[str]] = defaultdict(list)
        self.wanted: Dict[str, str] = {}
        self.objects: Dict[str, List[str]] = {}
        self.beginners: List[str] = []
        wanted = {f"#{thread.waits_for_owner}" for thread in threads if thread.waits_for_owner}
        self.named = wanted.intersection(thread.key for thread in threads)
        for thread in threads:
            self.add(thread)
        self.add_shown(threads, shown)

    def add_shown(self, threads: List[JvmThread], shown: Dict[str, str]) -> None:
        """Adds the owners in the deadlocks that the JVM itself has found."""
        called: DefaultDict[str, List[str]] = defaultdict(list)
        for thread in threads:
            called[thread.name].append(thread.key)
        for lock, owner in shown.items():
            if len(called[owner]) == 1:
                for held in (self.holders, self.owners):
                    held[lock] = held.get(lock) or called[owner]

    def add(self, thread: JvmThread) -> None:
        """Adds what the text of a thread says. One whose text isn't understood may hold what it doesn't say."""
        held = monitors_of(thread)
        for monitor in held.perhaps:
            self.perhaps[monitor].append(thread.key)
        for monitor in held.locked:
            self.holders[monitor].append(thread.key)
        for lock in thread.owned:
            self.owners[lock].append(thread.key)
        initialised = initialised_in(stack_of(thread))
        for name in initialised:
            self.initialisers[name].append(thread.key)
        if initialised and not self.class_of(thread):
            self.beginners.append(thread.key)
        wanted = wanted_of(thread, held)
        if wanted:
            self.wanted[thread.key] = wanted[0]
        self.objects[thread.key] = objects_of(thread, held)
        for lock in marks_of(thread, PARKED)[:1]:
            for pattern, waiting in ((WRITES, self.writers), (READS, self.readers)):
                if is_in(pattern, stack_of(thread)):
                    waiting[lock].append(thread.key)

    def monitor_holders(self, monitor: str, key: str) -> List[str]:
        """Returns who surely holds a monitor that a thread wants, or the first two if the state contradicts itself."""
        return [holder for holder in self.holders.get(monitor, [])[:3] if holder != key][:2]

    def owner(self, thread: JvmThread) -> Optional[str]:
        """Returns the key of the one who owns what a thread is parked at, where the state shows it."""
        key = f"#{thread.waits_for_owner}"
        if key in self.named:
            return key
        keys = [key for lock in marks_of(thread, PARKED) for key in self.owners.get(lock, [])[:2]]
        return keys[0] if len(keys) == 1 else None

    @staticmethod
    def class_of(thread: JvmThread) -> str:
        """Returns the class whose initialiser a thread waits for, or nothing."""
        return next(iter(marks_of(thread, CLASS_INIT)), "")

    def wanted_holders(self) -> Set[str]:
        """Returns all who hold what others want."""
        wanted = {*self.wanted.values(), *(thing for things in self.objects.values() for thing in things)}
        maps = (self.holders, self.perhaps, self.owners, self.initialisers)
        return {key for thing in wanted for keys in maps for key in keys.get(thing, [])} | self.named
