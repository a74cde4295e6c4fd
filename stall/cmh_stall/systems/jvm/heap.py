"""What a heap dump shows of the waits of a JVM's threads: the rows that `cmh_heap` prints, beside those of `jstack`.

A thread is known again by its number and its address in the JVM, and its wait by its frames. A heap that was dumped
between two states shows what a thread waits for that has stood at one wait from the first to the second.
"""
from __future__ import annotations

import re
from dataclasses import dataclass, field
from typing import Any, Dict, List, NamedTuple, Optional, Set

from ...core.files import Refusal, shown
from ..base import misfits
from .frames import FINDS_THREADS, is_in, is_of_jvm
from .locks import Locks
from .rows import LABEL, Label, frames_of, key_of, label_of, plain, trees_in
from .text import JvmDump, JvmThread, stack_of

MARK = "# cmh heap "
WAITS = re.compile(r"java\.lang\.Object\.wait0?")
# The classes of what others may come to by a name or a value: a text, a class, a number, and what else is of that
# package but for these two.
NAMED = re.compile(r"java\.lang\.(?!(?:Object|Thread)\Z)[^.]*(?: for .*)?")
KINDS = TASK, QUEUED, READERS, JOIN, FUTURE, FUTURES, SUPPLIED, POOL, REACH, HOOK, TIMER, STREAM, LOST = (
    "task", "queued", "readers", "join", "future", "futures", "supplied", "pool", "reach", "hook", "timer", "stream",
    "lost")
UNREAD = "server"  # a kind of rows that older readers print, and of which nothing is read
FRAME = re.compile(r"(?s).+:-?\d{1,9}")
ROW = {"thread": LABEL, "frames": [FRAME], "waits": re.compile("|".join(KINDS)), "for": [LABEL], "besides": [LABEL],
       "reach": (type(None), [LABEL]), "is_full": bool, "is_direct": bool, "is_all": bool}
# In rows of the first version some keys are missing where they say nothing, and there are others, which nobody reads.
OLD = {f"{key}?": object for key in ("object", "tasks", "sites", "answers", "fields", "held")}
OLD_ROW: Dict[str, Any] = {"thread": LABEL, "frames": [FRAME], "waits": re.compile("|".join([*KINDS, UNREAD])),
                           "for": [LABEL], "besides?": [LABEL], "reach?": [LABEL], "is_full?": bool,
                           "is_direct?": bool, "is_all?": bool, **OLD}
VERSIONS: Dict[Any, Dict[str, Any]] = {1: OLD_ROW, 2: ROW}


@dataclass
class HeapWait:
    """What a heap shows of the wait of a thread: of which of KINDS it is, whom it waits for, and who else has at hand
    what it waits for. `is_full` says that the pool of a queued task takes no more threads, and `is_direct` that who
    computes the first future of a chain also does what follows. `reach` has those who have a reference to what it waits
    at or to the thread, if not anybody may, and `is_all` says that all threads of the job do, by a static field."""

    kind: str
    frames: List[str]
    whom: List[Label]
    besides: List[Label]
    is_full: bool
    is_direct: bool
    reach: Optional[List[Label]]
    is_all: bool


class Reached(NamedTuple):
    """The names of those who have a reference, of whom who waits is one, and of the JVM's own threads that have one;
    `is_alone` says that nobody has one but who waits."""

    names: List[str]
    inner: List[str]
    is_alone: bool


@dataclass
class JvmHeap:
    """The waits in a heap dump, and its time."""

    place: str
    time: float = 0.0
    waits: Dict[Label, HeapWait] = field(default_factory=dict)

    def row_of(self, thread: JvmThread) -> Optional[HeapWait]:
        """Returns what it shows of a thread, wherever that stood."""
        label = label_of(thread)
        return self.waits.get(label) if label else None


def read_heap(path: str, text: str) -> Optional[JvmHeap]:
    """Returns the heap of a text, or None if it has none. Raises Refusal if its rows aren't whole."""
    rows = trees_in(path, text, MARK, "heap")
    if not rows:
        return None
    heap, head, end = JvmHeap(rows[0][0]), rows[0][1], rows[-1][1]
    version = head.get("version")
    is_known = type(version) is int and version in VERSIONS and set(head) == {"version", "time"}
    if not is_known or end != {"end": len(rows) - 2}:
        raise Refusal(f"{heap.place}: rows of the heap are missing, or there are two heaps: take the state anew by "
                      "take-jvm --heap")
    heap.time = head["time"] if isinstance(head["time"], (int, float)) else 0.0
    for place, row in rows[1:-1]:
        odd = next(misfits(row, VERSIONS[version]), None)
        if odd is not None:
            raise Refusal(f"{place}: this row of the heap isn't understood at '{shown(odd)}'")
        if key_of(row["thread"]) in heap.waits:
            raise Refusal(f"{place}: a thread stands twice in the rows of the heap")
        heap.waits[key_of(row["thread"])] = wait_of_row(row)
    return heap


def wait_of_row(row: Dict[str, Any]) -> HeapWait:
    whom, besides = (list(map(key_of, row.get(key, []))) for key in ("for", "besides"))
    reach = row.get("reach", row["for"] if row["waits"] == REACH else None)
    return HeapWait(row["waits"], list(map(plain, row["frames"])), [] if row["waits"] == REACH else whom, besides,
                    row.get("is_full", False), row.get("is_direct", False),
                    None if reach is None else list(dict.fromkeys(map(key_of, reach))), row.get("is_all", False))


def is_named(thread: JvmThread) -> bool:
    """Whether a thread is, or may be, in Object.wait() at what others come to by its name: a text or a class."""
    if not is_in(WAITS, stack_of(thread)[:1]):
        return False
    classes = [name for name in thread.monitors[:1] if name] or list(filter(None, thread.monitors))
    return not classes or any(map(NAMED.fullmatch, classes))


def waits_for_class(thread: JvmThread, locks: Locks) -> bool:
    """Whether a thread waits until another one has initialised a class."""
    return locks.class_of(thread) != "" or thread.state == "RUNNABLE" and "in Object.wait" in thread.status


def is_between(heap: JvmHeap, dumps: List[JvmDump]) -> bool:
    """Whether a heap was dumped after the first of some states and before the next."""
    times = [dump.time for dump in dumps if dump.time]
    return len(times) == len(dumps) > 1 and times[0][1] <= heap.time <= times[1][0]


class HeapView:
    """What a heap says of the threads of one state. `there` has these by their labels."""

    def __init__(self, heap: Optional[JvmHeap], threads: List[JvmThread], names: Dict[str, str], locks: Locks) -> None:
        self.heap, self.names, self.locks = heap, names, locks
        self.threads = {thread.key: thread for thread in threads}
        labels = [(label_of(thread), thread) for thread in threads] if heap else []
        self.there: Dict[Label, JvmThread] = {label: thread for label, thread in labels if label}
        self.is_searched = any(is_in(FINDS_THREADS, stack_of(thread)) for thread in threads)
        self.calling = [label_of(thread) for thread in threads if heap and waits_for_class(thread, locks)]

    def wait_of(self, thread: JvmThread) -> Optional[HeapWait]:
        """Returns what the heap shows of a thread, if that stood at the same place."""
        wait = self.heap.row_of(thread) if self.heap else None
        return wait if wait and wait.frames == frames_of(thread)[:len(wait.frames)] else None

    def is_elsewhere(self, thread: JvmThread) -> bool:
        """Whether the heap shows a thread at another place, so that it has moved, or one of the texts isn't whole."""
        return self.heap is not None and self.heap.row_of(thread) is not None and self.wait_of(thread) is None

    def names_of(self, labels: List[Label]) -> List[str]:
        return [self.names[self.there[label].key] for label in labels if label in self.there]

    def reach_of(self, thread: JvmThread) -> Optional[Reached]:
        """Returns who has a reference to what a thread waits at, or to the thread, or None if anybody may: also where
        what others come to by a name is waited at, as an interned text, or where somebody looks for threads without a
        reference. One that calls what waits for a class may have one: no heap dump has the arguments of a call that
        hasn't begun."""
        wait = self.wait_of(thread) if not self.is_searched else None
        is_known = wait is not None and (wait.kind == JOIN or not is_named(thread)) and None not in self.calling
        if wait is None or wait.reach is None or wait.is_all or not is_known:
            return None
        labels = dict.fromkeys([*wait.reach, *filter(None, self.calling)])
        reached = [self.there.get(label) for label in labels if label != label_of(thread)]
        others = [other for other in reached if other is not None]
        inner = [self.names[other.key] for other in others if is_of_jvm(other)]
        names = [self.names[other.key] for other in others if not is_of_jvm(other)]
        is_whole = len(others) == len(reached)
        return Reached([*names, self.names[thread.key]], inner, not others) if is_whole else None

    def inner_keys(self) -> Set[str]:
        """Returns the keys of the JVM's own threads that have a reference to what somebody waits at."""
        rows = self.heap.waits.values() if self.heap else ()
        labels = {label for wait in rows for label in wait.reach or ()}.union(filter(None, self.calling))
        return {self.there[label].key for label in labels if label in self.there and is_of_jvm(self.there[label])}

    def stands(self, thread: JvmThread) -> bool:
        """Whether a thread was at one wait all the time between the two states. One that is blocked at a monitor uses
        some processor time: it was, if the owner was, or is blocked itself by a thread that it blocks."""
        seen = set()
        while not thread.has_stood and thread.key not in seen:
            seen.add(thread.key)
            wanted = self.locks.wanted.get(thread.key) if thread.same_as is not None else None
            owners = self.locks.monitor_holders(wanted, thread.key) if wanted else []
            if len(owners) != 1:
                return False
            thread = self.threads[owners[0]]
        return True

    def standing(self, labels: List[Label]) -> List[Label]:
        """Returns those of some threads who still stand where they did when the heap was dumped."""
        return [label for label in labels if label in self.there and self.stands(self.there[label])]
