"""Who waits for what in a heap dump, as rows."""
from __future__ import annotations

import re
from collections import defaultdict
from typing import Dict, Iterator, List, NamedTuple, Optional, Set

from .futures import MOST_PARTS, Futures
from .hprof import (CONDITION, ENTRY, FUTURE, GROUP, HOLDER, HOLDS, JDK, LONG_CONDITION, MUTEX, PART, POOL, SYNC, TASK,
                    THREAD, VIRTUAL, HeapDump)
from .paths import Paths
from .pools import TIMER, Pools
from .threads import HeapThread, Label, Living, Row

MOST_LISTED = 250_000  # threads in all lists: with more it isn't printed who reaches what
SHOWN = 12  # frames of a row
JOIN, AWAIT, GET = ("java.lang.Thread.join", "java.util.concurrent.FutureTask.awaitDone",
                    "java.util.concurrent.CompletableFuture.waitingGet")
POOL_ENDS = "java.util.concurrent.ThreadPoolExecutor.awaitTermination"
SCHEDULES = "java.util.concurrent.ScheduledThreadPoolExecutor$DelayedWorkQueue.take"
LATCH = "java.util.concurrent.CountDownLatch.await"
LOCKS = "java.util.concurrent.locks.ReentrantLock.lock"
WRITES, READS = (f"java.util.concurrent.locks.ReentrantReadWriteLock${it}Lock.lock" for it in ("Write", "Read"))
INVOKES, IN_POOL = "java.util.concurrent.ForkJoinTask.invoke", "java.util.concurrent.ForkJoinWorkerThread.run"
STREAMS, OF_PARTS = "java/util/stream/", re.compile(r"java\.util\.stream\..*Task\.(?:compute|doCompute)")
NATIVE = -3  # the line of a native method, of whose arguments no heap dump has all
# Who lets a thread sleep, and who waits by that.
PARKS_A_WHILE = re.compile(r"java\.util\.concurrent\.locks\.LockSupport\.park(?:Nanos|Until)")
PARKS = re.compile(r"(?:jdk\.internal|sun)\.misc\.Unsafe\.park|java\.util\.concurrent\.locks\.LockSupport\.park")
WAITS, GETS_TASK, CLEANS = ("java.lang.Object.wait", "java.lang.Object.wait0"), \
    "java.util.concurrent.ThreadPoolExecutor.getTask", "java.lang.ref."
TAKES = re.compile(r"java\.util\.concurrent\.(?!Scheduled)\w+(?:\$\w+)?\.take\w*")
# While these run for a call that has not begun, no frame has the arguments of that.
BEFORE_CALLS = re.compile(r".*\.(?:<clinit>|loadClass)|java\.lang\.invoke\.MethodHandleNatives\.link\w+")


class Reaching(NamedTuple):
    """Who may end a wait: `threads` are these, or None if that may be anybody, and `is_all` says that all threads may.
    """

    threads: Optional[List[Label]]
    is_all: bool


class HeapWaits:
    """Who waits for what in a heap dump, as rows. `optimised` are the methods in which the JVM may have taken objects
    apart, if that is known: of what a thread of the job has by one of these alone, no heap dump says that."""

    def __init__(self, heap: HeapDump, optimised: Optional[Set[str]] = None) -> None:
        self.heap, self.found, self.optimised = heap, heap.found, optimised
        self.living = Living(heap)
        self.threads = self.living.threads
        self.pools = Pools(heap, self.living)
        self.futures = Futures(heap, self.living, self.pools)
        self.paths = Paths(heap, self.threads)
        self.at = {it.identity: self.object_of(it) for it in self.threads.values()}
        self.hiding = {it.identity for it in self.threads.values() if self.is_hiding(it)}
        self.listed, self.is_known = 0, False
        self.parts = {it for it in self.found[PART] if heap.name_of(heap.kinds[it]).startswith(STREAMS)}

    def is_hiding(self, thread: HeapThread) -> bool:
        """Whether a thread may have objects that no heap dump shows: by an optimised method, by one that loads a class,
        or by a native one of the job's. A worker of a pool that is idle has none, nor one of the JDK's own."""
        if thread.top(GETS_TASK) or all(JDK.match(name) for name, _ in thread.frames):
            return False
        return any(name in (self.optimised or ()) or BEFORE_CALLS.fullmatch(name)
                   or line == NATIVE and not JDK.match(name) for name, line in thread.frames)

    def rows(self) -> Iterator[Row]:
        waiting = {it for it, at in self.at.items() if at or self.threads[it].top(JOIN)}
        parts = self.parts if len(self.parts) <= MOST_PARTS else ()
        self.is_known = waiting != set() and self.optimised is not None and self.paths.find(
            waiting.union(self.at.values(), map(self.lock_of, self.at.values()), parts) - {0})
        for thread in self.threads.values():
            row = self.row_of(thread)
            is_meant = thread.identity in waiting and self.at[thread.identity] not in self.found[THREAD]
            reaching = self.reaching(thread) if self.is_known and is_meant else Reaching(None, False)
            row = row or (self.row_by_paths(thread, reaching) if self.is_known else {})
            if row:
                frames = [f"{name}:{line}" for name, line in thread.frames[:SHOWN]]
                is_all = reaching.threads is not None and reaching.is_all
                yield {"thread": thread.label, "frames": frames, "besides": [], "is_full": False, "is_direct": False,
                       **row, "reach": [] if is_all else reaching.threads, "is_all": is_all}

    def row_by_paths(self, thread: HeapThread, reaching: Reaching) -> Row:
        """Returns what a thread waits for of which it is known who reaches it alone, or that the end of the JVM has it.
        """
        at = self.at[thread.identity]
        if reaching.threads is not None and at and not thread.top(GETS_TASK):
            return {"waits": "reach", "for": []}
        is_for_hook = reaching.threads is None and thread.top(LATCH) and self.is_for_hook(at)
        return {"waits": "hook", "for": []} if is_for_hook else {}

    def object_of(self, thread: HeapThread) -> int:
        """Returns by which object others end the wait of a thread without a limit: one of the JDK's at which it is
        parked, or one on which it is in Object.wait(). Else it returns 0."""
        names = [name for name, _ in thread.frames[:SHOWN]]
        parker = next((name for name in names if not PARKS.fullmatch(name)), "")
        if any(name == JOIN or name.startswith(CLEANS) for name in names) or PARKS_A_WHILE.fullmatch(parker):
            return 0
        if names[0:1] != [parker] and parker.startswith("java.util.concurrent."):
            return thread.blocker
        depths = {at for at, name in enumerate(names) if name in WAITS} if parker in WAITS else set()
        found = {identity for depth, identity in thread.locals if depth in depths}
        return found.pop() if len(found) == 1 else 0

    def reaching(self, thread: HeapThread) -> Reaching:
        """Returns who may end the wait of a thread, by what it waits at or by an interrupt. In the place of a worker of
        a pool that is idle stands who may give it something to do. (The end of a thread ends a wait at it.)"""
        found = self.hiding - {thread.identity}
        todo, seen, is_all = [thread], {thread.identity}, False
        for one in todo:  # (which grows meanwhile)
            at = self.at[one.identity]
            things = [it for it in (at, self.lock_of(at), one.identity) if it]
            some = [self.paths.threads_to(it) for it in things]
            is_all = is_all or not self.paths.by_statics.isdisjoint(things)
            if None in some or self.listed > MOST_LISTED or at in self.heap.classes or self.is_in_group(one):
                return Reaching(None, is_all)
            new = {it for each in some for it in each or ()} - seen
            resting = {it for it in new if self.is_at_rest(self.threads[it])}
            seen |= new
            found |= new - resting
            todo += [self.threads[it] for it in resting]
        self.listed += len(found) if not is_all else 0
        return Reaching(self.living.labels(found), is_all)

    def lock_of(self, at: int) -> int:
        """Returns the lock of a condition, or 0: one that was signalled still stands there until it gets the lock."""
        lock: int = self.found[CONDITION].get(at, self.found[LONG_CONDITION].get(at, (0,)))[0] or 0
        return lock

    def is_in_group(self, thread: HeapThread) -> bool:
        """Whether a thread is in a group of threads that the job has made, by which it may be interrupted: all but the
        first group, and those beside it, stand below that."""
        holder, group = self.found[THREAD][thread.identity][3:]
        groups = self.found[GROUP]
        group, = self.found[HOLDER].get(holder, (group,))
        above, = groups.get(group, (-1,))
        return above != 0 and groups.get(above, (-1,)) != (0,)

    def is_at_rest(self, thread: HeapThread) -> bool:
        """Whether a thread of a pool waits without a limit until somebody has a task for it."""
        names = [name for name, _ in thread.frames[:SHOWN]]
        at = names.index(GETS_TASK) if GETS_TASK in names else 0
        return at > 0 and TAKES.fullmatch(names[at - 1]) is not None and self.at[thread.identity] != 0

    def row_of(self, thread: HeapThread) -> Row:
        """Returns what a thread waits for, or nothing if the heap doesn't show it for certain."""
        if thread.blocker in self.found[TASK] and thread.top(AWAIT):
            return self.task(thread)
        if self.is_lost(thread):
            return {"waits": "lost", "for": []}
        if thread.blocker in self.found[SYNC] and thread.top(WRITES):
            return self.readers(thread.blocker)
        if thread.blocker in self.parts and thread.top(INVOKES):
            return self.stream(thread)
        if thread.top(JOIN):
            joined = thread.objects_in(JOIN, self.found[THREAD])
            others = [self.threads[it].label for it in joined if it in self.threads]
            return {"waits": "join", "for": others} if len(joined) == len(others) == 1 else {}
        if thread.top(POOL_ENDS):
            pools = thread.objects_in(POOL_ENDS, self.found[POOL])
            return {"waits": "pool", "for": self.pools.workers(*pools)} if len(pools) == 1 else {}
        if thread.top(TIMER) or thread.top(SCHEDULES):
            return {"waits": "timer", "for": []} if self.pools.is_periodic(thread) else {}
        if thread.top(GET):
            futures = thread.objects_in(GET, self.found[FUTURE])
            return self.futures.future(thread, next(iter(futures))) if len(futures) == 1 else {}
        return {}

    def stream(self, thread: HeapThread) -> Row:
        """Returns who runs parts of a parallel stream at whose end a thread of no such pool waits, if no part waits for
        somebody to run it. The part that ends last ends the stream, and one that fails too. A part that is queued is in
        an array, one that is done has nothing left, and one that only an optimised method has may be missing."""
        tree = [it for it in self.parts if thread.blocker in self.parts_above(it)]
        holders = {it: [other for other in self.living.having[it] if other is not thread] for it in tree}
        is_queued = any(not self.paths.into.get(it, {0}) <= self.found[PART].keys() for it in tree)
        is_run = tree != [] and all(holders[it] for it in self.left_of(tree))
        is_inside = any(name == IN_POOL for name, _ in thread.frames)
        if is_queued or not is_run or is_inside or self.hides_parts():
            return {}
        return {"waits": "stream", "for": self.living.labels({it.identity for some in holders.values() for it in some})}

    def left_of(self, tree: List[int]) -> List[int]:
        """Returns the parts of a stream that aren't done: one has something left, and no part of its own."""
        parts = self.found[PART]
        above = {parts[below][0] for below in tree}
        return [it for it in tree if parts[it][1] != 0 and it not in above]

    def hides_parts(self) -> bool:
        """Whether parts of streams may be missing."""
        return not self.is_known or PART in self.heap.over or any(map(OF_PARTS.fullmatch, self.optimised or ()))

    def parts_above(self, part: int) -> Set[int]:
        """Returns the parts of which one is a part."""
        found: Set[int] = set()
        while part in self.found[PART] and part not in found:
            found.add(part)
            part = self.found[PART][part][0]
        return found

    def task(self, thread: HeapThread) -> Row:
        """Returns who runs a task, or the threads of the pool in whose queue it stands."""
        state, runner = self.found[TASK][thread.blocker][:2]
        if runner in self.threads:
            but = [thread, self.threads[runner]]
            return {"waits": "task", "for": [self.threads[runner].label],
                    "besides": self.living.besides(thread.blocker, but)}
        row = {} if runner or state else self.pools.in_queue(thread.blocker)
        return {"waits": "queued", **row, "besides": self.living.besides(thread.blocker, [thread])} if row else {}

    def is_for_hook(self, at: int) -> bool:
        """Whether the work of a thread that is started once the JVM ends has a latch itself, so that it opens it."""
        into = self.paths.into
        works = {work for latch in into.get(at, ()) for work in into[latch]}
        hooks = works.union(*map(into.__getitem__, works)) & self.found[THREAD].keys()
        return any(into[table] & self.heap.hooks for hook in hooks for table in into[hook])

    def is_lost(self, thread: HeapThread) -> bool:
        """Whether one that had a lock, or wrote or read under it, has ended with it, as that one alone gives it back.
        Who has it, or writes, keeps out all others, and who reads those that want to write."""
        taken, owner = self.found[MUTEX].get(thread.blocker, (0, 0))
        if taken or thread.blocker not in self.found[SYNC]:
            return bool(taken) and self.has_ended(owner) and thread.top(LOCKS)
        state, first, number, _, owner = self.found[SYNC][thread.blocker]
        is_written = bool(state & 0xFFFF) and self.has_ended(owner) and (thread.top(WRITES) or thread.top(READS))
        return is_written or thread.top(WRITES) and state >> 16 > 0 and number > 0 and self.has_ended(first)

    def has_ended(self, thing: int) -> bool:
        """Whether an object is a thread that no longer runs. A virtual one is none that the heap shows to run."""
        if thing not in self.found[THREAD]:
            return False
        names = map(self.heap.name_of, self.heap.lineage(self.heap.kinds[thing]))
        return self.found[THREAD][thing][1] == 0 and VIRTUAL not in names

    def readers(self, lock: int) -> Row:
        """Returns who reads under a lock, if all of its readers are found: their counts make the lock's own."""
        state, first, number, holds, _ = self.found[SYNC][lock]
        if not state or {ENTRY, HOLDS} & self.heap.over:
            return {}
        counts: Dict[int, int] = defaultdict(int)
        if first in self.threads:
            counts[self.threads[first].label[0]] += number
        for key, value in self.found[ENTRY].values():
            count, owner = self.found[HOLDS].get(value, (0, 0)) if key == holds else (0, 0)
            counts[owner] += count
        labels = {it.label[0]: it.label for it in self.threads.values()}
        readers = [owner for owner, count in counts.items() if count > 0]
        is_whole = sum(counts.values()) == state >> 16 and all(it in labels for it in readers)
        is_read = readers and is_whole and not state & 0xFFFF
        return {"waits": "readers", "for": [labels[it] for it in readers]} if is_read else {}
