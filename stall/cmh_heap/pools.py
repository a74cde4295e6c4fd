"""The pools of threads in a heap dump: who works for one, and what stands in its queue."""
from __future__ import annotations

from typing import List, Set

from .hprof import NODE, POOL, QUEUE, TASK, TIMED, WORKER, HeapDump
from .threads import HeapThread, Label, Living, Row

TIMER = "java.util.TimerThread.mainLoop"
UNBOUNDED, SCHEDULED = 2 ** 31 - 1, 1


class Pools:
    """The pools of a heap dump, and its timers."""

    def __init__(self, heap: HeapDump, living: Living) -> None:
        self.heap, self.found, self.living = heap, heap.found, living

    def in_queue(self, work: int) -> Row:
        """Returns the threads of the pool in whose queue some work stands, and whether it has all that it may have. A
        timer's work is done by that too."""
        pools = [] if {QUEUE, NODE, WORKER} & self.heap.over else [
            pool for pool in self.found[POOL] if work in self.queued(pool)]
        timer = self.found[TASK][work][3] if work in self.found[TASK] else 0
        if len(pools) != 1 or timer in self.found[POOL]:
            return {}
        queue, least, most = self.found[POOL][pools[0]]
        workers = self.workers(pools[0])
        is_full = len(workers) >= (least if self.found[QUEUE][queue][1] == UNBOUNDED else most)
        return {"for": workers, "is_full": is_full}

    def workers(self, pool: int) -> List[Label]:
        return [self.living.threads[it].label for its, it in self.found[WORKER].values()
                if its == pool and it in self.living.threads]

    def is_periodic(self, thread: HeapThread) -> bool:
        """Whether all that a thread has to do later it does again and again: the tasks of its pool, or of all timers.
        """
        periods = [self.found[TIMED if thread.top(TIMER) else TASK][it][1 if thread.top(TIMER) else 2]
                   for it in self.to_do(thread)]
        return periods != [] and all(periods)

    def to_do(self, thread: HeapThread) -> List[int]:
        """Returns what a thread has to do later: the tasks of its pool, or of all timers."""
        pools = self.pools_of(thread)
        if thread.top(TIMER):
            return [it for it, (state, _) in self.found[TIMED].items() if state == SCHEDULED]
        return [it for it, (state, _, _, pool) in self.found[TASK].items() if not state and pool in pools]

    def pools_of(self, thread: HeapThread) -> Set[int]:
        return {pool for pool, it in self.found[WORKER].values() if it == thread.identity}

    def queued(self, pool: int) -> Set[int]:
        """Returns the tasks in the queue of a pool, of the kind that fixed pools have."""
        head = self.found[QUEUE].get(self.found[POOL][pool][0], (0, 0))[0]
        tasks: Set[int] = set()
        seen: Set[int] = set()
        while head in self.found[NODE] and head not in seen:
            seen.add(head)
            task, head = self.found[NODE][head]
            tasks.add(task)
        return tasks
