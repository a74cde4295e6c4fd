"""The waits of threads and of asyncio's tasks, of event loops, and of what these will call.

All tasks of a loop need its thread. Where a task keeps it, as in a call that blocks, all others wait for that one too.
"""
from __future__ import annotations

import functools
import re
from dataclasses import replace
from typing import Any, Callable, Dict, List, Optional, Sequence, Tuple

from cmh_proc.calls import LIMITS, PRIVATE, has_limit

from ...core.model import Part, Sign, any_of, unseen, wakers
from .cancel import Cancellers
from .futures import all_waits, any_waits, by_future, by_futures, wait_of_frame
from .job import CANCEL, PythonJob
from .names import Standing, main_task
from .stack import KEPT, PythonFrame
from .rows import Caller, PythonRow
from .text import callers_of
from .waits import (PythonWait, blocked, by_block, by_child, by_end, by_join, by_limit, by_lock, by_object,
                    by_semaphore, by_sleep, by_step, by_takers, by_work, goes, idle_wait, is_outside, limited,
                    outside_wait, resting, unsure)

EVENTS = "waits for events"  # how a loop is idle
COMING = {"server": "waits for a client", "signal": "waits for a signal", "timer": "waits for its time",
          "reader": "waits for data", "connection": "waits for data"}
LIMITED_CALLS = {"asyncio.tasks.sleep", "asyncio.tasks.wait_for"}
# Frames of a thread that runs an event loop, also of one that isn't asyncio's own.
RUN = re.compile(r"asyncio\.(base_events\.(\w+\.)?(run_forever|run_until_complete|_run_once)|runners\.(\w+\.)?run"
                 r"|events\.(\w+\.)?_run)$")
STEP = re.compile(r"asyncio\.(events\.Handle\._run$|runners\.)")
Rule = Callable[[Standing], Optional[PythonWait]]
# In their order, each with how the name of a frame begins where it may apply, if it doesn't look at each place.
RULES: Sequence[Tuple[Rule, Tuple[str, ...]]] = (
    (by_work, ()), (by_sleep, ()), (by_limit, ()), (by_step, ()), (by_lock, ()),
    (by_semaphore, ("threading.Semaphore.",)), (by_join, ("threading.Thread.",)), (by_end, ("threading._shutdown",)),
    (by_child, ("multiprocessing.process.", "subprocess.Popen.")), (by_future, ("concurrent.futures._base.",)),
    (by_futures, ("concurrent.futures._base.",)))


class TaskWaits:
    """The waits of one look at an OS process."""

    def __init__(self, job: PythonJob) -> None:
        self.job, self.look = job, job.look
        self.cancellers = Cancellers(job.look, job.names_of)
        self.of_loops: Dict[Any, Part] = {}

    # Threads

    def of_thread(self, standing: Standing) -> PythonWait:
        row, loop = standing.row, self.job.loop_of(standing.row)
        if self.look.by_faulthandler or self.look.shown_by:
            return self.by_place(standing)
        if loop is None:
            return idle_wait(standing) or thread_wait(standing)
        has_moved = row.more["moved"] is True
        if loop["current"] in self.look.tasks and not has_moved:
            return blocked(any_of(wakers("ends", self.job.names_of([loop["current"]]))))
        found = self.of_loop(standing)
        if found is None and row.stack.is_idle_loop and not has_moved:
            return resting(EVENTS, any_of(unseen("outside")))
        return found or thread_wait(standing)

    def of_loop(self, standing: Standing) -> Optional[PythonWait]:
        """A loop ends with what it runs for, if it runs for something, however often it stops for events. Meanwhile it
        serves the loop's other tasks."""
        task = self.look.tasks.get(main_task(standing.row))
        if task is None:
            return None
        parts = any_of(wakers("ends", self.job.names_of([task.key])))
        wait = resting(EVENTS, parts) if standing.stack.is_idle_loop else blocked(parts)
        return replace(wait, count=str(task.more["number"]))

    def by_place(self, standing: Standing) -> PythonWait:
        """The wait of a thread of which the state shows the place alone, and perhaps its call of the kernel."""
        if any(RUN.match(line.at) for line in standing.frames):
            return unsure(f"it runs an event loop, and {self.tool()} doesn't show the loop's tasks: cmh_state does")
        wait = by_work(standing) or (in_kernel(standing) or idle_wait(standing) or self.at_futex(standing)
                                     if self.look.shown_by else None)
        return wait or unsure(f"{self.tool()} shows neither limits nor what it waits for")

    @functools.cached_property
    def computes(self) -> bool:
        """Whether a thread of the process computes."""
        rows = self.look.threads.values()
        return any(row.more.get("state") == "R" or by_work(Standing(self.job, row, row.frames)) for row in rows)

    def at_futex(self, standing: Standing) -> Optional[PythonWait]:
        """The wait of a thread at a lock of its process alone, without a limit; else None. Where another one computes,
        it may have that lock or not, so nothing is known."""
        row = standing.row
        if self.computes:
            return None
        if row.more.get("call") != "futex" or len(row.more.get("args", ())) <= LIMITS["futex"] or is_limited(row):
            return None
        if not int(row.more["args"][1], 16) & PRIVATE:  # (as a semaphore of multiprocessing is)
            return None
        why = f"{self.tool()} doesn't show who has what it waits for"
        return PythonWait(Sign.BLOCKED, any_of(*standing.job.same_process(standing.name), unseen("unshown", why)), why)

    def tool(self) -> str:
        return self.look.shown_by or "faulthandler"

    # Tasks

    def frames_of_task(self, row: PythonRow) -> List[PythonFrame]:
        """The frames of the task that has its loop's thread are that thread's."""
        loop = self.job.loop_of(row) or {}
        thread = self.job.thread_of(loop)
        if loop.get("current") != row.key or thread is None:
            return row.frames
        ends = [number for number, line in enumerate(thread.frames) if STEP.match(line.at)]
        return thread.frames[:ends[0]] if ends else thread.frames

    def of_task(self, standing: Standing) -> PythonWait:
        row, loop = standing.row, self.job.loop_of(standing.row)
        thread = self.job.thread_of(loop)
        if loop is None or thread is None:
            return unsure("no thread runs its event loop")
        if loop["current"] == row.key:
            return thread_wait(Standing(self.job, thread, standing.frames))
        own = task_wait(row, standing)
        if not own.goes_on():
            own = own.beside(*self.cancellers.of(row.key), *self.job.cancellers(row.key), *self.of_callers(loop))
            own.because.append(CANCEL)
        holder = self.job.holder(loop)
        return own if holder is None else self.behind(holder, own, thread)

    def of_callers(self, loop: Dict[str, Any]) -> Part:
        """What a loop will call that may cancel its tasks, in one list for all of these."""
        key = loop["runs"]
        if key not in self.of_loops:
            names = self.job.names_of(name for name, caller in self.look.callers.items() if key in caller.cancelling)
            why = "its event loop will call what the state doesn't show"
            lost = (unseen("unshown", why),) if callers_of(loop) is None else ()
            self.of_loops[key] = (*((wakers("cancels", names),) if names else ()), *lost)
        return self.of_loops[key]

    def behind(self, holder: PythonRow, own: PythonWait, thread: PythonRow) -> PythonWait:
        """The wait of a task for the one that has its loop's thread, and for what it awaits itself."""
        frames = self.frames_of_task(holder) if holder is not thread else thread.frames
        if not own.goes_on() and thread_wait(Standing(self.job, thread, frames)).goes_on():
            return own
        needed = any_of(wakers("owns", self.job.names_of([holder.key])))
        return blocked([*needed, *own.parts], *(own.because if own.parts else ()))

    # What loops and signals bring

    def of_asked(self, row: Dict[str, Any]) -> PythonWait:
        """Returns the wait of a coroutine that the loop has been handed and hasn't begun."""
        loop = self.look.loops.get(row["loop"], {"current": None})
        holder = self.job.holder(loop)
        if holder is None and not self.look.is_whole and self.job.thread_of(loop) is None:
            return unsure("the state isn't whole, and doesn't show what the thread of its event loop does")
        return goes("it is about to begin") if holder is None else \
            blocked(any_of(wakers("owns", self.job.names_of([holder.key]))))

    def of_caller(self, key: str, caller: Caller) -> PythonWait:
        """Returns the wait of what loops will call: as long as each of their threads is kept, for those who have them.
        A timer goes on once its time has come."""
        found = [self.job.holder(self.look.loops[loop]) for loop in caller.loops]
        held = [row.key for row in found if row is not None]
        kind = key.partition(" ")[0]
        if len(held) == len(found):
            return blocked(any_of(wakers("owns", self.job.names_of(held))))
        return PythonWait(Sign.SLEEPS, reason=COMING[kind]) if kind == "timer" else \
            resting(COMING.get(kind, COMING["signal"]), any_of(unseen("outside")))

    def of_signal(self, key: str) -> PythonWait:
        coming = self.job.coming[key]
        return PythonWait(Sign.SLEEPS, reason=coming.why) if coming.is_timed else \
            resting(coming.why, any_of(unseen("outside")))


def thread_wait(standing: Standing) -> PythonWait:
    """Returns the wait of a thread, or of the task that has it: by the first rule that applies."""
    for rule in rules_at(standing.stack.names):
        wait = rule(standing)
        if wait is not None:
            return wait
    return by_object(standing)


@functools.lru_cache(maxsize=KEPT)
def rules_at(names: Tuple[str, ...]) -> List[Rule]:
    """Returns the rules that may apply where the frames have these names, in their order."""
    return [rule for rule, starts in RULES if not starts or any(name.startswith(starts) for name in names)]


def task_wait(row: PythonRow, standing: Standing) -> PythonWait:
    """What a task awaits, apart from its loop's thread."""
    awaited = row.more["waits"]
    if row.more["limit"] is True or is_limited_call(standing):
        return limited("it sleeps, or waits with a limit")
    if row.more["moved"] is True:
        return goes("it moved between two looks")
    if awaited is None or isinstance(awaited, dict) and awaited.get("done") is True:
        return goes("it is ready to continue")
    if not isinstance(awaited, dict) or awaited.get("type") != "asyncio.Future" or \
            awaited.get("inner") or awaited.get("source"):
        return all_waits(standing, [awaited])
    for line in standing.standard:
        wait = by_library(row, standing, line)
        if wait is not None:
            return wait
    if is_outside(standing) or awaited.get("id") in standing.look.arriving:
        return outside_wait(standing)
    return blocked(any_of(*standing.job.same_process(standing.name), *standing.job.cancellers(awaited.get("id"))))


def is_limited_call(standing: Standing) -> bool:
    """Whether a frame of asyncio sleeps, or waits with a limit: also where that is just over."""
    return not LIMITED_CALLS.isdisjoint(standing.stack.standard) and any(
        line.at in LIMITED_CALLS and line.has.get("timeout", 0) is not None for line in standing.standard)


def by_library(row: PythonRow, standing: Standing, line: PythonFrame) -> Optional[PythonWait]:
    """The wait that a frame of asyncio shows, or None."""
    if line.at == "asyncio.base_events.Server.serve_forever":
        return resting("it serves", any_of(unseen("outside")))
    if line.at.endswith("._wait_for_one") and isinstance(row.more.get("completes"), list):
        return any_waits(standing, row.more["completes"])
    if line.at == "asyncio.tasks._wait":
        return wait_of_frame(standing, line)
    if line.at in ("asyncio.locks.Lock.acquire", "asyncio.locks.Semaphore.acquire"):
        return by_permit(standing, line.has.get("self"))
    if line.at == "asyncio.taskgroups.TaskGroup.__aexit__":
        return all_waits(standing, line.has["self"]["all"])
    return None


def by_permit(standing: Standing, lock: Any) -> Optional[PythonWait]:
    """The wait for a lock of asyncio, or for a semaphore that knows how many permits it has."""
    if not isinstance(lock, dict):
        return None
    if "locked" in lock:
        return by_block(standing, lock)
    left, most = lock.get("left"), lock.get("most")
    if left != 0:
        return None
    return by_block(standing, lock, most) if type(most) is int and most > 0 else by_takers(standing, lock)


def in_kernel(standing: Standing) -> Optional[PythonWait]:
    """The wait of a thread whose call of the kernel ends by itself, or that is in none; else None."""
    row = standing.row
    if row.more.get("state") == "R":
        return goes("it computes")
    return limited("it waits with a limit") if "args" in row.more and is_limited(row) else None


def is_limited(row: PythonRow) -> bool:
    """Whether the call of the kernel that a thread is in ends by itself."""
    return has_limit(str(row.more.get("call")), [int(word, 16) for word in row.more.get("args", ())])
