"""A row for each task of asyncio, and for each event loop."""
from __future__ import annotations

import gc
import itertools
import sys
import types
import weakref

from .callers import arriving_in, callers_of, waking_timers
from .connections import sockets_of_task
from .ends import comes_back, inside_task, may_cancel, may_end
from .frames import chain_of, frame_row
from .handles import current_of, timed
from .objects import callbacks_of, cells_of, coroutines_of, guarded, is_a, is_standard
from .pace import PACE
from .values import describe

TYPE_CHECKING = False
if TYPE_CHECKING:
    from typing import Dict, Iterator, List, Optional, Set, Tuple
    from .objects import Row, Stack, Thing
    from .reach import Holders
    from .threads import Loops
    Places = Dict[int, List[Thing]]  # where each task stands, by its id

INHERITED: weakref.WeakSet[Thing] = weakref.WeakSet()  # tasks that were there before the fork
# What tells one object from a later one at its place: by place, a weak reference and a number.
NUMBERS: Dict[int, Tuple[weakref.ref[Thing], int]] = {}
NEXT = itertools.count(1)


def tasks_of_all() -> List[Thing]:
    """All tasks of all loops that this process has begun."""
    module = sys.modules.get("asyncio.tasks")
    if module is None:
        return []
    for _ in range(1000):
        try:
            tasks = []
            for name in ("_all_tasks", "_scheduled_tasks", "_eager_tasks"):
                tasks += list(getattr(module, name, ()))
            return list({id(task): task for task in tasks if task not in INHERITED}.values())
        except RuntimeError:  # the set has changed meanwhile
            continue
    return []


def number_of(value: object) -> int:
    """A number that no other object has, also none that is made later at the same place."""
    reference, number = NUMBERS.get(id(value), (None, 0))
    if reference is None or reference() is not value:
        number = next(NEXT)
        NUMBERS[id(value)] = weakref.ref(value), number
    return number


def forget_numbers() -> None:
    """Drops the numbers of objects that are gone."""
    for key in [key for key, (reference, _) in NUMBERS.items() if reference() is None]:
        del NUMBERS[key]


def completed_in(coroutine: Thing) -> Row:
    """What the as_completed of a chain of awaits has yet to see done, if it has no limit, or nothing."""
    chain = coroutines_of(coroutine)
    frames = [getattr(link, "cr_frame", None) for link in chain]
    inner = [frame for frame in frames if frame is not None and frame.f_code.co_name == "_wait_for_one"]
    own = inner[0].f_locals.get("self") if inner else None  # (from Python 3.13 on)
    if is_a(own, "asyncio.tasks", "_AsCompletedIterator") and own._timeout_handle is None:
        return {"completes": describe(own._todo)}
    queues = [frame.f_locals.get("done") for frame in inner]
    inside = [part for link in (chain if sys.version_info >= (3, 11) else frames) for part in gc.get_referents(link)]
    for part in inside if queues else ():
        is_one = type(part) is types.GeneratorType and part.gi_code.co_name == "as_completed"
        if is_one and part.gi_frame is not None and is_standard(part.gi_code.co_filename):
            here = part.gi_frame.f_locals
            has_none = here.get("timeout_handle", 0) is None
            if here.get("done") is queues[0] and has_none and type(here.get("todo")) is set:
                return {"completes": describe(here["todo"])}
    return {}


def parent_of(task: Thing) -> Row:
    """The task whose TaskGroup this one is of: if it fails, that one and all others of the group are cancelled."""
    for callback in callbacks_of(task):
        group: Thing = getattr(callback, "__self__", None)
        if is_a(group, "asyncio.taskgroups", "TaskGroup"):
            return {"parent": hex(id(group._parent_task))}
    return {}


def task_row(task: Thing, timers: Set[int], before: Places, holders: Holders) -> Row:
    """The row of a task. Others run meanwhile: one that has moved by its end goes on, whatever else its row has."""
    coroutine = task.get_coro()
    chain = chain_of(coroutine)
    place = place_of(task, chain)
    waiter = getattr(task, "_fut_waiter", None)
    callbacks = callbacks_of(task)
    sets = [cells_of(callback, "_chain_future.<locals>._call_set_state").get("destination") for callback in callbacks]
    row = {
        "task": hex(id(task)), "number": number_of(task), "name": task.get_name(), "loop": hex(id(task.get_loop())),
        "moved": id(task) in before and before[id(task)] != place, "wait": place[-1],
        "waits": describe(waiter), "limit": id(task) in timers or (waiter is not None and id(waiter) in timers),
        "sets": [hex(id(future)) for future in sets if future is not None], **parent_of(task),
        "holds": guarded(holders.held, chain), "ends": guarded(may_end, chain),
        "cancels": guarded(may_cancel, chain, callbacks),
        **guarded(inside_task, coroutine), **guarded(completed_in, coroutine), **guarded(sockets_of_task, chain),
        "again": guarded(comes_back, chain), "frames": [guarded(frame_row, *each) for each in chain]}
    return {**row, "moved": row["moved"] or place_of(task, chain_of(task.get_coro())) != place}


def task_places() -> Places:
    """Where each task stands, as it compares between two looks."""
    found = {}
    for task in tasks_of_all():
        found[id(task)] = place_of(task, chain_of(task.get_coro()))
        PACE.give_way()
    return found


def place_of(task: Thing, chain: Stack) -> List[Thing]:
    """The steps of a task's chain of awaits, and at last the number of what it waits for, or 0."""
    waiter = getattr(task, "_fut_waiter", None)
    return [*((id(frame), frame.f_lasti) for frame, _ in chain), number_of(waiter) if waiter is not None else 0]


def asked_of(loop: Thing) -> List[Row]:
    """Coroutines that another thread has handed to a loop and that it has not begun, with the futures that they set."""
    rows = []
    for handle in list(getattr(loop, "_ready", ())):
        cells = cells_of(getattr(handle, "_callback", None), "run_coroutine_threadsafe.<locals>.callback")
        if "future" in cells:
            name = getattr(getattr(cells.get("coro"), "cr_code", None), "co_name", "?")
            rows.append({"asked": hex(id(cells["future"])), "loop": hex(id(loop)), "name": name})
    return rows


def task_rows(loops: Loops, before: Places, holders: Holders) -> Iterator[Row]:
    """Yields a row for each task, and for each loop with the task that has its thread."""
    tasks = [task for task in tasks_of_all() if not task.done()]
    tasks.sort(key=lambda one: (len(one.get_name()), one.get_name()))
    all_loops: Loops = {id(task.get_loop()): (task.get_loop(), None, None) for task in tasks}
    all_loops.update(loops)
    timers = {key: timed(loop) for key, (loop, _, _) in all_loops.items()}
    for task in tasks:
        yield guarded(task_row, task, timers[id(task.get_loop())], before, holders)
        PACE.give_way()
    for loop, ident, current in all_loops.values():
        yield loop_row(loop, ident, current)
        yield from asked_of(loop)


def loop_row(loop: Thing, ident: Optional[int], current: Thing) -> Row:
    """The row of a loop, with the task that had its thread as that was looked at, if it was."""
    ident, current = (ident, current) if ident is not None else (getattr(loop, "_thread_id", None), current_of(loop))
    return {"runs": hex(id(loop)), "thread": ident, "current": current,
            "callers": guarded(callers_of, loop), "waking": guarded(waking_timers, loop),
            "arriving": guarded(arriving_in, loop)}
