"""What an event loop of asyncio calls by itself: for timers, sockets, pipes and signals."""
from __future__ import annotations

import contextlib
import functools
import sys

from .objects import callback_name, callbacks_of, is_a, is_work

TYPE_CHECKING = False
if TYPE_CHECKING:
    from typing import List, Optional, Set, Tuple
    from .objects import Stack, Thing


def running_loop(frames: Stack) -> Thing:
    """The event loop that a thread's frames run, or None."""
    for frame, _ in frames:
        if frame.f_code.co_name == "run_forever" and frame.f_globals.get("__name__") == "asyncio.base_events":
            return frame.f_locals.get("self")
    return None


def current_of(loop: Thing) -> Optional[str]:
    """The task that has a loop's thread now, or None."""
    task = sys.modules["asyncio"].current_task(loop) if "asyncio" in sys.modules else None
    return hex(id(task)) if task is not None else None


def timers_of(loop: Thing) -> List[Thing]:
    return [timer for timer in list(loop._scheduled) if not timer.cancelled()]


def readers_of(loop: Thing) -> List[Thing]:
    """What a loop calls for sockets and pipes."""
    handles = [handle for key in list((loop._selector.get_map() or {}).values()) for handle in key.data or ()]
    return [handle for handle in handles if handle is not None]


def signals_of(loop: Thing) -> List[Thing]:
    """What a loop calls for signals."""
    return list(loop._signal_handlers.values())


def handles_of(loop: Thing) -> List[Thing]:
    """All that a loop calls by itself, as far as it shows it."""
    handles = []
    for handles_for in (timers_of, readers_of, signals_of):
        with contextlib.suppress(AttributeError):  # (a loop that isn't asyncio's own)
            handles += handles_for(loop)
    return handles


def handles_by_kind(loop: Thing) -> List[Tuple[str, Thing]]:
    """The same of a loop of asyncio, with what each is for."""
    kinds = ("timer", timers_of), ("reader", readers_of), ("signal", signals_of)
    return [(kind, handle) for kind, handles_for in kinds for handle in handles_for(loop)]


def protocol_of(handle: Thing) -> Thing:
    """The protocol whose transport a loop calls for a handle, or None."""
    return getattr(getattr(handle._callback, "__self__", None), "_protocol", None)


def factory_of(handle: Thing) -> Thing:
    """What makes the protocols of new connections, if a handle accepts some, or None."""
    is_one = getattr(handle._callback, "__name__", "") == "_accept_connection" and handle._args
    return handle._args[0] if is_one else None


def foreign_name(callback: Thing, is_timer: bool) -> str:
    """The name of what a loop calls and that isn't known to cancel nobody: a function of the program, or one of asyncio
    that the program has put there. Of a timer that wakes or cancels a task, or ends a future that it awaits, the row of
    that says so."""
    name = callback_name(callback)
    on = getattr(callback, "__self__", None)
    if name or callback is None or is_timer and is_work(on) and not ends_more(on):
        return name
    if is_work(on):
        return f"{type(on).__name__}.{callback.__name__}"
    if type(callback) is functools.partial:
        return "functools.partial"
    own = getattr(callback, "__qualname__", "?")
    return "" if own.split(".")[-1].startswith(("_", "<")) else f"{type(on).__module__}.{own}"


def ends_more(future: Thing) -> bool:
    """Whether others may wait for a future of asyncio than tasks that await it by itself, or it cancels others."""
    is_task = is_a(future, "asyncio.tasks", "Task")
    called = [] if is_task else callbacks_of(future)
    return is_a(future, "asyncio.tasks", "_GatheringFuture") or is_a(future, "asyncio.futures", "Future") and any(
        not is_a(getattr(callback, "__self__", None), "asyncio.tasks", "Task") for callback in called)


def timed(loop: Thing) -> Set[int]:
    """The ids of what the timers of a loop will wake or cancel: futures, tasks, limits of asyncio.timeout."""
    ids: Set[int] = set()
    for timer in list(getattr(loop, "_scheduled", ())):
        if not timer.cancelled() and not callback_name(timer._callback):
            on = getattr(timer._callback, "__self__", None)
            ids.update(id(value) for value in (*(timer._args or ()), on, getattr(on, "_task", None)))
    return ids
