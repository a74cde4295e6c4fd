"""What stands in a state of one value: numbers, of an object its type and place, and what it knows of itself."""
from __future__ import annotations

import contextlib
import fcntl
import queue
import re
import sys
import termios
import threading

from .objects import callback_name, callbacks_of, cells_of, futures_in, is_a, is_semaphore

TYPE_CHECKING = False
if TYPE_CHECKING:
    from typing import Iterable, List, Optional, Set, Tuple
    from .objects import Json, Row, Thing
    Maps = List[Tuple[int, int, str]]  # where the kernel has semaphores in memory, and what tells each from all others

THERE: Set[int] = set()  # the threads that ran Python code as this slice of a state began
WORDS = ("ALL_COMPLETED", "FIRST_COMPLETED", "FIRST_EXCEPTION")
PYTHON_RLOCK = getattr(threading, "_PyRLock")
RLOCKS = (type(threading.RLock()), PYTHON_RLOCK)
LOCK = type(threading.Lock())
SIZE_OF_PIPE = getattr(fcntl, "F_GETPIPE_SZ", 1032)  # (Python has it from 3.10 on, and Linux since 2.6)
NO_ROOM = 8192  # bytes of a pipe in which the next page of what is written may find no place


def owner_of(lock: Thing) -> Optional[int]:
    """The thread that has a lock that knows it, 0 if none has, None if that can't be seen."""
    if type(lock) is PYTHON_RLOCK:
        return lock._owner or 0
    if type(lock) in RLOCKS:
        kind: Thing = type(lock)
        match = re.search(r" owner=(\d+) ", kind.__repr__(lock))
        return int(match[1]) if match else None
    return getattr(lock, "owner", None) or 0


def is_full(pipe: Thing) -> bool:
    """Whether a pipe that a child writes to has no room, as far as its other end shows it."""
    with contextlib.suppress(AttributeError, OSError, ValueError):
        number, has = pipe.fileno(), bytearray(4)
        fcntl.ioctl(number, termios.FIONREAD, has)
        return int.from_bytes(has, sys.byteorder) >= fcntl.fcntl(number, SIZE_OF_PIPE) - NO_ROOM
    return False


def has_gone(lock: Thing) -> bool:
    """Whether a lock that knows its owner has one that is no thread which runs Python code now. This thread may have
    the number of one that has ended."""
    owner = owner_of(lock)
    if not owner or owner in THERE:
        return False
    idents = sys._current_frames().keys() - {threading.get_ident()}
    return owner not in idents and owner_of(lock) == owner


def describe_future(value: Thing, row: Row) -> Optional[Row]:
    if is_a(value, "concurrent.futures._base", "Future"):
        return {**row, "type": "Future", "state": value._state}
    if is_a(value, "asyncio.tasks", "Task"):
        return {**row, "type": "Task", "name": value.get_name(), "done": value.done()}
    if is_a(value, "asyncio.tasks", "_GatheringFuture"):
        left = [child for child in value._children if not child.done()]
        return {**row, "type": "gather", "all": [describe(child) for child in left], **raises(left)}
    if is_a(value, "asyncio.futures", "Future"):
        return {**row, "type": "asyncio.Future", "done": value.done(), **links_of(value)}
    return None


def describe_known(value: Thing, row: Row) -> Optional[Row]:
    """What is seen of an object of the standard library, or None."""
    if isinstance(value, threading.Thread):
        calls = {"calls": callback_name(value.function)} if isinstance(value, threading.Timer) else {}
        return {**row, "type": "Thread", "ident": value.ident, "name": value.name, **calls}
    if type(value) in RLOCKS or type(value).__name__ == "_ModuleLock":
        return {**row, "owner": owner_of(value), "gone": has_gone(value)}
    if type(value) is queue.Queue or issubclass(type(value), queue.Queue):
        return {**row, "size": len(getattr(value, "queue", ())), "most": value.maxsize}
    if type(value) is queue.SimpleQueue:
        return {**row, "futures": futures_in(value)}
    if is_a(value, "concurrent.futures.thread", "_WorkItem"):
        return {**row, "future": hex(id(value.future))}
    if is_a(value, "multiprocessing.process", "BaseProcess"):
        return {**row, "type": "Process", "pid": getattr(value._popen, "pid", None), "name": value.name}
    if is_a(value, "subprocess", "Popen"):
        return {**row, "type": "Popen", "pid": value.pid, "full": any(map(is_full, (value.stdout, value.stderr)))}
    if is_a(value, "socket", "socket"):
        return {**row, "limit": value.gettimeout()}
    if is_a(value, "threading", "Condition"):
        return {**row, "lock": describe(value._lock)}
    if type(value) is LOCK or is_a(value, "asyncio.locks", "Lock"):
        return {**row, "locked": value.locked()}
    if is_semaphore(value):
        return {**row, "left": value._value, "most": getattr(value, "_bound_value", None)}
    if is_a(value, "asyncio.taskgroups", "TaskGroup"):
        return {**row, "all": [describe(task) for task in value._tasks if not task.done()]}
    if is_a(value, "multiprocessing.queues", "Queue"):
        return {**row, "queue": semaphore_of(value._sem, maps_of_semaphores())}
    if is_a(value, "multiprocessing.synchronize", "SemLock"):
        return {**row, "semaphore": semaphore_of(value, maps_of_semaphores()), "left": value._semlock._get_value()}
    return None


def describe(value: Thing) -> Json:
    """What a state has of a value: numbers as they are, of an object its type and place, and what it knows."""
    if value is None or isinstance(value, (bool, int, float)):
        return value
    if type(value) is str:
        return value if value in WORDS else {"type": "str"}
    if type(value) in (set, list, tuple, frozenset, dict):
        return [describe(part) for part in list(value)]
    row = {"type": type(value).__name__, "id": hex(id(value))}
    return describe_future(value, row) or describe_known(value, row) or row


def raises(children: Iterable[Thing]) -> Row:
    """Whether a gather goes on once one of these fails."""
    for child in children:
        for callback in callbacks_of(child):
            cells = cells_of(callback, "gather.<locals>._done_callback")
            if "return_exceptions" in cells:
                return {"raises": not cells["return_exceptions"]}
    return {}


def links_of(future: Thing) -> Row:
    """What an asyncio future stands for: the work of an executor, or what shield() keeps."""
    for callback in callbacks_of(future):
        outside = cells_of(callback, "_chain_future.<locals>._call_check_cancel").get("source")
        if outside is not None:
            return {"source": describe(outside)}
        inner = cells_of(callback, "shield.<locals>._outer_done_callback").get("inner")
        if inner is not None:
            return {"inner": describe(inner)}
    return {}


def maps_of_semaphores() -> Maps:
    """Where the kernel has semaphores in memory: for each start and end what tells it from those of all processes."""
    with contextlib.suppress(OSError), open("/proc/self/maps") as file:
        rows = [line.split() for line in file if "/sem." in line]
        places = [(row[0].partition("-"), f"{row[3]} {row[4]}") for row in rows]
        return [(int(start, 16), int(end, 16), name) for (start, _, end), name in places]
    return []


def semaphore_of(lock: Thing, maps: Maps) -> Optional[str]:
    """What tells a lock of multiprocessing from all others of the machine, or None."""
    handle = lock._semlock.handle
    return next((name for start, end, name in maps if start <= handle < end), None)
