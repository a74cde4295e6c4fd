"""The lines of a state of this program, of one moment."""
from __future__ import annotations

import contextlib
import json
import os
import signal
import sys
import threading
import time

from . import say
from .ends import CODES, LEFT, find_cancelling
from .objects import callback_name, guarded, is_a, plain_name
from .pace import PACE, forget
from .tasks import forget_numbers, task_places, task_rows
from .threads import Threads, counts_of_all, foreign_threads, has_foreign_timer, places
from .values import maps_of_semaphores, semaphore_of

TYPE_CHECKING = False
if TYPE_CHECKING:
    from typing import Dict, List, Optional, Tuple
    from .objects import Row, Thing
    from .tasks import Places as TaskPlaces

MARK = "cmh-state "
VERSION = 1
OTHER_TASKS = ("gevent", "eventlet", "trio", "curio", "twisted.internet")
LONGEST = 3600  # seconds that a variable may ask for


def space() -> str:
    """The machine and the container in which the numbers of processes and threads are these."""
    return f"{os.uname().nodename} {os.readlink('/proc/self/ns/pid')}"


def children_rows() -> List[Row]:
    """The processes that multiprocessing has started here, and that it has not seen end."""
    module = sys.modules.get("multiprocessing.process")
    children = list(getattr(module, "_children", ()))
    return [{"child": getattr(child._popen, "pid", None), "name": child.name,
             "ended": has_ended(getattr(child._popen, "pid", None))} for child in children]


def taken_rows() -> List[Row]:
    """The locks and semaphores of multiprocessing that this process has taken and not given back itself."""
    locks = [lock for lock in shared_ones("synchronize", "SemLock") if lock._semlock._count() > 0]
    maps = maps_of_semaphores() if locks else []
    return [{"semaphore": semaphore_of(lock, maps), "count": lock._semlock._count()} for lock in locks]


def queue_rows() -> List[Row]:
    """The queues of multiprocessing that this process has."""
    queues = shared_ones("queues", "Queue")
    maps = maps_of_semaphores() if queues else []
    return [{"queue": semaphore_of(queue._sem, maps)} for queue in queues]


def shared_ones(module: str, name: str) -> List[Thing]:
    """The objects of a class of multiprocessing that this process shares with others."""
    registry = getattr(sys.modules.get("multiprocessing.util"), "_afterfork_registry", {})
    return [value for value in list(registry.values()) if is_a(value, f"multiprocessing.{module}", name)]


def has_ended(pid: Optional[int]) -> Optional[bool]:
    """Whether a child is there only until somebody asks for its status."""
    try:
        with open(f"/proc/{pid}/stat") as file:
            return file.read().rpartition(")")[2].split()[0] in ("Z", "X")
    except (OSError, IndexError):
        return None


def alarm_row() -> Row:
    """The seconds to the next alarm of this process with who gets it, the handlers of signals that the program has, and
    threads that aren't Python's."""
    others = foreign_threads()
    return {"alarm": signal.getitimer(signal.ITIMER_REAL)[0], "on_alarm": handler_name(signal.SIGALRM),
            "handlers": handlers_by_signal(), "foreign_timer": has_foreign_timer(),
            "others": None if others is None else len(others)}


def handlers_by_signal() -> Dict[str, str]:
    """The names of the program's own functions that signals call, by the names of these. An event loop says by itself
    what it calls for signals."""
    handlers = {number: signal.getsignal(number) for number in signal.valid_signals()}
    return {getattr(number, "name", f"SIG{int(number)}"): plain_name(handler) for number, handler in handlers.items()
            if callable(handler) and handler is not signal.default_int_handler and callback_name(handler)}


def handler_name(number: int) -> Optional[str]:
    """The name of the function that a signal calls, 'default', or None if nothing comes of it."""
    handler = signal.getsignal(number)
    if handler in (signal.SIG_IGN, None):
        return None
    return getattr(handler, "__qualname__", "function") if handler is not signal.SIG_DFL else "default"


def process_name() -> str:
    module = sys.modules.get("multiprocessing.process")
    return str(module.current_process().name) if module else "MainProcess"


def line_of(row: Row) -> str:
    return f"{MARK}{json.dumps(row)}\n"


def second_look(threads: Threads, tasks_before: TaskPlaces) -> Tuple[List[str], Optional[int]]:
    """The lines of all rows of a state, and how many queues these have, if that could be seen. Rows are made into text
    one by one, as that holds nothing for the collector to look at."""
    own, holders = {"of": os.getpid()}, threads.holders
    lines = [line_of({**own, **row}) for row in threads.rows()]
    tasks = guarded(lambda: [line_of({**own, **row}) for row in task_rows(threads.loops, tasks_before, holders)])
    lines += tasks if isinstance(tasks, list) else [line_of({**own, **tasks})]
    parts = [guarded(look) for look in (children_rows, taken_rows, queue_rows)]
    lines += [line_of({**own, **row}) for part in parts for row in (part if isinstance(part, list) else [part])]
    return lines, len(parts[-1]) if isinstance(parts[-1], list) else None


def state(number: int = 0) -> str:
    """The lines of a state, which the signal of this number asked for. It takes two looks, between which it sleeps.

    Each of them is taken in slices, between which the program runs. All first looks come before all second ones, so
    there is a moment between the two at which each one stood at its wait that stood there at both: the state is of that
    moment. Who was at another place, or at the same one for another time, has moved or counts differently."""
    seconds, began = seconds_of("CMH_STATE_SECONDS", 0.25), time.time()
    PACE.begin()
    forget_numbers()
    try:
        LEFT["codes"] = CODES if guarded(find_cancelling) is None else -1
        before, tasks_before, spent = places(), guarded(task_places), counts_of_all()
        time.sleep(seconds)
        lines, queues = second_look(Threads(before, spent), {} if "error" in tasks_before else tasks_before)
    finally:
        forget()
    head = {"version": VERSION, "queues": queues, "process": process_name(), "pid": os.getpid(), "parent": os.getppid(),
            "host": os.uname().nodename, "space": guarded(space), "reader": threading.get_native_id() if number else 0,
            "python": sys.version.split()[0], "time": time.strftime("%Y-%m-%dT%H:%M:%S"), "seconds": seconds,
            "began": began, "ended": time.time(), "signal": number, **guarded(alarm_row),
            "unseen": [name for name in OTHER_TASKS if name in sys.modules]}
    return "".join([line_of(head), *lines, line_of({"end": os.getpid(), "rows": len(lines)})])


def seconds_of(name: str, default: float) -> float:
    """The seconds that a variable of the environment has."""
    text = os.environ.get(name, "")
    with contextlib.suppress(ValueError):
        if not text or 0 <= float(text) <= LONGEST:
            return float(text or default)
    say(f"{name} is no number of seconds: {text}")
    return default
