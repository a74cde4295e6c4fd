"""The rows of a state of Python: threads, tasks and futures, and a look at a process that has them."""
from __future__ import annotations

import functools
from dataclasses import dataclass, field
from typing import Any, Dict, List, NamedTuple, Optional, Set, Tuple

from .stack import FORKED, PythonFrame, PythonStack, stack_of

ORPHAN = 1  # the parent of one whose own parent has ended


@dataclass
class PythonRow:
    """A thread or a task. `key` tells it from the others of its process, `more` is the row of the state, and `fault`
    says what of its text shows that it isn't one thread's. `stack` is what its frames say by where they are."""

    key: Any
    name: str
    frames: List[PythonFrame]
    more: Dict[str, Any]
    fault: str = ""
    stack: PythonStack = field(init=False)

    def __post_init__(self) -> None:
        self.stand_in(self.frames)

    def stand_in(self, frames: List[PythonFrame]) -> None:
        self.frames, self.stack = frames, stack_of(frames)


@dataclass
class Caller:
    """What event loops will call for a timer, a socket or a signal, as 'server Desk.answer': the keys of these loops,
    and of those whose tasks it may cancel, and whether it may end another wait."""

    loops: List[Any] = field(default_factory=list)
    cancelling: List[Any] = field(default_factory=list)
    is_waking: bool = False


class Coming(NamedTuple):
    """What a signal brings to a process: within some seconds or whenever it is sent, and whether it ends the process,
    or calls a handler of the program's own."""

    is_timed: bool
    is_end: bool
    why: str


@dataclass
class PythonLook:
    """A state of one OS process. `seconds` is the time between the two looks that cmh_state takes, `head` its first
    row, `children` the OS processes that it has begun and not seen end. `semaphores` has the locks of multiprocessing
    that it has taken, and `queues` the queues of it that it has. `arriving` has the futures that what comes by a
    connection ends. `pools` and `holders` keep what is looked up in it again and again: who does the work of each
    future, and who has each task or child in a variable."""

    where: str
    process: str
    pid: int
    seconds: float = 0
    head: Dict[str, Any] = field(default_factory=dict)
    children: List[Any] = field(default_factory=list)
    threads: Dict[Any, PythonRow] = field(default_factory=dict)
    tasks: Dict[Any, PythonRow] = field(default_factory=dict)
    loops: Dict[Any, Dict[str, Any]] = field(default_factory=dict)
    asked: Dict[Any, Dict[str, Any]] = field(default_factory=dict)
    callers: Dict[str, Caller] = field(default_factory=dict)
    arriving: Set[str] = field(default_factory=set)
    semaphores: Set[str] = field(default_factory=set)
    queues: Set[str] = field(default_factory=set)
    is_whole: bool = True
    by_faulthandler: bool = False
    shown_by: str = ""  # another tool, which shows places alone
    warnings: List[str] = field(default_factory=list)
    pools: Optional[Tuple[Dict[Any, Any], Dict[Any, List[Any]]]] = None
    holders: Optional[Dict[Any, List[Any]]] = None

    def rows(self) -> List[PythonRow]:
        """Returns its threads and tasks."""
        return [*self.threads.values(), *self.tasks.values()]

    def signals(self) -> Dict[str, Coming]:
        """Returns what signals bring that are under way, or have a handler of the program's own."""
        left, action = self.head.get("alarm") or 0, self.head.get("on_alarm")
        handlers: Dict[str, str] = {**self.head.get("handlers", {})}
        coming = {}
        if left > 0 and action == "default":
            coming["alarm"] = Coming(True, True, f"ends its process within {left:.0f} s")
        elif left > 0 and action is not None:
            handlers.pop("SIGALRM", None)
            coming[f"alarm {action}"] = Coming(True, False, f"is called within {left:.0f} s")
        if self.head.get("foreign_timer") is True:
            coming["foreign timer"] = Coming(True, True, "blocks all signals, and may end its process later")
        if self.head.get("on_child") not in (None, "default") and self.children:
            handlers.setdefault("SIGCHLD", str(self.head["on_child"]))
        coming.update({f"handler {name} {function}": Coming(False, False, "waits for a signal")
                       for name, function in handlers.items()})
        return coming

    def shows_alarm(self) -> bool:
        """Whether its head says when an alarm comes, and who gets it if one does. Other tools show places alone."""
        left: Any = self.head.get("alarm")
        return bool(self.shown_by) or self.by_faulthandler or is_number(left) and (
            left <= 0 or "on_alarm" in self.head)

    def has_parent(self) -> bool:
        """Whether multiprocessing has begun it, and who has done so lives."""
        steps = (step for row in self.threads.values() for step in row.more.get("frames", ()))
        return self.head.get("parent") != ORPHAN and any(step.get("in") == FORKED for step in steps)

    def place(self, pid: Any = None) -> Tuple[Any, Any]:
        """What tells its OS process, or another one of its machine, from those of all machines."""
        return self.host, self.pid if pid is None else pid

    @functools.cached_property
    def host(self) -> str:
        return str(self.head.get("host"))

    def machine(self) -> str:
        """The machine and the container in which its numbers stand, or nothing."""
        space = self.head.get("space")
        return space if isinstance(space, str) else ""

    def reader(self) -> str:
        """The thread that printed it, as PID/TID, or nothing."""
        native = self.head.get("reader")
        return f"{self.pid}/{native}" if native and isinstance(native, int) else ""

    def time(self) -> Optional[Tuple[float, float]]:
        """When the state began and ended, or None."""
        began: Any = self.head.get("began")
        ended: Any = self.head.get("ended")
        return (began, ended) if is_number(began) and is_number(ended) else None


def is_number(value: Any) -> bool:
    return type(value) in (int, float) and abs(value) < 1e18


def last_word(call: Dict[str, Any]) -> str:
    return (call.get("words") or "").rpartition(".")[2]
