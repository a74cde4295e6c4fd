"""Names of Python's threads, tasks and waits, and of the place where each stands."""
from __future__ import annotations

import functools
import re
from collections import Counter
from dataclasses import dataclass, field
from typing import TYPE_CHECKING, Any, Dict, List, Optional, Tuple

from ...core.sketch import REST
from .stack import KEPT, PythonFrame, PythonStack, stack_of
from .rows import PythonLook, PythonRow, is_number, last_word

if TYPE_CHECKING:
    from .job import PythonJob

NEED_ALL = ("Barrier.wait",)  # operations that need all of several
PACKAGE_AWAITS = "await of a package"  # of a task that no code of the program's own began, as a server's for a client
UNNAMED = re.compile(r"Task-\d+$")


class PythonNames:
    """The name of each thread and task, PROCESS/NAME, the same in all looks, and another one for another one at its
    place."""

    def __init__(self, looks: List[PythonLook]) -> None:
        self.names: Dict[Any, str] = {}
        self.of_look: Dict[int, Dict[Any, str]] = {id(look): {} for look in looks}
        self.used: Counter[str] = Counter()
        plain = {look.place(): look.process for look in looks}
        full = {look.place(): f"{look.process}-{look.pid}" for look in looks}
        alike, same = Counter(plain.values()), Counter(full.values())
        self.sites = {place: f"{name}-{place[0]}" if same[name] > 1 else name for place, name in full.items()}
        self.processes = {place: self.sites[place] if alike[name] > 1 else name for place, name in plain.items()}
        for look in looks:
            for row in look.rows():
                self.add(look, row.key, label(row), str(row.more.get("native") or row.more.get("number")))
            for key, asked in look.asked.items():
                self.add(look, key, f"coroutine {asked['name']}", "")
            for key in (*look.callers, *look.signals()):
                self.add(look, key, key, "")

    def add(self, look: PythonLook, key: Any, name: str, number: str) -> None:
        place = look.place()
        full = f"{self.processes[place]}/{name}"
        identity = place, key, number, full
        if identity not in self.names:
            self.used[full] += 1
            self.names[identity] = full if self.used[full] == 1 else f"{full} ({self.used[full]})"
        self.of_look[id(look)][key] = self.names[identity]

    def rest(self, place: Any) -> str:
        """The name of those who may be missing from a process."""
        return f"{self.processes[place]}/{REST}"

    def of(self, look: PythonLook, key: Any) -> Optional[str]:
        """The name of a thread, a task, a coroutine that is handed over, what a loop will call or what comes by a
        signal, or None if it isn't in the state."""
        return self.of_look[id(look)].get(key)

    def within(self, look: PythonLook) -> Dict[Any, str]:
        """The names of all in a look, by their keys."""
        return self.of_look[id(look)]


def label(row: "PythonRow") -> str:
    """The name that a thread or task has, and of a task without one its function too."""
    if row.more.get("main") is True:
        return "MainThread"
    if row.name.startswith("Task-") and UNNAMED.match(row.name) and row.frames:
        return f"{row.name} ({row.frames[-1].at.split('.')[-1]})"
    return row.name


@dataclass
class Standing:
    """Where a thread or a task stands: what the rules for waits look at. `job` has what surrounds it, `stack` what its
    frames say by where they are, and `standard` those of the standard library from the innermost on, up to the first of
    other code. `call` is the call in which the innermost one stands, and `word` the last word of that."""

    job: PythonJob
    row: PythonRow
    frames: List[PythonFrame]
    stack: PythonStack = field(init=False)
    standard: List[PythonFrame] = field(init=False)
    call: Dict[str, Any] = field(init=False)
    word: str = field(init=False)
    waits_in: Optional[Tuple[str, List[str]]] = field(init=False, default=None)

    def __post_init__(self) -> None:
        self.stack = self.row.stack if self.frames is self.row.frames else stack_of(self.frames)
        self.standard = self.frames[:len(self.stack.standard)]
        call = self.frames[0].call if self.frames else None
        self.call = call if isinstance(call, dict) else {}
        self.word = last_word(self.call)

    @property
    def look(self) -> PythonLook:
        return self.job.look

    @property
    def name(self) -> Optional[str]:
        return self.job.name_of(self.row.key)

    def operation(self) -> Tuple[str, List[str]]:
        """The name of the call of the library that one waits in, such as Queue.get, and what it waits at."""
        if self.waits_in is None:
            self.waits_in = operation_of(self)
        return self.waits_in


def main_task(row: PythonRow) -> Any:
    """The key of the task for which a thread runs an event loop, or None."""
    future = row.frames[row.stack.runs].has.get("future") if row.stack.runs is not None else None
    return future.get("id") if isinstance(future, dict) else None


def actor_of(look: PythonLook, key: Any) -> Any:
    """The key of who acts where a thread would: of one that waits for events the task for which it runs its loop."""
    row = look.threads.get(key)
    if row is None or not row.stack.is_idle_loop:
        return key
    return main_task(row) if main_task(row) in look.tasks else key


def holders_in(look: PythonLook) -> Dict[Any, List[Any]]:
    """Returns the keys of the threads and tasks that have each task or child in a variable: they may end it. Under None
    it has those that may have any, since the state doesn't say it of them."""
    if look.holders is None:
        look.holders = {None: []}
        for row in look.rows():
            held = row.more.get("holds")
            for what in held if isinstance(held, list) else [None]:
                look.holders.setdefault(what, []).append(row.key)
    return look.holders


def pools_of(look: PythonLook) -> Any:
    """The task that sets each future, or the thread that has begun its work, and the threads of the pool that keeps
    it."""
    if look.pools is None:
        begun = {future: row.key for row in look.tasks.values() for future in row.more.get("sets") or ()}
        kept: Dict[Any, List[Any]] = {}
        pools: Dict[Any, List[Any]] = {}
        for row, line in ((row, line) for row in look.threads.values() for line in row.frames):
            if line.at == "concurrent.futures.thread._WorkItem.run" and isinstance(line.has.get("self"), dict):
                begun.setdefault(line.has["self"].get("future"), row.key)
            if line.at == "concurrent.futures.thread._worker" and isinstance(line.has.get("work_queue"), dict):
                pools.setdefault(line.has["work_queue"].get("id"), []).append((row.key, line.has))
        for rows in pools.values():
            add_kept(kept, rows)
        look.pools = begun, kept
    return look.pools


def add_kept(kept: Dict[Any, List[Any]], rows: List[Any]) -> None:
    """The work that lies in a pool's queue, for any of its threads, if the pool has as many as it may have."""
    there, most = (rows[0][1].get("executor_reference") or [0, None])[:2]
    if is_number(most) and there >= most and len(rows) == there:
        for future in rows[0][1]["work_queue"].get("futures") or ():
            kept[future] = [key for key, _ in rows]


# Waits


def operation_of(standing: Standing) -> Tuple[str, List[str]]:
    """The name of the call of the library that one waits in, such as Queue.get, and what it waits at."""
    call, number = standing.call, standing.stack.called
    on: Any = call.get("on") if isinstance(call.get("on"), dict) else {}
    objects = [on["id"]] if on.get("type") not in (None, "module") and on.get("id") else []
    objects += [words_of(standing, call)] if objects and number is None else []
    awaited = standing.row.more.get("waits")
    if isinstance(awaited, dict) and awaited.get("id"):
        objects.append(awaited["id"])
    if number is not None:
        line = standing.frames[number]
        own: Any = line.has.get("self")
        objects = [str(own[key]) for key in ("id", "pid") if isinstance(own, dict) and own.get(key)] + objects
        return public_name(line), [each for each in dict.fromkeys(objects) if each]
    if not call.get("words"):
        return ("await" if standing.stack.has_own else PACKAGE_AWAITS) if awaited else "", objects
    if not on or on.get("type") == "module":
        return call["words"].replace("?.", ""), objects
    kind = {"lock": "Lock"}.get(on["type"], on["type"])
    return f"{kind}.{'acquire' if call.get('how') == 'with' else standing.word}", [each for each in objects if each]


def words_of(standing: Standing, call: Dict[str, Any]) -> str:
    """The words that stand for a lock or the like in the source, with the class for self: Store.lock."""
    words = (call.get("words") or "").split(".")
    words = words if call.get("how") == "with" else words[:-1]
    if words[:1] == ["self"] and standing.frames:
        parts = standing.frames[0].at.split(".")
        words = [parts[-2] if len(parts) > 1 else "self", *words[1:]]
    return ".".join(words)


def lasting_objects(standing: Standing) -> List[str]:
    """What a wait with a limit waits at, without what is made anew for each wait."""
    run = standing.standard
    own: Any = run[-1].has.get("self") if run else None
    return [str(own["id"])] if isinstance(own, dict) and own.get("id") and "sleep" not in run[-1].at else []


def public_name(each: PythonFrame) -> str:
    """CLASS.METHOD of a frame of the library, or MODULE.FUNCTION."""
    kind, name, is_general = public_words(each.at)
    own: Any = each.has.get("self") if is_general else None
    return f"{own['type'] if isinstance(own, dict) else kind}.{name}"


@functools.lru_cache(maxsize=KEPT)
def public_words(name: str) -> Tuple[str, str, bool]:
    """Returns the class or the module in the name of a frame of the library, the method or function as people call it,
    and whether the class is a general one, in whose place that of the object stands."""
    parts = name.split(".")
    last = {"__enter__": "acquire", "__aenter__": "acquire"}.get(parts[-1], parts[-1])
    if len(parts) > 1 and re.match(r"_?[A-Z]", parts[-2]):
        return parts[-2], last, parts[-2].startswith("_") or parts[-2] == "BaseProcess"
    modules = [part for part in parts[:-1] if not part.startswith("_")]
    return "asyncio" if modules[:1] == ["asyncio"] else (modules or ["?"])[-1], last.lstrip("_"), False
