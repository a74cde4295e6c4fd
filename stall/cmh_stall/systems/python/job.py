"""What surrounds the threads and tasks of one OS process: their names, and the lists of those who may end their waits.

Many waits share a list. One that stands in the list of all who may end waits within its process is left out of its own
as long as they are few, for a wait that it alone might end is one that nobody is known to end.
"""
from __future__ import annotations

import functools
import re
from collections import defaultdict
from itertools import chain
from typing import Any, Dict, Iterable, List, NamedTuple, Optional, Sequence

from ...core.model import Part, Wakers, unseen, wakers
from ...core.sketch import premise
from .names import PythonNames, actor_of, holders_in
from .rows import PythonLook, PythonRow
from .text import callers_of

CHILD, FUTURE, BLOCK, DEAD, CANCEL = map(premise, ("child-process", "future", "block", "dead", "cancel"))
INSIDE = premise("runtime")  # that only its own process ends a wait at an object of the runtime
FEW = 250  # names in a list that each of its members has without itself
CODE = {"holds", "ends", "cancels", "releases", "taken"}  # keys of rows that say something of one's code
NO_ALARM = "its state doesn't say whether an alarm ends its process"
TIMER = "threading.Timer.run"
KILLS = {"kill", "killpg"}  # calls that end any process, by its number
ENDS = re.compile(r"(_thread\.interrupt_main|_signal\.(raise_signal|pthread_kill)"
                  r"|posix\.(kill|killpg|_exit|abort|exec\w+))$")


class PythonMachine(NamedTuple):
    """What the looks of one time share. `mains` has the main threads by the places of their processes, `stands` where
    these stand, and `children` those of the processes that one has begun. `takers` has by machine and lock of
    multiprocessing, and `sharers` by machine and queue, who is in a process that has it, and `missing` by machine why
    that isn't known of all. `acting` has by the place of a process all who act in it, and `above` which has begun it,
    and `enders` those whose code may end it, and by None those that may end any. `within` has by the id of a look all
    who act in it."""

    mains: Dict[Any, str]
    stands: Dict[Any, PythonRow]
    children: Dict[Any, List[str]]
    takers: Dict[Any, List[str]]
    sharers: Dict[Any, List[str]]
    enders: Dict[Any, List[str]]
    missing: Dict[Any, str]
    acting: Dict[Any, List[str]]
    above: Dict[Any, Any]
    within: Dict[int, List[str]]

    def kin_of(self, place: Any) -> List[str]:
        """Returns those who act in a process, in the one that has begun it, and in those that either of them has begun.
        """
        heads = {place, self.above[place]}
        return [name for other, names in self.acting.items() if other in heads or self.above[other] in heads
                for name in names]


class PythonJob:
    """One look at an OS process."""

    def __init__(self, look: PythonLook, names: PythonNames, machine: PythonMachine) -> None:
        self.look, self.machine, self.acting = look, machine, machine.within[id(look)]
        self.site, self.rest = names.sites[look.place()], names.rest(look.place())
        self.named = names.within(look)
        self.coming = look.signals()
        tasks: Dict[str, List[Any]] = defaultdict(list)
        for row in look.tasks.values():
            tasks[str(row.more["loop"])].append(row.key)
        self.tasks_on = {loop["thread"]: (tasks.get(str(key), []), loop["current"]) for key, loop in look.loops.items()}
        self.cancelling = self.names_of([row.key for row in look.rows() if row.more.get("cancels") is not False]
                                        + [key for key, caller in look.callers.items() if caller.cancelling])
        self.releasing = self.names_of([row.key for row in look.rows() if row.more.get("releases") is not False])
        self.taken, self.around = takers_in(look, "taken"), takers_in(look, "around")
        self.idle_timers = self.names_of([key for key, caller in look.callers.items() if not caller.is_waking])
        self.handlers = self.names_of([key for key, coming in self.coming.items() if not coming.is_end])
        self.unshown = why_unshown(look)
        calls = {key: timer_call(row) for key, row in look.threads.items() if TIMER in row.stack.names}
        self.timers = {key: call for key, call in calls.items() if call}
        self.process_enders = tuple(self.enders())

    def name_of(self, key: Any) -> Optional[str]:
        """The name of a thread, a task or a coroutine, or None if it isn't in the state."""
        return self.named.get(key)

    def names_of(self, keys: Iterable[Any]) -> List[str]:
        """The names of some that are in the state, each once: of who acts for a thread that waits for events."""
        names: Dict[str, None] = {}
        for key in keys:
            name = self.named.get(actor_of(self.look, key))
            if name is not None:
                names[name] = None
        return list(names)

    def enders(self) -> List[Wakers]:
        """Those who may end the whole process, and with it each wait there."""
        place = self.look.place()
        killers = self.machine.enders.get(None, []) + self.machine.enders.get(place, [])
        timers = [key for key, call in self.timers.items() if call.startswith("posix.")]
        ends = self.names_of([key for key, coming in self.coming.items() if coming.is_end])
        lost = [] if self.look.is_whole else [wakers("left-out", [self.rest])]
        lost += [] if self.look.shows_alarm() else [unseen("unshown", NO_ALARM)]
        killers = list(dict.fromkeys([*killers, *self.names_of(timers)]))
        return [*([wakers("kills", killers)] if killers else []), *([wakers("limit", ends)] if ends else []), *lost]

    def interrupting(self) -> Part:
        """Those who may end a wait of the main thread by a signal, as by an exception of its handler: whatever it waits
        for."""
        names = [*self.handlers, *self.names_of(self.timers)]
        return (wakers("kills", names),) if names else ()

    def same_process(self, name: Optional[str]) -> Part:
        """Those who may end a wait at an object of the runtime, for the one of this name: all else of its process."""
        names = [other for other in self.acting if other != name] if len(self.acting) <= FEW else self.acting
        handlers = (wakers("handles", self.handlers),) if self.handlers else ()
        timers = (wakers("repeats", self.idle_timers),) if self.idle_timers else ()
        lost = (unseen("unshown", self.unshown),) if self.unshown else ()
        return (wakers("same-process", names, INSIDE), *timers, *handlers, *lost)

    def cancellers(self, key: Any, is_work: bool = True) -> Part:
        """Those who may end a task, a future or a child: who has it in a variable, and whose code may cancel any. Of
        one that isn't told from others, whoever has any."""
        holders = holders_in(self.look)
        own = holders.get(key, []) if isinstance(key, str) else chain.from_iterable(holders.values())
        is_shared = isinstance(key, str) and len(holders[None]) > FEW  # (then all that are held so share a list)
        names = [self.names_of(own), self.holding_any] if is_shared else [self.names_of(chain(own, holders[None]))]
        lists: List[Sequence[str]] = [*names, self.cancelling if is_work else []]
        return tuple([wakers("cancels" if is_work else "kills", names) for names in lists if names])

    @functools.cached_property
    def holding_any(self) -> List[str]:
        """Those who may have any task or child in a variable."""
        return self.names_of(holders_in(self.look)[None])

    def loop_of(self, row: PythonRow) -> Optional[Dict[str, Any]]:
        return self.look.loops.get(row.more.get("loop"))

    def thread_of(self, loop: Optional[Dict[str, Any]]) -> Optional[PythonRow]:
        """The thread that runs a loop, or None."""
        return self.look.threads.get((loop or {}).get("thread"))

    def is_main(self, row: Optional[PythonRow]) -> bool:
        return row is not None and row.more.get("main") is True

    def holder(self, loop: Dict[str, Any]) -> Optional[PythonRow]:
        """The task or thread that has a loop's thread and doesn't give it back now, or None."""
        thread = self.thread_of(loop)
        if thread is None or thread.more.get("moved") is True:
            return None
        row = self.look.tasks.get(loop["current"]) or thread
        return None if row is thread and thread.stack.is_idle_loop else row

    def owners(self, key: Any) -> List[str]:
        """Who may give back what a thread has: if it runs a loop, the task that has it, or else any of its tasks."""
        tasks, current = self.tasks_on.get(key, ([], None))
        keys = [current] if current in self.look.tasks else [key, *tasks]
        return [name for name in map(self.name_of, keys) if name is not None]


def acting_in(look: PythonLook, names: PythonNames) -> List[str]:
    """The names of all of a process who may do something there."""
    callers = [key for key, caller in look.callers.items() if caller.is_waking]
    keys = [*[row.key for row in look.rows() if not is_idle(row)], *look.asked, *callers]
    named = names.within(look)
    return [named[key] for key in keys if key in named]


def is_idle(row: PythonRow) -> bool:
    """Whether a thread waits for the events of a loop, which calls what the state shows."""
    return row.more.get("loop") is not None and "thread" in row.more and row.stack.is_idle_loop


def takers_in(look: PythonLook, word: str) -> Dict[Any, List[Any]]:
    """Returns the keys of the threads and tasks that have each object by a word of their rows: as `taken` for a block,
    or `around` an inner block."""
    takers: Dict[Any, List[Any]] = defaultdict(list)
    for row in [row for row in look.rows() if row.more.get(word)]:
        for what in dict.fromkeys(row.more[word]):
            takers[what].append(row.key)
    return takers


def why_unshown(look: PythonLook) -> str:
    """Returns why others may end a wait at an object of the runtime than the state shows, or nothing."""
    others = look.head.get("others")
    if look.shown_by or look.by_faulthandler:
        return f"{look.shown_by or 'faulthandler'} shows neither tasks nor handlers of signals"
    if others != 0:
        return f"threads that aren't Python's may come to its code: {others}" if others else \
            "its state doesn't say whether it has threads that aren't Python's"
    if "handlers" not in look.head:
        return "its state doesn't say which signals have a handler"
    if "unseen" not in look.head:
        return "its state doesn't say whether it has loaded what runs tasks of other kinds"
    if look.head["unseen"]:
        return f"it has loaded {look.head['unseen'][0]}"
    is_known = all(callers_of(loop) is not None for loop in look.loops.values())
    return "" if is_known else "its event loop will call what the state doesn't show"


def timer_call(row: PythonRow) -> str:
    """Returns what a timer's thread will call that interrupts the main thread or ends the process, or nothing."""
    own = [line.has.get("self") for line in row.frames if line.at == TIMER]
    calls = [str(thread.get("calls")) for thread in own if isinstance(thread, dict)]
    return next(filter(ENDS.match, calls), "")


def enders_of(looks: List[PythonLook], names: PythonNames) -> Dict[Any, List[str]]:
    """Returns those whose code may end an OS process: their own one, or any if it kills by number. One of whom a state
    doesn't say it may, but for one of 1.0, which says nothing of anybody's code."""
    enders: Dict[Any, List[str]] = defaultdict(list)
    for look, row in [(look, row) for look in looks for row in look.rows() if row.more.get("ends") != []]:
        is_older = "reader" not in look.head and CODE.isdisjoint(row.more)  # (later heads have it)
        ends = row.more.get("ends", [] if is_older else {})
        place = None if KILLS.intersection(map(str, ends)) else look.place()
        name = names.of(look, row.key)
        enders[place] += [name] if (ends or isinstance(ends, dict)) and name is not None else []
    return enders


def machine_of(looks: List[PythonLook], names: PythonNames) -> PythonMachine:
    """Returns what the looks of one time share."""
    mains: Dict[Any, str] = {}
    stands: Dict[Any, PythonRow] = {}
    children: Dict[Any, List[str]] = defaultdict(list)
    takers: Dict[Any, List[str]] = defaultdict(list)
    sharers: Dict[Any, List[str]] = defaultdict(list)
    missing: Dict[Any, str] = {}
    acting: Dict[Any, List[str]] = defaultdict(list)
    above: Dict[Any, Any] = {}
    within = {id(look): acting_in(look, names) for look in looks}
    for look in looks:
        here, place, parent = within[id(look)], look.place(), look.place(look.head.get("parent"))
        host = place[0]
        acting[place] += here
        above[place] = parent
        rows = [row for row in look.threads.values() if row.more.get("main") is True]
        main = [str(names.of(look, row.key)) for row in rows]
        mains.update({place: name for name in main})
        stands.update({place: row for row in rows})
        children[parent] += main
        if look.head.get("queues") != len(look.queues):
            missing[host] = f"the state of process {look.pid} doesn't say which queues it has"
        for what in look.semaphores:
            takers[host, what] += here
        for what in look.queues:
            sharers[host, what] += here
    return PythonMachine(mains, stands, children, takers, sharers, enders_of(looks, names), missing, acting, above,
                         within)
