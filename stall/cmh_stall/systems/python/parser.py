"""Python: what the module cmh_state prints on a signal, or other tools: py-spy, gdb, faulthandler.

Threads, asyncio tasks and OS processes are all processes of the sketch, and so is what event loops and signals will
call. Named are who ends a join of threads, tasks and children that are in the state, has a lock that shows its owner or
that a block has taken, does the work that a pool has begun or keeps, and has the thread of a blocked event loop. At any
other object of the runtime all else of its process may end a wait, and pipes and sockets are for facts. The other tools
show where each thread stands.

A state has two looks at a process. A thread that slept at both and hasn't stopped anew between them was at one wait
from the first to the second, and so was a task that awaited one future: these were all at their waits at one moment.
Several OS processes are read one after the other, and need two states each.
"""
from __future__ import annotations

import re
from dataclasses import dataclass, field
from functools import lru_cache
from typing import Any, Dict, Iterator, List, Optional, Tuple

from ...core.files import Refusal
from ...core.model import Part, Sign, unseen
from ...core.sketch import Process, Sketch
from ...core.snapshots import APART, GROWN, ONCE, PARTS, WHOLE, Reading
from .. import State
from ..base import Parser, Snapshot, is_loop, without_sleep
from .connections import connections_of
from .contradictions import doubt_looks
from .job import PythonJob, machine_of
from .names import NEED_ALL, PythonNames, Standing, lasting_objects, main_task, public_name
from .stack import KEPT, PythonFrame, PythonStack, stack_of
from .tasks import TaskWaits
from .rows import PythonLook, PythonRow, is_number
from .text import looks_of
from .waits import PythonWait, unsure

PLACES, HANDED = ("thread", "task"), ("asked", "caller")  # kinds of subjects: that stand somewhere, or are to begin
NOT_UNDERSTOOD = (AttributeError, KeyError, TypeError, ValueError, IndexError, RecursionError)
STATES = "the states"  # a path for all, as they say themselves when they were taken
# Operations of one that waits for what comes next, and of one that waits for a connection.
RECEIVES = re.compile(r"\w*Queue\.get|(\w*Connection|\w*[Ss]ocket|SSL\w*|StreamReader)\.(recv|read)\w*"
                      r"|connection\.wait")
QUEUE = "Queue.get"
ACCEPTS = re.compile(r"(.*[.:])?_?(accept\w*|serve_forever)")
FOR_THE_END = "Event.wait"  # where the function of a thread waits until it is told to begin, or to end
OF_LIBRARIES = ("Condition.wait", "Event.wait")  # where a package's own thread waits for what comes next
MODULE = ".<module>"


@dataclass
class PythonSubject:
    """A thread, a task, a coroutine that a loop has been handed, what loops will call, or what a signal brings, with
    the look that it is in."""

    waits: TaskWaits
    what: str  # "thread", "task", "asked", "caller" or "signal"
    key: Any
    row: Any
    job: PythonJob = field(init=False)
    loop: Optional[Dict[str, Any]] = field(init=False)  # the event loop whose thread it needs
    thread: Optional[PythonRow] = field(init=False)  # the row of the thread that it needs

    def __post_init__(self) -> None:
        self.job = self.waits.job
        self.loop = self.needed_loop()
        self.thread = self.row if self.what == "thread" else self.job.thread_of(self.loop)

    @property
    def name(self) -> Any:
        return self.job.name_of(self.key)

    def needed_loop(self) -> Optional[Dict[str, Any]]:
        """Returns the event loop whose thread it needs, or None."""
        if self.what == "asked":
            return self.job.look.loops.get(self.row["loop"])
        if self.what == "caller":
            return self.job.look.loops.get(self.row.loops[0])
        return self.job.loop_of(self.row) if self.what == "task" else None

    def frames(self) -> List[PythonFrame]:
        frames: List[PythonFrame] = self.waits.frames_of_task(self.row) if self.what == "task" else self.row.frames
        return frames

    def is_main(self) -> bool:
        """Whether its program ends once it does."""
        if self.what == "task":
            return any(main_task(row) == self.key for row in self.job.look.threads.values())
        return self.what == "thread" and self.row.more.get("main") is True

    def kernel_thread(self) -> str:
        """Which thread of the kernel a thread is, as PID/TID, or nothing."""
        native = self.row.more.get("native") if self.what == "thread" else None
        return f"{self.job.look.pid}/{native}" if native else ""


class Jobs(Snapshot):
    """The looks of one time, each with the waits in it."""

    jobs: List[TaskWaits]


class PythonParser(Parser):
    """Each OS process by itself is read at one moment, several one after the other."""

    NAME, IDLE, MOMENT = "python", "threads", APART
    SNAPSHOT_CLASS = Jobs

    def __init__(self) -> None:
        self.dumps = 0
        self.names = PythonNames([])
        self.is_alone = True
        self.looks: Dict[Any, List[PythonLook]] = {}  # of each process

    def read(self, state: State) -> List[Reading]:
        looks = looks_of(state)
        for look in looks:
            if look.by_faulthandler:  # it shows no process id, so each of its dumps counts as a process
                self.dumps += 1
                look.pid, look.process = self.dumps, f"dump-{self.dumps}"
            look.is_whole = look.is_whole and bool(look.threads)  # (each process has its main thread)
        return [Reading(state.path, (look.by_faulthandler, look.place()), [look],
                        extent=WHOLE if look.is_whole else PARTS, machine=look.machine(), time=look.time())
                for look in looks]

    def begin(self, readings: List[Reading]) -> None:
        """Names all that there is, puts the readings in the order of time where they print it, and says what is
        missing."""
        looks = [reading.rows[0] for reading in readings]
        for look in looks:
            self.looks.setdefault(look.place(), []).append(look)
        for own in self.looks.values():
            doubt_looks(own)
            mark_woken(own)
        self.names = PythonNames(looks)
        places = {look.place() for look in looks}
        hosts = {(look.machine(), look.place()[0]) for look in looks if look.machine()}
        if len({machine for machine, _ in hosts}) < len(hosts):
            raise Refusal(f"{readings[0].path}: its states have two names of one machine")
        begun = {look.place(child) for look in looks for child in look.children}
        self.is_alone = len(places) == 1
        for reading, look in zip(readings, looks):
            reading.site = self.names.processes[look.place()]
            lost = [child for child in look.children if look.place(child) not in places]
            above = look.place(look.head.get("parent"))
            if not look.is_whole:
                reading.missing = "its state isn't whole, so processes may be missing"
            elif lost:
                reading.missing = f"it has begun process {lost[0]}, which isn't in the states"
            elif look.place() not in begun and above not in places and look.has_parent():
                reading.missing = f"process {look.head['parent']}, which has begun it, isn't in the states"
        if are_timed(looks):
            readings.sort(key=lambda reading: float(reading.rows[0].head["began"]))
            for reading in readings:
                reading.path = STATES

    def prepare(self, snapshot: Jobs) -> None:
        looks = snapshot.rows()
        machine = machine_of(looks, self.names)
        snapshot.jobs = [TaskWaits(PythonJob(look, self.names, machine)) for look in looks]

    def processes(self, snapshot: Jobs) -> Iterator[PythonSubject]:
        for waits in snapshot.jobs:
            look = waits.look
            kinds: Dict[str, Dict[Any, Any]] = {"thread": look.threads, "task": look.tasks, "asked": look.asked,
                                                "caller": look.callers, "signal": waits.job.coming}
            yield from [PythonSubject(waits, what, key, row) for what, rows in kinds.items() for key,
                        row in rows.items()]

    def process_of(self, subject: PythonSubject, snapshot: Jobs) -> Process:
        """Returns the process of a row. A row that is odd makes it unknown, whatever is odd in it."""
        try:
            process = place_of(subject) if subject.what in PLACES else coming_of(subject)
        except NOT_UNDERSTOOD:
            process = process_at(subject, unsure("its row in the state isn't understood"))
        if subject.what in PLACES and subject.row.fault:
            process.become_unknown(subject.row.fault)
            process.is_garbled = True
        add_enders(process, subject)
        if subject.what not in PLACES and process.sign is not Sign.BLOCKED:
            snapshot.moments[process.name] = ONCE  # (it waits for what comes from outside, however often that comes)
        elif process.count is None:
            self.count(process, subject, snapshot)
        elif self.is_alone:
            snapshot.moments[process.name] = ONCE
        return process

    def count(self, process: Process, subject: PythonSubject, snapshot: Jobs) -> None:
        """Gives a process the count of its waits, and says of it how it was read."""
        thread = subject.thread
        is_held = subject.what in HANDED or subject.what == "task" and \
            subject.job.holder(subject.loop or {}) is not None
        counts = [subject.row.more["wait"]] if subject.what == "task" else []
        has_grown = False
        if subject.what == "thread" or is_held:
            counts.append(stops_of(thread) if thread is None or thread.more.get("main") is not True else
                          self.stops_of_main(thread, subject.job.look))
            has_grown = thread is not None and has_stopped(thread)
        process.count = ", ".join(map(str, counts)) if counts and None not in counts else None
        moves = subject.row.more["wait"] if subject.what == "task" else stops_of(thread) if subject.what == "thread" \
            else None
        process.spent = str(moves) if moves is not None and process.sign is not Sign.GOES_ON else None
        if has_grown:
            doubt_place(process)
        elif self.is_alone and is_vouched(thread, is_held, subject):
            snapshot.moments[process.name] = ONCE

    def stops_of_main(self, thread: PythonRow, look: PythonLook) -> Optional[int]:
        """Returns how often the main thread has stopped. Up to 1.1 each signal that asked for states woke it, and no
        state says by which version it was printed: so that is known of the states of the first signal alone. If there
        are two, later ones count as the last of these."""
        looks = self.looks[look.place()]
        first = [other for other in looks if other.head.get("signal") == looks[0].head.get("signal")]
        if "new_stops" not in thread.more or look not in first and len(first) < 2:
            return None
        row = thread if look in first else first[-1].threads.get(thread.key)
        return stops_of(row) if len(first) > 1 or len(looks) == 1 else None

    def finish(self, sketch: Sketch, snapshots: List[Jobs]) -> None:
        looks = [look for snapshot in snapshots for look in snapshot.rows()]
        sketch.readers = list(dict.fromkeys(filter(None, (look.reader() for look in looks))))
        sketch.connections = connections_of(looks, self.names)
        sites = self.names.sites
        sketch.begun_by = {sites[look.place()]: sites[above] for look in looks
                           for above in [look.place(look.head.get("parent"))] if above in sites}
        sketch.warnings += dict.fromkeys(line for look in looks for line in look.warnings)


def mark_woken(looks: List[PythonLook]) -> None:
    """Marks in all looks at a process the threads that have woken up within one of them: who looks again and again is
    asleep all through another one, and at the same place."""
    woken = {key for look in looks for key, row in look.threads.items() if row.more.get("new_stops")}
    for row in (look.threads[key] for look in looks for key in woken & look.threads.keys()):
        row.more["woke"] = True


def stops_of(thread: Optional[PythonRow]) -> Optional[int]:
    """How often a thread has stopped to wait, or None if that isn't known."""
    stops = thread.more.get("stops") if thread is not None else None
    return stops if isinstance(stops, int) else None


def has_stopped(thread: PythonRow) -> bool:
    """Whether a thread has stopped anew between the two looks of a state, or didn't sleep at each."""
    new, asleep = thread.more.get("new_stops"), thread.more.get("asleep")
    return isinstance(new, int) and (new != 0 or asleep is not True)


def doubt_place(process: Process) -> None:
    """Says of one that waits that its looks may show two waits: nobody knows what it waits for, nor does a fact say it.
    """
    if process.sign in (Sign.BLOCKED, Sign.RESTS):
        process.sign, process.reason, process.is_garbled = Sign.UNKNOWN, GROWN, True
        process.parts = [(*part, unseen("uncounted", GROWN)) for part in process.parts]


def is_vouched(thread: Optional[PythonRow], is_held: bool, subject: PythonSubject) -> bool:
    """Whether the two looks of a state show one wait. A task awaits the same future at both, else it has moved."""
    if subject.what == "task" and not is_held:
        return True
    return thread is not None and thread.more.get("new_stops") == 0 and thread.more.get("asleep") is True


def add_enders(process: Process, subject: PythonSubject) -> None:
    """Says of one that waits who may end its process, or the wait of the main thread by a signal."""
    more: Part = subject.job.process_enders
    signals = subject.job.interrupting() if subject.job.is_main(subject.thread) else ()
    if more or signals:
        parts = process.parts or ([(unseen("unshown"),)] if process.sign is Sign.UNKNOWN else [])
        process.parts = [(*(group for group in part if group.how != "handles" or not signals), *more, *signals)
                         for part in parts]


def place_of(subject: PythonSubject) -> Process:
    """Returns the process of a thread or a task."""
    standing = Standing(subject.job, subject.row, subject.frames())
    return process_at(subject, subject.waits.of_task(standing) if subject.what == "task" else
                      subject.waits.of_thread(standing), standing)


def process_at(subject: PythonSubject, wait: PythonWait, standing: Optional[Standing] = None) -> Process:
    """Returns the process of a wait, with what tells it from the next."""
    operation, objects = standing.operation() if standing else ("", [])
    stack = standing.stack if standing else stack_of([])
    own = list(stack.own)
    sign = sign_of(subject, wait, operation, stack)
    if sign is Sign.BLOCKED and not stack.has_own and (
            operation in OF_LIBRARIES or standing is not None and awaited_by(standing) == "Future"):
        sign = Sign.RESTS  # (a thread or task of a package that runs nothing of the program's)
    if wait.sign is Sign.SLEEPS:
        operation, objects = f"timed {operation or 'wait'}", lasting_objects(standing) if standing else []
    called = package_call(stack, standing.frames) or f"{operation} {awaited_by(standing)}".rstrip() if standing else ""
    note = f"{called} in {own[0]}" if called and own else own[0] if own else called
    return Process(subject.name, sign, wait.parts, wait.reason, list(wait.because), subject.job.site, note, own,
                   operation, objects, wait.count, subject.kernel_thread(), is_collective=operation in NEED_ALL,
                   stack=whole_stack(standing) if standing else ())


def whole_stack(standing: Standing) -> List[Tuple[str, str, int]]:
    """Returns the function, the file and the line of each frame. What other tools call a module is its file's name."""
    if standing.look.shown_by:
        return [(it.at.rpartition(".")[2], it.file, it.line) for it in standing.frames]
    return [(it.at, it.file, it.line) for it in standing.frames]


def awaited_by(standing: Standing) -> str:
    """Returns the class of what a task awaits by no call of the library, or nothing."""
    awaited = standing.row.more.get("waits")
    is_bare = isinstance(awaited, dict) and not standing.standard and not standing.call.get("words")
    return str(awaited.get("type", "")).rpartition(".")[2] if isinstance(awaited, dict) and is_bare else ""


def package_call(stack: PythonStack, frames: List[PythonFrame]) -> str:
    """Returns the function of a package that the job's own code has called, such as that of a pool, or nothing."""
    return public_name(frames[stack.package]) if stack.package is not None else ""


def sign_of(subject: PythonSubject, wait: PythonWait, operation: str, stack: PythonStack) -> Sign:
    """Returns the sign of one at its place: one that waits for what comes next in its own loop has nothing to do."""
    if wait.sign is Sign.SLEEPS:
        own = tuple(without_sleep(list(stack.own)))
        is_idle = accepts(operation) or is_in_own_loop(subject, own) and not stack.is_job
        return Sign.TICKS if is_idle else Sign.SLEEPS
    if wait.sign is not Sign.BLOCKED:
        return wait.sign
    awaits_next = (takes_next(subject, operation) or awaits_data(subject)) and is_in_own_loop(subject, stack.own)
    awaits_end = operation == FOR_THE_END and is_in_start(stack.own)
    return Sign.RESTS if awaits_next or awaits_end or accepts(operation) else Sign.BLOCKED


@lru_cache(maxsize=KEPT)
def accepts(operation: str) -> bool:
    """Whether one in an operation waits for a connection."""
    return ACCEPTS.fullmatch(operation) is not None


@lru_cache(maxsize=KEPT)
def receives(operation: str) -> bool:
    """Whether one in an operation waits for what comes next."""
    return RECEIVES.fullmatch(operation) is not None


def takes_next(subject: PythonSubject, operation: str) -> bool:
    """Whether one waits for its next message. What a package takes from a queue for it may be a connection of a pool.
    """
    package = package_call(subject.row.stack, subject.row.frames)
    is_pool = operation.endswith(QUEUE) and package and not receives(package)
    return receives(operation) and not is_pool


def awaits_data(subject: PythonSubject) -> bool:
    """Whether a task awaits a future that a connection has."""
    awaited = subject.row.more.get("waits")
    return isinstance(awaited, dict) and awaited.get("id") in subject.job.look.arriving


def is_in_own_loop(subject: PythonSubject, own: Tuple[str, ...]) -> bool:
    """Whether one waits in the function that it was started with, and comes back to that wait."""
    return subject.what in PLACES and subject.row.more.get("again") is not False and is_in_start(own)


@lru_cache(maxsize=KEPT)
def is_in_start(own: Tuple[str, ...]) -> bool:
    """Whether one waits in the function that it was started with. Of a main thread that is the function that its
    program is run for. A function without a name only calls another one, as one may that calls the loop of a session.
    """
    named = [line for line in own if "<lambda>" not in line.partition(" (")[0]]
    return len(named) <= 1 or len(named) == 2 and (MODULE in named[-1] or is_loop(named[0].partition(" (")[0]))


def are_timed(looks: List[PythonLook]) -> bool:
    """Whether it is known when each look began: those of a process one after the other."""
    last: Dict[Any, float] = {}
    for look in looks:
        began: Any = look.head.get("began")
        if not is_number(began) or began < last.get(look.place(), began):
            return False
        last[look.place()] = began
    return True


def coming_of(subject: PythonSubject) -> Process:
    """Returns the process of what isn't begun as yet: what loops and signals bring."""
    if subject.what == "asked":
        wait = subject.waits.of_asked(subject.row)
        return Process(subject.name, wait.sign, wait.parts, wait.reason, wait.because, subject.job.site,
                       "handed to the event loop, and not begun")
    is_signal = subject.what == "signal"
    wait = subject.waits.of_signal(subject.key) if is_signal else subject.waits.of_caller(subject.key, subject.row)
    kind, _, called = subject.key.partition(" ")
    return Process(subject.name, wait.sign, wait.parts, wait.reason, wait.because, subject.job.site, subject.key,
                   [kind], called)
