"""The parser for Go: what SIGQUIT prints with GOTRACEBACK=all, or texts of pprof's `goroutine?debug=2`.

Known by itself is which goroutine computes or sleeps, and which waits at a nil channel, in an empty `select`, or is
`(leaked)`, as Go 1.26 finds once its profile `goroutineleak` is asked for: nobody ends that wait. The other ends of
channels and the holders of locks stand in no dump, so all other goroutines are able to end the other waits, first those
in whose frames the channel or lock stands. The program's world is stopped while its goroutines are read, and whoever is
woken is runnable at once, so one state shows one moment. Not so where the operating system wakes: what has come to a
socket or a child that has ended may wait to be seen.

A name is FUNCTION/NUMBER, with the function that was started, wherever the goroutine stands in it. Facts may name
`{self}`, `{creator}` and the group `children:NAME`, where the text says which goroutine created which. A list that a
pattern finds isn't whole while more of it may be started: by a goroutine that isn't stuck, by a timer (`go_starters`).
"""
from __future__ import annotations

import re
from itertools import chain
from typing import Any, Dict, List, Set, Tuple

from ...core.files import Refusal
from ...core.model import COMES, Part, Sign, Wakers, all_of, any_of, unseen, wakers
from ...core.sketch import GOING, LIMIT, SYSTEM, Process, Sketch, blocked, garbled, goes_on, premise, rests, unknown
from ...core.snapshots import APART, CUT, GONE, ONCE, Reading
from .. import State
from ...core.times import duration
from ..base import FAR, Parser, Reachable, Snapshot, without_sleep
from .frames import (CONNECTION, NEEDS_ALL, WATCHER, WRITER, Caller, GoPlace, Receiver, accepts_for_library, callers_in,
                     cut_short, entry_of, functions_of, is_at_connection, is_of_runtime, lacks_wait, misplaced,
                     objects_of, own_calls, place_of, receivers_at, serves_request, takes_state, types_of,
                     watches_client)
from .stacks import check_same, stack_of, whole_stack
from .starters import MAIN, UNSEEN, Starters, unseen_starter
from .text import ADDRESSES, AGAIN, LOOKED, TAKER, WHERE, GoDump, Goroutine, notes_in, read_dumps

SITE = "the Go program"
# States in which a goroutine goes on by itself, or the runtime sees to it.
RUNNING = frozenset(("running", "runnable", "preempted", "copystack", "GC assist marking", "GC assist wait",
                     "garbage collection", "garbage collection scan", "wait for GC cycle", "panicwait", "dumping heap",
                     "debug call", "stopping the world", "flushing proc caches", "GC mark termination"))
NOBODY = frozenset(("chan receive (nil chan)", "chan send (nil chan)", "select (no cases)"))
OF_THE_SYSTEM = frozenset(("IO wait", "syscall"))
END_OF_MAIN = "waits in the empty select of main"
YIELD = "runtime.Gosched"
READER = "sync.RWMutex.RLock"
SIGNALS = "os/signal.signal_recv"  # of the goroutine that is there once the program asks for a signal
# What functions are called that wait for a signal.
OF_SIGNALS = re.compile(r"(?i)signal|shut_?down|interrupt|graceful|terminat")
NAMED = 3  # names in a reason
MOST = 200  # more who have what one waits at in a frame tell nothing of it
SHORT = 2  # seconds: who sleeps no longer has come back to its sleep from one state to the next
SLEEP = re.compile(r"0x[0-9a-f]+")
LOCAL = re.compile(r"(?:localhost|127(?:\.\d{1,3}){3}|\[::1\]):(\d{1,5})")
RECORD = "channels and locks by cmh_go"  # where a record of an older version begins, of which nothing is read
ENDERS = {
    READER: "a writer ends this wait, which holds the lock or waits in Lock, and no reader; the state doesn't show "
            "which",
    WRITER: "who holds the lock now ends this wait, and nobody who waits for it; the state doesn't show who that is"}
ANOTHER = "another wait"  # beside the objects of one that has left its place between two states
INTENT = "empty-select"
LIBRARYS = (CONNECTION, WATCHER)  # how those are idle that run code of a library alone


class Goroutines(Snapshot):
    """The goroutines at one time: where each one stands, by its number, the objects that it shows that it waits at, and
    that whose method waits for a lock; who has one of these in a frame, and doesn't wait at it; who was begun by a
    method of each type; all of them; a wait that any of them may end; and whether all were stopped when they were read.
    """

    places: Dict[str, GoPlace]
    objects: Dict[str, List[str]]
    locked: Dict[str, List[Receiver]]
    reach: Reachable
    begun: Reachable
    everybody: Wakers
    anybody: List[Part]
    is_stopped: bool
    has_signals: bool
    callers: Set[Caller]


class GoParser(Parser):
    """The goroutines of one program, but for those of the runtime."""

    NAME, IDLE, MOMENT = "go", "goroutines", ONCE
    SNAPSHOT_CLASS = Goroutines

    def __init__(self) -> None:
        self.dumps: List[GoDump] = []
        self.site = SITE
        self.port = ""  # at which the program listens, where that is on the machine on which the state was taken
        self.seconds = 0.0  # from the first state to the last, as far as that is said
        self.warnings: List[str] = []
        self.names: Dict[str, str] = {}
        self.again: Dict[int, str] = {}  # by the ids of goroutines, what tells their place from that of before
        self.looks: Dict[int, int] = {}  # by the ids of goroutines, in which state they are
        self.parents: Set[str] = set()
        self.lasting: Set[str] = set()  # those whose wait has lasted for minutes, since before the first state

    def read(self, state: State) -> List[Reading]:
        start = 0 if state.text.startswith(RECORD) else state.text.find(f"\n{RECORD}") + 1
        text = state.text[:start] if state.text.startswith(RECORD, start) else state.text
        dumps = read_dumps(state.path, text)
        self.dumps += dumps
        notes = notes_in(state.text)
        looked = [row.groups() for row in LOOKED.finditer(notes)]
        self.seconds += sum(map(float, AGAIN.findall(notes)))
        where = WHERE.search(notes)
        self.site = f"{SITE} at {where[1]}" if where else self.site
        local = LOCAL.fullmatch(where[1].partition(" ")[0]) if where else None
        self.port = local[1] if local else self.port
        readings = [self.reading_of(dump) for dump in dumps]
        for reading, (began, ended, machine) in zip(readings, looked if len(looked) == len(dumps) else ()):
            reading.time, reading.machine = (float(began), float(ended)), machine
        return readings

    def reading_of(self, dump: GoDump) -> Reading:
        """Returns the reading of a dump. A text may be cut off after any goroutine, and nothing shows that."""
        for goroutine in cut_short(dump.goroutines):
            goroutine.doubt(f"{goroutine.at}: its outermost frames are missing below this line, which others have")
        odd = misplaced(dump.goroutines)
        for goroutine in dump.goroutines:
            if odd and not odd.isdisjoint((step.function, step.path)
                                          for step in (*goroutine.frames, goroutine.creator)):
                why = "lines are missing below this one, since a function and its file don't fit"
                goroutine.doubt(f"{goroutine.at}: {why}")
            if lacks_wait(goroutine):
                goroutine.doubt(f"{goroutine.at}: no frame below this line is a call that waits so")
        shown_ones = [goroutine for goroutine in dump.goroutines if not is_of_runtime(goroutine)]
        takers = [goroutine for goroutine in shown_ones if takes_state(goroutine)]
        self.warnings += dump.warnings
        self.warnings += [f"goroutine {taker.number}, which takes the state, is left out" for taker in takers]
        numbers = {taker.number for taker in takers}
        rows = [goroutine for goroutine in shown_ones if goroutine.number not in numbers]
        return Reading(dump.path, self.NAME, rows, missing_of(dump, shown_ones), CUT)

    def begin(self, readings: List[Reading]) -> None:
        """Names the goroutines, and sees which have left their place between two states. Each state is asked for by a
        client of its own, so who watches that one tells nothing of the program."""
        lasting = set.intersection(*({goroutine.number for goroutine in dump.goroutines} for dump in self.dumps))
        for reading in readings:
            reading.rows = [goroutine for goroutine in reading.rows
                            if goroutine.number in lasting or not watches_client(goroutine)]
        for earlier in self.dumps[:-1]:
            if earlier.is_last:
                raise Refusal(f"{earlier.path}: SIGQUIT ends the program, so no state of it comes after this one")
        for later in self.dumps[1:]:
            check_same(self.dumps[0], later)
        self.name_all()
        times = [reading.time for reading in readings if reading.time is not None]
        span = times[-1][1] - times[0][0] if len(times) == len(self.dumps) > 1 else float("inf")
        self.lasting = {goroutine.number for goroutine in self.dumps[-1].goroutines if goroutine.minutes * 60 > span}
        self.parents = {goroutine.parent for dump in self.dumps for goroutine in dump.goroutines if goroutine.parent}

    def name_all(self) -> None:
        """Names the goroutines by what they began in, and sees which have left their place."""
        before: Dict[str, Goroutine] = {}
        for look, dump in enumerate(self.dumps):
            for goroutine in dump.goroutines:
                if goroutine.number not in self.names:
                    self.names[goroutine.number] = f"{entry_of(goroutine)}/{goroutine.number}"
                earlier_one = before.get(goroutine.number)
                if earlier_one is not None and has_left(earlier_one, goroutine):
                    self.again[id(goroutine)] = ANOTHER
                before[goroutine.number] = goroutine
                self.looks[id(goroutine)] = look

    def prepare(self, snapshot: Goroutines) -> None:
        """Finds where all stand, who has in a frame what another one waits at, and whether all goroutines were stopped
        when they were read."""
        rows: List[Goroutine] = snapshot.rows()
        stacks = {goroutine.frames for goroutine in rows}
        snapshot.places = {goroutine.number: place_of(goroutine.frames, goroutine.state, goroutine.creator)
                           for goroutine in rows}
        snapshot.objects = {goroutine.number: objects_of(goroutine, snapshot.places[goroutine.number])
                            for goroutine in rows}
        snapshot.locked = {goroutine.number: receivers_at(goroutine, snapshot.places[goroutine.number].locked)
                           for goroutine in rows if snapshot.places[goroutine.number].locked}
        snapshot.is_stopped = not any(goroutine.is_elsewhere for goroutine in rows)
        snapshot.callers = callers_in(stacks)
        snapshot.has_signals = any(SIGNALS in functions_of(frames) for frames in stacks)
        own = [goroutine for goroutine in rows if snapshot.places[goroutine.number].idle not in LIBRARYS]
        snapshot.everybody = wakers("same-process", [self.names[goroutine.number] for goroutine in own])
        snapshot.reach, snapshot.begun = Reachable(), Reachable()
        snapshot.anybody = any_of(snapshot.everybody, unseen("unshown"))
        awaited = {*chain(*snapshot.objects.values(), *snapshot.locked.values())}
        for goroutine in own:
            for thing in held_by(goroutine, snapshot, awaited):
                snapshot.reach.add(thing, [self.names[goroutine.number]], "inside")
            for maker in types_of(goroutine.created_by):
                snapshot.begun.add(maker, [self.names[goroutine.number]], "guess")

    def process_of(self, subject: Goroutine, snapshot: Goroutines) -> Process:
        goroutine, name = subject, self.names[subject.number]
        if goroutine.fault:
            return garbled(name, goroutine.fault, site=self.site)
        place = snapshot.places[goroutine.number]
        process = self.wait_at(goroutine, place, name, snapshot)
        process.site, process.frames = self.site, place.frames
        process.stack = whole_stack(goroutine.frames, goroutine.creator)
        process.operation = process.operation or place.operation
        objects = snapshot.objects[goroutine.number]
        process.meeting = next(iter(objects), name) if place.operation in NEEDS_ALL else ""
        process.objects = [*objects, *self.values(goroutine), *filter(None, [self.again.get(id(goroutine))])]
        since = f", for {goroutine.minutes} minutes" if goroutine.minutes else ""
        where = f" at {place.frames[0]}" if place.frames else ""
        process.note = f"{place.operation}{where}{since}"
        if goroutine.number in self.lasting and process.sign not in GOING:
            process.count = "for minutes"  # (the runtime counts these from when the wait began)
        if goroutine.state in OF_THE_SYSTEM or not snapshot.is_stopped:
            snapshot.moments[name] = APART
        return process

    def values(self, goroutine: Goroutine) -> List[str]:
        """What facts may name of a goroutine, the same in all states."""
        itself = [f"self={self.names[goroutine.number]}"] if goroutine.number in self.parents else []
        return itself + ([f"creator={self.names[goroutine.parent]}"] if goroutine.parent in self.names else [])

    def wait_at(self, goroutine: Goroutine, place: GoPlace, name: str, snapshot: Goroutines) -> Process:
        """Returns what a goroutine waits for, as a process with its sign and wait alone."""
        state = goroutine.state
        if place.idle in LIBRARYS and not goroutine.is_leaked:
            return rests(name, place.idle, any_of(unseen("outside")), [SYSTEM])
        if state in RUNNING and place.called == YIELD:
            return goes_on(name, "yields", [premise(LIMIT)], Sign.SLEEPS, operation=f"timed {YIELD}")
        if state in RUNNING and TAKER in functions_of(goroutine.frames):
            return rests(name, "prints the state", any_of(unseen("outside")), [SYSTEM])
        if state in RUNNING:
            return goes_on(name, place.idle or ("computes" if state.startswith("run") else state), [SYSTEM])
        if state == "sleep":
            return self.sleeper(goroutine, place, name, snapshot)
        if state in NOBODY or goroutine.is_leaked:
            return wait_for_nobody(goroutine, name)
        if place.idle:
            return rests(name, place.idle, any_of(unseen("outside")), [SYSTEM])
        if not state:
            return unknown(name, "it has no state")
        if state in OF_THE_SYSTEM or place.is_at_connection:
            return unknown(name, f"{state}: the other end may be in the dump, and the state doesn't show it",
                           parts=any_of(unseen("outside")))
        return self.waiter(goroutine, place, name, snapshot)

    def sleeper(self, goroutine: Goroutine, place: GoPlace, name: str, snapshot: Goroutines) -> Process:
        """One that sleeps. One that sleeps for a short time in the function that it was started with has come back to
        that sleep from the first state to the last."""
        found = next((call.arguments for call in goroutine.calls if call.frame.function == "time.Sleep"), "")
        nanoseconds = int(found, 16) if SLEEP.fullmatch(found) else 0
        is_short = 0 < nanoseconds <= max(SHORT, self.seconds / 2) * 10 ** 9
        own = without_sleep([frame.function for frame in own_calls(goroutine, snapshot.callers)])
        sign = Sign.TICKS if len(own) == 1 and not serves_request(goroutine.frames) else Sign.SLEEPS
        count = self.look_of(goroutine) if is_short else None
        why = f"sleeps for {duration(nanoseconds / 1e9)}" if nanoseconds else "sleeps"
        if nanoseconds > FAR * 1e9:  # (which is no limit)
            return rests(name, why, any_of(unseen("limit")), [SYSTEM], operation="timed sleep")
        return goes_on(name, place.idle or why, [premise(LIMIT)], sign, operation="timed sleep", count=count)

    def look_of(self, goroutine: Goroutine) -> str:
        """Returns the number of the state that a goroutine is in, as a count of one that comes back from state to
        state."""
        return f"state {self.looks[id(goroutine)] + 1}"

    def waiter(self, goroutine: Goroutine, place: GoPlace, name: str, snapshot: Goroutines) -> Process:
        """One that waits for another goroutine, and the text doesn't show for which: first for one in whose frames it
        stands, or for those whom the type of a library has begun in whose method it waits, as a group has its tasks."""
        inside = self.inside(goroutine, name, snapshot)
        names = list(dict.fromkeys(other for some in inside for other in some.names())) if inside else []
        why = f"{goroutine.state}: {ENDERS.get(place.operation, DOESNT_SHOW)}{also_at(names)}"
        begun = [] if inside else [group for maker in types_of(place.called) for group in snapshot.begun.of(maker)]
        parts = any_of(*inside, *begun, *snapshot.anybody[0]) if inside or begun else snapshot.anybody
        children = self.children(goroutine, place, snapshot)
        if children:
            parts = all_of(children, COMES, beside=snapshot.anybody[0])
        if place.receives and may_rest(goroutine, place, snapshot):
            return rests(name, why, parts, [SYSTEM])
        return blocked(name, parts, [SYSTEM], reason=why)

    def inside(self, goroutine: Goroutine, name: str, snapshot: Goroutines) -> Tuple[Wakers, ...]:
        """Returns those in whose frames stands what one waits at, or who run a method of that whose lock it wants."""
        things = [*snapshot.objects[goroutine.number], *snapshot.locked.get(goroutine.number, ())]
        found = [some for thing in things for some in snapshot.reach.of(thing)]
        if not found or sum(len(some.names()) for some in found) > MOST:
            return ()
        return tuple(left for left in (some.without([name]) for some in found) if left.names())

    def children(self, goroutine: Goroutine, place: GoPlace, snapshot: Goroutines) -> List[str]:
        """Returns those whom one that waits for all of some has started, if the text says who has started whom."""
        if place.operation not in NEEDS_ALL or place.operation == WRITER:  # (of whose readers some hold no lock)
            return []
        return [self.names[other.number] for other in snapshot.rows() if other.parent == goroutine.number
                and not (other.state in NOBODY or other.is_leaked or snapshot.places[other.number].idle)]

    def finish(self, sketch: Sketch, snapshots: List[Goroutines]) -> None:
        """Adds the warnings, for each creator the group of those that it has created, and for each goroutine that of
        those who may start more like it."""
        sketch.warnings = list(dict.fromkeys([*self.warnings, *sketch.warnings]))
        if self.dumps[0].is_last:
            sketch.as_of = "as of SIGQUIT, which ended the program"
        rows: List[Goroutine] = snapshots[0].rows()
        idle = {self.names[goroutine.number]: place.idle for goroutine in rows
                for place in [snapshots[0].places[goroutine.number]] if place.idle in LIBRARYS}
        for process in sketch.processes:
            if process.reason == GONE and process.name in idle:  # (as that of the request for the state before)
                process.sign, process.parts, process.is_garbled = Sign.RESTS, any_of(unseen("outside")), False
                process.reason, process.because = idle[process.name], [SYSTEM]
        over = {self.names[goroutine.number] for goroutine in rows if goroutine.state in NOBODY or goroutine.is_leaked}
        starters = Starters(rows, snapshots[0].places, self.names, over)
        for goroutine in rows:
            sketch.groups[f"starters:{self.names[goroutine.number]}"] = starters.of(goroutine)
            if goroutine.parent in self.names:
                sketch.groups.setdefault(f"children:{self.names[goroutine.parent]}", []).append(
                    self.names[goroutine.number])
        if any(UNSEEN in names for names in [starters.callers, *starters.kept.values()]):
            sketch.processes.append(unseen_starter())
        if self.port and sketch.machine:
            reads = [self.names[goroutine.number] for goroutine in rows
                     if is_at_connection(goroutine) and snapshots[0].places[goroutine.number].idle not in LIBRARYS]
            inside = snapshots[0].everybody.names()
            sketch.connections = {f"listener {self.port}": {"inside": list(inside), "reads": reads}}


DOESNT_SHOW = "the state doesn't show what ends this wait"


def held_by(goroutine: Goroutine, snapshot: Goroutines, awaited: Set[Any]) -> Set[Any]:
    """Returns what a goroutine has of that which some wait at: the addresses in its frames, but for what it waits at
    itself, and that of which it runs methods."""
    held = awaited.intersection(chain.from_iterable(map(ADDRESSES, goroutine.calls)))
    held.difference_update(snapshot.objects[goroutine.number])
    runs = snapshot.places[goroutine.number].run
    return held.union(awaited.intersection(receivers_at(goroutine, runs))) if runs else held


def may_rest(goroutine: Goroutine, place: GoPlace, snapshot: Goroutines) -> bool:
    """Whether one that receives stands where one does who has nothing to do: at a signal or the end of the program, at
    the next connection, or in its own loop."""
    if snapshot.has_signals and (goroutine.number == MAIN and place.operation == "select"
                                 or OF_SIGNALS.search(place.function) is not None):
        return True
    return accepts_for_library(goroutine.frames, place.function) or is_in_own_loop(goroutine, snapshot)


def is_in_own_loop(goroutine: Goroutine, snapshot: Goroutines) -> bool:
    """Whether a goroutine stands in the function that it was started with, in none that it has called."""
    return len(own_calls(goroutine, snapshot.callers)) == 1 and not serves_request(goroutine.frames)


def missing_of(dump: GoDump, shown: List[Goroutine]) -> str:
    """Returns why goroutines, or frames of them that facts may ask for, aren't in a dump, if they may not be."""
    if dump.is_last and len(shown) == 1:
        return f"{dump.path} has one goroutine alone, as without GOTRACEBACK=all"
    odd = next((it.fault for it in shown if it.fault), dump.lost)
    if odd:
        return f"{odd}, so one may be missing, or what it holds"
    elided = [it for it in shown if not it.is_whole]
    if elided:
        return f"{elided[0].at}: frames of goroutine {elided[0].number} are elided, which may hold what others wait for"
    return ""


def also_at(names: List[str]) -> str:
    """Returns in whose frames stands too what a goroutine waits at, for a reader who looks for a fact."""
    if not names:
        return ""
    more = f" and {len(names) - NAMED} more" if names[NAMED:] else ""
    return f"; it stands in the frames of {', '.join(names[:NAMED])}{more} too, and others may have it"


def wait_for_nobody(goroutine: Goroutine, name: str) -> Process:
    """One at a nil channel or in an empty `select`. Main, or what main calls, rests in that, as a service does."""
    if goroutine.state == "select (no cases)" and goroutine.number == MAIN:
        return rests(name, END_OF_MAIN, any_of(unseen("outside")), [SYSTEM, premise(INTENT)])
    return blocked(name, any_of(), [SYSTEM])


# Two states


def has_left(first: Goroutine, later: Goroutine) -> bool:
    """Whether a goroutine has begun another wait, or stands elsewhere in the same line. The minutes of a wait only
    grow; one that sleeps in a loop comes back to the same sleep."""
    is_new = later.minutes < first.minutes and later.state != "sleep"
    return is_new or first.frames != later.frames and stack_of(first) != stack_of(later)


