"""What all parsers share: from the readings of a system to its sketch.

A parser derives from Parser and fills in `read`, `processes` and `process_of`: what it sees of each process, with whom
it waits for and how each of these may end the wait. It decides nothing: `rule` does. A wait has a reason: the system
keeps the list itself (SYSTEM), or an assumption says so. What in a state breaks an assumption makes the process
unknown, here and for every parser alike; so does whatever keeps two readings from showing one wait.
"""
from __future__ import annotations

import itertools
import json
import re
from collections import Counter
from functools import lru_cache
from typing import Any, Callable, Dict, Iterable, Iterator, List, NamedTuple, Optional, Sequence, Set, Tuple, Type

from ..core.assumptions import sentence_of
from ..core.files import Refusal, shown
from ..core.model import Part, Wakers, once, unseen, wakers
from ..core.sketch import Process, Sketch, once_each, quote
from ..core.snapshots import APART, CUT, OVERLAP, PARTS, WHOLE, Moments, Reading, compare, doubt_waits, left_out, \
    overlap, snapshots_of
from . import State

FAR = 3600.0  # seconds: a limit that ends later helps nobody who looks on
LOOPS = re.compile(r"(?i).*\.(?:\w*loop|(?:run|serve|monitor)\w*)")
KEPT = 65536  # lists of reasons whose assumptions are kept
COUNT = range(1 << 63)  # the shape of a number that counts something
Check = Callable[[Any], Optional[str]]
CHECKS: Dict[int, Tuple[Any, Check]] = {}  # by the id of a shape
# A function of the job's own that only sleeps.
SLEEPS = re.compile(r"(?i)(?:.*[.:])?(?:\w*sleep\w*|\w*nap|pause\w*|delay\w*|snooze|doze|rest|idle|wait\w*|await\w*)"
                    r"(?:/\d+)?")


class Break(NamedTuple):
    """What in a state breaks an assumption: `shown_by` looks at one process of a snapshot, and returns in words what
    breaks it there, or nothing. Where it `is_of_process`, no fact on its wait makes up for it."""

    shown_by: Callable[[Any, Any], str]
    is_of_process: bool = False


class Snapshot:
    """The readings of all sources at one time. A source that was not read then is left out. `moments` has how each
    process was read, ONCE, WOKEN or APART, or nothing where it was read as others are. A parser that finds more for all
    processes in `prepare` derives its own from it, which says what that is."""

    def __init__(self, readings: Sequence[Optional[Reading]]) -> None:
        self.readings = [reading for reading in readings if reading is not None]
        self.moments: Moments = {}
        whole = len(self.readings) == len(readings)
        extents = {reading.extent for reading in self.readings} | (set() if whole else {PARTS})
        self.extent = next((extent for extent in (PARTS, CUT, WHOLE) if extent in extents), WHOLE)

    def rows(self) -> List[Any]:
        return [row for reading in self.readings for row in reading.rows]

    def lacks(self) -> bool:
        """Whether processes may be missing."""
        return any(reading.missing for reading in self.readings)

    def time(self) -> List[float]:
        """Returns when the first of its readings began and the last ended, or nothing if one doesn't say."""
        times = [reading.time for reading in self.readings if reading.time is not None]
        whole = times and len(times) == len(self.readings)
        return [min(begin for begin, _ in times), max(end for _, end in times)] if whole else []


class Reachable:
    """Who can reach what: by each object, those who may end a wait at it, in which way and why. A parser adds a row for
    each reference, descriptor, frame or subscription that it sees, and those who wait at one object share its lists."""

    def __init__(self) -> None:
        self.rows: Dict[Any, Dict[Tuple[str, Tuple[str, ...]], Dict[str, None]]] = {}
        self.found: Dict[Any, Tuple[Wakers, ...]] = {}

    def add(self, thing: Any, who: Iterable[str], how: str, *because: str) -> None:
        """Says that some can reach a thing, in a way that is a word of HOWS."""
        self.rows.setdefault(thing, {}).setdefault((how, because), {}).update(dict.fromkeys(who))
        self.found.pop(thing, None)

    def of(self, thing: Any) -> Tuple[Wakers, ...]:
        """Returns those who may end a wait at a thing."""
        if thing not in self.found:
            self.found[thing] = tuple(wakers(how, list(names), *because)
                                      for (how, because), names in self.rows.get(thing, {}).items())
        return self.found[thing]


class Parser:
    """Makes the sketch of the states of one system. `MOMENT` says how its processes are read: ONCE, WOKEN or APART;
    `IDLE` what those who have nothing to do are called; `SNAPSHOT_CLASS` is the class of its snapshots, and `BREAKS`
    has the assumptions that a state can show broken."""

    NAME, IDLE = "", "processes"
    MOMENT = APART
    SNAPSHOT_CLASS: Type[Snapshot] = Snapshot
    BREAKS: Dict[str, Break] = {}

    def read(self, state: State) -> Sequence[Reading]:
        """Returns the readings of a text, each source's own in the order of time."""
        raise NotImplementedError

    def begin(self, readings: List[Reading]) -> None:
        """Looks at all readings before any is used, as for names that stand for the same process in each."""

    def prepare(self, snapshot: Any) -> None:
        """Looks at all readings of one time, as for who reaches what."""

    def processes(self, snapshot: Any) -> Iterable[Any]:
        """Returns what there is of each process at one time, as `process_of` takes it: the rows, if nothing else is
        said."""
        rows: List[Any] = snapshot.rows()
        return rows

    def process_of(self, subject: Any, snapshot: Any) -> Process:
        """Returns the process: with its sign, its wait and the reasons for these."""
        raise NotImplementedError

    def finish(self, sketch: Sketch, snapshots: List[Any]) -> None:
        """Adds what the whole sketch needs besides, as warnings and groups."""

    # What all parsers do alike

    def record(self, states: List[State]) -> Sketch:
        """Returns the sketch of some states, as of the first, before facts. Each text is dropped once it is read, for
        some have hundreds of megabytes."""
        readings: List[Reading] = []
        for state in states:
            readings += self.read(state)
            state.text = ""
        self.begin(readings)
        snapshots = [self.SNAPSHOT_CLASS(of_one_time) for of_one_time in snapshots_of(readings)]
        sketches = [self.sketch_of(snapshot) for snapshot in snapshots]
        if self.MOMENT == APART and overlap(readings):
            doubt_waits(sketches[0].processes, OVERLAP)
        sketch = compare(sketches, [snapshot.extent for snapshot in snapshots], self.MOMENT,
                         [snapshot.moments for snapshot in snapshots])
        machines = {reading.machine for reading in readings}
        sketch.machine = machines.pop() if len(machines) == 1 else ""
        times = [snapshot.time() for snapshot in snapshots]
        sketch.times = times if all(times) else []
        self.finish(sketch, snapshots)
        add_left_out(sketch, left_out(readings))
        (name, number), = Counter(process.name for process in sketch.processes).most_common(1) or [("", 0)]
        if number > 1:
            where = ", ".join(dict.fromkeys(shown(state.path) for state in states))
            raise Refusal(f"{where}: two processes are called {quote(name)}: give the states of one job, each once")
        return sketch

    def sketch_of(self, snapshot: Snapshot) -> Sketch:
        """Returns the sketch of one time."""
        self.prepare(snapshot)
        sketch, reasons_of = Sketch([], system=self.NAME), once(reasons_in)
        for subject in self.processes(snapshot):
            process = self.process_of(subject, snapshot)
            snapshot.moments.setdefault(process.name, "")
            for name in assumptions_in((*process.because, *reasons_of(process.parts))):
                sketch.premises[name] = sentence_of(name)
                broken = self.BREAKS[name].shown_by(subject, snapshot) if name in self.BREAKS else ""
                if broken:
                    break_wait(process, broken, self.BREAKS[name].is_of_process)
            sketch.processes.append(process)
        return sketch


def break_wait(process: Process, why: str, is_of_process: bool) -> None:
    """Says of one that an assumption on it is broken: anybody may end its wait, or it isn't understood at all."""
    if is_of_process:
        process.become_unknown(why)
        process.is_garbled = True
    elif process.parts:
        process.reason = why
        process.parts = [(*part, unseen("unshown", why)) for part in process.parts]
    else:
        process.become_unknown(why)


def reasons_in(parts: Sequence[Part]) -> List[str]:
    """Returns the reasons for the wakers of a wait, each once."""
    return list(dict.fromkeys([reason for part in parts for group in part for reason in group.because]))


OPEN = ("reaches", "same-process", "inside", "subscribes", "guess")  # found by a search of what is printed


def add_left_out(sketch: Sketch, missing: List[Process]) -> None:
    """Adds those whom a state may lack: to the sketch, and to each wait whose wakers were found by a search."""
    sketch.processes += missing
    more = (wakers("left-out", [process.name for process in missing]),)
    with_more = once(lambda parts: [(*part, *more) if any(group.how in OPEN for group in part) else part
                                    for part in parts])
    for process in sketch.processes if missing else ():
        process.parts = with_more(process.parts)


@lru_cache(maxsize=KEPT)
def assumptions_in(because: Tuple[str, ...]) -> List[str]:
    """The names of the assumptions among some reasons. Many processes have the same, so nobody changes this list."""
    return list(dict.fromkeys(reason.split(" ", 1)[1] for reason in because if reason.startswith("premise ")))


ROW = json.JSONDecoder(object_pairs_hook=once_each)  # (to make one for each line takes long)


def row_in(line: str, mark: str = "") -> Optional[Dict[str, Any]]:
    """Returns the object of JSON that stands in a line behind a mark, or None: where there is none, or one that isn't
    whole, or that has a key twice."""
    try:
        row = ROW.decode(line[len(mark):]) if line.startswith(mark) else None
    except (ValueError, RecursionError):
        return None
    return row if isinstance(row, dict) else None


def misfits(value: Any, shape: Any) -> Iterator[str]:
    """Yields the first place in a value of JSON that hasn't its shape, as '.threads.0.tid', if there is one. A shape is
    a type, an expression that a text matches, a range that has a number, [SHAPE] of each entry, [SHAPE, SHAPE ..] of
    just these, [SHAPE, SHAPE, ...] of the first and any more of the second, {str: SHAPE} of each value, also with an
    expression for the keys, {KEY: SHAPE} of just these keys, where one that ends in '?' may be missing, with any others
    by {KEY: SHAPE, ...: object}, or a tuple of shapes, each of which will do."""
    place = misfit(value, shape)
    yield from () if place is None else (place,)


def fits(value: Any, shape: Any) -> bool:
    return misfit(value, shape) is None


def misfit(value: Any, shape: Any) -> Optional[str]:
    """Returns the first place that hasn't its shape, or None. Each value of a large state is looked at, so what does so
    is made once of each shape."""
    if id(shape) not in CHECKS:
        CHECKS[id(shape)] = shape, check_of(shape)  # (kept, so that its id stays its own)
    return CHECKS[id(shape)][1](value)


def check_of(shape: Any) -> Check:
    """Returns what finds the first place in a value that hasn't a shape."""
    if isinstance(shape, dict):
        return check_of_keys(shape)
    if isinstance(shape, list):
        return check_of_list([check_of(part) for part in shape if part is not ...], ... in shape)
    if isinstance(shape, tuple):
        return check_of_any({one for one in shape if isinstance(one, type)}, list(map(check_of, shape)))
    if isinstance(shape, range):
        return lambda value: None if type(value) is int and value in shape else ""
    if isinstance(shape, re.Pattern):
        return lambda value: None if isinstance(value, str) and shape.fullmatch(value) else ""
    return lambda value: None if type(value) is shape or shape is object else ""


def check_of_keys(shape: Dict[Any, Any]) -> Check:
    """Returns the check of an object by its shape: one for all keys that have a form, or one for each."""
    form: Any = next(iter(shape), "")
    if form is str or isinstance(form, re.Pattern):
        return check_of_rows(form, check_of(shape[form]))
    shapes = {key: wanted for key, wanted in shape.items() if key is not ...}
    return check_of_object([(key, key.rstrip("?"), wanted, check_of(wanted)) for key, wanted in shapes.items()],
                           ... in shape)


def check_of_any(types: Set[Any], checks: List[Check]) -> Check:
    """Returns the check of what has one of some shapes, by those of them that are types before all others."""
    def check(value: Any) -> Optional[str]:
        if type(value) in types:
            return None
        for one in checks:
            if one(value) is None:
                return None
        return ""
    return check


def check_of_each(one: Check) -> Check:
    """Returns the check of a list by that of each entry."""
    def check(value: Any) -> Optional[str]:
        for place, part in enumerate(value) if type(value) is list else ():
            odd = one(part)
            if odd is not None:
                return f".{place}{odd}"
        return None if type(value) is list else ""
    return check


def check_of_list(checks: List[Check], has_more: bool) -> Check:
    """Returns the check of a list: of each entry by the only one, or of as many as there are, or of more by the last.
    """
    if len(checks) == 1 and not has_more:
        return check_of_each(checks[0])

    def check(value: Any) -> Optional[str]:
        number, least = len(value) if type(value) is list else -1, len(checks) - has_more
        if number < least or number > least and not has_more:
            return ""
        wanted = itertools.chain(checks[:-1], itertools.repeat(checks[-1])) if has_more else checks
        places = ((place, one(part)) for place, (part, one) in enumerate(zip(value, wanted)))
        return next((f".{place}{odd}" for place, odd in places if odd is not None), None)
    return check


def check_of_rows(form: Any, of_part: Check) -> Check:
    """Returns the check of an object all of whose values have one shape, and its keys too unless `form` is str."""
    def check(value: Any) -> Optional[str]:
        if type(value) is not dict:
            return ""
        for key, part in value.items():
            odd = of_part(part) if form is str or form.fullmatch(key) else ""
            if odd is not None:
                return f".{key}{odd}"
        return None
    return check


def check_of_object(rows: List[Tuple[str, str, Any, Check]], has_more: bool) -> Check:
    """Returns the check of an object with a shape for each key: its row has the key with and without a mark that it may
    be missing. Unless it may have more, a key without a shape is odd."""
    names = {name for _, name, _, _ in rows}

    def check(value: Any) -> Optional[str]:
        if type(value) is not dict:
            return ""
        for key, name, wanted, of_part in rows:
            if name not in value:
                odd = None if name != key else ""
            else:
                odd = None if type(value[name]) is wanted else of_part(value[name])
            if odd is not None:
                return f".{name}{odd}"
        return None if has_more or value.keys() <= names else f".{next(key for key in value if key not in names)}"
    return check


def without_sleep(functions: List[str]) -> List[str]:
    """Returns functions but for the innermost one, if it only sleeps for the next one, as its name says."""
    is_sleep = functions[1:] and SLEEPS.fullmatch(functions[0].partition(" (")[0].partition("<")[0])
    return functions[1:] if is_sleep else functions


def is_loop(function: str) -> bool:
    """Whether a function is one that a thread, a task or a goroutine is there for, by its name."""
    return LOOPS.fullmatch(function) is not None


def one_line(text: str, width: int = 200) -> str:
    """Returns the beginning of a text on one line."""
    return re.sub(r"\s+", " ", text.strip())[:width]
