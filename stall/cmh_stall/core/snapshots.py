"""Several snapshots of one system, one after the other: who is at one and the same wait in all of them may be stuck,
and who has moved goes on.

The answer is as of the first snapshot. A deadlock never ends, so whoever was stuck then is at the same wait later. Two
snapshots show one wait if the system's own count says so: of context switches, of reductions. The same place alone does
not: a healthy loop comes back to it. A count that has grown at the same place leaves it unknown, since to be read may
add to it. Whoever differs in anything else is unknown: `change_of` decides that for all systems.
"""
from __future__ import annotations

import functools
import itertools
from collections import defaultdict
from dataclasses import dataclass, field
from enum import Enum
from itertools import chain, zip_longest
from operator import attrgetter
from typing import Any, DefaultDict, Dict, FrozenSet, Iterable, List, Optional, Sequence, Set, Tuple

from .files import escaped, short_name
from .model import Anybody, Part, Sign, Wakers, once, unseen
from .sketch import (BY_HAND, DONE, GOING, REST, SYSTEM, WAITING, Process, Sketch, lists_of_wakers, unknown, whom_of)

AS_OF = "as of the first of {} states"
# How the processes of a reading were read: all at one moment, so that one reading alone may decide; at one moment, but
# one that has been woken may still stand at its wait; or one after the other.
ONCE, WOKEN, APART = "once", "woken", "apart"
# How much of the system a reading has: all; all up to its end, which may be cut off; or anybody may be missing.
WHOLE, CUT, PARTS = "whole", "cut", "parts"

GONE = "it isn't in the second state"
ONE_STATE = "there is one state alone, and a wait that is about to end looks like any other"
OVERLAP = "its first state was read after a second one of another process, so the two show no one time"
UNCOUNTED = "nothing counts how often it has waited, so the states may show two waits"
NEW = "it came after the first state"
GROWN = "it may have come back to the same place between the looks, and go on"
DIFFER = "the states differ in whether it waits for any or for all"
SHOWN = 5  # names in a reason
# What one with a limit does, by what its place says, if a count says that it has come back there.
COME_BACK = {Sign.TICKS: Sign.TICKS, Sign.SLEEPS: Sign.POLLS, Sign.POLLS: Sign.POLLS}
COME = "the states differ in who hasn't come yet"
WAY = attrgetter("how", "strength", "what")  # in which way wakers end a wait
Moments = Dict[str, str]  # how processes were read, by their names
Stack = Sequence[Tuple[Any, ...]]  # frames, each as its function, its file, its line, and its address if that is known
Known = Dict[Tuple[int, int], Any]  # lists of two states in one, and waits for all, by the ids of both


@dataclass
class Reading:
    """What was read at one time from one source: a node, a JVM, a rank. `rows` are the parser's own, `missing` says
    why processes of the source may be missing in it, if they may, and `extent` how much it has. `machine` and `time`
    are where it was read, and when it began and ended, if the state says so."""

    path: str
    source: Any
    rows: List[Any] = field(default_factory=list)
    missing: str = ""
    extent: str = WHOLE
    site: str = ""
    machine: str = ""
    time: Optional[Tuple[float, float]] = None


def snapshots_of(readings: List[Reading]) -> List[List[Optional[Reading]]]:
    """Returns the readings of all sources for each time. The texts may be those of several sources, of several times,
    or both: each source's own are in the order of time. A source that was read less often than others has None."""
    sources: Dict[Any, List[Reading]] = {}
    for reading in readings:
        sources.setdefault(reading.source, []).append(reading)
    return [list(of_one_time) for of_one_time in zip_longest(*sources.values())]


def compare(sketches: List[Sketch], extents: List[str], moment: str, moments: Sequence[Moments] = ()) -> Sketch:
    """Returns the sketch of the sketches of one system, each as it was read later than the one before, where names
    stand for the same processes. `extents` has how much of the system each has, and `moment` is ONCE, WOKEN or APART
    unless `moments` of each has another one for a process."""
    made = functools.reduce(lambda first, row: merge(first, *row), zip(sketches[1:], extents[1:], extents), sketches[0])
    made.readings = len(sketches)
    set_signs(made, sketches[1:])
    doubt_waits([process for process in made.processes if (moment_of(process.name, moments) or moment) != ONCE and (
        len(sketches) == 1 or process.count is None)], ONE_STATE if len(sketches) == 1 else UNCOUNTED)
    return made


def moment_of(name: str, moments: Sequence[Moments]) -> str:
    """Returns how a process was read, if it was read in the same way each time and not as others of its system."""
    own = {own_moments[name] for own_moments in moments if name in own_moments}
    return own.pop() if len(own) == 1 else ""


def doubt_waits(processes: Iterable[Process], doubt: str) -> None:
    """Says of those that wait that somebody may have ended their waits between the looks, and why that isn't known."""
    doubted = once(lambda parts: [(*part, unseen("uncounted", doubt)) for part in parts])
    words = once(lambda parts: f"{doubt}; its place says that it waits for {words_of(parts)}")
    for process in processes:
        parts = process.parts
        if process.sign is Sign.UNKNOWN and not process.is_garbled:
            process.parts = doubted(parts or [(unseen("unshown"),)])
        elif process.sign in WAITING and parts and not any(group.how == "uncounted" for group in parts[0]):
            process.reason = words(parts) if process.sign is Sign.BLOCKED else process.reason
            process.parts = doubted(parts)


def words_of(parts: Sequence[Part]) -> str:
    """Returns for whom one waits, in words: for any or for all of the first few."""
    names = whom_of(parts)
    words = ", ".join(map(short_name, names[:SHOWN])) + (" .." if names[SHOWN:] else "")
    return f"{'any' if len(parts) == 1 else 'all'} of {words or 'nobody'}"


def both(first: Sketch, second: Sketch) -> Sketch:
    """Returns the sketch of two sketches of one system, in either of which somebody may be missing."""
    made = merge(first, second)
    set_signs(made, [second])
    return made


def set_signs(sketch: Sketch, later: Sequence[Sketch]) -> None:
    """Says of each one with a limit whether it has come back to its place, by its counts in the first sketch, whose
    processes these are, and in the last."""
    last = {process.name: process.count for process in later[-1].processes} if later else {}
    for process in sketch.processes:
        if process.sign in COME_BACK:
            counts = process.count, last.get(process.name)
            has_come_back = None not in counts and counts[0] != counts[1]
            process.sign = COME_BACK[process.sign] if has_come_back else Sign.SLEEPS


def merge(first: Sketch, second: Sketch, extent: str = PARTS, before: str = PARTS) -> Sketch:
    """Returns the sketch of two sketches of one system. `extent` says how much of the system the second has, and
    `before` how much the one that was read before it has. Those with a limit still have the sign that their place
    gives them."""
    later = {process.name: process for process in second.processes}
    missing = missing_names(first, later, extent)
    lists: Known = {}
    processes = [forget(process) if process.name in missing else process.copy(count=None) if is_unseen(
        process, later, extent) else join(process, later.get(process.name), lists) for process in first.processes]
    here = {process.name for process in processes}
    wanted = {name for names in lists_of_wakers(processes) for name in names} - here
    known = PARTS if PARTS in (extent, before) else extent
    processes += [newcomer(process, known) for process in second.processes if process.name in wanted]
    here |= wanted
    pairs = [pair for pair in dict.fromkeys([*first.in_transit, *second.in_transit]) if here.issuperset(pair)]
    warnings = list(dict.fromkeys([*first.warnings, *second.warnings]))
    number = sum(has_left(process, later) for process in first.processes) - len(missing)
    if number and extent == CUT:
        warnings.append(f"{number} of the first state are not in the second, which has others after them: they have "
                        "ended")
    readings = first.readings + second.readings
    return Sketch(processes, pairs, first.system or second.system, AS_OF.format("two" if readings == 2 else readings),
                  warnings, {**second.premises, **first.premises}, [*first.facts, *second.facts], readings,
                  {**second.groups, **first.groups}, begun_by={**second.begun_by, **first.begun_by})


def missing_names(first: Sketch, later: Dict[str, Process], extent: str) -> Set[str]:
    """The names that the second state may lack though they have not ended. Who computes in the first state runs."""
    if extent == WHOLE:
        return set()
    there = [place for place, process in enumerate(first.processes) if process.name in later]
    start = there[-1] + 1 if there and extent == CUT else 0
    return {process.name for process in first.processes[start:] if has_left(process, later)}


def is_unseen(process: Process, later: Dict[str, Process], extent: str) -> bool:
    """Whether one with a limit isn't in a second state that may lack anybody: nothing says that it has moved."""
    return extent == PARTS and process.name not in later and process.sign in COME_BACK


def has_left(process: Process, later: Dict[str, Process]) -> bool:
    """Whether one that waited in the first state isn't in the second."""
    return process.name not in later and process.sign not in (Sign.GOES_ON, Sign.ENDED)


def forget(process: Process) -> Process:
    """One that may have ended, or stand anywhere by now. No fact on its place decides it."""
    return process.copy(sign=Sign.UNKNOWN, parts=[], because=[], reason=GONE, frames=[], operation="", objects=[],
                        count=None, is_garbled=True)


def newcomer(process: Process, extent: str) -> Process:
    """One of the second state alone: it came after the first, if both have all that were there. If it has nothing to do
    already, it rests, for all that its one state says."""
    if process.is_garbled and process.sign is Sign.UNKNOWN:
        return process  # (it may be one of the first state, by another name)
    if extent == PARTS and process.sign not in GOING:
        return process.copy(sign=Sign.UNKNOWN, parts=[], because=[], reason="it isn't in the first state")
    if process.sign is Sign.RESTS:
        return with_doubt(process, NEW)
    return process.copy(sign=Sign.GOES_ON, parts=[], because=[SYSTEM], reason=NEW)


def with_doubt(process: Process, why: str) -> Process:
    """One at rest in each of some states that has it, where these aren't known to show one wait."""
    return process.copy(parts=[(*part, unseen("uncounted", why)) for part in process.parts])


def join(process: Process, later: Optional[Process], known: Known) -> Process:
    """Returns a process of the first state as it is by both."""
    if process.is_garbled and process.sign is Sign.GOES_ON:
        return process  # (it has moved before)
    odd = process if process.is_garbled else later
    if odd is not None and odd.is_garbled:
        return process.copy(sign=Sign.UNKNOWN, parts=[], because=[], reason=odd.reason, is_garbled=True, count=None)
    if process.sign is Sign.ENDED:
        return end_by_both(process, later)
    if later is None or later.sign is Sign.ENDED:
        return leaver_of(process, "it has ended since", process.sign)
    change = change_of(process, later)
    if change is Change.MOVED:
        return leaver_of(process, "it has moved", later.sign)
    if change is not Change.STAYED:
        return process.copy(sign=Sign.UNKNOWN, parts=[], because=[], reason=change.value, is_garbled=True, count=None)
    going = process if process.sign in GOING else later
    if going.sign in GOING and (SYSTEM in going.because or Sign.UNKNOWN not in (process.sign, later.sign)):
        return runner_of(process, later)
    return waiter_of(process, later, known)


class Change(Enum):
    """What two looks at a process show, one beside the other."""

    STAYED = "it stands at one place"
    MOVED = "it has moved"
    UNCLEAR = "the states show it at two places, of which one isn't understood"
    UNCOUNTED = "the states show it at two places, and its count says that it hasn't moved"
    DIFFERS = "it waits by one state, and doesn't by another, at one place and by one count"


class Count(Enum):
    """What the counts of two looks say, if both have one."""

    EQUAL, GROWN, NONE = "equal", "grown", "none"


# What looks at two places show: where that isn't understood as one move, where it waits at one of them, and where it
# computes or rests at both. A count says that it hasn't moved where it grows with each move.
ELSEWHERE = {
    ("unclear", Count.EQUAL): Change.UNCLEAR, ("unclear", Count.GROWN): Change.UNCLEAR,
    ("unclear", Count.NONE): Change.UNCLEAR,
    ("waits", Count.EQUAL): Change.UNCOUNTED, ("waits", Count.GROWN): Change.MOVED, ("waits", Count.NONE): Change.MOVED,
    ("free", Count.EQUAL): Change.MOVED, ("free", Count.GROWN): Change.MOVED, ("free", Count.NONE): Change.MOVED}


def change_of(process: Process, later: Process) -> Change:
    """Returns what two looks at a process show. What isn't understood in one of them is no move."""
    count, spent = compare_counts(process.count, later.count), compare_counts(process.spent, later.spent)
    signs = {process.sign, later.sign}
    if is_elsewhere(process, later):
        is_clear = is_one_move(process.stack, later.stack) if process.stack and later.stack else \
            Sign.UNKNOWN not in signs or Count.GROWN in (count, spent)
        is_free = signs == {Sign.GOES_ON} or signs == {Sign.RESTS}
        return ELSEWHERE["unclear" if not is_clear else "free" if is_free else "waits", spent]
    is_one = spent is Count.EQUAL and not (signs.isdisjoint(WAITING) or signs.isdisjoint(GOING))
    return Change.DIFFERS if is_one else Change.STAYED


def compare_counts(first: Optional[str], later: Optional[str]) -> Count:
    return Count.NONE if first is None or later is None else Count.EQUAL if first == later else Count.GROWN


def is_one_move(first: Stack, later: Stack) -> bool:
    """Whether one may have come from a stack to another one. The outermost frame stays, and none is lost between
    others that stay. A function that has gone on in its place is of one file, no line is that of two functions there,
    and no address that of two lines."""
    outer, inner = shared_frames(reversed(first), reversed(later)), shared_frames(first, later)
    if outer >= min(len(first), len(later)):
        return True
    if inner and outer + inner >= min(len(first), len(later)):
        return len(first) == len(later) and outer > 0 and is_step(first[inner], later[inner])
    return is_step(first[-1 - outer], later[-1 - outer]) and (outer > 0 or first[-1][0] == later[-1][0])


def shared_frames(first: Iterable[Any], later: Iterable[Any]) -> int:
    """Returns how many frames of two stacks are the same, from one end on."""
    return sum(1 for _ in itertools.takewhile(lambda pair: pair[0] == pair[1], zip(first, later)))


def is_step(one: Sequence[Any], other: Sequence[Any]) -> bool:
    """Whether a frame may have come in the place of another one."""
    is_another = one[3:] != other[3:] or not any(one[3:])  # (no address is that of two lines)
    if one[0] != other[0]:
        return is_another and (one[1:3] != other[1:3] or one[2] is None)
    return one[1] == other[1] and (one[2] == other[2] or is_another)


def leaver_of(process: Process, why: str, last: Sign) -> Process:
    """One that isn't at the same wait in both states. One at rest in each that has it only rests, and else it moves."""
    is_at_rest = process.sign is Sign.RESTS and last is Sign.RESTS
    return with_doubt(process, why) if is_at_rest else mover_of(process, why)


def mover_of(process: Process, why: str) -> Process:
    """One that isn't at the same wait in both states, nor at rest in each: a deadlock never ends. Nor does a fact on
    the place that it has left decide it."""
    is_by_hand = BY_HAND in process.because
    return process.copy(sign=Sign.GOES_ON, parts=[], reason=process.reason if process.sign in GOING else why,
                        because=[BY_HAND if is_by_hand else SYSTEM], operation="", is_garbled=process.sign in GOING)


def runner_of(process: Process, later: Process) -> Process:
    """One that goes on in one of the states at least, at the same place in both. One with a limit keeps its sign and
    its first count, by which it is seen whether it has come back, unless the states differ in what it does there."""
    one = next(either for either in (process, later) if either.sign in GOING)
    signs = {process.sign, later.sign}
    if Sign.GOES_ON in signs:
        one = next(either for either in (process, later) if either.sign is Sign.GOES_ON)
    is_same = process.sign is later.sign
    sign = Sign.GOES_ON if Sign.GOES_ON in signs else process.sign if is_same else Sign.SLEEPS
    return process.copy(sign=sign, parts=[], reason=one.reason, because=one.because,
                        count=process.count if is_same else None)


def waiter_of(process: Process, later: Process, known: Known) -> Process:
    """One that waits at the same place in both states."""
    made = process.copy()
    made.count = process.count if process.count == later.count else None
    made.because = list(dict.fromkeys([*process.because, *later.because]))
    if Sign.UNKNOWN in (process.sign, later.sign):
        made.sign, made.parts = Sign.UNKNOWN, []
        made.reason = process.reason if process.sign is Sign.UNKNOWN else later.reason
        return made
    made.sign = process.sign if process.sign is later.sign else Sign.BLOCKED
    key = id(process.parts), id(later.parts)
    if key not in known:
        known[key] = parts_of_both(process.parts, later.parts, known)
    made.parts = known[key]
    if (len(process.parts) > 1) != (len(later.parts) > 1):
        made.become_unknown(DIFFER)
    elif not made.parts and process.parts:
        made.become_unknown(COME)
    elif None not in (process.count, later.count) and made.count is None:
        return with_doubt(made, GROWN) if made.sign is Sign.RESTS else made.copy(sign=Sign.UNKNOWN, reason=GROWN)
    return made


def parts_of_both(first: List[Part], second: List[Part], known: Known) -> List[Part]:
    """Returns the parts of a wait that can make up no deadlock: any of both states, or all that no state says to have
    come."""
    if len(first) == 1 and len(second) == 1:
        return [part_of_both(first[0], second[0], known)]
    later = {names_of_part(part): part for part in second}
    keys = map(names_of_part, first)
    return [part_of_both(part, later[key], known) for part, key in zip(first, keys) if key in later]


def names_of_part(part: Part) -> FrozenSet[str]:
    """Returns the first ones of whom a part needs one, whatever their order."""
    return frozenset(part[0].names()) if part else frozenset()


def part_of_both(first: Part, second: Part, known: Known) -> Part:
    """Returns the wakers of both states. Where they have the same list it stays one that waits may share."""
    later: DefaultDict[Tuple[object, ...], List[Wakers]] = defaultdict(list)
    for group in second:
        later[WAY(group)].append(group)
    made = [wakers_of_both(group, (later[WAY(group)] or [group]).pop(0), known) for group in first]
    return (*made, *chain.from_iterable(later.values()))


def wakers_of_both(first: Wakers, second: Wakers, known: Known) -> Wakers:
    """Returns the wakers of both states. `known` has the lists that are made of two, for all waits that share these."""
    if isinstance(first.who, Anybody) or isinstance(second.who, Anybody):
        return first if isinstance(first.who, Anybody) else second
    key = id(first.who), id(second.who)
    if key not in known:
        is_whole = first.who == second.who or set(second.who) <= set(first.who)
        known[key] = first.who if is_whole else list(dict.fromkeys([*first.who, *second.who]))
    if known[key] is first.who:
        return first
    return first._replace(who=known[key], because=tuple(dict.fromkeys([*first.because, *second.because])))


def end_by_both(process: Process, later: Optional[Process]) -> Process:
    """One that has ended. It did so well if one of the states says so: that makes up no deadlock."""
    if later is not None and later.sign is not Sign.ENDED:
        return process.copy(sign=Sign.UNKNOWN, because=[], is_garbled=True,
                            reason="it has ended by one state, and is there in the next")
    done = later is not None and later.reason == DONE
    return process.copy(reason=DONE) if done else process


def is_elsewhere(process: Process, later: Process) -> bool:
    """Whether the places of two states differ. What has no place is told by its count, or else by its wait. Where one
    state shows no place, nothing is known to differ."""
    place, later_place = process.place, later.place
    if any(place) or any(later_place):
        return place != later_place and any(place) and any(later_place)
    if compare_counts(process.count, later.count) is Count.EQUAL:
        return False
    waits = [(either.kind, set(either.whom)) for either in (process, later)]
    return waits[0] != waits[1] and all(either.sign in WAITING for either in (process, later))


def overlap(readings: List[Reading]) -> Optional[Reading]:
    """Returns the first reading of a text that stands after a later one of another source, or None. Readings of several
    texts have no order."""
    times: Dict[Any, int] = {}
    highest: Dict[str, int] = {}
    for reading in readings:
        time = times[reading.source] = times.get(reading.source, 0) + 1
        if time < highest.get(reading.path, 0):
            return reading
        highest[reading.path] = max(time, highest.get(reading.path, 0))
    return None


def left_out(readings: List[Reading]) -> List[Process]:
    """Returns one unknown process for those of each place that its readings lack, if there may be any."""
    missing = {reading.site: reading for reading in reversed(readings) if reading.missing}
    return [unknown(f"{escaped(site)}/{REST}" if site else REST, reading.missing, site=site or None, frames=[REST])
            for site, reading in missing.items()]

