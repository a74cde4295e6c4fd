"""Joins the sketches of several systems of one machine, by the threads that they share: what one knows counts where
another doesn't, and where two differ the process is unknown.

Each was read twice. All first readings have ended before a second one begins, so that there is a time at which all
waits lasted that were the same in both: a wait has to show by a count that it was.
"""
from __future__ import annotations

import functools
import itertools
import math
import re
from collections import Counter
from dataclasses import replace
from typing import AbstractSet, Dict, List, Optional, Sequence

from .connections import join_connections, merge_connections, on_machine, rename_connections, servers_first, serves
from .files import Refusal, shown
from .insides import insides
from .model import ANYBODY, Anybody, Part, Sign, Strength, Wakers, Who, once
from .nearness import PROCESS
from .sketch import (ALL, ANY, DONE, ENDED, INNER, RUNS, SYSTEM, UNKNOWN, UNREADABLE, WAITING, Process, Sketch, premise,
                     quote, reason_of)
from .snapshots import COME_BACK, UNCOUNTED, doubt_waits


LINE = re.compile(r" \(.+:\d+\)$")  # the end of a frame in a file of source


def join_sketches(sketches: Sequence[Sketch], paths: Sequence[str]) -> Sketch:
    """Returns one sketch of several. Raises Refusal if they are of no one time, or not of one machine."""
    sketches, paths = servers_first(sketches, paths)
    number = sum(bool(serves(sketch)) for sketch in sketches)
    check_machine(sketches[number:], paths[number:])
    check_times(sketches, paths)
    doubt_twins(sketches)
    joined = functools.reduce(join_two, [on_machine(sketch, sketches[-1].machine) for sketch in sketches])
    join_connections(joined)
    inside = insides(joined)
    doubt_waits([process for process in joined.processes if process.count is None and process.name not in inside],
                UNCOUNTED)
    return joined


def doubt_twins(sketches: Sequence[Sketch]) -> None:
    """Leaves those unknown in each half whose thread several of one half have: which of them it is isn't known, so none
    is joined by it."""
    counts = Counter((id(sketch), process.thread) for sketch in sketches for process in sketch.processes
                     if process.thread and not process.thread.endswith("/"))
    twice = {thread for (_, thread), number in counts.items() if number > 1}
    for process in (process for sketch in sketches for process in sketch.processes if process.thread in twice):
        process.become_unknown(f"two processes of one state have its thread, {process.thread}")
        process.is_garbled, process.thread = True, ""


def check_machine(sketches: Sequence[Sketch], paths: Sequence[str]) -> None:
    for sketch, path in zip(sketches, paths):
        if not sketch.machine:
            raise Refusal(f"{shown(path)}: its state doesn't say of which machine it is, so its threads can't be told "
                          "from others: Linux, Python and the JVM, read by this version, do")
        if sketch.machine != sketches[0].machine:
            raise Refusal(f"{shown(path)} is of {quote(sketch.machine)}, and {shown(paths[0])} of "
                          f"{quote(sketches[0].machine)}: only what is of one machine and one container is joined")


def check_times(sketches: Sequence[Sketch], paths: Sequence[str]) -> None:
    for sketch, path in zip(sketches, paths):
        if len(sketch.times) < 2:
            raise Refusal(f"{shown(path)}: two readings are needed, with the time of each")
    last = max(range(len(paths)), key=lambda at: sketches[at].times[0][1])
    early = min(range(len(paths)), key=lambda at: sketches[at].times[1][0])
    if sketches[last].times[0][1] >= sketches[early].times[1][0]:
        enough = 2 * math.ceil(sketches[last].times[0][1] - sketches[early].times[0][1])
        raise Refusal(f"the second reading of {shown(paths[early])} began before the first one of {shown(paths[last])} "
                      "had ended, so they show no one time: take both at once, with more time between: "
                      f"--seconds {enough}")


def join_two(first: Sketch, second: Sketch) -> Sketch:
    """Returns the sketch of two, in which the threads of both have the names of the first."""
    names = new_names(first, second)
    free = {**freeing_nobody(second, names), **freeing_nobody(first)}
    second = rename(second, names, new_premises(first, second))
    check_facts(first, second)
    others = {process.name: process for process in second.processes}
    mine = {process.name for process in first.processes}
    known = serves(first)
    processes = [join_process(it, others[it.name], mine, others.keys()) if it.name in others and it.name not in known
                 else it for it in first.processes]
    processes += [it for it in second.processes if it.name not in mine]
    idle, readers = {*first.idle, *second.idle}, {*first.readers, *second.readers}
    inner = {*first.inner, *second.inner}
    for process in processes:
        is_calm = process.thread in idle and process.kind != ENDED
        if is_calm:  # (one that went on between came back to where it has nothing to do)
            process.sign = Sign.TICKS if process.kind == RUNS else Sign.RESTS
            process.reason = "has nothing to do"
        if process.thread in readers or process.thread in inner and (process.kind == UNKNOWN or joins(process)):
            process.because = []
            why = SYSTEM if process.thread in readers else premise(INNER)
            process.become(Sign.ENDED, DONE, [why])  # (it ends nobody's wait)
    processes = [without_bystanders(it, free) for it in processes] if free else processes
    pairs = list(dict.fromkeys([*first.in_transit, *second.in_transit]))
    return Sketch(processes, pairs, f"{first.system} and {second.system}", first.as_of,
                  list(dict.fromkeys([*first.warnings, *second.warnings])), {**first.premises, **second.premises},
                  [*first.facts, *(row for row in second.facts if row not in first.facts)],
                  min(first.readings, second.readings), {**first.groups, **second.groups},
                  first.machine or second.machine,
                  [[min(a[0], b[0]), max(a[1], b[1])] for a, b in zip(first.times, second.times)], sorted(idle),
                  sorted(readers), sorted(inner), merge_connections(first.connections, second.connections),
                  {**begun_by(second, first), **first.begun_by})


def begun_by(second: Sketch, first: Sketch) -> Dict[str, str]:
    """Returns by what the second sketch says which site was begun by which, with the sites of the first where that has
    a process of them too."""
    mine = {process.name: process.site for process in first.processes}
    sites = {process.site or "": mine.get(process.name) or process.site or "" for process in second.processes}
    return {sites.get(site, site): sites.get(above, above) for site, above in second.begun_by.items()}


def joins(process: Process) -> bool:
    """Whether one waits for the end of others alone, as the thread does that a JVM's launcher began with: so it frees
    nobody before."""
    return bool(process.parts) and all(group.how == "ends" for part in process.parts for group in part)


def freeing_nobody(sketch: Sketch, names: Optional[Dict[str, str]] = None) -> Dict[str, str]:
    """Returns those who end nobody's wait by a fact, by what they are called in both, with the fact as a reason."""
    return {(names or {}).get(name, name): reason_of(row) for row in sketch.facts
            for name in row.get("took", {}).get("nobody", [])}


def without_bystanders(process: Process, free: Dict[str, str]) -> Process:
    """Returns a process among whose wakers nobody is who ends nobody's wait by a fact on another system."""
    gone = dict.fromkeys(free[name] for part in process.parts for some in part for name in some.names() if name in free)
    if not gone or len(process.parts) > 1:
        return process
    part = tuple(left for left in (some.without(free) for some in process.parts[0])
                 if left.names() or isinstance(left.who, Anybody))
    return replace(process, parts=[part], because=list(dict.fromkeys([*process.because, *gone])))


def new_names(first: Sketch, second: Sketch) -> Dict[str, str]:
    """Returns for each process of the second sketch what it is called: as in the first if that has its thread, or it
    can't be read in both, or else by its own name, with its system, its site or a number where another has that."""
    by_thread = {process.thread: process.name for process in first.processes if process.thread}
    mine = {process.name for process in first.processes}
    unread = {process.name for process in first.processes if process.frames == [UNREADABLE]}
    names = {process.name: process.name for process in second.processes}
    for name, process in ((process.name, process) for process in second.processes):
        own = process.site if second.system in first.system else second.system, process.site, process.thread
        forms = (f"{name} ({more})" for more in itertools.chain(filter(None, own), itertools.count(2)))
        if process.thread in by_thread:
            names[name] = by_thread[process.thread]
        elif name in mine and not (name in unread and process.frames == [UNREADABLE]):
            names[name] = next(form for form in forms if form not in mine and form not in names)
    return names


def new_premises(first: Sketch, second: Sketch) -> Dict[str, str]:
    """Returns what each premise of the second sketch is called, where the first has one of this name that says
    something else."""
    return {name: f"{second.system} {name}" for name, sentence in second.premises.items()
            if first.premises.get(name, sentence) != sentence}


def rename(sketch: Sketch, names: Dict[str, str], premises: Dict[str, str]) -> Sketch:
    reasons = {premise(name): premise(new) for name, new in premises.items()}
    lists: Dict[int, Who] = {id(ANYBODY): ANYBODY}

    def of(some: Wakers) -> Wakers:
        if id(some.who) not in lists:
            lists[id(some.who)] = [names[name] for name in some.names()]
        return some._replace(who=lists[id(some.who)], because=tuple(reasons.get(it, it) for it in some.because))

    parts_of = once(lambda parts: [tuple(map(of, part)) for part in parts])
    processes = [replace(it, name=names[it.name], parts=parts_of(it.parts),
                         because=[reasons.get(reason, reason) for reason in it.because]) for it in sketch.processes]
    return replace(sketch, processes=processes, in_transit=[(names[a], names[b]) for a, b in sketch.in_transit],
                   premises={premises.get(name, name): text for name, text in sketch.premises.items()},
                   connections=rename_connections(sketch.connections, names))


def check_facts(first: Sketch, second: Sketch) -> None:
    """Raises Refusal if two lines of facts that differ are called the same."""
    texts = {row["at"]: row["text"] for row in first.facts}
    for row in second.facts:
        if texts.get(row["at"], row["text"]) != row["text"]:
            raise Refusal(f"two lines of facts are called {quote(row['at'])}: give the two files different names")


def join_process(one: Process, other: Process, mine: AbstractSet[str], others: AbstractSet[str]) -> Process:
    """Returns a process by what both know of it, each of which has those of some names: who waits by one system, and
    goes on by the other, isn't understood."""
    odd = next((it for it in (one, other) if it.is_garbled), None)
    known, less = (one, other) if one.kind != UNKNOWN else (other, one)
    if one.sign is Sign.SLEEPS and other.sign in COME_BACK:  # (only the other one counts that it has come back)
        known, less = other, one
    counts = [reason for reason in less.because if reason.startswith("premise ")]  # (others may last as it does)
    made = replace(known, name=one.name, site=one.site, thread=one.thread, frames=frames_of(known, less),
                   because=list(dict.fromkeys([*known.because, *counts])),
                   note="; ".join(dict.fromkeys(filter(None, [one.note, other.note]))))
    if odd is not None:
        made.become_unknown(odd.reason)
        made.is_garbled = True
    elif less.kind == UNKNOWN:
        join_unknown(made, known, less)
    elif one.kind == other.kind == ANY and is_within(one, other, others):
        made.parts = [(*one.parts[0], *against_in(other))]
        made.because = list(dict.fromkeys([*one.because, *other.because]))
    elif one.kind == other.kind == ANY and is_within(other, one, mine):
        made.parts = [(*other.parts[0], *against_in(one))]
        made.because = list(dict.fromkeys([*one.because, *other.because]))
    elif one.kind == other.kind and {*one.whom} == {*other.whom}:
        made.because = list(dict.fromkeys([*one.because, *other.because]))
    elif {one.kind, other.kind} <= {ANY, ALL} and not {*one.whom}.isdisjoint(other.whom):  # (each may see one more)
        made.parts = [tuple(group for process in (one, other) for part in process.parts for group in part)]
        made.because = list(dict.fromkeys([*one.because, *other.because]))
    else:
        made.become_unknown(f"the two differ: by one it {words_for(one)}, by the other it {words_for(other)}")
        made.is_garbled = True
    return made


def frames_of(known: Process, less: Process) -> List[str]:
    """Returns the frames of the one that has lines of source among them: the kernel has none of a runtime's."""
    has_lines = [any(LINE.search(text) for text in process.frames) for process in (known, less)]
    return less.frames if has_lines == [False, True] else known.frames


def join_unknown(made: Process, known: Process, less: Process) -> None:
    """Adds to a process what the system says of it that knows less: who is against, and where nothing more is known its
    wakers too."""
    if known.kind == UNKNOWN:
        resting = [one.reason for one in (known, less) if one.sign is Sign.RESTS]
        made.reason = "; ".join(dict.fromkeys(resting or [known.reason, less.reason]))
        made.sign = Sign.RESTS if resting else less.sign if known.sign is Sign.UNKNOWN else known.sign
        made.parts = known.parts or less.parts
    elif known.sign in WAITING:
        against = against_in(less)
        made.parts = [(*part, *against) for part in known.parts] if against else known.parts
        if less.sign is Sign.RESTS:  # (the other one, as the kernel, only sees that it waits)
            made.sign, made.reason = Sign.RESTS, less.reason


def is_within(less: Process, more: Process, there: AbstractSet[str]) -> bool:
    """Whether one system names some of those alone who may end a wait by the other. Where anybody of its process may,
    these may be its tasks too, which the other system doesn't have."""
    is_of_any = {some.how for part in more.parts for some in part if some.strength is Strength.ABLE} == {PROCESS}
    return {name for name in less.whom if name in there or not is_of_any} < {*more.whom}


def against_in(process: Process) -> Part:
    return tuple(some for part in process.parts for some in part if some.strength is Strength.AGAINST)


def words_for(process: Process) -> str:
    """Returns in words what one does, with the first of those that it waits for."""
    if process.kind not in (ANY, ALL):
        return "runs" if process.kind == RUNS else "has ended"
    names: List[str] = [quote(name) for name in process.whom[:3]] + (["others"] if process.whom[3:] else [])
    return f"{process.kind.replace('_', ' ')} of {', '.join(names) or 'nobody'}"
