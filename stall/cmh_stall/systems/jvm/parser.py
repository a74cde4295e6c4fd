"""The parser for the JVM: texts of `jstack -l PID`, or of `jcmd PID Thread.dump_to_file`.

`jstack` stops all threads, and nobody but its owner gives a monitor or a lock of the JDK's back, so one state shows who
waits for an owner. One that has been woken may still stand at any other wait, so these need two states, and the same
processor time in both. `Thread.dump_to_file` stops nobody and counts nothing.

A wait with a limit has the operation 'timed put' in place of 'put'. It goes on by itself, unless a fact with that
operation says for whom it only waits again and again.
"""
from __future__ import annotations

import re
from typing import Dict, Iterable, List, Optional, Set

from ...core.model import Sign, wakers
from ...core.sketch import WAITING, WORK, Process, Sketch, frame, garbled, premise, quote
from ...core.snapshots import APART, ONCE, WHOLE, WOKEN, Reading
from .. import State
from ..base import Break, Parser, break_wait
from .dumps import read_dumps
from .frames import (AGAIN, BARRIER, CLEANER, HAS_TIMER, LIMITS_FUTURES, MEETS, NEEDS_ALL, REENTRANT, JvmPlace,
                     has_limit, is_at_rest, is_in, is_of_jvm, place_of)
from .heap import TIMER, HeapView, JvmHeap, is_between, read_heap
from .locks import Locks
from .states import check_dumps, doubt_threads, is_coarse, missing_of, names_of
from .text import JvmDump, JvmThread, stack_of
from .threads import MAIN, Everybody, JvmThreads
from .waits import NATIVE, TIMED, has_stood, is_locking, meetings_of, wait_of
from .whole import add_inner, count_owned, kernel_thread, owner_of

ELSEWHERE = "the heap shows it at another place, so its wait may have ended between the looks"
# A line of take-jvm that isn't known: `code` is of older ones, and nobody reads it any more.
ODD_MARK = re.compile(r"^# cmh(?! (?:began|ended|heap|virtual|limits|code) ).{0,9}", re.M)


def lost_of(dump: JvmDump, has_heap: bool, odd: str) -> str:
    """Returns what the lines of take-jvm around a dump lack, or nothing. `odd` is one that isn't understood."""
    if odd:
        return f"{dump.path}: a line begins with {quote(odd)}, which isn't understood"
    if has_heap and not dump.time:
        return (f"{dump.path}: a heap stands beside a dump whose lines '# cmh began ..' and '# cmh ended ..' aren't "
                "whole")
    return ""


class JvmParser(Parser):
    """The threads of one JVM, but for its own."""

    NAME, IDLE, MOMENT = "jvm", "threads", WOKEN
    SNAPSHOT_CLASS = JvmThreads
    BREAKS = {NATIVE: Break(has_stood)}

    def __init__(self) -> None:
        self.dumps: List[JvmDump] = []
        self.names: Dict[str, str] = {}
        self.heap: Optional[JvmHeap] = None
        self.everybody = Everybody([], [], [])
        self.scheduled: Set[str] = set()

    def read(self, state: State) -> List[Reading]:
        dumps = read_dumps(state.path, state.text)
        heap = read_heap(state.path, state.text)
        odd = next(iter(ODD_MARK.findall(state.text)), "")
        for dump in dumps:
            dump.lost = dump.lost or lost_of(dump, heap is not None, odd)
        self.heap = heap or self.heap
        self.dumps += dumps
        return [Reading(dump.path, self.NAME, [dump], missing_of(dump), WHOLE, machine=dump.machine, time=dump.time)
                for dump in dumps]

    def begin(self, readings: List[Reading]) -> None:
        """Checks that all states are of one JVM, names its threads, and sees through the collector."""
        check_dumps(self.dumps)
        doubt_threads(readings)
        self.names = names_of(self.dumps)
        if self.heap and not is_between(self.heap, self.dumps):
            self.dumps[0].warnings.append(f"{self.heap.place}: the heap wasn't dumped between the two states, so "
                                          "nothing is taken from it: take-jvm --heap does that")
            self.heap = None
        threads = [thread for dump in self.dumps for thread in dump.threads if not is_of_jvm(thread)]
        able = dict.fromkeys(self.names[thread.key] for dump in self.dumps for thread in awake_of(dump))
        before = {thread.key for thread in self.dumps[0].threads}
        newcomers = dict.fromkeys(self.names[thread.key] for thread in threads
                                  if thread.key not in before and self.names[thread.key] in able)
        self.scheduled = {thread.key for thread in threads if has_limit(thread) and place_of(thread).has(HAS_TIMER)}
        main = next((self.names[thread.key] for thread in threads if thread.name == MAIN), "")
        self.everybody = Everybody(list(able), self.periodic(threads), list(newcomers) if self.heap else [], main)

    def periodic(self, threads: List[JvmThread]) -> List[str]:
        """Returns the names of the timers that have nothing to do but what they do again and again."""
        rows = [(thread, self.heap.row_of(thread)) for thread in threads] if self.heap else []
        others = {thread.key for thread, wait in rows if wait is None or wait.kind != TIMER or not place_of(thread).has(
            HAS_TIMER)}
        return list(dict.fromkeys(self.names[thread.key] for thread, _ in rows if thread.key not in others))

    def prepare(self, snapshot: JvmThreads) -> None:
        snapshot.dump, = snapshot.rows()
        threads = snapshot.threads = snapshot.dump.threads
        snapshot.by_key = {thread.key: thread for thread in threads}
        snapshot.of_file = {self.names[thread.key] for thread in threads if thread.is_of_file}
        snapshot.names, snapshot.everybody, snapshot.scheduled = self.names, self.everybody, self.scheduled
        locks = snapshot.locks = Locks(threads, snapshot.dump.found_owners)
        snapshot.heap = HeapView(self.heap, threads, self.names, locks)
        snapshot.limited = {thread.key for thread in threads if thread.state == "TIMED_WAITING"}
        snapshot.breakers = [self.names[thread.key] for thread in threads if thread.key in snapshot.limited
                             and is_in(BARRIER, stack_of(thread))]
        snapshot.meetings = meetings_of(threads, locks)
        snapshot.counts = not is_coarse(snapshot.dump)
        snapshot.moved = {thing for thread in threads if not (thread.has_stood
                                                              and REENTRANT.fullmatch(thread.parked_class))
                          for thing in locks.objects.get(thread.key, [])}
        snapshot.known_owners, snapshot.known_runners, snapshot.known_able = {}, {}, {}
        snapshot.timers = [self.names[thread.key] for thread in threads if LIMITS_FUTURES.fullmatch(thread.name)
                           and thread.state != "WAITING"]
        snapshot.shows_owners = (snapshot.counts and not snapshot.lacks() and any(thread.owned for thread in threads)
                                 and not any(map(is_locking, threads)))

    def processes(self, snapshot: JvmThreads) -> Iterable[JvmThread]:
        held = snapshot.locks.wanted_holders() | snapshot.heap.inner_keys()
        return [thread for thread in snapshot.threads if thread.key in held or not is_of_jvm(thread)]

    def process_of(self, subject: JvmThread, snapshot: JvmThreads) -> Process:
        thread, name, site = subject, self.names[subject.key], site_of(snapshot.dump)
        if thread.fault:
            return garbled(name, thread.fault, site=site)
        place, here = place_of(thread), snapshot.locks.objects.get(thread.key, [])
        process = wait_of(thread, name, snapshot)
        if process.parts and snapshot.heap.is_elsewhere(thread):
            break_wait(process, ELSEWHERE, False)
        is_at_class = thread.state == "RUNNABLE" and process.parts and snapshot.locks.class_of(thread)
        own = {"BLOCKED": "synchronized", "RUNNABLE": "<clinit>" if is_at_class else ""}.get(thread.state, "")
        process.site, process.thread, process.frames = site, kernel_thread(thread, snapshot.dump), place.frames
        process.operation = process.operation or place.call or own
        process.objects = here if thread.same_as is None else thread.same_as
        process.is_collective = MEETS.fullmatch(place.call) is not None
        process.meeting = snapshot.meetings.get(thread.key, "")
        if NEEDS_ALL.fullmatch(place.call) and not process.is_collective:
            process.meeting = next(iter(here), name)
        of_class = next(iter(thread.monitors), "") \
            if thread.state == "BLOCKED" and thread.key in snapshot.locks.wanted else ""
        call = " ".join(filter(None, [place.call or own, of_class]))
        process.note = " at ".join(filter(None, [call, *place.frames[:1]])) + taken_in(thread, snapshot)
        if snapshot.dump.is_file or name in snapshot.of_file or owner_of(process) in snapshot.of_file:
            snapshot.moments[name] = APART
        process.stack, process.spent = stack_of(thread), thread.cpu if snapshot.counts else None
        set_count(process, thread, place, snapshot)
        return process

    def finish(self, sketch: Sketch, snapshots: List[JvmThreads]) -> None:
        count_owned(sketch.processes, [snapshot.moments for snapshot in snapshots])
        add_inner(sketch, snapshots)
        warnings = [line for dump in self.dumps for line in dump.warnings]
        sketch.warnings = list(dict.fromkeys([*warnings, *sketch.warnings]))
        ways = {place_of(thread).idle for thread in snapshots[0].threads} - {"", WORK, CLEANER}
        if not ways and all(process.sign is Sign.RESTS and process.reason == WORK for process in sketch.processes):
            for process in sketch.processes:  # (so that they aren't left out)
                process.reason = "it waits for work, and no thread is there to give it any"
                process.parts = [(wakers("same-process", [process.name]), *part) for part in process.parts]


def taken_in(thread: JvmThread, snapshot: JvmThreads) -> str:
    """Returns who has the monitor that a thread waits to enter, and in which frame it was taken, if the state shows
    that."""
    wanted = snapshot.locks.wanted.get(thread.key, "")
    keys = snapshot.locks.monitor_holders(wanted, thread.key) if wanted else []
    holder = snapshot.by_key.get(keys[0]) if len(keys) == 1 else None
    frames = zip(holder.frames, stack_of(holder)) if holder is not None else ()
    places = [frame(*row) for one, row in frames if ("locked", wanted) in one.marks]
    return f", which {snapshot.names[keys[0]]} took in {places[-1]}" if places else ""


def awake_of(dump: JvmDump) -> List[JvmThread]:
    """Returns the job's threads, but for those that do nothing until another one gives it to them. Workers of pools
    that end after a time are such ones, but for the last one: the JVM ends with the last thread that is no daemon, and
    the job's hooks run then."""
    own = [thread for thread in dump.threads if not is_of_jvm(thread)]
    stays = any(not thread.is_daemon and not has_limit(thread) for thread in own)
    return [thread for thread in own
            if not is_at_rest(thread) or not (stays or thread.is_daemon) and has_limit(thread)]


def set_count(process: Process, thread: JvmThread, place: JvmPlace, snapshot: JvmThreads) -> None:
    """Sets the processor time as its count. Who is blocked at a monitor, or only waits again, wakes up by itself and
    uses some, so that it counts nothing there."""
    is_once = snapshot.moments.get(process.name) == ONCE
    if is_once or place.has(AGAIN) or thread.state == "BLOCKED" or not thread.cpu or not snapshot.counts:
        return
    process.count = f"cpu {thread.cpu}"
    process.because = process.because + ([premise(TIMED)] if process.sign in WAITING else [])


def site_of(dump: JvmDump) -> str:
    return f"JVM {dump.pid}" if dump.pid else "the JVM"
