"""Several states of one JVM: what their threads are called, whether they are of one JVM and in order, and what has
stood from the one to the next."""
from __future__ import annotations

import re
from collections import defaultdict
from typing import Dict, List, Optional, Tuple

from ...core.files import Refusal
from ...core.snapshots import PARTS, Reading
from .frames import is_of_jvm
from .locks import monitors_of, objects_of
from .text import JvmDump, JvmThread, stack_of

CONTRADICTS = "the states contradict each other in the first line of a thread"
HIDDEN = re.compile(r"(.+?)[/+](0x[0-9a-f]+)\.")
TICKS = (10, 15.625)  # milliseconds in which some operating systems count processor time
VIRTUAL = "jstack shows no virtual threads: take `jcmd PID Thread.dump_to_file -format=json FILE` twice instead"


def check_dumps(dumps: List[JvmDump]) -> None:
    """Raises Refusal unless all are of one JVM, in the order of time, and sees through the collector."""
    for before, later in zip(dumps, dumps[1:]):
        check_same(dumps[0], later)
        check_different(before, later)
        check_order(before, later)
        follow(dumps[0], later)


def check_same(first: JvmDump, later: JvmDump) -> None:
    """Raises Refusal if two states have no thread in common, so that they are of two JVMs."""
    before = {thread.identity for thread in first.threads if thread.identity}
    if before and not any(thread.identity in before for thread in later.threads):
        raise Refusal(f"{later.path}: it has no thread of {first.path}: two states of one JVM are expected")


def check_different(first: JvmDump, later: JvmDump) -> None:
    """Raises Refusal if one state is there twice: two that are alike would show waits that it alone doesn't."""
    before, after = ({thread.key: thread.elapsed for thread in dump.threads if thread.elapsed}
                     for dump in (first, later))
    both = before.keys() & after.keys()
    is_at_once = first.time == later.time and both and all(before[key] == after[key] for key in both)
    if first.taken and first.taken == later.taken or is_at_once:
        raise Refusal(f"{later.path}: it is the same state as {first.path}, which was taken once: name it once, and "
                      "say 'still' in the facts if you know that nothing moves")


def check_order(first: JvmDump, later: JvmDump) -> None:
    """Raises Refusal if a state was taken before the first: then who has come since would have ended. A compiler of the
    JVM that ends, and begins again, has the same number and another address."""
    before = {(thread.key, thread.identity): float(thread.elapsed) for thread in first.threads if thread.elapsed}
    if any(float(thread.elapsed) < before.get((thread.key, thread.identity), 0) for thread in later.threads
           if thread.elapsed):
        raise Refusal(f"{later.path}: it was taken before {first.path}: the states are expected in the order of time")


def doubt_threads(readings: List[Reading]) -> None:
    """Says of threads that they aren't understood, whose first lines in two states contradict each other: a number is
    of one thread, and a new one has a higher one than all before. With such a newcomer its state isn't whole."""
    for before, reading in zip(readings, readings[1:]):
        first, later = before.rows[0], reading.rows[0]
        known = {thread.key: thread for thread in first.threads}
        newest = max((int(thread.number) for thread in first.threads if thread.number), default=0)
        hidden = {address: name for thread in first.threads for name, address in hidden_in(thread)}
        odd = [thread for thread in later.threads if not is_of_jvm(thread) and not may_follow(
            known.get(thread.key), thread, newest) or any(
                hidden.get(address, name) != name for name, address in hidden_in(thread))]
        for thread in odd:
            known.get(thread.key, thread).fault = thread.fault = thread.fault or f"{thread.place}: {CONTRADICTS}"
        if any(thread.key not in known for thread in odd):
            reading.extent, reading.missing = PARTS, reading.missing or f"{odd[0].place}: {CONTRADICTS}"


def hidden_in(thread: JvmThread) -> List[Tuple[str, str]]:
    """Returns the names of the hidden classes in whose methods a thread is, each with its address: a class of a lambda
    has one name."""
    return [(match[1], match[2]) for frame in thread.frames for match in [HIDDEN.match(frame.method)] if match]


def may_follow(before: Optional[JvmThread], thread: JvmThread, newest: int) -> bool:
    """Whether a thread may be that of an earlier state, or a new one."""
    if before is None:
        return thread.number is None or int(thread.number) > newest
    is_less = thread.cpu is not None and before.cpu is not None and float(thread.cpu) < float(before.cpu) - TICKS[-1]
    return not is_less and (before.identity, before.native) == (thread.identity, thread.native)


def follow(first: JvmDump, later: JvmDump) -> None:
    """Sees through the collector, which moves objects: who has the same frames in two states is at the same place,
    also if the address there is another one. Whether it has been there all the time, its processor time says."""
    before = {thread.key: thread for thread in first.threads}
    for thread in later.threads:
        old = before.get(thread.key)
        if old is None or old.state != thread.state or stack_of(old) != stack_of(thread):
            continue
        if old.same_as is None:
            old.same_as = objects_of(old, monitors_of(old))
        thread.same_as = old.same_as
        if thread.cpu is not None and thread.cpu == old.cpu:
            thread.has_stood = old.has_stood = True
        elif thread.cpu is not None:
            thread.has_ticked = old.has_ticked = True


def names_of(dumps: List[JvmDump]) -> Dict[str, str]:
    """Returns the name of each thread by its key: its own, the first if it has several, with a number if it isn't the
    only one of that name."""
    given = {thread.key: thread.name for dump in reversed(dumps) for thread in dump.threads}
    keys = defaultdict(set)
    for dump in dumps:
        for thread in dump.threads:
            keys[thread.name].add(thread.key)
    own = {key: name for key, name in given.items() if name and len(keys[name]) == 1}
    taken = set(own.values())
    for key, name in given.items():
        if key not in own:
            new = f"{name} {key}".strip()
            while new in taken:
                new += "'"
            own[key] = new
            taken.add(new)
    return own


def is_coarse(dump: JvmDump) -> bool:
    """Whether the processor times are those of ticks alone, in which a thread may be woken many times."""
    times = [float(thread.cpu) for thread in dump.threads if thread.cpu and float(thread.cpu)]
    return any(all(abs(time / tick - round(time / tick)) * tick < 0.01 for time in times) for tick in TICKS)


def missing_of(dump: JvmDump) -> str:
    """Returns why threads aren't in a dump, if they may not be."""
    odd = next((thread.fault for thread in dump.threads if thread.fault), dump.lost)
    if odd:
        return f"{odd}, so a thread may be missing, or what it holds"
    number = sum(thread.number is not None for thread in dump.threads)
    if number < dump.listed:
        return f"{dump.path}: the JVM lists {dump.listed} threads, and {number} are shown"
    has_virtual = any(thread.name.startswith("VirtualThread-un") for thread in dump.threads)
    if has_virtual and not (dump.is_file or dump.has_virtual):
        return f"{dump.path}: {VIRTUAL}"
    return ""
