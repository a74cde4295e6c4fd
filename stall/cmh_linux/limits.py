"""The limits of calls: how long each is, or when it ends; and for how long a thread has waited."""
from __future__ import annotations

import contextlib
import os
import platform
import re
import struct
import time
from typing import Dict, Iterable, List, Optional, Tuple

from cmh_proc.calls import (BY_CLOCK, FUTEX_LOCKS, FUTEX_WAITS, IN_MILLISECONDS, LIMITS, OPERATION, QUEUES, calls_of,
                            int32)
from cmh_proc.door import tids
from cmh_proc.memory import Memory
from cmh_proc.process import Row, inner_number, row_of, stat_of


IS_A_TIME = 1  # TIMER_ABSTIME
FAR = 3600.0  # seconds
RAN_AT = re.compile(r"^se\.exec_start *: *([0-9.]+)", re.M)
PROCESSOR = 36  # its place in `stat`, behind the name: the one where a thread has last run


def limit_of(call: str, args: List[int], memory: Memory) -> Row:
    """Returns how long the limit of a call is, in seconds, and in how many it ends; one of the two."""
    length, ends = limits_of(call, args, memory)
    return {} if length is None and ends is None else {"limit": [length, ends]}


def limits_of(call: str, args: List[int], memory: Memory) -> Tuple[Optional[float], Optional[float]]:
    if call in IN_MILLISECONDS:
        number = int32(args[LIMITS[call]])
        return (number / 1000, None) if number >= 0 else (None, None)
    place = args[LIMITS[call]] if call in LIMITS else 0
    data = memory.read(place, 16) if place else b""
    if len(data) < 16:
        return None, None
    seconds, parts = struct.unpack("=qq", data)
    value = round(seconds + parts / (1e6 if call == "select" else 1e9), 3)
    clock = clock_of(call, args)
    with contextlib.suppress(OSError, OverflowError):
        return (value, None) if clock is None else (None, round(value - time.clock_gettime(clock), 3))
    return None, None


def far_limits(pid: str) -> Dict[str, float]:
    """Returns in how many seconds the limits of those threads of a process end that wait for more than an hour, each by
    the number that the process itself has for it."""
    limits: Dict[str, float] = {}
    memory, calls = Memory(f"/proc/{pid}"), calls_of(platform.machine())
    for tid in tids(int(pid)):
        words = row_of(f"/proc/{pid}/task/{tid}/syscall").split()
        numbers = [int(word, 16) for word in words[1:]]
        is_known = len(numbers) > 6 and numbers[6] >> 32
        ends = limits_of(calls.get(int(words[0]), ""), numbers, memory)[1] if is_known else None
        if ends is not None and ends > FAR:
            limits[str(inner_number(f"/proc/{pid}/task/{tid}", tid))] = ends
    memory.close()
    return limits


def clock_of(call: str, args: List[int]) -> Optional[int]:
    """Returns the clock by which the limit of a call is a time, or None if it is how long it waits."""
    if call == "clock_nanosleep":
        return int32(args[0]) if args[1] & IS_A_TIME else None
    if call in QUEUES:
        return time.CLOCK_REALTIME
    if call != "futex" or args[1] & OPERATION == FUTEX_WAITS[0]:
        return None
    is_real = args[1] & BY_CLOCK or args[1] & OPERATION == FUTEX_LOCKS[0]
    return time.CLOCK_REALTIME if is_real else time.CLOCK_MONOTONIC


def add_ages(rows: Iterable[Row]) -> None:
    """Adds to each thread that sleeps for how long it has done so, in seconds, if the kernel says that."""
    clocks = Clocks()
    for row in rows:
        for thread in row.get("threads", ()):
            waited = clocks.waited(f"/proc/{row['pid']}/task/{thread['tid']}") if "counts" in thread else None
            if waited is not None:
                thread["waited"] = round(waited, 1)


class Clocks:
    """The scheduler's clock of each processor. It stands still while others take the processor, so that after some
    days two of them may be minutes apart: a time is compared with the clock by which it was noted, alone."""

    def __init__(self) -> None:
        self.ahead: Dict[int, Optional[float]] = {}

    def waited(self, folder: str) -> Optional[float]:
        """Returns for how many seconds the thread of a folder of /proc hasn't run, or None if that isn't known."""
        row, ran = stat_of(folder), ran_at(folder)
        if ran is None or len(row) <= PROCESSOR:
            return None
        ahead = self.of(int(row[PROCESSOR]))
        return None if ahead is None else max(0.0, boot_time() + ahead - ran)

    def of(self, processor: int) -> Optional[float]:
        """Returns by how much the clock of a processor is ahead of the time since the start, or None if this thread may
        not run there."""
        if processor not in self.ahead:
            self.ahead[processor] = ahead_of(processor)
        return self.ahead[processor]


def ahead_of(processor: int) -> Optional[float]:
    before = os.sched_getaffinity(0)
    with contextlib.suppress(OSError):
        os.sched_setaffinity(0, {processor})
        now = ran_at("/proc/thread-self")
        os.sched_setaffinity(0, before)
        return None if now is None else now - boot_time()
    return None


def boot_time() -> float:
    return time.clock_gettime(time.CLOCK_BOOTTIME)


def ran_at(folder: str) -> Optional[float]:
    """Returns when a thread has last run, by the clock of the processor where that was, or None if that isn't known:
    the kernel notes 0 for one that it has moved since then, as it may where one falls asleep."""
    ran = RAN_AT.search(row_of(f"{folder}/sched"))
    return float(ran[1]) / 1000 or None if ran else None
