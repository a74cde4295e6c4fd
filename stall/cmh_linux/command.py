"""The readings, and the command that prints them."""
from __future__ import annotations

import argparse
import json
import os
import platform
import re
import signal
import sys
import time
import traceback
from typing import Iterable, List, Sequence, Set

from cmh_proc.budget import BUDGET, UNTIL, Budget
from cmh_proc.calls import MACHINES
from cmh_proc.door import link
from cmh_proc.process import Row, try_lines
from cmh_proc.scripts import machine

from .debugger import debugger, stacks_of
from .frames import add_frames
from .limits import add_ages
from .reading import MachineReading

NO_THREAD = "can't start new thread"  # as Python says it
OUT_OF_MEMORY = "out of memory: a higher limit, of ulimit -v or of the cgroup, may be enough"


SECONDS_OF_ONE, LEAST = 60.0, 1 << 25  # seconds of one look at all processes, and bytes that each may take


def collect(pids: Sequence[int], seconds: float = 5.0, stacks: bool = False, looks: int = 2) -> str:
    """Returns the state of some processes as a text, with so many readings some seconds apart. Raises LookupError if
    one isn't there, OSError if /proc isn't."""
    if platform.machine() not in MACHINES:
        raise OSError(f"the numbers of calls aren't known on {platform.machine()}")
    if stacks and not debugger():
        raise LookupError("for --stacks eu-stack or gdb is needed, and neither is there (Debian: apt-get install "
                          "elfutils)")
    if UNTIL not in os.environ:  # (each look has all of it)
        BUDGET.give(seconds * (looks - 1) + looks * SECONDS_OF_ONE, BUDGET.size)
    readings, begun = [MachineReading(pids, part_of(looks))], time.monotonic()
    for pid in pids:
        if pid not in readings[0].rows:
            raise LookupError(f"there is no process {pid}")
    # (Before the others are read, which show who was woken till then.)
    near = readings[0].rows_of(kept_of(readings, pids, True))
    add_frames(near)
    add_ages(near)
    for _ in range(looks - 1):
        time.sleep(max(0.0, begun + seconds - time.monotonic()))
        readings.append(MachineReading(pids, part_of(looks)))
        begun = time.monotonic()
    kept = kept_of(readings, pids)
    rows: List[Row] = [{"version": 1, "machine": platform.machine(), "release": platform.release(),
                        "asked": list(pids), "seconds": seconds, "outside": outside(), "space": machine(),
                        "with_stacks": stacks}]
    for number, reading in enumerate(readings, 1):
        rows += reading.text(number, kept)
    rows += stacks_of(sorted(kept_of(readings, pids, True)), readings[-1]) if stacks else []
    rows.append({"end": "state"})
    return "".join(f"cmh-linux {json.dumps(row)}\n" for row in rows)


def part_of(looks: int) -> Budget:
    """Returns what one of some looks may take, so that it leaves something to the later ones."""
    return BUDGET.part(max(BUDGET.size // (looks + 2), LEAST), max(SECONDS_OF_ONE, BUDGET.seconds() / looks))


def kept_of(readings: List[MachineReading], pids: Iterable[int], is_near: bool = False) -> Set[int]:
    """Returns the processes of a state: some, with those below, and whoever may end the waits of these. The near ones
    are without those that may be strangers to them, which have nothing in common but where they descend from."""
    kept: Set[int] = set()
    left = [pid for reading in readings for pid in reading.tree(pids) | (set() if is_near else reading.carriers())]
    while left:
        pid = left.pop()
        if pid > 0 and pid not in kept:
            kept.add(pid)
            left += [near for reading in readings for near in reading.around(pid, is_near)]
    return kept


def outside() -> str:
    """Returns why processes may be there that /proc doesn't show, or nothing."""
    mounts = [line.split() for line in try_lines("/proc/self/mounts")]
    hidden = any(words[1:3] == ["/proc", "proc"] and re.search(r"hidepid=(?!0|off)", words[3]) for words in mounts)
    if hidden and os.geteuid():
        return "hidepid"
    return "container" if link("/proc/self/ns/pid") != "pid:[4026531836]" else ""


def seconds(text: str) -> float:
    """Returns a time in seconds. Raises ValueError if a text is none, or of more than an hour."""
    value = float(text)
    if not 0 <= value <= 3600:
        raise ValueError
    return value


def add_options(parser: argparse.ArgumentParser, is_needed: bool) -> None:
    """Adds the options of a reading to a command."""
    parser.add_argument("--pid", metavar="PID", nargs="+", type=int, required=is_needed, action="extend",
                        help="the processes to read, with all their children and theirs")
    parser.add_argument("--seconds", type=seconds, default=5.0,
                        help="the time from the first reading to the second (5)")
    parser.add_argument("--stacks", action="store_true",
                        help="add lines of source and inlined functions of those at a futex, by eu-stack or gdb, which "
                             "holds them for a moment")


def main() -> int:
    parser = argparse.ArgumentParser(description="Prints what the kernel keeps of the waits of some processes.")
    add_options(parser, True)
    parser.add_argument("--looks", type=int, choices=range(2, 1001), metavar="NUMBER", default=2,
                        help="as many readings (2)")
    asked = parser.parse_args()
    signal.signal(signal.SIGTERM, lambda *_: sys.exit(128 + signal.SIGTERM))  # (so that whom it holds goes on)
    try:
        sys.stdout.write(collect(asked.pid, asked.seconds, asked.stacks, asked.looks))
        sys.stdout.flush()
        return 0
    except (MemoryError, SystemError):  # (Python gives the second one where it couldn't make the first)
        status, text = 4, OUT_OF_MEMORY  # (said once all that was read is gone)
    except Exception as error:
        is_ours = type(error) is not LookupError and not isinstance(error, OSError)
        status, text = (4, fault_text(error)) if is_ours else (1, str(error))
    print(f"cmh_linux: {text}", file=sys.stderr)
    sys.stdout = open(os.devnull, "w", encoding="utf-8")  # so that nothing is written again at the end
    return status


def fault_text(error: Exception) -> str:
    """Returns what is said of a fault of this program, with its place, or of what the machine lacks."""
    if str(error) == NO_THREAD:
        return "no further thread may begin (ulimit -u, pids.max of the cgroup, or too little memory)"
    place = traceback.extract_tb(error.__traceback__)[-1]
    where = f"{os.path.basename(place.filename)}:{place.lineno}"
    return f"this is a fault of cmh_linux: {type(error).__name__}: {error}, at {where}"
