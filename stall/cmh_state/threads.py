"""A row for each thread: where it stands, what it has, and whether it has moved between the two looks."""
from __future__ import annotations

import contextlib
import os
import re
import sys
import threading

from .callers import accepted_in
from .calls import call_of
from .connections import sockets_in
from .ends import comes_back, inside_thread, may_cancel, may_end
from .frames import frame_row, frames_from, stack_of
from .handles import current_of, running_loop
from .objects import guarded
from .pace import PACE
from .reach import Holders
from .values import THERE

TYPE_CHECKING = False
if TYPE_CHECKING:
    from typing import Dict, Iterable, Iterator, List, Optional, Tuple
    from .objects import Code, Frame, Row, Stack, Thing
    Place = List[Tuple[int, Code, int]]  # where a thread stands
    Places = Dict[int, Place]
    Counts = Tuple[Optional[int], Optional[int], Optional[bool]]  # all or none are None
    # By their ids, with the thread that runs one, and the task that has it then.
    Loops = Dict[int, Tuple[Thing, Optional[int], Thing]]

LEAST, PARTS = 10, 30  # threads that are looked at together at least, and in how many parts all of them are at most
UNKNOWN: Counts = (None, None, None)
STOPS = re.compile(rb"^State:\s*(\S).*^voluntary_ctxt_switches:\s*(\d+)", re.M | re.S)
SIGNALS = 0x7ffbfeff  # of the mask of blocked ones, but SIGKILL and SIGSTOP


def frames_now() -> Dict[int, Frame]:
    """The innermost frame of each thread but the one that looks. Its own would keep itself, and those of all threads,
    until it is collected."""
    frames = sys._current_frames()
    del frames[threading.get_ident()]
    THERE.clear()
    THERE.update(frames)
    return frames


def place_of(frames: Iterable[Frame]) -> Place:
    """Where a thread stands, as it compares between two looks."""
    return [(id(frame), frame.f_code, frame.f_lasti) for frame in frames]


def parts_of_all() -> List[List[int]]:
    """The idents of all threads in parts, those of the oldest ones first. To look where one stands takes as long as to
    look where all do, so there are few parts."""
    idents = list(frames_now())[::-1]
    size = max(LEAST, len(idents) // PARTS)
    return [idents[start:start + size] for start in range(0, len(idents), size)]


def places() -> Places:
    """Where each thread stands."""
    found = {}
    for part in parts_of_all():
        frames = frames_now()
        found.update({ident: place_of(frames_from(frames.get(ident))) for ident in part})
        PACE.give_way()
    return found


def native_of(thread: Optional[threading.Thread]) -> Optional[int]:
    """The number that the kernel has for a thread. A main thread that was forked may have its parent's still."""
    native, tasks = getattr(thread, "native_id", None), "/proc/self/task"
    if thread is not threading.main_thread() or native is None:
        return native
    is_stale = os.path.isdir(tasks) and not os.path.isdir(f"{tasks}/{native}")
    return os.getpid() if is_stale else native


def counts_of(native: Optional[int]) -> Counts:
    """The nanoseconds of processor time of a thread, how often it has stopped to wait, and whether it sleeps in the
    kernel now. None where not shown."""
    folder = f"/proc/self/task/{native}"
    with contextlib.suppress(OSError, ValueError, LookupError), open(f"{folder}/schedstat", "rb") as file:
        spent = int(file.read().split()[0])
        with open(f"{folder}/status", "rb") as status:
            state, stops = STOPS.findall(status.read())[0]
        return spent, int(stops), state == b"S"
    return UNKNOWN


def counts_of_all() -> Dict[Optional[int], Counts]:
    """The counts of all threads, by their idents."""
    found = {}
    for thread in threading.enumerate():
        found[thread.ident] = counts_of(native_of(thread))
        PACE.give_way()
    return found


def status_of(folder: str) -> Dict[str, str]:
    """What the kernel says of a process or a thread, by its words, or nothing where that isn't shown."""
    with contextlib.suppress(OSError), open(f"{folder}/status", errors="replace") as file:
        return dict(line.split(":", 1) for line in file if ":" in line)
    return {}


def between(first: Counts, last: Counts) -> Row:
    """What a row has of the counts of a thread at two looks. They are taken before and after all else of the row: where
    it slept at both and hasn't stopped anew, it was at one wait all the time."""
    (spent, stops, asleep), (last_spent, last_stops, is_last_asleep) = first, last
    if spent is None or stops is None or last_spent is None or last_stops is None:
        return {"stops": last_stops, "spent": None, "new_stops": None, "asleep": None}
    return {"stops": last_stops, "spent": last_spent - spent, "new_stops": last_stops - stops,
            "asleep": is_last_asleep and asleep}


class Threads:
    """The rows of threads, and the event loops that they run. Each row is taken between two looks at the place and at
    the counts of its thread: so it has what was there while that stood at one wait, if it did."""

    def __init__(self, before: Places, spent: Dict[Optional[int], Counts]) -> None:
        self.before, self.spent, self.holders = before, spent, Holders()
        self.names = {each.ident: each for each in threading.enumerate()}
        self.loops: Loops = {}

    def rows(self) -> Iterator[Row]:
        """Yields the rows, those of the oldest threads first."""
        for part in parts_of_all():
            yield from self.rows_of(part)

    def rows_of(self, part: List[int]) -> List[Row]:
        frames = frames_now()
        stacks = {ident: stack_of(frames[ident]) for ident in part if ident in frames}
        places = {ident: place_of(frame for frame, _ in stack) for ident, stack in stacks.items()}
        rows = [self.row(ident, stack) for ident, stack in stacks.items()]
        now = frames_now()  # (while the frames above are kept, none has the id of another one)
        return [self.row_after(row, places[row["thread"]], now.get(row["thread"])) for row in rows]

    def row(self, ident: int, frames: Stack) -> Row:
        """The row of a thread but for its counts, and whether it has moved."""
        PACE.give_way()
        thread, loop = self.names.get(ident), running_loop(frames)
        if loop is not None:
            self.loops[id(loop)] = (loop, ident, guarded(current_of, loop))
        return {
            "thread": ident, "name": thread.name if thread else f"foreign-{ident}", "native": native_of(thread),
            "daemon": thread.daemon if thread else True, "main": thread is threading.main_thread(),
            "moved": None, "stops": None, "spent": None, "new_stops": None, "asleep": None,
            "holds": guarded(self.holders.held, frames), "ends": guarded(may_end, frames),
            "cancels": guarded(lambda frames, loop: may_cancel(frames, accepted_in(loop)), frames, loop),
            "loop": hex(id(loop)) if loop is not None else None, "call": guarded(call_of, frames[0][0]),
            **guarded(inside_thread, frames), **guarded(sockets_in, frames), "again": guarded(comes_back, frames),
            "frames": [guarded(frame_row, *each) for each in frames]}

    def row_after(self, row: Row, place: Place, frame: Optional[Frame]) -> Row:
        """The row with what two looks at its thread show: one before all rows were taken, and one after this one."""
        ident, native, now = row["thread"], row["native"], place_of(frames_from(frame))
        counts = between(self.spent.get(ident, UNKNOWN), counts_of(native) if native else UNKNOWN)
        return {**row, "moved": not self.before.get(ident) == place == now, **counts}


def has_foreign_timer() -> Optional[bool]:
    """Whether a thread that isn't Python's blocks all signals, as that of faulthandler.dump_traceback_later does. None
    where that isn't shown."""
    others = foreign_threads()
    return None if others is None else any(map(is_blocked, others))


def foreign_threads() -> Optional[List[str]]:
    """The numbers of the threads of this process that run no Python code now, as far as the module threading knows. One
    that isn't Python's may come back to it. None where that isn't shown."""
    idents = set(sys._current_frames())
    known = {str(native_of(thread)) for thread in threading.enumerate() if thread.ident in idents}
    try:
        return [number for number in os.listdir("/proc/self/task") if number not in known]
    except OSError:
        return None


def is_blocked(number: str) -> bool:
    """Whether a thread blocks all signals that can be blocked."""
    return int(status_of(f"/proc/self/task/{number}").get("SigBlk", "0"), 16) & SIGNALS == SIGNALS
