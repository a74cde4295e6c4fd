"""Where the threads of a state stand: the functions on the stack of each, as they are unwound from memory."""
from __future__ import annotations

import platform
import shutil
import struct
import time
from typing import Dict, Iterator, List, Optional, Sequence, Tuple

from cmh_proc import programs as others
from cmh_proc.budget import BUDGET as LOOK
from cmh_proc.budget import Budget
from cmh_proc.process import Row
from cmh_unwind.cursor import Unclear
from cmh_unwind.modules import Image, Module
from cmh_unwind.stack import Unwinder

from .readers import PATIENCE, Worker

MOST_BYTES, MOST_SECONDS = 1 << 27, 60.0  # of what is kept of all programs, their names and their tables
MOST_OUTPUT, MOST_MEMORY = 1 << 24, 1 << 28  # of what makes names plain
BUDGET = 3.0  # seconds of the processor for the stacks of all processes
LATE: Row = {"late": True}  # what is known of a thread for whose stack there was no time
MANGLED = ("_Z", "_R")  # how names begin that compilers of C++ and Rust have made
Frame = Tuple[Module, int]
Found = Tuple[Row, Dict[int, Row]]  # what was found of a process, and of each of its threads


def add_frames(rows: Sequence[Row]) -> None:
    """Adds to each sleeping thread the functions on its stack, and in which call of a library its own code is. One for
    which there was no time is late."""
    known: Dict[int, Found] = {}
    if platform.machine() == "x86_64":
        finder = Finder(rows)
        finder.wait(lambda: finder.steps)
        known = dict(finder.found)
    nothing: Found = {}, {}
    for row in rows:
        of_process, of_threads = known.get(row["pid"], nothing)
        row.update(of_process)
        for thread in row.get("threads", ()):
            thread.update(of_threads.get(thread["tid"], {}))
    demangle([frame for row in rows for frame in row.get("frames", ())]
             + [thread["object"] for row in rows for thread in row.get("threads", ()) if "object" in thread])


class Finder(Worker):
    """Finds where the threads of some processes stand, as long as there is time: of the processor, for what else the
    machine does isn't to change an answer. `found` has of each process its frames, each once, with its programs, and
    which of them each thread has."""

    def __init__(self, rows: Sequence[Row]) -> None:
        self.rows, self.steps = [row for row in rows if "living" in row], 0
        self.found: Dict[int, Found] = {
            row["pid"]: ({}, {thread["tid"]: LATE for thread in sleepers(row)}) for row in self.rows}
        super().__init__(self.find)

    def find(self) -> None:
        modules: Dict[str, Optional[Module]] = {}
        last, budget = time.thread_time() + BUDGET, LOOK.part(MOST_BYTES, MOST_SECONDS)
        for row in self.rows:
            try:  # (each takes a half of what is left, so that it leaves something to the next)
                own = budget.part(budget.left // 2, MOST_SECONDS)
                self.found[row["pid"]] = self.frames_of(row, modules, last, own)
            except OSError:
                self.found[row["pid"]] = {}, {}

    def frames_of(self, row: Row, modules: Dict[str, Optional[Module]], last: float, budget: Budget) -> Found:
        """Returns what there is of a process, as long as there is time."""
        of_threads: Dict[int, Row] = {}
        image = Image(row["living"], row.get("exe", ""), modules, budget)
        table = FrameTable(image)
        try:
            for thread in sleepers(row):
                self.steps += 1
                is_late = time.thread_time() >= last or not budget.seconds()
                of_threads.update((thread["tid"], more) for more in ([LATE] if is_late else
                                                                     stacks_of(image, thread, table)))
        finally:
            image.memory.close()
        return table.row(), of_threads


def sleepers(row: Row) -> Iterator[Row]:
    return (thread for thread in row.get("threads", ()) if thread["state"] == "S")


def stacks_of(image: Image, thread: Row, table: "FrameTable") -> Iterator[Row]:
    """Yields which frames a thread has, if it still is in the call of its row, and in which call of a library its own
    code is, if that is still at the same wait."""
    try:
        stack = Unwinder(image, thread["tid"])
    except (OSError, Unclear, ValueError, struct.error, IndexError):
        return
    call, count = stack.before
    if [int(word, 16) for word in call.split()[1:7]] == [int(word, 16) for word in thread.get("args", ())]:
        is_same = thread.get("counts") == [int(count), int(count)]
        module, base = image.module_at(stack.called) if is_same and stack.called else (None, 0)
        within = module.name_at(stack.called - base) if module is not None else ""
        name, offset = image.object_at(int(thread["args"][0], 16)) if thread.get("call") == "futex" else ("", 0)
        flags = {"cut": not stack.is_whole, "again": not is_same}
        yield {"stack": [table.number(module, place) for module, place, _ in stack.frames],
               **{name: True for name, is_set in flags.items() if is_set}, **({"within": within} if within else {}),
               **({"object": [name, offset]} if name else {})}


class FrameTable:
    """The frames of a process, each once."""

    def __init__(self, image: Image) -> None:
        self.image = image
        self.numbers: Dict[Frame, int] = {}
        self.modules: Dict[Module, int] = {}

    def number(self, module: Module, place: int) -> int:
        self.modules.setdefault(module, len(self.modules))
        return self.numbers.setdefault((module, place), len(self.numbers))

    def row(self) -> Row:
        """Returns the frames: the name of each function or nothing, its module, and where that has the code; and the
        modules, each with its build-id."""
        return {"frames": [[module.name_at(place), self.modules[module], place + module.header.begin]
                           for module, place in self.numbers],
                "modules": [[module.path, module.build_id] for module in self.modules]}


def demangle(frames: List[List[object]]) -> None:
    """Gives functions of C++ and Rust the names of their source, without arguments, if c++filt is there."""
    names = list(dict.fromkeys(str(frame[0]) for frame in frames if str(frame[0]).startswith(MANGLED)))
    if not names or shutil.which("c++filt") is None:
        return
    try:
        ran = others.run(["c++filt", "-p"], stdin="\n".join(names).encode(), most=MOST_OUTPUT, resident=MOST_MEMORY,
                         seconds=PATIENCE, space=MOST_MEMORY)
    except OSError:
        return
    lines = ran.output.decode("utf-8", "replace").split("\n") if not ran.why else []
    plain = dict(zip(names, lines)) if len(lines) in (len(names), len(names) + 1) else {}
    for frame in frames:
        frame[0] = plain.get(str(frame[0])) or frame[0]
