"""Readers of processes, which are left behind where one takes too long."""
from __future__ import annotations

import errno
import queue
import threading
from typing import Callable, List, Optional

from cmh_proc.budget import Refused
from cmh_proc.process import Row, row_of

from .processes import Collector, why_unreadable

PATIENCE = 2.0  # seconds for one process: then it counts as one that can't be read
LACKS = {errno.EMFILE: "too many files are open here (ulimit -n)", errno.ENOMEM: "there was no memory for that",
         errno.ENFILE: "too many files are open on the machine (fs.file-max)"}


class Worker:
    """A thread, which can be left behind. What ends it before its work is done is raised in who waits for it."""

    def __init__(self, work: Callable[[], None]) -> None:
        self.fault: Optional[BaseException] = None
        self.work = work
        self.thread = threading.Thread(target=self.run, daemon=True)
        self.thread.start()

    def run(self) -> None:
        try:
            self.work()
        except BaseException as error:
            self.fault = error

    def wait(self, steps: Callable[[], int]) -> None:
        """Waits until it has ended, or has taken no step for some time."""
        before = -1
        while self.thread.is_alive() and before != (now := steps()):
            before = now
            self.thread.join(2 * PATIENCE)
        self.check()

    def check(self) -> None:
        if self.fault is not None:
            raise self.fault


class ProcessReader(Worker):
    """Reads one process after the other."""

    def __init__(self, machine: Collector, left: List[int]) -> None:
        self.machine, self.left, self.at, self.is_left = machine, left, 0, False
        self.answers: "queue.Queue[Optional[Row]]" = queue.Queue()
        super().__init__(self.read)

    def read(self) -> None:
        while self.left and not self.is_left:
            self.at, row = self.left.pop(), None
            try:
                row = self.machine.process(self.at)
            except (FileNotFoundError, ProcessLookupError):
                pass  # (it has ended)
            except Refused as error:
                row = unread_row(self.at, str(error))
            except OSError as error:
                row = unread_row(self.at, LACKS.get(error.errno or 0) or why_unreadable(self.at))
            self.answers.put(row)

    def answer(self) -> Optional[Row]:
        """Returns the next process. Raises queue.Empty if nothing more is read for some time."""
        steps = -1
        while True:
            try:
                return self.answers.get(timeout=PATIENCE)
            except queue.Empty:
                self.check()
                if self.machine.steps == steps:
                    raise
                steps = self.machine.steps


def unread_row(pid: int, why: str) -> Row:
    """Returns a process of which nothing is known but that it is there."""
    return {"pid": pid, "ppid": 0, "comm": row_of(f"/proc/{pid}/comm").strip() or "process", "unreadable": why}


def read_all(machine: Collector, pids: List[int]) -> List[Row]:
    """Returns some processes. One that takes too long is left behind, and counts as one that can't be read."""
    rows, reader = [], ProcessReader(machine, list(pids))
    for _ in pids:
        try:
            row = reader.answer()
        except queue.Empty:
            reader.is_left = True
            row = unread_row(reader.at, f"it wasn't read within {PATIENCE:.0f} seconds")
            reader = ProcessReader(machine, list(reader.left))
        if row is not None:
            rows.append(row)
    return rows
