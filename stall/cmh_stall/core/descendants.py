"""The processes below one: who they are, how a signal is sent to each, and how orphans become children of this one."""
from __future__ import annotations

import contextlib
import os
import signal
from typing import Dict, List, NamedTuple, Tuple

from cmh_proc.door import kernel_row
from cmh_proc.process import pids

PR_SET_CHILD_SUBREAPER = 36


class Descendant(NamedTuple):
    """A process, with the time at which it began: another one may get its number."""

    pid: int
    start: str

    def is_there(self) -> bool:
        return row_of(self.pid)[1:] == (self.start, True)

    def send(self, number: int) -> None:
        """Sends a signal, but to nobody else who has its number by now. Raises PermissionError if it may not be sent.
        """
        open_process, send_signal = getattr(os, "pidfd_open", None), getattr(signal, "pidfd_send_signal", None)
        if not open_process or not send_signal:  # (before Python 3.9)
            if self.is_there():
                os.kill(self.pid, number)
            return
        handle = open_process(self.pid)
        try:
            if self.is_there():
                send_signal(handle, number)
        finally:
            os.close(handle)

    def name(self) -> str:
        with contextlib.suppress(OSError):
            return f"{kernel_row(f'/proc/{self.pid}/comm').strip()} ({self.pid})"
        return str(self.pid)


def adopt_orphans() -> bool:
    """Has those below this process whose parent ends become its own children. Returns whether the kernel does so."""
    try:
        from ctypes import CDLL, c_ulong
        nothing = [c_ulong(0)] * 3
        return int(CDLL(None).prctl(PR_SET_CHILD_SUBREAPER, c_ulong(1), *nothing)) == 0
    except (ImportError, OSError, AttributeError):
        return False


def row_of(pid: int) -> Tuple[int, str, bool]:
    """Returns the parent of a process, when it began, and whether it lives: one that has ended may wait to be reaped.
    """
    with contextlib.suppress(OSError, IndexError):
        words = kernel_row(f"/proc/{pid}/stat").rpartition(")")[2].split()
        return int(words[1]), words[19], words[0] not in ("Z", "X")
    return 0, "", False


def descendants(pid: int) -> List[Descendant]:
    """Returns the living processes below one, each behind its parent."""
    children: Dict[int, List[Descendant]] = {}
    living = set()
    for number in pids():
        parent, start, is_living = row_of(number)
        children.setdefault(parent, []).append(Descendant(number, start))
        living.update([number] if is_living else [])
    below = children.get(pid, [])
    for process in below:
        below.extend(children.get(process.pid, []))
    return [process for process in below if process.pid in living]
