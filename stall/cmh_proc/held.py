"""How a process stands still that a debugger holds, and how it goes on when that has ended."""
from __future__ import annotations

import contextlib
import os
import signal
import time
from typing import Iterable, List

from .door import field, kernel_row, tids

REST = 1  # seconds in which a process goes on, or stands still, once its debugger has ended


def standstill(pid: int) -> str:
    """Returns how a process stands still: "traced" if a debugger has a thread, "stopped" if a signal has stopped one or
    will, or nothing."""
    statuses = statuses_of(pid)
    if any(field(status, "TracerPid") not in ("0", "") for status in statuses):
        return "traced"
    return "stopped" if any(map(is_stopped, statuses)) else ""


def statuses_of(pid: int) -> List[str]:
    """Returns what the kernel keeps of each thread of a process."""
    statuses: List[str] = []
    with contextlib.suppress(FileNotFoundError, ProcessLookupError):
        for tid in tids(pid):
            with contextlib.suppress(FileNotFoundError, ProcessLookupError):
                statuses.append(kernel_row(f"/proc/{pid}/task/{tid}/status"))
    return statuses


def is_stopped(status: str) -> bool:
    pending = int(field(status, "SigPnd") or "0", 16) | int(field(status, "ShdPnd") or "0", 16)
    return field(status, "State").startswith("T") or bool(pending >> signal.SIGSTOP - 1 & 1)


def let_go(pids: Iterable[int]) -> None:
    """Has processes go on whose debugger has been ended. It stops a process by SIGSTOP, and where it ends before it has
    seen that done, the process stays stopped."""
    last, left = time.monotonic() + REST, set(pids)
    while left and time.monotonic() < last:
        for pid in [pid for pid in left if standstill(pid) == "stopped"]:
            left.remove(pid)
            with contextlib.suppress(OSError):
                os.kill(pid, signal.SIGCONT)
        time.sleep(0.02)
