"""Stacks that a debugger prints, which holds each process for a moment."""
from __future__ import annotations

import shutil
from typing import Dict, Iterable, Iterator, List

from cmh_proc.process import Row, row_of
from cmh_proc.programs import attach

from .reading import MachineReading

STACKS = [["eu-stack", "-i", "-s", "-p", "{}"], ["gdb", "-p", "{}", "-batch", "-ex", "thread apply all bt"]]
MOST_OUTPUT, MOST_MEMORY, SECONDS = 1 << 26, 1 << 30, 30.0  # of a debugger


def debugger() -> List[str]:
    """Returns the command that prints the stacks of a process, or nothing if there is none."""
    return next((words for words in STACKS if shutil.which(words[0])), [])


def stacks_of(pids: Iterable[int], reading: MachineReading) -> Iterator[Row]:
    """Yields the stacks of the processes that stand at a futex, each with the calls before and after. That holds a
    process for a moment."""
    words = debugger()
    for pid in pids:
        threads = reading.rows.get(pid, {}).get("threads", ())
        if not any(thread.get("call") == "futex" for thread in threads):
            continue
        before = calls_now(pid, threads)
        text = text_of_stacks(pid, words)
        after = calls_now(pid, threads)
        still = {tid: call for tid, call in before.items() if call and call == after[tid]}
        yield {"stacks": pid, "by": words[0], "still": still, "text": text}


def calls_now(pid: int, threads: Iterable[Row]) -> Dict[int, List[str]]:
    """Returns the calls of some threads with their arguments, as they are now."""
    return {thread["tid"]: row_of(f"/proc/{pid}/task/{thread['tid']}/syscall").split()[:7] for thread in threads}


def text_of_stacks(pid: int, words: List[str]) -> str:
    """Returns what a debugger prints of a process, or nothing where that is too much, or takes too long."""
    try:
        ran = attach([word.format(pid) for word in words], [pid], most=MOST_OUTPUT, resident=MOST_MEMORY,
                     seconds=SECONDS)
    except OSError:
        return ""
    return "" if ran.why else ran.output.decode(errors="backslashreplace")
