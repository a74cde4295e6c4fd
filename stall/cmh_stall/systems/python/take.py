"""How Python processes are taken: a signal asks those that have loaded `cmh_state`. A tool that is there shows where
the others stand, besides what the kernel sees of them: nothing is sent to a process that may end by it."""
from __future__ import annotations

import os
import re
import shutil
import sys
from typing import Collection, Iterator, List, Sequence, Tuple

from cmh_proc.process import link_of, state_signal

from ...core.descendants import descendants
from .. import KERNEL
from ..taking import HOME, Capture, Part, Sight, Taker, clients_of_server, command_words, those_there

READER = f"{HOME}/cmh_python_reader.py"  # two looks at most: between these no count has what it does itself
# The ways to processes that haven't loaded cmh_state.
WAYS = {
    "py-spy": "py-spy reads the memory of each process, and stops nothing: twice. It shows no locks",
    "gdb": "gdb with python3-dbg stops each process while it reads it: some 1.5 s, later 0.5 s. It shows no owners of "
           "locks",
}
TO_SEE_INSIDE = ("to see inside of it, have it load cmh_state the next time, or read it now by cmh_python_reader.py, "
                 "which needs py-spy, or gdb with python3-dbg")
BARE = "a process hasn't loaded cmh_state, so it is read as the kernel sees it, which shows no locks of Python's"
# A process in a state of the kernel that runs Python.
RUNS_PYTHON = re.compile(r'^cmh-linux \{"pid": (\d+),.*"exe": "([^"]*/python3[^"/]*)"', re.M)


class PythonTaker(Taker):
    def captures(self, targets: List[str], wishes: Collection[str]) -> List[Capture]:
        """Where some answer a signal, and others don't, the kernel shows these."""
        targets = those_there(targets)
        loaded = [pid for pid in targets if answers(pid)]
        if loaded == targets:
            return [Capture(self.name, targets, beside=children_that_answer(targets))]
        bare = [pid for pid in targets if pid not in loaded]
        if loaded:
            return [Capture(self.name, loaded, beside=children_that_answer(loaded)), Capture(KERNEL, bare, BARE)]
        way = way_to_python(bare)
        if not way:
            return [Capture(KERNEL, bare, f"{BARE}; {TO_SEE_INSIDE}")]
        by_tool = Capture(self.name, bare, WAYS[way], [sys.executable, READER, way], is_heavy=True, has_two=True,
                          holds=bare if way == "gdb" else (), gives_way=way == "gdb")
        # (gdb takes too long for both to be of one time.)
        return [by_tool, Capture(KERNEL, bare, BARE)] if way == "py-spy" else [by_tool]

    def clients(self, capture: Capture, others: Sequence[Capture]) -> List[str]:
        return clients_of_server(capture, others)

    def commands(self, pid: int, name: str, words: List[str]) -> Iterator[Tuple[str, str, str]]:
        if name.startswith("python"):
            sees = answers(str(pid)) or way_to_python([str(pid)])
            yield "python", f"cmh-stall {self.name if sees else KERNEL} {pid}", \
                "python and linux see inside" if sees else "only Linux sees it"

    def those_to_ask(self, pids: Sequence[int]) -> List[int]:
        return [pid for pid in pids if answers(str(pid))]

    def ends(self, targets: Sequence[str], sight: Sight) -> List[str]:
        return list(targets) if sight.waits_outside() else []

    def inside(self, part: Part, text: str) -> Iterator[str]:
        """Yields the command that needs nothing to be loaded there, if a target is Python."""
        paths = [path for pid, path in dict(RUNS_PYTHON.findall(text)).items() if pid in part["targets"]]
        pids = [pid for pid, path in dict(RUNS_PYTHON.findall(text)).items() if pid in part["targets"]]
        for pid, path in zip(pids[:1], paths):
            package = "apt-get install gdb python3-dbg" if path.startswith("/usr/bin/") else "pip install py-spy"
            needed = "" if way_to_python([pid]) else f"{package} && "
            yield f"To see inside of Python: {needed}cmh-stall python {command_words(part['targets'])}"


def way_to_python(targets: Sequence[str]) -> str:
    """Returns the tool that shows where processes stand which haven't loaded cmh_state, or nothing."""
    if shutil.which("py-spy"):
        return "py-spy"
    # (gdb loads no script that lies beside a program, where anybody may have put it.)
    has_symbols = all(os.path.exists(f"/usr/share/gdb/auto-load{link_of(f'/proc/{pid}/exe')}-gdb.py")
                      for pid in targets)
    return "gdb" if has_symbols and shutil.which("gdb") else ""


def children_that_answer(pids: Sequence[str]) -> List[str]:
    """Returns the other processes below some that answer a signal too."""
    below = {process.pid for pid in pids for process in descendants(int(pid))} - {*map(int, pids)}
    return [str(pid) for pid in sorted(below) if answers(str(pid))]


def answers(pid: str) -> bool:
    """Whether a process answers a signal with its state."""
    return pid.isdigit() and state_signal(int(pid)) != 0


TAKER = PythonTaker
