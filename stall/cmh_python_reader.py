#!/usr/bin/env python3
"""Prints twice where the threads of Python processes stand that haven't loaded cmh_state, as a state for cmh-dump.

    cmh_python_reader.py py-spy|gdb PID.. [--seconds 5] > STATE

`py-spy dump --nonblocking` reads the memory of a process, and stops nothing. gdb stops it while it reads it, and needs
the symbols of that very Python, and its script for gdb (Debian: python3-dbg). The kernel's counts of each thread, which
show that it was at one wait, are read after the first stack and before the second, and its call before each. It needs
Python 3.8, and cmh_proc beside it. The state has names of functions, files and threads: look at it before you mail
it.
"""
from __future__ import annotations

import argparse
import json
import os
import platform
import re
import shutil
import sys
import time
from typing import Dict, List, Sequence, Tuple, Type, Union

from cmh_proc.budget import BUDGET
from cmh_proc.calls import calls_of
from cmh_proc.process import Row, link_of, stat_of, text_of, threads_of
from cmh_proc.programs import ProgramLimits, Session, heed_signals, run
from cmh_proc.scripts import machine

LOOK = 0.25  # seconds in which it is measured who computes
PATIENCE = 120  # seconds for one process
MOST, MEMORY = 32 << 20, BUDGET.size * 3 // 4  # bytes of its stacks, and of the memory of what reads them
BOTH = ["sh", "-c", 'exec "$@" 2>&1', "sh"]  # what gdb says of faults stands where it says it
PY_SPY = ["py-spy", "dump", "--nonblocking", "--json", "--pid"]
GDB = ["gdb", "-nx", "-q", *(word for setting in ("width 0", "height 0", "confirm off", "prompt")
                             for word in ("-iex", f"set {setting}"))]
END = "cmh: this is all"  # what gdb prints behind a process
# The frames of Python below the innermost one are read from it, and not from the stack of C, whose unwinding and
# symbols take most of the time of py-bt. Where a frame isn't as expected, py-bt is asked.
WALK = """
LINES = {}
UNREAD = "(unable to read python frame information)"

def lines_of(inner):
    frame = inner._gdbval
    has = {field.name for field in frame.type.target().strip_typedefs().fields()}
    code, step = sorted(has & {"f_code", "f_executable"}) + sorted(has & {"f_lasti", "instr_ptr", "prev_instr"})
    while int(frame):
        place = int(frame[code]), int(frame[step])
        if place not in LINES:
            LINES[place] = line_of(type(inner)(frame))
        yield from LINES[place]
        frame = frame["previous" if "previous" in has else "f_back"]

def line_of(frame):
    if getattr(frame, "is_shim", bool)():
        return []
    said = frame.filename(), frame.current_line_num(), frame.co_name.proxyval(set())
    return ['  File "%s", line %s, in %s' % said]

def walk():
    frame = Frame.get_selected_python_frame()
    while frame:
        inner = frame.get_pyop() if frame.is_evalframe() else None
        if inner and not inner.is_optimized_out():
            yield from lines_of(inner)
            return
        said = UNREAD if frame.is_evalframe() else frame.is_other_python_frame()
        if said:
            yield "  %s" % said
        frame = frame.older()

class Walk(gdb.Command):
    def __init__(self):
        super().__init__("cmh-bt", gdb.COMMAND_STACK)

    def invoke(self, words, is_typed):
        try:
            print(*list(walk()), sep=chr(10))
        except Exception:
            gdb.execute("py-bt")

Walk()
"""
NEEDS = {"py-spy": "pip install py-spy, or take gdb", "gdb": "apt-get install gdb python3-dbg, or take py-spy"}


def counts_of(pid: int) -> Dict[str, Row]:
    """Returns for each thread how often it has stopped to wait, its nanoseconds of processor time, its state and its
    call of the kernel."""
    counts: Dict[str, Row] = {}
    for tid in threads_of(pid):
        folder = f"/proc/{pid}/task/{tid}"
        status, spent, call = (text_of(f"{folder}/{name}") for name in ("status", "schedstat", "syscall"))
        stops = re.search(r"^State:\s*(\w)(?:.*\n)*?voluntary_ctxt_switches:\s*(\d+)", status, re.M)
        if stops and spent:
            counts[str(tid)] = {"state": stops[1], "stops": int(stops[2]), "spent": int(spent.split()[0]),
                                **named(call.split())}
    return counts


def named(words: List[str]) -> Row:
    """A call of the kernel by its name, with its arguments, or nothing of one that is in none."""
    if len(words) < 7 or not words[0].isdigit():
        return {}
    names = calls_of(platform.machine())
    return {"call": names.get(int(words[0]), words[0]), "args": words[1:7]}


class PySpy:
    """py-spy, which is begun for each process."""

    name = "py-spy"

    def load(self, pid: int) -> None:
        """There is nothing to load."""

    def body_of(self, pid: int) -> str:
        """Returns what it prints of a process, also if it fails."""
        try:
            ran = run([*PY_SPY, str(pid)], most=MOST, resident=MEMORY, seconds=PATIENCE)
        except OSError as error:
            return f"py-spy: {error.strerror or error}"
        return f"py-spy: {ran.why}" if ran.why else (ran.output or ran.errors).decode("utf-8", "replace")

    def close(self) -> None:
        """None is left."""


class Gdb:
    """One gdb for all processes, since the symbols of a program take it seconds. It reads those of the program before
    it attaches to a process, which so stands still for a shorter time, and none of those of its libraries."""

    name = "gdb"

    def __init__(self) -> None:
        self.program = ""
        self.gdb = Session([*BOTH, *GDB], ProgramLimits(MOST, MEMORY, PATIENCE))

    def load(self, pid: int) -> None:
        """Begins to read the symbols of a process's program."""
        program = link_of(f"/proc/{pid}/exe")
        if program != self.program and program.isprintable():
            self.gdb.tell(f"file {program}\npython exec({WALK!r})\n".encode())
            self.program = program

    def body_of(self, pid: int) -> str:
        """Returns what it prints of a process, also if it fails."""
        commands = [f"with debug-file-directory /nonexistent -- attach {pid}", "python LINES.clear()",
                    "thread apply all cmh-bt", "detach", f"echo \\n{END}\\n", ""]
        body = self.gdb.ask("\n".join(commands).encode(), f"\n{END}\n".encode(), pid)
        return f"gdb: {self.gdb.why}" if self.gdb.why else body.decode("utf-8", "replace") or "gdb has ended"

    def close(self) -> None:
        self.gdb.close()


Tool = Union[PySpy, Gdb]
TOOLS: Dict[str, Type[Tool]] = {PySpy.name: PySpy, Gdb.name: Gdb}


def state_of(tool: Tool, pid: int, first: Dict[str, Row]) -> Tuple[str, Dict[str, Row]]:
    """Returns the state of one process, with its counts before its stacks. Those who compute are found by what they
    have used of the processor in a while before anything stops them. `first` has the counts of the first state."""
    tool.load(pid)
    began, before = time.time(), counts_of(pid)
    time.sleep(LOOK)
    later = counts_of(pid)
    body = tool.body_of(pid)
    counts = later if first else counts_of(pid)
    threads = {tid: {**with_call(later[tid], first.get(tid, {})), "stops": count["stops"],
                     "spent": later[tid]["spent"] - before[tid]["spent"]}
               for tid, count in counts.items() if tid in before and tid in later}
    name = text_of(f"/proc/{pid}/comm").strip()
    head: Row = {"version": 1, "pid": pid, "by": tool.name, "name": name, "seconds": LOOK,
                 "host": os.uname().nodename, "space": machine(),
                 "began": began, "ended": time.time(), "threads": threads}
    text = body if body.endswith("\n") else f"{body}\n"
    return f"cmh-python {json.dumps(head)}\n{text}cmh-python {json.dumps({'end': pid})}\n", later


def with_call(row: Row, first: Row) -> Row:
    """A thread that a debugger has stopped shows another call then: if it is at one and the same wait, its first one
    holds."""
    is_same = row.get("call") == "restart_syscall" and row["stops"] == first.get("stops")
    return {**row, "call": first["call"], "args": first["args"]} if is_same and "call" in first else row


def state(way: str, pids: Sequence[int], seconds: float) -> str:
    """Returns both states of some processes. Raises LookupError if one isn't there."""
    for pid in pids:
        if not stat_of(f"/proc/{pid}"):
            raise LookupError(f"there is no process {pid}")
    tool = TOOLS[way]()
    try:
        states = [state_of(tool, pid, {}) for pid in pids]
        time.sleep(max(0.0, seconds - LOOK))
        states += [state_of(tool, pid, counts) for pid, (_, counts) in zip(pids, tuple(states))]
    finally:
        tool.close()
    return "".join(text for text, _ in states)


def main() -> int:
    parser = argparse.ArgumentParser(description=(__doc__ or "").split("\n", 1)[0])
    parser.add_argument("way", choices=sorted(TOOLS), help="the tool that reads the stacks")
    parser.add_argument("pids", metavar="PID", type=int, nargs="+")
    parser.add_argument("--seconds", type=float, default=float(os.environ.get("CMH_SECONDS", "5")),
                        help="the time between both readings (5, or $CMH_SECONDS)")
    asked = parser.parse_args()
    if shutil.which(asked.way) is None:
        print(f"cmh_python_reader: {asked.way} is needed, and isn't there: {NEEDS[asked.way]}", file=sys.stderr)
        return 1
    try:
        text = state(asked.way, asked.pids, max(0.0, min(3600.0, asked.seconds)))
    except LookupError as error:
        print(f"cmh_python_reader: {error.args[0]}", file=sys.stderr)
        return 1
    sys.stdout.write(text)
    return 0


if __name__ == "__main__":
    heed_signals()
    sys.exit(main())
