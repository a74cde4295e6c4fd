"""Where the threads of a Python process stand, as other tools print it: py-spy, or gdb with its command py-bt, each by
itself or as cmh_python_reader.py keeps it, with the kernel's counts. A look that is made of it shows places alone.
"""
from __future__ import annotations

import json
import re
from typing import Any, Dict, Iterator, List, Optional, Tuple

from ...core.files import Refusal, shown
from ...core.sketch import once_each
from ..base import fits, row_in
from .stack import PythonFrame, frame_in_file
from .rows import PythonLook, PythonRow
from .text import OF_FRAMES, SPY

VERSION = 1
HEX = re.compile(r"0x[0-9a-f]{1,16}")
HEAD = {"version": int, "pid": int, "by": str, "name": str, "seconds": (int, float), "host": str, "space": str,
        "began": float, "ended": float,
        "threads": {str: {"state": str, "stops": int, "spent": int, "call?": str, "args?": [HEX] * 6}}}
SPY_THREAD = re.compile(r'^Thread (\S+) \((active\+gil|active|idle)\)(?:: "(.*)")?$')
SPY_FRAME = re.compile(r"^    (\S.*) \(([^()]*?)(?::(\d+))?\)$")
# Lines of py-spy that are neither: heads, and below a frame its arguments and variables.
SPY_OTHER = re.compile(r"$| {8}|(?:Parent )?Process \d+: |Python v")
SPY_JSON = {"frames": [{"name": str, "filename": str, "line": int, ...: object}], "os_thread_id?": (int, type(None)),
            "thread_name?": (str, type(None)), "thread_id": int, ...: object}
GDB_THREAD = re.compile(r'^Thread \d+ \(Thread 0x[0-9a-f]+ \(LWP (\d+)\)(?: ".*")?\):$')
GDB_FRAME = re.compile(r'^  File "(.*)", line (\d+), in (.*)$')
GDB_LOST = re.compile(r"^  \(unable to read python frame information\)|^  File .* in .*frame information optimized out")
GDB_CALL = re.compile(r"^  <built-in method (\w+) of (?:module|(.*?)) object at remote (0x[0-9a-f]+)>$")
GDB_BEGIN = "Traceback (most recent call first):"
MAIN, NOBODY = "MainThread", "?"
ODD = "a line among its frames isn't understood, where another thread may begin"
LIBRARY = re.compile(r"threading\.(?:Thread\.)?(_bootstrap|_bootstrap_inner|run)$")  # frames that begin a thread
# What py-spy shortens: files of the library, by their path below it.
SHORT = re.compile(r"(threading|queue|selectors|socket|socketserver|ssl|subprocess|runpy|sched|contextlib|functools"
                   r"|(asyncio|concurrent|multiprocessing|logging|importlib|http|urllib|xmlrpc)/.*)\.py$")


def looks_of_frames(path: str, text: str) -> List[PythonLook]:
    """Returns the looks of a text in their order."""
    if OF_FRAMES in text:
        return [look_of_reader(path, at, head, body) for at, head, body in parts_of(path, text)]
    starts = [it.start() for it in SPY.finditer(text)]
    looks = []
    for start, end in zip(starts, [*starts[1:], len(text)]):
        pid = int(text[start:end].split(" ", 2)[1].rstrip(":"))
        looks.append(PythonLook(path, f"process-{pid}", pid, shown_by="py-spy"))
        add_threads(looks[-1], spy_rows(text[start:end].split("\n")), {})
    return looks


def parts_of(path: str, text: str) -> Iterator[Tuple[int, Dict[str, Any], List[str]]]:
    """Yields each state of cmh_python_reader.py: its line, its head and what the other tool printed. Raises Refusal if
    one isn't whole."""
    head: Optional[Dict[str, Any]] = None
    start = 0
    body: List[str] = []
    for at, line in enumerate(text.replace("\r\n", "\n").split("\n"), 1):
        row = row_in(line, OF_FRAMES)
        if row is None and line.startswith(OF_FRAMES):
            raise Refusal(f"{shown(path)}:{at}: this line of cmh_python_reader.py isn't understood")
        if row is None:
            body.append(line)
        elif head is not None and row == {"end": head["pid"]}:
            yield start, head, body
            head = None
        elif head is None and fits(row, HEAD) and row["version"] == VERSION:
            start, head, body = at, row, []
        else:
            raise Refusal(f"{shown(path)}:{at}: here begins a state of another version of cmh_python_reader.py, or the "
                          "one before it is cut off")
    if head is not None:
        raise Refusal(f"{shown(path)}:{start}: this state is cut off: its last line is missing")


def look_of_reader(path: str, at: int, head: Dict[str, Any], body: List[str]) -> PythonLook:
    known = {**head, "alarm": None}
    look = PythonLook(f"{path}:{at}", head["name"] or f"process-{head['pid']}", head["pid"], head["seconds"], known,
                      shown_by=head["by"])
    rows, lost = json_rows(body) if body[:1] and body[0].startswith("[") else ([], 0)
    rows = rows or list(spy_rows(body) if head["by"] == "py-spy" else gdb_rows(body))
    if not any(frames for _, _, frames, *_ in rows):
        said = next((line.strip() for line in reversed(body) if line.strip()), "nothing")
        raise Refusal(f"{shown(path)}:{at}: {shown(head['by'])} shows no frame of Python of process {head['pid']}: "
                      f"{shown(said)[:200]}")
    add_threads(look, rows, head["threads"])
    if lost:
        look.is_whole = False
        look.warnings.append(f"{shown(path)}:{at}: what py-spy shows of process {look.pid} isn't understood of so many "
                             f"threads: {lost}. What they do is missing")
    return look


# Its number, its name, its frames, its call, and lines that aren't understood.
Thread = Tuple[Any, str, List[PythonFrame], Optional[Dict[str, Any]], List[str]]


def add_threads(look: PythonLook, rows: Any, counts: Dict[str, Dict[str, Any]]) -> None:
    """Adds the threads of a process. One whose frames couldn't be read has none."""
    for tid, name, frames, call, odd in rows:
        count = counts.get(str(tid), {})
        more: Dict[str, Any] = {"native": tid if isinstance(tid, int) else None, "main": tid == look.pid, **count}
        more.update({"new_stops": None} if count else {})
        if frames and call is not None:
            frames[0].call = call
        row = look.threads[tid] = PythonRow(tid, name or f"thread-{tid}", frames, more,
                                            ODD if odd else fault_of(name, frames))
        if row.fault:
            look.is_whole = False
            look.warnings.append(f"{shown(look.where)}: thread {shown(row.name)} of process {look.pid}: {row.fault}")


def fault_of(name: str, frames: List[PythonFrame]) -> str:
    """Returns what shows that the first line of a thread is missing, so that its frames stand below another's."""
    is_begun = any(LIBRARY.match(outermost.at) for outermost in frames[-1:])  # (as all are but for the main thread)
    if is_begun and name == MAIN or any(map(is_outermost, frames, frames[1:])):
        return "frames of another thread stand below its own, so the first line of that one is missing"
    return ""


def is_outermost(it: PythonFrame, outer: PythonFrame) -> bool:
    """Whether the frame that stands below one can't have called it."""
    found = LIBRARY.match(it.at)
    if not outer.file.endswith(".py"):  # (which couldn't be read, or isn't Python's, as py-spy --native shows it)
        return False
    if found and found[1] != "run":
        return found[1] == "_bootstrap" or f"{outer.at}_inner" != it.at
    is_main = it.at.endswith(".<module>") and it.file.endswith(".py")
    return outer.kind == "own" and (is_main or found is not None and not outer.at.endswith(".run"))


def frame_of(name: str, file: str, line: Optional[str]) -> PythonFrame:
    """A frame of py-spy, which shortens files of the library, or of gdb."""
    return frame_in_file(file, line or "", name, SHORT.match(file) is not None)


# What py-spy prints


def json_rows(body: List[str]) -> Tuple[List[Thread], int]:
    """Returns the threads of a JSON of py-spy, and how many of them aren't understood."""
    try:
        rows = json.loads("\n".join(body), object_pairs_hook=once_each)
    except (ValueError, RecursionError):
        return [], 0
    known = [row for row in rows if fits(row, SPY_JSON)]
    return [(row.get("os_thread_id") or hex(row["thread_id"]), row.get("thread_name") or "",
             [frame_of(it["name"], it["filename"], str(it["line"])) for it in row["frames"]], None, [])
            for row in known], len(rows) - len(known)


def spy_rows(lines: List[str]) -> Iterator[Thread]:
    """What stands above the version is the command line of the process, of any number of lines."""
    start = next((at for at, line in enumerate(lines) if line.startswith("Python v")), 0)
    row: Thread = (NOBODY, "", [], None, [])
    for line in map(str.rstrip, lines[start:]):
        head, step = SPY_THREAD.match(line), SPY_FRAME.match(line)
        if head:
            if is_told(row):
                yield row
            row = (int(head[1]) if head[1].isdigit() else head[1], head[3] or "", [], None, [])
        elif step and row[0] != NOBODY:
            row[2].append(frame_of(step[1], step[2], step[3]))
        elif not SPY_OTHER.match(line):
            row[4].append(line)
    if is_told(row):
        yield row


def is_told(row: Thread) -> bool:
    """Whether it is a thread: what isn't understood above the first one may be another."""
    return row[0] != NOBODY or bool(row[4])


# What gdb prints


def gdb_rows(lines: List[str]) -> Iterator[Thread]:
    """Threads that run no Python have no frames of it, and are left out. The frames of others begin with a line that no
    thread has twice."""
    tid = 0
    frames: List[PythonFrame] = []
    call: Optional[Dict[str, Any]] = None
    begins: List[str] = []
    for line in [*lines, "Thread 0 (Thread 0x0 (LWP 0)):"]:
        head, step, built_in = GDB_THREAD.match(line), GDB_FRAME.match(line), GDB_CALL.match(line)
        if head:
            if frames:
                yield tid, "", frames, call, begins[1:]
            tid, frames, call, begins = int(head[1]), [], None, []
        elif line.rstrip() == GDB_BEGIN:
            begins.append(line)
        elif GDB_LOST.match(line):
            frames.append(frame_of("?", "?", "0"))
        elif step:
            frames.append(frame_of(step[3], step[1], step[2]))
        elif built_in and not frames and built_in[2]:
            kind = built_in[2].split(".")[-1]
            call = {"words": f"{kind}.{built_in[1]}", "how": "call", "arguments": None,
                    "on": {"type": kind, "id": built_in[3]}}
