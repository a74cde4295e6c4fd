"""The state that cmh_linux prints: lines of JSON, of two readings of a machine, and perhaps of stacks."""
from __future__ import annotations

import re
from collections import Counter
from typing import AbstractSet, Dict, Iterator, List, Sequence, Set, Tuple

from cmh_proc.open_files import MEMORY, MORE

from ...core.files import Refusal, shown
from ...core.sketch import quote
from ..base import misfits, row_in
from .machine import ENDED, Row

MARK = "cmh-linux "
VERSION = 1
EXPECTED = "lines of cmh_linux are expected, as `cmh-dump linux --pid PID --save STATE` keeps them"
NEVER_BY_PATH = ("pipe:", "socket:", "anon_inode:")  # what is open to read or to write, and so by no path alone
NUMBERS = re.compile(r"[0-9]{1,9}(\s+[0-9]{1,9})*")
HEX = re.compile(r"(0x)?[0-9a-f]{1,16}")
# Keys of older states, of code that was followed: they say nothing.
OLD = {f"{key}?": object for key in ("awaits", "handlers", "traps", "builtin", "spares")}
# The calls of those that are in none, and so have no arguments: one that computes, and one that is held meanwhile.
RUNNING, NO_CALL = "running", "-1"
STATE = re.compile("[A-Za-z]")
FILE = re.compile(r"(?!pipe:|socket:|anon_inode:).+|(pipe|socket):\[\d{1,20}\]"
                  r"|anon_inode:(\[[\w.: -]+\]|[\w.: ()-]+)", re.S)
PID = range(1 << 22)  # what the kernel numbers processes and threads with
THREAD = {"tid": PID, "state": STATE, "inner?": PID, "comm?": str, "call?": str, "args?": [HEX] * 6,
          "counts?": [int, int], "set?": ([[int, int]], [[int, int, int]]), "words?": re.compile("([0-9a-f]{2})*"),
          "range?": [int] * 4, "path?": str, "asks?": str, "wchan?": str, "memory?": re.compile(f"({MEMORY})?"),
          "mask?": HEX, "key?": int, "users?": [int], "changed?": int, "within?": str, "frames?": [str],
          "stack?": [int], "cut?": bool, "again?": bool, "late?": bool, "object?": [str, int],
          "limit?": [(float, int, type(None))] * 2, "waited?": (float, int), "pending?": bool, "addressed?": bool,
          "family?": range(1 << 16), **OLD}
OWNER: Row = {"pid": PID, "ppid": PID, "comm": str, "group?": PID, "session?": PID, "exe?": str, "command?": str,
              "net?": str, "living?": int, "TracerPid?": re.compile(r"\d{1,9}"), "SigCgt?": HEX, "SigIgn?": HEX,
              "fds": {re.compile(rf"\d{{1,9}}|{MEMORY}"): [FILE, re.compile("r?w?"), MORE, ...]}, "threads?": [THREAD],
              "kin?": [PID], "timers?": bool, "aio?": bool, "runtime?": str, "frames?": [[str, int, int]],
              "modules?": [[str, str]], "start?": int, "NSpid?": NUMBERS, "NSpgid?": NUMBERS, "collects?": bool,
              "state": STATE, **OLD}
UNREADABLE = {**{f"{key.rstrip('?')}?": shape for key, shape in OWNER.items()}, "pid": PID, "ppid": PID,
              "comm": str, "unreadable": re.compile(".+"), "apart?": bool}  # (the last one: beside those asked for)
SOCKET = {"socket": int, "kind": re.compile("tcp|u_(str|dgr|seq)"), "state": str, "at": str, "to": str,
          "peers": [int], "away?": bool, "unread?": int, "timer?": object}
# The form of each row, by the first of these keys that it has.
SHAPES = {"version": {"version": int, "machine?": str, "release?": str, "asked?": [int], "seconds?": (int, float),
                      "outside": str, "space?": str, "with_stacks?": bool},
          "reading": {"reading": int, "began?": float, "seconds?": (int, float), "warnings": [str]},
          "unreadable": UNREADABLE, "pid": OWNER, "socket": SOCKET,
          "listening": {"listening": {str: [int]}}, "parents": {"parents": {re.compile(r"[0-9]{1,9}"): [PID, int]}},
          "stacks": {"stacks": int, "by": str, "still": {str: [str]}, "text": str},
          "end": {"end": (int, str), "processes?": int}}
# Why a process isn't understood that was read.
ODD_START = "its readings differ in when it began, and it is no newer one"
ODD_THREADS = "its first thread isn't among its threads", "a thread of it is there twice, or another process's too"


def rows_of(text: str, path: str) -> List[Row]:
    """Returns the rows of a state. Raises Refusal if it isn't one, or isn't whole."""
    rows = []
    for number, line in enumerate(text.replace("\r\n", "\n").split("\n"), 1):
        if not line:
            continue
        row = row_in(line, MARK)
        kind = next((kind for kind in SHAPES if kind in row), "") if row is not None else ""
        if row is None or not kind:
            raise Refusal(f"{shown(path)}:{number}: {EXPECTED}, and this line isn't one, is cut off, or has a key "
                          "twice")
        odd = next(misfits(row, SHAPES[kind]), None) or (next(odd_in(row), None) if kind == "pid" else None)
        if odd is not None:
            raise Refusal(f"{shown(path)}:{number}: {EXPECTED}, and in this line {quote(odd[1:])} isn't as these have "
                          "it")
        rows.append(row)
    if not rows or rows[0].get("version") != VERSION:
        raise Refusal(f"{shown(path)}:1: {EXPECTED}, of version {VERSION}")
    if rows[-1].get("end") != "state":
        raise Refusal(f"{shown(path)}: its last line is missing, so it is cut off")
    return rows


def odd_in(row: Row) -> Iterator[str]:
    """Yields where the row of a process isn't as those of these are, beside its shape."""
    if "threads" not in row and row["state"] not in ENDED:
        yield ".threads"
    yield from (f".fds.{fd}.1" for fd, words in row["fds"].items()
                if not words[1] and words[0].startswith(NEVER_BY_PATH))
    yield from (".threads.args" for thread in row.get("threads", ())
                if "args" not in thread and thread.get("call", RUNNING) not in (RUNNING, NO_CALL))


def unread_in(readings: Sequence[List[Row]]) -> Dict[int, str]:
    """Returns why some processes can't be read, by their numbers: as their rows say, or since the threads in these are
    none that a process can have."""
    rows = [row for reading in readings for row in reading if "pid" in row]
    counts = [Counter(thread["tid"] for row in reading for thread in row.get("threads", ())) for reading in readings]
    twice = {tid for count in counts for tid, number in count.items() if number > 1}
    pairs = {(thread["tid"], row["pid"]) for row in rows for thread in row.get("threads", ())}
    twice |= {tid for tid, number in Counter(tid for tid, _ in pairs).items() if number > 1}
    reasons = {row["pid"]: why for row in rows for why in [why_unread(row, twice)] if why}
    return {**dict.fromkeys(begun_before(readings), ODD_START), **reasons}


def begun_before(readings: Sequence[List[Row]]) -> Iterator[int]:
    """Yields the numbers of processes that are others than in the reading before, and began before one of that did."""
    starts = [{row["pid"]: row["start"] for row in reading if "pid" in row and "start" in row} for reading in readings]
    for first, later in zip(starts, starts[1:]):
        newest = max(first.values(), default=0)
        yield from (pid for pid, start in later.items() if first.get(pid, start) != start < newest)


def why_unread(row: Row, twice: AbstractSet[int]) -> str:
    """Returns why a process can't be read, or nothing. Some threads are there `twice`, or of two processes."""
    threads = [thread["tid"] for thread in row.get("threads", ())]
    if "unreadable" in row:
        return str(row["unreadable"])
    if row["pid"] not in threads and row["state"] not in ENDED:
        return ODD_THREADS[0]
    return "" if twice.isdisjoint(threads) else ODD_THREADS[1]


def what_of(row: Row) -> str:
    """Returns in words of what a row tells that no other one of its reading does, or nothing."""
    words = {"pid": f"process {row.get('pid')}", "socket": f"socket {row.get('socket')}",
             "listening": "the list of those that listen"}
    return next((what for key, what in words.items() if key in row), "")


def readings_of(rows: List[Row], path: str) -> List[List[Row]]:
    """Returns the rows of each reading. Raises Refusal if one isn't whole."""
    readings: List[List[Row]] = []
    for row in rows[1:-1]:
        if "reading" in row:
            readings.append([])
        if not readings or "stacks" in row:
            continue
        readings[-1].append(row)
    for number, reading in enumerate(readings, 1):
        end, counts = reading[-1], Counter(filter(None, map(what_of, reading)))
        twice = next((what for what, count in counts.items() if count > 1), "")
        if twice:
            raise Refusal(f"{shown(path)}: {twice} stands twice in reading {number}")
        odd = next((pid for parents in parents_in(reading) for pid in circles_in(parents)), None)
        if odd is not None:
            raise Refusal(f"{shown(path)}: process {odd} descends from itself in reading {number}")
        if end.get("end") != number or end.get("processes") != sum("pid" in row for row in reading):
            raise Refusal(f"{shown(path)}: reading {number} isn't whole: its count of processes doesn't fit")
    if not readings:
        raise Refusal(f"{shown(path)}: it has no reading")
    return readings


def parents_in(reading: List[Row]) -> Tuple[Dict[int, int], Dict[int, int]]:
    """Returns the parent of each process by its own row, and also that of each one above them."""
    own = {row["pid"]: row["ppid"] for row in reading if "pid" in row}
    above = {int(pid): pair[0] for row in reading for pid, pair in row.get("parents", {}).items()}
    return own, {**above, **{row["pid"]: row["ppid"] for row in reading if "pid" in row and "start" in row}}


def circles_in(parents: Dict[int, int]) -> Iterator[int]:
    """Yields a process of each circle of those that descend from themselves."""
    seen: Set[int] = set()
    yield from (pid for pid in parents if is_own_ancestor(pid, parents, seen))


def is_own_ancestor(pid: int, parents: Dict[int, int], seen: Set[int]) -> bool:
    """Whether a process, or one above it, descends from itself, but for those that were seen before."""
    above: Set[int] = set()
    while pid in parents and pid not in seen:
        seen.add(pid)
        above.add(pid)
        pid = parents[pid]
    return pid in above
