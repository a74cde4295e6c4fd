#!/usr/bin/env python3
"""Prints twice, or more often, what cmh_mpi.so keeps of the ranks of an MPI job on this node, as a state for cmh-dump.

    cmh_mpi_reader.py PROGRAM|PID.. [--seconds 5] [--looks 2] > NODE.raw

Run it on each node of the job, by the job's user or root. Nothing is stopped and no signal is sent. A record is a file
in memory that its rank has open, and is taken only if it belongs to the user of that process, and has its number.
Whether a request is complete stands in the memory of the rank; `addr2line` (binutils) says at which line of source a
call is. It needs Python 3.8. The state is a line of JSON for each rank, with names of functions and files: look at it
before you mail it.
"""
from __future__ import annotations

import argparse
import contextlib
import json
import os
import platform
import re
import shutil
import struct
import sys
import time
from typing import Any, Dict, Iterator, List, Optional, Sequence, Set, Tuple

from cmh_proc.budget import BUDGET
from cmh_proc.calls import BY_CLOCK, FUTEX_WAITS, PRIVATE, SLEEPS, calls_of, has_limit
from cmh_proc.door import at, head, kernel_bytes, open_kernel, plain
from cmh_proc.kernel import mappings_in
from cmh_proc.process import (Row, bytes_of, environment_of, files_in_memory, files_of, inner_number, name_of,
                              parent_of, pids, row_of, stat_of, status_of, text_of, threads_of, user_of)
from cmh_proc.programs import run
from cmh_proc.scripts import machine

# What cmh_mpi.c writes, in its order: a head, communicators, the records of threads, requests that have been begun, and
# for each communicator its ranks of the world.
MAGIC = b"cmh_mpi3"
COMMS, THREADS, OPEN, PLACES, WORDS, OWN = 128, 32, 128, 4096, 24, 64
NUMBERS = ("pid", "rank", "size", "level", "asked", "standard", "any_source", "any_tag", "opened", "lost")
HEAD = struct.Struct(f"@8s{2 * WORDS}Q{len(NUMBERS)}i{2 * OWN}i0Q")
COMM, LAST = struct.Struct("=QQQQQ8i32s32s32s32s"), 4
RECORD = struct.Struct("=QQQQ32s4i")
OPERATION = struct.Struct("=QQ4i")
RECORD_SIZE = RECORD.size + (1 + OPEN) * OPERATION.size
RECORDS_AT = HEAD.size + COMMS * COMM.size
KNOWN_AT = RECORDS_AT + THREADS * RECORD_SIZE
RANKS_AT = KNOWN_AT + PLACES * OPERATION.size
RECEIVE, SEND, OTHER, ALL_OF, ANY_OF, POLL, KEPT = 1, 2, 8, 9, 10, 11, 16
ALARMS = sum(1 << number - 1 for number in (14, 26, 27, 29))  # SIGALRM, SIGVTALRM, SIGPROF, SIGIO
TRIES = 50  # to read a record that is being written
MOST_RANKS = 1 << 22  # of all communicators of a rank together
MOST_MAPS, MOST_LINES = 16 << 20, 1 << 20  # bytes of what is mapped in a rank, and of its lines of source
SWITCHES = ("voluntary_ctxt_switches", "nonvoluntary_ctxt_switches")  # none of a thread that is at one wait
RANK = re.compile(rb"OMPI_COMM_WORLD_RANK|PMIX?_RANK|MV2_COMM_WORLD_RANK|SLURM_PROCID")
FORTRAN = re.compile(r"/lib(mpi_mpifh|mpi_usempi\w*|mpifort|fmpich)\b[^/]*$", re.M)
NEEDS_RIGHTS = "it is of another user, or may not be traced" if os.geteuid() else "not even root may read it"


def name_in(data: bytes) -> str:
    return data.split(b"\0")[0].decode("ascii", "replace")


# Which processes


def processes_of(words: Sequence[str]) -> List[int]:
    """Returns the processes that are named by their number, or by the name of their executable file, but no children
    of such, which aren't ranks."""
    there = pids()
    names = {word for word in words if not word.isdigit()}
    ranks = [pid for pid in there if names and name_of(pid) in names and is_rank(pid)]
    ranks = [pid for pid in ranks if parent_of(pid) not in ranks]
    return [*ranks, *(int(word) for word in words if word.isdigit() and int(word) in there and int(word) not in ranks)]


def is_rank(pid: int) -> bool:
    return rank_of(pid) is not None or record_of(pid)[0] != ""


def rank_of(pid: int) -> Optional[int]:
    """Returns the rank of a process by its environment."""
    values = [value for name, value in environment_of(pid).items() if RANK.fullmatch(name)]
    return next((int(value) for value in values if re.fullmatch(rb"\d{1,9}", value)), None)


def record_of(pid: int) -> Tuple[str, str]:
    """Returns where the record of a process can be opened, or why there is none."""
    if not files_of(pid):
        return "", f"its record can't be read: {NEEDS_RIGHTS}"
    paths = files_in_memory(pid, "cmh_mpi")
    return (paths[0], "") if paths else ("", "cmh_mpi.so keeps no record of it")


def has_alarms(pid: int) -> bool:
    """Whether a process has a timer, or takes signals that one of its own or a file may send, as SIGALRM, or whether
    that can't be read."""
    try:
        has_timer = kernel_bytes(f"/proc/{pid}/timers") != b""
    except OSError:
        has_timer = True
    caught = status_of(f"/proc/{pid}", "SigCgt")
    return has_timer or not caught or int(caught[0], 16) & ALARMS != 0


# One rank


class RankRecord:
    """The record of a rank, as it is when this is made. `fault` says why it isn't one to be trusted."""

    def __init__(self, pid: int, handle: int) -> None:
        self.pid, self.handle, self.left = pid, handle, MOST_RANKS
        self.data = self.again(0, RANKS_AT)
        self.fault = self.find_fault()
        if self.fault:
            return
        head = HEAD.unpack_from(self.data)[1:]
        self.complete_at = [8 * place for place in range(WORDS) if head[place] == 0 and head[WORDS + place] == 1]
        self.numbers: Dict[str, int] = dict(zip(NUMBERS, head[2 * WORDS:]))
        before, after = head[-2 * OWN:-OWN], head[-OWN:]
        self.own = set(after) - set(before) if not before[-1] else set()  # (the threads that MPI_Init has begun)

    def find_fault(self) -> str:
        if os.fstat(self.handle).st_uid != user_of(self.pid):
            return "its record may have been written by another user"
        if len(self.data) < RANKS_AT or self.data[:8] != MAGIC:
            return "its record isn't whole, or of another version of cmh_mpi.so"
        if HEAD.unpack_from(self.data)[1 + 2 * WORDS] != inner_number(f"/proc/{self.pid}", self.pid):
            return "its record is that of the process that began it"
        return ""

    def again(self, start: int, size: int) -> bytes:
        """Returns a part of the file as it is now."""
        with contextlib.suppress(OSError):
            return at(self.handle, size, start)
        return b""

    def comms(self) -> List[Row]:
        """Returns its communicators and files by their places, up to the last one that has been taken."""
        rows = [self.comm(place) for place in range(COMMS)]
        used = [place for place, row in enumerate(rows) if row.pop("is_used")]
        return rows[:used[-1] + 1] if used else []

    def comm(self, place: int) -> Row:
        handle, own_id, number, parent, made, size, rank, is_inter, root, *rest = COMM.unpack_from(
            self.data, HEAD.size + place * COMM.size)
        locks, names = rest[:3], [name_in(rest[-LAST:][(number - back) % LAST]) for back in range(LAST)]
        row: Row = {"id": f"{own_id:x}" if handle else "0", "number": number, "size": size, "rank": rank,
                    "inter": is_inter, "root": root, "name": names[0], "parent": f"{parent:x}", "made": made,
                    "is_used": handle or made or size}
        row.update({"past": names[1:number]} if number > 1 else {})
        row.update(zip(("held", "target", "alone"), locks) if locks[0] else {})
        self.left -= max(0, size)
        is_known = handle and 0 < size and self.left >= 0
        ranks = self.again(RANKS_AT + 4 * place * self.numbers["size"], 4 * size) if is_known else b""
        numbers = [word[0] for word in struct.iter_unpack("=i", ranks[:len(ranks) & ~3])] or None
        return row if numbers and numbers == list(range(size)) else {**row, "ranks": numbers}

    def begun(self) -> List[List[Any]]:
        """Returns the messages that have been begun and aren't complete, as far as that is known: kind, communicator,
        partner and tag. Their buffers may be on their way meanwhile."""
        begun = []
        for handle, _, kind, comm, partner, tag in OPERATION.iter_unpack(self.data[KNOWN_AT:]):
            if handle and kind & ~KEPT in (RECEIVE, SEND) and not self.is_complete(handle):
                begun.append([kind & ~KEPT, comm, self.partner(partner) if kind & ~KEPT == RECEIVE else partner, tag])
        return begun

    def records(self) -> Dict[int, Row]:
        """Returns the records of its threads by their numbers, as the rank itself sees these."""
        places = [RECORDS_AT + number * RECORD_SIZE for number in range(THREADS)]
        rows = [self.record(place) for place in places if RECORD.unpack_from(self.data, place)[5]]
        return {row.pop("thread"): row for row in rows}

    def record(self, place: int) -> Row:
        """Returns a record in one piece, or with a fault."""
        for number in range(TRIES):
            data = self.again(place, RECORD_SIZE)
            if not RECORD.unpack_from(data)[0] & 1:
                row = self.row_of(data)
                if self.again(place, 8) == data[:8]:
                    return row
            time.sleep(0.001 * (number > 5))
        thread = RECORD.unpack_from(self.data, place)[5]
        return {"thread": thread, "fault": "its record couldn't be read in one piece"}

    def row_of(self, data: bytes) -> Row:
        sequence, calls, polls, caller, name, thread, _, requests, _ = RECORD.unpack_from(data)
        _, number, kind, comm, partner, tag = OPERATION.unpack_from(data, RECORD.size)
        row: Row = {"thread": thread, "calls": calls, "polls": polls, "name": name_in(name), "kind": kind,
                    "caller": caller, "entered": sequence // 2}
        if kind in (ALL_OF, ANY_OF, POLL):
            row["requests"] = [self.request(data, place) for place in range(min(requests, OPEN))]
            row["more"] = max(0, requests - OPEN)
        if kind not in (ALL_OF, ANY_OF) and not row.get("requests"):
            row.update({"number": number, "comm": comm, "tag": tag,
                        "partner": self.partner(partner) if kind in (RECEIVE, POLL) else partner})
        return row

    def partner(self, number: int) -> Any:
        """A rank of a communicator, or "any"."""
        return "any" if number == self.numbers["any_source"] else number

    def request(self, data: bytes, place: int) -> List[Any]:
        """Returns a request: kind, communicator, partner, tag, number, and whether it is complete, if that is known."""
        start = RECORD.size + (place + 1) * OPERATION.size
        handle, number, kind, comm, partner, tag = OPERATION.unpack_from(data, start)
        done = self.is_complete(handle) if kind else 1
        kind = OTHER if kind & KEPT and done is None else kind & ~KEPT
        return [kind, comm, self.partner(partner) if kind == RECEIVE else partner, tag, number, done]

    def is_complete(self, handle: int) -> Optional[int]:
        """Whether a request is complete, as the library keeps it in its memory: 1 if it is."""
        if len(self.complete_at) != 1 or not handle:
            return None
        with contextlib.suppress(OSError, OverflowError):
            memory = open_kernel(f"/proc/{self.pid}/mem")
            try:
                word = os.pread(memory, 8, handle + self.complete_at[0])
            finally:
                os.close(memory)
            return int(int.from_bytes(word, sys.byteorder) == 1) if len(word) == 8 else None
        return None


def row_of_rank(pid: int) -> Row:
    """Returns what is known of a rank at this moment."""
    path, fault = record_of(pid)
    with contextlib.suppress(OSError, struct.error), plain(path) as handle:  # (it may be cut off meanwhile)
        rank = RankRecord(pid, handle)
        if not rank.fault:
            return row_of_record(rank)
        fault = rank.fault
    if not stat_of(f"/proc/{pid}"):
        return {"pid": pid, "ended": True}
    number = rank_of(pid)
    return {"pid": pid, "fault": fault or "it has ended its record", **({} if number is None else {"rank": number})}


def row_of_record(rank: RankRecord) -> Row:
    # The threads are looked at before and after their records: who hasn't moved between stood there meanwhile.
    states = [stat_of_thread(rank.pid, tid) for tid in threads_of(rank.pid)]
    records = rank.records()
    plain = {name_of(rank.pid)[:15], *(row["called"] for row in states if row["tid"] == rank.pid)}
    rank.data = rank.again(0, RANKS_AT) or rank.data
    threads = [{**row, **records.get(row["inner"], {})} for row in states
               if row["inner"] in records or row["inner"] not in rank.own]
    named = {row["called"] for row in states if row["inner"] in rank.own} - plain
    numbers = {key: rank.numbers[key] for key in ("rank", "size", "level", "asked", "standard", "opened", "lost")}
    comms = rank.comms()
    return {"pid": rank.pid, **numbers, "full": len(comms) == COMMS, "fortran": is_fortran(rank.pid),
            "alarms": has_alarms(rank.pid), "named": sorted(named),
            "comms": comms, "begun": rank.begun(), "any_tag": rank.numbers["any_tag"], "threads": threads}


def is_fortran(pid: int) -> Optional[bool]:
    """Whether a rank has loaded the Fortran part of its library, or None if that can't be read."""
    maps = text_of(f"/proc/{pid}/maps", MOST_MAPS)
    return FORTRAN.search(maps) is not None if maps else None


def stat_of_thread(pid: int, tid: int) -> Row:
    """Returns a thread: its number as it sees itself, its state, and the call of the kernel that it is in."""
    folder = f"/proc/{pid}/task/{tid}"
    fields, call = stat_of(folder), row_of(f"{folder}/syscall").split()
    switches = sum(int(word) for key in SWITCHES for word in status_of(folder, key))
    row: Row = {"tid": tid, "inner": inner_number(folder, tid), "state": fields[0] if fields else "X",
                "called": name_in(bytes_of(f"{folder}/comm").strip()), "switches": switches}
    if len(fields) > 12:
        row["used"] = sum(map(int, fields[11:13])) / os.sysconf("SC_CLK_TCK")  # seconds of processor time
    if len(call) > 6 and call[0].isdigit():
        row["call"] = name_of_call(int(call[0]), [int(word, 16) for word in call[1:7]])
    return row


def name_of_call(number: int, words: Sequence[int]) -> str:
    """Returns "sleep" or "limit" of a call of the kernel that ends by itself, "private" of a wait that threads of the
    process alone end, "shared" with its value of another one at a futex, which other processes may see, as that of a
    join, whose value is the number of the joined thread; and its number of any other call."""
    call = calls_of(platform.machine()).get(number, "")
    if has_limit(call, words):
        return "sleep" if call in SLEEPS else "limit"
    if call == "futex" and words[1] & ~(PRIVATE | BY_CLOCK) in FUTEX_WAITS:
        return "private" if words[1] & PRIVATE else f"shared {words[2] & 0xffffffff}"
    return str(number)


# Places in the source


def add_places(rows: Sequence[Row]) -> None:
    """Says of each thread in a call where that stands."""
    wanted: Dict[str, Set[int]] = {}
    places: Dict[Tuple[int, int], Tuple[str, int]] = {}
    for row in rows:
        callers = {thread["caller"] for thread in row.get("threads", ()) if thread.get("caller")}
        for caller, place in zip(callers, mapped_files(row["pid"], callers) if callers else ()):
            places[row["pid"], caller] = place
            wanted.setdefault(place[0], set()).add(place[1])
    names = {path: lines_of(path, sorted(addresses)) for path, addresses in wanted.items() if path}
    for row in rows:
        for thread in row.get("threads", ()):
            path, offset = places.get((row["pid"], thread.pop("caller", 0)), ("", 0))
            if path:
                thread["place"] = names[path].get(offset) or [f"{os.path.basename(path)}+{offset:#x}"]


def mapped_files(pid: int, addresses: Set[int]) -> Iterator[Tuple[str, int]]:
    """Yields for each address of a process the file that is mapped there, and the address within that file."""
    rows = [row for row in mappings_in(text_of(f"/proc/{pid}/maps", MOST_MAPS)) if row.path.startswith("/")]
    bases = {row.path: row.first for row in reversed(rows) if not row.offset}
    for address in addresses:
        path = next((row.path for row in rows if row.first <= address < row.last), "")
        yield path, address - 1 - (bases.get(path, 0) if is_moved(path) else 0)


def is_moved(path: str) -> bool:
    """Whether a file of code may lie anywhere in memory."""
    with contextlib.suppress(OSError):
        return head(path, 18)[16:17] == b"\3"
    return False


def command_for_lines() -> Optional[str]:
    """Returns what says at which line of source an address is, or None if it isn't there."""
    return shutil.which("addr2line") or shutil.which("eu-addr2line")


def lines_of(path: str, addresses: Sequence[int]) -> Dict[int, List[Any]]:
    """Returns the function, the file and the line of addresses of a file, as far as they are known."""
    command = command_for_lines()
    if command is None:
        return {}
    words = [command, "-f", "-C", "-e", path, *map(hex, addresses)]
    with contextlib.suppress(OSError), plain(path):
        ran = run(words, most=MOST_LINES, resident=BUDGET.size * 3 // 4, seconds=20)
        lines = ran.output.decode("utf-8", "replace").split("\n")
        return {} if ran.why else dict(zip(addresses, map(place_of, lines[::2], lines[1::2])))
    return {}


def place_of(function: str, where: str) -> List[Any]:
    """Returns a function with its file and line, or alone, or nothing."""
    match = re.match(r"(.+):(\d+)(?: \(.*\))?$", where)
    if function.startswith("??"):
        return []
    return [function, match[1], int(match[2])] if match and int(match[2]) else [function]


# The state


def reading(pids: Sequence[int], number: int) -> Iterator[Row]:
    """Yields the rows of one reading."""
    began = time.time()
    rows = [row_of_rank(pid) for pid in pids]
    ended = time.time()
    add_places(rows)
    yield {"reading": number, "time": [began, ended]}
    yield from rows
    yield {"end": number, "ranks": len(rows)}


def state(words: Sequence[str], seconds: float, looks: int) -> str:
    """Returns the state of a job as a text, with so many readings some seconds apart. Raises LookupError if none of it
    is here."""
    pids = processes_of(words)
    if not pids:
        raise LookupError(f"no process of {' '.join(words)} here has a rank that this user can see")
    rows: List[Row] = [{"version": 1, "host": os.uname().nodename, "space": machine()}]
    for number in range(1, looks + 1):
        time.sleep(seconds if number > 1 else 0)
        rows += reading(pids, number)
    rows.append({"end": "state"})
    return "".join(f"cmh-mpi {json.dumps(row)}\n" for row in rows)


def main() -> int:
    parser = argparse.ArgumentParser(description=(__doc__ or "").split("\n", 1)[0])
    parser.add_argument("words", metavar="PROGRAM|PID", nargs="+",
                        help="the name of the job's executable file, or a rank")
    parser.add_argument("--seconds", type=float, default=float(os.environ.get("CMH_SECONDS", "5")),
                        help="the time from one reading to the next (5, or $CMH_SECONDS)")
    parser.add_argument("--looks", type=int, default=int(os.environ.get("CMH_LOOKS", "2")),
                        help="as many readings (2, or $CMH_LOOKS)")
    asked = parser.parse_args()
    try:
        text = state(asked.words, max(0.0, min(3600.0, asked.seconds)), max(2, asked.looks))
    except LookupError as error:
        print(f"cmh_mpi_reader: {error.args[0]}", file=sys.stderr)
        return 1
    if command_for_lines() is None:
        print("cmh_mpi_reader: lines of source can't be named: addr2line isn't there (Debian: apt-get install "
              "binutils)", file=sys.stderr)
    sys.stdout.write(text)
    return 0


if __name__ == "__main__":
    sys.exit(main())
