"""The lines of cmh_mpi_reader.py: what each has, and whether a state is whole.

A key that isn't known, that stands twice, or that is missing beside others that are printed with it, refuses the state:
what it could have said isn't known.
"""
from __future__ import annotations

import re
from collections import Counter
from typing import Any, Dict, Iterable, KeysView, List, Optional, Sequence

from ...core.files import Refusal, shown
from ...core.sketch import quote
from ..base import misfit, row_in

Row = Dict[str, Any]

MARK, VERSION = "cmh-mpi ", 1
EXPECTED = "lines of cmh_mpi_reader.py are expected"
# The kinds of calls of cmh_mpi.c. One that is in none has kind 0.
RECEIVE, SEND, ALL, FROM_ROOT, TO_ROOT, BEFORE, SOME, OTHER, ALL_OF, ANY_OF, POLL, LOCK = KINDS = range(1, 13)
ANY_SOURCE = "any"
# The calls of cmh_mpi.c: those that `I`, before them, begins alone; those on files that two halves have; and others.
MEET = "Barrier Bcast Reduce Gather Gatherv Scatter Scatterv Allgather Allgatherv Alltoall Alltoallv Alltoallw " \
    "Allreduce Reduce_scatter Reduce_scatter_block Scan Exscan Neighbor_allgather Neighbor_allgatherv " \
    "Neighbor_alltoall Neighbor_alltoallv Neighbor_alltoallw Send Ssend Rsend Bsend Recv Probe Mprobe"
MOVE = "File_read_all File_read_at_all File_read_ordered File_write_all File_write_at_all File_write_ordered"
OTHERS = "Send_init Ssend_init Rsend_init Bsend_init Recv_init Buffer_detach Mrecv Wait Waitall Waitany Waitsome " \
    "Test Testall Testany Testsome Request_get_status Request_free Sendrecv Sendrecv_replace Comm_dup " \
    "Comm_dup_with_info Comm_create Comm_create_group Comm_split Comm_split_type Comm_free Comm_disconnect " \
    "Comm_accept Comm_connect Comm_join Comm_spawn Comm_spawn_multiple Intercomm_create Intercomm_merge Graph_create " \
    "Cart_create Cart_sub Dist_graph_create Dist_graph_create_adjacent Lookup_name Publish_name Finalize Win_create " \
    "Win_allocate Win_allocate_shared Win_create_dynamic Win_free Win_fence Win_lock Win_lock_all Win_unlock " \
    "Win_unlock_all Win_start Win_flush Win_flush_all Win_complete Win_wait Win_flush_local Win_flush_local_all " \
    "File_open File_close File_set_size File_preallocate File_set_info File_set_atomicity File_sync File_set_view " \
    "File_seek_shared File_read_shared File_write_shared File_iread_all File_iread_at_all File_iwrite_all " \
    "File_iwrite_at_all"
NAMES = [*(f"{begin}{name[0].lower() if begin else name[0]}{name[1:]}" for name in MEET.split() for begin in ("", "I")),
         *(f"{name}{half}" for name in MOVE.split() for half in ("", "_begin", "_end")), *OTHERS.split(),
         "Sendrecv sends", "Sendrecv receives"]
WORD, STATE, ID = re.compile("|".join(["", *NAMES])), re.compile(r"[A-Za-z]"), re.compile(r"[0-9a-f]+")
CALL = re.compile(r"sleep|limit|private|shared \d+|\d+")  # as the reader names calls of the kernel
PARTNER = int, re.compile(ANY_SOURCE)
MESSAGE = [int, int, PARTNER, int]
REQUEST = [int, int, PARTNER, int, int, (int, type(None))]
THREAD = {"tid": int, "inner": int, "state": STATE, "call?": CALL, "calls?": int, "polls?": int, "name?": WORD,
          "kind?": int, "number?": int, "comm?": int, "partner?": PARTNER, "tag?": int, "requests?": [REQUEST],
          "more?": int, "place?": ([str, str, int], [str]), "fault?": str, "called?": str, "switches?": int,
          "used?": float, "entered?": int,
          "ahead?": object, "meanwhile?": object, "looks?": object}  # (the last 3: of old states)
SIZE = range(1 << 31)
WORLD = "1"  # of MPI_COMM_WORLD, which each rank has first
COMM = {"id": ID, "number": int, "size": SIZE, "rank": int, "inter": int, "root": int, "name": WORD,
        "ranks?": ([int], type(None)), "parent?": ID, "made?": int, "held?": int, "target?": int,
        "alone?": int, "past?": [WORD]}
RANK = {"pid": int, "rank": int, "size": SIZE, "level": int, "standard": int, "opened": int, "lost": int, "full": bool,
        "fortran": (bool, type(None)), "comms": [COMM], "threads": [THREAD], "any_tag?": int, "begun?": [MESSAGE],
        "alarms?": bool, "asked?": int, "named?": [str]}
HEAD = {"version": int, "host": str, "space": str}
SHAPES: Dict[str, Dict[str, Any]] = {
    "threads": RANK, "fault": {"pid": int, "fault": str, "rank?": int}, "ended": {"pid": int, "ended": bool},
    "reading": {"reading": int, "time": [float, float]}, "end": {"end": (int, str), "ranks?": int}, "version": HEAD}
UNKNOWN_ROW: Dict[str, Any] = {}  # the shape of a row of none of these
# Keys of which each is there if another one is, in rows of threads, communicators and ranks, by a key that tells these.
# Older readers printed none of some.
TOGETHER = {kind: [dict.fromkeys(keys.split()).keys() for keys in groups] for kind, groups in {
    "tid": ("calls polls name kind", "number comm partner tag", "requests more"),
    "id": ("parent made", "held target alone"),
    "comms": ("any_tag begun", "alarms asked named")}.items()}


def rows_of(text: str, path: str) -> List[Row]:
    """Returns the rows of a state. Raises Refusal if it isn't one, or isn't whole."""
    known: Dict[str, Row] = {}  # by their lines: who hasn't moved has the same one in each reading
    rows: List[Row] = []
    for number, line in enumerate(text.replace("\r\n", "\n").split("\n"), 1):
        if line in known:
            rows.append(copy_of(known[line]))
        elif line:
            rows.append(known.setdefault(line, row_of(line, path, number)))
    if rows[0].get("version") != VERSION:
        raise Refusal(f"{shown(path)}:1: {EXPECTED}, of version {VERSION}")
    if rows[-1].get("end") != "state":
        raise Refusal(f"{shown(path)}: its last line is missing, so it is cut off")
    check_readings(rows, path)
    return rows


def copy_of(row: Row) -> Row:
    """Returns a row whose threads are its own, as later readings add to them."""
    return {**row, "threads": [dict(thread) for thread in row["threads"]]} if "threads" in row else row


def row_of(line: str, path: str, number: int) -> Row:
    row = row_in(line, MARK)
    if row is None:
        raise Refusal(f"{shown(path)}:{number}: {EXPECTED}, and this line isn't one, is cut off, or has a key twice")
    odd = odd_of(row)
    if odd is not None:
        raise Refusal(f"{shown(path)}:{number}: {EXPECTED}, and in this line {quote(odd)} isn't as these have it")
    return row


def odd_of(row: Row) -> Optional[str]:
    """Returns the first thing in a row that isn't as these have it, or None."""
    place = misfit(row, next((SHAPES[key] for key in SHAPES if key in row), UNKNOWN_ROW))
    if place is not None:
        return place[1:]
    if "threads" not in row:
        return None
    threads, comms = row["threads"], row["comms"]
    rows = ((key, part) for key, parts in (("comms", (row,)), ("tid", threads), ("id", comms)) for part in parts)
    lost = next((key for kind, part in rows for key in lost_keys(part, TOGETHER[kind])), None)
    if lost is not None:
        return lost
    return odd_of_threads(threads, comms)


def odd_of_threads(threads: List[Row], comms: List[Row]) -> Optional[str]:
    """Returns what of the threads and communicators of a process can't be together, or None."""
    if not all(map(is_whole, threads)):
        return "threads"
    if [comm["id"] for comm in comms[:1]] != [WORLD]:
        return "comms"
    if len({thread["tid"] == thread["inner"] for thread in threads}) > 1:  # (all of a process are of one namespace)
        return "inner"
    twice = next((key for key in ("tid", "inner") if has_twice([thread[key] for thread in threads])), None)
    return twice or ("comms" if has_twice([comm["id"] for comm in comms if comm["id"] != "0"]) else None)


def lost_keys(row: Row, groups: Iterable[KeysView[str]]) -> List[str]:
    """Returns keys that a row lacks, and that others of it need."""
    there = row.keys()
    for keys in groups:
        if not there >= keys and not there.isdisjoint(keys):
            return [key for key in keys if key not in there]
    return []


def has_twice(values: List[Any]) -> bool:
    return len(set(values)) < len(values)


def is_whole(thread: Row) -> bool:
    """Whether a thread that has a record has all that calls of its kind have."""
    kind = thread.get("kind", 0)
    if "kind" not in thread:
        return "comm" not in thread and "requests" not in thread
    has_requests = kind in (ALL_OF, ANY_OF, POLL)
    has_one = kind not in (ALL_OF, ANY_OF) and not thread.get("requests")
    if any(not 0 <= (request[-1] or 0) < 1 << 64 for request in thread.get("requests", [])):  # (a word of memory)
        return False
    return kind in (0, *KINDS) and ("requests" in thread) == has_requests and ("comm" in thread) == has_one


def check_readings(rows: List[Row], path: str) -> None:
    """Raises Refusal if a reading isn't whole, or has a process twice."""
    pids: Counter[int] = Counter()
    number, is_open = 0, False
    for row in rows[1:-1]:
        if "pid" in row:
            pids[row["pid"]] += 1
            continue
        is_open = not is_open
        number += is_open
        if row.get("reading" if is_open else "end") != number or not is_open and row.get("ranks") != sum(pids.values()):
            raise Refusal(f"{shown(path)}: reading {number} isn't whole: its lines, or its count of ranks, don't fit")
        pids = Counter() if is_open else pids
    if not pids or is_open or max(pids.values()) > 1:
        raise Refusal(f"{shown(path)}: {'a process stands twice in a reading' if pids else 'it has no rank'}")


def request_rows(thread: Row) -> List[Row]:
    """Returns the requests of a call that aren't complete, as far as that is known."""
    keys = ("kind", "comm", "partner", "tag", "number", "complete")
    rows = [dict(zip(keys, request)) for request in thread.get("requests", [])]
    return [row for row in rows if row["kind"] and row["complete"] != 1]


def ranks_of(comm: Row) -> Optional[Sequence[int]]:
    """Returns the ranks of the world in a communicator, or None if they aren't known."""
    if "ranks" not in comm:
        return range(comm["size"])
    ranks: Optional[List[int]] = comm["ranks"]
    return ranks if ranks is not None and len(ranks) == comm["size"] and all(rank >= 0 for rank in ranks) else None


def rank_at(comm: Row, place: Any) -> int:
    """Returns a rank of a communicator as one of the world, or -1. A communicator without a list has the world's
    order."""
    if not isinstance(place, int) or not 0 <= place < comm["size"]:
        return -1
    ranks = ranks_of(comm) if "ranks" in comm else None
    return ranks[place] if ranks else -1 if "ranks" in comm else place
