"""The ranks of an MPI job and their threads, as a reading of cmh_mpi_reader.py shows them, and what two readings show
together."""
from __future__ import annotations

import functools
import math
from dataclasses import dataclass
from typing import Any, Dict, Iterable, Iterator, List, Optional, Set, Tuple

from ...core.sketch import frame
from ..base import Snapshot
from .text import ALL, LOCK, OTHER, POLL, RECEIVE, SEND, Row, rank_at, request_rows

FUNNELS, SERIALIZED = 1, 2  # levels of MPI_Init_thread: the last by which one thread alone may call MPI, and the next
EVERY, SEVERAL = -9, -10  # targets of locks: all of a window, and more than the record has
NEW_CALLS = 4  # the standard from which on there are calls that cmh_mpi.c doesn't know
TAKES = "Win_lock", "Win_lock_all"  # calls on a window that take a lock
NEW_CALL = "it may be in a call that came with MPI 4, which leaves no record"
ASKED = "requests", "more", "number", "comm", "partner", "tag"  # what one looks for who polls
BY_ITSELF = {"sleep": "it sleeps", "limit": "it waits with a limit"}
PARKED = "private"  # the call of one that waits without a limit at a futex of its process alone
DEAD = "X", "Z"  # states of threads that have ended
BUSY = 0.1  # seconds of processor time between two readings, from which on a thread has computed
OF_RANK = "rank", "size", "level", "asked", "standard", "any_tag", "fortran"  # what stays in a rank
OF_COMM = "size", "rank", "inter", "ranks", "parent", "made"  # what stays in a communicator
NEVER_LESS = "calls", "entered", "switches", "used"  # what of a thread only grows
OF_MEETING = "name", "kind", "comm", "number"  # what tells a collective call from all others of a rank
# What of a call is the same as long as it lasts. Its requests come to be complete.
OF_CALL = "name", "kind", "comm", "tag", "partner", "number", "place", "more"
FEW = 200  # of more ranks all waits share the list, with the one that waits in it: so it takes time linear in them


@dataclass(eq=False)
class RankOfRecords:
    """A rank as one reading shows it. `fault` says why nothing is known of it. `threads` are those that may call MPI:
    its first one, and the others if the job has asked for that, or several have done so. `helpers` are others that go
    on by themselves, and of which the job hasn't said that they don't call MPI."""

    row: Row
    number: int
    host: str

    def __post_init__(self) -> None:
        self.name, self.pid = f"rank-{self.number}", int(self.row["pid"])
        self.level = max(self.row.get("level", 0), self.row.get("asked", 0))
        self.comms: List[Row] = self.row.get("comms", [])
        self.fault = str(self.row.get("fault", "")) or fault_of(self.row)
        self.by_id = {comm["id"]: comm for comm in self.comms if comm["id"] != "0"}
        there = [row for row in self.row.get("threads", []) if row["state"] not in DEAD]
        main = self.know_threads(there, [row for row in there if "calls" in row or "fault" in row])
        more = self.others if self.is_threaded else []
        self.threads = [RankThread(self, row, f"/{row['tid']}" if number else "")
                        for number, row in enumerate([*main, *more])]
        self.in_finalize = any(thread.row.get("name") == "Finalize" for thread in self.threads if thread.kind == OTHER)
        self.halves = self.halves_by_partner()

    def know_threads(self, there: List[Row], callers: List[Row]) -> List[Row]:
        """Returns the thread that calls MPI, at most one. Then it is known which the others are, and whether these may
        call it too."""
        first = [row for row in there if row["tid"] == self.pid]
        main = (callers if len(callers) == 1 else first or callers or there)[:1]
        self.others = [row for row in there if row not in main]
        self.is_threaded = self.level >= SERIALIZED or len(callers) > 1 or any(
            is_parked(row) or joined_by(row, there) for row in main)
        return main

    def halves_by_partner(self) -> Dict[Any, List[Row]]:
        """Returns its sends and receives that aren't complete: those it is in, and those it has begun."""
        halves: Dict[Any, List[Row]] = {}
        begun = [dict(zip(("kind", "comm", "partner", "tag"), half)) for half in self.row.get("begun", [])]
        for half in (*(thread.row for thread in self.threads if thread.kind in (RECEIVE, SEND)), *begun):
            if 0 <= half["comm"] < len(self.comms):
                halves.setdefault(half["partner"], []).append(half)
        return halves

    @functools.cached_property
    def helpers(self) -> List[RankThread]:
        has_said = self.row.get("asked") == FUNNELS == self.level
        silent = [] if has_said or self.is_threaded else self.others
        return [RankThread(self, row, f"/{row['tid']}") for row in silent
                if row["state"] == "R" or row.get("call") in BY_ITSELF or row.get("ticks")]

    def names(self) -> List[str]:
        """Those of its threads that may call MPI, or itself."""
        return [thread.name for thread in self.threads] or [self.name]

    def all_names(self) -> List[str]:
        return [*self.names(), *(thread.name for thread in self.helpers)]

    def is_away(self) -> bool:
        """Whether it is in no call of MPI, or only looks into one now and then."""
        return all(thread.kind in (0, POLL) for thread in self.threads)

    def is_in(self, name: str) -> bool:
        """Whether it is in a call."""
        return any(thread.kind and thread.row["name"] == name for thread in self.threads)

    def may_have(self, comm: Row, target: int) -> bool:
        """Whether it has a lock of a target of a window, or of EVERY one, or wants it, or that isn't known."""
        own = self.by_id.get(comm["id"], {})
        return self.is_hidden() or own.get("held", 0) > 0 and (
            target == EVERY or own["target"] in (target, EVERY, SEVERAL))

    def bars(self, comm: Row, target: int, is_alone: bool) -> bool:
        """Whether it surely has a lock of a window that another one can't have beside."""
        own = self.by_id.get(comm["id"], {})
        is_there = own.get("held", 0) > 0 and own["target"] != SEVERAL and not any(
            thread.row["name"] in TAKES for thread in self.inside(comm, LOCK))
        return is_there and bool(is_alone or own["alone"]) and (target == EVERY or own["target"] in (target, EVERY))

    def is_hidden(self) -> bool:
        """Whether its record hasn't all of its calls."""
        return bool(self.fault or self.row.get("full") or any("fault" in row for row in self.row.get("threads", [])))

    def inside(self, comm: Row, *kinds: int) -> List[RankThread]:
        """Its threads that are in calls of some kinds on a communicator, or a window."""
        own = self.by_id.get(comm["id"])
        return [thread for thread in self.threads
                if thread.kind in kinds and self.comms[thread.row["comm"]:][:1] == [own]]

    def hidden_calls(self) -> str:
        """Returns which calls it may be in that leave no record, or nothing."""
        if self.row["opened"] > 0:
            return "it has a window of MPI open, and may be in a call that puts or gets, or wait for a value there"
        return NEW_CALL if self.row["standard"] >= NEW_CALLS else ""


@dataclass(eq=False)
class RankThread:
    """A thread of a rank, with its record. `returns` says that it has made no call since the first reading but some on
    windows."""

    rank: RankOfRecords
    row: Row
    suffix: str

    def __post_init__(self) -> None:
        self.name, self.returns = self.rank.name + self.suffix, False
        self.kind = int(self.row.get("kind", 0))
        self.calls = int(self.row.get("calls", 0))

    def operation(self) -> str:
        return f"MPI_{self.row['name']}" if self.kind else ""

    def is_new(self) -> bool:
        """Whether it is another thread of a rank, and has made no call of MPI so far."""
        return "calls" not in self.row and self.suffix != ""

    def ticks(self) -> bool:
        """Whether it has slept several times between the readings, as one that looks again and again does."""
        return bool(self.row.get("ticks"))

    def more(self) -> Dict[str, Any]:
        """What tells its wait from the next, and the note."""
        operation, frames = self.operation(), [frame(*self.row["place"])] if self.row.get("place") and self.kind else []
        values = [*self.partners(), *([f"tag={self.row['tag']}"] if self.kind in (RECEIVE, SEND) else [])]
        words = [operation, self.with_whom(), *(["in", frames[0]] if frames else [])]
        return {"site": self.rank.host, "frames": frames, "operation": operation,
                "objects": [f"call-{self.calls}", *values], "count": str(self.calls),
                "note": " ".join(filter(None, words)), "thread": f"{self.rank.pid}/{self.row['tid']}"}

    def last_call(self) -> Dict[str, Any]:
        """The place of the last call of one that is outside of MPI, or what it is called if it has made none."""
        place, called = self.row.get("place"), self.row.get("called")
        last = f"after {frame(*place)}" if place else called if self.is_new() else "after MPI_Init"
        return {"frames": [last] if last else [], "note": last or ""}

    def partners(self) -> List[str]:
        """The other side of its message, or of the one request for which it polls, as a value for facts."""
        rows = [self.row] if self.kind in (RECEIVE, SEND) else self.looks_for() if self.kind == POLL else []
        ranks = [self.rank_of(row) for row in rows if row["kind"] in (RECEIVE, SEND)]
        key = "from" if rows and rows[0]["kind"] == RECEIVE else "to"
        return [f"{key}={ranks[0]}"] if len(ranks) == 1 and ranks[0] >= 0 else []

    def rank_of(self, row: Row) -> int:
        """Returns the partner of a message as a rank of the world, or -1."""
        comms = self.rank.comms
        return rank_at(comms[row["comm"]], row["partner"]) if 0 <= row["comm"] < len(comms) else -1

    def with_whom(self) -> str:
        """The number of a collective call, or the tag of a message, in words."""
        if self.kind in (RECEIVE, SEND):
            return f"tag {self.row['tag']}"
        if self.kind == LOCK and self.row["partner"] >= 0:
            return f"of {self.row['partner']}"
        return f"number {self.row['number']}" if ALL <= self.kind <= OTHER and name_of(self.row) else ""

    def requests(self) -> List[Row]:
        """Its requests that aren't complete, as far as that is known, each with the collective call that it is of."""
        return [{**row, "meeting": self.meeting_of(row)} for row in request_rows(self.row)]

    def looks_for(self) -> List[Row]:
        """The requests for which one polls, or the message for which it looks as a receive."""
        if self.row.get("requests") or "comm" not in self.row:
            return self.requests()
        return [{**self.row, "kind": RECEIVE}]

    def meeting_of(self, row: Row) -> str:
        """The collective call that a request is of, where it is the last one of its communicator."""
        comm = self.rank.comms[row["comm"]] if 0 <= row["comm"] < len(self.rank.comms) else {}
        return str(comm["name"]) if comm.get("number") == row["number"] else ""


class MpiJob(Snapshot):
    """The ranks at one time, by their numbers. `late` keeps who is late for which collective call, `to_finalize` has a
    part for each that hasn't come to MPI_Finalize, and `odd` the communicators of which two ranks say different things.
    """

    ranks: Dict[int, RankOfRecords]
    late: Dict[Tuple[Any, ...], Any]
    to_finalize: List[Any]
    members: Dict[Tuple[int, ...], List[str]]
    odd: Set[str]

    def read_ranks(self, lists: Dict[Tuple[str, ...], List[str]]) -> None:
        """Looks at all ranks. `lists` are those of names that other snapshots have too."""
        self.lists = lists
        self.ranks = {rank.number: rank for rank in self.rows()}
        self.late, self.members = {}, {}
        forms: Dict[str, Any] = {}
        comms = ((rank, comm) for rank in self.ranks.values() for comm in rank.by_id.values() if not comm["inter"])
        rows = ((comm["id"], form_of(comm), rank_at(comm, comm["rank"]) == rank.number) for rank, comm in comms)
        self.odd = {key for key, form, is_there in rows if not is_there or forms.setdefault(key, form) != form}

    def others(self, numbers: Iterable[int], name: str) -> List[str]:
        """The threads of some ranks, but for one. Of many ranks the list is shared, with that one in it."""
        key = tuple(numbers)
        if key not in self.members:
            names = [other for number in key for other in self.ranks[number].all_names()]
            self.members[key] = self.lists.setdefault(tuple(names), names)
        names = self.members[key]
        return names if len(names) > FEW else [other for other in names if other != name] or names


def form_of(comm: Row) -> Tuple[Any, ...]:
    """What all ranks of a communicator say alike of it."""
    return comm["size"], comm.get("ranks", ())


def is_parked(row: Row) -> bool:
    """Whether a thread is outside of MPI, and only another one of its process can wake it."""
    return not row.get("kind") and row.get("call") == PARKED


def joined_by(row: Row, rows: List[Row]) -> str:
    """Returns the number of the thread for whose end one waits, as the kernel writes it, or nothing."""
    call = str(row.get("call", ""))
    if row.get("kind") or not call.startswith("shared "):
        return ""
    return next((str(other["tid"]) for other in rows if call == f"shared {other['inner']}"), "")


def name_of(row: Row) -> str:
    """The name of a collective call, or of that which a request is of, as far as it is known."""
    return str(row.get("meeting", row.get("name", ""))) if row.get("number", 0) > 0 else ""


def fault_of(row: Row) -> str:
    """Returns why the record of a rank isn't all of its calls, or nothing."""
    if "threads" not in row:
        return ""
    if row["pid"] not in [thread["tid"] for thread in row["threads"]]:
        return "its first thread isn't among its threads"
    if row["fortran"] is not False:
        return ("the Fortran part of MPI is loaded, whose calls leave no record" if row["fortran"] else
                "it can't be seen whether the Fortran part of MPI is loaded, whose calls leave no record")
    return f"{row['lost']} of its threads found no room for a record" if row["lost"] else ""


def record_of(row: Row) -> List[Any]:
    """Returns what the record of a thread says of its call, but for which of its requests are complete."""
    return [*(row.get(key) for key in OF_CALL), *(request[:5] for request in row.get("requests", ()))]


# Two readings


def align(ranks: List[RankOfRecords]) -> None:
    """Notes what several readings of ranks show together."""
    note_ticks(rank.row for rank in ranks)
    for was, now in pairs_of((rank.number, rank) for rank in ranks):
        now.fault = was.fault = now.fault or was.fault or difference(was, now)
    for one, later in pairs_of((thread.name, thread) for rank in ranks for thread in rank.threads):
        align_calls(one, later)


def note_ticks(rows: Iterable[Row]) -> None:
    """Notes of threads that they have slept several times between two readings, as a heartbeat does. One that was
    caught awake in one of them, and has used next to no processor time since, stands where it sleeps."""
    keyed = (((row["pid"], thread["tid"]), thread) for row in rows for thread in row.get("threads", []))
    for was, now in pairs_of(keyed):
        has_moved = was.get("switches") != now.get("switches")
        limited = [row["call"] for row in (was, now) if row.get("call") in BY_ITSELF] if has_moved else []
        if limited:
            was["ticks"] = now["ticks"] = True
            if "used" in was and now.get("used", math.inf) - was["used"] < BUSY:
                was["call"], now["call"] = limited[0], limited[-1]


def pairs_of(keyed: Iterable[Tuple[Any, Any]]) -> Iterator[Tuple[Any, Any]]:
    """Yields what later readings have by a key, each with what the first one has by it."""
    first: Dict[Any, Any] = {}
    for key, thing in keyed:
        one = first.setdefault(key, thing)
        if one is not thing:
            yield one, thing


def difference(was: RankOfRecords, now: RankOfRecords) -> str:
    """Returns in which thing that never changes two readings of a rank differ, or nothing."""
    if "threads" not in was.row or "threads" not in now.row:
        return ""
    key = next((key for key in OF_RANK if was.row.get(key) != now.row.get(key)), None)
    both = [] if was.comms == now.comms else [name for name in was.by_id if name in now.by_id]
    part = next((key for name in both for key in OF_COMM if was.by_id[name].get(key) != now.by_id[name].get(key)), None)
    name: Optional[str] = key or part and f"the {part} of a communicator"
    threads = {thread["tid"]: thread for thread in was.row["threads"]}
    pairs = [(threads[thread["tid"]], thread) for thread in now.row["threads"] if thread["tid"] in threads]
    if was.by_id.keys() != now.by_id.keys() and all(has_made_none(*pair) for pair in pairs):
        return "its readings differ in its communicators, and it has made no call between them"
    return f"its readings differ in {name}, which never changes" if name else next(filter(None, map(
        contradiction, pairs)), "")


def has_made_none(was: Row, now: Row) -> bool:
    """Whether a thread has made no call between two readings, also none on a window."""
    return "calls" in was and all(was.get(key) == now.get(key) for key in ("calls", "entered"))


def contradiction(pair: Tuple[Row, Row]) -> str:
    """Returns what shows that two rows can't be of one thread, the second one later, or nothing."""
    was, now = pair
    key = next((key for key in NEVER_LESS if key in was and key in now and now[key] < was[key]), None)
    if key is not None:
        return f"its readings differ in {key}, of which there are less in the later one"
    if has_made_none(was, now) and POLL not in (was["kind"], now["kind"]) and record_of(was) != record_of(now):
        return "its readings show two calls, and it has made none between them"
    if has_made_none(was, now) and was["kind"] == now["kind"] != 0 and ("place" in was) != ("place" in now):
        return "one of its readings lacks its place"
    calls = was.get("call"), now.get("call")
    if was["state"] == now["state"] == "S" and None not in calls and calls[0] != calls[1] and was.get(
            "switches") == now.get("switches"):
        return "its readings show two calls of the kernel, and no count of its moves has grown"
    is_in_one = was.get("calls") != now.get("calls") and has_stayed(was, now)
    return "it has made calls between its readings, and hasn't left the one that it is in" if is_in_one else ""


def has_stayed(was: Row, now: Row) -> bool:
    """Whether a thread has met nobody else since, or hasn't woken."""
    is_one = ALL <= was.get("kind", 0) <= OTHER and was["number"] > 0 and all(
        was[key] == now.get(key) for key in OF_MEETING)
    return is_one or was["state"] == now["state"] == "S" and was.get("switches", -1) == now.get("switches")


def align_calls(one: RankThread, later: RankThread) -> None:
    """Has one who polls in turn for several things, and has found nothing between two readings, stand at one place in
    both. One who hasn't even looked is outside of MPI. Notes who has made calls on windows alone between, which don't
    count."""
    was, now = one.row, later.row
    is_same, looks = one.calls == later.calls, one.kind == later.kind == POLL
    if is_same and looks and "entered" in was and all(was.get(key) == now.get(key) for key in ("polls", "entered")):
        one.kind = later.kind = was["kind"] = now["kind"] = 0
    elif is_same and looks:
        was["turns"] = now["turns"] = any(was.get(key) != now.get(key) for key in ASKED)
        now.update({key: was[key] for key in ("name", "place", *ASKED) if key in was})
    elif is_same and was.get("entered") != now.get("entered"):
        one.returns = later.returns = True
