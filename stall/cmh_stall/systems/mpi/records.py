"""What cmh_mpi_reader.py prints of an MPI job: the records that cmh_mpi.so keeps, of each thread the call that it is
in, with whom, and how many calls it has made. That number shows whether two readings are of one wait.

A receive or a send waits for its partner, and a collective call for those that have made fewer collective calls of its
communicator, or another one at its number. Of what waits for several requests, those that are complete don't count.
One that looks for something again and again, and sleeps between, ticks: whatever it did for others would be a call.
"""
from __future__ import annotations

from typing import Any, Callable, Dict, Iterable, List, Tuple, Union

from ...core.files import Refusal, shown
from ...core.model import Part, Sign, Wakers, all_of, any_of, unseen, wakers
from ...core.sketch import DONE, INNER, LIMIT, SYSTEM, Process, Sketch, blocked, garbled, goes_on, premise, unknown
from ...core.snapshots import APART, PARTS, Reading
from .. import State
from ..base import Parser
from .needs import Need, need_of, need_of_requests
from .ranks import BY_ITSELF, MpiJob, RankOfRecords, RankThread, align, is_parked, joined_by
from .text import ALL_OF, ANY_OF, POLL, rows_of

RETURNS = "it comes back to calls on a window, and may look for a value there"
ONE_THREAD, FINALIZED, COMPUTES = "one-thread", "finalize", "computes"


class RecordsParser(Parser):
    """Ranks are read one after the other, and nobody waits for that. Each counts its calls."""

    NAME, IDLE, MOMENT = "mpi", "ranks", APART
    SNAPSHOT_CLASS = MpiJob

    def __init__(self) -> None:
        self.lists: Dict[Tuple[str, ...], List[str]] = {}  # of names, which all snapshots share

    def read(self, state: State) -> List[Reading]:
        rows = rows_of(state.text, state.path)
        host, machine = str(rows[0]["host"]), str(rows[0]["space"])
        numbers = {row["pid"]: row["rank"] for row in rows if "rank" in row}
        readings: List[Reading] = []
        time: Tuple[float, float] = (0.0, 0.0)
        for row in rows[1:-1]:
            if "reading" in row:
                time = row["time"][0], row["time"][1]
            elif "pid" in row and row["pid"] not in numbers:
                readings.append(Reading(state.path, f"pid {row['pid']}", [], f"process {row['pid']}: "
                                        f"{row.get('fault', 'it has ended')}", PARTS))
            elif "pid" in row:
                number = row.get("rank", numbers[row["pid"]])
                readings.append(Reading(state.path, number, [RankOfRecords(row, number, host)], machine=machine,
                                        time=time))
        return readings

    def begin(self, readings: List[Reading]) -> None:
        """Says which ranks the job has that the state lacks."""
        ranks: List[RankOfRecords] = [rank for reading in readings for rank in reading.rows]
        pids = pids_of(readings, lambda rank: f"{rank.pid} on {rank.host}")
        align(ranks)
        say_missing(readings, pids, [rank.row.get("size", 0) for rank in ranks])

    def prepare(self, snapshot: MpiJob) -> None:
        snapshot.read_ranks(self.lists)
        working = [rank for rank in snapshot.ranks.values() if not rank.in_finalize]
        snapshot.to_finalize = all_of([rank.names()[0] for rank in working], "comes", premise(FINALIZED))

    def processes(self, snapshot: MpiJob) -> Iterable[Any]:
        subjects: List[Union[RankOfRecords, RankThread]] = []
        for rank in snapshot.ranks.values():
            subjects += [*rank.threads, *rank.helpers] or [rank]
        return subjects

    def finish(self, sketch: Sketch, snapshots: List[Any]) -> None:
        doubt_reach(sketch)

    def process_of(self, subject: Union[RankOfRecords, RankThread], snapshot: MpiJob) -> Process:
        if isinstance(subject, RankOfRecords):
            return without_thread(subject)
        thread, rank = subject, subject.rank
        fault = rank.fault or str(thread.row.get("fault", ""))
        if fault:
            return garbled(thread.name, fault, site=rank.host, thread=thread.more()["thread"])
        made = process_of_thread(thread, snapshot)
        if rank.others and not rank.is_threaded:
            made.because.append(premise(ONE_THREAD))
        return made


def doubt_reach(sketch: Sketch) -> None:
    """Says of waits that aren't understood whose end may be the act of one who goes on. Whoever can reach a rank may
    send to it, and most never do: that one of them goes on doesn't show that the wait will end."""
    going = {process.name for process in sketch.processes if process.sign is Sign.GOES_ON}
    ends: Dict[int, bool] = {}  # by the ids of lists, whether one of them goes on
    for process in sketch.processes if going else ():
        lists = {id(group.who): group.names() for part in process.parts for group in part if group.how == "reaches"}
        ends.update({key: not going.isdisjoint(names) for key, names in lists.items() if key not in ends})
        if process.sign is Sign.BLOCKED and any(ends[key] for key in lists):
            process.sign = Sign.UNKNOWN


def pids_of(readings: List[Reading], name_of_process: Callable[[Any], str]) -> Dict[int, str]:
    """Returns what tells the process of each rank, by its number. Raises Refusal if a rank is another one in a later
    reading."""
    pids: Dict[int, str] = {}
    for reading, rank in ((reading, rank) for reading in readings for rank in reading.rows):
        here = name_of_process(rank)
        before = pids.setdefault(rank.number, here)
        if before != here:
            raise Refusal(f"{shown(reading.path)}: rank {rank.number} is process {here} here, and {before} before: "
                          "states of one job are expected, and of one process for each rank")
    return pids


def say_missing(readings: List[Reading], numbers: Dict[int, str], sizes: List[int]) -> None:
    """Says in the first reading which ranks a job has that its states lack. `numbers` has those that are there."""
    size = max(sizes + [max(numbers, default=-1) + 1])
    first = next((number for number in range(size) if number not in numbers), None)
    if first is not None:
        missing = size - len(numbers)
        readings[0].missing = readings[0].missing or (
            f"the job has {size} ranks, and {missing} of them {'is' if missing == 1 else 'are'} not in the state, as "
            f"rank {first}")


def without_thread(rank: RankOfRecords) -> Process:
    """Returns a rank without threads: it has no record, or has ended."""
    if rank.row.get("ended"):
        return Process(rank.name, Sign.ENDED, reason=DONE, because=[SYSTEM], site=rank.host)
    return garbled(rank.name, rank.fault or "it has no thread", site=rank.host)


def process_of_thread(thread: RankThread, job: MpiJob) -> Process:
    more = thread.more()
    if thread.returns:
        more.update(frames=[], operation="", note="", objects=more["objects"][:1], count=None)
        return unknown(thread.name, RETURNS, **more)
    if thread.kind == 0:
        return outside(thread, more)
    if thread.kind == POLL and thread.ticks():
        more.update(operation=f"timed {thread.operation()}", count=str(thread.row["polls"]))
        why = "it looks again and again, and sleeps between"
        return goes_on(thread.name, why, [premise(LIMIT)], Sign.TICKS, **more)
    if thread.kind == POLL:
        return polls(thread, job, more)
    if thread.rank.in_finalize:
        return finalizes(thread, job, more)
    is_of_requests = thread.kind in (ALL_OF, ANY_OF)
    need = need_of_requests(thread, job, thread.kind) if is_of_requests else need_of(thread, job, thread.row)
    if not need.parts:
        return unknown(thread.name, need.why, **more)
    return blocked(thread.name, need.parts, need.because, reason=need.why, **more)


def polls(thread: RankThread, job: MpiJob, more: Dict[str, Any]) -> Process:
    """Returns a thread whose last call has looked for something and found nothing. It may look for something else in
    the next step, so nothing counts its wait."""
    why = f"it polls with {thread.operation()}, and may do so in a loop"
    beside = unseen("unshown", why)
    rows, more["count"] = thread.looks_for(), None
    if thread.row.get("turns"):
        names = job.others(job.ranks, thread.name)
        return blocked(thread.name, any_of(wakers("reaches", names), beside), [], reason=why, **more)
    kind = ANY_OF if thread.row["name"] in ("Testany", "Testsome") else ALL_OF
    need = need_of_requests(thread, job, kind) if thread.row.get("requests") else \
        need_of(thread, job, rows[0]) if rows else Need([])
    return blocked(thread.name, [(*part, beside) for part in need.parts] or any_of(beside), [], reason=why, **more)


def finalizes(thread: RankThread, job: MpiJob, more: Dict[str, Any]) -> Process:
    why = "" if job.to_finalize else "all ranks of the state have come to MPI_Finalize"
    return blocked(thread.name, job.to_finalize or any_of(unseen("unshown", why)), [premise(FINALIZED)], reason=why,
                   **more)


# Outside of MPI


def outside(thread: RankThread, more: Dict[str, Any]) -> Process:
    """Returns a thread that is in no call of MPI."""
    name, row, rank, hidden = thread.name, thread.row, thread.rank, thread.rank.hidden_calls()
    call = row.get("call", "")
    more.update(thread.last_call())
    joined = joined_by(row, [other.row for other in rank.threads if other is not thread])
    if joined and "switches" in row:
        whom = [other.name for other in rank.threads if str(other.row["tid"]) == joined]
        return parked(thread, any_of(wakers("ends", whom, SYSTEM)), "pthread_join", [SYSTEM], more)
    if hidden:
        return unknown(name, hidden, **{**more, "count": None} if thread.is_new() else more)
    if is_parked(row) and "switches" in row:
        return parked(thread, [woken_by(thread)], "futex", [SYSTEM, premise(INNER)], more)
    if call in BY_ITSELF:
        more["operation"] = "timed sleep" if call == "sleep" else "timed wait"
        does_tick = thread.is_new() and thread.ticks() and "switches" in row
        more["count"] = str(row["switches"]) if does_tick else more["count"]
        return goes_on(name, BY_ITSELF[call], [premise(LIMIT)], Sign.TICKS if does_tick else Sign.SLEEPS, **more)
    if row["state"] == "R":
        return goes_on(name, "it computes", [SYSTEM, premise(COMPUTES)], **more)
    where = f"in call {shown(call)} of the kernel" if call else f"in state {shown(row['state'])}"
    return unknown(name, f"it waits outside of MPI, {where}: cmh-dump linux shows more", **more)


def woken_by(thread: RankThread) -> Part:
    """Returns who may wake a thread that waits at a futex of its process alone."""
    rank = thread.rank
    names = [other.name for other in rank.threads if other is not thread]
    others: List[Wakers] = [wakers("same-process", names, SYSTEM)]
    if rank.row.get("alarms") is not False:
        others.append(unseen("unshown", "a timer or a signal of its own may wake it"))
    if rank.row.get("named") != []:
        others.append(unseen("unshown", "a thread of another library, which MPI_Init has begun, may wake it"))
    return tuple(others)


def parked(thread: RankThread, parts: List[Part], operation: str, because: List[str], more: Dict[str, Any]) -> Process:
    """Returns a thread that waits for others of its process. A new one has one place, whatever it does."""
    more.update(count=f"{thread.calls}/{thread.row['switches']}", operation="" if thread.is_new() else operation)
    return blocked(thread.name, parts, because, **more)
