"""What gdb prints of the stack of each rank of an MPI job, or eu-stack, once or several times, in one file or several.
What cmh_mpi_reader.py prints is for mpi_records.

The partner of a call is known where the frame of the MPI call itself shows it and that its communicator is the world's:
a rank of another communicator is another process. All else stands in the source: facts say it by line. A rank that
waits polls, and nothing counts how often it has waited: two stacks alike may show two waits of a healthy loop.
"""
from __future__ import annotations

import functools
import re
from dataclasses import dataclass, field
from typing import Any, Dict, Iterable, List, Match, NamedTuple, Optional, Tuple

from ...core.files import Refusal, shown
from ...core.model import Part, Sign, Wakers, all_of, any_of, unseen, wakers
from ...core.sketch import LIMIT, SYSTEM, Process, Sketch, blocked, garbled, goes_on, premise, unknown
from ...core.snapshots import APART, PARTS, Reading
from .. import State
from ..base import Break, Parser, Snapshot, without_sleep
from .ranks import FEW
from .records import COMPUTES, FINALIZED, ONE_THREAD, RecordsParser, doubt_reach, pids_of, say_missing
from .stacks import RankStack, like_gdb, lost_of, stacks_of
from .text import MARK

# Lines are searched for by the letters that they begin with, as those of stacks.
HEADING = re.compile(r"# (?<!.# )(?:gdb|eu-stack) -p \d+.*")
HEAD = re.compile(r"# (?:gdb|eu-stack) -p (?P<pid>\d+)(?: on (?P<host>[^\s,]+))?\b.*\b(?:OMPI_COMM_WORLD_RANK|"
                  r"MV2_COMM_WORLD_RANK|PMI_RANK|PMIX_RANK|SLURM_PROCID)=(?P<rank>\d{1,9})\b")
SIZE = re.compile(r"\b(?:OMPI_COMM_WORLD_SIZE|MV2_COMM_WORLD_SIZE|PMI_SIZE|SLURM_NTASKS)=(\d{1,7})\b")
# How often a thread has given up its processor, as the recipe copies it after the first stacks and before the second.
DETACHED = re.compile(r"^\[Inferior \d+ \(process (\d+)\) detached\]", re.M)
SWITCHES = re.compile(r"# (?<!.# )/proc/(\d{1,9})/task/(\d{1,9})/status:voluntary_ctxt_switches:\s*(\d{1,18})$", re.M)
SLEEPS = re.compile(r"(__GI_)?_*(clock_)?(nano|u)?sleep$")
LIMITED = re.compile(r"(timed|clock)(wait|lock|join|rdlock|wrlock)")  # of waits for others of the same process

Counts = Dict[str, List[Tuple[int, str]]]
KEPT = 65536  # headings of which it is kept what they say


class Head(NamedTuple):
    """What the heading of a rank's stacks says of it. `size` is how many ranks its job has, or 0."""

    pid: str
    host: str
    rank: int
    size: int


@dataclass
class RankOfStacks:
    """A rank as one reading shows it, or with a `suffix` another thread of it. `threads` are those that run code of the
    job's, `fault` says what of it isn't understood, and `cut` which of its other threads isn't shown whole. `peers` are
    the others of its process, and `count` is how often it has given up its processor: one that polls in
    a call of MPI doesn't."""

    head: Head
    stack: RankStack
    fault: str = ""
    suffix: str = ""
    threads: List[RankOfStacks] = field(default_factory=list)
    peers: List[str] = field(default_factory=list)
    cut: str = ""
    count: Optional[str] = None

    def __post_init__(self) -> None:
        self.number, self.name = self.head.rank, f"rank-{self.head.rank}{self.suffix}"

    def process_id(self) -> str:
        """Its process, on its machine where that stands there."""
        return f"{self.head.pid} on {self.head.host}" if self.head.host else self.head.pid

    def more(self) -> Dict[str, Any]:
        """What tells its wait from the next, and the note."""
        stack = self.stack
        return {"site": self.head.host or "node-1", "thread": f"{self.head.pid}/", "frames": stack.places,
                "operation": stack.operation, "objects": stack.values, "note": stack.note,
                "count": self.count if self.suffix else None, "stack": stack.whole,
                "is_collective": stack.is_collective, "meeting": self.name if stack.is_of_request else ""}

    def between(self, place: int, polls: RankStack) -> Tuple[RankOfStacks, Dict[str, Any]]:
        """Returns it as it stands at the call by which another one polls in the function of a frame of its own: the
        next call of that loop, or the one before."""
        made = RankOfStacks(self.head, RankStack([*polls.frames[:polls.begin], *self.stack.own[place:]]))
        more = made.more()
        return made, {**more, "frames": [*polls.places[:1], *more["frames"][1:]]}


class Ranks(Snapshot):
    """The ranks at one time, by their numbers, and the names of all. `to_finalize` has a part for each that hasn't come
    to MPI_Finalize, and `late` the names of those that aren't in the one collective call in which all others are, by
    the same calls of the job's own, if there is one."""

    ranks: Dict[int, RankOfStacks]
    names: List[str]
    to_finalize: List[Part]
    late: List[str]

    def others(self, rank: RankOfStacks) -> Wakers:
        """Those who may end a wait of a rank of which the state doesn't show who does."""
        names = self.names if len(self.names) > FEW else [other for other in self.names if other != rank.name]
        return wakers("reaches", names)


def other_thread(rank: RankOfStacks, snapshot: Ranks) -> str:
    """Returns what shows that another thread of a rank may send for it, of whom nothing is known, or nothing."""
    return rank.cut


class MpiParser(Parser):
    """Ranks are read one after the other, each while the others go on. Nobody is outside of a job, so none rests."""

    NAME, IDLE, MOMENT = "mpi", "ranks", APART
    SNAPSHOT_CLASS = Ranks
    BREAKS = {ONE_THREAD: Break(other_thread, True)}

    def __init__(self) -> None:
        self.polls: Dict[str, RankStack] = {}  # by the function that calls it, who polls there
        self.names: List[str] = []  # those of the last snapshot, whose list the next one shares

    def record(self, states: List[State]) -> Sketch:
        """Returns the sketch of stacks, or of the records of cmh_mpi.so, which know more."""
        kinds = [state.text.startswith(MARK) for state in states]
        if any(kinds) and not all(kinds):
            stacks, records = (shown(states[kinds.index(kind)].path) for kind in (False, True))
            raise Refusal(f"{stacks}: it has stacks, and {records} has records of cmh_mpi.so: give states of one kind")
        return RecordsParser().record(states) if all(kinds) else super().record(states)

    def read(self, state: State) -> List[Reading]:
        text = state.text.replace("\r\n", "\n")
        heads = list(HEADING.finditer(text))
        if not any(head_of(head[0]) for head in heads):
            raise Refusal(f"{shown(state.path)}: no line is '# gdb -p PID .. OMPI_COMM_WORLD_RANK=N', or of "
                          "cmh_mpi_reader.py")
        ends = [head.start() for head in heads[1:]] + [len(text)]
        counts = counts_in(text)
        return [reading_of(state.path, head, text[head.end():end], counts) for head, end in zip(heads, ends)]

    def begin(self, readings: List[Reading]) -> None:
        """Says which ranks the job has that the state lacks."""
        ranks: List[RankOfStacks] = [rank for reading in readings for rank in reading.rows]
        pids = pids_of(readings, RankOfStacks.process_id)
        self.polls = {rank.stack.own[0].function: rank.stack for rank in reversed(ranks)
                      if rank.stack.does_poll and rank.stack.own}
        say_missing(readings, pids, [rank.head.size for rank in ranks])

    def prepare(self, snapshot: Ranks) -> None:
        snapshot.ranks = {rank.number: rank for rank in snapshot.rows()}
        names = [one.name for rank in snapshot.ranks.values() for one in (rank, *rank.threads)]
        snapshot.names = self.names = self.names if self.names == names else names
        working = [rank.name for rank in snapshot.ranks.values() if rank.stack.operation != "MPI_Finalize"]
        snapshot.to_finalize = all_of(working, "comes", premise(FINALIZED))
        places = {rank.name: (rank.stack.operation, *rank.stack.places) for rank in snapshot.ranks.values()
                  if rank.stack.is_together()}
        threads = [thread for rank in snapshot.ranks.values() for thread in rank.threads]
        is_one = len({*places.values()}) == 1 and not any(thread.stack.is_together() for thread in threads)
        snapshot.late = [rank.name for rank in snapshot.ranks.values() if is_one and rank.name not in places]

    def processes(self, snapshot: Ranks) -> Iterable[RankOfStacks]:
        return [one for rank in snapshot.rows() for one in (rank, *rank.threads)]

    def finish(self, sketch: Sketch, snapshots: List[Any]) -> None:
        doubt_reach(sketch)

    def process_of(self, subject: RankOfStacks, snapshot: Ranks) -> Process:
        rank, more, stack = subject, subject.more(), subject.stack
        if rank.fault or not stack.frames:
            return garbled(rank.name, rank.fault or "no stack could be read", site=more["site"])
        place = next((place for place, step in enumerate(stack.own) if step.function in self.polls), None)
        if place is not None and not rank.suffix and (not stack.operation or stack.does_poll):
            rank, more = rank.between(place, self.polls[stack.own[place].function])
        made = without_call(rank, more) if not more["operation"] else in_call(rank, snapshot, more)
        made.because += [] if rank.suffix else [premise(ONE_THREAD)]
        inside = next((thread.stack.operation for thread in subject.threads if thread.stack.operation), None)
        if made.sign in (Sign.SLEEPS, Sign.TICKS) and inside is not None:
            made.become_unknown(f"it sleeps, while another thread of it is in {inside}")
        threads = [thread.name for thread in subject.threads]
        beside = (wakers("same-process", threads, premise(ONE_THREAD)),) if threads else ()
        made.parts = [(*part, *beside) for part in made.parts] if beside else made.parts
        return made


def in_call(rank: RankOfStacks, snapshot: Ranks, more: Dict[str, Any]) -> Process:
    """Returns a rank that is in a call of MPI."""
    name, operation = rank.name, more["operation"]
    if operation == "MPI_Finalize":
        why = "all ranks of the state have come to MPI_Finalize"
        parts = snapshot.to_finalize or any_of(unseen("unshown", why))
        return blocked(name, parts, [premise(FINALIZED)], reason="" if snapshot.to_finalize else why, **more)
    if more["is_collective"]:
        why = "the state doesn't say which ranks its communicator has"
        needed = wakers("comes" if len(snapshot.late) == 1 else "reaches", snapshot.late) if snapshot.late else \
            snapshot.others(rank)
        return blocked(name, any_of(needed, unseen("unshown", why)), [], reason=why, **more)
    partner, why = partner_of(rank, snapshot, operation)
    if why:
        return blocked(name, any_of(*partner, unseen("unshown", why)), [], reason=why, **more)
    return blocked(name, any_of(*partner), [SYSTEM], **more)


def partner_of(rank: RankOfStacks, snapshot: Ranks, operation: str) -> Tuple[List[Wakers], str]:
    """Returns who ends the call of a rank, as far as that is known, and why the state doesn't say it, if it doesn't."""
    others = [snapshot.others(rank)]
    if rank.stack.does_poll:
        return others, f"it polls with {operation}, and may do so in a loop"
    number = rank.stack.partner
    if not number:
        return likely_partner(rank, snapshot) or others, f"the state doesn't show which rank its {operation} waits for"
    if not rank.stack.is_of_world():
        return others, "the state doesn't show that its communicator is the world's"
    other = snapshot.ranks.get(int(number))
    if other is None:
        return others if number.startswith("-") else [], f"no rank of the state is {number}, which may be any"
    return [wakers("partner", [other.name], SYSTEM)], ""


def likely_partner(rank: RankOfStacks, snapshot: Ranks) -> List[Wakers]:
    """Returns the rank that an argument of the job's own function is likely to mean, if it is in the state."""
    number = rank.stack.likely_partner
    other = snapshot.ranks.get(number) if number is not None and number != rank.number else None
    return [wakers("guess", [other.name])] if other is not None else []


def without_call(rank: RankOfStacks, more: Dict[str, Any]) -> Process:
    """Returns a rank that is in no call of MPI."""
    name, stack, top = rank.name, rank.stack, rank.stack.frames[0].function
    inside = next((step.function for step in stack.frames if step.is_of_mpi), None)
    if inside:
        return unknown(name, f"it is in {inside}, and the state doesn't show what it waits for", **more)
    inner = stack.inner_wait() if rank.peers else ""
    if SLEEPS.match(top) or LIMITED.search(inner):
        more["operation"] = "timed sleep" if SLEEPS.match(top) else "timed wait"
        functions = without_sleep([step.function for step in stack.own])
        is_of_main = not rank.suffix and functions[-1:] == ["main"]  # (which calls what a rank is there for)
        in_loop = len(functions) - is_of_main == 1
        more["count"] = rank.count if in_loop or rank.suffix else None  # (one that naps in its work is at work)
        return goes_on(name, "it sleeps", [premise(LIMIT)], Sign.TICKS if in_loop else Sign.SLEEPS, **more)
    if inner:
        why = "the state doesn't show which thread of its process wakes it"
        more.update(operation=inner, note=" ".join([inner, "in", *more["frames"][:1]]))
        return blocked(name, any_of(wakers("same-process", rank.peers), unseen("unshown", why)), [], reason=why, **more)
    if stack.own and stack.begin == 0:
        return goes_on(name, "it computes", [SYSTEM, premise(COMPUTES)], **more)
    more["operation"] = top
    return unknown(name, f"it is in {top}, and the state doesn't say whether it continues by itself", **more)


@functools.lru_cache(maxsize=KEPT)
def head_of(heading: str) -> Optional[Head]:
    """Returns what a heading says of a rank, or None if it has none. It is the same in each reading."""
    row, size = HEAD.match(heading), SIZE.search(heading)
    return Head(row["pid"], row["host"] or "", int(row["rank"]), int(size[1]) if size else 0) if row else None


def reading_of(path: str, heading: Match[str], text: str, counts: Counts) -> Reading:
    """Returns the reading of one rank, with the counts of threads. Of a heading without a rank nothing is known but
    that there is one more."""
    head = head_of(heading[0])
    if head is None:
        return Reading(path, heading[0], [], f"a stack has no rank in its heading: {shown(heading[0])[:80]}", PARTS)
    is_bare = heading[0].startswith("# eu-stack")
    stacks, fault = stacks_of(like_gdb(text, head.pid) if is_bare else text)
    rank = RankOfStacks(head, stacks[0][1], fault or lost_of(text) or odd_of(head, stacks[0][1], text))
    rank.count = count_at(counts, stacks[0][0], heading.start())
    if not all(stack.is_whole() for _, stack in stacks[1:]):
        rank.cut = "the stack of another thread of it isn't whole, so that one may send for it"
    elif not rank.fault:
        rank.threads = [RankOfStacks(head, stack, suffix=f"/{number}", count=count_at(counts, number, heading.start()))
                        for number, stack in stacks[1:] if stack.is_of_job(is_bare)]
    family = [rank, *rank.threads]
    for one in family:
        one.peers = [other.name for other in family if other is not one]
    return Reading(path, rank.number, [rank])


def odd_of(head: Head, stack: RankStack, text: str) -> str:
    """Returns what of the text of a rank contradicts the rest, or nothing."""
    others = [pid for pid in DETACHED.findall(text) if pid != head.pid]
    if others:
        return f"its heading has process {head.pid}, and its text is of process {others[0]}"
    return "" if stack.is_whole() or not stack.frames else "its stack isn't whole: no program begins with its last one"


def counts_in(text: str) -> Counts:
    """Returns how often threads have given up their processors, by their numbers: each time with its place."""
    counts: Counts = {}
    for row in SWITCHES.finditer(text):
        counts.setdefault(row[2], []).append((row.start(), row[3]))
    return counts


def count_at(counts: Counts, number: str, place: int) -> Optional[str]:
    """Returns the count of a thread that belongs to the stacks at a place: the one that was read before them, or else
    after them, while no debugger held a thread."""
    rows = counts.get(number, [])
    before = [count for start, count in rows if start < place]
    return next(iter([*before[-1:], *(count for _, count in rows[:1])]), None)
