"""Who may end a call of MPI, or a request: the partner of a message, whoever hasn't come to a collective call, whoever
has the lock of a window."""
from __future__ import annotations

import functools
import re
from dataclasses import dataclass, field
from typing import Any, Dict, Iterable, List, NamedTuple, Tuple

from ...core.model import Part, Strength, Wakers, any_of, of_list, unseen, wakers
from ...core.sketch import SYSTEM, premise
from .ranks import EVERY, TAKES, MpiJob, RankOfRecords, RankThread, name_of
from .text import (ALL, ALL_OF, ANY_OF, ANY_SOURCE, BEFORE, FROM_ROOT, LOCK, OTHER, POLL, RECEIVE, SEND, SOME,
                   TO_ROOT, Row, rank_at, ranks_of)

MEET, LATE, KEPT_BY = "meet", "late", "kept"
GROUPED = "Win_start", "Win_complete", "Win_wait"  # calls on a window that wait for a group
NEIGHBORS = "Neighbor_", "Ineighbor_"  # how calls begin that wait for some of a communicator
UNSEEN = "it can't be seen which of its requests are complete: run the reader as root"
MORE = "it waits for more requests than its record has room for"
NO_RANKS = "the record doesn't say which ranks its communicator has"


class Need(NamedTuple):
    """The parts of a wait, with the reasons for them, and `why` not all is known of it. It has no part where it isn't
    known whether it waits at all."""

    parts: List[Part]
    because: Tuple[str, ...] = (SYSTEM,)
    why: str = ""


def open_to(why: str, *known: Wakers) -> Need:
    """What others too may end of whom the record doesn't say who they are."""
    return Need(any_of(*known, unseen("unshown", why)), (), why)


def need_of(thread: RankThread, job: MpiJob, row: Row) -> Need:
    """Returns what a call, or a request, of a thread needs."""
    kind, comms = row["kind"], thread.rank.comms
    if kind == OTHER and not name_of(row).startswith(("File_", *NEIGHBORS)) or not 0 <= row["comm"] < len(comms):
        return open_to(f"the record doesn't say whom {thread.operation()} waits for")
    comm = comms[row["comm"]]
    if not is_of(row, comm):
        return open_to("its communicator has no such call of its number")
    if comm["id"] in job.odd:
        return open_to("the records of its communicator differ in who belongs to it")
    if kind in (RECEIVE, SEND, POLL):
        return need_of_message(thread, job, comm, row)
    if comm["id"] == "0" or comm["inter"]:
        ranks = [job.ranks[number] for number in ranks_of(comm) or [] if number in job.ranks]
        names = [name for rank in ranks if rank is not thread.rank and not rank.is_in(thread.row["name"])
                 for name in rank.names()]
        return open_to("the record doesn't tell its communicator from others of these ranks", wakers("reaches", names))
    return need_of_window(thread, job, comm, row) if kind == LOCK else need_of_meeting(thread, job, comm, row)


def is_of(row: Row, comm: Row) -> bool:
    """Whether a collective call may be one of a communicator: as the last of that, it has its name and its root."""
    if not ALL <= row["kind"] <= OTHER or row["number"] < max(comm["number"], 1):
        return True
    return (comm["number"], comm["name"], comm["root"]) == (
        row["number"], row.get("name", comm["name"]), row["partner"])


# Messages


def partner(rank: RankOfRecords, name: str) -> Part:
    """Returns who sends or receives for a rank. It may be another thread of it than the one that calls MPI."""
    names = [other for other in rank.names() if other != name] or rank.names()
    helpers = [thread.name for thread in rank.helpers]
    one = wakers("partner", names, SYSTEM) if len(names) == 1 else of_list(names, SYSTEM)
    return (one, wakers("same-process", helpers)) if helpers else (one,)


def need_of_message(thread: RankThread, job: MpiJob, comm: Row, row: Row) -> Need:
    if row["partner"] == ANY_SOURCE:
        return need_of_any(thread, job, comm, row)
    number = rank_at(comm, row["partner"])
    if number < 0:
        return open_to(NO_RANKS)
    if number not in job.ranks:
        return open_to(f"rank {number}, which may end it, isn't in the state")
    if is_under_way(thread.rank, job.ranks[number], comm, row):
        return Need([], (), f"rank {number} has begun the other half of its message, which may be on its way")
    return Need(any_of(*partner(job.ranks[number], thread.name)))


def need_of_any(thread: RankThread, job: MpiJob, comm: Row, row: Row) -> Need:
    """Returns the need of a receive that any other one of a communicator may end."""
    ranks = ranks_of(comm)
    if ranks is None:
        return open_to(NO_RANKS)
    there = [number for number in ranks if number in job.ranks]
    half = next((number for number in there if is_under_way(thread.rank, job.ranks[number], comm, row)), None)
    if half is not None:
        return Need([], (), f"rank {half} has begun the other half of its message, which may be on its way")
    names = of_list(job.others(there, thread.name), SYSTEM)
    if len(there) < len(ranks):
        missing = next(number for number in ranks if number not in job.ranks)
        return open_to(f"rank {missing}, which may end it, isn't in the state", names)
    return Need(any_of(names))


def is_under_way(rank: RankOfRecords, other: RankOfRecords, comm: Row, row: Row) -> bool:
    """Whether another rank has the other half of a message: it may be long, and on its way."""
    for half in (*other.halves.get(comm["rank"], ()), *other.halves.get(ANY_SOURCE, ())):
        ids, tags = {other.comms[half["comm"]]["id"], comm["id"]}, {row["tag"], half["tag"]}
        if ({half["kind"], row["kind"]} == {RECEIVE, SEND} and (len(ids) == 1 or "0" in ids)
                and (len(tags) == 1 or rank.row.get("any_tag", -1) in tags)):
            return True
    return False


# Collective calls


@dataclass
class Late:
    """Those of a communicator that haven't come to a collective call, in its order, with a part for each in `parts`,
    and those of the others that are `away` from MPI. `differs` says that one is at another call of its number, and
    `lacks` why others may be late too, as a rank isn't in the state."""

    ranks: List[int] = field(default_factory=list)
    away: List[RankOfRecords] = field(default_factory=list)
    parts: Dict[int, Part] = field(default_factory=dict)
    differs: bool = False
    lacks: str = ""

    def because(self) -> Tuple[str, ...]:
        return (SYSTEM, premise(MEET)) if self.differs else (SYSTEM,)

    @functools.cached_property
    def all(self) -> List[Part]:
        """The parts of a wait for all late ones, which those who have come share."""
        return [self.parts[number] for number in self.ranks]

    def all_of(self, ranks: Iterable[int], beside: Part = ()) -> List[Part]:
        """Returns the parts of a wait for all of some late ones, any of whose threads may come."""
        return self.all if ranks is self.ranks and not beside else [
            (*self.parts[number], *beside) for number in ranks]


def late_of(job: MpiJob, comm: Row, row: Row, name: str) -> Late:
    """Returns those that haven't come to a collective call."""
    key = comm["id"], row["number"], name, row["partner"]
    if key not in job.late:
        job.late[key] = find_late(job, comm, row, name)
    late: Late = job.late[key]
    return late


def find_late(job: MpiJob, comm: Row, row: Row, name: str) -> Late:
    late = Late()
    for number in ranks_of(comm) or []:
        rank = job.ranks.get(number)
        if rank is None or is_unknown(rank, comm):
            late.lacks = f"it isn't known whether rank {number} has come"
        if rank is not None and is_late(rank, comm, row["number"], name, row["partner"]):
            late.ranks.append(number)
            helpers = [thread.name for thread in rank.helpers]
            late.parts[number] = (wakers("comes", rank.names(), SYSTEM), *([wakers("same-process", helpers)]
                                                                           if helpers else []))
            late.differs = late.differs or rank.by_id.get(comm["id"], comm)["number"] >= row["number"]
        elif rank is not None and rank.is_away():
            late.away.append(rank)
    return late


def is_unknown(rank: RankOfRecords, comm: Row) -> bool:
    """Whether it isn't known of a rank that lacks a communicator whether it has freed that, or has yet to make it."""
    return comm["id"] not in rank.by_id and (comm.get("parent", "0") == "0" or rank.is_hidden())


def is_late(rank: RankOfRecords, comm: Row, number: int, name: str, root: Any) -> bool:
    """Whether a rank, by its count in a communicator, hasn't come to a call, or has made another one in its place."""
    own = rank.by_id.get(comm["id"])
    if own is None:
        return not rank.is_hidden() and has_yet_to_make(rank, comm)
    if own["number"] < number:
        return True
    if own["number"] == number:
        return name != "" and (own["name"], own["root"]) != (name, root)
    return "" not in {name, past_name(own, number)} and family(past_name(own, number)) != family(name)


def family(name: str) -> str:
    """A collective call with all that some libraries let meet: Igather, Gather and Gatherv."""
    return re.sub(r"^i(?=[a-z])|(?<=[lr])[vw]$|_block$", "", name.lower())


def past_name(comm: Row, number: int) -> str:
    """The name of a call before the last one of a communicator, if its record still has that."""
    past: List[str] = comm.get("past", [])
    return next(iter(past[comm["number"] - number - 1:]), "")


def has_yet_to_make(rank: RankOfRecords, comm: Row) -> bool:
    """Whether a rank that doesn't have a communicator hasn't made it so far. Then it still has the one that this is
    made of. Else it has freed it: it has come to all calls of it, and gone."""
    parent = rank.by_id.get(comm.get("parent", ""))
    if parent is None:
        return False
    made: int = comm.get("made", 0)
    makes = [thread.row for thread in rank.threads if thread.kind in (ALL, OTHER) and thread.row["number"] == made]
    return parent["number"] < made or any(rank.comms[row["comm"]:row["comm"] + 1] == [parent] for row in makes)


def need_of_meeting(thread: RankThread, job: MpiJob, comm: Row, row: Row) -> Need:
    """Returns what a collective call needs, or a request of one."""
    if row["number"] < 1 or ranks_of(comm) is None:
        return open_to("the record doesn't have its number" if row["number"] < 1 else NO_RANKS)
    late = late_of(job, comm, row, row.get("meeting", thread.row["name"]))
    if name_of(row).startswith("File_") and row["kind"] == OTHER:
        why = "MPI doesn't say whether a collective call on a file waits for those that haven't come to it"
        return Need(late.all_of(late.ranks, (unseen("unshown", why),)) or [(unseen("unshown", why),)], (), why)
    surely = needed(comm, row["kind"], row["partner"], late)
    if surely:
        return Need(late.all_of(surely), late.because())
    return need_of_late(late, late.away if "meeting" in row else [])


def needed(comm: Row, kind: int, root: Any, late: Late) -> List[int]:
    """Returns those of the late ones each of which a collective call surely needs."""
    is_root, ranks = comm["rank"] == root, ranks_of(comm) or []
    if kind == FROM_ROOT and not is_root and rank_at(comm, root) in late.ranks:
        return [rank_at(comm, root)]
    if kind == ALL or kind == TO_ROOT and is_root:
        return late.ranks
    return [number for number in ranks[:comm["rank"]] if number in late.ranks] if kind == BEFORE else []


def need_of_late(late: Late, away: List[RankOfRecords]) -> Need:
    """Returns the need of a call that may go on without some of those that are late: it waits for one of them at least,
    or for one that has begun the same call, and goes on with it only when it calls MPI again."""
    names = [name for number in late.ranks for group in late.parts[number] for name in group.names()]
    names += [name for rank in away for name in rank.all_names()]
    one = [of_list(list(dict.fromkeys(names)), SYSTEM, premise(LATE))] if names else []
    if late.lacks or not names:
        return open_to(late.lacks or "all ranks of its communicator have come", *one)
    if len(late.ranks) == 1 and not away:
        return Need(late.all_of(late.ranks), (*late.because(), premise(LATE)))
    return Need(any_of(*one), (*late.because(), premise(LATE)))


# Windows


def need_of_window(thread: RankThread, job: MpiJob, comm: Row, row: Row) -> Need:
    """Returns what a call needs that waits for the lock of a window, or for the other side of an access."""
    target, ranks = row["partner"], ranks_of(comm) or []
    if target not in (EVERY, *range(len(ranks))) or any(number not in job.ranks for number in ranks):
        return open_to("the record doesn't say which ranks its window has, or one of them isn't in the state")
    members = [job.ranks[number] for number in ranks]
    others = [rank for rank in members if rank is not thread.rank]
    if row["name"] in GROUPED:
        return open_to("the record doesn't say which ranks its group has",
                       wakers("reaches", names_of(rank for rank in others if not rank.inside(comm, ALL, SOME))))
    keepers = [rank for rank in keepers_of(members, target) if rank is not thread.rank]
    return need_of_lock(comm, row, [rank for rank in others if rank.may_have(comm, target)], keepers)


def need_of_lock(comm: Row, row: Row, holders: List[RankOfRecords], keepers: List[RankOfRecords]) -> Need:
    """Returns what a call needs that waits for the lock of a window, which some may have and some keep."""
    owners = [rank for rank in holders if rank.bars(comm, row["partner"], row["tag"])]
    if row["name"] not in TAKES or not owners:
        likely = [rank for rank in holders if not rank.inside(comm, LOCK)]
        return open_to("by the records no other rank has a lock that it waits for",
                       wakers("reaches", names_of(likely or keepers)))
    names = [name for name in names_of([*holders, *keepers]) if name not in names_of(owners)]
    return Need(any_of(wakers("owns", names_of(owners), SYSTEM), *([wakers("listed", names, premise(KEPT_BY))]
                                                                   if names else [])), (SYSTEM, premise(KEPT_BY)))


def names_of(ranks: Iterable[RankOfRecords]) -> List[str]:
    return [name for rank in dict.fromkeys(ranks) for name in rank.all_names()]


def keepers_of(ranks: List[RankOfRecords], target: int) -> List[RankOfRecords]:
    """Returns those that may have to look after the lock of a target of a window."""
    if target == EVERY:
        return ranks
    first = next(rank for rank in ranks if rank.host == ranks[target].host)
    return [ranks[target], first, ranks[0]]


# Requests


def need_of_requests(thread: RankThread, job: MpiJob, kind: int) -> Need:
    """Returns what a call needs that waits for requests: all of them, or any."""
    rows = thread.requests()
    number = len([request for request in thread.row["requests"] if request[0]])
    if not rows:
        return Need([], (), MORE if thread.row["more"] else "all that it waits for has come")
    if kind == ANY_OF and number > len(rows):
        return Need([], (), "one of its requests is complete, so it may be about to go on")
    needs = [need_of(thread, job, row) for row in rows]
    is_seen = all(row["complete"] is not None for row in rows)
    if kind == ALL_OF and (is_seen or len({str(need.parts) for need in needs}) == 1):
        return all_needs(needs)
    lacks = MORE if thread.row["more"] else ""
    return any_need(needs, lacks, UNSEEN if kind == ALL_OF else lacks)


def because_of(needs: List[Need]) -> Tuple[str, ...]:
    return tuple(dict.fromkeys(reason for need in needs for reason in need.because))


def all_needs(needs: List[Need]) -> Need:
    """Returns the need of all of some requests. Who isn't known to end one may end the others too."""
    why = next((need.why for need in needs if need.why), "")
    if not any(need.parts for need in needs):
        return Need([], (), why)
    parts = [part for need in needs for part in need.parts or any_of(unseen("unshown", need.why))]
    beside = {group.because: group for part in parts for group in part if group.strength is Strength.UNSEEN}
    known = [tuple(group for group in part if group.strength is not Strength.UNSEEN) for part in parts]
    once = {tuple((group.how, *group.names()) for group in part): (*part, *beside.values()) for part in known
            if part or len(known) == 1}
    return Need(list(once.values()), because_of(needs), why)


def any_need(needs: List[Need], lacks: str, why: str) -> Need:
    """Returns the need of any of some requests, or of others if it `lacks` some. Where one needs all of several, any of
    these is taken to end it."""
    why = next((need.why for need in needs if need.why), why)
    if not all(need.parts for need in needs):
        return Need([], (), why)
    parts = list({str(part): part for need in needs for part in need.parts}.values())
    if len(parts) == 1 and not lacks:
        return Need(parts, because_of(needs), why)
    groups = [group for part in parts for group in part]
    names = dict.fromkeys(name for group in groups if group.strength is not Strength.UNSEEN for name in group.names())
    known = [of_list(list(names), *because_of(needs))] if names else []
    is_open = lacks or any(group.strength is Strength.UNSEEN for group in groups)
    return open_to(why, *known) if is_open else Need(any_of(*known), because_of(needs), why)
