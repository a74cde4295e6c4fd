"""What the clients of a RabbitMQ broker do that run on its machine, by what the kernel shows of their threads.

A process with one thread does one thing at a time: it sleeps or computes, or it waits at a connection, which may be
another one of its own, or for something else. Of one with several threads that isn't known, but likely.
"""
from __future__ import annotations

import re
from typing import Any, Dict, List, NamedTuple

from cmh_proc.calls import ACCEPTS, EPOLLS, SLEEPS

Row = Dict[str, Any]

# What services are called that only look on.
LOOKS_ON = re.compile(r"(?i).*(?:heart.?beat|(?<![a-z])beat|metric|monitor|statistic|(?<![a-z])stats|watch|health|alive"
                      r"|gauge|probe|pulse|dashboard|telemetry|uptime).*")
# Where one of several threads has nothing to do without a limit: for whoever comes, or in the loop of a runtime.
AT_REST = (*ACCEPTS, *EPOLLS, "pause")
ITSELF = "itself"  # at what only its own process ends, as a mutex
COMPUTES, SLEEPING, AT, ELSEWHERE, OPEN = "computes", "sleeps", "at a connection", "elsewhere", "open"


class Activity(NamedTuple):
    """What a client does: the connection at which it waits, if it does, whether that is known by its only thread, and
    what counts how often it has slept or waited there. `is_deaf` says that it does nothing before something comes at
    that connection, and `process` is its number, or 0."""

    kind: str
    connection: str = ""
    is_sure: bool = False
    switches: str = ""
    call: str = ""
    is_deaf: bool = False
    process: int = 0


class Doing(NamedTuple):
    """What a process does: of the connections at which its threads wait, and of all others."""

    places: Dict[str, Activity]
    elsewhere: Activity

    def at(self, connection: str) -> Activity:
        return self.places.get(connection, self.elsewhere)


def activities(rows: List[Row], ticking: Dict[int, bool]) -> Dict[str, Activity]:
    """Returns what clients do, by their connections. `ticking` has the threads that come back to the same sleep. Those
    of a process share the list of its threads."""
    doing_of_list = {id(threads): doing_of(threads, ticking) for threads in lists_of(rows)}
    places = {id(threads): {thread["tid"]: thread.get("at") for thread in threads} for threads in lists_of(rows)}
    clients: Dict[str, Activity] = {}
    for row in rows:
        threads, name = row["threads"], row["connection"]
        others = {tid for tid in row.get("waiters", ()) if places[id(threads)].get(tid) != name}
        doing = doing_of_list[id(threads)] if not others else doing_of(
            [{**thread, "at": name} if thread["tid"] in others else thread for thread in threads], ticking)
        clients[name] = doing.at(name)._replace(is_deaf=row.get("is_deaf", False), process=row.get("process", 0))
    return clients


def lists_of(rows: List[Row]) -> List[List[Row]]:
    """Returns each list of threads once."""
    return list({id(row["threads"]): row["threads"] for row in rows}.values())


def doing_of(threads: List[Row], ticking: Dict[int, bool]) -> Doing:
    """Returns what the threads of a client do. Of those that each wait at a connection, its own one tells most."""
    living = [thread for thread in threads if thread["state"] not in "ZX"]
    if any(thread["state"] in "Tt" for thread in living):  # (somebody holds it)
        return Doing({}, Activity(OPEN))
    if len(living) == 1:
        return Doing({}, single(living[0])._replace(is_sure=True))
    rest = [single(thread) for thread in living if thread["tid"] not in ticking and thread.get("at") != ITSELF
            and not is_at_rest(thread)]
    kinds = {activity.kind for activity in rest}
    first = next((kind for kind in (COMPUTES, ELSEWHERE, SLEEPING, OPEN) if kind in kinds), "")
    if first or not rest:
        return Doing({}, Activity(first or OPEN))
    places = {activity.connection: activity for activity in rest}
    return Doing(places, rest[0] if len(places) == 1 else Activity(OPEN))


def is_at_rest(thread: Row) -> bool:
    return thread["state"] == "S" and thread.get("call") in AT_REST and not (thread.get("limit") or thread.get("at"))


def single(thread: Row) -> Activity:
    """Returns what a thread does."""
    call = thread.get("call", "")
    if thread["state"] == "R" or call == "running":
        return Activity(COMPUTES)
    if call in SLEEPS:
        return Activity(SLEEPING, switches=str(thread.get("count")))
    if thread.get("at", ITSELF) not in ("", ITSELF):
        return Activity(AT, thread["at"], switches=str(thread.get("count")))
    return Activity(ELSEWHERE if thread["state"] in "SD" and call else OPEN, call=call)


def ticking_of(first: List[Row], later: List[Row]) -> Dict[int, bool]:
    """Returns the threads that have come back to the same sleep between two states, as heartbeats do."""
    before, after = ({thread["tid"]: thread.get("count") for threads in lists_of(rows) for thread in threads
                      if thread.get("call") in SLEEPS} for rows in (first, later))
    return {tid: True for tid, count in before.items() if after.get(tid, count) != count}


def looks_on(name: str) -> bool:
    """Whether a service is likely to give nobody anything but numbers, by its name."""
    return LOOKS_ON.fullmatch(name) is not None
