"""Erlang: who may have a server answer the callers that it keeps in its state: a pool, a server of locks, a cache. The
state shows how pids and references lie in each other there, and no names. So whom it shows is a guess.
"""
from __future__ import annotations

import re
from typing import Any, Dict, Iterable, List, Set

from .nodes import Nodes
from .text import ANY_PID, REFERENCE, ErlangBlock

SIGNS = re.compile(r"[{\[]|[}\]]|<[\d.]+>|#Ref<\d+\.([\d.]+)>")
# How many groups are around what the state of a server has: of a gen_statem also that of its name and its data.
OUTER, OUTER_OF_STATEM = 2, 4
Group = List[Any]  # its bracket, and in it pids, tails of references, and groups


def groups_around(kept: str, tails: Set[str]) -> List[Group]:
    """Returns the groups around the first reference of a call in a state, the innermost one last, or none."""
    open_ones: List[Group] = [["["]]
    known: List[Group] = []
    for sign in SIGNS.finditer(kept):
        if sign[0] in "{[":
            open_ones[-1].append([sign[0]])
            open_ones.append(open_ones[-1][-1])
        elif sign[0] in "}]":
            open_ones = open_ones[:-1] or [["["]]
        else:
            open_ones[-1].append(sign[1] or sign[0])
            known = known or list(open_ones) if sign[1] in tails else known
    return known


def pids_in(group: Group, calls: Set[str]) -> Set[str]:
    """Returns the pids in a group, without those of callers who only wait there."""
    left: List[Group] = [group]
    known: Set[str] = set()
    while left:
        part = left.pop()
        if not is_waiting(part, calls):
            known.update(filter(is_pid, part))
            left += [other for other in part if isinstance(other, list)]
    return known


def is_waiting(group: Group, calls: Set[str]) -> bool:
    """Whether a group is a caller that waits, perhaps with a reference of its monitor, and with its pid once more."""
    pids = {*filter(is_pid, group)}
    callers = [other for other in group if isinstance(other, list) and is_caller(other, calls)]
    return is_caller(group, calls) or group[0] == "{" and len(callers) == 1 and pids <= {callers[0][1]} \
        and all(isinstance(other, str) or other is callers[0] for other in group)


def is_caller(group: Group, calls: Set[str]) -> bool:
    """Whether a group is a caller as a server keeps it: its pid and the reference of its call, in a list with a limit.
    """
    if len(group) != 3 or group[0] != "{" or not is_pid(group[1]):
        return False
    alias = group[2] if isinstance(group[2], list) else []
    return isinstance(group[2], str) and group[2] in calls or alias[:1] == ["["] and len(alias) == 2 \
        and isinstance(alias[1], str) and not is_pid(alias[1])


def is_pid(part: Any) -> bool:
    return isinstance(part, str) and part[0] == "<"


def kept_callers(server: ErlangBlock, snapshot: Nodes) -> Dict[str, ErlangBlock]:
    """Returns those whose calls a server keeps, by the tails of their references."""
    return {tail: other for tail in REFERENCE.findall(server.extra("references") or "")
            for other in snapshot.has_tail[tail] if tail in other.awaited and other.call}


def who_may_answer(block: ErlangBlock, server: ErlangBlock, snapshot: Nodes) -> List[ErlangBlock]:
    """Returns those by whom a server may come to answer a caller that it keeps: whose pids lie beside the reference of
    the call in its state, or else all whom it knows there, monitors or is linked to, or else all who know it. One that
    waits alone doesn't answer itself."""
    return owners_of(block, server, snapshot) or unless_alone(block, who_know(block, server, snapshot))


def unless_alone(block: ErlangBlock, part: List[ErlangBlock]) -> List[ErlangBlock]:
    """Returns a list, which many may share, or nobody if one is alone in it."""
    return [] if part == [block] else part


def who_know(block: ErlangBlock, server: ErlangBlock, snapshot: Nodes) -> List[ErlangBlock]:
    """Returns those who aren't at rest and have the address of a server: by its name, which anybody may have, by a link
    or a monitor, or by a call that it keeps."""
    if server.role not in ("[]", "") or block.call and block.call.whom.startswith("{"):
        return snapshot.awake
    if id(server) not in snapshot.known:
        calling = list(kept_callers(server, snapshot).values())
        linked = {server.pid, *ANY_PID.findall(server.items.get("links", ""))}
        snapshot.known[id(server)] = [
            other for other in snapshot.awake if other in calling or (server.node, server.pid) in other.monitored
            or other.node == server.node and other.pid in linked]
    return snapshot.known[id(server)]


def owners_of(block: ErlangBlock, server: ErlangBlock, snapshot: Nodes) -> List[ErlangBlock]:
    """Returns those who are likely to have what a server gives away, by how its state and its monitors show them."""
    callers = kept_callers(server, snapshot)
    around = groups_around(server.extra("kept") or "", set(block.awaited))
    for group in reversed(around[OUTER if server.top().startswith("gen_server") else OUTER_OF_STATEM:]):
        beside = awake(pids_in(group, {*callers}), server, snapshot)
        if beside:
            return beside
    pids = [pid for group in around[1:2] for pid in pids_in(group, {*callers})]
    pids += besides_parents(server, snapshot) if around else []
    limited = [other for other in callers.values() if other.call and other.call.limit != "infinity"]
    watched = [other for other in snapshot.watched(server) if other is not None and is_awake(other)]
    return [other for other in dict.fromkeys([*awake(pids, server, snapshot), *watched]) if other not in limited]


def besides_parents(server: ErlangBlock, snapshot: Nodes) -> List[str]:
    """Returns the pids to which a server is linked, without those that began it, if it is linked to others."""
    linked = {pid: snapshot.find((server.node, pid)) for pid in ANY_PID.findall(server.items.get("links", ""))}
    above = server.ancestors()
    others = [pid for pid, other in linked.items() if other is not None and not {pid, other.role}.intersection(above)]
    return others if others or server.monitored else [*linked]


def awake(pids: Iterable[str], server: ErlangBlock, snapshot: Nodes) -> List[ErlangBlock]:
    """Returns those with some pids who aren't servers without a request."""
    known = [snapshot.find((server.node, pid)) for pid in sorted(pids)]
    return [other for other in known if other is not None and other is not server and is_awake(other)]


def is_awake(block: ErlangBlock) -> bool:
    return not block.hibernates and not (block.is_loop() and block.messages == "[]")
