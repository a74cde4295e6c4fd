"""Erlang: a process that waits for what others do for it by `erpc`, also below `rpc`. Each call is done by a process of
its own, on whatever node, which has a reference of the caller as long as it is at work. Its end is the answer.
"""
from __future__ import annotations

import re
from typing import List, Optional

from ...core.model import all_of, any_of
from ...core.sketch import SYSTEM, Process, blocked, goes_on, premise
from .calls import NO_MAIL
from .nodes import More, Nodes, limited, not_shown
from .receives import DOWNS
from .text import ErlangBlock

ONE, SEVERAL = ("erpc:call/5", "erpc:receive_response/2", "erpc:wait_response/2"), "erpc:mcall_receive_replies/5"
WORKER = "erpc", "execute_call", "4"
TOLD = "{{'DOWN',{0},", "{{spawn_reply,{0},", "{{{0},"  # how a message begins that may end the wait


def wait_for_remote(block: ErlangBlock, snapshot: Nodes, more: More) -> Optional[Process]:
    """Returns a process that waits for calls of `erpc`, or None for one that is elsewhere."""
    place = block.stack[0].split(" (")[0]
    if place not in (*ONE, SEVERAL):
        return None
    name, limit = snapshot.name(block), limit_of(block, place)
    more["note"] = f"{more['operation']} in {block.frames()[0]}"
    if limit.isdigit():
        return limited(block, snapshot, "it waits with a limit", {**more, "operation": f"timed {block.top()}"})
    if limit != "infinity" or not block.references:
        why = "its stack doesn't show its limit and its reference as they are expected"
        return not_shown(block, snapshot, why, more)
    if any(block.is_answered(block.references, form) for form in TOLD):
        return goes_on(name, "an answer is in its mailbox", [SYSTEM], **more)
    if block.is_mail_cut:
        return not_shown(block, snapshot, NO_MAIL, more)
    workers = workers_of(block, snapshot)
    if not workers or place != SEVERAL and len(workers) > 1:
        return not_shown(block, snapshot, "the process that does its call isn't in the state", more)
    more["objects"] = [*snapshot.names(workers), *block.references]
    if place == SEVERAL and None in snapshot.watched(block):
        return not_shown(block, snapshot, "a process that does one of its calls isn't in the state", more)
    names = snapshot.names(workers)
    parts = all_of(names, "ends") if place == SEVERAL else any_of(*snapshot.some("ends", workers))
    return blocked(name, parts, [SYSTEM, premise(DOWNS)], **more)


def limit_of(block: ErlangBlock, place: str) -> str:
    """Returns the limit that its topmost frame has, or nothing if that isn't clear."""
    terms = block.registers()[:1] if place == SEVERAL else block.registers()
    limits = {term for term in terms if re.fullmatch(r"infinity|\d+", term)}
    return limits.pop() if len(limits) == 1 else ""


def workers_of(block: ErlangBlock, snapshot: Nodes) -> List[ErlangBlock]:
    """Returns those that do its calls: it monitors each, and they have a reference that it waits with."""
    return [other for other in snapshot.watched(block)
            if other is not None and other.start == WORKER and not set(other.tails).isdisjoint(block.awaited)]
