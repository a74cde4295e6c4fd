"""Erlang: a process in a receive of its own code, or of a library. It waits for an answer or for the end of another
process where the receive takes messages with one reference alone, and else for its next message.
"""
from __future__ import annotations

import re
from typing import List, Optional

from ...core.model import any_of, unseen
from ...core.sketch import SYSTEM, Process, blocked, goes_on, premise, rests, unknown
from .calls import ANSWERS, NO_MAIL, holders
from .nodes import More, Nodes, limited, not_shown
from .text import PID, ErlangBlock, Receives

DOWNS = "down"
NEXT = "waits for its next message"
PORT = re.compile(r"#Port<|{port,")
# What waits for a reference that it has made itself. So who has the same one later is still at one wait.
FRESH = ("erpc:call", "erpc:mcall_receive_replies", "erpc:receive_response", "erpc:wait_response", "gen:do_call",
         "proc_lib:stop")


def count_of(block: ErlangBlock) -> Optional[str]:
    """Returns what tells the wait of a process from its next one: its reductions, or the reference that is made for
    each wait, as a message of others wakes it without ending that."""
    if block.top() in FRESH and block.references:
        return " ".join(block.references)
    return f"{block.pid} {block.count}" if block.count is not None else None


def wait_of_receive(block: ErlangBlock, snapshot: Nodes, more: More) -> Process:
    """Returns a process in a receive, or one of which isn't known that it is in one."""
    is_waiting = block.extra("status") == "waiting"
    receive = snapshot.receives.get((block.node, *block.function)) if is_waiting else None
    limits = receive.limits if receive else [""]
    if all(map(str.isdigit, limits)):
        more["operation"] = f"timed {more['operation']}"
        return limited(block, snapshot, "it waits with a limit", more)
    is_endless = receive is not None and limits == ["infinity"]
    known = wait_for_reference(block, snapshot, receive, more) if receive is not None and is_endless else None
    return known or wait_for_message(block, snapshot, is_endless, more)


def wait_for_message(block: ErlangBlock, snapshot: Nodes, is_endless: bool, more: More) -> Process:
    """Returns a process that waits for a message of whomever: those are able whose pids are on its stack, or to whose
    names it has sent before. In the loop of its own process it rests. In a function of a library that isn't known it
    may wait for anything."""
    on_stack = [snapshot.find((block.node, pid)) for pid in dict.fromkeys(PID.findall(block.counter))]
    there = [other for other in on_stack if other is not None and other is not block]
    asked = asked_by(block, snapshot)
    why = f"it is in {block.stack[0]}, " + ("in a receive without a limit, and the state doesn't say who sends to it"
                                            if is_endless else "and the state doesn't say whether it continues by "
                                                               "itself")
    why += ", as its stack is too long to be read" if block.is_stack_cut else ""
    if there:
        more["objects"] = snapshot.names(there)
    # Who waits for an answer that it has to give doesn't send to it.
    able = [other for other in dict.fromkeys([*there, *asked]) if not set(block.tails).intersection(other.awaited)]
    part = (*snapshot.some("reaches", able), unseen("outside" if PORT.search(block.items.get("links", "") + block.item(
        "monitors")) else "unshown", why))
    more["note"] = f"{more['operation']} in {block.frames()[0]}" if block.own else more["note"]
    if block.is_in_library():
        return unknown(snapshot.name(block), why, **more)
    if block.is_in_own_loop():
        return rests(snapshot.name(block), NEXT, any_of(*part), [], **more)
    return blocked(snapshot.name(block), any_of(*part), [], **{**more, "reason": why})


def asked_by(block: ErlangBlock, snapshot: Nodes) -> List[ErlangBlock]:
    """Returns those to whose names it has sent before its receive."""
    names = snapshot.asks.get((block.node, *block.function), [])
    named = [snapshot.find(f"{{{name},'{block.node}'}}") for name in names]
    return [other for other in named if other is not None and other is not block]


def wait_for_reference(block: ErlangBlock, snapshot: Nodes, receive: Receives, more: More) -> Optional[Process]:
    """Returns a process in a receive of its own that takes messages with one reference alone, or None if nobody is
    known to have that. Whom it monitors may have it as that of the monitor, and so may a timer of its own."""
    match = re.search(rf"^y\({receive.register}\) +(#Ref<\d+\.([\d.]+)>)$", block.counter, re.M)
    if not receive.register or not match:
        return None
    is_end = "down" in receive.words and "{port," not in block.item("monitors")
    if is_end or "once" in receive.words:  # (else it may be that of many waits, as of each part of a long answer)
        more["count"] = match[1]
    watched = [other for other in snapshot.watched(block) if other is not None]
    if block.is_mail_cut or match[2] in block.messages or len(watched) < len(block.monitored):
        return None
    name, note = snapshot.name(block), f"receive in {block.frames()[0]}"
    if is_end and watched:
        more.update(objects=[*snapshot.names(watched), match[1]], note=note)
        return blocked(name, any_of(*snapshot.some("ends", watched)), [SYSTEM, premise(DOWNS)], **more)
    having = holders(block, snapshot, {match[2]})
    if not having:
        return None
    more.update(objects=[*snapshot.names(having), match[1]], note=note)
    part = (*snapshot.some("called", having), *snapshot.any_of_lists("reaches", [], snapshot.closures),
            *snapshot.some("kills", watched), *snapshot.left_out())
    fault = "a timer of its own may tell it that" if "timers" in block.code() else snapshot.elsewhere
    if fault:
        return not_shown(block, snapshot, f"it waits for a message with {match[1]}, and {fault}", more, *part)
    return blocked(name, any_of(*part), [SYSTEM, premise(ANSWERS)], **more)


def wait_for_stop(block: ErlangBlock, snapshot: Nodes, more: More) -> Process:
    """Returns a process in `proc_lib:stop`. It has told another one to stop, which has heard it, and waits for the end
    of that."""
    name, terms = snapshot.name(block), block.registers()
    limits = {term for term in terms if re.fullmatch(r"infinity|\d+", term)}
    more["note"] = f"proc_lib:stop in {block.frames()[0]}"
    if limits and "infinity" not in limits:
        return limited(block, snapshot, "it waits with a limit", {**more, "operation": "timed proc_lib:stop"})
    if limits != {"infinity"} or len(block.references) != 1:
        why = "its stack doesn't show its limit and its reference as they are expected"
        return not_shown(block, snapshot, why, more)
    if block.is_answered(block.references, "{{'DOWN',{0},"):
        return goes_on(name, "a 'DOWN' is in its mailbox", [SYSTEM], **more)
    if block.is_mail_cut:
        return not_shown(block, snapshot, NO_MAIL, more)
    whom = stopped_by(block, snapshot)
    there = [other for other in whom if other is not None]
    if not there or len(there) < len(whom):
        return not_shown(block, snapshot, "the process that it stops isn't in the state", more)
    more["objects"] = [*snapshot.names(there), *block.references]
    return blocked(name, any_of(*snapshot.some("ends", there)), [SYSTEM, premise(DOWNS)], **more)


def wait_for_output(block: ErlangBlock, snapshot: Nodes, more: More) -> Process:
    """Returns a process that has sent text to its group leader, or asked it for some, and waits without a limit."""
    pids = {term for term in block.registers() if PID.fullmatch(term)}
    leaders = [leader for leader in (snapshot.find((block.node, pid)) for pid in pids) if leader is not None]
    if len(pids) != 1 or not leaders:
        return not_shown(block, snapshot, "the process that prints for it isn't in the state", more)
    if block.is_answered(block.references, "{{io_reply,{0},"):
        return goes_on(snapshot.name(block), "the answer is in its mailbox", [SYSTEM], **more)
    more.update(objects=snapshot.names(leaders), note=f"io request in {block.frames()[0]}")
    part = (*snapshot.some("called", leaders), unseen("unshown", "another process may print for it in the end"))
    return blocked(snapshot.name(block), any_of(*part), [], **{**more, "reason": part[-1].because[0]})


def stopped_by(block: ErlangBlock, snapshot: Nodes) -> List[Optional[ErlangBlock]]:
    """Returns the process that one stops: Elixir has its pid on the stack. Else it is one that it monitors, and none
    that is in its loop, as it has heard that it is to stop."""
    watched = snapshot.watched(block)
    named = [snapshot.find((block.node, term)) for term in block.stopping if PID.fullmatch(term)]
    if len(named) == 1 and named[0] is not None and named[0] in watched:
        return named
    return [other for other in watched if other is None or not other.is_loop() and not other.hibernates]
