"""Erlang: a process that has called others and waits for an answer. Whoever has the reference of the call may give it:
on its stack, in its mailbox, its dictionary or its state, as the node shows them.
"""
from __future__ import annotations

from typing import List, Optional, Set, Tuple

from ...core.model import Part, any_of, unseen
from ...core.sketch import SYSTEM, Process, blocked, goes_on, premise
from .keepers import who_may_answer
from .nodes import More, Nodes, limited, not_shown
from .readings import NodeReading
from .text import ErlangBlock, ErlangCall, Key, of_elixir

NO_MAIL = "its mailbox is too long to be read, and may have what it waits for"
ANSWERS, LETS_GO = "answers", "lets-go"
REGISTRY = "'Elixir.Registry.Partition'"


def holders(block: ErlangBlock, snapshot: Nodes, tails: Set[str]) -> List[ErlangBlock]:
    """Returns the others that have one of the references of a call."""
    having = {id(other): other for tail in sorted(tails) for other in snapshot.has_tail[tail] if other is not block}
    return list(having.values())


def may_keep(server: ErlangBlock, having: List[ErlangBlock]) -> bool:
    """Whether a server is in its loop, and may have a caller in its state: an older text doesn't show that."""
    return server.hibernates or server.is_loop() and (server in having or server.extra("references") is None)


def place_elsewhere(reading: NodeReading) -> str:
    """Returns in words where a node may have the reference of a call that no process has, or nothing. The reader counts
    modules that use tables, begin timers or make terms of bytes; a driver makes terms too, and a registry keeps them.
    """
    if reading.numbers.get("tables") != 0:
        return "code of its node uses tables"
    if "keeps" not in reading.numbers:
        return "the state doesn't count what of its node begins timers or makes terms of bytes"
    if reading.numbers["keeps"]:
        return "code of its node uses tables, begins timers or makes terms of bytes"
    ports = [block.label for block in reading.rows if "#Port<" in (block.extra("links") or "")]
    if ports:
        return f"{ports[0]} has a port"
    registries = [block.label for block in reading.rows if block.start[0] == REGISTRY]
    return f"{registries[0]} keeps terms" if registries else ""


def keeps_elsewhere(server: ErlangBlock, snapshot: Nodes, is_held: bool) -> str:
    """Returns where a server that no longer has a request may have put it, or nothing. If nobody else has it, any
    module may have put it where no process has it."""
    if server.extra("code") is None or server.extra("references") is None:
        return "no longer has its request, and may have passed it on"
    if "tables" in server.code():
        return "no longer has its request, and code of its node uses tables"
    return "" if is_held or not snapshot.elsewhere else f"no longer has its request, and {snapshot.elsewhere}"


def who_may_end(servers: List[ErlangBlock], snapshot: Nodes, *own: ErlangBlock) -> Part:
    """Returns those who may end one of some servers, as wakers, and some more."""
    enders = [snapshot.enders[server.node, server.pid] for server in servers]
    shared = [group for one in enders for group in one.shared]
    return snapshot.any_of_lists("kills", [*own, *(other for one in enders for other in one.own)], *shared)


def callees(block: ErlangBlock, snapshot: Nodes) -> Tuple[List[Optional[ErlangBlock]], List[str]]:
    """The processes that it has called, None for one that isn't in the state, and their names. A call monitors whom it
    calls, and has the name on its stack; whom it monitors besides, it doesn't wait for."""
    term, watched = block.call.whom if block.call else "", snapshot.watched(block)
    keys: List[Key] = [(block.node, term), term, f"{{{term},'{block.node}'}}"]
    own = next(filter(None, map(snapshot.find, keys)), None)
    if own and own in watched:
        return [own], [snapshot.name(own)]
    return watched, [snapshot.name(other) if other else str(key) for other, key in zip(watched, block.monitored)]


def wait_of_call(block: ErlangBlock, call: ErlangCall, snapshot: Nodes, more: More) -> Process:
    """Returns a process that has called others and waits for an answer."""
    called, more["objects"] = callees(block, snapshot)
    more["operation"] = call.function
    more["note"] = f"{call.function} {of_elixir(call.request) + ' ' if call.request else ''}in {block.frames()[0]}"
    more["count"] = block.references[0] if block.references else more["count"]
    if call.limit != "infinity":
        more["operation"] = f"timed {call.function}"
        if not block.is_in_own_loop():
            more["objects"] += block.references[:1]
        return limited(block, snapshot, "it waits with a limit", more)
    more["objects"] += block.references[:1]  # (of this call alone)
    return wait_for_answer(block, snapshot, called, more)


def wait_for_answer(block: ErlangBlock, snapshot: Nodes, called: List[Optional[ErlangBlock]], more: More) -> Process:
    """Returns a process whose call has no limit. A 'DOWN' or an answer may be in its mailbox."""
    name = snapshot.name(block)
    if block.is_answered(block.references, "{{'DOWN',{0},"):
        return goes_on(name, "a 'DOWN' is in its mailbox", [SYSTEM], **more)
    if block.is_mail_cut:
        return not_shown(block, snapshot, NO_MAIL, more)
    there = [other for other in called if other is not None]
    if not block.awaited:
        return not_shown(block, snapshot, "its stack doesn't show the reference of its call", more)
    if not there or len(there) < len(called):
        return not_shown(block, snapshot, "it has called a process that isn't in the state", more)
    if any(block.is_answered(block.references, form) for form in ("{{{0},", "{{[alias|{0}],")):
        if len(called) > 1:
            return goes_on(name, "an answer is in its mailbox", [SYSTEM], **more)
        snapshot.answers.append((snapshot.name(there[0]), name))
        return blocked(name, any_of(*snapshot.some("called", there)), [SYSTEM], **more)
    return wait_for_holders(block, snapshot, there, more)


def wait_for_holders(block: ErlangBlock, snapshot: Nodes, called: List[ErlangBlock], more: More) -> Process:
    """Returns a process that waits for whoever has the reference of its call. Whom it has called and who hasn't it any
    more gives no answer, but ends the call if it fails."""
    name, tails = snapshot.name(block), set(block.awaited)
    having = holders(block, snapshot, tails)
    passed = [other for other in called if other not in having]
    if len(tails) == 1 and len(passed) < len(called):
        passed = []  # (the others are monitored for another call)
    cut = next((other for other in passed if other.is_mail_cut), None)
    if cut is not None:
        why = f"{snapshot.name(cut)} has too long a mailbox to be read, and may have its request"
        return not_shown(block, snapshot, why, more, *snapshot.some("called", [cut]))
    keepers = [other for other in called if may_keep(other, having) and not other.has_request(tails)]
    if keepers:
        return wait_for_keepers(block, snapshot, keepers, having, more)
    faults = ((other, keeps_elsewhere(other, snapshot, bool(having))) for other in passed)
    keeping, fault = next((pair for pair in faults if pair[1]), (None, ""))
    if keeping is not None:
        why = f"{snapshot.name(keeping)} {fault}, so it isn't known who answers"
        return not_shown(block, snapshot, why, more, *snapshot.some("called", [*passed, *having]))
    failing = [server for server in passed if not server.is_asleep()]  # (at work, or it may wake by itself)
    because = [SYSTEM, premise(ANSWERS), *([premise(LETS_GO)] if passed else [])]
    part = (*snapshot.some("called", having), *snapshot.any_of_lists("reaches", [], snapshot.closures),
            *who_may_end(passed, snapshot, *failing), *snapshot.left_out())
    return blocked(name, any_of(*part), because, **more)


def others_of(blocks: List[ErlangBlock], taken: List[ErlangBlock]) -> List[ErlangBlock]:
    return [block for block in blocks if block not in taken]


def wait_for_keepers(block: ErlangBlock, snapshot: Nodes, keepers: List[ErlangBlock], having: List[ErlangBlock],
                     more: More) -> Process:
    """Returns a process whose call a server keeps that is at rest, to answer it once something else has come: a pool, a
    server of locks, a long poll. It wakes by a timer of its own, by whom it knows, or by somebody from outside."""
    able = [other for server in keepers for other in who_may_answer(block, server, snapshot)]
    others = [other for other in having if other not in keepers]
    why = f"{snapshot.name(keepers[0])} keeps its call in its state, to answer it once something else has come"
    part = (*snapshot.some("reaches", able), *snapshot.some("inside", keepers), *snapshot.some("called", others),
            *who_may_end(keepers, snapshot), unseen("unshown", why))
    return blocked(snapshot.name(block), any_of(*part), [SYSTEM], **{**more, "reason": why})
