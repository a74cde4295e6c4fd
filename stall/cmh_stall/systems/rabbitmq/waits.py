"""The waits of RabbitMQ's services that a state shows with who may end each, but for those of plain consumers."""
from __future__ import annotations

from typing import Any, Dict

from ...core.files import shown
from ...core.model import Sign, any_of, of_list, unseen, wakers
from ...core.sketch import LIMIT, SYSTEM, Process, blocked, garbled, goes_on, premise, rests, unknown
from .bounds import HANDLES, all_who_may_end
from .clients import AT, COMPUTES, ELSEWHERE, SLEEPING
from .services import STAND_INS, TO_COME, Service

BUSY = (COMPUTES, SLEEPING, ELSEWHERE)  # what a thread of one does that is likely at work
KEEPS = "keeps"  # an assumption


def stand_in(name: str) -> Process:
    """Returns one whom others name, and who isn't in the first state: one who stands for what no state shows, or one
    who has come since."""
    if name in STAND_INS:
        return unknown(name, STAND_INS[name], frames=[name])
    return garbled(name, "it came after the first state")


def with_client(process: Process, service: Service) -> Process:
    """Returns a service with all who may end its wait, where its client shows that: a process of one thread on this
    machine, which waits at its connection alone."""
    broker, does = service.broker, service.does
    strangers = service.strangers()
    able = [] if strangers is None else all_who_may_end(
        broker.server, [does.connection, *broker.of_process[does.process]], strangers, TO_COME)
    if able and process.sign in (Sign.BLOCKED, Sign.RESTS):
        likely = [group for part in process.parts for group in part if group.how == "guess"]
        process.parts = any_of(*likely, *able)
        process.count = f"{process.count}, {does.switches} switches" if process.count is not None else None
    return process


def busy(service: Service, name: str, more: Dict[str, Any]) -> Process:
    """Returns one whose client, a process of one thread on this machine, sleeps or computes."""
    if service.does.kind == COMPUTES:
        return goes_on(name, "its client computes", [SYSTEM], **more)
    more.update(operation="timed sleep", count=f"{service.does.switches} switches")
    sign = Sign.SLEEPS if service.is_at_work else Sign.TICKS
    return goes_on(name, "its client sleeps", [premise(LIMIT)], sign, **more)


def publisher(service: Service, name: str, more: Dict[str, Any]) -> Process:
    """Returns one that consumes nothing. Its client may wait at another connection of its own."""
    other = service.at_another()
    if other:
        why = f"it consumes nothing, and its client waits at the connection of {other[0]}"
        parts = any_of(wakers("guess", other), unseen("unshown"))
        return with_client(blocked(name, parts, [SYSTEM], reason=why, **more), service)
    why = "it consumes nothing, so the broker can't tell what it waits for"
    return with_client(Process(name, Sign.UNKNOWN, any_of(unseen("outside")), why, **more), service)


def may_have_taken(service: Service, name: str, more: Dict[str, Any]) -> Process:
    """Returns one that needn't acknowledge what it takes: one that is likely to wait for who publishes to it."""
    asked = [other for other in service.pending() if service.broker.services[other].may_answer]
    guessed = service.at_another() or service.senders or (asked if service.does.kind == AT else [])
    more.update(operation="take", objects=service.places())
    why = "it needn't acknowledge, so the broker can't tell whether it is at work"
    part = [*([wakers("guess", guessed)] if guessed and service.does.kind not in BUSY else []), unseen("unshown"),
            *service.by_limit()]
    return with_client(blocked(name, any_of(*part), [SYSTEM], reason=why, **more), service)


def at_work(service: Service, name: str, more: Dict[str, Any]) -> Process:
    """Returns one that has a message. It may wait for another one: that is another place, for other facts. So may one
    whose client waits at a connection."""
    replies, does = service.replies(), service.does
    more.update(operation="reply" if service.may_get_replies else "handle", objects=service.places())
    why, guessed = "the broker can't tell what it does", []
    if does.kind in BUSY:
        why = f"a thread of its client {f'waits in {shown(does.call)}' if does.call else does.kind}"
    elif service.is_full and does.connection == service.connection:
        why = "the broker gives it no more before: is it at work, or has it forgotten to say so?"
    elif replies or does.kind == AT:
        guessed = service.repliers(replies)
        why = f"may wait for a reply in {shown(replies[0])}" if replies else "its client waits at a connection"
    part = [*([wakers("guess", guessed)] if guessed else []), service.by_client(), *service.unseen()]
    made = blocked(name, any_of(*part), [SYSTEM, premise(HANDLES)], **more,
                   reason=f"it has a message that isn't acknowledged, and {why}")
    return with_client(made, service)


def stands_by(service: Service, name: str, more: Dict[str, Any]) -> Process:
    """Returns one of whose queues another consumer is the active one."""
    active = [other for queue in service.standby for other in service.broker.routes.active.get(queue, [])
              if other != name]
    if not active:
        return unknown(name, f"the state doesn't show who is active for queue {shown(service.standby[0])}", **more)
    if len(service.standby) < len(service.queues):
        return unknown(name, "it stands by for one queue, and reads another", **more)
    more["note"] = f"stands by for {', '.join(service.queues)}"
    parts = any_of(of_list(list(dict.fromkeys(active))), *service.by_limit())
    return rests(name, "stands by", parts, [premise(KEEPS)], **more)
