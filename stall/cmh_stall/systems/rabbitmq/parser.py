"""What rabbitmqctl prints of a broker: connections, channels, consumers, queues, exchanges, policies and bindings.

A process is a service, known by the name that it gave its connection, as SERVICE@SITE. A queue is none. Facts say who
publishes: FRAME is SERVICE, and `SERVICE holds KEY` says that it publishes with that routing key. Who acts on its own
account, `runs`.

The lists are printed one after the other, while the services go on. What counts the waits of a service is what its
connection has carried, without heartbeats: each of these is a packet of eight bytes, and nothing else is so short.
"""
from __future__ import annotations

from typing import Any, Dict, List

from ...core.files import Refusal, shown
from ...core.model import ANYBODY, Sign, Strength, Wakers, any_of, of_list, wakers
from ...core.sketch import Process, Sketch, garbled, goes_on, has_how, lists_of_wakers, premise, rests, unknown
from ...core.snapshots import APART, Reading
from .. import State
from ..base import Parser, Snapshot
from .broker import Broker
from .clients import COMPUTES, ELSEWHERE, SLEEPING, ticking_of
from .contradictions import doubt_services
from .services import TO_COME, UNSEEN, Service, process_name
from .text import lists_of
from .waits import at_work, busy, may_have_taken, publisher, stand_in, stands_by, with_client

READY, MOVES, ROUTED, ACTS, EXPIRES = "ready", "moves", "routed", "acts", "expires"  # assumptions
READY_FOR_IT = "a message is ready for it"
WAITS_FOR_MESSAGE = "waits for a message"
NO_PUBLISHER = "no service is known to publish to a queue that it consumes"


def row_of(process: Process) -> Dict[str, List[str]]:
    """Returns that a service has a connection, and of one at work who is likely to send what its client waits for."""
    if not has_how(process, "client"):
        return {"serves": [process.name]}
    groups = (group for part in process.parts for group in part if group.how == "guess")
    return {"serves": [process.name], "gives": [name for group in groups for name in group.names()]}


class RabbitmqParser(Parser):
    """One list is printed after the other."""

    NAME, IDLE, MOMENT = "rabbitmq", "services", APART

    def __init__(self) -> None:
        self.keys: Dict[str, Dict[str, None]] = {}  # of messages that end waits, the expressions of those that do

    def read(self, state: State) -> List[Reading]:
        readings = []
        for raw in lists_of(state):
            broker, taken = Broker(raw), raw["taken"] or {}
            rows = sorted(broker.services.values(), key=lambda service: service.name)
            time = (taken["began"], taken["ended"]) if taken else None
            machine = taken.get("space", "")
            readings.append(Reading(state.path, "broker", rows, broker.missing, machine=machine, time=time))
        return readings

    def begin(self, readings: List[Reading]) -> None:
        """Sees which threads of clients have come back to the same sleep, and which services have moved."""
        brokers = [reading.rows[0].broker for reading in readings if reading.rows]
        if len({broker.has_counts for broker in brokers}) > 1:
            raise Refusal(f"{shown(readings[0].path)}: some of the states have what `rabbitmqctl eval` prints, and "
                          "others don't. Take them again")
        if any(first.by_pid and second.by_pid and first.by_pid.keys().isdisjoint(second.by_pid)
               for first, second in zip(brokers, brokers[1:])):
            raise Refusal(f"{shown(readings[0].path)}: no connection is in two of its states: states of one broker are "
                          "expected")
        doubt_services(brokers)
        for broker in brokers:
            broker.ticking = ticking_of(brokers[0].clients, brokers[-1].clients)
            broker.moved = brokers[0].moved_until(brokers[-1])
            for name in brokers[0].spoken_until(brokers[-1]) & broker.services.keys():
                broker.services[name].speak()

    def process_of(self, subject: Service, snapshot: Snapshot) -> Process:
        """Returns a service by what the broker says of it, and by what its client does, if that runs here."""
        service, name, more = subject, process_name(subject.name), subject.more()
        if name in service.broker.faults:
            return garbled(name, service.broker.faults[name], **more)
        if service.is_double:
            return unknown(name, "two connections have this name, so it isn't known which does what", **more)
        if service.state in ("blocked", "blocking"):
            return unknown(name, "the broker blocks it, since its memory or its disk is full", **more)
        if service.does.is_sure and service.does.kind in (COMPUTES, SLEEPING):
            return busy(service, name, more)
        if service.is_at_work and service.queues:
            return at_work(service, name, more)
        if service.does.is_sure and service.does.kind == ELSEWHERE:
            why = f"its client waits in {shown(service.does.call)}, and at no connection"
            return unknown(name, why, **{**more, "objects": service.places()})
        if not service.queues:
            return publisher(service, name, more)
        if not service.acknowledges:
            return may_have_taken(service, name, more)
        return self.consumer(service, name, more)

    def consumer(self, service: Service, name: str, more: Dict[str, Any]) -> Process:
        """Returns one that is at no message: a message is ready for it, or others have to publish one."""
        routes = service.broker.routes
        lost = next((queue for queue in service.queues if queue not in routes.ready), None)
        if lost is not None:
            return unknown(name, f"the state doesn't say how many messages are in queue {shown(lost)}", **more)
        if any(routes.ready[queue] for queue in service.queues if queue not in service.standby):
            return goes_on(name, READY_FOR_IT, [premise(READY)], **more)
        if service.standby:
            return stands_by(service, name, more)
        if any(map(routes.comes, service.queues)):
            return goes_on(name, "a dead message will come to it", [premise(EXPIRES)], **more)
        moves = next(filter(None, map(routes.mover, service.queues)), "")
        return garbled(name, moves, **more) if moves else self.receiver(service, name, more)

    def receiver(self, service: Service, name: str, more: Dict[str, Any]) -> Process:
        """Returns one that waits for whoever publishes to its queues: by what the broker has counted, or by facts on
        who publishes with the keys of these."""
        broker, routes = service.broker, service.broker.routes
        keys: Dict[str, str] = {}
        for queue in service.sources:
            ends, fault = routes.ends(queue)
            if fault:
                return unknown(name, fault, **more)
            keys.update(ends)
        for key, expression in keys.items():
            self.keys.setdefault(key, {})[expression] = None
        taken = next((queue for queue in service.sources if routes.taken[queue]), None)
        others = [other for other, service in broker.services.items() if service.is_at_work]
        if taken is not None and not others:
            return garbled(name, f"a message of queue {shown(taken)} may come back, and the state doesn't show who has "
                           "it", **more)
        may_return = taken is not None or broker.has_more_taken  # (of which queue those are, no list says then)
        returning = list(dict.fromkeys([*(others if may_return else []), *service.may_reply()]))
        besides = [*([wakers("returns", returning)] if returning else []), *service.by_limit(), *service.unseen()]
        known = self.counted(service, name) if broker.counts else [
            Wakers(ANYBODY, Strength.UNSEEN, "unshown", (), key) for key in keys]
        is_known = broker.counts and (service.senders or service.first_repliers())
        why = WAITS_FOR_MESSAGE if is_known else NO_PUBLISHER
        made = rests(name, why, any_of(*known, *besides), [premise(MOVES), premise(ROUTED), premise(ACTS)],
                     **more)
        made.sign = Sign.BLOCKED if service.is_asking() else Sign.RESTS
        return with_client(made, service)

    def counted(self, service: Service, name: str) -> List[Wakers]:
        """Returns those who may end the wait of a service by what the broker has counted. It may act by itself, unless
        somebody is at work for whom it waits: without that it is like one that has nothing to do."""
        broker = service.broker
        senders = service.senders or service.first_repliers()
        known = {name, *senders}
        beginners = broker.beginners if known.isdisjoint(broker.beginners) else [
            other for other in broker.beginners if other not in known]
        unseen = [] if name in broker.behind_work else [wakers("outside", [UNSEEN])]
        return [*([of_list(senders)] if senders else []), *([wakers("begins", beginners)] if beginners else []),
                wakers("to-come", [TO_COME]), *unseen]

    def finish(self, sketch: Sketch, snapshots: List[Snapshot]) -> None:
        """Says what wasn't understood, and takes back that one goes on whose message was ready in all states."""
        rows = snapshots[0].rows()
        sketch.warnings += rows[0].broker.warnings if rows else []
        ends = {process_name(service.name): service.client_end for service in rows if not service.is_double}
        sketch.connections = {end: row_of(process) for process in sketch.processes
                              for end in [ends.get(process.name)] if end}
        sketch.groups.update({f"key:{key}": list(expressions) for key, expressions in self.keys.items()})
        here = {process.name for process in sketch.processes}
        names = dict.fromkeys(name for who in lists_of_wakers(sketch.processes) for name in who)
        sketch.processes += [stand_in(name) for name in names if name not in here]
        for process in sketch.processes:
            if process.reason == READY_FOR_IT and len(snapshots) > 1 and process.sign is Sign.GOES_ON:
                process.become_unknown("a message was ready for it in all states, and it took none")
