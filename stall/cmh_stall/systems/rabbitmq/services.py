"""What a state of a RabbitMQ broker shows of a service: what it consumes and has at work, and who may give it what."""
from __future__ import annotations

import functools
from collections import Counter
from typing import TYPE_CHECKING, Any, Dict, List, Optional, Tuple

from ...core.model import Wakers, unseen, wakers
from .clients import OPEN, Activity, looks_on

if TYPE_CHECKING:
    from .broker import Broker

TO_COME, UNSEEN, TIMEOUT, OWN_LIMITS = "other-publishers", "unseen-work", "consumer-timeout", "message-limits"
STAND_INS = {  # who stands for what no state shows, and for what
    TO_COME: "stands for whoever will publish to a queue to which no channel that it has open has published: a mailer "
             "that hasn't published to 'receipts' yet, or one that opens a channel for each message",
    UNSEEN: "stands for what a service that waits at its queues does besides: by a timer, at a request from outside, "
            "or on a message that it has acknowledged already",
    TIMEOUT: "stands for the broker's limit, 30 minutes if nobody has set another one, after which a message that "
             "isn't acknowledged goes to another consumer of its queue",
    OWN_LIMITS: "stands for limits that messages have of their own, by which they come as dead ones from a queue that "
                "nobody reads, and that has no limit itself",
}


class Service:
    """A service, as one state shows it."""

    def __init__(self, name: str, broker: Broker) -> None:
        self.name, self.broker = name, broker
        self.queues: List[str] = []
        self.sent: List[str] = []  # those to which it has published, as far as the broker counts that
        self.standby: List[str] = []  # those of which another consumer is the active one
        self.held: List[str] = []  # those of which it may have a message
        self.beside: List[str] = []  # those of which it has none, on a channel that has some
        self.balance: Counter[str] = Counter()  # how many more messages it got of a queue than it published there
        self.has_got = False  # whether a channel of it that consumes nothing has a message, of any queue
        self.is_double, self.acknowledges = False, True
        self.unacknowledged, self.taken = 0, 0  # messages that it has, and those that it got since it connected
        self.count: Optional[str] = None
        self.carried: Optional[Tuple[int, int]] = None  # bytes of its packets but heartbeats, from it and to it
        self.speaks = False  # whether it has sent what likely went to those that look on, and has got nothing
        self.state, self.connection = "", ""

    def more(self) -> Dict[str, Any]:
        """What tells its wait from the next, and the note."""
        service, _, site = self.name.partition("@")
        note = f"consumes {', '.join(self.queues)}" if self.queues else "consumes nothing"
        count = None if self.is_double else self.count
        return {"site": site or None, "frames": [service], "operation": "consume" if self.queues else "publish",
                "objects": sorted(self.queues), "note": note, "count": count, "spent": count,
                "thread": f"{self.does.process}/" if self.does.process else ""}

    def grown_since(self, earlier: Service) -> Tuple[bool, bool]:
        """Returns whether it has sent something since an earlier state, and whether it has got something."""
        if self.carried is None or earlier.carried is None or self.connection != earlier.connection:
            return False, True
        return self.carried[0] != earlier.carried[0], self.carried[1] != earlier.carried[1]

    def speak(self) -> None:
        """Counts what it got alone: what it has sent by itself ends no wait of its own."""
        self.speaks = True
        self.count = self.carried and f"{self.carried[1]} out by {self.connection}"

    def places(self) -> List[str]:
        """Returns what tells its place from others where it may be at work: whoever publishes to a queue doesn't end
        that, so these aren't what facts say to be held."""
        return [f"queue={queue}" for queue in sorted(self.queues)]

    @property
    def is_at_work(self) -> bool:
        return self.unacknowledged > 0

    def others(self) -> Dict[str, Service]:
        return {name: other for name, other in self.broker.services.items() if other is not self}

    def strangers(self) -> Optional[List[str]]:
        """Returns the names of those who may send something to its client, which does nothing before: the services of
        all other processes. That is None where they aren't known."""
        others = self.broker.services.items()
        if not self.does.is_deaf or self.broker.missing or any(other.is_double for _, other in others):
            return None
        return [name for name, other in others if other.does.process != self.does.process]

    @functools.cached_property
    def does(self) -> Activity:
        """What its client does, if that runs on this machine."""
        return self.broker.doing.get(self.connection, Activity(OPEN))

    def at_another(self) -> List[str]:
        """Returns the other service of its process at whose connection its client waits, if it does."""
        other = self.broker.by_pid.get(self.does.connection)
        return [process_name(other.name)] if other is not None and other is not self else []

    def is_asking(self) -> bool:
        """Whether another service of its process has a message, and waits for an answer at its connection."""
        return any(other is not self for other in self.broker.asking.get(self.connection, ()))

    @functools.cached_property
    def looks_on(self) -> bool:
        """Whether it is likely to give nobody anything but numbers, by its name, and that of who gets what it sends."""
        return all(map(looks_on, (self.name, *self.consumers())))

    @functools.cached_property
    def is_full(self) -> bool:
        """Whether each of its consumers has as many messages as it may have, so that it waits for none."""
        return not self.broker.server.consumers(self.connection)

    @functools.cached_property
    def may_begin(self) -> bool:
        """Whether the state shows that it may publish to a queue for the first time: it has done nothing so far, it has
        its first message at work, or it gets dead messages, with which it may do what it has done with none before."""
        routes, has_finished = self.broker.routes, self.taken > self.unacknowledged
        return not has_finished and (self.is_at_work or not self.sent) \
            or any(routes.comes(queue) or routes.mover(queue) or routes.may_expire(queue) for queue in self.queues)

    @functools.cached_property
    def may_answer(self) -> bool:
        """Whether it has published to queues, or may begin to."""
        return bool(self.sent) or self.may_begin

    @functools.cached_property
    def sources(self) -> List[str]:
        """The queues that it reads, and those that may hand on messages to them."""
        feeders = self.broker.routes.feeders
        return list(dict.fromkeys(source for queue in self.queues for source in (queue, *feeders(queue))))

    @functools.cached_property
    def senders(self) -> List[str]:
        """The names of those that have published to a queue of which it gets messages."""
        return list(dict.fromkeys(sender for queue in self.sources for sender in self.broker.senders.get(queue, {})))

    def consumers(self) -> List[str]:
        """Returns the names of those that consume what it has published."""
        readers = self.broker.readers
        others = dict(row for queue in self.sent for row in readers.get(queue, ()) if row[1] is not self)
        return [process_name(others[number].name) for number in sorted(others)]

    def has_asked(self, name: str) -> bool:
        """Whether one who consumes what it has published may have a question of it: a message is there that is ready or
        at work, or where it waits to come back."""
        routes = self.broker.routes
        queues = [queue for queue in self.broker.services[name].queues if queue in self.sent]
        return any(routes.ready.get(place) or routes.taken.get(place) for queue in queues
                   for place in (queue, *routes.feeders(queue)))

    def pending(self) -> List[str]:
        """Returns the names of those that may have a question of it."""
        return [*filter(self.has_asked, self.consumers())]

    def first_repliers(self) -> List[str]:
        """Returns the names of those that may be the first to reply to a queue that is known by its name."""
        return self.consumers() if all(map(self.broker.routes.is_by_name, self.queues)) else []

    def may_reply(self) -> List[str]:
        """Returns the names of those that may have a message at work that has come of one of its own: one may reply,
        also directly, at a consumer that the broker doesn't list."""
        return [name for name, askers in self.broker.asked.items() if process_name(self.name) in askers]

    @functools.cached_property
    def client_end(self) -> str:
        """The client's end of its connection, if that is on this machine, or nothing."""
        return self.broker.client_ends.get(self.connection, "")

    def by_client(self) -> Wakers:
        """Returns who stands for what its client does: on this machine the client itself, in whose place its threads
        are where another system knows these."""
        return unseen("client" if self.client_end else "unshown")

    @functools.cached_property
    def may_get_replies(self) -> bool:
        """Whether some of its queues are bound by their names alone, and others aren't."""
        return len({*map(self.broker.routes.is_by_name, self.queues)}) > 1

    def replies(self) -> List[str]:
        """Returns the queues where it may wait for a reply while it has a message: those that are bound by their names
        alone, if others aren't, and of which it has none."""
        named = [queue for queue in self.queues if self.broker.routes.is_by_name(queue)]
        empty = [queue for queue in named if queue not in self.held] if len(named) < len(self.queues) else []
        return [queue for queue in empty if queue in self.free] or empty

    @functools.cached_property
    def free(self) -> List[str]:
        """The queues at which a channel of its own waits that has no message, while another one has some."""
        passed_over = {*self.held, *self.beside, *self.standby}
        return [queue for queue in self.queues if queue not in passed_over and not self.broker.routes.ready.get(queue)]

    def repliers(self, queues: List[str]) -> List[str]:
        """Returns who may reply in some queues: the connection at which its client waits; or those that have published
        there, or that may have a question of it, as far as the broker counts that; or else all others that are at work;
        or else all others that consume anything. Without such queues it is who gives it what it waits for beside its
        work, and nobody is known who wasn't asked."""
        known = dict.fromkeys(sender for queue in queues for sender in (*self.broker.senders.get(queue, {}),
                                                                *self.token_givers(queue)))
        repliers = self.at_another() or list(known) or (self.givers() if self.free and not queues else self.pending()) \
            or self.tellers()
        if repliers or not queues and self.broker.counts:
            return repliers
        others = {name: other for name, other in self.others().items() if other.queues and not other.looks_on}
        return [name for name, other in others.items() if other.is_at_work] or list(others)

    def givers(self) -> List[str]:
        """Returns the names of those that may give it a message beside its work: a token, or a reply to what it has
        asked; or else another one that they have sent before, unless they wait for it themselves."""
        services, senders = self.broker.services, self.broker.senders
        tokens = [giver for queue in self.free for giver in self.token_givers(queue)]
        known = {sender for queue in self.free for sender in senders.get(queue, {})} - {process_name(self.name)}
        asked = [sender for sender in self.pending() if services[sender].may_answer]
        givers = [*tokens, *(sender for sender in asked if sender in known)]
        if not givers and not known.issuperset(asked) and not all(map(senders.get, self.free)):
            givers = asked
        asking = {asker for queue in self.held for asker in senders.get(queue, {})}
        return list(dict.fromkeys(givers)) or sorted(known.difference(asking, self.consumers()))

    def tellers(self) -> List[str]:
        """Returns the names of those others that may tell it of an event, where it waits for one to which nobody has
        published yet: those that are at work, and haven't sent what it works at. An event's queue has a key, and it is
        read for a while only, as others of its family show. One that goes from message to message has no more that it
        might tell of."""
        routes, senders = self.broker.routes, self.broker.senders
        events = [queue for queue in self.free if not routes.is_by_name(queue) and queue not in senders
                  and routes.is_resting(queue)]
        working = {name: other for name, other in self.others().items() if other.is_at_work}
        ended = {name for name, other in working.items() if not other.may_answer or name in self.broker.moved
                 and not any(map(routes.ready.get, other.queues))}
        return [name for name in working if name not in ended | self.broker.askers(self)] if events else []

    def token_givers(self, queue: str) -> List[str]:
        """Returns the names of the others that may give back what goes around by a queue, as a lock: those that have a
        message of it beside their work, or that have published there and are at work. Somebody else who publishes there
        sends work, and so may one who isn't there any more, or one of them if it gives more than it gets."""
        others, mine = self.others(), {queue, *self.queues}
        senders = [sender for sender in self.broker.senders.get(queue, {}) if sender in others]
        if self.balance[queue] < 0 or any(mine.isdisjoint(others[sender].queues) for sender in senders):
            return []
        got = [name for name, other in others.items() if other.has_got]
        holders = [name for name, other in others.items()
                   if queue in other.held and (senders or other.held[1:] or other.has_got)] or got
        working = [sender for sender in senders if others[sender].is_at_work or not others[sender].acknowledges]
        return [*(working or senders), *(holders if self.broker.routes.taken.get(queue) else [])]

    def unseen(self) -> List[Wakers]:
        """Returns who stands for what it does by itself, if it has sent something meanwhile, and for services that
        aren't understood."""
        others = [unseen("left-out", self.broker.missing)] if self.broker.missing else []
        return [*([wakers("outside", [UNSEEN])] if self.speaks else []), *others]

    def by_limit(self) -> List[Wakers]:
        """Returns who stands for the limit of the broker, and for those of messages, if these may give it a message. It
        has none itself."""
        routes = self.broker.routes
        own = [OWN_LIMITS] if any(map(routes.may_expire, self.queues)) else []
        names = [TIMEOUT, *own] if any(map(routes.taken.get, self.sources)) else own
        return [wakers("limit", names)] if names else []


def process_name(name: str) -> str:
    return name.replace("@", "/")
