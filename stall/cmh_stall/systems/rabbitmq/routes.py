"""The ways of messages within a RabbitMQ broker: by which keys they come to a queue, and which come by themselves."""
from __future__ import annotations

import functools
import re
from typing import Any, Dict, List, Tuple

from ...core.files import shown

DIRECT, TOPIC = "direct", "topic"
BY_KEY, STANDARD = (DIRECT, TOPIC), (DIRECT, TOPIC, "fanout", "headers")
OF_THE_BROKER = "amq.rabbitmq."  # exchanges to which the broker itself publishes: logs, traces, events
EXCHANGE, KEY, TTL = "dead-letter-exchange", "dead-letter-routing-key", "message-ttl"
LIMITS = (TTL, "max-length", "max-length-bytes")  # by which messages leave a queue that nobody has refused
# What the arguments and policies of a queue or an exchange may set, of which it is known what it does to messages.
SETTINGS = frozenset((
    *LIMITS, EXCHANGE, KEY, "alternate-exchange", "cancel-on-ha-failover", "consumer-timeout", "dead-letter-strategy",
    "delivery-limit", "expires", "ha-mode", "ha-params", "ha-promote-on-failure", "ha-promote-on-shutdown",
    "ha-sync-batch-size", "ha-sync-mode", "initial-cluster-size", "max-age", "max-in-memory-bytes",
    "max-in-memory-length", "max-priority", "overflow", "queue-leader-locator", "queue-master-locator", "queue-mode",
    "queue-type", "queue-version", "quorum-initial-group-size", "quorum-target-group-size", "single-active-consumer",
    "stream-filter-size-bytes", "stream-max-segment-size-bytes", "target-group-size"))


class Routes:
    """The queues, exchanges and bindings of a state. `ready` is the number of messages by queue, `taken` that of those
    that a service has and may give back, `active` has the consumers by queue that take messages now, by name."""

    def __init__(self, raw: Dict[str, Any]) -> None:
        self.ready: Dict[str, int] = {str(row["name"]): row["messages_ready"] for row in raw["list_queues"]
                                      if isinstance(row["messages_ready"], int)}
        self.taken = {str(row["name"]): row["messages_unacknowledged"] for row in raw["list_queues"]}
        self.active: Dict[str, List[str]] = {}
        self.consumed = {str(row["queue_name"]) for row in raw["list_consumers"]}
        self.kinds = {str(row["name"]): str(row["type"]) for row in raw["list_exchanges"]}
        self.bound: Dict[str, List[Tuple[str, str]]] = {}
        self.fed: Dict[str, str] = {}  # what hands messages to an exchange by itself
        for row in raw["list_bindings"]:
            self.add_binding(row)
        for row in raw["list_exchanges"]:
            other = table_of(row.get("arguments")).get("alternate-exchange")
            self.feed(other, f"exchange {row['name']} hands on what it can't route")
        policies = {str(row["name"]): row["definition"] for row in raw["list_policies"]}
        self.settings = {str(row["name"]): {**policies.get(str(row.get("policy")), {}), **table_of(row["arguments"])}
                         for row in raw["list_queues"]}
        self.dead = {name: settings for name, settings in self.settings.items() if settings.get(EXCHANGE) is not None}
        tables = [*policies.values(), *(table_of(row["arguments"]) for row in raw["list_queues"]),
                  *(table_of(row.get("arguments")) for row in raw["list_exchanges"] if row["type"] in STANDARD)]
        self.unknown = sorted({name for table in tables for name in table} - SETTINGS)
        for definition in policies.values():
            self.feed(definition.get("alternate-exchange"), "a policy hands on what an exchange can't route")

    def add_binding(self, row: Dict[str, Any]) -> None:
        source, key, queue = str(row["source_name"]), str(row["routing_key"]), str(row["destination_name"])
        if row.get("destination_kind", "queue") == "queue":
            self.bound.setdefault(queue, []).append((source, key))
        else:
            self.feed(queue, f"exchange {source} hands on messages")

    def feed(self, exchange: Any, why: str) -> None:
        if isinstance(exchange, str):
            self.fed[exchange] = f"{shown(why)} to exchange {shown(exchange)}, and the keys of these aren't known"

    def lost(self) -> str:
        """Returns what the lists lack, or nothing: each setting is one that is known, each queue has a binding of the
        default exchange, and what others take messages to is listed, but for what came in between."""
        queues = self.settings
        if self.unknown:
            return f"an argument or a policy sets {shown(self.unknown[0])}, and it isn't known what that does"
        bare = next((name for name in queues if ("", name) not in self.bound.get(name, ())), None)
        if bare is not None:
            return f"queue {shown(bare)} has no binding of the default exchange"
        others = [name for name, rows in self.bound.items() if name not in queues and any(source for source, _ in rows)]
        others += [name for name in self.fed if self.kinds and name not in self.kinds]
        if others:
            return f"messages are taken to {shown(others[0])}, which isn't listed"
        idle = next((name for name, settings in self.dead.items()
                     if not any(self.may_hand(name, settings, other) for other in queues)), None)
        return "" if idle is None else f"dead messages of queue {shown(idle)} come to no queue that is listed"

    def kind(self, exchange: str) -> str:
        return self.kinds.get(exchange, DIRECT if exchange == "" else "")

    def is_by_name(self, queue: str) -> bool:
        """Whether messages come to a queue by its name alone."""
        return all(source == "" for source, _ in self.bound.get(queue, []))

    def is_resting(self, queue: str) -> bool:
        """Whether nobody reads another queue of the same family, which differs in the last part of its name."""
        family = family_of(queue)
        return family != "" and any(family_of(other) == family for other in self.settings.keys() - self.consumed)

    def ends(self, queue: str) -> Tuple[Dict[str, str], str]:
        """Returns the keys by which messages come to a queue, each with the expression for those that are used, and
        what keeps them from being known. The name of the queue itself is one only if it has no other. A key that
        another exchange takes to another queue needs its exchange, EXCHANGE/KEY, and so does an empty one."""
        keys: Dict[str, str] = {}
        bindings = self.bound.get(queue, [])
        for source, key in bindings:
            fault = self.fault_of(source)
            if fault:
                return {}, fault
            if self.kind(source) not in BY_KEY:
                keys[source] = re.escape(source)  # (its messages come whatever their keys)
            elif source or len(bindings) == 1:
                exact = f"{re.escape(source)}/(?:{self.expression(source, key)})"
                is_shared = not key or self.is_shared(source, key, queue)
                keys[f"{source}/{key}" if is_shared else key] = \
                    exact if is_shared else f"{exact}|{self.expression(source, key)}"
        return keys or {queue: re.escape(queue)}, ""

    def fault_of(self, source: str) -> str:
        """Returns what keeps it from being known who publishes to an exchange, or nothing."""
        if source in self.fed:
            return self.fed[source]
        if not self.kind(source):
            return f"the state doesn't say of which type exchange {shown(source)} is"
        if self.kind(source) not in STANDARD:
            return f"exchange {shown(source)} is of type {shown(self.kind(source))}, which may keep messages"
        if source.startswith(OF_THE_BROKER):
            return f"the broker itself publishes to exchange {shown(source)}"
        return ""

    def expression(self, source: str, key: str) -> str:
        """The expression for the keys that a binding takes, of an exchange that looks at keys."""
        return pattern(key) if self.kind(source) == TOPIC else re.escape(key)

    def is_shared(self, source: str, key: str, queue: str) -> bool:
        """Whether another exchange takes a key of this binding to another queue."""
        return any(other != source and name != queue and self.kind(other) in BY_KEY
                   and overlap(tuple(key.split(".")), tuple(bound.split(".")))
                   for name, bindings in self.bound.items() for other, bound in bindings)

    def feeders(self, queue: str) -> List[str]:
        """Returns the queues whose dead messages may come to a queue, also by others between them."""
        feeders: Dict[str, None] = {}
        new = [queue]
        while new:
            new = [other for other, settings in self.dead.items() if other not in feeders
                   and any(self.may_hand(other, settings, name) for name in new)]
            feeders.update(dict.fromkeys(new))
        return [name for name in feeders if name != queue]

    def mover(self, queue: str) -> str:
        """Returns what hands messages to a queue by itself, or nothing: a queue that has some, whether or not they have
        a limit of their own."""
        for other in self.feeders(queue):
            if self.ready.get(other) != 0 and not self.is_sure(other, queue) and not self.keeps(other):
                return f"queue {shown(other)} hands on dead messages to queue {shown(queue)}, which it reads"
        return ""

    def may_expire(self, queue: str) -> bool:
        """Whether messages come to a queue if they have limits of their own in another one."""
        return any(self.ready.get(other) != 0 and self.keeps(other) for other in self.feeders(queue))

    def keeps(self, queue: str) -> bool:
        """Whether a queue keeps messages that have no limit of their own: it has none, and nobody refuses them."""
        return queue not in self.consumed and not any(key in self.settings[queue] for key in LIMITS)

    def comes(self, queue: str) -> bool:
        """Whether a message comes to a queue once its time in another one is over."""
        return any(self.ready.get(other, 0) > 0 and self.is_sure(other, queue) for other in self.feeders(queue))

    def is_sure(self, other: str, queue: str) -> bool:
        """Whether all messages of another queue have a limit, and come to this one then."""
        settings = self.settings[other]
        key, kind = settings.get(KEY), self.kind(str(settings.get(EXCHANGE)))
        return isinstance(settings.get(TTL), int) and (isinstance(key, str) and kind in BY_KEY or kind == "fanout") \
            and self.may_hand(other, settings, queue) and not self.may_drop(other, queue)

    def may_drop(self, other: str, queue: str) -> bool:
        """Whether the broker may drop what comes back to a queue from another one: it does so with a message that has
        gone around by limits alone."""
        return any(key in self.settings.get(queue, {}) for key in LIMITS) and queue in self.feeders(other)

    def may_hand(self, other: str, settings: Dict[str, Any], queue: str) -> bool:
        """Whether dead messages of another queue may come to this one."""
        exchange, key = (None if value is None else str(value) for value in (settings.get(EXCHANGE), settings.get(KEY)))
        if exchange is None:
            return False
        if exchange == "":
            return self.may_have(other, queue) if key is None else bool(key == queue)
        keys = [bound for source, bound in self.bound.get(queue, []) if source == exchange]
        if key is None or self.kind(exchange) not in BY_KEY:
            return bool(keys)
        return any(re.fullmatch(self.expression(exchange, bound), key) for bound in keys)

    def may_have(self, queue: str, key: str) -> bool:
        """Whether messages with this key of their own may be in a queue."""
        return any(self.kind(source) not in BY_KEY or re.fullmatch(self.expression(source, bound), key) is not None
                   for source, bound in self.bound.get(queue, []))


def family_of(queue: str) -> str:
    """Returns the name of a queue without its last part: `progress.` of `progress.worker-1`."""
    return re.sub(r"[^.:/]+$", "", queue)


def table_of(rows: Any) -> Dict[str, Any]:
    """Returns the table of arguments, each [NAME, TYPE, VALUE], with the names as policies have them."""
    return {re.sub("^x-", "", str(name)): value for name, _, value in rows or []}


@functools.lru_cache(maxsize=None)
def overlap(one: Tuple[str, ...], other: Tuple[str, ...]) -> bool:
    """Whether a key matches two bindings, given as their words: `*` stands for a word, `#` for any number of words."""
    if "#" in other[:1] and "#" not in one[:1]:
        one, other = other, one
    if "#" in one[:1]:
        return overlap(one[1:], other) or other != () and overlap(one, other[1:])
    if not one or not other:
        return one == other
    return (one[0] == other[0] or "*" in (one[0], other[0])) and overlap(one[1:], other[1:])


@functools.lru_cache(maxsize=None)
def pattern(routing_key: str) -> str:
    """Returns the expression of a binding: `*` stands for a word, `#` for any number of words, also none."""
    words = re.sub(r"(?<![^.])#(\.#(?![^.]))+", "#", routing_key).split(".")
    text = ""
    for place, word in enumerate(words):
        if word == "#":
            text += r"(?:(?:^|\.)[^.]+)*" if place else r"(?:[^.]+(?:\.|$))*"
        else:
            text += (r"\." if place and words[:place] != ["#"] else "") + (r"[^.]+" if word == "*" else re.escape(word))
    return text
