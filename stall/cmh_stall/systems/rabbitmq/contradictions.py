"""RabbitMQ: what of two states of a broker can't be true of both. A connection is of one service, a channel of one
connection, a consumer of one channel and queue, as long as they live; and nobody has carried less than before.
"""
from __future__ import annotations

from collections import Counter
from typing import Any, Dict, Iterator, List, Sequence, Tuple

from .broker import Broker
from .services import process_name

DIFFER = "the states differ in what its connection, its channels or its consumers are"
LESS = "its connection has carried less than before"


def doubt_services(brokers: Sequence[Broker]) -> None:
    """Says of services that they aren't understood, in each state, where two states contradict each other in them."""
    for first, second in zip(brokers, brokers[1:]):
        names = dict.fromkeys(odd_names(first, second), DIFFER)
        names.update(dict.fromkeys(names_with_less(first, second), LESS))
        doubt_named([first, second], names)


def doubt_named(brokers: List[Broker], names: Dict[str, str]) -> None:
    for broker in brokers:
        broker.faults.update((name, why) for name, why in names.items() if name not in broker.faults)


def odd_names(first: Broker, second: Broker) -> Iterator[str]:
    """Yields the names of services that have by one state what another one has by the other."""
    for before, after in zip(keys_of(first), keys_of(second)):
        for key in before.keys() & after.keys():
            yield from (name for _, name in (before[key], after[key]) if before[key][0] != after[key][0])
    for name in first.services.keys() & second.services.keys():
        old, new = first.services[name].connection, second.services[name].connection
        is_there = old in second.channels.values() or new in first.channels.values()
        yield from [name] if old != new and is_there else []


def keys_of(broker: Broker) -> List[Dict[str, Tuple[Any, str]]]:
    """Returns by what tells connections, channels and consumers from others what each of them is, and the name of its
    service."""
    names = {pid: process_name(service.name) for pid, service in broker.by_pid.items()}
    owners = {pid: names.get(connection, "") for pid, connection in broker.channels.items()}
    counts = Counter(tag for tag, _, _ in broker.consumers)
    return [{pid: (name, name) for pid, name in names.items()},
            {pid: (connection, owners[pid]) for pid, connection in broker.channels.items()},
            {tag: ((channel, queue), owners.get(channel, "")) for tag, channel, queue in broker.consumers
             if counts[tag] == 1}]


def names_with_less(first: Broker, second: Broker) -> Iterator[str]:
    for pid in first.by_pid.keys() & second.by_pid.keys():
        before, after = first.by_pid[pid].carried, second.by_pid[pid].carried
        if before is not None and after is not None and (after[0] < before[0] or after[1] < before[1]):
            yield process_name(first.by_pid[pid].name)
