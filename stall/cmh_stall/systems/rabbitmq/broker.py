"""A state of a RabbitMQ broker as a whole: its services by their connections, and who has published where."""
from __future__ import annotations

import functools
from typing import Any, Dict, List, Optional, Set, Tuple

from ...core.files import shown
from ..base import fits
from .bounds import BrokerServer
from .clients import Activity, Row, activities
from .routes import Routes
from .services import Service, process_name
from .text import TABLE, Raw

# A connection that isn't so has no name.
CONNECTION = {"pid": str, "client_properties": TABLE, "state": str, "ssl": bool, ...: object}
HEARTBEAT = 8  # bytes of the frame, a packet of its own
FINE = "fine"  # the statistics that count who publishes to which queue


class Broker:
    """A state of the broker. `services` are its rows by the name of the process."""

    def __init__(self, raw: Raw) -> None:
        self.routes = Routes(raw)
        self.server = BrokerServer(raw, self.routes)
        self.clients: List[Row] = raw["clients"]
        self.client_ends = {row["connection"]: str(row.get("end", "")) for row in reversed(self.clients)}
        self.ticking: Dict[int, bool] = {}
        self.moved: Set[str] = set()  # the names of those that have carried something between the states
        self.faults: Dict[str, str] = {}  # by the names of services, why another state contradicts this one
        self.channels: Dict[str, str] = {row["pid"]: row["connection"] for row in raw["list_channels"]}
        self.consumers = [(str(row.get("consumer_tag")), str(row["channel_pid"]), str(row["queue_name"]))
                          for row in raw["list_consumers"]]
        self.warnings: List[str] = []
        self.missing = ""
        if self.routes.lost():
            self.miss(self.routes.lost())
        self.services: Dict[str, Service] = {}
        self.by_pid: Dict[str, Service] = {}
        for row in raw["list_connections"]:
            self.add_connection(row)
        self.add_channels(raw["list_channels"])
        owners = {row["pid"]: self.by_pid.get(row["connection"]) for row in raw["list_channels"]}
        numbers = {row["pid"]: row["messages_unacknowledged"] for row in raw["list_channels"]}
        for row in raw["list_consumers"]:
            self.add_consumer(row, owners.get(row["channel_pid"]), numbers.get(row["channel_pid"], 0))
        in_queues = [number for number in self.routes.taken.values() if isinstance(number, int)]
        self.has_more_taken = sum(numbers.values()) > sum(in_queues)  # (channels, than queues have given)
        queues = {row["channel_pid"]: str(row["queue_name"]) for row in raw["list_consumers"]}
        for pid, service in owners.items():
            if service is not None and pid not in queues:
                service.has_got = service.has_got or numbers[pid] > 0
        self.has_counts = bool(raw["eval"])
        counts = raw["eval"]["value"] if raw["eval"] else {}
        published = counts.get("published", [])
        self.counts = (counts.get("statistics") == FINE and "taken" in counts
                       and any(row["channel"] in owners for row in published))
        self.senders: Dict[str, Dict[str, bool]] = {}  # who has published to a queue, by name
        self.add_published(published, owners)
        for row in counts.get("taken", []):
            service = owners.get(row["channel"])
            if service is not None:
                service.taken += row["number"]
                service.balance[queues.get(row["channel"], "")] += row["number"]

    def add_published(self, rows: List[Dict[str, Any]], owners: Dict[str, Optional[Service]]) -> None:
        """Adds what channels have published to queues, by their services."""
        for row in rows:
            service = owners.get(row["channel"])
            if service is not None and row["number"]:
                self.senders.setdefault(row["queue"], {})[process_name(service.name)] = True
                service.sent.append(row["queue"])
                service.balance[row["queue"]] -= row["number"]

    def add_connection(self, row: Dict[str, Any]) -> None:
        """Adds a connection to the services. Two of one name are one service, of which little is known."""
        properties = row["client_properties"] if fits(row, CONNECTION) else []
        name = {key: value for key, _, value in properties}.get("connection_name")
        if not isinstance(name, str) or not name:
            which = shown(str(row.get("pid") if isinstance(row, dict) else row)[:100])
            self.miss(f"connection {which} has no name, so facts can't tell which service it is")
            return
        key = process_name(name)
        here = self.services.get(key)
        if here is not None:
            self.warnings.append(f"two connections are called {shown(name)}: what they wait for isn't told apart")
            here.is_double = True
        self.services[key] = self.by_pid[row["pid"]] = here = here or Service(name, self)
        here.count, here.state, here.connection = count_of(row), str(row.get("state", "")), row["pid"]
        here.carried = carried_by(row)

    def add_channels(self, rows: List[Dict[str, Any]]) -> None:
        for row in rows:
            if row["connection"] in self.by_pid:
                self.by_pid[row["connection"]].unacknowledged += row["messages_unacknowledged"]
            else:
                self.miss(f"channel {shown(row['pid'])} is of no connection that is listed by a name")

    def add_consumer(self, row: Dict[str, Any], service: Optional[Service], number: int) -> None:
        """Adds a consumer to its service, whose channel has a number of messages. That of a connection that isn't
        listed has ended, or came meanwhile."""
        queue = str(row["queue_name"])
        if service is None:
            self.miss(f"a consumer of {shown(queue)} is of no service that is listed")
            return
        service.queues.append(queue)
        service.acknowledges = service.acknowledges and bool(row["ack_required"])
        if row["ack_required"] and number and self.routes.taken.get(queue):
            service.held.append(queue)
        elif number and row["ack_required"]:
            service.beside.append(queue)
        if row.get("active", True) is False:
            service.standby.append(queue)
        else:
            self.routes.active.setdefault(queue, []).append(process_name(service.name))

    def moved_until(self, later: Broker) -> Set[str]:
        """Returns the names of those that have carried something until a later state."""
        return {name for name, service in self.services.items()
                if service.count != later.services.get(name, service).count}

    def spoken_until(self, later: Broker) -> Set[str]:
        """Returns the names of those that have sent something until a later state, and got nothing, where one that
        looks on has got something: it is likely that they have told it numbers."""
        grown = {name: later.services[name].grown_since(service) for name, service in self.services.items()
                 if name in later.services}
        has_heard = any(self.services[name].looks_on and has_got for name, (_, has_got) in grown.items())
        return {name for name, (has_sent, has_got) in grown.items() if has_heard and has_sent and not has_got}

    def miss(self, why: str) -> None:
        self.warnings += [] if why in self.warnings else [why]
        self.missing = self.missing or why

    @functools.cached_property
    def asked(self) -> Dict[str, Set[str]]:
        """By the name of each that has a message at work, or may have one, from whom that may have come."""
        return {name: self.askers(service) for name, service in self.services.items()
                if service.is_at_work or not service.acknowledges}

    @functools.cached_property
    def doing(self) -> Dict[str, Activity]:
        """What the clients do that run on this machine, by their connections."""
        return activities(self.clients, self.ticking)

    @functools.cached_property
    def readers(self) -> Dict[str, List[Tuple[int, Service]]]:
        """By each queue those that consume it, each with its place among all."""
        readers: Dict[str, List[Tuple[int, Service]]] = {}
        for number, service in enumerate(self.services.values()):
            for queue in dict.fromkeys(service.queues):
                readers.setdefault(queue, []).append((number, service))
        return readers

    @functools.cached_property
    def asking(self) -> Dict[str, List[Service]]:
        """By each connection those at work whose client waits there."""
        asking: Dict[str, List[Service]] = {}
        for service in self.services.values():
            if service.is_at_work:
                asking.setdefault(service.does.connection, []).append(service)
        return asking

    @functools.cached_property
    def of_process(self) -> Dict[int, List[str]]:
        """The connections of each process."""
        rows: Dict[int, List[str]] = {}
        for service in self.services.values():
            rows.setdefault(service.does.process, []).append(service.connection)
        return rows

    @functools.cached_property
    def beginners(self) -> List[str]:
        """The names of those that may begin to publish to a queue."""
        return [name for name, service in self.services.items() if service.may_begin]

    def askers(self, service: Service) -> Set[str]:
        """Returns the names of those from whom a message may have come to a service, also through others."""
        askers: Set[str] = set()
        new = set(service.senders)
        while new:
            askers |= new
            new = {name for asker in new for name in self.services[asker].senders} - askers
        return askers

    @functools.cached_property
    def behind_work(self) -> Set[str]:
        """The names of those that have a message at work, and of those that wait for one of them, also by others, as
        far as the broker has counted who publishes."""
        behind: Set[str] = set()
        new = {name for name, service in self.services.items() if service.is_at_work}
        whom = {name: {*service.senders, *service.may_reply()} for name, service in self.services.items()}
        while new:
            behind |= new
            new = {name for name in whom.keys() - behind if not behind.isdisjoint(whom[name])}
        return behind


def count_of(row: Dict[str, Any]) -> Optional[str]:
    """What a connection has carried in both directions, without heartbeats, with what tells it from a later one. None
    if the state doesn't print it."""
    carried = carried_by(row)
    return None if carried is None else f"{carried[0]} in, {carried[1]} out by {row['pid']}"


def carried_by(row: Dict[str, Any]) -> Optional[Tuple[int, int]]:
    """What a connection has carried from its service, and to it, or None."""
    numbers: List[Any] = [row.get(key) for key in ("recv_oct", "recv_cnt", "send_oct", "send_cnt")]
    if not all(isinstance(number, int) for number in numbers) or row.get("ssl"):
        return None
    return numbers[0] - HEARTBEAT * numbers[1], numbers[2] - HEARTBEAT * numbers[3]
