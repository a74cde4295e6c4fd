"""Who alone may send something to a client of RabbitMQ that does nothing before: its wait at the connection is its only
thread's, without a limit, by what the kernel shows. That is any other service, and whoever may still publish to a queue
that has a name.
"""
from __future__ import annotations

from typing import Any, Dict, List, Optional

from ...core.model import Wakers, wakers
from ...core.sketch import premise
from .routes import EXCHANGE, OF_THE_BROKER, STANDARD, Routes

Row = Dict[str, Any]

ALONE, NEWCOMERS, PROMPT, HANDLES = "client-alone", "newcomers", "prompt", "handles"
NAMED_BY_BROKER = "amq.gen-"  # how the name of a queue begins that its service hasn't named
HOST = "/"  # the virtual host whose queues are listed
RUNNING, STREAM = "running", "stream"
# Plugins that publish nothing, and take no connections of other kinds.
PLAIN = ("accept", "amqp10_common", "amqp_client", "cowboy", "cowlib", "gun", "prometheus", "rabbitmq_management",
         "rabbitmq_management_agent", "rabbitmq_prometheus", "rabbitmq_web_dispatch")


class BrokerServer:
    """What a state shows of the broker itself, and of its connections and channels by their numbers."""

    def __init__(self, raw: Dict[str, Any], routes: Routes) -> None:
        self.raw, self.routes = raw, routes
        told: Row = raw["server"]["value"] if raw["server"] else {}
        self.plugins: Optional[List[str]] = told.get("plugins")
        self.connections: Dict[str, Row] = {row["pid"]: row for row in told.get("connections", ())}
        self.unconfirmed: Dict[str, int] = {row["pid"]: row["messages_unconfirmed"] for row in told.get("channels", ())}
        self.channels: Dict[str, Row] = {row["pid"]: row for row in raw["list_channels"]}
        self.acts = self.acts_later()

    def acts_later(self) -> bool:
        """Whether the broker may send a message by itself later on, or that isn't known."""
        raw, routes = self.raw, self.routes
        states = [row.get("state") for row in raw["list_connections"] if isinstance(row, dict)]
        has_some = [name for name in routes.settings if routes.ready.get(name) != 0]
        return self.plugins is None or not {*self.plugins} <= {*PLAIN} or any(state != RUNNING for state in states) \
            or any(kind not in STANDARD for kind in routes.kinds.values()) \
            or any(source.startswith(OF_THE_BROKER) for bindings in routes.bound.values() for source, _ in bindings) \
            or any(routes.settings[name].get(EXCHANGE) is not None for name in has_some) \
            or any(settings.get("queue-type") == STREAM for settings in routes.settings.values())

    def is_silent(self, connections: List[str]) -> bool:
        """Whether nothing is sent on connections but messages, no heartbeat and no confirm, and none is closed as its
        client sends no heartbeat."""
        rows = [self.connections.get(channel, {}) for channel in connections]
        channels = [channel["pid"] for channel in self.channels.values() if channel["connection"] in connections]
        return all(row.get("timeout") == 0 and row.get("vhost") == HOST for row in rows) \
            and all(self.unconfirmed.get(channel) == 0 for channel in channels)

    def consumers(self, connection: str) -> List[Row]:
        """Returns the consumers of a connection that get a message if there is one."""
        rows = [row for row in self.raw["list_consumers"]
                if self.channels.get(row["channel_pid"], {}).get("connection") == connection]
        return [row for row in rows if not self.is_full(row, rows)]

    def is_full(self, row: Row, rows: List[Row]) -> bool:
        """Whether a consumer, the only one of its channel, has as many messages as it may have."""
        most, number = row.get("prefetch_count"), self.channels[row["channel_pid"]]["messages_unacknowledged"]
        is_only = sum(other["channel_pid"] == row["channel_pid"] for other in rows) == 1
        return isinstance(most, int) and is_only and row["ack_required"] and 0 < most <= number

    def may_send_at_once(self, connection: str) -> bool:
        """Whether a message may be about to come on a connection."""
        return any(self.routes.ready.get(str(row["queue_name"])) != 0 for row in self.consumers(connection))

    def is_open(self, connection: str) -> bool:
        """Whether anybody may publish to a queue of which a connection gets messages."""
        queues = [str(row["queue_name"]) for row in self.consumers(connection)]
        return not all(queue.startswith(NAMED_BY_BROKER) and self.routes.is_by_name(queue) for queue in queues)


def all_who_may_end(server: BrokerServer, connections: List[str], others: List[str], anybody: str) -> List[Wakers]:
    """Returns all who may end the wait of a client at the first of its connections: others, and where its queues are
    open to anybody who stands for these. It is nothing where that isn't known."""
    if server.acts or not server.is_silent(connections) or server.may_send_at_once(connections[0]):
        return []
    because = [premise(name) for name in (ALONE, NEWCOMERS, PROMPT, HANDLES)]
    to_come = [wakers("to-come", [anybody], *because)] if server.is_open(connections[0]) else []
    return [wakers("reaches", others, *because), *to_come]
