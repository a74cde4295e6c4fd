"""Which process of a node has which connection of TCP, and who waits there, for a join with whoever has the other end:
another node, a server, or a program as Linux sees it."""
from __future__ import annotations

from typing import Dict, List

from .nodes import Nodes
from .readings import NodeReading
from .text import ErlangBlock

Connections = Dict[str, Dict[str, List[str]]]


def connections_of(snapshot: Nodes) -> Connections:
    """Returns by the ends of each connection, its own and the other, who has it and who waits there. By the same ends
    the other way round it serves whoever has these. Of each node it returns all processes, which may use any port."""
    rows: Connections = {}
    for reading in snapshot.readings:
        if isinstance(reading, NodeReading) and reading.sockets:
            rows[f"node {reading.source}"] = {"inside": snapshot.names(reading.rows) + [
                name for group in snapshot.left_out(reading.source) for name in group.names()]}
            add_ports(reading, snapshot, rows)
    return rows


def add_ports(reading: NodeReading, snapshot: Nodes, rows: Connections) -> None:
    """Adds the connections of a node. Who is in its loop as the owner of one waits for what comes there too."""
    readers: Dict[str, List[ErlangBlock]] = {}
    for block in reading.rows:
        readers.setdefault(port_of(block), []).append(block)
    for port, pid, own, other in (row.groups() for row in reading.sockets):
        owner = snapshot.by_key.get((reading.source, pid))
        if owner is not None:
            waiting = [*readers.get(port, ()), *([owner] if owner.is_loop() else [])]
            names = {"has": [snapshot.name(owner)], "awaits": snapshot.names(waiting)}
            rows.setdefault(f"{own} {other}", {}).update(names)
            rows.setdefault(f"{other} {own}", {})["serves"] = names["has"]


def port_of(block: ErlangBlock) -> str:
    """Returns the port from which a process reads, or nothing."""
    ports = [term for term in block.counter.split() if term.startswith("#Port<")]
    return ports[0] if block.top() == "prim_inet:recv0" and len(ports) == 1 else ""
