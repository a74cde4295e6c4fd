"""Which connections to a database a thread or task has in its variables, by the sockets that the kernel knows. They are
asked by code in C alone, of types that are known."""
from __future__ import annotations

import contextlib
import os
import socket

TYPE_CHECKING = False
if TYPE_CHECKING:
    from typing import List
    from .objects import Row, Stack, Thing

CURSORS = {"psycopg2.extensions.cursor", "pymysql.cursors.Cursor"}
CONNECTIONS = {"psycopg2.extensions.connection", "pymysql.connections.Connection",
               "asyncio.selector_events._SelectorSocketTransport"}
# The slots in which those of tasks have what they stand for.
SLOTS = {"asyncpg.pool.PoolConnectionProxy": "_con", "asyncpg.connection.Connection": "_transport"}
MOST = 50  # frames of a stack that are looked at


def sockets_in(frames: Stack) -> Row:
    """What a row has of the connections in the variables of a stack."""
    return {"connections": targets_in(frames)}


def sockets_of_task(chain: Stack) -> Row:
    """The same of a task, and which of them its innermost function has: there it may ask."""
    return {**sockets_in(chain), "asks": targets_in(chain[:1])}


def targets_in(frames: Stack) -> List[str]:
    """The sockets of connections in the variables of a stack, as the kernel calls them."""
    targets: List[str] = []
    for frame, _ in frames[:MOST]:
        for value in list(frame.f_locals.values()):
            with contextlib.suppress(Exception):  # (as of one that is closed)
                number = number_of(value)
                targets += [os.readlink(f"/proc/self/fd/{number}")] if number >= 0 else []
    return list(dict.fromkeys(targets))


def number_of(value: Thing) -> int:
    """The descriptor of a connection, or -1 if a value is none."""
    kind: Thing = type(value)
    name = f"{kind.__module__}.{kind.__name__}"
    if name in CURSORS:
        own = getattr(value, "__dict__", {})
        return number_of(own["connection"] if "connection" in own else kind.connection.__get__(value))
    if name in SLOTS:
        return number_of(getattr(kind, SLOTS[name]).__get__(value))
    if name not in CONNECTIONS:
        return -1
    if name.startswith("psycopg2"):
        return int(kind.fileno(value))
    held = value.__dict__.get("_sock")
    return held.fileno() if type(held) is socket.socket else -1
