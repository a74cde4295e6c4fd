"""What the console of pgbouncer says, as take-postgres prints it behind a look at a server: which client has which
session of the server, by the link of its two connections, and who waits for a session of a pool.

A pool is full where it has as many sessions as it may have, and a client has each of them: who waits goes on then once
one of these is given back. A console that shows less than is needed shows nobody.
"""
from __future__ import annotations

import csv
import re
from typing import Any, Dict, Iterable, List, Optional, Tuple

from ...core.files import Refusal, shown
from ...core.model import Part, unseen, wakers
from ...core.sketch import LIMIT, premise
from ..sessions import SLACK, SessionLimits, end_of_socket

Row = Dict[str, str]
MARK = "cmh-pgbouncer "
EXPECTED = "what the console of pgbouncer prints is expected"
# The columns of each of its tables that are needed here, in the order in which they are asked.
NEEDED = {"config": ("key", "value"),
          "clients": ("user", "database", "state", "addr", "port", "request_time", "wait", "wait_us", "ptr", "link"),
          "servers": ("user", "database", "addr", "local_addr", "local_port", "ptr", "link", "remote_pid"),
          "pools": ("database", "user", "sv_active"),
          "databases": ("name", "pool_size", "reserve_pool", "paused", "disabled"), "end": ()}
# What each row of a table has alone.
KEYS = {"config": ("key",), "clients": ("ptr",), "servers": ("ptr",), "pools": ("database", "user"),
        "databases": ("name",)}
NUMBERS = ("port", "local_port", "wait", "wait_us", "pool_size", "reserve_pool")
NUMBER = re.compile(r"\d{1,12}")
LIMITS = ("query_timeout", "idle_transaction_timeout")  # of a session that a client has
OF_WAIT = ("query_wait_timeout", "query_timeout")  # of a client that waits for one
SECONDS = re.compile(r"\d{1,9}(\.\d{1,6})?")
TIME = re.compile(r"\d{4}-\d\d-\d\d \d\d:\d\d:\d\d (?:[A-Z]{3,5}|[+-]\d\d(?:\d\d)?)")  # (with its zone)
CONSOLE = "pgbouncer"  # the database of those who ask the console
UNIX = "unix"
NOT_FULL = "pgbouncer may give it a session that no client has: its pool isn't full, is paused, or is read in part"


class Pooler:
    """The tables of one look at a console, and the session that each client has, by its number."""

    def __init__(self, tables: Dict[str, List[Row]]) -> None:
        self.tables = tables
        self.clients: Dict[int, Row] = {}

    def find_clients(self, backends: Iterable[Dict[str, Any]]) -> None:
        """Finds the clients of sessions, and puts their ends in place of the ends that pgbouncer has of these."""
        linked = {row["ptr"]: row for row in self.tables["clients"] if row["link"]}
        servers = {row["remote_pid"]: row for row in self.tables["servers"]}
        for backend in backends:
            server = servers.get(str(backend["backend"]))
            client = linked.get(server["link"]) if server is not None and is_of(server, backend) else None
            if server is not None and client is not None and client["link"] == server["ptr"]:
                self.clients[backend["backend"]] = client
                address, port = (None, None) if client["addr"] == UNIX else (client["addr"], int(client["port"]))
                backend.update(client_addr=address, client_port=port)

    def waiting(self) -> List[Row]:
        return [row for row in self.tables["clients"] if row["state"] == "waiting"]

    def sessions_for(self, client: Row) -> Tuple[List[int], bool]:
        """Returns the sessions of the pool for which a client waits that a client has, and whether it is full."""
        base: Row = next((row for row in self.tables["databases"] if row["name"] == client["database"]), {})
        user = base.get("force_user") or client["user"]
        pids = [pid for pid, row in self.clients.items() if (row["database"], row["user"]) == (
            client["database"], client["user"])]
        servers, pools = ([row for row in self.tables[name] if (row["database"], row["user"]) == (
            client["database"], user)] for name in ("servers", "pools"))
        size = int(base["pool_size"]) + int(base["reserve_pool"]) if base else -1
        is_open = (base.get("paused"), base.get("disabled")) == ("0", "0")
        return pids, is_open and len(pids) == len(servers) == size and [row["sv_active"] for row in pools] == [
            str(size)]

    def part_of(self, client: Row, names: Dict[int, str]) -> Part:
        """Returns who may end the wait of a client, of sessions that are called so."""
        pids, is_full = self.sessions_for(client)
        having = (wakers("owns" if is_full else "listed", [names[pid] for pid in pids]),) if pids else ()
        return having if is_full else (*having, unseen("unshown", NOT_FULL))

    def limits_of(self, client: Row, name: str, known: SessionLimits, later: float) -> Part:
        """Returns what may break off the wait of a client, which is called so, some seconds later than this look."""
        names: List[str] = []
        part: Part = ()
        for setting in OF_WAIT:
            limit = self.limit(setting)
            left = (limit or 0.0) - seconds_for(client) - later
            if limit is None or limit and left <= -SLACK:
                part += (unseen("unshown", f"{setting} was over before, or isn't that of its connection"),)
            elif limit:
                names.append(known.name(f"{setting} of {name}", int(client["port"]), left))
        return ((wakers("expires", names, premise(LIMIT)),) if names else ()) + part

    def limit(self, name: str) -> Optional[float]:
        """Returns a limit in force in seconds, 0 for none, or None where it isn't shown."""
        value = next((row["value"] for row in self.tables["config"] if row["key"] == name), "")
        return float(value) if SECONDS.fullmatch(value) else None


def is_of(server: Row, backend: Dict[str, Any]) -> bool:
    """Whether a connection of pgbouncer to a server is that of a backend: by its number, and by its end too."""
    if "odd" in backend:
        return False
    end = end_of_socket(backend["client_addr"], backend["client_port"])
    return end == end_of_socket(server["local_addr"], int(server["local_port"])) if end else server["addr"] == UNIX


def end_of(client: Row) -> str:
    return "" if client["addr"] == UNIX else end_of_socket(client["addr"], int(client["port"]))


def seconds_for(client: Row) -> float:
    """Returns how long a client has waited."""
    return int(client["wait"]) + int(client["wait_us"]) / 1e6


def pooler_of(lines: List[str], where: str) -> Tuple[Pooler, List[str]]:
    """Returns what a console has printed, and which of the columns that are needed it lacks. Raises Refusal if that
    isn't whole."""
    tables: Dict[str, List[List[str]]] = {}
    for row in rows_of(lines, where):
        if len(row) == 1 and row[0].startswith("# ") and row[0][2:] not in tables:
            tables[row[0][2:]] = []
        elif tables:
            tables[[*tables][-1]].append(row)
    if [*tables] != [*NEEDED] or not all(len(row) == len(table[0]) for table in tables.values() for row in table):
        raise Refusal(f"{where}: {EXPECTED}, and it isn't whole")
    lacks = [f"{name}.{key}" for name, keys in NEEDED.items() for key in keys if key not in (tables[name] or [[]])[0]]
    made = {name: [] if lacks else [dict(zip(table[0], row)) for row in table[1:]] for name, table in tables.items()}
    check(made, where)
    return Pooler(made), lacks


def check(tables: Dict[str, List[Row]], where: str) -> None:
    """Raises Refusal if a number in a table is none, or a row stands twice."""
    for key, value in (item for rows in tables.values() for row in rows for item in row.items()):
        if key in NUMBERS and not NUMBER.fullmatch(value):
            raise Refusal(f"{where}: {EXPECTED}, and {shown(value)} is no number for {key}")
    for name, keys in KEYS.items():
        if len({tuple(row[key] for key in keys) for row in tables[name]}) != len(tables[name]):
            raise Refusal(f"{where}: a row of {name} stands twice in what the console of pgbouncer has printed")
    times = [row["request_time"] for row in tables["clients"]]
    odd = next((time for time in times if not TIME.fullmatch(time)), None)
    if odd is not None:
        raise Refusal(f"{where}: {EXPECTED}, and {shown(odd)} is no time")
    last = max((row["request_time"] for row in tables["clients"] if row["database"] == CONSOLE), default="")
    late = next((time for time in times if time > last and time.split()[2:] == last.split()[2:]), None)
    if late is not None:
        raise Refusal(f"{where}: a client has asked at {shown(late)}, later than whoever asked the console")


def rows_of(lines: List[str], where: str) -> List[List[str]]:
    """Returns the rows of tables in CSV, in which a value may have lines."""
    try:
        return list(csv.reader((f"{line[len(MARK):]}\n" for line in lines), strict=True))
    except csv.Error as error:
        raise Refusal(f"{where}: {EXPECTED} ({shown(str(error))})") from error
