"""The state that take-postgres prints: lines of JSON, of two looks at a PostgreSQL server. A look that isn't whole is
refused: it has one line for each row, and the last one counts them."""
from __future__ import annotations

import re
from collections import Counter
from dataclasses import dataclass, field
from functools import cached_property
from typing import Dict, List, Optional, Tuple

from ...core.files import Refusal, shown
from ...core.times import SECONDS, moment, seconds_in
from .pgbouncer import LIMITS as OF_POOLER
from .pgbouncer import MARK, Pooler, pooler_of
from ..sessions import Lines, Row, ServerLook

NONE = type(None)
TIME = re.compile(r"(\d{4}-\d\d-\d\dT\d\d:\d\d:\d\d)(\.\d{1,6})?([+-]\d\d:\d\d)")
NUMBER = re.compile(r"\d{1,12}")
LIMIT = re.compile(r" *\d{1,12} *[a-z]* *")
OF_LIMITS = {**SECONDS, "": SECONDS["ms"]}  # the units that a setting may have, or none
OF_TEXT, OF_TIME, OF_OID = (str, NONE), (TIME, NONE), (NUMBER, NONE)
LOOK = {"look": TIME, "version": NUMBER, "port": (int, NONE), "role": OF_OID, "database": OF_OID, "standby": bool}
# Columns of pg_stat_activity of which nothing is read.
UNREAD = ("backend_start", "backend_xid", "backend_xmin", "client_hostname")
BACKEND = {"backend": int, "pid": int, "datname": OF_TEXT, "datid": OF_OID, "usename": OF_TEXT, "usesysid": OF_OID,
           "application_name": OF_TEXT, "client_addr": OF_TEXT, "client_port": (int, NONE), "backend_type": OF_TEXT,
           "state": OF_TEXT, "wait_event_type": OF_TEXT, "wait_event": OF_TEXT, "xact_start": OF_TIME,
           "query_start": OF_TIME, "state_change": OF_TIME, "query": OF_TEXT, "blocked_by": ([int], NONE),
           "leader_pid?": (int, NONE), "query_id?": (int, NONE), **dict.fromkeys(UNREAD, object)}
LOCK = {"lock": str, "pid": (int, NONE), "granted": bool, "name": OF_TEXT, "relation": OF_OID, "page": (int, NONE),
        "tuple": (int, NONE), "transactionid": OF_OID, "virtualtransaction": OF_TEXT, "virtualxid": OF_TEXT,
        "classid": OF_OID, "objid": OF_OID, "objsubid": (int, NONE), "database": OF_OID, "waitstart?": OF_TIME,
        "locktype": str, "mode": OF_TEXT, "fastpath": bool}
SHAPES: Dict[str, Row] = {
    "look": LOOK, "backend": BACKEND, "lock": LOCK,
    "prepared": {"transaction": NUMBER, "gid": str, "prepared": TIME, "database": OF_TEXT, "owner": OF_TEXT},
    "setting": {"setting": str, "value": OF_TEXT},
    "set": {"set": str, "value": str, "role": NUMBER, "database": NUMBER},
    "end": {"end": int}, "taken": {"taken": [float, float], "machine": str}}
# What tells the rows of a kind from each other.
KEYS = {"backend": ("backend",), "prepared": ("gid",), "setting": ("setting",), "set": ("set", "role", "database")}
LINES = Lines("cmh-postgres ", "lines of take-postgres are expected", SHAPES, "backend", "taken")


def seconds_of(text: str, where: str = "") -> float:
    """Returns a time in seconds. Raises Refusal if a text is none."""
    match = TIME.fullmatch(text)
    seconds = moment(match[1] + match[3]) if match else None  # (of a part of a second Python 3.8 takes few lengths)
    if match is None or seconds is None:
        raise Refusal(f"{where}: {shown(text)} is no time")
    return seconds + float(match[2] or 0)


@dataclass(eq=False)
class PostgresLook(ServerLook):
    """One look, with when it was taken, and where if the processes of the server are of that machine."""

    machine: str = ""
    taken: Optional[Tuple[float, float]] = None
    console: List[str] = field(default_factory=list)  # lines of pgbouncer's, if it was asked
    pooler: Optional[Pooler] = None
    lacks: List[str] = field(default_factory=list)  # columns that these should have

    @cached_property
    def time(self) -> float:
        return seconds_of(self.rows["look"][0]["look"])

    def takes(self, line: str) -> bool:
        is_of_pooler = line.startswith(MARK)
        self.console += [line] if is_of_pooler else []
        return is_of_pooler

    def add(self, kind: str, row: Row, where: str) -> None:
        for value in row.values():
            if isinstance(value, str) and TIME.fullmatch(value):
                seconds_of(value, where)
        super().add(kind, row, where)

    def check(self) -> None:
        ends, taken = self.of("end"), self.of("taken")
        number = sum(map(len, self.rows.values())) - len(ends) - len(taken)
        self.check_count(len(ends) == 1 and ends[0]["end"] == number)
        self.check_once(KEYS)
        odd = next((row for row in self.of("backend") if row["pid"] != row["backend"]), None)
        if odd is not None:
            raise Refusal(f"{shown(self.path)}: a row has two numbers of a backend, {odd['pid']} and {odd['backend']}")
        if any(row["lock"] != row["locktype"] for row in self.of("lock")):
            raise Refusal(f"{shown(self.path)}: a row has two kinds of a lock")
        if self.console and taken:  # (without its time a look is cut off there)
            self.pooler, self.lacks = pooler_of(self.console, shown(self.path))
            self.pooler.find_clients(self.of("backend"))
        if taken:
            self.taken, self.machine = (taken[0]["taken"][0], taken[0]["taken"][1]), taken[0]["machine"]

    @cached_property
    def waited_for(self) -> Dict[int, Row]:
        """The lock that each backend waits for, by its number. One that seems to wait for two waits for none here."""
        rows = [row for row in self.of("lock") if row["granted"] is False and row["pid"] is not None]
        counts = Counter(row["pid"] for row in rows)
        return {row["pid"]: row for row in rows if counts[row["pid"]] == 1}

    def limit(self, name: str, backend: Row) -> Optional[float]:
        """Returns a limit that is in force for a backend as far as settings say, in seconds, 0 for none, or None where
        that isn't known. What is set for a role in a database counts before what is set for the role, and so on. A
        limit of pgbouncer's is in force for those that it has, alone."""
        if name in OF_POOLER:
            pooler = self.pooler
            return pooler.limit(name) if pooler is not None and backend["backend"] in pooler.clients else None
        here = backend["usesysid"], backend["datid"]
        value = self.set_for(name, *here)
        own = self.set_for(name, self.head["role"], self.head["database"])
        if value is None and own is None:  # (else the value of all is hidden by that of the role that looks)
            value = next((str(row["value"]) for row in self.of("setting") if row["setting"] == name), None)
        return seconds_in(value.replace(" ", ""), OF_LIMITS) if value is not None and LIMIT.fullmatch(value) else None

    def has_setting(self, name: str) -> bool:
        """Whether this version of the server has a limit of that name."""
        return any(row["setting"] == name for row in self.of("setting"))

    def set_for(self, name: str, role: Optional[str], database: Optional[str]) -> Optional[str]:
        rows = {(row["role"], row["database"]): str(row["value"]) for row in self.of("set") if row["set"] == name}
        keys = ((role, database), (role, "0"), ("0", database), ("0", "0"))
        return next((rows[key] for key in keys if key in rows), None)
