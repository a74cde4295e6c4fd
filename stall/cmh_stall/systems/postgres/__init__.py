"""PostgreSQL."""
from __future__ import annotations

from ..descriptor import Assumption, Descriptor

SYSTEM = Descriptor(
    name="postgres",
    called="PostgreSQL",
    target="[CONNINFO [CONSOLE]]",
    manual="""Op Ar CONNINFO Op Ar CONSOLE
A PostgreSQL server, by
.Nm psql ,
as the words for that or its environment say.
The second words are for the console of a
.Nm pgbouncer
before it.""",
    states="what take-postgres prints of a server, two looks in one",
    by="a server, by psql",
    shows="who blocks whom",
    lacks="the role `pg_monitor`",
    stops="nothing is stopped: two statements that only read, of 2 s at most each, ask the server",
    needs={"psql": "postgresql-client"},
    serves=True,
    sites={"backend ": "backend", "prepared transaction ": "prepared transaction"},
    shares="session-limits",
    assumptions={
        "disk": Assumption("the disk answers, and who waits for it then continues",
                           "a file system of a server that is gone"),
    },
)
