"""MariaDB and MySQL."""
from __future__ import annotations

from ..descriptor import Assumption, Descriptor

SYSTEM = Descriptor(
    name="mariadb",
    called="MariaDB, MySQL",
    target="[HOST]",
    manual="""Oo Oo Ar USER Ns @ Oc Ns Ar HOST Ns Oo : Ns Ar PORT Oc Oc
A MariaDB server, by
.Nm mariadb
or
.Nm mysql .
A path in place of the host is that of a socket.""",
    states="what take-mariadb prints of a server, two looks in one",
    by="a server, by mariadb",
    shows="locks of rows and tables",
    lacks="the right `PROCESS`",
    stops="nothing is stopped: two statements that only read, of 2 s at most each, ask the server",
    needs={"mariadb": "mariadb-client"},
    short="MariaDB",
    serves=True,
    sites={"connection ": "connection"},
    shares="session-limits",
    assumptions={
        "named-tables": Assumption(
            "a statement waits for the metadata lock of a table whose name stands in it",
            "a view, a trigger or a foreign key that takes another table's"),
    },
)
