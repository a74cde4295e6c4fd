"""What single rows of PostgreSQL and pgbouncer say: names, keys, notes and times of sessions, clients and locks."""
from __future__ import annotations

from typing import Any, Dict, List, Optional, Set, Tuple

from ...core.model import Part, all_of, any_of, unseen, wakers
from ...core.sketch import SYSTEM, Process, blocked
from ...core.times import in_words
from ..base import one_line
from ..sessions import Row, end_of_socket
from .pgbouncer import end_of
from .pgbouncer import Row as Client
from .text import PostgresLook, seconds_of

CLIENT = "client backend"
IDLE, IN_TRANSACTION, ACTIVE = "idle", ("idle in transaction", "idle in transaction (aborted)"), \
    ("active", "fastpath function call")
OF_ALL = {"postgres", "template1"}  # databases of which one asks for those of all
WRAPAROUND = "(to prevent wraparound)"
WORKER, AUTOVACUUM = "parallel worker", "autovacuum worker"
TOLD = {"relation": "relation {name}", "tuple": "row ({page},{tuple}) of {name}", "transactionid":
        "transaction {transactionid}", "virtualxid": "virtual transaction {virtualxid}", "extend":
        "extension of {name}", "page": "page {page} of {name}", "advisory": "advisory lock {classid}, {objid}"}


def has_begun_since(row: Row, look: PostgresLook) -> bool:
    """Whether a backend may have begun after a look."""
    start = row.get("backend_start")
    return not isinstance(start, str) or seconds_of(start) >= look.time


def apart_in(look: PostgresLook) -> Set[int]:
    """Returns the backends of other databases that neither block one of the database that was asked, directly or not,
    nor are blocked by one, and aren't of a client that it has too. Of a database for all there are none."""
    rows = [row for row in look.of("backend") if "odd" not in row]
    mine = [row for row in rows if row["datid"] == look.head["database"]]
    clients = {client_of(row) for row in mine}
    near = {row["backend"] for row in rows if row["datname"] is None or client_of(row) in clients}
    ties = [{row["backend"], *(row["blocked_by"] or ())} for row in rows if row["blocked_by"]]
    while True:
        new = set().union(*(tie for tie in ties if not near.isdisjoint(tie))) - near
        if not new:
            break
        near |= new
    is_of_all = not mine or mine[0]["datname"] in OF_ALL
    return set() if is_of_all else {row["backend"] for row in rows} - near


def client_of(row: Row) -> Tuple[Any, ...]:
    return row["application_name"], row["usename"], row["client_addr"]


def is_of_server(row: Row) -> bool:
    """Whether a backend looks after the server itself, and has none of its locks to wait for. Who sends what is written
    to a standby is waited for."""
    return "odd" not in row and row["datname"] is None and row["backend_type"] != "walsender" and not row["blocked_by"]


def end_of_client(row: Row) -> str:
    return end_of_socket(row["client_addr"], row["client_port"])


def keys_of(row: Row, look: PostgresLook) -> List[str]:
    """Returns what tells the connection of a backend from others: the end of its client, and its own process where that
    is of the machine on which the state was taken."""
    end = end_of_client(row)
    return [*([end] if end else []), *([f"process {row['backend']} of {look.machine}"] if look.machine else [])]


def waiting_in(look: PostgresLook) -> List[Client]:
    """Returns the clients that wait for a session of a pool."""
    return look.pooler.waiting() if look.pooler is not None else []


def key_of_client(row: Client) -> Tuple[str, str]:
    """Returns what tells a client from others as long as it is connected."""
    return row["ptr"], row.get("connect_time", "")


def first_clients(looks: List[PostgresLook]) -> Dict[Tuple[str, str], Client]:
    return {key_of_client(row): row for look in reversed(looks) for row in waiting_in(look)}


def name_of_client(row: Client) -> str:
    """Returns what a client is called that has no session: as that would be, with its end of its connection."""
    who = one_line(row.get("application_name") or row["user"], 40)
    return f"{who}@{one_line(row['database'], 40)} {end_of(row) or row['ptr']}"


def name_of(row: Row) -> str:
    """Returns what a backend is called: by its application and database, or by its kind where it is of no client."""
    if "odd" in row or row["backend_type"] not in (None, CLIENT):
        return f"{row.get('backend_type') or 'backend'} {row['backend']}"
    who = one_line(str(row["application_name"] or row["usename"] or "client"), 40)
    return f"{who}@{one_line(str(row['datname'] or ''), 40)} {row['backend']}"


def count_of(row: Row) -> str:
    """Returns what is the same as long as a backend is at one wait: when its query, its transaction and its state
    began, and which query it is."""
    return " ".join(str(row.get(key)) for key in ("query_start", "xact_start", "state_change", "query_id"))


def query_of(row: Row) -> str:
    return one_line(str(row["query"] or ""), 80) or "no query"


def note_of(row: Row, look: PostgresLook) -> str:
    """Returns what a backend does, for people: its state, since when, its query and its client."""
    start = row["state_change"] if row["state"] in IN_TRANSACTION else row["query_start"]
    end = end_of_client(row)
    words = [f"{'next statement; ' if row['state'] in IN_TRANSACTION else ''}"
             f"{row['state'] or row['backend_type'] or 'hidden'}{since(start, look)}",
             f"transaction{since(row['xact_start'], look)}" if row["xact_start"] else "",
             f"client {end}" if end else "",
             f"{'last ' if row['state'] in IN_TRANSACTION else ''}{query_of(row)}"]
    return ", ".join(filter(None, words))


def since(start: Optional[str], look: PostgresLook) -> str:
    """Returns for how long something has lasted, in words."""
    return f" for {in_words(max(look.time - seconds_of(start), 0))}" if start else ""


def key_of(lock: Row) -> Tuple[object, ...]:
    """Returns what tells the thing that is locked from others."""
    keys = ("lock", "database", "relation", "page", "tuple", "virtualxid", "transactionid", "classid", "objid",
            "objsubid")
    return tuple(lock.get(key) for key in keys)


def told(lock: Row, pid: int, look: PostgresLook) -> str:
    """Returns a lock in words. Who waits for the transaction that has changed a row has that row's own lock besides,
    and so tells which it is."""
    if lock["lock"] == "transactionid":
        rows = [row for row in look.of("lock")
                if row["lock"] == "tuple" and row["pid"] == pid and row["granted"] is True]
        if len(rows) == 1:
            return told(rows[0], pid, look)
    values = {**lock, "name": lock["name"] or f"relation {lock['relation']} of another database"}
    return TOLD.get(lock["lock"], "{lock}").format(**values)


def is_cancelled(row: Optional[Row]) -> bool:
    """Whether a backend is an autovacuum worker that ends where it blocks others."""
    return row is not None and "odd" not in row and row["backend_type"] == AUTOVACUUM \
        and WRAPAROUND not in str(row["query"])


def prepared_name(row: Row) -> str:
    return f"prepared {one_line(row['gid'], 80)}"


def prepared_one(row: Row, look: PostgresLook) -> Process:
    """A prepared transaction, which somebody has to commit or roll back."""
    why = f"prepared{since(row['prepared'], look)}; whoever prepared it commits it, or rolls it back"
    text = row["gid"].replace("'", "''")
    return blocked(prepared_name(row), any_of(unseen("outside", why)), [SYSTEM], reason=why, note=why,
                   site=f"prepared transaction {one_line(row['gid'], 80)}",
                   frames=["prepared"], operation="prepared", objects=[row["gid"], row["prepared"]],
                   count=row["prepared"], remedy=f"rollback prepared '{text}'")


def prepared_parts(lock: Row, look: PostgresLook, number: int) -> List[Part]:
    """Returns the parts of a wait for prepared transactions, of which the server says how many block it, and not which:
    those that have the very lock, or else any."""
    rows, locks = look.of("prepared"), [row for row in look.of("lock") if row["pid"] is None]
    own = {row["virtualtransaction"]: row["transactionid"] for row in locks if row["lock"] == "transactionid"}
    held = {own.get(row["virtualtransaction"]) for row in locks if key_of(row) == key_of(lock)}
    names = [prepared_name(row) for row in rows if row["transaction"] in held]
    if names and len(names) == number:
        return all_of(names, "owns")
    return [(wakers("listed", names or list(map(prepared_name, rows))),
             unseen("unshown", "which prepared transaction blocks it isn't shown"))]
