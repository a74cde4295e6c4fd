"""The parser for MariaDB and MySQL: what take-mariadb prints of a server, two looks in one text.

A connection is a process here, called USER@DATABASE ID. InnoDB keeps by whom a lock of a row is blocked: by all who
have it, and by those who wait for it too and come first. Who has a metadata lock or one of GET_LOCK is known where the
server shows it. One that sleeps in a transaction waits for its client. Nearly all waits have a limit:
innodb_lock_wait_timeout is 50 s where nobody has set another one.

Two looks show one wait where the number of the query is the same, and the transaction and its wait began at the same
time. Tables are read one after the other in a look, so one alone decides nothing.
"""
from __future__ import annotations

import re
from typing import Any, Dict, Iterable, Iterator, List, Optional, Tuple

from ...core.model import Part, Sign, any_of, unseen, wakers
from ...core.sketch import LIMIT, SYSTEM, Process, Sketch, blocked, garbled, goes_on, premise, rests, unknown
from ...core.snapshots import APART, Reading
from .. import State
from ..base import Parser, Snapshot, one_line
from .text import LINES, MariadbLook, seconds_of, words_in
from ..sessions import SLACK, Lasting, SessionLimits, Row, check_server, check_times, client_words, connections_of, \
    doubt_newcomers, end_of_socket, names_in, with_limits
from ...core.times import in_words

LIMITS, TABLES = "session-limits", "named-tables"  # assumptions
ENDLESS = 100_000_000  # innodb_lock_wait_timeout that stands for no limit
CONNECTION = Lasting("thread", ("user", "host"), numbers=("query_id",))
TRANSACTION = Lasting("transaction", ("of", "started"), ends=("wait_started",))
LOCK = Lasting("held", ("table", "index", "data"))
LOCK_WAIT, SLEEP = "LOCK WAIT", "Sleep"
OF_SERVER = ("Daemon", "Binlog Dump", "Binlog Dump GTID")
USER_LOCK, USER_SLEEP = "User lock", "User sleep"
AT_CLIENT = ("Writing to net", "Reading from net", "Sending to client")
METADATA = re.compile(r"Waiting for (.* lock)")
# Modes of metadata locks that keep those out who only read or change rows, and statements that take such a lock: those
# wait for all who have the table, and others wait for them.
STRONG = re.compile(r"EXCLUSIVE$|NO_WRITE|NO_READ_WRITE|READ_ONLY|FTWRL|BACKUP_WAIT|BACKUP_START|BACKUP_BLOCK")
WEAK = "MDL_INTENTION_EXCLUSIVE"
CHANGES_TABLES = ("alter", "drop", "truncate", "rename", "lock", "create", "optimize", "flush", "repair", "backup")
ENDS_WAIT = re.compile(r"get_lock\s*\(.*,\s*(-?\d{1,9}(?:\.\d{1,6})?)\s*\)", re.I | re.S)
NAMES_LOCK = re.compile(r"get_lock\s*\(\s*('[^']*')", re.I)
NO_PLUGIN = "the server doesn't show who has a metadata lock: its plugin metadata_lock_info isn't there"


class MariadbServer(Snapshot):
    """A look: the names of its connections by their numbers, and its rows."""

    look: MariadbLook
    names: Dict[int, str]
    rows_by_id: Dict[int, Row]


class MariadbParser(Parser):
    NAME, IDLE, MOMENT = "mariadb", "connections", APART
    SNAPSHOT_CLASS = MariadbServer

    def __init__(self) -> None:
        self.limits = SessionLimits()
        self.last = self.later = 0.0  # the time of the last look, and how much later it is than the one at hand
        self.warnings: Dict[str, None] = {}
        self.names: Dict[int, str] = {}

    def read(self, state: State) -> List[Reading]:
        return [Reading(look.path, "server", [look], machine=look.end["machine"], time=look.taken)
                for look in LINES.looks(state.text, state.path, MariadbLook)]

    def begin(self, readings: List[Reading]) -> None:
        """Names the connections, and sees which rows of two looks contradict each other."""
        looks: List[MariadbLook] = [reading.rows[0] for reading in readings]
        check_server(readings[0].path, ((look.head["version"], look.end["machine"], look.end["process"])
                                        for look in looks))
        check_times(readings[0].path, [seconds_of(look.head["look"]) for look in looks],
                    [look.taken[0] for look in looks])
        self.last = max(look.taken[1] for look in looks)
        times = [float(int(seconds_of(look.head["look"]))) for look in looks]  # (those of rows are whole seconds)
        self.names = names_in(looks, "thread", name_of)
        doubt_newcomers(looks, "thread", is_newer)
        CONNECTION.doubt_rows(looks, times, seconds_of)
        owners = odd_owners(looks, times)
        for row in (row for look in looks for row in look.of("thread") if row["thread"] in owners):
            row["odd"] = f"transaction.{owners[row['thread']]}"

    def prepare(self, snapshot: MariadbServer) -> None:
        snapshot.look = snapshot.readings[0].rows[0]
        self.later = self.last - snapshot.look.taken[1]
        snapshot.rows_by_id = {row["thread"]: row for row in snapshot.look.of("thread")}
        snapshot.names = {number: self.names[number] for number in snapshot.rows_by_id}

    def processes(self, snapshot: MariadbServer) -> Iterable[Row]:
        return [row for row in snapshot.look.of("thread") if row.get("command") not in OF_SERVER]

    def process_of(self, subject: Row, snapshot: MariadbServer) -> Process:
        row, name = subject, snapshot.names[subject["thread"]]
        if "odd" in row:
            return garbled(name, f"its row has no {row['odd']} as these have it")
        trx = snapshot.look.transactions.get(row["thread"])
        more = more_of(row, trx, snapshot.look)
        if trx is not None and (trx["state"] == LOCK_WAIT) != (trx["wait_started"] is not None):
            return garbled(name, "its transaction waits by its state or by the start of its wait, not by both")
        if trx is not None and trx["state"] == LOCK_WAIT:
            return self.at_row(name, row, trx, snapshot, more)
        if row["state"] == USER_LOCK:
            return self.at_user_lock(name, row, snapshot, more)
        match = METADATA.fullmatch(row["state"] or "")
        if match:
            return self.at_metadata(name, row, match[1], snapshot, more)
        return self.by_state(name, row, trx, snapshot, more)

    def limit(self, row: Row, setting: str, limit: Any, spent: Optional[int]) -> Part:
        """Returns a limit that breaks off what a connection does, if there is one. One that is over by now isn't in
        force: the session has set another one, which no table shows."""
        if not limit or limit >= ENDLESS:
            return ()
        if spent is None or limit - spent <= -SLACK:
            return (unseen("unshown", f"{setting} was over before, or isn't that of its session"),)
        left = limit - spent - self.later
        name = self.limits.name(f"{setting} of connection {row['thread']}", row["thread"], left)
        return (wakers("expires", [name], premise(LIMIT)),)

    def statement_limit(self, row: Row, look: MariadbLook) -> Part:
        return self.limit(row, "max_statement_time", look.limits.get("max_statement_time"), row["time"])

    # Waits for a lock

    def at_row(self, name: str, row: Row, trx: Row, snapshot: MariadbServer, more: Dict[str, Any]) -> Process:
        """One that waits for a lock of InnoDB, for all by whom it is blocked."""
        look = snapshot.look
        if any(wait["lock"] != trx["lock"] for wait in look.waits_of(trx["transaction"])):
            return garbled(name, "its transaction wants one lock by its row, and another one by its waits", **more)
        parts: List[Part] = []
        for wait in look.waits_of(trx["transaction"]):
            number = look.connections.get(wait["for"])
            their = look.transactions.get(number) if number is not None else None
            if number not in snapshot.names or their is None:
                why = "the transaction that blocks it isn't in the look, or has no connection"
                parts.append((unseen("unshown", why),))
            else:
                is_before = their["lock"] is not None and their["lock"] == wait["theirs"]
                parts.append((wakers("ahead" if is_before else "owns", [snapshot.names[number]]),))
        if not parts:
            return unknown(name, "its lock came while it was read, or isn't shown", **more)
        what = look.told(trx["lock"])
        if not what:
            return garbled(name, "the look doesn't show the lock that it wants", **more)
        more.update(operation="row lock", objects=[*more["objects"], what])
        more["note"] = f"{what}{lasting(trx['waited'])}: {query_of(row)}"
        timeout = look.limits["innodb_lock_wait_timeout"]
        limits = (*self.limit(row, "innodb_lock_wait_timeout", timeout, trx["waited"]),
                  *self.statement_limit(row, look))
        return blocked(name, with_limits(parts, limits), [SYSTEM, premise(LIMITS)], **more)

    def at_user_lock(self, name: str, row: Row, snapshot: MariadbServer, more: Dict[str, Any]) -> Process:
        """One that waits in GET_LOCK for who has the lock of that name, up to the limit that it says."""
        owner = snapshot.names.get(row["user_lock"] or 0)
        match = ENDS_WAIT.search(row["info"] or "")
        limits: Part = (unseen("unshown", "the limit of its GET_LOCK isn't shown"),)
        if match:
            limits = self.limit(row, "the limit of GET_LOCK", max(float(match[1]), 0), row["time"])
        part: Part = (wakers("owns", [owner]),) if owner else (unseen("unshown", "who has its lock isn't shown"),)
        more.update(operation="get_lock", note=f"{lock_of(row)}{lasting(row['time'])}: {query_of(row)}")
        parts = with_limits([part], (*limits, *self.statement_limit(row, snapshot.look)))
        return blocked(name, parts, [SYSTEM, premise(LIMITS)], **more)

    def at_metadata(self, name: str, row: Row, kind: str, snapshot: MariadbServer, more: Dict[str, Any]) -> Process:
        """One that waits for a metadata lock, of a table whose name stands in its statement."""
        look = snapshot.look
        more.update(operation=kind, note=f"{kind}{lasting(row['time'])}: {query_of(row)}")
        limits = (*self.limit(row, "lock_wait_timeout", look.limits["lock_wait_timeout"], row["time"]),
                  *self.statement_limit(row, look))
        if not look.head["metadata_locks"]:
            self.warnings[NO_PLUGIN] = None
            names = likely_holders(row, snapshot)
            part: Part = (wakers("guess", names),) if names else ()
            parts = any_of(*part, unseen("unshown", NO_PLUGIN), *limits)
            return blocked(name, parts, [SYSTEM], reason=NO_PLUGIN, **more)
        parts = metadata_parts(row, kind, snapshot)
        if not parts:
            why = "who has the lock isn't shown"
            return blocked(name, any_of(unseen("unshown", why), *limits), [SYSTEM], reason=why, **more)
        return blocked(name, with_limits(parts, limits), [SYSTEM, premise(LIMITS), premise(TABLES)], **more)

    # Other states

    def by_state(self, name: str, row: Row, trx: Optional[Row], snapshot: MariadbServer,
                 more: Dict[str, Any]) -> Process:
        """Returns one by its command and the state of its thread."""
        command, state, look = row["command"], row["state"] or "", snapshot.look
        if command == SLEEP and trx is not None:
            limits = tuple(group for setting in ("wait_timeout", "idle_transaction_timeout")
                           for group in self.limit(row, setting, look.limits.get(setting), row["time"]))
            why = f"sleeps in a transaction{lasting(row['time'])}; {client_words(end_of_client(row))}"
            more.update(operation="idle in transaction", note=f"next statement; {why.partition(';')[0]}{begun(trx)}"
                        f"{client_of(row)}")
            if not is_wanted(trx, look):
                parts = any_of(unseen("client"), unseen("to-come"))
                return rests(name, "has an open transaction", parts, [SYSTEM], **more)
            parts = with_limits(any_of(unseen("client")), limits)
            return blocked(name, parts, [SYSTEM, premise(LIMITS)], reason=why, **more)
        if command == SLEEP:
            more.update(operation="idle")
            parts = any_of(unseen("client"), unseen("to-come", "its wait_timeout"))
            has = held_by(row["thread"], look)
            why = f"sleeps{lasting(row['time'])}, and has {has[0]}; {client_words(end_of_client(row))}" \
                if has else "has nothing to do"
            return rests(name, why, parts, [SYSTEM], **more)
        if state == USER_SLEEP:
            more.update(operation="timed sleep")
            return goes_on(name, "sleeps", [premise(LIMIT)], Sign.SLEEPS, **more)
        if state.startswith(AT_CLIENT):
            return blocked(name, any_of(unseen("client")), [SYSTEM, premise(LIMITS)], reason="waits for its client",
                           **more)
        if command not in ("Query", "Execute") or state.startswith("Waiting"):
            return unknown(name, f"what ends its wait at {state or command} isn't known", **more)
        more.update(frames=[], objects=[], operation="")  # (it goes from state to state)
        return goes_on(name, "is at work", [SYSTEM], **more)

    def finish(self, sketch: Sketch, snapshots: List[MariadbServer]) -> None:
        """Adds the limits, who serves which connection, and warnings. One through a socket of Unix has no ends here.
        """
        self.limits.add_to(sketch)
        sketch.warnings += list(self.warnings)
        names = {process.name for process in sketch.processes}
        for snapshot in reversed(snapshots):
            sketch.connections.update(connections_of({
                name: [end_of_client(snapshot.rows_by_id[number]) or f"session {name}"]
                for number, name in snapshot.names.items() if name in names}))


def lock_of(row: Row) -> str:
    """Returns the lock of GET_LOCK in words for which a connection waits."""
    names = set(NAMES_LOCK.findall(row["info"] or ""))
    return f"lock {one_line(names.pop(), 40)} of GET_LOCK" if len(names) == 1 else "lock of GET_LOCK"


def held_by(number: int, look: MariadbLook) -> List[str]:
    """Returns in words the locks of a connection for which others wait, but for those of rows."""
    waiting = [row for row in look.of("thread") if "odd" not in row]
    kinds = {match[1].lower() for row in waiting for match in [METADATA.fullmatch(row["state"] or "")] if match}
    return [*(lock_of(row) for row in waiting if row["state"] == USER_LOCK and row["user_lock"] == number),
            *(" of ".join(filter(None, [lock["type"].lower(), lock["name"]])) for lock in look.of("metadata")
              if lock["metadata"] == number and lock["mode"] != WEAK and lock["type"].lower() in kinds)]


def more_of(row: Row, trx: Optional[Row], look: MariadbLook) -> Dict[str, Any]:
    """Returns what is told of a connection beside its wait."""
    count = [str(row["query_id"])]
    count += [str(trx[key]) for key in ("transaction", "started", "wait_started")] if trx else []
    is_here = look.end["machine"] and look.end["process"] and row["tid"]
    is_counted = row["query_id"] is not None or trx is not None
    return {"site": f"connection {row['thread']}", "remedy": f"KILL {row['thread']}",
            "thread": f"{look.end['process']}/{row['tid']}" if is_here else "",
            "frames": [row["user"] or "connection"], "operation": row["state"] or row["command"],
            "objects": count if is_counted else [], "count": " ".join(count) if is_counted else None,
            "note": f"{row['state'] or row['command']}{lasting(row['time'])}{client_of(row)}, "
                    f"{query_of(row)}"}


def lasting(seconds: Optional[int]) -> str:
    """Returns in words for how long something lasts, or nothing where that isn't known."""
    return "" if seconds is None else f" for {in_words(seconds)}"


def begun(trx: Row) -> str:
    """Returns in words when a transaction has begun, or nothing where that isn't known."""
    return "" if trx["age"] is None else f", begun {in_words(trx['age'])} ago"


def renamed_in(before: MariadbLook, look: MariadbLook) -> Iterator[int]:
    """Yields the connections that wait since one time by both looks, in transactions of two numbers."""
    for owner, row in look.transactions.items():
        other = before.transactions.get(owner, row)
        if row["wait_started"] and row["wait_started"] == other["wait_started"]:
            yield from [owner] if row["transaction"] != other["transaction"] else []


def is_newer(row: Row, look: MariadbLook) -> bool:
    """Whether a connection is newer than all of a look, and so is what it does."""
    last = max((other.get("query_id") or 0 for other in look.of("thread")), default=0)
    is_later = not row.get("query_id") or row["query_id"] > last
    return is_later and all(row["thread"] > other["thread"] for other in look.of("thread"))


def name_of(row: Row) -> str:
    if "odd" in row:
        return f"connection {row['thread']}"
    return f"{one_line(row['user'] or 'user', 40)}@{one_line(row['db'] or '', 40)} {row['thread']}"


def end_of_client(row: Row) -> str:
    """Returns the client's end of a connection, or nothing where the server shows none."""
    host, _, port = str(row.get("host") or "").rpartition(":")
    host = "127.0.0.1" if host == "localhost" else host
    return end_of_socket(host, int(port)) if port.isdigit() and len(port) < 6 else ""


def client_of(row: Row) -> str:
    end = end_of_client(row)
    return f", client {end}" if end else ""


def query_of(row: Row) -> str:
    return one_line(str(row["info"] or ""), 80) or "no query"


def is_wanted(trx: Row, look: MariadbLook) -> bool:
    """Whether others may wait for what a transaction has: a row, or a metadata lock."""
    return any(wait["for"] == trx["transaction"] for wait in look.of("wait")) or any(
        "odd" not in row and METADATA.fullmatch(row["state"] or "") for row in look.of("thread"))


# Metadata locks


def takes_strong(row: Row) -> bool:
    """Whether the statement of a connection takes a lock that keeps others out."""
    return (words_in(row.get("info") or "") or [""])[0] in CHANGES_TABLES


def metadata_parts(row: Row, kind: str, snapshot: MariadbServer) -> List[Part]:
    """Returns the parts of a wait for a metadata lock: who has it in a way that keeps this statement out, and who waits
    for it in such a way, and came first. Where the statement may speak of several things that are locked, any of these
    may be the one."""
    things = things_locked(row, kind, snapshot)
    before = [other for other in snapshot.look.of("thread") if is_before(other, row)]
    for (_, name), holders in things.items():
        for other in before:
            if kind != "table metadata lock" or str(name).lower() in words_in(other["info"] or ""):
                holders.setdefault(snapshot.names[other["thread"]], "ahead")
    if len(things) == 1:
        (holders,) = things.values()
        return [(wakers(how, [holder]),) for holder, how in holders.items()]
    names = list(dict.fromkeys(name for holders in things.values() for name in holders))
    why = "which of several it waits for isn't shown"
    return any_of(wakers("listed", names), unseen("unshown", why)) if names else []


def odd_owners(looks: List[MariadbLook], times: List[float]) -> Dict[int, str]:
    """Returns whose transaction or lock two looks contradict each other in, each with in what."""
    owners = {owner: key for *rows, key in TRANSACTION.contradictions(looks, times, seconds_of) for owner in (
        row["of"] for row in rows)}
    odd = {row["held"]: key for _, row, key in LOCK.contradictions(looks, times, seconds_of)}
    owners.update({row["of"]: odd[row["lock"]] for look in looks for row in look.of("transaction")
                   if row["lock"] in odd})
    owners.update((owner, "lock") for look in looks for owner in look.odd_owners())
    owners.update((owner, "transaction") for pair in zip(looks, looks[1:]) for owner in renamed_in(*pair))
    return owners


def things_locked(row: Row, kind: str, snapshot: MariadbServer) -> Dict[Tuple[Any, Any], Dict[str, str]]:
    """Returns what a statement may wait for that is locked, each with who has it in a way that keeps this out."""
    words, is_strong = words_in(row["info"] or ""), takes_strong(row)
    things: Dict[Tuple[Any, Any], Dict[str, str]] = {}
    for lock in snapshot.look.of("metadata"):
        is_named = kind != "table metadata lock" or str(lock["name"]).lower() in words
        is_other = lock["metadata"] != row["thread"] and lock["metadata"] in snapshot.names
        keeps_out = lock["mode"] != WEAK if is_strong else STRONG.search(lock["mode"]) and lock["mode"] != WEAK
        if lock["type"].lower() == kind.lower() and is_named:
            holders = things.setdefault((lock["schema"], lock["name"]), {})
            if is_other and keeps_out:
                holders[snapshot.names[lock["metadata"]]] = "owns"
    return things


def likely_holders(row: Row, snapshot: MariadbServer) -> List[str]:
    """Returns who is likely to keep a statement out that waits for a metadata lock, where the server doesn't show that:
    whose statement takes such a lock that keeps all out, or for one like that also who has a transaction open."""
    rows = [other for other in snapshot.look.of("thread") if other is not row and "odd" not in other]
    return [snapshot.names[other["thread"]] for other in rows if is_before(other, row)
            or takes_strong(row) and other["thread"] in snapshot.look.transactions]


def is_before(other: Row, row: Row) -> bool:
    """Whether another connection waits for a lock of that kind, in a way that keeps others out, and began before."""
    if "odd" in other or other["state"] != row["state"] or not takes_strong(other):
        return False
    return None not in (other["query_id"], row["query_id"]) and other["query_id"] < row["query_id"]
