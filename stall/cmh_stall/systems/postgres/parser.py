"""The parser for PostgreSQL: what take-postgres prints of a server, two looks in one text.

A backend is a process here, called APPLICATION@DATABASE PID, and so is a prepared transaction. The server keeps by whom
a lock is blocked: by holders, and by those who wait for it too and come first. All of these have to let it go. One
that is idle in a transaction waits for its client. The server's own detector of deadlocks looks once into each wait,
after deadlock_timeout, so one that is yet to come may end a wait, and so may the limits in force.

Two looks show one wait where its query, its transaction and its last change of state began at the same time. Views are
read one after the other in a look, so one alone decides nothing.
"""
from __future__ import annotations

from typing import Any, Dict, Iterable, List, Optional, Set, Tuple

from ...core.files import Refusal, shown
from ...core.model import COMES, Part, Sign, all_of, any_of, unseen, wakers
from ...core.sketch import LIMIT, SYSTEM, Process, Sketch, blocked, garbled, goes_on, premise, rests, unknown
from ...core.snapshots import APART, Reading
from .. import State
from ...core.times import in_words
from ..base import Parser, Snapshot
from ..sessions import (SLACK, Lasting, Row, SessionLimits, check_server, check_times, client_words, connections_of,
                        doubt_newcomers, names_in, with_limits)
from .pgbouncer import end_of, seconds_for
from .pgbouncer import Row as Client
from .rows import (ACTIVE, CLIENT, IDLE, IN_TRANSACTION, WORKER, apart_in, count_of, end_of_client, first_clients,
                   has_begun_since, is_cancelled, is_of_server, key_of, key_of_client, keys_of, name_of, name_of_client,
                   note_of, prepared_one, prepared_parts, query_of, since, told, waiting_in)
from .text import LINES, PostgresLook, seconds_of

DETECTOR = "deadlock detector"
LIMITS, DISK = "session-limits", "disk"  # assumptions
BACKEND = Lasting("backend", ("datid", "datname", "usesysid", "usename", "backend_type", "backend_start"),
                  ("query_start", "state_change"), ("xact_start",), (), ("application_name", "query", "state"))
OF_SERVER = ("version", "port", "role", "database")  # what tells a server, and who looks at it, from others
HIDDEN = "this role may not see what it does: grant pg_monitor to it"
LACKS = "the console of pgbouncer shows no {}, so nobody is seen through it"
OTHER_BASES = "backends of other databases are left out, {} in all: dbname=postgres shows those of all"
# Wait events of type IPC at which a leader waits for its workers, and a worker for its leader.
FOR_WORKERS = ("ExecuteGather", "MessageQueueReceive", "ParallelFinish", "HashBuildHashInner", "BgWorkerShutdown",
               "ParallelCreateIndexScan", "ParallelBitmapScan")
FOR_LEADER = ("MessageQueueSend", "MessageQueueInternal")
STANDBY = "SyncRep"


class PostgresServer(Snapshot):
    """A look: the names of its backends by their numbers, its rows, and who has what others wait for."""

    look: PostgresLook
    names: Dict[int, str]
    rows_by_pid: Dict[int, Row]
    wanted: Dict[int, str]  # what others want of each backend: which lock, or nothing where it is a session of a pool
    pooled: Set[int]
    apart: Set[int]  # those of other databases that have nothing to do with this one


class PostgresParser(Parser):
    NAME, IDLE, MOMENT = "postgres", "sessions", APART
    SNAPSHOT_CLASS = PostgresServer

    def __init__(self) -> None:
        self.limits = SessionLimits()
        self.lasted: Dict[Tuple[int, str], float] = {}  # by backends and counts, how long a wait has lasted at least
        self.last = 0.0  # the time of the last look
        self.names: Dict[int, str] = {}
        self.told: Dict[Tuple[int, Tuple[object, ...]], str] = {}  # the lock that a backend waits for, in all looks
        self.clients: Dict[Tuple[str, str], Client] = {}  # those of pgbouncer, as in the first look that shows one
        self.first = 0.0, 0.0  # when the first one was taken

    def read(self, state: State) -> List[Reading]:
        return [Reading(look.path, "server", [look], machine=look.machine, time=look.taken)
                for look in LINES.looks(state.text, state.path, PostgresLook)]

    def begin(self, readings: List[Reading]) -> None:
        """Names the backends, and sees which rows of two looks contradict each other, and how long each wait has lasted
        in the last look that shows it."""
        looks: List[PostgresLook] = [reading.rows[0] for reading in readings]
        check_server(readings[0].path, ((*map(look.head.get, OF_SERVER), look.machine) for look in looks))
        timed = [look for look in looks if look.taken is not None]
        check_times(readings[0].path, [look.time for look in timed], [look.taken[0] for look in timed if look.taken])
        if len({(look.pooler is None, *look.lacks) for look in looks}) > 1:
            raise Refusal(f"{shown(readings[0].path)}: pgbouncer shows more in one look than in another: take them "
                          "again")
        first: Dict[Tuple[int, str], float] = {}
        self.last = max(look.time for look in looks)
        self.first = min(look.taken or (0.0, 0.0) for look in looks)
        self.names = names_in(looks, "backend", name_of)
        doubt_newcomers(looks, "backend", has_begun_since)
        BACKEND.doubt_rows(looks, [look.time for look in looks], seconds_of)
        self.clients = first_clients(looks)
        for look in looks:
            for row in look.of("backend"):
                if "odd" not in row and row["blocked_by"]:
                    key = row["backend"], count_of(row)
                    start = (look.waited_for.get(row["backend"]) or {}).get("waitstart")
                    begun = seconds_of(start) if start else first.setdefault(key, look.time)
                    self.lasted[key] = max(self.lasted.get(key, 0.0), look.time - begun)

    def prepare(self, snapshot: PostgresServer) -> None:
        snapshot.look = snapshot.readings[0].rows[0]
        snapshot.rows_by_pid = {row["backend"]: row for row in snapshot.look.of("backend")}
        snapshot.names = {pid: self.names[pid] for pid in snapshot.rows_by_pid}
        pooler, locks = snapshot.look.pooler, snapshot.look.waited_for
        snapshot.pooled = set() if pooler is None else {
            pid for row in pooler.waiting() for pid in pooler.sessions_for(row)[0]}
        snapshot.wanted = dict.fromkeys(snapshot.pooled, "")
        for row in snapshot.look.of("backend"):
            lock = locks.get(row["backend"])
            what = told(lock, row["backend"], snapshot.look) if lock is not None else "a lock that others want"
            snapshot.wanted.update(dict.fromkeys((row["blocked_by"] or ()) if "odd" not in row else (), what))
        snapshot.apart = apart_in(snapshot.look)

    def processes(self, snapshot: PostgresServer) -> Iterable[Tuple[str, Row]]:
        return [*(("backend", row) for row in snapshot.look.of("backend") if row["backend"] not in snapshot.apart
                  and (row["backend"] in snapshot.wanted or not is_of_server(row))),
                *(("prepared", row) for row in snapshot.look.of("prepared")),
                *(("client", row) for row in waiting_in(snapshot.look))]

    def process_of(self, subject: Tuple[str, Row], snapshot: PostgresServer) -> Process:
        kind, row = subject
        if kind == "prepared":
            return prepared_one(row, snapshot.look)
        if kind == "client":
            return self.at_pool(row, snapshot)
        name = snapshot.names[row["backend"]]
        if "odd" in row:
            return garbled(name, f"its row has no {row['odd']} as these have it")
        more = self.more_of(row, snapshot)
        if row["backend_type"] == CLIENT and row["state"] in (*ACTIVE, *IN_TRANSACTION) and row["xact_start"] is None:
            return garbled(name, f"it is {row['state']}, and has no transaction", **more)
        if row["backend_type"] == CLIENT and row["wait_event_type"] == "Activity":
            return garbled(name, "it waits where processes of the server alone do", **more)
        lock = snapshot.look.waited_for.get(row["backend"])
        if row["blocked_by"] or lock is not None:
            return self.waiter(name, row, lock, snapshot, more)
        process = self.at_event(name, row, snapshot, more)
        return process if process is not None else self.by_state(name, row, snapshot, more)

    def more_of(self, row: Row, snapshot: PostgresServer) -> Dict[str, Any]:
        """Returns what is told of a backend beside its wait."""
        event = ":".join(filter(None, [row["wait_event_type"], row["wait_event"]]))
        starts = [str(row[key]) for key in ("query_start", "xact_start", "state_change")]
        pid = row["backend"]
        return {"site": f"backend {pid}", "thread": f"{pid}/{pid}" if snapshot.look.machine else "",
                "remedy": f"select pg_terminate_backend({pid})" if row["backend_type"] == CLIENT else "",
                "frames": [row["application_name"] or row["backend_type"] or "backend"], "operation": event,
                "objects": [*self.lock_of(row, snapshot), *starts], "count": count_of(row),
                "note": note_of(row, snapshot.look)}

    def lock_of(self, row: Row, snapshot: PostgresServer) -> List[str]:
        lock = snapshot.look.waited_for.get(row["backend"])
        return [self.told.setdefault((row["backend"], key_of(lock)), told(lock, row["backend"], snapshot.look))] \
            if lock else []

    # Waits for a lock

    def waiter(self, name: str, row: Row, lock: Optional[Row], snapshot: PostgresServer,
               more: Dict[str, Any]) -> Process:
        """One that waits for a lock, for all by whom it is blocked."""
        blockers = list(dict.fromkeys(row["blocked_by"] or []))
        if not blockers or lock is None:
            return unknown(name, "its lock came while it was read, or isn't shown", **more)
        what = told(lock, row["backend"], snapshot.look)
        more["operation"] = f"Lock:{lock['lock']}"
        start, age = lock.get("waitstart"), self.lasted.get((row["backend"], count_of(row)), 0.0)
        lasted = since(start, snapshot.look) or f" for {in_words(age)} or longer"
        more["note"] = f"{what}{lasted}: {query_of(row)}"
        parts = [self.part_of(pid, lock, snapshot) for pid in blockers if pid]
        parts += prepared_parts(lock, snapshot.look, row["blocked_by"].count(0)) if 0 in blockers else []
        return blocked(name, with_limits(parts, self.limits_of(row, lock, blockers, snapshot)),
                       [SYSTEM, premise(LIMITS)], **more)

    def part_of(self, pid: int, lock: Row, snapshot: PostgresServer) -> Part:
        """Returns the part of a wait for a lock that one of its blockers has to end."""
        if pid not in snapshot.names:
            return (unseen("unshown", f"backend {pid}, which blocks it, isn't in the look"),)
        theirs = snapshot.look.waited_for.get(pid)
        is_before = theirs is not None and key_of(theirs) == key_of(lock)
        return (wakers("ahead" if is_before else "owns", [snapshot.names[pid]]),)

    def limits_of(self, row: Row, lock: Row, blockers: List[int], snapshot: PostgresServer) -> Part:
        """Returns what may break off a wait for a lock: the detector where it hasn't looked yet, and limits."""
        look = snapshot.look
        part: Part = ()
        timeout, age = look.limit("deadlock_timeout", row), self.lasted.get((row["backend"], count_of(row)), 0.0)
        if timeout is None:
            part += (unseen("unshown", "deadlock_timeout isn't shown"),)
        elif age < timeout:
            name = self.limits.name(DETECTOR, row["backend"], timeout - age)
            is_at_worker = any(is_cancelled(snapshot.rows_by_pid.get(pid)) for pid in blockers)
            part += tuple(wakers(how, [name], premise(LIMIT)) for how in ("breaks", "cancels")[:1 + is_at_worker])
        starts = {"lock_timeout": lock.get("waitstart"), "statement_timeout": row["query_start"],
                  "query_timeout": row["query_start"], "transaction_timeout": row["xact_start"]}
        part += self.timeouts(row, look, starts)
        return part + ((unseen("unshown", "the server is a standby, which may cancel it"),)
                       if look.head["standby"] else ())

    def timeouts(self, row: Row, look: PostgresLook, starts: Dict[str, Optional[str]]) -> Part:
        """Returns the limits in force that may break off what a backend does. One that is over by now isn't in force:
        the session has set another one, which no view shows."""
        part: Part = ()
        names: List[str] = []
        for setting, start in starts.items():
            limit, fault = look.limit(setting, row), ""
            left = limit - (self.last - seconds_of(start)) if limit and start else 0.0
            if limit is None:
                fault = f"{setting} isn't known of its session" if look.has_setting(setting) else ""
            elif limit and (start is None or left <= -SLACK):
                fault = f"{setting} was over before, or isn't that of its session"
            elif limit:
                names.append(self.limits.name(f"{setting} of backend {row['backend']}", row["backend"], left))
            part += (unseen("unshown", fault),) if fault else ()
        return ((wakers("expires", names, premise(LIMIT)),) if names else ()) + part

    # Other waits

    def at_event(self, name: str, row: Row, snapshot: PostgresServer, more: Dict[str, Any]) -> Optional[Process]:
        """Returns one by what it waits at, if that says what ends it."""
        kind, event = row["wait_event_type"], row["wait_event"]
        if kind == "Timeout":
            return goes_on(name, "sleeps", [premise(LIMIT)], Sign.SLEEPS, **{**more, "operation": f"timed {event}"})
        if kind == "IO":
            return goes_on(name, "reads or writes files", [premise(DISK)], Sign.SLEEPS, **more)
        if kind == "Activity":
            return rests(name, "waits for work", any_of(unseen("outside")), [SYSTEM], **more)
        if kind == "IPC" and event == STANDBY:
            senders = [snapshot.names[other["backend"]] for other in snapshot.look.of("backend")
                       if other.get("backend_type") == "walsender"]
            parts = any_of(*([wakers("listed", senders)] if senders else []),
                           unseen("outside", "a standby confirms its commit"))
            return blocked(name, parts, [SYSTEM], reason="waits for a standby that confirms its commit", **more)
        return self.among_workers(name, row, snapshot, more) if kind == "IPC" else None

    def among_workers(self, name: str, row: Row, snapshot: PostgresServer, more: Dict[str, Any]) -> Optional[Process]:
        """Returns a leader that waits for its parallel workers, or one of these that waits for it."""
        if row["backend_type"] == WORKER and row["wait_event"] in FOR_LEADER:
            leader = snapshot.names.get(row.get("leader_pid") or 0)
            return blocked(name, any_of(wakers("called", [leader])), [SYSTEM], **more) if leader else None
        workers = [snapshot.names[other["backend"]] for other in snapshot.look.of("backend")
                   if other.get("leader_pid") == row["backend"] and other["backend"] != row["backend"]]
        if not workers or row["wait_event"] not in FOR_WORKERS:
            return None
        return blocked(name, all_of(workers, COMES), [SYSTEM], **more)

    def by_state(self, name: str, row: Row, snapshot: PostgresServer, more: Dict[str, Any]) -> Process:
        """Returns one by the state of its session."""
        state, kind, look = row["state"], row["wait_event_type"], snapshot.look
        if state is None and (row["backend_type"] in (None, CLIENT) or "insufficient privilege" in str(row["query"])):
            return unknown(name, HIDDEN, **more)
        if state in IN_TRANSACTION:
            return self.at_client(name, row, {
                "idle_in_transaction_session_timeout": row["state_change"], "idle_transaction_timeout":
                row["state_change"], "transaction_timeout": row["xact_start"]}, snapshot, more)
        if state == IDLE and row["backend"] in snapshot.pooled:
            return self.at_client(name, row, {"idle_session_timeout": row["state_change"]}, snapshot, more)
        if state == IDLE:  # (a notice of another session may come to its client)
            has = snapshot.wanted.get(row["backend"])
            why = f"is idle{since(row['state_change'], look)}, and has {has}; {client_words(end_of_client(row))}" \
                if has else "has nothing to do"
            parts = any_of(unseen("client"), unseen("to-come"))
            return rests(name, why, parts, [SYSTEM], **{**more, "operation": state})
        if state in (*ACTIVE, None) and kind is None:
            return goes_on(name, "computes", [SYSTEM], **more)
        if state in ACTIVE and kind == "Client":
            parts = with_limits(any_of(unseen("client")),
                                self.timeouts(row, look, {"statement_timeout": row["query_start"]}))
            return blocked(name, parts, [SYSTEM, premise(LIMITS)], reason="waits for its client", **more)
        return unknown(name, f"what ends its wait at {more['operation'] or state} isn't known", **more)

    def at_client(self, name: str, row: Row, starts: Dict[str, Optional[str]], snapshot: PostgresServer,
                  more: Dict[str, Any]) -> Process:
        """One that has what others wait for, or may have it, until its client goes on with its transaction, or gives it
        back to its pool."""
        more["operation"] = row["state"]
        if row["backend"] not in snapshot.wanted:
            parts = any_of(unseen("client"), unseen("to-come"))
            return rests(name, "has an open transaction", parts, [SYSTEM], **more)
        parts = with_limits(any_of(unseen("client")), self.timeouts(row, snapshot.look, starts))
        has = snapshot.wanted[row["backend"]]
        why = f"{row['state']}{since(row['state_change'], snapshot.look)}{f', has {has}' if has else ''}; " \
            f"{client_words(end_of_client(row))}"
        return blocked(name, parts, [SYSTEM, premise(LIMITS)], reason=why, **more)

    # Clients of pgbouncer

    def at_pool(self, client: Client, snapshot: PostgresServer) -> Process:
        """A client that waits until another one gives a session of its pool back. It is the same wait if it began
        before the first look did, and another one if it began after that."""
        first = self.clients[key_of_client(client)]
        look, name, lasted = snapshot.look, name_of_client(first), seconds_for(client)
        if any(client[key] != first[key] for key in ("user", "database", "addr", "port")):
            return garbled(name, "its looks differ in whose client it is")
        assert look.pooler is not None and look.taken is not None
        limits = look.pooler.limits_of(client, name, self.limits, self.last - look.time)
        parts = any_of(*look.pooler.part_of(client, snapshot.names), *limits)  # (none of which its client may set)
        stamp, (begin, end), start = f"{client['ptr']} since {client['request_time']}", look.taken, self.first
        is_same, is_another = look.taken == start or end - lasted < start[0], begin - lasted > start[1]
        if is_same and client["request_time"] != first["request_time"]:
            return garbled(name, "its looks differ in since when it waits")
        if client["request_time"] == first["request_time"] and lasted < seconds_for(first):
            return garbled(name, "it has waited for less time than before")
        return blocked(name, parts, [SYSTEM, premise(LIMITS)], operation="pool", count=stamp if is_same else None,
                       objects=[stamp, *(["another"] if is_another else [])],
                       site=f"client {name.rpartition(' ')[2]}", frames=[client.get("application_name") or "client"],
                       note=f"a session of the pool {client['database']} for {in_words(lasted)}")

    def finish(self, sketch: Sketch, snapshots: List[PostgresServer]) -> None:
        """Adds the limits, and who serves which connection. Warns of what the role couldn't see."""
        self.limits.add_to(sketch)
        names = {process.name for process in sketch.processes}
        for snapshot in reversed(snapshots):
            sketch.connections.update(connections_of({
                name: keys_of(snapshot.rows_by_pid[pid], snapshot.look) for pid, name in snapshot.names.items()
                if name in names and "odd" not in snapshot.rows_by_pid[pid]}))
            sketch.connections.update(connections_of({
                name_of_client(self.clients[key_of_client(row)]): [end_of(row)] for row in waiting_in(snapshot.look)
                if end_of(row)}))
            sketch.warnings += [LACKS.format(", ".join(snapshot.look.lacks))] if snapshot.look.lacks else []
            sketch.warnings += [OTHER_BASES.format(len(snapshot.apart))] if snapshot.apart else []
        hidden = sum(process.reason == HIDDEN for process in sketch.processes)
        if hidden:
            sketch.warnings.append(f"{HIDDEN}, for {hidden} of them")


# Prepared transactions


