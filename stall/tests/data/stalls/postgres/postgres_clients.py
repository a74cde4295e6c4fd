#!/usr/bin/env python3
"""Has clients of a server do what stalls them, or what is only slow: statement after statement, each by a session that
is called as its application. Says 'ready' then, and ends with its standard input. psql says which server it is.

usage: postgres_clients.py NAME [PORT OF PGBOUNCER]
"""
import os
import subprocess
import sys
import time

SLEEP, COMPUTE = "select pg_sleep(900);", "select count(*) from generate_series(1, 100000000000);"
WORKER = "set force_parallel_mode = on; set max_parallel_workers_per_gather = 1; "
UNREAD = "copy (select repeat('x', 1000) from generate_series(1, 100000)) to stdout;"
HOUR = "alter system set deadlock_timeout = '1h'; select pg_reload_conf();"


def row(number):
    return f"update orders set quantity = quantity - 1 where id = {number};"


def migration(last=""):
    return [("shop", "begin;" + row(1) + last), ("migrate", "alter table orders add column note text;"),
            ("web", "select * from orders;"), ("api", "begin;" + row(2))]


def circle(last=row(1)):
    return [("ops", HOUR), ("packer", "begin;" + row(1)), ("printer", "begin;" + row(2)), ("printer", last),
            ("packer", row(2)), ("web", row(2))]


POOL = [("shop", "begin;" + row(1)), ("web", "begin;" + row(2)), ("audit", row(3)), ("api", row(3))]
CASES = {
    "migration": migration(),
    "migration_slow": migration(SLEEP),
    "circle": circle(),
    "circle_slow": circle(COMPUTE),
    # Limits of a role and of a database, and the session of a client that has one of its own, which no view shows.
    "circle_limits": [("ops", "alter role clerk set lock_timeout = '2h'; alter database postgres set "
                              "statement_timeout = '3h'; alter system set idle_in_transaction_session_timeout = '4h';"
                              "select pg_reload_conf();"), *circle(), ("idler", "begin;" + row(7)), ("late", row(7))],
    "outlasted": [("ops", "alter system set lock_timeout = '1s'; select pg_reload_conf();"), ("shop", "begin;" + row(1)),
                  ("web", "set lock_timeout = 0;" + row(1))],
    # A lock of a session that is in no transaction.
    "advisory": [("cron", "select pg_advisory_lock(7, 4711);"), ("report", "select pg_advisory_lock(7, 4711);")],
    "advisory_slow": [("cron", "select pg_advisory_lock(7, 4711);"), ("cron", SLEEP),
                      ("report", "select pg_advisory_lock(7, 4711);")],
    "prepared": [("bank", "begin;" + row(1) + "prepare transaction 'transfer-17';"),
                 ("bank", "begin;" + row(2) + "prepare transaction 'transfer-18';"), ("shop", row(1)),
                 ("drop", "truncate orders;")],
    "prepared_slow": [("bank", "begin;" + row(1) + SLEEP), ("shop", row(1)), ("drop", "truncate orders;")],
    # A program that asks by a second connection while its first one is in a transaction.
    "own_client": [("shop", "begin;" + row(1)), ("audit", row(1)), ("web", row(1))],
    "standby": [("ops", "alter system set synchronous_standby_names = 'standby_1'; select pg_reload_conf();"),
                ("shop", "begin;" + row(1) + "commit;"), ("web", row(1))],
    "standby_slow": [("ops", "alter system set synchronous_standby_names = 'standby_1'; select pg_reload_conf();"),
                     ("shop", "begin;" + row(1) + SLEEP), ("web", row(1))],
    "workers": [("shop", "begin;" + row(1)), ("shop", WORKER + UNREAD), ("web", row(1))],
    "workers_slow": [("shop", "begin;" + row(1)), ("shop", WORKER + SLEEP), ("web", row(1))],
    # A client that doesn't take what the server sends: the COPY goes to a pipe that nobody reads.
    "unread": [("shop", "begin;" + row(1)), ("shop", UNREAD), ("web", row(1))],
    "unread_slow": [("shop", "begin;" + row(1)), ("shop", f"copy ({SLEEP[:-1]}) to stdout;"), ("web", row(1))],
    # A worker of the server that looks after a table, and ends where it blocks others.
    "autovacuum_slow": [("ops", HOUR), ("migrate", "alter table orders add column note text;")],
    # Behind pgbouncer, whose pool has two sessions: each request has one in a transaction, and asks for another one.
    "pool": POOL,
    "pool_limit": POOL,
    "pool_slow": [(name, text.replace("begin;", "begin;" + SLEEP)) for name, text in POOL],
    # It has no session left for the one who would commit what both wait for.
    "pool_prepared": [("bank", "begin;" + row(1) + "prepare transaction 'transfer-17';"), ("shop", row(1)),
                      ("web", row(1)), ("bank", "commit prepared 'transfer-17';")],
    # It keeps a session for each client as long as that is connected.
    "pool_sessions": [("shop", "select 1;"), ("web", "begin;" + row(1)), ("audit", row(1))],
    "pool_sessions_slow": [("shop", SLEEP), ("web", "begin;" + row(1) + SLEEP), ("audit", row(1))],
    # An operator lets nobody begin, though it may have one more session.
    "pool_paused": [("shop", "begin;" + row(1)), ("console", "pause shop;"), ("web", row(1))],
    # What a role can't see that has no right to.
    "hidden": [("shop", "begin;" + row(1)), ("web", row(1))],
}


def start(name):
    out = subprocess.PIPE if sys.argv[1] in ("unread", "workers") else subprocess.DEVNULL
    env = {**os.environ, "PGAPPNAME": name, **({"PGUSER": "clerk"} if name in ("packer", "printer") else {})}
    if sys.argv[1].startswith("pool"):
        env.update(PGHOST="127.0.0.1", PGPORT=sys.argv[2], PGDATABASE="pgbouncer" if name == "console" else "shop")
    return subprocess.Popen(["psql", "-qX"], stdin=subprocess.PIPE, stdout=out, text=True, env=env)


def main():
    sessions = {}
    for name, statements in CASES[sys.argv[1]]:
        if name not in sessions:
            sessions[name] = start(name)
        sessions[name].stdin.write(f"{statements}\n".replace("; ", ";\n").replace(";", ";\n"))
        sessions[name].stdin.flush()
        time.sleep(0.7)
    print("ready", flush=True)
    sys.stdin.read()
    for process in sessions.values():
        process.kill()


if __name__ == "__main__":
    main()
