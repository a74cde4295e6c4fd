#!/usr/bin/env python3
"""Has clients of a server do what stalls them, or what is only slow: statement after statement, each by a session of
the user that it is called. Says 'ready' then, and ends with its standard input.

usage: maria_clients.py NAME
"""
import subprocess
import sys
import time

SLEEP = "select sleep(900);"
LONG = "set global innodb_lock_wait_timeout = 3600;"
ENDLESS = "set global innodb_lock_wait_timeout = 100000000; set global innodb_deadlock_detect = off;"
PLUGIN = "install soname 'metadata_lock_info';"


def row(number):
    return f"update orders set quantity = quantity - 1 where id = {number};"


def rows(last=""):
    return [("root", LONG), ("shop", "begin;" + row(17) + last), ("web", "begin;" + row(17)), ("api", row(17))]


def circle(before=ENDLESS, last=row(17)):
    return [("root", before), ("packer", "begin;" + row(17)), ("printer", "begin;" + row(18)), ("printer", last),
            ("packer", row(18)), ("web", row(18))]


def metadata(last="", before=PLUGIN):
    return [("root", before), ("report", "begin; select count(*) from orders;" + last),
            ("migrate", "alter table orders add column note text;"), ("web", "select * from orders where id = 1;")]


CASES = {
    "rows": rows(), "rows_slow": rows(SLEEP),
    "circle": circle(), "circle_slow": circle(last=SLEEP),
    "circle_limits": circle(LONG + "set global innodb_deadlock_detect = off;"),
    "metadata": metadata(), "metadata_slow": metadata(SLEEP), "metadata_bare": metadata(before="select 1;"),
    "user_lock": [("cron", "select get_lock('night', 1);"), ("report", "select get_lock('night', 100000);")],
    "user_lock_slow": [("cron", "select get_lock('night', 1);" + SLEEP), ("report", "select get_lock('night', 100000);")],
    "flush": [("root", PLUGIN), ("report", "select count(*), sleep(900) from orders where id = 1;"),
              ("backup", "flush tables with read lock;"), ("web", row(1))],
    "flush_slow": [("root", PLUGIN), ("report", "select count(*), sleep(900) from orders where id = 1;"),
                   ("backup", "flush tables with read lock;" + SLEEP), ("web", row(1))],
    "read_lock_slow": [("root", PLUGIN), ("backup", "flush tables with read lock;" + SLEEP), ("web", row(1))],
    "lock_tables_slow": [("root", PLUGIN), ("report", "lock tables orders write;" + SLEEP), ("web", row(1))],
    "read_lock": [("root", PLUGIN), ("backup", "flush tables with read lock;"), ("web", row(1))],
    "lock_tables": [("root", PLUGIN), ("report", "lock tables orders write;"), ("web", row(1))],
    "own_client": [("root", LONG), ("shop", "begin;" + row(17)), ("audit", row(17))],
}


def main():
    sessions = {}
    for name, statements in CASES[sys.argv[1]]:
        if name not in sessions:
            sessions[name] = subprocess.Popen(["mariadb", f"--user={name}", "-n", "shop"], stdin=subprocess.PIPE,
                                              stdout=subprocess.DEVNULL, text=True)
        sessions[name].stdin.write(statements.replace(";", ";\n"))
        sessions[name].stdin.flush()
        time.sleep(0.7)
    print("ready", flush=True)
    sys.stdin.read()
    for process in sessions.values():
        process.kill()


if __name__ == "__main__":
    main()
