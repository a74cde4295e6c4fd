"""What tests know of PostgreSQL, beside its kept cases."""
import re

from changes import APART

# Of how many kept stalls the likely answer has all roots, and nobody who isn't stuck; and of how many each root as it
# is.
LIKELY, EXACT = 2, 2
# Its stalls of examples/: the folder, the words for stuck and slow, the commands, and what is said beforehand.
LIVE = {
    "postgres": ("postgres", ["stuck", "slow"], ["psql", "pgrep"],
                 "two statements that only read"),
}
MISSING = "psql", "postgresql-client"  # a command that a look needs, and its package
# Kept stalls that are begun, looked at and cured, with the commands that they need.
CURED, CURED_BY = "circle circle_limits own_client pool pool_prepared", ["psql", "pgbouncer"]
IDLE = r'"state": "idle in transaction"(.*"wait_event": )"ClientRead"(.*"wait_event_type": )"Client"'
TAKEN = '"taken"', ""
# Changes of the state of its example: what changes, a process as it is then, the pattern, its replacement, and the
# marks around it.
CHANGES = {
    "postgres": [
        ("a session that computes", "'clerk@postgres 52' runs", IDLE, r'"state": "active"\1null\2null'),
        ("a session that sleeps", "'clerk@postgres 52' runs", IDLE, r'"state": "active"\1"PgSleep"\2"Timeout"'),
        ("a session that reads a file", "'clerk@postgres 52' runs", IDLE,
         r'"state": "active"\1"DataFileRead"\2"IO"'),
        ("a wait whose end isn't known", "'clerk@postgres 52' unknown", IDLE,
         r'"state": "active"\1"WALWrite"\2"LWLock"'),
        ("a client that doesn't read", "'clerk@postgres 52' unknown", IDLE,
         r'"state": "active"\1"ClientWrite"\2"Client"'),
        ("a session that is hidden", "'clerk@postgres 52' unknown", IDLE, r'"state": null\1null\2null'),
        ("a session in no transaction", "'clerk@postgres 52' unknown", IDLE,
         r'"state": "idle"\1"ClientRead"\2"Client"'),
        ("a blocker that isn't in the look", "'packer@postgres 53' unknown", r'"blocked_by": \[52\]',
         '"blocked_by": [4711]'),
        ("a blocker that isn't shown", "'packer@postgres 53' unknown", r'"blocked_by": \[52\]', '"blocked_by": []'),
        ("a query that has begun between", "'packer@postgres 53' runs", r"(?<=T04:11:)44(?=[.]20)", "47", TAKEN),
        ("a query that began before the one of the first look", "'packer@postgres 53' unknown",
         r'("backend": 53, .*"query_start": ")2026', r"\g<1>2025", TAKEN),
        ("another row that it has, at one lock since one time", "'packer@postgres 53' any 'clerk@postgres 52'",
         r'"tuple": 1,', '"tuple": 2,', TAKEN),
        ("an older version of the server", "'packer@postgres 53' any 'clerk@postgres 52'",
         r'"(?:waitstart|leader_pid|query_id)": (?:null|"[^"]*"), ', ""),
        ("a row that isn't understood", "'packer@postgres 53' left out", r'"blocked_by": \[52\]', '"blocked_by": "52"'),
        ("a limit that was over before", "'packer@postgres 53' unknown", r'"value": "0", "setting": "lock_timeout"',
         '"value": "1", "setting": "lock_timeout"'),
    ],
}
# Values that could be more than it takes: where they stand, and what comes there.
ONCE = [
    (r'"blocked_by": \[\d+', '"blocked_by": ["x"'),
    (r'"look": "\d{4}', '"look": "0000'),
]
BYSTANDER = {"pid": APART, "backend": APART, "query": "select 1", "state": "idle", "application_name": "bystander",
             "usename": "bystander", "usesysid": "10", "client_addr": "127.0.0.1", "client_port": 59999,
             "backend_type": "client backend", "wait_event_type": "Client", "wait_event": "ClientRead",
             "blocked_by": None, "xact_start": None, "query_start": "2026-11-29T01:00:00+00:00",
             "state_change": "2026-11-29T01:00:00+00:00", "backend_xid": None, "backend_xmin": None}
ROWS = "cmh-postgres ", "end"  # how rows begin, and the count of those of a reading


def shows(text, process):
    """A backend has a row in each look, with the same beginnings of its query, its transaction and its state. It is
    blocked by somebody, is idle in a transaction, or waits for its workers or leader. Or a client of pgbouncer waits.
    """
    looks = []
    for look in text.split('cmh-postgres {"look"')[1:]:
        if ":" in process.name:
            end = process.name.split(" ")[-1].replace(":", ",")
            looks.append(re.findall(rf"^cmh-pgbouncer C,.*,waiting,{end},.*(0x\w+),,0,,.*", look, re.M) or None)
            continue
        rows = re.findall(rf'^cmh-postgres .*"backend": {process.name.split(" ")[-1]}, .*', look, re.M)
        keys = ("query_start", "xact_start", "state_change")
        starts = [re.findall(rf'"{key}": ("[^"]*"|null)', row) for row in rows for key in keys]
        waits = re.search(r'"blocked_by": \[\d|"idle in transaction|ExecuteGather|MessageQueueSend', "".join(rows))
        looks.append(starts if len(rows) == 1 and waits else None)
    return len(looks) == 2 and looks[0] == looks[1] and None not in looks
