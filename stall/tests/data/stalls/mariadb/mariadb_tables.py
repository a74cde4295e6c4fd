"""What tests know of MariaDB, beside its kept cases."""
import re

from changes import APART

# Of how many kept stalls the likely answer has all roots, and nobody who isn't stuck; and of how many each root as it
# is.
LIKELY, EXACT = 2, 2
# Its stalls of examples/: the folder, the words for stuck and slow, the commands, and what is said beforehand.
LIVE = {
    "mariadb": ("mariadb", ["stuck", "slow"], ["mariadbd", "mariadb-install-db", "pgrep"],
                "its connections are read as the kernel sees them"),
}
MISSING = "mariadb", "mariadb-client"  # a command that a look needs, and its package
# Kept stalls that are begun, looked at and cured, with the commands that they need.
CURED, CURED_BY = "circle circle_limits own_client", ["mariadb"]
TAKEN = '"taken"', ""
IN_TRANSACTION = r'"command": "Sleep"(.*)"state": ""'
# Changes of the state of its example: what changes, a process as it is then, the pattern, its replacement, and the
# marks around it.
CHANGES = {
    "mariadb": [
        ("a query that sleeps", "'clerk@shop 8' runs", IN_TRANSACTION, r'"command": "Query"\1"state": "User sleep"'),
        ("a query at work", "'clerk@shop 8' runs", IN_TRANSACTION, r'"command": "Query"\1"state": "Sending data"'),
        ("a wait that isn't known", "'clerk@shop 8' unknown", IN_TRANSACTION,
         r'"command": "Query"\1"state": "Waiting for tea"'),
        ("a transaction without a connection", "'packer@shop 7' unknown", r'("wait": \d+, "for": )\d+', r"\g<1>9"),
        ("another query in the second look", "'packer@shop 7' runs", r'("thread": 7, .*"query_id": )', r"\g<1>9",
         TAKEN),
        ("a row that isn't understood", "'packer@shop 7' left out", r'("thread": 7, .*"time": )\d+', r'\g<1>"x"'),
        ("a lock that is waited for no more by one of two tables", "'packer@shop 7' unknown", "LOCK WAIT", "RUNNING",
         TAKEN),
        ("a lock that is waited for no more", "'packer@shop 7' runs",
         r'(?s)^cmh-mariadb \{"wait": 22.*?\n(.*?)LOCK WAIT(.*?"wait_started": )"[^"]*"(.*?"waited": )\d+, "lock": '
         r'"[^"]*"(.*"end": )9',
         r'\1RUNNING\2null\3null, "lock": null\g<4>8', TAKEN),
    ],
}
# Values that could be more than it takes: where they stand, and what comes there.
ONCE = [
    (r'"waited": \d+', '"waited": 1e999'),
    (r'"thread": \d+', '"thread": "x"'),
]
BYSTANDER = {"thread": APART, "user": "bystander", "host": "localhost:59999", "db": "shop", "command": "Sleep",
             "time": 1, "state": "", "info": None, "user_lock": None, "query_id": 1, "tid": APART}
ROWS = "cmh-mariadb ", "end"  # how rows begin, and the count of those of a reading


def shows(text, process):
    """A connection has a row in each look, with the number of the same query. It waits for a lock, or sleeps in a
    transaction."""
    looks = []
    for look in text.split('cmh-mariadb {"look"')[1:]:
        number = process.name.split(" ")[-1]
        rows = re.findall(rf'^cmh-mariadb {{"thread": {number}, .*', look, re.M)
        rows += re.findall(rf'^cmh-mariadb {{"transaction": .*"of": {number}, .*', look, re.M)
        waits = re.search(r'"LOCK WAIT"|"User lock"|"Waiting for|"command": "Sleep"', "".join(rows))
        looks.append(re.findall('"query_id": [0-9]+', rows[0]) if rows and waits else None)
    return len(looks) == 2 and looks[0] == looks[1] and None not in looks
