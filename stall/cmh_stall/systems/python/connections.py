"""What the states of Python say for a join with others: which threads and tasks have a connection to a database in a
variable, which tasks wait for its answer, and of which processes all handlers of signals are known, and none is the
program's."""
from __future__ import annotations

import re
from typing import Dict, List

from .names import PythonNames
from .rows import PythonLook, PythonRow

# What the head of a state says where no signal comes to a handler of the program's, and all threads are Python's.
NO_HANDLER = {"handlers": {}, "foreign_timer": False, "others": 0, "unseen": []}
LIBRARIES = re.compile(r"asyncpg\.")  # their functions await the answer of the connection that they have


def connections_of(looks: List[PythonLook], names: PythonNames) -> Dict[str, Dict[str, List[str]]]:
    """Returns by each socket who has it ('holds') and which tasks wait there ('awaits'), and by each process whose
    waits no signal ends ('quiet')."""
    rows: Dict[str, Dict[str, List[str]]] = {}
    loud = {look.place() for look in looks if any(look.head.get(key) != value for key, value in NO_HANDLER.items())}
    unshown = {look.place() for look in looks for row in look.rows() if not is_shown(row.more)}
    for look in looks:
        if look.place() not in loud:
            threads = [str(names.of(look, key)) for key in look.threads]
            rows.setdefault(f"signals of {names.sites[look.place()]}", {})["quiet"] = threads
        for row in look.rows() if look.place() not in unshown else ():
            add_sockets(rows, row, str(names.of(look, row.key)))
    return rows


def add_sockets(rows: Dict[str, Dict[str, List[str]]], row: PythonRow, name: str) -> None:
    """Adds which sockets a thread or task has, and where it waits if that is the only one of its innermost function."""
    asks = row.more.get("asks", []) if row.frames and LIBRARIES.match(row.frames[0].at) else []
    for what, targets in (("holds", row.more["connections"]), ("awaits", asks if len(asks) == 1 else [])):
        for target in targets:
            shown = rows.setdefault(target, {}).setdefault(what, [])
            shown += [name] if name not in shown else []


def is_shown(more: Dict[str, object]) -> bool:
    """Whether the row of a thread or task says which connections it has."""
    return are_texts(more.get("connections")) and ("task" not in more or are_texts(more.get("asks")))


def are_texts(held: object) -> bool:
    return isinstance(held, list) and set(map(type, held)) <= {str}
