"""Erlang: a process that wants a lock of `global`. It tries again and again, each time some seconds later, so its
reductions grow. The table of the locks says who has it, with a reference that another time would be another one.
"""
from __future__ import annotations

import re
from collections import Counter
from typing import Dict, List, Optional, Tuple

from ...core.files import Refusal, shown
from ...core.model import all_of, any_of
from ...core.sketch import SYSTEM, Process, blocked, premise, quote
from .nodes import More, Nodes, limited, not_shown
from .readings import NodeReading
from .text import ErlangBlock, of_elixir

LOCKS = "global-locks"
OPERATION = "global:set_lock"
# What parts of a term are told by: a text, an atom in quotes, brackets and commas.
SIGNS = re.compile(r"\"(?:\\.|[^\"\\])*\"|'(?:\\.|[^'\\])*'|<<|>>|[{}\[\](),]")
OPENING, CLOSING = ("{", "[", "(", "<<"), ("}", "]", ")", ">>")
HOLDER = re.compile(r"{(<[\d.]+>),(#Ref<[\d.]+>)}")


def parts_of(text: str) -> Tuple[str, str]:
    """Returns what is locked, and for whom: the two terms between the brackets of a lock."""
    depth, text = 0, text.replace(" => ", "=>")
    for sign in SIGNS.finditer(text):
        depth += (sign[0] in OPENING) - (sign[0] in CLOSING)
        if sign[0] == "," and depth == 0:
            return text[:sign.start()], text[sign.end():]
    return text, ""


def locks_of(readings: List[NodeReading]) -> Dict[Tuple[str, str], Tuple[str, str]]:
    """Returns for whom each lock is there and the text of who has it, by the node and what is locked."""
    rows = [((reading.source, what), (for_whom, having), reading.path) for reading in readings
            for lock, having in reading.locks for what, for_whom in [parts_of(lock)]]
    locks = {place: row for place, row, _ in rows}
    if len(locks) < len(rows):
        (node, what), _ = Counter(place for place, _, _ in rows).most_common(1)[0]
        raise Refusal(f"{shown(rows[0][2])}: node {shown(node)} has the lock {quote(what)} twice")
    return locks


def wait_of_lock(block: ErlangBlock, snapshot: Nodes, more: More) -> Process:
    """Returns a process that wants a lock. The table of its own node was read before it the first time, and after it
    the second time: so a lock that another one has in both, by one reference, was never free between."""
    name, lock = snapshot.name(block), [term for term in block.lock if term.startswith("{")]
    numbers = [term for term in block.lock if term.isdigit()]
    nodes = [term for term in block.lock if term.startswith("[") and term != "[]"]
    is_endless = "infinity" in block.lock
    if len(lock) != 1 or len(nodes) != 1 or len(numbers) != (1 if is_endless else 2):
        why = "its stack doesn't show its lock as it is expected"
        return not_shown(block, snapshot, why, {**more, "operation": OPERATION})
    what, for_whom = parts_of(lock[0][1:-1])
    more["operation"] = OPERATION if is_endless else f"timed {OPERATION}"
    more["note"] = f"{OPERATION} {of_elixir(what)} in {block.frames()[0]}"
    if not is_endless:
        return limited(block, snapshot, "it tries a few times", more)
    fault, having = holders_of(block, snapshot, nodes[0], what, for_whom)
    if fault:
        return not_shown(block, snapshot, fault, {**more, "objects": [what]})
    names = [snapshot.name(other) for other, _ in having]
    more.update(objects=[*names, what], count=" ".join(reference for _, reference in having))
    # (those for whom it is share it)
    parts = any_of(*snapshot.some("owns", [other for other, _ in having])) if len(names) == 1 else all_of(names, "owns")
    return blocked(name, parts, [SYSTEM, premise(LOCKS)], **more)


def holders_of(block: ErlangBlock, snapshot: Nodes, nodes: str, what: str,
               for_whom: str) -> Tuple[str, List[Tuple[ErlangBlock, str]]]:
    """Returns why it isn't known who has a lock, or nothing, and who has it, each with the reference of that."""
    if block.node not in re.findall(r"[^\[\],']+", nodes):
        return "the lock that it wants is one of other nodes alone", []
    its, having = snapshot.locks.get((block.node, what), ("", ""))
    if not having or its == for_whom:
        return "nobody else has the lock that it wants, so it may be about to take it", []
    owners: List[Tuple[Optional[ErlangBlock], str]] = [(snapshot.find((block.node, pid)), reference)
                                                for pid, reference in HOLDER.findall(having)]
    there = [(other, reference) for other, reference in owners if other is not None]
    if len(there) < len(owners):
        return "who has the lock that it wants isn't in the state", []
    return "", there
