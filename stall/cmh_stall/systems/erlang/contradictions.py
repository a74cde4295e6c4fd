"""Erlang: what of two looks at a node can't be true of both. A process has one pid, which no earlier one has had,
whoever runs is counted, and who is linked or monitored is there.
"""
from __future__ import annotations

import re
from typing import Dict, Iterator, List, Sequence, Set, Tuple

from ...core.snapshots import PARTS, Reading
from .readings import NodeReading
from .text import PID, ErlangBlock

NEWER = "it wasn't there before, and processes that are newer were"
OWNERS = "its looks differ in who has asked for a lock"
OWNER = re.compile(r"{(<[\d.]+>),(#Ref<[\d.]+>)}")
NAMED = "it doesn't have {}, to which a process of it is linked, or which one monitors"


def doubt_blocks(readings: List[Reading]) -> None:
    """Says of processes that they aren't understood, where two texts can't be of one."""
    before: Dict[Tuple[str, str], ErlangBlock] = {}
    for block in (block for reading in readings for block in reading.rows):
        first = before.setdefault((block.node, block.pid), block)
        why = first.contradicts(block)
        if why:
            first.fault, block.fault = first.fault or why, block.fault or why


def doubt_readings(readings: Sequence[Reading]) -> None:
    """Says of those that came between two looks that they aren't understood, where newer ones were there before; and of
    a look that it lacks processes, where those of it name one that another look has. Nothing is known of receives of
    which two looks say different things."""
    for first, second in pairs_of(readings):
        there, later = ({block.pid for block in reading.rows} for reading in (first, second))
        newest = max(map(age_of, there), default=())
        doubt_newcomers([block for block in second.rows if block.pid not in there and age_of(block.pid) < newest])
        for function in first.receives.keys() & second.receives.keys():
            if first.receives[function] != second.receives[function]:  # (its code says one thing)
                del first.receives[function], second.receives[function]
        owners = [dict((reference, pid) for _, rows in reading.locks for pid, reference in OWNER.findall(rows))
                  for reading in (first, second)]
        if any(owners[1].get(reference, pid) != pid for reference, pid in owners[0].items()):
            first.extent, first.missing = PARTS, first.missing or OWNERS
        lack_named(first, later - there)
        lack_named(second, there - later)


def pairs_of(readings: Sequence[Reading]) -> Iterator[Tuple[NodeReading, NodeReading]]:
    """Yields each two looks at a node of which one follows the other."""
    last: Dict[str, NodeReading] = {}
    for reading in (reading for reading in readings if isinstance(reading, NodeReading)):
        if reading.source in last:
            yield last[reading.source], reading
        last[reading.source] = reading


def age_of(pid: str) -> Tuple[int, ...]:
    """Returns what is higher for a later process of a node: its serial, and then its number."""
    _, number, serial = pid[1:-1].split(".")
    return int(serial), int(number)


def doubt_newcomers(blocks: List[ErlangBlock]) -> None:
    for block in blocks:
        block.fault = block.fault or NEWER


def lack_named(reading: Reading, others: Set[str]) -> None:
    """Says of a look that it isn't whole, if processes of it name one of some that it doesn't have."""
    named = (pid for block in reading.rows for key in ("links", "monitors") for pid in PID.findall(
        block.items.get(key, "")))
    lost = next((pid for pid in named if pid in others), "")
    if lost:
        reading.extent = PARTS
        reading.missing = reading.missing or NAMED.format(lost)
