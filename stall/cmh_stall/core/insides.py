"""Joins what a runtime says of the processes inside of a program, as goroutines, with what the kernel shows of its
threads and connections: they stand in the place of the threads, and wait for the other ends."""
from __future__ import annotations

from typing import Collection, Dict, List, Sequence, Set

from .model import Anybody, Part, Sign, Strength, Wakers, any_of, unseen, wakers
from .sketch import GOING, SYSTEM, Process, Sketch
from .snapshots import UNCOUNTED, doubt_waits

Row = Dict[str, List[str]]
# Words of a row: who is inside of a program, who of these waits at one of its connections, which threads have the other
# ends of those, and the keys of those whose servers know the other end.
INSIDE, READS, PEERS, ENDS = "inside", "reads", "peers", "ends"
HAS, SERVES, LOST = "has", "serves", "uncounted"
GIVES = "gives"  # of a service of a broker: who is likely to send what its client waits for


def insides(sketch: Sketch) -> Set[str]:
    """Returns those who are inside of a program: all of one look show one moment."""
    return {name for row in sketch.connections.values() for name in row.get(INSIDE, ())}


def join_insides(sketch: Sketch) -> None:
    """Puts those inside of a program in the place of its threads, and lets them wait for its other ends."""
    rows = [row for row in sketch.connections.values() if INSIDE in row and HAS in row]
    for row in rows:
        stand_in(sketch, row[INSIDE], {*row[HAS]})
    by_name = {process.name: process for process in sketch.processes}
    for row in rows:
        peers = [name for name in peers_of(row, sketch) if name not in by_name or by_name[name].sign is not Sign.ENDED]
        wait_for_peers([by_name[name] for name in row.get(READS, ()) if name in by_name], peers, by_name)


def those_there(inside: List[str], names: Collection[str]) -> Part:
    """Returns those inside of a program who are in a sketch. Those at rest whom nobody waited for are left out."""
    there = [name for name in inside if name in names]
    return (wakers("same-process", there), *([unseen("unshown")] if len(there) < len(inside) else []))


def stand_in(sketch: Sketch, inside: List[str], threads: Set[str]) -> None:
    """Puts some in the place of threads: in all waits, and in the rows of connections."""
    part = those_there(inside, {process.name for process in sketch.processes})
    kept: Dict[int, Sequence[str]] = {}

    def of(names: Sequence[str]) -> Sequence[str]:
        if id(names) not in kept:
            others = [name for name in names if name not in threads]
            is_same = len(others) == len(names)
            kept[id(names)] = names if is_same else list(dict.fromkeys([*others, *part[0].names()])) if others else \
                part[0].names()
        return kept[id(names)]

    def of_wakers(group: Wakers) -> Part:
        names = of(group.names())
        if isinstance(group.who, Anybody) or names is group.who:
            return (group,)
        is_named = group.strength is Strength.NAMED
        return (wakers("same-process", names, *group.because) if is_named else group.of(names), *part[1:])

    sketch.processes = [process for process in sketch.processes if process.name not in threads]
    for process in sketch.processes:
        process.parts = [tuple(new for group in old for new in of_wakers(group)) for old in process.parts]
    rows = sketch.connections
    sketch.connections = {key: {what: list(of(names)) for what, names in row.items()} for key, row in rows.items()}
    sketch.in_transit = [pair for pair in sketch.in_transit if threads.isdisjoint(pair)]


def peers_of(row: Row, sketch: Sketch) -> List[str]:
    """Returns who has the other ends of the connections of a program, or nothing if one isn't known, or a row doesn't
    say which it has: then nobody knows at which of them somebody waits."""
    if not {PEERS, ENDS} <= row.keys():
        return []
    peers = dict.fromkeys(row[PEERS])
    for key in row[ENDS]:
        served = sketch.connections.get(key, {}).get(GIVES, sketch.connections.get(key, {}).get(SERVES))
        if not served:
            return []
        peers.update(dict.fromkeys(served))
    return list(peers)


def wait_for_peers(processes: List[Process], peers: List[str], names: Collection[str]) -> None:
    """Has those who wait at a connection of their program wait for any who has the other end of one. A session that was
    left out, as nobody waited for it, isn't shown."""
    there = [name for name in peers if name in names]
    others = wakers("other-end" if len(peers) == 1 else "reaches", there)
    hidden = [unseen("unshown")] if len(there) < len(peers) else []
    for process in processes if peers else ():
        if process.sign in (*GOING, Sign.ENDED) or process.is_garbled:
            continue
        is_open = process.sign is Sign.UNKNOWN
        kept: Part = tuple(group for part in process.parts for group in part if not is_open or group.how == LOST)
        process.sign, process.reason = Sign.BLOCKED, ""
        process.wait_for(any_of(others, *hidden, *kept), [SYSTEM])
        if process.count is None:
            doubt_waits([process], UNCOUNTED)
