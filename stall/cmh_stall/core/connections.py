"""Joins what a server says of its sessions with what is known of their clients, by the ends of their connections: a
thread that waits for the answer of a connection waits for the session that serves it, and a session that waits for its
client waits for whoever has the other end."""
from __future__ import annotations

from dataclasses import replace
from typing import Dict, List, Sequence, Set, Tuple

from .assumptions import sentence_of
from .insides import GIVES, INSIDE, READS, join_insides, those_there
from .model import HOWS, Part, Sign, Strength, Wakers, unseen, wakers
from .sketch import SYSTEM, TIMER, Process, Sketch, premise

Connections = Dict[str, Dict[str, List[str]]]
SERVES, HAS, AWAITS, HOLDS, SOCKETS = "serves", "has", "awaits", "holds", "sockets"
BESIDE, ASKED = "beside", "asked"  # of threads of servers, and of those that were asked for
RUNTIME = "runtime"  # of threads of the kernel's, some of which a runtime has for itself
QUIET = "quiet"  # of a process, whose threads no signal frees: its runtime knows all handlers
CLIENT, PEER, LOST, CLOSES, HANDLES, GUESS = "client", "peer", "uncounted", "closes", "handles", "guess"  # hows
KEPT = (LOST, "left-out", "to-come")  # hows of those who count beside a session too
HELD = "connection"  # an assumption
SIGNALS = "signal of "  # how those are called that stand for signals


def serves(sketch: Sketch) -> Set[str]:
    """Returns the sessions of a server whose state a sketch is of. What it says of them is all that matters."""
    return {name for row in sketch.connections.values() for name in row.get(SERVES, ())}


def servers_first(sketches: Sequence[Sketch], paths: Sequence[str]) -> Tuple[List[Sketch], List[str]]:
    """Returns sketches with their paths, those of servers first: their sessions are called as these call them."""
    order = sorted(zip(sketches, paths), key=lambda pair: not serves(pair[0]))
    return [sketch for sketch, _ in order], [path for _, path in order]


def on_machine(sketch: Sketch, machine: str) -> Sketch:
    """Returns the sketch of a server without the numbers of its threads, where these are of another machine."""
    if not serves(sketch) or sketch.machine == machine:
        return sketch
    return replace(sketch, machine="", processes=[replace(process, thread="") for process in sketch.processes])


def merge_connections(first: Connections, second: Connections) -> Connections:
    return {key: {**first.get(key, {}), **second.get(key, {})} for key in {**first, **second}}


def rename_connections(connections: Connections, names: Dict[str, str]) -> Connections:
    return {key: {what: [names.get(name, name) for name in old] for what, old in row.items()}
            for key, row in connections.items()}


def join_connections(sketch: Sketch) -> None:
    """Lets each end of a connection wait for the other one, where a sketch has both."""
    sketch.connections = with_servers(sketch.connections)
    join_insides(sketch)
    by_name = {process.name: process for process in sketch.processes}
    dropped: Set[str] = {name for row in sketch.connections.values() for name in row.get(BESIDE, ())}
    nodes = {key: row[INSIDE] for key, row in sketch.connections.items() if INSIDE in row and READS not in row}
    beside = {name: part for inside in nodes.values() for part in [those_there(inside, by_name)] for name in inside}
    for key, name in ((key, name) for key, inside in nodes.items() for name in inside if name in by_name):
        by_name[name].site = key  # (what is restarted: beside others its host names nothing)
    reading = {name for row in sketch.connections.values() for what in (AWAITS, READS) for name in row.get(what, ())}
    for row in sketch.connections.values():
        dropped |= join_row(row, sketch, by_name, beside, reading)
    quiet = [by_name[name] for row in sketch.connections.values() for name in row.get(QUIET, ()) if name in by_name]
    signals = {name for process in quiet for part in process.parts for group in part if group.how == HANDLES
               for name in group.names() if name.startswith(SIGNALS)}
    for process in sketch.processes if signals else ():
        ignore_signals(process, signals)
    having = {name for row in sketch.connections.values() if SERVES in row and not row.get(GIVES)
              for name in row.get(HAS, ())}
    rows = [row[ASKED] for row in sketch.connections.values() if ASKED in row]
    strangers = {name for name, process in by_name.items() if rows and is_native(process)}.difference(*rows)
    drop_servers(sketch, (dropped | strangers) - serves(sketch) - having)


def join_row(row: Dict[str, List[str]], sketch: Sketch, by_name: Dict[str, Process], beside: Dict[str, Part],
             reading: Set[str]) -> Set[str]:
    """Joins the two ends of a connection. Returns those who seemed to be able to end a wait there."""
    sessions = [by_name[name] for name in row.get(SERVES, ()) if name in by_name]
    clients = [name for name in row.get(HAS, ()) if name in by_name and by_name[name].sign is not Sign.ENDED]
    if len(sessions) != 1 or not clients:
        return set()
    session, native = sessions[0], [name for name in clients if is_native(by_name[name])]
    own = [name for name in clients if name not in native]
    if not (session.remedy or session.name in beside):
        # (A service is restarted with its program, or by its own name, not by its site's.)
        session.site = by_name[(own or native)[0]].site if session.thread else session.name
    holders = of_its_sockets(sketch, row, HOLDS)
    if len(holders) == 1:
        sketch.premises[HELD] = sentence_of(HELD)
    threads, others = own or native, native if own else []
    inside = [name for group in beside.get(clients[0], ()) for name in group.names()]
    if GIVES in row and (inside or clients[1:]):
        others = inside or (own if row[GIVES] else clients)
        threads = workers(row, [by_name[name] for name in inside or threads if name not in reading])
    here = {*threads}
    wait_for_clients(session, threads, [name for name in others if name not in here], holders, beside)
    awaiting = dict.fromkeys([*row.get(AWAITS, ()), *of_its_sockets(sketch, row, AWAITS)])
    return {gone for name in awaiting if name in by_name
            for gone in wait_for_session(by_name[name], session, holders, beside, row)}


def with_servers(rows: Connections) -> Connections:
    """Returns the rows of connections, those by both of its ends with what a server says by the client's end alone."""
    return {key: {**rows.get(key.partition(" ")[0], {}), **row} for key, row in rows.items()}


def of_its_sockets(sketch: Sketch, row: Dict[str, List[str]], what: str) -> List[str]:
    """Returns which threads and tasks have a connection by a name of their own, or wait there, as their state shows."""
    shown = {name for target in row.get(SOCKETS, ()) for name in sketch.connections.get(target, {}).get(what, ())}
    return [process.name for process in sketch.processes if process.name in shown]


def ignore_signals(process: Process, signals: Set[str]) -> None:
    """Takes back that some signals may end a wait, also of a thread that a library has begun, where the runtime of its
    process knows that there is no handler but that by which its state was taken."""
    process.parts = [tuple(group for group in part if group.how != HANDLES or not signals.issuperset(group.names()))
                     for part in process.parts]


def is_native(process: Process) -> bool:
    """Whether a thread is called as the kernel calls it: no runtime that was read knows it as one of its own."""
    command, _, pid = process.name.partition("/")[0].rpartition(" ")
    return process.site == f"{command}-{pid}"


def workers(row: Dict[str, List[str]], threads: List[Process]) -> List[str]:
    """Returns those of some threads that may be at the work of their service: not who sleeps until a task is due.
    Where the broker shows who is likely to send what they wait for, it says more of one that stands than its own half
    that names nobody, and of a runtime more than the threads that the kernel sees."""
    runtime = {*row.get(RUNTIME, ())}
    less = {thread.name for thread in threads if thread.name in runtime and is_native(thread)
            or thread.sign is Sign.BLOCKED and not names_somebody(thread)} if row[GIVES] else set()
    return [thread.name for thread in threads if not (thread.reason == TIMER and thread.sign is Sign.SLEEPS)
            and thread.name not in less]


def names_somebody(process: Process) -> bool:
    return any(group.strength is Strength.NAMED for part in process.parts for group in part)


def wait_for_clients(session: Process, clients: List[str], native: List[str], holders: List[str],
                     beside: Dict[str, Part]) -> None:
    """Has a session that waits for its client wait for the threads that have the other end: for the one that has the
    connection, or else for any of their process. Of this, threads that its runtime doesn't know may have it unseen.
    Beside a guess at who sends to the client somebody else may.
    `beside` has by one who is inside of a node all of that, who may use its connection too."""
    if len(holders) == 1:
        session.because = [*session.because, premise(HELD)]
        part: Part = (wakers("other-end", holders, premise(HELD)),)
    elif len(clients) == 1 and not native:
        part = (wakers("other-end", clients), *beside.get(clients[0], ()))
    else:
        groups = (wakers("same-process", clients), wakers("unshown", native))
        part = tuple(group for group in groups if group.names())
    parts = [tuple(new for group in old for new in (part if group.how in (CLIENT, PEER) else (group,))) + (
        (unseen("unshown"),) if GUESS in [group.how for group in old] else ()) for old in session.parts]
    if parts != session.parts:
        session.parts = parts
        session.reason = session.reason.partition(";")[0] if session.sign is Sign.RESTS else ""


def wait_for_session(thread: Process, session: Process, holders: List[str], beside: Dict[str, Part],
                     row: Dict[str, List[str]]) -> Set[str]:
    """Has a thread that waits for an answer wait for its session, or where that has given its client work, for who is
    to send more. Nobody closes a connection that it alone has. Returns those who seemed to be able to end that wait."""
    if thread.sign in (Sign.GOES_ON, Sign.SLEEPS, Sign.TICKS, Sign.ENDED) or thread.is_garbled:
        return set()
    if thread.name in beside and thread.sign is session.sign is Sign.RESTS:  # (it has nothing to do)
        return set()
    named = beside.get(session.name, ())
    if not named or session.sign is not Sign.RESTS:
        named = (wakers("called", [session.name]), *named)
    if GIVES in row:
        named = (*([wakers(GUESS, row[GIVES])] if row[GIVES] else []), unseen("unshown"))
    kept = [tuple(group for group in part if is_kept(group) and not (group.how == CLOSES and holders == [thread.name]))
            for part in thread.parts[:1]] or [()]
    dropped = {name for part in thread.parts for group in part if not is_kept(group)
               for name in group.names()}
    if session.sign is not Sign.RESTS:
        thread.sign = Sign.BLOCKED
    thread.parts, thread.reason = [(*named, *kept[0])], ""
    because = [SYSTEM, premise(HELD)] if holders == [thread.name] else [SYSTEM]
    thread.because = list(dict.fromkeys([*thread.because, *because]))
    return dropped - {thread.name, session.name}


def is_kept(group: Wakers) -> bool:
    """Whether a waker of a wait at a connection counts beside its session: who may break it off, or may have done so
    between the looks."""
    return HOWS[group.how][0] is Strength.AGAINST or group.how in KEPT


def drop_servers(sketch: Sketch, gone: Set[str]) -> None:
    """Leaves those out who were there as they seemed to be the other end, or for such ones, and whom nobody waits for
    any more."""
    while gone:
        wanted = {name for process in sketch.processes if process.name not in gone for part in process.parts
                  for group in part for name in group.names()}
        if not gone & wanted:
            break
        gone = gone - wanted
    sketch.processes = [process for process in sketch.processes if process.name not in gone]
