"""Erlang: what `cmh_state_reader` prints of the processes of some modules, on one node or several, twice.

A call monitors whom it calls, and its reference tells it from any other. Processes are read one after the other: where
no reference tells one wait from the next, the reductions do.
"""
from __future__ import annotations

import re
from collections import defaultdict
from operator import attrgetter
from typing import DefaultDict, Dict, List, Sequence, Set, Tuple

from ...core.files import Refusal, escaped, shown
from ...core.model import Part, Sign, any_of, unseen, wakers
from ...core.sketch import (LIMIT, SYSTEM, Process, Sketch, blocked, garbled, goes_on, lists_of_wakers, premise, rests,
                       unknown)
from ...core.snapshots import APART, PARTS, Reading
from .. import State
from ..base import Parser
from .calls import NO_MAIL, place_elsewhere, wait_of_call
from .contradictions import doubt_blocks, doubt_readings
from .enders import add_enders, stoppers_of, when_killed
from .keepers import is_awake, unless_alone
from .locks import locks_of, wait_of_lock
from .mnesia import rows_of, wait_of_transaction
from .names import name_all
from .nodes import Lists, More, Nodes, limited, not_shown
from .receives import PORT, count_of, wait_for_output, wait_for_stop, wait_of_receive
from .remote import wait_for_remote
from .tasks import wait_of_task
from .readings import NodeReading, readings_of
from .sockets import connections_of, port_of
from .text import ErlangBlock

CHILD = re.compile(r"{child,(<[\d.]+>),.*?,(infinity|\d+|brutal_kill),(?:worker|supervisor),")
IDLE = "waits for requests"
WORKS = ("running", "runnable", "garbage_collecting", "exiting")
SLEEPS = ("timer:sleep", "Process.sleep")
# What Elixir runs a script by, which is no function of the program's.
OF_SCRIPTS = re.compile(r"(?:erl_eval|elixir|elixir_\w+|Kernel\.CLI|Code|Module\.ParallelChecker|Enum)[:.]\S+")

# Where a process waits for what comes from outside, with what its program has called.
READS = {"prim_inet:accept0": "gen_tcp:accept", "prim_inet:recv0": "gen_tcp:recv",
         "prim_inet:recvfrom0": "gen_udp:recv", "socket:accept_deadline": "socket:accept",
         "socket:recv_deadline": "socket:recv", "socket:recvfrom_deadline": "socket:recvfrom", "os:get_data": "os:cmd"}
ACCEPTS = ("gen_tcp:accept", "socket:accept")

OWN_CHILD, ENDINGS, RESTARTS = "child", "endings", "restarts"
# For what those stand that are no processes.
REPEATS = "stands for calls of the module `timer` that are repeated: to what function isn't shown"
HANDLES = "stands for code of the program's that handles events of the system, as of its log"
UNLOOKED = "may be there: an older version took the state, which didn't look for timers that are repeated"


class ErlangParser(Parser):
    """The processes of a node are read one after the other, and all nodes before one is read again."""

    NAME, IDLE, MOMENT = "erlang", "servers", APART
    SNAPSHOT_CLASS = Nodes

    def __init__(self) -> None:
        self.known: Dict[bytes, ErlangBlock] = {}

    def read(self, state: State) -> Sequence[Reading]:
        return readings_of(state.path, state.text, self.known)

    def begin(self, readings: List[Reading]) -> None:
        """Checks that the states are of one system, and names its nodes apart."""
        first: Dict[str, Set[Tuple[str, ...]]] = {}
        for reading in readings:
            keys = {(block.pid, *block.start) for block in reading.rows}
            before = first.setdefault(reading.source, keys)
            if before and keys and before.isdisjoint(keys):
                raise Refusal(f"{shown(reading.path)}: node {shown(reading.source)} has no process of the state "
                              "before: states of one system are expected")
        short = [node.split("@")[0] for node in first]
        labels = {node: own if short.count(own) == 1 else node for node, own in zip(first, short)}
        for reading in readings:
            reading.site = labels[reading.source]
        name_all(readings)
        doubt_blocks(readings)
        doubt_readings(readings)

    def prepare(self, snapshot: Nodes) -> None:
        snapshot.by_key = {key: block for block in snapshot.rows() for key in block.keys()}
        snapshot.nodes = {(reading.source, f"<{number}"): node for reading in snapshot.readings
                          if isinstance(reading, NodeReading) for number, node in reading.nodes.items()}
        snapshot.name, snapshot.answers = attrgetter("label"), []
        snapshot.has_tail, snapshot.lists = defaultdict(list), Lists(snapshot.name)
        for block in snapshot.rows():
            for tail in block.tails:
                snapshot.has_tail[tail].append(block)
        snapshot.enders = stoppers_of(snapshot.rows())
        for keys in ({"links", "trap_exit"}, {"references", "may_end"}, {"closures", "code"}, {"status"}):
            if not all(keys.isdisjoint(block.items) for block in snapshot.rows()):
                for block in snapshot.rows():
                    block.need(keys)
        look_at_nodes(snapshot)
        add_enders(snapshot)

    def process_of(self, subject: ErlangBlock, snapshot: Nodes) -> Process:
        """Returns the process of a block. Who may end it ends any wait of it."""
        made = wait_of_block(subject, snapshot)
        if made.parts:
            is_spared = (subject.node, subject.pid) in snapshot.spared
            made.because += [premise(ENDINGS), *([premise(RESTARTS)] if is_spared else [])]
            more = ending(subject, snapshot)
            made.parts = [(*part, *more) for part in made.parts]
            made.remedy = remedy_of(subject) if subject in snapshot.children else ""
        if made.sign is Sign.BLOCKED and subject.extra("trap_exit"):
            made.effect = when_killed(subject, snapshot)
        return made

    def finish(self, sketch: Sketch, snapshots: List[Nodes]) -> None:
        """Gives facts a word for those that a process monitors, and has answers that are under way."""
        groups: DefaultDict[str, Dict[str, None]] = defaultdict(dict)
        for snapshot in snapshots:
            for block in snapshot.rows():
                names = snapshot.names(filter(None, snapshot.watched(block)))
                groups[f"monitored:{snapshot.name(block)}"].update(dict.fromkeys(names))
        there = {process.name for process in sketch.processes}
        sketch.groups = {group: [name for name in names if name in there] for group, names in groups.items()}
        pairs = [pair for snapshot in snapshots for pair in snapshot.answers if there.issuperset(pair)]
        sketch.in_transit = list(dict.fromkeys([*sketch.in_transit, *pairs]))
        named = {name for names in lists_of_wakers(sketch.processes) for name in names}
        sketch.processes += [unknown(name, why, frames=[name]) for name, why in {
            name: why for snapshot in snapshots for name, why in snapshot.stand_ins.items()}.items() if name in named]
        unlooked = set().union(*(snapshot.unlooked for snapshot in snapshots)) & named
        sketch.processes += [goes_on(name, UNLOOKED, [SYSTEM], Sign.SLEEPS, frames=[name]) for name in sorted(unlooked)]
        rows, later = connections_of(snapshots[0]), connections_of(snapshots[-1])
        sketch.connections = {key: row for key, row in rows.items() if key in later}


def look_at_nodes(snapshot: Nodes) -> None:
    """Finds what holds for all calls of the nodes: what isn't seen of them, and the limits of receives."""
    snapshot.closures = [block for block in snapshot.rows() if may_have_any(block) and not is_script_asleep(block)]
    nodes = [reading for reading in snapshot.readings if isinstance(reading, NodeReading)]
    snapshot.ports = {reading.source: {row[1] for row in reading.sockets} for reading in nodes}
    snapshot.receives = {(reading.source, *function): receives for reading in nodes
                         for function, receives in reading.receives.items()}
    snapshot.asks = {(reading.source, *function): names for reading in nodes
                     for function, names in reading.asks.items()}
    snapshot.awake, snapshot.known = list(filter(is_awake, snapshot.rows())), {}
    snapshot.locks = locks_of(nodes)
    snapshot.held, snapshot.wanted = (rows_of(nodes, snapshot, word) for word in ("has", "wants"))
    snapshot.elsewhere = next(filter(None, map(place_elsewhere, nodes)), "")
    snapshot.stand_ins, snapshot.unlooked = {}, set()
    snapshot.ending_any = tuple(group for reading in nodes for group in ending_any(reading, snapshot))
    for reading in nodes:
        reading.missing = reading.missing or lost_of(reading, snapshot)


def lost_of(reading: NodeReading, snapshot: Nodes) -> str:
    """Returns whom a node names of whom the state says nothing, in words, or nothing."""
    sources = {other.source for other in snapshot.readings}
    known = {f"<{number}" for number in ("0", *reading.nodes)}
    if any(None in snapshot.watched(block) for block in reading.rows):
        return "it names processes that aren't printed, as those that one monitors"
    if not sources.issuperset(reading.nodes.values()):
        return "it has the numbers of nodes that aren't in the state"
    pids = (pid for block in reading.rows for pid in (*block.linked(), *block.may_end()))
    is_whole = all(pid.split(".")[0] in known for pid in pids)
    return "" if is_whole else "it names processes of nodes whose numbers it lacks"


def ending_any(reading: NodeReading, snapshot: Nodes) -> Part:
    """Returns who stands for what may end any wait on a node and is no process of it: timers that are repeated, each
    called by who has begun it, and code of the program's own that handles events of the system, as of its log."""
    owners = [snapshot.by_key.get((reading.source, pid)) for pid in reading.repeated]
    timers = [f"{escaped(reading.site)}/timer of {owner.own_name() if owner else 'another'}" for owner in owners]
    if len(timers) != reading.numbers.get("repeats", 0):
        timers = [f"{escaped(reading.site)}/timers"]
    handlers = [f"{escaped(reading.site)}/handler {module}" for module in reading.handlers]
    snapshot.stand_ins = {**snapshot.stand_ins, **dict.fromkeys(timers, REPEATS), **dict.fromkeys(handlers, HANDLES)}
    if "repeats" not in reading.numbers and reading.numbers.get("keeps") != 0:
        timers = [f"{escaped(reading.site)}/timers"]
        snapshot.unlooked.update(timers)
    return (*([wakers("repeats", list(dict.fromkeys(timers)))] if timers else []),
            *([wakers("kills", handlers)] if handlers else []))


def ending(block: ErlangBlock, snapshot: Nodes) -> Part:
    """Returns who may end a process, whatever it waits for."""
    enders = snapshot.enders[block.node, block.pid]
    own = [other for other in enders.own if other is not block]
    kills = snapshot.any_of_lists("kills", own, *(unless_alone(block, group) for group in enders.shared))
    cut = [reading.source for reading in snapshot.readings if reading.extent == PARTS and reading.source == block.node]
    return (*kills, *(snapshot.left_out(*cut) if cut else ()), *snapshot.ending_any)


def remedy_of(block: ErlangBlock) -> str:
    """Returns the call that ends a process which has a name, and which its supervisor begins again."""
    if block.role in ("[]", "") or block.is_supervisor():
        return ""
    elixir = re.fullmatch(r"'Elixir\.([\w.]+)'", block.role)
    call = f"Process.exit(Process.whereis({elixir[1]}), :kill)" if elixir else f"exit(whereis({block.role}), kill)"
    return f"{call} on {block.node}"


def may_have_any(block: ErlangBlock) -> bool:
    """Whether a process may have a reference that its text doesn't show: in a fun, or in the state with which it
    hibernates, if its code answers callers; or where its text isn't understood."""
    return bool(block.fault) or block.extra("closures") == "true" or block.hibernates and (
        "replies" in block.code() or block.extra("code") is None)


def is_script_asleep(block: ErlangBlock) -> bool:
    """Whether a script of Elixir's sleeps, by which the node lives on, in no function of the program's."""
    top, *below = [place.split(" (")[0] for place in block.stack] or [""]
    is_script = any(place.startswith("Kernel.CLI.") for place in below) and all(map(OF_SCRIPTS.fullmatch, below))
    is_asleep = not block.fault and top.partition("/")[0] in SLEEPS
    has_port = PORT.search(block.items.get("links", "") + block.item("monitors")) is not None
    return is_script and is_asleep and block.messages == "[]" and not has_port


def wait_of_block(block: ErlangBlock, snapshot: Nodes) -> Process:
    name = snapshot.name(block)
    more: More = {"site": block.node.split("@")[-1], "frames": block.frames(), "spent": block.count}
    if block.fault:
        return garbled(name, block.fault, site=more["site"])
    more["count"] = count_of(block)
    status = block.extra("status")
    if block.lock and status != "exiting":
        return wait_of_lock(block, snapshot, more)
    if block.call is not None and status != "exiting":  # (a message that isn't the answer wakes it too)
        return wait_of_call(block, block.call, snapshot, more)
    if status in WORKS:
        return goes_on(name, "it computes", [SYSTEM], **more)
    if block.hibernates:
        return rests(name, IDLE, any_of(unseen("to-come")), [], **more)
    more["note"] = block.stack[0]
    more["operation"] = block.top() if block.is_in_library() else "receive"
    if block.is_loop():
        return wait_for_requests(block, snapshot, more)
    ways = wait_of_task, wait_for_remote, wait_of_transaction
    known = next(filter(None, (way(block, snapshot, more) for way in ways)), None)
    return known or wait_of_function(block, snapshot, more)


def wait_for_requests(block: ErlangBlock, snapshot: Nodes, more: More) -> Process:
    """Returns a server in its loop. One with a limit there, or a timer under way, ticks."""
    if block.extra("timed") == "true":
        more["operation"] = f"timed {more['operation']}"
        return goes_on(snapshot.name(block), "it has a timer", [premise(LIMIT)], Sign.TICKS, **more)
    return rests(snapshot.name(block), IDLE, any_of(unseen("to-come")), [], **more)


def wait_of_function(block: ErlangBlock, snapshot: Nodes, more: More) -> Process:
    """Returns a process that stands in a function of a library, or in a `receive` of its own."""
    top = block.top()
    if top in SLEEPS:
        return limited(block, snapshot, "it sleeps", {**more, "operation": f"timed {top}"})
    if top == "gen:do_call" and block.has_limit:
        return limited(block, snapshot, "it waits with a limit", {**more, "operation": "timed gen_server:call"})
    if top == "proc_lib:stop":
        return wait_for_stop(block, snapshot, more)
    if top == "io:execute_request":
        return wait_for_output(block, snapshot, more)
    if top.startswith("proc_lib:sync_start"):
        return wait_for_child(block, snapshot, more, *child_begun(block))
    if top in READS:
        return wait_for_outside(block, snapshot, {**more, "operation": READS[top]})
    child = CHILD.search(block.counter) if top.startswith("supervisor:") else None
    if child:
        return wait_for_child(block, snapshot, more, child[1], child[2])
    return wait_of_receive(block, snapshot, more)


def wait_for_outside(block: ErlangBlock, snapshot: Nodes, more: More) -> Process:
    """Returns a process that accepts, reads from a socket, or waits for a command. A limit of that isn't on its stack.
    """
    more["note"] = f"{more['operation']} in {block.frames()[0]}"
    why = f"it is in {more['operation']}, and the state doesn't say who is at the other end"
    if more["operation"] in ACCEPTS:
        return rests(snapshot.name(block), "waits for connections", any_of(unseen("to-come", why)), [], **more)
    has_port = port_of(block) in snapshot.ports[block.node]
    return blocked(snapshot.name(block), any_of(unseen("peer" if has_port else "outside", why)), [],
                   **{**more, "reason": why})


def child_begun(block: ErlangBlock) -> Tuple[str, str]:
    """The pid and the limit of the child that it starts, or nothing of each that isn't clear."""
    pids, limits = ({term for term in block.registers() if re.fullmatch(form, term)}
                    for form in (r"<[\d.]+>", r"infinity|\d+"))
    return pids.pop() if len(pids) == 1 else "", limits.pop() if len(limits) == 1 else ""


def wait_for_child(block: ErlangBlock, snapshot: Nodes, more: More, pid: str, limit: str) -> Process:
    """Returns a process that waits for a child to begin or to end. The pid of the child tells one wait from the next.
    """
    other = snapshot.by_key.get((block.node, pid))
    if limit.isdigit():
        more["operation"] = f"timed {more['operation']}"
        return limited(block, snapshot, "it waits with a limit", more)
    if not pid or limit != "infinity":
        why = "its stack doesn't show the child that it waits for and its limit as they are expected"
        return not_shown(block, snapshot, why, more)
    if other is None:
        return not_shown(block, snapshot, "the child that it waits for isn't in the state", more)
    if block.is_mail_cut:
        return not_shown(block, snapshot, NO_MAIL, more)
    more.update(objects=[pid], count=pid)
    return blocked(snapshot.name(block), any_of(wakers("called", [snapshot.name(other)])),
                   [SYSTEM, premise(OWN_CHILD)], **more)
