"""Which processes have which connections, as the kernel keeps it: to servers, whose own states say who is at the other
end; and those of programs that have processes of their own inside, as goroutines, which the kernel doesn't know. So
their states can be joined with that of Linux."""
from __future__ import annotations

from typing import Dict, Iterator, List, Set, Tuple

from cmh_proc.calls import EPOLLS, READ, SETS, int32
from cmh_proc.open_files import OpenFile

from .files import AT_LISTENER
from .frames import OWN_THREADS
from .machine import Host, LinuxThread, Owner, Row

Connections = Dict[str, Dict[str, List[str]]]
# Programs whose states say who is at the other end.
SERVERS = ("beam.smp", "postgres", "pgbouncer", "mariadbd", "mysqld")
HELPERS = ("epmd", "erl_child_setup", "inet_gethost")  # programs that a node of Erlang's starts for itself
GO = "go"  # the system of programs that have goroutines inside
MAPPED = "[::ffff:"  # an address of IPv4 in one of IPv6


def connections_of(machine: Host, space: str, asked: Set[int]) -> Connections:
    """Returns by the key of each connection who has its client's end, and who waits there; the threads of servers on
    this machine, which is called `space`, and of what these have begun, but for those that were asked for; these; and
    by the ports at which Go's programs listen their threads, with the other ends of all their connections."""
    rows: Connections = {}
    clients = [owner for owner in machine.owners if not owner.why and owner.command not in SERVERS]
    for owner in clients:
        add_ends(owner, machine, space, rows)
    rows.update(listeners_of([owner for owner in clients if owner.system == GO], machine, space))
    servers = [owner for owner in machine.owners if owner.command in (*SERVERS, *HELPERS)]
    begun = [owner for owner in machine.below(servers) if owner not in servers and owner.pid not in asked]
    tops = [owner for owner in machine.owners if owner.pid in asked]
    beside, kept = names_of([*servers, *begun]), names_of([*tops, *machine.below(tops)])
    return {**rows, "servers": {"beside": beside, **({"asked": kept} if kept else {})}} if rows or beside else {}


def names_of(owners: List[Owner]) -> List[str]:
    return [name for owner in dict.fromkeys(owners) for name in owner.names]


def add_ends(owner: Owner, machine: Host, space: str, rows: Connections) -> None:
    """Adds the connections of a process to servers."""
    for target, row, others in ends_of(owner, machine):
        key = key_of(row, others, space) if not is_inside(owner, others) else ""
        if key:
            made = rows.setdefault(key, {"has": [], "awaits": [], "sockets": [target]})
            made["has"] += [name for name in owner.names if name not in made["has"]]
            waits = awaited(owner, machine) if owner.system != GO else ()
            made["awaits"] += [name for name, own in waits if own == target]
            made.update({"runtime": made["has"]} if owner.system in OWN_THREADS else {})


def listeners_of(owners: List[Owner], machine: Host, space: str) -> Connections:
    """Returns by the ports at which programs of Go's listen their threads, with the other ends of their connections:
    the threads that have one, or else its key."""
    listening: Dict[str, List[Dict[str, List[str]]]] = {}
    for owner in owners:
        ends = [(row, others) for _, row, others in ends_of(owner, machine)]
        peers = (other for _, others in ends if is_inside(owner, others) for other in others)
        inside = {"has": [*owner.names],
                  "ends": [key_of(row, others, space) for row, others in ends if not is_inside(owner, others)],
                  "peers": list(dict.fromkeys(name for other in peers for name in other.names))}
        for _, row in sockets_of(owner, machine):
            if row.get("state") == AT_LISTENER and row["kind"] == "tcp":
                listening.setdefault(f"listener {row['at'].rpartition(':')[2]}", []).append(inside)
    return {key: programs[0] for key, programs in listening.items() if len(programs) == 1}


def ends_of(owner: Owner, machine: Host) -> Iterator[Tuple[str, Row, List[Owner]]]:
    """Yields each socket of a process that doesn't listen, with its row and who has its other end."""
    for target, row in sockets_of(owner, machine):
        if row.get("state") != AT_LISTENER:
            peers = (f"socket:[{peer}]" for peer in row.get("peers", ()))
            yield target, row, [other for peer in peers for other in machine.with_file(peer)]


def is_inside(owner: Owner, others: List[Owner]) -> bool:
    """Whether a connection of a program of Go's is with programs that are no servers."""
    return owner.system == GO and others != [] and not all(map(is_server, others))


def awaited(owner: Owner, machine: Host) -> List[Tuple[str, str]]:
    """Returns for each thread of a process the file at which it waits, if that is one. They are looked at once."""
    if owner not in machine.awaited:
        machine.awaited[owner] = [(thread.name, target_of(thread, machine)) for thread in owner.living]
    return machine.awaited[owner]


def sockets_of(owner: Owner, machine: Host) -> Iterator[Tuple[str, Row]]:
    """Yields each socket of a process with its row, which is empty where the kernel has told nothing of it; of a
    program of Go's but for those by which it is begun, as by systemd."""
    standard = [owner.file(fd).target for fd in range(3)] if owner.system == GO else []
    for target, number in {file.target: file.socket for file in owner.files.values() if file.socket}.items():
        if target not in standard:
            yield target, machine.sockets.get(number, {})


def is_server(owner: Owner) -> bool:
    return owner.command in SERVERS


def key_of(row: Row, others: List[Owner], space: str) -> str:
    """Returns what tells a connection from others, or nothing where its other end is of a program that is no server."""
    if not row or not all(map(is_server, others)):
        return ""
    if row["kind"] == "tcp" and row["to"]:
        return f"{plain(row['at'])} {plain(row['to'])}"
    return f"process {others[0].pid} of {space}" if len(others) == 1 and len(others[0].living) == 1 else ""


def plain(end: str) -> str:
    """Returns an end of a connection with the address of IPv4 that it has."""
    return end[len(MAPPED):].replace("]", "", 1) if end.startswith(MAPPED) else end


def target_of(thread: LinuxThread, machine: Host) -> str:
    """Returns the one descriptor's file at which a thread waits, beside those by which its own process wakes it, or
    nothing."""
    fds: List[int] = []
    if thread.call in READ and thread.arguments:
        fds = [int32(thread.arguments[0])]
    elif thread.call in (*SETS, *EPOLLS):
        fds = [row[0] for row in thread.events]
    others = [file.target for file in map(thread.owner.file, fds) if not wakes_itself(file, thread, machine)]
    return others[0] if len(others) == 1 else ""


def wakes_itself(file: OpenFile, thread: LinuxThread, machine: Host) -> bool:
    """Whether the other end of a socket is of the process itself alone, which is connected with no other."""
    row = machine.sockets.get(file.socket, {})
    peers = [f"socket:[{peer}]" for peer in row.get("peers", ())]
    return bool(peers) and row.get("state") != AT_LISTENER and all(
        machine.with_file(peer) == [thread.owner] for peer in (file.target, *peers))
