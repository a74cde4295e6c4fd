#!/usr/bin/env python3
"""Reads what the Linux kernel keeps of the clients of a broker that run on this machine: of each thread, whether it
sleeps, runs, or waits at the socket of its connection. `take-rabbitmq` calls it.

    rabbitmqctl -q list_connections pid peer_host peer_port host port --formatter json | cmh_clients.py

Or it reads an object with such a list, at "value" and "ends". It prints a line for each connection whose client is
here and can be read, as a list of JSON. What the threads of a process do stands at its first connection. A socket that
several processes have is left out. Nothing is stopped, no signal is sent, and nothing is written. It needs Python 3.8.
"""
from __future__ import annotations

import json
import platform
import socket
import struct
import sys
from collections import Counter
from typing import Dict, Iterable, Iterator, List, Sequence, Tuple, Union

from cmh_linux.processes import Collector
from cmh_linux.readers import read_all
from cmh_linux.sockets import Sockets, address, plain, tcp_of
from cmh_proc import process
from cmh_proc.calls import MACHINES, READ, SETS, WRITES, has_limit
from cmh_proc.open_files import EVENTFD, OpenFile
from cmh_proc.process import Row, parent_of, pids, row_of

Files = Dict[int, List[int]]  # the processes that have a socket, by its number
ITSELF = "itself"
# Handlers of what a process does itself, of what threads send each other within glibc, and of signals that end it.
HARMLESS = (1, 2, 3, 4, 5, 6, 7, 8, 11, 13, 15, 16, 24, 25, 31, 32, 33)


def ends_of(row: Row) -> Tuple[str, str]:
    """Returns the client's end of a connection, and the broker's, as the kernel's are written."""
    return f"{host_of(row['peer_host'])}:{row['peer_port']}", f"{host_of(row['host'])}:{row['port']}"


def host_of(numbers: Union[str, Sequence[int]]) -> str:
    """Returns an address, given as text, as four bytes, or as eight numbers. One of IPv4 within IPv6 is that of IPv4.
    """
    if isinstance(numbers, str):
        it = numbers.replace("::ffff:", "", 1) if "." in numbers else numbers
        return f"[{it}]" if ":" in it else it
    if len(numbers) == 4:
        return ".".join(map(str, numbers))
    data = struct.pack(">8H", *numbers)
    is_mapped = data[:12] == bytes(10) + b"\xff\xff"
    return ".".join(map(str, data[12:])) if is_mapped else f"[{socket.inet_ntop(socket.AF_INET6, data)}]"


def sockets_here() -> Dict[Tuple[str, str], int]:
    """Returns the numbers of the sockets of this machine, by their two ends."""
    rows = tcp_of(process.link_of("/proc/self/ns/net")[5:-1], "self")
    return {(address(plain(row.here)), address(plain(row.there))): row.inode for row in rows if row.inode}


def files_of(numbers: Iterable[int]) -> Files:
    """Returns which processes have some sockets, as far as this user may see that."""
    found: Files = {number: [] for number in numbers}
    for pid in pids():
        for number in {OpenFile(target).socket for target in process.files_of(pid).values()}.intersection(found):
            found[number].append(pid)
    return found


class Client:
    """A client's process, as it is read."""

    def __init__(self, row: Row, sockets: Sockets) -> None:
        self.row, self.sockets = row, sockets
        self.own = {file.socket for file in row["fds"].values()} - {0}
        self.pipes = Counter(file.target for file in row["fds"].values() if file.is_pipe)

    def threads(self, connections: Dict[int, str]) -> List[Row]:
        """Returns what its threads do: the call of each, whether that has a limit, and at what it waits."""
        return [self.thread(thread, connections) for thread in self.row["threads"]]

    def thread(self, thread: Row, connections: Dict[int, str]) -> Row:
        found = {key: thread[key] for key in ("tid", "state", "call") if key in thread}
        if "args" in thread:
            found["limit"] = has_limit(thread["call"], [int(it, 16) for it in thread["args"]])
            found["at"] = self.place(thread, connections)
            found["count"] = thread["counts"][0]
        return found

    def waiters(self) -> Dict[int, List[int]]:
        """Returns by each socket the threads that wait at it. Of several threads one may wait at all connections of the
        process."""
        waiters: Dict[int, List[int]] = {}
        for thread in self.row["threads"] if len(self.row["threads"]) > 1 else ():
            for number in {self.file(fd).socket for fd, *_ in thread.get("set", ())}:
                waiters.setdefault(number, []).append(thread["tid"])
        return waiters

    def place(self, thread: Row, connections: Dict[int, str]) -> str:
        """Returns at what a thread waits: a connection, what only its own process ends, or nothing for what else there
        is."""
        files = [self.file(fd) for fd, *_ in thread.get("set", ())]
        found = [connections[file.socket] for file in files if file.socket in connections]
        others = [file for file in files if file.socket not in connections]
        is_own = thread["call"] == "futex" or bool(files) and all(map(self.is_own, others))
        return "" if not is_own or found[1:] else found[0] if found else ITSELF

    def is_deaf(self, connections: Dict[int, str]) -> bool:
        """Whether it does nothing before something comes at one connection: its only thread waits there alone and
        without a limit, and it has no timer, no handler of a signal that may come by itself, and nobody who traces it.
        Nor has one from whom it descends a timer, as `timeout` has, which ends it then."""
        row, living = self.row, [it for it in self.row["threads"] if it["state"] not in "ZX"]
        caught = int(row.get("SigCgt", "0"), 16) & ~sum(1 << it - 1 for it in HARMLESS)
        is_bare = not caught and not row.get("timers") and row.get("TracerPid") == "0"
        has_ring = any(file.is_ring or (file.carried, file.kept) != (None, None) for file in row["fds"].values())
        return len(living) == 1 and is_bare and not has_ring and self.waits_there(living[0], connections) \
            and not any(row_of(f"/proc/{pid}/timers") for pid in above(row["ppid"]))

    def is_own(self, file: OpenFile) -> bool:
        """Whether the other end of a file is of the process itself, as that by which it wakes itself."""
        peers = self.sockets.rows.get(file.socket, {}).get("peers", ())
        is_to_itself = file.target == EVENTFD or self.pipes[file.target] > 1
        return is_to_itself or bool(peers) and self.own.issuperset(peers)

    def file(self, fd: int) -> OpenFile:
        found: OpenFile = self.row["fds"].get(str(fd), OpenFile(""))
        return found

    def waits_there(self, thread: Row, connections: Dict[int, str]) -> bool:
        """Whether a thread waits to read from one connection, and for nothing else."""
        if thread["state"] != "S" or thread["pending"] or thread.get("call") not in (*READ, *SETS):
            return False
        files = [(self.file(fd).socket, events) for fd, events in thread.get("set") or ()]
        is_limited = has_limit(thread["call"], [int(it, 16) for it in thread["args"]])
        return not is_limited and len(files) == 1 and files[0][0] in connections and not files[0][1] & WRITES


def above(pid: int) -> Iterator[int]:
    """Yields a process and those from whom it descends."""
    while pid > 0:
        yield pid
        pid = parent_of(pid)


def clients(rows: List[Row]) -> Iterator[Row]:
    """Yields what is known of the clients of some connections."""
    here = sockets_here()
    connections = {here[ends_of(row)]: row["pid"] for row in rows if ends_of(row) in here}
    ends = {row["pid"]: ends_of(row)[0] for row in rows}
    owners = {number: pids[0] for number, pids in files_of(connections).items() if len(pids) == 1}
    read = read_all(Collector(), list({*owners.values()}))
    found = {row["pid"]: row for row in read if "threads" in row and "unreadable" not in row}
    sockets = Sockets([*found.values()])
    for pid, row in found.items():
        yield from connections_of(Client(row, sockets), [it for it, owner in owners.items() if owner == pid],
                                  connections, ends)


def connections_of(process: Client, numbers: List[int], connections: Dict[int, str],
                   ends: Dict[str, str]) -> Iterator[Row]:
    """Yields the connections of a process: the first with what its threads do, and each other one with the first one's
    name. Where a thread waits at this one, among others, it says so."""
    waiters, is_deaf = process.waiters(), process.is_deaf(connections)
    more: Row = {"threads": process.threads(connections)}
    for number in numbers:
        name = connections[number]
        yield {"connection": name, "process": process.row["pid"], "end": ends[name], "is_deaf": is_deaf,
               "waiters": waiters.get(number, []), **more}
        more = {"as": connections[numbers[0]]}


def main() -> int:
    rows = json.load(sys.stdin)
    rows = rows["value"]["ends"] if isinstance(rows, dict) else rows
    rows = rows if platform.machine() in MACHINES else []  # (whose calls are known)
    print(json.dumps([*clients(rows)]).replace("}, {\"connection", "}\n,{\"connection"))
    return 0


if __name__ == "__main__":
    sys.exit(main())
