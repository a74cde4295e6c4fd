"""The sockets of a network namespace, as the kernel lists them by netlink: with names as bytes, each in its own row."""
from __future__ import annotations

import contextlib
import ctypes
import os
import socket
import struct
import threading
from typing import Dict, Iterable, Iterator, List, NamedTuple, Optional, Tuple

from .budget import BUDGET, Refused
from .door import LIBC

SOCK_DIAG, BY_FAMILY, DUMP = 4, 20, 0x301  # the protocol, the kind of a request, and that all are asked for
FAULT, DONE = 2, 3  # kinds of messages
NAME, FILE, PEER, QUEUES = 0, 1, 2, 4  # what a row of a Unix socket may have besides
SHOW = 1 << NAME | 1 << FILE | 1 << PEER | 1 << QUEUES
ALL_STATES = 0xFFFFFFFF
TCP = 6
LISTENS, CONNECTED = 10, 1  # states of a socket
NEW_NETWORK = 0x40000000  # CLONE_NEWNET
MINOR = 20  # bits of a device's number, as the kernel has it
LARGEST = 1 << 16  # bytes of a message
PATIENCE = 10.0  # seconds for the next one


class UnixSocket(NamedTuple):
    """`name` is what it was bound to, as it was given, `file` that file's device and number, cut to 32 bits, and
    `queue` how much has come and wasn't taken: bytes, or connections that weren't accepted."""

    inode: int
    kind: int
    state: int
    name: bytes
    file: Optional[Tuple[int, int]]
    peer: int
    queue: int


class TcpSocket(NamedTuple):
    """Its ends are addresses, as bytes, with ports. `timer` is which one the kernel has for it, or 0."""

    inode: int
    state: int
    here: Tuple[bytes, int]
    there: Tuple[bytes, int]
    timer: int
    queue: int


class Space:
    """A network namespace, by the process that has it, or this one's own."""

    def __init__(self, net: str, pid: str) -> None:
        self.net, self.pid = net, pid
        self.socket: Optional[socket.socket] = None
        self.fault: Optional[OSError] = None
        thread = threading.Thread(target=self.enter)  # (only this thread goes there)
        thread.start()
        thread.join()
        if self.fault is not None:
            raise self.fault

    def enter(self) -> None:
        try:
            if self.pid != "self":
                go_to(f"/proc/{self.pid}/ns/net", self.net)
            self.socket = socket.socket(socket.AF_NETLINK, socket.SOCK_RAW | socket.SOCK_CLOEXEC, SOCK_DIAG)
            self.socket.settimeout(PATIENCE)
        except OSError as error:
            self.fault = error

    def close(self) -> None:
        if self.socket is not None:
            self.socket.close()

    def rows(self, request: bytes) -> Iterator[bytes]:
        """Yields what the kernel answers to a request."""
        assert self.socket is not None
        self.socket.sendto(struct.pack("=IHHII", 16 + len(request), BY_FAMILY, DUMP, 1, 0) + request, (0, 0))
        while True:
            data, (sender, _) = self.socket.recvfrom(LARGEST)
            BUDGET.spend(len(data))
            for kind, body in messages(data) if sender == 0 else ():
                if kind == DONE:
                    return
                if kind == FAULT:
                    number = -int(struct.unpack_from("=i", body)[0])
                    raise OSError(number, os.strerror(number))
                yield body


def go_to(path: str, net: str) -> None:
    """Has this thread go to a network namespace, if that still is the one of some number."""
    handle = os.open(path, os.O_RDONLY | os.O_CLOEXEC)
    try:
        if str(os.fstat(handle).st_ino) != net:
            raise ProcessLookupError
        if LIBC.setns(handle, NEW_NETWORK):
            raise OSError(ctypes.get_errno(), os.strerror(ctypes.get_errno()))
    finally:
        os.close(handle)


def messages(data: bytes) -> Iterator[Tuple[int, bytes]]:
    """Yields the kind and the content of each message of some bytes."""
    while len(data) >= 16:
        length, kind = struct.unpack_from("=IH", data)
        if not 16 <= length <= len(data):
            raise Refused("the kernel's list of sockets isn't whole")
        yield kind, data[16:length]
        data = data[length + 3 & ~3:]


def unix_socket(row: bytes) -> UnixSocket:
    _, kind, state, inode = struct.unpack_from("=BBBxI", row)
    more = attributes(row[16:])
    name = more.get(NAME, b"")
    number, device = struct.unpack("=II", more[FILE]) if len(more.get(FILE, b"")) == 8 else (0, 0)
    return UnixSocket(inode, kind, state, name if name.startswith(b"\0") else name.partition(b"\0")[0],
                      (os.makedev(device >> MINOR, device & (1 << MINOR) - 1), number) if number else None,
                      struct.unpack_from("=I", more.get(PEER, bytes(4)))[0],
                      struct.unpack_from("=I", more.get(QUEUES, bytes(8)))[0])


def attributes(data: bytes) -> Dict[int, bytes]:
    """Returns the attributes of a row by their numbers."""
    found: Dict[int, bytes] = {}
    while len(data) >= 4:
        length, number = struct.unpack_from("=HH", data)
        if not 4 <= length <= len(data):
            raise Refused("the kernel's list of sockets isn't whole")
        found[number] = data[4:length]
        data = data[length + 3 & ~3:]
    return found


def tcp_socket(row: bytes) -> TcpSocket:
    family, state, timer = struct.unpack_from("=BBB", row)
    port, other_port = struct.unpack_from("!HH", row, 4)
    size = 4 if family == socket.AF_INET else 16
    queue, inode = struct.unpack_from("=I8xI", row, 56)
    return TcpSocket(inode, state, (row[8:8 + size], port), (row[24:24 + size], other_port), timer, queue)


def rows(net: str, pid: str, requests: Iterable[bytes]) -> List[bytes]:
    """Returns what the kernel answers to some requests in a network namespace: that of a process, or this one's own.
    Raises OSError if this user may not go there, or the kernel doesn't know such requests."""
    with contextlib.closing(Space(net, pid)) as space:
        return [row for request in requests for row in space.rows(request)]


def unix_sockets(net: str, pid: str = "self") -> List[UnixSocket]:
    request = struct.pack("=BBHIIIII", socket.AF_UNIX, 0, 0, ALL_STATES, 0, SHOW, 0, 0)
    return list(map(unix_socket, rows(net, pid, [request])))


def tcp_sockets(net: str, pid: str = "self", states: int = ALL_STATES) -> List[TcpSocket]:
    requests = [struct.pack("=BBBBI48x", family, TCP, 0, 0, states) for family in (socket.AF_INET, socket.AF_INET6)]
    return list(map(tcp_socket, rows(net, pid, requests)))
