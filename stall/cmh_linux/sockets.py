"""The sockets of a machine, each with its other ends."""
from __future__ import annotations

import re
import socket
import struct
from typing import Dict, Iterator, List, Tuple

from cmh_proc.budget import BUDGET
from cmh_proc.door import kernel_text, link, status, status_within
from cmh_proc.netlink import CONNECTED, LISTENS, TcpSocket, UnixSocket, tcp_sockets, unix_sockets
from cmh_proc.process import Row

MAPPED = bytes(10) + b"\xff\xff"  # how an address of IPv4 begins among those of IPv6
KINDS = {1: "u_str", 2: "u_dgr", 5: "u_seq"}  # of Unix sockets
STATES = {CONNECTED: "ESTAB", 7: "UNCONN", LISTENS: "LISTEN"}
NAMELESS = "*"
ROW_SIZE = 1000  # bytes that a socket takes here
MOST_TEXT = 1 << 26
TCP_ROW = re.compile(r" *\d+: ([0-9A-F]+):([0-9A-F]{4}) ([0-9A-F]+):([0-9A-F]{4}) ([0-9A-F]{2}) [0-9A-F]+:([0-9A-F]+)"
                     r" ([0-9A-F]{2}):[0-9A-F]+ [0-9A-F]+ +\d+ +\d+ (\d+)")
End = Tuple[bytes, int]


class Sockets:
    """The sockets of all network namespaces: each with its other ends. A number of a file is that of one socket.
    `listening` has those that listen by what is asked for: a name, or the file that has it."""

    def __init__(self, processes: List[Row]) -> None:
        self.rows: Dict[int, Row] = {}
        self.warnings: List[str] = []
        self.listening: Dict[str, List[int]] = {}
        spaces: Dict[str, List[int]] = {}
        for row in processes:
            if row.get("net"):
                spaces.setdefault(row["net"], []).append(row["pid"])
        own = link("/proc/self/ns/net")[5:-1]
        for net, pids in spaces.items():
            # One of the processes may have ended by now.
            there = (str(pid) for pid in pids if is_of(pid, net))
            pid = "self" if net == own else next(there, "")
            if pid:
                self.add_space(net, pid)

    def add_space(self, net: str, pid: str) -> None:
        """Adds the sockets of a network namespace that a process has. If those of one kind can't be read, none of that
        kind is known."""
        try:
            self.add_unix(net, unix_sockets(net, pid))
        except OSError as error:
            self.warnings.append(f"Unix sockets can't be read: {error}")
        try:
            self.add_tcp(tcp_of(net, pid))
        except OSError as error:
            self.warnings.append(f"TCP sockets can't be read: {error}")

    def add_unix(self, net: str, sockets: List[UnixSocket]) -> None:
        BUDGET.spend(ROW_SIZE * len(sockets))
        busy: List[int] = []
        for one in sockets:
            self.rows[one.inode] = {"kind": KINDS.get(one.kind, "u_str"), "at": in_words(one.name),
                                    "state": STATES.get(one.state, f"{one.state:02X}"), "to": "",
                                    "peers": [one.peer] if one.peer else []}
            for key in keys_of(net, one) if one.state == LISTENS else ():
                self.listening.setdefault(key, []).append(one.inode)
            busy += [one.inode] if one.state == LISTENS and one.queue else []
        for one in sockets:  # (one whose connection isn't accepted yet belongs to all that listen and have such a one)
            if one.state == CONNECTED and not one.peer:
                self.rows[one.inode]["peers"] = busy

    def add_tcp(self, sockets: List[TcpSocket]) -> None:
        BUDGET.spend(ROW_SIZE * len(sockets))
        ends = {(plain(one.here), plain(one.there)): one for one in sockets}
        listeners: Dict[int, List[TcpSocket]] = {}
        for one in sockets:
            if one.state == LISTENS:
                listeners.setdefault(one.here[1], []).append(one)
        local = {here[0] for here, _ in ends}
        for one in sockets:
            here, there = plain(one.here), plain(one.there)
            other = ends.get((there, here))
            peers = [taker.inode for taker in listeners.get(there[1], ()) if takes(taker, there)] \
                if other and not other.inode else [other.inode] if other else []
            if one.inode:
                self.rows[one.inode] = {
                    "kind": "tcp", "state": "LISTEN" if one.state == LISTENS else f"{one.state:02X}",
                    "at": address(here), "to": address(there), "peers": peers, "timer": bool(one.timer),
                    "away": not (there[0] in local or is_loopback(there[0])), "unread": other.queue if other else 0}


def is_of(pid: int, net: str) -> bool:
    """Whether a process is there, in a network namespace."""
    try:
        return str(status(f"/proc/{pid}/ns/net").st_ino) == net
    except OSError:
        return False


def tcp_of(net: str, pid: str) -> List[TcpSocket]:
    """Returns the sockets of TCP of a network namespace. Where this user may not go there they stand in /proc too, by
    numbers alone."""
    try:
        return tcp_sockets(net, pid)
    except OSError:
        return [row for name in ("tcp", "tcp6") for row in tcp_rows(kernel_text(f"/proc/{pid}/net/{name}", MOST_TEXT))]


def tcp_rows(text: str) -> Iterator[TcpSocket]:
    for words in TCP_ROW.findall(text):
        here, there = ((bytes_of(digits), int(port, 16)) for digits, port in (words[:2], words[2:4]))
        yield TcpSocket(int(words[7]), int(words[4], 16), here, there, int(words[6], 16), int(words[5], 16))


def bytes_of(digits: str) -> bytes:
    """Returns an address of the kernel's words of it, each of which is a number."""
    return b"".join(struct.pack("=I", int(digits[start:start + 8], 16)) for start in range(0, len(digits), 8))


def in_words(name: bytes) -> str:
    """Returns the name of a Unix socket in one line, with an @ for what begins a name that is no path."""
    text = (b"@" + name[1:] if name[:1] == b"\0" else name).decode("utf-8", "backslashreplace")
    plain_text = "".join(sign if sign.isprintable() else sign.encode("unicode_escape").decode() for sign in text)
    return NAMELESS if not name else "./*" if plain_text == NAMELESS else plain_text


def keys_of(net: str, one: UnixSocket) -> Iterator[str]:
    """Yields by what one that listens is asked for: the file that it was bound to, as the kernel knows that, or a name
    that is no path. What a path is called says nothing: somebody may call another file the same."""
    if one.name.startswith(b"\0"):
        yield f"{net} {key_of_name(one.name)}"
    elif one.file is not None:
        yield key_of_file(*one.file)


def key_of_name(name: bytes) -> str:
    return f"name {name.hex()}"


def key_of_file(device: int, number: int) -> str:
    return f"file {device:x}:{number & 0xFFFFFFFF}"


def key_of_connect(folder: str, name: bytes) -> str:
    """Returns by what a process with a folder in /proc asks for one that listens, or nothing where that isn't known."""
    if name.startswith(b"\0"):
        return key_of_name(name)
    try:
        there = status_within(folder, name.partition(b"\0")[0])
    except OSError:
        return ""
    return key_of_file(there.st_dev, there.st_ino)


def plain(end: End) -> End:
    """Returns an end with the address of IPv4 that it has within IPv6."""
    return (end[0][12:], end[1]) if len(end[0]) == 16 and end[0].startswith(MAPPED) else end


def takes(listener: TcpSocket, end: End) -> bool:
    """Whether one that listens takes connections to an end. One of all addresses of IPv6 takes those of IPv4 too."""
    here = plain(listener.here)
    return here[1] == end[1] and (here[0] == end[0] or not any(here[0]))


def is_loopback(where: bytes) -> bool:
    return len(where) == 4 and where[0] == 127 or where == bytes(15) + b"\1"


def address(end: End) -> str:
    """Returns '127.0.0.1:80' of an end."""
    if len(end[0]) == 4:
        return f"{socket.inet_ntop(socket.AF_INET, end[0])}:{end[1]}"
    return f"[{socket.inet_ntop(socket.AF_INET6, end[0])}]:{end[1]}"
