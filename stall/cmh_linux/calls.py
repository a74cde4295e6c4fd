"""What a call of the kernel waits at: its descriptors, and what else of it stands in memory."""
from __future__ import annotations

import ctypes
import os
import re
import socket
import struct
import sys
from typing import Counter, Dict, List, Optional

from cmh_proc.calls import (AT_FIRST, EPOLLS, EVENTS, IPC, ONESHOT, OPENS, PAIRS, QUEUES, READS, SETS, WRITE, WRITES,
                            int32)
from cmh_proc.door import LIBC, field, kernel_row, kernel_text
from cmh_proc.kernel import KCMP_EPOLL, kcmp, pid_of, sysvipc_row
from cmh_proc.memory import Memory
from cmh_proc.process import MOST_TEXT, Row, try_lines

from .sockets import in_words, key_of_connect

GETPID = 11
ENTRY_SIZE = 120  # bytes that a descriptor of a set takes here
MOST_SEMAPHORES = 1 << 16
NOT_EMPTY = re.compile(rb"[^\0]")
LONGEST_NAME = 110  # bytes of the address of a Unix socket


def set_of(call: str, args: List[int], memory: Memory) -> Optional[List[List[int]]]:
    """Returns each descriptor of a call with the events that it waits for, or None if its set can't be read."""
    if call in SETS:
        return polled(args, memory) if call.endswith("poll") else selected(args, memory)
    if call in EPOLLS:
        return epolled(int32(args[0]), memory)
    if call in PAIRS:
        source, target = PAIRS[call]
        return [[int32(args[source]), READS], [int32(args[target]), WRITES]]
    way = WRITES if call in (*WRITE, QUEUES[0]) else READS
    return [[int32(args[0]), way]] if call in AT_FIRST else None


def polled(args: List[int], memory: Memory) -> Optional[List[List[int]]]:
    data = memory.read(args[0], 8 * args[1])
    if len(data) != 8 * args[1]:
        return None
    memory.budget.spend(ENTRY_SIZE * args[1])
    return [[fd, events & 0xFFFF] for fd, events, _ in struct.iter_unpack("=ihh", data) if fd >= 0]


def selected(args: List[int], memory: Memory) -> Optional[List[List[int]]]:
    """Returns the set of a `select`. The kernel looks at no more descriptors than a process has room for."""
    number = min(int32(args[0]), int(field(kernel_row(f"{memory.folder}/status"), "FDSize")))
    size = (number + 63) // 64 * 8
    events: Dict[int, int] = {}
    for way, address in zip((READS, WRITES, READS), args[1:4]):
        data = memory.read(address, size) if address else b"\0" * size
        if len(data) != size:
            return None
        memory.budget.spend(8 * ENTRY_SIZE * (size - data.count(0)))
        for fd in bits_of(data, number):
            events[fd] = events.get(fd, 0) | way
    return [[fd, way] for fd, way in events.items()]


def bits_of(data: bytes, number: int) -> List[int]:
    """Returns which of the first bits of some bytes are set."""
    bits = (8 * match.start() + bit for match in NOT_EMPTY.finditer(data) for bit in range(8) if match[0][0] >> bit & 1)
    return [bit for bit in bits if bit < number]


def epolled(fd: int, memory: Memory) -> Optional[List[List[int]]]:
    """Returns the set of an epoll, each with the number of its file, which tells if the descriptor is another by now,
    or -1 if the kernel says that it is.
    """
    try:
        text = kernel_text(f"{memory.folder}/fdinfo/{fd}", MOST_TEXT)
    except FileNotFoundError:
        return None
    memory.budget.spend(5 * len(text))
    rows = re.findall(r"^tfd: +(\d+) events: +([0-9a-f]+) .*?(?:ino:([0-9a-f]+))?(?: sdev:.*)?$", text, re.M)
    pid, files = pid_of(memory.folder), []
    times: Counter[str] = Counter()
    for target, events, number in rows:  # (one stands there twice if it is of two files)
        slot = (ctypes.c_uint32 * 3)(fd, int(target), times[target])
        is_other = kcmp(pid, pid, KCMP_EPOLL, int(target), ctypes.byref(slot)) > 0
        files.append([int(target), int(events, 16) & (EVENTS | ONESHOT), -1 if is_other else int(number or "0", 16)])
        times[target] += 1
    return files


def besides(call: str, args: List[int], memory: Memory) -> Row:
    """Returns what else of a call stands in memory: the words of a futex, and the path of a file or a socket."""
    if call == "futex":
        data = memory.read(args[0], 32)
        return {"words": data.hex()} if data else {}
    if call == "fcntl":
        data = memory.read(args[2], 24)
        return {"range": list(struct.unpack("=hhxxxxqq", data))} if len(data) == 24 else {}
    if call in IPC:
        return ipc_of(call[:3], int32(args[0]), memory)
    if call == "rt_sigtimedwait":
        data = memory.read(args[0], 8)
        return {"mask": f"{int.from_bytes(data, sys.byteorder):x}"} if len(data) == 8 else {}
    if call in ("sendmsg", "sendmmsg"):
        return {"addressed": call == "sendmmsg" or memory.read(args[1], 8) != bytes(8)}
    if call in OPENS:
        return {"path": memory.text(args[0] if call == "open" else args[1])}
    if call == "connect":
        data = memory.read(args[1], min(args[2], LONGEST_NAME))
        family = int.from_bytes(data[:2], sys.byteorder)
        return {"family": family, **(asked_for(memory.folder, data[2:]) if family == socket.AF_UNIX else {})}
    return {}


def asked_for(folder: str, name: bytes) -> Row:
    """Returns what a connection to a Unix socket asks for: the name in words, and by what those are known that have it.
    """
    path = name if name.startswith(b"\0") else name.partition(b"\0")[0]
    asks = key_of_connect(folder, path)
    return {"path": in_words(path), **({"asks": asks} if asks else {})}


def ipc_of(kind: str, number: int, memory: Memory) -> Row:
    """Returns the key of a set of semaphores, or of a queue of messages, who has used it last, and when it was made, or
    changed since."""
    row = sysvipc_row(kind, number, memory.folder, memory.budget)
    if row is None:
        return {}
    users = [int(user) for user in row[5:7]] if kind == "msg" else [
        LIBC.semctl(number, place, GETPID) for place in range(min(int(row[3]), MOST_SEMAPHORES))]
    return {"key": int(row[0]), "users": sorted({*users} - {0, -1}), "changed": ticks_of(int(row[-1]))}


def ticks_of(moment: int) -> int:
    """Returns a time of the clock as the kernel counts when a process began."""
    booted = next((int(line.split()[1]) for line in try_lines("/proc/stat") if line.startswith("btime ")), 0)
    return (moment - booted) * os.sysconf("SC_CLK_TCK")
