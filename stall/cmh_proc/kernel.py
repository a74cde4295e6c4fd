"""What processes share and have in memory, as the kernel says it, and what is of System V."""
from __future__ import annotations

import os
import platform
import re
from typing import Any, Iterator, List, NamedTuple, Optional

from .budget import Budget
from .door import LIBC
from .process import try_link, try_text

KCMP_FILE, KCMP_VM, KCMP_FILES, KCMP_EPOLL = 0, 1, 2, 7
DELETED = " (deleted)"  # behind the name of a file that is gone
MAPPING = re.compile(r"^([0-9a-f]+)-([0-9a-f]+) (....) ([0-9a-f]+) ([0-9a-f]+:[0-9a-f]+) (\d+) *(.*)$", re.M)


class Mapping(NamedTuple):
    """What is mapped into memory: where, in which way, from where in a file, and its device, number and path."""

    first: int
    last: int
    way: str
    offset: int
    device: str
    number: int
    path: str

    @property
    def is_shared(self) -> bool:
        return self.way.endswith("s")

    @property
    def has_code(self) -> bool:
        return self.way[2] == "x"


def mappings_in(text: str) -> Iterator[Mapping]:
    """Yields what a text of the kernel says of what is mapped."""
    for first, last, way, offset, device, number, path in (match.groups() for match in MAPPING.finditer(text)):
        yield Mapping(int(first, 16), int(last, 16), way, int(offset, 16), device, int(number), path)


def sysvipc_row(kind: str, number: int, folder: str, budget: Budget) -> Optional[List[str]]:
    """Returns what the kernel has of one of a kind of System V, if a process sees the same as this one."""
    if try_link(f"{folder}/ns/ipc") != try_link("/proc/self/ns/ipc"):
        return None
    text = try_text(f"/proc/sysvipc/{kind}")
    budget.spend(len(text))
    row = re.search(rf"^ *-?\d+ +{number} .*", text, re.M)
    return row[0].split() if row else None


def pid_of(folder: str) -> int:
    number = folder.rpartition("/")[2]
    return os.getpid() if number == "self" else int(number)


def kcmp(one: int, other: int, kind: int, *more: Any) -> int:
    """Returns 0 if two processes share something, more if they don't, how they are ordered by it, and -1 if the kernel
    doesn't say."""
    call = {"x86_64": 312, "aarch64": 272}.get(platform.machine(), -1)
    return int(LIBC.syscall(call, one, other, kind, *more))
