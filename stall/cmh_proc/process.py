"""What the kernel says of processes. What isn't there, or may not be read, is nothing; so is what is too large."""
from __future__ import annotations

import contextlib
import os
import signal
from typing import Any, Dict, List, Optional, Tuple

from .budget import Refused
from .door import MOST, MOST_PIDS, field, kernel_bytes, kernel_row, kernel_text, link, names, plain, rest, tids

MOST_FILES = 1 << 20  # of a process
MOST_LINES, MOST_TEXT = 1 << 20, 1 << 25  # bytes of what the kernel says of a descriptor, and of a process or of all
MOST_WORDS = 8 << 20  # bytes of its command line, or of its environment
Row = Dict[str, Any]  # what is known of a process, a thread or a socket, as a state has it
IN_MEMORY = "/memfd:{} "  # how the kernel calls a file in memory
LONGEST_NAME = 32  # bytes of the name of a signal


def pids() -> List[int]:
    """Returns the processes that are seen here, in their order."""
    return sorted(map(int, filter(str.isdigit, names("/proc", MOST_PIDS))))


def threads_of(pid: int) -> List[int]:
    with contextlib.suppress(OSError):
        return tids(pid)
    return []


def bytes_of(path: str, most: int = MOST) -> bytes:
    """Returns what the kernel writes into a file of /proc."""
    with contextlib.suppress(OSError):
        return kernel_bytes(path, most)
    return b""


def text_of(path: str, most: int = MOST) -> str:
    return bytes_of(path, most).decode("utf-8", "backslashreplace")


def row_of(path: str) -> str:
    """Returns what one read of such a file gives, also where the time of the look is over."""
    with contextlib.suppress(OSError):
        return kernel_row(path)
    return ""


def try_text(path: str) -> str:
    """Returns a text of the kernel. Raises Refused if it is too large."""
    try:
        return kernel_text(path, MOST_TEXT)
    except Refused:
        raise
    except OSError:
        return ""


def try_lines(path: str) -> List[str]:
    return try_text(path).rstrip("\n").split("\n")


def lines_of(path: str, beginnings: Tuple[str, ...]) -> List[str]:
    """Returns the lines of a file of /proc that begin so. Raises OSError where it isn't there, or is too large."""
    text = kernel_text(path, MOST_LINES)
    return [" ".join(line.split()) for line in text.split("\n") if line.startswith(beginnings)]


def stat_of(folder: str) -> List[str]:
    """Returns the fields of the file `stat` of a process or thread behind its name: the state is the first."""
    return row_of(f"{folder}/stat").rpartition(")")[2].split()


def parent_of(pid: int) -> int:
    """Returns the parent of a process, or 0."""
    return int((stat_of(f"/proc/{pid}")[1:] or ["0"])[0])


def status_of(folder: str, key: str) -> List[str]:
    """Returns the words behind a key of the file `status`."""
    return field(row_of(f"{folder}/status"), key).split()


def inner_number(folder: str, number: int) -> int:
    """Returns the number of a process or a thread as it sees it itself, which is another one in a container."""
    return int((status_of(folder, "NSpid") or [str(number)])[-1])


def user_of(pid: int) -> Optional[int]:
    """Returns the user of a process."""
    with contextlib.suppress(OSError):
        return os.stat(f"/proc/{pid}").st_uid
    return None


def name_of(pid: int) -> str:
    """Returns the name of the program that a process runs."""
    return os.path.basename(link_of(f"/proc/{pid}/exe"))


def link_of(path: str) -> str:
    with contextlib.suppress(OSError):
        return link(path)
    return ""


def try_link(path: str) -> str:
    """Returns what a link says. Raises PermissionError where that may not be read."""
    try:
        return link(path)
    except FileNotFoundError:
        return ""


def files_of(pid: int) -> Dict[str, str]:
    """Returns what the descriptors of a process are, as far as our user may see that, by their paths."""
    folder = f"/proc/{pid}/fd"
    with contextlib.suppress(OSError):
        return {path: link_of(path) for path in (f"{folder}/{number}" for number in names(folder, MOST_FILES))}
    return {}


def environment_of(pid: int) -> Dict[bytes, bytes]:
    """Returns the variables with which a process has begun."""
    rows = (row.partition(b"=") for row in bytes_of(f"/proc/{pid}/environ", MOST_WORDS).split(b"\0"))
    return {name: value for name, is_set, value in rows if is_set}


def files_in_memory(pid: int, name: str) -> List[str]:
    """Returns the paths of the files in memory that a process has open under a name. A plain file or a FIFO may be
    called so too, in a file system that the process has made itself."""
    called = IN_MEMORY.format(name)
    return [path for path, target in files_of(pid).items() if target.startswith(called) and is_in_memory(path)]


def is_in_memory(path: str) -> bool:
    """Whether a file lies in the file system that the kernel has for files in memory, as one of our own does."""
    own = os.memfd_create("cmh")
    try:
        with plain(path) as handle:
            there = os.fstat(handle)
        return there.st_nlink == 0 and there.st_dev == os.fstat(own).st_dev
    except OSError:
        return False
    finally:
        os.close(own)


def state_signal(pid: int) -> int:
    """Returns the signal at which a Python process prints its state, which has loaded cmh_state, or 0. It stands in a
    file in memory, and the process has a handler of it: a signal that no handler takes would end it."""
    caught = int((status_of(f"/proc/{pid}", "SigCgt") or ["0"])[0], 16)
    for path in files_in_memory(pid, "cmh_state"):
        with contextlib.suppress(OSError), plain(path) as handle:
            number = signal.Signals.__members__.get(rest(handle, LONGEST_NAME).decode("ascii", "replace"), 0)
            if number and caught >> number - 1 & 1:
                return int(number)
    return 0
