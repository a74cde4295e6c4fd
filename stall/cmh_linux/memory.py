"""Which memory the threads at a futex stand at, and who else has that."""
from __future__ import annotations

import contextlib
import re
import time
from typing import Dict, Iterator, List, Optional, Tuple

from cmh_proc import door
from cmh_proc.budget import OF_ONE, Budget
from cmh_proc.calls import PRIVATE
from cmh_proc.kernel import DELETED, KCMP_VM, Mapping, kcmp, mappings_in, sysvipc_row
from cmh_proc.process import Row, try_text


FILE = "file"
NAMELESS = re.compile(r"/(dev/zero|memfd:.*) \(deleted\)")  # memory that never had a name
SEGMENT = re.compile(r"/SYSV[0-9a-f]{8} \(deleted\)")  # memory of System V
DESTROYED = 0o1000  # SHM_DEST: a segment that goes with the last one who has it
MOST_OF_ONE, SECONDS_OF_ONE = 1 << 27, 5.0  # of what is read of the memory of one process, and isn't kept
MAPPING_SIZE = 600  # bytes that a row takes here


def names_of_memory(row: Row) -> Iterator[str]:
    """Notes of each thread of a process at a futex which memory that is of. Yields what several processes may have."""
    maps: Optional[List[Tuple[int, int, str]]] = None
    for thread in row["threads"]:
        if thread.get("call") == "futex":
            address, is_own = int(thread["args"][0], 16), int(thread["args"][1], 16) & PRIVATE
            maps = mappings(row["living"]) if maps is None and not is_own else maps
            name = "" if is_own else next((name for first, last, name in maps or () if first <= address < last), FILE)
            if name != FILE:
                thread["memory"] = name
                yield from filter(None, [name])


def mappings(pid: int) -> List[Tuple[int, int, str]]:
    """Returns where memory of a process begins and ends, with a name of what other processes may have too. Who has a
    file isn't known, as anybody may open it, and pages of it are shared too where a process has it for itself. Raises
    Refused if there is too much of it."""
    budget, found = Budget(MOST_OF_ONE, SECONDS_OF_ONE, OF_ONE), []
    for one in mappings_in(try_text(f"/proc/{pid}/maps")):
        budget.spend(MAPPING_SIZE)
        is_shared = one.is_shared and is_nameless(pid, one, budget)
        found.append((one.first, one.last, "" if not one.is_shared and not one.number else
                      f"memory {one.device} {one.number}" if is_shared else FILE))
    return found


def is_nameless(pid: int, one: Mapping, budget: Budget) -> bool:
    """Whether nobody can open what a process has mapped by a name. One name may be gone and another one still be there:
    so it is with a semaphore that `sem_open` has made. Memory of System V anybody may attach by its number or key until
    it is destroyed."""
    if SEGMENT.fullmatch(one.path):
        return is_destroyed(pid, one.number, budget)
    with contextlib.suppress(OSError):
        return bool(NAMELESS.fullmatch(one.path)) or (one.path.endswith(DELETED) and door.status(
            f"/proc/{pid}/map_files/{one.first:x}-{one.last:x}").st_nlink == 0)
    return False


def is_destroyed(pid: int, number: int, budget: Budget) -> bool:
    """Whether a segment of System V that a process has is destroyed. The number of its file is that of the segment."""
    row = sysvipc_row("shm", number, f"/proc/{pid}", budget)
    return row is not None and bool(int(row[2], 8) & DESTROYED)


def add_kin(rows: List[Row]) -> None:
    """Adds to each process with a thread at a futex those that have all its memory, as one that was made by vfork. They
    run the same program. Where the kernel doesn't say so, nothing is known of any. One with so many that might that it
    takes too long can't be read."""
    last = time.monotonic() + SECONDS_OF_ONE
    programs: Dict[str, List[Row]] = {}
    for row in rows:
        programs.setdefault(row.get("exe", ""), []).append(row)
    for row in rows:
        pid = row.get("living", 0)
        if any("memory" in one for one in row.get("threads", ())) and kcmp(pid, pid, KCMP_VM) == 0:
            row["kin"] = [one["pid"] for one in programs[row["exe"]] if one is not row and time.monotonic() < last
                          and kcmp(pid, one.get("living", 0), KCMP_VM) == 0]
            if time.monotonic() > last:
                row["unreadable"] = "who has its memory wasn't found in time"
