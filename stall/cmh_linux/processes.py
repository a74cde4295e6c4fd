"""The processes of a machine, their threads and what they have open, as its kernel shows them at one time."""
from __future__ import annotations

import contextlib
import functools
import os
import platform
import pwd
import re
import stat
from typing import Dict, Iterator, List, Optional, Tuple

from cmh_proc import door
from cmh_proc.budget import BUDGET, OF_ONE, Budget, Refused
from cmh_proc.calls import LOCKS, QUEUES, calls_of
from cmh_proc.door import field, kernel_row, kernel_text
from cmh_proc.kernel import KCMP_FILE, KCMP_FILES, kcmp, pid_of
from cmh_proc.memory import Memory
from cmh_proc.open_files import ANONYMOUS, EPOLL, EVENTFD, OF_KERNEL, SOCKET, OpenFile
from cmh_proc.process import (MOST_FILES, MOST_TEXT, Row, lines_of, row_of, status_of, try_lines, try_link,
                              user_of)
from cmh_unwind.elf import is_go

from .calls import besides, set_of
from .limits import limit_of
from .memory import mappings, names_of_memory

KERNEL_THREAD = 0x00200000
SECONDS_OF_ONE = 15.0  # that one process may take, and a half of the bytes for all
# The bytes that each row counts.
PROCESS_SIZE, THREAD_SIZE, DESCRIPTOR_SIZE, FILE_SIZE = 3000, 2500, 600, 600
CARRIES_NONE = "scm_fds: 0"  # of a socket through which no file is on its way
HEAD = ("pid", "ppid", "group", "session", "start", "state", "comm")  # what of one is known that is too large


class Collector:
    """Reads the processes of a machine, as its kernel shows them at one time."""

    def __init__(self, budget: Budget = BUDGET) -> None:
        self.budget = budget
        self.calls = calls_of(platform.machine())
        self.files: Dict[Tuple[int, int], List[HeldFile]] = {}  # who has which file open
        self.epolls: List[HeldFile] = []
        self.steps = 0  # how much was read, by which one that is read shows that it goes on
        self.refused: Dict[int, str] = {}  # the processes of which something isn't read, and why
        self.warnings: List[str] = []

    def process(self, pid: int) -> Optional[Row]:
        """Returns a process, or None if it has ended or is a thread of the kernel. One that is too large, or takes too
        long, can't be read."""
        row = self.base(pid)
        if row is None:
            return row
        try:
            return self.whole_process(pid, row, self.budget.part(self.budget.size // 2, SECONDS_OF_ONE, OF_ONE))
        except Refused as error:
            return {**{key: row[key] for key in HEAD}, "unreadable": str(error)}

    def whole_process(self, pid: int, row: Row, budget: Budget) -> Row:
        """Returns all of a process. Raises Refused where that is too much."""
        budget.spend(PROCESS_SIZE)
        if row["state"] in "ZX" and len(door.tids(pid)) == 1:
            return {**row, "fds": {}, "threads": [{"tid": pid, "state": row["state"]}]}
        row["living"] = pid if row["state"] not in "ZX" else living_thread(pid)
        living = f"/proc/{pid}" if row["living"] == pid else f"/proc/{pid}/task/{row['living']}"
        memory = Memory(living, budget)
        try:
            row["net"], row["exe"] = try_link(f"{living}/ns/net")[5:-1], try_link(f"{living}/exe")
            row["fds"] = dict(self.descriptors(living, budget))
            row["timers"] = bool(row_of(f"/proc/{pid}/timers"))
            row["threads"] = list(self.threads(pid, memory))
            row.update(runtime_of(living, row))
            row.update(aio_of(living, row))
            if any(has_own_files(living, thread["tid"]) for thread in row["threads"] if thread["state"] not in "ZX"):
                row["unreadable"] = "a thread of it has descriptors of its own"
        except PermissionError:
            row["unreadable"] = why_unreadable(pid)
        finally:
            memory.close()
        return row

    def base(self, pid: int) -> Optional[Row]:
        """Returns what everybody may know of a process."""
        head, _, rest = kernel_row(f"/proc/{pid}/stat").rpartition(")")
        words = rest.split()
        if int(words[6]) & KERNEL_THREAD:
            return None
        command = row_of(f"/proc/{pid}/cmdline").rstrip("\0").replace("\0", " ")
        row: Row = {"pid": pid, "ppid": int(words[1]), "group": int(words[2]), "session": int(words[3]),
                    "start": int(words[19]), "state": words[0], "comm": head.partition("(")[2],
                    "command": command[:500]}
        status = kernel_row(f"/proc/{pid}/status")
        row.update({name: field(status, name) for name in ("TracerPid", "SigCgt", "SigIgn")})
        row.update({name: field(status, name) for name in ("NSpid", "NSpgid") if "\t" in field(status, name)})
        return row

    def itself(self) -> Row:
        """Returns the collector, which runs. Of its descriptors only those count that it uses: it may have inherited
        others, which it closes unused."""
        row = self.base(os.getpid())
        assert row is not None
        budget = Budget(self.budget.size, SECONDS_OF_ONE)  # (the look goes on where there is no more for others)
        files = {fd: file for fd, file in self.descriptors("/proc/self", budget) if fd in "012"}
        return {**row, "fds": files, "threads": [{"tid": os.getpid(), "state": "R"}], "collects": True}

    def descriptors(self, folder: str, budget: Budget) -> Iterator[Tuple[str, OpenFile]]:
        """Yields each descriptor with its file."""
        fds = door.names(f"{folder}/fd", MOST_FILES)
        budget.spend(DESCRIPTOR_SIZE * len(fds))
        for fd in fds:
            self.steps += 1
            budget.check()
            with contextlib.suppress(FileNotFoundError):
                path = f"{folder}/fd/{fd}"
                target, mode = door.link(path), door.mode_of_link(path)
                file = OpenFile(target, "r" * bool(mode & 0o400) + "w" * bool(mode & 0o200))
                if target == EPOLL:
                    self.epolls.append(HeldFile(folder, int(fd), file))
                elif target.startswith((ANONYMOUS, SOCKET, "pidfd:[")):
                    file.add(line for line in lines_of(f"{folder}/fdinfo/{fd}", OF_KERNEL) if line != CARRIES_NONE)
                elif target.startswith("/") and not target.startswith(("/proc/", "/sys/")):
                    budget.spend(FILE_SIZE)
                    self.add_file(HeldFile(folder, int(fd), file), door.status(path))
                yield fd, file

    def add_file(self, descriptor: "HeldFile", status: os.stat_result) -> None:
        """Notes who has a file open. A FIFO is told by its number."""
        if stat.S_ISFIFO(status.st_mode):
            descriptor.file.fifo = f"{status.st_dev:x}:{status.st_ino}"
        elif stat.S_ISREG(status.st_mode) or stat.S_ISDIR(status.st_mode):
            self.files.setdefault((status.st_dev, status.st_ino), []).append(descriptor)

    def add_locks(self, rows: List[Row]) -> None:
        """Adds the locks of each file at whose lock a thread waits, or that is locked while another process has it open
        and may poll for that, to all that have it open."""
        for them in [*self.waited(rows, LOCKS, "file"), *self.locked()]:
            for descriptor in them:
                self.add_locks_of(descriptor)
            name_open_files(them)

    def add_locks_of(self, descriptor: "HeldFile") -> None:
        """Adds the locks of an open file, if its process is still there."""
        try:
            descriptor.file.add(lines_of(f"{descriptor.folder}/fdinfo/{descriptor.fd}", ("lock:",)))
        except Refused as error:
            self.refused[descriptor.pid] = f"the locks of a file can't be read: {error}"
        except OSError:
            pass

    def locked(self) -> Iterator[List["HeldFile"]]:
        """Yields the descriptors of each file that is locked and that several processes have open, once these are told.
        """
        for device, number in self.try_locked_files():
            them = self.files.get((device, number), [])
            if len({descriptor.pid for descriptor in them}) > 1 and not them[0].file.file:
                for descriptor in them:
                    descriptor.file.file = f"{device:x}:{number}"
                yield them

    def try_locked_files(self) -> List[Tuple[int, int]]:
        try:
            return locked_files()
        except Refused as error:
            self.warnings.append(f"which files are locked can't be read: {error}")
        return []

    def add_queues(self, rows: List[Row]) -> None:
        """Tells the queues of messages at which threads wait from others, for all that have them open."""
        for _ in self.waited(rows, QUEUES, "queue"):
            pass

    def waited(self, rows: List[Row], calls: Tuple[str, ...], kind: str) -> Iterator[List["HeldFile"]]:
        """Yields the descriptors of each file at which a thread waits in one of some calls, once these are told."""
        waited = {id(row["fds"].get(str(fd))) for row in rows for thread in row.get("threads", ())
                  if thread.get("call") in calls for fd, _ in thread["set"]}
        for (device, number), them in self.files.items():
            if any(id(descriptor.file) in waited for descriptor in them):
                for descriptor in them:
                    setattr(descriptor.file, kind, f"{device:x}:{number}")
                yield them

    def add_memory(self, rows: List[Row]) -> None:
        """Adds of each thread at a futex which memory that is of, and who has this too: it alone may wake the thread.
        """
        wanted = {name for row in rows if "threads" in row for name in self.try_names(row)}
        for row in rows if wanted else ():
            for name in wanted.intersection(self.try_names(row, True)):
                row.get("fds", {})[name] = OpenFile.of(["memory", "rw", name])
        for (device, number), them in self.files.items():
            name = f"memory {os.major(device):02x}:{os.minor(device):02x} {number}"
            if name in wanted:  # (who has it open may map it)
                for descriptor in them:
                    descriptor.file.add([name])

    def try_names(self, row: Row, is_all: bool = False) -> List[str]:
        """Returns the names of memory of a process which others may have too: all of them, or that of its futexes."""
        try:
            rows = mappings(row.get("living", row["pid"])) if is_all else ()
            return [name for _, _, name in rows] if is_all else [*names_of_memory(row)]
        except Refused as error:
            self.refused[row["pid"]] = f"its memory can't be read: {error}"
        return []

    def add_refused(self, rows: List[Row]) -> None:
        """Has those count as processes that can't be read of which something wasn't."""
        for row in rows:
            if row["pid"] in self.refused:
                row["unreadable"] = self.refused[row["pid"]]

    def threads(self, pid: int, memory: Memory) -> Iterator[Row]:
        tids = door.tids(pid)
        memory.budget.spend(THREAD_SIZE * len(tids))
        for tid in tids:
            self.steps += 1
            memory.budget.check()
            with contextlib.suppress(FileNotFoundError, ProcessLookupError):
                yield self.thread(f"/proc/{pid}/task/{tid}", tid, memory)

    def thread(self, folder: str, tid: int, memory: Memory) -> Row:
        """Returns a thread. Its count is read before and after the call that it is to vouch for."""
        status = kernel_row(f"{folder}/status")
        row: Row = {"tid": tid, "state": field(status, "State")[:1]}
        pending = int(field(status, "SigPnd"), 16) | int(field(status, "ShdPnd"), 16)
        row["pending"] = bool(pending & ~int(field(status, "SigBlk"), 16)) or field(status, "CoreDumping") == "1"
        numbers = field(status, "NSpid").split()
        if numbers[1:]:
            row["inner"] = int(numbers[-1])  # its number in its own container
        if folder.split("/")[2] != str(tid):
            row["comm"] = field(f"\n{status}", "Name")
        if row["state"] in "ZXR":
            return row
        words = kernel_row(f"{folder}/syscall").split()
        if words[0] in ("running", "-1"):  # (one that is stopped while it computes is in none, as "-1" says)
            row["call"] = words[0]
        else:
            row.update(self.call_of(words, memory))
        if words[0] == "running":
            return row
        row["wchan"] = row_of(f"{folder}/wchan")
        after = kernel_row(f"{folder}/status")
        row["counts"] = [int(field(text, "voluntary_ctxt_switches")) for text in (status, after)]
        return row

    def call_of(self, words: List[str], memory: Memory) -> Row:
        """Returns what is known of a call, by the number and the arguments that the kernel shows."""
        args = [int(number, 16) for number in words[1:]]
        call = self.calls.get(int(words[0]), words[0]) if args[6] >> 32 else f"32-bit {words[0]}"
        row: Row = {"call": call, "args": [f"{number:#x}" for number in args[:6]], **besides(call, args, memory),
                    **limit_of(call, args, memory)}
        found_set = set_of(call, args, memory)
        return row if found_set is None else {**row, "set": found_set}


def locked_files() -> List[Tuple[int, int]]:
    """Returns the device and the number of each file that is locked."""
    rows = (re.fullmatch(r"\d+: (?!->).* ([0-9a-f]+):([0-9a-f]+):(\d+) \S+ \S+", line)
            for line in try_lines("/proc/locks"))
    return list(dict.fromkeys((os.makedev(int(row[1], 16), int(row[2], 16)), int(row[3])) for row in rows if row))


def why_unreadable(pid: int) -> str:
    """Returns why a process can't be read."""
    user = user_of(pid)
    if user is None:
        return "it may not be traced"
    if user == os.geteuid():
        return "it may not be traced, though it is of the same user" if user else "not even root may trace it"
    return f"it is of user {name_of_user(user)}" if os.geteuid() else "not even root may trace it"


def name_of_user(number: int) -> str:
    try:
        return pwd.getpwuid(number).pw_name
    except KeyError:
        return str(number)


def living_thread(pid: int) -> int:
    """Returns a thread of a process whose first thread has ended."""
    states = {tid: status_of(f"/proc/{pid}/task/{tid}", "State")[:1] for tid in door.tids(pid)}
    return next((tid for tid, state in states.items() if state and state[0] not in "ZX"), pid)


class HeldFile:
    """A descriptor of a process, and its file."""

    def __init__(self, folder: str, fd: int, file: OpenFile) -> None:
        self.folder, self.fd, self.file, self.pid = folder, fd, file, pid_of(folder)


def has_own_files(folder: str, tid: int) -> bool:
    """Whether a thread has other descriptors than its process, if the kernel says so."""
    return kcmp(pid_of(folder), tid, KCMP_FILES, 0, 0) > 0


def compare_open(one: HeldFile, other: HeldFile) -> int:
    """Returns the order of two descriptors by their open files, 0 if that is the same one."""
    return {0: 0, 1: -1}.get(kcmp(one.pid, other.pid, KCMP_FILE, one.fd, other.fd), 1)


def name_open_files(them: List[HeldFile]) -> None:
    """Gives all descriptors of one open file the same name: those that a child inherits, but not those of who opened
    the same file again."""
    there = (descriptor for descriptor in them if compare_open(descriptor, descriptor) == 0)
    first: Optional[HeldFile] = None
    for descriptor in sorted(there, key=functools.cmp_to_key(compare_open)):
        first = descriptor if first is None or compare_open(first, descriptor) else first
        descriptor.file.open = f"{first.pid}:{first.fd}"


def aio_of(folder: str, row: Row) -> Row:
    """Returns whether requests of a process (io_submit) may make the kernel write to an eventfd that it has."""
    if not any(file.target == EVENTFD for file in row["fds"].values()):
        return {}
    return {"aio": True} if "/[aio]" in kernel_text(f"{folder}/maps", MOST_TEXT) else {}


def runtime_of(folder: str, row: Row) -> Row:
    """Returns the runtime that a process shows by its program, as a Go program does, or a rank of MPI that doesn't
    sleep by its libraries."""
    if any(thread["state"] == "R" or re.search("running|poll", thread.get("call", "")) for thread in row["threads"]):
        if re.search(r"/libmpi\w*\.so", kernel_text(f"{folder}/maps", MOST_TEXT)):
            return {"runtime": "mpi"}
    if len(row["threads"]) == 1 or not any(thread.get("call") == "futex" for thread in row["threads"]):
        return {}
    return {"runtime": "go"} if is_go(f"{folder}/exe") else {}
