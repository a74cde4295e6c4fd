"""The processes of a machine and their threads, as one reading of a state shows them, and who has which file."""
from __future__ import annotations

import re
from collections import Counter
from dataclasses import dataclass, field
from functools import cached_property
from typing import Any, Callable, Dict, Iterable, List, NamedTuple, Sequence, Set, Tuple

from cmh_proc.calls import ARGUMENTS, MOST_ARGUMENTS, has_limit
from cmh_proc.open_files import EPOLL, OpenFile

from ...core.files import shown

Row = Dict[str, Any]
MASTER, TERMINAL = "/dev/ptmx", "/dev/pts/"  # the end of a terminal that a program has, and how others' names begin
# The files without a name that keep no others: of a kind that isn't known it isn't known either.
KEEPS_NONE = re.compile(r"(?!anon_inode:).*|anon_inode:(\[(event(poll|fd)|timerfd|signalfd|pidfd|fanotify|userfaultfd"
                        r"|perf_event|fscontext)\]|inotify|seccomp notify|sync_file|(bpf|kvm|landlock)[\w:-]+)", re.S)
PARSERS = {"python": "python", "java": "jvm", "beam": "erlang", "go": "go", "mpi": "mpi"}  # by how programs are called
OF_JAVA = "/libjvm.so"
WORD = 4  # how far the two words are apart at which threads wait for a condition of glibc
CONDITION = re.compile(r"pthread_cond_\w*wait|_ZNSt18condition_variable\d+wait\w+|std::condition_variable::wait")
NOWHERE = OpenFile("")
ENDED = "ZX"  # the states of those that have ended
NUMBER, NUMBERED = re.compile(r"\d+"), re.compile(r"(.* )?\d+")  # within the name of a thread, and at its end
# What each process that was read says of itself, but for one that has ended and for the collector.
NEEDED = ("SigCgt", "TracerPid", "fds", "timers", "start")
NEEDED_IN_CALL = ("pending", "wchan")  # and each thread that is in a call


@dataclass(eq=False)
class Owner:
    """A process of the machine, as one reading shows it. `why` says why it couldn't be read, if it couldn't. `starts`
    has the functions that those were started with who wait at a futex, by its word, where that was asked, and `stacks`
    the frames of its threads, by their numbers."""

    row: Row
    threads: List["LinuxThread"] = field(default_factory=list)
    starts: Dict[int, Set[str]] = field(default_factory=dict)
    stacks: Dict[Tuple[int, ...], Tuple["LinuxFrame", ...]] = field(default_factory=dict)

    def __post_init__(self) -> None:
        self.pid, self.parent = (int(self.row.get(key, 0)) for key in ("pid", "ppid"))
        # Its number and its group's in each namespace of processes: that of the collector first, its own last.
        self.numbers = [int(word) for word in str(self.row.get("NSpid", self.pid)).split()]
        self.groups = [int(word) for word in str(self.row.get("NSpgid", self.row.get("group", 0))).split()]
        self.tracer = int(self.row.get("TracerPid", "0"))
        self.command = str(self.row.get("comm", ""))
        self.name = f"{self.command} {self.pid}"
        self.why = str(self.row.get("unreadable", ""))
        self.files = {fd: OpenFile.of(words) for fd, words in self.row.get("fds", {}).items()}
        self.threads = [LinuxThread(self, row) for row in self.row.get("threads", [])] if not self.why else []
        self.living = [thread for thread in self.threads if thread.state not in ENDED]

    @cached_property
    def names(self) -> List[str]:
        """What its living threads are called, once that is known."""
        return [thread.name for thread in self.living]

    @cached_property
    def system(self) -> str:
        """The parser that knows more of it, or nothing, also if it has no threads."""
        name = str(self.row.get("exe", "")).rpartition("/")[2]
        runtime = str(self.row.get("runtime", "")) or next((key for key in PARSERS if name.startswith(key)), "")
        is_java = any(module.endswith(OF_JAVA) for module, _ in self.row.get("modules", ()))  # (as jcmd has it)
        return ("jvm" if is_java and not runtime else PARSERS.get(runtime, "")) if self.threads else ""

    @cached_property
    def mark(self) -> str:
        """What tells it, with its living threads, from others and from what it is in another reading."""
        return f"{self.name} {hash(tuple(self.names))}"

    @cached_property
    def has_ring(self) -> bool:
        """Whether it has an io_uring."""
        return any(file.is_ring for file in self.files.values())

    @cached_property
    def numbered(self) -> Dict[int, List["LinuxThread"]]:
        """Its threads by the numbers that they see themselves as."""
        return threads_by(self.threads, lambda thread: thread.inner)

    @cached_property
    def at_futex(self) -> Dict[int, List["LinuxThread"]]:
        """Its threads at a futex, by the address of its word."""
        return threads_by((thread for thread in self.threads if thread.call == "futex" and thread.arguments),
                          lambda thread: thread.arguments[0])

    def frames_of(self, row: Row) -> Tuple["LinuxFrame", ...]:
        """Returns the frames of a thread, by their numbers in the table of its process: those of one stack are made
        once. (Older states have the names of its own functions, where all of the stack was known.)"""
        if "stack" not in row:
            return tuple(map(LinuxFrame, row.get("frames", ())))
        numbers = tuple(row["stack"])
        if numbers not in self.stacks:
            self.stacks[numbers] = self.frames_at(numbers)
        return self.stacks[numbers]

    def frames_at(self, numbers: Tuple[int, ...]) -> Tuple["LinuxFrame", ...]:
        table, modules = self.row.get("frames", []), [*self.row.get("modules", []), ["", ""]]
        if not all(0 <= number < len(table) and 0 <= table[number][1] < len(modules) for number in numbers):
            return ()
        return tuple(LinuxFrame(name, modules[module][0], place, modules[module][1])
                     for name, module, place in map(table.__getitem__, numbers))

    def file(self, fd: int) -> OpenFile:
        """Returns the file of a descriptor, or one that leads nowhere where it isn't known."""
        return self.files.get(str(fd), NOWHERE)

    def catches(self, signal: int) -> bool:
        """Whether it has a handler of a signal."""
        return bool(int(self.row.get("SigCgt", "0"), 16) >> signal - 1 & 1)

    def ignores(self, signal: int) -> bool:
        return bool(int(self.row.get("SigIgn", "0"), 16) >> signal - 1 & 1)

    def handled_besides(self, signals: Iterable[int]) -> List[int]:
        """Returns the signals of which it has a handler, besides those."""
        mask = int(self.row.get("SigCgt", "0"), 16) & ~sum(1 << signal - 1 for signal in signals)
        return [number for number in range(1, 65) if mask >> number - 1 & 1]

    def lacks(self) -> str:
        """Returns what its row doesn't say and should, or nothing."""
        return next((key for key in NEEDED if key not in self.row), "")

    def may_carry(self) -> bool:
        """Whether it may have a file, or use one, that none of its descriptors shows: on its way through a socket, or
        by what it has asked the kernel for."""
        return bool(self.row.get("aio")) or any(map(may_carry, self.files.values()))

    def has_ended(self) -> bool:
        return not self.why and not self.living


class LinuxFrame(NamedTuple):
    """A function on a stack: its name or nothing, its program or library, and where that has the code, by its file."""

    function: str
    module: str = ""
    place: int = 0
    build_id: str = ""


@dataclass(eq=False)
class LinuxThread:
    """A thread, as one reading shows it. `stack` has its frames as a debugger shows them, where that was asked for, and
    `frames` as they were unwound from memory; `is_whole` says that nobody has called the outermost, and `is_again` that
    the thread may stand at another wait of the same call by now. `is_late` says that there was no time for its stack.
    `within` is the call of a library that its own code is in. `called` is what it is called within its process, and
    `kin` the same for all whose names differ by a number alone."""

    owner: Owner
    row: Row
    stack: List[Tuple[str, str]] = field(default_factory=list)
    called: str = ""
    kin: str = ""

    def __post_init__(self) -> None:
        self.tid, self.state = int(self.row["tid"]), str(self.row.get("state", "?"))
        self.inner = int(self.row.get("inner", self.tid))  # its number as it sees itself, in a container
        self.call = str(self.row.get("call", ""))
        self.arguments = [int(word, 16) for word in self.row.get("args", [])]
        self.counts: List[int] = self.row.get("counts", [])
        self.events: List[List[int]] = self.row.get("set", [])
        self.words = bytes.fromhex(self.row.get("words", ""))
        self.within, self.frames = str(self.row.get("within", "")), self.owner.frames_of(self.row)
        self.is_whole, self.is_again = bool(self.frames) and not self.row.get("cut"), bool(self.row.get("again"))
        self.is_late = bool(self.row.get("late"))

    @property
    def title(self) -> str:
        """The name that the program has given the thread, if it has given it one of its own."""
        own = str(self.row.get("comm", ""))
        return own if own != self.owner.command else ""

    @property
    def name(self) -> str:
        return self.owner.name if self.is_first else f"{self.owner.name}/{self.called or self.tid}"

    @property
    def is_first(self) -> bool:
        return self.tid == self.owner.pid

    @property
    def has_limit(self) -> bool:
        """Whether the arguments of its call have a limit."""
        return has_limit(self.call, self.arguments)

    @property
    def is_addressed(self) -> bool:
        """Whether it sends a message with an address."""
        return bool(self.row.get("addressed")) or self.call == "sendto" and self.arguments[4] != 0

    def lacks(self) -> str:
        """Returns what its row or that of its process doesn't say and should, or nothing."""
        needed = NEEDED_IN_CALL if self.arguments else ()
        return self.owner.lacks() or next((key for key in needed if self.row.get(key, "") == ""), "")

    def word(self, offset: int) -> int:
        """The number that stands in memory behind the word of its futex, or 0."""
        data = self.words[offset:offset + 4]
        return int.from_bytes(data, "little") if len(data) == 4 else 0


class Host:
    """One reading of a machine: its processes, and who has which file. One that can't be read in any of the readings
    counts so in all: `unread` has these, each with why. `has_stacks` says that stacks were asked for."""

    def __init__(self, rows: List[Row], unread: Dict[int, str], has_stacks: bool = False) -> None:
        self.has_stacks = has_stacks
        self.owners = [Owner({**row, "unreadable": unread[row["pid"]]} if row["pid"] in unread else row)
                       for row in rows if "pid" in row]
        self.by_pid = {owner.pid: owner for owner in self.owners}
        self.sockets: Dict[int, Row] = {row["socket"]: row for row in rows if "socket" in row}
        self.warnings = [str(line) for row in rows for line in row.get("warnings", [])]
        self.listening: Dict[str, List[int]] = next((row["listening"] for row in rows if "listening" in row), {})
        # The parent of each process, also of those above them, and when it began. One that isn't known has none.
        self.parents: Dict[int, Tuple[int, int]] = {
            int(pid): (pair[0], pair[1]) for row in rows for pid, pair in row.get("parents", {}).items()}
        self.parents.update({owner.pid: (owner.parent, owner.row["start"]) for owner in self.owners
                             if "start" in owner.row})
        self.kin = self.find_kin()
        self.holders = self.find_holders()
        self.carriers = [owner for owner in self.owners if not owner.why and owner.may_carry()]
        self.lists: Dict[Tuple[str, ...], List[str]] = {}
        self.unseen: Dict[str, str] = {}  # what stands for what no process is, and why that is unknown
        self.stand_ins: Dict[int, str] = {}  # what those are called in lists that can't be read
        self.awaited: Dict[Owner, List[Tuple[str, str]]] = {}  # at which file each thread of a process waits, if asked

    def find_kin(self) -> Dict[int, List[int]]:
        """Returns the places of the children of each process, and of those that it traces."""
        kin: Dict[int, List[int]] = {}
        for place, owner in enumerate(self.owners):
            for pid in {owner.parent, owner.tracer}:
                kin.setdefault(pid, []).append(place)
        return kin

    def find_holders(self) -> Dict[str, List[Tuple[Owner, OpenFile]]]:
        """Returns who has which file, by what tells it from others, or by how its link begins."""
        holders: Dict[str, List[Tuple[Owner, OpenFile]]] = {}
        readable = (owner for owner in self.owners if not owner.why)
        for owner, file in ((owner, file) for owner in readable for file in owner.files.values()):
            for key in (*file.keys(), *filter(file.target.startswith, (MASTER, TERMINAL, EPOLL))):
                holders.setdefault(key, []).append((owner, file))
        return holders

    def with_file(self, key: str, mode: str = "") -> List[Owner]:
        """Returns the processes that have a file, open in a way, or in one that isn't known."""
        return list(dict.fromkeys(owner for owner, file in self.holders.get(key, [])
                                  if mode in file.mode or not file.mode))

    def names_of(self, owners: Iterable[Owner], waiter: LinuxThread) -> List[str]:
        """Returns the names of the living threads of some processes, in one list for all waits that have the same. A
        waiter that is alone in its process is one of them only where nobody else is."""
        others = [owner for owner in dict.fromkeys(owners) if owner.living]
        if len(waiter.owner.living) == 1 and len(others) > 1:
            others = [owner for owner in others if owner is not waiter.owner]
        return self.list_of(others)

    def list_of(self, owners: Sequence[Owner]) -> List[str]:
        """Returns the names of the living threads of some processes, in one list for all waits of all readings."""
        return self.shared([owner.mark for owner in owners], (name for owner in owners for name in owner.names))

    def shared(self, key: Sequence[str], names: Iterable[str]) -> List[str]:
        """Returns some names, as the list that was first made of them."""
        if tuple(key) not in self.lists:
            self.lists[tuple(key)] = list(names)
        return self.lists[tuple(key)]

    def threads(self, number: int) -> List[LinuxThread]:
        """Returns the threads that see themselves as a number: several, if they are of several namespaces."""
        return [thread for owner in self.owners for thread in owner.numbered.get(number, ())]

    def below(self, owners: List[Owner]) -> List[Owner]:
        """Returns the children of some processes, and theirs, and so on."""
        below: Dict[Owner, None] = {}
        pids = {owner.pid for owner in owners}
        while pids:
            kin = [self.owners[place] for place in sorted({place for pid in pids for place in self.kin.get(pid, ())})]
            new = [owner for owner in kin if owner.parent in pids and owner not in below]
            below.update(dict.fromkeys(new))
            pids = {owner.pid for owner in new}
        return list(below)

    def later_branches(self, owner: Owner) -> List[Owner]:
        """Returns the children of those above a process that began after it: one may be an orphan of those below it."""
        above: List[int] = []
        pid = owner.pid
        while pid in self.parents and pid not in above:
            pid = self.parents[pid][0]
            above.append(pid)
        start = self.parents.get(owner.pid, (0, 0))[1]
        later = (other for other in self.owners if int(other.row.get("start", start)) >= start)
        return [other for other in later if other.parent in above and not other.row.get("collects")]

    def above(self, owner: Owner) -> List[Owner]:
        """Returns the parent of a process, and its, and so on."""
        above: List[Owner] = []
        parent = self.by_pid.get(owner.parent)
        while parent is not None and parent not in above:
            above.append(parent)
            parent = self.by_pid.get(parent.parent)
        return above

    def children(self, pid: int) -> List[Owner]:
        """Returns the processes that a process waits for by `wait`: its children, and those that it traces."""
        return [self.owners[place] for place in self.kin.get(pid, ())]


def threads_by(threads: Iterable[LinuxThread], number_of: Callable[[LinuxThread], int]) -> Dict[int, List[LinuxThread]]:
    """Returns threads by a number of each."""
    rows: Dict[int, List[LinuxThread]] = {}
    for thread in threads:
        rows.setdefault(number_of(thread), []).append(thread)
    return rows


def call_owners(machines: List[Host]) -> None:
    """Has processes called in all readings as in the first that shows one: a program may change its name."""
    known: Dict[Tuple[int, object], Owner] = {}
    for owner in (owner for machine in machines for owner in machine.owners):
        first = known.setdefault((owner.pid, owner.row.get("start")), owner)
        owner.command, owner.name = first.command, first.name


def call_threads(machines: List[Host]) -> None:
    """Has threads called as their programs have named them, in all readings as in the first that shows one. Those whose
    names don't tell them from others, or may be numbers of threads, have their own numbers besides."""
    titles: Dict[int, Dict[int, str]] = {}
    for owner in (owner for machine in machines for owner in machine.owners):
        for thread in owner.threads:
            titles.setdefault(owner.pid, {}).setdefault(thread.tid, thread.title)
    counts = {pid: Counter(of_pid.values()) for pid, of_pid in titles.items()}
    kin = {pid: Counter(NUMBER.sub("*", title) for title in of_pid.values()) for pid, of_pid in titles.items()}
    for owner in (owner for machine in machines for owner in machine.owners):
        for thread in owner.threads:
            title = titles[owner.pid][thread.tid]
            is_own = counts[owner.pid][title] == 1 and not NUMBERED.fullmatch(title)
            thread.called = title if is_own or not title else f"{title} {thread.tid}"
            family = NUMBER.sub("*", title)
            thread.kin = family if kin[owner.pid][family] > 1 else title


def keep_calls(machines: List[Host]) -> None:
    """Lets what the unwound stack of a thread says count in later readings too, where it is in the same call, and in
    which call of a library it is where it is still at the same wait. Who is at the other word of a condition has the
    first one's."""
    known = {(owner.pid, owner.row.get("start"), thread.tid): thread for machine in machines[:1]
             for owner in machine.owners for thread in owner.threads}
    for owner in (owner for machine in machines[1:] for owner in machine.owners):
        for thread in owner.threads:
            first = known.get((owner.pid, owner.row.get("start"), thread.tid), thread)
            if is_at_same_condition(first, thread):
                thread.row["args"], thread.arguments = first.row["args"], first.arguments
            if first is not thread and thread.counts and call_of(first) == call_of(thread):
                thread.frames, thread.is_whole, thread.is_late = first.frames, first.is_whole, first.is_late
                thread.is_again = first.is_again or thread.counts != first.counts
                thread.within = "" if thread.is_again else first.within


def call_of(thread: LinuxThread) -> Tuple[object, List[str]]:
    """Returns the call that a thread is in, with its arguments: what the other registers have is of no call."""
    call = thread.row.get("call")
    return call, (thread.row.get("args") or [])[:ARGUMENTS.get(str(call), MOST_ARGUMENTS)]


def is_at_same_condition(first: LinuxThread, thread: LinuxThread) -> bool:
    """Whether a thread is at the same condition in two readings. Who comes next waits at the other one of its words."""
    (call, args), (later_call, later_args) = call_of(first), call_of(thread)
    is_one = call == later_call == "futex" and args[1:] == later_args[1:] and CONDITION.fullmatch(first.within)
    return bool(is_one) and int(args[0], 16) ^ int(later_args[0], 16) == WORD


def may_carry(file: OpenFile) -> bool:
    """Whether a descriptor may have files that none shows. An older kernel doesn't say how many an io_uring keeps."""
    return file.carried is not None if KEEPS_NONE.fullmatch(file.target) else file.kept != 0


def some_names(owners: Iterable[Owner], most: int = 4) -> str:
    """Returns the names of processes for people."""
    names = list(dict.fromkeys(shown(owner.name) for owner in owners))
    return ", ".join(names[:most]) + (f" and {len(names) - most:,} more" if names[most:] else "")
