"""Linux: what the kernel keeps of each thread's wait, as cmh_linux reads it twice. No fact is needed for that.

A thread is a process here, called COMMAND PID or COMMAND PID/TID. Who has the other end of what it waits at may end its
wait, with all threads. The threads are read one after the other: two readings show one wait where the count of its
voluntary context switches is the same.
"""
from __future__ import annotations

from typing import Any, Dict, Iterable, List, Optional, Set, Tuple, Union

from cmh_proc.calls import EPOLLS, IN_MILLISECONDS, LIMITS, SETS, SLEEPS

from ...core.files import Refusal, shown
from ...core.model import Part, Sign, wakers
from ...core.sketch import (DONE, LIMIT, SYSTEM, UNREADABLE, Process, Sketch, blocked, garbled, goes_on,
                            lists_of_wakers, premise, rests, unknown)
from ...core.snapshots import APART, Reading
from .. import State
from ..base import Break, Parser, Snapshot
from .calls import wait_of
from .children import FOR_SIGNAL, SHELL, SIGCHLD, SIGINT, is_shell, timed_parents
from .connections import connections_of
from .files import self_connections
from .frames import OWN_THREADS, nameless_programs
from .locks import locks_besides
from .machine import ENDED as GONE
from .machine import Host, LinuxThread, Owner, Row, call_owners, call_threads, keep_calls, some_names
from .notes import frames_of, whole_note
from .stacks import BARRIER, add_stacks, hint, lend_calls, meeting_of
from .text import readings_of, rows_of, unread_in
from .unread import Branches, unread_name, unread_one
from .waits import Ease, LinuxWait, against

NO_FACT = ", and no fact on its place decides that"
WITH_HELPERS = ("erlang",)  # of these, those whose folder has other programs that the runtime begins
SIGNALS, OUTSIDE, ABOVE, MADE = "signals", "outside", "above", "made"  # assumptions
# Handlers of what a process does itself, of its children, and of what threads send each other within glibc.
OF_ITSELF = (4, 5, 6, 7, 8, 11, 13, 16, SIGCHLD, 24, 25, 31, 32, 33)
NAMES_OF_SIGNALS = {1: "SIGHUP", 2: "SIGINT", 3: "SIGQUIT", 10: "SIGUSR1", 12: "SIGUSR2", 14: "SIGALRM",
                    15: "SIGTERM", 29: "SIGIO"}
OWNED = ("owns", "ends")  # hows of those at a lock or a join, where no handler of a signal ends the wait
UNSEEN = ("unread", "handles", "kills", "limit", "unshown")  # hows of those that are no process of the state
ELSEWHERE_KEPT = "files kept elsewhere"
SHOWN = 3  # as many that can't be read stand in lists by themselves, and more of them as one
Subject = Union[LinuxThread, List[Owner]]


class Computer(Snapshot):
    """The machine at one time, and who may have what of those who can't be read."""

    machine: Host
    branches: Branches


def signal_of(thread: LinuxThread, snapshot: Computer) -> str:
    """Returns what shows that a signal may end the waits of a process, or nothing."""
    if thread.row.get("pending"):
        return f"a signal is about to reach it{NO_FACT}"
    if thread.owner.has_ring:
        return f"it has an io_uring, and what that does isn't known{NO_FACT}"
    return ""


def site_of(owner: Owner) -> str:
    return f"{owner.command}-{owner.pid}"


def begun_by(machine: Host, asked: Set[int]) -> Dict[str, str]:
    """Returns by the site of each process below one that was asked for, asked for itself or not, the site of its
    parent."""
    sites: Dict[str, str] = {}
    for owner in machine.owners:
        parent = above = machine.by_pid.get(owner.parent)
        while above is not None and above.pid not in asked:
            above = machine.by_pid.get(above.parent)
        if parent is not None and above is not None and above.pid in asked:
            sites[site_of(owner)] = site_of(parent)
    return sites


def handlers_of(owner: Owner) -> List[int]:
    """Returns the signals for which a process has a handler of its own, and not of its runtime's."""
    if owner.system in OWN_THREADS:
        return []
    own = (*OF_ITSELF, SIGINT) if owner.system == "python" or is_shell(owner) else OF_ITSELF
    return owner.handled_besides(own)


def unseen_signals(owner: Owner) -> Dict[str, str]:
    """Returns what stands for the signals that may come to a process which has a handler for them, and why it is
    unknown. No state shows whether one comes, and a fact may say that none does."""
    names = " and ".join(NAMES_OF_SIGNALS.get(number, f"signal {number}") for number in handlers_of(owner))
    reasons = [f"there is a handler for {names}" if names else "", "it has a timer" if owner.row.get("timers") else ""]
    why = ", and ".join(filter(None, reasons))
    return {f"signal of {owner.name}": f"may come unseen, as {why}"} if why else {}


class LinuxParser(Parser):
    """All processes of a machine are read one after the other, and then all of them again."""

    NAME, IDLE, MOMENT = "linux", "threads", APART
    SNAPSHOT_CLASS = Computer
    BREAKS = {SIGNALS: Break(signal_of, True)}

    def __init__(self) -> None:
        self.outside = ""
        self.stacks: List[Row] = []
        self.unread: List[List[Owner]] = []
        self.unread_names: List[str] = []
        self.asked: Set[str] = set()
        self.unseen: Dict[str, str] = {}
        self.pids: Set[int] = set()  # those that were asked for

    def read(self, state: State) -> List[Reading]:
        rows = rows_of(state.text, state.path)
        self.outside = str(rows[0].get("outside", ""))
        self.pids = set(rows[0].get("asked", ()))
        self.stacks = [row for row in rows if "stacks" in row]
        readings = readings_of(rows, state.path)
        unread, has_stacks = unread_in(readings), bool(rows[0].get("with_stacks") or self.stacks)
        return [Reading(state.path, "machine", [Host(reading, unread, has_stacks)],
                        machine=str(rows[0].get("space", "")), time=time_of(reading[0]))
                for reading in readings]

    def begin(self, readings: List[Reading]) -> None:
        """Checks that all is of one state, and names the processes that can't be read. Each stands in every list that
        it could be in, also where it has ended since."""
        paths = list(dict.fromkeys(reading.path for reading in readings))
        if paths[1:]:
            raise Refusal(f"{shown(paths[1])}: one state of Linux is expected, which has both readings, and "
                          f"{shown(paths[0])} is one")
        machines: List[Host] = [reading.rows[0] for reading in readings]
        call_owners(machines)
        call_threads(machines)
        lend_calls(machines[0])
        keep_calls(machines)
        unread = list({owner.pid: owner for machine in machines for owner in machine.owners if owner.why}.values())
        near = [owner for owner in unread if not owner.row.get("apart")]
        apart = [owner for owner in unread if owner.row.get("apart")]
        self.unread = [[owner] for owner in near] + ([apart] if apart[SHOWN:] else [[owner] for owner in apart])
        self.unread += [[]] if self.outside == "hidepid" else []
        self.asked = {unread_name([owner]) for owner in near}
        self.unread_names = [unread_name(owners) for owners in self.unread]
        for machine in machines:
            machine.lists = machines[0].lists
            add_stacks(machine, self.stacks)
            machine.stand_ins = {owner.pid: name for owners, name in zip(self.unread, self.unread_names)
                                 for owner in owners}

    def prepare(self, snapshot: Computer) -> None:
        snapshot.machine = snapshot.rows()[0]
        snapshot.branches = Branches(snapshot.machine)

    def processes(self, snapshot: Computer) -> Iterable[Subject]:
        return [*(thread for owner in snapshot.machine.owners for thread in owner.threads), *self.unread]

    def finish(self, sketch: Sketch, snapshots: List[Computer]) -> None:
        """Leaves out what couldn't be read, wasn't asked for and stands in nobody's list. Adds what no state shows."""
        machines = [snapshot.machine for snapshot in snapshots]
        self.leave_strangers(sketch, machines)
        self.add_unseen(sketch, machines)
        rows, later = (connections_of(snapshots[number].machine, snapshots[number].readings[0].machine, self.pids)
                       for number in (0, -1))
        sketch.connections = {key: row for key, row in rows.items() if key in later}
        sketch.begun_by = begun_by(machines[0], self.pids)
        for machine in machines:
            sketch.warnings += [line for line in machine.warnings if line not in sketch.warnings]
        owners = machines[0].owners
        said = (self_connections(owner, machines[0]) for owner in owners if owner.system in OWN_THREADS)
        sketch.warnings += filter(None, said)
        sketch.warnings += nameless_programs(thread for owner in owners for thread in owner.threads if owner.living[1:])

    def leave_strangers(self, sketch: Sketch, machines: List[Host]) -> None:
        """Leaves out those of other programs that may have a file which no descriptor shows, and of whom no list has
        one."""
        strangers = {name for machine in machines for owner in self.strangers_of(machine) for name in owner.names}
        near = (process for process in sketch.processes if process.name not in strangers)
        named = {name for names in lists_of_wakers(near) for name in names}
        sketch.processes = [process for process in sketch.processes
                            if process.name not in strangers or process.name in named]

    def add_unseen(self, sketch: Sketch, machines: List[Host]) -> None:
        """Leaves out those that can't be read and stand in no list, and adds what stands in one and is no process."""
        wanted = self.asked.union(name for process in sketch.processes for part in process.parts for group in part
                                  if group.how in UNSEEN for name in group.names())
        for machine in machines:
            self.unseen.update(machine.unseen)
        sketch.processes = [process for process in sketch.processes
                            if process.frames != [UNREADABLE] or process.name in wanted]
        sketch.processes += [unknown(name, why, frames=[name]) for name, why in self.unseen.items() if name in wanted]

    def process_of(self, subject: Subject, snapshot: Computer) -> Process:
        if isinstance(subject, list):
            return unread_one(subject, unread_name(subject) in self.asked)
        thread, name = subject, subject.name
        more: Dict[str, Any] = {"site": site_of(thread.owner),
                                "thread": f"{thread.owner.pid}/{thread.tid}"}
        if thread.state in GONE:
            return Process(name, Sign.ENDED, reason=DONE, because=[SYSTEM], **more)
        is_awake = thread.call == "running" or thread.state == "R"
        why = polls(thread, is_awake)
        if why:  # (it has one place, whatever it does just now: else it would seem to have moved)
            return unknown(name, why, frames=[thread.owner.command], operation="polls", **more)
        if is_awake:
            return goes_on(name, "it computes", [SYSTEM], **more)
        more["frames"] = frames_of(thread)
        more["objects"] = [" ".join([thread.call, *thread.row.get("args", [])])]
        if thread.counts:
            more["count"] = f"{thread.owner.row.get('start')} {thread.counts[0]}"
            more["spent"] = f"{thread.owner.row.get('start')} {thread.counts}"
        if thread.lacks():
            return garbled(name, f"its row has no {thread.lacks()}", **more)
        return self.process_at(thread, snapshot, wait_of(snapshot.machine, thread), more)

    def process_at(self, thread: LinuxThread, snapshot: Computer, wait: LinuxWait, more: Dict[str, Any]) -> Process:
        """Returns the process of a thread that is at a wait."""
        more.update(shown_at(thread, snapshot.machine, wait))
        is_one_wait = len(thread.counts) == 2 and thread.counts[0] == thread.counts[1]
        is_timed = wait.sign in (Sign.SLEEPS, Sign.TICKS)
        if is_timed and (is_one_wait or thread.has_limit) and not is_of_runtime(thread):
            more["operation"] = f"timed {thread.call}"
            return goes_on(thread.name, wait.why, [premise(LIMIT)], wait.sign, **more)
        if not is_one_wait:
            return unknown(thread.name, "it woke while it was read", **{**more, "count": None})
        if wait.sign is Sign.UNKNOWN:
            return unknown(thread.name, wait.why, **more)
        if is_inner(snapshot.machine, thread, wait):
            return unknown(thread.name, f"it waits for all of its runtime{hint(thread)}", **more)
        if wait.operation == BARRIER:
            more.update(is_collective=True, meeting=meeting_of(thread))
        return self.waiter(thread, snapshot, wait, more)

    def waiter(self, thread: LinuxThread, snapshot: Computer, wait: LinuxWait, more: Dict[str, Any]) -> Process:
        """Returns the process of a thread that waits without a limit."""
        strangers = [] if wait.is_exact else self.strangers(thread, snapshot)
        besides = (*self.besides(thread, snapshot, wait), *((wakers("unread", strangers),) if strangers else ()))
        parts = [(*part, *besides) for part in wait.parts]
        assumed = [*wait.premises, SIGNALS, ABOVE]
        if not wait.is_exact:
            assumed += [OUTSIDE] if self.outside == "container" else []
            assumed += [MADE] if len(strangers) < len(self.unread) else []
        because = [SYSTEM, *map(premise, assumed)]
        is_loop = thread.call in (*SETS, *EPOLLS) and len(thread.owner.living) == 1 and wait.ease is Ease.OWN
        if is_loop and unseen_signals(thread.owner):
            wait.sign, wait.why = Sign.RESTS, FOR_SIGNAL  # (its handler writes to its own pipe)
        if wait.sign is Sign.RESTS:
            return rests(thread.name, wait.why, parts, because, **more)
        return blocked(thread.name, parts, because, reason=wait.why, **more)

    def strangers(self, thread: LinuxThread, snapshot: Computer) -> List[str]:
        """Returns the names of those that can't be read, and may have a file at which a thread waits."""
        names = [name for owners, name in zip(self.unread, self.unread_names)
                 if snapshot.branches.may_have(owners, thread)]
        return snapshot.machine.shared(["unread", *names], names)

    def besides(self, thread: LinuxThread, snapshot: Computer, wait: LinuxWait) -> Part:
        """Returns who may end a wait in another way: a handler of a signal, who has a timer or waits with a limit and
        ends those below it then, and whoever may have a file that no descriptor shows."""
        machine, owner = snapshot.machine, thread.owner
        parents = [parent.name for parent in timed_parents(machine, owner)]
        timers = [name for above in machine.above(owner) if above.row.get("timers") for name in self.signals_of(above)]
        part: Part = (wakers("kills", machine.shared(["kills", *parents, *timers], [*parents, *timers])),) \
            if parents or timers else ()
        if not wait.is_exact and machine.carriers:
            names = self.names_of_carriers(machine)
            part += (wakers("unshown", machine.shared(["carriers", *names], names)),)
        return part if is_owned(wait) else (*part, *self.handlers(thread, machine, wait))

    def names_of_carriers(self, machine: Host) -> List[str]:
        """Returns the names of those that may have a file which no descriptor shows. Those of other programs than the
        one that was asked for are one."""
        others = self.strangers_of(machine)
        if others:
            self.unseen[ELSEWHERE_KEPT] = (f"{some_names(others)} may have a file that no descriptor shows, as an "
                                           "io_uring keeps them")
        near = machine.list_of([owner for owner in machine.carriers if owner not in others])
        return [*near, *([ELSEWHERE_KEPT] if others else [])]

    def strangers_of(self, machine: Host) -> List[Owner]:
        tops = [owner for owner in machine.owners if owner.pid in self.pids]
        near = {owner.pid for owner in (*tops, *machine.below(tops))}
        return [owner for owner in machine.carriers if self.pids and owner.pid not in near]

    def handlers(self, thread: LinuxThread, machine: Host, wait: LinuxWait) -> Part:
        """Returns who may end a wait by a signal for which the process of a thread has a handler."""
        owner, signals = thread.owner, self.signals_of(thread.owner)
        part: Part = (wakers("handles", machine.shared(signals, signals)),) if signals else ()
        if owner.catches(SIGCHLD) and SHELL not in wait.premises:  # (who knows for whom it waits goes on to wait)
            children = [child for child in machine.children(owner.pid) if child not in wait.others]
            part += against(machine, thread, children, "handles")
        return part

    def signals_of(self, owner: Owner) -> List[str]:
        """Returns the name that stands for the signals that may come to a process, if any may."""
        signals = unseen_signals(owner)
        self.unseen.update(signals)
        return list(signals)


def is_owned(wait: LinuxWait) -> bool:
    """Whether a wait is at a lock of a program or a join, which no handler of a signal ends."""
    return wait.is_exact and bool(wait.operation) and len(wait.parts) == 1 and all(
        group.how in OWNED for group in wait.parts[0])


def is_of_runtime(thread: LinuxThread) -> bool:
    return thread.owner.system in OWN_THREADS


def is_inner(machine: Host, thread: LinuxThread, wait: LinuxWait) -> bool:
    """Whether a wait is one of a runtime's own."""
    if is_owned(wait):
        return False
    is_timed = wait.sign in (Sign.SLEEPS, Sign.TICKS)
    return is_helper(machine, thread.owner) or is_of_runtime(thread) and (
        is_timed or thread.call in (*EPOLLS, "futex") or wait.others == [thread.owner])


def is_helper(machine: Host, owner: Owner) -> bool:
    """Whether a process is a program of a runtime that one above it runs in, as erl_child_setup."""
    return any(above.system in WITH_HELPERS and folder_of(above) == folder_of(owner)
               for above in machine.above(owner))


def folder_of(owner: Owner) -> str:
    return str(owner.row.get("exe", "")).rpartition("/")[0]


def shown_at(thread: LinuxThread, machine: Host, wait: LinuxWait) -> Dict[str, Any]:
    """Returns at what a thread stands, and what it does. How long its limit is doesn't tell it from the next: many wait
    for what is left of some seconds. Nor does where one that only sleeps keeps that time."""
    words = thread.row.get("args", [])
    if thread.call in SLEEPS:
        words = []
    elif thread.call in IN_MILLISECONDS and thread.has_limit:
        place = LIMITS[thread.call]
        words = [*words[:place], *words[place + 1:]]
    note = whole_note(thread, wait)
    locks = locks_besides(machine, thread) if thread.call in SLEEPS else ""
    return {"objects": [" ".join([thread.call, *words]), *([wait.what] if thread.call == "futex" else [])],
            "operation": thread.call if wait.operation.endswith(" of") else wait.operation or thread.call,
            "note": f"{note}; {locks}" if locks else note}


def time_of(row: Row) -> Optional[Tuple[float, float]]:
    """Returns when a reading began and ended, if its row says so."""
    began, took = row.get("began"), row.get("seconds")
    return (began, began + took) if isinstance(began, float) and isinstance(took, (int, float)) else None


def polls(thread: LinuxThread, is_awake: bool) -> str:
    """Returns why a thread that doesn't wait for ever may be of no use to others, or nothing: runtimes have threads of
    their own that look after something now and then, and a rank of MPI waits awake."""
    system = thread.owner.system
    if system == "mpi" and is_awake:
        return f"it computes, or waits awake{hint(thread)}"
    if system in OWN_THREADS and not is_awake and thread.arguments and thread.has_limit:
        return f"it waits with a limit, as threads of a runtime do{hint(thread)}"
    return ""
