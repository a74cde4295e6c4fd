"""Stacks that eu-stack or gdb prints, and what they say of a futex: which lock of glibc it is of, and so who holds it.

The kernel knows no more of a futex than the address of its word. The frame says what the word is: of a mutex, of a
thread that is joined, of a lock of readers and writers. glibc keeps its owner in memory beside it.
"""
from __future__ import annotations

import re
from functools import lru_cache
from typing import Dict, Iterable, List, Optional, Tuple

from cmh_proc.calls import FUTEX_LOCKS, FUTEX_WAITS, OPERATION, OWNER, PRIVATE, int32

from ...core.model import Sign, any_of, unseen, wakers
from .children import SIGCHLD
from .frames import KEPT, is_known, library_names, takes_next
from .machine import CONDITION, ENDED, Host, LinuxThread, Owner, Row
from .waits import FILES, LinuxWait, against

STACK = "stack"
TID = re.compile(r"^(?:TID (\d+):|Thread \d+ \(.*?LWP (\d+)\).*)$")
STEP = re.compile(r"^#\d+ +(?:0x[0-9a-f]+ )?(?:in )?(\S.*?)$")
CALL = re.compile(r"^(?P<function>.*?) \((?:.*)\)(?: at (?P<file>\S+):(?P<line>\d+)| from \S+)?$")
SOURCE = re.compile(r"^ +(\S.*?):(\d+)(?::\d+)?$")
WORDS = re.compile(r"^_*(?:GI_)?_*")
MUTEX = ("pthread_mutex_lock", "pthread_mutex_cond_lock", "pthread_mutex_lock_full")
JOIN = ("pthread_join", "pthread_clockjoin_ex", "pthread_timedjoin_np", "pthread_clockjoin_np")
RWLOCK = ("pthread_rwlock_rdlock", "pthread_rwlock_wrlock")
BARRIER = "pthread_barrier_wait"
INSIDE = re.compile(r"(futex|lll_(mutex_)?(lock|wait)|syscall|pthread_rwlock_\w+_full)")
NAMELESS = re.compile(r"$|\?\?|0x")  # a frame of a library without its names
HELD = 2  # what glibc's mutex has in its word while it is held and somebody waits; of a robust one that is its owner
JOINS = ("_ZNSt6thread4joinEv", "std::thread::join")


def add_stacks(machine: Host, rows: Iterable[Row]) -> None:
    """Gives the threads of a reading their stacks, where these still stood at the same call afterwards."""
    for row in rows:
        stacks = stacks_of(str(row.get("text", "")))
        owner = machine.by_pid.get(row.get("stacks", 0))
        for thread in owner.threads if owner else ():
            if is_same(thread, row.get("still", {}).get(str(thread.tid), [])):
                thread.stack = stacks.get(thread.tid, [])


def lend_calls(machine: Host) -> None:
    """Has a thread for whose stack there was no time be in the call of glibc that all others are in who wait at its
    word: a word is that of one lock."""
    for threads in (threads for owner in machine.owners for threads in owner.at_futex.values()):
        late = [thread for thread in threads if thread.is_late and not thread.frames]
        others = (thread for thread in threads if thread.frames or not thread.is_late) if late else ()
        calls = set(map(operation_within, others))
        for thread in late if len(calls) == 1 else ():
            thread.within = next(iter(calls))


def is_same(thread: LinuxThread, words: List[str]) -> bool:
    """Whether a later look shows the arguments of the call that a thread is in."""
    return len(words) > 3 and words[1:4] == thread.row.get("args", [])[:3]


def stacks_of(text: str) -> Dict[int, List[Tuple[str, str]]]:
    """Returns the frames of each thread, topmost first: the function, and FILE:LINE or nothing."""
    stacks: Dict[int, List[Tuple[str, str]]] = {}
    frames: Optional[List[Tuple[str, str]]] = None
    for line in text.split("\n"):
        mark = line[:1]
        if mark == "T" and (head := TID.match(line)):
            frames = stacks.setdefault(int(head[1] or head[2]), [])
        elif mark == "#" and frames is not None and (step := step_in(line)):
            frames.append(step)
        elif mark == " " and frames and (source := SOURCE.match(line)):
            frames[-1] = frames[-1][0], f"{source[1]}:{source[2]}"
    return stacks


@lru_cache(maxsize=KEPT)
def step_in(line: str) -> Optional[Tuple[str, str]]:
    """Returns the function of a frame, and FILE:LINE or nothing, if a line has one."""
    step = STEP.match(line)
    call = CALL.match(step[1]) if step else None
    if step is None or call is None:
        return (step[1].partition("@")[0], "") if step else None
    return call["function"], f"{call['file']}:{call['line']}" if call["file"] else ""


def operation_of(thread: LinuxThread) -> str:
    """Returns the call of glibc that a thread is in at a futex, or nothing."""
    if not thread.stack:
        return operation_within(thread)
    for function, _ in thread.stack[:5]:
        name = WORDS.sub("", function.partition("@")[0].partition("(")[0].strip())
        if name in (*MUTEX, *JOIN, *RWLOCK, BARRIER):
            return "pthread_join" if name in JOIN else name.replace("_full", "")
        if not INSIDE.match(name) and not NAMELESS.match(name):
            return ""
    return ""


def operation_within(thread: LinuxThread) -> str:
    """Returns the call of glibc that a thread is in by where its stack was unwound to, or nothing. In the wait for a
    condition it may be at that's lock."""
    for name in (thread.within, *(WORDS.sub("", name) for name in library_names(thread))):
        if CONDITION.fullmatch(name) and thread.arguments[1] & OPERATION in FUTEX_WAITS[:1]:
            return "pthread_mutex_cond_lock"
        if name in (*JOIN, *JOINS):
            return "pthread_join"
        if name in (*MUTEX, *RWLOCK, BARRIER):
            return name.replace("_full", "")
    return ""


def wait_at_futex(machine: Host, thread: LinuxThread) -> LinuxWait:
    """Returns whom a thread at a futex waits for, and else who may wake it at most."""
    wait = owner_of_futex(machine, thread)
    if wait.sign is Sign.UNKNOWN and thread.is_late and not thread.stack and not wait.operation:
        wait.why = "there was no time to read its stack"
    elif wait.sign is Sign.UNKNOWN and int32(thread.arguments[1]) & OPERATION in (*FUTEX_WAITS, *FUTEX_LOCKS):
        set_wakers(machine, thread, wait)
        is_calm = not wait.operation and not thread.owner.system and takes_next(thread)
        wait.sign = Sign.RESTS if is_calm else Sign.BLOCKED
        wait.why = "waits for work" if is_calm else wait.why
    return wait


def set_wakers(machine: Host, thread: LinuxThread, wait: LinuxWait) -> None:
    """Sets who may wake a thread at a futex: the threads that have its memory, and whoever traces these."""
    name, kin = thread.row.get("memory"), thread.owner.row.get("kin", ())
    owners = [thread.owner, *(machine.by_pid[pid] for pid in kin if pid in machine.by_pid)]
    owners += machine.with_file(name) if name else []
    owners = list(dict.fromkeys(owners))
    tracers = {owner.tracer for owner in owners} - {0}
    is_known = name is not None and "kin" in thread.owner.row and {*kin} <= machine.by_pid.keys()
    is_known = is_known and tracers <= machine.by_pid.keys() and not any(owner.why for owner in owners)
    is_private = thread.arguments[1] & PRIVATE or name == ""
    how = "same-process" if is_private and not owners[1:] else "reaches"
    # One that is alone at a word of its own has nobody to wake it, as at a pipe of its own.
    groups = [wakers("other-end" if how != "reaches" and len(thread.owner.living) == 1 else how,
                     machine.names_of(owners, thread))]
    groups += against(machine, thread, handling(machine, owners), "handles")
    groups += [wakers("reaches", machine.names_of([machine.by_pid[pid] for pid in tracers if pid in machine.by_pid],
                                                  thread))] if tracers & machine.by_pid.keys() else []
    wait.parts = any_of(*groups, *(() if is_known else (unseen("unshown"),)))
    wait.is_exact, wait.premises = not name, [FILES] if name else []


def handling(machine: Host, owners: Iterable[Owner]) -> List[Owner]:
    """Returns the children of those processes that have a handler for the end of these."""
    return [child for owner in owners if owner.catches(SIGCHLD) for child in machine.children(owner.pid)]


def owner_of_futex(machine: Host, thread: LinuxThread) -> LinuxWait:
    """Returns whom a thread at a futex waits for, if its stack says of what the futex is, or if the kernel keeps that.
    """
    word = f"{thread.arguments[0]:#x}"
    kind, operation = int32(thread.arguments[1]) & OPERATION, operation_of(thread)
    if kind in FUTEX_LOCKS:
        owners = with_number(machine, thread, thread.word(0) & OWNER)
        return owned(LinuxWait(what=word, operation=operation), owners, "owns")
    if not operation or kind not in FUTEX_WAITS:
        more = hint(thread) or ("" if machine.has_stacks or is_known(thread) else "; `--stacks` may show more")
        return LinuxWait(what=word, sign=Sign.UNKNOWN, why=f"the kernel doesn't know who ends it{more}")
    if operation == BARRIER:
        why = "the state doesn't show who has still to come to its barrier"
        return LinuxWait(what=word, sign=Sign.UNKNOWN, why=why, operation=operation)
    if operation == "pthread_join":
        joined = thread.owner.numbered.get(thread.word(0), [])
        return owned(LinuxWait(what=f"thread {thread.word(0)}", operation=operation, premises=[STACK]), joined, "ends")
    owner = thread.word(16 if thread.arguments[0] % 8 == 0 else 12)
    if operation in MUTEX:
        owner = thread.word(8)
        owner = owner if thread.word(0) == HELD or thread.word(0) & OWNER == owner else 0
    owners = with_number(machine, thread, owner)
    return owned(LinuxWait(what=word, operation=operation, premises=[STACK]), owners, "owns")


def meeting_of(thread: LinuxThread) -> str:
    """Returns at which barrier a thread is: by the address of its word, if that is of one process alone."""
    is_private = thread.arguments[1] & PRIVATE
    return f"{thread.owner.pid} {thread.arguments[0]:#x}" if is_private else "shared"


def with_number(machine: Host, thread: LinuxThread, tid: int) -> List[LinuxThread]:
    """Returns the threads that a number in a lock may stand for: of the same process, or of any if it is shared, each
    as it sees itself in its container."""
    is_private = thread.arguments[1] & PRIVATE or not tid
    return thread.owner.numbered.get(tid, []) if is_private else machine.threads(tid)


def owned(wait: LinuxWait, owners: List[LinuxThread], how: str) -> LinuxWait:
    """Returns a wait for the one thread that has a lock, or that is joined."""
    if len(owners) != 1:
        wait.sign, wait.why = Sign.UNKNOWN, "who ends its wait isn't kept in memory"
    elif owners[0].state in ENDED:
        wait.sign, wait.why = Sign.UNKNOWN, "the thread that has to end it has ended itself"
    else:
        wait.parts, wait.others, wait.is_exact = any_of(wakers(how, [owners[0].name])), [owners[0].owner], True
    return wait


def hint(thread: LinuxThread) -> str:
    """Returns which parser knows more of a process, as words for a reason."""
    system = thread.owner.system
    ways = ", by cmh_state or cmh_python_reader.py" if system == "python" else ""
    return f"; `cmh-dump {system}` sees inside of it{ways}" if system else ""
