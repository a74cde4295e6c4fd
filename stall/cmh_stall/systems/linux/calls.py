"""At what a thread waits, by the call of the kernel that it is in."""
from __future__ import annotations

import os
import re
from typing import Optional

from cmh_proc.calls import (ACCEPTS, CHILDREN, EPOLLS, FORKS, IPC, MOVES, OPENS, QUEUES, READ, READS, SETLKW, SETS,
                            SLEEPS, SUSPENDS, WRITE, WRITES, int32)

from ...core.files import shown
from ...core.model import Sign, any_of, unseen, wakers
from .children import (wait_at_ipc, wait_for_any_signal, wait_for_children, wait_for_fork, wait_for_signals,
                       wait_to_connect)
from .files import wait_at, wait_at_set
from .frames import has_names, is_known, own_frames, sleeps_in_own_loop
from .limits import far_limit, is_far, limit_of, words_of
from .locks import wait_for_lock
from .machine import Host, LinuxThread
from .stacks import wait_at_futex
from .waits import LinuxWait, is_in_call, not_shown, not_understood, with_end

# Where the kernel holds a thread, whatever its call: of a group that is frozen in get_signal.
ELSEWHERE = re.compile(r"freez|refrigerator|seccomp|userfault|get_signal")


def wait_of(machine: Host, thread: LinuxThread) -> LinuxWait:
    """Returns the wait of a thread."""
    wait = odd_wait(thread, machine)
    if wait is not None:
        return wait
    wait = LinuxWait() if thread.call in SLEEPS else wait_at_call(machine, thread)
    if is_far(thread):
        wait.parts = [(*part, *far_limit(machine, thread, limit_of(thread)[1] or 0.0)) for part in wait.parts or [()]]
        wait.why = wait.why or words_of(thread)
    elif thread.has_limit:
        is_idle = wait.sign is Sign.RESTS or may_tick(thread)
        wait.sign, wait.why = Sign.TICKS if is_idle else Sign.SLEEPS, words_of(thread)
    return wait


def may_tick(thread: LinuxThread) -> bool:
    """Whether a thread waits with a limit in its own loop: in the function that it was started with, or where no stack
    is known, where it only sleeps, or is alone in its process."""
    own = own_frames(thread)
    is_alone = len(thread.owner.living) == 1
    if own and (is_known(thread) or own[1:]) and (has_names(thread) or not is_alone):
        return sleeps_in_own_loop(thread)
    return is_alone or thread.call in SLEEPS


def odd_wait(thread: LinuxThread, machine: Host) -> Optional[LinuxWait]:
    """Returns the wait of one that is stopped, traced or deep in the kernel, or None if it is none of these."""
    tracer = machine.by_pid.get(thread.owner.tracer)
    if thread.state == "t" and tracer is not None and not tracer.why:
        return LinuxWait(any_of(*with_end(machine, thread, [tracer], "owns")), tracer.name, operation="traced by",
                    is_exact=True)
    if thread.state == "t":
        return not_understood("it is traced, and its tracer isn't known", operation="traced")
    if thread.state == "T":
        return LinuxWait(any_of(unseen("outside")), why="it is stopped, and any process may let it go on",
                    operation="stopped", is_exact=True)
    if ELSEWHERE.search(str(thread.row.get("wchan", ""))):
        return not_understood(f"it is held up elsewhere than in its call{place_of(thread)}")
    if thread.arguments and not is_in_call(thread):
        return not_understood(f"what it waits in is none of its call{place_of(thread)}")
    if thread.state == "D" and thread.call not in FORKS:
        return not_understood(f"it is deep in the kernel{place_of(thread)}")
    if thread.call == "-1" or not thread.arguments:
        return not_understood("it waits in no call", operation="no call")
    return None


def place_of(thread: LinuxThread) -> str:
    """Returns where in the kernel a thread waits, as words."""
    where = str(thread.row.get("wchan", ""))
    return f", in {shown(where)}" if where not in ("", "0") else ""


def wait_at_call(machine: Host, thread: LinuxThread) -> LinuxWait:
    """Returns the wait of the call that a thread is in."""
    call = thread.call
    if call in (*READ, *WRITE, *ACCEPTS):
        return wait_at(machine, thread, int32(thread.arguments[0]), WRITES if call in WRITE else READS)
    if call in QUEUES:
        return wait_at(machine, thread, int32(thread.arguments[0]), WRITES if call == QUEUES[0] else READS)
    if call == "fcntl" and int32(thread.arguments[1]) in SETLKW:
        return wait_for_lock(machine, thread)
    if call == "rt_sigtimedwait" and "mask" in thread.row:
        return wait_for_signals(machine, thread, int(thread.row["mask"], 16))
    if call in OPENS:
        return wait_to_open(machine, thread)
    if call in WAYS:
        return WAYS[call](machine, thread)
    if call == "restart_syscall":
        return not_understood("it was stopped for a moment, as a debugger does, and no longer shows its "
                              f"call{place_of(thread)}")
    return not_understood(f"what ends it isn't known{place_of(thread)}")


def wait_to_open(machine: Host, thread: LinuxThread) -> LinuxWait:
    """Returns the wait for whoever opens the other end of a FIFO. Where a writer waits so, and one of another process
    too, each is likely to wait for the other: nobody idles to write. Readers alone may."""
    wait = not_shown("who may open the other end isn't known", shown(str(thread.row.get("path", ""))), "by-name")
    others = [other for owner in machine.owners if owner is not thread.owner for other in owner.living
              if is_opening(other) and (opens_to_write(thread) or opens_to_write(other))]
    if others:
        wait.parts = [(wakers("guess", [other.name for other in others]), *part) for part in wait.parts]
    return wait


def is_opening(thread: LinuxThread) -> bool:
    return thread.call in OPENS and thread.row.get("wchan") == AT_FIFO


def opens_to_write(thread: LinuxThread) -> bool:
    return thread.call in OPENS[:2] and bool(thread.arguments[OPENS.index(thread.call) + 1] & os.O_ACCMODE)


AT_FIFO = "wait_for_partner"
WAYS = {**dict.fromkeys((*SETS, *EPOLLS, *MOVES), wait_at_set), **dict.fromkeys(CHILDREN, wait_for_children),
        "futex": wait_at_futex, "flock": wait_for_lock, **dict.fromkeys(IPC, wait_at_ipc), "connect": wait_to_connect,
        **dict.fromkeys(SUSPENDS, wait_for_any_signal), **dict.fromkeys(FORKS, wait_for_fork)}
