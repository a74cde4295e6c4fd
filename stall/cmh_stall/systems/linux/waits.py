"""What a wait of a thread is, and who may end it as those do who have a file or who end themselves."""
from __future__ import annotations

import re
from dataclasses import dataclass, field
from enum import IntEnum
from typing import Iterable, List

from cmh_proc.calls import ACCEPTS, CHILDREN, EPOLLS, MOVES, READ, SETS, SLEEPS, SUSPENDS, WRITE, int32

from ...core.model import Part, Sign, any_of, unseen, wakers
from .machine import Host, LinuxThread, Owner

FILES, SLEEPER, UNTIMED = "files", "sleeper", "untimed"  # assumptions
AT_FILES = (*READ, *WRITE, *ACCEPTS, *SETS, *EPOLLS, *MOVES)  # calls that wait at files
# The calls that may wait in a function of the kernel, by the names of those of several versions.
CALLS_IN = ((re.compile(r"futex_\w+|rt_mutex_schedule"), ("futex",)),
            (re.compile(r"(do_|hrtimer_)nanosleep"), SLEEPS),
            (re.compile(r"(do_epoll_wait|ep_poll)\b.*"), EPOLLS),
            (re.compile(r"(poll_schedule_timeout|do_sys_poll|do_select)\b.*"), SETS),
            (re.compile(r"do_wait"), CHILDREN),
            (re.compile(r"(anon_)?pipe_(wait_)?read(able)?|unix_stream_read_generic|__skb_wait_for_more_packets"),
             (*READ, *ACCEPTS, *MOVES)),
            (re.compile(r"(anon_)?pipe_(wait_)?writ(e|able)|sock_alloc_send_pskb"), (*WRITE, *MOVES)),
            (re.compile(r"unix_wait_for_peer"), ("connect", *WRITE, *MOVES)),
            (re.compile(r"inet_csk_accept"), ACCEPTS))
SLEEP, FOLDERS, OF_MANY_NAMES = "sleep", ("/bin", "/usr/bin"), ("busybox", "coreutils")
COMES = "waits for whoever comes next"  # why one rests


class Ease(IntEnum):
    """How much a descriptor in a set says that one waits there who has nothing to do."""

    NONE = 0
    OWN = 1  # its own process alone has the other end, as an event loop has that wakes itself
    CALM = 2  # a listener, a terminal, signals, or somebody outside


@dataclass
class LinuxWait:
    """A wait, or what one descriptor of a set is waited at for. `what` says at what it is, and `others` who has the
    other ends, for people. `why` says why it isn't understood, rests, or ends by itself. `is_exact` says that no
    process that can't be read may end it, and `operation` what it does, if that is another word than the call."""

    parts: List[Part] = field(default_factory=list)
    what: str = ""
    others: List[Owner] = field(default_factory=list)
    premises: List[str] = field(default_factory=list)
    sign: Sign = Sign.BLOCKED
    why: str = ""
    operation: str = ""
    is_exact: bool = False
    ease: Ease = Ease.NONE


def is_in_call(thread: LinuxThread) -> bool:
    """Whether a thread may wait in its call where it does in the kernel."""
    where = str(thread.row.get("wchan", ""))
    calls = next((calls for form, calls in CALLS_IN if form.fullmatch(where)), None)
    return calls is None or thread.call in (*calls, "restart_syscall")


def not_understood(why: str, what: str = "", operation: str = "") -> LinuxWait:
    return LinuxWait(what=what, sign=Sign.UNKNOWN, why=why, operation=operation)


def not_shown(why: str, what: str, how: str = "unshown", ease: Ease = Ease.NONE) -> LinuxWait:
    """A wait that somebody may end who isn't in the state."""
    return LinuxWait(any_of(unseen(how)), what, why=why, ease=ease)


def only_sleeps(owner: Owner) -> bool:
    """Whether a process is the program `sleep` of the system, and sleeps: it uses nothing of what it has inherited."""
    folder, _, program = str(owner.row.get("exe", "")).rpartition("/")
    is_sleep = program == SLEEP or program in OF_MANY_NAMES and owner.command == SLEEP
    is_asleep = len(owner.threads) == 1 and owner.threads[0].call in (*SLEEPS, *SUSPENDS)
    return folder in FOLDERS and is_sleep and is_asleep and not owner.handled_besides(())


def users_of(owners: List[Owner]) -> List[Owner]:
    """Returns those of some processes with a file who may use it. Who only sleeps closes it in the end, which others
    see once all have done that: it counts where nobody else has the file."""
    return [owner for owner in owners if not only_sleeps(owner)] or owners


def with_sleeper(premises: List[str], owners: List[Owner]) -> List[str]:
    """Returns the assumptions of a wait for those of some processes who may use a file."""
    return [*premises, SLEEPER] if len(users_of(owners)) < len(owners) else [*premises]


def with_end(machine: Host, thread: LinuxThread, owners: Iterable[Owner], how: str, may_be_alone: bool = False) -> Part:
    """Returns the wakers that some processes are who have what is needed: the one thread there is, in the way `how`, or
    each thread of them, which can reach it. A waiter that is alone in its process is one of several only where it
    `may_be_alone` the one who is needed."""
    living = [owner for owner in dict.fromkeys(owners) if owner.living]
    names = machine.list_of(living) if may_be_alone else machine.names_of(owners, thread)
    return (wakers(how if len(names) == 1 else "reaches", names),) if names else ()


def against(machine: Host, thread: LinuxThread, owners: Iterable[Owner], how: str) -> Part:
    """Returns the threads of some processes, but for the waiter where it is alone in its own, as those who may end a
    wait in another way."""
    others = [owner for owner in dict.fromkeys(owners)
              if owner.living and (owner is not thread.owner or len(owner.living) > 1)]
    return (wakers(how, machine.names_of(others, thread)),) if others else ()


def names_of_epoll(thread: LinuxThread) -> List[str]:
    """Returns the name of the open epoll at which a thread waits, which others may have too, or of any epoll where the
    kernel doesn't tell one from another."""
    epoll = thread.owner.file(int32(thread.arguments[0])) if thread.call in EPOLLS else None
    return [] if epoll is None else [epoll.key("open") if epoll.open else epoll.target]
