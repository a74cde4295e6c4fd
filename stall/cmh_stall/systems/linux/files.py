"""Who may end a wait at descriptors, as the kernel keeps it: who has their other ends."""
from __future__ import annotations

import re
from typing import List, Sequence

from cmh_proc.calls import EPOLLS, EVENTS, MOVES, ONESHOT, READS, SETS, WRITES, int32
from cmh_proc.open_files import ANONYMOUS, EPOLL, OpenFile

from ...core.model import Part, Sign, Wakers, any_of, unseen, wakers
from ...core.sketch import LIMIT
from .children import FOR_SIGNAL, wait_for_end, wait_for_signals
from .frames import is_of_system
from ...core.times import duration
from ..base import FAR
from .limits import far_limit
from .machine import MASTER, NOWHERE, TERMINAL, Host, LinuxThread, Owner, Row
from .waits import (COMES, FILES, UNTIMED, Ease, LinuxWait, against, names_of_epoll, not_shown, not_understood,
                    users_of, with_end, with_sleeper)

INOTIFY = "anon_inode:inotify"
TERMINALS = ("/dev/tty", TERMINAL, MASTER, "/dev/console")
UNARMED, AT_LISTENER = (0, 0), "LISTEN"
LOOPS = re.compile(r".*/lib(event|ev|uv|glib-2)\b[^/]*")  # libraries with a loop for events
POLLS = re.compile("uv__io_poll|uv_run|ev_run|event_base_loop")  # the same where it is a part of the program


def wait_at(machine: Host, thread: LinuxThread, fd: int, events: int) -> LinuxWait:
    """Returns the wait for an event at a descriptor of a thread."""
    file = thread.owner.file(fd)
    if file is NOWHERE:
        return not_understood(f"its descriptor {fd} isn't known", f"descriptor {fd}")
    wait = wait_at_file(machine, thread, file, events)
    wait.what += f" (descriptor {fd})"
    return wait


def wait_at_file(machine: Host, thread: LinuxThread, file: OpenFile, events: int) -> LinuxWait:
    """Returns the wait for an event at an open file of a thread."""
    target = file.target
    if file.is_pipe:
        return wait_at_pipe(machine, thread, target, f"pipe {target[6:-1]}", file.mode, events)
    if file.fifo:
        wait = wait_at_pipe(machine, thread, file.key("fifo"), f"FIFO {target}", file.mode, events)
        if wait.ease is Ease.OWN and events & READS:  # (it keeps both ends open, and waits for who opens it next)
            return LinuxWait(any_of(unseen("by-name")), wait.what, wait.others, sign=Sign.RESTS, why=COMES,
                             ease=Ease.CALM)
        wait.parts = [(*part, unseen("by-name")) for part in wait.parts]
        return wait
    if file.queue:
        return wait_at_queue(machine, thread, file, events)
    if file.socket:
        return wait_at_socket(machine, thread, file)
    if target.startswith((ANONYMOUS, "pidfd:[")):
        return wait_at_anonymous(machine, thread, file)
    if target.startswith(TERMINALS):
        return wait_at_terminal(machine, thread, target, events)
    if target == INOTIFY:
        return LinuxWait(any_of(unseen("outside")), INOTIFY, sign=Sign.RESTS, why="waits for changes of files",
                    ease=Ease.CALM)
    return not_understood(f"what ends a wait at {target} isn't known", target)


def wait_at_pipe(machine: Host, thread: LinuxThread, key: str, what: str, mode: str, events: int) -> LinuxWait:
    """Returns the wait at an end of a pipe, open in a mode: to one that is only read or only written nothing comes but
    from the other end, whatever is asked for."""
    ways = [other for way, other in ((READS, "w"), (WRITES, "r")) if events & way] or ["w", "r"]
    ways = {"r": ["w"], "w": ["r"]}.get(mode, ways)
    others = list(dict.fromkeys(owner for way in ways for owner in machine.with_file(key, way)))
    wait = wait_for(machine, thread, others, what, [FILES])
    apart = [owner for owner in users_of(others) if not waits_for(owner, key)] if others[1:] else []
    if len(apart) == 1 and len(apart[0].living) == 1:  # (who waits for it too isn't the one whose act is needed)
        wait.parts = [(wakers("other-end", apart[0].names), *part) for part in wait.parts]
    return wait


def waits_for(owner: Owner, key: str) -> bool:
    """Whether a thread of a process waits at a file."""
    return any(key in owner.file(fd).keys() for thread in owner.living for fd, *_ in thread.events)


def wait_at_terminal(machine: Host, thread: LinuxThread, target: str, events: int) -> LinuxWait:
    """Returns the wait at a terminal, or at the end of one that a program has, as `expect` or a server for logins.
    Which of these ends is of which terminal isn't in the state."""
    others = machine.with_file(TERMINAL if target == MASTER else MASTER)
    part = with_end(machine, thread, [owner for owner in others if owner is not thread.owner], "reaches")
    if target != MASTER and events & READS and not part:
        return LinuxWait(any_of(unseen("outside")), target, sign=Sign.RESTS, why=COMES, ease=Ease.CALM)
    return LinuxWait(any_of(*part, unseen("outside")), target, others)


def wait_for(machine: Host, thread: LinuxThread, others: List[Owner], what: str, premises: List[str],
             how: str = "other-end") -> LinuxWait:
    """Returns the wait for those who have the other end. If none has it, who does isn't shown: it may be on its way."""
    part = with_end(machine, thread, users_of(others), how)
    if not part:
        return not_shown(f"no process that was read has the other end of {what}", what)
    ease = Ease.OWN if others == [thread.owner] else Ease.NONE
    return LinuxWait(any_of(*part), what, others, with_sleeper(premises, others), ease=ease)


def wait_at_queue(machine: Host, thread: LinuxThread, file: OpenFile, events: int) -> LinuxWait:
    """Returns the wait at a queue of messages, for who takes from it or puts into it. One that has a name may be opened
    by anybody."""
    others = machine.with_file(file.key("queue"), "w" if events & READS else "r")
    wait = wait_for(machine, thread, others, f"queue of messages {file.target}", [FILES])
    if not file.target.endswith(" (deleted)"):
        wait.parts = [(*part, unseen("by-name")) for part in wait.parts]
    return wait


def wait_at_socket(machine: Host, thread: LinuxThread, file: OpenFile) -> LinuxWait:
    row = machine.sockets.get(file.socket)
    if row is None:
        return not_shown(f"the other end of {file.target} isn't known", file.target)
    kind = {"tcp": "TCP socket", "u_dgr": "Unix datagram socket"}.get(row["kind"], "Unix socket")
    if row["state"] == AT_LISTENER:
        what = f"listening {kind} {row['at']}"
        return LinuxWait(any_of(unseen("to-come")), what, sign=Sign.RESTS, why=COMES, ease=Ease.CALM)
    between = f"from {row['at']} to {row['to']}" if row["to"] else row["at"]
    what = f"{kind} {file.socket if between in ('', '*') else between}"
    if row.get("away"):
        return not_shown("who is on another machine may send", what, "outside", Ease.CALM)
    if row["kind"] == "u_dgr":
        fault = doubt_of_datagram(thread, row)
        if fault:
            return not_shown(fault, what, "by-name" if row["at"] != "*" else "unshown")
    premises = [FILES, UNTIMED] if may_time_out(machine, thread, row) else [FILES]
    if any(machine.sockets.get(peer, {}).get("state") == AT_LISTENER for peer in row["peers"]):
        wait = wait_for_acceptor(machine, thread, row, what, premises)
    else:
        others = list(dict.fromkeys(owner for peer in row["peers"] for owner in machine.with_file(f"socket:[{peer}]")))
        wait = wait_for(machine, thread, others, what, premises)
        wait.what += f", of which {row['unread']:,} bytes are unread" if row.get("unread") else ""
        wait.ease = Ease.NONE if row["kind"] == "tcp" else wait.ease
    same = machine.with_file(file.target)  # (whoever has the same end may shut it down)
    wait.premises = list(dict.fromkeys(with_sleeper(wait.premises, same)))
    wait.parts = [(*part, *against(machine, thread, users_of(same), "closes")) for part in wait.parts]
    return wait


def wait_for_acceptor(machine: Host, thread: LinuxThread, row: Row, what: str, premises: List[str]) -> LinuxWait:
    """Returns the wait at a connection that isn't accepted yet: for who accepts at its listener, which may be the
    waiter. Others that have the listener may start one more who does."""
    holders = {peer: machine.with_file(f"socket:[{peer}]") for peer in row["peers"]}
    takers = {peer: [owner for owner in owners if accepts_at(machine, owner, peer, row)]
              for peer, owners in holders.items()}
    able = list(dict.fromkeys(owner for peer in holders for owner in takers[peer] or holders[peer]))
    part = with_end(machine, thread, users_of(able), "accepts", may_be_alone=len(holders) == 1 and all(takers.values()))
    if not part:
        return not_shown(f"no process that was read has the listener of {what}", what)
    everybody = list(dict.fromkeys(owner for owners in holders.values() for owner in owners))
    others = users_of([owner for owner in everybody if owner not in able])
    more = (wakers("starts", machine.names_of(others, thread)),) if others else ()
    return LinuxWait(any_of(*part, *more), f"unaccepted {what}", able, with_sleeper(premises, everybody))


def accepts_at(machine: Host, owner: Owner, listener: int, row: Row) -> bool:
    """Whether a process accepts connections at a listener like the one that a socket is an end of: it has another one
    that came to the same address, or waits for one."""
    address = row["to"] or machine.sockets.get(listener, {}).get("at", "")
    ends = [machine.sockets.get(file.socket, {}) for file in owner.files.values()]
    if any(end.get("kind") == row["kind"] and end["at"] == address and end["state"] != AT_LISTENER for end in ends):
        return True
    return any(owner.file(fd).socket == listener for thread in owner.living for fd, *_ in thread.events)


def self_connections(owner: Owner, machine: Host) -> str:
    """Returns in words with which of its own listeners a process is connected, or nothing: it may wait for itself, also
    where its runtime doesn't show who does."""
    own = [file.socket for file in owner.files.values() if file.socket]
    rows = [machine.sockets.get(number, {}) for number in own]
    rows = [row for row in rows if row.get("kind") == "tcp"]
    listeners = {row["at"].rpartition(":")[2] for row in rows if row["state"] == AT_LISTENER}
    asking = [row for row in rows if row["state"] != AT_LISTENER and {*row["peers"]} & {*own}
              and row["to"].rpartition(":")[2] in listeners]
    places = ", ".join(dict.fromkeys(row["to"] for row in asking))
    unread = sum(row.get("unread", 0) for row in asking)
    said = f"{owner.name} is connected with itself: {len(asking)} at {places}, {unread:,} bytes unread"
    return said if asking else ""


def doubt_of_datagram(thread: LinuxThread, row: Row) -> str:
    """Returns why it isn't known who sends to a socket for datagrams, or takes from it, or nothing."""
    if row["at"] != "*":
        return f"anybody may send to Unix datagram socket {row['at']}"
    if "sock_alloc_send" in str(thread.row.get("wchan", "")):
        return "its own buffer is full of messages, and who has to take these isn't known"
    return "to whom it sends isn't known" if thread.is_addressed else ""


def may_time_out(machine: Host, thread: LinuxThread, row: Row) -> bool:
    """Whether a limit of a socket may end a wait at it. To one that polls only that of TCP matters, which needs a timer
    of the kernel at one of the ends."""
    if thread.call not in (*SETS, *EPOLLS):
        return True
    ends = [row, *(machine.sockets.get(peer, {}) for peer in row["peers"])]
    return row["kind"] == "tcp" and any(end.get("timer") is not False for end in ends)


def wait_at_anonymous(machine: Host, thread: LinuxThread, file: OpenFile) -> LinuxWait:
    if file.event is not None:
        others = machine.with_file(file.key("event"))
        wait = wait_for(machine, thread, others, f"eventfd {file.event}", [FILES])
        if any(owner.row.get("aio") for owner in [thread.owner, *others]):
            wait.why = "the kernel may write to its eventfd, as io_submit asks it to"
            wait.parts = [(*part, unseen("unshown", wait.why)) for part in wait.parts]
        return wait
    if file.timer == UNARMED:
        return not_shown("its timer isn't armed, and whoever has it may do that", "timer")
    if file.timer is not None:
        seconds = file.timer[0] + file.timer[1] / 1e9
        if seconds > FAR:
            return LinuxWait(any_of(*far_limit(machine, thread, seconds)), "timer", is_exact=True)
        return LinuxWait(what="timer", sign=Sign.SLEEPS, why=f"its timer comes in {duration(seconds)}",
                         premises=[LIMIT])
    if file.signals is not None:
        owners = dict.fromkeys(owner for name in names_of_epoll(thread) for owner in machine.with_file(name))
        return wait_for_signals(machine, thread, file.signals, list(owners))
    if file.pid is not None:
        return wait_for_end(machine, thread, file.pid)
    what = file.target.partition(":")[2].strip("[]")
    return not_understood(f"what ends a wait at {what} isn't known", what)


def wait_at_set(machine: Host, thread: LinuxThread) -> LinuxWait:
    """Returns the wait at several descriptors: what ends any of them."""
    if "set" not in thread.row:
        return not_understood("the set of its descriptors couldn't be read", "a set that can't be read")
    if thread.call in EPOLLS:
        return wait_at_epoll(machine, thread)
    # (What it moves from or to a file on a disk doesn't wait.)
    is_moved = thread.call in MOVES
    return wait_for_any(machine, thread, [row for row in thread.events
                                          if not is_moved or not is_plain(thread.owner.file(row[0]))])


def wait_at_epoll(machine: Host, thread: LinuxThread) -> LinuxWait:
    """Returns the wait at the descriptors of an epoll, to which others who have that may add."""
    if EPOLL not in thread.owner.file(int32(thread.arguments[0])).target or any(len(row) < 3 for row in thread.events):
        return not_understood("its epoll isn't known", "epoll")
    stale = [fd for fd, _, number in thread.events if is_other_file(thread.owner, fd, number)]
    if stale:
        return not_understood(f"its epoll has a file that descriptor {stale[0]} no longer is", "epoll")
    rows = [row for row in thread.events if not row[1] & ONESHOT or row[1] & EVENTS]  # (others were seen)
    owners = [thread.owner, *(owner for name in names_of_epoll(thread) for owner in machine.with_file(name))]
    wait = wait_for_any(machine, thread, rows)
    wait.sign = wait.sign if rows else Sign.BLOCKED
    more = against(machine, thread, users_of(list(dict.fromkeys(owners))), "closes")
    wait.parts = [(*part, *more) for part in wait.parts]
    wait.premises = list(dict.fromkeys(with_sleeper(wait.premises, owners)))
    return wait


def wait_for_any(machine: Host, thread: LinuxThread, rows: Sequence[Sequence[int]]) -> LinuxWait:
    """Returns the wait for any of some events."""
    wait = joined([wait_at(machine, thread, row[0], row[1]) for row in rows])
    if wait.sign is Sign.BLOCKED and (may_come(wait) or is_in_loop(thread)):
        wait.sign, wait.why = Sign.RESTS, COMES
    return wait


def may_come(wait: LinuxWait) -> bool:
    """Whether one waits for what comes next, among other things."""
    return any(group.how == "to-come" for part in wait.parts for group in part)


def is_in_loop(thread: LinuxThread) -> bool:
    """Whether a thread waits in the loop of a library of events, and not in something that this has called."""
    inner = next((step for step in thread.frames if not is_of_system(step)), None)
    return inner is not None and (LOOPS.fullmatch(inner.module) or POLLS.fullmatch(inner.function)) is not None


def is_plain(file: OpenFile) -> bool:
    """Whether a descriptor is of a plain file."""
    return file.target.startswith("/") and not file.target.startswith("/dev/") and not file.fifo


def is_other_file(owner: Owner, fd: int, number: int) -> bool:
    """Whether a descriptor of an epoll is another file by now, or closed while somebody else keeps the file."""
    file = owner.file(fd)
    if file is NOWHERE:
        return True
    inode = file.target.partition("[")[2].rstrip("]")
    return number < 0 or inode.isdigit() and number != 0 and int(inode) != number


def joined(waits: Sequence[LinuxWait]) -> LinuxWait:
    """Returns the wait that any of some waits ends. One at rest stands at nothing but what tells of that."""
    what = ", ".join(wait.what for wait in waits[:4]) + (f" and {len(waits) - 4} more" if waits[4:] else "")
    others = list(dict.fromkeys(owner for wait in waits for owner in wait.others))
    timed = next((wait for wait in waits if wait.sign is Sign.SLEEPS), None)
    if timed is not None:
        return LinuxWait(what=what, others=others, premises=timed.premises, sign=Sign.SLEEPS, why=timed.why)
    if not waits:
        return LinuxWait(any_of(unseen("outside")), "nothing", sign=Sign.RESTS, why=FOR_SIGNAL, is_exact=True)
    premises = list(dict.fromkeys(name for wait in waits for name in wait.premises))
    is_calm = min(wait.ease for wait in waits) > Ease.NONE and max(wait.ease for wait in waits) is Ease.CALM
    why = COMES if is_calm else next((wait.why for wait in waits if wait.why), "")
    return LinuxWait(any_of(*part_of(waits)), what, others, premises, Sign.RESTS if is_calm else Sign.BLOCKED, why,
                is_exact=all(wait.is_exact for wait in waits), ease=min(wait.ease for wait in waits))


def part_of(waits: Sequence[LinuxWait]) -> Part:
    """Returns the wakers of all of some waits, each list once. What isn't understood may be ended by anybody."""
    groups: List[Wakers] = []
    for wait in waits:
        groups += [group for part in wait.parts for group in part]
        groups += [unseen("unshown", wait.why)] if wait.sign is Sign.UNKNOWN else []
    kept = {(id(group.who), group.how): group for group in groups}
    return tuple(kept.values())
