"""Who may end a wait for children, for signals, for a connection, and at what is used by others without being open."""
from __future__ import annotations

from typing import List, Optional, Sequence, Tuple

from cmh_proc.calls import EPOLLS, int32

from ...core.model import Part, Sign, Strength, any_of, unseen, wakers
from ...core.sketch import LIMIT
from .machine import Host, LinuxThread, Owner
from .waits import AT_FILES, FILES, UNTIMED, Ease, LinuxWait, against, not_shown, not_understood, only_sleeps, \
    users_of, with_end

GROUP, SHELL, KEYLESS = "group", "shell", "keyless"  # assumptions
OWN_CHILDREN = 0x20000000  # __WNOTHREAD: those of the thread alone
SIGINT, SIGCHLD = 2, 17
SHELLS = ("ash", "bash", "busybox", "dash", "ksh", "ksh93", "mksh", "sh", "zsh")
BOURNE = ("ash", "bash", "dash", "sh")  # which wait for all of a foreground pipeline
CLOCK_IS_OFF = 200  # hundredths of a second
INTERNET = (2, 10)  # the families of addresses of IPv4 and of IPv6
FOR_SIGNAL = "waits for a signal"  # why one rests


def wait_for_children(machine: Host, thread: LinuxThread) -> LinuxWait:
    """Returns a wait for children."""
    own = machine.children(thread.owner.pid)
    what, children = awaited(thread, own)
    why = doubt_of_children(thread, children)
    if why:
        return not_understood(why, what)
    if not children:
        return not_shown("the child that it waits for isn't in the state", what)
    wait = LinuxWait(any_of(*ends_of(machine, thread, children)), what, children, is_exact=True)
    # Who ignores the end of children gets no word of any before all have ended.
    if thread.owner.ignores(SIGCHLD) and not any(owner.tracer == thread.owner.pid for owner in children):
        wait.parts = [ends_of(machine, thread, [owner]) for owner in children]
    elif what == "any child":
        set_any_child(machine, thread, wait, own)
    elif "group" in what:
        wait.premises.append(GROUP)
    return wait


def set_any_child(machine: Host, thread: LinuxThread, wait: LinuxWait, own: List[Owner]) -> None:
    """Sets for which of its children one waits who asks for any: a shell does so also where it waits for one of them
    alone, or for all, and then asks again."""
    if not is_shell(thread.owner) or not wait.others[1:]:
        wait.parts = [(*part, *starters(machine, thread, own)) for part in wait.parts]
        return
    front = in_front(thread.owner, wait.others)
    if front:
        wait.others, wait.premises, wait.what = front, [*wait.premises, SHELL], "the child in the foreground"
        wait.parts = any_of(*ends_of(machine, thread, front))
    else:
        wait.what = "a child, or all of them"
        wait.parts = [*any_of(*guess_of(machine, thread, wait.others), *starters(machine, thread, own)),
                      *all_as_guess(machine, thread, wait.others)]


def guess_of(machine: Host, thread: LinuxThread, children: List[Owner]) -> Part:
    """Returns the children of a shell of which one has to end, or all: rather those that do more than to sleep. The
    end of a sleep is a limit."""
    sleeping = [owner for owner in children if only_sleeps(owner)]
    others = [owner for owner in children if owner not in sleeping] or sleeping
    part = tuple(group._replace(strength=Strength.ABLE, how="guess") if group.strength is Strength.NAMED else group
                 for group in ends_of(machine, thread, others))
    if len(others) == len(children):
        return part
    return (*part, wakers("limit", machine.names_of(sleeping, thread)))


def all_as_guess(machine: Host, thread: LinuxThread, children: List[Owner]) -> List[Part]:
    """Returns a part for the end of each child of a shell, which it may need: so the end of one alone frees nobody. Who
    says that it does may be anybody."""
    return [(*ends_of(machine, thread, [owner]), unseen("unshown")) for owner in children if not only_sleeps(owner)]


def ends_of(machine: Host, thread: LinuxThread, children: List[Owner]) -> Part:
    """Returns the wakers by whom any of some children ends: those of one thread are named."""
    unread = [machine.stand_ins.get(owner.pid, owner.name) for owner in children if owner.why]
    single = [owner for owner in children if len(owner.living) == 1]
    several = [owner for owner in children if len(owner.living) > 1]
    groups = [wakers("unread", unread)] if unread else []
    groups += [wakers("ends", machine.names_of(single, thread))] if single else []
    groups += [wakers("same-process", machine.names_of(several, thread))] if several else []
    return tuple(groups)


def starters(machine: Host, thread: LinuxThread, own: List[Owner]) -> Part:
    """Returns who may give a process more children: its other threads, and those below, whose children it may inherit.
    One that only sleeps has none."""
    below = [owner for owner in machine.below(own) if not only_sleeps(owner)]
    return against(machine, thread, [thread.owner, *below], "starts")


def wait_for_end(machine: Host, thread: LinuxThread, pid: int) -> LinuxWait:
    """Returns the wait for the end of a process."""
    owner = machine.by_pid.get(pid)
    if owner is None:
        return not_shown("the process that it waits for isn't in the state", "process")
    if owner.has_ended():
        return not_understood("the process that it waits for has ended", "process")
    return LinuxWait(any_of(*ends_of(machine, thread, [owner])), f"the end of {owner.name}", [owner], is_exact=True)


def wait_for_signals(machine: Host, thread: LinuxThread, mask: int, sharers: Sequence[Owner] = ()) -> LinuxWait:
    """Returns a wait for one of some signals, of which only the end of a child comes by itself. An epoll has those of
    the process that added them, which is one that shares it, or from whom the waiter descends."""
    owners = list(dict.fromkeys([thread.owner, *sharers]))
    exe = thread.owner.row.get("exe")
    owners += [owner for owner in machine.above(thread.owner) if thread.call in EPOLLS and owner.row.get("exe") == exe]
    children = list(dict.fromkeys(child for owner in owners for child in machine.children(owner.pid)))
    is_for_child = bool(mask >> SIGCHLD - 1 & 1)
    ended = next((child for child in children if child.has_ended()), None)
    if is_for_child and ended is not None:
        return not_understood(f"{ended.name} has ended, and it may be about to see that", "the end of a child")
    part = ends_of(machine, thread, children) if is_for_child and children else ()
    is_alone = mask == 1 << SIGCHLD - 1 and part and not thread.owner.ignores(SIGCHLD)
    more = starters(machine, thread, children) if part else ()
    parts = any_of(*part, *more, *(() if is_alone else (unseen("outside"),)))
    if part:
        return LinuxWait(parts, "the end of a child", children, is_exact=True)
    return LinuxWait(parts, "a signal", sign=Sign.RESTS, why=FOR_SIGNAL, is_exact=True, ease=Ease.CALM)


def wait_for_any_signal(machine: Host, thread: LinuxThread) -> LinuxWait:
    """Returns the wait of `pause` and the like. A shell waits so for its children."""
    children = machine.children(thread.owner.pid) if thread.owner.catches(SIGCHLD) else []
    part = ends_of(machine, thread, children) if children else ()
    if part and is_shell(thread.owner):
        several = children if children[1:] else []
        part = guess_of(machine, thread, children) if several else part
        return LinuxWait([*any_of(*part), *all_as_guess(machine, thread, several)], "a child", children, is_exact=True)
    return LinuxWait(any_of(*part, unseen("outside")), "a signal", children, sign=Sign.RESTS, why=FOR_SIGNAL,
                     is_exact=True, ease=Ease.CALM)


def doubt_of_children(thread: LinuxThread, children: List[Owner]) -> str:
    """Returns why it isn't known what ends a wait for children, or nothing."""
    ended = next((owner for owner in children if owner.has_ended()), None)
    options = thread.arguments[2 if thread.call == "wait4" else 3]
    if ended is not None:
        return f"{ended.name} has ended, and it may be about to see that"
    if options & OWN_CHILDREN and len(thread.owner.living) > 1:
        return "it waits for the children of its own thread, and which these are isn't known"
    return ""


def is_shell(owner: Owner, kinds: Sequence[str] = SHELLS) -> bool:
    """Whether a process is a shell. One that a script names is called as that."""
    program = str(owner.row.get("exe", "")).partition(" ")[0].rpartition("/")[2]
    return owner.command in kinds or program in kinds


def in_front(shell: Owner, children: List[Owner]) -> List[Owner]:
    """Returns the child of a shell that it has started in the foreground, if that is known. Without job control those
    in the background ignore SIGINT, which no shell changes, but other programs may: one that catches it may be any.
    While one is in the foreground no other one is started."""
    odd = [owner for owner in children
           if owner.groups[-1:] != shell.groups[-1:] or owner.catches(SIGINT) and not is_shell(owner)]
    front = [owner for owner in children if not owner.ignores(SIGINT)]
    if not is_shell(shell, BOURNE) or shell.ignores(SIGINT) or shell.numbers[-1] == 1 or odd or len(front) != 1:
        return []
    is_last = front[0] is max(children, key=lambda owner: (int(owner.row.get("start", 0)), owner.pid))
    return front if is_last and not pipes_between(shell, front[0]) else []


def pipes_between(shell: Owner, child: Owner) -> bool:
    """Whether one of two processes reads what the other one writes, as a shell does with those of a process
    substitution or a coprocess: these are in the background, and don't ignore SIGINT."""
    ends = [{(file.target, way) for file in owner.files.values() if file.is_pipe for way in file.mode}
            for owner in (shell, child)]
    return any((what, "w" if way == "r" else "r") in ends[1] for what, way in ends[0])


def awaited(thread: LinuxThread, own: List[Owner]) -> Tuple[str, List[Owner]]:
    """Returns which of its children a thread waits for, by their numbers in its own namespace."""
    level = len(thread.owner.numbers) - 1
    kind, number = int32(thread.arguments[0]), int32(thread.arguments[1])
    if thread.call == "wait4":
        kind, number = (0, 0) if kind == -1 else (1, kind) if kind > 0 else (2, -kind)
    if kind == 0:
        return "any child", own
    if kind == 1:
        return f"child {number}", [owner for owner in own if owner.numbers[level:][:1] == [number]]
    if kind == 2:
        group = number or thread.owner.groups[-1]
        return f"any child of group {group}", [owner for owner in own if owner.groups[level:][:1] == [group]]
    return "a child", [owner for owner in own if owner.pid == thread.owner.file(number).pid]


def wait_for_fork(machine: Host, thread: LinuxThread) -> LinuxWait:
    """Returns the wait for a child that still has the memory of its parent."""
    children = machine.children(thread.owner.pid)
    if not children:
        return not_shown("its child isn't known", "a child")
    return LinuxWait(any_of(*ends_of(machine, thread, children)), "a child", children, is_exact=True)


# Connections, and what others may use without having it open


def wait_to_connect(machine: Host, thread: LinuxThread) -> LinuxWait:
    path = thread.row.get("path", "")
    if thread.row.get("family") in INTERNET:
        return LinuxWait(what="connection", sign=Sign.SLEEPS, why="it tries that for some minutes at most",
                         premises=[LIMIT])
    if not path:
        return not_understood("to whom it connects isn't known", "connection")
    asks = str(thread.row.get("asks", path))  # (older states have the path alone)
    numbers = [number for key in (asks, f"{thread.owner.row.get('net')} {asks}")
               for number in machine.listening.get(key, ())]
    others = list(dict.fromkeys(owner for number in numbers for owner in machine.with_file(f"socket:[{number}]")))
    part = with_end(machine, thread, users_of(others), "accepts")
    what = f"Unix socket {path}"
    if not part:
        return not_shown(f"no process that was read has the other end of {what}", what)
    return LinuxWait(any_of(*part), what, others, [FILES, UNTIMED])


def wait_at_ipc(machine: Host, thread: LinuxThread) -> LinuxWait:
    """Returns the wait at a set of semaphores or a queue of messages, for who has used it, as far as the kernel says
    that, and who may. One without a key is used below the one that made it alone."""
    kind = "set of semaphores" if thread.call.startswith("sem") else "queue of messages"
    what = f"{kind} {int32(thread.arguments[0])}"
    tops = tops_of(machine, thread) if thread.row.get("key") == 0 else []
    tops = tops if any(may_have_made(owner, thread) for owner in tops) else []
    tops += [owner for top in tops for owner in machine.later_branches(top)]
    users = [owner for owner in map(machine.by_pid.get, thread.row.get("users", ())) if owner is not None]
    owners = [*tops, *machine.below(tops)] or [owner for owner in users if owner is not thread.owner]
    part: Part = (wakers("reaches", machine.names_of(owners, thread)),) if owners else ()
    if tops:
        return LinuxWait(any_of(*part), what, premises=[KEYLESS])
    return LinuxWait(any_of(*part, unseen("unshown")), what, why="the kernel doesn't say who ends it")


def may_have_made(top: Owner, thread: LinuxThread) -> bool:
    """Whether one from whom others descend was there when what a thread uses was made, or changed since. Times of the
    clock are whole seconds."""
    changed = thread.row.get("changed")
    return changed is None or int(top.row.get("start", 0)) <= changed + CLOCK_IS_OFF


def tops_of(machine: Host, thread: LinuxThread) -> List[Owner]:
    """Returns the highest processes that may have made what a thread and others use, or none if that isn't known."""
    users = [thread.owner, *filter(None, map(machine.by_pid.get, thread.row.get("users", ())))]
    tops = list(dict.fromkeys(top_of(machine, owner) for owner in users))
    return [owner for owner in tops if owner is not None] if None not in tops else []


def top_of(machine: Host, owner: Owner) -> Optional[Owner]:
    """Returns the highest process above one whose session or program is that of the one below it, if it can be read."""
    above = machine.by_pid.get(owner.parent)
    while above is not None and any(owner.row.get(name, "") == above.row.get(name) for name in ("session", "exe")):
        owner, above = above, machine.by_pid.get(above.parent)
    return None if owner.why or "session" not in owner.row else owner


def timed_parents(machine: Host, owner: Owner) -> List[LinuxThread]:
    """Returns the threads of the parent of a process that wait with a limit at a pipe of which it has an end, or in a
    call that isn't understood. After that they may end it, as the module subprocess of Python does."""
    parent = machine.by_pid.get(owner.parent)
    timed = [thread for thread in parent.living if thread.events and thread.arguments
             and (thread.has_limit or thread.call not in AT_FILES)] if parent else []
    pipes = {file.target for file in owner.files.values() if file.is_pipe} if timed else set()
    return [thread for thread in timed if any(thread.owner.file(fd).target in pipes for fd, *_ in thread.events)]
