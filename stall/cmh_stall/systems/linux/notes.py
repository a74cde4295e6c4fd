"""What the answer says of a thread, for people: its frames, and what it does."""
from __future__ import annotations

from typing import List

from cmh_proc.calls import CHILDREN, FORKS, SUSPENDS

from ..base import one_line
from .frames import call_of, has_names, own_frames, word_of
from .limits import age_of
from .locks import LOCK_OF
from .machine import LinuxThread, some_names
from .waits import LinuxWait

WIDTH = 100  # as much of a command line stands in a note


def frames_of(thread: LinuxThread) -> List[str]:
    """Returns the frames of the process of a thread. Before those without names stands what is known by a name."""
    own, names = own_frames(thread), [thread.kin] if thread.kin else []
    return [*own, *names] if has_names(thread) else [*names, thread.owner.command, *own]


def whole_note(thread: LinuxThread, wait: LinuxWait) -> str:
    """Returns what a thread does, where in the source, and of the first thread of a process by which command line."""
    places = own_frames(thread)[:1] if has_names(thread) or len(thread.owner.living) > 1 else []
    command = one_line(str(thread.owner.row.get("command", "")), WIDTH)
    is_told = thread.is_first and " " in command
    told = f" [{command}]" if is_told else f" [thread {thread.tid}]" if thread.called else ""
    age = "" if thread.has_limit else age_of(thread)
    return ", ".join(filter(None, [" in ".join([note_of(thread, wait), *places]), age])) + told


def note_of(thread: LinuxThread, wait: LinuxWait) -> str:
    """Returns what a thread does, for people."""
    place = f"{wait.operation or call_of(thread)} {word_of(thread) if is_word(thread, wait) else wait.what}".strip()
    others = [owner for owner in wait.others if owner is not thread.owner]
    names, verb = some_names(others), "has" if len(others) == 1 else "have"
    if thread.call in CHILDREN:
        return f"{wait.what or 'a child'}'s end{': ' + names if others else ''}"
    if thread.call in (*SUSPENDS, *FORKS):
        return f"{place}: {names}" if others else place
    if wait.operation == LOCK_OF:
        return f"{place}, which {some_names(wait.others)} {verb}" if wait.others else place
    if thread.call == "futex":
        return f"{place}, which {names} {verb}" if others else place
    more = f"{place}; {names} {verb} another end" if others else place
    # A pipe whose other end the waiter has itself never closes.
    is_own = thread.owner in wait.others and ("pipe " in wait.what or "FIFO " in wait.what)
    return f"{more}; it has the other end itself" if is_own else more


def is_word(thread: LinuxThread, wait: LinuxWait) -> bool:
    """Whether one waits at the word of a futex."""
    return thread.call == "futex" and wait.what == f"{thread.arguments[0]:#x}"
