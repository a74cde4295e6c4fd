"""How a state of a live system is taken, as far as that is alike for all systems."""
from __future__ import annotations

import contextlib
import os
import re
import shlex
import shutil
from dataclasses import dataclass
from typing import Any, Callable, Collection, Dict, Iterator, List, Optional, Sequence, Tuple

from cmh_proc.ports import listeners_at
from cmh_proc.process import stat_of

from ..core.files import Failure, say, shown
from ..core.model import Sign
from ..core.sketch import Process
from . import KERNEL
from . import described
from . import taker_of
from .descriptor import Descriptor

HOME = os.path.dirname(os.path.dirname(os.path.dirname(os.path.realpath(__file__))))
LONG = 10  # seconds beyond which there is a third look halfway: no more, as each may hold the system, and takes memory
TIMES = {2: "twice", 3: "three times"}
LOCAL = re.compile(r"localhost|127(\.\d+){3}|\[::1\]")  # what this machine is called
Part = Dict[str, Any]  # what the record of a folder has of one system


@dataclass
class Capture:
    """A state that is to be taken: of a system, and of which of its processes, nodes or addresses. `how` says in words
    a way that isn't the system's first one, with the `command` of that, and what it `needs` in place of the system's
    own commands, and the `options` of that. It `holds` those to which a debugger attaches: one that `gives_way` isn't
    taken where the kernel is asked too, as whom it holds wakes. What costs the system more `is_heavy`, and isn't taken
    again. `beside` are other processes that would answer too, and aren't taken, and `label` is what its files are
    called, where another one of the system is taken too."""

    system: str
    targets: List[str]
    how: str = ""
    command: Sequence[str] = ()
    needs: Optional[Dict[str, str]] = None
    options: Sequence[str] = ()
    holds: Sequence[str] = ()
    gives_way: bool = False
    is_heavy: bool = False
    has_two: bool = False  # looks, and never more
    beside: Sequence[str] = ()
    label: str = ""

    def looks(self, seconds: float) -> int:
        """Returns how many looks there are within some seconds."""
        return 2 if self.has_two or described(self.system).is_counted or seconds <= LONG else 3

    def is_light(self) -> bool:
        """Whether more looks cost the system little."""
        return not (self.is_heavy or self.holds)

    def pause(self, seconds: float) -> float:
        """Returns the seconds from one look to the next."""
        return seconds / (self.looks(seconds) - 1)

    def warning(self, seconds: float) -> str:
        """Returns what the system feels of it."""
        return (self.how or described(self.system).stops).replace("twice", TIMES[self.looks(seconds)])

    def names(self, seconds: float) -> List[str]:
        """Returns the names of the files that have its states."""
        number = self.looks(seconds) if described(self.system).is_once else 1
        return [f"{self.label or self.system}.{look}.state" for look in range(1, number + 1)]

    def words(self, seconds: float) -> List[str]:
        """Returns the command that prints it."""
        return [*self.command, *self.targets] if self.command else taker_of(self.system).words(self, seconds)


@dataclass
class Sight:
    """What a look has shown, and its answer left open: its status, and whether somebody may be stuck whom it doesn't
    name for certain; the systems that were taken; the processes with all wakers, and those without the wakers that are
    set aside; the connections, and what returns the states of a system."""

    status: int
    is_open: bool
    systems: List[str]
    whole: List[Process]
    processes: List[Process]
    connections: Dict[str, Dict[str, List[str]]]
    text_of: Callable[[Part], str]

    def hows(self) -> Collection[str]:
        """Returns how somebody may end a wait, also of those that are set aside."""
        return {group.how for process in self.whole for part in process.parts for group in part}

    def reads(self) -> bool:
        """Whether somebody inside of a program waits at one of its connections."""
        return any(row.get("reads") for row in self.connections.values())

    def waits_outside(self) -> bool:
        """Whether somebody waits for an answer from outside, which may come from within."""
        return any(process.sign is Sign.BLOCKED and any(group.how == "outside" for part in process.parts
                                                        for group in part) for process in self.processes)


class Taker:
    """How a system is taken. A system's own one says what isn't so for it."""

    def __init__(self, system: Descriptor) -> None:
        self.system, self.name = system, system.name

    # Before a look

    def fault(self, targets: Sequence[str], wishes: Collection[str]) -> str:
        """Returns why words don't say whom to take, or nothing. `wishes` are the options that were given."""
        if self.system.is_named():
            return "" if targets else "whom to take isn't said"
        return "one server is expected" if targets[self.system.target.count("["):] else ""

    def captures(self, targets: List[str], wishes: Collection[str]) -> List[Capture]:
        """Returns what is to be taken, of some targets that are no fault."""
        return [Capture(self.name, targets)]

    def with_wishes(self, capture: Capture, wishes: Collection[str]) -> Capture:
        """Returns a capture with what was asked for, also where another system has chosen it."""
        return capture

    def check(self, capture: Capture) -> None:
        """Raises Failure if a command is missing, or all processes that are named have ended."""
        numbers = list(filter(str.isdigit, capture.targets))
        if numbers and not any(os.path.exists(f"/proc/{pid}") for pid in numbers):
            raise Failure(f"there is no process {' or '.join(numbers)} (any more)")
        needs = {} if capture.how else self.system.needs
        for command, package in (needs if capture.needs is None else capture.needs).items():
            if not self.has(command):
                raise Failure(f"{command} is needed for {self.name}, and isn't there (Debian: apt-get install "
                              f"{package})")

    def has(self, command: str) -> bool:
        return shutil.which(command) is not None

    def clients(self, capture: Capture, others: Sequence[Capture]) -> List[str]:
        """Returns the processes whose connections the kernel is to show, as others are taken too."""
        return []

    # The look

    def words(self, capture: Capture, seconds: float) -> List[str]:
        """Returns the command that prints a state."""
        return [recipe(self.name), *capture.targets]

    @contextlib.contextmanager
    def environment(self, value: str) -> Iterator[Dict[str, str]]:
        """Yields the variables that the value of an option of the system asks for."""
        yield {}

    # Of what runs on this machine

    def commands(self, pid: int, name: str, words: List[str]) -> Iterator[Tuple[str, str, str]]:
        """Yields what a process is, the command that takes it, and what that sees, if it is of this system."""
        yield from ()

    def those_to_ask(self, pids: Sequence[int]) -> List[int]:
        """Returns those of some processes that show their inside, while nothing is stopped for long."""
        return []

    # After a look

    def ends(self, targets: Sequence[str], sight: Sight) -> List[str]:
        """Returns the processes in which some wait at connections, as the kernel knows them."""
        return []

    def more(self, part: Part, sight: Sight) -> Iterator[str]:
        """Yields the commands that would take more than was taken, where that may change the answer."""
        pids = self.ends(part["targets"], sight) if sight.is_open and not sight.systems[1:] else []
        if pids:
            yield (f"Who is at the other ends of its connections: cmh-stall {self.name} "
                   f"{command_words(part['targets'])} --with {KERNEL} {command_words(pids)}")

    def inside(self, part: Part, text: str) -> Iterator[str]:
        """Yields the command that sees inside of a process which the kernel alone has shown."""
        yield from ()


def recipe(system: str) -> str:
    """Returns the path of the script that prints a state. Raises Failure if it isn't there."""
    for folder in (f"{HOME}/recipes", f"{HOME}/../../share/cmh"):
        if os.path.exists(f"{folder}/take-{system}"):
            return f"{folder}/take-{system}"
    raise Failure(f"take-{system} isn't there: the tools aren't installed as a whole")


def command_words(words: Sequence[str]) -> str:
    """Returns words that a folder's record has, as people may paste them into a shell."""
    return " ".join(shlex.quote(shown(word)) for word in words)


def listeners(address: str) -> List[str]:
    """Returns the processes that listen at a port of this machine, as far as this user may see that."""
    host, _, port = address.rpartition(":")
    return list(map(str, listeners_at(int(port)))) if LOCAL.fullmatch(host) and port.isdigit() else []


def clients_of_server(capture: Capture, others: Sequence[Capture]) -> List[str]:
    """Returns the processes of a capture, if something is taken beside it to which clients connect."""
    has_server = any(described(other.system).serves for other in others)
    return [pid for pid in capture.targets if pid.isdigit()] if has_server else []


def those_there(pids: List[str]) -> List[str]:
    """Returns those of some processes that haven't ended, and says which have. Without any all are returned."""
    left = [pid for pid in pids if (stat_of(f"/proc/{pid}") or ["X"])[0] not in ("Z", "X")]
    for pid in pids if left else ():
        if pid not in left:
            say(f"process {shown(pid)} has ended, and isn't read")
    return left or pids


def full_name(node: str) -> str:
    """Returns the name of a node with that of its machine."""
    return node if "@" in node else f"{node}@{os.uname().nodename.partition('.')[0]}"
