"""Takes the states of live systems, all at one time, by the commands that `systems` have for that."""
from __future__ import annotations

import codecs
import contextlib
import os
import selectors
import signal
import subprocess
import sys
import time
from dataclasses import replace
from typing import Callable, Collection, Dict, Iterator, List, Optional, Sequence, Tuple

from cmh_proc.budget import BUDGET, size_in_words
from cmh_proc.held import let_go, standstill

from ..core.files import MOST, PIECE, Failure, cause_of, say, shown, signal_words
from ..core.memory import unbound_memory
from ..systems import KERNEL, described, taker_of
from ..systems.taking import Capture

PATIENCE = 10  # seconds in which a command that is ended puts away what it has begun
OURS = ("take-", "cmh_")  # how lines begin that our own scripts say, and no program that they run


def captures_for(asked: Sequence[Sequence[str]], wishes: Collection[str]) -> List[Capture]:
    """Returns what is to be taken of some systems, each with its targets, by the options that were given."""
    made = [capture for system, *targets in asked for capture in taker_of(system).captures(targets, wishes)]
    made = [taker_of(capture.system).with_wishes(capture, wishes) for capture in made]
    return without_debugger(with_sockets(made))


def with_sockets(captures: List[Capture]) -> List[Capture]:
    """Returns captures with what the kernel sees of those whose connections are wanted: it alone knows whose is whose.
    """
    clients = [pid for capture in captures for pid in taker_of(capture.system).clients(
        capture, [other for other in captures if other is not capture])]
    how = "its connections are read as the kernel sees them, which stops nothing"
    return with_kernel(captures, clients, Capture(KERNEL, [], how)) if clients else captures


def without_debugger(captures: List[Capture]) -> List[Capture]:
    """Returns captures without those by a debugger, where the kernel is asked too: what is held wakes, and it would see
    that nobody has stood still. Its own frames name functions of the program's libraries alone."""
    bare = [capture for capture in captures if capture.gives_way]
    kernel = next((capture for capture in captures if capture.system == KERNEL), None)
    if kernel is None or not bare:
        return captures
    pids = [pid for capture in bare for pid in capture.targets]
    say(f"{bare[0].system} {' '.join(pids)}: its frames aren't read by gdb, which would wake whom {KERNEL} looks at")
    return with_kernel([capture for capture in captures if capture not in bare], pids, kernel)


def with_kernel(captures: List[Capture], pids: Sequence[str], other: Capture) -> List[Capture]:
    """Returns captures in which the kernel shows some processes too: in the first one of it, or else in another one."""
    first = next((capture for capture in captures if capture.system == KERNEL), None)
    more = replace(first or other, targets=list(dict.fromkeys([*(first or other).targets, *pids])))
    return [more if capture is first else capture for capture in captures] if first else [*captures, more]


def labels_of(systems: Sequence[str]) -> List[str]:
    """Returns what the files of some systems are called: by the system, with a number where it has come before."""
    numbers = [systems[:place].count(system) for place, system in enumerate(systems, 1)]
    return [system if number == 1 else f"{system}-{number}" for system, number in zip(systems, numbers)]


class Running:
    """A command that takes a state. It is ended with all that it has begun, if this one is."""

    def __init__(self, capture: Capture, seconds: float, env: Dict[str, str]) -> None:
        self.capture = capture
        self.lacks: List[str] = []
        self.held = [pid for pid in map(int, capture.holds) if not standstill(pid)]
        words = capture.words(seconds)
        self.printed = {"output": bytearray(), "errors": bytearray()}
        self.selector = selectors.DefaultSelector()
        try:
            self.process = subprocess.Popen(
                words, stdin=subprocess.DEVNULL, stdout=subprocess.PIPE, stderr=subprocess.PIPE, start_new_session=True,
                env={**os.environ, "CMH_SECONDS": f"{capture.pause(seconds):g}",
                     "CMH_LOOKS": str(capture.looks(seconds)), **BUDGET.environment(), **env})
        except OSError as error:
            raise self.failure([f"{shown(words[0])}: {cause_of(error)}"]) from error
        unbound_memory(self.process.pid)
        for name, pipe in (("output", self.process.stdout), ("errors", self.process.stderr)):
            self.selector.register(pipe, selectors.EVENT_READ, name)  # type: ignore[arg-type]

    def text(self, seconds: float) -> Optional[str]:
        """Returns what it printed, or None if it hasn't ended within so many seconds. Then `lacks` has what it couldn't
        take, as it says. Raises Failure if it failed, or prints or takes too much."""
        last = time.monotonic() + seconds
        while self.selector.get_map():
            self.read(max(0.0, last - time.monotonic()))
            if time.monotonic() >= last and self.selector.get_map():
                return None
        self.process.wait()
        output, errors = (codecs.decode(data, "utf-8", "backslashreplace") for data in self.printed.values())
        lines = [*self.killed_words(), *map(shown, (errors.strip() or f"status {self.process.returncode}").split("\n"))]
        if self.process.returncode or not output:
            raise self.failure(lines)
        self.lacks = [line for line in lines if line.startswith(OURS)]
        return output

    def read(self, seconds: float) -> None:
        """Reads what it prints within some seconds. Raises Failure if that is more than is read, or takes longer than
        the look may."""
        for key, _ in self.selector.select(min(seconds, BUDGET.seconds())):
            piece = os.read(key.fd, PIECE)
            self.printed[key.data] += piece
            if not piece:
                self.selector.unregister(key.fileobj)
            if len(self.printed[key.data]) > MOST:
                raise self.failure([f"it is larger than {size_in_words(MOST)}"])
        if not BUDGET.seconds():
            raise self.failure(["its time is over"])

    def failure(self, lines: List[str]) -> Failure:
        return Failure("\n".join([f"the state of {self.capture.system} couldn't be taken: {lines[0]}", *lines[1:]]))

    def killed_words(self) -> List[str]:
        """Returns that it was killed by a signal, or what it has run, which a shell or a reader says by its status."""
        killed = signal_words(self.process.returncode)
        words = self.process.args if isinstance(self.process.args, list) else []
        script = os.path.basename(next((word for word in words if word != sys.executable), ""))
        programs = " or ".join(described(self.capture.system).needs) if self.process.returncode > 0 else ""
        return [f"{programs or script} {killed}"] if killed else []

    def end(self) -> None:
        self.selector.close()
        for pipe in (self.process.stdout, self.process.stderr):  # (so that it doesn't wait to print more)
            pipe.close()  # type: ignore[union-attr]
        if self.process.poll() is None:
            os.killpg(self.process.pid, signal.SIGTERM)
            with contextlib.suppress(subprocess.TimeoutExpired):
                self.process.wait(PATIENCE)
        with contextlib.suppress(ProcessLookupError):
            os.killpg(self.process.pid, signal.SIGKILL)
        if self.process.wait() != 0:
            let_go(self.held)


def take(captures: Sequence[Capture], seconds: float, env: Dict[str, str],
         fail: Callable[[Failure], object]) -> Iterator[Tuple[Capture, Dict[str, str]]]:
    """Yields each capture with the texts of its states, by the names of their files. All are begun at one time, so that
    their first readings come before any second one. Why one couldn't be taken goes to `fail`, and the others come."""
    running: List[Running] = []
    begun = time.monotonic()
    try:
        for capture in captures:
            with failing(fail):
                running.append(Running(capture, seconds, env))
        for first in tuple(running):
            with failing(fail):
                yield first.capture, states_of(first, running, seconds, env, begun)
        for line in dict.fromkeys(line for command in running for line in command.lacks):
            say(f"warning: {line}")
    finally:
        for it in running:
            it.end()


@contextlib.contextmanager
def failing(fail: Callable[[Failure], object]) -> Iterator[None]:
    try:
        yield
    except Failure as failure:
        fail(failure)


def states_of(first: Running, running: List[Running], seconds: float, env: Dict[str, str],
              begun: float) -> Dict[str, str]:
    """Returns the texts of all looks of a capture, of which the first one has begun."""
    capture = first.capture
    texts, names = [wait(first, begun)], capture.names(seconds)
    for number in range(1, len(names)):
        time.sleep(max(0.0, number * capture.pause(seconds) - (time.monotonic() - begun)))
        running.append(Running(capture, seconds, env))
        texts.append(wait(running[-1], begun))
    return dict(zip(names, texts))


def wait(running: Running, begun: float) -> str:
    """Returns the text of a state, and counts the seconds on a terminal meanwhile."""
    text = running.text(1)
    is_seen = sys.stderr is not None and sys.stderr.isatty()
    while text is None:
        if is_seen:
            print(f"\r{running.capture.system}: {time.monotonic() - begun:.0f} s ", end="", file=sys.stderr, flush=True)
        text = running.text(1)
    if is_seen:
        print("\r\033[K", end="", file=sys.stderr, flush=True)
    return text
