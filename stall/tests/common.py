"""What tests of the tools share: dumps that are made and explained in the test's own process, which takes less time."""
from __future__ import annotations

import contextlib
import functools
import importlib.util
import io
import json
import os
import re
import shlex
import shutil
import signal
import sys
import time
from typing import Any, Callable, NamedTuple, Optional, Sequence
from unittest import mock

sys.dont_write_bytecode = True
TOOLS = os.path.dirname(os.path.dirname(os.path.realpath(__file__)))
sys.path[:0] = [f"{os.path.dirname(TOOLS)}/tests", TOOLS]
from harness import PROGRAM, SECONDS, Case, Ran, check_faults, read, run, write  # noqa: E402

os.environ["CMH"] = PROGRAM
from cmh_stall.commands import dump_command
from cmh_stall.commands import explain_command  # noqa: E402
from cmh_stall.core.findings import Findings  # noqa: E402
from cmh_stall.core.proposals import propose  # noqa: E402
from cmh_stall.core.sketch_json import sketch_of  # noqa: E402
from cmh_stall.core.stuck import Waits  # noqa: E402
from plain import plain_edges, plain_roots  # noqa: E402

DUMP, EXPLAIN, STALL = ([sys.executable, f"{TOOLS}/cmh-{name}"] for name in ("dump", "explain", "stall"))
WORDS = {"waits_for_any": "any", "waits_for_all": "all"}  # how expected ones are written
FRAME = re.compile(r"(?P<function>.*) \((?P<file>.*):(?P<line>\d+)\)")  # as the answers have it
RESTING = 20  # looks, 0.05 s apart, in each of which one that rests has done nothing
ALONE = ["unshare", "--user", "--map-root-user", "--pid", "--mount-proc", "--fork", "--kill-child"]


def heed_interrupts():
    """Takes back that Ctrl-C is ignored, as in a job that a shell has put into the background."""
    signal.signal(signal.SIGINT, signal.SIG_DFL)


def proposals(sketch):
    """Returns the lines of facts that a sketch asks for."""
    return [line.text() for line in propose(Waits(sketch))]


@functools.lru_cache(maxsize=None)
def tables_of(system: str) -> Any:
    """Returns what the tests know of a system, beside its kept cases."""
    path = f"{TOOLS}/tests/data/stalls/{system}/{system}_tables.py"
    spec = importlib.util.spec_from_file_location(f"{system}_tables", path)
    made = importlib.util.module_from_spec(spec)  # type: ignore[arg-type]
    spec.loader.exec_module(made)  # type: ignore[union-attr]
    return made


class Truth(NamedTuple):
    """What the story of a kept case says: the roots as sets of names, who is behind them, and of whom it says nothing
    that settles it. All others aren't stuck."""

    roots: list
    behind: set
    open: set

    def stuck(self):
        return set().union(self.behind, *self.roots)


def truth_of(text):
    """Returns the truth of the text of an `expected`, or None where its states are refused."""
    rows = [shlex.split(line) for line in text.split("\n") if line.startswith(("truth ", "refused "))]
    if [row[0] for row in rows] == ["refused"]:
        return None
    words = "root", "behind", "nobody", "open"
    roots, behind, nobody, unsettled = ([row[2:] for row in rows if row[:2] == ["truth", word]] for word in words)
    names = [name for row in roots + behind + unsettled for name in row]
    is_whole = len(roots + behind + nobody + unsettled) == len(rows) > 0 and len(set(names)) == len(names)
    if not is_whole or nobody not in ([], [[]]) or nobody and roots or behind and not roots or [] in roots:
        raise ValueError(f"{rows} say no truth")
    return Truth([set(row) for row in roots], *({name for row in some for name in row} for some in (behind, unsettled)))


def without_heap(text):
    """Returns the text of a JVM's threads alone."""
    return "".join(line for line in text.splitlines(True) if not line.startswith("# cmh "))


def await_that(holds: Callable[[], object]) -> None:
    """Waits until something holds, however long that takes on a busy machine."""
    last = time.monotonic() + SECONDS
    while not holds():
        if time.monotonic() > last:
            raise AssertionError(f"it doesn't hold after {SECONDS} s")
        time.sleep(0.05)


def await_rest(pid: int, threads: int = 1) -> None:
    """Waits until a process has so many threads, and none has run for a while: each has come to the place where it
    waits for long."""
    looks: list[tuple[str, ...]] = []

    def rests() -> bool:
        marks = marks_of(pid)
        looks[:] = [*looks[-RESTING + 1:], marks]
        return len(marks) >= threads and "" not in marks and looks == [marks] * RESTING

    await_that(rests)


def marks_of(pid: int) -> tuple[str, ...]:
    """Returns how often each thread of a process has stopped, or nothing for one that isn't asleep."""
    marks = []
    for tid in os.listdir(f"/proc/{pid}/task"):
        text = ""
        with contextlib.suppress(OSError):  # (a thread may have ended)
            text = read(f"/proc/{pid}/task/{tid}/status")
        counts = re.findall(r"_ctxt_switches:\t(\d+)", text)
        marks.append(" ".join([tid, *counts]) if "(sleeping)" in text else "")
    return tuple(marks)


def call(command: Callable[[Sequence[str]], int], words: Sequence[str]) -> Ran:
    """Calls a tool's command, and returns what it says. The limit on memory is for a process of its own."""
    out, err = (io.TextIOWrapper(io.BytesIO(), encoding="utf-8", write_through=True) for _ in range(2))
    with contextlib.redirect_stdout(out), contextlib.redirect_stderr(err), \
            mock.patch("cmh_stall.core.command.bound_memory"), \
            mock.patch("cmh_stall.commands.stall_command.bound_memory"):
        try:
            status: Any = command(words)
        except SystemExit as ended:  # (argparse ends so where the words are refused)
            status = ended.code
    said = [it.buffer.getvalue().decode() for it in (out, err) if isinstance(it.buffer, io.BytesIO)]
    check_faults(["cmh_stall", *words], *said)
    return Ran(status, *said)


class ToolCase(Case):
    """A test of the tools, with a folder of its own, in which one dump is."""

    def setUp(self) -> None:
        self.work = self.folder()
        self.dump, self.notes_path = f"{self.work}/dump.json", f"{self.work}/dump.notes.json"

    def write(self, name: str, text: str | bytes) -> str:
        return write(f"{self.work}/{name}", text)

    def is_alone(self) -> bool:
        """Whether no other process of the machine is seen."""
        return "CMH_ALONE" in os.environ

    def tries_alone(self) -> bool:
        """Runs the test that calls this anew where no other process of the machine is seen, if that can be had. Returns
        whether it has: what other processes have open is none of the test's."""
        if self.is_alone() or not shutil.which("unshare") or run([*ALONE, "true"]).status:
            return False
        ran = run([*ALONE, sys.executable, sys.argv[0], self.id().partition(".")[2]],
                  env={**os.environ, "CMH_ALONE": "1"})
        self.same("alone", (ran.status, ran.err * ran.status), (0, ""))
        return True

    def make(self, system: str, *states: Any, facts: Optional[str] = None) -> Ran:
        """Makes the dump of texts or trees, and returns what cmh-dump says."""
        texts = [state if isinstance(state, (str, bytes)) else json.dumps(state) for state in states]
        paths = [self.write(f"state-{at}", text) for at, text in enumerate(texts)]
        more = ["--facts", self.write("facts", facts)] if facts else []
        for path in (self.dump, self.notes_path, f"{self.work}/dump.likely.json"):
            with contextlib.suppress(FileNotFoundError):
                os.remove(path)
        return call(dump_command.command, [system, *paths, *more, "-o", self.dump])

    def explain(self, *words):
        """Returns what cmh-explain says of the dump: all of it if no words say what."""
        return call(explain_command.command, [self.dump, *(words or ["--all"])])

    def first_screen(self):
        return call(explain_command.command, [self.dump])

    def says(self, name: str, ran: Ran, status: int, *words: str) -> None:
        """A command ends with a status, and what it prints has some words."""
        self.same(f"{name}: its status", ran.status, status)
        self.has(f"{name}: its words", ran.out + ran.err, *words)

    def notes(self):
        with open(self.notes_path, encoding="utf-8") as file:
            return json.load(file)

    def kinds(self):
        """Returns what the notes say of each process: its kind, and whom it waits for."""
        processes = sketch_of(self.notes()["sketch"], "the notes").processes
        return {process.name: (process.kind, *(process.whom if process.kind.startswith("waits") else ()))
                for process in processes}


class RootsCase(Case):
    """A test that compares the roots of an answer with those of a plain search."""

    def try_roots(self, name, sketch, dump, stuck):
        """The certain roots of a dump, and who is behind them, are those of the sketch, of which some are stuck."""
        names = [row["name"] for row in sketch["processes"]]
        this = Findings(dump)
        found, numbers = this.roots, [at for at in range(len(this.roots.roots)) if this.is_certain(at)]
        roots, behind = plain_roots(plain_edges(sketch, stuck))
        self.same(f"the roots of {name}", {frozenset(names[at] for at in found.roots[it]) for it in numbers}, roots)
        alone = {names[at]: {frozenset(names[it] for it in found.roots[number])}
                 for number in numbers for at in found.behind[number] if at not in this.likely}
        by_one = {it: over for it, over in behind.items() if len(over) == 1}
        self.same(f"who is behind one root of {name}", alone, by_one)
        shared = {it for it, over in behind.items() if len(over) > 1}
        several = {names[at] for at in found.shared if at not in this.likely}
        self.same(f"who is behind several roots of {name}", several, shared)
