"""Finds the program `cmh`, runs it on a dump, and compares what it calls deadlocked with what the search found."""
from __future__ import annotations

import contextlib
import hashlib
import os
import re
import shutil
import subprocess
import sys
from subprocess import PIPE
from threading import Thread
from typing import IO, Callable, Dict, List, Set, Tuple, TypeVar

from .dump import Dump
from .files import Failure, Refusal, cause_of, failure_of, shown, signal_words
from .memory import unbound_memory
from .start import SIGNALS
from .stuck import Answer

Output = TypeVar("Output")
WORKERS = 64  # docs/PERFORMANCE.md advises as many, and as many even parts, for a dump that takes long
LONGEST = 200  # bytes, more than the first line of a report has
MOST_SAID = 1 << 16  # bytes of what it says on standard error
PATIENCE = 5  # seconds in which that is read once it has ended
COUNT = re.compile(rb"processes .* deadlocked (\d{1,9})[ \n]")
DEADLOCKED = re.compile(rb"deadlocked ([!-~]+) group \d+\n")


def program() -> str:
    """Returns the path of the program: $CMH, or beside the tools, or in bin of the checkout, or on PATH."""
    here = os.path.dirname(os.path.realpath(sys.argv[0]))
    named = os.environ.get("CMH")
    for path in [named] if named else [f"{here}/cmh", f"{here}/../bin/cmh", shutil.which("cmh") or ""]:
        if os.access(path, os.X_OK) and os.path.isfile(path):
            return os.path.abspath(path)
    raise Failure(f"the program {shown(named) if named else 'cmh'} isn't there: CMH names it, or it is on PATH")


def identity() -> Dict[str, str]:
    """Returns what notes say of the program: its path, and the SHA-256 of its bytes."""
    path = program()
    try:
        with open(path, "rb") as file:
            return {"path": path, "sha256": hashlib.sha256(file.read()).hexdigest()}
    except OSError as error:
        raise failure_of(path, error) from error


def plan(data: bytes) -> List[str]:
    """Returns the options that cut long runs short: as many even parts of the idle processes as there are workers, and
    no more workers than such processes. No plan changes an answer, so to count the word is enough."""
    idle = max(1, data.count(b'"idle"'))
    workers = min(idle, WORKERS)
    return ["--workers", str(workers), "--cuts", ",".join([str(-(-idle // workers))] * workers)]


def ask(words: List[str], data: bytes, read: Callable[[IO[bytes]], Output]) -> Tuple[Output, int, str]:
    """Runs the program on a dump, of bytes. Returns what `read` makes of its standard output, its status, and what it
    says on standard error. The program ends with the tool. All goes through pipes, so that no disk has to have room."""
    path, ran = program(), None
    try:
        with SIGNALS.hold():
            ran = subprocess.Popen([path, *words], stdin=PIPE, stdout=PIPE, stderr=PIPE)
        unbound_memory(ran.pid)
        said = talk(ran, data)
        with ran.stdout as out:  # type: ignore[union-attr]
            answer = read(out)
        killed = signal_words(ran.wait())
        if killed:
            raise Failure(f"{shown(path)} {killed}")
        return answer, ran.returncode, said()
    except OSError as error:
        raise Failure(f"{shown(path)} can't be run: {cause_of(error)}") from error
    finally:
        if ran:
            ran.kill()
            ran.wait()


def talk(ran: "subprocess.Popen[bytes]", data: bytes) -> Callable[[], str]:
    """Gives a program its input, and reads what it says on standard error, meanwhile. Returns what gets that."""
    parts: List[bytes] = []

    def give() -> None:
        with contextlib.suppress(OSError), ran.stdin as file:  # type: ignore[union-attr]
            file.write(data)

    def listen() -> None:
        with contextlib.suppress(OSError), ran.stderr as file:  # type: ignore[union-attr]
            parts.append(file.read(MOST_SAID))
            while file.read(MOST_SAID):
                pass

    threads = [Thread(target=target, daemon=True) for target in (give, listen)]
    for thread in threads:
        thread.start()

    def said() -> str:
        threads[1].join(PATIENCE)  # (what it has begun may still have the pipe)
        return b"".join(parts).decode("utf-8", "replace").strip()

    return said


def deadlocked_names(data: bytes) -> Set[str]:
    """Returns the names that the program calls deadlocked in a dump, of bytes. Raises Refusal with its fault if it
    refuses the dump, and Failure if it fails. A report may have half a gigabyte, so it isn't kept."""
    (count, names), status, said = ask(["analyse", *plan(data)], data, read_report)
    refuse(status, said)
    if status not in (0, 3):
        raise Failure(shown(said) or f"{shown(program())} ended with status {status}")
    if count != len(names) or (status == 3) != bool(names):
        raise mismatch("report")
    return names


def read_report(out: IO[bytes]) -> Tuple[int, Set[str]]:
    """Returns how many are deadlocked by the first line of a report, or -1 if it doesn't say that, and the names that
    the report calls deadlocked."""
    line = out.readline(LONGEST)
    if line and not line.startswith(b"processes "):
        raise mismatch("report")
    count = COUNT.match(line)
    rows = (DEADLOCKED.fullmatch(line) for line in out if line.startswith(b"deadlocked "))
    return int(count[1]) if count else -1, {row[1].decode() for row in rows if row}


def judge(data: bytes) -> None:
    """Has the program judge a dump, of bytes, without an analysis: it does so before it looks for the name of a trace,
    and no process has this name. Raises Refusal with its fault if it refuses the dump, and Failure if it fails."""
    _, status, said = ask(["trace", "-"], data, lambda out: out.read(LONGEST))
    refuse(status, said)
    if (status, said) != (2, "cmh: no such process"):
        raise Failure(shown(said)) if said.startswith("cmh: ") else mismatch("answer of cmh")


def refuse(status: int, said: str) -> None:
    if status == 1:
        raise Refusal(said.replace("cmh: ", "", 1))


def mismatch(what: str) -> Failure:
    return Failure(f"what {shown(program())} prints is no {what}")


def confirm(dump: Dump) -> None:
    """Has the program confirm as much of an answer as it can take: who is stuck for certain, and by the likely one,
    which has these too, who is likely to be, and of whom it isn't known. It gets each text once. Raises Failure if it
    calls others deadlocked than the search found."""
    likely = dump.likely
    rows = dict.fromkeys([(dump, dump.low, "low"), (likely, likely.low, "low"), (likely, likely.high, "high")])
    known: Dict[str, Set[str]] = {}
    for made, answer, which in (row for row in rows if not row[0].is_too_large):
        text = made.text(answer)
        if text not in known:
            known[text] = deadlocked_names(text.encode())
        compare(made, answer, known[text], which)


def compare(dump: Dump, answer: Answer, names: Set[str], which: str) -> None:
    wanted = dump.stuck_names(answer)
    if names != wanted:
        differing = ", ".join(sorted(names ^ wanted)[:5])
        raise Failure(f"the program doesn't confirm the {which} answer, on {differing}: nothing is said")
