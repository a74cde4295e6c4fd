"""What the sketch of a JVM gets once the waits of all its threads are known: counts of those who wait for owners, and
which threads of the kernel are the JVM's own."""
from __future__ import annotations

from collections import defaultdict
from typing import Dict, List, Protocol, Sequence

from ...core.assumptions import sentence_of
from ...core.sketch import INNER, Process, Sketch
from ...core.snapshots import ONCE, Moments, moment_of
from .frames import is_inside, is_of_jvm
from .text import JvmDump, JvmThread


class JvmWhole(Protocol):
    """What is used here of the dump of one time."""

    dump: JvmDump
    threads: List[JvmThread]


def count_owned(processes: List[Process], moments: List[Moments]) -> None:
    """One that waits for what another owns is at that wait as long as the owner is at its own. Those who own what the
    others want never go on."""
    counted = {process.name for process in processes if process.count is not None}
    owners = {process.name: owner_of(process) for process in processes
              if process.count is None and moment_of(process.name, moments) == ONCE and owner_of(process)}
    waiters: Dict[str, List[str]] = defaultdict(list)
    for name, owner in owners.items():
        waiters[owner].append(name)
    lost = [name for name, owner in owners.items() if owner not in counted and owner not in owners]
    for name in lost:  # (which grows meanwhile)
        lost += waiters[name]
    gone = set(lost)
    for process in processes:
        if process.name in owners and process.name not in gone:
            process.count = f"as {owners[process.name]}"


def owner_of(process: Process) -> str:
    """Returns the name of the one who owns what a process waits for, or nothing."""
    groups = [group for part in process.parts for group in part if group.how == "owns"]
    return next((name for group in groups for name in group.names()), "")


def add_inner(sketch: Sketch, snapshots: Sequence[JvmWhole]) -> None:
    """Adds which threads of the kernel are the JVM's own: those that run no code of the job at any time, and others."""
    seen = {process.thread for process in sketch.processes}
    for snapshot in snapshots:
        launcher = [snapshot.dump.launcher] if snapshot.dump.launcher else []
        own = list(filter(is_of_jvm, snapshot.threads))
        sketch.readers += [kernel_thread(thread, snapshot.dump) for thread in own if is_inside(thread)]
        sketch.inner += launcher + [kernel_thread(thread, snapshot.dump) for thread in own if not is_inside(thread)]
    sketch.readers = [name for name in dict.fromkeys(sketch.readers) if name and name not in seen]
    sketch.inner = [name for name in dict.fromkeys(sketch.inner) if name and name not in seen]
    if sketch.inner:
        sketch.premises[INNER] = sentence_of(INNER)


def kernel_thread(thread: JvmThread, dump: JvmDump) -> str:
    """The thread of the kernel that runs a thread, or nothing if the state doesn't say it."""
    return f"{dump.pid}/{thread.native}" if dump.pid and thread.native and not thread.is_virtual else ""
