"""Elixir: who waits for tasks. A task has the reference by which its owner waits for it, as a server has that of a
call; a stream has a process beside its owner that begins the tasks and hears when they end.
"""
from __future__ import annotations

import re
from typing import List, Optional, Tuple

from ...core.model import all_of, any_of
from ...core.sketch import SYSTEM, Process, blocked, goes_on, premise
from .calls import NO_MAIL, holders, others_of
from .nodes import More, Nodes, limited, not_shown
from .text import ErlangBlock

ENDS = "tasks"
PARTS = re.compile(r"pid=>(<[\d.]+>)|ref=>(#Ref<[\d.]+>)")
PENDING = re.compile(r"(#Ref<[\d.]+>)=>true")
STREAM = ("Task.Supervised.stream_reduce", "Task.Supervised.stream_monitor_loop")
ONE, SEVERAL = ("Task.await", "Task.yield"), ("Task.await_many", "Task.yield_many")


def wait_of_task(block: ErlangBlock, snapshot: Nodes, more: More) -> Optional[Process]:
    """Returns a process that waits for tasks, or None for one that is elsewhere."""
    top = block.top()
    if top not in (*ONE, *SEVERAL, *STREAM):
        return None
    limit = limit_of(block, top)
    if limit.isdigit():
        return limited(block, snapshot, "it waits with a limit", {**more, "operation": f"timed {top}"})
    more["note"] = f"{top} in {block.frames()[0]}"
    if limit != "infinity":
        return not_shown(block, snapshot, "its stack doesn't show its limit as it is expected", more)
    if block.is_mail_cut:
        return not_shown(block, snapshot, NO_MAIL, more)
    return wait_for_stream(block, snapshot, more) if top in STREAM else wait_for_tasks(block, snapshot, top, more)


def limit_of(block: ErlangBlock, top: str) -> str:
    """Returns the limit that its topmost frame has, or nothing if that isn't clear."""
    if top in STREAM:
        limits: List[str] = re.findall(r"\btimeout=>(infinity|\d+)", block.counter)
    else:
        limits = [term for term in block.registers() if re.fullmatch(r"infinity|\d+", term)]
    return limits[0] if len(set(limits)) == 1 else ""


def tasks_of(block: ErlangBlock) -> List[Tuple[str, str]]:
    """Returns the pid and the reference of each task in its topmost frame."""
    matches = PARTS.findall(block.counter)
    pids, references = [pid for pid, _ in matches if pid], [reference for _, reference in matches if reference]
    return list(dict.fromkeys(zip(pids, references))) if len(pids) == len(references) else []


def wait_for_tasks(block: ErlangBlock, snapshot: Nodes, top: str, more: More) -> Process:
    """Returns one that waits for the answer of a task, or for those of all."""
    name, tasks = snapshot.name(block), tasks_of(block)
    pending = set(PENDING.findall(block.counter)) if top == "Task.await_many" else {reference for _, reference in tasks}
    tasks = [task for task in tasks if task[1] in pending]
    if not tasks or len(tasks) < len(pending):
        return not_shown(block, snapshot, "its stack doesn't show its tasks as they are expected", more)
    references = [reference for _, reference in tasks]
    if any(block.is_answered(references, form) for form in ("{{{0},", "{{'DOWN',{0},")):
        return goes_on(name, "the answer of a task is in its mailbox", [SYSTEM], **more)
    called = [snapshot.find((block.node, pid)) for pid, _ in tasks]
    there = [other for other in called if other is not None]
    if len(there) < len(tasks):
        return not_shown(block, snapshot, "a task that it waits for isn't in the state", more)
    more.update(objects=[*snapshot.names(there), *references], count=" ".join(references))
    tails = {reference.split("<")[1].split(".", 1)[1].rstrip(">") for reference in references}
    others = holders(block, snapshot, tails)
    because = [SYSTEM, premise(ENDS)]
    if top in ONE:
        part = (*snapshot.some("ends", there), *snapshot.some("called", others_of(others, there)), *snapshot.left_out())
        return blocked(name, any_of(*part), because, **more)
    if others_of(others, there):
        who = snapshot.name(others_of(others, there)[0])
        return not_shown(block, snapshot, f"{who} has the reference of a task that it waits for, too", more)
    beside = snapshot.some("kills", there) if top == "Task.await_many" else ()
    return blocked(name, all_of(snapshot.names(there), "ends", beside=beside), because, **more)


def wait_for_stream(block: ErlangBlock, snapshot: Nodes, more: More) -> Process:
    """Returns the owner of a stream or the process that begins its tasks: each waits for the other one and the tasks.
    """
    name = snapshot.name(block)
    text = re.sub(r"callers=>\[[^]]*\]", "", block.counter)  # (who began it waits for nothing here)
    pids = dict.fromkeys(re.findall(r"<\d+\.\d+\.\d+>", text))
    members = {pid: snapshot.find((block.node, pid)) for pid in pids if pid != block.pid}
    there = [other for other in members.values() if other is not None]
    gone = next((pid for pid, other in members.items() if other is None), None)
    if gone is not None or not there:
        return not_shown(block, snapshot, f"process {gone or 'of its stream'} isn't in the state", more)
    return blocked(name, any_of(*snapshot.some("ends", there), *snapshot.left_out()), [SYSTEM, premise(ENDS)], **more)
