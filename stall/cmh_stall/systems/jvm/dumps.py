"""Reads a text in which a JVM tells of its threads, whichever it is: what `jstack` prints, once or several times, or
what `jcmd PID Thread.dump_to_file` writes, as text or as JSON."""
from __future__ import annotations

import json
import re
from typing import Any, Dict, Iterator, List, Match, Optional, Tuple

from ...core.files import Refusal, shown
from ...core.sketch import once_each
from .misfits import add_faults
from .text import BETWEEN, FRAME, PARKED, START, JvmDump, JvmThread, PrintReader, add_line, frame_of

FILE_THREAD = re.compile(
    r'#(?P<number>\d+) "(?P<name>.*)"(?P<virtual> virtual)?(?: (?P<state>[A-Z_]+))?(?: \d{4}-\S+)?'
)
# Functions in which a thread is parked, and those that give it a limit: of JDK 21 to 23 the state isn't printed.
PARKS = re.compile(r"java\.lang\.VirtualThread\.park|jdk\.internal\.misc\.Unsafe\.park")
LIMITS = re.compile(r"java\.(lang\.(Virtual)?Thread\.(sleep\w*|parkNanos)|util\.concurrent\.locks\.LockSupport\.park"
                    r"(Nanos|Until))")
INNER = 8  # frames among which these are
VIRTUAL = "\n# cmh virtual "  # before the JSON that take-jvm has of virtual threads, behind what jstack prints
FAR = re.compile(r"\n# cmh limits (\{.*\})$", re.M)  # limits of waits that end in more than an hour, in seconds
UNMARKED = re.compile(r" {6}(?=[^\s-]\S*\()(?!at )")  # before a frame of JDK 21, which has no 'at'


def read_dumps(path: str, text: str) -> List[JvmDump]:
    """Returns the dumps of a text, in their order. Raises Refusal if it has none, or one that isn't whole."""
    name = shown(path)
    if text.lstrip().startswith("{"):
        return [read_file_json(name, text)]
    text = text.replace("\r\n", "\n")
    starts = [start.start() for start in re.finditer(f"\n{START}", f"\n{text}")]
    if starts:
        ends = [*starts[1:], len(text)]
        dumps = [PrintReader(name, text, start, end).read() for start, end in zip(starts, ends)]
        for dump, start, end in zip(dumps, starts, ends):
            add_faults(dump)
            begin = text.find(VIRTUAL, start, end)
            if begin >= 0:
                add_virtual(dump, read_file_json(name, text[begin + len(VIRTUAL):end].split("\n")[0]))
            add_limits(dump, FAR.search(text, start, end))
        return dumps
    lines = text.split("\n")
    if any(FILE_THREAD.fullmatch(line) for line in lines[:50]):
        return [read_file_text(name, lines)]
    raise Refusal(f"{name}:1: this is no thread dump: a line 'Full thread dump ..' of `jstack -l`, or the text of "
                  "`jcmd PID Thread.dump_to_file`, is expected")


def add_virtual(dump: JvmDump, more: JvmDump) -> None:
    """Adds the threads of a file that jstack doesn't print. An object has the name that jstack gives it, where a thread
    of both shows that."""
    here = {thread.key: thread for thread in dump.threads}
    names = {there: own for thread in more.threads if thread.key in here
             for there, own in same_objects(thread, here[thread.key])}
    for thread in (thread for thread in more.threads if thread.key not in here):
        thread.is_of_file = True
        for frame in thread.frames:
            frame.marks = [(kind, names.get(thing, thing)) for kind, thing in frame.marks]
        dump.threads.append(thread)
    dump.has_virtual, dump.lost = True, dump.lost or more.lost


def add_limits(dump: JvmDump, line: Optional[Match[str]]) -> None:
    """Adds to threads that wait with a limit far away in how many seconds it ends."""
    limits = numbers_of(line[1]) if line else {}
    for thread in dump.threads:
        thread.far = limits.get(thread.native, 0.0) if thread.state == "TIMED_WAITING" else 0.0


def numbers_of(text: str) -> Dict[str, float]:
    """Returns the numbers of an object of JSON, or none where one of its values is something else."""
    try:
        rows: Dict[str, Any] = json.loads(text, object_pairs_hook=once_each)
    except (ValueError, RecursionError):
        return {}
    return dict(rows) if all(type(value) in (int, float) for value in rows.values()) else {}


def same_objects(thread: JvmThread, own: JvmThread) -> Iterator[Tuple[str, str]]:
    """Yields what a thread waits at and has locked by a file, each with what jstack calls that."""
    for kind in {kind for frame in thread.frames for kind, _ in frame.marks}:
        there, here = ([thing for frame in one.frames for what, thing in frame.marks if what == kind]
                       for one in (thread, own))
        if len(there) == len(here):
            yield from zip(there, here)


# `jcmd PID Thread.dump_to_file`


def read_file_text(path: str, lines: List[str]) -> JvmDump:
    """Returns the dump of a text of `Thread.dump_to_file -format=text`."""
    if lines[-1].strip() or len(lines) < 2 or lines[-2].strip():
        raise Refusal(f"{path}:{len(lines)}: the dump is cut off: it ends within a thread")
    process = lines[0].strip()
    dump = JvmDump(path, is_file=True, pid=process if process.isdigit() else "")
    thread: Optional[JvmThread] = None
    for number, line in enumerate(lines, 1):
        line = UNMARKED.sub("    at ", line, 1) if UNMARKED.match(line) else line
        if head := FILE_THREAD.fullmatch(line):
            key = f"#{head['number']}"
            thread = JvmThread(head["name"], key, f"{path}:{number}", head["number"], f"{process} {key}")
            thread.is_virtual, thread.state = bool(head["virtual"]), head["state"] or ""
            dump.threads.append(thread)
        elif line.strip() and (thread is None or not add_line(thread, line)):
            if thread is not None or not BETWEEN.fullmatch(line):
                dump.warn(f"{path}:{number}", line)
            if thread is not None:
                thread.fault = thread.fault or f"{path}:{number} isn't understood"
                dump.lost = dump.lost or f"{path}:{number} doesn't fit"
    dump.taken = lines[1].strip()
    dump.close()
    for thread in dump.threads:
        thread.state = thread.state or state_of(thread)
    return dump


def read_file_json(path: str, text: str) -> JvmDump:
    """Returns the dump of a text of `Thread.dump_to_file -format=json`."""
    try:
        tree = json.loads(text, object_pairs_hook=once_each)
        containers = tree["threadDump"]["threadContainers"]
        rows = [row for container in containers for row in container["threads"]]
        process = str(tree["threadDump"].get("processId") or "")
        threads = [thread_of_row(path, row, process) for row in rows]
    except (ValueError, KeyError, TypeError, AttributeError, RecursionError, OverflowError) as error:
        line = getattr(error, "lineno", 1)
        raise Refusal(f"{path}:{line}: this is no whole JSON of `jcmd PID Thread.dump_to_file -format=json`: "
                      f"{shown(str(error))}") from error
    lost = next(filter(None, (short_of(path, container) for container in containers)), "")
    taken = str(tree["threadDump"].get("time") or "")
    return JvmDump(path, threads, is_file=True, pid=process if process.isdigit() else "", taken=taken, lost=lost)


def short_of(path: str, container: Dict[str, Any]) -> str:
    """Returns what shows that threads of a container are missing, or nothing."""
    number, here = str(container.get("threadCount") or ""), len(container["threads"])
    if not re.fullmatch(r"\d{1,9}", number) or int(number) <= here:
        return ""
    return f"{path}: {shown(str(container.get('container')))} has {number} threads, and {here} are shown"


def thread_of_row(path: str, row: Dict[str, Any], process: str) -> JvmThread:
    """Returns the thread of a row of JSON, with its marks as the text has them."""
    number = str(row["tid"])
    thread = JvmThread(str(row["name"]), f"#{number}", f"{path}, tid {number}", number, f"{process} #{number}")
    thread.is_virtual, thread.state = row.get("virtual") is True, str(row.get("state") or "")
    for line in row["stack"]:
        matched = FRAME.fullmatch(f" at {line}")
        if matched is None:
            thread.fault = thread.fault or f"{thread.place}: the frame {shown(str(line))[:200]} isn't understood"
        else:
            thread.frames.append(frame_of(matched))
    thread.state = thread.state or state_of(thread)
    add_marks(thread, row)
    return thread


def state_of(thread: JvmThread) -> str:
    """Returns the state of a thread by where it stands, or nothing."""
    methods = [step.method for step in thread.frames[:INNER]]
    if any(map(LIMITS.fullmatch, methods)):
        return "TIMED_WAITING"
    return "WAITING" if methods and PARKS.fullmatch(methods[0]) else ""


def add_marks(thread: JvmThread, row: Dict[str, Any]) -> None:
    """Adds what a row of JSON says of monitors and blockers to the frames of its thread."""
    blocker = row.get("parkBlocker") or {}
    tops = [(PARKED, blocker.get("object")), ("waiting to lock", row.get("blockedOn")),
            ("waiting on", row.get("waitingOn"))]
    if thread.frames:
        thread.frames[0].marks += [(kind, str(object_)) for kind, object_ in tops if object_]
    owner = blocker.get("owner") or blocker.get("exclusiveOwnerThreadId")
    thread.waits_for_owner = str(owner) if owner else None
    for owned in row.get("monitorsOwned") or []:
        marks, depth = [("locked", str(lock)) for lock in owned["locks"] if lock], int(owned["depth"])
        if depth < 0:
            raise ValueError(f"a monitor of {thread.key} has the depth {depth}")
        if thread.frames:
            thread.frames[min(depth, len(thread.frames) - 1)].marks += marks
