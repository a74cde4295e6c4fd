"""What a JVM prints of its threads: `jstack -l`, `jcmd PID Thread.print -l`, SIGQUIT. Each thread is read line by line,
as `jvm_dumps` does too; what it waits for stands in `jvm_waits`.

Read from real texts of JDK 17 and 25. JDK 8, 11 and 21 are written by hand, from the sources of HotSpot.
"""
from __future__ import annotations

import functools
import hashlib
import itertools
import re
from dataclasses import dataclass, field
from typing import Any, Dict, Iterator, List, Optional, Tuple

from ...core.files import Refusal, shown

START, OWNERS, LIST = "Full thread dump ", "Locked ownable", "_java_thread_list="
LISTED = re.compile(rf"{LIST}\w+, length=(\d{{1,9}}), elements={{\s*")
HEADER = re.compile(
    r'"(?P<name>.*)"(?: #(?P<number>\d+))?(?: \[\d+\])?(?P<daemon> daemon)?(?: prio=\d+)?(?: os_prio=-?\d+)?'
    r"(?: cpu=(?P<cpu>\d+(?:\.\d+)?)ms)?(?: elapsed=(?P<elapsed>\d+(?:\.\d+)?)s)?(?: allocated=\S+)?"
    r"(?: defined_classes=\d+)? tid=(?P<tid>\w+)(?: nid=(?:(?P<nid>0x[0-9a-f]{1,8}|\d{1,10})|\w+))?"
    r"(?P<status> [^\[]*)?(?:\[0x0*(?P<top>\w*)\])?\s*"
)
STATE = re.compile(r"\s+java\.lang\.Thread\.State: (\w+)(?: \((.*)\))?\s*")
FRAME = re.compile(r"\s+at (?:[\w.@$-]*/{1,2}(?!0x))?(?P<method>[^()]+\.[^().]+)"
                   r"\((?P<place>(?:\S*/)?(?:Native Method|Unknown Source|\S+))\)\s*")
MARK = re.compile(
    r"\s+- (?P<kind>waiting on|waiting to lock|waiting to re-lock in wait\(\)|locked|parking to wait for|eliminated)"
    r" +<(?P<object>[^>]*)>(?: \(a (?P<class>.*)\))?(?:, owned by #(?P<owner>\d+))?\s*"
)
CLASS_WAIT = re.compile(r"\s+- waiting on the Class initialization monitor for (?P<object>\S+)\s*")
OWNED = re.compile(r"\s+- <(0x[0-9a-f]+)> \(a (.*)\)\s*")
OBJECT, SOME = re.compile(r"<(0x[0-9a-f]+)>"), "<object>"  # in marks and among what is owned
LOCATION = re.compile(r"(?:.*/)?(?P<file>[^/:]*)(?::(?P<line>\d{1,9}))?")
# In the deadlocks that jstack itself finds: two lines that say who owns what.
WANTED = re.compile(r"\s+waiting (?:for ownable synchronizer (0x\w+)|to lock monitor \w+ \(object (0x\w+)), .*")
HELD = re.compile(r'\s+(?:in JNI, )?which is held by "(.*)"\s*')
PID = re.compile(r"(\d+):\s*")
# What take-jvm prints before and after a dump.
BEGAN = re.compile(r"# cmh began (?P<time>\d{1,12}\.\d+) on (?P<machine>\S+ pid:\[\d+\]) by (?P<program>.*)")
ENDED = re.compile(r"# cmh ended (?P<time>\d{1,12}\.\d+)\s*")
MOUNTED = re.compile(r"\s+Mounted virtual thread #(\d+)\s*")
# Lines of a thread that tell nothing of what it waits for.
PLAIN = re.compile(
    r"\s*|\s+(No compile task|Compiling: .*|JavaThread state: .*|(Carrying|Mounted) virtual thread #\d+|- None"
    r"|Locked ownable synchronizers:|Thread: .*|JNI .*|_\w+.*)\s*"
)
BETWEEN = re.compile(
    r"\d+:|\d{4}-\d\d-\d\d[ T].*|Threads class SMR info:|_\w+=.*|[0-9a-fx, ]+|\}|[\d.]+\S*"
)
END = "JNI global ref"
SHOWN = 5  # lines that aren't understood; the others are counted
CLASS_INIT, PARKED = "class", "parking to wait for"
# Marks of what a thread waits for: they stand under its first frame.
OF_WAITS = ("waiting on", "waiting to lock", "waiting to re-lock in wait()", PARKED, CLASS_INIT)


@dataclass
class JvmFrame:
    """A frame of a stack: 'Orders.book', 'Orders.java', 37. `marks` are the pairs of a kind and an object under it."""

    method: str
    file: str = ""
    line: Optional[int] = None
    native: bool = False
    marks: List[Tuple[str, str]] = field(default_factory=list)

    def with_marks(self, marks: List[Tuple[str, str]]) -> JvmFrame:
        return JvmFrame(self.method, self.file, self.line, self.native, marks)


# The frames of a thread, topmost first: method, file and line of each.
Stack = Tuple[Tuple[str, str, Optional[int]], ...]


@dataclass
class JvmThread:
    """A thread of one state. `key` tells it from others of its JVM, `identity`, if it isn't empty, from those of other
    JVMs too, and `native` is its number in the kernel; `place` is where it was read, and `has_top` says that by its
    first line it has frames. `parked_class` is the class of what it is parked at, `monitors` has the class of each
    monitor under its frames, or nothing where that isn't shown, and `owned` has the class of each lock that it owns, if
    `lists_owned` says that these are printed. By another state, if its frames are the same there, `same_as` has the
    objects that it waited at in the first one, `has_stood` says that it has used no processor time, and `has_ticked`
    that it has used some. `far` is in how many seconds its limit ends, if that is in more than an hour. `is_of_file`
    says that it was read by itself, beside what jstack prints, `is_closed` that no more frames may follow in its text,
    and `stack` is what `stack_of` has found."""

    name: str
    key: str
    place: str
    number: Optional[str] = None
    identity: str = ""
    native: str = ""
    state: str = ""
    detail: str = ""
    status: str = ""
    has_top: bool = False
    cpu: Optional[str] = None
    elapsed: str = ""
    is_virtual: bool = False
    is_daemon: bool = False
    frames: List[JvmFrame] = field(default_factory=list)
    stack: Stack = ()
    owned: Dict[str, str] = field(default_factory=dict)
    lists_owned: bool = False
    waits_for_owner: Optional[str] = None
    parked_class: str = ""
    monitors: List[str] = field(default_factory=list)
    same_as: Optional[List[str]] = None
    has_stood: bool = False
    has_ticked: bool = False
    far: float = 0.0
    is_closed: bool = False
    fault: str = ""
    is_of_file: bool = False


def stack_of(thread: JvmThread) -> Stack:
    if len(thread.stack) != len(thread.frames):
        thread.stack = tuple((frame.method, frame.file, frame.line) for frame in thread.frames)
    return thread.stack


@dataclass
class JvmDump:
    """The threads of a state. `pid` is that of the JVM, `machine` and `time` where it was read, and from when to when,
    and `launcher` the first thread of a program `java`, which only waits for main, if the text has them. `found_owners`
    has the name of the owner of each lock in the deadlocks that the JVM itself has found, `has_owners` says whether
    owners of all locks were printed, `is_file` whether the text is of `Thread.dump_to_file`, `has_virtual` whether
    threads of such a file stand beside it, and `listed` how many
    threads the JVM lists. `taken` tells one state from another, and `lost` is what shows that lines of it are missing.
    """

    path: str
    threads: List[JvmThread] = field(default_factory=list)
    warnings: List[str] = field(default_factory=list)
    pid: str = ""
    machine: str = ""
    time: Optional[Tuple[float, float]] = None
    launcher: str = ""
    found_owners: Dict[str, str] = field(default_factory=dict)
    has_owners: bool = False
    is_file: bool = False
    has_virtual: bool = False
    listed: int = 0
    taken: str = ""
    lost: str = ""
    odd: int = 0

    def warn(self, place: str, line: str) -> None:
        """Adds a line that isn't understood to the warnings."""
        self.odd += 1
        if self.odd <= SHOWN:
            self.warnings.append(f"{place}: this line isn't understood: {shown(line.strip())[:200]}")

    def close(self) -> None:
        if self.odd > SHOWN:
            self.warnings.append(f"{self.path}: {self.odd - SHOWN} more lines aren't understood")


def frame_of(matched: "re.Match[str]") -> JvmFrame:
    """Returns the frame of a line that FRAME matches."""
    place = matched["place"]
    location = LOCATION.fullmatch(place)
    frame = JvmFrame(matched["method"].strip(), native="Native Method" in place)
    if location and location["line"] and location["file"]:
        frame.file, frame.line = location["file"], int(location["line"])
    return frame


@functools.lru_cache(maxsize=4096)
def frame_of_line(line: str) -> Optional[JvmFrame]:
    """Returns the frame of a line, or None. Many threads have the same ones, so it is kept, and isn't changed."""
    matched = FRAME.fullmatch(line)
    return frame_of(matched) if matched else None


@functools.lru_cache(maxsize=4096)
def is_plain(line: str) -> bool:
    return PLAIN.fullmatch(line) is not None


def add_line(thread: JvmThread, line: str) -> bool:
    """Adds a line of the block of a thread to it. Returns whether it is understood. Its state and its frames stand
    before the first empty line: after that, they are those of a thread whose first line is missing."""
    text = line.lstrip()
    if not text:
        thread.is_closed = True
    elif text.startswith("at ") and (frame := frame_of_line(line)):
        thread.frames.append(frame)
        return not thread.is_closed
    elif text.startswith("- ") and (mark := MARK.fullmatch(line) or CLASS_WAIT.fullmatch(line)):
        return add_mark(thread, mark.groupdict())
    elif text.startswith("java.lang.Thread.State") and (state := STATE.fullmatch(line)):
        is_first = not thread.state and not thread.frames and not thread.is_closed
        thread.state, thread.detail = state[1], state[2] or ""
        return is_first
    elif text.startswith("- <") and (owned := OWNED.fullmatch(line)):
        thread.owned[owned[1]], thread.lists_owned = owned[2], True
    elif text.startswith("- None"):
        thread.lists_owned = True
    else:
        return is_plain(line)
    return True


def add_mark(thread: JvmThread, marks: Dict[str, Any]) -> bool:
    """Adds a mark to the last frame. Returns whether it may stand there: what a thread waits for is under its first."""
    kind = marks.get("kind") or CLASS_INIT
    if not thread.frames or thread.is_closed or kind in OF_WAITS and thread.frames[1:]:
        return False
    last = thread.frames[-1]
    thread.frames[-1] = last.with_marks([*last.marks, (kind, marks["object"])])
    thread.waits_for_owner = marks.get("owner") or thread.waits_for_owner
    if kind == PARKED:
        thread.parked_class = marks.get("class") or ""
    elif kind != CLASS_INIT:
        thread.monitors.append(marks.get("class") or "")
    return True


@functools.lru_cache(maxsize=4096)
def pattern_of(text: str) -> Optional[JvmThread]:
    """Returns a thread by what stands under its first line, with numbers in place of objects. Threads of a pool differ
    in these alone. Returns None if a line isn't understood, or tells of another thread."""
    numbers = itertools.count()
    pattern = JvmThread("", "", "")
    for line in text.replace(SOME, "<{:#x}>").split("\n"):
        line = re.sub("<{:#x}>", lambda _: f"<{next(numbers):#x}>", line)
        if MOUNTED.fullmatch(line) or not add_line(pattern, line):
            return None
    return pattern


def fill(thread: JvmThread, pattern: JvmThread, objects: List[str]) -> None:
    """Gives a thread what its pattern has, with its own objects."""
    names = {f"{number:#x}": thing for number, thing in enumerate(objects)}
    thread.state, thread.detail, thread.is_closed = pattern.state, pattern.detail, pattern.is_closed
    thread.waits_for_owner, thread.parked_class = pattern.waits_for_owner, pattern.parked_class
    thread.lists_owned, thread.monitors = pattern.lists_owned, pattern.monitors
    thread.owned = {names[number]: name for number, name in pattern.owned.items()}
    thread.frames = [frame.with_marks([(kind, names.get(thing, thing)) for kind, thing in frame.marks])
                     if frame.marks else frame for frame in pattern.frames]
    thread.stack = stack_of(pattern)


class PrintReader:
    """Reads one dump of `jstack`: the text from a line 'Full thread dump' to the next one."""

    def __init__(self, path: str, text: str, start: int, end: int) -> None:
        self.path, self.text, self.dump = path, text[start:end], JvmDump(path)
        self.first = text.count("\n", 0, start) + 1
        self.last = text.count("\n", 0, end) + (end == len(text))
        self.thread: Optional[JvmThread] = None
        before = text[max(start - 400, 0):start].split("\n")[-4:-1]
        self.dump.pid = next((matched[1] for matched in map(PID.fullmatch, before) if matched), "")
        self.began = next(filter(None, map(BEGAN.fullmatch, before)), None)

    def read(self) -> JvmDump:
        end = self.text.find("\n" + END)
        if end < 0:
            raise Refusal(f"{self.path}:{self.last}: the dump is cut off: it ends before the line 'JNI global "
                          "refs', so threads are missing")
        tail = self.text[end + 1 + len(END):]
        first = self.text.find('\n"', 0, end)
        head = self.text[:end if first < 0 else first]
        number = self.first
        for number, line in enumerate(head.split("\n")[1:], self.first + 1):
            self.take(line, number)
        for block in self.blocks(len(head), end):
            self.take_block(block, number + 1)
            number += block.count("\n") + 1
        self.take_found(tail.split("\n"))
        ended = next(filter(None, map(ENDED.fullmatch, tail.split("\n"))), None)
        if self.began and ended:
            self.dump.machine = self.began["machine"]
            self.dump.time = float(self.began["time"]), float(ended["time"])
            self.dump.launcher = f"{self.dump.pid}/{self.dump.pid}" if self.began["program"] == "java" else ""
        if any("." in thread.elapsed for thread in self.dump.threads):  # (so that two states of a JVM differ)
            self.dump.taken = hashlib.sha256(self.text[:end].encode("utf-8", "surrogatepass")).hexdigest()
        has_elapsed = any(thread.elapsed for thread in self.dump.threads)  # (as JDK 10 and later print it)
        if not self.dump.listed and has_elapsed:
            self.dump.lost = self.dump.lost or f"{self.path}:{self.first}: no whole line '{LIST}..' follows this line"
        self.dump.close()
        return self.dump

    def blocks(self, start: int, end: int) -> Iterator[str]:
        """Yields the text of each thread between two places. They are cut off one by one, as all of them take as much
        memory as the text."""
        while start < end:
            after = self.text.find('\n"', start + 1, end)
            after = end if after < 0 else after
            yield self.text[start + 1:after]
            start = after

    def take_found(self, lines: List[str]) -> None:
        """Reads who owns what in the deadlocks that the JVM itself has found."""
        for before, line in zip(lines, lines[1:]):
            if (held := HELD.fullmatch(line)) and (wanted := WANTED.fullmatch(before)):
                self.dump.found_owners[wanted[1] or wanted[2]] = held[1]

    def take_block(self, block: str, number: int) -> None:
        """Reads a thread, with the number of its first line."""
        header, _, rest = block.partition("\n")
        objects = OBJECT.findall(rest)
        self.thread = thread = self.begin(header, f"{self.path}:{number}")
        pattern = pattern_of(OBJECT.sub(SOME, rest))
        if pattern is None or SOME in rest:
            for line_number, line in enumerate(rest.split("\n"), number + 1):
                self.take(line, line_number)
            return
        fill(thread, pattern, objects)
        self.dump.has_owners = self.dump.has_owners or OWNERS in rest

    def take(self, line: str, number: int) -> None:
        """Reads a line under the first one of a thread, or before all of them."""
        place = f"{self.path}:{number}"
        if self.thread is None:
            listed = LISTED.fullmatch(line)
            self.dump.listed = int(listed[1]) if listed else self.dump.listed
            if line.strip() and not BETWEEN.fullmatch(line):
                self.dump.warn(place, line)
                self.dump.lost = self.dump.lost or f"{place} belongs to no thread"
        elif mounted := MOUNTED.fullmatch(line):
            self.thread.lists_owned = True  # (below the frames of the one that it carries)
            self.thread = JvmThread("", f"#{mounted[1]}", place, mounted[1], is_virtual=True)
            self.dump.threads.append(self.thread)
        elif not add_line(self.thread, line):
            self.dump.warn(place, line)
            self.thread.fault = self.thread.fault or f"{place} isn't understood"
            self.dump.lost = self.dump.lost or f"{place} doesn't fit"
        elif OWNERS in line:
            self.dump.has_owners = True

    def begin(self, line: str, place: str) -> JvmThread:
        """Begins the block of a thread."""
        head = HEADER.fullmatch(line)
        if head is None:
            raise Refusal(f'{place}: a thread\'s first line is expected, as "main" #1 prio=5 .. tid=0x.. runnable: '
                          f"{shown(line)[:200]}")
        number = head["number"]
        key = f"#{number}" if number else head["tid"]
        status = (head["status"] or "").strip()
        native = head["nid"] or ""
        native = str(int(native, 16)) if native.startswith("0x") else native
        thread = JvmThread(head["name"], key, place, number, head["tid"], native, status=status,
                           has_top=bool(head["top"]), cpu=head["cpu"], elapsed=head["elapsed"] or "",
                           is_daemon=bool(head["daemon"]))
        self.dump.threads.append(thread)
        return thread
