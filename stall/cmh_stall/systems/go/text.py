"""The texts in which a Go program tells of its goroutines: what SIGQUIT prints, and pprof's `goroutine?debug=2`.

Read from real texts of Go 1.19. What newer versions print besides is written by hand, from the sources of the runtime:
`gp=`, `m=` and `in goroutine N` of Go 1.21 and later, `sync.Mutex.Lock` in place of `semacquire`, `coroutine`, and
`(leaked)`.
"""
from __future__ import annotations

import re
from dataclasses import dataclass, field
from functools import cached_property, lru_cache
from itertools import accumulate, compress, count
from operator import attrgetter, not_
from typing import Dict, List, NamedTuple, Optional, Tuple

from ...core.files import Refusal, shown

HEADER = re.compile(r"goroutine (?P<id>\d+)(?: gp=\S+)?(?: m=\S+)?(?: mp=\S+)? \[(?P<state>.*)\](?: \{.*\})?:\s*")
# Of a package, and perhaps of a type.
FUNCTION = re.compile(r"panic|[^\s.()][^\s()]*\.(?:\(\*[^()*[\]]+(?:\[[^()]*\])?\)\.)?(?:[^\s()[\]]|\[[^()]*\])+")
PLACE = re.compile(r"\t(?P<file>.*):(?P<line>\d{1,9})(?: (?P<offset>\+0x[0-9a-f]+))?"
                   r"(?: fp=(?P<fp>\S+) sp=(?P<sp>\S+).*)?\s*")
CREATED = re.compile(r"created by (?P<function>.*?)(?: in goroutine (?P<parent>\d+))?\s*")
ELIDED = re.compile(r"\.\.\.(?:additional|\d+) frames elided\.\.\.\s*|\tgoroutine running on other thread; .*")
ELSEWHERE = "\tgoroutine running on other thread"
ORIGIN = re.compile(r"\[originating from goroutine \d+\]:\s*")
SIGNAL = re.compile(r"SIG[A-Z]+: .*")
REGISTER = re.compile(r"(?:[re][a-z]{2}|r\d+|lr|sp|pc|fp|fault|[cdefgs]s|rflags|eflags|cpsr|trap)\s+0x[0-9a-f]+\s*")
BESIDE = re.compile(
    r"\s*|# cmh .*|PC=.*|signal arrived .*|runtime: .*|exit status \d+|\[signal .*|m\d+: .*|-----\s*"
    r"|goroutine profile: .*"
)
NOTE = "# cmh look"  # what the lines begin with that a recipe has written of where and when it looks
WHERE = re.compile(r"^# cmh looks at (\S{1,300}(?: \(PID \d{1,10}\))?)$", re.M)  # before the first look
AGAIN = re.compile(r"^# cmh looked again (\d{1,4}(?:\.\d{1,9})?) s later$", re.M)  # before each look but the first
# Behind each look.
LOOKED = re.compile(r"^# cmh looked from (\d{1,15}\.\d{1,9}) to (\d{1,15}\.\d{1,9}) on (.{1,300})$", re.M)
MINUTES = re.compile(r"(\d{1,9}) minutes")
ADDRESS = re.compile(r"0x[0-9a-f]{6,}")
# What stands in a heading: states of goroutines, and why they wait, of Go 1.17 to 1.26, without the marks.
STATES = frozenset((
    "idle", "runnable", "running", "syscall", "waiting", "dead", "enqueue", "copystack", "preempted", "???", "leaked",
    "GC assist marking", "IO wait", "chan receive (nil chan)", "chan send (nil chan)", "dumping heap",
    "garbage collection", "garbage collection scan", "panicwait", "select", "select (no cases)", "GC assist wait",
    "GC sweep wait", "GC scavenge wait", "chan receive", "chan send", "finalizer wait", "force gc (idle)", "semacquire",
    "sleep", "sync.Cond.Wait", "sync.Mutex.Lock", "sync.RWMutex.RLock", "sync.RWMutex.Lock", "sync.WaitGroup.Wait",
    "timer goroutine (idle)", "trace reader (blocked)", "wait for GC cycle", "GC worker (idle)", "GC worker (active)",
    "debug call", "GC mark termination", "stopping the world", "flushing proc caches", "trace goroutine status",
    "trace proc status", "page trace flush", "coroutine", "GC weak to strong wait", "synctest.Run", "synctest.Wait",
    "chan receive (synctest)", "chan send (synctest)", "select (synctest)", "cleanup wait"))
LEAKED, MARKS = " (leaked)", re.compile(r" \((?:scan|leaked|durable)\)")
ROOT = re.compile(r"main\.main|.*\.init(?:\.\d+)?")  # what the runtime calls in goroutine 1
TAKER = "runtime/pprof.writeGoroutineStacks"
TAKEN = f"{TAKER}("
DEEP = 90  # Go prints 100 frames, counts some that it hides, and doesn't always say that it has left out others.
MOST = 256  # lines of calls and places that are read at once, which are more than Go prints of a goroutine
KEPT = 65536  # lines whose meaning is kept
SHOWN = 5  # lines that aren't understood; the others are counted
Ends = Optional[Tuple[str, str]]  # where a frame ends and begins on the stack
Spot = Tuple[str, int, str, Ends]  # a file, a line, an offset, and the ends on the stack


@dataclass(eq=False)
class GoFrame:
    """A frame: 'main.(*Store).Put', the whole path of 'thumbs.go', 26, and '+0x45'. All goroutines that stand there
    have the same one, which nobody changes, so that what it means is found once."""

    function: str
    path: str = ""
    line: Optional[int] = None
    offset: str = ""

    @property
    def file(self) -> str:
        return self.path.split("/")[-1]


NOWHERE, BEFORE = GoFrame(""), GoFrame("", line=0)
Frames = Tuple[GoFrame, ...]


class GoCall(NamedTuple):
    """A frame as a goroutine shows it: with the arguments as text, the addresses that stand in these, and the first of
    them if that is an address. `ends` is where the frame ends and begins on the stack, which SIGQUIT prints of those
    that aren't inlined."""

    frame: GoFrame
    arguments: str = ""
    addresses: Tuple[str, ...] = ()
    first: str = ""
    ends: Ends = None


FRAME, ADDRESSES = attrgetter("frame"), attrgetter("addresses")  # of a call


@dataclass
class Goroutine:
    """A goroutine of one state, topmost call first. `parent` is the number of the one that created it, if the text has
    it; `is_whole` says that no frames are elided, `is_elsewhere` that it ran on while the others were read, `is_locked`
    that it has a thread of its own, `is_leaked` that the collector has found that nobody can end its wait, and `fault`
    what of it wasn't understood."""

    number: str
    state: str
    at: str
    minutes: int = 0
    calls: List[GoCall] = field(default_factory=list)
    created_by: str = ""
    creator: GoFrame = NOWHERE
    parent: str = ""
    is_whole: bool = True
    is_elsewhere: bool = False
    is_locked: bool = False
    is_leaked: bool = False
    fault: str = ""

    @cached_property
    def frames(self) -> Frames:
        """Its frames, by which all is kept that is the same for those who stand so. It has been read when it's asked
        for them."""
        return tuple(map(FRAME, self.calls))

    def has_root(self) -> bool:
        """Whether its frames go out as far as it was started: by a `go` statement, as main, or by a thread of C."""
        if self.created_by or self.number in ("0", "17") or self.is_locked or not self.is_whole:
            return True
        return self.number == "1" and any(ROOT.fullmatch(step.function) for step in self.frames)

    def is_in_one_piece(self) -> bool:
        """Whether each frame begins on the stack where the one that it called ends."""
        ends = [call.ends for call in self.calls if call.ends]
        return not ends or all(inner[0] == outer[1] for inner, outer in zip(ends, ends[1:]))

    def doubt(self, fault: str) -> None:
        self.fault = self.fault or shown(fault)


@dataclass
class GoDump:
    """The goroutines of a state. `is_last` says that SIGQUIT has ended the program, `lost` what shows that lines of it
    are missing."""

    path: str
    goroutines: List[Goroutine] = field(default_factory=list)
    warnings: List[str] = field(default_factory=list)
    is_last: bool = False
    lost: str = ""


@lru_cache(maxsize=KEPT)
def place_in(line: str) -> Optional[Spot]:
    """Returns the file, the line, the offset and the ends on the stack that a line has, or None. Many goroutines stand
    at one place."""
    match = PLACE.fullmatch(line)
    if match is None:
        return None
    ends = (match["fp"], match["sp"]) if match["fp"] else None
    return match["file"], int(match["line"]), match["offset"] or "", ends


@lru_cache(maxsize=KEPT)
def is_function(text: str) -> bool:
    return FUNCTION.fullmatch(text) is not None


@lru_cache(maxsize=KEPT)
def frame_of(function: str, path: str, line: int, offset: str) -> GoFrame:
    """Returns the frame that all have who stand in a function at a place."""
    return GoFrame(function, path, line, offset)


def call_in(line: str) -> Optional[Tuple[str, str]]:
    """Returns the function that a line has a call of, and the arguments, or None."""
    function, _, rest = line.rstrip().rpartition("(")
    arguments, end, more = rest.partition(")")
    return (function, arguments) if end and not more and is_function(function) else None


def call_of(frame: GoFrame, arguments: str, ends: Ends = None) -> GoCall:
    addresses, first = tuple(ADDRESS.findall(arguments)), arguments.partition(",")[0]
    return GoCall(frame, arguments, addresses, first if first in addresses[:1] else "", ends)


@lru_cache(maxsize=KEPT)
def whole_call(line: str, below: str) -> Optional[GoCall]:
    """Returns the call that a line has with its place in the line below, or None. Many goroutines show the same one."""
    call = call_in(line)
    place = place_in(below) if call else None
    return call_of(frame_of(call[0], *place[:3]), call[1], place[3]) if call and place else None


@lru_cache(maxsize=KEPT)
def origin_in(line: str) -> Optional[Tuple[str, str]]:
    """Returns the function that has created a goroutine, by a line, and the number of the one in it, or None."""
    match = CREATED.fullmatch(line)
    return (match["function"], match["parent"] or "") if match and is_function(match["function"]) else None


@lru_cache(maxsize=KEPT)
def whole_origin(line: str, below: str) -> Optional[Tuple[GoFrame, str]]:
    """Returns the frame in which a goroutine was created, with its place in the line below, and the number of the one
    in it, or None."""
    origin, place = origin_in(line), place_in(below)
    return (frame_of(origin[0], *place[:3]), origin[1]) if origin and place else None


@lru_cache(maxsize=KEPT)
def state_in(text: str) -> Tuple[str, int, bool, bool]:
    """Returns the state that a heading has without its marks, for how many minutes it lasts, and whether the goroutine
    is locked to a thread, and leaked."""
    state, *more = text.split(", ")
    minutes = [int(minute[1]) for minute in map(MINUTES.fullmatch, more) if minute]
    return MARKS.sub("", state), sum(minutes[:1]), "locked to thread" in more, LEAKED in state


def lines_with(start: str, text: str) -> List[int]:
    """Returns the numbers of the lines of a text that start so, from 0. To look at each line takes long."""
    parts = f"\n{text}".split(f"\n{start}")
    return [end - 1 for end in accumulate(part.count("\n") + 1 for part in parts[:-1])]


def notes_in(text: str) -> str:
    """Returns the lines of a text that WHERE, AGAIN and LOOKED are looked for in. To look in all of it takes long."""
    parts = f"\n{text}".split(f"\n{NOTE}")
    return "\n".join(NOTE + part.split("\n", 1)[0] for part in parts[1:])


def read_dumps(path: str, text: str) -> List[GoDump]:
    """Returns the dumps of a text, in their order. Raises Refusal if it has none, or one that isn't whole or has a
    goroutine twice."""
    name = shown(path)
    text = text.replace("\r\n", "\n") if "\r" in text else text
    lines = text.split("\n")
    quit_at = next((at for at, line in enumerate(lines) if line.startswith("SIGQUIT: ")), None) \
        if "SIGQUIT: " in text else None
    first = next((at for at, line in enumerate(lines) if line[:10] == "goroutine " and HEADER.fullmatch(line)), None)
    if first is None:
        raise Refusal(f"{name}:1: this is no dump of goroutines: a line 'goroutine 1 [running]:' is expected")
    if quit_at is not None:
        dump = GoReader(name, lines, quit_at, len(lines), True).read()
        if quit_at:
            dump.warnings.append(f"{name}: {quit_at} lines before 'SIGQUIT' are left out")
        return [dump]
    headings = [number - 1 for number in lines_with(TAKEN, text)]
    starts = sorted({0, *(number for number in headings if number > first and HEADER.fullmatch(lines[number]))})
    return [GoReader(name, lines, *part, False).read() for part in zip(starts, [*starts[1:], len(lines)])]


class GoReader:
    """Reads the lines of one dump, from `start` up to `end`."""

    def __init__(self, path: str, lines: List[str], start: int, end: int, is_last: bool) -> None:
        self.path, self.start, self.dump = path, start, GoDump(path, is_last=is_last)
        self.lines = [*lines[start:end], ""] if end < len(lines) else lines[start:]
        self.goroutine: Optional[Goroutine] = None
        self.step = BEFORE  # whose place is to come, or has come last
        self.is_in_origin, self.is_over, self.odd = False, False, 0
        self.misread: Optional[Goroutine] = None  # the last of which a line isn't understood
        self.seen: Dict[str, str] = {}

    def read(self) -> GoDump:
        start = 0
        for end_of_block in (*compress(count(), map(not_, self.lines)), len(self.lines) - 1):
            self.take_block(start, end_of_block)
            start = end_of_block + 1
        end = f"{self.path}:{self.start + len(self.lines)}"
        if not self.dump.goroutines:
            raise Refusal(f"{end}: the dump is cut off: it has no goroutine")
        last = self.dump.goroutines[-1]
        is_open = not last.created_by and last.number not in ("0", "1", "17") and last is not self.misread
        if self.lines[-1].strip() or not self.is_over and (self.dump.is_last or is_open):
            raise Refusal(f"{end}: the dump is cut off: it ends within goroutine {last.number}, or before the registers"
                          " that end it, so goroutines are missing")
        if self.odd > SHOWN:
            self.dump.warnings.append(f"{self.path}: {self.odd - SHOWN} more lines aren't understood")
        return self.dump

    def is_open(self) -> bool:
        """Whether a frame of a goroutine may come next, or where it was created."""
        one = self.goroutine
        return one is not None and not self.is_in_origin and not one.created_by and self.step.line is not None

    def take_block(self, start: int, end: int) -> None:
        """Reads the lines up to a blank one: most are the heading of a goroutine, its calls, and where it was created.
        """
        index = start
        while index <= end and not self.is_over:
            self.take(self.lines[index], self.start + index + 1)
            index = self.take_calls(index + 1, end)

    def take_calls(self, index: int, end: int) -> int:
        """Reads what follows a line of a goroutine, as far as it has its places below: calls, and where the goroutine
        was created. Returns where the next line is."""
        one = self.goroutine
        if one is None or not self.is_open():
            return index
        lines = self.lines[index:min(end, index + MOST)]
        for call in map(whole_call, lines[::2], lines[1::2]):
            if call is None:
                break
            one.calls.append(call)
            index += 2
        origin = whole_origin(self.lines[index], self.lines[index + 1]) if index + 1 < end else None
        if origin is None:
            return index
        one.creator, one.parent = origin
        self.step, one.created_by = one.creator, one.creator.function
        return index + 2

    def take(self, line: str, number: int) -> None:
        """Reads a line."""
        one = None if self.is_in_origin else self.goroutine
        match = HEADER.fullmatch(line) if line[:10] == "goroutine " else None
        if match:
            self.begin(match, number)
        elif not line or not line.strip():
            self.close(number)
        elif one is not None and line[:1] == "\t" and (place := place_in(line)):
            self.set_place(one, place, line, number)
        elif one is not None and self.is_open() and (origin := origin_in(line)):
            one.created_by, one.parent = origin
            self.step = one.creator = GoFrame(one.created_by)
        elif one is not None and self.is_open() and (call := call_in(line)):
            self.step = GoFrame(call[0])
            one.calls.append(call_of(self.step, call[1]))
        else:
            self.take_other(line, number)

    def take_other(self, line: str, number: int) -> None:
        """Reads a line that is no heading, call or place of a goroutine."""
        if self.goroutine is not None and not self.is_in_origin:
            self.add(self.goroutine, line, number)
        elif self.dump.is_last and self.dump.goroutines and REGISTER.fullmatch(line):
            self.is_over = True
        elif not self.is_in_origin and not SIGNAL.fullmatch(line) and not BESIDE.fullmatch(line):
            self.warn(line, number)
            self.dump.lost = self.dump.lost or f"{self.path}:{number} belongs to no goroutine"

    def close(self, number: int) -> None:
        """Ends the block of a goroutine."""
        one, self.goroutine, self.is_in_origin = self.goroutine, None, False
        if one is None:
            return
        if self.step.line is None:
            one.doubt(f"{self.path}:{number}: the place of {self.step.function} is missing before this line")
        if not one.calls and not one.is_elsewhere:
            one.doubt(f"{one.at}: no frames follow this line")
        if len(one.calls) >= DEEP:
            one.is_whole = False
        if not one.is_in_one_piece():
            one.doubt(f"{one.at}: frames are missing below this line, since the others don't meet on the stack")
        if not one.has_root():
            one.doubt(f"{self.path}:{number}: its outermost frames are missing before this line")

    def begin(self, match: "re.Match[str]", number: int) -> None:
        """Begins the block of a goroutine."""
        self.close(number)
        name, at = match["id"], f"{self.path}:{number}"
        if name in self.seen:
            raise Refusal(f"{at}: goroutine {name} stands at {self.seen[name]} already: a file has one state")
        self.seen[name] = at
        state, minutes, is_locked, is_leaked = state_in(match["state"])
        self.goroutine = Goroutine(name, state, at, minutes, is_locked=is_locked, is_leaked=is_leaked)
        self.step = BEFORE
        self.dump.goroutines.append(self.goroutine)
        if state not in STATES:
            self.goroutine.doubt(f"{at}: this is no state that the runtime has")

    def add(self, one: Goroutine, line: str, number: int) -> None:
        """Adds a line of its block to a goroutine, but for a call, a place, or who created it."""
        if ELIDED.fullmatch(line):
            one.is_whole, one.is_elsewhere = False, line.startswith(ELSEWHERE)
        elif ORIGIN.fullmatch(line):
            self.is_in_origin = True
        else:
            self.fail(one, line, number)

    def set_place(self, one: Goroutine, place: Spot, line: str, number: int) -> None:
        """Sets the file and line of the last frame, or of the place where the goroutine was created."""
        if self.step.line is not None:
            self.fail(one, line, number)
            return
        self.step = frame_of(self.step.function, *place[:3])
        if one.created_by:
            one.creator = self.step
        else:
            one.calls[-1] = one.calls[-1]._replace(frame=self.step, ends=place[3])

    def fail(self, one: Goroutine, line: str, number: int) -> None:
        """Says that a line of a goroutine isn't understood, or not there."""
        self.warn(line, number)
        self.misread = one
        one.doubt(f"{self.path}:{number} isn't understood")

    def warn(self, line: str, number: int) -> None:
        self.odd += 1
        if self.odd <= SHOWN:
            self.dump.warnings.append(f"{self.path}:{number}: this line isn't understood: {shown(line.strip())[:200]}")
