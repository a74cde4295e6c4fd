"""The places of processes, and the patterns by which facts name them: `*` stands for any text, `?` for one character,
`[0-3]` for one of these digits, and `{NAME}` for a text that the rest of the line may use. Each text is like itself."""
from __future__ import annotations

import functools
import re
from dataclasses import dataclass, field
from typing import Dict, Iterable, List, Optional, Pattern, Set, Tuple

from .sketch import Process

QUALIFIER = re.compile(r"[^\s.]\S*\.(?=\w+$)")  # of 'FutureTask.get' and 'timed LinkedBlockingQueue.poll'
VARIABLE = re.compile(r"{([A-Za-z_]\w*)}")
SPECIAL = re.compile(r"(\*|\?|\[\d(?:-?\d)*\]|{[A-Za-z_]\w*})")
FRAME = re.compile(r"^(?P<function>.*) \((?P<file>.*):(?P<line>\d+)\)$", re.S)
Values = Dict[str, str]  # of variables, by their names


@dataclass
class Place:
    """What stands before the arrow of a line of facts: patterns of frames, topmost first, of the names of processes, if
    it has some, and of the operation, or nothing."""

    frames: List[str]
    names: List[str] = field(default_factory=list)
    operation: str = ""

    def values(self, process: Process, anywhere: bool = False) -> Optional[Values]:
        """Returns the values of its variables if a process stands here, with its topmost frame or anywhere."""
        frames = process.frames or [""]
        starts = range(len(frames)) if anywhere else (0,)
        return together(
            first(values_of_frames(self.frames, frames, start) for start in starts),
            first(values_of(name, process.name) for name in self.names) if self.names else {},
            first(values_of(self.operation, operation) for operation in operations(process)) if self.operation else {})


def first(matches: Iterable[Optional[Values]]) -> Optional[Values]:
    return next((match for match in matches if match is not None), None)


def together(*matches: Optional[Values]) -> Optional[Values]:
    """Returns the values of all parts, or None if a part doesn't match, or two have another value for one variable."""
    values_of_all: Values = {}
    for values in matches:
        if values is None or any(values_of_all.get(name, value) != value for name, value in values.items()):
            return None
        values_of_all.update(values)
    return values_of_all


@functools.lru_cache(maxsize=None)
def pattern_of(pattern: str) -> Pattern[str]:
    names: Set[str] = set()
    return re.compile("".join(expression_of(part, names) for part in SPECIAL.split(pattern)), re.S)


def expression_of(part: str, names: Set[str]) -> str:
    """Returns the regular expression of a part of a pattern. `names` has the variables that stand further left."""
    if part in ("*", "?"):
        return ".*" if part == "*" else "."
    variable = VARIABLE.fullmatch(part)
    if variable:
        is_new = variable[1] not in names
        names.add(variable[1])
        return f"(?P<{variable[1]}>.*)" if is_new else f"(?P={variable[1]})"
    is_digit = SPECIAL.fullmatch(part) and all(low <= high for low, high in re.findall(r"(\d)-(\d)", part))
    return f"(?:{part}|{re.escape(part)})" if is_digit else re.escape(part)


@functools.lru_cache(maxsize=65536)
def values_of(pattern: str, text: str) -> Optional[Values]:
    """Returns the values of the variables of a pattern if a text is like it, or None."""
    match = pattern_of(pattern).fullmatch(text)
    return match.groupdict() if match else {} if text == pattern else None


def is_like(pattern: str, text: str) -> bool:
    return values_of(pattern, text) is not None


@functools.lru_cache(maxsize=65536)
def values_of_frame(pattern: str, text: str) -> Optional[Values]:
    """Returns the values if a frame matches: its function, with its line, its file and line, or the whole."""
    match = FRAME.match(text)
    texts = [text]
    if match:
        function, file, line = match.group("function", "file", "line")
        texts += [function, f"{function}:{line}", f"{file}:{line}", f"{file.split('/')[-1]}:{line}"]
    return first(values_of(pattern, form) for form in texts)


def values_of_frames(patterns: List[str], frames: List[str], start: int) -> Optional[Values]:
    """Returns the values if the frame at `start` matches the first pattern, and frames further out the others in turn.
    """
    values = values_of_frame(patterns[0], frames[start])
    place = start + 1
    for pattern in patterns[1:]:
        while place < len(frames) and values_of_frame(pattern, frames[place]) is None:
            place += 1
        values = together(values, values_of_frame(pattern, frames[place])) if place < len(frames) else None
        place += 1
    return values


def operations(process: Process) -> List[str]:
    """Returns what OPERATION is matched with: 'FutureTask.get', 'get', and both with each object."""
    names = dict.fromkeys([process.operation, QUALIFIER.sub("", process.operation)])
    return [*names, *(f"{name} {thing}" for name in names for thing in process.objects), *requests_of(process)]


def requests_of(process: Process) -> List[str]:
    """Returns the operation with its request, as 'GenServer.call flush', if the note has both in front of the frame."""
    limit = "timed " if process.operation.startswith("timed ") else ""
    call, _, where = process.note.rpartition(" in ")
    is_known = bool(process.operation) and process.frames[:1] == [where]
    return [f"{limit}{call}"] if is_known and call.startswith(f"{process.operation[len(limit):]} ") else []


# Keys of a broker


@functools.lru_cache(maxsize=65536)
def may_meet(first_key: Tuple[str, ...], other: Tuple[str, ...]) -> bool:
    """Whether one key may be of both patterns, given as their words: `*` stands for a word, `#` for any number."""
    if not first_key or not other:
        return set(first_key or other) <= {"#"}
    if first_key[0] == "#":
        return may_meet(first_key[1:], other) or may_meet(first_key, other[1:])
    if other[0] == "#":
        return may_meet(other, first_key)
    return (first_key[0] == other[0] or "*" in (first_key[0], other[0])) and may_meet(first_key[1:], other[1:])
