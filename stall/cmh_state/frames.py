"""Rows of frames, stacks of threads, and chains of awaits."""
from __future__ import annotations

import os

from .objects import DEEP, classes_of, coroutines_of, is_looked_into, letters_of
from .values import describe

TYPE_CHECKING = False
if TYPE_CHECKING:
    from typing import List, Optional
    from .objects import Code, Frame, Row, Stack, Thing

# The names of what a frame of the library waits for, and for how long.
LOCALS = ("self", "timeout", "fs", "fut", "future", "return_when", "work_queue", "executor_reference")


def class_of(code: Code, value: object) -> Optional[str]:
    """The class that a method's code stands in, by its first argument."""
    kind = value if isinstance(value, type) else type(value)
    for class_ in classes_of(kind):
        function = class_.__dict__.get(code.co_name)
        function = getattr(function, "__func__", function)
        if getattr(function, "__code__", None) is code:
            return class_.__name__
    return None


def function_of(frame: Frame) -> str:
    """The function's name with its class."""
    code = frame.f_code
    if hasattr(code, "co_qualname"):
        return str(code.co_qualname).replace(".<locals>", "")
    first = code.co_varnames[:1] if code.co_argcount else ()
    kind = class_of(code, frame.f_locals.get(first[0])) if first and first[0] in ("self", "cls") else None
    return f"{kind}.{code.co_name}" if kind else code.co_name


def module_name(frame: Frame) -> str:
    """The module's name, and of the main program that of its file."""
    name = frame.f_globals.get("__name__")
    if name in ("__main__", "__mp_main__") or not isinstance(name, str):
        return os.path.splitext(os.path.basename(frame.f_code.co_filename))[0]
    return name


def frame_row(frame: Frame, line: int) -> Row:
    row: Row = {"in": f"{module_name(frame)}.{function_of(frame)}", "file": frame.f_code.co_filename, "line": line}
    if not is_own(frame):
        here = frame.f_locals
        row["has"] = {name: describe(here[name]) for name in LOCALS if name in here}
        if callable(here.get("executor_reference")):
            pool = here["executor_reference"]()
            row["has"]["executor_reference"] = [len(getattr(pool, "_threads", ())), getattr(pool, "_max_workers", None)]
    return row


def frames_from(frame: Optional[Frame]) -> List[Frame]:
    """The frames from the innermost on. What stands outside of the first one of a child that was forked is its
    parent's, such as an event loop: nobody comes back to it."""
    frames: List[Frame] = []
    while frame is not None and len(frames) < DEEP:
        frames.append(frame)
        frame = frame.f_back if not is_first_of_child(frame) else None
    return frames


def stack_of(frame: Optional[Frame]) -> Stack:
    """The frames from the innermost on, each with its line."""
    return [(each, each.f_lineno) for each in frames_from(frame)]


def is_first_of_child(frame: Frame) -> bool:
    return frame.f_code.co_name == "_bootstrap" and frame.f_globals.get("__name__") == "multiprocessing.process"


def chain_of(coroutine: Thing) -> Stack:
    """The frames of a chain of awaits from the innermost on."""
    frames = [getattr(part, f"{letters_of(part)}_frame") for part in coroutines_of(coroutine)]
    return [(frame, frame.f_lineno) for frame in frames if frame is not None]


def is_own(frame: Frame) -> bool:
    return not is_looked_into(frame.f_globals.get("__name__") or "")
