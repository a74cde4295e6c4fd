"""Which locks a frame has taken by `with`, and not given back. Of a frame that runs its code says so, where the name
that it had for a lock still stands for it; one that is suspended has the lock's method for the end of the block.
"""
from __future__ import annotations

import gc
import sys
import types

from .bytecode import blocks_at, stored_in
from .calls import called_at, first_in
from .frames import is_own
from .objects import CALLED, Method, functions_of, is_a, is_library_module, is_semaphore
from .pace import once_each
from .values import LOCK

TYPE_CHECKING = False
if TYPE_CHECKING:
    from typing import FrozenSet, Iterable, List, Tuple
    from .objects import Attributes, Frame, Steps, Thing
    Taken = List[Tuple[Thing, bool]]


def stored_by(functions: Iterable[Thing]) -> FrozenSet[str]:
    """The names by which some functions but `__init__` store another one's variable or an attribute."""
    return frozenset().union(*(stored_in(function.__code__, -1, True) for function in functions
                               if type(function) is types.FunctionType and function.__name__ != "__init__"))


@once_each
def stored_by_module(names: Attributes) -> FrozenSet[str]:
    """The same of the functions of a module that has these names, and of its classes."""
    others = [other for other in list(names.values())
              if issubclass(type(other), (type, types.FunctionType)) and other.__module__ == names.get("__name__")]
    return stored_by(other for other in functions_of(others)
                     if not is_library_module(str(getattr(other, "__module__", ""))))


@once_each
def stored_by_class(kind: type) -> FrozenSet[str]:
    return stored_by(functions_of([kind]))


def taken_in(frame: Frame) -> Taken:
    """What a frame that runs has taken by `with`, from the innermost block on, as far as its code names it, and whether
    the name still stands for that. None stands for a block that takes nothing, and the mark for a method for one that
    may give back what others have."""
    return [taken_by(frame, *block) for block in blocks_at(frame.f_code, frame.f_lasti)]


def taken_by(frame: Frame, steps: Steps, stored: FrozenSet[str]) -> Tuple[Thing, bool]:
    value, owner = called_at(frame, steps)[:0:-1] if steps else (Method, None)
    if value is Method or not is_lock(lock_in(value)):
        return None if is_harmless(first_in(frame, steps) if value is Method else value) else Method, True
    loads = [step for step in steps if step.opname.startswith("LOAD_") and type(step.argval) is str]
    names = {step.argval for step in loads}
    shared = {step.argval for step in loads if not step.opname.startswith("LOAD_FAST")}
    others = stored_by_module(frame.f_globals) | stored_by_class(type(owner)) if is_own(frame) else frozenset()
    return value, names.isdisjoint(stored) and shared.isdisjoint(others)


def is_harmless(value: Thing) -> bool:
    """Whether a block of this, or of what it makes, gives back no lock that others have: if it is of the library, but
    for what runs functions of the program."""
    kind = value if issubclass(type(value), (type, *CALLED)) else type(value)
    name = value.__name__ if type(value) is types.ModuleType else str(kind.__module__)
    known = ("_thread", "_io", "io", "builtins", *getattr(sys, "stdlib_module_names", ()))
    return value is not Method and name.split(".")[0] in known and not name.startswith(("contextlib", "__main__"))


def kept_in(coroutine: Thing) -> Taken:
    """What a coroutine that is suspended has taken by `with` or `async with`, once for each block, behind a mark if it
    is in a block that may give back what others have."""
    frame = getattr(coroutine, "cr_frame", None)
    inside = gc.get_referents(coroutine if sys.version_info >= (3, 11) else frame) if frame is not None else []
    owners = [method.__self__ for method in inside
              if type(method) is types.MethodType and method.__func__.__name__ in ("__aexit__", "__exit__")
              or type(method) is types.BuiltinMethodType and method.__name__ == "__exit__"]
    marks = [Method] * any(not is_lock(lock_in(owner)) and not is_harmless(owner) for owner in owners)
    return [(value, True) for value in marks + owners]


def lock_in(value: Thing) -> Thing:
    """The lock that a block takes by an object: of a condition its own."""
    is_condition = is_a(value, "threading", "Condition") or is_a(value, "asyncio.locks", "Condition")
    return value._lock if is_condition else value


def is_lock(value: Thing) -> bool:
    return type(value) is LOCK or is_a(value, "asyncio.locks", "Lock") or is_semaphore(value)


def given_back(frame: Frame) -> Thing:
    """The lock that a frame of the library has given back for a while, as a wait for a condition does, or that it is
    about to take for a block around it; else None."""
    module, name = frame.f_globals.get("__name__"), frame.f_code.co_name
    if (module, name) in (("threading", "wait"), ("asyncio.locks", "wait"), ("asyncio.locks", "__aenter__")):
        return lock_in(frame.f_locals.get("self"))
    return None


def inside(rows: List[Tuple[Frame, Taken]]) -> Tuple[List[str], List[str]]:
    """The ids of the locks that are taken in a stack, of which each row has a frame and what that has taken, and of
    those that likely are: around a mark, or by a name that may stand for another one by now. Those that an inner frame
    has given back, or is about to take, don't count."""
    back: List[Thing] = []
    ids: Tuple[List[str], List[str]] = [], []
    is_around = False
    for frame, values in rows:
        for value, is_same in ((lock_in(value), is_same) for value, is_same in values):
            is_around = is_around or value is Method
            given = next((place for place, lock in enumerate(back) if lock is value), None)
            if given is not None:
                del back[given]
            elif is_lock(value) and hex(id(value)) not in ids[0] + ids[1]:
                ids[is_around or not is_same].append(hex(id(value)))
        back += [value for value in [given_back(frame)] if value is not None]
    return ids
