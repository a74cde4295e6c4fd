"""Which call of no Python frame a frame stands in, read from its code."""
from __future__ import annotations

import contextlib
import dis
import types

from .bytecode import arguments_of, is_block, is_call, is_subscript, loads_in, names_of, start_of_call
from .objects import Method, item_of, step_into
from .pace import once_each
from .values import describe

TYPE_CHECKING = False
if TYPE_CHECKING:
    from typing import List, Optional, Tuple
    from .objects import Code, Frame, Row, Step, Steps, Thing
    Called = Tuple[List[str], Thing, Thing]  # the words of what is called, its object, and itself


def variable_of(frame: Frame, step: Step) -> Thing:
    name = step.argval
    if not isinstance(name, str):
        raise ValueError(name)
    if step.opname.startswith(("LOAD_FAST", "LOAD_DEREF", "LOAD_NAME", "LOAD_CLOSURE")) and name in frame.f_locals:
        return frame.f_locals[name]
    return frame.f_globals[name] if name in frame.f_globals else frame.f_builtins[name]


def called_at(frame: Frame, steps: Steps) -> Called:
    """The words of what some steps load, such as self.lock.acquire, with the object that it is an attribute of, and
    itself. If they do more than that, only the last word is known, behind a '?', or none."""
    words: List[str] = []
    value: Thing = None
    owner: Thing = None
    steps = loads_in(steps)
    for place, step in enumerate(steps):
        is_name = step.opname.startswith("LOAD_") and "ATTR" not in step.opname
        if not words and is_name:
            words, value = [str(step.argval)], variable_of(frame, step)
        elif words and step.opname in ("LOAD_ATTR", "LOAD_METHOD"):
            words.append(step.argval)
            owner, value = value, step_into(value, step.argval)
        elif words and is_name and is_subscript(steps[place + 1:place + 2]):
            is_constant = "CONST" in step.opname
            words[-1] += f"[{step.argval if type(step.argval) is int or not is_constant else '..'}]"
            owner, value = value, item_of(value, step.argval if is_constant else variable_of(frame, step))
        elif words and not any(is_call(later.opname) or is_subscript([later]) for later in steps[place:]):
            break  # (the condition of an argument)
        elif not words or not is_subscript([step]):
            return (["?", steps[-1].argval] if steps[-1].opname in ("LOAD_ATTR", "LOAD_METHOD") else []), None, Method
    return words, owner, value


@once_each
def steps_of(code: Code) -> Steps:
    return list(dis.get_instructions(code))


def place_of_call(frame: Frame) -> Tuple[Steps, Optional[int], Optional[int], Optional[Called]]:
    """The steps of a frame, and of the call that it is in: its place, that of its arguments, and what it calls. None if
    it is in no call, and without a place if its last step isn't known."""
    steps = steps_of(frame.f_code)
    here = next((place for place, step in enumerate(steps) if step.offset == frame.f_lasti), None)
    if here is None or not is_call(steps[here].opname):
        return steps, here, None, None
    here -= steps[here - 1].opname == "PRECALL"
    start, middle = start_of_call(steps, here)
    return steps, here, middle, called_at(frame, steps[start:middle]) if start is not None else ([], None, Method)


def call_of(frame: Frame) -> Optional[Row]:
    """The call of no Python frame that a frame is in, or None: its words, its object, its number of arguments."""
    steps, place, middle, called = place_of_call(frame)
    if place is None or called is None:
        return {"step": steps[place].opname} if place is not None else None
    words, owner, value = called
    if not words:
        return {"words": None}
    if is_block(steps[place]):
        return {"words": ".".join(words), "how": "with", "on": describe(value), "arguments": []}
    row = {"words": ".".join(words), "how": "call", "on": describe(owner), **function_names(value)}
    if steps[place].opname == "CALL_FUNCTION_EX":
        return {**row, **bound_of(value), "arguments": None}
    has_names = steps[place].opname.endswith("_KW") or any(step.opname == "KW_NAMES" for step in steps[middle:place])
    loads = steps[middle:place]
    names, loads = names_of(loads, frame.f_code.co_consts) if has_names else ([], loads)
    return {**row, "arguments": arguments_of(loads), **({"named": names} if names else {})}


def bound_of(value: Thing) -> Row:
    """The method that a value is, and the object that it is bound to."""
    if issubclass(type(value), types.BuiltinMethodType) and not isinstance(value.__self__, types.ModuleType):
        return {"words": f"{type(value.__self__).__name__}.{value.__name__}", "on": describe(value.__self__)}
    return {}


def function_names(value: Thing) -> Row:
    """The module and the name of a function that is called, such as time and sleep, whatever the job calls it."""
    if issubclass(type(value), (types.BuiltinFunctionType, types.FunctionType)):
        return {"module": value.__module__, "function": value.__name__}
    return {}


def first_in(frame: Frame, steps: Steps) -> Thing:
    """What the first name of some steps stands for, or a mark."""
    with contextlib.suppress(ValueError, KeyError, IndexError):
        return variable_of(frame, [step for step in steps if step.opname.startswith("LOAD_")][0])
    return Method
