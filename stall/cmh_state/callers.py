"""What an event loop will call that the program has put there, by name, and whether that may cancel a task, or end
another wait."""
from __future__ import annotations

import types

from .ends import CANCELLING, CANCELS, CODES, WAKES, from_step, reached
from .handles import factory_of, foreign_name, handles_by_kind, protocol_of, readers_of, timers_of
from .objects import CALLED, functions_of, is_a, is_library_module, is_looked_into, plain_name, unwrapped
from .reach import NEAR, attributes_in, inside_function, spread

TYPE_CHECKING = False
if TYPE_CHECKING:
    from typing import AbstractSet, Dict, List, Optional, Set
    from .objects import Thing


def called_for(handle: Thing) -> List[Thing]:
    """What a loop calls for a handle, with the class of a protocol, and what the library's own functions have around
    them."""
    values = [handle._callback, *(handle._args or ())]
    kinds = [type(getattr(getattr(value, "__self__", None), "_protocol", None)) for value in values]
    inner = [part for value in values if type(value) is types.FunctionType for part in inside_function(value)]
    return [*values, *kinds, *inner]


def callers_of(loop: Thing) -> Dict[str, bool]:
    """What a loop will call that the program has put there, by its name, with whether that may cancel a task."""
    callers: Dict[str, bool] = {}
    for kind, handle in handles_by_kind(loop):
        name = caller_name(kind, handle)
        if name is not None:
            callers[name] = callers.get(name, False) or may_call(CANCELS, name, handle, CANCELLING)
    return callers


def waking_timers(loop: Thing) -> List[str]:
    """The names of those timers that may end a wait at an object of the runtime, by what their code names."""
    names = [(caller_name("timer", handle), handle) for handle in timers_of(loop)]
    return sorted({name for name, handle in names if name is not None and may_call(WAKES, name, handle)})


def arriving_in(loop: Thing) -> List[str]:
    """The futures that the protocols of connections have: what comes there ends them."""
    protocols = [protocol_of(handle) for handle in readers_of(loop)]
    values = spread([part for protocol in protocols for part in attributes_in(protocol)])
    return sorted({hex(id(value)) for value in values if is_a(value, "asyncio.futures", "Future")})


def caller_name(kind: str, handle: Thing) -> Optional[str]:
    """The name of what a loop calls for a timer, a socket or a signal, as 'server Desk.answer', or None for what
    asyncio has put there."""
    callback, factory, protocol = handle._callback, factory_of(handle), protocol_of(handle)
    if factory is not None:
        return f"server {name_of_factory(factory)}"
    if kind and (foreign_name(callback, kind == "timer") or kind == "signal"):
        return f"{kind} {plain_name(callback)}"
    is_own = protocol is not None and not is_looked_into(type(protocol).__module__)
    return f"connection {plain_name(type(protocol))}" if kind == "reader" and is_own else None


def may_call(words: Set[str], name: str, handle: Thing, methods: AbstractSet[str] = frozenset()) -> bool:
    """Whether the code of what a loop calls names one of some words or methods. What is no plain function is taken to.
    """
    by_kind = {"server": accepted_by(handle), "connection": functions_of([type(protocol_of(handle))])}
    called = by_kind.get(name.partition(" ")[0], called_for(handle))
    names = reached(words, [], from_step, called, methods, CODES if words is WAKES else NEAR + 1)
    return type(unwrapped(handle._callback)) not in CALLED or any(names)


def name_of_factory(factory: Thing) -> str:
    """The name of what a server calls for each new connection: of the function that a stream is for, or of the class of
    its protocol."""
    is_nameless = plain_name(factory).endswith("<lambda>") or is_library_module(str(factory.__module__))
    inner = inside_function(factory) if is_nameless and type(factory) is types.FunctionType else []
    inner = [value for value in inner if type(value) in CALLED or isinstance(value, type)]
    return plain_name(inner[0] if inner else factory)


def accepted_by(handle: Thing) -> List[Thing]:
    """What a loop may call for a new connection, if a handle accepts some: functions of what makes its protocol."""
    factory = factory_of(handle)
    inner = inside_function(factory) if type(factory) is types.FunctionType else []
    values = spread([factory, *inner])
    return functions_of([*values, *map(type, values)]) if factory is not None else []


def accepted_in(loop: Thing) -> List[Thing]:
    """The same of all handles of a loop."""
    handles = readers_of(loop) if hasattr(loop, "_selector") else []
    return [function for handle in handles for function in accepted_by(handle)]
