"""How an object of the program is looked at without running code of the program for it."""
from __future__ import annotations

import collections
import contextlib
import functools
import gc
import os
import queue
import re
import sys
import threading
import types

from .pace import once_each

TYPE_CHECKING = False
if TYPE_CHECKING:
    import dis
    from typing import Any, Callable, Dict, Iterable, List, Mapping, Tuple
    # An object of the program, or of a library in the version that the program has. Nothing is known of its class.
    Thing = Any
    Json = Any  # what a state has of a value
    Row = Dict[str, Json]
    Attributes = Mapping[str, Thing]
    Frame = types.FrameType
    Code = types.CodeType
    Step = dis.Instruction
    Steps = List[Step]
    Stack = List[Tuple[Frame, int]]  # the frames from the innermost on, each with its line

# Modules whose frames are looked into.
LIBRARIES = re.compile(r"(threading|queue|concurrent\.futures|multiprocessing|subprocess|selectors|socket|ssl|asyncio"
                       r"|logging|importlib\._bootstrap|_frozen_importlib)($|\.)")
CALLED = (types.FunctionType, types.BuiltinFunctionType, types.MethodType)
ROWS = (list, tuple, set, frozenset, collections.deque)
PACKAGES = re.compile(r"[/\\](site|dist)-packages[/\\]")
DEEP = 2000  # frames of a stack at most
WORDS = {"work": [("asyncio.tasks", "Task"), ("asyncio.futures", "Future"), ("concurrent.futures._base", "Future")],
         "child": [("multiprocessing.process", "BaseProcess"), ("subprocess", "Popen")],
         "pool": [("concurrent.futures.thread", "ThreadPoolExecutor")]}
HEAP_TYPE = 1 << 9  # the flag of a class that code has made
MRO = vars(type)["__mro__"]  # what has the classes of a class without code of its own metaclass


class Method:
    """Stands for a value that isn't looked up, since code might run for it."""


def classes_of(kind: type) -> Tuple[type, ...]:
    """A class, and those that it derives from."""
    classes: Tuple[type, ...] = MRO.__get__(kind)
    return classes


@once_each
def known_classes(_: type) -> Dict[Tuple[str, str], bool]:
    """Which classes of modules a class derives from, as far as that has been asked."""
    return {}


def is_a(value: object, module: str, name: str) -> bool:
    """Whether a value is of a class of a module, if that module is loaded. No code of the job is run for it."""
    known, key = known_classes(type(value)), (module, name)
    if key not in known:
        known[key] = is_kind(type(value), module, name)
    return known[key]


def is_kind(kind: type, module: str, name: str) -> bool:
    wanted = getattr(sys.modules.get(module), name, None)
    return isinstance(wanted, type) and issubclass(kind, wanted)


def is_semaphore(value: object) -> bool:
    return is_a(value, "asyncio.locks", "Semaphore") or is_a(value, "threading", "Semaphore")


def cells_of(callback: Thing, function: str) -> Dict[str, Thing]:
    """What a closure of this name sees, by name."""
    code = getattr(callback, "__code__", None)
    if code is None or getattr(callback, "__qualname__", "") != function or not callback.__closure__:
        return {}
    return dict(zip(code.co_freevars, [cell.cell_contents for cell in callback.__closure__]))


def callbacks_of(future: Thing) -> List[Thing]:
    """What a future of asyncio, or a task, will call once it is done."""
    return [callback for callback, _ in getattr(future, "_callbacks", None) or ()]


def items_in(work: Thing) -> List[Thing]:
    """The work that lies in the queue of a pool."""
    inside = gc.get_referents(work) if type(work) is queue.SimpleQueue else []
    items = [item for part in inside for item in (part if type(part) is list else [part])]
    return [item for item in items if is_a(item, "concurrent.futures.thread", "_WorkItem")]


def futures_in(work: Thing) -> List[str]:
    """The futures whose work lies in the queue of a pool."""
    return [hex(id(item.future)) for item in items_in(work)]


def attribute_of(value: object, name: str) -> Thing:
    """An attribute, if no code of the job has to run for it; else ValueError."""
    if isinstance(value, types.ModuleType):
        return vars(value)[name]
    kinds = classes_of(type(value))
    of_kind = next((kind.__dict__[name] for kind in kinds if name in kind.__dict__), Method)
    if type(of_kind) is types.MemberDescriptorType:
        return of_kind.__get__(value, type(value))
    own = attributes_of(value)
    if name in own and not hasattr(type(of_kind), "__set__"):
        return own[name]
    return of_class(value, name, of_kind)


def of_class(value: object, name: str, of_kind: Thing) -> Thing:
    """What a class has for all its objects by a name, if that is a value and no way to one. `of_kind` is what the
    class of the value has."""
    rows = [kind.__dict__ for kind in classes_of(value)] if isinstance(value, type) else []
    is_shadowed = hasattr(type(of_kind), "__set__")
    of_kind = next((row[name] for row in rows if name in row), of_kind)
    is_plain = type(value).__getattribute__ in (object.__getattribute__, type.__getattribute__)
    if of_kind is Method or is_shadowed or not is_plain or hasattr(type(of_kind), "__get__"):
        raise ValueError(name)
    return of_kind


def item_of(value: Thing, key: object) -> Thing:
    """What stands in a list or a table under a key, if no code of the job has to run for it, or a mark."""
    is_there = type(value) is dict and type(key) in (str, int) or type(value) in (list, tuple) and type(key) is int
    with contextlib.suppress(LookupError):
        return value[key] if is_there else Method
    return Method


def step_into(value: object, name: str) -> Thing:
    """The attribute, or a mark for a method, which is the end of a chain."""
    try:
        return attribute_of(value, name)
    except (AttributeError, KeyError, ValueError):
        return Method


def functions_of(values: Iterable[Thing]) -> List[Thing]:
    """The functions among values, and those of the classes among them."""
    kinds = {kind for value in values if issubclass(type(value), type)
             for kind in classes_of(value)}
    inner = [part for kind in kinds for part in list(kind.__dict__.values())]
    return [part.__func__ if type(part) in (staticmethod, classmethod) else part for part in [*values, *inner]]


def letters_of(coroutine: object) -> str:
    """How the attributes of a coroutine, a generator or an asynchronous generator begin, or nothing of others."""
    return letters_in(type(coroutine))


@once_each
def letters_in(kind: type) -> str:
    kinds = classes_of(kind)
    names = {name for kind in kinds for name in ("cr_frame", "gi_frame", "ag_frame") if name in kind.__dict__}
    return min(names)[:2] if names else ""


def coroutines_of(coroutine: Thing) -> List[Thing]:
    """A chain of awaits from the innermost on."""
    chain: List[Thing] = []
    while coroutine is not None and len(chain) < DEEP:
        letters = letters_of(coroutine)
        if not letters:
            break
        chain.append(coroutine)
        coroutine = getattr(coroutine, "gi_yieldfrom" if letters == "gi" else f"{letters}_await", None)
    return chain[::-1]


def is_work(value: object) -> bool:
    return word_of(type(value)) == "work"


def is_child(value: object) -> bool:
    return word_of(type(value)) == "child"


@once_each
def word_of(kind: type) -> str:
    """What the objects of a class are, of what somebody waits for or ends: work, children, pools of threads."""
    return next((word for word, names in WORDS.items() if any(is_kind(kind, *name) for name in names)), "")


def kinds_of(values: Iterable[Thing]) -> List[Attributes]:
    """The names of the classes of values, and of those that are classes."""
    kinds = {type(value) for value in values} | {value for value in values if issubclass(type(value), type)}
    return [class_.__dict__ for class_ in {class_ for kind in kinds for class_ in classes_of(kind)}]


def attributes_of(value: object) -> Attributes:
    """The attributes of a module or an object, if no code of the job has to run for it. What threads have each for
    themselves would be made anew for this one."""
    if issubclass(type(value), threading.local):
        return {}
    try:
        attributes: Attributes = object.__getattribute__(value, "__dict__")
    except (AttributeError, TypeError):
        return {}
    return attributes


def is_foreign(function: Thing) -> bool:
    return not is_looked_into(function.__module__ or "")


@functools.lru_cache(maxsize=20000)
def is_looked_into(module: str) -> bool:
    """Whether the frames of a module are looked into."""
    return LIBRARIES.match(module) is not None


def cells_in(function: types.FunctionType) -> Dict[str, Thing]:
    """What a function sees of those around it, by name."""
    values = {}
    for name, cell in zip(function.__code__.co_freevars, function.__closure__ or ()):
        with contextlib.suppress(ValueError):  # (that is empty)
            values[name] = cell.cell_contents
    return values


@functools.lru_cache(maxsize=20000)
def is_standard(path: str) -> bool:
    """Whether a file is of Python's library, or of the interpreter itself."""
    return path.startswith(("<frozen", os.path.dirname(os.__file__) + os.sep)) and not PACKAGES.search(path)


def is_library(kind: type) -> bool:
    """Whether a class is of Python's library. One that code without a module makes calls itself one of builtins."""
    is_made = kind.__module__ == "builtins" and kind.__flags__ & HEAP_TYPE
    return not is_made and is_library_module(kind.__module__)


def is_library_module(name: str) -> bool:
    """Whether a module is of Python's library, or this one, or what this one asks. One that isn't known isn't."""
    module = sys.modules.get(name)
    path = attributes_of(module).get("__file__")
    if module is None:
        return name.split(".")[0] in getattr(sys, "stdlib_module_names", ())
    if path is None:
        spec = attributes_of(module).get("__spec__")
        return name in sys.builtin_module_names or name.startswith("typing.") or getattr(spec, "origin", "") == "frozen"
    return name != "__main__" and (is_standard(str(path)) or name.split(".")[0] == "cmh_state")


def wrapped_in(value: Thing) -> List[Thing]:
    """The functions in what stands for one in a class or a module."""
    if type(value) is property:
        return [value.fget, value.fset, value.fdel]
    if type(value) in (staticmethod, classmethod, types.MethodType):
        return [value.__func__]
    inner = attributes_of(value).get("__wrapped__", attributes_of(value).get("func"))
    return [value.func] if type(value) is functools.partial else [inner]


def guarded(function: Callable[..., Thing], *arguments: Thing) -> Thing:
    """What a function answers, or the name of its error: an object that is odd costs its row alone."""
    try:
        return function(*arguments)
    except Exception as error:  # whatever an object of the job raises while it is looked at
        return {"error": type(error).__name__}


def plain_name(function: Thing) -> str:
    """The name of a function without its module."""
    function = unwrapped(function)
    name = getattr(function, "__qualname__", None)
    return name.replace(".<locals>", "") if isinstance(name, str) else type(function).__name__


def unwrapped(function: Thing) -> Thing:
    while isinstance(function, functools.partial):
        function = function.func
    return function


def callback_name(callback: Thing) -> str:
    """The name of a function of the program, or nothing for one of asyncio itself, whose purpose a state shows."""
    callback = unwrapped(callback)
    on = getattr(callback, "__self__", None)
    if callback is None or is_a(on, "asyncio.futures", "Future") or is_a(on, "asyncio.tasks", "Task"):
        return ""
    module = str(getattr(callback, "__module__", None) or type(on).__module__)
    if module.startswith(("asyncio.", "async_timeout")) and not module.startswith(("asyncio.locks", "asyncio.queues")):
        return ""
    return f"{module}.{getattr(callback, '__qualname__', type(callback).__name__)}".replace(".<locals>", "")
