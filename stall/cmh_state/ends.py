"""Whether what some frames may still come to names what cancels a task, sets a future, gives back a lock or ends a
process, and which functions the program has by a name.
"""
from __future__ import annotations

import collections
import sys
import types
import weakref

from .bytecode import ATTRIBUTES, all_names, is_in_loop, names_ahead, shared_names
from .frames import is_own
from .locks import inside, kept_in, taken_in
from .objects import PACKAGES, attributes_of, cells_in, coroutines_of, is_library, is_library_module, wrapped_in
from .pace import PACE
from .reach import MEANT, NEAR, FoundReach, called_later

TYPE_CHECKING = False
if TYPE_CHECKING:
    from typing import AbstractSet, Callable, Dict, FrozenSet, Iterable, Iterator, List, Set, Tuple
    from .objects import Attributes, Frame, Row, Stack, Thing
    from .locks import Taken
    from .reach import Owners
    # Names in code, and where they are looked up: in variables, as globals, and in what methods may find in `self`.
    Ways = List[Tuple[FrozenSet[str], Attributes, Attributes, Iterable[Tuple[Thing, Attributes]]]]

# Names by which a task or a future ends, or by which somebody else may begin the work that a pool keeps.
CANCELS = {"cancel", "all_tasks", "set_result", "set_exception", "shutdown", "_work_queue", "_threads_queues",
           "_max_workers"}
RELEASES = {"release", "_release_save"}
# Names of all that ends a wait at an object of the runtime, but for a cancel.
WAKES = {*CANCELS - {"cancel"}, *RELEASES, "set", "put", "put_nowait", "get", "get_nowait", "task_done", "notify",
         "notify_all", "notifyAll", "abort", "reset", "feed_data", "feed_eof", "resume_writing", "send", "throw"}
CANCELLING: Set[str] = set()  # as `find_cancelling` has found them for this state
FATAL = {"_exit", "abort", "kill", "killpg", "interrupt_main", "pthread_kill", "raise_signal",
         "execl", "execle", "execlp", "execlpe", "execv", "execve", "execvp", "execvpe"}
CODES = 50000  # functions that are looked at for names in one state; more count as having them
LEFT = {"codes": CODES}


def inside_thread(frames: Stack) -> Row:
    return blocks_of([(frame, taken_in(frame)) for frame, _ in frames], frames)


def inside_task(coroutine: Thing) -> Row:
    chain = coroutines_of(coroutine)
    frames = [getattr(part, "cr_frame", None) for part in chain]
    rows = [(frame, kept_in(part)) for part, frame in zip(chain, frames) if frame is not None]
    return blocks_of(rows, [(frame, frame.f_lineno) for frame, _ in rows])


def blocks_of(rows: List[Tuple[Frame, Taken]], frames: Stack) -> Row:
    """What the blocks of some frames have taken, what they likely have, and whether their code may give it back."""
    taken, around = inside(rows)
    return {"taken": taken, "around": around, "releases": may_release(frames)}


def reached(words: Set[str], frames: Stack, start_of: Callable[[Frame], int], called: Iterable[Thing] = (),
            methods: AbstractSet[str] = frozenset(), far: int = NEAR + 1) -> Iterator[str]:
    """Yields those of some names that the code of frames of the program from a step on has, or functions that this
    names, so many steps far, or that will be called. Yields too those of some methods that this code names."""
    ways: Ways = [(names_ahead(frame.f_code, start_of(frame)), dict(frame.f_locals), frame.f_globals, ())
                  for frame, _ in frames if is_own(frame)]
    own = [names_ahead(frame.f_code, start_of(frame), ATTRIBUTES) for frame, _ in frames if is_own(frame)]
    found = FoundReach()
    found.spread([*called, *called_later(frames)])
    seen: Set[types.FunctionType] = set()
    for _ in range(far):
        for way in ways:
            MEANT.add(found, *way)
        yield from words.intersection(found.names.union(*(way[0] for way in ways)))
        yield from methods & frozenset().union(*own)
        new = found.functions - seen
        seen |= new
        LEFT["codes"] -= len(new)
        if LEFT["codes"] < 0:
            yield from words
        if LEFT["codes"] < 0 or not new:
            return
        ways = [(names_ahead(function.__code__, 0), cells_in(function), function.__globals__,
                 objects_of(function, found.owners)) for function in new]
        own = [shared_names(function.__code__) for function in new]


def objects_of(function: types.FunctionType, owners: Owners) -> List[Tuple[Thing, Attributes]]:
    """The objects of which a function is a method, with their attributes."""
    return list(owners.get(function.__qualname__.rpartition(".")[0], {}).values())


def from_step(frame: Frame) -> int:
    return frame.f_lasti


def from_start(frame: Frame) -> int:
    """The first step that counts of what a frame may have done or may do: a module's code runs once alone."""
    return frame.f_lasti if frame.f_code.co_name == "<module>" else 0


def may_cancel(frames: Stack, called: Iterable[Thing] = ()) -> bool:
    """Whether these frames may still come to what ends the wait for a task or a future of others."""
    return any(reached(CANCELS, frames, from_step, [*called, *finalized()], CANCELLING))


def find_cancelling() -> None:
    """Keeps the names of the functions of the program that may come to what ends a task or a future, by the names in
    their code: whoever names one as an attribute may have an object of any class."""
    CANCELLING.clear()
    codes = {name: [function.__code__ for function in functions if type(function) is types.FunctionType
                    and not PACKAGES.search(function.__code__.co_filename)]
             for name, functions in functions_by_name().items() if not name.startswith("__")}
    shared = {name: frozenset().union(*map(shared_names, of_name)) for name, of_name in codes.items()}
    new = {name for name, of_name in codes.items() if any(not CANCELS.isdisjoint(all_names(code)) for code in of_name)}
    while new:
        CANCELLING.update(new)
        new = {name for name, names in shared.items() if name not in CANCELLING and not names.isdisjoint(CANCELLING)}


def finalized() -> List[Thing]:
    """What is called once an object goes, which any code may bring about."""
    finalizers = list(getattr(weakref.finalize, "_registry", {}).values())
    return [part for finalizer in finalizers for part in (finalizer.func, finalizer.args)]


def may_release(frames: Stack) -> bool:
    """Whether these frames may give back a lock, or have done so."""
    return any(reached(RELEASES, frames, from_start))


def may_end(frames: Stack) -> List[str]:
    """The calls that end a process, or a wait by a signal, to which these frames may come."""
    return sorted(set(reached(FATAL, frames, from_start)))


def comes_back(frames: Stack) -> bool:
    """Whether the program's code comes back to where some frames stand."""
    return any(is_in_loop(frame.f_code, frame.f_lasti) for frame, _ in frames if is_own(frame))


def functions_by_name() -> Dict[str, List[Thing]]:
    """The functions of all modules but the library's and this one, by the names that these and their classes have."""
    functions = collections.defaultdict(list)
    left = [row for name, module in list(sys.modules.items()) for row in list(attributes_of(module).items())
            if not is_library_module(name)]
    kinds = set()
    while left:
        PACE.give_way()
        name, value = left.pop()
        for part in (value, *wrapped_in(value)):
            if type(part) is types.FunctionType:
                functions[name].append(part)
        if issubclass(type(value), type) and id(value) not in kinds and not is_library(value):
            kinds.add(id(value))
            functions[value.__name__].append(value)
            left += list(value.__dict__.items())
    return functions
