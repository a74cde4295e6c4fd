"""What the code of some frames can reach by its names, within lists, attributes and functions."""
from __future__ import annotations

import contextlib
import functools
import itertools
import threading
import types

from .frames import is_own
from .handles import ends_more, handles_of
from .objects import (CALLED, HEAP_TYPE, ROWS, attributes_of, callback_name, cells_in, classes_of, futures_in, is_a,
                      is_foreign, is_library_module, items_in, kinds_of, word_of)
from .pace import KNOWN, PACE, once_each

TYPE_CHECKING = False
if TYPE_CHECKING:
    from typing import Dict, FrozenSet, Iterable, List, Optional, Set, Tuple
    from .objects import Attributes, Code, Frame, Stack, Thing
    # The attributes of objects, by the names of their classes, each with the object or class that has them.
    Owners = Dict[str, Dict[int, Tuple[Thing, Attributes]]]
    Kept = Dict[Tuple[int, int], Tuple[Thing, Dict[str, None]]]

WIDE, MORE = 200000, 200  # values that are looked at for tasks and children in all, and more for each stack
CROWD, FEW = 5000, 20  # values within one another, and objects of a class, that are looked at for functions
NEAR = 3  # steps from a name to a task, future or child that it is taken to reach
MOST = 50  # of these that are printed for one thread or task
PLAIN = (int, str, bytes, float, bool, type(None))  # classes of values that hold no others


class Holders:
    """Looks for the tasks, futures and children that the code of some frames can reach by its names, also within lists,
    attributes and functions: who has one may cancel or kill it. It stops where there are too many. What several rows
    reach is looked at once more, and then kept."""

    def __init__(self) -> None:
        self.left = WIDE
        self.kept: Kept = {}

    def held(self, frames: Stack) -> Optional[List[str]]:
        """Those that these frames can reach, or None if they are too many, or that took too long."""
        reached: Dict[str, None] = {}
        seen: Dict[int, int] = {}
        self.left += MORE if self.left > 0 else 0
        for frame, _ in frames:
            for value in named_in(frame):
                self.look(value, NEAR, reached, seen)
        return list(reached) if self.left > 0 and len(reached) <= MOST else None

    def look(self, value: Thing, depth: int, reached: Dict[str, None], seen: Dict[int, int]) -> None:
        if type(value) in PLAIN:
            return
        self.left -= 1
        word = word_of(type(value))
        if word == "pool":
            reached.update(dict.fromkeys(futures_in(value._work_queue)))  # (its shutdown may cancel them)
        elif word:
            reached[hex(id(value))] = None
        elif depth > seen.get(id(value), 0) and self.left > 0 and len(reached) <= MOST:
            seen[id(value)] = depth
            if PACE.is_shared(value):
                reached.update(self.look_once(value, depth))
            else:
                self.look_inside(value, depth, reached, seen)

    def look_inside(self, value: Thing, depth: int, reached: Dict[str, None], seen: Dict[int, int]) -> None:
        for part in insides(value):
            self.look(part, depth - 1, reached, seen)

    def look_once(self, value: Thing, depth: int) -> Dict[str, None]:
        key = id(value), depth
        if key not in self.kept:
            reached: Dict[str, None] = {}
            self.look_inside(value, depth, reached, {})
            self.kept[key] = value, reached
        return self.kept[key][1]


def named_in(frame: Frame) -> List[Thing]:
    """What the code of a frame has names for: variables, their methods, globals. Of the library's own, what a thread
    will call."""
    if not is_own(frame):
        return called_by(frame)
    variables = list(frame.f_locals.values())
    kinds = {kind for value in variables for kind in classes_of(type(value))}
    methods = [kind.__dict__[name] for kind in kinds for name in frame.f_code.co_names if name in kind.__dict__]
    return [*variables, *globals_of(frame.f_code, frame.f_globals), *methods]


def called_by(frame: Frame) -> List[Thing]:
    """What a frame of the library will call: the work of a thread, of a pool, the callbacks of a loop."""
    own, work = frame.f_locals.get("self"), frame.f_locals.get("work_queue")
    if issubclass(type(own), threading.Thread):
        return [vars(own)]
    if frame.f_code.co_name == "run_forever":
        handles = [each for each in [*handles_of(own), *list(getattr(own, "_ready", ()))]
                   if callback_name(getattr(each, "_callback", None))
                   or ends_more(getattr(getattr(each, "_callback", None), "__self__", None))]
        return [part for each in handles for part in (each._callback, each._args)]
    items = [*items_in(work), *([own] if is_a(own, "concurrent.futures.thread", "_WorkItem") else [])]
    return [part for each in items for part in (each.fn, each.args, each.kwargs, each.future)]


def globals_of(code: Code, names: Attributes) -> List[Thing]:
    """The globals that a code names, and what it may name as variables of other modules of the program."""
    values = [names[name] for name in code.co_names if name in names]
    others = [vars(module) for module in values
              if type(module) is types.ModuleType and not is_library_module(module.__name__)]
    return values + [inner[name] for inner in others for name in code.co_names if name in inner]


def insides(value: Thing) -> List[Thing]:
    """What a list or the like has, what a function sees, or the attributes of an object of the program."""
    if type(value) in ROWS:
        return list(value)
    if issubclass(type(value), dict):
        return list(dict.values(value))
    if type(value) is types.FunctionType:
        return inside_function(value)
    if type(value) in (types.MethodType, types.BuiltinMethodType):
        return [value.__self__, getattr(value, "__func__", None)]
    if type(value) is functools.partial:
        return [value.func, *value.args, *value.keywords.values()]
    for kind, name in ((types.GeneratorType, "gi_frame"), (types.CoroutineType, "cr_frame")):
        if type(value) is kind:
            return named_in(getattr(value, name)) if getattr(value, name) is not None else []
    return [] if isinstance(value, types.ModuleType) else attributes_in(value)


def inside_function(value: types.FunctionType) -> List[Thing]:
    """The values that a function sees: of those around it, of its arguments, and globals."""
    return [*(value.__defaults__ or ()), *cells_in(value).values(),
            *(globals_of(value.__code__, value.__globals__) if is_foreign(value) else ())]


def attributes_in(value: object) -> List[Thing]:
    """The attributes of an object or class, also those in slots, and the lists and the like of its class."""
    if isinstance(value, type):
        return lists_and_slots(value)[0]
    lists, slots = lists_and_slots(type(value))
    values = list(lists)
    with contextlib.suppress(AttributeError, TypeError):
        values += attributes_of(value).values()
    for slot in slots:
        with contextlib.suppress(AttributeError):  # (that isn't set)
            values.append(slot.__get__(value))
    return values


@once_each
def lists_and_slots(kind: type) -> Tuple[List[Thing], List[Thing]]:
    """The lists and the like of a class and of those that it derives from, and what has the slots of its objects."""
    parts = [part for each in classes_of(kind) if each is not object for part in list(each.__dict__.values())]
    return ([part for part in parts if type(part) in (list, dict, set, tuple)],
            [part for part in parts if type(part) is types.MemberDescriptorType])


def called_later(frames: Stack) -> List[Thing]:
    """What frames of the library will call, but for the work of a thread that has begun it."""
    values = []
    for place, (frame, _) in enumerate(frames):
        is_thread = issubclass(type(frame.f_locals.get("self")), threading.Thread)
        has_begun = frame.f_code.co_name != "run" or any(is_own(inner) for inner, _ in frames[:place])
        if not is_own(frame) and not (is_thread and has_begun):
            values += called_by(frame)
    return values


def spread(values: Iterable[Thing]) -> List[Thing]:
    """Values, and what those have that are lists or the like, also within one another, as far as these are no more than
    can be looked at."""
    reached = last = list(values)
    seen: Set[int] = set()
    for _ in range(NEAR):
        wide = {id(value): value for value in last if holds_others(value) and id(value) not in seen}
        seen.update(wide)
        last = list(itertools.islice((part for value in wide.values() for part in insides(value)), CROWD))
        reached = reached + last
    return reached


def holds_others(value: object) -> bool:
    return type(value) in (*ROWS, functools.partial, types.MethodType) or issubclass(type(value), dict)


class FoundReach:
    """What is known of values that code has names for: the names of the functions among them, those of these that are
    the program's, and the attributes of objects, and of their classes, that methods may find in `self`: by the names of
    these classes, a few of each."""

    def __init__(self, values: Iterable[Thing] = ()) -> None:
        self.names: Set[str] = set()
        self.functions: Set[types.FunctionType] = set()
        self.owners: Owners = {}
        for value in values:
            self.add(value)

    def spread(self, values: Iterable[Thing]) -> None:
        """Adds what is known of values, and of those within them."""
        for value in values:
            if holds_others(value):
                self.join(MEANT.inside(value))
            else:
                self.add(value)

    def add(self, value: Thing) -> None:
        kind = type(value)
        if kind in CALLED:
            self.names.add(value.__name__)
            if kind is types.FunctionType and is_foreign(value):
                self.functions.add(value)
            return
        here = attributes_of(value) if kind is not types.ModuleType and kind is not type else {}
        for name, rows in class_rows(kind) if here or kind.__flags__ & HEAP_TYPE else ():
            owners = self.owners.setdefault(name, {})
            if len(owners) < FEW:
                owners[id(value)] = value, here
                owners.update(rows)

    def join(self, other: FoundReach) -> None:
        """Adds what is known of others."""
        self.names |= other.names
        self.functions |= other.functions
        for name, rows in other.owners.items():
            owners = self.owners.setdefault(name, {})
            if len(owners) < FEW:
                owners.update(rows)


@once_each
def class_rows(kind: type) -> List[Tuple[str, Dict[int, Tuple[Thing, Attributes]]]]:
    """The names of a class and of those that it derives from, each with the attributes of all of these."""
    kinds = classes_of(kind)[:-1]
    rows: Dict[int, Tuple[Thing, Attributes]] = {id(each): (each, each.__dict__) for each in kinds}
    return [(each.__qualname__, rows) for each in kinds]


class Meant:
    """What names in code stand for. What they stand for in a module, or in what a module has, is looked up once, as is
    what several rows reach."""

    def __init__(self) -> None:
        self.named: Dict[Tuple[FrozenSet[str], int], FoundReach] = {}
        self.insides: Dict[int, Tuple[Thing, FoundReach]] = {}
        self.lasting: Dict[int, Thing] = {}  # (kept, so that no other one gets its place)
        KNOWN.extend((self.named, self.insides, self.lasting))

    def add(self, found: FoundReach, names: FrozenSet[str], near: Attributes, module: Attributes,
            owners: Iterable[Tuple[Thing, Attributes]]) -> None:
        """Adds what is known of what names stand for: in near variables, as globals, and in what some owners have."""
        self.lasting[id(module)] = module
        found.spread(named_by(names, near, True))
        for owner, place in ((module, module), *owners):
            if id(owner) in self.lasting:
                found.join(self.once(names, owner, place))
            else:
                found.spread(named_by(names, place))

    def once(self, names: FrozenSet[str], owner: Thing, place: Attributes) -> FoundReach:
        key = names, id(owner)
        if key not in self.named:
            made = FoundReach()
            made.spread(named_by(names, place))
            self.named[key] = self.keep(made)
        return self.named[key]

    def inside(self, value: Thing) -> FoundReach:
        """What is known of a value that holds others, and of these."""
        if id(value) in self.insides:
            return self.insides[id(value)][1]
        made = FoundReach(spread([value]))
        if PACE.is_shared(value):
            self.insides[id(value)] = value, self.keep(made)
        return made

    def keep(self, made: FoundReach) -> FoundReach:
        self.lasting.update({at: row[0] for rows in made.owners.values() for at, row in rows.items()})
        return made


MEANT = Meant()


def named_by(names: FrozenSet[str], place: Attributes, is_near: bool = False) -> List[Thing]:
    """What names stand for: in variables, as attributes and methods of these, and of what they stand for there. In a
    near place, where these variables are, also as methods of all of them."""
    meant = [place[name] for name in names & place.keys()]
    meant += [inner[name] for inner in map(attributes_of, meant) for name in names & inner.keys()]
    kinds = kinds_of([*meant, *(list(place.values()) if is_near else ())])
    return meant + [kind[name] for kind in kinds for name in names if name in kind]
