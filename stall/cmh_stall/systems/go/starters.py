"""Who may start more goroutines like one of a state, so that a list of those of its pattern isn't whole."""
from __future__ import annotations

from collections import defaultdict
from functools import lru_cache
from typing import DefaultDict, Dict, List, Set, Tuple

from ...core.sketch import Process, unknown
from .frames import ACCEPTOR, CONNECTION, KEPT, OUTERMOST, GoPlace, functions_of, is_jobs, package_of
from .text import GoFrame, Goroutine

MAIN = "1"
UNSEEN = "unseen-starter"
STANDS_FOR = ("stands for what starts goroutines and isn't in a state: timers, as of time.AfterFunc or of a context "
              "with a limit, finalizers, and threads of C")
BY_ITSELF = frozenset(("context", "runtime", "time"))  # packages that start goroutines, while none of them waits to


class Starters:
    """Who stands in which function of a state, and who may call any function of the job (`callers`), but for those of
    whom it is known that they never go on. `outer` has of each function what called it there, or started a goroutine
    with it."""

    def __init__(self, goroutines: List[Goroutine], places: Dict[str, GoPlace], names: Dict[str, str],
                 over: Set[str]) -> None:
        self.standing: DefaultDict[str, List[str]] = defaultdict(list, {UNSEEN: [UNSEEN]})
        self.outer: DefaultDict[str, Dict[str, None]] = defaultdict(dict)
        self.kept: Dict[Tuple[str, bool], List[str]] = {}
        self.over = over
        for it in goroutines:
            for function in functions_of(it.frames):
                self.standing[function].append(names[it.number])
        for frames, origin in dict.fromkeys((goroutine.frames, origin_of(goroutine)) for goroutine in goroutines):
            functions = [frame.function for frame in frames if frame.function not in OUTERMOST]
            for function, outer in zip(functions, [*functions[1:], origin]):
                self.outer[function][outer] = None
        unseen = [UNSEEN] if any(map(is_unseen, goroutines)) else []
        self.callers = unseen + callers_of(goroutines, places, names, over)
        self.calling = {*self.callers}

    def of(self, goroutine: Goroutine) -> List[str]:
        """Returns who may start more like a goroutine: those in the function that started it, and those who may call
        that again, as others did. If nobody is in it, or it is of the standard library, any code of the job may call
        it. Those with one origin share the list."""
        key = origin_of(goroutine), is_jobs(goroutine.creator)
        if key not in self.kept:
            functions = dict.fromkeys([key[0]])
            todo = list(functions)
            for function in todo:  # (which grows meanwhile)
                new = [it for it in self.outer.get(function, ()) if it not in functions]
                functions.update(dict.fromkeys(new))
                todo += new
            found = dict.fromkeys(name for function in functions for name in self.standing.get(function, ())
                                  if name not in self.over)
            is_any = goroutine.created_by and not (key[1] and self.standing.get(key[0]))
            is_shared = is_any and self.calling.issuperset(found)
            self.kept[key] = self.callers if is_shared else list(dict.fromkeys([*found, *(
                self.callers if is_any else [])]))
        return self.kept[key]


def origin_of(goroutine: Goroutine) -> str:
    """Returns the function that started a goroutine, nothing for main, or who stands for what no state shows."""
    return UNSEEN if is_unseen(goroutine) else goroutine.created_by


def is_unseen(goroutine: Goroutine) -> bool:
    """Whether another one like it may be started at any time by none of the goroutines."""
    if not goroutine.created_by:
        return goroutine.number != MAIN
    return starts_unseen(goroutine.creator)


@lru_cache(maxsize=KEPT)
def starts_unseen(creator: GoFrame) -> bool:
    """Whether a function starts goroutines, while none of them waits to."""
    return package_of(creator.function) in BY_ITSELF and not is_jobs(creator)


def callers_of(goroutines: List[Goroutine], places: Dict[str, GoPlace], names: Dict[str, str],
               over: Set[str]) -> List[str]:
    """Returns who may call any function of the job: those that run code of it, and those at which a request may come
    that it answers. Of the former all are kept, as of many at one place one may go on. Of the latter two of a place are
    enough: all of them wait for what comes from outside, and one may be the very goroutine that waits."""
    callers: List[str] = []
    idle: DefaultDict[Tuple[str, ...], List[str]] = defaultdict(list)
    for it in goroutines:
        place, name = places[it.number], names[it.number]
        if name not in over and place.idle in ("", ACCEPTOR, CONNECTION):
            (idle[(it.state, *place.frames[:1])] if place.idle else callers).append(name)
    return [*callers, *(name for alike in idle.values() for name in alike[:2])]


def unseen_starter() -> Process:
    return unknown(UNSEEN, STANDS_FOR, frames=[UNSEEN])
