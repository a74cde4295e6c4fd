"""From raw states or sketches to the sketch that a dump is made of: facts are applied here, once, for all."""
from __future__ import annotations

from typing import Dict, List, Sequence, Set, Tuple

from .application import apply
from .assumptions import assumptions_of
from .command import Read, read_any
from .facts import Facts
from .files import Refusal, read_text, shown
from .idle import leave_out
from .model import Sign, Strength
from .nearness import owners_of
from .sketch import Process, Sketch, has_how
from .sketch_json import read_sketch
from .snapshots import both
from ..systems import State, all_described, parser_of


def sketch_for(system: str, paths: Sequence[str], facts: Facts, read: Read = read_text) -> Sketch:
    """Returns the sketch of the states in some files, with the facts. `read` returns the text of a path."""
    what = "processes"
    if system == "sketch":
        sketch = read_sketch(read(paths[0]), paths[0])
    elif system == "both":
        first, second = map(read_any, paths)
        sketch = both(first, second)
        sketch.check()
    elif system == "join":
        from .join import join_sketches
        sketch, what = join_sketches([read_any(path, read) for path in paths], paths), "threads"
        sketch.check()
    else:
        sketch, what = record(system, [State(path, read(path)) for path in paths]), parser_of(system).IDLE
    return with_facts(sketch, facts, what)


def with_facts(sketch: Sketch, facts: Facts, what: str = "processes") -> Sketch:
    """Applies facts to a sketch, which has been checked, and leaves those out who have nothing to do. `what` is what
    these are called."""
    let_holders_work(sketch)
    apply(facts, sketch)
    leave_out(sketch, what)
    return sketch


def let_holders_work(sketch: Sketch) -> None:
    """Says of each one at rest that it is blocked, if it is wanted: whoever has something that another one wants is in
    the middle of work, wherever it waits. Who may have moved between the looks isn't in one wait."""
    resting = [process for process in sketch.processes if process.sign is Sign.RESTS]
    if not resting:
        return
    wanted = wanted_ones({process.name: process for process in sketch.processes if process.sign is Sign.BLOCKED})
    for process in resting:
        if process.name in wanted and is_one_wait(process):
            process.sign = Sign.BLOCKED


def is_one_wait(process: Process) -> bool:
    """Whether somebody is known who may end the wait of one, and nothing says that the looks may show two waits."""
    strengths = {wakers.strength for part in process.parts for wakers in part}
    return not strengths.isdisjoint((Strength.NAMED, Strength.ABLE)) and not has_how(process, "uncounted")


def wanted_ones(blocked: Dict[str, Process]) -> Set[str]:
    """Returns the names of those who have a lock that a blocked one waits for, and of whomever these wait for by
    name."""
    wanted = {name for process in blocked.values() for name in owners_of(process.parts)}
    todo = [blocked[name] for name in wanted if name in blocked]
    for process in todo:
        named = {name for part in process.parts for wakers in part if wakers.strength is Strength.NAMED
                 for name in wakers.names()} - wanted
        wanted |= named
        todo += [blocked[name] for name in named if name in blocked]
    return wanted


def record(system: str, states: List[State]) -> Sketch:
    """Returns the sketch that a parser makes, checked. A text that takes it by surprise is refused too."""
    try:
        sketch: Sketch = parser_of(system).record(states)
    except (ValueError, LookupError, TypeError, AttributeError, RecursionError) as error:
        where = ", ".join(shown(state.path) for state in states)
        raise Refusal(f"{where}: this isn't understood as a state of {system} ({type(error).__name__}: "
                      f"{shown(str(error))})") from error
    sketch.system = sketch.system or system
    sketch.check()
    return sketch


def known_premises() -> List[Tuple[str, str, str]]:
    """Returns the assumptions that a sketch may have: of each a system that may use it, its name, and its sentence."""
    return [(system.name, name, row.sentence) for system in all_described()
            for name, row in assumptions_of(system).items()]
