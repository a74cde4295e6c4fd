"""What is assumed: rules by which a wait is said, and that something could break. A reason names one as 'premise NAME'.
Those of one system stand in its descriptor. Where a state can show one broken, its parser says so (`Parser.BREAKS`)."""
from __future__ import annotations

from functools import lru_cache
from typing import Dict

from ..systems import all_described
from ..systems.descriptor import Assumption, Descriptor

# Those that any system may have, and those that several share, as these say.
COMMON: Dict[str, Assumption] = {
    "limit": Assumption("a wait with a limit ends, and the process then continues", "a limit of centuries"),
}
SHARED: Dict[str, Assumption] = {
    "inner": Assumption(
        "threads of a runtime, such as one that finalizes, end nobody's wait",
        "a finalizer or a hook of the program's own"),
    "session-limits": Assumption(
        "none but its client, a limit and an operator ends what a session does", "a driver that cancels queries"),
}


def assumptions_of(system: Descriptor) -> Dict[str, Assumption]:
    """Returns the assumptions that a sketch of a system may have, by their names."""
    return {**COMMON, **{name: SHARED[name] for name in system.shares.split()}, **system.assumptions}


@lru_cache(maxsize=None)
def known_assumptions() -> Dict[str, Assumption]:
    return {name: row for system in all_described() for name, row in assumptions_of(system).items()}


def sentence_of(name: str) -> str:
    known = known_assumptions()
    if name not in known:
        raise RuntimeError(f"no system has an assumption {name}")  # (a fault of the parser, and not of the state)
    return known[name].sentence
