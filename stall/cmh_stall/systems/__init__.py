"""The systems: a folder for each has all that is about it, and its row of NAMES makes it known.

`__init__` describes it (`SYSTEM`, of `descriptor`), `take` says how it is taken, and `parser` turns the raw state that
its own tools print into processes, with who may end the wait of each, and how. `base` says what a parser is. What that
doesn't understand is unknown, with a reason, and never goes on; a row, key, flag or value that is missing, doubled or
strange makes what it could have said unknown. What people should see goes to `warnings` of the sketch. A text that it
can't read is refused: Refusal, with the path, the line, and what was expected there. No text may make it raise anything
else, and it takes time linear in the length of the texts. It knows nothing of facts, and decides nothing: the core
does, for all systems alike.
"""
from __future__ import annotations

import importlib
from dataclasses import dataclass
from functools import lru_cache
from typing import TYPE_CHECKING, Any, List

from .descriptor import Descriptor

if TYPE_CHECKING:
    from .taking import Taker

# Each SYSTEM. A process that several know is of the one that stands first.
NAMES = (
    "rabbitmq",
    "erlang",
    "jvm",
    "postgres",
    "mariadb",
    "mpi",
    "python",
    "go",
    "linux",
)
KERNEL = NAMES[-1]  # the one that knows any process, and stops none
NO_SYSTEM = Descriptor()  # of a sketch by hand, or of several systems


@dataclass
class State:
    """A raw state: where it was read, and its text."""

    path: str
    text: str


@lru_cache(maxsize=None)
def described(name: str) -> Descriptor:
    """Returns what a system is. What is no name of one is described as none."""
    if name not in NAMES:
        return NO_SYSTEM
    made: Descriptor = importlib.import_module(f".{name}", __name__).SYSTEM
    return made


def all_described() -> List[Descriptor]:
    return list(map(described, NAMES))


def parser_of(name: str) -> Any:
    """Returns a new parser of a system, which stands in NAMES."""
    return getattr(importlib.import_module(f".{name}.parser", __name__), f"{name.capitalize()}Parser")()


@lru_cache(maxsize=None)
def taker_of(name: str) -> "Taker":
    """Returns how a system is taken, which stands in NAMES."""
    made: "Taker" = importlib.import_module(f".{name}.take", __name__).TAKER(described(name))
    return made
