"""What a system is: the words by which the commands, the answers and the documents speak of it, as plain data."""
from __future__ import annotations

from dataclasses import dataclass, field
from typing import Dict, Tuple

PROCESS = "process"  # what one is called, if its system has no other word


@dataclass(frozen=True)
class Option:
    """An option of cmh-stall that is of one system: its name, how it is used with a target, and what it does. `value`
    is what stands behind it, if it isn't a word alone. One that `is_alone` takes nothing but one target."""

    name: str
    usage: str
    does: str
    value: str = ""
    is_alone: bool = False


@dataclass(frozen=True)
class Assumption:
    """What a wait rests on: `sentence` says it to the reader of an answer, and `broken_by` to the reader of this what
    would break it."""

    sentence: str
    broken_by: str


@dataclass(frozen=True)
class Units:
    """What is restarted of a system, for a process: its site, if nothing else is said here. `whole` is what all of it
    is called if nothing less can be restarted, with what it `has`. Each process by itself if it `is_alone`, as a site
    is a machine that others share. What is called a `node` is known by the beginning of names, up to a slash, and the
    site, and `again` says who begins a process of it again that is ended. Sites that are `is_numbered` end with the
    number of a process."""

    whole: str = ""
    has: str = "what it has begun"
    is_alone: bool = False
    is_numbered: bool = False
    node: str = ""
    again: str = ""


@dataclass(frozen=True)
class Descriptor:
    """A system. `called` is what people call it, and `short` that in a table. `target` stands behind its name on a
    command line, in [] if it needn't, and `manual` has the rows of the man page on it. `states` says what cmh-dump
    reads, `by` what is taken and how, `shows` what a state shows, and `lacks` what a look needs: each in few words, for
    help and documents. `stops` is what the system feels of a look, and `needs` has the commands that this takes, each
    with Debian's package. A recipe that `is_once` prints one state, so that it is run for each look. A look that
    `is_counted` counts whatever one has done since the first, so that two show as much as more do. To one that `serves`
    clients are connected, who are joined with it by that.

    `noun` is what one of its processes is, if it isn't called a thread as it is one and `is_threaded`, and `sites` what
    it is instead by the beginning of its site. `units` are what is restarted. `operations` are the system's own words
    of those at which they wait: all others are of the user's program. `joins` are those that wait for the end of
    others, and `bare_joins` those that don't say of whom; `for_others` matches those at which one waits for what others
    of the program do. `assumptions` are those of its waits alone, and it `shares` others."""

    name: str = ""
    called: str = ""
    target: str = ""
    manual: str = ""
    states: str = ""
    by: str = ""
    shows: str = ""
    lacks: str = ""
    stops: str = ""
    needs: Dict[str, str] = field(default_factory=dict)
    short: str = ""
    is_once: bool = False
    is_counted: bool = False
    serves: bool = False
    options: Tuple[Option, ...] = ()
    noun: str = PROCESS
    is_threaded: bool = False
    sites: Dict[str, str] = field(default_factory=dict)
    units: Units = Units()
    operations: str = ""
    joins: Tuple[str, ...] = ()
    bare_joins: Tuple[str, ...] = ()
    for_others: str = ""
    assumptions: Dict[str, Assumption] = field(default_factory=dict)
    shares: str = ""

    def is_named(self) -> bool:
        """Whether it needs a target."""
        return not self.target.startswith("[")

    def noun_of(self, has_thread: bool, is_inside: bool) -> str:
        """Returns what one of its processes is, by whether it is a thread of the kernel, and by its name inside of a
        process."""
        is_thread = has_thread and (self.is_threaded or is_inside and self.noun == PROCESS)
        return "thread" if is_thread else self.noun
