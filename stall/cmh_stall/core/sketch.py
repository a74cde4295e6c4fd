"""The wait-for graph of a stalled system, which people know as a sketch: who is there, what each one waits for, and
where in its source it stands.

A parser makes it of a system's raw state, and people may write one by hand.

Each wait, and each that runs, says on what it rests (`because`): the system keeps the list itself; an assumption, a
rule that something could break; a fact; or who wrote the sketch by hand says so. One without a reason is refused here,
so a parser can't invent it. """
from __future__ import annotations

import difflib
import itertools
import json
from collections import Counter
from dataclasses import dataclass, field
from typing import Any, Dict, Iterable, List, Optional, Sequence, Set, Tuple, TypedDict

from .files import Refusal, shown
from .model import COMES, HOWS, Anybody, Part, Sign, Strength, once

RUNS, ANY, ALL, UNKNOWN, ENDED = KINDS = ("runs", "waits_for_any", "waits_for_all", "unknown", "ended")
DONE, NEEDED = "done", "needed"
WORK = "waits for work"  # why an idle worker of a pool rests
TIMER = "waits for a timer"  # what one with a limit does that runs nothing of the job's meanwhile
OF_SERVER = "is a limit of the server"  # why what breaks off waits of a server goes on
COMPLETE = "?"  # in a line of facts: for people to complete
UNREADABLE = "unreadable"  # the frame of one that couldn't be read
REST = "left-out"  # the name and the frame of those that a state may lack, by which facts decide them
SYSTEM, BY_HAND, OLDER = "system", "by hand", "an older version"  # reasons, beside assumptions and facts
BARE = "dump"  # the system of a dump that was written by hand
FACT, PREMISE = "fact", "premise"  # before what a reason of these kinds is called
LIMIT = "limit"  # the assumption that a wait with a limit ends
INNER = "inner"  # the assumption that threads of a runtime, such as one that finalizes, end nobody's wait
MANY = 1_024  # names, or parts, in all waits; with more, a list or a wait that several share stands once
KEPT = 64  # waits of several parts of which it is kept what was found
GOING = (Sign.GOES_ON, Sign.TICKS, Sign.SLEEPS, Sign.POLLS)  # signs of those that go on by themselves
WAITING = (Sign.BLOCKED, Sign.RESTS)
KIND_OF = {Sign.ENDED: ENDED, Sign.UNKNOWN: UNKNOWN}  # of those that don't wait and don't go on


@dataclass
class Process:
    """One who runs and sends: a service, an actor, a rank, a thread, a task. No queue, channel or lock is one.

    `sign` is what the looks show of it, and `parts` its wait, of those that wait alone. Several processes may share a
    list of wakers, so none is changed. `reason` is in words why it goes on, rests, or isn't understood; of one that has
    ended DONE (it did all that others wait for) or NEEDED. `because` has the reasons for its sign and its wait: SYSTEM,
    an assumption, a fact, BY_HAND.

    `note` says what it does, at which line of source. `frames` are those of the job's own, topmost first, each as
    `frame` writes it; `operation` is the call that it waits in ('put', 'chan send', 'MPI_Recv'); `objects` what it
    waits at (a lock's address, the name of whom it called), and values for facts ('to=3', 'creator=main/1'); `count`
    what the system counts (reductions, context switches), as text. Two looks show the same wait if these four are the
    same. `spent` is what grows with each move, as processor time, and `stack` has the function, the file and the line
    of each frame, topmost first: looks that differ are judged by these. `thread` is the thread of the kernel that it is
    all the time, as PID/TID, or PID/ where its process alone is known. `remedy` is a command that ends it, of one that
    people end in another way than by a restart of its site, and `effect` is what its end does besides.

    `is_collective` says that its operation needs all of a group to come to it, and `meeting` at which one it is, or for
    which of several all have to come, where that may differ from others of that operation. `is_garbled` says that its
    text in a look isn't understood, so that no fact on its place decides it. """

    name: str
    sign: Sign
    parts: List[Part] = field(default_factory=list)
    reason: str = ""
    because: List[str] = field(default_factory=list)
    site: Optional[str] = None
    note: str = ""
    frames: List[str] = field(default_factory=list)
    operation: str = ""
    objects: List[str] = field(default_factory=list)
    count: Optional[str] = None
    thread: str = ""
    spent: Optional[str] = None
    stack: Sequence[Tuple[Any, ...]] = ()
    meeting: str = ""
    remedy: str = ""
    effect: str = ""
    is_collective: bool = False
    is_garbled: bool = False

    def copy(self, **changes: Any) -> Process:
        """Returns one that is the same but for some fields. `dataclasses.replace` takes ten times as long."""
        made = Process.__new__(Process)
        made.__dict__.update(self.__dict__, **changes)
        return made

    @property
    def kind(self) -> str:
        """Which of KINDS it is where all wakers count: UNKNOWN if somebody may end its wait who isn't seen."""
        return kind_of_wait(self.parts) if self.sign in WAITING else KIND_OF.get(self.sign, RUNS)

    @property
    def place(self) -> Tuple[List[str], str, List[str]]:
        """Where it stands, by which two looks are told apart."""
        return self.frames, self.operation, self.objects

    @property
    def entry(self) -> str:
        """The function of the job's own that it was started with, as far as its frames show that."""
        return self.frames[-1].partition(" (")[0] if self.frames else ""

    def is_for_all(self) -> bool:
        """Whether all of some have to come, or one who comes to an end does."""
        return len(self.parts) > 1 or COMES in [group.how for group in self.parts[0]]

    def is_open(self) -> bool:
        """Whether somebody may end a part of its wait who isn't in the state."""
        return any(map(is_open, self.parts))

    @property
    def whom(self) -> Sequence[str]:
        """The names of those that it waits for, by all parts of its wait, but for those who are against. One list of
        wakers is itself, so that those who share it have the same."""
        return whom_of(self.parts)

    def against(self) -> List[str]:
        """The names of those that may end its wait in another way."""
        return list(dict.fromkeys(name for part in self.parts for group in part for name in group.names()
                                  if group.strength is Strength.AGAINST))

    def become_unknown(self, reason: str) -> None:
        """Takes back what was said of its wait, or of why it goes on."""
        self.sign, self.parts, self.reason, self.because = Sign.UNKNOWN, [], reason, []

    def wait_for(self, parts: List[Part], because: Iterable[str]) -> None:
        """Sets who may end its wait, with the reasons for that."""
        self.sign = self.sign if self.sign in WAITING else Sign.BLOCKED
        self.parts, self.reason = parts, ""
        self.because = list(dict.fromkeys([*self.because, *because]))

    def become(self, sign: Sign, reason: str, because: Iterable[str]) -> None:
        """Sets a sign of one that doesn't wait, with the reasons for it."""
        self.sign, self.parts, self.reason = sign, [], reason
        self.because = list(dict.fromkeys([*self.because, *because]))

    def why_unknown(self) -> str:
        """Returns why it isn't known who ends its wait: the reason, or how somebody may who isn't in the state."""
        hows = dict.fromkeys(group.how for part in self.parts for group in part if isinstance(group.who, Anybody))
        return self.reason or "; ".join(f"somebody {HOWS[how][1]}" for how in hows)

    def is_there(self) -> bool:
        """Whether it is one of the system that has something to do."""
        return self.sign not in (Sign.RESTS, Sign.ENDED) and self.frames != [REST]


def whom_of(parts: Sequence[Part]) -> Sequence[str]:
    """Returns the names of those that a wait is for."""
    lists = [group.names() for part in parts for group in part if group.strength is not Strength.AGAINST]
    lists = [names for names in lists if names]
    return lists[0] if len(lists) == 1 else list(dict.fromkeys(name for names in lists for name in names))


def kind_of_wait(parts: Sequence[Part]) -> str:
    """Returns which of KINDS a wait is: UNKNOWN if somebody may end it who isn't seen."""
    if len(parts) != 1:
        return UNKNOWN if are_open(parts) else ALL
    kind = ANY
    for group in parts[0]:
        if isinstance(group.who, Anybody):
            return UNKNOWN
        if group.how == COMES:
            kind = ALL
    return kind


def is_open(part: Part) -> bool:
    """Whether anybody may end a part of a wait who isn't in the state."""
    for group in part:  # (a loop takes half as long as `any`, and each process is asked often)
        if isinstance(group.who, Anybody):
            return True
    return False


are_open = once(lambda parts: all(map(is_open, parts)), KEPT)  # whether all parts of a wait are
hows_of = once(lambda parts: {group.how for part in parts for group in part}, KEPT)


def has_how(process: Process, how: str) -> bool:
    """Whether somebody may end the wait of a process in a way."""
    return how in hows_of(process.parts)


def premise(name: str) -> str:
    """Returns the reason that an assumption is, by its name in the table of all (`assumptions`)."""
    return f"{PREMISE} {name}"


def goes_on(name: str, why: str, because: Iterable[str], sign: Sign = Sign.GOES_ON, **more: Any) -> Process:
    """One that goes on by itself: it computes, or a limit ends its wait. `why` is a few words, or nothing."""
    return Process(name, sign, reason=why, because=list(because), **more)


def blocked(name: str, parts: List[Part], because: Iterable[str], **more: Any) -> Process:
    """One that waits without a limit, where no one stands who has nothing to do."""
    return Process(name, Sign.BLOCKED, parts, because=list(because), **more)


def rests(name: str, why: str, parts: List[Part], because: Iterable[str], **more: Any) -> Process:
    """One that waits where one stands who has nothing to do. `why` is a few words: 'waits for work'."""
    return Process(name, Sign.RESTS, parts, reason=why, because=list(because), **more)


def unknown(name: str, reason: str, **more: Any) -> Process:
    """One of which isn't understood what it waits at."""
    return Process(name, Sign.UNKNOWN, reason=reason, **more)


def garbled(name: str, reason: str, **more: Any) -> Process:
    """One whose text in the state isn't understood: unknown, whatever another state or a fact says of it."""
    return Process(name, Sign.UNKNOWN, reason=reason, is_garbled=True, **more)


def frame(function: str, file: str | None = "", line: int | str | None = None) -> str:
    """Returns the text of a frame: 'FUNCTION (FILE:LINE)', or the function alone."""
    return f"{function} ({file}:{line})" if file and line is not None else function


class FactRow(TypedDict, total=False):
    """What a sketch has of a line of facts: where it stands, and the names that each of its words took."""

    at: str
    text: str
    took: Dict[str, List[str]]


def reason_of(row: FactRow) -> str:
    """Returns the reason that a line of facts is."""
    return f"{FACT} {row['at']}"


@dataclass
class Sketch:
    """The processes in their order, and the messages that are in transit, each as (sender, receiver).

    `system` names the parser, `as_of` says of which moment it is if that needs a word, and `warnings` are lines for
    people about what wasn't understood. `premises` has a sentence for each premise that a reason names, `facts` a row
    for each line of facts that was used, and `readings` is how often the system was read. `groups` has the names that
    a word of facts stands for, as 'monitored:pool'. `machine` says on which machine and in which container the numbers
    of its threads stand, `times` when each reading began and ended, in seconds of its clock, `idle` has the threads of
    idle ones that are left out, `readers` those that end nobody's wait, as they print a state or collect garbage, and
    `inner` those of a runtime of which the premise INNER says it. `connections` has by the key of a connection to a
    server which session serves it ('serves'), who has its client's end ('has'), who waits there ('awaits'), and of a
    broker's who is likely to send what comes there ('gives').
    `begun_by` has by the site of a process of the machine that of the one that has begun it, if that was read as one of
    the job too.
    """

    processes: List[Process]
    in_transit: List[Tuple[str, str]] = field(default_factory=list)
    system: str = ""
    as_of: str = ""
    warnings: List[str] = field(default_factory=list)
    premises: Dict[str, str] = field(default_factory=dict)
    facts: List[FactRow] = field(default_factory=list)
    readings: int = 1
    groups: Dict[str, List[str]] = field(default_factory=dict)
    machine: str = ""
    times: List[List[float]] = field(default_factory=list)
    idle: List[str] = field(default_factory=list)
    readers: List[str] = field(default_factory=list)
    inner: List[str] = field(default_factory=list)
    connections: Dict[str, Dict[str, List[str]]] = field(default_factory=dict)
    begun_by: Dict[str, str] = field(default_factory=dict)

    def check(self) -> None:
        """Raises Refusal if a name stands twice or names nobody, or a reason is missing or is none."""
        names = {process.name for process in self.processes}
        if len(names) < len(self.processes):
            (twice, _), = Counter(process.name for process in self.processes).most_common(1)
            raise Refusal(f"two processes are called {quote(twice)}")
        is_whole = names.issuperset(itertools.chain.from_iterable(lists_of_wakers(self.processes)))
        sound: Set[str] = set()
        for process in self.processes:
            if not is_whole:
                check_wakers(process, names)
            if not process.because and process.kind != UNKNOWN:
                raise Refusal(f"process {quote(process.name)}: '{process.kind}' has no reason ('because')")
            if not sound.issuperset(process.because):
                check_reasons(process, self.premises)
                sound.update(process.because)
        for number, pair in enumerate(self.in_transit):
            for name in pair:
                if name not in names:
                    more = near_name(name, names)
                    raise Refusal(f"'in_transit', entry {number + 1}: nobody is called {quote(name)}{more}")


def lists_of_wakers(processes: Iterable[Process]) -> Iterable[Sequence[str]]:
    """Returns each list of wakers once."""
    waits = [process.parts for process in processes]
    return {id(group.who): group.who for parts in dict(zip(map(id, waits), waits)).values() for part in parts
            for group in part if not isinstance(group.who, Anybody)}.values()


def shared_waits(waits: Sequence[Sequence[Part]]) -> Dict[int, Sequence[Part]]:
    """Returns, by their ids, the waits for all that several have, if all together are long."""
    several = [parts for parts in waits if len(parts) > 1]
    if not several or sum(map(len, waits)) <= MANY:
        return {}
    counts = Counter(map(id, several))
    return {id(parts): parts for parts in several if counts[id(parts)] > 1}


def shared_lists(processes: Sequence[Process]) -> Dict[int, Sequence[str]]:
    """Returns, by their ids, the lists of wakers that several waits share, if all lists together are long."""
    all_waits = [process.parts for process in processes]
    users, waits = Counter(map(id, all_waits)), dict(zip(map(id, all_waits), all_waits))
    lists = [(users[key], group.who) for key, parts in waits.items() for part in parts for group in part
             if not isinstance(group.who, Anybody)]
    several = [(number, names) for number, names in lists if len(names) > 1]
    if not several or sum(number * len(names) for number, names in lists) <= MANY:
        return {}
    counts: Counter[int] = Counter()
    for number, names in several:
        counts[id(names)] += number
    return {id(names): names for _, names in several if counts[id(names)] > 1}


def quote(text: str) -> str:
    """Returns a text between quotes, at most the beginning of it."""
    return f"'{shown(text[:100])}{'..' if text[100:] else ''}'"


def near_name(name: str, names: Iterable[str]) -> str:
    """Returns the question for a name that is near, or nothing. To compare takes time, so it isn't done with all of
    very many names, nor with long ones."""
    short = [short_name for short_name in itertools.islice(names, 10000) if len(short_name) <= 100]
    near = difflib.get_close_matches(name, short, 1, 0.6) if len(name) <= 100 else []
    return f"; is {quote(near[0])} meant?" if near else ""


class RepeatedKey(ValueError):
    """An object of JSON has a key twice: which of its values holds isn't known."""


def once_each(pairs: List[Tuple[str, Any]]) -> Dict[str, Any]:
    """Returns an object of JSON. Raises RepeatedKey if it has a key twice."""
    row = dict(pairs)
    if len(row) < len(pairs):
        (key, _), = Counter(key for key, _ in pairs).most_common(1)
        raise RepeatedKey(f"an object has the key {quote(key)} twice")
    return row


def read_json(text: str, where: str) -> Any:
    """Returns the tree of a JSON text. Raises Refusal if it is none, or writes a key of an object twice."""
    try:
        return json.loads(text, object_pairs_hook=once_each)
    except RepeatedKey as error:
        raise Refusal(f"{shown(where)}: {error}") from None
    except RecursionError as error:
        raise Refusal(f"{shown(where)}: it is nested too deep") from error
    except json.JSONDecodeError as error:
        raise Refusal(f"{shown(where)}:{error.lineno}:{error.colno}: it is no JSON: {error.msg}") from error
    except ValueError as error:
        raise Refusal(f"{shown(where)}: it is no JSON: a number has too many digits") from error


def check_wakers(process: Process, names: Set[str]) -> None:
    """Raises Refusal if one of those that may end a wait is nobody."""
    for lost in (name for part in process.parts for group in part for name in group.names() if name not in names):
        raise Refusal(f"process {quote(process.name)}: '{process.kind}' names {quote(lost)}, and no process has that "
                      f"name{near_name(lost, names)}")


def check_reasons(process: Process, premises: Dict[str, str]) -> None:
    for reason in process.because:
        word, _, rest = reason.partition(" ")
        is_named = word == PREMISE and rest in premises or word == FACT and rest
        if not is_named and reason not in (SYSTEM, BY_HAND, OLDER):
            raise Refusal(f"process {quote(process.name)}: {quote(reason)} is no reason, or a premise without words")
