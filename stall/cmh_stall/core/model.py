"""The model of a wait: who may end it and how, and which sign of life each process gives. Parsers fill it in, facts
change it, and `rule` alone decides by it.

A wait is a list of parts. It goes on once each part has had one of its wakers, so it is stuck if in one part all are.
It has one part where any one waker is enough, and one for each that is still needed where all are. A part without
wakers is one that nobody can end.
"""
from __future__ import annotations

from enum import Enum
from typing import Callable, Dict, Iterable, List, NamedTuple, Optional, Sequence, Tuple, TypeVar, Union


class Sign(Enum):
    """What the looks at a process show of it. One that waits for a lock, a permit, a join, an answer, or for room in a
    full queue never rests: it is blocked."""

    GOES_ON = "goes on"  # between the looks it computed, used processor time, or moved to another place
    TICKS = "ticks"  # with a limit, in the loop of its own thread or task, and a count says that it has come back to it
    SLEEPS = "sleeps"  # with a limit, and no count says so
    POLLS = "polls"  # with a limit, below a call that it is in, and a count says that it has come back to it
    RESTS = "rests"  # without a limit, where one stands who has nothing to do
    BLOCKED = "is blocked"  # without a limit, elsewhere
    UNKNOWN = "is unknown"  # what it waits at isn't understood
    ENDED = "has ended"

    __hash__ = object.__hash__  # (that of an Enum is no C, and each waker is looked up by these)


class Strength(Enum):
    """How much a waker says about a wait."""

    NAMED = "named"  # the system names it as the one whose act is needed
    ABLE = "able"  # it can reach what is waited at
    AGAINST = "against"  # it may end the wait in another way, as the state shows
    UNSEEN = "unseen"  # it isn't in the state; so the rule takes whoever is named and isn't there

    __hash__ = object.__hash__


class Anybody:
    """Who may be anybody, in the place of a list of names."""

    def __repr__(self) -> str:
        return "ANYBODY"


ANYBODY = Anybody()
COMES = "comes"  # how one of all ends its part: also by an end that is done, which is no message
Who = Union[Sequence[str], Anybody]

# Each word for how a waker may end a wait, with the strength that it has and what it says to the reader of an answer,
# behind the name of the waker.
HOWS: Dict[str, Tuple[Strength, str]] = {
    "owns": (Strength.NAMED, "has what it waits for"),
    "called": (Strength.NAMED, "was called, and has to answer"),
    "other-end": (Strength.NAMED, "has the other end"),
    "ends": (Strength.NAMED, "has to end first"),
    "partner": (Strength.NAMED, "is the partner of its call"),
    "accepts": (Strength.NAMED, "has to accept its connection"),
    "comes": (Strength.NAMED, "hasn't come to where all have to"),
    "ahead": (Strength.NAMED, "waits for it too, and comes first"),
    "listed": (Strength.ABLE, "is one of those whom the system lists"),
    "reaches": (Strength.ABLE, "can reach what it waits at"),
    "same-process": (Strength.ABLE, "is in the process that alone can end the wait"),
    "inside": (Strength.ABLE, "stands inside of what it waits at"),
    "subscribes": (Strength.ABLE, "may send what it waits for"),
    "guess": (Strength.ABLE, "is likely to be the one, by the form of the state"),
    "cancels": (Strength.AGAINST, "may cancel a wait"),
    "kills": (Strength.AGAINST, "may kill one that waits"),
    "closes": (Strength.AGAINST, "may close what one waits at"),
    "releases": (Strength.AGAINST, "may give back what another one has"),
    "handles": (Strength.AGAINST, "handles a signal, and may end the wait there"),
    "finalizes": (Strength.AGAINST, "finalizes objects, and may end the wait there"),
    "repeats": (Strength.AGAINST, "is a timer that is repeated, and may end the wait"),
    "breaks": (Strength.AGAINST, "looks for waits in a circle, and breaks one off"),
    "expires": (Strength.AGAINST, "is a limit of the server's, and breaks the wait off"),
    "own-limit": (Strength.AGAINST, "stands for limits that sessions set for themselves, which no view shows"),
    "limit": (Strength.AGAINST, "is a limit far away that ends the wait"),
    "returns": (Strength.AGAINST, "may give back a message that it has"),
    "begins": (Strength.ABLE, "may begin to send what it waits for"),
    "starts": (Strength.AGAINST, "may start one more who ends the wait"),
    "unshown": (Strength.UNSEEN, "may end the wait: the state doesn't show who does"),
    "unread": (Strength.UNSEEN, "couldn't be read"),
    "left-out": (Strength.UNSEEN, "isn't in the state"),
    "by-name": (Strength.UNSEEN, "may open it by its name"),
    "client": (Strength.UNSEEN, "is its client, and isn't in the state"),
    "peer": (Strength.UNSEEN, "has the other end of its connection, and isn't in the state"),
    "outside": (Strength.UNSEEN, "is outside of what was read"),
    "to-come": (Strength.UNSEEN, "may still come"),
    "uncounted": (Strength.UNSEEN, "may have ended the wait between the looks: nothing counts that"),
    "said": (Strength.ABLE, "ends the wait by the facts"),
    "written": (Strength.ABLE, "stands in the sketch"),
}


class Wakers(NamedTuple):
    """Those who may end a part of a wait in one way. `who` may be shared by many waits, so it isn't changed. `because`
    has the reasons: the system, an assumption, a line of facts. `what` is what one has to hold or publish for it, if a
    fact may say who does, as the key of a queue: in a key `*` stands for a word, and `#` for any number of words."""

    who: Who
    strength: Strength
    how: str
    because: Tuple[str, ...] = ()
    what: str = ""

    def names(self) -> Sequence[str]:
        """Returns those who are known by name, in the state or not."""
        return () if isinstance(self.who, Anybody) else self.who

    def without(self, gone: Iterable[str]) -> Wakers:
        """Returns the others of them, and the same list where nobody of it is gone. Anybody stays anybody."""
        left_out = set(gone)
        if isinstance(self.who, Anybody) or left_out.isdisjoint(self.who):
            return self
        return self.of([name for name in self.who if name not in left_out])

    def of(self, names: Sequence[str]) -> Wakers:
        """Returns those with these names, who end the part in the same way."""
        return self if names is self.who else Wakers(names, *self[1:])


Part = Tuple[Wakers, ...]


class Subject(NamedTuple):
    """What the rule sees of a process. `parts` are those of its wait that nobody has ended yet: one that is blocked and
    has none goes on."""

    name: str
    sign: Sign
    parts: Sequence[Part] = ()


class Aside(NamedTuple):
    """Somebody whom the rule sets aside, and who may free some of those that are likely to be stuck: `waits` has their
    names, and may be shared by others. `who` is None for anybody who isn't in the state."""

    who: Optional[str]
    how: str
    strength: Strength
    waits: Sequence[str]


class Headline(Enum):
    """The first of these that holds is the answer."""

    DEADLOCK = "DEADLOCK"
    LIKELY = "LIKELY DEADLOCK"
    NONE = "NO DEADLOCK"
    IDLE = "IDLE OR STALLED"
    NOT_KNOWN = "NOT KNOWN"


STATUSES = {Headline.DEADLOCK: 3, Headline.LIKELY: 5, Headline.NONE: 0, Headline.IDLE: 5, Headline.NOT_KNOWN: 5}


Answer = TypeVar("Answer")


def once(find: Callable[[Sequence[Part]], Answer], most: int = 1 << 62) -> Callable[[Sequence[Part]], Answer]:
    """Returns a function that finds something of the parts of each wait, once for all that share several. It keeps
    these, at most so many, so that the id of each stays its own."""
    known: Dict[int, Tuple[Sequence[Part], Answer]] = {}

    def find_once(parts: Sequence[Part]) -> Answer:
        if len(parts) < 2:
            return find(parts)
        if id(parts) not in known:
            if len(known) >= most:
                known.clear()
            known[id(parts)] = parts, find(parts)
        return known[id(parts)][1]
    return find_once


def wakers(how: str, who: Who, *because: str) -> Wakers:
    """Those who may end a wait in the way that a word of HOWS says."""
    return Wakers(who, HOWS[how][0], how, because)


def of_list(who: Sequence[str], *because: str) -> Wakers:
    """Those of a list of which any is enough: the one who is needed, or able ones if there are several."""
    if len(who) == 1:
        return Wakers(who, Strength.NAMED, "listed", because)
    return wakers("listed", who, *because)


def unseen(how: str, *because: str) -> Wakers:
    """Somebody who isn't in the state."""
    return wakers(how, ANYBODY, *because)


def any_of(*part: Wakers) -> List[Part]:
    """The parts of a wait that any of these ends."""
    return [part]


def all_of(names: Iterable[str], how: str, *because: str, beside: Part = ()) -> List[Part]:
    """The parts of a wait for all of these names, each of which those `beside` may end too."""
    return [(wakers(how, [name], *because), *beside) for name in names]
