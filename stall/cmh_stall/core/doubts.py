"""The likely answer, and on what it hangs: the doubts. Each is somebody whom the rule sets aside and who may free one
of the likely ones, with a number, and with the lines of facts that say that it is none. Whoever takes the lines of all
doubts as facts has the same answer for certain."""
from __future__ import annotations

from dataclasses import replace
from typing import AbstractSet, Dict, Iterable, Iterator, List, NamedTuple, Optional, Sequence, Set, Tuple

from .doubt_words import told_reason
from .facts import OTHERS, STILL, word_of
from .model import HOWS, Aside, Part, Sign, Strength
from .proposals import HAS_ENDED, LEFT_OUT, MOST, NUMBER, freeing_nobody, place_name
from .rule import Decision
from .sketch import UNREADABLE, Process, Sketch
from .stuck import Waits

# In which order doubts are told: those first that most often hold.
ORDER = (Sign.POLLS, Sign.TICKS, Sign.SLEEPS, Sign.GOES_ON, Sign.RESTS, Sign.UNKNOWN, None, Sign.BLOCKED)


class Doubt(NamedTuple):
    """Those who were set aside in one way. `who` has their names, or nobody's where it isn't in the state, and `waits`
    those whom they may free. `key` tells it from others as long as a folder keeps the answer, and so does `number`."""

    number: int
    key: str
    who: Sequence[str]
    how: str
    sign: Optional[Sign]
    waits: Sequence[str]
    likely: Likely

    @property
    def lines(self) -> List[str]:
        """The facts that say that they free none of them."""
        return self.likely.lines_of(self)


class Likely:
    """The likely answer of some waits. `known` has the keys of doubts in the order of their numbers, also of those that
    are none any more, and new ones are added."""

    def __init__(self, waits: Waits, known: Sequence[str] = ()) -> None:
        self.waits, self.decision, self.keys = waits, waits.decision, list(known)
        # Of waits, by the ids of their parts and of what is left of these.
        self.left: Dict[Tuple[int, int], List[Part]] = {}
        self.numbers = {waits.processes[at].name: at for at in sorted(self.decision.likely - self.decision.certain)}

    def process(self, name: str) -> Process:
        return self.waits.processes[self.waits.index[name]]

    # The sketch without doubts

    def sketch(self, sketch: Sketch) -> Sketch:
        """Returns the sketch in which those are stuck for certain who are likely to be."""
        return replace(sketch, processes=[self.without_doubts(process) if process.name in self.numbers else process
                                          for process in sketch.processes])

    def without_doubts(self, process: Process) -> Process:
        """Returns one that is likely to be stuck without the wakers that were set aside."""
        made, number = process.copy(), self.numbers[process.name]
        key = id(process.parts), id(self.decision.waits[number])
        if key not in self.left:
            parts = set(map(id, self.decision.holding_parts(number)))
            self.left[key] = [part_left(part, self.decision) if id(part) in parts else part for part in process.parts]
        made.parts = self.left[key]
        return made

    # The doubts

    def doubts(self, members: AbstractSet[str]) -> List[Doubt]:
        """Returns the doubts: those on members of roots first, and of these those that most often hold."""
        families: Dict[str, List[Aside]] = {}
        groups: Dict[str, List[Aside]] = {}
        all_asides = self.decision.doubts(sorted(self.decision.likely))
        for aside in all_asides:
            families.setdefault(self.key_of(aside), []).append(aside)
        for key, asides in families.items():
            groups.setdefault(self.kind_of(key, asides), []).extend(asides)
        lists = {id(aside.waits): aside.waits for aside in all_asides}
        of_members = {key for key, waits in lists.items() if not members.isdisjoint(waits)}
        on_roots = {key for key, asides in groups.items() if any(id(aside.waits) in of_members for aside in asides)}
        order = sorted(groups, key=lambda key: (key not in on_roots, *self.place(groups[key][0])))
        known = set(self.keys)
        self.keys += [key for key in order if key not in known]
        return [self.doubt_of(key, groups[key]) for key in order]

    def with_hinges(self, names: Iterable[str]) -> Set[str]:
        """Returns some likely ones with all other likely ones on whom it hangs that they are stuck: these were set
        aside, and may free them where they are free themselves."""
        hinges = {name for name in names if name in self.numbers}
        todo = list(hinges)
        seen: Set[int] = set()
        while todo:
            number = self.numbers[todo.pop()]
            wait = id(self.decision.waits[number])
            parts = self.decision.holding_parts(number) if wait not in seen else ()
            lists = {id(wakers.who): wakers.names() for part in parts for wakers in part if id(wakers.who) not in seen}
            seen.update((wait, *lists))
            new = {name for row in lists.values() for name in row if name in self.numbers} - hinges
            hinges |= new
            todo += new
        return hinges

    def sign_of(self, aside: Aside) -> Optional[Sign]:
        number = self.decision.index.get(aside.who or "") if aside.strength is not Strength.UNSEEN else None
        return None if number is None else self.decision.subjects[number].sign

    def key_of(self, aside: Aside) -> str:
        """Returns what those share of whom one sentence is said: processes of one family and sign, or a way to end a
        wait that isn't seen."""
        sign, family = self.sign_of(aside), NUMBER.sub("*", aside.who or "")
        return f"{aside.how} {family}".strip() if sign is None else f"{family} {sign.value}"

    def kind_of(self, key: str, asides: List[Aside]) -> str:
        """Returns what families share of whom one sentence is said: of those who go on, sleep or aren't understood each
        has its own."""
        sign, how = self.sign_of(asides[0]), asides[0].how
        if sign is not None and HOWS[how][0] is Strength.AGAINST:
            return how
        if sign not in (Sign.RESTS, Sign.TICKS):
            return key
        reasons = {told_reason(self.process(aside.who or "").reason) for aside in asides if sign is Sign.RESTS}
        return " ".join([*sorted(reasons), sign.value])

    def place(self, aside: Aside) -> Tuple[bool, int]:
        return aside.strength is Strength.UNSEEN, ORDER.index(self.sign_of(aside))

    def doubt_of(self, key: str, asides: List[Aside]) -> Doubt:
        first = asides[0]
        who = list(dict.fromkeys(aside.who for aside in asides if aside.who is not None))
        lists = {id(aside.waits): aside.waits for aside in asides}
        waits = list(dict.fromkeys(name for names in lists.values() for name in names))
        return Doubt(self.keys.index(key) + 1, key, who, first.how, self.sign_of(first), waits, self)

    def lines_of(self, doubt: Doubt) -> List[str]:
        """Returns the lines of facts that say that a doubt is none."""
        if doubt.sign is not None:
            return list(freeing_lines(doubt.who))
        if doubt.how == "uncounted":
            return [STILL]
        if doubt.how == "unread" and doubt.who:
            return [f"{UNREADABLE}{HAS_ENDED}"]
        if doubt.how == "left-out":
            return [LEFT_OUT]
        return list(dict.fromkeys(self.line_on(self.process(name)) for name in doubt.waits))

    def line_on(self, process: Process) -> str:
        """Returns the line that those who are left of its wakers are all who may end the wait of a process."""
        left = (name for part in process.parts for names in self.decision.left_of(part) for name in names)
        names: Dict[str, None] = {}
        while len(names) <= MOST and (name := next(left, None)) is not None:  # (many may share a long list)
            names[name] = None
        words = [OTHERS] if len(names) > MOST else names
        kind = "all" if len(process.parts) > 1 else "any"
        place = [word_of(place_name(process)), "of", word_of(process.name)]
        return " ".join([*place, *([word_of(process.operation)] if process.operation else []), "->", kind,
                         *map(word_of, words)])


def part_left(part: Part, decision: Decision) -> Part:
    """Returns a part with those of its wakers alone who aren't set aside."""
    return tuple(wakers.of(names) for wakers, names in zip(part, decision.left_of(part)) if names)


def freeing_lines(names: Sequence[str]) -> Iterator[str]:
    """Yields the lines that some end nobody's wait."""
    for start in range(0, len(names), MOST):
        yield freeing_nobody(names[start:start + MOST])
