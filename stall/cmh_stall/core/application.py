"""Facts that are applied to a sketch, once, for all systems alike: they change who may end a wait. What a fact says and
what the state shows of a wait is intersected."""
from __future__ import annotations

import re
from typing import Dict, Iterable, List, NamedTuple, Optional, Set, Tuple

from .facts import ALSO, HOLDS, OTHERS, RELATIVES, Fact, Facts, families, fill_in, is_others
from .files import short_name
from .model import COMES, Anybody, Part, Sign, Strength, Wakers, Who, all_of, any_of, unseen, wakers
from .places import SPECIAL, VARIABLE, is_like, may_meet
from .proposals import frame_name
from .sketch import (ANY, DONE, GOING, LIMIT, NEEDED, REST, UNKNOWN, WAITING, WORK, Process, Sketch, has_how,
                     near_name, premise, quote)

TIMED = "timed "  # before the operation of a wait with a limit
UNCOUNTED, UNSHOWN = "uncounted", "unshown"  # hows that a fact may settle
STARTERS = "starters"  # before the name of a process, the group of those who may start more like it
POLLED = "it looks only now and then, so what it waits for may have come already"
Found = List[Tuple[Process, Optional[Fact]]]  # processes, each with the fact on its wait, if there is one


def apply(facts: Facts, sketch: Sketch) -> None:
    """Changes by facts who may end the waits of a sketch, and checks what they made of it. Adds to its warnings which
    facts matched nothing, or name nobody."""
    if facts.facts or facts.still is not None:
        Application(facts, sketch).run()
        sketch.check()
    else:
        drop_missing(sketch)


class Names:
    """The names that words of facts stand for in a sketch."""

    def __init__(self, facts: Facts, sketch: Sketch) -> None:
        self.facts, self.groups = facts, sketch.groups
        self.names = {process.name: None for process in sketch.processes}
        self.at_frames = {frame_name(frame): process.name for process in sketch.processes for frame in process.frames}
        self.families = families(self.names)
        self.others = [one.name for one in sketch.processes if one.is_there()]
        self.holders: Dict[str, Dict[str, None]] = {}
        self.holding: Dict[str, Dict[int, Fact]] = {}  # the facts by which something is held, by their lines
        self.lists: Dict[Tuple[str, Tuple[str, ...]], Tuple[List[str], str]] = {}
        for process in sketch.processes:
            for fact, what in facts.holdings(process):
                self.holders.setdefault(what, {})[process.name] = None
                self.holding.setdefault(what, {})[fact.at] = fact
                fact.took.setdefault(fact.words[0], {})[process.name] = None

    def of_fact(self, fact: Fact, process: Process) -> Tuple[List[str], str]:
        """Returns the names that a fact gives for the wait of a process, in their order, and what is wrong with it.
        Many processes stand at one place, so the list is kept."""
        words = self.words(fact, process)
        key = fact.line_in(""), tuple(words)
        if key not in self.lists:
            self.lists[key] = self.of_words(fact, words)
        return self.lists[key]

    def words(self, fact: Fact, process: Process) -> List[str]:
        """The words of a fact, with the values of variables for one that waits in the places of these."""
        if not fact.has_variables():
            return fact.words
        values = fact.values(process)
        return [fill_in(word if self.is_name(word) else RELATIVES.get(word, word), values) for word in fact.words]

    def is_name(self, word: str) -> bool:
        return word in self.names or word in self.facts.groups

    def of_words(self, fact: Fact, words: List[str]) -> Tuple[List[str], str]:
        all_names: Dict[str, None] = {}
        for key, word in zip(fact.words, words):
            names = dict.fromkeys(self.of_word(word))
            if not is_others(word):  # (they may be many, and the word says who they are)
                fact.took.setdefault(key, {}).update(names)
            if not names and not fact.or_nobody:
                return [], f"{self.facts.path}:{fact.at}: {self.lack(fact, key, word)}"
            all_names.update(names)
        return list(all_names), ""

    def lack(self, fact: Fact, word: str, filled: str) -> str:
        """What is said of a word that stands for nobody, by itself and with the values of its variables."""
        unknown = VARIABLE.search(filled)
        if word in RELATIVES or unknown:
            return f"{quote(word)} names nobody: the state has no {quote(unknown[1] if unknown else word)} of it"
        if filled.endswith(","):
            return f"{quote(filled)} names nobody: names stand with spaces between them, and no commas"
        if filled in self.at_frames:
            return f"{quote(filled)} is a place of {quote(self.at_frames[filled])}, and a list has names"
        what = f"{quote(filled)} names nobody{near_name(filled.replace('*', ''), self.families)}"
        if fact.kind != "any":
            return what
        return (f"{what}; if all of them have ended, end the line with 'or nobody'; if a timer or the outside ends the "
                "wait, write '-> runs'")

    def of_word(self, word: str) -> Iterable[str]:
        """Returns the names that a word stands for, without those that the state may lack."""
        if word.startswith("@"):
            return self.holders.get(word[1:], {})
        if word in self.facts.groups and word not in self.names:
            return [name for member in self.facts.groups[word] for name in self.of_name(member)]
        return self.of_name(word)

    def of_name(self, word: str) -> Iterable[str]:
        if word in self.names:
            return [word]
        if word in self.groups:
            return self.groups[word]
        if word == OTHERS:
            return self.others
        if VARIABLE.search(word):  # (it has no value, and stands for no text)
            return []
        if is_others(word):
            names = [name for name in self.others if name.startswith(f"{word[len(OTHERS) + 1:]}/")]
            return names or self.others  # (all, where another system calls them otherwise)
        if ":" in word and any(group.startswith(f"{word.split(':')[0]}:") for group in self.groups):
            return [name for group, names in self.groups.items() if is_like(word, group) for name in names]
        return [name for name in self.names if is_like(word, name)] if SPECIAL.search(word) else []

    def is_open(self, fact: Fact, process: Process) -> bool:
        """Whether one who isn't in the state may belong to the list that a fact gives a process."""
        return any(name not in self.names and not is_others(name) for name in self.words(fact, process))


class Application:
    """Facts that are applied to a sketch."""

    def __init__(self, facts: Facts, sketch: Sketch) -> None:
        self.facts, self.sketch, self.names = facts, sketch, Names(facts, sketch)
        self.at_rest: Set[str] = set()
        self.missing = [process.name for process in sketch.processes if process.frames == [REST]]
        # By operation and meeting, who is at a collective one: with its fact, and what tells the circle that it needs.
        self.here: Dict[Tuple[str, str], Dict[str, Tuple[Optional[Fact], object]]] = {}
        self.started: Dict[Tuple[int, ...], List[str]] = {}  # by the ids of lists, all who are in them
        self.meetings: Dict[int, Set[str]] = {}  # by the line of a fact, at what those whom it is on wait
        self.by_line: Dict[int, Set[str]] = {}  # by the line of a fact, whom it is on

    def run(self) -> None:
        self.facts.find_bystanders(self.sketch)
        undecided = self.find_undecided()
        self.at_rest = {one.name for one in self.sketch.processes if one.sign is Sign.RESTS and one.reason == WORK}
        self.note_places(undecided)
        for process, fact in undecided:
            self.decide(process, fact)
        for process in self.sketch.processes:
            self.widen(process)
        for process in self.sketch.processes:
            self.settle_doubt(process)
        drop_missing(self.sketch)
        drop_bystanders(self.facts, self.sketch)
        self.note_facts()
        self.sketch.warnings += self.facts.unused_lines(self.sketch)

    def find_undecided(self) -> Found:
        """Returns those whom facts may decide, each with the fact on its wait, if there is one."""
        return [(process, self.facts.wait(process)) for process in self.sketch.processes if self.is_undecided(process)]

    def note_places(self, undecided: Found) -> None:
        """Notes who is at which collective operation, each with the fact on its wait, and which lines are on whom."""
        for process, fact in undecided:
            if process.is_collective:
                self.here_with(process)[process.name] = fact, self.circle(process, fact)
            if fact is not None and not fact.has_variables():
                self.meetings.setdefault(fact.at, set()).add(process.meeting)
                self.by_line.setdefault(fact.at, set()).add(process.name)

    def note_facts(self) -> None:
        """Has the facts in the sketch that were used."""
        facts = [*self.facts.facts, *filter(None, [self.facts.still])]
        self.sketch.facts += [fact.row(self.facts.path) for fact in facts if fact.used]

    def is_undecided(self, process: Process) -> bool:
        """Whether a fact may decide a process: one whose wait the state doesn't show, or shows by mere reach, or by a
        fact on 'timed' calls one with a limit."""
        if process.is_garbled or process.sign not in GOING:
            return not process.is_garbled and is_undecided(process)
        if premise(LIMIT) not in process.because or not process.operation.startswith(TIMED):
            return False
        fact = self.facts.wait(process)
        return fact is not None and fact.place.operation.startswith(TIMED.strip())

    def decide(self, process: Process, fact: Optional[Fact]) -> None:
        """Sets what a fact says of one that is undecided."""
        if fact is None:
            self.wait_for_holders(process)
            return
        if fact.kind == "runs":
            process.become(Sign.GOES_ON, "a fact says so", [self.facts.reason(fact)])
        elif fact.kind == "ended":
            process.become(Sign.ENDED, NEEDED if fact.words else DONE, [self.facts.reason(fact)])
        else:
            self.decide_wait(process, fact)

    def decide_wait(self, process: Process, fact: Fact) -> None:
        """Sets who ends the wait of one by a fact, if the fact says that. One that only waits again may have been sent
        what it will see next time: no count tells, but the line `still`."""
        whom, fault = ([], "") if fact.kind == "nobody" else self.names.of_fact(fact, process)
        if not fault and fact.kind == "all":
            whom, fault = self.left_of(process, fact, whom) if process.is_collective or len(
                self.meetings.get(fact.at, ())) <= 1 else ([], several(fact))
        if not fault and fact.kind != "nobody":
            whom, fault = those_of_both(process, fact, whom)
        if fault:
            doubt(process, fault)
            return
        kept = kept_wakers(process)
        if process.sign in GOING:
            process.because, kept = [], (unseen(UNCOUNTED, POLLED),)
        if self.names.is_open(fact, process):
            kept += (wakers("left-out", self.missing),) if self.missing else ()
            # Who has a lock is there already.
            kept += () if fact.kind == "all" or process.operation.endswith("Lock") else tuple(self.starters(whom))
        because = self.facts.reason(fact)
        parts = all_of(whom, COMES, because, beside=kept) if fact.kind == "all" else \
            any_of(*([fact_wakers(whom, because)] if whom else []), *kept)
        process.wait_for(parts, [because])

    def starters(self, whom: List[str]) -> List[Wakers]:
        """Returns those who may start more like some, whom a pattern found, where the system says who they are."""
        lists = {id(names): names for names in (self.sketch.groups.get(f"{STARTERS}:{name}") for name in whom) if names}
        key = tuple(lists)
        if key not in self.started:
            self.started[key] = list(dict.fromkeys(name for names in lists.values() for name in names
                                                   if name in self.names.names))
        return [wakers("starts", self.started[key])] if self.started[key] else []

    def left_of(self, process: Process, fact: Fact, whom: List[str]) -> Tuple[List[str], str]:
        """Returns those of a list of all that have not come, and what is wrong with it. Who holds something has not let
        go of it, wherever it stands."""
        is_collective = process.is_collective
        if is_collective and fact.group and process.name not in whom:
            return [], f"it isn't in the group {quote(fact.group)} of line {fact.at} of the facts itself"
        here = self.here_with(process) if is_collective else {}
        mine = self.circle(process, fact)
        come = self.at_rest | {name for name, (_, circle) in here.items() if circle == mine}
        held = {name: word for word in self.names.words(fact, process) if word.startswith("@")
                for name in self.names.of_word(word)}
        come.difference_update(held)
        if process.name in held:
            return [], (f"by the facts it holds {quote(held[process.name])} itself, of line {fact.at}: if it does, it "
                        "waits for ever, and 'nobody' says so; if not, a line that names its place better does")
        if not is_collective and whom != [process.name] and process.name in self.names.words(fact, process) \
                and len(self.by_line.get(fact.at, ())) == 1:
            return [], (f"line {fact.at} of the facts names it itself: if it waits for itself it waits for ever, and "
                        "'nobody' says so; if not, it doesn't belong there")
        left = [name for name in whom if name not in come and name != process.name]
        elsewhere = next((name for name in left if name in here and not are_told_apart(fact, here[name][0])), None)
        if elsewhere:
            return [], (f"{short_name(elsewhere)} stands at {process.operation} too, by another line: a group of facts "
                        "would say whether it has come to the same one")
        if not left and whom == [process.name] and process.name not in come:
            return whom, ""
        if not left:
            return [], f"all that line {fact.at} of the facts names have come themselves or wait for work"
        return left, ""

    def here_with(self, process: Process) -> Dict[str, Tuple[Optional[Fact], object]]:
        return self.here.setdefault((process.operation, process.meeting), {})

    def circle(self, process: Process, fact: Optional[Fact]) -> object:
        """What those have in common that meet in one collective operation: the group of their facts, or else the line,
        and with variables in it the names that it gives, the process itself among them."""
        if fact is None or fact.kind != "all":
            return process.name
        if fact.group or not fact.has_variables():
            return fact.group or fact.line_in("")
        return frozenset([process.name, *self.names.of_fact(fact, process)[0]])

    def wait_for_holders(self, process: Process) -> None:
        """One that waits at what others hold by facts waits for any of these. What nobody holds may be anybody's."""
        keys = [group for part in process.parts for group in part if group.what]
        held = {group.what: [what for what in self.names.holders if self.is_key(what, group.what)] for group in keys}
        objects = [what for what in process.objects if what in self.names.holders]
        held_there = dict.fromkeys([*objects, *(what for holdings in held.values() for what in holdings)])
        gone = next((fact for fact in self.facts.facts if fact.kind == HOLDS and not fact.used
                     and any(self.is_key(fact.words[0], key) for key in held)), None)
        if gone is not None:
            doubt(process, f"nobody is there that line {gone.at} of the facts says to hold {quote(gone.words[0])}")
            return
        free = next((key for key, holdings in held.items() if not holdings), None)
        if free is not None and held_there:
            process.reason = f"nobody is known by facts to hold {quote(free)}"
        if held_there:
            self.let_wait(process, list(held_there), [group for group in keys if not held[group.what]])

    def is_key(self, what: str, key: str) -> bool:
        """Whether what is held fits a key that ends a wait: by an expression of the system for it, or as a pattern of
        keys itself."""
        words = what.split(".")
        is_pattern = "*" in words or "#" in words
        return any(re.fullmatch(expression, what) for expression in self.sketch.groups.get(f"key:{key}", ())) \
            or is_pattern and may_meet(tuple(words), tuple(key.split(".")))

    def let_wait(self, process: Process, objects: List[str], free: List[Wakers]) -> None:
        """Sets that one waits for any of those that hold something by facts, or that hold what is free."""
        facts = sorted({fact.at: fact for what in objects for fact in self.names.holding[what].values()}.items())
        because = [self.facts.reason(fact) for _, fact in facts]
        whom = list(dict.fromkeys(name for what in objects for name in self.names.holders[what]))
        known = [group for part in process.parts for group in part if group.strength in (Strength.NAMED, Strength.ABLE)
                 and group.how == "listed"]
        left_out = (wakers("left-out", self.missing),) if self.missing else ()
        process.wait_for(any_of(*known, fact_wakers(whom, *because), *free, *kept_wakers(process), *left_out), because)

    def widen(self, process: Process) -> None:
        """Adds who else may answer, to a call that is known or whose object names whom it called."""
        called = process.whom if process.kind == ANY else []
        if process.kind == UNKNOWN and not process.is_garbled:
            called = [name for name in process.objects if name in self.names.names]
        fact = self.facts.first((ALSO,), process) if called else None
        if fact is None:
            return
        more, fault = self.names.of_fact(fact, process)
        if fault:
            doubt(process, fault)
            return
        because = self.facts.reason(fact)
        left_out = (wakers("left-out", self.missing),) if self.names.is_open(fact, process) and self.missing else ()
        answering = fact_wakers(list(dict.fromkeys([*called, *more])), because)
        process.wait_for(any_of(answering, *kept_wakers(process), *left_out), [because])

    def settle_doubt(self, process: Process) -> None:
        """Settles by the line `still` that nothing has ended a wait between the looks."""
        still = self.facts.still
        if still is None or process.sign not in WAITING or not has_how(process, UNCOUNTED):
            return
        still.used = True
        process.parts = [tuple(group for group in part if group.how != UNCOUNTED) for part in process.parts]
        if process.sign is Sign.BLOCKED or not process.is_open():  # (one with nothing to do is left out as before)
            process.because = [*process.because, self.facts.reason(still)]


def is_undecided(process: Process) -> bool:
    """Whether the state doesn't show who ends the wait of one, or shows by mere reach who may."""
    if process.sign is Sign.UNKNOWN:
        return True
    return process.sign in WAITING and (not process.parts or any(
        group.how in OPEN or group.what or isinstance(group.who, Anybody) and group.how != UNCOUNTED
        for part in process.parts for group in part))


# Hows by which one may end a wait, and needn't, and those of somebody who isn't in the state.
OPEN = {"reaches", "same-process", "inside", "guess", UNSHOWN, "outside", "to-come"}


BESIDE = premise("one-thread")  # a reason of those who count whatever a fact says of others: threads of a rank
THERE = {"repeats", "finalizes"}  # hows by which one would end a wait as those do whom a fact names


def kept_wakers(process: Process) -> Part:
    """Returns the wakers of a wait that a fact on it leaves as they are: who ends it in another way, other threads
    of its own, and who may have ended it between the looks."""
    kept = (group for part in process.parts for group in part if is_kept(group))
    return tuple({(id(group.who), group.how): group for group in kept}.values())


def is_kept(group: Wakers) -> bool:
    is_against = group.strength is Strength.AGAINST and group.how not in THERE
    return is_against or group.how == UNCOUNTED or BESIDE in group.because


def those_of_both(process: Process, fact: Fact, whom: List[str]) -> Tuple[List[str], str]:
    """Returns those of whom a fact speaks who may end the wait by the state too, where this has all who may."""
    if process.sign not in WAITING or process.is_open() or not process.parts:
        return whom, ""
    able = {name for part in process.parts for group in part for name in group.names()
            if group.strength in (Strength.NAMED, Strength.ABLE)}
    left = [name for name in whom if name in able]
    if whom and not left:
        return [], f"line {fact.at} of the facts names nobody who may end this wait by the state"
    return left, ""


def fact_wakers(whom: List[str], *because: str) -> Wakers:
    """Those who end a wait by the facts: the one who is needed, or able ones."""
    return Wakers(whom, Strength.NAMED if len(whom) == 1 else Strength.ABLE, "said", because)


def doubt(process: Process, fault: str) -> None:
    """Says of a wait that a fact on it names nobody, so that anybody may end it."""
    process.reason = fault
    process.parts = [(*part, unseen(UNSHOWN, fault)) for part in process.parts]


def several(fact: Fact) -> str:
    return (f"line {fact.at} of the facts names one list for several that may wait at different objects: 'of NAME' "
            "before the operation, or the object after it, tells them apart")


def drop_missing(sketch: Sketch) -> None:
    """Takes those out of all lists whom a state may lack, if a fact says that none of them matters."""
    gone = {one.name for one in sketch.processes if one.frames == [REST] and one.sign is not Sign.UNKNOWN}
    for process in sketch.processes if gone else ():
        process.parts = [tuple(left for left in (group.without(gone) for group in part) if left.names() or left.who)
                         for part in process.parts]


def drop_bystanders(facts: Facts, sketch: Sketch) -> None:
    """Takes those out of the wakers of others, where one of several is enough, that end no such wait by the facts. A
    list of such ones alone stays: who waits for them waits for their own end, as a join does."""
    kept: Dict[Tuple[int, int], Left] = {}  # by the ids of a list and of who is taken out
    for process in sketch.processes if facts.bystanders or facts.bystanders_at else ():
        known = facts.bystanders_at.get(process.name, facts.bystanders)
        gone: Dict[int, Fact] = {}
        process.parts = [part_without(part, known, kept, gone) for part in process.parts]
        for fact in gone.values() if process.sign in WAITING else ():
            process.because = [*process.because, facts.reason(fact)]


class Left(NamedTuple):
    """What is left of a list without bystanders, and the facts on these, by their lines."""

    who: Who
    facts: Dict[int, Fact]


def part_without(part: Part, known: Dict[str, Fact], kept: Dict[Tuple[int, int], Left], gone: Dict[int, Fact]) -> Part:
    """Returns a part without bystanders, and notes the facts on those who were one of it."""
    left: List[Wakers] = []
    for group in part:
        key = id(group.who), id(known)
        if key not in kept:
            facts = (known[name] for name in group.names() if name in known)
            kept[key] = Left(group.without(known).who, {fact.at: fact for fact in facts})
        left.append(group._replace(who=kept[key].who))
    if not any(group.strength in (Strength.NAMED, Strength.ABLE) and group.names() for group in left):
        left = [new if old.strength in (Strength.AGAINST, Strength.UNSEEN) else old for old, new in zip(part, left)]
    for old, new in zip(part, left):
        gone.update(kept[id(old.who), id(known)].facts if new.who is not old.who else {})
    return tuple(new for old, new in zip(part, left) if new.names() or not old.names())


def are_told_apart(fact: Fact, other: Optional[Fact]) -> bool:
    """Whether it is known of two that meet in no one operation by their facts: by groups, or by the names of one line.
    """
    return other is not None and (fact is other or fact.group != "" and other.group != "")
