"""Facts: what stands in the source of a program and in no state of it, in one grammar for all parsers.

    # FRAME [OPERATION] -> FACT
    Orders.book put                -> any auditor
    Orders.order FutureTask.get    -> any order-*
    main.main sync.WaitGroup.Wait  -> all children
    main.take "chan receive"       -> any main.give/* or nobody
    farm.c:26 MPI_Recv             -> any rank-1 rank-2 rank-3
    swap MPI_Send                  -> any rank-{other}
    Desk.sell of desk-{n} get      -> any till-{n}
    Bus.put < Orders.book          -> any auditor
    Queue.take:435 of mail-* or ad -> any mailer
    mailer.poll                    -> runs
    loader.done                    -> ended
    main.(*Store).Put:26           -> holds Store.mu
    main.(*Store).Size Lock        -> any @Store.mu
    beat.sh                        -> frees nobody
    * "gen_server:call {pool}"     -> also answered by {pool}/worker/*
    group row-0 = rank-0 rank-1 rank-2
    grid.c:* of row-0 MPI_Allreduce -> all of row-0
    still

A line is FRAME [< CALLER] [of NAME [or NAME ..]] [OPERATION] -> FACT. FRAME is matched with the topmost frame of the
job's own, CALLER with any frame further out, NAME with the name of the process, or with those of a group, OPERATION
with the operation, its last name, or one of both and an object. All are patterns (`places`); a FRAME is matched with
FUNCTION, FUNCTION:LINE, FILE:LINE and the whole frame. The first line that matches counts:

    any NAME ..              any one of them can end the wait
    any NAME .. or nobody    the same; if none of them is there, they have ended, and nothing can end it
    all NAME ..              all of them have to come; one that waits for work has come. Of a collective operation, one
                             that is there by the same line has come, and of one that is there by another line it isn't
                             known
    all of GROUP             all of a group have to come, which 'group GROUP = NAME ..' names. Of a collective operation
                             those of the group that are there have come, wherever their calls stand
    nobody                   nothing can end the wait
    runs                     it continues by itself
    ended, ended needed      it has ended; with 'needed', others still need it
    holds WHAT               it holds WHAT, perhaps with others. FRAME is any frame here, and all such lines count. A
                             process that waits at an object called WHAT waits for any of its holders. Where a broker's
                             keys are held, `*` in WHAT stands for a word, and `#` for any number of words
    also answered by NAME .. these may answer in place of the process that was called
    frees nobody             it ends nobody's wait, though it could: a heartbeat that has both ends of a pipe, or a
                             watchdog that only writes to a log. FRAME is any frame here, and all such lines count
    frees none of NAME ..    it ends none of these waits, and perhaps others

NAME is a pattern of names of processes, a group, `others`, who are all that don't wait for work (nor does a line with
it decide one who does), `creator` or `children` of the process that waits, where the state says who created whom, or
`@WHAT`: all that hold WHAT. `{VARIABLE}` in it is the text that stands there before the arrow, or a value of the
process that waits: an argument, or its own name, `{self}`. What has spaces stands in double quotes. A fact decides a
wait only if the state doesn't show it, so that it is unknown, or shows no more than who can reach what is waited at: of
these those whom the fact names count then. One whose OPERATION begins with 'timed' also decides one that waits with a
limit: it only waits again. Such a one looks now and then, so that needs the line `still` too. A list that is too short
invents a deadlock, so a NAME that fits no process leaves it unknown.

The line `still` says that nothing moves in the system: what stood at the same place in all states was at one wait, also
if nothing counts that.
"""
from __future__ import annotations

import os
import re
from dataclasses import dataclass, field
from typing import Dict, Iterable, Iterator, List, Optional, Tuple

from .files import Refusal, escaped, shown
from .places import VARIABLE, Place, Values, is_like, values_of_frame
from .sketch import COMPLETE, FACT, UNKNOWN, FactRow, Process, Sketch, near_name, quote

HOLDS, ALSO, STILL, GROUP, FREES, FREES_NONE = "holds", "also answered by", "still", "group", "frees", "frees none of"
WAITS = ("any", "all", "nobody", "runs", "ended")
ANYWHERE = (HOLDS, FREES, FREES_NONE)  # kinds whose FRAME is any frame
BARE = ("runs", "ended", "holds", "also")  # kinds that need no arrow before them
# Words for relatives of the one that waits, unless a process has that name.
RELATIVES = {"creator": "{creator}", "children": "children:{self}"}
OTHERS = "others"  # a word for all others, unless a process has that name
OR_NOBODY = ["or", "nobody"]
TO_COMPLETE = f"'{COMPLETE}' stands for what you have to complete"
TOKEN = re.compile(r'"((?:[^"\\]|\\.)*)"|(\S+)')
Word = Tuple[str, bool]  # of a line, with whether it stood in quotes


@dataclass
class Fact:
    """A line of facts. `words` are what follows the kind, but for `group` of 'all of GROUP' and for 'or nobody'. `used`
    says whether it has matched, `took` has the names that each of its words took, and `lacks` says that a variable had
    no value where it matched."""

    at: int
    text: str
    place: Place
    kind: str
    words: List[str]
    group: str = ""
    or_nobody: bool = False
    used: bool = False
    took: Dict[str, Dict[str, None]] = field(default_factory=dict)
    lacks: bool = False

    def values(self, process: Process) -> Values:
        """Returns the values of all variables for a process at its place."""
        arguments = dict(argument.split("=", 1) for argument in process.objects if "=" in argument)
        values = self.place.values(process, self.kind in ANYWHERE) or {}
        return {"self": process.name, **arguments, **values}

    def has_variables(self) -> bool:
        """Whether its names may be others for each one that waits."""
        return any(map(is_variable, self.words))

    def line_in(self, path: str) -> str:
        """Returns where it stands."""
        return f"{path}:{self.at}"

    def row(self, path: str) -> FactRow:
        """Returns what the notes have of it."""
        took = {word: list(names) for word, names in self.took.items()}
        return {"at": self.line_in(path), "text": self.text, "took": took}


def is_variable(word: str) -> bool:
    """Whether a word may name others for each one that waits."""
    return word in RELATIVES or VARIABLE.search(word) is not None


def is_others(word: str) -> bool:
    """Whether a word stands for all others, or for those of one process of the system: others:PROCESS."""
    return word.split(":")[0] == OTHERS


def fill_in(word: str, values: Values) -> str:
    """Returns a word with the values of its variables in their places."""
    return VARIABLE.sub(lambda match: values.get(match[1], match[0]), word)


@dataclass
class Facts:
    """The facts of a file. `path` is its name, for people, and `still` the line that says that nothing moves.
    `bystanders` has by the names of processes the fact that they end nobody's wait, and `bystanders_at` the same for
    the wait of one alone, by its name."""

    facts: List[Fact] = field(default_factory=list)
    path: str = "facts"
    still: Optional[Fact] = None
    groups: Dict[str, List[str]] = field(default_factory=dict)
    bystanders: Dict[str, Fact] = field(default_factory=dict)
    bystanders_at: Dict[str, Dict[str, Fact]] = field(default_factory=dict)
    by_frame: Dict[str, List[Fact]] = field(default_factory=dict, repr=False, compare=False)

    def wait(self, process: Process) -> Optional[Fact]:
        """Returns the first fact on the wait of a process, or None."""
        return self.first(WAITS, process)

    def holdings(self, process: Process) -> List[Tuple[Fact, str]]:
        """Returns all that a process holds, each with its fact. What has a variable without a value is nothing."""
        holdings = [(fact, fill_in(fact.words[0], fact.values(process))) for fact in self.facts
                 if fact.kind == HOLDS and fact.place.values(process, True) is not None]
        for fact, what in holdings:
            fact.used, fact.lacks = True, fact.lacks or VARIABLE.search(what) is not None
        return [(fact, what) for fact, what in holdings if not VARIABLE.search(what)]

    def find_bystanders(self, sketch: Sketch) -> None:
        """Finds who ends nobody's wait, or not that of some."""
        freeing = [fact for fact in self.facts if fact.kind in (FREES, FREES_NONE)]
        bystanders = [(process, fact) for process in (sketch.processes if freeing else ()) for fact in freeing
                 if fact.place.values(process, True) is not None]
        for process, fact in bystanders:
            if fact.kind == FREES:
                fact.used = True
                fact.took.setdefault("nobody", {})[process.name] = None
                self.bystanders.setdefault(process.name, fact)
        for process, fact in bystanders:
            for name in self.spared_by(fact, process, sketch) if fact.kind == FREES_NONE else ():
                fact.used = True
                self.bystanders_at.setdefault(name, {**self.bystanders}).setdefault(process.name, fact)

    def spared_by(self, fact: Fact, process: Process, sketch: Sketch) -> List[str]:
        """Returns whose waits a process doesn't end by a fact: of nobody, if one of its names fits nobody."""
        values, names_of = fact.values(process), {}
        for word in fact.words:
            pattern = fill_in(word, values)
            patterns = self.groups.get(pattern, [pattern])
            names_of[word] = [waiting.name for waiting in sketch.processes
                              if any(is_like(like, waiting.name) for like in patterns)]
            fact.took.setdefault(word, {}).update(dict.fromkeys(names_of[word]))
        return [name for names in names_of.values() for name in names] if all(names_of.values()) else []

    def first(self, kinds: Tuple[str, ...], process: Process) -> Optional[Fact]:
        """Returns the first fact of some kinds that a process matches, or None."""
        for fact in self.at_frame(process.frames[0] if process.frames else ""):
            is_meant = process.is_there() or not any(map(is_others, fact.words))
            if is_meant and fact.kind in kinds and fact.place.values(process) is not None:
                fact.used = True
                return fact
        return None

    def at_frame(self, text: str) -> List[Fact]:
        """Returns the facts on a topmost frame, in their order. Many processes stand at one frame, so it is kept."""
        if text not in self.by_frame:
            self.by_frame[text] = [fact for fact in self.facts
                                   if values_of_frame(fact.place.frames[0], text) is not None]
        return self.by_frame[text]

    def unused_lines(self, sketch: Sketch) -> List[str]:
        """Returns a line for each fact that has matched nothing, or nobody who is unknown, or without a value."""
        lacking = [f"{self.path}:{fact.at}: a variable has no value there: {fact.text}" for fact in self.facts
                   if fact.lacks]
        return [*lacking, *(f"{self.path}:{fact.at}: it matches {why_unused(fact, sketch)}" for fact in self.facts
                            if not fact.used)]

    def reason(self, fact: Fact) -> str:
        return f"{FACT} {fact.line_in(self.path)}"


def why_unused(fact: Fact, sketch: Sketch) -> str:
    """Returns what a fact matches that decides nobody, or which place of one who is still unknown is near."""
    there, anywhere = fact.place, fact.kind in ANYWHERE
    if fact.kind == FREES_NONE and fact.took:
        lost = next(word for word in fact.words if not fact.took[word])
        return f"nobody's wait: {fact.text}{near_name(lost, [process.name for process in sketch.processes])}"
    if any(there.values(process, anywhere) is not None for process in sketch.processes):
        return f"no unknown process: {fact.text}"
    open_ones = [process for process in sketch.processes
                 if process.kind == UNKNOWN and not process.is_garbled and process.is_there()]
    at_frame = [process for process in open_ones if Place(there.frames).values(process, anywhere) is not None]
    named = [process for process in at_frame if Place(there.frames, there.names).values(process, anywhere) is not None]
    pattern = there.frames[0].split(":")[0]
    texts = {frame.split(" (")[0] for process in open_ones for frame in process.frames}
    is_name = any(Place(["*"], there.frames[:1]).values(process) is not None for process in sketch.processes)
    if is_name and not any(Place(there.frames).values(process, True) is not None for process in sketch.processes):
        return f"nothing: {fact.text}; a name stands behind 'of', as in * of {word_of(there.frames[0])}"
    if at_frame and not named:
        pattern, texts = there.names[0], set(families(process.name for process in at_frame))
    elif named:
        pattern, texts = there.operation, {process.operation for process in named}
    return f"nothing: {fact.text}{near_name(pattern, sorted(texts))}"


def families(names: Iterable[str]) -> Dict[str, None]:
    """The patterns of some names, in which a number is any text."""
    return dict.fromkeys(re.sub(r"\d+(?:\.\d+)*", "*", name) for name in names)


# Reading


def read_facts(text: str, path: str) -> Facts:
    """Returns the facts of a text. Raises Refusal with the line of the first that is none."""
    facts = Facts(path=shown(os.path.basename(path)))
    for number, line in enumerate(text.split("\n"), 1):
        try:
            line = without_comment(line)
            words, text = list(words_of(line)), " ".join(line.split())
            if words == [(STILL, False)]:
                facts.still = Fact(number, STILL, Place([]), STILL, [])
            elif words[:1] == [(GROUP, False)] and ("=", False) in words[1:3]:
                add_group(facts, [word for word, _ in words])
            elif words:
                facts.facts.append(fact_of(words, number, text))
        except Refusal as refusal:
            raise Refusal(f"{shown(path)}:{number}: {refusal}") from None
    use_groups(facts, path)
    return facts


def add_group(facts: Facts, words: List[str]) -> None:
    """Adds the group of a line 'group NAME = PATTERN ..'."""
    name, names = words[1], words[3:]
    if len(words) < 4 or words[2] != "=":
        raise Refusal("a group is written 'group NAME = NAME ..'")
    if name in facts.groups:
        raise Refusal(f"there are two groups {quote(name)}")
    facts.groups[name] = names


def use_groups(facts: Facts, path: str) -> None:
    """Lets a group after 'of' stand for its names. Raises Refusal if a fact on all of a group has none."""
    for fact in facts.facts:
        if fact.group and fact.group not in facts.groups:
            raise Refusal(f"{shown(path)}:{fact.at}: no line 'group {shown(fact.group)} = NAME ..' names this group"
                          f"{near_name(fact.group, facts.groups)}")
        fact.place.names = [member for name in fact.place.names for member in (name, *facts.groups.get(name, []))]


def without_comment(line: str) -> str:
    """Returns a line up to a comment. A key such as '#.stop' is none."""
    before = ""
    for match in TOKEN.finditer(line):
        if match[0].startswith("#") and not (before == HOLDS and match[0].startswith("#.")):
            return line[:match.start()]
        before = match[0]
    return line


def words_of(line: str) -> Iterator[Word]:
    """The words of a line without a comment, each with whether it stood in quotes."""
    for match in TOKEN.finditer(line):
        quoted = match[1]
        yield (match[2], False) if quoted is None else (re.sub(r"\\(.)", r"\1", quoted), True)


def word_of(text: str) -> str:
    """Returns a text as one word of a line of facts."""
    plain = TOKEN.fullmatch(text) and text[0] not in '"#' and text not in ("->", "<", "of", "or", *BARE)
    return text if plain else '"' + text.replace("\\", r"\\").replace('"', r'\"') + '"'


def fact_of(words: List[Word], number: int, text: str) -> Fact:
    """Returns the fact of the words of a line."""
    arrow = next((i for i, word in enumerate(words) if word == ("->", False)), None)
    bare = next((i for i, word in enumerate(words) if i and not word[1] and word[0] in BARE), None)
    split = arrow if arrow is not None else bare
    if split is None:
        raise Refusal("it has no '->': a line is FRAME [OPERATION] -> any NAME ..")
    place = place_of(words[:split])
    kind, *rest = [word for word, _ in words[split + (arrow is not None):]] or [""]
    if kind == "also":
        if rest[:2] != ["answered", "by"]:
            raise Refusal("'also' isn't followed by 'answered by'")
        kind, rest = ALSO, rest[2:]
    if kind == FREES and rest[:2] == ["none", "of"]:
        kind, rest = FREES_NONE, rest[2:]
    fact = Fact(number, escaped(text), place, kind, without_nobody(kind, rest))
    fact.or_nobody = len(fact.words) < len(rest)
    if kind == "all" and rest[:1] == ["of"]:
        if len(rest) != 2:
            raise Refusal("'all of' is followed by one group, which a line 'group NAME = ..' names")
        fact.words, fact.group = rest[1:], rest[1]
    check_words(kind, fact.words)
    return fact


def kind_of_line(text: str) -> str:
    """Returns the kind of the fact that a line is, or nothing if it is none."""
    try:
        return fact_of(list(words_of(text)), 0, text).kind
    except Refusal:
        return ""


def without_nobody(kind: str, words: List[str]) -> List[str]:
    """Returns the names before 'or nobody'."""
    if words[-2:] != OR_NOBODY:
        return words
    if kind != "any":
        raise Refusal("'or nobody' stands after 'any NAME ..' alone")
    return words[:-2]


def place_of(words: List[Word]) -> Place:
    """Returns the place that stands before the arrow."""
    if not words:
        raise Refusal("no FRAME stands before the fact")
    if words[0] == (COMPLETE, False):
        raise Refusal(TO_COMPLETE)
    place, rest = Place([words[0][0]]), words[1:]
    while len(rest) > 1 and rest[0] == ("<", False):
        place.frames.append(rest[1][0])
        rest = rest[2:]
    while rest and rest[0] == ("or" if place.names else "of", False):
        if len(rest) == 1 or not rest[1][0]:
            raise Refusal(f"'{rest[0][0]}' isn't followed by NAME")
        place.names.append(rest[1][0])
        rest = rest[2:]
    place.operation = " ".join(word for word, _ in rest)
    return place


def check_words(kind: str, words: List[str]) -> None:
    """Raises Refusal if the kind isn't known, or has too many words or too few."""
    known = (*WAITS, HOLDS, ALSO, FREES, FREES_NONE)
    if kind not in known:
        raise Refusal(f"{quote(kind)} is no fact{near_name(kind, known)}; facts are {', '.join(map(quote, known))}")
    if COMPLETE in words:
        raise Refusal(TO_COMPLETE)
    if kind in ("runs", "nobody") and words or kind == "ended" and words not in ([], ["needed"]):
        raise Refusal(f"{quote(kind)} is followed by {quote(words[0])}")
    if kind == FREES and words != ["nobody"]:
        raise Refusal("'frees' is followed by 'nobody' or 'none of NAME ..'")
    if kind == HOLDS and len(words) != 1:
        raise Refusal("'holds' is followed by one WHAT; one that is '#' stands in quotes")
    if kind in ("any", "all", ALSO, FREES_NONE) and not words:
        raise Refusal(f"{quote(kind)} is followed by nobody")
