"""The lines of facts that would decide who is unknown, for people to complete. Candidates that the state shows are
filled in, marked as a guess, with a '?' behind them, unless arguments name them: others may be able to as well, and a
line with it is refused. Two waits that the state tells apart share a line only if it gives each its own."""
from __future__ import annotations

import os
import re
from collections import Counter
from typing import Collection, Dict, Iterable, List, NamedTuple, Sequence, Set, Tuple

from .facts import FREES, OTHERS, STILL, word_of
from .model import Aside, Sign, Strength
from .places import FRAME, is_like
from .sketch import COMPLETE, REST, RUNS, UNKNOWN, UNREADABLE, Process, has_how
from .stuck import Waits

Line = Tuple[str, List[Process]]  # of facts, with those that it would decide
# Arguments that name the other side of a wait, by what they are called.
PARTNER = re.compile(r"(?:\w+_)?(?:to|from|dest|destination|dst|source|src|other|peer|partner|mate|neighbou?r|left"
                     r"|right|next|prev|previous|before|after|root|target|sender|receiver)(?:_\w+)?")
TWO = "Sendrecv"  # in an operation with two other sides: one argument alone may be the wrong one
EMPTY = re.compile(r" -> \w+ \?$")  # a line without a guess
NUMBER = re.compile(r"\d[\d.]*$")
OF_A_CALL = "#Ref"  # before an object that is of one call alone, whomever it called
LEFT_OUT = f"{REST} -> runs"
HAS_ENDED = " -> ended"
FORMS = ("# any: one of them is enough; all: each has to come; a guess: leave out who can't end the wait",
         "# -> runs: a timer, a user or the outside ends it; -> nobody: nothing does")
UNCOUNTED = "uncounted"
REACHES = ("reaches", "same-process", "inside", "guess")  # hows of those who can, and needn't
SUGGESTS = ("guess", "reaches", "listed", "ends", "comes")  # hows of those whom a line names beforehand
FEW, MOST, MANY = 50, 20, 1000  # kinds of waits at one place whose names are compared, words in a line, and names


class Proposal(NamedTuple):
    """A line of facts for people to complete, what they have to know first (`hint`), and the names of those that it
    would decide."""

    line: str
    hint: str
    is_guess: bool
    names: List[str]

    @property
    def is_settled(self) -> bool:
        """Whether it says all by itself, if it is true."""
        return self.line in (LEFT_OUT, STILL) or self.line.endswith(HAS_ENDED)

    def text(self) -> str:
        number = f"{len(self.names):,} unknown"
        if self.is_settled and self.line != STILL:
            return f"{self.line}  # {self.hint}"
        return f"{self.line}  # {f'{self.hint}: ' if self.hint else 'a guess, ' if self.is_guess else ''}{number}"


def legend(proposals: Iterable[Proposal], processes: Iterable[Process]) -> List[str]:
    """Returns what the lines that are to be completed mean, as comments of facts."""
    if all(one.is_settled for one in proposals):
        return []
    families = Counter(NUMBER.sub("*", one.name) for one in processes)
    name = max(families, key=lambda one: families[one])
    return [f"# {COMPLETE} stands for names, with spaces between them, as {word_of(name)}; {OTHERS}: all of them",
            *FORMS]


def propose(waits: Waits, quiet: Collection[str] = ()) -> List[Proposal]:
    """Returns a line of facts for each wait that isn't known, with those that it would decide. What only lacks a count
    of its waits needs one line for all. `quiet` has the names of those that need none."""
    settled = waits.decision.certain | waits.decision.likely | waits.decision.freed.keys()
    undecided = [process for number, process in enumerate(waits.processes)
                 if process.name not in quiet and process.sign is not Sign.RESTS
                 and (waits.kinds[number] in (UNKNOWN, RUNS) and process.kind == UNKNOWN
                      or number not in settled and is_by_reach(process))]
    asked = [one for one in undecided
             if one.frames and one.frames not in ([REST], [UNREADABLE], [one.name]) and is_asked(one)]
    words = Words(waits.processes)
    proposals = [Proposal(line, "", not EMPTY.search(line), names_of(them)) for line, them in lines_of(asked, words)]
    proposals += [Proposal(f"? holds {word_of(what)}", "whoever publishes that", False, names)
                  for what, names in wanted_of(undecided).items()]
    proposals += [Proposal(f"{word_of(one.name)}{HAS_ENDED}", f"if there is none: it {one.reason}", False, [one.name])
                  for one in undecided if one.frames == [one.name] and one.site is None and one.frames != [REST]]
    proposals += freeing_lines(waits)
    unread = [process.name for process in undecided if process.frames == [UNREADABLE]]
    if unread:
        who = "they have" if unread[1:] else "it has"
        hint = f"if {who} nothing of what the others wait at"
        proposals.append(Proposal(f"{UNREADABLE}{HAS_ENDED}", hint, False, unread))
    lacking = [one for one in undecided if one.frames == [REST]]
    if lacking:
        hint = "if none of those that the state may lack matters"
        proposals.append(Proposal(LEFT_OUT, hint, False, names_of(lacking)))
    doubtful = [one for one in undecided if has_how(one, UNCOUNTED)]
    if doubtful:
        hint = "if nothing moves, so that one place in all states is one wait"
        proposals.append(Proposal(STILL, hint, False, names_of(doubtful)))
    return proposals


def is_asked(process: Process) -> bool:
    """Whether a line on the place of one would decide whom it waits for, if it waits."""
    if process.is_garbled:
        return False
    is_open = has_how(process, "unshown") or has_how(process, "by-name") or is_by_reach(process)
    return not process.parts or is_open and not any(group.what for part in process.parts for group in part)


def is_by_reach(process: Process) -> bool:
    """Whether the state says no more of who ends the wait of one than who can."""
    return process.sign is Sign.BLOCKED and any(has_how(process, how) for how in REACHES)


def freeing_lines(waits: Waits) -> List[Proposal]:
    """Returns a line for those who may end the wait of some, likely end none, and alone keep these from being stuck."""
    groups: Dict[int, List[Aside]] = {}  # by the ids of those that wait
    for doubt in waits.decision.doubts(sorted(waits.decision.likely)):
        groups.setdefault(id(doubt.waits), []).append(doubt)
    lists: Dict[Tuple[str, ...], Dict[str, None]] = {}
    for doubts in groups.values():
        names = {doubt.who: None for doubt in doubts if doubt.who is not None and doubt.strength is not Strength.UNSEEN}
        lists.setdefault(tuple(doubts[0].waits), {}).update(names)
    return [Proposal(freeing_nobody(names), "if that is so", False, list(waiting)) for waiting, names in lists.items()
            if 0 < len(names) <= MOST]


def freeing_nobody(names: Iterable[str], place: str = "*") -> str:
    """Returns the line that some end nobody's wait."""
    return f"{word_of(place)} of {' or '.join(map(word_of, names))} -> {FREES} nobody"


def names_of(processes: Iterable[Process]) -> List[str]:
    return [process.name for process in processes]


def wanted_of(processes: Iterable[Process]) -> Dict[str, List[str]]:
    """Returns what facts on holders are asked for, with the names of those that wait for each."""
    waiting: Dict[str, List[str]] = {}
    for process in processes:
        for what in (group.what for part in process.parts for group in part if group.what):
            waiting.setdefault(what, []).append(process.name)
    return waiting


def lines_of(processes: Iterable[Process], words: Words) -> List[Line]:
    """Returns the lines of facts that some processes need, most needed first. The first line that matches counts, so
    one without an operation is last."""
    places: Dict[Tuple[str, str], List[Process]] = {}
    for process in processes:
        places.setdefault((place_name(process), process.operation), []).append(process)
    lines = [(not place[1], line) for place, at_place in places.items() for line in lines_at(at_place, words)]
    return [line for _, line in sorted(lines, key=lambda row: (row[0], -len(row[1][1])))]


def lines_at(processes: List[Process], words: Words) -> List[Line]:
    """Returns the lines for those at one place: one, or one for each wait there."""
    is_same = len(set(map(is_for_all, processes))) == 1
    shared = partners_of(processes, words.names) if is_same else []
    if shared:
        return [(line_of(processes, shared), processes)]
    waits: Dict[object, List[Process]] = {}
    for process in processes:
        objects = tuple(what for what in process.objects if "=" not in what and not what.startswith(OF_A_CALL))
        key = tuple(process.frames), objects, tuple(words.of(process)), is_for_all(process)
        waits.setdefault(key, []).append(process)
    rows = list(waits.values())
    marks = tell_apart(rows) if len(rows) > 1 else [[]]
    return [(line_of(row, words.of(row[0]), mark), row) for row, mark in zip(rows, marks)]


def is_for_all(process: Process) -> bool:
    """Whether one is likely to need all of some."""
    return process.is_collective or bool(process.parts) and process.is_for_all()


def line_of(alike: List[Process], words: Sequence[str], mark: Sequence[str] = ()) -> str:
    """Returns the line for some that wait alike. `mark` tells them from others at their place."""
    one = alike[0]
    operation = [word_of(one.operation)] if one.operation else []
    fact = ["all" if is_for_all(one) else "any", *map(word_of, words or [COMPLETE])]
    return " ".join([word_of(place_name(one)), *mark, *operation, "->", *fact])


def place_name(process: Process) -> str:
    """Returns the pattern of its topmost frame: FUNCTION:LINE."""
    return frame_name((process.frames or ["*"])[0])


def frame_name(text: str) -> str:
    match = FRAME.match(text)
    return f"{match['function']}:{match['line']}" if match else text


# Whom the state suggests


class Words:
    """The words of facts for those whom the state suggests for each wait: patterns of names without their numbers,
    where such a pattern takes no others. Too many are none."""

    def __init__(self, processes: Iterable[Process]) -> None:
        self.names = {process.name for process in processes}
        self.taken: Dict[str, int] = {}  # how many names a pattern takes
        self.known: Dict[Tuple[str, ...], List[str]] = {}

    def of(self, process: Process) -> List[str]:
        """Returns the words for the wait of one."""
        lists = [group.names() for part in process.parts for group in part if group.how in SUGGESTS]
        names = tuple(dict.fromkeys(name for group in lists for name in group)) if sum(map(len, lists)) <= MANY else ()
        if names not in self.known:
            patterns = self.patterns_for(names)
            self.known[names] = [*patterns, COMPLETE] if 0 < len(patterns) <= MOST else []
        return self.known[names]

    def patterns_for(self, names: Sequence[str]) -> List[str]:
        families = Counter(NUMBER.sub("*", name) for name in names)
        for pattern in families.keys() - self.taken.keys():
            self.taken[pattern] = sum(is_like(pattern, name) for name in self.names)
        patterns = (NUMBER.sub("*", name) for name in names)
        return list(dict.fromkeys(pattern if families[pattern] == self.taken[pattern] else name
                                  for name, pattern in zip(names, patterns)))


def partners_of(processes: List[Process], names: Set[str]) -> List[str]:
    """Returns the words for the other sides of some waits that are arguments there: 'rank-{to}'."""
    if is_for_all(processes[0]):
        return []
    family, rows = NUMBER.sub("", processes[0].name), [(process.name, values_of(process)) for process in processes]
    patterns = []
    for key in filter(PARTNER.fullmatch, rows[0][1]):
        others = ((name, family + values.get(key, "")) for name, values in rows)
        if all(other in names and other != name for name, other in others):
            patterns.append(f"{family}{{{key}}}")
    return patterns + [COMPLETE] * (TWO in processes[0].operation and len(patterns) == 1)


def values_of(process: Process) -> Dict[str, str]:
    return dict(argument.split("=", 1) for argument in process.objects if "=" in argument)


# What tells waits apart


def tell_apart(rows: List[List[Process]]) -> List[List[str]]:
    """Returns for each wait at one place the words that only its processes match: a caller, or their names."""
    callers = [{frame_name(caller) for caller in row[0].frames[1:]} for row in rows]
    counts = Counter(caller for of_row in callers for caller in of_row)
    own = [[frame_name(caller) for caller in row[0].frames[1:] if counts[frame_name(caller)] == 1][:1] for row in rows]
    if all(own):
        return [["<", word_of(caller[0])] for caller in own]
    return [["of", *names_for([process.name for process in row], rows)] for row in rows]


def names_for(names: List[str], rows: List[List[Process]]) -> List[str]:
    """Returns the words for some names that no other process at their place has: a pattern, or all of them."""
    start = NUMBER.sub("", os.path.commonprefix(names))
    others = {process.name for row in rows[:FEW] for process in row}.difference(names)
    if len(names) > 1 and start and len(rows) <= FEW and not any(other.startswith(start) for other in others):
        return [word_of(f"{start}*")]
    return [word for name in names for word in ("or", word_of(name))][1:]
