"""A stall in which nothing stands that a program or its user has named: for mailing.

What may stay is on the lists below: keys, our own words and those of the systems, and the names that stand here for
others. All else is dropped or replaced, so what is added to a sketch or to notes is too, until it is on a list."""
from __future__ import annotations

import json
import re
from dataclasses import replace
from typing import Any, Dict, Iterator, List, Sequence, Tuple

from ..core.dump import MARK, NO_SITE, Dump
from ..core.making import known_premises
from ..core.model import HOWS, Anybody, Sign, Strength, Wakers, Who, once
from ..core.sketch import (BARE, BY_HAND, DONE, FACT, NEEDED, OLDER, PREMISE, REST, SYSTEM, WORK, FactRow, Process,
                           Sketch)
from ..core.sketch_json import sketch_of, text_of_sketch, tree_of
from ..core.snapshots import AS_OF
from ..systems import NAMES, described

HIDDEN = "not shown"
KEYS = {
    "processes", "lists", "in_transit", "system", "as_of", "premises", "facts", "readings",  # of a sketch
    "name", "sign", "wait", "who", "how", "strength", "reason", "site", "frames", "operation", "objects", "because",
    "spoilt", "collective", "at", "text", "took",  # of its processes and facts
    "version", "sites", "state", "dependents",  # of a dump
    "sketch", "names", "left_out", "folded",  # of its notes
}
# Names that stand for others, and what is made of them.
NAME = re.compile(r"(?:(?:fact )?facts:|(?:premise )?premise-|operation-|site|list[ -]|[pfo])\d+")
FIRST_OF = re.compile(AS_OF.format(r"(?:two|\d+)"))
ENDED = "as of SIGQUIT, which ended the program"
RUNS = (WORK, "a dead message will come to it", "a fact says so", "a message is ready for it",
        "computes", "it came after the first state", "it computes", "it has moved", "it is about to begin",
        "it is ready to continue", "it looks again and again", "it looks again and again, and sleeps between",
        "it moved between two looks",
        "it sleeps", "it sleeps, or waits with a limit", "it tries a few times",
        "it tries that for some minutes at most", "it waits with a limit", "its client computes", "its client sleeps",
        "its timer comes", "sleeps", "waits for a client", "waits for a signal",
        "waits for a timer", "waits for data", "waits for its time", "waits on a connection", "waits with a limit",
        "what it waited for is done", "who is on another machine may send", "yields")
TIMED = "timed "
WORDS = {"", HIDDEN, BARE, BY_HAND, DONE, NEEDED, OLDER, REST, SYSTEM, MARK, NO_SITE, "idle", "active",
         *HOWS, *(sign.value for sign in Sign), *(strength.value for strength in Strength), *RUNS,
         ENDED, "chan send", "chan receive", "IO wait", "MPI_Sendrecv sends",
         "MPI_Sendrecv receives", "traced by", "no call",
         *(word for system in NAMES for word in described(system).operations.split())}


class Shorts:
    """Short names for long ones, each the same as often as it comes."""

    def __init__(self, letter: str) -> None:
        self.letter = letter
        self.known: Dict[str, str] = {}

    def of(self, text: str) -> str:
        return self.known.setdefault(text, f"{self.letter}{len(self.known) + 1}")

    def all(self, texts: Sequence[str]) -> List[str]:
        return [self.of(text) for text in texts]


def words_of_premises() -> Iterator[str]:
    """Yields the words of premises: their names, as reasons too, and sentences. Where systems are joined, a name may
    stand behind that of its system."""
    for system, name, sentence in known_premises():
        yield from (system, sentence, name, f"{PREMISE} {name}", f"{system} {name}", f"{PREMISE} {system} {name}")


class Redaction:
    """Gives what a sketch names other names, and replaces all words that aren't on a list."""

    def __init__(self, system: str) -> None:
        self.names, self.sites, self.frames, self.objects, self.facts, self.operations, self.premises = map(
            Shorts, ("p", "site", "f", "o", "facts:", "operation-", "premise-"))
        self.lists: Dict[int, Who] = {}  # by their ids, so that waits share them again
        self.parts = once(lambda parts: [tuple(map(self.wakers, part)) for part in parts])
        self.words = {*WORDS, *words_of_premises()}
        self.words.update([system] if {*system.split(" and ")} <= self.words else [])

    def process(self, process: Process) -> Process:
        """Returns a process with what the parser's own words say of it: what it waits in, for whom, and why."""
        return replace(process, name=self.names.of(process.name), parts=self.parts(process.parts), note="", thread="",
                       site=None if process.site is None else self.sites.of(process.site), meeting="", effect="",
                       frames=process.frames if process.frames == [REST] else self.frames.all(process.frames),
                       operation=self.operation(process.operation), objects=self.objects.all(process.objects),
                       count=None, because=list(map(self.because, process.because)))

    def wakers(self, group: Wakers) -> Wakers:
        """Returns the wakers by their short names, with the table's own words for how they end a wait."""
        if id(group.who) not in self.lists:
            self.lists[id(group.who)] = group.who if isinstance(group.who, Anybody) else self.names.all(group.who)
        return group._replace(who=self.lists[id(group.who)], because=(), what="")

    def operation(self, text: str) -> str:
        timed, name = (TIMED, text[len(TIMED):]) if text.startswith(TIMED) else ("", text)
        return timed + (name if not name or name in self.words else self.operations.of(name))

    def because(self, reason: str) -> str:
        word, _, rest = reason.partition(" ")
        if word == FACT:
            return f"{FACT} {self.facts.of(rest)}"
        return f"{PREMISE} {self.premise(rest)}" if word == PREMISE else reason

    def premise(self, name: str) -> str:
        return name if name in self.words else self.premises.of(name)

    def fact(self, row: FactRow) -> FactRow:
        return {"at": self.facts.of(row["at"]), "text": HIDDEN, "took": {}}

    def sketch(self, sketch: Sketch) -> Sketch:
        """Returns a sketch in which only what is on the lists stands."""
        premises = {self.premise(name): sentence for name, sentence in sketch.premises.items()}
        pairs = [(self.names.of(a), self.names.of(b)) for a, b in sketch.in_transit]
        made = Sketch(list(map(self.process, sketch.processes)), pairs, sketch.system, sketch.as_of, [], premises,
                      list(map(self.fact, sketch.facts)), sketch.readings)
        return sketch_of(self.redact_tree(tree_of(made)), "the copy")

    def is_own(self, text: str) -> bool:
        """Whether a text is on a list, or a name that stands for another."""
        text = text[len(TIMED):] if text.startswith(TIMED) else text
        return text in self.words or any(pattern.fullmatch(text) for pattern in (NAME, FIRST_OF))

    def redact_tree(self, tree: Any) -> Any:
        """Returns a tree of JSON with the keys that may stay, in which other texts are replaced."""
        if isinstance(tree, dict):
            return {key: self.redact_tree(value) for key, value in tree.items() if key in KEYS or self.is_own(key)}
        if isinstance(tree, list):
            return [self.redact_tree(value) for value in tree]
        return HIDDEN if isinstance(tree, str) and not self.is_own(tree) else tree


def redact(sketch: Sketch) -> Sketch:
    return Redaction(sketch.system).sketch(sketch)


def redacted_texts(sketch: Sketch) -> Iterator[Tuple[str, str]]:
    """Yields the name and the text of each file of a redacted copy: of the sketch, the dump, and its notes."""
    redaction = Redaction(sketch.system)
    made = redaction.sketch(sketch)
    dump = Dump(made)
    yield "sketch.json", text_of_sketch(made) + "\n"
    for name, text in (("dump.json", dump.text(dump.low)), ("dump.notes.json", dump.notes())):
        yield name, json.dumps(redaction.redact_tree(json.loads(text)), indent=1) + "\n"
