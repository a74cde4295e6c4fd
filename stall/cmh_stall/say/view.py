"""An answer's tree by the numbers of its processes and roots, with what is said of each process in words."""
from __future__ import annotations

from functools import cached_property
from typing import Any, Dict, Iterable, List, Sequence, Set, Tuple

from ..core.doubt_words import NAMES, sentence
from ..core.files import short_name, shown
from ..core.model import COMES, Sign
from ..core.sketch import ALL, ANY, DONE, ENDED, PREMISE, RUNS, UNKNOWN
from .terminal import PLAIN, Style
from ..core.words import few, number_of, with_address

LINES = 8  # as many are shown; the others are counted
STUCK, LIKELY, UNDECIDED, NOT_STUCK = "stuck", "likely", "undecided", "not_stuck"  # verdicts, beside ENDED
RUNNING, MESSAGE, COME = "runs", "message_in_transit", "all_have_come"  # why one goes on by itself
GOES_ON = {MESSAGE: "has a message in transit to it", COME: "no longer waits for any process"}
RESTS, BLOCKED, OVER = Sign.RESTS.value, Sign.BLOCKED.value, Sign.ENDED.value
Tree = Dict[str, Any]


class View:
    """`everything` tells all names and lines."""

    def __init__(self, tree: Tree, everything: bool = False, style: Style = PLAIN) -> None:
        self.tree, self.everything, self.style = tree, everything, style
        self.rows: List[Tree] = tree["processes"]
        self.index = {row["name"]: index for index, row in enumerate(self.rows)}
        self.roots: List[List[int]] = [self.numbers(root["members"]) for root in tree["roots"]]
        self.doubts: Dict[int, Tree] = {row["number"]: row for row in tree["doubts"]}

    def numbers(self, names: Iterable[str]) -> List[int]:
        return [*map(self.index.__getitem__, names)]

    def with_verdict(self, *verdicts: str) -> List[int]:
        return [index for index, row in enumerate(self.rows) if row["verdict"] in verdicts]

    @cached_property
    def undecided(self) -> List[int]:
        return self.with_verdict(UNDECIDED)

    def behind(self, root: int) -> List[int]:
        return self.numbers(self.tree["roots"][root]["behind"])

    def is_cycle(self, root: int) -> bool:
        """Whether a root is just one cycle of several, in the order of its members."""
        return bool(self.tree["roots"][root]["is_cycle"])

    def restart(self, root: int) -> str:
        """Returns what breaks a root."""
        row = self.tree["roots"][root]
        return ". ".join(filter(None, [row["cure"]["says"], row["enough"]]))

    def doubts_of(self, root: int) -> List[Tree]:
        return [self.doubts[number] for number in self.tree["roots"][root]["doubts"]]

    def runners_by_premise(self) -> Dict[str, List[int]]:
        """Returns the premises on which some run, with these."""
        runners: Dict[str, List[int]] = {}
        for index, row in enumerate(self.rows):
            reasons = row["rests_on"] if row["goes_on"] == RUNNING else ()
            for word, _, name in (reason.partition(" ") for reason in reasons):
                if word == PREMISE:
                    runners.setdefault(name, []).append(index)
        return runners

    # Lists

    def some(self, names: Sequence[str], last: str = ", ") -> str:
        """Returns the names, at most the first few and how many more there are. `last` stands before the last one."""
        return few(names, len(names) if self.everything else NAMES, last)

    def first(self, lines: List[str], what: Tuple[str, str]) -> List[str]:
        """Returns at most the first few lines, and how many more there are."""
        if self.everything or len(lines) <= LINES:
            return lines
        return lines[:LINES] + [f"  and {number_of(len(lines) - LINES, *what)} more (--all shows them)"]

    # One process

    def name(self, index: int) -> str:
        return short_name(self.rows[index]["name"]) or "''"

    def note(self, index: int) -> str:
        return shown(self.rows[index]["note"])

    def what(self, index: int, has_address: bool = True) -> str:
        """Returns at what one waits."""
        row = self.rows[index]
        return with_address(shown(row["what"]), row["objects"] if has_address else ())

    def is_quiet(self, index: int) -> bool:
        """Whether one rests, and tells of no stall."""
        return self.rows[index]["sign"] == RESTS and self.rows[index]["verdict"] not in (STUCK, LIKELY)

    def is_blocked(self, index: int) -> bool:
        """Whether one waits, as nothing has ended its wait."""
        return self.rows[index]["sign"] == BLOCKED and self.rows[index]["goes_on"] is None

    def answer(self, index: int) -> str:
        """Returns what is known of one, in a few words."""
        row = self.rows[index]
        stuck = "likely stuck" if row["verdict"] == LIKELY else "stuck"
        if row["root"] or row["behind"]:
            return f"{stuck} in root {row['root']}" if row["root"] else f"{stuck} behind {self.root_names(index)}"
        if row["kind"] == ENDED:
            return "has ended" if row["reason"] == DONE else "has ended and is still needed"
        if self.is_quiet(index):
            return shown(row["reason"])
        if row["kind"] == UNKNOWN:
            return "unknown"
        return "undecided" if row["verdict"] == UNDECIDED else "runs" if row["kind"] == RUNS else "not stuck"

    def root_names(self, index: int) -> str:
        numbers = [*map(str, self.rows[index]["behind"])]
        return f"root {numbers[0]}" if len(numbers) == 1 else f"the roots {', '.join(numbers)}"

    def goes_on_words(self, index: int) -> str:
        """Returns why one goes on by itself."""
        return GOES_ON.get(self.rows[index]["goes_on"] or "", "runs")

    # Whom one waits for

    def whom(self, index: int, with_against: bool = False) -> List[str]:
        """Returns for whom one waits, those besides too, by the order of its wakers, maybe with those against."""
        row = self.rows[index]
        if row["waits_for_list"] is not None:
            return self.list_named(row["waits_for_list"])
        left = {*row["waits_for"], *row["besides"], *(name for one in row["one_of"] for name in self.list_named(one))}
        groups = (group for part in row["wakers"] for group in part if with_against or group["strength"] != "against")
        return [*dict.fromkeys(name for wakers in groups for name in self.names_of(wakers) if name in left)]

    def names_of(self, wakers: Tree) -> List[str]:
        """Returns the names of some wakers."""
        who = wakers["who"]
        return self.list_named(who) if isinstance(who, str) else who or []

    def list_named(self, name: str) -> List[str]:
        names: List[str] = self.tree["lists"][name]
        return names

    def is_for_all(self, index: int) -> bool:
        """Whether one waits, or has waited, for all of some."""
        wakers = self.rows[index]["wakers"]
        return len(wakers) > 1 or bool(wakers) and COMES in [group["how"] for group in wakers[0]]

    def wait(self, index: int, alone: bool = True) -> str:
        """Returns whom one waits for, in words; also of several that are alike."""
        row = self.rows[index]
        if row["kind"] in (ANY, ALL):
            return self.wait_for_all(index) if self.is_for_all(index) else self.wait_for_any(index, alone)
        if row["kind"] == ENDED:
            return self.answer(index)
        reason = row["reason"] if row["kind"] == RUNS else row["why_unknown"]
        return f"{'runs' if row['kind'] == RUNS else 'is unknown'}{f': {shown(reason)}' if reason else ''}"

    def wait_for_any(self, index: int, alone: bool) -> str:
        whom, itself = self.whom(index), self.rows[index]["name"] if alone else None
        names = [f"{short_name(name)}{self.ended_word(name)}" for name in whom if name != itself]
        names += ["itself"] if itself in whom else []
        return f"waits for {'any of ' if names[1:] else ''}{self.some(names)}" if names else "can never be unblocked"

    def ended_word(self, name: str) -> str:
        return " (has ended)" if self.rows[self.index[name]]["sign"] == OVER else ""

    def wait_for_all(self, index: int) -> str:
        """Returns whom one needs, of those that have not come, with what is known of each: stuck ones first. Once all
        others have come, any of several may be enough."""
        groups: Dict[str, List[str]] = {}
        for other in sorted(self.numbers(self.whom(index, True)), key=lambda other: not self.is_inside(other)):
            groups.setdefault(self.answer(other), []).append(self.name(other))
        words = [f"{self.some(names)} ({answer})" for answer, names in groups.items()]
        which = "all" if self.rows[index]["kind"] == ALL else "any"
        return f"waits for {which} of {', '.join(words)}" if words else "waits for all of its list, and all have come"

    def is_inside(self, index: int) -> bool:
        """Whether one is stuck, or frees nobody as it has ended."""
        return self.rows[index]["verdict"] in (STUCK, LIKELY, ENDED)

    def along_paths(self) -> List[int]:
        """Returns those whom somebody may unblock, each followed by the others on its path."""
        seen: Dict[int, None] = {}
        for index in range(len(self.rows)):
            while self.rows[index]["unblocked_by"] is not None and index not in seen:
                seen[index] = None
                index = self.index[self.rows[index]["freed_by"]]
        return [*seen]

    # Doubts

    def doubt_words(self, doubt: Tree, members: Sequence[int]) -> str:
        """Returns in words what a doubt about some says."""
        waits: Set[str] = set(doubt["waits"])
        whom = [self.name(index) for index in members if self.rows[index]["name"] in waits] or \
            list(map(short_name, doubt["waits"]))
        return sentence(doubt, whom, max(len(whom), len(doubt["who"])) if self.everything else NAMES)
