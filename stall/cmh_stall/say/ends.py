"""Where waits end if no group waits for itself: at whom who isn't understood, who goes on, or who has nothing to do."""
from __future__ import annotations

from collections import Counter
from functools import cached_property
from typing import Dict, Iterator, List, Sequence, Set, Tuple

from ..core.doubt_words import STAND_INS
from ..core.files import shown
from ..core.sketch import OF_SERVER, REST
from .brief import GOES_ON, NAMES, POLLS, SLEEPS, TICKS, many
from .members import MEMBERS, Members
from .view import BLOCKED, RESTS, Tree

ENDS = 4  # lines that are shown; the others are counted
MOVERS = 64  # of those who may free somebody, as many are looked at
UNSEEN = "somebody who wasn't looked at"
Row = Tuple[int, str, str]  # how many wait, who these are, and for whom


class Ends(Members):
    def ends(self) -> List[str]:
        waiting = sorted({index for freed in self.movers.values() for index in freed})
        rows = [*self.unknown_rows({*waiting}), *self.idle_rows(), *self.followed_rows(), *self.mover_rows()]
        rows.sort(key=lambda row: -row[0])
        lines = self.end_lines(rows[:ENDS]) or self.idle_lines()
        more = [f"  and {len(rows) - ENDS:,} more, by --all"] if rows[ENDS:] else []
        return [*self.waiting_lines(waiting), *lines, *more]

    def unknown_rows(self, told: Set[int]) -> List[Row]:
        """Returns the rows of those who aren't understood. Those that nobody waits for, and who aren't understood for
        the same reason, share one, but for those that are told of besides."""
        rows: List[Row] = []
        alike: Dict[str, List[int]] = {}
        for unknown in self.tree["unknown"]:
            index = self.index[unknown["name"]]
            reason = shown(self.rows[index]["why_unknown"])
            name = UNSEEN if self.rows[index]["frames"] == [REST] else f"{self.name(index)}{self.place_words(index)}"
            if reason and not unknown["others"] and name not in (UNSEEN, *STAND_INS):
                if index not in told:
                    alike.setdefault(reason, []).append(index)
                continue
            words = STAND_INS.get(name) or f"{name}{f': {reason}' if reason else ''}"
            rows.append((unknown["others"], self.waiting_for(unknown), words))
        for reason, members in alike.items():
            place = self.place_words(members[0]) if len(members) == 1 else ""
            rows.append((0, "", f"{self.few(map(self.name, members))}{place}: {reason}"))
        return rows

    def idle_rows(self) -> Iterator[Row]:
        for idle in self.tree["idle"]:
            index = self.index[idle["name"]]
            reason = shown(self.rows[index]["reason"]) or "has nothing to do"
            yield idle["others"], self.waiting_for(idle), f"{self.name(index)}, which {reason}"

    def followed_rows(self) -> List[Row]:
        followers: Dict[int, List[int]] = {}
        for index in self.along_paths():
            followers.setdefault(self.index[self.rows[index]["unblocked_by"]], []).append(index)
        return [(len(waiting), self.waiting_words(len(waiting), waiting), self.mover_words(end))
                for end, waiting in followers.items()]

    def mover_rows(self) -> Iterator[Row]:
        for index, freed in self.movers.items():
            stands_for = STAND_INS.get(self.rows[index]["name"])  # (which is told last)
            yield (0 if stands_for else len(freed), f"{self.freed_words(index)} may be freed by",
                   stands_for or self.mover_words(index))

    def mover_words(self, index: int) -> str:
        return f"{self.name(index)}, which {self.sign_words(index)}{self.place_words(index)}"

    def waiting_lines(self, members: Sequence[int]) -> List[str]:
        """Returns at what some wait of whom it isn't known who frees them; those that wait alike share a line."""
        groups: Dict[Tuple[str, str], List[int]] = {}
        for index in members:
            groups.setdefault((self.what(index, False), self.frames(index)), []).append(index)
        rows = list(groups.items())[:MEMBERS]
        names = [self.names_of_alike(alike) for _, alike in rows]
        wide = max(map(len, names), default=0)
        lines = [self.line_of(f"  {name:<{wide}}  ", what, "", frames)
                 for name, ((what, frames), _) in zip(names, rows)]
        left = sum(map(len, list(groups.values())[MEMBERS:]))
        return lines + ([f"  and {left:,} more"] if left else [])

    def idle_lines(self) -> List[str]:
        """Returns who has nothing to do, or waits for one who has, by what they wait for."""
        groups: Dict[str, List[int]] = {}
        for index, row in enumerate(self.rows):
            if row["sign"] == RESTS:
                groups.setdefault(shown(row["reason"] or "waits for work"), []).append(index)
            elif row["sign"] == BLOCKED:
                place = self.place_words(index).lstrip() or row["operation"]
                groups.setdefault(shown(f"waits {place}, where nobody else is at work"), []).append(index)
        rows = sorted(groups.items(), key=lambda row: -len(row[1]))
        return [f"  {self.few(map(self.name, members))}: {'each ' if members[1:] else ''}{words}"
                for words, members in rows[:ENDS]]

    def end_lines(self, rows: Sequence[Row]) -> List[str]:
        """Returns for whom some wait in the end. Those that wait for several are named once."""
        groups: Dict[str, List[str]] = {}
        for _, who, words in rows:
            groups.setdefault(who, []).append(words)
        return [line for who, ends in groups.items() for line in (
            [f"  {who}", *(f"    {words}" for words in ends)] if who and ends[1:] else
            [f"  {f'{who} {words}'.lstrip()}" for words in ends])]

    def waiting_for(self, row: Tree) -> str:
        return self.waiting_words(row["others"], self.numbers(row["names"][:NAMES]))

    def waiting_words(self, number: int, nearest: Sequence[int]) -> str:
        if not number:
            return ""
        nouns = " or ".join(map(many, dict.fromkeys(self.rows[index]["noun"] for index in nearest)))
        names = self.few(map(self.name, nearest)) if number <= NAMES else f"{number:,} {nouns}"
        return f"{names} {'waits' if number == 1 else 'wait'} in the end for"

    # Who may free those of whom it isn't known who frees them

    @cached_property
    def movers(self) -> Dict[int, Set[int]]:
        """Returns who sleeps or goes on, with those whom it may free of whom it isn't known who frees them."""
        users: Dict[object, Tuple[Tree, Set[int]]] = {}
        for index in self.undecided:
            for wakers in (wakers for part in self.rows[index]["wakers"] for wakers in part):
                key = wakers["who"] if isinstance(wakers["who"], str) else id(wakers)
                users.setdefault(key, (wakers, set()))[1].add(index)
        movers: Dict[int, Set[int]] = {}
        for wakers, waiting in users.values():
            for index in self.movers_of(wakers):
                if index in movers or len(movers) < MOVERS:
                    movers.setdefault(index, set()).update(waiting)
        return movers

    def movers_of(self, wakers: Tree) -> List[int]:
        """Returns those of some wakers who sleep or go on, and behind them who looks again and again; one who is named
        also where it ticks, as the holder of a lock that sleeps in its own loop."""
        there = self.numbers(self.names_of(wakers))
        again = (POLLS, TICKS) if wakers["strength"] == "named" else (POLLS,)
        return [index for signs in ((SLEEPS, GOES_ON), again) for index in there if self.rows[index]["sign"] in signs]

    def freed_words(self, index: int) -> str:
        """Returns whom one may free who sleeps or goes on."""
        freed = self.movers[index]
        return self.name(min(freed)) if len(freed) == 1 else f"{len(freed):,} of them"

    # What to do

    def look_words(self) -> str:
        """Returns at whom to look where it isn't known who frees some: at whom most waits end, or who may free most."""
        ends = {self.index[row["name"]]: row["others"] for row in [*self.tree["unknown"], *self.tree["idle"]]}
        frees = {index: len(freed) for index, freed in self.movers.items()}
        numbers: Dict[int, int] = {**ends, **self.followed, **frees}
        there = [index for index in numbers if self.rows[index]["reason"] != OF_SERVER]
        first = max(there, key=lambda index: numbers[index], default=None)
        if first is None:
            return "".join(f"see what {self.name(index)} waits for" for index in self.undecided[:1])
        row, number = self.rows[first], numbers[first]
        if row["name"] in STAND_INS or row["frames"] == [REST]:
            return f"look for {STAND_INS.get(row['name'], UNSEEN)}"
        does = "why {} has nothing to do" if row["sign"] == RESTS else "what {} does"
        whom = f": it may free {self.freed_words(first)}" if first in self.movers else \
            f": {number:,} {'waits' if number == 1 else 'wait'} for it" if number else ""
        return f"see {does.format(self.name(first))}{whom}"

    def wait_words(self) -> str:
        """Returns that nothing is to be done where all go on, and who makes most of them wait."""
        if not self.followed:
            return ""
        end, number = self.followed.most_common(1)[0]
        return f"restart nothing. If it takes long, see what {self.name(end)} does: {number:,} " \
            f"{'waits' if number == 1 else 'wait'} for it"

    @cached_property
    def followed(self) -> "Counter[int]":
        """How many wait in the end for each who goes on."""
        return Counter(self.index[self.rows[index]["unblocked_by"]] for index in self.along_paths())
