"""The first screen of an answer: what is so, who, unless, what to do, and where there is more. All else is
elsewhere."""
from __future__ import annotations

import textwrap
from functools import lru_cache
from typing import Collection, List, NamedTuple, Sequence, Set, Tuple

from .terminal import PLAIN, AsItIs, Painted, Style, fill, paint_line
from ..core.words import few, number_of
from .brief import GOES_ON, KINDS, NAMES
from .cutting import cut, cut_name, quote_for_shell
from .ends import Ends
from .members import FOR_WHICH, SHORT, SOME_BEHIND
from .view import LIKELY, NOT_STUCK, Tree

ROOTS, DOUBTS, CURES, BUSY = 5, 4, 4, 2  # of each, as many are shown; the others are counted
HEAD = 7  # columns of the word before a line
LINES, WORDS = 10, 60  # before what to do, and to the end of a group
COLOURS = {"DEADLOCK": "stuck", "LIKELY DEADLOCK": "likely", "NO DEADLOCK": "not_stuck"}
SAME = "Nothing in a state tells one with nothing to do from one whose message was lost."


class More(NamedTuple):
    """How the reader asks for more: the command, if it isn't the one that was typed, whether it takes --true, and the
    command that looks anew, if whom it looked at is still there."""

    command: str = ""
    has_true: bool = False
    look: str = ""

    def asks(self, option: str) -> str:
        return f"{self.command} {option}".lstrip()


class Group(NamedTuple):
    """The lines of a group, measured: its title, its members in one line each (`narrow`) or up to two (`wide`), who is
    likely behind them, and its doubts cut to a row each, in a row if that is enough, or in two."""

    title: List[str]
    wide: List[str]
    narrow: List[str]
    behind: List[str]
    cut: List[str]
    short: List[str]
    whole: List[str]


class Screen(Ends):
    """`more` has the commands that say more."""

    def __init__(self, tree: Tree, more: More = More(), style: Style = PLAIN) -> None:
        super().__init__(tree, style)
        self.more = more
        self.head = lru_cache(maxsize=None)(self.head_line)

    def text(self) -> str:
        body, is_long = self.groups() if self.roots else (self.ends(), True)
        lines = [self.head(is_long), *map(self.wrap, body), *self.last()]
        return fill([lines], self.style._replace(width=self.width))

    def wrap(self, line: str) -> str:
        """Returns a line that is broken, also within a word: a path may be longer than it."""
        if isinstance(line, AsItIs) or len(line) <= self.width:
            return line
        indent = max(2, len(line) - len(line.lstrip()))
        return AsItIs(textwrap.fill(line.strip(), self.width, initial_indent=" " * indent, break_on_hyphens=False,
                                    subsequent_indent=" " * (indent + 2)))

    # The headline, which names the unit and kinds of processes if it `is_long`

    def head_line(self, is_long: bool) -> Painted:
        headline = self.tree["headline"]
        if self.roots:
            words = self.roots_words(is_long)
        else:
            words = {"NO DEADLOCK": self.free_words, "IDLE OR STALLED": self.idle_words}.get(
                headline, self.open_words)()
        return paint_line(f"{headline}: {words}", (headline, COLOURS.get(headline, "undecided")))

    def roots_words(self, is_long: bool) -> str:
        """Returns in a sentence or two who waits for whom, of those who are certain, or else of the likely ones."""
        certain = [number for number, root in enumerate(self.tree["roots"]) if root["is_certain"]]
        roots = certain or [*range(len(self.roots))]
        told = {number + 1 for number in roots}
        behind = [row["verdict"] for row in self.rows if row["root"] is None and not told.isdisjoint(row["behind"])]
        likely = sum(verdict == LIKELY for verdict in behind) if certain else 0
        members = [index for number in roots for index in self.roots[number]]
        whom = "these" if len(roots) > 1 else "it" if len(members) == 1 else "them"
        sure = len(behind) - likely
        more = f"; {sure:,} more behind{f' {whom}' if is_long else ''}" if sure else ""
        more += f"{',' if more else ';'} {likely:,} more likely" if likely else ""
        others = len(self.roots) - len(roots)
        rest = f" {number_of(others, 'more group is', 'more groups are')} likely to." if others else ""
        return f"{self.group_words(roots, members, is_long)}{more}. {self.life(is_long, is_long)}{rest}"

    def group_words(self, roots: Sequence[int], members: Sequence[int], is_long: bool) -> str:
        """Returns who is meant, and where it is, if there is room for that: what to do names it too."""
        units = {unit["unit"]: unit for number in roots for unit in self.tree["roots"][number]["units"]}
        one = [*units.values()][0] if len(units) == 1 else None
        where = f" of {one['name']}" if is_long and one and not one["is_process"] else ""
        nouns = self.nouns_of(members, KINDS if is_long else 1)
        if len(roots) > 1:
            return f"{len(roots):,} groups wait, each for itself: {nouns}{where} in all"
        if len(members) == 1:
            verb = "can" if self.tree["roots"][roots[0]]["is_certain"] else "will likely"
            return f"{self.name(members[0])}{where} {verb} never be unblocked"
        return f"{nouns}{where} wait for each other"

    def life(self, is_long: bool = True, is_beside: bool = False) -> str:
        """Returns whether anybody is at work, maybe beside a group, and who, if they are few."""
        busy = [index for index in self.with_verdict(NOT_STUCK) if self.rows[index]["sign"] == GOES_ON]
        names = " and ".join(cut_name(self.name(index), SHORT) for index in busy) if is_long and len(busy) <= BUSY \
            else ""
        who = names or (number_of(len(busy), "other", "others") if is_beside else f"{len(busy):,}")
        return f"{who} {'is' if len(busy) == 1 else 'are'} busy." if busy else "Nobody is busy."

    def free_words(self) -> str:
        blocked = [*filter(self.is_blocked, range(len(self.rows)))]
        if not blocked:
            return f"nobody waits for another one. {self.life()}"
        goes_on = any(row["sign"] == GOES_ON for row in self.rows)
        return f"{self.nouns_of(blocked)} {'waits, and is' if len(blocked) == 1 else 'wait, and all are'} freed by " \
            f"one that {'goes on' if goes_on else 'sleeps'}."

    def idle_words(self) -> str:
        there = [index for index, row in enumerate(self.rows) if row["verdict"] != "ended"]
        return f"{f'of {self.nouns_of(there)} ' if there else ''}nobody goes on. {SAME}"

    def open_words(self) -> str:
        if not self.undecided:
            return f"some who have nothing to do may lack a message that was lost. {self.life()}"
        whom = "it" if len(self.undecided) == 1 else "them"
        return f"of {self.nouns_of(self.undecided)} it isn't known who frees {whom}. {self.life()}"

    # Groups

    def groups(self) -> Tuple[List[str], bool]:
        """Returns the lines of the groups, and whether these leave room for the long headline."""
        lines: List[str] = []
        is_long = True
        said: Set[int] = set()
        most = ROOTS if len(self.roots) > 1 else 1
        for number in range(len(self.roots[:most])):
            group = self.measured(number, said)
            is_long = is_long and self.has_room(True, [*group.title, *group.wide, *group.behind], group.short)
            lines += self.fitting(group, is_long)
            said.update(doubt["number"] for doubt in self.told_doubts(number))
        left = len(self.roots) - most
        return lines + ([f"  and {number_of(left, 'group', 'groups')} more"] if left > 0 else []), is_long

    def measured(self, number: int, said: Collection[int]) -> Group:
        """Returns the lines of a group. The doubts that are `said` above are told by their numbers."""
        members, is_certain = self.roots[number], self.tree["roots"][number]["is_certain"]
        title = [f"Group {number + 1}{'' if is_certain else ', likely'}"] if len(self.roots) > 1 else []
        doubts = [self.unless(number, said, rows, is_cut) for rows, is_cut in ((1, True), (1, False), (2, False))]
        return Group(title, self.member_lines(members), self.member_lines(members, False), self.likely_behind(number),
                     *doubts)

    def fitting(self, group: Group, is_long: bool) -> List[str]:
        """Returns the lines of a group that have room, with as much as may be."""
        rows = [(who, doubts) for who in (group.wide, group.narrow) for doubts in (group.whole, group.short)]
        for who, doubts in rows:
            if self.has_room(is_long, [*group.title, *who, *group.behind], doubts):
                return [*group.title, *who, *group.behind, *doubts]
        who, note = group.narrow, group.narrow[-1]
        who = who[:-1 if note.endswith((FOR_WHICH, SOME_BEHIND)) else None]
        brief = [f"  S{SOME_BEHIND}"] if note.endswith(SOME_BEHIND) else []  # (the least that is to be said of it)
        has_brief = self.has_room(is_long, [*group.title, *who, *brief, *group.behind], group.cut)
        return [*group.title, *who, *(brief if has_brief else []), *group.behind, *group.cut]

    def has_room(self, is_long: bool, group: Sequence[str], doubts: Sequence[str]) -> bool:
        """Returns whether the headline with a group and its doubts is as short as it should be."""
        lines = [self.head(is_long), *group]
        height = len(fill([[*lines, *doubts]], self.style._replace(width=self.width)).splitlines())
        return sum(len(line.split()) for line in lines) <= WORDS and height <= LINES

    def likely_behind(self, number: int) -> List[str]:
        """Returns the line of those who are only likely to be stuck behind a group that is certain."""
        behind = self.behind(number) if self.tree["roots"][number]["is_certain"] else []
        names = [self.name(index) for index in behind if self.rows[index]["verdict"] == LIKELY]
        return [f"  Likely behind {'it' if len(self.roots[number]) == 1 else 'them'}: {self.few(names)}"] \
            if names else []

    # Doubts

    def unless(self, number: int, said: Collection[int], rows: int, is_cut: bool) -> List[str]:
        """Returns the first few doubts on which it hangs that a group is stuck, of so many rows each if that helps, or
        cut to one."""
        whom, doubts = self.whose_wait(number), self.told_doubts(number)
        left, numbers = len(self.doubts_of(number)) - len(doubts), [doubt["number"] for doubt in doubts]
        if numbers and set(numbers) <= set(said):
            return [f"Unless {whom} is freed by {self.few(map(str, numbers), ' or ')}, as above"]
        room = rows * (self.width - HEAD)
        words = [self.doubter_words(doubt, room) for doubt in doubts]
        lines = [self.doubt_lines(doubt, cut(text, room) if is_cut else text) for doubt, text in zip(numbers, words)]
        more = [f"  and {left:,} more"] if left else []
        return [f"Unless {whom} is freed by", *lines, *more] if lines else []

    def told_doubts(self, number: int) -> List[Tree]:
        """Returns the doubts that are told: all of a few, or the first of them."""
        doubts = self.doubts_of(number)
        return doubts[:DOUBTS - bool(doubts[DOUBTS:])]

    def whose_wait(self, number: int) -> str:
        """Returns whose wait it is that somebody may end."""
        waits: Set[str] = {name for doubt in self.doubts_of(number) for name in doubt["waits"]}
        freed = [index for index in self.roots[number] if self.rows[index]["name"] in waits]
        return "it" if len(self.roots[number]) == 1 else self.name(freed[0]) if len(freed) == 1 else "one of them"

    def doubt_lines(self, number: int, words: str) -> str:
        lines = textwrap.wrap(words, self.width - HEAD, break_on_hyphens=False)
        return AsItIs("\n".join(f"{f'  {number:<3}' if not row else '':<{HEAD - 2}}{line}"
                                for row, line in enumerate(lines)))

    # What to do, and where there is more

    def last(self) -> List[str]:
        words = self.tree["cut"]["unconfirmed"]
        unconfirmed = [f"{words}."] if words else []
        rows = [("Do", self.to_do()), ("Sure?", self.to_be_sure() + unconfirmed), ("More", self.to_see_more())]
        return [self.row(word, texts) for word, texts in rows if texts]

    def row(self, word: str, texts: Sequence[str]) -> str:
        """Returns the lines behind a word. A command isn't broken, so that it can be copied."""
        lines: List[str] = []
        for text in texts:
            lines += [text] if isinstance(text, AsItIs) else textwrap.wrap(
                text, self.width - HEAD, break_on_hyphens=False, break_long_words=False)
        return AsItIs("\n".join(f"{word if not row else '':<{HEAD}}{line}" for row, line in enumerate(lines)))

    def to_do(self) -> List[str]:
        """Returns what breaks all groups. If there is none, it is a command that ends the one at which most waits end,
        or else at whom to look, or to wait."""
        other_words = {"NOT KNOWN": self.look_words, "NO DEADLOCK": self.wait_words}.get(self.tree["headline"], str)
        words = self.cure_words() if self.roots else self.end_words() or other_words()
        enough = self.tree["roots"][0]["enough"] if len(self.roots) == 1 else ""
        if self.tree["is_hidden_by_sleepers"]:
            return self.to_look_for_longer(words)
        return [f"{text}." for text in (words, enough) if text]

    def to_look_for_longer(self, words: str) -> List[str]:
        """Returns how to look for longer, where some would be likely to be stuck if who sleeps only ticked."""
        longer = "look for a minute, as who sleeps may only come back to its loop"
        others = f"or {words}." if words else ""
        if not self.more.look:
            return [f"{longer}, {others}" if others else f"{longer}."]
        return list(filter(None, [f"{longer}:", AsItIs(f"{self.more.look} --seconds 60"), others]))

    def cure_words(self) -> str:
        cures = self.tree["cures"]
        words = []
        for cure in cures[:CURES]:
            groups = few(map(str, cure["roots"]), NAMES)
            of = "" if len(self.roots) == 1 else " (all groups)" if len(cures) == 1 else \
                f" ({'group' if len(cure['roots']) == 1 else 'groups'} {groups})"
            words.append(f"{cure['says']}{of}")
        more = [f"{len(cures) - CURES:,} more"] if cures[CURES:] else []
        return ", and ".join([*words, *more])

    def end_words(self) -> str:
        words = [f"{end['says']} ({end['waiters']:,} {'waits' if end['waiters'] == 1 else 'wait'} for it)"
                 for end in self.tree["ends"]]
        return "; if some wait on, ".join(["if it stays so, " + words[0], *words[1:]] if words else [])

    def to_be_sure(self) -> List[str]:
        """Returns how the reader says that no doubt of the first likely group holds."""
        first = next((root["root"] - 1 for root in self.tree["roots"] if not root["is_certain"]), None)
        if first is None:
            return []
        doubts = self.doubts_of(first)
        doubters = sum(max(1, len(doubt["who"])) for doubt in doubts)
        several = f"none of {'these' if len(doubts) <= DOUBTS else f'the {len(doubts)} (see --all)'} ever"
        who = {1: "it never", 2: "neither ever"}.get(doubters, several)
        what, numbers = f"{who} frees {self.whose_wait(first)}", ",".join(str(doubt["number"]) for doubt in doubts)
        if not self.more.has_true:
            return [f"if {what}, it is certain."]
        words, command = f"is it true that {what}? Then it is certain:", self.more.asks(f"--true {numbers}")
        return [f"{words} {command}"] if len(words) + len(command) < self.width - HEAD else [words, AsItIs(command)]

    def to_see_more(self) -> List[str]:
        """Returns the commands that say more. Where a long path makes the second one wide, it has what differs."""
        asked = self.roots[0] if self.roots else sorted(self.undecided, key=lambda index: not self.is_blocked(index))
        first = [quote_for_shell(self.rows[index]["name"]) for index in asked[:1]]
        options = [f"--why {name}" for name in [*first, "NAME"]]
        texts = [self.more.asks(options[0]), *(f"or {option} in place of --all" for option in options)]
        why = [next(text for text in texts if len(text) <= self.width - HEAD)] if first else []
        return list(map(AsItIs, [self.more.asks("--all"), *why]))


def screen(tree: Tree, more: More = More(), style: Style = PLAIN) -> str:
    """Returns the first screen of an answer."""
    return Screen(tree, more, style).text()
