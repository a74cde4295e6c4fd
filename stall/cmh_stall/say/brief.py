"""What the first screen says of one process, and of a few: names, places, and for whom they wait, in few words."""
from __future__ import annotations

import re
from collections import Counter
from functools import cached_property
from itertools import islice
from typing import Dict, Iterable, List, Optional, Sequence, Set, Tuple, Union

from ..core.doubt_words import EXPIRES, short_subject
from ..core.doubt_words import NAMES as TOLD
from ..core.files import shown
from ..core.model import Sign
from ..core.sketch import ALL, ANY, ENDED, OF_SERVER, UNREADABLE
from ..systems import KERNEL
from .terminal import PLAIN, Style
from ..core.words import few, number_of, runs_of
from .cutting import cut_name, prefix_of
from .view import Tree, View

WIDTH = 80
NAMES, KINDS = 3, 2  # as many names are shown in one line, and kinds of processes
NAME, LONGEST = 38, 44  # letters of the names in a line, and of those for whom one waits
OTHERS = "of the others"
UNNAMED = re.compile(r"\S+\+0x[0-9a-f]+")  # a frame of a program without symbols
LENGTH = re.compile(r"(?:it )?(sleeps for [^,]+)")
GOES_ON, SLEEPS, POLLS, TICKS = (sign.value for sign in (Sign.GOES_ON, Sign.SLEEPS, Sign.POLLS, Sign.TICKS))


class Brief(View):
    def __init__(self, tree: Tree, style: Style = PLAIN) -> None:
        super().__init__(tree, False, style)
        self.width = min(WIDTH, style.width)
        self.prefix = prefix_of(self.told_names())
        self.lists: Dict[str, Tuple[Dict[int, None], Set[Optional[int]]]] = {}  # of wakers that several share

    def told_names(self) -> List[str]:
        """Returns the names of those who may be told of: of all, or else of all groups and who may free these."""
        names = [*self.index]
        numbers = {number for root in self.tree["roots"] for number in root["doubts"]}
        doubters = [name for number in numbers for name in self.doubts[number]["who"]]
        told = [*(name for root in self.tree["roots"] for name in root["members"]), *doubters] if self.roots else names
        return [name for name in told if "/" in name] or names

    def few(self, names: Iterable[str], last: str = ", ", number: int = 0) -> str:
        """Returns some names, or the first of them: of so many, if they are those of more."""
        return few(names, NAMES, last, number, NAMES + 1)

    # Names

    def name(self, index: int) -> str:
        """Returns the name of one, without what all that are told begin with."""
        name = super().name(index)
        return name[len(self.prefix):] if name.startswith(self.prefix) else name

    def name_of(self, name: str) -> str:
        return self.name(self.index[name]) if name in self.index else name

    def names_of_alike(self, members: Sequence[int]) -> str:
        """Returns the names of some that share a line, or the first of them."""
        names = [*map(self.name, members)]
        runs = runs_of(names)
        words = self.few(names if runs[NAMES + 1:] else runs)
        more = f" and {len(names) - 1:,} more" if names[1:] else ""
        return words if len(words) <= NAME else f"{cut_name(names[0], NAME - len(more))}{more}"

    def nouns_of(self, members: Sequence[int], kinds: int = KINDS) -> str:
        """Returns how many some are, and what, if these are few kinds. Those that the kernel sees are threads if a
        process has several of them."""
        counts = Counter(self.rows[index]["noun"] for index in members)
        if self.tree["system"] == KERNEL:
            owners = {self.rows[index]["thread"].partition("/")[0] for index in members}
            counts = Counter({"thread": len(members)}) if len(owners) < len(members) and "" not in owners else counts
        return " and ".join(number_of(number, noun, many(noun)) for noun, number in counts.items()) \
            if len(counts) <= kinds else number_of(len(members))

    # Places

    def frames(self, index: int) -> str:
        """Returns the innermost frames of the program's own, as many as fit: the first with its line."""
        row = self.rows[index]
        frames = [text for text in row["frames"] if text not in (row["operation"], row["name"])
                  and not UNNAMED.fullmatch(text)]
        if not frames or row["name"].startswith(frames[0]):  # (the name of a program or a service says no more)
            return ""
        if frames[1:] and frames[-1] == row["name"].rpartition("/")[2]:  # (as threads of Linux have theirs)
            frames.pop()
        names = [frames[0], *(text.split(" (")[0] for text in frames[1:])]
        while len(names) > 1 and len(" < ".join(names)) > self.width - 24:
            names.pop()
        return shown(" < ".join(names))

    def place_words(self, index: int) -> str:
        frames = self.frames(index).split(" < ")[0]
        return f" in {frames}" if frames and self.rows[index]["frames"] != [UNREADABLE] else ""

    def sign_words(self, index: int) -> str:
        row = self.rows[index]
        if row["reason"] == OF_SERVER or row["sign"] in (SLEEPS, POLLS):
            length = LENGTH.match(row["reason"])
            return str(row["reason"] if row["reason"] == OF_SERVER else length[1] if length else row["sign"])
        return str(row["sign"]) if row["sign"] in (TICKS, GOES_ON) else self.goes_on_words(index)

    # For whom one waits

    def is_of_others(self, index: int) -> bool:
        """Whether one only waits for the end or the answer of others, as a main thread does: it is told last."""
        return self.rows[index]["is_for_others"] and self.whom_words(index).endswith(OTHERS)

    def whom_words(self, index: int, most: int = LONGEST) -> str:
        whom = self.one_or_words(index, most)
        return whom if isinstance(whom, str) else self.name(whom)

    def one_or_words(self, index: int, most: int = LONGEST) -> Union[int, str]:
        """Returns the only one for whom one waits, or else in words for whom."""
        row = self.rows[index]
        if row["kind"] not in (ANY, ALL):
            return "nobody"
        others, roots = self.others_of(index)
        if len(others) == 1:
            other = next(iter(others))
            return other if other != index else "itself"
        number, of_all = len(others) - (index in others), row["kind"] == ALL
        is_same = roots == {row["root"]} and row["root"] and number + 1 == len(self.roots[row["root"] - 1])
        if is_same and len(others) > 2:
            return f"{'all' if of_all else 'any'} {OTHERS}"
        first = islice((other for other in others if other != index), NAMES + 1)
        names = list(map(self.name, first)) or ["itself"] * bool(others)
        last = " and " if of_all else " or "
        words = self.few(names, last, number) or "nobody"
        return words if len(words) <= most or number < 2 else f"{names[0]}{last}{number - 1:,} more"

    def others_of(self, index: int) -> Tuple[Dict[int, None], Set[Optional[int]]]:
        """Returns for whom one waits who hasn't ended, and of which roots these are: once for all that share a list."""
        row = self.rows[index]
        name = row["waits_for_list"]
        if name is None or row["near"] is not None:
            return self.there(row["near"] or (self.whom(index, True) if row["one_of"] else row["waits_for"]))
        if name not in self.lists:
            self.lists[name] = self.there(self.list_named(name))
        return self.lists[name]

    def there(self, names: Iterable[str]) -> Tuple[Dict[int, None], Set[Optional[int]]]:
        others = {index: None for index in self.numbers(names) if self.rows[index]["verdict"] != ENDED}
        return others, {self.rows[other]["root"] for other in others}

    @cached_property
    def wanted(self) -> Set[str]:
        """The names of those who have a lock that another one waits for."""
        return {name for row in self.rows for part in row["wakers"] for wakers in part if wakers["how"] == "owns"
                for name in self.names_of(wakers)}

    # Doubts

    def doubter_words(self, doubt: Tree, most: int) -> str:
        """Returns in words of whom a doubt says that it frees somebody: by the first name alone where that makes more
        than so many letters."""
        names = [shown(self.name_of(name)) for name in doubt["who"]]
        runs = runs_of(names)
        words = short_subject(doubt, few(names if runs[TOLD:] else runs, TOLD, " or "))
        if len(words) <= most or not names[1:]:
            return words
        comma = "," if doubt["how"] == EXPIRES else ""  # (behind the name of a limit stands a time)
        return short_subject(doubt, f"{names[0]}{comma} or {len(names) - 1:,} more")


def many(noun: str) -> str:
    return f"{noun}{'es' if noun.endswith('s') else 's'}"
