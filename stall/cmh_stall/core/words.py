"""Numbers and names in words: how many of what, the first few and how many more there are, those that follow each other
as one; and at what somebody waits."""
from __future__ import annotations

import re
from functools import lru_cache
from typing import Dict, Iterable, List, Sequence, Tuple

LAST_NUMBER, RUN = re.compile(r"(.*?)(0|[1-9]\d{0,8})"), 3  # so many that follow each other are told as one
END_OF_WHAT = re.compile(r"; | at | in |: | \[|, which | \(descriptor")
ADDRESS = re.compile(r"0x0*([0-9a-f]{6,})")


def number_of(number: int, one: str = "process", many: str = "processes") -> str:
    return f"{number:,} {one if number == 1 else many}"


def few(names: Iterable[str], most: int, last: str = ", ", number: int = 0, whole: int = 0) -> str:
    """Returns names, at most the first few and how many more there are: of so many, if they are those of more. As many
    as `whole` are told all, and `last` stands before the last one of these."""
    texts = list(names)
    number = max(number, len(texts))
    if number > max(most, whole):
        return f"{', '.join(texts[:most])} and {number - most:,} more"
    return last.join([*filter(None, [", ".join(texts[:-1])]), *texts[-1:]])


def runs_of(names: Sequence[str]) -> List[str]:
    """Returns names, of which those that differ in numbers that follow each other are one: 'worker-3 to 9'."""
    alike: Dict[Tuple[str, bool], List[str]] = {}
    for name in names:
        numbered = LAST_NUMBER.fullmatch(name)
        stem, end = (numbered[1], numbered[2]) if numbered else (name, "")
        alike.setdefault((stem, bool(numbered)), []).append(end)
    texts: List[str] = []
    for (stem, is_numbered), ends in alike.items():
        numbers = sorted(map(int, ends)) if is_numbered else []
        is_run = len(numbers) >= RUN and numbers == list(range(numbers[0], numbers[-1] + 1))
        texts += [f"{stem}{numbers[0]} to {numbers[-1]}"] if is_run else [stem + end for end in ends]
    return texts


@lru_cache(maxsize=1024)
def first_words(note: str) -> str:
    """Returns what a note says first, which is at what one waits."""
    return END_OF_WHAT.split(note, 1)[0]


def with_address(what: str, objects: Iterable[str]) -> str:
    """Returns at what one waits with the address of it, if one of its objects is an address that isn't told yet."""
    address = next((text for text in objects if ADDRESS.fullmatch(text)), "")
    short = ADDRESS.sub(r"0x\1", address)
    return f"{what} {short}" if address and address not in what else what
