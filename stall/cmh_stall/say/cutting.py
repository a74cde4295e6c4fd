"""Names and texts that are cut to the room that a line has."""
from __future__ import annotations

import os
import re
import shlex
from typing import List

from ..core.files import short_name

ADDRESS = re.compile(r"\(?0x[0-9a-f]+\)?")


def prefix_of(names: List[str]) -> str:
    """Returns what all names begin with, up to a slash: the name of one process of several threads says no more."""
    prefix = os.path.commonprefix(names)
    shared = prefix[:prefix.rfind("/") + 1] if len(names) > 1 else ""
    return "" if not shared or any(name[len(shared):].isdigit() for name in names) else shared


def cut_name(text: str, most: int) -> str:
    """Returns a name without its middle, if it is long: the end tells it from others."""
    return text if len(text) <= most else f"{text[:most // 2 - 2]}..{text[-(most // 2):]}"


def cut_words(text: str, most: int) -> str:
    """Returns a text without words in its middle, if it is long: the end tells it from others. No dots stand for an
    address."""
    first, *rest = text.split(" ")
    gone = ""
    while rest and len(text) > most:
        gone = gone or ("" if ADDRESS.fullmatch(rest[0]) else "..")
        rest.pop(0)
        text = " ".join(filter(None, [first, gone, *rest]))
    return text if len(text) <= most else cut_name(first.rpartition(".")[2] or first, most)


def cut(text: str, most: int) -> str:
    """Returns a text, at most its beginning, up to a word where one ends in its second half."""
    if len(text) <= most:
        return text
    end = text.rfind(" ", most // 2, most - 2)
    return f"{text[:end]} .." if end > 0 else f"{text[:most - 2]}.."


def quote_for_shell(text: str) -> str:
    """Returns a name as it is typed into a shell."""
    return shlex.quote(short_name(text))
