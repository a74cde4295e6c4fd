"""Rows of JSON beside the threads of `jstack`, and how they name these: by number and address, and by their frames."""
from __future__ import annotations

import json
import re
from itertools import accumulate
from typing import Any, Dict, List, Optional, Tuple

from ...core.files import Refusal, shown
from ...core.sketch import once_each
from .text import JvmThread

BUILT = re.compile(r"\$\$Lambda.*(?=\.)|[+/]0x[0-9a-f]+(?=\.)")  # what jstack and a heap dump write differently
IDENTITY = re.compile(r"0x[0-9a-f]{1,16}")
LABEL = [int, IDENTITY]
Label = Tuple[int, int]
NOBODY: Label = 0, 0


def trees_in(path: str, text: str, mark: str, what: str) -> List[Tuple[str, Dict[str, Any]]]:
    """Returns the rows of a text that begin with a mark, each with where it stands."""
    pieces = f"\n{text}".split(f"\n{mark}") if mark in text else [""]
    numbers = accumulate(piece.count("\n") + 1 for piece in pieces)
    rows = [(f"{shown(path)}:{number}", piece.partition("\n")[0]) for number, piece in zip(numbers, pieces[1:])]
    return [(place, tree_of(place, line, what)) for place, line in rows]


def tree_of(place: str, line: str, what: str) -> Dict[str, Any]:
    try:
        tree = json.loads(line, object_pairs_hook=once_each)
    except (ValueError, RecursionError) as error:
        raise Refusal(f"{place}: this row of the {what} is no JSON: {shown(str(error))}") from error
    return tree if isinstance(tree, dict) else {}


def key_of(label: List[Any]) -> Label:
    return label[0], int(label[1], 16)


def label_of(thread: JvmThread) -> Optional[Label]:
    """Returns by what a row knows a thread, or None if the text doesn't say it."""
    is_known = thread.number and IDENTITY.fullmatch(thread.identity)
    return (int(thread.number or 0), int(thread.identity, 16)) if is_known else None


def plain(frame: str) -> str:
    """Returns a frame as it is written alike by all."""
    return BUILT.sub("", frame)


def frames_of(thread: JvmThread) -> List[str]:
    """Returns the frames of a thread as rows have them: those without a line have a negative number there."""
    return [plain(f"{frame.method}:{-3 if frame.native else -1 if frame.line is None else frame.line}")
            for frame in thread.frames]
