"""What `cmh-stall FOLDER --true 1,3` does: it says in the facts of a folder that doubts of its answer are none."""
from __future__ import annotations

import os
import re
import time
from typing import Callable, Dict, List

from ..core.answer import doubt_rows
from ..core.doubts import Doubt
from ..core.dump import Dump
from ..core.facts import Facts, read_facts
from ..core.files import Failure, Refusal, decode, shown
from ..core.folder import Folder, name_of_user
from ..core.model import HOWS
from ..say.view import Tree

NUMBERS = re.compile(r"[1-9][0-9]{0,8}(?:,[1-9][0-9]{0,8})*")


def numbers_of(text: str) -> List[int]:
    """Returns the numbers of a list as '1,3'. Raises Failure if it is none, or has one twice."""
    if not NUMBERS.fullmatch(text):
        raise Failure(f"--true {shown(text)}: it isn't a list of numbers of doubts, such as 1,3", 2)
    numbers = [int(word) for word in text.split(",")]
    if len(set(numbers)) < len(numbers):
        raise Failure(f"--true {shown(text)}: a number stands there twice", 2)
    return numbers


def say_true(folder: Folder, path: str, numbers: List[int], dump: Dump, anew: Callable[[Facts], Dump]) -> None:
    """Writes into the facts of a folder, which are at `path`, that some doubts of its answer are none. `anew` makes the
    dump with these facts. Raises Failure, with nothing written, if a number is none of the answer, and Refusal if the
    state speaks against one."""
    doubts = {doubt.number: doubt for doubt in dump.doubts}
    unknown = [str(number) for number in numbers if number not in doubts]
    if unknown:
        known = ", ".join(map(str, sorted(doubts))) or "none"
        raise Failure(f"--true: the answer in {shown(folder.path)} has no doubt {' and '.join(unknown)}; it has "
                      f"{known}", 2)
    rows = {row["number"]: row for row in doubt_rows(dump)}
    before = decode(folder.read_bytes(path), path) if folder.has(path) else ""
    text = before + ("" if before.endswith("\n") or not before else "\n")
    text += "".join(lines_of(rows[number]) for number in numbers)
    check_gone([doubts[number] for number in numbers], anew(read_facts(text, path)))
    folder.write([(path, text)])


def lines_of(doubt: Tree) -> str:
    """Returns the lines of facts that a doubt is none, below who said so and when."""
    said = f"# {time.strftime('%Y-%m-%d %H:%M:%S')}, {name_of_user(os.getuid())} by --true: no doubt " \
        f"{doubt['number']}, that {doubt['says']}"
    return "".join(f"{line}\n" for line in [shown(said), *doubt["facts"]])


def check_gone(doubts: List[Doubt], dump: Dump) -> None:
    """Raises Refusal if some doubts stay whatever the user says of them."""
    left: Dict[str, Doubt] = {doubt.key: doubt for doubt in dump.doubts}
    for doubt in doubts:
        if doubt.key in left:
            who = f"{' or '.join(map(shown, doubt.who))} " if doubt.who else "somebody "
            raise Refusal(f"--true {doubt.number}: the state speaks against that: it shows that {who}"
                          f"{HOWS[left[doubt.key].how][1]}")
