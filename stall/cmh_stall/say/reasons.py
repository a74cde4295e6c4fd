"""On what an answer rests, in words for its reader: each fact, and each premise with how many processes rest on it."""
from __future__ import annotations

from typing import Dict, List

from ..core.facts import is_variable
from ..core.files import MOST_OF_LINE, short_name, shown
from ..core.sketch import BARE, BY_HAND, FACT, PREMISE
from ..core.words import few
from .view import Tree

SHOWN = 5  # names that a pattern of a fact took


def rests_lines(tree: Tree, rows: List[Tree], everything: bool) -> List[str]:
    """Returns the paragraph on what is said of some processes, by the rows of their reasons."""
    if [row["kind"] for row in rows] == [BY_HAND]:
        return [f"Rests on {'what stands in the dump' if tree['system'] == BARE else rows[0]['text']}."]
    number = tree["readings"]
    states = "one state" if number == 1 else f"{'two' if number == 2 else number} states"
    return [f"Rests on: {states}, and on", *lines_of(tree, rows, everything)] if rows else []


def more_lines(tree: Tree, rows: List[Tree], known: List[Tree], everything: bool) -> List[str]:
    """Returns the same of processes behind others, without what these rest on."""
    before = {(row["kind"], row["name"]) for row in known}
    more = [row for row in rows if (row["kind"], row["name"]) not in before]
    return ["These rest on that, and on", *lines_of(tree, more, everything)] if more else []


def lines_of(tree: Tree, rows: List[Tree], everything: bool) -> List[str]:
    took: Dict[str, Dict[str, List[str]]] = {fact["at"]: fact["took"] for fact in tree["facts"]}
    lines = []
    for row in rows:
        of_line = took.get(row["name"], {}) if row["kind"] == FACT else {}
        lines += [f"  {words(row)} ({row['processes']:,})", *took_lines(of_line, everything)]
    return lines


def took_lines(took: Dict[str, List[str]], everything: bool) -> List[str]:
    """Returns a line for each pattern of a fact, with the processes that it took. Where it takes others for each that
    waits, these stand in the line of that one."""
    return [f"      {short_name(word)}: {few(map(short_name, names), len(names) if everything else SHOWN)}"
            for word, names in took.items() if names != [word] and not is_variable(word)]


def words(row: Tree) -> str:
    if row["kind"] == FACT:
        return f"{shown(row['name'])}: {shown(row['text'], MOST_OF_LINE)}"
    return f"the premise that {shown(row['text'])}" if row["kind"] == PREMISE else str(row["text"])
