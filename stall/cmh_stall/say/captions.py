"""The sentences above a picture, and at the head of a page: who is stuck, and what breaks the roots."""
from __future__ import annotations

from typing import Dict, FrozenSet, List

from ..core.files import shown
from ..core.words import number_of
from .view import LIKELY, STUCK, UNDECIDED, Tree, View

TOGETHER = "what is restarted for root "


def headline(view: View) -> str:
    """Returns in a sentence or two who is stuck."""
    return f"{view.tree['headline']}: {stuck_words(view.tree)}"


def stuck_words(tree: Tree) -> str:
    counts, undecided = tree["counts"], undecided_words(tree)
    total, stuck, roots = number_of(counts["processes"]), counts[STUCK] + counts[LIKELY], counts["roots"]
    if not stuck:
        return f"None of {total} is stuck for certain. {undecided}" if undecided else f"None of {total} is stuck."
    inside = sum(len(row["members"]) for row in tree["roots"])
    where = "root 1" if roots == 1 else f"{roots:,} roots"
    more = f", and {stuck - inside:,} behind {'it' if roots == 1 else 'them'}" if stuck > inside else ""
    more_likely = f", {counts[LIKELY]:,} of them likely" if counts[STUCK] and counts[LIKELY] else ""
    likely = f"{'' if counts[STUCK] else 'likely '}stuck{more_likely}"
    words = f"{stuck:,} of {total} {are(stuck)} {likely}: {inside:,} in {where}{more}."
    return f"{words} {undecided}" if undecided else words


def undecided_words(tree: Tree) -> str:
    """Returns in a sentence how many are undecided: unknown themselves, or as they hang on these; or nothing."""
    number, unknown = tree["counts"][UNDECIDED], len(tree["unknown"])
    hang, whom = number - unknown, "it" if unknown == 1 else "them"
    head = f"{number:,}{' more' if tree['roots'] else ''} {are(number)}"
    if not hang or not unknown:
        return f"{head} {'undecided' if hang else 'unknown'}." if number else ""
    return f"{head} undecided: {unknown:,} unknown, {number_of(hang, 'hangs', 'hang')} on {whom}."


def are(number: int) -> str:
    return "is" if number == 1 else "are"


# What breaks the roots


def restarts(view: View) -> List[str]:
    """Returns for each root what breaks it. Of those that the same breaks, the first one says so."""
    words = [*map(view.restart, range(len(view.roots)))]
    roots_by_cure: Dict[FrozenSet[str], List[int]] = {}
    for number, row in enumerate(view.tree["roots"]):
        if row["cure"]["units"]:
            roots_by_cure.setdefault(frozenset(row["cure"]["units"]), []).append(number)
    for first, *others in roots_by_cure.values():
        words[first] += breaks_words(view, [first, *others]) if others else ""
        for number in others:
            words[number] = f"{TOGETHER}{first + 1} breaks it too"
    return words


def breaks_words(view: View, numbers: List[int]) -> str:
    if len(numbers) == len(view.roots):
        return f": it breaks {'both' if len(numbers) == 2 else f'all {len(numbers):,}'} roots"
    return f": it breaks the roots {view.some([str(number + 1) for number in numbers], ' and ')}"


def restart_of_all(view: View, words: List[str]) -> str:
    """Returns in a sentence what breaks all roots: one restart, or one for each if there is one of each."""
    if all(line == f"{TOGETHER}1 breaks it too" for line in words[1:]):
        return f"{words[0][:1].upper()}{words[0][1:]}."
    cures = [row["cure"] for row in view.tree["roots"]]
    if any(len(cure["units"]) != 1 or cure["steps"][0]["command"] for cure in cures):
        return ""
    called = {row["unit"]: row["name"] for root in view.tree["roots"] for row in root["units"]}
    names = list(dict.fromkeys(called[cure["units"][0]] for cure in cures))
    words_of_each = "each breaks one root" if len(names) == len(cures) else "each breaks those in it"
    return f"Restart {view.some(names, ' and ')}: {words_of_each}."


def cure(view: View, words: List[str]) -> str:
    """Returns what to do first, or nothing: what breaks all roots, or, if there are none, at whom to look."""
    if words:
        return restart_of_all(view, words)
    unknown = view.numbers(row["name"] for row in view.tree["unknown"])
    if not unknown:
        return ""
    reason = shown(view.rows[unknown[0]]["reason"])
    others = number_of(len(unknown) - 1, "other that is", "others that are")
    more = f", and then at {others} unknown" if unknown[1:] else ""
    return f"Look first at {view.name(unknown[0])}{f' ({reason})' if reason else ''}{more}."
