"""What would show more of what a look has left open: the commands for it, and the facts that are asked for."""
from __future__ import annotations

from typing import Callable, Dict, Iterator, List

from ..core.dump import Dump
from ..core.files import shown
from ..core.folder import Folder
from ..core.model import STATUSES, Headline
from .recorded import facts_path
from ..say.view import Tree
from ..systems import taker_of
from ..systems.taking import Part, Sight, command_words

OPEN = (Headline.NOT_KNOWN, Headline.IDLE)


def sight_of(made: Dump, systems: List[str], text_of: Callable[[Part], str] = lambda part: "") -> Sight:
    """Returns what the systems have to know of an answer to say what would show more."""
    status = STATUSES[made.waits.decision.headline]
    return Sight(status, status not in (0, STATUSES[Headline.DEADLOCK]), systems, made.waits.processes,
                 made.likely.waits.processes, made.sketch.connections, text_of)


def more_ways(parts: List[Part], made: Dump, folder: Folder) -> Iterator[str]:
    """Yields the commands that would take more of a system than was taken, where that may change the answer."""
    texts: Dict[str, str] = {}

    def text_of(part: Part) -> str:
        if part["label"] not in texts:  # (each system that asks reads it, as often as it has a question)
            texts[part["label"]] = "".join(folder.read_text(folder.at(name)) for name in part["states"])
        return texts[part["label"]]

    sight = sight_of(made, [part["system"] for part in parts], text_of)
    for part in parts:
        if part["beside"] and sight.status:
            system, words, more = part["system"], command_words(part["targets"]), command_words(part["beside"])
            yield f"What wasn't read: {more}, which {words} has started. All of them: cmh-stall {system} {words} {more}"
        yield from taker_of(part["system"]).more(part, sight)


def next_step(folder: Folder, parts: List[Part], tree: Tree) -> Iterator[str]:
    """Yields what to do where something is undecided, and nobody is stuck."""
    if tree["headline"] not in (headline.value for headline in OPEN):
        return
    paths = [facts_path(folder)] if len(parts) == 1 else [facts_path(folder, part["label"]) for part in parts]
    where = " and ".join(shown(path) for path in paths if folder.has(path))
    if where and tree["proposals"]:
        yield f"What is undecided: complete the facts in {where}, and then: cmh-stall {shown(folder.path)}"
    elif tree["headline"] == Headline.NOT_KNOWN.value:
        yield "What is undecided: the state asks for no fact that would decide it."
