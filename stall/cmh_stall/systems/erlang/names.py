"""Erlang: the names of processes. One that has none is called by its pid, or by the name by which callers reached it,
as in a registry.
"""
from __future__ import annotations

import re
from collections import defaultdict
from typing import DefaultDict, Dict, List, Set

from ...core.snapshots import Reading
from .text import ErlangBlock, Key

# A call by a name of `global`, or by one of a module that keeps names, in a registry of it. (Another module of Elixir's
# has many names for one process.)
NAMED = re.compile(r"{global,(?P<name>[^{}]+)}"
                   r"|{via,(?!'Elixir\.PartitionSupervisor')[\w'.]+,(?:{[^{},]+,)?(?P<key>[^{}]+)}+")
WORD = re.compile(r"<<\"([\w.@-]{1,60})\">>|'?([\w.@-]{1,60})'?")


def name_all(readings: List[Reading]) -> None:
    """Gives each process of some readings its name, the same in all of them. A name that isn't of one process alone is
    none."""
    words = words_of_callers(readings)
    whole: Dict[Key, str] = {}
    for reading in readings:
        whole.update({(block.node, block.pid): f"{reading.site}/{block.own_name()}" for block in reading.rows})
    having: DefaultDict[str, Set[Key]] = defaultdict(set)
    for key, name in whole.items():
        having[name].add(key)
        having[by_word(name, words[key])].add(key)
    for block in (block for reading in readings for block in reading.rows):
        name = whole[block.node, block.pid]
        better = by_word(name, words[block.node, block.pid])
        block.label = better if len(having[better]) == 1 else name


def by_word(name: str, words: Set[str]) -> str:
    """Returns the name of a process whose pid is the end of that, with the one word that callers have for it."""
    front, _, pid = name.rpartition("/")
    return f"{front}/{min(words)}" if len(words) == 1 and re.fullmatch(r"\d+\.\d+\.\d+", pid) else name


def words_of_callers(readings: List[Reading]) -> DefaultDict[Key, Set[str]]:
    """Returns the names by which callers have reached each process of their node, as words."""
    words: DefaultDict[Key, Set[str]] = defaultdict(set)
    for block in (block for reading in readings for block in reading.rows):
        if block.call and len(block.monitored) == 1:
            words[block.monitored[0]].update(word_of(block))
    return words


def word_of(block: ErlangBlock) -> List[str]:
    """Returns the name of whom a process calls, if it has one that is a word."""
    named = NAMED.fullmatch(block.call.whom) if block.call else None
    word = WORD.fullmatch(named["name"] or named["key"]) if named else None
    return [word[1] or word[2]] if word else []
