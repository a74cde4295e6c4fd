"""A sketch as JSON, as people may write it by hand and as notes have it:

    {"processes": [
      {"name": "web 1", "waits_for_any": ["checkout"], "note": "POST /pay, pay.py:31"},
      {"name": "checkout", "site": "host-a", "waits_for_all": ["stock", "mail"]},
      {"name": "stock", "unknown": "no stack could be read"},
      {"name": "mail", "runs": true},
      {"name": "loader", "ended": "done"}],
     "in_transit": [["mail", "checkout"]]}

Each process has just one of the keys of KINDS, or else 'sign', with 'wait' for whoever may end its wait and how, as
`model` has it. A list of `lists`, an object, has a name, and may stand by it, and so may a wait of `waits`. `frames`,
`operation`, `objects` and `count` tell one wait from the next; parsers write them, and whoever writes by hand may leave
them out.
"""
from __future__ import annotations

import json
import math
from enum import Enum
from typing import Any, Callable, Dict, List, Optional, Sequence, Set, Tuple

from .files import Refusal, shown
from .model import ANYBODY, COMES, HOWS, Anybody, Part, Sign, Strength, Wakers, Who, all_of, wakers
from .sketch import (ALL, ANY, BY_HAND, DONE, KINDS, LIMIT, NEEDED, RUNS, UNKNOWN, Process, Sketch, near_name,
                     premise, quote, read_json, shared_lists, shared_waits)

TEXTS = dict.fromkeys(("site", "note", "operation", "thread", "meeting", "remedy", "effect"))  # (as each key is sought)
LISTS = dict.fromkeys(("frames", "objects", "because"))
TOLD = ("reason", *TEXTS, *LISTS, "count")
SIGNS = {sign.value: sign for sign in Sign}
STRENGTHS = {strength.value: strength for strength in Strength}
WORDS: Dict[Enum, str] = {one: word for word, one in (*SIGNS.items(), *STRENGTHS.items())}  # (faster than their values)
WAKER_KEYS = {"who", "how", "strength", "because", "what"}
TEXT, LIST = {str}, {list}  # (made once, as each list is looked at by them)
UNLOOPED = json.JSONEncoder(check_circular=False)  # of what has no list within itself
FLAGS = {"spoilt": "is_garbled", "collective": "is_collective"}
KEYS = {"name", *KINDS, *TEXTS, *LISTS, *FLAGS, "count", "sign", "wait", "reason"}
# Keys of older notes, which say nothing any more, but for who may end a wait besides, and that an unknown one is idle.
OLD_KEYS = {"scope", "candidates", "spared", "besides", "proposal", "idle", "stays"}
ALL_KEYS = KEYS | OLD_KEYS
FORMS = dict.fromkeys((*KINDS, "sign"))  # a row has just one of these keys
TOLD_KEYS = {*TEXTS, *LISTS, *FLAGS, "count"}  # what is told of a process beside its wait


# Reading


def read_sketch(text: str, where: str) -> Sketch:
    """Returns the sketch of a JSON text. Raises Refusal, which names the process and the key, if it isn't one."""
    return sketch_of(read_json(text, where), where)


def sketch_of(tree: Any, where: str, because: str = BY_HAND) -> Sketch:
    """Returns the sketch of a tree of JSON, checked, in which rows without a reason have `because`. Raises Refusal,
    which names the process and the key."""
    try:
        check_keys(tree, TOP_KEYS, "the sketch")
        rows = tree.get("processes")
        if not isinstance(rows, list):
            raise Refusal("the sketch has no list 'processes'")
        lists = lists_of(tree)
        waits = waits_of(tree, lists)
        processes = [process_of(row, number, lists, waits) for number, row in enumerate(rows, 1)]
        for process in processes:
            if process.sign is not Sign.UNKNOWN and not process.because:
                process.because = [because]
        sketch = Sketch(processes, pairs_of(tree.get("in_transit") or []))
        set_top(sketch, tree)
        sketch.check()
    except Refusal as refusal:
        raise Refusal(f"{shown(where)}: {refusal}") from None
    return sketch


def check_keys(tree: Any, keys: Set[str], who: str) -> None:
    """Raises Refusal if a tree is no object, or has a key that isn't known."""
    if not isinstance(tree, dict):
        raise Refusal(f"{who} is no object")
    for key in sorted(tree.keys() - keys) if not tree.keys() <= keys else ():
        of_dump = key in ("state", "dependents", "sites", "version")
        more = "; this is a key of a dump, not of a sketch" if of_dump else near_name(key, sorted(keys))
        raise Refusal(f"{who} has the key {quote(key)}, which isn't known{more}")


def text_of(tree: Dict[str, object], key: str, who: str = "") -> Optional[str]:
    """Returns the text of a key, or None if the key isn't there."""
    value = tree.get(key)
    if value is not None and not isinstance(value, str):
        raise Refusal(f"{who}: {quote(key)} is no text")
    return value


def texts_of(tree: Dict[str, Any], key: str, who: str = "") -> List[str]:
    """Returns the texts of a key, or none if the key isn't there."""
    value: List[str] = tree.get(key, [])
    if not is_texts(value):
        raise Refusal(f"{who}: {quote(key)} is no list of texts")
    return value


def unique(names: List[str]) -> List[str]:
    return names if len(names) < 2 else list(dict.fromkeys(names))


def is_texts(value: object) -> bool:
    return isinstance(value, list) and TEXT.issuperset(map(type, value))


def lists_of(tree: Dict[str, Any]) -> Dict[str, List[str]]:
    """Returns the lists that have a name, by it."""
    lists = tree.get("lists", {})
    if not is_object(lists, is_texts):
        raise Refusal("the sketch: 'lists' is no object of lists of texts")
    return {name: list(dict.fromkeys(names)) for name, names in lists.items()}


def waits_of(tree: Dict[str, Any], lists: Dict[str, List[str]]) -> Dict[str, List[Part]]:
    """Returns the waits that have a name, by it."""
    waits = tree.get("waits", {})
    if not isinstance(waits, dict):
        raise Refusal("the sketch: 'waits' is no object")
    return {name: parts_of(wait, lists, f"{quote(name)} of 'waits'") for name, wait in waits.items()}


def set_top(sketch: Sketch, tree: Dict[str, Any]) -> None:
    """Sets what a sketch has beside its processes."""
    for key, (is_right, what) in TOP.items():
        value = tree.get(key)
        if value is not None and not is_right(value):
            raise Refusal(f"the sketch: {quote(key)} is no {what}")
        if value is not None:
            setattr(sketch, key, value)


def is_text(value: object) -> bool:
    return isinstance(value, str)


def is_object(value: object, has: Callable[[Any], bool]) -> bool:
    """Whether it is an object whose values are all so."""
    return isinstance(value, dict) and all(map(has, value.values()))


def is_fact_row(row: Any) -> bool:
    """Whether it says where a line stands, what it is, and in 'took' the names for each of its words."""
    return isinstance(row, dict) and is_object(row.get("took"), is_texts) and is_texts([row.get("at"), row.get("text")])


def is_time(pair: Any) -> bool:
    """Whether it is when a reading began, and when it ended."""
    return isinstance(pair, list) and len(pair) == 2 and all(
        type(seconds) in (int, float) and math.isfinite(seconds) for seconds in pair)


# What a sketch has beside its processes: how a value of each key is known, and what it is.
TOP: Dict[str, Tuple[Callable[[Any], bool], str]] = {
    **dict.fromkeys(("system", "as_of", "machine"), (is_text, "text")),
    **dict.fromkeys(("warnings", "idle", "readers", "inner"), (is_texts, "list of texts")),
    **dict.fromkeys(("premises", "begun_by"), (lambda value: is_object(value, is_text), "object of texts")),
    "facts": (lambda value: isinstance(value, list) and all(map(is_fact_row, value)),
              "list of lines, each with 'at', 'text' and 'took'"),
    "connections": (lambda value: is_object(value, lambda row: is_object(row, is_texts)),
                    "object of objects with lists of texts"),
    "readings": (lambda value: type(value) is int and value > 0, "number from 1 on"),
    "times": (lambda value: isinstance(value, list) and all(map(is_time, value)), "list of pairs of seconds"),
}
TOP_KEYS = {"processes", "lists", "waits", "in_transit", *TOP}


def pairs_of(pairs: Any) -> List[Tuple[str, str]]:
    """Returns the messages in transit, each as its sender and its receiver."""
    if not isinstance(pairs, list):
        raise Refusal("'in_transit' is no list")
    for number, pair in enumerate(pairs, 1):
        if not is_texts(pair) or len(pair) != 2:
            raise Refusal(f"'in_transit', entry {number}: it isn't [sender, receiver]")
    return [(sender, receiver) for sender, receiver in pairs]


def process_of(row: Any, number: int, lists: Dict[str, List[str]], waits: Dict[str, List[Part]]) -> Process:
    """Returns the process of a row, by its number. `lists` has the lists that have a name, and `waits` such waits, also
    those for all of such a list."""
    name = row.get("name") if isinstance(row, dict) else None
    try:
        return process_called(name, row, lists, waits)
    except Refusal as fault:
        raise Refusal(f"process {quote(name) if isinstance(name, str) else number}{fault}") from None


def process_called(name: object, row: Any, lists: Dict[str, List[str]], waits: Dict[str, List[Part]]) -> Process:
    """Returns the process of a row. A fault has what is said behind its name."""
    if type(row) is not dict or not row.keys() <= ALL_KEYS:  # (as each call takes time)
        check_keys(row, ALL_KEYS, "")
    if not isinstance(name, str):
        raise Refusal(" has no 'name', or one that is no text")
    kinds = [*filter(FORMS.__contains__, row)]
    if len(kinds) != 1:
        has = " and ".join(map(quote, filter(kinds.__contains__, FORMS))) or "none"
        raise Refusal(f" has {has}: just one of {', '.join(map(quote, FORMS))} is needed")
    process = Process(name, Sign.UNKNOWN)
    if not TOLD_KEYS.isdisjoint(row):
        set_texts(process, row)
    if kinds == ["sign"]:
        set_sign(process, row)
        wait = row.get("wait", [])
        process.parts = waits[wait] if isinstance(wait, str) and wait in waits else parts_of(wait, lists)
    elif kinds == [ALL] and isinstance(row[ALL], str) and lists.get(row[ALL]) and "besides" not in row:
        key = f"{ALL} {row[ALL]}"
        waits[key] = waits.get(key) or all_of(lists[row[ALL]], COMES)
        process.sign, process.parts = Sign.BLOCKED, waits[key]
    else:
        set_kind(process, kinds[0], row, lists)
    return process


def set_texts(process: Process, row: Dict[str, Any]) -> None:
    """Sets what is told of a process beside its wait."""
    about = vars(process)
    for key in filter(TOLD_KEYS.__contains__, row):
        value = row[key]
        if key in TEXTS:
            about[key] = value if type(value) is str else text_of(row, key) or ""
        elif key in LISTS:
            about[key] = texts_of(row, key)
        elif key == "count":
            process.count = count_of(value)
        elif value is not True:
            raise Refusal(f": '{key}' isn't true")
        else:
            about[FLAGS[key]] = True
    process.site = process.site or None


def set_sign(process: Process, row: Dict[str, Any]) -> None:
    """Sets the sign of a process, and why it has it."""
    sign = row["sign"]
    if not isinstance(sign, str) or sign not in SIGNS:
        raise Refusal(f": 'sign' is none of {', '.join(SIGNS)}")
    process.sign, process.reason = SIGNS[sign], text_of(row, "reason") or ""


def parts_of(wait: Any, lists: Dict[str, List[str]], who: str = "") -> List[Part]:
    """Returns the parts of a wait: who may end each of them, and how."""
    if not isinstance(wait, list) or not LIST.issuperset(map(type, wait)):
        raise Refusal(f"{who}: 'wait' is no list of lists")
    where = f"{who}, 'wait'"
    return [tuple([wakers_of(group, where, lists) for group in part]) for part in wait]


def wakers_of(row: Any, where: str, lists: Dict[str, List[str]]) -> Wakers:
    """Returns the wakers of a row: who they are, how they end a wait, how much that says, and on what it rests."""
    if type(row) is not dict or not row.keys() <= WAKER_KEYS:
        check_keys(row, WAKER_KEYS, where)
    how, strength, names = row.get("how"), row.get("strength"), row.get("who")
    if not (isinstance(how, str) and isinstance(strength, str) and how in HOWS and strength in STRENGTHS):
        raise Refusal(f"{where}: {quote(str(how))} is no way to end a wait, or {quote(str(strength))} is no strength")
    who: Who = ANYBODY
    if isinstance(names, str) and names in lists:
        who = lists[names]
    elif names is not None:
        who = unique(texts_of(row, "who", where))
    because = tuple(texts_of(row, "because", where)) if "because" in row else ()
    what = text_of(row, "what", where) or "" if "what" in row else ""
    return Wakers(who, STRENGTHS[strength], how, because, what)


def count_of(value: object) -> Optional[str]:
    if isinstance(value, bool) or not isinstance(value, (int, float, str, type(None))):
        raise Refusal(": 'count' is no number and no text")
    return None if value is None else str(value)


def set_kind(process: Process, kind: str, row: Dict[str, Any], lists: Dict[str, List[str]]) -> None:
    """Sets the sign, the wait and the reason of one that was written by hand, or by an older version."""
    value = row[kind]
    if kind in (ANY, ALL):
        names = lists[value] if isinstance(value, str) and value in lists else unique(texts_of(row, kind))
        set_wait(process, kind, names, texts_of(row, "besides") if "besides" in row else [])
    elif kind == RUNS:
        if value is not True and not isinstance(value, str):
            raise Refusal(": 'runs' is neither true nor a text")
        process.sign = Sign.SLEEPS if premise(LIMIT) in process.because else Sign.GOES_ON
        process.reason = "" if value is True else value
    elif kind == UNKNOWN:
        if not isinstance(value, str) or not value.strip():
            raise Refusal(": 'unknown' needs a reason, as a text")
        process.reason = value
        process.sign = Sign.RESTS if row.get("idle") else Sign.UNKNOWN
    elif value not in (DONE, NEEDED, "still needed"):
        raise Refusal(f": 'ended' is neither '{DONE}' nor '{NEEDED}'")
    else:
        process.sign, process.reason = Sign.ENDED, DONE if value == DONE else NEEDED


def set_wait(process: Process, kind: str, names: List[str], besides: List[str]) -> None:
    """Sets whom one waits for, any of them or all, and who may end its wait besides."""
    more = (wakers("kills", besides),) if besides else ()
    if kind == ALL and not names:
        raise Refusal(f": '{ALL}' is empty: a process that waits for nothing 'runs', and one with a wait that "
                      f"nothing can end has an empty '{ANY}'")
    process.sign = Sign.BLOCKED
    process.parts = all_of(names, COMES, beside=more) if kind == ALL else [(*of_names(names), *more)]


def of_names(names: List[str]) -> List[Wakers]:
    """Returns the wakers that a list is which stands in a sketch: the one who is needed, or able ones."""
    strength = Strength.NAMED if len(names) == 1 else Strength.ABLE
    return [Wakers(names, strength, "written")] if names else []


# Writing


def tree_of(sketch: Sketch) -> Dict[str, Any]:
    """Returns the tree of JSON that `sketch_of` reads."""
    tree: Dict[str, Any] = {key: getattr(sketch, key) for key in ("system", "as_of", "machine") if getattr(sketch, key)}
    lists, waits = shared_lists(sketch.processes), shared_waits([process.parts for process in sketch.processes])
    numbers = {key: f"list {number}" for number, key in enumerate(lists, 1)}
    names_of_waits = {key: f"wait {number}" for number, key in enumerate(waits, 1)}
    tree["processes"] = [row_of(process, numbers, names_of_waits) for process in sketch.processes]
    if lists:
        tree["lists"] = {numbers[key]: list(names) for key, names in lists.items()}
    if waits:
        tree["waits"] = {names_of_waits[key]: rows_of(parts, numbers) for key, parts in waits.items()}
    tree["in_transit"] = [list(pair) for pair in sketch.in_transit]
    rest = ("warnings", "premises", "facts", "times", "idle", "readers", "inner", "connections", "begun_by")
    tree.update({key: getattr(sketch, key) for key in rest if getattr(sketch, key)})
    if sketch.readings != 1:
        tree["readings"] = sketch.readings
    return tree


def text_of_sketch(sketch: Sketch) -> str:
    """Returns the JSON that `read_sketch` reads, with a line for each process."""
    tree = tree_of(sketch)
    rows = text_of_rows(tree.pop("processes"))
    more = "".join(f",\n {json.dumps(key)}: {json.dumps(value)}" for key, value in tree.items())
    return f'{{"processes": [\n  {rows}]{more}}}'


def text_of_rows(rows: List[Dict[str, Any]]) -> str:
    """Returns the JSON of rows whose first key is their name, and of which no value has such rows: each on a line. To
    write all at once takes half as long, and within a text no quote stands without a backslash."""
    return UNLOOPED.encode(rows)[1:-1].replace('}, {"name": ', '},\n  {"name": ')


def row_of(process: Process, lists: Dict[int, str], waits: Dict[int, str]) -> Dict[str, object]:
    """Returns the row of a process. `lists` and `waits` have, by their ids, the names of those that stand by theirs."""
    row: Dict[str, object] = {"name": process.name, "sign": WORDS[process.sign]}
    if process.parts:
        row["wait"] = waits.get(id(process.parts)) or rows_of(process.parts, lists)
    about = vars(process)
    for key in TOLD:
        if about[key]:
            row[key] = about[key]
    if process.is_garbled or process.is_collective:
        row.update({key: True for key, name in FLAGS.items() if about[name]})
    return row


def rows_of(parts: Sequence[Part], lists: Dict[int, str]) -> List[List[Dict[str, object]]]:
    return [[row_of_wakers(group, lists) for group in part] for part in parts]


def row_of_wakers(group: Wakers, lists: Dict[int, str]) -> Dict[str, object]:
    row: Dict[str, object] = {}
    if not isinstance(group.who, Anybody):
        row["who"] = lists[id(group.who)] if id(group.who) in lists else list(group.who)
    row["how"], row["strength"] = group.how, WORDS[group.strength]
    if group.because:
        row["because"] = list(group.because)
    if group.what:
        row["what"] = group.what
    return row
