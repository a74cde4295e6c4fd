"""Says where in a dump the fault is for which the program refuses it: which process, which key, which line and column.

The program alone judges. Its fault is a kind with numbers. The text is read again here, only as deep as these need:
Python's own reader skips a value in which the fault is not.
"""
from __future__ import annotations

import json
import re
from itertools import islice
from typing import Any, Callable, Dict, Iterator, List, NamedTuple, Tuple

from .files import shown
from .limits import BYTES, DEPENDENTS, DEPTH, ENTRIES, LONGEST
from .sketch import near_name, quote

TOP = ("version", "sites", "processes")
ROW = ("name", "site", "state", "dependents")
SPACE = re.compile(r"[ \t\n\r]*")
OTHER = re.compile(r"[^A-Za-z0-9_.:/-]")
TOKEN = re.compile(r'"[^"\\]*(?:\\.[^"\\]*)*"|[][{}]|-?[0-9][0-9.eE+-]*|-?Infinity|NaN', re.S)
STARTS = {b"\xef\xbb\xbf": "it begins with a byte order mark", b"\xff\xfe": "it is UTF-16", b"\xfe\xff": "it is UTF-16",
          b"\x1f\x8b": "it is compressed by gzip", b"PK": "it is a zip file"}


class Found(NamedTuple):
    """A fault: at which character of the text, and what it is in words."""

    at: int
    words: str


class FaultyPart(NamedTuple):
    """A value in an object or an array, and where it begins. `key_at` is where its key begins, or else itself."""

    key: Any
    key_at: int
    value: Any
    at: int


def number_of(digits: str) -> float:
    return int(digits) if len(digits) < LONGEST else float(digits)


DECODER = json.JSONDecoder(parse_int=number_of)


class Text:
    """The text of a dump, which is JSON."""

    def __init__(self, text: str) -> None:
        self.text = text
        self.start = self.skip(0)

    def skip(self, place: int) -> int:
        """Returns the first place from `place` on that is no white space."""
        return SPACE.match(self.text, place).end()  # type: ignore[union-attr]

    def parts(self, place: int) -> Iterator[FaultyPart]:
        """Yields what an object or an array has that begins at `place`."""
        is_object, number = self.text[place] == "{", 0
        place = self.skip(place + 1)
        while self.text[place] not in "]}":
            key, key_at = number, place
            if is_object:
                key, place = DECODER.raw_decode(self.text, place)
                place = self.skip(self.skip(place) + 1)
            value, end = DECODER.raw_decode(self.text, place)
            yield FaultyPart(key, key_at, value, place)
            place, number = self.skip(end), number + 1
            if self.text[place] == ",":
                place = self.skip(place + 1)

    def keys(self, place: int) -> Dict[str, FaultyPart]:
        """Returns what an object has, by key. Of a repeated one the last counts."""
        return {part.key: part for part in self.parts(place)}

    def top(self, key: str) -> FaultyPart:
        return self.keys(self.start)[key]

    def entry(self, place: int, number: int) -> FaultyPart:
        """Returns an entry of an array, counted from 0."""
        return next(islice(self.parts(place), number, None))

    def row(self, number: int) -> FaultyPart:
        return self.entry(self.top("processes").at, number)

    def names(self) -> List[str]:
        return [row["name"] for row in self.top("processes").value]


def describe(value: Any) -> str:
    """Returns a value in words."""
    if isinstance(value, str):
        return quote(value)
    return "an object" if isinstance(value, dict) else "an array" if isinstance(value, list) else json.dumps(value)


def process_words(row: Any) -> str:
    """Returns the words for a process, before its fault."""
    name = row.get("name") if isinstance(row, dict) else None
    return f"process {quote(name)}, " if isinstance(name, str) else ""


def name_fault(value: Any) -> str:
    """Returns why a value is no name, or nothing."""
    if not isinstance(value, str):
        return f"{describe(value)} is no name"
    if not value:
        return "a name isn't empty"
    bad = OTHER.search(value)
    if bad:
        return f"{quote(value)} has {quote(bad[0])}: a name has letters, digits and _ - . : / alone"
    if not value[0].isalnum():
        return f"{quote(value)} begins with no letter and no digit"
    return f"{quote(value)} has {len(value)} characters, and a name at most {LONGEST}" if value[LONGEST:] else ""


# By kind of fault


def bad_keys(text: Text, place: int, allowed: Tuple[str, ...], needed: Tuple[str, ...]) -> Iterator[Found]:
    """Yields the keys of an object that aren't known, and those that it lacks."""
    keys = text.keys(place)
    for key, part in keys.items():
        if key not in allowed:
            yield Found(part.key_at, f"the key {quote(key)} isn't known{near_name(key, allowed)}")
    for key in needed:
        if key not in keys:
            yield Found(place, f"the key '{key}' is missing")


def bad_top(text: Text) -> Iterator[Found]:
    if text.text[text.start] != "{":
        yield Found(text.start, f"{describe(DECODER.raw_decode(text.text, text.start)[0])} is no object")
        return
    keys = text.keys(text.start)
    version = keys["version"].value if "version" in keys else None
    is_second = version == 2 and isinstance(version, int)
    if "in_transit" in keys and not is_second:
        yield Found(keys["in_transit"].key_at, "the key 'in_transit' needs the version 2")
    yield from bad_keys(text, text.start, (*TOP, "in_transit"), (*TOP, *["in_transit"] * is_second))
    for key in ("sites", "processes", "in_transit"):
        if key in keys and not isinstance(keys[key].value, list):
            yield Found(keys[key].at, f"key '{key}': {describe(keys[key].value)} is no array")


def bad_version(text: Text) -> Iterator[Found]:
    part = text.top("version")
    yield Found(part.at, f"key 'version': {describe(part.value)} is neither 1 nor 2")


def bad_site(text: Text, number: int) -> Iterator[Found]:
    part = text.entry(text.top("sites").at, number)
    yield Found(part.at, f"key 'sites': {name_fault(part.value)}")


def bad_process(text: Text, number: int) -> Iterator[Found]:
    row = text.row(number)
    if not isinstance(row.value, dict):
        yield Found(row.at, f"{describe(row.value)} is no object")
        return
    keys = text.keys(row.at)
    needed = ROW if row.value.get("state") == "idle" else ROW[:3]
    for fault in (*bad_keys(text, row.at, ROW, needed), *bad_values(text, keys)):
        yield fault._replace(words=process_words(row.value) + fault.words)


def bad_values(text: Text, keys: Dict[str, FaultyPart]) -> Iterator[Found]:
    """Yields the values of a process that are none."""
    for key in ("name", "site"):
        why = key in keys and name_fault(keys[key].value)
        if why:
            yield Found(keys[key].at, f"key '{key}': {why}")
    state, dependents = keys.get("state"), keys.get("dependents")
    if state and state.value not in ("active", "idle"):
        yield Found(state.at, f"key 'state': {describe(state.value)} is neither 'active' nor 'idle'")
    if dependents and not isinstance(dependents.value, list):
        yield Found(dependents.at, f"key 'dependents': {describe(dependents.value)} is no array")
    elif dependents:
        bad = (part for part in text.parts(dependents.at) if name_fault(part.value))
        yield from (Found(part.at, f"key 'dependents': {name_fault(part.value)}") for part in bad)


def unknown_site(text: Text, number: int) -> Iterator[Found]:
    row = text.row(number)
    part = text.keys(row.at)["site"]
    more = near_name(part.value, text.top("sites").value)
    yield Found(part.at, f"{process_words(row.value)}key 'site': {quote(part.value)} isn't in 'sites'{more}")


def unknown_dependent(text: Text, number: int, place: int) -> Iterator[Found]:
    row = text.row(number)
    part = text.entry(text.keys(row.at)["dependents"].at, place)
    yield Found(part.at, f"{process_words(row.value)}key 'dependents': {missing_name(part.value, text)}")


def missing_name(name: str, text: Text) -> str:
    return f"no process is called {quote(name)}{near_name(name, text.names())}"


def find_repeated(text: Text, parts: Iterator[FaultyPart], number: int, words: str) -> Iterator[Found]:
    """Yields the second of two parts that are the same."""
    those = list(islice(parts, number + 1))
    first = next(part for part in those if part.value == those[number].value)
    line, column = position(text.text, first.at)
    yield Found(those[number].at, f"{words}{quote(those[number].value)} stands in line {line}, column {column} too")


def repeated_site(text: Text, number: int) -> Iterator[Found]:
    return find_repeated(text, text.parts(text.top("sites").at), number, "key 'sites': ")


def repeated_process(text: Text, number: int) -> Iterator[Found]:
    rows = text.parts(text.top("processes").at)
    return find_repeated(text, (text.keys(row.at)["name"] for row in rows), number, "key 'name': ")


def repeated_dependent(text: Text, number: int, place: int) -> Iterator[Found]:
    row = text.row(number)
    parts = text.parts(text.keys(row.at)["dependents"].at)
    return find_repeated(text, parts, place, f"{process_words(row.value)}key 'dependents': ")


def active_with_dependents(text: Text, number: int) -> Iterator[Found]:
    row = text.row(number)
    words = "key 'dependents': an active process has none"
    yield Found(text.keys(row.at)["dependents"].at, process_words(row.value) + words)


def too_many(key: str) -> Callable[[Text], Iterator[Found]]:
    def find(text: Text) -> Iterator[Found]:
        part = text.top(key)
        more = f"{len(part.value):,} of them, and the program takes {ENTRIES:,}"
        yield Found(text.entry(part.at, ENTRIES).at, f"key '{key}': {more}")

    return find


def too_many_dependencies(text: Text) -> Iterator[Found]:
    total = 0
    for row in text.parts(text.top("processes").at):
        others = row.value.get("dependents", [])
        if total + len(others) > DEPENDENTS:
            part = text.entry(text.keys(row.at)["dependents"].at, DEPENDENTS - total)
            words = f"key 'dependents': all lists together have more than {DEPENDENTS:,}"
            yield Found(part.at, process_words(row.value) + words)
            return
        total += len(others)


def bad_in_transit(text: Text, number: int) -> Iterator[Found]:
    part = text.entry(text.top("in_transit").at, number)
    has = f", but has {len(part.value)}" if isinstance(part.value, list) else ""
    yield Found(part.at, f"key 'in_transit': a message is an array of two texts{has}")


def unknown_in_transit(text: Text, number: int) -> Iterator[Found]:
    names = {*text.names()}
    for part in text.parts(text.entry(text.top("in_transit").at, number).at):
        if part.value not in names:
            yield Found(part.at, f"key 'in_transit': {missing_name(part.value, text)}")


FINDERS: Dict[str, Callable[..., Iterator[Found]]] = {
    "bad top": bad_top, "bad version": bad_version, "bad site": bad_site, "repeated site": repeated_site,
    "too many sites": too_many("sites"), "too many processes": too_many("processes"), "bad process": bad_process,
    "repeated process": repeated_process, "unknown site": unknown_site, "unknown dependent": unknown_dependent,
    "repeated dependent": repeated_dependent, "active with dependents": active_with_dependents,
    "too many dependencies": too_many_dependencies, "too many in transit": too_many("in_transit"),
    "bad in transit": bad_in_transit, "unknown in transit": unknown_in_transit,
}


# What is no JSON


def json_fault(data: bytes) -> Tuple[str, Found]:
    """Returns the text as far as it can be read, and where it is no JSON."""
    start = next((words for mark, words in STARTS.items() if data.startswith(mark)), "")
    if start:
        return "", Found(0, start)
    try:
        text = data.decode()
    except UnicodeDecodeError as error:
        return data[:error.start].decode(), Found(len(data[:error.start].decode()), "it is no UTF-8 from here on")
    broken = syntax_error(text)
    return text, next(find_unreadable(text, broken.at), broken)


def syntax_error(text: str) -> Found:
    """Returns where Python finds that a text is no JSON, or its end."""
    place, words = len(text), "it is no JSON"
    try:
        json.loads(text)
    except json.JSONDecodeError as error:
        words = re.sub(" (starting )?at$", "", error.msg)
        place, words = error.pos, words[:1].lower() + words[1:]
    except (RecursionError, ValueError):
        pass  # (nested too deep, or a number of very many digits: that is found in the other way)
    if not text.strip():
        return Found(0, "it is empty")
    return Found(place, words if text[place:].strip() else "it ends too early")


def find_unreadable(text: str, end: int) -> Iterator[Found]:
    """Yields what Python reads and the program doesn't, up to a place."""
    depth = 0
    for token in TOKEN.finditer(text, 0, end):
        word = token[0]
        if word in "[{":
            depth += 1
            if depth > DEPTH:
                yield Found(token.start(), f"it is nested deeper than {DEPTH}")
        elif word in "]}":
            depth -= 1
        elif word[0] == '"':
            if "\\u" in word and not is_text(word):
                yield Found(token.start(), "a text has half of a character, a lone surrogate")
        elif word[-1] in "yN" or float(word) in (float("inf"), float("-inf")):
            yield Found(token.start(), f"{describe(word[:LONGEST])} is no number, or out of range")


def is_text(word: str) -> bool:
    return not re.search("[\ud800-\udfff]", json.loads(word, strict=False))


# The whole


def position(text: str, place: int) -> Tuple[int, int]:
    """Returns the line and the column of a place, both from 1, as editors count them: a column is a character."""
    return text.count("\n", 0, place) + 1, place - text.rfind("\n", 0, place)


def find(fault: str, data: bytes) -> Tuple[str, Found]:
    """Returns the text of a dump, and where the fault is that the program names."""
    kind, numbers = re.fullmatch(r"(.*?)((?: \d+)*)", fault.partition(": ")[2]).groups()  # type: ignore[union-attr]
    if kind == "not JSON":
        return json_fault(data)
    if kind == "too long":
        text = data[:BYTES].decode("utf-8", "replace")
        return text, Found(len(text), f"{len(data):,} bytes, and the program takes {BYTES:,}")
    text = data.decode()
    return text, next(FINDERS[kind](Text(text), *map(int, numbers.split())))


def describe_fault(path: str, fault: str, data: bytes) -> str:
    """Returns the line for people on a dump that the program refuses: FILE:LINE:COLUMN, its fault, and what is wrong
    there. A fault of a kind that isn't known here has no place."""
    try:
        text, where = find(fault, data)
    except (LookupError, ValueError, TypeError, AttributeError, StopIteration, RecursionError):
        return f"{shown(path)}: {fault}"
    line, column = position(text, where.at)
    return f"{shown(path)}:{line}:{column}: {fault}: {where.words}"
