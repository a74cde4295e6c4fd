"""Ways to spoil a state: a key, a flag, a value, a row, a block or a line of it is lost, stands twice, or is one that
no state has; in one reading, or the same in each."""
from __future__ import annotations

import functools
import glob
import json
import operator
import os
import re
from typing import Any, Tuple
from collections import defaultdict

from harness import read

DIGITS = re.compile(r"\d+")
TOKEN = re.compile(r'"(?:[^"\\\n]|\\.)*"|[A-Za-z_]\w*|\d+|[^\w\s]')
HEADING = re.compile(r'=\w|goroutine \d|"|# |Thread \d|Process \d|.{0,20}\{"(?:reading|version|look)"')
# Values in the place of one of JSON.
STRANGE: Tuple[Any, ...] = (None, "x", "", "xx", -1, 7.5, 10 ** 25, 1e300, True, [], {}, [None], {"x": 1})


class Kept:
    """A kept case: its states, its facts, and what is expected of it. `twins` has for each row of its states where that
    stands in the other reading."""

    def __init__(self, folder):
        self.name = os.path.basename(folder)
        self.texts = [read(path) for path in sorted(glob.glob(f"{folder}/*.raw"))]
        self.facts = read(f"{folder}/facts") if os.path.exists(f"{folder}/facts") else ""
        self.is_healthy = re.search("^truth nobody$", read(f"{folder}/expected"), re.M) is not None
        self.rows = [row for text in self.texts for row in text.split("\n")]
        self.text_of = [number for number, text in enumerate(self.texts) for _ in text.split("\n")]

    @functools.cached_property
    def twins(self):
        return twins(self.rows)

    @functools.cached_property
    def headings(self):
        """Where a block begins, and where the last one ends."""
        starts = [number for number, row in enumerate(self.rows)
                  if HEADING.match(row) or number and not self.rows[number - 1].strip()]
        return [*starts, len(self.rows)] if starts else [0, len(self.rows)]

    def texts_of(self, edits):
        """Returns the texts in which some rows, by their numbers, are others."""
        made = [[] for _ in self.texts]
        for number, row in enumerate(self.rows):
            made[self.text_of[number]] += edits.get(number, [row])
        return ["\n".join(rows) for rows in made]


def twins(rows):
    """Returns for each row where it stands in the other reading, or its own place if it doesn't."""
    forms = defaultdict(list)
    for number, row in enumerate(rows):
        forms[DIGITS.sub("0", row)].append(number)
    return [twin(rows, forms[DIGITS.sub("0", row)], number) for number, row in enumerate(rows)]


def twin(rows, alike, number):
    """Returns the place of that one of the rows that differ in numbers alone which has most of this one's numbers, and
    of several, as of a frame that many have, the one that is half of them away."""
    mine = DIGITS.findall(rows[number])
    shared = {other: sum(map(operator.eq, mine, DIGITS.findall(rows[other]))) for other in alike if other != number}
    near = sorted([number, *(other for other in shared if shared[other] == max(shared.values()))])
    return near[(near.index(number) + len(near) // 2) % len(near)]


def spoil(case, random):
    """Returns the texts of a case that are spoilt once or a few times, and in words how."""
    edits, said = {}, []
    for _ in range(random.choice((1, 1, 1, 1, 2, 3))):
        way = random.choice(WAYS)
        number = random.randrange(len(case.rows))
        both = random.random() < 0.5
        numbers = dict.fromkeys((number, case.twins[number]) if both else (number,))
        seed = random.random()
        for number in numbers:
            new = way(case, number, type(random)(seed))
            said.append(f"{way.__name__} {number}")
            edits.update(new)
    return case.texts_of(edits), said


# The ways, each with a case, the number of a row and a source of random numbers. They return other rows by numbers.


def lose_lines(case, number, random):
    end = min(len(case.rows), number + random.choice((1, 1, 1, 2, 3, 8)))
    return {other: [] for other in range(number, end)}


def double_line(case, number, random):
    row = case.rows[number]
    other = random.choice((number, random.randrange(len(case.rows))))
    return {other: [row, case.rows[other]]}


def cut_line(case, number, random):
    row = case.rows[number]
    return {number: [row[:random.randrange(len(row) + 1)]]}


def block_at(case, number):
    """Returns where the block of a row begins, and where it ends."""
    starts = case.headings
    begin = max((start for start in starts if start <= number), default=0)
    return begin, min((start for start in starts if start > number), default=len(case.rows))


def lose_block(case, number, random):
    begin, end = block_at(case, number)
    return {other: [] for other in range(begin, end)}


def lose_end_of_block(case, number, random):
    _, end = block_at(case, number)
    return {other: [] for other in range(number, end)}


def double_block(case, number, random):
    begin, end = block_at(case, number)
    return {begin: [*case.rows[begin:end], case.rows[begin]]}


def spoil_token(case, number, random):
    """Makes a token of a row one that no state has. No number becomes another one that a state may have."""
    row = case.rows[number]
    tokens = list(TOKEN.finditer(row))
    if not tokens:
        return {}
    token = tokens[int(random.random() * len(tokens))]
    new = random.choice(strange_tokens(token[0]))
    return {number: [row[:token.start()] + new + row[token.end():]]}


def strange_tokens(token):
    if token[0] == '"':
        return [f'"{token[1:-1]}x"', '"x"', '""', "null", token[:-2] + '"']
    if token.isdigit():
        return ["x", "", "-1", token + "x", "9" * 25]
    if token[0].isalnum():
        return ["x", "xx", "", token[:-1], token + "x", token * 2]
    return ["", token * 2, "x"]


def spoil_everywhere(case, number, random):
    """Makes a word of a row, as a key or a flag, another one in each row."""
    words = [token[0] for token in TOKEN.finditer(case.rows[number]) if token[0][0] == '"' or token[0][0].isalpha()]
    if not words:
        return {}
    word = words[int(random.random() * len(words))]
    form = re.compile(rf"(?<!\w){re.escape(word)}(?!\w)")
    new = strange_tokens(word)[0 if word[0] == '"' else int(random.random() * len(strange_tokens(word)))]
    return {other: [form.sub(lambda _: new, row)] for other, row in enumerate(case.rows) if word in row}


def double_changed(case, number, random):
    """Has a row twice, one of which is spoilt."""
    rows = [[case.rows[number]], spoil_value(case, number, random).get(number, [])]
    return {number: [row for twin_rows in random.sample(rows, 2) for row in twin_rows]}


def text_at(case, number):
    """Returns the numbers of the rows of the text that a row is in."""
    return [other for other, text in enumerate(case.text_of) if text == case.text_of[number]]


def end_as_windows(case, number, random):
    return {other: [f"{case.rows[other]}\r"] for other in text_at(case, number)}


def lose_text(case, number, random):
    return {other: [] for other in text_at(case, number)}


def spoil_value(case, number, random):
    """Loses, doubles, renames or makes strange a value of a row of JSON."""
    row = case.rows[number]
    begin = row.find("{")
    try:
        tree, end = json.JSONDecoder().raw_decode(row[max(begin, 0):])
    except ValueError:
        return spoil_token(case, number, random)
    if not isinstance(tree, dict) or not tree:
        return spoil_token(case, number, random)
    places = list(places_of(tree))
    holder, key = places[int(random.random() * len(places))]
    spoil_place(holder, key, random)
    separators = (", ", ": ") if '": ' in row else (",", ":")
    return {number: [row[:begin] + json.dumps(tree, separators=separators) + row[begin + end:]]}


def places_of(tree):
    """Yields each place of a tree: who holds it, and its key there."""
    for key, value in list(tree.items() if isinstance(tree, dict) else enumerate(tree)):
        yield tree, key
        if isinstance(value, (dict, list)):
            yield from places_of(value)


def spoil_place(holder, key, random):
    way = random.choice(("lost", "strange", "strange", "other"))
    if way == "lost":
        del holder[key]
    elif way == "strange":
        holder[key] = random.choice([value for value in STRANGE if value != holder[key]])
    elif isinstance(holder, dict):
        rows = [(random.choice((f"{name}x", name[:-1], "x")) if name == key else name, value)
                for name, value in holder.items()]
        holder.clear()
        holder.update(rows)
    else:
        holder.insert(key, holder[key])


WAYS = (lose_lines, lose_lines, double_line, cut_line, lose_block, lose_end_of_block, double_block, double_changed,
        spoil_token, spoil_token, spoil_token, spoil_value, spoil_value, spoil_value, spoil_everywhere,
        spoil_everywhere, end_as_windows, lose_text)
