"""Ways to change a system that shall change no answer, or only make it say less: of what the rule sees, and of the text
of a state."""
from __future__ import annotations

import ast
import glob
import json
import os
import random
import re
from typing import Any, Dict, FrozenSet, List, NamedTuple, Sequence, TypeVar

from common import TOOLS, tables_of
from harness import read

from cmh_stall.core.model import HOWS, Part, Sign, Strength, Subject, Wakers, unseen, wakers

Subjects = List[Subject]
Item = TypeVar("Item")
NEW = "one more"
NAMED, ABLE, AGAINST, UNSEEN = list(Strength)
HOWS_OF = {strength: [how for how, (its, _) in HOWS.items() if its is strength] for strength in Strength}


# More life: each adds one who may end a wait


def add_to_part(subjects: Subjects, chance: random.Random, more: Wakers) -> Subjects:
    """Returns a system in which a part of a wait may be ended by some more."""
    places = [(number, place) for number, subject in enumerate(subjects) for place in range(len(subject.parts))]
    if not places:
        return subjects
    number, place = chance.choice(places)
    parts = list(subjects[number].parts)
    parts[place] = (*parts[place], more)
    return [*subjects[:number], subjects[number]._replace(parts=parts), *subjects[number + 1:]]


def any_name(subjects: Subjects, chance: random.Random) -> str:
    return chance.choice(subjects).name


def runner_reaches(subjects: Subjects, chance: random.Random) -> Subjects:
    """One more process computes, and can reach what some wait at: it is in each list that they share."""
    lists = list({id(group.who): group for subject in subjects for part in subject.parts for group in part
                  if group.names()}.values())
    if not lists:
        return [*subjects, Subject(NEW, Sign.GOES_ON)]
    shared = chance.choice(lists).who
    more = wakers("reaches", [NEW])
    changed = [subject._replace(parts=[(*part, more) if any(group.who is shared for group in part) else part
                                       for part in subject.parts]) for subject in subjects]
    return [*changed, Subject(NEW, Sign.GOES_ON)]


def second_holder(subjects: Subjects, chance: random.Random) -> Subjects:
    """What one waits for has a second holder, who computes."""
    return [*add_to_part(subjects, chance, wakers("owns", [NEW])), Subject(NEW, Sign.GOES_ON)]


def one_against(subjects: Subjects, chance: random.Random) -> Subjects:
    how = chance.choice(HOWS_OF[AGAINST])
    return add_to_part(subjects, chance, wakers(how, [any_name(subjects, chance)]))


def one_unseen(subjects: Subjects, chance: random.Random) -> Subjects:
    return add_to_part(subjects, chance, unseen(chance.choice(HOWS_OF[UNSEEN])))


def one_able(subjects: Subjects, chance: random.Random) -> Subjects:
    how = chance.choice(HOWS_OF[ABLE])
    return add_to_part(subjects, chance, wakers(how, [any_name(subjects, chance)]))


def one_named(subjects: Subjects, chance: random.Random) -> Subjects:
    how = chance.choice(HOWS_OF[NAMED])
    return add_to_part(subjects, chance, wakers(how, [any_name(subjects, chance)]))


# With these, nobody more is likely to be stuck either. A named one sets able ones aside, and an able one that waits may
# be the first of whom anything is known.
QUIET = (runner_reaches, second_holder, one_against, one_unseen)
LIFE = (*QUIET, one_able, one_named)


# Less knowledge: of a system that is known, something isn't


def sign_not_understood(subjects: Subjects, chance: random.Random) -> Subjects:
    number = chance.randrange(len(subjects))
    return [*subjects[:number], Subject(subjects[number].name, Sign.UNKNOWN), *subjects[number + 1:]]


def one_not_there(subjects: Subjects, chance: random.Random) -> Subjects:
    """A process is lost, and others still name it."""
    number = chance.randrange(len(subjects))
    return [*subjects[:number], *subjects[number + 1:]] or subjects


LESS = (sign_not_understood, one_not_there, one_unseen)


# Order, names and bystanders


def other_order(subjects: Subjects, chance: random.Random) -> Subjects:
    """All lists are in another order, and those that were one are still one."""
    lists: Dict[int, Sequence[str]] = {}
    made = [subject._replace(parts=shuffled([tuple(shuffled([reordered(group, lists, chance) for group in part],
                                                            chance)) for part in subject.parts], chance))
            for subject in subjects]
    return shuffled(made, chance)


def reordered(group: Wakers, lists: Dict[int, Sequence[str]], chance: random.Random) -> Wakers:
    if group.names():
        names = lists.setdefault(id(group.who), shuffled(list(group.names()), chance))
        return group._replace(who=names)
    return group


def shuffled(some: List[Item], chance: random.Random) -> List[Item]:
    return chance.sample(some, len(some))


def bystander(subjects: Subjects, chance: random.Random) -> Subjects:
    """One more process shares nothing with anybody: it computes, has nothing to do, or sleeps."""
    sign = chance.choice([Sign.GOES_ON, Sign.RESTS, Sign.SLEEPS, Sign.TICKS])
    parts: List[Part] = [] if sign is Sign.GOES_ON else [(unseen("outside"),)]
    place = chance.randrange(len(subjects) + 1)
    return [*subjects[:place], Subject(NEW, sign, parts), *subjects[place:]]


# Names in the text of a state


WORD = re.compile(r"\\.|0x[0-9a-fA-F]+|[A-Z]+(?![a-z])|[A-Z]?[a-z]+")
MARK = "zq"  # no word begins so


def words_of(tree: ast.AST) -> List[str]:
    """Returns the words in the literals of a module, but for its docstrings."""
    documented = [node.value for node in ast.walk(tree) if isinstance(node, ast.Expr)]
    skipped = set(map(id, documented))
    return [word.lower() for node in ast.walk(tree) if isinstance(node, ast.Constant) and id(node) not in skipped
            and isinstance(node.value, str) for word in re.findall(r"[A-Za-z]+", " ".join(WORD.findall(node.value)))]


def meant_words() -> FrozenSet[str]:
    """Returns the words that a tool knows: all others are names that somebody has chosen."""
    paths = [path for path in glob.glob(f"{TOOLS}/**/*.py", recursive=True)
             if os.sep + "tests" + os.sep not in path]
    found = [word for path in paths for word in words_of(ast.parse(read(path)))]
    others = [word.lower() for path in (f"{TOOLS}/cmh_state_reader.erl", f"{TOOLS}/cmh_mpi.c")
              for word in WORD.findall(read(path))]
    return frozenset([*found, *others])


class Renaming:
    """Other names for all that somebody has chosen, by a bijection: words of four letters and more that no tool knows,
    and that are no number to the base 16."""

    def __init__(self, meant: FrozenSet[str]) -> None:
        self.meant, self.seen = meant, 0
        self.known: Dict[str, bool] = {}

    def __call__(self, text: str) -> str:
        return WORD.sub(self.other, text)

    def is_meant(self, word: str) -> bool:
        """Whether a tool knows a word, or its beginning or its end."""
        if word not in self.known:
            parts = [word, *(word[:length] for length in range(4, len(word))),
                     *(word[-length:] for length in range(4, len(word)))]
            self.known[word] = not self.meant.isdisjoint(parts)
        return self.known[word]

    def other(self, found: re.Match[str]) -> str:
        word = found[0]
        if len(word) < 4 or self.is_meant(word.lower()) or re.fullmatch("[a-fA-F]+", word) or not word.isalpha():
            return word
        self.seen += 1
        return MARK.upper() + word if word.isupper() else MARK.capitalize() + word.lower() if word[0].isupper() else \
            MARK + word


# The order of rows in the text of a state: a run of blocks of one kind, or of rows of JSON with the same keys


HEADING = re.compile(r'=\w|goroutine \d|"|# gdb')
BLOCKS = {"erlang": "=process <", "go": r"goroutine \d+ (?!\[running)", "jvm": '"', "mpi": "# gdb -p "}


def kind_of_row(row: str) -> str:
    """Returns what rows of JSON share that stand for things of one kind: the text before, and the first keys."""
    head, brace, rest = row.partition("{")
    try:
        tree = json.loads(brace + rest)
    except ValueError:
        return ""
    return f"{head.strip(', ')} {[*tree][:3]}"


def runs_of(rows: List[str], system: str) -> List[List[int]]:
    """Returns the runs of blocks that may stand in another order, each as the numbers of the rows where one begins,
    with where the last one ends."""
    pattern = BLOCKS.get(system)
    if pattern is None:
        return joined([Block(number, number + 1, kind_of_row(row)) for number, row in enumerate(rows)])
    starts = [number for number, row in enumerate(rows) if re.match(pattern, row)]
    ends = [end_of_block(rows, number, system) for number in starts]
    return joined([Block(start, end, pattern if end < len(rows) or not rows[-1] else "")  # (one that is cut off stays)
                   for start, end in zip(starts, ends)])


class Block(NamedTuple):
    """The rows from one to before another. Blocks without a kind stay where they are."""

    start: int
    end: int
    kind: str


def end_of_block(rows: List[str], start: int, system: str) -> int:
    """Returns where a block ends: before the next heading, or behind an empty row."""
    for number in range(start + 1, len(rows)):
        if HEADING.match(rows[number]):
            return number
        if system != "erlang" and not rows[number].strip():
            return number + 1
    return len(rows)


def joined(blocks: Sequence[Block]) -> List[List[int]]:
    """Returns the runs of those blocks of one kind that follow one another."""
    runs: List[List[int]] = []
    kind = ""
    for block in blocks:
        if runs and runs[-1][-1] == block.start and kind == block.kind:
            runs[-1].append(block.end)
        elif block.kind:
            runs.append([block.start, block.end])
        kind = block.kind
    return [run for run in runs if len(run) > 2]


def other_rows(text: str, system: str, chance: random.Random) -> str:
    """Returns a state in which all runs of blocks are in another order."""
    rows = text.split("\n")
    made: List[str] = []
    done = 0
    for run in runs_of(rows, system):
        blocks = [rows[start:end] for start, end in zip(run, run[1:])]
        mixed = [in_place_of(block, old) for block, old in zip(shuffled(blocks, chance), blocks)]
        made += [*rows[done:run[0]], *(row for block in mixed for row in block)]
        done = run[-1]
    return "\n".join([*made, *rows[done:]])


def in_place_of(block: List[str], old: List[str]) -> List[str]:
    """Returns a block that begins and ends as the one in whose place it is: with the comma of a list of JSON, and with
    an empty row."""
    if block[0][:1] in ",{":
        return [("," if old[0][:1] == "," else "") + block[0].lstrip(","), *block[1:]]
    while block and not block[-1].strip():
        block = block[:-1]
    return [*block, ""] if not old[-1].strip() else block


# A bystander in the text of a state: it sleeps in a function of its own, as a thread of the program that is shown, or
# in a process of its own, where a state has several. A rank of MPI is none, as all share a communicator. Each system's
# is among its tables: a block of text, a row of JSON with how ROWS of it begin, or a function.

APART = 99_001  # the number of a bystander that is a process of its own


def one_more(text: str, system: str) -> str:
    """Returns a state with a bystander in each of its readings, or as it is if the system has none here."""
    tables = tables_of(system)
    if hasattr(tables, "one_more"):
        return str(tables.one_more(text))
    if hasattr(tables, "ROWS"):
        return one_more_line(text, tables.BYSTANDER, *tables.ROWS)
    return one_more_block(text, system, tables.BYSTANDER) if hasattr(tables, "BYSTANDER") else text


def one_more_block(text: str, system: str, block: str) -> str:
    rows = text.split("\n")
    added = block.split("\n")
    for run in reversed(runs_of(rows, system)):
        rows[run[0]:run[0]] = added
    return "\n".join(rows)


def one_more_line(text: str, more: Dict[str, Any], mark: str, key: str) -> str:
    """One more row stands before each that counts those of a reading."""
    rows: List[str] = []
    like: Dict[str, Any] = {}
    for row in text.split("\n"):
        tree = json.loads(row[len(mark):]) if row.startswith(mark) else {}
        like = like or (tree if "backend" in tree else {})
        if isinstance(tree.get(key), int) and "end" in tree:
            rows.append(mark + json.dumps({**like, **more}))
            row = mark + json.dumps({**tree, key: tree[key] + 1})
        rows.append(row)
    return "\n".join(rows)
