"""Spoils kept states by their structure: rows of JSON, tables and blocks of text, such as a thread or a process of
Erlang, are taken apart, and one edit is done to a key, a row, a block, a number or a word. It is done in one look, or
alike in all looks, or it changes the looks themselves.

Some edits make a state that another system could really have, so that nothing in it could show them. An edit says
before any answer is seen whether it is one of these, and of which class: `INEVITABLE` has them."""
from __future__ import annotations

import json
import random
import re
from collections import defaultdict
from typing import Any, Callable, Dict, Iterator, List, NamedTuple, Optional, Sequence, Tuple

Path = Tuple[Any, ...]
# What a line of text that begins a block looks like, by the system, with what tells the block from others.
HEADS = {"erlang": r"=\w.*", "go": r"goroutine \d+|# cmh", "mpi": r"# gdb -p \d+|Thread .*?LWP \d+|# /proc/\S+",
         "jvm": r'"[^"]*"(?: #\d+)?|Full thread dump|# cmh \w+|Threads class SMR|JNI global', "rabbitmq": r"# .*",
         "python": r"Thread .*?(?:LWP \d+|$)|# \w+|Current thread \w+"}
ROW = re.compile(r"(?:# )?cmh[- ]\w+ (?=\{)|cmh-pgbouncer (?=[^#]*,)")
NO_KEYS = {"reading", "end", "look", "time", "version", "listening", "parents", "taken", "limits", "stacks", "began"}
WORD = re.compile(r"#(?:Ref|Port)<[\d.]+>|<\d+\.\d+\.\d+>|0x[0-9a-fA-F]+|\d+(?:\.\d+)*|[A-Za-z_$][\w$.-]*|'[^']*'|\[\]")
GROUP = re.compile(r"\[[^][]*\]|\{[^{}]*\}|\([^()]*\)")
NUMBER = re.compile(r"(?<![\w.])\d+(?![\w.])")
KEPT = 400  # values of a kind that are kept to be taken from other cases
ALL, SEVERAL = -1, -2  # the numbers that stand for all looks, and for some of them in different ways
INEVITABLE = {
    "number": "a limit, a mask, a flag, a count or a time is another one in all looks, or shows a move in one",
    "row": "a row, a block, an entry of a list or a mark is gone, or one of another case is there, uncounted",
    "name": "a word or a number is another one everywhere",
    "place": "a word of a place is another one in all looks, or in one of one whose moves nothing counts, or that has "
             "moved",
    "link": "who owns, who has begun or who is waited for is another one in all looks",
    "fact": "a fact of the case says of all who aren't understood that they go on"}
# Keys that say which is which, and that other rows name too: another value contradicts these.
TOLD_TWICE = re.compile(r"(pid|tid|native|thread|of|rank|backend|connection|channel_pid|inner|end|rows|processes|ranks"
                        r"|messages_unacknowledged|version|machine|space|host|size)$")
LINKS = re.compile(r"(ppid|group|session|parent|owner|for|wait|held|partner|blocked_by|peers|leader_pid|lock|on|id"
                   r"|waits|loop|current|taken|holds|sets|users|object|args|at|to|key|comm|links|monitors|code)$")
# Keys that show that a process has moved, or computes.
MOVES = re.compile(r"(counts|calls|stops|spent|new_stops|moved|asleep|switches|used|polls|entered|reductions|state"
                   r"|status|query_id|wait|(?:\w+_)?start(?:ed)?|state_change|done|(recv|send)_(cnt|oct)|count)$")
COUNTED = re.compile(r'"counts"|"stops"|"calls"|{reductions,|voluntary_ctxt_switches| cpu=|"query_id"|"query_start"'
                     r'|"send_cnt"')
# What counts the moves of one, with its value.
COUNTS = re.compile(r'"(?:counts|stops|spent|calls|switches|entered)": ?(?:\[[^]]*\]|\d+)|{reductions,\d+}'
                    r'|cpu=[\d.]+ms|"query_start": ?"[^"]*"|"query_id": ?\d+|"(?:recv|send)_oct": ?\d+')
BESIDE = "doubled, then taken from another case"  # an entry of a list, with one of another case beside it
ENTRIES = {"fds", "handlers", "callers", "parents"}  # objects whose keys are entries
MARKS = ("is_all", "is_full", "is_direct")  # keys that old rows of a heap have where they say something, and else not
SWAPPED = ("channel_pid",)  # keys whose values, swapped in all looks, still name what is there
COMES = ("tid", "start")  # another number of one of these is a thread or a process that has come for one that has ended
SWEEPING = re.compile(r"^\*\s+->\s+(runs|ended)", re.M)  # a fact that decides all who aren't understood
ODD: List[Any] = [None, 0, 1, -1, "", "0", [], {}, True, False, 1 << 62, 0.5, "x"]


class Block(NamedTuple):
    """A row of JSON, a table of such rows, or lines of text. `tree` is its structure, `key` tells it from others,
    `look` says in which look it stands, and `file` in which text."""

    kind: str
    prefix: str
    tree: Any
    text: str
    key: str
    look: int
    file: int

    def of(self, tree: Any) -> Block:
        return self._replace(tree=tree, text=text_of(self.kind, self.prefix, tree))


class Edit(NamedTuple):
    """What was done: in words, in which look or in all, to what kind of place, and the class if it is inevitable."""

    how: str
    look: int
    where: str
    inevitable: str = ""


Spoilt = Optional[Tuple[List[Block], Edit]]


class Twice(NamedTuple):
    """A value whose key is written twice, and the second value."""

    value: Any
    second: Any


# From texts to blocks, and back


def text_of(kind: str, prefix: str, tree: Any) -> str:
    if kind == "text":
        return "".join(tree)
    if kind == "row":
        return f"{prefix}{text_of_json(tree)}\n"
    rows = "\n,".join(map(text_of_json, tree)) if isinstance(tree, list) else text_of_json(tree)
    return f"{prefix}[\n{rows}\n]\n" if tree and isinstance(tree, list) else f"{prefix}{rows or '[]'}\n"


def text_of_json(tree: Any) -> str:
    """The text of a tree, in which a key may stand twice."""
    if isinstance(tree, dict) and any(isinstance(value, Twice) for value in tree.values()):
        parts = [(key, one) for key, value in tree.items()
                 for one in (value if isinstance(value, Twice) else (value,))]
        return "{" + ", ".join(f"{json.dumps(key)}: {text_of_json(value)}" for key, value in parts) + "}"
    if isinstance(tree, dict) and '"Twice' not in repr(tree):
        return "{" + ", ".join(f"{json.dumps(key)}: {text_of_json(value)}" for key, value in tree.items()) + "}"
    if isinstance(tree, list):
        return "[" + ", ".join(map(text_of_json, tree)) + "]"
    return json.dumps(tree)


def blocks_of(system: str, texts: Sequence[str]) -> List[Block]:
    """Returns the blocks of the texts of a case. A block whose key was there before is of the next look."""
    seen: Dict[str, int] = defaultdict(int)
    made = []
    for file, text in enumerate(texts):
        for kind, prefix, tree, part, key in parts_of(system, text):
            made.append(Block(kind, prefix, tree, part, key, seen[key], file))
            seen[key] += 1
    return made


def parts_of(system: str, text: str) -> Iterator[Tuple[str, str, Any, str, str]]:
    """Yields the blocks of a text, each as its kind, what stands before its tree, its tree, its text and its key."""
    lines: List[str] = []
    key, head = "", re.compile(HEADS.get(system, r"(?!)"))
    for line in text.splitlines(True):
        match, row = head.match(line), ROW.match(line)
        if (match or row) and lines:
            yield part_of(system, lines, key)
            lines = []
        if row:
            yield row_of(line, row[0])
        else:
            key = match[0] if match else "" if not lines else key
            lines.append(line)
    if lines:
        yield part_of(system, lines, key)


def row_of(line: str, prefix: str) -> Tuple[str, str, Any, str, str]:
    try:
        tree = json.loads(line[len(prefix):])
    except ValueError:
        return "text", "", [line], line, " ".join(line.split(",")[:6:5])
    key = [name if name in NO_KEYS else f"{name}={value}" for name, value in list(tree.items())[:2]
           if isinstance(value, (int, str, list)) or name in NO_KEYS]
    return "row", prefix, tree, line, f"{prefix}{' '.join(key[:1] if key and key[0] in NO_KEYS else key)}"


def part_of(system: str, lines: List[str], key: str) -> Tuple[str, str, Any, str, str]:
    """Returns a block of text, or a table if all of it but its head is JSON."""
    text = "".join(lines)
    if system == "rabbitmq" and lines[1:]:
        try:
            return "table", lines[0], json.loads("".join(lines[1:])), text, key
        except ValueError:
            pass
    return "text", "", lines, text, key


def texts_of(blocks: Sequence[Block], number: int) -> List[str]:
    """The texts of some blocks: a file that has lost all of them is left out."""
    made: List[List[str]] = [[] for _ in range(number)]
    for block in blocks:
        made[block.file].append(block.text)
    return ["".join(parts) for parts in made if parts]


# Places in a tree


def places_of(tree: Any, path: Path = ()) -> Iterator[Tuple[Path, Any]]:
    """Yields all places of a tree with their values."""
    yield path, tree
    pairs: Any = tree.items() if isinstance(tree, dict) else enumerate(tree) if isinstance(tree, list) else ()
    for key, value in pairs:
        yield from places_of(value, (*path, key))


def value_at(tree: Any, path: Path) -> Any:
    """The value at a place of a tree. Raises LookupError or TypeError where there is none."""
    for key in path:
        tree = tree[key]
    return tree


def replace_at(tree: Any, path: Path, change: Callable[[Any, Any], Any]) -> Any:
    """Returns a tree in which what has a place is changed, by what changes an own copy of the container of it."""
    made = tree.copy()
    if len(path) == 1:
        change(made, path[0])
    else:
        made[path[0]] = replace_at(made[path[0]], path[1:], change)
    return made


def kind_of_place(block: Block, path: Path, value: Any) -> str:
    """What places are alike: those at one key of rows of one kind, or lines that begin alike."""
    head = re.sub(r"\d+", "N", re.sub(r"=.*|<.*", "", block.key.replace('"', "")))[:30]
    if block.kind == "text":
        words = re.sub(r"0x\w+|\d+|\"[^\"]*\"|<[^>]*>", "N", value).split(",")[0].split()[:2] if isinstance(
            value, str) else ["lines"]
        return f"{head.split()[0] if head else ''}|{' '.join(words)[:40]}"
    return f"{head.split('=')[0]}|" + ".".join(
        "*" if isinstance(it, int) or re.match(r"[\d\W]", it) else it for it in path[-4:])


class Structure:
    """The states of a kept case as blocks, with all places that an edit may be at, by their kinds."""

    def __init__(self, system: str, texts: Sequence[str]) -> None:
        self.system, self.number = system, len(texts)
        self.blocks = blocks_of(system, texts)
        self.looks = 1 + max((block.look for block in self.blocks), default=0)
        self.is_counted = any(COUNTED.search(text) for text in texts)
        self.twins: Dict[str, List[int]] = defaultdict(list)
        self.places: Dict[str, List[Tuple[int, Path]]] = defaultdict(list)
        for at, block in enumerate(self.blocks):
            self.twins[block.key].append(at)
            for path, value in places_of(block.tree):
                if path:
                    self.places[kind_of_place(block, path, value)].append((at, path))
        self.kinds = sorted(self.places)
        self.numbers = sorted({int(it) for block in self.blocks for it in NUMBER.findall(block.text)})


class Pool:
    """What other cases of a system have: values by the kinds of their places, words, blocks by their kinds."""

    def __init__(self, cases: Sequence[Structure], seed: str) -> None:
        self.chance, self.cases = random.Random(seed), cases
        self.values: Dict[str, List[Any]] = defaultdict(list)
        seen: Dict[str, int] = defaultdict(int)
        for case in cases:
            for kind, places in case.places.items():
                for at, path in places[:20]:
                    seen[kind] += 1
                    self.keep(kind, seen[kind], value_at(case.blocks[at].tree, path))

    def keep(self, kind: str, number: int, value: Any) -> None:
        kept = self.values[kind]
        if len(kept) < KEPT:
            kept.append(value)
        elif self.chance.random() < KEPT / number:
            kept[self.chance.randrange(KEPT)] = value


# Edits


class Spoiler:
    """Spoils a case in one way by chance."""

    def __init__(self, case: Structure, pool: Pool, chance: random.Random) -> None:
        self.case, self.pool, self.chance = case, pool, chance

    def spoil(self) -> Spoilt:
        ways = [(self.change_place, 60), (self.change_block, 16), (self.change_look, 6), (self.rename, 9),
                (self.swap_places, 9)]
        way = self.chance.choices([way for way, _ in ways], [weight for _, weight in ways])[0]
        return way()

    def looks_for(self, at: int) -> List[int]:
        """The blocks that stand for one thing in the looks that an edit is for: in one, or in all."""
        twins = self.case.twins[self.case.blocks[at].key]
        return twins if self.chance.random() < 0.5 else [at]

    def look_of(self, places: Sequence[int]) -> int:
        """In which look some blocks stand: in all, if all that stand for the one thing are there."""
        block = self.case.blocks[places[0]]
        return ALL if len(places) == len(self.case.twins[block.key]) else block.look

    # One place of a tree

    def change_place(self) -> Spoilt:
        kind = self.chance.choice(self.case.kinds)
        at, path = self.chance.choice(self.case.places[kind])
        value = value_at(self.case.blocks[at].tree, path)
        how, change = self.change_of(kind, value)
        made, done = list(self.case.blocks), []
        for place in self.looks_for(at):
            block = self.case.blocks[place]
            try:
                made[place] = block.of(replace_at(block.tree, path, change))
                done.append(place)
            except (LookupError, TypeError, AttributeError):
                continue
        if not done or all(made[place].text == self.case.blocks[place].text for place in done):
            return None
        look = self.look_of(done)
        return made, Edit(how, look, kind, self.class_of_place(how, look, at, path, value))

    def is_counted(self, at: int) -> bool:
        """Whether a state counts the moves of one, and it hasn't moved between the looks."""
        counts = {tuple(COUNTS.findall(self.case.blocks[it].text)) for it in self.case.twins[self.case.blocks[at].key]}
        return self.case.is_counted and len(counts) == 1

    def class_of_place(self, how: str, look: int, at: int, path: Path, value: Any) -> str:
        """The class of an edit at a place, if it has one."""
        key = next((word for word in reversed(path) if isinstance(word, str)), "")
        if isinstance(value, str) and not key:  # (a line of text)
            key = re.split(r"[,(\s]", value.strip(" {"))[0]
        is_json, is_list = isinstance(path[0], str) or len(path) > 1, isinstance(value, (list, dict))
        if is_json and is_list and COUNTS.search(text_of_json(value)) and how == "taken from another case":
            return "row"
        if key in SWAPPED and how.startswith("swapped") and look == ALL:
            return "link"
        is_beside = how == BESIDE and isinstance(value, dict) and not isinstance(path[-1], str)
        if is_beside or how == "lost" and key in MARKS:
            return "row"
        if how.startswith("doubled") or is_json and TOLD_TWICE.match(key) and not (key in COMES and look != ALL):
            return ""
        is_entry = not isinstance(path[-1], str) and is_json or not ENTRIES.isdisjoint(path[-2:])
        if how in ("lost", "emptied", "cut") and (is_entry or is_list):
            return "row" if look == ALL or isinstance(value, dict) or key == "threads" else ""
        if look != ALL:
            is_move = (MOVES.match(key) or key in COMES) and how != "lost"
            return "number" if is_move else "" if self.is_counted(at) or how == "lost" and is_json else "place"
        if is_json and how == "lost":
            return ""
        is_number = isinstance(value, (int, float, type(None))) or how == "a number changed"
        return "link" if LINKS.match(key) else "number" if is_number else "place"

    def change_of(self, kind: str, value: Any) -> Tuple[str, Callable[[Any, Any], Any]]:
        """What is done at a place, in words and as what does so to the container of it."""
        which = self.chance.random()
        if which < 0.12:
            return "lost", lambda row, key: row.pop(key)
        if which < 0.2:
            return "doubled", lambda row, key: row.insert(key, row[key]) if isinstance(row, list) else row.update(
                {key: Twice(row[key], row[key])})
        how, new = self.new_value(kind, value)
        if which < 0.24 and not isinstance(value, str):
            return f"doubled, then {how}", lambda row, key: row.insert(key, new) if isinstance(
                row, list) else row.update({key: Twice(row[key], new)})
        return how, lambda row, key: row.__setitem__(key, new)

    def new_value(self, kind: str, value: Any) -> Tuple[str, Any]:
        which = self.chance.random()
        if which < 0.3:
            return "taken from another case", self.chance.choice(self.pool.values[kind])
        if isinstance(value, bool):
            return "turned round", not value
        if isinstance(value, (int, float)):
            return "another number", self.other_number(value)
        if isinstance(value, str) and which < 0.95:
            return self.new_text(value)
        if isinstance(value, (list, dict)) and value and which < 0.8:
            return self.new_list(value)
        return "of another shape", self.chance.choice(ODD)

    def other_number(self, value: Any) -> Any:
        near = [value + 1, value - 1, 0, 1, value * 2, -value, value + 1000]
        return self.chance.choice([self.chance.choice(near), self.chance.choice(self.case.numbers or [0])])

    def new_list(self, value: Any) -> Tuple[str, Any]:
        """A list or an object with parts lost, doubled or in another order."""
        keys = list(value) if isinstance(value, dict) else list(range(len(value)))
        which = self.chance.randrange(3)
        if which == 0:
            return "emptied", type(value)()
        if which == 1:
            cut = keys[:self.chance.randrange(len(keys))]
            return "cut", {key: value[key] for key in cut} if isinstance(value, dict) else value[:len(cut)]
        self.chance.shuffle(keys)
        if isinstance(value, dict):
            return "its values mixed", dict(zip(value, (value[key] for key in keys)))
        return "in another order", [value[key] for key in keys]

    def new_text(self, text: str) -> Tuple[str, str]:
        """A text with one of its words or groups lost, doubled or changed, or cut."""
        which = self.chance.random()
        groups, words = list(GROUP.finditer(text)), list(WORD.finditer(text))
        if which < 0.15 and groups:
            group = self.chance.choice(groups)
            new = self.chance.choice([group[0][0] + group[0][-1], "", group[0] * 2, f"{group[0]},{group[0]}"])
            return "a group changed", text[:group.start()] + new + text[group.end():]
        if which < 0.25 or not words:
            end = "\n" if text.endswith("\n") else ""
            return "cut", text[:self.chance.randrange(max(len(text), 1))].rstrip("\n") + end
        word = self.chance.choice(words)
        how, new = self.new_word(word[0])
        return how, text[:word.start()] + new + text[word.end():]

    def new_word(self, word: str) -> Tuple[str, str]:
        which = self.chance.random()
        if which < 0.15:
            return "a word lost", ""
        if which < 0.25:
            return "a word doubled", f"{word} {word}"
        if which < 0.6 and word.isdigit():
            return "a number changed", str(self.other_number(int(word)))
        if which < 0.35:
            return "a word mangled", word[::-1] if which < 0.3 else f"{word}x"
        same = [it for it in self.words_of_one_block() if it != word and same_kind(it, word)]
        return "another word of the state", self.chance.choice(same) if same else f"{word}2"

    def words_of_one_block(self) -> List[str]:
        return WORD.findall(self.chance.choice(self.case.blocks).text)[:2000]

    # Two places

    def swap_places(self) -> Spoilt:
        """Two places of one kind of two blocks have the value of each other, in one look or in all."""
        kind = self.chance.choice(self.case.kinds)
        pairs = self.case.places[kind]
        (at, path), (other, its) = self.chance.choice(pairs), self.chance.choice(pairs)
        one, two = self.case.blocks[at], self.case.blocks[other]
        if (at, path) == (other, its) or at == other and path[:len(its)] == its[:len(path)]:
            return None
        mine, yours = self.case.twins[one.key], self.case.twins[two.key]
        here = list(zip(mine, yours)) if self.chance.random() < 0.5 and at != other else [(at, other)]
        made = list(self.case.blocks)
        for first, second in here:
            try:
                values = value_at(made[first].tree, path), value_at(made[second].tree, its)
                made[first] = made[first].of(replace_at(made[first].tree, path, setter(values[1])))
                made[second] = made[second].of(replace_at(made[second].tree, its, setter(values[0])))
            except (LookupError, TypeError, AttributeError):
                continue
        if all(new.text == old.text for new, old in zip(made, self.case.blocks)):
            return None
        look = ALL if len(here) == len(mine) else one.look if one.look == two.look else SEVERAL
        value = value_at(one.tree, path)
        how = "swapped with another process"
        return made, Edit(how, look, kind, self.class_of_place(how, look, at, path, value))

    # A block

    def change_block(self) -> Spoilt:
        blocks = self.case.blocks
        at = self.chance.randrange(len(blocks))
        if self.chance.random() < 0.7:  # (a kind that is seldom comes as often as others)
            heads = defaultdict(list)
            for place, block in enumerate(blocks):
                heads[re.sub(r"[=\d].*", "", block.key)].append(place)
            at = self.chance.choice(self.chance.choice(list(heads.values())))
        ways = [self.lose_blocks, self.double_blocks, self.swap_blocks, self.take_block, self.copy_look]
        return self.chance.choice(ways)(at)

    def lose_blocks(self, at: int) -> Spoilt:
        places = self.looks_for(at)
        made = [block for place, block in enumerate(self.case.blocks) if place not in places]
        return made, Edit("block lost", self.look_of(places), self.kind(at), "row")

    def kind(self, at: int) -> str:
        return kind_of_place(self.case.blocks[at], (), "").partition("|")[0]

    def double_blocks(self, at: int) -> Spoilt:
        """A block stands twice: at its place, or also at another one of the look."""
        places, made = self.looks_for(at), []
        for place, block in enumerate(self.case.blocks):
            made += [block, block] if place in places else [block]
        return made, Edit("block doubled", self.look_of(places), self.kind(at))

    def swap_blocks(self, at: int) -> Spoilt:
        """Two blocks of one kind have the head of each other, or the place of each other."""
        blocks, kind = self.case.blocks, self.kind(at)
        others = [place for place in range(len(blocks)) if self.kind(place) == kind and place != at]
        if not others:
            return None
        other, made = self.chance.choice(others), list(blocks)
        one, two = blocks[at], blocks[other]
        if one.kind == two.kind == "text" and self.chance.random() < 0.6:
            made[at] = one.of([*one.tree[:1], *two.tree[1:]])
            made[other] = two.of([*two.tree[:1], *one.tree[1:]])
            how = "bodies of blocks swapped"
            is_place = not self.is_counted(at) or not self.is_counted(other) or self.case.looks == 1
        else:
            made[at], made[other] = two._replace(file=one.file), one._replace(file=two.file)
            how, is_place = "places of blocks swapped", False
        look = one.look if one.look == two.look else SEVERAL
        return made, Edit(how, look, kind, "place" if is_place else "")

    def take_block(self, at: int) -> Spoilt:
        """A block of another case stands in the place of one, or beside it."""
        kind, block = self.kind(at), self.case.blocks[at]
        case = self.chance.choice(self.pool.cases)
        near = [one for one in case.blocks if one.kind == block.kind and kind == kind_of_place(one, (), "").partition(
            "|")[0]]
        if not near or case is self.case:
            return None
        new = self.chance.choice(near)._replace(file=block.file)
        is_beside, made = self.chance.random() < 0.5, list(self.case.blocks)
        places = self.looks_for(at)
        for place in sorted(places, reverse=True):
            made[place:place + 1] = [made[place]] * is_beside + [new._replace(file=made[place].file)]
        how = "block of another case " + ("beside" if is_beside else "in the place")
        return made, Edit(how, self.look_of(places), kind, "row")

    def copy_look(self, at: int) -> Spoilt:
        """A block stands in one look as it does in another one."""
        twins = self.case.twins[self.case.blocks[at].key]
        if len(twins) < 2:
            return None
        source, goal = self.chance.sample(twins, 2)
        made = list(self.case.blocks)
        made[goal] = made[goal]._replace(text=made[source].text)
        if made[goal].text == self.case.blocks[goal].text:
            return None
        return made, Edit("block as in the other look", SEVERAL, self.kind(at), "number")

    # Looks

    def change_look(self) -> Spoilt:
        ways = [self.cut_state, self.swap_looks, self.mix_looks, self.lose_look, self.double_look]
        return self.chance.choice(ways)()

    def cut_state(self) -> Spoilt:
        """One text is cut, anywhere."""
        blocks = list(self.case.blocks)
        at = self.chance.randrange(len(blocks))
        lines = blocks[at].text.splitlines(True)
        text = "".join(lines[:self.chance.randrange(len(lines) + 1)])
        end = self.chance.choice([len(blocks), at + 1])  # (what comes after it in its file is lost, or nothing)
        made = [*blocks[:at], blocks[at]._replace(text=text), *(
            block for block in blocks[at + 1:] if block.file != blocks[at].file or end == at + 1)]
        has_end = self.case.system != "go"  # (nothing in a text of Go says where that ends)
        return made, Edit("cut", blocks[at].look, self.kind(at), "" if has_end else "row")

    def in_looks(self, order: Sequence[int]) -> List[Block]:
        """The blocks of some looks, one after the other."""
        return [block._replace(file=min(place, self.case.number - 1)) for place, look in enumerate(order)
                for block in self.case.blocks if block.look == look]

    def swap_looks(self) -> Spoilt:
        if self.case.looks < 2:
            return None
        return self.in_looks(list(range(self.case.looks))[::-1]), Edit("looks swapped", ALL, "looks")

    def lose_look(self) -> Spoilt:
        if self.case.looks < 2:
            return None
        lost = self.chance.randrange(self.case.looks)
        return [block for block in self.case.blocks if block.look != lost], Edit("look lost", lost, "looks")

    def double_look(self) -> Spoilt:
        look, order = self.chance.randrange(self.case.looks), list(range(self.case.looks))
        if self.chance.random() < 0.5 and self.case.looks > 1:
            return self.in_looks([look] * self.case.looks), Edit("look in the place of the others", ALL, "looks",
                                                                 "number")
        return self.in_looks([*order[:look], look, *order[look:]]), Edit("look doubled", ALL, "looks")

    def mix_looks(self) -> Spoilt:
        """A look is that of another case, or some blocks of it are, or some are those of the other look."""
        case, look = self.chance.choice(self.pool.cases), self.chance.randrange(self.case.looks)
        if self.case.looks == 1:
            return None  # (it would be a state of the other case)
        if self.chance.random() < 0.5:
            return self.mix_own()
        cut = self.chance.choice([0, self.chance.randrange(len(self.case.blocks))])
        made = [block for at, block in enumerate(self.case.blocks) if block.look != look or at < cut]
        last = max((block.file for block in made), default=0)
        made += [block._replace(file=last) for block in case.blocks if block.look == min(look, case.looks - 1)]
        return made, Edit("look of another case", look, "looks", "" if cut else "row")

    def mix_own(self) -> Spoilt:
        made = list(self.case.blocks)
        for twins in self.case.twins.values():
            if len(twins) > 1 and self.chance.random() < 0.5:
                made[twins[0]], made[twins[1]] = (made[twins[0]]._replace(text=made[twins[1]].text),
                                                  made[twins[1]]._replace(text=made[twins[0]].text))
        return made, Edit("blocks of looks mixed", ALL, "looks")

    # Names

    def rename(self) -> Spoilt:
        """A word or a number is another one: all over, in one look, or in one block."""
        block = self.chance.choice(self.case.blocks)
        words = [word for word in WORD.findall(block.text)[:3000] if len(word) > 1]
        if not words:
            return None
        word = self.chance.choice(words)
        _, new = self.new_word(word)
        form = re.compile(rf"(?<![\w.]){re.escape(word)}(?![\w.])")
        which = self.chance.choice(["everywhere", "in one look", "in one block"])
        made = [one._replace(text=form.sub(lambda _: new, one.text)) if which == "everywhere" or one is block or (
            which == "in one look" and one.look == block.look) else one for one in self.case.blocks]
        if all(one.text == old.text for one, old in zip(made, self.case.blocks)):
            return None
        look = ALL if which == "everywhere" else block.look
        is_counted = self.is_counted(self.case.blocks.index(block))
        kind = "name" if which == "everywhere" else "" if is_counted else "place"
        return made, Edit(f"renamed {which}", look, re.sub(r"\d+", "N", word)[:40], kind)


def same_kind(one: str, other: str) -> bool:
    """Whether two words are of one kind: two numbers, two PIDs, two names."""
    return re.sub(r"\d+", "0", one)[:2] == re.sub(r"\d+", "0", other)[:2] or one[:1].isalpha() and other[:1].isalpha()


def setter(value: Any) -> Callable[[Any, Any], Any]:
    return lambda row, key: row.__setitem__(key, value)
