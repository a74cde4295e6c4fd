"""The readings of Erlang nodes in the text that `cmh_state_reader` prints: the processes of a node, and what it prints
of the node itself."""
from __future__ import annotations

import re
from hashlib import blake2b
from typing import Callable, Dict, Iterator, List, Set, Tuple

from ...core.files import Refusal, shown
from ...core.snapshots import PARTS, Reading
from .text import WORD, ErlangBlock, Receives, terms_of

# Of older texts, which said what code may do: these lines tell nothing any more.
OLD_WORDS = {"begins", "grants", "holds", "keepers", "outside", "permits", "places", "quiet", "tells", "ticks"}
FIRST = re.compile(r"=(left out|\w+) ")  # no line of a process begins so
MARK = re.compile(rf"\n{FIRST.pattern}")
TAKEN = re.compile(r"(\d{1,12}\.\d{3}) (\d{1,12}\.\d{3}) \S+\s*")  # when a node was read, behind all else of it
A_LIMIT, AN_OWNER = r"infinity|any|\d+", r"{<[\d.]+>,#Ref<[\d.]+>}"
# The rows below lines of some words: the receives of a function, and whom it has sent to before; the number of another
# node; who has a lock, or wants one of Mnesia; the modules of the program's own that handle events of the system; who
# has begun a timer that is repeated; the port of a connection with its owner and its ends; and the machine.
ROWS = {"receives": re.compile(rf"{{{WORD},{WORD},(\d+),\[((?:{terms_of(A_LIMIT)})?)\]"
                               r"(?:,(\d+)((?:,(?:once|told|down))*))?}"),
        "asks": re.compile(rf"{{{WORD},{WORD},(\d+),\[(.*)\]}}"),
        "numbers": re.compile(r"(\d+) (\S+)"),
        "handles": re.compile(r"\w+|'[^']*'"),
        "repeated": re.compile(r"<[\d.]+>"),
        "sockets": re.compile(r"(#Port<[\d.]+>) (<[\d.]+>) (\S+) (\S+)"),
        "machine": re.compile(r"\S+ pid:\[\d+\]"),
        "locks": re.compile(rf"{{(.*),\[({terms_of(AN_OWNER)})\]}}"),
        "mnesia": re.compile(r"{(?P<word>has|wants),{(?P<what>.*)},(?P<kind>\w+),"
                              r"(?P<pid><[\d.]+>)(?:,(?P<owner><[\d.]+>))?}")}
WITHOUT_ROWS = {"end", "keeps", "left out", "nodes", "repeats", "tables", "timers"}
COUNTS = {"handles", "left out", "nodes", "receives", "repeats", "timers"}
# An item that came with a count.
SINCE = {"handles": "timed", "nodes": "closures", "receives": "closures", "repeats": "timed", "timers": "may_end"}
REDUCTIONS = "\n{reductions,"


def parts_of(text: str) -> Iterator[Tuple[str, str]]:
    """Yields each part of a text, with the word that it begins with. They are cut off one by one, as all of them take
    as much memory as the text."""
    first = FIRST.match(text)
    word, begin = (first[1], first.end()) if first else ("", 0)
    for mark in MARK.finditer(text):
        if word:
            yield word, text[begin:mark.start()]
        word, begin = mark[1], mark.end()
    if word:
        yield word, text[begin:].rstrip("\n")


def block_of(text: str, path: str, known: Dict[bytes, ErlangBlock]) -> ErlangBlock:
    """Returns what is printed of one process. Of one that stands as it stood before, but for its reductions and where
    these are printed, they alone are read. `known` has the blocks by the digest of their other text."""
    front, _, back = text.partition(REDUCTIONS)
    count, _, rest = back.partition("}")
    if not count.isdigit():
        return ErlangBlock(text, path)
    digest = blake2b(f"{front}{rest}".encode(), digest_size=16).digest()
    if digest not in known:
        known[digest] = ErlangBlock(text, path)
        return known[digest]
    block = ErlangBlock.__new__(ErlangBlock)
    vars(block).update(vars(known[digest]))
    block.count = count
    return block


def readings_of(path: str, text: str, known: Dict[bytes, ErlangBlock]) -> List[NodeReading]:
    """Returns the readings of a text in their order: where a process of a node stands again behind the end of one, or
    in an older text without ends, another one begins. `known` has the blocks that were read before."""
    readings: List[NodeReading] = []
    pids: Set[str] = set()
    is_counted = "\n=end " in text
    for word, part in parts_of(text.replace("\r\n", "\n")):
        block = block_of(part, path, known) if word == "process" else None
        words = [] if block else part.partition("\n")[0].split()
        node = block.node if block else words[-1] if words else ""
        last = readings[-1] if readings else None
        is_over = last is not None and last.is_closed and not (word == "taken" and last.time is None)
        is_twice = block is not None and block.pid in pids
        if last is None or last.source != node or is_over or is_twice and not is_counted:
            last, pids, is_twice = NodeReading(path, node), set(), False
            readings.append(last)
        if block:
            last.odd = last.odd or (f"it has {block.pid} twice" if is_twice else "")
            last.rows.append(block)
            pids.add(block.pid)
        elif word == "taken":
            last.take_time(part, path)
        else:
            last.count(word, part, path)
    if not readings:
        raise Refusal(f"{shown(path)}: no line begins with '=process '")
    for reading in readings:
        reading.close()
    return readings


class NodeReading(Reading):
    """The processes of a node as one state has them, up to its line '=end'; the receives in a function, by its module,
    name and arity; the nodes by the numbers that they have there; its locks, and those of Mnesia; the
    names to which a function has sent before it receives; the modules of the program's own that handle events of
    the system; who has begun timers that are repeated; and its connections."""

    def __init__(self, path: str, node: str) -> None:
        super().__init__(path, node, site=node.split("@")[0])
        self.numbers: Dict[str, int] = {}
        self.receives: Dict[Tuple[str, ...], Receives] = {}
        self.nodes: Dict[str, str] = {}
        self.locks: List[Tuple[str, str]] = []
        self.mnesia: List[re.Match[str]] = []
        self.asks: Dict[Tuple[str, ...], List[str]] = {}
        self.handlers: List[str] = []
        self.sockets: List[re.Match[str]] = []
        self.repeated: List[str] = []
        self.odd = ""  # what of its lines isn't understood, in words

    @property
    def is_closed(self) -> bool:
        return "end" in self.numbers

    def count(self, word: str, text: str, path: str) -> None:
        """Takes a line '=left out N NODE', '=timers N NODE', '=end N NODE' or another such, with the rows after it."""
        number = re.fullmatch(r"(\d{1,9}) \S+\s*", text.split("\n")[0])
        rows = text.rstrip("\n").split("\n")[1:]
        if word in OLD_WORDS:
            return
        if word not in ROWS and word not in WITHOUT_ROWS:
            self.odd = self.odd or f"nothing is known of its line '={shown(word[:60])} ..'"
            return
        if not number or word not in ROWS and rows:
            raise Refusal(f"{shown(path)}: '={word} {shown(text[:60].strip())}' has no number and node")
        if word in self.numbers:
            self.odd = self.odd or f"its line '={word} ..' stands twice"
        self.numbers[word] = int(number[1])
        matches = list(filter(None, map(ROWS[word].fullmatch, rows))) if rows else []
        if word in ROWS and not len(matches) == len(rows) == self.numbers[word]:
            self.odd = self.odd or f"the rows of its line '={word} ..' aren't understood"
        elif word in KEEPERS:
            KEEPERS[word](self, matches)

    def know_machine(self, rows: List[re.Match[str]]) -> None:
        self.machine = next((row[0] for row in rows), "")

    def take_time(self, text: str, path: str) -> None:
        """Takes a line '=taken BEGAN ENDED NODE'."""
        times = TAKEN.fullmatch(text)
        if not times:
            raise Refusal(f"{shown(path)}: '=taken {shown(text[:60].strip())}' has no times and node")
        self.time = float(times[1]), float(times[2])

    def close(self) -> None:
        """Says what the text lacks."""
        lost = [needed for needed in COUNTS - self.numbers.keys()
                if needed not in SINCE or any(block.extra(SINCE[needed]) for block in self.rows)]
        is_counted = self.numbers.get("end") == len(self.rows)
        if lost or not is_counted:
            self.extent = PARTS
            self.missing = "the state of the node isn't whole: " + (
                f"it has no line '={min(lost)} ..'" if is_counted else
                "its last line '=end ..' is missing, or counts others")
            return
        if self.odd:
            self.extent = PARTS
            self.missing = f"the state of the node isn't understood: {self.odd}"
            return
        left, timers = self.numbers.get("left out", 0), self.numbers.get("timers", 0)
        cut = [block.own_name() for block in self.rows if block.is_cut]
        lacks = [f"{left} processes of the node run none of the modules, and are left out"] if left else []
        nodes = self.numbers.get("nodes", 0)
        lacks += [f"nodes that are connected and aren't read, {nodes} in all, may have the reference of a caller"] \
            if nodes else []
        lacks += [f"calls by timers are to come, {timers} in all, and may answer or end anybody"] if timers else []
        lacks += [f"{cut[0]} has more than is read, and may have the reference of a caller"] if cut else []
        self.missing = ", and ".join(lacks)


# What is kept of the rows behind a line, by the word of that.
KEEPERS: Dict[str, Callable[[NodeReading, List[re.Match[str]]], None]] = {
    "receives": lambda node, rows: node.receives.update(
        {row.group(1, 2, 3): Receives(row[4].split(","), row[5] or "", (row[6] or "").split(",")) for row in rows}),
    "numbers": lambda node, rows: node.nodes.update({row[1]: row[2] for row in rows}),
    "locks": lambda node, rows: node.locks.extend((row[1], row[2]) for row in rows),
    "asks": lambda node, rows: node.asks.update({row.group(1, 2, 3): row[4].split(",") for row in rows}),
    "mnesia": lambda node, rows: node.mnesia.extend(rows),
    "handles": lambda node, rows: node.handlers.extend(row[0] for row in rows),
    "sockets": lambda node, rows: node.sockets.extend(rows),
    "repeated": lambda node, rows: node.repeated.extend(row[0] for row in rows),
    "machine": lambda node, rows: node.know_machine(rows),
}
