"""The contracts of the calls that crates show to others, as tests/map keeps them, and what fails without a clause."""
from __future__ import annotations

import os
import re
from collections import Counter
from typing import Iterator, NamedTuple

from harness import TOP, read
from sources import crates, files, lines_of_edit

KEPT = "tests/data/contracts.txt"
TRIED = "tests/data/clauses.txt"
HEAD = """\
The contract of each call that a crate shows to others, clause by clause, as tests/map --write takes them from the
sources. Where a line here changes, a promise does, or what a caller has to see to.

There are {clauses} clauses of {calls} calls, and {ghosts} ghost items of types and traits. {ensured} clauses are what
a call ensures. Without most of these something fails: an edit that names it in a line 'clause:' is refused no more, or
tests/data/clauses.txt says which function isn't proved any more. {cited} have a tilde: that file names a caller that
needs them as its proof is now, and it wasn't tried whether there is another proof. {excused} have a sign of equality:
nothing fails, and that file has the reason; or they are laws, which no body can break. {unseen} have a question mark:
if such a clause were deleted, all might stay proved.
"""
SHOWN = re.compile(r"^pub use (?!cmh_)\w+::(?:\{(.*?)\}|(\w+));", re.M | re.S)
OWNER = re.compile(r"^(pub trait|pub struct|pub enum|impl)(?:<.*?>(?= ))? (?:(.*?) for )?(?:\w+::)*(\w+).*\{$")
CALL = re.compile(r"^ {0,4}(pub )?(?:const |unsafe )*fn (\w+)")
CLAUSE = re.compile(r"(requires|ensures)(?: \*)?(?: (\w+))? \{")
GHOST = re.compile(r"^    (pub )?ghost (?!use )(\w+)")


class Clause(NamedTuple):
    """A clause in one line, and the numbers of its first and its last line in the file."""

    kind: str
    name: str
    text: str
    first: int
    last: int


class Contract(NamedTuple):
    """The contract of a call, or without a name the ghost items of a type or a trait. It belongs to the owner."""

    path: str
    owner: str
    name: str
    head: str
    clauses: list[Clause]

    @property
    def title(self) -> str:
        return f"{self.owner}::{self.name}" if self.owner else self.name

    def full_name(self, clause: Clause) -> str:
        """How edits and lists name a clause: `Owner::call clause`, or by the call alone if the clause has no name."""
        return f"{self.title} {clause.name}".strip()


# What the sources say


def shown_names(crate: str) -> set[str]:
    """The names that a crate shows to others, without those of other crates that it passes on."""
    root = "main" if os.path.exists(f"{TOP}/crates/{crate}/src/main.rt") else "lib"
    lists = SHOWN.findall(read(f"crates/{crate}/src/{root}.rt"))
    return {name for several, one in lists for name in re.findall(r"\w+", several or one)}


def parts_of_call(lines: list[str], start: int) -> tuple[str, list[Clause]]:
    """The head of the call that begins in this line, and its clauses, each in one line."""
    end = start
    while not re.search(r"[;{}]$", lines[end]) and not re.match(r" *(requires|ensures|//|\{)", lines[end + 1]):
        end += 1
    head = " ".join(map(str.strip, lines[start:end + 1])).rstrip(" ;{")
    return re.sub(r"(?<=[(<]) |,? (?=[)>])", "", head), list(clauses_after(lines, end + 1))


def clauses_after(lines: list[str], start: int) -> Iterator[Clause]:
    parts: list[str] = []
    for number, line in enumerate(lines[start:], start):
        text = line.strip()
        if not parts and (not text or text.startswith("//")):
            continue
        if not parts and not CLAUSE.match(text):
            return
        parts.append(text)
        whole = " ".join(parts)
        if whole.count("{") == whole.count("}"):
            kind, name = re.findall(CLAUSE, whole)[0]
            yield Clause(kind, name, whole.rstrip(";"), number - len(parts) + 1, number)
            parts = []


def ghost_item(lines: list[str], start: int) -> Clause:
    """The ghost item that begins in this line, in one line."""
    end = start + 1
    while lines[end].strip() and not re.match(r" {0,4}\S", lines[end]):
        end += 1
    end += lines[end].startswith("    }")
    text = " ".join(map(str.strip, lines[start:end])).rstrip(";,")
    return Clause("ghost", re.findall(GHOST, lines[start])[0][1], text, start, end - 1)


def blocks(lines: list[str]) -> Iterator[tuple[str, list[int]]]:
    """Each trait, type and `impl`, by its first line, with the numbers of its lines; and then those of all others."""
    head, inside, outside = "", [], []  # type: str, list[int], list[int]
    for number, line in enumerate(lines):
        if not head and OWNER.match(line):
            head, inside = line, []
        (inside if head else outside).append(number)
        if head and line == "}":
            yield head, inside
            head = ""
    yield "", outside


class Block(NamedTuple):
    """Lines of a file that stand together. Others see of it what is public, or all if it is open, as a trait is; where
    it has no head, as a function has none, what the crate shows by name."""

    path: str
    lines: list[str]
    numbers: list[int]
    head: str
    owner: str
    is_shown: bool
    is_open: bool


def blocks_of_file(path: str, shown: set[str]) -> Iterator[Block]:
    lines = read(path).split("\n")
    for head, numbers in blocks(lines):
        kind, trait, owner = re.findall(OWNER, head)[0] if head else ("", "", "")
        is_shown = bool({owner, re.sub(r"<.*", "", trait)} & shown) if head else path.endswith("/laws.rt")
        yield Block(path, lines, numbers, head.rstrip(" {"), owner, is_shown, kind == "pub trait" or trait != "")


def contracts_of_block(block: Block, shown: set[str]) -> Iterator[Contract]:
    """The contracts that others see of a block, and its ghost items, of which a type has some for itself."""
    for number in block.numbers:
        public, name = (re.findall(CALL, block.lines[number]) or [("", "")])[0]
        if name and (public or block.is_open) and (block.is_shown or not block.head and name in shown):
            yield Contract(block.path, block.owner, name, *parts_of_call(block.lines, number))
    items = (number for number in block.numbers if block.is_shown and GHOST.match(block.lines[number]))
    ghosts = [ghost_item(block.lines, number) for number in items
              if block.is_open or block.lines[number].startswith("    pub ")]
    yield Contract(block.path, block.owner, "", block.head, ghosts)


def contracts() -> list[Contract]:
    """All contracts, those of the lowest crates first."""
    return [contract for crate in crates() if crate != "cmh_tests" for contract in contracts_of_crate(crate)]


def contracts_of_crate(crate: str) -> Iterator[Contract]:
    source, shown = re.compile(rf"crates/{crate}/src/(?!tests)[^.]*\.rt$"), shown_names(crate)
    every = (block for path in files() if source.match(path) for block in blocks_of_file(path, shown))
    for block in every:
        yield from (contract for contract in contracts_of_block(block, shown) if contract.clauses)


# What fails without a clause


def edited_clauses() -> set[str]:
    """The clauses that edits name."""
    edits = (path for path in files() if path.endswith(".edit"))
    return {rest.strip() for path in edits for word, rest in lines_of_edit(path) if word == "clause"}


def tried_clauses(mark: str) -> dict[str, str]:
    """The clauses of the list whose lines have this mark: each with the function that needs it, or with a reason."""
    return dict(re.findall(rf"^  (\S.*?) {mark} (.+)$", read(TRIED), re.M))


class Tried:
    """What is known of clauses: those that edits and other functions need, that proofs cite, and that have a reason."""

    def __init__(self) -> None:
        self.needed = edited_clauses().union(tried_clauses("<"))
        self.cited, self.excused = tried_clauses("~"), tried_clauses("=")

    def sign(self, contract: Contract, clause: Clause) -> str:
        """What stands before a clause."""
        name = contract.full_name(clause)
        if clause.kind != "ensures" or name in self.needed:
            return " "
        if name in self.cited:
            return "~"
        return "=" if name in self.excused or contract.path.endswith("/laws.rt") else "?"


# The file


def lines_of_contract(contract: Contract, tried: Tried) -> Iterator[str]:
    yield contract.head.replace(f"fn {contract.name}", f"fn {contract.title}", 1) if contract.name else contract.head
    for clause in contract.clauses:
        yield f"  {tried.sign(contract, clause)} {clause.text}"


def text_of_contracts() -> str:
    """The file as the sources say it."""
    tried, lines, path = Tried(), [], ""
    every = contracts()
    for contract in every:
        lines += [] if contract.path == path else ["", contract.path]
        lines += ["", *lines_of_contract(contract, tried)]
        path = contract.path
    kinds = Counter(clause.kind for contract in every for clause in contract.clauses)
    signs = Counter(line[2] for line in lines if line.startswith("  "))
    head = HEAD.format(clauses=kinds["requires"] + kinds["ensures"], ghosts=kinds["ghost"], ensured=kinds["ensures"],
                       calls=sum(contract.name != "" for contract in every), cited=signs["~"],
                       excused=signs["="], unseen=signs["?"])
    return "\n".join([head.rstrip(), *lines, ""])


def lost_clauses() -> list[str]:
    """What edits and the list of tried clauses name that is no clause."""
    there = {contract.full_name(clause) for contract in contracts() for clause in contract.clauses}
    return sorted(edited_clauses().union(*map(tried_clauses, "<~=")) - there)


def lost_callers() -> list[str]:
    """The functions and types that the list of tried clauses names and no crate has."""
    sources = filter(re.compile(r"crates/\w+/src/.*\.rt$").match, files())
    there = set(re.findall(r"\b(?:fn|struct) (\w+)", "".join(map(read, sources))))
    return sorted({path for mark in "<~" for path in tried_clauses(mark).values() if path.split("::")[-1] not in there})
