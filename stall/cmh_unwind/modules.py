"""The programs and libraries in the memory of processes (modules): where each begins, its tables and its names."""
from __future__ import annotations

import bisect
import contextlib
import struct
from typing import Dict, List, NamedTuple, Optional, Tuple

from cmh_proc.budget import Budget
from cmh_proc.door import kernel_text
from cmh_proc.kernel import DELETED, mappings_in
from cmh_proc.memory import Memory

from .cursor import Unclear
from .elf import OF_64_BITS, Header, Read
from .symbols import Symbols, symbols_of
from .tables import Rule, Tables

EH_FRAME = 0x6474E550  # the kind of a segment with tables for stacks
REGION_SIZE, FUNCTION_SIZE = 500, 100  # bytes that a piece of memory takes here, and an entry of tables for stacks
MOST_MAPS = 1 << 25  # bytes of what the kernel says of all that is mapped


class Module:
    """A program or a library, which several processes may have. All places count from where it begins in memory.
    `files` has where its file may be."""

    def __init__(self, path: str, files: List[str], read: Read, budget: Budget) -> None:
        self.path, self.files, self.budget = path, files, budget
        self.header = Header(read)
        if self.header.kind != OF_64_BITS:
            raise Unclear
        self.build_id = self.header.build_id(read)
        self.names: Dict[int, str] = {}
        self.symbols: Optional[Symbols] = None
        heads = self.header.places_of(EH_FRAME)
        self.tables = Tables.at_head(read, heads[0][0]) if heads else \
            Tables.in_section(read, *self.find_symbols().tables)
        budget.spend(FUNCTION_SIZE * len(self.tables.places))

    def rule(self, read: Read, place: int) -> Rule:
        return self.tables.rule(read, place)

    def name_at(self, place: int) -> str:
        """Returns the name of the function at a place, or nothing."""
        if place not in self.names:
            self.names[place] = self.find_symbols().name_at(place + self.header.begin)
        return self.names[place]

    def find_symbols(self) -> Symbols:
        """Returns what its file says, or nothing where that is gone, or replaced, or can't be read."""
        for path in self.files if self.symbols is None else ():
            with contextlib.suppress(OSError, Unclear, ValueError, struct.error, IndexError):
                self.symbols = symbols_of(path, self.header.text, self.budget)
                break
        self.symbols = self.symbols or Symbols(lambda place, size: b"", self.header, self.budget)
        return self.symbols


class Region(NamedTuple):
    """A piece of memory with code or data of a program that begins at `base`."""

    first: int
    last: int
    base: int
    key: str
    path: str
    has_code: bool


class Image:
    """The memory of a process, which runs the program `exe`, with the modules in it. `modules` has those of all
    processes."""

    def __init__(self, pid: int, exe: str, modules: Dict[str, Optional[Module]], budget: Budget) -> None:
        self.pid, self.exe, self.modules = pid, exe, modules
        self.memory = Memory(f"/proc/{pid}", budget)
        self.regions: List[Region] = []
        bases: Dict[str, int] = {}
        text = kernel_text(f"{self.memory.folder}/maps", MOST_MAPS)
        for one in mappings_in(text):
            if not one.path.startswith("/"):
                continue
            budget.spend(REGION_SIZE)
            key = f"{one.device} {one.number} {one.path}"
            if not one.offset:
                bases[key] = one.first
            if key in bases:
                self.regions.append(Region(one.first, one.last, bases[key], key, one.path, one.has_code))
        self.starts = [region.first for region in self.regions]

    def region_at(self, address: int) -> Optional[Region]:
        """Returns the piece of memory of a program at an address, or None."""
        number = bisect.bisect_right(self.starts, address) - 1
        region = self.regions[number] if number >= 0 else None
        return region if region is not None and address < region.last else None

    def module_at(self, address: int) -> Tuple[Optional[Module], int]:
        """Returns the module whose code is at an address, and where it begins."""
        region = self.region_at(address)
        if region is None or not region.has_code:
            return None, 0
        if region.key not in self.modules:
            self.modules[region.key] = self.read_module(region)
        return self.modules[region.key], region.base

    def object_at(self, address: int) -> Tuple[str, int]:
        """Returns the name of the object of a module at an address, or nothing, and how far behind its beginning that
        is. Memory that a program has to begin with has none of its file."""
        number = bisect.bisect_right(self.starts, address) - 1
        region = self.regions[number] if number >= 0 else None
        module = self.modules.get(region.key) if region is not None else None
        if region is None or module is None or address >= region.base + module.header.length:
            return "", 0
        return module.find_symbols().object_at(address - region.base + module.header.begin)

    def read_module(self, region: Region) -> Optional[Module]:
        """Returns what memory shows of a module, or None if it isn't as others are."""
        folder, path = self.memory.folder, region.path
        files = [f"{folder}/exe"] if path == self.exe else [] if path.endswith(DELETED) else [f"{folder}/root{path}"]
        first = next(other for other in self.regions if other.base == region.base)
        files.append(f"{folder}/map_files/{first.first:x}-{first.last:x}")
        try:
            return Module(path, files, self.reader(region.base), self.memory.budget)
        except (Unclear, struct.error, IndexError):
            return None

    def reader(self, base: int) -> Read:
        """Returns what reads memory by places behind the beginning of a program."""
        return lambda place, size: self.memory.read(base + place, size)

    def word(self, address: int) -> int:
        return int.from_bytes(self.memory.read(address, 8), "little")
