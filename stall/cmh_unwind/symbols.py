"""The names of functions of programs and libraries, as their files have them."""
from __future__ import annotations

import bisect
import struct
from typing import Iterator, List, Tuple

try:
    import lzma
except ImportError:  # (a Python that was built without it)
    lzma = None  # type: ignore[assignment]

from cmh_proc import door
from cmh_proc.budget import Budget

from .cursor import Unclear
from .elf import OF_64_BITS, Header, Read, ElfSection, reader_at, reader_of

MOST_BYTES = 1 << 26  # of a table that is read
MOST_SMALL, MOST_DECODER = 1 << 24, 1 << 25  # bytes of a small program within a program, and of what unpacks it
SYMBOL_SIZE, LONGEST_NAME = 200, 4096  # bytes that a symbol takes here, and of a name
NAMES, OBJECT, FUNCTIONS = (2, 11), 1, (2, 10)  # kinds of sections, and of symbols
COMPRESSED, TABLES = b".gnu_debugdata", b".eh_frame"  # sections with more names, as Fedora has them, and with tables
Symbol = Tuple[int, int, bytes, int]  # where one begins, how long it is, and where its name stands in which table


class Symbols:
    """The functions and objects of a program or a library, by where they begin, as its file says that."""

    def __init__(self, read: Read, header: Header, budget: Budget) -> None:
        self.budget = budget
        self.functions: List[Symbol] = []
        self.objects: List[Symbol] = []
        self.tables = (0, 0)  # where the tables for stacks begin in memory, and how long they are
        self.read(read, header)
        self.functions.sort(key=lambda row: row[0])
        self.objects.sort(key=lambda row: row[0])
        self.starts = {id(rows): [row[0] for row in rows] for rows in (self.functions, self.objects)}

    def read(self, read: Read, header: Header, is_small: bool = False) -> None:
        if header.kind != OF_64_BITS:
            raise Unclear
        sections = header.sections_in(read)
        for section in sections:
            if section.kind in NAMES and section.link < len(sections):
                self.add(self.content(read, section), self.content(read, sections[section.link]))
        for section in sections:
            if section.name == COMPRESSED and lzma is not None and not is_small:
                self.add_compressed(self.content(read, section))
            if section.name == TABLES and section.address:
                self.tables = section.address - header.begin, min(section.size, MOST_BYTES)

    def add(self, table: bytes, words: bytes) -> None:
        """Adds those of a table of symbols."""
        self.budget.spend(SYMBOL_SIZE * (len(table) // 24))
        for name, info, _, section, start, length in struct.iter_unpack("=IBBHQQ", table[:len(table) // 24 * 24]):
            if section and length:
                if info & 15 in FUNCTIONS:
                    self.functions.append((start, length, words, name))
                elif info & 15 == OBJECT:
                    self.objects.append((start, length, words, name))

    def add_compressed(self, data: bytes) -> None:
        """Adds those of a small program within a program."""
        try:
            text = lzma.LZMADecompressor(memlimit=MOST_DECODER).decompress(data, MOST_SMALL)
        except (lzma.LZMAError, EOFError):
            return
        self.budget.spend(len(text))
        read = reader_of(text)
        self.read(read, Header(read, True), True)

    def content(self, read: Read, section: ElfSection) -> bytes:
        """Returns what a section has, or nothing where that is too long."""
        if section.size > MOST_BYTES:
            return b""
        data = read(section.offset, section.size)
        self.budget.spend(len(data))
        return data

    def name_at(self, address: int) -> str:
        """Returns the name of the function at an address, of several the one that others may use, or nothing."""
        names = [name_in(words, name) for _, words, name in self.symbols_at(self.functions, address)]
        return min(names, key=lambda name: (name.startswith("_") and not name.startswith("_Z"), len(name)), default="")

    def object_at(self, address: int) -> Tuple[str, int]:
        """Returns the name of the object at an address, and how far that is behind its beginning, or nothing."""
        return next(((name_in(words, name), address - start)
                     for start, words, name in self.symbols_at(self.objects, address)), ("", 0))

    def symbols_at(self, symbols: List[Symbol], address: int) -> Iterator[Tuple[int, bytes, int]]:
        number = bisect.bisect_right(self.starts[id(symbols)], address)
        for start, length, words, name in symbols[max(0, number - 8):number]:
            if address < start + length:
                yield start, words, name


def name_in(words: bytes, place: int) -> str:
    return words[place:place + LONGEST_NAME].partition(b"\0")[0].decode("ascii", "replace")


def symbols_of(path: str, text: bytes, budget: Budget) -> Symbols:
    """Returns the functions of a file, if that is the one whose header stands in memory. Raises Unclear if it isn't."""
    with door.plain(path) as handle:
        read = reader_at(handle, MOST_BYTES)
        header = Header(read, True)
        if header.text != text:
            raise Unclear
        return Symbols(read, header, budget)
