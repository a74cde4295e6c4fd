"""The headers of programs and libraries (ELF), from a file or from memory, and whether a program is of Go."""
from __future__ import annotations

import contextlib
import os
import struct
from typing import Callable, Dict, List, NamedTuple, Tuple

from cmh_proc import door

from .cursor import Unclear

Read = Callable[[int, int], bytes]
MAGIC, IDENTITY, LEAST = b"\x7fELF", 16, 52  # how a program begins, bytes before what differs, and of the shortest head
ORDERS = {1: "<", 2: ">"}
# By the class of a program, of 32 or 64 bits: the fields of its header, of a segment's and of a section's, and where
# the flags of a segment and what follows its kind stand.
FORMS = {1: ("HHIIIIIHHHHHH", "IIIIIIII", "IIIIIIIIII", (6, 1, 2, 4, 5)),
         2: ("HHIQQQIHHHHHH", "IIQQQQQQ", "IIQQQQIIQQ", (1, 2, 3, 5, 6))}
OF_64_BITS = b"\2\1"  # the class and the order of bytes of what is unwound
MOST_SEGMENTS, MOST_SECTIONS, MOST_NOTES, MOST_NAMES = 1024, 1 << 15, 1 << 16, 1 << 18
NOTE, LONGEST_NAME = 4096, 32  # bytes that are read of a segment of notes, and of the name of a section
LOADED, NOTES, WRITABLE = 1, 4, 2
BUILD_ID, OF_GNU = 3, b"GNU\0"
GO_MARK, GO_SECTION = b"\xff Go buildinf:", b".go.buildinfo"  # what Go's linker writes into each program, and where
DATA = 1 << 16  # bytes at the beginning of a program's data, where the mark stands if no section has it
Identity = Tuple[int, int, int, int]
KNOWN: Dict[Identity, bool] = {}  # of programs, by what tells one from the next: many processes run the same


class ElfSegment(NamedTuple):
    """A part of a program: where it stands in the file and in memory, and how long it is in both."""

    kind: int
    flags: int
    offset: int
    address: int
    size: int
    length: int


class ElfSection(NamedTuple):
    """A section of a file. `link` is the number of another one that it needs, as that of its names."""

    name: bytes
    kind: int
    address: int
    offset: int
    size: int
    link: int


class Header:
    """The header of a program or a library with its segments, from a file or from memory. `text` tells it from others.
    Raises Unclear if it is none, or as no linker writes it."""

    def __init__(self, read: Read, is_file: bool = False) -> None:
        self.text = read(0, 64)
        self.kind = self.text[4:6]
        if len(self.text) < LEAST or self.text[:4] != MAGIC or self.kind[0] not in FORMS or self.kind[1] not in ORDERS:
            raise Unclear
        forms, order = FORMS[self.kind[0]], ORDERS[self.kind[1]]
        file, segment, self.section = (struct.Struct(order + form) for form in forms[:3])
        fields = file.unpack_from(self.text, IDENTITY)
        segments_at, self.sections_at, size, number = *fields[4:6], *fields[8:10]
        section_size, self.sections, self.names_at = fields[10:]
        if size != segment.size or number > MOST_SEGMENTS:
            raise Unclear
        self.sections = self.sections if section_size == self.section.size and self.sections <= MOST_SECTIONS else 0
        table = read(segments_at, size * number)
        self.text += table
        rows = (segment.unpack_from(table, size * place) for place in range(number))
        self.segments = [ElfSegment(row[0], *(row[place] for place in forms[3])) for row in rows]
        loaded = [part for part in self.segments if part.kind == LOADED]
        self.begin = min((part.address for part in loaded), default=0) & ~0xFFF
        self.length = max((part.address + part.length for part in loaded), default=0) - self.begin
        self.add_notes(read, is_file)

    def add_notes(self, read: Read, is_file: bool) -> None:
        """Adds its notes to what tells it from others."""
        for part in self.segments:
            if part.kind == NOTES and len(self.text) < MOST_NOTES:
                self.text += read(part.offset if is_file else part.address - self.begin, min(part.size, NOTE))

    def places_of(self, kind: int) -> List[Tuple[int, int]]:
        """Returns how far behind the beginning in memory the segments of a kind are, and how long."""
        return [(part.address - self.begin, part.size) for part in self.segments if part.kind == kind]

    def build_id(self, read: Read) -> str:
        """Returns the number by which debuggers know a program, by what stands in memory, or nothing."""
        for place, size in self.places_of(NOTES):
            notes = read(place, min(size, NOTE))
            while len(notes) >= 16:
                name, length, kind = struct.unpack_from("=III", notes)
                first = 12 + (name + 3 & ~3)
                if kind == BUILD_ID and notes[12:12 + name] == OF_GNU:
                    return notes[first:first + length].hex()
                notes = notes[first + (length + 3 & ~3):]
        return ""

    def sections_in(self, read: Read) -> List[ElfSection]:
        """Returns the sections of a file. One that is gone has none."""
        table = read(self.sections_at, self.section.size * self.sections)
        if 0 < len(table) < self.section.size * self.sections:
            raise Unclear
        rows = [*self.section.iter_unpack(table)]
        names = rows[self.names_at] if self.names_at < len(rows) else (0,) * 6
        words = read(names[4], min(names[5], MOST_NAMES))
        return [ElfSection(words[row[0]:row[0] + LONGEST_NAME].partition(b"\0")[0], row[1], *row[3:7]) for row in rows]


def reader_of(data: bytes) -> Read:
    return lambda place, size: data[place:place + size]


def reader_at(handle: int, most: int) -> Read:
    """Returns what reads an open file, and no more bytes of it at once."""
    return lambda place, size: door.at(handle, min(size, most), place)


def is_go(path: str) -> bool:
    """Whether a program is of Go, whose linker writes a mark into each."""
    with contextlib.suppress(OSError, Unclear, struct.error), door.plain(path) as handle:
        there = os.fstat(handle)
        identity = there.st_dev, there.st_ino, there.st_size, there.st_mtime_ns
        if identity not in KNOWN:
            KNOWN[identity] = has_go_mark(reader_at(handle, MOST_NAMES))
        return KNOWN[identity]
    return False


def has_go_mark(read: Read) -> bool:
    header = Header(read, True)
    places = [section.offset for section in header.sections_in(read) if section.name == GO_SECTION]
    places += [part.offset for part in header.segments if part.kind == LOADED and part.flags & WRITABLE]
    return any(GO_MARK in read(place, DATA) for place in places)
