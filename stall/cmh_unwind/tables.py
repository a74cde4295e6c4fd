"""The tables by which stacks are unwound (.eh_frame): what they say of a function, and where its caller's registers
stand then. They are read from the memory of a process.
"""
from __future__ import annotations

import bisect
import struct
from typing import Callable, Dict, List, Optional, Tuple

from .cursor import Cursor, Unclear, result_of
from .elf import Read

FRAME_POINTER, STACK_POINTER, RETURN = 6, 7, 16  # numbers of registers in these tables
PLAIN_TABLE = b"\x01\x1b\x03\x3b"  # the head of one of the kind that linkers write
MOST_FUNCTIONS = 1 << 20
LONGEST_ENTRY, MOST_REGISTERS, DEEPEST = 1 << 16, 256, 32  # what compilers write is far below
SIZES = {0: 8, 2: 2, 3: 4, 4: 8, 10: 2, 11: 4, 12: 8}  # of pointers, by the low bits of how they are written
IS_NEAR, IS_SIGNED = 0x10, 8  # bits of that: a pointer counts from its own place; it may be below
Registers = Dict[int, Optional[int]]
Frame = Tuple[int, int, bytes]  # a register and how far off, or what is to be computed


class Rule:
    """What the tables say of one place of a function, which begins at `start`: where its caller's frame is, and how far
    from there its registers stand. `computed` has those that are to be computed, `is_last` says that nobody called it,
    and `is_signal` that the kernel did."""

    def __init__(self, start: int) -> None:
        self.start = start
        self.frame: Frame = (0, 0, b"")
        self.saved: Dict[int, int] = {}
        self.computed: Dict[int, bytes] = {}
        self.is_last = self.is_signal = False

    def outer(self, registers: Registers, word: Callable[[int], int]) -> Registers:
        """Returns the registers of the caller. Those that aren't known are missing, or None."""
        register, offset, computed = self.frame
        base = registers.get(register) if not computed else result_of(computed, registers, word)
        if base is None:
            raise Unclear
        end = base if computed else base + offset
        saved = {number: word(end + place) for number, place in self.saved.items()}
        saved.update({number: word(result_of(text, registers, word, end)) for number, text in self.computed.items()})
        if not saved.get(RETURN):
            raise Unclear
        return {**registers, STACK_POINTER: end, **saved}


class Tables:
    """The tables of a program or a library. All places count from where it begins in memory."""

    def __init__(self, first: int, places: List[int], entries: List[int]) -> None:
        self.first, self.places, self.entries = first, places, entries  # (where functions and their entries begin)
        self.rules: Dict[int, Optional[Rule]] = {}

    @staticmethod
    def at_head(read: Read, first: int) -> "Tables":
        """Returns the tables that a head has, by which they are found."""
        head = read(first, 12)
        if head[:4] != PLAIN_TABLE or struct.unpack_from("=I", head, 8)[0] > MOST_FUNCTIONS:
            raise Unclear
        rows = read(first + 12, 8 * struct.unpack_from("=I", head, 8)[0])
        numbers = memoryview(rows[:len(rows) // 8 * 8]).cast("i")
        return Tables(first, numbers[::2].tolist(), numbers[1::2].tolist())

    @staticmethod
    def in_section(read: Read, first: int, size: int) -> "Tables":
        """Returns the tables of a program that has no head of them, as one that was linked with all its libraries."""
        data, place = read(first, size), 0
        rows: List[Tuple[int, int]] = []
        while place + 12 <= len(data):
            length, back, begin = struct.unpack_from("=IIi", data, place)
            if length in (0, 0xFFFFFFFF):
                break
            if back:
                rows.append((place + 8 + begin, place))
            place += 4 + length
        rows.sort()
        return Tables(first, [begin for begin, _ in rows], [entry for _, entry in rows])

    def rule(self, read: Read, place: int) -> Rule:
        """Returns what the tables say of a place. Raises Unclear for what compilers don't write."""
        if place not in self.rules:
            self.rules[place] = self.try_rule(read, place)
        rule = self.rules[place]
        if rule is None:
            raise Unclear
        return rule

    def try_rule(self, read: Read, place: int) -> Optional[Rule]:
        number = bisect.bisect_right(self.places, place - self.first) - 1
        if number < 0:
            return None
        try:
            return Entry(read, self.first + self.entries[number]).rule(place)
        except (Unclear, struct.error, IndexError):
            return None


class Entry:
    """The entry of a function, with what it has in common with others."""

    def __init__(self, read: Read, place: int) -> None:
        size, back = struct.unpack("=Ii", read(place, 8))
        common_at = place + 4 - back
        common_size = struct.unpack("=I", read(common_at, 4))[0]
        if max(size, common_size) > LONGEST_ENTRY:
            raise Unclear
        common = read(common_at + 8, common_size - 4)
        letters, _, rest = common[1:].partition(b"\0")
        if common[:1] not in (b"\x01", b"\x03") or letters[:1] not in (b"z", b""):
            raise Unclear
        words = Cursor(rest)
        self.unit, self.step, self.at_return = words.number(), words.signed(), words.number()
        self.kind, self.is_signal = 0, b"S" in letters
        if letters:
            more = Cursor(words.take(words.number()))
            self.read_kinds(letters[1:], more)
        self.common = rest[words.place:]
        words = Cursor(read(place + 8, size - 4))
        self.start = self.pointer(words, place + 8)
        self.length = words.fixed(SIZES[self.kind & 7])
        if letters:
            words.take(words.number())
        self.own = words.data[words.place:]

    def read_kinds(self, letters: bytes, words: Cursor) -> None:
        """Reads how pointers are written."""
        for letter in letters:
            if letter == ord("R"):
                self.kind = words.byte()
            elif letter == ord("P"):
                words.take(SIZES[words.byte() & 7])
            elif letter == ord("L"):
                words.byte()
            elif letter not in b"SB":
                raise Unclear

    def pointer(self, words: Cursor, place: int) -> int:
        if self.kind & 15 not in SIZES or self.kind & 0x70 != IS_NEAR:
            raise Unclear
        return place + words.fixed(SIZES[self.kind & 15], bool(self.kind & IS_SIGNED))

    def rule(self, place: int) -> Rule:
        """Returns what the entry says of a place of its function."""
        if not self.start <= place < self.start + self.length or self.at_return != RETURN:
            raise Unclear
        first = Interpreter(self, place, Rule(self.start))
        first.run(Cursor(self.common))
        state = Interpreter(self, place, first.rule)
        state.first = dict(first.rule.saved)
        state.run(Cursor(self.own))
        state.rule.is_signal = self.is_signal
        return state.rule


class Interpreter:
    """Follows what the tables say of a function, up to a place of it."""

    def __init__(self, entry: Entry, last: int, rule: Rule) -> None:
        self.entry, self.last, self.rule, self.place = entry, last, rule, entry.start
        self.first: Dict[int, int] = {}
        self.kept: List[Tuple[Frame, Dict[int, int], bool]] = []

    def run(self, words: Cursor) -> None:
        while words.place < len(words.data) and self.place <= self.last:
            code = words.byte()
            kind, low = code & 0xC0, code & 0x3F
            if kind == 0x40 or code in (2, 3, 4):
                self.place += self.entry.unit * (low if kind else words.fixed({2: 1, 3: 2, 4: 4}[code]))
            elif kind == 0x80:
                self.save(low, self.entry.step * words.number())
            elif kind == 0xC0:
                self.restore(low)
            elif code in FRAMES:
                self.set_frame(code, words)
            else:
                self.note(code, words)

    def save(self, register: int, place: int) -> None:
        if register >= MOST_REGISTERS:
            raise Unclear
        self.rule.saved[register] = place
        self.rule.is_last = self.rule.is_last and register != RETURN

    def restore(self, register: int) -> None:
        self.rule.saved.pop(register, None)
        self.rule.saved.update({number: place for number, place in self.first.items() if number == register})

    def set_frame(self, code: int, words: Cursor) -> None:
        """Sets where the frame is: a register and how far off, or one of both, or what is to be computed."""
        register, offset, _ = self.rule.frame
        if code == 0x0F:
            self.rule.frame = 0, 0, words.take(words.number())
            return
        register = register if code in (0x0E, 0x13) else words.number()
        if code != 0x0D:
            offset = self.entry.step * words.signed() if code in (0x12, 0x13) else words.number()
        self.rule.frame = register, offset, b""

    def note(self, code: int, words: Cursor) -> None:
        """Notes one thing that the tables say of registers."""
        rule = self.rule
        if code == 0x05:
            self.save(words.number(), self.entry.step * words.number())
        elif code == 0x11:
            self.save(words.number(), self.entry.step * words.signed())
        elif code == 0x06:
            self.restore(words.number())
        elif code in (0x07, 0x08):
            self.lose(words.number(), code == 0x07)
        elif code == 0x0A and len(self.kept) < DEEPEST:
            self.kept.append((rule.frame, dict(rule.saved), rule.is_last))
        elif code == 0x0B:
            rule.frame, rule.saved, rule.is_last = self.kept.pop()
        elif code == 0x10:
            register = words.number() % MOST_REGISTERS
            rule.computed[register] = words.take(words.number())
        elif code == 0x2E:
            words.number()  # (the size of arguments)
        elif code:
            raise Unclear

    def lose(self, register: int, is_undefined: bool) -> None:
        self.rule.saved.pop(register, None)
        self.rule.is_last = self.rule.is_last or is_undefined and register == RETURN


FRAMES = (0x0C, 0x0D, 0x0E, 0x0F, 0x12, 0x13)
