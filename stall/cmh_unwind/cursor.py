"""Numbers and expressions of DWARF, one behind the other, as the tables have them by which stacks are unwound."""
from __future__ import annotations

import sys
from typing import Callable, Dict, List, Optional

OF_64_BITS = (1 << 64) - 1
WIDEST, LONGEST = 70, 256  # bits of a number, and bytes of what is to be computed


class Unclear(Exception):
    """A stack isn't as the tables say, or the thread has gone on."""


class Cursor:
    """Reads numbers, one behind the other."""

    def __init__(self, data: bytes) -> None:
        self.data, self.place = data, 0

    def byte(self) -> int:
        self.place += 1
        return self.data[self.place - 1]

    def take(self, size: int) -> bytes:
        self.place += size
        return self.data[self.place - size:self.place]

    def fixed(self, size: int, is_signed: bool = False) -> int:
        return int.from_bytes(self.take(size), sys.byteorder, signed=is_signed)

    def number(self) -> int:
        number = shift = 0
        while True:
            byte = self.byte()
            number |= (byte & 0x7F) << shift
            shift += 7
            if shift > WIDEST:
                raise Unclear
            if byte < 0x80:
                return number

    def signed(self) -> int:
        first = self.place
        number = self.number()
        return number - (1 << 7 * (self.place - first)) if self.data[self.place - 1] & 0x40 else number


def result_of(text: bytes, registers: Dict[int, Optional[int]], word: Callable[[int], int],
              first: Optional[int] = None) -> int:
    """Returns what an expression of the tables comes to. Raises Unclear for what compilers don't write there."""
    if len(text) > LONGEST:
        raise Unclear
    words = Cursor(text)
    stack: List[int] = [] if first is None else [first]
    while words.place < len(text):
        code = words.byte()
        if 0x70 <= code <= 0x8F:  # (a register, and how far off)
            base = registers.get(code - 0x70)
            if base is None:
                raise Unclear
            stack.append(base + words.signed())
        elif 0x30 <= code <= 0x4F:
            stack.append(code - 0x30)
        elif code in (0x08, 0x09, 0x0A, 0x0B, 0x0C, 0x0D):
            stack.append(words.fixed({0x08: 1, 0x09: 1, 0x0A: 2, 0x0B: 2, 0x0C: 4, 0x0D: 4}[code], bool(code & 1)))
        elif code == 0x23:
            stack.append(stack.pop() + words.number())
        elif code == 0x06:
            stack.append(word(stack.pop()))
        elif code in OF_TWO:
            second = stack.pop()
            stack.append(OF_TWO[code](stack.pop(), second))
        else:
            raise Unclear
    return stack[-1] & OF_64_BITS


OF_TWO: Dict[int, Callable[[int, int], int]] = {
    0x1A: lambda one, two: one & two, 0x1C: lambda one, two: one - two, 0x22: lambda one, two: one + two,
    0x24: lambda one, two: one << (two & 63), 0x2A: lambda one, two: int(one >= two)}
