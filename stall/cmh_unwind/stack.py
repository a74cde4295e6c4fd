"""The stack of a thread, unwound from memory by the tables of its modules, on x86-64 alone. Nobody is stopped."""
from __future__ import annotations

import contextlib
import re
import struct
from typing import Iterator, List, Optional, Tuple

from cmh_proc.door import field, kernel_row
from cmh_proc.libraries import OF_THE_SYSTEM

from .cursor import Unclear
from .modules import Image, Module
from .tables import FRAME_POINTER, RETURN, STACK_POINTER, Registers, Rule

DEPTH, GUESSES = 200, 64  # calls on a stack, and places at which a frame is looked for, at most
PIECE, FAR = 4096, 1 << 16  # bytes of a stack that are read at once, and searched at most
CALL, CALL_BY_TABLE = b"\xe8", b"\xff\x15"  # how calls begin
STUB = re.compile(rb"(?:\xf3\x0f\x1e\xfa)?\xf2?\xff\x25(.{4})", re.S)  # by which one comes to a function of a library
# A call of what a register or memory says, right behind which one is.
BY_REGISTER = re.compile(rb".*\xff([\x10-\x13\x16\x17\xd0-\xd7]|\x14.|[\x50-\x53\x55-\x57].|\x54.."
                         rb"|[\x90-\x93\x95-\x97]....|\x94.....)", re.S)


class Unwinder:
    """The stack of a thread that sleeps. `frames` has where its code is to which it returns, the innermost first, each
    with its module and where that begins; `is_whole` says that nobody has called the outermost. Raises Unclear if the
    thread goes on."""

    def __init__(self, image: Image, tid: int) -> None:
        self.image, self.folder = image, f"/proc/{image.pid}/task/{tid}"
        self.first, self.piece = 0, b""
        self.frames: List[Tuple[Module, int, int]] = []
        self.is_whole = False
        self.guesses = GUESSES
        self.before = self.moment()
        pointer, place = (int(word, 16) for word in self.before[0].split()[7:9])
        self.unwind({STACK_POINTER: pointer, RETURN: place})
        self.called = self.find_called()
        if self.moment() != self.before:
            raise Unclear

    def moment(self) -> Tuple[str, str]:
        """Returns the call of a thread that sleeps, with how often it has gone to sleep so far."""
        call = kernel_row(f"{self.folder}/syscall")
        if call.startswith(("running", "-1")):
            raise Unclear
        return call, field(kernel_row(f"{self.folder}/status"), "voluntary_ctxt_switches")

    def unwind(self, registers: Registers, is_exact: bool = True) -> None:
        """Finds the frames, as far as they are known. All but the innermost, and who was interrupted by a signal, stand
        behind a call."""
        with contextlib.suppress(Unclear, struct.error, IndexError):
            while len(self.frames) < DEPTH and not self.is_whole:
                place = (registers[RETURN] or 0) - (not is_exact)
                module, base = self.image.module_at(place)
                if module is None:
                    return
                self.frames.append((module, place - base, base))
                rule = module.rule(self.image.reader(base), place - base)
                self.is_whole, is_exact = rule.is_last, rule.is_signal
                if rule.frame[0] == FRAME_POINTER and not rule.frame[2] and registers.get(FRAME_POINTER) is None:
                    self.unwind_by_guess(registers, rule, base)
                    return
                registers = registers if rule.is_last else self.outer(registers, rule)

    def outer(self, registers: Registers, rule: Rule) -> Registers:
        """Returns the registers of the caller."""
        outer = rule.outer(registers, self.word)
        if (outer[STACK_POINTER] or 0) <= (registers[STACK_POINTER] or 0) and not rule.is_signal:
            raise Unclear
        return outer

    def unwind_by_guess(self, registers: Registers, rule: Rule, base: int) -> None:
        """Finds the outer frames of a function whose frame pointer isn't known, as none of those that it has called has
        saved it: by the first place from which the rest is known, or else by one behind a call of that very function.
        """
        inner, likely = len(self.frames), self.frames[:0]
        for pointer, is_sure in self.frame_pointers(registers[STACK_POINTER] or 0, rule, base):
            self.guesses -= 1
            with contextlib.suppress(Unclear, struct.error, IndexError):
                self.unwind(self.outer({**registers, FRAME_POINTER: pointer}, rule), rule.is_signal)
            if self.is_whole or not self.guesses:
                return
            likely = likely or (self.frames[inner:] if is_sure else [])
            del self.frames[inner:]
        self.frames += likely

    def frame_pointers(self, pointer: int, rule: Rule, base: int) -> Iterator[Tuple[int, bool]]:
        """Yields what the frame pointer of a function may be: it stands right below where the function returns to,
        which is behind a call, or is what a handler of a signal returns to. And whether that is a call of this very
        function."""
        data = self.image.memory.read(pointer, FAR)
        for number, (word,) in enumerate(struct.iter_unpack("=Q", data[:len(data) // 8 * 8])):
            kind = self.kind_of_return(word, base + rule.start) if word > PIECE else None
            if kind is not None:
                yield pointer + 8 * number - rule.saved.get(RETURN, -8) - rule.frame[1], kind

    def kind_of_return(self, place: int, start: int) -> Optional[bool]:
        """Returns whether a place is behind a call of a function that begins somewhere, or None if it is behind none,
        nor what a handler of a signal returns to."""
        module, base = self.image.module_at(place)
        if module is None:
            return None
        if self.target_of_call(place) == start:
            return True
        if BY_REGISTER.fullmatch(self.image.memory.read(place - 7, 7)):
            return False
        with contextlib.suppress(Unclear):
            return False if module.rule(self.image.reader(base), place - base - 1).is_signal else None
        return None

    def find_called(self) -> int:
        """Returns where the function of a library begins that the innermost frame of its own has called, or 0."""
        own = (base + place + 1 for module, place, base in self.frames[1:]
               if not OF_THE_SYSTEM.fullmatch(module.path))
        is_inner = bool(self.frames) and OF_THE_SYSTEM.fullmatch(self.frames[0][0].path) is not None
        return self.called_before(next(own, 0)) if is_inner else 0

    def target_of_call(self, place: int) -> int:
        """Returns the function that is called right before a place, or 0 if that isn't said there."""
        code = self.image.memory.read(place - 6, 6)
        if code[1:2] == CALL:
            target = place + struct.unpack_from("=i", code, 2)[0]
            return self.called_before(place) or target
        return self.called_before(place)

    def called_before(self, place: int) -> int:
        """Returns where the function of a library begins that was called right before a place, by the table that the
        program has of these, or 0 where that doesn't stand there."""
        code = self.image.memory.read(place - 6, 6)
        if code[:2] == CALL_BY_TABLE:
            return self.image.word(place + struct.unpack_from("=i", code, 2)[0])
        stub_at = place + struct.unpack_from("=i", code, 2)[0] if len(code) == 6 else 0
        stub = STUB.match(self.image.memory.read(stub_at, 16)) if code[1:2] == CALL else None
        return self.image.word(stub_at + stub.end() + struct.unpack("=i", stub[1])[0]) if stub else 0

    def word(self, address: int) -> int:
        """Returns a word of memory, of which a piece is read at once."""
        if not 0 <= address - self.first <= len(self.piece) - 8:
            self.first, self.piece = address, self.image.memory.read(address, PIECE)
        if len(self.piece) < 8:
            raise Unclear
        place = address - self.first
        return int.from_bytes(self.piece[place:place + 8], "little")
