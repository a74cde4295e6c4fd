"""How processes are taken as the kernel sees them: by `cmh_linux`, with the stacks of those at a futex if people ask
for these."""
from __future__ import annotations

import shutil
import sys
from dataclasses import replace
from typing import Collection, Iterator, List

from ...core.files import Failure
from .. import NAMES
from .. import taker_of
from ..taking import HOME, Capture, Part, Sight, Taker, command_words, those_there

STACKS = {
    "eu-stack": "nothing is stopped but each process at a futex: once, some 0.04 s, while eu-stack reads its stacks",
    "gdb": "nothing is stopped but each process at a futex: once, some 0.6 s, while gdb reads its stacks",
}
NO_STACKS = '"with_stacks": false'  # in a state


class LinuxTaker(Taker):
    def captures(self, targets: List[str], wishes: Collection[str]) -> List[Capture]:
        return super().captures(those_there(targets), wishes)

    def with_wishes(self, capture: Capture, wishes: Collection[str]) -> Capture:
        """Raises Failure if nothing reads stacks that are asked for."""
        if "stacks" not in wishes:
            return capture
        tool = next(filter(shutil.which, STACKS), "")
        if not tool:
            raise Failure("eu-stack or gdb is needed for --stacks, and neither is there (Debian: apt-get install "
                          "elfutils)")
        says = "; ".join(filter(None, [capture.how, STACKS[tool]]))
        return replace(capture, how=says, options=["--stacks"], is_heavy=True)

    def words(self, capture: Capture, seconds: float) -> List[str]:
        return [sys.executable, f"{HOME}/cmh_linux", "--seconds", f"{capture.pause(seconds):g}",
                "--looks", str(capture.looks(seconds)), *capture.options,
                *(word for pid in capture.targets for word in ("--pid", pid))]

    def more(self, part: Part, sight: Sight) -> Iterator[str]:
        others = [name for name in NAMES if name not in sight.systems]
        for name in others if sight.status else ():
            yield from taker_of(name).inside(part, sight.text_of(part))
        at_futex = sight.is_open and any(process.operation == "futex" for process in sight.processes)
        if part["targets"] and at_futex and NO_STACKS in sight.text_of(part):
            yield ("Stacks show more, and hold each process at a futex for a moment: cmh-stall linux "
                   f"{command_words(part['targets'])} --stacks")


TAKER = LinuxTaker
