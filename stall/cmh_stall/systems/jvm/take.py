"""How a JVM is taken: `jstack` asks it for its threads, and `jcmd` for its heap, if people agree to what that stops."""
from __future__ import annotations

import os
import shutil
from dataclasses import replace
from typing import Collection, Iterator, List, Sequence, Tuple

from cmh_proc.process import name_of, user_of

from ...core.files import Failure
from ...core.folder import name_of_user
from ...core.model import Sign
from ..taking import Capture, Part, Sight, Taker, clients_of_server, command_words

HEAP = ("the JVM collects its garbage, and then stops while it dumps its heap: 10.5 s for 2.4 GB that live then, which "
        "need as much room in $TMPDIR meanwhile; it also stops twice while it prints its threads")
HEAP_NEEDS = {command: "default-jdk-headless" for command in ("jstack", "jcmd")}
# What the heap tells who ends waits by these calls.
HEAP_SHOWS = (({"get", "join"}, "The heap shows who runs the task or computes the future, or in which queue it stands"),
              ({"lock", "lockInterruptibly"}, "The heap shows who reads under the lock"),
              ({"acquire", "take", "put", "await"}, "The heap shows who has a reference to what they wait at"))


class JvmTaker(Taker):
    def fault(self, targets: Sequence[str], wishes: Collection[str]) -> str:
        is_agreed = "heap" not in wishes or "yes" in wishes
        return super().fault(targets, wishes) if is_agreed else f"{HEAP}. If that may be, add --yes"

    def captures(self, targets: List[str], wishes: Collection[str]) -> List[Capture]:
        plain, = super().captures(targets, wishes)
        heap = replace(plain, targets=["--heap", *targets], how=HEAP, needs=HEAP_NEEDS, is_heavy=True)
        return [heap if "heap" in wishes else plain]

    def check(self, capture: Capture) -> None:
        """A JVM answers its own user and root alone."""
        super().check(capture)
        for pid in filter(str.isdigit, capture.targets if os.geteuid() else ()):
            owner = user_of(int(pid))
            if owner is not None and owner != os.geteuid():
                raise Failure(f"process {pid} is of another user, by whom a JVM has to be asked: "
                              f"sudo -u '{name_of_user(owner)}' cmh-stall jvm {pid}")

    def clients(self, capture: Capture, others: Sequence[Capture]) -> List[str]:
        return clients_of_server(capture, others)

    def commands(self, pid: int, name: str, words: List[str]) -> Iterator[Tuple[str, str, str]]:
        if name == "java":
            yield ("java", f"cmh-stall jvm {pid}, or with --heap, which shows more and stops it for longer",
                   "jvm and linux see inside")

    def those_to_ask(self, pids: Sequence[int]) -> List[int]:
        """Returns the last JVM that jstack, which is there, may ask."""
        own = [pid for pid in pids if name_of(pid) == "java" and user_of(pid) == os.geteuid()]
        return own[-1:] if shutil.which("jstack") else []

    def ends(self, targets: Sequence[str], sight: Sight) -> List[str]:
        return list(targets) if sight.waits_outside() else []

    def more(self, part: Part, sight: Sight) -> Iterator[str]:
        if part["targets"] and "--heap" not in part["targets"] and sight.is_open:
            words = command_words(part["targets"])
            yield f"{heap_words(sight)}, and stops the JVM for longer: cmh-stall jvm {words} --heap --yes"
        yield from super().more(part, sight)


def heap_words(sight: Sight) -> str:
    """Returns in words what the heap would show of those who wait."""
    calls = {process.operation.rpartition(".")[2] for process in sight.processes
             if process.sign in (Sign.BLOCKED, Sign.UNKNOWN)}
    return next((words for operations, words in HEAP_SHOWS if calls & operations), "The heap shows more")


TAKER = JvmTaker
