"""What a script that takes a state has in common with the others: it runs one of others' programs, and looks again."""
from __future__ import annotations

import os
import sys
import time
from typing import Iterator, Mapping, NoReturn, Optional, Sequence, Tuple

from .budget import Refused
from .process import link_of
from .programs import TIME, run

LATE, TOO_MUCH, NOT_RUN = 124, 125, 127
MOST, RESIDENT = 64 << 20, 320 << 20  # bytes that a program may print, and have in memory


def result_of(words: Sequence[str], seconds: float, *, most: int = MOST, resident: int = RESIDENT, stdin: bytes = b"",
              env: Optional[Mapping[str, str]] = None) -> Tuple[int, bytes]:
    """Runs a program. Returns its status, or LATE if it takes too long and TOO_MUCH if it takes too much, with what it
    has printed. What it says of faults goes to our own standard error, with why it was ended."""
    name = os.path.basename(words[0])
    try:
        ran = run(words, most=most, resident=resident, seconds=seconds, stdin=stdin, env=env)
    except OSError as error:
        sys.stderr.write(f"{name}: {error.strerror or error}\n")
        return LATE if isinstance(error, Refused) else NOT_RUN, b""  # (the time of the look is over)
    sys.stderr.buffer.write(ran.errors)
    sys.stderr.flush()
    if not ran.why:
        return ran.status, ran.output
    sys.stderr.write(f"{name}: {ran.why}\n")
    return LATE if ran.why == TIME.format(seconds) else TOO_MUCH, b""


def pauses() -> Iterator[None]:
    """Yields for each look, $CMH_LOOKS times, $CMH_SECONDS apart."""
    yield
    for _ in range(1, int(os.environ.get("CMH_LOOKS", "2"))):
        time.sleep(float(os.environ.get("CMH_SECONDS", "5")))
        yield


def machine() -> str:
    """Returns which machine and container this is, which tells with which other states one can be joined."""
    return f"{os.uname().nodename} {link_of('/proc/self/ns/pid')}"


def usage(text: Optional[str]) -> NoReturn:
    sys.stderr.write(text or "")
    sys.exit(2)
