"""The command `python3 cmh_heap`."""
from __future__ import annotations

import json
import mmap
import os
import re
import struct
import sys
from typing import List, Optional, Set

sys.dont_write_bytecode = True
if not __package__:  # (its own folder is where modules are looked for, and not the one above)
    sys.path[0] = os.path.dirname(os.path.dirname(os.path.abspath(__file__)))

from cmh_heap.hprof import Fault, HeapDump  # noqa: E402
from cmh_heap.waits import HeapWaits  # noqa: E402

COMPILED = re.compile(r"\d+ (\d) \d+ ([^\s(]+)\(")
OPTIMISED = "4"  # the level of methods in which the JVM takes objects apart


def optimised_in(path: str) -> Optional[Set[str]]:
    """Returns the methods that are compiled best, as frames have them, or None if it isn't known which."""
    with open(path, encoding="utf-8", errors="backslashreplace") as file:
        found = [it.groups() for it in map(COMPILED.match, map(str.strip, file)) if it]
    return {name.replace("/", "+") for level, name in found if level == OPTIMISED} if found else None


def fail(fault: str) -> int:
    print(f"cmh_heap: {fault}", file=sys.stderr)
    return 1


def main(words: List[str]) -> int:
    if len(words) not in (1, 2) or words[0].startswith("-"):
        print("usage: cmh_heap FILE [CODE]", file=sys.stderr)
        return 2
    try:
        with open(words[0], "rb") as file, mmap.mmap(file.fileno(), 0, access=mmap.ACCESS_READ) as data:
            heap = HeapDump(data)
            heap.read()
            rows = list(HeapWaits(heap, *map(optimised_in, words[1:])).rows())
    except (Fault, OSError) as error:
        return fail(f"{words[0]}: {error}")
    except (ValueError, KeyError, IndexError, struct.error):
        return fail(f"{words[0]}: the heap dump is cut off, or no file of a JVM's")
    for row in [{"version": 2, "time": heap.time}, *rows, {"end": len(rows)}]:
        print(f"# cmh heap {json.dumps(row)}")
    return 0


if __name__ == "__main__":
    if hasattr(sys.stdout, "reconfigure"):
        sys.stdout.reconfigure(errors="backslashreplace")
    sys.exit(main(sys.argv[1:]))
