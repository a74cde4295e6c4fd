"""What the scripts of this folder share: dumps, what a program takes in time, memory and instructions, the machine."""

import ctypes
import datetime
import filecmp
import json
import os
import platform
import re
import subprocess
import sys
import time
from typing import Any, Dict, Iterable, Iterator, Optional, Sequence

sys.dont_write_bytecode = True
sys.path.insert(0, os.path.join(os.path.dirname(os.path.dirname(os.path.realpath(__file__))), "tests"))
from harness import TOP, run_bytes  # noqa: E402

MIB = 1024 * 1024
SEVERAL = 4  # processors
ALLOWED = os.sched_getaffinity(0)
SUBREAPER = 36  # PR_SET_CHILD_SUBREAPER of Linux
# glibc fills and copies more than 2 KiB by one instruction, of which valgrind counts each byte. Here it takes loops.
LOOPS = ":".join(f"glibc.cpu.x86_rep_{it}_threshold=0x40000000" for it in ("stosb", "movsb"))


def dump(waiting: Sequence[Optional[Sequence[int]]], sites: int = 1) -> bytes:
    """A dump in which process p has the dependents `waiting[p]`, or is active where that is None."""
    processes = [{"name": f"p{p}", "site": f"s{p % sites}", **state(row)} for p, row in enumerate(waiting)]
    return json.dumps({"version": 1, "sites": [f"s{s}" for s in range(sites)], "processes": processes}).encode()


def state(dependents: Optional[Sequence[int]]) -> Dict[str, Any]:
    if dependents is None:
        return {"state": "active"}
    return {"state": "idle", "dependents": [f"p{d}" for d in dependents]}


def run(words, source, out):
    """Runs a program from the file `source` to the file `out`, and returns its seconds from start to end."""
    with open(source, "rb") as file, open(out, "wb") as sink:
        start = time.perf_counter()
        child = subprocess.Popen(words, stdin=file, stdout=sink)
        child.wait()
        took = time.perf_counter() - start
    judge(words, child.returncode)
    return took


def processors(count):
    """The first few of the processors that this script was given, or all where there are fewer."""
    return set(sorted(ALLOWED)[:count])


def seconds(words, count, source, out):
    """How long a program takes on this many processors; what it starts is given those of this script."""
    os.sched_setaffinity(0, processors(count))
    try:
        return run(words, source, out)
    finally:
        os.sched_setaffinity(0, ALLOWED)


def least(columns, source, room, times):
    """The least seconds of each column's program on its processors, and the length of the text.

    The programs take turns, and all have to print what the first does.
    """
    best = [float("inf")] * len(columns)
    wanted, got = f"{room}/wanted.txt", f"{room}/got.txt"
    for _ in range(times):
        for place, (words, count) in enumerate(columns):
            out = got if place else wanted
            best[place] = min(best[place], seconds(words, count, source, out))
            if place and not filecmp.cmp(wanted, got, shallow=False):
                sys.exit(f"{' '.join(words)} prints other bytes than {' '.join(columns[0][0])}")
    return best, os.path.getsize(wanted)


def judge(words, status):
    if status not in (0, 3):
        sys.exit(f"{words[0]} ended with {status}")


def peak(words, source):
    """Peak memory of a program in bytes.

    The system tells of a program that a script starts no less than the script's own peak. So a shell starts it, and
    ends: the program is then a child of this process. Its input comes only now, so that it can't end before.
    """
    ctypes.CDLL(None).prctl(SUBREAPER, 1, 0, 0, 0)
    reading, writing = os.pipe()
    shell = ["sh", "-c", 'exec 3<&0; "$@" <&3 3<&- >/dev/null & echo $!', "sh", *words]
    started = subprocess.run(shell, stdin=reading, stdout=subprocess.PIPE, check=True)
    os.close(reading)
    with open(writing, "wb") as pipe, open(source, "rb") as file:
        pipe.write(file.read())
    _, status, used = os.wait4(int(started.stdout), 0)
    judge(words, -os.WTERMSIG(status) if os.WIFSIGNALED(status) else os.WEXITSTATUS(status))
    return used.ru_maxrss * 1024


def instructions(words, source):
    """How many instructions a program takes, where valgrind is there."""
    counter = ["valgrind", "--tool=callgrind", "--callgrind-out-file=/dev/null"]
    try:
        with open(source, "rb") as file:
            ran = run_bytes([*counter, *words], file, env={**os.environ, "GLIBC_TUNABLES": LOOPS})
    except FileNotFoundError:
        return None
    found = re.search(rb"Collected : (\d+)", ran.err)
    return int(found[1]) if found else None


def machine() -> str:
    with open("/proc/cpuinfo", encoding="utf-8") as info:
        models = [line.split(":")[1].strip() for line in info if line.startswith("model name")]
    model = models[0] if models else platform.machine()
    return f"{model}, {os.cpu_count()} processors, {platform.system()} {platform.release()}"


def commit() -> str:
    """The commit of the checkout, or nothing where it has no history."""
    try:
        return run_bytes(["git", "-C", TOP, "rev-parse", "--short", "HEAD"]).out.decode().strip()
    except FileNotFoundError:
        return ""


def heading(times: int) -> str:
    """The line before a table of times, or of counts where there are no rounds."""
    rounds = f"; least of {times} rounds" if times else ""
    at = f"; commit `{commit()}`" if commit() else ""
    return f"{datetime.date.today().isoformat()}, {machine()}{rounds}{at}."


def line(cells: Iterable[str]) -> str:
    return "| " + " | ".join(cells) + " |"


def table(head: Sequence[str], rows: Iterable[Iterable[str]]) -> Iterator[str]:
    """The lines of a table, each as it is there."""
    yield line(head)
    yield "|" + "---|" * len(head)
    yield from map(line, rows)


def milliseconds(took):
    return f"{took * 1000:.1f}" if took < 0.1 else f"{took * 1000:,.0f}"
