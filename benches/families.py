#!/usr/bin/env python3
"""Measures reports of all families of dumps beside a plain search, with one processor and with several.

    benches/families.py [--times N] [--sizes LIST] [--families LIST] [--instructions] PROGRAM [BEFORE]

Makes the dumps, runs the programs on each in turn, and prints a table: the least time of N rounds, from the start of a
process to its end, and the peak memory of one more run. BEFORE is the program of an earlier commit. The plain search
(benches/plain_search) is built by cargo from Debian's packages; it always has one processor. It runs twice: once it
borrows names from the text of a dump, and once from the tree that serde_json makes of it, which is what the program
reads. All programs have to print the same bytes. Run it while nothing else runs. With --instructions it counts these by
valgrind, with one worker, and no time.
"""

import argparse
import glob
import os
import random
import shutil
import subprocess
import sys
import tempfile
from typing import Callable, Dict, List, Optional, Sequence

from measure import MIB, SEVERAL, dump, heading, instructions, least, milliseconds, peak, processors, table
from harness import write

HERE = os.path.dirname(os.path.realpath(__file__))
REGISTRY = "/usr/share/cargo/registry"
CRATES = ["fixedbitset", "petgraph", "serde", "serde_derive", "serde_json"]
SIZES = [512, 1024, 2048, 4096]
SITES = 64
EACH = 16  # how many each waits for, where the family doesn't say it
KNOT = 31  # how many each of a knot waits for in it: with one more for each of half of 4,096, 65,536 in all


# Families: for each process its dependents, or None where it is active


Waiting = Sequence[Optional[Sequence[int]]]


def ring(size: int) -> Waiting:
    """Each waits for the next 16."""
    return [[(p + step) % size for step in range(1, EACH + 1)] for p in range(size)]


def dense(size: int) -> Waiting:
    """A 16th as many processes, that wait for all of those."""
    return [list(range(size // EACH))] * (size // EACH)


def scattered(size: int) -> Waiting:
    """Each waits for 16 others by chance; 1 in 100 is active."""
    chance = random.Random(size)
    active = set(chance.sample(range(size), size // 100))
    return [None if p in active else chance.sample(range(size), EACH) for p in range(size)]


def alone(size: int) -> Waiting:
    """Nobody waits for anybody."""
    return [[] for _ in range(size)]


def path(size: int) -> Waiting:
    """Each waits for the next, the last is active."""
    return [[p + 1] for p in range(size - 1)] + [None]


def chain(size: int) -> Waiting:
    """Each waits for the next, the last is idle."""
    return [[p + 1] for p in range(size - 1)] + [[]]


def up(size: int) -> Waiting:
    """Each waits for the 16 after it, the last is active."""
    return [list(range(p + 1, min(size, p + 1 + EACH))) for p in range(size - 1)] + [None]


def knot(count: int) -> List[List[int]]:
    return [[(p + step) % count for step in range(1, KNOT + 1)] for p in range(count)]


def sinks(size: int) -> Waiting:
    """Half are one knot, and each of it waits for one of the other half too, who wait for nobody."""
    half = size // 2
    return [row + [half + p] for p, row in enumerate(knot(half))] + [[] for _ in range(half)]


def followers(size: int) -> Waiting:
    """Half are one knot, and each of the other half waits for one of it."""
    return knot(size // 2) + [[p] for p in range(size // 2)]


FAMILIES: Dict[str, Callable[[int], Waiting]] = {
    "ring": ring,
    "dense": dense,
    "random": scattered,
    "alone": alone,
    "path": path,
    "chain": chain,
    "up": up,
    "knot with sinks": sinks,
    "knot with followers": followers,
}


def options(family: str, size: int) -> List[str]:
    """The plan: that of the documents for a dump that takes long, where the default plan takes minutes."""
    return ["--workers", "64", "--cuts", ",".join([str(size // 64)] * 64)] if family == "up" else []


# The plain search


def build(room):
    """Builds the plain search in the folder `room`, from a copy, so that nothing is left beside its source. Returns the
    words that start it over a dump's text, and over its tree."""
    missing = [crate for crate in CRATES if not glob.glob(f"{REGISTRY}/{crate}-[0-9]*")]
    packages = [f"librust-{crate.replace('_', '-')}-dev" for crate in missing]
    packages += [] if shutil.which("cargo") else ["cargo"]
    if packages:
        sys.exit(f"the plain search can't be built here; install the packages {' '.join(packages)}")
    copy = f"{room}/plain_search"
    shutil.copytree(f"{HERE}/plain_search", copy, ignore=shutil.ignore_patterns("target", "Cargo.lock"))
    os.mkdir(f"{copy}/.cargo")
    source = f'[source.crates-io]\nreplace-with = "debian"\n[source.debian]\ndirectory = "{REGISTRY}"\n'
    write(f"{copy}/.cargo/config.toml", source.encode())
    words = ["cargo", "build", "--release", "--offline", "--quiet", "--target-dir", f"{room}/target"]
    if subprocess.run(words, cwd=copy, check=False).returncode != 0:
        sys.exit("the plain search hasn't been built")
    built = f"{room}/target/release/plain_search"
    return [[built], [built, "tree"]]


# Measuring


def measured(family, size, peers, programs, room, times):
    """For each program the cells of its row: the peers' times, its own with one processor and with several, memory."""
    source = f"{room}/{family} {size}"
    write(source, dump(FAMILIES[family](size), SITES))
    commands = [[program, "analyse", *options(family, size)] for program in programs]
    columns = [(peer, 1) for peer in peers] + [(words, count) for words in commands for count in (1, SEVERAL)]
    best, text = least(columns, source, room, times)
    plain, ours = best[: len(peers)], best[len(peers) :]
    held = os.path.getsize(source) + text
    beyond = [(peak(words, source) - held) / MIB for words in (*peers, *commands)]
    os.remove(source)
    shown = [milliseconds(took) for took in plain]
    for place in range(len(programs)):
        one, several = ours[2 * place : 2 * place + 2]
        times_of = [milliseconds(one), *ratios(one, plain, 1), milliseconds(several), *ratios(several, plain, 1)]
        yield [*shown, *times_of, *(f"{it:.1f}" for it in (beyond[len(peers) + place], *beyond[: len(peers)]))]


def counted(family, size, peers, programs, room, _times):
    """For each program the cells of its row: the millions of instructions of the peers and its own, with one worker."""
    source = f"{room}/{family} {size}"
    write(source, dump(FAMILIES[family](size), SITES))
    plan = ["--workers", "1", *options(family, size)[2:]]
    commands = [*peers, *([program, "analyse", *plan] for program in programs)]
    found = [instructions(words, source) for words in commands]
    os.remove(source)
    if None in found:
        sys.exit("valgrind isn't there")
    plain = found[: len(peers)]
    for own in found[len(peers) :]:
        yield [*(f"{count / 1e6:.1f}" for count in (*plain, own)), *ratios(own, plain, 2)]


def ratios(own, plain, digits):
    """How often the program takes what each of the peers takes."""
    return [f"{own / it:.{digits}f}" for it in plain]


OVER = ["Over text", "Over tree"]
TIMES = ["Plain search over text, ms", "Over a tree, ms", "1 processor, ms", *OVER]
TIMES += [f"{len(processors(SEVERAL))} processors, ms", *OVER]
TIMES += ["Memory beyond dump and text, MiB", "over text", "over a tree"]
COUNTS = ["Millions of instructions of the plain search over text", "Over a tree", "The program, one worker", *OVER]


def rows(named, shown, at, figures, peers, room, times):
    """A row for each family that is shown, each size and each of the programs, which `named` has by their names."""
    for family in shown:
        for size in at:
            found = figures(family, size, peers, list(named.values()), room, times)
            yield from ([family, f"{size:,}", name, *cells] for name, cells in zip(named, found))


# The command line


def size_in_range(text):
    size = int(text)
    if not 64 <= size <= 4096:
        raise ValueError
    return size


def sizes(text):
    return [size_in_range(item) for item in text.split(",")]


def families(text):
    found = text.split(",")
    if not set(found) <= set(FAMILIES):
        raise ValueError
    return found


def main():
    words = argparse.ArgumentParser(description=__doc__.splitlines()[0])
    words.add_argument("program")
    words.add_argument("before", nargs="?")
    words.add_argument("--times", type=int, default=5, help="rounds, of which the least time counts")
    words.add_argument("--sizes", type=sizes, default=SIZES, help="numbers from 64 to 4096, comma-separated")
    words.add_argument("--families", type=families, default=list(FAMILIES), help=", ".join(FAMILIES))
    words.add_argument("--instructions", action="store_true", help="count instructions by valgrind, and no time")
    given = words.parse_args()
    named = {"before": given.before, "now": given.program} if given.before else {"now": given.program}
    figures, head = (counted, COUNTS) if given.instructions else (measured, TIMES)
    with tempfile.TemporaryDirectory() as room:
        peers = build(room)
        print(f"{heading(0 if given.instructions else given.times)}\n", flush=True)
        found = rows(named, given.families, given.sizes, figures, peers, room, given.times)
        for line in table(["Family", "Size", "Program", *head], found):
            print(line, flush=True)


if __name__ == "__main__":
    main()
