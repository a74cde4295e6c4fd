#!/usr/bin/env python3
"""Measures how long an analysis takes by its plan, with one processor and with several.

    benches/plans.py [--times N] [--size N] PROGRAM [BEFORE]

Makes dumps, runs each program on them by several plans, and prints a table in milliseconds: the least time of N rounds,
from the start of a process to its end. BEFORE is the program of an earlier commit. The programs and plans take turns,
and all have to print the same bytes: no plan changes the report. Run it while nothing else runs.
"""

import argparse
import os
import tempfile

from families import FAMILIES, SITES, options, size_in_range
from measure import SEVERAL, dump, heading, least, milliseconds, processors, table
from harness import write

SHOWN = ["path", "up", "chain", "random"]


def plans(size):
    """The options of each plan that is shown."""
    return {
        "1 worker": ["--workers", "1"],
        "4 workers, the default": [],
        "64 workers": ["--workers", "64"],
        "64 workers, 64 even cuts": options("up", size),
    }


def measured(family, size, count, programs, room, times):
    """For each program its times by plan, on this many processors."""
    source = f"{room}/{family}"
    write(source, dump(FAMILIES[family](size), SITES))
    every = list(plans(size).values())
    columns = [([program, "analyse", *plan], count) for program in programs for plan in every]
    best, _ = least(columns, source, room, times)
    os.remove(source)
    for place in range(len(programs)):
        yield [milliseconds(took) for took in best[place * len(every) : (place + 1) * len(every)]]


def rows(named, size, room, times):
    """A row for each family, number of processors and program: its times in milliseconds."""
    for family in SHOWN:
        for count in (1, SEVERAL):
            found = measured(family, size, count, list(named.values()), room, times)
            yield from ([family, str(len(processors(count))), name, *cells] for name, cells in zip(named, found))


def main():
    words = argparse.ArgumentParser(description=__doc__.splitlines()[0])
    words.add_argument("program")
    words.add_argument("before", nargs="?")
    words.add_argument("--times", type=int, default=5, help="rounds, of which the least time counts")
    words.add_argument("--size", type=size_in_range, default=4096, help="a number from 64 to 4096")
    given = words.parse_args()
    named = {"before": given.before, "now": given.program} if given.before else {"now": given.program}
    print(f"{heading(given.times)}\n", flush=True)
    with tempfile.TemporaryDirectory() as room:
        for line in table(["Family", "Processors", "Program", *plans(given.size)],
                          rows(named, given.size, room, given.times)):
            print(line, flush=True)


if __name__ == "__main__":
    main()
