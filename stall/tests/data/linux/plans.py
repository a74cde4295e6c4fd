#!/usr/bin/env python3
"""Runs processes that wait at pipes by a random plan. Prints who is stuck by the plan, and what the collector reads.

Usage: plans.py SEED COLLECTOR

It is process 1 of a namespace of its own, and ends with all its processes. Each process keeps some ends of some pipes,
and then reads, writes to a full pipe, polls or sleeps. Who is stuck is found from the plan alone: one ends where nobody
has the other end; of those that are left, whoever waits for a sleeper isn't stuck, nor who waits for one of these.
"""
import contextlib
import json
import os
import random
import select
import subprocess
import sys
import time

READ, WRITE = "r", "w"


class Plan:
    """Which pipes there are, each to be read or full, and which ends each process keeps and waits at."""

    def __init__(self, seed):
        some = random.Random(seed)
        self.ways = [some.choice((READ, WRITE)) for _ in range(some.randint(1, 6))]
        self.kept, self.waits = [], []
        share = some.choice((0.2, 0.35, 0.5))
        for _ in range(some.randint(2, 6)):
            kept = [(at, end) for at in range(len(self.ways)) for end in (READ, WRITE) if some.random() < share]
            useful = [(at, end) for at, end in kept if self.ways[at] == end]
            calls = ["poll", "select", "epoll", "one", "one"] if useful and some.random() > 0.15 else ["sleep"]
            call = some.choice(calls)
            self.kept.append(kept)
            self.waits.append((call, [some.choice(useful)] if call == "one" else useful if useful else []))

    def holders(self, there, at, end):
        """Who has the other end of a pipe."""
        other = WRITE if end == READ else READ
        return {who for who in there if (at, other) in self.kept[who]}

    def stuck(self):
        """Returns who is stuck."""
        there = set(range(len(self.kept)))
        sleeps = {who for who in there if self.waits[who][0] == "sleep"}
        ended = [None]
        while ended:
            ended = [who for who in there - sleeps
                     if not all(self.holders(there, *end) for end in self.waits[who][1])]
            there -= set(ended)
        left = there - sleeps
        free = [None]
        while free:
            free = [who for who in left
                    if not set().union(*(self.holders(there, *end) for end in self.waits[who][1])) <= left]
            left -= set(free)
        return left


def fill(handle):
    """Writes to a pipe until it is full."""
    os.set_blocking(handle, False)
    for size in (4096, 1):
        with contextlib.suppress(BlockingIOError):
            while True:
                os.write(handle, b"x" * size)
    os.set_blocking(handle, True)


def wait(call, reads, writes):
    if call == "sleep":
        time.sleep(600)
    elif call == "select":
        select.select(reads, writes, [])
    elif call == "one" and reads:
        os.read(reads[0], 1)
    elif call == "one":
        os.write(writes[0], b"x")
    else:
        it = select.poll() if call == "poll" else select.epoll()
        for handle in reads:
            it.register(handle, select.POLLIN)
        for handle in writes:
            it.register(handle, select.POLLOUT)
        it.poll()


def begin(plan, who, pipes):
    """Starts a process of the plan, and returns its number."""
    pid = os.fork()
    if pid:
        return pid
    for at, pair in enumerate(pipes):
        for end, handle in zip((READ, WRITE), pair):
            if (at, end) not in plan.kept[who]:
                os.close(handle)
    call, ends = plan.waits[who]
    reads = [pipes[at][0] for at, end in ends if end == READ]
    writes = [pipes[at][1] for at, end in ends if end == WRITE]
    with contextlib.suppress(BrokenPipeError):
        wait(call, reads, writes)
    os._exit(0)


def settle(pids):
    """Waits until no process has moved for a while."""
    before = None
    while before is None or before != marks(pids):
        before = marks(pids)
        time.sleep(0.5)


def marks(pids):
    """Returns for each process whether it is asleep or has ended, and how often it has stopped to wait."""
    found = []
    for pid in pids:
        with open(f"/proc/{pid}/status", encoding="utf-8") as file:
            lines = file.read().split("\n")
        found.append([it for it in lines if it.startswith(("State:", "voluntary_ctxt_switches:"))])
    return found if all(it[0].split()[1] in "SZ" for it in found) else time.monotonic()


def main():
    plan = Plan(int(sys.argv[1]))
    pipes = [os.pipe() for _ in plan.ways]
    for way, (_, writing) in zip(plan.ways, pipes):
        if way == WRITE:
            fill(writing)
    pids = [begin(plan, who, pipes) for who in range(len(plan.kept))]
    for handle in (handle for pair in pipes for handle in pair):
        os.close(handle)
    settle(pids)
    print(json.dumps([pids[who] for who in sorted(plan.stuck())]), flush=True)
    subprocess.run([sys.executable, sys.argv[2], "--seconds", "0.5", "--pid", *map(str, pids)], check=True)


if __name__ == "__main__":
    main()
