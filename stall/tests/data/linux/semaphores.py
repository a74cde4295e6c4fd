#!/usr/bin/env python3
"""Runs threads that wait at semaphores by a random plan. Prints how many of each process are stuck by the plan, and what
the collector reads.

Usage: semaphores.py SEED COLLECTOR

It is process 1 of a namespace of its own. Each process has semaphores of its own, and some share memory with others.
Each thread waits at one of these, which nobody gives anything, or sleeps. By the plan one who sleeps may wake all who
have a memory in common with it, and these may wake others.
"""
import ctypes
import json
import mmap
import os
import random
import signal
import subprocess
import sys
import threading
import time

from plans import settle

OWN, SHARED, SLEEP = "own", "shared", "sleep"
LIBC = ctypes.CDLL(None)
SIZE = 32  # of a sem_t


class Plan:
    """What each thread of each process does, and which process has the memory that some share."""

    def __init__(self, seed):
        some = random.Random(seed)
        ways = [OWN] * some.randint(1, 5) + [SHARED] * some.randint(1, 5) + [SLEEP]
        self.ways = [some.choices(ways, k=some.randint(1, 4)) for _ in range(some.randint(1, 5))]
        self.shares = [SHARED in row or some.random() < 0.5 for row in self.ways]

    def stuck(self):
        """Returns how many threads of each process are stuck."""
        left = {(who, at): way for who, row in enumerate(self.ways) for at, way in enumerate(row) if way != SLEEP}
        free, going = {*()}, {who for who, row in enumerate(self.ways) if SLEEP in row}
        while going:  # (whose threads wake others)
            shared = any(self.shares[who] for who in going)
            new = {it for it, way in left.items() if it[0] in going or way == SHARED and shared}
            left = {it: way for it, way in left.items() if it not in new}
            going, free = {who for who, _ in new} - free, free | going
        return [sum(who == it for it, _ in left) for who in range(len(self.ways))]


def address(memory):
    return ctypes.addressof(ctypes.c_char.from_buffer(memory))


def run(way, own, shared):
    if way == SLEEP:
        time.sleep(600)
    LIBC.sem_wait(ctypes.c_void_p(own if way == OWN else shared))


def begin(row, shares, memory):
    pid = os.fork()
    if pid:
        return pid
    own = ctypes.create_string_buffer(SIZE)
    LIBC.sem_init(own, 0, 0)
    shared = address(memory)
    if not shares:
        LIBC.munmap(ctypes.c_void_p(shared), mmap.PAGESIZE)
    for way in row[1:]:
        threading.Thread(target=run, args=(way, ctypes.addressof(own), shared)).start()
    run(row[0], ctypes.addressof(own), shared)
    os._exit(0)


def main():
    plan = Plan(int(sys.argv[1]))
    signal.signal(signal.SIGINT, signal.SIG_DFL)  # (a handler could wake a thread)
    memory = mmap.mmap(-1, mmap.PAGESIZE)
    LIBC.sem_init(ctypes.c_void_p(address(memory)), 1, 0)
    pids = [begin(row, shares, memory) for row, shares in zip(plan.ways, plan.shares)]
    LIBC.munmap(ctypes.c_void_p(address(memory)), mmap.PAGESIZE)  # (its own, which never uses it again)
    settle(pids)
    print(json.dumps(dict(zip(pids, plan.stuck()))), flush=True)
    subprocess.run([sys.executable, sys.argv[2], "--seconds", "0.5", "--pid", *map(str, pids)], check=True)
    os._exit(0)


if __name__ == "__main__":
    main()
