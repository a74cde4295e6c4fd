#!/usr/bin/env python3
"""Writes the state of many threads, or of many tasks, each of which has a lock of a list that all of them share.

With `stuck` each waits for the lock of the next one. With `healthy` the last one sleeps, and the others wait for it.
With `count` the functions that are called for the state are counted and printed.

usage: CMH_STATE_FILE=.. crowd.py FOLDER OF cmh_state threads|tasks stuck|healthy|count NUMBER
"""
from __future__ import annotations

import asyncio
import os
import signal
import sys
import threading
import time

FOLDER, KIND, END, NUMBER = sys.argv[1], sys.argv[2], sys.argv[3], int(sys.argv[4])
sys.path.insert(0, FOLDER)
from cmh_state import state  # noqa: E402

STATE = os.environ["CMH_STATE_FILE"]
threading.stack_size(1 << 18)


def is_last(at: int, number: int) -> bool:
    """Whether a thread or a task is the one that sleeps, if one does."""
    return END == "healthy" and at == number - 1


def await_that_all_have(locks: list[threading.Lock] | list[asyncio.Lock]) -> None:
    while not all(lock.locked() for lock in locks):
        time.sleep(0.01)


def threads(number: int) -> None:
    locks = [threading.Lock() for _ in range(number)]
    start = threading.Event()

    def work(at: int) -> None:
        following = locks[(at + 1) % number]
        with locks[at]:
            start.wait()
            if is_last(at, number):
                time.sleep(3600)
            with following:
                pass

    for at in range(number):
        threading.Thread(target=work, args=(at,), name=f"work {at}", daemon=True).start()
    await_that_all_have(locks)
    start.set()


def tasks(number: int) -> None:
    locks: list[asyncio.Lock] = []

    async def work(at: int) -> None:
        async with locks[at]:
            await asyncio.sleep(1)
            if is_last(at, number):
                await asyncio.sleep(3600)
            async with locks[(at + 1) % number]:
                pass

    async def gather() -> None:
        locks.extend(asyncio.Lock() for _ in range(number))
        await asyncio.gather(*(work(at) for at in range(number)))

    threading.Thread(target=asyncio.run, args=(gather(),), name="loop", daemon=True).start()
    while len(locks) < number:
        time.sleep(0.01)
    await_that_all_have(locks)


def number_of_calls() -> int:
    """How many functions a state calls."""
    calls = 0

    def count(_: object, event: str, __: object) -> None:
        nonlocal calls
        calls += event in ("call", "c_call")

    state.state(1)  # (what is found once for all states)
    sys.setprofile(count)
    state.state(1)
    sys.setprofile(None)
    return calls


def is_written() -> bool:
    return os.path.exists(STATE) and '"end"' in open(STATE, encoding="utf-8").read()


(threads if KIND == "threads" else tasks)(NUMBER)
time.sleep(3)
if END == "count":
    print(number_of_calls())
    sys.exit()
asks = threading.Thread(target=os.kill, args=(os.getpid(), signal.SIGRTMAX))
asks.start()
asks.join()
while not is_written():
    time.sleep(0.1)
