#!/usr/bin/env python3
"""Prints states of pairs of threads and of tasks that never wait for each other at one time.

Each of a pair has first one half of such a wait, and then the other: `one` waits for what `two` has, and goes on to its
end before `two` waits for what `one` has. They go from the first half to the second within a state, each time a slice
later. Only a state that joins what it has seen in different slices could call them stuck. A word says which pairs are
tried: `healthy`; `stuck`, which really wait for each other; or `mutant`, whose states leave out the second look.

usage: slices.py FOLDER OF cmh_state healthy|stuck|mutant
"""
from __future__ import annotations

import asyncio
import sys
import threading
import time
from typing import Callable

FOLDER, KIND = sys.argv[1:]
sys.path.insert(0, FOLDER)
import cmh_state  # noqa: E402
from cmh_state import state, tasks, threads  # noqa: E402
from cmh_state.pace import PACE  # noqa: E402

SLICES = 28  # after so many, and each number below that, the pairs go on, in turn


def await_that(holds: Callable[[], bool]) -> None:
    while not holds():
        time.sleep(0.01)


class Pair:
    """Two threads. The row of `one` comes first, as it is the older one."""

    def __init__(self) -> None:
        self.first, self.second = threading.Lock(), threading.Lock()
        self.begun, self.early, self.passed, self.late = (threading.Event() for _ in range(4))
        self.started = {work.__name__: threading.Thread(target=work, name=work.__name__, daemon=True)
                        for work in (self.one, self.two)}
        for thread in self.started.values():
            thread.start()
        await_that(lambda: self.stands("one", "wait") and self.stands("two", "wait"))
        self.begun.set()
        await_that(lambda: self.stands("one", "take_first"))

    def one(self) -> None:
        self.begun.wait()
        with self.second:
            self.take_first()
            self.passed.set()
            self.late.wait()

    def two(self) -> None:
        with self.first:
            self.early.wait()
            if KIND == "stuck":
                self.take_second()
        self.passed.wait()
        with self.first:
            self.take_second()

    def take_first(self) -> None:
        with self.first:
            pass

    def take_second(self) -> None:
        with self.second:
            pass

    def stands(self, name: str, function: str) -> bool:
        """Whether a thread waits in a function."""
        thread = self.started[name]
        frame = sys._current_frames().get(thread.ident or 0)
        return frame is not None and frame.f_code.co_name == function and threads.counts_of(thread.native_id)[2] is True

    def go_on(self) -> None:
        self.early.set()
        await_that(lambda: self.stands("two", "take_second"))

    def end(self) -> None:
        self.early.set()
        self.late.set()
        for thread in self.started.values():
            thread.join()


class Tasks:
    """The same of two tasks."""

    def __init__(self) -> None:
        self.loop = asyncio.new_event_loop()
        self.thread = threading.Thread(target=self.loop.run_until_complete, args=(self.work(),), name="loop",
                                       daemon=True)
        self.is_ready = False
        self.thread.start()
        await_that(lambda: self.is_ready)

    async def work(self) -> None:
        self.first, self.second = asyncio.Lock(), asyncio.Lock()
        self.begun, self.early, self.passed, self.late = (asyncio.Event() for _ in range(4))
        started = [self.loop.create_task(work()) for work in (self.one, self.two)]
        await asyncio.sleep(0.01)
        self.begun.set()
        await asyncio.sleep(0.01)
        self.is_ready = True
        await asyncio.wait(started)

    async def one(self) -> None:
        await self.begun.wait()
        async with self.second:
            await self.take_first()
            self.passed.set()
            await self.late.wait()

    async def two(self) -> None:
        async with self.first:
            await self.early.wait()
            if KIND == "stuck":
                await self.take_second()
        await self.passed.wait()
        async with self.first:
            await self.take_second()

    async def take_first(self) -> None:
        async with self.first:
            pass

    async def take_second(self) -> None:
        self.is_second = True
        async with self.second:
            pass

    def go_on(self) -> None:
        self.is_second = False
        self.loop.call_soon_threadsafe(self.early.set)
        await_that(lambda: self.is_second)

    def end(self) -> None:
        self.loop.call_soon_threadsafe(self.early.set)
        self.loop.call_soon_threadsafe(self.late.set)
        self.thread.join()
        self.loop.close()


class Reader(threading.Thread):
    """Takes a state in which a pair goes on after so many slices."""

    def __init__(self, go_on: Callable[[], None], slices: int) -> None:
        super().__init__(name="reader", daemon=True)
        self.go_on, self.left, self.text = go_on, slices, ""

    def run(self) -> None:
        PACE.give_way = self.give_way  # type: ignore
        self.text = state.state(1)

    def give_way(self) -> None:
        PACE.row += 1
        self.left -= sys._getframe(1).f_code.co_name != "functions_by_name"
        if self.left == 0:
            self.go_on()


def leave_out_second_look() -> None:
    """A mutant: each row says that nobody has moved since its first look, whoever has."""
    standing = {"moved": False, "stops": 1, "spent": 0, "new_stops": 0, "asleep": True}
    threads.Threads.row_after = lambda self, row, place, frame: {**row, **standing}  # type: ignore
    tasks.place_of = lambda task, chain: [1]


def try_pair(pair: Pair | Tasks, slices: int) -> None:
    """Prints the state of a pair, behind a line with its kind."""
    if KIND == "stuck":
        pair.go_on()
    reader = Reader((lambda: None) if KIND == "stuck" else pair.go_on, slices)
    reader.start()
    reader.join()
    print(f"{type(pair).__name__} {slices}\n{reader.text}")
    if KIND != "stuck":
        pair.end()


def main() -> None:
    cmh_state.PRINTER.stop()
    threads.LEAST, threads.PARTS = 1, 100  # (so that each thread is looked at by itself, as a part of many is)
    rows_of = threads.Threads.rows_of
    threads.Threads.rows_of = lambda *given: PACE.give_way() or rows_of(*given)  # type: ignore
    if KIND == "mutant":
        leave_out_second_look()
    for slices in range(1, 2 if KIND == "stuck" else SLICES):
        try_pair(Pair(), slices)
        try_pair(Tasks(), slices)


main()
