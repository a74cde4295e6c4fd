"""A job that hasn't loaded cmh_state: two threads with two locks. Usage: bare.py stuck|slow|tasks|beside_tasks

In the slow one the right thread sleeps while it holds its lock, and gives it back then. In the one of tasks these have
two locks of asyncio in two orders, and no thread is stuck; beside_tasks has both. `record_bare` keeps a state.
"""
import asyncio
import sys
import threading
import time

first, second = threading.Lock(), threading.Lock()
both = threading.Barrier(2)


def left():
    with first:
        both.wait()
        with second:
            pass


def right():
    with second:
        both.wait()
        if sys.argv[1] == "slow":
            time.sleep(600)
        with first:
            pass


def spin():
    while True:
        pass


async def take_both(one, other):
    async with one:
        await asyncio.sleep(0.3)
        async with other:
            pass


async def begin_tasks():
    one, other = asyncio.Lock(), asyncio.Lock()
    tasks = [asyncio.create_task(take_both(one, other)), asyncio.create_task(take_both(other, one))]
    await asyncio.sleep(600)
    return tasks


for work in (left, right, spin) if sys.argv[1] != "tasks" else ():
    threading.Thread(target=work, name=work.__name__, daemon=True).start()
if "tasks" in sys.argv[1]:
    asyncio.run(begin_tasks())
threading.Event().wait()
