"""Threads and tasks that wait, and others that don't: the first letters of a name say what one does.

`wait_` waits, for somebody that only the source names; `join_` waits for whom the state shows; `run_` computes, sleeps,
or waits with a limit. It writes its state into CMH_STATE_FILE once all are where they stay, and ends when it is whole.
"""
# mypy: disable-error-code="misc"
import asyncio
import concurrent.futures
import multiprocessing
import os
import queue
import signal
import socket
import subprocess
import sys
import threading
import time

import cmh_state  # noqa: F401

condition, event, semaphore, barrier = threading.Condition(), threading.Event(), threading.Semaphore(0), None
plain, held, handler_lock = threading.Lock(), threading.RLock(), threading.RLock()
left, right = socket.socketpair()
limited, _ = socket.socketpair()
limited.settimeout(500)
reader, writer = os.pipe()
STATE = os.environ["CMH_STATE_FILE"]
children, CHILD = [], [sys.executable, "-c", "import time; time.sleep(600)"]
pool = concurrent.futures.ThreadPoolExecutor(8)
plain.acquire()


def start(work, name):
    thread = threading.Thread(target=work, name=name, daemon=True)
    thread.start()
    return thread


class Works:
    """What each thread does."""

    def wait_condition():
        with condition:
            condition.wait()

    def wait_condition_for():
        with condition:
            condition.wait_for(lambda: False)

    def wait_event():
        event.wait()

    def wait_semaphore():
        with semaphore:
            pass

    def wait_barrier():
        threading.Barrier(2).wait()

    def wait_lock():
        with plain:
            pass

    def wait_lock_with_arguments():
        plain.acquire(True)

    def wait_get():
        queue.Queue().get()

    def wait_put():
        rows = queue.Queue(1)
        rows.put(1)
        rows.put(2)

    def wait_queue_join():
        rows = queue.Queue()
        rows.put(1)
        rows.join()

    def wait_simple_queue():
        queue.SimpleQueue().get()

    def wait_socket():
        left.recv(1)

    def wait_lines():
        for _ in right.makefile():
            pass

    def wait_accept():
        with socket.socket() as server:
            server.bind(("127.0.0.1", 0))
            server.listen()
            server.accept()

    def wait_send():
        one, other = socket.socketpair()
        one.sendall(b"x" * 10000000)
        other.close()

    def wait_pipe():
        os.read(reader, 1)

    def wait_child():
        child = subprocess.Popen(CHILD)
        children.append(child)
        child.wait()

    def wait_output():
        child = subprocess.Popen(CHILD, stdout=subprocess.PIPE)
        children.append(child)
        child.communicate()

    def wait_other_queue():
        multiprocessing.Queue().get()

    def wait_other_lock():
        lock = multiprocessing.Lock()
        lock.acquire()
        with lock:
            pass

    def wait_connection():
        ends = multiprocessing.Pipe()
        ends[0].recv()

    def join_held():
        time.sleep(0.2)
        with held:
            pass

    def join_thread():
        start(event.wait, "wait_inner").join()

    def join_work():
        pool.submit(event.wait).result()

    def join_works():
        concurrent.futures.wait([pool.submit(event.wait), pool.submit(time.sleep, 600)])

    def join_pool():
        with concurrent.futures.ThreadPoolExecutor(1) as other:
            other.submit(event.wait)

    def join_condition_that_is_signalled():
        """Its limit is over, and it can't have the lock back."""
        mine = threading.Condition(handler_lock)
        with mine:
            start(Works.run_keeper, "run_keeper_of_condition")
            mine.wait(timeout=0.2)

    def run_keeper():
        with handler_lock:
            time.sleep(600)

    def run_holder():
        with held:
            time.sleep(600)

    def run_sleep():
        time.sleep(500 if plain else 600)

    def run_sleep_after_a_return():
        if not plain:
            return ""
        time.sleep(600)
        return "x"

    def run_limit():
        event.wait(30)

    def run_get_with_limit():
        queue.Queue().get(timeout=30)

    def run_socket_with_limit():
        limited.recv(1)

    def run_lock_with_limit():
        plain.acquire(True, 30)

    def run_computation():
        while True:
            sum(range(1000))

    def run_timer():
        timer = threading.Timer(30, print)
        timer.daemon, timer.name = True, "run_the_timer"
        timer.start()
        time.sleep(600)


async def tasks():
    loop, inner = asyncio.get_running_loop(), asyncio.Event()
    rows, lock = asyncio.Queue(), asyncio.Lock()
    await lock.acquire()

    async def wait_task_event():
        await inner.wait()

    async def wait_task_get():
        await rows.get()

    async def wait_task_lock():
        async with lock:
            pass

    async def wait_task_future():
        await loop.create_future()

    async def wait_task_stream():
        ends = socket.socketpair()
        stream, _ = await asyncio.open_connection(sock=ends[0])
        await stream.read(1)

    async def join_task_gather():
        await asyncio.gather(made["wait_task_event"], made["run_task_sleep"])

    async def join_task_first():
        await asyncio.wait([made["wait_task_event"], made["wait_task_get"]], return_when=asyncio.FIRST_COMPLETED)

    async def join_task_shield():
        await asyncio.shield(made["wait_task_event"])

    async def join_task_executor():
        await loop.run_in_executor(pool, event.wait)

    async def run_task_sleep():
        await asyncio.sleep(600)
        inner.set()  # (so that it is no heartbeat, which may end nobody's wait)

    async def run_task_limit():
        await asyncio.wait_for(inner.wait(), 30)

    async def run_task_timer():
        future = loop.create_future()
        loop.call_later(30, future.set_result, 1)
        await future

    made = {}
    for name, work in list(locals().items()):
        if asyncio.iscoroutinefunction(work):
            made[name] = asyncio.create_task(work(), name=name)
    await asyncio.wait(made.values())


for name, work in list(vars(Works).items()):
    if name.startswith(("wait", "join", "run")) and name != "run_keeper":
        start(work, name)
start(lambda: asyncio.run(tasks()), "join_loop")


def places():
    """Where all threads stand that don't run."""
    names = {each.ident: each.name for each in threading.enumerate()}
    return {ident: (frame.f_code, frame.f_lasti) for ident, frame in sys._current_frames().items()
            if names.get(ident, "").startswith(("wait", "join"))}


before = None
while before != places():
    before = places()
    time.sleep(1)
os.kill(os.getpid(), signal.SIGRTMAX)
for attempt in range(600):
    time.sleep(0.1)
    if os.path.exists(STATE) and '"end"' in open(STATE, encoding="utf-8").read():
        break
for each in children:
    each.kill()
sys.stdout.flush()
os._exit(0)
