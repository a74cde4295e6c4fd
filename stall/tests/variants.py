"""Programs that stall, each begun in several ways: by each Python, stripped, as another user, in a namespace of its
own, with a library between it and the C library. None of this has anything to do with who is stuck."""
from __future__ import annotations

import functools
import os
import re
import shutil
import signal
import subprocess
import tempfile
import time
from typing import Any, Callable, Dict, FrozenSet, Iterable, List, Sequence, Set, Tuple

from common import TOOLS
from harness import pythons, read, write

from cmh_linux.command import collect
from cmh_stall.core.facts import Facts
from cmh_stall.core.making import record, with_facts
from cmh_stall.core.model import Headline
from cmh_stall.systems import State, parser_of
from cmh_stall.core.rule import Decision
from cmh_stall.core.stuck import Waits

STALL = "shop"
LOCKS = r"""
#define _GNU_SOURCE
#include <pthread.h>
#include <unistd.h>
static pthread_mutex_t orders = PTHREAD_MUTEX_INITIALIZER, stock = PTHREAD_MUTEX_INITIALIZER;
struct work { const char *name; pthread_mutex_t *first, *second; };
static void *serve(void *given) {
    struct work *its = given;
    pthread_setname_np(pthread_self(), its->name);
    pthread_mutex_lock(its->first);
    usleep(300000);
    pthread_mutex_lock(its->second);
    return 0;
}
static void *beat(void *given) {
    for (;;) usleep(200000);
    return given;
}
int main(void) {
    struct work both[] = {{"sell", &orders, &stock}, {"deliver", &stock, &orders}};
    pthread_t threads[2], heart;
    pthread_create(&heart, 0, beat, 0);
    for (int at = 0; at < 2; at++) pthread_create(&threads[at], 0, serve, &both[at]);
    for (int at = 0; at < 2; at++) pthread_join(threads[at], 0);
}
"""
WRAPPER = r"""
#define _GNU_SOURCE
#include <dlfcn.h>
#include <pthread.h>
int pthread_mutex_lock(pthread_mutex_t *lock) {
    int (*next)(pthread_mutex_t *) = dlsym(RTLD_NEXT, "pthread_mutex_lock");
    int found = next(lock);
    return found;
}
"""
SCRIPT = """
import threading, time
import cmh_state
orders, stock = threading.Lock(), threading.Lock()
def sell():
    with orders:
        time.sleep(0.3)
        with stock: pass
def deliver():
    with stock:
        time.sleep(0.3)
        with orders: pass
def beat():
    while True: time.sleep(0.2)
for work in (sell, deliver, beat):
    threading.Thread(target=work, name=work.__name__).start()
"""
NOBODY = ["setpriv", "--reuid=65534", "--regid=65534", "--clear-groups"]
APART = ["unshare", "--mount", "--pid", "--ipc", "--mount-proc", "--fork", "--kill-child"]
TRIES, SETTLED = 100, 0.6  # looks at whether all threads have stayed where they are, and the seconds between two
KNOWS_LESS = ("3.8",)  # which doesn't show the lock that a block has taken, so that its stall is only likely
LOOK = 0.3  # seconds from a reading to the next
Begun = Any  # a subprocess.Popen
Told = Tuple[Headline, FrozenSet[str], FrozenSet[str]]


def is_root() -> bool:
    return os.geteuid() == 0


def begin(words: Sequence[str], folder: str, **env: str) -> Begun:
    return subprocess.Popen(words, cwd=folder, env={**os.environ, **env}, stdin=subprocess.DEVNULL,
                            stdout=subprocess.DEVNULL, stderr=subprocess.DEVNULL, start_new_session=True)


def program_below(begun: Begun) -> int:
    """Returns the number of what unshare has begun, once it is there."""
    for _ in range(TRIES):
        with open(f"/proc/{begun.pid}/task/{begun.pid}/children", encoding="ascii") as file:
            children = file.read().split()
        if children:
            return int(children[0])
        time.sleep(0.05)
    raise AssertionError("unshare has begun nothing")


def counts(pid: int) -> Set[str]:
    """Returns of each thread of a program its number, its sign of life, and how often it has begun to wait."""
    found = set()
    for name in os.listdir(f"/proc/{pid}/task"):
        with open(f"/proc/{pid}/task/{name}/status", encoding="utf-8") as file:
            found.add(re.sub(r"(?s).*?(State:\t\w).*\n(voluntary.*)", rf"{name} \1 \2", file.read()))
    return found


def await_stall(pids: Iterable[int], threads: int) -> None:
    """Waits until so many threads of each of some programs stay where they are."""
    before: List[Set[str]] = []
    for _ in range(TRIES):
        time.sleep(SETTLED)
        now = [counts(pid) for pid in pids]
        if before and min(len(one & other) for one, other in zip(before, now)) >= threads:
            return
        before = now
    raise AssertionError("the threads of a program don't stay where they are")


# The ways of a program of Linux and of Python


def linux_ways(folder: str) -> Dict[str, Callable[[], Begun]]:
    os.chmod(folder, 0o755)
    for name in ("plain", "stripped"):
        os.mkdir(f"{folder}/{name}", 0o755)
    made = [["cc", "-O1", "-pthread", "-o", f"plain/{STALL}", write(f"{folder}/{STALL}.c", LOCKS)],
            ["cc", "-O1", "-shared", "-fPIC", "-o", "wrapper.so", write(f"{folder}/wrapper.c", WRAPPER), "-ldl"]]
    for words in made:
        subprocess.run(words, cwd=folder, check=True, stdin=subprocess.DEVNULL)
    shutil.copy(f"{folder}/plain/{STALL}", f"{folder}/stripped/{STALL}")
    subprocess.run(["strip", f"stripped/{STALL}"], cwd=folder, check=True, stdin=subprocess.DEVNULL)
    plain = f"{folder}/plain/{STALL}"
    ways = {"plain": lambda: begin([plain], folder), "stripped": lambda: begin([f"{folder}/stripped/{STALL}"], folder),
            "wrapped": lambda: begin([plain], folder, LD_PRELOAD=f"{folder}/wrapper.so")}
    if is_root():
        ways["user"] = lambda: begin([*NOBODY, plain], folder)
        ways["apart"] = lambda: begin([*APART, plain], folder)
    return ways


def python_ways(folder: str) -> Dict[str, Callable[[], Begun]]:
    os.chmod(folder, 0o777)
    script = write(f"{folder}/{STALL}.py", SCRIPT)
    env = {"PYTHONPATH": TOOLS, "PYTHONDONTWRITEBYTECODE": "1", "CMH_STATE_PAUSE": "0.3"}

    def way(name: str, *words: str) -> Callable[[], Begun]:
        return lambda: begin(words, folder, CMH_STATE_FILE=f"{folder}/{name}.state", **env)

    ways = {version: way(version, python, script) for version, python in pythons().items()}
    newest = [*pythons().values()][-1]
    loads = f"import sqlite3, ssl, runpy; runpy.run_path({script!r}, run_name='__main__')"
    ways["loaded"] = way("loaded", newest, "-c", loads)
    if is_root():
        ways["user"] = way("user", *NOBODY, "/usr/bin/env", "HOME=/", "/usr/bin/python3", script)
        ways["apart"] = way("apart", *APART, newest, script)
    return ways


# Their states, and what is told of them


def take_linux(pid: int, _: str) -> str:
    return collect([pid], LOOK, False, 2)


def take_python(pid: int, path: str) -> str:
    """Has a program add both of its states to its file."""
    os.kill(pid, signal.SIGRTMAX)
    for _ in range(TRIES):
        time.sleep(0.1)
        if os.path.exists(path) and read(path).count('{"end"') == 2:
            return read(path)
    raise AssertionError(f"{path} hasn't two states")


@functools.lru_cache(maxsize=None)
def states(system: str) -> Dict[str, str]:
    """Returns the state of each variant of a program, by the way in which it was begun."""
    ways, take, threads = SYSTEMS[system]
    with tempfile.TemporaryDirectory(prefix="cmh-") as folder:
        begun = {name: way() for name, way in ways(folder).items()}
        try:
            pids = {name: program_below(it) if name == "apart" else it.pid for name, it in begun.items()}
            await_stall(pids.values(), threads)
            return {name: take(pid, f"{folder}/{name}.state") for name, pid in pids.items()}
        finally:
            for it in begun.values():
                os.killpg(it.pid, signal.SIGKILL)
                it.wait()


SYSTEMS: Dict[str, Tuple[Callable[[str], Dict[str, Callable[[], Begun]]], Callable[[int, str], str], int]] = {
    "linux": (linux_ways, take_linux, 3), "python": (python_ways, take_python, 4)}


def sketch_of(system: str, text: str) -> Any:
    return with_facts(record(system, [State("1.raw", text)]), Facts(), parser_of(system).IDLE)


def told(system: str, text: str) -> Told:
    """Returns what is said of a state, without the numbers of its processes."""
    decision = Decision(Waits(sketch_of(system, text)).subjects)

    def names(numbers: Iterable[int]) -> FrozenSet[str]:
        return frozenset(re.sub(r"\d+", "", decision.subjects[number].name) for number in numbers)

    return decision.headline, names(decision.certain), names(decision.likely)


def same_of_all(system: str, take: Callable[[str], Dict[str, str]] = states) -> None:
    """Whatever way a program was begun in, the same is told of it: two threads wait for each other."""
    found = {way: told(system, text) for way, text in take(system).items()}
    first = next(its for way, its in found.items() if way not in KNOWS_LESS)
    assert first[0] is Headline.DEADLOCK, f"{system}: {found}"
    odd = {way: its for way, its in found.items() if its != first and (way not in KNOWS_LESS or its[2] != first[2])}
    assert not odd, f"{system}: {odd}, and else {first}"
