#!/usr/bin/env python3
"""Stalls of a few processes, each with its healthy twin. Usage: programs.py NAME COLLECTOR SECONDS [OPTION ..] > STATE

It is process 1 of a namespace of its own, where the story of NAME begins with process 3, and prints what the collector
reads of that one. So the numbers of all processes are known: they are counted up as they start.
"""
import contextlib
import ctypes
import fcntl
import importlib
import os
import select
import signal
import socket
import subprocess
import struct
import sys
import threading
import time

FULL = b"x" * 1_000_000  # more than a pipe or a socket takes
LIBC = ctypes.CDLL(None, use_errno=True)


def call_me(name):
    """Sets the name of the process, as ps shows it."""
    with open("/proc/self/comm", "w", encoding="utf-8") as file:
        file.write(name)


def start(name, work, *words):
    """Starts a process that does some work and ends."""
    pid = os.fork()
    if pid == 0:
        call_me(name)
        work(*words)
        os._exit(0)
    return pid


def rest():
    time.sleep(600)


def write_all(handle):
    data = FULL
    while data:
        data = data[os.write(handle, data):]


# Pipes


def pipes(is_slow=False):
    """A parent writes to a child that first fills the parent's other pipe."""
    (to_read, to_write), (back_read, back_write) = os.pipe(), os.pipe()

    def child():
        os.close(to_write)
        os.close(back_read)
        rest() if is_slow else write_all(back_write)

    start("child", child)
    os.close(to_read)
    os.close(back_write)
    call_me("parent")
    write_all(to_write)


def own_end(is_slow=False):
    """A reader of a pipe has kept its other end, so that it never closes. In the twin a writer is there."""
    reading, _ = os.pipe()
    call_me("reader")
    start("writer", rest if is_slow else os.getpid)
    if not is_slow:
        os.wait()
    os.read(reading, 1)


def fifos(is_slow=False):
    """Two processes with two FIFOs, each reads before it writes."""
    for name in "ab":
        os.mkfifo(name)

    def side(own, other, is_resting):
        files = [os.open(own, os.O_RDWR), os.open(other, os.O_RDWR)]
        rest() if is_resting else os.read(files[0], 1)

    start("left", side, "a", "b", False)
    start("right", side, "b", "a", is_slow)
    call_me("waiter")
    os.wait()


def fifo_open(is_slow=False):
    """A process opens a FIFO that nobody opens for writing. In the twin somebody is about to."""
    os.mkfifo("a")
    call_me("opener")
    if is_slow:
        start("writer", rest)
    os.open("a", os.O_RDONLY)


def spliced(is_slow=False):
    """tee hands on what a process writes to two readers, one of which waits for the other."""
    (a_read, a_write), (b_read, b_write), (c_read, c_write) = os.pipe(), os.pipe(), os.pipe()

    def hand_on():
        for it in (a_write, b_read, c_read, c_write):
            os.close(it)
        while True:
            LIBC.splice(a_read, None, b_write, None, 65536, 0)

    def read():
        for it in (a_read, a_write, b_write, c_write):
            os.close(it)
        rest() if is_slow else os.read(c_read, 1)

    start("relay", hand_on)
    start("sink", read)
    for it in (a_read, b_read, b_write, c_read):
        os.close(it)
    call_me("source")
    write_all(a_write)


def ring(is_slow=False):
    """Three processes in a ring of pipes hand each other a token that nobody has. In the twin it goes round."""
    ends = [os.pipe() for _ in range(3)]

    def hand_on(at):
        mine, next_one = ends[at][0], ends[(at + 1) % 3][1]
        for pair in ends:
            for it in {*pair} - {mine, next_one}:
                os.close(it)
        while True:
            os.write(next_one, os.read(mine, 1))

    for at in range(3):
        start(f"ring-{at}", hand_on, at)
    if is_slow:
        os.write(ends[0][1], b"x")
    for pair in ends:
        for it in pair:
            os.close(it)
    call_me("waiter")
    os.wait()


# Sets of descriptors


def two_sides(side, is_slow, make=os.pipe):
    """Two processes, each with an end to write to the other one, both of which wait."""
    (a_read, a_write), (b_read, b_write) = make(), make()

    def do(own, other, unused, is_resting):
        for it in unused:
            os.close(it)
        rest() if is_resting else side(own, other)

    start("left", do, a_read, b_write, (a_write, b_read), False)
    start("right", do, b_read, a_write, (b_write, a_read), is_slow)
    for it in (a_read, a_write, b_read, b_write):
        os.close(it)
    call_me("waiter")
    os.waitid(os.P_ALL, 0, os.WEXITED)


def poll(own, limit=None):
    it = select.poll()
    it.register(own, select.POLLIN)
    it.poll(limit)


def polls(is_slow=False):
    two_sides(lambda own, other: poll(own), is_slow)


def polls_masked(is_slow=False):
    two_sides(lambda own, other: LIBC.ppoll(struct.pack("ihh", own, select.POLLIN, 0), 1, None, None), is_slow)


def polls_timed(is_slow=False):
    two_sides(lambda own, other: poll(own, 600_000), is_slow)


def limit_far(is_slow=False):
    """One of two that wait for each other has a limit of 27 hours, and in the other story of 23."""
    two_sides(lambda own, other: poll(own, (23 if is_slow else 27) * 3_600_000), False)


def selects(is_slow=False):
    two_sides(lambda own, other: select.select([own], [], []), is_slow)


def epolls(is_slow=False):
    def wait(own, other):
        it = select.epoll()
        it.register(own, select.EPOLLIN)
        it.poll()

    two_sides(wait, is_slow)


def polls_timer(is_slow=False):
    """One of two that poll has a timer too, which comes. In the other story it isn't armed."""
    timer = LIBC.timerfd_create(time.CLOCK_MONOTONIC, 0)
    if is_slow:
        LIBC.timerfd_settime(timer, 0, (ctypes.c_long * 4)(0, 0, 600, 0), None)
    two_sides(lambda own, other: select.select([own, timer], [], []), False)


def lock_polled(is_slow=False):
    """One asks again and again for a lock of a file, which one has who is stopped, or in the other story sleeps."""
    with open("store", "w", encoding="utf-8"):
        pass

    def keep():
        with open("store", encoding="utf-8") as file:
            fcntl.flock(file, fcntl.LOCK_EX)
            if is_slow:
                rest()
            os.kill(os.getpid(), signal.SIGSTOP)

    def ask():
        with open("store", encoding="utf-8") as file:
            while True:
                time.sleep(0.2)
                with contextlib.suppress(OSError):
                    fcntl.flock(file, fcntl.LOCK_EX | fcntl.LOCK_NB)
                    return

    start("keeper", keep)
    time.sleep(0.5)
    start("asker", ask)
    call_me("waiter")
    os.waitid(os.P_ALL, 0, os.WEXITED)


def ring_beside(is_slow=False):
    """Two processes wait for each other, and a stranger has an io_uring, which in the other story keeps an end of one's
    pipe."""
    mine, theirs = os.pipe(), os.pipe()

    def keep():
        ring = LIBC.syscall(425, 8, ctypes.create_string_buffer(120))  # io_uring_setup
        if is_slow:
            LIBC.syscall(427, ring, 2, (ctypes.c_int * 1)(mine[1]), 1)  # io_uring_register, of files
        for it in (*mine, *theirs):
            os.close(it)
        rest()

    start("starter", start, "stranger", keep)
    os.wait()
    start("left", lambda: (os.close(mine[1]), os.close(theirs[0]), os.read(mine[0], 1)))
    start("right", lambda: (os.close(theirs[1]), os.close(mine[0]), os.read(theirs[0], 1)))
    for it in (*mine, *theirs):
        os.close(it)
    call_me("waiter")
    os.waitid(os.P_ALL, 0, os.WEXITED)


def eventfds(is_slow=False):
    """Two processes wait at the eventfd of the other one's work."""

    def make():
        it = LIBC.eventfd(0, 0)
        return it, os.dup(it)

    two_sides(lambda own, other: os.read(own, 8), is_slow, make)


# Sockets


def pairs(is_slow=False):
    """Two processes with a socket pair, each waits for the other one's message."""
    left, right = socket.socketpair()

    def side(own, other, is_resting):
        other.close()
        rest() if is_resting else own.recv(1)

    start("left", side, left, right, False)
    start("right", side, right, left, is_slow)
    left.close()
    right.close()
    call_me("waiter")
    os.wait()


def serve(family, addresses, is_slow):
    """Two services, each of which asks the other one, and waits for the answer before it accepts."""
    listeners = []
    for address in addresses:
        listeners.append(socket.socket(family))
        listeners[-1].bind(address)
        listeners[-1].listen(4)

    def service(at, is_resting):
        listeners[1 - at].close()
        it = socket.socket(family)
        it.connect(addresses[1 - at])
        it.sendall(b"?")
        rest() if is_resting else it.recv(1)

    if family == socket.AF_INET:
        addresses = [it.getsockname() for it in listeners]
    start("stock", service, 0, False)
    start("orders", service, 1, is_slow)
    for it in listeners:
        it.close()
    call_me("waiter")
    os.wait()


def unix(is_slow=False):
    serve(socket.AF_UNIX, ["stock.sock", "orders.sock"], is_slow)


def tcp(is_slow=False):
    serve(socket.AF_INET, [("127.0.0.1", 0), ("127.0.0.1", 0)], is_slow)


def accepted(family, address, is_slow):
    """A service has accepted, and waits for more of the question; the client waits for the answer."""
    listener = socket.socket(family)
    listener.bind(address)
    listener.listen(4)
    address = listener.getsockname()

    def ask():
        listener.close()
        it = socket.socket(family)
        it.connect(address)
        it.sendall(b"?")
        rest() if is_slow else it.recv(1)

    start("client", ask)
    call_me("service")
    it = listener.accept()[0]
    it.recv(1)
    it.recv(1)


def unix_accepted(is_slow=False):
    accepted(socket.AF_UNIX, "service.sock", is_slow)


def tcp_accepted(is_slow=False):
    accepted(socket.AF_INET, ("127.0.0.1", 0), is_slow)


def tcp_mapped(is_slow=False):
    """A service that listens for both kinds of addresses, and a client of the older kind. Each waits for the other."""
    listener = socket.socket(socket.AF_INET6)
    listener.setsockopt(socket.IPPROTO_IPV6, socket.IPV6_V6ONLY, 0)
    listener.bind(("::", 0))
    listener.listen(4)
    port = listener.getsockname()[1]

    def ask():
        listener.close()
        it = socket.create_connection(("127.0.0.1", port))
        it.settimeout(None)
        rest() if is_slow else it.recv(1)

    start("client", ask)
    call_me("service")
    it = listener.accept()[0]
    it.recv(1)


def connects(is_slow=False):
    """A client waits for a service to take its connection, and the service for the client's pipe."""
    reading, writing = os.pipe()
    listener = socket.socket(socket.AF_UNIX)
    listener.bind("service.sock")
    listener.listen(0)
    first = socket.socket(socket.AF_UNIX)
    first.connect("service.sock")

    def ask():
        os.close(reading)
        listener.close()
        socket.socket(socket.AF_UNIX).connect("service.sock")

    start("client", ask)
    os.close(writing)
    call_me("service")
    rest() if is_slow else os.read(reading, 1)


def accepts(is_slow=False):
    """A service waits for connections, and its child for the service. In the twin the child sleeps."""
    listener = socket.socket()
    listener.bind(("127.0.0.1", 0))
    listener.listen(4)
    reading, writing = os.pipe()

    def child():
        os.close(writing)
        listener.close()
        rest() if is_slow else os.read(reading, 1)

    start("child", child)
    os.close(reading)
    call_me("service")
    listener.accept()


def carried(is_slow=False):
    """A reader has kept the other end of its pipe, which is also on its way to a process that waits for the reader. In
    the twin that one sleeps, and may then take the end and write."""
    reading, writing = os.pipe()
    other, keep = os.pipe()
    near, far = socket.socketpair()
    socket.send_fds(near, [b"x"], [writing])
    near.close()

    def taker():
        for it in (reading, writing, keep):
            os.close(it)
        rest() if is_slow else os.read(other, 1)

    start("taker", taker)
    far.close()
    os.close(other)
    call_me("reader")
    os.read(reading, 1)


def unshared(is_slow=False):
    """A reader has kept the other end of its pipe, and a thread of it has descriptors of its own, which don't show."""
    reading, _ = os.pipe()

    def go_apart():
        LIBC.unshare(0x400)  # CLONE_FILES
        rest()

    threading.Thread(target=go_apart).start()
    call_me("reader")
    os.read(reading, 1)


def datagrams(is_slow=False):
    """A service waits for datagrams, which anybody may send."""
    it = socket.socket(socket.AF_UNIX, socket.SOCK_DGRAM)
    it.bind("service.sock")
    call_me("service")
    if is_slow:
        start("client", rest)
    it.recv(1)


# Locks of files


def locked(name, how=fcntl.LOCK_EX):
    it = os.open(name, os.O_RDWR | os.O_CREAT)
    fcntl.flock(it, how)
    return it


def flocks(is_slow=False):
    """Two scripts take two locks in two orders."""

    def script(first, second, is_resting):
        locked(first)
        time.sleep(0.3)
        rest() if is_resting else locked(second)

    start("backup", script, "a", "b", False)
    start("rotate", script, "b", "a", is_slow)
    call_me("cron")
    os.wait()


def readers(is_slow=False, are_slow=False):
    """A writer waits for two readers of a file, both of which wait for the writer. In the twin they sleep."""
    reading, writing = os.pipe()

    def read(is_resting):
        os.close(writing)
        locked("a", fcntl.LOCK_SH)
        rest() if is_resting else os.read(reading, 1)

    start("reader", read, is_slow and not are_slow)
    start("copier", read, is_slow)
    os.close(reading)
    call_me("writer")
    time.sleep(0.3)
    locked("a")


def readers_one(is_slow=False):
    """A writer waits for two readers of a file, one of which waits for the writer, while the other one sleeps."""
    readers(True, True)


def records(is_slow=False):
    """One waits for a record that another one has locked, which waits for the first one's pipe."""
    reading, writing = os.pipe()

    def hold():
        os.close(writing)
        it = os.open("a", os.O_RDWR | os.O_CREAT)
        fcntl.lockf(it, fcntl.LOCK_EX)
        rest() if is_slow else os.read(reading, 1)

    start("holder", hold)
    os.close(reading)
    call_me("editor")
    time.sleep(0.3)
    fcntl.lockf(os.open("a", os.O_RDWR | os.O_CREAT), fcntl.LOCK_EX)


# Children and signals


def children(is_slow=False):
    """A parent waits for its children, one of which waits for the parent's pipe."""
    reading, writing = os.pipe()

    def child(is_resting):
        os.close(writing)
        rest() if is_resting else os.read(reading, 1)

    first = start("first", child, False)
    start("second", child, is_slow)
    os.close(reading)
    call_me("parent")
    os.waitpid(-1 if is_slow else first, 0)


def alarmed(is_slow=False):
    """A reader of a pipe that has kept its other end has a handler for an alarm, which may be under way."""
    signal.signal(signal.SIGALRM, lambda *_: None)
    if is_slow:
        signal.alarm(600)
    call_me("reader")
    reading, _ = os.pipe()
    os.read(reading, 1)


def timed(is_slow=False):
    """The same with a timer of POSIX, which comes back without a handler being named for an alarm."""
    signal.signal(signal.SIGUSR1, lambda *_: None)
    event = (ctypes.c_char * 64)()
    ctypes.c_int.from_buffer(event, 8).value = signal.SIGUSR1
    timer = ctypes.c_void_p()
    LIBC.timer_create(time.CLOCK_MONOTONIC, event, ctypes.byref(timer))
    if is_slow:
        LIBC.timer_settime(timer, 0, (ctypes.c_long * 4)(0, 0, 600, 0), None)
    call_me("reader")
    reading, _ = os.pipe()
    os.read(reading, 1)


def caught(is_slow=False):
    """A reader has kept the other end of its pipe, and catches the end of its child, which waits for it too. In the
    twin the child sleeps, and its end may end the wait."""
    signal.signal(signal.SIGCHLD, lambda *_: None)
    reading, writing = os.pipe()
    other, keep = os.pipe()
    call_me("reader")

    def child():
        for it in (reading, writing, keep):
            os.close(it)
        rest() if is_slow else os.read(other, 1)

    start("child", child)
    os.read(reading, 1)


def paused(is_slow=False):
    """A process waits for a signal, and another one for the end of it."""
    start("pauser", signal.pause)
    call_me("parent")
    os.wait()


def hand_on(is_slow=False):
    """A healthy pair: two processes hand each other a byte all the time."""

    def go_on(own, other):
        while True:
            os.write(other, b"x")
            os.read(own, 1)
            if is_slow:
                time.sleep(0.01)

    two_sides(go_on, False)


def queue_lock(is_slow=False):
    """A thread of Python holds a lock and waits for the other one's, which the kernel doesn't know."""
    locks = [threading.Lock(), threading.Lock()]

    def take(first, second):
        with first:
            time.sleep(0.3)
            with contextlib.nullcontext() if is_slow else second:
                rest()

    call_me("python")
    other = threading.Thread(target=take, args=locks)
    other.start()
    take(*reversed(locks))


USER = 65534  # who may not read process 1, in the stories whose name begins so


def become_user():
    os.setgroups([])
    os.setgid(USER)
    os.setuid(USER)
    LIBC.prctl(4, 1, 0, 0, 0)  # PR_SET_DUMPABLE, without which nobody but root could read it


def main():
    name, program, seconds, *more = sys.argv[1:]
    story, is_slow = name.replace("_alive", ""), name.endswith("_alive")
    as_user = {"user": USER, "group": USER, "extra_groups": []} if story.startswith("user_") else {}
    if as_user:
        importlib.import_module("corners").begin_as_root(story, is_slow)
    pid = os.fork()
    if pid == 0:
        if story.startswith("cpp_"):
            os.execv("./stalls", ["stalls", story[4:], "slow" if is_slow else "stuck"])
        if story.startswith("tick_"):
            os.execv("./ticks", ["ticks", story[5:], "slow" if is_slow else "stuck"])
        if story.startswith("frames_"):
            os.execv("./frames", ["frames", story[7:], "slow" if is_slow else "stuck"])
        if story.startswith("most_"):
            os.setsid()
            os.execv("./bounds", ["bounds", story[5:], "slow" if is_slow else "stuck"])
        more = "servers" if story.startswith("asks_") else "corners"
        {**globals(), **vars(importlib.import_module(more))}[story](is_slow)
        rest()
    if story == "asks":  # (which runs the collector itself)
        os.wait()
        return
    time.sleep(float(os.environ.get("SETTLE", "2")))
    if "TAKER" in os.environ:  # (it looks itself, in place of the collector)
        os.execv(os.environ["TAKER"], [os.environ["TAKER"], "linux", str(pid), *more])
    try:
        subprocess.run([sys.executable, program, "--pid", str(pid), "--seconds", seconds, *more], check=True, **as_user)
    finally:
        if os.path.exists("disk"):  # (else nobody could end who waits for a frozen one)
            os.system("fsfreeze --unfreeze disk 2> /dev/null; umount --lazy disk")


if __name__ == "__main__":
    main()
