"""Stalls at the corners of calls, each with its healthy twin: what a simpler rule takes for another wait."""
import contextlib
import ctypes
import fcntl
import mmap
import os
import select
import signal
import socket
import struct
import subprocess
import sys
import time

from programs import FULL, LIBC, become_user, call_me, locked, rest, start, write_all

READ, WRITE = 0, 1  # F_RDLCK and F_WRLCK
SETLKW, OFD = 7, 38
kept = []  # the ends of pipes that only the first process is to have


def begin(name, waits, ends, is_slow):
    """Starts a process that waits for the end of a pipe of its parent, which closes it here. In a twin it sleeps. It
    does `waits` before, and has closed some descriptors."""
    reading, writing = os.pipe()
    kept.append(writing)

    def work():
        for it in (*kept, *ends):
            os.close(it)
        waits()
        rest() if is_slow else os.read(reading, 1)

    pid = start(name, work)
    os.close(reading)
    return pid


def nothing():
    """What one does that does nothing before it waits."""


# Descriptors


def hangups(is_slow=False):
    """A process looks for the end of its reader, which waits for it."""
    reading, writing = os.pipe()
    begin("reader", nothing, [writing], is_slow)
    os.close(reading)
    call_me("writer")
    select.select([], [], [writing])


def own_reader(is_slow=False):
    """A writer to a full pipe has kept the end to read it. In the twin another process has it too."""
    reading, writing = os.pipe()
    start("reader", rest if is_slow else os.getpid)
    call_me("writer")
    if not is_slow:
        os.wait()
    write_all(writing)


def own_socket(is_slow=False):
    """A process reads from a socket of which it has the other end itself. In the twin it has a handler for a signal,
    which writes there, and its child sends that signal later."""
    near, far = socket.socketpair()
    if is_slow:
        signal.signal(signal.SIGUSR1, lambda *_: far.send(b"x"))
        start("child", lambda: (near.close(), far.close(), rest(), os.kill(os.getppid(), signal.SIGUSR1)))
    call_me("reader")
    near.recv(1)


def own_fifo(is_slow=False):
    """A process reads from a FIFO that nobody else has open. In the twin another one opens it later, and writes."""
    os.mkfifo("control")
    if is_slow:
        start("writer", lambda: (rest(), os.write(os.open("control", os.O_WRONLY), b"x")))
    call_me("daemon")
    os.read(os.open("control", os.O_RDWR), 1)


def vmsplices(is_slow=False):
    """A process gives its memory to a full pipe, whose reader waits for it."""
    reading, writing = os.pipe()
    begin("reader", nothing, [writing], is_slow)
    os.close(reading)
    call_me("writer")
    data = ctypes.create_string_buffer(65536)
    while True:
        LIBC.vmsplice(writing, (ctypes.c_ulong * 2)(ctypes.addressof(data), 65536), 1, 0)


def epoll_shared(is_slow=False):
    """A server waits at an epoll for a writer, which waits for the server. Its child has the epoll too, and waits as
    well. In the twin the child sleeps, and may then add to the epoll."""
    reading, writing = os.pipe()
    it = select.epoll()
    it.register(reading, select.EPOLLIN)
    begin("writer", it.close, [reading], False)
    begin("child", nothing, [reading, writing], is_slow)
    os.close(writing)
    call_me("server")
    it.poll()


def epoll_replaced(is_slow=False):
    """A server has closed what its epoll watches, and its descriptor is another eventfd by now, which only the server
    has. In the twin a child has the first one, and may write to it."""
    first = LIBC.eventfd(0, 0)
    it = select.epoll()
    it.register(first, select.EPOLLIN)
    start("child", rest if is_slow else os.getpid)
    if not is_slow:
        os.wait()
    os.close(first)
    LIBC.eventfd(0, 0)
    call_me("server")
    it.poll()


def epoll_workers(is_slow=False):
    """Three processes wait at one epoll for the next request of a client, which waits for its answer."""
    near, far = socket.socketpair()
    it = select.epoll()
    it.register(near, select.EPOLLIN)

    def ask():
        near.close()
        it.close()
        rest() if is_slow else far.recv(1)

    start("client", ask)
    far.close()
    for at in range(2):
        start(f"worker-{at}", it.poll)
    call_me("server")
    it.poll()


def requests(is_slow=False):
    """A server waits at an eventfd, to which the kernel writes once a pipe can be read. Its writer waits for the
    server."""
    reading, writing = os.pipe()
    event = LIBC.eventfd(0, 0)
    begin("writer", nothing, [reading, event], is_slow)
    os.close(writing)
    call_me("server")
    context = ctypes.c_ulong(0)
    LIBC.syscall(206, 4, ctypes.byref(context))  # io_setup
    request = ctypes.create_string_buffer(struct.pack("=QIIHhIQQqQII", 1, 0, 0, 5, 0, reading, 1, 0, 0, 0, 1, event))
    LIBC.syscall(209, context, 1, ctypes.byref(ctypes.c_void_p(ctypes.addressof(request))))  # io_submit
    os.read(event, 8)


def signals_of_files(is_slow=False):
    """A reader that has kept the other end of its pipe asks for a signal once a peer has sent, which waits for it."""
    near, far = socket.socketpair()
    reading, writing = os.pipe()
    begin("peer", near.close, [reading, writing], is_slow)
    far.close()
    signal.signal(signal.SIGIO, lambda *_: None)
    fcntl.fcntl(near, fcntl.F_SETOWN, os.getpid())
    fcntl.fcntl(near, fcntl.F_SETFL, fcntl.fcntl(near, fcntl.F_GETFL) | os.O_ASYNC)
    call_me("reader")
    os.read(reading, 1)


def signalfds(is_slow=False):
    """A process waits for signals at a descriptor, and its child for it."""
    begin("child", nothing, [], is_slow)
    signal.pthread_sigmask(signal.SIG_BLOCK, [signal.SIGUSR1])
    call_me("reader")
    os.read(LIBC.signalfd(-1, struct.pack("Q", 1 << signal.SIGUSR1 - 1), 0), 128)


def sigwaits(is_slow=False):
    """A process waits for a signal by sigwait, and its child for it."""
    begin("child", nothing, [], is_slow)
    signal.pthread_sigmask(signal.SIG_BLOCK, [signal.SIGUSR1])
    call_me("waiter")
    signal.sigwait([signal.SIGUSR1])


def watches(is_slow=False):
    """A process waits for a new file in its folder, and its child for it."""
    begin("child", nothing, [], is_slow)
    call_me("watcher")
    handle = LIBC.inotify_init()
    LIBC.inotify_add_watch(handle, b".", 0x100)
    os.read(handle, 4096)


def message_queues(is_slow=False):
    """A process waits for a message of a queue that has a name, and its child for it."""
    begin("child", nothing, [], is_slow)
    call_me("receiver")
    queue = LIBC.mq_open(b"/orders", os.O_RDONLY | os.O_CREAT, 0o600, None)
    LIBC.mq_receive(queue, ctypes.create_string_buffer(8192), 8192, None)


def terminals(is_slow=False):
    """A process waits for the output of a terminal, and who has that for the process's input."""
    near, far = os.openpty()
    start("job", lambda: rest() if is_slow else os.read(far, 1))
    os.close(far)
    call_me("expect")
    os.read(near, 1)


# Sockets


def datagrams_to(is_slow=False):
    """A process sends to a service whose queue is full, by a socket with another peer, which waits for it. The service
    waits for it too; in the twin the service sleeps."""
    near, far = socket.socketpair(socket.AF_UNIX, socket.SOCK_DGRAM)
    service = socket.socket(socket.AF_UNIX, socket.SOCK_DGRAM)
    service.bind("service.sock")
    begin("service", nothing, [near.fileno(), far.fileno()], is_slow)

    def wait():
        near.close()
        service.close()
        far.recv(1)

    start("peer", wait)
    far.close()
    service.close()
    call_me("sender")
    while True:
        near.sendto(b"x" * 1000, "service.sock")


def datagram_pair(is_slow=False):
    """Two with a pair of datagram sockets, each waits for the other. One has a limit that ends no wait: recvmmsg looks
    at it only after a message."""
    near, far = socket.socketpair(socket.AF_UNIX, socket.SOCK_DGRAM)

    def wait():
        near.close()
        rest() if is_slow else far.recv(1)

    start("peer", wait)
    far.close()
    call_me("taker")
    data = ctypes.create_string_buffer(100)
    vector = (ctypes.c_ulong * 2)(ctypes.addressof(data), 100)
    message = (ctypes.c_ulong * 8)(0, 0, ctypes.addressof(vector), 1)
    LIBC.recvmmsg(near.fileno(), message, 1, 0, (ctypes.c_long * 2)(1, 0))


def client(work, is_slow):
    """Starts a client, which works at its end of a connection over TCP, or sleeps. Returns the other end."""
    with socket.create_server(("127.0.0.1", 0)) as listener:
        near = socket.create_connection(listener.getsockname())
        far = listener.accept()[0]

    def wait():
        far.close()
        rest() if is_slow else work(near)

    start("client", wait)
    near.close()
    call_me("server")
    return far


def tcp_polls(is_slow=False):
    """A server and a client poll at both ends of a connection for what neither sends. The kernel has no timer for it,
    so no limit of it comes."""
    far = client(lambda near: select.select([near], [], []), is_slow)
    select.select([far], [], [])


def tcp_limit(is_slow=False):
    """A server and a client send to each other before they receive, and poll for room. The kernel asks for that again
    and again, and TCP_USER_TIMEOUT would end it."""

    def send(own):
        own.setblocking(False)
        with contextlib.suppress(BlockingIOError):
            while True:
                own.send(FULL)
        select.select([], [own], [])

    send(client(send, is_slow))


def backlog(is_slow=False):
    """A client connects to a service whose queue is full, which waits for the client. The kernel gives up in time."""
    listener = socket.socket()
    listener.bind(("127.0.0.1", 0))
    listener.listen(0)
    address = listener.getsockname()
    reading, writing = os.pipe()

    def connect():
        listener.close()
        os.close(reading)
        them = [socket.socket() for _ in range(5)]
        for it in them:
            it.connect(address)

    start("client", connect)
    os.close(writing)
    call_me("service")
    rest() if is_slow else os.read(reading, 1)


def talk(is_slow):
    """A service and its client, each of which waits for the other one, over TCP and over a pair of sockets."""
    listener = socket.socket()
    listener.bind(("127.0.0.1", 0))
    listener.listen(4)
    near, far = socket.socketpair()

    def ask():
        it = socket.create_connection(listener.getsockname())
        listener.close()
        near.close()
        it.settimeout(None)
        rest() if is_slow else select.select([it, far], [], [])

    start("client", ask)
    far.close()
    call_me("service")
    it = listener.accept()[0]
    listener.close()
    select.select([it, near], [], [])


def other_network(is_slow=False):
    """The same in a network namespace of their own, which shows none of its sockets to others."""

    def work():
        LIBC.unshare(0x40000000)  # CLONE_NEWNET
        os.system("ip link set lo up")
        talk(is_slow)

    start("inside", work)
    call_me("outside")
    os.wait()


def two_networks(is_slow=False):
    """A client in one network namespace, and its service in another one. Who is at the other end isn't seen."""
    ready, wait = os.pipe()

    def serve():
        LIBC.unshare(0x40000000)
        os.write(wait, b"x")
        time.sleep(0.5)
        os.system("ip addr add 10.9.9.1/24 dev far; ip link set far up")
        listener = socket.socket()
        listener.bind(("10.9.9.1", 7000))
        listener.listen(4)
        it = listener.accept()[0]
        listener.close()
        rest() if is_slow else it.recv(1)

    pid = start("service", serve)
    os.read(ready, 1)
    os.system(f"ip link add near type veth peer name far; ip link set far netns {pid};"
              "ip addr add 10.9.9.2/24 dev near; ip link set near up")
    time.sleep(1)
    call_me("client")
    it = socket.create_connection(("10.9.9.1", 7000))
    it.settimeout(None)
    it.recv(1)


# Locks of files


def lock(handle, kind, first, length, command=OFD, whence=0):
    fcntl.fcntl(handle, command, struct.pack("=hhxxxxqqixxxx", kind, whence, first, length, 0))


def open_file():
    return os.open("a", os.O_RDWR | os.O_CREAT)


def ranges(is_slow=False):
    """Two have a range of a file each, by open files of their own, and want the other one's."""

    def take(mine, other, is_resting):
        it = open_file()
        lock(it, WRITE, mine, 100)
        time.sleep(0.5)
        rest() if is_resting else lock(it, WRITE, other, 100)

    start("left", take, 0, 100, False)
    start("right", take, 100, 0, is_slow)
    call_me("waiter")
    os.wait()


def upgrade(is_slow=False):
    """Two share a lock, and one of them wants it for itself. Its own lock isn't in its way."""
    begin("holder", lambda: lock(open_file(), READ, 0, 100), [], is_slow)
    call_me("editor")
    time.sleep(0.5)
    it = open_file()
    lock(it, READ, 0, 50)
    lock(it, WRITE, 0, 100)


def open_readers(is_slow=False):
    """A writer waits for two readers, whose locks look the same. One waits for the writer, the other one sleeps."""
    begin("reader", lambda: lock(open_file(), READ, 0, 100), [], is_slow)
    begin("copier", lambda: lock(open_file(), READ, 0, 100), [], True)
    call_me("writer")
    time.sleep(0.5)
    lock(open_file(), WRITE, 0, 100)


def heirs(is_slow=False):
    """A reader has locked a file twice, and its child, which sleeps, has inherited one of both. A writer waits for
    both, and the reader for the writer."""

    def read():
        handles = [locked("a", fcntl.LOCK_SH) for _ in range(2)]
        if os.fork() == 0:
            call_me("heir")
            os.close(handles[0])
            rest()
        os.close(handles[1])

    begin("reader", read, [], is_slow)
    call_me("writer")
    time.sleep(0.5)
    locked("a")


def two_jobs(take, has_end, is_slow):
    """Two jobs take two locks in two orders, each with what takes one at a descriptor. The first one has a helper, to
    which it hands on its open file. The helper sleeps, or it waits for the job."""

    def job(first, second, is_resting, has_helper):
        it = os.open(first, os.O_RDWR | os.O_CREAT)
        take(it)
        reading, writing = os.pipe()
        if has_helper:
            start("helper", lambda: (os.close(writing), os.read(reading, 1)) if has_end else rest())
        time.sleep(2)
        rest() if is_resting else locked(second)

    start("export", job, "a", "b", False, True)
    time.sleep(0.7)
    start("prune", job, "b", "a", is_slow, False)
    call_me("cron")
    os.wait()


def take_by_another(handle):
    """Takes a lock by a process that ends, as a shell does with the command flock."""
    os.waitpid(start("flock", fcntl.flock, handle, fcntl.LOCK_EX), 0)


def shared_lock(is_slow=False):
    """Two jobs take two locks in two orders. Who took them has ended, and a helper of one job shares its lock, and
    sleeps. In the twin the other job sleeps too."""
    two_jobs(take_by_another, False, is_slow)


def shared_lock_all(is_slow=False):
    """The same, where the helper waits for its job."""
    two_jobs(take_by_another, True, is_slow)


def lock_taker(is_slow=False):
    """The same, where each job took its lock itself, and a helper shares that, and sleeps."""
    two_jobs(lambda it: fcntl.flock(it, fcntl.LOCK_EX), False, is_slow)


def from_here(is_slow=False):
    """One wants a range that begins where it stands in the file, as `lockf` of C does. Who has one waits for it."""
    begin("holder", lambda: lock(open_file(), WRITE, 50, 10, SETLKW), [], is_slow)
    call_me("editor")
    time.sleep(0.5)
    it = open_file()
    os.lseek(it, 50, os.SEEK_SET)
    lock(it, WRITE, 0, 5, SETLKW, os.SEEK_CUR)


# Children


def ignored(is_slow=False):
    """A parent ignores the end of its children, so `wait` waits for all of them. One waits for the parent, and the
    other one sleeps. In the twin both sleep."""
    signal.signal(signal.SIGCHLD, signal.SIG_IGN)
    begin("first", nothing, [], is_slow)
    begin("second", nothing, [], True)
    call_me("parent")
    os.wait()


def container(is_slow=False):
    """The first process of a container waits for a child by its number there. The child waits for it."""

    def run():
        LIBC.unshare(0x20000000)  # CLONE_NEWPID
        if os.fork() == 0:
            call_me("init")
            os.waitpid(begin("job", nothing, [], is_slow), 0)
        os.wait()

    start("runtime", run)
    call_me("engine")
    os.wait()


def group(is_slow=False):
    """A parent waits for a child of a group, which waits for the parent. Beside it is a child that has ended, and one
    that sleeps."""
    start("gone", os.getpid)
    pid = begin("first", lambda: os.setpgid(0, 0), [], is_slow)
    begin("other", nothing, [], True)
    call_me("parent")
    time.sleep(0.5)
    os.waitpid(-pid, 0)


def by_descriptor(is_slow=False):
    """A parent waits for a child by a descriptor of it."""
    pid = begin("child", nothing, [], is_slow)
    call_me("parent")
    os.waitid(os.P_PIDFD, os.pidfd_open(pid), os.WEXITED)


def stopped(is_slow=False):
    """A parent waits for a child that is stopped. In the twin the child sleeps."""
    pid = start("child", lambda: rest() if is_slow else os.kill(os.getpid(), signal.SIGSTOP))
    call_me("parent")
    os.waitpid(pid, 0)


def asks(is_slow=False):
    """A shell waits for any of its children, of which one waits for the shell, and one is the collector itself. In the
    twin the first one sleeps."""
    begin("job", nothing, [], is_slow)
    call_me("shell")
    time.sleep(2)
    shell, pid = str(os.getpid()), os.fork()
    if pid == 0:
        os.execv(sys.executable, [sys.executable, sys.argv[2], "--pid", shell, "--seconds", sys.argv[3]])
    while os.wait()[0] != pid:
        pass
    os._exit(0)


def captured(is_slow=False):
    """A process waits for the output of its child, which waits for itself. In the twin it waits with a limit, and ends
    the child then."""
    (reading, writing), own = os.pipe(), os.pipe()
    child = start("report", lambda: (os.close(reading), os.read(own[0], 1)))
    for it in (writing, *own):
        os.close(it)
    call_me("parent")
    if not select.select([reading], [], [], 600 if is_slow else None)[0]:
        os.kill(child, signal.SIGKILL)


BUILD = """mkfifo jobs
sleep 600 &
{server} < jobs &
exec 3> jobs
echo first >&3
wait $!
"""


def one_child(is_slow=False, shell="bash"):
    """A shell waits for its server, which reads a FIFO that the shell has open. Another child of it sleeps, and isn't
    waited for. In the twin the server sleeps too."""
    os.execvp(shell, [shell, "-c", BUILD.format(server="sleep 600" if is_slow else "(read -r job; read -r job)")])


def one_child_dash(is_slow=False):
    """The same with a shell that waits for a signal."""
    one_child(is_slow, "dash")


SERVER = "(read -r job; read -r job) <&3"


def in_shell(script):
    os.execvp("bash", ["bash", "-c", f"mkfifo jobs; exec 3<> jobs; {script}; true"])


def front(is_slow=False):
    """A shell runs its server in the foreground, which reads a FIFO that the shell has open, and a `sleep` beside it. In
    the twin the server is beside it, and the `sleep` in the foreground."""
    in_shell(f"{SERVER} & sleep 600 3>&-" if is_slow else f"sleep 600 3>&- & {SERVER}")


def front_tee(is_slow=False):
    """A shell waits for its `sleep`, and has begun one after it that writes what the shell says."""
    in_shell("sleep 600 3>&- & job=$!; exec > >(cat 3>&-); wait $job")


def front_reset(is_slow=False):
    """A shell waits for its `sleep`, and has begun a server before, which doesn't ignore SIGINT any more."""
    server = "env --default-signal=INT bash -c 'read -r job; read -r job' <&3"
    in_shell(f"{server} & sleep 600 3>&- & wait $!")


# What the kernel keeps nothing of


def semaphores(is_slow=False):
    """Two take two semaphores of System V in two orders."""
    them = LIBC.semget(0, 2, 0o1600)
    for at in range(2):
        LIBC.semctl(them, at, 16, 1)  # SETVAL

    def take(first, second, is_resting):
        LIBC.semop(them, struct.pack("HhH", first, -1, 0), 1)
        time.sleep(0.5)
        rest() if is_resting else LIBC.semop(them, struct.pack("HhH", second, -1, 0), 1)

    start("left", take, 0, 1, False)
    start("right", take, 1, 0, is_slow)
    call_me("waiter")
    os.wait()
    LIBC.semctl(them, 0, 0)  # IPC_RMID


def full(is_slow=False):
    """A server sends a file to a client that doesn't read, since it sends as well."""
    with open("big", "wb") as file:
        file.write(FULL)
    near, far = socket.socketpair()

    def send():
        near.close()
        rest() if is_slow else far.sendall(FULL)

    start("client", send)
    far.close()
    call_me("server")
    os.sendfile(near.fileno(), os.open("big", os.O_RDONLY), 0, len(FULL))


def deep(is_slow=False):
    """A process makes a file in a file system that is frozen, deep in the kernel, and another one waits for its pipe.
    It wants root. In the twin the file is made in time, and the process sleeps."""
    os.mkdir("disk")
    os.system("truncate -s 16M image; mkfs.ext4 -q image; mount -o loop image disk")
    reading, writing = os.pipe()

    def make():
        os.close(reading)
        if is_slow:
            rest()
        os.system("fsfreeze --freeze disk")
        os.open("disk/file", os.O_CREAT)

    start("maker", make)
    os.close(writing)
    call_me("reader")
    os.read(reading, 1)


# A `sleep` that has inherited what others wait at


def keep_asleep(*handles):
    """Starts the program `sleep`, which inherits descriptors."""
    return subprocess.Popen(["sleep", "600"], pass_fds=handles)


def sleeper(is_slow=False):
    """Two processes wait for each other's word, and a `sleep` has all ends of their pipes. In the twin one of them has
    ended, so that the other one reads the end of its input once the `sleep` has ended too."""
    (a_read, a_write), (b_read, b_write) = os.pipe(), os.pipe()
    keep_asleep(a_read, a_write, b_read, b_write)

    def side(own, *others):
        for it in others:
            os.close(it)
        os.read(own, 1)

    first = start("left", side, a_read, a_write, b_read)
    if not is_slow:
        start("right", side, b_read, b_write, a_read)
    for it in (a_read, a_write, b_read, b_write):
        os.close(it)
    call_me("waiter")
    os.waitpid(first, 0)


def sleeper_named(is_slow=False):
    """The same with a program that only is called like that, and writes after its rest."""
    (a_read, a_write), (b_read, b_write) = os.pipe(), os.pipe()

    def rest_and_say():
        rest()
        os.write(a_write, b"x")

    def side(own, *others):
        for it in others:
            os.close(it)
        os.read(own, 1)

    start("sleep", rest_and_say)
    first = start("left", side, a_read, a_write, b_read)
    start("right", side, b_read, b_write, a_read)
    for it in (a_read, a_write, b_read, b_write):
        os.close(it)
    call_me("waiter")
    os.waitpid(first, 0)


def sleeper_pair(is_slow=False):
    """Two processes with a socket pair wait for each other, and a `sleep` has both ends too. In the twin one of them
    has ended, so that the other one reads the end once the `sleep` has ended too."""
    left, right = socket.socketpair()
    keep_asleep(left.fileno(), right.fileno())

    def side(own, other):
        other.close()
        own.recv(1)

    first = start("left", side, left, right)
    if not is_slow:
        start("right", side, right, left)
    left.close()
    right.close()
    call_me("waiter")
    os.waitpid(first, 0)


def sleeper_lock(is_slow=False):
    """A job waits for a lock whose taker has ended, which the holder of a pipe shares with a `sleep`, and the holder
    waits for the job's word. In the twin the holder has closed the file, so that the lock goes with the `sleep`."""
    reading, writing = os.pipe()
    file = os.open("a", os.O_RDWR | os.O_CREAT)
    subprocess.run(["flock", str(file)], pass_fds=[file], check=True)
    keep_asleep(file)

    def hold():
        os.close(writing)
        if is_slow:
            os.close(file)
        os.read(reading, 1)

    start("holder", hold)
    os.close(reading)
    os.close(file)
    call_me("job")
    locked("a")


# A build that is out of tokens


def tokens(is_slow=False, how="inherits"):
    """Three parts of a build share a pipe of two tokens, and each needs two. A shell that says how far it is has the
    pipe and the build's lock as well, and only uses them by mistake. In the twin there are four tokens."""
    for name in ("build", "lib", "app", "docs", "progress", "nightly"):
        os.symlink("build.sh", name)
    build = subprocess.Popen(["./build", how, "slow" if is_slow else "stuck"])
    time.sleep(0.5)
    subprocess.Popen(["./nightly"])
    call_me("cron")
    os.waitpid(build.pid, 0)


def tokens_closed(is_slow=False):
    """The same with a shell that has neither."""
    tokens(is_slow, "closed")


# Processes that can't be read, of another user


FUTEX = 202  # the number of its call on x86-64
of_process_1 = []  # the ends of pipes that it has


def begin_as_root(story, is_slow):
    """What process 1 does before a story, which the user who reads can't see."""
    if story == "user_given" and is_slow:
        of_process_1.extend((*os.pipe(), *os.pipe()))
    if story == "user_orphan" and not is_slow:
        start("elder", rest)
        time.sleep(0.1)


def wait_for_each_other(a_read, a_write, b_read, b_write, keeps_ends):
    """Starts two processes that wait for each other's word."""

    def side(own, *others):
        for it in others:
            os.close(it)
        os.read(own, 1)

    first = start("left", side, a_read, a_write, b_read)
    start("right", side, b_read, b_write, a_read)
    for it in () if keeps_ends else (a_read, a_write, b_read, b_write):
        os.close(it)
    call_me("waiter")
    os.waitpid(first, 0)


def user_given(is_slow=False):
    """Two processes wait for each other, by pipes that their parent made. In the twin process 1 made them, and can write
    to both; the parent has inherited them, and has them still."""
    become_user()
    wait_for_each_other(*(of_process_1 if is_slow else (*os.pipe(), *os.pipe())), is_slow)


def user_orphan(is_slow=False):
    """The same beside a process of root that began before. In the twin it began later, as a child of a child of theirs
    that has ended, and can write to both."""
    handles = (*os.pipe(), *os.pipe())
    if is_slow:
        start("middle", lambda: start("younger", rest))
        os.wait()
    become_user()
    wait_for_each_other(*handles, False)


def user_shared(is_slow=False):
    """Two workers wait at words of the memory that they share with who has started them. In the twin one of them works
    for a long time instead. Process 1 can't be read, and might have that memory too."""
    become_user()
    signal.signal(signal.SIGINT, signal.SIG_DFL)
    memory = mmap.mmap(-1, 4096)
    address = ctypes.addressof(ctypes.c_char.from_buffer(memory))

    def wait_at(word):
        LIBC.syscall(FUTEX, ctypes.c_void_p(address + word), 0, 0, None)  # FUTEX_WAIT

    first = start("first", wait_at, 0)
    start("second", *((rest,) if is_slow else (wait_at, 64)))
    call_me("shop")
    os.waitpid(first, 0)


# Runtimes of which the kernel shows the outside


def script(is_slow=False):
    """A service in Java with a script, which waits until somebody reads what it writes. No thread of the JVM's own ever
    does that."""
    os.execvp("java", ["java", "-Xint", "-XX:+UseSerialGC", "Service", "slow" if is_slow else "stuck"])


def ranks(is_slow=False):
    """A rank of MPI waits for a helper over a FIFO, the helper for another rank, and that one, awake, for the first."""
    for name in ("answer", "question"):
        os.mkfifo(name)

    def help_one():
        answer, question = os.open("answer", os.O_WRONLY), os.open("question", os.O_RDONLY)
        rest() if is_slow else os.write(answer, os.read(question, 1))

    start("helper", help_one)
    os.execvp("mpirun", ["mpirun", "--allow-run-as-root", "--oversubscribe", "-n", "2", "./ranks"])


def coprocess(is_slow, trap=""):
    """A shell reads what its coprocess answers, which keeps that until it has more. A job in the background sleeps."""
    answer = "while read -r line; do sleep 600; done" if is_slow else "sed s/$/0/"
    script = f"coproc {{ {answer}; }}; sleep 600 & {trap} echo 1 >&${{COPROC[1]}}; read -r line <&${{COPROC[0]}}; true"
    os.execvp("bash", ["bash", "-c", script])


def coprocess_trap(_):
    """As before, and once the job in the background ends, a trap writes what ends the wait."""
    coprocess(False, "trap 'exec {COPROC[1]}>&-' CHLD;")


def coprocess_brought(_):
    """As before, where the shell has read the trap from a file at its start."""
    with open("settings", "w", encoding="utf-8") as file:
        file.write("trap 'exec {COPROC[1]}>&-' CHLD\n")
    os.environ["BASH_ENV"] = "./settings"
    coprocess(False)
