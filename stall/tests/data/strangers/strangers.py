"""What somebody may run who wants a look at a machine to fail: strangers.py NAME [WORD..]. Each prints a line when it
is there, and stays. They end with whoever has started them, and hold next to no memory or room of a disk themselves.
"""
import ctypes
import mmap
import os
import resource
import signal
import socket
import sys
import threading
import time
from typing import Any, List

HUGE = 20 << 30
LIBC = ctypes.CDLL(None, use_errno=True)
SET_NAME = 15  # PR_SET_NAME
ALL: List[Any] = []  # what a process keeps as long as it lives
NEW_USER, NEW_MOUNTS, DETACHED, WITH_PARENT = 0x10000000, 0x20000, 2, 1
END_HEADERS = b"HTTP/1.0 200 OK\r\nContent-Type: text/plain\r\n\r\n"
# Beginnings of answers that promise more than they have, lead back here, or speak of something else.
ODD_HEADERS = {
    "length": b"HTTP/1.1 200 OK\r\nContent-Length: 1000000000000000000\r\n\r\ngoroutine 1 [select]:\n",
    "chunks": b"HTTP/1.1 200 OK\r\nTransfer-Encoding: chunked\r\n\r\nffffffffffffffff\r\ngoroutine 1 [select]:\n",
    "redirect": b"HTTP/1.1 302 Found\r\nLocation: /debug/pprof/goroutine?debug=2\r\n\r\n",
    "switch": b"HTTP/1.1 101 Switching Protocols\r\nUpgrade: x\r\n\r\n"}


def in_memory(text: bytes, size: int = 0, name: str = "cmh_state") -> None:
    """Has a file in memory open, as a process has that answers a signal."""
    number = os.memfd_create(name)
    os.write(number, text)
    os.ftruncate(number, max(size, len(text)))


def large() -> None:
    """A file in memory of 20 GB, of which next to nothing is there."""
    signal.signal(signal.SIGUSR1, lambda *_: os._exit(9))
    in_memory(b"SIGUSR1", HUGE)


def text(word: str) -> None:
    """A file in memory that names no signal, or one that the process has no handler of."""
    in_memory(word.encode())


def plain(path: str) -> None:
    """A plain file that is called as a file in memory is."""
    signal.signal(signal.SIGUSR1, lambda *_: os._exit(9))
    enter_mounts(path)
    name = f"{path}/memfd:cmh_state (deleted)"
    with open(name, "w", encoding="ascii") as file:
        file.write("SIGUSR1")
    os.open(name, os.O_RDONLY)
    leave_mounts(path)


def fifo(path: str) -> None:
    """A FIFO that is called as a file in memory is. It is never written to."""
    enter_mounts(path)
    os.mkfifo(f"{path}/memfd:cmh_state x")
    os.open(f"{path}/memfd:cmh_state x", os.O_RDWR)
    leave_mounts(path)


def enter_mounts(path: str) -> None:
    """Has a file system of its own at a path, which nobody else sees."""
    if LIBC.unshare(NEW_MOUNTS if os.geteuid() == 0 else NEW_USER | NEW_MOUNTS) \
            or LIBC.mount(b"none", b"/", None, 1 << 18 | 1 << 14, None) \
            or LIBC.mount(b"none", path.encode(), b"tmpfs", 0, None):
        raise OSError(ctypes.get_errno(), "mount")


def leave_mounts(path: str) -> None:
    """Takes it away, so that its files are called as if it were the root."""
    if LIBC.umount2(path.encode(), DETACHED):
        raise OSError(ctypes.get_errno(), "umount2")


def grows(path: str) -> None:
    """A file of states of 20 GB, once a state is asked for."""
    in_memory(b"SIGUSR1")
    signal.signal(signal.SIGUSR1, lambda *_: None)
    signal.pthread_sigmask(signal.SIG_BLOCK, [signal.SIGUSR1])
    os.close(os.open(path, os.O_WRONLY | os.O_CREAT, 0o600))

    def grow() -> None:
        signal.sigwait([signal.SIGUSR1])
        os.truncate(path, HUGE)

    threading.Thread(target=grow, daemon=True).start()


def record() -> None:
    """A record of a rank that says of the world that it has as many ranks as a number can say."""
    sys.path.insert(0, os.path.join(os.path.dirname(os.path.realpath(__file__)), "../../.."))
    import cmh_mpi_reader as reader
    numbers = {"pid": os.getpid(), "rank": 0, "size": 4, "level": 0}
    head = reader.HEAD.pack(reader.MAGIC, *[0] * 2 * reader.WORDS, *[numbers.get(it, 0) for it in reader.NUMBERS],
                            *[0] * 2 * reader.OWN)
    comm = reader.COMM.pack(1, 1, 1, 0, 0, 0x7fffffff, 0, 0, 0, 0, 0, 0, 0, *[b""] * reader.LAST)
    in_memory(head + comm * reader.COMMS, HUGE, "cmh_mpi")


def serve(kind: str) -> None:
    """A server that answers a request never, without an end, or a byte each second."""
    server = socket.create_server(("127.0.0.1", 0))
    print(server.getsockname()[1], flush=True)
    while True:
        threading.Thread(target=answer, args=(server.accept()[0], kind), daemon=True).start()


def answer(connection: socket.socket, kind: str) -> None:
    piece = b"goroutine 1 [select]:\n" * 3000
    try:
        if kind not in ("silent", "line"):
            connection.sendall(b"HTTP/1.0 200 OK\r\n" if kind == "headers" else ODD_HEADERS.get(kind, END_HEADERS))
        while kind == "line":
            connection.sendall(b"HTTP/1.1 200 " * 5000)
        while kind == "endless":
            connection.sendall(piece)
        while kind in ("drips", "headers"):
            connection.sendall(b"X-More: 1\r\n" if kind == "headers" else b"g")
            time.sleep(0.2)
        time.sleep(600)
    except OSError:
        pass


def names(pid: str, *words: str) -> None:
    """A process whose name, words, threads and files have lines as a state has them, of another process."""
    row = f'\ncmh-linux {{"pid": {pid}, "ppid": 1, "state": "Z", "threads": []}}\n'
    if not words:
        os.execv(sys.executable, [row, __file__, "names", pid, row])
    keep = open(os.memfd_create(row[:200]), "wb")  # noqa: SIM115
    threading.Thread(target=name_thread, args=(row, 600), daemon=True).start()
    name_thread(f"\n{pid} (x) Z 1")
    assert keep


def name_thread(name: str, seconds: int = 0) -> None:
    """Names the thread that runs this, and has it sleep."""
    LIBC.prctl(SET_NAME, name.encode()[:15])
    time.sleep(seconds)


def maps() -> None:
    """As many mappings as the kernel lets a process have."""
    try:
        ALL.extend(mmap.mmap(-1, mmap.PAGESIZE, prot=mmap.PROT_READ | number % 2 * mmap.PROT_WRITE)
                   for number in range(1 << 17))
    except OSError:
        del ALL[-100:]


def files() -> None:
    """As many descriptors as the kernel lets a process have, up to 100,000."""
    most = min(resource.getrlimit(resource.RLIMIT_NOFILE)[1], 100_000)
    resource.setrlimit(resource.RLIMIT_NOFILE, (most, most))
    ALL.extend(os.dup(0) for _ in range(most - 100))


def leader() -> None:
    """A process whose first thread has ended, and another one goes on."""
    def stay() -> None:
        print("there", flush=True)
        time.sleep(600)

    threading.Thread(target=stay).start()
    LIBC.pthread_exit(None)


def silent() -> None:
    """One that has a handler of the signal, and never comes to run it."""
    in_memory(b"SIGUSR1")
    signal.signal(signal.SIGUSR1, lambda *_: None)
    print("there", flush=True)
    os.kill(os.getpid(), signal.SIGSTOP)


def jvm(kind: str, library: str) -> None:
    """A process that has the library of a JVM, and answers who attaches never, or without an end."""
    with open(library, "r+b") as file:
        keep = mmap.mmap(file.fileno(), 0)
    os.umask(0o077)
    path = f"/tmp/.java_pid{os.getpid()}"
    server = socket.socket(socket.AF_UNIX)
    server.bind(path)
    server.listen()
    print("there", flush=True)
    while keep:
        connection = server.accept()[0]
        if kind == "endless":
            threading.Thread(target=flood, args=(connection,), daemon=True).start()


def flood(connection: socket.socket) -> None:
    try:
        connection.sendall(b"0\n")
        while True:
            connection.sendall(b'"main" #1 prio=5\n' * 4000)
    except OSError:
        pass


if __name__ == "__main__":
    LIBC.prctl(WITH_PARENT, signal.SIGKILL)
    globals()[sys.argv[1]](*sys.argv[2:])
    print("there", flush=True)
    while True:
        signal.pause()
