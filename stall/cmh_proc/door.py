"""Files, links and folders that aren't ours. A file is looked at before it is opened, so that no FIFO, device or socket
ever is, and no more is read than somebody asks for.
"""
from __future__ import annotations

import contextlib
import ctypes
import os
import re
import stat
import struct
from itertools import islice
from typing import Iterator, List

from .budget import BUDGET, Refused, size_in_words

PIECE = 1 << 20  # bytes that are read at once
PAGE = 1 << 12
MOST = 1 << 16  # bytes of a text of the kernel, where nothing else is said
MOST_PIDS = 1 << 22  # processes or threads, as many as the kernel has
KINDS = {stat.S_IFIFO: "a FIFO", stat.S_IFSOCK: "a socket", stat.S_IFDIR: "a folder", stat.S_IFLNK: "a link",
         stat.S_IFCHR: "a device", stat.S_IFBLK: "a device"}
# Links of the kernel's own, which lead to a file and not to a path that somebody has chosen.
OWN_LINK = re.compile(r"/proc/(?:self|thread-self|\d+)/(?:task/\d+/)?"
                      r"(?:exe|root|cwd|ns/\w+|fd/\d+|map_files/[0-9a-f]+-[0-9a-f]+)")
# What the kernel writes itself. Below root, cwd and fd stand files of others.
OWN_TEXT = re.compile(r"/proc/(?:(?:self|thread-self|\d+)/(?:task/\d+/)?(?:fdinfo/\d+|net/\w+|\w+)"
                      r"|(?!\d|self/|thread-self/)\w+(?:/\w[\w.-]*)*)|/sys(?:/\w[\w.:-]*)+")
WITH_PATH = getattr(os, "O_PATH", 0)  # (no other system has it, nor files of /proc)
LIBC = ctypes.CDLL(None, use_errno=True)
OPENAT2, BENEATH, IN_ROOT = 437, 8, 16  # how links on the way to a file are followed
OF_KERNEL = os.O_RDONLY | os.O_CLOEXEC | os.O_NOFOLLOW
PLAIN = os.O_RDONLY | os.O_CLOEXEC | os.O_NONBLOCK | os.O_NOCTTY


def open_plain(path: str, follow: bool = False) -> int:
    """Opens a plain file without waiting, once it has been looked at. A link at the end of its path is followed where
    it is the kernel's own, or where `follow` says that our user has named it. Raises Refused if it is no plain file."""
    is_followed = follow or OWN_LINK.fullmatch(path)
    flags = os.O_CLOEXEC | (0 if is_followed else os.O_NOFOLLOW) | (WITH_PATH or PLAIN)
    handle = os.open(path, flags)
    try:
        kind = stat.S_IFMT(os.fstat(handle).st_mode)
        if kind != stat.S_IFREG:
            raise Refused(f"it is {KINDS.get(kind, 'no plain file')}")
        return os.open(f"/proc/self/fd/{handle}", PLAIN) if WITH_PATH else os.dup(handle)
    finally:
        os.close(handle)


@contextlib.contextmanager
def plain(path: str, follow: bool = False) -> Iterator[int]:
    """Opens a plain file for a block."""
    handle = open_plain(path, follow)
    try:
        yield handle
    finally:
        os.close(handle)


def read(path: str, most: int, follow: bool = False) -> bytes:
    """Returns a plain file. Raises Refused if it is none, or larger than so many bytes."""
    with plain(path, follow) as handle:
        return rest(handle, most)


def head(path: str, size: int, follow: bool = False) -> bytes:
    """Returns the first bytes of a plain file."""
    with plain(path, follow) as handle:
        return at(handle, size, 0)


def at(handle: int, size: int, place: int) -> bytes:
    """Returns the bytes of an open file at a place: as many as are asked for, or those that are there."""
    BUDGET.spend(min(size, max(0, os.fstat(handle).st_size - place)))
    return os.pread(handle, size, place)


def rest(handle: int, most: int, place: int = 0) -> bytes:
    """Returns an open file from a place on. Raises Refused if that is more than so many bytes."""
    pieces: List[bytes] = []
    last = place + most
    if os.fstat(handle).st_size > last:
        raise Refused(larger_than(most))
    while place <= last:
        BUDGET.check()
        piece = os.pread(handle, min(PIECE, last + 1 - place), place)
        BUDGET.spend(len(piece))
        pieces.append(piece)
        place += len(piece)
        if not piece:
            return b"".join(pieces)
    raise Refused(larger_than(most))


def larger_than(most: int) -> str:
    return f"it is larger than {size_in_words(most)}"


def kernel_bytes(path: str, most: int = MOST) -> bytes:
    """Returns a file of /proc that the kernel itself writes. Raises Refused if it is larger than so many bytes."""
    BUDGET.check()
    pieces, left = [], most
    handle = open_kernel(path)
    try:
        piece = os.read(handle, MOST)
        while piece and left >= 0:
            pieces.append(piece)
            left -= len(piece)
            piece = os.read(handle, MOST)
    finally:
        os.close(handle)
    if left < 0:
        raise Refused(larger_than(most))
    return b"".join(pieces)


def kernel_text(path: str, most: int = MOST) -> str:
    """Returns the text of a file of /proc that the kernel itself writes. Raises Refused if it is too large."""
    return kernel_bytes(path, most).decode("utf-8", "backslashreplace")


def kernel_row(path: str) -> str:
    """Returns what a read of such a file gives: all of one that has a single row, as `stat`. It looks at no clock, so
    that who was held goes on where the time is over."""
    handle = open_kernel(path)
    try:
        data = os.read(handle, PAGE)
        return (data + os.read(handle, MOST) if len(data) == PAGE else data).decode("utf-8", "backslashreplace")
    finally:
        os.close(handle)


def field(status: str, name: str) -> str:
    """Returns a field of a file `status`, or nothing."""
    start = status.find(f"\n{name}:\t")
    return status[start + len(name) + 3:status.find("\n", start + 1)] if start >= 0 else ""


def open_kernel(path: str) -> int:
    if not OWN_TEXT.fullmatch(path):
        raise Refused("the kernel doesn't write it")
    return os.open(path, OF_KERNEL)


def link(path: str) -> str:
    """Returns what a link says."""
    return os.readlink(path)


def mode_of_link(path: str) -> int:
    """Returns the mode of a link itself: of a descriptor it says how that is open."""
    return os.lstat(path).st_mode


def status(path: str, follow: bool = False) -> os.stat_result:
    """Returns the status of what lies at a path, or of what a link of the kernel's own leads to."""
    return os.stat(path, follow_symlinks=follow or OWN_LINK.fullmatch(path) is not None)


def status_within(folder: str, path: bytes) -> os.stat_result:
    """Returns the status of what a process means by a path, by its folder in /proc: links on the way lead below its own
    root."""
    is_whole = path.startswith(b"/")
    base = os.open(f"{folder}/{'root' if is_whole else 'cwd'}", WITH_PATH | os.O_CLOEXEC)
    try:
        how = struct.pack("=QQQ", WITH_PATH | os.O_CLOEXEC, 0, IN_ROOT if is_whole else BENEATH)
        handle = LIBC.syscall(OPENAT2, base, path, how, len(how))
        if handle < 0:
            raise OSError(ctypes.get_errno(), os.strerror(ctypes.get_errno()))
        try:
            return os.fstat(handle)
        finally:
            os.close(handle)
    finally:
        os.close(base)


def tids(pid: int) -> List[int]:
    """Returns the threads of a process, in their order."""
    return sorted(map(int, names(f"/proc/{pid}/task", MOST_PIDS)))


def names(folder: str, most: int) -> List[str]:
    """Returns the names in a folder. Raises Refused if there are more than so many."""
    with os.scandir(folder) as entries:
        found = [entry.name for entry in islice(entries, most + 1)]
    if len(found) > most:
        raise Refused(f"there are more than {most} names in {folder}")
    return found
