"""Files that are read and written whole, what people are shown, and what stops a tool: a refusal of its input, or a
failure."""
from __future__ import annotations

import contextlib
import errno
import os
import signal
import stat
import sys
import unicodedata
from typing import BinaryIO, Dict, Iterable, Iterator, List, Optional, Sequence, Tuple

from .start import SIGNALS, shortage

UNSEEN = {"Cc", "Cf", "Cs", "Zl", "Zp"}  # categories of characters that a terminal obeys, or that nobody sees
STREAMS = ("standard input", "standard output", "standard error")
TAKEN = "it is read too, or something else is written there"
MOST_OF_NAME, MOST_OF_TEXT, MOST_OF_LINE = 100, 800, 4000  # characters that people are shown; JSON keeps all
END = 20  # of these, as many are the last of what is shortened
# The errors of a disk that takes nothing, and of a folder that is closed to us or gone, or where no file can be opened.
FULL = {errno.ENOSPC, errno.EDQUOT, errno.EFBIG, errno.EROFS, errno.EIO}
NO_ROOM = {*FULL, errno.EACCES, errno.EPERM, errno.ENOENT, errno.ESTALE, errno.EMFILE, errno.ENFILE, errno.ENOMEM}
OF_SHELL = 128  # a shell adds this to the number of the signal that has ended its last command
MOST, MOST_TOGETHER = 128 << 20, 256 << 20  # bytes of a file that is read, and of all that people name at once
PIECE = 1 << 20
SIZES: Dict[str, int] = {}  # of the files that people have named, by their paths


class Refusal(Exception):
    """An input that is refused. Its text says in words what is wrong, and where."""


class Failure(Exception):
    """What stops a tool for another reason than its input. It has the status."""

    def __init__(self, text: str, status: int = 4) -> None:
        super().__init__(text)
        self.status = status


class NoRoom(Failure):
    """A file can't be written, as its folder is full, closed or gone."""


def cause_of(error: Exception) -> str:
    """Returns in words why the kernel refuses something."""
    return shortage(error) or getattr(error, "strerror", None) or str(error)


def failure_of(path: str, error: Exception) -> Failure:
    """Returns the failure of what was to be done with a file or a folder."""
    kind = NoRoom if getattr(error, "errno", None) in NO_ROOM else Failure
    return kind(f"{shown(path)}: {cause_of(error)}")


def signal_words(status: int) -> str:
    """Returns by which signal a command has ended, or one that a shell has run, or nothing. `status` is that of
    `subprocess`."""
    number = status - OF_SHELL if status > OF_SHELL else -status
    if number not in {*signal.Signals}:
        return ""
    return f"was killed by signal {number} ({signal.Signals(number).name}); the system's log may say why: dmesg"


# What people are shown


def shown(text: str, most: int = MOST_OF_TEXT) -> str:
    """Returns a text for people, of at most so many characters: its beginning and its end, if it has more."""
    return escaped(text if len(text) <= most else f"{text[:most - END]}..{text[-END:]}")


def short_name(name: str) -> str:
    """Returns a name for people, as it stands among others and in sentences."""
    return shown(name, MOST_OF_NAME)


def escaped(text: str) -> str:
    """Returns a text with what a terminal would obey, what nobody sees, and lone surrogates, as escapes."""
    if text.isprintable():
        return text
    return "".join(letter.encode("unicode_escape").decode() if unicodedata.category(letter) in UNSEEN else letter
                   for letter in text)


def say(text: str) -> None:
    """Writes lines to standard error. If that fails, nothing else changes."""
    lines = "".join(f"{shown(line, MOST_OF_LINE)}\n" for line in text.split("\n"))
    try:
        sys.stderr.write(lines)
        sys.stderr.flush()
    except (AttributeError, OSError, ValueError):  # (it is None if it was closed from the start)
        sys.stderr = open(os.devnull, "w", encoding="utf-8")  # so that nothing is written again at the end


def write_out(text: str) -> None:
    """Writes a text to standard output. Raises Failure if that fails."""
    if sys.stdout is None:
        raise Failure("standard output: it is closed")
    try:
        sys.stdout.buffer.write(text.encode("utf-8", "backslashreplace"))
        sys.stdout.buffer.flush()
    except OSError as error:
        sys.stdout = open(os.devnull, "w", encoding="utf-8")  # so that nothing is written again at the end
        raise failure_of("standard output", error) from error


# Reading


def read_bytes(path: str) -> bytes:
    """Returns what a file has, standard input for `-`. Raises Failure if it can't be read, and Refusal if it is too
    large, alone or with those that were read before."""
    try:
        data = read_input() if path == "-" else read_named(path)
    except (OSError, ValueError) as error:
        raise failure_of(path, error) from error
    SIZES[path] = len(data)
    if sum(SIZES.values()) > MOST_TOGETHER:
        raise Refusal(f"{shown(path)}: with the files before it, it has more than {MOST_TOGETHER:,} bytes")
    return data


def read_named(path: str) -> bytes:
    """Returns a file that our user has named, which may be a pipe."""
    with open(path, "rb") as file:
        check_size(path, os.fstat(file.fileno()))
        return read_pieces(file, path)


def read_input() -> bytes:
    if sys.stdin is None:
        raise Failure("standard input: it is closed")
    if sys.stdin.isatty():
        say(f"{os.path.basename(sys.argv[0])}: reading from the terminal, up to Ctrl-D")
    return read_pieces(sys.stdin.buffer, STREAMS[0])


def read_pieces(file: BinaryIO, path: str, most: int = MOST) -> bytes:
    """Returns an open file to its end, which a terminal says once. Raises Refusal if that is too much."""
    pieces: List[bytes] = []
    size = 0
    while size <= most:
        wanted = min(PIECE, most + 1 - size)
        pieces.append(file.read(wanted))
        size += len(pieces[-1])
        if len(pieces[-1]) < wanted:
            return b"".join(pieces)
    raise Refusal(f"{shown(path)}: it has more than {most:,} bytes")


def check_size(path: str, there: os.stat_result) -> None:
    """Raises Refusal if a file is too large. One that is sparse says more bytes than are stored of it."""
    if there.st_size > MOST:
        stored = there.st_blocks * 512
        sparse = f", and is sparse: {stored:,} of them are stored" if stored < there.st_size // 2 else ""
        raise Refusal(f"{shown(path)}: it has more than {MOST:,} bytes{sparse}")


def read_text(path: str) -> str:
    """Returns the text of a file. Raises Failure if it can't be read, and Refusal if it is empty, or no UTF-8."""
    return text_of_bytes(read_bytes(path), path)


def text_of_bytes(data: bytes, path: str) -> str:
    if not data or data.isspace():
        raise Refusal(f"{shown(path)}: it is empty")
    return decode(data, path)


def decode(data: bytes, path: str) -> str:
    """Returns the text of some bytes. Raises Refusal if they are no UTF-8."""
    try:
        return data.decode("utf-8-sig")
    except UnicodeDecodeError as error:
        raise Refusal(f"{shown(path)}: it is no UTF-8, from byte {error.start} on") from error


# Writing


def hindrance(path: str, others: Sequence[str]) -> str:
    """Returns why a file mustn't be written, or nothing. Only a new file or a regular one may be, and none of some
    others, which are read or written too, or of the standard streams."""
    if not os.path.basename(path):
        return "it names no file"
    if os.path.realpath(path) in [os.path.realpath(other) for other in others]:
        return TAKEN
    try:
        there = os.stat(path)
    except OSError:
        return ""  # (a new file; if it can't be made, that is said when it is written)
    if not stat.S_ISREG(there.st_mode):
        return "it is a folder" if stat.S_ISDIR(there.st_mode) else "it is no regular file"
    for name, known in [*known_files(others), *known_files(range(len(STREAMS)))]:
        if os.path.samestat(there, known):
            return f"it is {STREAMS[name]}" if isinstance(name, int) else TAKEN
    return ""


def known_files(names: Iterable[int | str]) -> Iterator[Tuple[int | str, os.stat_result]]:
    """Yields what is there of some files, each a path, or a number of an open one."""
    for name in names:
        with contextlib.suppress(OSError, ValueError):
            yield name, os.stat(name)


def write_texts(texts: Sequence[Tuple[str, str]], folder: Optional[int] = None) -> None:
    """Writes several files, each a pair of path and text. Nothing is in place before all of them are written whole, and
    nothing else stays: a signal waits for that. A path whose end is a link is that of the file behind the link. With
    `folder`, an open one, paths are names in it, and a link there is replaced. Raises Failure if one can't be written.
    """
    made: List[Tuple[str, str]] = []
    path = ""
    with SIGNALS.hold():
        try:
            for path, text in texts:
                target = os.path.realpath(path) if folder is None else path
                made.append((os.path.join(os.path.dirname(target), f".cmh-{os.urandom(8).hex()}"), target))
                write_new(*made[-1], text.encode(), folder)
            for name, path in made if not SIGNALS.number else ():
                os.replace(name, path, src_dir_fd=folder, dst_dir_fd=folder)
        except (OSError, ValueError) as error:
            raise failure_of(path, error) from error
        finally:
            for name, _ in made:
                with contextlib.suppress(OSError, ValueError):
                    os.remove(name, dir_fd=folder)


def write_new(name: str, target: str, data: bytes, folder: Optional[int]) -> None:
    """Writes a new file, with the mode of the one that it will replace. In an open folder nobody else may read it."""
    mode = mode_of(target) if folder is None else 0o600
    handle = os.open(name, os.O_WRONLY | os.O_CREAT | os.O_EXCL, 0o666 if mode is None else mode, dir_fd=folder)
    with open(handle, "wb") as file:
        if mode is not None:
            os.fchmod(handle, mode)
        file.write(data)


def mode_of(path: str) -> Optional[int]:
    try:
        return stat.S_IMODE(os.stat(path).st_mode)
    except FileNotFoundError:
        return None
