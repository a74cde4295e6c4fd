"""A folder that has a stall. Somebody else may have filled it, so only what lies in it is read and written: plain
files, by the open folder, and nothing through a link."""
from __future__ import annotations

import contextlib
import errno
import os
import pwd
import shlex
import stat
import tempfile
from typing import Dict, Iterator, Optional, Sequence, Set, Tuple

from .files import (Failure, NoRoom, Refusal, check_size, failure_of, read_pieces, say, shown, text_of_bytes,
                    write_texts)
from .start import SIGNALS

FOLDER = os.O_RDONLY | os.O_DIRECTORY | os.O_NOFOLLOW | os.O_CLOEXEC
FILE = os.O_RDONLY | os.O_NOFOLLOW | os.O_NONBLOCK | os.O_CLOEXEC  # (a FIFO isn't waited for)
OF_OTHERS = stat.S_IWGRP | stat.S_IWOTH
MARK = "\ufeff"  # that some programs write before a text
NOWHERE = -1  # the number of a folder that couldn't be made
MEMORY = "/dev/shm"  # where there is room in memory if no disk has any
KINDS = {stat.S_IFLNK: "a link", stat.S_IFDIR: "a folder", stat.S_IFIFO: "a FIFO", stat.S_IFCHR: "a device",
         stat.S_IFBLK: "a device", stat.S_IFSOCK: "a socket", stat.S_IFREG: "a file"}


class Folder:
    """An open folder. `path` is what people call it. Its files are named by paths too, as people see them, which begin
    with that; each is a plain file right in it. Raises Refusal if somebody else may have a hand in it."""

    def __init__(self, path: str, inside: Optional[Folder] = None) -> None:
        self.path = path.rstrip("/") or "/"  # (behind a slash a link would be followed)
        self.held: Dict[str, str] = {}  # the texts of this command by name, wherever they could be written
        self.unkept: Set[str] = set()  # the names of those that couldn't be written
        self.fault: Optional[NoRoom] = None  # why
        name = self.path if inside is None else inside.name_of(path)
        number: Optional[int] = None if inside is None else inside.number
        try:
            kind = kind_of(os.stat(name, dir_fd=number, follow_symlinks=False))
            if kind != "a folder":
                raise Refusal(f"{shown(self.path)}: it is {kind}, and no folder")
            self.number: int = os.open(name, FOLDER, dir_fd=number)
        except OSError as error:
            raise failure_of(self.path, error) from error
        try:
            check_folder(self.path, os.fstat(self.number))
        except Refusal:
            self.close()
            raise

    def __enter__(self) -> Folder:
        return self

    def __exit__(self, *_: object) -> None:
        self.close()

    def close(self) -> None:
        os.close(self.number)

    def at(self, name: str) -> str:
        """Returns the path of a name in it."""
        return f"{self.path}/{name}"

    def name_of(self, path: str) -> str:
        """Returns the name of a path in it. Raises Refusal if that is elsewhere."""
        name = path[len(self.path) + 1:]
        if path != self.at(name) or name in ("", ".", "..") or "/" in name or "\0" in name:
            raise Refusal(f"{shown(path)}: it isn't the name of a file in {shown(self.path)}")
        return name

    def has(self, path: str) -> bool:
        """Whether anything of this name is there."""
        return self.name_of(path) in self.held or self.has_file(path)

    def has_file(self, path: str) -> bool:
        """Whether it is there as it is known here, and not held in memory alone."""
        name = self.name_of(path)
        with contextlib.suppress(OSError):
            os.stat(name, dir_fd=self.number, follow_symlinks=False)
            return name not in self.unkept
        return False

    def read_bytes(self, path: str) -> bytes:
        """Returns what a file has. Raises Refusal if it is no plain file, has another link, or grows meanwhile."""
        name = self.name_of(path)
        if name in self.held:
            return self.held[name].encode()
        try:
            check_file(path, os.stat(name, dir_fd=self.number, follow_symlinks=False))
            with open(os.open(name, FILE, dir_fd=self.number), "rb") as file:
                there = os.fstat(file.fileno())
                check_file(path, there)
                data = read_pieces(file, path)
        except OSError as error:
            raise failure_of(path, error) from error
        if len(data) > there.st_size:
            raise Refusal(f"{shown(path)}: it grows while it is read")
        return data

    def size(self, path: str) -> int:
        """Returns how many bytes a file says that it has, or 0 if it isn't there. Raises Refusal if it is too large."""
        with contextlib.suppress(OSError):
            there = os.stat(self.name_of(path), dir_fd=self.number, follow_symlinks=False)
            check_size(path, there)
            return there.st_size
        return 0

    def read_text(self, path: str) -> str:
        """Returns the text of a file, as `files.read_text` does. One that is held isn't copied."""
        text = self.held.get(self.name_of(path))
        if text is None or text.isspace() or not text:
            return text_of_bytes(self.read_bytes(path), path)
        return text[text.startswith(MARK):]

    def write(self, texts: Sequence[Tuple[str, str]]) -> None:
        """Writes several files, each a pair of path and text, in place of whatever has their names."""
        try:
            write_texts([(self.name_of(path), text) for path, text in texts], self.number)
        except Failure as failure:
            raise type(failure)(self.at(str(failure))) from failure

    def keep(self, texts: Sequence[Tuple[str, str]]) -> None:
        """Writes several files as `write` does. Without room for them they are held in memory alone, for this command:
        `fault` says why."""
        new = {self.name_of(path): text for path, text in texts}
        self.held.update(new)
        try:
            self.write(texts)
            self.unkept.difference_update(new)
        except NoRoom as fault:
            self.unkept.update(new)
            self.fault = fault

    def folder(self, name: str) -> Folder:
        """Returns the folder of a name in it, which is made if there is none."""
        try:
            with contextlib.suppress(FileExistsError):
                os.mkdir(name, 0o700, dir_fd=self.number)
        except OSError as error:
            raise failure_of(self.at(name), error) from error
        return Folder(self.at(name), self)

    def remove(self) -> None:
        """Removes it with the files in it."""
        with contextlib.suppress(OSError):
            for name in os.listdir(self.number):
                os.remove(name, dir_fd=self.number)
            os.rmdir(self.path)


class NewFolder(Folder):
    """A folder that this command makes: at a path, or with its last name where there is room. If that is nowhere, what
    it has is held in memory alone."""

    def __init__(self, path: str, is_exact: bool) -> None:
        self.path, self.number = path.rstrip("/"), NOWHERE
        self.held, self.unkept, self.fault = {}, set(), None
        with SIGNALS.hold():
            try:
                self.settle(make_folder(self.path, is_exact))
            except NoRoom as fault:
                self.move(fault)

    def settle(self, other: Folder) -> None:
        """Takes over an open folder that has all that this one has."""
        self.path, self.number, self.fault = other.path, other.number, None
        self.unkept.clear()

    def keep(self, texts: Sequence[Tuple[str, str]]) -> None:
        super().keep(texts)
        if self.fault is not None:
            with SIGNALS.hold():
                self.move(self.fault)

    def move(self, fault: NoRoom) -> None:
        """Moves to the first place that has room for all that it has."""
        for room in rooms():
            with contextlib.suppress(Failure):
                other = self.copy_in(room)
                self.remove()
                self.close()
                self.settle(other)
                say(f"{fault}: what is seen is kept in {shown(self.path)}")
                return
        self.fault = fault

    def copy_in(self, room: str) -> Folder:
        """Returns a new folder with all that this one has. Raises Failure, and leaves nothing, where that fails."""
        other = make_folder(f"{room}/{os.path.basename(self.path)}", False)
        try:
            other.write([(other.at(name), text) for name, text in self.held.items()])
        except Failure:
            other.remove()
            other.close()
            raise
        return other

    def write(self, texts: Sequence[Tuple[str, str]]) -> None:
        if self.number == NOWHERE:
            raise self.fault or NoRoom(shown(self.path))
        super().write(texts)

    def close(self) -> None:
        if self.number != NOWHERE:
            super().close()

    def remove(self) -> None:
        if self.number != NOWHERE:
            super().remove()


def rooms() -> Iterator[str]:
    """Yields where a folder is made if it can't be where it is wished."""
    with contextlib.suppress(OSError):
        yield tempfile.gettempdir()
    yield from (os.path.expanduser("~"), MEMORY)


def make_folder(path: str, is_exact: bool) -> Folder:
    """Makes a new folder, into which nobody else sees. Where its name is taken, a number makes it another one, unless
    it is to be exact."""
    name, number = path, 1
    while True:
        try:
            os.mkdir(name, 0o700)
            return open_new(name)
        except OSError as error:
            failure = failure_of(name, error)
            if is_exact and error.errno == errno.ENOENT:
                raise Failure(str(failure)) from error  # (a wrong word: nothing is seen yet that could be lost)
            if is_exact or error.errno != errno.EEXIST:
                raise failure from error
        number += 1
        name = f"{path}-{number}"


def open_new(name: str) -> Folder:
    """Opens a folder that has just been made. It goes again where that fails."""
    try:
        return Folder(name)
    except (Failure, Refusal):
        with contextlib.suppress(OSError):
            os.rmdir(name)
        raise


def kind_of(there: os.stat_result) -> str:
    return KINDS.get(stat.S_IFMT(there.st_mode), "something else")


def name_of_user(number: int) -> str:
    try:
        return pwd.getpwuid(number).pw_name
    except KeyError:
        return f"#{number}"  # (as sudo has users by their numbers: one of a container has no name)


def check_folder(path: str, there: os.stat_result) -> None:
    """Raises Refusal if somebody else can change what is in a folder."""
    word = shlex.quote(shown(path))
    if there.st_uid != os.geteuid():
        raise Refusal(f"{shown(path)}: it is of another user, {name_of_user(there.st_uid)}, who may change it "
                      f"meanwhile. Copy it, and name the copy: cp -r {word} mine")
    if there.st_mode & OF_OTHERS:
        raise Refusal(f"{shown(path)}: its group or others may write into it, and change it meanwhile. See that nobody "
                      f"has, and then: chmod go-w {word}")


def check_file(path: str, there: os.stat_result) -> None:
    """Raises Refusal if it isn't a file of one link: another one may be somewhere else, where it is somebody's."""
    if not stat.S_ISREG(there.st_mode):
        raise Refusal(f"{shown(path)}: it is {kind_of(there)}, and no plain file, so it isn't read")
    if there.st_nlink > 1:
        raise Refusal(f"{shown(path)}: it has another link, which may lie outside of the folder, so it isn't read")
    check_size(path, there)
