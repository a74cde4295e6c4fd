"""Swaps what is in a folder for links and the like, and back again, until its standard input ends. Then all of that is
as it was.

usage: swap.py FOLDER OUTSIDE COUNT RESTLESS

OUTSIDE is a folder with a file `mine`, to which the links lead. COUNT is a file of 8 bytes, which has the number of
swaps that have been made. After RESTLESS of them it rests between them, so that a command may get far.
"""
import contextlib
import mmap
import os
import random
import select
import shutil
import struct
import sys

NEW = ".new"  # what is put in the place of something next
ROUNDS, LONGEST = 8, 0.02  # rounds between two rests, and the seconds of a rest


def clear(path):
    """Removes whatever has a path, if anything has."""
    try:
        os.remove(path)
    except FileNotFoundError:
        pass
    except OSError:
        shutil.rmtree(path, ignore_errors=True)


class Swapper:
    def __init__(self, outside, count, restless):
        self.outside, self.mine, self.count, self.restless, self.swaps = outside, f"{outside}/mine", count, restless, 0
        self.kept = {}
        for name in os.listdir("."):
            if os.path.isfile(name):
                with open(name, "rb") as file:
                    self.kept[name] = file.read()
        self.folders = [name for name in os.listdir(".") if os.path.isdir(name)]

    def put(self, name, make, *words):
        """Makes something new, and puts it in the place of a name. The command may put something there meanwhile."""
        with contextlib.suppress(OSError):
            clear(NEW)
            make(*words)
            try:
                os.rename(NEW, name)
            except OSError:
                clear(name)
                os.rename(NEW, name)
            self.swaps += 1
            struct.pack_into("Q", self.count, 0, self.swaps)

    def keep(self, name):
        """Puts a file back."""
        with open(NEW, "xb") as file:
            file.write(self.kept[name])

    def swap_files(self):
        for name in self.kept:
            for make, words in ((os.symlink, (self.mine, NEW)), (os.link, (self.mine, NEW)), (os.mkfifo, (NEW, 0o666)),
                                (os.symlink, (f"{self.outside}/none", NEW)), (os.mkdir, (NEW,))):
                self.put(name, make, *words)
                self.put(name, self.keep, name)

    def swap_folders(self):
        for name in self.folders:
            self.put(name, os.symlink, self.outside, NEW)
            self.put(name, os.mkfifo, NEW, 0o666)
            self.put(name, os.mkdir, NEW, 0o700)

    def swap_new(self):
        """The same of files that are being written, and have no name of theirs yet."""
        for name in os.listdir("."):
            if name.startswith(".cmh-"):
                self.put(name, os.symlink, self.mine, NEW)

    def run(self):
        while not select.select([0], [], [], random.random() * LONGEST * (self.swaps > self.restless))[0]:
            for _ in range(ROUNDS):
                self.swap_new()
                self.swap_files()
                self.swap_folders()
        for name in os.listdir("."):
            if name.startswith(".cmh-"):
                clear(name)


def main(folder, outside, path, restless):
    os.chdir(folder)
    with open(path, "r+b") as file, mmap.mmap(file.fileno(), 8) as count:
        Swapper(outside, count, int(restless)).run()


main(*sys.argv[1:])
