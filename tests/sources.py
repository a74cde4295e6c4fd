"""What scripts read off the checkout: its files, crates and wrong bodies, and what they write into its documents."""
from __future__ import annotations

import os
import re
from typing import Iterator

from harness import TOP, read, read_bytes, write


def files() -> list[str]:
    """The files of the checkout, but for what is made of them."""
    found = []
    for at, folders, names in os.walk(TOP):
        folders[:] = sorted({*folders} - {".git", "out", "target", "__pycache__"})
        found += [os.path.relpath(f"{at}/{name}", TOP) for name in sorted(names)]
    return found


def is_python(path: str) -> bool:
    """Whether a file is Python, by its ending, or by its first line where its name has none."""
    if "." in os.path.basename(path):
        return path.endswith(".py")
    return read_bytes(path).startswith(b"#!/usr/bin/env python3\n")


def examples(folder: str) -> list[str]:
    """Each dump of a folder that has a report beside it, without its ending."""
    paths = sorted(path[:-len(".report")] for path in files() if re.match(rf"{folder}/.*\.report$", path))
    return [path for path in paths if os.path.exists(f"{TOP}/{path}.json")]


def without_blocks(text: str) -> str:
    """The text of a document without its fenced blocks."""
    return re.sub(r"^```.*?^```$", "", text, flags=re.M | re.S)


def anchors(path: str) -> set[str]:
    """The names by which a link finds the headings of a document."""
    headings = re.findall(r"^#+ (.*)$", without_blocks(read(path)), re.M)
    return {re.sub(r"[^\w -]", "", it.lower()).replace(" ", "-") for it in headings}


def lost_links(path: str) -> list[str]:
    """The links of a document that lead to no file, or to no heading of one."""
    lost = []
    for link, anchor in re.findall(r"\]\((?!\w+:)([^)#\s]*)(?:#([^)\s]+))?\)", read(path)):
        target = os.path.normpath(os.path.join(os.path.dirname(path), link)) if link else path
        is_there = os.path.exists(os.path.join(TOP, target))
        if not is_there or anchor and target.endswith(".md") and anchor not in anchors(target):
            lost.append(f"{link}#{anchor}")
    return lost


def crates() -> dict[str, list[str]]:
    """What each crate stands on by crates.txt, other crates and libraries. The lowest crates come first."""
    return {name: words.split() for name, words in re.findall(r"^(\w+):([^#\n]*)", read("crates.txt"), re.M)}


def lines_of_edit(path: str) -> Iterator[tuple[str, str]]:
    """Each line of a must-fail edit that says something: its word, and the rest."""
    for line in filter(str.strip, read(path).split("\n")):
        word, _, rest = line.partition(":")
        yield word, rest[1:] if rest.startswith(" ") else rest


def place_of(mark: str) -> re.Pattern[str]:
    """Where the part of a document stands that a script writes: after a comment with this mark."""
    return re.compile(rf"(?<=<!-- {mark} -->\n).*?(?=<!-- end -->)", re.S)


def put(document: str, mark: str, text: str) -> None:
    """Puts a part into a document."""
    after, count = place_of(mark).subn(lambda _: text, read(document))
    if count != 1:
        raise SystemExit(f"{document} has no place for {mark}: the lines <!-- {mark} --> and <!-- end -->")
    write(f"{TOP}/{document}", after)
