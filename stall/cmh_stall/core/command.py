"""What all commands share: their words, where notes lie, how a file becomes a sketch, and how faults end a command."""
from __future__ import annotations

import argparse
import contextlib
import gc
import os
import re
import traceback
from typing import Any, Callable, Dict, List, NoReturn, Optional, Sequence, Tuple

from .. import VERSION
from .dump import Dump, is_marked, without_mark
from .files import FULL, Failure, Refusal, read_text, say, shown, write_out
from .memory import bound_memory
from .sketch import BARE, OLDER, Sketch, read_json
from .sketch_json import is_texts, sketch_of
from .start import OUT_OF_MEMORY, shortage

Read = Callable[[str], str]  # the text of a path
SUFFIX = ".json"  # of a dump
MANY = 4096  # processes of a dump whose memory is worth a search for what is used no more


class CommandParser(argparse.ArgumentParser):
    """A parser of the words of a command. What it writes goes the way of all that a command writes."""

    def __init__(self, prog: Optional[str] = None, **more: Any) -> None:
        super().__init__(prog, formatter_class=argparse.RawDescriptionHelpFormatter, allow_abbrev=False, **more)

    def add_version(self) -> None:
        self.add_argument("--version", action=Version, nargs=0, help="print the version, which is that of cmh")

    def print_help(self, file: Any = None) -> None:
        write_out(self.format_help())

    def error(self, message: str) -> NoReturn:
        say(f"{self.format_usage()}{self.prog}: error: {message}")
        raise SystemExit(2)


class Version(argparse.Action):
    """What --version does."""

    def __call__(self, parser: argparse.ArgumentParser, *_: object) -> NoReturn:
        write_out(f"{parser.prog} {VERSION}\n")
        raise SystemExit(0)


def stem_of(path: str) -> str:
    """Returns the path of a dump without its suffix."""
    return path[:-len(SUFFIX)] if path.endswith(SUFFIX) else path


def notes_path(path: str) -> str:
    """Returns the path of the notes of a dump: dump.notes.json beside dump.json."""
    return f"{stem_of(path)}.notes{SUFFIX}"


def likely_path(path: str) -> str:
    """Returns the path of the dump of the likely answer: dump.likely.json beside dump.json."""
    return f"{stem_of(path)}.likely{SUFFIX}"


def is_dump(tree: Any) -> bool:
    return isinstance(tree, dict) and "sites" in tree


def is_notes(tree: Any) -> bool:
    return isinstance(tree, dict) and "sketch" in tree


NO_NOTES = "the dump has no notes, which would say whether it runs or is unknown"


def sketch_of_dump(tree: Any, where: str, is_by_hand: bool) -> Sketch:
    """Returns the sketch of a dump without notes: one that is idle waits for any. One that is active runs in a dump
    that was written by hand; else it may be unknown, which a dump can't say."""
    rows = tree.get("processes")
    if not isinstance(rows, list) or not all(isinstance(row, dict) and "name" in row for row in rows):
        raise Refusal(f"{shown(where)}: it is no dump: 'processes' is no list of processes with names")
    active: Dict[str, Any] = {"runs": True} if is_by_hand else {"unknown": NO_NOTES, "spoilt": True}
    made = []
    for row in rows:
        waits = {"waits_for_any": row.get("dependents", [])} if row.get("state") == "idle" else active
        made.append({"name": row["name"], "site": row.get("site"), **waits})
    return sketch_of({"system": BARE if is_by_hand else "", "processes": made,
                      "in_transit": tree.get("in_transit") or []}, where)


def read_any(path: str, read: Read = read_text) -> Sketch:
    """Returns the sketch of a file that has a sketch, a dump's notes, or a dump: then of its notes, if it has some."""
    text = read(path)
    tree = read_json(text, path)
    if is_notes(tree):
        return sketch_of(tree["sketch"], path, OLDER)
    if not is_dump(tree):
        return sketch_of(tree, path)
    notes = notes_path(path)
    if os.path.exists(notes):
        return dump_of_notes(text, path, notes)[0].sketch
    return sketch_of_dump(tree, path, not is_marked(tree))


def dump_of_notes(text: str, path: str, notes: str, read: Read = read_text) -> Tuple[Dump, Any]:
    """Returns the dump of a text, made anew from its notes, and these. Raises Refusal if it is another one."""
    noted = read_json(read(notes), notes)
    if not is_notes(noted):
        raise Refusal(f"{shown(notes)}: it has no 'sketch', so these are no notes of cmh-dump")
    known = known_doubts(noted, notes)
    dump = Dump(sketch_of(noted.pop("sketch"), notes, OLDER), known)
    shown_dump = dump.likely if noted.get("guesses") is True else dump  # (as version 1.1.0 wrote it where it guessed)
    low = shown_dump.low
    if text != shown_dump.text(low) and without_mark(read_json(text, path)) != without_mark(shown_dump.tree(low)):
        raise Refusal(f"{shown(path)}: it isn't the dump of {shown(notes)}: one of them was changed. Make both "
                      "again with cmh-dump, or move the notes away")
    return dump, noted


def known_doubts(noted: Any, notes: str) -> List[str]:
    """Returns the keys of doubts that notes have, in the order of their numbers."""
    keys = noted.get("doubts", []) if is_notes(noted) else None
    if not is_texts(keys) or len(set(keys)) < len(keys):
        raise Refusal(f"{shown(notes)}: 'doubts' is no list of texts, each once")
    return list(keys)


def run(name: str, main: Callable[[Sequence[str]], int], words: Sequence[str]) -> int:
    """Runs a command, and returns its status. A fault is one line on standard error."""
    bound_memory()
    gc.disable()  # what a command makes stays to its end, and to look through it again and again takes long
    try:
        return main(words)
    except Refusal as refusal:
        return fault(name, refusal, 1)
    except Failure as failure:
        return fault(name, failure, failure.status)
    except (MemoryError, SystemError):  # (Python gives the second one where it couldn't make the first)
        pass  # (said once all that was made is gone)
    except Exception as error:  # (where nothing is lacking, it is one that nobody has thought of)
        return fault(name, lack_of(error) or own_fault(name, error, words), 4)
    finally:
        gc.freeze()  # (nor is it looked through when Python ends)
    return fault(name, OUT_OF_MEMORY, 4)


def put_away(number: int) -> None:
    """Frees the memory of what is used no more of a dump of so many processes, if these are many."""
    if number > MANY:
        gc.collect()


def lack_of(error: Exception) -> str:
    """Says what the machine lacks, if that is why something has failed."""
    if isinstance(error, OSError) and error.errno in FULL:
        return f"{shown(str(error.filename or 'a file'))}: {error.strerror}"
    return shortage(error)


def own_fault(name: str, error: Exception, words: Sequence[str]) -> str:
    """Says what went wrong in our own code, and where: in the code, and in the files that the command was given."""
    last = traceback.extract_tb(error.__traceback__)[-1]
    where = f"{last.name} ({os.path.basename(last.filename)}:{last.lineno})"
    files = ", ".join(place_in(word, str(error)) for word in words if os.path.isfile(word))
    return (f"this is a fault of {name}, and nothing is said: {type(error).__name__} in {where}: {shown(str(error))}"
            f"{f'. It was given {files}' if files else ''}")


def place_in(path: str, message: str) -> str:
    """Returns the path of a file, with its first line that has what a message quotes, if one has."""
    quoted = re.search(r"'([^']+)'", message)
    with contextlib.suppress(OSError), open(path, encoding="utf-8", errors="replace") as file:
        for number, line in enumerate(file if quoted else (), 1):
            if quoted and quoted[1] in line:
                return f"{shown(path)} (see line {number})"
    return shown(path)


def fault(name: str, text: object, status: int) -> int:
    say(f"{name}: {text}")
    return status
