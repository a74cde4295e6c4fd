"""What a file has that an answer is asked of, and the dump of that: a dump with its notes or without, notes, a sketch,
or states of a system, which the file itself tells."""
from __future__ import annotations

import os
import re
from typing import Any, List, Optional, Sequence, Tuple

from ..core.command import Read, dump_of_notes, is_dump, is_notes, notes_path, sketch_of_dump
from ..core.dump import Dump, is_marked
from ..core.facts import Facts
from ..core.files import Failure, Refusal, read_bytes, read_text, say, shown, text_of_bytes
from ..core.making import sketch_for, with_facts
from ..core.program import compare, confirm, deadlocked_names, identity
from ..core.sketch import OLDER, Sketch, read_json
from ..core.sketch_json import sketch_of
from ..systems import NAMES

ASK_NOTES = "cmh-dump made this dump, and its notes are gone: its active processes may be unknown ones. Put " \
    "NAME.notes.json beside NAME.json, or say --without-notes if all of them run"
BY_HAND = "the dump has no notes: its active processes are taken as running"
TEXT = re.compile(rb"\s*[\w=#<(]")  # how no JSON begins that is a dump or a sketch
Loaded = Tuple[Dump, Optional[str]]  # with the SHA-256 of the program that the notes name


def load(path: str, has_no_notes: bool, more: Sequence[str] = ()) -> Loaded:
    """Returns the dump of a file, or of states, of which there may be more, once the program has confirmed both its
    answers."""
    data, notes = read_bytes(path), notes_path(path)
    tree = tree_of(data, path)
    sketch = sketch_in(tree, data, [path, *more])
    if sketch is not None:
        dump = Dump(sketch)
        confirm(dump)
        return dump, None
    if more:
        raise Failure(f"several files are states of one system; {shown(path)} has none", 2)
    if has_no_notes or path == "-" or not os.path.exists(notes):
        return load_bare(data, tree, path, has_no_notes), None
    return load_noted(data, path, notes)


def tree_of(data: bytes, path: str) -> Any:
    """Returns the JSON that a file has, or None: what is no JSON may be a state, or a dump with a fault."""
    try:
        return read_json(text_of_bytes(data, path), path)
    except Refusal:
        return None


def sketch_in(tree: Any, data: bytes, paths: Sequence[str]) -> Optional[Sketch]:
    """Returns the sketch that a file has or makes, or None where it has a dump, or what may be meant as one."""
    if is_notes(tree):
        return sketch_of(tree["sketch"], paths[0], OLDER)
    if is_dump(tree) or isinstance(tree, dict) and "version" in tree:
        return None
    if isinstance(tree, dict) and "processes" in tree:
        return with_facts(sketch_of(tree, paths[0]), Facts())
    is_text = tree is None and TEXT.match(data) is not None
    sketches = sketches_of(paths, text_of_bytes(data, paths[0])) if data.strip() else []
    if is_text and not sketches:
        raise Refusal(f"{shown(paths[0])}: it is no JSON, as a dump and a sketch are, and no system knows it as a "
                      "state of its own: 'cmh-dump SYSTEM STATE -o DUMP' says why one doesn't")
    if sketches[1:]:
        systems = " or of ".join(sketch.system for sketch in sketches)
        raise Failure(f"{shown(paths[0])}: it may be a state of {systems}: cmh-dump takes the name of the system", 2)
    return sketches[0] if sketches else None


def sketches_of(paths: Sequence[str], first: str) -> List[Sketch]:
    """Returns the sketches of those systems that understand some states."""
    texts = {paths[0]: first, **{path: read_text(path) for path in paths[1:]}}
    sketches = []
    for system in NAMES:
        try:
            sketches.append(sketch_for(system, paths, Facts(), texts.__getitem__))
        except Refusal:
            pass
    return sketches


def load_noted(data: bytes, path: str, notes: str, read: Read = read_text) -> Loaded:
    """Returns a dump with its notes."""
    dump, noted = dump_of_notes(text_of_bytes(data, path), path, notes, read)
    named = compare_programs(noted.get("program"))
    confirm(dump)
    return dump, named


def compare_programs(noted: Any) -> Optional[str]:
    """Says if the program isn't the one that the notes name, and returns the SHA-256 of that one."""
    if not isinstance(noted, dict) or "sha256" not in noted:
        return None
    used, named = identity(), str(noted["sha256"])
    if named != used["sha256"]:
        say(f"warning: the notes name another program, {noted.get('path')} (SHA-256 {named}); "
            f"{used['path']} (SHA-256 {used['sha256']}) confirms this answer")
    return named


def load_bare(data: bytes, tree: Any, path: str, is_said: bool) -> Dump:
    """Returns the dump of a file without notes: what stands in it is what is so, if that is said or these tools haven't
    made it."""
    try:
        deadlocked = deadlocked_names(data)
    except Refusal as fault:
        from ..core.check import describe_fault
        raise Refusal(describe_fault(path, str(fault), data)) from None
    is_by_hand = is_said or not is_marked(tree)
    dump = Dump(sketch_of_dump(tree, path, is_by_hand))
    compare(dump, dump.low, deadlocked, "low")
    of_high = deadlocked if is_by_hand else deadlocked_names(dump.text(dump.high).encode())
    compare(dump, dump.high, of_high, "high")
    dump.sketch.warnings += [] if is_said else [BY_HAND if is_by_hand else ASK_NOTES]
    return dump
