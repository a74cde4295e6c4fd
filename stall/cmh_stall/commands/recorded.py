"""What a folder of `cmh-stall` has: its record of what was taken, the states, and the facts; and the dumps of these."""
from __future__ import annotations

import contextlib
from typing import Dict, List, Sequence

from .captures import labels_of
from ..core.command import dump_of_notes, known_doubts, notes_path
from ..core.dump import Dump
from .dump_command import texts_of
from ..core.facts import Facts, read_facts
from ..core.files import MOST_TOGETHER, Failure, Refusal, decode, say, shown
from ..core.folder import Folder
from ..core.making import sketch_for
from ..core.proposals import Proposal, propose
from .saying import say_true
from ..core.sketch import Sketch, quote, read_json
from ..systems import NAMES
from ..systems.taking import Capture, Part, command_words

RECORD = "stall.json"  # what a folder has, by which it is explained again
MOST_NAMES = 200  # names that stand in a file of facts, for people to choose from
MOST_PARTS = 64  # systems, or groups of processes, that are joined
MOST_LOOKS = 64  # states of one


def new_dump(folder: Folder) -> Dump:
    """Returns the dump of the states in a new folder, which has no facts yet."""
    parts = parts_of(folder)
    if len(parts) == 1:
        return Dump(sketch_of_part(folder, parts[0], Facts()))
    dumps = {folder.at(f"{part['label']}.json"): Dump(sketch_of_part(folder, part, Facts())) for part in parts}
    texts = dict(row for path, dump in dumps.items() for row in texts_of(dump, path, []))
    return Dump(sketch_for("join", list(map(notes_path, dumps)), Facts(), texts.__getitem__))


def facts_path(folder: Folder, label: str = "") -> str:
    """Returns where the facts of a folder are: those of its answer, or of one of several systems alone."""
    return folder.at(f"facts-{label}" if label else "facts")


def sketch_of_part(folder: Folder, part: Part, facts: Facts) -> Sketch:
    return sketch_for(part["system"], list(map(folder.at, part["states"])), facts, folder.read_text)


def sketch_of_parts(folder: Folder, parts: List[Part], facts: Facts) -> Sketch:
    """Returns the sketch of all systems of a folder together. The dumps of each are there if they are several."""
    if len(parts) == 1:
        return sketch_of_part(folder, parts[0], facts)
    dumps = [folder.at(f"{part['label']}.json") for part in parts]
    return sketch_for("join", list(map(notes_path, dumps)), facts, folder.read_text)


def numbers_in(folder: Folder) -> List[str]:
    """Returns the keys of the doubts that the answer of a folder has numbered, in the order of these. Notes that can't
    be read are written anew, and have numbered none."""
    path = notes_path(folder.at("dump.json"))
    with contextlib.suppress(Refusal, Failure):
        return known_doubts(read_json(folder.read_text(path), path), path)
    return []


def say_in(folder: Folder, numbers: List[int]) -> None:
    """Says in the facts of a folder that some doubts of its answer are none."""
    path = folder.at("dump.json")
    parts, notes = parts_of(folder), notes_path(path)
    if not folder.has(path):
        raise Failure(f"--true: {shown(folder.path)} has no answer yet", 2)
    dump, _ = dump_of_notes(folder.read_text(path), path, notes, folder.read_text)
    say_true(folder, facts_path(folder), numbers, dump,
             lambda facts: Dump(sketch_of_parts(folder, parts, facts), dump.known))


def facts_of(folder: Folder, path: str) -> Facts:
    """Returns the facts that people have written into a folder."""
    return read_facts(decode(folder.read_bytes(path), path), path) if folder.has(path) else Facts()


def keep_dump(folder: Folder, dump: Dump, path: str) -> List[Proposal]:
    """Writes a dump and its notes into a folder, as cmh-dump does. Returns the facts that are asked for."""
    asked = propose(dump.waits)
    folder.keep(texts_of(dump, path, asked))
    for line in dump.sketch.warnings:
        say(f"warning: {line}")
    return asked


def look_of(parts: List[Part]) -> str:
    """Returns the command that takes some systems anew, or nothing where it isn't known whom of them."""
    words = " --with ".join(command_words([part["system"], *part["targets"]]) for part in parts)
    return f"cmh-stall {words}" if any(part["targets"] for part in parts) else ""


def part_row(part: Capture, seconds: float) -> Dict[str, object]:
    """Returns what the folder keeps of a system, beside its states."""
    return {"system": part.system, "targets": part.targets, "states": part.names(seconds),
            **({"beside": part.beside} if part.beside else {})}


def parts_of(folder: Folder) -> List[Part]:
    """Returns what the record of a folder says of each system that was taken."""
    path = folder.at(RECORD)
    tree = read_json(folder.read_text(path), path)
    try:
        parts: List[Part] = [
            {"system": str(row["system"]), "states": list(map(str, row["states"])),
             **{key: list(map(str, row.get(key, []))) for key in ("targets", "beside")}} for row in tree["parts"]]
    except (TypeError, KeyError, AttributeError) as error:
        raise Refusal(f"{shown(path)}: cmh-stall has written something else there") from error
    if not parts or tree.get("version") != 1:
        raise Refusal(f"{shown(path)}: it isn't of a version that is known")
    if parts[MOST_PARTS:]:
        raise Refusal(f"{shown(path)}: it has {len(parts):,} parts, and at most {MOST_PARTS} are joined")
    for part, label in zip(parts, labels_of([part["system"] for part in parts])):
        check_part(folder, part)
        part["label"] = label
    if sum(folder.size(folder.at(name)) for part in parts for name in part["states"]) > MOST_TOGETHER:
        raise Refusal(f"{shown(path)}: its states have more than {MOST_TOGETHER:,} bytes together")
    return parts


def check_part(folder: Folder, part: Part) -> None:
    """Raises Refusal if a record names no system, or what is no file in its folder."""
    path = shown(folder.at(RECORD))
    if part["system"] not in NAMES:
        raise Refusal(f"{path}: {quote(part['system'])} is none of {', '.join(sorted(NAMES))}")
    if not part["states"]:
        raise Refusal(f"{path}: it names no state of {part['system']}")
    if part["states"][MOST_LOOKS:]:
        raise Refusal(f"{path}: it names {len(part['states']):,} states of {part['system']}, and no look has so many")
    for name in part["states"]:
        folder.name_of(folder.at(name))


def write_facts(folder: Folder, path: str, sketch: Sketch, asked: Sequence[Proposal]) -> None:
    """Writes a file of facts for people to complete, if there is none: each proposal as a comment, and the names."""
    lines = [f"# {proposal.text()}" for proposal in asked]
    if folder.has(path) or not lines:
        return
    names = [shown(process.name) for process in sketch.processes]
    more = [f"# and {len(names) - MOST_NAMES:,} more"] if names[MOST_NAMES:] else []
    text = ["# Complete a line, and take away the # before it. FACTS.md says how facts are written.", *lines,
            "# The names:", *(f"#   {name}" for name in names[:MOST_NAMES]), *more]
    folder.keep([(path, "".join(f"{line}\n" for line in text))])
