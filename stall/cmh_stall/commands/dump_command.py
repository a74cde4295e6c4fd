"""The command `cmh-dump`: from the raw state of a system, or from a sketch, to a dump that `cmh` accepts."""
from __future__ import annotations

from argparse import SUPPRESS
from collections import Counter
from itertools import chain
from typing import Any, Dict, Iterator, List, Sequence, Tuple

from ..core.command import CommandParser, likely_path, notes_path, run
from ..core.dump import Dump
from ..core.facts import FREES, HOLDS, Facts, kind_of_line, read_facts
from ..core.files import (MOST_OF_LINE, Failure, Refusal, decode, hindrance, read_bytes, read_text, say, short_name,
                          shown, write_out, write_texts)
from ..core.making import sketch_for
from ..core.program import identity, judge
from ..core.proposals import Proposal, legend, propose
from ..core.sketch import KINDS, UNKNOWN, FactRow, Sketch, reason_of
from ..systems import KERNEL, NAMES, described

DID = {HOLDS: "is held by", FREES: "is freed by"}  # what names have to do with a word of a fact, by its kind
SHOWN, FEW = 8, 5  # as many unknown ones and lines of facts are shown, and names in one; the notes have all
USAGE = f"""cmh-dump SYSTEM STATE.. [--facts FILE] -o DUMP
       cmh-dump {KERNEL} --pid PID.. [--seconds S] [--stacks] [--save STATE] [--facts FILE] -o DUMP
       cmh-dump check FILE"""
ABOUT = """Makes a dump for cmh, and beside it DUMP.notes.json with all that is known of it: cmh-explain reads both.
A process that isn't understood is unknown, and active in this dump. Nothing is written if something is refused."""
FACTS, OUTPUT = "a file of facts, which no state shows: see the man page", "the dump to write, usually DUMP.json"
NO_GUESSES = "--guesses: the answer has what is likely now, without being asked"
MORE = f"""options after SYSTEM:
  --facts FILE            {FACTS}
  -o DUMP, --output DUMP  {OUTPUT}

STALLS.md, in the documents of cmh, leads to the commands that print the state of each system.

status: 0 the dump is written or accepted, 1 the input is refused, 2 the command line is, 4 out of memory or an I/O
error"""
SKETCH = "a sketch, written by hand as JSON"
BOTH = "two sketches, notes or dumps, one after the other: what has moved runs"
JOIN = "notes of several systems of one machine, read at one time: what one knows counts where another doesn't"
CHECK = "a dump: whether cmh accepts it, or where its fault is"


def parser(words: Sequence[str]) -> CommandParser:
    """Returns the parser of a command line. What reads a live system is loaded only if its name stands there."""
    made = CommandParser("cmh-dump", usage=USAGE, description=ABOUT, epilog=MORE)
    made.add_version()
    systems = made.add_subparsers(title="SYSTEM is one of", metavar="SYSTEM", dest="system", required=True,
                                  prog=made.prog)
    states = {"metavar": "STATE", "nargs": "+", "help": "a file with the state; - is standard input"}
    for system in sorted(NAMES):
        is_live = system == KERNEL in words  # (its processes may be read at once)
        more = add_system(systems, system, described(system).states, {**states, "nargs": "*"} if is_live else states)
        if is_live:
            more.add_argument("--save", metavar="FILE", help="keep the state that is read, to be given as STATE")
            from cmh_linux import add_options
            add_options(more, False)
    add_system(systems, "sketch", SKETCH, {"metavar": "FILE", "nargs": 1, "help": "the sketch"})
    add_system(systems, "both", BOTH, {"metavar": "FILE", "nargs": 2, "help": "the two, the earlier one first"})
    add_system(systems, "join", JOIN, {"metavar": "NOTES", "nargs": "+", "help": "the notes of each, or its dump"})
    checked = systems.add_parser("check", help=CHECK, description=f"Reads {CHECK}.")
    checked.add_argument("dump", metavar="FILE", help="the dump; - is standard input")
    return made


def add_system(systems: Any, name: str, summary: str, states: Dict[str, Any]) -> Any:
    made = systems.add_parser(name, help=summary, description=f"Makes a dump of {summary}.")
    made.add_argument("states", **states)
    if name == "join":  # (facts are about the state of one system)
        made.set_defaults(facts=None, guesses=False)
    else:
        made.add_argument("--facts", metavar="FILE", help=FACTS)
        made.add_argument("--guesses", action="store_true", help=SUPPRESS)
    made.add_argument("-o", "--output", metavar="DUMP", required=True, help=OUTPUT)
    return made


def summary(dump: Dump, path: str, asked: List[Proposal]) -> Iterator[str]:
    """Returns the lines for people on what was written. `asked` has the facts that are asked for."""
    kind_of = dump.waits.kinds[:dump.waits.number]
    kinds = Counter(kind_of)
    words = [f"{kinds[kind]:,} {kind.replace('_', ' ')}" for kind in KINDS if kinds[kind]]
    total = len(dump.sketch.processes)
    yield f"{shown(path)}: {len(dump.kept):,} processes of {total:,} ({', '.join(words) or 'none'})"
    for line in dump.cut_lines():
        yield f"made smaller: {line}"
    yield from filter(None, [dump.unconfirmed()])
    unknown = [process for process, kind in zip(dump.sketch.processes, kind_of) if kind == UNKNOWN]
    for process in unknown[:SHOWN]:
        yield f"unknown: {short_name(process.name)}: {shown(process.why_unknown())}"
    if unknown[SHOWN:]:
        yield f"unknown: {len(unknown) - SHOWN:,} more"
    yield from map(fact_line, dump.sketch.facts, number_decided(dump.sketch))
    if asked:
        yield "Facts that would decide them, for you to complete:"
        yield from (f"  {shown(fact.text(), MOST_OF_LINE)}" for fact in asked[:SHOWN])
    if asked[SHOWN:]:
        yield f"  # and {len(asked) - SHOWN:,} lines more, in {shown(notes_path(path))}"
    yield from (f"  {shown(line, MOST_OF_LINE)}" for line in legend(asked, dump.waits.processes))


def number_decided(sketch: Sketch) -> List[int]:
    """Returns how many processes each fact has decided."""
    counts = Counter(chain.from_iterable(process.because for process in sketch.processes))
    return [counts[reason_of(row)] for row in sketch.facts]


def fact_line(row: FactRow, number: int) -> str:
    """Returns the line on what a fact did: how many it decided, and the names that each of its patterns took."""
    did = DID.get(kind_of_line(row["text"]), "took")
    took = [f"; {short_name(word)} {did} {some_names(names)}" for word, names in row["took"].items() if names != [word]]
    return f"{shown(row['at'])}: {shown(row['text'], MOST_OF_LINE)}: decided {number:,}{''.join(took)}"


def some_names(names: List[str]) -> str:
    more = f" and {len(names) - FEW:,} more" if names[FEW:] else ""
    return (", ".join(map(short_name, names[:FEW])) or "nobody") + more


def check_outputs(parser: CommandParser, asked: Any) -> None:
    """Ends the command where it would write to what is no file for that."""
    taken = [*asked.states, *([asked.facts] if asked.facts else [])]
    taken += map(notes_path, asked.states if asked.system in ("both", "join") else [])
    kept = [asked.save] if getattr(asked, "save", None) else []
    for path in (asked.output, notes_path(asked.output), likely_path(asked.output), *kept):
        why = "the notes are put beside it" if path == "-" else hindrance(path, taken)
        if why:
            what = "the state" if path in kept else "the dump"
            parser.error(f"{what} goes to a file of its own, and the notes of the dump and the likely answer beside "
                         f"it; {path}: {why}")
        taken.append(path)


def program_notes() -> Dict[str, Any]:
    """Returns what the notes say of the program, which a dump can be made without."""
    try:
        return {"program": identity()}
    except Failure:
        return {}


def collect_state(asked: Any) -> str:
    """Returns the state of live processes. Raises Refusal if one isn't there."""
    from cmh_linux import collect
    try:
        return collect(asked.pid, asked.seconds, asked.stacks)
    except LookupError as error:
        raise Refusal(str(error.args[0])) from None
    except OSError as error:
        raise Failure(f"the processes can't be read: {error}") from error


def check_live(parser: CommandParser, asked: Any) -> None:
    """Ends the command where a state and processes are both named, or neither."""
    is_live = bool(getattr(asked, "pid", None))
    if is_live == bool(asked.states):
        parser.error("either STATE or --pid PID is needed")
    if asked.system == KERNEL and asked.save and not is_live:
        parser.error(f"--save keeps what --pid reads; {asked.save}: nothing is read")


def texts_of(dump: Dump, path: str, asked: List[Proposal]) -> List[Tuple[str, str]]:
    """Returns the texts of a dump and its notes, each behind its path. `asked` has the facts that are asked for."""
    notes = dump.notes(**({"proposals": [fact.text() for fact in asked]} if asked else {}), **program_notes())
    text, likely = dump.text(dump.low), dump.likely
    likely_text = text if likely is dump else likely.text(likely.low)
    return [(path, text), (likely_path(path), likely_text), (notes_path(path), notes)]


def make(asked: Any) -> int:
    """Makes a dump and its notes."""
    facts = read_facts(decode(read_bytes(asked.facts), asked.facts), asked.facts) if asked.facts else Facts()
    paths, read, kept = asked.states, read_text, []
    if getattr(asked, "pid", None):
        text = collect_state(asked)
        paths, read = ["the processes"], lambda path: text
        kept = [(asked.save, text)] if asked.save else []
    sketch = sketch_for(asked.system, paths, facts, read)
    dump = Dump(sketch)
    proposals = propose(dump.waits)
    said = [*summary(dump, asked.output, proposals)]
    write_texts([*kept, *texts_of(dump, asked.output, proposals)])
    for line in sketch.warnings:
        say(f"warning: {line}")
    if asked.guesses:
        say(NO_GUESSES)
    write_out("".join(f"{line}\n" for line in said))
    return 0


def check(path: str) -> int:
    """Has the program judge a dump. Raises Refusal with the place of its fault if it refuses it."""
    data = read_bytes(path)
    try:
        judge(data)
    except Refusal as fault:
        from ..core.check import describe_fault
        raise Refusal(describe_fault(path, str(fault), data)) from None
    write_out(f"{shown(path)}: accepted\n")
    return 0


def main(words: Sequence[str]) -> int:
    made = parser(words)
    asked = made.parse_args(words)
    if asked.system == "check":
        return check(asked.dump)
    check_live(made, asked)
    check_outputs(made, asked)
    return make(asked)


def command(words: Sequence[str]) -> int:
    """Runs the command with its words, and returns its status."""
    return run("cmh-dump", main, words)
