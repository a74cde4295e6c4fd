"""The command `cmh-stall`: from a system that hangs to the answer, with all that was seen kept in a folder."""
from __future__ import annotations

import argparse
import contextlib
import json
import math
import os
import shlex
import signal
import textwrap
import time
from dataclasses import replace
from typing import Any, Dict, Iterator, List, NamedTuple, Optional, Sequence, Tuple

from cmh_proc.budget import BUDGET, size_in_words

from ..core.answer import answer
from .captures import captures_for, labels_of, take
from ..core.command import CommandParser, is_notes, notes_path, put_away, run
from ..core.dump import Dump
from .dump_command import NO_GUESSES
from .explain_command import add_answer_options, answer_on_files, index_of, write_answer
from ..core.files import Failure, Refusal, say, shown, write_out
from ..core.findings import is_hidden_by_sleepers
from ..core.folder import Folder, NewFolder
from .further import OPEN, more_ways, next_step, sight_of
from .loading import load_noted
from ..core.memory import bound_memory
from ..core.program import confirm, identity
from .recorded import (RECORD, facts_of, facts_path, keep_dump, look_of, new_dump, numbers_in, part_row, parts_of,
                       say_in, sketch_of_part, sketch_of_parts, write_facts)
from .redact import redacted_texts
from .running import proposals as what_runs
from .saying import numbers_of
from ..say.screen import More, screen
from ..say.view import Tree
from ..core.sketch import read_json
from ..core.sketch_json import sketch_of
from ..core.start import SIGNALS
from ..systems import KERNEL, NAMES, described, taker_of
from ..systems.descriptor import Option
from ..systems.taking import Capture
from ..say.terminal import style_of_output
from .timeout_command import add_options, seconds_of
from .watch import KEPT, Check, watch

SECONDS, LONGER = 5.0, 60.0  # from the first look to the last, and where only who sleeps leaves the answer open
MOST, MOST_HELD = 120.0, 600.0  # besides, until all is read, and where something is held meanwhile
LOOKS = 2  # as often it is looked anew, if that may decide what is open
SYSTEMS = [described(name) for name in sorted(NAMES)]
OPTIONS = [(system, option) for system in SYSTEMS for option in system.options]
WAYS = "\n".join(f"       cmh-stall {system.name} {option.usage}" for system, option in OPTIONS if option.usage)
USAGE = f"""cmh-stall SYSTEM TARGET.. [--seconds S] [--with SYSTEM TARGET..] [-o FOLDER]
{WAYS}
       cmh-stall FOLDER|FILE.. [--true 1,3] [--all | --why NAME | --summary | --quiet | --json | --html PAGE]
       cmh-stall FOLDER --redact
       cmh-stall --service UNIT [--keep N] [--seconds S] [-o FOLDER]
       cmh-stall --timeout TIME [--grace TIME] [--seconds S] [-o FOLDER] -- COMMAND [WORD..]
       cmh-stall"""
NAMED = ", ".join(f"{system.name} {system.target}" for system in SYSTEMS)
ABOUT = textwrap.fill(f"""Takes the state of a system that hangs twice, and says who is stuck. All that it saw is kept
in a new folder. SYSTEM TARGET is one of: {NAMED}. Some show more by an option of their own, and stop more meanwhile.
With a FOLDER that it made, it says the answer again, with the facts that you have written there; with a FILE, that
on a dump, a sketch, or states. Alone, it says what runs here, and the command for each. With --service it looks at a
service of systemd, as a timer may do. With --timeout it runs a command, looks at all its processes if that takes
longer, and then ends them.""", 120)
MORE = """status: 0 no process is stuck, 3 some process is stuck, 5 LIKELY DEADLOCK, IDLE OR STALLED or NOT KNOWN,
1 the state is refused, 2 the command line is, 4 out of memory, an I/O error, or the state couldn't be taken;
of --timeout as for timeout(1): 124 it took longer, 125 a fault of cmh-stall, 126 and 127 it can't be run, or else its
own"""


class FurtherLook(NamedTuple):
    """A further look: at what, for how long, and why."""

    parts: List[Capture]
    seconds: float
    why: str


def parser() -> CommandParser:
    made = CommandParser("cmh-stall", usage=USAGE, description=ABOUT, epilog=MORE)
    add = made.add_argument
    add("words", metavar="SYSTEM TARGET", nargs="*", help="what to take, or a folder that was made before")
    add("--with", dest="others", metavar="WORD", nargs="+", action="append", default=[],
        help="take another SYSTEM TARGET.. at the same time, and join both")
    add("--seconds", type=seconds_of,
        help="the time from the first look to the last (5, and 60 more if the answer hangs on who sleeps): beyond 10 "
        "there is a third one halfway")
    for system, option in OPTIONS:
        does = f"of {system.name}: {option.does}"
        if option.value:
            add(f"--{option.name}", metavar=option.value, help=does)
        else:
            add(f"--{option.name}", action="store_true", help=does)
    add("--yes", action="store_true", help="of an option that stops much: do it")
    add("--guesses", action="store_true", help=argparse.SUPPRESS)
    add("--true", metavar="NUMBERS", help="of a folder: say that these doubts are none, as 1,3, and answer")
    add("-o", "--output", metavar="FOLDER", help="the new folder (stall-SYSTEM-TIME)")
    add("--redact", action="store_true",
        help="of a folder: write a copy of dump and answer without names and arguments, for mailing")
    add("--service", metavar="UNIT", help="look at the processes of a service of systemd, also while that "
        "is started anew; -o is the folder for the folders of the last look and of stalls (stalls-UNIT)")
    add("--keep", metavar="N", type=int, default=KEPT, help="of --service: how many stalls are kept (10)")
    add_options(made)
    add_answer_options(made)
    made.add_version()
    return made


def main(words: Sequence[str]) -> int:
    made = parser()
    asked = made.parse_intermixed_args(words)
    if not words:
        return show_what_runs()
    if not asked.words and not asked.service:
        made.error("what is meant? Name a SYSTEM with its TARGET, or a FOLDER")
    os.umask(0o077)
    if asked.service:
        return look_at_service(made, asked)
    if asked.words[0] in NAMES:
        parts = captures_of(made, [asked.words, *asked.others], asked)
        if asked.most_seconds is not None and asked.most_seconds <= (asked.seconds or SECONDS):
            made.error("--most-seconds is no more than the time between the looks")
        path = asked.output or f"stall-{parts[0].system}-{time.strftime('%Y%m%d-%H%M%S')}"
        return stall(parts, asked, path, asked.output is not None)[0]
    return answer_on_words(made, asked)


def answer_on_words(parser: CommandParser, asked: argparse.Namespace) -> int:
    """Answers on a folder that was made before, or on files."""
    is_folder = os.path.lexists(f"{asked.words[0]}/{RECORD}")
    if not is_folder and is_file(asked.words[0]) and not (asked.others or asked.output or asked.redact or asked.true):
        return answer_on_files(asked)
    if asked.others or asked.output or asked.words[1:] or not is_folder:
        names = ", ".join(sorted(NAMES))
        parser.error(f"{asked.words[0]} is neither one of {names}, nor a folder that cmh-stall has made, nor a file")
    check_folder_words(parser, asked)
    if asked.most_memory:
        BUDGET.give(BUDGET.seconds(), asked.most_memory << 20)
        bound_memory()
    numbers = numbers_of(asked.true) if asked.true is not None else []
    with Folder(asked.words[0]) as folder:
        if asked.redact:
            return redact_folder(folder)
        if numbers:
            say_in(folder, numbers)
        return explain(folder, asked)


def is_file(path: str) -> bool:
    """Whether a word names what may have a dump, a sketch or a state."""
    return path == "-" or os.path.exists(path) and not os.path.isdir(path)


def check_folder_words(parser: CommandParser, asked: argparse.Namespace) -> None:
    """Ends the command where what is asked of a folder doesn't go together."""
    if asked.redact and (asked.true is not None or asked.all or asked.why is not None):
        parser.error("--redact copies an answer that is there: it stands alone")
    if asked.all and asked.why is not None:
        parser.error("--all and --why are two answers: name one")


def show_what_runs() -> int:
    write_out("".join(f"{text}\n" for text in [*what_runs(), f"anything else: cmh-stall {KERNEL} PID"]))
    return 0


def value_of(option: Option, asked: argparse.Namespace) -> Any:
    return getattr(asked, option.name.replace("-", "_"))


def captures_of(parser: CommandParser, named: List[List[str]], asked: argparse.Namespace) -> List[Capture]:
    """Returns what is asked to be taken, or ends the command where words are wrong."""
    wishes = [option.name for _, option in OPTIONS if value_of(option, asked)]
    for name, *_ in named:
        if name not in NAMES:
            parser.error(f"{name} is none of {', '.join(sorted(NAMES))}")
    for system, option in OPTIONS:
        if option.name in wishes and not option.value:
            check_option(parser, named, system.name, option)
    for name, *targets in named:
        fault = taker_of(name).fault(targets, [*wishes, *["yes"] * asked.yes])
        if fault:
            parser.error(f"{name}: {fault}")
    return captures_for(named, wishes)


def check_option(parser: CommandParser, named: List[List[str]], system: str, option: Option) -> None:
    """Ends the command where an option is given without its system, or beside what it doesn't go with."""
    is_of_it = any(words[0] == system for words in named)
    if not is_of_it or option.is_alone and (named[1:] or len(named[0]) != 2):
        alone = " alone" if option.is_alone else ""
        parser.error(f"--{option.name} is of {system}{alone}: {system} {option.usage}")


def look_at_service(parser: CommandParser, asked: argparse.Namespace) -> int:
    """Looks at a service as Linux sees it, which stops nothing."""
    if asked.words or asked.others or asked.keep < 1:
        parser.error("--service UNIT stands alone: what is taken is its main process, and --keep is 1 or more")

    def look(pid: str, path: str, check: Check) -> Tuple[int, str]:
        asked.seconds = asked.seconds or SECONDS
        return stall(captures_for([[KERNEL, pid]], ()), asked, path, False, check)

    return watch(asked.service, (asked.output or f"stalls-{asked.service}").rstrip("/"), asked.keep, look)


def stall(parts: List[Capture], asked: argparse.Namespace, path: str, is_exact: bool,
          check: Check = lambda: None) -> Tuple[int, str]:
    """Takes the states, keeps them, and explains them, once they are checked. Returns the status of the answer, and
    where the folder is: at a path, with a number behind it where others begin at the same second and it isn't to be
    exact."""
    parts = [replace(part, label=label) for part, label in zip(parts, labels_of([part.system for part in parts]))]
    seconds = asked.seconds or SECONDS
    limits = give_budget(parts, seconds, asked)
    for part in parts:
        taker_of(part.system).check(part)
        last = f". It takes some {seconds:g} s, at most {limits}" if part is parts[-1] else ""
        say(f"{' '.join([part.system, *part.targets])}: {part.warning(seconds)}{last}")
    with new_folder(path, is_exact) as folder:
        parts = keep_states(folder, parts, seconds, asked, check=check)
        status = explain(folder, asked, look_on(folder, parts, asked) if asked.seconds is None else None)
    if status and not folder.unkept:
        say(f"This answer is kept in {shown(folder.path)}, with all that was seen")
    return status, folder.path


def look_on(folder: Folder, parts: List[Capture], asked: argparse.Namespace) -> Dump:
    """Looks anew as often as that may decide what is open, and costs little. Returns the dump of what was seen last."""
    made, seconds = new_dump(folder), SECONDS
    for _ in range(LOOKS):
        further = next_look(made, parts, seconds, asked.most_seconds or math.inf)
        if further is None or not has_more(folder, further, asked):
            break
        number = made.waits.number
        del made
        put_away(number)
        made, parts, seconds = new_dump(folder), further.parts, further.seconds
    return made


def give_budget(parts: List[Capture], seconds: float, asked: argparse.Namespace) -> str:
    """Sets how long looks of so many seconds may take, and how much they may read. Returns both in words."""
    usual = seconds + (MOST if all(part.is_light() for part in parts) else MOST_HELD)
    most, size = asked.most_seconds or usual, (asked.most_memory or 0) << 20 or BUDGET.size
    BUDGET.give(most, size)
    bound_memory(2)
    return f"{most:g} s and {size_in_words(size)}"


def next_look(made: Dump, parts: List[Capture], seconds: float, most: float) -> Optional[FurtherLook]:
    """Returns how to look anew, if that may decide what is open, for so many seconds at most: at the other ends of
    connections, or for longer."""
    if not all(part.is_light() for part in parts):
        return None
    pids = taker_of(parts[0].system).ends(parts[0].targets, sight_of(made, [parts[0].system])) \
        if not parts[1:] and made.waits.decision.headline in OPEN else []
    if pids:
        more = Capture(KERNEL, pids, label=KERNEL)
        return FurtherLook([*parts, more], seconds, "some wait at connections: looking at these too")
    if is_hidden_by_sleepers(made) and seconds < LONGER < most:
        return FurtherLook(parts, LONGER, f"who sleeps may only come back to its loop: looking for {LONGER:g} s")
    return None


def keep_states(folder: Folder, parts: List[Capture], seconds: float, asked: argparse.Namespace,
                needs_all: bool = False, check: Check = lambda: None) -> List[Capture]:
    """Takes the states within some seconds, and keeps them once they are checked. Returns what could be taken. Raises
    Failure if that is nothing, or not all where all is needed."""
    faults: List[Failure] = []
    with contextlib.ExitStack() as stack:
        env: Dict[str, str] = {}
        for system, option in OPTIONS:
            if option.value and value_of(option, asked):
                env.update(stack.enter_context(taker_of(system.name).environment(value_of(option, asked))))
        taken = list(take(parts, seconds, env, faults.append))
    if faults and (needs_all or not taken):
        raise Failure("\n".join(map(str, faults)))
    check()
    for fault in faults:
        say(f"warning: {fault}\nThe answer is without that")
    texts = {name: text for _, states in taken for name, text in states.items()}
    record = {"version": 1, "parts": [part_row(part, seconds) for part, _ in taken]}
    texts[RECORD] = json.dumps(record, indent=1) + "\n"
    folder.keep([(folder.at(name), text) for name, text in texts.items()])
    return [part for part, _ in taken]


def has_more(folder: Folder, look: FurtherLook, asked: argparse.Namespace) -> bool:
    """Takes the states anew. Returns whether they are there: Ctrl-C ends the look alone, and what has ended meanwhile
    leaves what was seen of it."""
    try:
        limits = give_budget(look.parts, look.seconds, asked)
        say(f"Open so far, as {look.why}, at most {limits}. Ctrl-C ends that")
        keep_states(folder, look.parts, look.seconds, asked, needs_all=True)
    except Failure as failure:
        say(f"{failure}. This is the answer by what was seen before")
        return False
    except SystemExit:
        if SIGNALS.number != signal.SIGINT:
            raise
        SIGNALS.forget()
        return False
    return True


@contextlib.contextmanager
def new_folder(path: str, is_exact: bool) -> Iterator[Folder]:
    """Makes a folder, which goes again if it doesn't come to hold what is to be kept, also by a signal."""
    folder: Optional[NewFolder] = None
    try:
        with SIGNALS.hold():
            folder = NewFolder(path, is_exact)
        yield folder
    except Exception:
        if folder is not None and folder.has_file(folder.at(RECORD)):
            say(f"What was seen is kept in {shown(folder.path)}")
        raise
    finally:
        if folder is not None:
            if not folder.has_file(folder.at(RECORD)):
                folder.remove()
            folder.close()


def say_unkept(folder: Folder) -> None:
    """Says what ends with this command, where a folder has no room for it."""
    if folder.fault is not None:
        are_kept = folder.has_file(folder.at(RECORD))
        states = f"the states are, in {shown(folder.path)}" if are_kept else "nor are the states that were taken"
        say(f"warning: {folder.fault}: this answer isn't kept; {states}")


# From what is kept


def explain(folder: Folder, asked: argparse.Namespace, made: Optional[Dump] = None) -> int:
    """Makes the dump of the states in a folder, unless it is there already, and says the answer."""
    parts = parts_of(folder)
    is_one = len(parts) == 1
    if not is_one:
        for part in parts:
            half = Dump(sketch_of_part(folder, part, facts_of(folder, facts_path(folder, part["label"]))))
            proposals = keep_dump(folder, half, folder.at(f"{part['label']}.json"))
            write_facts(folder, facts_path(folder, part["label"]), half.sketch, proposals)
    path = facts_path(folder)
    made = made or Dump(sketch_of_parts(folder, parts, facts_of(folder, path)), numbers_in(folder))
    proposals = keep_dump(folder, made, folder.at("dump.json"))
    if is_one:
        write_facts(folder, facts_path(folder), made.sketch, proposals)
    confirm(made)
    tree = answer(made, identity()["sha256"], None if asked.why is None else index_of(made, asked.why))
    show_answer(folder, tree, asked, look_of(parts) if asked.timeout is None else "")  # (or nobody is left)
    say_unkept(folder)
    if asked.guesses:
        say(NO_GUESSES)
    ways = more_ways(parts, made, folder) if asked.timeout is None else ()  # (of --timeout nobody is left)
    steps = [*ways, *next_step(folder, parts, tree)]
    if steps:
        say("\n".join(steps))
    status: int = tree["status"]
    return status


def show_answer(folder: Folder, tree: Tree, asked: Optional[argparse.Namespace] = None, look: str = "") -> None:
    """Keeps the first screen of an answer in a folder, and prints that, or what is asked of it, with colours on a
    terminal. `look` takes it anew. A copy, of which nothing is asked, has no name of its folder."""
    is_kept = folder.has_file(folder.at(RECORD))
    more = More(f"cmh-stall {shlex.quote(folder.path)}", True, look) if is_kept else More(look, False, look)
    more = more if asked else More("cmh-explain dump.json")
    folder.keep([(folder.at("answer"), screen(tree, more))])
    if asked is None:
        write_out(screen(tree, more, style_of_output()))
    else:
        write_answer(asked, tree, more=more)


def redact_folder(folder: Folder) -> int:
    """Writes a copy of the sketch, the dump and the answer, without what the user's program has named."""
    path = notes_path(folder.at("dump.json"))
    notes = read_json(folder.read_text(path), path)
    if not is_notes(notes):
        raise Refusal(f"{shown(path)}: it has no 'sketch', so these are no notes of cmh-dump")
    sketch = sketch_of(notes["sketch"], path)
    with folder.folder("redacted") as new:
        texts = dict(redacted_texts(sketch))
        new.write([(new.at(name), text) for name, text in texts.items()])
        dump, noted = load_noted(texts["dump.json"].encode(), "dump.json", "dump.notes.json", texts.__getitem__)
        tree = answer(dump, noted)
        show_answer(new, tree)
        if new.fault is not None:
            raise new.fault
    say(f"The copy is in {shown(new.path)}")
    status: int = tree["status"]
    return status


def command(words: Sequence[str]) -> int:
    """Runs the command with its words, and returns its status."""
    return run("cmh-stall", main, words)
