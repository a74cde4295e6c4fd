"""The command `cmh-explain`, and `cmh-stall` of a file: who is stuck in a dump, who isn't, who is undecided, and where
it has to be broken."""
from __future__ import annotations

from typing import Any, Optional, Sequence, Tuple

from ..core.answer import answer
from ..core.command import CommandParser, notes_path, run
from ..core.dump import Dump
from ..core.files import Failure, hindrance, say, shown, write_out
from .loading import load
from ..say.screen import More, screen
from ..say.view import Tree
from ..say.whole import summary, whole, why
from ..core.sketch import BARE, near_name, quote
from ..say.terminal import show, style_of_output

ABOUT = """Says in words what is known of a dump, from the notes that cmh-dump wrote beside it, of a sketch, or of
states. The program cmh has to confirm it on two dumps, with all unknown ones active and with all idle, and what is
likely on two more."""
MORE = """status: 0 no process is stuck, 3 some process is stuck, 5 LIKELY DEADLOCK, IDLE OR STALLED or NOT KNOWN,
1 the file is refused, 2 the command line is, 4 out of memory, an I/O error, or the program doesn't confirm it"""


def parser() -> CommandParser:
    made = CommandParser("cmh-explain", usage="cmh-explain [options] FILE [FILE ..]", description=ABOUT, epilog=MORE)
    made.add_argument("words", metavar="FILE", nargs="+", help="a dump, whose notes are read from DUMP.notes.json, "
                      "a sketch, or all states of a system; with --html two dumps of one system, the older one first")
    add_answer_options(made)
    made.add_version()
    return made


def add_answer_options(made: CommandParser) -> None:
    """Adds the options of an answer."""
    add = made.add_argument
    add("--all", action="store_true", help="show all that is known, in place of the first screen")
    add("--why", metavar="NAME", help="show the chain from one process to what its answer rests on")
    how = made.add_mutually_exclusive_group()
    how.add_argument("--summary", action="store_true", help="print the first line alone")
    how.add_argument("--quiet", action="store_true", help="print nothing: the status is the answer")
    how.add_argument("--json", action="store_true", help="print all of it as JSON; with --why, that chain too")
    how.add_argument("--dot", action="store_true", help="print a graph for Graphviz; with --why, of that chain alone")
    how.add_argument("--svg", action="store_true", help="print that graph as SVG, laid out by Graphviz")
    how.add_argument("--html", metavar="FILE", help="write all of it as a page, with that picture")
    add("--state", metavar="FILE", action="append", default=[], help="put the lines of a state into the page too")
    add("--color", choices=("auto", "always", "never"), default="auto", metavar="WHEN",
        help="always, never, or auto: on a terminal, unless NO_COLOR is set (auto)")
    add("--pager", action="store_true", help="show a long answer on a terminal through $PAGER (less)")
    add("--without-notes", action="store_true", help="of a dump whose notes are gone: who is active runs")


def index_of(dump: Dump, name: str) -> int:
    """Returns the index of a name, or of a name as the dump has it, or of the one thread that a screen calls so. Raises
    Failure if nobody has it."""
    for index, process in enumerate(dump.sketch.processes):
        if name in (process.name, dump.names[process.name]):
            return index
    threads = [index for index, process in enumerate(dump.sketch.processes) if process.name.endswith(f"/{name}")]
    if len(threads) == 1:
        return threads[0]
    raise Failure(f"nobody is called {quote(name)}{near_name(name, list(dump.waits.index))}", 2)


def check_page(asked: Any) -> None:
    """Raises Failure if no page can be written where it is asked for, or there is none for a state."""
    if asked.html is None:
        if asked.state:
            raise Failure("--state is for a page: it needs --html", 2)
        return
    if asked.words[2:]:
        raise Failure("--html FILE OLD NEW: a page is of one dump, or of two", 2)
    fault = hindrance(asked.html, [*asked.words, *map(notes_path, asked.words), *asked.state])
    if fault:
        raise Failure(f"--html {shown(asked.html)}: the page goes to a file of its own: {fault}", 2)


def load_all(asked: Any) -> Tuple[Dump, Optional[str], Optional[Dump]]:
    """Returns the dump that is meant, the SHA-256 of the program that its notes name, and the older one of a page of
    both."""
    if asked.html is not None and asked.words[1:]:
        old, _ = load(asked.words[0], asked.without_notes)
        return (*load(asked.words[1], asked.without_notes), old)
    return (*load(asked.words[0], asked.without_notes, asked.words[1:]), None)


def is_form(asked: Any) -> bool:
    """Whether the answer is asked for in another form than as text."""
    return bool(asked.json or asked.dot or asked.svg or asked.html is not None)


def answer_on_files(asked: Any) -> int:
    """Prints what is asked of the answer on some files. Returns its status."""
    check_page(asked)
    if is_form(asked):  # (what makes them takes as long to load as all the rest)
        from ..say.forms import check_form
        check_form(asked)
    dump, noted, old = load_all(asked)
    tree = answer(dump, noted, None if asked.why is None else index_of(dump, asked.why))
    write_answer(asked, tree, None if old is None else answer(old))
    is_screen = not (is_form(asked) or asked.summary or asked.quiet or asked.all)
    if is_screen and tree["system"] in ("", BARE) and tree["warnings"]:
        say("\n".join(tree["warnings"]))
    status: int = tree["status"]
    return status


def write_answer(asked: Any, tree: Tree, old: Optional[Tree] = None, more: More = More()) -> None:
    """Prints an answer in the form that is asked for, in a page maybe beside an older one. `more` has the commands that
    its first screen names."""
    style = style_of_output(asked.color)
    if is_form(asked):
        from ..say.forms import write_form
        write_form(asked, tree, old, style)
    elif asked.summary:
        write_out(summary(tree, style))
    elif not asked.quiet:
        text = why(tree, asked.all, style) if tree["why"] is not None else \
            whole(tree, style) if asked.all else screen(tree, more, style)
        show(text, asked.pager)


def main(words: Sequence[str]) -> int:
    return answer_on_files(parser().parse_intermixed_args(words))  # (so that --html FILE may stand between two dumps)


def command(words: Sequence[str]) -> int:
    """Runs the command with its words, and returns its status."""
    return run("cmh-explain", main, words)
