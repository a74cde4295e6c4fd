"""The forms of an answer beside its text: JSON, pictures, and pages."""
from __future__ import annotations

import contextlib
import os
import stat
import sys
from typing import Any, Iterator, Optional

from ..core.files import Failure, Refusal, read_text, write_out, write_texts
from .terminal import Style
from .as_json import text_of_answer
from .comparison import Comparison
from .dot import dot
from .drawing import drawings
from .page import Older, Page
from .picture import Picture
from .svg import check_graphviz, svg
from .view import Tree
from .wait_graph import WaitGraph
from .whole import summary

MOST_OF_STATES = 2_000_000  # characters, in a page


def check_form(asked: Any) -> None:
    """Raises Failure if a picture is asked for that can't be made here."""
    if asked.svg:
        with words_for_picture():
            check_graphviz()


def write_form(asked: Any, tree: Tree, old: Optional[Tree], style: Style) -> None:
    """Writes an answer in the form that is asked for, in a page beside an older one, if there is one."""
    if asked.json:
        write_out(text_of_answer(tree))
    elif asked.dot:
        write_out(dot(Picture(WaitGraph(tree, asked.all), asked.all)))
    elif asked.svg:
        with words_for_picture():
            picture = svg(Picture(WaitGraph(tree, asked.all), asked.all))
        write_out(picture)
    else:
        write_page(asked, WaitGraph(tree, asked.all), None if old is None else WaitGraph(old, asked.all))
        write_out(summary(tree, style))


def write_page(asked: Any, graph: WaitGraph, old: Optional[WaitGraph]) -> None:
    """Writes the page of an answer."""
    states = [(os.path.basename(path), read_text(path)) for path in asked.state]
    if sum(len(lines) for _, lines in states) > MOST_OF_STATES:
        raise Refusal(f"--state: a page takes states of at most {MOST_OF_STATES:,} characters")
    drawn, *beside = drawings([graph, *([] if old is None else [old])])
    older = None if old is None else Older(Comparison(old, graph), beside[0].beside())
    write_texts([(asked.html, Page(graph, drawn, states, older).html())])


@contextlib.contextmanager
def words_for_picture() -> Iterator[None]:
    """Has the file that standard output goes to say why it is no picture. A shell has made it before this began, and an
    empty one looks like a picture."""
    try:
        yield
    except Failure as failure:
        if is_file(sys.stdout):
            write_out(f"There is no picture here: {failure}\n")
        raise


def is_file(stream: Any) -> bool:
    with contextlib.suppress(AttributeError, OSError, ValueError):  # (it is closed, or none of the system's)
        return stat.S_ISREG(os.fstat(stream.fileno()).st_mode)
    return False
