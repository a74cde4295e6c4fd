"""How an answer is laid out: lines that are broken at a width, and on a terminal colours, and a pager if that is asked
for."""
from __future__ import annotations

import os
import re
import shutil
import signal
import subprocess
import sys
import textwrap
from typing import Dict, Iterable, List, NamedTuple, Tuple, Union

from ..core.files import write_out

WIDTH, NARROWEST = 100, 40
ARROW, PLAIN_ARROW = "→", "->"
PAGER, NOT_RUN = "less", (126, 127)  # the statuses of a shell that can't run a command
EXTRA = "  "  # how much further the rest of a line that is moved in stands
CODES: Dict[str, str] = {"stuck": "1;31", "likely": "31", "undecided": "33", "not_stuck": "32"}  # red, yellow, green


class Style(NamedTuple):
    """How wide a text is at most, the arrow in a cycle, and whether it has colours."""

    width: int = WIDTH
    arrow: str = ARROW
    is_coloured: bool = False


PLAIN = Style()


class AsItIs(str):
    """A line that isn't broken, as it may be copied to a file."""


class Painted(str):
    """A line that has colours on a terminal: parts of it, each with a verdict."""

    parts: List[Tuple[str, str]]


def paint_line(line: str, *parts: Union[str, Tuple[str, str]]) -> Painted:
    """Returns a line with parts that have the colour of a verdict. A verdict alone is that of the whole line."""
    made = Painted(line)
    made.parts = [(line, part) if isinstance(part, str) else part for part in parts]
    return made


def fill(paragraphs: Iterable[List[str]], style: Style = PLAIN) -> str:
    """Returns the text of paragraphs, each a list of lines with leading spaces that say how far they are moved in."""
    return "\n\n".join("\n".join(lay_out(line, style) for line in lines) for lines in paragraphs) + "\n"


def lay_out(line: str, style: Style) -> str:
    """Returns a line, broken where it is too wide, with its colours."""
    if isinstance(line, AsItIs):
        return line
    indent = line[:len(line) - len(line.lstrip())]
    text = textwrap.fill(line.strip(), style.width, initial_indent=indent,
                         subsequent_indent=indent + EXTRA * bool(indent), break_on_hyphens=False,
                         break_long_words=False)
    if style.is_coloured and isinstance(line, Painted):
        for part, verdict in line.parts:
            text = paint(text, part, verdict)
    return text


def paint(text: str, part: str, verdict: str) -> str:
    """Returns a text in which a part has the colour of a verdict. A pager takes no colour over the end of a line."""
    code = CODES.get(verdict)
    pattern = r"\s+".join(map(re.escape, part.split()))

    def colour(match: "re.Match[str]") -> str:
        return "\n".join(f"\x1b[{code}m{line}\x1b[m" for line in match[0].split("\n"))

    return re.sub(pattern, colour, text, count=1) if code else text


# What standard output takes


def style_of_output(color: str = "auto") -> Style:
    """Returns the style for standard output. `color` is 'always', 'never', or 'auto': on a terminal, unless NO_COLOR is
    set or the terminal has none."""
    is_terminal = is_shown()
    width = max(NARROWEST, min(WIDTH, shutil.get_terminal_size((WIDTH, 0)).columns)) if is_terminal else WIDTH
    may_colour = is_terminal and not os.environ.get("NO_COLOR") and os.environ.get("TERM", "dumb") != "dumb"
    return Style(width, ARROW if has_arrow() else PLAIN_ARROW, color == "always" or color == "auto" and may_colour)


def is_shown() -> bool:
    """Whether standard output is a terminal."""
    return sys.stdout is not None and sys.stdout.isatty()


def has_arrow() -> bool:
    """Whether the encoding of standard output has the arrow."""
    try:
        ARROW.encode(getattr(sys.stdout, "encoding", None) or "ascii")
    except (UnicodeEncodeError, LookupError):
        return False
    return True


def show(text: str, is_paged: bool = False) -> None:
    """Writes a text to standard output: through the pager if it is asked for, and the text is longer than the
    terminal."""
    if is_paged and is_shown() and text.count("\n") >= shutil.get_terminal_size().lines:
        if page(text):
            return
    write_out(text)


def page(text: str) -> bool:
    """Shows a text by $PAGER, and returns whether that could be run. A pager takes Ctrl-C itself."""
    words = os.environ.get("PAGER") or PAGER
    before = signal.signal(signal.SIGINT, lambda *_: None)
    try:
        ran = subprocess.run(["/bin/sh", "-c", words], input=text.encode("utf-8", "backslashreplace"), check=False,
                             env={"LESS": "R", **os.environ})
        return ran.returncode not in NOT_RUN
    except OSError:
        return False
    finally:
        signal.signal(signal.SIGINT, before)
