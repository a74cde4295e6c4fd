"""A picture as a graph for Graphviz. What a box or an arrow is shows by its form, and not by its colour alone. Names
are data: each stands in a quoted string, and none in a label of HTML."""
from __future__ import annotations

import re
from typing import Dict, Iterable, Iterator, List, NamedTuple, Tuple

from ..core.files import MOST_OF_LINE, shown
from ..core.sketch import ALL, ANY
from ..core.words import number_of
from .arrow_words import lines_of_words
from .folding import BEHIND, FREE, MORE, OPEN, OVER, ROOT, RUNNING, SHARED, UNDECIDED
from .picture import MESSAGE, Arrow, Box, Picture

WIDTH, LINES = 36, 3  # of a text in a box
CAPTION, HEAD = 90, 66  # columns above the picture, and above a root
LEFT = "\\l"  # the end of a line that stands at the left
FRAMES = 16  # of sites; with more, the site stands in each box
LONG = 8  # ranks that an arrow crosses at most
FONT = "Helvetica,Arial,sans-serif"


class BoxLook(NamedTuple):
    """How the boxes of a sort look, and what the legend says of them."""

    text: str
    style: str
    fill: str
    width: float = 1


class Plan(NamedTuple):
    """How a graph is laid out: how wide the text of a box is, how far ranks are apart, and whether boxes of one site
    have a frame."""

    width: int = WIDTH
    gap: float = 0.55
    has_site_frames: bool = True


class Line(NamedTuple):
    """How an arrow looks, and what the legend says of both its ends."""

    start: str
    end: str
    look: str


BEHIND_LOOK = BoxLook("stuck behind a root", "filled", "#ffd8a8")
WELL_LOOK = BoxLook("not stuck", "filled,rounded", "#d3f2d3")
LOOKS = {
    ROOT: BoxLook("stuck, in a root", "filled,bold", "#ffb3ab", 2.5),
    BEHIND: BEHIND_LOOK,
    SHARED: BEHIND_LOOK,
    MORE: BoxLook("roots that aren't drawn", "filled,bold,dashed", "#ffb3ab", 2.5),
    UNDECIDED: BoxLook("hangs on an unknown one", "filled,diagonals", "#fff3b0"),
    OPEN: BoxLook("unknown", "filled,diagonals,dashed", "#ffffff"),
    FREE: WELL_LOOK,
    RUNNING: WELL_LOOK,
    OVER: BoxLook("has ended", "filled,dotted", "#eeeeee"),
}
ARROWS = {
    ANY: Line("who waits", "for whom: of several, any one is enough", ""),
    ALL: Line("who waits", "for whom: of several, each one is needed", "penwidth=2.6"),
    MESSAGE: Line("sender", "receiver of a message in transit",
                  'style=dashed, color="#0b57d0", arrowhead=vee'),
}
MANY = "On an arrow: how many → for how many, if not all for all"
FAR = "Those who don't wait for a root directly wait for others behind it"
FRAME_OF = {BEHIND: "behind", SHARED: "behind", MORE: "more", UNDECIDED: "undecided", OPEN: "undecided", FREE: "well",
            RUNNING: "well", OVER: "ended"}
FRAME_WORDS = {"more": "More roots", "undecided": "Undecided", "well": "Not stuck", "ended": "Ended"}
WITHIN = "Those of a box who are on no arrow wait for others in it"
Frames = Dict[str, List[Box]]


def dot(picture: Picture, plan: Plan = Plan()) -> str:
    """Returns the text of a graph for Graphviz."""
    lines = ["digraph stall {",
             f'  graph [rankdir=RL, compound=true, nodesep=0.22, ranksep={plan.gap}, pack=12, packmode="array_ctu1",',
             f'    labelloc=t, labeljust=l, fontname="{FONT}", fontsize=15, '
             f'label={label(filter(None, [picture.cure, picture.caption()]), CAPTION, LEFT)}];',
             f'  node [shape=box, fontname="{FONT}", fontsize=11, margin="0.14,0.07", color="#222222"];',
             f'  edge [fontname="{FONT}", fontsize=11, color="#222222", arrowsize=0.8];', *legend(picture)]
    for name, boxes in from_below(picture):
        lines += frame(picture, name, boxes, plan)
    between = (line for number, arrow in enumerate(picture.arrows)
               for line in arrow_lines(picture, number, arrow, plan))
    return "\n".join([*lines, *between, "}"]) + "\n"


# Frames


def from_below(picture: Picture) -> List[Tuple[str, List[Box]]]:
    """Returns the frames in the order in which Graphviz places those that no arrow joins: the first at the bottom. So
    what has to do with a root comes last, and the first root at the end."""
    frames = frames_of(picture.boxes)
    of = {box.number: name for name, boxes in frames.items() for box in boxes}
    joined = {name for name in frames if is_root(name) or name == FRAME_OF[BEHIND]}
    links = {(of[arrow.start], of[arrow.end]) for arrow in picture.arrows}
    for _ in frames:
        joined.update(name for link in links if joined.intersection(link) for name in link)
    return sorted(reversed(list(frames.items())), key=lambda row: row[0] in joined)


def frames_of(boxes: Iterable[Box]) -> Frames:
    """Returns the boxes of each frame: a root, those behind roots, which have none, and the others."""
    frames: Frames = {}
    for box in boxes:
        sort, root = box.part
        frames.setdefault(f"root_{root}" if sort == ROOT else FRAME_OF[sort], []).append(box)
    return frames


def is_root(name: str) -> bool:
    return name.startswith("root_")


def frame(picture: Picture, name: str, boxes: List[Box], plan: Plan) -> List[str]:
    """Returns the lines of the boxes of a frame, and of the words on arrows that stay in it."""
    is_ring = any(box.number in picture.ring for box in boxes)
    lines = list(site_frames(name, boxes, plan._replace(has_site_frames=plan.has_site_frames and not is_ring)))
    inside = {box.number for box in boxes}
    lines += [words_line(number, arrow, plan) for number, arrow in enumerate(picture.arrows)
              if arrow.words and inside.issuperset((arrow.start, arrow.end))]
    if is_root(name):
        words = label(picture.root_lines(boxes[0].part.root or 0), HEAD * plan.width // WIDTH, LEFT)
        head = f'label={words}, style="rounded,filled", color="#b3261e", ' \
            'fillcolor="#fff4f2", penwidth=2, fontsize=12, margin=18, class=rootframe, labeljust=r'
    elif name in FRAME_WORDS:
        head = f'label="{FRAME_WORDS[name]}", style=rounded, color="#999999", fontsize=11, class=frame, labeljust=r'
    else:
        return lines
    return [f"  subgraph cluster_{name} {{", f"    graph [{head}];", *lines, "  }"]


def site_frames(name: str, boxes: List[Box], plan: Plan) -> Iterator[str]:
    """Yields the lines of the boxes of a frame, those of each site in a frame of its own, if some site has several. In
    a ring, which sites would pull apart, each box says its own."""
    sites: Frames = {}
    for box in boxes:
        sites.setdefault(box.site, []).append(box)
    if len(sites) == 1 or len(sites) > FRAMES or max(map(len, sites.values())) == 1:
        is_said = len(sites) == 1 and is_root(name)
        yield from (box_line(box, not is_said, plan.width) for box in boxes)
        return
    for number, (site, own) in enumerate(sites.items()):
        is_framed = site != "" and own[0].is_at_one_site and (len(own) > 1 or is_root(name)) and plan.has_site_frames
        lines = [box_line(box, not is_framed, plan.width) for box in own]
        head = f'graph [label={label(["on " + site], plan.width)}, style=dashed, color="#777777", class=site, ' \
            "fontsize=11];"
        yield from [f"  subgraph cluster_{name}_{number} {{ {head}", *lines, "  }"] if is_framed else lines


# Boxes and arrows


def box_line(box: Box, has_site: bool, width: int) -> str:
    return f"  p{box.number} [label={label(box.text(has_site), width)}, {look_words(box.part.sort)}];"


def look_words(sort: str) -> str:
    look = LOOKS[sort]
    return f'style="{look.style}", fillcolor="{look.fill}", penwidth={look.width}, class={sort}'


def words_line(number: int, arrow: Arrow, plan: Plan) -> str:
    """Returns the line of the words on an arrow, which are broken where boxes are narrow. They are a node of their own,
    for Graphviz drops the label of an arrow when it packs frames."""
    words = arrow.words if plan.width == WIDTH else "\\n".join(lines_of_words(arrow.words))
    look = 'shape=plaintext, height=0.2, margin="0.04,0.01", fontsize=11'
    return f'  w{number} [label="{words}", {look}, class=a{number}];'


def arrow_lines(picture: Picture, number: int, arrow: Arrow, plan: Plan) -> Iterator[str]:
    """Yields the lines of an arrow. Graphviz draws from the right to the left. Within a root those who wait stand at
    the left of whom they wait for, as one reads, and all others at the right of the whole root."""
    start, end = picture.boxes[arrow.start].part, picture.boxes[arrow.end].part
    is_within = start == end and start.sort == ROOT and arrow.style != MESSAGE
    turn = picture.turn(arrow) if is_within else 0
    looks = [ARROWS[arrow.style].look] if ARROWS[arrow.style].look else []
    looks += ["constraint=false"] if arrow.style == MESSAGE or is_within and not turn else []
    is_within = is_within and turn >= 0
    looks.append(f'class="message a{number}"' if arrow.style == MESSAGE else f"class=a{number}")
    head = ["dir=back"] if is_within else [f"lhead=cluster_root_{end.root}"] if arrow.to_root else []
    if end.sort == ROOT != start.sort:
        length = min(sum(box.part == end for box in picture.boxes), LONG) if plan.width == WIDTH else 1
        head.append(f"minlen={length}")
    if arrow.words:
        yield words_line(number, arrow, plan)
        yield line_between(f"p{arrow.start}", f"w{number}", is_within, [*looks, "dir=none"])
    yield line_between(f"w{number}" if arrow.words else f"p{arrow.start}", f"p{arrow.end}", is_within, [*looks, *head])


def line_between(start: str, end: str, is_turned: bool, looks: List[str]) -> str:
    first, second = (end, start) if is_turned else (start, end)
    return f"  {first} -> {second} [{', '.join(looks)}];"


def legend(picture: Picture) -> List[str]:
    """Returns the lines of a legend of what the picture has: a frame of arrows, and one of boxes."""
    styles = [ARROWS[style] for style in ARROWS if any(arrow.style == style for arrow in picture.arrows)]
    sorts = list({LOOKS[box.part.sort]: box.part.sort for box in picture.boxes}.values())
    arrows = [f'    a{number} [label="{line.start}", height=0.2]; '
              f'b{number} [label="{line.end}", shape=plaintext, height=0.2]; '
              f"a{number} -> b{number} [{line.look}];" for number, line in enumerate(styles)]
    notes = notes_of(picture)
    arrows += [f"    notes [label={label(notes, HEAD, LEFT)}, shape=plaintext];"] if notes else []
    boxes = [f'    k{number} [label="{LOOKS[sort].text}", {look_words(sort)}];' for number, sort in enumerate(sorts)]
    boxes += [f"    k{number + 1} -> k{number} [style=invis];" for number in range(len(sorts) - 1)]
    head = 'style=dotted, color="#777777", fontsize=11, labeljust=r, class=legend'
    frames = ("arrows", "What an arrow is", arrows), ("boxes", "What a box is", boxes)
    return [line for name, words, lines in frames if lines for line in
            [f'  subgraph cluster_{name} {{ graph [label="{words}", {head}];', *lines, "  }"]]


def notes_of(picture: Picture) -> List[str]:
    """Returns what has to be said of arrows, and of what isn't drawn."""
    notes = ["An arrow to the frame of a root leads to several in it"] * any(arrow.to_root for arrow in picture.arrows)
    counted = [arrow for arrow in picture.arrows if arrow.words and not arrow.is_far]
    notes += [MANY] * bool(counted)
    notes += [FAR] * any(arrow.is_far for arrow in picture.arrows)
    notes += [WITHIN] * any(arrow.start in picture.within for arrow in counted)
    stand_ins = "1 who only stands for others isn't drawn" if picture.stand_ins == 1 else \
        f"{picture.stand_ins:,} who only stand for others aren't drawn"
    notes += [stand_ins] if picture.stand_ins else []
    left = number_of(picture.left_out, "more arrow isn't drawn", "more arrows aren't drawn")
    notes += [f"{left} (--all)"] if picture.left_out else []
    return notes


# Texts


def label(texts: Iterable[str], width: int, end: str = "\\n") -> str:
    """Returns a label between quotes, in which each text is broken into lines, of which it has at most a few."""
    return '"' + "".join(escape(line) + end for text in texts for line in wrap(text, width)) + '"'


def wrap(text: str, width: int) -> List[str]:
    """Returns the lines of a text, at most LINES. A word that is longer than a line is broken behind a sign, if it has
    one."""
    lines = [""]
    for piece in pieces(text, width):
        if lines[-1] and len((lines[-1] + piece).rstrip()) > width:
            lines.append("")
        lines[-1] += piece
    lines = [line.rstrip() for line in lines]
    return lines if len(lines) <= LINES else [*lines[:LINES - 1], lines[LINES - 1][:width - 2] + " …"]


def pieces(text: str, width: int) -> Iterator[str]:
    for word in re.findall(r"\s*\S+\s*", text):
        fits = len(word.rstrip()) <= width
        yield from [word] if fits else re.findall(rf".{{1,{width - 1}}}[./:_,;-]|.{{1,{width}}}", word)


def escape(text: str) -> str:
    """Returns a text as it stands in a quoted string of Graphviz, which takes backslashes and entities for its own."""
    return in_svg(text).replace("\\", "\\\\").replace('"', '\\"').replace("&", "&amp;")


def in_svg(text: str) -> str:
    """Returns a text for people, without the two characters that no XML has."""
    return shown(text, MOST_OF_LINE).replace("\ufffe", "\\ufffe").replace("\uffff", "\\uffff")
