"""The answer as a page: one file of HTML that needs no network, and no script to be read. All that comes from a dump
is a text there: it is escaped, and no link is made of it, since links lead to numbers. What a script shows is data."""
from __future__ import annotations

import base64
import hashlib
import html
from typing import Collection, Dict, Iterable, Iterator, List, NamedTuple, Optional, Sequence, Tuple

from .. import VERSION
from ..core.files import MOST_OF_LINE, escaped, shown
from ..core.sketch import ALL, ANY, UNKNOWN
from ..core.steps import ways_of
from ..core.words import number_of
from .captions import headline, restarts
from .comparison import CHANGES, Comparison, RootChange
from .drawing import Drawing
from .page_data import WORDS, Data, end_words, said_of, text_of_data
from .page_look import FILTER, PAGE, PANEL, VIEW, script, style
from .view import Tree, View
from .wait_graph import WaitGraph
from .whole import WholeText

ROWS, ROOTS, NAMES, STEPS, LINES = 100_000, 50, 5, 3, 100  # as many are shown, unless all are asked for
PAPER = 100  # rows of the table that needs no script, and is printed
LONG, LONG_LINK = 400, 80  # characters of a text in the table, and of a link
HEADS = ("Process", "Answer", "Site", "What it does", "What it waits for", "Chain", "Rests on")
ANSWERS = (("", "all"), ("stuck", "stuck"), ("likely", "likely stuck"), ("inroot", "in a root"),
           ("undecided", "undecided"), ("not_stuck", "not stuck"), ("ended", "has ended"))
MADE = "Made by cmh-explain {}. The program cmh, with the SHA-256 {}, has confirmed this answer. What cmh says of " \
    "the dump is proved. What is said of the state is tested, not proved."
States = Sequence[Tuple[str, str]]


class Older(NamedTuple):
    """An older answer that stands beside: how the newer one compares with it, and its picture."""

    comparison: Comparison
    picture: str


class PageSection(NamedTuple):
    """A part of the page: its anchor, its heading, what the list of parts calls it, and what it has."""

    name: str
    head: str
    word: str
    parts: List[str]


def text(value: object) -> str:
    """Returns a text as it stands in a page."""
    return html.escape(shown(str(value), MOST_OF_LINE))


def digest(body: str) -> str:
    return base64.b64encode(hashlib.sha256(body.encode()).digest()).decode()


def list_of(items: Iterable[str]) -> List[str]:
    """Returns a list of items, or nothing."""
    body = "\n".join(f"<li>{item}</li>" for item in items)
    return [f"<ul>\n{body}\n</ul>"] if body else []


class Page:
    """The page of an answer. `states` are texts with their names. An older answer may stand beside."""

    def __init__(self, graph: WaitGraph, picture: Drawing, states: States, older: Optional[Older]) -> None:
        self.view, self.tree, self.picture, self.states, self.older = graph, graph.tree, picture, states, older
        self.rows, self.index, self.restarts = graph.rows, graph.index, restarts(graph)
        self.steps = graph.next_steps()
        self.ways = ways_of(self.steps)
        order = sorted(range(len(self.rows)), key=self.place)
        self.order = order[:self.most(order, ROWS)]
        self.on_paper = self.order[:PAPER]
        self.in_table = {*self.on_paper}
        self.reasons = {f"{kind} {row[key]}": number for kind, key, row, number in self.all_reasons()}

    def all_reasons(self) -> Iterator[Tuple[str, str, Tree, int]]:
        rows = [("premise", "name", row) for row in self.tree["premises"]]
        rows += [("fact", "at", row) for row in self.tree["facts"]]
        yield from ((*row, number) for number, row in enumerate(rows))

    def place(self, index: int) -> Tuple[int, int]:
        """Returns where a process stands in the table: in or behind which root, and then by its verdict."""
        row = self.rows[index]
        if row["verdict"] in ("stuck", "likely"):
            return 0 if row["root"] else 1, row["root"] or row["behind"][0]
        return {"undecided": 2, "not_stuck": 3}.get(row["verdict"], 4), row["kind"] != UNKNOWN

    def html(self) -> str:
        """Returns the text of the page."""
        sections = [PageSection("since", "Since the older answer", "Since then", list(self.since())),
                    PageSection("roots", "Roots: where it has to be broken", "Roots", list(self.roots())),
                    PageSection("picture", "Picture", "Picture", [VIEW.format(picture=self.picture.svg)]),
                    PageSection("undecided", "Undecided", "Undecided", list(self.undecided_parts())),
                    PageSection("processes", "Processes", "Processes", self.table()),
                    PageSection("well", "Not stuck", "Not stuck", self.well()),
                    PageSection("reasons", "On what the answer rests", "Reasons", self.reason_parts()),
                    PageSection("warnings", "Warnings", "Warnings", list_of(map(text, self.tree["warnings"]))),
                    PageSection("state", "The state", "State", list(self.state_parts()))]
        there = [section for section in sections if section.parts]
        looks, acts = style(), script()
        return PAGE.format(
            policy=f"style-src 'sha256-{digest(looks)}'; script-src 'sha256-{digest(acts)}'", style=looks, script=acts,
            title=text(headline(self.view)), about=text(self.about()),
            links="\n".join(f'<a href="#{section.name}">{section.word}</a>' for section in there),
            sections="\n".join(map(text_of_section, there)), panel=PANEL, data=text_of_data(self.data()),
            made=MADE.format(VERSION, text(self.tree["program"]["sha256"])))

    def data(self) -> Tree:
        """Returns what the script knows."""
        changes = self.older.comparison.changes if self.older else {}
        return Data(self.view, self.order, self.steps, self.reasons, changes).tree_of(self.picture.picture)

    def about(self) -> str:
        """Returns what stands below the headline."""
        counts = self.tree["counts"]
        ended = f"; {counts['ended']:,} more ended" if counts["ended"] else ""
        words = f"{number_of(counts['processes'])}: {counts['stuck']:,} stuck, {counts['likely']:,} likely stuck, " \
            f"{counts['undecided']:,} undecided, {counts['not_stuck']:,} not stuck{ended}."
        return words + (f" This is {self.tree['as_of']}." if self.tree["as_of"] else "")

    # Two answers

    def since(self) -> Iterator[str]:
        """Yields what changed since an older answer, beside which this one stands."""
        if self.older is None:
            return
        compared = self.older.comparison
        heads = [f"<p>{text(headline(view))}</p>" for view in (compared.old, compared.new)]
        yield f'<div class="beside"><div><h3>Older</h3>{heads[0]}</div><div><h3>Newer</h3>{heads[1]}</div></div>'
        rows = [f"<tr><td>{self.cell(compared.old, change.old)}</td><td>{self.cell(compared.new, change.new)}</td>"
                f"<td>{self.root_words(change)}</td></tr>"
                for change in compared.roots[:self.most(compared.roots, ROOTS)]]
        if rows:
            yield '<table class="roots"><thead><tr><th scope="col">Older</th><th scope="col">Newer</th>' \
                '<th scope="col">Which is</th></tr></thead><tbody>'
            yield from (*rows, "</tbody></table>")
        yield from list_of(f"{number_of(len(names))} {several(change, len(names))}: {self.links(names)}"
                          for change, names in ((change, compared.names(change)) for change in CHANGES) if names)
        yield f"<details><summary>The older picture</summary>{self.older.picture}</details>"

    def cell(self, view: View, root: int) -> str:
        """Returns a root of an answer with its first members, or nothing where it isn't in it."""
        return f"Root {root}: {self.links(view.tree['roots'][root - 1]['members'])}" if root else ""

    def root_words(self, change: RootChange) -> str:
        came, left = (f"; {word} {self.links(names)}" if names else ""
                      for word, names in (("more:", change.came), ("no more:", change.left)))
        return f"{change.word}{came}{left}"

    # Roots

    def roots(self) -> Iterator[str]:
        rows = self.tree["roots"]
        most = self.most(rows, ROOTS)
        yield from map(self.root, rows[:most])
        if rows[most:]:
            yield f"<p>And {number_of(len(rows) - most, 'root', 'roots')} more, in the table below.</p>"
        if rows:
            yield from (f"<p>{text(line)}</p>" for line in self.advice() if not line.startswith(" "))

    def advice(self) -> List[str]:
        return WholeText(self.tree, self.view.everything).advice()

    def root(self, row: Tree) -> str:
        number, members = row["root"], row["members"]
        words = f"{len(members):,} processes wait for each other" if members[1:] else "nobody can unblock it"
        words += ", or some only for the rest" if row["maybe_behind"] else ""
        words += "" if row["is_certain"] else ", likely"
        restart = self.restarts[number - 1]
        several = self.links(members, " → ") + f" → {self.link(members[0])}" if row["is_cycle"] and \
            len(members) <= NAMES else self.links(members)
        behind = [f"<p>{number_of(len(row['behind']))} stuck behind it alone.</p>"] if row["behind"] else []
        rests = list(map(self.rest_words, row["rests_on"]))
        rests = [f"<p>It rests on {rests[0]}.</p>"] if len(rests) == 1 else ["<p>It rests on:</p>", *list_of(rests)]
        return "\n".join([f'<div class="root" id="root{number}">', f"<h3>Root {number}: {words}</h3>",
                          f'<p class="restart">{text(restart[:1].upper() + restart[1:])}</p>', f"<p>{several}</p>",
                          *self.doubts(row), *behind, *rests, "</div>"])

    def doubts(self, row: Tree) -> List[str]:
        """Returns the doubts of a root, and the words that say that they are none."""
        members, doubts = self.view.numbers(row["members"]), self.view.doubts_of(row["root"] - 1)
        if not doubts:
            return []
        items = [f"{doubt['number']}: {text(self.view.doubt_words(doubt, members))}" for doubt in doubts]
        numbers = ",".join(str(doubt["number"]) for doubt in doubts)
        return ["<p>Unless</p>", *list_of(items),
                f"<p>If none of them is so: <code>cmh-stall FOLDER --true {numbers}</code></p>"]

    def rest_words(self, row: Tree) -> str:
        """Returns on what a root rests, with the fact or the premise if it is one, and for how many."""
        name = self.to_reason(f"{row['kind']} {row['name']}", text(row["name"])) if row["name"] else ""
        return f"{text(row['text'])} ({', '.join(filter(None, [name, number_of(row['processes'])]))})"

    def to_reason(self, reason: str, words: str) -> str:
        """Returns words with the link to a fact or a premise, if it is one."""
        number = self.reasons.get(reason)
        return words if number is None else f'<a href="#r{number}">{words}</a>'

    def link(self, name: str) -> str:
        """Returns a name with the link to its row, if that is there. One of an older answer may have none."""
        if name not in self.index:
            return self.short(shown(name), LONG_LINK)
        index = self.index[name]
        words = self.short(self.view.name(index), LONG_LINK)
        return f'<a href="#p{index}">{words}</a>' if index in self.in_table else words

    def short(self, words: str, most: int = LONG) -> str:
        """Returns a text, at most its beginning."""
        return text(words) if len(words) <= most or self.view.everything else f"{text(words[:most])} …"

    def links(self, names: Sequence[str], between: str = ", ") -> str:
        """Returns the links of some names, at most the first few and how many more there are."""
        most = self.most(names, NAMES)
        more = f" and {len(names) - most:,} more" if names[most:] else ""
        return between.join(map(self.link, names[:most])) + more

    def most(self, rows: Collection[object], number: int) -> int:
        """Returns how many of some rows are shown: so many at most, unless all are asked for."""
        return len(rows) if self.view.everything else number

    # Undecided, and not stuck

    def undecided_parts(self) -> Iterator[str]:
        rows, undecided = self.tree["unknown"], self.tree["counts"]["undecided"]
        if not undecided:
            return
        others = undecided - len(rows)
        yield f"<p>Of {number_of(len(rows))} the state doesn't say enough{hang(others, ', and ', ' on these')}.</p>"
        yield from self.unknown_ones(rows)
        facts = self.tree["proposals"]
        if facts:
            lines = [*(fact["says"] for fact in facts[:LINES]), *self.tree["legend"]]
            yield "<p>Facts that would decide them, to be completed:</p>"
            yield f"<pre>{text_of_lines(lines)}</pre>"

    def unknown_ones(self, rows: List[Tree]) -> List[str]:
        """Returns the list of the unknown ones. Those of the same reason share an item."""
        groups: Dict[str, List[Tree]] = {}
        for row in rows:
            groups.setdefault(self.wait(self.index[row["name"]]), []).append(row)
        most = self.most(groups, LINES)
        items = []
        for reason, (first, *others) in list(groups.items())[:most]:
            names = self.links([row["name"] for row in (first, *others)])
            whom = self.link(first["name"]) if others else "it"
            items.append(f"{names}: {'each ' if others else ''}{reason}{hang(first['others'], ' (', f' on {whom})')}")
        items += [f"{number_of(len(groups) - most, 'reason', 'reasons')} more"] if len(groups) > most else []
        return list_of(items)

    def well(self) -> List[str]:
        """Returns what is said of those that aren't stuck: on which premises some run, and who may wait in vain at the
        end of a limit."""
        supposed = list(self.premise_items())[:LINES]
        return [*(["<p>These run on a premise:</p>", *list_of(supposed)] if supposed else []), *self.limits()]

    def premise_items(self) -> Iterator[str]:
        """Yields those that run on a premise, and do the same."""
        for name, indices in self.view.runners_by_premise().items():
            groups: Dict[str, List[str]] = {}
            for index in indices:
                groups.setdefault(self.rows[index]["reason"] or "runs", []).append(self.rows[index]["name"])
            for reason, names in groups.items():
                yield f"{self.links(names)}: {text(reason)}, on the {self.premise_link(name)}"

    def premise_link(self, name: str) -> str:
        sentence = next((row["text"] for row in self.tree["premises"] if row["name"] == name), name)
        return self.to_reason(f"premise {name}", f"premise that {text(sentence)}")

    def limits(self) -> List[str]:
        limits = [f"{row['fact']}  # {', '.join(row['names'][:NAMES])}" for row in self.tree["limits"]]
        if not limits:
            return []
        return ["<p>These waited with a limit, and stood at the same place in all states. One that only waits again "
                f"and again needs a fact:</p>\n<pre>{text_of_lines(limits[:LINES])}</pre>"]

    # The table

    def table(self) -> List[str]:
        """Returns the whole table, which the script fills, and the short one, which needs none."""
        counts = self.tree["counts"]
        options = "".join(f'<option value="{value}">{words}</option>' for value, words in ANSWERS)
        heads = "".join(f'<th scope="col"><button type="button">{head}</button></th>' for head in HEADS)
        total = number_of(counts["processes"] + counts["ended"])
        sorts = f"{total}: those of roots first, those behind them, the undecided ones, and the others."
        left, off = len(self.rows) - len(self.order), len(self.order) - len(self.on_paper)
        more = f" {number_of(left, 'more row is', 'more rows are')} left out here (--all)." if left else ""
        short = f" The first {len(self.on_paper)}; a script shows {off:,} more." if off else ""
        return [FILTER.format(answers=options),
                '<div class="wide" id="list" role="region" aria-labelledby="processes">\n<table id="table">\n'
                f"<caption>{sorts}{more}</caption>\n<thead><tr>{heads}</tr></thead>\n<tbody></tbody>\n</table>\n</div>",
                '<div class="wide paper" role="region" aria-labelledby="processes" tabindex="0">\n<table>',
                f"<caption>{sorts}{more}{short}</caption>\n<thead><tr>",
                *(f'<th scope="col">{head}</th>' for head in HEADS), "</tr></thead>\n<tbody>",
                *map(self.row, self.on_paper), "</tbody>\n</table>\n</div>"]

    def row(self, index: int) -> str:
        row = self.rows[index]
        sort = f"{row['verdict']} inroot" if row["root"] else row["verdict"]
        cells = (self.answer(row, index), self.short(row["site"] or ""), self.short(row["note"]), self.wait(index),
                 self.way(index), self.rests(row))
        body = "".join(f"<td>{cell}</td>" for cell in cells)
        return f'<tr id="p{index}" class="{sort}"><th scope="row">{self.short(self.view.name(index))}</th>{body}</tr>'

    def answer(self, row: Tree, index: int) -> str:
        words = text(self.view.answer(index))
        root = row["root"] or next(iter(row["behind"]), None)
        has_part = root is not None and (self.view.everything or root <= ROOTS)
        return f'<a href="#root{root}">{words}</a>' if has_part else words

    def wait(self, index: int) -> str:
        """Returns whom one waits for, with links, or why it doesn't."""
        row, lists = self.rows[index], self.tree["lists"]
        names = row["waits_for"] or lists.get(row["waits_for_list"], [])
        if row["kind"] not in (ANY, ALL) or not names:
            return text(said_of(self.view, index))
        several = {ANY: "any of ", ALL: "all of "}[row["kind"]] if names[1:] or row["kind"] == ALL else ""
        sent = f"; a message is in transit from {self.links(row['in_transit_from'])}" if row["in_transit_from"] else ""
        return f"{several}{self.links(names)}{sent}"

    def way(self, index: int) -> str:
        """Returns the way from one to what its answer rests on: the first few steps, and the last one."""
        if index not in self.ways:
            return text(end_words(self.view, index))
        length, end = self.ways[index]
        steps, last = [], index
        for _ in range(min(length, STEPS)):
            last = self.steps[last]
            steps.append(last)
        steps += [] if last == end else [end]
        links = [self.link(self.rows[step]["name"]) for step in steps]
        if length > len(steps):
            links.insert(-1, f"{length - len(steps):,} more")
        return f"→ {' → '.join(links)}, {text(end_words(self.view, end))}"

    def rests(self, row: Tree) -> str:
        return ", ".join(self.rest(reason) for reason in row["rests_on"]) or text(row["reason"])

    def rest(self, reason: str) -> str:
        return self.to_reason(reason, text(WORDS.get(reason) or reason.partition(" ")[2]))

    # Reasons, and the state

    def reason_parts(self) -> List[str]:
        items = []
        for kind, key, row, number in self.all_reasons():
            words = text(row["text"])
            words = f"the premise that {words}" if kind == "premise" else f"<code>{words}</code>"
            name = text(row[key])
            items.append(f'<span id="r{number}">{name}</span>: {words} ({number_of(row["processes"])})')
        return list_of(items)

    def state_parts(self) -> Iterator[str]:
        for name, state in self.states:
            lines = html.escape("\n".join(map(escaped, state.splitlines())))
            yield f'<details class="lines" data-name="{text(name)}"><summary><h3>{text(name)}</h3></summary>\n' \
                f"<pre>{lines}</pre></details>"


def hang(number: int, before: str, behind: str) -> str:
    """Returns in words how many hang on others, if some do."""
    return f"{before}{number_of(number, 'other hangs', 'others hang')}{behind}" if number else ""


def several(change: str, number: int) -> str:
    """Returns what became of some, as one says it of one or of several."""
    verb, _, rest = change.partition(" ")
    return change if number == 1 else f"{({'is': 'are', 'has': 'have'})[verb]} {rest}"


def text_of_section(section: PageSection) -> str:
    body = "\n".join(section.parts)
    head = f'<h2 id="{section.name}">{section.head}</h2>'
    return f'<section aria-labelledby="{section.name}" id="{section.name}part">\n{head}\n{body}\n</section>\n'


def text_of_lines(lines: Iterable[str]) -> str:
    return "\n".join(map(text, lines))
