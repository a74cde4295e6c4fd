"""All of an answer in words: who is stuck, who isn't, who is undecided; where it has to be broken; what is known of
that. And the chain of one process, and the first line alone."""
from __future__ import annotations

from collections import Counter
from typing import Callable, Dict, Iterable, Iterator, List, Sequence

from ..core.doubt_words import NAMES
from ..core.files import MOST_OF_LINE, short_name, shown
from ..core.sketch import ALL, ANY, LIMIT
from .terminal import PLAIN, AsItIs, Painted, Style, fill, lay_out, paint_line
from ..core.words import few, number_of
from .reasons import more_lines, rests_lines
from .view import GOES_ON, LIKELY, LINES, NOT_STUCK, RUNNING, STUCK, UNDECIDED, Tree, View

UNSAID = "it isn't said why"


class WholeText(View):
    """All that is said of an answer."""

    def lines(self, index: int, more: Sequence[int] = ()) -> List[str]:
        """Returns the line of one, or of it and more that are alike, and one of the note."""
        row, note = self.rows[index], self.note(index)
        where = f" on {short_name(row['site'])}" if row["site"] is not None else ""
        names = self.some([self.name(it) for it in (index, *more)])
        line = f"  {names}{where}{': each' if more else ''} {self.wait(index, not more)}"
        effect = shown(row["effect"]) if not more and self.is_inside(index) else ""
        return [line, *(f"      {text}" for text in (note, effect) if text)]

    def group(self, listed: Iterable[int], end: Callable[[List[int]], str] = lambda row: "") -> List[str]:
        """Returns the lines of a list in which those that are alike share one. `end` gives what a line ends with."""
        groups: Dict[object, List[int]] = {}
        for index in listed:
            row = self.rows[index]
            whom = row["waits_for_list"] or (*self.whom(index, True), *row["one_of"])
            alike = row["kind"], whom, self.note(index), row["site"], row["reason"]
            groups.setdefault(alike, []).append(index)
        rows = list(groups.values())
        most = len(rows) if self.everything else LINES
        lines = []
        for numbers in rows[:most]:
            first, *rest = self.lines(numbers[0], numbers[1:])
            lines += [first + end(numbers), *rest]
        left = sum(map(len, rows[most:]))
        return lines + ([f"  and {number_of(left)} more (--all shows them)"] if left else [])

    # The paragraphs

    def paragraphs(self) -> Iterator[List[str]]:
        counts = self.tree["counts"]
        yield self.head()
        yield from self.all_roots()
        shared = [index for index, row in enumerate(self.rows) if row["root"] is None and len(row["behind"]) > 1]
        if shared:
            yield self.behind_several(shared)
        if self.roots:
            yield self.advice()
        if counts[UNDECIDED]:
            yield self.undecided_lines()
        if counts[NOT_STUCK]:
            yield self.other_lines()
        yield from filter(None, [self.cut_lines(), self.unconfirmed(), self.warnings()])

    def counts_line(self) -> Painted:
        """Returns the headline with all counts."""
        counts = self.tree["counts"]
        words = {STUCK: f"{counts[STUCK]:,} stuck", LIKELY: f"{counts[LIKELY]:,} likely stuck",
                 UNDECIDED: f"{counts[UNDECIDED]:,} undecided", NOT_STUCK: f"{counts[NOT_STUCK]:,} not stuck"}
        ended = f"; {number_of(counts['ended'])} more {'has' if counts['ended'] == 1 else 'have'} ended"
        said = [text for verdict, text in words.items() if verdict != LIKELY or counts[LIKELY]]
        line = f"{self.tree['headline']}: {number_of(counts['processes'])}: {', '.join(said)}" \
            f"{ended if counts['ended'] else ''}."
        return paint_line(line, *((part, verdict) for verdict, part in words.items() if counts[verdict]))

    def head(self) -> List[str]:
        as_of = self.tree["as_of"]
        return [self.counts_line(), *([f"This is {shown(as_of)}."] if as_of else [])]

    def all_roots(self) -> Iterator[List[str]]:
        """A paragraph for each of the first few roots, and one on the others."""
        most = len(self.roots) if self.everything else LINES
        yield from map(self.root, range(len(self.roots[:most])))
        rest = self.tree["roots"][most:]
        if rest:
            behind, inside = (sum(len(row[key]) for row in rest) for key in ("behind", "members"))
            yield [f"And {number_of(len(rest), 'root', 'roots')} more (--all shows them): {inside:,} in them, and "
                   f"{behind:,} stuck behind one of them alone"]

    def root_head(self, number: int) -> List[str]:
        members = len(self.roots[number])
        what = "process, and nobody can unblock it" if members == 1 else \
            "processes wait for each other, and nobody else can unblock them"
        likely, verdict = ("", STUCK) if self.tree["roots"][number]["is_certain"] else (", likely", LIKELY)
        return [paint_line(f"Root {number + 1}{likely}: {members:,} {what}", verdict), *self.cycle_lines(number)]

    def cycle_lines(self, number: int) -> List[str]:
        """Returns the line that draws a root that is one cycle, with as many of its names as fit."""
        names = [self.name(index) for index in self.roots[number] if self.tree["roots"][number]["is_cycle"]]
        for most in range(min(len(names), self.style.width // 4), 1, -1):
            more = [f"{len(names) - most:,} more"] if names[most:] else []
            line = "  " + f" {self.style.arrow} ".join([*names[:most], *more, names[0]])
            if len(line) <= self.style.width:
                return [AsItIs(line)]
        return []

    def root(self, number: int) -> List[str]:
        row, behind = self.tree["roots"][number], self.behind(number)
        lines = [*self.root_head(number), *self.group(self.roots[number]), *self.behind_lines(number),
                 *self.doubt_lines(number), *rests_lines(self.tree, row["rests_on"], self.everything)]
        if behind:
            head = f"Stuck behind root {number + 1} alone: {number_of(len(behind))}"
            lines += [paint_line(head, STUCK), *self.group(behind)]
            lines += more_lines(self.tree, row["behind_rests_on"], row["rests_on"], self.everything)
        return lines

    def behind_lines(self, number: int) -> List[str]:
        """Returns the line that tells which members may only be behind the rest."""
        names = [short_name(name) for name in self.tree["roots"][number]["maybe_behind"]]
        return [f"Some may only be behind the rest, as the state doesn't show who has what is wanted: "
                f"{self.some(names)}"] if names else []

    def doubt_lines(self, number: int) -> List[str]:
        """Returns the doubts on which it hangs that the members of a root are stuck."""
        lines = [f"  {doubt['number']}: {self.doubt_words(doubt, self.roots[number])}"
                 for doubt in self.doubts_of(number)]
        return ["Unless", *self.first(lines, ("doubt", "doubts"))] if lines else []

    def behind_several(self, shared: List[int]) -> List[str]:
        lines: List[str] = [paint_line(f"Stuck behind more than one root: {number_of(len(shared))}", STUCK)]
        most = len(shared) if self.everything else LINES
        for index in shared[:most]:
            first, *more = self.lines(index)
            lines += [f"{first} ({self.root_names(index)})", *more]
        if shared[most:]:
            lines.append(f"  and {number_of(len(shared) - most)} more (--all shows them)")
        return lines

    def advice(self) -> List[str]:
        hidden = " There may be more roots among the undecided ones." if self.undecided else ""
        lines = [f"What can be done.{hidden} Restarting a process behind a root doesn't break it."]
        lines += self.first([f"  Break root {number + 1}: {self.restart(number)}" for number in range(len(self.roots))],
                            ("root", "roots"))
        left = [*map(short_name, self.tree["still_stuck"])]
        if left:
            lines.append(f"Once all roots run, {number_of(len(left), 'process is', 'processes are')} still "
                         f"stuck, as each waits for all of several: {self.some(left)}. Break a wait of these too.")
        lines += [
            "What can be restarted is an OS process, a node or a job: no thread, task or rank by itself. A supervisor "
            "that has to do it may itself be stuck, in this root or in another.",
            "A member that is killed while it holds or writes something may leave the others stuck again, and one that "
            "continues may take what another one waits for. So take the state again after each restart.",
        ]
        if not self.tree["as_of"]:
            lines.append("This is one state. If its processes were read one after the other while some continued, it "
                         "may show a deadlock that never was: take another, and compare them with 'cmh-dump both'.")
        return lines

    # Those that aren't stuck

    def undecided_lines(self) -> List[str]:
        """The undecided ones, by the unknown ones that they depend on."""
        unknown = {self.index[row["name"]]: row for row in self.tree["unknown"]}
        others = len(self.undecided) - len(unknown)
        more = f", and {number_of(others, 'other that depends', 'others that depend')} on them" if others else ""
        head = f"Undecided: {number_of(len(unknown))} of which the state doesn't say enough{more}" if unknown else \
            f"Undecided: {number_of(others)}, and nobody goes on who may unblock {'it' if others == 1 else 'them'}"
        lines = [paint_line(head, UNDECIDED),
                 *self.group(unknown, lambda numbers: self.waiters_words(numbers, unknown[numbers[0]]))]
        if self.tree["proposals"]:
            lines += ["Facts that would decide them, for you to complete:"]
            lines += self.first([AsItIs(f"  {shown(row['says'], MOST_OF_LINE)}") for row in self.tree["proposals"]],
                                ("line", "lines"))
            lines += [AsItIs(f"  {shown(line, MOST_OF_LINE)}") for line in self.tree["legend"]]
        return lines

    def waiters_words(self, numbers: List[int], row: Tree) -> str:
        """Returns how many depend on an unknown one, or on the first of several that are alike, which has most."""
        if not row["others"]:
            return ""
        most = len(row["names"]) if self.everything else NAMES
        names = few(map(short_name, row["names"][:most]), most, number=row["others"])
        words = number_of(row["others"], "other depends", "others depend")
        words = words if row["is_whole"] else f"at least {words}"
        return f" ({words} on {self.name(numbers[0]) if numbers[1:] else 'it'}: {names})"

    def other_lines(self) -> List[str]:
        """Those that aren't stuck, by who runs."""
        well = self.with_verdict(NOT_STUCK)
        head = f"Not stuck: {number_of(len(well))}, as far as the state shows. That doesn't mean that they make " \
            "progress."
        lines: List[str] = [paint_line(head, ("Not stuck", NOT_STUCK))]
        running = [index for index in well if self.rows[index]["goes_on"] == RUNNING or self.is_quiet(index)]
        why = Counter(shown(self.rows[index]["reason"]) or UNSAID for index in running)
        words = "; ".join(f"{number:,}: {reason}" for reason, number in why.most_common())
        if running:
            lines.append(f"  {number_of(len(running), 'runs', 'run')}" + (f" ({words})" if set(why) - {UNSAID} else ""))
        return lines + self.followers(well) + self.supposed_lines() + self.limited_lines()

    def followers(self, well: List[int]) -> List[str]:
        """Those that others hang on, with these, and others that go on by themselves."""
        followers: Dict[int, List[str]] = {}
        for index in self.along_paths():
            followers.setdefault(self.index[self.rows[index]["unblocked_by"]], []).append(self.name(index))
        rows = sorted(followers.items(), key=lambda row: -len(row[1]))
        lines = self.first([f"  {self.name(end)}, which {self.goes_on_words(end)}, may unblock {self.some(names)}"
                            for end, names in rows], ("process", "processes"))
        alone = [index for index in well if self.rows[index]["goes_on"] in GOES_ON and index not in followers]
        return lines + self.first([f"  {self.name(index)}: {self.goes_on_words(index)}" for index in alone],
                                  ("process", "processes"))

    def supposed_lines(self) -> List[str]:
        """Those that run on a premise alone, but for a limit of their wait."""
        sentences = {row["name"]: row["text"] for row in self.tree["premises"]}
        names = {name: [*map(self.name, indices)] for name, indices in self.runners_by_premise().items()}
        return self.first([f"  on the premise that {shown(sentences.get(name, name))}: {self.some(others)}"
                           for name, others in names.items() if name != LIMIT], ("premise", "premises"))

    def limited_lines(self) -> List[str]:
        """Those that wait with a limit and stood at the same place in all states, with what would decide them."""
        rows = self.tree["limits"]
        if not rows:
            return []
        lines = [f"With a limit at the same place in all states: {number_of(sum(len(row['names']) for row in rows))}. "
                 "One that only waits again and again needs a fact, or '-> frees nobody' if it ends nobody's wait; one "
                 "that does something else after its limit needs none:"]
        texts = [f"  {shown(row['fact'], MOST_OF_LINE)}  # {self.some([*map(short_name, row['names'])])}"
                 for row in rows]
        return lines + self.first([*map(AsItIs, texts)], ("place", "places"))

    def cut_lines(self) -> List[str]:
        words = ", and ".join(self.tree["cut"]["says"])
        return [f"The dump is made smaller: {words}. All are counted here, and what is said of those "
                "that it hasn't follows from the others."] if words else []

    def unconfirmed(self) -> List[str]:
        words = self.tree["cut"]["unconfirmed"]
        return [f"This answer is {words}."] if words else []

    def warnings(self) -> List[str]:
        lines = [f"  {shown(line)}" for line in self.tree["warnings"]]
        return ["Warnings:"] + self.first(lines, ("warning", "warnings")) if lines else []

    # One process and why

    def why_head(self) -> Painted:
        why = self.tree["why"]
        answer = self.answer(self.index[why["name"]])
        return paint_line(f"{short_name(why['name']) or repr('')}: {answer}.", (answer, why["verdict"]))

    def why(self) -> List[List[str]]:
        """Returns the chain from the one that is asked for to what its answer rests on."""
        chain = self.numbers(self.tree["why"]["chain"])
        root, end = self.rows[chain[-1]]["root"], chain[-1]
        lines: List[str] = [self.why_head()]
        rests = rests_lines(self.tree, self.tree["why"]["rests_on"], self.everything)
        if root:
            lines += [line for index in chain[:-1] for line in self.lines(index)]
            return [lines, [*self.root_head(root - 1), *self.group(self.roots[root - 1]), *self.doubt_lines(root - 1),
                            *rests]]
        lines += [line for index in chain for line in self.lines(index)]
        if self.rows[chain[0]]["verdict"] != UNDECIDED and self.rows[end]["kind"] in (ANY, ALL):
            lines.append(f"{self.name(end)}: {self.goes_on_words(end)}")
        return [[*lines, *rests]]


def whole(tree: Tree, style: Style = PLAIN) -> str:
    """Returns all of an answer in words."""
    return fill(WholeText(tree, True, style).paragraphs(), style)


def why(tree: Tree, everything: bool = False, style: Style = PLAIN) -> str:
    """Returns the chain of the one that is asked for."""
    return fill(WholeText(tree, everything, style).why(), style)


def summary(tree: Tree, style: Style = PLAIN) -> str:
    """Returns the first line, or that of the chain of the one that is asked for."""
    view = WholeText(tree, False, style)
    line = view.counts_line() if tree["why"] is None else view.why_head()
    return lay_out(line, style._replace(width=len(line) + 1)) + "\n"
