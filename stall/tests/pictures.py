"""Reads pictures back: the boxes, frames and arrows of a graph for Graphviz, and the texts of an SVG. And stalls of
many processes."""
import re
import xml.etree.ElementTree as ElementTree

BOX = re.compile(r'  p(\d+) \[label="((?:[^"\\]|\\.)*)", .*class=(\w+)\];')
ARROW = re.compile(r"  ([pw])(\d+) -> ([pw])(\d+) \[(.*)\];")
WORDS = re.compile(r'  w(\d+) \[label="([^"]*)", ')
FRAME = re.compile(r"  subgraph cluster_(\w+) \{")
STUCK, UNDECIDED = ("root", "behind", "shared", "more"), ("undecided", "unknown")


class Graph:
    """What the text of a graph has: of each box its lines, its sort, and the root whose frame it is in; and the
    arrows, each with its style, and those that have words with these."""

    def __init__(self, text):
        self.lines, self.sorts, self.root, self.arrows, self.words = {}, {}, {}, [], {}
        halves = {}  # what is known of each arrow with words, by the number of these
        frames = []
        for line in text.split("\n"):
            if found := FRAME.match(line):
                frames.append(found[1])
            elif line.startswith("  }"):
                frames.pop()
            elif found := BOX.match(line):
                self.lines[found[1]], self.sorts[found[1]] = lines_of(found[2]), found[3]
                self.root[found[1]] = next((it for it in frames if it.startswith("root_")), "")
            elif found := WORDS.match(line):
                halves[found[1]] = {"words": found[2]}
            elif found := ARROW.match(line):
                self.arrow(halves, *found.groups())

    def arrow(self, halves, start_sort, start, end_sort, end, look):
        """Takes an arrow, or, as its words stand between, a half of it. One that points back is turned."""
        if "w" in (start_sort, end_sort):
            number, other = (start, end) if start_sort == "w" else (end, start)
            halves[number].update({"start" if "dir=none" in look else "end": other, "look": look})
            if len(halves[number]) < 4:
                return
            it = halves[number]
            start, end, look, words = it["start"], it["end"], it["look"], it["words"]
        else:
            start, end, words = (end, start, "") if "dir=back" in look else (start, end, "")
        self.arrows.append((start, end, style_of(look)))
        if words:
            self.words[self.first(start), self.first(end)] = words

    def first(self, number):
        """Returns the first name in a box."""
        return self.lines[number][-1 if self.lines[number][0][0] == "+" else 0].split(",")[0]

    def named(self):
        """Returns the arrows between names, of a graph in which each box has one process."""
        return {(self.lines[start][0], self.lines[end][0], style) for start, end, style in self.arrows}

    def heads(self):
        """Returns the first line of each box with its sort."""
        return {lines[0]: self.sorts[number] for number, lines in self.lines.items()}

    def counts(self):
        """Returns how many processes the boxes of the stuck, of the undecided and of the others have."""
        found = [0, 0, 0]
        for number, lines in self.lines.items():
            sort = self.sorts[number]
            found[0 if sort in STUCK else 1 if sort in UNDECIDED else 2] += count_of(lines)
        return found


def lines_of(label):
    """The lines of a label between quotes."""
    parts = re.findall(r'\\[nl]|\\.|[^\\]', label)
    text = "".join("\n" if it in ("\\n", "\\l") else it[-1] for it in parts)
    return text.rstrip("\n").replace("&amp;", "&").split("\n")


def style_of(words):
    return "message" if "dashed" in words else "all" if "penwidth" in words else "any"


def count_of(lines):
    """How many processes a box has, by its lines: a number before a word, roots that aren't drawn, or names."""
    if "roots more" in lines[0]:
        found = (re.match(r"([\d,]+) (?:process|stuck)", line) for line in lines[1:])
        return sum(int(it[1].replace(",", "")) for it in found if it)
    found = re.match(r"\+?([\d,]+) (processes|behind|hang on|unknown|not stuck|run|have ended)", lines[0])
    return int(found[1].replace(",", "")) if found else lines[0].count(", ") + 1


def texts_of_svg(text):
    """The texts of an SVG, but for what stands in no picture, and the names of all its elements."""
    tree = ElementTree.fromstring(text)
    tags = {it.tag.split("}")[-1] for it in tree.iter()}
    return [it.text for it in tree.iter() if it.tag.endswith("}text")], tags


# What stands on an arrow, by the sketch alone


def plain_words(sketch, start, end, kind, is_far):
    """The words on an arrow of a kind between boxes with these names, or from one to a root that it is behind."""
    rows = {row["name"]: row for row in sketch["processes"]}
    sent = sketch["in_transit"]
    found = {}
    for name in start:
        whom = [it for it in rows[name].get(kind, ()) if kind == "waits_for_any" or [it, name] not in sent]
        if kind == "message":
            whom = [to for sender, to in sent if sender == name]
        found.update({name: end.intersection(whom)} if end.intersection(whom) else {})
    if is_far:
        return f"{len(found):,} of {len(start):,} directly" if found else "through others"
    some = f"{len(found)} of {len(start)}" if len(found) < len(start) else "all" if start[1:] else ""
    wanted = whom_words({name: frozenset(it) for name, it in found.items()}, end, kind)
    if some in ("all", "") and wanted[:1].isdigit():
        return f"{some} → {wanted}" if some else wanted
    some = "" if some == "all" else some
    wanted = "" if wanted[:3] in ("all", "any") and not some else wanted
    return " → ".join(filter(None, [some, wanted]))


def whom_words(found, end, kind):
    if len(end) == 1:
        return ""
    if all(end - {name} <= whom for name, whom in found.items()):
        return f"{'any of' if kind == 'waits_for_any' else 'all'} {len(end)}"
    sets = {*found.values()}
    if len(sets) == 1:
        return f"{len(next(iter(sets)))} of {len(end)}"
    if max(map(len, sets)) > 1:
        return "each some of these"
    return "each its own" if len(sets) == len(found) else "each one of these"


# Stalls of many processes


def any_of(name, *whom, **more):
    return {"name": name, "waits_for_any": list(whom), **more}


def pool(clients):
    """Two that move money and hold each other's row, clients that wait for both at one line, one that waits for all of
    these, one that is unknown with one behind it, and timers with one that one of these may unblock."""
    names = [f"http-{at}" for at in range(clients)]
    rows = [any_of("move-1", "move-2", note="lock in Ledger.move (ledger.py:88)"),
            any_of("move-2", "move-1", note="lock in Ledger.move (ledger.py:91)")]
    rows += [any_of(name, "move-1", "move-2", note="Pool.get (pool.py:31)") for name in names]
    rows += [{"name": "stop", "waits_for_all": names, "note": "join in Server.stop (server.py:140)"},
             {"name": "meter", "unknown": "no stack could be read"}, any_of("graph", "meter")]
    rows += [{"name": f"timer-{at}", "runs": "waits for a timer"} for at in range(3)]
    return [*rows, any_of("mailer", "timer-1", "http-1")]


def pairs(number, followers, are_alike=False):
    """Pairs that wait for each other, at lines of their own if they aren't alike, each with followers at one line, and
    clients of these at another."""
    rows = []
    for pair in range(number):
        one, other, line = f"a-{pair}", f"b-{pair}", 22 if are_alike else 100 + pair
        rows += [any_of(one, other, note=f"Put (shelf.go:{line})"), any_of(other, one, note="Put (shelf.go:25)")]
        some = [f"h-{pair}-{at}" for at in range(followers // (pair + 1))]
        rows += [any_of(it, one, other, note="Count (shelf.go:29)") for it in some]
        rows += [any_of(f"s-{it}", it, note="serve (serve.go:47)") for it in some]
    return rows


def rings(number, members):
    """Rings of processes that each stand at another line, with others behind them; some that are unknown, each with
    one behind it and one behind a ring too; and some that run."""
    rows = []
    for ring in range(number):
        names = [f"r{ring}-{at}" for at in range(members)]
        rows += [any_of(it, names[at - 1], site=f"s{at % 4}", note=f"f (a.c:{at})") for at, it in enumerate(names)]
        rows += [any_of(f"q{ring}-{at}", it, note=f"g (b.c:{at % 9})") for at, it in enumerate(names)]
    for at in range(members):
        rows += [{"name": f"u{at}", "unknown": f"why {at}"}, any_of(f"w{at}", f"u{at}", note=f"h (c.c:{at})"),
                 {"name": f"v{at}", "waits_for_all": [f"u{at}", f"r{at % number}-0"], "note": f"i (c.c:{at})"},
                 {"name": f"x{at}", "runs": f"why {at}"}]
    return rows
