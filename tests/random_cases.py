"""Makes random cases: dumps of many shapes, good and spoiled, each with the words of a command line."""
from __future__ import annotations

import copy
import json
import random
from collections import namedtuple
from functools import partial
from typing import Any

import reference

Case = namedtuple("Case", "kind words dump")
LARGEST = 2**64 - 1
FIRSTS = "ABCXYZabcxyz0189"
SIGNS = FIRSTS + "_-.:/"


# Shapes: of each process those that it waits for, by their places, or None where it is active.


def wake(draw, rows, *shares):
    """Makes a share of the processes active."""
    share = draw.choice(shares)
    return [None if draw.random() < share else row for row in rows]


def graph(draw, size, degree, *shares):
    """Returns a random graph in which each process waits for up to twice the degree."""
    counts = [min(size, draw.randint(0, 2 * degree)) for _ in range(size)]
    return wake(draw, [draw.sample(range(size), count) for count in counts], *shares)


def join(parts):
    """Returns the shapes side by side as one."""
    rows = []
    for part in parts:
        start = len(rows)
        rows.extend(row and [start + place for place in row] for row in part)
    return rows


def ring(size):
    return [[(place + 1) % size] for place in range(size)]


def rings(draw):
    return wake(draw, join(ring(draw.randint(1, 9)) for _ in range(draw.randint(1, 6))), 0, 0, 0.1)


def knot(draw):
    """Returns a ring with chords, and followers that wait for it or for each other."""
    size = draw.randint(1, 8)
    rows = [[(place + 1) % size, *draw.sample(range(size), draw.randint(0, size))] for place in range(size)]
    for place in range(size, size + draw.randint(0, 10)):
        rows.append(draw.sample(range(place), draw.randint(1, min(3, place))))
    return [list(dict.fromkeys(row)) for row in rows]


def knots(draw):
    """Returns knots, and processes that wait for members of several."""
    rows = join(knot(draw) for _ in range(draw.randint(1, 4)))
    size = len(rows)
    rows.extend(draw.sample(range(size), draw.randint(1, min(4, size))) for _ in range(draw.randint(0, 6)))
    return wake(draw, rows, 0, 0, 0.05)


def tree(draw):
    """Returns a tree in which children wait for their parents, or parents for their children."""
    up = [[], *([draw.randrange(place)] for place in range(1, draw.randint(1, 60)))]
    return wake(draw, draw.choice((up, reference.reverse(up))), 0, 0.05, 0.2)


def layer(draw, size, start, below):
    """Returns processes that wait for some of the next layer, which begins at a place."""
    counts = [draw.randint(min(1, below), min(4, below)) for _ in range(size)]
    return [[start + place for place in draw.sample(range(below), count)] for count in counts]


def layers(draw, most, width):
    rows, sizes = [], [draw.randint(1, width) for _ in range(draw.randint(1, most))]
    for size, below in zip(sizes, sizes[1:]):
        rows.extend(layer(draw, size, len(rows) + size, below))
    return rows + wake(draw, [[]] * sizes[-1], 0, 0.3, 1)


def path(draw, most, *ends):
    """Returns a path with one of the ends, each of which is what its last process waits for."""
    return [*([place] for place in range(1, draw.randint(1, most))), draw.choice(ends)]


def long_path(draw):
    """Returns paths of some hundreds, since each process on a path to an awake one names the rest of it."""
    return join(path(draw, 250, [], None) for _ in range(28))


def star(draw, most):
    """Returns processes that wait for the first, or a first process that waits for all."""
    size = draw.randint(1, most)
    return [draw.choice((None, [0], [], list(range(size)))), *([draw.choice(([], [0]))] * (size - 1))]


SHAPES = {
    "sparse graph": lambda draw: graph(draw, draw.randint(1, 60), 1, 0, 0, 0.05, 0.3),
    "medium graph": lambda draw: graph(draw, draw.randint(1, 40), 3, 0, 0.05, 0.2),
    "dense graph": lambda draw: graph(draw, draw.randint(1, 30), 15, 0, 0, 0.05),
    "rings": rings,
    "knots": knots,
    "tree": tree,
    "layers": lambda draw: layers(draw, 6, 8),
    "path": lambda draw: path(draw, 40, [], None, [0]),
    "star": lambda draw: star(draw, 40),
    "self loops": lambda draw: [[place] for place in range(draw.randint(1, 20))],
    "nobody to wait for": lambda draw: wake(draw, [[]] * draw.randint(1, 20), 0, 0.3),
    "all active": lambda draw: [None] * draw.randint(1, 20),
    "no process": lambda draw: [],
}
LARGE_SHAPES = {
    "paths": long_path,
    "ring": lambda draw: wake(draw, ring(draw.randint(2_000, 4_096)), 0, 0.01),
    "star": lambda draw: star(draw, 4_096),
    "graph": lambda draw: graph(draw, draw.randint(1_000, 2_000), 3, 0, 0.02),
    "layers": lambda draw: layers(draw, 5, 800),
}


# Dumps as values.


def mixed_names(draw, count):
    found = {}
    while len(found) < count:
        found[draw.choice(FIRSTS) + "".join(draw.choices(SIGNS, k=draw.randint(0, 7)))] = None
    return list(found)


def make_names(draw, count, style):
    if style == "mixed":
        return mixed_names(draw, count)
    start = "n" if style == "numbered" else "".join(draw.choices(FIRSTS, k=60))
    return [f"{start}{place:04}" if style == "long" else f"{start}{place}" for place in range(count)]


def make_process(draw, name, site, row, names):
    process = {"name": name, "site": site, "state": "active" if row is None else "idle"}
    if row is not None or draw.random() < 0.3:
        process["dependents"] = [names[place] for place in draw.sample(row or [], len(row or []))]
    return process


def make_messages(draw, processes):
    """Returns messages in transit: in some dumps none of them unblocks its receiver, in others many do."""
    share, size, messages = draw.choice((0, 0.1, 0.5)), len(processes), []
    # A ring of thousands with one awake process has a report of many megabytes.
    for _ in range(draw.choice((0, size // 2, size) if size > 1_000 else (0, min(size, 1), min(size, 3), size))):
        sender, receiver = draw.choice(processes), draw.choice(processes)
        if receiver.get("dependents") and draw.random() < share:
            messages.append([draw.choice(receiver["dependents"]), receiver["name"]])
        elif sender["name"] not in receiver.get("dependents", []):
            messages.append([sender["name"], receiver["name"]])
    return messages


def make_dump(draw, rows, style=None, site_count=None):
    """Returns a dump of this shape, mostly with its processes in a random order."""
    size, style = len(rows), style or draw.choice(("numbered", "mixed", "long"))
    order = draw.choice((draw.sample(range(size), size), range(size)))
    names = make_names(draw, size, style)
    sites = make_names(draw, site_count or draw.choice((1, 2, 5, size + 1)), style)
    processes = [make_process(draw, names[place], draw.choice(sites), rows[place], names) for place in order]
    dump = {"version": 1, "sites": sites, "processes": processes}
    if draw.random() < 0.4:
        dump.update(version=2, in_transit=make_messages(draw, processes))
    return dump


def small_dump(draw):
    return make_dump(draw, SHAPES[draw.choice(("sparse graph", "medium graph", "rings", "knots", "star"))](draw))


# Dumps as texts.


# Stands at both ends of a text that stands in a dump as it is, without quotes.
MARK = "\ue000"


class OddWriter:
    """Writes JSON with white space, escapes, orders of keys and repeated keys that all change nothing."""

    def __init__(self, draw):
        self.draw = draw

    def space(self, text):
        spaces = self.draw.choices(("", " ", "\n", "\t", "\r\n  "), (4, 1, 1, 1, 1), k=2)
        return text.join(spaces)

    def character(self, character):
        if character == "/" and self.draw.random() < 0.2:
            return "\\/"
        if self.draw.random() < 0.1 and ord(character) < 0x10000:
            return self.draw.choice(("\\u%04x", "\\u%04X")) % ord(character)
        return json.dumps(character, ensure_ascii=False)[1:-1]

    def item(self, key, value):
        return f"{self.space(self.write(key))}:{self.space(self.write(value))}"

    def items(self, value):
        for key in self.draw.sample(list(value), len(value)):
            if self.draw.random() < 0.05:
                yield self.item(key, self.draw.choice((None, 1.5, [], {"a": {}}, -7, "\U0001f600 é")))
            yield self.item(key, value[key])

    def write(self, value):
        if isinstance(value, str):
            return value.strip(MARK) if MARK in value else f'"{"".join(map(self.character, value))}"'
        if isinstance(value, dict):
            return f"{{{','.join(self.items(value))}}}"
        if isinstance(value, list):
            return f"[{','.join(self.space(self.write(item)) for item in value)}]"
        return json.dumps(value)


def write_compact(value):
    text = json.dumps(value, separators=(",", ":"), ensure_ascii=False)
    return text.replace(f'"{MARK}', "").replace(f'{MARK}"', "").encode()


def write(draw, value):
    text = write_compact(value)
    if len(text) > 10_000 or draw.random() < 0.6:
        return text
    return OddWriter(draw).space(OddWriter(draw).write(value)).encode()


# Faults of values, in the order of docs/FORMATS.md. Each changes a good dump, or one with later faults.

JUNK: list[Any] = [None, True, 7, -1, 1.5, "", "x", [], {}, [[]], {"a": 1}]
NO_NAMES = ["", "-a", "_a", ".a", ":", "/a", "a b", "a\n", "\na", "a\0", "a@b", "é", "aé", "ａ", "a,b", '"', "\\"]
NO_NAMES.append("a" * 65)
NO_VERSIONS = [0, 3, -1, "1", "2", True, None, [1], {}, 257, 4294967297, 2**64 + 1, 1e300, 1.5, ""]
NO_VERSIONS += [f"{MARK}{text}{MARK}" for text in ("1.0", "2.0", "1e0", "2E0", "10e-1", "-0", "-1e0")]


def junk(draw):
    """Returns a value of its own, since later faults may change it."""
    return copy.deepcopy(draw.choice(JUNK))


def no_name(draw):
    return draw.choice((junk(draw), draw.choice(NO_NAMES), draw.choice(NO_NAMES)))


def insert(draw, values, value):
    values.insert(draw.randint(0, len(values)), value)


def repeat(draw, values):
    """Adds a value once more, anywhere behind it."""
    place = draw.randrange(len(values))
    values.insert(draw.randint(place + 1, len(values)), values[place])


def spoil_top(draw, dump):
    """Returns another value in the place of the dump, or changes its keys, if it has some left."""
    if not dump:
        return dump
    change, key = draw.randrange(5), draw.choice(sorted(dump))
    if change == 0:
        return draw.choice(([dump], junk(draw)))
    if change == 1:
        del dump[key]
    elif change == 2:
        dump[draw.choice(("x", "Sites", "in-transit", "", "in_transit", "processes "))] = draw.choice(([], junk(draw)))
    elif change == 3:
        dump[draw.choice(("sites", "processes", "in_transit"))] = junk(draw)
    else:
        dump["version"] = draw.choice((1, 2, draw.choice(NO_VERSIONS)))
    return dump


def spoil_version(draw, dump):
    dump["version"] = draw.choice(NO_VERSIONS)
    if draw.random() < 0.9:
        dump.pop("in_transit", None)


def add_sites(draw, dump):
    dump["sites"] += [f"more{place}" for place in range(4_097 - len(dump["sites"]))]


def add_processes(draw, dump):
    count = 4_097 - len(dump["processes"])
    dump["processes"] += [{"name": f"more{place}", "site": "a", "state": "active"} for place in range(count)]


def spoil_dependents(draw, value):
    """Returns no array of names."""
    names = list(value) if isinstance(value, list) else []
    insert(draw, names, no_name(draw))
    return draw.choice((names, [[]], junk(draw)))


def spoil_process(draw, dump):
    """Spoils one process, without a look at the others, if one is left that has two keys."""
    places = [at for at, one in enumerate(dump["processes"]) if isinstance(one, dict) and len(one) > 1]
    if not places:
        return
    place, change = draw.choice(places), draw.randrange(6)
    process = dump["processes"][place]
    if change == 0:
        dump["processes"][place] = draw.choice(([process], list(process), junk(draw), junk(draw)))
    elif change == 1:
        del process[draw.choice(sorted(process))]
    elif change == 2:
        process[draw.choice(("x", "dependent", "Name", ""))] = junk(draw)
    elif change == 3:
        process["state"] = draw.choice((junk(draw), "Idle", "ACTIVE", "idle ", "blocked", ["idle"]))
    elif change == 4:
        process["dependents"] = spoil_dependents(draw, process.get("dependents"))
    else:
        process[draw.choice(("name", "site"))] = no_name(draw)


def repeat_process(draw, dump):
    one, other = draw.choice(dump["processes"]), draw.choice(dump["processes"])
    if one is other:
        repeat(draw, dump["processes"])
    one["name"] = other["name"]


def lose_site(draw, dump):
    process = draw.choice(dump["processes"])
    process["site"] = draw.choice(("nowhere", process["name"], process["site"][:-1] + "Q"))


def dependents_of(draw, dump):
    """Returns the dependents of a process, preferably of one that has some."""
    rows = [process["dependents"] for process in dump["processes"] if process.get("dependents")]
    return draw.choice(rows) if rows else draw.choice(dump["processes"]).setdefault("dependents", [])


def lose_dependent(draw, dump):
    insert(draw, dependents_of(draw, dump), draw.choice(("nobody", "N0", "n", "a" * 64)))


def repeat_dependent(draw, dump):
    row = dependents_of(draw, dump)
    if row:
        repeat(draw, row)


def wake_with_dependents(draw, dump):
    row = dependents_of(draw, dump)
    next(process for process in dump["processes"] if process.get("dependents") is row)["state"] = "active"


def add_dependencies(draw, dump):
    """Adds processes that wait for each other by 65,537 dependencies in all."""
    names, site = [f"many{place}" for place in range(257)], dump["sites"][0]
    for place, name in enumerate(names):
        row = names[: 256 if place else 1]
        dump["processes"].append({"name": name, "site": site, "state": "idle", "dependents": row})


def messages_of(dump):
    dump["version"] = 2
    return dump.setdefault("in_transit", [])


def add_messages(draw, dump):
    name, messages = draw.choice(dump["processes"])["name"], messages_of(dump)
    messages += [[name, name]] * (4_097 - len(messages))


def spoil_message(draw, dump):
    name = dump["processes"][0]["name"]
    wrong = ([name], [name] * 3, [name, 7], [None, name], [[name, name]], {"from": name, "to": name}, name)
    insert(draw, messages_of(dump), draw.choice((*wrong, junk(draw), junk(draw))))


def lose_message(draw, dump):
    name = dump["processes"][0]["name"]
    message = [name, draw.choice(("nobody", "", "a b", "é", name + "Q"))]
    insert(draw, messages_of(dump), draw.sample(message, 2))


VALUE_FAULTS = {
    "bad top": spoil_top,
    "bad version": spoil_version,
    "bad site": lambda draw, dump: insert(draw, dump["sites"], no_name(draw)),
    "repeated site": lambda draw, dump: repeat(draw, dump["sites"]),
    "too many sites": add_sites,
    "too many processes": add_processes,
    "bad process": spoil_process,
    "repeated process": repeat_process,
    "unknown site": lose_site,
    "unknown dependent": lose_dependent,
    "repeated dependent": repeat_dependent,
    "active with dependents": wake_with_dependents,
    "too many dependencies": add_dependencies,
    "too many in transit": add_messages,
    "bad in transit": spoil_message,
    "unknown in transit": lose_message,
}
ORDER = list(VALUE_FAULTS)


def spoil(draw, faults):
    """Returns a dump with these faults. The last of the table come first, since earlier ones leave less to change."""
    dump = small_dump(draw)
    for fault in sorted(faults, key=ORDER.index, reverse=True):
        dump = VALUE_FAULTS[fault](draw, dump) or dump if isinstance(dump, dict) else dump
    return write(draw, dump)


# Faults of bytes.

NO_CHARACTERS = b"\xff|\xc3|\x80|\xc0\xaf|\xed\xa0\x80|\xf4\x90\x80\x80|\xe2\x82|\xf8\x88\x80\x80\x80".split(b"|")
NO_TEXTS = [b"", b" ", b"\n\n", b"\0", b"{", b"[" * 100_000, b'{"a":' * 100_000, b'"', b"nul", b"-", b"7", b"[]"]
ENDINGS = [b"x", b"{}", b"null", b",", b"\0", b"}", b"//", b"\x0b", b"\xc2\xa0", b" \r\n\t", b"\xef\xbb\xbf"]
ADDED = [*(bytes([byte]) for byte in range(256)), *([b'"', b",", b"0", b"\\", b"]", b" "] * 20)]


def splice(draw, data, count, added):
    """Replaces some bytes at a random place."""
    place = draw.randrange(len(data))
    return data[:place] + added + data[place + count :]


def flip(draw, data):
    place = draw.randrange(len(data))
    return data[:place] + bytes([data[place] ^ 1 << draw.randrange(8)]) + data[place + 1 :]


def flip_several(draw, data):
    for _ in range(draw.randint(2, 6)):
        data = flip(draw, data)
    return data


BYTE_FAULTS = {
    "an end too early": lambda draw, data: data[: draw.randrange(len(data))],
    "a flipped bit": flip,
    "flipped bits": flip_several,
    "an added byte": lambda draw, data: splice(draw, data, 0, draw.choice(ADDED)),
    "missing bytes": lambda draw, data: splice(draw, data, draw.choice((1, 1, 2, 9)), b""),
    "not UTF-8": lambda draw, data: data.replace(b'"', b'"' + draw.choice(NO_CHARACTERS), draw.randint(1, 9)),
    "a byte order mark": lambda draw, data: b"\xef\xbb\xbf" + data,
    "UTF-16": lambda draw, data: data.decode().encode(draw.choice(("utf-16", "utf-16-le", "utf-16-be"))),
    "bytes after the text": lambda draw, data: data + draw.choice((data, *ENDINGS)),
    "no dump": lambda draw, data: draw.choice(NO_TEXTS),
}

# Texts of values in the place of a key that comes again later, so that the dump is good where they are JSON.
VALUES = r"""
NaN -NaN Infinity -Infinity nan nul null True undefined 'a' /**/1 {} [[],{}] []] [1,] {"a":1,} {"a"} {a:1} {"a":1,"a":2}
01 -01 1. .5 +1 1e 1e+ 0x1 --1 - 1_0 1e5 1E+5 -0 0.10 1e308 -1e308 1e309 1e999 -1e999 0e999 1e-999 123e-99999999999
1e99999999999 1.7976931348623157e308 1.8e308 18446744073709551615 18446744073709551616 -9223372036854775809
"\ud800" "\udc00" "\ud83d\ude00" "\uD83D\uDE00" "\ud83d\ud83d" "\ud83d\u0041" "\ud83dx" "\\ud800" "\\\ud800" "\u12"
"\u12g4" "\u+123" "\x41" "\b\f\n\r\t\/\\\"" "\a" "\'" "\U00000041" {"\ud800":1} {"\ud83d\ude00":1} tru\u0065 "\u0000" "\
""".split()
VALUES += ["", "[1 2]", "9" * 308, "9" * 309, "9" * 310, "9" * 5_000, "0." + "9" * 5_000]
VALUES += ["1" + "0" * 400 + "e-200", "0." + "0" * 400 + "1e400", '"\x00"', '"\x1f"', '"\x7f"', '"\n"', '"\t"']
VALUES += ['"\u2028\U0001f600"', "\u00a01", "\u0660", "\ufeff1", "\x0c1"]


def nest(draw, depth):
    """Returns arrays and objects within each other, and in the innermost a text with brackets that nest nothing."""
    starts = draw.choices(("[", '{"a":'), k=depth)
    return "".join(starts) + '"[{"' + "".join("]" if start == "[" else "}" for start in reversed(starts))


def add_value(draw, text):
    """Returns a dump in which a text stands for a value that a repeated key replaces."""
    key = draw.choice(("version", "processes", "sites"))
    return b'{"%s":%s,%s' % (key.encode(), text.encode(), write_compact(small_dump(draw))[1:])


# The words of a command line.

BAD_ITEMS = ["", "+1", "-1", " 1", "1 ", "0x1", "1.0", "1e3", "x", "1_0", "٣", str(2**64), "9" * 30, "\t", "1;1", "é"]
# What clap has to refuse, whatever it writes.
MISUSES = [
    *([], ["analyze"], [""], ["analyse", "x"], ["analyse", "--nope"], ["analyse", "--workers"], ["trace"]),
    *(["analyse", "--workers", text] for text in ("0", "65", "-1", "x", "", "4.0", "1e1", str(2**32 + 1), str(2**64))),
    *(["trace", "p", "q"], ["trace", "p", "--workers", "1"], ["trace", "p", "--cuts", ""], ["analyse", "--choices"]),
    *(["analyse", option, "1", option, "1"] for option in ("--workers", "--cuts", "--choices")),
    *(["analyse", "--workers=0", "--cuts=x"], ["analyse", "--cuts", "x", "--workers", "0"], ["trace", "--choices=x"]),
]
NO_WORDS = [["trace", "\udcff"], ["analyse", "--cuts", "1\udc80"], ["\udcc3"], ["trace", "p", "\udcfe"]]


def make_number(draw):
    value = draw.choice((0, 0, 1, 1, 2, 3, 7, draw.randrange(100), draw.getrandbits(64), LARGEST))
    return "0" * draw.choice((0, 0, 0, 1, 30)) + str(value)


def make_list(draw, *counts):
    return ",".join(make_number(draw) for _ in range(draw.choice(counts or (0, 1, 2, 5, 20, 200))))


def bad_list(draw):
    items = [make_number(draw) for _ in range(draw.choice((0, 1, 3, 20)))]
    for _ in range(draw.choice((1, 1, 3))):
        insert(draw, items, draw.choice(BAD_ITEMS))
    return ",".join(items) or ","


def make_words(draw, parts):
    """Returns the words of these options, in any order; the name of a trace is an option without a name."""
    words = []
    for name, value in draw.sample(parts, len(parts)):
        is_one = value.startswith("-") or draw.random() < 0.5
        words += [value] if name is None else [f"{name}={value}"] if is_one else [name, value]
    return words


def plan_words(draw, **lists):
    """Returns the words of `analyse` with these lists. What isn't given is good or absent."""
    workers = str(draw.choice((1, 1, 2, 3, 4, 7, 64, draw.randint(1, 64))))
    any_options = {"workers": workers, "cuts": make_list(draw), "choices": make_list(draw)}
    options = {name: value for name, value in any_options.items() if draw.random() < 0.6}
    return ["analyse", *make_words(draw, [(f"--{name}", value) for name, value in {**options, **lists}.items()])]


def trace_words(draw, name, choices=None):
    """Returns the words of `trace`, with a list of choices that is good or absent where it isn't given."""
    choices = choices or draw.choice((None, make_list(draw), make_list(draw)))
    return ["trace", *make_words(draw, [(None, name)] + ([] if choices is None else [("--choices", choices)]))]


def name_of(draw, dump, state="idle"):
    """Returns the name of a process in this state, or of nobody where there is none."""
    return draw.choice([one["name"] for one in dump["processes"] if one["state"] == state] or ["nobody"])


def any_words(draw):
    return draw.choice((["analyse"], plan_words(draw), trace_words(draw, "n0"), trace_words(draw, "nobody")))


# Cases: each maker returns words and a dump.


def report_case(draw, shape, **how):
    return plan_words(draw), write(draw, make_dump(draw, shape(draw), **how))


def trace_case(draw, shape, state="idle"):
    dump = make_dump(draw, shape(draw))
    return trace_words(draw, name_of(draw, dump, state)), write(draw, dump)


def large_case(draw, shape):
    """Returns a report or a trace of thousands. Their names are short, since a report may name each of them often."""
    dump = make_dump(draw, shape(draw), "numbered")
    return draw.choice((plan_words(draw), trace_words(draw, name_of(draw, dump)))), write(draw, dump)


def long_trace_case(draw):
    """Returns a trace of thousands of deliveries, with about as many choices."""
    size = draw.randint(60, 110)
    dump = make_dump(draw, graph(draw, size, size // 2, 0, 0, 0.01), "numbered")
    choices = ",".join(str(draw.randrange(999)) for _ in range(draw.choice((1_000, 10_000))))
    return trace_words(draw, name_of(draw, dump), choices), write(draw, dump)


def long_path_case(draw, command):
    """Returns a path of thousands to an active process. Its report names the rest of the path at each process."""
    count = 2_000 if command == "analyse" else draw.randint(2_000, 4_096)
    dump = make_dump(draw, [*([place] for place in range(1, count)), None], "numbered")
    return plan_words(draw) if command == "analyse" else trace_words(draw, name_of(draw, dump)), write(draw, dump)


def longest_list_case(draw, command):
    """Returns the longest list that Linux hands over, of 65,536 digits."""
    choices, dump = ",".join(draw.choices("0123456789", k=65_536)), small_dump(draw)
    name = [name_of(draw, dump)] if command == "trace" else []
    return [command, *name, "--choices", choices], write(draw, dump)


def missing_name_case(draw):
    dump = small_dump(draw)
    name = dump["processes"][0]["name"]
    names = (f"{name} ", name[:-1], f"{name}Q", dump["sites"][0], "", "é", "nobody", "a=b")
    return trace_words(draw, draw.choice(names)), write(draw, dump)


def dump_or_none(draw):
    """Returns a dump, or what is refused as no JSON, so that one sees which fault comes first."""
    return draw.choice((write(draw, small_dump(draw)), b"{"))


def refused_list_case(draw):
    bad, dump = bad_list(draw), dump_or_none(draw)
    lists = ({"cuts": bad}, {"choices": bad}, {"cuts": bad, "choices": bad_list(draw)})
    too_many = {"cuts": make_list(draw, 513), "choices": bad}
    return draw.choice((trace_words(draw, "n0", bad), plan_words(draw, **draw.choice((*lists, too_many))))), dump


def fault_case(draw, fault):
    return any_words(draw), spoil(draw, [fault])


def faults_case(draw):
    return any_words(draw), spoil(draw, draw.sample(ORDER, draw.randint(2, 5)))


def neighbours_case(draw):
    """Returns a dump with two faults that stand next to each other in the table."""
    place = draw.randrange(len(ORDER) - 1)
    return any_words(draw), spoil(draw, ORDER[place : place + 2])


def same_fault_case(draw):
    """Returns a dump with one fault at several places."""
    return any_words(draw), spoil(draw, [draw.choice(ORDER)] * draw.randint(2, 4))


# Dumps at a limit, and one past it.


def process_limit_case(draw, count):
    rows = draw.choice(([None] * count, [[]] * count, ring(count), [[0]] * count))
    return plan_words(draw), write(draw, make_dump(draw, rows, "numbered", 1))


def site_limit_case(draw, count):
    return report_case(draw, SHAPES["sparse graph"], site_count=count)


def dependent_limit_case(draw, count):
    """Returns a knot of 256 processes that all wait for all, and a follower for each dependent more."""
    dump = make_dump(draw, [list(range(256))] * 256 + [[0]] * (count - 65_536), "numbered", 300)
    return draw.choice((plan_words(draw), trace_words(draw, name_of(draw, dump)))), write(draw, dump)


def message_limit_case(draw, count):
    dump = small_dump(draw)
    names = [process["name"] for process in dump["processes"]]
    dump.update(version=2, in_transit=[draw.choices(names, k=2) for _ in range(count)])
    return plan_words(draw), write(draw, dump)


def size_limit_case(draw, size):
    return ["analyse"], draw.choice((write(draw, small_dump(draw)), b"{", b"\xff")).ljust(size)


def name_limit_case(draw, size):
    dump = small_dump(draw)
    draw.choice(dump["processes"])["name"] = "x" * size
    return plan_words(draw), write(draw, dump)


def depth_limit_case(draw, depth):
    return ["analyse"], add_value(draw, nest(draw, depth - 1))


def cut_limit_case(draw, count):
    return plan_words(draw, cuts=make_list(draw, count)), dump_or_none(draw)


LIMITS = {
    "processes": (process_limit_case, 4_095, 4_096, 4_097),
    "sites": (site_limit_case, 4_096, 4_097),
    "dependents": (dependent_limit_case, 65_536, 65_537),
    "messages in transit": (message_limit_case, 4_096, 4_097),
    "bytes": (size_limit_case, reference.LONGEST, reference.LONGEST + 1),
    "bytes of a name": (name_limit_case, 64, 65),
    "levels": (depth_limit_case, 126, 127, 128, 129),
    "cuts": (cut_limit_case, 511, 512, 513, 600),
}

# Each kind of case: its name, what makes it, and how many turns it has.
KINDS = [
    *((f"report, {name}", partial(report_case, shape=shape), 5) for name, shape in SHAPES.items()),
    *((f"trace, {name}", partial(trace_case, shape=shape), 4) for name, shape in SHAPES.items()),
    *((f"thousands, {name}", partial(large_case, shape=shape), 2) for name, shape in LARGE_SHAPES.items()),
    *((f"names, {it}", partial(report_case, shape=knots, style=it), 2) for it in ("numbered", "mixed", "long")),
    *((f"fault, {it}", partial(fault_case, fault=it), 4) for it in VALUE_FAULTS),
    # These two may be wrong in more ways than the others.
    *((f"fault, {it}", partial(fault_case, fault=it), 12) for it in ("bad top", "bad process")),
    *(
        (f"bytes, {name}", lambda draw, it=it: (any_words(draw), it(draw, write(draw, small_dump(draw)))), 4)
        for name, it in BYTE_FAULTS.items()
    ),
    *(("value in JSON", lambda draw, it=it: (["analyse"], add_value(draw, it)), 1) for it in VALUES),
    *(
        (f"limit, {count} {name}", lambda draw, make=make, count=count: make(draw, count), 1)
        for name, (make, *counts) in LIMITS.items()
        for count in counts
    ),
    *((f"path of thousands, {it}", partial(long_path_case, command=it), 1) for it in ("analyse", "trace")),
    *((f"longest list, {it}", partial(longest_list_case, command=it), 1) for it in ("analyse", "trace")),
    ("many sites", partial(report_case, shape=knots, site_count=40), 4),
    ("long trace", long_trace_case, 4),
    ("trace of an active process", partial(trace_case, shape=lambda draw: graph(draw, 20, 2, 0.5), state="active"), 4),
    ("trace of a missing name", missing_name_case, 4),
    ("refused list", refused_list_case, 16),
    ("refused words", lambda draw: (draw.choice(MISUSES), dump_or_none(draw)), 8),
    ("words that are no text", lambda draw: (draw.choice(NO_WORDS), dump_or_none(draw)), 2),
    ("several faults", faults_case, 40),
    ("two faults next to each other", neighbours_case, 40),
    ("one fault several times", same_fault_case, 20),
]
TURNS = [(name, make) for name, make, turns in KINDS for _ in range(turns)]


def make_case(seed, number):
    name, make = TURNS[number % len(TURNS)]
    return Case(name, *make(random.Random(f"{seed}/{number}")))
