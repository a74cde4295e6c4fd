"""Random sketches, and what is right of them by the definition: a plain search that shares nothing with the tools."""
import itertools
from typing import Dict, FrozenSet, Set, Tuple


def plain_stuck(sketch, unknown_in):
    """Returns the names of the greatest set in which each is stuck by its rule, but for those that have ended."""
    rows = {row["name"]: row for row in sketch["processes"]}
    sent = {tuple(pair) for pair in sketch["in_transit"]}
    inside = set(rows)
    while True:
        kept = {name for name in inside if fits(rows, sent, inside, name, unknown_in)}
        if kept == inside:
            return {name for name in inside if "ended" not in rows[name]}
        inside = kept


def fits(rows, sent, inside, name, unknown_in):
    """Whether one may stay in the set."""
    row = rows[name]
    if "waits_for_any" in row:
        whom = row["waits_for_any"]
        return not any((it, name) in sent for it in whom) and all(it in inside for it in whom)
    if "waits_for_all" in row:
        left = needed(rows, sent, name)
        return len(left) > 0 and any(it in inside for it in left)
    if "unknown" in row:
        return unknown_in
    return "ended" in row


def needed(rows, sent, name):
    """Returns those of a list of all that have not come."""
    return [it for it in rows[name]["waits_for_all"] if (it, name) not in sent and rows[it].get("ended") != "done"]


def plain_edges(sketch, stuck):
    """Returns for each stuck one the stuck ones of its list."""
    rows = {row["name"]: row for row in sketch["processes"]}
    sent = {tuple(pair) for pair in sketch["in_transit"]}
    edges = {}
    for name in stuck:
        row = rows[name]
        whom = needed(rows, sent, name) if "waits_for_all" in row else row.get("waits_for_any", [])
        edges[name] = {it for it in whom if it in stuck}
    return edges


def plain_roots(edges: Dict[str, Set[str]]) -> Tuple[Set[FrozenSet[str]], Dict[str, Set[FrozenSet[str]]]]:
    """Returns the components that no edge leaves, and for each other one the roots that it reaches."""
    reach = {name: reached(edges, name) for name in edges}
    roots = {frozenset(it) for it in reach.values() if all(reach[other] == it for other in it)}
    members = set(itertools.chain(*roots))
    return roots, {name: {root for root in roots if root <= reach[name]} for name in edges if name not in members}


def reached(edges: Dict[str, Set[str]], start: str) -> Set[str]:
    found = {start}
    while True:
        more = {other for name in found for other in edges[name]} - found
        if not more:
            return found
        found |= more


def plain_likely(sketch):
    """Returns a sketch in which those are stuck too who are likely to be: without unknown ones in lists of which any is
    enough, as far as somebody else is left."""
    sent = set(map(tuple, sketch["in_transit"]))
    unknown = {row["name"] for row in sketch["processes"] if "unknown" in row}
    certain = plain_stuck(sketch, False)
    rows = []
    for row in sketch["processes"]:
        whom = row.get("waits_for_any", ())
        left = [name for name in whom if name not in unknown]
        is_sent = any((name, row["name"]) in sent for name in whom)
        is_changed = len(whom) > max(1, len(left)) and not is_sent and row["name"] not in certain
        rows.append({**row, "waits_for_any": left} if is_changed and {*left} - {row["name"]} else row)
    stuck = plain_stuck({**sketch, "processes": rows}, False)
    made = [new if new["name"] in stuck else row for row, new in zip(sketch["processes"], rows)]
    return {**sketch, "processes": made}


def likely_roots(sketch):
    """Returns the roots of a sketch, certain and likely ones, and for each other one the roots that it reaches."""
    likely, certain = plain_likely(sketch), plain_stuck(sketch, False)
    edges = plain_edges(likely, plain_stuck(likely, False))
    return plain_roots({name: others & certain if name in certain else others for name, others in edges.items()})


def random_sketch(random):
    """Returns a sketch with waits of both kinds, unknown and ended ones, messages, twins, and names of all kinds."""
    number = random.randint(1, 10)
    names = [random.choice(["p{}", "p {}", "<0.{}.0>", "é{}", "-{}"]).format(at) for at in range(number)]
    kinds = random.choices(["any", "all", "runs", "unknown", "done", "needed"], [9, 6, 2, 2, 1, 1], k=number)
    rows = [row_of(random, name, kind, names) for name, kind in zip(names, kinds)]
    pairs = [[random.choice(names), random.choice(names)] for _ in range(random.choice([0, 0, 1, 3]))]
    sketch = {"processes": rows, "in_transit": pairs}
    for _ in range(random.choice([0, 0, 1, 3])):
        add_twin(random, sketch)
    return sketch


def row_of(random, name, kind, names):
    row = {"name": name}
    if random.random() < 0.5:
        row["site"] = random.choice(["a", "site b"])
    if kind in ("any", "all"):
        some = random.sample(names, random.randint(kind == "all", min(3, len(names))))
        row[f"waits_for_{kind}"] = some
    elif kind in ("done", "needed"):
        row["ended"] = kind
    else:
        row[kind] = True if kind == "runs" else "no stack"
    return row


def add_twin(random, sketch):
    """Adds a second one like another: in the same lists, with the same wait and messages."""
    rows = sketch["processes"]
    one = random.choice(rows)
    twin = {key: list(value) if isinstance(value, list) else value for key, value in one.items()}
    twin["name"] = f"{one['name']} twin {len(rows)}"
    rows.append(twin)
    for row in rows:
        for key in ("waits_for_any", "waits_for_all"):
            if one["name"] in row.get(key, ()):
                row[key].append(twin["name"])
    pairs = sketch["in_transit"]
    pairs += [[twin["name"], to] for sender, to in list(pairs) if sender == one["name"]]
    pairs += [[sender, twin["name"]] for sender, to in list(pairs) if to == one["name"]]
