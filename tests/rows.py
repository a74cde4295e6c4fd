"""Dumps that tests/program changes and combines, with answers that were worked out by hand.

A dump is written short: 'p@a: q r' is the idle process p on site a with the dependents q and r, 'p@a:' is one with no
dependents, and 'r@a!' is active. The lines of a text are separated by ' / '.
"""

import json


def compact(value):
    return json.dumps(value, separators=(",", ":"), ensure_ascii=False).encode()


def process_of(short):
    """Returns the process that is written so."""
    name, _, rest = short.strip().partition("@")
    if rest.endswith("!"):
        return {"name": name, "site": rest[:-1], "state": "active"}
    site, _, dependents = rest.partition(":")
    return {"name": name, "site": site, "state": "idle", "dependents": dependents.split()}


def dump_of(short):
    """Returns the dump that is written so. Sites stand as first used."""
    processes = [process_of(it) for it in short.split(";")]
    sites = list(dict.fromkeys(it["site"] for it in processes))
    return compact({"version": 1, "sites": sites, "processes": processes})


def text_of(lines):
    return "".join(f"{it}\n" for it in lines.split(" / ")).encode() if lines else b""


CYCLE = "p@a: q; q@a: p"
CYCLE_TEXT = (
    "processes 2 active 0 idle 2 deadlocked 2 / deadlocked p group 1 / deadlocked q group 1"
    " / group 1 | p q | - | sites 1"
)
FOLLOWED = "p@a: q; q@a: p; r@b: p"
FOLLOWED_TEXT = (
    "processes 3 active 0 idle 3 deadlocked 3 / deadlocked p group 1 / deadlocked q group 1 / deadlocked r group 2"
    " / group 1 | p q | - | sites 1 / group 2 | r | p q | sites 2"
)
ONE_FREE = "p@a: q r; q@a: q; r@a!"
LARGEST = "18446744073709551615"

# Words that the command line refuses. The last is a word that the text has to name.
REFUSED_WORDS = [
    ([], "Usage: cmh"),
    (["analyze"], "analyze"),
    (["help"], "help"),
    (["analyse", "--nope"], "--nope"),
    (["analyse", "dump.json"], "dump.json"),
    (["analyse", "--workers"], "--workers"),
    (["analyse", "--workers", "0"], "0"),
    (["analyse", "--workers", "65"], "65"),
    (["analyse", "--workers=-1"], "-1"),
    (["analyse", "--workers", "x"], "x"),
    (["analyse", "--workers", "4.0"], "4.0"),
    (["analyse", "--workers", ""], "--workers"),
    (["analyse", "--workers", "4294967297"], "4294967297"),
    (["analyse", "--workers", "1", "--workers", "2"], "--workers"),
    (["analyse", "--workers", "0", "--cuts", ",".join(["1"] * 513)], "0"),
    (["analyse", "--cuts"], "--cuts"),
    (["analyse", "--choices"], "--choices"),
    (["trace"], "NAME"),
    (["trace", "p", "q"], "q"),
    (["trace", "p", "--workers", "1"], "--workers"),
    (["trace", "p", "--cuts", "1"], "--cuts"),
]
