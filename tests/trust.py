"""What the proofs rest on and don't show, for docs/TRUST.md: what the checker's verdict says, which C functions it
assumes, which functions have no clause, for what room may be asked, and where code is unsafe."""
from __future__ import annotations

import re
from collections import Counter
from typing import Callable, Iterator, NamedTuple

from contracts import OWNER, parts_of_call
from harness import TOP, read, run
from sources import crates, files

CODE = re.compile(r"crates/(?!cmh_tests/)\w+/src/(?!tests)[^.]*\.rt$")
CALL = re.compile(r" *(?:pub )?(?:const |unsafe )*fn (\w+)")
NEED = re.compile(r"^impl(?:<.*?>)? Need for (.*) \{\n(?:(?:    ghost use .*)?\n)*    ghost needed = \{ (.*?) \};",
                  re.M)
UNSAFE = re.compile(r"\bunsafe\b|\*const\b|\*mut\b|extern \"C\"")
# What the words of the checker's last line say.
WORDS = {
    "logic=proved": "Each function meets its contract, each lemma is proved, and nothing has a hole.",
    "target": "The system for which the program is built.",
    "cpu": "The level of the processor that its code needs.",
    "threads": "The C functions by which threads are started and joined: that they do so is assumed.",
    "main": "What `main` may do besides reading and writing: start threads, and wait for them.",
    "may-wait": "So many functions of this crate may wait for other threads, and so never return.",
    "sum": "The program logic, by the first digits of the SHA-256 of its sources.",
    "native=nat,char,string": "The checker computes with natural numbers, characters and strings in its own code, and "
                              "not by the definitions of the logic.",
    "axioms": "So many C functions are assumed to meet their contracts: those below.",
    "logic-built=trusted": "The logic's own proofs come checked with the toolchain, and aren't checked again.",
    "libraries-built=trusted": "Nor are those of the libraries that the toolchain has.",
    "statements=trusted": "Of a library only what it states is read, and not its proofs.",
}
OWN = {"functions", "incremental", "batches", "crate-checked", "hides"}  # words that say how much, or how it was called
# What is only read of a function that has no clause and is of no trait.
READ = {
    "main": "It hands `serve` the words and the streams, and its status to the system.",
    "args": "It hands on the words that the system gives.",
    "tell_fault": "It writes `cmh: `, the text of the fault and the end of the line, and passes over a failed write.",
    "text_of_refusal": "It asks `clap` for its text on the words without control characters: tests of all of these.",
    "text_of_words": "It hands on the text of `clap`.",
    "refusal_of": "It makes the one value that there is of a refusal.",
    "led_counts": "It counts for each process of how many it is the leader. The report is the one that is defined, "
                  "whatever it counts.",
}


class Function(NamedTuple):
    """A function: its file, what it belongs to, its name, and whether it has a clause on what it ensures."""

    path: str
    trait: str
    owner: str
    name: str
    has_clause: bool


def sources() -> list[str]:
    return [path for crate in crates() for path in files() if CODE.match(path) and path.split("/")[1] == crate]


def functions_of(path: str) -> Iterator[Function]:
    """The functions of a file."""
    lines, trait, owner = read(path).split("\n"), "", ""
    for number, line in enumerate(lines):
        head, call = OWNER.match(line), CALL.match(line)
        if head or line == "}":
            kind, trait, owner = head.groups(default="") if head else ("", "", "")
            trait = owner if kind == "pub trait" else re.sub(r"<.*", "", trait)
        if call:
            clauses = parts_of_call(lines, number)[1]
            yield Function(path, trait, owner, call[1], any(clause.kind == "ensures" for clause in clauses))


def functions_part() -> str:
    """How many functions have no clause, by trait, and those of no trait by name."""
    every = [function for path in sources() for function in functions_of(path)]
    bare = [function for function in every if not function.has_clause]
    by_trait = Counter(function.trait.split("::")[-1] for function in bare if function.trait)
    rows = [f"Of {len(every)} functions {len(bare)} have no clause of their own on what they ensure.", ""]
    rows += [f"- {sum(by_trait.values())} are methods of a trait, whose clauses hold of each: "
             + ", ".join(f"`{trait}` {count}" for trait, count in sorted(by_trait.items())) + "."]
    for function in (function for function in bare if not function.trait):
        rows.append(f"- `{function.name}` of [{function.path}](../{function.path}): {READ[function.name]}")
    return "\n".join(rows) + "\n"


def needs_part() -> str:
    """Each type that says how much room may be asked for, with its bound."""
    rows = ["| Room for | at most, and two more | of |", "|---|---|---|"]
    for path in sources():
        rows += [f"| `{kind}` | `{re.sub('^λ [^.]*[.] ', '', needed)}` | [{path}](../{path}) |"
                 for kind, needed in NEED.findall(read(path))]
    return "\n".join(rows) + "\n"


def unsafe_part() -> str:
    """How often the crates have what the prover doesn't look into."""
    found = sum(len(UNSAFE.findall(re.sub("//.*", "", read(path)))) for path in sources())
    return f"Unsafe blocks, raw pointers and C functions in the {len(crates())} crates: {found}.\n"


PARTS: dict[str, Callable[[], str]] = {"unsafe code": unsafe_part, "functions without a clause": functions_part,
                                       "needs": needs_part}


# What the checker says


def verdict_parts() -> dict[str, Callable[[], str]]:
    """The parts of what the checker says, which is asked once."""
    lines = report()
    return {"verdict": lambda: verdict_part(lines), "assumed C functions": lambda: axioms_part(lines)}


def report() -> list[str]:
    """The lines of the program's verdict. What is proved already, and kept, takes seconds."""
    ran = run(["rt", "check", "--list-axioms"], cwd=f"{TOP}/crates/cmh")
    if ran.status:
        raise SystemExit(f"tests/map: rt check of crates/cmh ends with {ran.status}: {ran.out[-400:]}{ran.err[-400:]}")
    return ran.out.splitlines()


def verdict_part(lines: list[str]) -> str:
    """Each word of the last line, and what it says."""
    words = next(line for line in reversed(lines) if line.startswith("logic=")).split()
    rows = ["| Word | What it says |", "|---|---|"]
    for word in words:
        key = word if word in WORDS else word.partition("=")[0]
        rows += [f"| `{word}` | {WORDS[key]} |"] if key not in OWN else []
    return "\n".join(rows) + "\n"


def axioms_part(lines: list[str]) -> str:
    """The C functions on whose contracts the program's verdict rests, by the library that declares them."""
    rows, names = [], sorted(line.split()[0] for line in lines if line.endswith(" reached"))
    for library in sorted({name.partition("::")[0] for name in names}):
        own = [name.partition("::")[2] for name in names if name.startswith(f"{library}::")]
        rows.append(f"- `{library}`, {len(own)}: " + ", ".join(f"`{name}`" for name in own))
    return "\n".join(rows) + "\n"
