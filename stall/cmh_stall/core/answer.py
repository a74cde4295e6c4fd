"""The answer as plain data, made once: all that any text, page or picture of it says is told from this tree alone.

docs/answer.schema.json says what each key is. Each process is one row of `processes`; roots and lists have their names.
"""
from __future__ import annotations

from typing import Dict, Iterable, List, Optional, Tuple

from .. import VERSION
from .cures import Cure, Cures, unit_words, words_of
from .doubt_words import clause_of, sentence
from .doubts import Doubt
from .dump import Dump
from .files import short_name
from .findings import LIKELY, NOT_STUCK, STUCK, UNDECIDED, Findings, Waiters, is_hidden_by_sleepers
from .model import Sign
from .process_rows import Rows, Tree
from .program import identity
from .proposals import legend
from .reasons import Reason
from .sketch import ENDED, FACT, PREMISE, Sketch
from .stuck import Waits

FORMAT = 2  # no key is dropped while it stays, nor does one get another meaning; new ones may come


def answer(dump: Dump, noted: Optional[str] = None, at: Optional[int] = None) -> Tree:
    """Returns the answer to a dump as a tree. `noted` is the SHA-256 of the program that its notes name, `at` who is
    asked for by --why."""
    return tree_of(Findings(dump), noted, at)


def tree_of(found: Findings, noted: Optional[str] = None, at: Optional[int] = None) -> Tree:
    sketch, cures, rows = found.dump.sketch, Cures(found), Rows(found)
    proposals, reasons = found.proposals(), found.reasons()
    return {
        "version": FORMAT,
        "made_by": f"cmh-explain {VERSION}",
        "program": {**identity(), "noted_sha256": noted},
        "status": found.status(),
        "headline": found.headline.value,
        "counts": counts_of(found),
        "system": sketch.system,
        "as_of": sketch.as_of,
        "readings": sketch.readings,
        "is_hidden_by_sleepers": is_hidden_by_sleepers(found.original),
        "roots": [root_row(found, cures, number) for number in range(len(found.roots.roots))],
        "doubts": doubt_rows(found.original),
        "cures": [cure_row(cures, cure) for cure in cures.least()],
        "ends": end_rows(found, cures),
        "still_stuck": names(found, found.left_over),
        "unknown": waiters_rows(found, found.unknown_ones(len(found.open))),
        "idle": waiters_rows(found, found.idle_ones(len(found.open))),
        "proposals": [{"fact": it.line, "is_guess": it.is_guess, "if": it.hint, "names": it.names, "says": it.text()}
                      for it in proposals],
        "legend": legend(proposals, found.waits.processes) if proposals else [],
        "limits": limit_rows(found),
        "premises": [{"name": it.name, "text": it.text, "processes": it.number} for it in reasons
                     if it.kind == PREMISE],
        "facts": fact_rows(sketch, reasons),
        "warnings": list(sketch.warnings),
        "in_transit": [list(pair) for pair in sketch.in_transit],
        "cut": cut_of(found),
        "why": None if at is None else why_row(found, at),
        "lists": rows.lists(),
        "processes": rows.all(),
    }


def names(found: Findings, some: Iterable[int]) -> List[str]:
    processes = found.waits.processes
    return [processes[at].name for at in some]


def counts_of(found: Findings) -> Dict[str, int]:
    """Returns how many there are of each. Those that have ended are none of `processes`, as in the text."""
    ended = len(found.ended)
    return {"processes": len(found.waits.processes) - ended, STUCK: len(found.certain.stuck), LIKELY: len(found.likely),
            UNDECIDED: len(found.undecided), NOT_STUCK: len(found.well), "running": len(found.runners()),
            ENDED: ended, "roots": len(found.roots.roots)}


def cut_of(found: Findings) -> Tree:
    """Returns what became of those that the dump hasn't as they are."""
    dump = found.dump
    return {"left_out": len(dump.left_out), "twins": len(dump.folded), "alike": 0,
            "lists": sum(at >= found.waits.number for at in dump.kept), "dumps": 0 if dump.is_too_large else 1,
            "says": dump.cut_lines(), "unconfirmed": dump.unconfirmed() or found.original.unconfirmed()}


# Roots


def root_row(found: Findings, cures: Cures, number: int) -> Tree:
    members, behind = found.roots.roots[number], found.roots.behind[number]
    sites, is_some_unsaid = found.sites(members)
    return {
        "root": number + 1,
        "is_certain": found.is_certain(number),
        "doubts": [doubt.number for doubt in found.doubts_of(members)],
        "is_cycle": bool(found.cycle(number)),
        "members": names(found, members),
        "maybe_behind": names(found, found.roots.maybe_behind(number)),
        "behind": names(found, behind),
        "cure": cure_row(cures, cures.of[number]),
        "enough": cures.enough_words(number),
        "units": [{"unit": unit, "name": cures.name_of_unit(unit), "is_process": unit in found.waits.index}
                  for unit in cures.units_of(members)],
        "sites": sites,
        "has_other_sites": is_some_unsaid,
        "rests_on": reason_rows(found.rests.of(found.processes(members))),
        "behind_rests_on": reason_rows(found.rests.of(found.processes(behind))),
    }


def cure_row(cures: Cures, cure: Cure) -> Tree:
    """Returns what breaks some roots."""
    return {"units": cure.units, "is_all": cure.is_all, "roots": [number + 1 for number in cure.roots],
            "steps": [cures.step_of(unit)._asdict() for unit in cure.units], "says": words_of(cures, cure)}


def end_rows(found: Findings, cures: Cures) -> List[Tree]:
    """Returns what ends those at which most waits end, where no root is."""
    return [] if found.roots.roots else [{**step._asdict(), "waiters": number, "says": unit_words(cures, step.unit)}
                                         for step, number in cures.ends()]


def reason_rows(some: Iterable[Reason]) -> List[Tree]:
    return [{"kind": it.kind, "name": it.name, "text": it.text, "processes": it.number} for it in some]


def doubt_rows(dump: Dump) -> List[Tree]:
    """Returns on what it hangs that some are likely to be stuck."""
    return [doubt_row(dump.likely.waits, doubt) for doubt in dump.doubts]


def doubt_row(waits: Waits, doubt: Doubt) -> Tree:
    row = {"number": doubt.number, "who": list(doubt.who), "how": doubt.how,
           "sign": None if doubt.sign is None else doubt.sign.value, "waits": list(doubt.waits),
           "clause": clause_of(doubt.how, doubt.sign, reason_of_doubt(waits, doubt)), "facts": doubt.lines}
    return {**row, "says": sentence(row, [short_name(name) or "''" for name in doubt.waits])}


def reason_of_doubt(waits: Waits, doubt: Doubt) -> str:
    """Returns why all of those rest of whom a doubt is, or in which function they poll, or nothing."""
    there = [waits.processes[waits.index[name]] for name in doubt.who if name in waits.index]
    reasons = {process.reason if doubt.sign is not Sign.POLLS else "".join(process.frames[:1]).partition(" (")[0]
               for process in there}
    return reasons.pop() if len(reasons) == 1 else ""


# One process


def why_row(found: Findings, at: int) -> Tree:
    """Returns the chain from one to what its answer rests on, with on what it rests itself: of one that is stuck the
    members of its root count too."""
    chain = found.chain(at)
    root = found.roots.root_of.get(chain[-1])
    members = [] if root is None else found.roots.roots[root]
    rests = found.rests.of(found.processes(list(dict.fromkeys([*chain, *members]))))
    return {"name": found.process(at).name, "verdict": found.verdict(at), "chain": names(found, chain),
            "rests_on": reason_rows(rests)}


# Undecided ones, and on what all rest


def waiters_rows(found: Findings, some: Iterable[Tuple[int, Waiters]]) -> List[Tree]:
    """Returns the rows of those on whose act others hang. The first has most of these."""
    return [{"name": found.process(at).name, "others": others.number, "is_whole": others.is_whole,
             "names": names(found, others.nearest)} for at, others in some]


def fact_rows(sketch: Sketch, reasons: Iterable[Reason]) -> List[Tree]:
    """Returns the facts that were used, with the names that each of their words took, and how many rest on each."""
    counts = {it.name: it.number for it in reasons if it.kind == FACT}
    return [{"at": row["at"], "text": row["text"], "took": row["took"], "processes": counts.get(row["at"], 0)}
            for row in sketch.facts]


def limit_rows(found: Findings) -> List[Tree]:
    """The lines of facts on those that stood with a limit."""
    return [{"fact": line, "names": [it.name for it in some]} for line, some in found.lines_on_limits()]
