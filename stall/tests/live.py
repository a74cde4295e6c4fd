"""What the tests of the recorders share: answers of the tools."""
import json
import re
import tempfile
from typing import NamedTuple

from common import TOOLS, call, dump_command, explain_command
from harness import PROGRAM, read, run

EXAMPLES = f"{TOOLS}/examples"
TRIES = 5


class Answer(NamedTuple):
    """What the tools say of states: the status and text of cmh-explain, how many are stuck, undecided (likely ones with
    them) and not stuck, and who is stuck."""

    status: int
    text: str
    numbers: tuple
    stuck: list


def answer(system, raws, facts=None):
    with tempfile.TemporaryDirectory(prefix="cmh-") as room:
        words = [system, *raws, *(["--facts", facts] if facts else []), "-o", f"{room}/dump.json"]
        made = call(dump_command.command, words)
        if made.status:
            raise RuntimeError(made.err)
        status, text, _ = call(explain_command.command, [f"{room}/dump.json", "--all"])
        report = run([PROGRAM, "analyse"], read(f"{room}/dump.json")).out
        names = {short: name for name, short in json.loads(read(f"{room}/dump.notes.json"))["names"].items()}
    head = re.match(r"[A-Z ]+: \d+ process(?:es)?: (\d+) stuck(?:, (\d+) likely stuck)?, (\d+) undecided, "
                    r"(\d+) not stuck", text.replace(",\n", ", "))
    certain, likely, undecided, well = (int(number or 0) for number in head.groups())
    stuck = sorted(names.get(it, it) for it in re.findall(r"^deadlocked (\S+) ", report, re.M))
    return Answer(status, text, (certain, likely + undecided, well), stuck)


def roots_of(text):
    """The members of each certain root of an answer."""
    parts = re.findall(r"^Root \d+: .*\n((?:  .*\n)+)", text, re.M)
    return sorted(sorted(re.findall(r"^  (\S.*?) (?:on \S+ )?waits for", part, re.M)) for part in parts)
