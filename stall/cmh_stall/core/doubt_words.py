"""What a doubt says, from its row of an answer's tree: in a sentence, 'beat, which sleeps, frees a', or of whom."""
from __future__ import annotations

import re
from typing import Any, Dict, Optional, Sequence

from .files import short_name, shown
from .model import HOWS, Sign, Strength
from .words import few

NAMES = 5  # as many are told
UNSEEN = {
    "unread": "somebody who couldn't be looked at",
    "unshown": "somebody or a timer that can't be seen from here",
    "left-out": "somebody who wasn't looked at",
    "by-name": "somebody who opens it by its name",
    "outside": "somebody outside of what was looked at",
    "to-come": "somebody who comes later",
}
STAND_INS = {  # names of those who stand for others, with what these are
    "other-publishers": "one who publishes to its queue for the first time",
    "unseen-work": "one that does something by itself",
    "consumer-timeout": "the broker's limit for a message that isn't acknowledged",
    "message-limits": "a limit of a message in a queue that nobody reads",
    "session-limits": "a limit that a session has set for itself, which no view shows",
}
UNCOUNTED = "{} went on between the looks, and waits anew, which nothing counts"
ANEW = "somebody between the looks: nothing counts how often it waits"
EXPIRES, HANDLES, SIGNAL = "expires", "handles", "signal of "  # hows, and how those are called that stand for signals
MORE = re.compile(", (?:and|or one) ")  # before what a clause says besides
SIGNS = {
    Sign.TICKS: "ran its loop between the looks and woke nobody",
    Sign.SLEEPS: "sleeps",
    Sign.POLLS: "called {} again between the looks and woke nobody",
    Sign.GOES_ON: "goes on",
    Sign.UNKNOWN: "isn't understood",
    Sign.BLOCKED: "waits itself",
    Sign.ENDED: "has ended",
}


def clause_of(how: str, sign: Optional[Sign], reason: str) -> str:
    """Returns what is said of those of a doubt, behind 'which', or nothing if they aren't in the state. `reason` is why
    all of them rest, or in which function they poll."""
    if sign is None:
        return ""
    if HOWS[how][0] is Strength.AGAINST:
        return HOWS[how][1]
    return SIGNS[sign].format(f"{reason}()" if reason else "its function") if sign in SIGNS else told_reason(reason)


def told_reason(reason: str) -> str:
    """Returns why one rests, if that tells a reader something."""
    return "has nothing to do" if not reason or ": " in reason else reason.partition(";")[0]


def sentence(row: Dict[str, Any], whom: Sequence[str], most: int = NAMES) -> str:
    """Returns what a doubt says, as what may be so. `whom` has the names of those whom they may free."""
    freed = whom[0] if len(whom) == 1 else f"one of {few(whom, most, ' and ')}"
    if row["how"] == "uncounted":
        return UNCOUNTED.format(freed)
    words = subject(row, few(map(short_name, row["who"]), most, " or "))
    return f"{words}{',' if ', which ' in words else ''} frees {freed}"


def subject(row: Dict[str, Any], who: str) -> str:
    """Returns of whom a doubt says that it frees somebody: 'beat, which sleeps'."""
    if who in STAND_INS:
        return STAND_INS[who]
    if row["sign"] is None:
        is_told = who and row["how"] != "left-out"  # (the name of those who are left out tells nobody anything)
        return who if is_told else UNSEEN.get(row["how"], UNSEEN["unshown"])
    if row["how"] == HANDLES and who.startswith(SIGNAL):
        return f"a signal, which {who.replace(SIGNAL, '')} handles"
    if row["how"] == EXPIRES:
        return f"a limit of the server ({who})"
    return f"{who}, which {shown(row['clause'])}"


def short_subject(row: Dict[str, Any], who: str) -> str:
    """Returns the same for those who know that it is of what frees somebody."""
    return ANEW if row["how"] == "uncounted" else MORE.split(subject(row, who))[0]
