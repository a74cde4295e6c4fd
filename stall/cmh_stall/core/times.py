"""Times in words, and from words."""
from __future__ import annotations

import re
from datetime import datetime, timezone
from typing import Mapping, Optional

SECONDS = {"d": 86400.0, "h": 3600.0, "min": 60.0, "s": 1.0, "ms": 0.001, "us": 0.000001}
LARGE = ("d", "h", "min", "s")  # those that a time is told in
NUMBER = re.compile(r"((?:\d+\.?\d*|\.\d+)(?:[eE][+-]?\d+)?)([a-z]*)")


def in_words(seconds: float, several: int = 1, names: Mapping[str, str] = {}, digits: int = 0) -> str:
    """Returns a time in its largest unit of which there are several: '27 min'. So many digits are told of less than a
    thousand, or else whole ones, and units are called by other `names` if they have one."""
    unit = next((unit for unit in LARGE if seconds >= several * SECONDS[unit]), "s")
    number = seconds / SECONDS[unit]
    told = f"{number:.{digits}g}" if digits and number < 1000 else f"{number:,.0f}"
    return f"{told} {names.get(unit, unit)}"


def duration(seconds: float) -> str:
    """Returns a time as people say it: '1.5 h', '27 h', '3 days'."""
    return in_words(seconds, 2, {"d": "days"}, 3)


def seconds_in(text: str, units: Mapping[str, float]) -> Optional[float]:
    """Returns a time that is written as a number with one of some units, or None if it isn't."""
    match = NUMBER.fullmatch(text)
    return float(match[1]) * units[match[2]] if match and match[2] in units else None


def moment(text: str) -> Optional[float]:
    """Returns the seconds of a day and a time, which is of UTC if it names no zone, or None if a text is none."""
    try:
        made = datetime.fromisoformat(text)
        return (made if made.tzinfo else made.replace(tzinfo=timezone.utc)).timestamp()
    except (ValueError, OverflowError):
        return None
