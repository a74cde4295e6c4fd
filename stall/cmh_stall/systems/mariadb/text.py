"""The state that take-mariadb prints: lines of JSON, of two looks at a MariaDB or MySQL server. A look that isn't whole
is refused: its last line counts the others."""
from __future__ import annotations

import re
from functools import cached_property
from typing import Any, Dict, List, Optional, Set, Tuple

from ...core.files import Refusal, shown
from ...core.times import moment
from ..sessions import Lines, Row, ServerLook

NONE = type(None)
TEXT, WHOLE = (str, NONE), (int, NONE)
NUMBER = (int, float, NONE)
TIME = re.compile(r"\d{4}-\d\d-\d\d \d\d:\d\d:\d\d(\.\d{6})?")
SECONDS = range((1 << 30) + 1)  # no limit of a server's may be longer
KEY = (int, str)  # of a transaction: MySQL's are larger than some take as a number
SHAPES: Dict[str, Row] = {
    "look": {"look": TIME, "version": str, "metadata_locks": int, "detects?": int},  # (the last one: of older states)
    "limits": {"limits": str, "idle_transaction_timeout?": NUMBER, "max_statement_time?": NUMBER,
               "innodb_lock_wait_timeout": SECONDS, "lock_wait_timeout": SECONDS, "wait_timeout": SECONDS},
    "thread": {"thread": int, "user": TEXT, "host": TEXT, "db": TEXT, "command": str, "time": WHOLE, "state": TEXT,
               "info": TEXT, "user_lock": WHOLE, "query_id": WHOLE, "tid": WHOLE},
    "transaction": {"transaction": KEY, "of": int, "state": str, "started": TIME, "wait_started": (TIME, NONE),
                    "age": WHOLE, "waited": WHOLE, "lock": TEXT},
    "wait": {"wait": KEY, "for": KEY, "lock": str, "theirs": str},
    "held": {"held": str, "table": TEXT, "index": TEXT, "data": TEXT},
    "metadata": {"metadata": int, "mode": str, "type": str, "schema": TEXT, "name": TEXT},
    "end": {"end": int, "process": int, "machine": str, "taken": [float, float]}}
LINES = Lines("cmh-mariadb ", "lines of take-mariadb are expected", SHAPES, "thread", "end")
# What tells the rows of a kind from each other.
KEYS: Dict[str, Tuple[str, ...]] = {"thread": ("thread",), "transaction": ("of",), "held": ("held",)}


def seconds_of(text: str) -> float:
    """Returns a time of the server's in seconds. Raises Refusal if a text is none."""
    seconds = moment(text)
    if seconds is None:
        raise Refusal(f"{shown(text)} is no time")
    return seconds


class MariadbLook(ServerLook):
    def check(self) -> None:
        is_one = len(self.of("end")) == len(self.of("limits")) == 1
        self.check_count(is_one and self.end["end"] == sum(map(len, self.rows.values())) - 1)
        self.check_once(KEYS)

    @property
    def limits(self) -> Row:
        return self.rows["limits"][0]

    @property
    def end(self) -> Row:
        return self.rows["end"][0]

    @property
    def taken(self) -> Tuple[float, float]:
        return self.end["taken"][0], self.end["taken"][1]

    @cached_property
    def transactions(self) -> Dict[int, Row]:
        """The transaction of each connection, by its number."""
        return {row["of"]: row for row in self.of("transaction")}

    @cached_property
    def connections(self) -> Dict[Any, int]:
        """The connection of each transaction."""
        return {row["transaction"]: row["of"] for row in self.of("transaction")}

    def odd_owners(self) -> Set[int]:
        """The connections of transactions that have the lock of another one by some row: MariaDB's locks begin with the
        number of their transaction."""
        pairs = [(row["transaction"], row["lock"]) for row in self.of("transaction") if row["lock"]]
        pairs += [pair for row in self.of("wait") for pair in (
            (row["wait"], row["lock"]), (row["for"], row["theirs"]))]
        named = [(str(number), lock.partition(":")[0]) for number, lock in pairs if "MariaDB" in self.head["version"]]
        odd = {number for pair in named for number in pair if len(set(pair)) > 1}
        return {row["of"] for row in self.of("transaction") if str(row["transaction"]) in odd}

    def waits_of(self, transaction: Any) -> List[Row]:
        return [row for row in self.of("wait") if row["wait"] == transaction]

    def told(self, lock: Optional[str]) -> str:
        """Returns a lock of a row in words, with the key of the row in that index, or nothing if it isn't shown."""
        row = next((row for row in self.of("held") if row["held"] == lock), None)
        if row is None:
            return ""
        table = str(row["table"]).replace("`", "").rpartition(".")[2]
        index = f" by {row['index']}" if row["index"] not in ("PRIMARY", None) else ""
        return f"row {table}({row['data']}){index}" if row["data"] else f"table {table}"


def words_in(text: str) -> List[str]:
    """Returns the words of a statement, as names of tables may be."""
    return re.findall(r"[\w$]+", text.lower())
