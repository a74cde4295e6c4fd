"""How a server of PostgreSQL is taken: `psql` asks it, and the console of a pgbouncer before it."""
from __future__ import annotations

from typing import Iterator, List, Tuple

from cmh_proc.process import name_of, parent_of

from ..servers import ServerTaker


class PostgresTaker(ServerTaker):
    def commands(self, pid: int, name: str, words: List[str]) -> Iterator[Tuple[str, str, str]]:
        if name == "postgres" and name_of(parent_of(pid)) != name:
            yield "postgres", "cmh-stall postgres", "postgres and linux see inside"


TAKER = PostgresTaker
