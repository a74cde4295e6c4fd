"""How a server of MariaDB or MySQL is taken: the client of either asks it."""
from __future__ import annotations

from typing import Iterator, List, Tuple

from ..servers import ServerTaker


class MariadbTaker(ServerTaker):
    def has(self, command: str) -> bool:
        return super().has(command) or super().has("mysql")

    def commands(self, pid: int, name: str, words: List[str]) -> Iterator[Tuple[str, str, str]]:
        if name in ("mariadbd", "mysqld"):
            yield name, "cmh-stall mariadb", "mariadb and linux see inside"


TAKER = MariadbTaker
