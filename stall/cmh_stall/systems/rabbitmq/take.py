"""How a broker is taken: by `rabbitmqctl`, once for each look."""
from __future__ import annotations

from typing import Iterator, List, Tuple

from ..taking import Taker, full_name


class RabbitmqTaker(Taker):
    def commands(self, pid: int, name: str, words: List[str]) -> Iterator[Tuple[str, str, str]]:
        if name == "beam.smp" and any("rabbit" in word for word in words):
            node = next((full_name(node) for option, node in zip(words, words[1:]) if option in ("-sname", "-name")),
                        "")
            own = "" if node in ("", full_name("rabbit")) else f" {node}"
            yield "rabbitmq", f"cmh-stall rabbitmq{own}", "rabbitmq and erlang see inside"


TAKER = RabbitmqTaker
