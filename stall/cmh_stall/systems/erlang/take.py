"""How nodes of Erlang are taken: `take-erlang` loads a reader there. A cookie comes from a file, since a command line
is seen by all users."""
from __future__ import annotations

import contextlib
import os
import shutil
import tempfile
from typing import Dict, Iterator, List, Sequence, Tuple

from ...core.files import failure_of
from ..taking import Capture, Taker, full_name, recipe


def nodes_first(words: Sequence[str]) -> List[str]:
    """Returns the words for nodes, all of them in one, and those for modules behind it."""
    nodes = [word for word in words if "@" in word] or words
    return [",".join(nodes), *(word for word in words if word not in nodes)]


class ErlangTaker(Taker):
    def words(self, capture: Capture, seconds: float) -> List[str]:
        return [recipe(self.name), *nodes_first(capture.targets)]

    @contextlib.contextmanager
    def environment(self, value: str) -> Iterator[Dict[str, str]]:
        """Makes a home in which Erlang finds the cookie of a file."""
        with contextlib.ExitStack() as stack:
            try:
                home = stack.enter_context(tempfile.TemporaryDirectory(prefix="cmh-"))
                shutil.copyfile(value, f"{home}/.erlang.cookie")
                os.chmod(f"{home}/.erlang.cookie", 0o400)
            except OSError as error:
                raise failure_of(value, error) from error
            yield {"HOME": home}

    def commands(self, pid: int, name: str, words: List[str]) -> Iterator[Tuple[str, str, str]]:
        for option, node in zip(words, words[1:]) if name == "beam.smp" else ():
            if option in ("-sname", "-name"):
                yield "erlang", f"cmh-stall erlang {full_name(node)}", "erlang sees inside"


TAKER = ErlangTaker
