"""How a server of a database is taken: its client has the words for it, and a file for its password."""
from __future__ import annotations

import re
from typing import Collection, Sequence

from .taking import Taker

# A password among the words for a server: in a key, which a URI may encode, or behind the name of the user.
PASSWORD = re.compile(r"password\s*=|^postgres(ql)?://([^/@]*:[^/@]*@|[^?]*\?(.*&)?[^=&]*%[^=&]*=)|^[^/=]*:[^/=]*@",
                      re.I)


class ServerTaker(Taker):
    def fault(self, targets: Sequence[str], wishes: Collection[str]) -> str:
        """A password isn't said again."""
        if any(map(PASSWORD.search, targets)):
            return "a password is on the command line, where all users see it: a file for passwords takes it"
        return super().fault(targets, wishes)
