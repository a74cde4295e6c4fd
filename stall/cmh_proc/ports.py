"""Who listens at a port of this machine."""
from __future__ import annotations

import contextlib
from typing import List

from .netlink import LISTENS, tcp_sockets
from .process import files_of, pids


def listeners_at(port: int) -> List[int]:
    """Returns the processes that listen at a port, as far as our user may see that."""
    inodes = set()
    with contextlib.suppress(OSError):
        inodes = {f"socket:[{row.inode}]" for row in tcp_sockets("", states=1 << LISTENS) if row.here[1] == port}
    return [pid for pid in pids() if not inodes.isdisjoint(files_of(pid).values())] if inodes else []
