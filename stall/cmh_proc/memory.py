"""The memory of a process, which is read and never written."""
from __future__ import annotations

import os

from .budget import BUDGET, Budget

LARGEST = 1 << 19  # bytes that are read at once
PAGE = 4096


class Memory:
    """The memory of the process that has a folder in /proc. Its budget ends what takes too long; what is kept of it is
    for others to count."""

    def __init__(self, folder: str, budget: Budget = BUDGET) -> None:
        self.folder, self.budget, self.handle = folder, budget, -1

    def read(self, address: int, size: int) -> bytes:
        """Returns as many bytes, or fewer where no more can be read."""
        self.budget.check()
        if self.handle < 0:
            self.handle = os.open(f"{self.folder}/mem", os.O_RDONLY | os.O_CLOEXEC | os.O_NOFOLLOW)
        try:
            return os.pread(self.handle, min(size, LARGEST), address)
        except (OSError, OverflowError):
            return b""

    def text(self, address: int) -> str:
        """Returns the text up to a zero byte, of 4,096 bytes at most, page by page."""
        data = self.read(address, PAGE - address % PAGE)
        if b"\0" not in data:
            data += self.read(address + len(data), PAGE)
        return data.partition(b"\0")[0].decode("utf-8", "backslashreplace")

    def close(self) -> None:
        if self.handle >= 0:
            os.close(self.handle)
