"""Asks a server by HTTP, for so many bytes and seconds at most."""
from __future__ import annotations

import contextlib
import http.client
import socket
import threading
import time
from typing import List, Optional

from .budget import BUDGET, Refused
from .door import PIECE, larger_than


class HttpAnswer:
    """What a server answers to a request, which a thread waits for: so it can be left behind."""

    def __init__(self, host: str, port: int, path: str, most: int, seconds: float) -> None:
        self.path, self.most, self.data = path, most, b""
        self.is_over = False
        self.fault: Optional[Exception] = None
        self.connection = http.client.HTTPConnection(host.strip("[]"), port, timeout=seconds)
        self.thread = threading.Thread(target=self.run, daemon=True)
        self.thread.start()

    def run(self) -> None:
        try:
            self.connection.request("GET", self.path, headers={"Connection": "close"})
            response = self.connection.getresponse()
            if response.status != 200:
                raise OSError(f"it answers {response.status} {response.reason}")
            self.data = self.body(response)
        except (OSError, ValueError, http.client.HTTPException) as error:
            self.fault = error
        finally:
            self.connection.close()

    def body(self, response: http.client.HTTPResponse) -> bytes:
        pieces: List[bytes] = []
        left = self.most + 1
        while left > 0 and not self.is_over:
            piece = response.read(min(PIECE, left))
            if not piece:
                break
            BUDGET.spend(len(piece))
            pieces.append(piece)
            left -= len(piece)
        if left <= 0:
            raise Refused(larger_than(self.most))
        return b"".join(pieces)

    def leave(self) -> None:
        """Ends the connection, so that the thread ends too."""
        self.is_over = True
        with contextlib.suppress(OSError, AttributeError):
            self.connection.sock.shutdown(socket.SHUT_RDWR)


def fetch(host: str, port: int, path: str, most: int, seconds: float) -> bytes:
    """Returns what a server answers to GET. Raises Refused where that is more than so many bytes, or isn't whole after
    some seconds, and OSError where it can't be asked."""
    last = time.monotonic() + min(seconds, BUDGET.seconds())
    try:
        answer = HttpAnswer(host, port, path, most, max(0.1, last - time.monotonic()))
    except (ValueError, http.client.HTTPException) as error:
        raise OSError(f"{host}:{port} isn't an address: {error}") from error
    answer.thread.join(max(0.0, last - time.monotonic()))
    if answer.thread.is_alive() or isinstance(answer.fault, socket.timeout):  # (whichever clock is the first)
        answer.leave()
        raise Refused(f"it hasn't answered within {seconds:g} s")
    if answer.fault is not None and not isinstance(answer.fault, OSError):
        raise OSError(f"it doesn't speak HTTP: {answer.fault!r}") from answer.fault
    if answer.fault is not None:
        raise answer.fault
    return answer.data
