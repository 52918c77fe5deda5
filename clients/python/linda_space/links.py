"""Connections to servers, and the places where servers listen."""

from __future__ import annotations

import errno
import os
import socket
from typing import Callable, Optional, Union

from .errors import OutOfRange
from .limits import FRAME_SIZE, MOST_FRAME, SHORTEST_PAUSE
from .values import within

LONGEST_SLEEP = 3600.0                  # seconds
PIECE = 65_536                          # bytes of one read
LOCAL_NAMES = ("localhost", "127.0.0.1")

Port = Union[int, str]                  # of this machine; or the path of a unix socket, a text with a slash


def as_port(port: object) -> Port:
    """A port: 7000, "localhost:7000" or "127.0.0.1:7000"; or the path of a unix socket. Raises OutOfRange for anything else."""
    if isinstance(port, str):
        if "/" in port and "\0" not in port:
            return port
        name, _, digits = port.rpartition(":")
        if name in LOCAL_NAMES and digits.isascii() and digits.isdigit():
            return within("a port", int(digits), 1, 65_535)
        raise OutOfRange(f'a port is a number, "localhost:7000", or a path with a slash: {port!r}')
    return within("a port", port, 1, 65_535)


def connect_to(port: Port) -> socket.socket:
    """A connection to this port of this machine, perhaps not made yet, or to the unix socket at this path. OSError if there is none."""
    stream = socket.socket(socket.AF_UNIX if isinstance(port, str) else socket.AF_INET, socket.SOCK_STREAM)
    try:
        stream.setblocking(False)
        if isinstance(port, str):
            stream.connect(port)
            return stream
        stream.setsockopt(socket.IPPROTO_TCP, socket.TCP_NODELAY, 1)
        fault = stream.connect_ex(("127.0.0.1", port))
        if fault not in (0, errno.EINPROGRESS, errno.EWOULDBLOCK):
            raise OSError(fault, os.strerror(fault))
    except BaseException:
        stream.close()
        raise
    return stream


def waits(fault: OSError) -> bool:
    """Whether an error says only that a stream cannot be read or written now; a stream with TLS says that by an error of the module ssl."""
    return isinstance(fault, BlockingIOError) or type(fault).__name__ in ("SSLWantReadError", "SSLWantWriteError")


class Link:
    """The connection to a server: there is none, or it is being made, or the Hello is not answered, or it is up.

    - `fresh`: how it is greeted next; `is_new`: whether the number was said to be one that was never used.
    - `due`: when it will be made, if there is none; `pause`: how long after that it is tried again.
    - `until`: when it has been away for too long; `busy_until`: when Busy has been answered for too long, once it was answered.
    - `fault`: why the last connection could not be had, or ended.
    - `last_sent`: the highest number that was sent on a connection that was up, or that Welcome had at the very first. A later Welcome has no higher one, unless
      another program used the number.
    """

    def __init__(self, server: int, port: Port, fresh: bool, until: float) -> None:
        self.server, self.port, self.fresh, self.until = server, port, fresh, until
        self.is_new = fresh
        self.stream: Optional[socket.socket] = None
        self.pending: Optional[Callable[[], int]] = None    # of a stream with TLS: how much it has read that its socket does not show
        self.fault: Optional[OSError] = None
        self.is_made = self.is_up = self.was_up = self.was_tried = False
        self.due, self.pause = 0.0, SHORTEST_PAUSE
        self.said = 0.0                                     # when something was sent last
        self.busy_until: Optional[float] = None
        self.came, self.left = bytearray(), bytearray()     # what was read and not heard yet, and what is not written yet
        self.awaited = 0
        self.last_sent = 0

    def frame(self) -> Optional[bytes]:
        """The next frame that came whole, without its length. Raises ValueError if there can be none."""
        length = len(self.came)
        if length < FRAME_SIZE:
            return None
        size = int.from_bytes(self.came[:FRAME_SIZE], "big")
        if not 1 <= size <= MOST_FRAME:
            raise ValueError(f"a frame of {size} bytes")
        if length < FRAME_SIZE + size:
            return None
        data = bytes(self.came[FRAME_SIZE:FRAME_SIZE + size])
        del self.came[:FRAME_SIZE + size]
        return data
