"""The note of the job that a client number has in hand: it outlives the process, so that `work` with `tries` counts a life that ended in a job as a failure.

It is the file `KEY-NUMBER.job` in the folder of `numbers.state_folder`, with a line `ID SHA SERVER` while a job is in hand: the tuple's id at its server, the
first 32 hex digits of the SHA-256 of the tuple's bytes in a frame, and the server's port or path. It is not synced: it may be lost with the machine, not with a
process.
"""

from __future__ import annotations

import hashlib
import logging
import os
import re
from typing import TYPE_CHECKING, Optional

from .frames import spell_items
from .numbers import state_folder
from .offers import Offer

if TYPE_CHECKING:
    from .space import Space

SIZE = 256                  # bytes of each write: the line, and blanks
MOST_READ = 65_536          # bytes that are looked at: the library of Node.js notes several jobs, a line for each
LINE = re.compile(rb"^[0-9]+ [0-9a-f]{32} [^\n]+\n", re.MULTILINE)

log = logging.getLogger("linda_space")


class Notes:
    """The note of a space's number, while `work` goes on. `ended` is the line that the last life left, until it is counted."""

    def __init__(self, space: Space) -> None:
        self.space, self.ended = space, b""
        self.servers = [os.fsencode(str(port)) for port in space._ports]
        self.file: Optional[int] = None
        path = state_folder() / f"{space._numbers.key(space._ports)}-{space.client}.job"
        try:
            path.parent.mkdir(parents=True, exist_ok=True)
            self.file = os.open(path, os.O_RDWR | os.O_CREAT | os.O_CLOEXEC, 0o600)
            left = LINE.search(os.pread(self.file, MOST_READ, 0))
            self.ended = left.group() if left else b""
            os.ftruncate(self.file, 0)
            self.write(self.ended)
        except OSError as fault:
            self.give_up(fault)

    def line(self, offer: Offer) -> bytes:
        digest = hashlib.sha256(spell_items(offer.tuple)).hexdigest()[:32]
        return b"%d %s %s\n" % (offer.id, digest.encode(), self.servers[offer.server])

    def is_of(self, offer: Offer) -> bool:
        """Whether the last life ended in this job."""
        return self.ended.startswith(b"%d " % offer.id) and self.ended == self.line(offer)

    def is_before(self, offer: Offer) -> bool:
        """Whether the last life ended in a job of the same server with a lesser id."""
        id, _, server = self.ended[:-1].split(b" ", 2)
        return server == self.servers[offer.server] and int(id) < offer.id

    def begin(self, offer: Offer) -> None:
        """This job is in hand from now on."""
        self.write(self.line(offer))

    def end(self) -> None:
        """No job is in hand."""
        self.write(b"")

    def drop(self) -> None:
        """That job was counted."""
        self.ended = b""
        self.end()

    def write(self, line: bytes) -> None:
        if self.file is not None and not self.space._is_inherited:      # a child that a function forked has no job
            try:
                os.pwrite(self.file, line.ljust(SIZE)[:SIZE], 0)
            except OSError as fault:
                self.give_up(fault)

    def give_up(self, fault: OSError) -> None:
        log.warning("a worker goes on without notes: if a job ends this process, that is not counted as a failure: %s", fault)
        self.close()

    def close(self) -> None:
        file, self.file = self.file, None
        if file is not None:
            os.close(file)
