"""Which client number a space takes: one that is given, one of several, or one that a program keeps in a file of its own.

The file of a program has a number a line. It is in the folder `$LINDA_STATE`, else `$XDG_STATE_HOME/linda`, else `~/.local/state/linda`, and its name is the
program's, with the first 12 digits of the SHA-256 of the program's whole path: `square-1f0c9b3a7d52.numbers`. The server says which of them are in use, so
several copies of a program may run at once. A last line without an end was cut when it was added, and is passed over.

A server knows only which clients are connected now. So a number of a file, or of several, is claimed on this machine too (`Claim`): a program that has no
connection for a while, as when its server is started again, keeps its number. Each that is free is greeted once, to find one whose last reply is Taken.
"""

from __future__ import annotations

import errno
import hashlib
import logging
import os
import random
import socket
import sys
import time
from functools import partial
from pathlib import Path
from typing import TYPE_CHECKING, Dict, Generator, List, Optional, Sequence, Tuple, Union, cast

from .errors import NoConnection, NoNumber, OutOfRange, Refused, TimedOut
from .limits import BUSY_PATIENCE, LONGEST_PAUSE, MOST_CLIENT
from .results import Kept
from .values import within

if TYPE_CHECKING:
    from .links import Link
    from .machine import Machine
    from .space import Space

LEAST_DRAWN = 1 << 31                   # new numbers of files are from here on
MOST_DRAWS = 64

log = logging.getLogger("linda_space")

Client = Union[int, Sequence[int], "os.PathLike[str]", str, None]
Course = Generator[float, None, None]


def state_folder() -> Path:
    """The folder of what programs keep from one life to the next."""
    return Path(os.environ.get("LINDA_STATE") or os.path.join(os.environ.get("XDG_STATE_HOME") or os.path.expanduser("~/.local/state"), "linda"))


def program_file() -> Path:
    """The file in which this program keeps its numbers."""
    program = os.path.realpath(sys.argv[0]) if sys.argv and sys.argv[0] else sys.executable
    return state_folder() / f"{Path(program).stem}-{hashlib.sha256(os.fsencode(program)).hexdigest()[:12]}.numbers"


class Numbers:
    """The numbers that a space may take: `several`, or those of the file at `path`, or only `first`."""

    def __init__(self, client: Client) -> None:
        self.path: Optional[Path] = None
        self.several: Optional[List[int]] = None
        self.first = 0
        if client is None or isinstance(client, os.PathLike) or isinstance(client, str) and "/" in client:
            self.path = program_file() if client is None else Path(client)
        elif isinstance(client, Sequence) and not isinstance(client, (str, bytes)):
            self.several = [within("a client", number, 0, MOST_CLIENT) for number in client]
            if not self.several:
                raise OutOfRange("there is no client number")
            self.first = self.several[0]
        else:
            self.first = within("a client", client, 0, MOST_CLIENT)

    def key(self, ports: Sequence[object]) -> str:
        """The name under which these numbers are claimed: one for each file, or for a list for these servers, in any order."""
        if self.path is not None:
            whole = os.fsencode(os.path.join(os.path.realpath(self.path.parent), self.path.name))
        else:
            paths = [os.path.realpath(port) if os.path.exists(port) else port for port in ports if isinstance(port, str)]
            whole = " ".join(["ports", *map(str, sorted(port for port in ports if isinstance(port, int))), *sorted(paths)]).encode()
        return hashlib.sha256(whole).hexdigest()[:32]

    def read(self) -> List[int]:
        """The numbers of the file, each once; none if it is not there yet. Raises NoNumber if it cannot be read, or has something else."""
        assert self.path is not None
        try:
            text = self.path.read_text(encoding="ascii")
            whole, _, cut = text.rpartition("\n")
            if cut:
                log.warning("the last line of %s has no end, and is passed over: %s", self.path, cut)
            lines = [line for line in whole.split("\n") if not line.endswith("x")]         # cut, and ended so by the program that added the next one
            return list(dict.fromkeys(within("a client", int(word), 0, MOST_CLIENT) for line in lines for word in line.split()))
        except FileNotFoundError:
            return []
        except (OSError, ValueError) as fault:
            raise NoNumber(f"the file of client numbers {self.path}: {fault}") from fault

    def add(self, number: int) -> None:
        """Adds a number to the file, in one write. Raises NoNumber if that cannot be done."""
        assert self.path is not None
        try:
            self.path.parent.mkdir(parents=True, exist_ok=True)
            file = os.open(self.path, os.O_RDWR | os.O_APPEND | os.O_CREAT | os.O_CLOEXEC, 0o600)
            try:
                size = os.fstat(file).st_size
                is_whole = size == 0 or os.pread(file, 1, size - 1) == b"\n"
                line = f"{number}\n".encode() if is_whole else f"x\n{number}\n".encode()
                if os.write(file, line) != len(line):
                    raise OSError(errno.ENOSPC, os.strerror(errno.ENOSPC))
                os.fsync(file)
            finally:
                os.close(file)
        except OSError as fault:
            raise NoNumber(f"the file of client numbers {self.path}: {fault}") from fault


class Claim:
    """A number that this process has until it ends, or `end` is called: no other process of this machine claims it meanwhile. It is the name of a unix socket in
    Linux's abstract namespace, which needs no file and ends with the process; elsewhere, or if the system refuses that, nothing is claimed. Raises
    FileExistsError if another process has it."""

    def __init__(self, key: str, number: int) -> None:
        self._socket: Optional[socket.socket] = None
        if sys.platform != "linux":
            return
        made = None
        try:
            made = socket.socket(socket.AF_UNIX, socket.SOCK_STREAM)
            made.bind(f"\0linda_space/{key}/{number}".encode().ljust(108, b"\0"))     # the whole name, as Node.js binds it
            self._socket, made = made, None
        except OSError as fault:
            if fault.errno == errno.EADDRINUSE:
                raise FileExistsError(f"number {number} is in use") from fault
        finally:
            if made is not None:
                made.close()

    @property
    def is_made(self) -> bool:
        return self._socket is not None

    def end(self) -> None:
        """Ends the claim: others may claim the number."""
        if self._socket is not None:
            self._socket.close()


def choose_number(space: Space, numbers: Numbers, fresh: bool) -> Course:
    """Greets each server under a number that is free."""
    if numbers.path is None and numbers.several is None:
        yield from space._greet(numbers.first, fresh)
        return
    key, until = numbers.key(space._ports), time.monotonic() + min(BUSY_PATIENCE, space._patience)
    while True:
        refused = yield from _of_several(space, key, numbers.read() if numbers.several is None else numbers.several, fresh and numbers.path is None)
        if refused is None:
            return
        if time.monotonic() >= until or (fresh if numbers.path is None else "Busy" not in refused):
            break
        yield from _rest()
    if numbers.path is not None:
        yield from _new_of_file(space, key, numbers)
    elif "TooManyClients" in refused:
        raise refused["TooManyClients"]
    else:
        assert numbers.several is not None
        raise NoNumber(f"none of the client numbers from {numbers.several[0]} to {numbers.several[-1]} is to be had: a larger range has more")


def _new_of_file(space: Space, key: str, numbers: Numbers) -> Course:
    """Greets under a new number, and adds it to the file."""
    for _ in range(MOST_DRAWS):
        number = random.SystemRandom().randint(LEAST_DRAWN, MOST_CLIENT)
        kept = yield from _try(space, key, number, True)
        if isinstance(kept, list):
            numbers.add(number)
            return
        if kept is not None and kept.name == "TooManyClients":
            raise kept
    raise NoNumber(f"none of {MOST_DRAWS} new client numbers is to be had")


def _of_several(space: Space, key: str, numbers: Sequence[int], fresh: bool) -> Generator[float, None, Optional[Dict[str, Refused]]]:
    """Greets under the first number whose last reply is Taken, else under the first that is free. None if there was one; else how servers refused those that
    nobody on this machine has. A number that was found is kept, with its connections, while others are looked at."""
    found: Optional[Tuple[Machine, List[Link], Optional[Claim]]] = None
    refused: Dict[str, Refused] = {}
    try:
        for number in numbers:
            kept = yield from _try(space, key, number, fresh)
            if isinstance(kept, Refused):
                refused[kept.name] = kept
            elif kept is not None:
                if fresh or any(reply is not None and reply.kind == "taken" for reply in kept):
                    return None
                if found is None:
                    found = (space._machine, *space._set_aside())
                else:
                    space._give_number_up()
        if found is None:
            return refused
        space._give_number_up()
        space._take_back(*found)
        found = None
        return None
    finally:
        if found is not None:
            for link in found[1]:
                space._let_go(link)
            if found[2] is not None:
                found[2].end()


def _try(space: Space, key: str, number: int, fresh: bool) -> Generator[float, None, Union[List[Optional[Kept]], Refused, None]]:
    """Greets each server under this number; returns the replies that they keep, with `fresh` only that there are none. If it is not to be had there is no
    connection: the Refused if a server is Busy, though nobody on this machine has the number, or has TooManyClients; None if it is in use here, was given up,
    or with `fresh` was used."""
    refused = None
    try:
        space._claim = Claim(key, number)
    except FileExistsError:
        return None
    try:
        yield from space._greet(number, fresh, True)
        kept: List[Optional[Kept]] = []
        for server in range(0 if fresh else len(space._links)):
            ended = yield from space._course(partial(space._machine.repeat, server), space._patience, False, None, None)
            kept.append(cast(Optional[Kept], ended))
        if not any(reply is not None and reply.kind == "left" for reply in kept):
            return kept
    except TimedOut as fault:           # it answered the Hello, and no more
        raise NoConnection(fault.servers[0], space._ports[fault.servers[0]]) from None
    except Refused as fault:
        if fault.name not in ("Busy", "Known", "Left", "TooManyClients"):
            raise
        if fault.name == "TooManyClients" or fault.name == "Busy" and space._claim.is_made:
            refused = fault
    space._give_number_up()
    return refused


def _rest() -> Generator[float, None, None]:
    """A pause."""
    until = time.monotonic() + LONGEST_PAUSE
    while time.monotonic() < until:
        yield until
