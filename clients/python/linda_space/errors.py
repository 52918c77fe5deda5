"""What a `Space` raises."""

from __future__ import annotations

from typing import TYPE_CHECKING, Any, Dict, List, Optional, Sequence, Tuple, Type, Union

from .limits import REFUSALS

if TYPE_CHECKING:
    from .offers import Offer


class SpaceError(Exception):
    """What a `Space` raises. `pending` is what `Space.pending` is after it. `advice` is what a pool says of it."""

    pending: Optional[str] = None
    advice: Optional[str] = None

    def __reduce__(self) -> Tuple[Any, ...]:
        """So that it may go to another process, as `multiprocessing` hands it on."""
        return _made_again, (type(self), self.args, self.__dict__)

    def __str__(self) -> str:
        text = super().__str__()
        if self.pending is None:
            return text if self.advice is None else f"{text}; {self.advice}"
        return f"{text}; pending: {self.pending}, {self.advice or 'go on with again()'}"


def _made_again(kind: Type[SpaceError], words: Tuple[Any, ...], what: Dict[str, Any]) -> SpaceError:
    fault = kind.__new__(kind)
    fault.args = words
    fault.__dict__.update(what)
    return fault


class OutOfRange(SpaceError, ValueError):
    """An argument is not within the limits above, or is of another type. Nothing was sent, and the space is as before."""


class Refused(SpaceError):
    """A server refused: `server` is its number, `code` and `name` say why, `detail` is what docs/PROTOCOL.md gives for that code. `client` is the number of this
    client. `stored` is of `out_many` only: for each tuple its place, or None if it was not put."""

    stored: Optional[List[Optional[Tuple[int, Optional[int]]]]] = None

    def __init__(self, server: int, code: int, detail: int, client: int) -> None:
        self.server, self.code, self.detail, self.client, self.name = server, code, detail, client, REFUSALS.get(code, f"code {code}")
        why = {"Busy": f", another connection has client number {client}", "Known": f", client number {client} was used before",
               "TooManyClients": f", client number {client} is new to it, and it has no place for one: use a number again that it knows (a range, a file)"
               }.get(self.name, "")
        super().__init__(f"server {server}: refused {self.name}, detail {detail}{why}")


class NoConnection(SpaceError):
    """The server `server`, at `port`, could not be reached at first, or could not be greeted for `patience` seconds: nobody listens, this user may not connect,
    or no Hello is answered. `__cause__` is the system's error, if there was one."""

    def __init__(self, server: int, port: Union[int, str], fault: Optional[OSError] = None) -> None:
        self.server, self.port = server, port
        why = "timed out, no Hello was answered" if fault is None else fault.strerror or str(fault)
        super().__init__(f"server {server}: no connection to {'port ' if isinstance(port, int) else ''}{port}: {why}")


class TimedOut(SpaceError):
    """The time of a call is up, and something is not known: `servers` have not answered, or have no connection. If there are none all members of a pool were in
    use, and nothing was sent."""

    def __init__(self, servers: Sequence[int] = ()) -> None:
        self.servers = tuple(servers)
        missing = f"there is no answer of server {', '.join(map(str, self.servers))}" if servers else "no member of the pool was free"
        super().__init__(f"the time is up, and {missing}")


class Restored(SpaceError):
    """The server `server` keeps `last` as the last number of this client, and has answered `answered` before: its folder is an older one, as after a
    restored backup. What was answered in between is not there. All calls but `close` raise it from now on."""

    def __init__(self, server: int, last: int, answered: int) -> None:
        self.server, self.last, self.answered = server, last, answered
        super().__init__(f"server {server}: restored, its last number is {last}, and {answered} was answered")


class NumberInUse(SpaceError):
    """Another program uses this client's number: the server `server` keeps `last` as its last number, or an answer that is not to what this client asked, and
    `answered` is the last number that it has answered this client. Which of the programs is right cannot be known, so all calls but `close` raise it from now
    on. What was pending may be done or not; what was held is free again. Begin again under a number of its own."""

    def __init__(self, server: int, last: int, answered: int, client: int) -> None:
        self.server, self.last, self.answered, self.client = server, last, answered, client
        super().__init__(f"server {server}: number in use: another program uses client number {client}, its last number is {last}, and {answered} was answered here")


class BadReply(SpaceError):
    """The server `server` sent what is no frame of a server. Its connection is ended; the next call greets it again."""

    def __init__(self, server: int, fault: str) -> None:
        self.server = server
        super().__init__(f"server {server}: {fault}")


class NoNumber(SpaceError):
    """Each of the client numbers is in use, or was given up, or, if `fresh` is set, was used before: more numbers are needed. Or their file cannot be read or
    written."""


class Gone(SpaceError):
    """What was held is not held any more, as after a lost connection, a restart of the server, or a lease that ran out. It was not taken, and another client may
    have it by now. `offers` are the holds that were lost, `offer` is the first of them, and `server` its server."""

    def __init__(self, offers: Sequence[Offer]) -> None:
        self.offers = tuple(offers)
        self.offer = self.offers[0]
        self.server = self.offer.server
        lost = ", ".join(f"{offer.tuple!r} of server {offer.server}" for offer in self.offers)
        super().__init__(f"not held any more, and not taken: {lost}")


class Busy(SpaceError):
    """Something is pending after an error of an earlier call (see `Space.again`), or another thread is in a call (see `Pool`). Nothing was sent, and the space is
    as it was."""


class Idle(SpaceError):
    """Nothing of that kind is pending. Nothing was sent, and the space is as before."""


class Spent(SpaceError):
    """A number, a ticket or the count of outs would reach 2^63. Nothing was sent for it, and the space is as before."""


class Left(SpaceError):
    """This client has left, by `Space.leave`: there is nothing more that it can do. Nothing was sent."""


class Closed(SpaceError):
    """The space was closed, perhaps by another thread while this call waited."""


class Forked(SpaceError):
    """The space was made by another process, from which this one was forked: both would send messages under one client number over one connection, and the answer
    to one would be taken for that to the other. Nothing was sent. Make a `Space` in this process, under a number of its own."""

    def __init__(self) -> None:
        super().__init__("this space belongs to the process that made it: after a fork the child needs one of its own, under another client number")
