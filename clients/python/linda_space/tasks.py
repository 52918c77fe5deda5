"""What a client may have pending, and how that ends."""

from __future__ import annotations

from collections import deque
from dataclasses import dataclass, field
from typing import Deque, Dict, List, Optional, Set, Tuple

from .events import Base
from .offers import Offer
from .results import Outcome
from .values import Values


@dataclass
class Put:
    """An out that is not answered."""

    server: int
    number: int
    values: Values


@dataclass(frozen=True)
class Repeat:
    """A request for a kept reply that is not answered."""

    server: int
    number: int


@dataclass(frozen=True)
class Leaving:
    """Leaves that are not answered: the number of each, by server, servers rising."""

    numbers: Dict[int, int]


@dataclass(frozen=True)
class Taking:
    """The Accept of an offer that was held, which is not answered."""

    server: int
    number: int
    offer: Offer


@dataclass(frozen=True)
class Passing:
    """An Accept of nothing, which is not answered: the reply to it is Gone, which the server keeps from then on."""

    server: int
    number: int


@dataclass(frozen=True)
class Passed:
    """An Accept of nothing was answered."""


@dataclass(frozen=True)
class HasLeft:
    """All servers know that the client left."""


@dataclass(frozen=True)
class Took:
    """An offer that was held was taken."""

    offer: Offer

    def outcome(self) -> Outcome:
        return Outcome(0, "took", (), (), self.offer.server, self.offer.id, self.offer.tuple, self.offer.binds)


@dataclass
class Arrival:
    """An Offer or a Read."""

    server: int
    ticket: int
    id: int
    tuple: Values
    is_offer: bool

    def is_same(self, other: Arrival) -> bool:
        return (self.server, self.ticket, self.id) == (other.server, other.ticket, other.id)


@dataclass
class Accepted:
    """An Accept that is not answered."""

    server: int
    number: int
    ticket: int
    id: int


@dataclass
class Syncing:
    """A synchronization that is pending: what is open under each ticket, by rising ticket, the unanswered Accept, and what is saved, oldest first.

    - `alarms`: those of the bases that are alarms, with their times.
    - `limit`: the alarm of the call's own `timeout`. When it is ready each server is sent a message after the Asks that is always answered; `unsure` are
      those that have not answered it. It is chosen once all have.
    - `is_poll`: there is no time: the servers are asked that at once.
    - `is_hold`: an offer is not accepted, but handed on as it is.
    - `asked_again`: the servers that the Asks were sent to again.
    - `is_dropped`: it ended by an error. Only the answer to its Accept is waited for.
    """

    bases: List[Base]
    nacks: List[int]
    alarms: List[Tuple[int, Base]]
    tickets: Dict[int, Base]
    limit: Optional[Base] = None
    is_poll: bool = False
    is_hold: bool = False
    accepted: Optional[Accepted] = None
    saved: Deque[Arrival] = field(default_factory=deque)
    asked_again: Set[int] = field(default_factory=set)
    unsure: Optional[Set[int]] = None
    is_dropped: bool = False

    def ringing(self, clock: int) -> Optional[Base]:
        """The first alarm whose time has come."""
        return next((base for time, base in self.alarms if time <= clock), None)

    def next_time(self) -> Optional[int]:
        """When the first alarm is ready, but for that of the call's own time once the servers are asked."""
        times = [time for time, base in self.alarms if base is not self.limit or self.unsure is None]
        return min(times) if times else None
