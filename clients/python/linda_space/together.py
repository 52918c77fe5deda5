"""Numbered messages that are under way together, up to 64 to a server: of `out_many` (`Outs`), of `take_many` and `purge` (`Takes`).

A server answers the messages of a connection in order, and keeps the reply to the last one. So after a lost connection Welcome's last says which of them were
done; the reply to the last of these may be asked for, those before it are lost.
"""

from __future__ import annotations

from collections import deque
from dataclasses import dataclass
from typing import TYPE_CHECKING, Deque, List, Optional, Sequence, Set, Tuple

from .errors import NumberInUse, Refused, Spent
from .events import In, as_event
from .frames import GONE, STORED, TAKEN, Reply, spell_accept, spell_ask, spell_cancel, spell_out
from .limits import MOST_ASKS, MOST_TOGETHER, NUMBER_LIMIT
from .values import Values

if TYPE_CHECKING:
    from .machine import Machine
    from .tasks import Arrival


@dataclass(frozen=True)
class ManyStored:
    """Outs that went together were done: for each its server, and its id, or None if the answer was lost with a connection."""

    places: List[Optional[Tuple[int, Optional[int]]]]


@dataclass(frozen=True)
class ManyTaken:
    """What was taken together, and how many tuples; `is_counted`: only their count is wanted, the tuples were not kept."""

    tuples: List[Values]
    count: int
    is_counted: bool


class Outs:
    """Outs that are under way together.

    - `places`: for each tuple its place, as far as is known.
    - `waiting`: by server the places in `tuples` that are not sent yet, `going`: those that are not answered, with their numbers.
    - `owed`: how many refusals a server still sends for what went to it after a message that it refused.
    - `fault`: the first refusal. Nothing more is sent then.
    """

    name = "out_many"

    def __init__(self, machine: Machine, tuples: Sequence[Values]) -> None:
        self.tuples = tuples
        self.places: List[Optional[Tuple[int, Optional[int]]]] = [None] * len(tuples)
        self.waiting: List[Deque[int]] = [deque() for _ in range(machine.servers)]
        self.going: List[Deque[Tuple[int, int]]] = [deque() for _ in range(machine.servers)]
        self.owed = [0] * machine.servers
        self.fault: Optional[Refused] = None
        for place in range(len(tuples)):
            self.waiting[(machine.client + machine.outs + place) % machine.servers].append(place)
        if machine.outs + len(tuples) >= NUMBER_LIMIT or any(
                machine.numbers[server] + len(places) > NUMBER_LIMIT for server, places in enumerate(self.waiting)):
            raise Spent("no number is left")

    def needs(self, server: int) -> bool:
        return bool(self.waiting[server] or self.going[server] or self.owed[server])

    def under_way(self, server: int) -> int:
        return len(self.going[server])

    def send(self, machine: Machine, server: int) -> None:
        """Sends as many as may be under way."""
        waiting, going = self.waiting[server], self.going[server]
        while waiting and len(going) < MOST_TOGETHER and machine.is_up[server]:
            place, number = waiting.popleft(), machine.numbers[server] + len(going)
            going.append((number, place))
            machine.sent.append((server, spell_out(number, self.tuples[place])))

    def welcomed(self, machine: Machine, server: int, last: int) -> None:
        """Records what was done; the last message of it is sent again for its reply, and the rest to be done."""
        self.owed[server] = 0
        going = self.going[server]
        while going and going[0][0] < last:
            number, place = going.popleft()
            self.places[place] = (server, None)
            machine.answered(server, number, False)
        machine.sent += [(server, spell_out(number, self.tuples[place])) for number, place in going]
        self.send(machine, server)

    def receive(self, machine: Machine, server: int, reply: Reply) -> None:
        going = self.going[server]
        if not going or reply.number < going[0][0]:
            return
        if reply.kind != STORED or reply.number != going[0][0]:
            raise NumberInUse(server, reply.number, machine.numbers[server] - 1, machine.client)
        number, place = going.popleft()
        self.places[place] = (server, reply.id)
        machine.answered(server, number, False)
        self.send(machine, server)
        self.end(machine)

    def refused(self, machine: Machine, server: int, fault: Refused) -> None:
        """A message was not done, nor is what was sent to its server after it, which the server refuses too."""
        if self.owed[server]:
            self.owed[server] -= 1
        else:
            self.fault = self.fault or fault
            self.owed[server] = max(0, len(self.going[server]) - 1)
            self.going[server].clear()
            for waiting in self.waiting:
                waiting.clear()
        self.end(machine)

    def lost(self, server: int) -> None:
        self.owed[server] = 0

    def end(self, machine: Machine) -> None:
        """Ends the call once nothing is under way any more."""
        if any(map(self.needs, range(machine.servers))):
            return
        machine.task = None
        if self.fault is not None:
            self.fault.stored = self.places
            raise self.fault
        machine.ended = ManyStored(self.places)


class Takes:
    """Tuples that are there now and are taken together, from one server after another.

    Asks go to the server in rounds, and after them a message that is always answered: what was not offered by then is not there, and is cancelled. An Accept
    goes over the connection of its Offer, so it takes: what Welcome's last says was done was taken, and its tuple is known from the Offer.

    - `tickets`: what is asked for in this round, `going`: the Accepts that are not answered, with number, id and tuple.
    - `left`: how many more may be taken, or None if all are; `is_round`: this round's end is not known yet; `is_dry`: the server has no more.
    - `is_dropped`: the call ended by an exception. Only what is under way is waited for.
    """

    def __init__(self, machine: Machine, event: In, count: Optional[int], is_counted: bool) -> None:
        as_event(event)
        self.event, self.left, self.is_counted = event, count, is_counted
        self.name = "purge" if is_counted else "take_many"
        self.server = 0
        self.tickets: Set[int] = set()
        self.going: Deque[Tuple[int, int, Values]] = deque()
        self.tuples: List[Values] = []
        self.count = 0
        self.is_round = self.is_dry = self.is_dropped = False

    def needs(self, server: int) -> bool:
        return server == self.server

    def under_way(self, server: int) -> int:
        return len(self.going) if server == self.server else 0

    def go_on(self, machine: Machine) -> None:
        """Asks for more, goes on to the next server, or ends."""
        while not self.going and not self.is_round and machine.ended is None:
            if self.is_dropped or self.left == 0 or self.is_dry and self.server + 1 == machine.servers:
                machine.task, machine.ended = None, ManyTaken(self.tuples, self.count, self.is_counted)
                return
            if self.is_dry:
                self.server, self.is_dry = self.server + 1, False
            if not self.ask(machine):
                return
        if self.going and not (self.is_round or self.is_dry or self.is_dropped or self.left == 0):
            self.ask(machine)

    def ask(self, machine: Machine) -> bool:
        """Begins a round, if the server is there."""
        if not machine.is_up[self.server]:
            return False
        room = MOST_ASKS - sum(server == self.server for server, _ in machine.held)
        count = max(1, min(MOST_TOGETHER, room, MOST_TOGETHER if self.left is None else self.left))
        if machine.ticket + count > NUMBER_LIMIT:
            raise Spent("no ticket is left")
        self.tickets = set(range(machine.ticket, machine.ticket + count))
        machine.sent += [(self.server, spell_ask(ticket, self.event)) for ticket in sorted(self.tickets)]
        machine.ticket += count
        machine.probe(self.server)
        self.is_round = True
        return True

    def offered(self, machine: Machine, arrival: Arrival) -> bool:
        """Accepts an offer if it was asked for; returns whether it was."""
        if arrival.server != self.server or arrival.ticket not in self.tickets or not self.event.fits(arrival.tuple):
            return False
        number = machine.numbers[self.server] + len(self.going)
        if number >= NUMBER_LIMIT:
            raise Spent("no number is left")
        self.tickets.discard(arrival.ticket)
        self.going.append((number, arrival.id, arrival.tuple))
        if self.left is not None:
            self.left -= 1
        machine.sent.append((self.server, spell_accept(number, arrival.ticket, arrival.id)))
        return True

    def probed(self, machine: Machine) -> None:
        """All asks of the round were seen: what was not offered is not there."""
        if self.is_round:
            self.is_round = False
            self.is_dry = bool(self.tickets)
            self.cancel(machine)
            self.go_on(machine)

    def receive(self, machine: Machine, server: int, reply: Reply) -> None:
        if server != self.server or not self.going or reply.number < self.going[0][0]:
            return
        number, place, values = self.going[0]
        if reply.number != number or reply.kind not in (TAKEN, GONE) or reply.kind == TAKEN and (reply.id, reply.tuple) != (place, values):
            raise NumberInUse(server, reply.number, machine.numbers[server] - 1, machine.client)
        self.going.popleft()
        machine.answered(server, number, reply.kind == TAKEN)
        if reply.kind == TAKEN:
            self.note(values)
        elif self.left is not None:
            self.left += 1
        self.go_on(machine)

    def note(self, values: Values) -> None:
        self.count += 1
        if not self.is_counted:
            self.tuples.append(values)

    def refused(self, machine: Machine, server: int, fault: Refused) -> None:
        """An Accept was not done, nor are those after it; what they would take is free again with the connection, which the space ends."""
        self.going.clear()
        raise fault

    def lost(self, server: int) -> None:
        if server == self.server:
            self.tickets.clear()
            self.is_round = False

    def welcomed(self, machine: Machine, server: int, last: int) -> None:
        """The tuples of Accepts that were done were taken; the others are free again, and are asked for anew."""
        if server != self.server:
            return
        while self.going:
            number, _, values = self.going.popleft()
            if number <= last:
                self.note(values)
                machine.answered(server, number, True)
            elif self.left is not None:
                self.left += 1
        self.go_on(machine)

    def drop(self, machine: Machine) -> None:
        """The call ended by an exception."""
        self.is_dropped = True
        if self.is_round:
            self.cancel(machine)
            self.is_round = False
        if not self.going and not self.count:
            machine.task = None

    def cancel(self, machine: Machine) -> None:
        machine.sent += [(self.server, spell_cancel(ticket)) for ticket in sorted(self.tickets)]
        self.tickets.clear()
