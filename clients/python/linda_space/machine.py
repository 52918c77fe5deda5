"""The client that docs/PROTOCOL.md describes: it says what must be sent, and is given what came. It knows only the connections and the time that it is given."""

from __future__ import annotations

from collections import deque
from typing import Deque, Dict, List, Optional, Sequence, Set, Tuple, Union

from .errors import Busy, Gone, Idle, Left, NumberInUse, Refused, Spent, SpaceError
from .events import Alarm, Always, Asking, Base, Event, In, bases_and_nacks
from .frames import (
    GONE, HAVE_ID, LEFT, OFFER, READ, REFUSED, STORED, TAKEN, WELCOME, Reply, is_left, spell_accept, spell_ask, spell_cancel, spell_leave, spell_out)
from .limits import NUMBER_LIMIT, REFUSALS
from .offers import Offer
from .results import Kept, Outcome, Stored
from .tasks import Accepted, Arrival, HasLeft, Leaving, Passed, Passing, Put, Repeat, Syncing, Taking, Took
from .together import ManyStored, ManyTaken, Outs, Takes
from .values import Value, Values

Task = Union[Put, Repeat, Syncing, Leaving, Taking, Passing, Outs, Takes]
Ended = Union[Stored, Kept, Outcome, Offer, Gone, HasLeft, Took, Passed, ManyStored, ManyTaken]
Settled = Union[Stored, Outcome, Kept, SpaceError, List[Optional[Tuple[int, Optional[int]]]], List[Values], int, None]
JUDGED = ("Old", "Gap", "Full", "TooManyClients", "Left")      # how a server refuses a numbered message; it is not done then


class Machine:
    """The client: its clock, its next numbers, and what is pending. What a call sends is appended to `sent`, as pairs of a server and a frame; if what was
    pending has ended, `ended` says how.

    - `is_up`, `probes`: for each server whether it is greeted, and how many answers to messages with number 0 it owes.
    - `held`: the offers that are held, by server and ticket; `lost_offers`: those that were lost, which no error has reported yet.
    - `in_hand`: what was taken for calls that ended by an error before.
    - `dropped`: the nack numbers of a synchronization that ended by an error, until the next one.
    - `is_interrupted`: the task is of a call that an exception ended that is not of this module. The next call waits for its end first, which is `settled`
      then.
    """

    def __init__(self, client: int, servers: int) -> None:
        self.client, self.servers, self.clock, self.ticket, self.outs = client, servers, 0, 1, 0
        self.numbers = [1] * servers
        self.is_up = [False] * servers
        self.probes = [0] * servers
        self.has_left = False
        self.task: Optional[Task] = None
        self.sent: List[Tuple[int, bytes]] = []
        self.ended: Optional[Ended] = None
        self.held: Dict[Tuple[int, int], Offer] = {}
        self.lost_offers: List[Offer] = []
        self.last_taken: Set[int] = set()   # the servers whose last answer to a numbered message, in this life, was Taken
        self.in_hand: Deque[Outcome] = deque()
        self.dropped: Optional[Tuple[int, ...]] = None
        self.last_dropped = 0               # the greatest ticket of a synchronization that ended by an error
        self.is_interrupted = False
        self.settled: Settled = None

    # ---- calls

    def out(self, values: Values) -> None:
        """The j-th out of client c, from 0, goes to server (c + j) mod S."""
        self.be_idle()
        server = (self.client + self.outs) % self.servers
        number = self.numbers[server]
        if number >= NUMBER_LIMIT or self.outs + 1 >= NUMBER_LIMIT:
            raise Spent("no number is left")
        self.begin(Put(server, number, values))
        self.outs += 1

    def repeat(self, server: int) -> None:
        """Asks for the kept reply to the last number, if there is one. The message that is sent under that number does not matter."""
        self.be_idle()
        if self.numbers[server] > 1:
            self.begin(Repeat(server, self.numbers[server] - 1))

    def leave(self) -> None:
        """Gives the number up at all servers."""
        self.be_idle()
        if max(self.numbers) >= NUMBER_LIMIT:
            raise Spent("no number is left")
        self.begin(Leaving(dict(enumerate(self.numbers))))

    def out_many(self, tuples: Sequence[Values]) -> None:
        """Puts these tuples, each as `out` does, several under way at once."""
        self.be_idle()
        outs = Outs(self, tuples)
        self.task = outs
        self.outs += len(tuples)
        for server in range(self.servers):
            outs.send(self, server)
        outs.end(self)

    def take_many(self, event: In, count: Optional[int], is_counted: bool) -> None:
        """Takes tuples that are there now, `count` at most, or all, several under way at once."""
        self.be_idle()
        takes = Takes(self, event, count, is_counted)
        self.task = takes
        takes.go_on(self)

    def pass_over(self, server: int) -> None:
        """Has the server keep Gone as the last reply."""
        self.be_idle()
        number = self.numbers[server]
        if number >= NUMBER_LIMIT:
            raise Spent("no number is left")
        self.begin(Passing(server, number))

    def take_held(self, offer: Offer) -> None:
        """Accepts an offer that is held, or goes on with its Accept."""
        if offer.is_taken:
            return
        if type(self.task) is Taking and self.task.offer is offer:
            self.go_on()
            return
        self.be_idle()
        if self.held.get((offer.server, offer.ticket)) is not offer:
            self.tell_lost(offer)
            raise Gone((offer,))
        number = self.numbers[offer.server]
        if number >= NUMBER_LIMIT:
            raise Spent("no number is left")
        self.begin(Taking(offer.server, number, offer))

    def renew(self, offer: Offer) -> None:
        """Sends a message that changes nothing to the server that holds it: a Cancel of a ticket that is never open."""
        if self.held.get((offer.server, offer.ticket)) is not offer:
            self.tell_lost(offer)
            raise Gone((offer,))
        self.sent.append((offer.server, spell_cancel(NUMBER_LIMIT - 1)))

    def renew_at(self, servers: Sequence[int]) -> None:
        """Renews all that these servers hold, by a message to each."""
        self.sent += [(server, spell_cancel(NUMBER_LIMIT - 1)) for server in servers]

    def tell_lost(self, offer: Offer) -> bool:
        """Notes that the loss of this offer is reported now. True if it was lost and that was not reported before."""
        was_lost = any(lost is offer for lost in self.lost_offers)
        self.lost_offers = [lost for lost in self.lost_offers if lost is not offer]
        return was_lost

    def release(self, offer: Offer) -> None:
        """Gives what is held free again, if it is held and no Accept of it is unanswered. Its loss is no longer reported."""
        self.tell_lost(offer)
        if self.held.get((offer.server, offer.ticket)) is offer and not (isinstance(self.task, Taking) and self.task.offer is offer):
            del self.held[offer.server, offer.ticket]
            self.sent.append((offer.server, spell_cancel(offer.ticket)))

    def sync(self, event: Event, has_limit: bool = False, is_poll: bool = False, is_hold: bool = False) -> None:
        """`has_limit`: the last base is the alarm of the call's own time."""
        self.be_idle()
        bases, nacks = bases_and_nacks(event)
        asking: List[Base] = []
        alarms: List[Tuple[int, Base]] = []
        sync = Syncing(bases, nacks, alarms, {}, bases[-1] if has_limit and event._size[2] else None, is_poll, is_hold)
        self.dropped = None
        for base in bases:
            if isinstance(base.leaf, Asking):
                asking.append(base)
                if self.in_hand and not is_hold and base.leaf.takes:
                    for place, had in enumerate(self.in_hand):
                        if base.leaf.fits(had.tuple or ()):
                            assert had.server is not None and had.id is not None and had.tuple is not None
                            self.in_hand[place] = outcome = self.outcome(sync, base, "took", Arrival(had.server, 0, had.id, had.tuple, True))
                            self.ended = outcome
                            del self.in_hand[place]
                            return
            elif isinstance(base.leaf, Alarm):
                alarms.append((base.leaf.time, base))
                if base.leaf.time <= self.clock and base is not sync.limit:
                    self.commit(sync, base, "alarm")
                    return
            elif isinstance(base.leaf, Always):
                self.commit(sync, base, "always", value=base.leaf.value)
                return
        if self.ticket + len(asking) > NUMBER_LIMIT:
            raise Spent("no ticket is left")
        sync.tickets = {self.ticket + place: base for place, base in enumerate(asking)}
        self.begin(sync)
        self.ticket += len(asking)
        if is_poll:
            self.ring(sync)

    def begin(self, task: Task) -> None:
        """The task is pending from now on, unless a frame of it would be too long."""
        self.sent += self.unanswered(task)
        self.task = task

    def be_here(self) -> None:
        if self.has_left:
            raise Left("the client has left")

    def be_idle(self) -> None:
        if self.has_left or self.task is not None or self.ended is not None:
            self.be_here()
            raise Busy("an earlier call has not ended")

    def go_on(self) -> None:
        """Sends what is unanswered once more, to the servers that are up, since one of them may have refused it; but no Accept of a synchronization, which is
        over if it was refused. Messages that go together are still under way, or their connection has ended."""
        if isinstance(self.task, Takes):
            self.task.go_on(self)
        elif not isinstance(self.task, (Syncing, Outs)):
            self.sent += [packet for packet in self.unanswered(self.task) if self.is_up[packet[0]]]

    # ---- after an error

    def is_left_over(self) -> bool:
        """Whether something is unfinished for which the next call waits first."""
        return self.is_interrupted or type(self.task) is Syncing

    def give_up(self, is_interrupted: bool) -> None:
        """A call ended by an exception. A synchronization is over, but for the answer to its Accept; all else stays pending, until `again`, or until the next
        call if the exception is not of this module."""
        ended, task = self.ended, self.task
        if isinstance(task, Syncing) and not task.is_dropped:
            self.dropped = tuple(task.nacks)
            self.last_dropped = self.ticket - 1
        if ended is not None:
            self.file(ended)
        elif isinstance(task, Takes):
            self.last_dropped = self.ticket - 1
            task.drop(self)
            self.is_interrupted = is_interrupted and self.task is not None
        elif isinstance(task, Syncing) and not task.is_dropped:
            own = task.accepted
            self.cancel(task, None if own is None else (own.server, own.ticket))
            task.saved.clear()
            task.is_dropped = True
            if own is None:
                self.task = None
            else:
                task.tickets = {own.ticket: task.tickets[own.ticket]}
        elif is_interrupted and task is not None and not isinstance(task, Syncing):
            self.is_interrupted = True

    def file(self, ended: Ended) -> None:
        """Keeps how a task ended whose call is over."""
        self.task = None
        if isinstance(ended, Outcome):
            if ended.kind == "took" and not any(had is ended for had in self.in_hand):
                self.in_hand.append(ended)
        elif isinstance(ended, Offer):
            self.release(ended)
        elif not isinstance(ended, Passed):
            self.settled = self.result(ended)
        self.ended, self.is_interrupted = None, False

    @staticmethod
    def result(ended: Union[Stored, Kept, Gone, HasLeft, Took, ManyStored, ManyTaken]) -> Settled:
        """What `again` returns for a call that ended so."""
        if isinstance(ended, HasLeft):
            return None
        if isinstance(ended, Took):
            return ended.outcome()
        if isinstance(ended, ManyStored):
            return ended.places
        if isinstance(ended, ManyTaken):
            return ended.count if ended.is_counted else ended.tuples
        return ended

    def abandon(self) -> Tuple[int, ...]:
        """The nack numbers of the synchronization that ended by an error."""
        self.be_here()
        if self.in_hand or isinstance(self.task, Syncing):
            raise Busy("a tuple may have been taken for it: go on by again()")
        if self.dropped is None:
            raise Idle("no synchronization ended by an error")
        raised, self.dropped = self.dropped, None
        return raised

    # ---- what arrives

    def tick(self, now: int) -> None:
        if now > self.clock:
            self.clock = now
        if type(self.task) is Syncing and self.task.alarms and self.task.accepted is None:
            self.ring(self.task)

    def ring(self, sync: Syncing) -> None:
        """The first alarm that is ready is chosen, if no Accept is unanswered. That of the call's own time waits for an answer of each server."""
        base = sync.ringing(self.clock)
        if base is None:
            return
        if base is sync.limit:
            if sync.unsure is None:
                sync.unsure = set(range(self.servers))
                for server in range(self.servers):
                    if self.is_up[server]:
                        self.probe(server)
            if sync.unsure:
                return
        self.commit(sync, base, "alarm")

    def probe(self, server: int) -> None:
        """A message that is always refused Old and changes nothing. Messages are answered in order, so what was before it was seen then."""
        self.sent.append((server, spell_accept(0, 0, 0)))
        self.probes[server] += 1

    def unanswered(self, task: Optional[Task]) -> List[Tuple[int, bytes]]:
        """What is not answered: an Out, an Accept or the Leaves, and then the Asks of all open tickets, by rising ticket, then rising server."""
        if type(task) is Put:
            return [(task.server, spell_out(task.number, task.values))]
        if type(task) is Syncing:
            packets = []
            if task.accepted is not None:
                packets.append((task.accepted.server, spell_accept(task.accepted.number, task.accepted.ticket, task.accepted.id)))
            if not task.is_dropped:
                for ticket, base in task.tickets.items():
                    ask = spell_ask(ticket, base.leaf)
                    packets += [(server, ask) for server in range(self.servers)]
            return packets
        if type(task) is Repeat:
            return [(task.server, spell_accept(task.number, 0, 0))]
        if type(task) is Leaving:
            return [(server, spell_leave(number)) for server, number in task.numbers.items()]
        if type(task) is Taking:
            return [(task.server, spell_accept(task.number, task.offer.ticket, task.offer.id))]
        if type(task) is Passing:
            return [(task.server, spell_accept(task.number, 0, 0))]
        return []

    def needs(self, server: int) -> bool:
        """Whether what is pending cannot end without that server."""
        task = self.task
        if isinstance(task, Syncing):
            return task.accepted is not None and task.accepted.server == server if task.is_dropped else bool(task.tickets)
        if isinstance(task, Leaving):
            return server in task.numbers
        if isinstance(task, (Outs, Takes)):
            return task.needs(server)
        return task is not None and task.server == server

    def under_way(self, server: int) -> int:
        """How many numbered messages to this server are not answered: what its last number may be above the last one that it answered."""
        task = self.task
        if type(task) is Syncing:
            return int(task.accepted is not None and task.accepted.server == server)
        if type(task) is Put or type(task) is Taking or type(task) is Passing:
            return int(task.server == server)
        if isinstance(task, (Outs, Takes)):
            return task.under_way(server)
        return int(isinstance(task, Leaving) and server in task.numbers)

    def missing(self) -> List[int]:
        """The servers whose answer is waited for; for a synchronization those that are away, if there are any."""
        task = self.task
        if isinstance(task, Syncing):
            if task.accepted is not None:
                return [task.accepted.server]
            away = [server for server in range(self.servers) if not self.is_up[server]]
            return away or sorted(task.unsure or range(self.servers))
        if isinstance(task, Outs):
            return [server for server in range(self.servers) if task.needs(server)]
        return sorted(task.numbers) if isinstance(task, Leaving) else [] if task is None else [task.server]

    def forget(self) -> None:
        """A server is an older one than it was: what is pending will have no answer."""
        self.is_interrupted = False
        if isinstance(self.task, Syncing) and not self.task.is_dropped:
            self.task.accepted = None
        else:
            self.task = None

    def lost(self, server: int) -> None:
        """The connection is over: the server holds nothing for this client any more, and owes it nothing. If an offer that was held is being accepted, the answer
        to that says what became of it."""
        self.is_up[server], self.probes[server] = False, 0
        for key in [key for key in self.held if key[0] == server]:
            offer = self.held.pop(key)
            if not (isinstance(self.task, Taking) and self.task.offer is offer):
                self.lost_offers.append(offer)
        if isinstance(self.task, (Outs, Takes)):
            self.task.lost(server)

    def reconnected(self, server: int, last: int) -> None:
        """The server has welcomed the client, perhaps again, with its last number."""
        self.is_up[server] = True
        if isinstance(self.task, (Outs, Takes)):
            self.task.welcomed(self, server, last)
            return
        packets = [packet for packet in self.unanswered(self.task) if packet[0] == server]
        self.sent += packets
        if isinstance(self.task, Syncing) and not self.task.is_dropped:
            if self.task.tickets:
                self.task.asked_again.add(server)
            if self.task.unsure is not None and server in self.task.unsure:
                self.probe(server)

    def receive(self, server: int, reply: Reply) -> None:
        """Takes a reply. Raises Refused if it is one, Spent if an offer would be accepted and no number is left, and NumberInUse if it has the number of what is
        not answered, and is no answer to that: then another program has used the number. While the client leaves, Refused with Left is as good as Left: an earlier
        life of it has left that server."""
        task, kind = self.task, reply.kind
        if type(task) is Leaving and (kind == LEFT and task.numbers.get(server) == reply.number or is_left(reply) and server in task.numbers):
            self.left(server, task, kind == LEFT)
        elif kind == REFUSED:
            self.refused(server, reply)
        elif kind == OFFER or kind == READ:
            self.arrive(Arrival(server, reply.number, reply.id, reply.tuple, kind == OFFER))
        elif kind == WELCOME:
            pass
        elif type(task) is Syncing:
            if task.accepted is not None and (task.accepted.server, task.accepted.number) == (server, reply.number):
                self.settle(task, task.accepted, reply)
        elif type(task) is Put:
            if (task.server, task.number) == (server, reply.number):
                if kind != STORED:
                    raise self.in_use(server, reply)
                self.end(server, reply.number, Stored(server, reply.id, task.values))
        elif type(task) is Taking:
            if (task.server, task.number) == (server, reply.number):
                self.taken(task, reply)
        elif isinstance(task, (Outs, Takes)):
            task.receive(self, server, reply)
        elif type(task) is Leaving:
            if task.numbers.get(server) == reply.number:
                raise self.in_use(server, reply)
        elif type(task) is Passing:
            if (task.server, task.number) == (server, reply.number):
                if kind != GONE:
                    raise self.in_use(server, reply)
                self.end(server, reply.number, Passed())
        elif type(task) is Repeat:
            if (task.server, task.number) == (server, reply.number):
                name = {STORED: "stored", TAKEN: "taken", GONE: "gone", LEFT: "left"}[kind]
                self.ended = Kept(server, reply.number, name, reply.id if kind in HAVE_ID else None, reply.tuple or None)
                self.task = None

    def in_use(self, server: int, reply: Reply) -> NumberInUse:
        return NumberInUse(server, reply.number, self.numbers[server] - 1, self.client)

    def left(self, server: int, task: Leaving, is_new: bool) -> None:
        """A server knows that the client left, by this Leave or by one of an earlier life."""
        if is_new:
            self.numbers[server] = task.numbers[server] + 1
        if len(task.numbers) == 1:
            self.has_left, self.ended, self.task = True, HasLeft(), None
            self.held.clear()
        del task.numbers[server]

    def refused(self, server: int, reply: Reply) -> None:
        """A Refused ends the call. It changes only this: a numbered message that was judged and not done is not pending any more, and its number is still
        the next one."""
        name, task = REFUSALS.get(reply.number), self.task
        if name == "Old" and self.probes[server]:
            self.probes[server] -= 1
            if isinstance(task, Syncing) and task.unsure is not None and not self.probes[server]:
                task.unsure.discard(server)
                if task.accepted is None:
                    self.ring(task)
            elif isinstance(task, Takes) and server == task.server and not self.probes[server]:
                task.probed(self)
            return
        if name == "TooManyAsks" and reply.id <= self.last_dropped and not (isinstance(task, Syncing) and reply.id in task.tickets):
            return                          # of a synchronization that ended by such an error before
        if name in JUDGED:
            if isinstance(task, (Outs, Takes)) and (task.under_way(server) or isinstance(task, Outs) and task.owed[server]):
                task.refused(self, server, Refused(server, reply.number, reply.id, self.client))
                return
            if isinstance(task, (Put, Repeat, Taking, Passing)) and task.server == server:
                self.task = None
            elif isinstance(task, Syncing) and task.accepted is not None and task.accepted.server == server:
                task.accepted = None
                if task.is_dropped:
                    self.cancel(task, None)
                    self.task = None
        raise Refused(server, reply.number, reply.id, self.client)

    def arrive(self, arrival: Arrival) -> None:
        """An Offer or a Read, at any time."""
        if arrival.is_offer and type(self.task) is Takes and self.task.offered(self, arrival):
            return
        sync = self.task if type(self.task) is Syncing and not self.task.is_dropped else None
        base = sync.tickets.get(arrival.ticket) if sync else None
        if sync is None or base is None:
            if arrival.is_offer:
                held = self.held.get((arrival.server, arrival.ticket))
                if held is None or held.id != arrival.id:
                    self.sent.append((arrival.server, spell_cancel(arrival.ticket)))
            return
        if base.leaf.takes != arrival.is_offer or not base.leaf.fits(arrival.tuple):
            return
        if sync.accepted is not None:
            if not any(saved.is_same(arrival) for saved in sync.saved):
                sync.saved.append(arrival)
        else:
            self.take_up(sync, base, arrival)

    def take_up(self, sync: Syncing, base: Base, arrival: Arrival) -> None:
        """An offer is accepted, or held as it is; a copy ends the synchronization by its base."""
        if not arrival.is_offer:
            self.commit(sync, base, "read", got=arrival)
            return
        if sync.is_hold:
            offer = Offer(arrival.server, arrival.id, arrival.tuple, base.leaf.binds(arrival.tuple), arrival.ticket)
            self.held[arrival.server, arrival.ticket] = offer
            self.cancel(sync, (arrival.server, arrival.ticket))
            self.ended = offer
            self.task = None
            return
        number = self.numbers[arrival.server]
        if number >= NUMBER_LIMIT:
            raise Spent("no number is left")
        sync.accepted = Accepted(arrival.server, number, arrival.ticket, arrival.id)
        self.sent.append((arrival.server, spell_accept(number, arrival.ticket, arrival.id)))

    def settle(self, sync: Syncing, own: Accepted, reply: Reply) -> None:
        """An answer to the unanswered Accept. If the Asks were sent again to its server, the Accept may have been done before that: its ticket is open there
        once more, and is not spared."""
        base = sync.tickets[own.ticket]
        if reply.kind == TAKEN and reply.id == own.id and base.leaf.fits(reply.tuple):
            self.answered(own.server, own.number, True)
            is_open = own.server in sync.asked_again or any((saved.server, saved.ticket) == (own.server, own.ticket) for saved in sync.saved)
            got = Arrival(own.server, own.ticket, own.id, reply.tuple, True)
            self.commit(sync, base, "took", got, None if is_open else (own.server, own.ticket))
        elif reply.kind == GONE:
            self.answered(own.server, own.number, False)
            sync.accepted = None
            if sync.is_dropped:
                self.cancel(sync, None)
                self.task = None
            elif sync.saved:
                oldest = sync.saved.popleft()
                self.take_up(sync, sync.tickets[oldest.ticket], oldest)
            else:
                self.ring(sync)
        else:
            raise self.in_use(own.server, reply)

    def taken(self, task: Taking, reply: Reply) -> None:
        """An answer to the Accept of an offer that was held."""
        offer = task.offer
        if reply.kind == TAKEN and reply.id == offer.id and reply.tuple == offer.tuple:
            offer.is_taken = True
            self.held.pop((offer.server, offer.ticket), None)
            self.end(task.server, task.number, Took(offer))
        elif reply.kind == GONE:
            self.held.pop((offer.server, offer.ticket), None)
            self.sent.append((offer.server, spell_cancel(offer.ticket)))
            self.end(task.server, task.number, Gone((offer,)))
        else:
            raise self.in_use(task.server, reply)

    def answered(self, server: int, number: int, is_taken: bool) -> None:
        """The server has answered this number, with Taken or not."""
        self.numbers[server] = number + 1
        if is_taken:
            self.last_taken.add(server)
        else:
            self.last_taken.discard(server)

    def end(self, server: int, number: int, ended: Ended) -> None:
        self.answered(server, number, type(ended) is Took)
        self.ended = ended
        self.task = None

    def commit(self, sync: Syncing, base: Base, kind: str, got: Optional[Arrival] = None, spared: Optional[Tuple[int, int]] = None,
               value: Optional[Value] = None) -> None:
        """The synchronization ends by this base."""
        outcome = self.outcome(sync, base, kind, got, value)
        self.cancel(sync, spared)
        self.ended = outcome
        self.task = None

    @staticmethod
    def outcome(sync: Syncing, base: Base, kind: str, got: Optional[Arrival] = None, value: Optional[Value] = None) -> Outcome:
        raised = tuple([number for place, number in enumerate(sync.nacks) if place not in base.above])
        if got is None:
            return Outcome(base.number, kind, base.labels, raised, value=value)
        return Outcome(base.number, kind, base.labels, raised, got.server, got.id, got.tuple, base.leaf.binds(got.tuple))

    def cancel(self, sync: Syncing, spared: Optional[Tuple[int, int]]) -> None:
        """A Cancel of each ticket to each server, by rising ticket, then rising server, but for the pair that is spared."""
        self.sent += [(server, spell_cancel(ticket)) for ticket in sync.tickets for server in range(self.servers) if (server, ticket) != spared]
