"""What a server may answer, from what went over its connections: docs/PROTOCOL.md, as it is seen from outside.

The network hands over each message before it reaches the server, and each reply as it comes from there. An answered
message stays answered; an unanswered one may be done or not, and the banks say which at each stop (states.py). All else
is exact: ids, tuples, kept replies, holds, the numbers in refusals, the order of replies on a connection.
"""

from __future__ import annotations

import time
from collections import Counter, deque

import banks
from served import Frame, frames
from simulator.wire import Ask, Fault, Mark, Owed, Pending, Record, Wire, bag_of, book_of, matches, short

NUMBERED = ("Out", "Accept", "Leave")
REPLIES = ("Stored", "Taken", "Gone", "Left")
KNOWN, BUSY, OLD, GAP, FULL, DOWN, LEFT, NO_HELLO = 2, 3, 4, 5, 6, 8, 11, 12
REFUSED = {"old": OLD, "gap": GAP, "left": LEFT, "no hello": NO_HELLO}
MOST_EVENTS = 4_000
# The seconds in which a connection ends after its lease has run out, beside all other work.
LATE = 8.0


class Model:
    """All that is known of one server."""

    def __init__(self, number: int, state: banks.State) -> None:
        self.number, self.clock, self.top = number, 0, state.next - 1
        self.ids = bag_of(state)
        self.told = dict.fromkeys(range(1, state.next), 0)
        self.taken = {place: (0, 0) for place in range(1, state.next) if place not in state.bag}
        self.records = {client: Record(*kept, replies={kept[0]: kept[1]}) for client, kept in book_of(state).items()}
        self.first = state, Mark({client: it.last for client, it in self.records.items()}, {})
        self.holds: dict[int, tuple[Wire, int]] = {}
        self.wires: set[Wire] = set()
        self.greeted: dict[int, Wire] = {}
        # Whether a call of its disk may fail in this life, and whether its bank may be of the first form.
        self.may_fail = self.is_old = False
        # For how many seconds a client that holds a tuple may say nothing.
        self.lease: float | None = None
        # The other servers of the same clients.
        self.others: list[Model] = []
        self.began = time.monotonic()
        self.events: deque[str] = deque(maxlen=MOST_EVENTS)
        self.counts: Counter[str] = Counter()

    def fail(self, *words: object) -> None:
        raise Fault(f"server {self.number}: {' '.join(map(str, words))}")

    def note(self, *words: object) -> None:
        self.clock += 1
        self.events.append(f"{time.monotonic() - self.began:.3f} {' '.join(map(str, words))}")

    def record(self, client: int | None) -> Record:
        return self.records.setdefault(client or 0, Record())

    def bag(self) -> dict[int, tuple]:
        """What must be there if nothing is unanswered."""
        return {place: what for place, what in self.ids.items() if place not in self.taken}

    # ---- connections

    def begin(self, name: str) -> Wire:
        wire = Wire(name)
        self.wires.add(wire)
        return wire

    def end(self, wire: Wire) -> None:
        """The server's end of a connection was closed, or is about to be: what is held for it is free."""
        if not wire.is_closed:
            wire.is_closed = True
            self.note(wire.name, "ends")
            self.wires.discard(wire)
            self.release(wire)
            if wire.client is not None and self.greeted.get(wire.client) is wire:
                del self.greeted[wire.client]

    def release(self, wire: Wire, ticket: int | None = None) -> None:
        for place, holder in list(self.holds.items()):
            if holder[0] is wire and ticket in (None, holder[1]):
                del self.holds[place]

    def stopped(self) -> None:
        for wire in list(self.wires):
            self.end(wire)
        self.note("the server has stopped")

    def oldest(self) -> float | None:
        """The time since which a reply is due."""
        return min((wire.owed[0].when for wire in self.wires if wire.owed), default=None)

    # ---- messages

    def sent(self, wire: Wire, frame: Frame, now: float) -> None:
        """A message that is about to reach the server."""
        name, parts = frame
        wire.heard = now
        self.note(wire.name, "client", wire.client, "sends", short(frames.words_of(name, parts)))
        if name == "Hello":
            wire.greeting.append(parts["client"])
            what = "hello" if wire.client is None else "again"
            wire.owed.append(Owed(what, parts["client"], now, parts["fresh"]))
        elif wire.client is None:
            wire.owed.append(Owed("no hello", 0, now))
        elif name in NUMBERED:
            wire.owed.append(Owed(self.numbered(wire, name, parts), parts["number"], now))
        elif name == "Ask":
            self.asked(wire, parts, now)
        else:
            if parts["ticket"] in wire.asks:
                wire.asks[parts["ticket"]].is_open = False
            self.release(wire, parts["ticket"])

    def asked(self, wire: Wire, parts: dict, now: float) -> None:
        if self.record(wire.client).has_left:
            wire.owed.append(Owed("left", 0, now))
            return
        before = wire.asks.get(parts["ticket"])
        if before and (before.remove, before.template) != (parts["remove"], parts["template"]):
            self.fail(f"client {wire.client} uses ticket {parts['ticket']} for another Ask")
        if not before or not before.is_open:
            wire.asks[parts["ticket"]] = Ask(parts["remove"], parts["template"], self.clock)

    def numbered(self, wire: Wire, name: str, parts: dict) -> str:
        """What must come for a numbered message."""
        record, number = self.record(wire.client), parts["number"]
        pending = record.pending
        if pending and number == pending.number:
            self.check_repeat(wire, pending, name, parts)
            pending.is_sure = False
            return "numbered"
        if number == 0 or number < record.last:
            return "old"
        if number == record.last:
            return "numbered"
        if record.has_left:
            return "left"
        if number > record.last + 1 or pending:
            return "gap"
        self.check_elsewhere(wire, name, number)
        held = name == "Accept" and self.holds.get(parts["id"]) == (wire, parts["ticket"])
        record.pending = Pending(number, name, parts, self.top, held)
        if name == "Leave":
            self.release(wire)
            for ask in wire.asks.values():
                ask.is_open = False
        return "numbered"

    def check_repeat(self, wire: Wire, pending: Pending, name: str, parts: dict) -> None:
        """A message that is sent again is the same; one that was done may be asked for."""
        is_question = pending.is_done and name == "Accept" and parts["ticket"] == parts["id"] == 0
        if (pending.name, pending.parts) != (name, parts) and not is_question:
            self.fail(f"client {wire.client} sends another message under number {pending.number}:",
                      short((pending.name, pending.parts)), "and", short((name, parts)))

    def check_elsewhere(self, wire: Wire, name: str, number: int) -> None:
        """A client has one message unanswered at most, at all its servers, but for Leaves."""
        for other in self.others:
            record = other.records.get(wire.client or 0)
            if name != "Leave" and record and record.pending and not record.pending.is_done:
                self.fail(f"client {wire.client} sends {name} {number}, and at server {other.number} is unanswered",
                          short(record.pending))

    # ---- replies

    def came(self, wire: Wire, frame: Frame) -> None:
        """A reply that the server gave."""
        name, parts = frame
        self.note(wire.name, "client", wire.client, "hears", short(frames.words_of(name, parts)))
        self.counts[name] += 1
        if name in ("Offer", "Read"):
            # (what was sent to one that is late before its connection ended may be read after that)
            if not wire.is_late:
                self.offered(wire, name, parts)
            return
        if name == "Refused" and parts["code"] == DOWN and self.may_fail:
            wire.owed.clear()
            return
        if not wire.owed:
            self.fail(f"client {wire.client} got a reply that nothing asked for:", frames.words_of(name, parts))
        owed = wire.owed.popleft()
        if name == "Welcome" and owed.what == "hello":
            self.welcome(wire, owed, parts["last"])
        elif name in REPLIES and owed.what == "numbered":
            self.answered(wire, owed.number, name, parts)
        elif name != "Refused" or not self.is_refusal(wire, owed, parts["code"], parts["detail"]):
            self.fail(f"client {wire.client} is owed {owed.what} {owed.number} and got", frames.words_of(name, parts))

    def welcome(self, wire: Wire, owed: Owed, last: int) -> None:
        client = wire.greeting.popleft()
        record = self.record(client)
        if client in self.greeted:
            self.fail(f"client {client} is welcome on two connections")
        if owed.is_fresh and record.last:
            self.fail(f"client {client} is welcome as a fresh one, and has number {record.last}")
        if record.pending and last == record.pending.number:
            record.pending.is_done = True
        elif last != record.last or (record.pending and record.pending.is_done):
            self.fail(f"client {client} is welcome with number {last}, but {record.last} was answered,",
                      "and unanswered is", short(record.pending))
        else:
            # (it was not done, and its connection is gone: it never will be)
            record.pending = None
        wire.client = client
        self.greeted[client] = wire

    def is_refusal(self, wire: Wire, owed: Owed, code: int, detail: int) -> bool:
        """Whether this is what may be refused here."""
        if owed.what in ("hello", "again"):
            numbers = self.record(wire.greeting.popleft()).numbers() - {0}
            is_known = owed.what == "hello" and owed.is_fresh and code == KNOWN and detail in numbers
            return is_known or (code, detail) == (BUSY, 0)
        record = self.record(wire.client)
        if owed.what != "numbered":
            return code == REFUSED[owed.what] and detail in ({0} if code == NO_HELLO else record.numbers())
        pending = record.pending
        if (code, detail) != (FULL, 0) or not self.is_old or not pending or pending.number != owed.number:
            return False
        record.pending = None
        return pending.has_no_old_spelling()

    def answered(self, wire: Wire, number: int, name: str, parts: dict) -> None:
        record, reply = self.record(wire.client), (name, *(parts[word] for word in ("id", "tuple") if word in parts))
        if parts["number"] != number:
            self.fail(f"client {wire.client} is owed the answer to {number} and got", frames.words_of(name, parts))
        if number == record.last:
            if reply != record.reply:
                self.fail(f"client {wire.client} got {short(reply)} for {number}, and before", short(record.reply))
        elif not record.pending or record.pending.number != number:
            self.fail(f"client {wire.client} got an answer to {number}, which was not sent")
        else:
            self.done(wire.client or 0, reply)

    def offered(self, wire: Wire, name: str, parts: dict) -> None:
        ask, place = wire.asks.get(parts["ticket"]), parts["id"]
        if ask is None or ask.remove != (name == "Offer") or not matches(ask.template, parts["tuple"]):
            self.fail(f"client {wire.client} got what it did not ask for:", short(frames.words_of(name, parts)))
        assert ask
        self.seen(place, parts["tuple"])
        taken = self.taken.get(place)
        if taken and taken[1] < ask.when:
            self.fail(f"client {wire.client} asked when tuple {place} was taken, and got", name, parts["ticket"])
        if name == "Read":
            ask.is_open = False
        elif ask.is_open:
            if taken:
                self.fail(f"tuple {place} was taken by client {taken[0]}, and is offered to client {wire.client}")
            holder, ticket = self.holds.setdefault(place, (wire, parts["ticket"]))
            if holder is not wire and self.ends_late(holder):
                self.holds[place] = holder, ticket = wire, parts["ticket"]
            if (holder, ticket) != (wire, parts["ticket"]):
                self.fail(f"tuple {place} is held for client {holder.client}, and is offered to client {wire.client}")

    # ---- leases

    def ends_late(self, wire: Wire) -> bool:
        """Whether the lease of a connection may have run out. If so the server ends it, which is not seen yet, and its holds
        are free."""
        if self.lease is None or time.monotonic() - wire.heard < self.lease:
            return False
        wire.is_late = True
        self.release(wire)
        return True

    def check_leases(self) -> None:
        """Checks that there is no connection whose lease ran out some seconds ago."""
        if self.lease is not None:
            for wire, _ in self.holds.values():
                if time.monotonic() - wire.heard > self.lease + LATE:
                    self.fail(f"client {wire.client} holds a tuple, and has said nothing for {LATE} s more than it may")

    # ---- what became of messages

    def seen(self, place: int, what: tuple) -> None:
        """Notes a tuple that is there under an id: it was put."""
        if place not in self.ids:
            pending = [it.pending for it in self.records.values() if it.pending and it.pending.name == "Out"]
            if what not in [it.parts["tuple"] for it in pending]:
                self.fail(f"there is a tuple {place} that nobody put:", short(what))
            self.ids[place] = what
            self.top = max(self.top, place)
        if self.ids[place] != what:
            self.fail(f"tuple {place} was", short(self.ids[place]), "and is", short(what))

    def done(self, client: int, reply: tuple) -> None:
        """The unanswered message of a client was done, with this reply."""
        record, name = self.record(client), reply[0]
        pending = record.pending
        assert pending
        if name == "Stored" and pending.name == "Out":
            self.stored(client, pending, reply[1])
        elif name == "Taken" and pending.name == "Accept" and reply[1] == pending.parts["id"]:
            self.took(client, *reply[1:])
        elif name == "Gone" and pending.name == "Accept":
            if pending.is_sure:
                self.fail(f"tuple {pending.parts['id']} was held for client {client}, whose Accept got Gone")
        elif name != "Left" or pending.name != "Leave":
            self.fail(f"client {client} sent", short((pending.name, pending.parts)), "and got", short(reply))
        record.last, record.reply, record.pending = pending.number, reply, None
        record.replies[pending.number] = reply

    def stored(self, client: int, pending: Pending, place: int) -> None:
        what = pending.parts["tuple"]
        if place in self.told:
            self.fail(f"id {place} was given to client {self.told[place]}, and again to client {client}")
        if place <= pending.floor:
            self.fail(f"id {place} was given to client {client}, whose Out was sent after id {pending.floor} was told")
        if self.ids.setdefault(place, what) != what:
            self.fail(f"tuple {place} was", short(self.ids[place]), "and is", short(what))
        self.told[place] = client
        self.top = max(self.top, place)

    def took(self, client: int, place: int, what: tuple) -> None:
        self.seen(place, what)
        if place in self.taken:
            self.fail(f"tuple {place} was taken by client {self.taken[place][0]}, and again by client {client}")
        self.taken[place] = client, self.clock
        holder = self.holds.pop(place, None)
        if holder:
            holder[0].asks[holder[1]].is_open = False
