"""A model of `linda run`: which lines a script prints, by docs/PROTOCOL.md and docs/COMMANDS.md.

It is written only from the documents, as plainly as they are, and shares nothing with the program, so that the two can be compared. It is no tool by itself.
A script is a list of commands, each a tuple of a word and what belongs to it: out, sync, abandon, leave, tick, snapshot, stop, repeat, state. Tuples are Python
tuples; a pattern is a value or one of "?i", "?s", "?b", "_" in a Formal; events are ("in", template), ("rd", template), ("alarm", time), ("always", atom),
("never",), ("choose", events), ("wrap", number, event) and ("nack", number, event).
"""

from dataclasses import dataclass, field
from typing import Iterator

Atom = int | str | bool
Tuple = tuple[Atom, ...]
Event = tuple

MOST_ASKS = 64
MOST_CLIENTS = 65_536


@dataclass(frozen=True)
class Formal:
    """A formal of a kind, or the wildcard."""

    word: str

    def fits(self, value: Atom) -> bool:
        return self.word == "_" or self.word == {bool: "?b", int: "?i", str: "?s"}[type(value)]


def same(one: Atom, other: Atom) -> bool:
    return type(one) is type(other) and one == other


def matches(template: tuple, value: Tuple) -> bool:
    return len(template) == len(value) and all(item.fits(atom) if isinstance(item, Formal) else same(item, atom) for item, atom in zip(template, value))


def bindings(template: tuple, value: Tuple) -> list[Atom]:
    return [atom for item, atom in zip(template, value) if isinstance(item, Formal) and item.word != "_"]


# ---- texts

def atom_text(value: object) -> str:
    if isinstance(value, Formal):
        return value.word
    if isinstance(value, bool):
        return "true" if value else "false"
    if isinstance(value, int):
        return str(value)
    assert isinstance(value, str)
    for sign, escape in (("\\", "\\\\"), ('"', '\\"'), ("\n", "\\n"), ("\t", "\\t"), ("\r", "\\r")):
        value = value.replace(sign, escape)
    return f'"{value}"'


def tuple_text(value: tuple) -> str:
    return "(" + ", ".join(atom_text(item) for item in value) + ")"


def list_text(values: list) -> str:
    return "[" + ", ".join(atom_text(value) for value in values) + "]"


def event_text(event: Event) -> str:
    word = event[0]
    if word in ("in", "rd"):
        return f"{word} {tuple_text(event[1])}"
    if word == "choose":
        return "choose [" + ", ".join(event_text(member) for member in event[1]) + "]"
    if word in ("wrap", "nack"):
        return f"{word} {event[1]} {event_text(event[2])}"
    return " ".join([word, *(atom_text(part) for part in event[1:])])


def command_text(command: tuple) -> str:
    word, *parts = command
    if word == "out":
        return f"{parts[0]} out {tuple_text(parts[1])}"
    if word == "sync":
        return f"{parts[0]} sync {event_text(parts[1])}"
    if word in ("abandon", "leave"):
        return f"{parts[0]} {word}"
    return " ".join([word, *map(str, parts)])


# ---- events

@dataclass(frozen=True)
class Base:
    """A leaf, with the numbers of the labels above it, innermost first, and the places of the nack nodes above it."""

    leaf: Event
    labels: list[int]
    above: set[int]


def bases_and_nacks(event: Event) -> tuple[list[Base], list[int]]:
    """The bases in tree order, and the numbers of the nack nodes in tree order."""
    bases: list[Base] = []
    nacks: list[int] = []

    def walk(node: Event, labels: list[int], above: set[int]) -> None:
        if node[0] == "choose":
            for member in node[1]:
                walk(member, labels, above)
        elif node[0] == "wrap":
            walk(node[2], [node[1], *labels], above)
        elif node[0] == "nack":
            nacks.append(node[1])
            walk(node[2], labels, above | {len(nacks) - 1})
        else:
            bases.append(Base(node, labels, above))

    walk(event, [], set())
    return bases, nacks


# ---- servers

@dataclass
class Server:
    """What a server keeps, and what it holds and lets wait. It answers messages with pairs (client, reply)."""

    next: int = 1
    bag: dict[int, Tuple] = field(default_factory=dict)
    book: dict[int, tuple[int, tuple]] = field(default_factory=dict)
    holds: dict[int, tuple[int, int]] = field(default_factory=dict)
    waits: list[tuple[int, int, bool, tuple]] = field(default_factory=list)

    def take(self, client: int, message: tuple) -> list[tuple[int, tuple]]:
        return getattr(self, message[0])(client, *message[1:])

    def judged(self, client: int, number: int) -> list[tuple[int, tuple]] | None:
        """The answer to a numbered message that is not the next one."""
        last, kept = self.book.get(client, (0, ()))
        if number == 0 or number < last:
            return [(client, ("Refused", 4, last))]
        if number == last:
            return [(client, (kept[0], number, *kept[1:]))]
        if kept[:1] == ("Left",):
            return [(client, ("Refused", 11, last))]
        if number > last + 1:
            return [(client, ("Refused", 5, last))]
        if last == 0 and len(self.book) >= MOST_CLIENTS:
            return [(client, ("Refused", 7, MOST_CLIENTS))]
        return None

    def keep(self, client: int, number: int, *kept: object) -> tuple[int, tuple]:
        self.book[client] = number, kept
        return client, (kept[0], number, *kept[1:])

    def Out(self, client: int, number: int, value: Tuple) -> list[tuple[int, tuple]]:
        if (answer := self.judged(client, number)) is not None:
            return answer
        place, self.next = self.next, self.next + 1
        self.bag[place] = value
        return [self.keep(client, number, "Stored", place), *self.dispatch(place)]

    def Accept(self, client: int, number: int, ticket: int, place: int) -> list[tuple[int, tuple]]:
        if (answer := self.judged(client, number)) is not None:
            return answer
        if self.holds.get(place) != (client, ticket):
            return [self.keep(client, number, "Gone")]
        del self.holds[place]
        return [self.keep(client, number, "Taken", place, self.bag.pop(place))]

    def Leave(self, client: int, number: int) -> list[tuple[int, tuple]]:
        if (answer := self.judged(client, number)) is not None:
            return answer
        return [self.keep(client, number, "Left"), *self.close(client)]

    def close(self, client: int) -> list[tuple[int, tuple]]:
        """The client's waits are gone, then its holds, by rising id, each dispatched before the next."""
        self.waits = [wait for wait in self.waits if wait[0] != client]
        sent = []
        for place in sorted(place for place, holder in self.holds.items() if holder[0] == client):
            del self.holds[place]
            sent += self.dispatch(place)
        return sent

    def Ask(self, client: int, ticket: int, remove: bool, template: tuple) -> list[tuple[int, tuple]]:
        last, kept = self.book.get(client, (0, ()))
        if kept == ("Left",):
            return [(client, ("Refused", 11, last))]
        held = [place for place, holder in self.holds.items() if holder == (client, ticket)]
        if held:
            return [(client, ("Offer", ticket, held[0], self.bag[held[0]]))]
        if any(wait[:2] == (client, ticket) for wait in self.waits):
            return []
        if sum(wait[0] == client for wait in self.waits) + sum(holder[0] == client for holder in self.holds.values()) >= MOST_ASKS:
            return [(client, ("Refused", 10, ticket))]
        for place in sorted(self.bag):
            if matches(template, self.bag[place]) and not (remove and place in self.holds):
                return [self.offer(client, ticket, place) if remove else (client, ("Read", ticket, place, self.bag[place]))]
        self.waits.append((client, ticket, remove, template))
        return []

    def Cancel(self, client: int, ticket: int) -> list[tuple[int, tuple]]:
        if any(wait[:2] == (client, ticket) for wait in self.waits):
            self.waits = [wait for wait in self.waits if wait[:2] != (client, ticket)]
            return []
        for place, holder in list(self.holds.items()):
            if holder == (client, ticket):
                del self.holds[place]
                return self.dispatch(place)
        return []

    def offer(self, client: int, ticket: int, place: int) -> tuple[int, tuple]:
        self.holds[place] = client, ticket
        return client, ("Offer", ticket, place, self.bag[place])

    def dispatch(self, place: int) -> list[tuple[int, tuple]]:
        served = [wait for wait in self.waits if matches(wait[3], self.bag[place])]
        readers = [wait for wait in served if not wait[2]]
        takers = [wait for wait in served if wait[2]][:1]
        self.waits = [wait for wait in self.waits if wait not in readers + takers]
        return [(client, ("Read", ticket, place, self.bag[place])) for client, ticket, _, _ in readers] + [
            self.offer(client, ticket, place) for client, ticket, _, _ in takers]

    def open_again(self) -> None:
        self.holds, self.waits = {}, []

    def lines(self, number: int) -> Iterator[str]:
        yield f"server {number} next {self.next} tuples {len(self.bag)} clients {len(self.book)}"
        for place in sorted(self.bag):
            state = "held {} {}".format(*self.holds[place]) if place in self.holds else "free"
            yield f"tuple {place} {tuple_text(self.bag[place])} {state}"
        for client in sorted(self.book):
            last, (name, *parts) = self.book[client]
            yield " ".join([f"client {client} {last} {name.lower()}", *(tuple_text(part) if isinstance(part, tuple) else str(part) for part in parts)])


# ---- clients

@dataclass
class Waiting:
    """A synchronization that is pending: the event with its bases, the base of each ticket, the unanswered accept, and what is saved."""

    bases: list[Base]
    nacks: list[int]
    tickets: dict[int, Base]
    accept: tuple[int, tuple, tuple] | None = None
    saved: list[tuple[int, tuple]] = field(default_factory=list)


@dataclass
class Client:
    """A client. Calls answer messages, as pairs (server, message), and lines."""

    number: int
    servers: int
    clock: int = 0
    ticket: int = 1
    puts: int = 0
    numbers: dict[int, int] = field(default_factory=dict)
    put: tuple[int, tuple] | None = None
    waiting: Waiting | None = None
    leaves: dict[int, int] = field(default_factory=dict)
    has_left: bool = False

    def __post_init__(self) -> None:
        self.sent: list[tuple[int, tuple]] = []
        self.lines: list[str] = []

    def given(self) -> tuple[list[tuple[int, tuple]], list[str]]:
        given = self.sent, [f"{self.number} {line}" for line in self.lines]
        self.sent, self.lines = [], []
        return given

    def next_number(self, server: int) -> int:
        self.numbers[server] = self.numbers.get(server, 0) + 1
        return self.numbers[server]

    def is_refused(self) -> bool:
        """Whether it has left, or something is pending: then an out, a synchronization and a leave are refused."""
        if self.has_left or self.put or self.waiting or self.leaves:
            self.lines.append("refused left" if self.has_left else "refused busy")
            return True
        return False

    def out(self, value: Tuple) -> None:
        if self.is_refused():
            return
        server = (self.number + self.puts) % self.servers
        self.puts += 1
        self.put = server, ("Out", self.next_number(server), value)
        self.sent.append(self.put)

    def leave(self) -> None:
        """A Leave with the next number there goes to each server; `leaves` has the numbers that are not answered."""
        if self.is_refused():
            return
        self.leaves = {server: self.next_number(server) for server in range(self.servers)}
        self.sent += self.unanswered_leaves()

    def unanswered_leaves(self) -> list[tuple[int, tuple]]:
        """The Leaves that are not answered."""
        return [(server, ("Leave", number)) for server, number in self.leaves.items()]

    def sync(self, event: Event) -> None:
        if self.is_refused():
            return
        bases, nacks = bases_and_nacks(event)
        self.waiting = Waiting(bases, nacks, {})
        for base in bases:
            if base.leaf[0] == "always" or self.is_ringing(base):
                self.choose(base, self.ready_words(base))
                return
        for base in bases:
            if base.leaf[0] in ("in", "rd"):
                self.waiting.tickets[self.ticket] = base
                self.ticket += 1
        self.sent += self.asks()

    def asks(self) -> list[tuple[int, tuple]]:
        assert self.waiting
        return [(server, ("Ask", ticket, base.leaf[0] == "in", base.leaf[1])) for ticket, base in self.waiting.tickets.items() for server in range(self.servers)]

    def abandon(self) -> None:
        if self.has_left:
            self.lines.append("refused left")
        elif not self.waiting:
            self.lines.append("refused idle")
        elif self.waiting.accept:
            self.lines.append("refused busy")
        else:
            self.cancel_all(None)
            self.lines.append(f"dropped raised {list_text(self.waiting.nacks)}")
            self.waiting = None

    def is_ringing(self, base: Base) -> bool:
        return base.leaf[0] == "alarm" and base.leaf[1] <= self.clock

    @staticmethod
    def ready_words(base: Base) -> str:
        return "alarm" if base.leaf[0] == "alarm" else f"always {atom_text(base.leaf[1])}"

    def tick(self, time: int) -> None:
        self.clock = max(self.clock, time)
        if self.waiting and not self.waiting.accept:
            self.ring()

    def ring(self) -> None:
        assert self.waiting
        for base in self.waiting.bases:
            if self.is_ringing(base):
                self.choose(base, "alarm")
                return

    def choose(self, base: Base, words: str, spared: tuple[int, int] | None = None) -> None:
        assert self.waiting
        raised = [number for place, number in enumerate(self.waiting.nacks) if place not in base.above]
        self.cancel_all(spared)
        self.lines.append(f"{words} labels {list_text(base.labels)} raised {list_text(raised)}")
        self.waiting = None

    def cancel_all(self, spared: tuple[int, int] | None) -> None:
        assert self.waiting
        self.sent += [(server, ("Cancel", ticket)) for ticket in self.waiting.tickets for server in range(self.servers) if (server, ticket) != spared]

    def get(self, word: str, base: Base, server: int, place: int, value: Tuple, spared: tuple[int, int] | None = None) -> None:
        self.choose(base, f"{word} {server} {place} {tuple_text(value)} binds {list_text(bindings(base.leaf[1], value))}", spared)

    def receive(self, server: int, reply: tuple) -> None:
        name = reply[0]
        if name == "Refused":
            self.lines.append(f"fault {server} {reply[1]} {reply[2]}")
        elif name in ("Offer", "Read"):
            self.arrive(server, reply)
        elif name == "Stored":
            if self.put and self.put[0] == server and self.put[1][1] == reply[1]:
                self.put = None
                self.lines.append(f"stored {server} {reply[2]}")
        elif name == "Left":
            if self.leaves.get(server) == reply[1]:
                del self.leaves[server]
                if not self.leaves:
                    self.has_left = True
                    self.lines.append("left")
        elif self.waiting and self.waiting.accept:
            self.settle(server, reply)

    def arrive(self, server: int, reply: tuple) -> None:
        name, ticket, place, value = reply
        base = self.waiting.tickets.get(ticket) if self.waiting else None
        if base is None:
            if name == "Offer":
                self.sent.append((server, ("Cancel", ticket)))
        elif base.leaf[0] != ("in" if name == "Offer" else "rd") or not matches(base.leaf[1], value):
            pass
        elif self.waiting and self.waiting.accept:
            if all((other, saved[1], saved[2]) != (server, ticket, place) for other, saved in self.waiting.saved):
                self.waiting.saved.append((server, reply))
        elif name == "Read":
            self.get("read", base, server, place, value)
        else:
            assert self.waiting
            message = "Accept", self.next_number(server), ticket, place
            self.waiting.accept = server, message, reply
            self.sent.append((server, message))

    def settle(self, server: int, reply: tuple) -> None:
        """Taken or Gone, while an accept is unanswered."""
        assert self.waiting and self.waiting.accept
        asked, (_, number, ticket, place), _ = self.waiting.accept
        if (asked, number) != (server, reply[1]):
            return
        if reply[0] == "Taken":
            base = self.waiting.tickets[ticket]
            if reply[2] == place and matches(base.leaf[1], reply[3]):
                again = any((other, saved[1]) == (server, ticket) and saved[0] == "Offer" for other, saved in self.waiting.saved)
                self.get("took", base, server, place, reply[3], None if again else (server, ticket))
            return
        self.waiting.accept = None
        if self.waiting.saved:
            self.arrive(*self.waiting.saved.pop(0))
        else:
            self.ring()

    def reconnected(self, server: int) -> None:
        unanswered = [self.put] if self.put else self.unanswered_leaves()
        if self.waiting:
            unanswered = [self.waiting.accept[:2]] if self.waiting.accept else []
            unanswered += self.asks()
        self.sent += [message for message in unanswered if message[0] == server]


# ---- worlds

class World:
    """Servers, clients, and every packet that was ever sent, some of which are delivered."""

    def __init__(self, servers: int) -> None:
        self.servers = [Server() for _ in range(servers)]
        self.clients: dict[int, Client] = {}
        self.packets: list[tuple[str, int, int, tuple]] = []
        self.delivered = 0
        self.lines: list[str] = []

    def play(self, commands: list[tuple]) -> list[list[str]]:
        """The lines that each command prints."""
        told = []
        for command in commands:
            self.do(*command)
            while self.delivered < len(self.packets):
                self.delivered += 1
                self.deliver(*self.packets[self.delivered - 1])
            told.append(self.lines)
            self.lines = []
        return told

    def do(self, word: str, *parts) -> None:  # noqa: ANN002
        if word in ("out", "sync", "abandon", "leave"):
            number, *rest = parts
            if word in ("out", "sync"):
                self.clients.setdefault(number, Client(number, len(self.servers)))
            if number not in self.clients:
                self.lines.append(f"{number} refused idle")
                return
            getattr(self.clients[number], word)(*rest)
            self.gather(self.clients[number])
        elif word == "tick":
            for number in sorted(self.clients):
                self.clients[number].tick(parts[0])
                self.gather(self.clients[number])
        elif word == "snapshot":
            self.lines.append(f"server {parts[0]} snapshot")
        elif word == "stop":
            self.servers[parts[0]].open_again()
            self.lines.append(f"server {parts[0]} opened")
            for number in sorted(self.clients):
                self.clients[number].reconnected(parts[0])
                self.gather(self.clients[number])
        elif word == "repeat":
            for packet in self.packets[:]:
                self.deliver(*packet)
        else:
            assert word == "state"
            self.lines += self.servers[parts[0]].lines(parts[0])

    def gather(self, client: Client) -> None:
        sent, lines = client.given()
        self.packets += [("to server", server, client.number, message) for server, message in sent]
        self.lines += lines

    def deliver(self, way: str, server: int, client: int, what: tuple) -> None:
        if way == "to server":
            self.packets += [("to client", server, other, reply) for other, reply in self.servers[server].take(client, what)]
        else:
            self.clients[client].receive(server, what)
            self.gather(self.clients[client])
