"""Random scripts of `linda run`, each from its seed: tools/campaign and tools/trace play them. It is no tool by itself."""

import random

from world import Formal, bases_and_nacks, command_text

# The limits of values: bytes of a text, and fields after the tag.
MOST_TEXT, MOST_FIELDS = 4_095, 32
# The most bytes of texts that a script puts: far fewer than a bank of `linda run` has room for.
MOST_BYTES = 200_000


class Script:
    """A random script, and the state that its choices depend on."""

    def __init__(self, seed: int) -> None:
        self.random = random.Random(seed)
        self.servers = self.random.randint(1, 5)
        self.clients = list(range(1, self.random.randint(2, 8) + 1))
        self.last_client = len(self.clients)
        self.commands: list[tuple] = []
        self.members: dict[int, list[int]] = {}
        self.number = self.time = self.bytes = 0
        for _ in range(80):
            self.commands.append(self.command())

    def whole(self) -> list[tuple]:
        """The commands, then what each server keeps, every packet again, and what each server keeps then."""
        states = [("state", server) for server in range(self.servers)]
        return self.commands + states + [("repeat",)] + states

    def text(self) -> str:
        return "".join(command_text(command) + "\n" for command in self.whole())

    def next(self) -> int:
        self.number += 1
        return self.number

    def value(self) -> tuple:
        way = self.random.random()
        if way < 0.7:
            return "job", self.random.randint(1, 4)
        if way < 0.95:
            return "two", self.random.randint(-2, 2), self.random.choice(["a", 'b "c"\t']), self.random.random() < 0.5
        return self.large()

    def large(self) -> tuple:
        """A tuple up to the limits: a long text, many fields, or at times both, if there is room for it in the script."""
        count = self.random.choice([1, 1, 2, 17, MOST_FIELDS])
        size = self.random.choice([255, 256, MOST_TEXT - 1, MOST_TEXT] if count < 3 or self.random.random() < 0.1 else [0, 1, 8])
        if self.bytes + count * size > MOST_BYTES:
            return "job", 1
        self.bytes += count * size
        text = self.random.choice(["x", "é", '"'])
        return f"large{count}", *([text * (size // len(text.encode()))] * count)

    def template(self) -> tuple:
        tag, *fields = self.value()
        return tag, *(self.random.choice([Formal({int: "?i", str: "?s", bool: "?b"}[type(value)])] * 2 + [Formal("_"), value]) for value in fields)

    def base(self) -> tuple:
        kinds = [lambda: ("in", self.template())] * 5 + [lambda: ("rd", self.template())] * 2
        kinds += [lambda: ("alarm", self.time + self.random.randint(0, 40)), lambda: ("never",)]
        return self.random.choice(kinds + [lambda: ("always", self.random.choice([1, "x", True]))] * (self.random.random() < 0.2))()

    def event(self) -> tuple:
        """A choice of members, each with a label and perhaps a nack number of its own, or of such choices."""
        members = [self.member() for _ in range(self.random.randint(1, 4))]
        if self.random.random() < 0.3:
            members.append(("nack", self.next(), ("wrap", self.next(), ("choose", [self.member() for _ in range(self.random.randint(0, 3))]))))
        event = "choose", members
        bases, nacks = bases_and_nacks(event)
        for base in bases:
            self.members[base.labels[0]] = [number for place, number in enumerate(nacks) if place not in base.above]
        return event

    def member(self) -> tuple:
        labelled = "wrap", self.next(), self.base()
        return ("nack", self.next(), labelled) if self.random.random() < 0.5 else labelled

    def tick(self) -> tuple:
        self.time += self.random.randint(0, 20)
        return "tick", max(0, self.time - self.random.choice([0, 0, 0, 30]))

    def leave(self, client: int) -> tuple:
        """A client leaves, perhaps one that waits, and is mostly not named again: a new client comes in its place."""
        if self.random.random() < 0.8:
            self.last_client += 1
            self.clients[self.clients.index(client)] = self.last_client
        return "leave", client

    def command(self) -> tuple:
        client, server = self.random.choice(self.clients), self.random.randrange(self.servers)
        return self.random.choice(
            [lambda: ("out", client, self.value())] * 8 + [lambda: ("sync", client, self.event())] * 8
            + [lambda: ("abandon", client), lambda: self.leave(client), self.tick, self.tick, lambda: ("repeat",), lambda: ("snapshot", server),
               lambda: ("stop", server), lambda: ("stop", server, self.random.randint(0, 7), self.random.randint(0, 255))])()
