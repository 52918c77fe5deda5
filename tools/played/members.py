"""A crowd: many clients that put and take at once, each with what it has still to hear."""

import selectors
import time

import client as frames
from played.peers import Peer
from played.program import PATIENCE, SOON, equal
from served import listing


class Member(Peer):
    """A peer of a crowd: whole frames are taken out of what came, and none is waited for."""

    def __init__(self, port, client):
        super().__init__(port, client)
        self.client, self.came = client, bytearray()
        self.number, self.ticket, self.offered, self.since = 0, 0, None, 0.0

    def heard(self):
        """The frames that have come by now; some bytes must be there."""
        piece = self.stream.recv(65_536)
        if not piece:
            raise AssertionError(f"the connection of client {self.client} ended")
        self.came += piece
        at = 0
        while len(self.came) - at >= 4 and len(self.came) - at - 4 >= (size := int.from_bytes(self.came[at:at + 4], "big")):
            yield frames.read_frame(bytes(self.came[at:at + 4 + size]))
            at += 4 + size
        del self.came[:at]


class Crowd:
    """Clients that put a tuple and take one, again and again: what a client has to say goes out in one piece, an Accept, an Out and an Ask.

    There are always as many tuples as there are clients that have put one more than they took, so each Ask has an Offer soon."""

    def __init__(self, port, clients, tag="work"):
        self.tag, self.stored, self.taken, self.longest = tag, set(), set(), 0.0
        self.eyes = selectors.DefaultSelector()
        self.members = [Member(port, client) for client in clients]
        for member in self.members:
            self.eyes.register(member.stream, selectors.EVENT_READ, member)

    def speak(self, member):
        said = []
        if member.offered is not None:
            member.number += 1
            said += [frames.accept(member.number, member.ticket, member.offered)]
        member.number, member.ticket, member.since = member.number + 1, member.ticket + 1, time.monotonic()
        member.wanted = ["Taken"] * len(said) + ["Stored", "Offer"]
        member.send(*said, frames.out(member.number, self.tag, member.client), frames.ask(member.ticket, True, self.tag, frames.ANY))

    def hear(self, member, name, parts):
        """Takes one reply, which must be the next that is due."""
        if not member.wanted or member.wanted.pop(0) != name:
            raise AssertionError(f"client {member.client} hears {frames.words_of(name, parts)}")
        if name == "Offer":
            equal(parts["ticket"], member.ticket)
            member.offered = parts["id"]
            return
        equal(parts["number"], member.number - (name == "Taken"))
        ids = self.stored if name == "Stored" else self.taken
        if parts["id"] in ids or (name == "Taken" and parts["id"] != member.offered):
            raise AssertionError(f"client {member.client}: {frames.words_of(name, parts)}")
        ids.add(parts["id"])

    def work(self, seconds, most):
        """Works for so long; each member has all that is due within some seconds more."""
        until = time.monotonic() + seconds
        for member in self.members:
            self.speak(member)
        busy = len(self.members)
        while busy:
            for key, _ in self.eyes.select(0.1):
                member = key.data
                for name, parts in member.heard():
                    self.hear(member, name, parts)
                    if member.wanted:
                        continue
                    self.longest = max(self.longest, time.monotonic() - member.since)
                    if time.monotonic() < until:
                        self.speak(member)
                    else:
                        busy -= 1
            now = time.monotonic()
            if now > until + most or any(member.wanted and now - member.since > most for member in self.members):
                raise AssertionError(f"{[(member.client, member.wanted) for member in self.members if member.wanted][:5]} came to nothing within {most} s")
        equal(self.longest < most, True)

    def close(self):
        self.eyes.close()
        for member in self.members:
            member.close()


def are_free_soon(port, wanted):
    """Once the sessions before are over, these tuples of the tag "work" are there, held for nobody, and no others."""
    until = time.monotonic() + SOON
    while (free := set(listing(port, frames.spell_items("work", [frames.ANY]), 1_000_000, PATIENCE))) != wanted and time.monotonic() < until:
        time.sleep(0.1)
    equal((sorted(free - wanted)[:9], sorted(wanted - free)[:9]), ([], []))
