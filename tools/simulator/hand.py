"""Clients that speak frames by hand, over one server or all: with repeats, old and new numbers, second greetings, and
connections that end with something held."""

from __future__ import annotations

import select
import time

from served import Frame, Peer, frames
from simulator.clients import Around, Client, job_words
from simulator.model import BUSY, DOWN, FULL, KNOWN, REPLIES
from simulator.wire import Fault

SECONDS = 20.0
PAUSE = 0.01


class Lost(Exception):
    """A connection has ended, or its server is down."""

    def __init__(self, server: int) -> None:
        super().__init__(f"the connection to server {server}")
        self.server = server


def is_whole(data: bytearray) -> bool:
    """Whether a frame is there."""
    return len(data) >= 4 and len(data) >= 4 + int.from_bytes(data[:4], "big")


class HandClient(Client):
    """One that has a connection to each server, and one numbered message unanswered at most."""

    kind = "frames by hand"

    def __init__(self, around: Around, seed: str, ports: list[int]) -> None:
        super().__init__(around, seed, ports)
        self.begin()

    def begin(self) -> None:
        self.peers: list[Peer | None] = [None] * len(self.ports)
        self.last = [0] * len(self.ports)
        self.kept: list[bytes | None] = [None] * len(self.ports)
        self.pending: dict[int, bytes] = {}
        self.ticket = 0

    def step(self) -> None:
        what = self.dice.random()
        if what < 0.08:
            self.probe(self.dice.randrange(len(self.ports)))
        elif what < 0.11:
            self.hang_up(self.dice.randrange(len(self.ports)))
        elif what < 0.16:
            self.read()
        elif what < 0.20:
            self.hold()
        elif what < 0.205:
            self.leave()
        elif what < 0.212:
            self.hang()
        elif self.puts_next():
            self.put()
        else:
            self.take()

    def settle(self) -> None:
        for server in range(len(self.ports)):
            self.connected(server)

    def end(self) -> None:
        for server in range(len(self.ports)):
            self.hang_up(server)

    # ---- connections

    def hang_up(self, server: int) -> None:
        peer, self.peers[server] = self.peers[server], None
        if peer:
            peer.close()

    def connected(self, server: int) -> Peer:
        """The connection to a server, which is greeted if there is none, until it is welcome."""
        began = time.monotonic()
        while True:
            peer = self.peers[server]
            if peer:
                return peer
            self.check_time(began, f"greeting server {server}")
            try:
                self.greet(server)
            except OSError:
                self.hang_up(server)
                time.sleep(PAUSE)

    def greet(self, server: int) -> None:
        peer = Peer(self.ports[server], SECONDS)
        self.peers[server] = peer
        is_fresh = self.dice.random() < 0.2
        name, parts = peer.ask(frames.hello(self.number, is_fresh))
        if name == "Refused" and parts["code"] == KNOWN and is_fresh:
            name, parts = peer.ask(frames.hello(self.number, False))
        if name != "Welcome":
            self.hang_up(server)
            if parts["code"] not in (BUSY, DOWN):
                raise Fault(f"greeted server {server}, and got {frames.words_of(name, parts)}")
            time.sleep(PAUSE)
        elif not 0 <= parts["last"] - self.last[server] <= (server in self.pending):
            raise Fault(f"server {server} welcomes with number {parts['last']}, but {self.last[server]} was answered")

    def send(self, server: int, data: bytes) -> None:
        try:
            self.connected(server).send(data)
        except OSError:
            self.hang_up(server)
            raise Lost(server) from None

    def hear(self, server: int) -> Frame:
        """The next reply."""
        peer = self.peers[server]
        try:
            if not peer:
                raise ConnectionError
            reply = peer.receive()
        except TimeoutError:
            raise Fault(f"server {server} says nothing for {SECONDS:.0f} s") from None
        except OSError:
            self.hang_up(server)
            raise Lost(server) from None
        if reply[0] == "Refused" and reply[1]["code"] == DOWN:
            self.hang_up(server)
            raise Lost(server)
        return reply

    def answer(self, server: int) -> Frame:
        """The next reply that is no Offer and no Read: those are of tickets that it has no use for, and their Cancels
        are on the way."""
        while True:
            reply = self.hear(server)
            if reply[0] not in ("Offer", "Read"):
                return reply

    def number_one(self, server: int, message: bytes) -> Frame:
        """Sends a numbered message until it is answered, over as many connections as that takes."""
        self.pending[server] = message
        began = time.monotonic()
        while True:
            self.check_time(began, f"sending to server {server}")
            try:
                self.send(server, message)
                reply = self.answer(server)
                if reply[0] != "Refused" or reply[1]["code"] != FULL:
                    break
            except Lost:
                pass
            time.sleep(PAUSE)
        self.last[server] += 1
        if reply[0] not in REPLIES or reply[1]["number"] != self.last[server]:
            sent = frames.words_of(*frames.read_frame(message))
            raise Fault(f"sent {sent[:80]} and got {frames.words_of(*reply)[:80]}")
        self.kept[server] = message
        del self.pending[server]
        return reply

    # ---- requests

    def put(self) -> None:
        server, what = self.dice.randrange(len(self.ports)), self.new_job()
        name, parts = self.number_one(server, frames.out(self.last[server] + 1, *what))
        if name != "Stored":
            raise Fault(f"put {what[:3]} and got {frames.words_of(name, parts)}")
        self.was_put(server, parts["id"], what)

    def asked(self) -> list[int]:
        """The servers that are asked: all, or one."""
        return list(range(len(self.ports))) if self.dice.random() < 0.6 else [self.dice.randrange(len(self.ports))]

    def first_offer(self, remove: bool, servers: list[int], seconds: float) -> tuple[int, dict] | None:
        """What comes first for a new ticket, and the server it is from; None if nothing came in that time, or a connection
        was lost."""
        self.ticket += 1
        until = time.monotonic() + seconds
        try:
            for server in servers:
                self.send(server, frames.ask(self.ticket, remove, *job_words()))
            while (left := until - time.monotonic()) > 0:
                for server in self.readable(servers, left):
                    name, parts = self.hear(server)
                    if name in ("Offer", "Read") and parts["ticket"] == self.ticket:
                        return server, parts
                    if name == "Refused":
                        raise Fault(f"asked and got {frames.words_of(name, parts)}")
        except Lost:
            pass
        return None

    def readable(self, servers: list[int], seconds: float) -> list[int]:
        """The servers of which a whole reply may have come."""
        peers = {server: peer for server in servers if (peer := self.peers[server])}
        if len(peers) < len(servers):
            raise Lost(servers[0])
        ready = [server for server, peer in peers.items() if is_whole(peer.came)]
        if ready:
            return ready
        found, _, _ = select.select([peer.stream for peer in peers.values()], [], [], seconds)
        return [server for server, peer in peers.items() if peer.stream in found]

    def cancel(self, servers: list[int]) -> None:
        for server in servers:
            peer = self.peers[server]
            try:
                if peer:
                    peer.send(frames.cancel(self.ticket))
            except OSError:
                self.hang_up(server)

    def take(self) -> None:
        servers = self.asked()
        found = self.first_offer(True, servers, self.dice.choice([0.02, 0.1, 0.3]))
        if found is not None:
            server, offer = found
            others = [it for it in servers if it != server]
            if self.dice.random() < 0.5:
                self.cancel(others)
                others = []
            name, parts = self.number_one(server, frames.accept(self.last[server] + 1, self.ticket, offer["id"]))
            if name == "Taken":
                self.was_taken(server, parts["id"], parts["tuple"])
            elif name != "Gone":
                raise Fault(f"accepted and got {frames.words_of(name, parts)}")
            self.cancel([*others, server])
            return
        self.cancel(servers)

    def read(self) -> None:
        servers = self.asked()
        found = self.first_offer(False, servers, 0.05)
        if found is not None:
            self.was_read(found[0], found[1]["id"], found[1]["tuple"])
        self.cancel(servers)

    def hold(self) -> None:
        """Has a tuple held for a while, and gives it free, by a Cancel or with the connection."""
        servers = self.asked()
        self.first_offer(True, servers, 0.1)
        time.sleep(self.dice.random() * 0.05)
        if self.dice.random() < 0.5:
            self.cancel(servers)
        else:
            for server in servers:
                self.hang_up(server)

    def hang(self) -> None:
        """Has a tuple held, and says nothing, like a process that was stopped: until its connection ends if the server has
        a lease, else for a moment."""
        found = self.first_offer(True, self.asked(), 0.1)
        has_lease = found is not None and self.around.models[found[0]].lease is not None
        until = time.monotonic() + (SECONDS if has_lease else 0.5)
        try:
            while found is not None and time.monotonic() < until:
                if self.readable([found[0]], 0.1):
                    self.hear(found[0])
        except Lost:
            self.around.counts["hung clients that were ended"] += has_lease
        for server in range(len(self.ports)):
            self.hang_up(server)

    def probe(self, server: int) -> None:
        """Asks for the kept reply, and for what is refused: an old number, one too high, a second greeting."""
        last, kept = self.last[server], self.kept[server]
        messages = [frames.out(0, "never"), frames.out(last + 2, "never"), frames.accept(last + 7, 1, 1)]
        messages.append(frames.hello(self.number, False))
        if last > 1:
            messages.append(frames.out(last - 1, "never"))
        if kept:
            messages += [kept, frames.accept(last, 0, 0)]
        some = self.dice.sample(messages, self.dice.randint(1, len(messages)))
        try:
            self.send(server, b"".join(some))
            for _ in some:
                self.answer(server)
        except Lost:
            pass

    def leave(self) -> None:
        """Gives its number up, mostly with something held, and goes on under another one."""
        self.first_offer(True, list(range(len(self.ports))), 0.05)
        for server in range(len(self.ports)):
            reply = self.number_one(server, frames.leave(self.last[server] + 1))
            if reply[0] != "Left":
                raise Fault(f"left and got {frames.words_of(*reply)}")
        for server in range(len(self.ports)):
            self.ask_after_left(server)
            self.hang_up(server)
        self.number = self.around.new_number()
        self.begin()

    def ask_after_left(self, server: int) -> None:
        try:
            asked = frames.ask(self.ticket + 1, True, *job_words())
            self.send(server, asked + frames.out(self.last[server] + 1, "never") + frames.leave(self.last[server]))
            for _ in range(3):
                self.answer(server)
        except Lost:
            pass
