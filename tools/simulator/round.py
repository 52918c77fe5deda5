"""A round of tools/simulate: servers and clients from one seed, for some seconds, with stops, copies and pauses at
moments of the seed's choice."""

from __future__ import annotations

import random
import threading
import time
import traceback
from collections import Counter
from pathlib import Path

from simulator.call import CallClient
from simulator.clients import Client
from simulator.disk import Disk
from simulator.hand import HandClient
from simulator.library import FITS, LibraryClient, Space, SpaceError
from simulator.network import Network
from simulator.plants import Plant
from simulator.server import SECONDS_FREE, Simulated
from simulator.wire import Fault

PATIENCE = 60.0
TICK = 0.01
KINDS: list[type[Client]] = [HandClient, LibraryClient, CallClient]
FIRST_NUMBER = 10
# One of this many rounds has a server with a large store.
LARGE_ONCE = 4
# How often a round is crowded, and by how many more clients.
CROWDED, CROWD = 0.15, 10
# For how long clients rest between two requests.
PAUSES, CROWDED_PAUSES = [0.0, 0.0, 0.002, 0.01, 0.03], [0.0]
# How many tuples there are at most when one is put, and how often a client puts then: in some rounds few, so that
# takers wait.
PLENTY = [(120, 0.6), (120, 0.5), (3, 0.4)]
LOOKER = 1_999_999


class Round:
    """What clients have around them; it also stops the servers."""

    def __init__(self, top: Path, library: Path, seed: int, plant: str) -> None:
        self.top, self.seed = top, seed
        self.dice = random.Random(f"{seed} round")
        self.plant = Plant(plant, str(seed))
        self.counts: Counter[str] = Counter()
        self.is_over, self.is_pausing = threading.Event(), threading.Event()
        self.faults: list[str] = []
        self.numbers = iter(range(FIRST_NUMBER, 1_000_000))
        self.numbering = threading.Lock()
        self.network = Network(f"{seed} network", self.plant, self.fail)
        self.servers = [self.server(library, at) for at in range(self.dice.choice([1, 2, 3]))]
        self.models = [server.model for server in self.servers]
        for model in self.models:
            model.others = [other for other in self.models if other is not model]
        self.is_crowded = self.dice.random() < CROWDED
        self.pauses = CROWDED_PAUSES if self.is_crowded else PAUSES
        self.plenty = self.dice.choice(PLENTY)
        self.clients: list[Client] = []

    def server(self, library: Path, at: int) -> Simulated:
        disk = Disk(self.top, f"server{at}", library, random.Random(f"{self.seed} disk {at}"))
        is_large = at == 0 and self.seed % LARGE_ONCE == 0
        return Simulated(at, disk, self.network, random.Random(f"{self.seed} server {at}"), self.counts, is_large)

    def new_number(self) -> int:
        with self.numbering:
            return next(self.numbers)

    def fail(self, words: str) -> None:
        self.faults.append(words)
        self.is_over.set()

    # ---- the course of a round

    def play(self, seconds: float) -> None:
        """Raises Fault at the first difference."""
        try:
            self.network.start()
            for server in self.servers:
                server.start()
            self.begin_clients()
            until = time.monotonic() + seconds
            while time.monotonic() < until:
                self.wait(self.dice.random() * self.dice.choice([0.1, 0.5, 1.0]))
                self.happen()
            self.pause()
            self.finish()
        except Exception as fault:  # noqa: BLE001
            self.faults.append(str(fault) if isinstance(fault, Fault) else traceback.format_exc())
            for server in self.servers:
                server.note_threads()
        finally:
            self.end()
        if self.faults:
            raise Fault(self.faults[0])

    def begin_clients(self) -> None:
        ports = [server.gate.port for server in self.servers]
        kinds = KINDS + [self.dice.choice(KINDS) for _ in range(self.dice.randint(1, 4))]
        kinds += [HandClient] * (CROWD if self.is_crowded else 0)
        self.counts["crowded rounds"] += self.is_crowded
        self.clients = [kind(self, f"{self.seed} client {at}", ports) for at, kind in enumerate(kinds)]
        for client in self.clients:
            client.start()

    def wait(self, seconds: float) -> None:
        """Lets clients work; a server that has ended by its disk is started again."""
        until = time.monotonic() + seconds
        while not self.is_over.is_set() and time.monotonic() < until:
            time.sleep(TICK)
            for server in self.servers:
                if server.is_over():
                    server.stop()
                    server.start()
        if self.is_over.is_set():
            raise Fault(self.faults[0])

    def happen(self) -> None:
        what, server = self.dice.random(), self.dice.choice(self.servers)
        working = next((it for it in self.servers if it.is_working()), None)
        if working and self.dice.random() < 0.7:
            working.copy(self.top)
        elif what < 0.60:
            some = self.servers if self.dice.random() < 0.2 else [server]
            for it in some:
                it.stop()
            for it in some:
                it.start()
        elif what < 0.85:
            server.copy(self.top)
        else:
            self.pause()

    def finish(self) -> None:
        """The clients end, and then the servers, once more with a look at what they left."""
        self.is_over.set()
        for client in self.clients:
            client.join(PATIENCE)
        for server in self.servers:
            server.stop()

    def end(self) -> None:
        self.is_over.set()
        self.network.end()
        for client in self.clients:
            client.interrupt()
        for server in self.servers:
            if server.lives():
                assert server.process
                server.process.kill()
                server.process.communicate()
        for client in self.clients:
            client.join(SECONDS_FREE)
        self.count()

    def count(self) -> None:
        self.counts["connections"] = self.network.connections
        self.counts["of these cut"] = self.network.cuts
        self.counts["puts"] = sum(client.puts for client in self.clients)
        self.counts["takes"] = sum(client.takes for client in self.clients)
        self.counts["calls lost by the disk"] = sum(server.disk.lost for server in self.servers)
        self.counts["replies"] = sum(sum(model.counts.values()) for model in self.models)
        self.counts["left"] = sum(model.counts["Left"] for model in self.models)

    def story(self) -> str:
        """What was found, and what went over the connections last, each with its time."""
        events = [f"server {model.number}: {event}" for model in self.models for event in model.events]
        return "\n".join([*self.faults, *events, ""])

    # ---- at rest

    def pause(self) -> None:
        """All clients end what they have in hand, and stay connected: nothing is held for them then, nothing asked."""
        self.counts["pauses"] += 1
        self.network.calm(True)
        self.is_pausing.set()
        until = time.monotonic() + PATIENCE
        while not all(client.is_idle.is_set() for client in self.clients):
            self.wait(TICK)
            if time.monotonic() > until:
                busy = [f"{client.kind} {client.number}" for client in self.clients if not client.is_idle.is_set()]
                raise Fault(f"clients have not come to rest in {PATIENCE:.0f} s: {busy}")
        for server in self.servers:
            server.rest()
        self.look_at_rest()
        self.is_pausing.clear()
        while any(client.is_idle.is_set() for client in self.clients) and not self.is_over.is_set():
            time.sleep(TICK)
        self.network.calm(False)

    def are_alive(self) -> bool:
        return all(server.lives() for server in self.servers)

    def look_at_rest(self) -> None:
        """Nothing is unanswered, nothing is asked, each tuple is free, and a client that asks all servers gets one. A server
        that ends meanwhile, as planned, is looked at when it is started again."""
        until = time.monotonic() + SECONDS_FREE
        while open_now := self.open_now():
            if not self.are_alive():
                return
            if time.monotonic() > until:
                raise Fault(f"all clients are at rest for {SECONDS_FREE:.0f} s, and {open_now[:5]}")
            time.sleep(TICK)
        for server in self.servers:
            if server.lives():
                server.check_free(server.gate.behind or 0, SECONDS_FREE)
        if self.are_alive():
            self.look_at_all()

    def open_now(self) -> list[str]:
        """What is open at the servers, and clients that asked one of them for something else than another."""
        found = []
        with self.network.lock:
            working = {client.number for client in self.clients}
            for model in self.models:
                found += [f"ticket {ticket} of client {wire.client} is open at server {model.number}"
                          for wire in model.wires for ticket, ask in wire.asks.items() if ask.is_open]
                found += [f"number {it.pending.number} of client {client} is unanswered at server {model.number}"
                          for client, it in model.records.items() if it.pending and client in working]
            for client in self.clients:
                tickets = self.last_tickets(client)
                if not isinstance(client, HandClient) and len(set(tickets)) > 1:
                    found.append(f"client {client.number} has asked under the tickets {tickets} last, by server")
        return found

    def last_tickets(self, client: Client) -> list[int]:
        """The last ticket of a client at each server that it has asked for something over its present connection."""
        wires = [wire for model in self.models if (wire := model.greeted.get(client.number))]
        return [max(wire.asks) for wire in wires if wire.asks]

    def look_at_all(self) -> None:
        """A client that asks all servers sees a tuple, and is given one to hold, if any of them has one, and else not: at once,
        or when the servers have read the ends of those that held all tuples just before."""
        with self.network.lock:
            is_there = any(model.bag() for model in self.models)
        until = time.monotonic() + SECONDS_FREE
        while True:
            try:
                with Space([server.gate.port for server in self.servers], LOOKER) as space:
                    seen = space.look(*FITS) is not None
                    with space.hold(*FITS, timeout=0) as offer:
                        is_held = offer is not None
            except SpaceError:
                if self.are_alive() and not any(model.may_fail for model in self.models):
                    raise
                return
            if (seen, is_held) == (is_there, is_there):
                return
            if time.monotonic() > until:
                raise Fault(f"at rest a tuple is there: {is_there}; one who asks all sees one: {seen}, holds it: {is_held}")
            time.sleep(TICK)
