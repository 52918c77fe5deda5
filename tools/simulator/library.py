"""Clients by the Python library of clients/python: puts, takes, reads, choices, holds, waits without a time, second
lives, and leaving."""

from __future__ import annotations

import sys
import threading
import time
from typing import Callable

from served import TOP
from simulator.clients import JOB, PATIENCE, Around, Client, Over
from simulator.wire import Fault

sys.path.insert(0, str(TOP / "clients" / "python"))
import linda_space  # noqa: E402
from linda_space import INT, TEXT, In, Nack, Rd, Space, SpaceError, Wrap  # noqa: E402, F401

PAUSE = 0.02
FITS = JOB, INT, INT, TEXT
# A client that waits without a time has its tuple SOON seconds after it was put, at the latest. It is put BEFORE_A_PUT
# seconds after the wait began, and another one every BETWEEN_PUTS seconds after that, since others may take it.
SOON = 40.0
BEFORE_A_PUT, BETWEEN_PUTS = [0.0, 0.1, 0.5, 1.0], 0.2


class LibraryClient(Client):
    """One with a `Space` over all servers."""

    kind = "clients/python"

    def __init__(self, around: Around, seed: str, ports: list[int]) -> None:
        super().__init__(around, seed, ports)
        self.space: Space | None = None
        self.outs = 0
        self.is_new = True

    def step(self) -> None:
        what = self.dice.random()
        if what < 0.02:
            self.end()
        elif what < 0.10:
            self.read()
        elif what < 0.18:
            self.hold()
        elif what < 0.20:
            self.ask_kept()
        elif what < 0.205:
            self.leave()
        elif what < 0.235:
            self.wait()
        elif self.puts_next():
            self.put()
        else:
            self.take()

    def settle(self) -> None:
        """A look asks each server something, so that all are connected and nothing is left over."""
        self.finish(lambda: self.alive().look(*FITS))

    def end(self) -> None:
        if self.space:
            self.space.close()
        self.space = None

    def alive(self) -> Space:
        """The space; in a new life, one that asked first what is kept."""
        began = time.monotonic()
        while self.space is None:
            self.check_time(began, "greeting all servers")
            try:
                self.space = Space(self.ports, self.number, fresh=self.is_new, patience=10.0)
                self.outs = 0
                self.lives += 1
            except (linda_space.NoConnection, linda_space.Refused) as fault:
                self.check_refusal(fault)
                time.sleep(PAUSE)
                continue
            if not self.is_new:
                self.ask_kept()
            self.is_new = False
        return self.space

    def check_refusal(self, fault: Exception) -> None:
        """A server that is down refuses all; a number may be in use for a while after its connection ended; a bank of
        the first form has no room for some. The model has seen whether it may."""
        if isinstance(fault, linda_space.Refused) and fault.name not in ("Down", "Busy", "Full"):
            raise Fault(str(fault))

    def finish(self, call: Callable) -> object:
        """Makes a call, and goes on with it after each error until it has ended."""
        began, is_pending = time.monotonic(), False
        while True:
            self.check_time(began, "a call")
            try:
                return self.alive().again() if is_pending else call()
            except (linda_space.NoConnection, linda_space.TimedOut, linda_space.Refused) as fault:
                self.check_refusal(fault)
                is_pending = self.space is not None and self.space.pending is not None
                time.sleep(PAUSE)

    def ask_kept(self) -> None:
        for server in range(len(self.ports)):
            kept = self.finish(lambda: self.alive().last_reply(server))
            if kept is None:
                self.was_kept(server, 0, ())
            else:
                words = (kept.kind.capitalize(), *(it for it in (kept.id, kept.tuple) if it is not None))
                self.was_kept(server, kept.number, words)

    def put(self) -> None:
        space, what = self.alive(), self.new_job()

        def out() -> tuple[int, int]:
            self.outs += 1
            return space.out(*what)

        done = self.finish(out)
        server, number = (done.server, done.id) if isinstance(done, linda_space.Stored) else done
        server, number = self.around.plant.of_place((server, number))
        if server != (self.number + self.outs - 1) % len(self.ports):
            raise Fault(f"put {what[:3]}, the put number {self.outs} of this life, at server {server}")
        self.was_put(server, number, what)

    def take(self) -> None:
        """By one of several events; those that are not chosen are raised."""
        event = Wrap(5, Nack(7, In(*FITS)))
        other = Nack(8, In("none", self.number))
        found = self.finish(lambda: self.alive().choose(event, other, timeout=self.dice.choice([0, 0.02, 0.1, 0.3])))
        if found is None:
            return
        assert isinstance(found, linda_space.Outcome)
        wanted = (0, (5,), (8,)) if found.kind == "took" else (2, (), (7, 8))
        if (found.base, found.labels, found.raised) != wanted:
            raise Fault(f"chose {found}")
        if found.kind == "took":
            assert found.server is not None and found.id is not None and found.tuple is not None
            if found.binds != found.tuple[1:]:
                raise Fault(f"took {found}")
            self.was_taken(found.server, found.id, found.tuple)

    def read(self) -> None:
        found = self.finish(lambda: self.alive().choose(Rd(*FITS), timeout=0.05))
        if isinstance(found, linda_space.Outcome) and found.kind == "read":
            assert found.server is not None and found.id is not None and found.tuple is not None
            self.was_read(found.server, found.id, found.tuple)
        elif isinstance(found, linda_space.Outcome) and found.kind == "took":
            # (one that an earlier call had in hand)
            self.was_taken(found.server, found.id, found.tuple)

    def hold(self) -> None:
        """Holds a tuple for a while, and takes it or gives it free."""
        self.hold_one(FITS, 0.1)

    def wait(self) -> None:
        """Waits for a tuple, for as long as it takes, that another client puts after a while, and holds it. Servers that
        stop meanwhile are asked again."""
        self.alive()
        putter, stops = Putter(self), self.around.counts["stops"]
        putter.start()
        try:
            self.hold_one((JOB, putter.number, INT, TEXT), None, putter.is_enough)
        finally:
            putter.is_enough.set()
            putter.join(PATIENCE)
            self.puts += putter.puts
        self.around.counts["holds without a time"] += 1
        self.around.counts["of these over a stop"] += self.around.counts["stops"] > stops

    def hold_one(self, template: tuple, timeout: float | None, is_there: threading.Event | None = None) -> None:
        try:
            with self.alive().hold(*template, timeout=timeout) as offer:
                if is_there:
                    is_there.set()
                if offer is None:
                    return
                self.was_read(offer.server, offer.id, offer.tuple)
                time.sleep(self.dice.random() * 0.03)
                if self.dice.random() < 0.6:
                    self.finish(offer.accept)
                    self.was_taken(offer.server, offer.id, offer.tuple)
        except linda_space.Gone:
            pass
        except (linda_space.NoConnection, linda_space.TimedOut, linda_space.Refused) as fault:
            self.check_refusal(fault)
            self.collect()

    def collect(self) -> None:
        """What an error left pending is brought to its end."""
        if self.space and self.space.pending:
            try:
                found = self.finish(self.space.again)
            except (linda_space.Gone, linda_space.Idle):
                return
            if isinstance(found, linda_space.Outcome) and found.kind == "took":
                self.was_taken(found.server, found.id, found.tuple)

    def leave(self) -> None:
        self.finish(lambda: self.alive().leave())
        with self.around.network.lock:
            for model in self.around.models:
                if not model.record(self.number).has_left:
                    raise Fault(f"left, and server {model.number} did not answer so")
        self.end()
        self.number, self.is_new = self.around.new_number(), True


class Putter(LibraryClient):
    """Puts jobs under a number of its own, after a while and then one after another, until one that waits has one. At
    the end of a round too: else that one would wait for ever."""

    kind = "one that puts"

    def __init__(self, waiting: LibraryClient) -> None:
        super().__init__(waiting.around, f"{waiting.dice.random()}", waiting.ports)
        self.waiting, self.is_enough = waiting.number, threading.Event()

    def run(self) -> None:
        try:
            self.is_enough.wait(self.dice.choice(BEFORE_A_PUT))
            first = time.monotonic()
            while not self.is_enough.is_set():
                self.put()
                self.is_enough.wait(BETWEEN_PUTS)
                if time.monotonic() - first > SOON:
                    raise Fault(f"client {self.waiting} waits for a job for {SOON:.0f} s, and {self.puts} were put")
        except Over:
            pass
        except Exception as fault:  # noqa: BLE001
            self.around.fail(f"{self.kind}, client {self.number}: {fault}")
        finally:
            self.end()

    def check_time(self, began: float, what: str) -> None:
        if self.around.network.is_over:
            raise Over
        if time.monotonic() - began > PATIENCE:
            raise Fault(f"no end of {what} after {PATIENCE:.0f} s")
