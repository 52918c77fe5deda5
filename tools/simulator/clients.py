"""What all clients of tools/simulate share: a client works, one request after another, on servers that stop and
connections that end, and compares what it gets with the model.

Each is a thread with dice of its own. When it must pause it brings what it has in hand to its end, stays
connected, and waits.
"""

from __future__ import annotations

import random
import threading
import time
import traceback
from collections import Counter
from typing import Protocol

from served import frames
from simulator.model import Model
from simulator.network import Network
from simulator.plants import Plant
from simulator.wire import Fault

JOB = "job"
FILLS = ["", "x", "é\"\\", "seven b", "y" * 60] * 4 + ["z" * 250, "w" * 900, "v" * 4_095]
# Seconds for which a request may take, stops and all.
PATIENCE = 60.0


class Around(Protocol):
    """What a client has around it."""

    network: Network
    models: list[Model]
    plant: Plant
    is_over: threading.Event
    is_pausing: threading.Event
    pauses: list[float]
    plenty: tuple[int, float]
    counts: Counter[str]

    def new_number(self) -> int: ...
    def fail(self, words: str) -> None: ...


class Over(Exception):
    """The round has ended."""


class Client(threading.Thread):
    """A client with its number. Numbers that left are not used again."""

    kind = "client"

    def __init__(self, around: Around, seed: str, ports: list[int]) -> None:
        super().__init__(daemon=True)
        self.around, self.dice, self.ports = around, random.Random(seed), ports
        self.number = around.new_number()
        self.serial = self.puts = self.takes = self.lives = 0
        self.is_idle = threading.Event()

    def run(self) -> None:
        try:
            while not self.around.is_over.is_set():
                if self.around.is_pausing.is_set():
                    self.rest()
                else:
                    self.step()
                    time.sleep(self.dice.choice(self.around.pauses))
        except Over:
            pass
        except Exception as fault:  # noqa: BLE001
            if not self.around.is_over.is_set():
                words = str(fault) if isinstance(fault, Fault) else traceback.format_exc()
                self.around.fail(f"{self.kind}, client {self.number}: {words}")
        finally:
            self.end()

    def rest(self) -> None:
        """Called with no request in hand: nothing is held for it then, whether it has just been connected anew or not."""
        if self.is_broken() or self.dice.random() < 0.5:
            self.settle()
        self.is_idle.set()
        while self.around.is_pausing.is_set() and not self.around.is_over.is_set():
            time.sleep(0.005)
        self.is_idle.clear()

    def interrupt(self) -> None:
        """Another thread ends what it is waiting for."""

    def is_broken(self) -> bool:
        """Whether it was ended in the middle of a request, and must begin a new life to know what became of it."""
        return False

    def check_time(self, began: float, what: str) -> None:
        """Ends a request that takes too long, or is made after the end of the round."""
        if self.around.is_over.is_set():
            raise Over
        if time.monotonic() - began > PATIENCE:
            raise Fault(f"no end of {what} after {PATIENCE:.0f} s")

    def new_job(self) -> tuple:
        self.serial += 1
        return JOB, self.number, self.serial, self.dice.choice(FILLS)

    def puts_next(self) -> bool:
        there = sum(len(model.ids) - len(model.taken) for model in self.around.models)
        most, often = self.around.plenty
        return there < most and self.dice.random() < often

    # ---- what a client got, against what went over the connections

    def was_put(self, server: int, place: int, what: tuple) -> None:
        with self.around.network.lock:
            model = self.around.models[server]
            known = model.told.get(place), model.ids.get(place, ())
            if known != (self.number, what):
                raise Fault(f"put {what[:3]}, tuple {place} of server {server}: {known[1][:3]} by client {known[0]}")
            model.note(f"client {self.number} was told that it put tuple {place}")
        self.puts += 1

    def was_taken(self, server: int, place: int, what: tuple) -> None:
        with self.around.network.lock:
            model = self.around.models[server]
            known = model.taken.get(place, (None,))[0], model.ids.get(place, ())
            if known != (self.number, what):
                raise Fault(f"took {what[:3]}, tuple {place} of server {server}: {known[1][:3]}, by client {known[0]}")
            model.note(f"client {self.number} was told that it took tuple {place}")
        self.takes += 1

    def was_read(self, server: int, place: int, what: tuple) -> None:
        with self.around.network.lock:
            known = self.around.models[server].ids.get(place, ())
            if known != what:
                raise Fault(f"read {what[:3]}, tuple {place} of server {server}, which is {known[:3]}")

    def was_kept(self, server: int, number: int, reply: tuple) -> None:
        """What a server said that it keeps for this client: nothing if the number is 0."""
        with self.around.network.lock:
            it = self.around.models[server].record(self.number)
            if (it.last, it.reply) != (number, reply):
                raise Fault(f"server {server} keeps {number}, {reply[:2]}, but answered {it.last}, {it.reply[:2]}")

    # ---- what each kind does

    def step(self) -> None:
        raise NotImplementedError

    def settle(self) -> None:
        """Connects to all servers."""
        raise NotImplementedError

    def end(self) -> None:
        raise NotImplementedError


def job_words() -> tuple:
    """A template that each job fits."""
    return JOB, frames.INT, frames.INT, frames.TEXT
