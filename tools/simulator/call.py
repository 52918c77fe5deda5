"""Clients by `linda call`: a process that reads lines, is killed at times in the middle of what it does, and goes on in
a second life with --again."""

from __future__ import annotations

import os
import re
import select
import signal
import subprocess
import time

from served import TOP, frames
from simulator.clients import Around, Client
from simulator.wire import Fault, reply_words

PROGRAM = TOP / "crates" / "linda" / "out" / "linda"
PAUSE = 0.02
PIECE = 65_536
# What a call may end with: a server that was away for too long, or down, or has no room while its bank is of the first
# form.
ENDS = re.compile(r"(server \d+: (no connection|refused 8 0|refused 6 0))?\n?")
TOOK = re.compile(r"(\d+) (took|read) (\d+) (\d+) (\(.*\)) binds \[(.*)\] labels \[(.*)\] raised \[(.*)\]")
KEPT = re.compile(r"server (\d+) client (\d+) (?:none|(\d+) (?:stored|taken|gone|left).*)")


class Ended(Exception):
    """The process has ended."""


class CallClient(Client):
    """One with a process of `linda call` at a time."""

    kind = "linda call"

    def __init__(self, around: Around, seed: str, ports: list[int]) -> None:
        super().__init__(around, seed, ports)
        self.process: subprocess.Popen[bytes] | None = None
        self.came = b""
        self.outs = 0
        self.is_new = True
        self.began = 0.0

    def step(self) -> None:
        what = self.dice.random()
        try:
            if what < 0.03:
                self.kill_it()
            elif what < 0.05:
                self.ask_kept()
            elif what < 0.055:
                self.leave()
            elif what < 0.12:
                self.sync("rd", self.dice.choice([20, 100]))
            elif self.puts_next():
                self.put()
            else:
                self.sync("in", self.dice.choice([20, 100, 300]))
        except Ended:
            pass

    def settle(self) -> None:
        """A sync asks each server something, so that all are connected and nothing is left over."""
        began = time.monotonic()
        while True:
            self.check_time(began, "a sync")
            try:
                self.sync("rd", 50)
                return
            except Ended:
                pass

    def end(self) -> None:
        """Kills the process."""
        process, self.process = self.process, None
        if process:
            process.kill()
            process.communicate()

    def interrupt(self) -> None:
        process = self.process
        if process:
            process.kill()

    def is_broken(self) -> bool:
        return self.process is None

    # ---- the process

    def alive(self) -> subprocess.Popen[bytes]:
        if self.process is None:
            words = ["--again"] if not self.is_new else []
            self.began = time.monotonic()
            words = [str(PROGRAM), "call", "--client", str(self.number), *words, *map(str, self.ports)]
            self.process = subprocess.Popen(words, stdin=subprocess.PIPE, stdout=subprocess.PIPE,
                                            stderr=subprocess.PIPE, bufsize=0)
            self.came, self.outs = b"", 0
            self.lives += 1
            if not self.is_new:
                self.ask_kept()
            else:
                # (once it has answered, its number is used)
                self.ask("sync always 1")
                self.is_new = False
        return self.process

    def write(self, line: str) -> None:
        process = self.alive()
        assert process.stdin
        try:
            process.stdin.write(f"{line}\n".encode())
        except OSError:
            self.has_ended()

    def line(self) -> str:
        """The next line that it prints."""
        began = time.monotonic()
        assert self.process and self.process.stdout
        while b"\n" not in self.came:
            self.check_time(began, "a line")
            ready, _, _ = select.select([self.process.stdout], [], [], 0.1)
            if ready:
                piece = os.read(self.process.stdout.fileno(), PIECE)
                if not piece:
                    self.has_ended()
                self.came += piece
        line, _, self.came = self.came.partition(b"\n")
        return self.around.plant.of_line(line.decode())

    def ask(self, line: str) -> str:
        self.write(line)
        return self.line()

    def has_ended(self) -> None:
        """Checks that it ended by itself, as it may if a server was away."""
        assert self.process
        process, self.process = self.process, None
        _, said = process.communicate()
        if self.around.is_over.is_set():
            raise Ended
        if process.returncode not in (3, -signal.SIGKILL) or not ENDS.fullmatch(said.decode()):
            raise Fault(f"ended with status {process.returncode} and {said.decode()!r}")
        time.sleep(PAUSE)
        raise Ended

    def kill_it(self) -> None:
        """In the middle of a request, mostly."""
        if self.dice.random() < 0.7:
            self.write(self.put_line(self.new_job()) if self.dice.random() < 0.5 else 'sync in ("job", ?i, ?i, ?s)')
            time.sleep(self.dice.random() * 0.03)
        self.end()

    # ---- requests

    @staticmethod
    def put_line(what: tuple) -> str:
        return f"out {frames.text_of(what)}"

    def put(self) -> None:
        self.alive()
        what, place = self.new_job(), (self.number + self.outs) % len(self.ports)
        self.outs += 1
        line = self.ask(self.put_line(what))
        found = re.fullmatch(rf"{self.number} stored (\d+) (\d+)", line)
        if not found or int(found[1]) != place:
            raise Fault(f"put {what[:3]} at server {place}, and it printed {line[:200]!r}")
        self.was_put(place, int(found[2]), what)

    def sync(self, word: str, milliseconds: int) -> None:
        self.alive()
        alarm = int((time.monotonic() - self.began) * 1000) + milliseconds
        bases = f'wrap 5 nack 7 {word} ("job", ?i, ?i, ?s), nack 8 {word} ("none", {self.number})'
        line = self.ask(f"sync choose [{bases}, alarm {alarm}]")
        found = TOOK.fullmatch(line)
        if not found:
            if line != f"{self.number} alarm labels [] raised [7, 8]":
                raise Fault(f"it printed {line[:200]!r}")
            return
        server, place, text = int(found[3]), int(found[4]), found[5]
        if (found[1], found[2], found[7], found[8]) != (str(self.number), {"in": "took", "rd": "read"}[word], "5", "8"):
            raise Fault(f"it printed {line[:200]!r}")
        with self.around.network.lock:
            what = self.around.models[server].ids.get(place, ())
        if not what or text != frames.text_of(what) or f"[{found[6]}]" != f"[{frames.text_of(what[1:])[1:-1]}]":
            raise Fault(f"it printed {line[:200]!r}, and tuple {place} of server {server} is {what[:3]}")
        (self.was_taken if word == "in" else self.was_read)(server, place, what)

    def ask_kept(self) -> None:
        self.write("last")
        for server in range(len(self.ports)):
            line = self.line()
            found = KEPT.fullmatch(line)
            if not found or (int(found[1]), int(found[2])) != (server, self.number):
                raise Fault(f"it printed {line[:200]!r}")
            if found[3] is None:
                self.was_kept(server, 0, ())
                continue
            with self.around.network.lock:
                reply = self.around.models[server].record(self.number).reply
            if not reply or " ".join(reply_words(reply)) != line.split(" ", 5)[5]:
                raise Fault(f"it printed {line[:200]!r}, and server {server} answered {reply[:2]}")
            self.was_kept(server, int(found[3]), reply)

    def leave(self) -> None:
        self.alive()
        try:
            line = self.ask("leave")
        except Ended:
            # (it may have left some servers, and a second life goes on at none of these)
            self.number, self.is_new = self.around.new_number(), True
            return
        if line != f"{self.number} left":
            raise Fault(f"it printed {line[:200]!r}")
        with self.around.network.lock:
            for model in self.around.models:
                if not model.record(self.number).has_left:
                    raise Fault(f"left, and server {model.number} did not answer so")
        self.end()
        self.number, self.is_new = self.around.new_number(), True
