"""A server under tools/simulate: its lives, each on the disk that the last one left, and what is looked at between them."""

from __future__ import annotations

import random
import select
import signal
import socket
import subprocess
import threading
import time
import traceback
from collections import Counter
from pathlib import Path

import banks
from served import Peer, frames, listing
from simulator.call import PROGRAM
from simulator.clients import JOB, job_words
from simulator.disk import Disk
from simulator.folders import IN_STEPS, copied, inspected, make_earlier
from simulator.model import Model
from simulator.network import Gate, Network
from simulator.plants import Plant
from simulator.states import Kept, check_copy, mark, settle
from simulator.wire import Fault, Mark, Wire, differing, lines_of

PATIENCE = 60.0
LOOKERS = 2_000_000
SECONDS_FREE, SILENCE = 5.0, 20.0
# The records of a life after which a snapshot is taken, and the changes of the disk for each of them.
HARD, CHANGES_A_RECORD = 1_024, 4
HARD_LETTERS = 255
# Microseconds that a sync takes.
SLOW = [0, 0, 300, 2_000, 5_000, 20_000]
# How often the power is cut soon after a start, how often if the last life left something that is not synced, and the seconds
# after the start in which that comes.
SHORT, SHORT_UNSYNCED, SOON = 0.2, 0.6, 0.05
# The changes that the first start in a new folder makes.
FIRST_CHANGES = 9
# Seconds for which a client that holds a tuple may say nothing, if that is limited.
LEASE = 1
# How often a life has idle connections, so many that those of clients go to the second loop.
TWO_LOOPS, IDLE = 0.34, 33


def is_death(fired: list[str]) -> bool:
    """Whether the call that went wrong killed the process."""
    return any(" die " in it for it in fired)


class Simulated:
    """A server, with its gate, its disk and its model."""

    def __init__(self, number: int, disk: Disk, network: Network, dice: random.Random, counts: Counter[str], is_large: bool) -> None:
        self.number, self.disk, self.network, self.dice, self.counts = number, disk, network, dice, counts
        self.plant: Plant = network.plant
        # The client that puts and takes in this folder before clients come, and works hard at times.
        self.own = number + 1
        self.is_large = is_large or dice.random() < 0.1
        if self.is_large or dice.random() < 0.6:
            make_earlier(disk.folder, self.own, dice, self.is_large)
        found = disk.verdict()
        assert found.state
        self.was_ready = bool(found.side)
        self.generation = found.generation
        self.model = Model(number, found.state)
        self.model.is_old = found.form == 1
        self.kept = Kept(self.model)
        self.gate: Gate = network.add(self.model)
        self.process: subprocess.Popen[str] | None = None
        self.copies: list[tuple[str, list[str], Mark, Mark]] = []
        self.has_plan = self.works_hard = self.was_unsynced = False
        # Whether this life must be short, and when the power is cut then.
        self.is_short, self.cut_at = False, 0.0
        self.worker: threading.Thread | None = None
        self.idle: list[socket.socket] = []
        self.is_to_rest = threading.Event()

    def fail(self, *words: object) -> None:
        raise Fault(f"server {self.number}: {' '.join(map(str, words))}")

    def note(self, words: str) -> None:
        with self.network.lock:
            self.model.note(words)

    def note_threads(self) -> None:
        """What each thread of it does, for the story."""
        for task in Path(f"/proc/{self.process.pid}/task").glob("*") if self.process and self.lives() else []:
            try:
                waits, call = ((task / name).read_text().strip() for name in ("wchan", "syscall"))
                self.note(f"thread {task.name}: {waits}, {call}")
            except OSError:
                # (it has ended meanwhile)
                pass

    # ---- lives

    def start(self) -> None:
        """Starts it until it is ready; a life may end before that, as planned."""
        tries = 0
        while True:
            tries += 1
            self.was_unsynced = self.disk.has_unsynced()
            self.draw_plan(may_end=tries < 5)
            began = time.monotonic()
            words = [PROGRAM, "serve", "--port", "0", "--dir", str(self.disk.folder), *self.limits()]
            self.process = subprocess.Popen(words, env=self.disk.environment(), stdin=subprocess.DEVNULL,
                                            stdout=subprocess.PIPE, stderr=subprocess.PIPE, text=True)
            line = self.first_line()
            self.note("the server is ready" if line else "the server has ended before it was ready")
            if line.startswith("ready "):
                self.was_ready = True
                took = int((time.monotonic() - began) * 1000)
                self.counts["longest start, ms"] = max(self.counts["longest start, ms"], took)
                self.look(int(line.split()[1]))
                return
            self.counts["ends before ready"] += 1
            self.has_ended("store: disk", "store: down")
            with self.network.lock:
                self.kept.go_back(self.model)
            self.leave_disk()

    def limits(self) -> list[str]:
        """For how long clients may hold a tuple and say nothing, in this life."""
        with self.network.lock:
            self.model.lease = LEASE if self.dice.random() < 0.5 else None
        if self.model.lease is None or self.plant.is_due("lease", 1.0):
            return []
        return ["--lease", str(LEASE)]

    def first_line(self) -> str:
        """What it writes first, nothing if it has ended."""
        assert self.process and self.process.stdout
        ready, _, _ = select.select([self.process.stdout], [], [], PATIENCE)
        if not ready:
            self.fail(f"a start neither is ready nor has ended in {PATIENCE:.0f} s")
        return self.process.stdout.readline()

    def draw_plan(self, may_end: bool) -> None:
        """What goes wrong on its disk in this life."""
        kind = self.dice.random()
        self.has_plan = may_end and kind < 0.6
        self.works_hard = self.is_large or self.dice.random() < 0.08
        with self.network.lock:
            self.model.may_fail = self.has_plan and kind >= 0.3
        lines = [*self.plant.plan(), f"slow 0 {0 if self.works_hard else self.dice.choice(SLOW)} 0"]
        if self.has_plan:
            lines.append(self.draw_fault("die" if kind < 0.3 else self.dice.choice(["eio", "enospc"])))
        self.disk.plan(lines)

    def draw_fault(self, action: str) -> str:
        """A call that goes wrong, and how much of it is done."""
        which, number = "change", self.dice.randint(1, self.dice.choice([12, 200, 1_000]))
        if not self.was_ready:
            number = self.dice.randint(1, FIRST_CHANGES)
        elif action == "eio" and self.dice.random() < 0.2:
            which, number = "read", self.dice.randint(1, 6)
        elif self.works_hard:
            number = HARD * CHANGES_A_RECORD + self.dice.randint(-5, 30)
        return f"{which} {number} {action} {self.dice.choice([0, 1_000, self.dice.randint(1, 999)])}"

    def lives(self) -> bool:
        return self.process is not None and self.process.poll() is None

    def is_over(self) -> bool:
        """Whether it has ended, or must end now by a power cut."""
        return not self.lives() or (self.is_short and time.monotonic() >= self.cut_at)

    def has_ended(self, *words: str) -> None:
        """Checks how it ended by itself: as planned, or with one of these lines after a call that failed."""
        assert self.process
        _, said = self.process.communicate(timeout=PATIENCE)
        status, fired = self.process.returncode, self.disk.fired()
        wanted = [(-signal.SIGKILL, "")] if is_death(fired) else [(3, f"{word}\n") for word in words]
        if not fired or (status, said) not in wanted:
            self.fail(f"it ended with status {status} and {said!r}; on its disk went wrong: {fired}")
        self.process = None

    def stop(self) -> None:
        """kill -9, or what has ended it already; then what it left is looked at."""
        self.network.shut(self.gate)
        self.note("the server is to stop" if self.lives() else "the server has ended")
        self.counts["stops"] += 1
        if self.lives():
            assert self.process
            self.process.kill()
            self.process.communicate()
            self.process = None
        elif self.process:
            self.counts["stops by its disk"] += 1
            self.has_ended("store: down")
        self.network.drain(self.gate)
        for peer in self.idle:
            peer.close()
        self.idle.clear()
        self.rest()
        with self.network.lock:
            self.model.stopped()
        self.leave_disk()

    def leave_disk(self) -> None:
        """Checks that what is left of its disk is what was answered."""
        fired, is_short, self.is_short = self.disk.fired(), self.is_short, False
        # (after a call that failed the system's view of a file is not promised)
        if self.dice.random() < 0.5 or is_short or (fired and not is_death(fired)):
            self.counts["power cuts"] += 1
            self.counts["of these soon after a start"] += is_short
            self.disk.cut_power()
        self.plant.before_look(self.disk.folder)
        found = self.disk.verdict()
        if found.refusal == "store: no store" and not self.was_ready:
            self.counts["new folders without a store"] += 1
            self.disk.empty()
            found = self.disk.verdict()
        if found.state is None:
            self.fail(f"after a stop the banks are refused: {found.refusal}")
        assert found.state
        if (lines := inspected(self.disk.folder)) != (wanted := lines_of(found.state)):
            self.fail("linda inspect says", differing(lines, wanted), "by the banks")
        with self.network.lock:
            self.check_state(found.state)
            self.model.is_old = found.form == 1
            ids, taken = self.model.ids, self.model.taken
            gone = {place: frames.spell_items(what[0], what[1:]) for place, what in ids.items() if place in taken}
        taken = max(0, found.generation - max(1, self.generation))
        self.counts["snapshots"] += taken
        self.counts["of these in steps"] += taken if sum(len(it) + 8 for it in found.state.bag.values()) >= IN_STEPS else 0
        self.generation = max(1, found.generation)
        self.plant.after_look(self.disk.folder, gone)

    def check_state(self, state: banks.State) -> None:
        """The state that a stop left, and those that were seen before it."""
        self.kept = Kept(self.model)
        unanswered = sum(record.pending is not None for record in self.model.records.values())
        settle(self.model, state)
        self.counts["unanswered at a stop"] += unanswered
        self.counts["of these done"] += unanswered - sum(it.pending is not None for it in self.model.records.values())
        for copy in self.copies:
            check_copy(self.model, *copy)
        self.copies.clear()

    def look(self, port: int) -> None:
        """Before clients are let in: all that must be there is offered, so nothing is held."""
        self.check_free(port, 0.0)
        self.note("clients are let in")
        self.is_short = self.dice.random() < (SHORT_UNSYNCED if self.was_unsynced else SHORT)
        self.cut_at = time.monotonic() + self.dice.random() * SOON
        if self.dice.random() < TWO_LOOPS:
            self.fill_first_loop(port)
        self.network.open(self.gate, port)
        if self.works_hard:
            self.worker = threading.Thread(target=self.work_hard, args=(port,), daemon=True)
            self.worker.start()

    def fill_first_loop(self, port: int) -> None:
        """Connections that say nothing for as long as this life lasts."""
        try:
            self.idle = [socket.create_connection(("127.0.0.1", port), PATIENCE) for _ in range(IDLE)]
            self.counts["lives with two loops"] += 1
        except OSError:
            # (the server has ended, as planned)
            pass

    def work_hard(self, port: int) -> None:
        """One record after another, until a snapshot is due, which the server then takes beside what it answers."""
        wire: Wire | None = None
        try:
            peer = Peer(port)
            with self.network.lock:
                wire = self.model.begin("direct")
            self.say(peer, wire, frames.hello(self.own, False))
            last = self.model.record(self.own).last
            # (as many bytes as the last snapshot have to come, and a bank of the first form has no longer text)
            text = "h" * (HARD_LETTERS if self.is_large else 0)
            for number in range(last + 1, last + HARD + 20):
                if self.is_to_rest.is_set():
                    break
                is_put = self.is_large or number % 50 == 0
                self.say(peer, wire, frames.out(number, JOB, self.own, number, text) if is_put else frames.accept(number, 0, 0))
            peer.close()
        except OSError:
            # (the server has ended, as planned or by kill -9)
            pass
        except Exception:  # noqa: BLE001
            self.network.on_fault(traceback.format_exc())
        finally:
            if wire:
                with self.network.lock:
                    self.model.end(wire)

    def rest(self) -> None:
        """The hard work ends, if there is some."""
        self.is_to_rest.set()
        if self.worker:
            self.worker.join(PATIENCE)
        self.worker = None
        self.is_to_rest.clear()

    def is_working(self) -> bool:
        return self.worker is not None and self.worker.is_alive()

    def say(self, peer: Peer, wire: Wire, data: bytes) -> None:
        with self.network.lock:
            self.model.sent(wire, frames.read_frame(data), time.monotonic())
        reply = peer.ask(data)
        with self.network.lock:
            self.model.came(wire, reply)
        if reply[0] == "Refused":
            raise ConnectionError

    def check_free(self, port: int, seconds: float) -> None:
        """Each tuple that must be there is offered to a client that asks, at once or within so many seconds."""
        until = time.monotonic() + seconds
        with self.network.lock:
            wanted = self.model.bag()
        while True:
            began = time.monotonic()
            try:
                found = listing(port, frames.spell_items(JOB, job_words()[1:]), LOOKERS, SILENCE)
            except TimeoutError:
                self.fail(f"one who asks for all tuples hears nothing for {SILENCE:.0f} s")
            except (OSError, ValueError):
                # (it has ended, or says that it is down, as planned: then the stop is looked at)
                if self.has_plan:
                    return
                # (a machine that stalls may let the lease of a client that asks run out)
                if self.model.lease is not None and began + self.model.lease < time.monotonic() < until + SILENCE:
                    continue
                raise
            self.counts["tuples looked for"] += len(found)
            if found == wanted:
                return
            if time.monotonic() >= until or found.keys() - wanted.keys():
                self.fail("it offers", differing(sorted(found.items()), sorted(wanted.items())))
            time.sleep(0.05)

    # ---- while it is at work

    def copy(self, top: Path) -> None:
        """Copies its folder, or inspects it, while it is at work: the state is looked at with the next stop."""
        is_copy = self.dice.random() < 0.5
        with self.network.lock:
            before = mark(self.model)
        if is_copy:
            lines, again = copied(self.disk.folder, top, self.is_working() or self.dice.random() < 0.1)
            self.counts["copies"] += 1
            self.counts["copies begun anew"] += again
        else:
            lines = inspected(self.disk.folder)
            self.counts["looks at work"] += 1
        with self.network.lock:
            after = mark(self.model)
        self.copies.append(("a copy at work" if is_copy else "linda inspect at work", lines, before, after))
