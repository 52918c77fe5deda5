#!/usr/bin/env python3
"""The tests of what workers need of linda_space: holds that are lost, forks, threads, numbers of their own, and `work`, over servers of the program.

    clients/python/test_workers.py [TEST..]

The program is the one that LINDA names, `linda` at the top of the repository if it is not set.
"""

from __future__ import annotations

import errno
import hashlib
import inspect
import logging
import multiprocessing
import os
import pickle
import random
import signal
import socket
import subprocess
import sys
import textwrap
import threading
import time
import unittest
from collections import deque
from pathlib import Path
from typing import Any, Callable, List
from unittest import mock

import test_linda_space
from test_linda_space import PATIENCE, Going, Peer, Server, WithServers, frames, logged, welcome

from linda_space.limits import RENEWAL
from linda_space import numbers as client_numbers, working
from linda_space import (
    ANY, INT, TEXT, TRIES, Busy, Choose, Closed, Forked, Gone, In, NoConnection, NoNumber, NumberInUse, Offer, Outcome, OutOfRange, Pool, Rd, Refused, Restored,
    Space, SpaceError, TimedOut)

HERE = Path(__file__).resolve().parent


def setUpModule() -> None:
    """What workers log of failures that are wanted here is not printed. And an alarm comes to the main thread or waits: other threads, also those that an earlier
    test left, block it. So a function that blocks it in the main thread cannot be ended by it."""
    test_linda_space.setUpModule()
    logging.disable(logging.CRITICAL)
    threading.Thread.run = deaf                                 # type: ignore[method-assign]


RUN = threading.Thread.run


def deaf(thread: threading.Thread) -> None:
    signal.pthread_sigmask(signal.SIG_BLOCK, [signal.SIGALRM])
    RUN(thread)


def in_a_child(call: Callable[[], Any]) -> str:
    """The result of the call in a forked process: its value, or the error, as words."""
    ours, theirs = os.pipe()
    child = os.fork()
    if child == 0:
        try:
            words = repr(call())
        except BaseException as fault:
            words = type(fault).__name__
        os.write(theirs, words.encode())
        os._exit(0)
    os.close(theirs)
    with os.fdopen(ours) as read:
        words = read.read()
    os.waitpid(child, 0)
    return words


class Holds(WithServers):
    """A loss is reported once."""

    def restart(self, server: Any, *words: str) -> Any:
        server.kill()
        return self.serve("one", server.port, *words)

    def test_the_end_of_a_block_tells_of_a_loss(self) -> None:
        server = self.serve()
        space, other = self.space(server), self.space(server, client=8)
        space.out("lock", 1)
        with self.assertRaises(Gone) as caught, space.hold("lock", INT) as offer:
            self.assertTrue(offer.is_held)
            self.restart(server)
            with other.hold("lock", INT, timeout=PATIENCE) as same:
                assert same is not None
                self.assertEqual(same.tuple, ("lock", 1))
        self.assertEqual([lost.tuple for lost in caught.exception.offers], [("lock", 1)])
        self.assertIs(caught.exception.offer, offer)
        self.assertIn("('lock', 1)", str(caught.exception))
        self.assertEqual((offer.is_held, space.take("lock", INT, timeout=PATIENCE)), (False, ("lock", 1)))

    def test_the_next_call_tells_of_a_loss_and_sends_nothing(self) -> None:
        calls: List[Callable[[Space], Any]] = [
            lambda space: space.out("done", 1), lambda space: space.take("a"), lambda space: space.look("a"), lambda space: space.choose(In("a"), timeout=0),
            lambda space: space.last_reply(), lambda space: space.leave(), lambda space: space.out_many([("done", 1)]),
            lambda space: space.take_many("lock", INT, count=2), lambda space: space.purge("lock", INT), lambda space: space.hold("a").__enter__()]
        server = self.serve()
        space, other = self.space(server), self.space(server, client=8)
        for call in calls:
            space.out("lock", 1)
            with space.hold("lock", INT) as offer:
                server = self.restart(server)
                with self.assertRaises(Gone) as caught:
                    call(space)
                self.assertEqual((caught.exception.offers, space.pending, offer.is_held), ((offer,), None, False))
                self.assertEqual(space.out("after"), (0, mock.ANY))         # it was reported once, and so the block ends in order
            self.assertEqual([other.take("lock", INT, timeout=PATIENCE), other.look("done", INT), other.take("after")], [("lock", 1), None, ("after",)])

    def test_accept_tells_of_its_own_loss_only(self) -> None:
        left, right = self.serve("left"), self.serve("right")
        space, other = self.space(left, right), self.space(left, right, client=8)
        stored = [other.out("job", 0), other.out("job", 1)]
        with self.assertRaises(Gone) as caught:
            with space.hold("job", dict(stored)[0] - 1 if stored[0][0] else 0) as kept, space.hold("job", 1) as lost:
                pair = {offer.server: offer for offer in (kept, lost)}
                left.kill()
                self.serve("left", left.port)
                self.assertEqual(pair[1].accept()[0], "job")
                self.assertFalse(pair[0].is_held)
                space.look("nothing")
        self.assertEqual(caught.exception.offers, (pair[0],))

    def test_a_call_that_waits_ends_with_the_loss(self) -> None:
        server = self.serve()
        space = self.space(server)
        space.out("lock", 1)
        with space.hold("lock", INT):
            taking = Going(lambda: space.take("never", timeout=PATIENCE))
            time.sleep(0.3)
            self.restart(server)
            began = time.monotonic()
            with self.assertRaises(Gone):
                taking.end()
            self.assertLess(time.monotonic() - began, 5)
        self.assertEqual(space.take("lock", INT, timeout=PATIENCE), ("lock", 1))

    def test_an_out_under_way_goes_on(self) -> None:
        server = self.serve()
        space = self.space(server)
        space.out("lock", 1)
        with space.hold("lock", INT):
            server.stop()
            putting = Going(lambda: space.out("done", 1))
            time.sleep(0.3)
            server.go_on()
            self.assertEqual(putting.end(), (0, 2))
            self.restart(server)
            with self.assertRaises(Gone):
                space.out("done", 2)
        self.assertIsNone(space.look("done", 2))

    def test_another_error_of_the_block_goes_first(self) -> None:
        server = self.serve()
        space = self.space(server)
        space.out("lock", 1)
        with self.assertRaises(ZeroDivisionError), space.hold("lock", INT):
            self.restart(server)
            raise ZeroDivisionError
        self.assertEqual(space.take("lock", INT, timeout=PATIENCE), ("lock", 1))

    def test_what_was_released_is_not_told(self) -> None:
        server = self.serve()
        space = self.space(server)
        space.out("lock", 1)
        with space.hold("lock", INT) as offer:
            self.restart(server)
            offer.release()
            self.assertFalse(offer.is_held)
        self.assertEqual(space.take("lock", INT, timeout=PATIENCE), ("lock", 1))

    def test_renew_looks_first(self) -> None:
        server = self.serve("one", 0, "--lease", "1")
        space, other = self.space(server), self.space(server, client=8)
        space.out("lock", 1)
        with space.hold("lock", INT) as offer:
            self.assertEqual(other.take("lock", INT, timeout=PATIENCE), ("lock", 1))        # the lease ran out
            with self.assertRaises(Gone) as caught:
                offer.renew()
            self.assertEqual(caught.exception.offers, (offer,))

    def test_a_call_that_waits_renews(self) -> None:
        server = self.serve("one", 0, "--lease", "2")
        space, other = self.space(server), self.space(server, client=8)
        space.out("lock", 1)
        with space.hold("lock", INT) as offer:
            taking = Going(lambda: other.take("lock", INT, timeout=7))
            self.assertIsNone(space.take("never", timeout=6))
            self.assertEqual(offer.accept(), ("lock", 1))
        self.assertIsNone(taking.end())

    def test_each_server_has_its_own_time_of_renewal(self) -> None:
        """A call that waits, and holds at two servers, says something to each once nothing was sent to it for `RENEWAL` seconds, whenever something was sent to
        the other one."""
        servers = [self.serve("left"), self.serve("right")]
        space = self.space(*servers)
        server, _ = space.out("lock", 1)
        other, _ = space.out("lock", 2)
        self.assertNotEqual(server, other)
        with space.hold("lock", 1), space.hold("lock", 2):
            now = time.monotonic()
            for late in (server, other):
                renewed: List[int] = []
                with mock.patch.object(space._machine, "renew_at", renewed.extend), mock.patch.object(space._links[server], "said", now), \
                        mock.patch.object(space._links[other], "said", now):
                    space._links[late].said = now - RENEWAL + 0.125
                    self.assertEqual((space._renew_all(now), renewed), (now + 0.125, []))
                    space._links[late].said = now - RENEWAL
                    space._renew_all(now)
                    self.assertEqual(renewed, [late])

    def test_keep(self) -> None:
        server = self.serve("one", 0, "--lease", "2")
        space, other = self.space(server), self.space(server, client=8)
        space.out("lock", 1)
        space.out("lock", 2)
        with space.hold("lock", 1, keep=0.3) as offer, space.hold("lock", 2) as lost:
            self.assertIsNone(other.take("lock", 1, timeout=6))                              # a renewal is for all that the server holds
            self.assertTrue(offer.is_held and lost.is_held)
            self.assertEqual(offer.accept(), ("lock", 1))
            self.assertEqual(other.take("lock", 2, timeout=PATIENCE), ("lock", 2))          # nothing is kept any more
            with self.assertRaises(Gone):
                lost.renew()
        self.assertEqual([thread for thread in threading.enumerate() if "keeper" in thread.name and thread.is_alive()], [])

    def test_threads_may_renew_release_and_close(self) -> None:
        server = self.serve("one", 0, "--lease", "2")
        space = self.space(server)
        space.out("lock", 1)
        over = threading.Event()
        faults: List[BaseException] = []

        def beat(offer: Offer) -> None:
            while not over.is_set():
                try:
                    offer.renew()
                except BaseException as fault:
                    faults.append(fault)
                time.sleep(0.002)

        with space.hold("lock", INT) as offer:
            threads = [threading.Thread(target=beat, args=(offer,)) for _ in range(3)]
            for thread in threads:
                thread.start()
            for number in range(400):
                space.out("a", number)
                self.assertEqual(space.take("a", number), ("a", number))
            over.set()
            for thread in threads:
                thread.join()
            self.assertEqual(offer.accept(), ("lock", 1))
        self.assertEqual(faults, [])

    def test_close_wakes_who_waits(self) -> None:
        server = self.serve()
        for call in (lambda space: space.take("never"), lambda space: space.sync(Choose(Rd("never"), space.after(60)))):
            space = self.space(server)
            taking = Going(lambda: call(space))
            time.sleep(0.3)
            began = time.monotonic()
            space.close()
            with self.assertRaises(Closed):
                taking.end()
            self.assertLess(time.monotonic() - began, PATIENCE / 2)
            with self.assertRaises(Closed):
                space.out("a")
        space = self.space(server)
        server.kill()
        taking = Going(lambda: space.take("never"))
        time.sleep(0.3)
        space.close()
        with self.assertRaises(Closed):
            taking.end()


class Forks(WithServers):
    """A space belongs to the process that made it."""

    def test_a_child_raises_and_touches_nothing(self) -> None:
        space = self.space(self.serve())
        space.out("job", 1)
        space.out("job", 2)
        with space.hold("job", 1) as offer:
            for call in (lambda: space.out("a", 1), lambda: space.take("job", INT), lambda: space.last_reply(), lambda: space.again(), lambda: space.leave(),
                         offer.accept, offer.renew, lambda: space.hold("job", INT).__enter__(), lambda: space.purge("job", INT), space.abandon):
                self.assertIn(in_a_child(call), ("Forked", "Idle"))
            space._machine.in_hand.append(Outcome(0, "took", (), (), 0, 2, ("job", 2)))     # of a take that an error ended: it is the parent's
            self.assertEqual((in_a_child(space.again), space.again()), ("Forked", Outcome(0, "took", (), (), 0, 2, ("job", 2))))
            self.assertEqual([in_a_child(lambda: (offer.release(), space.close(), offer.is_held))], ["(None, None, False)"])
            self.assertTrue(offer.is_held)
            self.assertEqual((space.out("parent", 2), offer.accept()), ((0, 3), ("job", 1)))
        self.assertEqual([space.look("parent", INT), space.look("a", INT), space.take("job", INT)], [("parent", 2), None, ("job", 2)])

    def test_a_child_closes_a_pool(self) -> None:
        """It logs nothing, and puts nothing back: its parent does. What the child makes is its own."""
        server = self.serve()
        pool, other = Pool([server.port], range(100, 110), size=2), self.space(server)
        self.addCleanup(pool.close)
        pool._owed[pool._members[0]] = deque([("job", 1)])
        pool._left.append(("job", 2))

        def close() -> Any:
            with logged("pool") as words:
                pool.close()
            return words

        def use() -> Any:
            with self.assertRaises(Forked):
                pool.look("job", INT)
            return close()

        with pool._gate:                                        # a thread had it when the process was forked
            busy = Going(lambda: in_a_child(close)).end()
        self.assertEqual((busy, in_a_child(close), in_a_child(use)), ("[]", "[]", "[]"))
        with logged("pool") as words:
            pool.close()
        self.assertEqual((other.take_many("job", INT, count=9), words), ([("job", 1), ("job", 2)], []))

    def test_a_pool_of_processes_gets_the_error(self) -> None:
        space = self.space(self.serve())
        with multiprocessing.get_context("fork").Pool(2) as pool:
            faults = [pool.apply_async(space_out, (number,)) for number in range(10)]
            global _space
            _space = space
            for result in faults:
                with self.assertRaises((Forked, NameError)):
                    result.get(PATIENCE)
        _space = space
        with multiprocessing.get_context("fork").Pool(2) as pool:
            for result in [pool.apply_async(space_out, (number,)) for number in range(10)]:
                with self.assertRaises(Forked):
                    result.get(PATIENCE)
        self.assertIsNone(space.look("pooled", INT))

    def test_a_connection_ends_with_the_process_that_uses_it(self) -> None:
        """A child that lives on keeps nothing of its parent's."""
        server = self.serve()
        other = self.space(server, client=8)
        other.out("job", 1)
        program = f"""
            import os, sys, time
            from linda_space import INT, Space
            space = Space([{server.port}], 7)
            with space.hold("job", INT):
                if os.fork() == 0:
                    time.sleep(30)
                    os._exit(0)
                print("held", flush=True)
                time.sleep(60)
        """
        process = subprocess.Popen([sys.executable, "-c", textwrap.dedent(program)], stdout=subprocess.PIPE, env={**os.environ, "PYTHONPATH": str(HERE)},
                                   universal_newlines=True, start_new_session=True)
        assert process.stdout
        self.addCleanup(process.stdout.close)
        self.assertEqual(process.stdout.readline(), "held\n")
        process.kill()
        process.wait()
        self.assertEqual(other.take("job", INT, timeout=5), ("job", 1))
        os.killpg(process.pid, signal.SIGKILL)

    def test_errors_and_spaces_in_pickles(self) -> None:
        server = self.serve()
        space = self.space(server)
        space.out("job", 1)
        with space.hold("job", INT) as offer:
            pass
        for fault in (Gone((offer,)), Forked(), Refused(0, 6, 0, 7), Restored(0, 1, 2), NumberInUse(0, 3, 1, 7), TimedOut([1]), Busy("b"), OutOfRange("o")):
            fault.pending = "out"
            same = pickle.loads(pickle.dumps(fault))
            self.assertEqual((type(same), str(same), same.pending), (type(fault), str(fault), "out"))
        with self.assertRaisesRegex(TypeError, "each process makes its own"):
            pickle.dumps(space)


_space: Any = None


def space_out(number: int) -> Any:
    if _space is None:
        raise NameError
    return _space.out("pooled", number, timeout=3)


class Numbers(WithServers):
    """The numbers of programs."""

    def kept(self, server: Any, client: int, *what: bytes) -> None:
        peer = Peer(server.port)
        last = peer.greet(client)
        for make in what:
            last += 1
            peer.ask(frames.frame(make[:1] + frames.spell_number(last) + make[1:]))
        peer.close()

    def test_an_unfinished_job_first(self) -> None:
        server = self.serve()
        numbers = range(100, 110)
        out = b"\x02" + frames.spell_items("job", [1])
        self.kept(server, 100, out)
        self.kept(server, 101, out, out)
        with Space([server.port], 101) as space:
            self.assertEqual(space.take("job", INT), ("job", 1))
        self.kept(server, 102, out)
        self.assertEqual(self.free(lambda: Space([server.port], numbers)), (101, ("job", 1)))
        with Space([server.port], 101) as space:
            space.out("done", 1)
            self.assertEqual(self.free(lambda: Space([server.port], numbers)), (100, None))          # 101 is in use
        self.assertEqual(self.free(lambda: Space([server.port], numbers)), (100, None))
        with self.free_space(lambda: Space([server.port], numbers)) as one, self.free_space(lambda: Space([server.port], numbers)) as two:
            self.assertEqual([one.client, two.client, one.out("a")[0], two.out("a")[0]], [100, 101, 0, 0])

    def serve(self, name: str = "one", port: int = 0, *words: str) -> Server:
        self.server = super().serve(name, port, *words)
        return self.server

    def free_space(self, make: Callable[[], Space]) -> Space:
        self.server.rest()                                      # it has seen that the connections before have ended
        return make()

    def free(self, make: Callable[[], Space]) -> Any:
        with self.free_space(make) as space:
            last = space.last_reply()
            return space.client, last.tuple if last and last.kind == "taken" else None

    def test_a_new_number_is_synced(self) -> None:
        """Its file has it on the disk before anything is done under it: so what a server keeps for it is found after a power cut."""
        server, own, sync = self.serve(), self.folder / "numbers", os.fsync
        synced: List[Any] = []

        def noted(file: int) -> None:
            synced.append((os.readlink(f"/proc/self/fd/{file}"), os.pread(file, 100, 0)))
            sync(file)

        with mock.patch("os.fsync", noted), Space([server.port], own) as space:
            self.assertEqual(synced, [(str(own.resolve()), f"{space.client}\n".encode())])

    def test_an_unfinished_job_after_numbers_that_were_never_used(self) -> None:
        """Of a range, a list and a file; and if the server has no place for those that were never used."""
        (self.folder / "one").mkdir()
        # A bank (docs/PROTOCOL.md): clients 0 to 65,534 have left with their number 1, and there is no tuple. Then a closed gate.
        count, own = 65_535, self.folder / "numbers"
        snapshot = b"".join([frames.spell_number(1), bytes(4), frames.spell_number(count, 4),
                             *(frames.spell_number(client, 4) + frames.spell_number(1) + b"\4" for client in range(count))])
        (self.folder / "one" / "left.bank").write_bytes(b"\1LND2" + frames.spell_number(1) + frames.spell_number(len(snapshot), 4) + snapshot + b"\0")
        server = self.serve()
        own.write_text("100000\n100002\n100004\n")
        several: List[Any] = [range(100_000, 100_010), [100_009, 100_002, 100_000], own]
        self.assertEqual([self.free(lambda: Space([server.port], numbers)) for numbers in several], [(100_000, None), (100_009, None), (100_000, None)])
        self.kept(server, 100_002, b"\x02" + frames.spell_items("job", [1]))
        with Space([server.port], 100_002) as space:
            space.take("job", INT)
        for numbers in several:
            self.assertEqual(self.free(lambda: Space([server.port], numbers)), (100_002, ("job", 1)))
        self.server.rest()
        with self.assertRaisesRegex(Refused, "TooManyClients, detail 65536, client number 100001 is new to it, and it has no place for one: use a number"):
            Space([server.port], range(100_000, 100_002), patience=0.1)

    def test_a_number_of_a_file_that_was_just_looked_at(self) -> None:
        """A number that only the server says is in use is waited for before a new one is drawn."""
        server, own = self.serve(), self.folder / "numbers"
        own.write_text("1000\n1001\n")
        for _ in range(4):
            with self.free_space(lambda: Space([server.port], own)) as one, Space([server.port], own) as two:
                self.assertEqual((one.client, two.client, own.read_text()), (1000, 1001, "1000\n1001\n"))
                with Space([server.port], own) as three:            # both are claimed: there is nothing to wait for
                    self.assertEqual(own.read_text(), f"1000\n1001\n{three.client}\n")
            own.write_text("1000\n1001\n")
        self.server.rest()
        peer = Peer(server.port)                                    # as a program of another machine
        peer.greet(1000)
        own.write_text("1000\n")
        began = time.monotonic()
        with mock.patch("linda_space.numbers.BUSY_PATIENCE", 0.5), Space([server.port], own) as space:
            self.assertGreaterEqual(time.monotonic() - began, 0.5)
            self.assertEqual(own.read_text(), f"1000\n{space.client}\n")
        own.write_text("1000\n")
        waiting = Going(lambda: Space([server.port], own))
        time.sleep(0.2)
        peer.close()
        with waiting.end() as space:
            self.assertEqual((space.client, own.read_text()), (1000, "1000\n"))

    def test_as_many_programs_as_numbers(self) -> None:
        """All begin at once, and none stays without a number because others look."""
        server = self.serve()
        for _ in range(3):
            begun = [Going(lambda: Space([server.port], range(200, 212))) for _ in range(12)]
            spaces = [going.end() for going in begun]
            self.assertEqual(sorted(space.client for space in spaces), list(range(200, 212)))
            for space in spaces:
                space.out("a")
                space.close()

    def test_a_file_of_numbers(self) -> None:
        server = self.serve()
        folder = self.folder / "state"
        folder.mkdir()
        with mock.patch.dict(os.environ, {"LINDA_STATE": str(folder / "of" / "linda")}), mock.patch.object(sys, "argv", ["/some/where/square.py"]):
            with Space([server.port]) as one, Space([server.port]) as two:
                first, second = one.client, two.client
                one.out("job", 1)
                self.assertEqual(one.take("job", INT), ("job", 1))
            self.assertNotEqual(first, second)
            self.assertTrue(all(1 << 31 <= number < 1 << 32 for number in (first, second)))
            (file,) = (folder / "of" / "linda").iterdir()
            self.assertRegex(file.name, r"^square-[0-9a-f]{12}\.numbers$")
            self.assertEqual((file.read_text(), file.stat().st_mode & 0o777), (f"{first}\n{second}\n", 0o600))
            self.assertEqual(self.free(lambda: Space([server.port])), (first, ("job", 1)))
            with mock.patch.object(sys, "argv", ["/some/where/else.py"]), Space([server.port]) as other:
                self.assertNotIn(other.client, (first, second))
        own = folder / "numbers"
        own.write_text("77\n78\n")
        self.assertEqual(self.free(lambda: Space([server.port], own))[0], 77)
        for text in ("77\ny\n", f"{1 << 32}\n", "-1\n"):
            own.write_text(text)
            with self.assertRaisesRegex(NoNumber, "numbers"):
                Space([server.port], own)
        with self.assertRaisesRegex(NoNumber, "Not a directory|File exists"):
            Space([server.port], own / "in" / "a" / "file")

    def test_a_file_that_was_cut(self) -> None:
        """A last line without an end is no number, and the program that adds the next one ends it; also if two do so at once."""
        server = self.serve()
        own = self.folder / "numbers"
        with Space([server.port], own) as space:
            first = space.client
        cut = str(first)[:4]
        for before in ("", "78\n"):
            own.write_text(before + cut)
            with logged("no end") as words, self.free_space(lambda: Space([server.port], own)) as space:
                if before:
                    self.assertEqual((space.client, own.read_text()), (78, before + cut))
                    with Space([server.port], own) as other:
                        self.assertEqual(own.read_text(), f"{before}{cut}x\n{other.client}\n")
                else:
                    self.assertEqual(own.read_text(), f"{cut}x\n{space.client}\n")
            self.assertTrue(words and all(word.endswith(f" {cut}") and str(own) in word for word in words), words)
        own.write_text(f"{cut}x\n90\nx\n91\n12 xx\n\0\0x\n")
        with logged("no end") as words:
            self.assertEqual((self.free(lambda: Space([server.port], own))[0], words), (90, []))

    def test_a_file_without_room(self) -> None:
        server = self.serve()
        own = self.folder / "numbers"
        write = os.write
        with mock.patch.object(os, "write", lambda file, data: write(file, data[:3])), self.assertRaisesRegex(NoNumber, "No space"):
            Space([server.port], own)
        part = own.read_text()
        with self.free_space(lambda: Space([server.port], own)) as space:
            self.assertEqual((len(part), own.read_text()), (3, f"{part}x\n{space.client}\n"))

    def test_servers_in_any_order(self) -> None:
        """A program that is at work between two calls keeps its number when the servers were started again, whatever order another one names them in."""
        servers = [self.serve("one"), self.serve("two")]
        ports = [server.port for server in servers]
        with Space(ports, range(100, 110)) as one:
            one.out_many([("a",), ("a",)])
            for name, server in zip(("one", "two"), servers):
                server.kill()
                self.serve(name, server.port)
            with Space(ports[::-1], range(100, 110)) as two:
                self.assertEqual((one.client, two.client, len(one.out("a"))), (100, 101, 2))
        path, link = self.folder / "socket", self.folder / "link"
        path.touch()
        link.symlink_to(path)
        keys = [client_numbers.Numbers(range(9)).key(ports) for ports in ([7000, 10_000], [10_000, 7000], [str(path), 7000], [7000, str(link)], [7000, os.path.relpath(path)])]
        self.assertEqual((keys[0], len(set(keys[:2])), len(set(keys[2:]))), ("901c06c8948d7fbbbadd98dda2aac6dd", 1, 1))      # as in Node.js

    def answered(self, *talks: bytes) -> int:
        """The port of a server that answers the Hello of each connection with these bytes, and no more; with none it ends the connection."""
        listener = socket.create_server(("127.0.0.1", 0))
        self.addCleanup(listener.close)

        def serve() -> None:
            for talk in talks:
                peer = Peer(stream=listener.accept()[0])
                self.addCleanup(peer.close)
                peer.receive()
                if talk:
                    peer.send(talk)
                else:
                    peer.close()

        threading.Thread(target=serve, daemon=True).start()
        return int(listener.getsockname()[1])

    def test_a_server_that_answers_the_hello_and_no_more(self) -> None:
        began = time.monotonic()
        with self.assertRaises(NoConnection) as caught:
            Space([self.answered(welcome(3))], range(100, 110), patience=0.5)
        self.assertEqual(caught.exception.server, 0)
        self.assertLess(time.monotonic() - began, PATIENCE / 2)

    def test_a_fresh_number_that_was_used(self) -> None:
        """It is refused, also if the first connection is lost before its Welcome: the next Hello is not fresh."""
        for last, used in ((0, False), (3, True)):
            port = self.answered(b"", welcome(last))
            if used:
                with self.assertRaisesRegex(Refused, "Known, detail 3, client number 97 was used before"):
                    Space([port], 97, fresh=True)
            else:
                Space([port], 97, fresh=True).close()

    def test_no_file_is_left(self) -> None:
        """That is an error of the library, whatever needs the file first."""
        for what in ("selectors.DefaultSelector", "socket.socket"):
            with mock.patch(what, side_effect=OSError(errno.EMFILE, "none is left")), self.assertRaises(NoConnection) as caught:
                Space([7000], 7)
            self.assertEqual(getattr(caught.exception.__cause__, "errno", None), errno.EMFILE)

    def test_a_server_that_is_there_twice(self) -> None:
        for port in (7000, "localhost:7000"):
            with self.assertRaisesRegex(OutOfRange, "twice"):
                Space([7000, port])

    def test_connect_that_returns_no_socket(self) -> None:
        none: Any = None
        with self.assertRaisesRegex(OutOfRange, "connect returns a socket: None"):
            Space([7000], 7, connect=lambda port: none)

    def test_ports_by_name(self) -> None:
        server = self.serve()
        for place, name in enumerate(("localhost", "127.0.0.1")):
            with Space([f"{name}:{server.port}"], 20 + place) as space:
                self.assertEqual(space.out("a")[0], 0)
        for port in ("localhost", "localhost:", "localhost:0", "example.org:7000", ":7000", "7000", "localhost:7000x"):
            with self.assertRaises(OutOfRange):
                Space([port], 1)


class WithWorkers(WithServers):
    """What tests of `work` need."""

    def worked(self, space: Space, function: Callable[[Any], Any], template: Any = ("job", INT), **how: Any) -> int:
        return space.work(template, function, **{"timeout": 0.3, **how})

    def tuples(self, space: Space, tag: str, count: int) -> list:
        found: list = []
        for fields in range(count + 1):
            while (one := space.take(tag, *[ANY] * fields, timeout=0)) is not None:
                found.append(one)
        return sorted(found)

    def worker(self, port: int, body: str, how: str, template: str = '("job", INT)', client: int = 7, setting: str = "") -> subprocess.Popen:
        program = f"""
            import os, sys, time
            {setting}
            from linda_space import INT, TRIES, Rd, Space
            def function(job):
                {body}
            with Space([{port}], {client}) as space:
                print("connected", flush=True)
                try:
                    print("did", space.work({template}, function, {how}), flush=True)
                finally:
                    print("over", flush=True)
        """
        process = subprocess.Popen([sys.executable, "-c", textwrap.dedent(program)], stdout=subprocess.PIPE, stderr=subprocess.DEVNULL,
                                   env={**os.environ, "PYTHONPATH": str(HERE)}, universal_newlines=True)
        assert process.stdout
        self.addCleanup(process.stdout.close)
        self.addCleanup(process.wait)
        self.addCleanup(process.kill)
        self.assertEqual(process.stdout.readline(), "connected\n")
        return process

    def noted(self) -> str:
        """What the one file of notes has, without its blanks."""
        (file,) = (self.folder / "of programs").iterdir()
        self.assertRegex(file.name, "^[0-9a-f]{32}-7[.]job$")
        return file.read_text().rstrip(" ")

    def gather(self, space: Space, jobs: int) -> None:
        """The results of all jobs come, some perhaps twice."""
        found: set = set()
        while len(found) < jobs:
            one = space.take("done", INT, timeout=20)
            assert one is not None, f"{jobs - len(found)} of {jobs} jobs are lost: {sorted(set(range(jobs)) - found)[:20]}"
            found.add(one[1])
        self.assertEqual(found, set(range(jobs)))


class Work(WithWorkers):
    """`work` loses no job."""

    def test_results(self) -> None:
        space = self.space(self.serve())
        for number in range(4):
            space.out("job", number)

        def function(job: Any) -> Any:
            return [None, ("done", 1), [("done", 2), ("log", "x")], []][job[1]]

        self.assertEqual(self.worked(space, function), 4)
        self.assertEqual([self.tuples(space, tag, 2) for tag in ("job", "done", "log")], [[], [("done", 1), ("done", 2)], [("log", "x")]])

    def test_nothing_looks_unfinished_at_the_end(self) -> None:
        server = self.serve()
        space = self.space(server)
        space.out("job", 1)
        self.assertEqual(self.worked(space, lambda job: None), 1)
        kept = space.last_reply()
        assert kept is not None
        self.assertEqual((kept.kind, kept.number), ("gone", 3))

    def test_the_first_of_several_goes_first(self) -> None:
        space = self.space(self.serve())
        space.out_many([(tag, number) for number in range(3) for tag in ("low", "high")])
        seen: list = []
        self.assertEqual(self.worked(space, lambda job: seen.append(job), [In("high", INT), In("low", INT)]), 6)
        self.assertEqual(seen, [*(("high", number) for number in range(3)), *(("low", number) for number in range(3))])

    def test_a_wrong_result_and_an_error(self) -> None:
        space = self.space(self.serve())
        space.out("job", 1)
        for value in (7, "text", [("a",), 7], {}):
            with self.assertRaises(TypeError):
                self.worked(space, lambda job: value)
        with self.assertRaises(ZeroDivisionError):
            self.worked(space, lambda job: 1 // 0)
        self.assertEqual(space.take("job", INT, timeout=0), ("job", 1))

    def test_tries(self) -> None:
        server = self.serve("one", 0, "--lease", "2")
        space, other = self.space(server), self.space(server, client=8)
        for number in (1, 2, 3):
            space.out("job", number, 0)
        seen: list = []

        def function(job: Any) -> Any:
            seen.append((job[1], job[2], time.monotonic()))
            if job[1] == 3 or job[1] == 2 and job[2] == 0:
                raise ValueError("é" * 1_000)
            return "done", job[1], job[2]

        self.assertEqual(self.worked(space, function, ("job", INT, TRIES), tries=3, delay=0.8, timeout=1.5), 2)
        self.assertEqual(self.tuples(other, "done", 2), [("done", 1, 0), ("done", 2, 1)])
        (dead,) = self.tuples(other, "dead", 5)
        self.assertEqual(dead, ("dead", "job", 3, 3, "ValueError: " + "é" * 494))          # 12 bytes, and 988 of 1,000
        at = {(job, failed): when for job, failed, when in seen}
        self.assertEqual(set(at), {(1, 0), (2, 0), (2, 1), (3, 0), (3, 1), (3, 2)})
        self.assertGreaterEqual(at[3, 1] - at[3, 0], 0.8)
        self.assertGreaterEqual(at[3, 2] - at[3, 1], 1.6)
        self.assertLess(at[1, 0], at[2, 1])

    def test_results_that_are_not_within_their_limits(self) -> None:
        """With tries that is a failure as any other, and none of the results is put; without, it ends the loop, and the job is free."""
        server = self.serve()
        space, other = self.space(server), self.space(server, client=8)
        space.out("job", 1, 0)
        for wrong in ("x" * 5_000, 1 << 63, None):
            results = [("log", 1), ("done", wrong)]
            with self.assertRaises(OutOfRange):
                self.worked(space, lambda job: results, ("job", INT, INT))
            self.assertEqual(other.take("job", 1, 0, timeout=PATIENCE), ("job", 1, 0))
            other.out("job", 1, 0)
            self.assertEqual(self.worked(space, lambda job: results, ("job", INT, TRIES), tries=2, delay=0.01), 0)
            dead = other.take("dead", "job", 1, 2, TEXT, timeout=0)
            assert dead is not None
            self.assertRegex(str(dead[4]), "^OutOfRange: ")
            other.out("job", 1, 0)
        self.assertIsNone(other.look("log", 1))

    def test_an_error_without_a_text(self) -> None:
        class Silent(Exception):
            def __str__(self) -> str:
                raise RuntimeError("no text")

        def function(job: Any) -> Any:
            raise Silent()

        space = self.space(self.serve())
        space.out("job", 1, 0)
        self.assertEqual(self.worked(space, function, ("job", INT, TRIES), tries=1), 0)
        dead = space.take("dead", "job", 1, 1, TEXT, timeout=0)
        self.assertEqual((space._machine.held, dead), ({}, ("dead", "job", 1, 1, "Silent: an error without a text")))

    def test_a_job_that_waits_for_its_next_try_is_free_if_the_worker_is_killed(self) -> None:
        server = self.serve()
        other = self.space(server, client=8)
        other.out("job", 1, 0)
        process = self.worker(server.port, 'print("fails", flush=True); raise ValueError("no")', "tries=9, delay=60", '("job", INT, TRIES)')
        assert process.stdout
        self.assertEqual(process.stdout.readline(), "fails\n")
        self.assertIsNone(other.take("job", INT, INT, timeout=1.0))         # it is held until its next try
        process.kill()
        self.assertEqual(other.take("job", INT, INT, timeout=PATIENCE), ("job", 1, 0))

    def test_sigterm_finishes_the_job_and_puts_back_what_waits(self) -> None:
        server = self.serve()
        other = self.space(server, client=8)
        other.out("job", 1, 0)
        other.out("job", 2, 4)
        body = 'print("begins", flush=True); time.sleep(1); print("ends", flush=True); return ("done", job[1]) if job[1] == 1 else 1 // 0'
        process = self.worker(server.port, body, "tries=9, delay=60", '("job", INT, TRIES)')
        assert process.stdout
        self.assertEqual([process.stdout.readline() for _ in range(3)], ["begins\n", "ends\n", "begins\n"])
        process.terminate()
        self.assertEqual(process.stdout.read(), "ends\ndid 1\nover\n")
        self.assertEqual(process.wait(PATIENCE), 0)
        self.assertEqual([other.take("done", INT, timeout=0), other.take("job", INT, INT, timeout=0), other.take("job", INT, INT, timeout=0)],
                         [("done", 1), ("job", 2, 5), None])

    def test_a_child_that_a_function_forks_ends_at_sigterm(self) -> None:
        space = self.space(self.serve())
        space.out("job", 1)

        def function(job: Any) -> Any:
            child = multiprocessing.get_context("fork").Process(target=time.sleep, args=(PATIENCE,))
            child.start()
            time.sleep(0.2)
            child.terminate()
            child.join(5)
            self.addCleanup(child.kill)
            return "ended", child.exitcode or 0

        self.assertEqual((self.worked(space, function), space.take("ended", INT)), (1, ("ended", -signal.SIGTERM)))

    def test_ctrl_c_between_two_steps(self) -> None:
        """Nothing is held then, wherever the interrupt comes between the offer and the end of the job."""
        server = self.serve()
        other = self.space(server, client=8)
        worker = working.Worker
        for call in (worker.next_job, worker.guarded, worker.do, worker.call, worker.steps, working.play, Space._hold_or):
            lines, first = inspect.getsourcelines(call)
            for place in range(first, first + len(lines)):
                other.purge("job", INT)
                other.out("job", 1)
                with self.space(server) as space:
                    hits: list = []

                    def trace(frame: Any, event: str, _: Any) -> Any:
                        if frame.f_code is call.__code__ and frame.f_lineno == place and event == "line" and space._machine.held and not hits:
                            hits.append(place)
                            raise KeyboardInterrupt
                        return trace if "linda_space" in frame.f_code.co_filename else None

                    sys.settrace(trace)
                    try:
                        self.worked(space, lambda job: None, timeout=0)
                    except KeyboardInterrupt:
                        pass
                    finally:
                        sys.settrace(None)
                    self.assertEqual(space._machine.held, {}, f"{call.__qualname__}, line {place}")

    def test_a_handler_of_its_own_is_called(self) -> None:
        space = self.space(self.serve())
        called: list = []
        before = signal.signal(signal.SIGTERM, lambda number, frame: called.append(number))
        self.addCleanup(signal.signal, signal.SIGTERM, before)
        timer = threading.Timer(0.3, os.kill, (os.getpid(), signal.SIGTERM))
        timer.start()
        self.assertEqual((space.work(("never",), lambda job: None), called), (0, [signal.SIGTERM]))

    def test_stop_words_and_flags(self) -> None:
        server = self.serve()
        space, other = self.space(server), self.space(server, client=8)
        working = Going(lambda: space.work(In("job", INT), lambda job: ("done", job[1]), stop=Rd("stop")))
        other.out("job", 1)
        self.assertEqual(other.take("done", INT, timeout=PATIENCE), ("done", 1))
        other.out("stop")
        self.assertEqual((working.end(), other.take("stop")), (1, ("stop",)))
        flag = threading.Event()
        working = Going(lambda: space.work(("job", INT), lambda job: None, stop=flag))
        time.sleep(0.2)
        flag.set()
        self.assertEqual(working.end(), 0)
        for stop in (In("stop"), 7, "stop"):
            with self.assertRaises(OutOfRange):
                space.work(("job", INT), lambda job: None, stop=stop)      # type: ignore[arg-type]
        for template, how in ((("job", ANY), {"tries": 3}), (("job",), {"tries": 3}), (("job", TRIES), {"tries": 0}),
                              ("job", {}), ([], {}), ([In("a"), "b"], {}), ((7.5,), {}), (("job", INT), {"delay": -1}), (("job", INT), {"keep": 0}),
                              (("job", INT), {"limit": 0}), (("job", INT), {"grace": -1})):
            with self.assertRaises(OutOfRange):
                space.work(template, lambda job: None, **how)              # type: ignore[arg-type]

    def test_a_hold_that_is_lost(self) -> None:
        """The result of a job that another worker has by now is not put."""
        server = self.serve("one", 0, "--lease", "1")
        space, other = self.space(server), self.space(server, client=8)
        space.out("job", 1)
        space.out("job", 2)

        def function(job: Any) -> Any:
            if job[1] == 1:
                server.kill()
                self.serve("one", server.port)
                self.assertEqual(other.take("job", 1, timeout=PATIENCE), ("job", 1))
            return "done", job[1]

        self.assertEqual(self.worked(space, function), 1)
        self.assertEqual(self.tuples(other, "done", 1), [("done", 2)])

    def test_a_server_that_is_away_while_a_result_is_under_way(self) -> None:
        """The hold is lost, and the result is pending: that is finished first, and the loop goes on."""
        servers = [self.serve()]
        port = servers[0].port
        space, other = self.space(servers[0], patience=0.4), self.space(servers[0], client=8)
        other.out_many([("job", number) for number in range(3)])
        put, pending = space.out, []

        def out(*values: Any) -> Any:
            if len(servers) == 1:
                servers[0].stop()
                threading.Timer(0.2, servers[0].kill).start()
            return put(*values)

        def pause(worker: Any) -> None:
            """The server comes back once the worker has seen that it is away."""
            pending.append(space.pending)
            if len(servers) == 1:
                servers.append(self.serve("one", port))
            time.sleep(0.05)

        with mock.patch.object(space, "out", out), mock.patch("linda_space.working.Worker.pause", pause):
            self.assertEqual(self.worked(space, lambda job: ("done", job[1])), 3)
        self.assertEqual((pending[0], {one[1] for one in self.tuples(other, "done", 1)}, other.look("job", INT)), ("out", {0, 1, 2}, None))

    def test_a_lease_is_kept_while_a_function_runs(self) -> None:
        server = self.serve("one", 0, "--lease", "2")
        space, other = self.space(server), self.space(server, client=8)
        space.out("job", 1)

        def function(job: Any) -> Any:
            self.assertIsNone(other.take("job", INT, timeout=6))
            return "done", job[1]

        self.assertEqual((self.worked(space, function), other.take("done", INT, timeout=0)), (1, ("done", 1)))

    def test_servers_that_come_and_go(self) -> None:
        """A worker goes on over restarts, and each job is done."""
        server = self.serve()
        other = self.space(server, client=8, patience=60.0)
        process = self.worker(server.port, 'return "done", job[1]', 'stop=Rd("stop")')
        for number in range(300):
            other.out("job", number)
            if number % 60 == 30:
                server.kill()
                time.sleep(0.2)
                server = self.serve("one", server.port)
        self.gather(other, 300)
        other.out("stop")
        self.assertEqual(process.wait(PATIENCE), 0)

    def test_kills_lose_nothing(self) -> None:
        """Workers are killed at any moment; each job is done, and none is left anywhere."""
        server = self.serve()
        boss = self.space(server, client=8)
        dice, jobs = random.Random(7), 600
        body, how, template = 'return "done", job[1]', "tries=99", '("job", INT, TRIES)'
        workers = {client: self.worker(server.port, body, how, template, client) for client in (21, 22, 23)}
        putting = Going(lambda: [boss.out("job", number, 0) for number in range(jobs)])
        kills = 0
        while putting.ends.empty() or kills < 12:
            time.sleep(dice.uniform(0.1, 0.3))
            client = dice.choice(sorted(workers))
            workers[client].kill()
            workers[client].wait()
            workers[client] = self.worker(server.port, body, how, template, client)
            kills += 1
        putting.end()
        self.gather(boss, jobs)
        until = time.monotonic() + PATIENCE
        while boss.look("job", ANY, ANY) is not None and time.monotonic() < until:
            time.sleep(0.01)                                    # it failed when its worker was killed, and waits for its next try
        self.assertEqual((boss.look("job", ANY, ANY), boss.look("dead", *[ANY] * 4)), (None, None))

    def test_sigterm_ends_a_function_after_its_grace(self) -> None:
        """Its job is free, and has not failed; a second SIGTERM does at once what it did before. So with a program that uses SIGALRM for something else."""
        server = self.serve()
        other = self.space(server, client=8)
        other.out("job", 1, 0)
        body, how = 'print("begins", flush=True); time.sleep(60)', "tries=1, grace=0.5"
        for setting in ("", "import signal; signal.signal(signal.SIGALRM, print)"):
            process = self.worker(server.port, body, how + (", limit=50" if setting else ""), '("job", INT, TRIES)', setting=setting)
            assert process.stdout
            self.assertEqual(process.stdout.readline(), "begins\n")
            process.terminate()
            self.assertEqual((process.stdout.read(), process.wait(PATIENCE)), ("did 0\nover\n", 0))
            self.assertEqual((other.look("job", INT, INT), self.noted()), (("job", 1, 0), ""))
        process = self.worker(server.port, body, "grace=50", '("job", INT, INT)')
        assert process.stdout
        self.assertEqual(process.stdout.readline(), "begins\n")
        process.terminate()
        time.sleep(0.5)
        self.assertIsNone(process.poll())
        process.terminate()
        self.assertEqual((process.stdout.read(), process.wait(PATIENCE)), ("", -signal.SIGTERM))



class Tries(WithWorkers):
    """Jobs that fail, by an exception, by what they return, by their time, or with their worker."""

    def test_the_count_has_a_place_of_its_own(self) -> None:
        """No number of the job's own changes."""
        space = self.space(self.serve())
        for template, place in ((("job", INT, TRIES), 2), (("job", TRIES, INT), 1), ([In("no", TRIES), In("job", INT, TRIES, TEXT)], 2)):
            wide: Any = ["x"] if template[0] == In("no", TRIES) else []
            jobs = [("job", *((0, number) if place == 1 else (number, 0)), *wide) for number in (1, 9, 4)]
            space.out_many(jobs)
            seen: list = []

            def function(job: Any) -> Any:
                seen.append(job)
                if job[place] == 0 and job[3 - place] in (1, 9):
                    raise ConnectionError("a passing fault")
                return "done", job[3 - place], job[3 - place] ** 2

            self.assertEqual(self.worked(space, function, template, tries=3, delay=0.01), 3)
            self.assertEqual(self.tuples(space, "done", 2), [("done", 1, 1), ("done", 4, 16), ("done", 9, 81)])
            again = [("job", *((1, number) if place == 1 else (number, 1)), *wide) for number in (1, 9)]
            self.assertEqual((seen, self.tuples(space, "dead", 5)), ([*jobs, *again], []))

    def test_a_place_for_the_count_is_for_work_with_tries(self) -> None:
        """All else with TRIES, and `tries` without it, is refused before anything is sent."""
        server = self.serve()
        space, pool = self.space(server), Pool([server.port], range(100, 110))
        self.addCleanup(pool.close)
        space.out("job", 1, 0)
        none: Callable[[Any], Any] = lambda job: None       # noqa: E731
        calls: List[Callable[[], Any]] = [
            *(lambda call=call: call("job", INT, TRIES, timeout=0) for call in (space.take, space.read, space.look, space.purge, pool.take, pool.look)),
            lambda: space.hold("job", INT, TRIES).__enter__(), lambda: space.take_many("job", INT, TRIES, count=1), lambda: space.sync(In("job", INT, TRIES)),
            lambda: space.choose(In("job", INT, TRIES), timeout=0), lambda: space.choose(Choose(Rd("a"), In("job", INT, TRIES).nack(1))),
            lambda: Rd("job", TRIES).wrap(1),
            lambda: In(TRIES), lambda: space.out("job", TRIES),                             # type: ignore[arg-type]
            lambda: space.work(("job", INT, TRIES), none), lambda: space.work([In("a"), In("job", INT, TRIES)], none),
            lambda: space.work(("job", INT, TRIES), none, stop=Rd("stop", TRIES), tries=3),
            lambda: space.work(("job", INT, INT), none, tries=3), lambda: space.work(("job", TRIES, TRIES), none, tries=3),
            lambda: space.work([In("job", INT, TRIES), In("job", INT, INT)], none, tries=3), lambda: space.work(("job", *[INT] * 30, TRIES), none, tries=3)]
        with mock.patch("linda_space.machine.spell_ask", side_effect=AssertionError), mock.patch("linda_space.together.spell_ask", side_effect=AssertionError):
            for call in calls:
                with self.assertRaises(OutOfRange):
                    call()
        self.assertEqual((space.look("job", INT, INT), (self.folder / "of programs").exists()), (("job", 1, 0), False))

    def test_dead_letters_have_the_whole_job(self) -> None:
        space = self.space(self.serve())
        space.out_many([("email", 5, 0), ("sms", 5, 0), ("old", -7), ("wide", *[1] * 29, 8)])

        def function(job: Any) -> Any:
            raise ValueError("no")

        templates = [In("email", INT, TRIES), In("sms", INT, TRIES), In("old", TRIES), In("wide", *[INT] * 29, TRIES)]
        self.assertEqual(self.worked(space, function, templates, tries=1), 0)
        self.assertEqual([self.tuples(space, "dead", count) for count in (3, 4, 32)],
                         [[("dead", "old", 1, "ValueError: no")], [("dead", tag, 5, 1, "ValueError: no") for tag in ("email", "sms")],
                          [("dead", "wide", *[1] * 29, 9, "ValueError: no")]])

    def test_what_a_function_may_not_return_is_a_failure(self) -> None:
        """And so is an error of the library, of another space for example, as long as the worker can go on."""
        server = self.serve()
        space, other = self.space(server), self.space(server, client=8)

        def lost(job: Any) -> Any:
            other.out("lock", 1)
            with other.hold("lock", INT) as lock:
                other._let_go_all()
                lock.renew()

        def refused(job: Any) -> Any:
            raise Refused(0, 6, 0, 7)

        wrong: List[Callable[[Any], Any]] = [lambda job: 7, lambda job: [("a",), 7], lambda job: ("a", 1.5), lost, refused, lambda job: Space([1], 9)]
        names = ("TypeError", "TypeError", "OutOfRange", "Gone", "Refused", "NoConnection")
        for number, (function, name) in enumerate(zip(wrong, names)):
            space.out("job", number, 0)
            self.assertEqual(self.worked(space, function, ("job", INT, TRIES), tries=1), 0)
            dead = space.take("dead", "job", number, 1, TEXT, timeout=0)
            self.assertRegex(str(dead), name)
            with self.assertRaises((SpaceError, TypeError)):                # without tries the job is free again
                space.out("job", number, 0)
                self.worked(space, function, ("job", INT, INT))
            self.assertEqual((space._machine.held, space.take("job", number, 0)), ({}, ("job", number, 0)))

    # ---- a job that ends its worker

    def lives(self, server: Any, body: str, how: str, count: int) -> List[int]:
        """The statuses of so many lives of worker 7, one after another."""
        return [self.worker(server.port, body, "timeout=0.5, " + how, '("job", INT, TRIES)').wait(PATIENCE) for _ in range(count)]

    def test_a_job_that_ends_its_worker(self) -> None:
        server = self.serve()
        other = self.space(server, client=8)
        for number in (7, 8):
            other.out("job", number, 0)
        body, how = 'sys.stdout.flush(); os._exit(9) if job[1] == 7 else None; return "done", job[1]', "tries=2, delay=0.01"
        sha = hashlib.sha256(frames.spell_items("job", [7, 0])).hexdigest()[:32]
        self.assertEqual((self.lives(server, body, how, 1), self.noted(), other.look("done", INT)), ([9], f"1 {sha} {server.port}\n", None))
        (file,) = (self.folder / "of programs").iterdir()
        self.assertEqual(file.name, hashlib.sha256(f"ports {server.port}".encode()).hexdigest()[:32] + "-7.job")
        self.assertEqual((self.lives(server, body, how, 1), other.take("done", INT), other.look("job", INT, INT)), ([9], ("done", 8), ("job", 7, 1)))
        self.assertEqual((self.lives(server, body, how, 2), self.noted()), ([0, 0], ""))
        self.assertEqual(self.tuples(other, "dead", 4), [("dead", "job", 7, 2, "the worker ended")])

    def test_exit_in_a_function_ends_a_life_too(self) -> None:
        server = self.serve()
        other = self.space(server, client=8)
        other.out("job", 7, 0)
        self.assertEqual(self.lives(server, "sys.exit(3)", "tries=1", 2), [3, 0])
        self.assertEqual(self.tuples(other, "dead", 4), [("dead", "job", 7, 1, "the worker ended")])

    def test_several_such_jobs_and_one_worker(self) -> None:
        """Each is counted though the next one ends the worker before its delay is over, and all others are done."""
        server = self.serve()
        other = self.space(server, client=8)
        other.out_many([("job", number, 0) for number in range(9)])
        body = 'os._exit(9) if job[1] < 2 else None; return "done", job[1]'
        self.assertEqual(self.lives(server, body, "tries=2, delay=0.3", 5), [9, 9, 9, 9, 0])
        self.assertEqual(self.tuples(other, "dead", 4), [("dead", "job", number, 2, "the worker ended") for number in (0, 1)])
        self.assertEqual((self.tuples(other, "done", 1), self.tuples(other, "job", 2)), ([("done", number) for number in range(2, 9)], []))

    def note(self, space: Space, text: str) -> Path:
        """Writes the note of the space's number."""
        file = self.folder / "of programs" / f"{space._numbers.key(space._ports)}-{space.client}.job"
        file.parent.mkdir(exist_ok=True)
        file.write_text(text)
        return file

    def test_only_the_very_job_is_counted(self) -> None:
        server = self.serve()
        space = self.space(server)
        sha, port = hashlib.sha256(frames.spell_items("job", [1, 0])).hexdigest()[:32], server.port
        notes = ["", "\n", f"{{id}} {sha} {port}", f"{{next}} {sha} {port}\n", f"{{id}} {sha[::-1]} {port}\n", f"{{id}} {sha} {port + 1}\n",
                 f"0{{id}} {sha} {port}\n", f"-{{id}} {sha} {port}\n", f"{{id}} {sha} {port}\n", f"\n{{id}} {sha} {port}\n left of a longer one"]
        for place, words in enumerate(notes):
            (_, id), seen = space.out("job", 1, 0), []
            file = self.note(space, words.format(id=id, next=id + 1))
            self.assertEqual(self.worked(space, lambda job: seen.append(job), ("job", INT, TRIES), tries=3, delay=0.01), 1)
            self.assertEqual(seen, [("job", 1, 1 if place >= 8 else 0)])
            self.assertNotRegex(file.read_text(), "[0-9a-f]{32}[^\n]*\n")

    def test_the_noted_job_comes_before_all_others(self) -> None:
        """Those that are looked at before it are free again."""
        left, right = self.serve("left"), self.serve("right")
        space, other = self.space(left, right), self.space(left, right, client=8)
        places = dict(zip(range(8), other.out_many([("job", number, 0) for number in range(8)])))
        seen: list = []
        noted = next(number for number in range(7, -1, -1) if places[number][0] == 1)
        sha = hashlib.sha256(frames.spell_items("job", [noted, 0])).hexdigest()[:32]
        self.note(space, f"{places[noted][1]} {sha} {right.port}\n")

        def function(job: Any) -> Any:
            if not seen:
                self.assertEqual(other.look("dead", *[ANY] * 4), ("dead", "job", noted, 1, "the worker ended"))
            seen.append(job)

        self.assertEqual(self.worked(space, function, [In("none", TRIES), In("job", INT, TRIES)], tries=1), 7)
        self.assertEqual((sorted(seen), self.tuples(other, "job", 2)), ([("job", number, 0) for number in range(8) if number != noted], []))

    def test_a_noted_job_that_somebody_else_has(self) -> None:
        server = self.serve()
        space, other = self.space(server), self.space(server, client=8)
        (_, id), seen = other.out("job", 1, 0), []
        other.out("job", 2, 0)
        file = self.note(space, f"{id} {hashlib.sha256(frames.spell_items('job', [1, 0])).hexdigest()[:32]} {server.port}\n")

        def function(job: Any) -> Any:
            seen.append(job)
            lock.release()

        with other.hold("job", 1, 0) as lock:
            self.assertEqual(self.worked(space, function, ("job", INT, TRIES), tries=3), 2)
        self.assertEqual((seen, file.read_text().strip(" ")), ([("job", 2, 0), ("job", 1, 1)], ""))

    def test_the_note_ends_with_the_job(self) -> None:
        """However it ends, as long as this process sees it; the file is written over, and not made anew."""
        server = self.serve()
        space, other = self.space(server), self.space(server, client=8)
        notes: list = []

        def function(job: Any) -> Any:
            notes.append(self.noted())
            if job[1] == 1:
                raise ValueError
            if job[1] == 2:
                raise KeyboardInterrupt
            if job[1] == 3:
                space._release(next(iter(space._machine.held.values())))
                other.take("job", INT, INT)

        for number in range(4):
            _, id = other.out("job", number, 0)
            try:
                self.worked(space, function, ("job", INT, TRIES), tries=1)
            except KeyboardInterrupt:
                pass
            sha = hashlib.sha256(frames.spell_items("job", [number, 0])).hexdigest()[:32]
            self.assertEqual((notes[number], self.noted(), (self.folder / "of programs").stat().st_nlink), (f"{id} {sha} {server.port}\n", "", 2))
            other.purge("job", INT, INT)

    def test_no_folder_for_notes(self) -> None:
        space = self.space(self.serve())
        (self.folder / "of programs").write_text("")
        for number in range(3):
            space.out("job", number, 0)
        with logged("notes") as words:
            self.assertEqual(self.worked(space, lambda job: None, ("job", INT, TRIES), tries=1), 3)
        self.assertEqual(len(words), 1, words)

    def test_no_room_for_notes(self) -> None:
        space = self.space(self.serve())
        for number in range(3):
            space.out("job", number, 0)
        with logged("notes") as words, mock.patch.object(os, "pwrite", side_effect=OSError(errno.ENOSPC, "none is left")):
            self.assertEqual(self.worked(space, lambda job: None, ("job", INT, TRIES), tries=1), 3)
        self.assertEqual(len(words), 1, words)

    def test_no_file_without_tries(self) -> None:
        space = self.space(self.serve())
        space.out("job", 1)
        self.assertEqual((self.worked(space, lambda job: None), (self.folder / "of programs").exists()), (1, False))

    def test_many_workers_and_one_such_job(self) -> None:
        server, jobs = self.serve(), 40
        boss = self.space(server, client=8)
        boss.out_many([("job", number, 0) for number in range(jobs)])
        body, how = 'time.sleep(0.02); os._exit(9) if job[1] == 0 else None; return "done", job[1]', 'tries=2, delay=0.1, stop=Rd("stop")'
        start: Callable[[int], Any] = lambda client: self.worker(server.port, body, how, '("job", INT, TRIES)', client)     # noqa: E731
        workers, dead = {client: start(client) for client in (21, 22, 23)}, None
        while dead is None:
            dead = boss.take("dead", *[ANY] * 4, timeout=0.05)
            workers = {client: start(client) if process.poll() is not None else process for client, process in workers.items()}
        self.assertEqual(dead, ("dead", "job", 0, 2, "the worker ended"))
        done = {boss.take("done", INT, timeout=PATIENCE) for _ in range(jobs - 1)}
        boss.out("stop")
        self.assertEqual([process.wait(PATIENCE) for process in workers.values()], [0, 0, 0])
        self.assertEqual((done, boss.look("done", INT), boss.look("job", INT, INT)), ({("done", number) for number in range(1, jobs)}, None, None))

    # ---- time

    def test_a_limit_in_the_main_thread(self) -> None:
        space = self.space(self.serve())
        before = signal.getsignal(signal.SIGALRM)
        for number in range(3):
            space.out("job", number, 0)

        def function(job: Any) -> Any:
            try:
                time.sleep(PATIENCE if job[1] == 1 else 0.01)
            except Exception:                       # the limit is none of these
                pass
            return "done", job[1]

        began = time.monotonic()
        self.assertEqual(self.worked(space, function, ("job", INT, TRIES), tries=1, limit=0.5), 2)
        self.assertLess(time.monotonic() - began, PATIENCE / 2)
        dead = [("dead", "job", 1, 1, "the limit of 0.5 s")]
        self.assertEqual((self.tuples(space, "done", 1), self.tuples(space, "dead", 4)), ([("done", 0), ("done", 2)], dead))
        self.assertEqual((signal.getsignal(signal.SIGALRM), signal.getitimer(signal.ITIMER_REAL)), (before, (0.0, 0.0)))
        space.out("job", 1, 0)
        with self.assertRaisesRegex(TimeoutError, "the limit of 0.5 s"):
            self.worked(space, function, ("job", INT, INT), limit=0.5)
        self.assertEqual((signal.getsignal(signal.SIGALRM), space.take("job", INT, INT, timeout=0)), (before, ("job", 1, 0)))

    def test_a_limit_in_a_call_of_the_same_space(self) -> None:
        """Its connections end with the function, and the job is found again and counted."""
        server = self.serve()
        space, other = self.space(server), self.space(server, client=8)
        other.out_many([("job", number, 0) for number in range(3)])

        def function(job: Any) -> Any:
            if job[1] == 1:
                space.take("never")
            return "done", job[1]

        self.assertEqual(self.worked(space, function, ("job", INT, TRIES), tries=2, delay=0.01, limit=0.3), 2)
        dead = [("dead", "job", 1, 2, "the limit of 0.3 s")]
        self.assertEqual((self.tuples(other, "done", 1), self.tuples(other, "dead", 4)), ([("done", 0), ("done", 2)], dead))

    def limited_beside(self, work: Callable[[Space, Any], int]) -> None:
        """What such a function returns late is not put, and other jobs are done meanwhile."""
        server = self.serve()
        space, other = self.space(server), self.space(server, client=8)
        goes, threads = threading.Event(), []
        for number in range(3):
            other.out("job", number, 0)

        def function(job: Any) -> Any:
            threads.append(threading.current_thread())
            if job[1] == 2:
                raise ValueError("two")
            if job[1] == 1:
                goes.wait(PATIENCE)
            return "done", job[1]

        self.assertEqual(work(space, function), 1)
        dead = [("dead", "job", 1, 1, "the limit of 0.3 s"), ("dead", "job", 2, 1, "ValueError: two")]
        self.assertEqual((self.tuples(other, "done", 1), self.tuples(other, "dead", 4)), ([("done", 0)], dead))
        goes.set()
        for thread in threads:
            thread.join(PATIENCE)
        self.assertEqual((len(set(threads)), other.look("done", INT)), (3, None))

    def test_a_limit_in_another_thread(self) -> None:
        def work(space: Space, function: Any) -> int:
            return int(Going(lambda: self.worked(space, function, ("job", INT, TRIES), tries=1, limit=0.3)).end())

        self.limited_beside(work)

    def test_a_limit_beside_an_alarm_of_the_program(self) -> None:
        own: Callable[[int, Any], None] = lambda number, frame: None         # noqa: E731
        self.addCleanup(signal.signal, signal.SIGALRM, signal.signal(signal.SIGALRM, own))
        self.limited_beside(lambda space, function: self.worked(space, function, ("job", INT, TRIES), tries=1, limit=0.3))
        self.assertIs(signal.getsignal(signal.SIGALRM), own)

    def test_the_hold_of_a_function_that_cannot_be_ended(self) -> None:
        """It is not renewed after its limit, so that the lease frees the job, and nothing is put for it."""
        server = self.serve("one", 0, "--lease", "2")
        space, other = self.space(server), self.space(server, client=8)
        other.out("job", 1, 0)
        taken: list = []

        def function(job: Any) -> Any:
            signal.pthread_sigmask(signal.SIG_BLOCK, [signal.SIGALRM])
            try:
                taken.append(other.take("job", INT, INT, timeout=PATIENCE))
            finally:
                signal.pthread_sigmask(signal.SIG_UNBLOCK, [signal.SIGALRM])
            return "done", job[1]

        self.assertEqual(self.worked(space, function, ("job", INT, TRIES), tries=9, limit=0.5), 0)
        self.assertEqual((taken, other.look("done", INT), other.look("job", INT, INT), other.look("dead", *[ANY] * 4)), ([("job", 1, 0)], None, None, None))

    def test_a_job_that_waits_is_renewed_while_another_is_late(self) -> None:
        """Also if the function of that cannot be ended."""
        server = self.serve("one", 0, "--lease", "2")
        space, other = self.space(server), self.space(server, client=8)
        other.out("job", 1, 0)
        other.out("job", 2, 0)
        seen: list = []

        def function(job: Any) -> Any:
            seen.append(job)
            if job == ("job", 1, 0):
                raise ValueError
            if job == ("job", 2, 0):
                taking = Going(lambda: seen.append(other.take("job", 1, INT, timeout=5)))
                signal.pthread_sigmask(signal.SIG_BLOCK, [signal.SIGALRM])
                try:
                    taking.end()
                finally:
                    signal.pthread_sigmask(signal.SIG_UNBLOCK, [signal.SIGALRM])
            return "done", job[1]

        self.assertEqual(self.worked(space, function, ("job", INT, TRIES), tries=9, delay=0.5, limit=0.4), 2)
        self.assertEqual(seen, [("job", 1, 0), ("job", 2, 0), None, ("job", 1, 1), ("job", 2, 1)])


if __name__ == "__main__":
    test_linda_space.main()
