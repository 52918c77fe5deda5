#!/usr/bin/env python3
"""The tests of what linda_space does several at a time: `out_many`, `take_many`, `purge`, `Pool` and `linda_space.aio`, over servers of the program and over
servers that end a connection in the middle.

    clients/python/test_together.py [TEST..]

The program is the one that LINDA names, `linda` at the top of the repository if it is not set.
"""

from __future__ import annotations

import asyncio
import logging
import os
import random
import signal
import socket
import ssl
import subprocess
import sys
import textwrap
import threading
import time
import unittest
import weakref
from collections import deque
from contextlib import ExitStack
from types import SimpleNamespace
from typing import Any, Awaitable, Callable, List, Tuple
from unittest import mock

from test_linda_space import PATIENCE, Going, OverPairs, WithServers, frames, handed, logged, refusal, stored, welcome
import test_linda_space

from linda_space.pool import Lent
from linda_space import (
    ANY, INT, TEXT, TRIES, Busy, Closed, Gone, In, NoConnection, NoNumber, NumberInUse, OutOfRange, Pool, Rd, Refused, Restored, Space, TimedOut, aio)



def setUpModule() -> None:
    """What is logged of failures that are wanted here is not printed."""
    test_linda_space.setUpModule()
    logging.disable(logging.CRITICAL)


OFFER, TAKEN = b"\x13", b"\x15"
# The seconds in which what is woken goes on, beside other work.
SOON = 15
FULL, GAP, OLD = 6, 5, 4


class Many(WithServers):
    """Over servers of the program."""

    def test_outs_and_takes(self) -> None:
        space = self.space(self.serve())
        places = space.out_many([("job", number) for number in range(300)])
        self.assertEqual(places, [(0, 1 + number) for number in range(300)])
        self.assertEqual(space.take("job", 0), ("job", 0))
        self.assertEqual(space.take_many("job", INT, count=70), [("job", number) for number in range(1, 71)])
        self.assertEqual([space.take_many("job", 299, count=5), space.take_many("job", TEXT, count=5), space.take_many("job", INT, count=0)], [[("job", 299)], [], []])
        self.assertEqual((space.purge("job", INT), space.purge("job", INT), space.look("job", INT), space.out_many([])), (228, 0, None, []))
        self.assertEqual(space.out("a"), (0, 301))

    def test_over_three_servers(self) -> None:
        servers = [self.serve(name) for name in ("left", "middle", "right")]
        space = self.space(*servers, client=8)
        self.assertEqual(space.out_many([("job", number) for number in range(200)]), [((8 + number) % 3, 1 + number // 3) for number in range(200)])
        self.assertEqual(space.out("job", 200), (1, 67))
        taken = space.take_many("job", INT, count=150)
        self.assertEqual((len(set(taken)), space.purge("job", INT)), (150, 51))

    def test_what_is_held_stays(self) -> None:
        space = self.space(self.serve())
        space.out_many([("job", number) for number in range(100)])
        holds = [space.hold("job", number) for number in range(10)]
        offers = [hold.__enter__() for hold in holds]
        self.assertEqual(space.purge("job", INT), 90)
        self.assertEqual([offer.accept() for offer in offers], [("job", number) for number in range(10)])

    def test_no_room_for_an_ask(self) -> None:
        """It is refused, and what is held stays so."""
        space = self.space(self.serve())
        space.out_many([("job", number) for number in range(64)])
        offers = [space.hold("job", number).__enter__() for number in range(64)]
        for call in (lambda: space.take_many("none", count=3), lambda: space.purge("none"), lambda: space.take("none", timeout=0)):
            with self.assertRaisesRegex(Refused, "TooManyAsks"):
                call()
        self.assertEqual((space.pending, space.out("a"), all(offer.is_held for offer in offers)), (None, (0, 65), True))
        offers[0].release()
        self.assertEqual(space.take_many("job", INT, count=3), [("job", 0)])

    def test_wrong_values(self) -> None:
        space = self.space(self.serve())
        for wrong in ([("a", 1.5)], [()], ["ab"], [("a", *range(33))], [7]):
            with self.assertRaises((OutOfRange, TypeError)):
                space.out_many([("b",), *wrong])        # type: ignore[list-item]
        self.assertEqual(space.look("b"), None)
        for count in (-1, 1.5, None):
            with self.assertRaises(OutOfRange):
                space.take_many("a", count=count)       # type: ignore[arg-type]

    def test_a_store_without_room(self) -> None:
        """Full is for the tuple that has no room and those after it."""
        server = self.serve()
        space = self.space(server)
        with self.assertRaises(OutOfRange):
            space.out_many([("big", "x" * 4_096)])
        text = "x" * 4_000
        space.out_many([("big", *[text] * 32) for _ in range(100)])
        self.assertEqual(space.purge("big", *[TEXT] * 32), 100)

    def test_an_interrupt(self) -> None:
        server = self.serve()
        space = self.space(server)
        server.stop()
        putting = Going(lambda: space.out_many([("job", number) for number in range(200)], timeout=0.3))
        with self.assertRaises(TimedOut) as caught:
            putting.end()
        self.assertEqual((caught.exception.pending, caught.exception.servers), ("out_many", (0,)))
        with self.assertRaises(Busy):
            space.out("a")
        server.go_on()
        self.assertEqual(space.again(), [(0, 1 + number) for number in range(200)])
        self.assertEqual(space.purge("job", INT), 200)

    def test_kills_in_the_middle(self) -> None:
        """A server is killed again and again while many go: each tuple is there once, as the results say."""
        server = self.serve()
        space = self.space(server)
        for turn in range(6):
            tuples = [("job", turn, number, "x" * 200) for number in range(3_000)]
            putting = Going(lambda: space.out_many(tuples))
            time.sleep(0.02 + 0.01 * turn)
            server.kill()
            server = self.serve("one", server.port)
            places = putting.end()
            self.assertTrue(all(place is not None for place in places))
            ids = [place[1] for place in places if place[1] is not None]
            self.assertEqual(len(set(ids)), len(ids))
            taking = Going(lambda: space.take_many("job", turn, INT, TEXT, count=3_000))
            time.sleep(0.02 + 0.01 * turn)
            server.kill()
            server = self.serve("one", server.port)
            taken = taking.end()
            self.assertEqual((len(taken), sorted(taken)), (3_000, tuples))
        self.assertEqual(space.purge("job", ANY, ANY, ANY), 0)


class Cut(OverPairs):
    """Over servers that end the connection at a place of the script."""

    def pieces(self, *connections: Tuple[int, Callable[[socket.socket], None]]) -> Space:
        """A space, and a server that welcomes with a last number and then does a script, one for each connection."""
        space = Space([1], 7, connect=self.connections(*connections))
        self.addCleanup(space.close)
        return space

    def connections(self, *connections: Tuple[int, Callable[[socket.socket], None]]) -> Callable[[Any], socket.socket]:
        """A function that makes these connections; it makes none once all are made, nor, but for the first, before `may_connect`."""
        made: List[socket.socket] = []
        self.may_connect = True
        self.faults: List[BaseException] = []

        def connect(_: Any) -> socket.socket:
            if len(made) == len(connections) or made and not self.may_connect:
                raise ConnectionRefusedError
            last, script = connections[len(made)]
            ours, theirs = socket.socketpair()
            made.append(ours)
            ours.settimeout(PATIENCE)
            ours.sendall(welcome(last))
            threading.Thread(target=self.play, args=(ours, script), daemon=True).start()
            return theirs

        return connect

    def play(self, ours: socket.socket, script: Callable[[socket.socket], None]) -> None:
        try:
            self.expect(ours, frames.hello(7, False))
            script(ours)
        except BaseException as fault:
            self.faults.append(fault)
        ours.close()

    def expect(self, ours: socket.socket, data: bytes) -> None:
        found = b""
        while len(found) < len(data):
            piece = ours.recv(len(data) - len(found))
            assert piece, f"the end, after {found.hex()}"
            found += piece
        assert found == data, f"found {found.hex()}, not {data.hex()}"

    def outs(self, first: int, numbers: range) -> bytes:
        return b"".join(frames.out(first + number, "a", number) for number in numbers)

    def test_a_loss_at_each_place_of_outs(self) -> None:
        """Of 5 outs `done` were done and `answered` answered when the connection ended."""
        for done in range(6):
            for answered in range(done + 1):
                def first(ours: socket.socket) -> None:
                    self.expect(ours, self.outs(1, range(5)))
                    ours.sendall(b"".join(stored(1 + number, 10 + number) for number in range(answered)))
                    if answered == 5:
                        ours.recv(1)

                def second(ours: socket.socket) -> None:
                    again = range(max(answered, done - 1), 5)
                    self.expect(ours, self.outs(1, again))
                    ours.sendall(b"".join(stored(1 + number, 10 + number) for number in again))
                    ours.recv(1)

                with self.subTest(done=done, answered=answered):
                    space = self.pieces((0, first), (done, second))
                    places = space.out_many([("a", number) for number in range(5)])
                    self.assertEqual(places, [(0, None if answered <= number < done - 1 else 10 + number) for number in range(5)])
                    self.assertEqual(self.faults, [])
                    space.close()

    def test_another_program_in_the_middle_of_outs(self) -> None:
        for last, error in ((6, NumberInUse), (9, NumberInUse)):
            space = self.pieces((0, lambda ours: self.expect(ours, self.outs(1, range(5)))), (last, lambda ours: None))
            with self.assertRaises(error):
                space.out_many([("a", number) for number in range(5)])
        space = self.pieces((0, lambda ours: (self.expect(ours, self.outs(1, range(5))), ours.sendall(stored(1, 10) + handed(TAKEN, 2, 3, "a")), ours.recv(1))))  # type: ignore[func-returns-value,arg-type,return-value]
        with self.assertRaises(NumberInUse):
            space.out_many([("a", number) for number in range(5)])

    def test_a_refusal_in_the_middle_of_outs(self) -> None:
        def script(ours: socket.socket) -> None:
            self.expect(ours, self.outs(1, range(5)))
            ours.sendall(stored(1, 10) + refusal(FULL, 0) + refusal(GAP, 1) * 3)
            self.expect(ours, frames.out(2, "b"))
            ours.sendall(stored(2, 11))
            ours.recv(1)

        space = self.pieces((0, script))
        with self.assertRaises(Refused) as caught:
            space.out_many([("a", number) for number in range(5)])
        self.assertEqual((caught.exception.name, caught.exception.stored, space.pending), ("Full", [(0, 10), None, None, None, None], None))
        self.assertEqual((space.out("b"), self.faults), ((0, 11), []))

    def test_a_server_that_is_down_in_the_middle_of_outs(self) -> None:
        def first(ours: socket.socket) -> None:
            self.expect(ours, self.outs(1, range(5)))
            ours.sendall(stored(1, 10) + refusal(8, 0))
            ours.recv(1)

        def second(ours: socket.socket) -> None:
            self.expect(ours, self.outs(1, range(2, 5)))
            ours.sendall(b"".join(stored(1 + number, 10 + number) for number in range(2, 5)))
            ours.recv(1)

        space = self.pieces((0, first), (3, second))
        with self.assertRaises(Refused) as caught:
            space.out_many([("a", number) for number in range(5)])
        self.assertEqual((caught.exception.name, caught.exception.pending), ("Down", "out_many"))
        self.assertEqual(space.again(), [(0, 10), (0, None), (0, 12), (0, 13), (0, 14)])
        self.assertEqual(self.faults, [])

    def asks(self, first: int, count: int) -> bytes:
        return b"".join(frames.ask(first + number, True, "a", frames.INT) for number in range(count)) + frames.accept(0, 0, 0)

    def test_a_loss_at_each_place_of_takes(self) -> None:
        """Of 4 Accepts `done` were done and `answered` answered when the connection ended."""
        for done in range(5):
            for answered in range(done + 1):
                def first(ours: socket.socket) -> None:
                    self.expect(ours, self.asks(1, 4))
                    ours.sendall(b"".join(handed(OFFER, 1 + number, 10 + number, "a", number) for number in range(4)) + refusal(OLD, 0))
                    self.expect(ours, b"".join(frames.accept(1 + number, 1 + number, 10 + number) for number in range(4)))
                    ours.sendall(b"".join(handed(TAKEN, 1 + number, 10 + number, "a", number) for number in range(answered)))
                    if answered == 4:
                        ours.recv(1)

                def second(ours: socket.socket) -> None:
                    left = 4 - done
                    if left:
                        self.expect(ours, self.asks(5, left))
                        ours.sendall(b"".join(handed(OFFER, 5 + number, 20 + number, "a", 9 + number) for number in range(left)) + refusal(OLD, 0))
                        self.expect(ours, b"".join(frames.accept(done + 1 + number, 5 + number, 20 + number) for number in range(left)))
                        ours.sendall(b"".join(handed(TAKEN, done + 1 + number, 20 + number, "a", 9 + number) for number in range(left)))
                    ours.recv(1)

                with self.subTest(done=done, answered=answered):
                    space = self.pieces((0, first), (done, second))
                    taken = space.take_many("a", INT, count=4)
                    self.assertEqual(taken, [("a", number) for number in range(done)] + [("a", 9 + number) for number in range(4 - done)])
                    self.assertEqual(self.faults, [])
                    space.close()

    def test_an_error_in_the_middle_of_takes(self) -> None:
        """What was taken is what `again` returns."""
        def first(ours: socket.socket) -> None:
            self.expect(ours, self.asks(1, 3))
            ours.sendall(b"".join(handed(OFFER, 1 + number, 10 + number, "a", number) for number in range(3)) + refusal(OLD, 0))
            self.expect(ours, b"".join(frames.accept(1 + number, 1 + number, 10 + number) for number in range(3)))
            ours.sendall(handed(TAKEN, 1, 10, "a", 0))
            time.sleep(0.4)

        def second(ours: socket.socket) -> None:
            self.expect(ours, frames.out(3, "b"))
            ours.sendall(stored(3, 30))
            ours.recv(1)

        space = self.pieces((0, first), (2, second))
        with self.assertRaises(TimedOut) as caught:
            space.take_many("a", INT, count=3, timeout=0.2)
        self.assertEqual(caught.exception.pending, "take_many")
        with self.assertRaises(Busy):
            space.out("b")
        self.assertEqual((space.again(), space.pending, space.out("b"), self.faults), ([("a", 0), ("a", 1)], None, (0, 30), []))

    def test_nothing_is_pending_if_nothing_was_taken(self) -> None:
        space = self.pieces((0, lambda ours: time.sleep(0.4)), (0, lambda ours: ours.recv(1) and None))
        with self.assertRaises(TimedOut) as caught:
            space.purge("a", INT, timeout=0.1)
        self.assertEqual((caught.exception.pending, space.pending), (None, None))


    def test_what_was_taken_by_a_call_that_raised_is_put_back(self) -> None:
        """It is that of a pool's member."""
        def first(ours: socket.socket) -> None:
            self.expect(ours, frames.ask(1, True, "job", frames.INT))
            ours.sendall(handed(OFFER, 1, 5, "job", 9))
            self.expect(ours, frames.accept(1, 1, 5))

        def second(ours: socket.socket) -> None:
            self.expect(ours, frames.accept(1, 1, 5))
            ours.sendall(handed(TAKEN, 1, 5, "job", 9))
            self.expect(ours, frames.out(2, "job", 9))
            ours.sendall(stored(2, 6))
            self.expect(ours, frames.out(3, "b"))
            ours.sendall(stored(3, 7))
            ours.recv(1)

        connect = self.connections((0, first), (1, second))
        self.may_connect = False
        with Pool([1], [7], size=1, connect=connect, patience=0.3) as pool:
            with self.assertRaises(NoConnection) as caught:
                pool.take("job", INT)
            self.assertEqual(caught.exception.pending, "sync")
            self.may_connect = True
            self.assertEqual((pool.out("b"), self.faults), ((0, 7), []))

    def owing(self, second: Callable[[socket.socket], None]) -> Callable[[Any], socket.socket]:
        """A function that connects to a server whose first connection ends when a tuple is just being taken."""
        def first(ours: socket.socket) -> None:
            self.expect(ours, frames.ask(1, True, "job", frames.INT))
            ours.sendall(handed(OFFER, 1, 5, "job", 9))
            self.expect(ours, frames.accept(1, 1, 5))

        connect = self.connections((0, first), (1, second))
        self.may_connect = False
        return connect

    def put_back(self, ours: socket.socket) -> None:
        self.expect(ours, frames.accept(1, 1, 5))
        ours.sendall(handed(TAKEN, 1, 5, "job", 9))
        self.expect(ours, frames.out(2, "job", 9))
        self.puts.append(9)
        ours.sendall(stored(2, 6))
        ours.recv(1)

    def test_a_pool_that_is_closed_puts_back(self) -> None:
        """Only the call that raises has a short patience."""
        self.puts: List[int] = []
        pool = Pool([1], [7], size=1, connect=self.owing(self.put_back), patience=PATIENCE)
        with mock.patch.object(pool._members[0], "_patience", 0.3), self.assertRaises(NoConnection):
            pool.take("job", INT)
        self.may_connect = True
        with logged("pool") as words, mock.patch("linda_space.pool.FINISH", PATIENCE):
            pool.close()
            pool.close()
        self.assertEqual((self.puts, words, self.faults), ([9], [], []))

        async def course() -> None:
            async with aio.Pool([1], [7], size=1, connect=self.owing(self.put_back), patience=PATIENCE) as pool:
                async with pool._lent(None) as (member, _):
                    pass
                with mock.patch.object(member._inner, "_patience", 0.3), self.assertRaises(NoConnection):
                    await pool.take("job", INT)
                self.may_connect = True

        with logged("pool") as words, mock.patch("linda_space.aio.FINISH", PATIENCE):
            run(course)
        self.assertEqual((self.puts, words, self.faults), ([9, 9], [], []))

    def test_a_pool_that_is_closed_says_what_it_cannot_put_back(self) -> None:
        """Its server is away; or it does not answer, for which the pool waits for a bounded time."""
        says = ["a pool closes client 7, which has sync pending: its last reply says what became of it"]
        waits = lambda ours: (self.expect(ours, frames.accept(1, 1, 5)), ours.recv(1)) and None     # noqa: E731
        with mock.patch("linda_space.pool.FINISH", 0.6), mock.patch("linda_space.aio.FINISH", 0.6):
            for is_there in (False, True):
                pool = Pool([1], [7], size=1, connect=self.owing(waits), patience=0.3)
                with self.assertRaises(NoConnection):
                    pool.take("job", INT)
                self.may_connect, pool._members[0]._patience = is_there, PATIENCE if is_there else 0.3
                with logged("a pool closes") as words:
                    began = time.monotonic()
                    pool.close()
                self.assertLess(time.monotonic() - began, PATIENCE / 2)
                self.assertEqual((words, self.faults), (says, []))

                async def course() -> None:
                    async with aio.Pool([1], [7], size=1, connect=self.owing(waits), patience=0.3) as pool:
                        with self.assertRaises(NoConnection):
                            await pool.take("job", INT)
                        self.may_connect, pool._members[0]._inner._patience = is_there, PATIENCE if is_there else 0.3

                with logged("a pool closes") as words:
                    began = time.monotonic()
                    run(course)
                self.assertLess(time.monotonic() - began, PATIENCE / 2)
                self.assertEqual((words, self.faults), (says, []))


class Pools(WithServers):
    def until(self, is_so: Callable[[], bool]) -> None:
        end = time.monotonic() + PATIENCE
        while not is_so():
            self.assertLess(time.monotonic(), end)
            time.sleep(0.001)

    def pool(self, server: Any, numbers: Any = range(100, 132), **how: Any) -> Pool:
        pool = Pool([server.port], numbers, **how)
        self.addCleanup(pool.close)
        return pool

    def test_many_threads(self) -> None:
        server = self.serve()
        pool = self.pool(server, size=8)
        calls = [Going(lambda number=number: pool.out("job", number)) for number in range(200)]     # type: ignore[misc]
        self.assertEqual(sorted(call.end()[1] for call in calls), list(range(1, 201)))
        takes = [Going(lambda: pool.take("job", INT)) for _ in range(200)]
        self.assertEqual(sorted(call.end()[1] for call in takes), list(range(200)))
        with Space([server.port], range(100, 132)) as space:
            self.assertLessEqual(space.client, 108)                 # the pool made no more than 8

    def test_as_many_members_as_are_in_use(self) -> None:
        server = self.serve()
        pool = self.pool(server, size=8)
        pool.out_many([("job", number) for number in range(9)])
        with ExitStack() as held:
            for _ in range(8):
                held.enter_context(pool.hold("job", INT))
            with Space([server.port], range(100, 132)) as space:
                self.assertEqual(space.client, 108)
            late = Going(lambda: pool.take("job", INT))
            time.sleep(0.1)
            self.assertTrue(late.ends.empty())                      # there is no ninth
        self.assertEqual(late.end()[0], "job")

    def test_a_call_that_is_gone_keeps_no_member(self) -> None:
        """An interrupt may come when a call cannot give its member back any more, or has just begun to make one."""
        server = self.serve()
        for is_made, number in ((True, 1), (False, 2)):
            pool = self.pool(server, size=2)
            first, gone = Lent(), Lent()
            pool._lend(first)
            if is_made:
                pool._lend(gone)
            else:
                self.assertIsNone(pool._next_member(gone))
            late = Going(lambda pool=pool: pool.out("job", 1))      # type: ignore[misc]
            time.sleep(0.1)
            self.assertTrue(late.ends.empty())                      # there is no third member
            del gone
            self.assertEqual(late.end(), (0, number))
            self.assertEqual(len(pool._members), 2)
            pool._end_call(first)

    def test_a_hold_has_a_member(self) -> None:
        pool = self.pool(self.serve(), size=2)
        pool.out("job", 1)
        with pool.hold("job", INT) as offer:
            self.assertIsNone(pool.take("job", INT, timeout=0.05))
            waiting = Going(lambda: pool.take("never", timeout=0.5))
            time.sleep(0.1)
            late = Going(lambda: pool.out("late"))                  # there is no third member
            time.sleep(0.1)
            self.assertTrue(late.ends.empty())
            self.assertIsNone(waiting.end())
            self.assertEqual(late.end(), (0, 2))
            self.assertEqual(offer.accept(), ("job", 1))
        with pool.hold("job", INT, timeout=0) as none:
            self.assertIsNone(none)
        self.assertEqual([pool.look("late"), pool.read("late"), pool.choose(Rd("late").wrap(3)).labels, pool.purge("late"), pool.take_many("late", count=3)],
                         [("late",), ("late",), (3,), 1, []])
        self.assertEqual(pool.out_many([("m", 1), ("m", 2)]), [(0, 3), (0, 4)])

    def test_the_wait_for_a_member_is_in_the_time_of_a_call(self) -> None:
        pool = self.pool(self.serve(), size=1)
        pool.out("job", 1)
        with pool.hold("job", INT) as offer:
            for call in (lambda: pool.out("job", 2, timeout=0.2), lambda: pool.take("job", INT, timeout=0), lambda: pool.hold("job", INT, timeout=0.2).__enter__()):
                began = time.monotonic()
                with self.assertRaisesRegex(TimedOut, "no member of the pool was free") as caught:
                    call()
                self.assertEqual((caught.exception.servers, caught.exception.pending), ((), None))
                self.assertLess(time.monotonic() - began, PATIENCE / 2)
            late = Going(lambda: pool.out("job", 3, timeout=PATIENCE))
            offer.accept()
        self.assertEqual(late.end(), (0, 2))
        self.assertEqual(pool.take_many("job", INT, count=3), [("job", 3)])

    def test_a_call_that_is_interrupted_in_its_turn_lets_the_next_one_have_it(self) -> None:
        """Two calls wait for the one member. The first is interrupted just as it has its turn: then the second one has the member, which looks by itself only
        once an hour here."""
        pool = self.pool(self.serve(), size=1)
        pool.out("job", 1)
        firsts: List[threading.Thread] = []

        class Turn:
            """A lock by which a call waits for its turn; that of the first one is interrupted."""

            def __init__(self) -> None:
                self.lock = threading.Lock()

            def acquire(self, timeout: float = -1) -> bool:
                is_mine = self.lock.acquire(timeout=timeout)
                if timeout != -1 and threading.current_thread() in firsts:
                    raise KeyboardInterrupt
                return is_mine

            def release(self) -> None:
                self.lock.release()

        def first() -> Any:
            firsts.append(threading.current_thread())
            return pool.look("nothing")

        hold = pool.hold("job", INT)
        hold.__enter__()
        with mock.patch("linda_space.pool.threading", SimpleNamespace(Lock=Turn)), mock.patch("linda_space.pool.LOOK", 3_600.0):
            calls = []
            for call in (first, lambda: pool.look("nothing")):
                calls.append(Going(call))
                self.until(lambda: len(pool._waiting) == len(calls))
            hold.__exit__(None, None, None)
            with self.assertRaises(KeyboardInterrupt):
                calls[0].end()
            self.assertIsNone(calls[1].end(SOON))

    def test_a_member_whose_call_failed_is_not_lent_at_once(self) -> None:
        """Neither one whose call failed for want of a server, nor one that could not finish what it had pending: for a while others are lent before it."""
        server = self.serve()
        for is_pending in (False, True):
            pool = self.pool(server, size=2)
            pool.out("job", 1)
            with pool.hold("job", INT):
                pool.out("another", 1)                              # (so there are two)
            lent: List[Space] = []

            def look(space: Space, *_: Any, **__: Any) -> None:
                lent.append(space)
                if len(lent) == 1:
                    raise NoConnection(0, 1)

            def finish(space: Space, *_: Any, **__: Any) -> None:
                lent.append(space)
                if len(lent) == 1:
                    raise NoConnection(0, 1)

            patches = mock.patch.object(pool, "_finish", finish) if is_pending else mock.patch.object(Space, "look", look)
            with mock.patch("linda_space.pool.AWAY", 3_600.0), patches:
                with self.assertRaises(NoConnection):
                    pool.look("nothing")
                for _ in range(3):
                    pool.look("nothing")
            self.assertEqual([member is lent[0] for member in lent], [True, False, False, False])

    def test_what_is_pending_is_waited_for_no_longer_than_patience(self) -> None:
        server = self.serve()
        pool = self.pool(server, size=1, patience=0.3)
        pool.out("job", 1)
        server.stop()
        self.addCleanup(server.go_on)
        for _ in range(3):
            began = time.monotonic()
            with self.assertRaises(TimedOut):
                pool.out("job", 2, timeout=0.1)
            self.assertLess(time.monotonic() - began, 8)            # (without a patience of its own a pool waits for ten seconds)

    def test_fewer_numbers_than_members(self) -> None:
        server = self.serve()
        pool = self.pool(server, range(100, 103), size=16, patience=1.0)
        calls = [Going(lambda number=number: pool.out("job", number)) for number in range(50)]      # type: ignore[misc]
        self.assertEqual(len({call.end()[1] for call in calls}), 50)
        with ExitStack() as held:
            for _ in range(3):                                      # all three numbers are in use
                held.enter_context(pool.hold("job", INT))
            with self.assertRaises(NoNumber):
                self.pool(server, range(100, 103), patience=0.3)
        with self.assertRaises(OutOfRange):
            Pool([server.port], 7)

    def test_a_put_that_was_never_sent(self) -> None:
        """The error says so, and of one that was sent that the pool finishes it."""
        server = self.serve()
        pool = self.pool(server, [100, 101], size=1, patience=0.3)
        server.kill()
        gone = f"server 0: no connection to port {server.port}: Connection refused; "
        with self.assertRaises(NoConnection) as sent:
            pool.out("job", 1)
        with self.assertRaises(NoConnection) as unsent:
            pool.out("job", 2)
        with self.assertRaises(NoConnection) as first:
            self.pool(server, [102])
        with mock.patch.object(pool, "_free", []), self.assertRaises(TimedOut) as late:
            pool.out("job", 3, timeout=0.1)
        faults = [sent.exception, unsent.exception, first.exception, late.exception]
        self.assertEqual([(fault.pending, str(fault)) for fault in faults],
                         [("out", gone + "pending: out, the pool finishes it"), (None, gone + "nothing was sent for this call"), (None, gone[:-2]),
                          (None, "the time is up, and no member of the pool was free; nothing was sent for this call")])

        async def course() -> List[Any]:
            async with aio.Pool([server.port], [103], size=1, patience=0.3) as pool:
                try:
                    await pool.out("job", 4)
                except NoConnection as fault:
                    return [fault.pending, str(fault)]
                return []

        self.assertEqual(run(course), [None, gone + "nothing was sent for this call"])
        server = self.serve("one", server.port)
        self.assertEqual((self.retried(lambda: pool.look("job", 1)), pool.take_many("job", INT, count=9)), (("job", 1), [("job", 1)]))

    def retried(self, call: Callable[[], Any]) -> Any:
        """What a call returns once the pool has found that its server is there again."""
        until = time.monotonic() + PATIENCE
        while True:
            try:
                return call()
            except (NoConnection, TimedOut, Refused):
                self.assertLess(time.monotonic(), until)

    def test_nothing_is_put_twice_while_a_server_is_away(self) -> None:
        server = self.serve()
        pool = self.pool(server, size=4, patience=1.0)
        for number in range(8):
            pool.out("warm", number)
        server.kill()
        answered: List[int] = []
        for number in range(6):
            try:
                pool.out("job", number)
                answered.append(number)
            except (NoConnection, TimedOut) as fault:
                self.assertIn(fault.pending, ("out", None))
        self.assertEqual(answered, [])
        server = self.serve("one", server.port)
        until, late = time.monotonic() + PATIENCE, 0
        while late < 8:                                             # all members are used, and finish what they had
            try:
                pool.out("late", late)
                late += 1
            except (NoConnection, TimedOut, Refused):
                self.assertLess(time.monotonic(), until)
        there = [one[1] for one in pool.take_many("job", INT, count=100)]
        self.assertEqual(len(there), len(set(there)))

    def test_close(self) -> None:
        pool = self.pool(self.serve(), size=2)
        waiting = [Going(lambda: pool.take("never")) for _ in range(4)]
        time.sleep(0.3)
        pool.close()
        for call in waiting:
            with self.assertRaises(Closed):
                call.end()
        with self.assertRaises(Closed):
            pool.out("a")
        pool.close()

    def test_close_says_nothing_of_calls_that_wait(self) -> None:
        server = self.serve()
        pool = self.pool(server, size=3)
        waiting = [Going(lambda: pool.take("never")) for _ in range(2)]
        pool.out("a")
        time.sleep(0.3)
        with logged("pool") as words:
            pool.close()
            for call in waiting:
                with self.assertRaises(Closed):
                    call.end()
        self.assertEqual(words, [])

        async def course() -> None:
            pool = aio.Pool([server.port], range(100, 110), size=2)
            task = asyncio.create_task(pool.take("never"))
            await asyncio.sleep(0.2)
            await pool.aclose()
            with self.assertRaises(Closed):
                await task

        with logged("pool") as words:
            run(course)
        self.assertEqual(words, [])

    def test_what_a_member_owes_that_is_dropped_another_puts_back(self) -> None:
        server = self.serve()
        pool, other = self.pool(server, size=2), self.space(server)
        member = pool._members[0]
        pool._owed[member] = deque([("job", 1), ("job", 2)])
        with mock.patch.object(member, "out", side_effect=Restored(0, 1, 2)), self.assertRaises(Restored):
            pool.look("a")
        self.assertIsNone(pool.look("a"))
        self.assertEqual(other.take_many("job", INT, count=5), [("job", 1), ("job", 2)])

        async def course() -> None:
            async with aio.Pool([server.port], range(110, 120), size=2) as pool:
                await pool.look("a")
                member = pool._members[0]
                pool._owed[member] = deque([("job", 1), ("job", 2)])
                with mock.patch.object(member, "out", side_effect=Restored(0, 1, 2)), self.assertRaises(Restored):
                    await pool.look("a")
                self.assertIsNone(await pool.look("a"))
        run(course)
        self.assertEqual(other.take_many("job", INT, count=5), [("job", 1), ("job", 2)])

    def test_close_while_another_thread_puts_back(self) -> None:
        """What it had in hand is there, or is named in the log."""
        server = self.serve()
        pool, other = self.pool(server, size=1), self.space(server)
        member = pool._members[0]
        pool._owed[member] = deque([("job", 1), ("job", 2)])
        put = member.out

        def close(*values: Any, **how: Any) -> Any:
            pool.close()
            return put(*values, **how)

        with logged("pool") as words, mock.patch.object(member, "out", close), self.assertRaises(Closed):
            pool.look("a")
        self.assertEqual((words, other.look("job", INT)), ([f"a pool was to put this back, which it took: ('job', {number})" for number in (1, 2)], None))

    def test_what_an_interrupt_left_is_put_back_by_the_next_call(self) -> None:
        """This holds for any member, though another one was used last."""
        pool = self.pool(self.serve(), size=2)
        with pool.hold("none", timeout=0):
            pool.look("a")                                      # by a second member
        members = [member for member, _ in pool._free]
        for owing, other in (members, reversed(members)):
            pool._free.clear()
            pool._owed[owing] = deque([("job", 1)])
            lent = Lent([owing, other])
            pool._users.update((member, weakref.ref(lent)) for member in lent)
            pool._end_call(lent)
            self.assertEqual((pool.take("job", INT, timeout=0), pool._cut), (("job", 1), set()))

    def test_ctrl_c_where_a_member_is_lent(self) -> None:
        """It is free again, once, wherever the call was interrupted that was about to have it or to make it."""
        pool = self.pool(self.serve(), size=2)

        def interrupt(name: str) -> None:
            call = getattr(pool, name)

            def then(*words: Any) -> Any:
                call(*words)
                raise KeyboardInterrupt

            with mock.patch.object(pool, name, then), self.assertRaises(KeyboardInterrupt):
                pool.look("a")

        for name in ("_take", "_next_member", "_finish", "_lend"):
            interrupt(name)
            self.assertEqual((len(pool._free), len(pool._members), pool._users, pool._making), (1, 1, {}, []), name)
        with pool.hold("none", timeout=0):
            interrupt("_next_member")
            self.assertEqual((len(pool._members), pool._making), (1, []))
            interrupt("_new_member")
        self.assertEqual((len(pool._free), len(pool._members), pool._users, pool._making), (2, 2, {}, []))

    def test_ctrl_c_while_a_tuple_is_put_back(self) -> None:
        """It is put back once."""
        server = self.serve()
        pool, other = self.pool(server, size=1), self.space(server)
        member = pool._members[0]
        put = member.out

        def before(*values: Any, **how: Any) -> Any:
            raise KeyboardInterrupt

        def after(*values: Any, **how: Any) -> Any:
            put(*values, **how)
            raise KeyboardInterrupt

        for place in (before, after):
            pool._owed[member] = deque([("job", 1)])
            with mock.patch.object(member, "out", place), self.assertRaises(KeyboardInterrupt):
                pool.look("a")
            self.assertIsNone(pool.look("a"))
            self.assertEqual((other.take_many("job", INT, count=5), pool._members), ([("job", 1)], [member]))


class Encrypted(WithServers):
    """Over TLS: a proxy with a certificate of its own, which forwards to a server in pieces."""

    def proxy(self, port: int) -> int:
        key, certificate = self.folder / "key", self.folder / "certificate"
        subprocess.run(["openssl", "req", "-x509", "-newkey", "rsa:2048", "-nodes", "-subj", "/CN=linda", "-keyout", str(key), "-out", str(certificate)], check=True,
                       stdin=subprocess.DEVNULL, stdout=subprocess.DEVNULL, stderr=subprocess.DEVNULL)
        context = ssl.SSLContext(ssl.PROTOCOL_TLS_SERVER)
        context.load_cert_chain(certificate, key)
        listener = socket.create_server(("127.0.0.1", 0))
        self.addCleanup(listener.close)
        threading.Thread(target=self.accept, args=(listener, context, port), daemon=True).start()
        self.trusted = ssl.create_default_context(cafile=str(certificate))
        self.trusted.check_hostname = False
        return int(listener.getsockname()[1])

    def accept(self, listener: socket.socket, context: ssl.SSLContext, port: int) -> None:
        while True:
            try:
                stream = listener.accept()[0]
            except OSError:
                return
            try:
                client, server = context.wrap_socket(stream, server_side=True), socket.create_connection(("127.0.0.1", port))
            except OSError:
                continue
            for source, sink in ((client, server), (server, client)):
                threading.Thread(target=self.forward, args=(source, sink), daemon=True).start()

    @staticmethod
    def forward(source: socket.socket, sink: socket.socket) -> None:
        try:
            while piece := source.recv(200_000):
                sink.sendall(piece)
        except OSError:
            pass
        for stream in (source, sink):
            try:
                stream.shutdown(socket.SHUT_RDWR)
            except OSError:
                pass

    def connect(self, port: Any) -> socket.socket:
        return self.trusted.wrap_socket(socket.create_connection(("127.0.0.1", port), timeout=5))

    def test_calls(self) -> None:
        port = self.proxy(self.serve().port)
        with Space([port], 7, connect=self.connect) as space, Space([port], 8, connect=self.connect) as other:
            big = ("big", *["x" * 4_000] * 30)                      # several records of TLS, of which a part waits in the library of TLS
            for number in range(20):
                space.out(*big, number)
                self.assertEqual(other.take("big", *[TEXT] * 30, INT), (*big, number))
            self.assertEqual(space.out_many([(*big, number) for number in range(40)]), [(0, 21 + number) for number in range(40)])
            self.assertEqual(len(other.take_many("big", *[TEXT] * 30, INT, count=40)), 40)
            taking = Going(lambda: other.take("late", timeout=PATIENCE))
            time.sleep(0.2)
            space.out("late")
            self.assertEqual(taking.end(), ("late",))


def run(course: Callable[[], Awaitable[Any]]) -> Any:
    async def whole() -> Any:
        return await asyncio.wait_for(course(), 60)
    return asyncio.run(whole())


class Async(WithServers):
    def test_calls(self) -> None:
        port = self.serve().port

        async def course() -> None:
            async with aio.Space([port], 7) as space:
                self.assertEqual((await space.out("job", 1), space.client), ((0, 1), 7))
                self.assertEqual([await space.look("job", INT), await space.read("job", INT), await space.take("job", INT)], [("job", 1)] * 3)
                self.assertIsNone(await space.take("job", INT, timeout=0.05))
                won = await space.choose(In("job", INT).wrap(5), Rd("stop").nack(9), timeout=0.05)
                self.assertEqual((won.kind, won.raised), ("alarm", (9,)))
                self.assertEqual((await space.sync(space.after(0))).kind, "alarm")
                self.assertEqual(await space.out_many([("m", number) for number in range(100)]), [(0, 2 + number) for number in range(100)])
                self.assertEqual((await space.take_many("m", INT, count=3), await space.purge("m", INT)), ([("m", 0), ("m", 1), ("m", 2)], 97))
                kept = await space.last_reply()
                assert kept is not None
                self.assertEqual(kept.kind, "taken")
                await space.out("job", 2)
                async with space.hold("job", INT) as offer:
                    self.assertEqual((offer.tuple, offer.is_held, await offer.accept(), offer.is_taken), (("job", 2), True, ("job", 2), True))
                await space.out("job", 3)
                async with space.hold("job", INT, timeout=1) as other:
                    assert other is not None
                    other.renew()
                async with space.hold("none", timeout=0) as none:
                    self.assertIsNone(none)
                self.assertEqual(await space.take("job", INT), ("job", 3))
                await space.leave()
        run(course)

    def test_calls_of_a_space_wait_for_each_other(self) -> None:
        port = self.serve().port

        async def course() -> None:
            async with aio.Space([port], 7) as space:
                places = await asyncio.gather(*(space.out("job", number) for number in range(50)))
                self.assertEqual(places, [(0, 1 + number) for number in range(50)])
        run(course)

    def test_a_cancelled_take_loses_nothing(self) -> None:
        server = self.serve()
        other = self.space(server, client=8)

        async def course() -> None:
            async with aio.Space([server.port], 7) as space:
                for number in range(60):
                    task = asyncio.create_task(space.take("job", INT))
                    await asyncio.sleep(0.001 * (number % 7))
                    putting = asyncio.get_running_loop().run_in_executor(None, other.out, "job", number)
                    await asyncio.sleep(0.0002 * (number % 9))
                    task.cancel()
                    await putting
                    try:
                        self.assertEqual(await task, ("job", number))
                    except asyncio.CancelledError:
                        self.assertEqual(await space.take("job", INT, timeout=PATIENCE), ("job", number))
        run(course)

    def test_a_cancelled_out_is_finished_by_the_next_call(self) -> None:
        server = self.serve()

        async def course() -> None:
            async with aio.Space([server.port], 7) as space:
                server.stop()
                task = asyncio.create_task(space.out("job", 1))
                await asyncio.sleep(0.1)
                task.cancel()
                with self.assertRaises(asyncio.CancelledError):
                    await task
                server.go_on()
                self.assertEqual(space.pending, "out")
                self.assertEqual((await space.out("job", 2), await space.purge("job", INT)), ((0, 2), 2))
        run(course)

    def test_a_loss_is_told_once(self) -> None:
        server = self.serve()

        async def course() -> None:
            async with aio.Space([server.port], 7) as space:
                await space.out("lock", 1)
                with self.assertRaises(Gone):
                    async with space.hold("lock", INT):
                        server.kill()
                        self.serve("one", server.port)
                self.assertEqual(await space.take("lock", INT, timeout=PATIENCE), ("lock", 1))
        run(course)

    def test_work(self) -> None:
        server = self.serve()
        other = self.space(server, client=8)
        other.out_many([("job", number, 0) for number in range(20)])

        async def function(job: Any) -> Any:
            await asyncio.sleep(0.01)
            if job[1] == 3:
                raise ValueError("three")
            return "done", job[1]

        async def course() -> int:
            async with aio.Space([server.port], 7) as space:
                return await space.work(("job", INT, TRIES), function, tries=2, delay=0.1, timeout=0.5)

        self.assertEqual(run(course), 19)
        self.assertEqual(({one[1] for one in other.take_many("done", INT, count=50)}, other.take("dead", "job", 3, 2, TEXT, timeout=0)),
                         (set(range(20)) - {3}, ("dead", "job", 3, 2, "ValueError: three")))

    def test_a_limit(self) -> None:
        """The function is cancelled at its limit; one that is no coroutine has failed then, too."""
        server = self.serve()
        other = self.space(server, client=8)
        other.out_many([("job", number, 0) for number in range(5)])
        cancelled: list = []

        async def slow(number: int) -> Any:
            try:
                await asyncio.sleep(PATIENCE)
            except asyncio.CancelledError:
                cancelled.append(number)
                if number == 1:
                    raise
            return "late", number

        def function(job: Any) -> Any:
            if job[1] == 0:
                time.sleep(0.4)
            return slow(job[1]) if job[1] in (1, 2) else ("done", job[1])

        async def course() -> int:
            async with aio.Space([server.port], 7) as space:
                return await space.work(("job", INT, TRIES), function, tries=1, timeout=0.5, limit=0.3)

        self.assertEqual((run(course), cancelled, other.look("late", INT)), (2, [1, 2], None))
        self.assertEqual(([one[1] for one in other.take_many("done", INT, count=9)], other.take_many("dead", *[ANY] * 4, count=9)),
                         ([3, 4], [("dead", "job", number, 1, "the limit of 0.3 s") for number in range(3)]))

    def test_a_work_that_is_cancelled_ends_its_function_first(self) -> None:
        server, ends = self.serve(), []         # type: ignore[var-annotated]
        other = self.space(server, client=8)
        other.out("job", 1, 0)

        async def function(job: Any) -> None:
            try:
                await asyncio.sleep(PATIENCE)
            finally:
                await asyncio.sleep(0.1)
                ends.append("function")

        async def course() -> None:
            async with aio.Space([server.port], 7) as space:
                work = asyncio.ensure_future(space.work(("job", INT, TRIES), function, tries=1))
                await asyncio.sleep(0.3)
                work.cancel()
                try:
                    await work
                except asyncio.CancelledError:
                    ends.append("work")
                self.assertEqual(other.take("job", 1, 0, timeout=PATIENCE), ("job", 1, 0))

        run(course)
        self.assertEqual(ends, ["function", "work"])

    def test_sigterm_ends_a_function_after_its_grace(self) -> None:
        server = self.serve()
        other = self.space(server, client=8)
        other.out("job", 1, 0)
        program = f"""
            import asyncio, os, signal
            from linda_space import INT, TRIES, aio
            async def function(job):
                os.kill(os.getpid(), signal.SIGTERM)
                await asyncio.sleep({PATIENCE})
            async def main():
                async with aio.Space([{server.port}], 7) as space:
                    print(await space.work(("job", INT, TRIES), function, tries=1, grace=0.5), flush=True)
            asyncio.run(main())
        """
        began = time.monotonic()
        done = subprocess.run([sys.executable, "-c", textwrap.dedent(program)], stdout=subprocess.PIPE, stderr=subprocess.DEVNULL, timeout=PATIENCE,
                              env={**os.environ, "PYTHONPATH": str(test_linda_space.HERE)}, universal_newlines=True)
        self.assertEqual((done.returncode, done.stdout, other.look("job", INT, INT)), (0, "0\n", ("job", 1, 0)))
        self.assertLess(time.monotonic() - began, PATIENCE / 2)

    def test_works_at_once_end_in_any_order(self) -> None:
        """SIGTERM lets all of them finish their jobs and return, and does after them what it did before."""
        server = self.serve()
        program = f"""
            import asyncio, os, signal, sys
            from linda_space import INT, aio
            async def function(job):
                await asyncio.sleep(1)
                return "done", job[1]
            async def main():
                async with aio.Space([{server.port}], 7) as one, aio.Space([{server.port}], 8) as two:
                    await one.out("job", 1)
                    first = asyncio.ensure_future(one.work(("none", INT), function, timeout=0.1))
                    await asyncio.sleep(0.05)
                    second = asyncio.ensure_future(two.work(("job", INT), function, timeout=1 if "after" in sys.argv else None))
                    print(await first, flush=True)
                    await asyncio.sleep(0.2)
                    if "after" in sys.argv:
                        print(await second, flush=True)
                    os.kill(os.getpid(), signal.SIGTERM)
                    print(await second, flush=True)
                    os.kill(os.getpid(), signal.SIGTERM)
                    await asyncio.sleep(30)
            asyncio.run(main())
        """
        for words, status, lines in (([], -signal.SIGTERM, "0\n1\n"), (["after"], -signal.SIGTERM, "0\n1\n")):
            done = subprocess.run([sys.executable, "-c", textwrap.dedent(program), *words], stdout=subprocess.PIPE, stderr=subprocess.DEVNULL, timeout=PATIENCE,
                                  env={**os.environ, "PYTHONPATH": str(test_linda_space.HERE)}, universal_newlines=True)
            self.assertEqual((done.returncode, done.stdout), (status, lines))
            self.assertEqual(self.space(server, client=9 + len(words)).take("done", INT, timeout=0), ("done", 1))

    def test_who_looks_at_a_hold_delays_no_answer(self) -> None:
        """What a look reads for the call of another task is seen at once."""
        port = self.serve().port

        async def course() -> int:
            async with aio.Space([port], 7) as space:
                await space.out("lock")
                async with space.hold("lock", keep=0.001) as offer:
                    async def look() -> None:
                        while offer.is_held:
                            await asyncio.sleep(0)

                    looking, late = asyncio.ensure_future(look()), 0
                    for number in range(40):
                        began = time.monotonic()
                        await space.out("a", number)
                        late += time.monotonic() - began > 0.4
                    offer.release()
                    await looking
                    return late

        self.assertLess(run(course), 4)

    def test_a_pool(self) -> None:
        server = self.serve()
        other = self.space(server, client=8)

        async def course() -> None:
            async with aio.Pool([server.port], range(100, 120), size=6) as pool:
                places = await asyncio.gather(*(pool.out("job", number) for number in range(200)))
                self.assertEqual(len({place[1] for place in places}), 200)
                taken = await asyncio.gather(*(pool.take("job", INT) for number in range(200)))
                self.assertEqual(sorted(one[1] for one in taken), list(range(200)))
                tasks = [asyncio.create_task(pool.take("job", INT)) for _ in range(6)]
                await asyncio.sleep(0.2)
                for number in range(6):
                    other.out("job", number)
                for task in tasks:
                    task.cancel()
                ended = await asyncio.gather(*tasks, return_exceptions=True)
                had = [one for one in ended if isinstance(one, tuple)]
                rest = [await pool.take("job", INT, timeout=5) for _ in range(6 - len(had))]
                self.assertEqual(sorted([*had, *rest]), [("job", number) for number in range(6)])
                async with pool.hold("none", timeout=0) as none:
                    self.assertIsNone(none)
                waiting = asyncio.create_task(pool.take("never"))
                await asyncio.sleep(0.1)
                pool.close()
                with self.assertRaises(Closed):
                    await waiting
        run(course)

    def test_wait_for_loses_nothing(self) -> None:
        """Puts and takes with timeouts that are about as long as they last."""
        port, count, dice = self.serve().port, 150, random.Random(5)

        async def course() -> None:
            got: List[int] = []
            is_over = asyncio.Event()
            async with aio.Pool([port], range(100, 140), size=8) as pool:
                async def consume() -> None:
                    while not is_over.is_set():
                        try:
                            got.append((await asyncio.wait_for(pool.take("job", INT), dice.uniform(0.001, 0.006)))[1])
                        except asyncio.TimeoutError:
                            pass

                consumers = [asyncio.create_task(consume()) for _ in range(4)]
                for number in range(count):
                    await pool.out("job", number)
                    await asyncio.sleep(dice.uniform(0, 0.003))
                is_over.set()
                await asyncio.gather(*consumers)
                while len(got) < count:
                    one = await pool.take("job", INT, timeout=20)
                    assert one is not None, f"lost: {sorted(set(range(count)) - set(got))}"
                    got.append(one[1])
                self.assertEqual((sorted(got), await pool.take("job", INT, timeout=0)), (list(range(count)), None))
        run(course)

    def test_the_wait_for_a_member_is_in_the_time_of_a_call(self) -> None:
        port = self.serve().port

        async def course() -> None:
            async with aio.Pool([port], range(100, 110), size=1) as pool:
                await pool.out("job", 1)
                async with pool.hold("job", INT) as offer:
                    for call in (pool.out("job", 2, timeout=0.2), pool.take("job", INT, timeout=0)):
                        with self.assertRaisesRegex(TimedOut, "no member of the pool was free"):
                            await asyncio.wait_for(call, PATIENCE / 2)
                    late = asyncio.create_task(pool.out("job", 3, timeout=PATIENCE))
                    await asyncio.sleep(0.05)
                    self.assertEqual(len(pool._waiting), 1)
                    await offer.accept()
                self.assertEqual(await late, (0, 2))
                self.assertEqual(await pool.take("job", INT, timeout=0), ("job", 3))
        run(course)

    def test_a_call_that_is_cancelled_just_as_it_returns(self) -> None:
        """It returns what it took: nobody else would have it."""
        port = self.serve().port
        take = aio.Space.take

        async def cancelled(space: aio.Space, *words: Any, **how: Any) -> Any:
            found = await take(space, *words, **how)
            task = asyncio.current_task()
            assert task is not None
            asyncio.get_running_loop().call_soon(task.cancel)
            return found

        async def course() -> None:
            async with aio.Pool([port], range(100, 110), size=1) as pool:
                await pool.out("job", 1)
                with mock.patch.object(aio.Space, "take", cancelled):
                    task = asyncio.create_task(pool.take("job", INT))
                    others = [asyncio.create_task(pool.out("other", number)) for number in range(3)]
                    self.assertEqual(await task, ("job", 1))
                await asyncio.gather(*others)
        run(course)

    def test_what_a_cancelled_call_left_is_put_back_by_the_next_one(self) -> None:
        """This holds for any member, though another one was used last."""
        port = self.serve().port

        async def course() -> None:
            async with aio.Pool([port], range(100, 110), size=2) as pool:
                async with pool.hold("none", timeout=0):
                    await pool.look("a")                            # by a second member
                members = list(pool._free)
                for owing, other in (members, reversed(members)):
                    pool._free.clear()
                    pool._owed[owing] = deque([("job", 1)])
                    pool._give_back(owing)
                    pool._give_back(other)
                    self.assertEqual(await pool.take("job", INT, timeout=0), ("job", 1))
        run(course)

    async def all_end(self, *tasks: "asyncio.Task[Any]") -> List[Any]:
        """How the tasks ended; none may hang."""
        _, hanging = await asyncio.wait(tasks, timeout=PATIENCE / 3)
        for task in hanging:
            task.cancel()
        self.assertEqual(len(hanging), 0)
        return await asyncio.gather(*tasks, return_exceptions=True)

    def test_no_call_of_a_pool_waits_for_a_member_that_is_not_made(self) -> None:
        """There is no server, or its ports are no ports: each call raises that."""
        async def course() -> None:
            for ports, error in (([1], NoConnection), ("none", OutOfRange)):
                pool = aio.Pool(ports, range(100, 200), size=2)
                ended = await self.all_end(*(asyncio.create_task(pool.out("job", number)) for number in range(5)))
                self.assertEqual({type(fault) for fault in ended}, {error})
                await pool.aclose()
        run(course)

    def test_close_wakes_who_waits_for_a_member(self) -> None:
        port = self.serve().port

        async def course(is_async: bool) -> None:
            pool = aio.Pool([port], range(100, 200), size=1)
            await pool.out("a")
            tasks = [asyncio.create_task(pool.take("never")) for _ in range(3)]
            await asyncio.sleep(0.1)
            if is_async:
                await pool.aclose()
            pool.close()
            self.assertEqual({type(fault) for fault in await self.all_end(*tasks)}, {Closed})
            await pool.aclose()
        for is_async in (False, True):
            run(lambda: course(is_async))

    def test_who_is_cancelled_when_a_member_was_free_lets_the_next_one_have_it(self) -> None:
        port = self.serve().port

        async def course() -> None:
            async with aio.Pool([port], range(100, 200), size=1) as pool:
                for steps in range(8):
                    free = asyncio.Event()

                    async def hold() -> None:
                        async with pool.hold("none", timeout=0):
                            await free.wait()

                    holder = asyncio.create_task(hold())
                    while not pool._members or pool._free or pool._members[0].pending:
                        await asyncio.sleep(0.001)
                    first, second = (asyncio.create_task(pool.out("job", number)) for number in range(2))
                    await asyncio.sleep(0.005)
                    free.set()
                    for _ in range(steps):
                        await asyncio.sleep(0)
                    first.cancel()
                    ended = await self.all_end(holder, first, second)
                    self.assertIsInstance(ended[2], tuple)
        run(course)

    def test_a_member_whose_call_failed_is_lent_last(self) -> None:
        port = self.serve().port

        async def course() -> None:
            async with aio.Pool([port], range(100, 200), size=2) as pool:
                await pool.out("job", 1)
                async with pool.hold("job", INT):
                    await pool.out("another", 1)                    # (so there are two)
                lent: List[aio.Space] = []

                async def look(space: aio.Space, *_: Any, **__: Any) -> None:
                    lent.append(space)
                    if len(lent) == 1:
                        raise NoConnection(0, 1)

                with mock.patch.object(aio.Space, "look", look):
                    with self.assertRaises(NoConnection):
                        await pool.look("nothing")
                    for _ in range(3):
                        await pool.look("nothing")
                self.assertEqual([member is lent[0] for member in lent], [True, False, False, False])
        run(course)

    def test_no_timer_is_left_of_a_wait_that_ended(self) -> None:
        port = self.serve().port

        async def course() -> None:
            loop, timers = asyncio.get_running_loop(), []

            def later(*words: Any) -> asyncio.TimerHandle:
                timers.append(begin(*words))
                return timers[-1]

            async with aio.Space([port], 7) as space, aio.Pool([port], range(100, 200), size=1) as pool:
                begin = loop.call_later
                with mock.patch.object(loop, "call_later", later):
                    for number in range(5):
                        await space.out("job", number)
                        self.assertEqual(await space.take("job", number, timeout=PATIENCE), ("job", number))
                        self.assertEqual(await asyncio.gather(*(pool.out("job", number, timeout=PATIENCE) for _ in range(2))), [(0, mock.ANY)] * 2)
            self.assertGreater(len(timers), 10)
            self.assertEqual([timer for timer in timers if not timer.cancelled()], [])
        run(course)

    def test_aclose_is_cancelled(self) -> None:
        """The task that waits in it is cancelled then, and the pool is closed."""
        port = self.serve().port

        async def course() -> None:
            pool = aio.Pool([port], range(100, 200), size=1)
            await pool.out("a")
            member = pool._members[0]
            pool._owed[member] = deque([("job", 1)])
            with mock.patch.object(pool, "_finish", lambda member: asyncio.sleep(PATIENCE)), mock.patch.object(aio, "FINISH", PATIENCE), logged("pool") as words:
                closing = asyncio.create_task(pool.aclose())
                await asyncio.sleep(0.05)
                await pool.aclose()
                self.assertFalse(closing.done())
                closing.cancel()
                with self.assertRaises(asyncio.CancelledError):
                    await closing
            self.assertEqual((words, member._inner._is_closed), (["a pool was to put this back, which it took: ('job', 1)"], True))
        run(course)

    def test_close_wakes_who_waits(self) -> None:
        port = self.serve().port

        async def course() -> None:
            space = aio.Space([port], 7)
            with self.assertRaises(Closed):
                await space.out("a")
            await space.open()
            task = asyncio.create_task(space.take("never"))
            await asyncio.sleep(0.2)
            space.close()
            with self.assertRaises(Closed):
                await task
            with self.assertRaises(Closed):
                await space.out("a")
        run(course)

    def test_no_number_is_used_by_a_space_that_is_not_opened(self) -> None:
        with self.assertRaises(OutOfRange):
            aio.Pool([7000], 7)
        with self.assertRaises(NoConnection):
            run(aio.Space([1], 7, patience=0.2).open)


if __name__ == "__main__":
    del OverPairs
    test_linda_space.main()
