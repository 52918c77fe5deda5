#!/usr/bin/env python3
"""The tests of linda_space: over servers of the program, and against recorded sessions.

    clients/python/test_linda_space.py [TEST..]

The program is the one that LINDA names, `linda` at the top of the repository if it is not set. The recorded sessions are those of examples/vectors.json, which
tools/client-sessions makes from the documents: there a test plays the servers over socket pairs and compares each byte that the library sends.
"""

from __future__ import annotations

import enum
import json
import logging
import os
import queue
import random
import shutil
import signal
import socket
import subprocess
import sys
import tempfile
import threading
import time
import unittest
from contextlib import contextmanager
from pathlib import Path
from typing import Any, Callable, Iterator, List, Optional, Tuple
from unittest import mock

HERE = Path(__file__).resolve().parent
TOP = HERE.parent.parent
sys.path[:0] = [str(HERE), str(TOP / "examples")]

import linda_space  # noqa: E402
from linda_space import machine  # noqa: E402
from linda_space import (  # noqa: E402
    ANY, BOOL, INT, PACKED, TEXT, Alarm, Always, BadReply, Busy, Choose, Closed, Gone, Idle, In, Kept, Left, Nack, Never, NoConnection, NoNumber, NumberInUse, Outcome, OutOfRange,
    Rd, Refused, Restored, Space, Stored, TimedOut, Wrap, pack, unpack)
import client as frames  # noqa: E402

PROGRAM = Path(os.environ.get("LINDA", TOP / "linda"))
PATIENCE = 60
# The processes that play tests.
LANES = 4
MOST_CLIENTS = 65_536


def setUpModule() -> None:
    """Makes Ctrl-C raise KeyboardInterrupt, though a shell that begins this in the background lets it be ignored."""
    signal.signal(signal.SIGINT, signal.default_int_handler)


class Next(unittest.TestSuite):
    """The groups of tests that come out of a pipe, by their numbers, which other processes read too: each group goes to one of them."""

    def __init__(self, numbers: int, groups: List[List[unittest.TestCase]]) -> None:
        super().__init__()
        self.numbers, self.groups, self._cleanup = numbers, groups, False

    def __iter__(self) -> Iterator[unittest.TestCase]:
        while number := os.read(self.numbers, 2):
            yield from self.groups[int.from_bytes(number, "big")]


class Lanes:
    """Plays tests in several processes at once: most of the time they wait."""

    def run(self, suite: unittest.TestSuite) -> unittest.TestResult:
        def tests_of(it: Any) -> Iterator[unittest.TestCase]:
            if isinstance(it, unittest.TestSuite):
                for one in it:
                    yield from tests_of(one)
            else:
                yield it

        tests, lanes, whole = list(tests_of(suite)), {}, unittest.TestResult()
        # (those of made-up ports have the same numbers there, which only one process of the machine may have at a time)
        together = [test for test in tests if isinstance(test, OverPairs)]
        groups = [it for it in (together, *([test] for test in tests if test not in together)) if it]
        ours, theirs = os.pipe()
        os.write(theirs, b"".join(number.to_bytes(2, "big") for number in range(len(groups))))
        os.close(theirs)
        for _ in range(min(LANES, len(groups))):
            said = tempfile.TemporaryFile("w+")
            if (pid := os.fork()) == 0:
                status = 1
                try:
                    status = int(not unittest.TextTestRunner(said).run(Next(ours, groups)).wasSuccessful())
                    said.flush()
                finally:
                    os._exit(status)
            lanes[pid] = said
        for pid, said in lanes.items():
            whole.testsRun += 1
            if os.waitpid(pid, 0)[1] != 0:
                whole.failures.append((suite, f"lane {whole.testsRun}"))
            said.seek(0)
            sys.stderr.write(said.read())
        print(f"{len(tests)} tests in {len(lanes)} lanes: {len(whole.failures)} of these failed", file=sys.stderr)
        return whole


def main() -> None:
    """Plays all tests of the program that runs, or those of its words."""
    unittest.main("__main__", testRunner=Lanes())


class Server:
    """A server of the program on a folder, which is ready once this is made."""

    def __init__(self, folder: Path, port: int = 0, *words: str) -> None:
        self.folder = folder
        self.process = subprocess.Popen([str(PROGRAM), "serve", "--port", str(port), "--dir", str(folder), *words], stdin=subprocess.DEVNULL,
                                        stdout=subprocess.PIPE, stderr=subprocess.PIPE, universal_newlines=True)
        assert self.process.stdout and self.process.stderr
        line = self.process.stdout.readline()
        if not line.startswith("ready "):
            raise ConnectionError(f"the server did not start: {self.process.stderr.read()!r}, status {self.process.wait()}")
        self.port = int(line.split()[1])

    def kill(self) -> None:
        """kill -9."""
        self.process.kill()
        self.process.wait()
        for stream in (self.process.stdout, self.process.stderr):
            if stream:
                stream.close()

    def stop(self) -> None:
        """Stops it: it does nothing, and its connections stay, until it goes on."""
        self.process.send_signal(signal.SIGSTOP)
        while any(thread.read_text().rsplit(")", 1)[1].split()[0] != "T" for thread in Path(f"/proc/{self.process.pid}/task").glob("*/stat")):
            time.sleep(0.001)

    def rest(self) -> None:
        """Waits until no thread of it has anything to do: each is asleep, and none ran between two looks at all of them."""
        until, before = time.monotonic() + PATIENCE, ""
        while True:
            lines = "".join(status.read_text() for status in Path(f"/proc/{self.process.pid}/task").glob("*/status")).splitlines()
            now = "".join(line for line in lines if line.startswith(("State:", "Pid:", "voluntary_ctxt_switches:")))
            if now == before and now.count("State:") == now.count("S (sleeping)"):
                return
            if time.monotonic() > until:
                raise TimeoutError(f"the server is at work: {now}")
            before = now
            time.sleep(0.002)

    def go_on(self) -> None:
        self.process.send_signal(signal.SIGCONT)


class Peer:
    """A connection that sends bytes and takes frames out of what came, as (name, parts) of examples/client.py."""

    def __init__(self, port: int = 0, stream: Optional[socket.socket] = None) -> None:
        self.stream = stream or socket.create_connection(("127.0.0.1", port), timeout=PATIENCE)
        self.stream.setsockopt(socket.IPPROTO_TCP, socket.TCP_NODELAY, 1)

    def send(self, data: bytes) -> None:
        self.stream.sendall(data)

    def exactly(self, size: int) -> bytes:
        data = b""
        while len(data) < size:
            piece = self.stream.recv(size - len(data))
            if not piece:
                raise ConnectionError("the connection ended")
            data += piece
        return data

    def expect(self, data: bytes) -> None:
        """Checks that exactly these bytes come next; if there are none, that the connection ends."""
        if data:
            found = self.exactly(len(data))
            assert found == data, f"found {found.hex()}, not {data.hex()}"
        else:
            found = self.stream.recv(65_536)
            assert not found, f"found {found.hex()}, not the end"

    def receive(self) -> Tuple[str, dict]:
        length = self.exactly(4)
        return frames.read_frame(length + self.exactly(int.from_bytes(length, "big")))

    def ask(self, data: bytes) -> Tuple[str, dict]:
        self.send(data)
        return self.receive()

    def greet(self, client: int) -> int:
        """Greets, and again while the server says Busy; returns the last number."""
        while True:
            name, parts = self.ask(frames.hello(client, False))
            if name == "Welcome":
                return parts["last"]
            if (name, parts.get("code")) != ("Refused", 3):
                raise ValueError(frames.words_of(name, parts))

    def close(self) -> None:
        self.stream.close()


@contextmanager
def logged(about: str) -> Iterator[List[str]]:
    """The warnings of the library that have this word."""
    words: List[str] = []
    handler, logger, before = logging.Handler(logging.WARNING), logging.getLogger("linda_space"), logging.root.manager.disable
    handler.emit = lambda record: words.append(record.getMessage()) if about in record.getMessage() else None     # type: ignore[method-assign]
    logger.addHandler(handler)
    logging.disable(logging.NOTSET)
    try:
        yield words
    finally:
        logging.disable(before)
        logger.removeHandler(handler)


class Going:
    """A call in a thread of its own."""

    def __init__(self, call: Callable[[], Any]) -> None:
        self.ends: queue.Queue = queue.Queue()
        threading.Thread(target=self.run, args=(call,), daemon=True).start()

    def run(self, call: Callable[[], Any]) -> None:
        try:
            self.ends.put((call(), None))
        except BaseException as fault:
            self.ends.put((None, fault))

    def end(self, timeout: float = PATIENCE) -> Any:
        value, fault = self.ends.get(timeout=timeout)
        if fault is not None:
            raise fault
        return value


class WithServers(unittest.TestCase):
    """Servers of the program, killed at the end."""

    def setUp(self) -> None:
        self.folder = Path(tempfile.mkdtemp())
        self.addCleanup(shutil.rmtree, self.folder)
        state = mock.patch.dict(os.environ, {"LINDA_STATE": str(self.folder / "of programs")})
        state.start()
        self.addCleanup(state.stop)

    def serve(self, name: str = "one", port: int = 0, *words: str) -> Server:
        (self.folder / name).mkdir(exist_ok=True)
        server = Server(self.folder / name, port, *words)
        self.addCleanup(server.kill)
        return server

    def space(self, *servers: Server, client: Any = 7, **more: Any) -> Space:
        space = Space([server.port for server in servers], client, **more)
        self.addCleanup(space.close)
        return space

    @contextmanager
    def short(self, space: Space) -> Iterator[None]:
        """Gives the space a short patience for a while."""
        with mock.patch.object(space, "_patience", 0.3):
            yield


class OverServers(WithServers):
    """What a space does over servers."""

    def test_put_read_take(self) -> None:
        server = self.serve()
        with Space([server.port], 7, fresh=True) as space:
            self.assertEqual(space.out("a", 3, "x", True), (0, 1))
            self.assertEqual(space.read("a", INT, TEXT, BOOL), ("a", 3, "x", True))
            self.assertEqual(space.take("a", 3, ANY, ANY), ("a", 3, "x", True))
            self.assertIsNone(space.take("a", ANY, ANY, ANY, timeout=0.05))
            self.assertIsNone(space.pending)
        with self.assertRaises(Closed):
            space.out("a")

    def test_a_number_is_its_own_while_its_server_is_away(self) -> None:
        """A server knows only which clients are connected: another copy of the program would have the number, and what the first puts would be taken for the
        other's."""
        server = self.serve()
        for client in (str(self.folder / "numbers"), range(100, 110)):
            first = self.space(server, client=client)
            first.out("job", 1)
            server.kill()
            server = self.serve(port=server.port)
            with self.space(server, client=client) as second:
                self.assertNotEqual(second.client, first.client)
                second.out("job", 2)
            first.out("job", 3)
            self.assertEqual(sorted(first.take_many("job", INT, count=9)), [("job", 1), ("job", 2), ("job", 3)])
            first.close()
            with self.space(server, client=client) as third:
                self.assertIn(third.client, (first.client, second.client))

    def test_what_was_not_sent_is_not_taken_for_stored(self) -> None:
        """Its number was used by another program meanwhile, once."""
        for count in (1, 6):
            server = self.serve()
            first = self.space(server)
            first.out("first")
            server.kill()
            server = self.serve(port=server.port)
            with self.space(server) as second:
                second.out_many([("second", number) for number in range(count)])
            with self.assertRaises(NumberInUse):
                first.out_many([("job", number) for number in range(count)])
            other = self.space(server, client=8)
            self.assertEqual((other.take_many("job", INT, count=9), len(other.take_many("second", INT, count=9))), ([], count))
            other.take("first")
            server.kill()

    def test_what_is_pending_comes_before_what_is_in_hand(self) -> None:
        server = self.serve()
        space = self.space(server)
        space.out("job", 1)
        space._machine.in_hand.append(space.choose(In("job", INT)))     # as of a take that was interrupted
        self.assertEqual(space.pending, "sync")
        server.stop()
        with self.assertRaises(TimedOut) as caught:
            space.out("result", 1, timeout=0.1)
        self.assertEqual((caught.exception.pending, space.pending), ("out", "out"))
        server.go_on()
        put = space.again()
        assert isinstance(put, Stored)
        self.assertEqual((put.id, space.pending), (2, "sync"))
        had = space.again()
        assert isinstance(had, Outcome)
        self.assertEqual((had.tuple, space.pending), (("job", 1), None))
        with self.assertRaises(Idle):
            space.again()

    def test_an_event_that_is_too_large_is_refused_at_once(self) -> None:
        space = self.space(self.serve())
        many, deep = In("a"), In("a")
        for _ in range(60):
            many = Choose(many, many)                                   # 2^60 bases, of one that is there once
        for _ in range(20_000):
            deep = deep.wrap(1)
        for event, why in ((many, "more than 256 bases"), (deep, "under more than 64 nodes"), (Choose(many, deep), "under more than 64 nodes")):
            with self.assertRaisesRegex(OutOfRange, why):
                space.choose(event)
        self.assertEqual((space.pending, space.choose(Choose(Always(3).wrap(4), In("a").wrap(2).nack(1))).labels), (None, (4,)))

    def test_a_unix_socket(self) -> None:
        path = str(self.folder / "s")
        with self.assertRaises(NoConnection):
            Space([path], 7)
        server = self.serve("one", 0, "--socket", path)
        with Space([path], 7, fresh=True) as over, Space([server.port], 8, fresh=True) as beside:
            self.assertEqual(over.out("a", 3), (0, 1))
            self.assertEqual(beside.take("a", INT), ("a", 3))
            self.assertEqual(beside.out("b"), (0, 2))
            self.assertEqual(over.take("b"), ("b",))
            server.kill()
            # Nobody listens there now, and then a server does again.
            self.serve("one", 0, "--socket", path)
            self.assertEqual(over.out("c"), (0, 3))
        (self.folder / "none").write_bytes(b"")
        for wrong in (str(self.folder / "none"), str(self.folder), str(self.folder / ("s" * 200))):
            with self.assertRaises(NoConnection):
                Space([wrong], 9)

    def test_the_readme(self) -> None:
        left, right = self.serve("left"), self.serve("right")
        text = (HERE / "README.md").read_text()
        self.assertIn("[7000, 7001]", text)
        first, _, put, last = [block.split("```")[0] for block in text.split("```python\n")[1:]]
        names: dict = {}
        exec(first.replace("[7000, 7001]", repr([left.port, right.port])).replace("2.5", "0.5"), names)
        self.assertEqual((names["work"], names["won"]), (2, Outcome(2, "alarm", (), (9,))))
        worked: List[tuple] = []
        exec("from linda_space import Space\n" + last.replace("[7000]", f"[{left.port}]").replace("client=12", "client=7"), {"work_on": worked.append})
        self.assertEqual(worked, [("job", 3)])
        # Its server is away until the first call has given up.
        again = Space.again

        def serve_again(space: Space) -> Any:
            self.serve("left", left.port)
            return again(space)

        out = Space.out

        def kill_first(space: Space, *values: Any) -> Any:
            left.kill()
            with self.short(space):
                return out(space, *values)

        with mock.patch.object(Space, "again", serve_again), mock.patch.object(Space, "out", kill_first):
            exec(put.replace("7000", str(left.port)), {})
        with self.space(left, client=10) as space:
            self.assertEqual([space.take("job", 3, timeout=PATIENCE), space.look("job", ANY)], [("job", 3), None])

    def test_true_is_not_one(self) -> None:
        space = self.space(self.serve())
        space.out("a", True)
        space.out("a", 1)
        self.assertIs(space.take("a", 1)[1] is True, False)
        self.assertIs(space.take("a", True)[1], True)

    def test_members_of_an_enum(self) -> None:
        """Their values are put and asked for, and not their names."""
        class Color(str, enum.Enum):
            RED = "red"

        class Place(enum.IntEnum):
            FIRST = 3

        space = self.space(self.serve())
        space.out(Color.RED, Color.RED, Place.FIRST)
        found = space.look("red", TEXT, INT)
        assert found is not None
        self.assertEqual((found, [type(value) for value in found]), (("red", "red", 3), [str, str, int]))
        self.assertEqual(space.take(Color.RED, Color.RED, Place.FIRST, timeout=0), ("red", "red", 3))

    def test_choose_over_two_servers(self) -> None:
        left, right = self.serve("left"), self.serve("right")
        space = self.space(left, right)
        self.assertEqual([space.out("a", 1), space.out("b", 2)], [(1, 1), (0, 1)])
        event = Choose(In("b", INT).wrap(5).wrap(6).nack(1), Rd("c").nack(2), Alarm(60_000))
        self.assertEqual(space.sync(event), Outcome(0, "took", (5, 6), (2,), 0, 1, ("b", 2), (2,)))
        self.assertEqual(space.choose(In("b", ANY).nack(1), Rd("a", INT).wrap(3), timeout=10), Outcome(1, "read", (3,), (1,), 1, 1, ("a", 1), (1,)))
        self.assertEqual(space.sync(Choose(Nack(1, In("b", ANY)), Wrap(8, space.after(0.01)), Nack(4, Never()))), Outcome(1, "alarm", (8,), (1, 4)))
        self.assertEqual(space.sync(Nack(9, Wrap(2, Always("v")))), Outcome(0, "always", (2,), (), value="v"))
        self.assertEqual(space.choose(In("b", ANY).nack(1), timeout=0.01), Outcome(1, "alarm", (), (1,)))

    def test_takers_share_jobs_over_two_servers(self) -> None:
        servers = [self.serve("left"), self.serve("right")]
        boss = self.space(*servers, client=1)
        workers = [Going(lambda space=self.space(*servers, client=number): [space.take("job", INT)[1] for _ in range(20)]) for number in (2, 3, 4)]
        for job in range(60):
            boss.out("job", job)
        self.assertEqual(sorted(job for worker in workers for job in worker.end()), list(range(60)))
        self.assertIsNone(boss.read("job", ANY, timeout=0.05))

    def test_time_is_up(self) -> None:
        server = self.serve()
        space, other = self.space(server), self.space(server, client=8)
        begin = time.monotonic()
        self.assertIsNone(space.take("a", timeout=0.2))
        self.assertTrue(0.19 <= time.monotonic() - begin < PATIENCE)
        other.out("a")
        self.assertEqual(other.take("a", timeout=PATIENCE), ("a",))
        self.assertIsNone(space.read("a", timeout=0))

    def test_kill_under_a_take(self) -> None:
        server = self.serve()
        space = self.space(server)
        space.out("b")
        taking = Going(lambda: space.take("a", INT))
        time.sleep(0.2)
        server.kill()
        time.sleep(0.1)
        again = self.serve(port=server.port)
        self.assertEqual(self.space(again, client=8).out("a", 5), (0, 2))
        self.assertEqual(taking.end(), ("a", 5))
        self.assertEqual(space.take("b"), ("b",))

    def test_each_call_that_waits_goes_on_over_a_kill(self) -> None:
        server = self.serve()
        waits = {"take": Space.take, "read": Space.read, "hold": lambda *words, **more: self.held(Space.hold(*words, **more)),
                 "choose": lambda space, *words, **more: space.choose(In(*words), **more).tuple}
        going = {name: Going(lambda name=name, place=place, call=call: call(self.space(server, client=10 + place), name, INT, timeout=PATIENCE / 2))
                 for place, (name, call) in enumerate(waits.items())}
        time.sleep(0.5)
        server.kill()
        time.sleep(0.1)
        putter = self.space(self.serve(port=server.port), client=8)
        for name in waits:
            putter.out(name, 5)
        for name, call in going.items():
            with self.subTest(name=name):
                self.assertEqual(call.end(), (name, 5))

    @staticmethod
    def held(hold: Any) -> Any:
        with hold as offer:
            return offer.accept() if offer else None

    def test_kill_under_a_choice_of_two(self) -> None:
        left, right = self.serve("left"), self.serve("right")
        space = self.space(left, right)
        choosing = Going(lambda: space.choose(In("a", INT).wrap(1).nack(4), Rd("b").nack(5), timeout=PATIENCE))
        time.sleep(0.1)
        left.kill()
        self.assertEqual(self.space(right, client=8).out("a", 1), (0, 1))
        self.assertEqual(choosing.end(), Outcome(0, "took", (1,), (5,), 1, 1, ("a", 1), (1,)))
        again = self.serve("left", left.port)
        self.assertEqual(self.space(again, client=9).out("c"), (0, 1))
        self.assertEqual(space.take("c"), ("c",))

    def test_kills_under_outs_and_takes(self) -> None:
        server = self.serve()
        putter, taker = self.space(server, client=7), self.space(server, client=8)
        putting = Going(lambda: [putter.out("n", number) for number in range(300)])
        taking = Going(lambda: [taker.take("n", INT)[1] for _ in range(300)])
        for _ in range(3):
            time.sleep(0.05)
            server.kill()
            server = self.serve(port=server.port)
        self.assertEqual(putting.end(), [(0, place) for place in range(1, 301)])
        self.assertEqual(sorted(taking.end()), list(range(300)))
        self.assertIsNone(taker.read("n", ANY, timeout=0.05))

    def test_last_reply_of_an_earlier_life(self) -> None:
        server = self.serve()
        with Space([server.port], 7) as space:
            self.assertIsNone(space.last_reply())
            space.out("a", 1)
            self.assertEqual(space.last_reply(), Kept(0, 1, "stored", 1))
            space.take("a", INT)
            self.assertEqual(space.last_reply(), Kept(0, 2, "taken", 1, ("a", 1)))
        server.kill()
        server = self.serve(port=server.port)
        with Space([server.port], 7) as space:
            self.assertEqual(space.last_reply(), Kept(0, 2, "taken", 1, ("a", 1)))
            self.assertEqual(space.out("b"), (0, 2))
            self.assertEqual(space.last_reply(), Kept(0, 3, "stored", 2))
        peer = Peer(server.port)
        self.assertEqual(peer.greet(7), 3)
        self.assertEqual(peer.ask(frames.accept(4, 1, 2)), ("Gone", {"number": 4}))
        peer.close()
        with Space([server.port], 7) as space:
            self.assertEqual(space.last_reply(), Kept(0, 4, "gone"))
            self.assertEqual(space.take("b"), ("b",))
            for wrong in (1, -1, "0"):
                with self.assertRaises(OutOfRange):
                    space.last_reply(wrong)  # type: ignore[arg-type]

    def refused(self, call: Callable[[], Any], server: int, name: str, detail: int) -> None:
        with self.assertRaises(Refused) as caught:
            call()
        self.assertEqual((caught.exception.server, caught.exception.name, caught.exception.detail), (server, name, detail))

    @staticmethod
    def not_busy(call: Callable[[], Any]) -> Callable[[], Any]:
        """The call, again while a server has not seen yet that an earlier connection ended."""
        def patient() -> Any:
            until = time.monotonic() + PATIENCE
            while True:
                try:
                    return call()
                except Refused as fault:
                    if fault.name != "Busy" or time.monotonic() > until:
                        raise
                time.sleep(0.01)
        return patient

    def test_refused_greetings(self) -> None:
        left, right = self.serve("left"), self.serve("right")
        with Space([left.port, right.port], 7, fresh=True) as space:
            space.out("a")
            self.refused(lambda: Space([right.port], 7, fresh=True), 0, "Busy", 0)
        for version in (1, 3):
            with mock.patch.object(linda_space.frames, "VERSION", version):
                self.refused(lambda: self.space(left, client=8), 0, "Version", 2)
        self.refused(self.not_busy(lambda: Space([left.port, right.port], 7, fresh=True)), 1, "Known", 1)
        self.assertEqual(self.space(left, right).out("b"), (1, 2))

    def test_busy_is_tried_again(self) -> None:
        server = self.serve()
        peer = Peer(server.port)
        peer.greet(7)
        greeting = Going(lambda: self.space(server))
        time.sleep(0.1)
        peer.close()
        self.assertEqual(greeting.end().out("a"), (0, 1))

    def test_no_connection(self) -> None:
        server = self.serve()
        with socket.socket() as taken:
            taken.bind(("127.0.0.1", 0))
            port, begin = taken.getsockname()[1], time.monotonic()
            with self.assertRaises(NoConnection) as caught:
                Space([server.port, port], 7)
        self.assertEqual((caught.exception.server, str(caught.exception)), (1, f"server 1: no connection to port {port}: Connection refused"))
        self.assertLess(time.monotonic() - begin, 5)
        path = f"{self.folder}/none"
        with self.assertRaises(NoConnection) as caught:
            Space([path], 7)
        self.assertEqual(str(caught.exception), f"server 0: no connection to {path}: No such file or directory")
        with socket.create_server(("127.0.0.1", 0)) as silent:
            port = silent.getsockname()[1]
            with self.assertRaises(NoConnection) as caught:
                Space([port], 7, patience=0.3)
        self.assertEqual(str(caught.exception), f"server 0: no connection to port {port}: timed out, no Hello was answered")
        self.assertEqual(self.space(server).out("a"), (0, 1))

    def test_leave(self) -> None:
        left, right = self.serve("left"), self.serve("right")
        space, other = self.space(left, right), self.space(left, client=8)
        space.out("a", 1)
        self.assertEqual(space.out("b"), (0, 1))
        peer = Peer(left.port)
        peer.greet(9)
        peer.send(frames.ask(1, True, "b"))
        self.assertEqual(peer.receive()[0], "Offer")
        taking = Going(lambda: other.take("b"))
        time.sleep(0.1)
        self.assertEqual(peer.ask(frames.leave(1)), ("Left", {"number": 1}))
        self.assertEqual(taking.end(), ("b",))
        peer.close()
        self.assertIsNone(space.leave())
        for call in (lambda: space.out("c"), lambda: space.take("a", INT), space.last_reply, space.leave, space.abandon):
            with self.assertRaises(Left):
                call()
        with self.assertRaises(Idle):
            space.again()
        self.assertIsNone(space.pending)
        space.close()
        self.refused(self.not_busy(lambda: Space([left.port], 7, fresh=True)), 0, "Known", 2)
        left.kill()
        self.serve("left", left.port)
        again = self.space(left, right)
        self.assertEqual([again.last_reply(0), again.last_reply(1)], [Kept(0, 2, "left"), Kept(1, 2, "left")])
        self.refused(lambda: again.out("c"), 1, "Left", 2)
        self.assertIsNone(again.pending)
        with self.assertRaisesRegex(Refused, "refused Left, detail 2"):
            again.take("a", INT)
        self.assertEqual((again.pending, again.abandon()), (None, ()))
        self.assertEqual(self.space(right, client=8).take("a", INT), ("a", 1))

    def test_a_leave_goes_on_in_a_later_life(self) -> None:
        left, right = self.serve("left"), self.serve("right")
        peer = Peer(left.port)
        peer.greet(7)
        self.assertEqual(peer.ask(frames.leave(1)), ("Left", {"number": 1}))
        peer.close()
        space = self.space(left, right)
        self.assertIsNone(space.leave())
        peer = Peer(right.port)
        space.close()
        self.assertEqual(peer.greet(7), 1)
        self.assertEqual(peer.ask(frames.out(2, "a")), ("Refused", {"code": 11, "detail": 1}))
        peer.close()

    def test_a_leave_is_pending_while_a_server_is_gone(self) -> None:
        left, right = self.serve("left"), self.serve("right")
        space = self.space(left, right)
        right.kill()
        with self.short(space), self.assertRaises(NoConnection):
            space.leave()
        self.assertEqual(space.pending, "leave")
        for call in (lambda: space.out("a"), space.leave):
            with self.assertRaises(Busy):
                call()
        with self.assertRaises(Idle):
            space.abandon()
        self.serve("right", right.port)
        self.assertIsNone(space.again())
        with self.assertRaises(Left):
            space.out("a")

    def test_too_many_clients(self) -> None:
        (self.folder / "one").mkdir()
        # A bank (docs/PROTOCOL.md): clients 0 to 65,534 have left with their number 1, and there is no tuple. Then a closed gate.
        snapshot = b"".join([frames.spell_number(1), bytes(4), frames.spell_number(MOST_CLIENTS - 1, 4),
                             *(frames.spell_number(client, 4) + frames.spell_number(1) + b"\4" for client in range(MOST_CLIENTS - 1))])
        bank = b"\1LND2" + frames.spell_number(1) + frames.spell_number(len(snapshot), 4) + snapshot + b"\0"
        (self.folder / "one" / "left.bank").write_bytes(bank)
        server = self.serve()
        early = self.space(server, client=100_000)
        self.assertEqual(self.space(server, client=200_000).out("a"), (0, 1))
        self.refused(lambda: Space([server.port], 300_000), 0, "TooManyClients", MOST_CLIENTS)
        self.refused(lambda: early.out("b"), 0, "TooManyClients", MOST_CLIENTS)
        self.assertIsNone(early.pending)
        self.refused(lambda: early.choose(In("a").nack(3)), 0, "TooManyClients", MOST_CLIENTS)
        self.assertEqual((early.pending, early.abandon()), (None, (3,)))

    def test_another_program_uses_the_number(self) -> None:
        server = self.serve()
        space = self.space(server)
        space.out("a")
        server.kill()
        server = self.serve(port=server.port)
        peer = Peer(server.port)
        peer.greet(7)
        peer.send(frames.out(2, "x") + frames.out(3, "y"))
        self.assertEqual([peer.receive()[0] for _ in range(2)], ["Stored"] * 2)
        peer.close()
        with self.assertRaisesRegex(NumberInUse, "server 0: number in use: .*client number 7, .* 3, and 1 ") as caught:
            space.out("b")
        self.assertEqual((caught.exception.server, caught.exception.last, caught.exception.answered, space.pending), (0, 3, 1, None))
        with self.assertRaises(NumberInUse):
            space.take("b", timeout=0)
        server.kill()
        self.serve("other", server.port)
        self.assertIsNone(self.space(server, client=8).read("b", timeout=0.05))

    def test_goes_on_after_a_server_was_away_too_long(self) -> None:
        server = self.serve()
        space = self.space(server)
        space.out("a", 0)
        server.kill()
        for call in (lambda: space.out("a", 1), space.again):
            with self.short(space), self.assertRaises(NoConnection) as caught:
                call()
            self.assertEqual((caught.exception.pending, space.pending), ("out", "out"))
        for call in (lambda: space.out("a", 2), lambda: space.take("a"), space.last_reply):
            with self.assertRaises(Busy):
                call()
        with self.assertRaises(Idle):
            space.abandon()
        server = self.serve(port=server.port)
        self.assertEqual(space.again(), Stored(0, 2))
        with self.assertRaises(Idle):
            space.again()
        self.assertEqual([space.take("a", 1), space.take("a", 0)], [("a", 1), ("a", 0)])
        self.assertIsNone(space.read("a", ANY, timeout=0.05))

    def test_a_take_is_over_after_an_error(self) -> None:
        server = self.serve()
        space, other = self.space(server), self.space(server, client=8)
        server.kill()
        with self.short(space), self.assertRaises(NoConnection):
            space.choose(In("a").nack(3), Rd("b").nack(4))
        self.assertEqual((space.pending, space.abandon(), space.pending), (None, (3, 4), None))
        for call in (space.abandon, space.again):
            with self.assertRaises(Idle):
                call()
        with self.short(space), self.assertRaises(NoConnection):
            space.take("a", INT)
        server = self.serve(port=server.port)
        other.out("a", 6)
        self.assertEqual(other.take("a", INT), ("a", 6))
        other.out("a", 7)
        self.assertEqual(space.take("a", INT), ("a", 7))

    def test_goes_on_after_an_interrupt(self) -> None:
        server = self.serve()
        due: List[BaseException] = []

        def clock() -> int:
            if due:
                raise due.pop()
            return 0

        space, other = self.space(server, clock=clock), self.space(server, client=8)
        other.out("a", 1)
        due.append(KeyboardInterrupt())
        with self.assertRaises(KeyboardInterrupt):
            space.out("b")
        self.assertEqual((space.pending, space.again(), space.take("a", INT)), ("out", Stored(0, 2), ("a", 1)))
        self.assertEqual(other.take("b"), ("b",))

    def test_values_at_their_limits(self) -> None:
        space = self.space(self.serve())
        values = [(-(1 << 63), (1 << 63) - 1, 0, -1, True, False, "", "x" * 255, "x" * 256, "é" * 2_047, "\U0001f600" * 1_023, "\0\n\t\"\\"),
                  ("x" * 4_095, *["y" * 4_095] * 32), (True,), (0,), ("",)]
        for place, (tag, *fields) in enumerate(values):
            self.assertEqual(space.out(tag, *fields), (0, place + 1))
            for call in (space.read, space.take):
                for patterns in (fields, [ANY] * len(fields), [{int: INT, str: TEXT, bool: BOOL}[type(item)] for item in fields]):
                    if call == space.read or patterns is fields:
                        found = call(tag, *patterns, timeout=PATIENCE)
                        self.assertEqual((found, list(map(type, found))), ((tag, *fields), list(map(type, (tag, *fields)))))

    def test_nothing_is_sent_after_a_wrong_value(self) -> None:
        space = self.space(self.serve())
        wrong = [1 << 63, -(1 << 63) - 1, "x" * 4_096, "é" * 2_048, "\ud800", 1.5, None, b"x", ("a",), ["a"]]
        calls: List[Callable[[], Any]] = [lambda tag=tag: space.out(tag) for tag in [*wrong, INT, ANY]]
        calls += [lambda item=item: space.out("a", item) for item in [*wrong, INT]]
        calls += [lambda item=item, call=call: call("a", item) for item in wrong for call in (space.take, space.read)]
        calls += [lambda call=call: call("a", *range(33)) for call in (space.out, space.take, space.read)]
        calls += [lambda seconds=seconds: space.take("a", timeout=seconds) for seconds in (-1, float("nan"), float("inf"), 1e30, "1")]
        calls += [lambda: space.take(INT), lambda: space.choose("a"), lambda: space.sync(("in", "a")), lambda: Wrap(1, "a"), lambda: Nack(1, None)]
        calls += [lambda: Alarm(-1), lambda: Alarm(1 << 64), lambda: Wrap(-1, Never()), lambda: Nack(1 << 64, Never()), lambda: Always(1 << 63)]
        calls += [lambda ports=ports: Space(ports, 1) for ports in ([], [7000] * 17, [0], [65_536], ["7000"], [""], ["a/\0"], "7000", "a/b", 7000)]
        calls += [lambda client=client: Space([7000], client) for client in (-1, 1 << 32, True, "7", [], range(0), [1, -1], ["7"], b"7")]
        calls += [lambda patience=patience: Space([7000], 7, patience=patience) for patience in (0, -1, "1", float("nan"), True)]
        calls += [lambda seconds=seconds, call=call: call(timeout=seconds) for seconds in (-1, "1", float("nan")) for call in (
            lambda timeout: space.out("a", timeout=timeout), lambda timeout: space.leave(timeout=timeout), lambda timeout: space.last_reply(timeout=timeout),
            lambda timeout: space.hold("a", timeout=timeout), lambda timeout: space.look("a", timeout=timeout))]
        for place, call in enumerate(calls):
            with self.subTest(place=place), self.assertRaises(OutOfRange):
                call()
        self.assertEqual((space.pending, space.last_reply(), space.out("a")), (None, None, (0, 1)))

    def test_events_at_their_limits(self) -> None:
        space = self.space(self.serve())
        space.out("a")

        def under(depth: int) -> Choose:
            event = Choose(Rd("a"))
            for label in range(depth - 1):
                event = Choose(Wrap(label, event)) if label % 2 else Choose(event)
            return event

        deep = Rd("a")
        for label in range(64):
            deep = deep.wrap(label)
        self.assertEqual(space.sync(deep).labels, tuple(range(64)))
        for event in (deep.wrap(64), deep.nack(1), Choose(deep), Choose(Always(1), deep.wrap(1))):
            with self.assertRaisesRegex(OutOfRange, "64 nodes"):
                space.sync(event)
        self.assertEqual(space.choose(*[In("b")] * 62, Rd("a"), timeout=PATIENCE).base, 62)
        self.assertEqual(space.choose(*[In("b")] * 64, *[Never()] * 191, Alarm(0)).base, 255)
        for event in (Choose(*[Rd("a")] * 65), Choose(Always(1), *[Never()] * 256)):
            with self.assertRaisesRegex(OutOfRange, "256 bases"):
                space.sync(event)
        empty: Any = Choose()
        for _ in range(5_000):
            empty = Choose(empty)
        self.assertEqual(space.choose(empty, Rd("a")).base, 0)
        self.assertEqual((space.pending, space.take("a")), (None, ("a",)))


def welcome(last: int) -> bytes:
    return frames.frame(b"\x11" + frames.spell_number(last))


def stored(number: int, place: int) -> bytes:
    return frames.frame(b"\x12" + frames.spell_number(number) + frames.spell_number(place))


def handed(kind: bytes, number: int, place: int, *values: Any) -> bytes:
    """An Offer, a Read or a Taken."""
    return frames.frame(kind + frames.spell_number(number) + frames.spell_number(place) + frames.spell_items(values[0], values[1:]))


def gone(number: int) -> bytes:
    return frames.frame(b"\x16" + frames.spell_number(number))


def refusal(code: int, detail: int) -> bytes:
    return frames.frame(bytes([0x17, code]) + frames.spell_number(detail))


OFFER, READ, TAKEN = b"\x13", b"\x14", b"\x15"
BUSY, OLD, FULL, TOO_MANY_ASKS = 3, 4, 6, 10
PROBE = frames.accept(0, 0, 0)


class OverPairs(unittest.TestCase):
    """Servers, over socket pairs, that say what servers of the program never say."""

    def space(self, *told: bytes, lasts: Tuple[int, ...] = (), **more: Any) -> Space:
        """A space whose server welcomes it and then sends these bytes at the first connection, those at the second, and so on. `lasts` are the last numbers of
        the Welcomes, 0 if they are not given."""
        self.pairs = [socket.socketpair() for _ in told]
        for place, (ours, theirs) in enumerate(self.pairs):
            self.addCleanup(ours.close)
            self.addCleanup(theirs.close)
            ours.settimeout(PATIENCE)
            ours.sendall(welcome(lasts[place] if place < len(lasts) else 0))
        made = iter([theirs for _, theirs in self.pairs])

        def connect(_: int) -> socket.socket:
            stream = next(made, None)
            if stream is None:
                raise ConnectionRefusedError
            return stream

        space = Space([1], 7, connect=connect, **more)
        self.addCleanup(space.close)
        for data, (ours, _) in zip(told, self.pairs):
            ours.sendall(data)
        return space

    def tell(self, connection: int, data: bytes) -> None:
        self.pairs[connection][0].sendall(data)

    def sent(self, connection: int) -> bytes:
        return self.pairs[connection][0].recv(65_536)

    def test_no_frames_of_a_server(self) -> None:
        item, offer = frames.spell_atom("a"), b"\x13" + bytes(16)
        framed = [b"\x19", b"\x01", b"\x11" + bytes(7), b"\x11" + bytes(9), b"\x18", b"\x18" + bytes(7), b"\x18" + bytes(9), b"\x06" + bytes(8)]
        framed += [offer + item + b"\0\0", offer + b"\x04\0", offer + b"\x03\2\0",
                  offer + b"\2\0\1\xff\0", offer + b"\2\x10\0" + b"x" * 4_096 + b"\0", offer + b"\2\x10\0", offer + b"\2\0", offer + b"\2\0\2x",
                  offer + item + b"\x21" + b"\3\0" * 33, offer + item + b"\1\7", offer + item]
        for data in (bytes(4), b"\0\4\0\1", b"\xff" * 4, *map(frames.frame, framed)):
            with self.subTest(data=data.hex()):
                space = self.space(data)
                with self.assertRaises(BadReply):
                    space.out("a")
                self.assertEqual(space.pending, "out")

    def test_a_bad_reply_ends_the_connection_and_it_goes_on_over_another(self) -> None:
        space = self.space(frames.frame(b"\x19"), frames.frame(b"\x12" + frames.spell_number(1) + frames.spell_number(9)))
        with self.assertRaises(BadReply):
            space.out("a")
        self.assertEqual((space.pending, space.again(), space.pending), ("out", Stored(0, 9), None))
        self.assertEqual([self.sent(0), self.sent(1)], [frames.hello(7, False) + frames.out(1, "a")] * 2)

    def test_goes_on_after_a_refusal(self) -> None:
        first_refusal, second_refusal = [frames.frame(b"\x17\x0a" + frames.spell_number(ticket)) for ticket in (1, 2)]
        read = frames.frame(b"\x14" + frames.spell_number(3) + frames.spell_number(3) + frames.spell_items("a", [True]))
        space = self.space(first_refusal)
        with self.assertRaises(Refused) as caught:
            space.choose(Rd("a", ANY).nack(1), In("b").wrap(2).nack(5))
        self.assertEqual((caught.exception.name, caught.exception.detail, space.pending, space.abandon()), ("TooManyAsks", 1, None, (1, 5)))
        self.tell(0, second_refusal + read)
        self.assertEqual(space.read("a", ANY), ("a", True))
        asked = frames.ask(1, False, "a", frames.ANY) + frames.ask(2, True, "b")
        self.assertEqual(self.sent(0), frames.hello(7, False) + asked + frames.cancel(1) + frames.cancel(2) + frames.ask(3, False, "a", frames.ANY) + frames.cancel(3))

    def test_no_outcome_is_lost_by_an_interrupt(self) -> None:
        taken = frames.spell_number(1) + frames.spell_number(3) + frames.spell_items("a", [8])
        stored = frames.spell_number(2) + frames.spell_number(4)
        space = self.space(frames.frame(b"\x13" + taken) + frames.frame(b"\x15" + taken), frames.frame(b"\x12" + stored), lasts=(0, 1))
        send = Space._send

        def interrupted(one: Space) -> None:
            if one._machine.ended is not None:
                raise KeyboardInterrupt
            send(one)

        with mock.patch.object(Space, "_send", interrupted), self.assertRaises(KeyboardInterrupt):
            space.take("a", INT)
        self.assertEqual(space.pending, "sync")
        with self.assertRaises(Busy):
            space.abandon()
        self.assertEqual((space.out("b"), space.pending), ((0, 4), "sync"))
        self.assertEqual(space.again(), Outcome(0, "took", (), (), 0, 3, ("a", 8), (8,)))
        with self.assertRaises(Idle):
            space.again()
        asked = frames.hello(7, False) + frames.ask(1, True, "a", frames.INT) + frames.accept(1, 1, 3)
        self.assertEqual([self.sent(0), self.sent(1)], [asked, frames.hello(7, False) + frames.out(2, "b")])


class Fake:
    """A server on a port that says what the program never says: a function for each connection, one after another, and then nobody listens."""

    def __init__(self, *talks: Callable[[Peer], None]) -> None:
        self.talks = talks
        self.listener = socket.socket()
        self.listener.setsockopt(socket.SOL_SOCKET, socket.SO_REUSEADDR, 1)
        self.listener.bind(("127.0.0.1", 0))
        self.listener.listen(16)
        self.listener.settimeout(PATIENCE)
        self.port = self.listener.getsockname()[1]
        self.going = Going(self.run)

    def run(self) -> None:
        with self.listener:
            for talk in self.talks:
                stream, _ = self.listener.accept()
                stream.settimeout(PATIENCE)
                with stream:
                    talk(Peer(stream=stream))

    def end(self) -> None:
        """Checks that all was said, and that only what was expected was sent."""
        self.going.end()


class Cutting:
    """A way to a server on which the first reply of a kind is lost, with its connection."""

    def __init__(self, port: int, kind: str) -> None:
        self.port, self.kind = port, kind
        self.cuts = 0

    def connect(self, _: int) -> socket.socket:
        ours, theirs = socket.socketpair()
        onward = Peer(self.port)
        threading.Thread(target=self.forth, args=(ours, onward), daemon=True).start()
        threading.Thread(target=self.back, args=(ours, onward), daemon=True).start()
        return theirs

    def forth(self, ours: socket.socket, onward: Peer) -> None:
        try:
            while True:
                piece = ours.recv(65_536)
                if not piece:
                    break
                onward.send(piece)
        except OSError:
            pass
        self.end(ours, onward)

    def back(self, ours: socket.socket, onward: Peer) -> None:
        try:
            while True:
                length = onward.exactly(4)
                data = length + onward.exactly(int.from_bytes(length, "big"))
                if self.cuts == 0 and frames.read_frame(data)[0] == self.kind:
                    self.cuts = 1
                    break
                ours.sendall(data)
        except OSError:
            pass
        self.end(ours, onward)

    @staticmethod
    def end(ours: socket.socket, onward: Peer) -> None:
        for stream in (ours, onward.stream):
            try:
                stream.shutdown(socket.SHUT_RDWR)
            except OSError:
                pass
            stream.close()


class Waits(WithServers):
    """Every wait has a bound, and an error says what it leaves pending."""

    def timed(self, least: float, call: Callable[[], Any], fault: type) -> Any:
        """The error of a call that takes at least so many seconds, and less than the patience of these tests."""
        begin = time.monotonic()
        with self.assertRaises(fault) as caught:
            call()
        self.assertTrue(least <= time.monotonic() - begin < PATIENCE)
        return caught.exception

    def interrupted(self, call: Callable[[], Any], after: float = 0.2) -> None:
        """Ctrl-C comes while the call waits."""
        timer = threading.Timer(after, os.kill, (os.getpid(), signal.SIGINT))
        timer.start()
        with self.assertRaises(KeyboardInterrupt):
            call()
        timer.join()

    # ---- bounds

    def test_a_hello_that_is_never_answered(self) -> None:
        with socket.socket() as listener:
            listener.bind(("127.0.0.1", 0))
            listener.listen(16)
            ports = [listener.getsockname()[1]]
            self.assertEqual(self.timed(0.3, lambda: Space(ports, 7, patience=0.3), NoConnection).server, 0)
        self.assertEqual(linda_space.PATIENCE, 10.0)

    def test_a_later_hello_that_is_never_answered(self) -> None:
        left, right = self.serve("left"), self.serve("right")
        space = self.space(left, right, client=0)
        right.kill()
        with self.short(space), socket.socket() as listener:
            listener.setsockopt(socket.SOL_SOCKET, socket.SO_REUSEADDR, 1)
            listener.bind(("127.0.0.1", right.port))
            listener.listen(16)
            self.assertEqual(self.timed(0.3, lambda: space.take("a"), NoConnection).server, 1)
            self.assertEqual((space.pending, space.out("a")), (None, (0, 1)))
            # (on a busy machine a short patience may be over as soon as the time)
            with mock.patch.object(space, "_patience", PATIENCE):
                fault = self.timed(0.2, lambda: space.out("b", timeout=0.2), TimedOut)
            self.assertEqual((fault.servers, fault.pending), ((1,), "out"))
        self.serve("right", right.port)
        self.assertEqual(space.again(), Stored(1, 1))

    def test_an_out_needs_its_own_server_only(self) -> None:
        left, right = self.serve("left"), self.serve("right")
        space = self.space(left, right, client=0)
        right.kill()
        left.stop()
        with self.short(space):
            putting = Going(lambda: space.out("a"))
            time.sleep(1)
            left.go_on()
            self.assertEqual(putting.end(), (0, 1))

    def test_the_time_of_an_out_is_up(self) -> None:
        server = self.serve()
        space = self.space(server)
        server.stop()
        fault = self.timed(0.2, lambda: space.out("a", 1, timeout=0.2), TimedOut)
        self.assertEqual((fault.servers, fault.pending, space.pending), ((0,), "out", "out"))
        self.assertRegex(str(fault), "server 0; pending: out, go on with again")
        self.timed(0.2, lambda: space.again(timeout=0.2), TimedOut)
        for call in (lambda: space.out("b"), lambda: space.take("a", INT), lambda: space.look("a", INT), space.leave, space.last_reply):
            with self.assertRaises(Busy):
                call()
        server.go_on()
        self.assertEqual(space.again(), Stored(0, 1))
        self.assertEqual((space.pending, space.take("a", INT), space.look("a", INT)), (None, ("a", 1), None))

    def test_the_time_of_a_leave_and_of_a_last_reply_is_up(self) -> None:
        server = self.serve()
        space = self.space(server)
        space.out("a")
        server.stop()
        self.assertEqual(self.timed(0.2, lambda: space.last_reply(timeout=0.2), TimedOut).pending, "last_reply")
        server.go_on()
        self.assertEqual(space.again(), Kept(0, 1, "stored", 1))
        server.stop()
        self.assertEqual(self.timed(0.2, lambda: space.leave(timeout=0.2), TimedOut).pending, "leave")
        server.go_on()
        self.assertIsNone(space.again())
        with self.assertRaises(Left):
            space.out("b")

    def test_a_close_waits_for_nothing(self) -> None:
        server = self.serve()
        space = self.space(server)
        server.stop()
        with self.assertRaises(TimedOut):
            space.out("a", timeout=0.1)
        begin = time.monotonic()
        space.close()
        self.assertLess(time.monotonic() - begin, 5)

    # ---- none, or an error

    def test_none_means_that_all_servers_were_there(self) -> None:
        left, right = self.serve("left"), self.serve("right")
        space = self.space(left, right)
        for call in (space.take, space.read):
            self.assertIsNone(call("a", timeout=0.05))
        right.kill()
        for away in (lambda: space.take("a", timeout=0.3), lambda: space.read("a", timeout=0.3), lambda: space.choose(In("a").nack(4), timeout=0.3),
                     lambda: space.hold("a", timeout=0.3).__enter__()):
            fault = self.timed(0.29, away, TimedOut)
            self.assertEqual((fault.servers, fault.pending, space.pending), ((1,), None, None))
        self.assertEqual(space.sync(Choose(In("a"), space.after(0.1))).kind, "alarm")
        self.assertEqual(self.space(left, client=8).out("a"), (0, 1))
        self.assertEqual(space.take("a", timeout=PATIENCE), ("a",))
        self.serve("right", right.port)
        self.assertEqual([space.look("a"), space.take("a", timeout=0.1)], [None, None])

    def test_a_server_that_does_not_answer_when_the_time_is_up(self) -> None:
        server = self.serve()
        space = self.space(server)
        server.stop()
        for call in (lambda: space.take("a", timeout=0.1), lambda: space.look("a"), lambda: space.take("a", timeout=0)):
            with self.short(space):
                fault = self.timed(0.3, call, TimedOut)
            self.assertEqual((fault.servers, space.pending), ((0,), None))
        self.assertEqual(self.timed(0.2, lambda: space.look("a", timeout=0.2), TimedOut).servers, (0,))
        server.go_on()
        self.assertIsNone(self.space(server, client=8).take("a", timeout=0.1))

    def test_a_take_without_time_takes_what_is_there(self) -> None:
        space = self.space(self.serve("left"), self.serve("right"))
        self.assertIsNone(space.take("a", INT, timeout=0))
        for number in range(3):
            space.out("a", number)
        self.assertEqual(sorted(space.take("a", INT, timeout=0)[1] for _ in range(3)), [0, 1, 2])
        self.assertEqual(space.choose(In("a", INT).nack(1), Rd("b").nack(2), timeout=0), Outcome(2, "alarm", (), (1, 2)))

    def test_what_is_asked_when_the_time_is_up(self) -> None:
        """A message that is always answered is sent after the Asks; an offer before its answer is accepted, and one after it is given back."""
        def talk(peer: Peer) -> None:
            peer.expect(frames.hello(7, False))
            peer.send(welcome(0))
            peer.expect(frames.ask(1, True, "a", frames.INT) + PROBE)
            peer.send(handed(OFFER, 1, 3, "a", 8) + refusal(OLD, 0))
            peer.expect(frames.accept(1, 1, 3))
            peer.send(gone(1))
            peer.expect(frames.cancel(1) + frames.out(2, "b"))
            peer.send(handed(OFFER, 1, 4, "a", 9) + stored(2, 5))
            peer.expect(frames.cancel(1) + frames.ask(2, True, "a", frames.INT) + PROBE)
            peer.send(handed(OFFER, 2, 4, "a", 9) + refusal(OLD, 2))
            peer.expect(frames.accept(3, 2, 4))
            peer.send(handed(TAKEN, 3, 4, "a", 9))
            peer.expect(b"")

        fake = Fake(talk)
        with Space([fake.port], 7) as space:
            self.assertIsNone(space.take("a", INT, timeout=0))
            self.assertEqual(space.out("b"), (0, 5))
            self.assertEqual(space.take("a", INT, timeout=0), ("a", 9))
        fake.end()

    # ---- looking

    def test_look(self) -> None:
        left, right = self.serve("left"), self.serve("right")
        space, other = self.space(left, right, client=0), self.space(right, client=8)
        self.assertIsNone(space.look("a", INT))
        other.out("a", 1)
        self.assertEqual([space.look("a", INT), space.look("a", 2)], [("a", 1), None])
        with other.hold("a", INT):
            self.assertEqual(space.look("a", ANY), ("a", 1))
        self.assertEqual([space.out("b"), space.look("a", INT), other.take("a", INT), space.look("a", INT)], [(0, 1), ("a", 1), ("a", 1), None])

    def test_look_while_a_server_is_away(self) -> None:
        left, right = self.serve("left"), self.serve("right")
        space = self.space(left, right, client=0)
        space.out("a")
        right.kill()
        self.assertEqual([space.look("a"), space.look("a")], [("a",)] * 2)
        with self.short(space):
            self.assertEqual(self.timed(0.3, lambda: space.look("b"), NoConnection).server, 1)
        right = self.serve("right", right.port)
        self.assertIsNone(space.look("b"))
        self.assertEqual([space.out("b"), space.look("b")], [(1, 1), ("b",)])

    def test_a_look_that_was_answered_late_disturbs_nothing(self) -> None:
        def first(peer: Peer) -> None:
            peer.expect(frames.hello(0, False))
            peer.send(welcome(0))
            peer.expect(frames.ask(1, False, "a") + PROBE)
            peer.send(handed(READ, 1, 3, "a") + refusal(OLD, 0))
            peer.expect(frames.cancel(1) + frames.out(1, "b"))
            peer.send(stored(1, 4))
            peer.expect(b"")

        def second(peer: Peer) -> None:
            peer.expect(frames.hello(0, False))
            peer.send(welcome(0))
            peer.expect(frames.ask(1, False, "a") + PROBE + frames.cancel(1) + frames.out(1, "c"))
            peer.send(handed(READ, 1, 9, "a") + refusal(OLD, 0) + stored(1, 5))
            peer.expect(b"")

        fakes = [Fake(first), Fake(second)]
        with Space([fake.port for fake in fakes], 0) as space:
            self.assertEqual([space.look("a"), space.out("b"), space.out("c")], [("a",), (0, 4), (1, 5)])
        for fake in fakes:
            fake.end()

    # ---- greeting

    def test_a_number_that_is_in_use(self) -> None:
        server = self.serve()
        space = self.space(server, client=70)
        fault = self.timed(2.0, lambda: self.space(server, client=70), Refused)
        self.assertEqual((fault.name, fault.client), ("Busy", 70))
        self.assertRegex(str(fault), "client number 70")
        self.assertEqual((linda_space.BUSY_PATIENCE, space.out("a")), (2.0, (0, 1)))

    def test_greets_at_once_after_a_close(self) -> None:
        server = self.serve()
        for place in range(20):
            with Space([server.port], 7) as space:
                self.assertEqual(space.out("a"), (0, place + 1))

    def test_busy_after_a_lost_connection(self) -> None:
        def first(peer: Peer) -> None:
            peer.expect(frames.hello(7, False))
            peer.send(welcome(4))
            peer.expect(frames.out(5, "a"))

        def busy(peer: Peer) -> None:
            peer.expect(frames.hello(7, False))
            peer.send(refusal(BUSY, 0))

        def last(peer: Peer) -> None:
            peer.expect(frames.hello(7, False))
            peer.send(welcome(5))
            peer.expect(frames.out(5, "a"))
            peer.send(stored(5, 9))

        fake = Fake(first, busy, busy, last)
        with Space([fake.port], 7) as space:
            self.assertEqual(space.out("a"), (0, 9))
        fake.end()
        fake = Fake(first, *[busy] * 40)
        with Space([fake.port], 7) as space, self.short(space):
            fault = self.timed(0.3, lambda: space.out("a"), Refused)
            self.assertEqual((fault.name, fault.pending), ("Busy", "out"))

    def test_restored(self) -> None:
        def first(peer: Peer) -> None:
            peer.expect(frames.hello(7, False))
            peer.send(welcome(4))
            peer.expect(frames.out(5, "a"))
            peer.send(stored(5, 9))

        def second(peer: Peer) -> None:
            peer.expect(frames.hello(7, False))
            peer.send(welcome(3))
            peer.expect(b"")

        for call in (lambda space: space.out("b"), lambda space: space.take("b"), lambda space: space.leave()):
            fake = Fake(first, second)
            with Space([fake.port], 7) as space:
                space.out("a")
                with self.assertRaises(Restored) as caught:
                    call(space)
                self.assertEqual((caught.exception.server, caught.exception.last, caught.exception.answered, caught.exception.pending), (0, 3, 5, None))
                for later in (lambda: space.out("b"), lambda: space.take("b", timeout=0.1), lambda: space.look("b"), lambda: space.hold("b").__enter__()):
                    with self.assertRaises(Restored):
                        later()
                with self.assertRaises(Idle):
                    space.again()
            fake.end()

    def test_a_server_is_restored(self) -> None:
        server = self.serve()
        space, other = self.space(server), self.space(server, client=8)
        space.out("a", 1)
        server.kill()
        shutil.copytree(server.folder, self.folder / "copy")
        server = self.serve(port=server.port)
        self.assertEqual([space.out("a", 2), other.take("a", 2)], [(0, 2), ("a", 2)])
        server.kill()
        server = self.serve("copy", server.port)
        for one in (space, other):
            with self.assertRaises(Restored):
                one.take("a", INT)
        fresh = self.space(server, client=9)
        self.assertEqual([fresh.take("a", INT), fresh.look("a", INT)], [("a", 1), None])

    def test_numbers_from_a_range(self) -> None:
        left, right = self.serve("left"), self.serve("right")
        first = self.space(left, right, client=range(100, 103))
        second = self.space(left, right, client=range(100, 103))
        self.space(left, client=102)
        self.assertEqual((first.client, second.client), (100, 101))
        with self.assertRaisesRegex(NoNumber, "100 to 102"):
            self.space(left, right, client=range(100, 103))
        self.assertEqual(first.out("a", 5), (0, 1))
        first.close()
        until = time.monotonic() + PATIENCE
        found = 0
        while found != 100 and time.monotonic() < until:
            with self.space(left, right, client=range(100, 120)) as again:
                found = again.client
        self.assertEqual(found, 100)
        second.leave()
        second.close()
        self.space(left, client=100)
        self.assertEqual(self.space(left, client=range(101, 110)).client, 103)
        self.assertEqual(self.space(left, client=range(100, 110), fresh=True).client, 104)

    # ---- interrupts

    def test_ctrl_c_in_a_take(self) -> None:
        server = self.serve()
        space, other = self.space(server), self.space(server, client=8)
        self.interrupted(lambda: space.choose(In("a", INT).nack(3), In("b").nack(4)))
        self.assertEqual((space.pending, space.abandon()), (None, (3, 4)))
        other.out("a", 1)
        self.assertEqual(other.take("a", INT, timeout=PATIENCE), ("a", 1))
        self.assertEqual(space.out("b"), (0, 2))

    def test_ctrl_c_in_an_out(self) -> None:
        server = self.serve()
        space = self.space(server)
        server.stop()
        self.interrupted(lambda: space.out("a", 1))
        self.assertEqual((space.pending, space.settled), ("out", None))
        server.go_on()
        self.assertEqual((space.take("a", INT), space.pending, space.settled), (("a", 1), None, Stored(0, 1)))
        assert isinstance(space.settled, Stored)
        self.assertEqual((space.settled.tuple, space.look("a", INT), space.settled), (("a", 1), None, None))
        server.stop()
        self.interrupted(lambda: space.out("a", 2))
        server.go_on()
        self.assertEqual((space.again(), space.out("a", 3), space.look("a", 2)), (Stored(0, 2), (0, 3), ("a", 2)))

    def test_ctrl_c_in_an_out_that_is_refused(self) -> None:
        def first(peer: Peer) -> None:
            peer.expect(frames.hello(7, False))
            peer.send(welcome(0))
            peer.expect(frames.out(1, "a"))
            peer.expect(b"")

        def second(peer: Peer) -> None:
            peer.expect(frames.hello(7, False))
            peer.send(welcome(0))
            peer.expect(frames.out(1, "a"))
            peer.send(refusal(FULL, 0))
            peer.expect(frames.out(1, "b"))
            peer.send(stored(1, 9))
            peer.expect(b"")

        fake = Fake(first, second)
        with Space([fake.port], 7) as space:
            self.interrupted(lambda: space.out("a"))
            self.assertEqual((space.out("b"), space.pending), ((0, 9), None))
            assert isinstance(space.settled, Refused)
            self.assertEqual(space.settled.name, "Full")
        fake.end()

    def test_ctrl_c_when_an_out_has_just_ended(self) -> None:
        space = self.space(self.serve())
        run = Space._run

        def interrupted(one: Space, *words: Any) -> Iterator[float]:
            yield from run(one, *words)
            raise KeyboardInterrupt

        with mock.patch.object(Space, "_run", interrupted), self.assertRaises(KeyboardInterrupt):
            space.out("a", 1)
        self.assertEqual((space.pending, space.settled), (None, Stored(0, 1)))
        with mock.patch.object(machine.Machine, "out", side_effect=KeyboardInterrupt), self.assertRaises(KeyboardInterrupt):
            space.out("a", 2)
        self.assertEqual((space.pending, space.settled), (None, None))
        self.assertEqual([space.take("a", INT), space.look("a", INT)], [("a", 1), None])

    def test_ctrl_c_while_a_tuple_is_taken(self) -> None:
        """The answer comes before the next call, whatever that is; a tuple that was taken is for the next input that it fits."""
        def first(peer: Peer) -> None:
            peer.expect(frames.hello(7, False))
            peer.send(welcome(0))
            peer.expect(frames.ask(1, True, "a", frames.INT))
            peer.send(handed(OFFER, 1, 3, "a", 8))
            peer.expect(frames.accept(1, 1, 3))
            peer.expect(b"")

        for is_taken in (True, False):
            def second(peer: Peer) -> None:
                peer.expect(frames.hello(7, False))
                peer.send(welcome(1))
                peer.expect(frames.accept(1, 1, 3))
                if is_taken:
                    peer.send(handed(TAKEN, 1, 3, "a", 8))
                    peer.expect(frames.out(2, "b"))
                else:
                    peer.send(gone(1))
                    peer.expect(frames.cancel(1) + frames.out(2, "b"))
                peer.send(stored(2, 4))
                peer.expect(b"")

            with self.subTest(is_taken=is_taken):
                fake = Fake(first, second)
                with Space([fake.port], 7) as space:
                    self.interrupted(lambda: space.take("a", INT))
                    self.assertEqual((space.pending, space.out("b")), ("sync", (0, 4)))
                    if is_taken:
                        self.assertEqual(space.pending, "sync")
                        self.assertEqual(space.choose(Rd("c"), In("a", 7), In("a", 8).wrap(6).nack(1), timeout=0), Outcome(2, "took", (6,), (), 0, 3, ("a", 8), ()))
                    self.assertIsNone(space.pending)
                fake.end()

    def test_the_time_is_up_while_a_tuple_is_taken(self) -> None:
        due = threading.Event()

        def talk(peer: Peer) -> None:
            peer.expect(frames.hello(7, False))
            peer.send(welcome(0))
            peer.expect(frames.ask(1, True, "a", frames.INT))
            peer.send(handed(OFFER, 1, 3, "a", 8))
            peer.expect(frames.accept(1, 1, 3))
            due.wait(PATIENCE)
            peer.send(handed(TAKEN, 1, 3, "a", 8))
            peer.expect(b"")

        fake = Fake(talk)
        with Space([fake.port], 7) as space:
            with self.short(space):
                fault = self.timed(0.4, lambda: space.take("a", INT, timeout=0.1), TimedOut)
            self.assertEqual((fault.pending, fault.servers), ("sync", (0,)))
            with self.assertRaises(Busy):
                space.abandon()
            self.timed(0.1, lambda: space.again(timeout=0.1), TimedOut)
            due.set()
            self.assertEqual(space.take("a", INT), ("a", 8))
            self.assertIsNone(space.pending)
        fake.end()

    def test_no_job_is_lost_or_done_twice(self) -> None:
        """Workers are interrupted at random, in the middle of their calls, and a server is killed again and again. Each does what the page says after that."""
        servers = [self.serve("left"), self.serve("right")]
        is_over = threading.Event()

        class Interrupt(BaseException):
            pass

        def work(number: int) -> int:
            dice, count = random.Random(number), 0
            space = self.space(*servers, client=number)
            begin = time.monotonic()

            def clock() -> int:
                if dice.random() < 0.03:
                    raise Interrupt
                return int((time.monotonic() - begin) * 1000)

            space._now = clock
            while not is_over.is_set():
                offer = None
                try:
                    if number % 2:
                        job = space.take("job", INT, timeout=dice.choice([0, 0.1, 0.5]))
                        if job is None:
                            continue
                    else:
                        with space.hold("job", INT, timeout=0.2) as offer:
                            if offer is None:
                                continue
                            job = offer.accept()
                except (linda_space.SpaceError, Interrupt):
                    if offer is None:
                        continue
                    self.finish(space, Interrupt)
                    if not offer.is_taken:
                        continue
                    job = offer.tuple
                is_put = False
                while not is_put:
                    try:
                        space.out("done", job[1])
                        is_put = True
                    except (linda_space.SpaceError, Interrupt):
                        is_put = space.pending == "out" or space.settled is not None
                        self.finish(space, Interrupt)
                count += 1
            return count

        boss = self.space(*servers, client=1, patience=PATIENCE)
        workers = [Going(lambda number=number: work(number)) for number in (11, 12, 13, 14)]
        for job in range(150):
            boss.out("job", job)
            if job % 50 == 25:
                place = job // 50 % 2
                servers[place].kill()
                servers[place] = self.serve(servers[place].folder.name, servers[place].port)
        done = [boss.take("done", INT)[1] for _ in range(150)]
        is_over.set()
        self.assertEqual(sorted(done), list(range(150)))
        self.assertEqual(sum(worker.end() for worker in workers), 150)
        self.assertEqual([boss.look("job", INT), boss.look("done", INT)], [None, None])

    @staticmethod
    def finish(space: Space, interrupt: type) -> None:
        while space.pending in ("out", "accept"):
            try:
                space.again()
            except (linda_space.SpaceError, interrupt):
                pass

    def test_two_threads(self) -> None:
        server = self.serve()
        space, other = self.space(server), self.space(server, client=8)
        taking = Going(lambda: space.take("a", timeout=PATIENCE))
        while space._thread is None:                            # it is not in its call yet
            time.sleep(0.001)
        with self.assertRaisesRegex(Busy, "another thread"):
            space.out("b")
        other.out("a")
        self.assertEqual(taking.end(), ("a",))
        self.assertEqual(space.out("b"), (0, 2))

    # ---- an Ask that was sent again

    def test_nothing_is_held_after_a_lost_taken(self) -> None:
        server = self.serve()
        way = Cutting(server.port, "Taken")
        space, other = self.space(server, connect=way.connect), self.space(server, client=8)
        other.out("a", 1)
        self.assertEqual((space.take("a", INT), way.cuts), (("a", 1), 1))
        other.out("a", 2)
        self.assertEqual(other.take("a", INT, timeout=PATIENCE), ("a", 2))
        self.assertIsNone(other.take("a", INT, timeout=0))

    def test_an_ask_that_was_sent_again_is_cancelled(self) -> None:
        def first(peer: Peer) -> None:
            peer.expect(frames.hello(7, False))
            peer.send(welcome(0))
            peer.expect(frames.ask(1, True, "a", frames.INT))
            peer.send(handed(OFFER, 1, 3, "a", 8))
            peer.expect(frames.accept(1, 1, 3))

        def second(peer: Peer) -> None:
            peer.expect(frames.hello(7, False))
            peer.send(welcome(1))
            peer.expect(frames.accept(1, 1, 3) + frames.ask(1, True, "a", frames.INT))
            peer.send(handed(TAKEN, 1, 3, "a", 8))
            peer.expect(frames.cancel(1))
            peer.expect(b"")

        fake = Fake(first, second)
        with Space([fake.port], 7) as space:
            self.assertEqual(space.take("a", INT), ("a", 8))
        fake.end()

    # ---- holding

    def test_hold(self) -> None:
        left, right = self.serve("left"), self.serve("right")
        space, other = self.space(left, right, client=0), self.space(left, right, client=9)
        other.out("job", 1, "x")                                # at server 1
        with space.hold("job", INT, ANY, timeout=PATIENCE) as offer:
            assert offer is not None
            self.assertEqual((offer.tuple, offer.binds, offer.server, offer.id, offer.is_taken), (("job", 1, "x"), (1,), 1, 1, False))
            self.assertIsNone(other.take("job", INT, ANY, timeout=0.1))
            self.assertEqual(space.out("done", 1), (0, 1))
            self.assertEqual(space.look("job", INT, ANY), ("job", 1, "x"))
            self.assertEqual([offer.accept(), offer.accept(), offer.is_taken], [("job", 1, "x"), ("job", 1, "x"), True])
            self.assertIsNone(space.look("job", INT, ANY))
        self.assertEqual((space.pending, space.last_reply(1)), (None, Kept(1, 1, "taken", 1, ("job", 1, "x"))))
        with space.hold("job", INT, ANY, timeout=0.05) as none, space.hold("job", INT, ANY, timeout=0) as no_other:
            self.assertEqual((none, no_other), (None, None))

    def test_ctrl_c_where_a_hold_begins_or_ends(self) -> None:
        """Nobody has the tuple in hand then, and so it is free again. Gone names what else was held."""
        server = self.serve()
        space, other = self.space(server), self.space(server, client=8)

        def hold(*words: Any) -> None:
            begin(*words)
            raise KeyboardInterrupt

        for ends in (False, True):
            for number in range(2):
                other.out("job", number)
            with self.assertRaises(Gone) as caught, space.hold("job", 0) as kept:
                begin = space._hold
                place = mock.patch.object(kept.__class__, "release", side_effect=KeyboardInterrupt) if ends else mock.patch.object(space, "_hold", hold)
                with self.assertRaises(KeyboardInterrupt), place, space.hold("job", 1):
                    pass
                self.assertEqual(other.take("job", 1, timeout=PATIENCE), ("job", 1))
                space.look("job", INT)
            self.assertEqual((caught.exception.offers, space.look("none")), ((kept,), None))
            self.assertEqual(other.take("job", 0, timeout=PATIENCE), ("job", 0))

    def test_ctrl_c_while_the_gate_is_given_up(self) -> None:
        """A call ends with the interrupt, and leaves the gate of the space as it was: other threads get in."""
        class Gate:
            """An interrupt comes just before a call of `acquire` has the gate, or just after."""
            def __init__(self, is_after: bool) -> None:
                self.lock, self.interrupts, self.is_after = threading.RLock(), 1, is_after
                self.release, self._is_owned = self.lock.release, self.lock._is_owned      # type: ignore[attr-defined]

            def acquire(self) -> bool:
                if self.interrupts:
                    self.interrupts = 0
                    if self.is_after:
                        self.lock.acquire()
                    raise KeyboardInterrupt
                return self.lock.acquire()

            def __enter__(self) -> bool:
                return self.lock.acquire()

            def __exit__(self, *_: Any) -> None:
                self.lock.release()

        space = self.space(self.serve())
        for number in range(2):
            gate = Gate(number == 1)
            with mock.patch.object(space, "_gate", gate):
                with self.assertRaises(KeyboardInterrupt):
                    space.take("never", timeout=0.1)
                self.assertEqual((gate._is_owned(), space.out("a"), Going(lambda: space.take("a", timeout=0)).end()), (False, (0, 1 + number), ("a",)))

    def test_ctrl_c_while_a_connection_is_closed(self) -> None:
        space = self.space(self.serve())
        for number in range(2):
            stream = space._links[0].stream
            assert stream is not None
            if number == 0:
                space._selector.unregister(stream)
            stream.close()                                      # and the interrupt comes now
            with self.assertRaises(KeyboardInterrupt), mock.patch.object(space, "_send", side_effect=KeyboardInterrupt):
                space.look("a")
            self.assertEqual(space.out("a"), (0, 1 + number))

    def test_what_is_not_accepted_is_free_again(self) -> None:
        server = self.serve()
        space, other = self.space(server), self.space(server, client=8)
        other.out("job", 1)
        with space.hold("job", INT):
            self.assertIsNone(other.take("job", INT, timeout=0))
        self.assertEqual(other.take("job", INT, timeout=PATIENCE), ("job", 1))
        other.out("job", 2)
        with self.assertRaises(ZeroDivisionError), space.hold("job", INT):
            raise ZeroDivisionError
        self.assertEqual(other.take("job", INT, timeout=PATIENCE), ("job", 2))
        other.out("job", 3)
        with space.hold("job", INT) as offer:
            assert offer is not None
            offer.release()
            self.assertEqual(other.take("job", INT, timeout=PATIENCE), ("job", 3))
            with self.assertRaises(Gone):
                offer.accept()
        self.assertEqual(space.out("b"), (0, 4))

    def test_two_are_held_at_once(self) -> None:
        space = self.space(self.serve())
        for number in (1, 2):
            space.out("job", number)
        with space.hold("job", INT) as one, space.hold("job", INT) as two:
            assert one is not None and two is not None
            self.assertEqual([one.tuple, two.tuple, two.accept()], [("job", 1), ("job", 2), ("job", 2)])
        self.assertEqual([space.take("job", INT, timeout=PATIENCE), space.look("job", INT)], [("job", 1), None])

    def test_a_hold_is_lost_with_its_server(self) -> None:
        server = self.serve()
        space, other = self.space(server), self.space(server, client=8)
        other.out("job", 1)
        with space.hold("job", INT) as offer:
            assert offer is not None
            server.kill()
            self.serve(port=server.port)
            self.assertEqual(other.take("job", INT, timeout=PATIENCE), ("job", 1))
            for _ in range(2):
                with self.assertRaises(Gone) as caught:
                    offer.accept()
                self.assertEqual((caught.exception.server, space.pending), (0, None))
        self.assertEqual(space.out("b"), (0, 2))
        with space.hold("b") as offer:
            assert offer is not None
            self.interrupted(lambda: space.take("never"))
            with self.assertRaises(Gone):
                offer.accept()
        self.assertEqual(space.take("b"), ("b",))

    def test_a_hold_is_renewed(self) -> None:
        server = self.serve("one", 0, "--lease", "2")
        space, other = self.space(server), self.space(server, client=8)
        space.out("job", 1)
        with space.hold("job", INT) as offer:
            assert offer is not None
            for _ in range(12):                                 # at most 4 seconds pass before a lease of 2 seconds has run out
                time.sleep(0.4)
                offer.renew()
            self.assertIsNone(other.take("job", INT, timeout=0))
            self.assertEqual(other.take("job", INT, timeout=PATIENCE), ("job", 1))
            with self.assertRaises(Gone):
                offer.accept()
            for call in (offer.renew, offer.accept):
                with self.assertRaises(Gone):
                    call()
        space.out("job", 2)
        with space.hold("job", INT) as offer:
            assert offer is not None
            offer.release()
            with self.assertRaises(Gone):
                offer.renew()
        with space.hold("job", INT) as offer:
            assert offer is not None
            offer.accept()
            offer.renew()                                       # what was taken needs no lease
        with self.assertRaises(Closed), space.hold("job", INT, timeout=0.01) as none:
            self.assertIsNone(none)
            space.out("job", 3)
            with space.hold("job", INT) as offer:
                assert offer is not None
                space.close()
                offer.renew()

    def test_an_accept_that_is_not_answered(self) -> None:
        server = self.serve()
        space = self.space(server)
        space.out("job", 1)
        with space.hold("job", INT) as offer:
            assert offer is not None
            server.stop()
            fault = self.timed(0.2, lambda: offer.accept(timeout=0.2), TimedOut)
            self.assertEqual((fault.servers, fault.pending), ((0,), "accept"))
            with self.assertRaises(Busy):
                space.out("done", 1)
            server.go_on()
            self.assertEqual((offer.accept(), space.pending), (("job", 1), None))
        space.out("job", 2)
        with space.hold("job", INT) as offer:
            assert offer is not None
            server.stop()
            self.interrupted(offer.accept)
            server.go_on()
            self.assertEqual(space.out("done", 2), (0, 3))
            settled, is_taken = space.settled, space.look("job", INT) is None
            self.assertEqual(isinstance(settled, Outcome), is_taken)
            self.assertEqual(isinstance(settled, Gone), not is_taken)
            if is_taken:
                self.assertEqual(offer.accept(), ("job", 2))
            else:
                with self.assertRaises(Gone):
                    offer.accept()

    def test_a_held_tuple_that_is_offered_again(self) -> None:
        """A repeat of the offer is no reason to give it back; another offer for its ticket is."""
        def talk(peer: Peer) -> None:
            peer.expect(frames.hello(7, False))
            peer.send(welcome(0))
            peer.expect(frames.ask(1, True, "a"))
            peer.send(handed(OFFER, 1, 3, "a"))
            peer.expect(frames.out(1, "b"))
            peer.send(handed(OFFER, 1, 3, "a") + stored(1, 4))
            peer.expect(frames.accept(2, 1, 3))
            peer.send(gone(2))
            peer.expect(frames.cancel(1))
            peer.expect(b"")

        fake = Fake(talk)
        with Space([fake.port], 7) as space:
            with space.hold("a") as offer:
                assert offer is not None
                space.out("b")
                with self.assertRaises(Gone):
                    offer.accept()
        fake.end()


class Packed(WithServers):

    def test_packed_values(self) -> None:
        values: List[Any] = [None, True, 0, -1.5, "", "é\U0001f600\"\\\n", "\ud800", [], {}, {"a": [1, {"b": None}]}, list(range(20_000)), "x" * 122_848]
        for value in values:
            fields = pack(value)
            self.assertEqual((len(fields), unpack(fields)), (30, value))
            self.assertTrue(all(len(text.encode()) <= 4_095 for text in fields))
        self.assertEqual(pack({"a": [1, "é"]}, 2), ('{"a":[1,"é"]}', ""))
        self.assertEqual((unpack(pack((1, 2), 1)), unpack(pack({1: 2}, 1)), unpack(["[1", ",2]"])), ([1, 2], {"1": 2}, [1, 2]))

    def test_limits_of_packed_values(self) -> None:
        # Each has two quotes more. ASCII fills each field; "é", of two bytes, leaves one free after "x" and a quote, and "\U0001f600", of four, up to three.
        self.assertEqual([len(text) for text in pack("x" * 8_188, 2)], [4_095, 4_095])
        for value in ("x" * 8_189, "x" * 122_849, "x" + "é" * 4_094):
            with self.assertRaises(OutOfRange):
                pack(value, 30 if len(value) > 100_000 else 2)
        self.assertEqual([len(text.encode()) for text in pack("é" * 4_094, 2)], [4_095, 4_095])
        self.assertEqual([len(text.encode()) for text in pack("x" + "é" * 4_093, 2)], [4_094, 4_095])
        self.assertEqual(len("".join(pack("\U0001f600" * 30_690)).encode()), 122_762)
        with self.assertRaises(OutOfRange):
            pack("\U0001f600" * 30_691)
        loop: List[Any] = []
        loop.append(loop)
        wrong: List[Any] = [b"x", {1, 2}, float("nan"), float("inf"), loop, object()]
        for value in wrong:
            with self.assertRaises(OutOfRange):
                pack(value)
        for count in (0, 33, -1, True, "2"):
            with self.assertRaises(OutOfRange):
                pack(1, count)  # type: ignore[arg-type]
        for fields in ([1], ["{"], [""], [None]):
            with self.assertRaises(OutOfRange):
                unpack(fields)  # type: ignore[arg-type]

    def test_packed_values_in_a_space(self) -> None:
        space = self.space(self.serve())
        value = {"text": "é" * 50_000, "list": list(range(1_000))}
        space.out("doc", 7, *pack(value))
        found = space.take("doc", 7, *PACKED, timeout=PATIENCE)
        assert found is not None
        self.assertEqual(unpack(found[2:]), value)
        space.out("note", *pack([1, "x"], 1))
        self.assertEqual(unpack(space.read("note", TEXT)[1:]), [1, "x"])  # type: ignore[index]


# ---- recorded sessions

class Watched(Space):
    """A space that sets `waits` when it waits."""

    waits: threading.Event

    def _pause(self, wake: float) -> None:
        self.waits.set()
        super()._pause(wake)


def pattern(item: Any) -> Any:
    return {"?i": INT, "?s": TEXT, "?b": BOOL, "_": ANY}[item[0]] if isinstance(item, list) else item


def event_of(told: list) -> linda_space.Event:
    kind, *parts = told
    if kind in ("in", "rd"):
        return (In if kind == "in" else Rd)(*map(pattern, parts[0]))
    if kind == "choose":
        return Choose(*map(event_of, parts))
    if kind in ("wrap", "nack"):
        return (Wrap if kind == "wrap" else Nack)(parts[0], event_of(parts[1]))
    return {"alarm": Alarm, "always": Always, "never": Never}[kind](*parts)


def ends_of(value: Any) -> list:
    """How a call ended, as the file writes it."""
    if isinstance(value, Refused):
        return ["refused", value.server, value.code, value.detail]
    if isinstance(value, Left):
        return ["refused left"]
    if isinstance(value, NumberInUse):
        return ["in use", value.server]
    if isinstance(value, Stored):
        return ["stored", value.server, value.id]
    if isinstance(value, Kept):
        return ["kept", value.kind, value.number, *([] if value.id is None else [value.id]), *([] if value.tuple is None else [list(value.tuple)])]
    if isinstance(value, Outcome):
        got = {"alarm": [], "always": [value.value]}.get(value.kind, [value.server, value.id, value.tuple and list(value.tuple), list(value.binds)])
        return [value.kind, value.base, *got, list(value.labels), list(value.raised)]
    raise value


class Player:
    """Plays the servers of a session step by step. The client is in a thread of its own, and does the calls of the session one after another."""

    def __init__(self, session: dict) -> None:
        self.session, self.now = session, 0
        self.calls: queue.Queue = queue.Queue()
        self.ends: queue.Queue = queue.Queue()
        self.made: List[queue.Queue] = [queue.Queue() for _ in range(session["servers"])]
        self.pairs: dict = {}
        self.waits = threading.Event()
        self.is_over = False
        self.thread = threading.Thread(target=self.live, daemon=True)

    # ---- the client

    def connect(self, port: int) -> socket.socket:
        if self.is_over:
            raise RuntimeError("the session is over")
        ours, theirs = socket.socketpair()
        self.made[port - 1].put((ours, theirs))
        return theirs

    def live(self) -> None:
        class Own(Watched):
            waits = self.waits
        try:
            ports = range(1, self.session["servers"] + 1)
            space = Own(ports, self.session["client"], fresh=self.session["fresh"], connect=self.connect, clock=lambda: self.now)
        except BaseException as fault:
            self.answer(fault)
            return
        with space:
            while (call := self.calls.get()) is not None:
                try:
                    self.answer(self.do(space, *call))
                except BaseException as fault:
                    self.answer(fault)

    def answer(self, value: Any) -> None:
        self.ends.put(value)
        self.waits.set()

    @staticmethod
    def do(space: Space, word: str, *parts: Any) -> Any:
        if word == "out":
            return ["stored", *space.out(*parts)]
        if word in ("take", "read"):
            # Not by those names, which ask the servers once more when the time is up.
            base = (In if word == "take" else Rd)(*map(pattern, parts[0]))
            return space.sync(Choose(base, *([] if parts[1] is None else [space.after(parts[1])])))
        if word == "sync":
            return space.sync(event_of(parts[0]))
        if word == "last_reply":
            return space.last_reply(*parts) or ["none"]
        if word == "leave":
            space.leave()
            return ["left"]
        if word == "again":
            return space.again()
        return ["dropped", list(space.abandon())]

    # ---- the servers

    def play(self) -> None:
        self.thread.start()
        try:
            for place, step in enumerate(self.session["steps"]):
                try:
                    self.step(step)
                except (AssertionError, OSError, queue.Empty) as fault:
                    raise AssertionError(f"step {place}, {step}: {type(fault).__name__} {fault}") from fault
        finally:
            self.is_over = True
            self.calls.put(None)
            for ours, theirs in self.pairs.values():
                ours.shutdown(socket.SHUT_WR)
            self.thread.join(PATIENCE)
        for server, (ours, theirs) in self.pairs.items():
            rest = b""
            while piece := ours.recv(65_536):
                rest += piece
            assert not rest, f"server {server} was sent more: {rest.hex()}"
            ours.close()

    def step(self, step: Any) -> None:
        if isinstance(step, list):
            self.end(step[1:]) if step[0] == "ends" else self.call(step)
        elif step[0] == "@":
            self.now = int(step[1:])
        else:
            word, server, *digits = step[0], *step[1:].split()
            {"+": self.meet, "-": self.lose, ">": self.expect, "<": self.tell}[word](int(server), *map(bytes.fromhex, digits))

    def call(self, words: list) -> None:
        """Begins a call: it has begun once the client waits for its end, or has returned it."""
        self.waits.clear()
        self.calls.put(words)
        assert self.waits.wait(PATIENCE), "the call does not begin"

    def end(self, wanted: list) -> None:
        found = self.ends.get(timeout=PATIENCE)
        if not isinstance(found, list):
            found = ends_of(found)
        assert json.dumps(found) == json.dumps(wanted), f"found {found}"

    def meet(self, server: int) -> None:
        if server in self.pairs:
            self.pairs.pop(server)[0].close()
        self.pairs[server] = self.made[server].get(timeout=PATIENCE)

    def lose(self, server: int) -> None:
        self.pairs.pop(server)[0].close()

    def expect(self, server: int, data: bytes) -> None:
        ours, found = self.pairs[server][0], b""
        ours.settimeout(PATIENCE)
        while len(found) < len(data):
            piece = ours.recv(len(data) - len(found))
            assert piece, f"the client ended the connection behind {found.hex()}"
            found += piece
        assert found == data, f"found {found.hex()}"

    def tell(self, server: int, data: bytes) -> None:
        """Sends, and waits until the client has read it: what another server sends after that comes after it."""
        ours, theirs = self.pairs[server]
        ours.sendall(data)
        until = time.monotonic() + PATIENCE
        while self.is_left(theirs):
            assert time.monotonic() < until, "the client does not read"
            time.sleep(0.0002)

    @staticmethod
    def is_left(stream: socket.socket) -> bool:
        try:
            return bool(stream.recv(1, socket.MSG_PEEK | socket.MSG_DONTWAIT))
        except OSError:
            return False


class Recorded(unittest.TestCase):

    def test_recorded_sessions(self) -> None:
        sessions = json.loads((TOP / "examples/vectors.json").read_text())["clients"]
        self.assertGreaterEqual(len(sessions), 200)
        wrong: List[str] = []
        for place, session in enumerate(sessions):
            try:
                Player(session).play()
            except AssertionError as fault:
                wrong.append(f"session {place}: {fault}")
            if len(wrong) == 3:
                break
        self.assertEqual(wrong, [])


if __name__ == "__main__":
    main()
