#!/usr/bin/env python3
"""Peers that slow or end others, against one server each: for `tools/hostile`, which plays these checks.

    tools/hostile_loops.py [--program FILE] [--port FIRST] [NAME..]      plays these checks, or those of these groups: waits, ends; --program takes another program
                                                                         than ./linda

Each check is a function of a `Play`. It returns a line of figures, and raises a `Difference` if an aim is missed. An aim is a ratio of two figures of the same
run, or a time that the pages promise: so it is the same on a slow machine. One that took too long is `Late` and is measured again, four times in all: it fails
if each of them is late.
"""

from __future__ import annotations

import argparse
import contextlib
import os
import resource
import select
import signal
import socket
import subprocess
import sys
import tempfile
import threading
import time
from pathlib import Path
from typing import Callable, Iterator

import clocks
from played.program import writes_fail_beyond
from served import PIECE, PROGRAM, Peer, frames, free_port

MIB = 1 << 20
# The longest tuple: 32 texts of 4,095 bytes.
WIDE = ("y" * 4_095,) * 32
# How many seconds a load goes on, and how often a wait above its bound is measured.
SECONDS, TRIES = 2.0, 4
# The seconds of a minute, by the clock of the machine and by a faster one.
MINUTE, SHORT_MINUTE = 60, 3
# Stores are in memory, if the system has such a folder: then no figure is one of its disk.
SHARED = "/dev/shm" if os.access("/dev/shm", os.W_OK) else None


class Difference(Exception):
    """What is not as it must be."""


class Late(Difference):
    """A wait above its bound. The machine may have stalled, so it is measured again."""


class Play:
    """A program, and ports for its servers: 0 for any that is free."""

    def __init__(self, program: Path = PROGRAM, first: int = 0) -> None:
        self.program, self.next = program, first

    def port(self) -> int:
        self.next += self.next > 0
        return self.next

    @contextlib.contextmanager
    def server(self, *words: str, err: int | None = subprocess.DEVNULL, before: Callable[[], None] | None = None, times: int = 1) -> Iterator["Served"]:
        """A server, and its clock goes so many times as fast."""
        with tempfile.TemporaryDirectory(prefix="linda-hostile-", dir=SHARED) as name:
            folder = Path(name) / "store"
            folder.mkdir()
            process = subprocess.Popen([self.program, "serve", "--port", str(self.port()), "--dir", folder, *words], stdin=subprocess.DEVNULL,
                                       stdout=subprocess.PIPE, stderr=err, text=True, preexec_fn=before, env=None if times == 1 else clocks.faster(Path(name), times))
            try:
                assert process.stdout
                line = process.stdout.readline()
                if not line.startswith("ready "):
                    raise Difference(f"the server did not start: {line!r}")
                yield Served(process, int(line.split()[1]), folder)
            finally:
                process.kill()
                process.wait()
                process.stdout.close()


class Served:
    """A server that is ready."""

    def __init__(self, process: "subprocess.Popen[str]", port: int, folder: Path) -> None:
        self.process, self.port, self.folder = process, port, folder

    def peer(self, client: int) -> Peer:
        peer = Peer(self.port)
        peer.greet(client)
        return peer

    def files(self) -> int:
        return len(os.listdir(f"/proc/{self.process.pid}/fd"))


# ---- processes beside the server: each is this file with other words

def quiet(port: int) -> None:
    """Puts and takes one tuple each 4 ms; prints the waits of each line's time, in milliseconds: middle, 99 of 100, worst."""
    peer, ticket, waits = Peer(port), 0, []
    number = peer.greet(1)

    def timed(data: bytes, wanted: str) -> dict:
        began = time.perf_counter()
        name, parts = peer.ask(data)
        waits.append((time.perf_counter() - began) * 1e3)
        if name != wanted:
            raise ValueError(frames.words_of(name, parts))
        return parts

    print("ready", flush=True)
    while True:
        number, ticket = number + 2, ticket + 1
        timed(frames.out(number - 1, "quiet", number), "Stored")
        offer = timed(frames.ask(ticket, True, "quiet", frames.INT), "Offer")
        timed(frames.accept(number, ticket, offer["id"]), "Taken")
        if select.select([sys.stdin], [], [], 0.004)[0]:
            if not sys.stdin.readline():
                return
            waits.sort()
            print(*(waits[len(waits) * part // 1000] if waits else 0.0 for part in (500, 990)), waits[-1] if waits else 0.0, flush=True)
            waits.clear()


def read_wide(port: int, client: int) -> None:
    """Reads a long tuple, 60 asks under way; prints how many bytes came."""
    peer = Peer(port)
    peer.greet(client)
    ticket, due, came, left = 0, 0, 0, b""
    print("ready", flush=True)
    sys.stdin.readline()
    until = time.monotonic() + SECONDS
    head, need = b"", 0
    while time.monotonic() < until:
        burst = b""
        while due < 60:
            ticket, due = ticket + 1, due + 1
            burst += frames.ask(ticket, False, "wide", *([frames.ANY] * 32))
        if burst:
            peer.send(burst)
        piece = peer.stream.recv(1 << 18)
        if not piece:
            raise ConnectionError("the server ended the connection")
        came += len(piece)
        at = 0
        while at < len(piece):
            if need:
                step = min(need, len(piece) - at)
                need, at = need - step, at + step
                due -= need == 0
            else:
                step = 4 - len(head)
                head, at = head + piece[at:at + step], at + step
                if len(head) == 4:
                    need, head = int.from_bytes(head, "big"), b""
    print(came, flush=True)


class Beside:
    """One of these processes."""

    def __init__(self, *words: object) -> None:
        self.process = subprocess.Popen([sys.executable, __file__, *map(str, words)], stdin=subprocess.PIPE, stdout=subprocess.PIPE, text=True)
        if self.line() != "ready":
            raise Difference(f"{words} did not begin")

    def go(self) -> None:
        assert self.process.stdin
        self.process.stdin.write("go\n")
        self.process.stdin.flush()

    def line(self) -> str:
        assert self.process.stdout
        return self.process.stdout.readline().rstrip("\n")

    def times(self) -> list[float]:
        self.go()
        line = self.line()
        if not line:
            raise Difference("the quiet client ended")
        return [float(word) for word in line.split()]

    def end(self) -> None:
        self.process.kill()
        self.process.communicate()


@contextlib.contextmanager
def beside(*words: object) -> Iterator[Beside]:
    one = Beside(*words)
    try:
        yield one
    finally:
        one.end()


def shown(times: list[float]) -> str:
    return " / ".join(f"{one:.2f}" for one in times)


# ---- a share of each turn

def readers(play: Play, count: int) -> str:
    with play.server() as server, contextlib.ExitStack() as stack:
        putter = server.peer(2)
        putter.ask(frames.out(1, "wide", *WIDE))
        one = stack.enter_context(beside("quiet", server.port))
        time.sleep(1)
        alone = one.times()
        others = [stack.enter_context(beside("read_wide", server.port, 10 + at)) for at in range(count)]
        for other in others:
            other.go()
        time.sleep(0.3)
        one.times()
        time.sleep(SECONDS - 0.6)
        times = one.times()
        came = sum(int(other.line()) for other in others)
        rate = came / SECONDS
        waited = [wait / 1e3 * rate / MIB for wait in times]
        said = (f"{count} that read {len(WIDE) * 4_095:,} bytes each: {came / 1e9 / SECONDS:.2f} GB a second; quiet alone {shown(alone)} ms, beside {shown(times)};"
                f" meanwhile others got {shown(waited)} MiB")
        # (two turns of some 1 MiB. What one in a hundred waits is printed and has no bound: it depends on what else the machine does)
        if waited[0] > 5:
            raise Late(said)
        return said


def one_reader_of_large_tuples(play: Play) -> str:
    """Beside a client that reads large tuples the quiet one waits for some turns of a MiB each, and not for all that is under way."""
    return readers(play, 1)


def readers_of_large_tuples(play: Play) -> str:
    """Beside eight such it does not wait longer."""
    return readers(play, 8)


def putters_of_large_tuples(play: Play) -> str:
    """Two clients that put and take large tuples, 30 under way: the quiet one waits for some turns."""
    with play.server() as server, contextlib.ExitStack() as stack:
        one = stack.enter_context(beside("quiet", server.port))
        time.sleep(1)
        alone = one.times()
        ended, pairs = threading.Event(), []

        def work(client: int) -> None:
            peer, number, ticket, count = server.peer(client), 0, 0, 0
            while not ended.is_set():
                burst = b"".join(frames.out(number + at, "wide", client, *WIDE[1:]) for at in range(1, 31))
                peer.send(burst)
                for _ in range(30):
                    peer.raw()
                number += 30
                peer.send(b"".join(frames.ask(ticket + at, True, "wide", client, *([frames.ANY] * 31)) for at in range(1, 31)))
                offers = [frames.read_frame(peer.raw())[1] for _ in range(30)]
                ticket += 30
                peer.send(b"".join(frames.accept(number + at, offer["ticket"], offer["id"]) for at, offer in enumerate(offers, 1)))
                for _ in range(30):
                    peer.raw()
                number, count = number + 30, count + 30
            pairs.append(count)

        threads = [threading.Thread(target=work, args=(client,)) for client in (20, 21)]
        for thread in threads:
            thread.start()
        time.sleep(0.5)
        one.times()
        time.sleep(SECONDS)
        times = one.times()
        ended.set()
        for thread in threads:
            thread.join()
        # (a put, an Offer and a Taken have its bytes)
        rate = sum(pairs) / (SECONDS + 0.5) * 3 * 131_040 / MIB
        waited = times[0] / 1e3 * rate
        said = (f"two that put and take large tuples: {sum(pairs)} pairs; quiet alone {shown(alone)} ms, beside {shown(times)};"
                f" meanwhile others got {waited:.2f} MiB")
        if waited > 5:
            raise Late(said)
        return said


def long_looks(play: Play, count: int) -> str:
    """59 asks for a value after a formal, and 59 cancels, again and again; how long one takes at first and later, and the quiet client waits."""
    with play.server() as server, contextlib.ExitStack() as stack:
        putter, at = server.peer(2), 0
        while at < count:
            putter.send(b"".join(frames.out(at + one, "bulk", at + one, "a") for one in range(1, 51)))
            for _ in range(50):
                putter.raw()
            at += 50
        # What one look costs: 60 of them, one after the other, with a reply to each. The first ones walk, and make an index.
        asker, took = server.peer(3), []
        for ticket in range(1, 61):
            began = time.perf_counter()
            asker.ask(frames.ask(ticket, False, "bulk", frames.INT, f"z{ticket}") + frames.cancel(ticket) + frames.out(0, "x"))
            took.append((time.perf_counter() - began) * 1e3)
        walk, look = max(took[:3]), min(took[40:])
        if look > walk / 5:
            raise Late(f"asks among {count:,} tuples take {walk:.2f} ms at first, and {look:.2f} after 40 such")
        one = stack.enter_context(beside("quiet", server.port))
        time.sleep(1)
        alone = one.times()
        ended = threading.Event()

        def flood() -> None:
            peer = server.peer(4)
            ticket = 0
            while not ended.is_set():
                peer.send(b"".join(frames.ask(ticket + at, False, "bulk", frames.INT, "z") for at in range(1, 60))
                          + b"".join(frames.cancel(ticket + at) for at in range(1, 60)) + frames.out(0, "x"))
                ticket += 59
                peer.raw()

        thread = threading.Thread(target=flood, daemon=True)
        thread.start()
        time.sleep(0.5 + 0.2 * look)
        one.times()
        time.sleep(SECONDS)
        times = one.times()
        ended.set()
        thread.join()
        said = f"asks among {count:,} tuples, {walk:.2f} ms at first and {look:.2f} later, 59 at once: quiet alone {shown(alone)} ms, beside {shown(times)}"
        # (a turn ends after 5 ms and one look, and a request waits for two)
        if times[0] > 8 * look + 10:
            raise Late(said)
        return said


def asks_that_look_at_all(play: Play) -> str:
    """A template that begins with a formal and has a value later walks a few times, and a group ends after some 5 milliseconds."""
    return long_looks(play, 20_000)


# ---- the seconds of a lease

def leases_of_a_stopped_server(play: Play) -> str:
    """A server that was stopped ends no client before the seconds of its lease are over, and none that says something in time."""
    found = []
    with play.server("--lease", "1") as server:
        for turn in range(8):
            peer = server.peer(10 + turn)
            peer.ask(frames.out(1, "job", turn))
            time.sleep(0.13 * turn)
            # (its lease begins after this moment)
            began = time.monotonic()
            if peer.ask(frames.ask(1, True, "job", turn))[0] != "Offer":
                raise Difference("no offer")
            time.sleep(0.02)
            server.process.send_signal(signal.SIGSTOP)
            time.sleep(1.0 + 0.13 * turn)
            stopped = time.monotonic() - began
            server.process.send_signal(signal.SIGCONT)
            peer.stream.settimeout(20)
            if peer.stream.recv(1) != b"":
                raise Difference("something came")
            found.append(time.monotonic() - began)
            if not 1 <= found[-1] <= stopped + 4:
                raise (Difference if found[-1] < 1 else Late)(f"ended {found[-1]:.2f} s after its offer, {stopped:.2f} of which the server was stopped, under a lease of one second")
        # One that renews each 0.45 s is never ended.
        peer = server.peer(99)
        peer.ask(frames.out(1, "job", 99))
        peer.ask(frames.ask(1, True, "job", 99))
        until, stops = time.monotonic() + 8, 0.0
        while time.monotonic() < until:
            peer.send(frames.cancel(77))
            if time.monotonic() > stops:
                server.process.send_signal(signal.SIGSTOP)
                for _ in range(4):
                    time.sleep(0.45)
                    peer.send(frames.cancel(77))
                server.process.send_signal(signal.SIGCONT)
                stops = time.monotonic() + 1.3
            time.sleep(0.45)
            if select.select([peer.stream], [], [], 0)[0]:
                raise Late("a client that said something each 0.45 s was ended")
    return f"ended after {min(found):.2f} to {max(found):.2f} s under a lease of one, the server stopped for 1.0 to 1.9 of them"


# ---- ends of connections, and of servers

def never_reads(server: Served, client: int) -> socket.socket:
    """A client that holds a tuple, and to which the server must write more than it reads."""
    stream = socket.socket()
    stream.setsockopt(socket.SOL_SOCKET, socket.SO_RCVBUF, 4_096)
    stream.connect(("127.0.0.1", server.port))
    stream.sendall(frames.hello(client, False) + frames.ask(1, True, "held", client))
    for ticket in range(2, 62):
        stream.sendall(frames.ask(ticket, False, "wide", *([frames.ANY] * 32)))
    return stream


def ends_of_those_who_never_read(play: Play) -> str:
    """Of a client that never reads its socket and what it held are free some seconds after its lease, and after its own end."""
    said = []
    for way in ("lease", "end"):
        with play.server(*(["--lease", "1"] if way == "lease" else [])) as server:
            putter = server.peer(2)
            putter.ask(frames.out(1, "wide", *WIDE))
            putter.ask(frames.out(2, "held", 3))
            time.sleep(0.2)
            files = server.files()
            stream = never_reads(server, 3)
            time.sleep(0.7)
            if way == "end":
                stream.shutdown(socket.SHUT_WR)
            began, free = time.monotonic(), 0.0
            putter.send(frames.ask(1, True, "held", 3))
            while server.files() > files or not free:
                if not free and select.select([putter.stream], [], [], 0)[0] and putter.receive()[0] == "Offer":
                    free = time.monotonic() - began
                if time.monotonic() - began > 15:
                    raise Late(f"{way}: 15 s later {server.files() - files} more files are open; what was held is {'free' if free else 'not free'}")
                time.sleep(0.05)
            said.append(f"{way} {free:.1f} and {time.monotonic() - began:.1f} s")
            stream.close()
    return "what is held, and the socket, are free after " + ", ".join(said)


def a_server_that_is_down(play: Play) -> str:
    """A server whose device failed ends by itself, and says so in its log."""
    ours, theirs = os.pipe()
    with open(ours) as log:
        with play.server("--log", err=theirs, before=writes_fail_beyond(2_000)) as server:
            os.close(theirs)
            idle, peer = server.peer(2), server.peer(1)
            began = time.monotonic()
            for number in range(1, 40):
                if peer.ask(frames.out(number, "a", "x" * 200))[0] != "Stored":
                    break
            try:
                status = server.process.wait(timeout=4)
            except subprocess.TimeoutExpired:
                raise Late("a server that is down is there 4 s later") from None
            took = time.monotonic() - began
            idle.close()
            peer.close()
        said = log.read()
    if status != 3 or " failed bank " not in said or " end cause device " not in said:
        raise Difference(f"status {status}, log {said}")
    return f"a server that is down ended by itself after {took:.2f} s with status {status}, and its log says why"


def a_log_that_nobody_reads(play: Play) -> str:
    """A log into a full pipe keeps a server neither from beginning nor from ending."""
    ours, theirs = os.pipe()
    try:
        os.set_blocking(theirs, False)
        with contextlib.suppress(BlockingIOError):
            while True:
                os.write(theirs, bytes(65_536))
        with contextlib.suppress(BlockingIOError):
            while True:
                os.write(theirs, b"\0")
        os.set_blocking(theirs, True)
        with tempfile.TemporaryDirectory(prefix="linda-hostile-") as name:
            process = subprocess.Popen([play.program, "serve", "--port", str(play.port()), "--dir", name, "--log", "--sessions", "1"],
                                       stdin=subprocess.DEVNULL, stdout=subprocess.PIPE, stderr=theirs, text=True)
            try:
                assert process.stdout
                began = time.monotonic()
                if not select.select([process.stdout], [], [], 4)[0]:
                    raise Late("no line `ready` in 4 s")
                port = int(process.stdout.readline().split()[1])
                ready = time.monotonic() - began
                peer = Peer(port)
                peer.greet(1)
                peer.ask(frames.out(1, "a"))
                peer.close()
                began = time.monotonic()
                try:
                    status = process.wait(timeout=4)
                except subprocess.TimeoutExpired:
                    raise Late("it did not end in 4 s") from None
                return f"ready after {ready:.2f} s, ended after {time.monotonic() - began:.2f} s with status {status}"
            finally:
                process.kill()
                process.wait()
                process.stdout.close()
    finally:
        os.close(ours)
        os.close(theirs)


def a_crowd_at_once(play: Play) -> str:
    """A thousand connections that come at once are let in at once: none has to try again after a second."""
    count = 1_000
    soft, hard = resource.getrlimit(resource.RLIMIT_NOFILE)
    resource.setrlimit(resource.RLIMIT_NOFILE, (min(hard, 10_000), hard))
    with play.server() as server:
        server.process.send_signal(signal.SIGSTOP)
        began, eyes, streams = time.monotonic(), select.poll(), {}
        for _ in range(count):
            stream = socket.socket()
            stream.setblocking(False)
            stream.connect_ex(("127.0.0.1", server.port))
            eyes.register(stream, select.POLLOUT)
            streams[stream.fileno()] = stream
        time.sleep(0.3)
        server.process.send_signal(signal.SIGCONT)
        late, left = 0, set(streams)
        while left and time.monotonic() - began < 20:
            for place, _ in eyes.poll(1_000):
                eyes.unregister(place)
                left.discard(place)
                late += time.monotonic() - began > 0.9
        for stream in streams.values():
            stream.close()
        said = f"of {count} that came at once {late + len(left)} waited for a second or more"
        if late + len(left) > count // 10:
            raise Late(said)
        return said


def a_socket_of_another_server(play: Play) -> str:
    """A server that ends does not touch the file of its socket, if it is another server's by then."""
    with tempfile.TemporaryDirectory(prefix="linda-hostile-", dir=SHARED) as name:
        path = Path(name) / "socket"
        with play.server("--socket", str(path), "--sessions", "1") as first:
            path.unlink()
            with play.server("--socket", str(path)) as second:
                own = path.stat().st_ino
                first.peer(1).close()
                first.process.wait(timeout=60)
                if not path.exists() or path.stat().st_ino != own:
                    raise Difference("the file of the second server's socket was removed by the first one")
                if second.process.poll() is not None:
                    raise Difference("the second server ended")
    return "the file of the second server's socket is there after the end of the first one"


def few_files() -> None:
    resource.setrlimit(resource.RLIMIT_NOFILE, (64, 64))


def a_status_without_files(play: Play) -> str:
    """A server that may have no file more answers what is asked of its status."""
    status = play.port() or free_port()
    with play.server("--status", str(status), before=few_files) as server:
        peers: list[socket.socket] = []
        for _ in range(80):
            peers.append(socket.create_connection(("127.0.0.1", server.port)))
        time.sleep(0.5)
        for _ in range(3):
            with socket.create_connection(("127.0.0.1", status), timeout=3) as asker:
                asker.sendall(b"GET /metrics HTTP/1.1\r\nHost: localhost\r\nConnection: close\r\n\r\n")
                try:
                    answer = asker.recv(PIECE)
                except TimeoutError:
                    raise Late(f"no answer in 3 s, {server.files()} files open") from None
                if not answer.startswith(b"HTTP/1.1 200"):
                    raise Difference(f"the answer is {answer[:40]!r}")
            # (what this one leaves goes to a connection that waits at the port, unless it is kept back for the next one here)
            time.sleep(0.2)
        for peer in peers:
            peer.close()
        return f"/metrics is answered with {server.files()} files open of 64"


# Those that measure how long others wait, and those that only wait for something to end.
GROUPS: dict[str, tuple[Callable[[Play], str], ...]] = {
    "waits": (one_reader_of_large_tuples, readers_of_large_tuples, putters_of_large_tuples, asks_that_look_at_all, a_crowd_at_once),
    "ends": (leases_of_a_stopped_server, ends_of_those_who_never_read, a_server_that_is_down, a_log_that_nobody_reads, a_socket_of_another_server,
             a_status_without_files),
}
CHECKS: dict[str, Callable[[Play], str]] = {check.__name__: check for group in GROUPS.values() for check in group}


def main() -> None:
    if sys.argv[1:2] == ["quiet"]:
        quiet(int(sys.argv[2]))
        return
    if sys.argv[1:2] == ["read_wide"]:
        read_wide(int(sys.argv[2]), int(sys.argv[3]))
        return
    parser = argparse.ArgumentParser(description=__doc__, formatter_class=argparse.RawDescriptionHelpFormatter)
    parser.add_argument("--program", type=Path, default=PROGRAM)
    parser.add_argument("--port", type=int, default=0)
    parser.add_argument("names", nargs="*", choices=[[], *CHECKS, *GROUPS], metavar="NAME")
    given = parser.parse_args()
    play, missed = Play(given.program, given.port), 0
    for name in [it for name in given.names or CHECKS for it in ([check.__name__ for check in GROUPS[name]] if name in GROUPS else [name])]:
        for left in reversed(range(TRIES)):
            try:
                print(f"{name}: {CHECKS[name](play)}", flush=True)
                break
            except (Difference, OSError) as fault:
                again = isinstance(fault, Late) and left > 0
                print(f"{name}: {'late, measured again' if again else 'MISSED'}: {fault}", flush=True)
                if not again:
                    missed += 1
                    break
    sys.exit(1 if missed else 0)


if __name__ == "__main__":
    main()
