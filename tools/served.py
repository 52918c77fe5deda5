"""What the tools that play with `linda serve` share: a server as a process, a connection that speaks frames, and what a process uses.

It is no tool by itself. Frames are those of examples/client.py, which is written only from docs/PROTOCOL.md.
"""

from __future__ import annotations

import collections
import os
import socket
import subprocess
import sys
import time
from pathlib import Path

TOP = Path(__file__).resolve().parent.parent
sys.path.insert(0, str(TOP / "examples"))
import client as frames  # noqa: E402, F401

PROGRAM = TOP / "linda"
PATIENCE = 60
# The code of the refusal that a number below the client's next one gets.
OLD = 4
PIECE = 65_536
# A client that waits for others says something each so many seconds: it cancels a ticket that it never uses.
RENEWAL, NO_TICKET = 0.2, 1_000_000


# The newest sockets of `free_port`.
HELD: "collections.deque[socket.socket]" = collections.deque(maxlen=256)


def free_port() -> int:
    """A port that nobody listens on, and that the system gives to no other process while this one lives (and asks for 255 more at most): it is bound here,
    and never listened on. Who is told its number may listen there, as a server does, and once nobody listens any more, connections are refused."""
    held = socket.socket()
    held.setsockopt(socket.SOL_SOCKET, socket.SO_REUSEADDR, 1)
    held.bind(("127.0.0.1", 0))
    HELD.append(held)
    return int(held.getsockname()[1])


class Server:
    """A server on a folder, which is ready once this is made."""

    def __init__(self, folder: Path, port: int = 0, program: Path = PROGRAM, words: tuple[str, ...] = ()) -> None:
        self.process = begin(folder, port, program, words)
        assert self.process.stdout and self.process.stderr
        line = self.process.stdout.readline()
        if not line.startswith("ready "):
            said = self.process.stderr.read()
            raise ConnectionError(f"the server did not start: {said!r}, status {self.process.wait()}")
        self.port = int(line.split()[1])

    def __enter__(self) -> "Server":
        return self

    def __exit__(self, *_: object) -> None:
        self.kill()

    def kill(self) -> None:
        """kill -9."""
        self.process.kill()
        self.process.wait()
        for stream in (self.process.stdout, self.process.stderr):
            if stream:
                stream.close()

    def lives(self) -> bool:
        return self.process.poll() is None

    def use(self) -> "Use":
        return use_of(self.process.pid)


class Use:
    """What a process uses: memory in KiB, threads, open files, and processor time in seconds."""

    def __init__(self, memory: int, most: int, threads: int, files: int, processor: float) -> None:
        self.memory, self.most, self.threads, self.files, self.processor = memory, most, threads, files, processor

    def __str__(self) -> str:
        return f"{self.memory / 1024:.1f} MB (at most {self.most / 1024:.1f}), {self.threads} threads, {self.files} open files"


def use_of(pid: int) -> Use:
    words = dict(line.split(":", 1) for line in Path(f"/proc/{pid}/status").read_text().splitlines() if ":" in line)
    times = Path(f"/proc/{pid}/stat").read_text().rsplit(")", 1)[1].split()
    return Use(int(words["VmRSS"].split()[0]), int(words["VmHWM"].split()[0]), int(words["Threads"]), len(os.listdir(f"/proc/{pid}/fd")),
               (int(times[11]) + int(times[12])) / os.sysconf("SC_CLK_TCK"))


def threads_of(pid: int) -> dict[str, tuple[str, ...]]:
    """Of each thread of a process its state, and how often it went to sleep; none of a process that has ended."""
    found = {}
    for task in Path(f"/proc/{pid}/task").iterdir():
        try:
            words = dict(line.split(":", 1) for line in (task / "status").read_text().splitlines() if ":" in line)
        except (FileNotFoundError, ProcessLookupError):
            # (it has ended meanwhile)
            continue
        found[task.name] = words["State"].split()[0], words["voluntary_ctxt_switches"]
    return {} if {state for state, _ in found.values()} == {"Z"} else found


def rest(pid: int) -> None:
    """Waits until no thread of a process has anything to do, or it has ended: each is asleep, and none ran between two looks at all of them. So what came to it
    before that is done, however long it took."""
    until, before = time.monotonic() + PATIENCE, None
    while (now := threads_of(pid)) and (now != before or {state for state, _ in now.values()} != {"S"}):
        if time.monotonic() > until:
            raise TimeoutError(f"process {pid} is at work for {PATIENCE} s: {now}")
        before = now
        time.sleep(0.002)


def begin(folder: Path, port: int, program: Path = PROGRAM, words: tuple[str, ...] = ()) -> "subprocess.Popen[str]":
    """A server as a process, at a port that stays its own after it if none is named."""
    return subprocess.Popen([program, "serve", "--port", str(port or free_port()), "--dir", str(folder), *words], stdin=subprocess.DEVNULL,
                            stdout=subprocess.PIPE, stderr=subprocess.PIPE, text=True)


Frame = tuple[str, dict]


class Peer:
    """A connection that sends bytes and takes frames out of what came, as (name, parts) of examples/client.py."""

    def __init__(self, port: int, patience: float | None = PATIENCE) -> None:
        self.stream = socket.create_connection(("127.0.0.1", port), timeout=patience)
        self.stream.setsockopt(socket.IPPROTO_TCP, socket.TCP_NODELAY, 1)
        self.came = bytearray()

    def send(self, data: bytes) -> None:
        self.stream.sendall(data)

    def whole(self) -> bytes | None:
        """The next frame that came whole."""
        if len(self.came) < 4:
            return None
        end = 4 + int.from_bytes(self.came[:4], "big")
        if len(self.came) < end:
            return None
        data = bytes(self.came[:end])
        del self.came[:end]
        return data

    def raw(self) -> bytes:
        """The next frame, in bytes."""
        while (data := self.whole()) is None:
            piece = self.stream.recv(PIECE)
            if not piece:
                raise ConnectionError("the server ended the connection")
            self.came += piece
        return data

    def receive(self) -> Frame:
        return frames.read_frame(self.raw())

    def ask(self, data: bytes) -> Frame:
        self.send(data)
        return self.receive()

    def greet(self, client: int, fresh: bool = False) -> int:
        """Greets, and again while the server says Busy; returns the last number."""
        while True:
            name, parts = self.ask(frames.hello(client, fresh))
            if name == "Welcome":
                return parts["last"]
            if (name, parts.get("code")) != ("Refused", 3):
                raise ValueError(frames.words_of(name, parts))

    def close(self) -> None:
        self.stream.close()


def listing(port: int, template: bytes, first_client: int, patience: float | None = PATIENCE) -> dict[int, tuple]:
    """All tuples that the template (as it is in an Ask) matches and that nobody holds, with their ids: each is asked for under a ticket of its own
    and offered, 64 to each client, from this number on; the connections are closed at the end, which gives all of them free again. Meanwhile each says
    something now and then, so that no lease ends it. A server that is down, or that refuses for another reason, is a ConnectionError."""
    found: dict[int, tuple] = {}
    peers: list[Peer] = []
    renewed = time.monotonic()
    while True:
        peer = Peer(port, patience)
        peers.append(peer)
        peer.greet(first_client + len(peers) - 1)
        asks = b"".join(frames.frame(b"\x03" + frames.spell_number(ticket) + b"\x01" + template) for ticket in range(1, 65))
        peer.send(asks + frames.out(0, "end"))
        count = 0
        while True:
            name, parts = peer.receive()
            if name == "Refused":
                if parts["code"] != OLD:
                    raise ConnectionError(f"refused: {frames.words_of(name, parts)}")
                break
            if name != "Offer" or parts["id"] in found or parts["ticket"] != count + 1:
                raise ValueError(f"offered as number {count + 1}: {frames.words_of(name, parts)}")
            count += 1
            found[parts["id"]] = parts["tuple"]
            if time.monotonic() > renewed + RENEWAL:
                for it in peers:
                    it.send(frames.cancel(NO_TICKET))
                renewed = time.monotonic()
        if count < 64:
            break
    for peer in peers:
        peer.close()
    return found

