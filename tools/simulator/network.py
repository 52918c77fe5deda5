"""The network between clients and servers: a proxy for each server, all in one thread.

Clients connect to the port of a gate, which stays the same when its server is started again. What goes over a
connection arrives in order and unchanged, as TCP delivers it; but it is delayed, cut into pieces, and the connection is
ended at any byte, at both ends at once or at one before the other. A repeat is what clients send again after that.
The model hears of each message before its last byte goes to the server, and of each reply as it comes from there.
"""

from __future__ import annotations

import heapq
import itertools
import selectors
import socket
import struct
import threading
import time
import traceback
from typing import Callable

from served import frames
from simulator.link import PIECE, Link, Way
from simulator.model import Model
from simulator.plants import Plant
from simulator.wire import Fault

TICK = 0.05
RETRY = 0.002
# For how long a connection is left without an answer while the server is away, and for how long a reply may be due.
AWAY, PATIENCE = 0.04, 20.0
# The kinds of replies to numbered messages: Stored, Taken, Gone, Left.
NUMBERED = b"\x12\x15\x16\x18"


class Gate:
    """The port of a server, as clients see it."""

    def __init__(self, network: Network, model: Model, number: int) -> None:
        self.network, self.model, self.number = network, model, number
        self.behind: int | None = None
        self.links: set[Link] = set()
        self.count = 0
        self.listener = socket.create_server(("127.0.0.1", 0), backlog=256)
        self.listener.setblocking(False)
        self.port = self.listener.getsockname()[1]


class Network(threading.Thread):
    """All gates. The lock is held while anything goes on."""

    def __init__(self, seed: str, plant: Plant, on_fault: Callable[[str], None]) -> None:
        super().__init__(daemon=True)
        self.seed, self.plant, self.on_fault = seed, plant, on_fault
        self.lock = threading.RLock()
        self.selector = selectors.DefaultSelector()
        self.timers: list[tuple[float, int, Callable[[], None]]] = []
        self.order = itertools.count()
        self.gates: list[Gate] = []
        self.is_calm = self.is_over = False
        self.connections = self.cuts = 0
        self.looked = 0.0

    def add(self, model: Model) -> Gate:
        gate = Gate(self, model, model.number)
        self.gates.append(gate)
        self.selector.register(gate.listener, selectors.EVENT_READ, lambda: self.accept(gate))
        return gate

    # ---- for the driver

    def shut(self, gate: Gate) -> None:
        """No connection goes to the server from now on."""
        with self.lock:
            gate.behind = None

    def open(self, gate: Gate, port: int) -> None:
        with self.lock:
            gate.behind = port

    def drain(self, gate: Gate) -> None:
        """Waits until all that a server that has ended had sent was heard."""
        until = time.monotonic() + PATIENCE
        while any(link.server for link in list(gate.links)):
            if time.monotonic() > until:
                raise Fault(f"server {gate.number} has ended, and its connections have not")
            time.sleep(0.002)

    def calm(self, is_calm: bool) -> None:
        """Sets whether nothing goes wrong from now on."""
        with self.lock:
            self.is_calm = is_calm
            for gate in self.gates:
                for link in gate.links:
                    if is_calm:
                        link.delay, link.piece, link.up.cut_at, link.down.cut_at = 0.0, PIECE, None, None

    def end(self) -> None:
        with self.lock:
            self.is_over = True
        if self.ident:
            self.join()
        for gate in self.gates:
            for link in list(gate.links):
                self.close(link)
            gate.listener.close()
        self.selector.close()

    # ---- the thread

    def run(self) -> None:
        try:
            while not self.is_over:
                self.turn()
        except Exception as fault:  # noqa: BLE001
            self.on_fault(str(fault) if isinstance(fault, Fault) else traceback.format_exc())

    def turn(self) -> None:
        wait = TICK if not self.timers else max(0.0, min(TICK, self.timers[0][0] - time.monotonic()))
        events = self.selector.select(wait)
        with self.lock:
            for key, _ in events:
                if key.fileobj.fileno() >= 0 and key.fileobj in self.selector.get_map():
                    key.data()
            now = time.monotonic()
            while self.timers and self.timers[0][0] <= now:
                heapq.heappop(self.timers)[2]()
            if now - self.looked > TICK:
                self.looked = now
                self.look_for_silence(now)

    def look_for_silence(self, now: float) -> None:
        for gate in self.gates:
            if gate.behind:
                gate.model.check_leases()
            since = gate.model.oldest()
            if since is not None and gate.behind and now - since > PATIENCE and not gate.model.may_fail:
                raise Fault(f"server {gate.number}: a reply is due for {now - since:.0f} s")

    def later(self, seconds: float, what: Callable[[], None]) -> None:
        heapq.heappush(self.timers, (time.monotonic() + seconds, next(self.order), what))

    def accept(self, gate: Gate) -> None:
        try:
            client, _ = gate.listener.accept()
        except OSError:
            return
        gate.count += 1
        self.connections += 1
        server = None
        if gate.behind is not None:
            try:
                server = socket.create_connection(("127.0.0.1", gate.behind), timeout=5)
            except OSError:
                pass
        link = Link(gate, client, server)
        gate.links.add(link)
        for stream in (client, server):
            if stream:
                stream.setblocking(False)
                stream.setsockopt(socket.IPPROTO_TCP, socket.TCP_NODELAY, 1)
        if not server:
            self.later(AWAY, lambda: self.close(link))
            return
        self.selector.register(client, selectors.EVENT_READ, lambda: self.hear_client(link))
        self.selector.register(server, selectors.EVENT_READ, lambda: self.hear_server(link))
        seconds = link.lifetime()
        if seconds is not None:
            self.later(seconds, lambda: self.cut(link))

    def hear(self, link: Link, stream: socket.socket, way: Way) -> bytes | None:
        """What came, None at the end, which is not asked for again."""
        try:
            data = stream.recv(PIECE)
        except BlockingIOError:
            return b""
        except OSError:
            data = b""
        if not data:
            self.selector.unregister(stream)
            way.is_over = True
            return None
        return data

    def hear_client(self, link: Link) -> None:
        data = self.hear(link, link.client, link.up)
        if data is None:
            self.push(link, link.up)
        elif data:
            end = link.up.arrived - len(link.up.unread)
            for frame in link.up.read(data):
                end += len(frame)
                link.up.ends.append((end, frame))
            self.bring(link, link.up, data)

    def hear_server(self, link: Link) -> None:
        if not link.server:
            return
        data = self.hear(link, link.server, link.down)
        if data is None:
            self.end_server(link)
            self.push(link, link.down)
        elif data:
            out, is_lost = bytearray(), False
            for frame in link.down.read(data):
                heard = self.plant.of_reply(link, frame)
                assert link.wire
                if heard is None or link.wire.is_closed:
                    continue
                link.gate.model.came(link.wire, frames.read_frame(heard))
                link.replies += heard[4] in NUMBERED
                if 0 < link.lost_reply == link.replies and not self.is_calm:
                    # (the server's end may stay open for a while: the model hears of all that it gives)
                    self.cut(link)
                    is_lost = True
                elif not is_lost:
                    out += heard
            if out:
                self.bring(link, link.down, bytes(out))

    def bring(self, link: Link, way: Way, data: bytes) -> None:
        """Puts bytes on their way, in pieces."""
        way.arrived += len(data)
        now, size = time.monotonic(), link.piece
        if len(data) > 60 * size:
            size = PIECE
        for at in range(0, len(data), size):
            way.due = max(way.due, now + (link.delay * link.dice.random() * 2 if link.delay else 0.0))
            way.pieces.append((way.due, data[at:at + size]))
        self.push(link, way)

    def push(self, link: Link, way: Way) -> None:
        """Hands over what is due."""
        target = link.server if way is link.up else link.client
        while way.pieces:
            if link not in link.gate.links or target is None or target.fileno() < 0:
                return
            due, piece = way.pieces[0]
            if due > time.monotonic():
                self.later(due - time.monotonic(), lambda: self.push(link, way))
                return
            room = None if way.cut_at is None else max(0, way.cut_at - way.left)
            some = piece if room is None else piece[:room]
            done = self.hand_over(link, way, target, some)
            way.left += done
            if done == len(piece):
                way.pieces.popleft()
            elif room is not None and done == room:
                self.cut(link)
                return
            else:
                way.pieces[0] = due, piece[done:]
                self.later(RETRY, lambda: self.push(link, way))
                return
        if way.is_over:
            self.close(link)

    def hand_over(self, link: Link, way: Way, target: socket.socket, piece: bytes) -> int:
        """Sends what the system takes; what goes to the server is reported to the model before. To an end that is gone all
        is sent, and lost."""
        if way is link.up:
            while way.ends and way.ends[0][0] <= way.left + len(piece):
                _, frame = way.ends.popleft()
                assert link.wire
                link.gate.model.sent(link.wire, frames.read_frame(frame), time.monotonic())
                if len(frame) == len(piece) and (reply := self.plant.swallowed(link, frame)) is not None:
                    if reply:
                        link.gate.model.came(link.wire, frames.read_frame(reply))
                        self.bring(link, link.down, reply)
                    return len(piece)
        try:
            return target.send(piece) if piece else 0
        except BlockingIOError:
            return 0
        except OSError:
            return len(piece)

    # ---- ends

    def cut(self, link: Link) -> None:
        """Ends a connection in the middle of whatever goes on, unless all is calm."""
        if link not in link.gate.links or self.is_calm:
            return
        self.cuts += 1
        if link.how == "reset":
            for stream in (link.client, link.server):
                if stream and stream.fileno() >= 0:
                    stream.setsockopt(socket.SOL_SOCKET, socket.SO_LINGER, struct.pack("ii", 1, 0))
        seconds = link.dice.random() * 0.15
        if link.how == "client first" and link.server:
            self.forget(link.client)
            self.later(seconds, lambda: self.close(link))
        elif link.how == "server first":
            self.end_server(link)
            self.forget(link.client, is_closed=False)
            self.later(seconds, lambda: self.close(link))
        else:
            self.close(link)

    def forget(self, stream: socket.socket | None, is_closed: bool = True) -> None:
        if stream is not None and stream.fileno() >= 0:
            if stream in self.selector.get_map():
                self.selector.unregister(stream)
            if is_closed:
                stream.close()

    def end_server(self, link: Link) -> None:
        if link.server is not None:
            assert link.wire
            link.gate.model.end(link.wire)
            self.forget(link.server)
            link.server = None

    def close(self, link: Link) -> None:
        self.end_server(link)
        self.forget(link.client)
        link.gate.links.discard(link)
