"""A connection of a client to a server through the network: its two ways, and what will happen to it."""

from __future__ import annotations

import random
import socket
from collections import deque
from typing import TYPE_CHECKING

from simulator.wire import Wire

if TYPE_CHECKING:
    from simulator.network import Gate

PIECE = 65_536


class Way:
    """One direction of a connection: what is on its way, in pieces that are due at a time, and the frames that end."""

    def __init__(self) -> None:
        self.pieces: deque[tuple[float, bytes]] = deque()
        self.ends: deque[tuple[int, bytes]] = deque()
        self.unread = bytearray()
        self.arrived = self.left = 0
        self.due = 0.0
        self.cut_at: int | None = None
        self.is_over = False

    def read(self, data: bytes) -> list[bytes]:
        """The frames that these bytes complete."""
        self.unread += data
        whole = []
        while len(self.unread) >= 4 and len(self.unread) >= (end := 4 + int.from_bytes(self.unread[:4], "big")):
            whole.append(bytes(self.unread[:end]))
            del self.unread[:end]
        return whole


class Link:
    """A connection of a client, and the one to the server that belongs to it."""

    def __init__(self, gate: Gate, client: socket.socket, server: socket.socket | None) -> None:
        self.gate, self.client, self.server = gate, client, server
        self.name = f"{gate.number}.{gate.count}"
        self.dice = random.Random(f"{gate.network.seed} {self.name}")
        self.up, self.down = Way(), Way()
        self.wire: Wire | None = gate.model.begin(self.name) if server else None
        self.delay, self.piece = 0.0, PIECE
        # Which reply to a numbered message is lost with the connection, and how many there were.
        self.lost_reply, self.replies = 0, 0
        self.how = "both"
        if not gate.network.is_calm:
            self.draw()

    def draw(self) -> None:
        """What happens to it."""
        dice = self.dice
        self.delay = dice.choice([0.0, 0.0, 0.0, 0.002, 0.01])
        self.piece = dice.choice([PIECE, PIECE, PIECE, 1_000, 20, 3])
        self.how = dice.choice(["both", "both", "reset", "client first", "server first"])
        if dice.random() < 0.25:
            self.lost_reply = dice.randint(1, 6)
        if dice.random() < 0.5:
            dice.choice([self.up, self.down]).cut_at = int(dice.expovariate(1 / dice.choice([60, 600, 6_000])))

    def lifetime(self) -> float | None:
        return self.dice.expovariate(1.0) if not self.gate.network.is_calm and self.dice.random() < 0.4 else None
