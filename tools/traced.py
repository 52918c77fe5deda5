"""Reads the trace of a run (docs/PROTOCOL.md, "Traces"), for the tools that show it.

It is no tool by itself: tools/picture draws what `Reader` reads, as one picture or as a page of steps.
"""

import sys
from typing import NamedTuple

WORDS = ("line", "send", "deliver", "deed", "hold", "release", "stop", "open", "snapshot", "print")
Lane = tuple[str, int]


class Packet(NamedTuple):
    """A packet, with its message or reply in words."""

    number: int
    sender: Lane
    receiver: Lane
    words: str

    def is_message(self) -> bool:
        return self.sender[0] == "client"


class Reader:
    """Reads a trace from front to end, and calls a method `on_..` of its own for each line. The servers and packets that a method is given exist.
    A line that is no line of a trace ends the program with its number; one with an unknown first word is passed over.

    After a line `packets` has the packets that were sent, by number, `delivered` those that were delivered, `puts` how many tuples were put at each
    server, and `clients` the clients that were named. `carried` has all packets that come to an end in the whole trace: the others are lost.
    """

    def __init__(self, lines: list[str]) -> None:
        first = lines[0].split() if lines else []
        if first[:2] != ["trace", "1"] or len(first) != 4 or first[2] != "servers" or not first[3].isdigit():
            sys.exit("line 1: no trace of version 1")
        self.servers = int(first[3])
        self.clients: set[int] = set()
        self.packets: dict[int, Packet] = {}
        self.delivered: set[int] = set()
        self.puts: dict[int, int] = {}
        self.carried = {int(word) for line in lines for word in carried_by(line.split())}
        self.begin()
        for at, line in enumerate(lines[1:], 2):
            word, _, rest = line.partition(" ")
            if word in WORDS:
                try:
                    getattr(self, word)(*parts_of(word, rest))
                except (ValueError, TypeError, KeyError, IndexError, StopIteration):
                    sys.exit(f"line {at}: no line of a trace: {line}")
        self.end()

    def begin(self) -> None:
        """Before the first line."""

    def end(self) -> None:
        """After the last."""

    def at(self, server: str) -> int:
        """The server of this number, if there is one."""
        if int(server) not in range(self.servers):
            raise ValueError
        return int(server)

    # ---- the lines of a trace, by their first words

    def line(self, number: str, text: str) -> None:
        first = text.split()[0]
        self.clients |= {int(first)} if first.isdigit() else set()
        self.on_line(number, text)

    def send(self, number: str, one: str, first: str, two: str, second: str, words: str) -> None:
        sender, receiver = (one, int(first)), (two, int(second))
        if {one, two} != {"client", "server"}:
            raise ValueError
        self.at(first if one == "server" else second)
        packet = self.packets[int(number)] = Packet(int(number), sender, receiver, words)
        self.clients |= {lane[1] for lane in (sender, receiver) if lane[0] == "client"}
        self.on_send(packet, int(number) not in self.carried)

    def deliver(self, number: str) -> None:
        self.carry(int(number), False)

    def carry(self, number: int, in_hand: bool) -> None:
        packet = self.packets[number]
        is_again = number in self.delivered
        self.delivered.add(number)
        self.on_deliver(packet, is_again, in_hand)

    def deed(self, server: str, what: str, client: str, number: str, rest: str = "") -> None:
        at = self.at(server)
        if what == "out":
            self.puts[at] = self.puts.get(at, 0) + 1
        said = {
            "out": f"tuple {self.puts.get(at)} is put by client {client}", "take": f"tuple {rest} is taken by client {client}",
            "pass": f"tuple {rest} was gone", "leave": f"client {client} leaves",
        }[what]
        self.on_deed(at, what, int(client), rest, f"server {at}: {said}")

    def hold(self, server: str, number: str, client: str, ticket: str) -> None:
        self.on_hold(self.at(server), int(number), client, ticket)

    def release(self, server: str, number: str, client: str, ticket: str) -> None:
        self.on_release(self.at(server), int(number), client, ticket)

    def stop(self, server: str, *how: str) -> None:
        inside = f" inside device call {how[1]}" if how[:1] == ("at",) else ""
        for number in carried_by(["stop", *how]):
            self.carry(int(number), True)
        self.on_stop(self.at(server), f"server {server} stops{inside}")

    def open(self, server: str) -> None:
        self.on_open(self.at(server))

    def snapshot(self, server: str) -> None:
        self.on_snapshot(self.at(server))

    def print(self, text: str) -> None:
        self.on_print(text)

    # ---- what a reader does at each

    def on_line(self, number: str, text: str) -> None:
        raise NotImplementedError

    def on_send(self, packet: Packet, is_lost: bool) -> None:
        raise NotImplementedError

    def on_deliver(self, packet: Packet, is_again: bool, in_hand: bool) -> None:
        raise NotImplementedError

    def on_deed(self, server: int, what: str, client: int, rest: str, words: str) -> None:
        raise NotImplementedError

    def on_hold(self, server: int, number: int, client: str, ticket: str) -> None:
        raise NotImplementedError

    def on_release(self, server: int, number: int, client: str, ticket: str) -> None:
        raise NotImplementedError

    def on_stop(self, server: int, words: str) -> None:
        raise NotImplementedError

    def on_open(self, server: int) -> None:
        raise NotImplementedError

    def on_snapshot(self, server: int) -> None:
        raise NotImplementedError

    def on_print(self, text: str) -> None:
        raise NotImplementedError


def carried_by(words: list[str]) -> list[str]:
    """The numbers of the packets that come to an end with this line."""
    if words[:1] == ["deliver"]:
        return words[1:2]
    return words[words.index("hand") + 1:] if words[:1] == ["stop"] and "hand" in words else []


def parts_of(word: str, rest: str) -> list[str]:
    counts = {"line": 1, "send": 5, "deed": 4, "print": 0}
    return rest.split(" ", counts[word]) if word in counts else rest.split(" ")
