"""The steps of a trace (docs/PROTOCOL.md, "Traces"), and the page that shows them one after another.

It is no tool by itself: `tools/picture --page` writes the page, and tools/trace compares its steps with the model. A step is what a line of the trace
says, with what changes by it: a change is a place, a key there, and its new value, or None if the key is gone. The places are

- `tuples S`, of server S: id to the tuple and for whom it is held;
- `waits S`: "C T" to what client C waits for there under ticket T;
- `servers`: the number of a server that is stopped, to that word;
- `clients`: the number of a client to the command that is not done, or to "has left", or to nothing;
- `packets`: the number of a packet that is under way to its ends and its words;
- `printed`: the place of a printed line, from 0, to the line.

The page is picture_page.html with these in it. It loads nothing.
"""

import json
from pathlib import Path

from traced import Packet, Reader

PAGE = Path(__file__).resolve().with_suffix(".html")
# The words that end a command of a client when they are printed for it.
ENDS = ("stored", "took", "read", "alarm", "always", "dropped", "left")


class Steps(Reader):
    """The steps of a trace, and the lines of its script. `now` has all places as they are after the last step that was read."""

    def begin(self) -> None:
        self.now: dict[str, dict] = {}
        self.lines: list[list[str]] = []
        self.steps: list[dict] = []
        # The ask that was just delivered and that a server may refuse, and the client whose command began with this line of the script.
        self.asked: tuple[int, str] | None = None
        self.began: int | None = None
        self.step("Nothing has happened yet.")

    def step(self, said: str, packet: int | None = None, how: str = "") -> None:
        self.steps.append({"line": len(self.lines) - 1, "said": said, "packet": packet, "how": how, "changes": []})

    def change(self, place: str, key: str | int, value: object) -> None:
        if value is not None:
            self.now.setdefault(place, {})[str(key)] = value
        elif self.now.get(place, {}).pop(str(key), None) is None:
            return
        self.steps[-1]["changes"].append([place, str(key), value])

    def on_line(self, number: str, text: str) -> None:
        for lost in [it for it, packet in self.now.get("packets", {}).items() if packet["lost"]]:
            self.change("packets", lost, None)
        self.lines.append([number, text])
        self.step(f"Line {number} of the script begins.")
        self.asked, self.began = None, None
        first, _, command = text.partition(" ")
        if first.isdigit() and not self.now.get("clients", {}).get(first):
            self.began = int(first)
            self.change("clients", first, command.strip())

    def on_send(self, packet: Packet, is_lost: bool) -> None:
        ends = [" ".join(map(str, lane)) for lane in (packet.sender, packet.receiver)]
        said = f"{ends[0].capitalize()} sends packet {packet.number} to {ends[1]}{', which is lost' if is_lost else ''}."
        self.step(said, packet.number, "sent")
        self.change("packets", packet.number, {"from": ends[0], "to": ends[1], "words": packet.words, "lost": is_lost})
        if not packet.is_message():
            place, word, ticket = f"waits {packet.sender[1]}", packet.words.split(" ")[0], packet.words.split(" ")[1]
            if word == "read":
                self.change(place, f"{packet.receiver[1]} {ticket}", None)
            elif word == "refused" and self.asked and self.asked[0] == packet.sender[1]:
                self.change(place, self.asked[1], None)

    def on_deliver(self, packet: Packet, is_again: bool, in_hand: bool) -> None:
        how, meanwhile = f"delivered{' again' if is_again else ''}", "; the server stops meanwhile" if in_hand else ""
        self.step(f"Packet {packet.number} is {how} to {' '.join(map(str, packet.receiver))}: {packet.words}{meanwhile}.", packet.number, how)
        self.change("packets", packet.number, None)
        self.asked = None
        if packet.is_message():
            server, client = packet.receiver[1], packet.sender[1]
            word, ticket, *template = packet.words.split(" ", 2)
            key = f"{client} {ticket}"
            if word == "cancel":
                self.change(f"waits {server}", key, None)
            elif word in ("in", "rd") and not self.is_open(server, key):
                self.change(f"waits {server}", key, f"{word} {template[0]}")
                self.asked = server, key

    def is_open(self, server: int, key: str) -> bool:
        held = any(it["held"] == key for it in self.now.get(f"tuples {server}", {}).values())
        return held or key in self.now.get(f"waits {server}", {})

    def on_deed(self, server: int, what: str, client: int, rest: str, words: str) -> None:
        self.step(f"{words[0].upper()}{words[1:]}.")
        if what == "out":
            self.change(f"tuples {server}", self.puts[server], {"text": rest, "held": ""})
        elif what == "take":
            self.change(f"tuples {server}", rest, None)
        elif what == "leave":
            self.end_waits(server, f"{client} ")

    def end_waits(self, server: int, begin: str) -> None:
        for key in [it for it in self.now.get(f"waits {server}", {}) if it.startswith(begin)]:
            self.change(f"waits {server}", key, None)

    def on_hold(self, server: int, number: int, client: str, ticket: str) -> None:
        self.step(f"Server {server} holds tuple {number} for client {client}, ticket {ticket}.")
        self.change(f"tuples {server}", number, {**self.now[f"tuples {server}"][str(number)], "held": f"{client} {ticket}"})
        self.change(f"waits {server}", f"{client} {ticket}", None)

    def on_release(self, server: int, number: int, client: str, ticket: str) -> None:
        self.step(f"Server {server} holds tuple {number} for client {client} no more.")
        if kept := self.now[f"tuples {server}"].get(str(number)):
            self.change(f"tuples {server}", number, {**kept, "held": ""})

    def on_stop(self, server: int, words: str) -> None:
        self.step(f"{words[0].upper()}{words[1:]}.")
        self.change("servers", server, "stopped")
        self.end_waits(server, "")

    def on_open(self, server: int) -> None:
        self.step(f"Server {server} is opened again.")
        self.change("servers", server, None)

    def on_snapshot(self, server: int) -> None:
        self.step(f"Server {server} is asked for a snapshot.")

    def on_print(self, text: str) -> None:
        self.step(f"A line is printed: {text}")
        self.change("printed", len(self.now.get("printed", {})), text)
        client, word = [*text.split(" "), ""][:2]
        if client.isdigit() and (word in ENDS or (word == "refused" and self.began == int(client))):
            self.change("clients", client, "has left" if word == "left" else "")


def page_of(lines: list[str]) -> str:
    """The page of a trace."""
    read = Steps(lines)
    run = {"servers": read.servers, "lines": read.lines, "steps": read.steps}
    # (in a script `</` would end it)
    return PAGE.read_text().replace("@RUN@", json.dumps(run, ensure_ascii=False, separators=(",", ":")).replace("<", "\\u003c"))
