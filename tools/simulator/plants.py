"""Bugs that are planted between the servers and what looks at them; each must be found."""

from __future__ import annotations

import random
from pathlib import Path
from typing import TYPE_CHECKING

import banks
from served import frames

if TYPE_CHECKING:
    from simulator.link import Link

NAMES = {
    "unsynced": "a sync of the disk reports success and syncs nothing",
    "retried": "a sync that failed is tried again, and that it succeeds then is believed",
    "early": "a bank is opened and answered from without its sync",
    "lost": "the last record is lost at a stop",
    "back": "a tuple that was taken is there again after a stop",
    "missing": "a tuple that is to be there is lost after a stop",
    "kept": "another reply is kept for a client after a stop",
    "forgotten": "a client's number and its reply are lost after a stop",
    "reply": "a put is answered with another id",
    "again": "a put is answered with an id that was given before",
    "twice": "a take is answered with a tuple that was taken before",
    "other": "a repeat is answered by another reply",
    "gone": "a take is answered with Gone, and done",
    "skipped": "a put is answered and not done",
    "held": "a Cancel is lost, so that a tuple stays held",
    "silent": "a reply is left out",
    "lease": "a server keeps no lease",
    "order": "a read is answered as if it were of another tuple",
    "line": "`linda call` prints another tuple than it took",
    "server": "the Python library returns another server than it put at",
}


class Plant:
    """The bug of this name, now and then; none if the name is empty."""

    def __init__(self, name: str, seed: str) -> None:
        self.name, self.dice = name, random.Random(f"plant {seed}")
        self.stored: dict[int, list[int]] = {}
        self.taken: dict[int, list[tuple[int, bytes]]] = {}
        self.planted = 0

    def is_due(self, name: str, often: float) -> bool:
        if self.name != name or self.dice.random() >= often:
            return False
        self.planted += 1
        return True

    def of_reply(self, link: Link, frame: bytes) -> bytes | None:
        """A reply of the server, as it is heard: None if it is left out."""
        if not self.name:
            return frame
        name, parts = frames.read_frame(frame)
        at = link.gate.number
        record = link.gate.model.records.get(link.wire.client or 0) if link.wire else None
        is_repeat = bool(record and "number" in parts and parts["number"] == record.last)
        if name == "Stored" and not is_repeat:
            before = self.stored.setdefault(at, [])
            if self.is_due("reply", 0.02):
                return frames.frame(b"\x12" + frame[5:13] + frames.spell_number(parts["id"] + 1))
            if before and self.is_due("again", 0.02):
                return frames.frame(b"\x12" + frame[5:13] + frames.spell_number(self.dice.choice(before)))
            before.append(parts["id"])
        if name == "Taken" and not is_repeat:
            taken = self.taken.setdefault(at, [])
            if taken and self.is_due("twice", 0.02):
                place, what = self.dice.choice(taken)
                return frames.frame(b"\x15" + frame[5:13] + frames.spell_number(place) + what)
            if self.is_due("gone", 0.02):
                return frames.frame(b"\x16" + frame[5:13])
            taken.append((parts["id"], frame[21:]))
        if is_repeat and "id" in parts and self.is_due("other", 0.2):
            return frames.frame(frame[4:13] + frames.spell_number(parts["id"] + 1) + frame[21:])
        if name == "Read" and self.is_due("order", 0.05):
            return frames.frame(frame[4:13] + frames.spell_number(parts["id"] + 1) + frame[21:])
        if self.is_due("silent", 0.01):
            return None
        return frame

    def swallowed(self, link: Link, frame: bytes) -> bytes | None:
        """None if a message goes to the server; else what is answered in its place, b"" for nothing."""
        before = self.stored.get(link.gate.number)
        if before and frame[4] == 2 and frame[5:13] != bytes(8) and self.is_due("skipped", 0.02):
            return frames.frame(b"\x12" + frame[5:13] + frames.spell_number(max(before) + 1))
        return b"" if frame[4] == 5 and self.is_due("held", 0.2) else None

    def plan(self) -> list[str]:
        """For disk.c."""
        line = {"unsynced": "change 0 lie 3", "retried": "change 0 retry 0", "early": "change 0 early 0"}.get(self.name)
        return [line] if line else []

    def before_look(self, folder: Path) -> None:
        """Changes the banks of a server that has stopped, before they are read: closes the gate of the last record."""
        found = banks.verdict(*banks.folder_bytes(folder))
        if found.records and self.is_due("lost", 0.5):
            with open(folder / f"{found.side}.bank", "r+b") as file:
                file.seek(found.records[-1])
                file.write(b"\0")

    def after_look(self, folder: Path, taken: dict[int, bytes]) -> None:
        """Changes the banks that were found right."""
        found = banks.verdict(*banks.folder_bytes(folder))
        state = found.state
        if state is None or not found.side:
            return
        bag, book = dict(state.bag), dict(state.book)
        if taken and self.is_due("back", 0.5):
            place = self.dice.choice(sorted(taken))
            bag[place] = taken[place]
        elif bag and self.is_due("missing", 0.5):
            del bag[self.dice.choice(sorted(bag))]
        elif book and self.is_due("kept", 0.5):
            client = self.dice.choice(sorted(book))
            book[client] = book[client][0], ("Stored", 1_000_000)
        elif book and self.is_due("forgotten", 0.5):
            del book[self.dice.choice(sorted(book))]
        if (bag, book) != (state.bag, state.book):
            bank = banks.spell_bank(found.generation, banks.State(state.next, bag, book))
            (folder / f"{found.side}.bank").write_bytes(bank)

    def of_line(self, line: str) -> str:
        """A line of `linda call`."""
        return line.replace("binds [", "binds [9", 1) if " took " in line and self.is_due("line", 0.1) else line

    def of_place(self, place: tuple[int, int]) -> tuple[int, int]:
        """What a put by the Python library returned."""
        return (place[0] + 1, place[1]) if self.is_due("server", 0.05) else place
