"""Reads the two banks of a folder into the state that is there, or into what is wrong at which place: docs/PROTOCOL.md, "Banks", in Python.

It is written only from the documents and shares nothing with the program, so that the two can be compared. It is no tool by itself.

A bank is in the first form (LND1) or in the second (LND2). The tuples of a state are the bytes that the second form has for them, whatever the form that
they were read in, so that states can be compared; `in_form` spells a bank again in another form. The first form has no spelling for a client that left.
"""

from dataclasses import dataclass, field
from pathlib import Path

NUMBERS = 2**63
CLIENTS = 65_536
SIDES = ("left", "right")
LETTERS = {1: b"LND1", 2: b"LND2"}
# By form: the bytes of a text's length, the longest text, the most fields.
LIMITS = {1: (1, 255, 16), 2: (2, 4_095, 32)}
# The form of new banks.
NEW = 2


class Bad(Exception):
    """Bytes that spell nothing here."""


@dataclass(frozen=True)
class State:
    """What a server keeps: the next id, the tuples by id, and for each client its last number with the reply."""

    next: int = 1
    bag: dict[int, bytes] = field(default_factory=dict)
    book: dict[int, tuple[int, tuple]] = field(default_factory=dict)


@dataclass(frozen=True)
class Verdict:
    """What a server says of two banks: the state that it opens with, or the line with which it refuses them."""

    state: State | None
    refusal: str = ""
    side: str = ""
    form: int = NEW
    generation: int = 0
    records: tuple[int, ...] = ()
    ends: tuple[int, ...] = ()


class Bytes:
    """Bytes that are read from the front, with values in a form."""

    def __init__(self, data: bytes, form: int = NEW) -> None:
        self.data, self.at, self.form = bytes(data), 0, form

    def take(self, size: int) -> bytes:
        begin, self.at = self.at, self.at + size
        if self.at > len(self.data):
            raise Bad
        return self.data[begin:self.at]

    def number(self, size: int = 8) -> int:
        return int.from_bytes(self.take(size), "big")

    def atom(self) -> bytes:
        """An atom, as the bytes that the second form has for it."""
        data, begin = self.data, self.at
        kind = data[begin:begin + 1]
        if kind == b"\1":
            return self.take(9)
        if kind == b"\2":
            width, longest, _ = LIMITS[self.form]
            front = begin + 1 + width
            size = int.from_bytes(data[begin + 1:front], "big")
            whole = self.take(1 + width + size)
            text = data[front:self.at]
            if size > longest:
                raise Bad
            try:
                text.decode()
            except UnicodeDecodeError:
                raise Bad from None
            return whole if width == 2 else b"\2" + size.to_bytes(2, "big") + text
        whole = self.take(2)
        if kind != b"\3" or whole[1] > 1:
            raise Bad
        return whole

    def tuple(self) -> bytes:
        """A tuple, as the bytes that the second form has for it: each tuple has one spelling there."""
        tag = self.atom()
        count = self.number(1)
        if count > LIMITS[self.form][2]:
            raise Bad
        return tag + bytes([count]) + b"".join([self.atom() for _ in range(count)])

    def reply(self) -> tuple:
        kind = self.number(1)
        if kind == 1:
            return "Stored", self.number()
        if kind == 2:
            return "Taken", self.number(), self.tuple()
        if kind == 3:
            return ("Gone",)
        if kind == 4 and self.form != 1:
            return ("Left",)
        raise Bad

    def deed(self) -> tuple:
        kind = self.number(1)
        if kind not in (1, 2, 3) and (kind != 4 or self.form == 1):
            raise Bad
        client, number = self.number(4), self.number()
        return kind, client, number, None if kind == 4 else self.tuple() if kind == 1 else self.number()

    def is_done(self) -> bool:
        return self.at == len(self.data)


def read_snapshot(data: bytes, form: int) -> State:
    it = Bytes(data, form)
    following = it.number()
    bag: dict[int, bytes] = {}
    last = 0
    for _ in range(it.number(4)):
        tuple_id = it.number()
        if not last < tuple_id < following:
            raise Bad
        bag[tuple_id] = it.tuple()
        last = tuple_id
    book: dict[int, tuple[int, tuple]] = {}
    count, last = it.number(4), -1
    for _ in range(count):
        client, number = it.number(4), it.number()
        if client <= last or not 1 <= number < NUMBERS:
            raise Bad
        book[client] = number, it.reply()
        last = client
    if not it.is_done() or not 1 <= following <= NUMBERS or count > CLIENTS:
        raise Bad
    return State(following, bag, book)


def read_journal(data: bytes, at: int, form: int) -> tuple[list[tuple[int, list[tuple]]], int]:
    """The records, each as the offset of its gate and its deeds, and the offset of the closed gate; Bad with the offset of the first bad one."""
    records = []
    while True:
        if at >= len(data):
            raise Bad(at)
        if data[at] != 1:
            return records, at
        try:
            it = Bytes(data[at + 1:at + 5])
            size = it.number(4)
            body = Bytes(data[at + 5:at + 5 + size], form)
            if len(body.data) != size or at + 5 + size >= len(data):
                raise Bad
            deeds = []
            while not body.is_done():
                deeds.append(body.deed())
            if not 1 <= len(deeds) <= 64:
                raise Bad
        except Bad:
            raise Bad(at) from None
        records.append((at, deeds))
        at += 5 + size


def do(state: State, deed: tuple) -> State:
    """The state after a deed, which changes the maps that it is given."""
    kind, client, number, what = deed
    last, kept = state.book.get(client, (0, ()))
    if number != last + 1 or number >= NUMBERS or kept == ("Left",) or (last == 0 and len(state.book) >= CLIENTS):
        raise Bad
    if kind == 1:
        if state.next >= NUMBERS:
            raise Bad
        state.bag[state.next] = what
        state.book[client] = number, ("Stored", state.next)
        return State(state.next + 1, state.bag, state.book)
    if kind == 2:
        if what not in state.bag:
            raise Bad
        state.book[client] = number, ("Taken", what, state.bag.pop(what))
    else:
        state.book[client] = number, ("Gone",) if kind == 3 else ("Left",)
    return state


def heading(data: bytes) -> int | None:
    """The generation of a bank, 0 if it is a foreign one, None if there is none."""
    if len(data) < 17 or data[0] != 1:
        return None
    return int.from_bytes(data[5:13], "big") if form_of(data) else 0


def form_of(data: bytes) -> int:
    """The form that the letters of a bank name, 0 if they are others."""
    return next((form for form, letters in LETTERS.items() if data[1:5] == letters), 0)


def verdict(left: bytes, right: bytes) -> Verdict:
    """What a server says of two banks."""
    if not left and not right:
        return Verdict(State())
    generations = heading(left), heading(right)
    for side, generation in zip(SIDES, generations):
        if generation == 0:
            return Verdict(None, f"store: damaged {side} 1")
    if generations == (None, None):
        return Verdict(None, "store: no store")
    if generations[0] == generations[1]:
        return Verdict(None, "store: damaged left 5")
    is_right = (generations[1] or 0) > (generations[0] or 0)
    side, data, generation = SIDES[is_right], (left, right)[is_right], generations[is_right] or 0
    form = form_of(data)

    def damaged(offset: int) -> Verdict:
        return Verdict(None, f"store: damaged {side} {offset}")

    size = int.from_bytes(data[13:17], "big")
    if 17 + size >= len(data):
        return damaged(17)
    try:
        records, end = read_journal(data, 17 + size, form)
    except Bad as fault:
        return damaged(fault.args[0])
    try:
        state = read_snapshot(data[17:17 + size], form)
    except Bad:
        return damaged(17)
    for gate, deeds in records:
        try:
            for deed in deeds:
                state = do(state, deed)
        except Bad:
            return damaged(gate)
    gates = tuple(gate for gate, _ in records)
    return Verdict(state, "", side, form, generation, gates, gates[1:] + (end,))


def spell_bank(generation: int, state: State) -> bytes:
    """A new bank with this state as its snapshot and no record."""
    def number(value: int, size: int = 8) -> bytes:
        return value.to_bytes(size, "big")

    replies = {"Stored": 1, "Taken": 2, "Gone": 3, "Left": 4}
    snapshot = number(state.next) + number(len(state.bag), 4) + b"".join(number(place) + state.bag[place] for place in sorted(state.bag))
    entries = [number(client, 4) + number(last) + bytes([replies[name]]) + b"".join(part if isinstance(part, bytes) else number(part) for part in parts)
               for client, (last, (name, *parts)) in sorted(state.book.items())]
    snapshot += number(len(entries), 4) + b"".join(entries)
    return b"\1" + LETTERS[NEW] + number(generation) + number(len(snapshot), 4) + snapshot + b"\0"


def spell_tuple(second: bytes, form: int) -> bytes:
    """The bytes that a form has for the tuple that the second form spells so; Bad if it has none."""
    it, (width, longest, most) = Bytes(second), LIMITS[form]

    def spelled() -> bytes:
        atom = it.atom()
        if atom[0] != 2:
            return atom
        text = atom[3:]
        if len(text) > longest:
            raise Bad
        return b"\2" + len(text).to_bytes(width, "big") + text

    tag, count = spelled(), it.number(1)
    if count > most:
        raise Bad
    return tag + bytes([count]) + b"".join([spelled() for _ in range(count)])


def in_form(data: bytes, form: int) -> bytes:
    """A whole bank, spelled again in this form; Bad if it has a tuple, or a client that left, without a spelling there."""
    def number(value: int, size: int = 8) -> bytes:
        return value.to_bytes(size, "big")

    def without_more(kind: int) -> bytes:
        """The first byte of a deed or of a reply; Bad if the form has none for a client that left."""
        if kind == 4 and form == 1:
            raise Bad
        return bytes([kind])

    def spell_reply(reply: tuple) -> bytes:
        if reply[0] in ("Gone", "Left"):
            return without_more(3 if reply[0] == "Gone" else 4)
        return b"\1" + number(reply[1]) if reply[0] == "Stored" else b"\2" + number(reply[1]) + spell_tuple(reply[2], form)

    def spell_deed(deed: tuple) -> bytes:
        kind, client, count, what = deed
        if kind == 4:
            return without_more(kind) + number(client, 4) + number(count)
        return bytes([kind]) + number(client, 4) + number(count) + (spell_tuple(what, form) if kind == 1 else number(what))

    size = int.from_bytes(data[13:17], "big")
    state = read_snapshot(data[17:17 + size], form_of(data))
    records, _ = read_journal(data, 17 + size, form_of(data))
    snapshot = number(state.next) + number(len(state.bag), 4) + b"".join(number(place) + spell_tuple(state.bag[place], form) for place in sorted(state.bag))
    snapshot += number(len(state.book), 4) + b"".join(number(client, 4) + number(last) + spell_reply(reply) for client, (last, reply) in sorted(state.book.items()))
    out = b"\1" + LETTERS[form] + data[5:13] + number(len(snapshot), 4) + snapshot
    for _, deeds in records:
        payload = b"".join(map(spell_deed, deeds))
        out += b"\1" + number(len(payload), 4) + payload
    return out + b"\0"


def folder_bytes(folder: Path) -> tuple[bytes, bytes]:
    """The bytes of both banks of a folder; a missing file is an empty one."""
    left, right = (folder / f"{side}.bank" for side in SIDES)
    return left.read_bytes() if left.exists() else b"", right.read_bytes() if right.exists() else b""
