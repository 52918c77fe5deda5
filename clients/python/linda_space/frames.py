"""The frames of docs/PROTOCOL.md: those that a client sends are spelled, those of a server are read. No call makes one that is too long."""

from __future__ import annotations

from dataclasses import dataclass
from struct import Struct, error
from typing import List, Tuple

from .events import Asking
from .limits import MOST_FIELDS, MOST_TEXT, REFUSALS, VERSION
from .values import Template, Value, Values

# What a frame begins with: its length, its kind, and what has always as many bytes.
HELLO, OUT, ASK, ACCEPT, NUMBERED = Struct(">IBBIB"), Struct(">IBQ"), Struct(">IBQB"), Struct(">IBQQQ"), Struct(">IBQ")
# A value that is an integer, and what a text begins with; the numbers of a reply.
INTEGER, TEXT = Struct(">Bq"), Struct(">BH")
ONE, TWO, CODE = Struct(">Q"), Struct(">QQ"), Struct(">BQ")


# ---- spelled

def spell_items(items: Template) -> bytes:
    data, count = bytearray(), len(items) - 1
    for item in items:
        if type(item) is int:
            data += INTEGER.pack(1, item)
        elif type(item) is str:
            content = item.encode()
            data += TEXT.pack(2, len(content)) + content
        elif type(item) is bool:
            data += b"\x03\x01" if item else b"\x03\x00"
        else:
            data.append(item._value_)       # type: ignore[union-attr]
        if count >= 0:                      # it comes after the tag
            data.append(count)
            count = -1
    return data


def spell_hello(client: int, fresh: bool) -> bytes:
    return HELLO.pack(7, 1, VERSION, client, fresh)


def spell_out(number: int, values: Values) -> bytes:
    items = spell_items(values)
    return OUT.pack(9 + len(items), 2, number) + items


def spell_ask(ticket: int, base: Asking) -> bytes:
    items = spell_items(base.template)
    return ASK.pack(10 + len(items), 3, ticket, base.takes) + items


def spell_accept(number: int, ticket: int, place: int) -> bytes:
    return ACCEPT.pack(25, 4, number, ticket, place)


def spell_cancel(ticket: int) -> bytes:
    return NUMBERED.pack(9, 5, ticket)


def spell_leave(number: int) -> bytes:
    return NUMBERED.pack(9, 6, number)


# ---- read

WELCOME, STORED, OFFER, READ, TAKEN, GONE, REFUSED, LEFT = range(0x11, 0x19)
HAVE_ID, HAVE_TUPLE = (STORED, OFFER, READ, TAKEN), (OFFER, READ, TAKEN)


@dataclass
class Reply:
    """A frame of a server. `number` is the last number of a Welcome, the ticket of an Offer and a Read, the code of a Refused; `id` is the detail of a
    Refused."""

    kind: int
    number: int
    id: int = 0
    tuple: Values = ()


def is_left(reply: Reply) -> bool:
    return reply.kind == REFUSED and REFUSALS.get(reply.number) == "Left"


def read_reply(data: bytes) -> Reply:
    """Reads a frame, of at least one byte after its length, from left to right; ValueError if it is none."""
    values: Values = ()
    kind, place = data[0], 0
    if not WELCOME <= kind <= LEFT:
        raise ValueError(f"a frame of kind {kind}")
    try:
        if kind in HAVE_ID:
            (number, place), at = TWO.unpack_from(data, 1), 17
        elif kind == REFUSED:
            (number, place), at = CODE.unpack_from(data, 1), 10
        else:
            (number,), at = ONE.unpack_from(data, 1), 9
        if kind in HAVE_TUPLE:
            values, at = read_values(data, at)
    except (IndexError, error):
        raise ValueError("a frame ends too early") from None
    if at != len(data):
        raise ValueError("a frame has more after its body")
    return Reply(kind, number, place, values)


def read_values(data: bytes, at: int) -> Tuple[Values, int]:
    """The tuple that begins at this byte, and where it ends. IndexError or struct.error if the data end before that."""
    values: List[Value] = []
    missing = -1                            # how many fields are to be read; -1: the tag is, and then their count
    while missing:
        kind = data[at]
        if kind == 1:
            values += INTEGER.unpack_from(data, at)[1:]
            at += 9
        elif kind == 2:
            size = TEXT.unpack_from(data, at)[1]
            if size > MOST_TEXT:
                raise ValueError("a frame has a text that is too long")
            content = data[at + 3:at + 3 + size]
            if len(content) < size:
                raise IndexError
            values.append(content.decode())
            at += 3 + size
        elif kind == 3 and data[at + 1] <= 1:
            values.append(data[at + 1] == 1)
            at += 2
        else:
            raise ValueError("a frame has something else in place of a value")
        if missing < 0:
            missing = data[at]
            at += 1
            if missing > MOST_FIELDS:
                raise ValueError("a frame has too many fields")
        else:
            missing -= 1
    return tuple(values), at
