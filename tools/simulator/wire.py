"""What the model of a server knows of its clients and their connections, and of a moment; how a state is written."""

from __future__ import annotations

from collections import deque
from dataclasses import dataclass, field
from typing import NamedTuple

import banks
from served import frames

# The first form: bytes of a text, and fields beside the tag.
OLD_TEXT, OLD_FIELDS = 255, 16


class Fault(Exception):
    """What is not as it must be."""


@dataclass
class Pending:
    """A numbered message that is not answered. `floor` is the greatest id that was known before it was sent; `is_sure`
    says that what it accepts was held for it, `is_done` that a Welcome had its number."""

    number: int
    name: str
    parts: dict
    floor: int
    is_sure: bool = False
    is_done: bool = False

    def has_no_old_spelling(self) -> bool:
        """Whether a bank of the first form has no spelling for it."""
        what = self.parts.get("tuple", ())
        is_long = any(isinstance(it, str) and len(it.encode()) > OLD_TEXT for it in what)
        return self.name == "Leave" or len(what) > 1 + OLD_FIELDS or is_long


@dataclass
class Record:
    """What a server has answered to a client: its last number with the reply, each reply by number; and what is
    unanswered."""

    last: int = 0
    reply: tuple = ()
    pending: Pending | None = None
    replies: dict[int, tuple] = field(default_factory=dict)

    @property
    def has_left(self) -> bool:
        return self.reply == ("Left",)

    def numbers(self) -> set[int]:
        """What the server may have as the last number."""
        return {self.last} | ({self.pending.number} if self.pending else set())


@dataclass
class Ask:
    remove: bool
    template: tuple
    when: int
    is_open: bool = True


class Owed(NamedTuple):
    """A reply that is due on a connection, in order; `when` is the time of the message."""

    what: str
    number: int
    when: float
    is_fresh: bool = False


@dataclass(eq=False)
class Wire:
    """A connection as the server sees it."""

    name: str
    client: int | None = None
    greeting: deque[int] = field(default_factory=deque)
    owed: deque[Owed] = field(default_factory=deque)
    asks: dict[int, Ask] = field(default_factory=dict)
    is_closed: bool = False
    # When it said something last, and whether its lease has run out, as others' offers show.
    heard: float = 0.0
    is_late: bool = False


class Mark(NamedTuple):
    """How far each client was at a moment: its last answered number and its unanswered message."""

    last: dict[int, int]
    pending: dict[int, Pending]

    def most(self, client: int) -> int:
        """The last number that was sent."""
        return self.pending[client].number if client in self.pending else self.last.get(client, 0)


def tuple_of(spelled: bytes) -> tuple:
    return frames.Reader(spelled).items()


def fits(pattern: object, value: object) -> bool:
    kinds = {frames.INT: int, frames.TEXT: str, frames.BOOL: bool}
    if pattern in kinds:
        return type(value) is kinds[pattern]
    return pattern is frames.ANY or (type(value) is type(pattern) and value == pattern)


def matches(template: tuple, value: tuple) -> bool:
    return len(template) == len(value) and all(map(fits, template, value))


def short(value: object) -> str:
    text = str(value)
    return text if len(text) < 160 else f"{text[:100]}..{len(text)}..{text[-20:]}"


def differing(found: list, wanted: list) -> str:
    """The lines in which two lists differ."""
    more, lacking = [it for it in found if it not in wanted], [it for it in wanted if it not in found]
    return f"{short(more)} but should have {short(lacking)}"


def reply_words(reply: tuple) -> list[str]:
    return [reply[0].lower(), *(frames.text_of(it) if isinstance(it, tuple) else str(it) for it in reply[1:])]


def state_lines(following: int, bag: dict[int, tuple], book: dict[int, tuple[int, tuple]]) -> list[str]:
    """The lines of `linda inspect DIR --tuples --clients` about a state."""
    lines = [f"next {following} tuples {len(bag)} clients {len(book)}"]
    lines += [f"tuple {place} {frames.text_of(what)} free" for place, what in sorted(bag.items())]
    kept = [(client, number, " ".join(reply_words(reply))) for client, (number, reply) in sorted(book.items())]
    return lines + [f"client {client} {number} {words}" for client, number, words in kept]


def bag_of(state: banks.State) -> dict[int, tuple]:
    return {place: tuple_of(what) for place, what in state.bag.items()}


def book_of(state: banks.State) -> dict[int, tuple[int, tuple]]:
    def read(reply: tuple) -> tuple:
        return tuple(tuple_of(it) if isinstance(it, bytes) else it for it in reply)

    return {client: (number, read(reply)) for client, (number, reply) in state.book.items()}


def lines_of(state: banks.State) -> list[str]:
    return state_lines(state.next, bag_of(state), book_of(state))
