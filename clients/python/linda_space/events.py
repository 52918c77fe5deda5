"""Events: what a client waits for."""

from __future__ import annotations

from dataclasses import dataclass
from typing import Any, FrozenSet, List, Sequence, Tuple

from .errors import OutOfRange
from .limits import MOST_ASKS, MOST_BASES, MOST_DEPTH, MOST_LABEL, MOST_TIME
from .values import ANY, TRIES, Formal, Pattern, Template, Value, Values, as_value, few_enough, within


class Event:
    """What `Space.sync` waits for: a tree of choices, labels and nacks, with bases as its leaves: In, Rd, Alarm, Always and Never. The bases are numbered from
    0 in tree order."""

    _size = 0, 1, 0         # how deep its bases are in it, or -1 if it has none; how many they are; how many of them ask

    def wrap(self, label: int) -> Wrap:
        """This event under a label."""
        return Wrap(label, self)

    def nack(self, number: int) -> Nack:
        """This event under a nack number, which is raised if what is chosen is not below it."""
        return Nack(number, self)


@dataclass(frozen=True, init=False)
class Asking(Event):
    """A base that servers are asked for."""

    template: Template
    takes = False
    _size = 0, 1, 1

    def __init__(self, tag: Value, *patterns: Pattern) -> None:
        """Raises OutOfRange if the tag or a pattern is not valid, or if there are too many."""
        object.__setattr__(self, "template", (as_value(tag), *[item if type(item) is Formal else as_value(item) for item in few_enough(patterns)]))

    def fits(self, values: Values) -> bool:
        """Whether the template matches this tuple."""
        if len(values) != len(self.template):
            return False
        for item, value in zip(self.template, values):
            if not (item.fits(value) if type(item) is Formal else type(item) is type(value) and item == value):
                return False
        return True

    def binds(self, values: Values) -> Values:
        """What is at the places of INT, TEXT and BOOL in a tuple that it matches, in order."""
        return tuple([value for item, value in zip(self.template, values) if type(item) is Formal and item is not ANY])


class In(Asking):
    """An input: `In(tag, *patterns)` is chosen when a server has taken a tuple that matches away for this client."""

    takes = True


class Rd(Asking):
    """A read: `Rd(tag, *patterns)` is chosen when a server has sent a copy of a tuple that matches."""


@dataclass(frozen=True)
class Alarm(Event):
    """Chosen once the clock of the space (`Space.clock`) is at this time or later: milliseconds, 0 to 2^64 - 1. `Space.after` makes one from seconds."""

    time: int

    def __post_init__(self) -> None:
        within("a time", self.time, 0, MOST_TIME)


@dataclass(frozen=True)
class Always(Event):
    """A value that is always there."""

    value: Value

    def __post_init__(self) -> None:
        object.__setattr__(self, "value", as_value(self.value))


@dataclass(frozen=True)
class Never(Event):
    """Never chosen."""


@dataclass(frozen=True, init=False)
class Choose(Event):
    """`Choose(*events)`: at most one of these events, of which there may be any number, is chosen."""

    events: Tuple[Event, ...]

    def __init__(self, *events: Event) -> None:
        object.__setattr__(self, "events", tuple(map(as_event, events)))
        object.__setattr__(self, "_size", size_of(self.events))


@dataclass(frozen=True)
class Wrap(Event):
    """An event under a label, a number from 0 to 2^64 - 1."""

    label: int
    event: Event

    def __post_init__(self) -> None:
        within("a label", self.label, 0, MOST_LABEL)
        object.__setattr__(self, "_size", size_of((as_event(self.event),)))


@dataclass(frozen=True)
class Nack(Event):
    """An event under a nack number, from 0 to 2^64 - 1."""

    number: int
    event: Event

    def __post_init__(self) -> None:
        within("a nack number", self.number, 0, MOST_LABEL)
        object.__setattr__(self, "_size", size_of((as_event(self.event),)))


def as_event(event: object) -> Event:
    if not isinstance(event, (In, Rd, Alarm, Always, Never, Choose, Wrap, Nack)):
        raise OutOfRange(f"no event: {event!r}")
    if isinstance(event, Asking) and TRIES in event.template:
        raise OutOfRange(f"TRIES is for the jobs of work(.., tries=N) only: {event!r}")
    return event


def size_of(events: Sequence[Event]) -> Tuple[int, int, int]:
    """The size of an event that is made of these."""
    deepest, bases, asks = -1, 0, 0
    for event in events:
        depth, of_all, of_asks = event._size
        deepest, bases, asks = deepest if depth < deepest or depth < 0 else depth + 1, bases + of_all, asks + of_asks
    return deepest, bases, asks


@dataclass
class Base:
    """A base: its number, the event, the labels above it, innermost first, and the places of the nacks above it."""

    number: int
    leaf: Any
    labels: Tuple[int, ...]
    above: FrozenSet[int]


def bases_and_nacks(event: Event) -> Tuple[List[Base], List[int]]:
    """The bases and the nack numbers of an event, each in tree order. Raises OutOfRange if it is too deep, or else has too many bases."""
    deepest, count, asks = event._size
    if deepest > MOST_DEPTH:
        raise OutOfRange(f"a leaf of the event is under more than {MOST_DEPTH} nodes")
    if count > MOST_BASES or asks > MOST_ASKS:
        raise OutOfRange(f"the event has more than {MOST_BASES} bases, or more than {MOST_ASKS} inputs and reads")
    bases: List[Base] = []
    nacks: List[int] = []
    left: List[Tuple[Event, Tuple[int, ...], FrozenSet[int]]] = [(event, (), frozenset())]
    while left:
        node, labels, above = left.pop()
        if node._size[0] == 0:
            bases.append(Base(len(bases), node, labels, above))
        elif isinstance(node, Choose):
            left += [(member, labels, above) for member in reversed(node.events)]
        elif isinstance(node, Wrap):
            left.append((node.event, (node.label, *labels), above))
        elif isinstance(node, Nack):
            nacks.append(node.number)
            left.append((node.event, labels, above | {len(nacks) - 1}))
    return bases, nacks
