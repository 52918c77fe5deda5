"""What calls return."""

from __future__ import annotations

from dataclasses import dataclass, field
from typing import Any, Optional, Tuple

from .values import Value, Values


@dataclass(frozen=True)
class Outcome:
    """How a synchronization ended.

    - `base`: the number of the base that was chosen, from 0, in tree order.
    - `kind`: "took" for an input, "read" for a read, "alarm", or "always".
    - `labels`: the labels above that base, innermost first.
    - `raised`: the nack numbers that are not above it, in tree order.
    - `server`, `id`, `tuple`, `binds`: of an input or a read: the server, the tuple's id there, the tuple, and what is at the places of INT, TEXT and BOOL.
    - `value`: of an Always.
    """

    base: int
    kind: str
    labels: Tuple[int, ...]
    raised: Tuple[int, ...]
    server: Optional[int] = None
    id: Optional[int] = None
    tuple: Any = None
    binds: Values = ()
    value: Optional[Value] = None


@dataclass(frozen=True)
class Stored:
    """An out was done: the server, and the tuple's id there; `tuple` is the tuple, which is not compared."""

    server: int
    id: int
    tuple: Optional[Values] = field(default=None, compare=False)


@dataclass(frozen=True)
class Kept:
    """The reply that a server keeps to this client's last numbered message there. `kind` is "stored" for an out, with the `id`; "taken" for a take, with the
    `id` and the `tuple`; "gone" for one that came too late: nothing was taken; "left" for the number with which it left."""

    server: int
    number: int
    kind: str
    id: Optional[int] = None
    tuple: Any = None
