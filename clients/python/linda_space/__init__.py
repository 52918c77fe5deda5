"""A client of a tuple space: of 1 to 16 servers (`linda serve`) that listen on ports of this machine, or on unix sockets. It needs only Python 3.8 and its
own library.

    from linda_space import ANY, INT, TEXT, In, Rd, Space

    with Space([7000, 7001], client=7) as space:
        space.out("job", 1)                                # (server, id), once the tuple is there for good
        space.look("job", INT)                             # ("job", 1), which stays there; None if there is none now
        space.read("job", INT)                             # the same, but waits until there is one
        space.take("job", INT, timeout=2.5)                # ("job", 1), which nobody else gets; None after 2.5 seconds
        with space.hold("job", INT) as offer:              # held for this client, and not taken before offer.accept()
            offer.accept()
        space.choose(In("job", ANY).wrap(5), Rd("stop").nack(9), timeout=2.5)
        space.work(In("job", INT), function)               # does one job after another, and loses none

A value is an int of 64 bits with a sign, a str of at most 4,095 bytes of UTF-8, or a bool. A tuple is a value, its tag, and at most 32 more, its fields. A
pattern is a value, which fits itself (True is not 1), or a formal: INT, TEXT and BOOL fit each value of their kind, ANY each value. A template is a tag and at
most 32 patterns. `pack` makes fields of a JSON value, `unpack` a JSON value of fields.

It sends version 2 of the frames, and waits, as docs/PROTOCOL.md says. A `Space` is for one thread at a time; a `Pool` is for several, and `linda_space.aio`
for asyncio. A process that was forked needs spaces of its own. Reconnections and lost holds are logged as "linda_space".
"""

from .errors import (
    BadReply, Busy, Closed, Forked, Gone, Idle, Left, NoConnection, NoNumber, NumberInUse, OutOfRange, Refused, Restored, SpaceError, Spent, TimedOut)
from .events import Alarm, Always, Choose, Event, In, Nack, Never, Rd, Wrap
from .limits import (  # noqa: F401
    BUSY_PATIENCE, LEAST_INTEGER, LONGEST_PAUSE, MOST_ASKS, MOST_BASES, MOST_CLIENT, MOST_DEPTH, MOST_FIELDS, MOST_INTEGER, MOST_LABEL, MOST_SERVERS, MOST_TEXT,
    MOST_TIME, NUMBER_LIMIT, PACKED_FIELDS, PATIENCE, REFUSALS, RENEWAL, SHORTEST_PAUSE, VERSION)
from .offers import Hold, Offer
from .pool import Pool
from .results import Kept, Outcome, Stored
from .space import Space
from .values import ANY, BOOL, INT, PACKED, TEXT, TRIES, Formal, Pattern, Template, Value, Values, pack, unpack

__version__ = "0.22.0"
__all__ = [
    "ANY", "Alarm", "Always", "BOOL", "BadReply", "Busy", "Choose", "Closed", "Event", "Forked", "Formal", "Gone", "Hold", "INT", "Idle", "In", "Kept", "Left",
    "Nack", "Never", "NoConnection", "NoNumber", "NumberInUse", "Offer", "OutOfRange", "Outcome", "PACKED", "Pattern", "Pool", "Rd", "Refused", "Restored", "Space",
    "SpaceError", "Spent", "Stored", "TEXT", "TRIES", "Template", "TimedOut", "Value", "Values", "Wrap", "pack", "unpack"]
