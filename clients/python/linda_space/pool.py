"""`Pool`: several spaces, for programs that make many calls at once."""

from __future__ import annotations

import logging
import math
import os
import threading
import time
import weakref
from collections import deque
from contextlib import contextmanager
from types import TracebackType
from typing import Any, Callable, ContextManager, Deque, Dict, Iterable, Iterator, List, Mapping, Optional, Sequence, Set, Tuple, Type, TypeVar, overload

from .errors import Closed, NoConnection, NoNumber, OutOfRange, Refused, SpaceError, TimedOut
from .events import Event
from .links import Port
from .numbers import Client
from .offers import Offer
from .results import Outcome
from .space import Space
from .tasks import Put
from .values import Pattern, Value, Values, as_seconds, within

MOST_MEMBERS = 1_024
AWAY = 0.5                  # seconds until a member whose server is away is tried again
FINISH = 2.0                # seconds, `patience` at most, for which the end of what a member has pending is waited for before a call, whatever its timeout
UNSENT, FINISHED = "nothing was sent for this call", "the pool finishes it"
LOOK = 1.0                  # seconds until a call that waits for a member looks whether a member belongs to a call that is gone
Got = TypeVar("Got")

log = logging.getLogger("linda_space")


class Lent(List[Space]):
    """What a call has from a pool: its member, if it has one, and its time. Once nobody refers to it the call is over, however it was interrupted."""
    __slots__ = ("__weakref__", "until")

    def __init__(self, members: Iterable[Space] = (), timeout: Optional[float] = None) -> None:
        super().__init__(members)
        self.until = math.inf if timeout is None else time.monotonic() + as_seconds("a timeout", timeout)

    def left(self) -> float:
        """How many seconds are left."""
        return max(0.0, self.until - time.monotonic())

    def timeout(self) -> Optional[float]:
        """What is left of the time that the call was given."""
        return None if self.until == math.inf else self.left()


def has_left(member: Any, owed: Mapping[Any, Deque[Values]]) -> bool:
    """Whether a member has something pending, or something to put back."""
    return member.pending is not None or bool(owed.get(member))


def say_left(member: Optional[Space], owed: Iterable[Values]) -> None:
    """Logs what a member that is closed has pending, or has not put back. No call may be under way by it."""
    left = list(owed)
    if member is not None:
        if member._is_inherited:
            return
        left += [had.tuple for had in member._machine.in_hand if had.tuple is not None]
        task = member._machine.task
        if task is not None:
            what = f"{member.pending} of {task.values!r}" if isinstance(task, Put) else member.pending
            log.warning("a pool closes client %d, which has %s pending: its last reply says what became of it", member.client, what)
    for values in left:
        log.warning("a pool was to put this back, which it took: %r", values)


class Pool:
    """Several spaces, its members, over the same servers, each under a number of its own. Any thread makes calls at any time: each is done by a member that is not
    in use, which is made if there is none and there are fewer than `size`; else the call waits for one. Use it in a `with`, or call `close` at the end.

    A call that raised an error may have left something pending (`SpaceError.pending`): the pool finishes that, under its number, before the member is used
    again. So do not put a tuple again whose `out` raised an error with `pending`: it will be there once its server is back and the pool is used again. If
    `pending` is None it was not put. A tuple that was just being taken when a call raised an error is put back then. What `take` took is lost if the program is
    killed: hold jobs.
    """

    def __init__(self, ports: Sequence[Port], client: Client = None, *, size: int = 16, **how: Any) -> None:
        """`ports`, `client` and `how` are those of `Space`: `client` is a range of numbers, or None for those of the program's own file. `size`: 1 to 1,024. The
        first member is made now. Raises as `Space` does."""
        if isinstance(client, int):
            raise OutOfRange(f"a pool needs several client numbers: {client!r}")
        self._make: Callable[[], Space] = lambda: Space(ports, client, **how)
        self._size = within("a size", size, 1, MOST_MEMBERS)
        self._gate = threading.Lock()                       # entered only by `with`: nothing interrupts between that and its block
        self._waiting: Deque[threading.Lock] = deque()      # calls that wait for a member, each by a lock that is released for it
        self._process = os.getpid()
        self._is_closed = False
        self._members: List[Space] = []
        self._making: List[weakref.ref[Lent]] = []          # calls that make a member
        self._free: List[Tuple[Space, float]] = []          # each with the time from which on it may be tried
        self._users: Dict[Space, weakref.ref[Lent]] = {}    # by member the call that has it: so a call that is interrupted anywhere gives it back, once
        self._cut: Set[Space] = set()                       # those of them whose last call was interrupted and left something: they are lent first
        self._owed: Dict[Space, Deque[Values]] = {}         # by member what must be put back
        self._left: Deque[Values] = deque()                 # what members had to put back that were of no use any more
        first = self._make()
        self._members.append(first)
        self._free.append((first, 0.0))

    def __enter__(self) -> Pool:
        return self

    def __exit__(self, kind: Optional[Type[BaseException]], fault: Optional[BaseException], trace: Optional[TracebackType]) -> None:
        self.close()

    def close(self) -> None:
        """Closes all members: calls that wait raise Closed. What an error left pending at members that are not in use is finished first, and what was taken is put
        back, for two seconds at most; what is not is logged. It may be called twice, and by any thread. In a forked process it ends only what that process
        made."""
        self._inherit()
        with self._gate:
            self._is_closed = True
            self._reclaim()
            members, free = self._members, [member for member, _ in self._free if not member._is_inherited]
            left = list(self._left)
            if free:
                self._owed.setdefault(free[0], deque()).extend(left)
                left = []
            self._members, self._free = [], []
            self._left.clear()
            self._wake(len(self._waiting))
        until = time.monotonic() + FINISH
        try:
            for member in members:
                if member not in free:
                    member.close()                          # its call gives it back, and says what it left
            for member in free:
                if has_left(member, self._owed):
                    self._finish_until(member, until)
        finally:
            for member in free:
                say_left(member, self._owed.pop(member, ()))
            for member in members:
                member.close()
            say_left(None, left)

    def _inherit(self) -> None:
        """In a process that was forked: the parent puts back what the pool owes, and a thread of the parent may have had the gate."""
        if os.getpid() != self._process:
            self._process, self._gate = os.getpid(), threading.Lock()
            self._waiting.clear()
            self._owed.clear()
            self._left.clear()

    # ---- members

    def _lend(self, lent: Lent) -> Space:
        """A member that is not in use, and has nothing pending. What the call has by then is in `lent`."""
        self._inherit()
        while True:
            member = self._next_member(lent)
            if member is None:
                member = self._new_member(lent)
                if member is None:
                    continue
            try:
                self._finish(member)
            except (NoConnection, TimedOut, Refused) as fault:
                self._give_back(member, lent, time.monotonic() + AWAY)
                if isinstance(fault, Refused) and fault.name == "Busy" and self._has_others():
                    continue                                # the server has not seen yet that its connection before has ended
                fault.pending = None                        # that is of an earlier call
                raise
            except SpaceError:
                self._drop(member, lent)
                raise
            return member

    def _finish_until(self, member: Space, until: float) -> None:
        try:
            self._finish(member, until)
        except SpaceError as fault:
            log.warning("a pool is closed: %s", fault)

    def _finish(self, member: Space, until: float = math.inf) -> None:
        """Finishes what an error left pending at a member, by this time. What was taken for a call that raised an error is put back."""
        owed = self._owed.setdefault(member, deque())
        with self._gate:
            owed.extend(self._left)
            self._left.clear()
        while True:
            timeout = max(0.0, min(FINISH, member._patience, until - time.monotonic()))
            what = member.pending
            if what is not None:
                result = member.again(timeout=timeout)
                if what == "sync" and isinstance(result, Outcome):
                    owed.append(result.tuple)
                elif what == "take_many" and isinstance(result, list):
                    owed.extend(values for values in result if values is not None)
            elif owed:
                outs = member._machine.outs
                try:
                    member.out(*owed[0], timeout=timeout)
                except BaseException as fault:
                    if member.pending is not None or member._machine.outs != outs and not isinstance(fault, SpaceError):
                        owed.popleft()                      # it is there, or will be
                    raise
                owed.popleft()
            else:
                self._owed.pop(member, None)
                return

    def _has_others(self) -> bool:
        """Whether a member is free that was not tried a moment ago, or a new one may be made."""
        with self._gate:
            return len(self._members) + len(self._making) < self._size or any(since <= time.monotonic() for _, since in self._free)

    def _next_member(self, lent: Lent) -> Optional[Space]:
        """A member that is free, the best of them; None if a new one may be made."""
        while True:
            with self._gate:
                if self._is_closed:
                    raise Closed("the pool was closed")
                if not self._free:
                    self._reclaim()
                now = time.monotonic()
                ready = [entry for entry in self._free if entry[1] <= now]
                if ready:
                    return self._take(next((one for one in ready if one[0] in self._cut), ready[-1]), lent)
                if len(self._members) + len(self._making) < self._size:
                    self._making.append(weakref.ref(lent))
                    return None
                if self._free:                              # the servers of all that are free were away a moment ago
                    return self._take(self._free[0], lent)
                left = lent.left()
                if left == 0.0:
                    raise TimedOut()
                turn = threading.Lock()
                turn.acquire()
                self._waiting.append(turn)
            try:
                turn.acquire(timeout=min(LOOK, left))
            except BaseException:
                with self._gate:
                    if turn not in self._waiting:
                        self._wake(1)                       # it was this one's turn
                raise
            finally:
                with self._gate:
                    if turn in self._waiting:
                        self._waiting.remove(turn)

    def _wake(self, count: int) -> None:
        """Makes `count` of the calls that wait for a member look again. The gate is closed meanwhile."""
        for _ in range(min(count, len(self._waiting))):
            self._waiting.popleft().release()

    def _reclaim(self) -> None:
        """Frees the members of calls that are gone: an interrupt may come when a call cannot give its own back. The gate is closed meanwhile."""
        for member, user in list(self._users.items()):
            if user() is None:
                if member in self._members and all(one is not member for one, _ in self._free):
                    self._free.append((member, 0.0))
                    self._cut.add(member)
                self._users.pop(member)
        self._making = [user for user in self._making if user() is not None]

    def _take(self, entry: Tuple[Space, float], lent: Lent) -> Space:
        member = entry[0]
        lent.append(member)
        self._users[member] = weakref.ref(lent)
        self._free.remove(entry)
        self._cut.discard(member)
        return member

    def _new_member(self, lent: Lent) -> Optional[Space]:
        """A new member; None if there is no number for one, and others are there: then there are no more than these."""
        member = None
        try:
            member = self._make()
        except NoNumber:
            with self._gate:
                if not self._members:
                    raise
                self._size = len(self._members)
        finally:
            with self._gate:
                if member is not None and not self._is_closed:
                    lent.append(member)
                    self._users[member] = weakref.ref(lent)
                    self._members.append(member)
                self._end_making(lent)
        if member is not None and self._is_closed:
            member.close()
            raise Closed("the pool was closed")
        return member

    def _end_making(self, lent: Lent) -> None:
        """The call makes no member any more: another call may. The gate is closed meanwhile."""
        self._making = [user for user in self._making if user() is not lent]
        self._wake(len(self._waiting))

    def _has(self, lent: Lent, member: Space) -> bool:
        user = self._users.get(member)
        return user is not None and user() is lent

    def _give_back(self, member: Space, lent: Lent, since: float = 0.0) -> None:
        """Gives the member back, unless another call has it by now, or it is free already."""
        with self._gate:
            if not self._has(lent, member):
                return
            if not self._is_closed:
                if all(one is not member for one, _ in self._free):
                    self._free.append((member, since))
                if since == 0.0 and has_left(member, self._owed):
                    self._cut.add(member)
                self._users.pop(member)
                self._wake(1)
                return
            self._users.pop(member)
        say_left(member, self._owed.pop(member, ()))
        member.close()

    def _drop(self, member: Space, lent: Lent) -> None:
        """Drops a member that is of no use any more."""
        with self._gate:
            if self._has(lent, member):
                self._users.pop(member)
            if member in self._members:
                self._members.remove(member)
            owed = self._owed.pop(member, deque())
            if not self._is_closed:
                self._left.extend(owed)
                owed.clear()
            self._wake(1)
        say_left(member, owed)
        member.close()

    @contextmanager
    def _lent(self, timeout: Optional[float]) -> Iterator[Tuple[Space, Optional[float]]]:
        """A member for a call with this timeout, and the seconds that are left of it. Raises TimedOut if no member is free by then."""
        lent = Lent(timeout=timeout)
        try:
            try:
                member = self._lend(lent)
            except SpaceError as fault:
                fault.advice = UNSENT
                raise
            try:
                yield member, lent.timeout()
            except SpaceError as fault:
                if member._over is not None:                # another program has its number, or a server is an older one
                    self._drop(member, lent)
                elif isinstance(fault, (NoConnection, TimedOut)):
                    self._give_back(member, lent, time.monotonic() + AWAY)
                raise
        finally:
            self._end_call(lent)

    def _end_call(self, lent: Lent) -> None:
        """Gives back what the call still has."""
        for member in lent:
            self._give_back(member, lent)
        if any(user() is lent for user in self._making):    # it was interrupted when it was about to make one
            with self._gate:
                self._end_making(lent)

    def _do(self, call: Callable[[Space, Optional[float]], Got], timeout: Optional[float]) -> Got:
        with self._lent(timeout) as (member, left):
            try:
                return call(member, left)
            except SpaceError as fault:
                if fault.pending is not None:
                    fault.advice = FINISHED
                raise

    # ---- calls, as those of Space; the wait for a member counts in `timeout`

    def out(self, tag: Value, *fields: Value, timeout: Optional[float] = None) -> Tuple[int, int]:
        """As `Space.out`."""
        return self._do(lambda space, left: space.out(tag, *fields, timeout=left), timeout)

    def out_many(self, tuples: Iterable[Sequence[Value]], timeout: Optional[float] = None) -> List[Optional[Tuple[int, Optional[int]]]]:
        """As `Space.out_many`."""
        return self._do(lambda space, left: space.out_many(tuples, left), timeout)

    @overload
    def take(self, tag: Value, *patterns: Pattern, timeout: None = None) -> Values: ...

    @overload
    def take(self, tag: Value, *patterns: Pattern, timeout: Optional[float]) -> Optional[Values]: ...

    def take(self, tag: Value, *patterns: Pattern, timeout: Optional[float] = None) -> Optional[Values]:
        """As `Space.take`."""
        return self._do(lambda space, left: space.take(tag, *patterns, timeout=left), timeout)

    def take_many(self, tag: Value, *patterns: Pattern, count: int, timeout: Optional[float] = None) -> List[Values]:
        """As `Space.take_many`."""
        return self._do(lambda space, left: space.take_many(tag, *patterns, count=count, timeout=left), timeout)

    def purge(self, tag: Value, *patterns: Pattern, timeout: Optional[float] = None) -> int:
        """As `Space.purge`."""
        return self._do(lambda space, left: space.purge(tag, *patterns, timeout=left), timeout)

    @overload
    def read(self, tag: Value, *patterns: Pattern, timeout: None = None) -> Values: ...

    @overload
    def read(self, tag: Value, *patterns: Pattern, timeout: Optional[float]) -> Optional[Values]: ...

    def read(self, tag: Value, *patterns: Pattern, timeout: Optional[float] = None) -> Optional[Values]:
        """As `Space.read`."""
        return self._do(lambda space, left: space.read(tag, *patterns, timeout=left), timeout)

    def look(self, tag: Value, *patterns: Pattern, timeout: Optional[float] = None) -> Optional[Values]:
        """As `Space.look`."""
        return self._do(lambda space, left: space.look(tag, *patterns, timeout=left), timeout)

    def choose(self, *branches: Event, timeout: Optional[float] = None) -> Outcome:
        """As `Space.choose`."""
        return self._do(lambda space, left: space.choose(*branches, timeout=left), timeout)

    @overload
    def hold(self, tag: Value, *patterns: Pattern, timeout: None = None, keep: Optional[float] = None) -> ContextManager[Offer]: ...

    @overload
    def hold(self, tag: Value, *patterns: Pattern, timeout: Optional[float], keep: Optional[float] = None) -> ContextManager[Optional[Offer]]: ...

    def hold(self, tag: Value, *patterns: Pattern, timeout: Optional[float] = None, keep: Optional[float] = None) -> ContextManager[Any]:
        """As `Space.hold`: the member is in use until the end of the block, and a call of the pool there needs another one. So `size` is above the number of blocks
        that call it at once, or these calls have a timeout."""
        return self._hold(tag, patterns, timeout, keep)

    @contextmanager
    def _hold(self, tag: Value, patterns: Tuple[Pattern, ...], timeout: Optional[float], keep: Optional[float]) -> Iterator[Optional[Offer]]:
        with self._lent(timeout) as (member, left), member.hold(tag, *patterns, timeout=left, keep=keep) as offer:
            yield offer
