"""Spaces for asyncio: `Space` and `Pool` with the calls of `linda_space`, as coroutines.

    from linda_space import INT
    from linda_space.aio import Pool, Space

    async with Space([7000], client=7) as space:
        await space.out("job", 1)
        async with space.hold("job", INT) as offer:
            await offer.accept()

The calls of one `Space` are done one after another, in the order in which they were made; a `Pool` does several at once. A call that is cancelled loses nothing:
a tuple that was just being taken is what the next take that it fits gets, and an `out` that was sent is finished by the next call (`settled`). No thread is used,
but for `hold(.., keep=)`. A `Space` belongs to the loop in which it was opened.
"""

from __future__ import annotations

import asyncio
import math
import os
import time
from collections import deque
from contextlib import asynccontextmanager
from functools import partial
from types import TracebackType
from typing import (
    Any, AsyncContextManager, AsyncIterator, Awaitable, Callable, Deque, Dict, Generic, Iterable, List, Optional, Sequence, Tuple, Type, TypeVar, Union, cast,
    overload)
from weakref import WeakMethod

from . import offers, space as threads, working
from .errors import Closed, Forked, Gone, NoConnection, NoNumber, OutOfRange, Refused, SpaceError, TimedOut
from .events import Alarm, Choose, Event, In, Rd, as_event
from .interrupts import LOOK_AGAIN, Cut, Cutter
from .limits import NUMBER_LIMIT, RENEWAL, SHORTEST_PAUSE
from .links import Port
from .machine import Ended, Settled
from .numbers import Client
from .pool import FINISH, FINISHED, MOST_MEMBERS, UNSENT, has_left, log, say_left
from .results import Kept, Outcome, Stored
from .space import Course
from .together import ManyStored, ManyTaken
from .values import Pattern, Value, Values, as_seconds, as_tuple, within

Got = TypeVar("Got")
Held = TypeVar("Held", covariant=True)


class Offer:
    """A tuple that is held for this client and not taken, as `linda_space.Offer`; `accept` is a coroutine."""

    def __init__(self, space: Space, offer: offers.Offer) -> None:
        self._owner, self._offer = space, offer
        self.server, self.id, self.tuple, self.binds = offer.server, offer.id, offer.tuple, offer.binds

    def __repr__(self) -> str:
        return repr(self._offer)

    @property
    def is_taken(self) -> bool:
        return self._offer.is_taken

    @property
    def is_held(self) -> bool:
        """Whether it is held still, as far as is known now."""
        return self._offer.is_held

    async def accept(self, timeout: Optional[float] = None) -> Values:
        """Takes the tuple, and returns it; raises as `linda_space.Offer.accept`."""
        return await self._owner._accept(self._offer, timeout)

    def renew(self) -> None:
        """Says that this client is still at work; raises Gone if the hold is lost."""
        self._offer.renew()

    def release(self) -> None:
        """Gives the tuple free again, if it is held and was not accepted."""
        self._offer.release()


class Hold(Generic[Held]):
    """What `Space.hold` returns, for an `async with`: as `linda_space.Hold`."""

    def __init__(self, space: Space, event: In, timeout: Optional[float], keep: Optional[float]) -> None:
        self._space, self._event, self._timeout, self._keep = space, event, timeout, keep
        self._offer: Optional[offers.Offer] = None

    async def __aenter__(self) -> Held:
        self._offer = await self._space._hold(self._event, self._timeout, self._keep)
        return cast(Held, None if self._offer is None else Offer(self._space, self._offer))

    async def __aexit__(self, kind: Optional[Type[BaseException]], fault: Optional[BaseException], trace: Optional[TracebackType]) -> None:
        offer = self._offer
        if offer is not None and not offer.is_taken:
            is_lost = self._space._inner._is_lost(offer)
            offer.release()
            if is_lost and kind is None:
                raise Gone((offer,))


class Space:
    """A client of servers, as `linda_space.Space`. Use it in an `async with`, or `await` its `open` first and call `close` at the end."""

    def __init__(self, ports: Sequence[Port], client: Client = None, **how: Any) -> None:
        """The arguments are those of `linda_space.Space`; nothing is greeted before `open`."""
        self._inner = object.__new__(threads.Space)
        self._greetings: Optional[Course[None]] = self._inner._prepare(ports, client, **how)
        self._turn: Optional[asyncio.Lock] = None
        self._waiter: Optional[asyncio.Future[None]] = None

    async def open(self) -> None:
        """Greets each server. Raises as `linda_space.Space` does."""
        greetings, self._greetings = self._greetings, None
        if greetings is None:
            return
        self._turn = asyncio.Lock()
        self._inner._wake_task = partial(_call_soon, asyncio.get_running_loop(), WeakMethod(self._wake))
        try:
            await self._drive(greetings)
        except BaseException:
            self.close()
            raise

    async def __aenter__(self) -> Space:
        await self.open()
        return self

    async def __aexit__(self, kind: Optional[Type[BaseException]], fault: Optional[BaseException], trace: Optional[TracebackType]) -> None:
        self.close()

    def close(self) -> None:
        """Ends all connections, and waits for nothing. A call that waits raises Closed."""
        if self._waiter is None:
            self._inner.close()
            return
        self._inner._is_closed = True
        if not self._waiter.done():
            self._waiter.set_result(None)

    # ---- calls

    @property
    def client(self) -> int:
        """The number of this client."""
        return self._inner.client

    @property
    def pending(self) -> Optional[str]:
        """What is pending after an error."""
        return self._inner.pending

    @property
    def settled(self) -> Settled:
        """How a call ended that was cancelled, if the next call finished it."""
        return self._inner.settled

    def after(self, seconds: float) -> Alarm:
        """An alarm that is ready `seconds` seconds from now."""
        return self._inner.after(seconds)

    def clock(self) -> int:
        """The time by the clock of the space, in milliseconds since it began."""
        return self._inner.clock()

    async def out(self, tag: Value, *fields: Value, timeout: Optional[float] = None) -> Tuple[int, int]:
        """As `linda_space.Space.out`."""
        values = as_tuple((tag, *fields))
        ended = await self._call(lambda: self._inner._machine.out(values), timeout)
        assert isinstance(ended, Stored)
        return ended.server, ended.id

    async def out_many(self, tuples: Iterable[Sequence[Value]], timeout: Optional[float] = None) -> List[Optional[Tuple[int, Optional[int]]]]:
        """As `linda_space.Space.out_many`."""
        many = [as_tuple(values) for values in tuples]
        if not many:
            return []
        ended = await self._call(lambda: self._inner._machine.out_many(many), timeout)
        assert isinstance(ended, ManyStored)
        return ended.places

    @overload
    async def take(self, tag: Value, *patterns: Pattern, timeout: None = None) -> Values: ...

    @overload
    async def take(self, tag: Value, *patterns: Pattern, timeout: Optional[float]) -> Optional[Values]: ...

    async def take(self, tag: Value, *patterns: Pattern, timeout: Optional[float] = None) -> Optional[Values]:
        """As `linda_space.Space.take`."""
        return cast(Optional[Values], (await self.choose(In(tag, *patterns), timeout=timeout)).tuple)

    async def take_many(self, tag: Value, *patterns: Pattern, count: int, timeout: Optional[float] = None) -> List[Values]:
        """As `linda_space.Space.take_many`."""
        event, most = In(tag, *patterns), within("a count", count, 0, NUMBER_LIMIT)
        ended = await self._call(lambda: self._inner._machine.take_many(event, most, False), timeout)
        assert isinstance(ended, ManyTaken)
        return ended.tuples

    async def purge(self, tag: Value, *patterns: Pattern, timeout: Optional[float] = None) -> int:
        """As `linda_space.Space.purge`."""
        event = In(tag, *patterns)
        ended = await self._call(lambda: self._inner._machine.take_many(event, None, True), timeout)
        assert isinstance(ended, ManyTaken)
        return ended.count

    @overload
    async def read(self, tag: Value, *patterns: Pattern, timeout: None = None) -> Values: ...

    @overload
    async def read(self, tag: Value, *patterns: Pattern, timeout: Optional[float]) -> Optional[Values]: ...

    async def read(self, tag: Value, *patterns: Pattern, timeout: Optional[float] = None) -> Optional[Values]:
        """As `linda_space.Space.read`."""
        return cast(Optional[Values], (await self.choose(Rd(tag, *patterns), timeout=timeout)).tuple)

    async def look(self, tag: Value, *patterns: Pattern, timeout: Optional[float] = None) -> Optional[Values]:
        """As `linda_space.Space.look`."""
        rd = Rd(tag, *patterns)
        return cast(Optional[Values], (await self._sync(lambda: Choose(rd, self.after(0)), True, True, timeout)).tuple)

    async def choose(self, *branches: Event, timeout: Optional[float] = None) -> Outcome:
        """As `linda_space.Space.choose`."""
        events = [as_event(branch) for branch in branches]
        if timeout is None:
            return await self.sync(Choose(*events))
        alarm = self.after(timeout)
        return await self._sync(lambda: Choose(*events, alarm), True, timeout == 0)

    async def sync(self, event: Event) -> Outcome:
        """As `linda_space.Space.sync`."""
        whole = as_event(event)
        return await self._sync(lambda: whole)

    @overload
    def hold(self, tag: Value, *patterns: Pattern, timeout: None = None, keep: Optional[float] = None) -> Hold[Offer]: ...

    @overload
    def hold(self, tag: Value, *patterns: Pattern, timeout: Optional[float], keep: Optional[float] = None) -> Hold[Optional[Offer]]: ...

    def hold(self, tag: Value, *patterns: Pattern, timeout: Optional[float] = None, keep: Optional[float] = None) -> Any:
        """For an `async with`: as `linda_space.Space.hold`."""
        return Hold(self, In(tag, *patterns), None if timeout is None else as_seconds("a timeout", timeout),
                    None if keep is None else as_seconds("the time between renewals", keep, SHORTEST_PAUSE))

    async def work(self, template: working.Template, function: Callable[[Values], Any], *, tries: Optional[int] = None, delay: float = 1.0,
                   dead: Value = "dead", stop: working.Stop = None, keep: float = RENEWAL, timeout: Optional[float] = None, limit: Optional[float] = None,
                   grace: float = 30.0) -> int:
        """Does one job after another, as `linda_space.Space.work`; the function may be a coroutine function. While it runs, other calls of the space may be made."""
        plan = working.Plan(template, tries, delay, dead, stop, keep, timeout, limit, grace)
        steps = working.Worker(self._inner, _Calls(self), plan, function).steps()
        try:
            step = next(steps)
            while True:
                try:
                    value = step()
                    if isinstance(value, Awaitable):
                        value = await value
                except BaseException as fault:
                    step = steps.throw(fault)
                else:
                    step = steps.send(value)
        except StopIteration as ended:
            return cast(int, ended.value)

    async def last_reply(self, server: int = 0, timeout: Optional[float] = None) -> Optional[Kept]:
        """As `linda_space.Space.last_reply`."""
        place = within("a server", server, 0, len(self._inner._links) - 1)
        ended = await self._call(lambda: self._inner._machine.repeat(place), timeout)
        assert ended is None or isinstance(ended, Kept)
        return ended

    async def leave(self, timeout: Optional[float] = None) -> None:
        """As `linda_space.Space.leave`."""
        await self._call(self._inner._machine.leave, timeout)

    async def again(self, timeout: Optional[float] = None) -> Settled:
        """As `linda_space.Space.again`."""
        inner = self._inner
        inner._be_mine()
        had = inner._only_in_hand()
        return had if had is not None else inner._again_as(await self._call(inner._machine.go_on, timeout, is_again=True))

    def abandon(self) -> Tuple[int, ...]:
        """As `linda_space.Space.abandon`."""
        return self._inner.abandon()

    # ---- how it goes on

    async def _sync(self, event: Callable[[], Event], has_limit: bool = False, is_poll: bool = False, timeout: Optional[float] = None) -> Outcome:
        def begin() -> None:
            self._inner._machine.tick(self._inner._now())
            self._inner._machine.sync(event(), has_limit, is_poll)

        ended = await self._call(begin, timeout)
        assert isinstance(ended, Outcome)
        return ended

    async def _hold(self, event: In, timeout: Optional[float], keep: Optional[float]) -> Optional[offers.Offer]:
        alarms = [] if timeout is None else [self.after(timeout)]
        ended = await self._hold_or(Choose(event, *alarms), timeout is not None, timeout == 0)
        if not isinstance(ended, offers.Offer):
            return None
        if keep is not None:
            self._inner._keeper.keep(ended, keep)
        return ended

    async def _hold_or(self, event: Event, has_limit: bool = False, is_poll: bool = False,
                       is_over: Optional[Callable[[], bool]] = None) -> Union[offers.Offer, Outcome, None]:
        def begin() -> None:
            self._inner._machine.tick(self._inner._now())
            self._inner._machine.sync(event, has_limit, is_poll, True)

        ended = await self._call(begin, is_over=is_over)
        if isinstance(ended, offers.Offer):
            ended._space = self._inner
        assert ended is None or isinstance(ended, (offers.Offer, Outcome))
        return ended

    async def _accept(self, offer: offers.Offer, timeout: Optional[float] = None) -> Values:
        if not offer.is_taken:
            ended = await self._call(lambda: self._inner._machine.take_held(offer), timeout, offer=offer)
            if isinstance(ended, Gone):
                raise ended
        return offer.tuple

    async def _pass_over(self, server: int) -> None:
        await self._call(lambda: self._inner._machine.pass_over(server))

    async def _call(self, begin: Callable[[], None], timeout: Optional[float] = None, is_again: bool = False, offer: Optional[offers.Offer] = None,
                    is_over: Optional[Callable[[], bool]] = None) -> Optional[Ended]:
        """One call, once those before it have ended."""
        self._inner._be_mine()
        if self._turn is None:
            raise Closed("the space is not open yet: use it in an async with, or await its open()")
        async with self._turn:
            return await self._drive(self._inner._course(begin, timeout, is_again, offer, is_over))

    async def _drive(self, course: Course[Got]) -> Got:
        """Runs a call, and lets other tasks run while it waits."""
        inner, loop = self._inner, asyncio.get_running_loop()
        with inner._gate:
            inner._enter(threads.TASK)
        has_reader = False
        try:
            with inner._gate:
                wake = next(course)
            while True:
                fault: Optional[BaseException] = None
                try:
                    if not has_reader:
                        loop.add_reader(inner._selector.fileno(), self._wake)       # type: ignore[attr-defined]
                        has_reader = True
                    await self._pause(loop, wake)
                except asyncio.CancelledError as cancelled:
                    with inner._gate:
                        try:
                            course.throw(threads.Interrupted())
                        except (threads.Interrupted, StopIteration):
                            pass
                    raise cancelled
                with inner._gate:
                    try:
                        inner._serve(inner._selector.select(0))
                    except BaseException as other:
                        fault = other
                    wake = next(course) if fault is None else course.throw(fault)
        except StopIteration as ended:
            return cast(Got, ended.value)
        finally:
            if has_reader:
                loop.remove_reader(inner._selector.fileno())        # type: ignore[attr-defined]
            with inner._gate:
                inner._leave_call()

    def _wake(self) -> None:
        if self._waiter is not None and not self._waiter.done():
            self._waiter.set_result(None)

    async def _pause(self, loop: asyncio.AbstractEventLoop, wake: float) -> None:
        """Waits until something comes, or until this time."""
        self._waiter = loop.create_future()
        timer = None if wake == math.inf else loop.call_later(max(0.0, wake - time.monotonic()), self._wake)
        try:
            await self._waiter
        finally:
            self._waiter = None
            if timer is not None:
                timer.cancel()


def _call_soon(loop: asyncio.AbstractEventLoop, method: WeakMethod[Callable[[], None]]) -> None:
    """Calls the method in the loop, from any thread."""
    call = method()
    if call is not None and not loop.is_closed():
        loop.call_soon_threadsafe(call)


class _Calls:
    """The calls of a worker in a task."""

    def __init__(self, space: Space) -> None:
        self.cutter = Cutter()
        self.out, self.again = space.out, space.again
        self.hold_or, self.accept, self.pass_over, self.sleep = space._hold_or, space._accept, space._pass_over, asyncio.sleep

    async def run(self, function: Callable[[Values], Any], job: Values, limit: Optional[float]) -> Any:
        """What the function returns. If it is a coroutine function it is cancelled at its limit, or at the end of the grace."""
        cutter = self.cutter
        cutter.limit_until = math.inf if limit is None else time.monotonic() + limit
        value = function(job)
        if not isinstance(value, Awaitable):
            if time.monotonic() >= cutter.limit_until:
                raise Cut(True)
            return value
        task = asyncio.ensure_future(value)
        try:
            while not task.done():
                await asyncio.wait([task], timeout=min(LOOK_AGAIN, cutter.left()))
        except asyncio.CancelledError:
            task.cancel()
            await asyncio.wait([task])
            raise
        except Cut:
            task.cancel()
            raise
        return task.result()


class Pool:
    """Several spaces, as `linda_space.Pool`: any task makes calls at any time. Use it in an `async with`."""

    def __init__(self, ports: Sequence[Port], client: Client = None, *, size: int = 16, **how: Any) -> None:
        """The arguments are those of `linda_space.Pool`; members are made when they are needed."""
        if isinstance(client, int):
            raise OutOfRange(f"a pool needs several client numbers: {client!r}")
        self._make: Callable[[], Space] = lambda: Space(ports, client, **how)
        self._size = within("a size", size, 1, MOST_MEMBERS)
        self._members: List[Space] = []
        self._free: Deque[Space] = deque()
        self._cut: Deque[Space] = deque()                          # those that are free, too, and are lent first: the last call was cancelled, and left something
        self._owed: Dict[Space, Deque[Values]] = {}
        self._left: Deque[Values] = deque()                        # what members that were of no use any more had to put back
        self._making = 0
        self._process = os.getpid()
        self._is_closed = False
        self._waiting: Deque[asyncio.Future[None]] = deque()       # the calls that wait for a member, or for room for one

    async def __aenter__(self) -> Pool:
        return self

    async def __aexit__(self, kind: Optional[Type[BaseException]], fault: Optional[BaseException], trace: Optional[TracebackType]) -> None:
        await self.aclose()

    async def aclose(self) -> None:
        """As `close`, but what an error or a cancelled task left pending at members that are not in use is finished first, and what was taken is put back, for two
        seconds at most."""
        if self._is_closed:
            return
        members, free = self._begin_close()
        try:
            tasks = [asyncio.ensure_future(self._finish_at_last(member)) for member in free if has_left(member, self._owed)]
            if tasks:
                try:
                    await asyncio.wait(tasks, timeout=FINISH)
                finally:
                    for task in tasks:
                        task.cancel()
                    await asyncio.gather(*tasks, return_exceptions=True)
        finally:
            self._end_close(members, free)

    def close(self) -> None:
        """Closes all members: calls that wait raise Closed. What an error or a cancelled task left pending, and what was not put back, is logged."""
        self._end_close(*self._begin_close())

    def _begin_close(self) -> Tuple[List[Space], List[Space]]:
        """From now on no call begins, and those that wait end. Returns all members, and those that are not in use."""
        self._inherit()
        self._is_closed = True
        members, free = self._members, [member for member in (*self._cut, *self._free) if not member._inner._is_inherited]
        if free:
            self._owed.setdefault(free[0], deque()).extend(self._left)
        else:
            say_left(None, self._left)
        self._members, self._free, self._cut = [], deque(), deque()
        self._left.clear()
        for member in members:
            if member not in free:
                member.close()                                      # its call gives it back, and says what it left
        while self._notify():
            pass
        return members, free

    def _end_close(self, members: List[Space], free: List[Space]) -> None:
        for member in free:
            say_left(member._inner, self._owed.pop(member, ()))
        for member in members:
            member.close()

    async def _finish_at_last(self, member: Space) -> None:
        try:
            await self._finish(member)
        except SpaceError as fault:
            log.warning("a pool is closed: %s", fault)

    def _inherit(self) -> None:
        """In a process that was forked: the parent puts back what the pool owes."""
        if os.getpid() != self._process:
            self._process = os.getpid()
            self._owed.clear()
            self._left.clear()

    # ---- members

    async def _lend(self, until: float) -> Space:
        """A member that is not in use, and has nothing pending. Raises TimedOut if none is free by this time."""
        self._inherit()
        member = await self._next_member(until)
        try:
            await self._finish(member)
        except (NoConnection, TimedOut, Refused) as fault:
            self._give_back(member, is_last=True)
            fault.pending = None                            # that is of an earlier call
            raise
        except SpaceError:
            self._drop(member)
            raise
        except BaseException:
            self._give_back(member)
            raise
        return member

    async def _next_member(self, until: float) -> Space:
        while True:
            if self._is_closed:
                raise Closed("the pool was closed")
            if self._cut or self._free:
                return (self._cut or self._free).popleft()
            if len(self._members) + self._making >= self._size:
                if until <= time.monotonic():
                    raise TimedOut()
                await self._change(until)
                continue
            self._making += 1
            try:
                member = self._make()
                await member.open()
            except NoNumber:
                if not self._members:
                    raise
                self._size = len(self._members)
                continue
            finally:
                self._making -= 1
                self._notify()
            if self._is_closed:
                member.close()
                raise Closed("the pool was closed")
            self._members.append(member)
            return member

    async def _change(self, until: float) -> None:
        """Waits until a member is free, or there is room for one, or it is this time. A call that is cancelled in its turn gives the turn to the next one."""
        loop = asyncio.get_running_loop()
        waiter = loop.create_future()
        self._waiting.append(waiter)
        bell = None if until == math.inf else loop.call_later(max(0.0, until - time.monotonic()), self._ring, waiter)
        try:
            await waiter
        except asyncio.CancelledError:
            if waiter in self._waiting:
                self._waiting.remove(waiter)
            else:
                self._notify()
            raise
        finally:
            if bell is not None:
                bell.cancel()

    def _ring(self, waiter: asyncio.Future[None]) -> None:
        """Called when the time of a call that waits is up."""
        if not waiter.done():
            self._waiting.remove(waiter)
            waiter.set_result(None)

    def _notify(self) -> bool:
        """Wakes a call that waits; returns whether there was one."""
        while self._waiting:
            waiter = self._waiting.popleft()
            if not waiter.done():
                waiter.set_result(None)
                return True
        return False

    async def _finish(self, member: Space) -> None:
        """Finishes what an error or a cancelled task left at a member. What was taken for a call that ended so is put back."""
        owed, timeout = self._owed.setdefault(member, deque()), min(FINISH, member._inner._patience)
        owed.extend(self._left)
        self._left.clear()
        while True:
            what = member.pending
            if what is not None:
                result = await member.again(timeout=timeout)
                if what == "sync" and isinstance(result, Outcome):
                    owed.append(result.tuple)
                elif what == "take_many" and isinstance(result, list):
                    owed.extend(values for values in result if values is not None)
            elif owed:
                outs = member._inner._machine.outs
                try:
                    await member.out(*owed[0], timeout=timeout)
                except BaseException as fault:
                    if member.pending is not None or member._inner._machine.outs != outs and not isinstance(fault, SpaceError):
                        owed.popleft()                      # it is there, or will be
                    raise
                owed.popleft()
            else:
                self._owed.pop(member, None)
                return

    def _give_back(self, member: Space, is_last: bool = False) -> None:
        """It waits for nothing: a task that was cancelled meanwhile would lose what its call returned."""
        if self._is_closed:
            say_left(member._inner, self._owed.pop(member, ()))
            member.close()
            return
        if is_last:
            self._free.append(member)
        elif has_left(member, self._owed):
            self._cut.append(member)
        else:
            self._free.appendleft(member)
        self._notify()

    def _drop(self, member: Space) -> None:
        """Drops a member that is of no use any more."""
        if member in self._members:
            self._members.remove(member)
        owed = self._owed.pop(member, deque())
        if not self._is_closed:
            self._left.extend(owed)
            owed.clear()
        say_left(member._inner, owed)
        member.close()
        self._notify()

    @asynccontextmanager
    async def _lent(self, timeout: Optional[float]) -> AsyncIterator[Tuple[Space, Optional[float]]]:
        """A member for a call with this timeout, and the seconds that are left of it."""
        until = math.inf if timeout is None else time.monotonic() + as_seconds("a timeout", timeout)
        try:
            member = await self._lend(until)
        except SpaceError as fault:
            fault.advice = UNSENT
            raise
        is_last = is_useless = False
        try:
            yield member, None if until == math.inf else max(0.0, until - time.monotonic())
        except SpaceError as fault:
            is_last, is_useless = isinstance(fault, (NoConnection, TimedOut)), member._inner._over is not None
            raise
        finally:
            if is_useless:
                self._drop(member)
            else:
                self._give_back(member, is_last)

    async def _do(self, call: Callable[[Space, Optional[float]], Awaitable[Got]], timeout: Optional[float]) -> Got:
        async with self._lent(timeout) as (member, left):
            try:
                return await call(member, left)
            except SpaceError as fault:
                if fault.pending is not None:
                    fault.advice = FINISHED
                raise

    # ---- calls, as those of Space; the wait for a member counts in `timeout`

    async def out(self, tag: Value, *fields: Value, timeout: Optional[float] = None) -> Tuple[int, int]:
        """As `Space.out`."""
        return await self._do(lambda space, left: space.out(tag, *fields, timeout=left), timeout)

    async def out_many(self, tuples: Iterable[Sequence[Value]], timeout: Optional[float] = None) -> List[Optional[Tuple[int, Optional[int]]]]:
        """As `Space.out_many`."""
        return await self._do(lambda space, left: space.out_many(tuples, left), timeout)

    @overload
    async def take(self, tag: Value, *patterns: Pattern, timeout: None = None) -> Values: ...

    @overload
    async def take(self, tag: Value, *patterns: Pattern, timeout: Optional[float]) -> Optional[Values]: ...

    async def take(self, tag: Value, *patterns: Pattern, timeout: Optional[float] = None) -> Optional[Values]:
        """As `Space.take`. A tuple that was just being taken when the task was cancelled is put back."""
        return await self._do(lambda space, left: space.take(tag, *patterns, timeout=left), timeout)

    async def take_many(self, tag: Value, *patterns: Pattern, count: int, timeout: Optional[float] = None) -> List[Values]:
        """As `Space.take_many`."""
        return await self._do(lambda space, left: space.take_many(tag, *patterns, count=count, timeout=left), timeout)

    async def purge(self, tag: Value, *patterns: Pattern, timeout: Optional[float] = None) -> int:
        """As `Space.purge`."""
        return await self._do(lambda space, left: space.purge(tag, *patterns, timeout=left), timeout)

    @overload
    async def read(self, tag: Value, *patterns: Pattern, timeout: None = None) -> Values: ...

    @overload
    async def read(self, tag: Value, *patterns: Pattern, timeout: Optional[float]) -> Optional[Values]: ...

    async def read(self, tag: Value, *patterns: Pattern, timeout: Optional[float] = None) -> Optional[Values]:
        """As `Space.read`."""
        return await self._do(lambda space, left: space.read(tag, *patterns, timeout=left), timeout)

    async def look(self, tag: Value, *patterns: Pattern, timeout: Optional[float] = None) -> Optional[Values]:
        """As `Space.look`."""
        return await self._do(lambda space, left: space.look(tag, *patterns, timeout=left), timeout)

    async def choose(self, *branches: Event, timeout: Optional[float] = None) -> Outcome:
        """As `Space.choose`."""
        return await self._do(lambda space, left: space.choose(*branches, timeout=left), timeout)

    @overload
    def hold(self, tag: Value, *patterns: Pattern, timeout: None = None, keep: Optional[float] = None) -> AsyncContextManager[Offer]: ...

    @overload
    def hold(self, tag: Value, *patterns: Pattern, timeout: Optional[float], keep: Optional[float] = None) -> AsyncContextManager[Optional[Offer]]: ...

    def hold(self, tag: Value, *patterns: Pattern, timeout: Optional[float] = None, keep: Optional[float] = None) -> AsyncContextManager[Any]:
        """As `linda_space.Pool.hold`: the member is in use until the end of the block."""
        return self._hold(tag, patterns, timeout, keep)

    @asynccontextmanager
    async def _hold(self, tag: Value, patterns: Tuple[Pattern, ...], timeout: Optional[float], keep: Optional[float]) -> AsyncIterator[Optional[Offer]]:
        async with self._lent(timeout) as (member, left), member.hold(tag, *patterns, timeout=left, keep=keep) as offer:
            yield offer
