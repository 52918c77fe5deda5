"""`Space`: a client of servers over sockets."""

from __future__ import annotations

import logging
import math
import os
import selectors
import socket
import threading
import time
import weakref
from functools import partial
from types import TracebackType
from typing import Any, Callable, Generator, Iterable, List, Optional, Sequence, Tuple, Type, TypeVar, Union, cast, overload

from . import working
from .errors import (
    BadReply, Busy, Closed, Forked, Gone, Idle, NoConnection, NumberInUse, OutOfRange, Refused, Restored, SpaceError, TimedOut)
from .events import Alarm, Choose, Event, In, Rd, as_event
from .frames import REFUSED, WELCOME, read_reply, spell_hello
from .limits import (
    BUSY_PATIENCE, LONGEST_PAUSE, MOST_SERVERS, NUMBER_LIMIT, PATIENCE, REFUSALS, RENEWAL, SHORTEST_PAUSE)
from .keeping import Keeper
from .links import LONGEST_SLEEP, PIECE, Link, Port, as_port, connect_to, waits
from .machine import Ended, Machine, Settled
from .numbers import Claim, Client, Numbers, choose_number
from .offers import Hold, Offer
from .results import Kept, Outcome, Stored
from .tasks import Leaving, Passed, Passing, Put, Repeat, Syncing, Taking
from .together import ManyStored, ManyTaken, Outs, Takes
from .values import Pattern, Value, Values, as_seconds, as_tuple, within

log = logging.getLogger("linda_space")
TASK = -1                                   # in place of a thread: a task of asyncio is in a call
LOOK_AGAIN = 0.25                           # seconds between two looks whether a call is over that something else may end
Got = TypeVar("Got")
Course = Generator[float, None, Got]        # a call: it yields the time until which it waits for what comes, and returns how it ended
_spaces: "weakref.WeakSet[Space]" = weakref.WeakSet()


class Interrupted(BaseException):
    """A call ends that a task of asyncio waited for: what it left is finished by the next call, over the same connections."""


def _leave_to_the_parent() -> None:
    """In a process that was just forked: its copies of the connections are closed, so that they end with the process that uses them."""
    for space in list(_spaces):
        space._inherit()


os.register_at_fork(after_in_child=_leave_to_the_parent)


class Space:
    """A client of servers, numbered 0, 1, .. in the order of their ports. Use it in a `with`, or call `close` at the end. `client` is its number.

    **Time.** A call waits for as long as its `timeout` says, in seconds, without end if that is None; then TimedOut says which servers did not answer. A
    server that cannot be greeted for `patience` seconds raises NoConnection earlier than that, if the call needs it. `patience` also bounds what must come
    at once: the answer to a Hello, and what is still to be known when the time of a `take`, `read`, `choose` or `hold` is up. So a call ends `patience`
    seconds after its `timeout` at the latest.

    **After an error**, or KeyboardInterrupt, or any other exception that leaves a call:

    - `take`, `read`, `look`, `choose`, `sync`, `hold` are over, and no server holds anything for them. Only if a tuple was just being taken `pending` is
      "sync": the next call waits for the answer first. A tuple that was taken so is not lost: the next `take`, `choose` or `sync` with an input that it fits
      gets it, or `again`. So a loop may simply call again.
    - `out`, `out_many`, `leave`, `last_reply` and `Offer.accept` are pending, unless their server refused them: they may be done or not, and that cannot be
      undone. `again` sends them again, under their number, and returns how they ended. Nothing is done twice by that. After an error of this module all other
      calls raise Busy until then. After KeyboardInterrupt, or another exception that is not of this module, they do not: the next call finishes first what was
      interrupted, for which it waits `patience` seconds at most, and `settled` is its answer. So do not put a tuple again whose `out` was interrupted, if
      `pending` is "out" or `settled` has it: it is there, or will be by the next call. If neither holds, `last_reply` says what became of it: the
      interrupt may have come when the call had just ended.
    - `take_many` and `purge` are pending if something was taken, or may have been: `again` returns what.

    After an exception that is not of this module the connections are made anew by the next call, so what was held is not held any more. After `leave` all but
    `close` raise Left.

    **What is held** is held until it is accepted, released, or lost with its connection: by a restart of the server, or a lease that ran out. A loss is raised
    once, as Gone: by the next call of the space, before anything is sent; by a call that waits for a tuple meanwhile; or by the end of the `with` block. While a
    call waits, what is held is renewed.

    **Threads and processes.** A space is for one call at a time, and not for signal handlers: a call while another thread is in one raises Busy (`Pool` is for
    several threads). `renew` and `release` of an offer, and `close`, may be called by any thread at any time. A process that was forked must make spaces of
    its own: each call of an inherited one raises Forked.
    """

    def __init__(self, ports: Sequence[Port], client: Client = None, *, fresh: bool = False, patience: float = PATIENCE,
                 connect: Callable[[Any], socket.socket] = connect_to, clock: Optional[Callable[[], int]] = None) -> None:
        """Greets each server.

        - `ports`: 1 to 16 ports of this machine, from 1 to 65,535, "localhost:7000" too, or paths of unix sockets, each a text with a slash in it. An earlier
          life of this client gave the same servers in the same order.
        - `client`: the number of this client, from 0 to 2^32 - 1. No two programs use one number at the same time. Or several numbers, as range(100, 200): of
          those that no other connection has, and that were not given up by `leave`, the first whose last reply is Taken, since its job may be unfinished (see
          `last_reply`); else the first; with `fresh` the first that was never used. Each is greeted, which takes its time. Or None, or the path of a
          file, as an os.PathLike: a number of those that this program keeps in that file, chosen in the same way, and a new one, which is added to it, if all
          of them are in use. If it is None the file is one of the program's own (`linda_space.numbers`).
        - `fresh`: this number was never used, and a server that knows it refuses it. If it is not set numbers go on after those of an earlier life of this
          client, if there was one: see `last_reply`.
        - `patience`: seconds, above 0.
        - `connect`: makes a connection to a port or path, with TLS perhaps (an `ssl.SSLSocket`), or raises OSError. `clock`: milliseconds, which never fall; those since the beginning, if it is not given.

        A server keeps 65,536 client numbers at most, for good, those that left among them; `leave` does not free a place. Programs that come and go share a
        range.

        Raises NoConnection if nobody listens at a port or path, or this user may not connect, or no Hello is answered in `patience` seconds, Refused if a server
        refuses (Busy: another connection has this number; Known, TooManyClients, Version), NoNumber if none of several numbers is free, or the file of numbers
        cannot be read or written. A server may need some milliseconds to see that an earlier connection ended: Busy is tried again for two seconds, or `patience`
        if that is less, but not with `fresh`; several numbers are gone through again for as long. After an error nothing is connected.
        """
        course = self._prepare(ports, client, fresh, patience, connect, clock)
        try:
            self._drive(course)
        except BaseException:
            self.close()
            raise

    def _prepare(self, ports: Sequence[Port], client: Client = None, fresh: bool = False, patience: float = PATIENCE,
                 connect: Callable[[Any], socket.socket] = connect_to, clock: Optional[Callable[[], int]] = None) -> Course[None]:
        """All that is done before the first greeting; the greetings."""
        if not isinstance(ports, Sequence) or isinstance(ports, (str, bytes)):
            raise OutOfRange(f"the servers are a list of ports: {ports!r}")
        if not 1 <= len(ports) <= MOST_SERVERS:
            raise OutOfRange(f"there are {len(ports)} servers, and 1 to {MOST_SERVERS} are allowed")
        self._ports = [as_port(port) for port in ports]
        if len(set(self._ports)) < len(ports):
            raise OutOfRange(f"a server is there twice, and has one connection of a number: {ports!r}")
        self._patience = as_seconds("the patience", patience, SHORTEST_PAUSE)
        self._numbers = numbers = Numbers(client)
        self._connect = connect
        self._start = time.monotonic()
        self._now = clock if clock is not None else lambda: int((time.monotonic() - self._start) * 1000)
        self._process = os.getpid()
        self._is_closed = self._is_inherited = False
        self._gate = threading.RLock()                      # the thread that has it may touch the machine and the links; a call gives it up while it waits
        self._thread: Optional[int] = None                  # the thread that is in a call
        self._late: Optional[float] = None
        self._over: Optional[SpaceError] = None             # what all calls raise from now on
        self._links: List[Link] = []
        self._machine = Machine(numbers.first, len(ports))
        try:
            self._selector = selectors.DefaultSelector()
        except OSError as fault:                            # no file is left for it
            raise NoConnection(0, self._ports[0], fault) from fault
        self._wake_task: Callable[[], None] = lambda: None  # what waits in a task of asyncio looks at what was read
        self._keeper = Keeper(self)
        self._claim: Optional[Claim] = None                 # of the number, if it is one of several
        _spaces.add(self)
        return choose_number(self, numbers, bool(fresh))

    # ---- greeting

    def _greet(self, client: int, fresh: bool, is_shared: bool = False) -> Course[None]:
        """Greets each server; under a shared number the first one before the others, and that only once."""
        until = time.monotonic() + self._patience
        self._machine = Machine(client, len(self._ports))
        self._links = [Link(server, port, fresh, until) for server, port in enumerate(self._ports)]
        if is_shared:
            for link in self._links[1:]:
                link.due = link.until = math.inf
            self._links[0].busy_until = 0.0
            while not self._links[0].was_up:
                yield self._wait(math.inf)
                self._hear_all()
            until = time.monotonic() + self._patience
            for link in self._links[1:]:
                link.due, link.until = 0.0, until
        while not all(link.was_up for link in self._links):
            yield self._wait(math.inf)
            self._hear_all()

    def _set_aside(self) -> Tuple[List[Link], Optional[Claim]]:
        """The links as they are, which are not looked at while the space has others, and the claim of their number."""
        links, self._links = self._links, []
        claim, self._claim = self._claim, None
        for link in links:
            if link.stream is not None:
                self._selector.unregister(link.stream)
        return links, claim

    def _take_back(self, machine: Machine, links: List[Link], claim: Optional[Claim]) -> None:
        """The links that were set aside are those of the space again."""
        self._machine, self._links, self._claim = machine, links, claim
        for link in links:
            if link.stream is not None:
                self._selector.register(link.stream, link.awaited, link)

    def _let_go_all(self) -> None:
        for link in self._links:
            self._let_go(link)

    def __reduce__(self) -> Tuple[Any, ...]:
        raise TypeError("a space cannot be pickled: each process makes its own, under a client number of its own")

    def __enter__(self) -> Space:
        return self

    def __exit__(self, kind: Optional[Type[BaseException]], fault: Optional[BaseException], trace: Optional[TracebackType]) -> None:
        self.close()

    def close(self) -> None:
        """Ends all connections, and waits for nothing. What was stored and taken stays so; what is pending at the servers is over, and what they hold for this
        client is free again. It may be called twice, and by any thread: a call of another thread that waits raises Closed. In a forked process it does
        nothing."""
        if self._is_inherited or os.getpid() != self._process:
            return
        with self._gate:
            if self._is_closed:
                return
            self._is_closed = True
            if self._thread not in (None, threading.get_ident()):
                for link in self._links:        # its call wakes by that, and lets go of them
                    if link.stream is not None:
                        _shut(link.stream)
                return
            self._end()

    def _give_number_up(self) -> None:
        """The number that the space has is for others to take."""
        self._let_go_all()
        claim, self._claim = self._claim, None
        if claim is not None:
            claim.end()

    def _end(self) -> None:
        self._give_number_up()
        self._selector.close()
        self._keeper.wake()
        _spaces.discard(self)

    def _inherit(self) -> None:
        """This process was forked from the one that made the space. The selector's own table is shared with that one, and stays as it is."""
        self._is_inherited = True
        for link in self._links:
            if link.stream is not None:
                link.stream.close()
        if self._claim is not None:
            self._claim.end()
        self._selector.close()

    # ---- what one asks for

    @property
    def client(self) -> int:
        """The number of this client."""
        return self._machine.client

    def out(self, tag: Value, *fields: Value, timeout: Optional[float] = None) -> Tuple[int, int]:
        """Puts a tuple, and returns its server and its id there, once it is stored for good. The j-th call of this space, from 0, goes to server (c + j) mod S,
        in which c is the client's number and S the count of servers; the others need not be there.

        Raises OutOfRange, Busy, Spent, Gone: nothing was sent. Refused with Full, TooManyClients, Gap, Old or Left: it was not put, and nothing is pending (Gap and
        Old say that another program used this client's number; with Old it may have been put before that; Left that an earlier life of this client left).
        Restored: it is not there. NoConnection, TimedOut, and all others: it may have been put or not, and is pending.
        """
        values = as_tuple((tag, *fields))
        ended = self._call(partial(self._machine.out, values), timeout)
        assert isinstance(ended, Stored)
        return ended.server, ended.id

    def out_many(self, tuples: Iterable[Sequence[Value]], timeout: Optional[float] = None) -> List[Optional[Tuple[int, Optional[int]]]]:
        """Puts these tuples, each a tag and its fields, in order and as `out` would, but up to 64 are under way to a server at once: so they share
        syncs of its disk, as the puts of many clients do. Returns for each its server and its id there; the id is None if the tuple was put and the answer to
        that was lost with a connection.

        Raises as `out` does. Refused: `stored` of it has for each tuple its place, or None if it was not put; nothing is pending. NoConnection, TimedOut, and
        all others: `pending` is "out_many", and `again` goes on and returns as this call would have.
        """
        many = [as_tuple(values) for values in tuples]
        if not many:
            return []
        ended = self._call(partial(self._machine.out_many, many), timeout)
        assert isinstance(ended, ManyStored)
        return ended.places

    @overload
    def take(self, tag: Value, *patterns: Pattern, timeout: None = None) -> Values: ...

    @overload
    def take(self, tag: Value, *patterns: Pattern, timeout: Optional[float]) -> Optional[Values]: ...

    def take(self, tag: Value, *patterns: Pattern, timeout: Optional[float] = None) -> Optional[Values]:
        """Takes a tuple that matches away, and returns it, tag first; waits until there is one. None if in `timeout` seconds all servers were there and none had
        one; with 0 it is one that is there now, or None.

        Raises as `choose` does.
        """
        return self._first(In(tag, *patterns), timeout)

    def take_many(self, tag: Value, *patterns: Pattern, count: int, timeout: Optional[float] = None) -> List[Values]:
        """Takes tuples that match and are there now away, `count` at most, and returns them: up to 64 are under way at once, from one server after the other.

        **If the program is killed meanwhile, what it took is gone**, but for the last one (`last_reply`): so do not take jobs by it.

        Raises as `choose` does. After an error or interrupt `pending` is "take_many" if something was taken, or may have been: `again` takes nothing more, and
        returns what was taken.
        """
        event, most = In(tag, *patterns), within("a count", count, 0, NUMBER_LIMIT)
        ended = self._call(partial(self._machine.take_many, event, most, False), timeout)
        assert isinstance(ended, ManyTaken)
        return ended.tuples

    def purge(self, tag: Value, *patterns: Pattern, timeout: Optional[float] = None) -> int:
        """Takes all tuples that match and are there now away, as `take_many` does, and returns how many these were."""
        event = In(tag, *patterns)
        ended = self._call(partial(self._machine.take_many, event, None, True), timeout)
        assert isinstance(ended, ManyTaken)
        return ended.count

    @overload
    def read(self, tag: Value, *patterns: Pattern, timeout: None = None) -> Values: ...

    @overload
    def read(self, tag: Value, *patterns: Pattern, timeout: Optional[float]) -> Optional[Values]: ...

    def read(self, tag: Value, *patterns: Pattern, timeout: Optional[float] = None) -> Optional[Values]:
        """A copy of a tuple that matches, which stays; else as `take`."""
        return self._first(Rd(tag, *patterns), timeout)

    def _first(self, event: Event, timeout: Optional[float]) -> Optional[Values]:
        """The tuple that a base gets, as `choose` does."""
        outcome = self._sync(event) if timeout is None else self._sync(Choose(event, self.after(timeout)), has_limit=True, is_poll=timeout == 0)
        found: Optional[Values] = outcome.tuple
        return found

    def look(self, tag: Value, *patterns: Pattern, timeout: Optional[float] = None) -> Optional[Values]:
        """A copy of a tuple that matches and that some server has now, held or not; None if all have answered that they have none. It waits for nothing else: at
        most `timeout` seconds, and at most `patience` seconds, for a server that does not answer.

        Raises as `choose` does.
        """
        event = Choose(Rd(tag, *patterns), self.after(0))
        return cast(Optional[Values], self._sync(event, has_limit=True, is_poll=True, timeout=timeout).tuple)

    def choose(self, *branches: Event, timeout: Optional[float] = None) -> Outcome:
        """Waits until one of the branches is chosen, each an event: `In("job", INT).wrap(5)`, `Rd("stop").nack(9)`. After `timeout` seconds each server is asked
        whether it has seen all of it; if all have, and nothing was chosen, the outcome has the kind "alarm", and all nack numbers are raised. If several can be
        chosen at once, one server gives the first in tree order.

        Raises as `sync` does, and TimedOut if a server has no connection when the time is up, or does not answer then for `patience` seconds.
        """
        event = Choose(*branches)
        if timeout is None:
            return self._sync(event)
        return self._sync(Choose(*event.events, self.after(timeout)), has_limit=True, is_poll=timeout == 0)

    def sync(self, event: Event) -> Outcome:
        """Waits until a base of the event is chosen. A base that is ready at once is chosen first, and then no server is asked. Else all servers are asked for
        all inputs and reads, and at most one of them is chosen. An alarm is chosen at its time, whether servers are there or not; but while a server is asked
        to hand a tuple over none is, and after `patience` seconds of that TimedOut is raised.

        Raises OutOfRange (an event with a leaf under more than 64 nodes, more than 256 bases or 64 inputs and reads), Busy, Spent, Gone before it began: nothing
        was sent. NoConnection, TimedOut, Gone of what was lost meanwhile, and all others: it is over (see the class).
        """
        return self._sync(as_event(event))

    @overload
    def hold(self, tag: Value, *patterns: Pattern, timeout: None = None, keep: Optional[float] = None) -> Hold[Offer]: ...

    @overload
    def hold(self, tag: Value, *patterns: Pattern, timeout: Optional[float], keep: Optional[float] = None) -> Hold[Optional[Offer]]: ...

    def hold(self, tag: Value, *patterns: Pattern, timeout: Optional[float] = None, keep: Optional[float] = None) -> Any:
        """For a `with`: waits until a tuple that matches is held for this client, which nobody else is offered meanwhile, and which is not taken.

            with space.hold("job", INT, timeout=60) as offer:
                if offer is not None:
                    work_on(offer.tuple)            # other calls of the space may be made here
                    offer.accept()                  # takes it; or raises Gone

        None if none was there in `timeout` seconds, as `take` does. With `keep` a thread of this module renews the hold every `keep` seconds, until it is
        accepted, released or lost: for work that is longer than the server's lease (`linda serve --lease S`). At the end of the block what was not accepted is
        free again. What is held is lost with its connection, as by the end of this program, or of the server: then another client may have it, and Gone is raised
        once, by the next call or by the end of the block. Each hold counts to the 64 that a client may ask for at once.

        Raises, at the beginning of the block, as `choose` does.
        """
        return Hold(self, In(tag, *patterns), None if timeout is None else as_seconds("a timeout", timeout),
                    None if keep is None else as_seconds("the time between renewals", keep, SHORTEST_PAUSE))

    def work(self, template: working.Template, function: working.Function, *, tries: Optional[int] = None, delay: float = 1.0, dead: Value = "dead",
             stop: working.Stop = None, keep: float = RENEWAL, timeout: Optional[float] = None, limit: Optional[float] = None, grace: float = 30.0) -> int:
        """Does one job after another, and returns how many it did: see `linda_space.working`."""
        return working.work(self, working.Plan(template, tries, delay, dead, stop, keep, timeout, limit, grace), function)

    def after(self, seconds: float) -> Alarm:
        """An alarm that is ready `seconds` seconds from now, rounded up to milliseconds. Raises OutOfRange if that is below 0, no number, or too late."""
        return Alarm(self.clock() + math.ceil(as_seconds("a time", seconds) * 1000))

    def clock(self) -> int:
        """The time by the clock of the space, in milliseconds since it began; it never falls."""
        return max(self._machine.clock, self._now())

    def last_reply(self, server: int = 0, timeout: Optional[float] = None) -> Optional[Kept]:
        """The reply that a server keeps to the last numbered message of this client there, of an earlier life perhaps: None if there was none. So a program that
        starts again under its number learns whether its last out was stored, or which tuple its last take took. Each server keeps its own; nothing says which
        of them was the last. Nothing changes.

        Raises OutOfRange if there is no such server, Busy: nothing was sent. Refused with Gap or Old: another program uses this client's number, and nothing
        is pending. All others: it is pending.
        """
        place = within("a server", server, 0, len(self._links) - 1)
        ended = self._call(partial(self._machine.repeat, place), timeout)
        assert ended is None or isinstance(ended, Kept)
        return ended

    def leave(self, timeout: Optional[float] = None) -> None:
        """Gives the number of this client up for good, at all servers, and returns once all of them know. What it held is free again; what it put stays. From
        then on nobody can do anything under this number: no life of this client, and no other program. A server keeps the number for good, with the few bytes
        that say so, so this frees no place of the 65,536.

        Raises Busy, Spent: nothing was sent. All others: it is pending, and some servers may know. Full is refused by a server whose bank is still in the
        form of an earlier program: `again` after its next snapshot.
        """
        self._call(self._machine.leave, timeout)

    # ---- what is pending after an error

    @property
    def pending(self) -> Optional[str]:
        """What is pending after an error: "out", "out_many", "last_reply", "leave", "accept"; "take_many", "purge" or "sync" if something was taken, or may have
        been, by a call that an error ended; or None."""
        task = self._machine.task
        if isinstance(task, (Outs, Takes)):
            return task.name
        if task is None and self._machine.in_hand:
            return "sync"
        return {Put: "out", Syncing: "sync", Repeat: "last_reply", Leaving: "leave", Taking: "accept", Passing: "pass"}.get(type(task))

    @property
    def settled(self) -> Settled:
        """How a call ended that KeyboardInterrupt, or another exception that is not of this module, interrupted: if it had ended already, or was finished by the
        last call. It is as `again` would have returned it, or the error that it would have raised; None for a leave, and if there is none. What is still
        `pending` is not settled."""
        return self._machine.settled

    def again(self, timeout: Optional[float] = None) -> Settled:
        """Goes on with what is pending after an error: sends what is unanswered again, under its number, and waits for its end, which it returns: Stored for an
        out, Outcome for an accept, and for a take whose tuple was taken; Kept for `last_reply`; None for a leave, and for a take that came too late: nothing
        was taken then; for `out_many`, `take_many` and `purge` what these return. Nothing is done twice by that. What was taken for an earlier call comes last: then
        something is still `pending`.

        Raises Idle if nothing is pending; Gone for an accept that came too late; else as what it goes on with.
        """
        self._be_mine()
        had = self._only_in_hand()
        return had if had is not None else self._again_as(self._call(self._machine.go_on, timeout, is_again=True))

    def _only_in_hand(self) -> Optional[Outcome]:
        """What was taken for an earlier call, if nothing else is pending."""
        machine = self._machine
        if machine.task is not None or machine.ended is not None:
            return None
        if not machine.in_hand:
            raise Idle("nothing is pending")
        return machine.in_hand.popleft()

    def _again_as(self, ended: Optional[Ended]) -> Settled:
        """What `again` returns, if what it went on with ended so."""
        if isinstance(ended, Gone):
            raise ended
        if isinstance(ended, Outcome):
            return ended
        return None if ended is None or isinstance(ended, (Offer, Passed)) else self._machine.result(ended)

    def abandon(self) -> Tuple[int, ...]:
        """All nack numbers of the synchronization that an error ended before this call, all of which are raised. Nothing was taken for it.

        Raises Left after `leave`, Idle if there is none, and Busy if a server may have taken a tuple for it: `again` gets it.
        """
        self._be_mine()
        if self._is_closed:
            raise Closed("the space was closed")
        return self._machine.abandon()

    # ---- what is held

    def _hold(self, event: In, timeout: Optional[float], keep: Optional[float]) -> Optional[Offer]:
        alarms = [] if timeout is None else [self.after(timeout)]
        ended = self._hold_or(Choose(event, *alarms), timeout is not None, timeout == 0)
        if not isinstance(ended, Offer):
            return None
        if keep is not None:
            self._keeper.keep(ended, keep)
        return ended

    def _hold_or(self, event: Event, has_limit: bool = False, is_poll: bool = False, is_over: Optional[Callable[[], bool]] = None) -> Union[Offer, Outcome, None]:
        """Waits for an event, of which no input takes a tuple: it is held. None once it is over, which is looked for four times a second."""
        ended = self._call(partial(self._begin, event, has_limit, is_poll, True), is_over=is_over)
        if isinstance(ended, Offer):
            ended._space = self
        assert ended is None or isinstance(ended, (Offer, Outcome))
        return ended

    def _pass_over(self, server: int) -> None:
        """Has a server keep Gone as the last reply to this client."""
        self._call(partial(self._machine.pass_over, server))

    def _accept(self, offer: Offer, timeout: Optional[float]) -> Values:
        ended = self._call(partial(self._machine.take_held, offer), timeout, offer=offer)
        if isinstance(ended, Gone):
            raise ended
        return offer.tuple

    def _is_held(self, offer: Offer) -> bool:
        if self._is_inherited or os.getpid() != self._process:
            return False
        with self._gate:
            self._look()
            return not self._is_closed and self._machine.held.get((offer.server, offer.ticket)) is offer

    def _is_lost(self, offer: Offer) -> bool:
        """True if it was lost and no error has reported it before; this call counts as the report."""
        if self._is_inherited or self._is_closed or os.getpid() != self._process:
            return False
        with self._gate:
            self._look()
            return self._machine.tell_lost(offer)

    def _renew(self, offer: Offer) -> None:
        self._be_mine()
        with self._gate:
            if self._is_closed:
                raise Closed("the space was closed")
            self._look()
            self._machine.renew(offer)
            self._send()

    def _release(self, offer: Offer) -> None:
        if self._is_inherited or os.getpid() != self._process:
            return
        with self._gate:
            if not self._is_closed:
                self._machine.release(offer)
                self._send()

    def _held_now(self) -> List[Offer]:
        return list(self._machine.held.values())

    def _end_holds(self, held: List[Offer], fault: BaseException) -> None:
        """An interrupt came while a hold began or ended, so that nobody may have it in hand: nothing is held any more then, as after one in a call. Of what was
        held before, Gone reports it."""
        if isinstance(fault, (SpaceError, TypeError, ValueError)) or self._is_inherited or os.getpid() != self._process:
            return
        with self._gate:
            if not self._is_closed:
                self._let_go_all()
                self._machine.lost_offers = [offer for offer in self._machine.lost_offers if any(offer is it for it in held)]

    def _look(self) -> None:
        """Reads what came from those that hold something: a connection that ended is noticed so. If another thread is in a call, that reads all at once."""
        if self._thread in (None, threading.get_ident(), TASK):
            for server in {server for server, _ in self._machine.held}:
                self._read_all(self._links[server])

    def _read_all(self, link: Link) -> None:
        """Reads all that came from a server."""
        has_more = False
        while link.stream is not None and link.is_up and self._read(link):
            has_more = True
        if self._thread == TASK and (has_more or not link.is_up):
            self._wake_task()                   # its loop does not see any more that there was something

    # ---- how it goes on

    def _be_mine(self) -> None:
        if self._is_inherited or os.getpid() != self._process:
            raise Forked()

    def _sync(self, event: Event, has_limit: bool = False, is_poll: bool = False, timeout: Optional[float] = None) -> Outcome:
        ended = self._call(partial(self._begin, event, has_limit, is_poll, False), timeout)
        assert isinstance(ended, Outcome)
        return ended

    def _begin(self, event: Event, has_limit: bool, is_poll: bool, is_hold: bool) -> None:
        self._machine.tick(self._now())
        self._machine.sync(event, has_limit, is_poll, is_hold)

    def _call(self, begin: Callable[[], None], timeout: Optional[float] = None, is_again: bool = False, offer: Optional[Offer] = None,
              is_over: Optional[Callable[[], bool]] = None) -> Optional[Ended]:
        """One call, from its beginning to its end, which is None if there was nothing to wait for. `offer` is the one that it accepts."""
        self._be_mine()
        return self._drive(self._course(begin, timeout, is_again, offer, is_over))

    def _drive(self, course: Course[Got]) -> Got:
        """Runs a call, and waits when it waits."""
        me = threading.get_ident()
        with self._gate:                        # not by acquire(): an interrupt that comes right after that would leave the gate closed
            self._enter(me)
            try:
                wake = next(course)
                while True:
                    try:
                        self._pause(wake)
                    except BaseException as fault:
                        self._own_gate()
                        wake = course.throw(fault)
                    else:
                        wake = next(course)
            except StopIteration as ended:
                value: Got = ended.value
                return value
            finally:
                self._own_gate()
                course.close()              # an interrupt that came here, and not in the call, ends the call now and not with its traceback
                self._leave_call()

    def _own_gate(self) -> None:
        """An interrupt may have come while the gate was given up."""
        if not self._gate._is_owned():      # type: ignore[attr-defined]
            self._gate.acquire()

    def _enter(self, me: int) -> None:
        """A call begins, in this thread."""
        if self._is_closed:
            raise Closed("the space was closed")
        if self._thread not in (None, me):
            raise Busy("another thread is in a call of this space")
        self._thread = me

    def _leave_call(self) -> None:
        self._thread = None
        if self._is_closed:
            self._end()

    def _pause(self, wake: float) -> None:
        """Waits until something comes, or until this time, and serves it. Meanwhile other threads may renew, release and close."""
        try:
            self._gate.release()
            ready = self._selector.select(None if wake == math.inf else min(LONGEST_SLEEP, wake - time.monotonic()))
        finally:
            self._own_gate()
        self._serve(ready)

    def _course(self, begin: Callable[[], None], timeout: Optional[float], is_again: bool, offer: Optional[Offer],
                is_over: Optional[Callable[[], bool]]) -> Course[Optional[Ended]]:
        now = time.monotonic()
        until = math.inf if timeout is None else now + as_seconds("a timeout", timeout)
        machine = self._machine
        if self._over is not None:
            raise self._over.with_traceback(None)
        try:
            self._tell_lost(offer)
            for link in self._links:
                if not link.is_up:
                    link.until, link.busy_until = now + self._patience, None
            self._late = None
            if machine.ended is not None:       # a second interrupt came before `give_up`
                machine.give_up(True)
            elif is_again or not machine.is_left_over():
                machine.settled = None
            else:
                yield from self._settle(min(until, now + self._patience))
            begin()
            yield from self._run(until, is_over)
            ended, machine.ended = machine.ended, None
            return ended
        except SpaceError as fault:
            if isinstance(fault, Refused) and fault.name != "TooManyAsks":      # that server does all else, and holds what it held
                self._end_trains()
            machine.give_up(False)
            self._send()
            fault.pending = self.pending
            raise
        except Interrupted:
            machine.give_up(True)
            self._send()
            raise
        except BaseException:
            self._let_go_all()
            machine.give_up(True)
            raise

    def _tell_lost(self, accepted: Optional[Offer] = None) -> None:
        """Raises Gone of what was lost and not reported yet; only of this offer, if it is being accepted, since the accept reports the others. Every connection is looked at: by one
        that has ended nothing is sent, so that what is sent is known."""
        for link in self._links:
            if link.is_up:
                self._read_all(link)
        if accepted is None and self._machine.lost_offers:
            lost, self._machine.lost_offers = self._machine.lost_offers, []
            raise Gone(lost)

    def _end_trains(self) -> None:
        """Of messages that went together one was refused by a server that does nothing now: Welcome's last will say which were done."""
        task = self._machine.task
        if isinstance(task, (Outs, Takes)):
            for link in self._links:
                if task.needs(link.server):
                    self._let_go(link)

    def _settle(self, until: float) -> Course[None]:
        """Waits for the end of what an earlier call left unfinished."""
        machine = self._machine
        if isinstance(machine.task, Syncing):
            machine.give_up(True)
        is_interrupted = machine.is_interrupted
        if isinstance(machine.task, Takes):
            machine.go_on()
        try:
            yield from self._run(until)
            if machine.ended is not None:
                machine.file(machine.ended)
        except Refused as fault:
            if machine.task is not None:
                raise
            if is_interrupted:
                machine.settled = fault
        machine.is_interrupted = False

    def _run(self, until: float, is_over: Optional[Callable[[], bool]] = None) -> Course[None]:
        """Sends, and waits for the end of what is pending, if there is anything."""
        machine = self._machine
        self._send()
        if machine.task is not None:
            for link in self._links:
                if link.came:                   # before this call, or when it began
                    self._hear_all()
                    break
        while machine.ended is None and machine.task is not None:
            if is_over is not None and is_over():
                machine.give_up(False)
                self._send()
                if machine.task is None:
                    return
            if machine.lost_offers and isinstance(machine.task, Syncing) and not machine.task.is_dropped:
                self._tell_lost()
            yield self._wait(until, math.inf if is_over is None else LOOK_AGAIN)
            self._hear_all()
        machine.is_interrupted = False

    def _send(self) -> None:
        """Sends what the machine said. What a server that is not there is not sent counts no more, or is sent again after its greeting."""
        machine = self._machine
        if not machine.sent:
            return
        sent, machine.sent = machine.sent, []
        now = time.monotonic()
        for server, data in sent:
            link = self._links[server]
            if link.is_up:
                link.left += data
                link.said = now
        for link in self._links:
            if link.is_up and link.left:
                last = machine.numbers[link.server] - 1 + machine.under_way(link.server)
                if last > link.last_sent:
                    link.last_sent = last
                self._write(link)

    def _hear_all(self) -> None:
        """Hears what came, and then looks whether an alarm is ready. It stops once what is pending has ended: the rest is for the next call."""
        machine, now = self._machine, self._now()
        if now > machine.clock:
            machine.clock = now
        for link in self._links:
            while link.came and machine.ended is None and self._hear(link):
                pass
        if machine.ended is None:
            machine.tick(now)
        self._send()

    def _wait(self, until: float, most: float = math.inf) -> float:
        """Greets and renews if that is due. Returns when something is due next, `until` or `most` seconds from now at the latest: until then what
        comes is waited for, from all servers at once. Raises TimedOut if it is later than `until`, and NoConnection if a server that is
        needed is away for too long."""
        now = time.monotonic()
        wake = until if most == math.inf else min(until, now + most)
        task = self._machine.task
        if isinstance(task, Syncing) and task.alarms and not task.is_dropped:
            until = min(until, self._latest(task, now))
            wake = min(wake, until)
            at = task.next_time()
            if at is not None and (task.accepted is None or at > self._machine.clock):
                wake = min(wake, now + (at - self.clock()) / 1000)
        for link in self._links:
            if not link.is_up:
                if now >= link.until:
                    self._give_up(link, now)
                if link.stream is None and link.due <= now:
                    self._join(link)
                wake = min(wake, link.until, math.inf if link.stream is not None else link.due)
        if now >= until:
            raise TimedOut(self._machine.missing())
        return min(wake, self._renew_all(now)) if self._machine.held else wake

    def _renew_all(self, now: float) -> float:
        """Renews what is held at servers to which nothing was sent for a while; returns the time at which to look again."""
        wake = math.inf
        for server, _ in list(self._machine.held):
            link = self._links[server]
            if link.said + RENEWAL <= now:
                self._machine.renew_at((server,))
                self._send()
            wake = min(wake, link.said + RENEWAL)
        return wake

    def _serve(self, ready: Iterable[Tuple[selectors.SelectorKey, int]]) -> None:
        """Writes and reads what is possible now."""
        if self._is_closed:
            raise Closed("the space was closed while a call waited")
        for key, what in ready:
            link = key.data
            if what & selectors.EVENT_WRITE and link.stream is not None:
                self._write(link)
            if what & selectors.EVENT_READ and link.stream is not None:
                self._read(link)

    def _latest(self, task: Syncing, now: float) -> float:
        """The time at which a synchronization must end of which an alarm is ready: it waits only for an answer. If the call's own time is up and a server is
        away, that
        is now."""
        base = task.ringing(self._machine.clock)
        if base is None:
            return math.inf
        if base is task.limit and not task.is_poll and not all(link.is_up for link in self._links):
            return now
        if self._late is None:
            self._late = now + self._patience
        return self._late

    def _give_up(self, link: Link, now: float) -> None:
        """A server has been away for too long."""
        if link.was_up and not self._machine.needs(link.server):
            link.until = now + self._patience
            return
        self._let_go(link)
        if link.busy_until is not None:
            raise Refused(link.server, 3, 0, self._machine.client)
        raise NoConnection(link.server, link.port, link.fault) from link.fault

    def _hear(self, link: Link) -> bool:
        """Hears the next frame of a server; False if none came whole."""
        try:
            data = link.frame()
            if data is None:
                return False
            reply = read_reply(data)
            if not link.is_up and reply.kind not in (WELCOME, REFUSED):
                raise ValueError("something else before the Welcome")
        except ValueError as fault:
            self._let_go(link)
            raise BadReply(link.server, str(fault)) from None
        if link.is_up:
            try:
                self._machine.receive(link.server, reply)
            except NumberInUse as in_use:
                self._end_for_good(in_use)
        elif reply.kind == WELCOME:
            self._welcome(link, reply.number)
        elif REFUSALS.get(reply.number) == "Busy" and not link.fresh and self._bears(link):
            self._lose(link)
        else:
            self._let_go(link)
            raise Refused(link.server, reply.number, reply.id, self._machine.client)
        if self._machine.sent:
            self._send()
        return True

    def _bears(self, link: Link) -> bool:
        """Whether a server that is Busy is greeted once more."""
        now = time.monotonic()
        if link.busy_until is None:
            link.busy_until = now + min(BUSY_PATIENCE, self._patience)
        return now < link.busy_until or link.was_up and not self._machine.needs(link.server)

    def _welcome(self, link: Link, last: int) -> None:
        """A server has welcomed the client. Numbers go on after the last one of an earlier life. A later Welcome changes nothing: its last is the one that was
        answered, or that of a message that was sent and is not answered yet; what is unanswered is sent again."""
        machine, server = self._machine, link.server
        answered = machine.numbers[server] - 1
        if not link.was_up and link.is_new and last > 0:        # it was greeted without `fresh`, as after a connection that was lost before this
            self._let_go(link)
            raise Refused(server, 2, last, machine.client)
        if not link.was_up:
            machine.numbers[server], link.last_sent = last + 1, last
        elif last < answered:
            self._end_for_good(Restored(server, last, answered))
        elif last > max(answered, link.last_sent):
            self._end_for_good(NumberInUse(server, last, answered, machine.client))
        if link.was_up:
            log.info("server %d: connected again as client %d", server, machine.client)
        link.is_up = link.was_up = True
        link.fresh, link.pause, link.busy_until, link.fault = False, SHORTEST_PAUSE, None, None
        machine.reconnected(server, last)

    def _end_for_good(self, fault: SpaceError) -> None:
        """Client and servers do not count alike any more: what is pending will have no answer, and what is held is let go."""
        self._let_go_all()
        self._machine.forget()
        self._over = fault
        raise fault

    def _join(self, link: Link) -> None:
        """Begins a connection."""
        try:
            stream = self._connect(link.port)
        except OSError as fault:
            link.fault = fault
            self._lose(link)
            return
        if not hasattr(stream, "setblocking"):
            raise OutOfRange(f"connect returns a socket: {stream!r}")
        link.stream = stream
        pending = getattr(stream, "pending", None)
        link.pending = pending if callable(pending) else None
        stream.setblocking(False)
        link.left += spell_hello(self._machine.client, link.fresh)
        link.awaited = selectors.EVENT_READ | selectors.EVENT_WRITE
        self._selector.register(link.stream, link.awaited, link)

    def _write(self, link: Link) -> None:
        """Writes as much as goes out now."""
        assert link.stream is not None
        try:
            if not link.is_made:
                error = link.stream.getsockopt(socket.SOL_SOCKET, socket.SO_ERROR)
                if error:
                    raise OSError(error, os.strerror(error))
                link.is_made = True
            while link.left:
                del link.left[:link.stream.send(link.left)]
        except OSError as fault:
            if not waits(fault):
                link.fault = fault
                self._lose(link)
                return
        awaited = selectors.EVENT_READ | (selectors.EVENT_WRITE if link.left else 0)
        if awaited != link.awaited:
            link.awaited = awaited
            self._selector.modify(link.stream, awaited, link)

    def _read(self, link: Link) -> bool:
        """Reads what came; whether there was something. A stream with TLS may have more than its socket shows: all of that is read."""
        assert link.stream is not None
        while True:
            try:
                piece = link.stream.recv(PIECE)
            except BlockingIOError:
                return False
            except OSError as fault:
                if waits(fault):
                    return False
                link.fault = fault
                piece = b""
            if not piece:
                self._lose(link)
                return False
            link.came += piece
            if link.pending is None or link.pending() <= 0:
                return True

    def _lose(self, link: Link) -> None:
        """The connection is lost, or could not be had: it is made again at once if it was up, else after a pause. Raises NoConnection at the very first."""
        was_up, is_first = link.is_up, not link.was_up and not link.was_tried and not link.is_made
        self._let_go(link)
        link.fresh = False
        link.was_tried = True
        now = time.monotonic()
        if was_up:
            log.info("server %d: the connection ended: %s", link.server, link.fault or "the server closed it")
            link.until, link.pause, link.busy_until = now + self._patience, SHORTEST_PAUSE, None
            return
        if is_first:
            raise NoConnection(link.server, link.port, link.fault) from link.fault
        link.due = now + link.pause
        link.pause = min(2 * link.pause, LONGEST_PAUSE)

    def _let_go(self, link: Link) -> None:
        """There is no connection any more, and what was not sent on it is not sent."""
        if link.stream is not None:
            try:
                self._selector.unregister(link.stream)
            except (KeyError, ValueError):          # it is not there; ValueError: an interrupt came when it had just been closed
                pass
            link.stream.close()
        link.stream = link.pending = None
        if link.is_up:
            before = len(self._machine.lost_offers)
            self._machine.lost(link.server)
            for offer in self._machine.lost_offers[before:]:
                if not self._is_closed:
                    log.warning("server %d: the hold of %r was lost with the connection", link.server, offer.tuple)
        link.is_made = link.is_up = False
        link.due = 0.0
        link.came.clear()
        link.left.clear()


def _shut(stream: socket.socket) -> None:
    try:
        stream.shutdown(socket.SHUT_RDWR)
    except OSError:
        pass
