"""The loop of a worker that loses no job: `Space.work`.

A job is held while it is worked on; its results are put, and it is taken last. So a worker that is killed at any moment loses nothing: its job is free again,
and another worker gets it. At worst a job is done again whose results were put already: readers ignore a second one.

    def square(job):                                    # ("job", 7)
        return ("done", job[1], job[1] ** 2)            # a tuple that is put; a list of tuples: each of them; None: nothing

    space.work(("job", INT), square)

The jobs are those of a tag and patterns, as here, or of an `In`, or of several: `[In("urgent", INT), In("job", INT)]`. If jobs of several are there, one server
gives one of the first.

**Tries.** With `tries=N` one place of the template is TRIES: there a job has how often it failed, 0 at first, as `("job", 7, 0)` for `("job", INT, TRIES)`. If
the function raises, or what it returns cannot be put, the job stays held by this worker for `delay` seconds, twice as long after each further failure, while
other jobs are done; then it is put with one failure more, and the old one is taken. After N failures it is put as a dead letter instead, at once: the tag
`dead`, the whole job with its tag and its count, and the error's text, of 1,000 bytes at most: `("dead", "job", 7, 3, "ValueError: no")`. So a job has at most
30 fields. A worker that is killed meanwhile gives its jobs free at once, with the old count.

A job that ends its worker, as by a segfault or the kernel's OOM killer, has failed too, with the text "the worker ended": the next worker under this number
learns of it by a file in the folder of `linda_space.numbers`. So the number and the folder stay the same.

**Time.** With `limit` a job whose function takes more than so many seconds has failed ("the limit of 5 s"). In the main thread the function is interrupted, by
SIGALRM, and in asyncio cancelled. In other threads, or if the program uses SIGALRM, a thread of its own calls it, which goes on, and must not use the space:
what it returns later is not put.

**The end.** `work` goes on until a tuple that fits `stop` is there, if that is a read (`Rd("stop")`); or until `stop.is_set()`, as of a threading.Event; or
until no job has come for `timeout` seconds; or, in the main thread, until SIGTERM. The job in hand is finished first, and those that wait for their next try
are put back. `grace` seconds after SIGTERM a function is interrupted in the same way (not if the program uses SIGALRM), and its job is free, not failed. After
SIGTERM the program's own handler is called, if it has one, and `work` returns. A second SIGTERM does what it did before.

**What goes wrong.** A server that is away, or has no room, does not end the loop: it is tried again, and what is pending is finished. If a hold is lost, its
results are not put, since another worker gets the job. Without `tries` an exception of the function, or the limit (TimeoutError), gives the job free and leaves
`work`.
"""

from __future__ import annotations

import heapq
import itertools
import logging
import math
import signal
import time
from contextlib import contextmanager
from typing import TYPE_CHECKING, Any, Callable, Generator, Iterator, List, Optional, Protocol, Sequence, Tuple, Union

from .errors import Gone, NoConnection, OutOfRange, Refused, SpaceError, TimedOut
from .events import Alarm, Choose, Event, In, Rd, as_event
from .interrupts import Cut, Cutter, stops
from .limits import MOST_FIELDS, MOST_INTEGER, NUMBER_LIMIT, SHORTEST_PAUSE
from .notes import Notes
from .offers import Offer
from .results import Outcome
from .values import INT, TRIES, Value, Values, as_seconds, as_tuple, as_value, within

if TYPE_CHECKING:
    from .space import Space

MOST_RETRIES = 32           # jobs that wait for their next try in one worker
MOST_ERROR = 1_000          # bytes of an error's text in a dead letter
MOST_LOOKED = 16            # jobs that are held for a moment to find the one in which the last life ended
LIFE_ENDED = "the worker ended"
PAUSE = 0.5                 # seconds until a server that is away, or has no room, is tried again
PASSING = ("Full", "Down", "Busy", "TooManyAsks")       # what a server may refuse now and not later
PENDING = ("out", "accept", "pass")                     # what is finished before anything else is done

log = logging.getLogger("linda_space")


class HasIsSet(Protocol):
    def is_set(self) -> bool: ...


Results = Union[None, Tuple[Value, ...], List[Tuple[Value, ...]]]
Function = Callable[[Values], Any]
Stop = Union[None, Rd, HasIsSet]
Template = Union[In, Sequence[Any]]     # a tag and patterns, an In, or several In


class Plan:
    """What one call of `work` was asked for, and the tuples that it makes of jobs. `places` is for each of the `jobs` that of TRIES."""

    def __init__(self, template: Template, tries: Optional[int], delay: float, dead: Value, stop: Stop, keep: float, timeout: Optional[float],
                 limit: Optional[float], grace: float) -> None:
        self.jobs, self.places = jobs_of(template), []
        self.tries = None if tries is None else within("a count of tries", tries, 1, NUMBER_LIMIT - 1)
        self.delay, self.keep = as_seconds("a delay", delay), as_seconds("the time between renewals", keep, SHORTEST_PAUSE)
        self.dead = as_value(dead)
        self.timeout = None if timeout is None else as_seconds("a timeout", timeout)
        self.limit = None if limit is None else as_seconds("a limit", limit, SHORTEST_PAUSE)
        self.grace = as_seconds("a grace", grace)
        self.read = stop if isinstance(stop, Rd) and as_event(stop) else None
        self.flag = None if stop is None or isinstance(stop, Rd) else stop
        if self.flag is not None and not callable(getattr(self.flag, "is_set", None)):
            raise OutOfRange(f"what stops a worker is an Rd, or has is_set(): {stop!r}")
        if self.tries is None:
            for job in self.jobs:
                as_event(job)
            return
        if any(job.template.count(TRIES) != 1 for job in self.jobs):
            raise OutOfRange("with tries one pattern is TRIES: there a job has how often it failed")
        if any(len(job.template) > MOST_FIELDS - 1 for job in self.jobs):
            raise OutOfRange(f"with tries a job has at most {MOST_FIELDS - 2} fields, so that its dead letter has room for it and the error")
        self.places = [job.template.index(TRIES) for job in self.jobs]
        self.jobs = [In(job.template[0], *(INT if item is TRIES else item for item in job.template[1:])) for job in self.jobs]      # type: ignore[arg-type]

    def after_failure(self, job: Values, error: str) -> Tuple[Values, float]:
        """What a job becomes that failed, and after how many seconds."""
        assert self.tries is not None
        place = next(place for place, asked in zip(self.places, self.jobs) if asked.fits(job))
        failures = min(max(0, job[place]) + 1, MOST_INTEGER)
        again = (*job[:place], failures, *job[place + 1:])
        if failures >= self.tries:
            return (self.dead, *again, error), 0.0
        return again, min(self.delay * 2.0 ** min(failures - 1, 60), 86_400.0)


def jobs_of(template: Template) -> List[In]:
    """The inputs of which each is a job: that of a tag and patterns, or those that are given, the first of which goes first."""
    if isinstance(template, In):
        return [template]
    if not isinstance(template, (tuple, list)) or not template:
        raise OutOfRange(f"the jobs are a tag and patterns, an In, or several: {template!r}")
    if isinstance(template[0], In):
        if not all(isinstance(job, In) for job in template):
            raise OutOfRange(f"the jobs are several In, or a tag and patterns: {template!r}")
        return list(template)
    return [In(*template)]


def error_text(fault: Exception) -> str:
    """The error's kind and words, of a length that a text may have."""
    try:
        words = str(fault)
    except Exception:
        words = "an error without a text"
    return f"{type(fault).__name__}: {words}".encode(errors="replace")[:MOST_ERROR].decode(errors="ignore")


def results_of(value: Any) -> List[Values]:
    """What a function returned, as the tuples that are put. Raises OutOfRange before any of them is put."""
    if value is None:
        return []
    if isinstance(value, tuple):
        return [as_tuple(value)]
    if isinstance(value, list) and all(isinstance(item, tuple) for item in value):
        return [as_tuple(item) for item in value]
    raise TypeError(f"the function of a worker returns None, a tuple, or a list of tuples: {value!r}")


class Stopped(Exception):
    """The end was asked for while a server was away."""


Steps = Generator[Callable[[], Any], Any, Any]      # it yields what must be done next, is sent what that returned, and returns how it ended


def play(steps: Steps) -> Any:
    """Does what these steps ask for, one after another, and returns how they ended."""
    try:
        step = next(steps)
        while True:
            try:
                value = step()
            except BaseException as fault:
                step = steps.throw(fault)
            else:
                step = steps.send(value)
    except StopIteration as ended:
        return ended.value


class Worker:
    """One call of `work`. What waits is a step of its own, so that both a thread and a task of asyncio can play it: `calls` has `run`, which calls the
    function, `out`, `again`, `hold_or`, `accept`, `pass_over` and `sleep`, which return what they come to, or something to be awaited."""

    def __init__(self, space: Space, calls: Any, plan: Plan, function: Function) -> None:
        self.space, self.calls, self.plan, self.function = space, calls, plan, function
        self.retries: List[Tuple[float, int, Offer, Values]] = []       # a heap: when it is due, a count, what is held, and what it becomes
        self.count = itertools.count()
        self.done = 0
        self.is_stopped = self.is_signalled = False
        self.notes: Optional[Notes] = None

    def steps(self) -> Steps:
        with self.ended_by_a_signal():
            try:
                if self.plan.tries is not None:
                    self.notes = Notes(self.space)
                    yield from self.find_noted(self.notes)
                while True:
                    offer = yield from self.next_job()
                    if offer is None:
                        break
                    yield from self.do(offer)
                for _, _, offer, again in sorted(self.retries, key=lambda retry: retry[:2]):
                    yield from self.put_again(offer, again)
                self.retries = []
                yield from self.rest()
            except Stopped:
                log.warning("a worker ends while a server is away: what it held is free again")
            finally:
                for _, _, offer, _ in self.retries:
                    offer.release()
                self.calls.cutter.close()
                if self.notes is not None:
                    self.notes.close()
        return self.done

    # ---- what comes next

    def is_over(self) -> bool:
        return self.is_stopped or self.plan.flag is not None and self.plan.flag.is_set()

    def next_job(self) -> Steps:
        """Waits for a job, and puts again what is due; None at the end."""
        until = math.inf if self.plan.timeout is None else time.monotonic() + self.plan.timeout
        while not self.is_over():
            while self.retries and self.retries[0][0] <= time.monotonic():
                _, _, offer, again = heapq.heappop(self.retries)
                yield from self.put_again(offer, again)
            wake = self.retries[0][0] if self.retries else math.inf
            has_limit = until <= wake < math.inf or until < wake and not self.retries
            if has_limit and self.retries and until <= time.monotonic():        # only what waits for its next try is waited for
                has_limit = False
            found = yield from self.guarded(lambda: self.calls.hold_or(
                self.event(until if has_limit else wake), has_limit, has_limit and self.plan.timeout == 0, self.is_over))
            if isinstance(found, Offer):
                self.space._keeper.keep(found, self.plan.keep, self.plan.limit)
                return found
            if isinstance(found, Outcome) and found.kind == "read" or not self.retries and time.monotonic() >= until:
                return None
        return None

    def event(self, wake: float) -> Event:
        """The stop word, a job, and the time at which something else is due."""
        alarms = [] if wake == math.inf else [self.space.after(max(0.0, wake - time.monotonic()))]
        jobs = self.plan.jobs if len(self.retries) < MOST_RETRIES else []
        return Choose(*([] if self.plan.read is None else [self.plan.read]), *jobs, *alarms)

    # ---- one job

    def do(self, offer: Offer) -> Steps:
        notes = self.notes
        if notes is None:
            yield from self.call(offer)
        elif notes.is_of(offer):
            yield from self.fail(offer, LIFE_ENDED)
        else:
            try:
                yield from self.put_noted(notes)
                notes.begin(offer)
                yield from self.call(offer)
            except SystemExit:              # a life that ends in a job
                offer.release()
                raise
            except BaseException:
                offer.release()
                notes.end()
                raise
            notes.end()

    def call(self, offer: Offer) -> Steps:
        """Calls the function, and puts what it returns."""
        try:
            results = results_of((yield lambda: self.calls.run(self.function, offer.tuple, self.plan.limit)))
        except Cut as cut:
            error = f"the limit of {self.plan.limit or 0.0:g} s"
            if not cut.is_limit:
                log.warning("the job %r is free again: it went on for %g s after SIGTERM", offer.tuple, self.plan.grace)
            elif self.notes is None:
                offer.release()
                raise TimeoutError(f"{error}: {offer.tuple!r}") from None
            elif self.holds(offer):
                yield from self.fail(offer, error)
                return
            else:                           # it was in a call of this space, whose connections ended with that
                self.notes.ended = self.notes.line(offer)
                yield from self.find_noted(self.notes, error)
            offer.release()
        except Exception as fault:
            if isinstance(fault, Gone) and not self.holds(offer):
                return
            if self.plan.tries is None or self.space.pending is not None:
                offer.release()
                raise
            yield from self.fail(offer, error_text(fault), fault)
        except BaseException:
            offer.release()
            raise
        else:
            if (yield from self.finish(offer, results)):
                self.done += 1

    def fail(self, offer: Offer, error: str, fault: Optional[Exception] = None) -> Steps:
        """A job has failed: it is a dead letter now, or waits for its next try."""
        again, seconds = self.plan.after_failure(offer.tuple, error)
        log.warning("the job %r failed: %s", offer.tuple, error, exc_info=fault)
        if seconds == 0.0:
            yield from self.put_again(offer, again)
        else:
            self.space._keeper.keep(offer, self.plan.keep)
            heapq.heappush(self.retries, (time.monotonic() + seconds, next(self.count), offer, again))

    def put_again(self, offer: Offer, again: Values) -> Steps:
        """Puts what a job becomes that failed."""
        if (yield from self.finish(offer, [again])) and self.notes is not None and self.notes.is_of(offer):
            self.notes.drop()

    def put_noted(self, notes: Notes) -> Steps:
        """Puts the job in which the last life ended, if it waits for its next try: else its count would be lost if the next job ends this life."""
        for retry in self.retries:
            if notes.is_of(retry[2]):
                self.retries.remove(retry)
                heapq.heapify(self.retries)
                yield from self.put_again(*retry[2:])
                return

    def find_noted(self, notes: Notes, error: str = LIFE_ENDED) -> Steps:
        """Counts the job in which the last life of this number ended before any other is done, if it is free. What is offered before it is free again then."""
        others: List[Offer] = []
        try:
            for job in self.plan.jobs if notes.ended else []:
                has_more = True
                while has_more and len(others) < MOST_LOOKED:
                    found = yield lambda job=job: self.calls.hold_or(Choose(job, self.space.after(0)), True, True)      # type: ignore[misc]
                    if isinstance(found, Offer):
                        if notes.is_of(found):
                            yield from self.fail(found, error)
                            return
                        others.append(found)
                    has_more = isinstance(found, Offer) and not notes.is_before(found)       # one server offers what a template matches by rising id
            if notes.ended and len(others) < MOST_LOOKED:
                notes.end()                 # somebody else has it: if it is offered to this life later, it is counted then
        except SpaceError as fault:
            log.warning("a worker looks later for the job in which its last life ended: %s", fault)
        finally:
            for offer in others:
                offer.release()

    def finish(self, offer: Offer, results: List[Values]) -> Steps:
        """Puts the results and takes the job, in this order; whether that was done. If the hold is lost another worker has the job."""
        try:
            for values in results:
                if not self.holds(offer) or not (yield from self.guarded(lambda values=values: self.calls.out(*values), offer)):    # type: ignore[misc]
                    return False
            if (yield from self.guarded(lambda: self.calls.accept(offer), offer)):
                return True
            self.holds(offer)
            return False
        except BaseException:
            offer.release()
            raise

    def holds(self, offer: Offer) -> bool:
        if offer.is_held:
            return True
        log.warning("the hold of the job %r was lost: another worker gets it", offer.tuple)
        offer.release()
        return False

    def rest(self) -> Steps:
        """The servers keep no job as the last reply, so that nobody takes it for unfinished."""
        for server in sorted(self.space._machine.last_taken):
            yield from self.guarded(lambda server=server: self.calls.pass_over(server))     # type: ignore[misc]

    # ---- servers that are away

    def guarded(self, call: Callable[[], Any], offer: Optional[Offer] = None) -> Steps:
        """Makes a call, and goes on with it until it has ended: while a server is away, has no room, or holds of jobs that wait are lost. False if that of the
        job in hand, `offer`, is lost."""
        is_pending = is_lost = False
        while True:
            try:
                result = yield self.calls.again if is_pending else call
                return not is_lost and (True if is_pending and isinstance(result, Outcome) else result)
            except Gone as fault:
                self.retries = [retry for retry in self.retries if not any(retry[2] is lost for lost in fault.offers)]
                heapq.heapify(self.retries)
                is_lost = is_lost or any(lost is offer for lost in fault.offers)
                is_pending = self.space.pending in PENDING
                if is_lost and not is_pending:
                    return False
            except (NoConnection, TimedOut, Refused) as fault:
                if isinstance(fault, Refused) and fault.name not in PASSING:
                    raise
                log.warning("a worker tries again: %s", fault)
                if self.is_over():
                    raise Stopped() from fault
                is_pending = self.space.pending in PENDING
                yield self.pause

    def pause(self) -> Any:
        return self.calls.sleep(PAUSE)

    # ---- SIGTERM

    @contextmanager
    def ended_by_a_signal(self) -> Iterator[None]:
        """In the main thread SIGTERM ends the loop, and a handler of the program's own is called then. A second one does at once what it did before. It ends
        all loops of tasks that are under way at once, and the last of them calls that handler."""
        if not stops.begin(self):
            yield
            return
        try:
            yield
        finally:
            is_last = stops.end(self)
        if is_last and self.is_signalled and callable(stops.before):
            stops.before(signal.SIGTERM, None)


class Calls:
    """The calls of a worker in a thread."""

    def __init__(self, space: Space) -> None:
        self.cutter = Cutter()
        self.run, self.out, self.again = self.cutter.run, space.out, space.again
        self.hold_or, self.accept = space._hold_or, Offer.accept
        self.pass_over, self.sleep = space._pass_over, time.sleep


def work(space: Space, plan: Plan, function: Function) -> int:
    """Does one job after another, in this thread; how many were done."""
    held, steps = space._held_now(), Worker(space, Calls(space), plan, function).steps()
    try:
        done: int = play(steps)
        return done
    except BaseException:
        steps.close()
        for offer in space._held_now():         # an interrupt came while no step had it in hand
            if not any(offer is it for it in held):
                space._release(offer)
        raise
