"""What ends the function of a worker before it returns: the limit of a job, and SIGTERM after a grace.

In the main thread it is SIGALRM, if the program does not use that. Elsewhere a function that has a limit is in a thread of its own: at the limit the worker
goes on without it, and what it returns later is not looked at.
"""

from __future__ import annotations

import math
import os
import signal
import threading
import time
from types import FrameType
from typing import TYPE_CHECKING, Any, Callable, List, Optional, Tuple

from .values import Values

if TYPE_CHECKING:
    from .working import Worker

LOOK_AGAIN = 0.25           # seconds between two looks whether a function that cannot be woken is to end


class Cut(BaseException):
    """Ends a function; `is_limit` says whether by the limit of a job, else by SIGTERM."""

    def __init__(self, is_limit: bool) -> None:
        self.is_limit = is_limit


class Cutter:
    """Calls the functions of a worker, and ends them in time: each by its limit, and all from the end of the grace on, once there was a SIGTERM."""

    def __init__(self) -> None:
        self.grace_until = self.limit_until = math.inf
        self.is_on = self.has_alarm = False

    def end_in(self, grace: float) -> None:
        """Called by the handler of SIGTERM."""
        self.grace_until = time.monotonic() + grace
        if self.is_on:
            self.arm()

    def left(self) -> float:
        """The seconds that are left. Raises Cut if there are none."""
        until = min(self.limit_until, self.grace_until)
        left = until - time.monotonic()
        if left <= 0:
            raise Cut(until == self.limit_until)
        return left

    def arm(self) -> bool:
        """Has SIGALRM come in time; False if it cannot."""
        until = min(self.limit_until, self.grace_until)
        if until == math.inf:
            return True
        handler = signal.getsignal(signal.SIGALRM)
        if not self.has_alarm:
            if threading.current_thread() is threading.main_thread() and handler is signal.SIG_DFL and signal.getitimer(signal.ITIMER_REAL)[0] == 0.0:
                self.has_alarm, handler = True, self.ring
                signal.signal(signal.SIGALRM, self.ring)
        if handler != self.ring:                            # the program has its own
            return False
        signal.setitimer(signal.ITIMER_REAL, max(0.001, until - time.monotonic()))
        return True

    def ring(self, number: int, frame: Optional[FrameType]) -> None:
        if self.is_on:
            self.is_on = False
            self.left()
            self.is_on = True
            self.arm()

    def run(self, function: Callable[[Values], Any], job: Values, limit: Optional[float]) -> Any:
        """What the function returns. Raises Cut if it does not in time."""
        self.limit_until = math.inf if limit is None else time.monotonic() + limit
        self.is_on = True
        try:
            return function(job) if self.arm() or limit is None else self.beside(function, job)
        finally:
            self.is_on = False
            if self.has_alarm and signal.getsignal(signal.SIGALRM) == self.ring:
                signal.setitimer(signal.ITIMER_REAL, 0.0)

    def beside(self, function: Callable[[Values], Any], job: Values) -> Any:
        ended: List[Tuple[Any, Optional[BaseException]]] = []

        def run() -> None:
            try:
                ended.append((function(job), None))
            except BaseException as fault:
                ended.append((None, fault))

        thread = threading.Thread(target=run, name="linda_space function", daemon=True)
        thread.start()
        while thread.is_alive():
            thread.join(min(LOOK_AGAIN, self.left()))
        value, fault = ended[0]
        if fault is not None:
            raise fault
        return value

    def close(self) -> None:
        if self.has_alarm and signal.getsignal(signal.SIGALRM) == self.ring:
            signal.signal(signal.SIGALRM, signal.SIG_DFL)


class Stops:
    """The handler of SIGTERM, one for all workers of the main thread: tasks of asyncio have several at once, and they end in any order."""

    def __init__(self) -> None:
        self.workers: List[Worker] = []
        self.before: Any = None
        self.process = 0

    def begin(self, worker: Worker) -> bool:
        """Whether SIGTERM ends this worker."""
        if threading.current_thread() is not threading.main_thread():
            return False
        if not self.workers or self.process != os.getpid():
            self.workers, before = [], signal.getsignal(signal.SIGTERM)
            if before == self.stop:                     # of a parent, whose function forked this process
                before = self.before
            if before is None or before is signal.SIG_IGN:      # a handler that is not of Python, or none is wanted
                return False
            self.before, self.process = before, os.getpid()
            signal.signal(signal.SIGTERM, self.stop)
        if any(other.is_signalled for other in self.workers):   # they are about to end: SIGTERM does again what it did before
            return False
        self.workers.append(worker)
        return True

    def stop(self, number: int, frame: Optional[FrameType]) -> None:
        signal.signal(signal.SIGTERM, self.before)
        if self.process != os.getpid():                 # a child that a worker's function forked has no job
            os.kill(os.getpid(), number)
            return
        for worker in self.workers:
            worker.is_stopped = worker.is_signalled = True
            worker.calls.cutter.end_in(worker.plan.grace)

    def end(self, worker: Worker) -> bool:
        """Whether it was the last."""
        self.workers = [other for other in self.workers if other is not worker]
        if not self.workers:
            signal.signal(signal.SIGTERM, self.before)
        return not self.workers


stops = Stops()
