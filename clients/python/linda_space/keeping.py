"""The thread that renews what is held with `keep`."""

from __future__ import annotations

import math
import threading
import time
import weakref
from typing import TYPE_CHECKING, List, Optional, Tuple

from .offers import Offer

if TYPE_CHECKING:
    from .space import Space


class Keeper:
    """Renews what is held with `keep`, by a thread of its own, which is there while there is something to renew."""

    def __init__(self, space: Space) -> None:
        self.space = weakref.ref(space)
        self.kept: List[Tuple[Offer, float, float, float]] = []     # each with the time between renewals, until when, and when the next one is due
        self.thread: Optional[threading.Thread] = None
        self.wakes = 0.0                                    # when the thread looks again
        self.more = threading.Event()
        self.gate = threading.Lock()

    def keep(self, offer: Offer, seconds: float, limit: Optional[float] = None) -> None:
        """Renews the offer every `seconds` seconds from now on, until it is accepted, released or lost; with `limit` for so many seconds."""
        now = time.monotonic()
        with self.gate:
            self.kept = [entry for entry in self.kept if entry[0] is not offer and not entry[0].is_taken]
            self.kept.append((offer, seconds, math.inf if limit is None else now + limit, now + seconds))
            if self.thread is None:
                self.thread = threading.Thread(target=self.run, name="linda_space keeper", daemon=True)
                self.thread.start()
            elif now + seconds < self.wakes:
                self.more.set()

    def wake(self) -> None:
        self.more.set()

    def run(self) -> None:
        while True:
            self.more.clear()
            wake = self.renew()
            if wake is None:
                return
            self.more.wait(max(0.0, wake - time.monotonic()))

    def renew(self) -> Optional[float]:
        """Renews what is due; returns when the next renewal is due, or None if nothing is left: then the thread ends."""
        now = time.monotonic()
        with self.gate:
            due = [entry for entry in self.kept if entry[3] <= now]
        over = [entry for entry in due if entry[2] <= now or not self.is_renewed(entry[0])]
        with self.gate:
            self.kept = [(offer, seconds, until, now + seconds if at <= now else at) for offer, seconds, until, at in self.kept
                         if not offer.is_taken and not any((offer, until) == (it[0], it[2]) for it in over)]
            if not self.kept:
                self.thread = None
                return None
            self.wakes = min(entry[3] for entry in self.kept)
            return self.wakes

    def is_renewed(self, offer: Offer) -> bool:
        """Renews the offer; returns whether it is still held."""
        space = self.space()
        if space is None or offer.is_taken:
            return False
        with space._gate:
            if space._is_closed or not space._is_held(offer):
                return False
            space._machine.renew(offer)
            space._send()
            return True
