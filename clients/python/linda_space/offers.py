"""Tuples that are held for this client: `Offer`, and `Hold`, the block in which one is held."""

from __future__ import annotations

from types import TracebackType
from typing import TYPE_CHECKING, Any, Dict, Generic, Optional, Type, TypeVar, cast

from .errors import Gone
from .events import In
from .values import Values

if TYPE_CHECKING:
    from .space import Space

Held = TypeVar("Held", covariant=True)      # Offer, or Optional[Offer] if there is a time limit


class Offer:
    """A tuple that is held for this client and not taken: see `Space.hold`. `server` and `id` name it, `tuple` is the tuple, and `binds` what is at the places
    of INT, TEXT and BOOL. `is_taken` says whether `accept` took it."""

    def __init__(self, server: int, id: int, tuple: Values, binds: Values, ticket: int) -> None:
        self.server, self.id, self.tuple, self.binds, self.ticket = server, id, tuple, binds, ticket
        self.is_taken = False
        self._space: Optional[Space] = None

    def __repr__(self) -> str:
        return f"Offer(server={self.server}, id={self.id}, tuple={self.tuple!r}, is_taken={self.is_taken})"

    def __getstate__(self) -> Dict[str, Any]:
        """In another process it counts as not held."""
        return {**self.__dict__, "_space": None}

    @property
    def is_held(self) -> bool:
        """Whether it is held still, as far as is known now: what the server sent is looked at first. False once it was taken, released or lost. A server that
        cannot be heard may have given it to another client meanwhile: only `accept` is sure."""
        return not self.is_taken and self._space is not None and self._space._is_held(self)

    def accept(self, timeout: Optional[float] = None) -> Values:
        """Takes the tuple, and returns it, also when it is called again.

        Raises Gone if it is not held any more: it was not taken, and another client may have it. Refused with Full: it is held still. NoConnection, TimedOut,
        and all others: it is pending; call it, or `Space.again`, again.
        """
        if self.is_taken:
            return self.tuple
        if self._space is None:
            raise Gone((self,))
        return self._space._accept(self, timeout)

    def renew(self) -> None:
        """Says that this client is still at work: a server with a lease (`linda serve --lease S`) holds the tuple for S seconds more. It waits for nothing, and
        may be called by any thread, also while another thread is in a call of the space.

        What came from the server is looked at first: raises Gone if the tuple is not held any more. What is not known yet, as of a server that just stopped,
        the next call raises.
        """
        if not self.is_taken:
            if self._space is None:
                raise Gone((self,))
            self._space._renew(self)

    def release(self) -> None:
        """Gives the tuple free again, if it is held and was not accepted. It waits for nothing, raises nothing, and may be called by any thread. If it was lost
        before, later calls do not raise that any more."""
        if self._space is not None and not self.is_taken:
            self._space._release(self)


class Hold(Generic[Held]):
    """What `Space.hold` returns, for a `with`. It asks at the beginning of its block. At its end it gives free what is not taken; and if it was lost in the block,
    and no call of the space has raised that yet, it raises Gone, unless another exception is on its way."""

    def __init__(self, space: Space, event: In, timeout: Optional[float], keep: Optional[float]) -> None:
        self._space, self._event, self._timeout, self._keep = space, event, timeout, keep
        self._offer: Optional[Offer] = None

    def __enter__(self) -> Held:
        held = self._space._held_now()
        try:
            self._offer = self._space._hold(self._event, self._timeout, self._keep)
            return cast(Held, self._offer)
        except BaseException as fault:
            self._space._end_holds(held, fault)
            raise

    def __exit__(self, kind: Optional[Type[BaseException]], fault: Optional[BaseException], trace: Optional[TracebackType]) -> None:
        offer = self._offer
        try:
            if offer is not None and not offer.is_taken:
                is_lost = self._space._is_lost(offer)
                offer.release()
                if is_lost and kind is None:
                    raise Gone((offer,))
        except BaseException as ended:
            self._space._end_holds([other for other in self._space._held_now() if other is not offer], ended)
            raise
