"""What came for a run, and from where."""
import threading
from collections import deque
from typing import Any, Deque, List, Optional

from .clock import NANOSECONDS, Clock
from .errors import WishqoramError

LONGEST_WAIT = 3600.0  # seconds: a lock waits no longer than some hundred years, and no less well


class Event:
    """Something that came: of a call or a load, and what the engine is told of it."""

    def __init__(self, source: object, message: List[Any]):
        self.source = source
        self.message = message


class Inbox:
    """What came for one run, in order, put in by any thread and taken by the run's own."""

    def __init__(self, clock: Clock):
        self._clock = clock
        self._changed = threading.Condition()
        self._events: Deque[Event] = deque()
        self._interruption: Optional[WishqoramError] = None
        self.seat: Optional[int] = None
        """The number of the seat that the run was given."""

    def put(self, event: Event) -> None:
        with self._changed:
            self._events.append(event)
            self._changed.notify_all()

    def put_data(self, source: object, call: int, piece: bytes) -> None:
        """A piece of a body. It is put behind the piece before it, if that wasn't taken yet."""
        with self._changed:
            last = self._events[-1] if self._events else None
            if last and last.source is source and last.message[0] == "data":
                last.message[2] += piece
            else:
                self._events.append(Event(source, ["data", call, bytearray(piece)]))
            self._changed.notify_all()

    def interrupt(self, why: WishqoramError) -> None:
        """Ends the run, by raising this in its thread. The first reason counts."""
        with self._changed:
            self._interruption = self._interruption or why
            self._changed.notify_all()

    def give_seat(self, number: int) -> None:
        with self._changed:
            self.seat = number
            self._changed.notify_all()

    def wait_for_seat(self, until: Optional[int]) -> Optional[int]:
        """The seat, where one was given before this moment."""
        with self._changed:
            while self.seat is None and not self._is_past(until):
                self._raise_interruption()
                self._wait(until)
            self._raise_interruption()
            return self.seat

    def take(self, until: Optional[int]) -> List[Event]:
        """All that came. Waits until something is there, or until this moment."""
        with self._changed:
            while not (self._events or self._is_past(until)):
                self._raise_interruption()
                self._wait(until)
            self._raise_interruption()
            taken = list(self._events)
            self._events.clear()
            return taken

    def _is_past(self, until: Optional[int]) -> bool:
        return until is not None and self._clock.now() >= until

    def _raise_interruption(self) -> None:
        if self._interruption is not None:
            raise self._interruption

    def _wait(self, until: Optional[int]) -> None:
        left = LONGEST_WAIT
        if until is not None:
            # a microsecond more, so that no wake comes before its moment
            left = min(left, (until - self._clock.now()) / NANOSECONDS + 1e-6)
        self._changed.wait(max(0.0, left))
