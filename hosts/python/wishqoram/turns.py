"""Turns at the seats of a client, and the cancelling of invocations."""
import threading
from collections import deque
from contextlib import contextmanager
from typing import Deque, Iterator, List, Optional, Sequence

from .errors import Cancelled
from .inbox import Inbox


class Turns:
    """One run at a time at each seat. Those that find none free wait, in the order of asking.

    The seat that was left last is taken first: it is the one whose cache has an identity.
    """

    def __init__(self, seats: Sequence[int]):
        self._lock = threading.Lock()
        self._free: List[int] = list(reversed(seats))
        self._waiting: Deque[Inbox] = deque()

    @contextmanager
    def turn(self, inbox: Inbox, until: Optional[int]) -> Iterator[Optional[int]]:
        """Waits for a seat for this run, until this moment in nanoseconds. Answers by the seat's
        number, or by nothing where none was free in time."""
        self._ask(inbox)
        try:
            yield inbox.wait_for_seat(until)
        finally:
            self._end(inbox)

    @property
    def waiting(self) -> int:
        """How many wait for a seat."""
        return len(self._waiting)

    def _ask(self, inbox: Inbox) -> None:
        with self._lock:
            if self._free:
                inbox.give_seat(self._free.pop())
            else:
                self._waiting.append(inbox)

    def _end(self, inbox: Inbox) -> None:
        with self._lock:
            if inbox.seat is None:
                self._waiting.remove(inbox)
            elif self._waiting:
                self._waiting.popleft().give_seat(inbox.seat)
            else:
                self._free.append(inbox.seat)


class Cancellation:
    """Cancels the invocations that it is handed to. They raise `Cancelled`."""

    def __init__(self) -> None:
        self._lock = threading.Lock()
        self._watched: List[Inbox] = []
        self._is_cancelled = False

    @property
    def is_cancelled(self) -> bool:
        return self._is_cancelled

    def cancel(self) -> None:
        """Ends all invocations that it was handed to, and those that it will be."""
        with self._lock:
            self._is_cancelled = True
            for inbox in self._watched:
                inbox.interrupt(Cancelled("the invocation was cancelled"))

    @contextmanager
    def watching(self, inbox: Inbox) -> Iterator[None]:
        """For the engine: cancels this run meanwhile."""
        with self._lock:
            self._watched.append(inbox)
            if self._is_cancelled:
                inbox.interrupt(Cancelled("the invocation was cancelled"))
        try:
            yield
        finally:
            with self._lock:
                self._watched.remove(inbox)
