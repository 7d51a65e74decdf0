"""The host's clock."""
import time
from typing import Optional

NANOSECONDS = 10**9


class Clock:
    """Nanoseconds since 1970 that never go back: those of the wall clock when this was made, and
    from there on those of the monotonic clock."""

    def __init__(self) -> None:
        self._zero = time.time_ns() - time.monotonic_ns()

    def now(self) -> int:
        return self._zero + time.monotonic_ns()


def nanoseconds(seconds: float) -> int:
    """A span in the engine's unit. One below 0 is refused."""
    if not seconds >= 0:
        raise ValueError(f"a span of time is 0 s or more, not {seconds!r}")
    return round(seconds * NANOSECONDS)


def optional_nanoseconds(seconds: Optional[float]) -> Optional[int]:
    return None if seconds is None else nanoseconds(seconds)


def earliest(*moments: Optional[int]) -> Optional[int]:
    """The first of the moments that there are."""
    return min((moment for moment in moments if moment is not None), default=None)
