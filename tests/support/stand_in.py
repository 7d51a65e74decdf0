"""A stand-in for the engine's program, which says what a test has it say."""
from typing import Any, Callable, List


class StandIn:
    """What `wishqoram.engine.Program` is put aside for: a program that a function answers for."""

    id = 0

    def __init__(self, answer: Callable[[List[Any]], List[Any]]):
        self._answer = answer
        self.said: List[Any] = []
        """What the host said, but for the description."""

    def __call__(self, path: str, description: Any, on_end: Any) -> "StandIn":
        """It is started."""
        return self

    def say(self, message: List[Any]) -> List[Any]:
        self.said.append(message)
        return self._answer(message)

    def close(self) -> None:
        pass
