"""What this package raises.

An `SdkError` is how the engine ended a run. A `GivenUp` is how its caller did. An `EngineError` is
a fault of the engine's program, or of its use. A `BodyError` is a body that broke off behind the
part that the engine reads.
"""
from dataclasses import dataclass
from typing import TYPE_CHECKING, Optional

if TYPE_CHECKING:
    from .messages import Response


class WishqoramError(Exception):
    """Everything that this package raises of its own."""


@dataclass(frozen=True)
class Fault:
    """Why a run failed, as the engine tells it."""

    kind: str
    """`Operation`, `Connector`, `Timeout`, `Response`, `Interceptor` or `Other`."""
    text: str
    """What is said of it. It names no secret that stayed with the host."""
    detail: Optional[str] = None
    """Of `Connector`: `Timeout`, `User`, `Io` or `Other`. Of `Interceptor`: its hook."""

    def __str__(self) -> str:
        detail = f" ({self.detail})" if self.detail else ""
        return f"{self.kind}{detail}: {self.text}"


class SdkError(WishqoramError):
    """The engine ended a run with an error. Its `__cause__` is what the last request met with."""

    def __init__(
        self,
        text: str,
        *,
        fault: Optional[Fault] = None,
        response: "Optional[Response]" = None,
        attempts: int = 0,
    ):
        super().__init__(text)
        self.fault = fault
        """Why, unless the service said so (`ServiceError`)."""
        self.response = response
        """The last response, where there is one."""
        self.attempts = attempts
        """How many requests were sent."""


class ConstructionFailure(SdkError):
    """No request could be made of what was handed in."""


class SdkTimeoutError(SdkError, TimeoutError):
    """A deadline of the operation or of its last attempt passed: the engine's `TimeoutError`."""


class DispatchFailure(SdkError):
    """The last request could not be sent, or no response came."""


class ResponseError(SdkError):
    """A response came that could not be read to its end."""


class ServiceError(SdkError):
    """The service answered with an error."""

    def __init__(self, name: str, response: "Response", attempts: int):
        named = f" ({name})" if name else ""
        super().__init__(f"status {response.status}{named}", response=response, attempts=attempts)
        self.name = name
        """The name that the client's `errors` have for the response, or nothing."""


class Unfinished(WishqoramError):
    """The run asked as many questions as it may, and wasn't over."""


class GivenUp(WishqoramError):
    """The caller ended the run."""


class Cancelled(GivenUp):
    """Its `Cancellation` was cancelled."""


class InvocationTimeout(GivenUp, TimeoutError):
    """The `timeout` of the invocation passed."""

    def __init__(self, seconds: float):
        super().__init__(f"the invocation wasn't over after {seconds:g} s")
        self.seconds = seconds


class BodyError(WishqoramError):
    """The body broke off, or stalled, when the engine had ended the run already."""


class EngineError(WishqoramError):
    """A fault of the engine's program, or of its use."""


class ProgramNotFound(EngineError):
    """There is no program to start."""


class ProgramEnded(EngineError):
    """The program ended before the engine was closed. Nothing more can be invoked."""

    def __init__(self, status: Optional[int], said: str = ""):
        how = f"by signal {-status}" if status is not None and status < 0 else f"with {status}"
        super().__init__(f"the engine's program ended {how}{': ' if said else ''}{said}")
        self.status = status
        """Its exit status, below 0 the number of the signal that ended it."""
        self.said = said
        """What it wrote on standard error."""


class EngineClosed(EngineError):
    """The engine was closed."""

    def __init__(self) -> None:
        super().__init__("the engine is closed")


class Refused(EngineError):
    """The engine doesn't take a line. It is longer than 16 MiB, as by its headers, or this package
    is at fault."""
