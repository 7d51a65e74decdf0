"""HTTP calls whose retries, deadlines and identities a proved engine decides.

    from wishqoram import Client, Engine, Request

    with Engine({"forecast": Client("http://127.0.0.1:8080")}) as engine:
        print(engine.invoke("forecast", Request("GET", "/today"), timeout=30).json())

The engine runs as a child process, `smithy_replay serve`. It does no I/O of its own. This package
has the connections (urllib3), the clock and the identities.
"""
from .client import Bucket, Client, ErrorRule, Retry, RetryAfter, Sums
from .engine import Engine
from .errors import (
    BodyError,
    Cancelled,
    ConstructionFailure,
    DispatchFailure,
    EngineClosed,
    EngineError,
    Fault,
    GivenUp,
    InvocationTimeout,
    ProgramEnded,
    ProgramNotFound,
    Refused,
    ResponseError,
    SdkError,
    SdkTimeoutError,
    ServiceError,
    Unfinished,
    WishqoramError,
)
from .identities import ApiKey, AuthScheme, BearerToken, Identity, IdentityCache
from .messages import Headers, Request, Response
from .recording import Recording, script_for_replay
from .turns import Cancellation

__all__ = [
    "ApiKey",
    "AuthScheme",
    "BearerToken",
    "BodyError",
    "Bucket",
    "Cancellation",
    "Cancelled",
    "Client",
    "ConstructionFailure",
    "DispatchFailure",
    "Engine",
    "EngineClosed",
    "EngineError",
    "ErrorRule",
    "Fault",
    "GivenUp",
    "Headers",
    "Identity",
    "IdentityCache",
    "InvocationTimeout",
    "ProgramEnded",
    "ProgramNotFound",
    "Recording",
    "Refused",
    "Request",
    "Response",
    "ResponseError",
    "Retry",
    "RetryAfter",
    "SdkError",
    "SdkTimeoutError",
    "ServiceError",
    "Sums",
    "Unfinished",
    "WishqoramError",
    "script_for_replay",
]
