"""How runs end: responses and errors of the engine's endings."""
import json
from typing import Any, Dict, Optional, Type

from .bodies import ResponseBody
from .connections import Call
from .errors import (
    ConstructionFailure,
    DispatchFailure,
    EngineError,
    ResponseError,
    SdkError,
    SdkTimeoutError,
    ServiceError,
    Unfinished,
)
from .messages import Response
from .protocol import bytes_of, fault_of, headers_of

FAILURES: Dict[str, Type[SdkError]] = {
    "ConstructionFailure": ConstructionFailure,
    "TimeoutError": SdkTimeoutError,
    "DispatchFailure": DispatchFailure,
    "ResponseError": ResponseError,
}


def response_in(ending: Any, call: Optional[Call], attempts: int) -> Optional[Response]:
    """The response that an ending has, with the body that the host has of it."""
    word, *parts = ending
    if word == "Ok":
        form = json.loads(bytes_of(parts[0][1]))
    elif word in ("ResponseError", "ServiceError"):
        form = parts[1]
    else:
        return None
    status, headers, body = form
    kept = _body_of(bytes_of(body), call)
    if word != "Ok":
        kept = ResponseBody.of(kept.front())  # what came until now, since nothing is read further
    return Response(status, headers_of(headers), kept, attempts)


def _body_of(handed: bytes, call: Optional[Call]) -> ResponseBody:
    """What the host has of a body whose front the engine has."""
    if call is not None and call.body.front().startswith(handed):
        return call.body
    return ResponseBody.of(handed)


def raise_ending(
    ending: Any, response: Optional[Response], attempts: int, cause: Optional[BaseException]
) -> None:
    """Raises the error that an ending is, where it is one."""
    word, *parts = ending
    if word == "Ok":
        return
    if word == "ServiceError":
        assert response is not None
        raise ServiceError(bytes_of(parts[0][1]).decode("utf-8"), response, attempts)
    if word in FAILURES:
        fault = fault_of(parts[0])
        error = FAILURES[word](str(fault), fault=fault, response=response, attempts=attempts)
        raise error from cause
    if word == "Unfinished":
        raise Unfinished("the run used its questions up")
    raise EngineError(f"the run ended with {word}")
