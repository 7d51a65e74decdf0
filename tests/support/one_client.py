"""One client that makes one request, and stops before it is sent: its script, and how it ends."""
import json
from typing import Any, Dict, List

from .direct import run
from .scripts import to_lines

Lines = List[List[Any]]

# A client that signs nothing and retries nothing.
CLIENT: Dict[str, Any] = {
    "service": "s",
    "operation": "o",
    "bucket": None,
    "retry": "never",
    "timeouts": [None, None, None, None],
    "url": "http://h",
    "prefix": None,
    "sleep": True,
    "time": True,
    "poisoning": False,
    "enforce": False,
    "v2": True,
    "stall": None,
    "classifiers": [],
    "auth": "none",
}

CALL = {"client": 0, "input": [1, "hi"], "fuel": 100, "stop": "BeforeTransmit", "responses": []}


def script(**members: Any) -> str:
    """The script of a client that has these members in place of those of `CLIENT`."""
    clients = [{**CLIENT, **members}]
    whole = {"buckets": [], "start": 0, "words": [], "clients": clients, "invocations": [CALL]}
    return json.dumps(whole)


def printed(**members: Any) -> Lines:
    """The lines that such a client prints."""
    return to_lines(run("client", text=script(**members)).output)


def ended(**members: Any) -> List[Any]:
    """How such a client's call ends. Behind that line stand one bucket and the loads."""
    return printed(**members)[-3]


def stopped(uri: str, *headers: List[str]) -> List[Any]:
    """The ending of a call that stops before it sends the service's request, signed so."""
    return ["Stopped", ["POST", uri, list(headers), "hi"]]


def failed(text: str) -> List[Any]:
    """The ending of a call that is given up with this text before it sends anything."""
    return ["DispatchFailure", ["Other", text]]
