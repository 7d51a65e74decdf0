"""The lines of JSON that a host and the engine say to each other."""
import json
from typing import Any, Callable, Dict, List, NamedTuple, Optional, Tuple, Union

from .errors import EngineError, Fault

TEXT = b"\t\n\r" + bytes(range(32, 127))
"""The bytes of which blobs are texts."""

BODY_LIMIT = 16384
"""How many bytes of a body the engine reads."""

OUTPUT_KIND, ERROR_KIND = 1, 2
"""The kinds of payloads that are outputs and errors."""

Header = Tuple[str, bytes]


class WireRequest(NamedTuple):
    """A request as it goes on the wire. A body that can be sent once is of these bytes too."""

    method: str
    url: str
    headers: List[Header]
    body: bytes


class Opened(NamedTuple):
    seats: int


class Begin(NamedTuple):
    """Send this. The deadlines are nanoseconds. The connection is remembered as `capture`."""

    seat: int
    call: int
    request: WireRequest
    connect: Optional[int]
    read: Optional[int]
    capture: Optional[int]


class LoadIdentity(NamedTuple):
    seat: int
    scheme: str


class Poison(NamedTuple):
    seat: int
    capture: int


class Park(NamedTuple):
    """The run waits. Only this call and this load are open. It is woken at `wake` at the latest."""

    seat: int
    call: Optional[int]
    scheme: Optional[str]
    wake: Optional[int]


class Done(NamedTuple):
    """The run is over behind so many questions. `text` is its ending as `replay` prints it."""

    seat: int
    questions: int
    ending: List[Any]
    text: bytes


class RefusedLine(NamedTuple):
    why: str


class BucketSums(NamedTuple):
    """What the bucket of this number holds: the numbers of `Sums`."""

    number: int
    sums: List[int]


class End(NamedTuple):
    """There is no more of an answer."""


class Entry(NamedTuple):
    """A question of the run's log, its answer, and the line that they stand in."""

    kind: str
    answer: Any
    text: bytes


Reply = Union[
    Opened, Begin, LoadIdentity, Poison, Park, Done, RefusedLine, BucketSums, End, Entry
]

PLAIN: Dict[str, Callable[..., Reply]] = {
    "opened": Opened,
    "load": LoadIdentity,
    "poison": Poison,
    "park": Park,
    "refused": RefusedLine,
    "bucket": BucketSums,
    "end": End,
}
"""The lines whose parts are plain, by their words."""

LAST = (Opened, Park, Done, RefusedLine, End)
"""The last line of each answer is one of these."""


def line_of(message: Any) -> bytes:
    """The compact JSON of a message, in ASCII, with a line feed."""
    return json.dumps(message, separators=(",", ":")).encode("ascii") + b"\n"


def blob_of(data: bytes) -> Any:
    """How bytes stand in JSON: visible ASCII, spaces, tabs and line ends as text, others in hex."""
    if data.translate(None, TEXT):
        return {"hex": data.hex()}
    return data.decode("ascii")


def bytes_of(blob: Any) -> bytes:
    """The bytes of a blob. No text in it, as of a body that is gone, are none."""
    if isinstance(blob, dict):
        return bytes.fromhex(blob["hex"])
    return (blob or "").encode("utf-8")


def headers_of(pairs: Any) -> List[Header]:
    return [(name, bytes_of(value)) for name, value in pairs]


def header_rows(headers: List[Header]) -> List[Any]:
    return [[name, blob_of(value)] for name, value in headers]


def request_of(form: Any) -> WireRequest:
    method, url, headers, body = form
    sent = body[1] if isinstance(body, list) else body
    return WireRequest(method, url, headers_of(headers), bytes_of(sent))


def fault_of(form: Any) -> Fault:
    """A fault by its form: its kind, its text at the end, and in between what it is about."""
    kind, *middle, text = form
    detail = middle[0] if middle else None
    if isinstance(detail, list):
        detail = detail[0]
    return Fault(kind, text, detail if kind in ("Connector", "Interceptor") else None)


def _begin(parts: List[Any]) -> Begin:
    _, seat, call, request, timeouts, capture = parts
    connect, read = (timeouts or [None, None])[:2]
    return Begin(seat, call, request_of(request), connect, read, capture)


def _done(parts: List[Any], line: bytes) -> Done:
    _, seat, questions, ending = parts
    front = len(line_of(["done", seat, questions])[:-2]) + 1
    return Done(seat, questions, ending, line[front:-1])


def reply_of(line: bytes) -> Reply:
    """What a line of the engine says, without its line feed."""
    parts = json.loads(line)
    word, *rest = parts
    if isinstance(word, int):
        return Entry(rest[0], rest[1], line)
    if word == "begin":
        return _begin(parts)
    if word == "done":
        return _done(parts, line)
    if word in PLAIN:
        return PLAIN[word](*rest)
    raise EngineError(f"the engine says {word!r}, which this package doesn't know")
