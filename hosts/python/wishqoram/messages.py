"""Requests and responses, as a caller sees them."""
import json
from dataclasses import dataclass, field
from typing import (
    Any,
    BinaryIO,
    Callable,
    Dict,
    Iterable,
    Iterator,
    List,
    Mapping,
    Optional,
    Tuple,
    Union,
)

from .bodies import ResponseBody
from .protocol import Header

RequestBody = Union[None, bytes, str, BinaryIO, Iterable[bytes], Callable[[], Iterable[bytes]]]
HeaderValue = Union[str, bytes]


@dataclass(frozen=True)
class Request:
    """A request. Its path is put behind the client's address.

    A body is bytes, or a text that is sent as UTF-8, or what is read as it is sent: a file, a list
    of bytes, an iterator of them, or a function that makes one for each attempt. A file is sent
    from where it stands. A file that can't be sought in, and an iterator, can be sent once: such a
    request isn't tried again once it was begun.
    """

    method: str
    path: str = "/"
    headers: Union[Mapping[str, HeaderValue], Iterable[Tuple[str, HeaderValue]]] = ()
    body: RequestBody = field(default=None, repr=False)

    def header_pairs(self) -> List[Header]:
        """The headers, their texts as the bytes of Latin 1."""
        given = self.headers
        pairs = given.items() if isinstance(given, Mapping) else given
        return [
            (name, value if isinstance(value, bytes) else value.encode("latin-1"))
            for name, value in pairs
        ]


class Headers(Mapping[str, str]):
    """Headers by their names, in any case. Of several of one name the values stand together, with
    commas between them."""

    def __init__(self, pairs: Iterable[Header]):
        self._values: Dict[str, List[str]] = {}
        for name, value in pairs:
            self._values.setdefault(name.lower(), []).append(value.decode("latin-1"))

    def get_all(self, name: str) -> List[str]:
        """The values of the headers of this name, in their order."""
        return list(self._values.get(name.lower(), []))

    def __getitem__(self, name: str) -> str:
        return ", ".join(self._values[name.lower()])

    def __iter__(self) -> Iterator[str]:
        return iter(self._values)

    def __len__(self) -> int:
        return len(self._values)

    def __repr__(self) -> str:
        return f"Headers({dict(self)!r})"


class Response:
    """A response.

    Its body was read, unless it was asked for with `stream=True`. Then `stream()` reads on, and
    the connection is free again at the body's end, or at `close()`.
    """

    def __init__(
        self, status: int, headers: Iterable[Header], body: ResponseBody, attempts: int = 1
    ):
        self.status = status
        self.headers = Headers(headers)
        self.attempts = attempts
        """How many requests were sent."""
        self._body = body

    @property
    def body(self) -> bytes:
        """All of the body, of which nothing may have been streamed before."""
        return self._body.read()

    def text(self, encoding: str = "utf-8") -> str:
        return self.body.decode(encoding)

    def json(self) -> Any:
        return json.loads(self.body)

    def stream(self, size: int = 65536) -> Iterator[bytes]:
        """The body in pieces of at most so many bytes, as it is read. Once."""
        return self._body.stream(size)

    def close(self) -> None:
        """Reads no further. A connection with an unread body isn't used again."""
        self._body.close()

    def __enter__(self) -> "Response":
        return self

    def __exit__(self, *_: Optional[object]) -> None:
        self.close()

    def __repr__(self) -> str:
        return f"<Response {self.status}>"
