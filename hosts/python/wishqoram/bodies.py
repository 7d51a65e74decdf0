"""Bodies: those of requests, which the host may keep, and those of responses.

The engine is handed a request's body where it is at most 16384 bytes in memory. Any other stays
with the host, and the engine is handed a text in its place, by which the host knows it again.
"""
import io
import secrets
import threading
from typing import Any, BinaryIO, Callable, Iterable, Iterator, List, Optional, Union, cast

from .errors import BodyError
from .protocol import BODY_LIMIT, blob_of

PIECE = 65536  # bytes that are read from a file or a response at once

Sent = Union[bytes, Iterable[bytes]]


class OutgoingBody:
    """What a request sends."""

    def __init__(
        self,
        open_body: Callable[[], Sent],
        length: Optional[int] = None,
        handed: Optional[bytes] = None,
        is_once: bool = False,
    ):
        self._open = open_body
        self.length = length
        """Its bytes, where that is known."""
        self._is_once = is_once
        self.handed = handed if handed is not None else _stand_in(length)
        """What the engine is handed."""

    def form(self) -> Any:
        """What the engine is handed, in JSON."""
        blob = blob_of(self.handed)
        return ["Once", blob] if self._is_once else blob

    def sent_for(self, handed: bytes) -> Sent:
        """What is sent, where the engine says that this is."""
        return self._open() if handed == self.handed else handed

    def length_for(self, handed: bytes) -> Optional[int]:
        return self.length if handed == self.handed else len(handed)


def _stand_in(length: Optional[int]) -> bytes:
    size = "of unknown length" if length is None else f"of {length} bytes"
    return f"body {size}, kept by the host as {secrets.token_hex(8)}".encode("ascii")


def outgoing(body: Any) -> OutgoingBody:
    """What a request with this body sends."""
    if body is None:
        body = b""
    if isinstance(body, str):
        body = body.encode("utf-8")
    if isinstance(body, (bytes, bytearray, memoryview)):
        return _of_bytes(bytes(body))
    if hasattr(body, "read"):
        return _of_file(cast(BinaryIO, body))
    if callable(body):
        return OutgoingBody(body)
    if isinstance(body, Iterable):
        pieces: Iterable[bytes] = body
        return OutgoingBody(lambda: pieces, is_once=iter(pieces) is pieces)
    raise TypeError(f"a body is bytes, a text, a file, pieces or a function, not {type(body)}")


def _of_bytes(data: bytes) -> OutgoingBody:
    handed = data if len(data) <= BODY_LIMIT else None
    return OutgoingBody(lambda: data, len(data), handed)


def _of_file(file: BinaryIO) -> OutgoingBody:
    if not (hasattr(file, "seekable") and file.seekable()):
        return OutgoingBody(lambda: iter(lambda: file.read(PIECE), b""), is_once=True)
    start = file.tell()
    end = file.seek(0, io.SEEK_END)
    file.seek(start)
    lock = threading.Lock()
    return OutgoingBody(lambda: _pieces_of_file(file, start, lock), max(0, end - start))


def _pieces_of_file(file: BinaryIO, start: int, lock: threading.Lock) -> Iterator[bytes]:
    """The file from a place on. An attempt that was dropped may read in it a while longer."""
    place = start
    while True:
        with lock:
            file.seek(place)
            piece = file.read(PIECE)
        if not piece:
            return
        place += len(piece)
        yield piece


class ResponseBody:
    """The body of a response: what came of it, and where the rest comes from.

    A thread of the host puts pieces in. The caller reads them, once the run is over.
    """

    def __init__(self) -> None:
        self._lock = threading.Lock()
        self._pieces: List[bytes] = []
        self._is_whole = False
        self._error: Optional[BaseException] = None
        self._rest: Any = None
        self._call: object = None  # it lives as long as its body, so that the engine can drop it
        self._is_streamed = False

    @classmethod
    def of(cls, data: bytes) -> "ResponseBody":
        body = cls()
        body.add(data)
        body.finish()
        return body

    def add(self, piece: bytes) -> None:
        with self._lock:
            self._pieces.append(piece)

    def finish(self) -> None:
        """There is nothing more."""
        with self._lock:
            self._is_whole = True

    def fail(self, error: BaseException) -> None:
        """The rest can't be read."""
        with self._lock:
            self._error = error

    def leave(self, rest: Any, call: object) -> None:
        """The caller reads the rest from this response of urllib3, which is of this call."""
        with self._lock:
            self._rest, self._call = rest, call

    @property
    def is_over(self) -> bool:
        """Whether nothing more comes of it."""
        with self._lock:
            return self._is_whole or self._error is not None

    @property
    def is_settled(self) -> bool:
        """Whether no thread of the host reads on."""
        with self._lock:
            return self._is_whole or self._error is not None or self._rest is not None

    def front(self) -> bytes:
        """What came until now."""
        with self._lock:
            return b"".join(self._pieces)

    def read(self) -> bytes:
        if self._is_streamed:
            raise BodyError("the body was streamed")
        for _ in self._further(PIECE):
            pass
        with self._lock:
            self._pieces = [b"".join(self._pieces)]
            return self._pieces[0]

    def stream(self, size: int) -> Iterator[bytes]:
        if self._is_streamed:
            raise BodyError("the body was streamed")
        if self._rest is not None:
            self._is_streamed = True
        data = self.front()
        for start in range(0, len(data), size):
            yield data[start : start + size]
        yield from self._further(size, keep=False)

    def close(self) -> None:
        rest, self._rest = self._rest, None
        if rest is not None:
            rest.close()
            self.fail(BodyError("the response was closed"))

    def _further(self, size: int, keep: bool = True) -> Iterator[bytes]:
        """What comes behind what came until now."""
        while self._rest is not None:
            piece = self._next(size)
            if not piece:
                self._rest = None
                self.finish()
                return
            if keep:
                self.add(piece)
            yield piece
        if self._error is not None:
            raise BodyError("the body broke off") from self._error

    def _next(self, size: int) -> bytes:
        try:
            return cast(bytes, self._rest.read(size))
        except Exception as error:
            self.close()
            raise BodyError("the body broke off") from error
