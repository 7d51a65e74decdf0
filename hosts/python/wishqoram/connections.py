"""Connections, and requests on the wire.

Each seat has a pool of connections of its own (urllib3). A connection goes back to it at the end of
a body. One that the engine calls poisoned is closed before the seat's next request begins, and no
other seat can have it. A request that the engine gives up has its connection shut down, whatever it
waits for.
"""
import re
import socket
import ssl
import threading
import weakref
from typing import Any, Iterable, Iterator, List, NamedTuple, Optional, Sequence, Tuple

import urllib3
from urllib3 import exceptions
from urllib3.connection import HTTPConnection, HTTPSConnection

try:
    from urllib3 import HTTPHeaderDict
except ImportError:  # urllib3 1.26
    from urllib3._collections import HTTPHeaderDict

from .bodies import PIECE, OutgoingBody, ResponseBody, Sent
from .clock import NANOSECONDS
from .inbox import Event, Inbox
from .protocol import BODY_LIMIT, Begin, Header, WireRequest, header_rows
from .identities import Vault

USER_AGENT = "wishqoram/0.2.0"
LEAST_KEPT = 8  # connections to a server that are kept, and servers that they are kept for
NAME = re.compile(r"[!#$%&'*+.^_`|~0-9A-Za-z-]+")
VALUE = re.compile(r"[\t\x20-\x7e\x80-\xff]*")

_sending = threading.local()  # the call that this thread sends


class Dropped(Exception):
    """The engine gave the call up."""


class BadHead(Exception):
    """The head of a response has what HTTP doesn't allow."""


class SenderError(Exception):
    """The caller's own body could not be read."""


def _report(connection: Any) -> None:
    call: Optional[Call] = getattr(_sending, "call", None)
    if call is not None:
        call.uses(connection)


class _WatchedHTTPConnection(HTTPConnection):
    """A connection that tells the call that uses it."""

    def connect(self) -> None:
        super().connect()
        _report(self)

    def putrequest(self, *given: Any, **named: Any) -> None:
        _report(self)
        super().putrequest(*given, **named)


class _WatchedHTTPSConnection(HTTPSConnection):
    """The same over TLS."""

    def connect(self) -> None:
        super().connect()
        _report(self)

    def putrequest(self, *given: Any, **named: Any) -> None:
        _report(self)
        super().putrequest(*given, **named)


class _HTTPPool(urllib3.HTTPConnectionPool):
    ConnectionCls = _WatchedHTTPConnection


class _HTTPSPool(urllib3.HTTPSConnectionPool):
    ConnectionCls = _WatchedHTTPSConnection


class Reading(NamedTuple):
    """How a response is read."""

    is_watched: bool
    """Whether the engine is told of each byte as it comes, for its guard of stalled streams."""
    is_streamed: bool
    """Whether the caller reads what is behind the engine's part of the body."""

    @property
    def ends_early(self) -> bool:
        """Whether the engine is told of the body's end once it has its part of it. Otherwise the
        rest is read first, and a body that breaks off there is tried again too."""
        return self.is_watched or self.is_streamed


class Connections:
    """The connections of a client with these seats, and the requests on them."""

    def __init__(self, ssl_context: Optional[ssl.SSLContext], seats: Sequence[int]):
        self._pools = {seat: _pool_manager(ssl_context) for seat in seats}
        self._calls: "weakref.WeakSet[Call]" = weakref.WeakSet()

    def begin(
        self, begin: Begin, body: OutgoingBody, vault: Vault, reading: Reading, inbox: Inbox
    ) -> "Call":
        """Sends a request, in a thread of its own."""
        call = Call(self._pools[begin.seat], begin, body, vault, reading, inbox)
        self._calls.add(call)
        threading.Thread(target=call.work, name=f"call {begin.call}", daemon=True).start()
        return call

    def close(self) -> None:
        """Ends every request, and closes every connection."""
        for call in list(self._calls):
            call.drop()
        for pools in self._pools.values():
            pools.clear()


def _pool_manager(context: Optional[ssl.SSLContext]) -> urllib3.PoolManager:
    kept = {"num_pools": LEAST_KEPT, "maxsize": LEAST_KEPT}
    pools = urllib3.PoolManager(retries=False, **kept, **_tls(context))
    pools.pool_classes_by_scheme = {"http": _HTTPPool, "https": _HTTPSPool}
    return pools


def _tls(context: Optional[ssl.SSLContext]) -> Any:
    return {} if context is None else {"ssl_context": context}


class Call:
    """A request on the wire. What comes of it is put into the inbox of its run."""

    def __init__(
        self,
        pools: urllib3.PoolManager,
        begin: Begin,
        body: OutgoingBody,
        vault: Vault,
        reading: Reading,
        inbox: Inbox,
    ):
        self.number = begin.call
        self.body = ResponseBody()
        self.error: Optional[BaseException] = None
        """What it met with."""
        self.has_head = False
        """Whether the head of its response came."""
        self._pools, self._begin, self._sent = pools, begin, body
        self._vault, self._reading, self._inbox = vault, reading, inbox
        self._lock = threading.Lock()
        self._connection: Any = None
        self._is_dropped = False
        self._room = BODY_LIMIT  # bytes of the body that the engine still reads

    def uses(self, connection: Any) -> None:
        """The connection that the request goes over. A call that was dropped ends here."""
        with self._lock:
            self._connection = connection
            if self._is_dropped:
                raise Dropped()

    def drop(self) -> None:
        """Gives the call up: wakes its thread, which closes the connection. A call that is over
        is left alone: its connection is closed, or may be in use again."""
        if self.body.is_over:
            return
        with self._lock:
            self._is_dropped = True
            connection = self._connection
        _shut_down(connection)
        self.body.close()

    def poison(self) -> None:
        """Closes its connection, so that it isn't used again."""
        self.drop()
        with self._lock:
            connection = self._connection
        if connection is not None:
            connection.close()

    def work(self) -> None:
        """Sends the request and reads what comes, in the call's own thread."""
        _sending.call = self
        try:
            response = self._send()
        except BaseException as error:
            self._fail(error)
        else:
            self._read(response)
        finally:
            _sending.call = None

    def _send(self) -> Any:
        request = self._vault.put_in(self._begin.request)
        response = self._pools.urlopen(
            request.method,
            request.url,
            body=self._sent_body(request),
            headers=self._headers(request),
            timeout=self._timeout(),
            redirect=False,
            retries=False,
            preload_content=False,
            decode_content=False,
            enforce_content_length=True,
        )
        headers = _checked_head(response)
        self.has_head = True
        self._tell(["response", self.number, response.status, header_rows(headers)])
        return response

    def _sent_body(self, request: WireRequest) -> Optional[Sent]:
        sent = self._sent.sent_for(request.body)
        return (sent or None) if isinstance(sent, bytes) else _guarded(sent)

    def _headers(self, request: WireRequest) -> Any:
        """The headers of the request, and those that it needs on the wire beside them."""
        headers = HTTPHeaderDict()
        for name, value in request.headers:
            headers.add(name, value.decode("latin-1"))
        if "user-agent" not in headers:
            headers["user-agent"] = USER_AGENT
        length = self._sent.length_for(request.body)
        has_length = "content-length" in headers or "transfer-encoding" in headers
        if length and not has_length:
            headers["content-length"] = str(length)
        return headers

    def _timeout(self) -> urllib3.Timeout:
        connect, read = (
            None if span is None else max(span, 1) / NANOSECONDS
            for span in (self._begin.connect, self._begin.read)
        )
        return urllib3.Timeout(connect=connect, read=read)

    def _read(self, response: Any) -> None:
        """Reads the body, hands the engine its part, and keeps all of it."""
        try:
            for piece in _pieces(response, self._reading.is_watched):
                self.body.add(piece)
                fills = self._hand(piece)
                if fills and self._reading.is_streamed:
                    self.body.leave(response, self)
                if fills and self._reading.ends_early:
                    self._tell(["end", self.number])
                if fills and self._reading.is_streamed:
                    return
            self.body.finish()
            self._tell(["end", self.number])  # let go by the engine, if it was told before
        except BaseException as error:
            response.close()
            self._break(error)

    def _hand(self, piece: bytes) -> bool:
        """Hands the engine its part of a piece. Says whether that fills its part of the body."""
        part = piece[: self._room]
        self._room -= len(part)
        if part:
            self._inbox.put_data(self, self.number, part)
        return bool(part) and self._room == 0

    def _fail(self, error: BaseException) -> None:
        self.error = error
        self.body.fail(error)
        kind, text = failure_of(error, self._begin)
        self._tell(["failed", self.number, kind, text])

    def _break(self, error: BaseException) -> None:
        self.error = error
        self.body.fail(error)
        _, text = failure_of(error, self._begin)
        kind = "Timeout" if isinstance(error, exceptions.ReadTimeoutError) else "Response"
        self._tell(["broken", self.number, [kind, text]])

    def _tell(self, message: List[Any]) -> None:
        self._inbox.put(Event(self, message))


def _shut_down(connection: Any) -> None:
    """Wakes a thread that reads from the connection, or writes to it."""
    sock = getattr(connection, "sock", None)
    if sock is None:
        return
    try:
        sock.shutdown(socket.SHUT_RDWR)
    except (OSError, ValueError):
        pass  # it is closed already


def _guarded(pieces: Iterable[bytes]) -> Iterator[bytes]:
    """The pieces of the caller's body. What they raise is told apart from what the network does."""
    try:
        yield from pieces
    except Exception as error:
        raise SenderError() from error


def _pieces(response: Any, is_watched: bool) -> Iterator[bytes]:
    """A response's body. One that is watched comes byte by byte as far as the engine reads it,
    or as it comes where urllib3 can tell."""
    wanted = BODY_LIMIT
    read_some = getattr(response, "read1", None)
    while is_watched and wanted > 0:
        piece = read_some(wanted) if read_some else response.read(1)
        if not piece:
            return
        wanted -= len(piece)
        yield piece
    piece = response.read(wanted or PIECE)
    while piece:
        yield piece
        piece = response.read(PIECE)


def _checked_head(response: Any) -> List[Header]:
    """The headers of a response. What no header may have is refused."""
    pairs = [(name.lower(), value) for name, value in response.headers.items()]
    if all(NAME.fullmatch(name) and VALUE.fullmatch(value) for name, value in pairs):
        return [(name, value.encode("latin-1")) for name, value in pairs]
    response.close()
    raise BadHead()


def failure_of(error: BaseException, begin: Begin) -> Tuple[Any, str]:
    """What the engine is told of an error: a connector's kind, and a text without secrets."""
    if isinstance(error, exceptions.NewConnectionError):
        return "Io", f"no connection: {_reason_of(error)}"
    if isinstance(error, exceptions.ConnectTimeoutError):
        return "Timeout", f"no connection after {_seconds(begin.connect)}"
    if isinstance(error, (exceptions.ReadTimeoutError, socket.timeout)):
        return "Timeout", f"no byte for {_seconds(begin.read)}"
    if isinstance(error, (exceptions.SSLError, ssl.SSLError)):
        return ["Other", None], "TLS failed"
    if isinstance(error, BadHead):
        return ["Other", None], "the head of the response isn't HTTP's"
    if isinstance(error, exceptions.LocationValueError):
        return "User", "the address can't be used"
    if isinstance(error, (exceptions.HTTPError, OSError)):
        return "Io", f"the connection broke off: {_reason_of(error)}"
    return "User", f"the request can't be sent: {type(error).__name__}"


def _seconds(span: Optional[int]) -> str:
    return "its time" if span is None else f"{span / NANOSECONDS:g} s"


def _reason_of(error: BaseException) -> str:
    """The system's text for an error, or else the name of its class: no text of a library, which
    may repeat a header or an address."""
    causes = [error, error.__cause__, error.__context__, *error.args]
    for cause in causes:
        if isinstance(cause, OSError) and cause.strerror:
            return cause.strerror
    named = [cause for cause in causes if isinstance(cause, BaseException)]
    return type(named[-1]).__name__
