"""A server on 127.0.0.1 that fails as it is told to, request by request.

Each request takes the next *act* of the script, and answers 200 behind its end.
"""
import http.server
import socket
import threading
import time
from typing import Any, Callable, Dict, List, NamedTuple, Sequence

OK = b'{"ok":true}'
TURN = 0.02  # seconds between two looks at whether a client is gone


class Seen(NamedTuple):
    """A request that came."""

    method: str
    path: str
    headers: Dict[str, str]
    body: bytes
    port: int
    """The client's: the same for two requests on one connection."""


class Handler(http.server.BaseHTTPRequestHandler):
    protocol_version = "HTTP/1.1"
    server: "Server"

    def log_message(self, format: str, *args: Any) -> None:
        pass

    def do_GET(self) -> None:
        headers = {name.lower(): value for name, value in self.headers.items()}
        seen = Seen(self.command, self.path, headers, self.body(), self.client_address[1])
        try:
            self.server.next_act(seen)(self)
        except OSError:
            self.server.was_left.set()  # the client is gone
            self.close_connection = True

    do_POST = do_PUT = do_GET

    def body(self) -> bytes:
        if self.headers.get("transfer-encoding") == "chunked":
            return b"".join(iter(self.chunk, b""))
        return self.rfile.read(int(self.headers.get("content-length") or 0))

    def chunk(self) -> bytes:
        data = self.rfile.read(int(self.rfile.readline(), 16))
        self.rfile.readline()
        return data

    def head(self, status: int, length: int, headers: Dict[str, str]) -> None:
        self.send_response(status)
        for name, value in headers.items():
            self.send_header(name, value)
        self.send_header("content-length", str(length))
        self.end_headers()

    def wait(self, seconds: float) -> None:
        """Waits, unless the client is gone or the test is over."""
        until = time.monotonic() + seconds
        while time.monotonic() < until and not self.server.is_over.is_set():
            if self.is_left():
                raise ConnectionResetError
            time.sleep(TURN)

    def is_left(self) -> bool:
        self.connection.setblocking(False)
        try:
            return self.connection.recv(1, socket.MSG_PEEK) == b""
        except BlockingIOError:
            return False
        finally:
            self.connection.setblocking(True)


Act = Callable[[Handler], None]


class Server(http.server.ThreadingHTTPServer):
    daemon_threads = True
    block_on_close = False
    request_queue_size = 64

    def __init__(self, script: Sequence[Act]):
        super().__init__(("127.0.0.1", 0), Handler)
        self.url = f"http://127.0.0.1:{self.server_port}"
        self.seen: List[Seen] = []
        self.is_over = threading.Event()
        self.was_left = threading.Event()
        """Whether a client left while it was waited for."""
        self._script = list(script)
        self._lock = threading.Lock()

    def next_act(self, seen: Seen) -> Act:
        with self._lock:
            self.seen.append(seen)
            return self._script.pop(0) if self._script else answer(200, OK)

    def __enter__(self) -> "Server":
        threading.Thread(target=self.serve_forever, args=(TURN,), daemon=True).start()
        return self

    def __exit__(self, *_: object) -> None:
        self.is_over.set()
        self.shutdown()
        self.server_close()

    def handle_error(self, request: Any, client_address: Any) -> None:
        pass  # a client that is gone is no error


def answer(status: int, body: bytes = b"", **headers: str) -> Act:
    """The whole response. Of a header's name the underscores are dashes."""
    named = {name.replace("_", "-"): value for name, value in headers.items()}

    def act(handler: Handler) -> None:
        handler.head(status, len(body), named)
        handler.wfile.write(body)

    return act


def stall(seconds: float = 60.0) -> Act:
    """No answer for so long, and then the end of the connection."""

    def act(handler: Handler) -> None:
        handler.wait(seconds)
        handler.close_connection = True

    return act


def hold(until: threading.Event) -> Act:
    """The answer, once this is set."""

    def act(handler: Handler) -> None:
        while not (until.is_set() or handler.server.is_over.is_set()):
            handler.wait(TURN)
        answer(200, OK)(handler)

    return act


def gather(count: int, then: Act) -> Act:
    """What so many requests get, once all of them are there."""
    all_there = threading.Barrier(count, timeout=60)

    def act(handler: Handler) -> None:
        all_there.wait()
        then(handler)

    return act


def cut(body: bytes, length: int) -> Act:
    """A body that breaks off before it has this length."""

    def act(handler: Handler) -> None:
        handler.head(200, length, {})
        handler.wfile.write(body)
        handler.close_connection = True

    return act


def drip(body: bytes, seconds: float) -> Act:
    """A body of which a byte comes each so many seconds."""

    def act(handler: Handler) -> None:
        handler.head(200, len(body), {})
        for byte in body:
            handler.wait(seconds)
            handler.wfile.write(bytes([byte]))

    return act


def accept_token(token: str) -> Act:
    """401 unless the request has this token."""

    def act(handler: Handler) -> None:
        is_right = handler.headers.get("authorization") == f"Bearer {token}"
        answer(200 if is_right else 401, OK)(handler)

    return act
