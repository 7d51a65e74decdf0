"""A server on 127.0.0.1 that answers as DynamoDB answers ListTables, for bench/hosts.py.

It runs in a process of its own, so that it takes no turns of the caller's interpreter, and does as
little as it can: a request is read as far as its length says, and answered by one write.
"""
import socketserver
import threading
import time
from typing import Any, Dict, List

FINE, FAILING = "/fine", "/failing"
"""Paths: each request is answered 200, or the first two of each run 503."""
INVOCATION = "amz-sdk-invocation-id"
"""The header that the attempts of one run share."""
FAILURES = 2
OUTPUT = b'{"TableNames":[]}'


def answer(status: str, body: bytes) -> bytes:
    """The bytes of a whole response."""
    head = f"HTTP/1.1 {status}\r\ncontent-type: application/x-amz-json-1.0\r\n"
    return f"{head}content-length: {len(body)}\r\n\r\n".encode() + body


SUCCESS, FAILURE = answer("200 OK", OUTPUT), answer("503 Service Unavailable", b"{}")


class Handler(socketserver.StreamRequestHandler):
    """One connection."""

    disable_nagle_algorithm = True
    server: "Server"

    def handle(self) -> None:
        try:
            while self._answer_one():
                pass
        except ConnectionError:
            pass  # the client is gone

    def _answer_one(self) -> bool:
        """Reads a request and answers it, unless the client said its last."""
        first = self.rfile.readline().decode("latin-1")
        if not first:
            return False
        headers = self._headers()
        self.rfile.read(int(headers.get("content-length", "0")))
        number = self.server.count(headers.get(INVOCATION, ""))
        is_failed = first.split()[1].startswith(FAILING) and number <= FAILURES
        self.connection.sendall(FAILURE if is_failed else SUCCESS)
        return True

    def _headers(self) -> Dict[str, str]:
        headers = {}
        for line in iter(self.rfile.readline, b"\r\n"):
            name, _, value = line.decode("latin-1").partition(":")
            headers[name.lower()] = value.strip()
        return headers


class Server(socketserver.ThreadingTCPServer):
    daemon_threads = True
    request_queue_size = 128

    def __init__(self) -> None:
        super().__init__(("127.0.0.1", 0), Handler)
        self._lock = threading.Lock()
        self._seen: Dict[str, List[float]] = {}

    def count(self, run: str) -> int:
        """Counts an attempt of this run, and says which one it is."""
        with self._lock:
            moments = self._seen.setdefault(run, [])
            moments.append(time.monotonic())
            return len(moments)

    def seen(self) -> List[List[float]]:
        """The moments of the attempts of each run, since this was last asked."""
        with self._lock:
            seen, self._seen = self._seen, {}
            return list(seen.values())


def serve(pipe: Any) -> None:
    """Serves until this process ends. Tells its port by the pipe, and then what it saw each time it
    is asked."""
    server = Server()
    threading.Thread(target=server.serve_forever, daemon=True).start()
    pipe.send(server.server_address[1])
    while pipe.recv():
        pipe.send(server.seen())
