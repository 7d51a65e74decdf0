"""Drives the engine by the Python host of hosts/python, over real connections.

A server on 127.0.0.1 fails as each test tells it to. Every run that ends is recorded: `check` has
to say yes to it, and `replay` has to print the same again.

It needs urllib3: `apt-get install python3-urllib3`. Where that isn't there the tests fail, unless
the environment has WISHQORAM_WITHOUT_URLLIB3: then they are skipped.
"""
import gc
import importlib.util
import os
import pathlib
import re
import signal
import socket
import stat
import subprocess
import sys
import tempfile
import textwrap
import threading
import time
from concurrent.futures import Future, ThreadPoolExecutor
from typing import Any, Dict, List, Tuple
from unittest import mock

from .support.flaky_server import OK, Act, Server, accept_token, answer, cut, drip, gather, hold
from .support.flaky_server import stall
from .support.program import TOP, ProgramTest, path
from .support.stand_in import StandIn

HOST = TOP / "hosts/python"
OF_DEBIAN = "/usr/lib/python3/dist-packages"  # any Python reads Debian's urllib3 there
NOT_INSTALLED = "urllib3 isn't installed: apt-get install python3-urllib3"
WITHOUT = "WISHQORAM_WITHOUT_URLLIB3"

if importlib.util.find_spec("urllib3") is None:
    sys.path.append(OF_DEBIAN)
HAS_URLLIB3 = importlib.util.find_spec("urllib3") is not None
if HAS_URLLIB3:
    sys.path.insert(0, str(HOST))
    import urllib3

    import wishqoram
    from wishqoram import Client, Engine, Request, Retry
    from wishqoram.description import description_of
    from wishqoram.protocol import Begin, Done, Park, Poison, WireRequest

PATIENCE = 60.0  # seconds after which a call is given up, and its test fails
ON_ITS_WAY = 3.0  # seconds in which a request is at the server, also where the machine is slow
MEGABYTE = b"0123456789abcde\n" * 65536
BINARY = bytes(range(256)) * 4096
SECRET = "a token & more"
GET = ("GET", "/x")

# A host that begins a call, says which process its engine is, and waits for an answer.
WAITING_HOST = """
import sys
from wishqoram import Client, Engine, Request
engine = Engine({"a": Client(sys.argv[1])})
print(engine.process_id, flush=True)
engine.invoke("a", Request("GET", "/x"))
"""


def is_running(process: int) -> bool:
    """Whether there is such a process, and it isn't one that only its parent's look is missing."""
    try:
        status = pathlib.Path(f"/proc/{process}/stat").read_text()
    except FileNotFoundError:
        return False
    return status.rpartition(")")[2].split()[0] != "Z"


def until(what: Any, seconds: float = PATIENCE) -> bool:
    """Whether this comes true within so many seconds."""
    end = time.monotonic() + seconds
    while not what():
        if time.monotonic() > end:
            return False
        time.sleep(0.02)
    return True


def at_once(**named: Any) -> "Retry":
    """Retries whose pauses are some milliseconds."""
    return Retry(**{"initial_backoff": 0.005, "max_backoff": 0.02, **named})


class HostTest(ProgramTest):
    """A test with a server, and an engine with a client `a`, whose runs are recorded."""

    def setUp(self) -> None:
        if not HAS_URLLIB3:
            if os.environ.get(WITHOUT):
                self.skipTest(NOT_INSTALLED)
            self.fail(f"{NOT_INSTALLED} (or set {WITHOUT}=1 to skip this)")
        folder = tempfile.TemporaryDirectory()
        self.addCleanup(folder.cleanup)
        self.folder = pathlib.Path(folder.name)
        self.recording: Any = None

    def serve(self, *script: Act) -> Server:
        server = Server(script)
        server.__enter__()
        self.addCleanup(server.__exit__)
        return server

    def engine(self, client: "Client", *others: Any, **named: Any) -> "Engine":
        engine = Engine({"a": client, **dict(others)}, program=path(), **named)
        self.addCleanup(engine.close)
        self.recording = engine.record(self.folder)
        return engine

    def client(self, server: Server, **named: Any) -> "Client":
        return Client(server.url, **{"retry": at_once(), **named})

    def asked(self, engine: "Engine", *request: Any, of: str = "a", **named: Any) -> Any:
        named.setdefault("timeout", PATIENCE)
        return engine.invoke(of, Request(*(request or GET)), **named)

    def begun(self, work: Any, *given: Any, **named: Any) -> "Future[Any]":
        """What comes of this work, which is done in a thread of its own."""
        threads = ThreadPoolExecutor(1)
        self.addCleanup(threads.shutdown)
        return threads.submit(work, *given, **named)

    def check_recorded(self, runs: int) -> List[bytes]:
        """Checks that so many runs were recorded, and what the program says of each."""
        texts = [file.read_bytes() for file in self.recording.files]
        self.assertEqual(len(texts), runs)
        for text in texts:
            self.assertEqual(self.program("check", text), b'["yes"]\n')
            self.assertEqual(self.program("replay", wishqoram.script_for_replay(text)), text)
        return texts

    def program(self, command: str, text: bytes) -> bytes:
        pipes = {"stdout": subprocess.PIPE, "stderr": subprocess.DEVNULL}
        return subprocess.run([path(), command], input=text, check=False, **pipes).stdout


class RetryTest(HostTest):
    def test_after_503_twice_the_third_request_is_answered(self):
        server = self.serve(answer(503), answer(503, b"busy"))
        engine = self.engine(self.client(server))
        response = self.asked(engine, "POST", "/x?y=1", {"X-One": "1"}, "hi")
        self.assertEqual((response.status, response.body, response.attempts), (200, OK, 3))
        sent = [(seen.method, seen.path, seen.body) for seen in server.seen]
        self.assertEqual(sent, [("POST", "/x?y=1", b"hi")] * 3)
        self.assertEqual({it.headers["x-one"] for it in server.seen}, {"1"})
        self.check_recorded(1)

    def test_after_503_each_time_the_last_response_is_told(self):
        server = self.serve(*[answer(503, b"busy")] * 3)
        with self.assertRaises(wishqoram.ServiceError) as raised:
            self.asked(self.engine(self.client(server)))
        error = raised.exception
        self.assertEqual((error.response.status, error.response.body), (503, b"busy"))
        self.assertEqual(error.attempts, 3)
        self.check_recorded(1)

    def test_a_response_that_stalls_is_given_up_after_the_read_deadline(self):
        server = self.serve(stall())
        engine = self.engine(self.client(server, read_timeout=0.5, retry=at_once(max_attempts=9)))
        self.assertGreaterEqual(self.asked(engine).attempts, 2)
        text = self.check_recorded(1)[0]
        self.assertIn(b'["Failed","Timeout","no byte for 0.5 s"]', text)

    def test_a_connection_that_does_not_come_is_given_up_after_the_connect_deadline(self):
        with socket.socket() as full:
            full.bind(("127.0.0.1", 0))
            full.listen(0)
            for _ in range(4):  # more than the system keeps for a listener that takes none
                waiting = socket.socket()
                self.addCleanup(waiting.close)
                waiting.setblocking(False)
                waiting.connect_ex(full.getsockname())
            url = f"http://127.0.0.1:{full.getsockname()[1]}"
            with self.assertRaises(wishqoram.DispatchFailure) as raised:
                self.asked(self.engine(Client(url, retry=None, connect_timeout=0.3)))
        fault = raised.exception.fault
        self.assertEqual((fault.detail, fault.text), ("Timeout", "no connection after 0.3 s"))
        self.check_recorded(1)

    def test_a_connection_that_is_refused_is_a_failure_to_dispatch(self):
        server = self.serve()
        server.__exit__()
        with self.assertRaises(wishqoram.DispatchFailure) as raised:
            self.asked(self.engine(self.client(server, retry=None)))
        error = raised.exception
        self.assertEqual((error.fault.kind, error.fault.detail), ("Connector", "Io"))
        self.assertIsNotNone(error.__cause__)
        self.check_recorded(1)

    def test_a_body_that_breaks_off_is_asked_for_again(self):
        half = cut(MEGABYTE[:500_000], len(MEGABYTE))
        server = self.serve(cut(b"one", 9), half, answer(200, MEGABYTE))
        response = self.asked(self.engine(self.client(server)))
        self.assertEqual((response.body, response.attempts), (MEGABYTE, 3))
        self.check_recorded(1)

    def test_a_body_that_drips_is_ended_by_the_guard_of_stalled_streams(self):
        server = self.serve(drip(b"x" * 30, 2))
        retry = Retry(max_attempts=9, initial_backoff=0.3, max_backoff=0.3, static_base=True)
        engine = self.engine(self.client(server, stall_grace=0.2, retry=retry), fuel=5000)
        response = self.asked(engine)
        self.assertEqual(response.body, OK)
        self.assertGreaterEqual(response.attempts, 2)
        self.assertIn(b"minimum throughput was specified at 1 B/s", self.check_recorded(1)[0])

    def test_what_breaks_off_since_the_host_closed_it_is_not_told(self):
        server = self.serve(drip(b"x" * 99, 0.2))
        wakes: List[int] = []

        def answered(message: List[Any]) -> List[Any]:
            word, _, now, *rest = message
            if word == "invoke":
                request = WireRequest("GET", server.url, [], b"")
                return [Begin(0, 0, request, None, None, 1), Park(0, 0, None, None)]
            if wakes:
                return [Done(0, 9, ["Unfinished"], b"")]
            if all(event[0] != "data" for event in rest[0]):
                return [Park(0, 0, None, None)]
            wakes.append(now + 500_000_000)
            return [Poison(0, 1), Park(0, 0, None, wakes[0])]

        program = StandIn(answered)
        with mock.patch("wishqoram.engine.Program", program):
            engine = Engine({"a": self.client(server, stall_grace=9)}, program=sys.executable)
        with self.assertRaises(wishqoram.Unfinished):
            self.asked(engine)
        _, _, now, events = program.said[-1]
        self.assertEqual(events, [])
        self.assertGreaterEqual(now, wakes[0])

    def test_a_body_that_drips_is_waited_for_without_the_guard(self):
        server = self.serve(drip(b"xyz", 0.6))
        self.assertEqual(self.asked(self.engine(self.client(server))).body, b"xyz")
        self.assertEqual(len(server.seen), 1)

    def test_a_head_that_is_not_that_of_a_response_is_a_failure_to_dispatch(self):
        server = self.serve(answer(200, OK, x_odd="a\x01b"))
        with self.assertRaises(wishqoram.DispatchFailure):
            self.asked(self.engine(self.client(server)))
        self.check_recorded(1)

    def test_429_is_throttling_and_its_retry_after_is_not_waited_for(self):
        server = self.serve(answer(429, retry_after="50"))
        began = time.monotonic()
        response = self.asked(self.engine(self.client(server)))
        self.assertLess(time.monotonic() - began, 40)
        self.assertEqual(response.attempts, 2)
        text = self.check_recorded(1)[0]
        self.assertIn(b'["RetryIndicated","ThrottlingError",null]', text)

    def test_the_wait_that_a_response_asks_for_is_waited(self):
        retry = Retry(initial_backoff=0.005, max_backoff=9)
        milliseconds = wishqoram.RetryAfter("X-Wait", 0.001)
        for header, asks in [
            ("retry-after", {"retry_after": "1"}),
            (milliseconds, {"x_wait": "1000", "retry_after": "9"}),
        ]:
            with self.subTest(header):
                server = self.serve(answer(503, **asks))
                engine = self.engine(self.client(server, retry=retry, retry_after=header))
                began = time.monotonic()
                self.assertEqual(self.asked(engine).attempts, 2)
                self.assertGreaterEqual(time.monotonic() - began, 1)
                text = self.recording.files[-1].read_bytes()
                self.assertIn(b'["RetryIndicated","TransientError",1000000000]', text)

    def test_rules_name_errors_by_status_header_and_a_word_of_the_body(self):
        server = self.serve(answer(400, b"<Code>SlowDown</Code>"), answer(200, OK, x_failed="yes"))
        rules = [
            wishqoram.ErrorRule(400, "throttle", word="SlowDown"),
            wishqoram.ErrorRule(200, "failed", headers={"X-Failed": "yes"}),
        ]
        with self.assertRaises(wishqoram.ServiceError) as raised:
            self.asked(self.engine(self.client(server, errors=rules)))
        error = raised.exception
        self.assertEqual((error.name, error.response.status, error.attempts), ("failed", 200, 2))
        self.check_recorded(1)


class SeatTest(HostTest):
    """Runs that go on at once, and what they share."""

    def test_eight_runs_at_once_are_granted_what_their_bucket_has(self):
        server = self.serve(*[gather(8, answer(503))] * 8, *[answer(503)] * 99)
        bucket = wishqoram.Bucket(capacity=120, transient_cost=10)
        client = self.client(server, bucket="tokens", seats=8)
        engine = self.engine(client, buckets={"tokens": bucket})
        calls = [self.begun(self.asked, engine) for _ in range(8)]
        for call in calls:
            self.assertIsInstance(call.exception(PATIENCE), wishqoram.ServiceError)
        self.assertEqual(len(server.seen), 8 + 120 // 10)
        sums = engine.sums()["tokens"]
        self.assertEqual((sums.capacity, sums.granted, sums.available), (120, 0, 0))
        self.assertEqual(sums.held + sums.forgotten, 120)
        self.check_recorded(8)

    def test_clients_pay_from_the_bucket_that_they_share(self):
        server = self.serve(*[answer(503)] * 9)
        buckets = {"own": wishqoram.Bucket(), "shared": wishqoram.Bucket(capacity=20)}
        client = self.client(server, bucket="shared")
        engine = self.engine(client, ("b", client), buckets=buckets)
        for name in ("a", "b"):
            with self.assertRaises(wishqoram.ServiceError):
                self.asked(engine, of=name)
        self.assertEqual(len(server.seen), 3 + 1)
        sums = {"own": (500, 0, 500, 0, 0), "shared": (20, 0, 0, 10, 10)}
        self.assertEqual(engine.sums(), sums)
        self.check_recorded(2)

    def test_a_run_waits_where_no_seat_is_free(self):
        open_gate = threading.Event()
        self.addCleanup(open_gate.set)
        server = self.serve(*[hold(open_gate)] * 2)
        engine = self.engine(self.client(server, seats=2))
        calls = [self.begun(self.asked, engine) for _ in range(3)]
        self.assertTrue(until(lambda: engine._clients["a"].turns.waiting == 1))
        self.assertTrue(until(lambda: len(server.seen) == 2))
        open_gate.set()
        for call in calls:
            self.assertEqual(call.result(PATIENCE).body, OK)
        self.check_recorded(3)

    def test_each_seat_loads_its_identity_once(self):
        loads: List[int] = []
        source = wishqoram.BearerToken(lambda: loads.append(1) or SECRET)
        server = self.serve(*[gather(2, answer(200))] * 2)
        engine = self.engine(self.client(server, auth=[source], seats=3))
        calls = [self.begun(self.asked, engine) for _ in range(2)]
        for call in calls:
            call.result(PATIENCE)
        for _ in range(3):
            self.asked(engine)
        self.assertEqual(len(loads), 2)

    def test_a_client_is_described_for_each_seat_with_a_seed_of_its_own(self):
        clients = {"a": Client("http://a"), "b": Client("http://b", service="s", seats=2)}
        seats = description_of(clients, {}, 0, 7)["clients"]
        told = [(seat["client"]["service"], seat["seed"]) for seat in seats]
        self.assertEqual(told, [("a", 7), ("s", 8), ("s", 9)])
        drawn = {seat["seed"] for seat in description_of(clients, {}, 0, None)["clients"]}
        self.assertEqual(len(drawn), 3)


class EndTest(HostTest):
    """Runs that end before a response is there."""

    def setUp(self) -> None:
        super().setUp()
        self.server = self.serve(stall()) if HAS_URLLIB3 else None

    def assert_left(self) -> None:
        """Checks that the request that was open is dropped."""
        self.assertTrue(self.server.was_left.wait(PATIENCE))
        self.assertEqual(len(self.server.seen), 1)

    def test_the_deadline_of_the_operation_drops_the_call_that_is_open(self):
        engine = self.engine(self.client(self.server, operation_timeout=ON_ITS_WAY))
        with self.assertRaises(wishqoram.SdkTimeoutError) as raised:
            self.asked(engine)
        self.assertEqual(raised.exception.fault.kind, "Timeout")
        self.assert_left()
        self.check_recorded(1)

    def test_the_timeout_of_an_invocation_drops_the_call_that_is_open(self):
        engine = self.engine(self.client(self.server))
        with self.assertRaises(TimeoutError):
            self.asked(engine, timeout=ON_ITS_WAY)
        self.assert_left()
        self.assertEqual(self.asked(engine).body, OK)
        self.check_recorded(1)

    def test_the_timeout_of_an_invocation_covers_the_wait_for_its_turn(self):
        engine, cancellation = self.engine(self.client(self.server)), wishqoram.Cancellation()
        first = self.begun(self.asked, engine, cancellation=cancellation)
        self.assertTrue(until(lambda: self.server.seen))
        with self.assertRaises(wishqoram.InvocationTimeout):
            self.asked(engine, timeout=0.3)
        self.assertFalse(first.done())
        cancellation.cancel()
        self.assertIsInstance(first.exception(PATIENCE), wishqoram.Cancelled)
        self.assert_left()

    def test_a_cancelled_invocation_drops_the_call_that_is_open(self):
        engine, cancellation = self.engine(self.client(self.server)), wishqoram.Cancellation()
        self.when_asked(cancellation.cancel)
        with self.assertRaises(wishqoram.Cancelled):
            self.asked(engine, cancellation=cancellation)
        self.assert_left()
        with self.assertRaises(wishqoram.Cancelled):
            self.asked(engine, cancellation=cancellation)
        self.assertEqual(self.asked(engine).body, OK)

    def test_the_end_of_the_engine_ends_its_runs_and_its_process(self):
        engine = self.engine(self.client(self.server))
        self.when_asked(engine.close)
        with self.assertRaises(wishqoram.EngineClosed):
            self.asked(engine)
        self.assert_left()
        with self.assertRaises(wishqoram.EngineClosed):
            self.asked(engine)
        self.assertTrue(until(lambda: not is_running(engine.process_id)))

    def test_a_killed_engine_ends_its_runs_with_a_clear_error(self):
        engine = self.engine(self.client(self.server))
        process = engine.process_id
        self.when_asked(lambda: os.kill(process, signal.SIGKILL))
        for _ in range(2):
            with self.assertRaisesRegex(wishqoram.ProgramEnded, "ended by signal 9") as raised:
                self.asked(engine)
            self.assertEqual(raised.exception.status, -9)
        self.assert_left()
        self.assertFalse(is_running(process))

    def test_an_engine_that_nobody_has_any_more_ends_its_process(self):
        engine = Engine({"a": self.client(self.server)}, program=path())
        process = engine.process_id
        self.assertTrue(is_running(process))
        del engine
        gc.collect()
        self.assertTrue(until(lambda: not is_running(process)))

    def test_a_killed_host_leaves_no_engine_behind(self):
        words = [sys.executable, "-c", WAITING_HOST, self.server.url]
        with subprocess.Popen(words, env=environment(), stdout=subprocess.PIPE, text=True) as host:
            self.addCleanup(host.kill)
            engine = int(host.stdout.readline())
            self.assertTrue(until(lambda: self.server.seen))
            self.assertTrue(is_running(engine))
            host.kill()
        self.assertTrue(until(lambda: not is_running(engine)))
        self.assert_left()

    def when_asked(self, work: Any) -> None:
        """Does this once the server has the request."""

        self.begun(lambda: until(lambda: self.server.seen) and work())


class ConnectionTest(HostTest):
    def ports(self, server: Server) -> List[int]:
        return [seen.port for seen in server.seen]

    def test_a_connection_is_used_again_unless_it_is_poisoned(self):
        server = self.serve(answer(200), answer(200), answer(503, b"busy"))
        engine = self.engine(self.client(server))
        for _ in range(3):
            self.asked(engine)
        first, second, failed, last = self.ports(server)
        self.assertEqual((first, second), (second, failed))
        self.assertNotEqual(failed, last)

    def test_where_connections_are_reused_a_failure_keeps_its_own(self):
        server = self.serve(answer(503, b"busy"))
        self.asked(self.engine(self.client(server, retry=at_once(reconnect=False))))
        self.assertEqual(len(set(self.ports(server))), 1)

    def test_runs_of_one_client_go_in_the_order_of_their_calls(self):
        all_wait = threading.Event()
        self.addCleanup(all_wait.set)
        server = self.serve(hold(all_wait))
        engine = self.engine(self.client(server))
        turns = engine._clients["a"].turns
        calls = []
        for number in range(6):
            calls.append(self.begun(self.asked, engine, "GET", f"/{number}"))
            self.assertTrue(until(lambda: server.seen and turns.waiting == number))
        all_wait.set()
        for call in calls:
            call.result(PATIENCE)
        paths = [seen.path for seen in server.seen]
        self.assertEqual(paths, [f"/{number}" for number in range(6)])

    def test_two_clients_run_side_by_side(self):
        server = self.serve(stall(), answer(200))
        engine = self.engine(self.client(server), ("b", self.client(server)))
        cancellation = wishqoram.Cancellation()
        waiting = self.begun(self.asked, engine, cancellation=cancellation)
        self.assertTrue(until(lambda: server.seen))
        self.assertEqual(self.asked(engine, of="b").status, 200)
        self.assertFalse(waiting.done())
        cancellation.cancel()
        self.assertIsInstance(waiting.exception(PATIENCE), wishqoram.Cancelled)


class BodyTest(HostTest):
    def test_bodies_of_a_megabyte_go_both_ways_and_again(self):
        sent = self.folder / "sent"
        sent.write_bytes(BINARY)
        file = sent.open("rb")
        self.addCleanup(file.close)
        bodies = [BINARY, file, lambda: iter([BINARY[:7], BINARY[7:]])]
        for body in bodies:
            with self.subTest(type(body).__name__):
                server = self.serve(answer(503), answer(200, BINARY))
                response = self.asked(self.engine(self.client(server)), "POST", "/x", (), body)
                self.assertEqual(response.body, BINARY)
                self.assertEqual([seen.body == BINARY for seen in server.seen], [True, True])
                self.recording.end()

    def test_a_body_that_can_be_sent_once_is_not_sent_again(self):
        server = self.serve(answer(503))
        with self.assertRaises(wishqoram.ServiceError):
            body = (piece for piece in (b"a", b"b"))
            self.asked(self.engine(self.client(server)), "POST", "/x", (), body)
        self.assertEqual([seen.body for seen in server.seen], [b"ab"])
        self.check_recorded(1)

    def test_what_a_body_raises_is_the_cause_of_the_failure(self):
        def body() -> Any:
            yield b"a"
            raise LookupError("no more")

        server = self.serve()
        with self.assertRaises(wishqoram.DispatchFailure) as raised:
            self.asked(self.engine(self.client(server)), "POST", "/x", (), body)
        self.assertEqual(raised.exception.fault.detail, "User")
        self.assertIsInstance(raised.exception.__cause__.__cause__, LookupError)
        self.check_recorded(1)

    def test_a_streamed_body_is_read_by_its_caller(self):
        server = self.serve(answer(200, MEGABYTE), answer(200, MEGABYTE))
        engine = self.engine(self.client(server))
        with self.asked(engine, stream=True) as response:
            pieces = list(response.stream(10_000))
        self.assertEqual(b"".join(pieces), MEGABYTE)
        self.assertLessEqual(max(map(len, pieces)), 10_000)
        with self.assertRaises(wishqoram.BodyError):
            response.body
        self.assertEqual(self.asked(engine, stream=True).body, MEGABYTE)
        self.asked(engine)
        self.assertEqual(len({seen.port for seen in server.seen}), 1)
        self.check_recorded(3)

    def test_a_streamed_body_that_breaks_off_is_told_to_its_caller(self):
        server = self.serve(cut(MEGABYTE[:500_000], len(MEGABYTE)))
        response = self.asked(self.engine(self.client(server)), stream=True)
        with self.assertRaises(wishqoram.BodyError):
            response.body
        self.assertEqual(len(server.seen), 1)

    def test_of_a_watched_body_the_rest_is_read_but_not_asked_for_again(self):
        server = self.serve(answer(200, MEGABYTE), cut(MEGABYTE[:500_000], len(MEGABYTE)))
        engine = self.engine(self.client(server, stall_grace=5))
        self.assertEqual(self.asked(engine).body, MEGABYTE)
        with self.assertRaises(wishqoram.BodyError):
            self.asked(engine)
        self.assertEqual(len(server.seen), 2)
        self.check_recorded(2)


class IdentityTest(HostTest):
    def test_after_401_a_new_token_is_asked_for(self):
        tokens = iter(["old", "new"])
        server = self.serve(accept_token("new"), accept_token("new"))
        client = self.client(
            server,
            errors=[wishqoram.ErrorRule(401, "transient")],
            auth=[wishqoram.BearerToken(lambda: next(tokens))],
            identity_cache=None,
        )
        self.assertEqual(self.asked(self.engine(client)).attempts, 2)
        sent = [seen.headers["authorization"] for seen in server.seen]
        self.assertEqual(sent, ["Bearer old", "Bearer new"])
        self.check_recorded(1)

    def test_a_cached_token_is_loaded_once(self):
        loads: List[int] = []
        server = self.serve()
        source = wishqoram.BearerToken(lambda: loads.append(1) or SECRET)
        engine = self.engine(self.client(server, auth=[source]))
        for _ in range(3):
            self.asked(engine)
        self.assertEqual(len(loads), 1)
        sent = {seen.headers["authorization"] for seen in server.seen}
        self.assertEqual(sent, {f"Bearer {SECRET}"})

    def test_the_engine_does_not_see_a_secret_unless_it_may(self):
        bearer = wishqoram.BearerToken(lambda: SECRET)
        in_header = wishqoram.ApiKey(lambda: SECRET, "X-Key", prefix="key")
        in_query = wishqoram.ApiKey(lambda: SECRET, "key", in_query=True)
        own = wishqoram.AuthScheme("own", lambda: SECRET)
        for scheme, secrets, sent in [
            (bearer, "host", f"Bearer {SECRET}"),
            (in_header, "host", f"key {SECRET}"),
            (in_query, "host", "/x?key=a%20token%20%26%20more"),
            (own, "host", SECRET),
            (bearer, "engine", f"Bearer {SECRET}"),
        ]:
            with self.subTest(sent):
                server = self.serve()
                self.asked(self.engine(self.client(server, auth=[scheme]), secrets=secrets))
                seen = server.seen[0]
                self.assertIn(sent, [*seen.headers.values(), seen.path])
                recorded = self.recording.files[-1].read_bytes()
                self.assertEqual(SECRET.encode() in recorded, secrets == "engine")

    def test_what_a_source_raises_is_the_cause_of_the_error(self):
        def source() -> str:
            raise LookupError(SECRET)

        client = self.client(self.serve(), auth=[wishqoram.BearerToken(source)])
        with self.assertRaises(wishqoram.SdkError) as raised:
            self.asked(self.engine(client))
        self.assertIsInstance(raised.exception.__cause__, LookupError)
        self.assertNotIn(SECRET.encode(), self.check_recorded(1)[0])


def example_of(page: str) -> Tuple[str, str]:
    """The Python on a page, and the lines behind it that it is said to print."""
    blocks = re.findall(r"(?m)(?:^(?:    .*)?\n)+", (TOP / page).read_text())
    blocks = [textwrap.dedent(block).strip("\n") + "\n" for block in blocks if block.strip()]
    place = next(place for place, block in enumerate(blocks) if "from wishqoram" in block)
    return blocks[place], blocks[place + 1]


def without_pauses(printed: str) -> str:
    """Lines of the log, whose pauses are random."""
    return re.sub(r"after [0-9.]+ s", "after some s", printed)


def environment() -> Dict[str, str]:
    """What a script needs that imports the package."""
    folders = [str(HOST), str(pathlib.Path(urllib3.__file__).parents[1])]
    added = {"PYTHONPATH": os.pathsep.join(folders), "WISHQORAM_PROGRAM": str(path())}
    return {**os.environ, **added}


class UseTest(HostTest):
    def test_the_lines_on_the_pages_print_what_the_pages_say(self):
        for page in ("README.md", "docs/HOSTS.md"):
            with self.subTest(page):
                lines, printed = example_of(page)
                server = self.serve(answer(503), answer(200, b'{"weather":"fair"}'))
                words = [sys.executable, "-c", lines.replace("http://127.0.0.1:8080", server.url)]
                pipes = {"stdout": subprocess.PIPE, "stderr": subprocess.STDOUT, "text": True}
                where = {"cwd": self.folder, "env": environment()}
                ran = subprocess.run(words, check=False, **pipes, **where)
                self.assertEqual(without_pauses(ran.stdout), without_pauses(printed))
                self.assertEqual(len(server.seen), 2)

    def test_recorded_runs_are_readable_by_their_owner_alone(self):
        self.asked(self.engine(self.client(self.serve())))
        mode = stat.S_IMODE(self.recording.files[0].stat().st_mode)
        self.assertEqual(mode, 0o600)

    def test_a_run_that_used_its_questions_up_is_unfinished_and_has_no_record(self):
        engine = self.engine(self.client(self.serve()), fuel=20)
        with self.assertRaises(wishqoram.Unfinished):
            self.asked(engine)
        self.check_recorded(0)

    def test_a_request_that_is_too_long_for_a_line_is_refused_and_harms_nothing(self):
        engine = self.engine(self.client(self.serve()))
        with self.assertRaises(wishqoram.Refused):
            self.asked(engine, "GET", "/x", {"x-long": "x" * 2**24})
        self.assertEqual(self.asked(engine).body, OK)

    def test_decisions_are_logged(self):
        engine = self.engine(self.client(self.serve(answer(503))))
        self.recording.end()
        with self.assertLogs("wishqoram", "INFO") as logged:
            self.asked(engine)
        first, *_, last = logged.output
        decision = "a: attempt 1: TransientError: retry after .* s, paid 10 tokens, 490 of 500 left"
        self.assertRegex(first, decision)
        self.assertRegex(last, r"a: Ok after 2 requests")

    def test_what_no_engine_can_be_made_of_is_refused_with_its_reason(self):
        bucket = wishqoram.Bucket(capacity=500_000_001)
        with self.assertRaisesRegex(wishqoram.ProgramEnded, "ended with 6: .*above the limit of a capacity"):
            Engine({"a": Client("http://localhost")}, {"b": bucket}, program=path())
        with self.assertRaises(wishqoram.ProgramNotFound):
            Engine({"a": Client("http://localhost")}, program="/no/such/program")
        with self.assertRaises(ValueError):
            Engine({"a": Client("http://localhost", bucket="none")}, program=path())
        with self.assertRaises(ValueError):
            Client("http://localhost", seats=0)
