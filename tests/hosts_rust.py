"""Drives the engine by the Rust host of hosts/rust, over real connections.

The crate is built once, offline, without TLS. Its example `calls` is the caller. A server on
127.0.0.1 fails as each test tells it to. Every run that ends is recorded: `check` has to say yes to
it, and `replay` has to print the same again.

It needs cargo and two packages of Debian: `apt-get install cargo-web librust-ureq-dev
librust-serde-json-dev`. Where they aren't there the tests fail, unless the environment has
WISHQORAM_WITHOUT_RUST=1: then they are skipped.
"""
import functools
import json
import os
import pathlib
import re
import shutil
import signal
import socket
import stat
import subprocess
import tempfile
import textwrap
import threading
import time
import unittest
from typing import Any, Callable, Dict, List, Optional

from .support.flaky_server import OK, Act, Handler, Server, accept_token, answer, cut, drip, stall
from .support.program import TOP, ProgramTest, path

HOST = TOP / "hosts/rust"
REGISTRY = pathlib.Path("/usr/share/cargo/registry")
PACKAGES = {"ureq": "librust-ureq-dev", "serde_json": "librust-serde-json-dev"}
WITHOUT = "WISHQORAM_WITHOUT_RUST"

PATIENCE = 120.0  # seconds after which a call is given up, and its test fails
MEGABYTE = b"0123456789abcde\n" * 65536
SECRET = "a token & more"


def missing() -> Optional[str]:
    """What has to be installed, where something has to be."""
    lacking = [name for crate, name in PACKAGES.items() if not any(REGISTRY.glob(f"{crate}-*"))]
    if shutil.which("cargo") is None:
        lacking.insert(0, "cargo-web")
    return f"the Rust host isn't built: apt-get install {' '.join(lacking)}" if lacking else None


@functools.lru_cache(maxsize=None)
def built() -> pathlib.Path:
    """The folder of the examples, which are built first."""
    words = ["cargo", "build", "--offline", "--no-default-features", "--examples"]
    target = HOST / "target/tests"
    lean = {"CARGO_TARGET_DIR": str(target), "CARGO_PROFILE_DEV_DEBUG": "0"}
    pipes = {"stdout": subprocess.PIPE, "stderr": subprocess.STDOUT, "text": True}
    environment = {**os.environ, **lean, "CARGO_INCREMENTAL": "0"}
    ran = subprocess.run(words, cwd=HOST, env=environment, check=False, **pipes)
    if ran.returncode != 0:
        raise AssertionError(f"cargo ends with {ran.returncode}:\n{ran.stdout}")
    return target / "debug/examples"


def is_running(process: int) -> bool:
    """Whether there is such a process, and it isn't one that only its parent's look is missing."""
    try:
        status = pathlib.Path(f"/proc/{process}/stat").read_text()
    except FileNotFoundError:
        return False
    return status.rpartition(")")[2].split()[0] != "Z"


def until(what: Callable[[], Any], seconds: float = PATIENCE) -> bool:
    """Whether this comes true within so many seconds."""
    end = time.monotonic() + seconds
    while not what():
        if time.monotonic() > end:
            return False
        time.sleep(0.02)
    return True


class Caller:
    """The example `calls`, while it runs."""

    def __init__(self, words: List[str]):
        pipes = {"stdin": subprocess.PIPE, "stdout": subprocess.PIPE, "stderr": subprocess.PIPE}
        self.process = subprocess.Popen(words, text=True, **pipes)
        first = self.process.stdout.readline()
        self.engine: int = json.loads(first)["process"] if first else 0
        """The engine's process."""
        self.said = ""
        """What it wrote on standard error."""

    def end(self) -> List[Dict[str, Any]]:
        """What came of the calls, once it ended by itself."""
        printed, self.said = self.process.communicate(timeout=2 * PATIENCE)
        return [json.loads(line) for line in printed.splitlines()]

    def say(self) -> None:
        """A line, which has it cancel its calls, or close its engine."""
        self.process.stdin.write("\n")
        self.process.stdin.flush()

    def stop(self) -> None:
        self.process.kill()
        self.process.communicate()


class HostTest(ProgramTest):
    """A test with a server and a caller, whose runs are recorded."""

    def setUp(self) -> None:
        lacking = missing()
        if lacking and os.environ.get(WITHOUT):
            self.skipTest(lacking)
        if lacking:
            self.fail(f"{lacking} (or set {WITHOUT}=1 to skip this)")
        self.examples = built()
        folder = tempfile.TemporaryDirectory()
        self.addCleanup(folder.cleanup)
        self.folder = pathlib.Path(folder.name)

    def serve(self, *script: Act) -> Server:
        server = Server(script)
        server.__enter__()
        self.addCleanup(server.__exit__)
        return server

    def caller(self, url: str, *words: str, **settings: Any) -> Caller:
        """A caller whose pauses are some milliseconds."""
        told = {"url": url, "program": str(path()), "record": str(self.recorded)}
        told.update({"backoff": 0.005, "timeout": PATIENCE}, **settings)
        given = words or ("GET", "/x")
        caller = Caller([str(self.examples / "calls"), json.dumps(told), *given])
        self.addCleanup(caller.stop)
        return caller

    def calls(self, server: Server, *words: str, **settings: Any) -> List[Dict[str, Any]]:
        return self.caller(server.url, *words, **settings).end()

    def call(self, server: Server, *words: str, **settings: Any) -> Dict[str, Any]:
        """What came of one call."""
        (outcome,) = self.calls(server, *words, **settings)
        return outcome

    @property
    def recorded(self) -> pathlib.Path:
        return self.folder / "runs"

    def check_recorded(self, runs: int) -> List[str]:
        """Checks that so many runs were recorded, and what the program says of each."""
        files = sorted(self.recorded.iterdir())
        self.assertEqual(len(files), runs)
        for file in files:
            text = file.read_bytes()
            self.assertEqual(self.output(path(), "check", text=text), b'["yes"]\n')
            script = self.output(self.examples / "calls", "script", file)
            self.assertEqual(self.output(path(), "replay", text=script), text)
        return [file.read_text() for file in files]

    def output(self, *words: Any, text: bytes = b"") -> bytes:
        pipes = {"stdout": subprocess.PIPE, "stderr": subprocess.DEVNULL}
        return subprocess.run(list(map(str, words)), input=text, check=False, **pipes).stdout


def cut_chunk(body: bytes) -> Act:
    """A body in chunks that breaks off in the middle of one."""

    def act(handler: Handler) -> None:
        begin_chunks(handler)
        handler.wfile.write(b"%x\r\n%s" % (len(body) + 1, body))
        handler.close_connection = True

    return act


def chunks(*pieces: bytes) -> Act:
    """A whole body in chunks."""

    def act(handler: Handler) -> None:
        begin_chunks(handler)
        for piece in (*pieces, b""):
            handler.wfile.write(b"%x\r\n%s\r\n" % (len(piece), piece))

    return act


def begin_chunks(handler: Handler) -> None:
    handler.send_response(200)
    handler.send_header("transfer-encoding", "chunked")
    handler.end_headers()


def cut_and_closed(body: bytes, length: int) -> Act:
    """A body that breaks off, of a response that says that its connection is closed."""

    def act(handler: Handler) -> None:
        handler.head(200, length, {"connection": "close"})
        handler.wfile.write(body)

    return act


class RetryTest(HostTest):
    def test_after_503_twice_the_third_request_is_answered(self):
        server = self.serve(answer(503), answer(503, b"busy"))
        headers = {"X-One": "1"}
        outcome = self.call(server, "POST", "/x?y=1", "hi", headers=headers)
        self.assertEqual((outcome["status"], outcome["attempts"]), (200, 3))
        self.assertEqual(outcome["body"].encode(), OK)
        sent = [(seen.method, seen.path, seen.body) for seen in server.seen]
        self.assertEqual(sent, [("POST", "/x?y=1", b"hi")] * 3)
        self.assertEqual({seen.headers["x-one"] for seen in server.seen}, {"1"})
        self.check_recorded(1)

    def test_after_503_each_time_the_last_response_is_told(self):
        outcome = self.call(self.serve(*[answer(503, b"busy")] * 3))
        self.assertEqual(outcome["error"], "ServiceError")
        told = (outcome["status"], outcome["body"], outcome["attempts"])
        self.assertEqual(told, (503, "busy", 3))
        self.check_recorded(1)

    def test_a_response_that_stalls_is_given_up_after_the_read_deadline(self):
        # the second request goes over a kept connection, whose deadline has to be set anew
        server = self.serve(answer(200), stall())
        first, second = self.calls(server, read_timeout=2.5, attempts=9, calls=2)
        self.assertEqual(first["attempts"], 1)
        self.assertGreaterEqual(second["attempts"], 2)
        self.assertEqual(server.seen[0].port, server.seen[1].port)
        text = self.check_recorded(2)[1]
        self.assertIn('["Failed","Timeout","no byte for 2.5 s"]', text)

    def test_a_connection_that_does_not_come_is_given_up_after_the_connect_deadline(self):
        with socket.socket() as full:
            full.bind(("127.0.0.1", 0))
            full.listen(0)
            for _ in range(4):  # more than the system keeps for a listener that takes none
                waiting = socket.socket()
                self.addCleanup(waiting.close)
                waiting.setblocking(False)
                waiting.connect_ex(full.getsockname())
            url = f"http://127.0.0.1:{full.getsockname()[1]}"
            (outcome,) = self.caller(url, no_retry=True, connect_timeout=0.3).end()
        self.assertEqual(outcome["error"], "DispatchFailure")
        self.assertEqual(outcome["detail"], "Timeout")
        self.assertEqual(outcome["text"], "Connector (Timeout): no connection after 0.3 s")
        self.check_recorded(1)

    def test_a_connection_that_is_refused_is_a_failure_to_dispatch(self):
        server = self.serve()
        server.__exit__()
        outcome = self.call(server, no_retry=True)
        told = (outcome["error"], outcome["kind"], outcome["detail"])
        self.assertEqual(told, ("DispatchFailure", "Connector", "Io"))
        self.assertIsNotNone(outcome["cause"])
        self.check_recorded(1)

    def test_a_body_that_breaks_off_is_asked_for_again(self):
        half = MEGABYTE[:500_000]
        acts = {
            "by its length": cut(half, len(MEGABYTE)),
            "in a chunk": cut_chunk(half),
            "on a connection that is closed": cut_and_closed(half, len(MEGABYTE)),
        }
        for name, act in acts.items():
            with self.subTest(name):
                server = self.serve(cut(b"one", 9), act, answer(200, MEGABYTE))
                outcome = self.call(server)
                self.assertEqual((outcome["size"], outcome["attempts"]), (len(MEGABYTE), 3))
        self.check_recorded(3)

    def test_a_body_in_chunks_is_whole_behind_its_last_one(self):
        server = self.serve(chunks(b"one", b"two"))
        first, second = self.calls(server, calls=2)
        self.assertEqual((first["body"], first["attempts"]), ("onetwo", 1))
        self.assertEqual(second["attempts"], 1)
        self.assertEqual(server.seen[0].port, server.seen[1].port)

    def test_a_body_that_drips_is_ended_by_the_guard_of_stalled_streams(self):
        # meanwhile the host closes the connection, of which the engine is told nothing: it would
        # ask until its questions are used up
        server = self.serve(drip(b"x" * 30, 30))
        pause = {"backoff": 0.3, "static_base": True, "attempts": 9, "fuel": 5000}
        outcome = self.call(server, stall_grace=0.2, **pause)
        self.assertEqual(outcome.get("body"), OK.decode())
        self.assertGreaterEqual(outcome["attempts"], 2)
        self.assertIn("minimum throughput was specified at 1 B/s", self.check_recorded(1)[0])

    def test_a_head_that_is_not_that_of_a_response_is_a_failure_to_dispatch(self):
        outcome = self.call(self.serve(answer(200, OK, x_odd="a\x01b")))
        self.assertEqual(outcome["error"], "DispatchFailure")
        self.check_recorded(1)

    def test_429_is_throttling_and_its_retry_after_is_not_waited_for(self):
        server = self.serve(answer(429, retry_after="50"))
        began = time.monotonic()
        self.assertEqual(self.call(server)["attempts"], 2)
        self.assertLess(time.monotonic() - began, 40)
        text = self.check_recorded(1)[0]
        self.assertIn('["RetryIndicated","ThrottlingError",null]', text)

    def test_a_pause_that_a_header_names_is_waited_for_where_the_client_says_so(self):
        server = self.serve(answer(429, retry_after="2"))
        began = time.monotonic()
        self.assertEqual(self.call(server, retry_after="Retry-After", unit=1)["attempts"], 2)
        self.assertGreater(time.monotonic() - began, 2)
        text = self.check_recorded(1)[0]
        self.assertIn('["RetryIndicated","ThrottlingError",2000000000]', text)

    def test_rules_name_errors_by_status_and_a_word_of_the_body(self):
        server = self.serve(answer(400, b"<Code>SlowDown</Code>"), answer(200, b"failed"))
        rules = [[400, "throttle", "SlowDown"], [200, "failed", "failed"]]
        outcome = self.call(server, errors=rules)
        self.assertEqual((outcome["text"], outcome["attempts"]), ("status 200 (failed)", 2))
        self.check_recorded(1)


class SeatTest(HostTest):
    def test_a_bucket_ends_the_retries_of_two_clients_with_four_seats_each(self):
        server = self.serve(*[answer(503)] * 99)
        outcomes = self.calls(server, bucket=120, threads=8, clients=2, seats=4, sums=True)
        self.assertEqual(outcomes.pop(), {"bucket": "b", "available": 0})
        self.assertEqual([outcome["error"] for outcome in outcomes], ["ServiceError"] * 8)
        self.assertEqual(len(server.seen), 8 + 120 // 10)
        self.check_recorded(8)

    def test_eight_seats_have_their_runs_at_once(self):
        together = threading.Barrier(8)

        def act(handler: Handler) -> None:
            together.wait(PATIENCE)
            answer(200, OK)(handler)

        outcomes = self.calls(self.serve(*[act] * 8), threads=8, seats=8)
        self.assertEqual([outcome["attempts"] for outcome in outcomes], [1] * 8)
        self.check_recorded(8)

    def test_the_runs_of_one_seat_go_one_after_the_other(self):
        open_ones, most = [], []

        def act(handler: Handler) -> None:
            open_ones.append(handler)
            most.append(len(open_ones))
            time.sleep(0.05)
            open_ones.remove(handler)
            answer(200, OK)(handler)

        outcomes = self.calls(self.serve(*[act] * 6), threads=6)
        self.assertEqual([outcome["attempts"] for outcome in outcomes], [1] * 6)
        self.assertEqual(max(most), 1)

    def test_the_timeout_of_an_invocation_covers_the_wait_for_its_turn(self):
        outcomes = self.calls(self.serve(stall(), stall()), threads=2, timeout=1)
        self.assertEqual([outcome["error"] for outcome in outcomes], ["InvocationTimeout"] * 2)


class EndTest(HostTest):
    """Runs that end before a response is there."""

    def setUp(self) -> None:
        super().setUp()
        self.server = self.serve(stall())

    def asked(self, **settings: Any) -> Caller:
        """A caller whose request came. It stays until its outcomes are asked for."""
        caller = self.caller(self.server.url, stay=True, **settings)
        self.assertTrue(until(lambda: self.server.seen))
        self.assertTrue(is_running(caller.engine))
        return caller

    def assert_left(self) -> None:
        """Checks that the request that was open is dropped."""
        self.assertTrue(self.server.was_left.wait(PATIENCE))

    def assert_over(self, caller: Caller) -> None:
        """Checks that the request that was open is dropped, and that the engine's process ends."""
        self.assert_left()
        self.assertTrue(until(lambda: not is_running(caller.engine)))
        self.assertIsNone(caller.process.poll())

    def errors(self, caller: Caller) -> List[str]:
        outcomes = caller.end()
        self.assertEqual(len(self.server.seen), 1)
        self.assertFalse(is_running(caller.engine))
        return [outcome["error"] for outcome in outcomes]

    def test_the_deadline_of_the_operation_drops_the_call_that_is_open(self):
        caller = self.asked(operation_timeout=4)
        self.assert_left()
        self.assertEqual(self.errors(caller), ["TimeoutError"])
        self.check_recorded(1)

    def test_the_timeout_of_an_invocation_drops_the_call_that_is_open(self):
        caller = self.asked(timeout=5, calls=2)
        self.assert_left()
        first, second = caller.end()
        self.assertEqual((first["error"], second["status"]), ("InvocationTimeout", 200))
        self.check_recorded(1)

    def test_a_cancelled_invocation_drops_the_call_that_is_open(self):
        caller = self.asked(on_input="cancel", calls=2)
        caller.say()
        self.assert_left()
        self.assertEqual(self.errors(caller), ["Cancelled"] * 2)

    def test_the_end_of_the_engine_ends_its_runs_and_its_process(self):
        caller = self.asked(on_input="close", calls=2)
        caller.say()
        self.assert_over(caller)
        self.assertEqual(self.errors(caller), ["EngineClosed"] * 2)

    def test_a_killed_engine_ends_its_runs_with_a_clear_error(self):
        caller = self.asked(calls=2)
        os.kill(caller.engine, signal.SIGKILL)
        self.assert_over(caller)
        outcomes = caller.end()
        said = [(outcome["error"], outcome["text"]) for outcome in outcomes]
        self.assertEqual(said, [("ProgramEnded", "the engine's program ended by signal 9")] * 2)

    def test_a_killed_host_leaves_no_engine_behind(self):
        caller = self.asked()
        caller.stop()
        self.assertTrue(until(lambda: not is_running(caller.engine)))
        self.assert_left()


class ConnectionTest(HostTest):
    def ports(self, server: Server) -> List[int]:
        return [seen.port for seen in server.seen]

    def test_a_connection_is_used_again_unless_it_is_poisoned(self):
        server = self.serve(answer(200), answer(200), answer(503, b"busy"))
        self.calls(server, calls=3)
        first, second, failed, last = self.ports(server)
        self.assertEqual((first, second), (second, failed))
        self.assertNotEqual(failed, last)

    def test_where_connections_are_reused_a_failure_keeps_its_own(self):
        server = self.serve(answer(503, b"busy"))
        self.call(server, reuse=True)
        self.assertEqual(len(set(self.ports(server))), 1)

    def test_a_request_on_a_kept_connection_that_is_closed_is_sent_again_by_the_engine_alone(self):
        server = self.serve(answer(200), stall(0))
        first, second = self.calls(server, calls=2)
        self.assertEqual((first["attempts"], second["attempts"]), (1, 2))
        self.assertEqual(len(server.seen), 3)
        self.check_recorded(2)


class BodyTest(HostTest):
    def sent(self) -> str:
        file = self.folder / "sent"
        file.write_bytes(MEGABYTE)
        return str(file)

    def test_bodies_of_a_megabyte_go_both_ways_and_again(self):
        for body in ("file", "bytes"):
            with self.subTest(body):
                server = self.serve(answer(503), answer(200, MEGABYTE))
                outcome = self.call(server, "POST", "/x", file=self.sent(), body=body)
                self.assertEqual((outcome["size"], outcome["attempts"]), (len(MEGABYTE), 2))
                self.assertEqual([seen.body == MEGABYTE for seen in server.seen], [True, True])
        self.check_recorded(2)

    def test_a_body_that_can_be_sent_once_is_not_sent_again(self):
        server = self.serve(answer(503))
        outcome = self.call(server, "POST", "/x", file=self.sent(), body="once")
        self.assertEqual(outcome["error"], "ServiceError")
        self.assertEqual([seen.body == MEGABYTE for seen in server.seen], [True])
        self.check_recorded(1)

    def test_what_reading_a_body_fails_with_is_the_cause_of_the_failure(self):
        outcome = self.call(self.serve(), "POST", "/x", file=self.sent(), body="broken")
        told = (outcome["error"], outcome["detail"], outcome["cause"])
        self.assertEqual(told, ("DispatchFailure", "User", "no more"))
        self.check_recorded(1)

    def test_a_streamed_body_is_read_by_its_caller(self):
        server = self.serve(answer(200, MEGABYTE), answer(200, MEGABYTE))
        for outcome in self.calls(server, stream=True, calls=3):
            expected = (16384, len(MEGABYTE)) if outcome["size"] > 99 else (len(OK), len(OK))
            self.assertEqual((outcome["front"], outcome["size"]), expected)
        self.assertEqual(len({seen.port for seen in server.seen}), 1)
        self.check_recorded(3)

    def test_a_streamed_body_that_breaks_off_is_told_to_its_caller(self):
        server = self.serve(cut(MEGABYTE[:500_000], len(MEGABYTE)))
        self.assertEqual(self.call(server, stream=True)["error"], "Body")
        self.assertEqual(len(server.seen), 1)

    def test_of_a_watched_body_the_rest_is_read_but_not_asked_for_again(self):
        server = self.serve(answer(200, MEGABYTE), cut(MEGABYTE[:500_000], len(MEGABYTE)))
        first, second = self.calls(server, stall_grace=20, calls=2)
        self.assertEqual((first["size"], second["error"]), (len(MEGABYTE), "Body"))
        self.assertEqual(len(server.seen), 2)
        self.check_recorded(2)


class IdentityTest(HostTest):
    def test_after_401_a_new_token_is_asked_for(self):
        server = self.serve(accept_token("new"), accept_token("new"))
        rules = [[401, "transient"]]
        outcome = self.call(server, errors=rules, tokens=["old", "new"], no_cache=True)
        self.assertEqual(outcome["attempts"], 2)
        sent = [seen.headers["authorization"] for seen in server.seen]
        self.assertEqual(sent, ["Bearer old", "Bearer new"])
        self.check_recorded(1)

    def test_a_cached_token_is_loaded_once(self):
        server = self.serve()
        outcomes = self.calls(server, tokens=[SECRET], calls=3)
        self.assertEqual([outcome["status"] for outcome in outcomes], [200] * 3)
        sent = {seen.headers["authorization"] for seen in server.seen}
        self.assertEqual(sent, {f"Bearer {SECRET}"})

    def test_the_engine_does_not_see_a_secret_unless_it_may(self):
        for settings, sent in [
            ({}, f"Bearer {SECRET}"),
            ({"scheme": "header", "key": "X-Key"}, f"key {SECRET}"),
            ({"scheme": "query", "key": "key"}, "/x?key=a%20token%20%26%20more"),
            ({"scheme": "own"}, SECRET),
            ({"secrets": "engine"}, f"Bearer {SECRET}"),
        ]:
            with self.subTest(sent):
                server = self.serve()
                self.assertEqual(self.call(server, tokens=[SECRET], **settings)["status"], 200)
                seen = server.seen[0]
                self.assertIn(sent, [*seen.headers.values(), seen.path])
                recorded = sorted(self.recorded.iterdir())[-1].read_text()
                self.assertEqual(SECRET in recorded, "secrets" in settings)

    def test_what_a_source_fails_with_is_the_cause_of_the_error(self):
        outcome = self.call(self.serve(), no_tokens=True)
        self.assertEqual(outcome["cause"], "there are no more tokens, a secret says")
        self.assertNotIn("a secret says", self.check_recorded(1)[0])


class UseTest(HostTest):
    def test_the_lines_on_the_page_are_those_of_the_example_that_is_built(self):
        page = (TOP / "docs/HOSTS.md").read_text()
        blocks = re.findall(r"(?m)(?:^(?:    .*)?\n)+", page)
        blocks = [textwrap.dedent(block).strip("\n") for block in blocks if block.strip()]
        example = (HOST / "examples/forecast.rs").read_text()
        lines = [line for line in example.splitlines() if not line.startswith("//!")]
        self.assertIn("\n".join(lines).strip("\n"), blocks)
        self.assertTrue((self.examples / "forecast").exists())

    def test_recorded_runs_are_readable_by_their_owner_alone(self):
        self.call(self.serve())
        (file,) = self.recorded.iterdir()
        self.assertEqual(stat.S_IMODE(file.stat().st_mode), 0o600)
        self.assertEqual(stat.S_IMODE(self.recorded.stat().st_mode), 0o700)

    def test_a_run_that_used_its_questions_up_is_unfinished_and_has_no_record(self):
        self.assertEqual(self.call(self.serve(), fuel=20)["error"], "Unfinished")
        self.check_recorded(0)

    def test_a_request_that_is_too_long_for_a_line_is_refused(self):
        outcome = self.call(self.serve(), headers={"x-long": 2**24})
        self.assertEqual(outcome["error"], "Refused")

    def test_decisions_are_logged(self):
        caller = self.caller(self.serve(answer(503)).url, log=True)
        caller.end()
        first, *_, last = caller.said.splitlines()
        decision = "a: attempt 1: TransientError: retry after .* s, paid 10 tokens, 490 of 500 left"
        self.assertRegex(first, decision)
        self.assertEqual(last, "a: Ok after 2 requests")

    def test_what_no_engine_can_be_made_of_is_refused_with_its_reason(self):
        url = "http://localhost"
        for settings, reason in [
            ({"bucket": 500_000_001}, "ended with status 6: .*above the limit of a capacity"),
            ({"program": "/no/such/program"}, "no program: /no/such/program"),
            ({"bucket_name": "none"}, "there is no bucket none"),
        ]:
            caller = self.caller(url, **settings)
            self.assertEqual(caller.end(), [])
            self.assertRegex(caller.said, reason)
            self.assertEqual(caller.process.returncode, 1)
