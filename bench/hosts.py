#!/usr/bin/env python3
"""What a call through the engine takes, by the hosts of hosts/python and hosts/rust, beside boto3
in its standard mode, and beside a bare request of urllib3 and of ureq. All send the same request to
one server on this machine.

    bench/hosts.py [--program PATH] [--calls N] [--runs N]

The hosts start PATH, or the proved program where none is said. The first table times a call: all
make theirs in turn, so that other work on the machine hits all alike. In the second 8 threads share
the runs, and a host has 8 seats. The third has a server that answers the first two requests of each
run by 503: what is sent, and how long is waited in between. It takes a minute, or two on a busy
machine.

It needs boto3, urllib3 and cargo, and Debian's packages librust-ureq-dev and
librust-serde-json-dev.
"""
import argparse
import ctypes
import multiprocessing
import os
import pathlib
import platform
import statistics
import subprocess
import sys
import threading
import time
from typing import Any, Callable, Dict, List, NamedTuple, Optional, Sequence

TOP = pathlib.Path(__file__).resolve().parent.parent
PROVED = TOP / "crates/smithy_replay/out/smithy_replay"
RUST_HOST = TOP / "hosts/rust"
sys.path[:0] = [str(TOP / "hosts/python"), str(TOP / "bench")]
for name in ("AWS_CONFIG_FILE", "AWS_SHARED_CREDENTIALS_FILE"):
    os.environ[name] = os.devnull  # boto3 reads no settings of this machine

import boto3  # noqa: E402
import botocore  # noqa: E402
import urllib3  # noqa: E402
from botocore.config import Config  # noqa: E402

from local_server import FAILING, FINE, INVOCATION, serve  # noqa: E402
from wishqoram import Client, Engine, Request, SdkError  # noqa: E402

SEATS = 8
FAILED_RUNS = 24  # a bucket of 500 tokens pays for their retries
WARM_UP = 20
BODY = b"{}"
HEADERS = {
    "content-type": "application/x-amz-json-1.0",
    "x-amz-target": "DynamoDB_20120810.ListTables",
}


class Took(NamedTuple):
    """What some runs took by the clock, and how many of them ended with an output."""

    seconds: float
    succeeded: int


class Caller:
    """One way to make calls, by processes that measure themselves."""

    name = ""
    host = 0
    """The process that calls."""
    engine: Optional[int] = None
    """The engine's process, where there is one."""

    def runs(self, path: str, count: int = 1, threads: int = 1) -> Took:
        """Makes so many runs by so many threads."""
        raise NotImplementedError

    def close(self) -> None:
        """Ends what was started."""


class InThisProcess(Caller):
    """A caller in Python. Each of its calls says whether it ended with an output."""

    def __init__(self) -> None:
        self.host = os.getpid()
        self._begun = 0
        self._lock = threading.Lock()

    def call(self, path: str) -> bool:
        raise NotImplementedError

    def runs(self, path: str, count: int = 1, threads: int = 1) -> Took:
        left, ended = iter(range(count)), []

        def work() -> None:
            for _ in left:
                ended.append(self.call(path))

        began = time.perf_counter()
        if threads == 1:
            work()
        else:
            do_in_threads(work, threads)
        return Took(time.perf_counter() - began, sum(ended))

    def headers(self) -> Dict[str, str]:
        """Those of a new run."""
        with self._lock:
            self._begun += 1
            return {**HEADERS, INVOCATION: f"{self.name} {self._begun}"}


def do_in_threads(work: Callable[[], None], threads: int) -> None:
    """Does this in so many threads, to its end."""
    workers = [threading.Thread(target=work) for _ in range(threads)]
    for worker in workers:
        worker.start()
    for worker in workers:
        worker.join()


class Urllib3(InThisProcess):
    name = "urllib3 alone"

    def __init__(self, url: str, seats: int):
        super().__init__()
        self._url = url
        self._pool = urllib3.PoolManager(maxsize=seats, retries=False)

    def call(self, path: str) -> bool:
        address = self._url + path
        response = self._pool.request("POST", address, body=BODY, headers=self.headers())
        return response.status == 200 and bool(response.data)


class Boto3(InThisProcess):
    name = "boto3, standard mode"

    def __init__(self, url: str, seats: int):
        super().__init__()
        settings = Config(
            retries={"mode": "standard", "total_max_attempts": 3},
            signature_version=botocore.UNSIGNED,
            max_pool_connections=seats,
        )
        self._clients = {
            path: boto3.client("dynamodb", "eu-west-1", endpoint_url=url + path, config=settings)
            for path in (FINE, FAILING)
        }

    def call(self, path: str) -> bool:
        try:
            return self._clients[path].list_tables()["TableNames"] == []
        except botocore.exceptions.ClientError:
            return False


class PythonHost(InThisProcess):
    name = "the host in Python"

    def __init__(self, url: str, seats: int, program: str):
        super().__init__()
        self._engine = Engine({"tables": Client(url, seats=seats)}, program=program)
        self.engine = self._engine.process_id

    def call(self, path: str) -> bool:
        try:
            request = Request("POST", path, self.headers(), BODY)
            return bool(self._engine.invoke("tables", request).body)
        except SdkError:
            return False

    def close(self) -> None:
        self._engine.close()


class RustCaller(Caller):
    """The example `timed` of hosts/rust, which calls by the engine or without it."""

    def __init__(self, url: str, seats: int, program: str, way: str):
        self.name = {"engine": "the host in Rust", "bare": "ureq alone"}[way]
        self._way = way
        pipes = {"stdin": subprocess.PIPE, "stdout": subprocess.PIPE, "text": True}
        self._child = subprocess.Popen([built(), program, url, str(seats)], **pipes)
        self.host = self._child.pid
        engine = int(self._line())
        self.engine = engine if way == "engine" else None

    def runs(self, path: str, count: int = 1, threads: int = 1) -> Took:
        self._child.stdin.write(f"{self._way} {path} {count} {threads}\n")
        self._child.stdin.flush()
        ns, ended = self._line().split()
        return Took(int(ns) / 1e9, int(ended))

    def _line(self) -> str:
        line = self._child.stdout.readline()
        if not line:
            sys.exit(f"hosts: the example `timed` ended with status {self._child.wait()}")
        return line

    def close(self) -> None:
        self._child.communicate()


class Server:
    """The server, a process of its own, and what it saw."""

    def __init__(self) -> None:
        self._pipe, given = multiprocessing.Pipe()
        self._process = multiprocessing.Process(target=serve, args=(given,), daemon=True)
        self._process.start()
        self.url = f"http://127.0.0.1:{self._pipe.recv()}"

    def seen(self) -> List[List[float]]:
        """The moments at which the attempts of each run came, since it was last asked."""
        self._pipe.send("seen")
        return self._pipe.recv()

    def close(self) -> None:
        self._process.terminate()
        self._process.join()


def built() -> str:
    """The example `timed`."""
    return str(RUST_HOST / "target/release/examples/timed")


def build() -> None:
    words = ["cargo", "build", "--release", "--offline", "--quiet", "--no-default-features"]
    target = {**os.environ, "CARGO_TARGET_DIR": str(RUST_HOST / "target")}
    subprocess.run([*words, "--example", "timed"], cwd=RUST_HOST, env=target, check=True)


def processor_time(process: Optional[int]) -> float:
    """The seconds of processors that a process and its threads had."""
    if process is None:
        return 0.0
    clock = ctypes.c_int()
    if ctypes.CDLL(None).clock_getcpuclockid(process, ctypes.byref(clock)):
        sys.exit(f"hosts: there is no process {process}")
    return time.clock_gettime(clock.value)


class Measured(NamedTuple):
    """What some runs took: by the clock, and in seconds of processors."""

    took: Took
    host: float
    engine: float


def measured(caller: Caller, path: str, count: int = 1, threads: int = 1) -> Measured:
    before = [processor_time(process) for process in (caller.host, caller.engine)]
    took = caller.runs(path, count, threads)
    after = [processor_time(process) for process in (caller.host, caller.engine)]
    return Measured(took, after[0] - before[0], after[1] - before[1])


def greatest_memory(process: Optional[int]) -> str:
    """The greatest memory of a process, in KB."""
    if process is None:
        return "-"
    lines = pathlib.Path(f"/proc/{process}/status").read_text().splitlines()
    return next(line.split()[1] for line in lines if line.startswith("VmHWM"))


def started(url: str, seats: int, program: str) -> List[Caller]:
    """All callers, each with so many connections or seats."""
    return [
        Urllib3(url, seats),
        Boto3(url, seats),
        PythonHost(url, seats, program),
        RustCaller(url, seats, program, "bare"),
        RustCaller(url, seats, program, "engine"),
    ]


def close(callers: Sequence[Caller]) -> None:
    for caller in callers:
        caller.close()


def table(*columns: str) -> None:
    print("\n| " + " | ".join(columns) + " |\n|" + "---|" * len(columns))


def row(*cells: Any) -> None:
    print("| " + " | ".join(str(cell) for cell in cells) + " |", flush=True)


def ms(seconds: float) -> str:
    return f"{1000 * seconds:.2f}"


def time_calls(server: Server, callers: Sequence[Caller], count: int) -> None:
    """Prints what a call takes: all callers make theirs in turn."""
    calls: Dict[str, List[Measured]] = {caller.name: [] for caller in callers}
    for turn in range(WARM_UP + count):
        for caller in callers:
            call = measured(caller, FINE)
            if not call.took.succeeded:
                sys.exit(f"hosts: a call by {caller.name} failed")
            if turn >= WARM_UP:
                calls[caller.name].append(call)
    columns = ["median, ms", "p99, ms", "to that alone", "caller's processor, ms"]
    table(f"a call, of {count} in turn", *columns, "engine's processor, ms")
    alone = 0.0
    for name, made in calls.items():
        seconds = sorted(call.took.seconds for call in made)
        median, last = statistics.median(seconds), seconds[-1 - count // 100]
        alone = median if name.endswith("alone") else alone
        host, engine = (statistics.mean(spent) for spent in list(zip(*made))[1:])
        row(name, ms(median), ms(last), f"{median / alone:.2f}", ms(host), ms(engine))
    server.seen()


def time_threads(server: Server, callers: Sequence[Caller], count: int) -> None:
    """Prints what so many runs by 8 threads take."""
    columns = ["ended Ok", "requests", "s", "caller's processor, ms a run"]
    columns += ["engine's processor, ms a run", "engine's greatest memory, KB"]
    table(f"{count} runs by {SEATS} threads", *columns)
    for caller in callers:
        caller.runs(FINE, WARM_UP * SEATS, SEATS)
        server.seen()
        runs = measured(caller, FINE, count, SEATS)
        requests = sum(len(moments) for moments in server.seen())
        spent = [ms(runs.host / count), ms(runs.engine / count)]
        memory = greatest_memory(caller.engine)
        row(caller.name, runs.took.succeeded, requests, f"{runs.took.seconds:.2f}", *spent, memory)


def time_retries(server: Server, callers: Sequence[Caller]) -> None:
    """Prints how often each sends where the first two attempts of a run get 503, and how long it
    waits before the second and the third one."""
    columns = ["ended Ok", "requests a run", "first gap, s", "second gap, s"]
    table(f"{FAILED_RUNS} runs by {SEATS} threads", *columns)
    for caller in callers:
        took = caller.runs(FAILING, FAILED_RUNS, SEATS)
        seen = server.seen()
        requests = sum(len(moments) for moments in seen) / FAILED_RUNS
        gaps = [spread([of[n + 1] - of[n] for of in seen if len(of) > n + 1]) for n in (0, 1)]
        row(caller.name, took.succeeded, f"{requests:.2f}", *gaps)


def spread(gaps: List[float]) -> str:
    """The least, the middle and the greatest gap."""
    if not gaps:
        return "-"
    return f"{min(gaps):.2f}, {statistics.median(gaps):.2f}, {max(gaps):.2f}"


def program_of(given: Optional[str]) -> str:
    """The path of the program that is measured."""
    if given is None and not PROVED.exists():
        sys.exit("hosts: no proved program is built: run ./smithy_replay --prove, or say --program")
    return str(pathlib.Path(given or PROVED).resolve())


def what_it_is(path: str) -> str:
    """What is said of the program that is measured."""
    commit = ["git", "-C", str(TOP), "rev-parse", "--short", "HEAD"]
    at = subprocess.run(commit, stdout=subprocess.PIPE, text=True, check=False).stdout.strip()
    state = "The proved program" if path == str(PROVED) else "Not known to be proved"
    load = os.getloadavg()[0]
    return f"{state}, `{path}`, commit {at}. Load {load:.0f} on {os.cpu_count()} processors."


def main() -> None:
    parser = argparse.ArgumentParser(description=__doc__.split("\n\n")[0])
    parser.add_argument("--program", help="the path of smithy_replay")
    parser.add_argument("--calls", type=int, default=500, help="calls of each that are timed")
    parser.add_argument("--runs", type=int, default=1000, help="runs by 8 threads")
    words = parser.parse_args()
    program = program_of(words.program)
    server = Server()
    build()
    print(what_it_is(program))
    python, boto = platform.python_version(), boto3.__version__
    print(f"Python {python}, boto3 {boto}, urllib3 {urllib3.__version__}.")
    callers = started(server.url, 1, program)
    time_calls(server, callers, words.calls)
    close(callers)
    callers = started(server.url, SEATS, program)
    time_threads(server, callers, words.runs)
    time_retries(server, callers)
    close(callers)
    server.close()


if __name__ == "__main__":
    main()
