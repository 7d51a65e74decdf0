#!/usr/bin/env python3
"""Counts what `smithy_replay serve` takes for a run: instructions, by callgrind, and memory.

    bench/serve.py [PROGRAM]

A host says the lines of so many runs in one conversation over a pipe, and waits for the answer to
each line. What a conversation without runs takes is left out. The program is PROGRAM, or the one
that ./smithy_replay runs. Where that isn't proved it has checks of memory, and its instructions
aren't counted. It needs valgrind, strip and time.
"""
import json
import math
import pathlib
import re
import subprocess
import sys
import tempfile
from typing import Any, Iterator, List, NamedTuple

from compare import has_checks, measured_program, output, what_it_is, without_symbols

TOP = pathlib.Path(__file__).resolve().parent.parent
SECOND = 10**9
STEP = 10**5
FUEL = 1000
COUNTS = [100, 1000, 10000]
LAST = (b'["opened"', b'["park"', b'["done"', b'["refused"', b'["end"]')
CACHE = ["lazy", [10 * SECOND, 900 * SECOND, 64, None]]
SIGNED = [["key"], ["key"], [["key", 0, ["", None]]], None, CACHE]
REQUEST = ["POST", "/today", [["content-type", "application/json"]], '{"city":"Rome"}']
HEAD = [["content-type", "application/json"], ["content-length", "18"]]
OUTPUT = '{"weather":"fair"}'


class Kind(NamedTuple):
    """A kind of run, and how many of them make a conversation."""

    name: str
    counts: List[int]
    auth: Any = "none"
    fails_first: bool = False
    is_logged: bool = False


KINDS = [
    Kind("one attempt", COUNTS),
    Kind("one attempt, signed by a kept identity", COUNTS[:2], auth=SIGNED),
    Kind("one attempt, the log told", COUNTS[:2], is_logged=True),
    Kind("two attempts", COUNTS[:2], fails_first=True),
]


def description(kind: Kind) -> Any:
    """The first line: a client with the settings that the hosts give one, and a read deadline."""
    client = {
        **{"service": "forecast", "operation": "operation", "bucket": 0, "prefix": None},
        "retry": ["Standard", 3, SECOND, 20 * SECOND, "ReconnectOnTransientError", False, None],
        "timeouts": [None, 5 * SECOND, None, None],
        "url": "http://127.0.0.1:8080",
        **{"sleep": True, "time": True, "poisoning": True, "enforce": False, "v2": True},
        "stall": None,
        "classifiers": ["modeled", "transient", ["status", [500, 502, 503, 504]]],
        "auth": kind.auth,
    }
    errors = [[429, [], None, "throttle"]]
    seat = {"client": client, "errors": errors, "retry_after": None, "seed": 7}
    return {"buckets": [[500, 5, 5, 10, 10000, 0]], "start": 0, "clients": [seat]}


def response(call: int, status: int, body: str) -> List[Any]:
    """The events of a whole response."""
    return [["response", call, status, HEAD], ["data", call, body], ["end", call]]


def conversation(kind: Kind, count: int) -> Iterator[Any]:
    """What a host says for so many runs, a tenth of a millisecond apart from each other."""
    yield description(kind)
    payload = [1, json.dumps(REQUEST, separators=(",", ":"))]
    now = call = 0
    for run in range(count):
        now += STEP
        yield ["invoke", 0, now, payload, FUEL, "None", kind.is_logged]
        if kind.auth != "none" and run == 0:
            yield ["at", 0, now, [["identity", "key", ["secret", None]]]]
        if kind.fails_first:
            yield ["at", 0, now, response(call, 503, "busy")]
            now += SECOND  # the backoff is over
            yield ["at", 0, now, []]
            call += 1
        yield ["at", 0, now + 1000, response(call, 200, OUTPUT)]
        call += 1


def hold(words: List[str], kind: Kind, count: int) -> str:
    """Has a command hold this conversation, and answers by what it says on standard error."""
    pipes = {"stdin": subprocess.PIPE, "stdout": subprocess.PIPE, "stderr": subprocess.PIPE}
    with subprocess.Popen(words, **pipes) as child:
        ended = 0
        for line in conversation(kind, count):
            child.stdin.write(json.dumps(line, separators=(",", ":")).encode() + b"\n")
            child.stdin.flush()
            last = b""
            while not last.startswith(LAST):
                last = child.stdout.readline() or sys.exit(f"serve: no answer to {line}")
            ended += last.startswith(b'["done"') and b'["Ok"' in last
        child.stdin.close()
        said = child.stderr.read().decode()
    if ended != count or child.returncode != 0:
        sys.exit(f"serve: {ended} of {count} runs ended Ok, and the status is {child.returncode}")
    return said


def instructions(program: str, kind: Kind, count: int) -> float:
    """The instructions of a conversation; not a number where the program has checks of memory."""
    if has_checks(program):
        return math.nan
    with tempfile.TemporaryDirectory() as folder:
        copy = without_symbols(program, pathlib.Path(folder) / "counted")
        words = ["valgrind", "--tool=callgrind", "--callgrind-out-file=/dev/null", copy, "serve"]
        said = hold(words, kind, count)
    found = re.search(r"Collected : (\d+)", said)
    return int(found[1]) if found else sys.exit(f"serve: callgrind counted nothing:\n{said}")


def memory(program: str, kind: Kind, count: int) -> int:
    """The greatest memory of a conversation, in KB."""
    return int(hold(["/usr/bin/time", "-f", "%M", program, "serve"], kind, count).split()[-1])


def main() -> None:
    program = measured_program()
    commit = output(["git", "-C", str(TOP), "rev-parse", "--short", "HEAD"])
    print(f"{what_it_is(program)} Commit {commit}.\n")
    print("| a run | runs | instructions a run | to the first | greatest memory, KB |")
    print("|---|---|---|---|---|")
    for kind in KINDS:
        none = instructions(program, kind, 0)
        first = math.nan
        for count in kind.counts:
            spent = (instructions(program, kind, count) - none) / count
            first = spent if math.isnan(first) else first
            cells = [kind.name, count, f"{spent:.0f}", f"{spent / first:.3f}"]
            cells.append(memory(program, kind, count))
            print("| " + " | ".join(map(str, cells)) + " |", flush=True)


if __name__ == "__main__":
    main()
