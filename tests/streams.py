"""Runs the program over standard streams that fail, and over lists that nest deeply: each run ends
with a status of its own, and prints nothing but a front of what it prints where nothing fails.
"""
import json
import os
import resource
import subprocess
from typing import List, Optional, Tuple

from .support import program
from .support.program import EXAMPLES, TOP, WRAPPER, ProgramTest

SCRIPT = EXAMPLES / "teapot.json"
NO_SCRIPT, READ_FAULT, WRITE_FAULT, CHECK_NO = 2, 3, 4, 13
READERS = ["replay", "client", "fleet", "wait", "waiters"]
# Lists nest to this depth at most in a script.
DEEPEST = 127
SMALL_STACK = 256 * 1024

# The status of a run, and what it wrote where its output is a pipe.
Ended = Tuple[int, Optional[bytes]]


def run(words: List[str], **streams) -> Ended:
    """A run with no input, its output in a pipe, but for the streams that are given."""
    usual = {"stdout": subprocess.PIPE, "stderr": subprocess.DEVNULL, "check": False}
    if "input" not in streams:
        usual["stdin"] = subprocess.DEVNULL
    ended = subprocess.run([WRAPPER, *words], **{**usual, **streams})
    return ended.returncode, ended.stdout


def on_a_full_disk(*words: str) -> Ended:
    with open("/dev/full", "wb") as full, open(SCRIPT, "rb") as source:
        return run([*words], stdin=source, stdout=full)


def with_closed(number: int, *words: str) -> Ended:
    """A run that begins with this standard stream closed."""
    with open(SCRIPT, "rb") as source:
        return run([*words], stdin=source, preexec_fn=lambda: os.close(number))


def from_a_folder(*words: str) -> Ended:
    """A run whose input is a folder, which can't be read."""
    folder = os.open(TOP, os.O_RDONLY)
    try:
        return run([*words], stdin=folder)
    finally:
        os.close(folder)


def long_script() -> bytes:
    """A script of `client` whose print is longer than a pipe holds."""
    script = json.loads((EXAMPLES / "client/a_retry_after_503.json").read_text())
    script["invocations"] *= 100
    return json.dumps(script).encode()


def with_a_reader_that_goes_away() -> Ended:
    """A run whose reader takes one byte, and closes the pipe."""
    streams = {"stdin": subprocess.PIPE, "stdout": subprocess.PIPE, "stderr": subprocess.DEVNULL}
    with subprocess.Popen([WRAPPER, "client"], **streams) as started:
        started.stdin.write(long_script())
        started.stdin.close()
        front = started.stdout.read(1)
        started.stdout.close()
        return started.wait(), front


def nested(command: str, levels: int, stack: Optional[int]) -> Ended:
    """A run over lists in lists, under a stack of so many bytes where it is limited."""

    def limit():
        if stack is not None:
            resource.setrlimit(resource.RLIMIT_STACK, (stack, stack))

    return run([command], input=b"[" * levels + b"]" * levels, preexec_fn=limit)


class StreamTest(ProgramTest):
    def test_a_full_disk(self):
        self.assertEqual(on_a_full_disk("replay"), (WRITE_FAULT, None))

    def test_a_full_disk_for_the_help(self):
        self.assertEqual(on_a_full_disk("--help"), (WRITE_FAULT, None))

    def test_a_closed_output(self):
        self.assertEqual(with_closed(1, "replay"), (WRITE_FAULT, b""))

    def test_a_closed_input(self):
        self.assertEqual(with_closed(0, "replay"), (READ_FAULT, b""))

    def test_an_input_that_is_no_file(self):
        self.assertEqual(from_a_folder("replay"), (READ_FAULT, b""))

    def test_a_closed_input_that_is_not_read(self):
        line = b'["made",0,7,0,0,0,[500,0,500,0,0]]\n'
        self.assertEqual(with_closed(0, "make", "0", "7"), (0, line))

    def test_a_reader_that_goes_away(self):
        self.assertEqual(with_a_reader_that_goes_away(), (WRITE_FAULT, b"["))


class NestingTest(ProgramTest):
    def compare(self, stack: Optional[int]):
        for levels in (DEEPEST, DEEPEST + 1):
            for command in READERS:
                with self.subTest(command, levels=levels):
                    self.assertEqual(nested(command, levels, stack), (NO_SCRIPT, b""))
            with self.subTest("check", levels=levels):
                self.assertEqual(nested("check", levels, stack), (CHECK_NO, b'["no"]\n'))

    def test_lists_that_nest_deeply(self):
        self.compare(None)

    def test_lists_that_nest_deeply_under_a_small_stack(self):
        if not program.is_proved():
            self.skipTest("what is compiled unproved takes more of the stack")
        self.compare(SMALL_STACK)
