"""Runs of the program, through `./smithy_replay` as its user calls it."""
import functools
import pathlib
import subprocess
import unittest
from typing import NamedTuple

TOP = pathlib.Path(__file__).resolve().parents[2]
WRAPPER = TOP / "smithy_replay"
# What the script runs where no program stands.
FIRST_CALL = TOP / "tools/first_call"
EXAMPLES = TOP / "examples"


class Ran(NamedTuple):
    """How a run ended, and what it wrote on standard output."""

    status: int
    output: str


class Unbuilt(Exception):
    """The program could not be built. Standard error says why."""


class ProgramTest(unittest.TestCase):
    """A test that runs the program."""

    maxDiff = None


def run(*words: str, text: str = "") -> Ran:
    """Runs the program with these words, and this text on standard input."""
    ended = subprocess.run(
        [WRAPPER, *words],
        input=text.encode(),
        stdout=subprocess.PIPE,
        stderr=subprocess.DEVNULL,
        check=False,
    )
    return Ran(ended.returncode, ended.stdout.decode(errors="replace"))


@functools.lru_cache(maxsize=None)
def path() -> pathlib.Path:
    """The program that `./smithy_replay` runs. It is compiled first where it has to be."""
    asked = subprocess.run([WRAPPER, "--which"], stdout=subprocess.PIPE, text=True, check=False)
    if asked.returncode != 0:
        raise Unbuilt(f"./smithy_replay --which ends with status {asked.returncode}")
    return pathlib.Path(asked.stdout.rstrip("\n"))


def is_proved() -> bool:
    """Whether that program is the proved one."""
    return path().name == "smithy_replay"
