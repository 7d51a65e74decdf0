"""Runs of the program itself, for tests that run it hundreds of times: `./smithy_replay` looks at
the dates of all sources before each run.
"""
import subprocess
from typing import NamedTuple, Union

from .program import Ran, path

BAD_WORDS, BAD_SCRIPT, TOO_LARGE, CHECK_NO = 1, 2, 6, 13
FRONT = "smithy_replay: "
LEFT_OVER = FRONT + "replay script: answers["


class Told(NamedTuple):
    """How a run ended, and what it wrote on standard output and on standard error."""

    status: int
    output: str
    errors: str


def run_told(*words: Union[str, bytes], text: Union[str, bytes] = "") -> Told:
    """Runs the program with these words, and this text on standard input."""
    ended = subprocess.run(
        [path(), *words],
        input=text.encode() if isinstance(text, str) else text,
        stdout=subprocess.PIPE,
        stderr=subprocess.PIPE,
        check=False,
    )
    output, errors = ended.stdout.decode(errors="replace"), ended.stderr.decode(errors="replace")
    return Told(ended.returncode, output, errors)


def tells_left_over(errors: str) -> bool:
    """Whether nothing is told but what a run left over of its script."""
    return all(line.startswith(LEFT_OVER) for line in errors.splitlines())


def run(*words: Union[str, bytes], text: Union[str, bytes] = "") -> Ran:
    """The same without standard error, which has a line with a reason exactly where the words or
    the input were refused, or a text is no print. Beside that `replay` tells what it left over."""
    told = run_told(*words, text=text)
    if told.status in (BAD_WORDS, BAD_SCRIPT, TOO_LARGE, CHECK_NO):
        assert told.errors.startswith(FRONT) and told.errors.count("\n") == 1, told.errors
        assert "no reason was found" not in told.errors, told.errors
    elif words == ("replay",):
        assert tells_left_over(told.errors), told.errors
    else:
        assert told.errors == "", told.errors
    return Ran(told.status, told.output)
