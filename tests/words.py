"""Calls the program with words that are commands, and with others."""
import os
import pathlib
import shutil
import subprocess
import tempfile
from typing import List, Union

from .support.direct import Told, run, run_told
from .support.program import FIRST_CALL, TOP, WRAPPER, ProgramTest

BAD_WORDS, TOO_LARGE = 1, 6
HELP = pathlib.Path(__file__).parent / "data/help.txt"
WRONG = [
    "",
    "teapot",
    "replay now",
    "fleet now",
    "client now",
    "fleet --moments",
    "serve all",
    "client --moments now",
    "--help --version",
    "make 1",
    "make x 7",
    "make 01 7",
    "make +1 7",
]
# Words that are near to a command, and others that begin like one.
NEAR = [
    "rplay",
    "wiat",
    "waiterss",
    "chek",
    "hel",
    "make-",
    "replay-all-of-these",
    "help me",
    "-V -V",
    "--schema",
    "--schema check",
    "--schema wait now",
    "x" * 65,
]
TELLING = ["--help", "help", "-h", "--version", "version", "-V"]
SCHEMAS = [f"--schema {name}" for name in ("replay", "client", "fleet", "wait", "waiters")]


class WordTest(ProgramTest):
    def test_words_that_are_no_command(self):
        for line in [*WRONG, f"make 1 {2**64}"]:
            with self.subTest(line):
                self.assertEqual(run(*line.split()), (BAD_WORDS, ""))

    def test_a_word_that_is_no_text(self):
        self.assertEqual(run(b"\xff"), (BAD_WORDS, ""))

    def test_more_than_a_thousand_invocations(self):
        for count in [1001, 2**64 - 1]:
            with self.subTest(count=count):
                self.assertEqual(run("make", str(count), "7"), (TOO_LARGE, ""))

    def test_the_help(self):
        self.assertEqual(run("--help"), (0, HELP.read_text()))

    def test_the_version(self):
        self.assertEqual(run("--version"), (0, "smithy_replay 0.2.0\n"))


class UnbuiltTest(ProgramTest):
    """Where no program stands, the script answers as the program does."""

    def setUp(self):
        self.top = pathlib.Path(tempfile.mkdtemp())
        self.addCleanup(shutil.rmtree, self.top)
        shutil.copy(WRAPPER, self.top)
        shutil.copytree(FIRST_CALL, self.top / "tools/first_call")
        shutil.copy(TOP / "crates.txt", self.top)
        shutil.copytree(TOP / "docs/schema", self.top / "docs/schema")
        shutil.copytree(TOP / "crates/cli_commands", self.top / "crates/cli_commands")

    def answer(self, words: List[Union[str, bytes]]) -> Told:
        """What the script answers where there is no `rt` that could compile."""
        ended = subprocess.run(
            [self.top / "smithy_replay", *words],
            env={**os.environ, "PATH": "/usr/bin:/bin"},
            capture_output=True,
            text=True,
            check=False,
        )
        return Told(ended.returncode, ended.stdout, ended.stderr)

    def test_words_that_need_no_program(self):
        for line in [*WRONG, *NEAR, *TELLING, *SCHEMAS]:
            with self.subTest(line):
                self.assertEqual(self.answer(line.split()), run_told(*line.split()))

    def test_an_empty_word_and_words_that_are_no_texts(self):
        for words in [[""], [b"\xff"], ["replay", b"\xff"], ["\u00fcber"]]:
            with self.subTest(words=words):
                self.assertEqual(self.answer(words), run_told(*words))
