"""Compares the JSON Schemas that the program prints with those in docs/schema/, and judges the
examples and damaged ones by them with the package jsonschema (Debian's python3-jsonschema).
"""
import json
import unittest
from typing import Any

from .reasons import FOLDERS, damaged_examples
from .support.direct import BAD_SCRIPT, run, run_told
from .support.program import EXAMPLES, TOP, ProgramTest

try:
    from jsonschema import Draft202012Validator
except ImportError:
    Draft202012Validator = None

FOLDER = TOP / "docs/schema"
# Every so many-th damaged script is judged, since a schema takes long.
STEP = 5
# What is asked of several values together, and which no schema knows.
TOGETHER = (
    "the place of one of",
    "isn't one of the schemes",
    "stands twice",
    "expected at least min",
    "frames that could repeat",
    "a hook that does nothing",
    "nothing stands before the key",
)


def stored(command: str) -> str:
    return (FOLDER / f"{command}.json").read_text()


class PrintTest(ProgramTest):
    def test_the_stored_schemas(self):
        for command in FOLDERS:
            with self.subTest(command):
                self.assertEqual(run("--schema", command), (0, stored(command)))

    def test_a_command_that_reads_no_script(self):
        self.assertEqual(run_told("--schema", "check").status, 1)


@unittest.skipIf(Draft202012Validator is None, "the package jsonschema isn't there")
class ValidTest(ProgramTest):
    def validator(self, command: str) -> Any:
        schema = json.loads(stored(command))
        Draft202012Validator.check_schema(schema)
        return Draft202012Validator(schema)

    def test_examples_are_valid(self):
        for command, folder in FOLDERS.items():
            judge = self.validator(command)
            for path in sorted((EXAMPLES / folder).glob("*.json")):
                with self.subTest(path.name):
                    judge.validate(json.loads(path.read_text()))

    def test_damaged_examples_are_not_valid(self):
        for command in FOLDERS:
            judge = self.validator(command)
            for name, damage in damaged_examples(command)[::STEP]:
                ran = run_told(command, text=damage.text)
                if ran.status == BAD_SCRIPT and not any(why in ran.errors for why in TOGETHER):
                    with self.subTest(f"{command} {name} {damage.name}"):
                        self.assertFalse(judge.is_valid(json.loads(damage.text)))
