"""Runs worked scripts through `replay`, and compares the whole print with one that is made here.

The print follows from the script, from the kinds that a run asks and from its answer: an answer of
the script is taken where its kind is asked next, and every other question has an answer of its own.
"""
import json
from typing import Any, Dict, List

from .support import answer_rows
from .support.direct import run
from .support.engine_rows import CUTS, CUTS_WITH_ATTEMPT_DEADLINE, ROWS, Row
from .support.program import EXAMPLES, ProgramTest, Ran
from .support.scripts import to_lines, to_text

# The statuses of `replay` by the first word of the last line; any other word is an error.
STATUSES = {"Ok": 0, "Stopped": 0, "Unfinished": 11, "WrongType": 12}
ERROR_STATUS = 10

# What is answered where the script has no answer, by the first word of the kind.
OWN_ANSWERS = {"Hook": "Done", "Wait": "Ready", "Abandon": "Abandoned", "Park": "Parked"}

Script = Dict[str, Any]
Lines = List[List[Any]]


def script_of(row: Row) -> Script:
    """The row's script, with as much fuel as its run has calls."""
    return {
        "fuel": row.calls,
        "input": [1, "what are you?"],
        "output_kind": row.output_kind,
        "error_kind": row.error_kind,
        "stop": row.stop,
        "answers": row.script,
    }


def begin_of(script: Script) -> List[Any]:
    """The first line of what the script prints."""
    stop = script.get("stop", "None")
    kinds = [script["output_kind"], script["error_kind"]]
    return ["begin", script["input"], stop, *kinds, script["fuel"]]


def request_behind(kind: str, answer: Any, before: Any) -> Any:
    """The request that is to be sent behind an answer: as it was signed, or changed by a hook."""
    if kind == "Sign" and answer[0] == "Request":
        return answer[1]
    change = answer[1] if answer[0] == "Hook" else None
    return change[1] if change and change[0] == "Request" else before


def entries_of(row: Row) -> Lines:
    """The lines of the row's questions: a request is sent as it was signed, or changed, last."""
    left, signed, entries = list(row.script), None, []
    for number, kind in enumerate(row.kinds, start=1):
        is_scripted = bool(left) and left[0][0] == kind
        answer = left.pop(0)[1] if is_scripted else OWN_ANSWERS.get(kind.split()[0], "Absent")
        signed = request_behind(kind, answer, signed)
        was_sent = kind == "Transmit" and answer != "Pending"
        entries.append([number, kind, answer, signed] if was_sent else [number, kind, answer])
    return entries


def print_of(row: Row) -> Lines:
    """All lines that the row's run prints."""
    return [begin_of(script_of(row)), *entries_of(row), row.answer]


def replayed(script: Script) -> Ran:
    return run("replay", text=json.dumps(script))


def ended(lines: Lines) -> Ran:
    """The run that prints these lines."""
    return Ran(STATUSES.get(lines[-1][0], ERROR_STATUS), to_text(lines))


class EngineRunTest(ProgramTest):
    def assert_rows(self, rows: List[Row]) -> None:
        for row in rows:
            with self.subTest(row.name):
                self.assertEqual(len(row.kinds), row.calls)
                self.assertEqual(replayed(script_of(row)), ended(print_of(row)))

    def test_each_row_asks_its_kinds_and_ends_with_its_answer(self):
        self.assert_rows(ROWS)

    def test_each_answer_and_each_change_comes_once(self):
        self.assert_rows(answer_rows.ROWS)

    def test_the_operations_deadline_gives_up_what_is_pending(self):
        self.assert_rows(CUTS)

    def test_an_attempts_deadline_is_asked_before_the_operations(self):
        self.assert_rows(CUTS_WITH_ATTEMPT_DEADLINE)


class FuelTest(ProgramTest):
    """With less fuel than its calls a run asks just so many questions, and ends unfinished."""

    def assert_unfinished(self, script: Script, whole: Lines) -> None:
        for fuel in range(len(whole) - 2):
            with self.subTest(fuel=fuel):
                given = {**script, "fuel": fuel}
                lines = [begin_of(given), *whole[1 : fuel + 1], ["Unfinished"]]
                self.assertEqual(replayed(given), ended(lines))

    def assert_example_is_unfinished(self, name: str) -> None:
        script = json.loads((EXAMPLES / f"{name}.json").read_text())
        self.assert_unfinished(script, to_lines((EXAMPLES / f"{name}.txt").read_text()))

    def test_one_attempt_is_unfinished(self):
        self.assert_example_is_unfinished("teapot")

    def test_two_attempts_are_unfinished(self):
        self.assert_example_is_unfinished("retry")

    def test_a_cut_in_the_delay_is_unfinished(self):
        cut_in_delay = CUTS[-1]
        self.assert_unfinished(script_of(cut_in_delay), print_of(cut_in_delay))
