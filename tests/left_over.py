"""Hands `replay` scripts whose run takes not all of their answers, and compares the lines on standard
error: the question that got nothing, the answer that was next, and how many were left over.

What must be told is worked out here from the script and the print, by the rule that the next answer
of the list is taken exactly where it is for the question's kind.
"""
import json
from typing import Iterator, List

from .support.direct import run_told
from .support.program import EXAMPLES, ProgramTest, is_proved
from .support.replays import APPLY, CONFIGURED, GO, NO, OUTPUT, READ, SERIALIZE, SIGNED, TEAPOT, script

# A program that was compiled without proofs is slow, so over it every so many-th script is tried.
STEP_UNPROVED = 13
FRONT = "smithy_replay: replay script: "


def told(answers: List[list], print_: str) -> str:
    """What must be told of a script with these answers that prints so."""
    first, missed = 0, None
    for number, kind, answer, *_ in map(json.loads, print_.splitlines()[1:-1]):
        if first < len(answers) and answers[first][0] == kind:
            first, missed = first + 1, None
        elif answer == "Absent" and missed is None:
            missed = number, kind
    if first == len(answers):
        return ""
    line = missed_line(first, answers[first][0], *missed) if missed else ""
    return line + left_line(first, len(answers))


def missed_line(first: int, next_: str, number: int, kind: str) -> str:
    where = f'where entry {number}, "{kind}", was answered "Absent"'
    return f'{FRONT}answers[{first}]: an answer to "{next_}", {where}\n'


def left_line(first: int, count: int) -> str:
    rest = count - first
    return f"{FRONT}answers[{first}]: from here on, {rest} of {count} answers were left over\n"


def changed_answers(answers: List[list]) -> Iterator[List[list]]:
    """The answers without each in turn, with each twice, and with each two swapped."""
    for at in range(len(answers)):
        yield answers[:at] + answers[at + 1 :]
        yield answers[: at + 1] + answers[at:]
        yield answers[:at] + answers[at : at + 2][::-1] + answers[at + 2 :]


class LeftOverTest(ProgramTest):
    def says(self, wanted: str, *answers: list, fuel: int = 100):
        ran = run_told("replay", text=script(*answers, fuel=fuel))
        self.assertEqual(ran.errors, wanted)

    def test_an_example_takes_all_its_answers(self):
        for path in sorted(EXAMPLES.glob("*.json")):
            with self.subTest(path.name):
                self.assertEqual(run_told("replay", text=path.read_text()).errors, "")

    def test_two_answers_in_the_wrong_order(self):
        self.says(
            missed_line(7, "Sign", 15, "Apply") + left_line(7, 14),
            *CONFIGURED, SERIALIZE, GO, *SIGNED[:2], SIGNED[3], APPLY, TEAPOT, *READ, OUTPUT, NO,
        )

    def test_an_answer_behind_the_end_of_the_run(self):
        answers = [*CONFIGURED, SERIALIZE, GO, *SIGNED, TEAPOT, *READ, OUTPUT, NO]
        self.says(left_line(14, 15), *answers, NO)

    def test_answers_for_which_the_fuel_does_not_suffice(self):
        answers = [*CONFIGURED, SERIALIZE, GO, *SIGNED, TEAPOT, *READ, OUTPUT, NO]
        self.says(left_line(5, 14), *answers, fuel=11)

    def test_a_question_that_the_script_leaves_out(self):
        self.says("", *CONFIGURED, ["Serialize", "Absent"])

    def test_each_example_with_its_answers_changed(self):
        step = 1 if is_proved() else STEP_UNPROVED
        tried = 0
        for path in sorted(EXAMPLES.glob("*.json")):
            whole = json.loads(path.read_text())
            for answers in list(changed_answers(whole["answers"]))[::step]:
                with self.subTest(f"{path.name}: {answers}"):
                    ran = run_told("replay", text=json.dumps({**whole, "answers": answers}))
                    self.assertEqual(ran.errors, told(answers, ran.output))
                    tried += bool(ran.errors)
        self.assertGreater(tried, 5)
