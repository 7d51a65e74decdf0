"""Hands `check` texts that are no prints, and compares the line on standard error: which line of the
text is told, and what is said to be wrong there.

Each print of `replay` in examples/ is damaged line by line. What stands before a damaged line is
the beginning of a run's print, so no line before it may be told. Where the damaged line itself can
stand there in no print of a run that began so, it is told.
"""
import re
from typing import Iterator, List, NamedTuple, Tuple

from .damaged import with_a_byte_changed
from .support.direct import CHECK_NO, run_told
from .support.program import EXAMPLES, ProgramTest, is_proved

TEAPOT = (EXAMPLES / "teapot.txt").read_text()
LINE = re.compile(r"smithy_replay: print, line (\d+): (.*)\n")
# A program that was compiled without proofs is slow, so over it every so many-th text is tried.
STEP_UNPROVED = 29


class Damage(NamedTuple):
    """A damaged print, what was done, and the line that must be told."""

    name: str
    text: str
    line: int


def put(lines: List[str], at: int, line: str) -> str:
    return "".join(lines[:at] + [line] + lines[at + 1 :])


def entry_damages(lines: List[str], at: int) -> Iterator[Tuple[str, str]]:
    """What may happen to the line of an entry, with what then stands in its place."""
    number, kind, answer = re.fullmatch(r'\[(\d+),("[^"]*"),(.*)\]\n', lines[at]).groups()
    other = '"Park"' if kind != '"Park"' else '"Load"'
    yield "another number", f"[{int(number) + 1},{kind},{answer}]\n"
    yield "no kind", f"[{number},{kind[:-1]} x\",{answer}]\n"
    yield "another kind", f"[{number},{other},{answer}]\n"
    yield "no answer", f'[{number},{kind},{{"wrong":0}}]\n'
    yield "an item less", f"[{number},{kind}]\n"
    yield "the line twice", lines[at] * 2


def line_damages(text: str) -> Iterator[Damage]:
    """The print, damaged at each of its lines in turn."""
    lines = text.splitlines(keepends=True)
    for at, line in enumerate(lines):
        yield Damage("no JSON", put(lines, at, line.rstrip("\n")[:-1] + "\n"), at + 1)
        yield Damage("an empty line", put(lines, at, "\n"), at + 1)
        yield Damage("a space more", put(lines, at, line.replace(",", ", ", 1)), at + 1)
        yield Damage("a carriage return", put(lines, at, line.rstrip("\n") + "\r\n"), at + 1)
        # Where the last line is missing, the one before it is the last.
        yield Damage("no such line", put(lines, at, ""), min(at + 1, len(lines) - 1))
        if 0 < at < len(lines) - 1:
            for name, damaged in entry_damages(lines, at):
                told = at + 2 if name == "the line twice" else at + 1
                yield Damage(name, put(lines, at, damaged), told)


class LineTest(ProgramTest):
    """The damaged line is told."""

    def test_each_print_damaged_line_by_line(self):
        step = 1 if is_proved() else STEP_UNPROVED
        for path in sorted(EXAMPLES.glob("*.txt")):
            for damage in list(line_damages(path.read_text()))[::step]:
                with self.subTest(f"{path.name}, line {damage.line}: {damage.name}"):
                    ran = run_told("check", text=damage.text)
                    self.assertEqual(ran.status, CHECK_NO)
                    found = LINE.fullmatch(ran.errors)
                    self.assertIsNotNone(found, ran.errors)
                    self.assertEqual(int(found[1]), damage.line, ran.errors)

    def test_no_line_before_a_changed_byte_is_told(self):
        step = 1 if is_proved() else STEP_UNPROVED
        for path in sorted(EXAMPLES.glob("*.txt")):
            text = path.read_text()
            for damage in list(with_a_byte_changed(path.stem, text))[::step]:
                with self.subTest(f"{path.name}, {damage.name}"):
                    ran = run_told("check", text=damage.text)
                    if damage.holds:
                        self.assertEqual(ran.errors, "")
                    else:
                        line = text.count("\n", 0, int(damage.name.split()[1])) + 1
                        self.assertGreaterEqual(int(LINE.fullmatch(ran.errors)[1]), line)


class ReasonTest(ProgramTest):
    """Each reason, with its line."""

    def says(self, wanted: str, text, *changes: Tuple[str, str]):
        for old, new in changes:
            self.assertIn(old, text)
            text = text.replace(old, new, 1)
        ran = run_told("check", text=text)
        self.assertEqual((ran.status, ran.output), (CHECK_NO, '["no"]\n'))
        self.assertEqual(ran.errors, f"smithy_replay: print, {wanted}\n")

    def test_a_text_that_is_not_utf_8(self):
        self.says("line 3: not UTF-8", TEAPOT.encode().replace(b"Hook", b"\xff", 1))

    def test_a_line_that_is_not_json(self):
        wanted = 'line 12: not JSON: column 15: expected `,` or `]`, found "Go"]'
        self.says(wanted, TEAPOT, ('"Initial","Go"', '"Initial" "Go"'))

    def test_a_first_line_alone(self):
        wanted = (
            "line 2: a print has a first and a last line, and this one is missing, "
            "found the end of the line"
        )
        self.says(wanted, '["begin",[1,""],"None",1,2,34]\n')

    def test_a_first_line_that_begins_no_run(self):
        wanted = 'line 1: expected ["begin", input, stop, output_kind, error_kind, fuel], found '
        first = TEAPOT.splitlines()[0].replace("begin", "start")
        self.says(wanted + first, TEAPOT, ('"begin"', '"start"'))

    def test_an_entry_behind_the_last(self):
        wanted = "line 36: the run is over here, so its answer must be the last line, found "
        last = TEAPOT.splitlines()[-1]
        self.says(wanted + last, TEAPOT + last + "\n")

    def test_less_fuel_than_the_run_uses(self):
        wanted = 'line 35: the fuel of 33 is used up before this entry, found [34,"Hook read_after_'
        self.says(wanted + 'execution","Done"]', TEAPOT, (",1,2,34]", ",1,2,33]"))

    def test_an_entry_of_two_items(self):
        wanted = 'line 12: expected an entry: [number, kind, answer], found [11,"Initial"]'
        self.says(wanted, TEAPOT, ('[11,"Initial","Go"]', '[11,"Initial"]'))

    def test_a_number_out_of_order(self):
        wanted = 'line 33: expected the number 32 of this entry, found [33,"Decide","No"]'
        self.says(wanted, TEAPOT, ("[32,", "[33,"))

    def test_a_kind_that_there_is_not(self):
        wanted = 'line 12: no such kind of question, found [11,"Initially","Go"]'
        self.says(wanted, TEAPOT, ('"Initial"', '"Initially"'))

    def test_a_question_that_is_not_next(self):
        wanted = 'line 28: "Stream" isn\'t the next question: "Body" is, found [27,"Stream","NotStre'
        self.says(wanted + 'aming"]', TEAPOT, ('"Body",["Read","I\'m a teapot!"]', '"Stream","NotStreaming"'))

    def test_an_answer_that_does_not_fit(self):
        wanted = 'line 12: no answer to "Initial", found [11,"Initial","Started"]'
        self.says(wanted, TEAPOT, ('"Initial","Go"', '"Initial","Started"'))

    def test_an_entry_that_prints_otherwise(self):
        wanted = (
            "line 23: the line prints otherwise: column 82: "
            'expected 4/",[],"what are you?"]], found 5/",[],"what are you?"]]'
        )
        rest = '/",[],"what are you?"]]\n[23'
        self.says(wanted, TEAPOT, ("1234" + rest, "1235" + rest))

    def test_a_run_that_is_not_over(self):
        wanted = 'line 35: the run isn\'t over: next comes "Hook read_after_execution", found '
        last = TEAPOT.splitlines()[-1]
        self.says(wanted + last, TEAPOT, ('[34,"Hook read_after_execution","Done"]\n', ""))

    def test_another_answer_of_the_run(self):
        wanted = "line 36: the run's answer is another: column 12: expected 'm a teapot!\"]], found "
        self.says(wanted + ' am a teapot!"]]', TEAPOT, ("""["Ok",[1,"I'm""", '["Ok",[1,"I am'))

    def test_no_line_feed_at_the_end(self):
        wanted = "line 36: the line doesn't end with a line feed alone, found "
        self.says(wanted + TEAPOT.splitlines()[-1], TEAPOT.rstrip("\n"))
