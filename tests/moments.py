"""Runs `client --moments`, and holds its print against that of `client` and against the prints with
moments that stand beside three examples.
"""
import re
from typing import List

from .support.program import EXAMPLES, ProgramTest, run

SCRIPTS = sorted((EXAMPLES / "client").rglob("*.json"))
AT = re.compile(r'\["at",(\d+)\]\n')
ENTRY = re.compile(r"\[\d+,")


def lines_with_moments(script: str) -> List[str]:
    return run("client", "--moments", text=script).output.splitlines(keepends=True)


class MomentTest(ProgramTest):
    def test_without_the_moments_it_is_the_print_of_client(self):
        for script in SCRIPTS:
            with self.subTest(script.stem):
                text = script.read_text()
                with_moments = run("client", "--moments", text=text)
                plain = run("client", text=text)
                self.assertEqual(with_moments.status, plain.status)
                self.assertEqual(AT.sub("", with_moments.output), plain.output)

    def test_a_moment_is_told_once_before_the_first_of_its_entries(self):
        for script in SCRIPTS:
            with self.subTest(script.stem):
                lines = lines_with_moments(script.read_text())
                told = [int(at[1]) for at in map(AT.fullmatch, lines) if at]
                self.assertTrue(all(one != other for one, other in zip(told, told[1:])))
                for line, behind in zip(lines, lines[1:]):
                    if AT.fullmatch(line):
                        self.assertRegex(behind, ENTRY)
                before = [line for line in lines[:3] if not line.startswith('["invocation"')]
                self.assertRegex(before[0], AT)

    def test_the_moments_are_those_that_were_worked_out(self):
        for path in sorted(EXAMPLES.rglob("*.moments")):
            with self.subTest(path.stem):
                script = path.with_suffix(".json").read_text()
                self.assertEqual("".join(lines_with_moments(script)), path.read_text())

    def test_a_script_that_is_none_is_refused(self):
        self.assertEqual(run("client", "--moments", text="{}"), (2, ""))
