"""Runs each script of examples/, and compares its print and its status with those beside it.

The folder below examples/ names the command, and a script right in examples/ is one of `replay`.
Beside a script `NAME.json` stand its status in `NAME.status` and its whole print in `NAME.txt`.
`NAME.moments` has that print with the moments of its entries, worked out by hand.
Clients in examples/client/rows/ and examples/client/schemes/ have facts or requests in place of a
print, which the module `clients` compares.
Of a host the lines stand in `NAME.lines`, and what it is told in `NAME.txt`.
"""
import pathlib

from .support.program import EXAMPLES, ProgramTest, run

SCRIPTS = sorted(EXAMPLES.rglob("*.json"))
CONVERSATIONS = sorted(EXAMPLES.rglob("*.lines"))
ENDINGS = {".json", ".lines", ".status", ".txt", ".facts", ".requests", ".moments"}


def name_of(path: pathlib.Path) -> str:
    return str(path.relative_to(EXAMPLES))


def command_of(script: pathlib.Path) -> str:
    folders = script.relative_to(EXAMPLES).parts[:-1]
    return folders[0] if folders else "replay"


def has_print(script: pathlib.Path) -> bool:
    """Whether a whole print is wanted: all scripts but those two folders down."""
    return len(script.relative_to(EXAMPLES).parts) <= 2


class ExampleTest(ProgramTest):
    def test_each_script_ends_with_its_status_and_prints_its_print(self):
        for script in SCRIPTS:
            with self.subTest(name_of(script)):
                ran = run(command_of(script), text=script.read_text())
                self.assertEqual(f"{ran.status}\n", script.with_suffix(".status").read_text())
                if has_print(script):
                    self.assertEqual(ran.output, script.with_suffix(".txt").read_text())

    def test_each_conversation_is_answered_by_its_lines(self):
        for lines in CONVERSATIONS:
            with self.subTest(name_of(lines)):
                ran = run("serve", text=lines.read_text())
                self.assertEqual(f"{ran.status}\n", lines.with_suffix(".status").read_text())
                self.assertEqual(ran.output, lines.with_suffix(".txt").read_text())

    def test_check_says_yes_of_each_print_of_replay(self):
        for printed in sorted(EXAMPLES.glob("*.txt")):
            with self.subTest(name_of(printed)):
                self.assertEqual(run("check", text=printed.read_text()), (0, '["yes"]\n'))

    def test_a_print_with_moments_is_the_print_but_for_these(self):
        for path in sorted(EXAMPLES.rglob("*.moments")):
            with self.subTest(name_of(path)):
                lines = path.read_text().splitlines(keepends=True)
                plain = "".join(line for line in lines if not line.startswith('["at",'))
                self.assertEqual(plain, path.with_suffix(".txt").read_text())

    def test_each_file_belongs_to_a_script(self):
        for path in sorted(EXAMPLES.rglob("*.*")):
            with self.subTest(name_of(path)):
                self.assertIn(path.suffix, ENDINGS)
                beside = [path.with_suffix(".json"), path.with_suffix(".lines")]
                self.assertTrue(any(it.exists() for it in beside), "it stands beside no script")
