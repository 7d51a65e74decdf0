"""Checks the tool that draws a print: its pictures in docs/pictures/, and what it reads of prints
that were written for it.
"""
import json
import pathlib
import subprocess
import sys
import unittest
import xml.etree.ElementTree as xml
from typing import Any, List

from .support.program import EXAMPLES, TOP

TOOL = TOP / "tools/timeline"
PICTURES = TOP / "docs/pictures"
SVG = "{http://www.w3.org/2000/svg}"
MS = 10**6

sys.path.insert(0, str(TOOL.parent))

from drawing import runs, svg  # noqa: E402


def drawn(*words: str, given: str = "") -> "subprocess.CompletedProcess[str]":
    """Runs the tool with these words, and this text on standard input."""
    how = {"stdout": subprocess.PIPE, "stderr": subprocess.PIPE, "encoding": "utf-8"}
    return subprocess.run([sys.executable, TOOL, *words], input=given, check=False, **how)


def print_of(*lines: List[Any]) -> str:
    """A print of these lines. Those of entries are numbered."""
    said, number = [], 0
    for line in lines:
        if line[0] not in ("at", "invocation", "begin", "caller", "bucket") and len(line) > 1:
            number += 1
            line = [number, *line] if line[0] != "Ok" else line
        said.append(json.dumps(line))
    return "".join(f"{line}\n" for line in said)


def named_pictures(ending: str) -> List[pathlib.Path]:
    return sorted(PICTURES.glob(f"*{ending}"))


class PictureTest(unittest.TestCase):
    """The pictures that stand in docs/pictures/ are those of the examples of their names."""

    maxDiff = None

    def test_each_picture_as_text_is_that_of_its_example(self):
        for picture in named_pictures(".txt"):
            with self.subTest(picture.name):
                example = EXAMPLES / "client" / f"{picture.stem}.moments"
                self.assertEqual(drawn(str(example)).stdout, picture.read_text(encoding="utf-8"))

    def test_each_picture_in_svg_is_that_of_its_example(self):
        for picture in named_pictures(".svg"):
            with self.subTest(picture.name):
                example = EXAMPLES / "client" / f"{picture.stem}.moments"
                printed = drawn("--svg", str(example)).stdout
                self.assertEqual(printed, picture.read_text(encoding="utf-8"))

    def test_three_examples_have_both_pictures(self):
        names = [path.stem for path in named_pictures(".txt")]
        self.assertEqual(len(names), 3)
        self.assertEqual(names, [path.stem for path in named_pictures(".svg")])

    def test_a_picture_has_a_title_and_a_description(self):
        for picture in named_pictures(".svg"):
            with self.subTest(picture.name):
                root = xml.parse(picture).getroot()
                named = [root.find(f"{SVG}{tag}") for tag in ("title", "desc")]
                self.assertEqual(
                    root.get("aria-labelledby"), " ".join(part.get("id") for part in named)
                )
                self.assertTrue(all(part.text for part in named))

    def test_each_form_of_the_legend_has_a_fill_or_a_line_of_its_own(self):
        forms = [rule for rule in svg.STYLE.splitlines() if "fill" in rule or "stroke" in rule]
        drawn_as = [rule.partition("{")[2] for rule in forms if rule.lstrip().startswith(".")]
        for name in (".output", ".error", ".cut", ".wait", ".deadline", ".hook"):
            self.assertEqual(sum(rule.lstrip().startswith(name + " ") for rule in forms), 1, name)
        self.assertEqual(len(drawn_as), len(set(drawn_as)))


class ReadingTest(unittest.TestCase):
    """What is read of prints. Each was written for its test, and so was what is wanted."""

    def read(self, *lines: List[Any]) -> runs.Print:
        return runs.read_print(print_of(*lines))

    def one(self, *lines: List[Any]) -> runs.Call:
        return self.read(["at", 5 * MS], ["invocation", 0, 0], *lines).calls[0]

    def test_an_attempt_lasts_from_its_first_hook_to_its_decision(self):
        attempt = self.one(
            ["Hook read_before_attempt", "Done"],
            ["at", 9 * MS],
            ["Transmit", ["Response", [200, [], None]], ["GET", "/", [], ""]],
            ["Deserialize", ["Outcome", ["Output", [1, ""]]]],
            ["at", 12 * MS],
            ["Decide", "No"],
            ["at", 20 * MS],
            ["Hook read_after_execution", "Done"],
            ["Ok", [1, ""]],
        ).attempts[0]
        self.assertEqual((attempt.begin, attempt.end), (5 * MS, 12 * MS))
        self.assertEqual((attempt.ending, attempt.status), ("output", "200"))

    def test_without_moments_the_numbers_of_questions_take_their_place(self):
        printed = self.read(
            ["invocation", 0, 0],
            ["Initial", "Go"],
            ["Hook read_before_attempt", "Done"],
            ["Decide", "No"],
            ["Ok", [1, ""]],
        )
        self.assertFalse(printed.has_clock)
        attempt = printed.calls[0].attempts[0]
        self.assertEqual((attempt.begin, attempt.end), (2, 3))

    def test_a_wait_has_its_length_and_the_cost_of_its_retry(self):
        decision = ["Noted", ["Delay", 7], [["x"], 0, 0, ["Granted", 10], [500, 0, 490, 10, 0]]]
        printed = self.read(
            ["at", 0],
            ["invocation", 0, 0],
            ["Hook read_before_attempt", "Done"],
            ["Decide", decision],
            ["Start Retry", "Started"],
            ["Wait Retry", "Pending"],
            ["at", 7],
            ["Wait Retry", "Ready"],
            ["Ok", [1, ""]],
        )
        sleep = printed.calls[0].sleeps[0]
        self.assertEqual((sleep.begin, sleep.end, sleep.is_over), (0, 7, True))
        self.assertEqual((sleep.nanos, sleep.cost), (7, 10))
        self.assertEqual([level.available for level in printed.levels[0]], [500, 490])

    def test_a_deadline_passes_its_time_after_its_start(self):
        call = self.one(
            ["Configure Client", ["Layer", [["timeouts", [None, None, 30, 20]]]]],
            ["Start Operation", "Started"],
            ["Start Attempt", "Started"],
            ["Hook read_before_attempt", "Done"],
            ["at", 5 * MS + 20],
            ["Wait Attempt", "Ready"],
            ["Ok", [1, ""]],
        )
        self.assertEqual([one.at for one in call.deadlines], [5 * MS + 30, 5 * MS + 20])
        self.assertEqual([one.cut for one in call.deadlines], [False, True])
        self.assertEqual(call.attempts[0].ending, "cut")

    def test_only_a_hook_that_changed_something_is_drawn(self):
        call = self.one(
            ["Hook read_before_attempt", "Done"],
            ["Hook modify_before_signing", ["Hook", None, [["user.a", "b"]], None]],
            ["Hook modify_before_transmit", ["Hook", None, [], "no"]],
            ["Ok", [1, ""]],
        )
        said = [(change.hook, change.what) for change in call.changes]
        self.assertEqual(
            said,
            [("modify_before_signing", "sets user.a"), ("modify_before_transmit", "fails: no")],
        )

    def test_each_client_and_each_caller_has_a_lane(self):
        clients = self.read(["invocation", 0, 1], ["Ok", 1], ["invocation", 1, 0], ["Ok", 1])
        self.assertEqual([lane for lane, _ in clients.lanes()], ["client 1", "client 0"])
        callers = self.read(["caller", 0], ["invocation", 0, 0], ["Ok", 1], ["caller", 1])
        self.assertEqual([lane for lane, _ in callers.lanes()], ["caller 0"])

    def test_what_is_no_print_is_refused(self):
        for text, why in [
            ("no\n", "line 1 is no JSON"),
            ('["bucket",0,[1,0,1,0,0]]\n', "it has no run"),
            ('[1,"Initial","Go"]\n', "line 1 is no line of a print"),
            ("{}\n", "line 1 is no line of a print"),
        ]:
            with self.subTest(text):
                ended = drawn(given=text)
                self.assertEqual((ended.returncode, ended.stdout), (2, ""))
                self.assertEqual(ended.stderr, f"timeline: {why}\n")

    def test_lengths_of_time(self):
        for nanos, words in [
            (0, "0 s"),
            (1, "1 ns"),
            (1500, "1.5 µs"),
            (250 * MS, "250 ms"),
            (60_000 * MS, "60 s"),
        ]:
            self.assertEqual(runs.spoken(nanos), words)
