"""Asks `check` of damaged prints: each print of `replay` in examples/ with one byte changed, at 200
places, with one line removed, and with two lines swapped.

The answers come by reason, and not from the program. A print is that of a whole run only where each
byte is what the run prints. So a changed byte is a No, unless it lies in a value that nothing else
on the print depends on; these values are marked below. Without a line, or with two lines swapped,
the numbers of the entries are out of order, or the first or the last line is missing.
"""
import os
import pathlib
import re
from concurrent.futures import ThreadPoolExecutor
from typing import Iterator, List, NamedTuple, Set, Tuple

from .support.direct import run
from .support.program import EXAMPLES, ProgramTest, Ran

PLACES = 200
YES, NO = (0, '["yes"]\n'), (13, '["no"]\n')

# What a line may hold between the marks, whatever else stands on a print: the first line's payload
# and the kind of error, since no print here ends with an error of the service; texts and numbers of
# answers that another answer takes the place of before anything is printed of them.
FREE = [
    '["begin",[«1»,"«what are you?»"],',
    '"Serialize",["Request",["«GET»","«/»",[],"«what are you?»"]]]',
    '"Choose",["Chosen","«noAuth»",["",null],null,[],null]]',
    '"Endpoint",["Endpoint",["«http://localhost:1234»",[],null]]]',
    '"Apply",["Request",["«GET»","«http://localhost:1234/»",[],"«what are you?»"]]]',
    '"Transmit",["Response",[«418»,[],"«I\'m a teapot!»"]],',
    '"Transmit",["Response",[«503»,[],"«busy»"]],',
    '"Body",["Read","«I\'m a teapot!»"]]',
    '"Body",["Read","«busy»"]]',
    '"Deserialize",["Outcome",["Failed",["Connector","Io","«busy»"]]]]',
    '"Initial",["Delay",«5»]]',
    '"Decide",["Delay",«1000000000»]]',
    '"Decide",["NoAfter",«5»]]',
    '"retry",["Standard",«3»,«1000000000»,«20000000000»,"ReconnectOnTransientError",false,'
    '["V2_1",false,«50000000»]]',
]

# What is free on some prints alone: the kind of output where the print ends with none, the request
# that was signed where none was handed on, and an output that the deadline took the place of.
NO_OUTPUT = '],"None",«1»,«2»,'
FREE_ON = {
    "deadline": [
        NO_OUTPUT,
        '"Sign",["Request",["«GET»","«http://localhost:1234/»",[],"«what are you?»"]]]',
    ],
    "delayed_grant": ['],"None",1,«2»,'],
    "failing_hook": [NO_OUTPUT],
    "long_poll": [
        NO_OUTPUT,
        '"Deserialize",["Outcome",["Output",[«1»,"«I\'m a teapot!»"]]]]',
    ],
    "retry": ['],"None",1,«2»,'],
    "stop_point": ['],"BeforeTransmit",«1»,«2»,'],
    "teapot": ['],"None",1,«2»,'],
    "token": ['],"None",1,«2»,'],
}


class Damage(NamedTuple):
    """A damaged print, and whether it still is the print of a whole run."""

    name: str
    text: str
    holds: bool


def unmarked(pattern: str) -> Tuple[str, List[int]]:
    """The text of a pattern without its marks, and the places between them."""
    places: List[int] = []
    text = ""
    for part in re.findall("«[^»]*»|[^«]+", pattern):
        bare = part.strip("«»")
        if part != bare:
            places.extend(range(len(text), len(text) + len(bare)))
        text += bare
    return text, places


def free_places(name: str, text: str) -> Set[int]:
    """The places of the marked values, each as often as its line stands on the print."""
    free = set()
    for pattern in FREE + FREE_ON[name]:
        plain, places = unmarked(pattern)
        for found in re.finditer(re.escape(plain), text):
            free.update(found.start() + place for place in places)
    return free


def other(letter: str) -> str:
    """Another letter, digit or sign in its place. No number gets a zero in front."""
    if letter.isdigit():
        return "8" if letter == "9" else str(int(letter) + 1)
    if letter.isalpha():
        return "z" if letter == "q" else "q"
    return "!" if letter == "~" else "~"


def with_a_byte_changed(name: str, text: str) -> Iterator[Damage]:
    """The print with one byte changed. Its fuel may be any number that suffices."""
    lines = text.splitlines(keepends=True)
    fuel = re.search(r",(\d+)\]\n$", lines[0])
    entries = len(lines) - 2
    free = free_places(name, text)
    for number in range(PLACES):
        place = number * len(text) // PLACES
        damaged = text[:place] + other(text[place]) + text[place + 1 :]
        if fuel.start(1) <= place < fuel.end(1):
            holds = int(damaged[fuel.start(1) : fuel.end(1)]) >= entries
        else:
            holds = place in free
        yield Damage(f"byte {place} changed", damaged, holds)


def without_a_line(text: str) -> Iterator[Damage]:
    lines = text.splitlines(keepends=True)
    for at in range(len(lines)):
        left = lines[:at] + lines[at + 1 :]
        yield Damage(f"line {at + 1} removed", "".join(left), False)


def with_two_lines_swapped(text: str) -> Iterator[Damage]:
    lines = text.splitlines(keepends=True)
    for at in range(len(lines) - 1):
        swapped = lines[:at] + [lines[at + 1], lines[at]] + lines[at + 2 :]
        yield Damage(f"lines {at + 1} and {at + 2} swapped", "".join(swapped), False)


def check(damage: Damage) -> Ran:
    """What `check` says of a damaged print."""
    return run("check", text=damage.text)


class DamagedTest(ProgramTest):
    def compare(self, printed: pathlib.Path, damages: List[Damage]):
        """Compares what `check` says of each damaged print with what it must say."""
        with ThreadPoolExecutor(os.cpu_count()) as pool:
            answers = list(pool.map(check, damages))
        for damage, answer in zip(damages, answers):
            with self.subTest(f"{printed.name}, {damage.name}"):
                self.assertEqual(answer, YES if damage.holds else NO)

    def test_a_changed_byte(self):
        for printed in sorted(EXAMPLES.glob("*.txt")):
            self.compare(printed, list(with_a_byte_changed(printed.stem, printed.read_text())))

    def test_a_line_less(self):
        for printed in sorted(EXAMPLES.glob("*.txt")):
            self.compare(printed, list(without_a_line(printed.read_text())))

    def test_two_lines_swapped(self):
        for printed in sorted(EXAMPLES.glob("*.txt")):
            self.compare(printed, list(with_two_lines_swapped(printed.read_text())))
