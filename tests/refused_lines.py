"""Says lines to `serve` that are no messages, and descriptions that are none, and compares what is
told of them: the place, and the reason.

Each message is damaged at each of its values in turn, by a reader of JSON that stands in
`support/damage.py`; what is told is to be the damaged place. The messages are for a seat that there
isn't, so that a line that still is a message is refused for that.
"""
import json
import random
import re
from typing import Any, Iterator, List, NamedTuple, Tuple

from .reasons import ELSEWHERE, STEP_UNPROVED
from .serving import CONVERSATION, DESCRIPTION, text_of, whole
from .support.damage import Damage, damages
from .support.direct import BAD_SCRIPT, TOO_LARGE, run_told
from .support.program import EXAMPLES, ProgramTest, is_proved

SEAT = 77
REQUEST = json.dumps(["POST", "/x", [], "hi"])
HEADERS = [["retry-after", "1"], ["x-bytes", {"hex": "c3a9"}]]
FAULTS: List[Any] = [
    ["Operation", [2, "x"], "t"],
    ["Connector", "Io", "t"],
    ["Connector", ["Other", "ServerError"], "t"],
    ["Timeout", "t"],
    ["Response", "t"],
    ["Other", "t"],
]
EVENTS: List[Any] = [
    ["response", 0, 503, HEADERS],
    ["data", 0, "busy"],
    ["data", 0, {"hex": "00ff"}],
    ["trailers", 0],
    ["end", 0],
    *(["broken", 0, fault] for fault in FAULTS),
    ["failed", 0, "Timeout", "t"],
    ["failed", 0, ["Other", None], "t"],
    ["failed", 0, ["Other", "TransientError"], "t"],
    ["identity", "key", ["secret", None]],
    ["identity", "key", [{"hex": "00"}, 5]],
    ["no_identity", "key", "none"],
]
MESSAGES: List[Any] = [
    ["invoke", SEAT, 0, [1, REQUEST], 1000, "None", False],
    ["invoke", SEAT, 0, [1, {"hex": "00ff"}], 1000, "BeforeTransmit", True],
    *(["at", SEAT, 5, [event]] for event in EVENTS),
    ["at", SEAT, 5, EVENTS],
    ["at", SEAT, 5, []],
    ["give_up", SEAT, 7],
    ["sums"],
    ["close"],
]
PLACE = re.compile(r"no message: column (\d+): (.*?): (.*)")
DESCRIBED = re.compile(r"smithy_replay: description, line (\d+), column (\d+): (.*?): (.*)\n")
# The path of the digits of bytes, behind that of the bytes.
HEX = ".hex"
# "no message", and at most so many bytes behind it.
LONGEST_REFUSAL = len("no message") + 1024


class Refusal(NamedTuple):
    """What a host is told of a line."""

    line: bytes
    why: str


def refusals(lines: List[bytes]) -> List[Refusal]:
    """What a host is told of these lines, none of which is taken. A conversation behind them ends
    as it would without them."""
    rest = [text_of(line).encode() for line in CONVERSATION]
    said = b"\n".join([text_of(DESCRIPTION).encode(), *lines, *rest, b""])
    ran = run_told("serve", text=said)
    told = ran.output.splitlines()
    assert ran.status == 0 and ran.errors == "", ran.errors
    assert (told[0], *told[len(lines) + 1 :]) == whole()
    answers = [json.loads(line) for line in told[1 : len(lines) + 1]]
    assert all(word == "refused" for word, *_ in answers), answers
    return [Refusal(line, why) for line, (_, why) in zip(lines, answers)]


def damaged_messages() -> Iterator[Damage]:
    for message in MESSAGES:
        yield from damages(text_of(message))


def places_of(damage: Damage) -> List[Tuple[str, int]]:
    """The places that may be told of a damaged line, which has no other line. What is wrong in
    bytes is told of them as a whole."""
    places = []
    for path, _line, column in damage.places:
        places.append(("the line" if path == "the script" else path, column))
        if path.endswith(HEX):
            places.append((path[: -len(HEX)], column - len('{"hex":')))
    return places


def without_a_byte(text: bytes) -> Iterator[bytes]:
    for at in range(len(text)):
        yield text[:at] + text[at + 1 :]


def with_another_byte(text: bytes, draw: random.Random) -> Iterator[bytes]:
    """Each byte in turn is another one, which may be no letter, but no line feed."""
    for at in range(len(text)):
        other = draw.choice([byte for byte in range(256) if byte not in (10, text[at])])
        yield text[:at] + bytes([other]) + text[at + 1 :]


class MessageTest(ProgramTest):
    """Of a line that is no message the place is told, and the session goes on."""

    def tells(self, line: Any, wanted: str):
        text = line if isinstance(line, bytes) else text_of(line).encode()
        self.assertEqual(refusals([text])[0].why, f"no message: {wanted}")

    def test_each_message_damaged_at_each_of_its_values(self):
        tried = list(damaged_messages())
        told = 0
        for damage, refusal in zip(tried, refusals([damage.text.encode() for damage in tried])):
            with self.subTest(damage.text):
                if refusal.why != "no seat":
                    told += 1
                    found = PLACE.fullmatch(refusal.why)
                    self.assertIsNotNone(found, refusal.why)
                    self.assertIn((found[2], int(found[1])), places_of(damage), refusal.why)
        self.assertGreater(told, len(tried) * 9 // 10)

    def test_each_message_with_a_byte_less_or_another_one(self):
        draw = random.Random(5)
        lines: List[bytes] = []
        for message in MESSAGES:
            text = text_of(message).encode()
            lines += [*without_a_byte(text), *with_another_byte(text, draw)]
        for refusal in refusals(lines):
            with self.subTest(refusal.line):
                if refusal.why != "no seat":
                    self.assertRegex(refusal.why, "^no message: column [1-9]")
                    self.assertLessEqual(len(refusal.why.encode()), LONGEST_REFUSAL)

    def test_a_word_that_is_misspelt(self):
        events = (
            'an event: "response", "data", "trailers", "end", "broken", "failed", "identity" or '
            '"no_identity", and what belongs to it'
        )
        message = 'a message: "invoke", "at", "give_up", "sums" or "close", and what belongs to it'
        self.tells(
            ["give-up", 0, 7],
            f'column 2: [0]: expected {message}, found "give-up"; did you mean "give_up"?',
        )
        self.tells(
            ["at", 0, 7, [["respose", 0, 200, []]]],
            f'column 13: [3][0][0]: expected {events}, found "respose"; did you mean "response"?',
        )

    def test_what_is_no_whole_number_of_64_bits(self):
        seat = "the number of a seat, a whole number of 64 bits"
        for found in ["-0", "1.0", "1e0", "1E0", str(2**64), "true", '"1"', "null", "[]"]:
            with self.subTest(found):
                wanted = f"column 12: [1]: expected {seat}, found {found}"
                self.tells(f'["give_up",{found},7]'.encode(), wanted)

    def test_a_number_that_is_too_large(self):
        self.tells(
            ["at", 0, 7, [["response", 0, 99999, []]]],
            "column 26: [3][0][2]: expected a status, a whole number of 16 bits, found 99999",
        )

    def test_an_item_too_few_and_one_too_many(self):
        self.tells(
            ["give_up", 0],
            'column 1: the line: expected ["give_up", seat, now]: 3 items, and there are 2',
        )
        self.tells(
            ["at", 0, 7, [["end", 0, 0]]],
            'column 12: [3][0]: expected ["end", call]: 2 items, and there are 3',
        )

    def test_a_text_that_is_no_json(self):
        self.tells(b"", "column 1: not JSON: expected a JSON array, found the end of the text")
        self.tells(
            b'["at",0,7 []]',
            "column 11: not JSON: expected `,` or `]`, found []]",
        )
        self.tells(b'["close"]\xff', "column 10: not UTF-8 from here on")

    def test_a_value_that_is_no_array(self):
        message = 'a message: "invoke", "at", "give_up", "sums" or "close", and what belongs to it'
        for text in ["{}", "7", "[]"]:
            with self.subTest(text):
                self.tells(text.encode(), f"column 1: the line: expected {message}, found {text}")

    def test_of_what_was_found_60_characters_are_told(self):
        long = "\u00e9" * 10_000
        why = refusals([f'["at",0,"{long}",[]]'.encode()])[0].why
        self.assertTrue(why.endswith("found " + f'"{long}'[:60] + ".."), why)


def descriptions() -> List[str]:
    """The first line of each conversation in examples/serve/."""
    files = sorted((EXAMPLES / "serve").glob("*.lines"))
    return [file.read_text().splitlines()[0] for file in files]


class DescriptionTest(ProgramTest):
    """Of a first line that is no description the place is told on standard error."""

    def tells(self, text: str, wanted: str):
        ran = run_told("serve", text=text)
        self.assertEqual(ran, (BAD_SCRIPT, "", f"smithy_replay: description{wanted}\n"))

    def test_each_description_damaged_at_each_of_its_values(self):
        tried = [damage for text in descriptions() for damage in damages(text)]
        tried = tried[:: 1 if is_proved() else STEP_UNPROVED]
        told = 0
        for damage in tried:
            with self.subTest(damage.name):
                ran = run_told("serve", text=damage.text + "\n")
                if ran.status == BAD_SCRIPT:
                    told += 1
                    self.tells_a_place_of(damage, ran.errors)
                elif ran.status == TOO_LARGE:
                    self.assertIn(" is above the limit of ", ran.errors)
                else:
                    self.assertEqual((ran.status, ran.errors), (0, ""))
        self.assertGreater(told, len(tried) // 2)

    def tells_a_place_of(self, damage: Damage, errors: str):
        found = DESCRIBED.fullmatch(errors)
        self.assertIsNotNone(found, errors)
        place = (found[3], int(found[2]), int(found[1]))
        if not (damage.is_shorter and ELSEWHERE.search(found[4])):
            places = [
                ("the description" if path == "the script" else path, column, line)
                for path, line, column in damage.places
            ]
            self.assertIn(place, places, errors)

    def test_a_client_that_holds_lengths(self):
        text = text_of(DESCRIPTION)
        column = text.index('"enforce":') + len('"enforce":') + 1
        wanted = (
            f", line 1, column {column}: clients[0].client.enforce: expected false, since of a "
            "long body a part stays with the host, found true"
        )
        self.tells(text.replace('"enforce":false', '"enforce":true') + "\n", wanted)

    def test_an_input_that_ends_in_its_first_line(self):
        wanted = ": the input ends before the line feed of its first line"
        self.tells(text_of(DESCRIPTION), wanted)
        self.tells("", wanted)

    def test_a_description_over_a_limit(self):
        wide = json.loads(text_of(DESCRIPTION))
        wide["buckets"][0][0] = 500_000_001
        ran = run_told("serve", text=text_of(wide) + "\n")
        wanted = "buckets[0][0]: 500000001 is above the limit of a capacity, which is 500000000"
        told = f"smithy_replay: description, line 1, column 14: {wanted}\n"
        self.assertEqual(ran, (TOO_LARGE, "", told))
