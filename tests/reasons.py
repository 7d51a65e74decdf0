"""Hands the program scripts that it refuses, and compares the line on standard error: the place,
and the reason.

Each example is damaged at each of its values in turn, by a reader of JSON that stands in
`support/damage.py`; what is told is to be the damaged place. What else is refused in the other
modules has a reason too, which `support/direct.py` looks at.
"""
import re
from typing import Iterator, List, Tuple

from .support.damage import Damage, damages
from .support.direct import BAD_SCRIPT, BAD_WORDS, TOO_LARGE, run_told, tells_left_over
from .support.program import EXAMPLES, ProgramTest, is_proved

# A list that has an item less may still be a list, and then a place in it is wrong elsewhere.
ELSEWHERE = re.compile("expected the place of one of|isn't one of the schemes")
# A program that was compiled without proofs is slow, so over it every so many-th text is tried.
STEP_UNPROVED = 29
FOLDERS = {
    "replay": ".",
    "client": "client",
    "fleet": "fleet",
    "wait": "wait",
    "waiters": "waiters",
}
LINE = re.compile(r"smithy_replay: (\w+) script, line (\d+), column (\d+): (.*?): (.*)\n")
ONE_CLIENT = (EXAMPLES / "client/a_retry_after_503.json").read_text()
TEAPOT = (EXAMPLES / "teapot.json").read_text()
FIFTH_POLL = (EXAMPLES / "wait/fifth_poll.json").read_text()


def all_damaged(command: str) -> Iterator[Tuple[str, Damage]]:
    for path in sorted((EXAMPLES / FOLDERS[command]).glob("*.json")):
        for damage in damages(path.read_text()):
            yield path.name, damage


def damaged_examples(command: str) -> List[Tuple[str, Damage]]:
    """The examples of a command, each damaged at each of its values, with their names."""
    return list(all_damaged(command))[:: 1 if is_proved() else STEP_UNPROVED]


class DamageTest(ProgramTest):
    """What is damaged is told."""

    def tells_the_place(self, command: str):
        told = 0
        tried = damaged_examples(command)
        for name, damage in tried:
            with self.subTest(f"{name} {damage.name}"):
                ran = run_told(command, text=damage.text)
                if ran.status == BAD_SCRIPT:
                    told += 1
                    found = LINE.fullmatch(ran.errors)
                    self.assertIsNotNone(found, ran.errors)
                    place = (found[4], int(found[2]), int(found[3]))
                    if not (damage.is_shorter and ELSEWHERE.search(found[5])):
                        self.assertIn(place, damage.places, ran.errors)
                elif ran.status == TOO_LARGE:
                    self.assertIn(" is above the limit of ", ran.errors)
                else:
                    self.assertTrue(tells_left_over(ran.errors), ran.errors)
        self.assertGreater(told, len(tried) // 2)

    def test_scripts_of_replay(self):
        self.tells_the_place("replay")

    def test_scripts_of_client(self):
        self.tells_the_place("client")

    def test_scripts_of_fleet(self):
        self.tells_the_place("fleet")

    def test_scripts_of_wait(self):
        self.tells_the_place("wait")

    def test_scripts_of_waiters(self):
        self.tells_the_place("waiters")


def change(text: str, old: str, new: str) -> str:
    assert text.count(old) >= 1, old
    return text.replace(old, new, 1)


class ReasonTest(ProgramTest):
    """Wrong scripts of a newcomer, with the line that each gets."""

    def tells(self, command: str, text, status: int, *wanted: str):
        ran = run_told(command, text=text)
        self.assertEqual((ran.status, ran.output), (status, ""))
        for part in wanted:
            self.assertIn(part, ran.errors)

    def test_a_typo_in_a_member(self):
        text = change(TEAPOT, '"fuel"', '"feul"')
        self.tells("replay", text, BAD_SCRIPT, ": feul: no such member", 'did you mean "fuel"?')

    def test_a_typo_in_a_kind(self):
        text = change(TEAPOT, '"Serialize"', '"Serialise"')
        self.tells("replay", text, BAD_SCRIPT, "[0]: expected", 'did you mean "Serialize"?')

    def test_a_float(self):
        text = change(TEAPOT, '"fuel":34', '"fuel":34.5')
        self.tells("replay", text, BAD_SCRIPT, ": fuel: expected fuel, a whole", "found 34.5")

    def test_a_missing_comma(self):
        text = change(TEAPOT, "34,", "34 ")
        self.tells("replay", text, BAD_SCRIPT, "not JSON: expected `,` or `}`")

    def test_an_unknown_answer(self):
        text = change(TEAPOT, '["Initial","Go"]', '["Initial","Gone"]')
        self.tells("replay", text, BAD_SCRIPT, "[1]: expected", 'did you mean "Go"?')

    def test_a_status_past_16_bits(self):
        text = change(ONE_CLIENT, "503,[]", "99999,[]")
        place = "invocations[0].responses[0][1]: expected a status"
        self.tells("client", text, BAD_SCRIPT, place, "found 99999")

    def test_an_item_too_few(self):
        text = change(ONE_CLIENT, "[[500,5,5,10,0,0]]", "[[500,5,5,10,0]]")
        self.tells("client", text, BAD_SCRIPT, "buckets[0]: expected", "6 items, and there are 5")

    def test_an_empty_text(self):
        self.tells("client", "", BAD_SCRIPT, "line 1, column 1: not JSON: expected a JSON object")

    def test_a_script_of_another_command(self):
        self.tells("client", FIFTH_POLL, BAD_SCRIPT, ": min: no such member")

    def test_a_mode_in_lower_case(self):
        text = change(ONE_CLIENT, '"Standard"', '"standard"')
        place = "clients[0].retry[0]: expected a retry mode"
        self.tells("client", text, BAD_SCRIPT, place, 'did you mean "Standard"?')

    def test_a_client_that_is_not_there(self):
        text = change(ONE_CLIENT, '"client":0', '"client":7')
        place = "invocations[0].client: expected the place of one of 1 clients"
        self.tells("client", text, BAD_SCRIPT, place, "found 7")

    def test_a_bucket_that_is_not_there(self):
        text = change(ONE_CLIENT, '"bucket":0', '"bucket":7')
        place = "clients[0].bucket: expected the place of one of 1 buckets"
        self.tells("client", text, BAD_SCRIPT, place, "found 7")

    def test_an_id_that_is_written_wrong(self):
        auth = '"http_schemes":[["bearer"]],"auth":[[],["http-bearer-aut"],[],null,"none"]'
        text = change(ONE_CLIENT, '"auth":"none"', auth)
        self.tells("client", text, BAD_SCRIPT, "clients[0].http_schemes[0]: ", "http-bearer-auth")

    def test_a_bad_name_of_a_header(self):
        text = change(ONE_CLIENT, "503,[]", '503,[["a b","c"]]')
        place = "responses[0][2][0][0]: expected the name of a header"
        self.tells("client", text, BAD_SCRIPT, place, 'found "a b"')

    def test_a_missing_member(self):
        text = change(ONE_CLIENT, '"start":0,', "")
        self.tells("client", text, BAD_SCRIPT, 'the script: the member "start" is missing')

    def test_a_text_that_is_not_utf_8(self):
        text = ONE_CLIENT.encode().replace(b'"s"', b'"\xff"')
        self.tells("client", text, BAD_SCRIPT, "not UTF-8")

    def test_a_number_that_no_float_holds(self):
        text = change(TEAPOT, '"fuel":34', '"fuel":1e999,"fuel":34')
        self.tells("replay", text, BAD_SCRIPT, "not JSON: expected a value, found 1e999")

    def test_17_mib(self):
        self.tells("client", " " * (17 << 20), TOO_LARGE, "more than 16777216 bytes")


class WordTest(ProgramTest):
    """What is said of words that are no command, and short forms of those that are one."""

    def says(self, words: str, wanted: str):
        ran = run_told(*words.split())
        self.assertEqual((ran.status, ran.output), (BAD_WORDS, ""))
        self.assertIn(wanted, ran.errors)

    def test_words_that_are_no_command(self):
        self.says("replay FILE", "give the script on standard input: replay < FILE")
        self.says("make 1", "make N SEED: two decimal numbers, N at most 1000")
        self.says("relpay", "did you mean replay?")
        self.says("--schema teapot", "--schema COMMAND: ")
        self.says("", "a command is missing")

    def test_short_forms(self):
        for short, whole in [("help", "--help"), ("-h", "--help"), ("version", "--version")]:
            self.assertEqual(run_told(short), run_told(whole))
        self.assertEqual(run_told("-V"), run_told("--version"))


class LimitTest(ProgramTest):
    """A script over a limit is told the number and the limit."""

    def tells(self, command: str, text: str, *wanted: str):
        ran = run_told(command, text=text)
        self.assertEqual((ran.status, ran.output), (TOO_LARGE, ""))
        for part in wanted:
            self.assertIn(part, ran.errors)

    def test_fuel(self):
        text = change(TEAPOT, '"fuel":34', '"fuel":200000')
        wanted = ": fuel: 200000 is above the limit of the script's fuel, which is 100000"
        self.tells("replay", text, wanted)

    def test_a_text(self):
        text = change(ONE_CLIENT, '"service":"s"', f'"service":"{"s" * 5000}"')
        wanted = "clients[0].service: 5000 is above the limit of a text in bytes, which is 4096"
        self.tells("client", text, wanted)

    def test_a_capacity(self):
        text = change(ONE_CLIENT, "[500,", "[500000001,")
        wanted = "buckets[0][0]: 500000001 is above the limit of a capacity, which is 500000000"
        self.tells("client", text, wanted)
