"""Gives `replay` scripts at each of their limits, and one past it. Without fuel a script within its
limits is read whole, and ends with status 11; one that passes a limit ends with status 6.
"""
from .support.direct import run
from .support.program import ProgramTest

NO_SCRIPT, TOO_LARGE, SDK_ERROR, UNFINISHED = 2, 6, 10, 11
FUEL = '{"fuel":0,'
REST = '"input":[1,""],"output_kind":1,"error_kind":2,"answers":['
BACK = "]}"
LARGEST_INPUT = 16 * 1024 * 1024
LARGEST_FUEL = 100_000
DEEPEST = 127
MOST_HEADERS = 32
MOST_KEYS = 64
LONGEST_TEXT = 4096
LONGEST_BODY = 16 * 1024
LONGEST_HEAD = 8 * 1024


def script(*answers: str) -> str:
    """A script without fuel, with these answers."""
    return FUEL + REST + ",".join(answers) + BACK


def failing(letters: int) -> str:
    """An answer with a text of so many letters."""
    return f'["Initial",["Failed","{"a" * letters}"]]'


class LimitTest(ProgramTest):
    def ends(self, status: int, text: str):
        """Compares the status. A script that is refused prints nothing."""
        ran = run("replay", text=text)
        self.assertEqual(ran.status, status)
        if status in (NO_SCRIPT, TOO_LARGE):
            self.assertEqual(ran.output, "")

    def test_fuel(self):
        self.ends(SDK_ERROR, f'{{"fuel":{LARGEST_FUEL},{REST}{BACK}')
        self.ends(TOO_LARGE, f'{{"fuel":{LARGEST_FUEL + 1},{REST}{BACK}')

    def test_the_bytes_of_an_input(self):
        text = script()
        blanks = LARGEST_INPUT - len(text)
        self.ends(UNFINISHED, " " * blanks + text)
        self.ends(TOO_LARGE, " " * (blanks + 1) + text)

    def test_levels(self):
        """The script is one level. Its second fuel takes the place of the nested one."""
        for lists, status in [(DEEPEST - 1, UNFINISHED), (DEEPEST, NO_SCRIPT)]:
            nested = "[" * lists + "]" * lists
            self.ends(status, f'{{"fuel":{nested},"fuel":0,{REST}{BACK}')

    def test_the_headers_of_a_head(self):
        for count, status in [(MOST_HEADERS, UNFINISHED), (MOST_HEADERS + 1, TOO_LARGE)]:
            headers = ",".join(['["a",""]'] * count)
            self.ends(status, script(f'["Transmit",["Response",[200,[{headers}],null]]]'))

    def test_the_bytes_of_a_head(self):
        for count, status in [(LONGEST_HEAD, UNFINISHED), (LONGEST_HEAD + 1, TOO_LARGE)]:
            header = f'["a","{"a" * (count - 1)}"]'
            self.ends(status, script(f'["Transmit",["Response",[200,[{header}],null]]]'))

    def test_the_keys_of_a_script(self):
        for count, status in [(MOST_KEYS, UNFINISHED), (MOST_KEYS + 1, TOO_LARGE)]:
            layers = (
                f'["Configure Client",["Layer",[["user.{key}",null]]]]' for key in range(count)
            )
            self.ends(status, script(*layers, '["Park","Parked"]'))

    def test_the_bytes_of_a_key(self):
        for count, status in [(LONGEST_TEXT, UNFINISHED), (LONGEST_TEXT + 1, TOO_LARGE)]:
            key = "user." + "a" * count
            self.ends(status, script(f'["Configure Client",["Layer",[["{key}",null]]]]'))

    def test_the_bytes_of_a_text(self):
        self.ends(UNFINISHED, script(failing(LONGEST_TEXT)))
        self.ends(TOO_LARGE, script(failing(LONGEST_TEXT + 1)))

    def test_the_bytes_of_a_body(self):
        for count, status in [(LONGEST_BODY, UNFINISHED), (LONGEST_BODY + 1, TOO_LARGE)]:
            self.ends(status, script(f'["Body",["Read","{"a" * count}"]]'))

    def test_what_is_no_script_comes_before_what_passes_a_limit(self):
        self.ends(NO_SCRIPT, script("1", failing(LONGEST_TEXT + 1)))
