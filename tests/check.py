"""Asks `check` of texts near the prints of two runs. What it must say of each was worked out from
the rules of a run and of a print. The module `damaged` takes single bytes and lines.
"""
from typing import Tuple

from .support.direct import run
from .support.program import EXAMPLES, ProgramTest

TEAPOT = (EXAMPLES / "teapot.txt").read_text()
CUT_LONG_POLL = (EXAMPLES / "long_poll.txt").read_text()
LAST_LINE = """["Ok",[1,"I'm a teapot!"]]\n"""
YES, NO = (0, '["yes"]\n'), (13, '["no"]\n')

Change = Tuple[str, str]


def changed(text: str, *changes: Change) -> str:
    """The text with its changes, one after another. What is changed must stand there."""
    for old, new in changes:
        if old not in text:
            raise ValueError(f"{old} doesn't stand in the text")
        text = text.replace(old, new)
    return text


class CheckTest(ProgramTest):
    def says(self, answer: Tuple[int, str], text: str, *changes: Change):
        """Compares what `check` says of the text with these changes."""
        self.assertEqual(run("check", text=changed(text, *changes)), answer)

    def test_another_status_of_the_response(self):
        self.says(YES, TEAPOT, ("[418,", "[500,"))

    def test_more_fuel_than_the_run_uses(self):
        self.says(YES, TEAPOT, (",1,2,34]", ",1,2,35]"))

    def test_an_output_of_another_type(self):
        self.says(YES, TEAPOT, ('"None",1,2,', '"None",3,2,'), ('["Ok",', '["WrongType",'))

    def test_an_outcome_that_is_a_failure_of_a_hook(self):
        fault = '["Interceptor","read_after_attempt","x"]'
        self.says(
            YES,
            TEAPOT,
            (
                '[33,"Hook modify_before_completion","Done"]',
                '[33,"Hook modify_before_completion",["Hook",["Outcome",["Failed",'
                + fault
                + "]],[],null]]",
            ),
            (LAST_LINE, f"""["ResponseError",{fault},[418,[],"I'm a teapot!"]]\n"""),
        )

    def test_another_request_that_was_handed_on(self):
        rest = '/",[],"what are you?"]]\n[23'
        self.says(NO, TEAPOT, ("1234" + rest, "1235" + rest))

    def test_no_request_that_was_handed_on(self):
        request = '["GET","http://localhost:1234/",[],"what are you?"]'
        self.says(NO, TEAPOT, (f",{request}]\n[23", "]\n[23"))

    def test_less_fuel_than_the_run_uses(self):
        self.says(NO, TEAPOT, (",1,2,34]", ",1,2,33]"))

    def test_a_run_whose_fuel_was_used_up(self):
        self.says(
            NO,
            TEAPOT,
            (",1,2,34]", ",1,2,33]"),
            ('[34,"Hook read_after_execution","Done"]\n', ""),
            (LAST_LINE, '["Unfinished"]\n'),
        )

    def test_an_output_of_another_type_that_is_printed_as_one(self):
        self.says(NO, TEAPOT, ('"None",1,2,', '"None",3,2,'))

    def test_another_answer_than_the_outcome_that_stands(self):
        self.says(NO, TEAPOT, ("""["Ok",[1,"I'm""", '["Ok",[1,"I am'))

    def test_two_hooks_that_change_places(self):
        self.says(
            NO,
            TEAPOT,
            ("read_after_attempt", "read_after_another"),
            ("modify_before_attempt_completion", "read_after_attempt"),
            ("read_after_another", "modify_before_attempt_completion"),
        )

    def test_an_answer_that_does_not_fit(self):
        self.says(NO, TEAPOT, ('"Initial","Go"', '"Initial","Started"'))

    def test_a_number_out_of_order(self):
        self.says(NO, TEAPOT, ("[32,", "[33,"))

    def test_a_run_to_another_stop_point(self):
        self.says(NO, TEAPOT, ('"None",1,2,', '"BeforeTransmit",1,2,'))

    def test_a_hook_of_the_attempt_behind_a_cut(self):
        self.says(NO, CUT_LONG_POLL, ("modify_before_completion", "read_after_attempt"))

    def test_a_space_more(self):
        self.says(NO, TEAPOT, (",1,2,34]", ",1, 2,34]"))

    def test_a_letter_that_is_escaped(self):
        self.says(NO, TEAPOT, ('[1,"what', '[1,"\\u0077hat'))

    def test_bytes_in_hex_that_a_string_shows(self):
        shown, in_hex = '"what are you?"', '{"hex":"776861742061726520796f753f"}'
        self.says(NO, TEAPOT, (f'"begin",[1,{shown}]', f'"begin",[1,{in_hex}]'))

    def test_a_number_past_64_bits(self):
        self.says(NO, TEAPOT, (",1,2,34]", f",1,2,{2**64}]"))

    def test_no_line_feed_at_the_end(self):
        self.says(NO, TEAPOT, (LAST_LINE, LAST_LINE.rstrip("\n")))

    def test_a_line_more(self):
        self.says(NO, TEAPOT, (LAST_LINE, LAST_LINE * 2))

    def test_a_first_line_alone(self):
        self.says(NO, '["begin",[1,""],"None",1,2,34]\n')

    def test_no_text(self):
        self.says(NO, "")
