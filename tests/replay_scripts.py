"""Gives `replay` scripts that are none, and scripts whose answers have forms that are seldom used.

A script that is none ends with status 2 and prints nothing, whatever its fuel. A script without
fuel is read whole, asks nothing, and ends with status 11.
"""
from .support.direct import run
from .support.program import ProgramTest

NO_SCRIPT, UNFINISHED = 2, 11
SCRIPT = '{"fuel":1,"input":[1,""],"output_kind":1,"error_kind":2,"answers":[]}'
FRONT, BACK = '{"fuel":0,"input":[1,""],"output_kind":1,"error_kind":2,"answers":[', "]}"
PAST_32_BITS, PAST_64_BITS = 2**32, 2**64


def layer(settings: str) -> str:
    """The answer of a client that sets these."""
    return f'["Configure Client",["Layer",[{settings}]]]'


def outcome(result: str) -> str:
    """The answer of a response that is read as this."""
    return f'["Deserialize",["Outcome",{result}]]'


def noted(choice: str, verdict: str, moment: str, word: str, reason: str, sums: str) -> str:
    """The answer of a decision with its note."""
    return f'["Decide",["Noted",{choice},[{verdict},{moment},{word},{reason},{sums}]]]'


def request(headers: str) -> str:
    """The answer of a request with these headers."""
    return f'["Serialize",["Request",["GET","/",[{headers}],null]]]'


class NoScriptTest(ProgramTest):
    def refuses(self, *texts: str):
        for text in texts:
            with self.subTest(text):
                self.assertEqual(run("replay", text=text), (NO_SCRIPT, ""))

    def refuses_changes(self, old: str, *others: str):
        """The script is none where others stand in the place of a part of it."""
        self.assertEqual(SCRIPT.count(old), 1)
        self.refuses(*(SCRIPT.replace(old, new) for new in others))

    def test_no_object_of_all_members(self):
        self.refuses("", "[]", '{"fuel":1.5}')

    def test_more_than_an_object(self):
        self.refuses(SCRIPT + "x", "\ufeff" + SCRIPT)

    def test_bytes_that_are_no_text(self):
        self.assertEqual(run("replay", text=b'{"\xff":1}'), (NO_SCRIPT, ""))

    def test_a_missing_member(self):
        members = ['"fuel":1,', '"input":[1,""],', '"output_kind":1,', '"error_kind":2,']
        for member in [*members, ',"answers":[]']:
            self.refuses_changes(member, "")

    def test_a_misspelled_member(self):
        self.refuses_changes('"fuel"', '"Fuel"')
        self.refuses_changes('"input"', '"inputs"')
        self.refuses_changes('"output_kind"', '"output-kind"')
        self.refuses_changes('"error_kind"', '"errorKind"')
        self.refuses_changes('"answers"', '"answer"')
        self.refuses_changes('"answers":[]', '"answers":[],"stops":"None"')

    def test_a_member_more(self):
        self.refuses_changes('"fuel":1', '"fuel":1,"more":1')

    def test_a_second_member_of_another_form(self):
        seconds = ['"fuel":null', '"input":1', '"output_kind":null', '"error_kind":[]']
        seconds += ['"answers":null', '"stop":"None","stop":1']
        self.refuses_changes('"answers":[]', *(f'"answers":[],{second}' for second in seconds))

    def test_a_stop_point_that_is_none(self):
        self.refuses_changes('"fuel":1', '"fuel":1,"stop":null', '"fuel":1,"stop":"End"')

    def test_fuel_that_is_no_whole_number_of_64_bits(self):
        self.refuses_changes(
            '"fuel":1', '"fuel":1.0', '"fuel":-1', f'"fuel":{PAST_64_BITS}', '"fuel":"1"'
        )

    def test_an_input_that_is_no_payload(self):
        self.refuses_changes('[1,""]', f'[{PAST_32_BITS},""]', '[1,"",0]', "{}")

    def test_hex_that_is_none(self):
        blobs = ['{"hex":"0"}', '{"hex":"0F"}', '{"hex":"0g"}', '{"hex":"","x":1}']
        self.refuses_changes('[1,""]', *(f"[1,{blob}]" for blob in blobs))

    def test_kinds_that_are_no_whole_numbers(self):
        self.refuses_changes(
            '"output_kind":1', '"output_kind":"1"', f'"output_kind":{PAST_64_BITS}'
        )
        self.refuses_changes(
            '"error_kind":2',
            '"error_kind":true',
            f'"error_kind":{PAST_64_BITS}',
            '"error_kind":-0',
        )

    def test_answers_that_are_no_list_of_answers(self):
        self.refuses_changes('"answers":[]', '"answers":{}', '"answers":[[]]')


class NoAnswerTest(ProgramTest):
    def refuses(self, *answers: str):
        for answer in answers:
            with self.subTest(answer):
                self.assertEqual(run("replay", text=FRONT + answer + BACK), (NO_SCRIPT, ""))

    def test_a_kind_that_no_question_has(self):
        self.refuses('["Teapot","Absent"]', '["Hook read_before_attempts","Done"]')

    def test_an_answer_that_its_kind_has_not(self):
        self.refuses(
            '["Initial","Ready"]',
            '["Initial","Go",1]',
            '["Serialize","NoMemory"]',
            '["Wait Retry","Absent"]',
            '["Park","Ready"]',
            '["Hook read_before_attempt",["Hook",null,[],null]]',
        )

    def test_a_mark_that_is_false(self):
        self.refuses(layer('["v2",false]'))

    def test_a_key_that_stands_twice(self):
        self.refuses(layer('["v2",null],["v2",true]'))

    def test_a_key_that_no_setting_has(self):
        self.refuses(layer('["teapot",1]'))

    def test_a_retry_version_that_there_is_not(self):
        retry = '["Standard",1,0,0,"ReuseAllConnections",true,["V2_2",true,0]]'
        self.refuses(layer(f'["retry",{retry}]'))

    def test_headers_that_http_does_not_allow(self):
        self.refuses(request('["a b","x"]'), request('["a",{"hex":"0a"}]'), request('["","x"]'))

    def test_a_connector_failure_without_a_kind_that_there_is(self):
        self.refuses(
            '["Transmit",["Failed","x"]]', '["Transmit",["Failed",["Other","TeapotError"],"x"]]'
        )

    def test_a_failure_of_a_hook_that_a_script_writes(self):
        self.refuses(outcome('["Failed",["Interceptor","read_before_attempt","x"]]'))

    def test_a_note_without_its_parts(self):
        self.refuses('["Decide",["Noted","No",null]]')

    def test_a_status_past_16_bits(self):
        self.refuses('["Transmit",["Response",[65536,[],null]]]')

    def test_a_number_past_32_bits(self):
        retry = f'["Standard",{PAST_32_BITS},0,0,"ReuseAllConnections",true,null]'
        refused, granted = f'["NoQuota",{PAST_32_BITS}]', f'["Granted",{PAST_32_BITS}]'
        self.refuses(
            layer(f'["bucket",{PAST_32_BITS}]'),
            layer(f'["retry",{retry}]'),
            noted('"No"', '"RetryForbidden"', "null", "0", refused, "null"),
            noted('"No"', '"RetryForbidden"', "null", "0", granted, "null"),
            outcome(f'["Output",[{PAST_32_BITS},""]]'),
        )

    def test_a_setting_past_64_bits(self):
        past, rest = PAST_64_BITS, '"ReuseAllConnections",true'
        for setting in [
            f'["timeouts",[null,null,{past},null]]',
            f'["retry",["Standard",1,{past},0,{rest},null]]',
            f'["retry",["Standard",1,0,{past},{rest},null]]',
            f'["retry",["Standard",1,0,0,{rest},["V2_0",true,{past}]]]',
            f'["stall",[true,true,{past}]]',
            f'["capture",{past}]',
            f'["poisoned",{past}]',
        ]:
            self.refuses(layer(setting))

    def test_a_moment_or_a_span_past_64_bits(self):
        self.refuses(
            f'["Initial",["Delay",{PAST_64_BITS}]]',
            f'["Choose",["Chosen","s",["",{PAST_64_BITS}],null,[],null]]',
            f'["Decide",["Delay",{PAST_64_BITS}]]',
        )

    def test_a_number_of_a_note_past_64_bits(self):
        past, forbidden, reason = str(PAST_64_BITS), '"RetryForbidden"', '"NotIndicated"'
        verdict = f'["RetryIndicated","ServerError",{past}]'
        self.refuses(
            noted('"No"', verdict, "null", "0", reason, "null"),
            noted('"No"', forbidden, past, "0", reason, "null"),
            noted('"No"', forbidden, "null", past, reason, "null"),
            noted('"No"', forbidden, "null", "0", reason, f"[1,2,3,4,{past}]"),
        )


class ScriptTest(ProgramTest):
    def test_a_later_member_takes_the_place_of_an_earlier_one(self):
        text = SCRIPT.replace('"fuel":1', '"fuel":1.5,"fuel":0')
        self.assertEqual(run("replay", text=text).status, UNFINISHED)

    def test_answers_of_rare_forms_are_read(self):
        retry = '["Standard",1,0,0,"ReuseAllConnections",true,["V2_1",true,0]]'
        own = '["user.",{"hex":""}],["upload",true],["partition","p"],["stall",[true,false,1]]'
        indicated = '["RetryIndicated","ServerError",4]'
        for answer in [
            layer(f'["retry",{retry}]'),
            layer(own),
            '["Decide",["NoAfter",7]]',
            noted('["NoAfter",7]', '"NoActionIndicated"', "null", "6", '["NoQuota",5]', "null"),
            noted('["Delay",3]', indicated, "5", "6", '["Granted",4294967295]', "[1,2,3,4,5]"),
            '["Wait LongPoll","Ready"]',
            '["Start LongPoll","Absent"]',
            '["Abandon Wait LongPoll","Abandoned"]',
            '["Body",["Read",{"hex":"c3a9"}]]',
            '["Endpoint",["Endpoint",["u",[["n",["v","w"]]],["a"]]]]',
            '["Hook read_before_attempt",["Hook",["Outcome",["Output",[4294967295,"x"]]],[],""]]',
        ]:
            with self.subTest(answer):
                self.assertEqual(run("replay", text=FRONT + answer + BACK).status, UNFINISHED)
