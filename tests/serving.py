"""Serves hosts that say what they like, and compares what they are told.

The conversations of examples/serve/ are compared by the module `examples`. Here a conversation is
changed, and what is told of the lines that weren't has to stay.
"""
import functools
import json
import random
import subprocess
from typing import Any, Iterable, List, Tuple, Union

from .support.program import EXAMPLES, ProgramTest, is_proved, path, run

Line = Union[str, List[Any]]

RETRIED = (EXAMPLES / "serve/a_retry_after_503.lines").read_text().splitlines()
DESCRIPTION = json.loads(RETRIED[0])
REQUEST = json.dumps(["POST", "/x", [], "hi"])
INVOKE = ["invoke", 0, 0, [1, REQUEST], 1000, "None", True]
IDENTITY = ["at", 0, 5, [["identity", "key", ["secret", None]]]]
FAILURE = ["at", 0, 10, [["response", 0, 503, []], ["data", 0, "busy"], ["end", 0]]]
WAKE = ["at", 0, 2_000_000_000, []]
LENGTH = ["content-length", "2"]
SUCCESS = [
    *("at", 0, 2_000_000_100),
    [["response", 1, 200, [LENGTH]], ["data", 1, "ok"], ["end", 1]],
]
CONVERSATION: List[Line] = [INVOKE, IDENTITY, FAILURE, WAKE, SUCCESS]
OUTPUT = ["Ok", [1, json.dumps([200, [LENGTH], "ok"], separators=(",", ":"))]]
SEAT_WORDS = ("begin", "load", "poison", "park", "done")
BUCKET_TERMS = ("capacity", "retry_cost", "throttling_cost", "transient_cost")
BAD_SCRIPT, TOO_LARGE = 2, 6


def text_of(line: Any) -> str:
    return line if isinstance(line, str) else json.dumps(line, separators=(",", ":"))


def lines_told(lines: Iterable[Line], description: Any = None) -> List[str]:
    """What the host of these lines is told."""
    said = [DESCRIPTION if description is None else description, *lines]
    return run("serve", text="".join(f"{text_of(line)}\n" for line in said)).output.splitlines()


def told(lines: Iterable[Line]) -> List[Any]:
    return [json.loads(line) for line in lines_told(lines)]


@functools.lru_cache(maxsize=None)
def whole() -> Tuple[str, ...]:
    """What the host of the whole conversation is told."""
    return tuple(lines_told(CONVERSATION))


def words(lines: Iterable[Any]) -> List[str]:
    """The first word of each line, but of entries, which begin with a number."""
    return [line[0] for line in lines if isinstance(line[0], str)]


def noise(draw: random.Random) -> str:
    """A line that is no message, or is for no seat, or isn't what the run waits for."""
    letters = "".join(chr(draw.randrange(32, 127)) for _ in range(draw.randrange(30)))
    return draw.choice(
        [
            letters,
            '["at",1,5,[]]',
            '["invoke",0,0,[1,"x"],10,"None"]',
            '["invoke",7,0,[1,"x"],10,"None",true]',
            '["at",0,"x",[]]',
            '["close",1]',
            '["give_up",7,0]',
            '["at",0,5,[["response",0]]]',
            '["sums",0]',
        ]
    )


def with_seats(count: int, **bucket: int) -> Any:
    """The description with so many seats of its client, and with other terms of its bucket."""
    changed = json.loads(json.dumps(DESCRIPTION))
    changed["clients"] *= count
    terms = changed["buckets"][0]
    terms[:4] = [bucket.get(name, now) for name, now in zip(BUCKET_TERMS, terms)]
    return changed


def stalling() -> Any:
    """The description with a client whose guard gives a body up that is slow for 0.2 s."""
    changed = json.loads(json.dumps(DESCRIPTION))
    changed["clients"][0]["client"].update(stall=[False, True, 200_000_000], auth="none")
    return changed


def at_seat(seat: int, line: Line) -> Line:
    """The same line for another seat."""
    return [line[0], seat, *line[2:]]


class ServingTest(ProgramTest):
    def test_the_log_of_a_served_run_is_one_that_check_says_yes_to(self):
        lines = lines_told(CONVERSATION)
        done = json.loads(lines[-1])
        self.assertEqual((done[0], done[3]), ("done", OUTPUT))
        entries = [line for line in lines if line[1].isdigit()]
        head = text_of(["begin", [1, REQUEST], "None", 1, 2, 1000])
        printed = "".join(f"{line}\n" for line in [head, *entries, text_of(done[3])])
        self.assertEqual(len(entries), done[2])
        self.assertEqual(run("check", text=printed), (0, '["yes"]\n'))

    def test_lines_that_are_refused_change_nothing(self):
        draw = random.Random(3)
        mixed: List[Line] = []
        for line in CONVERSATION:
            mixed += [*(noise(draw) for _ in range(400)), line]
        lines = lines_told(mixed)
        kept = [line for line in lines if not line.startswith('["refused"')]
        self.assertEqual(tuple(kept), whole())
        self.assertEqual(len(lines) - len(kept), 400 * len(CONVERSATION))

    def test_a_request_a_load_and_a_poisoned_connection_are_told_once(self):
        answers = words(told(CONVERSATION))
        self.assertEqual(answers.count("begin"), 2)
        self.assertEqual(answers.count("load"), 1)
        self.assertEqual(answers.count("poison"), 1)

    def test_what_is_not_open_and_what_comes_twice_is_let_go(self):
        stranger = ["response", 3, 500, []]
        other = ["identity", "other", ["x", None]]
        again = ["identity", "key", ["evil", None]]
        lines: List[Line] = [
            INVOKE,
            ["at", 0, 5, [stranger, other, *IDENTITY[3], again]],
            ["at", 0, 10, [stranger, *FAILURE[3], ["response", 0, 200, []], ["data", 0, "more"]]],
            ["at", 0, 3, []],
            [*WAKE[:3], [["end", 0], ["response", 0, 200, []]]],
            SUCCESS,
        ]
        self.assertEqual(told(lines)[-1][3], OUTPUT)

    def test_a_run_that_is_given_up_is_over(self):
        lines = told([INVOKE, IDENTITY, ["give_up", 0, 6], ["give_up", 0, 7], ["at", 0, 8, []]])
        self.assertEqual(lines[-3][3], ["GivenUp"])
        self.assertEqual(lines[-2:], [["refused", "idle"], ["refused", "idle"]])

    def test_a_seat_is_busy_while_its_run_goes_on(self):
        lines = told([INVOKE, INVOKE, IDENTITY, ["invoke", 1, 0, [1, REQUEST], 9, "None", False]])
        refusals = [line for line in lines if line[0] == "refused"]
        self.assertEqual(refusals, [["refused", "busy"], ["refused", "no seat"]])

    def test_a_second_run_keeps_the_identity_and_counts_its_calls_on(self):
        second = ["invoke", 0, 3_000_000_000, [1, REQUEST], 1000, "None", False]
        answer = ["at", 0, 3_000_000_001, [["response", 2, 204, []], ["end", 2]]]
        lines = told([*CONVERSATION, second, answer])
        self.assertEqual(words(lines)[-3:], ["begin", "park", "done"])
        self.assertEqual(lines[-3][2], 2)
        self.assertEqual(lines[-1][3], ["Ok", [1, '[204,[],""]']])

    def test_runs_at_three_seats_go_on_at_once_as_each_would_alone(self):
        mixed = [at_seat(seat, line) for line in CONVERSATION for seat in (2, 0, 1)]
        lines = lines_told(mixed, with_seats(3))[1:]
        alone = [json.loads(line) for line in whole()[1:] if not line[1].isdigit()]
        for seat in range(3):
            own = [it for it in map(json.loads, lines) if it[0] in SEAT_WORDS and it[1] == seat]
            self.assertEqual(own, [at_seat(seat, line) for line in alone])

    def test_seats_share_a_bucket_which_pays_for_one_retry_alone(self):
        lines = [at_seat(seat, line) for line in CONVERSATION[:3] for seat in (0, 1)]
        answers = [json.loads(it) for it in lines_told([*lines, ["sums"]], with_seats(2, capacity=10))]
        ends = [it for it in answers if it[0] == "done"]
        self.assertEqual([(it[1], it[3][0]) for it in ends], [(1, "ServiceError")])
        # all ten tokens are held by the retry of seat 0
        self.assertEqual(answers[-2:], [["bucket", 0, [10, 0, 0, 10, 0]], ["end"]])

    def test_what_the_buckets_hold_is_told_at_any_time(self):
        lines = told([["sums"], *CONVERSATION[:3], ["sums"], *CONVERSATION[3:], ["sums"]])
        sums = [line[2] for line in lines if line[0] == "bucket"]
        # a success gives the tokens of its retry up where the bucket rewards it, as this one does
        wanted = [[500, 0, 500, 0, 0], [500, 0, 490, 10, 0], [500, 0, 490, 0, 10]]
        self.assertEqual(sums, wanted)
        self.assertEqual(words(lines).count("end"), 3)

    def test_a_run_waits_whatever_came_that_nobody_asks_for(self):
        asked = ["invoke", 0, 0, [1, REQUEST], 1000, "None", False]
        slow = [["at", 0, tenth * 100_000_000, []] for tenth in range(1, 12)]
        lines = [asked, ["at", 0, 0, [["response", 0, 200, []]]], *slow]
        parked = lines_told(lines, stalling())[-2:]
        self.assertEqual(words(map(json.loads, parked)), ["poison", "park"])
        for late in (["data", 0, "x"], ["end", 0], ["trailers", 0]):
            with self.subTest(late):
                more = ["at", 0, 1_100_000_001, [late]]
                self.assertEqual(lines_told([*lines, more], stalling())[-1], parked[-1])

    def test_fuel_a_stop_point_and_an_input_that_is_no_request(self):
        for input_text, fuel, stop, word in [
            (REQUEST, 5, "None", "Unfinished"),
            ("no", 1000, "None", "ConstructionFailure"),
        ]:
            with self.subTest(word):
                line = ["invoke", 0, 0, [1, input_text], fuel, stop, False]
                self.assertEqual(told([line])[-1][3][0], word)
        stopped = ["invoke", 0, 0, [1, REQUEST], 1000, "BeforeTransmit", False]
        self.assertEqual(told([stopped, IDENTITY])[-1][3][0], "Stopped")

    def test_of_a_long_body_its_first_16384_bytes_are_read(self):
        whole = ["at", 0, 6, [["response", 0, 200, []], ["data", 0, "x" * 40000], ["end", 0]]]
        lines = told([INVOKE, IDENTITY, whole])
        output = json.loads(lines[-1][3][1][1])
        self.assertEqual(output[2], "x" * 16384)
        self.assertEqual(words(lines).count("begin"), 1)

    def test_each_damaged_message_is_refused_and_the_run_ends_as_it_would(self):
        for place, line in enumerate(CONVERSATION):
            for part in range(1, len(line)):
                for damaged in (None, -1, {}, "?"):
                    changed = [*line[:part], damaged, *line[part + 1 :]]
                    with self.subTest(changed):
                        lines = [*CONVERSATION[:place], changed, *CONVERSATION[place:]]
                        kept = [it for it in lines_told(lines) if it[:10] != '["refused"']
                        self.assertEqual(tuple(kept), whole())

    def test_statuses_of_what_is_no_conversation(self):
        self.assertEqual(run("serve", text=""), (BAD_SCRIPT, ""))
        self.assertEqual(run("serve", text="{}\n"), (BAD_SCRIPT, ""))
        held = json.loads(json.dumps(DESCRIPTION))
        held["clients"][0]["client"]["enforce"] = True
        self.assertEqual(run("serve", text=text_of(held) + "\n"), (BAD_SCRIPT, ""))
        wide = json.loads(json.dumps(DESCRIPTION))
        wide["buckets"][0][0] = 500_000_001
        self.assertEqual(run("serve", text=text_of(wide) + "\n"), (TOO_LARGE, ""))
        self.assertEqual(run("serve", text=text_of(DESCRIPTION) + "\n"), (0, '["opened",1]\n'))

    def test_a_line_of_16_mib_is_read_and_a_longer_one_is_not(self):
        if not is_proved():
            self.skipTest("a program without proofs takes half a minute for it")
        place = "column 1: not JSON: expected a JSON array, found " + "x" * 60 + ".."
        refused = f'["refused","no message: {place}"]'
        for size, wanted in [(2**24, (0, refused)), (2**24 + 1, (TOO_LARGE, ""))]:
            with self.subTest(size):
                ran = run("serve", text=f"{text_of(DESCRIPTION)}\n{'x' * size}\n")
                told_of = "".join(ran.output.splitlines()[1:])
                self.assertEqual((ran.status, told_of), wanted)

    def test_each_line_is_answered_before_the_next_one_is_said(self):
        with subprocess.Popen(
            [path(), "serve"], stdin=subprocess.PIPE, stdout=subprocess.PIPE, text=True, bufsize=1
        ) as engine:
            answers = []
            for line in [DESCRIPTION, *CONVERSATION]:
                engine.stdin.write(f"{text_of(line)}\n")
                engine.stdin.flush()
                answers += until_answered(engine)
            engine.stdin.close()
            self.assertEqual(engine.wait(), 0)
        self.assertEqual(tuple(answers), whole())


def until_answered(engine: "subprocess.Popen[str]") -> List[str]:
    """The lines up to the one that ends the answer to a line."""
    lines = []
    for line in engine.stdout:
        lines.append(line.rstrip("\n"))
        if json.loads(line)[0] in ("opened", "park", "done", "refused", "end"):
            break
    return lines
