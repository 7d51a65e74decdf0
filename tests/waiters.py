"""Runs waiters of `wait`, whose prints and statuses are worked out here anew."""
import json
from typing import Iterator, List, Optional, Tuple

from .support.program import ProgramTest, Ran, run
from .support.scripts import Words, to_text

SECOND = 1_000_000_000
OK, FAILED = 0, 20


class Waiter:
    """A waiter over a script, with its clock and its fuel."""

    def __init__(self, script: dict):
        self.script, self.now, self.fuel = script, script["start"], script["fuel"]
        self.words = Words(script["words"])
        self.lines: List[list] = []

    def asked_until(self, due: int) -> bool:
        """Whether the fuel lets this be asked until it is there, with the clock moved on."""
        while self.fuel > 0:
            self.fuel -= 1
            if self.now >= due:
                return True
            self.now = due
        return False

    def delay(self, attempt: int) -> int:
        """The delay behind the poll of this number, in nanoseconds."""
        least, most, longest = (self.script[name] for name in ("min", "max", "max_wait"))
        ceiling = max(number for number in range(1, 65) if least * 2 ** (number - 1) <= most)
        first = least // SECOND
        top = most // SECOND if attempt > ceiling else first * 2 ** (attempt - 1)
        drawn = (first + self.words.draw() * (top - first + 1) // 2**64) * SECOND
        left = max(0, longest - (self.now - self.script["start"]))
        return left if max(0, left - drawn) <= least else drawn

    def end_of(self, result, state: str) -> Optional[list]:
        """The line with which this poll ends the wait, if it does."""
        if result == "Timeout" or (result[0] == "Service" and state == "NoAcceptorsMatched"):
            return ["OperationFailed"]
        good = ["Ok", *result[1:]] if result[0] == "Output" else result
        return {"Success": good, "Failure": ["FailureState"]}.get(state)

    def run(self) -> Ran:
        """What is printed, and the status."""
        polls, had_no_delay, number = self.script["polls"], False, 0
        while True:
            number += 1
            nanos, result, state = polls[min(number, len(polls)) - 1]
            if not self.asked_until(self.now + nanos):
                return self.ended(["Unfinished"])
            self.lines.append(["poll", number, self.now])
            end = self.end_of(result, state)
            elapsed, longest = self.now - self.script["start"], self.script["max_wait"]
            if end is None and (had_no_delay or elapsed > longest):
                end = ["ExceededMaxWait", longest, elapsed, number]
            if end is not None:
                return self.ended(end)
            delay = self.delay(number)
            had_no_delay = had_no_delay or delay == 0
            if delay > 0:
                self.lines.append(["sleep", delay])
                if not self.asked_until(self.now + delay):
                    return self.ended(["Unfinished"])

    def ended(self, line: list) -> Ran:
        """All that is printed, with this line behind it."""
        status = OK if line[0] in ("Ok", "Service") else FAILED
        return Ran(status, to_text([*self.lines, line]))


AGAIN = [SECOND, ["Output", [1, "a"]], "Retry"]
AT_ONCE = [0, ["Output", [1, "a"]], "Retry"]
DONE = [SECOND, ["Output", [1, "b"]], "Success"]


def script_of(polls: List[list], **changed) -> dict:
    plan = {"min": 2 * SECOND, "max": 120 * SECOND, "max_wait": 300 * SECOND, "start": 0}
    return {**plan, "fuel": 1000, "words": [], "polls": polls, **changed}


def fifth_polls() -> Iterator[Tuple[str, dict]]:
    """Waiters whose fifth poll succeeds, at every fuel up to what they use and beyond."""
    for fuel in range(20):
        yield f"fuel {fuel}", script_of([AGAIN] * 4 + [DONE], fuel=fuel)


def first_polls() -> Iterator[Tuple[str, dict]]:
    """Each result of a first poll in each state."""
    for result in ("Timeout", ["Output", [1, "a"]], ["Service", [2, "a"]]):
        for state in ("NoAcceptorsMatched", "Success", "Failure", "Retry"):
            yield f"{result} in state {state}", script_of([[0, result, state], DONE])


LONG = [400 * SECOND, ["Output", [1, "a"]], "Retry"]
WAITS = [
    ("never there", script_of([AT_ONCE])),
    ("never there, with words", script_of([AT_ONCE], words=[0, 2**64 - 1, 5, 2**63])),
    ("one delay for all", script_of([AT_ONCE], min=5 * SECOND, max=5 * SECOND)),
    ("a wait that ends before its first delay", script_of([AT_ONCE], max_wait=SECOND)),
    ("no wait at all", script_of([AT_ONCE], max_wait=0)),
    ("a late poll", script_of([LONG], start=7)),
    ("words that are used up", script_of([AGAIN], words=[3, 2**63 + 11, 9, 2**62])),
    (
        "parts of a second",
        script_of([AGAIN], min=2 * SECOND + 5, max=30 * SECOND + 7, words=[2**64 - 1]),
    ),
]


class WaiterTest(ProgramTest):
    def compare(self, name: str, script: dict):
        with self.subTest(name):
            self.assertEqual(run("wait", text=json.dumps(script)), Waiter(script).run())

    def test_a_fifth_poll_succeeds_where_the_fuel_suffices(self):
        for name, script in fifth_polls():
            self.compare(name, script)

    def test_the_first_poll_ends_the_wait_or_not(self):
        for name, script in first_polls():
            self.compare(name, script)

    def test_delays_and_longest_waits(self):
        for name, script in WAITS:
            self.compare(name, script)
