"""Lets `fleet` run callers under one bucket, and works out anew what each of them prints: from the
script, and from which of its retries were granted, as its own lines say. Then the steps of all
callers are counted, and compared with the sums of the bucket and the length of its history. Scripts
that are none, or pass a limit, are refused.

It knows callers without deadlines and without auth, whose every request gets a response.
"""
import json
import random
from typing import Iterable, Iterator, List, NamedTuple, Optional, Tuple

from .support.program import EXAMPLES, ProgramTest, Ran, run
from .support.scripts import Words, to_lines, to_text

KINDS = {"throttle": "ThrottlingError", "transient": "TransientError", "server": "ServerError"}
CALLERS, INVOCATIONS = 16, 50
NO_SCRIPT, TOO_LARGE, SERVICE_ERROR, UNFINISHED = 2, 6, 10, 11
# Capacities of the bucket, with the thousandths of a token that a success is rewarded with.
BUCKETS = [(100, 0), (500, 0), (100, 1500)]
# The choice of an attempt, and the note on it.
Decision = Tuple[list, Optional[list]]


def hooks(*names: str) -> List[list]:
    """Entries of hooks that change nothing."""
    return [["Hook " + name, "Done"] for name in names]


class Caller:
    """A client with its slot for a permit, its outside, and its steps at the bucket."""

    def __init__(self, script: dict, record: dict, replies: Iterable[bool]):
        self.client, self.invocations = record["client"], record["invocations"]
        self.costs, self.reward = script["bucket"][1:4], script["bucket"][4]
        self.moment, self.words = script["start"], Words(script["words"])
        self.replies, self.held = iter(replies), None
        self.steps: List[Tuple[str, Optional[int]]] = []
        self.whole = False

    def lines(self) -> Iterator[list]:
        """All that it prints behind its own line."""
        for number, invocation in enumerate(self.invocations):
            yield ["invocation", number, 0]
            self.whole, entries = False, self.entries(invocation)
            for place in range(1, invocation["fuel"] + 1):
                yield [place, *next(entries)]
                if self.whole:
                    break
            yield self.answer if self.whole else ["Unfinished"]
        if self.held is not None:
            self.spend("release")

    def entries(self, invocation: dict) -> Iterator[list]:
        """The calls of an invocation, one after another."""
        data = invocation["input"][1]
        yield from self.opening(data)
        request = ["POST", self.client["url"] + "/", [], data]
        for attempt, record in enumerate(invocation["responses"], 1):
            choice = yield from self.attempt(attempt, request, record)
            if choice[0] != "Delay":
                break
            yield ["Start Retry", "Started"]
            yield from self.until("Wait Retry", self.moment + choice[1])
            yield ["Wait Retry", "Ready"]
        yield from hooks("modify_before_completion")
        self.whole = True
        yield from hooks("read_after_execution")

    def opening(self, data: str) -> Iterator[list]:
        """The calls before the first attempt."""
        yield ["Configure Client", ["Layer", self.layer()]]
        yield from hooks("read_before_execution client")
        yield ["Configure Operation", ["Layer", []]]
        yield from hooks("read_before_execution operation")
        yield ["Configure Final", ["Layer", []]]
        yield from hooks("modify_before_serialization", "read_before_serialization")
        yield ["Serialize", ["Request", ["POST", "/", [], data]]]
        yield from hooks("read_after_serialization")
        yield ["Hook modify_before_retry_loop", ["Hook", None, [["bucket", 0]], None]]
        yield ["Initial", "Go"]

    def layer(self) -> List[list]:
        """What the client sets, in the order of keys."""
        retry = [] if self.client["retry"] == "never" else [["retry", self.client["retry"]]]
        marks = [[key, True] for key in ("v2", "endpoint_params", "auth_params")]
        named = [["partition", self.client["service"]]]
        return [["timeouts", self.client["timeouts"]], *retry, *named, *marks]

    def until(self, kind: str, due: int) -> Iterator[list]:
        """Asks that aren't answered before this moment."""
        if due > self.moment:
            yield [kind, "Pending"]
            self.moment = due
            yield ["Park", "Parked"]

    def attempt(self, number: int, request: list, record: list) -> Iterator[list]:
        """The calls of one attempt; its choice comes back."""
        delay, status, headers, frames, _, clock = record
        yield from hooks("read_before_attempt")
        yield ["Choose", ["Chosen", "noAuth", ["", None], None, [], "Uncached"]]
        yield ["Endpoint", ["Endpoint", [self.client["url"], [], None]]]
        yield ["Apply", ["Request", request]]
        yield from hooks("modify_before_signing", "read_before_signing")
        yield ["Sign", ["Request", request]]
        yield from hooks("read_after_signing", "modify_before_transmit", "read_before_transmit")
        yield from self.until("Transmit", self.moment + delay)
        self.moment = self.moment if clock is None else clock
        yield ["Transmit", ["Response", [status, headers, None]], request]
        yield from hooks("read_after_transmit", "modify_before_deserialization")
        yield from hooks("read_before_deserialization")
        yield ["Stream", "NotStreaming"]
        for wait, _ in frames:
            yield from self.until("Body", self.moment + wait)
        body = "".join(piece for _, piece in frames)
        yield ["Body", ["Read", body]]
        return (yield from self.closing(number, status, headers, body))

    def closing(self, number: int, status: int, headers: list, body: str) -> Iterator[list]:
        """The calls behind the body of a response; the choice comes back."""
        is_output = status < 400 or status == 418
        if is_output:
            outcome, self.answer = ["Output", [1, body]], ["Ok", [1, body]]
        else:
            outcome = ["Failed", ["Operation", [2, body], f"status {status}"]]
            self.answer = ["ServiceError", [2, body], [status, headers, body]]
        yield ["Deserialize", ["Outcome", outcome]]
        yield from hooks("read_after_deserialization", "modify_before_attempt_completion")
        yield from hooks("read_after_attempt")
        kind = None if is_output else self.verdict(status, body)
        choice, note = self.decision(number, is_output, kind)
        said = choice if choice[0] == "Delay" else "No"
        yield ["Decide", ["Noted", said, note] if note else said]
        return choice

    def verdict(self, status: int, body: str) -> Optional[str]:
        """The kind of error for which a further attempt is wanted, if it is for one."""
        kind = None
        for choice in self.client["classifiers"]:
            if choice[0] == "status" and status in choice[1]:
                kind = "TransientError"
        if "modeled" in self.client["classifiers"]:
            kind = KINDS.get(body, kind)
        return kind

    def decision(self, number: int, is_output: bool, kind: Optional[str]) -> Decision:
        """What is done about an attempt, and its note. Its steps at the bucket are made."""
        if self.client["retry"] == "never":
            return ["No"], None
        _, most, initial, longest, _, is_static, _ = self.client["retry"]
        now, word = self.moment, self.words.draw()
        if is_output:
            self.earn()
        if kind is None:
            return ["No"], ["NoActionIndicated", now, word, "NotIndicated", None]
        verdict = ["RetryIndicated", kind, None]
        if number >= most:
            return ["No"], [verdict, now, word, "OutOfAttempts", None]
        backoff = min(initial * 2 ** (number - 1), longest)
        backoff = backoff if is_static else backoff * word // 2**64
        cost = self.cost_of(kind)
        if not self.acquires(cost):
            return ["No"], [verdict, now, word, ["NoQuota", cost], None]
        return ["Delay", backoff], [verdict, now, word, ["Granted", cost], None]

    def cost_of(self, kind: str) -> int:
        """What a retry for an error of this kind costs."""
        places = {"ThrottlingError": 1, "TransientError": 2}
        return self.costs[places.get(kind, 0)]

    def acquires(self, cost: int) -> bool:
        """Asks the bucket for a retry. Where it grants one, the permit held before is forgotten."""
        granted = next(self.replies)
        self.steps.append(("acquire", cost if granted else None))
        if granted:
            if self.held is not None:
                self.spend("forget")
            self.held = cost
        return granted

    def earn(self):
        """What a success does at the bucket."""
        if self.reward > 0:
            self.steps.append(("reward", self.reward))
        if self.held is not None:
            self.spend("forget" if self.reward > 0 else "release")
        elif self.reward == 0:
            self.steps.append(("regenerate", 1))

    def spend(self, how: str):
        """Gives the held permit back, or forgets it."""
        self.steps.append((how, self.held))
        self.held = None


def replies_in(lines: List[list]) -> Iterator[bool]:
    """Which retries were granted."""
    for line in lines:
        if line[1:2] == ["Decide"] and line[2][0] == "Noted":
            reason = line[2][2][3]
            if reason[0] in ("Granted", "NoQuota"):
                yield reason[0] == "Granted"


def lines_by_caller(lines: List[list]) -> List[List[list]]:
    """The lines of each caller, with its own line in front."""
    callers: List[List[list]] = []
    for line in lines:
        if line[0] == "caller":
            callers.append([])
        callers[-1].append(line)
    return callers


class Ended:
    """What the steps of all callers leave, in whatever order they were made."""

    def __init__(self, script: dict, steps: list):
        self.capacity, self.refills = script["bucket"][0], script["bucket"][5] > 0
        self.steps = steps

    def total(self, name: str) -> int:
        """All that was acquired, given back, forgotten or granted by such steps."""
        return sum(amount for step, amount in self.steps if step == name and amount is not None)

    def allows(self, sums: List[int]) -> bool:
        """Whether the sums of the bucket can be these."""
        capacity, granted, available, held, forgotten = sums
        earned = self.total("regenerate") + self.total("reward") // 1000
        left = self.total("acquire") - self.total("release") - self.total("forget")
        return (
            capacity == self.capacity
            and available + held + forgotten == capacity + granted
            and held == left == 0
            and forgotten == self.total("forget")
            and (self.refills or granted <= earned)
        )


def made(capacity: int, reward: int) -> dict:
    """A script of many callers, whose responses are drawn by a seed."""
    drawn = random.Random(f"{CALLERS} {INVOCATIONS} {capacity} {reward}")
    example = json.loads((EXAMPLES / "fleet/a_retry_each.json").read_text())

    def invocation(number: int) -> dict:
        statuses = [503] * drawn.randrange(4) + [drawn.choice([200, 200, 418, 400])]
        frames = [[0, "ok"]]
        responses = [[drawn.randrange(3), code, [], frames, False, None] for code in statuses]
        fuel = drawn.choice([120, 120, 120, 60])
        return {"input": [1, str(number)], "fuel": fuel, "stop": "None", "responses": responses}

    client = example["callers"][0]["client"]
    callers = [
        {"client": client, "invocations": [invocation(number) for number in range(INVOCATIONS)]}
        for _ in range(CALLERS)
    ]
    terms = [capacity, 5, 5, 10, reward, 0]
    return {"bucket": terms, "start": 7, "words": [5, 6], "callers": callers}


BUSY, TEAPOT = "[0,503,[],[],false,null],", "[0,418,"
TERMS = "[500,5,5,10,0,0]"
STANDARD = '["Standard",3,1000000000,20000000000,"ReconnectOnTransientError",true,null]'
# What stands in a script, and what is put in its place.
Changes = List[Tuple[str, str]]


class Row(NamedTuple):
    """Callers of an example, each with a retry or without an invocation, and what is changed in
    their script; then the status, what is left in the bucket, and the steps of all.
    """

    name: str
    busy: int
    idle: int
    changes: Changes
    status: int = 0
    left: List[int] = [500, 0, 500, 0, 0]
    steps: int = 0


# Changes of terms, of responses and of fuel.
LITTLE = (TERMS, "[9,5,5,10,0,0]")
AT_ONCE = (BUSY, "")
# Each prints the same however its callers take turns.
ROWS = [
    Row(
        "the bucket left to the client's partition",
        busy=2,
        idle=0,
        changes=[('"bucket":0', '"bucket":null')],
        steps=4,
    ),
    Row(
        "two retries each",
        busy=2,
        idle=0,
        changes=[(TEAPOT, BUSY + "[0,200,")],
        left=[500, 0, 480, 0, 20],
        steps=8,
    ),
    Row("a caller without invocations", busy=0, idle=1, changes=[]),
    Row("no retry is paid for", 2, 0, [LITTLE], SERVICE_ERROR, [9, 0, 9, 0, 0], 2),
    Row("the last caller invokes nothing", 1, 1, [LITTLE], SERVICE_ERROR, [9, 0, 9, 0, 0], 1),
    Row("a success that was not retried", busy=1, idle=0, changes=[AT_ONCE], steps=1),
    Row(
        "fuel that ends behind the decision",
        busy=1,
        idle=0,
        changes=[AT_ONCE, ('"fuel":1000', '"fuel":33')],
        status=UNFINISHED,
        steps=1,
    ),
    Row(
        "a caller that never retries",
        busy=1,
        idle=0,
        changes=[(STANDARD, '"never"')],
        status=SERVICE_ERROR,
    ),
    Row(
        "a permit that is held at the end",
        busy=1,
        idle=0,
        changes=[(TEAPOT, "[0,503,"), ('"Standard",3', '"Standard",2')],
        status=SERVICE_ERROR,
        steps=2,
    ),
    Row("sixteen callers", busy=16, idle=0, changes=[AT_ONCE], steps=16),
    Row(
        "fuel of 100000 together",
        busy=2,
        idle=0,
        changes=[('"fuel":1000', '"fuel":50000')],
        steps=4,
    ),
    Row(
        "a bucket of the greatest capacity",
        busy=0,
        idle=1,
        changes=[('"bucket":[500,', '"bucket":[500000000,')],
        left=[500000000, 0, 500000000, 0, 0],
    ),
]
# Callers of which one passes a limit.
TOO_LARGE_ROWS = [
    Row("seventeen callers", 17, 0, []),
    Row("fuel of 100002 together", 2, 0, [('"fuel":1000', '"fuel":50001')]),
    Row("a bucket past the greatest capacity", 0, 1, [('"bucket":[500,', '"bucket":[500000001,')]),
]
# What stands in the script of one caller with a retry, and what in its place leaves no script.
NO_SCRIPTS = [
    ('"bucket":0', '"bucket":1'),
    (TERMS, f"[{TERMS}]"),
    (TERMS, "[500,5,5,10,0]"),
    ('"start":0,', ""),
    ('"start":0', '"start":0.0'),
    ('"start":0', '"start":0,"fuel":1'),
    ('"invocations"', '"number":0,"invocations"'),
    ('"input"', '"client":0,"input"'),
    ('"stop":"None",', ""),
]


def changed(text: str, changes: Changes) -> str:
    """The text with each change made. What is changed must stand there."""
    for old, new in changes:
        if old not in text:
            raise ValueError(f"{old} isn't in the script")
        text = text.replace(old, new)
    return text


def spelled(callers: List[dict]) -> str:
    """The script of these callers under one bucket."""
    script = {"bucket": [500, 5, 5, 10, 0, 0], "start": 0, "words": [], "callers": callers}
    return json.dumps(script, separators=(",", ":"))


def example_caller() -> dict:
    """A caller with a retry."""
    return json.loads((EXAMPLES / "fleet/a_retry_each.json").read_text())["callers"][0]


def text_of(row: Row) -> str:
    """The script of a row."""
    busy = example_caller()
    idle = {**busy, "invocations": []}
    return changed(spelled([busy] * row.busy + [idle] * row.idle), row.changes)


def without_fuel(count: int) -> dict:
    """A caller with so many invocations that may ask nothing."""
    invocation = {"input": [1, ""], "fuel": 0, "stop": "None", "responses": []}
    return {**example_caller(), "invocations": [invocation] * count}


class FleetTest(ProgramTest):
    def compare(self, text: str) -> Ran:
        """Compares the print of a script with one that is worked out for some order of steps."""
        ran = run("fleet", text=text)
        script, printed = json.loads(text), ran.output
        *lines, bucket, history = to_lines(printed)
        told = lines_by_caller(lines)
        self.assertEqual(len(told), len(script["callers"]))
        wanted, steps = [], []
        for number, (record, lines) in enumerate(zip(script["callers"], told)):
            caller = Caller(script, record, replies_in(lines))
            wanted.append(["caller", number])
            wanted.extend(caller.lines())
            steps.extend(caller.steps)
        self.assertEqual(printed, to_text([*wanted, bucket, history]))
        self.assertEqual(bucket[:2], ["bucket", 0])
        self.assertTrue(Ended(script, steps).allows(bucket[2]), f"the bucket ends as {bucket[2]}")
        self.assertEqual(history, ["history", len(steps)])
        return ran

    def test_callers_whose_print_no_schedule_changes(self):
        for row in ROWS:
            with self.subTest(row.name):
                status, output = self.compare(text_of(row))
                *_, bucket, history = to_lines(output)
                wanted = (row.status, ["bucket", 0, row.left], ["history", row.steps])
                self.assertEqual((status, bucket, history), wanted)

    def test_callers_that_pass_a_limit(self):
        for row in TOO_LARGE_ROWS:
            with self.subTest(row.name):
                self.assertEqual(run("fleet", text=text_of(row)), (TOO_LARGE, ""))

    def test_ten_thousand_invocations_and_one_more(self):
        for count, status in ((5000, UNFINISHED), (5001, TOO_LARGE)):
            with self.subTest(count):
                text = spelled([without_fuel(count), without_fuel(5000)])
                self.assertEqual(run("fleet", text=text).status, status)

    def test_texts_that_are_no_script(self):
        self.assertEqual(run("fleet", text=spelled([])), (NO_SCRIPT, ""))
        for old, new in NO_SCRIPTS:
            with self.subTest(old=old, new=new):
                text = changed(spelled([example_caller()]), [(old, new)])
                self.assertEqual(run("fleet", text=text), (NO_SCRIPT, ""))

    def test_examples(self):
        for script in sorted(EXAMPLES.glob("fleet/*.json")):
            with self.subTest(script.stem):
                self.compare(script.read_text())

    def test_many_callers_under_one_bucket(self):
        for capacity, reward in BUCKETS:
            with self.subTest(capacity=capacity, reward=reward):
                self.compare(json.dumps(made(capacity, reward)))
