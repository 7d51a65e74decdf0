"""Replays an answer of each form up to the question that takes it. The print must have it as it was
written.
"""
from typing import List

from .support.direct import run
from .support.program import EXAMPLES, ProgramTest
from .support.replays import (
    ATTEMPT_STARTED,
    CONFIGURED,
    FINAL,
    GO,
    OPERATION,
    REQUEST,
    SERIALIZE,
    SIGNED,
    TRANSMIT_PENDING,
    client,
    script,
)
from .support.scripts import to_lines, to_text

# The example of `replay` that asks a question of this kind, where it isn't the teapot.
EXAMPLE_OF = {
    "Start Send": "delayed_grant",
    "Wait Retry": "retry",
    "Abandon Wait LongPoll": "long_poll",
}
# The answers before a question that no example asks.
BEFORE_LOAD = [
    ["Configure Client", ["Layer", [["load_body", True]]]],
    OPERATION,
    FINAL,
    SERIALIZE,
]
BEFORE_WAIT_ATTEMPT = [client(attempt=7), OPERATION, FINAL, SERIALIZE, GO, ATTEMPT_STARTED]
BEFORE_WAIT_ATTEMPT += [*SIGNED, TRANSMIT_PENDING]
BEFORE_PARK = [*CONFIGURED, SERIALIZE, GO, *SIGNED, TRANSMIT_PENDING]

# A request, a response and a layer with all that they may have.
HEADERS = [["a", "1"], ["a", "2"], ["b", {"hex": "ff"}]]
SENT = ["Request", ["GET", "/p", HEADERS, ["Once", "x"]]]
RECEIVED = ["Response", [503, [["retry-after", "1"]], None]]
ENDPOINT = ["u", [["n", ["v", "w"]]], ["a"]]
LAYER = [
    ["timeouts", [1, None, 2, 2**64 - 1]],
    ["retry", ["Adaptive", 2**32 - 1, 1, 2, "ReuseAllConnections", True, ["V2_0", True, 3]]],
    ["stall", [True, False, 4]],
    ["load_body", False],
    ["partition", "p"],
    ["bucket", 2**32 - 1],
    ["prefix", "x."],
    ["preference", ["b", "a"]],
    ["v2", True],
    ["endpoint_params", True],
    ["auth_params", True],
    ["enforce_length", True],
    ["disable", ["x"]],
    ["capture", 5],
    ["poisoned", 6],
    ["upload", True],
    ["user.", "own"],
    ["user.k", None],
]


def before(kind: str) -> List[list]:
    """The answers of an example, up to the first question of this kind."""
    printed = (EXAMPLES / f"{EXAMPLE_OF.get(kind, 'teapot')}.txt").read_text()
    entries = [line[1:3] for line in to_lines(printed)[1:-1]]
    return entries[: [entry[0] for entry in entries].index(kind)]


class AnswerTest(ProgramTest):
    def prints(self, behind: List[list], kind: str, answer, *sent):
        """Behind these answers, the first question of this kind prints its answer."""
        printed = run("replay", text=script(*behind, [kind, answer])).output
        entries = [line.partition(",")[2] for line in printed.splitlines(keepends=True)[1:-1]]
        found = [entry for entry in entries if entry.startswith(f'"{kind}",')]
        self.assertEqual(found[:1], [to_text([[kind, answer, *sent]])[1:]])

    def prints_each(self, kind: str, *answers):
        for answer in answers:
            with self.subTest(kind, answer=answer):
                self.prints(before(kind), kind, answer)

    def test_configurations(self):
        self.prints_each("Configure Client", ["Layer", LAYER])
        self.prints_each("Configure Operation", ["Failed", "t"])
        self.prints_each("Configure Final", "Absent")

    def test_hooks(self):
        self.prints_each("Hook modify_before_serialization", "Done")
        self.prints_each("Hook read_after_execution", ["Hook", None, [], ""])

    def test_hooks_that_change_something(self):
        changed = ["Hook", ["Input", [1, "x"]], [], None]
        self.prints_each("Hook read_before_execution operation", changed)
        self.prints_each("Hook modify_before_transmit", ["Hook", SENT, [["v2", None]], "t"])
        self.prints_each("Hook modify_before_deserialization", ["Hook", RECEIVED, [], None])
        changed = ["Hook", ["Outcome", ["Output", [2, "y"]]], [], None]
        self.prints_each("Hook modify_before_completion", changed)

    def test_requests_and_loads(self):
        self.prints_each("Serialize", SENT)
        self.prints(BEFORE_LOAD, "Load", ["Loaded", "x"])
        self.prints(BEFORE_LOAD, "Load", "Pending")

    def test_grants(self):
        self.prints_each("Initial", "No", ["Delay", 9])

    def test_sleeps(self):
        self.prints_each("Start Send", "Started")
        self.prints_each("Wait Retry", "Ready")
        self.prints(BEFORE_WAIT_ATTEMPT, "Wait Attempt", "Pending")
        self.prints_each("Abandon Wait LongPoll", "Abandoned")
        self.prints(BEFORE_PARK, "Park", "Parked")

    def test_choices_and_endpoints(self):
        identity, settings = [{"hex": "c3a9"}, 8], [["upload", True]]
        self.prints_each("Choose", ["Chosen", "s", identity, ENDPOINT, settings, "Uncached"])
        self.prints_each("Endpoint", ["Endpoint", ["u", [], None]])

    def test_responses(self):
        """The entry has the request that was sent behind the answer."""
        for answer in [RECEIVED, ["Failed", "Io", "t"]]:
            with self.subTest(answer):
                self.prints(before("Transmit"), "Transmit", answer, REQUEST)

    def test_bodies(self):
        self.prints_each("Stream", ["Outcome", ["Output", [1, "x"]]], "NotStreaming")
        self.prints_each("Body", ["Read", {"hex": "c3a9"}])

    def test_faults(self):
        for fault in [
            ["Operation", [7, {"hex": "00"}], "t"],
            ["Connector", "Timeout", "t"],
            ["Connector", "User", "t"],
            ["Connector", ["Other", None], "t"],
            ["Connector", ["Other", "ThrottlingError"], "t"],
            ["Timeout", "t"],
            ["Response", "t"],
            ["Other", ""],
        ]:
            self.prints_each("Deserialize", ["Outcome", ["Failed", fault]])

    def test_decisions(self):
        indicated = ["RetryIndicated", "ServerError", 2]
        transient = ["RetryIndicated", "TransientError", None]
        self.prints_each(
            "Decide",
            "Yes",
            ["Delay", 1],
            ["Noted", ["Delay", 1], [indicated, 3, 4, ["Granted", 5], [6, 7, 8, 9, 10]]],
            ["Noted", "No", ["RetryForbidden", None, 0, ["NoQuota", 1], None]],
            ["Noted", "Yes", ["NoActionIndicated", None, 0, "OutOfAttempts", None]],
            ["Noted", "No", [transient, None, 0, "NotIndicated", None]],
        )
