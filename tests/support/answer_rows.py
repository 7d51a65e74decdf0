"""Runs of the engine in which an answer or a change comes that no other row has: what is asked
behind it, and what the run answers. They were worked out by hand, from the order in which a run
asks its questions and from what each answer changes.
"""
from typing import List

from .engine_rows import (
    ANSWERED,
    ANSWERED_OUTPUT,
    ASKED_ATTEMPT,
    ASKED_COMPLETED,
    ASKED_CONFIGURED,
    ASKED_DELAYED,
    ASKED_FINISHED,
    ASKED_GRANTED,
    ASKED_READ_AFTER,
    ASKED_SENT,
    ASKED_SERIALIZED,
    ASKED_UP_TO_GRANT,
    ASKED_WHOLE_ATTEMPT,
    ATTEMPT_TIMED_BY_HOOK,
    CONNECTOR_FAILED,
    DELAYED,
    GRANTED,
    SERIALIZED_ONCE,
    TEXT,
    UNAVAILABLE,
    Line,
    Row,
    configured,
)
from .replays import (
    APPLY,
    BODY,
    CHOOSE,
    ENDPOINT,
    GO,
    NO,
    OUTPUT,
    SERIALIZE,
    SIGN,
    SIGNED,
    STREAM,
    TEAPOT,
    URL,
)

LOADS_BODY = configured(final=["load_body", True])
YES = ["Decide", "Yes"]
NOT_GRANTED = (
    "the retry strategy indicates that an initial request shouldn't be made, but it didn't specify"
    " why"
)
DEADLINE_TAKEN = ["Hook modify_before_retry_loop", ["Hook", None, [["timeouts", None]], None]]
ASKED_FAILED = ASKED_COMPLETED + ["Decide"] + ASKED_FINISHED
ASKED_STREAMED = [
    "Hook read_after_transmit",
    "Hook modify_before_deserialization",
    "Hook read_before_deserialization",
    "Stream",
]
# The questions of an attempt up to its signature, but for its first hook.
ASKED_TO_SIGN = [
    "Choose",
    "Endpoint",
    "Apply",
    "Hook modify_before_signing",
    "Hook read_before_signing",
    "Sign",
]


def failed(kind: str) -> Line:
    return [kind, ["Failed", "x"]]


def changing(hook: str, part: str, value: list) -> Line:
    """The answer of a hook that writes this part."""
    return ["Hook " + hook, ["Hook", [part, value], [], None]]


def failing_in_attempt(kind: str, calls: int) -> Row:
    """A run whose question of this kind fails, between the first hook of an attempt and Sign."""
    before = [CHOOSE, ENDPOINT, APPLY, SIGN]
    answered = [line for line in before if line[0] in ASKED_TO_SIGN[: ASKED_TO_SIGN.index(kind)]]
    asked = ASKED_TO_SIGN[: ASKED_TO_SIGN.index(kind) + 1]
    return Row(
        name=f"{kind} fails",
        script=[*configured(), *GRANTED, *answered, failed(kind), NO],
        kinds=[*ASKED_UP_TO_GRANT, "Hook read_before_attempt", *asked, *ASKED_FAILED],
        calls=calls,
        answer=["DispatchFailure", ["Other", "x"]],
    )


FAILURES: List[Row] = [
    Row(
        name="Serialize fails",
        script=[*configured(), failed("Serialize")],
        kinds=[*ASKED_CONFIGURED, *ASKED_SERIALIZED, *ASKED_FINISHED],
        calls=10,
        answer=["ConstructionFailure", ["Other", "x"]],
    ),
    Row(
        name="Load fails",
        script=[*LOADS_BODY, SERIALIZE, failed("Load")],
        kinds=[*ASKED_CONFIGURED, *ASKED_SERIALIZED, "Load", *ASKED_FINISHED],
        calls=11,
        answer=["ConstructionFailure", ["Other", "x"]],
    ),
    Row(
        name="Initial fails",
        script=[*configured(), SERIALIZE, failed("Initial")],
        kinds=[*ASKED_UP_TO_GRANT, *ASKED_FINISHED],
        calls=13,
        answer=["DispatchFailure", ["Other", "x"]],
    ),
    Row(
        name="a first attempt that isn't granted",
        script=[*configured(), SERIALIZE, ["Initial", "No"]],
        kinds=[*ASKED_UP_TO_GRANT, *ASKED_FINISHED],
        calls=13,
        answer=["DispatchFailure", ["Other", NOT_GRANTED]],
    ),
    failing_in_attempt("Choose", 18),
    failing_in_attempt("Endpoint", 19),
    failing_in_attempt("Apply", 20),
    failing_in_attempt("Sign", 23),
    Row(
        name="Decide fails",
        script=[*configured(), *GRANTED, *SIGNED, *ANSWERED, failed("Decide")],
        kinds=ASKED_WHOLE_ATTEMPT,
        calls=34,
        answer=["ResponseError", ["Other", "x"], [418, [], TEXT]],
    ),
]

GRANTS: List[Row] = [
    Row(
        name="a body that was loaded is sent again",
        script=[
            *LOADS_BODY,
            SERIALIZED_ONCE,
            ["Load", ["Loaded", "what are you?"]],
            GO,
            *SIGNED,
            *UNAVAILABLE,
            *DELAYED,
            *SIGNED,
            *ANSWERED,
            NO,
        ],
        kinds=[
            *ASKED_CONFIGURED,
            *ASKED_SERIALIZED,
            "Load",
            *ASKED_GRANTED,
            *ASKED_ATTEMPT,
            *ASKED_DELAYED,
            *ASKED_ATTEMPT,
            *ASKED_FINISHED,
        ],
        calls=58,
        answer=ANSWERED_OUTPUT,
    ),
    Row(
        name="a further attempt at once",
        script=[*configured(), *GRANTED, *SIGNED, *UNAVAILABLE, YES, *SIGNED, *ANSWERED, NO],
        kinds=[*ASKED_UP_TO_GRANT, *ASKED_ATTEMPT, *ASKED_ATTEMPT, *ASKED_FINISHED],
        calls=55,
        answer=ANSWERED_OUTPUT,
    ),
    Row(
        name="a further attempt at once of a body that can be sent once",
        script=[*configured(), SERIALIZED_ONCE, GO, *SIGNED, *UNAVAILABLE, YES],
        kinds=ASKED_WHOLE_ATTEMPT,
        calls=34,
        answer=["DispatchFailure", ["Connector", "Io", "x"]],
    ),
    Row(
        name="a response that is read by its head",
        script=[
            *configured(),
            *GRANTED,
            *SIGNED,
            TEAPOT,
            ["Stream", ["Outcome", ["Output", [1, "streamed"]]]],
            NO,
        ],
        kinds=[
            *ASKED_UP_TO_GRANT,
            *ASKED_SENT,
            *ASKED_STREAMED,
            *ASKED_READ_AFTER,
            *ASKED_FAILED,
        ],
        calls=32,
        answer=["Ok", [1, "streamed"]],
    ),
]

CHANGES: List[Row] = [
    Row(
        name="hooks that write the input, the request, the response and the outcome",
        script=[
            *configured(),
            changing("modify_before_serialization", "Input", [1, "changed"]),
            SERIALIZE,
            GO,
            *SIGNED,
            changing("modify_before_transmit", "Request", ["PUT", URL + "/changed", [], ""]),
            TEAPOT,
            changing("modify_before_deserialization", "Response", [503, [], ""]),
            STREAM,
            BODY,
            OUTPUT,
            NO,
            changing(
                "modify_before_completion",
                "Outcome",
                ["Failed", ["Operation", [2, "changed"], "t"]],
            ),
        ],
        kinds=ASKED_WHOLE_ATTEMPT,
        calls=34,
        answer=["ServiceError", [2, "changed"], [503, [], TEXT]],
    ),
    Row(
        name="a hook that takes a deadline away",
        script=[
            *configured(attempt=5),
            SERIALIZE,
            DEADLINE_TAKEN,
            GO,
            *SIGNED,
            *ANSWERED,
            NO,
        ],
        kinds=ASKED_WHOLE_ATTEMPT,
        calls=34,
        answer=ANSWERED_OUTPUT,
    ),
    Row(
        name="a deadline that is set again where it was taken away",
        script=[
            *configured(attempt=5),
            SERIALIZE,
            DEADLINE_TAKEN,
            GO,
            ATTEMPT_TIMED_BY_HOOK,
            *SIGNED,
            *UNAVAILABLE,
            *DELAYED,
            *SIGNED,
            CONNECTOR_FAILED,
            NO,
        ],
        kinds=[
            *ASKED_UP_TO_GRANT,
            *ASKED_ATTEMPT,
            *ASKED_DELAYED,
            "Start Attempt",
            *ASKED_SENT,
            *ASKED_FAILED,
        ],
        calls=51,
        answer=["DispatchFailure", ["Connector", "Io", "x"]],
    ),
]

ROWS = FAILURES + GRANTS + CHANGES
