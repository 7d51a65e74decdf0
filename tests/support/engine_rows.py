"""Worked runs of the engine: scripts of answers, the kinds of questions that their runs ask, and
what they answer. They were worked out by hand, from the order in which a run asks its questions.
"""
from typing import Any, List, NamedTuple, Optional

from .replays import (
    ATTEMPT_STARTED,
    CHOOSE,
    FINAL,
    GO,
    NO,
    OPERATION,
    OPERATION_STARTED,
    OUTPUT,
    READ,
    SERIALIZE,
    SIGNED,
    STREAM,
    TEAPOT,
    TRANSMIT_PENDING,
    client,
)

# An answer of a script, behind the kind of question that it is for.
Line = List[Any]


class Row(NamedTuple):
    """A run whose fuel is the number of its calls."""

    name: str
    script: List[Line]
    kinds: List[str]
    calls: int
    answer: List[Any]
    stop: str = "None"
    output_kind: int = 1
    error_kind: int = 2


class Pending(NamedTuple):
    """A question that is pending when the operation's deadline passes.

    The two counts of calls are those of the run without and with a deadline of the attempt. The
    setting is one that the question comes of.
    """

    kind: str
    script_before_attempt: List[Line]
    kinds_before_attempt: List[str]
    script_of_attempt: List[Line]
    kinds_of_attempt: List[str]
    is_in_attempt: bool
    calls: int
    calls_with_attempt_deadline: int
    setting: Any = None


def configured(
    operation: Optional[int] = None, attempt: Optional[int] = None, final: Any = None
) -> List[Line]:
    """The answers to the three configurations: deadlines in ns, and a setting of the last one."""
    last = ["Configure Final", ["Layer", [final]]] if final else FINAL
    return [client(operation, attempt), OPERATION, last]


# The parts of scripts.
GRANTED = [SERIALIZE, GO]
ANSWERED = [TEAPOT, *READ, OUTPUT]
UNAVAILABLE = [
    ["Transmit", ["Response", [503, [], ""]]],
    STREAM,
    ["Body", ["Read", ""]],
    ["Deserialize", ["Outcome", ["Failed", ["Connector", "Io", "x"]]]],
]
REFUSED_BY_SERVICE = [
    TEAPOT,
    *READ,
    ["Deserialize", ["Outcome", ["Failed", ["Operation", [2, "no"], "t"]]]],
]
DELAY_STARTED = [["Decide", ["Delay", 1_000_000_000]], ["Start Retry", "Started"]]
DELAYED = [*DELAY_STARTED, ["Wait Retry", "Ready"]]
OPERATION_PASSED = ["Wait Operation", "Ready"]
CONNECTOR_FAILED = ["Transmit", ["Failed", "Io", "x"]]
SERIALIZED_ONCE = ["Serialize", ["Request", ["GET", "/", [], ["Once", "what are you?"]]]]
ATTEMPT_TIMED_BY_HOOK = [
    "Hook read_before_attempt",
    ["Hook", None, [["timeouts", [None, None, None, 5]]], None],
]

# The kinds that a run asks, in stretches.
ASKED_CONFIGURED = [
    "Configure Client",
    "Hook read_before_execution client",
    "Configure Operation",
    "Hook read_before_execution operation",
    "Configure Final",
]
ASKED_SERIALIZED = [
    "Hook modify_before_serialization",
    "Hook read_before_serialization",
    "Serialize",
]
ASKED_GRANTED = ["Hook read_after_serialization", "Hook modify_before_retry_loop", "Initial"]
ASKED_CHOSEN = ["Hook read_before_attempt", "Choose"]
ASKED_SIGNED = [
    "Endpoint",
    "Apply",
    "Hook modify_before_signing",
    "Hook read_before_signing",
    "Sign",
    "Hook read_after_signing",
    "Hook modify_before_transmit",
    "Hook read_before_transmit",
]
ASKED_READ = [
    "Hook read_after_transmit",
    "Hook modify_before_deserialization",
    "Hook read_before_deserialization",
    "Stream",
    "Body",
]
ASKED_DESERIALIZED = ["Deserialize"]
ASKED_READ_AFTER = ["Hook read_after_deserialization"]
ASKED_COMPLETED = ["Hook modify_before_attempt_completion", "Hook read_after_attempt"]
ASKED_FINISHED = ["Hook modify_before_completion", "Hook read_after_execution"]
ASKED_DELAYED = ["Start Retry", "Wait Retry"]

# Longer stretches.
ASKED_UP_TO_GRANT = ASKED_CONFIGURED + ASKED_SERIALIZED + ASKED_GRANTED
ASKED_SENT = ASKED_CHOSEN + ASKED_SIGNED + ["Transmit"]
ASKED_ATTEMPT = (
    ASKED_SENT + ASKED_READ + ASKED_DESERIALIZED + ASKED_READ_AFTER + ASKED_COMPLETED + ["Decide"]
)
ASKED_WHOLE_ATTEMPT = ASKED_UP_TO_GRANT + ASKED_ATTEMPT + ASKED_FINISHED
ASKED_NOT_SENT = ASKED_UP_TO_GRANT + ASKED_SENT + ASKED_COMPLETED + ["Decide"] + ASKED_FINISHED
ASKED_WITH_DEADLINE = ASKED_CONFIGURED + ["Start Operation"] + ASKED_SERIALIZED + ASKED_GRANTED

# What runs answer.
TEXT = "I'm a teapot!"
ANSWERED_OUTPUT = ["Ok", [1, TEXT]]
OPERATION_TIMEOUT = [
    "TimeoutError",
    ["Timeout", "operation timeout (all attempts including retries) occurred after 5 ns"],
]
ATTEMPT_TIMEOUT = [
    "TimeoutError",
    ["Timeout", "operation attempt timeout (single attempt) occurred after 5 ns"],
]

WITHOUT_CONFIGURATION = [["Configure Client", ["Failed", "x"]]]

ENDED_EARLY = [
    Row(
        name="a configuration that fails",
        script=WITHOUT_CONFIGURATION,
        kinds=["Configure Client"],
        calls=1,
        answer=["ConstructionFailure", ["Other", "x"]],
    ),
    Row(
        name="a configuration that fails before a stop point",
        script=WITHOUT_CONFIGURATION,
        kinds=["Configure Client"],
        calls=1,
        answer=["ConstructionFailure", ["Other", "x"]],
        stop="BeforeTransmit",
    ),
]

FAILED = [
    Row(
        name="a connector that fails",
        script=[*configured(), *GRANTED, *SIGNED, CONNECTOR_FAILED, NO],
        kinds=ASKED_NOT_SENT,
        calls=27,
        answer=["DispatchFailure", ["Connector", "Io", "x"]],
    ),
    Row(
        name="a decision behind answers that aren't asked for",
        script=[*configured(), *GRANTED, *SIGNED, CONNECTOR_FAILED, *ANSWERED[1:], NO],
        kinds=ASKED_NOT_SENT,
        calls=27,
        answer=["DispatchFailure", ["Other", "absent"]],
    ),
    Row(
        name="a body that can't be read",
        script=[*configured(), *GRANTED, *SIGNED, TEAPOT, STREAM, ["Body", ["Failed", "x"]], NO],
        kinds=[
            *ASKED_UP_TO_GRANT,
            *ASKED_SENT,
            *ASKED_READ,
            *ASKED_READ_AFTER,
            *ASKED_COMPLETED,
            "Decide",
            *ASKED_FINISHED,
        ],
        calls=33,
        answer=["ResponseError", ["Response", "x"], [418, [], TEXT]],
    ),
    Row(
        name="an error of the service",
        script=[*configured(), *GRANTED, *SIGNED, *REFUSED_BY_SERVICE, NO],
        kinds=ASKED_WHOLE_ATTEMPT,
        calls=34,
        answer=["ServiceError", [2, "no"], [418, [], TEXT]],
    ),
]

OF_ANOTHER_TYPE = [
    Row(
        name="an output of another kind",
        script=[*configured(), *GRANTED, *SIGNED, *ANSWERED, NO],
        kinds=ASKED_WHOLE_ATTEMPT,
        calls=34,
        answer=["WrongType", [1, TEXT]],
        output_kind=3,
    ),
    Row(
        name="an error of another kind",
        script=[*configured(), *GRANTED, *SIGNED, *REFUSED_BY_SERVICE, NO],
        kinds=ASKED_WHOLE_ATTEMPT,
        calls=34,
        answer=["WrongType", [2, "no"]],
        error_kind=3,
    ),
]

TRIED_AGAIN = [
    Row(
        name="a body that can be sent once isn't sent again",
        script=[*configured(), SERIALIZED_ONCE, GO, *SIGNED, *UNAVAILABLE, *DELAYED],
        kinds=[*ASKED_UP_TO_GRANT, *ASKED_ATTEMPT, "Start Retry", *ASKED_FINISHED],
        calls=35,
        answer=["DispatchFailure", ["Connector", "Io", "x"]],
    ),
    Row(
        name="a hook that sets a deadline for the next attempt",
        script=[
            *configured(),
            *GRANTED,
            ATTEMPT_TIMED_BY_HOOK,
            *SIGNED,
            *UNAVAILABLE,
            *DELAYED,
            *SIGNED,
            *ANSWERED,
            NO,
        ],
        kinds=[
            *ASKED_UP_TO_GRANT,
            *ASKED_ATTEMPT,
            *ASKED_DELAYED,
            "Start Attempt",
            *ASKED_ATTEMPT,
            *ASKED_FINISHED,
        ],
        calls=58,
        answer=ANSWERED_OUTPUT,
    ),
]

TIMED = [
    Row(
        name="an operation's deadline of 0 is started and never waited for",
        script=[*configured(operation=0), OPERATION_STARTED, *GRANTED, *SIGNED, *ANSWERED, NO],
        kinds=[*ASKED_WITH_DEADLINE, *ASKED_ATTEMPT, *ASKED_FINISHED],
        calls=35,
        answer=ANSWERED_OUTPUT,
    ),
    Row(
        name="the operation's deadline passes behind a park",
        script=[
            *configured(operation=5),
            OPERATION_STARTED,
            *GRANTED,
            *SIGNED,
            TRANSMIT_PENDING,
            ["Wait Operation", "Pending"],
            ["Park", "Parked"],
            TRANSMIT_PENDING,
            OPERATION_PASSED,
        ],
        kinds=[
            *ASKED_WITH_DEADLINE,
            *ASKED_SENT,
            "Wait Operation",
            "Park",
            "Transmit",
            "Wait Operation",
            "Abandon Transmit",
            *ASKED_COMPLETED,
            *ASKED_FINISHED,
        ],
        calls=32,
        answer=OPERATION_TIMEOUT,
    ),
    Row(
        name="the attempt's deadline passes",
        script=[
            *configured(attempt=5),
            *GRANTED,
            ATTEMPT_STARTED,
            *SIGNED,
            TRANSMIT_PENDING,
            ["Wait Attempt", "Ready"],
            NO,
        ],
        kinds=[
            *ASKED_UP_TO_GRANT,
            "Start Attempt",
            *ASKED_SENT,
            "Wait Attempt",
            "Abandon Transmit",
            *ASKED_COMPLETED,
            "Decide",
            *ASKED_FINISHED,
        ],
        calls=30,
        answer=ATTEMPT_TIMEOUT,
    ),
]

ROWS = ENDED_EARLY + FAILED + OF_ANOTHER_TYPE + TRIED_AGAIN + TIMED

PENDING = [
    Pending(
        kind="Load",
        script_before_attempt=[SERIALIZE, ["Load", "Pending"]],
        kinds_before_attempt=[*ASKED_SERIALIZED, "Load"],
        script_of_attempt=[],
        kinds_of_attempt=[],
        is_in_attempt=False,
        calls=14,
        calls_with_attempt_deadline=14,
        setting=["load_body", True],
    ),
    Pending(
        kind="Wait Send",
        script_before_attempt=[
            SERIALIZE,
            ["Initial", ["Delay", 9]],
            ["Start Send", "Started"],
            ["Wait Send", "Pending"],
        ],
        kinds_before_attempt=[*ASKED_SERIALIZED, *ASKED_GRANTED, "Start Send", "Wait Send"],
        script_of_attempt=[],
        kinds_of_attempt=[],
        is_in_attempt=False,
        calls=18,
        calls_with_attempt_deadline=18,
    ),
    Pending(
        kind="Choose",
        script_before_attempt=GRANTED,
        kinds_before_attempt=[*ASKED_SERIALIZED, *ASKED_GRANTED],
        script_of_attempt=[["Choose", "Pending"]],
        kinds_of_attempt=ASKED_CHOSEN,
        is_in_attempt=True,
        calls=20,
        calls_with_attempt_deadline=22,
    ),
    Pending(
        kind="Endpoint",
        script_before_attempt=GRANTED,
        kinds_before_attempt=[*ASKED_SERIALIZED, *ASKED_GRANTED],
        script_of_attempt=[CHOOSE, ["Endpoint", "Pending"]],
        kinds_of_attempt=[*ASKED_CHOSEN, "Endpoint"],
        is_in_attempt=True,
        calls=21,
        calls_with_attempt_deadline=23,
    ),
    Pending(
        kind="Transmit",
        script_before_attempt=GRANTED,
        kinds_before_attempt=[*ASKED_SERIALIZED, *ASKED_GRANTED],
        script_of_attempt=[*SIGNED, TRANSMIT_PENDING],
        kinds_of_attempt=ASKED_SENT,
        is_in_attempt=True,
        calls=29,
        calls_with_attempt_deadline=31,
    ),
    Pending(
        kind="Body",
        script_before_attempt=GRANTED,
        kinds_before_attempt=[*ASKED_SERIALIZED, *ASKED_GRANTED],
        script_of_attempt=[*SIGNED, TEAPOT, STREAM, ["Body", "Pending"]],
        kinds_of_attempt=[*ASKED_SENT, *ASKED_READ],
        is_in_attempt=True,
        calls=34,
        calls_with_attempt_deadline=36,
    ),
    Pending(
        kind="Wait Retry",
        script_before_attempt=GRANTED,
        kinds_before_attempt=[*ASKED_SERIALIZED, *ASKED_GRANTED],
        script_of_attempt=[*SIGNED, *UNAVAILABLE, *DELAY_STARTED, ["Wait Retry", "Pending"]],
        kinds_of_attempt=[*ASKED_ATTEMPT, *ASKED_DELAYED],
        is_in_attempt=False,
        calls=39,
        calls_with_attempt_deadline=40,
    ),
]


def cut(pending: Pending, attempt: Optional[int] = None) -> Row:
    """The run in which the operation's deadline passes while this is pending, without or with a
    deadline of the attempt, in ns. That one is waited for inside of an attempt, and first.
    """
    is_timed = attempt is not None
    begins_timed_attempt = is_timed and bool(pending.script_of_attempt)
    waits_for_attempt = is_timed and pending.is_in_attempt
    return Row(
        name=f"the operation's deadline passes while {pending.kind} is pending",
        script=[
            *configured(operation=5, attempt=attempt, final=pending.setting),
            OPERATION_STARTED,
            *pending.script_before_attempt,
            *([ATTEMPT_STARTED] if begins_timed_attempt else []),
            *pending.script_of_attempt,
            *([["Wait Attempt", "Pending"]] if waits_for_attempt else []),
            OPERATION_PASSED,
        ],
        kinds=[
            *ASKED_CONFIGURED,
            "Start Operation",
            *pending.kinds_before_attempt,
            *(["Start Attempt"] if begins_timed_attempt else []),
            *pending.kinds_of_attempt,
            *(["Wait Attempt"] if waits_for_attempt else []),
            "Wait Operation", f"Abandon {pending.kind}",
            *(ASKED_COMPLETED if pending.is_in_attempt else []),
            *ASKED_FINISHED,
        ],
        calls=pending.calls_with_attempt_deadline if is_timed else pending.calls,
        answer=OPERATION_TIMEOUT,
    )


CUTS = [cut(pending) for pending in PENDING]
CUTS_WITH_ATTEMPT_DEADLINE = [cut(pending, attempt=3) for pending in PENDING]
