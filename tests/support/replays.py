"""Answers that scripts of `replay` are made of: those of one attempt to which a teapot responds."""
import json
from typing import Optional


def client(operation: Optional[int] = None, attempt: Optional[int] = None) -> list:
    """A client with these deadlines, in nanoseconds."""
    return ["Configure Client", ["Layer", [["timeouts", [None, None, operation, attempt]]]]]


def script(*answers: list, fuel: int = 100, output_kind: int = 1) -> str:
    """A script with these answers. The operation's errors are of kind 2."""
    members = {"fuel": fuel, "input": [1, "what are you?"]}
    kinds = {"output_kind": output_kind, "error_kind": 2}
    return json.dumps({**members, **kinds, "answers": answers})


URL = "http://localhost:1234"
REQUEST = ["GET", URL + "/", [], "what are you?"]

OPERATION = ["Configure Operation", ["Layer", []]]
FINAL = ["Configure Final", ["Layer", []]]
CONFIGURED = [client(), OPERATION, FINAL]
OPERATION_STARTED = ["Start Operation", "Started"]
ATTEMPT_STARTED = ["Start Attempt", "Started"]

SERIALIZE = ["Serialize", ["Request", ["GET", "/", [], "what are you?"]]]
GO = ["Initial", "Go"]
CHOOSE = ["Choose", ["Chosen", "noAuth", ["", None], None, [], None]]
ENDPOINT = ["Endpoint", ["Endpoint", [URL, [], None]]]
APPLY = ["Apply", ["Request", REQUEST]]
SIGN = ["Sign", ["Request", REQUEST]]
SIGNED = [CHOOSE, ENDPOINT, APPLY, SIGN]

TEAPOT = ["Transmit", ["Response", [418, [], "I'm a teapot!"]]]
TRANSMIT_PENDING = ["Transmit", "Pending"]
STREAM = ["Stream", "NotStreaming"]
BODY = ["Body", ["Read", "I'm a teapot!"]]
READ = [STREAM, BODY]
OUTPUT = ["Deserialize", ["Outcome", ["Output", [1, "I'm a teapot!"]]]]
NO = ["Decide", "No"]
