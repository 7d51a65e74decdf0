"""Runs as they are drawn, read from a print.

A print is what `client`, `fleet` or `replay` writes, a line of JSON each. A line `["at",ns]` tells
the moment of the entries behind it. Where a print has such lines, everything lies on a clock of
nanoseconds. Where it has none, the number of the question takes its place.
"""
import dataclasses
import json
from typing import Any, Dict, Iterable, List, Optional, Tuple

DEADLINES = {"Operation": 2, "Attempt": 3}  # their places in the setting `timeouts`
SLEEPS = {"Retry": "waits", "Send": "waits before it sends", "LongPoll": "pauses"}


class Unreadable(Exception):
    """The text is no print. It says which line isn't."""


@dataclasses.dataclass
class Attempt:
    """One attempt: from its first question to its last."""

    begin: int
    end: int
    auth: str = "no auth chosen"
    status: str = "no response"
    ending: str = "unfinished"  # output, error, cut, stopped or unfinished
    reason: str = ""  # why it failed
    decided: str = ""  # what came of it


@dataclasses.dataclass
class Sleep:
    """A wait between attempts, or a pause at the end."""

    begin: int
    end: int
    role: str
    nanos: Optional[int]
    cost: Optional[int]  # the tokens of the retry that is waited for
    attempts: int  # how many attempts came before it
    is_over: bool = False


@dataclasses.dataclass
class Deadline:
    """When a deadline passes. On a print without moments only one that cut is known."""

    role: str
    nanos: Optional[int]
    at: Optional[int]
    attempt: int  # of which attempt; 0 where it is the operation's
    cut: bool = False


@dataclasses.dataclass
class Change:
    """What a hook changed."""

    at: int
    hook: str
    what: str


@dataclasses.dataclass
class Level:
    """What a bucket has from here on."""

    at: int
    available: int
    capacity: int


@dataclasses.dataclass
class Call:
    """One invocation, or the one run of a replay."""

    lane: str
    number: int
    begin: int
    end: int
    attempts: List[Attempt] = dataclasses.field(default_factory=list)
    sleeps: List[Sleep] = dataclasses.field(default_factory=list)
    deadlines: List[Deadline] = dataclasses.field(default_factory=list)
    changes: List[Change] = dataclasses.field(default_factory=list)
    questions: int = 0
    answer: str = "no answer"


@dataclasses.dataclass
class Print:
    """All calls of a print, in its order, and the levels of the buckets by their numbers."""

    has_clock: bool
    calls: List[Call]
    levels: Dict[int, List[Level]]

    def begin(self) -> int:
        return min((call.begin for call in self.calls), default=0)

    def end(self) -> int:
        return max((call.end for call in self.calls), default=0)

    def lanes(self) -> List[Tuple[str, List[Call]]]:
        """The calls of each client or caller, in the order in which these come."""
        found: Dict[str, List[Call]] = {}
        for call in self.calls:
            found.setdefault(call.lane, []).append(call)
        return list(found.items())


def spoken(nanos: int) -> str:
    """A length of time, in the greatest unit that has a whole number before the point."""
    for unit, size in (("s", 10**9), ("ms", 10**6), ("µs", 10**3)):
        if nanos >= size:
            number = f"{nanos / size:.3f}".rstrip("0").rstrip(".")
            return f"{number} {unit}"
    return f"{nanos} ns" if nanos else "0 s"


def last_text(value: Any) -> str:
    """The text of a fault, or the word itself."""
    while isinstance(value, list) and value:
        value = value[-1]
    return str(value)


def failed_sending(answer: List[Any]) -> str:
    """What a connector's failure is called: `Io`, `Timeout`, or its error kind."""
    return last_text(answer[1]) if len(answer) == 3 else "no response"


class Reader:
    """Reads one print, line by line."""

    def __init__(self, has_clock: bool):
        self.has_clock = has_clock
        self.moment = 0
        self.caller: Optional[int] = None
        self.calls: List[Call] = []
        self.levels: Dict[int, List[Level]] = {}
        self.timeouts: List[Optional[int]] = []
        self.bucket = 0
        self.cost: Optional[int] = None
        self.delay: Optional[int] = None
        self.in_attempt = False

    def read(self, line: List[Any]):
        """Reads a line by what it begins with."""
        tag = line[0]
        if tag == "at":
            self.moment = line[1]
        elif tag == "caller":
            self.caller, self.moment = line[1], 0
        elif tag == "invocation":
            self.open(line[1], f"client {line[2]}" if self.caller is None else "")
        elif tag == "begin":
            self.open(0, "operation")
        elif isinstance(tag, int):
            self.read_entry(line[1], line[2])
        elif tag not in ("bucket", "loads", "history"):
            self.read_answer(line)

    def open(self, number: int, lane: str):
        """Begins a call. Its moment is that of its first entry."""
        self.calls.append(Call(lane or f"caller {self.caller}", number, -1, -1))
        self.timeouts, self.bucket = [None] * 4, 0
        self.cost, self.delay, self.in_attempt = None, None, False

    @property
    def call(self) -> Call:
        return self.calls[-1]

    @property
    def attempt(self) -> Optional[Attempt]:
        """The attempt that is open."""
        return self.call.attempts[-1] if self.in_attempt else None

    def read_entry(self, kind: str, answer: Any):
        """Reads a question with its answer. Without a clock it takes one step of its own."""
        if not self.has_clock:
            self.moment += 1
        if self.call.begin < 0:
            self.call.begin = self.moment
        self.call.end = self.moment
        self.call.questions += 1
        name, _, role = kind.partition(" ")
        if kind == "Hook read_before_attempt":
            self.call.attempts.append(Attempt(self.moment, self.moment))
            self.in_attempt = True
        if self.attempt:
            self.attempt.end = self.moment
        if name == "Hook":
            self.read_hook(role, answer)
        elif name == "Configure":
            self.read_layer(answer[1] if answer[0] == "Layer" else [])
        elif name in ("Start", "Wait"):
            self.read_sleep(name, role, answer)
        elif name == "Decide":
            self.read_decision(answer)
        elif name == "Initial" and answer[0] == "Delay":
            self.delay, self.cost = answer[1], None
        elif self.attempt:
            self.read_step(self.attempt, name, answer)

    def read_layer(self, layer: List[Any]):
        """Takes the deadlines and the bucket from settings. A later layer replaces them."""
        for key, value in layer:
            if key == "timeouts" and value:
                self.timeouts = value
            elif key == "bucket" and value is not None:
                self.bucket = value

    def read_hook(self, hook: str, answer: Any):
        """Keeps what a hook changed. One that did nothing is left out."""
        if answer[0] != "Hook":
            return
        _, change, layer, text = answer
        self.read_layer(layer)
        said = [f"sets {key}" for key, _ in layer]
        if change:
            said.insert(0, f"writes the {change[0].lower()}")
        if text is not None:
            said.append(f"fails: {text}")
        self.call.changes.append(Change(self.moment, hook, ", ".join(said)))
        if self.attempt and change and change[0] == "Outcome":
            self.read_outcome(self.attempt, change[1])
        if self.attempt and text is not None:
            self.attempt.ending, self.attempt.reason = "error", text

    def read_outcome(self, attempt: Attempt, outcome: List[Any]):
        if outcome[0] == "Output":
            attempt.ending, attempt.reason = "output", ""
        else:
            attempt.ending, attempt.reason = "error", last_text(outcome[1])

    def read_step(self, attempt: Attempt, name: str, answer: Any):
        """Reads a step of an attempt: who signs, what came back, and what failed."""
        if name == "Choose" and answer[0] == "Chosen":
            attempt.auth = answer[1]
            if answer[5:] in (["Hit"], ["Load"]):
                attempt.auth += {"Hit": " (kept)", "Load": " (loaded)"}[answer[5]]
        if name == "Transmit" and answer[0] == "Response":
            attempt.status = str(answer[1][0])
        elif name == "Transmit" and answer[0] == "Failed":
            attempt.status = failed_sending(answer)
        if answer[0] == "Outcome":
            self.read_outcome(attempt, answer[1])
        elif answer[0] == "Failed":
            attempt.ending, attempt.reason = "error", last_text(answer)
        elif answer == "Absent":
            attempt.ending, attempt.reason = "error", f"{name} has no part that answers"

    def read_sleep(self, name: str, role: str, answer: Any):
        """Reads a sleep that is begun or asked for: a deadline's, or a wait's."""
        if role in DEADLINES:
            self.read_deadline(name, role, answer)
        elif name == "Start" and answer == "Started":
            self.in_attempt = False
            began = Sleep(self.moment, self.moment, role, self.delay, self.cost, 0)
            began.attempts = len(self.call.attempts)
            self.call.sleeps.append(began)
        elif name == "Wait" and self.call.sleeps:
            self.call.sleeps[-1].end = self.moment
            self.call.sleeps[-1].is_over = answer == "Ready"

    def read_deadline(self, name: str, role: str, answer: Any):
        """Reads a deadline that begins to run, or that has passed."""
        if name == "Start" and answer == "Started":
            nanos = self.timeouts[DEADLINES[role]]
            at = self.moment + nanos if self.has_clock and nanos is not None else None
            number = len(self.call.attempts) + 1 if role == "Attempt" else 0
            self.call.deadlines.append(Deadline(role, nanos, at, number))
        if name == "Wait" and answer == "Ready":
            self.cut(role)

    def cut(self, role: str):
        """A deadline has passed: it cuts the attempt, or the wait, that is open."""
        text = f"cut by the {role.lower()}'s deadline"
        for deadline in self.call.deadlines[::-1]:
            if deadline.role == role:
                deadline.cut, deadline.at = True, deadline.at if self.has_clock else self.moment
                break
        if self.attempt:
            self.attempt.ending, self.attempt.reason = "cut", text
        elif self.call.sleeps:
            self.call.sleeps[-1].end = self.moment
        if role == "Operation":
            self.in_attempt = False

    def read_decision(self, answer: Any):
        """Reads whether a further attempt is made, what that costs, and what the bucket has."""
        noted = answer[0] == "Noted"
        choice = answer[1] if noted else answer
        remark = answer[2] if noted else [None, None, None, "", None]
        self.delay = choice[1] if isinstance(choice, list) else None
        reason, sums = remark[3], remark[4]
        granted = reason[1] if reason[0:1] == ["Granted"] else None
        self.cost = granted
        if self.attempt:
            self.attempt.decided = decided(choice, reason)
        if sums:
            self.keep_level(sums, granted or 0)
        self.in_attempt = False

    def keep_level(self, sums: List[int], granted: int):
        """Keeps what the bucket has. Before its first decision it had the granted tokens too."""
        levels = self.levels.setdefault(self.bucket, [])
        if not levels and granted:
            levels.append(Level(self.calls[0].begin, sums[2] + granted, sums[0]))
        levels.append(Level(self.moment, sums[2], sums[0]))

    def read_answer(self, line: List[Any]):
        """Reads what the call comes to. What is still open ends unfinished, or at the stop."""
        if self.call.begin < 0:
            self.call.begin = self.call.end = self.moment
        self.call.answer = answered(line)
        last = self.call.attempts[-1:]
        if last and last[0].ending == "unfinished" and line[0] in ("Stopped", "Ok"):
            last[0].ending = "stopped"


def decided(choice: Any, reason: Any) -> str:
    """What a decision says, in words. Nothing where nothing was to be decided."""
    if reason == "OutOfAttempts":
        return "no attempt left"
    if reason[0:1] == ["NoQuota"]:
        return f"no retry: it costs {reason[1]}, which the bucket doesn't have"
    if choice == "No" or choice[0] == "NoAfter":
        return ""
    paid = f", pays {reason[1]}" if reason[0:1] == ["Granted"] else ""
    return f"tries again{paid}"


def answered(line: List[Any]) -> str:
    """What a call comes to, in words."""
    name = line[0]
    if name == "Ok":
        return "output"
    if name == "Stopped":
        return "stopped before it sends"
    if name == "ServiceError":
        return f"ServiceError, status {line[2][0]}"
    if len(line) > 1 and name != "WrongType":
        return f"{name}: {last_text(line[1])}"
    return name


def lines_of(text: str) -> Iterable[Tuple[int, List[Any]]]:
    """The lines of a print as values, numbered from 1."""
    for number, line in enumerate(text.splitlines(), 1):
        try:
            value = json.loads(line)
        except ValueError:
            raise Unreadable(f"line {number} is no JSON") from None
        if not isinstance(value, list) or not value:
            raise Unreadable(f"line {number} is no line of a print")
        yield number, value


def read_print(text: str) -> Print:
    """Reads a print whole."""
    lines = list(lines_of(text))
    reader = Reader(any(line[0] == "at" for _, line in lines))
    for number, line in lines:
        try:
            reader.read(line)
        except (IndexError, KeyError, TypeError, ValueError):
            raise Unreadable(f"line {number} is no line of a print") from None
    if not reader.calls:
        raise Unreadable("it has no run")
    return Print(reader.has_clock, reader.calls, reader.levels)
