"""A print as a picture of plain text, for a terminal."""
from typing import Iterator, List, Tuple

from .runs import Attempt, Call, Deadline, Level, Print, Sleep, spoken

COLUMNS = 44
NAME = 13
BARS = {"output": "=", "error": "x", "cut": "/", "stopped": "-", "unfinished": "?"}
LEGEND = "= output   x error   / cut by a deadline   . a wait   | a deadline   ^ a hook changed it"


def described_attempt(attempt: Attempt) -> str:
    """What an attempt was, behind its number: status, auth, how it ended, and what was decided."""
    ending = attempt.reason if attempt.ending == "cut" else attempt.ending
    if attempt.ending == "error" and attempt.reason:
        ending = f"error: {attempt.reason}"
    said = f"{attempt.status}, {attempt.auth}, {ending}"
    return f"{said}; {attempt.decided}" if attempt.decided else said


def described_sleep(sleep: Sleep) -> str:
    """How long a wait is, and what its retry costs."""
    verb = "pauses" if sleep.role == "LongPoll" else "waits"
    length = f" {spoken(sleep.nanos)}" if sleep.nanos is not None else ""
    cost = f", for {sleep.cost} tokens" if sleep.cost is not None else ""
    return f"{verb}{length}{cost}" + ("" if sleep.is_over else ", not to its end")


def described_deadline(deadline: Deadline) -> str:
    """Whose deadline it is, how long, and whether it cut."""
    length = f" of {spoken(deadline.nanos)}" if deadline.nanos is not None else ""
    whose = f"attempt {deadline.attempt}'s" if deadline.attempt else "operation's"
    return f"{whose} deadline{length}" + (", which cuts" if deadline.cut else ", not reached")


class Axis:
    """Where a moment lies among the columns."""

    def __init__(self, printed: Print):
        self.begin, self.length = printed.begin(), max(printed.end() - printed.begin(), 1)
        self.has_clock = printed.has_clock

    def column(self, moment: int) -> int:
        return round((moment - self.begin) * (COLUMNS - 1) / self.length)

    def marked(self, begin: int, end: int, mark: str) -> str:
        """A row with this mark from one moment to another, and at least once."""
        first, last = self.column(begin), self.column(end)
        return (" " * first + mark * (last - first + 1)).ljust(COLUMNS)

    def holds(self, moment: int) -> bool:
        return self.begin <= moment <= self.begin + self.length

    def name(self, moment: int) -> str:
        """What a moment is called: a time, or the number of a question."""
        return spoken(moment) if self.has_clock else f"question {moment}"

    def heading(self) -> str:
        first, last = self.name(self.begin), self.name(self.begin + self.length)
        return first + last.rjust(COLUMNS - len(first))


def row(name: str, marks: str, said: str) -> str:
    return f"{name.ljust(NAME)}{marks}  {said}".rstrip()


def rows_of_call(axis: Axis, call: Call) -> Iterator[str]:
    """The call itself, what its hooks changed, its deadline, its attempts and its waits."""
    end = f"{call.answer}; {call.questions} questions"
    yield row(f" call {call.number}", " " * COLUMNS, end)
    for change in call.changes:
        said = f"{change.hook} {change.what}"
        yield row("  hook", axis.marked(change.at, change.at, "^"), said)
    for deadline in call.deadlines:
        if not deadline.attempt:
            yield row_of_deadline(axis, deadline)
    for number, attempt in enumerate(call.attempts, 1):
        yield from rows_of_attempt(axis, call, number, attempt)


def rows_of_attempt(axis: Axis, call: Call, number: int, attempt: Attempt) -> Iterator[str]:
    """An attempt, its deadline where that is known, and the wait behind it."""
    marks = axis.marked(attempt.begin, attempt.end, BARS[attempt.ending])
    yield row(f"  attempt {number}", marks, described_attempt(attempt))
    for deadline in call.deadlines:
        if deadline.attempt == number:
            yield row_of_deadline(axis, deadline)
    for sleep in call.sleeps:
        if sleep.attempts == number:
            yield row("  wait", axis.marked(sleep.begin, sleep.end, "."), described_sleep(sleep))


def row_of_deadline(axis: Axis, deadline: Deadline) -> str:
    """A tick where a deadline passes, if that lies within the picture."""
    within = deadline.at is not None and axis.holds(deadline.at)
    marks = axis.marked(deadline.at, deadline.at, "|") if within else " " * COLUMNS
    return row("  deadline", marks, described_deadline(deadline))


def steps(levels: List[Level]) -> List[Tuple[int, int]]:
    """Each moment at which a bucket has another number of tokens, with that number."""
    found: List[Tuple[int, int]] = []
    for level in levels:
        if not found or found[-1][1] != level.available:
            found.append((level.at, level.available))
    return found


def said_of_bucket(axis: Axis, levels: List[Level]) -> str:
    """The tokens of a bucket from each decision on, in words."""
    changes = (f"{tokens} at {axis.name(moment)}" for moment, tokens in steps(levels))
    return f"{', '.join(changes)}; of {levels[-1].capacity}"


def row_of_bucket(axis: Axis, number: int, levels: List[Level]) -> str:
    """The tokens of a bucket, each number from its moment on. Words behind the row have all."""
    marks = ""
    for moment, tokens in steps(levels):
        marks = marks[: axis.column(moment)].ljust(axis.column(moment), "_" if marks else " ")
        marks += str(tokens)
    return row(f"bucket {number}", marks.ljust(COLUMNS, "_"), said_of_bucket(axis, levels))


def drawn(printed: Print) -> str:
    """The whole picture."""
    axis = Axis(printed)
    rows = [row("", axis.heading(), "")]
    for lane, calls in printed.lanes():
        rows.append(lane)
        for call in calls:
            rows.extend(rows_of_call(axis, call))
    for number, levels in sorted(printed.levels.items()):
        rows.append(row_of_bucket(axis, number, levels))
    return "\n".join([*rows, "", LEGEND, ""])
