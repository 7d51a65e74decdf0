"""A print as a picture in SVG.

The three endings of an attempt differ by fill, border and hatching, so that they can be told apart
in grey, and each bar has its words beside it. A title and a description tell the same to whoever
hears the picture.
"""
from typing import Iterator, List
from xml.sax.saxutils import escape

from . import text
from .runs import Attempt, Call, Deadline, Level, Print, Sleep, spoken

WIDTH = 900
LEFT = 120  # where the line of time begins
RIGHT = 24
SPAN = WIDTH - LEFT - RIGHT
ROW = 34
LETTER = 6.2  # the mean width of a letter at this size
LEVELS = 44  # the height of a bucket's line
TICKS = 6

STYLE = """
    text { font: 11px sans-serif; fill: #1b1b1b; }
    text { paint-order: stroke; stroke: #ffffff; stroke-width: 3px; }
    .ends { text-anchor: end; }
    .lane { font-weight: bold; }
    .output { fill: #d7ead8; stroke: #1f5c28; }
    .error { fill: #8c1d18; stroke: #5f100c; }
    .cut { fill: url(#hatch); stroke: #1b1b1b; }
    .stopped, .unfinished { fill: #ffffff; stroke: #1b1b1b; stroke-dasharray: 2 2; }
    .wait { stroke: #1b1b1b; stroke-dasharray: 5 4; fill: none; }
    .deadline { stroke: #1b1b1b; stroke-width: 2; }
    .hook { fill: #ffffff; stroke: #1b1b1b; }
    .level { fill: none; stroke: #1b1b1b; stroke-width: 1.5; }
    .grid { stroke: #c9c9c9; }
"""
HATCH = (
    '<defs><pattern id="hatch" width="6" height="6" patternUnits="userSpaceOnUse"'
    ' patternTransform="rotate(45)"><rect width="6" height="6" fill="#ffffff"/>'
    '<line x1="0" y1="0" x2="0" y2="6" stroke="#1b1b1b" stroke-width="3"/></pattern></defs>'
)


def nice_step(length: int) -> int:
    """A step of 1, 2 or 5 with noughts behind, of which at most TICKS lie in this length."""
    step = 1
    while length > step * TICKS:
        step = step * 5 // 2 if str(step).startswith("2") else step * 2
    return step


class Picture:
    """Pieces of SVG, from the top down. `y` is where the next row begins."""

    def __init__(self, printed: Print):
        self.printed = printed
        self.axis = text.Axis(printed)
        self.begin, self.length = self.axis.begin, self.axis.length
        self.pieces: List[str] = []
        self.y = 52

    def x(self, moment: int) -> float:
        return round(LEFT + SPAN * (moment - self.begin) / self.length, 1)

    def add(self, piece: str):
        self.pieces.append(piece)

    def write(self, x: float, y: float, words: str, named: str = ""):
        """Words that begin here, or further left where they would pass the right edge."""
        if x + len(words) * LETTER > WIDTH - 8:
            x, named = WIDTH - 8, f"{named} ends".lstrip()
        style = f' class="{named}"' if named else ""
        self.add(f'<text x="{x}" y="{y}"{style}>{escape(words)}</text>')

    def write_beside(self, x: float, y: float, words: str, gap: int):
        """Words behind a mark, or before it where there is no room behind it."""
        if x + gap + len(words) * LETTER <= WIDTH - 8:
            self.write(x + gap, y, words)
        else:
            self.add(f'<text x="{x - gap}" y="{y}" class="ends">{escape(words)}</text>')

    def add_line(self, named: str, x1: float, y1: float, x2: float, y2: float):
        self.add(f'<line class="{named}" x1="{x1}" y1="{y1}" x2="{x2}" y2="{y2}"/>')

    def add_bar(self, named: str, x: float, y: float, width: float, title: str):
        """A bar, with words that are shown where it is pointed at."""
        self.add(
            f'<rect class="{named}" x="{x}" y="{y}" width="{max(width, 6)}" height="13" rx="2">'
            f"<title>{escape(title)}</title></rect>"
        )

    def add_diamond(self, x: float, y: float):
        self.add(f'<path class="hook" d="M{x} {y - 5}l5 5l-5 5l-5 -5z"/>')

    def add_call(self, call: Call):
        """A call's heading, what its hooks changed, its deadline, its attempts and waits."""
        self.write(8, self.y + 12, f"call {call.number}")
        self.write(LEFT, self.y + 12, f"{call.answer}; {call.questions} questions")
        self.y += 20
        for change in call.changes:
            self.add_diamond(self.x(change.at), self.y + 8)
            said = f"{change.hook} {change.what}"
            self.write_beside(self.x(change.at), self.y + 12, said, 9)
            self.y += 20
        for deadline in call.deadlines:
            if not deadline.attempt:
                self.add_deadline(deadline)
        for number, attempt in enumerate(call.attempts, 1):
            self.add_attempt(call, number, attempt)
        self.y += 6

    def add_attempt(self, call: Call, number: int, attempt: Attempt):
        """A bar with its words above it, its deadline, and the wait behind it."""
        begin, end = self.x(attempt.begin), self.x(attempt.end)
        said = text.described_attempt(attempt)
        self.write(20, self.y + 25, f"attempt {number}")
        self.write(begin, self.y + 11, said)
        self.add_bar(attempt.ending, begin, self.y + 15, end - begin, f"attempt {number}: {said}")
        self.y += ROW
        for deadline in call.deadlines:
            if deadline.attempt == number:
                self.add_deadline(deadline)
        for sleep in call.sleeps:
            if sleep.attempts == number:
                self.add_sleep(sleep)

    def add_sleep(self, sleep: Sleep):
        """A dashed line with its words above it."""
        begin, end = self.x(sleep.begin), self.x(sleep.end)
        self.write(begin, self.y + 11, text.described_sleep(sleep))
        self.write(20, self.y + 20, "wait")
        self.add_line("wait", begin, self.y + 17, max(end, begin + 6), self.y + 17)
        self.y += 26

    def add_deadline(self, deadline: Deadline):
        """A tick where it passes, if that lies within the picture."""
        said = text.described_deadline(deadline)
        within = deadline.at is not None and self.axis.holds(deadline.at)
        x = self.x(deadline.at) if within else LEFT
        if within:
            self.add_line("deadline", x, self.y, x, self.y + 14)
        self.write(20, self.y + 12, "deadline")
        self.write_beside(x, self.y + 12, said, 5)
        self.y += 20

    def add_bucket(self, number: int, levels: List[Level]):
        """A line that steps where a decision leaves another number of tokens. The numbers at its
        left are the least and the most that the bucket had."""
        steps = text.steps(levels)
        least, most = min(tokens for _, tokens in steps), max(tokens for _, tokens in steps)
        top, bottom = self.y + 20, self.y + 20 + LEVELS
        path = ""
        for moment, tokens in steps:
            y = round(bottom - LEVELS * (tokens - least) / max(most - least, 1), 1)
            path += f"H{self.x(moment)}V{y}" if path else f"M{self.x(moment)} {y}"
        self.write(8, self.y + 12, f"bucket {number}", "lane")
        self.write(LEFT, self.y + 12, f"tokens: {text.said_of_bucket(self.axis, levels)}")
        for tokens, y in ((most, top), (least, bottom)):
            self.add_line("grid", LEFT, y, WIDTH - RIGHT, y)
            self.add(f'<text class="ends" x="{LEFT - 6}" y="{y + 4}">{tokens}</text>')
        self.add(f'<path class="level" d="{path}H{WIDTH - RIGHT}"/>')
        self.y = bottom + 10

    def add_axis(self, top: int):
        """The line of time below all rows, with a faint line up from each of its numbers."""
        step = nice_step(self.length)
        first = -(-self.begin // step) * step
        for moment in range(first, self.begin + self.length + 1, step):
            x = self.x(moment)
            line = f'<line class="grid" x1="{x}" y1="{top}" x2="{x}" y2="{self.y}"/>'
            self.pieces.insert(0, line)
            name = spoken(moment) if self.printed.has_clock else str(moment)
            self.write(x, self.y + 14, name)
        self.write(8, self.y + 14, "time" if self.printed.has_clock else "question")
        self.y += 26

    def add_legend(self):
        """What each form means."""
        x = LEFT
        for ending, words in (("output", "output"), ("error", "error"), ("cut", "cut")):
            self.add_bar(ending, x, self.y, 22, f"attempt that ended so: {words}")
            self.write(x + 28, self.y + 11, words)
            x += 44 + len(words) * 7
        self.add_line("wait", x, self.y + 7, x + 26, self.y + 7)
        self.write(x + 32, self.y + 11, "wait")
        self.add_line("deadline", x + 80, self.y, x + 80, self.y + 14)
        self.write(x + 87, self.y + 11, "deadline")
        self.add_diamond(x + 156, self.y + 7)
        self.write(x + 166, self.y + 11, "a hook changed something")
        self.write(8, self.y + 11, "legend")
        self.y += 26


def described(printed: Print) -> Iterator[str]:
    """The picture in sentences, for whoever hears it."""
    for lane, calls in printed.lanes():
        for call in calls:
            yield f"{lane.capitalize()}, call {call.number}: {call.answer}."
            for number, attempt in enumerate(call.attempts, 1):
                yield f"Attempt {number}: {text.described_attempt(attempt)}."
                for sleep in call.sleeps:
                    if sleep.attempts == number:
                        yield f"It {text.described_sleep(sleep)}."


def counted(count: int, name: str) -> str:
    return f"{count} {name}" if count == 1 else f"{count} {name}s"


def title(printed: Print) -> str:
    """How much there is to see, and along what."""
    attempts = sum(len(call.attempts) for call in printed.calls)
    axis = "time" if printed.has_clock else "their questions"
    return f"{counted(len(printed.calls), 'call')} and {counted(attempts, 'attempt')}, along {axis}"


def drawn(printed: Print) -> str:
    """The whole picture."""
    picture = Picture(printed)
    picture.write(8, 24, title(printed), "lane")
    for lane, calls in printed.lanes():
        picture.write(8, picture.y, lane, "lane")
        picture.y += 6
        for call in calls:
            picture.add_call(call)
        picture.y += 16
    for number, levels in sorted(printed.levels.items()):
        picture.add_bucket(number, levels)
    picture.add_axis(36)
    picture.add_legend()
    head = (
        f'<svg xmlns="http://www.w3.org/2000/svg" role="img" aria-labelledby="title description"'
        f' width="{WIDTH}" height="{picture.y}" viewBox="0 0 {WIDTH} {picture.y}">'
    )
    parts = [
        head,
        f'<title id="title">{escape(title(printed))}</title>',
        f'<desc id="description">{escape(" ".join(described(printed)))}</desc>',
        f"<style>{STYLE}</style>",
        HATCH,
        f'<rect width="{WIDTH}" height="{picture.y}" fill="#ffffff"/>',
        *picture.pieces,
        "</svg>",
    ]
    return "\n".join(parts) + "\n"
